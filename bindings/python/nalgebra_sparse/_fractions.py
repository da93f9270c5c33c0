"""Fractions from their residues modulo a power of a prime."""
from __future__ import annotations

import math
from fractions import Fraction
from typing import Optional


def fractions(numbers: list[int], modulus: int) -> Optional[tuple[list[int], int]]:
    """Returns numerators and a common denominator that are these numbers modulo the modulus, if small ones are found.

    The denominator that is known so far is multiplied into the next number, which then is most often a small integer.
    """
    most = math.isqrt(modulus // 2)
    parts, denominator = [], 1
    for number in numbers:
        found = _fraction(number * denominator % modulus, modulus, most)
        if found is None or found[1] * denominator > most:
            return None
        denominator *= found[1]
        parts.append((found[0], denominator))
    return [numerator * (denominator // own) for numerator, own in parts], denominator


def _fraction(number: int, modulus: int, most: int) -> Optional[tuple[int, int]]:
    """Returns n and d with n = number d modulo the modulus, |n| <= most and 0 < d <= most, in lowest terms, or None if
    there are none.

    Euclid's algorithm stopped halfway (Wang 1981).
    """
    if number > modulus - number:
        number -= modulus
    if abs(number) <= most:
        return number, 1
    above, below = (modulus, 0), (number % modulus, 1)
    while below[0] > most:
        quotient = above[0] // below[0]
        above, below = below, (above[0] - quotient * below[0], above[1] - quotient * below[1])
    numerator, denominator = below if below[1] > 0 else (-below[0], -below[1])
    if denominator > most or math.gcd(numerator, denominator) != 1:
        return None
    return numerator, denominator


def over_one_denominator(numbers: list[Fraction]) -> tuple[list[int], int]:
    """Returns numerators and a common denominator of fractions."""
    denominator = 1
    for number in numbers:
        denominator *= number.denominator // math.gcd(denominator, number.denominator)
    return [number.numerator * (denominator // number.denominator) for number in numbers], denominator
