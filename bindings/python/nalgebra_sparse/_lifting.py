"""The digits of the solution of a system of integers, in base of a prime (J. D. Dixon 1982)."""
from __future__ import annotations

import contextlib
import math
from typing import Any, Iterator

import numpy as np
import scipy.sparse as sp

from ._errors import Error, Singular
from ._matrices import matmul, multiply_dense
from ._operands import Integers, integer
from ._systems import factored, solve_lower

# The greatest sum of absolute values in a row. A residual then fits in 64 bits.
_MOST_IN_A_ROW = 2**62


def _factors(rows: sp.csr_matrix, turned: sp.csr_matrix, symmetric: bool, modulus: int) -> tuple[Any, Integers, Any]:
    """Returns the factors L and D of A modulo a prime, and None; or those of A^T A, and A^T: if A is not symmetric, or
    has no factorisation. `Singular` says that A^T A has none."""
    if symmetric:
        with contextlib.suppress(Singular):
            # The arrays of a symmetric matrix by rows are those by columns.
            return (*factored(rows.T, modulus), None)
    return (*factored(matmul(turned, rows, modulus).T, modulus), turned)


class Solver:
    """Solves A X = B modulo a prime, with the factors of A, or with those of A^T A, where X solves A^T A X = A^T B."""

    def __init__(self, rows: sp.csr_matrix, turned: sp.csr_matrix, symmetric: bool, modulus: int) -> None:
        self.modulus = modulus
        self.lower, diagonal, self.left = _factors(rows, turned, symmetric, modulus)
        # A diagonal matrix is a lower triangle, so a solve divides by D.
        own = np.arange(diagonal.size + 1)
        self.diagonal = sp.csc_matrix((diagonal, own[:-1], own), (diagonal.size, diagonal.size))

    def solve(self, b: Integers) -> Integers:
        """Returns X. B is an array of integers with two dimensions."""
        right = b if self.left is None else multiply_dense(self.left, b, self.modulus)
        below = solve_lower(self.lower, right, modulus=self.modulus)
        divided = solve_lower(self.diagonal, below, modulus=self.modulus)
        return solve_lower(self.lower, divided, transposed=True, modulus=self.modulus)


class Lifting:
    """A system of integers A X = B, and the digits of its solution that are known. A and its transpose are by rows."""

    def __init__(self, rows: sp.csr_matrix, turned: sp.csr_matrix, symmetric: bool, b: Integers, modulus: int) -> None:
        self.modulus = integer("modulus", modulus)
        if self.modulus == 2:
            raise Error("modulus must be odd: the residuals are divided by it modulo 2^64")
        self.solver = Solver(rows, turned, symmetric, self.modulus)
        _check_rows(rows)
        self.rows, self.turned, self.right = rows, turned, b
        self.residual = b
        self.digits: list[Integers] = []

    def most_steps(self) -> int:
        """Returns a number of steps that is enough.

        By Cramer's rule and Hadamard's bound, numerators and denominators are at most the product of the columns'
        lengths, each at least 1, times the length of a right-hand side. Fractions with numerators and denominators up
        to B are determined modulo any number above 2 B^2.
        """
        bound = math.prod(_length(column) for column in _lanes_of(self.turned))
        bound *= max([1, *(_length(column) for column in self.right.T.tolist())])
        return max(1, -(-(2 * bound * bound).bit_length() // (self.modulus.bit_length() - 1)))

    def lifted(self, steps: int) -> list[int]:
        """Returns the solution modulo the modulus to this power, column by column."""
        while len(self.digits) < steps:
            self._lift()
        numbers = [0] * self.right.size
        for digit in reversed(self.digits):
            numbers = [number * self.modulus + more for number, more in zip(numbers, digit.reshape(-1, order="F").tolist())]
        return numbers

    def _lift(self) -> None:
        """Adds a digit: the solution of the residual modulo the prime. The next residual is (residual - A digit) /
        modulus."""
        digit = self.solver.solve(self.residual)
        # The quotient is an integer of 64 bits, so it is found modulo 2^64, where the modulus has an inverse.
        inverse = np.array(pow(self.modulus, -1, 2**64), np.uint64).astype(np.int64)
        self.residual = (self.residual - multiply_dense(self.rows, digit)) * inverse
        self.digits.append(digit)


def _lanes_of(matrix: sp.csr_matrix) -> Iterator[list[int]]:
    """Yields the values of each row."""
    values, offsets = matrix.data.tolist(), matrix.indptr.tolist()
    for start, end in zip(offsets, offsets[1:]):
        yield values[start:end]


def _check_rows(matrix: sp.csr_matrix) -> None:
    for i, row in enumerate(_lanes_of(matrix)):
        if sum(map(abs, row)) >= _MOST_IN_A_ROW:
            raise Error(f"the absolute values in row {i} of the matrix add up to 2^62 or more")


def _length(vector: list[int]) -> int:
    """Returns a number that is at least 1 and at least the Euclidean length of a vector."""
    return math.isqrt(sum(value * value for value in vector)) + 1
