"""Exact rational solutions of systems of integers.

This is Python over the calls of the library: factors, solves and products modulo a prime, and products modulo 2^64, are
proved; the Python code is tested. A solution is returned only after A x = b was tested over the integers, for the given
A and b and the returned x. So a mistake before that test leads to an error, and not to a wrong solution.
"""
from __future__ import annotations

import contextlib
from fractions import Fraction
from typing import Any, Iterator, Optional

import numpy as np
import scipy.sparse as sp

from . import MODULI
from ._errors import Error, InvalidStructure, Singular
from ._fractions import fractions, over_one_denominator
from ._lifting import Lifting
from ._matrices import assemble_csr, subtract, transpose
from ._operands import Integers, Matrix, dense_of, flag, lanes_of, sorted_arrays
from ._results import matrix_of


# The primes that are tried if none is given: the three largest, since a larger one needs fewer steps.
_PRIMES = MODULI[:-4:-1]


def solve_rational(matrix: Matrix, b: Integers, modulus: Optional[int] = None, assume_symmetric: bool = False) -> Any:
    """Returns the rational X for which A X = b, as an array of `fractions.Fraction` in the shape of b.

    A is a square matrix of integers by rows or by columns, which don't wrap here. With `assume_symmetric=True` there is
    no test whether it is symmetric, and A has the entries of the matrix on and above the diagonal.

    The absolute values in a row of A must add up to less than 2^62. A is factored once as L D L^T modulo a prime: an
    odd one of `MODULI` if it is given, and otherwise the first of the three largest for which there are factors. Each
    further step adds a digit in base of the prime to the solution (J. D. Dixon 1982), until fractions with these digits
    solve the system. Where A is not symmetric, or has no such factors, A^T A is factored, which has more entries, and b
    is multiplied by A^T. A solution was tested over the integers, and it is the only one. `Singular` says that A is
    singular, or that A^T A has no factors modulo these primes.

    Each step costs three solves and one or two products. The number of steps that are needed is the number of digits of
    numerators and denominators, and up to twice as many are made.

    >>> import numpy as np, scipy.sparse as sp
    >>> a = sp.csc_matrix(np.array([[2, 1], [1, 3]]))
    >>> [str(x) for x in solve_rational(a, np.array([1, 1]))]
    ['2/5', '1/5']
    >>> [str(x) for x in solve_rational(sp.csr_matrix(np.array([[0, 3], [2, 1]])), np.array([1, 1]))]
    ['1/3', '1/3']
    """
    rows, turned, symmetric = _by_rows(matrix, flag("assume_symmetric", assume_symmetric))
    values, cols = dense_of("b", b, rows.shape[0])
    right = values.reshape((rows.shape[0], cols), order="F")
    lifting = _begun((rows, turned, symmetric, right), _PRIMES if modulus is None else (modulus,))
    most = lifting.most_steps()
    for steps in _doubled(most):
        found = fractions(lifting.lifted(steps), lifting.modulus**steps)
        if found is not None:
            solution = _shaped(*found, b.shape)
            if _solves(matrix, solution, b, assume_symmetric):
                return solution
    raise Error(f"no fraction with {most} digits in base {lifting.modulus} solves the system: the library is at fault")


def _begun(system: tuple[Any, ...], primes: tuple[int, ...]) -> Lifting:
    """Returns the system with its factors modulo the first of these primes for which there are some."""
    for prime in primes:
        with contextlib.suppress(Singular):
            return Lifting(*system, prime)
    listed = ", ".join(map(str, primes))
    raise Singular(f"A^T A has no factorisation L D L^T modulo {listed}: the matrix is singular, or modulus= must be another prime of MODULI")


def _by_rows(matrix: Matrix, assumed: bool) -> tuple[sp.csr_matrix, sp.csr_matrix, bool]:
    """Returns A and its transpose by rows, and whether A is symmetric."""
    lanes = lanes_of("matrix", matrix, "csr", "csc")
    if lanes.shape[0] != lanes.shape[1]:
        raise Error(f"matrix must be square, not {lanes.shape[0]} by {lanes.shape[1]}")
    try:
        given, turned = _turned(lanes.arrays, lanes.shape)
    except InvalidStructure:
        # If the order of indices is not what is wrong, this raises the same error.
        given, turned = _turned(sorted_arrays(lanes), lanes.shape)
    rows, columns = (given, turned) if matrix.format == "csr" else (turned, given)
    if assumed:
        mirrored = _mirrored(rows)
        return mirrored, mirrored, True
    return rows, columns, not subtract(given, turned).data.any()


def _turned(arrays: tuple[Integers, Integers, Integers], shape: tuple[int, int]) -> tuple[sp.csr_matrix, sp.csr_matrix]:
    """Returns the matrix with these arrays by rows, which are those of a transpose by columns, and its transpose."""
    offsets, indices, values = arrays
    given = matrix_of(sp.csr_matrix, (values, indices, offsets), shape, wide=True)
    return given, transpose(given)


def _mirrored(rows: sp.csr_matrix) -> sp.csr_matrix:
    """Returns the symmetric matrix with the entries of a matrix by rows on and above its diagonal."""
    upper = rows.tocoo()
    of_upper = upper.row <= upper.col
    i, j, values = upper.row[of_upper], upper.col[of_upper], upper.data[of_upper]
    beside = i != j
    mirrored = (np.concatenate([i, j[beside]]), np.concatenate([j, i[beside]]), np.concatenate([values, values[beside]]))
    return assemble_csr(rows.shape, *mirrored)


def _doubled(most: int) -> Iterator[int]:
    """Yields 1, 2, 4 and so on below a number, and then the number itself."""
    steps = 1
    while steps < most:
        yield steps
        steps *= 2
    yield most


def _shaped(numerators: list[int], denominator: int, shape: tuple[int, ...]) -> Any:
    """Returns an array of fractions in the shape of the right-hand sides."""
    solution = np.empty(len(numerators), object)
    solution[:] = [Fraction(numerator, denominator) for numerator in numerators]
    return solution.reshape(shape, order="F")


def _solves(matrix: Matrix, solution: Any, b: Integers, mirror: bool) -> bool:
    """Says whether A x = b for each column, over the integers. A and b are read here as they were given."""
    if solution.shape != b.shape:
        return False
    entries = list(_entries_of(matrix))
    columns, rights = ([solution], [b]) if b.ndim == 1 else (solution.T, b.T)
    for column, right in zip(columns, rights):
        numerators, denominator = over_one_denominator(column.tolist())
        if _times(entries, numerators, mirror) != [value * denominator for value in right.tolist()]:
            return False
    return True


def _entries_of(matrix: Matrix) -> Iterator[tuple[int, int, int]]:
    """Yields the row, the column and the value of each entry."""
    offsets, indices, values = matrix.indptr.tolist(), matrix.indices.tolist(), matrix.data.tolist()
    for lane, (start, end) in enumerate(zip(offsets, offsets[1:])):
        for index, value in zip(indices[start:end], values[start:end]):
            yield (lane, index, value) if matrix.format == "csr" else (index, lane, value)


def _times(entries: list[tuple[int, int, int]], x: list[int], mirror: bool) -> list[int]:
    """Returns the product of a matrix, given by its entries, and x; or of its part on and above the diagonal,
    mirrored."""
    sums = [0] * len(x)
    for i, j, value in entries:
        if not mirror or i <= j:
            sums[i] += value * x[j]
        if mirror and i < j:
            sums[j] += value * x[i]
    return sums
