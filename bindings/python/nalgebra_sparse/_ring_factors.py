"""Factors modulo a prime, with the calls over arrays."""
from __future__ import annotations

from typing import Any, Optional

import numpy as np
import scipy.sparse as sp

from ._calls import call
from ._errors import error_of
from ._factorisation import Factorisation
from ._matrices import assemble_csc
from ._operands import Integers, dense_of
from ._systems import factored, solve_lower

# The statuses of an order with another length than the matrix has rows, with a number that is too large, and with one
# that occurs twice.
_WRONG_LENGTH, _OUT_OF_BOUNDS, _REPEATED = 2, 3, 4


def permuted(matrix: sp.csr_array, order: Optional[Integers]) -> sp.csc_array:
    """Returns the entries on and above the diagonal of P A P^T by columns, where P takes rows and columns in an order, and A
    is the symmetric matrix with the entries of a matrix on and above the diagonal. Without an order, returns the matrix
    itself by columns.

    Entries with the value 0 are kept: they are places of the factors. SciPy's sums would drop them.
    """
    if order is None:
        return matrix.tocsc()
    entries, at = matrix.tocoo(), np.empty(order.size, np.int64)
    at[order] = np.arange(order.size)
    of_upper = entries.row <= entries.col
    i, j = at[entries.row[of_upper]], at[entries.col[of_upper]]
    return sp.csc_array(assemble_csc(matrix.shape, np.minimum(i, j), np.maximum(i, j), entries.data[of_upper]))


def _check_order(order: Integers, size: int) -> None:
    """Raises the error of the library unless the order is a permutation of the numbers below a size."""
    if order.size != size:
        raise error_of(_WRONG_LENGTH, "matrix_factor_in_order")
    wrong = (order < 0) | (order >= size)
    _, first = np.unique(order, return_index=True)
    again = np.ones(size, bool)
    again[first] = False
    places = np.flatnonzero(wrong | again)
    if places.size:
        raise error_of(_OUT_OF_BOUNDS if wrong[places[0]] else _REPEATED, "matrix_factor_in_order")


class RingFactorisation(Factorisation):
    """The exact factors L D L^T of a symmetric matrix modulo a prime: `Exact.factor` returns it for a matrix with a
    modulus. It is a `Factorisation` whose L and D are arrays of Python, and each solve makes three calls.

    >>> import numpy as np, scipy.sparse as sp
    >>> from nalgebra_sparse import Exact
    >>> factors = Exact.from_scipy(sp.csr_array(np.array([[2, 1], [1, 3]])), modulus=7).factor()
    >>> factors, factors.modulus
    (<Factorisation: 2 by 2, modulo 7>, 7)
    >>> factors.L.toarray().tolist(), factors.D.tolist(), factors.solve(np.array([8, 19])).tolist()
    ([[1, 0], [4, 1]], [2, 6], [1, 6])
    """

    __slots__ = ("_lower", "_diagonal", "_order", "_modulus")

    _lower: sp.csc_array
    _diagonal: Integers
    _order: Optional[Integers]
    _modulus: int

    @classmethod
    def _of(cls, matrix: sp.csr_array, order: Optional[Integers], modulus: int) -> RingFactorisation:
        """Returns the factors of the symmetric matrix with the entries of a matrix on and above the diagonal."""
        self = object.__new__(cls)
        self._size, self._modulus = matrix.shape[0], modulus
        if order is not None:
            _check_order(order, self._size)
        self._order = None if order is None else np.array(order, np.int64)
        self._lower, self._diagonal = factored(permuted(matrix, self._order), modulus)
        return self

    def __copy__(self) -> RingFactorisation:
        # The factors are immutable, so copies are the same object.
        return self

    def __reduce__(self) -> Any:
        raise TypeError("a Factorisation cannot be pickled: pickle the matrix, and factor it again")

    def _parts(self) -> tuple[tuple[Integers, Integers, Integers], Integers]:
        lower = self._lower.copy()
        return (lower.data, lower.indices, lower.indptr), self._diagonal.copy()

    @property
    def modulus(self) -> int:
        """The prime."""
        return self._modulus

    @property
    def order(self) -> Integers:
        """A copy of the order of the rows and columns in which the matrix was factored, as a NumPy array."""
        return np.arange(self._size) if self._order is None else self._order.copy()

    def __repr__(self) -> str:
        return f"<Factorisation: {self._size} by {self._size}, modulo {self._modulus}>"

    def solve(self, b: Integers) -> Integers:
        """Returns the X for which A X = b, where A is the matrix that was factored. A vector is one column."""
        dense_of("b", b, self._size)
        right = np.asarray(b) if self._order is None else np.asarray(b)[self._order]
        own = np.arange(self._size + 1)
        # A diagonal matrix is a lower triangle, so a solve divides by D.
        diagonal = sp.csc_array((self._diagonal, own[:-1], own), (self._size, self._size))
        below = solve_lower(self._lower, right, modulus=self._modulus)
        divided = solve_lower(diagonal, below, modulus=self._modulus)
        found = solve_lower(self._lower, divided, transposed=True, modulus=self._modulus)
        if self._order is None:
            return found
        x = np.empty_like(found)
        x[self._order] = found
        return x
