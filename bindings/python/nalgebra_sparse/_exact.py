"""Matrices that the library owns: operators, entries and solves."""
from __future__ import annotations

from typing import Any, Sequence, Union

import numpy as np
import scipy.sparse as sp

from ._calls import call
from ._errors import Error, Singular, singular_at
from ._factorisation import Factorisation, solved
from ._matrices import _value
from ._operands import ORDERS, Integers, check_symmetric, dense_of, flag, inside, integer, order_of
from ._owned import Owned
from ._results import empty
from ._ring_factors import RingFactorisation, permuted
from ._systems import singular_column, solve_lower

# An order of rows and columns: a word, or a permutation.
Order = Union[str, Integers, Sequence[int]]


class Exact(Owned):
    """A matrix of integers modulo 2^64, or modulo a prime, that the library owns. It is immutable.

    Its arrays are checked once, when it is created from a SciPy matrix or from triplets. The operators `+`, `-`, `*` by
    an integer, `@` and `**`, and `T`, return new matrices and copy no operand. One operand of `+`, `-` and `@` may be a
    SciPy matrix by rows or by columns, whose arrays are checked and copied, and one of `@` a NumPy array, a vector or a
    matrix, which is copied: then the result is one too. `solve_lower`, `solve_upper` and `factor` copy the matrix.

    `==` says whether two matrices have the same entries. The other operand may be a SciPy matrix on the right alone:
    with one on the left, SciPy answers, and says False.

    With a `modulus`, which is one of `MODULI`, a matrix computes modulo this prime: an integer means its residue, and
    the values of results are from 0 to `modulus` - 1. Operands with different moduli are refused with `RingMismatch`; a
    SciPy matrix takes the modulus of the other operand. Modulo a prime each operation copies its operands.

    The matrix is freed with the object, and several threads may use it at once. Copies share the matrix, and a pickle
    has its arrays.

    >>> import numpy as np, scipy.sparse as sp
    >>> a = Exact.from_scipy(sp.csr_matrix(np.array([[1, 2], [0, 3]])))
    >>> b = 2 * (a @ a) - a.T
    >>> b
    <Exact: 2 by 2 with 4 stored entries, modulo 2^64>
    >>> b.toarray().tolist()
    [[1, 16], [-2, 15]]
    >>> (a @ np.array([5, 7])).tolist(), a[0, 1].item(), a**2 == a @ a
    ([19, 21], 2, True)
    >>> c = Exact.from_scipy(sp.csr_matrix(np.array([[2, 1], [1, 3]])), modulus=7)
    >>> (c @ c).toarray().tolist(), c.solve(np.array([8, 19])).tolist()
    ([[5, 5], [5, 3]], [1, 6])
    """

    __slots__ = ()

    # The operators of NumPy and of SciPy leave an `Exact` on their right to this class.
    __array_ufunc__ = None
    __array_priority__ = 1000.0

    # Without this, Python would look for the items 0, 1 and so on.
    __iter__ = None

    def _fits(self, other: Exact) -> None:
        self._same_ring(other)
        if self._shape != other._shape:
            raise Error(f"the shapes {self._shape} and {other._shape} differ")

    def _plus(self, other: Exact) -> Exact:
        self._fits(other)
        return self._and("add", other)

    def _minus(self, other: Exact) -> Exact:
        self._fits(other)
        return self._and("subtract", other)

    def _times(self, other: Exact) -> Exact:
        self._same_ring(other)
        if self._shape[1] != other._shape[0]:
            raise Error(f"the shapes {self._shape} and {other._shape} do not fit: the inner sizes differ")
        return self._and("multiply", other)

    def _times_dense(self, b: Integers) -> Integers:
        rows, inner = self._shape
        values, cols = dense_of("the operand of @", b, inner)
        product = empty(rows * cols)
        with self._own() as a:
            call(self._call("multiply_dense"), a, cols, values, product)
        return product.reshape((rows, *b.shape[1:]), order="F")

    def __add__(self, other: Any) -> Exact:
        operand = self._operand(other)
        return NotImplemented if operand is None else self._plus(operand)

    def __radd__(self, other: Any) -> Exact:
        operand = self._operand(other)
        return NotImplemented if operand is None else operand._plus(self)

    def __sub__(self, other: Any) -> Exact:
        operand = self._operand(other)
        return NotImplemented if operand is None else self._minus(operand)

    def __rsub__(self, other: Any) -> Exact:
        operand = self._operand(other)
        return NotImplemented if operand is None else operand._minus(self)

    def __matmul__(self, other: Any) -> Any:
        if isinstance(other, np.ndarray):
            return self._times_dense(other)
        operand = self._operand(other)
        return NotImplemented if operand is None else self._times(operand)

    def __rmatmul__(self, other: Any) -> Any:
        if isinstance(other, np.ndarray):
            return self.transpose()._times_dense(other.T).T
        operand = self._operand(other)
        return NotImplemented if operand is None else operand._times(self)

    def __neg__(self) -> Exact:
        return self._with("scale", -1)

    def _scalar(self, name: str, number: Any) -> int:
        """Returns an integer that a call takes: one of 64 bits, or the residue of any integer modulo the prime."""
        return _value(name, number) if self._modulus is None else integer(name, number) % self._modulus

    def __mul__(self, factor: Any) -> Exact:
        if sp.issparse(factor) or isinstance(factor, Exact):
            # Otherwise SciPy would treat this object as a number.
            raise TypeError("`*` takes an integer: the product of two matrices is `@`")
        if isinstance(factor, (bool, np.bool_)) or not isinstance(factor, (int, np.integer)):
            return NotImplemented
        return self._with("scale", self._scalar("factor", factor))

    __rmul__ = __mul__

    def __pow__(self, exponent: Any) -> Exact:
        if isinstance(exponent, (bool, np.bool_)) or not isinstance(exponent, (int, np.integer)):
            return NotImplemented
        size = self._square()
        if exponent < 0:
            raise Error(f"the exponent of a matrix must not be negative, as {exponent} is")
        if exponent == 0:
            diagonal = np.arange(size)
            return Exact.from_triplets((size, size), diagonal, diagonal, np.ones(size, np.int64), self._modulus)
        power = self
        # The digits after the first one: each doubles the exponent, and a 1 adds one to it.
        for digit in f"{int(exponent):b}"[1:]:
            power = power._times(power)
            if digit == "1":
                power = power._times(self)
        return power

    def add_scaled(self, alpha: int, other: Exact, beta: int) -> Exact:
        """Returns the sum `alpha * self + beta * other`, on the union of the patterns.

        >>> import numpy as np, scipy.sparse as sp
        >>> a = Exact.from_scipy(sp.csr_array(np.array([[1, 2]])))
        >>> a.add_scaled(3, a, -1).toarray().tolist()
        [[2, 4]]
        """
        if not isinstance(other, Exact):
            raise TypeError(f"other must be an Exact, not {type(other).__name__}")
        self._fits(other)
        return self._and("add_scaled", other, self._scalar("alpha", alpha), self._scalar("beta", beta))

    def getrow(self, i: int) -> Exact:
        """Returns the row i as a matrix with one row. A negative i counts from the end.

        It is the product with a row that has a 1 in the column i, so its time does not depend on the other rows.

        >>> import numpy as np, scipy.sparse as sp
        >>> Exact.from_scipy(sp.csr_array(np.array([[1, 2], [0, 7]]))).getrow(1).toarray().tolist()
        [[0, 7]]
        """
        rows = self._shape[0]
        row, none, one = np.array([inside(i, rows)]), np.zeros(1, np.int64), np.ones(1, np.int64)
        return Exact.from_triplets((1, rows), none, row, one, self._modulus)._times(self)

    def __getitem__(self, key: Any) -> np.int64:
        if not isinstance(key, tuple) or len(key) != 2 or any(isinstance(index, slice) for index in key):
            raise IndexError("an Exact has its values as a[i, j] and its rows as getrow(i): call tocsr() for other parts")
        row, j = self.getrow(key[0]).arrays(), inside(key[1], self._shape[1])
        at = np.searchsorted(row[1], j)
        return row[2][at] if at < row[1].size and row[1][at] == j else np.int64(0)

    def _square(self) -> int:
        rows, cols = self._shape
        if rows != cols:
            raise Error(f"the matrix must be square, not {rows} by {cols}")
        return rows

    def solve_lower(self, b: Integers, transposed: bool = False) -> Integers:
        """Returns the X for which L X = b, or L^T X = b, where L is the part of the matrix on and below its diagonal.

        >>> import numpy as np, scipy.sparse as sp
        >>> a = Exact.from_scipy(sp.csr_array(np.array([[1, 4], [2, 3]])))
        >>> a.solve_lower(np.array([5, 16])).tolist()
        [5, 2]
        >>> a.solve_lower(np.array([9, 6]), transposed=True).tolist()
        [5, 2]
        """
        turned, size = flag("transposed", transposed), self._square()
        if self._modulus is not None:
            return solve_lower(self.tocsc(), b, turned, self._modulus)
        with self._own() as a:
            return solved("matrix_solve_lower", b, size, a, turned)

    def solve_upper(self, b: Integers, transposed: bool = False) -> Integers:
        """Returns the X for which U X = b, or U^T X = b, where U is the part of the matrix on and above its diagonal.

        >>> import numpy as np, scipy.sparse as sp
        >>> a = Exact.from_scipy(sp.csr_array(np.array([[1, 4], [2, 3]])))
        >>> a.solve_upper(np.array([13, 6])).tolist()
        [5, 2]
        """
        turned, size = flag("transposed", transposed), self._square()
        if self._modulus is not None:
            # The upper triangle is the transpose of the lower triangle of the transpose, whose columns are the rows.
            return solve_lower(self.tocsr().T, b, not turned, self._modulus)
        with self._own() as a:
            return solved("matrix_solve_upper", b, size, a, turned)

    def order(self, word: str) -> Integers:
        """Returns an order of the rows and columns of the matrix, as a NumPy array: the number at k, from 0, says which
        row and column comes at k.

        "amd" is the approximate minimum degree order, in which the factors have little fill; "rcm" is the reverse
        Cuthill-McKee order, in which the entries are close to the diagonal; "natural" is the order of the matrix. The
        pattern is read as the union of itself and its transpose.

        >>> import numpy as np, scipy.sparse as sp
        >>> arrow = Exact.from_scipy(sp.csr_array(np.array([[3, 2, 2], [2, 1, 0], [2, 0, 1]])))
        >>> arrow.order("amd")[-1].item(), arrow.order("natural").tolist()
        (0, [0, 1, 2])
        """
        size = self._square()
        if not isinstance(word, str) or word not in ORDERS:
            raise Error(f"the order must be one of {', '.join(map(repr, ORDERS))}, not {word!r}")
        name = ORDERS[word]
        if name is None:
            return np.arange(size)
        if self._modulus is not None:
            # An order depends on the pattern alone.
            return Exact.from_scipy(self.tocsr()).order(word)
        order = empty(size)
        with self._own() as a:
            call(name, a, order)
        return order

    def factor(self, assume_symmetric: bool = False, order: Order = "natural") -> Factorisation:
        """Returns the exact factors L D L^T of the matrix, which must be symmetric.

        If the matrix is not symmetric, an `Error` is raised; the test computes its transpose and a difference. With
        `assume_symmetric=True` there is no test, and the factors are those of the symmetric matrix with the entries of
        this one on and above the diagonal.

        The factors exist if each pivot has an inverse. Modulo 2^64 that are the odd numbers, so there are seldom factors;
        modulo a prime it is every number but 0. `Singular` says that there are none, and its `column` is the index of the
        column whose pivot has no inverse. `solve_rational` solves over the rational numbers.

        With an `order`, which is a word of `Exact.order` or a permutation of the rows, the factors are those of the
        matrix with its rows and columns in this order. It decides how much fill they have, and whether they exist.

        >>> import numpy as np, scipy.sparse as sp
        >>> factors = Exact.from_scipy(sp.csr_array(np.array([[1, 2], [2, 7]]))).factor()
        >>> factors.solve(np.array([3, 9])).tolist()
        [1, 1]
        >>> upper = Exact.from_scipy(sp.csr_array(np.array([[1, 2], [0, 7]])))
        >>> upper.factor(assume_symmetric=True).solve(np.array([3, 9])).tolist()
        [1, 1]
        >>> even = Exact.from_scipy(sp.csr_array(np.array([[0, 1], [1, 1]])))
        >>> even.factor(order=[1, 0]).solve(np.array([5, 7])).tolist()
        [2, 5]
        """
        size = self._square()
        if not flag("assume_symmetric", assume_symmetric):
            check_symmetric((self - self.T).tocsr())
        natural = isinstance(order, str) and order == "natural"
        permutation = None if natural else (self.order(order) if isinstance(order, str) else order_of(order))
        try:
            if self._modulus is not None:
                return RingFactorisation._of(self.tocsr(), permutation, self._modulus)
            with self._own() as a:
                name, operands = ("matrix_factor", (a,)) if permutation is None else ("matrix_factor_in_order", (a, permutation))
                return Factorisation._made(name, size, *operands)
        except Singular:
            column = singular_column(permuted(self.tocsr(), permutation), True, self._modulus)
        # The column of the matrix itself.
        raise singular_at(column if permutation is None else int(permutation[column]), self._modulus, permutation is not None)

    def solve(self, b: Integers, assume_symmetric: bool = False, order: Order = "natural") -> Integers:
        """Returns the X for which A X = b, where A is this matrix, which must be symmetric.

        It is `factor(assume_symmetric, order).solve(b)`.

        >>> import numpy as np, scipy.sparse as sp
        >>> a = Exact.from_scipy(sp.csr_array(np.array([[1, 2], [2, 5]])))
        >>> a.solve(np.array([5, 12])).tolist()
        [1, 2]
        """
        return self.factor(assume_symmetric, order).solve(b)
