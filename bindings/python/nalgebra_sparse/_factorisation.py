"""Factors that the library owns, and functions for all calls over handles."""
from __future__ import annotations

import contextlib
import ctypes
import threading
import weakref
from typing import Any, Iterator, Optional

import numpy as np
import scipy.sparse as sp

from ._calls import FactorHandle, call, free
from ._operands import Integers, dense_of
from ._results import empty, matrix_of


@contextlib.contextmanager
def own(name: str, handle: Any, lock: Any) -> Iterator[Any]:
    """Yields a second handle for the time of a call. The handles of a call must differ, and each handle is used by one
    call at a time.

    The lock is re-entrant: a signal handler may use the matrix of the code that it interrupts. The handler runs before
    or after a call, and never during one.
    """
    second = type(handle)()
    with lock:
        call(name, handle, second)
    try:
        yield second
    finally:
        free(second)


def solved(name: str, b: Any, rows: int, *arguments: Any) -> Integers:
    """Calls a solve in place over a copy of b, and returns X in the shape of b."""
    values, cols = dense_of("b", b, rows)
    # An empty array shares no memory, but may be the given one, which may be read-only.
    if np.may_share_memory(values, b) or not values.flags.writeable:
        values = np.array(values)
    call(name, *arguments, cols, values)
    return values.reshape(b.shape, order="F")


class Factorisation:
    """The exact factors L D L^T of a symmetric matrix of integers modulo 2^64, which the library owns: `Exact.factor`
    returns it. With an order, L and D are the factors of P A P^T: the matrix whose rows and columns are in this order.
    `solve` solves the system of A itself.

    The factors are freed with the object, and several threads may use them at once. Copies share the factors. They
    can't be pickled: pickle the matrix, and factor it again.

    >>> import numpy as np, scipy.sparse as sp
    >>> from nalgebra_sparse import Exact
    >>> factors = Exact.from_scipy(sp.csr_array(np.array([[1, 2], [2, 7]]))).factor()
    >>> factors
    <Factorisation: 2 by 2>
    >>> factors.solve(np.array([[3, 2], [9, 7]])).tolist()
    [[1, 0], [1, 1]]
    >>> (factors.L * factors.D @ factors.L.T).toarray().tolist()
    [[1, 2], [2, 7]]
    """

    __slots__ = ("_handle", "_lock", "_size", "__weakref__")

    _handle: FactorHandle
    _lock: Any
    _size: int

    def __init__(self) -> None:
        raise TypeError("call Exact.factor")

    @classmethod
    def _made(cls, name: str, size: int, *operands: Any) -> Factorisation:
        """Returns the factors that a call puts behind the handle which is its last argument."""
        self = object.__new__(cls)
        self._handle, self._lock, self._size = FactorHandle(), threading.RLock(), size
        call(name, *operands, self._handle)
        weakref.finalize(self, free, self._handle)
        return self

    def _own(self) -> Any:
        return own("factors_clone", self._handle, self._lock)

    def __copy__(self) -> Factorisation:
        with self._own() as factors:
            return Factorisation._made("factors_clone", self._size, factors)

    def __deepcopy__(self, memo: Any) -> Factorisation:
        return self.__copy__()

    def __reduce__(self) -> Any:
        raise TypeError("a Factorisation cannot be pickled: pickle the matrix, and factor it again")

    @property
    def modulus(self) -> Optional[int]:
        """None: the factors are those modulo 2^64. Modulo a prime, it is the prime."""
        return None

    @property
    def shape(self) -> tuple[int, int]:
        """The number of rows and the number of columns of the matrix."""
        return self._size, self._size

    def _parts(self) -> tuple[tuple[Integers, Integers, Integers], Integers]:
        """Returns a copy of the values, the indices and the offsets of L by columns, and of the diagonal of D."""
        size, places = ctypes.c_size_t(), ctypes.c_size_t()
        with self._own() as factors:
            call("factors_sizes", factors, size, places)
            offsets, indices, values, diagonal = (empty(n) for n in (size.value + 1, places.value, places.value, size.value))
            call("factors_read", factors, offsets, indices, values, diagonal, places)
        return (values, indices, offsets), diagonal

    @property
    def L(self) -> sp.csc_array:  # noqa: N802
        """A copy of the unit lower triangular factor L, as a SciPy array by columns. With an order it is that of P A P^T.

        It has the entries of `fill` with "upper", of this matrix, also where a value is 0. Sums and products of SciPy's arrays wrap, as
        those modulo 2^64 do.

        >>> import numpy as np, scipy.sparse as sp
        >>> from nalgebra_sparse import Exact
        >>> Exact.from_scipy(sp.csr_array(np.array([[1, 2], [2, 7]]))).factor().L.toarray().tolist()
        [[1, 0], [2, 1]]
        """
        return matrix_of(sp.csc_array, self._parts()[0], self.shape)

    @property
    def D(self) -> Integers:  # noqa: N802
        """A copy of the diagonal of the factor D, as a NumPy array. Each of its values is odd. With an order it is that
        of P A P^T.

        >>> import numpy as np, scipy.sparse as sp
        >>> from nalgebra_sparse import Exact
        >>> Exact.from_scipy(sp.csr_array(np.array([[1, 2], [2, 7]]))).factor().D.tolist()
        [1, 3]
        """
        return self._parts()[1]

    @property
    def order(self) -> Integers:
        """A copy of the order of the rows and columns in which the matrix was factored, as a NumPy array.

        >>> import numpy as np, scipy.sparse as sp
        >>> from nalgebra_sparse import Exact
        >>> factors = Exact.from_scipy(sp.csr_array(np.array([[7, 2], [2, 1]]))).factor(order=[1, 0])
        >>> factors.order.tolist(), factors.D.tolist()
        ([1, 0], [1, 3])
        """
        order = empty(self._size)
        with self._own() as factors:
            call("factors_order", factors, order)
        return order

    def __repr__(self) -> str:
        return f"<Factorisation: {self._size} by {self._size}>"

    def solve(self, b: Integers) -> Integers:
        """Returns the X for which A X = b, where A is the matrix that was factored. A vector is one column.

        >>> import numpy as np, scipy.sparse as sp
        >>> from nalgebra_sparse import Exact
        >>> factors = Exact.from_scipy(sp.csr_array(np.array([[1, 2], [2, 5]]))).factor()
        >>> factors.solve(np.array([5, 12])).tolist()
        [1, 2]
        """
        with self._own() as factors:
            return solved("factors_solve", b, self._size, factors)
