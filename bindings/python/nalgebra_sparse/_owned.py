"""The construction, reading, comparison and copies of matrices that the library owns."""
from __future__ import annotations

import ctypes
import threading
import weakref
from typing import Any, Optional, TypeVar, Union

import numpy as np
import scipy.sparse as sp

from ._calls import Handle, RingHandle, call, free
from ._errors import Error, InvalidStructure, RingMismatch, ring_of
from ._factorisation import own
from ._operands import Integers, Lanes, Matrix, lanes_of, modulus_of, shape_of, sorted_arrays, triplets_of
from ._results import empty, is_narrow, matrix_of
from ._text_lines import read_text, triplets_of_text

Self = TypeVar("Self", bound="Owned")


class Owned:
    """A matrix of integers modulo 2^64, or modulo a prime, behind a handle. `Exact` is this with operators."""

    __slots__ = ("_handle", "_lock", "_modulus", "_shape", "_nnz", "__weakref__")

    # A handle of one of two types, and the prime for the second.
    _handle: Union[Handle, RingHandle]
    _lock: Any
    _modulus: Optional[int]
    _shape: tuple[int, int]
    _nnz: int

    def __init__(self) -> None:
        raise TypeError("call Exact.from_scipy, Exact.from_triplets or Exact.from_text")

    @classmethod
    def _made(cls: type[Self], name: str, modulus: Optional[int], *arguments: Any) -> Self:
        """Returns the matrix that a call puts behind the handle which is its last argument."""
        self = object.__new__(cls)
        self._handle, self._lock, self._modulus = Handle() if modulus is None else RingHandle(), threading.RLock(), modulus
        (read_text if name == "from_text" else call)(self._call(name), *arguments, self._handle)
        weakref.finalize(self, free, self._handle)
        rows, cols, places = ctypes.c_size_t(), ctypes.c_size_t(), ctypes.c_size_t()
        found = () if modulus is None else (ctypes.c_uint64(),)
        call(self._call("sizes"), self._handle, *found, rows, cols, places)
        self._shape, self._nnz = (rows.value, cols.value), places.value
        return self

    @classmethod
    def _created(cls: type[Self], name: str, modulus: Any, *arguments: Any) -> Self:
        """Returns the matrix of a call that takes no handle. With a modulus, this is the first argument of the call."""
        if modulus is None:
            return cls._made(name, None, *arguments)
        number = modulus_of(modulus)
        return cls._made(name, number, number, *arguments)

    def _call(self, name: str) -> str:
        """Returns the name of a call over handles of the type of this one."""
        return f"matrix_{name}" if self._modulus is None else f"ring_matrix_{name}"

    def _own(self) -> Any:
        return own(self._call("clone"), self._handle, self._lock)

    def _with(self: Self, name: str, *factors: int) -> Self:
        with self._own() as a:
            return type(self)._made(name, self._modulus, *factors, a)

    def _and(self: Self, name: str, other: Self, *factors: int) -> Self:
        with self._own() as a, other._own() as b:
            return type(self)._made(name, self._modulus, *factors[:1], a, *factors[1:], b)

    def arrays(self, wide: bool = False) -> tuple[Integers, Integers, Integers]:
        """Returns a copy of the offsets, the indices and the values of the matrix by rows, with 32 bits for each index
        and offset where the sizes fit, and 64 otherwise or if `wide` is set."""
        narrow = not wide and is_narrow(self._shape, self._nnz)
        # No call writes the arrays of a matrix modulo a prime with 32 bits.
        name, dtype = ("read_32", np.int32) if narrow and self._modulus is None else ("read", np.int64)
        offsets, indices, values = empty(self._shape[0] + 1, dtype), empty(self._nnz, dtype), empty(self._nnz)
        with self._own() as a:
            call(self._call(name), a, offsets, indices, values, ctypes.c_size_t())
        if narrow:
            offsets, indices = offsets.astype(np.int32, copy=False), indices.astype(np.int32, copy=False)
        return offsets, indices, values

    @classmethod
    def of_lanes(cls: type[Self], lanes: Lanes, modulus: Optional[int]) -> Self:
        """Returns the matrix whose rows are the lanes of a SciPy matrix, whose arrays are copied."""
        return cls._created("from_rows", modulus, *lanes.sizes, *lanes.arrays)

    @classmethod
    def from_scipy(cls: type[Self], matrix: Matrix, modulus: Optional[int] = None) -> Self:
        """Returns the matrix with the entries of a SciPy matrix by rows or by columns, whose arrays are copied. They are
        integers modulo 2^64, or modulo `modulus`.

        The indices of a row or column may be in any order, as those of SciPy's products are: if they are not sorted,
        the copy is. Repeated entries are refused with `DuplicateEntry`; `sum_duplicates()` of SciPy adds them up.

        >>> import numpy as np, scipy.sparse as sp
        >>> Exact.from_scipy(sp.csc_array(np.array([[0, 5]]))).toarray().tolist()
        [[0, 5]]
        >>> unsorted = sp.csr_array((np.array([5, 4]), np.array([1, 0]), np.array([0, 2])), (1, 2))
        >>> Exact.from_scipy(unsorted).toarray().tolist()
        [[4, 5]]
        >>> Exact.from_scipy(unsorted, modulus=3).toarray().tolist()
        [[1, 2]]
        """
        lanes = lanes_of("matrix", matrix, "csr", "csc")
        try:
            made = cls.of_lanes(lanes, modulus)
        except InvalidStructure:
            # The indices of SciPy's products are not sorted. If that is not what is wrong, this raises the same error.
            made = cls._created("from_rows", modulus, *lanes.sizes, *sorted_arrays(lanes))
        return made if matrix.format == "csr" else made.transpose()

    @classmethod
    def from_triplets(
        cls: type[Self],
        shape: tuple[int, int],
        row_indices: Integers,
        col_indices: Integers,
        values: Integers,
        modulus: Optional[int] = None,
    ) -> Self:
        """Returns the matrix of triplets, where values with the same row and column are added, modulo 2^64 or modulo
        `modulus`. An entry is kept if its sum is 0.

        >>> import numpy as np
        >>> a = Exact.from_triplets((2, 2), np.array([0, 0, 1]), np.array([0, 0, 1]), np.array([1, 2, 7]))
        >>> a.toarray().tolist()
        [[3, 0], [0, 7]]
        """
        rows, cols = shape_of("shape", shape)
        return cls._created("from_triplets", modulus, rows, cols, *triplets_of(row_indices, col_indices, values))

    @classmethod
    def from_text(cls: type[Self], text: bytes, modulus: Optional[int] = None) -> Self:
        """Returns the matrix of the bytes of a Matrix Market text with integers, where values with the same row and
        column are added, modulo 2^64 or modulo `modulus`.

        >>> a = Exact.from_text(b"%%MatrixMarket matrix coordinate integer symmetric\\n2 2 2\\n1 1 4\\n2 1 -3\\n")
        >>> a.toarray().tolist()
        [[4, -3], [-3, 0]]
        """
        if modulus is not None:
            return cls.from_triplets(*triplets_of_text(text), modulus=modulus)
        if not isinstance(text, bytes):
            raise TypeError(f"text must be bytes, not {type(text).__name__}")
        made = cls._made("from_text", None, bytes(text))
        shape_of("the shape of the text", made._shape)
        return made

    def to_text(self) -> bytes:
        """Returns the bytes of the Matrix Market text of the matrix, with a line for each entry, row by row.

        >>> import numpy as np, scipy.sparse as sp
        >>> print(Exact.from_scipy(sp.csr_array(np.array([[0, 4]]))).to_text().decode(), end="")
        %%MatrixMarket matrix coordinate integer general
        % matrixmarket file generated by nalgebra-sparse.
        1 2 1
        1 2 4
        """
        if self._modulus is not None:
            return type(self).from_scipy(self.tocsr()).to_text()
        # A line has at most 63 bytes, and there are at most three lines before those of the entries.
        text, length = empty(64 * (self._nnz + 3), np.uint8), ctypes.c_size_t()
        with self._own() as a:
            call("matrix_to_text", a, text, length)
        return text[: length.value].tobytes()

    def tocsr(self) -> sp.csr_array:
        """Returns the matrix as a SciPy array by rows, with a copy of the arrays."""
        offsets, indices, values = self.arrays()
        return matrix_of(sp.csr_array, (values, indices, offsets), self._shape)

    to_scipy = tocsr

    def tocsc(self) -> sp.csc_array:
        """Returns the matrix as a SciPy array by columns, with a copy of the arrays."""
        offsets, indices, values = self.transpose().arrays()
        return matrix_of(sp.csc_array, (values, indices, offsets), self._shape)

    def tocoo(self) -> sp.coo_array:
        """Returns the matrix as a SciPy array of triplets, row by row, with a copy of the arrays."""
        return self.tocsr().tocoo()

    def toarray(self) -> Integers:
        """Returns the matrix as a NumPy array.

        >>> import numpy as np
        >>> Exact.from_triplets((2, 2), np.array([0]), np.array([1]), np.array([7])).toarray().tolist()
        [[0, 7], [0, 0]]
        """
        return self.tocsr().toarray()

    def diagonal(self, k: int = 0) -> Integers:
        """Returns the values at the pairs (i, i + k), as a NumPy array, with 0 where no entry is stored.

        >>> import numpy as np
        >>> Exact.from_triplets((2, 2), np.array([0]), np.array([1]), np.array([7])).diagonal(k=1).tolist()
        [7]
        """
        return self.tocsr().diagonal(k)

    @property
    def shape(self) -> tuple[int, int]:
        """The number of rows and the number of columns."""
        return self._shape

    @property
    def nnz(self) -> int:
        """The number of entries, those with the value 0 too."""
        return self._nnz

    @property
    def modulus(self) -> Optional[int]:
        """The prime modulo which the matrix computes, or None: then it computes modulo 2^64.

        >>> import numpy as np
        >>> Exact.from_triplets((1, 1), np.array([0]), np.array([0]), np.array([9]), modulus=7).modulus
        7
        """
        return self._modulus

    @property
    def dtype(self) -> np.dtype[np.int64]:
        """The type of the values: `int64`, which wraps. Modulo a prime, the values are from 0 to `modulus` - 1."""
        return np.dtype(np.int64)

    def transpose(self: Self) -> Self:
        """Returns the transpose."""
        return self._with("transpose")

    @property
    def T(self: Self) -> Self:  # noqa: N802
        """The transpose."""
        return self.transpose()

    def __copy__(self: Self) -> Self:
        return self._with("clone")

    def __deepcopy__(self: Self, memo: Any) -> Self:
        return self.__copy__()

    def __reduce__(self) -> Any:
        return type(self).from_scipy, (self.tocsr(), self._modulus)

    def __repr__(self) -> str:
        rows, cols = self._shape
        return f"<Exact: {rows} by {cols} with {self._nnz} stored entries, modulo {ring_of(self._modulus)}>"

    def _operand(self: Self, other: Any) -> Optional[Self]:
        """Returns the operand of an operator as a matrix of this class: itself, or the one with the entries of a SciPy
        matrix, which have the modulus of this one; None if it is not a matrix."""
        if sp.issparse(other):
            return type(self).from_scipy(other, self._modulus)
        return other if isinstance(other, type(self)) else None

    def _same_ring(self: Self, other: Self) -> None:
        """Raises an error unless both matrices have the same modulus. The library refuses two primes, too."""
        if self._modulus != other._modulus:
            rings = f"modulo {ring_of(self._modulus)} and modulo {ring_of(other._modulus)}"
            raise RingMismatch(f"the operands are {rings}: from_scipy(matrix.tocsr(), modulus=..) takes one of them to the other ring")

    def __eq__(self, other: Any) -> Any:
        """Says whether two matrices have the same modulus and shape, entries at the same rows and columns, and the same
        values.

        An entry with the value 0 is not the same as none: the difference of two matrices that differ in such entries
        has the value 0 everywhere.
        """
        operand = self._operand(other)
        if operand is None:
            return NotImplemented
        if (self._modulus, self._shape, self._nnz) != (operand._modulus, operand._shape, operand._nnz):
            return False
        return all(map(np.array_equal, self.arrays(), operand.arrays()))

    def __hash__(self) -> int:
        return hash((self._modulus, self._shape, self._nnz))

    def __bool__(self) -> bool:
        # As a SciPy matrix does.
        if self._shape != (1, 1):
            raise Error("the truth value of a matrix is ambiguous: compare two matrices by ==, or ask for nnz")
        return self._nnz != 0
