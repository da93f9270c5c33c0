"""Checks of operands."""
from __future__ import annotations

from typing import Any, NamedTuple, Union

import numpy as np
import numpy.typing as npt
import scipy.sparse as sp

from ._errors import UNKNOWN_MODULUS, Error, error_of

# A one-dimensional array of integers.
Integers = npt.NDArray[Any]
# A sparse matrix by rows or by columns.
Matrix = Union[sp.csr_matrix, sp.csr_array, sp.csc_matrix, sp.csc_array]

# The words for orders of rows and columns, and the call that computes each.
ORDERS = {"natural": None, "amd": "matrix_minimum_degree", "rcm": "matrix_reverse_cuthill_mckee"}
_CLASSES = {"csr": (sp.csr_array, sp.csr_matrix), "csc": (sp.csc_array, sp.csc_matrix)}


class Lanes(NamedTuple):
    """The arrays of a matrix by rows or by columns, the class of matrices for results, and whether the indices that
    were given have more than 32 bits."""

    shape: tuple[int, int]
    offsets: Integers
    indices: Integers
    values: Integers
    kind: Any
    wide: bool

    @property
    def arrays(self) -> tuple[Integers, Integers, Integers]:
        return self.offsets, self.indices, self.values

    @property
    def by_columns(self) -> bool:
        return self.kind in _CLASSES["csc"]

    @property
    def sizes(self) -> tuple[int, int]:
        """The shape of the matrix whose rows are the lanes: that of the transpose, if the lanes are columns."""
        return self.shape[::-1] if self.by_columns else self.shape


def integer(name: str, number: Any) -> int:
    """Returns an integer of Python."""
    if isinstance(number, (bool, np.bool_)) or not isinstance(number, (int, np.integer)):
        raise TypeError(f"{name} must be an integer, not {number!r}")
    return int(number)


def inside(index: Any, size: int) -> int:
    """Returns an index from 0 to below a size. A negative one counts from the end."""
    number = integer("an index", index)
    if not -size <= number < size:
        raise IndexError(f"the index {number} is out of bounds for a size of {size}")
    return number % size


def flag(name: str, value: Any) -> bool:
    """Returns a boolean of Python. Other values that Python accepts as true or false, such as a text or NaN, are
    refused."""
    if not isinstance(value, (bool, np.bool_)):
        raise TypeError(f"{name} must be True or False, not {value!r}")
    return bool(value)


def shape_of(name: str, shape: Any) -> tuple[int, int]:
    """Returns the two sizes of a shape. Indices of SciPy have 64 bits with a sign, so a size is below 2^63."""
    # Bytes would be read as the numbers of their characters.
    if not isinstance(shape, (tuple, list, np.ndarray)):
        raise TypeError(f"{name} must be a tuple of two integers, not {shape!r}")
    try:
        sizes = [integer(name, size) for size in shape]
    except TypeError as error:
        raise TypeError(f"{name} must be two integers, not {shape!r}") from error
    if len(sizes) != 2:
        raise Error(f"{name} must be two sizes, not {len(sizes)}")
    if not all(0 <= size < 2**63 for size in sizes):
        raise Error(f"{name} must be two sizes from 0 to 2^63 - 1, not {tuple(sizes)}")
    return sizes[0], sizes[1]


def _check_array(name: str, array: Any) -> None:
    if not isinstance(array, np.ndarray):
        raise TypeError(f"{name} must be a NumPy array, not {type(array).__name__}")
    if isinstance(array, np.ma.MaskedArray):
        raise TypeError(f"{name} must not be a masked array, whose mask would be ignored: call filled()")


def _vector(name: str, array: Any) -> Integers:
    _check_array(name, array)
    if array.ndim != 1:
        raise TypeError(f"{name} must have one dimension, not {array.ndim}")
    return np.asarray(array)


def indices_of(name: str, array: Any) -> Integers:
    """Returns a contiguous array of 64-bit indices: the array itself, or one copy. A negative index becomes one that is
    out of bounds, and one of 2^63 or more a negative one."""
    array = _vector(name, array)
    if array.dtype.kind not in "iu":
        raise TypeError(f"{name} must have a dtype of integers, not {array.dtype}")
    wide = array.dtype.kind == "u" and array.dtype.itemsize == 8
    # The library reads the same bits as numbers without a sign.
    return np.require(array, np.uint64 if wide else np.int64, ["C", "A"]).view(np.int64)


def order_of(order: Any) -> Integers:
    """Returns a contiguous array of the numbers of an order, which is a NumPy array or another sequence of integers. A
    number that is out of bounds may become another one that is."""
    if isinstance(order, np.ndarray):
        return indices_of("order", order)
    if isinstance(order, (str, bytes)) or not hasattr(order, "__iter__"):
        raise TypeError(f"order must be one of {', '.join(map(repr, ORDERS))} or a sequence of integers, not {order!r}")
    numbers = (integer("a number of the order", number) for number in order)
    return np.array([number if 0 <= number < 2**63 else -1 for number in numbers], np.int64)


def _check_values(name: str, dtype: Any) -> None:
    if dtype.kind not in "iu" or not np.can_cast(dtype, np.int64):
        raise TypeError(f"{name} must have a dtype of integers that fits in int64, not {dtype}")


def values_of(name: str, array: Any) -> Integers:
    """Returns a contiguous array of `int64`: the array itself, or one copy of an array whose dtype fits."""
    array = _vector(name, array)
    _check_values(name, array.dtype)
    return np.require(array, np.int64, ["C", "A"])


def triplets_of(rows: Any, cols: Any, values: Any, name: str = "") -> tuple[Integers, Integers, Integers]:
    """Returns the arrays of triplets."""
    prefix = f"{name}." if name else ""
    names = ("row", "col", "data") if name else ("row_indices", "col_indices", "values")
    i, j = (indices_of(prefix + of, array) for of, array in zip(names, (rows, cols)))
    return i, j, values_of(prefix + names[2], values)


def lanes_of(name: str, matrix: Any, *forms: str) -> Lanes:
    """Returns the arrays of a sparse matrix in one of these formats, which are `csr` and `csc`."""
    if not sp.issparse(matrix) or matrix.format not in forms:
        found = getattr(matrix, "format", type(matrix).__name__)
        calls = " or ".join(f"to{form}()" for form in forms)
        raise TypeError(f"{name} must be a SciPy matrix in {' or '.join(forms).upper()} form, not {found}: call {calls}")
    of_arrays, of_matrices = _CLASSES[matrix.format]
    return Lanes(
        shape_of(f"{name}.shape", matrix.shape),
        indices_of(f"{name}.indptr", matrix.indptr),
        indices_of(f"{name}.indices", matrix.indices),
        values_of(f"{name}.data", matrix.data),
        of_arrays if isinstance(matrix, of_arrays) else of_matrices,
        max(matrix.indices.itemsize, matrix.indptr.itemsize) > 4,
    )


def sorted_arrays(lanes: Lanes) -> tuple[Integers, Integers, Integers]:
    """Returns the arrays with the indices of each lane sorted, or as they are if a lane would be out of bounds."""
    offsets, indices, values = lanes.arrays
    lengths = np.diff(offsets)
    sound = offsets.size == lanes.sizes[0] + 1 and offsets[0] == 0 and offsets[-1] == indices.size == values.size
    if not sound or (lengths < 0).any():
        return lanes.arrays
    order = np.lexsort((indices, np.repeat(np.arange(lengths.size), lengths)))
    return offsets, indices[order], values[order]


def pair_of(a: Any, b: Any) -> tuple[Lanes, Lanes]:
    """Returns the arrays of two matrices in the same format."""
    lanes = lanes_of("a", a, "csr", "csc"), lanes_of("b", b, "csr", "csc")
    if a.format != b.format:
        raise TypeError(f"a and b must have one form, not {a.format} and {b.format}: call b.to{a.format}()")
    return lanes


def square_of(name: str, matrix: Any) -> tuple[int, Lanes]:
    """Returns the size and the arrays of a square matrix by columns."""
    lanes = lanes_of(name, matrix, "csc")
    rows, cols = lanes.shape
    if rows != cols:
        raise Error(f"{name} must be square, not {rows} by {cols}")
    return rows, lanes


def dense_of(name: str, matrix: Any, rows: int) -> tuple[Integers, int]:
    """Returns the values of a dense matrix column by column, and its number of columns. A vector is one column.

    The values of a matrix of `int64` that is stored column by column (NumPy's order "F") are not copied.
    """
    _check_array(name, matrix)
    if matrix.ndim not in (1, 2):
        raise TypeError(f"{name} must have one or two dimensions, not {matrix.ndim}")
    if matrix.shape[0] != rows:
        raise Error(f"{name} must have {rows} rows, not {matrix.shape[0]}")
    _check_values(name, matrix.dtype)
    values = np.require(np.asarray(matrix), np.int64, ["F", "A"]).reshape(-1, order="F")
    return values, 1 if matrix.ndim == 1 else matrix.shape[1]


def check_symmetric(difference: Any) -> None:
    """Raises an `Error` unless the difference of a matrix and its transpose is 0."""
    (places,) = np.nonzero(difference.data)
    if places.size:
        lane = int(np.searchsorted(difference.indptr, places[0], "right")) - 1
        i, j = sorted((lane, int(difference.indices[places[0]])))
        raise Error(
            f"the matrix is not symmetric: its entries at ({i}, {j}) and ({j}, {i}) differ; assume_symmetric=True takes "
            "the entries on and above the diagonal, without a test"
        )


def modulus_of(modulus: Any) -> int:
    """Returns a modulus as an integer of Python. The library knows which ones it takes."""
    number = integer("modulus", modulus)
    if not 0 <= number < 2**64:
        raise error_of(UNKNOWN_MODULUS)
    return number


def modular(name: str, modulus: Any) -> tuple[Any, ...]:
    """Returns the name of a call, and with a modulus the name of its call with a modulus and the modulus."""
    return (name,) if modulus is None else (f"{name}_mod", modulus_of(modulus))
