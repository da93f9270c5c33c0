"""Arrays for results, and the matrices of results."""
from __future__ import annotations

import ctypes
from typing import Any

import numpy as np

from ._calls import call
from ._errors import TooSmall
from ._operands import Integers

_MOST_OF_32_BITS = 2**31 - 1


def empty(count: int, dtype: Any = np.int64) -> Integers:
    """Returns an array for a result. Raises a `MemoryError` if it does not fit in memory."""
    try:
        return np.empty(count, dtype)
    except (ValueError, OverflowError) as error:
        raise MemoryError(f"no array has {count} elements") from error


def with_room(room: int, dtypes: tuple[Any, ...], name: str, *arguments: Any) -> tuple[Integers, ...]:
    """Makes a call with an array of `room` elements for each type, and truncates them to the result. If that is too
    little, calls once more, with as many elements as the call tells that it needs.
    """
    count = ctypes.c_size_t()
    arrays = [empty(room, dtype) for dtype in dtypes]
    try:
        call(name, *arguments, *arrays, count)
    except TooSmall:
        arrays = [empty(count.value, dtype) for dtype in dtypes]
        call(name, *arguments, *arrays, count)
    for array in arrays:
        # Gives back the rest of the room, and moves no element. No other object refers to the array.
        array.resize(count.value, refcheck=False)
    return tuple(arrays)


def filled(lanes: int, room: int, name: str, *arguments: Any) -> tuple[Integers, Integers, Integers]:
    """Makes a call with arrays for `lanes` lanes and `room` entries, or as many as are needed, and truncates them to
    the entries of the result."""
    offsets = empty(lanes + 1)
    indices, values = with_room(room, (np.int64, np.int64), name, *arguments, offsets)
    return values, indices, offsets


def is_narrow(shape: tuple[int, int], places: int) -> bool:
    """Says whether the indices and offsets of a matrix with this shape and number of entries fit in 32 bits."""
    return max(*shape, places) <= _MOST_OF_32_BITS


def matrix_of(kind: Any, parts: tuple[Integers, Integers, Integers], shape: tuple[int, int], wide: bool = False) -> Any:
    """Returns the matrix of arrays that the library wrote, without a check. Unless `wide` is set, its indices and
    offsets have 32 bits if the sizes fit, which SciPy's graph functions require."""
    values, indices, offsets = parts
    if not wide and is_narrow(shape, values.size):
        indices, offsets = indices.astype(np.int32, copy=False), offsets.astype(np.int32, copy=False)
    # With the arrays SciPy's constructor would read all indices, to choose their type.
    matrix = kind(shape, dtype=np.int64)
    matrix.data, matrix.indices, matrix.indptr = values, indices, offsets
    matrix.has_sorted_indices = matrix.has_canonical_format = True
    return matrix
