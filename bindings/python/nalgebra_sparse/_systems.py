"""Solves, fill and factors. Matrices are square and by columns."""
from __future__ import annotations

import contextlib
import ctypes
from typing import Any, Iterator, Optional

import numpy as np

from ._calls import call
from ._errors import Error, Singular, singular_at
from ._matrices import subtract, transpose
from ._operands import Integers, Lanes, Matrix, check_symmetric, dense_of, flag, modular, square_of
from ._results import empty, matrix_of, with_room


def _solved(name: str, modulus: Any, matrix: Any, b: Any, *flags: bool) -> Integers:
    """Calls a solve, and returns X in the shape of b."""
    size, lanes = square_of("matrix", matrix)
    values, cols = dense_of("b", b, size)
    solution = empty(size * cols)
    call(*modular(name, modulus), size, cols, *lanes.arrays, *flags, values, solution)
    return solution.reshape(b.shape, order="F")


def solve_lower(matrix: Matrix, b: Integers, transposed: bool = False, modulus: Optional[int] = None) -> Integers:
    """Returns the X for which L X = b, or L^T X = b, where L is the part of a square matrix by columns on and below its
    diagonal.

    >>> import numpy as np, scipy.sparse as sp
    >>> l = sp.csc_matrix(np.array([[1, 0], [2, 3]]))
    >>> solve_lower(l, np.array([5, 16])).tolist()
    [5, 2]
    >>> solve_lower(l, np.array([9, 6]), transposed=True).tolist()
    [5, 2]
    """
    return _solved("solve_lower", modulus, matrix, b, flag("transposed", transposed))


def require_symmetric(matrix: Matrix, modulus: Optional[int], assume_symmetric: Any) -> None:
    """Raises an `Error` unless a square matrix by columns equals its transpose, modulo 2^64 or modulo a prime, or is
    assumed to."""
    assumed = flag("assume_symmetric", assume_symmetric)
    square_of("matrix", matrix)
    if not assumed:
        check_symmetric(subtract(matrix, transpose(matrix), modulus))


def solve_symmetric(matrix: Matrix, b: Integers, modulus: Optional[int] = None, assume_symmetric: bool = False) -> Integers:
    """Returns the X for which A X = b, where A is a symmetric matrix by columns.

    If the matrix is not symmetric, modulo 2^64 or modulo `modulus`, an `Error` is raised; the test computes its
    transpose and a difference. With `assume_symmetric=True` there is no test, and A has the entries of the matrix on
    and above the diagonal.

    >>> import numpy as np, scipy.sparse as sp
    >>> a = sp.csc_array(np.array([[2, 1], [1, 3]]))
    >>> solve_symmetric(a, np.array([8, 19]), modulus=7).tolist()
    [1, 6]
    """
    require_symmetric(matrix, modulus, assume_symmetric)
    with _column_named(matrix, modulus):
        return _solved("solve_symmetric", modulus, matrix, b)


_TRIANGLES = {"upper": 0, "lower": 1, "both": 2}


def fill(matrix: Matrix, triangle: str = "upper") -> tuple[Integers, Integers]:
    """Returns the offsets and the indices by columns of the factor of a symmetric elimination.

    The elimination starts from the entries of a square matrix by columns on and above the diagonal ("upper"), on and
    below it ("lower"), or from all ("both"). The values have no effect.

    >>> import numpy as np, scipy.sparse as sp
    >>> offsets, indices = fill(sp.csc_matrix(np.array([[1, 1, 1], [0, 1, 0], [0, 0, 1]])))
    >>> offsets.tolist(), indices.tolist()
    ([0, 3, 5, 6], [0, 1, 2, 1, 2, 2])
    """
    if triangle not in _TRIANGLES:
        raise Error(f"triangle must be one of {', '.join(_TRIANGLES)}, not {triangle!r}")
    size, lanes = square_of("matrix", matrix)
    offsets = empty(size + 1)
    # Enough if the elimination adds no entries but those of the diagonal.
    room = lanes.indices.size + size
    (indices,) = with_room(room, (np.int64,), "fill", size, _TRIANGLES[triangle], lanes.offsets, lanes.indices, offsets)
    return offsets, indices


def _fill_places(size: int, triangle: str, lanes: Lanes) -> int:
    """Returns the number of entries of the factor."""
    places = ctypes.c_size_t()
    call("fill_places", size, _TRIANGLES[triangle], lanes.offsets, lanes.indices, places)
    return places.value


def factor_symmetric(matrix: Matrix, modulus: Optional[int] = None, assume_symmetric: bool = False) -> tuple[Matrix, Integers]:
    """Returns the factors L and D of a symmetric matrix A = L D L^T: L by columns, and the diagonal of D as an array.

    If the matrix is not symmetric, modulo 2^64 or modulo `modulus`, an `Error` is raised; the test computes its
    transpose and a difference. With `assume_symmetric=True` there is no test, and A has the entries of the matrix on
    and above the diagonal.

    L has ones on its diagonal and exactly the pattern of `fill` with "upper", also where a value is 0. Each entry of D
    has an inverse.

    >>> import numpy as np, scipy.sparse as sp
    >>> l, d = factor_symmetric(sp.csc_matrix(np.array([[1, 2], [2, 7]])))
    >>> l.toarray().tolist(), d.tolist()
    ([[1, 0], [2, 1]], [1, 3])
    """
    require_symmetric(matrix, modulus, assume_symmetric)
    with _column_named(matrix, modulus):
        return factored(matrix, modulus)


@contextlib.contextmanager
def _column_named(matrix: Matrix, modulus: Optional[int]) -> Iterator[None]:
    """Raises, in place of a `Singular`, one that names the column at which the factorisation of the matrix stops."""
    try:
        yield
        return
    except Singular:
        column = _column_of(matrix, modulus)
    raise singular_at(column, modulus)


def factored(matrix: Matrix, modulus: Optional[int]) -> tuple[Matrix, Integers]:
    """Returns the factors of the symmetric matrix with the entries of a matrix on and above the diagonal. Its `Singular`
    does not name the column."""
    name, *start = modular("factor_symmetric", modulus)
    size, lanes = square_of("matrix", matrix)
    room = _fill_places(size, "upper", lanes)
    offsets, indices, values, diagonal = empty(size + 1), empty(room), empty(room), empty(size)
    outputs = (offsets, indices, values, diagonal, ctypes.c_size_t())
    call(name, *start, size, *lanes.arrays, *outputs)
    return matrix_of(lanes.kind, (values, indices, offsets), (size, size), lanes.wide), diagonal


def singular_column(matrix: Matrix, assume_symmetric: bool = False, modulus: Optional[int] = None) -> Optional[int]:
    """Returns the column at which the factorisation L D L^T of a symmetric matrix by columns stops, modulo 2^64 or modulo
    `modulus`, since its pivot has no inverse, or None if the matrix has factors: the rows and columns before it have
    factors, and together with it they have none.

    The symmetry is tested as in `factor_symmetric`. The column is found by bisection: it takes about as many
    factorisations as the number of columns has binary digits.

    >>> import numpy as np, scipy.sparse as sp
    >>> singular_column(sp.csc_array(np.array([[1, 1, 0], [1, 3, 0], [0, 0, 5]])))
    1
    """
    require_symmetric(matrix, modulus, assume_symmetric)
    column = _column_of(matrix, modulus)
    return column if column < matrix.shape[1] else None


def _column_of(matrix: Matrix, modulus: Optional[int]) -> int:
    """Returns that column, or the number of columns if there are factors."""
    name, *start = modular("factor_symmetric_pivot", modulus)
    size, lanes = square_of("matrix", matrix)
    column = ctypes.c_size_t()
    call(name, *start, size, *lanes.arrays, column)
    return column.value
