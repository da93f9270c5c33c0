"""Assembly, transposes, sums, products and division."""
from __future__ import annotations

from typing import Any, Optional

import numpy as np
import scipy.sparse as sp

from ._calls import call
from ._errors import Error
from ._operands import Integers, Matrix, dense_of, integer, lanes_of, modular, pair_of, shape_of, triplets_of
from ._owned import Owned
from ._results import empty, filled, matrix_of


def assemble_csr(
    shape: tuple[int, int], row_indices: Integers, col_indices: Integers, values: Integers, modulus: Optional[int] = None
) -> sp.csr_matrix:
    """Returns the matrix of triplets by rows, where values with the same row and column are added. An entry is kept if
    its sum is 0.

    >>> import numpy as np
    >>> a = assemble_csr((2, 2), np.array([0, 0, 1, 1]), np.array([0, 1, 1, 1]), np.array([1, 2, 2, 1]))
    >>> a.toarray().tolist()
    [[1, 2], [0, 3]]
    >>> assemble_csr((1, 1), np.array([0, 0]), np.array([0, 0]), np.array([5, 4]), modulus=7).toarray().tolist()
    [[2]]
    """
    rows, cols = shape_of("shape", shape)
    triplets = triplets_of(row_indices, col_indices, values)
    return matrix_of(sp.csr_matrix, filled(rows, triplets[2].size, *modular("assemble_csr", modulus), rows, cols, *triplets), (rows, cols))


def assemble_csc(
    shape: tuple[int, int], row_indices: Integers, col_indices: Integers, values: Integers, modulus: Optional[int] = None
) -> sp.csc_matrix:
    """Returns the matrix of triplets by columns, where values with the same row and column are added. An entry is kept
    if its sum is 0.

    >>> import numpy as np
    >>> a = assemble_csc((2, 3), np.array([0, 1, 0]), np.array([0, 2, 0]), np.array([5, 7, -5]))
    >>> a.nnz, a.toarray().tolist()
    (2, [[0, 0, 0], [0, 0, 7]])
    """
    rows, cols = shape_of("shape", shape)
    triplets = triplets_of(row_indices, col_indices, values)
    return matrix_of(sp.csc_matrix, filled(cols, triplets[2].size, *modular("assemble_csc", modulus), rows, cols, *triplets), (rows, cols))


def transpose(matrix: Matrix) -> Matrix:
    """Returns the transpose of a matrix, in the same format.

    >>> import numpy as np, scipy.sparse as sp
    >>> transpose(sp.csr_matrix(np.array([[1, 2, 0], [0, 0, 3]]))).toarray().tolist()
    [[1, 0], [2, 0], [0, 3]]
    """
    a = lanes_of("matrix", matrix, "csr", "csc")
    lanes, inner = a.sizes
    return matrix_of(a.kind, filled(inner, a.values.size, "transpose", lanes, inner, *a.arrays), a.shape[::-1], a.wide)


def _merged(name: str, modulus: Any, a: Any, b: Any, *factors: int) -> Any:
    """Calls a sum, and returns it in the format of the operands. In a sum of multiples each scale precedes its
    operand."""
    x, y = pair_of(a, b)
    if x.shape != y.shape:
        raise Error(f"the shapes {x.shape} and {y.shape} differ")
    operands = (*factors[:1], *x.arrays, *factors[1:], *y.arrays)
    parts = filled(x.sizes[0], x.values.size + y.values.size, *modular(name, modulus), *x.sizes, *operands)
    return matrix_of(x.kind, parts, x.shape, x.wide or y.wide)


def _value(name: str, number: Any) -> int:
    """Returns an integer of 64 bits."""
    value = integer(name, number)
    if not -(2**63) <= value < 2**63:
        raise Error(f"{name} must be an integer of 64 bits, not {value}")
    return value


def add(a: Matrix, b: Matrix, modulus: Optional[int] = None) -> Matrix:
    """Returns the sum of two matrices in the same format, on the union of their patterns.

    >>> import numpy as np, scipy.sparse as sp
    >>> a, b = sp.csr_array(np.array([[1, 0], [0, 2]])), sp.csr_array(np.array([[-1, 4], [0, 0]]))
    >>> c = add(a, b)
    >>> c.nnz, c.toarray().tolist()
    (3, [[0, 4], [0, 2]])
    """
    return _merged("add", modulus, a, b)


def subtract(a: Matrix, b: Matrix, modulus: Optional[int] = None) -> Matrix:
    """Returns the difference of two matrices in the same format, on the union of their patterns.

    >>> import numpy as np, scipy.sparse as sp
    >>> a, b = sp.csc_matrix(np.array([[1, 0], [0, 2]])), sp.csc_matrix(np.array([[0, 4], [0, 5]]))
    >>> subtract(a, b).toarray().tolist()
    [[1, -4], [0, -3]]
    """
    return _merged("subtract", modulus, a, b)


def add_scaled(alpha: int, a: Matrix, beta: int, b: Matrix, modulus: Optional[int] = None) -> Matrix:
    """Returns the sum alpha a + beta b of multiples of two matrices in the same format, on the union of their patterns.

    >>> import numpy as np, scipy.sparse as sp
    >>> a, b = sp.csr_array(np.array([[1, 0], [0, 2]])), sp.csr_array(np.array([[3, 4], [0, 0]]))
    >>> add_scaled(2, a, -1, b).toarray().tolist()
    [[-1, -4], [0, 4]]
    >>> add_scaled(2, a, -1, b, modulus=5).toarray().tolist()
    [[4, 1], [0, 4]]
    """
    return _merged("add_scaled", modulus, a, b, _value("alpha", alpha), _value("beta", beta))


def matmul(a: Matrix, b: Matrix, modulus: Optional[int] = None) -> Matrix:
    """Returns the product of two matrices in the same format, with an entry (i, j) wherever some k has an entry (i, k)
    in a and (k, j) in b.

    >>> import numpy as np, scipy.sparse as sp
    >>> a = sp.csr_matrix(np.array([[1, 2], [0, 3]]))
    >>> matmul(a, a).toarray().tolist()
    [[1, 8], [0, 9]]
    >>> matmul(a, a, modulus=7).toarray().tolist()
    [[1, 1], [0, 2]]
    """
    x, y = pair_of(a, b)
    (rows, inner), (other, cols) = x.shape, y.shape
    if inner != other:
        raise Error(f"the shapes {x.shape} and {y.shape} do not fit")
    # By columns, the product of the transposes in the other order is the transpose of the product by rows.
    first, second = (y, x) if x.by_columns else (x, y)
    product = Owned.of_lanes(first, modulus)._and("multiply", Owned.of_lanes(second, modulus))
    wide = x.wide or y.wide
    offsets, indices, values = product.arrays(wide)
    return matrix_of(x.kind, (values, indices, offsets), (rows, cols), wide)


def multiply_dense(a: Matrix, b: Integers, modulus: Optional[int] = None) -> Integers:
    """Returns the dense product of a matrix by rows and a NumPy array, a vector or a matrix. The result is stored
    column by column.

    >>> import numpy as np, scipy.sparse as sp
    >>> multiply_dense(sp.csr_matrix(np.array([[1, 2], [0, 3]])), np.array([5, 7])).tolist()
    [19, 21]
    >>> multiply_dense(sp.csr_matrix(np.array([[1, 2], [0, 3]])), np.array([5, 7]), modulus=11).tolist()
    [8, 10]
    """
    lanes = lanes_of("a", a, "csr")
    rows, inner = lanes.shape
    values, cols = dense_of("b", b, inner)
    product = empty(rows * cols)
    call(*modular("multiply_dense", modulus), rows, inner, cols, *lanes.arrays, values, product)
    return product.reshape((rows, *b.shape[1:]), order="F")


def divide(matrix: Matrix, divisor: int, modulus: Optional[int] = None) -> Matrix:
    """Returns the matrix with each value times the inverse of an integer, in the same format.

    >>> import numpy as np, scipy.sparse as sp
    >>> a = sp.csr_matrix(np.array([[6, 9]]))
    >>> divide(a, 3).toarray().tolist()
    [[2, 3]]
    >>> divide(a, 2, modulus=7).toarray().tolist()
    [[3, 1]]
    """
    a = lanes_of("matrix", matrix, "csr", "csc")
    number = _value("divisor", divisor)
    parts = filled(a.sizes[0], a.values.size, *modular("divide", modulus), *a.sizes, *a.arrays, number)
    return matrix_of(a.kind, parts, a.shape, a.wide)
