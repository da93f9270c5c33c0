"""Squares a matrix by rows and prints the entries of the result."""
import numpy as np

import nalgebra_sparse

# The entry (1, 1) is given twice; its values are added.
rows, cols, values = np.array([0, 0, 1, 1]), np.array([0, 1, 1, 1]), np.array([1, 2, 2, 1])
matrix = nalgebra_sparse.assemble_csr((2, 2), rows, cols, values)
square = nalgebra_sparse.matmul(matrix, matrix).tocoo()
for i, j, value in zip(square.row, square.col, square.data):
    print(i, j, value)
