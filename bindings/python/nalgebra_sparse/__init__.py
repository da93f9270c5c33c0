"""Exact sparse matrices over the integers modulo 2^64, by the proved static library `sparse_c`.

The functions take and return SciPy matrices, `csr_matrix` and `csc_matrix` or `csr_array` and `csc_array`. The result
has the class of the first operand, and values are `int64`. Sums and products wrap. `bindings/c/nalgebra_sparse.h` says
what is proved about the calls; this module is only tested.

Operands with other dtypes of integers that fit in `int64`, or that are not contiguous, are copied once. No other thread
may change an operand during a call. Otherwise several threads may call at once, since a call does not hold Python's
lock.

Assembly, sums, products, division, solves and factors are also computed modulo a prime: `modulus` is one of `MODULI`.
An integer then means its residue, also if it is negative, and the values of a result are from 0 to modulus - 1.

`Exact` is a matrix that the library owns, with operators and solves: its arrays are checked once. Its values are
integers modulo 2^64, and the operators copy no operand; or modulo a prime, with `modulus`.

Calls on symmetric matrices test the symmetry, unless `assume_symmetric=True` is given: then they read the entries on
and above the diagonal alone.

A call that is refused raises an `Error` or a `MemoryError`, and an argument of the wrong type a `TypeError`.

`bindings/python/build` builds the shared library that is loaded here. `NALGEBRA_SPARSE_LIBRARY` names another one.

>>> import numpy as np
>>> import nalgebra_sparse
>>> rows, cols, values = np.array([0, 0, 1, 1]), np.array([0, 1, 1, 1]), np.array([1, 2, 2, 1])
>>> matrix = nalgebra_sparse.assemble_csr((2, 2), rows, cols, values)
>>> nalgebra_sparse.matmul(matrix, matrix).toarray().tolist()
[[1, 8], [0, 9]]
"""
from __future__ import annotations

import ctypes
import os

# Before the other modules, which take it from here.
MODULI = (2, 3, 5, 7, 11, 13, 101, 65537, 998244353, 1000000007, 2305843009213693951)

from ._errors import DuplicateEntry, Error, IndexOutOfBounds, InvalidStructure, InvalidText  # noqa: E402
from ._errors import RingMismatch, Singular, UnknownModulus  # noqa: E402
from ._exact import Exact, Factorisation  # noqa: E402
from ._matrices import add, add_scaled, assemble_csc, assemble_csr, divide, matmul, multiply_dense, subtract, transpose  # noqa: E402
from ._operands import integer as _integer  # noqa: E402
from ._rational import solve_rational  # noqa: E402
from ._systems import factor_symmetric, fill, singular_column, solve_lower, solve_symmetric  # noqa: E402
from ._texts import mmread, mmwrite, read, write  # noqa: E402

__all__ = [
    "MODULI",
    "DuplicateEntry",
    "Error",
    "Exact",
    "Factorisation",
    "IndexOutOfBounds",
    "InvalidStructure",
    "InvalidText",
    "RingMismatch",
    "Singular",
    "UnknownModulus",
    "add",
    "add_scaled",
    "assemble_csc",
    "assemble_csr",
    "divide",
    "factor_symmetric",
    "fill",
    "matmul",
    "mmread",
    "mmwrite",
    "multiply_dense",
    "read",
    "reuse_memory",
    "singular_column",
    "solve_lower",
    "solve_rational",
    "solve_symmetric",
    "subtract",
    "transpose",
    "write",
]


def _version() -> str:
    """Returns the text of the file VERSION: of the one beside this file if the package is installed, else of the one in
    the repository."""
    here = os.path.dirname(os.path.abspath(__file__))
    path = os.path.join(here, "VERSION")
    if not os.path.exists(path):
        path = os.path.join(here, "..", "..", "..", "VERSION")
    with open(path, encoding="ascii") as file:
        return file.read().strip()


__version__ = _version()


def reuse_memory(most: int = 1 << 30) -> bool:
    """Lets the process keep up to `most` bytes of freed memory for its next allocations. Returns whether this could be
    set.

    By default glibc gives the memory of large arrays back to the system, and each call pays for its pages again: about
    a third of the time of `assemble_csr` with a million triplets. This sets two limits of malloc (mallopt) for the
    whole process, so it is done only on request. Other C libraries ignore it.
    """
    if not 0 <= _integer("most", most) < 2**31:
        raise Error(f"most must be from 0 to 2^31 - 1, not {most}")
    try:
        mallopt = ctypes.CDLL(None).mallopt
    except AttributeError:
        return False
    trim_threshold, mmap_threshold = -1, -3
    # Older versions of glibc take no threshold for mmap above 32 MiB.
    return bool(mallopt(trim_threshold, most)) and any(mallopt(mmap_threshold, limit) for limit in (most, min(most, 1 << 25)))
