"""The command `python -m nalgebra_sparse`: solves a system of integers from Matrix Market files over the fractions."""
from __future__ import annotations

import argparse
import os
import sys
from typing import Any, Optional, Sequence

import numpy as np
import scipy.sparse as sp

from . import MODULI, Error, __version__, mmread, solve_rational


def _sums(triplets: sp.coo_matrix) -> dict[tuple[int, int], int]:
    """Returns the sums of the values with the same row and column, which do not wrap."""
    sums: dict[tuple[int, int], int] = {}
    for i, j, value in zip(triplets.row.tolist(), triplets.col.tolist(), triplets.data.tolist()):
        sums[i, j] = sums.get((i, j), 0) + value
    for (i, j), value in sums.items():
        if not -(2**63) <= value < 2**63:
            raise Error(f"the sum of the entries at row {i + 1} and column {j + 1} has more than 64 bits")
    return sums


def _matrix(path: str) -> sp.csr_matrix:
    """Returns the matrix of a file by rows. An error names the file."""
    try:
        triplets = mmread(path)
        sums = _sums(triplets)
    except Error as error:
        raise Error(f"{path}: {error}") from error
    i, j = np.array(list(sums), np.int64).reshape(-1, 2).T
    matrix = sp.csr_matrix((np.array(list(sums.values()), np.int64), (i, j)), triplets.shape)
    matrix.sort_indices()
    return matrix


def _solution(a: str, b: str, prime: Optional[int]) -> Any:
    """Returns the rational X for which A X = B, for matrices in files."""
    matrix, right = _matrix(a), _matrix(b)
    if matrix.shape[0] != matrix.shape[1] or matrix.shape[0] != right.shape[0]:
        raise Error(f"the shapes {matrix.shape} of {a} and {right.shape} of {b} do not fit: A must be square, and B have its rows")
    return solve_rational(matrix, right.toarray(), prime)


def _parser() -> argparse.ArgumentParser:
    parser = argparse.ArgumentParser(prog="python -m nalgebra_sparse", description="Exact sparse matrices.")
    parser.add_argument("--version", action="version", version=__version__)
    commands = parser.add_subparsers(dest="command", required=True)
    solve = commands.add_parser(
        "solve",
        help="write the rational X with A X = B as fractions",
        description="Writes the rational X with A X = B, a line for each row, with blanks between fractions such as 2/5. "
        "A and B are Matrix Market files with integers; A is square and not singular, and B has any number of columns.",
    )
    solve.add_argument("a", metavar="A.mtx")
    solve.add_argument("b", metavar="B.mtx")
    solve.add_argument("--prime", type=int, help=f"the prime modulo which A is factored: {', '.join(map(str, MODULI[1:]))}")
    return parser


def main(arguments: Optional[Sequence[str]] = None) -> int:
    """Runs the command. Returns its exit status: 1 at an error, which is one line on standard error."""
    words = _parser().parse_args(arguments)
    if hasattr(sys, "set_int_max_str_digits"):
        # Numerators and denominators may have more digits than Python writes unless it is told to.
        sys.set_int_max_str_digits(0)
    try:
        for row in _solution(words.a, words.b, words.prime).tolist():
            print(*row)
        sys.stdout.flush()
    except BrokenPipeError:
        # The reader has what it wanted. Python would flush once more as it ends.
        os.dup2(os.open(os.devnull, os.O_WRONLY), sys.stdout.fileno())
        return 1
    except (Error, OSError, MemoryError) as error:
        print(f"nalgebra_sparse: {error}", file=sys.stderr)
        return 1
    return 0


if __name__ == "__main__":
    sys.exit(main())
