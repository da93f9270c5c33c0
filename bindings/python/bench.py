"""Times the calls beside SciPy's, in turns, and prints one table: the ratio of the least times, ours to SciPy's.

bench.py [ROUNDS]. A line is that of the functions on SciPy's matrices, or of the operators of `Exact`, whose operands
and results stay behind handles. SciPy takes indices of 32 bits where they fit, and ours have 64. Its products are
sorted afterwards, as ours are. There is no limit for the times: a machine that does other work gives other ratios. The
second table is measured in a process that keeps freed memory (`reuse_memory`), for both.
"""
import os
import sys
import time

import numpy as np
import scipy.sparse as sp

import nalgebra_sparse as ours


def grid(side):
    """Returns the triplets of the adjacency matrix of a grid in row order, with the diagonal."""
    i = np.arange(side * side)
    x, y = i % side, i // side
    rows, cols = [], []
    for dx, dy in ((0, -1), (-1, 0), (0, 0), (1, 0), (0, 1)):
        inside = (0 <= x + dx) & (x + dx < side) & (0 <= y + dy) & (y + dy < side)
        rows.append(i[inside])
        cols.append((x + dx + (y + dy) * side)[inside])
    rows, cols = np.concatenate(rows), np.concatenate(cols)
    order = np.lexsort((cols, rows))
    return side * side, rows[order], cols[order]


def shuffled(size, places):
    random = np.random.default_rng(1)
    return size, random.integers(0, size, places), random.integers(0, size, places)


def sorted_square(matrix):
    square = matrix @ matrix
    square.sort_indices()
    return square


def tasks(size, rows, cols):
    """Returns the tasks on a matrix: a name, our function, the operator of `Exact`, and SciPy's call."""
    values = np.random.default_rng(2).integers(-9, 10, len(rows))
    small = rows.astype(np.int32), cols.astype(np.int32)
    shape = size, size
    matrix = ours.assemble_csr(shape, rows, cols, values)
    theirs = sp.coo_matrix((values, small), shape).tocsr()
    turned, turned_theirs = ours.transpose(matrix), theirs.T.tocsr()
    exact = ours.Exact.from_triplets(shape, rows, cols, values)
    turned_exact = exact.T
    return [
        (
            "assembly",
            lambda: ours.assemble_csr(shape, rows, cols, values),
            lambda: ours.Exact.from_triplets(shape, rows, cols, values),
            lambda: sp.coo_matrix((values, small), shape).tocsr(),
        ),
        ("square", lambda: ours.matmul(matrix, matrix), lambda: exact @ exact, lambda: sorted_square(theirs)),
        ("sum A + A^T", lambda: ours.add(matrix, turned), lambda: exact + turned_exact, lambda: theirs + turned_theirs),
        ("transpose", lambda: ours.transpose(matrix), lambda: exact.T, lambda: theirs.T.tocsr()),
    ]


def time_of(call):
    start = time.perf_counter()
    call()
    return time.perf_counter() - start


def ratios_of(rounds, function, operator, theirs):
    """Returns the ratios of the least times of our two calls to SciPy's."""
    times = [(time_of(function), time_of(operator), time_of(theirs)) for _ in range(rounds)]
    ours, exact, other = map(min, zip(*times))
    return ours / other, exact / other


def main():
    rounds = int(sys.argv[1]) if len(sys.argv) > 1 else 7
    inputs = [
        ("10^5 rows, 10^6 shuffled triplets", shuffled(100_000, 1_000_000)),
        ("grid of 500 by 500, in row order", grid(500)),
    ]
    print("| | " + " | ".join(name for name, *_ in tasks(*shuffled(4, 4))) + " |")
    for name, triplets in inputs:
        ratios = [ratios_of(rounds, *calls) for _, *calls in tasks(*triplets)]
        for way, line in zip(("functions", "Exact"), zip(*ratios)):
            print(f"| {way}, {name} | " + " | ".join(f"{ratio:.2f}" for ratio in line) + " |", flush=True)


if __name__ == "__main__":
    if os.environ.get("KEEP") != "1":
        print("memory given back, as glibc is:")
        main()
        print("freed memory kept:", flush=True)
        os.environ["KEEP"] = "1"
        os.execv(sys.executable, [sys.executable, *sys.argv])
    ours.reuse_memory()
    main()
