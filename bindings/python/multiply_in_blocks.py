"""Multiplies two matrices by blocks of rows on a cluster of two workers, and compares the bytes with those of one call.

The rows i to j of a product are the rows i to j of the first operand times the second, and stacked again they are the
product, for any blocks: `product_blocks_law` and `stacked_law` in crates/examples_theorems/src/blocks.rt. Values wrap,
and no sum is rounded, so all blocks give the same bytes. Needs Debian's python3-dask and python3-distributed. A cluster
of several machines differs in one line: `Client("tcp://HOST:8786")`.
"""
import numpy as np
import scipy.sparse as sp
from distributed import Client, LocalCluster

import nalgebra_sparse


def rows_of(matrix, start, end):
    """Returns the rows of a CSR matrix from one to below another."""
    first, last = matrix.indptr[start], matrix.indptr[end]
    arrays = matrix.data[first:last], matrix.indices[first:last], matrix.indptr[start : end + 1] - first
    return sp.csr_matrix(arrays, shape=(end - start, matrix.shape[1]))


def stacked(blocks):
    """Returns the matrix of CSR matrices one below the other."""
    starts = np.cumsum([0, *(block.nnz for block in blocks)])
    offsets = [block.indptr[1:] + start for block, start in zip(blocks, starts)]
    values, indices = (np.concatenate([getattr(block, name) for block in blocks]) for name in ("data", "indices"))
    rows = sum(block.shape[0] for block in blocks)
    return sp.csr_matrix((values, indices, np.concatenate([[0], *offsets])), shape=(rows, blocks[0].shape[1]))


def random_matrix(random, size, places):
    i, j = random.integers(0, size, (2, places))
    return nalgebra_sparse.assemble_csr((size, size), i, j, random.integers(-(2**63), 2**63 - 1, places))


def main():
    random = np.random.default_rng(3)
    a, b = random_matrix(random, 3000, 20000), random_matrix(random, 3000, 20000)
    # Blocks of different sizes, one of them empty.
    cuts = [0, 0, 1, *range(500, 3001, 500)]
    with LocalCluster(n_workers=2, threads_per_worker=1, dashboard_address=None) as cluster, Client(cluster) as client:
        second = client.scatter(b, broadcast=True)
        sent = [client.submit(nalgebra_sparse.matmul, rows_of(a, *cut), second) for cut in zip(cuts, cuts[1:])]
        product = stacked(client.gather(sent))
    whole = nalgebra_sparse.matmul(a, b)
    for name in ("indptr", "indices", "data"):
        assert getattr(product, name).tobytes() == getattr(whole, name).tobytes(), name
    print(f"{len(sent)} blocks on 2 workers have the bytes of one call")


if __name__ == "__main__":
    main()
