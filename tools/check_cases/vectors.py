"""Products of a lane and a dense vector: of a row by rows, and of a column by columns. A sparse vector is a list."""
from .entries import lane
from .matrices import dense_of, drawn, list_of, matrix_of
from .words import Picture, index_of, misfit


def lane_of(index, matrix, over):
    """Returns the indices and values of a lane, and its length."""
    found = lane(matrix, index, over)
    if found is None:
        raise misfit()
    return list(found[0].items()), found[1]


def sparse_vector(picture, over):
    """Returns the indices and values of a list with one row, in its order, and its length."""
    triplets = list_of(picture, over.scalars)
    return [(col, value) for _, col, value in triplets.triplets], triplets.ncols


def vector_of(picture, over):
    """Returns a dense matrix, and the pairs (row, column) of its elements column after column."""
    matrix = dense_of(picture, over)
    return matrix, sorted(matrix.entries, key=lambda place: place[::-1])


def dot(sparse, picture, over):
    """Returns the dot product of a sparse and a dense vector."""
    (entries, length), (vector, order) = sparse, vector_of(picture, over)
    if length != len(order):
        raise misfit()
    return str(over.scalars.reduced(sum(value * vector.entries[order[index]] for index, value in entries)))


def axpy(factor, sparse, picture, over):
    """Returns a dense vector after a multiple of a sparse one is added."""
    (entries, length), (vector, order) = sparse, vector_of(picture, over)
    if length != len(order):
        raise misfit()
    after = dict(vector.entries)
    for index, value in entries:
        after[order[index]] = over.scalars.reduced(after[order[index]] + over.scalars.of(factor) * value)
    return drawn(vector.with_entries(after))


def answer(words, over):
    """Returns the answer of a call on a lane or a sparse vector, and a dense vector, or `None`."""
    match words:
        case ["dot", int(index), Picture() as a, Picture() as x]:
            return dot(lane_of(index_of(index), matrix_of(a, over), over), x, over)
        case ["axpy", int(factor), int(index), Picture() as a, Picture() as y]:
            return axpy(factor, lane_of(index_of(index), matrix_of(a, over), over), y, over)
        case ["usdot", Picture() as x, Picture() as y]:
            return dot(sparse_vector(x, over), y, over)
        case ["usaxpy", int(factor), Picture() as x, Picture() as y]:
            return axpy(factor, sparse_vector(x, over), y, over)
    return None
