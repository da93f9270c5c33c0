"""Dense matrices: constructors, copies, comparisons, reading and writing."""
from .entries import or_none
from .matrices import Matrix, allocate, dense_of, drawn, places, truth
from .scalars import scalar_of
from .words import Picture, misfit, place_of, size_of


def made(name, size, values, scalars):
    """Returns the matrix of this size that a constructor returns for values, or `None` if it is not a constructor."""
    nrows, ncols = size
    if name in ("zeros", "repeat"):
        allocate(nrows * ncols, scalars.bytes)
        value = values[0] if name == "repeat" else scalars.reduced(0)
        return Matrix(nrows, ncols, {place: value for place in places(nrows, ncols)})
    if nrows * ncols != len(values):
        raise misfit()
    if name not in ("rows", "columns"):
        return None
    order = sorted(places(*size)) if name == "rows" else places(*size)
    return Matrix(nrows, ncols, dict(zip(order, values)))


def value_at(matrix, place):
    """Returns the value at a row and a column within bounds."""
    if place not in matrix.entries:
        raise misfit()
    return matrix.entries[place]


def column(matrix, index):
    """Returns the values of a column."""
    if matrix.ncols <= index:
        raise misfit()
    return or_none(str(matrix.entries[row, index]) for row in range(matrix.nrows))


def answer(words, over):
    """Returns the answer of a call `dense ..` on a dense matrix, or `None` if the call is not one."""
    match words:
        case ["dense", "get", place, Picture() as a]:
            return str(value_at(dense_of(a, over), place_of(place)))
        case ["dense", "set", place, int(value), Picture() as a]:
            matrix, place = dense_of(a, over), place_of(place)
            value_at(matrix, place)
            return drawn(matrix.with_entries({**matrix.entries, place: over.scalars.of(value)}))
        case ["dense", "column", int(index), Picture() as a]:
            return column(dense_of(a, over), index)
        case ["dense", "equal", Picture() as a, Picture() as b]:
            return truth(dense_of(a, over) == dense_of(b, over))
        case ["dense", "copy", Picture() as a]:
            return drawn(dense_of(a, over))
        case ["dense", "values", Picture() as a]:
            matrix = dense_of(a, over)
            return or_none(str(matrix.entries[place]) for place in places(*matrix.size))
        case ["dense", "zeros" | "repeat" | "rows" | "columns" as name, size, *values]:
            return drawn(made(name, size_of(size), [scalar_of(word, over.scalars) for word in values], over.scalars))
    return None
