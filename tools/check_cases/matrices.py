"""Plain matrices, lists of triplets, and the pictures of both.

A plain matrix is a shape and a dictionary from (row, column) to numbers, with a key for each place. A dense one has a
key for each row and column.
"""
import re
from typing import NamedTuple

from .scalars import scalar_of
from .words import Refused, Unreadable, index_of, size_of

# No machine has so many bytes: a request for more fails.
MOST_BYTES = 2**40
INDEX_BYTES = 8
# The most elements that a matrix has here.
MOST_ELEMENTS = 2**22
# The most cells of a picture in an answer.
MOST_CELLS = 256


class Over(NamedTuple):
    """What a row is run over: `rows` or `columns`, and the scalars."""

    form: str
    scalars: object

    def other(self):
        """Returns the same in the other format."""
        return Over("columns" if self.form == "rows" else "rows", self.scalars)

    def lane(self, place):
        """Returns a row and a column as a lane and an index in it."""
        return place if self.form == "rows" else place[::-1]


class Matrix(NamedTuple):
    """A plain matrix."""

    nrows: int
    ncols: int
    entries: dict

    @property
    def size(self):
        return self.nrows, self.ncols

    def transposed(self):
        """Returns the transpose."""
        return Matrix(self.ncols, self.nrows, {(col, row): value for (row, col), value in self.entries.items()})

    def with_entries(self, entries):
        """Returns a matrix of this size with these entries."""
        return Matrix(self.nrows, self.ncols, entries)

    def kept(self, is_kept):
        """Returns the entries whose row, column and value a test accepts."""
        return self.with_entries({place: value for place, value in self.entries.items() if is_kept(*place, value)})

    def in_order(self, over):
        """Returns the triplets lane after lane."""
        return [(*place, self.entries[place]) for place in sorted(self.entries, key=over.lane)]


class Triplets(NamedTuple):
    """A list of triplets, in their order."""

    nrows: int
    ncols: int
    triplets: list

    @property
    def size(self):
        return self.nrows, self.ncols


def allocate(count, size):
    """Fails if so many elements of so many bytes do not fit in memory."""
    if MOST_BYTES < count * size:
        raise Refused("out of memory")
    if MOST_ELEMENTS < count:
        raise Unreadable(f"{count} elements are too many to be made here")


def places(nrows, ncols):
    """Returns all pairs (row, column), column after column."""
    return [(row, col) for col in range(ncols) for row in range(nrows)] if nrows else []


def with_lanes(matrix, over):
    """Returns a matrix, if its offsets fit in memory."""
    allocate(over.lane(matrix.size)[0], INDEX_BYTES)
    return matrix


def list_of(picture, scalars):
    """Returns the list of the triplets in a picture."""
    words = picture.text.split()
    if words and re.fullmatch(r"[0-9]+x[0-9]+", words[0]):
        nrows, ncols = size_of(words[0])
        triplets = [triplet for word in words[1:] for triplet in triplets_of(word, (nrows, ncols), scalars)]
        return Triplets(nrows, ncols, triplets)
    rows = [row.split() for row in picture.text.split("/")]
    if len({len(row) for row in rows}) != 1 or not rows[0]:
        raise Unreadable("the rows differ in length, or are empty")
    words = [(i, j, word) for i, row in enumerate(rows) for j, word in enumerate(row) if word != "."]
    return Triplets(len(rows), len(rows[0]), [(i, j, scalar_of(word, scalars)) for i, j, word in words])


def triplets_of(word, size, scalars):
    """Returns the triplets that a word such as `(1,2)=3` or `(*,2)=3` writes."""
    found = re.fullmatch(r"\(([^,]+),([^,]+)\)=(.+)", word)
    if not found:
        raise Unreadable(f"{word} is not a triplet")
    rows, cols = indices_of(found[1], size[0]), indices_of(found[2], size[1])
    return [(row, col, scalar_of(found[3], scalars)) for row in rows for col in cols]


def indices_of(word, count):
    """Returns the indices below a number that a word writes."""
    spans = {"*": range(count), "even": range(0, count, 2), "odd": range(1, count, 2)}
    if word in spans:
        allocate(count, INDEX_BYTES)
        return spans[word]
    if count <= index_of(word):
        raise Unreadable(f"{word} is not below {count}")
    return [index_of(word)]


def summed(triplets, scalars):
    """Returns the matrix of a list: for each row and column in it the sum of the values there."""
    entries = {}
    for row, col, value in triplets.triplets:
        entries[row, col] = scalars.reduced(entries[row, col] + value) if (row, col) in entries else value
    return Matrix(triplets.nrows, triplets.ncols, entries)


def inner_of(picture, over):
    """Returns the compressed matrix of a picture, not transposed."""
    return with_lanes(summed(list_of(picture, over.scalars), over.scalars), over)


def matrix_of(picture, over):
    """Returns the compressed matrix of a picture, transposed if the picture is."""
    matrix = inner_of(picture, over)
    return with_lanes(matrix.transposed(), over) if picture.is_transposed else matrix


def operand_of(picture, over):
    """Returns the matrix of an operand. The operation is told whether it is transposed, so this needs no memory."""
    matrix = inner_of(picture, over)
    return matrix.transposed() if picture.is_transposed else matrix


def dense(matrix, scalars):
    """Returns the dense matrix of a matrix."""
    allocate(matrix.nrows * matrix.ncols, scalars.bytes)
    return matrix.with_entries({place: matrix.entries.get(place, 0) for place in places(*matrix.size)})


def dense_of(picture, over):
    """Returns the dense matrix of a picture, transposed if the picture is."""
    matrix = dense(summed(list_of(picture, over.scalars), over.scalars), over.scalars)
    return matrix.transposed() if picture.is_transposed else matrix


def drawn(matrix, cell=str):
    """Returns the picture of a matrix, or its size if it has no rows or columns."""
    if 0 in matrix.size:
        return "[{}x{}]".format(*matrix.size)
    cells = {place: cell(value) for place, value in matrix.entries.items()}
    rows = [" ".join(cells.get((row, col), ".") for col in range(matrix.ncols)) for row in range(matrix.nrows)]
    return "[" + " / ".join(rows) + "]"


def drawn_triplet(row, col, value):
    """Returns a triplet as rows write it."""
    return f"({row},{col})={value}"


def drawn_list(triplets):
    """Returns a list as its size and its triplets."""
    words = [drawn_triplet(*triplet) for triplet in triplets.triplets]
    return "[" + " ".join(["{}x{}".format(*triplets.size), *words]) + "]"


def shown(matrix, over, cell=str):
    """Returns the answer that is a compressed matrix: its picture, or the triplets of a large one."""
    with_lanes(matrix, over)
    if MOST_CELLS < matrix.nrows * matrix.ncols:
        return drawn_list(Triplets(*matrix.size, matrix.in_order(over)))
    return drawn(matrix, cell)


def shown_pattern(matrix, over):
    """Returns the answer that is a pattern: its picture, or the entries of a large one as triplets of ones."""
    return shown(matrix.with_entries(dict.fromkeys(matrix.entries, 1)), over, lambda _: "x")


def arrays_of(matrix, over):
    """Returns the offsets, the indices and the values of a compressed matrix."""
    triplets = matrix.in_order(over)
    lanes = [over.lane((row, col)) for row, col, _ in triplets]
    count = over.lane(matrix.size)[0]
    offsets = [sum(lane < bound for lane, _ in lanes) for bound in range(count + 1)]
    return offsets, [index for _, index in lanes], [value for _, _, value in triplets]


def words_after(name, numbers):
    """Returns a name and numbers, separated by spaces."""
    return " ".join([name, *map(str, numbers)])


def drawn_arrays(matrix, over):
    """Returns the answer that is the arrays of a compressed matrix."""
    return " ".join(map(words_after, ("offsets", "indices", "values"), arrays_of(matrix, over)))


def truth(holds):
    """Returns `true` or `false`."""
    return "true" if holds else "false"
