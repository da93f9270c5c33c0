"""Entries, rows, columns and triplets of compressed matrices, read and written."""
from .matrices import drawn_triplet, matrix_of, shown, truth
from .words import Picture, Unreadable, index_of, place_of


def or_none(words):
    """Returns words separated by spaces, or `none` if there is none."""
    return " ".join(words) or "none"


def entry(matrix, row, col):
    """Returns the number at a row and a column, `.` if none is stored there, and `none` out of bounds."""
    if row < matrix.nrows and col < matrix.ncols:
        return str(matrix.entries.get((row, col), "."))
    return "none"


def with_value(matrix, place, value):
    """Returns a matrix after a value was written to an entry, if it is stored."""
    return matrix.with_entries({**matrix.entries, place: value}) if place in matrix.entries else matrix


def lane(matrix, index, over):
    """Returns the entries of a lane by their indices, and its length, or `None` out of bounds."""
    count, length = over.lane(matrix.size)
    if count <= index:
        return None
    lanes = [(*over.lane(place), value) for place, value in matrix.entries.items()]
    return {at: value for number, at, value in lanes if number == index}, length


def drawn_lane(lane, over):
    """Returns the picture of a lane, or `none` out of bounds."""
    if lane is None:
        return "none"
    entries, length = lane
    cells = [str(entries.get(index, ".")) for index in range(length)]
    return "[" + (" " if over.form == "rows" else " / ").join(cells) + "]"


def of_lanes(name, words, over):
    """Returns the answer of `row i A`, `row i == j A` or `rows A`, or of the same with columns."""
    if name.rstrip("s") != over.form.rstrip("s"):
        raise Unreadable(f"there is no {name} by {over.form}")
    match words:
        case [int(index), Picture() as a]:
            return drawn_lane(lane(matrix_of(a, over), index_of(index), over), over)
        case [int(left), "==", int(right), Picture() as a]:
            lanes = [lane(matrix_of(a, over), index_of(index), over) for index in (left, right)]
            return "none" if None in lanes else truth(lanes[0] == lanes[1])
        case [Picture() as a]:
            matrix = matrix_of(a, over)
            count = over.lane(matrix.size)[0]
            return or_none(drawn_lane(lane(matrix, index, over), over) for index in range(count))
    return None


def answer(words, over):
    """Returns the answer of a call on an entry, on a lane or on all triplets, or `None` if the call is not one."""
    scalars = over.scalars
    match words:
        case ["entry", place, Picture() as a]:
            return entry(matrix_of(a, over), *place_of(place))
        case ["set", place, int(value), Picture() as a]:
            return shown(with_value(matrix_of(a, over), place_of(place), scalars.of(value)), over)
        case ["double", Picture() as a]:
            matrix = matrix_of(a, over)
            doubled = {place: scalars.reduced(2 * value) for place, value in matrix.entries.items()}
            return shown(matrix.with_entries(doubled), over)
        case ["triplets", Picture() as a]:
            return or_none(drawn_triplet(*found) for found in matrix_of(a, over).in_order(over))
        case ["row" | "column" | "rows" | "columns" as name, *rest]:
            return of_lanes(name, rest, over)
    return None
