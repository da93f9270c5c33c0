"""Matrices as they are, transposed, in parts, in the other format, as lists and as dense matrices."""
from .matrices import (
    INDEX_BYTES, Matrix, Triplets, allocate, dense, dense_of, drawn, drawn_arrays, drawn_list, list_of, matrix_of,
    places, shown, shown_pattern, summed, truth, words_after,
)
from .words import Picture, place_of, size_of

# The tests of the entries that are kept.
KEPT = {
    "upper": lambda row, col, _: row <= col,
    "lower": lambda row, col, _: row >= col,
    "diagonal": lambda row, col, _: row == col,
    "all": lambda row, col, _: True,
    "none": lambda row, col, _: False,
    "off-diagonal": lambda row, col, _: row != col,
    "nonzero": lambda row, col, value: value != 0,
}


def answer(words, over):
    """Returns the answer of a conversion or of a call for a part of a matrix, or `None` if the call is not one."""
    scalars = over.scalars
    match words:
        case ["zeros", size]:
            return shown(Matrix(*size_of(size), {}), over)
        case ["identity", int(size)]:
            allocate(size, INDEX_BYTES)
            return shown(Matrix(size, size, {(at, at): scalars.one for at in range(size)}), over)
        case ["keep", test, Picture() as a]:
            kept = KEPT[test] if test in KEPT else lambda row, col, _: (row, col) == place_of(test)
            return shown(matrix_of(a, over).kept(kept), over)
        case ["view", "list", Picture() as a]:
            return drawn_list(list_of(a, scalars))
        case ["list", "dense", Picture() as a]:
            whole = dense_of(a, over)
            found = [(*place, whole.entries[place]) for place in places(*whole.size) if whole.entries[place] != 0]
            return drawn_list(Triplets(*whole.size, found))
        case ["dense", "triplets", Picture() as a]:
            return drawn(dense(summed(list_of(a, scalars), scalars), scalars))
        case ["triplets", Picture() as a, "==", Picture() as b]:
            return truth(list_of(a, scalars) == list_of(b, scalars))
        case [Picture() as a, "==", Picture() as b]:
            return truth(matrix_of(a, over) == matrix_of(b, over))
        case [str(name), Picture() as a]:
            return converted(name, a, over)
    return None


def converted(name, picture, over):
    """Returns the answer of a name before a matrix, or `None` if it is not that of a conversion."""
    if name == "sparse":
        whole = dense_of(picture, over)
        return shown(whole.kept(KEPT["nonzero"]), over)
    matrix = matrix_of(picture, over)
    match name:
        case "copy" | "view" | "rejoin":
            return shown(matrix, over)
        case "upper" | "lower" | "diagonal":
            return shown(matrix.kept(KEPT[name]), over)
        case "turn":
            return shown(matrix, over.other())
        case "transpose-as":
            return shown(matrix.transposed(), over.other())
        case "list":
            return drawn_list(Triplets(*matrix.size, matrix.in_order(over)))
        case "dense":
            return drawn(dense(matrix, over.scalars))
        case "arrays" | "disassemble":
            return drawn_arrays(matrix, over)
        case "parts":
            values = [value for _, _, value in matrix.in_order(over)]
            return " ".join([shown_pattern(matrix, over), words_after("values", values)])
    return None
