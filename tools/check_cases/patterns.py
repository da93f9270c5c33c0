"""Patterns, whose lanes are rows."""
from .arrays import FAULTS, pattern_of
from .entries import lane, or_none
from .matrices import Matrix, arrays_of, matrix_of, shown_pattern, truth, with_lanes, words_after
from .words import Picture, Refused, index_of, named_lists, size_of


def of_arrays(name, size, words):
    """Returns the pattern of arrays. After the name `kind` a fault is shown as the error of a matrix."""
    lists = [[index_of(word) for word in words] for words in named_lists(words, ("offsets", "indices"))]
    try:
        return pattern_of(*size, *lists)
    except Refused as error:
        if name == "of":
            raise
        raise Refused(FAULTS[error.kind][0], error.message) from None


def transposed(pattern, values, over):
    """Returns the transpose of a pattern and the values that are moved with its entries."""
    turned = with_lanes(pattern, over.other()).transposed()
    moved = dict(zip(sorted(pattern.entries), values))
    return turned, [moved[place[::-1]] for place in sorted(turned.entries)]


def of_one(name, pattern, over):
    """Returns the answer of a name before one pattern, or `None` if it is not that of a call on patterns."""
    match name:
        case "copy" | "data":
            return shown_pattern(pattern, over)
        case "arrays":
            offsets, indices, _ = arrays_of(pattern, over)
            return words_after("offsets", offsets) + " " + words_after("indices", indices)
        case "entries":
            return or_none(f"({row},{col})" for row, col in sorted(pattern.entries))
        case "transpose":
            return shown_pattern(transposed(pattern, pattern.entries, over)[0], over)
    return None


def answer(words, over):
    """Returns the answer of a call `pattern ..` on a pattern, or `None` if the call is not one."""
    over = over._replace(form="rows")
    match words:
        case ["pattern", "of" | "kind" as name, size, *lists]:
            return shown_pattern(of_arrays(name, size_of(size), lists), over)
        case ["pattern", "zeros", size]:
            return shown_pattern(Matrix(*size_of(size), {}), over)
        case ["pattern", "lane", int(index), Picture() as a]:
            found = lane(matrix_of(a, over), index_of(index), over)
            return "none" if found is None else words_after("indices", sorted(found[0]))
        case ["pattern", "equal", Picture() as a, Picture() as b]:
            a, b = matrix_of(a, over), matrix_of(b, over)
            return truth((a.size, a.entries.keys()) == (b.size, b.entries.keys()))
        case ["pattern", "transpose", Picture() as a, "values", *values]:
            pattern, values = transposed(matrix_of(a, over), values, over)
            return shown_pattern(pattern, over) + " " + words_after("values", values)
        case ["pattern", str(name), Picture() as a]:
            return of_one(name, matrix_of(a, over), over)
    return None
