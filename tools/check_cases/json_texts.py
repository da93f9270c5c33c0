"""JSON texts of lists, matrices and patterns over 32-bit integers."""
import json

from .arrays import FORMS, GREATEST, compressed, pattern_of, triplets_of
from .matrices import arrays_of, drawn_list, list_of, matrix_of, shown, shown_pattern
from .words import Refused, Unreadable, words_of

SIZES = ("nrows", "ncols")
# The fields in their order: two sizes, two lists of indices, and a list of values where there is one.
FIELDS = {
    "pattern": ("major_dim", "minor_dim", "major_offsets", "minor_indices"),
    "coo": (*SIZES, "row_indices", "col_indices", "values"),
    "csr": (*SIZES, "row_offsets", "col_indices", "values"),
    "csc": (*SIZES, "col_offsets", "row_indices", "values"),
}


def fields_of(kind, text):
    """Returns the fields of a JSON object with exactly these names, each once."""
    try:
        pairs = json.loads(text, object_pairs_hook=tuple, parse_constant=lambda _: None)
    except json.JSONDecodeError:
        raise Refused("Json") from None
    if not isinstance(pairs, tuple) or sorted(name for name, _ in pairs) != sorted(FIELDS[kind]):
        raise Refused("Json")
    found = dict(pairs)
    rows, cols, first, second, *values = (found[name] for name in FIELDS[kind])
    are_indices = all(is_list(part, 0, GREATEST) for part in ([rows, cols], first, second))
    if not are_indices or not all(is_list(part, -(2**31), 2**31 - 1) for part in values):
        raise Refused("Json")
    return (rows, cols), first, second, *values


def is_list(part, least, greatest):
    """Returns whether a part of a JSON text is a list of integers in a range."""
    return isinstance(part, list) and all(type(number) is int and least <= number <= greatest for number in part)


def read(kind, text, over):
    """Returns what a JSON text means."""
    size, *lists = fields_of(kind, text)
    if kind == "pattern":
        return shown_pattern(pattern_of(*size, *lists), over._replace(form="rows"))
    if kind == "coo":
        return drawn_list(triplets_of(size, *lists))
    form = over._replace(form=FORMS[kind])
    return shown(compressed(form, size, *lists), form)


def written(kind, text, over):
    """Returns the JSON text of a picture."""
    form = over._replace(form=FORMS.get(kind, "rows"))
    picture = words_of(text)[0]
    if kind == "coo":
        triplets = list_of(picture, over.scalars)
        size, lists = triplets.size, [list(part) for part in zip(*triplets.triplets)] or [[], [], []]
    else:
        matrix = matrix_of(picture, form)
        size, lists = matrix.size, arrays_of(matrix, form)
    return json.dumps(dict(zip(FIELDS[kind], [*size, *lists])), separators=(",", ":"))


def answer(name, call, over):
    """Returns the answer of a call that reads or writes a JSON text, or `None` if the name is not that of such a
    call."""
    if name not in ("from-json", "to-json"):
        return None
    kind, _, text = call.partition(" ")
    if kind not in FIELDS:
        raise Unreadable(f"{kind} has no JSON text")
    return read(kind, text, over) if name == "from-json" else written(kind, text, over)
