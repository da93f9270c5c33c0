"""Tables: their lines, and whether the answer of each row is the one that is computed here."""
from typing import NamedTuple

from .calls import answer
from .matrices import Over, list_of, shown, summed
from .scalars import BY_NAME
from .words import Picture, Refused, Unreadable, words_of

# The mark in the picture of an answer, where one word means several triplets.
SPANS = ("(*,", ",*)", "(even,", ",even)", "(odd,", ",odd)")


class Row(NamedTuple):
    """A row of a table: its file and line, what it is run over, and its text."""

    place: str
    over: str
    text: str


def rows_of(path):
    """Returns the rows of a table."""
    rows, over = [], ""
    with open(path, encoding="utf-8") as file:
        for number, line in enumerate(file, 1):
            text = "" if line.startswith("#") else line.split(" #")[0].strip()
            if text.startswith("over "):
                over = text.removeprefix("over ")
            elif text and not text.startswith("calls "):
                rows.append(Row(f"{path}:{number}", over, text))
    return rows


def overs_of(text):
    """Returns each format with each of the scalars that a line `over` names."""
    names = text.split()
    forms = [name for name in names if name in ("rows", "columns")]
    scalars = [BY_NAME[name] for name in names if name in BY_NAME]
    if not forms or not scalars or len(forms) + len(scalars) != len(names):
        raise Unreadable(f"is over nothing, or over something unknown: {text}")
    return [Over(form, scalar) for form in forms for scalar in scalars]


def difference(row):
    """Returns what a row says and what is computed for the first scalar and format for which these differ, or
    `None`."""
    call, arrow, wanted = (part.strip() for part in row.text.partition(" -> "))
    if not arrow:
        return "has no arrow"
    try:
        overs = overs_of(row.over)
    except Unreadable as error:
        return str(error)
    for over in overs:
        computed = computed_for(call, wanted, over)
        if computed != wanted:
            return f"says      {wanted}\n  computed  {computed} ({over.scalars.name} by {over.form})"
    return None


def computed_for(call, wanted, over):
    """Returns the computed answer of a call, written as the row does if it may be written so."""
    try:
        computed = answer(call, over)
        return wanted if redrawn(wanted, over) == computed else computed
    except Refused as error:
        return wanted if wanted == error.kind else str(error)
    except Unreadable as error:
        return f"can't be computed: {error}"
    except Exception as error:  # A fault of this program: the row differs, and the others are computed.
        return f"can't be computed: {error!r}"


def redrawn(wanted, over):
    """Returns the answer that a row means: in a picture of a matrix one word may mean several triplets."""
    if any(span in wanted for span in SPANS):
        match words_of(wanted):
            case [Picture(_, False) as picture]:
                return shown(summed(list_of(picture, over.scalars), over.scalars), over)
    return wanted
