"""Calls on Matrix Market texts. In a row `|` ends a line, and `\\s` and the like mean blank characters."""
import re

from .market import MIXED, meaning, written
from .matrices import Triplets, drawn_list, list_of, summed
from .scalars import TOO_SMALL, scalar_of
from .words import Picture, Refused, Unreadable, words_of

FIRST = "%%MatrixMarket matrix "
ESCAPES = {"\\r": "\r", "\\n": "\n", "\\t": "\t", "\\f": "\f", "\\s": " "}
# The errors that are converted to errors of a text: that of a missing file, the kind of a failed write, a word that is
# not a number, a number that a type does not have, and two entries with the same row and column.
ERRORS = {
    "AllocError": ("OutOfMemory", "Out of memory."),
    "io::Error": ("IOError(NotFound)", "The reader or writer failed."),
    "io::ErrorKind": ("IOError(WriteZero)", "The reader or writer failed."),
    "ParseIntError": ("ParsingError", "Can't parse data as i128."),
    "TryFromIntError": TOO_SMALL,
    "SparseFormatError": ("SparseFormatError(DuplicateEntry)", "Twice."),
}


def unescaped(text):
    """Returns the text that a row writes."""
    text = re.sub(r" *\| *", "\n", text)
    return re.sub(r"\\.", lambda found: ESCAPES.get(found[0], found[0]), text)


def lines_of(text):
    """Returns a text as rows write it."""
    lines = [re.sub(" $", r"\\s", line) for line in text.split("\n")]
    return " | ".join(lines).rstrip()


def in_order(call, over):
    """Returns the list of the triplets in a picture, in the order of the format."""
    match words_of(call):
        case [Picture() as a]:
            matrix = summed(list_of(a, over.scalars), over.scalars)
            return Triplets(*matrix.size, matrix.in_order(over))
    raise Unreadable("a written text has one matrix")


def below_heading(text):
    """Returns a written text as `read` reads it: without the first words, and without the comment."""
    heading, _, *rest = text.split("\n")
    return "\n".join([heading[len(FIRST):], *rest])


def of_error(name, call, scalars):
    """Returns the error of a text as users see it, or as it is for debugging."""
    try:
        meaning(FIRST + unescaped(call), scalars)
    except Refused as error:
        if name == "debug-read":
            return f'MatrixMarketError {{ error_kind: {error.kind}, message: "{error.message}" }}'
        return f"Matrix Market error: {error.kind.split('(')[0]}, message: {error.message}"
    raise Unreadable("there is no error to show")


def answer(name, call, over):
    """Returns the answer of a call on a text or on its scalars, or `None` if the name is not that of such a call."""
    scalars = over.scalars
    match name:
        case "read":
            return drawn_list(meaning(FIRST + unescaped(call), scalars))
        case "text":
            return drawn_list(meaning(unescaped(call), scalars))
        case "write":
            return lines_of(below_heading(written(in_order(call, over), scalars)))
        case "write-whole":
            return lines_of(written(in_order(call, over), scalars))
        case "write-mixed":
            return lines_of(written(in_order(call, over), scalars, MIXED))
        case "write-list":
            return lines_of(below_heading(written(list_of(words_of(call)[0], scalars), scalars)))
        case "display-read" | "debug-read":
            return of_error(name, call, scalars)
        case "error" if call in ERRORS:
            raise Refused(*ERRORS[call])
    return of_scalar(name, call, scalars)


def of_scalar(name, call, scalars):
    """Returns the answer of a call on a scalar of texts, or `None` if the name is not that of such a call."""
    match name:
        case "from-integer":
            return str(scalars.from_integer(int(call)))
        case "from-pattern":
            return str(scalars.from_pattern())
        case "negative-of":
            return str(scalars.negative(scalar_of(call, scalars)))
        case "conjugate-of":
            return str(scalars.conjugate(scalar_of(call, scalars)))
        case "text-of":
            return scalars.text(scalar_of(call, scalars))
    return None
