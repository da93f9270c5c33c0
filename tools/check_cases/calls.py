"""The calls of all subjects."""
from . import (
    arrays, conversions, dense, entries, expressions, json_texts, lists, numbers, operations, orders, patterns, systems,
    texts, vectors,
)
from .words import Refused, Unreadable, words_of

# Each subject returns `None` if a call is not one of its own. Those of texts are given the name of a call and what
# follows it, the others all words.
OF_TEXTS = (texts, json_texts, expressions)
OF_WORDS = (numbers, arrays, systems, vectors, entries, conversions, lists, dense, patterns, orders, operations)


def answer(call, over):
    """Returns the text that a call answers, or raises `Refused` with its error."""
    name, _, rest = call.partition(" ")
    for subject in OF_TEXTS:
        text = subject.answer(name, rest.strip(), over)
        if text is not None:
            return text
    if name == "display":
        return displayed(rest, over)
    words = words_of(call)
    for subject in OF_WORDS:
        text = subject.answer(words, over) if words else None
        if text is not None:
            return text
    raise Unreadable("no call has these words")


def displayed(call, over):
    """Returns the error of an operation as users see it."""
    try:
        answer(call, over)
    except Refused as error:
        if error.message:
            return f"Sparse matrix operation error: {error.kind} Message: {error.message}"
    raise Unreadable("there is no error to display")
