"""Expressions in postfix order, over matrices and over texts."""
import re

from .arrays import GREATEST
from .market import meaning, written
from .matrices import Triplets, matrix_of, shown, summed
from .operations import combined, multiple, product
from .texts import FIRST, below_heading, lines_of, unescaped
from .words import Refused, Unreadable, words_of

MESSAGES = {
    "BadWord": "unknown word",
    "MissingOperand": "operand missing",
    "LeftOver": "operands left over",
    "NoSuchInput": "no such input",
    "Shape": "shapes do not fit",
}
# Errors that no text and no expression causes.
ERRORS = {
    "Input": (f"Input({GREATEST}, IOError(NotFound))", f"input {GREATEST}: IOError"),
    "Write": ("Write(BrokenPipe)", "write failed"),
    "OutOfMemory": ("OutOfMemory", "out of memory"),
}


def refusal(kind):
    """Returns an error of an expression."""
    return Refused(kind, f"expression: {MESSAGES[kind]}")


def words_in(text):
    """Returns the words of an expression, or raises the first error from the left."""
    words, height = [word for word in text.split(" ") if word], 0
    for word in words:
        needed = {"+": 2, "-": 2, "*": 2, "t": 1, "n": 1}.get(word, 0)
        if not needed and not (re.fullmatch("[0-9]+", word) and 1 <= int(word) <= GREATEST):
            raise refusal("BadWord")
        if height < needed:
            raise refusal("MissingOperand")
        height += 1 - needed
    if height != 1:
        raise refusal("LeftOver" if height else "MissingOperand")
    return words


def value(words, inputs, scalars):
    """Returns the value of an expression. Errors of the left operand precede those of the right one, and both those of
    their sizes."""
    stack = []
    for word in words:
        if word in ("t", "n"):
            operand = stack.pop()
            stack.append(operand.transposed() if word == "t" else multiple(scalars, -1, operand))
        elif word in ("+", "-", "*"):
            right, left = stack.pop(), stack.pop()
            stack.append(joined(word, left, right, scalars))
        elif len(inputs) < int(word):
            raise refusal("NoSuchInput")
        else:
            stack.append(inputs[int(word) - 1])
    return stack.pop()


def joined(sign, left, right, scalars):
    """Returns the sum, difference or product of two values."""
    try:
        if sign == "*":
            return product(scalars, left, right)
        return combined(scalars, 1, left, 1 if sign == "+" else -1, right)
    except Refused:
        raise refusal("Shape") from None


def read(number, text, scalars):
    """Returns the list of a text, which is an input of this number."""
    try:
        return meaning(FIRST + unescaped(text.strip()), scalars)
    except Refused as error:
        raise Refused(f"Input({number}, {error.kind})", f"input {number}: {error.kind.split('(')[0]}") from None


def answer(name, call, over):
    """Returns the value of an expression over matrices, or what a run over texts writes, or `None`."""
    if name == "error" and call in ERRORS:
        raise Refused(*ERRORS[call])
    if name not in ("value", "run"):
        return None
    words, mark, operands = f" {call}".partition(" of ")
    if not mark:
        raise Unreadable("an expression has no inputs")
    words = words_in(unescaped(words.strip()))
    if name == "value":
        inputs = [matrix_of(picture, over) for picture in words_of(operands)]
        return shown(value(words, inputs, over.scalars), over)
    lists = [read(number, text, over.scalars) for number, text in enumerate(operands.split("&"), 1)]
    result = value(words, [summed(triplets, over.scalars) for triplets in lists], over.scalars)
    triplets = Triplets(*result.size, result.in_order(over))
    return lines_of(below_heading(written(triplets, over.scalars)))
