"""The words of a call, and the two ways in which it has no answer."""
import re
from typing import NamedTuple

WORD = re.compile(r"\[(?P<picture>[^][]*)\](?P<mark>'?)|(?P<word>[^][\s]+)|(?P<other>\S)")


class Unreadable(Exception):
    """A row that violates the notation, or that this program can't compute."""


class Refused(Exception):
    """An error that a call returns: its kind and its message, if it has one."""

    def __init__(self, kind, message=None):
        self.kind, self.message = kind, message
        super().__init__(kind if message is None else f"{kind}: {message}")


class Picture(NamedTuple):
    """A matrix as a row writes it: what is in the brackets, and whether `'` follows them."""

    text: str
    is_transposed: bool = False


def misfit():
    """Returns the error of operands whose sizes a call doesn't take."""
    return Refused("the sizes do not fit")


def words_of(text):
    """Returns the words of a text: pictures, numbers as `int`, and other words as `str`."""
    words = []
    for found in WORD.finditer(text):
        if found["other"]:
            raise Unreadable("a bracket is not closed")
        if found["word"]:
            words.append(word_of(found["word"]))
        else:
            words.append(Picture(found["picture"], bool(found["mark"])))
    return words


def word_of(word):
    """Returns the number that a word writes, or the word."""
    return int(word) if re.fullmatch(r"[+-]?[0-9]+", word) else word


def index_of(word):
    """Returns the index that a word writes."""
    index = word if isinstance(word, int) else word_of(word)
    if not isinstance(index, int) or not 0 <= index < 2**64:
        raise Unreadable(f"{word} is not an index")
    return index


def size_of(word):
    """Returns the numbers of rows and columns that a word `2x3` writes."""
    rows, mark, cols = str(word).partition("x")
    if not mark:
        raise Unreadable(f"{word} is not a size")
    return index_of(rows), index_of(cols)


def place_of(word):
    """Returns the row and the column that a word `(1,2)` writes."""
    found = re.fullmatch(r"\(([0-9]+),([0-9]+)\)", str(word))
    if not found:
        raise Unreadable(f"{word} is not a place")
    return index_of(found[1]), index_of(found[2])


def named_lists(words, names):
    """Returns the lists of words behind names, which come in this order: `offsets 0 1 indices 0` has two lists."""
    lists = [[] for _ in names]
    at = -1
    for word in words:
        if at + 1 < len(names) and word == names[at + 1]:
            at += 1
        elif at < 0:
            raise Unreadable(f"{word} stands before {names[0]}")
        else:
            lists[at].append(word)
    if at + 1 != len(names):
        raise Unreadable(f"{names[at + 1]} is missing")
    return lists
