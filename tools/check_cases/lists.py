"""Lists of triplets: how they grow, are cleared, written, copied, disassembled and collected."""
import re

from .arrays import checked
from .matrices import INDEX_BYTES, Triplets, allocate, dense_of, drawn_list, list_of, words_after
from .scalars import scalar_of
from .words import Picture, Unreadable, index_of, misfit, place_of, size_of


def triplet_of(word, scalars):
    """Returns the triplet that a word writes."""
    found = re.fullmatch(r"(\(.*\))=(.+)", str(word))
    if not found:
        raise Unreadable(f"{word} is not a triplet")
    return *place_of(found[1]), scalar_of(found[2], scalars)


def pushed(triplets, row, col, value):
    """Returns a list with one more triplet."""
    if triplets.nrows <= row or triplets.ncols <= col:
        raise misfit()
    return triplets._replace(triplets=triplets.triplets + [(row, col, value)])


def block_pushed(triplets, row, col, block):
    """Returns a list with the values of a dense block, column after column."""
    if 0 not in block.size and (triplets.nrows < row + block.nrows or triplets.ncols < col + block.ncols):
        raise misfit()
    added = [(row + at[0], col + at[1], block.entries[at]) for at in sorted(block.entries, key=lambda at: at[::-1])]
    return triplets._replace(triplets=triplets.triplets + added)


def of_one(name, triplets, scalars):
    """Returns the answer of a name before one list, or `None` if it is not that of a call on lists."""
    match name:
        case "copy" | "data":
            return drawn_list(triplets)
        case "clear":
            return drawn_list(triplets._replace(triplets=[]))
        case "double":
            doubled = [(row, col, scalars.reduced(2 * value)) for row, col, value in triplets.triplets]
            return drawn_list(triplets._replace(triplets=doubled))
        case "lists":
            lists = list(zip(*triplets.triplets)) or [(), (), ()]
            return " ".join(map(words_after, ("rows", "cols", "values"), lists))
    return None


def answer(words, over):
    """Returns the answer of a call `triplets ..` on a list, or `None` if the call is not one."""
    scalars = over.scalars
    match words:
        case ["triplets", "push", place, Picture() as block, Picture() as a]:
            return drawn_list(block_pushed(list_of(a, scalars), *place_of(place), dense_of(block, over)))
        case ["triplets", "push", word, Picture() as a]:
            return drawn_list(pushed(list_of(a, scalars), *triplet_of(word, scalars)))
        case ["triplets", "reserve", int(count), Picture() as a]:
            allocate(index_of(count), INDEX_BYTES)
            return drawn_list(list_of(a, scalars))
        case ["triplets", "collect", size, *found]:
            return drawn_list(checked(Triplets(*size_of(size), [triplet_of(word, scalars) for word in found])))
        case ["triplets", "zeros", size]:
            return drawn_list(Triplets(*size_of(size), []))
        case ["triplets", str(name), Picture() as a]:
            return of_one(name, list_of(a, scalars), scalars)
    return None
