"""Permutations, matrices that are permuted, and orders that reduce fill or bandwidth."""
from itertools import permutations

from .matrices import dense_of, drawn, matrix_of, shown, shown_pattern, words_after
from .systems import NOT_DIAGONAL, fill, ldl, ldl_solution, square
from .words import Picture, Refused, Unreadable, index_of, misfit

# The most rows of a pattern whose orders are all tried.
MOST_ORDERED = 7


def order_of(words):
    """Returns the order that words write, or raises its first fault."""
    order = [index_of(word) for word in words]
    for at, index in enumerate(order):
        if index >= len(order):
            raise Refused("IndexOutOfBounds", f"The index at {at} is out of bounds.")
        if index in order[:at]:
            raise Refused("RepeatedIndex", f"The index at {at} is a duplicate.")
    return order


def composed(words):
    """Returns the order of the words before `then`, followed by that of the words after it."""
    at = words.index("then")
    first, following = order_of(words[:at]), order_of(words[at + 1:])
    if len(first) != len(following):
        raise Refused("LengthMismatch", "The length of the permutation does not match.")
    return [first[index] for index in following]


def permuted(matrix, order):
    """Returns the matrix with (i, j) as its entry at the indices i and j of the order."""
    if matrix.nrows != matrix.ncols:
        raise Refused("NotSquare", "The matrix is not square.")
    if matrix.nrows != len(order):
        raise Refused("LengthMismatch", "The length of the permutation does not match.")
    at = {index: k for k, index in enumerate(order)}
    return matrix.with_entries({(at[row], at[col]): value for (row, col), value in matrix.entries.items()})


def permuted_rows(matrix, order):
    """Returns the dense matrix with the rows of another in this order."""
    if matrix.nrows != len(order):
        raise Refused("LengthMismatch", "The length of the permutation does not match.")
    entries = {(k, col): matrix.entries[index, col] for k, index in enumerate(order) for col in range(matrix.ncols)}
    return matrix.with_entries(entries)


def least(matrix, measure):
    """Returns the least measure of the matrix in any order."""
    if matrix.nrows != matrix.ncols:
        raise misfit()
    if matrix.nrows > MOST_ORDERED:
        raise Unreadable(f"a matrix with more than {MOST_ORDERED} rows has too many orders")
    return min(measure(permuted(matrix, list(order))) for order in permutations(range(matrix.nrows)))


def symmetric(matrix):
    """Returns the symmetric matrix of an upper triangle."""
    upper = {(row, col): value for (row, col), value in square(matrix).entries.items() if row <= col}
    return matrix.with_entries({**upper, **{(col, row): value for (row, col), value in upper.items()}})


def ldl_in_order(scalars, matrix, order):
    """Returns L and the diagonal of D, where L D L' is the symmetric matrix of an upper triangle in this order."""
    whole = symmetric(matrix)
    try:
        return ldl(scalars, permuted(whole, order))
    except Refused as refused:
        if refused.kind == "Singular":
            raise Refused("Singular", "A pivot has no inverse in this order.") from refused
        raise


def solution_in_order(scalars, matrix, order, b):
    """Returns the X of A X = B by the factors of the matrix in an order."""
    l, d = ldl_in_order(scalars, matrix, order)
    if len(order) != b.nrows:
        raise misfit()
    x = ldl_solution(scalars, l, d, permuted_rows(b, order))
    return permuted_rows(x, [order.index(row) for row in range(len(order))])


def solution_in_any_order(scalars, matrix, b):
    """Returns the X of A X = B by the factors in the orders that have some, which must agree."""
    found = []
    for order in permutations(range(square(matrix).nrows)):
        try:
            found.append(solution_in_order(scalars, matrix, list(order), b))
        except Refused as refused:
            if refused.kind != "Singular":
                raise
    if not found:
        raise NOT_DIAGONAL
    if any(x != found[0] for x in found):
        raise Unreadable("the solutions in two orders differ")
    return found[0]


def answer(words, over):
    """Returns the answer of a call on an order, or `None` if the call is not one."""
    by_columns = over._replace(form="columns")
    match words:
        case ["order", "identity", int(size)]:
            return words_after("order", range(index_of(size)))
        case ["order", "of" | "copy", *order]:
            return words_after("order", order_of(order))
        case ["order", "inverse", *order]:
            order = order_of(order)
            return words_after("order", map(order.index, range(len(order))))
        case ["order", "compose", *orders]:
            return words_after("order", composed(orders))
        case ["permute", Picture() as a, "by", *order]:
            return shown(permuted(matrix_of(a, over), order_of(order)), over)
        case ["permute", "pattern", Picture() as a, "by", *order]:
            return shown_pattern(permuted(matrix_of(a, over), order_of(order)), over._replace(form="rows"))
        case ["permute", "rows", Picture() as a, "by", *order]:
            return drawn(permuted_rows(dense_of(a, over), order_of(order)))
        case ["entries", "of", "factor", "minimum-degree", Picture() as a]:
            return str(least(matrix_of(a, over), lambda it: len(fill("fill", it))))
        case ["ldl", Picture() as a, "in", *order] | ["copy", "ldl", Picture() as a, "in", *order]:
            l, d = ldl_in_order(over.scalars, square(matrix_of(a, by_columns)), order_of(order))
            return " ".join([drawn(l), *map(str, d)])
        case ["ldl", Picture() as a, "\\", Picture() as b, "in", *order]:
            a, b = square(matrix_of(a, by_columns)), dense_of(b, over)
            return drawn(solution_in_order(over.scalars, a, order_of(order), b))
        case ["ordered", "ldl", Picture() as a, "\\", Picture() as b]:
            return drawn(solution_in_any_order(over.scalars, matrix_of(a, by_columns), dense_of(b, over)))
        case ["bandwidth", "cuthill-mckee", Picture() as a]:
            return str(least(matrix_of(a, over), lambda it: max((abs(i - j) for i, j in it.entries), default=0)))
    return None
