"""Triangular systems, the fill of a Cholesky factor, and exact factors L D L'."""
from typing import NamedTuple

from .matrices import Matrix, Over, arrays_of, dense_of, drawn, inner_of, matrix_of, places, truth
from .words import Picture, Refused, misfit

# The calls that return factors.
NAMES = {"fill", "fill-upper", "fill-lower", "fill-both", "fill-counted", "ldl"}
NOT_DIAGONAL = Refused("Singular", "Matrix contains at least one diagonal entry that is zero.")


def square(matrix):
    """Returns a matrix, if it is square."""
    if matrix.nrows != matrix.ncols:
        raise misfit()
    return matrix


def substituted(scalars, order, rows, inverses, b):
    """Returns the dense X of T X = B. Its rows are computed in an order in which each depends on earlier ones alone."""
    if not b.entries:
        return b
    x = {}
    for row in order:
        for col in range(b.ncols):
            rest = b.entries[row, col] - sum(value * x[index, col] for index, value in rows.get(row, []))
            x[row, col] = scalars.reduced(inverses[row] * rest)
    return b.with_entries(x)


def rows_of(entries):
    """Returns the entries by rows, without those on the diagonal."""
    rows = {}
    for (row, col), value in entries.items():
        if row != col:
            rows.setdefault(row, []).append((col, value))
    return rows


def solution(scalars, l, is_transposed, b):
    """Returns the X of L X = B, or of L' X = B, without the entries of L above the diagonal."""
    if square(l).nrows != b.nrows:
        raise misfit()
    if b.ncols == 0:
        return b
    diagonal = [l.entries.get((row, row)) for row in range(l.nrows)]
    inverses = [None if entry is None else scalars.inverse(entry) for entry in diagonal]
    if None in inverses:
        raise NOT_DIAGONAL
    lower = l.kept(lambda row, col, _: row >= col)
    if is_transposed:
        return substituted(scalars, range(l.nrows)[::-1], rows_of(lower.transposed().entries), inverses, b)
    return substituted(scalars, range(l.nrows), rows_of(lower.entries), inverses, b)


def filled(pairs):
    """Returns the least set with these pairs that, with (i, k) and (j, k) where k < j <= i, has (i, j)."""
    found = set(pairs)
    while True:
        more = {(i, j) for i, k in found for j, other in found if k == other and k < j <= i} - found
        if not more:
            return found
        found |= more


def fill(name, matrix):
    """Returns the pattern of the Cholesky factor of a triangle of a pattern, or of both."""
    upper = {(col, row) for row, col in square(matrix).entries if row <= col}
    lower = {(row, col) for row, col in matrix.entries if row >= col}
    return filled({"fill-lower": lower, "fill-both": upper | lower}.get(name, upper))


def ldl(scalars, matrix):
    """Returns L and the diagonal of D, where L D L' is the symmetric matrix of an upper triangle."""
    size, l, d = square(matrix).nrows, {}, []
    m = {place: matrix.entries.get((min(place), max(place)), 0) for place in places(size, size)}
    for col in range(size):
        for row in range(col, size):
            m[row, col] -= sum(l[row, k] * d[k] * l[col, k] for k in range(col))
        d.append(scalars.reduced(m[col, col]))
        inverse = scalars.inverse(d[col])
        if inverse is None:
            raise NOT_DIAGONAL
        for row in range(col, size):
            l[row, col] = scalars.one if row == col else scalars.reduced(inverse * m[row, col])
    return matrix.with_entries({place: l[place] for place in fill("fill", matrix)}), d


class Factors(NamedTuple):
    """The result of a call such as `fill A` or `ldl A`: what `==` compares, and what is printed."""

    compared: tuple
    text: str


def factors_of(name, picture, over):
    """Returns the symbolic factor, or the exact factors, of a matrix."""
    a = matrix_of(picture, over._replace(form="columns"))
    if name == "ldl":
        l, d = ldl(over.scalars, a)
        return Factors((l, d), " ".join([drawn(l), *map(str, d)]))
    factor = fill(name, a)
    return Factors((a.size, a.entries.keys(), factor), drawn(Matrix(*a.size, dict.fromkeys(factor)), lambda _: "x"))


def answer(words, over):
    """Returns the answer of a call on a system or on factors, or `None` if the call is not one."""
    scalars, columns = over.scalars, over._replace(form="columns")
    match words:
        case [Picture() as l, "\\", Picture() as b]:
            return drawn(solution(scalars, inner_of(l, columns), l.is_transposed, dense_of(b, over)))
        case [name, Picture() as a] | ["copy", name, Picture() as a] if name in NAMES:
            return factors_of(name, a, over).text
        case [first, Picture() as a, "==", second, Picture() as b] if {first, second} <= NAMES:
            return truth(factors_of(first, a, over).compared == factors_of(second, b, over).compared)
        case ["ldl", Picture() as a, "\\", Picture() as b]:
            return drawn(ldl_solution(scalars, *ldl(scalars, matrix_of(a, columns)), dense_of(b, over)))
        case ["factored", "size", Picture() as a]:
            return str(factored_size(scalars, matrix_of(a, columns)))
        case ["debug", "ldl", Picture() as a]:
            return debug_ldl(scalars, *ldl(scalars, matrix_of(a, columns)))
    return None


def factored_size(scalars, matrix):
    """Returns how many of the first rows and columns have factors L and D."""
    size = square(matrix).nrows
    for count in range(size):
        first = {place: value for place, value in matrix.entries.items() if max(place) <= count}
        try:
            ldl(scalars, Matrix(count + 1, count + 1, first))
        except Refused:
            return count
    return size


def ldl_solution(scalars, l, d, b):
    """Returns the X of L D L' X = B: a system of L, the inverses of D, and a system of L'."""
    if l.nrows != b.nrows:
        raise misfit()
    whole = l.with_entries({**l.entries, **{(row, row): scalars.one for row in range(l.nrows)}})
    y = solution(scalars, whole, False, b)
    z = y.with_entries({(i, j): scalars.reduced(scalars.inverse(d[i]) * value) for (i, j), value in y.entries.items()})
    return solution(scalars, whole, True, z)


def debug_ldl(scalars, l, d):
    """Returns the text of exact factors for debugging, as it is derived from the fields of the types."""
    offsets, indices, values = arrays_of(l, Over("columns", scalars))
    values, diagonal, inverses = (
        "[" + ", ".join(map(scalars.debug, numbers)) + "]" for numbers in (values, d, map(scalars.inverse, d))
    )
    pattern = f"SparsityPattern {{ major_offsets: {offsets}, minor_indices: {indices}, minor_dim: {l.nrows} }}"
    matrix = f"CscMatrix {{ cs: CsMatrix {{ sparsity_pattern: {pattern}, values: {values} }} }}"
    return f"Ldl {{ l: {matrix}, d: {diagonal}, inverses: {inverses} }}"
