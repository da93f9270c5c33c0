"""Sums, products, multiples and quotients, as new matrices and added to a given one."""
from .matrices import Matrix, allocate, dense_of, drawn, inner_of, matrix_of, operand_of, places, shown
from .words import Picture, Refused, misfit

NO_INVERSE = Refused("Singular", "Scalar has no inverse.")
NOT_IN_SUM = Refused("InvalidPattern", "Found entry in `op(a)` that is not present in `c`.")
NOT_IN_PRODUCT = Refused("InvalidPattern", "Found unexpected entry that is not present in `c`.")


def combined(scalars, beta, a, alpha, b):
    """Returns beta A + alpha B, stored where A or B is."""
    if a.size != b.size:
        raise misfit()
    entries = {
        place: scalars.reduced(beta * a.entries.get(place, 0) + alpha * b.entries.get(place, 0))
        for place in a.entries.keys() | b.entries.keys()
    }
    return a.with_entries(entries)


def product(scalars, a, b):
    """Returns A B, stored at (i, j) where A stores (i, k) and B stores (k, j) for some k."""
    if a.ncols != b.nrows:
        raise misfit()
    rows, sums = {}, {}
    for (middle, col), value in b.entries.items():
        rows.setdefault(middle, []).append((col, value))
    for (row, middle), left in a.entries.items():
        for col, right in rows.get(middle, []):
            sums[row, col] = sums.get((row, col), 0) + left * right
    return Matrix(a.nrows, b.ncols, {place: scalars.reduced(number) for place, number in sums.items()})


def multiple(scalars, factor, a):
    """Returns a multiple of A."""
    return a.with_entries({place: scalars.reduced(factor * value) for place, value in a.entries.items()})


def quotient(scalars, a, divisor):
    """Returns A times the inverse of a divisor."""
    inverse = scalars.inverse(divisor)
    if inverse is None:
        raise NO_INVERSE
    return multiple(scalars, inverse, a)


def updated(scalars, beta, c, alpha, x, refusal):
    """Returns beta C + alpha X on the places of C, which must include those of X."""
    if c.size != x.size:
        raise misfit()
    if x.entries.keys() - c.entries.keys():
        raise refusal
    return combined(scalars, beta, c, alpha, x)


def dense_product(scalars, a, b):
    """Returns the dense product of A and a dense B."""
    if a.ncols != b.nrows:
        raise misfit()
    allocate(a.nrows * b.ncols, scalars.bytes)
    entries = product(scalars, a, b).entries
    return Matrix(a.nrows, b.ncols, {place: entries.get(place, 0) for place in places(a.nrows, b.ncols)})


def dense_update(scalars, beta, c, alpha, a, b):
    """Returns beta C + alpha A B of dense matrices B and C."""
    if a.ncols != b.nrows or c.size != (a.nrows, b.ncols):
        raise misfit()
    return combined(scalars, beta, c, alpha, product(scalars, a, b))


def answer(words, over):
    """Returns the answer of a call in mathematical notation, or `None` if the call is not one."""
    scalars = over.scalars
    match words:
        case [Picture() as a]:
            return shown(matrix_of(a, over), over)
        case ["-" | "negate", Picture() as a]:
            return shown(multiple(scalars, -1, matrix_of(a, over)), over)
        case [int(factor), Picture() as a] | [Picture() as a, "*=", int(factor)]:
            return shown(multiple(scalars, scalars.of(factor), matrix_of(a, over)), over)
        case [Picture() as a, "/" | "/=", int(divisor)]:
            return shown(quotient(scalars, matrix_of(a, over), scalars.of(divisor)), over)
        case [Picture() as a, "+" | "-" as sign, Picture() as b]:
            sign = 1 if sign == "+" else -1
            return shown(combined(scalars, 1, matrix_of(a, over), sign, matrix_of(b, over)), over)
        case [Picture() as a, "*", Picture() as b]:
            return drawn(dense_product(scalars, matrix_of(a, over), dense_of(b, over)))
        case [Picture() as a, Picture() as b]:
            return shown(product(scalars, matrix_of(a, over), matrix_of(b, over)), over)
        case [int(alpha), Picture() as a, "+", int(beta), Picture() as b]:
            a, b = matrix_of(a, over), matrix_of(b, over)
            return shown(combined(scalars, scalars.of(alpha), a, scalars.of(beta), b), over)
        case ["unchecked" | "counted", int(beta), Picture() as c, "+=", int(alpha), Picture() as a, Picture() as b]:
            return into(over, (scalars.of(beta), scalars.of(alpha)), c, [a, b])
        case [int(beta), Picture() as c, "+=", int(alpha), *operands]:
            return into(over, (scalars.of(beta), scalars.of(alpha)), c, operands)
        case ["pattern", Picture() as a, "+", Picture() as b]:
            return drawn(combined(scalars, 1, matrix_of(a, over), 1, matrix_of(b, over)), lambda _: "x")
        case ["pattern", Picture() as a, Picture() as b]:
            return drawn(product(scalars, matrix_of(a, over), matrix_of(b, over)), lambda _: "x")
    return None


def into(over, factors, c, operands):
    """Returns the answer of `2 C += 3 A`, `2 C += 3 A B` or, if B and C are dense, `2 C += 3 A * B`."""
    scalars, (beta, alpha) = over.scalars, factors
    match operands:
        case [Picture() as a]:
            target, a = matrix_of(c, over), operand_of(a, over)
            return shown(updated(scalars, beta, target, alpha, a, NOT_IN_SUM), over)
        case [Picture() as a, Picture() as b]:
            target = matrix_of(c, over)
            a, b = transposed_anew(a, over), transposed_anew(b, over)
            return shown(updated(scalars, beta, target, alpha, product(scalars, a, b), NOT_IN_PRODUCT), over)
        case [Picture() as a, "*", Picture() as b]:
            return drawn(dense_update(scalars, beta, dense_of(c, over), alpha, operand_of(a, over), dense_of(b, over)))
    return None


def transposed_anew(picture, over):
    """Returns an operand of an update by a product, which needs memory for its transpose."""
    try:
        return matrix_of(picture, over)
    except Refused as error:
        inner_of(picture, over)
        raise Refused("OutOfMemory", "Out of memory.") from error
