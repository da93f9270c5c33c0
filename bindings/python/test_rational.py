"""Compares `solve_rational` with elimination over fractions, and tests that no wrong solution is returned. Run by
bindings/test."""
import doctest
import os
import sys
from fractions import Fraction

import numpy as np
import scipy.sparse as sp

sys.path.insert(0, os.path.dirname(os.path.abspath(__file__)))
import nalgebra_sparse as ns  # noqa: E402
from nalgebra_sparse import _fractions, _lifting, _rational  # noqa: E402

random = np.random.default_rng(66)
PRIME = ns.MODULI[-1]
FORMS = (sp.csc_matrix, sp.csr_matrix, sp.csr_array)


def eliminated(plain, b):
    """Returns the solution by elimination with fractions, or None if the matrix is singular."""
    a = [[Fraction(int(value)) for value in [*row, *right]] for row, right in zip(plain, b)]
    n = len(a)
    for k in range(n):
        pivot = next((i for i in range(k, n) if a[i][k] != 0), None)
        if pivot is None:
            return None
        a[k], a[pivot] = a[pivot], a[k]
        a[k] = [value / a[k][k] for value in a[k]]
        for i in range(n):
            if i != k:
                factor = a[i][k]
                a[i] = [value - factor * pivot for value, pivot in zip(a[i], a[k])]
    return [row[n:] for row in a]


def values(shape):
    """Returns small integers, or integers of up to 58 bits."""
    return random.integers(-(2**58), 2**58, shape) if random.random() < 0.3 else random.integers(-9, 10, shape)


def check_random_systems():
    """The solutions of 500 systems, every second one symmetric, are those of elimination."""
    solved = 0
    while solved < 500:
        n, cols = (int(size) for size in random.integers(1, 7, 2))
        plain = values((n, n)) * (random.random((n, n)) < 0.7)
        if solved % 2:
            plain = np.triu(plain) + np.triu(plain, 1).T
        b = values((n, cols))
        want = eliminated(plain, b)
        try:
            found = ns.solve_rational(FORMS[solved % len(FORMS)](plain), b)
        except ns.Singular as error:
            assert want is None and str(PRIME) in str(error)
            continue
        assert want is not None and found.shape == b.shape and found.tolist() == want
        assert ns.solve_rational(sp.csc_array(plain), b[:, 0]).tolist() == [row[0] for row in want]
        solved += 1


def check_assumed_symmetry():
    """With `assume_symmetric` the entries below the diagonal have no effect, also if there is no factorisation."""
    for case in range(100):
        n, cols = (int(size) for size in random.integers(1, 7, 2))
        upper = np.triu(values((n, n)) * (random.random((n, n)) < 0.7))
        given, b = upper + np.tril(random.integers(-9, 10, (n, n)), -1), values((n, cols))
        want = eliminated(upper + np.triu(upper, 1).T, b)
        try:
            found = ns.solve_rational(FORMS[case % len(FORMS)](given), b, assume_symmetric=True)
            assert found.tolist() == want
        except ns.Singular:
            assert want is None


def check_large_systems():
    """A path of 400 unknowns has a known solution, and a grid of 20 by 20 has one that solves it."""
    # A conversion from rows sorts the columns.
    path = sp.diags([2, -1, -1], [0, 1, -1], (400, 400), dtype=np.int64).tocsr().tocsc()
    first = np.zeros(400, np.int64)
    first[0] = 1
    assert ns.solve_rational(path, first).tolist() == [Fraction(400 - i, 401) for i in range(400)]
    line = sp.diags([2, -1, -1], [0, 1, -1], (20, 20), dtype=np.int64)
    one = sp.identity(20, np.int64)
    grid = (sp.kron(line, one) + sp.kron(one, line)).tocsr().tocsc()
    x = ns.solve_rational(grid, first)
    rows = grid.tocsr()
    for i in range(400):
        entries = zip(rows.indices[rows.indptr[i] : rows.indptr[i + 1]], rows.data[rows.indptr[i] : rows.indptr[i + 1]])
        assert sum(int(value) * x[j] for j, value in entries) == first[i]
    # Not symmetric: the solution of a bidiagonal system is 1/2, and then 1/4 + 1/2, and so on. A leading minor of A^T A
    # is a multiple of the largest prime, 2^61 - 1.
    chain = sp.diags([2, -1], [0, -1], (400, 400), dtype=np.int64).tocsr()
    assert ns.solve_rational(chain, np.ones(400, np.int64)).tolist() == [1 - Fraction(1, 2 ** (i + 1)) for i in range(400)]
    assert str(PRIME) in refused(ns.Singular, chain, np.ones(400, np.int64), PRIME)
    # The smallest prime needs the most steps.
    threes = sp.diags([1, 3, 3], [0, 2, -2], (30, 30), dtype=np.int64).tocsr().tocsc()
    want = eliminated(threes.toarray(), first[:30, None])
    assert ns.solve_rational(threes, first[:30], 3).tolist() == [row[0] for row in want]


def refused(error, *arguments):
    try:
        ns.solve_rational(*arguments)
    except error as found:
        return str(found)
    raise AssertionError(f"solve_rational did not raise {error.__name__}")


def solution(plain, b):
    """Returns the solution of a system with one right-hand side, by elimination."""
    return [x for (x,) in eliminated(plain, [[value] for value in b])]


def check_refusals():
    one, b = sp.csc_matrix(np.array([[1]])), np.array([1])
    for plain, modulus in [([[1, 1], [1, 1]], 11), ([[0]], 101), ([[1, 2], [2, 4]], PRIME), ([[1, 2], [3, 6]], PRIME), ([[7]], 7)]:
        message = refused(ns.Singular, sp.csc_matrix(np.array(plain)), np.ones(len(plain), np.int64), modulus)
        assert message.startswith(f"A^T A has no factorisation L D L^T modulo {modulus}") and "MODULI" in message, message
    # No factors of the matrix itself, over any ring or modulo 7, and symmetric modulo 7 alone.
    for plain, modulus in [([[0, 1], [1, 0]], PRIME), ([[7, 1], [1, 1]], 7), ([[1, 3], [10, 1]], 7)]:
        assert ns.solve_rational(sp.csc_matrix(np.array(plain)), np.array([1, 2]), modulus).tolist() == solution(plain, [1, 2])
    assert "odd" in refused(ns.Error, one, b, 2)
    for modulus in (0, 1, 4, -1, 2**64):
        refused(ns.UnknownModulus, one, b, modulus)
    refused(TypeError, one, b, 7.0)
    refused(TypeError, one.tocoo(), b)
    refused(TypeError, one, np.array([0.5]))
    refused(ns.Error, one, np.array([1, 2]))
    refused(ns.Error, sp.csc_matrix((1, 2), dtype=np.int64), b)
    for value in (2**62, -(2**62), -(2**63)):
        assert "row 0" in refused(ns.Error, sp.csc_matrix(np.array([[value]])), b)
    least, most = np.iinfo(np.int64).min, 2**62 - 3
    assert ns.solve_rational(sp.csc_matrix(np.array([[most]])), np.array([least])).tolist() == [Fraction(least, most)]
    assert ns.solve_rational(sp.csc_matrix(np.array([[most]])), np.array([least]), 3).tolist() == [Fraction(least, most)]
    assert ns.solve_rational(one, np.empty((1, 0), np.int64)).shape == (1, 0)


def changed(matrix):
    matrix.data[0] += 1
    return matrix


MISTAKES = {
    (_lifting, "factored"): lambda found: (found[0], 2 * found[1]),
    (_lifting, "solve_lower"): lambda found: found ^ 1,
    (_lifting, "multiply_dense"): lambda found: found + 1,
    (_lifting, "matmul"): changed,
    (_lifting, "_length"): lambda found: 1,
    (_rational, "transpose"): changed,
    (_rational, "subtract"): lambda found: 0 * found,
    (_rational, "_mirrored"): changed,
    (_rational, "fractions"): lambda found: found and ([value + 1 for value in found[0]], found[1]),
    (_rational, "_shaped"): lambda found: found[::-1],
    (_rational, "over_one_denominator"): lambda found: ([value + 1 for value in found[0]], found[1]),
    (_fractions, "_fraction"): lambda found: found and (found[0] + 1, found[1]),
}


def check_mistakes():
    """If a call or a step in Python gives a wrong result, there is an error, and no wrong solution is returned."""
    b, ends = np.array([8, 20]), set()
    for (module, name), mistaken in MISTAKES.items():
        for plain, assumed in [([[2, 1], [1, 3]], False), ([[2, 1], [1, 3]], True), ([[2, 1], [3, 5]], False)]:
            right, want = getattr(module, name), solution(plain, b)
            setattr(module, name, lambda *arguments, **words: mistaken(right(*arguments, **words)))
            try:
                # Modulo 3, a solution needs several steps.
                found = ns.solve_rational(sp.csr_matrix(np.array(plain)), b, 3, assumed)
            except ns.Error as error:
                ends.add((name, "an error"))
                assert "at fault" in str(error) or isinstance(error, ns.Singular), error
            else:
                ends.add((name, "the solution"))
                assert found.tolist() == want, name
            finally:
                setattr(module, name, right)
            assert ns.solve_rational(sp.csr_matrix(np.array(plain)), b, 3, assumed).tolist() == want
    # With a smaller bound there are fewer attempts, and one of them may be enough.
    found = {name for name, end in ends if end == "an error"}
    assert found >= {name for _, name in MISTAKES} - {"_length"}, found


def check_examples():
    """The examples of the documentation run."""
    assert doctest.testmod(_rational) == (0, 4)


check_examples()
check_random_systems()
check_assumed_symmetry()
check_large_systems()
check_refusals()
check_mistakes()
print("python: 600 rational systems are solved as fractions solve them, and a grid of 400 unknowns")
