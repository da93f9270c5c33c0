"""Compares the module with SciPy in random cases, and tries each error of the library. Run by bindings/test."""
import ctypes
import functools
import io
import math
import os
import resource
import sys

import numpy as np
import scipy.io
import scipy.sparse as sp

sys.path.insert(0, os.path.dirname(os.path.abspath(__file__)))
import nalgebra_sparse as ns  # noqa: E402
import nalgebra_sparse._calls as calls  # noqa: E402
import nalgebra_sparse._errors as errors  # noqa: E402

random = np.random.default_rng(20)


def triplets(rows, cols):
    """Returns random triplets, some of them with values at the ends of the range."""
    count = random.integers(0, 12) if rows * cols else 0
    i, j = (random.integers(0, size, count) if count else np.empty(0, np.int64) for size in (rows, cols))
    values = random.integers(-3, 4, count)
    values[random.random(count) < 0.3] = np.iinfo(np.int64).min
    return i, j, values


def same(ours, theirs):
    """Says whether two matrices have the same pattern and values. SciPy keeps an entry whose sum is 0."""
    theirs.sort_indices()
    return (
        ours.shape == theirs.shape
        and ours.dtype == np.int64
        and np.array_equal(ours.indptr, theirs.indptr)
        and np.array_equal(ours.indices, theirs.indices)
        and np.array_equal(ours.data, theirs.data)
    )


def pattern_product(a, b):
    """Returns the product by SciPy, with an entry (i, j) wherever some k has an entry (i, k) in a and (k, j) in b:
    SciPy keeps sums that are 0."""
    ones = [sp.csr_matrix((np.ones_like(m.data), m.indices, m.indptr), m.shape) for m in (a, b)]
    places = (ones[0] @ ones[1]).tocoo()
    values = np.zeros((a.shape[0], b.shape[1]), np.int64)
    with np.errstate(over="ignore"):
        values[:] = a.toarray() @ b.toarray()
    return sp.csr_matrix((values[places.row, places.col], (places.row, places.col)), values.shape)


def matrix(rows, cols):
    i, j, values = triplets(rows, cols)
    return sp.csr_matrix((values, (i, j)), (rows, cols))


def merged(a, b, sign):
    """Returns a + sign b on the union of the patterns, also where the sum is 0."""
    parts = [m.tocoo() for m in (a, b)]
    i, j = (np.concatenate([getattr(m, it) for m in parts]) for it in ("row", "col"))
    return sp.csr_matrix((np.concatenate([parts[0].data, sign * parts[1].data]), (i, j)), a.shape)


def check_random_cases():
    for _ in range(1000):
        n, m, k = random.integers(1, 6, 3)
        i, j, values = triplets(n, m)
        assert same(ns.assemble_csr((n, m), i, j, values), sp.csr_matrix((values, (i, j)), (n, m)))
        assert same(ns.assemble_csc((n, m), i, j, values), sp.csc_matrix((values, (i, j)), (n, m)))
        a, b, c = matrix(n, m), matrix(n, m), matrix(m, k)
        assert same(ns.transpose(a), a.T.tocsr())
        assert same(ns.add(a, b), merged(a, b, 1))
        assert same(ns.subtract(a, b), merged(a, b, -1))
        assert same(ns.matmul(a, c), pattern_product(a, c))
        assert same(ns.transpose(a.tocsc()), a.T.tocsc())
        assert same(ns.add(a.tocsc(), b.tocsc()), merged(a, b, 1).tocsc())
        assert same(ns.subtract(a.tocsc(), b.tocsc()), merged(a, b, -1).tocsc())
        assert same(ns.matmul(a.tocsc(), c.tocsc()), pattern_product(a, c).tocsc())
        check_dense_case()
        check_solves()
        check_modulus()
        check_ring()
        check_text()


def below(count):
    """Returns random values, some of them at the ends of the range."""
    values = random.integers(-3, 4, count)
    values[random.random(count) < 0.3] = np.iinfo(np.int64).min
    return values


def square(n):
    """Returns a random square matrix by columns, most often with odd values on the diagonal."""
    dense = matrix(n, n).toarray()
    diagonal = np.arange(n)
    if random.random() < 0.9:
        dense[diagonal, diagonal] |= 1
    return sp.csc_matrix(dense)


def product(a, b):
    """Returns the product of dense matrices, which wraps."""
    with np.errstate(over="ignore"):
        return a @ b


def stopped(symmetric, modulus=2**64):
    """Returns the column of the first pivot of the elimination that has no inverse, or None."""
    s, n = [[int(x) for x in row] for row in symmetric], len(symmetric)
    for k in range(n):
        if math.gcd(s[k][k], modulus) != 1:
            return k
        inverse = pow(s[k][k], -1, modulus)
        for i in range(k + 1, n):
            for j in range(k + 1, n):
                s[i][j] -= s[i][k] * inverse * s[k][j]
    return None


def has_factors(symmetric, modulus=2**64):
    """Says whether each pivot of the elimination has an inverse."""
    return stopped(symmetric, modulus) is None


def filled(base):
    """Returns the fill of the entries on and below the diagonal, by the definition."""
    n = len(base)
    for k in range(n):
        for i in range(k + 1, n):
            for j in range(k + 1, i + 1):
                base[i, j] |= base[i, k] and base[j, k]
    return sp.csc_matrix(base.astype(np.int64))


def check_dense_case():
    n, m, cols = (int(size) for size in random.integers(1, 6, 3))
    a, b = matrix(n, m), np.asfortranarray(below(m * cols).reshape(m, cols))
    assert np.array_equal(ns.multiply_dense(a, b), product(a.toarray(), b))
    assert np.array_equal(ns.multiply_dense(a, b[:, 0]), product(a.toarray(), b[:, 0]))
    divisor = int(random.integers(-(2**62), 2**62)) | 1
    with np.errstate(over="ignore"):
        back = ns.divide(a, divisor).toarray() * np.int64(divisor)
    assert np.array_equal(back, a.toarray())


# The entries below the diagonal are random here.
solve_upper_triangle = functools.partial(ns.solve_symmetric, assume_symmetric=True)


def check_symmetry(a, b, modulus=None):
    """A matrix that is not symmetric in the ring is refused, and no other one."""
    dense = whole(a.toarray())
    is_symmetric = bool(np.all((dense - dense.T) % (modulus or 2**64) == 0))
    for call, more in ((ns.solve_symmetric, (b,)), (ns.factor_symmetric, ())):
        try:
            call(a, *more, modulus=modulus)
        except ns.Singular:
            assert is_symmetric
        except ns.Error as error:
            assert "not symmetric" in str(error) and not is_symmetric
        else:
            assert is_symmetric


def check_solves():
    n, cols = (int(size) for size in random.integers(1, 6, 2))
    a, b = square(n), np.asfortranarray(below(n * cols).reshape(n, cols))
    dense = a.toarray()
    lower = np.tril(dense)
    symmetric = np.triu(dense) + np.triu(dense, 1).T
    odd = bool(np.all(np.diag(dense) % 2 != 0))
    systems = [(ns.solve_lower, (), lower, odd), (ns.solve_lower, (True,), lower.T, odd)]
    for call, flags, plain, solvable in [*systems, (solve_upper_triangle, (), symmetric, has_factors(symmetric))]:
        try:
            assert np.array_equal(product(plain, call(a, b, *flags)), b)
        except ns.Singular:
            assert not solvable
    assert ns.singular_column(a, assume_symmetric=True) == stopped(symmetric)
    check_symmetry(a, b)
    check_symmetry(sp.csc_matrix(symmetric), b)
    places = np.zeros((n, n), bool)
    places[a.tocoo().row, a.tocoo().col] = True
    bases = {"upper": places.T & np.tri(n, dtype=bool), "lower": places & np.tri(n, dtype=bool)}
    bases["both"] = bases["upper"] | bases["lower"]
    for triangle, base in bases.items():
        want = filled(base.copy())
        offsets, indices = ns.fill(a, triangle)
        assert np.array_equal(offsets, want.indptr) and np.array_equal(indices, want.indices)


def whole(array):
    """Returns the array with Python's integers, which don't wrap."""
    return array.astype(object)


def check_ring():
    """Checks assembly, sums and products modulo a prime, and sums of multiples modulo 2^64."""
    modulus = ns.MODULI[random.integers(len(ns.MODULI))]
    n, m, k = (int(size) for size in random.integers(1, 6, 3))
    alpha, beta = (int(number) for number in below(2))
    (i, j, values), a, b, c = triplets(n, m), matrix(n, m), matrix(n, m), matrix(m, k)
    x, y, z = whole(a.toarray()), whole(b.toarray()), whole(c.toarray())
    listed = np.zeros((n, m), object)
    np.add.at(listed, (i, j), whole(values))
    dense = below(m * k).reshape(m, k)
    for found, plain in [
        (ns.assemble_csr((n, m), i, j, values, modulus), listed),
        (ns.assemble_csc((n, m), i, j, values, modulus), listed),
        (ns.add(a, b, modulus), x + y),
        (ns.subtract(a, b, modulus), x - y),
        (ns.add_scaled(alpha, a, beta, b, modulus), alpha * x + beta * y),
        (ns.matmul(a, c, modulus), x.dot(z)),
        (ns.matmul(a.tocsc(), c.tocsc(), modulus), x.dot(z)),
    ]:
        assert not found.nnz or (found.data.min() >= 0 and found.data.max() < modulus)
        assert np.all((whole(found.toarray()) - plain) % modulus == 0)
    assert np.all((whole(ns.multiply_dense(a, dense, modulus)) - x.dot(whole(dense))) % modulus == 0)
    multiples = ns.add_scaled(alpha, a, beta, b)
    assert np.all((whole(multiples.toarray()) - alpha * x - beta * y) % 2**64 == 0)
    for added in (multiples, ns.add_scaled(alpha, a, beta, b, modulus), ns.add(a, b, modulus), ns.subtract(a, b, modulus)):
        assert same_places(added, ns.add(a, b))
    assert same_places(ns.matmul(a, c, modulus), ns.matmul(a, c))


def same_places(a, b):
    """Says whether two matrices by rows have the same pattern."""
    return np.array_equal(a.indptr, b.indptr) and np.array_equal(a.indices, b.indices)


def check_modulus():
    """Checks the equations of quotients, solves and factors modulo a prime, and of factors modulo 2^64."""
    modulus = ns.MODULI[random.integers(len(ns.MODULI))]
    n, cols = (int(size) for size in random.integers(1, 6, 2))
    a, b = square(n), np.asfortranarray(below(n * cols).reshape(n, cols))
    dense = whole(a.toarray())
    lower, symmetric = np.tril(dense), np.triu(dense) + np.triu(dense, 1).T
    pivots = all(x % modulus for x in np.diag(dense))
    systems = [(ns.solve_lower, (False,), lower, pivots), (ns.solve_lower, (True,), lower.T, pivots)]
    for call, flags, plain, solvable in [*systems, (solve_upper_triangle, (), symmetric, has_factors(symmetric, modulus))]:
        try:
            found = call(a, b, *flags, modulus=modulus)
            assert found.min() >= 0 and found.max() < modulus
            assert np.all((plain.dot(whole(found)) - whole(b)) % modulus == 0)
        except ns.Singular:
            assert not solvable
    assert ns.singular_column(a, assume_symmetric=True, modulus=modulus) == stopped(symmetric, modulus)
    check_symmetry(a, b, modulus)
    check_symmetry(ns.assemble_csc((2, 2), np.array([0, 1]), np.array([1, 0]), np.array([5, 5 - modulus])), np.array([1, 2]), modulus)
    divisor = int(random.integers(-(2**62), 2**62))
    try:
        quotient = ns.divide(a.tocsr(), divisor, modulus=modulus).toarray()
        assert quotient.min() >= 0 and quotient.max() < modulus
        assert np.all((whole(quotient) * divisor - dense) % modulus == 0)
    except ns.Singular:
        assert divisor % modulus == 0
    for given, ring in [(None, 2**64), (modulus, modulus)]:
        try:
            l, d = ns.factor_symmetric(a, modulus=given, assume_symmetric=True)
            plain = whole(l.toarray())
            assert np.all(np.diag(plain) == 1) and np.all(np.triu(plain, 1) == 0)
            assert np.all(((plain * whole(d)).dot(plain.T) - symmetric) % ring == 0)
            offsets, indices = ns.fill(a)
            assert np.array_equal(l.indptr, offsets) and np.array_equal(l.indices, indices)
        except ns.Singular:
            assert not has_factors(symmetric, ring)


def check_text():
    """Reads what SciPy writes, and lets SciPy read what is written."""
    n, m = (int(size) for size in random.integers(1, 6, 2))
    i, j, values = triplets(n, m)
    a = sp.coo_matrix((values, (i, j)), (n, m))
    file = io.BytesIO()
    scipy.io.mmwrite(file, a, field="integer", symmetry="general")
    for text in (file.getvalue(), ns.write(a)):
        found = ns.read(text)
        assert found.shape == a.shape and np.array_equal(found.data, a.data)
        assert np.array_equal(found.row, a.row) and np.array_equal(found.col, a.col)
    file = io.BytesIO()
    ns.mmwrite(file, a)
    assert (scipy.io.mmread(io.BytesIO(file.getvalue())) != a).nnz == 0


def refused(error, call, *arguments):
    try:
        call(*arguments)
    except error:
        return
    raise AssertionError(f"{call.__name__} did not raise {error.__name__}")


def check_errors():
    one = np.array([0], np.int64)
    value = np.array([7], np.int64)
    refused(ns.InvalidStructure, ns.assemble_csr, (2, 2), np.array([0, 1]), one, value)
    refused(ns.IndexOutOfBounds, ns.assemble_csr, (2, 2), np.array([2]), one, value)
    refused(ns.IndexOutOfBounds, ns.assemble_csc, (2, 2), one, np.array([-1]), value)
    # SciPy does not test the order of the columns of a row.
    wide = np.array([5, 6], np.int64)
    twice = sp.csr_matrix((wide, np.array([1, 1]), np.array([0, 2])), (1, 3))
    falling = sp.csr_matrix((wide, np.array([2, 0]), np.array([0, 2])), (1, 3))
    fine = matrix(1, 3)
    refused(ns.DuplicateEntry, ns.transpose, twice)
    refused(ns.InvalidStructure, ns.add, fine, falling)
    refused(ns.InvalidStructure, ns.matmul, falling, matrix(3, 1))
    # Faults of operands that SciPy does not test are found before memory for the product is allocated.
    outside = sp.csr_matrix((1, 3), dtype=np.int64)
    for index in (3, -1, -4):
        outside.data, outside.indices, outside.indptr = wide[:1], np.array([index]), np.array([0, 1])
        refused(ns.IndexOutOfBounds, ns.matmul, outside, matrix(3, 1))
    falling_rows = sp.csr_matrix((2, 1), dtype=np.int64)
    falling_rows.data, falling_rows.indices, falling_rows.indptr = wide[:1], np.array([0]), np.array([0, 2, 1])
    refused(ns.InvalidStructure, ns.matmul, sp.csr_matrix(np.ones((1, 2), np.int64)), falling_rows)
    refused(ValueError, ns.add, fine, matrix(1, 4))
    refused(ValueError, ns.matmul, fine, fine)
    odd, even = sp.csc_matrix(np.array([[5, 0], [0, 7]])), sp.csc_matrix(np.array([[5, 0], [0, 6]]))
    b = np.array([1, 2])
    refused(ns.Singular, ns.solve_lower, even, b)
    refused(ns.Singular, ns.solve_symmetric, even, b)
    refused(ns.Singular, ns.factor_symmetric, even)
    refused(ns.Singular, ns.divide, fine, 2)
    for modulus in (0, 1, 4, 2**64 - 1):
        refused(ns.UnknownModulus, ns.solve_lower, odd, b, False, modulus)
        refused(ns.UnknownModulus, ns.solve_symmetric, odd, b, modulus)
        refused(ns.UnknownModulus, ns.divide, fine, 3, modulus)
        refused(ns.UnknownModulus, ns.add, fine, fine, modulus)
        refused(ns.UnknownModulus, ns.add_scaled, 2, fine, 3, fine, modulus)
        refused(ns.UnknownModulus, ns.multiply_dense, sp.csr_matrix(odd), b, modulus)
        refused(ns.UnknownModulus, ns.matmul, odd, odd, modulus)
        refused(ns.UnknownModulus, ns.factor_symmetric, odd, modulus)
    refused(ns.Singular, ns.solve_lower, odd, b, False, 7)
    refused(ns.Singular, ns.solve_symmetric, odd, b, 5)
    refused(ns.Singular, ns.factor_symmetric, odd, 7)
    refused(ns.Singular, ns.divide, fine, 14, 7)
    refused(ns.InvalidStructure, ns.divide, falling, 3, 7)
    refused(ValueError, ns.factor_symmetric, sp.csc_matrix(np.ones((1, 2), np.int64)))
    refused(ns.InvalidStructure, ns.divide, falling, 3)
    refused(ns.InvalidStructure, ns.multiply_dense, falling, np.array([1, 2, 3]))
    refused(ValueError, ns.solve_lower, odd, np.array([1, 2, 3]))
    refused(ValueError, ns.solve_symmetric, sp.csc_matrix(np.ones((1, 2), np.int64)), b)
    refused(ValueError, ns.fill, odd, "left")
    head = b"%%MatrixMarket matrix coordinate integer "
    for rest in (b"", b"hermitian\n1 1 0\n", b"general\n1 1 2\n1 1 1\n", b"general\n1 1 1\n0 1 1\n", b"symmetric\n1 2 0\n"):
        refused(ns.InvalidText, ns.read, head + rest)
    refused(ns.InvalidText, ns.read, b"\xff")
    refused(ns.IndexOutOfBounds, ns.read, head + b"general\n1 1 1\n1 2 1\n")


def check_sizes():
    """A call with arrays that are too short by one tells the size that is needed, and the calls here are repeated with
    it."""
    a = sp.csr_matrix(np.array([[1, 2], [0, 3]]))
    lanes = (a.indptr.astype(np.int64), a.indices.astype(np.int64), a.data)
    offsets, indices, values, places = np.full(3, 77), np.full(2, 77), np.full(2, 77), ctypes.c_size_t()
    refused(errors.TooSmall, calls.call, "multiply", 2, 2, 2, *lanes, *lanes, offsets, indices, values, places)
    assert places.value == 3 and {*offsets, *indices, *values} == {77}
    indices, values = np.full(places.value, 77), np.full(places.value, 77)
    calls.call("multiply", 2, 2, 2, *lanes, *lanes, offsets, indices, values, places)
    assert (offsets.tolist(), indices.tolist(), values.tolist()) == ([0, 2, 3], [0, 1, 1], [1, 8, 9])
    # The elimination of an arrow fills the whole triangle, and a text of long numbers is longer than estimated.
    arrow = sp.csc_matrix(np.array([[1, 1, 1, 1], [0, 1, 0, 0], [0, 0, 1, 0], [0, 0, 0, 1]]))
    assert ns.fill(arrow)[1].tolist() == [0, 1, 2, 3, 1, 2, 3, 2, 3, 3]
    far = np.full(50, 2**31 - 2)
    long = sp.coo_matrix((np.full(50, -(2**63)), (far, far)), (2**31 - 1, 2**31 - 1))
    text = ns.write(long)
    assert len(text) > 256 + 27 * 50 and (ns.read(text).data == long.data).all() and (ns.read(text).row == far).all()


def check_memory():
    """Checks that the pages of a call are those of the call before it, once memory is kept."""
    if not ns.reuse_memory():
        return
    i = np.arange(200_000)
    for _ in range(3):
        before = resource.getrusage(resource.RUSAGE_SELF).ru_minflt
        ns.assemble_csr((i.size, i.size), i, i, i)
        faults = resource.getrusage(resource.RUSAGE_SELF).ru_minflt - before
    # The arrays of a call have some 4000 pages.
    assert faults < 400, faults


check_random_cases()
check_errors()
check_sizes()
check_memory()
print("python: 1000 random cases equal SciPy, and each error of the library is raised")
