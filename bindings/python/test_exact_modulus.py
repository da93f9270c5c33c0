"""Compares chains of operations over `Exact` with a modulus with plain matrices, and tries its errors. Run by
bindings/test."""
import copy
import os
import pickle
import random
import sys
from fractions import Fraction

import numpy as np
import scipy.sparse as sp

here = os.path.dirname(os.path.abspath(__file__))
sys.path.insert(0, here)
import nalgebra_sparse as ns  # noqa: E402
from nalgebra_sparse import MODULI, Exact, Factorisation  # noqa: E402

CASES = 20
chance = random.Random(11)


class Plain:
    """A matrix modulo p as a dictionary from (row, column) to values, which are integers of Python."""

    def __init__(self, p, shape, entries):
        self.p, self.shape, self.entries = p, shape, {at: value % p for at, value in entries.items()}

    def multiple(self, factor):
        return Plain(self.p, self.shape, {at: factor * value for at, value in self.entries.items()})

    def plus(self, other):
        entries = dict(self.entries)
        for at, value in other.entries.items():
            entries[at] = entries.get(at, 0) + value
        return Plain(self.p, self.shape, entries)

    def transposed(self):
        return Plain(self.p, self.shape[::-1], {(j, i): value for (i, j), value in self.entries.items()})

    def times(self, other):
        entries = {}
        for (i, k), x in self.entries.items():
            for (l, j), y in other.entries.items():
                if k == l:
                    entries[i, j] = entries.get((i, j), 0) + x * y
        return Plain(self.p, (self.shape[0], other.shape[1]), entries)

    def rows(self):
        return [[self.entries.get((i, j), 0) for j in range(self.shape[1])] for i in range(self.shape[0])]


def read(matrix):
    """Returns the plain matrix of an `Exact`."""
    of = matrix.to_scipy()
    assert isinstance(matrix, Exact) and type(of) is sp.csr_array and of.shape == matrix.shape and of.nnz == matrix.nnz
    assert of.indices.dtype == of.indptr.dtype == np.int32 and of.data.dtype == np.int64
    assert ((of.data >= 0) & (of.data < matrix.modulus)).all() and (of != matrix.tocsc()).nnz == 0
    coo = of.tocoo()
    return Plain(matrix.modulus, matrix.shape, {(int(i), int(j)): int(v) for i, j, v in zip(coo.row, coo.col, coo.data)})


def a_value():
    return chance.choice([chance.randrange(-4, 5), chance.randrange(-(2**63), 2**63)])


def a_pair(p, size):
    """Returns a random square matrix, both as an `Exact` and as a plain matrix."""
    count = chance.randrange(3 * size + 1) if size else 0
    triplets = [(chance.randrange(size), chance.randrange(size), a_value()) for _ in range(count)]
    i, j, values = (np.array([t[k] for t in triplets], np.int64) for k in range(3))
    plain = Plain(p, (size, size), {})
    for row, col, value in triplets:
        plain = plain.plus(Plain(p, (size, size), {(row, col): value}))
    made = chance.randrange(3)
    if made == 0:
        return Exact.from_triplets((size, size), i, j, values, modulus=p), plain
    form = ns.assemble_csr if made == 1 else ns.assemble_csc
    return Exact.from_scipy(form((size, size), i, j, values, p), p), plain


def step(a, b):
    """Returns the result of a random operation of two pairs."""
    factor, other = chance.choice([a_value(), 2**70 + a_value()]), a_value()
    return chance.choice(
        [
            lambda: (a[0] + b[0], a[1].plus(b[1])),
            lambda: (a[0] - b[0], a[1].plus(b[1].multiple(-1))),
            lambda: (a[0] - b[0].tocsc(), a[1].plus(b[1].multiple(-1))),
            lambda: (a[0] @ b[0], a[1].times(b[1])),
            lambda: (a[0].T, a[1].transposed()),
            lambda: (factor * a[0], a[1].multiple(factor)),
            lambda: (-a[0], a[1].multiple(-1)),
            lambda: (copy.copy(a[0]), a[1]),
            lambda: (pickle.loads(pickle.dumps(a[0])), a[1]),
            lambda: (Exact.from_text(a[0].to_text(), a[0].modulus), a[1]),
            lambda: (a[0].add_scaled(factor, b[0], other), a[1].multiple(factor).plus(b[1].multiple(other))),
        ]
    )()


def check_chains():
    for p in MODULI:
        for _ in range(CASES):
            size = chance.randrange(6)
            pairs = [a_pair(p, size) for _ in range(3)]
            for _ in range(4):
                # An operand may be both operands.
                pairs.append(step(chance.choice(pairs), chance.choice(pairs)))
            got, want = read(pairs[-1][0]), pairs[-1][1]
            assert got.shape == want.shape and got.entries == want.entries and got.p == want.p
            assert (pairs[-1][0] ** 3 == pairs[-1][0] @ pairs[-1][0] @ pairs[-1][0]) and pairs[-1][0] == pairs[-1][0].tocsc()
            assert pairs[-1][0].toarray().tolist() == want.rows()
            if size:
                i, j = chance.randrange(size), chance.randrange(size)
                assert pairs[-1][0][i, j] == want.rows()[i][j]


def times(p, a, x):
    """Returns the product of a list of rows and a list of rows modulo p."""
    return [[sum(u * v for u, v in zip(row, column)) % p for column in zip(*x)] for row in a]


def check_dense():
    for p in MODULI:
        for _ in range(CASES):
            a, plain = a_pair(p, chance.randrange(1, 5))
            b = np.array([[a_value() for _ in range(2)] for _ in range(plain.shape[1])])
            assert (a @ b).tolist() == times(p, plain.rows(), b.tolist())
            assert (a @ b[:, 0]).tolist() == [row[0] for row in times(p, plain.rows(), b.tolist())]
            assert (b.T @ a).T.tolist() == times(p, plain.transposed().rows(), b.tolist())


def check_systems():
    """Solves with triangles and symmetric matrices, in each order, and the column at which a factorisation stops."""
    for p in MODULI:
        for _ in range(CASES):
            size = chance.randrange(1, 6)
            upper = [[a_value() if i < j else chance.randrange(1, p) * (i == j) for j in range(size)] for i in range(size)]
            b = np.array([[a_value() for _ in range(2)] for _ in range(size)])
            want = [[value % p for value in row] for row in b.tolist()]
            a = Exact.from_scipy(sp.csr_array(np.array(upper)), p)
            assert times(p, upper, a.solve_upper(b).tolist()) == want
            assert times(p, list(zip(*upper)), a.solve_upper(b, transposed=True).tolist()) == want
            assert times(p, list(zip(*upper)), a.T.solve_lower(b).tolist()) == want
            assert times(p, upper, a.T.solve_lower(b, transposed=True).tolist()) == want
            whole = [[upper[min(i, j)][max(i, j)] for j in range(size)] for i in range(size)]
            symmetric = Exact.from_scipy(sp.csr_array(np.array(whole)), p)
            for order in ["natural", "amd", "rcm", chance.sample(range(size), size)]:
                try:
                    factors = symmetric.factor(order=order)
                except ns.Singular as error:
                    assert 0 <= error.column < size and f"modulo {p}" in str(error) and f"column {error.column} " in str(error)
                    column = ns.singular_column(symmetric.tocsc(), modulus=p)
                    assert order != "natural" or error.column == column
                    refused(ns.Singular, symmetric.solve, b, order=order)
                    continue
                assert isinstance(factors, Factorisation) and factors.modulus == p and sorted(factors.order) == list(range(size))
                taken = factors.order.tolist()
                lower, d = factors.L.toarray().tolist(), factors.D.tolist()
                scaled = [[x * y % p for x, y in zip(row, d)] for row in lower]
                assert times(p, scaled, list(zip(*lower))) == [[whole[i][j] % p for j in taken] for i in taken]
                for x in (factors.solve(b), symmetric.solve(b, order=order), a.solve(b, assume_symmetric=True, order=order)):
                    assert times(p, whole, x.tolist()) == want
                assert factors.solve(b[:, 0]).tolist() == factors.solve(b)[:, 0].tolist()
                assert copy.deepcopy(factors).D.tolist() == d


def check_stored_zeros():
    """In each order the factors have a place for each entry and its fill, also for an entry with the value 0: modulo a
    prime the same places as modulo 2^64."""
    for _ in range(CASES):
        size = chance.randrange(1, 6)
        pairs = [(i, j) for j in range(size) for i in range(j) if chance.random() < 0.5]
        i, j = np.array([*pairs, *((k, k) for k in range(size))]).T
        zeros = Exact.from_triplets((size, size), i, j, (i == j).astype(np.int64))
        modular = Exact.from_triplets((size, size), i, j, (i == j).astype(np.int64), modulus=101)
        for order in ["natural", "amd", "rcm", list(range(size)), chance.sample(range(size), size)]:
            a, b = (it.factor(assume_symmetric=True, order=order) for it in (zeros, modular))
            assert a.order.tolist() == b.order.tolist() and a.L.nnz >= len(pairs) + size
            assert a.L.indptr.tolist() == b.L.indptr.tolist() and a.L.indices.tolist() == b.L.indices.tolist()
            assert a.L.toarray().tolist() == b.L.toarray().tolist() == np.eye(size).tolist() and (a.D == b.D).all()


def refused(error, call, *words, **more):
    try:
        call(*words, **more)
    except error as found:
        assert type(found) is error, found
        return str(found)
    raise AssertionError(f"{call} did not raise {error.__name__}")


def check_errors():
    seven, eleven, wrapping = (Exact.from_scipy(sp.csr_array(np.array([[2, 1], [1, 3]])), p) for p in (7, 11, None))
    assert (seven.modulus, wrapping.modulus, seven.factor().modulus, wrapping.dtype) == (7, None, 7, np.int64)
    for a, b in [(seven, eleven), (seven, wrapping), (wrapping, seven)]:
        for call in (a.__add__, a.__sub__, a.__matmul__, lambda b, a=a: a.add_scaled(1, b, 1)):
            message = refused(ns.RingMismatch, call, b)
            assert all(f"modulo {it.modulus or '2^64'}" in message for it in (a, b)) and "modulus=" in message
        assert a != b and not a == b and len({a, b, copy.copy(a)}) == 2
    # The test in Python comes first; the library refuses two primes, too.
    assert str(ns._errors.error_of(ns._calls.status_of("ring_matrix_add", *(it._handle for it in (seven, eleven)), ns._calls.RingHandle()))) == (
        "the operands have different moduli"
    )
    wide = Exact.from_triplets((1, 2), np.array([0]), np.array([1]), np.array([5]), modulus=7)
    refused(ns.Error, wide.__matmul__, wide)
    refused(ns.Error, wide.__add__, seven)
    refused(ns.Error, wide.factor)
    for modulus in (0, 1, 4, 2**64 - 1, 2**64, -7):
        refused(ns.UnknownModulus, Exact.from_scipy, wide.tocsr(), modulus)
        refused(ns.UnknownModulus, Exact.from_triplets, (1, 1), np.array([0]), np.array([0]), np.array([1]), modulus)
        refused(ns.UnknownModulus, Exact.from_text, wide.to_text(), modulus)
    for modulus in (7.0, "7", True):
        refused(TypeError, Exact.from_scipy, wide.tocsr(), modulus)
    for order, message in [([0], "for each row"), ([0, 2], "out of bounds"), ([-1, 0], "out of bounds"), ([1, 1], "more than once")]:
        assert message in refused(ns._errors.error_of({"for": 2, "out": 3, "mor": 4}[message[:3]]).__class__, seven.factor, order=order)
        assert message in refused(ns._errors.error_of({"for": 2, "out": 3, "mor": 4}[message[:3]]).__class__, wrapping.factor, order=order)
    refused(ns.Error, seven.factor().solve, np.ones(3, np.int64))
    refused(TypeError, seven.factor().solve, [1, 2])
    refused(TypeError, pickle.dumps, seven.factor())
    refused(ns.Error, Exact.from_scipy(sp.csr_array(np.array([[2, 1], [3, 3]])), 7).factor)
    refused(ns.DuplicateEntry, Exact.from_scipy, sp.csr_array((np.array([1, 1]), np.array([0, 0]), np.array([0, 2])), (1, 2)), 7)
    line = refused(ns.InvalidText, Exact.from_text, b"%%MatrixMarket matrix coordinate integer general\n1 1 1\n1 1 x\n", 7)
    assert line.startswith("line 3: ")


def check_singular():
    """`Singular` names the ring, the column of the pivot, and what else can be tried."""
    matrix = np.array([[1, 1, 0], [1, 8, 1], [0, 1, 1]])
    for modulus, ring in ((7, "7"), (None, "2^64")):
        even = matrix if modulus else np.array([[1, 1, 0], [1, 3, 1], [0, 1, 1]])
        owned = Exact.from_scipy(sp.csr_array(even), modulus)
        columns = sp.csc_array(even)
        for call in (owned.factor, lambda: ns.factor_symmetric(columns, modulus), lambda: ns.solve_symmetric(columns, np.ones(3, np.int64), modulus)):
            try:
                call()
                raise AssertionError("not refused")
            except ns.Singular as error:
                start = f"the matrix has no factorisation L D L^T modulo {ring}: the pivot of column 1 has no inverse"
                assert str(error).startswith(start) and error.column == 1 and "modulus=" in str(error) and "solve_rational" in str(error)
        try:
            owned.factor(order=[1, 0, 2])
            raise AssertionError("not refused")
        except ns.Singular as error:
            # The second pivot in this order is that of the first column.
            assert "in this order: the pivot of column 0 has no inverse" in str(error) and error.column == 0
    assert ns.solve_rational(sp.csc_array(matrix), np.array([2, 10, 2])).tolist() == [Fraction(1)] * 3


check_chains()
check_dense()
check_systems()
check_stored_zeros()
check_errors()
check_singular()
print(f"python: {CASES} chains over Exact modulo each of {len(MODULI)} primes equal plain matrices, and each error is raised")
