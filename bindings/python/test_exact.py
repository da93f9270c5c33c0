"""Compares chains of operations over `Exact` with plain matrices, and tries its errors. Run by bindings/test."""
import copy
import faulthandler
import gc
import os
import pickle
import random
import signal
import sys
import threading
import weakref

import numpy as np
import scipy.sparse as sp

here = os.path.dirname(os.path.abspath(__file__))
sys.path.insert(0, here)
import nalgebra_sparse as ns  # noqa: E402
from nalgebra_sparse import Exact, Factorisation, _exact  # noqa: E402

CASES = 1000
MASK = 2**64 - 1
chance = random.Random(5)


def wrapped(value):
    """Returns the integer of 64 bits with a sign that a number means."""
    value &= MASK
    return value - 2**64 if value >= 2**63 else value


class Plain:
    """A matrix modulo 2^64 as a dictionary from (row, column) to values."""

    def __init__(self, shape, entries):
        self.shape, self.entries = shape, {at: wrapped(value) for at, value in entries.items()}

    def multiple(self, factor):
        return Plain(self.shape, {at: factor * value for at, value in self.entries.items()})

    def plus(self, other):
        entries = dict(self.entries)
        for at, value in other.entries.items():
            entries[at] = entries.get(at, 0) + value
        return Plain(self.shape, entries)

    def transposed(self):
        return Plain(self.shape[::-1], {(j, i): value for (i, j), value in self.entries.items()})

    def times(self, other):
        entries = {}
        for (i, k), x in self.entries.items():
            for (l, j), y in other.entries.items():
                if k == l:
                    entries[i, j] = entries.get((i, j), 0) + x * y
        return Plain((self.shape[0], other.shape[1]), entries)


def read(matrix):
    """Returns the plain matrix of an `Exact`."""
    assert isinstance(matrix, Exact)
    of = matrix.to_scipy()
    assert type(of) is sp.csr_array and of.shape == matrix.shape and of.nnz == matrix.nnz
    coo = of.tocoo()
    return Plain(matrix.shape, {(int(i), int(j)): int(v) for i, j, v in zip(coo.row, coo.col, coo.data)})


def a_value():
    return chance.choice([chance.randrange(-4, 5), chance.randrange(-(2**63), 2**63)])


def a_pair(size):
    """Returns a random square matrix, both as an `Exact` and as a plain matrix."""
    count = chance.randrange(3 * size + 1) if size else 0
    triplets = [(chance.randrange(size), chance.randrange(size), a_value()) for _ in range(count)]
    i, j, values = (np.array([t[k] for t in triplets], np.int64) for k in range(3))
    plain = Plain((size, size), {})
    for row, col, value in triplets:
        plain = plain.plus(Plain((size, size), {(row, col): value}))
    if chance.randrange(2):
        return Exact.from_triplets((size, size), i, j, values), plain
    form = chance.choice([ns.assemble_csr, ns.assemble_csc])
    return Exact.from_scipy(form((size, size), i, j, values)), plain


def step(a, b):
    """Returns the result of a random operation of two pairs."""
    factor, other = a_value(), a_value()
    return chance.choice(
        [
            lambda: (a[0] + b[0], a[1].plus(b[1])),
            lambda: (a[0] - b[0], a[1].plus(b[1].multiple(-1))),
            lambda: (a[0] @ b[0], a[1].times(b[1])),
            lambda: (a[0].T, a[1].transposed()),
            lambda: (factor * a[0], a[1].multiple(factor)),
            lambda: (a[0] * np.int64(factor), a[1].multiple(factor)),
            lambda: (-a[0], a[1].multiple(-1)),
            lambda: (a[0].add_scaled(factor, b[0], other), a[1].multiple(factor).plus(b[1].multiple(other))),
        ]
    )()


def check_chains():
    for _ in range(CASES):
        size = chance.randrange(6)
        pairs = [a_pair(size) for _ in range(3)]
        for _ in range(4):
            # An operand may be both operands.
            pairs.append(step(chance.choice(pairs), chance.choice(pairs)))
        got, want = read(pairs[-1][0]), pairs[-1][1]
        assert got.shape == want.shape and got.entries == want.entries


def check_solve():
    for _ in range(200):
        size = chance.randrange(1, 5)
        dense = np.array([[chance.randrange(-3, 4) for _ in range(size)] for _ in range(size)])
        symmetric = np.triu(dense, 1) + np.triu(dense, 1).T + np.eye(size, dtype=np.int64)
        matrix = Exact.from_scipy(sp.csr_array(symmetric))
        b = np.array([a_value() for _ in range(size)])
        try:
            x = matrix.solve(b)
        except ns.Singular:
            continue
        with np.errstate(over="ignore"):
            assert np.array_equal(symmetric @ x, b)


def times(matrix, x):
    """Returns the dense product of two arrays modulo 2^64."""
    with np.errstate(over="ignore"):
        return matrix @ x


def check_systems():
    for _ in range(200):
        size, cols = chance.randrange(6), chance.randrange(3)
        dense = np.array([[a_value() for _ in range(size)] for _ in range(size)], np.int64).reshape(size, size)
        np.fill_diagonal(dense, np.diagonal(dense) | 1)
        matrix = Exact.from_scipy(sp.csr_array(dense))
        b = np.array([a_value() for _ in range(size * cols)], np.int64).reshape(size, cols)
        for transposed in (False, True):
            for solve, part in ((matrix.solve_lower, np.tril(dense)), (matrix.solve_upper, np.triu(dense))):
                x = solve(b, transposed=transposed)
                assert x.shape == b.shape and np.array_equal(times(part.T if transposed else part, x), b)
        unit = np.tril(dense, -1) + np.eye(size, dtype=np.int64)
        odd = np.array([a_value() | 1 for _ in range(size)], np.int64)
        symmetric = times(times(unit, np.diag(odd)), unit.T)
        factors = Exact.from_scipy(sp.csr_array(symmetric)).factor()
        assert factors.shape == (size, size)
        assert np.array_equal(times(symmetric, factors.solve(b)), b)
        lower, diagonal = factors.L, factors.D
        assert type(lower) is sp.csc_array and lower.has_sorted_indices and lower.indices.dtype == np.int32
        assert np.array_equal(lower.toarray(), unit) and np.array_equal(diagonal, odd)
        assert factors.order.tolist() == list(range(size))
        check_orders(symmetric, b)


def check_orders(symmetric, b):
    """Factors in an order are those of the permuted matrix, and solve the system itself. In some orders there are none."""
    matrix, size = Exact.from_scipy(sp.csr_array(symmetric)), len(b)
    drawn = chance.sample(range(size), size)
    for given in ("natural", "amd", "rcm", drawn, tuple(drawn), np.array(drawn, np.int64), np.array(drawn, np.uint8)):
        order = matrix.order(given).tolist() if isinstance(given, str) else drawn
        assert sorted(order) == list(range(size))
        permuted = symmetric[np.ix_(order, order)]
        try:
            factors = matrix.factor(order=given)
        except ns.Singular:
            refused(ns.Singular, Exact.from_scipy(sp.csr_array(permuted)).factor)
            continue
        assert factors.order.tolist() == copy.copy(factors).order.tolist() == order
        assert np.array_equal(times(symmetric, factors.solve(b)), b)
        assert np.array_equal(matrix.solve(b, order=given), factors.solve(b))
        lower = factors.L.toarray()
        assert np.array_equal(times(times(lower, np.diag(factors.D)), lower.T), permuted)


def check_refused_orders():
    """Words, lists and matrices for which there is no order."""
    matrix = Exact.from_scipy(sp.csr_array(np.array([[0, 1], [1, 1]])))
    assert matrix.factor(order=[1, 0]).D.tolist() == [1, -1]
    for given, kind, text in (
        ("AMD", ns.Error, "'amd'"),
        ([0, 1], ns.Singular, "in this order"),
        ([0, 0], ns.DuplicateEntry, "more than once"),
        ([0, 2], ns.IndexOutOfBounds, "out of bounds"),
        ([0, -1], ns.IndexOutOfBounds, "out of bounds"),
        ([2**64, 0], ns.IndexOutOfBounds, "out of bounds"),
        ([0], ns.InvalidStructure, "each row"),
        ([], ns.InvalidStructure, "each row"),
        ([0.0, 1], TypeError, "integer"),
        ([False, True], TypeError, "integer"),
        (np.array([0.0, 1.0]), TypeError, "integer"),
        (np.eye(2, dtype=np.int64), TypeError, "dimension"),
        (b"amd", TypeError, "'rcm'"),
        (7, TypeError, "'rcm'"),
    ):
        message = refused(kind, lambda given=given: matrix.factor(order=given))
        assert text in message, message
    for word in ("other", [0, 1], None):
        refused(ns.Error, lambda word=word: matrix.order(word))
    wide = Exact.from_scipy(sp.csr_array(np.array([[1, 2]])))
    for call in (lambda: wide.order("rcm"), lambda: wide.factor(True, [0])):
        assert "square" in refused(ns.Error, call)


def check_dense():
    """Products with vectors and matrices of NumPy, on either side, stored by rows, by columns, or with gaps."""
    for _ in range(200):
        rows, inner, cols = (chance.randrange(5) for _ in range(3))
        dense = np.array([[chance.choice([0, a_value()]) for _ in range(inner)] for _ in range(rows)], np.int64).reshape(rows, inner)
        b = np.array([a_value() for _ in range(inner * cols)], np.int64).reshape(inner, cols)
        matrix = Exact.from_scipy(sp.csr_array(dense))
        for right in (b, np.asfortranarray(b), np.repeat(b, 2, axis=1)[:, ::2]):
            found = matrix @ right
            assert found.shape == (rows, cols) and np.array_equal(found, times(dense, b))
            assert np.array_equal(right.T @ matrix.T, times(dense, b).T)
        for vector in b.T:
            assert np.array_equal(matrix @ vector, times(dense, vector))
        refused(ns.Error, lambda: matrix @ np.zeros((inner + 1, cols), np.int64))


def check_symmetry():
    """A matrix that is not symmetric is refused, unless `assume_symmetric` is given."""
    b = np.array([5, 12])
    upper = Exact.from_scipy(sp.csr_array(np.array([[1, 2], [0, 5]])))
    for call in (upper.factor, lambda: upper.solve(b)):
        message = refused(ns.Error, call)
        assert "not symmetric" in message and "(0, 1)" in message, message
    assert upper.solve(b, assume_symmetric=True).tolist() == [1, 2]
    assert upper.factor(assume_symmetric=True).solve(b).tolist() == [1, 2]
    # An entry with the value 0 need not be mirrored.
    zero = Exact.from_triplets((2, 2), np.array([0, 0, 1]), np.array([0, 1, 1]), np.array([1, 0, 1]))
    assert zero.solve(b).tolist() == [5, 12]
    wide = Exact.from_scipy(sp.csr_array(np.array([[1, 2]])))
    for assumed in (False, True):
        assert "square" in refused(ns.Error, lambda: wide.factor(assumed))


def check_scipy_operands():
    """A SciPy matrix may be either operand of `+`, `-` and `@`, and neither of `*`."""
    p, q = np.array([[1, 2], [0, 3]]), np.array([[0, 5], [7, 0]])
    a = Exact.from_scipy(sp.csr_array(p))
    for kind in (sp.csr_matrix, sp.csc_matrix, sp.csr_array, sp.csc_array):
        b = kind(q)
        for found, want in ((a + b, p + q), (b + a, q + p), (a - b, p - q), (b - a, q - p), (a @ b, p @ q), (b @ a, q @ p)):
            assert isinstance(found, Exact) and found.to_scipy().toarray().tolist() == want.tolist()
        for call in (lambda: a * b, lambda: b * a, lambda: a + b.astype(float), lambda: b.tocoo() @ a, lambda: a / b, lambda: b / a):
            refused(TypeError, call)
        refused(ns.Error, lambda: a + kind(q[:1]))
        refused(ns.Error, lambda: kind(q[:, :1]) @ a)
    for call in (lambda: a * a, lambda: q + a, lambda: a - q, lambda: np.float64(2) * a, lambda: a + 1):
        refused(TypeError, call)


def check_copies():
    """A copy and a pickle outlive the matrix. Copies of factors outlive the factors, which have no pickle."""
    plain, b = [[1, 2], [2, 5]], np.array([5, 12])
    for copied in (copy.copy, copy.deepcopy, lambda of: pickle.loads(pickle.dumps(of))):
        matrix = Exact.from_scipy(sp.csr_array(np.array(plain)))
        second = copied(matrix)
        del matrix
        gc.collect()
        assert second.shape == (2, 2) and second.nnz == 4 and (second @ second).to_scipy().toarray().tolist() == [[5, 12], [12, 29]]
        assert copied(second).T.to_scipy().toarray().tolist() == plain
    for copied in (copy.copy, copy.deepcopy):
        second = copied(Exact.from_scipy(sp.csr_array(np.array(plain))).factor())
        gc.collect()
        assert second.shape == (2, 2) and second.solve(b).tolist() == [1, 2]
    for protocol in range(pickle.HIGHEST_PROTOCOL + 1):
        assert "factor it again" in refused(TypeError, lambda: pickle.dumps(second, protocol))


def check_signals():
    """A signal handler may use the matrix and the factors of the code that it interrupts."""
    matrix, b = Exact.from_scipy(sp.csr_array(np.array([[1, 2], [2, 5]]))), np.array([5, 12])
    factors, seen = matrix.factor(), []
    before = signal.signal(signal.SIGUSR1, lambda *_: seen.append((matrix.T.nnz, factors.solve(b).tolist())))
    # Without a re-entrant lock the handler would wait for the code below it.
    faulthandler.dump_traceback_later(60, exit=True)
    with matrix._lock, factors._lock:
        os.kill(os.getpid(), signal.SIGUSR1)
        for _ in range(1000):
            if seen:
                break
    faulthandler.cancel_dump_traceback_later()
    signal.signal(signal.SIGUSR1, before)
    assert seen == [(4, [1, 2])]


def check_texts():
    for _ in range(200):
        matrix, plain = a_pair(chance.randrange(6))
        back = read(Exact.from_text(matrix.to_text()))
        assert back.shape == plain.shape and back.entries == plain.entries
    text = b"%%MatrixMarket matrix coordinate integer general\n1 18446744073709551615 0\n"
    refused(ns.Error, lambda: Exact.from_text(text))
    refused(ns.InvalidText, lambda: Exact.from_text(b""))
    refused(TypeError, lambda: Exact.from_text("text"))


def refused(error, call):
    """Returns what the error says."""
    try:
        call()
    except error as found:
        return str(found)
    raise AssertionError(f"no {error.__name__}")


def check_refusals():
    wide = Exact.from_scipy(sp.csr_matrix(np.array([[1, 2, 3]])))
    for call in (lambda: wide + wide.T, lambda: wide - wide.T, lambda: wide @ wide, lambda: wide.add_scaled(1, wide.T, 1)):
        refused(ns.Error, call)
    for call in (lambda: wide + 1, lambda: wide * 1.5, lambda: wide * True, lambda: wide @ np.ones(3), lambda: wide - sp.eye(3), Exact):
        refused(TypeError, call)
    refused(ns.Error, lambda: wide * 2**63)
    refused(TypeError, lambda: Exact.from_scipy(np.eye(2)))
    refused(ns.IndexOutOfBounds, lambda: Exact.from_triplets((1, 1), np.array([1]), np.array([0]), np.array([5])))
    broken = sp.csr_matrix((1, 2), dtype=np.int64)
    broken.indptr = np.array([0, 1])
    refused(ns.InvalidStructure, lambda: Exact.from_scipy(broken))
    assert repr(wide.T) == "<Exact: 3 by 1 with 3 stored entries, modulo 2^64>"
    even = Exact.from_scipy(sp.csr_array(np.array([[2]])))
    b = np.array([7])
    for call in (lambda: wide.solve_lower(b), lambda: wide.solve_upper(b), wide.factor, lambda: wide.solve(b)):
        refused(ns.Error, call)
    for call in (lambda: even.solve_lower(b), lambda: even.solve_upper(b, True), even.factor, lambda: even.solve(b)):
        refused(ns.Singular, call)
    refused(ns.Error, lambda: even.solve_lower(np.array([7, 7])))
    refused(TypeError, lambda: even.solve_lower([7]))
    refused(TypeError, Factorisation)
    assert b.tolist() == [7]


def check_memory():
    """A matrix is freed with its object, and so is what a refused call allocated."""
    row = np.arange(10**6)
    for _ in range(200):
        # 24 MB each: the program would end if they were not freed.
        matrix = Exact.from_triplets((1, 10**6), np.zeros(10**6, np.int64), row, row)
    seen = weakref.ref(matrix)
    del matrix
    gc.collect()
    assert seen() is None
    peak = max(int(line.split()[1]) for line in open("/proc/self/status", encoding="ascii") if line.startswith("VmHWM"))
    assert peak < 1_500_000, peak


def check_threads():
    """Threads may use one matrix at once."""
    matrix = a_pair(5)[0]
    want = read(matrix @ matrix.T).entries
    wrong = []

    def work():
        for _ in range(300):
            if read(matrix @ matrix.T).entries != want:
                wrong.append(1)

    factors, b = Exact.from_scipy(sp.csr_array(np.array([[1, 2], [2, 5]]))).factor(), np.array([5, 12])

    def solve():
        for _ in range(300):
            if factors.solve(b).tolist() != [1, 2]:
                wrong.append(1)

    threads = [threading.Thread(target=of) for of in 4 * [work, solve]]
    for thread in threads:
        thread.start()
    for thread in threads:
        thread.join()
    assert not wrong


check_chains()
check_solve()
check_systems()
check_refused_orders()
check_dense()
check_symmetry()
check_scipy_operands()
check_copies()
check_signals()
check_texts()
check_refusals()
check_memory()
check_threads()
assert _exact.Exact is ns.Exact
print(f"python: {CASES} chains over Exact equal plain matrices, each refusal is an exception, and matrices are freed")
