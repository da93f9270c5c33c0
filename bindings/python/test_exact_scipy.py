"""Compares what an `Exact` has of a SciPy matrix with SciPy: comparisons, reading, powers, products with arrays. Run by
bindings/test."""
import os
import random
import sys

import numpy as np
import scipy.sparse as sp

sys.path.insert(0, os.path.dirname(os.path.abspath(__file__)))
import nalgebra_sparse as ns  # noqa: E402
from nalgebra_sparse import Exact  # noqa: E402

chance = random.Random(6)


def a_value():
    return chance.choice([chance.randrange(-4, 5), chance.randrange(-(2**63), 2**63)])


def a_plain(rows, cols):
    """Returns a random array, half of it zeros."""
    values = [chance.choice([0, a_value()]) for _ in range(rows * cols)]
    return np.array(values, np.int64).reshape(rows, cols)


def whole(array):
    """Returns the array with Python's integers, which don't wrap."""
    return array.astype(object)


def refused(error, call):
    """Returns what the error says."""
    try:
        call()
    except error as found:
        return str(found)
    raise AssertionError(f"no {error.__name__}")


def check_equality():
    """`==` compares shapes, entries and values; a stored 0 is an entry."""
    plain = np.array([[1, 0, 2], [0, 0, 7]])
    a = Exact.from_scipy(sp.csr_array(plain))
    same = Exact.from_triplets((2, 3), np.array([1, 0, 0, 0]), np.array([2, 2, 0, 2]), np.array([7, 1, 1, 1]))
    zero = Exact.from_triplets((2, 3), np.array([1, 0, 0, 0]), np.array([2, 2, 0, 1]), np.array([7, 2, 1, 0]))
    others = [a.T, zero, 2 * a, Exact.from_scipy(sp.csr_array(plain[:, :2])), Exact.from_scipy(sp.csr_array(plain[::-1]))]
    assert a == a and a == same and same == a and not a != same and hash(a) == hash(same) and len({a, same}) == 1
    for other in others:
        assert a != other and not a == other and not other == a
    for kind in (sp.csr_matrix, sp.csc_matrix, sp.csr_array, sp.csc_array):
        assert (a == kind(plain)) is True and (a == kind(2 * plain)) is False and (a != kind(plain)) is False
    assert (zero - a).tocsr().data.tolist() == [0, 0, 0, 0]
    for other in (1, None, "a", plain):
        assert (a == other) is False and (a != other) is True
    assert refused(ValueError, lambda: bool(a)) and refused(ValueError, lambda: bool(a.tocsr()))
    for one in ([[0]], [[5]]):
        assert bool(Exact.from_scipy(sp.csr_array(np.array(one)))) is bool(sp.csr_matrix(np.array(one)))
    zeros = np.zeros(1, np.int64)
    assert bool(Exact.from_triplets((1, 1), zeros, zeros, zeros)) is bool(sp.coo_matrix((zeros, (zeros, zeros)), (1, 1)).tocsr()) is True


def check_reading():
    """What is read of a matrix is what SciPy reads of its arrays."""
    for _ in range(30):
        rows, cols = chance.randrange(1, 5), chance.randrange(1, 5)
        plain = a_plain(rows, cols)
        a, theirs = Exact.from_scipy(chance.choice([sp.csr_matrix, sp.csc_array])(plain)), sp.csr_matrix(plain)
        assert a.dtype == theirs.dtype and a.shape == theirs.shape and a.nnz == theirs.nnz
        assert np.array_equal(a.toarray(), plain)
        for of, form in (("tocsr", "csr"), ("to_scipy", "csr"), ("tocsc", "csc"), ("tocoo", "coo")):
            found = getattr(a, of)()
            assert found.format == form and found.nnz == theirs.nnz and np.array_equal(found.toarray(), plain)
            assert form == "coo" or (found.has_sorted_indices and found.indices.dtype == theirs.indices.dtype)
        for turned in (a.T, a.transpose()):
            assert isinstance(turned, Exact) and turned == theirs.T.tocsr()
        for k in range(1 - rows, cols):
            assert np.array_equal(a.diagonal(k), theirs.diagonal(k))
        for i in range(-rows, rows):
            assert isinstance(a.getrow(i), Exact) and a.getrow(np.int64(i)) == theirs.getrow(i)
            for j in range(-cols, cols):
                assert a[i, j] == theirs[i, j] and type(a[i, j]) is type(theirs[i, j])
        for key in ((rows, 0), (0, cols), (-rows - 1, 0), (0, -cols - 1), 0, (0, 0, 0), slice(None), (slice(None), 0)):
            refused(IndexError, lambda: a[key])
        for key in ((0.5, 0), (0, "a"), (True, 0)):
            refused(TypeError, lambda: a[key])
        refused(IndexError, lambda: a.getrow(rows))
        refused(TypeError, lambda: iter(a))
        assert repr(a) == f"<Exact: {rows} by {cols} with {theirs.nnz} stored entries, modulo 2^64>"


def check_powers():
    """A power is the product of equal factors modulo 2^64, with an entry wherever the pattern has a walk."""
    for _ in range(50):
        size = chance.randrange(1, 5)
        plain = a_plain(size, size)
        a, want, walks = Exact.from_scipy(sp.csr_array(plain)), whole(np.eye(size, dtype=np.int64)), np.eye(size, dtype=bool)
        for exponent in range(8):
            power = a ** chance.choice([int, np.int64, np.uint8])(exponent)
            assert not ((whole(power.toarray()) - want) % 2**64).any()
            found = power.tocoo()
            assert sorted(zip(found.row, found.col)) == sorted(zip(*np.nonzero(walks)))
            want, walks = want.dot(whole(plain)), walks @ (plain != 0)
    theirs = sp.csr_matrix(np.array([[1, 2, 0], [3, 0, -5], [7, 1, 1]]))
    a = Exact.from_scipy(theirs)
    for exponent in (0, 1, 2, 5, 40, 63):
        assert np.array_equal((a**exponent).toarray(), (theirs**exponent).toarray())
    refused(ns.Error, lambda: a**-1)
    refused(ns.Error, lambda: Exact.from_scipy(sp.csr_array(np.array([[1, 2]]))) ** 2)
    for exponent in (0.5, True, "2", a, None):
        refused(TypeError, lambda: a**exponent)
    refused(TypeError, lambda: pow(a, 2, 7))
    refused(TypeError, lambda: 2**a)


def check_dense():
    """Products with vectors and with dense matrices, from either side, are those of whole numbers modulo 2^64."""
    for _ in range(100):
        rows, cols, width = chance.randrange(4), chance.randrange(1, 4), chance.randrange(4)
        plain = a_plain(rows, cols)
        a = Exact.from_scipy(sp.csr_array(plain))
        for b in (a_plain(cols, width), a_plain(cols, 1)[:, 0]):
            for kept in (b, np.asfortranarray(b), b.astype(np.int8)):
                found, want = a @ kept, whole(plain).dot(whole(kept))
                assert found.dtype == np.int64 and found.shape == want.shape and not ((whole(found) - want) % 2**64).any()
                turned = kept.T @ a.T
                assert turned.dtype == np.int64 and np.array_equal(turned, found.T)
    none = Exact.from_triplets((2, 0), *3 * [np.empty(0, np.int64)])
    assert (none @ np.empty(0, np.int64)).tolist() == [0, 0] and (none @ np.empty((0, 3), np.int64)).tolist() == [[0, 0, 0], [0, 0, 0]]
    a = Exact.from_scipy(sp.csr_array(np.array([[1, 2], [0, 3]])))
    for b in (np.array([1, 2, 3]), np.ones((1, 2), np.int64), np.int64(2) * np.ones(0, np.int64)):
        refused(ns.Error, lambda: a @ b)
    for b in (np.array([1.0, 2.0]), np.ones((2, 1, 1), np.int64), np.ma.array([1, 2]), np.array(1), [1, 2], 2):
        refused(TypeError, lambda: a @ b)
        refused(TypeError, lambda: b @ a)


def check_unsorted():
    """Unsorted indices are sorted in a copy; repeated and unsound ones are refused."""
    for _ in range(100):
        size = chance.randrange(1, 6)
        product = sp.csr_array(a_plain(size, size)) @ sp.csr_array(a_plain(size, size))
        for of in (product, sp.csc_array((product.data, product.indices, product.indptr), product.shape)):
            before = [array.copy() for array in (of.data, of.indices, of.indptr)]
            assert np.array_equal(Exact.from_scipy(of).toarray(), of.toarray())
            assert all(map(np.array_equal, before, (of.data, of.indices, of.indptr)))
    three = np.array([5, 6, 7])
    for indices, error in (([1, 0, 1], ns.DuplicateEntry), ([2, 0, 3], ns.IndexOutOfBounds), ([2, 0, -1], ns.IndexOutOfBounds)):
        wrong = sp.csr_matrix((1, 3), dtype=np.int64)
        wrong.data, wrong.indices, wrong.indptr = three, np.array(indices), np.array([0, 3])
        refused(error, lambda: Exact.from_scipy(wrong))
    for offsets in ([0, 2, 1, 3], [1, 3, 3, 3], [0, 3], [0, 1, 1, 2], [0, 2**40, 3, 3], [0, -1, 3, 3]):
        wrong = sp.csr_matrix((3, 3), dtype=np.int64)
        wrong.data, wrong.indices, wrong.indptr = three, np.array([2, 1, 0]), np.array(offsets)
        refused(ns.InvalidStructure, lambda: Exact.from_scipy(wrong))


check_equality()
check_reading()
check_powers()
check_dense()
check_unsorted()
print("python: comparisons, entries, rows, powers and dense products of Exact equal SciPy's and those of whole numbers")
