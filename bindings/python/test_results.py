"""Tries the messages of `Singular`, the index types of results, and files. Run by bindings/test."""
import os
import pathlib
import sys
import tempfile

import numpy as np
import scipy.io
import scipy.sparse as sp
from scipy.sparse.csgraph import connected_components

sys.path.insert(0, os.path.dirname(os.path.abspath(__file__)))
import nalgebra_sparse as ns  # noqa: E402
from nalgebra_sparse import _operands as operands  # noqa: E402


def refused(error, call, *arguments):
    """Returns what the error says."""
    try:
        call(*arguments)
    except error as found:
        return str(found)
    raise AssertionError(f"{call.__name__} did not raise {error.__name__}")


def check_singular():
    """The message of `Singular` names the ring and what is singular, and says what else can be tried."""
    wide, two, even = sp.csr_matrix(np.array([[1, 2, 3]])), np.array([1, 2]), sp.csc_matrix(np.array([[1, 0], [0, 6]]))
    owned = ns.Exact.from_scipy(even)
    factors, diagonal = "the matrix has no factorisation L D L^T modulo", "an entry of the diagonal is not stored, or has no inverse modulo"
    for said, call, *words in [
        (f"{factors} 2^64", ns.solve_symmetric, even, two),
        (f"{factors} 2^64", ns.factor_symmetric, even),
        (f"{factors} 2^64", owned.factor),
        (f"{factors} 2^64", owned.solve, two),
        (f"{factors} 3:", ns.solve_symmetric, even, two, 3),
        (f"{factors} 3:", ns.factor_symmetric, even, 3),
        (f"{diagonal} 2^64", ns.solve_lower, even, two),
        (f"{diagonal} 2^64", owned.solve_lower, two),
        (f"{diagonal} 2^64", owned.solve_upper, two),
        (f"{diagonal} 3;", ns.solve_lower, even, two, False, 3),
        ("the divisor has no inverse modulo 2^64", ns.divide, wide, 6),
        ("the divisor has no inverse modulo 3;", ns.divide, wide, 6, 3),
    ]:
        message = refused(ns.Singular, call, *words)
        assert message.startswith(said) and "modulus=" in message and "solve_rational" in message, message


def check_lines():
    """The error of a text that is refused names the line, whether the text is read as triplets or as an `Exact`."""
    head, array = "%%MatrixMarket matrix coordinate integer ", "%%MatrixMarket matrix array integer "
    for line, text in [
        (1, ""),
        (2, "\n\n"),
        (1, "%%MatrixMarket matrix"),
        (2, "\n%%MatrixMarket matrix coordinate pattern hermitian\n1 1 0\n"),
        (3, head + "general\n% a comment\n\n"),
        (2, head + "general\n1 1\n1 1 1\n"),
        (4, head + "symmetric\n\n%\n2 3 0\n"),
        (2, head + "general\n18446744073709551616 1 0\n"),
        (3, head + "general\n%\n2 2 3\n1 1 1\n%\n2 2 2\n"),
        (5, head + "general\n2 2 3\n1 1 1\n%\n2 2 x\n1 1 1\n"),
        (5, head + "general\r\n2 2 3\r\n1 1 1\r\n\r\n0 2 1\r\n1 1 1\r\n"),
        (4, head + "general\n2 2 2\n1 1 1\n1 1 9223372036854775808\n"),
        (4, head + "general\n2 2 3\n1 1 1\n1 3 1\n5 5 5\n"),
        (4, head + "symmetric\n2 2 2\n2 1 1\n1 2 1\n"),
        (3, head + "skew-symmetric\n2 2 1\n1 1 1\n"),
        (3, "%%MatrixMarket matrix coordinate real general\n2 2 1\n1 1 1.5\n"),
        (4, array + "symmetric\n2 2\n1\nx\n1\n"),
        (2, array + "general\n2 2\n1\n"),
        (5, array + "general\n1 3\n1\n2\n9223372036854775808\n"),
    ]:
        for read in (ns.read, ns.Exact.from_text):
            try:
                read(text.encode())
            except (ns.InvalidText, ns.IndexOutOfBounds) as error:
                assert error.line == line and str(error).startswith(f"line {line}: "), (text, str(error))
            else:
                raise AssertionError(text)
    long = [head + "general", "9999 9999 9999"] + [f"{k} {k} {k}" for k in range(1, 10000)]
    for at in (2, 3, 5000, 10000):
        broken = "\n".join([*long[:at], "1 1 one", *long[at + 1 :]])
        try:
            ns.read(broken.encode())
        except ns.InvalidText as error:
            assert error.line == at + 1
        else:
            raise AssertionError(at)
    assert ns.Error().line is None
    try:
        ns.read(head.encode() + b"general\n1 1 1\n1 1 \xff\n")
    except ns.InvalidText as error:
        assert error.line == 3 and "UTF-8" in str(error)


def check_index_types():
    """Indices have 64 bits where those of an operand have, or where sizes require it, and otherwise 32, as SciPy's
    graph functions require; and the arrays of a result have no room beside it."""
    narrow, i = sp.csr_matrix(np.array([[1, 2], [0, 3]])), np.array([0, 1, 1])
    wide = sp.csr_matrix((2, 2), dtype=np.int64)
    wide.data, wide.indices, wide.indptr = narrow.data, narrow.indices.astype(np.int64), narrow.indptr.astype(np.int64)
    for a, b, dtype in ((narrow, narrow, np.int32), (narrow, wide, np.int64), (wide, narrow, np.int64), (wide, wide, np.int64)):
        for ours, theirs in ((ns.add(a, b), a + b), (ns.subtract(a, b), a - b), (ns.matmul(a, b), a @ b)):
            assert ours.indices.dtype == ours.indptr.dtype == dtype and np.array_equal(ours.toarray(), theirs.toarray())
            assert ours.data.flags.owndata and ours.data.size == ours.nnz
        assert ns.transpose(a).indices.dtype == ns.divide(a, 3).indptr.dtype == a.indices.dtype
    assert connected_components(ns.add(narrow, narrow))[0] == 1
    assert ns.assemble_csr((2, 2), i, i, i).indices.dtype == sp.coo_matrix((i, (i, i)), (2, 2)).tocsr().indices.dtype == np.int32
    far = ns.assemble_csr((1, 2**31), np.array([0]), np.array([2**31 - 1]), np.array([5]))
    assert far.indices.dtype == np.int64 and far.indices.tolist() == [2**31 - 1]
    # An operand whose arrays have the right type is read where it is.
    lanes = operands.lanes_of("a", wide, "csr")
    for ours, given in ((lanes.offsets, wide.indptr), (lanes.indices, wide.indices), (lanes.values, wide.data)):
        assert ours is given or ours.base is given
    dense = np.asfortranarray(np.arange(6).reshape(3, 2))
    assert np.may_share_memory(operands.dense_of("b", dense, 3)[0], dense)


def check_files():
    """`mmread` and `mmwrite` take the arguments of SciPy's, and read and write the files of SciPy's."""
    a = sp.csr_matrix(np.array([[1, 0, -(2**63)], [0, 7, 0]]))
    with tempfile.TemporaryDirectory() as folder:
        ours, theirs = os.path.join(folder, "ours"), pathlib.Path(folder, "theirs.mtx")
        for of in (a, a.tocsc(), sp.coo_array(a), ns.Exact.from_scipy(a)):
            # The ending is added to the name, by SciPy too.
            ns.mmwrite(ours, of)
            for path in (ours, f"{ours}.mtx"):
                assert (ns.mmread(path) != a).nnz == (scipy.io.mmread(path) != a).nnz == 0
        scipy.io.mmwrite(theirs, a)
        assert type(ns.mmread(theirs)) is type(scipy.io.mmread(theirs)) and (ns.mmread(theirs) != a).nnz == 0
        with open(theirs, "wb") as file:
            ns.mmwrite(file, a)
        with open(theirs, "rb") as file:
            assert (ns.mmread(file) != a).nnz == 0
        assert sorted(os.listdir(folder)) == ["ours.mtx", "theirs.mtx"]
        refused(FileNotFoundError, ns.mmread, os.path.join(folder, "none"))
        refused(TypeError, ns.mmwrite, ours, a.toarray())
        refused(TypeError, ns.mmwrite, ours, a.astype(float))
        pathlib.Path(ours).write_bytes(b"%%MatrixMarket matrix coordinate real general\n")
        refused(ns.InvalidText, ns.mmread, ours)


check_singular()
check_lines()
check_index_types()
check_files()
print("python: each Singular names its ring, indices have the types of SciPy's, and files are those of SciPy")
