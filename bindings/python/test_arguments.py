"""Tries wrong arguments, the formats and dtypes of operands, and the examples of the package. Run by bindings/test."""
import array
import contextlib
import ctypes
import ctypes.util
import doctest
import io
import os
import re
import subprocess
import sys
import traceback

import numpy as np
import scipy.sparse as sp

here = os.path.dirname(os.path.abspath(__file__))
sys.path.insert(0, here)
import nalgebra_sparse as ns  # noqa: E402
from nalgebra_sparse import _calls, _exact, _factorisation, _matrices, _owned, _ring_factors, _systems, _texts  # noqa: E402

NONE = np.empty(0, np.int64)
ONE = np.array([0])
PLAIN = np.array([[5, 2, 0], [0, 7, 1]])
NUMBERS = {"size": 0, "modulus": 7, "value": 1, "choice": 0, "flag": False, "text": b"", "out_size": ctypes.c_size_t()}
HANDLES = {"handle": _calls.Handle(), "factors": _calls.FactorHandle(), "ring": _calls.RingHandle(), "out_modulus": ctypes.c_uint64()}
ARRAYS = {"indices": NONE, "values": NONE, "out_indices": NONE, "out_values": NONE, "out_text": np.empty(0, np.uint8)}
ARRAYS["out_narrow"] = np.empty(0, np.int32)
SAMPLES = {**NUMBERS, **HANDLES, **ARRAYS}
CLASSES = (sp.csr_matrix, sp.csc_matrix, sp.csr_array, sp.csc_array)


def refused(error, call, *arguments):
    try:
        call(*arguments)
    except error as found:
        return found
    raise AssertionError(f"{call.__name__} did not raise {error.__name__} of {arguments}")


def with_shape(shape):
    """Returns a COO matrix with this shape, without the checks of SciPy."""
    matrix = sp.coo_matrix((ONE, (ONE, ONE)), (1, 1))
    matrix._shape = shape
    return matrix


def check_shapes():
    """A shape that is not two sizes would shift the arguments of a call."""
    for shape in ((2, 3, 4), (2,), (), (-1, 2), (2, 2**63), (2**64, 2)):
        for call in (ns.assemble_csr, ns.assemble_csc):
            refused(ns.Error, call, shape, NONE, NONE, NONE)
        refused(ns.Error, ns.write, with_shape(shape))
    # The bytes are those of the shape (2, 3), and a set has no order.
    for shape in (2, None, "ab", (2.0, 2), (True, 2), ((2, 2), 2), b"\x02\x03", bytearray(b"\x02\x03"), {2, 3}):
        for call in (ns.assemble_csr, ns.assemble_csc):
            refused(TypeError, call, shape, NONE, NONE, NONE)
    for call in (ns.transpose, ns.add, ns.matmul):
        matrix = sp.csr_matrix(PLAIN)
        matrix._shape = (2, 3, 4)
        refused(ns.Error, call, *[matrix] * (1 if call is ns.transpose else 2))
    # The offsets, or the values, of these do not fit in memory.
    huge = 2**62
    refused(MemoryError, ns.assemble_csr, (huge, 1), NONE, NONE, NONE)
    refused(MemoryError, ns.assemble_csc, (1, huge), NONE, NONE, NONE)
    refused(MemoryError, ns.transpose, ns.assemble_csr((1, huge), NONE, NONE, NONE))
    refused(MemoryError, ns.multiply_dense, sp.csr_matrix((4, 0), dtype=np.int64), np.empty((0, 2**59), np.int64))
    refused(ns.Error, ns.read, b"%%MatrixMarket matrix coordinate integer general\n9223372036854775808 1 0\n")


def check_kinds():
    """An argument of the wrong kind is refused before the library is called."""
    square = sp.csc_matrix(np.array([[5, 0], [0, 7]]))
    b = np.array([1, 2])
    for operand in ([0], ONE.astype(float), ONE.astype(bool), np.zeros((1, 1), np.int64), None, ONE.astype("m8[s]")):
        refused(TypeError, ns.assemble_csr, (2, 2), operand, ONE, ONE)
        refused(TypeError, ns.assemble_csr, (2, 2), ONE, ONE, operand)
    refused(TypeError, ns.assemble_csr, (2, 2), ONE, ONE, ONE.astype(np.uint64))
    for modulus in (7.0, "7", True, [7]):
        refused(TypeError, ns.solve_lower, square, b, False, modulus)
    for modulus in (-1, 2**64, 2**70):
        refused(ns.UnknownModulus, ns.factor_symmetric, square, modulus)
    for divisor in (2**63, -(2**63) - 1):
        refused(ns.Error, ns.divide, sp.csr_matrix(PLAIN), divisor)
    refused(TypeError, ns.divide, sp.csr_matrix(PLAIN), 3.0)
    refused(TypeError, ns.solve_lower, square.tocsr(), b)
    refused(TypeError, ns.solve_lower, square, np.ones(2))
    refused(TypeError, ns.solve_lower, square, [1, 2])
    refused(TypeError, ns.add, sp.csr_matrix(PLAIN), sp.csc_matrix(PLAIN))
    for matrix in (PLAIN, None, sp.coo_matrix(PLAIN), sp.csr_matrix(PLAIN.astype(float))):
        refused(TypeError, ns.transpose, matrix)
        refused(TypeError, ns.matmul, sp.csr_matrix(PLAIN), matrix)
    refused(TypeError, ns.read, "a text")
    refused(TypeError, ns.write, sp.csr_matrix(PLAIN))
    refused(TypeError, ns.reuse_memory, 0.5)


def check_flags():
    """A flag must be a boolean: NaN, a text and a number are refused, with the name of the argument."""
    square, b = sp.csc_matrix(np.array([[5, 0], [0, 7]])), np.array([1, 2])
    owned = ns.Exact.from_scipy(square)
    for wrong in (float("nan"), "no", 0, None, np.array([False])):
        for solve in (owned.solve_lower, owned.solve_upper, lambda b, wrong: ns.solve_lower(square, b, wrong)):
            assert "transposed must be" in str(refused(TypeError, solve, b, wrong))
        calls = (owned.solve, lambda b, wrong: owned.factor(wrong), lambda b, wrong: ns.solve_symmetric(square, b, None, wrong))
        for call in (*calls, lambda b, wrong: ns.factor_symmetric(square, None, wrong), lambda b, wrong: ns.solve_rational(square, b, 7, wrong)):
            assert "assume_symmetric must be" in str(refused(TypeError, call, b, wrong))
    assert np.array_equal(owned.solve_lower(b, np.bool_(True)), ns.solve_lower(square, b, transposed=np.bool_(True)))


def check_masks():
    """A mask would be ignored, so a masked array is refused, also one that masks nothing."""
    for mask in (True, False):
        masked = np.ma.array(ONE, mask=[mask])
        for arguments in ((masked, ONE, ONE), (ONE, masked, ONE), (ONE, ONE, masked)):
            assert "masked" in str(refused(TypeError, ns.assemble_csr, (1, 1), *arguments))
            assert "masked" in str(refused(TypeError, ns.Exact.from_triplets, (1, 1), *arguments))
        one = sp.csc_matrix(np.array([[1]]))
        for solve in (lambda b: ns.solve_lower(one, b), lambda b: ns.solve_rational(one, b), ns.Exact.from_scipy(one).solve):
            assert "masked" in str(refused(TypeError, solve, masked))
        one.data = np.ma.array(one.data, mask=[mask])
        assert "masked" in str(refused(TypeError, ns.transpose, one))


def check_table():
    """Compares the table of arguments with the header, and tries a wrong number and each wrong kind."""
    header = open(os.path.join(here, "..", "c", "nalgebra_sparse.h"), encoding="utf-8").read()
    plain = {"size_t": ctypes.c_size_t, "bool": ctypes.c_bool, "int32_t": ctypes.c_int32}
    plain.update({"int64_t": ctypes.c_int64, "uint64_t": ctypes.c_uint64, "nalgebra_sparse_matrix": _calls.Handle})
    plain.update({"nalgebra_sparse_factors": _calls.FactorHandle, "nalgebra_sparse_ring_matrix": _calls.RingHandle})
    declared = re.findall(r"^int32_t nalgebra_sparse_(\w+)\(([^)]*)\);", header, re.M)
    assert {name for name, _ in declared} == set(_calls._TABLE)
    for name, words in declared:
        parameters = [" ".join(word.split()) for word in words.split(",")]
        types = []
        for parameter, following in zip(parameters, [*parameters[1:], ""]):
            kind = parameter.rsplit(" ", 1)[0]
            if "*" not in parameter:
                types.append(plain[kind])
            elif not following.endswith("_len"):
                types.append(ctypes.POINTER(plain[kind]))
            else:
                types.append(ctypes.c_char_p if kind == "const uint8_t" else ctypes.c_void_p)
        function = _calls._FUNCTIONS[name]
        assert function.argtypes == types and function.restype is ctypes.c_int32, name
        kinds = _calls._TABLE[name].split()
        for wrong in (None, 1.5, object(), PLAIN):
            refused(TypeError, _calls.call, name, *[wrong] * len(kinds))
        right = [SAMPLES[kind] for kind in kinds]
        refused(TypeError, _calls.call, name, *right[:-1])
        refused(TypeError, _calls.call, name, *right, 0)


def check_exceptions():
    """Each error is a new exception, which keeps the frames of one call."""
    found = [refused(ns.IndexOutOfBounds, ns.assemble_csr, (2, 2), ONE + 2, ONE, ONE) for _ in range(3)]
    assert len({id(error) for error in found}) == 3
    assert len({len(traceback.extract_tb(error.__traceback__)) for error in found}) == 1


def check_dtypes():
    """Every dtype of integers that fits is accepted, in any byte order and with any stride, and operands are
    unchanged."""
    want = ns.assemble_csr((3, 3), np.array([0, 2]), np.array([1, 2]), np.array([3, 4])).toarray()
    for dtype in ("i1", "i2", "i4", "i8", "u1", "u2", "u4", "u8", ">i2", ">i8", ">u8"):
        i, j, values = (np.array(list_of, dtype) for list_of in ([0, 2], [1, 2], [3, 4]))
        kept = values.astype("i1") if dtype in ("u8", ">u8") else values
        assert np.array_equal(ns.assemble_csr((3, 3), i, j, kept).toarray(), want), dtype
        assert np.array_equal(ns.assemble_csc((3, 3), i, j, kept).toarray(), want), dtype
        assert i.dtype == np.dtype(dtype) and i.tolist() == [0, 2]
        if dtype not in ("u8", ">u8"):
            for kind in CLASSES:
                assert np.array_equal(ns.transpose(kind(PLAIN.astype(dtype))).toarray(), PLAIN.T), dtype
    strided = np.array([0, 9, 2, 9])[::2]
    assert np.array_equal(ns.assemble_csr((3, 3), strided, np.array([1, 2]), np.array([3, 4])).toarray(), want)
    refused(ns.IndexOutOfBounds, ns.assemble_csr, (2, 2), np.array([-1], np.int8), ONE, ONE)
    refused(ns.IndexOutOfBounds, ns.assemble_csr, (2, 2), np.array([2**64 - 1], np.uint64), ONE, ONE)
    for dtype in ("i4", "i8", "u4", "u8"):
        matrix = sp.csr_array((2, 2), dtype=np.int64)
        # The entries of the first row are not in order.
        matrix.data, matrix.indices, matrix.indptr = np.array([2, 1, 2, 7]), np.array([1, 0, 0, 1], dtype), np.array([0, 2, 4], dtype)
        assert ns.Exact.from_scipy(matrix).toarray().tolist() == [[1, 2], [2, 7]], dtype
        for assumed in (False, True):
            assert ns.solve_rational(matrix, np.array([3, 9]), assume_symmetric=assumed).tolist() == [1, 1], dtype
    for b in (np.arange(6).reshape(3, 2), np.arange(6, dtype=np.int16).reshape(3, 2), np.arange(12).reshape(3, 4)[:, ::2]):
        assert np.array_equal(ns.multiply_dense(sp.csr_matrix(PLAIN), b), PLAIN @ b)
        lower = np.array([[1, 0, 0], [2, 3, 0], [0, 1, 1]])
        assert np.array_equal(lower @ ns.solve_lower(sp.csc_array(lower), b), b)


def check_read_only():
    """Operands may be read-only, also empty ones, and solves do not write them."""
    for columns in (0, 1, 2):
        b = np.ones((2, columns), np.int64)
        b.flags.writeable = False
        for modulus in (None, 7):
            a = ns.Exact.from_scipy(sp.csr_array(np.array([[1, 2], [2, 5]])), modulus)
            for call in (a.solve_lower, a.solve_upper, a.solve, a.factor().solve, a.__matmul__):
                assert call(b).tolist() == call(b.copy()).tolist() and call(b).shape == b.shape and (b == 1).all()


def check_forms():
    """Results have the class of the first operand."""
    for kind in CLASSES:
        a = kind(PLAIN)
        for result, want in [
            (ns.transpose(a), PLAIN.T),
            (ns.add(a, a), 2 * PLAIN),
            (ns.subtract(ns.add(a, a), a), PLAIN),
            (ns.matmul(a, kind(PLAIN.T)), PLAIN @ PLAIN.T),
            (ns.matmul(kind(PLAIN.T), a), PLAIN.T @ PLAIN),
            (ns.divide(a, 1), PLAIN),
        ]:
            assert type(result) is kind and result.dtype == np.int64 and np.array_equal(result.toarray(), want)
    for kind in CLASSES[1::2]:
        factor, diagonal = ns.factor_symmetric(kind(np.array([[1, 2], [2, 7]])))
        assert type(factor) is kind and diagonal.tolist() == [1, 3]
    triplets = (ONE + 4, (ONE, ONE))
    assert ns.write(sp.coo_array(triplets, (1, 1))) == ns.write(sp.coo_matrix(triplets, (1, 1)))
    # The pointer of an empty array need not be aligned; that of a call is, and is not null.
    for empty in (np.asarray(array.array("q")), np.frombuffer(bytearray(), np.int64)):
        for kind in ("indices", "values"):
            address, length = _calls._KINDS[kind].words(empty)
            assert address and address % 8 == 0 and length == 0
        assert ns.assemble_csr((1, 1), empty, empty, empty).nnz == 0


def check_import():
    """If the library is missing, or the file is not a library or another one, the error says how to build it."""
    other = ctypes.util.find_library("c")
    for path, said in ((os.path.join(here, "none.so"), "none.so"), (__file__, "test_arguments.py"), (other, f"{other} has no call nalgebra_sparse_")):
        settings = {**os.environ, "NALGEBRA_SPARSE_LIBRARY": path}
        words = [sys.executable, "-B", "-c", "import nalgebra_sparse"]
        ran = subprocess.run(words, cwd=here, env=settings, stderr=subprocess.PIPE, text=True, check=False)
        last = ran.stderr.strip().split("\n")[-1]
        assert ran.returncode and last.startswith("ImportError") and said in last and "run bindings/python/build" in last, ran.stderr


def check_package():
    """The version is that of the file VERSION, each name of `__all__` exists, and the examples run, also the README's."""
    assert ns.__version__ == open(os.path.join(here, "..", "..", "VERSION"), encoding="ascii").read().strip()
    examples = 0
    for module in (ns, _exact, _factorisation, _matrices, _owned, _ring_factors, _systems, _texts):
        failed, tried = doctest.testmod(module, extraglobs={"Exact": ns.Exact})
        assert not failed
        examples += tried
    with open(os.path.join(here, "README.md"), encoding="utf-8") as file:
        blocks = re.findall(r"```python\n(.*?)```", file.read(), re.S)
    for block in blocks:
        with contextlib.redirect_stdout(io.StringIO()):
            exec(compile(block, "README.md", "exec"), {})
    assert len(blocks) == 6
    for name in ns.__all__:
        public = getattr(ns, name)
        assert not callable(public) or public.__doc__
        if callable(public) and not isinstance(public, type) and name != "reuse_memory":
            assert ">>>" in public.__doc__ and public.__annotations__, name
    return examples


check_shapes()
check_kinds()
check_flags()
check_masks()
check_table()
check_exceptions()
check_dtypes()
check_read_only()
check_forms()
check_import()
count = check_package()
print(f"python: each argument is checked before a call, each form and dtype is taken, and {count} lines of examples run")
