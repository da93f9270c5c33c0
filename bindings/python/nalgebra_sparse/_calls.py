"""The calls of the shared library. Each argument is checked against one table, in number and kind, before a call."""
from __future__ import annotations

import ctypes
import os
from typing import Any, Callable, NamedTuple

import numpy as np

from ._errors import error_of

_PATH = os.environ.get("NALGEBRA_SPARSE_LIBRARY") or os.path.join(os.path.dirname(os.path.abspath(__file__)), "libnalgebra_sparse.so")
try:
    _library = ctypes.CDLL(_PATH)
except OSError as error:
    raise ImportError(f"{error}: run bindings/python/build, or name the shared library in NALGEBRA_SPARSE_LIBRARY") from error
if ctypes.sizeof(ctypes.c_size_t) != 8:
    raise ImportError("nalgebra_sparse needs 64 bits")


def _symbol(name: str) -> Any:
    try:
        return getattr(_library, f"nalgebra_sparse_{name}")
    except AttributeError as error:
        message = f"{_PATH} has no call nalgebra_sparse_{name}, so it is another library, or one of another version"
        raise ImportError(f"{message}: run bindings/python/build, or name the shared library in NALGEBRA_SPARSE_LIBRARY") from error


# The pointer that is passed for an empty array, whose own pointer may be null or not aligned.
_NOWHERE = ctypes.c_uint64()


class Handle(ctypes.Structure):
    """A handle of a matrix that the library owns: null means none."""

    _fields_ = [("matrix", ctypes.c_void_p)]


class FactorHandle(ctypes.Structure):
    """A handle of factors that the library owns: null means none."""

    _fields_ = [("factors", ctypes.c_void_p)]


class RingHandle(ctypes.Structure):
    """A handle of a matrix modulo a listed number, which the library owns: null means none."""

    _fields_ = [("matrix", ctypes.c_void_p)]


class Kind(NamedTuple):
    """A kind of argument: the types of the call's parameters for it, and the function that computes their values from
    an argument."""

    types: tuple[Any, ...]
    words: Callable[[Any], tuple[Any, ...]]


def _integer(kind: Any, least: int, most: int) -> Kind:
    def words(argument: Any) -> tuple[Any, ...]:
        if type(argument) is not int or not least <= argument <= most:
            raise TypeError(f"not an integer from {least} to {most}: {argument!r}")
        return (argument,)

    return Kind((kind,), words)


def _instance(kind: Any, of: type, words: Callable[[Any], tuple[Any, ...]], *more: Any) -> Kind:
    def checked(argument: Any) -> tuple[Any, ...]:
        if type(argument) is not of:
            raise TypeError(f"not of the type {of.__name__}: {argument!r}")
        return words(argument)

    return Kind((kind, *more), checked)


def _array(written: bool, *dtypes: Any) -> Kind:
    """Returns the kind of one-dimensional arrays of these types, which a call takes as a pointer and a length."""
    allowed = tuple(np.dtype(dtype) for dtype in dtypes)

    def words(argument: Any) -> tuple[Any, ...]:
        if not isinstance(argument, np.ndarray) or argument.ndim != 1 or argument.dtype not in allowed:
            raise TypeError(f"not an array with one dimension of {' or '.join(map(str, allowed))}: {argument!r}")
        flags = argument.flags
        if not flags.c_contiguous or not flags.aligned or (written and not flags.writeable):
            raise TypeError("an array is not contiguous, not aligned, or cannot be written")
        return argument.__array_interface__["data"][0] if argument.size else ctypes.addressof(_NOWHERE), argument.size

    return Kind((ctypes.c_void_p, ctypes.c_size_t), words)


_KINDS = {
    "size": _integer(ctypes.c_size_t, 0, 2**64 - 1),
    "modulus": _integer(ctypes.c_uint64, 0, 2**64 - 1),
    "value": _integer(ctypes.c_int64, -(2**63), 2**63 - 1),
    "choice": _integer(ctypes.c_int32, -(2**31), 2**31 - 1),
    "flag": _instance(ctypes.c_bool, bool, lambda flag: (flag,)),
    "text": _instance(ctypes.c_char_p, bytes, lambda text: (text, len(text)), ctypes.c_size_t),
    "indices": _array(False, np.int64, np.uint64),
    "values": _array(False, np.int64),
    "out_indices": _array(True, np.int64),
    "out_values": _array(True, np.int64),
    "out_narrow": _array(True, np.int32, np.uint32),
    "out_text": _array(True, np.uint8),
    "handle": _instance(ctypes.POINTER(Handle), Handle, lambda handle: (ctypes.byref(handle),)),
    "factors": _instance(ctypes.POINTER(FactorHandle), FactorHandle, lambda handle: (ctypes.byref(handle),)),
    "ring": _instance(ctypes.POINTER(RingHandle), RingHandle, lambda handle: (ctypes.byref(handle),)),
    "out_modulus": _instance(ctypes.POINTER(ctypes.c_uint64), ctypes.c_uint64, lambda modulus: (ctypes.byref(modulus),)),
    "out_size": _instance(ctypes.POINTER(ctypes.c_size_t), ctypes.c_size_t, lambda size: (ctypes.byref(size),)),
}

_TRIPLETS = "indices indices values"
_PATTERN = "indices indices"
_LANES = "indices indices values"
_RESULT = "out_indices out_indices out_values out_size"
_FACTORS = "out_indices out_indices out_values out_values out_size"

# The arguments of each call, in the order of bindings/c/nalgebra_sparse.h.
_TABLE = {
    "assemble_csr": f"size size {_TRIPLETS} {_RESULT}",
    "assemble_csc": f"size size {_TRIPLETS} {_RESULT}",
    "assemble_csr_mod": f"modulus size size {_TRIPLETS} {_RESULT}",
    "assemble_csc_mod": f"modulus size size {_TRIPLETS} {_RESULT}",
    "transpose": f"size size {_LANES} {_RESULT}",
    "add": f"size size {_LANES} {_LANES} {_RESULT}",
    "subtract": f"size size {_LANES} {_LANES} {_RESULT}",
    "add_scaled": f"size size value {_LANES} value {_LANES} {_RESULT}",
    "add_mod": f"modulus size size {_LANES} {_LANES} {_RESULT}",
    "subtract_mod": f"modulus size size {_LANES} {_LANES} {_RESULT}",
    "add_scaled_mod": f"modulus size size value {_LANES} value {_LANES} {_RESULT}",
    "multiply_places": f"size size size {_PATTERN} {_PATTERN} out_size",
    "multiply": f"size size size {_LANES} {_LANES} {_RESULT}",
    "multiply_mod": f"modulus size size size {_LANES} {_LANES} {_RESULT}",
    "multiply_dense": f"size size size {_LANES} values out_values",
    "multiply_dense_mod": f"modulus size size size {_LANES} values out_values",
    "solve_lower": f"size size {_LANES} flag values out_values",
    "solve_lower_mod": f"modulus size size {_LANES} flag values out_values",
    "divide": f"size size {_LANES} value {_RESULT}",
    "divide_mod": f"modulus size size {_LANES} value {_RESULT}",
    "fill_places": f"size choice {_PATTERN} out_size",
    "fill": f"size choice {_PATTERN} out_indices out_indices out_size",
    "solve_symmetric": f"size size {_LANES} values out_values",
    "solve_symmetric_mod": f"modulus size size {_LANES} values out_values",
    "factor_symmetric": f"size {_LANES} {_FACTORS}",
    "factor_symmetric_mod": f"modulus size {_LANES} {_FACTORS}",
    "factor_symmetric_pivot": f"size {_LANES} out_size",
    "factor_symmetric_pivot_mod": f"modulus size {_LANES} out_size",
    "read_sizes": "text out_size out_size out_size",
    "read": "text out_indices out_indices out_values out_size",
    "text_fault": "text out_size",
    "write_length": f"size size {_TRIPLETS} out_size",
    "write": f"size size {_TRIPLETS} out_text out_size",
    "matrix_from_rows": f"size size {_LANES} handle",
    "matrix_from_triplets": f"size size {_TRIPLETS} handle",
    "matrix_sizes": "handle out_size out_size out_size",
    "matrix_read": f"handle {_RESULT}",
    "matrix_read_32": "handle out_narrow out_narrow out_values out_size",
    "matrix_transpose": "handle handle",
    "matrix_scale": "value handle handle",
    "matrix_add": "handle handle handle",
    "matrix_subtract": "handle handle handle",
    "matrix_add_scaled": "value handle value handle handle",
    "matrix_multiply": "handle handle handle",
    "matrix_multiply_dense": "handle size values out_values",
    "matrix_clone": "handle handle",
    "matrix_from_text": "text handle",
    "matrix_to_text": "handle out_text out_size",
    "matrix_solve_lower": "handle flag size out_values",
    "matrix_solve_upper": "handle flag size out_values",
    "matrix_factor": "handle factors",
    "matrix_minimum_degree": "handle out_indices",
    "matrix_reverse_cuthill_mckee": "handle out_indices",
    "matrix_factor_in_order": "handle indices factors",
    "factors_order": "factors out_indices",
    "factors_solve": "factors size out_values",
    "factors_sizes": "factors out_size out_size",
    "factors_read": f"factors {_FACTORS}",
    "factors_clone": "factors factors",
    "ring_matrix_from_rows": f"modulus size size {_LANES} ring",
    "ring_matrix_from_triplets": f"modulus size size {_TRIPLETS} ring",
    "ring_matrix_sizes": "ring out_modulus out_size out_size out_size",
    "ring_matrix_read": f"ring {_RESULT}",
    "ring_matrix_transpose": "ring ring",
    "ring_matrix_scale": "value ring ring",
    "ring_matrix_add": "ring ring ring",
    "ring_matrix_subtract": "ring ring ring",
    "ring_matrix_add_scaled": "value ring value ring ring",
    "ring_matrix_multiply": "ring ring ring",
    "ring_matrix_multiply_dense": "ring size values out_values",
    "ring_matrix_clone": "ring ring",
}


def _declared(name: str, kinds: list[Kind]) -> Any:
    function = _symbol(name)
    function.argtypes = [kind for parameter in kinds for kind in parameter.types]
    function.restype = ctypes.c_int32
    return function


_PARAMETERS = {name: [_KINDS[word] for word in words.split()] for name, words in _TABLE.items()}
_FUNCTIONS = {name: _declared(name, kinds) for name, kinds in _PARAMETERS.items()}


def status_of(name: str, *arguments: Any) -> int:
    """Calls a function of the library, and returns its status.

    If the number of arguments or the kind of one is not that of the table, it raises a `TypeError`, and calls nothing.
    """
    kinds = _PARAMETERS[name]
    if len(arguments) != len(kinds):
        raise TypeError(f"{name} takes {len(kinds)} arguments, not {len(arguments)}")
    words = [word for kind, argument in zip(kinds, arguments) for word in kind.words(argument)]
    return _FUNCTIONS[name](*words)


def call(name: str, *arguments: Any) -> None:
    """Calls a function of the library as `status_of` does, and raises its error."""
    status = status_of(name, *arguments)
    if status:
        raise error_of(status, name, arguments[0] if name.endswith("_mod") else None)


def _freeing(name: str, kind: Any) -> Any:
    function = _symbol(name)
    function.argtypes = [ctypes.POINTER(kind)]
    function.restype = None
    return function


_FREE = {
    Handle: _freeing("matrix_free", Handle),
    FactorHandle: _freeing("factors_free", FactorHandle),
    RingHandle: _freeing("ring_matrix_free", RingHandle),
}


def free(handle: Any) -> None:
    """Frees a handle, which is empty from then on."""
    _FREE[type(handle)](ctypes.byref(handle))
