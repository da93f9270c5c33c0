"""The line of a Matrix Market text that has the first fault, for the errors of the calls that read texts."""
from __future__ import annotations

import ctypes
from typing import Any, Optional

from ._calls import call, status_of
from ._errors import NOT_UTF8, IndexOutOfBounds, InvalidText, error_of
from ._operands import Integers, shape_of
from ._results import empty

_DONE = 0


def read_text(name: str, text: bytes, *arguments: Any) -> None:
    """Calls a function that reads a text, and raises its error, whose `line` is that of the fault."""
    status = status_of(name, text, *arguments)
    if status == _DONE:
        return
    error = error_of(status, name)
    line = _faulty_line(text) if isinstance(error, (InvalidText, IndexOutOfBounds)) else None
    if line is None:
        raise error
    located = type(error)(f"line {line}: {error}")
    located.line = line
    raise located


def triplets_of_text(text: bytes) -> tuple[tuple[int, int], Integers, Integers, Integers]:
    """Returns the shape of a text, and the rows, the columns and the values of its triplets."""
    if not isinstance(text, bytes):
        raise TypeError(f"text must be bytes, not {type(text).__name__}")
    rows, cols, count = ctypes.c_size_t(), ctypes.c_size_t(), ctypes.c_size_t()
    read_text("read_sizes", bytes(text), rows, cols, count)
    shape = shape_of("the shape of the text", (rows.value, cols.value))
    i, j, values = empty(count.value), empty(count.value), empty(count.value)
    call("read", bytes(text), i, j, values, count)
    return shape, i, j, values


def _faulty_line(text: bytes) -> Optional[int]:
    """Returns the number of the line with the first fault, counted from 1, which the library tells, or of the line with
    the first byte that is not UTF-8. Returns None if the text has no error."""
    line = ctypes.c_size_t()
    if status_of("text_fault", text, line) == NOT_UTF8:
        return _undecoded(text)
    return line.value or None


def _undecoded(text: bytes) -> Optional[int]:
    """Returns the number of the line with the first byte that is not UTF-8."""
    try:
        text.decode()
    except UnicodeDecodeError as error:
        return len(text[: error.start + 1].splitlines())
    return None
