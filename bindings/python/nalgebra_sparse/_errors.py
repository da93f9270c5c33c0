"""The errors of calls, by their statuses."""
from __future__ import annotations

from typing import Optional


class Error(ValueError):
    """A call was refused. If the cause is a line of a text, `line` is its number, counted from 1."""

    line: Optional[int] = None


class InvalidStructure(Error):
    """The arrays have lengths, offsets or an order that the format does not allow."""


class IndexOutOfBounds(Error):
    """A row or a column index is out of bounds."""


class DuplicateEntry(Error):
    """Two entries have the same row and column, or a number occurs twice in an order."""


class Singular(Error):
    """A value that must have an inverse has none. The message names the ring: the integers modulo 2^64, or modulo a
    prime. If it is the pivot of a symmetric matrix, `column` is the index of its column."""

    column: Optional[int] = None


class UnknownModulus(Error):
    """The modulus is not one of `MODULI`."""


class RingMismatch(Error):
    """The operands have different moduli."""


class TooSmall(Error):
    """An array for the result is too small. The call tells the size that is needed."""


class InvalidText(Error):
    """A text in Matrix Market format has an error, which the message describes."""


UNKNOWN_MODULUS = 7
NOT_UTF8 = 16

_REFUSALS: dict[int, tuple[type[Exception], str]] = {
    1: (MemoryError, "an allocation failed"),
    2: (InvalidStructure, "the arrays have lengths, offsets or an order that the format does not allow; sort_indices() of SciPy sorts"),
    3: (IndexOutOfBounds, "a row or a column index is out of bounds"),
    4: (DuplicateEntry, "the same place is given more than once"),
    5: (TooSmall, "an array for the result is too small"),
    6: (Singular, "a value that must have an inverse has none"),
    UNKNOWN_MODULUS: (UnknownModulus, "the modulus is none of MODULI"),
    8: (InvalidText, "a text does not match the grammar, or a number in it is out of range"),
    9: (InvalidText, "the format, the field and the symmetry of a text's header do not go together"),
    10: (InvalidText, "the number of entries of a text is not the one of its size line"),
    11: (InvalidText, "a text has an entry that is no integer of 64 bits"),
    12: (InvalidText, "an index of a text is 0"),
    13: (InvalidText, "a skew-symmetric matrix has an entry on its diagonal"),
    14: (InvalidText, "a symmetric or skew-symmetric matrix has an entry above the diagonal"),
    15: (InvalidText, "a symmetric or skew-symmetric matrix is not square"),
    16: (InvalidText, "the bytes of a text are not UTF-8"),
    17: (Error, "a handle is empty"),
    18: (Error, "the shapes of the operands do not fit"),
    19: (RingMismatch, "the operands have different moduli"),
}

# The messages of errors of an order.
_OF_ORDERS = {
    2: "the order does not have a number for each row",
    3: "a number of the order is out of bounds: it is not one of the rows, counted from 0",
    4: "a number occurs more than once in the order",
}


def ring_of(modulus: Optional[int]) -> str:
    """Returns the number modulo which a ring computes, as a text."""
    return "2^64" if modulus is None else str(modulus)


def _singular(fault: str, modulus: Optional[int]) -> str:
    """Returns the message of a `Singular`: what has no inverse, and what else may solve the system."""
    if modulus is None:
        return f"{fault} (even numbers have none); modulus= takes a prime of MODULI instead, and solve_rational solves over the fractions"
    return f"{fault}; modulus= takes another prime of MODULI, and solve_rational solves over the fractions"


def _fault(name: str, modulus: Optional[int]) -> str:
    """Returns what has no inverse, if a call ends with SINGULAR, and in which ring."""
    ring = ring_of(modulus)
    if "divide" in name:
        return f"the divisor has no inverse modulo {ring}"
    if "factor" in name or "symmetric" in name:
        return f"the matrix has no factorisation L D L^T modulo {ring}: a pivot has no inverse"
    return f"an entry of the diagonal is not stored, or has no inverse modulo {ring}"


def singular_at(column: int, modulus: Optional[int], in_order: bool = False) -> Singular:
    """Returns the error of a symmetric matrix whose factorisation stops at a column."""
    order = " in this order" if in_order else ""
    fault = f"the matrix has no factorisation L D L^T modulo {ring_of(modulus)}{order}: the pivot of column {column} has no inverse"
    error = Singular(_singular(fault, modulus))
    error.column = column
    return error


def error_of(status: int, name: str = "", modulus: Optional[int] = None) -> Exception:
    """Returns a new exception for a status other than 0 of a call, which may have a modulus.

    It is a new one each time, since an exception that is raised again keeps the frames of all its tracebacks, and the
    arrays in them.
    """
    kind, message = _REFUSALS.get(status, (Error, f"the call ended with status {status}"))
    if name == "matrix_factor_in_order":
        message = _OF_ORDERS.get(status, message)
    return kind(_singular(_fault(name, modulus), modulus) if kind is Singular else message)
