//! The errors of calls, by their statuses.

use std::fmt;

/// Why a call fails.
#[derive(Clone, Copy, Debug, PartialEq, Eq)]
#[non_exhaustive]
pub enum Error {
    /// An allocation failed.
    OutOfMemory,
    /// The arrays have lengths, offsets or an order that the format does not allow.
    InvalidStructure,
    /// A row or a column index is out of bounds.
    IndexOutOfBounds,
    /// Two entries have the same row and column, or a number occurs twice in an order.
    DuplicateEntry,
    /// A value that must have an inverse has none.
    Singular,
    /// The modulus is not one of [`MODULI`](crate::MODULI).
    UnknownModulus,
    /// A text does not match the grammar, or a number in it is out of range.
    InvalidText,
    /// The format, the field and the symmetry of a text's header do not go together.
    InvalidHeader,
    /// The number of entries of a text is not the one of its size line.
    EntryMismatch,
    /// A text has an entry that is not an integer of 64 bits.
    TypeMismatch,
    /// An index of a text is 0.
    ZeroIndex,
    /// A skew-symmetric matrix has an entry on its diagonal.
    DiagonalEntry,
    /// A symmetric or skew-symmetric matrix has an entry above the diagonal.
    NotLowerTriangle,
    /// A symmetric or skew-symmetric matrix is not square.
    NonSquare,
    /// The bytes of a text are not UTF-8.
    Unreadable,
    /// The shapes of the operands do not fit.
    ShapeMismatch,
    /// The operands have different moduli.
    RingMismatch,
    /// The matrix is not symmetric. Only the checked calls test this.
    NotSymmetric,
    /// The library returns a status that this version of the crate does not know.
    UnknownStatus(i32),
}

impl fmt::Display for Error {
    fn fmt(&self, f: &mut fmt::Formatter<'_>) -> fmt::Result {
        f.write_str(match self {
            Error::UnknownStatus(status) => return write!(f, "the library answered with the unknown status {status}"),
            Error::OutOfMemory => "an allocation failed",
            Error::InvalidStructure => "the arrays have lengths, offsets or an order that the format does not allow",
            Error::IndexOutOfBounds => "a row or a column index is out of bounds",
            Error::DuplicateEntry => "the same place is given more than once, or a number occurs twice in an order",
            Error::Singular => "a value that must have an inverse has none",
            Error::UnknownModulus => "the modulus is none of those of the library",
            Error::InvalidText => "a text does not match the grammar, or a number in it is out of range",
            Error::InvalidHeader => "the format, the field and the symmetry of a text's header do not go together",
            Error::EntryMismatch => "the number of entries of a text is not the one of its size line",
            Error::TypeMismatch => "a text has an entry that is no integer of 64 bits",
            Error::ZeroIndex => "an index of a text is 0",
            Error::DiagonalEntry => "a skew-symmetric matrix has an entry on its diagonal",
            Error::NotLowerTriangle => "a symmetric or skew-symmetric matrix has an entry above the diagonal",
            Error::NonSquare => "a symmetric or skew-symmetric matrix is not square",
            Error::Unreadable => "the bytes of a text are not UTF-8",
            Error::ShapeMismatch => "the shapes of the operands do not fit",
            Error::RingMismatch => "the operands have different moduli",
            Error::NotSymmetric => "the matrix is not symmetric",
        })
    }
}

impl std::error::Error for Error {}

/// The status of a call whose arrays for the result are too small. It tells the size that is needed.
pub(crate) const TOO_SMALL: i32 = 5;

/// Returns the error with this status.
pub(crate) fn answer(status: i32) -> Result<(), Error> {
    match status {
        0 => Ok(()),
        1 => Err(Error::OutOfMemory),
        2 => Err(Error::InvalidStructure),
        3 => Err(Error::IndexOutOfBounds),
        4 => Err(Error::DuplicateEntry),
        6 => Err(Error::Singular),
        // A triangle has a number that the library knows.
        7 => Err(Error::UnknownModulus),
        8 => Err(Error::InvalidText),
        9 => Err(Error::InvalidHeader),
        10 => Err(Error::EntryMismatch),
        11 => Err(Error::TypeMismatch),
        12 => Err(Error::ZeroIndex),
        13 => Err(Error::DiagonalEntry),
        14 => Err(Error::NotLowerTriangle),
        15 => Err(Error::NonSquare),
        16 => Err(Error::Unreadable),
        18 => Err(Error::ShapeMismatch),
        19 => Err(Error::RingMismatch),
        // After 5 a call is repeated with the size that it tells, and the handle of a `Matrix` is never empty, which
        // is 17.
        _ => Err(Error::UnknownStatus(status)),
    }
}
