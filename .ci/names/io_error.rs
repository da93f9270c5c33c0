//! `io`: the error of reading and writing.

use crate::bounds::{is_clone, is_copy, is_debug, is_display, is_error, is_partial_eq};
use nalgebra_sparse::io::{MatrixMarketError, MatrixMarketErrorKind};
use nalgebra_sparse::{SparseFormatError, SparseFormatErrorKind};
use std::io;
use std::num::{ParseIntError, TryFromIntError};

fn error() {
    let _kind: fn(&MatrixMarketError) -> MatrixMarketErrorKind = MatrixMarketError::kind;
    let _message: fn(&MatrixMarketError) -> &str = MatrixMarketError::message;
    let _of_format: fn(SparseFormatError) -> MatrixMarketError = MatrixMarketError::from;
    let _of_parsing: fn(ParseIntError) -> MatrixMarketError = MatrixMarketError::from;
    let _of_range: fn(TryFromIntError) -> MatrixMarketError = MatrixMarketError::from;
    let _of_io: fn(io::Error) -> MatrixMarketError = MatrixMarketError::from;
    is_debug::<MatrixMarketError>();
    is_display::<MatrixMarketError>();
    is_error::<MatrixMarketError>();
}

type Carried = (Option<SparseFormatErrorKind>, Option<io::ErrorKind>);

fn kinds(kind: MatrixMarketErrorKind) -> Carried {
    is_copy::<MatrixMarketErrorKind>();
    is_clone::<MatrixMarketErrorKind>();
    is_partial_eq::<MatrixMarketErrorKind>();
    is_debug::<MatrixMarketErrorKind>();
    match kind {
        MatrixMarketErrorKind::ParsingError => (None, None),
        MatrixMarketErrorKind::InvalidHeader => (None, None),
        MatrixMarketErrorKind::EntryMismatch => (None, None),
        MatrixMarketErrorKind::TypeMismatch => (None, None),
        MatrixMarketErrorKind::ZeroError => (None, None),
        MatrixMarketErrorKind::SparseFormatError(kind) => (Some(kind), None),
        MatrixMarketErrorKind::DiagonalError => (None, None),
        MatrixMarketErrorKind::IOError(kind) => (None, Some(kind)),
        MatrixMarketErrorKind::NotLowerTriangle => (None, None),
        MatrixMarketErrorKind::NonSquare => (None, None),
        MatrixMarketErrorKind::OutOfMemory => (None, None),
    }
}
