//! The root of the crate: entries, the error of constructors, and the three matrices.

use crate::bounds::{is_clone, is_copy, is_debug, is_display, is_eq, is_error, is_partial_eq};
use nalgebra_sparse::pattern::SparsityPatternFormatError;
use nalgebra_sparse::scalar::Zero;
use nalgebra_sparse::{
    CooMatrix, CscMatrix, CsrMatrix, SparseEntry, SparseEntryMut, SparseFormatError,
    SparseFormatErrorKind,
};
use std::fmt::Debug;

fn error() {
    let _kind: fn(&SparseFormatError) -> &SparseFormatErrorKind = SparseFormatError::kind;
    let _from: fn(SparsityPatternFormatError) -> SparseFormatError = SparseFormatError::from;
    is_debug::<SparseFormatError>();
    is_display::<SparseFormatError>();
    is_error::<SparseFormatError>();
}

fn kinds(kind: SparseFormatErrorKind) {
    is_copy::<SparseFormatErrorKind>();
    is_clone::<SparseFormatErrorKind>();
    is_partial_eq::<SparseFormatErrorKind>();
    is_eq::<SparseFormatErrorKind>();
    is_debug::<SparseFormatErrorKind>();
    match kind {
        SparseFormatErrorKind::IndexOutOfBounds => {}
        SparseFormatErrorKind::DuplicateEntry => {}
        SparseFormatErrorKind::InvalidStructure => {}
        SparseFormatErrorKind::OutOfMemory => {}
    }
}

fn entry<T>(entry: SparseEntry<'_, T>) -> Option<&T> {
    match entry {
        SparseEntry::NonZero(value) => Some(value),
        SparseEntry::Zero => None,
    }
}

fn entry_mut<T>(entry: SparseEntryMut<'_, T>) -> Option<&mut T> {
    match entry {
        SparseEntryMut::NonZero(value) => Some(value),
        SparseEntryMut::Zero => None,
    }
}

fn value_of<T: Zero + Copy>(entry: SparseEntry<'_, T>) -> T {
    entry.into_value()
}

fn value_of_mut<T: Zero + Copy>(entry: SparseEntryMut<'_, T>) -> T {
    entry.into_value()
}

fn compared<'a, T: PartialEq + 'a>() {
    is_partial_eq::<SparseEntry<'a, T>>();
}

fn equal<'a, T: Eq + 'a>() {
    is_eq::<SparseEntry<'a, T>>();
}

fn printed<'a, T: Debug + 'a>() {
    is_debug::<SparseEntry<'a, T>>();
}

fn matrices<T>(
    coo: nalgebra_sparse::coo::CooMatrix<T>,
    csr: nalgebra_sparse::csr::CsrMatrix<T>,
    csc: nalgebra_sparse::csc::CscMatrix<T>,
) -> (CooMatrix<T>, CsrMatrix<T>, CscMatrix<T>) {
    (coo, csr, csc)
}
