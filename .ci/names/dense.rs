//! `dense`: the dense matrix.

use crate::bounds::is_partial_eq;
use nalgebra_sparse::dense::DMatrix;
use nalgebra_sparse::scalar::Zero;
use std::alloc::{AllocError, Global};

fn zeros<T: Zero + Copy>() {
    let _zeros: fn(Global, usize, usize) -> Result<DMatrix<T>, AllocError> = DMatrix::zeros;
}

fn copied<T: Copy>() {
    let _repeat: fn(Global, usize, usize, T) -> Result<DMatrix<T>, AllocError> = DMatrix::repeat;
    let _rows: fn(Global, usize, usize, &[T]) -> Result<DMatrix<T>, AllocError> =
        DMatrix::from_row_slice;
    let _columns: fn(Global, usize, usize, &[T]) -> Result<DMatrix<T>, AllocError> =
        DMatrix::from_column_slice;
    let _get: fn(&DMatrix<T>, usize, usize) -> T = DMatrix::get;
    let _clone: fn(&DMatrix<T>, Global) -> Result<DMatrix<T>, AllocError> = DMatrix::clone;
}

fn written<T: Drop>() {
    let _set: fn(&mut DMatrix<T>, usize, usize, T) = DMatrix::set;
}

fn read<T>() {
    let _nrows: fn(&DMatrix<T>) -> usize = DMatrix::nrows;
    let _ncols: fn(&DMatrix<T>) -> usize = DMatrix::ncols;
    let _as_slice: fn(&DMatrix<T>) -> &[T] = DMatrix::as_slice;
    let _column: fn(&DMatrix<T>, usize) -> &[T] = DMatrix::column;
    let _column_mut: fn(&mut DMatrix<T>, usize) -> &mut [T] = DMatrix::column_mut;
}

fn compared<T: PartialEq>() {
    is_partial_eq::<DMatrix<T>>();
}
