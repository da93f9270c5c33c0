//! `csc`: the matrix by columns.

use crate::bounds::{is_debug, is_eq, is_partial_eq};
use nalgebra_sparse::csc::{
    CscCol, CscColIter, CscColIterMut, CscColMut, CscMatrix, CscTripletIter, CscTripletIterMut,
};
use nalgebra_sparse::csr::CsrMatrix;
use nalgebra_sparse::pattern::SparsityPattern;
use nalgebra_sparse::scalar::Ring;
use nalgebra_sparse::{SparseEntry, SparseEntryMut, SparseFormatError};
use std::alloc::{AllocError, Global};
use std::fmt::Debug;

type Checked<T> = Result<CscMatrix<T>, SparseFormatError>;

type Allocated<T> = Result<CscMatrix<T>, AllocError>;

fn identity<T: Ring>() {
    let _identity: fn(Global, usize) -> Allocated<T> = CscMatrix::identity;
}

fn made<T: Drop>() {
    let _zeros: fn(Global, usize, usize) -> Allocated<T> = CscMatrix::zeros;
    let _sorted: fn(usize, usize, Vec<usize>, Vec<usize>, Vec<T>) -> Checked<T> =
        CscMatrix::try_from_csc_data;
    let _of_pattern: fn(SparsityPattern, Vec<T>) -> Checked<T> =
        CscMatrix::try_from_pattern_and_values;
}

fn copied<T: Copy>() {
    let _unsorted: fn(Global, usize, usize, Vec<usize>, Vec<usize>, Vec<T>) -> Checked<T> =
        CscMatrix::try_from_unsorted_csc_data;
    let _upper: fn(&CscMatrix<T>, Global) -> Allocated<T> = CscMatrix::upper_triangle;
    let _lower: fn(&CscMatrix<T>, Global) -> Allocated<T> = CscMatrix::lower_triangle;
    let _diagonal: fn(&CscMatrix<T>, Global) -> Allocated<T> = CscMatrix::diagonal_as_csc;
    let _transpose: fn(&CscMatrix<T>, Global) -> Allocated<T> = CscMatrix::transpose;
    let _clone: fn(&CscMatrix<T>, Global) -> Allocated<T> = CscMatrix::clone;
}

fn filter<T: Copy, P>(matrix: &CscMatrix<T>, alloc: Global, predicate: P) -> Allocated<T>
where
    P: Fn(usize, usize, &T) -> bool,
{
    matrix.filter(alloc, predicate)
}

fn read<T>() {
    let _ncols: fn(&CscMatrix<T>) -> usize = CscMatrix::ncols;
    let _nrows: fn(&CscMatrix<T>) -> usize = CscMatrix::nrows;
    let _nnz: fn(&CscMatrix<T>) -> usize = CscMatrix::nnz;
    let _col_offsets: fn(&CscMatrix<T>) -> &[usize] = CscMatrix::col_offsets;
    let _row_indices: fn(&CscMatrix<T>) -> &[usize] = CscMatrix::row_indices;
    let _values: fn(&CscMatrix<T>) -> &[T] = CscMatrix::values;
    let _csc_data: fn(&CscMatrix<T>) -> (&[usize], &[usize], &[T]) = CscMatrix::csc_data;
    let _pattern: fn(&CscMatrix<T>) -> &SparsityPattern = CscMatrix::pattern;
    let _triplet_iter: fn(&CscMatrix<T>) -> CscTripletIter<'_, T> = CscMatrix::triplet_iter;
    let _col: fn(&CscMatrix<T>, usize) -> CscCol<'_, T> = CscMatrix::col;
    let _get_col: fn(&CscMatrix<T>, usize) -> Option<CscCol<'_, T>> = CscMatrix::get_col;
    let _col_iter: fn(&CscMatrix<T>) -> CscColIter<'_, T> = CscMatrix::col_iter;
    let _index_entry: fn(&CscMatrix<T>, usize, usize) -> SparseEntry<'_, T> =
        CscMatrix::index_entry;
    let _get_entry: fn(&CscMatrix<T>, usize, usize) -> Option<SparseEntry<'_, T>> =
        CscMatrix::get_entry;
}

fn written<T>() {
    let _values_mut: fn(&mut CscMatrix<T>) -> &mut [T] = CscMatrix::values_mut;
    let _csc_data_mut: fn(&mut CscMatrix<T>) -> (&[usize], &[usize], &mut [T]) =
        CscMatrix::csc_data_mut;
    let _pattern_and_values_mut: fn(&mut CscMatrix<T>) -> (&SparsityPattern, &mut [T]) =
        CscMatrix::pattern_and_values_mut;
    let _triplet_iter_mut: fn(&mut CscMatrix<T>) -> CscTripletIterMut<'_, T> =
        CscMatrix::triplet_iter_mut;
    let _col_mut: fn(&mut CscMatrix<T>, usize) -> CscColMut<'_, T> = CscMatrix::col_mut;
    let _get_col_mut: fn(&mut CscMatrix<T>, usize) -> Option<CscColMut<'_, T>> =
        CscMatrix::get_col_mut;
    let _col_iter_mut: fn(&mut CscMatrix<T>) -> CscColIterMut<'_, T> = CscMatrix::col_iter_mut;
    let _index_entry_mut: fn(&mut CscMatrix<T>, usize, usize) -> SparseEntryMut<'_, T> =
        CscMatrix::index_entry_mut;
    let _get_entry_mut: fn(&mut CscMatrix<T>, usize, usize) -> Option<SparseEntryMut<'_, T>> =
        CscMatrix::get_entry_mut;
}

fn moved<T>() {
    let _disassemble: fn(CscMatrix<T>) -> (Vec<usize>, Vec<usize>, Vec<T>) = CscMatrix::disassemble;
    let _into_pattern_and_values: fn(CscMatrix<T>) -> (SparsityPattern, Vec<T>) =
        CscMatrix::into_pattern_and_values;
    let _transpose_as_csr: fn(CscMatrix<T>) -> CsrMatrix<T> = CscMatrix::transpose_as_csr;
}

fn negated<T: Ring>(matrix: CscMatrix<T>) -> CscMatrix<T> {
    -matrix
}

fn scaled<T: Ring>(matrix: &mut CscMatrix<T>, factor: T) {
    *matrix *= factor;
    *matrix *= &factor;
}

fn derived<T: Eq + Debug>() {
    is_partial_eq::<CscMatrix<T>>();
    is_eq::<CscMatrix<T>>();
    is_debug::<CscMatrix<T>>();
}
