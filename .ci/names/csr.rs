//! `csr`: the matrix by rows.

use crate::bounds::{is_debug, is_eq, is_partial_eq};
use nalgebra_sparse::csc::CscMatrix;
use nalgebra_sparse::csr::{
    CsrMatrix, CsrRow, CsrRowIter, CsrRowIterMut, CsrRowMut, CsrTripletIter, CsrTripletIterMut,
};
use nalgebra_sparse::pattern::SparsityPattern;
use nalgebra_sparse::scalar::Ring;
use nalgebra_sparse::{SparseEntry, SparseEntryMut, SparseFormatError};
use std::alloc::{AllocError, Global};
use std::fmt::Debug;

type Checked<T> = Result<CsrMatrix<T>, SparseFormatError>;

type Allocated<T> = Result<CsrMatrix<T>, AllocError>;

fn identity<T: Ring>() {
    let _identity: fn(Global, usize) -> Allocated<T> = CsrMatrix::identity;
}

fn made<T: Drop>() {
    let _zeros: fn(Global, usize, usize) -> Allocated<T> = CsrMatrix::zeros;
    let _sorted: fn(usize, usize, Vec<usize>, Vec<usize>, Vec<T>) -> Checked<T> =
        CsrMatrix::try_from_csr_data;
    let _of_pattern: fn(SparsityPattern, Vec<T>) -> Checked<T> =
        CsrMatrix::try_from_pattern_and_values;
}

fn copied<T: Copy>() {
    let _unsorted: fn(Global, usize, usize, Vec<usize>, Vec<usize>, Vec<T>) -> Checked<T> =
        CsrMatrix::try_from_unsorted_csr_data;
    let _upper: fn(&CsrMatrix<T>, Global) -> Allocated<T> = CsrMatrix::upper_triangle;
    let _lower: fn(&CsrMatrix<T>, Global) -> Allocated<T> = CsrMatrix::lower_triangle;
    let _diagonal: fn(&CsrMatrix<T>, Global) -> Allocated<T> = CsrMatrix::diagonal_as_csr;
    let _transpose: fn(&CsrMatrix<T>, Global) -> Allocated<T> = CsrMatrix::transpose;
    let _clone: fn(&CsrMatrix<T>, Global) -> Allocated<T> = CsrMatrix::clone;
}

fn filter<T: Copy, P>(matrix: &CsrMatrix<T>, alloc: Global, predicate: P) -> Allocated<T>
where
    P: Fn(usize, usize, &T) -> bool,
{
    matrix.filter(alloc, predicate)
}

fn read<T>() {
    let _nrows: fn(&CsrMatrix<T>) -> usize = CsrMatrix::nrows;
    let _ncols: fn(&CsrMatrix<T>) -> usize = CsrMatrix::ncols;
    let _nnz: fn(&CsrMatrix<T>) -> usize = CsrMatrix::nnz;
    let _row_offsets: fn(&CsrMatrix<T>) -> &[usize] = CsrMatrix::row_offsets;
    let _col_indices: fn(&CsrMatrix<T>) -> &[usize] = CsrMatrix::col_indices;
    let _values: fn(&CsrMatrix<T>) -> &[T] = CsrMatrix::values;
    let _csr_data: fn(&CsrMatrix<T>) -> (&[usize], &[usize], &[T]) = CsrMatrix::csr_data;
    let _pattern: fn(&CsrMatrix<T>) -> &SparsityPattern = CsrMatrix::pattern;
    let _triplet_iter: fn(&CsrMatrix<T>) -> CsrTripletIter<'_, T> = CsrMatrix::triplet_iter;
    let _row: fn(&CsrMatrix<T>, usize) -> CsrRow<'_, T> = CsrMatrix::row;
    let _get_row: fn(&CsrMatrix<T>, usize) -> Option<CsrRow<'_, T>> = CsrMatrix::get_row;
    let _row_iter: fn(&CsrMatrix<T>) -> CsrRowIter<'_, T> = CsrMatrix::row_iter;
    let _index_entry: fn(&CsrMatrix<T>, usize, usize) -> SparseEntry<'_, T> =
        CsrMatrix::index_entry;
    let _get_entry: fn(&CsrMatrix<T>, usize, usize) -> Option<SparseEntry<'_, T>> =
        CsrMatrix::get_entry;
}

fn written<T>() {
    let _values_mut: fn(&mut CsrMatrix<T>) -> &mut [T] = CsrMatrix::values_mut;
    let _csr_data_mut: fn(&mut CsrMatrix<T>) -> (&[usize], &[usize], &mut [T]) =
        CsrMatrix::csr_data_mut;
    let _pattern_and_values_mut: fn(&mut CsrMatrix<T>) -> (&SparsityPattern, &mut [T]) =
        CsrMatrix::pattern_and_values_mut;
    let _triplet_iter_mut: fn(&mut CsrMatrix<T>) -> CsrTripletIterMut<'_, T> =
        CsrMatrix::triplet_iter_mut;
    let _row_mut: fn(&mut CsrMatrix<T>, usize) -> CsrRowMut<'_, T> = CsrMatrix::row_mut;
    let _get_row_mut: fn(&mut CsrMatrix<T>, usize) -> Option<CsrRowMut<'_, T>> =
        CsrMatrix::get_row_mut;
    let _row_iter_mut: fn(&mut CsrMatrix<T>) -> CsrRowIterMut<'_, T> = CsrMatrix::row_iter_mut;
    let _index_entry_mut: fn(&mut CsrMatrix<T>, usize, usize) -> SparseEntryMut<'_, T> =
        CsrMatrix::index_entry_mut;
    let _get_entry_mut: fn(&mut CsrMatrix<T>, usize, usize) -> Option<SparseEntryMut<'_, T>> =
        CsrMatrix::get_entry_mut;
}

fn moved<T>() {
    let _disassemble: fn(CsrMatrix<T>) -> (Vec<usize>, Vec<usize>, Vec<T>) = CsrMatrix::disassemble;
    let _into_pattern_and_values: fn(CsrMatrix<T>) -> (SparsityPattern, Vec<T>) =
        CsrMatrix::into_pattern_and_values;
    let _transpose_as_csc: fn(CsrMatrix<T>) -> CscMatrix<T> = CsrMatrix::transpose_as_csc;
}

fn negated<T: Ring>(matrix: CsrMatrix<T>) -> CsrMatrix<T> {
    -matrix
}

fn scaled<T: Ring>(matrix: &mut CsrMatrix<T>, factor: T) {
    *matrix *= factor;
    *matrix *= &factor;
}

fn derived<T: Eq + Debug>() {
    is_partial_eq::<CsrMatrix<T>>();
    is_eq::<CsrMatrix<T>>();
    is_debug::<CsrMatrix<T>>();
}
