//! `csr`: rows, and the iterators over rows and triplets.

use crate::bounds::{is_clone, is_debug, is_eq, is_iterator, is_partial_eq};
use nalgebra_sparse::csr::{
    CsrRow, CsrRowIter, CsrRowIterMut, CsrRowMut, CsrTripletIter, CsrTripletIterMut,
    CsrTripletValues,
};
use nalgebra_sparse::{SparseEntry, SparseEntryMut};
use std::fmt::Debug;

fn sizes<T>(row: CsrRow<'_, T>, row_mut: CsrRowMut<'_, T>) -> [usize; 4] {
    [row.ncols(), row.nnz(), row_mut.ncols(), row_mut.nnz()]
}

fn row<'a, T>(row: CsrRow<'a, T>) -> (&'a [usize], &'a [T], Option<SparseEntry<'a, T>>) {
    (row.col_indices(), row.values(), row.get_entry(0))
}

fn row_mut<'b, T>(row: &'b CsrRowMut<'_, T>) -> (&'b [usize], &'b [T], Option<SparseEntry<'b, T>>) {
    (row.col_indices(), row.values(), row.get_entry(0))
}

fn values_mut<'b, T>(row: &'b mut CsrRowMut<'_, T>) -> &'b mut [T] {
    row.values_mut()
}

fn cols_and_values_mut<'b, T>(row: &'b mut CsrRowMut<'_, T>) -> (&'b [usize], &'b mut [T]) {
    row.cols_and_values_mut()
}

fn get_entry_mut<'b, T>(row: &'b mut CsrRowMut<'_, T>) -> Option<SparseEntryMut<'b, T>> {
    row.get_entry_mut(0)
}

fn cloned_values<'a, T: Copy>(triplets: CsrTripletIter<'a, T>) -> CsrTripletValues<'a, T> {
    triplets.cloned_values()
}

fn iterators<'a, T: 'a>() {
    is_iterator::<CsrTripletIter<'a, T>, (usize, usize, &'a T)>();
    is_iterator::<CsrTripletIterMut<'a, T>, (usize, usize, &'a mut T)>();
    is_iterator::<CsrRowIter<'a, T>, CsrRow<'a, T>>();
    is_iterator::<CsrRowIterMut<'a, T>, CsrRowMut<'a, T>>();
    is_clone::<CsrTripletIter<'a, T>>();
    is_clone::<CsrRowIter<'a, T>>();
    is_clone::<CsrRow<'a, T>>();
}

fn copies<'a, T: Copy + 'a>() {
    is_iterator::<CsrTripletValues<'a, T>, (usize, usize, T)>();
}

fn derived<'a, T: Eq + Debug + 'a>() {
    is_partial_eq::<CsrRow<'a, T>>();
    is_eq::<CsrRow<'a, T>>();
    is_debug::<CsrRow<'a, T>>();
}
