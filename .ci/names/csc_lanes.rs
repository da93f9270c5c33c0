//! `csc`: columns, and the iterators over columns and triplets.

use crate::bounds::{is_clone, is_debug, is_eq, is_iterator, is_partial_eq};
use nalgebra_sparse::csc::{
    CscCol, CscColIter, CscColIterMut, CscColMut, CscTripletIter, CscTripletIterMut,
    CscTripletValues,
};
use nalgebra_sparse::{SparseEntry, SparseEntryMut};
use std::fmt::Debug;

fn sizes<T>(col: CscCol<'_, T>, col_mut: CscColMut<'_, T>) -> [usize; 4] {
    [col.nrows(), col.nnz(), col_mut.nrows(), col_mut.nnz()]
}

fn col<'a, T>(col: CscCol<'a, T>) -> (&'a [usize], &'a [T], Option<SparseEntry<'a, T>>) {
    (col.row_indices(), col.values(), col.get_entry(0))
}

fn col_mut<'b, T>(col: &'b CscColMut<'_, T>) -> (&'b [usize], &'b [T], Option<SparseEntry<'b, T>>) {
    (col.row_indices(), col.values(), col.get_entry(0))
}

fn values_mut<'b, T>(col: &'b mut CscColMut<'_, T>) -> &'b mut [T] {
    col.values_mut()
}

fn rows_and_values_mut<'b, T>(col: &'b mut CscColMut<'_, T>) -> (&'b [usize], &'b mut [T]) {
    col.rows_and_values_mut()
}

fn get_entry_mut<'b, T>(col: &'b mut CscColMut<'_, T>) -> Option<SparseEntryMut<'b, T>> {
    col.get_entry_mut(0)
}

fn cloned_values<'a, T: Copy>(triplets: CscTripletIter<'a, T>) -> CscTripletValues<'a, T> {
    triplets.cloned_values()
}

fn iterators<'a, T: 'a>() {
    is_iterator::<CscTripletIter<'a, T>, (usize, usize, &'a T)>();
    is_iterator::<CscTripletIterMut<'a, T>, (usize, usize, &'a mut T)>();
    is_iterator::<CscColIter<'a, T>, CscCol<'a, T>>();
    is_iterator::<CscColIterMut<'a, T>, CscColMut<'a, T>>();
    is_clone::<CscTripletIter<'a, T>>();
    is_clone::<CscColIter<'a, T>>();
    is_clone::<CscCol<'a, T>>();
}

fn copies<'a, T: Copy + 'a>() {
    is_iterator::<CscTripletValues<'a, T>, (usize, usize, T)>();
}

fn derived<'a, T: Eq + Debug + 'a>() {
    is_partial_eq::<CscCol<'a, T>>();
    is_eq::<CscCol<'a, T>>();
    is_debug::<CscCol<'a, T>>();
}
