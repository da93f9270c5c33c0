//! `coo`: the list of triplets.

use crate::bounds::{is_clone, is_debug, is_eq, is_iterator, is_partial_eq};
use nalgebra_sparse::SparseFormatError;
use nalgebra_sparse::coo::{CooMatrix, CooTripletIter, CooTripletIterMut};
use nalgebra_sparse::dense::DMatrix;
use std::alloc::{AllocError, Global};
use std::fmt::Debug;

type Checked<T> = Result<CooMatrix<T>, SparseFormatError>;

fn made<T: Drop>() {
    let _new: fn(Global, usize, usize) -> CooMatrix<T> = CooMatrix::new;
    let _zeros: fn(Global, usize, usize) -> CooMatrix<T> = CooMatrix::zeros;
    let _checked: fn(usize, usize, Vec<usize>, Vec<usize>, Vec<T>) -> Checked<T> =
        CooMatrix::try_from_triplets;
}

fn made_of_an_iterator<T: Drop>(alloc: Global, triplets: Vec<(usize, usize, T)>) -> Checked<T> {
    CooMatrix::try_from_triplets_iter(alloc, 2, 2, triplets.into_iter())
}

fn grown<T: Drop>() {
    let _reserve: fn(&mut CooMatrix<T>, usize) -> Result<(), AllocError> = CooMatrix::reserve;
    let _push: fn(&mut CooMatrix<T>, usize, usize, T) -> Result<(), AllocError> = CooMatrix::push;
    let _clear_triplets: fn(&mut CooMatrix<T>) = CooMatrix::clear_triplets;
}

fn copied<T: Copy>() {
    let _push_matrix: fn(&mut CooMatrix<T>, usize, usize, &DMatrix<T>) -> Result<(), AllocError> =
        CooMatrix::push_matrix;
    let _clone: fn(&CooMatrix<T>, Global) -> Result<CooMatrix<T>, AllocError> = CooMatrix::clone;
}

fn read<T>() {
    let _nrows: fn(&CooMatrix<T>) -> usize = CooMatrix::nrows;
    let _ncols: fn(&CooMatrix<T>) -> usize = CooMatrix::ncols;
    let _nnz: fn(&CooMatrix<T>) -> usize = CooMatrix::nnz;
    let _row_indices: fn(&CooMatrix<T>) -> &[usize] = CooMatrix::row_indices;
    let _col_indices: fn(&CooMatrix<T>) -> &[usize] = CooMatrix::col_indices;
    let _values: fn(&CooMatrix<T>) -> &[T] = CooMatrix::values;
    let _triplet_iter: fn(&CooMatrix<T>) -> CooTripletIter<'_, T> = CooMatrix::triplet_iter;
    let _triplet_iter_mut: fn(&mut CooMatrix<T>) -> CooTripletIterMut<'_, T> =
        CooMatrix::triplet_iter_mut;
    let _disassemble: fn(CooMatrix<T>) -> (Vec<usize>, Vec<usize>, Vec<T>) = CooMatrix::disassemble;
}

fn triplets<'a, T: 'a>() {
    is_clone::<CooTripletIter<'a, T>>();
    is_iterator::<CooTripletIter<'a, T>, (usize, usize, &'a T)>();
    is_iterator::<CooTripletIterMut<'a, T>, (usize, usize, &'a mut T)>();
}

fn derived<T: Eq + Debug>() {
    is_partial_eq::<CooMatrix<T>>();
    is_eq::<CooMatrix<T>>();
    is_debug::<CooMatrix<T>>();
}
