//! `io`: reading and writing, and sinks.

use crate::bounds::{is_copy, is_iterator};
use nalgebra_sparse::coo::CooTripletIter;
use nalgebra_sparse::csc::CscTripletIter;
use nalgebra_sparse::csr::CsrTripletIter;
use nalgebra_sparse::io::{
    ExportIter, MatrixMarketError, MatrixMarketExport, MatrixMarketScalar, Out, Sink,
    load_coo_from_matrix_market_file, load_coo_from_matrix_market_str, save_to_matrix_market,
    save_to_matrix_market_file, save_to_matrix_market_str,
};
use nalgebra_sparse::scalar::{W32, W64, W128};
use nalgebra_sparse::{CooMatrix, CscMatrix, CsrMatrix};
use std::alloc::{AllocError, Global};
use std::io::{ErrorKind, Write};
use std::rt::Files;

fn scalar<T: MatrixMarketScalar>() {
    is_copy::<T>();
    let _from_i128: fn(i128) -> Result<T, MatrixMarketError> = T::from_i128;
    let _from_pattern: fn(()) -> Result<T, MatrixMarketError> = T::from_pattern;
    let _negative: fn(T) -> Result<T, MatrixMarketError> = T::negative;
    let _conjugate: fn(T) -> Result<T, MatrixMarketError> = T::conjugate;
    let _typename: fn() -> &'static str = T::typename;
    let _write: fn(&T, &mut String) -> Result<(), AllocError> = T::write_matrix_market;
    let _in_range: fn(T) = T::in_range;
}

fn scalars() {
    scalar::<i8>();
    scalar::<i16>();
    scalar::<i32>();
    scalar::<i64>();
    scalar::<i128>();
    scalar::<()>();
    scalar::<W32>();
    scalar::<W64>();
    scalar::<W128>();
}

fn export<T, S: MatrixMarketExport<T>>() {
    let _triplet_iter: fn(&S) -> ExportIter<'_, T> = S::triplet_iter;
    let _nrows: fn(&S) -> usize = S::nrows;
    let _ncols: fn(&S) -> usize = S::ncols;
    let _nnz: fn(&S) -> usize = S::nnz;
}

fn exports<T>() {
    export::<T, CooMatrix<T>>();
    export::<T, CsrMatrix<T>>();
    export::<T, CscMatrix<T>>();
}

fn triplets<'a, T: 'a>() {
    is_iterator::<ExportIter<'a, T>, (usize, usize, &'a T)>();
}

type Triplets<'a, T> = (
    Option<CooTripletIter<'a, T>>,
    Option<CsrTripletIter<'a, T>>,
    Option<CscTripletIter<'a, T>>,
);

fn exported<'a, T>(triplets: ExportIter<'a, T>) -> Triplets<'a, T> {
    match triplets {
        ExportIter::Coo(triplets) => (Some(triplets), None, None),
        ExportIter::Csr(triplets) => (None, Some(triplets), None),
        ExportIter::Csc(triplets) => (None, None, Some(triplets)),
    }
}

fn sink<W: Sink>() {
    let _write: fn(&mut W, &[u8]) -> Result<usize, ErrorKind> = W::write;
}

fn out<W: Write>() {
    sink::<Out<W>>();
    let _new: fn(W) -> Out<W> = Out::new;
    let _into_inner: fn(Out<W>) -> W = Out::into_inner;
}

type Loaded<T> = Result<CooMatrix<T>, MatrixMarketError>;

fn texts<T: MatrixMarketScalar, S: MatrixMarketExport<T>, W: Sink>() {
    let _load: fn(Global, &str) -> Loaded<T> = load_coo_from_matrix_market_str;
    let _save: fn(Global, &mut W, &S) -> Result<(), MatrixMarketError> = save_to_matrix_market;
    let _save_str: fn(Global, &S) -> Result<String, AllocError> = save_to_matrix_market_str;
}

fn load_file<T: MatrixMarketScalar>(rt: &(impl Files + AllocGlobal), path: &str) -> Loaded<T> {
    load_coo_from_matrix_market_file(rt, path)
}

fn save_file<T, S>(
    rt: &(impl Files + AllocGlobal),
    matrix: &S,
    path: &str,
) -> Result<(), MatrixMarketError>
where
    T: MatrixMarketScalar,
    S: MatrixMarketExport<T>,
{
    save_to_matrix_market_file(rt, matrix, path)
}
