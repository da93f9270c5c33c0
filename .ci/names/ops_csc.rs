//! `ops::serial`: the operations on matrices by columns.

use nalgebra_sparse::CscMatrix;
use nalgebra_sparse::dense::DMatrix;
use nalgebra_sparse::ops::Op;
use nalgebra_sparse::ops::serial::{
    OperationError, add_csc, div_scalar_csc, div_scalar_mut_csc, mul_csc, mul_csc_dense, neg_csc,
    scale_csc, spadd_csc_prealloc, spmm_csc_dense, spmm_csc_prealloc, spmm_csc_prealloc_unchecked,
    sub_csc,
};
use nalgebra_sparse::scalar::{Ring, Units};
use std::alloc::{AllocError, Global};

fn prealloc<T: Ring>() {
    let _spadd: fn(T, &mut CscMatrix<T>, T, Op<&CscMatrix<T>>) -> Result<(), OperationError> =
        spadd_csc_prealloc;
    let _spmm: fn(
        Global,
        T,
        &mut CscMatrix<T>,
        T,
        Op<&CscMatrix<T>>,
        Op<&CscMatrix<T>>,
    ) -> Result<(), OperationError> = spmm_csc_prealloc;
    let _unchecked: fn(
        Global,
        T,
        &mut CscMatrix<T>,
        T,
        Op<&CscMatrix<T>>,
        Op<&CscMatrix<T>>,
    ) -> Result<(), OperationError> = spmm_csc_prealloc_unchecked;
}

fn dense<T: Ring>() {
    let _spmm: fn(T, &mut DMatrix<T>, T, Op<&CscMatrix<T>>, Op<&DMatrix<T>>) = spmm_csc_dense;
    let _mul: fn(Global, &CscMatrix<T>, &DMatrix<T>) -> Result<DMatrix<T>, AllocError> =
        mul_csc_dense;
}

fn sums<T: Ring>() {
    let _add: fn(Global, &CscMatrix<T>, &CscMatrix<T>) -> Result<CscMatrix<T>, AllocError> =
        add_csc;
    let _sub: fn(Global, &CscMatrix<T>, &CscMatrix<T>) -> Result<CscMatrix<T>, AllocError> =
        sub_csc;
    let _mul: fn(Global, &CscMatrix<T>, &CscMatrix<T>) -> Result<CscMatrix<T>, AllocError> =
        mul_csc;
    let _scale: fn(Global, &CscMatrix<T>, T) -> Result<CscMatrix<T>, AllocError> = scale_csc;
    let _neg: fn(Global, &CscMatrix<T>) -> Result<CscMatrix<T>, AllocError> = neg_csc;
}

fn quotients<T: Units>() {
    let _div: fn(Global, &CscMatrix<T>, T) -> Result<CscMatrix<T>, OperationError> = div_scalar_csc;
    let _div_mut: fn(&mut CscMatrix<T>, T) -> Result<(), OperationError> = div_scalar_mut_csc;
}
