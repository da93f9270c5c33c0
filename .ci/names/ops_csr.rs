//! `ops::serial`: the operations on matrices by rows.

use nalgebra_sparse::CsrMatrix;
use nalgebra_sparse::dense::DMatrix;
use nalgebra_sparse::ops::serial::{
    OperationError, add_csr, div_scalar_csr, div_scalar_mut_csr, mul_csr, mul_csr_dense, neg_csr,
    scale_csr, spadd_csr_prealloc, spmm_csr_dense, spmm_csr_prealloc, spmm_csr_prealloc_unchecked,
    spmm_csr_prealloc_unchecked_counted, sub_csr,
};
use nalgebra_sparse::ops::{Op, Steps};
use nalgebra_sparse::scalar::{Ring, Units};
use std::alloc::{AllocError, Global};

fn prealloc<T: Ring>() {
    let _spadd: fn(T, &mut CsrMatrix<T>, T, Op<&CsrMatrix<T>>) -> Result<(), OperationError> =
        spadd_csr_prealloc;
    let _spmm: fn(
        Global,
        T,
        &mut CsrMatrix<T>,
        T,
        Op<&CsrMatrix<T>>,
        Op<&CsrMatrix<T>>,
    ) -> Result<(), OperationError> = spmm_csr_prealloc;
    let _unchecked: fn(
        Global,
        T,
        &mut CsrMatrix<T>,
        T,
        Op<&CsrMatrix<T>>,
        Op<&CsrMatrix<T>>,
    ) -> Result<(), OperationError> = spmm_csr_prealloc_unchecked;
}

fn counted<T: Ring>() {
    let _counted: fn(
        Global,
        T,
        &mut CsrMatrix<T>,
        T,
        Op<&CsrMatrix<T>>,
        Op<&CsrMatrix<T>>,
        &mut Steps,
    ) -> Result<(), OperationError> = spmm_csr_prealloc_unchecked_counted;
}

fn dense<T: Ring>() {
    let _spmm: fn(T, &mut DMatrix<T>, T, Op<&CsrMatrix<T>>, Op<&DMatrix<T>>) = spmm_csr_dense;
    let _mul: fn(Global, &CsrMatrix<T>, &DMatrix<T>) -> Result<DMatrix<T>, AllocError> =
        mul_csr_dense;
}

fn sums<T: Ring>() {
    let _add: fn(Global, &CsrMatrix<T>, &CsrMatrix<T>) -> Result<CsrMatrix<T>, AllocError> =
        add_csr;
    let _sub: fn(Global, &CsrMatrix<T>, &CsrMatrix<T>) -> Result<CsrMatrix<T>, AllocError> =
        sub_csr;
    let _mul: fn(Global, &CsrMatrix<T>, &CsrMatrix<T>) -> Result<CsrMatrix<T>, AllocError> =
        mul_csr;
    let _scale: fn(Global, &CsrMatrix<T>, T) -> Result<CsrMatrix<T>, AllocError> = scale_csr;
    let _neg: fn(Global, &CsrMatrix<T>) -> Result<CsrMatrix<T>, AllocError> = neg_csr;
}

fn quotients<T: Units>() {
    let _div: fn(Global, &CsrMatrix<T>, T) -> Result<CsrMatrix<T>, OperationError> = div_scalar_csr;
    let _div_mut: fn(&mut CsrMatrix<T>, T) -> Result<(), OperationError> = div_scalar_mut_csr;
}
