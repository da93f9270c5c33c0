//! `convert::serial`: the twelve conversions.

use nalgebra_sparse::convert::serial::{
    convert_coo_csc, convert_coo_csr, convert_coo_dense, convert_csc_coo, convert_csc_csr,
    convert_csc_dense, convert_csr_coo, convert_csr_csc, convert_csr_dense, convert_dense_coo,
    convert_dense_csc, convert_dense_csr,
};
use nalgebra_sparse::dense::DMatrix;
use nalgebra_sparse::scalar::{Ring, Zero};
use nalgebra_sparse::{CooMatrix, CscMatrix, CsrMatrix};
use std::alloc::{AllocError, Global};

fn of_dense<T: Zero + Copy>() {
    let _coo: fn(Global, &DMatrix<T>) -> Result<CooMatrix<T>, AllocError> = convert_dense_coo;
    let _csr: fn(Global, &DMatrix<T>) -> Result<CsrMatrix<T>, AllocError> = convert_dense_csr;
    let _csc: fn(Global, &DMatrix<T>) -> Result<CscMatrix<T>, AllocError> = convert_dense_csc;
}

fn of_lists<T: Ring>() {
    let _dense: fn(Global, &CooMatrix<T>) -> Result<DMatrix<T>, AllocError> = convert_coo_dense;
    let _csr: fn(Global, &CooMatrix<T>) -> Result<CsrMatrix<T>, AllocError> = convert_coo_csr;
    let _csc: fn(Global, &CooMatrix<T>) -> Result<CscMatrix<T>, AllocError> = convert_coo_csc;
}

fn between_sparse<T: Copy>() {
    let _csr_coo: fn(Global, &CsrMatrix<T>) -> Result<CooMatrix<T>, AllocError> = convert_csr_coo;
    let _csc_coo: fn(Global, &CscMatrix<T>) -> Result<CooMatrix<T>, AllocError> = convert_csc_coo;
    let _csr_csc: fn(Global, &CsrMatrix<T>) -> Result<CscMatrix<T>, AllocError> = convert_csr_csc;
    let _csc_csr: fn(Global, &CscMatrix<T>) -> Result<CsrMatrix<T>, AllocError> = convert_csc_csr;
}

fn to_dense<T: Zero + Copy>() {
    let _csr: fn(Global, &CsrMatrix<T>) -> Result<DMatrix<T>, AllocError> = convert_csr_dense;
    let _csc: fn(Global, &CscMatrix<T>) -> Result<DMatrix<T>, AllocError> = convert_csc_dense;
}
