//! `ops::serial`: patterns, and what all operations of one format are.

use nalgebra_sparse::CscMatrix;
use nalgebra_sparse::dense::DMatrix;
use nalgebra_sparse::ops::Op;
use nalgebra_sparse::ops::serial::{
    OperationError, spadd_pattern, spmm_csc_pattern, spmm_csr_pattern, spsolve_csc_lower_triangular,
};
use nalgebra_sparse::pattern::SparsityPattern;
use nalgebra_sparse::scalar::Units;
use std::alloc::{AllocError, Global};

type OfPatterns = fn(
    Global,
    &SparsityPattern,
    &SparsityPattern,
) -> Result<SparsityPattern, AllocError>;

fn patterns() {
    let _sum: OfPatterns = spadd_pattern;
    let _csr: OfPatterns = spmm_csr_pattern;
    let _csc: OfPatterns = spmm_csc_pattern;
}

fn solve<T: Units>() {
    let _solve: fn(Op<&CscMatrix<T>>, &mut DMatrix<T>) -> Result<(), OperationError> =
        spsolve_csc_lower_triangular;
}
