//! `factorization` and `ldl`: the symbolic factor, and L D Lᵀ.

use crate::bounds::{is_debug, is_eq, is_partial_eq};
use nalgebra_sparse::CscMatrix;
use nalgebra_sparse::dense::DMatrix;
use nalgebra_sparse::factorization::{CscSymbolicCholesky, Triangle};
use nalgebra_sparse::ldl::Ldl;
use nalgebra_sparse::ops::Steps;
use nalgebra_sparse::ops::serial::OperationError;
use nalgebra_sparse::pattern::SparsityPattern;
use nalgebra_sparse::scalar::Units;
use std::alloc::{AllocError, Global};

type Factored = Result<CscSymbolicCholesky, AllocError>;

fn symbolic() {
    let _factor: fn(Global, SparsityPattern) -> Factored = CscSymbolicCholesky::factor;
    let _factor_counted: fn(Global, SparsityPattern, &mut Steps) -> Factored =
        CscSymbolicCholesky::factor_counted;
    let _factor_triangle: fn(Global, SparsityPattern, Triangle) -> Factored =
        CscSymbolicCholesky::factor_triangle;
    let _l_pattern: fn(&CscSymbolicCholesky) -> &SparsityPattern = CscSymbolicCholesky::l_pattern;
    let _clone: fn(&CscSymbolicCholesky, Global) -> Factored = CscSymbolicCholesky::clone;
    is_partial_eq::<CscSymbolicCholesky>();
    is_eq::<CscSymbolicCholesky>();
    is_debug::<CscSymbolicCholesky>();
}

fn triangles(triangle: Triangle) {
    match triangle {
        Triangle::Upper => {}
        Triangle::Lower => {}
        Triangle::Both => {}
    }
}

fn numeric<T: Units>() {
    let _factor: fn(Global, &CscMatrix<T>) -> Result<Ldl<T>, OperationError> = Ldl::factor;
    let _l: fn(&Ldl<T>) -> &CscMatrix<T> = Ldl::l;
    let _d: fn(&Ldl<T>) -> &[T] = Ldl::d;
    let _solve_mut: fn(&Ldl<T>, &mut DMatrix<T>) = Ldl::solve_mut;
}
