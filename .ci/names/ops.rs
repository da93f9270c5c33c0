//! `ops`: operands, steps, and the error of operations.

use crate::bounds::{is_clone, is_copy, is_debug, is_display, is_eq, is_error, is_partial_eq};
use nalgebra_sparse::ops::serial::{OperationError, OperationErrorKind};
use nalgebra_sparse::ops::{Op, Steps};
use std::fmt::Debug;

fn operand<T>(op: Op<T>) -> T {
    match op {
        Op::NoOp(matrix) => matrix,
        Op::Transpose(matrix) => matrix,
    }
}

fn operands<T>() {
    let _inner_ref: fn(&Op<T>) -> &T = Op::inner_ref;
    let _as_ref: fn(&Op<T>) -> Op<&T> = Op::as_ref;
    let _into_inner: fn(Op<T>) -> T = Op::into_inner;
    let _transposed: fn(Op<T>) -> Op<T> = Op::transposed;
    let _from: fn(T) -> Op<T> = Op::from;
}

fn map_same_op<T, U, F: FnOnce(T) -> U>(op: Op<T>, f: F) -> Op<U> {
    op.map_same_op(f)
}

fn derived<T: Copy + Eq + Debug>() {
    is_copy::<Op<T>>();
    is_clone::<Op<T>>();
    is_partial_eq::<Op<T>>();
    is_eq::<Op<T>>();
    is_debug::<Op<T>>();
}

fn steps() {
    let _new: fn() -> Steps = Steps::new;
    let _tick: fn(&mut Steps) = Steps::tick;
}

fn error() {
    let _kind: fn(&OperationError) -> &OperationErrorKind = OperationError::kind;
    let _message: fn(&OperationError) -> &str = OperationError::message;
    is_debug::<OperationError>();
    is_display::<OperationError>();
    is_error::<OperationError>();
}

fn kinds(kind: OperationErrorKind) {
    is_copy::<OperationErrorKind>();
    is_clone::<OperationErrorKind>();
    is_partial_eq::<OperationErrorKind>();
    is_debug::<OperationErrorKind>();
    match kind {
        OperationErrorKind::InvalidPattern => {}
        OperationErrorKind::Singular => {}
        OperationErrorKind::OutOfMemory => {}
    }
}
