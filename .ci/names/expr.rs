//! `expr`: expressions, and their evaluation.

use crate::bounds::is_display;
use nalgebra_sparse::expr::{Expr, ExprError, Form, evaluate_cols, evaluate_rows, run};
use nalgebra_sparse::io::{MatrixMarketErrorKind, Sink};
use nalgebra_sparse::scalar::W64;
use nalgebra_sparse::{CooMatrix, CscMatrix, CsrMatrix};
use std::alloc::Global;
use std::io;

fn calls() {
    let _from_words: fn(Global, &str) -> Result<Expr, ExprError> = Expr::from_words;
    let _rows: fn(Global, &Expr, &[CooMatrix<W64>]) -> Result<CsrMatrix<W64>, ExprError> =
        evaluate_rows;
    let _cols: fn(Global, &Expr, &[CooMatrix<W64>]) -> Result<CscMatrix<W64>, ExprError> =
        evaluate_cols;
}

fn written<W: Sink>() {
    let _run: fn(Global, Form, &Expr, &[&str], &mut W) -> Result<(), ExprError> = run;
}

fn forms(form: Form) {
    match form {
        Form::Rows => {}
        Form::Cols => {}
    }
}

type Parts = (usize, Option<Box<Expr>>, Option<Box<Expr>>);

fn parts(expr: Expr) -> Parts {
    match expr {
        Expr::Input(number) => (number, None, None),
        Expr::Add(left, right) => (0, Some(left), Some(right)),
        Expr::Sub(left, right) => (0, Some(left), Some(right)),
        Expr::Mul(left, right) => (0, Some(left), Some(right)),
        Expr::Transpose(inner) => (0, Some(inner), None),
        Expr::Neg(inner) => (0, Some(inner), None),
    }
}

type Carried = (
    Option<(usize, MatrixMarketErrorKind)>,
    Option<io::ErrorKind>,
);

fn errors(error: ExprError) -> Carried {
    is_display::<ExprError>();
    match error {
        ExprError::BadWord => (None, None),
        ExprError::MissingOperand => (None, None),
        ExprError::LeftOver => (None, None),
        ExprError::NoSuchInput => (None, None),
        ExprError::Shape => (None, None),
        ExprError::Input(number, kind) => (Some((number, kind)), None),
        ExprError::Write(kind) => (None, Some(kind)),
        ExprError::OutOfMemory => (None, None),
    }
}
