//! Operands and answers as rows write them (crates/cases/README.md).

use crate::operands::Grid;
use nalgebra_sparse::io::MatrixMarketError;
use nalgebra_sparse::na::DMatrix;
use nalgebra_sparse::ops::serial::OperationError;
use nalgebra_sparse::pattern::{SparsityPattern, SparsityPatternFormatError};
use nalgebra_sparse::{CooMatrix, CscMatrix, CsrMatrix, SparseFormatError};
use std::fmt::Display;

pub trait Shown {
    fn shown(&self) -> String;
}

fn grid_of<'a>(rows: usize, cols: usize, triplets: impl Iterator<Item = (usize, usize, &'a i64)>) -> Grid {
    let mut grid = Grid { rows, cols, cells: vec![None; rows * cols] };
    for (row, col, value) in triplets {
        grid.set(row, col, Some(*value));
    }
    grid
}

impl Shown for CsrMatrix<i64> {
    fn shown(&self) -> String {
        grid_of(self.nrows(), self.ncols(), self.triplet_iter()).draw()
    }
}

impl Shown for CscMatrix<i64> {
    fn shown(&self) -> String {
        grid_of(self.nrows(), self.ncols(), self.triplet_iter()).draw()
    }
}

impl Shown for DMatrix<i64> {
    fn shown(&self) -> String {
        let (rows, cols) = (self.nrows(), self.ncols());
        let cells = (0..rows * cols).map(|at| Some(self[(at / cols, at % cols)])).collect();
        Grid { rows, cols, cells }.draw()
    }
}

/// A pattern whose lanes are rows.
impl Shown for SparsityPattern {
    fn shown(&self) -> String {
        let entries = self.entries().map(|(row, col)| (row, col, &0));
        grid_of(self.major_dim(), self.minor_dim(), entries).draw_places()
    }
}

impl Shown for CooMatrix<i64> {
    fn shown(&self) -> String {
        let triplets = triplets(self.triplet_iter());
        let blank = if triplets.is_empty() { "" } else { " " };
        format!("[{}x{}{blank}{triplets}]", self.nrows(), self.ncols())
    }
}

impl Shown for SparseFormatError {
    fn shown(&self) -> String {
        format!("{:?}: {self}", self.kind())
    }
}

impl Shown for SparsityPatternFormatError {
    fn shown(&self) -> String {
        format!("{self:?}: {self}")
    }
}

impl Shown for OperationError {
    fn shown(&self) -> String {
        format!("{:?}: {}", self.kind(), self.message())
    }
}

/// The kind alone, since the messages differ.
impl Shown for MatrixMarketError {
    fn shown(&self) -> String {
        format!("{:?}", self.kind())
    }
}

impl<T: Shown, E: Shown> Shown for Result<T, E> {
    fn shown(&self) -> String {
        match self {
            Ok(value) => value.shown(),
            Err(error) => error.shown(),
        }
    }
}

pub fn triplets<'a>(triplets: impl Iterator<Item = (usize, usize, &'a i64)>) -> String {
    let shown = |(row, col, value)| format!("({row},{col})={value}");
    triplets.map(shown).collect::<Vec<_>>().join(" ")
}

/// A name and the numbers after it.
pub fn numbers<T: Display>(name: &str, numbers: &[T]) -> String {
    numbers.iter().fold(name.to_string(), |text, number| format!("{text} {number}"))
}

pub fn arrays(offsets: &[usize], indices: &[usize], values: &[i64]) -> String {
    [numbers("offsets", offsets), numbers("indices", indices), numbers("values", values)].join(" ")
}

/// Prints a row.
pub fn row(call: impl Display, answer: impl Display) {
    println!("{:<60}  ->  {answer}", call.to_string());
}
