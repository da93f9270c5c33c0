//! Random operands: small matrices in which stored zeros and repeats occur.

use nalgebra_sparse::na::DMatrix;
use nalgebra_sparse::{CooMatrix, CscMatrix, CsrMatrix};

/// The generator SplitMix64 (Steele, Lea and Flood 2014).
pub struct Random(pub u64);

impl Random {
    fn next(&mut self) -> u64 {
        self.0 = self.0.wrapping_add(0x9e37_79b9_7f4a_7c15);
        let z = (self.0 ^ (self.0 >> 30)).wrapping_mul(0xbf58_476d_1ce4_e5b9);
        let z = (z ^ (z >> 27)).wrapping_mul(0x94d0_49bb_1331_11eb);
        z ^ (z >> 31)
    }

    pub fn below(&mut self, bound: usize) -> usize {
        (self.next() >> 32) as usize % bound
    }

    /// Returns a size from 1 to 5.
    pub fn size(&mut self) -> usize {
        1 + self.below(5)
    }

    /// Returns a value from -9 to 9.
    pub fn value(&mut self) -> i64 {
        self.below(19) as i64 - 9
    }

    pub fn values(&mut self, count: usize) -> Vec<i64> {
        (0..count).map(|_| self.value()).collect()
    }

    /// Returns a matrix of which some four cells of ten are stored.
    pub fn grid(&mut self, rows: usize, cols: usize) -> Grid {
        let mut cell = || (self.below(10) < 4).then(|| self.value());
        Grid { rows, cols, cells: (0..rows * cols).map(|_| cell()).collect() }
    }

    /// Returns a list of triplets in any order, of which some are at the same row and column.
    pub fn list(&mut self, rows: usize, cols: usize) -> CooMatrix<i64> {
        let mut list = CooMatrix::new(rows, cols);
        for _ in 0..self.below(rows * cols + 2) {
            list.push(self.below(rows), self.below(cols), self.value());
        }
        list
    }

    pub fn dense(&mut self, rows: usize, cols: usize) -> DMatrix<i64> {
        DMatrix::from_column_slice(rows, cols, &self.values(rows * cols))
    }
}

/// The cells of a matrix row by row; those without a value are not stored.
#[derive(Clone)]
pub struct Grid {
    pub rows: usize,
    pub cols: usize,
    pub cells: Vec<Option<i64>>,
}

impl Grid {
    /// Returns the matrix with the values that are stored in `kept` cells.
    pub fn with(mut self, kept: impl Fn(usize, usize) -> bool) -> Grid {
        for (at, cell) in self.cells.iter_mut().enumerate() {
            if !kept(at / self.cols, at % self.cols) {
                *cell = None;
            }
        }
        self
    }

    pub fn set(&mut self, row: usize, col: usize, value: Option<i64>) {
        self.cells[row * self.cols + col] = value;
    }

    pub fn list(&self) -> CooMatrix<i64> {
        let mut list = CooMatrix::new(self.rows, self.cols);
        for (at, cell) in self.cells.iter().enumerate() {
            if let Some(value) = cell {
                list.push(at / self.cols, at % self.cols, *value);
            }
        }
        list
    }

    pub fn csr(&self) -> CsrMatrix<i64> {
        CsrMatrix::from(&self.list())
    }

    pub fn csc(&self) -> CscMatrix<i64> {
        CscMatrix::from(&self.list())
    }

    pub fn draw(&self) -> String {
        self.draw_as(|value| value.to_string())
    }

    /// Draws the stored cells as `x`.
    pub fn draw_places(&self) -> String {
        self.draw_as(|_| "x".to_string())
    }

    fn draw_as(&self, shown: impl Fn(i64) -> String) -> String {
        if self.cells.is_empty() {
            return format!("[{}x{}]", self.rows, self.cols);
        }
        let shown = |cell: &Option<i64>| cell.map_or(".".to_string(), &shown);
        let row = |cells: &[Option<i64>]| cells.iter().map(shown).collect::<Vec<_>>().join(" ");
        format!("[{}]", self.cells.chunks(self.cols).map(row).collect::<Vec<_>>().join(" / "))
    }
}
