//! Entries, lanes, triplets, triangles and filters.

use crate::operands::{Grid, Random};
use crate::shown::{numbers, row, triplets, Shown};
use nalgebra_sparse::{CscMatrix, CsrMatrix, SparseEntry};

pub fn print(random: &mut Random) {
    println!("\n# Triangles, filters and entries.");
    println!("over rows columns W32 W64 W128\n");
    for _ in 0..2 {
        print_kept(random);
    }
    for _ in 0..6 {
        let grid = sized(random);
        let (i, j) = (random.below(grid.rows + 1), random.below(grid.cols + 1));
        row(format!("entry ({i},{j}) {}", grid.draw()), entry(grid.csr().get_entry(i, j)));
    }
    println!("\n# Lanes and triplets; transposes and lanes of patterns.");
    println!("over rows W32 W64 W128\n");
    for _ in 0..2 {
        print_row(random);
    }
    println!("over columns W32 W64 W128");
    for _ in 0..2 {
        print_column(random);
    }
    println!("over rows W64");
    for _ in 0..2 {
        print_pattern(random);
    }
}

fn print_row(random: &mut Random) {
    let grid = sized(random);
    let (csr, picture, i) = (grid.csr(), grid.draw(), random.below(grid.rows));
    row(format!("triplets {picture}"), or_none(triplets(csr.triplet_iter())));
    let found = csr.row(i);
    row(format!("row {i} {picture}"), lane(found.col_indices(), found.values(), grid.cols, " "));
}

fn print_column(random: &mut Random) {
    let grid = sized(random);
    let (csc, picture, j) = (grid.csc(), grid.draw(), random.below(grid.cols));
    row(format!("triplets {picture}"), or_none(triplets(csc.triplet_iter())));
    let found = csc.col(j);
    row(format!("column {j} {picture}"), lane(found.row_indices(), found.values(), grid.rows, " / "));
}

fn print_pattern(random: &mut Random) {
    let grid = sized(random);
    let (csr, picture, i) = (grid.csr(), grid.draw_places(), random.below(grid.rows + 1));
    row(format!("pattern transpose {picture}"), csr.pattern().transpose().shown());
    let found = csr.pattern().get_lane(i).map(|indices| numbers("indices", indices));
    row(format!("pattern lane {i} {picture}"), found.unwrap_or("none".to_string()));
}

fn sized(random: &mut Random) -> Grid {
    let (rows, cols) = (random.size(), random.size());
    random.grid(rows, cols)
}

fn print_kept(random: &mut Random) {
    let grid = sized(random);
    let (csr, csc) = (grid.csr(), grid.csc());
    let kept = |call: &str, by_rows: CsrMatrix<i64>, by_cols: CscMatrix<i64>| {
        assert_eq!(by_rows.shown(), by_cols.shown());
        row(format!("{call} {}", grid.draw()), by_rows.shown());
    };
    kept("upper", csr.upper_triangle(), csc.upper_triangle());
    kept("lower", csr.lower_triangle(), csc.lower_triangle());
    kept("diagonal", csr.diagonal_as_csr(), csc.diagonal_as_csc());
    let nonzero = |_, _, value: &i64| *value != 0;
    kept("keep nonzero", csr.filter(nonzero), csc.filter(nonzero));
    let off = |row, col, _: &i64| row != col;
    kept("keep off-diagonal", csr.filter(off), csc.filter(off));
    let (i, j) = (random.below(grid.rows), random.below(grid.cols));
    let there = |row, col, _: &i64| (row, col) == (i, j);
    kept(&format!("keep ({i},{j})"), csr.filter(there), csc.filter(there));
}

fn entry(entry: Option<SparseEntry<'_, i64>>) -> String {
    match entry {
        Some(SparseEntry::NonZero(value)) => value.to_string(),
        Some(SparseEntry::Zero) => ".".to_string(),
        None => "none".to_string(),
    }
}

fn or_none(text: String) -> String {
    if text.is_empty() {
        return "none".to_string();
    }
    text
}

fn lane(indices: &[usize], values: &[i64], length: usize, between: &str) -> String {
    let mut cells = vec![".".to_string(); length];
    for (index, value) in indices.iter().zip(values) {
        cells[*index] = value.to_string();
    }
    format!("[{}]", cells.join(between))
}
