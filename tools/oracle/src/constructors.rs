//! Matrices, lists and patterns made of arrays, of which most have faults.

use crate::operands::Random;
use crate::shown::{arrays, numbers, row, Shown};
use nalgebra_sparse::pattern::SparsityPattern;
use nalgebra_sparse::{CooMatrix, CscMatrix, CsrMatrix, SparseFormatError};
use std::panic::{catch_unwind, AssertUnwindSafe};

/// The arrays of a matrix or of a pattern: `lanes` of the length `minor`.
#[derive(Clone)]
struct Arrays {
    lanes: usize,
    minor: usize,
    offsets: Vec<usize>,
    indices: Vec<usize>,
    values: Vec<i64>,
}

impl Arrays {
    fn shown(&self) -> String {
        arrays(&self.offsets, &self.indices, &self.values)
    }
}

pub fn print(random: &mut Random) {
    println!("\n# Arrays, most of them with one or two faults: the first is named.");
    println!("over rows W32 W64\n");
    for at in 0..16 {
        let it = faulty(random, at % 4);
        let (lanes, minor, shown) = (it.lanes, it.minor, it.shown());
        if at % 2 == 0 {
            print_unless_it_panics(format!("csr {lanes}x{minor} {shown}"), || csr(it).shown());
        } else {
            print_unless_it_panics(format!("csc {minor}x{lanes} {shown}"), || csc(it).shown());
        }
    }
    for at in 0..12 {
        let Arrays { lanes, minor, offsets, indices, .. } = faulty(random, at % 4);
        let shown = format!("{} {}", numbers("offsets", &offsets), numbers("indices", &indices));
        let made = || SparsityPattern::try_from_offsets_and_indices(lanes, minor, offsets, indices).shown();
        print_unless_it_panics(format!("pattern of {lanes}x{minor} {shown}"), made);
    }
    for at in 0..10 {
        print_list(random, at);
    }
    println!("over rows columns W32 W64");
    for at in 0..12 {
        print_unsorted(random, at);
    }
}

fn csr(it: Arrays) -> Result<CsrMatrix<i64>, SparseFormatError> {
    CsrMatrix::try_from_csr_data(it.lanes, it.minor, it.offsets, it.indices, it.values)
}

fn csc(it: Arrays) -> Result<CscMatrix<i64>, SparseFormatError> {
    CscMatrix::try_from_csc_data(it.minor, it.lanes, it.offsets, it.indices, it.values)
}

/// The arrays of the matrix by rows whose lanes are sorted, or the error.
fn sorted_rows(it: Arrays) -> String {
    match CsrMatrix::try_from_unsorted_csr_data(it.lanes, it.minor, it.offsets, it.indices, it.values) {
        Ok(made) => arrays(made.row_offsets(), made.col_indices(), made.values()),
        Err(error) => error.shown(),
    }
}

fn sorted_columns(it: Arrays) -> String {
    match CscMatrix::try_from_unsorted_csc_data(it.minor, it.lanes, it.offsets, it.indices, it.values) {
        Ok(made) => arrays(made.col_offsets(), made.row_indices(), made.values()),
        Err(error) => error.shown(),
    }
}

fn print_unless_it_panics(call: String, answer: impl FnOnce() -> String) {
    match catch_unwind(AssertUnwindSafe(answer)) {
        Ok(answer) => row(call, answer),
        Err(_) => eprintln!("it panics: {call}"),
    }
}

/// Returns the arrays of a random matrix after as many changes, at most 2.
fn faulty(random: &mut Random, changes: usize) -> Arrays {
    let (lanes, minor) = (random.size(), random.size());
    let csr = random.grid(lanes, minor).csr();
    let (offsets, indices, values) = csr.disassemble();
    let mut it = Arrays { lanes, minor, offsets, indices, values };
    for _ in 0..changes.min(2) {
        change(random, &mut it);
    }
    it
}

fn change(random: &mut Random, it: &mut Arrays) {
    let (lane, last) = (random.below(it.offsets.len()), it.indices.len());
    match random.below(7) {
        0 => it.offsets[lane] += 1,
        1 => it.offsets[lane] = it.offsets[lane].saturating_sub(1),
        2 => drop(it.offsets.pop()),
        3 => drop(it.values.pop()),
        _ if last == 0 => it.values.push(1),
        4 => it.indices[random.below(last)] += 2,
        5 => it.indices.swap(0, last - 1),
        _ => it.indices[last - 1] = it.indices[0],
    }
}

fn print_list(random: &mut Random, at: usize) {
    let (rows, cols, count) = (random.size(), random.size(), random.below(4));
    let mut below = |bound: usize, past: usize| (0..count).map(|_| random.below(bound + past)).collect::<Vec<_>>();
    let (mut row_indices, col_indices) = (below(rows, at % 2), below(cols, at / 2 % 2));
    let mut values = random.values(count);
    if at % 5 == 3 {
        row_indices.push(0);
    } else if at % 5 == 4 {
        values.push(0);
    }
    let lists = [numbers("rows", &row_indices), numbers("cols", &col_indices), numbers("values", &values)].join(" ");
    let made = CooMatrix::try_from_triplets(rows, cols, row_indices, col_indices, values);
    row(format!("coo {rows}x{cols} {lists}"), made.shown());
}

fn print_unsorted(random: &mut Random, at: usize) {
    let mut it = faulty(random, 0);
    for lane in 0..it.lanes {
        it.indices[it.offsets[lane]..it.offsets[lane + 1]].reverse();
    }
    for _ in 0..(at % 3) {
        change(random, &mut it);
    }
    let call = format!("unsorted {}x{} {}", it.lanes, it.minor, it.shown());
    print_unless_it_panics(call, || {
        let answer = sorted_rows(it.clone());
        if answer != sorted_columns(it) {
            std::process::abort();
        }
        answer
    });
}
