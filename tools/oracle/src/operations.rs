//! Sums, products, updates of given matrices, triangular solves and symbolic factors.

use crate::operands::{Grid, Random};
use crate::shown::{row, Shown};
use nalgebra_sparse::factorization::CscSymbolicCholesky;
use nalgebra_sparse::na::DMatrix;
use nalgebra_sparse::ops::serial::*;
use nalgebra_sparse::ops::Op;
use nalgebra_sparse::{CooMatrix, CscMatrix, CsrMatrix};

pub fn print(random: &mut Random) {
    println!("\n# Sums and products, and updates of a given matrix or of a dense one.");
    println!("over rows columns W32 W64 W128\n");
    for _ in 0..3 {
        print_sums(random);
        print_products(random);
    }
    for at in 0..12 {
        print_sum_into(random, at);
    }
    for at in 0..16 {
        print_product_into(random, at);
    }
    for at in 0..8 {
        print_dense_product(random, at);
    }
    println!("\n# Triangular systems.");
    println!("over rows W32 W64 W128\n");
    for at in 0..10 {
        print_solve(random, at);
    }
    println!("\n# Symbolic factors.");
    println!("over rows W64\n");
    for at in 0..10 {
        let grid = random.grid(3 + at / 2, 3 + at / 2);
        let factor = CscSymbolicCholesky::factor(grid.csc().pattern().clone());
        row(format!("fill {}", grid.draw_places()), factor.l_pattern().transpose().shown());
    }
}

/// Prints a row whose answer is the same by rows and by columns.
fn agreed(call: String, by_rows: String, by_cols: String) {
    assert_eq!(by_rows, by_cols);
    row(call, by_rows);
}

fn print_sums(random: &mut Random) {
    let (rows, cols) = (random.size(), random.size());
    let (a, b, k) = (random.grid(rows, cols), random.grid(rows, cols), random.value());
    let (x, y) = ((a.csr(), b.csr()), (a.csc(), b.csc()));
    let (p, q) = (a.draw(), b.draw());
    agreed(format!("{p} + {q}"), (&x.0 + &x.1).shown(), (&y.0 + &y.1).shown());
    agreed(format!("{p} - {q}"), (&x.0 - &x.1).shown(), (&y.0 - &y.1).shown());
    agreed(format!("{k} {p}"), (&x.0 * k).shown(), (&y.0 * k).shown());
    agreed(format!("- {p}"), (-&x.0).shown(), (-&y.0).shown());
    let patterns = (spadd_pattern(x.0.pattern(), x.1.pattern()), spadd_pattern(y.0.pattern(), y.1.pattern()));
    let call = format!("pattern {} + {}", a.draw_places(), b.draw_places());
    agreed(call, patterns.0.shown(), patterns.1.transpose().shown());
}

fn print_products(random: &mut Random) {
    let (rows, inner, cols) = (random.size(), random.size(), random.size());
    let (a, b) = (random.grid(rows, inner), random.grid(inner, cols));
    let (x, y) = ((a.csr(), b.csr()), (a.csc(), b.csc()));
    agreed(format!("{} {}", a.draw(), b.draw()), (&x.0 * &x.1).shown(), (&y.0 * &y.1).shown());
    let pattern = spmm_csr_pattern(x.0.pattern(), x.1.pattern());
    let turned = spmm_csc_pattern(y.0.pattern(), y.1.pattern()).transpose();
    agreed(format!("pattern {} {}", a.draw_places(), b.draw_places()), pattern.shown(), turned.shown());
}

/// A matrix as an operand that is transposed or not, and how a row writes it.
struct Operand(Grid, bool);

impl Operand {
    fn of_size(random: &mut Random, rows: usize, cols: usize, is_transposed: bool) -> Operand {
        let (rows, cols) = if is_transposed { (cols, rows) } else { (rows, cols) };
        Operand(random.grid(rows, cols), is_transposed)
    }

    fn draw(&self) -> String {
        format!("{}{}", self.0.draw(), if self.1 { "'" } else { "" })
    }

    fn op<T>(&self, matrix: T) -> Op<T> {
        if self.1 {
            Op::Transpose(matrix)
        } else {
            Op::NoOp(matrix)
        }
    }

    /// The operand as it is multiplied, by rows.
    fn csr(&self) -> CsrMatrix<i64> {
        if self.1 {
            self.0.csr().transpose()
        } else {
            self.0.csr()
        }
    }
}

/// Adds cells of value 1 where a pattern has entries that the target lacks, but for the last one in some rows.
fn cover(target: &mut Grid, entries: Vec<(usize, usize)>, is_whole: bool) {
    let most = entries.len() - usize::from(!is_whole && !entries.is_empty());
    for (i, j) in &entries[..most] {
        if target.cells[i * target.cols + j].is_none() {
            target.set(*i, *j, Some(1));
        }
    }
}

/// The answer of an update: the target after it, or the error.
fn updated<T: Shown>(target: T, done: Result<(), OperationError>) -> String {
    done.map(|()| target).shown()
}

fn print_sum_into(random: &mut Random, at: usize) {
    let (rows, cols) = (random.size(), random.size());
    let a = Operand::of_size(random, rows, cols, at % 2 == 1);
    let (mut c, beta, alpha) = (random.grid(rows, cols), random.value(), random.value());
    cover(&mut c, a.csr().pattern().entries().collect(), at % 4 < 2);
    let (mut x, mut y) = (c.csr(), c.csc());
    let by_rows = spadd_csr_prealloc(beta, &mut x, alpha, a.op(&a.0.csr()));
    let by_cols = spadd_csc_prealloc(beta, &mut y, alpha, a.op(&a.0.csc()));
    agreed(format!("{beta} {} += {alpha} {}", c.draw(), a.draw()), updated(x, by_rows), updated(y, by_cols));
}

fn print_product_into(random: &mut Random, at: usize) {
    let (rows, inner, cols) = (random.size(), random.size(), random.size());
    let a = Operand::of_size(random, rows, inner, at % 2 == 1);
    let b = Operand::of_size(random, inner, cols, at / 2 % 2 == 1);
    let (mut c, beta, alpha) = (random.grid(rows, cols), random.value(), random.value());
    let pattern = spmm_csr_pattern(a.csr().pattern(), b.csr().pattern());
    cover(&mut c, pattern.entries().collect(), at % 8 < 4);
    let (mut x, mut y) = (c.csr(), c.csc());
    let by_rows = spmm_csr_prealloc(beta, &mut x, alpha, a.op(&a.0.csr()), b.op(&b.0.csr()));
    let by_cols = spmm_csc_prealloc(beta, &mut y, alpha, a.op(&a.0.csc()), b.op(&b.0.csc()));
    let call = format!("{beta} {} += {alpha} {} {}", c.draw(), a.draw(), b.draw());
    agreed(call.clone(), updated(x, by_rows), updated(y, by_cols));
    if at % 8 < 4 {
        let (mut x, mut y) = (c.csr(), c.csc());
        let by_rows = spmm_csr_prealloc_unchecked(beta, &mut x, alpha, a.op(&a.0.csr()), b.op(&b.0.csr()));
        let by_cols = spmm_csc_prealloc_unchecked(beta, &mut y, alpha, a.op(&a.0.csc()), b.op(&b.0.csc()));
        agreed(format!("unchecked {call}"), updated(x, by_rows), updated(y, by_cols));
    }
}

fn print_dense_product(random: &mut Random, at: usize) {
    let (rows, inner, cols) = (random.size(), random.size(), random.size());
    let a = Operand::of_size(random, rows, inner, at % 2 == 1);
    let turned = at / 2 % 2 == 1;
    let b = if turned { random.dense(cols, inner) } else { random.dense(inner, cols) };
    let (c, beta, alpha) = (random.dense(rows, cols), random.value(), random.value());
    let op = |matrix| {
        if turned {
            Op::Transpose(matrix)
        } else {
            Op::NoOp(matrix)
        }
    };
    let (mut x, mut y) = (c.clone(), c.clone());
    spmm_csr_dense(beta, &mut x, alpha, a.op(&a.0.csr()), op(&b));
    spmm_csc_dense(beta, &mut y, alpha, a.op(&a.0.csc()), op(&b));
    let mark = if turned { "'" } else { "" };
    agreed(format!("{beta} {} += {alpha} {} * {}{mark}", c.shown(), a.draw(), b.shown()), x.shown(), y.shown());
}

/// Prints a system whose diagonal entries are 1 or -1, but for one that is zero or not stored in some rows.
fn print_solve(random: &mut Random, at: usize) {
    let (size, cols) = (2 + random.below(3), random.size());
    let mut l = random.grid(size, size);
    for i in 0..size {
        l.set(i, i, Some(1 - 2 * random.below(2) as i64));
    }
    if at % 5 == 4 {
        let i = random.below(size);
        l.set(i, i, [None, Some(0)][at / 5]);
    }
    let b = random.dense(size, cols);
    let triplets = l.list().triplet_iter().map(|(i, j, v)| (i, j, *v as f64)).collect::<Vec<_>>();
    let matrix = CscMatrix::from(&CooMatrix::try_from_triplets_iter(size, size, triplets).unwrap());
    let mut x = DMatrix::from_column_slice(size, cols, &b.iter().map(|v| *v as f64).collect::<Vec<_>>());
    let op = Operand(l, at % 2 == 1);
    let done = spsolve_csc_lower_triangular(op.op(&matrix), &mut x);
    let x = DMatrix::from_column_slice(size, cols, &x.iter().map(|v| *v as i64).collect::<Vec<_>>());
    row(format!("{} \\ {}", op.draw(), b.shown()), updated(x, done));
}
