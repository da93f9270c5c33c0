//! Conversions between lists, compressed matrices and dense ones.

use crate::operands::Random;
use crate::shown::{arrays, row, Shown};
use nalgebra_sparse::na::DMatrix;
use nalgebra_sparse::{CooMatrix, CscMatrix, CsrMatrix};

pub fn print(random: &mut Random) {
    println!("\n# Lists, compressed; matrices in the other format, transposed and dense.");
    println!("over rows columns W32 W64 W128\n");
    for _ in 0..6 {
        let (rows, cols) = (random.size(), random.size());
        let list = random.list(rows, cols);
        let (by_rows, by_cols) = (CsrMatrix::from(&list), CscMatrix::from(&list));
        assert_eq!(by_rows.shown(), by_cols.shown());
        row(list.shown(), by_rows.shown());
    }
    for _ in 0..2 {
        print_turned(random);
    }
    println!("over rows W32 W64 W128");
    for _ in 0..2 {
        print_lists(random);
    }
    for _ in 0..2 {
        let grid = sized(random);
        let (list, csr) = (CooMatrix::from(&grid.csr()), grid.csr());
        row(format!("list {}", grid.draw()), list.shown());
        let (offsets, indices, values) = csr.csr_data();
        row(format!("arrays {}", grid.draw()), arrays(offsets, indices, values));
    }
    println!("over columns W32 W64 W128");
    for _ in 0..2 {
        let grid = sized(random);
        let (list, csc) = (CooMatrix::from(&grid.csc()), grid.csc());
        row(format!("list {}", grid.draw()), list.shown());
        let (offsets, indices, values) = csc.csc_data();
        row(format!("arrays {}", grid.draw()), arrays(offsets, indices, values));
    }
}

fn sized(random: &mut Random) -> crate::operands::Grid {
    let (rows, cols) = (random.size(), random.size());
    random.grid(rows, cols)
}

fn print_turned(random: &mut Random) {
    let grid = sized(random);
    let (csr, csc) = (grid.csr(), grid.csc());
    let (to_csc, to_csr) = (CscMatrix::from(&csr), CsrMatrix::from(&csc));
    assert_eq!(to_csc.shown(), to_csr.shown());
    row(format!("turn {}", grid.draw()), to_csc.shown());
    assert_eq!(csr.transpose().shown(), csc.transpose().shown());
    row(format!("{}'", grid.draw()), csr.transpose().shown());
    assert_eq!(DMatrix::from(&csr).shown(), DMatrix::from(&csc).shown());
    row(format!("dense {}", grid.draw()), DMatrix::from(&csr).shown());
    let dense = random.dense(grid.rows, grid.cols);
    assert_eq!(CsrMatrix::from(&dense).shown(), CscMatrix::from(&dense).shown());
    row(format!("sparse {}", dense.shown()), CsrMatrix::from(&dense).shown());
}

fn print_lists(random: &mut Random) {
    let (rows, cols) = (random.size(), random.size());
    let (list, dense) = (random.list(rows, cols), random.dense(rows, cols));
    row(format!("dense triplets {}", list.shown()), DMatrix::from(&list).shown());
    row(format!("list dense {}", dense.shown()), CooMatrix::from(&dense).shown());
    let mut pushed = list.clone();
    let (at, block) = ((random.below(rows), random.below(cols)), random.dense(1, 1));
    pushed.push_matrix(at.0, at.1, &block);
    row(format!("triplets push ({},{}) {} {}", at.0, at.1, block.shown(), list.shown()), pushed.shown());
}
