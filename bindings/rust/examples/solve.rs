//! Reads a symmetric matrix from a text and solves a system with it modulo 7.

use nalgebra_sparse_exact::{assemble_csc, read, solve_symmetric_mod, Error};

fn main() -> Result<(), Error> {
    // 2 1 / 1 3: the text has the lower triangle, and reading adds the mirrored entry.
    let list = read(b"%%MatrixMarket matrix coordinate integer symmetric\n2 2 3\n1 1 2\n2 1 1\n2 2 3\n")?;
    let a = assemble_csc(list.rows, list.cols, &list.row_indices, &list.col_indices, &list.values)?;
    println!("{:?}", solve_symmetric_mod(7, a.as_columns(), 1, &[8, 19])?);
    Ok(())
}
