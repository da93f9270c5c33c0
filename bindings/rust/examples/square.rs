//! Squares a matrix by rows and prints its entries.

use nalgebra_sparse_exact::{assemble_csr, multiply, Error};

fn main() -> Result<(), Error> {
    // The entry (1, 1) is given twice; its values are added.
    let a = assemble_csr(2, 2, &[0, 0, 1, 1], &[0, 1, 1, 1], &[1, 2, 2, 1])?;
    let square = multiply(a.as_rows(), a.as_rows())?;
    for (i, lane) in square.offsets.windows(2).enumerate() {
        for p in lane[0]..lane[1] {
            println!("{i} {} {}", square.indices[p], square.values[p]);
        }
    }
    Ok(())
}
