#![doc = include_str!("../README.md")]

mod calls;
mod error;
mod factorisation;
mod factors;
mod handles;
mod matrices;
mod moduli;
mod operations;
mod operators;
mod orders;
mod ring_matrix;
mod ring_systems;
mod room;
mod shared;
mod symmetric;
mod systems;
mod texts;

pub use error::Error;
pub use factorisation::Factorisation;
pub use factors::{factor_symmetric, factor_symmetric_mod, singular_column, singular_column_mod, Factors};
pub use handles::Matrix;
pub use matrices::{Arrays, ColumnArrays, Columns, Rows};
pub use moduli::{
    add_mod, add_scaled_mod, assemble_csc_mod, assemble_csr_mod, divide_mod, multiply_dense_mod, multiply_mod, solve_lower_mod,
    solve_symmetric_mod, subtract_mod, MODULI,
};
pub use operations::{add, add_scaled, assemble_csc, assemble_csr, divide, multiply, multiply_dense, subtract, transpose};
pub use orders::Order;
pub use ring_matrix::RingMatrix;
pub use symmetric::{factor_symmetric_checked, factor_symmetric_mod_checked, solve_symmetric_checked, solve_symmetric_mod_checked};
pub use systems::{fill, solve_lower, solve_symmetric, System, Triangle};
pub use texts::{faulty_line, read, write, Triplets};
