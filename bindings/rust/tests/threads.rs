//! Calls from several threads at once, over shared operands.

use std::thread;

use nalgebra_sparse_exact::{assemble_csr, multiply};

#[test]
fn threads_get_the_results_of_one() {
    let lists: (Vec<usize>, Vec<i64>) = ((0..2000).map(|k| k * 7 % 100).collect(), (0..2000).collect());
    let indices: Vec<usize> = lists.0.iter().map(|i| i * i % 97).collect();
    let a = assemble_csr(100, 100, &lists.0, &indices, &lists.1).unwrap();
    let want = multiply(a.as_rows(), a.as_rows()).unwrap();
    thread::scope(|scope| {
        for _ in 0..4 {
            scope.spawn(|| {
                for _ in 0..100 {
                    assert_eq!(multiply(a.as_rows(), a.as_rows()).unwrap(), want);
                }
            });
        }
    });
}
