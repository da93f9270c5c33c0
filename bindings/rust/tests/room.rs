//! Looks at the room that results hold.

use nalgebra_sparse_exact::{assemble_csr, fill, multiply, read, write, Triangle, Triplets};

/// A product with many multiplications and one entry keeps no room for others.
#[test]
fn room_that_is_left_is_given_back() {
    let (zeros, count): (Vec<usize>, Vec<usize>) = (vec![0; 5000], (0..5000).collect());
    let ones = vec![1; 5000];
    let row = assemble_csr(1, 5000, &zeros, &count, &ones).unwrap();
    let column = assemble_csr(5000, 1, &count, &zeros, &ones).unwrap();
    let product = multiply(row.as_rows(), column.as_rows()).unwrap();
    assert_eq!((product.indices.len(), product.values[0]), (1, 5000));
    assert!(product.indices.capacity() < 100 && product.values.capacity() < 100);
}

/// A fill with entries that are neither in the pattern nor on the diagonal, and a text of long numbers, need more room
/// than the first guess.
#[test]
fn results_that_outgrow_their_room_are_whole() {
    // The first row and column and the diagonal: the elimination fills all.
    let (offsets, indices) = fill(4, Triangle::Upper, &[0, 1, 2, 3, 4], &[0, 0, 0, 0]).unwrap();
    assert_eq!((offsets, indices), (vec![0, 4, 7, 9, 10], vec![0, 1, 2, 3, 1, 2, 3, 2, 3, 3]));
    let count = 50;
    let list = Triplets {
        rows: usize::MAX,
        cols: usize::MAX,
        row_indices: vec![usize::MAX - 1; count],
        col_indices: vec![usize::MAX - 1; count],
        values: vec![i64::MIN; count],
    };
    let text = write(&list).unwrap();
    assert!(text.len() > 256 + 27 * count && text.capacity() < text.len() + 100);
    assert_eq!(read(&text).unwrap(), list);
}
