//! Chains of operations over matrices that the library owns, compared with the calls over arrays.

use std::thread;

use nalgebra_sparse_exact::{
    add_scaled, assemble_csr, multiply, multiply_dense, subtract, transpose, Arrays, Error, Matrix, Order, Rows, System,
};

/// Random numbers (xorshift).
struct Random(u64);

impl Random {
    fn below(&mut self, bound: u64) -> u64 {
        self.0 ^= self.0 << 13;
        self.0 ^= self.0 >> 7;
        self.0 ^= self.0 << 17;
        self.0 % bound
    }

    fn matrix(&mut self, size: usize) -> Arrays {
        let mut indices = || (0..12).map(|_| usize::try_from(self.below(size as u64)).unwrap()).collect::<Vec<_>>();
        let (i, j) = (indices(), indices());
        let values: Vec<i64> = (0..12).map(|_| i64::try_from(self.below(1 << 40)).unwrap() - (1 << 39)).collect();
        assemble_csr(size, size, &i, &j, &values).unwrap()
    }
}

fn owned(a: &Arrays) -> Matrix {
    Matrix::from_rows(a.as_rows()).unwrap()
}

#[test]
fn chains_equal_those_over_arrays() {
    let mut random = Random(0x9e37_79b9_7f4a_7c15);
    for _ in 0..1000 {
        let (a, b) = (random.matrix(5), random.matrix(5));
        let (alpha, beta) = (i64::try_from(random.below(1 << 20)).unwrap(), -7);
        let (x, y) = (owned(&a), owned(&b));
        let square = multiply(a.as_rows(), a.as_rows()).unwrap();
        let turned = transpose(b.as_rows()).unwrap();
        let want = subtract(add_scaled(alpha, square.as_rows(), beta, turned.as_rows()).unwrap().as_rows(), a.as_rows()).unwrap();
        let got = x.multiply(&x).unwrap().add_scaled(alpha, beta, &y.transpose().unwrap()).unwrap().subtract(&x).unwrap();
        assert_eq!(got.to_arrays().unwrap(), want);
        assert_eq!((got.shape().unwrap(), got.nnz().unwrap()), ((5, 5), want.values.len()));
        let twice = x.add(&x).unwrap().to_arrays().unwrap();
        assert_eq!(x.clone().scale(2).unwrap().to_arrays().unwrap(), twice);
    }
}

#[test]
fn refusals_are_errors() {
    let wide = Matrix::from_triplets((1, 2), &[0], &[1], &[5]).unwrap();
    assert_eq!(wide.multiply(&wide).unwrap_err(), Error::ShapeMismatch);
    assert_eq!(wide.add(&wide.transpose().unwrap()).unwrap_err(), Error::ShapeMismatch);
    assert_eq!(Matrix::from_triplets((1, 2), &[0], &[2], &[5]).unwrap_err(), Error::IndexOutOfBounds);
    assert_eq!(Matrix::from_rows(Rows::new((1, 1), (&[0, 1], &[0], &[]))).unwrap_err(), Error::InvalidStructure);
    assert_eq!(format!("{wide:?}"), "Matrix { rows: 1, cols: 2, places: 1 }");
}

#[test]
fn operators_are_the_methods() {
    let mut random = Random(5);
    for _ in 0..100 {
        let (a, b) = (owned(&random.matrix(5)), owned(&random.matrix(5)));
        let arrays = |of: &Matrix| of.to_arrays().unwrap();
        assert_eq!(arrays(&(&a + &b)), arrays(&a.add(&b).unwrap()));
        assert_eq!(arrays(&(&a - &b)), arrays(&a.subtract(&b).unwrap()));
        assert_eq!(arrays(&(&a * &b)), arrays(&a.multiply(&b).unwrap()));
        assert_eq!(arrays(&(&a * &a)), arrays(&a.multiply(&a).unwrap()));
        assert_eq!(arrays(&-&a), arrays(&a.scale(-1).unwrap()));
    }
}

#[test]
#[should_panic(expected = "the shapes of the operands do not fit")]
fn operators_panic_at_shapes_that_do_not_fit() {
    let wide = Matrix::from_triplets((1, 2), &[0], &[1], &[5]).unwrap();
    let _ = &wide * &wide;
}

/// A matrix and its factors are used by threads at once, without clones: also where both operands are the same one.
#[test]
fn threads_share_a_matrix_and_its_factors() {
    fn is_shared<T: Send + Sync>(_: &T) {}
    let mut random = Random(9);
    let (a, b) = (owned(&random.matrix(40)), owned(&random.matrix(40)));
    let (square, product) = (a.multiply(&a).unwrap().to_arrays().unwrap(), a.multiply(&b).unwrap().to_arrays().unwrap());
    let factors = Matrix::from_triplets((2, 2), &[0, 0, 1], &[0, 1, 1], &[1, 2, 7]).unwrap().factor().unwrap();
    is_shared(&a);
    is_shared(&factors);
    thread::scope(|scope| {
        for k in 0..4 {
            let (a, b, square, product, factors) = (&a, &b, &square, &product, &factors);
            scope.spawn(move || {
                for _ in 0..100 {
                    assert_eq!((a * a).to_arrays().unwrap(), *square);
                    // In either order, so that a thread that held one lock and waited for the other would stop.
                    let (first, second) = if k % 2 == 0 { (a, b) } else { (b, a) };
                    assert_eq!((first + second).to_arrays().unwrap(), (a + b).to_arrays().unwrap());
                    assert_eq!((a * b).to_arrays().unwrap(), *product);
                    let mut x = [3, 9];
                    factors.solve_mut(1, &mut x).unwrap();
                    assert_eq!(x, [1, 1]);
                }
            });
        }
    });
}

#[test]
fn clones_go_to_other_threads() {
    let mut random = Random(7);
    let a = owned(&random.matrix(40));
    let want = a.multiply(&a).unwrap().to_arrays().unwrap();
    let threads: Vec<_> = (0..4)
        .map(|_| {
            let mine = a.clone();
            thread::spawn(move || (0..200).map(|_| mine.multiply(&mine).unwrap()).last().unwrap())
        })
        .collect();
    drop(a);
    for thread in threads {
        assert_eq!(thread.join().unwrap().to_arrays().unwrap(), want);
    }
}

/// Returns a random matrix with ones on its diagonal, and its part on and below the diagonal.
fn with_unit_diagonal(random: &mut Random, size: usize) -> (Matrix, Matrix) {
    let (mut all, mut lower) = ((vec![], vec![], vec![]), (vec![], vec![], vec![]));
    for i in 0..size {
        for j in 0..size {
            let value = if i == j { 1 } else { i64::try_from(random.below(1 << 40)).unwrap() - (1 << 39) };
            if i != j && random.below(2) == 0 {
                continue;
            }
            for list in [Some(&mut all), (i >= j).then_some(&mut lower)].into_iter().flatten() {
                list.0.push(i);
                list.1.push(j);
                list.2.push(value);
            }
        }
    }
    let made = |(i, j, values): &(Vec<usize>, Vec<usize>, Vec<i64>)| Matrix::from_triplets((size, size), i, j, values).unwrap();
    (made(&all), made(&lower))
}

fn times(a: &Matrix, x: &[i64]) -> Vec<i64> {
    let product = a.multiply_dense(2, x).unwrap();
    assert_eq!(product, multiply_dense(a.to_arrays().unwrap().as_rows(), 2, x).unwrap());
    product
}

#[test]
fn solutions_solve() {
    let (mut random, mut solved) = (Random(0x2545_f491_4f6c_dd1d), 0);
    for _ in 0..300 {
        let size = usize::try_from(random.below(6)).unwrap();
        let (a, l) = with_unit_diagonal(&mut random, size);
        let b: Vec<i64> = (0..2 * size).map(|_| i64::try_from(random.below(1 << 50)).unwrap() - (1 << 49)).collect();
        let turned = l.transpose().unwrap();
        for (t, system) in [(&l, System::NotTransposed), (&turned, System::Transposed)] {
            let mut x = b.clone();
            a.solve_lower_mut(system, 2, &mut x).unwrap();
            assert_eq!(times(t, &x), b);
        }
        let flipped = a.transpose().unwrap();
        for (t, system) in [(&turned, System::NotTransposed), (&l, System::Transposed)] {
            let mut x = b.clone();
            flipped.solve_upper_mut(system, 2, &mut x).unwrap();
            assert_eq!(times(t, &x), b);
        }
        // L Lᵀ is symmetric, and has the factors L and the identity.
        let symmetric = l.multiply(&turned).unwrap();
        let factors = symmetric.factor().unwrap();
        let copied = factors.to_factors().unwrap();
        // The columns of L are the rows of its transpose. Its entries are those of the fill, where values may be 0.
        let rows = Matrix::from_rows(copied.l.as_columns().transposed()).unwrap();
        assert!(rows.subtract(&turned).unwrap().to_arrays().unwrap().values.iter().all(|value| *value == 0));
        assert_eq!((copied.l.shape(), copied.d), ((size, size), vec![1; size]));
        let given: Vec<usize> = (0..size).rev().collect();
        for order in [Order::Natural, Order::MinimumDegree, Order::ReverseCuthillMckee, Order::Given(&given)] {
            // In some orders a pivot has no inverse.
            let Ok(ordered) = symmetric.factor_in_order(order) else { continue };
            let (list, mut x) = (ordered.order().unwrap(), b.clone());
            assert_eq!(list, symmetric.order(order).unwrap());
            ordered.clone().solve_mut(2, &mut x).unwrap();
            assert_eq!(times(&symmetric, &x), b);
            solved += usize::from(order != Order::Natural);
            let units = Matrix::from_triplets((size, size), &(0..size).collect::<Vec<_>>(), &list, &vec![1; size]).unwrap();
            let permuted = units.multiply(&symmetric).unwrap().multiply(&units.transpose().unwrap()).unwrap();
            assert_eq!(permuted.factor().unwrap().to_factors().unwrap().d, ordered.to_factors().unwrap().d);
        }
        let (clone, mut x) = (factors.clone(), b.clone());
        drop(factors);
        let solving = thread::spawn(move || {
            clone.solve_mut(2, &mut x).unwrap();
            x
        });
        assert_eq!(times(&symmetric, &solving.join().unwrap()), b);
    }
    assert!(solved > 300);
}

#[test]
fn systems_are_refused() {
    let wide = Matrix::from_triplets((1, 2), &[0], &[1], &[5]).unwrap();
    let even = Matrix::from_triplets((1, 1), &[0], &[0], &[2]).unwrap();
    let mut x = [7];
    assert_eq!(wide.solve_lower_mut(System::NotTransposed, 1, &mut x), Err(Error::ShapeMismatch));
    assert_eq!(wide.solve_upper_mut(System::NotTransposed, 1, &mut x), Err(Error::ShapeMismatch));
    assert_eq!(wide.factor().unwrap_err(), Error::ShapeMismatch);
    assert_eq!(even.solve_lower_mut(System::NotTransposed, 2, &mut x), Err(Error::InvalidStructure));
    assert_eq!(even.solve_lower_mut(System::NotTransposed, 1, &mut x), Err(Error::Singular));
    assert_eq!(even.solve_upper_mut(System::Transposed, 1, &mut x), Err(Error::Singular));
    assert_eq!(even.factor().unwrap_err(), Error::Singular);
    let upper = Matrix::from_triplets((2, 2), &[0, 0, 1], &[0, 1, 1], &[1, 2, 7]).unwrap();
    assert_eq!(upper.factor_checked().unwrap_err(), Error::NotSymmetric);
    assert_eq!(wide.factor_checked().unwrap_err(), Error::ShapeMismatch);
    let mirrored = upper.add(&Matrix::from_triplets((2, 2), &[1, 0], &[0, 0], &[2, 0]).unwrap()).unwrap();
    let (mut y, mut z) = ([3, 9], [3, 9]);
    mirrored.factor_checked().unwrap().solve_mut(1, &mut y).unwrap();
    upper.factor().unwrap().solve_mut(1, &mut z).unwrap();
    assert_eq!((y, z), ([1, 1], [1, 1]));
    for order in [Order::MinimumDegree, Order::ReverseCuthillMckee, Order::Natural, Order::Given(&[0])] {
        assert_eq!(wide.order(order).unwrap_err(), Error::ShapeMismatch);
        assert_eq!(wide.factor_in_order(order).unwrap_err(), Error::ShapeMismatch);
        assert_eq!(even.factor_in_order(order).unwrap_err(), Error::Singular);
        assert_eq!(wide.factor_in_order_checked(order).unwrap_err(), Error::ShapeMismatch);
        assert_eq!(even.factor_in_order_checked(order).unwrap_err(), Error::Singular);
        assert_eq!(upper.factor_in_order_checked(order).unwrap_err(), Error::NotSymmetric);
    }
    let mut v = [3, 9];
    mirrored.factor_in_order_checked(Order::Given(&[1, 0])).unwrap().solve_mut(1, &mut v).unwrap();
    assert_eq!(v, [1, 1]);
    assert_eq!(upper.factor_in_order(Order::Given(&[1, 1])).unwrap_err(), Error::DuplicateEntry);
    assert_eq!(upper.factor_in_order(Order::Given(&[2, 0])).unwrap_err(), Error::IndexOutOfBounds);
    assert_eq!(upper.factor_in_order(Order::Given(&[0])).unwrap_err(), Error::InvalidStructure);
    let factors = even.add(&Matrix::from_triplets((1, 1), &[0], &[0], &[1]).unwrap()).unwrap().factor().unwrap();
    assert_eq!(factors.solve_mut(2, &mut x), Err(Error::InvalidStructure));
    assert_eq!(x, [7]);
    assert_eq!(format!("{factors:?}"), "Factorisation { .. }");
}

#[test]
fn matrices_are_those_of_their_texts() {
    let mut random = Random(11);
    for size in 1..40 {
        let a = random.matrix(size);
        let text = owned(&a).to_text().unwrap();
        assert_eq!(Matrix::from_text(&text).unwrap().to_arrays().unwrap(), a);
    }
    let long = Matrix::from_rows(Rows::new((1, usize::MAX), (&[0, 2], &[usize::MAX - 2, usize::MAX - 1], &[i64::MIN, i64::MIN]))).unwrap();
    let want = b"1 18446744073709551615 2\n1 18446744073709551614 -9223372036854775808\n1 18446744073709551615 -9223372036854775808\n";
    assert!(long.to_text().unwrap().ends_with(want));
    assert_eq!(Matrix::from_text(b"").unwrap_err(), Error::InvalidText);
    assert_eq!(Matrix::from_text(b"\xff").unwrap_err(), Error::Unreadable);
}
