//! Chains of operations over matrices modulo a listed number that the library owns, compared with the calls over arrays.

use nalgebra_sparse_exact::{
    add_mod, add_scaled_mod, assemble_csr, assemble_csr_mod, factor_symmetric_mod, multiply_dense_mod, multiply_mod, subtract_mod,
    transpose, Arrays, Error, RingMatrix, Rows, MODULI,
};

/// Random numbers (xorshift).
struct Random(u64);

impl Random {
    fn below(&mut self, bound: u64) -> u64 {
        self.0 ^= self.0 << 13;
        self.0 ^= self.0 >> 7;
        self.0 ^= self.0 << 17;
        self.0 % bound
    }

    fn matrix(&mut self, size: usize) -> Arrays {
        let mut indices = || (0..12).map(|_| usize::try_from(self.below(size as u64)).unwrap()).collect::<Vec<_>>();
        let (i, j) = (indices(), indices());
        let values: Vec<i64> = (0..12).map(|_| i64::try_from(self.below(1 << 40)).unwrap() - (1 << 39)).collect();
        assemble_csr(size, size, &i, &j, &values).unwrap()
    }
}

#[test]
fn chains_equal_those_over_arrays() {
    let mut random = Random(0x9e37_79b9_7f4a_7c15);
    for p in (0..30).flat_map(|_| MODULI) {
        let (a, b) = (random.matrix(5), random.matrix(5));
        let (alpha, beta) = (i64::try_from(random.below(1 << 20)).unwrap(), -7);
        let owned = |a: &Arrays| RingMatrix::from_rows(p, a.as_rows()).unwrap();
        let (x, y) = (owned(&a), owned(&b));
        let square = multiply_mod(p, a.as_rows(), a.as_rows()).unwrap();
        let turned = transpose(b.as_rows()).unwrap();
        let sum = add_scaled_mod(p, alpha, square.as_rows(), beta, turned.as_rows()).unwrap();
        let want = subtract_mod(p, sum.as_rows(), a.as_rows()).unwrap();
        let got = x.multiply(&x).unwrap().add_scaled(alpha, beta, &y.transpose().unwrap()).unwrap().subtract(&x).unwrap();
        assert_eq!(got.to_arrays().unwrap(), want);
        assert_eq!((got.modulus().unwrap(), got.shape().unwrap(), got.nnz().unwrap()), (p, (5, 5), want.values.len()));
        let twice = x.add(&x).unwrap().to_arrays().unwrap();
        assert_eq!(twice, add_mod(p, a.as_rows(), a.as_rows()).unwrap());
        assert_eq!(x.clone().scale(2).unwrap().to_arrays().unwrap(), twice);
        let dense: Vec<i64> = b.values.iter().copied().cycle().take(10).collect();
        assert_eq!(x.multiply_dense(2, &dense).unwrap(), multiply_dense_mod(p, a.as_rows(), 2, &dense).unwrap());
    }
}

#[test]
fn triplets_are_added() {
    let got = RingMatrix::from_triplets(5, (2, 3), &[1, 0, 1], &[2, 0, 2], &[4, -1, 3]).unwrap();
    assert_eq!(got.to_arrays().unwrap(), assemble_csr_mod(5, 2, 3, &[1, 0, 1], &[2, 0, 2], &[4, -1, 3]).unwrap());
    assert_eq!(format!("{got:?}"), "RingMatrix { modulus: 5, rows: 2, cols: 3, places: 2 }");
}

#[test]
fn symmetric_systems_are_solved() {
    // 2 1 / 5 3: the entry below the diagonal is not read.
    let a = RingMatrix::from_triplets(7, (2, 2), &[0, 0, 1, 1], &[0, 1, 0, 1], &[2, 1, 5, 3]).unwrap();
    assert_eq!(a.solve_symmetric(1, &[8, 19]).unwrap(), [1, 6]);
    let upper = assemble_csr(2, 2, &[0, 1, 1], &[0, 0, 1], &[2, 1, 3]).unwrap();
    assert_eq!(a.factor().unwrap(), factor_symmetric_mod(7, upper.as_rows().transposed()).unwrap());
    assert_eq!(a.singular_column().unwrap(), None);
    assert_eq!(a.solve_symmetric_checked(1, &[8, 19]), Err(Error::NotSymmetric));
    assert_eq!(a.factor_checked(), Err(Error::NotSymmetric));
    // 2 1 / 8 3 is symmetric modulo 7.
    let b = RingMatrix::from_triplets(7, (2, 2), &[0, 0, 1, 1], &[0, 1, 0, 1], &[2, 1, 8, 3]).unwrap();
    assert_eq!(b.solve_symmetric_checked(1, &[8, 19]).unwrap(), [1, 6]);
    assert_eq!(b.factor_checked(), a.factor());
    // 2 1 / 1 4 has the determinant 7.
    let none = RingMatrix::from_triplets(7, (2, 2), &[0, 0, 1, 1], &[0, 1, 0, 1], &[2, 1, 1, 4]).unwrap();
    assert_eq!(none.factor().unwrap_err(), Error::Singular);
    assert_eq!(none.solve_symmetric(1, &[1, 1]).unwrap_err(), Error::Singular);
    assert_eq!(none.singular_column().unwrap(), Some(1));
    assert_eq!(none.factor_checked(), Err(Error::Singular));
    assert_eq!(none.solve_symmetric_checked(1, &[1, 1]), Err(Error::Singular));
}

#[test]
fn refusals_are_errors() {
    let wide = RingMatrix::from_triplets(7, (1, 2), &[0], &[1], &[5]).unwrap();
    let other = RingMatrix::from_triplets(11, (1, 2), &[0], &[1], &[5]).unwrap();
    assert_eq!(wide.multiply(&wide).unwrap_err(), Error::ShapeMismatch);
    assert_eq!(wide.add(&wide.transpose().unwrap()).unwrap_err(), Error::ShapeMismatch);
    for refused in [wide.add(&other), wide.subtract(&other), wide.add_scaled(1, 1, &other), wide.multiply(&other)] {
        assert_eq!(refused.unwrap_err(), Error::RingMismatch);
    }
    assert_eq!(wide.factor().unwrap_err(), Error::ShapeMismatch);
    assert_eq!(wide.factor_checked().unwrap_err(), Error::ShapeMismatch);
    assert_eq!(wide.solve_symmetric_checked(1, &[1]).unwrap_err(), Error::ShapeMismatch);
    assert_eq!(wide.multiply_dense(1, &[1]).unwrap_err(), Error::InvalidStructure);
    for modulus in [0, 1, 4, u64::MAX] {
        assert_eq!(RingMatrix::from_triplets(modulus, (1, 2), &[0], &[0], &[5]).unwrap_err(), Error::UnknownModulus);
    }
    assert_eq!(RingMatrix::from_triplets(7, (1, 2), &[0], &[2], &[5]).unwrap_err(), Error::IndexOutOfBounds);
    assert_eq!(RingMatrix::from_rows(7, Rows::new((1, 1), (&[0, 1], &[0], &[]))).unwrap_err(), Error::InvalidStructure);
    assert_eq!(Error::RingMismatch.to_string(), "the operands have different moduli");
}
