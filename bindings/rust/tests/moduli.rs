//! Compares the calls with a modulus, and the factors of symmetric matrices, with plain equations in random cases, and
//! tries each error.

// The names of matrices and indices, and small numbers that fit in any type.
#![allow(clippy::many_single_char_names, clippy::needless_range_loop)]
#![allow(clippy::cast_possible_truncation, clippy::cast_possible_wrap, clippy::cast_sign_loss)]

use nalgebra_sparse_exact::{
    divide_mod, factor_symmetric, factor_symmetric_checked, factor_symmetric_mod, factor_symmetric_mod_checked, fill, singular_column,
    singular_column_mod, solve_lower_mod, solve_symmetric, solve_symmetric_checked, solve_symmetric_mod, solve_symmetric_mod_checked,
    ColumnArrays, Columns, Error, System, Triangle, MODULI,
};

/// A generator of random numbers (xorshift).
struct Random(u64);

impl Random {
    fn next(&mut self) -> u64 {
        self.0 ^= self.0 << 13;
        self.0 ^= self.0 >> 7;
        self.0 ^= self.0 << 17;
        self.0
    }

    fn below(&mut self, bound: usize) -> usize {
        (self.next() % bound as u64) as usize
    }

    /// A small number, or one at the ends of the range.
    fn value(&mut self) -> i64 {
        match self.below(4) {
            0 => self.next() as i64,
            1 => i64::MIN,
            _ => self.below(7) as i64 - 3,
        }
    }
}

/// The number modulo `m`, where 0 means 2^64.
fn residue(m: u64, z: i128) -> i128 {
    z.rem_euclid(if m == 0 { 1 << 64 } else { i128::from(m) })
}

fn times(m: u64, x: i128, y: i128) -> i128 {
    let product = (residue(m, x) as u128).wrapping_mul(residue(m, y) as u128);
    (if m == 0 { product % (1 << 64) } else { product % u128::from(m) }) as i128
}

fn has_inverse(m: u64, x: i128) -> bool {
    if m == 0 { x % 2 != 0 } else { residue(m, x) != 0 }
}

/// The inverse, by Euclid's extended algorithm.
fn inverse(m: u64, x: i128) -> i128 {
    let modulus = if m == 0 { 1 << 64 } else { i128::from(m) };
    let (mut high, mut low, mut at_high, mut at_low) = (modulus, residue(m, x), 0, 1);
    while low != 0 {
        let quotient = high / low;
        (high, low) = (low, high - quotient * low);
        (at_high, at_low) = (at_low, at_high - quotient * at_low);
    }
    residue(m, at_high)
}

/// Returns the column of the first pivot of the elimination that has no inverse.
fn stopped(m: u64, n: usize, entry: impl Fn(usize, usize) -> i64) -> Option<usize> {
    let mut s: Vec<Vec<i128>> = (0..n).map(|i| (0..n).map(|j| residue(m, entry(i, j).into())).collect()).collect();
    for k in 0..n {
        if !has_inverse(m, s[k][k]) {
            return Some(k);
        }
        for i in k + 1..n {
            let multiple = times(m, s[i][k], inverse(m, s[k][k]));
            for j in k + 1..n {
                s[i][j] = residue(m, s[i][j] - times(m, multiple, s[k][j]));
            }
        }
    }
    None
}

/// Says whether each pivot of the elimination has an inverse.
fn has_factors(m: u64, n: usize, entry: impl Fn(usize, usize) -> i64) -> bool {
    stopped(m, n, entry).is_none()
}

/// A square matrix, as its arrays by columns and as the value at each row and column.
fn square(random: &mut Random, m: u64) -> (ColumnArrays, Vec<Vec<i64>>) {
    let n = random.below(6);
    let (mut columns, mut dense) = (ColumnArrays::new((n, n), (vec![0], vec![], vec![])), vec![vec![0; n]; n]);
    for j in 0..n {
        for i in 0..n {
            if random.below(3) == 0 || i == j {
                let value = random.value() | i64::from(i == j && m == 0);
                columns.indices.push(i);
                columns.values.push(value);
                dense[i][j] = value;
            }
        }
        columns.offsets.push(columns.indices.len());
    }
    (columns, dense)
}

/// Whether each value is from 0 to m - 1.
fn are_reduced(m: u64, values: &[i64]) -> bool {
    values.iter().all(|value| (0..m as i64).contains(value))
}

/// Says whether the entries times X are B.
fn solves(m: u64, n: usize, entry: impl Fn(usize, usize) -> i64, x: &[i64], b: &[i64]) -> bool {
    (0..b.len()).all(|at| {
        let (i, j) = (at % n, at / n);
        let sum = (0..n).fold(0, |sum, k| residue(m, sum + times(m, entry(i, k).into(), x[j * n + k].into())));
        sum == residue(m, b[at].into())
    })
}

#[test]
fn quotients_and_solves_satisfy_their_equations() {
    let mut random = Random(0x2545_f491_4f6c_dd1d);
    for case in 0..2200 {
        let m = MODULI[case % MODULI.len()];
        let (columns, dense) = square(&mut random, m);
        let (n, cols, a) = (dense.len(), random.below(4), columns.as_columns());
        let b: Vec<i64> = (0..n * cols).map(|_| random.value()).collect();
        let pivots = (0..n).all(|k| has_inverse(m, dense[k][k].into()));
        let lower = |i: usize, k: usize| if k <= i { dense[i][k] } else { 0 };
        let symmetric = |i: usize, k: usize| dense[i.min(k)][i.max(k)];
        for system in [System::NotTransposed, System::Transposed] {
            match solve_lower_mod(m, a, system, cols, &b) {
                Ok(x) if system == System::NotTransposed => assert!(are_reduced(m, &x) && solves(m, n, lower, &x, &b)),
                Ok(x) => assert!(are_reduced(m, &x) && solves(m, n, |i, k| lower(k, i), &x, &b)),
                Err(error) => assert!(error == Error::Singular && cols > 0 && !pivots),
            }
        }
        match solve_symmetric_mod(m, a, cols, &b) {
            Ok(x) => assert!(are_reduced(m, &x) && solves(m, n, symmetric, &x, &b)),
            Err(error) => assert!(error == Error::Singular && !has_factors(m, n, symmetric)),
        }
        let divisor = random.value();
        match divide_mod(m, a.transposed(), divisor) {
            Ok(quotient) => {
                assert!(are_reduced(m, &quotient.values));
                let back = quotient.values.iter().map(|value| times(m, (*value).into(), divisor.into()));
                assert!(back.eq(columns.values.iter().map(|value| residue(m, (*value).into()))));
                assert_eq!((quotient.offsets, quotient.indices), (columns.offsets.clone(), columns.indices.clone()));
            }
            Err(error) => assert!(error == Error::Singular && !has_inverse(m, divisor.into())),
        }
    }
}

/// The checked calls return what the plain ones do if the matrix is symmetric in the ring, and an error otherwise.
#[test]
fn checked_calls_take_symmetric_matrices_alone() {
    let mut random = Random(0x1234_5678_9abc_def1);
    let mut counts = [0, 0];
    for case in 0..1000 {
        let m = if case % 4 == 0 { 0 } else { MODULI[random.below(3)] };
        let (matrix, dense) = square(&mut random, m);
        let (a, n) = (matrix.as_columns(), dense.len());
        let differ = |i: usize, k: usize| residue(m, i128::from(dense[i][k])) != residue(m, i128::from(dense[k][i]));
        let is_symmetric = (0..n).all(|i| (0..n).all(|k| !differ(i, k)));
        counts[usize::from(is_symmetric)] += 1;
        let b: Vec<i64> = (0..n).map(|_| random.value()).collect();
        let (factors, solution) = if m == 0 {
            (factor_symmetric_checked(a), solve_symmetric_checked(a, 1, &b))
        } else {
            (factor_symmetric_mod_checked(m, a), solve_symmetric_mod_checked(m, a, 1, &b))
        };
        if is_symmetric {
            assert_eq!(factors, if m == 0 { factor_symmetric(a) } else { factor_symmetric_mod(m, a) });
            assert_eq!(solution, if m == 0 { solve_symmetric(a, 1, &b) } else { solve_symmetric_mod(m, a, 1, &b) });
        } else {
            assert_eq!((factors.err(), solution.err()), (Some(Error::NotSymmetric), Some(Error::NotSymmetric)));
        }
    }
    assert!(counts[0] > 100 && counts[1] > 100, "{counts:?}");
    let wide = Columns::new((1, 2), (&[0, 0, 0], &[], &[]));
    assert_eq!(solve_symmetric_checked(wide, 1, &[1]), Err(Error::ShapeMismatch));
    assert_eq!(factor_symmetric_mod_checked(4, Columns::new((0, 0), (&[0], &[], &[]))), Err(Error::UnknownModulus));
}

#[test]
fn factors_multiply_to_their_matrix() {
    let mut random = Random(0x9e37_79b9_7f4a_7c15);
    for case in 0..2400 {
        let m = [0].iter().chain(&MODULI).copied().nth(case % 12).unwrap();
        let (columns, dense) = square(&mut random, m);
        let (n, a) = (dense.len(), columns.as_columns());
        let symmetric = |i: usize, k: usize| dense[i.min(k)][i.max(k)];
        let column = if m == 0 { singular_column(a) } else { singular_column_mod(m, a) };
        assert_eq!(column.unwrap(), stopped(m, n, symmetric));
        let answer = if m == 0 { factor_symmetric(a) } else { factor_symmetric_mod(m, a) };
        assert_eq!(answer.clone().err(), if has_factors(m, n, symmetric) { None } else { Some(Error::Singular) });
        let Ok(factors) = answer else { continue };
        let places = fill(n, Triangle::Upper, &columns.offsets, &columns.indices).unwrap();
        assert_eq!((&factors.l.offsets, &factors.l.indices), (&places.0, &places.1));
        let mut l = vec![vec![0i64; n]; n];
        for j in 0..n {
            for p in places.0[j]..places.0[j + 1] {
                l[places.1[p]][j] = factors.l.values[p];
            }
        }
        assert!(factors.d.iter().all(|pivot| has_inverse(m, (*pivot).into())));
        for i in 0..n {
            assert!(l[i][i] == 1 && l[i][i + 1..].iter().all(|value| *value == 0));
            for j in i..n {
                let term = |k: usize| times(m, times(m, l[i][k].into(), factors.d[k].into()), l[j][k].into());
                let sum = (0..n).fold(0, |sum, k| residue(m, sum + term(k)));
                assert_eq!(sum, residue(m, dense[i][j].into()));
            }
        }
    }
}

#[test]
fn each_fault_is_an_error() {
    let square = |indices, values| Columns { rows: 2, cols: 2, offsets: &[0, 1, 2], indices, values };
    let (sound, out, wide) = (square(&[0, 1], &[5, 8]), square(&[0, 2], &[5, 8]), Columns { cols: 3, ..square(&[0, 1], &[5, 8]) });
    for m in [0, 1, 4, 65536, u64::MAX] {
        assert_eq!(divide_mod(m, sound.transposed(), 3), Err(Error::UnknownModulus));
        assert_eq!(solve_lower_mod(m, sound, System::NotTransposed, 1, &[1, 2]), Err(Error::UnknownModulus));
        assert_eq!(solve_symmetric_mod(m, sound, 1, &[1, 2]), Err(Error::UnknownModulus));
        assert_eq!(factor_symmetric_mod(m, sound), Err(Error::UnknownModulus));
        assert_eq!(singular_column_mod(m, out), Err(Error::UnknownModulus));
    }
    assert_eq!(divide_mod(7, sound.transposed(), 14), Err(Error::Singular));
    assert_eq!(solve_lower_mod(2, sound, System::Transposed, 1, &[1, 2]), Err(Error::Singular));
    assert_eq!(solve_symmetric_mod(5, sound, 1, &[1, 2]), Err(Error::Singular));
    assert_eq!(factor_symmetric_mod(2, sound), Err(Error::Singular));
    assert_eq!(factor_symmetric(sound), Err(Error::Singular));
    assert_eq!(divide_mod(7, out.transposed(), 3), Err(Error::IndexOutOfBounds));
    assert_eq!(solve_lower_mod(7, out, System::NotTransposed, 1, &[1, 2]), Err(Error::IndexOutOfBounds));
    assert_eq!(solve_symmetric_mod(7, out, 1, &[1, 2]), Err(Error::IndexOutOfBounds));
    assert_eq!(factor_symmetric_mod(7, out), Err(Error::IndexOutOfBounds));
    assert_eq!(singular_column_mod(7, out), Err(Error::IndexOutOfBounds));
    assert_eq!(factor_symmetric(out), Err(Error::IndexOutOfBounds));
    assert_eq!(solve_lower_mod(7, sound, System::NotTransposed, 1, &[1]), Err(Error::InvalidStructure));
    assert_eq!(solve_symmetric_mod(7, sound, 1, &[1]), Err(Error::InvalidStructure));
    assert_eq!(solve_lower_mod(7, wide, System::NotTransposed, 1, &[1, 2]), Err(Error::ShapeMismatch));
    assert_eq!(factor_symmetric(wide), Err(Error::ShapeMismatch));
}
