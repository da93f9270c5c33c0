//! Compares assembly, sums and products in each ring with plain matrices in random cases, and tries each error of the
//! calls with a modulus.

// The names of matrices and indices, and small numbers that fit in any type.
#![allow(clippy::many_single_char_names, clippy::needless_range_loop)]
#![allow(clippy::cast_possible_truncation, clippy::cast_possible_wrap, clippy::cast_sign_loss)]

use nalgebra_sparse_exact::{
    add, add_mod, add_scaled, add_scaled_mod, assemble_csc, assemble_csc_mod, assemble_csr, assemble_csr_mod, multiply, multiply_dense,
    multiply_dense_mod, multiply_mod, solve_lower_mod, subtract, subtract_mod, Arrays, Error, Rows, System, MODULI,
};

/// A generator of random numbers (xorshift).
struct Random(u64);

impl Random {
    fn below(&mut self, bound: usize) -> usize {
        self.0 ^= self.0 << 13;
        self.0 ^= self.0 >> 7;
        self.0 ^= self.0 << 17;
        (self.0 % bound as u64) as usize
    }

    /// A small number, or one at the ends of the range.
    fn value(&mut self) -> i64 {
        match self.below(4) {
            0 => i64::MAX - self.below(9) as i64,
            1 => i64::MIN,
            _ => self.below(7) as i64 - 3,
        }
    }

    /// Triplets within a shape.
    fn triplets(&mut self, rows: usize, cols: usize) -> (Vec<usize>, Vec<usize>, Vec<i64>) {
        let count = self.below(12);
        let i = (0..count).map(|_| self.below(rows)).collect();
        let j = (0..count).map(|_| self.below(cols)).collect();
        (i, j, (0..count).map(|_| self.value()).collect())
    }
}

/// The number modulo `m`, where 0 means 2^64, as an operation shows it.
fn shown(m: u64, z: i128) -> i64 {
    if m == 0 { z as i64 } else { z.rem_euclid(i128::from(m)) as i64 }
}

/// The product of numbers modulo `m`.
fn times(m: u64, x: i64, y: i64) -> i128 {
    i128::from(shown(m, i128::from(shown(m, i128::from(x))) * i128::from(shown(m, i128::from(y)))))
}

/// A value where there is an entry.
type Plain = Vec<Vec<Option<i64>>>;

fn plain(a: &Arrays) -> Plain {
    let mut p = vec![vec![None; a.cols]; a.rows];
    for i in 0..a.rows {
        for k in a.offsets[i]..a.offsets[i + 1] {
            p[i][a.indices[k]] = Some(a.values[k]);
        }
    }
    p
}

/// `alpha a + beta b`.
fn sum(m: u64, alpha: i64, a: &Plain, beta: i64, b: &Plain) -> Plain {
    let value = |x: Option<i64>, y: Option<i64>| {
        (x.is_some() || y.is_some()).then(|| shown(m, times(m, alpha, x.unwrap_or(0)) + times(m, beta, y.unwrap_or(0))))
    };
    a.iter().zip(b).map(|(r, s)| r.iter().zip(s).map(|(x, y)| value(*x, *y)).collect()).collect()
}

fn product(m: u64, a: &Plain, b: &Plain, cols: usize) -> Plain {
    let value = |row: &[Option<i64>], j: usize| {
        let terms: Vec<i128> = row.iter().zip(b).filter_map(|(x, s)| Some(times(m, (*x)?, s[j]?))).collect();
        (!terms.is_empty()).then(|| shown(m, terms.iter().sum()))
    };
    a.iter().map(|row| (0..cols).map(|j| value(row, j)).collect()).collect()
}

fn check(m: u64, random: &mut Random) -> Result<(), Error> {
    let (rows, inner, cols) = (random.below(4) + 1, random.below(4) + 1, random.below(4) + 1);
    let (i, j, v) = random.triplets(rows, inner);
    let (x, y, w) = random.triplets(rows, inner);
    let (s, t, u) = random.triplets(inner, cols);
    let a = if m == 0 { assemble_csr(rows, inner, &i, &j, &v)? } else { assemble_csr_mod(m, rows, inner, &i, &j, &v)? };
    let turned = if m == 0 { assemble_csc(inner, rows, &j, &i, &v)? } else { assemble_csc_mod(m, inner, rows, &j, &i, &v)? };
    assert_eq!((&a.offsets, &a.indices, &a.values), (&turned.offsets, &turned.indices, &turned.values));
    let mut want = vec![vec![None; inner]; rows];
    for k in 0..v.len() {
        want[i[k]][j[k]] = Some(shown(m, i128::from(want[i[k]][j[k]].unwrap_or(0)) + i128::from(shown(m, i128::from(v[k])))));
    }
    assert_eq!(plain(&a), want);
    // Operands that are not reduced.
    let (b, c) = (assemble_csr(rows, inner, &x, &y, &w)?, assemble_csr(inner, cols, &s, &t, &u)?);
    let (p, q) = (a.as_rows(), b.as_rows());
    let (alpha, beta) = (random.value(), random.value());
    let added = if m == 0 { add(p, q)? } else { add_mod(m, p, q)? };
    assert_eq!(plain(&added), sum(m, 1, &plain(&a), 1, &plain(&b)));
    let less = if m == 0 { subtract(p, q)? } else { subtract_mod(m, p, q)? };
    assert_eq!(plain(&less), sum(m, 1, &plain(&a), -1, &plain(&b)));
    let scaled = if m == 0 { add_scaled(alpha, p, beta, q)? } else { add_scaled_mod(m, alpha, p, beta, q)? };
    assert_eq!(plain(&scaled), sum(m, alpha, &plain(&a), beta, &plain(&b)));
    let made = if m == 0 { multiply(q, c.as_rows())? } else { multiply_mod(m, q, c.as_rows())? };
    assert_eq!(plain(&made), product(m, &plain(&b), &plain(&c), cols));
    let dense: Vec<i64> = (0..inner * 2).map(|_| random.value()).collect();
    let full = (0..inner).map(|k| vec![Some(dense[k]), Some(dense[inner + k])]).collect();
    let found = if m == 0 { multiply_dense(q, 2, &dense)? } else { multiply_dense_mod(m, q, 2, &dense)? };
    let want = product(m, &plain(&b), &full, 2);
    assert!((0..rows).all(|i| (0..2).all(|j| found[j * rows + i] == want[i][j].unwrap_or(0))));
    Ok(())
}

#[test]
fn each_ring_equals_plain_matrices() -> Result<(), Error> {
    let mut random = Random(0x9e37_79b9_7f4a_7c15);
    for _ in 0..1000 {
        for m in MODULI.into_iter().chain([0]) {
            check(m, &mut random)?;
        }
    }
    Ok(())
}

#[test]
fn a_solution_is_checked_in_its_ring() -> Result<(), Error> {
    let a = assemble_csc(2, 2, &[0, 1, 1], &[0, 0, 1], &[3, 1, -2])?;
    let x = solve_lower_mod(101, a.as_columns(), System::NotTransposed, 1, &[1, 5])?;
    let by_rows = assemble_csr(2, 2, &[0, 1, 1], &[0, 0, 1], &[3, 1, -2])?;
    assert_eq!(multiply_dense_mod(101, by_rows.as_rows(), 1, &x)?, [1, 5]);
    Ok(())
}

#[test]
fn errors_have_their_kinds() {
    let (offsets, falling, indices, values) = ([0, 1, 2], [0, 2, 1], [0, 1], [5, 8]);
    let sound = Rows::new((2, 2), (&offsets, &indices, &values));
    let wide = Rows::new((2, 3), (&offsets, &indices, &values));
    let bad = Rows::new((2, 2), (&falling, &indices, &values));
    for m in [0, 1, 4, 6, 65_536, u64::MAX] {
        let unknown = Error::UnknownModulus;
        assert_eq!(assemble_csr_mod(m, 2, 2, &[0], &[1], &[1]).err(), Some(unknown));
        assert_eq!(assemble_csc_mod(m, 2, 2, &[0], &[1], &[1]).err(), Some(unknown));
        assert_eq!(add_mod(m, sound, bad).err(), Some(unknown));
        assert_eq!(subtract_mod(m, sound, bad).err(), Some(unknown));
        assert_eq!(add_scaled_mod(m, 1, sound, 1, bad).err(), Some(unknown));
        assert_eq!(multiply_mod(m, sound, bad).err(), Some(unknown));
        assert_eq!(multiply_dense_mod(m, sound, 1, &[1, 2]).err(), Some(unknown));
    }
    assert_eq!(add_mod(7, sound, wide).err(), Some(Error::ShapeMismatch));
    assert_eq!(subtract_mod(7, sound, wide).err(), Some(Error::ShapeMismatch));
    assert_eq!(add_scaled_mod(7, 1, sound, 1, wide).err(), Some(Error::ShapeMismatch));
    assert_eq!(add_scaled(1, sound, 1, wide).err(), Some(Error::ShapeMismatch));
    assert_eq!(multiply_mod(7, wide, sound).err(), Some(Error::ShapeMismatch));
    assert_eq!(assemble_csr_mod(7, 2, 2, &[0, 1], &[1], &[1]).err(), Some(Error::InvalidStructure));
    assert_eq!(assemble_csc_mod(7, 2, 2, &[2], &[1], &[1]).err(), Some(Error::IndexOutOfBounds));
    assert_eq!(add_scaled_mod(7, 1, sound, 1, bad).err(), Some(Error::InvalidStructure));
    assert_eq!(multiply_dense_mod(7, sound, 1, &[1]).err(), Some(Error::InvalidStructure));
}
