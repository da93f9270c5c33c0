//! Compares the calls with plain dense matrices in random cases, and tries each error.

// The names of matrices and indices, and small numbers that fit in any type.
#![allow(clippy::many_single_char_names, clippy::needless_range_loop)]
#![allow(clippy::cast_possible_truncation, clippy::cast_possible_wrap, clippy::cast_sign_loss)]

use nalgebra_sparse_exact::{
    add, assemble_csc, assemble_csr, divide, fill, multiply, multiply_dense, solve_lower, solve_symmetric, subtract, transpose, Arrays,
    ColumnArrays, Columns, Error, Rows, System, Triangle,
};

/// A generator of random numbers (xorshift).
struct Random(u64);

impl Random {
    fn next(&mut self) -> u64 {
        self.0 ^= self.0 << 13;
        self.0 ^= self.0 >> 7;
        self.0 ^= self.0 << 17;
        self.0
    }

    fn below(&mut self, bound: usize) -> usize {
        (self.next() % bound as u64) as usize
    }

    /// A small number, or one at the ends of the range.
    fn value(&mut self) -> i64 {
        match self.below(4) {
            0 => self.next() as i64,
            1 => i64::MIN,
            _ => self.below(7) as i64 - 3,
        }
    }
}

/// A plain matrix: the value at each place, or none.
#[derive(Clone, Debug, PartialEq)]
struct Plain {
    rows: usize,
    cols: usize,
    entries: Vec<Option<i64>>,
}

impl Plain {
    fn empty(rows: usize, cols: usize) -> Plain {
        Plain { rows, cols, entries: vec![None; rows * cols] }
    }

    fn at(&self, i: usize, j: usize) -> Option<i64> {
        self.entries[i * self.cols + j]
    }

    fn add(&mut self, i: usize, j: usize, value: i64) {
        let entry = &mut self.entries[i * self.cols + j];
        *entry = Some(entry.unwrap_or(0).wrapping_add(value));
    }

    fn arrays(&self) -> Arrays {
        let mut arrays = Arrays::new((self.rows, self.cols), (vec![0], vec![], vec![]));
        for i in 0..self.rows {
            for j in 0..self.cols {
                if let Some(value) = self.at(i, j) {
                    arrays.indices.push(j);
                    arrays.values.push(value);
                }
            }
            arrays.offsets.push(arrays.indices.len());
        }
        arrays
    }

    fn column_arrays(&self) -> ColumnArrays {
        ColumnArrays::new((self.rows, self.cols), self.transposed().arrays().into_parts())
    }

    fn transposed(&self) -> Plain {
        let mut turned = Plain::empty(self.cols, self.rows);
        for i in 0..self.rows {
            for j in 0..self.cols {
                turned.entries[j * self.rows + i] = self.at(i, j);
            }
        }
        turned
    }

    fn sum(&self, other: &Plain, sign: i64) -> Plain {
        let mut sum = self.clone();
        for i in 0..self.rows {
            for j in 0..self.cols {
                if let Some(value) = other.at(i, j) {
                    sum.add(i, j, value.wrapping_mul(sign));
                }
            }
        }
        sum
    }

    fn product(&self, other: &Plain) -> Plain {
        let mut product = Plain::empty(self.rows, other.cols);
        for i in 0..self.rows {
            for k in 0..self.cols {
                for j in 0..other.cols {
                    if let (Some(x), Some(y)) = (self.at(i, k), other.at(k, j)) {
                        product.add(i, j, x.wrapping_mul(y));
                    }
                }
            }
        }
        product
    }
}

/// Random triplets, and the plain matrix that they mean.
fn triplets(random: &mut Random, rows: usize, cols: usize) -> (Vec<usize>, Vec<usize>, Vec<i64>, Plain) {
    let (mut i, mut j, mut values, mut plain) = (vec![], vec![], vec![], Plain::empty(rows, cols));
    let count = if rows * cols == 0 { 0 } else { random.below(12) };
    for _ in 0..count {
        i.push(random.below(rows));
        j.push(random.below(cols));
        values.push(random.value());
        plain.add(i[i.len() - 1], j[j.len() - 1], values[values.len() - 1]);
    }
    (i, j, values, plain)
}

#[test]
fn random_cases_equal_plain_matrices() {
    let mut random = Random(0x9e37_79b9_7f4a_7c15);
    for _ in 0..1000 {
        let (n, m, k) = (random.below(6), random.below(6), random.below(6));
        let (i, j, values, a) = triplets(&mut random, n, m);
        let (_, _, _, b) = triplets(&mut random, n, m);
        let (_, _, _, c) = triplets(&mut random, m, k);
        let (x, y, z) = (a.arrays(), b.arrays(), c.arrays());
        assert_eq!(assemble_csr(n, m, &i, &j, &values), Ok(x.clone()));
        assert_eq!(assemble_csc(n, m, &i, &j, &values), Ok(a.column_arrays()));
        assert_eq!(transpose(x.as_rows()), Ok(a.transposed().arrays()));
        assert_eq!(a.column_arrays().as_columns().transposed(), a.transposed().arrays().as_rows());
        assert_eq!(x.as_rows().transposed(), a.transposed().column_arrays().as_columns());
        assert_eq!(add(x.as_rows(), y.as_rows()), Ok(a.sum(&b, 1).arrays()));
        assert_eq!(subtract(x.as_rows(), y.as_rows()), Ok(a.sum(&b, -1).arrays()));
        assert_eq!(multiply(x.as_rows(), z.as_rows()), Ok(a.product(&c).arrays()));
    }
}

/// The inverse of an odd number modulo 2^64, by Newton's steps.
fn inverse(odd: i64) -> i64 {
    (0..6).fold(odd, |x, _| x.wrapping_mul(2i64.wrapping_sub(odd.wrapping_mul(x))))
}

/// The plain product with a dense matrix, column by column.
fn times_dense(a: &Plain, cols: usize, b: &[i64]) -> Vec<i64> {
    let mut product = vec![0i64; a.rows * cols];
    for j in 0..cols {
        for i in 0..a.rows {
            for k in 0..a.cols {
                let term = a.at(i, k).unwrap_or(0).wrapping_mul(b[j * a.cols + k]);
                product[j * a.rows + i] = product[j * a.rows + i].wrapping_add(term);
            }
        }
    }
    product
}

/// A square matrix, most often with odd values on the diagonal.
fn square(random: &mut Random) -> Plain {
    let n = random.below(6);
    let (_, _, _, mut a) = triplets(random, n, n);
    for k in 0..n {
        if random.below(40) != 0 {
            a.entries[k * n + k] = Some(a.at(k, k).unwrap_or(0) | 1);
        }
    }
    a
}

/// The entries for which a test of row and column holds.
fn kept(a: &Plain, keep: impl Fn(usize, usize) -> bool) -> Plain {
    let mut part = a.clone();
    for i in 0..a.rows {
        for j in 0..a.cols {
            if !keep(i, j) {
                part.entries[i * a.cols + j] = None;
            }
        }
    }
    part
}

/// Says whether each pivot of the elimination is odd.
fn has_factors(symmetric: &Plain) -> bool {
    let n = symmetric.rows;
    let mut s: Vec<i64> = symmetric.entries.iter().map(|entry| entry.unwrap_or(0)).collect();
    for k in 0..n {
        if s[k * n + k] % 2 == 0 {
            return false;
        }
        for i in k + 1..n {
            for j in k + 1..n {
                let change = s[i * n + k].wrapping_mul(inverse(s[k * n + k])).wrapping_mul(s[k * n + j]);
                s[i * n + j] = s[i * n + j].wrapping_sub(change);
            }
        }
    }
    true
}

#[test]
fn dense_products_quotients_and_solves_equal_plain_ones() {
    let mut random = Random(0x2545_f491_4f6c_dd1d);
    for _ in 0..1000 {
        let (n, m, cols) = (random.below(6), random.below(6), random.below(4));
        let (_, _, _, a) = triplets(&mut random, n, m);
        let x = a.arrays();
        let b: Vec<i64> = (0..m * cols).map(|_| random.value()).collect();
        assert_eq!(multiply_dense(x.as_rows(), cols, &b), Ok(times_dense(&a, cols, &b)));
        let divisor = random.value() | 1;
        let values = x.values.iter().map(|value| value.wrapping_mul(inverse(divisor))).collect();
        assert_eq!(divide(x.as_rows(), divisor), Ok(Arrays::new(x.shape(), (x.offsets.clone(), x.indices.clone(), values))));

        let a = square(&mut random);
        let columns = a.column_arrays();
        let b: Vec<i64> = (0..a.rows * cols).map(|_| random.value()).collect();
        let lower = kept(&a, |i, j| j <= i);
        let pivots = (0..a.rows).all(|k| a.at(k, k).is_some_and(|value| value % 2 != 0));
        for (system, part) in [(System::NotTransposed, lower.clone()), (System::Transposed, lower.transposed())] {
            match solve_lower(columns.as_columns(), system, cols, &b) {
                Ok(solution) => assert_eq!(times_dense(&part, cols, &solution), b),
                Err(error) => assert!(error == Error::Singular && cols > 0 && !pivots),
            }
        }
        let upper = kept(&a, |i, j| i <= j);
        let symmetric = upper.sum(&kept(&upper, |i, j| i < j).transposed(), 1);
        match solve_symmetric(columns.as_columns(), cols, &b) {
            Ok(solution) => assert_eq!(times_dense(&symmetric, cols, &solution), b),
            Err(error) => assert!(error == Error::Singular && !has_factors(&symmetric)),
        }
    }
}

#[test]
fn fills_equal_those_of_the_definition() {
    let mut random = Random(0x1234_5678_9abc_def1);
    for _ in 0..1000 {
        let a = square(&mut random);
        let columns = a.column_arrays();
        for triangle in [Triangle::Upper, Triangle::Lower, Triangle::Both] {
            let mut base = Plain::empty(a.rows, a.rows);
            for i in 0..a.rows {
                for j in 0..=i {
                    let upper = triangle != Triangle::Lower && a.at(j, i).is_some();
                    let lower = triangle != Triangle::Upper && a.at(i, j).is_some();
                    if upper || lower {
                        base.add(i, j, 0);
                    }
                }
            }
            for k in 0..a.rows {
                for i in k + 1..a.rows {
                    for j in k + 1..=i {
                        if base.at(i, k).is_some() && base.at(j, k).is_some() {
                            base.add(i, j, 0);
                        }
                    }
                }
            }
            let want = base.transposed().arrays();
            assert_eq!(fill(a.rows, triangle, &columns.offsets, &columns.indices), Ok((want.offsets, want.indices)));
        }
    }
}

#[test]
fn each_fault_is_an_error() {
    let rows = |offsets, indices, values| Rows { rows: 2, cols: 3, offsets, indices, values };
    let sound = rows(&[0, 1, 2], &[0, 2], &[5, 6]);
    let faulty = [
        (rows(&[0, 1], &[0], &[5]), Error::InvalidStructure),
        (rows(&[0, 2, 1], &[0], &[5]), Error::InvalidStructure),
        (rows(&[0, 1, 2], &[0, 2], &[5]), Error::InvalidStructure),
        (rows(&[0, 2, 2], &[2, 0], &[5, 6]), Error::InvalidStructure),
        (rows(&[0, 1, 2], &[0, 3], &[5, 6]), Error::IndexOutOfBounds),
        (rows(&[0, 2, 2], &[1, 1], &[5, 6]), Error::DuplicateEntry),
    ];
    for (faulty, error) in faulty {
        assert_eq!(transpose(faulty), Err(error));
        assert_eq!(add(faulty, sound), Err(error));
        assert_eq!(add(sound, faulty), Err(error));
        assert_eq!(subtract(sound, faulty), Err(error));
        // The product reads the patterns first, and the number of values after them.
        assert_eq!(multiply(faulty, Rows { rows: 3, cols: 1, offsets: &[0, 0, 0, 0], indices: &[], values: &[] }), Err(error));
    }
    let square = |indices, values| Columns { rows: 2, cols: 2, offsets: &[0, 1, 2], indices, values };
    let wide = Columns { cols: 3, ..square(&[0, 1], &[5, 7]) };
    let (odd, even, out) = (square(&[0, 1], &[5, 7]), square(&[0, 1], &[5, 6]), square(&[0, 2], &[5, 7]));
    assert_eq!(multiply_dense(sound, 1, &[1, 2]), Err(Error::InvalidStructure));
    assert_eq!(multiply_dense(out.transposed(), 1, &[1, 2]), Err(Error::IndexOutOfBounds));
    assert_eq!(divide(odd.transposed(), 2), Err(Error::Singular));
    assert_eq!(divide(out.transposed(), 3), Err(Error::IndexOutOfBounds));
    assert_eq!(solve_lower(even, System::NotTransposed, 1, &[1, 2]), Err(Error::Singular));
    assert_eq!(solve_lower(out, System::NotTransposed, 1, &[1, 2]), Err(Error::IndexOutOfBounds));
    assert_eq!(solve_lower(odd, System::Transposed, 2, &[1, 2]), Err(Error::InvalidStructure));
    assert_eq!(solve_lower(wide, System::NotTransposed, 1, &[1, 2]), Err(Error::ShapeMismatch));
    assert_eq!(solve_symmetric(even, 1, &[1, 2]), Err(Error::Singular));
    assert_eq!(solve_symmetric(out, 1, &[1, 2]), Err(Error::IndexOutOfBounds));
    assert_eq!(solve_symmetric(odd, 2, &[1, 2]), Err(Error::InvalidStructure));
    assert_eq!(solve_symmetric(wide, 1, &[1, 2]), Err(Error::ShapeMismatch));
    assert_eq!(fill(2, Triangle::Both, &[0, 1, 2], &[0, 2]), Err(Error::IndexOutOfBounds));
    assert_eq!(multiply(sound, sound), Err(Error::ShapeMismatch));
    assert_eq!(add(sound, Rows { cols: 4, ..sound }), Err(Error::ShapeMismatch));
    assert_eq!(assemble_csr(2, 2, &[0, 1], &[0], &[7]), Err(Error::InvalidStructure));
    assert_eq!(assemble_csr(2, 2, &[2], &[0], &[7]), Err(Error::IndexOutOfBounds));
    assert_eq!(assemble_csc(2, 2, &[0], &[2], &[7]), Err(Error::IndexOutOfBounds));
    assert_eq!(assemble_csr(usize::MAX, 2, &[], &[], &[]), Err(Error::OutOfMemory));
}
