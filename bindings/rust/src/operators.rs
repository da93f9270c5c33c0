//! Operators between borrowed matrices. They panic where the methods return an error.

use std::ops::{Add, Mul, Neg, Sub};

use crate::{Error, Matrix};

/// Returns the matrix of a method, or panics with its error and the shapes of the operands.
fn expect(result: Result<Matrix, Error>, a: &Matrix, b: &Matrix) -> Matrix {
    result.unwrap_or_else(|error| panic!("{error}: {a:?}, {b:?}"))
}

/// Returns the sum, on the union of the patterns.
///
/// # Panics
///
/// Panics if the shapes differ, or an allocation fails; [`Matrix::add`] returns an error instead.
///
/// ```
/// use nalgebra_sparse_exact::Matrix;
///
/// let a = Matrix::from_triplets((2, 2), &[0, 0, 1], &[0, 1, 1], &[1, 2, 3])?;
/// let b = &(&(&a * &a) - &a) + &-&a;
/// assert_eq!(b.to_arrays()?.into_parts(), (vec![0, 2, 3], vec![0, 1, 1], vec![-1, 4, 3]));
/// # Ok::<(), nalgebra_sparse_exact::Error>(())
/// ```
impl Add for &Matrix {
    type Output = Matrix;

    fn add(self, b: &Matrix) -> Matrix {
        expect(Matrix::add(self, b), self, b)
    }
}

/// Returns the difference, on the union of the patterns.
///
/// # Panics
///
/// Panics if the shapes differ, or an allocation fails; [`Matrix::subtract`] returns an error instead.
impl Sub for &Matrix {
    type Output = Matrix;

    fn sub(self, b: &Matrix) -> Matrix {
        expect(self.subtract(b), self, b)
    }
}

/// Returns the product of two matrices.
///
/// # Panics
///
/// Panics if the inner sizes differ, or an allocation fails; [`Matrix::multiply`] returns an error instead.
impl Mul for &Matrix {
    type Output = Matrix;

    fn mul(self, b: &Matrix) -> Matrix {
        expect(self.multiply(b), self, b)
    }
}

/// Returns the matrix with each value negated, with the same pattern.
///
/// # Panics
///
/// Panics if an allocation fails; [`Matrix::scale`] returns an error instead.
impl Neg for &Matrix {
    type Output = Matrix;

    fn neg(self) -> Matrix {
        expect(self.scale(-1), self, self)
    }
}
