//! Calls on symmetric matrices that test the symmetry.

use crate::systems::check_square;
use crate::{
    factor_symmetric, factor_symmetric_mod, solve_symmetric, solve_symmetric_mod, subtract, subtract_mod, transpose, Arrays,
    Columns, Error, Factorisation, Factors, Matrix, Order, Rows,
};

/// Returns the X of [`solve_symmetric`], for a matrix that is tested to be symmetric. The test computes its transpose
/// and a difference.
///
/// # Errors
///
/// Those of [`solve_symmetric`]; [`Error::NotSymmetric`] if the matrix is not its transpose.
///
/// # Examples
///
/// ```
/// use nalgebra_sparse_exact::{assemble_csc, solve_symmetric, solve_symmetric_checked, Error};
///
/// // 1 2 / 0 5: the plain call takes it for 1 2 / 2 5.
/// let a = assemble_csc(2, 2, &[0, 0, 1], &[0, 1, 1], &[1, 2, 5])?;
/// assert_eq!(solve_symmetric_checked(a.as_columns(), 1, &[5, 12]), Err(Error::NotSymmetric));
/// assert_eq!(solve_symmetric(a.as_columns(), 1, &[5, 12])?, [1, 2]);
/// # Ok::<(), nalgebra_sparse_exact::Error>(())
/// ```
pub fn solve_symmetric_checked(a: Columns<'_>, cols: usize, b: &[i64]) -> Result<Vec<i64>, Error> {
    require_symmetric(a, subtract)?;
    solve_symmetric(a, cols, b)
}

/// Returns the X of [`solve_symmetric_mod`], for a matrix that is tested to be symmetric modulo `modulus`.
///
/// # Errors
///
/// Those of [`solve_symmetric_mod`]; [`Error::NotSymmetric`] if the matrix is not its transpose modulo `modulus`.
pub fn solve_symmetric_mod_checked(modulus: u64, a: Columns<'_>, cols: usize, b: &[i64]) -> Result<Vec<i64>, Error> {
    require_symmetric(a, |a, b| subtract_mod(modulus, a, b))?;
    solve_symmetric_mod(modulus, a, cols, b)
}

/// Returns the factors of [`factor_symmetric`], of a matrix that is tested to be symmetric.
///
/// # Errors
///
/// Those of [`factor_symmetric`]; [`Error::NotSymmetric`] if the matrix is not its transpose.
pub fn factor_symmetric_checked(a: Columns<'_>) -> Result<Factors, Error> {
    require_symmetric(a, subtract)?;
    factor_symmetric(a)
}

/// Returns the factors of [`factor_symmetric_mod`], of a matrix that is tested to be symmetric modulo `modulus`.
///
/// # Errors
///
/// Those of [`factor_symmetric_mod`]; [`Error::NotSymmetric`] if the matrix is not its transpose modulo `modulus`.
pub fn factor_symmetric_mod_checked(modulus: u64, a: Columns<'_>) -> Result<Factors, Error> {
    require_symmetric(a, |a, b| subtract_mod(modulus, a, b))?;
    factor_symmetric_mod(modulus, a)
}

impl Matrix {
    /// Returns the factors of [`Matrix::factor`], for a matrix that is tested to be symmetric. The test computes its
    /// transpose and a difference.
    ///
    /// # Errors
    ///
    /// Those of [`Matrix::factor`]; [`Error::NotSymmetric`] if the matrix is not its transpose.
    pub fn factor_checked(&self) -> Result<Factorisation, Error> {
        self.factor_in_order_checked(Order::Natural)
    }

    /// Returns the factors of [`Matrix::factor_in_order`], for a matrix that is tested to be symmetric.
    ///
    /// # Errors
    ///
    /// Those of [`Matrix::factor_in_order`]; [`Error::NotSymmetric`] if the matrix is not its transpose.
    ///
    /// # Examples
    ///
    /// ```
    /// use nalgebra_sparse_exact::{Error, Matrix, Order};
    ///
    /// // 0 1 / 5 1 is not symmetric.
    /// let a = Matrix::from_triplets((2, 2), &[0, 1, 1], &[1, 0, 1], &[1, 5, 1])?;
    /// assert_eq!(a.factor_in_order_checked(Order::Given(&[1, 0])).err(), Some(Error::NotSymmetric));
    /// # Ok::<(), Error>(())
    /// ```
    pub fn factor_in_order_checked(&self, order: Order<'_>) -> Result<Factorisation, Error> {
        // If the matrix is not square, the shapes differ.
        require_zeros(&self.subtract(&self.transpose()?)?.to_arrays()?.values)?;
        self.factor_in_order(order)
    }
}

/// Tests that a square matrix is its transpose, by the difference of the two.
fn require_symmetric(
    a: Columns<'_>,
    difference: impl FnOnce(Rows<'_>, Rows<'_>) -> Result<Arrays, Error>,
) -> Result<(), Error> {
    check_square(a)?;
    // The arrays of the matrix by columns are those of its transpose by rows.
    let rows = a.transposed();
    require_zeros(&difference(rows, transpose(rows)?.as_rows())?.values)
}

/// Tests that a difference of a matrix and its transpose is 0.
pub(crate) fn require_zeros(values: &[i64]) -> Result<(), Error> {
    if values.iter().all(|&value| value == 0) {
        Ok(())
    } else {
        Err(Error::NotSymmetric)
    }
}
