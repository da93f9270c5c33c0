//! Systems and factors of symmetric matrices modulo a listed number that the library owns.

use crate::symmetric::require_zeros;
use crate::{factor_symmetric_mod, singular_column_mod, solve_symmetric_mod, Columns, Error, Factors, RingMatrix};

impl RingMatrix {
    /// Returns the X of [`solve_symmetric_mod`] for the symmetric matrix whose entries on and above the diagonal are
    /// those of this matrix, which is copied and transposed. B and X have `cols` columns. Entries below the diagonal have
    /// no effect: [`RingMatrix::solve_symmetric_checked`] tests that the matrix is symmetric.
    ///
    /// # Errors
    ///
    /// [`Error::OutOfMemory`]; [`Error::ShapeMismatch`] if the matrix is not square; [`Error::InvalidStructure`] if `b`
    /// has another number of values; [`Error::Singular`] if no factorisation exists.
    pub fn solve_symmetric(&self, cols: usize, b: &[i64]) -> Result<Vec<i64>, Error> {
        self.with_columns(|modulus, a| solve_symmetric_mod(modulus, a, cols, b))
    }

    /// Returns the exact factors of [`factor_symmetric_mod`] of that symmetric matrix. Entries below the diagonal have no
    /// effect: [`RingMatrix::factor_checked`] tests that the matrix is symmetric.
    ///
    /// # Errors
    ///
    /// [`Error::OutOfMemory`]; [`Error::ShapeMismatch`] if the matrix is not square; [`Error::Singular`] if no
    /// factorisation exists.
    pub fn factor(&self) -> Result<Factors, Error> {
        self.with_columns(factor_symmetric_mod)
    }

    /// Returns the X of [`RingMatrix::solve_symmetric`], for a matrix that is tested to be symmetric modulo its modulus.
    /// The test computes its transpose and a difference.
    ///
    /// # Errors
    ///
    /// Those of [`RingMatrix::solve_symmetric`]; [`Error::NotSymmetric`] if the matrix is not its transpose.
    pub fn solve_symmetric_checked(&self, cols: usize, b: &[i64]) -> Result<Vec<i64>, Error> {
        self.require_symmetric()?;
        self.solve_symmetric(cols, b)
    }

    /// Returns the factors of [`RingMatrix::factor`], of a matrix that is tested to be symmetric modulo its modulus.
    ///
    /// # Errors
    ///
    /// Those of [`RingMatrix::factor`]; [`Error::NotSymmetric`] if the matrix is not its transpose.
    ///
    /// # Examples
    ///
    /// ```
    /// use nalgebra_sparse_exact::{Error, RingMatrix};
    ///
    /// // 2 1 / 8 3 is symmetric modulo 7, and not modulo 11.
    /// let of = |modulus| RingMatrix::from_triplets(modulus, (2, 2), &[0, 0, 1, 1], &[0, 1, 0, 1], &[2, 1, 8, 3]);
    /// assert_eq!(of(7)?.factor_checked()?.d, [2, 6]);
    /// assert_eq!(of(11)?.factor_checked(), Err(Error::NotSymmetric));
    /// # Ok::<(), Error>(())
    /// ```
    pub fn factor_checked(&self) -> Result<Factors, Error> {
        self.require_symmetric()?;
        self.factor()
    }

    /// Returns the column at which that factorisation stops, or `None` if there are factors, as
    /// [`singular_column_mod`] does.
    ///
    /// # Errors
    ///
    /// [`Error::OutOfMemory`]; [`Error::ShapeMismatch`] if the matrix is not square.
    pub fn singular_column(&self) -> Result<Option<usize>, Error> {
        self.with_columns(singular_column_mod)
    }

    /// Returns the result of a call over the modulus and the arrays of the matrix by columns.
    fn with_columns<T>(&self, call: impl FnOnce(u64, Columns<'_>) -> Result<T, Error>) -> Result<T, Error> {
        // The arrays of the transpose by rows are those of the matrix by columns.
        let rows = self.transpose()?.to_arrays()?;
        call(self.modulus()?, rows.as_rows().transposed())
    }

    /// Tests that the matrix is its transpose.
    fn require_symmetric(&self) -> Result<(), Error> {
        // If the matrix is not square, the shapes differ.
        require_zeros(&self.subtract(&self.transpose()?)?.to_arrays()?.values)
    }
}
