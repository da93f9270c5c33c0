//! Solves with matrices that the library owns, and their factors.

use std::fmt;

use crate::calls::FactorHandle;
use crate::error::answer;
use crate::room::{into_parts, zeros};
use crate::shared::Shared;
use crate::{calls, ColumnArrays, Error, Factors, Matrix, System};

impl Matrix {
    /// Replaces B by the X for which `L X = B` or `L^T X = B`, where L is the lower triangle of the matrix, with the
    /// diagonal. B and X have `cols` columns and are stored column by column. The call copies B and the matrix.
    ///
    /// # Errors
    ///
    /// [`Error::OutOfMemory`]; [`Error::ShapeMismatch`] if the matrix is not square; [`Error::InvalidStructure`] if B
    /// has another number of values; [`Error::Singular`] if there is a column to solve for, and some diagonal
    /// entry is missing or even. On an error `values` is unchanged.
    ///
    /// # Examples
    ///
    /// ```
    /// use nalgebra_sparse_exact::{Matrix, System};
    ///
    /// let l = Matrix::from_triplets((2, 2), &[0, 1, 1], &[0, 0, 1], &[1, 2, 3])?;
    /// let mut x = [5, 16];
    /// l.solve_lower_mut(System::NotTransposed, 1, &mut x)?;
    /// assert_eq!(x, [5, 2]);
    /// # Ok::<(), nalgebra_sparse_exact::Error>(())
    /// ```
    pub fn solve_lower_mut(&self, system: System, cols: usize, values: &mut [i64]) -> Result<(), Error> {
        let (transposed, count, mut own) = (system == System::Transposed, values.len(), self.handle.second()?);
        // SAFETY: the pointer is that of a slice, with the slice's length after it, and no other call uses the handle.
        answer(unsafe {
            calls::nalgebra_sparse_matrix_solve_lower(own.pointer(), transposed, cols, values.as_mut_ptr(), count)
        })
    }

    /// Replaces B by the X for which `U X = B` or `U^T X = B`, where U is the upper triangle of the matrix, with the
    /// diagonal.
    ///
    /// # Errors
    ///
    /// Those of [`Matrix::solve_lower_mut`].
    ///
    /// # Examples
    ///
    /// ```
    /// use nalgebra_sparse_exact::{Matrix, System};
    ///
    /// let u = Matrix::from_triplets((2, 2), &[0, 0, 1], &[0, 1, 1], &[1, 4, 3])?;
    /// let mut x = [13, 6];
    /// u.solve_upper_mut(System::NotTransposed, 1, &mut x)?;
    /// assert_eq!(x, [5, 2]);
    /// # Ok::<(), nalgebra_sparse_exact::Error>(())
    /// ```
    pub fn solve_upper_mut(&self, system: System, cols: usize, values: &mut [i64]) -> Result<(), Error> {
        let (transposed, count, mut own) = (system == System::Transposed, values.len(), self.handle.second()?);
        // SAFETY: the pointer is that of a slice, with the slice's length after it, and no other call uses the handle.
        answer(unsafe {
            calls::nalgebra_sparse_matrix_solve_upper(own.pointer(), transposed, cols, values.as_mut_ptr(), count)
        })
    }

    /// Returns the exact factors `L D L^T` of the symmetric matrix whose entries on and above the diagonal are those of
    /// this matrix, which is copied. Entries below the diagonal have no effect: [`Matrix::factor_checked`] tests that
    /// the matrix is symmetric.
    ///
    /// # Errors
    ///
    /// [`Error::OutOfMemory`]; [`Error::ShapeMismatch`] if the matrix is not square; [`Error::Singular`] if no
    /// factorisation exists.
    pub fn factor(&self) -> Result<Factorisation, Error> {
        let mut own = self.handle.second()?;
        // SAFETY: the handles are different, and no other call uses them.
        Ok(Factorisation { handle: Shared::made(|out| unsafe { calls::nalgebra_sparse_matrix_factor(own.pointer(), out) })? })
    }
}

/// The exact factors `L D L^T` of a symmetric matrix A over the integers modulo 2^64, which the library owns. Those of
/// [`Matrix::factor_in_order`] are the factors of `P A P^T`, with the permutation P.
///
/// Clones share the factors. Several threads may solve with them at the same time.
///
/// ```
/// use nalgebra_sparse_exact::Matrix;
///
/// // 1 2 / 2 7 times (1, 1) is (3, 9), and times (0, 1) it is (2, 7).
/// let factors = Matrix::from_triplets((2, 2), &[0, 0, 1], &[0, 1, 1], &[1, 2, 7])?.factor()?;
/// let mut x = [3, 9, 2, 7];
/// factors.solve_mut(2, &mut x)?;
/// assert_eq!(x, [1, 1, 0, 1]);
/// # Ok::<(), nalgebra_sparse_exact::Error>(())
/// ```
pub struct Factorisation {
    // It is never empty.
    pub(crate) handle: Shared<FactorHandle>,
}

impl Factorisation {
    /// Replaces B by the X for which `A X = B`, in whichever order A was factored. B and X have `cols` columns and are
    /// stored column by column.
    ///
    /// # Errors
    ///
    /// [`Error::OutOfMemory`]; [`Error::InvalidStructure`] if B has another number of values. On an error
    /// `values` is unchanged.
    pub fn solve_mut(&self, cols: usize, values: &mut [i64]) -> Result<(), Error> {
        let mut own = self.handle.second()?;
        // SAFETY: the pointer is that of a slice, with the slice's length after it, and no other call uses the handle.
        answer(unsafe {
            calls::nalgebra_sparse_factors_solve(own.pointer(), cols, values.as_mut_ptr(), values.len())
        })
    }

    /// Returns a copy of the factors.
    ///
    /// # Errors
    ///
    /// [`Error::OutOfMemory`].
    ///
    /// # Examples
    ///
    /// ```
    /// use nalgebra_sparse_exact::Matrix;
    ///
    /// let factors = Matrix::from_triplets((2, 2), &[0, 0, 1], &[0, 1, 1], &[1, 2, 7])?.factor()?.to_factors()?;
    /// assert_eq!(factors.l.values, [1, 2, 1]);
    /// assert_eq!(factors.d, [1, 3]);
    /// # Ok::<(), nalgebra_sparse_exact::Error>(())
    /// ```
    pub fn to_factors(&self) -> Result<Factors, Error> {
        let (mut size, mut places, mut own) = (0, 0, self.handle.second()?);
        // SAFETY: the pointers are those of two numbers, and no other call uses the handle.
        answer(unsafe { calls::nalgebra_sparse_factors_sizes(own.pointer(), &mut size, &mut places) })?;
        let mut d = zeros(size)?;
        let parts = into_parts(size, places, |o, x, v, count| {
            // SAFETY: each pointer is that of a slice, with the slice's length after it, and no other call uses the
            // handle.
            unsafe {
                calls::nalgebra_sparse_factors_read(
                    own.pointer(), o.as_mut_ptr(), o.len(), x.as_mut_ptr(), x.len(), v.as_mut_ptr(), v.len(),
                    d.as_mut_ptr(), d.len(), count,
                )
            }
        })?;
        Ok(Factors { l: ColumnArrays::new((size, size), parts), d })
    }

    /// Returns a second handle of the factors. No array is copied.
    ///
    /// # Errors
    ///
    /// [`Error::OutOfMemory`].
    pub fn try_clone(&self) -> Result<Factorisation, Error> {
        Ok(Factorisation { handle: self.handle.try_clone()? })
    }
}

/// Returns a second handle of the factors. No array is copied.
///
/// # Panics
///
/// Panics if an allocation fails; [`Factorisation::try_clone`] returns an error instead.
impl Clone for Factorisation {
    fn clone(&self) -> Self {
        self.try_clone().expect("an allocation failed")
    }
}

impl fmt::Debug for Factorisation {
    fn fmt(&self, f: &mut fmt::Formatter<'_>) -> fmt::Result {
        f.debug_struct("Factorisation").finish_non_exhaustive()
    }
}
