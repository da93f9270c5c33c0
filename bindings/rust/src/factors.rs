//! The exact factorisation of a symmetric matrix.

use crate::error::answer;
use crate::room::{into_parts, zeros};
use crate::systems::{check_square, fill_places};
use crate::{calls, ColumnArrays, Columns, Error, Triangle};

/// The factors of a symmetric matrix, `A = L D L^T`.
#[derive(Clone, Debug, Default, PartialEq, Eq)]
#[non_exhaustive]
pub struct Factors {
    /// L, by columns. It has ones on its diagonal and zeros above it.
    pub l: ColumnArrays,
    /// The diagonal of D. Each value has an inverse.
    pub d: Vec<i64>,
}

/// Returns the factors of the symmetric matrix whose entries on and above the diagonal are those of a square matrix.
/// The pattern of L is that of [`fill`](crate::fill) with the upper triangle. Entries below the diagonal have no
/// effect: [`factor_symmetric_checked`](crate::factor_symmetric_checked) tests that the matrix is symmetric.
///
/// # Errors
///
/// [`Error::OutOfMemory`]; [`Error::InvalidStructure`], [`Error::IndexOutOfBounds`] or [`Error::DuplicateEntry`] for
/// the first fault of the arrays; [`Error::ShapeMismatch`] if the matrix is not square; [`Error::Singular`] if no
/// factorisation exists.
///
/// # Examples
///
/// ```
/// use nalgebra_sparse_exact::{assemble_csc, factor_symmetric};
///
/// // 1 2 / 2 7 is L D L^T with L = 1 . / 2 1 and D = 1, 3.
/// let a = assemble_csc(2, 2, &[0, 0, 1], &[0, 1, 1], &[1, 2, 7])?;
/// let factors = factor_symmetric(a.as_columns())?;
/// assert_eq!(factors.l.values, [1, 2, 1]);
/// assert_eq!(factors.d, [1, 3]);
/// # Ok::<(), nalgebra_sparse_exact::Error>(())
/// ```
pub fn factor_symmetric(a: Columns<'_>) -> Result<Factors, Error> {
    // SAFETY: each pointer is that of a slice, with the slice's length after it.
    into_factors(a, |o, x, v, d, places| unsafe {
        calls::nalgebra_sparse_factor_symmetric(
            a.rows,
            a.offsets.as_ptr(), a.offsets.len(), a.indices.as_ptr(), a.indices.len(), a.values.as_ptr(), a.values.len(),
            o.as_mut_ptr(), o.len(), x.as_mut_ptr(), x.len(), v.as_mut_ptr(), v.len(), d.as_mut_ptr(), d.len(), places,
        )
    })
}

/// Returns those factors modulo one of [`MODULI`](crate::MODULI).
///
/// # Errors
///
/// [`Error::UnknownModulus`]; otherwise those of [`factor_symmetric`].
pub fn factor_symmetric_mod(modulus: u64, a: Columns<'_>) -> Result<Factors, Error> {
    // SAFETY: each pointer is that of a slice, with the slice's length after it.
    into_factors(a, |o, x, v, d, places| unsafe {
        calls::nalgebra_sparse_factor_symmetric_mod(
            modulus, a.rows,
            a.offsets.as_ptr(), a.offsets.len(), a.indices.as_ptr(), a.indices.len(), a.values.as_ptr(), a.values.len(),
            o.as_mut_ptr(), o.len(), x.as_mut_ptr(), x.len(), v.as_mut_ptr(), v.len(), d.as_mut_ptr(), d.len(), places,
        )
    })
}

/// Returns the column at which the factorisation of that symmetric matrix stops, or `None` if it has factors: the first
/// rows and columns up to this one have factors, and together with it they have none, since its pivot has no inverse.
///
/// The column is found by bisection, with about log2(n) factorisations of n columns at most.
///
/// # Errors
///
/// Those of [`factor_symmetric`], but for [`Error::Singular`].
///
/// # Examples
///
/// ```
/// use nalgebra_sparse_exact::{assemble_csc, singular_column};
///
/// // 1 1 / 1 3: the second pivot is 3 - 1, which is even.
/// let a = assemble_csc(2, 2, &[0, 0, 1], &[0, 1, 1], &[1, 1, 3])?;
/// assert_eq!(singular_column(a.as_columns())?, Some(1));
/// # Ok::<(), nalgebra_sparse_exact::Error>(())
/// ```
pub fn singular_column(a: Columns<'_>) -> Result<Option<usize>, Error> {
    // SAFETY: each pointer is that of a slice, with the slice's length after it, or of a number.
    into_column(a, |column| unsafe {
        calls::nalgebra_sparse_factor_symmetric_pivot(
            a.rows,
            a.offsets.as_ptr(), a.offsets.len(), a.indices.as_ptr(), a.indices.len(), a.values.as_ptr(), a.values.len(),
            column,
        )
    })
}

/// Returns that column for the factorisation modulo one of [`MODULI`](crate::MODULI).
///
/// # Errors
///
/// [`Error::UnknownModulus`]; otherwise those of [`singular_column`].
pub fn singular_column_mod(modulus: u64, a: Columns<'_>) -> Result<Option<usize>, Error> {
    // SAFETY: each pointer is that of a slice, with the slice's length after it, or of a number.
    into_column(a, |column| unsafe {
        calls::nalgebra_sparse_factor_symmetric_pivot_mod(
            modulus, a.rows,
            a.offsets.as_ptr(), a.offsets.len(), a.indices.as_ptr(), a.indices.len(), a.values.as_ptr(), a.values.len(),
            column,
        )
    })
}

/// Makes a call that writes a column of a square matrix by columns, or the number of its columns.
fn into_column(a: Columns<'_>, call: impl FnOnce(&mut usize) -> i32) -> Result<Option<usize>, Error> {
    check_square(a)?;
    let mut column = 0;
    answer(call(&mut column))?;
    Ok((column < a.rows).then_some(column))
}

/// Makes a call with arrays for the factors of a square matrix by columns.
fn into_factors(
    a: Columns<'_>,
    mut call: impl FnMut(&mut [usize], &mut [usize], &mut [i64], &mut [i64], &mut usize) -> i32,
) -> Result<Factors, Error> {
    check_square(a)?;
    let room = fill_places(a.rows, Triangle::Upper, a.offsets, a.indices)?;
    let mut d = zeros(a.rows)?;
    let parts = into_parts(a.rows, room, |o, x, v, places| call(o, x, v, &mut d, places))?;
    Ok(Factors { l: ColumnArrays::new((a.rows, a.cols), parts), d })
}
