//! Assembly, sums, products, division and solves modulo a number that is given at run time.
//!
//! An integer of an operand means its residue, also where it is negative, and the values of a result are from 0 to
//! `modulus - 1`.

use crate::operations::product_room;
use crate::room::{into_parts, into_values};
use crate::systems::check_square;
use crate::{calls, Arrays, ColumnArrays, Columns, Error, Rows, System};

/// The moduli of the library. Each is a prime.
pub const MODULI: [u64; 11] = [2, 3, 5, 7, 11, 13, 101, 65_537, 998_244_353, 1_000_000_007, 2_305_843_009_213_693_951];

/// Returns the matrix of triplets by rows of [`assemble_csr`](crate::assemble_csr), modulo one of [`MODULI`].
///
/// # Errors
///
/// [`Error::UnknownModulus`]; otherwise as [`assemble_csr`](crate::assemble_csr).
pub fn assemble_csr_mod(
    modulus: u64, rows: usize, cols: usize, i: &[usize], j: &[usize], values: &[i64],
) -> Result<Arrays, Error> {
    // SAFETY: each pointer is that of a slice, with the slice's length after it.
    let parts = into_parts(rows, values.len(), |o, x, v, places| unsafe {
        calls::nalgebra_sparse_assemble_csr_mod(
            modulus, rows, cols, i.as_ptr(), i.len(), j.as_ptr(), j.len(), values.as_ptr(), values.len(),
            o.as_mut_ptr(), o.len(), x.as_mut_ptr(), x.len(), v.as_mut_ptr(), v.len(), places,
        )
    })?;
    Ok(Arrays::new((rows, cols), parts))
}

/// Returns the matrix of triplets by columns of [`assemble_csc`](crate::assemble_csc), modulo one of [`MODULI`].
///
/// # Errors
///
/// [`Error::UnknownModulus`]; otherwise as [`assemble_csc`](crate::assemble_csc).
pub fn assemble_csc_mod(
    modulus: u64, rows: usize, cols: usize, i: &[usize], j: &[usize], values: &[i64],
) -> Result<ColumnArrays, Error> {
    // SAFETY: each pointer is that of a slice, with the slice's length after it.
    let parts = into_parts(cols, values.len(), |o, x, v, places| unsafe {
        calls::nalgebra_sparse_assemble_csc_mod(
            modulus, rows, cols, i.as_ptr(), i.len(), j.as_ptr(), j.len(), values.as_ptr(), values.len(),
            o.as_mut_ptr(), o.len(), x.as_mut_ptr(), x.len(), v.as_mut_ptr(), v.len(), places,
        )
    })?;
    Ok(ColumnArrays::new((rows, cols), parts))
}

/// Returns the sum of [`add`](crate::add), modulo one of [`MODULI`].
///
/// # Errors
///
/// [`Error::UnknownModulus`]; otherwise as [`add`](crate::add).
pub fn add_mod(modulus: u64, a: Rows<'_>, b: Rows<'_>) -> Result<Arrays, Error> {
    if (a.rows, a.cols) != (b.rows, b.cols) {
        return Err(Error::ShapeMismatch);
    }
    // SAFETY: each pointer is that of a slice, with the slice's length after it.
    let parts = into_parts(a.rows, a.values.len().saturating_add(b.values.len()), |o, x, v, places| unsafe {
        calls::nalgebra_sparse_add_mod(
            modulus, a.rows, a.cols,
            a.offsets.as_ptr(), a.offsets.len(), a.indices.as_ptr(), a.indices.len(), a.values.as_ptr(), a.values.len(),
            b.offsets.as_ptr(), b.offsets.len(), b.indices.as_ptr(), b.indices.len(), b.values.as_ptr(), b.values.len(),
            o.as_mut_ptr(), o.len(), x.as_mut_ptr(), x.len(), v.as_mut_ptr(), v.len(), places,
        )
    })?;
    Ok(Arrays::new((a.rows, a.cols), parts))
}

/// Returns the difference of [`subtract`](crate::subtract), modulo one of [`MODULI`].
///
/// # Errors
///
/// [`Error::UnknownModulus`]; otherwise as [`subtract`](crate::subtract).
pub fn subtract_mod(modulus: u64, a: Rows<'_>, b: Rows<'_>) -> Result<Arrays, Error> {
    if (a.rows, a.cols) != (b.rows, b.cols) {
        return Err(Error::ShapeMismatch);
    }
    // SAFETY: each pointer is that of a slice, with the slice's length after it.
    let parts = into_parts(a.rows, a.values.len().saturating_add(b.values.len()), |o, x, v, places| unsafe {
        calls::nalgebra_sparse_subtract_mod(
            modulus, a.rows, a.cols,
            a.offsets.as_ptr(), a.offsets.len(), a.indices.as_ptr(), a.indices.len(), a.values.as_ptr(), a.values.len(),
            b.offsets.as_ptr(), b.offsets.len(), b.indices.as_ptr(), b.indices.len(), b.values.as_ptr(), b.values.len(),
            o.as_mut_ptr(), o.len(), x.as_mut_ptr(), x.len(), v.as_mut_ptr(), v.len(), places,
        )
    })?;
    Ok(Arrays::new((a.rows, a.cols), parts))
}

/// Returns the sum of multiples of [`add_scaled`](crate::add_scaled), modulo one of [`MODULI`].
///
/// # Errors
///
/// [`Error::UnknownModulus`]; otherwise as [`add_scaled`](crate::add_scaled).
pub fn add_scaled_mod(modulus: u64, alpha: i64, a: Rows<'_>, beta: i64, b: Rows<'_>) -> Result<Arrays, Error> {
    if (a.rows, a.cols) != (b.rows, b.cols) {
        return Err(Error::ShapeMismatch);
    }
    // SAFETY: each pointer is that of a slice, with the slice's length after it.
    let parts = into_parts(a.rows, a.values.len().saturating_add(b.values.len()), |o, x, v, places| unsafe {
        calls::nalgebra_sparse_add_scaled_mod(
            modulus, a.rows, a.cols,
            alpha,
            a.offsets.as_ptr(), a.offsets.len(), a.indices.as_ptr(), a.indices.len(), a.values.as_ptr(), a.values.len(),
            beta,
            b.offsets.as_ptr(), b.offsets.len(), b.indices.as_ptr(), b.indices.len(), b.values.as_ptr(), b.values.len(),
            o.as_mut_ptr(), o.len(), x.as_mut_ptr(), x.len(), v.as_mut_ptr(), v.len(), places,
        )
    })?;
    Ok(Arrays::new((a.rows, a.cols), parts))
}

/// Returns the product of [`multiply`](crate::multiply), modulo one of [`MODULI`]. It has the same pattern.
///
/// # Errors
///
/// [`Error::UnknownModulus`]; otherwise as [`multiply`](crate::multiply).
///
/// # Examples
///
/// ```
/// use nalgebra_sparse_exact::{assemble_csr, multiply_mod};
///
/// let a = assemble_csr(1, 2, &[0, 0], &[0, 1], &[2, 3])?;
/// let b = assemble_csr(2, 1, &[0, 1], &[0, 0], &[5, 7])?;
/// assert_eq!(multiply_mod(7, a.as_rows(), b.as_rows())?.values, [3]);
/// # Ok::<(), nalgebra_sparse_exact::Error>(())
/// ```
pub fn multiply_mod(modulus: u64, a: Rows<'_>, b: Rows<'_>) -> Result<Arrays, Error> {
    if a.cols != b.rows {
        return Err(Error::ShapeMismatch);
    }
    // SAFETY: each pointer is that of a slice, with the slice's length after it.
    let parts = into_parts(a.rows, product_room(a, b), |o, x, v, places| unsafe {
        calls::nalgebra_sparse_multiply_mod(
            modulus, a.rows, a.cols, b.cols,
            a.offsets.as_ptr(), a.offsets.len(), a.indices.as_ptr(), a.indices.len(), a.values.as_ptr(), a.values.len(),
            b.offsets.as_ptr(), b.offsets.len(), b.indices.as_ptr(), b.indices.len(), b.values.as_ptr(), b.values.len(),
            o.as_mut_ptr(), o.len(), x.as_mut_ptr(), x.len(), v.as_mut_ptr(), v.len(), places,
        )
    })?;
    Ok(Arrays::new((a.rows, b.cols), parts))
}

/// Returns the dense product of [`multiply_dense`](crate::multiply_dense), modulo one of [`MODULI`].
///
/// # Errors
///
/// [`Error::UnknownModulus`]; otherwise as [`multiply_dense`](crate::multiply_dense).
pub fn multiply_dense_mod(modulus: u64, a: Rows<'_>, cols: usize, b: &[i64]) -> Result<Vec<i64>, Error> {
    // SAFETY: each pointer is that of a slice, with the slice's length after it.
    into_values(a.rows, cols, |v| unsafe {
        calls::nalgebra_sparse_multiply_dense_mod(
            modulus, a.rows, a.cols, cols,
            a.offsets.as_ptr(), a.offsets.len(), a.indices.as_ptr(), a.indices.len(), a.values.as_ptr(), a.values.len(),
            b.as_ptr(), b.len(), v.as_mut_ptr(), v.len(),
        )
    })
}

/// Returns a matrix by rows with each value times the inverse of the divisor, modulo one of [`MODULI`]. An integer
/// means its residue, and the values of the result are from 0 to `modulus - 1`.
///
/// # Errors
///
/// [`Error::UnknownModulus`]; otherwise as [`divide`](crate::divide), and [`Error::Singular`] if the divisor is a
/// multiple of the modulus.
pub fn divide_mod(modulus: u64, a: Rows<'_>, divisor: i64) -> Result<Arrays, Error> {
    // SAFETY: each pointer is that of a slice, with the slice's length after it.
    let parts = into_parts(a.rows, a.values.len(), |o, x, v, places| unsafe {
        calls::nalgebra_sparse_divide_mod(
            modulus, a.rows, a.cols,
            a.offsets.as_ptr(), a.offsets.len(), a.indices.as_ptr(), a.indices.len(), a.values.as_ptr(), a.values.len(),
            divisor, o.as_mut_ptr(), o.len(), x.as_mut_ptr(), x.len(), v.as_mut_ptr(), v.len(), places,
        )
    })?;
    Ok(Arrays::new((a.rows, a.cols), parts))
}

/// Returns the X of [`solve_lower`](crate::solve_lower), modulo one of [`MODULI`].
///
/// # Errors
///
/// [`Error::UnknownModulus`]; otherwise as [`solve_lower`](crate::solve_lower), and [`Error::Singular`] if there is a
/// column to solve for, and some entry of the diagonal is not stored or is a multiple of the modulus.
pub fn solve_lower_mod(modulus: u64, a: Columns<'_>, system: System, cols: usize, b: &[i64]) -> Result<Vec<i64>, Error> {
    check_square(a)?;
    // SAFETY: each pointer is that of a slice, with the slice's length after it.
    into_values(a.rows, cols, |v| unsafe {
        calls::nalgebra_sparse_solve_lower_mod(
            modulus, a.rows, cols,
            a.offsets.as_ptr(), a.offsets.len(), a.indices.as_ptr(), a.indices.len(), a.values.as_ptr(), a.values.len(),
            system == System::Transposed, b.as_ptr(), b.len(), v.as_mut_ptr(), v.len(),
        )
    })
}

/// Returns the X of [`solve_symmetric`](crate::solve_symmetric), modulo one of [`MODULI`].
///
/// # Errors
///
/// [`Error::UnknownModulus`]; otherwise as [`solve_symmetric`](crate::solve_symmetric).
///
/// # Examples
///
/// ```
/// use nalgebra_sparse_exact::{assemble_csc, solve_symmetric_mod};
///
/// // 2 1 / 1 3 times (1, 6) is (8, 19), which is (1, 5) modulo 7.
/// let a = assemble_csc(2, 2, &[0, 0, 1], &[0, 1, 1], &[2, 1, 3])?;
/// assert_eq!(solve_symmetric_mod(7, a.as_columns(), 1, &[8, 19])?, [1, 6]);
/// # Ok::<(), nalgebra_sparse_exact::Error>(())
/// ```
pub fn solve_symmetric_mod(modulus: u64, a: Columns<'_>, cols: usize, b: &[i64]) -> Result<Vec<i64>, Error> {
    check_square(a)?;
    // SAFETY: each pointer is that of a slice, with the slice's length after it.
    into_values(a.rows, cols, |v| unsafe {
        calls::nalgebra_sparse_solve_symmetric_mod(
            modulus, a.rows, cols,
            a.offsets.as_ptr(), a.offsets.len(), a.indices.as_ptr(), a.indices.len(), a.values.as_ptr(), a.values.len(),
            b.as_ptr(), b.len(), v.as_mut_ptr(), v.len(),
        )
    })
}
