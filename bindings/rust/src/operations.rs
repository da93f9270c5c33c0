//! Assembly, transposes, sums, products and division.

use crate::room::{into_parts, into_values};
use crate::{calls, Arrays, ColumnArrays, Error, Rows};

/// Returns the matrix of triplets by rows. Values with the same row and column are added, and an entry is kept if its
/// sum is 0.
///
/// The lists have the row, the column and the value of each triplet.
///
/// # Errors
///
/// [`Error::OutOfMemory`]; [`Error::InvalidStructure`] if the lists have different lengths;
/// [`Error::IndexOutOfBounds`].
///
/// # Examples
///
/// ```
/// let a = nalgebra_sparse_exact::assemble_csr(2, 3, &[0, 1, 0], &[1, 2, 1], &[4, 7, -1])?;
/// assert_eq!(a.into_parts(), (vec![0, 1, 2], vec![1, 2], vec![3, 7]));
/// # Ok::<(), nalgebra_sparse_exact::Error>(())
/// ```
pub fn assemble_csr(rows: usize, cols: usize, i: &[usize], j: &[usize], values: &[i64]) -> Result<Arrays, Error> {
    // SAFETY: each pointer is that of a slice, with the slice's length after it.
    let parts = into_parts(rows, values.len(), |o, x, v, places| unsafe {
        calls::nalgebra_sparse_assemble_csr(
            rows, cols, i.as_ptr(), i.len(), j.as_ptr(), j.len(), values.as_ptr(), values.len(),
            o.as_mut_ptr(), o.len(), x.as_mut_ptr(), x.len(), v.as_mut_ptr(), v.len(), places,
        )
    })?;
    Ok(Arrays::new((rows, cols), parts))
}

/// Returns the matrix of triplets by columns. Values with the same row and column are added, and an entry is kept if
/// its sum is 0.
///
/// The lists have the row, the column and the value of each triplet.
///
/// # Errors
///
/// [`Error::OutOfMemory`]; [`Error::InvalidStructure`] if the lists have different lengths;
/// [`Error::IndexOutOfBounds`].
pub fn assemble_csc(rows: usize, cols: usize, i: &[usize], j: &[usize], values: &[i64]) -> Result<ColumnArrays, Error> {
    // SAFETY: each pointer is that of a slice, with the slice's length after it.
    let parts = into_parts(cols, values.len(), |o, x, v, places| unsafe {
        calls::nalgebra_sparse_assemble_csc(
            rows, cols, i.as_ptr(), i.len(), j.as_ptr(), j.len(), values.as_ptr(), values.len(),
            o.as_mut_ptr(), o.len(), x.as_mut_ptr(), x.len(), v.as_mut_ptr(), v.len(), places,
        )
    })?;
    Ok(ColumnArrays::new((rows, cols), parts))
}

/// Returns the transpose of a matrix by rows, by rows too. [`Rows::transposed`] returns the transpose by columns
/// without a copy.
///
/// # Errors
///
/// [`Error::OutOfMemory`]; [`Error::InvalidStructure`], [`Error::IndexOutOfBounds`] or [`Error::DuplicateEntry`] for
/// the first fault of the arrays.
pub fn transpose(a: Rows<'_>) -> Result<Arrays, Error> {
    // SAFETY: each pointer is that of a slice, with the slice's length after it.
    let parts = into_parts(a.cols, a.values.len(), |o, x, v, places| unsafe {
        calls::nalgebra_sparse_transpose(
            a.rows, a.cols,
            a.offsets.as_ptr(), a.offsets.len(), a.indices.as_ptr(), a.indices.len(), a.values.as_ptr(), a.values.len(),
            o.as_mut_ptr(), o.len(), x.as_mut_ptr(), x.len(), v.as_mut_ptr(), v.len(), places,
        )
    })?;
    Ok(Arrays::new((a.cols, a.rows), parts))
}

/// Returns the sum of two matrices by rows with the same shape, on the union of their patterns.
///
/// # Errors
///
/// [`Error::OutOfMemory`]; [`Error::InvalidStructure`], [`Error::IndexOutOfBounds`] or [`Error::DuplicateEntry`] for
/// the first fault of `a`, and otherwise of `b`; [`Error::ShapeMismatch`].
pub fn add(a: Rows<'_>, b: Rows<'_>) -> Result<Arrays, Error> {
    if (a.rows, a.cols) != (b.rows, b.cols) {
        return Err(Error::ShapeMismatch);
    }
    // SAFETY: each pointer is that of a slice, with the slice's length after it.
    let parts = into_parts(a.rows, a.values.len().saturating_add(b.values.len()), |o, x, v, places| unsafe {
        calls::nalgebra_sparse_add(
            a.rows, a.cols,
            a.offsets.as_ptr(), a.offsets.len(), a.indices.as_ptr(), a.indices.len(), a.values.as_ptr(), a.values.len(),
            b.offsets.as_ptr(), b.offsets.len(), b.indices.as_ptr(), b.indices.len(), b.values.as_ptr(), b.values.len(),
            o.as_mut_ptr(), o.len(), x.as_mut_ptr(), x.len(), v.as_mut_ptr(), v.len(), places,
        )
    })?;
    Ok(Arrays::new((a.rows, a.cols), parts))
}

/// Returns the difference `a - b` of two matrices by rows with the same shape, on the union of their patterns.
///
/// # Errors
///
/// [`Error::OutOfMemory`]; [`Error::InvalidStructure`], [`Error::IndexOutOfBounds`] or [`Error::DuplicateEntry`] for
/// the first fault of `a`, and otherwise of `b`; [`Error::ShapeMismatch`].
pub fn subtract(a: Rows<'_>, b: Rows<'_>) -> Result<Arrays, Error> {
    if (a.rows, a.cols) != (b.rows, b.cols) {
        return Err(Error::ShapeMismatch);
    }
    // SAFETY: each pointer is that of a slice, with the slice's length after it.
    let parts = into_parts(a.rows, a.values.len().saturating_add(b.values.len()), |o, x, v, places| unsafe {
        calls::nalgebra_sparse_subtract(
            a.rows, a.cols,
            a.offsets.as_ptr(), a.offsets.len(), a.indices.as_ptr(), a.indices.len(), a.values.as_ptr(), a.values.len(),
            b.offsets.as_ptr(), b.offsets.len(), b.indices.as_ptr(), b.indices.len(), b.values.as_ptr(), b.values.len(),
            o.as_mut_ptr(), o.len(), x.as_mut_ptr(), x.len(), v.as_mut_ptr(), v.len(), places,
        )
    })?;
    Ok(Arrays::new((a.rows, a.cols), parts))
}

/// Returns the sum `alpha * a + beta * b` of multiples of two matrices by rows with the same shape, on the union of
/// their patterns, also where a scale or a value is 0.
///
/// # Errors
///
/// [`Error::OutOfMemory`]; [`Error::InvalidStructure`], [`Error::IndexOutOfBounds`] or [`Error::DuplicateEntry`] for
/// the first fault of `a`, and otherwise of `b`; [`Error::ShapeMismatch`].
///
/// # Examples
///
/// ```
/// use nalgebra_sparse_exact::{add_scaled, assemble_csr};
///
/// let a = assemble_csr(1, 2, &[0], &[0], &[5])?;
/// let b = assemble_csr(1, 2, &[0, 0], &[0, 1], &[3, 7])?;
/// assert_eq!(add_scaled(2, a.as_rows(), -1, b.as_rows())?.values, [7, -7]);
/// # Ok::<(), nalgebra_sparse_exact::Error>(())
/// ```
pub fn add_scaled(alpha: i64, a: Rows<'_>, beta: i64, b: Rows<'_>) -> Result<Arrays, Error> {
    if (a.rows, a.cols) != (b.rows, b.cols) {
        return Err(Error::ShapeMismatch);
    }
    // SAFETY: each pointer is that of a slice, with the slice's length after it.
    let parts = into_parts(a.rows, a.values.len().saturating_add(b.values.len()), |o, x, v, places| unsafe {
        calls::nalgebra_sparse_add_scaled(
            a.rows, a.cols,
            alpha,
            a.offsets.as_ptr(), a.offsets.len(), a.indices.as_ptr(), a.indices.len(), a.values.as_ptr(), a.values.len(),
            beta,
            b.offsets.as_ptr(), b.offsets.len(), b.indices.as_ptr(), b.indices.len(), b.values.as_ptr(), b.values.len(),
            o.as_mut_ptr(), o.len(), x.as_mut_ptr(), x.len(), v.as_mut_ptr(), v.len(), places,
        )
    })?;
    Ok(Arrays::new((a.rows, a.cols), parts))
}

/// Returns the product of two matrices by rows, the first with as many columns as the second has rows. It has an entry
/// (i, j) wherever some k has an entry (i, k) in `a` and (k, j) in `b`.
///
/// # Errors
///
/// [`Error::OutOfMemory`]; [`Error::InvalidStructure`], [`Error::IndexOutOfBounds`] or [`Error::DuplicateEntry`] for
/// the first fault of `a`, and otherwise of `b`; [`Error::ShapeMismatch`].
///
/// # Examples
///
/// ```
/// use nalgebra_sparse_exact::{assemble_csr, multiply};
///
/// let a = assemble_csr(1, 2, &[0, 0], &[0, 1], &[2, 3])?;
/// let b = assemble_csr(2, 1, &[0, 1], &[0, 0], &[5, 7])?;
/// assert_eq!(multiply(a.as_rows(), b.as_rows())?.values, [31]);
/// # Ok::<(), nalgebra_sparse_exact::Error>(())
/// ```
pub fn multiply(a: Rows<'_>, b: Rows<'_>) -> Result<Arrays, Error> {
    if a.cols != b.rows {
        return Err(Error::ShapeMismatch);
    }
    // SAFETY: each pointer is that of a slice, with the slice's length after it.
    let parts = into_parts(a.rows, product_room(a, b), |o, x, v, places| unsafe {
        calls::nalgebra_sparse_multiply(
            a.rows, a.cols, b.cols,
            a.offsets.as_ptr(), a.offsets.len(), a.indices.as_ptr(), a.indices.len(), a.values.as_ptr(), a.values.len(),
            b.offsets.as_ptr(), b.offsets.len(), b.indices.as_ptr(), b.indices.len(), b.values.as_ptr(), b.values.len(),
            o.as_mut_ptr(), o.len(), x.as_mut_ptr(), x.len(), v.as_mut_ptr(), v.len(), places,
        )
    })?;
    Ok(Arrays::new((a.rows, b.cols), parts))
}

// Up to this many entries, a product is computed into room for one entry for each multiplication. The rest of the room
// is never touched, and is released.
const MOST_UNCOUNTED: usize = 1 << 24;

// Returns the number of entries for which a product has room at first: the number of its multiplications if that is not
// large, and 0 if an index is out of bounds.
pub(crate) fn product_room(a: Rows<'_>, b: Rows<'_>) -> usize {
    multiplications(a, b).unwrap_or(0).min(MOST_UNCOUNTED)
}

// Returns the number of multiplications of a product: the sum of the lengths of row k of `b` over the entries (i, k) of
// `a`. `None` if an index is out of bounds.
fn multiplications(a: Rows<'_>, b: Rows<'_>) -> Option<usize> {
    a.indices.iter().try_fold(0_usize, |sum, &k| {
        let begin = b.offsets.get(k)?;
        let end = b.offsets.get(k.checked_add(1)?)?;
        sum.checked_add(end.checked_sub(*begin)?)
    })
}

/// Returns the dense product of a matrix by rows and a dense matrix with `cols` columns. Both dense matrices are stored
/// column by column.
///
/// # Errors
///
/// [`Error::OutOfMemory`]; [`Error::InvalidStructure`], [`Error::IndexOutOfBounds`] or [`Error::DuplicateEntry`] for
/// the first fault of the arrays; [`Error::InvalidStructure`] if `b` has another number of values than `a.cols * cols`.
pub fn multiply_dense(a: Rows<'_>, cols: usize, b: &[i64]) -> Result<Vec<i64>, Error> {
    // SAFETY: each pointer is that of a slice, with the slice's length after it.
    into_values(a.rows, cols, |v| unsafe {
        calls::nalgebra_sparse_multiply_dense(
            a.rows, a.cols, cols,
            a.offsets.as_ptr(), a.offsets.len(), a.indices.as_ptr(), a.indices.len(), a.values.as_ptr(), a.values.len(),
            b.as_ptr(), b.len(), v.as_mut_ptr(), v.len(),
        )
    })
}

/// Returns a matrix by rows with each value times the inverse of the divisor.
///
/// # Errors
///
/// [`Error::OutOfMemory`]; [`Error::InvalidStructure`], [`Error::IndexOutOfBounds`] or [`Error::DuplicateEntry`] for
/// the first fault of the arrays; [`Error::Singular`] if the divisor is even, since it has no inverse modulo 2^64.
pub fn divide(a: Rows<'_>, divisor: i64) -> Result<Arrays, Error> {
    // SAFETY: each pointer is that of a slice, with the slice's length after it.
    let parts = into_parts(a.rows, a.values.len(), |o, x, v, places| unsafe {
        calls::nalgebra_sparse_divide(
            a.rows, a.cols,
            a.offsets.as_ptr(), a.offsets.len(), a.indices.as_ptr(), a.indices.len(), a.values.as_ptr(), a.values.len(),
            divisor, o.as_mut_ptr(), o.len(), x.as_mut_ptr(), x.len(), v.as_mut_ptr(), v.len(), places,
        )
    })?;
    Ok(Arrays::new((a.rows, a.cols), parts))
}
