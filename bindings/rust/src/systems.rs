//! Solves and fill. Matrices are square and by columns.

use crate::error::answer;
use crate::room::{cut, into_values, with_room, zeros};
use crate::{calls, Columns, Error};

/// Which system of a triangle is solved: that of the triangle itself, or that of its transpose. The name of a call says
/// which triangle.
#[derive(Clone, Copy, Debug, PartialEq, Eq)]
pub enum System {
    /// `L X = B`, or `U X = B`.
    NotTransposed,
    /// `L^T X = B`, or `U^T X = B`.
    Transposed,
}

/// Returns the X for which `L X = B` or `L^T X = B`, where L is the part of a square matrix on and below its diagonal.
/// B and X have `cols` columns, one after the other.
///
/// # Errors
///
/// [`Error::OutOfMemory`]; [`Error::InvalidStructure`], [`Error::IndexOutOfBounds`] or [`Error::DuplicateEntry`] for
/// the first fault of the arrays; [`Error::ShapeMismatch`] if the matrix is not square; [`Error::InvalidStructure`] if
/// B has another number of values; [`Error::Singular`] if there is a column to solve for, and some entry of the
/// diagonal is not stored or is even.
pub fn solve_lower(a: Columns<'_>, system: System, cols: usize, b: &[i64]) -> Result<Vec<i64>, Error> {
    check_square(a)?;
    // SAFETY: each pointer is that of a slice, with the slice's length after it.
    into_values(a.rows, cols, |v| unsafe {
        calls::nalgebra_sparse_solve_lower(
            a.rows, cols,
            a.offsets.as_ptr(), a.offsets.len(), a.indices.as_ptr(), a.indices.len(), a.values.as_ptr(), a.values.len(),
            system == System::Transposed, b.as_ptr(), b.len(), v.as_mut_ptr(), v.len(),
        )
    })
}

/// Returns the X for which `A X = B`, where A is the symmetric matrix whose entries on and above the diagonal are those
/// of a square matrix. B and X have `cols` columns, one after the other. Entries below the diagonal have no effect:
/// [`solve_symmetric_checked`](crate::solve_symmetric_checked) tests that the matrix is symmetric.
///
/// # Errors
///
/// [`Error::OutOfMemory`]; [`Error::InvalidStructure`], [`Error::IndexOutOfBounds`] or [`Error::DuplicateEntry`] for
/// the first fault of the arrays; [`Error::ShapeMismatch`] if the matrix is not square; [`Error::InvalidStructure`] if
/// B has another number of values; [`Error::Singular`] if A has no factorisation L D L^T.
pub fn solve_symmetric(a: Columns<'_>, cols: usize, b: &[i64]) -> Result<Vec<i64>, Error> {
    check_square(a)?;
    // SAFETY: each pointer is that of a slice, with the slice's length after it.
    into_values(a.rows, cols, |v| unsafe {
        calls::nalgebra_sparse_solve_symmetric(
            a.rows, cols,
            a.offsets.as_ptr(), a.offsets.len(), a.indices.as_ptr(), a.indices.len(), a.values.as_ptr(), a.values.len(),
            b.as_ptr(), b.len(), v.as_mut_ptr(), v.len(),
        )
    })
}

/// The entries of a square pattern that give the pattern of a symmetric matrix.
#[derive(Clone, Copy, Debug, PartialEq, Eq)]
pub enum Triangle {
    /// Those on and above the diagonal.
    Upper = 0,
    /// Those on and below the diagonal.
    Lower = 1,
    /// All entries.
    Both = 2,
}

/// Returns the offsets and the indices by columns of the factor of a symmetric elimination, which starts from a
/// triangle of the pattern by columns.
///
/// # Errors
///
/// [`Error::OutOfMemory`]; [`Error::InvalidStructure`], [`Error::IndexOutOfBounds`] or [`Error::DuplicateEntry`] for
/// the first fault of the arrays.
pub fn fill(size: usize, triangle: Triangle, offsets: &[usize], indices: &[usize]) -> Result<(Vec<usize>, Vec<usize>), Error> {
    let (o, x) = (offsets, indices);
    let mut to_offsets = zeros(size.checked_add(1).ok_or(Error::OutOfMemory)?)?;
    // Enough if the elimination adds no entries but those of the diagonal.
    let (places, to_indices) = with_room(x.len().saturating_add(size), zeros, |to_indices, places| {
        // SAFETY: each pointer is that of a slice, with the slice's length after it, or of `places`.
        unsafe {
            calls::nalgebra_sparse_fill(
                size, triangle as i32, o.as_ptr(), o.len(), x.as_ptr(), x.len(),
                to_offsets.as_mut_ptr(), to_offsets.len(), to_indices.as_mut_ptr(), to_indices.len(), places,
            )
        }
    })?;
    Ok((to_offsets, cut(to_indices, places)))
}

/// Returns the number of entries of that factor.
pub(crate) fn fill_places(size: usize, triangle: Triangle, o: &[usize], x: &[usize]) -> Result<usize, Error> {
    let mut places = 0;
    // SAFETY: each pointer is that of a slice, with the slice's length after it, or of `places`.
    answer(unsafe {
        calls::nalgebra_sparse_fill_places(size, triangle as i32, o.as_ptr(), o.len(), x.as_ptr(), x.len(), &mut places)
    })?;
    Ok(places)
}

pub(crate) fn check_square(a: Columns<'_>) -> Result<(), Error> {
    if a.rows == a.cols {
        Ok(())
    } else {
        Err(Error::ShapeMismatch)
    }
}
