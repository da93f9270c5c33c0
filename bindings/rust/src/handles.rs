//! Matrices that the library owns.

use std::fmt;

use crate::calls::Handle;
use crate::error::answer;
use crate::shared::Shared;
use crate::{calls, Arrays, Error, Rows};

/// A matrix over the integers modulo 2^64 that the library owns.
///
/// Its arrays are checked once, when it is created. Transposes, multiples, sums and products copy no operand; solves
/// with a triangle and factorisations copy the matrix. Clones share the arrays. Several threads may use a matrix at the
/// same time, and they compute at the same time.
///
/// ```
/// use nalgebra_sparse_exact::Matrix;
///
/// let a = Matrix::from_triplets((2, 2), &[0, 0, 1], &[0, 1, 1], &[1, 2, 3])?;
/// let b = a.multiply(&a)?.add_scaled(2, -1, &a.transpose()?)?;
/// assert_eq!(b.to_arrays()?.into_parts(), (vec![0, 2, 4], vec![0, 1, 0, 1], vec![1, 16, -2, 15]));
/// # Ok::<(), nalgebra_sparse_exact::Error>(())
/// ```
pub struct Matrix {
    // It is never empty.
    pub(crate) handle: Shared<Handle>,
}

impl Matrix {
    /// Returns the matrix that a call stores in the empty handle that it is given.
    fn made(call: impl FnOnce(*mut Handle) -> i32) -> Result<Matrix, Error> {
        Ok(Matrix { handle: Shared::made(call)? })
    }

    /// Returns the matrix of a call with one operand.
    fn computed(&self, call: impl FnOnce(*mut Handle, *mut Handle) -> i32) -> Result<Matrix, Error> {
        let mut own = self.handle.second()?;
        Matrix::made(|out| call(own.pointer(), out))
    }

    /// Returns the matrix of a call with two operands, which may be the same matrix.
    fn combined(&self, other: &Matrix, call: impl FnOnce(*mut Handle, *mut Handle, *mut Handle) -> i32) -> Result<Matrix, Error> {
        let (mut own, mut second) = (self.handle.second()?, other.handle.second()?);
        Matrix::made(|out| call(own.pointer(), second.pointer(), out))
    }

    /// Returns the matrix with these arrays, which are copied.
    ///
    /// # Errors
    ///
    /// [`Error::OutOfMemory`]; [`Error::InvalidStructure`], [`Error::IndexOutOfBounds`] or [`Error::DuplicateEntry`]
    /// for the first fault of the arrays.
    pub fn from_rows(a: Rows<'_>) -> Result<Matrix, Error> {
        // SAFETY: each pointer is that of a slice, with the slice's length after it, and the handle is empty.
        Matrix::made(|out| unsafe {
            calls::nalgebra_sparse_matrix_from_rows(
                a.rows, a.cols, a.offsets.as_ptr(), a.offsets.len(), a.indices.as_ptr(), a.indices.len(),
                a.values.as_ptr(), a.values.len(), out,
            )
        })
    }

    /// Returns the matrix of triplets. Values with the same row and column are added, and an entry is kept if its sum
    /// is 0.
    ///
    /// # Errors
    ///
    /// [`Error::OutOfMemory`]; [`Error::InvalidStructure`] if the lists have different lengths;
    /// [`Error::IndexOutOfBounds`].
    pub fn from_triplets((rows, cols): (usize, usize), i: &[usize], j: &[usize], values: &[i64]) -> Result<Matrix, Error> {
        // SAFETY: each pointer is that of a slice, with the slice's length after it, and the handle is empty.
        Matrix::made(|out| unsafe {
            calls::nalgebra_sparse_matrix_from_triplets(
                rows, cols, i.as_ptr(), i.len(), j.as_ptr(), j.len(), values.as_ptr(), values.len(), out,
            )
        })
    }

    /// Returns the matrix of a text in Matrix Market format with integers. Values with the same row and column are
    /// added.
    ///
    /// # Errors
    ///
    /// Those of [`read`](crate::read).
    ///
    /// # Examples
    ///
    /// ```
    /// use nalgebra_sparse_exact::Matrix;
    ///
    /// let a = Matrix::from_text(b"%%MatrixMarket matrix coordinate integer symmetric\n2 2 1\n2 1 -3\n")?;
    /// assert!(a.to_text()?.ends_with(b"2 2 2\n1 2 -3\n2 1 -3\n"));
    /// # Ok::<(), nalgebra_sparse_exact::Error>(())
    /// ```
    pub fn from_text(text: &[u8]) -> Result<Matrix, Error> {
        // SAFETY: the pointer is that of a slice, with the slice's length after it, and the handle is empty.
        Matrix::made(|out| unsafe { calls::nalgebra_sparse_matrix_from_text(text.as_ptr(), text.len(), out) })
    }

    /// Returns the text of the matrix, with a line for each entry, row by row. It is ASCII.
    ///
    /// # Errors
    ///
    /// [`Error::OutOfMemory`].
    pub fn to_text(&self) -> Result<Vec<u8>, Error> {
        // A line has at most 63 bytes, and there are at most three lines before those of the entries.
        let room = self.nnz()?.checked_add(3).and_then(|lines| lines.checked_mul(64)).ok_or(Error::OutOfMemory)?;
        let (mut text, mut length, mut own) = (crate::room::zeros(room)?, 0, self.handle.second()?);
        // SAFETY: each pointer is that of a slice, with the slice's length after it, and no other call uses the handle.
        answer(unsafe {
            calls::nalgebra_sparse_matrix_to_text(own.pointer(), text.as_mut_ptr(), text.len(), &mut length)
        })?;
        text.truncate(length);
        text.shrink_to_fit();
        Ok(text)
    }

    /// Returns the numbers of rows, columns and entries.
    fn sizes(&self) -> Result<(usize, usize, usize), Error> {
        let (mut rows, mut cols, mut places) = (0, 0, 0);
        let mut own = self.handle.lock();
        // SAFETY: the pointers are those of three numbers, and the lock keeps other calls from the handle.
        answer(unsafe { calls::nalgebra_sparse_matrix_sizes(own.pointer(), &mut rows, &mut cols, &mut places) })?;
        Ok((rows, cols, places))
    }

    /// Returns the number of rows and the number of columns.
    ///
    /// # Errors
    ///
    /// [`Error::OutOfMemory`], if 2^63 clones share the matrix.
    pub fn shape(&self) -> Result<(usize, usize), Error> {
        let (rows, cols, _) = self.sizes()?;
        Ok((rows, cols))
    }

    /// Returns the number of entries, those with the value 0 too.
    ///
    /// # Errors
    ///
    /// [`Error::OutOfMemory`], if 2^63 clones share the matrix.
    pub fn nnz(&self) -> Result<usize, Error> {
        Ok(self.sizes()?.2)
    }

    /// Returns a copy of the arrays.
    ///
    /// # Errors
    ///
    /// [`Error::OutOfMemory`].
    pub fn to_arrays(&self) -> Result<Arrays, Error> {
        let (rows, cols, places) = self.sizes()?;
        let mut own = self.handle.second()?;
        let parts = crate::room::into_parts(rows, places, |o, x, v, count| {
            // SAFETY: each pointer is that of a slice, with the slice's length after it, and no other call uses the
            // handle.
            unsafe {
                calls::nalgebra_sparse_matrix_read(
                    own.pointer(), o.as_mut_ptr(), o.len(), x.as_mut_ptr(), x.len(), v.as_mut_ptr(), v.len(), count,
                )
            }
        })?;
        Ok(Arrays::new((rows, cols), parts))
    }

    /// Returns the transpose.
    ///
    /// # Errors
    ///
    /// [`Error::OutOfMemory`].
    pub fn transpose(&self) -> Result<Matrix, Error> {
        // SAFETY: the handles are different, and no other call uses them.
        self.computed(|a, out| unsafe { calls::nalgebra_sparse_matrix_transpose(a, out) })
    }

    /// Returns the product of a number and the matrix, with the same pattern.
    ///
    /// # Errors
    ///
    /// [`Error::OutOfMemory`].
    pub fn scale(&self, factor: i64) -> Result<Matrix, Error> {
        // SAFETY: the handles are different, and no other call uses them.
        self.computed(|a, out| unsafe { calls::nalgebra_sparse_matrix_scale(factor, a, out) })
    }

    /// Returns the sum `self + b`, on the union of the patterns.
    ///
    /// # Errors
    ///
    /// [`Error::OutOfMemory`]; [`Error::ShapeMismatch`] if the shapes differ.
    pub fn add(&self, b: &Matrix) -> Result<Matrix, Error> {
        // SAFETY: the handles are different, and no other call uses them.
        self.combined(b, |a, b, out| unsafe { calls::nalgebra_sparse_matrix_add(a, b, out) })
    }

    /// Returns the difference `self - b`, on the union of the patterns.
    ///
    /// # Errors
    ///
    /// [`Error::OutOfMemory`]; [`Error::ShapeMismatch`] if the shapes differ.
    pub fn subtract(&self, b: &Matrix) -> Result<Matrix, Error> {
        // SAFETY: the handles are different, and no other call uses them.
        self.combined(b, |a, b, out| unsafe { calls::nalgebra_sparse_matrix_subtract(a, b, out) })
    }

    /// Returns the sum `alpha self + beta b`, on the union of the patterns.
    ///
    /// # Errors
    ///
    /// [`Error::OutOfMemory`]; [`Error::ShapeMismatch`] if the shapes differ.
    pub fn add_scaled(&self, alpha: i64, beta: i64, b: &Matrix) -> Result<Matrix, Error> {
        // SAFETY: the handles are different, and no other call uses them.
        self.combined(b, |a, b, out| unsafe { calls::nalgebra_sparse_matrix_add_scaled(alpha, a, beta, b, out) })
    }

    /// Returns the product `self * b`, with an entry (i, j) wherever some k has an entry (i, k) in `self` and (k, j) in
    /// `b`.
    ///
    /// # Errors
    ///
    /// [`Error::OutOfMemory`]; [`Error::ShapeMismatch`] if the number of columns of `self` is not the number of rows of
    /// `b`.
    pub fn multiply(&self, b: &Matrix) -> Result<Matrix, Error> {
        // SAFETY: the handles are different, and no other call uses them.
        self.combined(b, |a, b, out| unsafe { calls::nalgebra_sparse_matrix_multiply(a, b, out) })
    }

    /// Returns the product of the matrix and a dense matrix with `cols` columns. The dense matrices are stored column by
    /// column. The call copies `b`.
    ///
    /// # Errors
    ///
    /// [`Error::OutOfMemory`]; [`Error::InvalidStructure`] if `b` does not have `cols` values for each column of the
    /// matrix.
    ///
    /// # Examples
    ///
    /// ```
    /// use nalgebra_sparse_exact::Matrix;
    ///
    /// let a = Matrix::from_triplets((2, 2), &[0, 0, 1], &[0, 1, 1], &[1, 2, 3])?;
    /// assert_eq!(a.multiply_dense(2, &[5, 7, 1, 0])?, [19, 21, 1, 0]);
    /// # Ok::<(), nalgebra_sparse_exact::Error>(())
    /// ```
    pub fn multiply_dense(&self, cols: usize, b: &[i64]) -> Result<Vec<i64>, Error> {
        let (rows, mut own) = (self.shape()?.0, self.handle.second()?);
        // SAFETY: each pointer is that of a slice, with the slice's length after it, and no other call uses the handle.
        crate::room::into_values(rows, cols, |values| unsafe {
            calls::nalgebra_sparse_matrix_multiply_dense(
                own.pointer(), cols, b.as_ptr(), b.len(), values.as_mut_ptr(), values.len(),
            )
        })
    }

    /// Returns a second handle of the matrix. No array is copied.
    ///
    /// # Errors
    ///
    /// [`Error::OutOfMemory`].
    pub fn try_clone(&self) -> Result<Matrix, Error> {
        Ok(Matrix { handle: self.handle.try_clone()? })
    }
}

/// Returns a second handle of the matrix. No array is copied.
///
/// # Panics
///
/// Panics if an allocation fails; [`Matrix::try_clone`] returns an error instead.
impl Clone for Matrix {
    fn clone(&self) -> Self {
        self.try_clone().expect("an allocation failed")
    }
}

impl fmt::Debug for Matrix {
    fn fmt(&self, f: &mut fmt::Formatter<'_>) -> fmt::Result {
        match self.sizes() {
            Ok((rows, cols, places)) => write!(f, "Matrix {{ rows: {rows}, cols: {cols}, places: {places} }}"),
            Err(error) => write!(f, "Matrix {{ {error} }}"),
        }
    }
}
