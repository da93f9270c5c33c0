//! Matrices modulo a listed number that the library owns.

use std::fmt;

use crate::calls::RingHandle;
use crate::error::answer;
use crate::shared::Shared;
use crate::{calls, Arrays, Error, Rows};

/// A matrix modulo one of [`MODULI`](crate::MODULI), which the library owns together with its modulus.
///
/// Operations take the modulus from their operands, and refuse operands with different ones. An integer means its
/// residue, also where it is negative, and the values of results are from 0 to `modulus - 1`. Each operation copies its
/// operands; clones share the arrays. Several threads may use a matrix at the same time.
///
/// ```
/// use nalgebra_sparse_exact::{Error, RingMatrix};
///
/// let a = RingMatrix::from_triplets(7, (2, 2), &[0, 0, 1, 1], &[0, 1, 0, 1], &[2, 1, 1, -4])?;
/// assert_eq!(a.multiply(&a)?.to_arrays()?.values, [5, 5, 5, 3]);
/// // 2 1 / 1 3 times (1, 6) is (8, 19). Modulo 2^64 the pivot 2 has no inverse.
/// assert_eq!(a.solve_symmetric(1, &[8, 19])?, [1, 6]);
/// let other = RingMatrix::from_triplets(11, (2, 2), &[0], &[0], &[1])?;
/// assert_eq!(a.add(&other).unwrap_err(), Error::RingMismatch);
/// # Ok::<(), Error>(())
/// ```
pub struct RingMatrix {
    // It is never empty.
    handle: Shared<RingHandle>,
}

/// The modulus, the numbers of rows and columns, and the number of entries.
struct Sizes {
    modulus: u64,
    rows: usize,
    cols: usize,
    places: usize,
}

impl RingMatrix {
    /// Returns the matrix that a call stores in the empty handle that it is given.
    fn made(call: impl FnOnce(*mut RingHandle) -> i32) -> Result<RingMatrix, Error> {
        Ok(RingMatrix { handle: Shared::made(call)? })
    }

    /// Returns the matrix of a call with one operand.
    fn computed(&self, call: impl FnOnce(*mut RingHandle, *mut RingHandle) -> i32) -> Result<RingMatrix, Error> {
        let mut own = self.handle.second()?;
        RingMatrix::made(|out| call(own.pointer(), out))
    }

    /// Returns the matrix of a call with two operands, which may be the same matrix.
    fn combined(
        &self,
        other: &RingMatrix,
        call: impl FnOnce(*mut RingHandle, *mut RingHandle, *mut RingHandle) -> i32,
    ) -> Result<RingMatrix, Error> {
        let (mut own, mut second) = (self.handle.second()?, other.handle.second()?);
        RingMatrix::made(|out| call(own.pointer(), second.pointer(), out))
    }

    /// Returns the matrix with these arrays modulo `modulus`. The arrays are copied.
    ///
    /// # Errors
    ///
    /// [`Error::UnknownModulus`]; [`Error::OutOfMemory`]; [`Error::InvalidStructure`], [`Error::IndexOutOfBounds`] or
    /// [`Error::DuplicateEntry`] for the first fault of the arrays.
    pub fn from_rows(modulus: u64, a: Rows<'_>) -> Result<RingMatrix, Error> {
        // SAFETY: each pointer is that of a slice, with the slice's length after it, and the handle is empty.
        RingMatrix::made(|out| unsafe {
            calls::nalgebra_sparse_ring_matrix_from_rows(
                modulus, a.rows, a.cols, a.offsets.as_ptr(), a.offsets.len(), a.indices.as_ptr(), a.indices.len(),
                a.values.as_ptr(), a.values.len(), out,
            )
        })
    }

    /// Returns the matrix of triplets modulo `modulus`. Values with the same row and column are added, and an entry is
    /// kept if its sum is 0.
    ///
    /// # Errors
    ///
    /// [`Error::UnknownModulus`]; [`Error::OutOfMemory`]; [`Error::InvalidStructure`] if the lists have different
    /// lengths; [`Error::IndexOutOfBounds`].
    pub fn from_triplets(
        modulus: u64,
        (rows, cols): (usize, usize),
        i: &[usize],
        j: &[usize],
        values: &[i64],
    ) -> Result<RingMatrix, Error> {
        // SAFETY: each pointer is that of a slice, with the slice's length after it, and the handle is empty.
        RingMatrix::made(|out| unsafe {
            calls::nalgebra_sparse_ring_matrix_from_triplets(
                modulus, rows, cols, i.as_ptr(), i.len(), j.as_ptr(), j.len(), values.as_ptr(), values.len(), out,
            )
        })
    }

    fn sizes(&self) -> Result<Sizes, Error> {
        let mut sizes = Sizes { modulus: 0, rows: 0, cols: 0, places: 0 };
        let mut own = self.handle.lock();
        // SAFETY: the pointers are those of four numbers, and the lock keeps other calls from the handle.
        answer(unsafe {
            calls::nalgebra_sparse_ring_matrix_sizes(
                own.pointer(), &mut sizes.modulus, &mut sizes.rows, &mut sizes.cols, &mut sizes.places,
            )
        })?;
        Ok(sizes)
    }

    /// Returns the modulus.
    ///
    /// # Errors
    ///
    /// [`Error::OutOfMemory`], if 2^63 clones share the matrix.
    pub fn modulus(&self) -> Result<u64, Error> {
        Ok(self.sizes()?.modulus)
    }

    /// Returns the number of rows and the number of columns.
    ///
    /// # Errors
    ///
    /// [`Error::OutOfMemory`], if 2^63 clones share the matrix.
    pub fn shape(&self) -> Result<(usize, usize), Error> {
        let sizes = self.sizes()?;
        Ok((sizes.rows, sizes.cols))
    }

    /// Returns the number of entries, those with the value 0 too.
    ///
    /// # Errors
    ///
    /// [`Error::OutOfMemory`], if 2^63 clones share the matrix.
    pub fn nnz(&self) -> Result<usize, Error> {
        Ok(self.sizes()?.places)
    }

    /// Returns a copy of the arrays.
    ///
    /// # Errors
    ///
    /// [`Error::OutOfMemory`].
    pub fn to_arrays(&self) -> Result<Arrays, Error> {
        let sizes = self.sizes()?;
        let mut own = self.handle.second()?;
        let parts = crate::room::into_parts(sizes.rows, sizes.places, |o, x, v, count| {
            // SAFETY: each pointer is that of a slice, with the slice's length after it, and no other call uses the
            // handle.
            unsafe {
                calls::nalgebra_sparse_ring_matrix_read(
                    own.pointer(), o.as_mut_ptr(), o.len(), x.as_mut_ptr(), x.len(), v.as_mut_ptr(), v.len(), count,
                )
            }
        })?;
        Ok(Arrays::new((sizes.rows, sizes.cols), parts))
    }

    /// Returns the transpose.
    ///
    /// # Errors
    ///
    /// [`Error::OutOfMemory`].
    pub fn transpose(&self) -> Result<RingMatrix, Error> {
        // SAFETY: the handles are different, and no other call uses them.
        self.computed(|a, out| unsafe { calls::nalgebra_sparse_ring_matrix_transpose(a, out) })
    }

    /// Returns the product of a number and the matrix, with the same pattern.
    ///
    /// # Errors
    ///
    /// [`Error::OutOfMemory`].
    pub fn scale(&self, factor: i64) -> Result<RingMatrix, Error> {
        // SAFETY: the handles are different, and no other call uses them.
        self.computed(|a, out| unsafe { calls::nalgebra_sparse_ring_matrix_scale(factor, a, out) })
    }

    /// Returns the sum `self + b`, on the union of the patterns.
    ///
    /// # Errors
    ///
    /// [`Error::OutOfMemory`]; [`Error::RingMismatch`] if the moduli differ; [`Error::ShapeMismatch`] if the shapes
    /// differ.
    pub fn add(&self, b: &RingMatrix) -> Result<RingMatrix, Error> {
        // SAFETY: the handles are different, and no other call uses them.
        self.combined(b, |a, b, out| unsafe { calls::nalgebra_sparse_ring_matrix_add(a, b, out) })
    }

    /// Returns the difference `self - b`, on the union of the patterns.
    ///
    /// # Errors
    ///
    /// Those of [`RingMatrix::add`].
    pub fn subtract(&self, b: &RingMatrix) -> Result<RingMatrix, Error> {
        // SAFETY: the handles are different, and no other call uses them.
        self.combined(b, |a, b, out| unsafe { calls::nalgebra_sparse_ring_matrix_subtract(a, b, out) })
    }

    /// Returns the sum `alpha self + beta b`, on the union of the patterns.
    ///
    /// # Errors
    ///
    /// Those of [`RingMatrix::add`].
    pub fn add_scaled(&self, alpha: i64, beta: i64, b: &RingMatrix) -> Result<RingMatrix, Error> {
        // SAFETY: the handles are different, and no other call uses them.
        self.combined(b, |a, b, out| unsafe { calls::nalgebra_sparse_ring_matrix_add_scaled(alpha, a, beta, b, out) })
    }

    /// Returns the product `self * b`, with an entry (i, j) wherever some k has an entry (i, k) in `self` and (k, j) in
    /// `b`.
    ///
    /// # Errors
    ///
    /// [`Error::OutOfMemory`]; [`Error::RingMismatch`] if the moduli differ; [`Error::ShapeMismatch`] if the number of
    /// columns of `self` is not the number of rows of `b`.
    pub fn multiply(&self, b: &RingMatrix) -> Result<RingMatrix, Error> {
        // SAFETY: the handles are different, and no other call uses them.
        self.combined(b, |a, b, out| unsafe { calls::nalgebra_sparse_ring_matrix_multiply(a, b, out) })
    }

    /// Returns the product of the matrix and a dense matrix with `cols` columns. The dense matrices are stored column by
    /// column.
    ///
    /// # Errors
    ///
    /// [`Error::OutOfMemory`]; [`Error::InvalidStructure`] if `b` does not have `cols` values for each column of the
    /// matrix.
    pub fn multiply_dense(&self, cols: usize, b: &[i64]) -> Result<Vec<i64>, Error> {
        let (rows, mut own) = (self.shape()?.0, self.handle.second()?);
        // SAFETY: each pointer is that of a slice, with the slice's length after it, and no other call uses the handle.
        crate::room::into_values(rows, cols, |values| unsafe {
            calls::nalgebra_sparse_ring_matrix_multiply_dense(
                own.pointer(), cols, b.as_ptr(), b.len(), values.as_mut_ptr(), values.len(),
            )
        })
    }

    /// Returns a second handle of the matrix. No array is copied.
    ///
    /// # Errors
    ///
    /// [`Error::OutOfMemory`].
    pub fn try_clone(&self) -> Result<RingMatrix, Error> {
        Ok(RingMatrix { handle: self.handle.try_clone()? })
    }
}

/// Returns a second handle of the matrix. No array is copied.
///
/// # Panics
///
/// Panics if an allocation fails; [`RingMatrix::try_clone`] returns an error instead.
impl Clone for RingMatrix {
    fn clone(&self) -> Self {
        self.try_clone().expect("an allocation failed")
    }
}

impl fmt::Debug for RingMatrix {
    fn fmt(&self, f: &mut fmt::Formatter<'_>) -> fmt::Result {
        match self.sizes() {
            Ok(Sizes { modulus, rows, cols, places }) => {
                write!(f, "RingMatrix {{ modulus: {modulus}, rows: {rows}, cols: {cols}, places: {places} }}")
            }
            Err(error) => write!(f, "RingMatrix {{ {error} }}"),
        }
    }
}
