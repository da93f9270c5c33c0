//! Texts in Matrix Market format.

use crate::error::answer;
use crate::room::{cut, with_room, zeros};
use crate::{calls, Error};

/// A shape and triplets, in their order.
#[derive(Clone, Debug, Default, PartialEq, Eq)]
pub struct Triplets {
    /// The number of rows.
    pub rows: usize,
    /// The number of columns.
    pub cols: usize,
    /// The row of each triplet.
    pub row_indices: Vec<usize>,
    /// The column of each triplet.
    pub col_indices: Vec<usize>,
    /// The value of each triplet.
    pub values: Vec<i64>,
}

/// Returns the triplets of a text with integers. A mirrored entry directly follows its entry.
///
/// # Errors
///
/// [`Error::OutOfMemory`]; [`Error::Unreadable`]; the first error of the text: [`Error::InvalidText`],
/// [`Error::InvalidHeader`], [`Error::NonSquare`], [`Error::EntryMismatch`], [`Error::ZeroIndex`],
/// [`Error::TypeMismatch`], [`Error::NotLowerTriangle`], [`Error::DiagonalEntry`] or [`Error::IndexOutOfBounds`].
///
/// # Examples
///
/// ```
/// use nalgebra_sparse_exact::{read, write};
///
/// let list = read(b"%%MatrixMarket matrix coordinate integer symmetric\n2 2 1\n2 1 -3\n")?;
/// assert_eq!((&list.row_indices[..], &list.col_indices[..], &list.values[..]), (&[1, 0][..], &[0, 1][..], &[-3, -3][..]));
/// assert!(write(&list)?.ends_with(b"2 2 2\n2 1 -3\n1 2 -3\n"));
/// # Ok::<(), nalgebra_sparse_exact::Error>(())
/// ```
pub fn read(text: &[u8]) -> Result<Triplets, Error> {
    let (mut rows, mut cols, mut count) = (0, 0, 0);
    // SAFETY: the pointers are those of a slice, with its length after it, and of three numbers.
    answer(unsafe { calls::nalgebra_sparse_read_sizes(text.as_ptr(), text.len(), &mut rows, &mut cols, &mut count) })?;
    let (mut i, mut j, mut values) = (zeros(count)?, zeros(count)?, zeros(count)?);
    // SAFETY: each pointer is that of a slice, with the slice's length after it, or of a number.
    answer(unsafe {
        calls::nalgebra_sparse_read(
            text.as_ptr(), text.len(),
            i.as_mut_ptr(), i.len(), j.as_mut_ptr(), j.len(), values.as_mut_ptr(), values.len(), &mut count,
        )
    })?;
    Ok(Triplets { rows, cols, row_indices: i, col_indices: j, values })
}

/// Returns the number, counted from 1, of the first line of a text with a fault, or `None` if [`read`] reads the text.
///
/// The line is that of the error that `read` returns, or the last line of a text that ends too early.
///
/// # Errors
///
/// [`Error::Unreadable`].
///
/// # Examples
///
/// ```
/// use nalgebra_sparse_exact::{faulty_line, read, Error};
///
/// let text = b"%%MatrixMarket matrix coordinate integer general\n2 2 2\n1 1 5\n1 3 7\n";
/// assert_eq!(read(text), Err(Error::IndexOutOfBounds));
/// assert_eq!(faulty_line(text), Ok(Some(4)));
/// ```
pub fn faulty_line(text: &[u8]) -> Result<Option<usize>, Error> {
    let mut line = 0;
    // SAFETY: the pointers are those of a slice, with its length after it, and of a number.
    answer(unsafe { calls::nalgebra_sparse_text_fault(text.as_ptr(), text.len(), &mut line) })?;
    Ok(if line == 0 { None } else { Some(line) })
}

/// Returns the text of triplets, which is ASCII.
///
/// # Errors
///
/// [`Error::OutOfMemory`]; [`Error::InvalidStructure`] if the lists have different lengths;
/// [`Error::IndexOutOfBounds`].
pub fn write(list: &Triplets) -> Result<Vec<u8>, Error> {
    let (i, j, values) = (&list.row_indices, &list.col_indices, &list.values);
    // Enough for the first lines and for triplets with 8 bytes for each number: for longer texts the call is repeated.
    let room = values.len().saturating_mul(27).saturating_add(256);
    let (length, text) = with_room(room, zeros, |text, length| {
        // SAFETY: each pointer is that of a slice, with the slice's length after it, or of a number.
        unsafe {
            calls::nalgebra_sparse_write(
                list.rows, list.cols,
                i.as_ptr(), i.len(), j.as_ptr(), j.len(), values.as_ptr(), values.len(),
                text.as_mut_ptr(), text.len(), length,
            )
        }
    })?;
    Ok(cut(text, length))
}
