//! Matrices by rows and by columns, borrowed and owned.

/// Offsets, indices and values, in the order in which other crates return and take them.
pub(crate) type Parts = (Vec<usize>, Vec<usize>, Vec<i64>);

/// A matrix by rows: a shape and borrowed arrays, which the calls check.
#[derive(Clone, Copy, Debug, PartialEq, Eq)]
pub struct Rows<'a> {
    /// The number of rows.
    pub rows: usize,
    /// The number of columns.
    pub cols: usize,
    /// The offset of the first entry of each row, and then the number of entries.
    pub offsets: &'a [usize],
    /// The column of each entry, strictly increasing in each row.
    pub indices: &'a [usize],
    /// The value of each entry.
    pub values: &'a [i64],
}

impl<'a> Rows<'a> {
    /// Returns the matrix with this shape and these offsets, indices and values.
    ///
    /// ```
    /// use nalgebra_sparse_exact::{transpose, Rows};
    ///
    /// // As `csr_data` of the crate nalgebra-sparse returns them.
    /// let data = (&[0, 2, 3][..], &[0, 1, 2][..], &[1, 2, 7][..]);
    /// let a = Rows::new((2, 3), data);
    /// assert_eq!(transpose(a)?.into_parts(), (vec![0, 1, 2, 3], vec![0, 0, 1], vec![1, 2, 7]));
    /// # Ok::<(), nalgebra_sparse_exact::Error>(())
    /// ```
    #[must_use]
    pub fn new((rows, cols): (usize, usize), (offsets, indices, values): (&'a [usize], &'a [usize], &'a [i64])) -> Self {
        Rows { rows, cols, offsets, indices, values }
    }

    /// Returns the transpose, by columns: it has the same arrays.
    #[must_use]
    pub fn transposed(self) -> Columns<'a> {
        Columns { rows: self.cols, cols: self.rows, offsets: self.offsets, indices: self.indices, values: self.values }
    }
}

/// A matrix by columns: a shape and borrowed arrays, which the calls check.
#[derive(Clone, Copy, Debug, PartialEq, Eq)]
pub struct Columns<'a> {
    /// The number of rows.
    pub rows: usize,
    /// The number of columns.
    pub cols: usize,
    /// The offset of the first entry of each column, and then the number of entries.
    pub offsets: &'a [usize],
    /// The row of each entry, strictly increasing in each column.
    pub indices: &'a [usize],
    /// The value of each entry.
    pub values: &'a [i64],
}

impl<'a> Columns<'a> {
    /// Returns the matrix with this shape and these offsets, indices and values.
    #[must_use]
    pub fn new((rows, cols): (usize, usize), (offsets, indices, values): (&'a [usize], &'a [usize], &'a [i64])) -> Self {
        Columns { rows, cols, offsets, indices, values }
    }

    /// Returns the transpose, by rows: it has the same arrays.
    #[must_use]
    pub fn transposed(self) -> Rows<'a> {
        Rows { rows: self.cols, cols: self.rows, offsets: self.offsets, indices: self.indices, values: self.values }
    }
}

/// A matrix by rows that a call returned.
#[derive(Clone, Debug, Default, PartialEq, Eq)]
#[non_exhaustive]
pub struct Arrays {
    /// The number of rows.
    pub rows: usize,
    /// The number of columns.
    pub cols: usize,
    /// The offset of the first entry of each row, and then the number of entries.
    pub offsets: Vec<usize>,
    /// The column of each entry, strictly increasing in each row.
    pub indices: Vec<usize>,
    /// The value of each entry.
    pub values: Vec<i64>,
}

impl Arrays {
    /// Returns the matrix with this shape and these offsets, indices and values. The calls that borrow it check them.
    #[must_use]
    pub fn new((rows, cols): (usize, usize), (offsets, indices, values): (Vec<usize>, Vec<usize>, Vec<i64>)) -> Self {
        Arrays { rows, cols, offsets, indices, values }
    }

    /// Returns the number of rows and the number of columns.
    #[must_use]
    pub fn shape(&self) -> (usize, usize) {
        (self.rows, self.cols)
    }

    /// Borrows the matrix, as an operand of another call.
    #[must_use]
    pub fn as_rows(&self) -> Rows<'_> {
        Rows { rows: self.rows, cols: self.cols, offsets: &self.offsets, indices: &self.indices, values: &self.values }
    }

    /// Returns the offsets, the indices and the values.
    #[must_use]
    pub fn into_parts(self) -> (Vec<usize>, Vec<usize>, Vec<i64>) {
        (self.offsets, self.indices, self.values)
    }
}

/// A matrix by columns that a call returned.
#[derive(Clone, Debug, Default, PartialEq, Eq)]
#[non_exhaustive]
pub struct ColumnArrays {
    /// The number of rows.
    pub rows: usize,
    /// The number of columns.
    pub cols: usize,
    /// The offset of the first entry of each column, and then the number of entries.
    pub offsets: Vec<usize>,
    /// The row of each entry, strictly increasing in each column.
    pub indices: Vec<usize>,
    /// The value of each entry.
    pub values: Vec<i64>,
}

impl ColumnArrays {
    /// Returns the matrix with this shape and these offsets, indices and values. The calls that borrow it check them.
    #[must_use]
    pub fn new((rows, cols): (usize, usize), (offsets, indices, values): (Vec<usize>, Vec<usize>, Vec<i64>)) -> Self {
        ColumnArrays { rows, cols, offsets, indices, values }
    }

    /// Returns the number of rows and the number of columns.
    #[must_use]
    pub fn shape(&self) -> (usize, usize) {
        (self.rows, self.cols)
    }

    /// Borrows the matrix, as an operand of another call.
    #[must_use]
    pub fn as_columns(&self) -> Columns<'_> {
        Columns { rows: self.rows, cols: self.cols, offsets: &self.offsets, indices: &self.indices, values: &self.values }
    }

    /// Returns the offsets, the indices and the values.
    #[must_use]
    pub fn into_parts(self) -> (Vec<usize>, Vec<usize>, Vec<i64>) {
        (self.offsets, self.indices, self.values)
    }
}
