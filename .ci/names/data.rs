//! `data`: the structs of JSON with their fields, and the calls that convert to and from them.

use nalgebra_sparse::csc::CscMatrix;
use nalgebra_sparse::csr::CsrMatrix;
use nalgebra_sparse::data::{CooData, CscData, CsrData, PatternData};
use nalgebra_sparse::pattern::{SparsityPattern, SparsityPatternFormatError};
use nalgebra_sparse::{CooMatrix, SparseFormatError};
use std::alloc::{AllocError, Global};

fn pattern(data: PatternData) -> (usize, usize, Vec<usize>, Vec<usize>) {
    let PatternData {
        major_dim,
        minor_dim,
        major_offsets,
        minor_indices,
    } = data;
    (major_dim, minor_dim, major_offsets, minor_indices)
}

fn coo<T>(data: CooData<T>) -> (usize, usize, Vec<usize>, Vec<usize>, Vec<T>) {
    let CooData {
        nrows,
        ncols,
        row_indices,
        col_indices,
        values,
    } = data;
    (nrows, ncols, row_indices, col_indices, values)
}

fn csr<T>(data: CsrData<T>) -> (usize, usize, Vec<usize>, Vec<usize>, Vec<T>) {
    let CsrData {
        nrows,
        ncols,
        row_offsets,
        col_indices,
        values,
    } = data;
    (nrows, ncols, row_offsets, col_indices, values)
}

fn csc<T>(data: CscData<T>) -> (usize, usize, Vec<usize>, Vec<usize>, Vec<T>) {
    let CscData {
        nrows,
        ncols,
        col_offsets,
        row_indices,
        values,
    } = data;
    (nrows, ncols, col_offsets, row_indices, values)
}

fn checked<T: Drop>() {
    let _pattern: fn(PatternData) -> Result<SparsityPattern, SparsityPatternFormatError> =
        SparsityPattern::try_from_data;
    let _coo: fn(CooData<T>) -> Result<CooMatrix<T>, SparseFormatError> = CooMatrix::try_from_data;
    let _csr: fn(CsrData<T>) -> Result<CsrMatrix<T>, SparseFormatError> = CsrMatrix::try_from_data;
    let _csc: fn(CscData<T>) -> Result<CscMatrix<T>, SparseFormatError> = CscMatrix::try_from_data;
}

fn copied<T: Copy>() {
    let _pattern: fn(&SparsityPattern, Global) -> Result<PatternData, AllocError> =
        SparsityPattern::to_data;
    let _coo: fn(&CooMatrix<T>, Global) -> Result<CooData<T>, AllocError> = CooMatrix::to_data;
    let _csr: fn(&CsrMatrix<T>, Global) -> Result<CsrData<T>, AllocError> = CsrMatrix::to_data;
    let _csc: fn(&CscMatrix<T>, Global) -> Result<CscData<T>, AllocError> = CscMatrix::to_data;
}
