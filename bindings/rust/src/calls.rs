//! The calls of the static library, as `bindings/c/nalgebra_sparse.h` declares them.
//!
//! A call reads the arrays behind `*const` and writes those behind `*mut`, each up to the length that follows it, and
//! no other memory. It keeps no pointer. So it is safe if each pointer and length are those of a borrowed slice,
//! borrowed mutably for `*mut`: pointers of slices are aligned and not null, also those of empty slices.

#[cfg(not(target_pointer_width = "64"))]
compile_error!("the static library is built for 64 bits");

extern "C" {
    pub fn nalgebra_sparse_assemble_csr(
        rows: usize, cols: usize,
        row_indices: *const usize, row_indices_len: usize,
        col_indices: *const usize, col_indices_len: usize,
        values: *const i64, values_len: usize,
        out_offsets: *mut usize, out_offsets_len: usize,
        out_indices: *mut usize, out_indices_len: usize,
        out_values: *mut i64, out_values_len: usize,
        out_places: *mut usize,
    ) -> i32;

    pub fn nalgebra_sparse_assemble_csc(
        rows: usize, cols: usize,
        row_indices: *const usize, row_indices_len: usize,
        col_indices: *const usize, col_indices_len: usize,
        values: *const i64, values_len: usize,
        out_offsets: *mut usize, out_offsets_len: usize,
        out_indices: *mut usize, out_indices_len: usize,
        out_values: *mut i64, out_values_len: usize,
        out_places: *mut usize,
    ) -> i32;

    pub fn nalgebra_sparse_assemble_csr_mod(
        modulus: u64, rows: usize, cols: usize,
        row_indices: *const usize, row_indices_len: usize,
        col_indices: *const usize, col_indices_len: usize,
        values: *const i64, values_len: usize,
        out_offsets: *mut usize, out_offsets_len: usize,
        out_indices: *mut usize, out_indices_len: usize,
        out_values: *mut i64, out_values_len: usize,
        out_places: *mut usize,
    ) -> i32;

    pub fn nalgebra_sparse_assemble_csc_mod(
        modulus: u64, rows: usize, cols: usize,
        row_indices: *const usize, row_indices_len: usize,
        col_indices: *const usize, col_indices_len: usize,
        values: *const i64, values_len: usize,
        out_offsets: *mut usize, out_offsets_len: usize,
        out_indices: *mut usize, out_indices_len: usize,
        out_values: *mut i64, out_values_len: usize,
        out_places: *mut usize,
    ) -> i32;

    pub fn nalgebra_sparse_transpose(
        rows: usize, cols: usize,
        offsets: *const usize, offsets_len: usize,
        indices: *const usize, indices_len: usize,
        values: *const i64, values_len: usize,
        out_offsets: *mut usize, out_offsets_len: usize,
        out_indices: *mut usize, out_indices_len: usize,
        out_values: *mut i64, out_values_len: usize,
        out_places: *mut usize,
    ) -> i32;

    pub fn nalgebra_sparse_add(
        rows: usize, cols: usize,
        a_offsets: *const usize, a_offsets_len: usize,
        a_indices: *const usize, a_indices_len: usize,
        a_values: *const i64, a_values_len: usize,
        b_offsets: *const usize, b_offsets_len: usize,
        b_indices: *const usize, b_indices_len: usize,
        b_values: *const i64, b_values_len: usize,
        out_offsets: *mut usize, out_offsets_len: usize,
        out_indices: *mut usize, out_indices_len: usize,
        out_values: *mut i64, out_values_len: usize,
        out_places: *mut usize,
    ) -> i32;

    pub fn nalgebra_sparse_subtract(
        rows: usize, cols: usize,
        a_offsets: *const usize, a_offsets_len: usize,
        a_indices: *const usize, a_indices_len: usize,
        a_values: *const i64, a_values_len: usize,
        b_offsets: *const usize, b_offsets_len: usize,
        b_indices: *const usize, b_indices_len: usize,
        b_values: *const i64, b_values_len: usize,
        out_offsets: *mut usize, out_offsets_len: usize,
        out_indices: *mut usize, out_indices_len: usize,
        out_values: *mut i64, out_values_len: usize,
        out_places: *mut usize,
    ) -> i32;

    pub fn nalgebra_sparse_add_scaled(
        rows: usize, cols: usize,
        alpha: i64,
        a_offsets: *const usize, a_offsets_len: usize,
        a_indices: *const usize, a_indices_len: usize,
        a_values: *const i64, a_values_len: usize,
        beta: i64,
        b_offsets: *const usize, b_offsets_len: usize,
        b_indices: *const usize, b_indices_len: usize,
        b_values: *const i64, b_values_len: usize,
        out_offsets: *mut usize, out_offsets_len: usize,
        out_indices: *mut usize, out_indices_len: usize,
        out_values: *mut i64, out_values_len: usize,
        out_places: *mut usize,
    ) -> i32;

    pub fn nalgebra_sparse_add_mod(
        modulus: u64, rows: usize, cols: usize,
        a_offsets: *const usize, a_offsets_len: usize,
        a_indices: *const usize, a_indices_len: usize,
        a_values: *const i64, a_values_len: usize,
        b_offsets: *const usize, b_offsets_len: usize,
        b_indices: *const usize, b_indices_len: usize,
        b_values: *const i64, b_values_len: usize,
        out_offsets: *mut usize, out_offsets_len: usize,
        out_indices: *mut usize, out_indices_len: usize,
        out_values: *mut i64, out_values_len: usize,
        out_places: *mut usize,
    ) -> i32;

    pub fn nalgebra_sparse_subtract_mod(
        modulus: u64, rows: usize, cols: usize,
        a_offsets: *const usize, a_offsets_len: usize,
        a_indices: *const usize, a_indices_len: usize,
        a_values: *const i64, a_values_len: usize,
        b_offsets: *const usize, b_offsets_len: usize,
        b_indices: *const usize, b_indices_len: usize,
        b_values: *const i64, b_values_len: usize,
        out_offsets: *mut usize, out_offsets_len: usize,
        out_indices: *mut usize, out_indices_len: usize,
        out_values: *mut i64, out_values_len: usize,
        out_places: *mut usize,
    ) -> i32;

    pub fn nalgebra_sparse_add_scaled_mod(
        modulus: u64, rows: usize, cols: usize,
        alpha: i64,
        a_offsets: *const usize, a_offsets_len: usize,
        a_indices: *const usize, a_indices_len: usize,
        a_values: *const i64, a_values_len: usize,
        beta: i64,
        b_offsets: *const usize, b_offsets_len: usize,
        b_indices: *const usize, b_indices_len: usize,
        b_values: *const i64, b_values_len: usize,
        out_offsets: *mut usize, out_offsets_len: usize,
        out_indices: *mut usize, out_indices_len: usize,
        out_values: *mut i64, out_values_len: usize,
        out_places: *mut usize,
    ) -> i32;

    pub fn nalgebra_sparse_multiply(
        rows: usize, inner: usize, cols: usize,
        a_offsets: *const usize, a_offsets_len: usize,
        a_indices: *const usize, a_indices_len: usize,
        a_values: *const i64, a_values_len: usize,
        b_offsets: *const usize, b_offsets_len: usize,
        b_indices: *const usize, b_indices_len: usize,
        b_values: *const i64, b_values_len: usize,
        out_offsets: *mut usize, out_offsets_len: usize,
        out_indices: *mut usize, out_indices_len: usize,
        out_values: *mut i64, out_values_len: usize,
        out_places: *mut usize,
    ) -> i32;

    pub fn nalgebra_sparse_multiply_mod(
        modulus: u64, rows: usize, inner: usize, cols: usize,
        a_offsets: *const usize, a_offsets_len: usize,
        a_indices: *const usize, a_indices_len: usize,
        a_values: *const i64, a_values_len: usize,
        b_offsets: *const usize, b_offsets_len: usize,
        b_indices: *const usize, b_indices_len: usize,
        b_values: *const i64, b_values_len: usize,
        out_offsets: *mut usize, out_offsets_len: usize,
        out_indices: *mut usize, out_indices_len: usize,
        out_values: *mut i64, out_values_len: usize,
        out_places: *mut usize,
    ) -> i32;

    pub fn nalgebra_sparse_multiply_dense(
        rows: usize, inner: usize, cols: usize,
        a_offsets: *const usize, a_offsets_len: usize,
        a_indices: *const usize, a_indices_len: usize,
        a_values: *const i64, a_values_len: usize,
        b_values: *const i64, b_values_len: usize,
        out_values: *mut i64, out_values_len: usize,
    ) -> i32;

    pub fn nalgebra_sparse_multiply_dense_mod(
        modulus: u64, rows: usize, inner: usize, cols: usize,
        a_offsets: *const usize, a_offsets_len: usize,
        a_indices: *const usize, a_indices_len: usize,
        a_values: *const i64, a_values_len: usize,
        b_values: *const i64, b_values_len: usize,
        out_values: *mut i64, out_values_len: usize,
    ) -> i32;

    pub fn nalgebra_sparse_solve_lower(
        size: usize, cols: usize,
        offsets: *const usize, offsets_len: usize,
        indices: *const usize, indices_len: usize,
        values: *const i64, values_len: usize,
        transposed: bool,
        b_values: *const i64, b_values_len: usize,
        out_values: *mut i64, out_values_len: usize,
    ) -> i32;

    pub fn nalgebra_sparse_divide(
        rows: usize, cols: usize,
        offsets: *const usize, offsets_len: usize,
        indices: *const usize, indices_len: usize,
        values: *const i64, values_len: usize,
        divisor: i64,
        out_offsets: *mut usize, out_offsets_len: usize,
        out_indices: *mut usize, out_indices_len: usize,
        out_values: *mut i64, out_values_len: usize,
        out_places: *mut usize,
    ) -> i32;

    pub fn nalgebra_sparse_fill_places(
        size: usize, triangle: i32,
        offsets: *const usize, offsets_len: usize,
        indices: *const usize, indices_len: usize,
        out_places: *mut usize,
    ) -> i32;

    pub fn nalgebra_sparse_fill(
        size: usize, triangle: i32,
        offsets: *const usize, offsets_len: usize,
        indices: *const usize, indices_len: usize,
        out_offsets: *mut usize, out_offsets_len: usize,
        out_indices: *mut usize, out_indices_len: usize,
        out_places: *mut usize,
    ) -> i32;

    pub fn nalgebra_sparse_solve_symmetric(
        size: usize, cols: usize,
        offsets: *const usize, offsets_len: usize,
        indices: *const usize, indices_len: usize,
        values: *const i64, values_len: usize,
        b_values: *const i64, b_values_len: usize,
        out_values: *mut i64, out_values_len: usize,
    ) -> i32;

    pub fn nalgebra_sparse_solve_lower_mod(
        modulus: u64,
        size: usize, cols: usize,
        offsets: *const usize, offsets_len: usize,
        indices: *const usize, indices_len: usize,
        values: *const i64, values_len: usize,
        transposed: bool,
        b_values: *const i64, b_values_len: usize,
        out_values: *mut i64, out_values_len: usize,
    ) -> i32;

    pub fn nalgebra_sparse_divide_mod(
        modulus: u64,
        rows: usize, cols: usize,
        offsets: *const usize, offsets_len: usize,
        indices: *const usize, indices_len: usize,
        values: *const i64, values_len: usize,
        divisor: i64,
        out_offsets: *mut usize, out_offsets_len: usize,
        out_indices: *mut usize, out_indices_len: usize,
        out_values: *mut i64, out_values_len: usize,
        out_places: *mut usize,
    ) -> i32;

    pub fn nalgebra_sparse_solve_symmetric_mod(
        modulus: u64,
        size: usize, cols: usize,
        offsets: *const usize, offsets_len: usize,
        indices: *const usize, indices_len: usize,
        values: *const i64, values_len: usize,
        b_values: *const i64, b_values_len: usize,
        out_values: *mut i64, out_values_len: usize,
    ) -> i32;

    pub fn nalgebra_sparse_factor_symmetric(
        size: usize,
        offsets: *const usize, offsets_len: usize,
        indices: *const usize, indices_len: usize,
        values: *const i64, values_len: usize,
        out_offsets: *mut usize, out_offsets_len: usize,
        out_indices: *mut usize, out_indices_len: usize,
        out_values: *mut i64, out_values_len: usize,
        out_diagonal: *mut i64, out_diagonal_len: usize,
        out_places: *mut usize,
    ) -> i32;

    pub fn nalgebra_sparse_factor_symmetric_mod(
        modulus: u64,
        size: usize,
        offsets: *const usize, offsets_len: usize,
        indices: *const usize, indices_len: usize,
        values: *const i64, values_len: usize,
        out_offsets: *mut usize, out_offsets_len: usize,
        out_indices: *mut usize, out_indices_len: usize,
        out_values: *mut i64, out_values_len: usize,
        out_diagonal: *mut i64, out_diagonal_len: usize,
        out_places: *mut usize,
    ) -> i32;

    pub fn nalgebra_sparse_factor_symmetric_pivot_mod(
        modulus: u64, size: usize,
        offsets: *const usize, offsets_len: usize,
        indices: *const usize, indices_len: usize,
        values: *const i64, values_len: usize,
        out_column: *mut usize,
    ) -> i32;

    pub fn nalgebra_sparse_factor_symmetric_pivot(
        size: usize,
        offsets: *const usize, offsets_len: usize,
        indices: *const usize, indices_len: usize,
        values: *const i64, values_len: usize,
        out_column: *mut usize,
    ) -> i32;

    pub fn nalgebra_sparse_read_sizes(
        text: *const u8, text_len: usize,
        out_rows: *mut usize, out_cols: *mut usize, out_triplets: *mut usize,
    ) -> i32;

    pub fn nalgebra_sparse_read(
        text: *const u8, text_len: usize,
        out_row_indices: *mut usize, out_row_indices_len: usize,
        out_col_indices: *mut usize, out_col_indices_len: usize,
        out_values: *mut i64, out_values_len: usize,
        out_triplets: *mut usize,
    ) -> i32;

    pub fn nalgebra_sparse_text_fault(text: *const u8, text_len: usize, out_line: *mut usize) -> i32;

    pub fn nalgebra_sparse_write(
        rows: usize, cols: usize,
        row_indices: *const usize, row_indices_len: usize,
        col_indices: *const usize, col_indices_len: usize,
        values: *const i64, values_len: usize,
        out_text: *mut u8, out_text_len: usize,
        out_length: *mut usize,
    ) -> i32;

    pub fn nalgebra_sparse_matrix_from_rows(
        rows: usize, cols: usize,
        offsets: *const usize, offsets_len: usize,
        indices: *const usize, indices_len: usize,
        values: *const i64, values_len: usize,
        out: *mut Handle,
    ) -> i32;

    pub fn nalgebra_sparse_matrix_from_triplets(
        rows: usize, cols: usize,
        row_indices: *const usize, row_indices_len: usize,
        col_indices: *const usize, col_indices_len: usize,
        values: *const i64, values_len: usize,
        out: *mut Handle,
    ) -> i32;

    pub fn nalgebra_sparse_matrix_sizes(
        a: *mut Handle,
        out_rows: *mut usize, out_cols: *mut usize, out_places: *mut usize,
    ) -> i32;

    pub fn nalgebra_sparse_matrix_read(
        a: *mut Handle,
        out_offsets: *mut usize, out_offsets_len: usize,
        out_indices: *mut usize, out_indices_len: usize,
        out_values: *mut i64, out_values_len: usize,
        out_places: *mut usize,
    ) -> i32;

    pub fn nalgebra_sparse_matrix_transpose(a: *mut Handle, out: *mut Handle) -> i32;

    pub fn nalgebra_sparse_matrix_scale(factor: i64, a: *mut Handle, out: *mut Handle) -> i32;

    pub fn nalgebra_sparse_matrix_add(a: *mut Handle, b: *mut Handle, out: *mut Handle) -> i32;

    pub fn nalgebra_sparse_matrix_subtract(a: *mut Handle, b: *mut Handle, out: *mut Handle) -> i32;

    pub fn nalgebra_sparse_matrix_add_scaled(
        alpha: i64, a: *mut Handle,
        beta: i64, b: *mut Handle,
        out: *mut Handle,
    ) -> i32;

    pub fn nalgebra_sparse_matrix_multiply(a: *mut Handle, b: *mut Handle, out: *mut Handle) -> i32;

    pub fn nalgebra_sparse_matrix_multiply_dense(
        a: *mut Handle, cols: usize,
        b_values: *const i64, b_values_len: usize,
        out_values: *mut i64, out_values_len: usize,
    ) -> i32;

    pub fn nalgebra_sparse_matrix_clone(a: *mut Handle, out: *mut Handle) -> i32;

    pub fn nalgebra_sparse_matrix_free(a: *mut Handle);

    pub fn nalgebra_sparse_matrix_from_text(text: *const u8, text_len: usize, out: *mut Handle) -> i32;

    pub fn nalgebra_sparse_matrix_to_text(
        a: *mut Handle,
        out_text: *mut u8, out_text_len: usize,
        out_length: *mut usize,
    ) -> i32;

    pub fn nalgebra_sparse_matrix_solve_lower(
        a: *mut Handle, transposed: bool,
        cols: usize, values: *mut i64, values_len: usize,
    ) -> i32;

    pub fn nalgebra_sparse_matrix_solve_upper(
        a: *mut Handle, transposed: bool,
        cols: usize, values: *mut i64, values_len: usize,
    ) -> i32;

    pub fn nalgebra_sparse_matrix_factor(a: *mut Handle, out: *mut FactorHandle) -> i32;

    pub fn nalgebra_sparse_matrix_minimum_degree(a: *mut Handle, out_order: *mut usize, out_order_len: usize) -> i32;

    pub fn nalgebra_sparse_matrix_reverse_cuthill_mckee(a: *mut Handle, out_order: *mut usize, out_order_len: usize) -> i32;

    pub fn nalgebra_sparse_matrix_factor_in_order(
        a: *mut Handle, order: *const usize, order_len: usize, out: *mut FactorHandle,
    ) -> i32;

    pub fn nalgebra_sparse_factors_order(f: *mut FactorHandle, out_order: *mut usize, out_order_len: usize) -> i32;

    pub fn nalgebra_sparse_factors_solve(f: *mut FactorHandle, cols: usize, values: *mut i64, values_len: usize) -> i32;

    pub fn nalgebra_sparse_factors_sizes(f: *mut FactorHandle, out_size: *mut usize, out_places: *mut usize) -> i32;

    pub fn nalgebra_sparse_factors_read(
        f: *mut FactorHandle,
        out_offsets: *mut usize, out_offsets_len: usize,
        out_indices: *mut usize, out_indices_len: usize,
        out_values: *mut i64, out_values_len: usize,
        out_diagonal: *mut i64, out_diagonal_len: usize,
        out_places: *mut usize,
    ) -> i32;

    pub fn nalgebra_sparse_factors_clone(f: *mut FactorHandle, out: *mut FactorHandle) -> i32;

    pub fn nalgebra_sparse_factors_free(f: *mut FactorHandle);

    pub fn nalgebra_sparse_ring_matrix_from_rows(
        modulus: u64, rows: usize, cols: usize,
        offsets: *const usize, offsets_len: usize,
        indices: *const usize, indices_len: usize,
        values: *const i64, values_len: usize,
        out: *mut RingHandle,
    ) -> i32;

    pub fn nalgebra_sparse_ring_matrix_from_triplets(
        modulus: u64, rows: usize, cols: usize,
        row_indices: *const usize, row_indices_len: usize,
        col_indices: *const usize, col_indices_len: usize,
        values: *const i64, values_len: usize,
        out: *mut RingHandle,
    ) -> i32;

    pub fn nalgebra_sparse_ring_matrix_sizes(
        a: *mut RingHandle, out_modulus: *mut u64,
        out_rows: *mut usize, out_cols: *mut usize, out_places: *mut usize,
    ) -> i32;

    pub fn nalgebra_sparse_ring_matrix_read(
        a: *mut RingHandle,
        out_offsets: *mut usize, out_offsets_len: usize,
        out_indices: *mut usize, out_indices_len: usize,
        out_values: *mut i64, out_values_len: usize,
        out_places: *mut usize,
    ) -> i32;

    pub fn nalgebra_sparse_ring_matrix_transpose(a: *mut RingHandle, out: *mut RingHandle) -> i32;

    pub fn nalgebra_sparse_ring_matrix_scale(factor: i64, a: *mut RingHandle, out: *mut RingHandle) -> i32;

    pub fn nalgebra_sparse_ring_matrix_add(a: *mut RingHandle, b: *mut RingHandle, out: *mut RingHandle) -> i32;

    pub fn nalgebra_sparse_ring_matrix_subtract(a: *mut RingHandle, b: *mut RingHandle, out: *mut RingHandle) -> i32;

    pub fn nalgebra_sparse_ring_matrix_add_scaled(
        alpha: i64, a: *mut RingHandle,
        beta: i64, b: *mut RingHandle,
        out: *mut RingHandle,
    ) -> i32;

    pub fn nalgebra_sparse_ring_matrix_multiply(a: *mut RingHandle, b: *mut RingHandle, out: *mut RingHandle) -> i32;

    pub fn nalgebra_sparse_ring_matrix_multiply_dense(
        a: *mut RingHandle, cols: usize,
        b_values: *const i64, b_values_len: usize,
        out_values: *mut i64, out_values_len: usize,
    ) -> i32;

    pub fn nalgebra_sparse_ring_matrix_clone(a: *mut RingHandle, out: *mut RingHandle) -> i32;

    pub fn nalgebra_sparse_ring_matrix_free(a: *mut RingHandle);
}

/// `nalgebra_sparse_matrix` of the header: null means no matrix.
#[repr(C)]
#[derive(Debug)]
pub struct Handle {
    pub matrix: *mut std::ffi::c_void,
}

/// `nalgebra_sparse_factors` of the header: null means no factors.
#[repr(C)]
#[derive(Debug)]
pub struct FactorHandle {
    pub factors: *mut std::ffi::c_void,
}

/// `nalgebra_sparse_ring_matrix` of the header: null means no matrix.
#[repr(C)]
#[derive(Debug)]
pub struct RingHandle {
    pub matrix: *mut std::ffi::c_void,
}
