/* The inline functions of nalgebra_sparse.h, which includes this file: the calls with matrices as structs, and the
 * texts of statuses.
 *
 * Each function takes structs and calls the function of nalgebra_sparse.h with the same name but for the last word:
 * nalgebra_sparse_multiply_rows calls nalgebra_sparse_multiply. It returns the statuses of that function, and
 * SHAPE_MISMATCH if the shapes of the operands do not fit. A null pointer means an array of length 0, whatever length
 * is passed with it, so the data of an empty std::vector may be passed. The functions over handles take arrays as those
 * of nalgebra_sparse.h do, and null pointers too. These functions are tested, not proved.
 */
#ifndef NALGEBRA_SPARSE_INLINE_H
#define NALGEBRA_SPARSE_INLINE_H

/* The status if a file can't be opened, read or written: only the functions of nalgebra_sparse_files.h return it. */
enum { NALGEBRA_SPARSE_FILE_ERROR = 64 };

/* Returns the text of a status, without a full stop, or "an unknown status". It is static: do not free it. */
static inline const char *nalgebra_sparse_status_text(int32_t status) {
    switch (status) {
    case NALGEBRA_SPARSE_DONE: return "done";
    case NALGEBRA_SPARSE_OUT_OF_MEMORY: return "an allocation failed";
    case NALGEBRA_SPARSE_INVALID_STRUCTURE: return "the arrays have lengths, offsets or an order that the format does not allow";
    case NALGEBRA_SPARSE_INDEX_OUT_OF_BOUNDS: return "a row or a column index is out of bounds";
    case NALGEBRA_SPARSE_DUPLICATE_ENTRY: return "the same place is given more than once, or a number occurs twice in an order";
    case NALGEBRA_SPARSE_TOO_SMALL: return "an array for the result is too small";
    case NALGEBRA_SPARSE_SINGULAR: return "a value that must have an inverse has none";
    case NALGEBRA_SPARSE_UNKNOWN_CHOICE: return "a number that chooses among cases is none of those that the call knows";
    case NALGEBRA_SPARSE_INVALID_TEXT: return "a text does not match the grammar, or a number in it is out of range";
    case NALGEBRA_SPARSE_INVALID_HEADER: return "the format, the field and the symmetry of a text's header do not go together";
    case NALGEBRA_SPARSE_ENTRY_MISMATCH: return "the number of entries of a text is not the one of its size line";
    case NALGEBRA_SPARSE_TYPE_MISMATCH: return "a text has an entry that is no integer of 64 bits";
    case NALGEBRA_SPARSE_ZERO_INDEX: return "an index of a text is 0";
    case NALGEBRA_SPARSE_DIAGONAL_ENTRY: return "a skew-symmetric matrix has an entry on its diagonal";
    case NALGEBRA_SPARSE_NOT_LOWER_TRIANGLE: return "a symmetric or skew-symmetric matrix has an entry above the diagonal";
    case NALGEBRA_SPARSE_NON_SQUARE: return "a symmetric or skew-symmetric matrix is not square";
    case NALGEBRA_SPARSE_UNREADABLE: return "the bytes of a text are not UTF-8";
    case NALGEBRA_SPARSE_EMPTY_HANDLE: return "a handle is empty";
    case NALGEBRA_SPARSE_SHAPE_MISMATCH: return "the shapes of the operands do not fit";
    case NALGEBRA_SPARSE_RING_MISMATCH: return "the operands have different moduli";
    case NALGEBRA_SPARSE_FILE_ERROR: return "a file can't be opened, read or written";
    default: return "an unknown status";
    }
}

/* A matrix by rows: `offsets` has rows + 1 numbers, `indices` and `values` have `places`, the number of entries. */
typedef struct {
    size_t rows, cols;
    const size_t *offsets, *indices;
    const int64_t *values;
    size_t places;
} nalgebra_sparse_rows;

/* A matrix by columns: `offsets` has cols + 1 numbers, `indices` and `values` have `places`, the number of entries. */
typedef struct {
    size_t rows, cols;
    const size_t *offsets, *indices;
    const int64_t *values;
    size_t places;
} nalgebra_sparse_cols;

/* A list of triplets: the three arrays have `count` numbers each. */
typedef struct {
    size_t rows, cols;
    const size_t *row_indices, *col_indices;
    const int64_t *values;
    size_t count;
} nalgebra_sparse_lists;

/* A dense matrix with `cols` columns, column by column. `values_len` is the number of rows times `cols`. */
typedef struct {
    size_t cols;
    const int64_t *values;
    size_t values_len;
} nalgebra_sparse_dense;

/* Arrays for a matrix by rows or by columns: `offsets` with offsets_len numbers, `indices` and `values` with `room`
 * each. At status 0 the call sets `rows`, `cols` and `places`. At TOO_SMALL it sets `places` alone, to the `room` that
 * is needed: then the arrays, which may be null, have no matrix. Otherwise it changes nothing.
 */
typedef struct {
    size_t *offsets;
    size_t offsets_len;
    size_t *indices;
    int64_t *values;
    size_t room;
    size_t rows, cols, places;
} nalgebra_sparse_result;

/* Arrays for triplets, with `room` numbers each. nalgebra_sparse_read_sizes_lists sets `rows`, `cols` and `count`, the
 * `room` that is needed.
 */
typedef struct {
    size_t *row_indices, *col_indices;
    int64_t *values;
    size_t room;
    size_t rows, cols, count;
} nalgebra_sparse_triplets;

/* Returns the matrix that a call wrote by rows. It borrows the arrays of the result. */
static inline nalgebra_sparse_rows nalgebra_sparse_rows_of(const nalgebra_sparse_result *r) {
    nalgebra_sparse_rows a = {r->rows, r->cols, r->offsets, r->indices, r->values, r->places};
    return a;
}

/* Returns the matrix that a call wrote by columns. It borrows the arrays of the result. */
static inline nalgebra_sparse_cols nalgebra_sparse_cols_of(const nalgebra_sparse_result *r) {
    nalgebra_sparse_cols a = {r->rows, r->cols, r->offsets, r->indices, r->values, r->places};
    return a;
}

/* Returns the triplets that a call wrote. They borrow the arrays of the result. */
static inline nalgebra_sparse_lists nalgebra_sparse_lists_of(const nalgebra_sparse_triplets *r) {
    nalgebra_sparse_lists t = {r->rows, r->cols, r->row_indices, r->col_indices, r->values, r->count};
    return t;
}

/* The pointer that is passed for a null array. No call reads or writes through it. */
static inline size_t *nalgebra_sparse_no_sizes(void) {
    static size_t nothing;
    return &nothing;
}

static inline int64_t *nalgebra_sparse_no_values(void) {
    static int64_t nothing;
    return &nothing;
}

static inline const uint8_t *nalgebra_sparse_no_text(void) {
    static const uint8_t nothing = 0;
    return &nothing;
}

/* An array of sizes, of values, or of bytes, and its length. */
#define NALGEBRA_SPARSE_SIZES(p, length) (p) ? (p) : nalgebra_sparse_no_sizes(), (p) ? (length) : 0
#define NALGEBRA_SPARSE_VALUES(p, length) (p) ? (p) : nalgebra_sparse_no_values(), (p) ? (length) : 0
#define NALGEBRA_SPARSE_TEXT(p, length) (p) ? (p) : nalgebra_sparse_no_text(), (p) ? (length) : 0
/* The arrays of a matrix with this number of lanes, of its pattern, of triplets, of a dense matrix, and of a result. */
#define NALGEBRA_SPARSE_PATTERN(a, lanes) NALGEBRA_SPARSE_SIZES((a).offsets, (lanes) + 1), NALGEBRA_SPARSE_SIZES((a).indices, (a).places)
#define NALGEBRA_SPARSE_LANES(a, lanes) NALGEBRA_SPARSE_PATTERN(a, lanes), NALGEBRA_SPARSE_VALUES((a).values, (a).places)
#define NALGEBRA_SPARSE_LISTS(t) \
    NALGEBRA_SPARSE_SIZES((t).row_indices, (t).count), NALGEBRA_SPARSE_SIZES((t).col_indices, (t).count), \
        NALGEBRA_SPARSE_VALUES((t).values, (t).count)
#define NALGEBRA_SPARSE_DENSE(b) NALGEBRA_SPARSE_VALUES((b).values, (b).values_len)
#define NALGEBRA_SPARSE_OUT(r) \
    NALGEBRA_SPARSE_SIZES((r)->offsets, (r)->offsets_len), NALGEBRA_SPARSE_SIZES((r)->indices, (r)->room), \
        NALGEBRA_SPARSE_VALUES((r)->values, (r)->room)

/* Sets the shape and the number of entries of a result that the call wrote, or the number that is needed, and returns
 * the status. */
static inline int32_t nalgebra_sparse_written(int32_t status, nalgebra_sparse_result *out, size_t rows, size_t cols, size_t places) {
    if (status == NALGEBRA_SPARSE_DONE) {
        out->rows = rows;
        out->cols = cols;
    }
    if (status == NALGEBRA_SPARSE_DONE || status == NALGEBRA_SPARSE_TOO_SMALL) out->places = places;
    return status;
}

/* ---- triplets */

static inline int32_t nalgebra_sparse_assemble_csr_lists(nalgebra_sparse_lists t, nalgebra_sparse_result *out) {
    size_t places = 0;
    int32_t status = nalgebra_sparse_assemble_csr(t.rows, t.cols, NALGEBRA_SPARSE_LISTS(t), NALGEBRA_SPARSE_OUT(out), &places);
    return nalgebra_sparse_written(status, out, t.rows, t.cols, places);
}

static inline int32_t nalgebra_sparse_assemble_csc_lists(nalgebra_sparse_lists t, nalgebra_sparse_result *out) {
    size_t places = 0;
    int32_t status = nalgebra_sparse_assemble_csc(t.rows, t.cols, NALGEBRA_SPARSE_LISTS(t), NALGEBRA_SPARSE_OUT(out), &places);
    return nalgebra_sparse_written(status, out, t.rows, t.cols, places);
}

static inline int32_t nalgebra_sparse_assemble_csr_mod_lists(uint64_t modulus, nalgebra_sparse_lists t, nalgebra_sparse_result *out) {
    size_t places = 0;
    int32_t status = nalgebra_sparse_assemble_csr_mod(
        modulus, t.rows, t.cols, NALGEBRA_SPARSE_LISTS(t), NALGEBRA_SPARSE_OUT(out), &places);
    return nalgebra_sparse_written(status, out, t.rows, t.cols, places);
}

static inline int32_t nalgebra_sparse_assemble_csc_mod_lists(uint64_t modulus, nalgebra_sparse_lists t, nalgebra_sparse_result *out) {
    size_t places = 0;
    int32_t status = nalgebra_sparse_assemble_csc_mod(
        modulus, t.rows, t.cols, NALGEBRA_SPARSE_LISTS(t), NALGEBRA_SPARSE_OUT(out), &places);
    return nalgebra_sparse_written(status, out, t.rows, t.cols, places);
}

static inline int32_t nalgebra_sparse_read_sizes_lists(const uint8_t *text, size_t text_len, nalgebra_sparse_triplets *out) {
    return nalgebra_sparse_read_sizes(NALGEBRA_SPARSE_TEXT(text, text_len), &out->rows, &out->cols, &out->count);
}

/* `out` has the shape that nalgebra_sparse_read_sizes_lists set. */
static inline int32_t nalgebra_sparse_read_lists(const uint8_t *text, size_t text_len, nalgebra_sparse_triplets *out) {
    return nalgebra_sparse_read(
        NALGEBRA_SPARSE_TEXT(text, text_len), NALGEBRA_SPARSE_SIZES(out->row_indices, out->room),
        NALGEBRA_SPARSE_SIZES(out->col_indices, out->room), NALGEBRA_SPARSE_VALUES(out->values, out->room), &out->count);
}

static inline int32_t nalgebra_sparse_text_fault_bytes(const uint8_t *text, size_t text_len, size_t *out_line) {
    return nalgebra_sparse_text_fault(NALGEBRA_SPARSE_TEXT(text, text_len), out_line);
}

static inline int32_t nalgebra_sparse_write_length_lists(nalgebra_sparse_lists t, size_t *out_length) {
    return nalgebra_sparse_write_length(t.rows, t.cols, NALGEBRA_SPARSE_LISTS(t), out_length);
}

/* No text is empty, so `out_text` is not null. */
static inline int32_t nalgebra_sparse_write_lists(nalgebra_sparse_lists t, uint8_t *out_text, size_t out_text_len, size_t *out_length) {
    return nalgebra_sparse_write(t.rows, t.cols, NALGEBRA_SPARSE_LISTS(t), out_text, out_text_len, out_length);
}

/* ---- matrices by rows */

static inline int32_t nalgebra_sparse_transpose_rows(nalgebra_sparse_rows a, nalgebra_sparse_result *out) {
    size_t places = 0;
    int32_t status = nalgebra_sparse_transpose(a.rows, a.cols, NALGEBRA_SPARSE_LANES(a, a.rows), NALGEBRA_SPARSE_OUT(out), &places);
    return nalgebra_sparse_written(status, out, a.cols, a.rows, places);
}

static inline int32_t nalgebra_sparse_add_rows(nalgebra_sparse_rows a, nalgebra_sparse_rows b, nalgebra_sparse_result *out) {
    size_t places = 0;
    if (a.rows != b.rows || a.cols != b.cols) return NALGEBRA_SPARSE_SHAPE_MISMATCH;
    int32_t status = nalgebra_sparse_add(
        a.rows, a.cols, NALGEBRA_SPARSE_LANES(a, a.rows), NALGEBRA_SPARSE_LANES(b, b.rows), NALGEBRA_SPARSE_OUT(out), &places);
    return nalgebra_sparse_written(status, out, a.rows, a.cols, places);
}

static inline int32_t nalgebra_sparse_subtract_rows(nalgebra_sparse_rows a, nalgebra_sparse_rows b, nalgebra_sparse_result *out) {
    size_t places = 0;
    if (a.rows != b.rows || a.cols != b.cols) return NALGEBRA_SPARSE_SHAPE_MISMATCH;
    int32_t status = nalgebra_sparse_subtract(
        a.rows, a.cols, NALGEBRA_SPARSE_LANES(a, a.rows), NALGEBRA_SPARSE_LANES(b, b.rows), NALGEBRA_SPARSE_OUT(out), &places);
    return nalgebra_sparse_written(status, out, a.rows, a.cols, places);
}

static inline int32_t nalgebra_sparse_add_scaled_rows(
    int64_t alpha, nalgebra_sparse_rows a, int64_t beta, nalgebra_sparse_rows b, nalgebra_sparse_result *out) {
    size_t places = 0;
    if (a.rows != b.rows || a.cols != b.cols) return NALGEBRA_SPARSE_SHAPE_MISMATCH;
    int32_t status = nalgebra_sparse_add_scaled(
        a.rows, a.cols, alpha, NALGEBRA_SPARSE_LANES(a, a.rows), beta, NALGEBRA_SPARSE_LANES(b, b.rows),
        NALGEBRA_SPARSE_OUT(out), &places);
    return nalgebra_sparse_written(status, out, a.rows, a.cols, places);
}

static inline int32_t nalgebra_sparse_add_mod_rows(
    uint64_t modulus, nalgebra_sparse_rows a, nalgebra_sparse_rows b, nalgebra_sparse_result *out) {
    size_t places = 0;
    if (a.rows != b.rows || a.cols != b.cols) return NALGEBRA_SPARSE_SHAPE_MISMATCH;
    int32_t status = nalgebra_sparse_add_mod(
        modulus, a.rows, a.cols, NALGEBRA_SPARSE_LANES(a, a.rows), NALGEBRA_SPARSE_LANES(b, b.rows),
        NALGEBRA_SPARSE_OUT(out), &places);
    return nalgebra_sparse_written(status, out, a.rows, a.cols, places);
}

static inline int32_t nalgebra_sparse_subtract_mod_rows(
    uint64_t modulus, nalgebra_sparse_rows a, nalgebra_sparse_rows b, nalgebra_sparse_result *out) {
    size_t places = 0;
    if (a.rows != b.rows || a.cols != b.cols) return NALGEBRA_SPARSE_SHAPE_MISMATCH;
    int32_t status = nalgebra_sparse_subtract_mod(
        modulus, a.rows, a.cols, NALGEBRA_SPARSE_LANES(a, a.rows), NALGEBRA_SPARSE_LANES(b, b.rows),
        NALGEBRA_SPARSE_OUT(out), &places);
    return nalgebra_sparse_written(status, out, a.rows, a.cols, places);
}

static inline int32_t nalgebra_sparse_add_scaled_mod_rows(
    uint64_t modulus, int64_t alpha, nalgebra_sparse_rows a, int64_t beta, nalgebra_sparse_rows b, nalgebra_sparse_result *out) {
    size_t places = 0;
    if (a.rows != b.rows || a.cols != b.cols) return NALGEBRA_SPARSE_SHAPE_MISMATCH;
    int32_t status = nalgebra_sparse_add_scaled_mod(
        modulus, a.rows, a.cols, alpha, NALGEBRA_SPARSE_LANES(a, a.rows), beta, NALGEBRA_SPARSE_LANES(b, b.rows),
        NALGEBRA_SPARSE_OUT(out), &places);
    return nalgebra_sparse_written(status, out, a.rows, a.cols, places);
}

static inline int32_t nalgebra_sparse_multiply_places_rows(nalgebra_sparse_rows a, nalgebra_sparse_rows b, size_t *out_places) {
    if (a.cols != b.rows) return NALGEBRA_SPARSE_SHAPE_MISMATCH;
    return nalgebra_sparse_multiply_places(
        a.rows, a.cols, b.cols, NALGEBRA_SPARSE_PATTERN(a, a.rows), NALGEBRA_SPARSE_PATTERN(b, b.rows), out_places);
}

static inline int32_t nalgebra_sparse_multiply_rows(nalgebra_sparse_rows a, nalgebra_sparse_rows b, nalgebra_sparse_result *out) {
    size_t places = 0;
    if (a.cols != b.rows) return NALGEBRA_SPARSE_SHAPE_MISMATCH;
    int32_t status = nalgebra_sparse_multiply(
        a.rows, a.cols, b.cols, NALGEBRA_SPARSE_LANES(a, a.rows), NALGEBRA_SPARSE_LANES(b, b.rows), NALGEBRA_SPARSE_OUT(out),
        &places);
    return nalgebra_sparse_written(status, out, a.rows, b.cols, places);
}

static inline int32_t nalgebra_sparse_multiply_mod_rows(
    uint64_t modulus, nalgebra_sparse_rows a, nalgebra_sparse_rows b, nalgebra_sparse_result *out) {
    size_t places = 0;
    if (a.cols != b.rows) return NALGEBRA_SPARSE_SHAPE_MISMATCH;
    int32_t status = nalgebra_sparse_multiply_mod(
        modulus, a.rows, a.cols, b.cols, NALGEBRA_SPARSE_LANES(a, a.rows), NALGEBRA_SPARSE_LANES(b, b.rows),
        NALGEBRA_SPARSE_OUT(out), &places);
    return nalgebra_sparse_written(status, out, a.rows, b.cols, places);
}

static inline int32_t nalgebra_sparse_multiply_dense_rows(
    nalgebra_sparse_rows a, nalgebra_sparse_dense b, int64_t *out_values, size_t out_values_len) {
    return nalgebra_sparse_multiply_dense(
        a.rows, a.cols, b.cols, NALGEBRA_SPARSE_LANES(a, a.rows), NALGEBRA_SPARSE_DENSE(b),
        NALGEBRA_SPARSE_VALUES(out_values, out_values_len));
}

static inline int32_t nalgebra_sparse_multiply_dense_mod_rows(
    uint64_t modulus, nalgebra_sparse_rows a, nalgebra_sparse_dense b, int64_t *out_values, size_t out_values_len) {
    return nalgebra_sparse_multiply_dense_mod(
        modulus, a.rows, a.cols, b.cols, NALGEBRA_SPARSE_LANES(a, a.rows), NALGEBRA_SPARSE_DENSE(b),
        NALGEBRA_SPARSE_VALUES(out_values, out_values_len));
}

static inline int32_t nalgebra_sparse_divide_rows(nalgebra_sparse_rows a, int64_t divisor, nalgebra_sparse_result *out) {
    size_t places = 0;
    int32_t status = nalgebra_sparse_divide(
        a.rows, a.cols, NALGEBRA_SPARSE_LANES(a, a.rows), divisor, NALGEBRA_SPARSE_OUT(out), &places);
    return nalgebra_sparse_written(status, out, a.rows, a.cols, places);
}

static inline int32_t nalgebra_sparse_divide_mod_rows(
    uint64_t modulus, nalgebra_sparse_rows a, int64_t divisor, nalgebra_sparse_result *out) {
    size_t places = 0;
    int32_t status = nalgebra_sparse_divide_mod(
        modulus, a.rows, a.cols, NALGEBRA_SPARSE_LANES(a, a.rows), divisor, NALGEBRA_SPARSE_OUT(out), &places);
    return nalgebra_sparse_written(status, out, a.rows, a.cols, places);
}

/* ---- square matrices by columns */

static inline int32_t nalgebra_sparse_solve_lower_cols(
    nalgebra_sparse_cols a, bool transposed, nalgebra_sparse_dense b, int64_t *out_values, size_t out_values_len) {
    if (a.rows != a.cols) return NALGEBRA_SPARSE_SHAPE_MISMATCH;
    return nalgebra_sparse_solve_lower(
        a.cols, b.cols, NALGEBRA_SPARSE_LANES(a, a.cols), transposed, NALGEBRA_SPARSE_DENSE(b),
        NALGEBRA_SPARSE_VALUES(out_values, out_values_len));
}

static inline int32_t nalgebra_sparse_solve_lower_mod_cols(
    uint64_t modulus, nalgebra_sparse_cols a, bool transposed, nalgebra_sparse_dense b, int64_t *out_values, size_t out_values_len) {
    if (a.rows != a.cols) return NALGEBRA_SPARSE_SHAPE_MISMATCH;
    return nalgebra_sparse_solve_lower_mod(
        modulus, a.cols, b.cols, NALGEBRA_SPARSE_LANES(a, a.cols), transposed, NALGEBRA_SPARSE_DENSE(b),
        NALGEBRA_SPARSE_VALUES(out_values, out_values_len));
}

static inline int32_t nalgebra_sparse_solve_symmetric_cols(
    nalgebra_sparse_cols a, nalgebra_sparse_dense b, int64_t *out_values, size_t out_values_len) {
    if (a.rows != a.cols) return NALGEBRA_SPARSE_SHAPE_MISMATCH;
    return nalgebra_sparse_solve_symmetric(
        a.cols, b.cols, NALGEBRA_SPARSE_LANES(a, a.cols), NALGEBRA_SPARSE_DENSE(b), NALGEBRA_SPARSE_VALUES(out_values, out_values_len));
}

static inline int32_t nalgebra_sparse_solve_symmetric_mod_cols(
    uint64_t modulus, nalgebra_sparse_cols a, nalgebra_sparse_dense b, int64_t *out_values, size_t out_values_len) {
    if (a.rows != a.cols) return NALGEBRA_SPARSE_SHAPE_MISMATCH;
    return nalgebra_sparse_solve_symmetric_mod(
        modulus, a.cols, b.cols, NALGEBRA_SPARSE_LANES(a, a.cols), NALGEBRA_SPARSE_DENSE(b),
        NALGEBRA_SPARSE_VALUES(out_values, out_values_len));
}

static inline int32_t nalgebra_sparse_fill_places_cols(nalgebra_sparse_cols a, int32_t triangle, size_t *out_places) {
    if (a.rows != a.cols) return NALGEBRA_SPARSE_SHAPE_MISMATCH;
    return nalgebra_sparse_fill_places(a.cols, triangle, NALGEBRA_SPARSE_PATTERN(a, a.cols), out_places);
}

/* The values of `out` are unchanged, and may be null. */
static inline int32_t nalgebra_sparse_fill_cols(nalgebra_sparse_cols a, int32_t triangle, nalgebra_sparse_result *out) {
    size_t places = 0;
    if (a.rows != a.cols) return NALGEBRA_SPARSE_SHAPE_MISMATCH;
    int32_t status = nalgebra_sparse_fill(
        a.cols, triangle, NALGEBRA_SPARSE_PATTERN(a, a.cols), NALGEBRA_SPARSE_SIZES(out->offsets, out->offsets_len),
        NALGEBRA_SPARSE_SIZES(out->indices, out->room), &places);
    return nalgebra_sparse_written(status, out, a.rows, a.cols, places);
}

static inline int32_t nalgebra_sparse_factor_symmetric_cols(
    nalgebra_sparse_cols a, nalgebra_sparse_result *out, int64_t *out_diagonal, size_t out_diagonal_len) {
    size_t places = 0;
    if (a.rows != a.cols) return NALGEBRA_SPARSE_SHAPE_MISMATCH;
    int32_t status = nalgebra_sparse_factor_symmetric(
        a.cols, NALGEBRA_SPARSE_LANES(a, a.cols), NALGEBRA_SPARSE_OUT(out), NALGEBRA_SPARSE_VALUES(out_diagonal, out_diagonal_len),
        &places);
    return nalgebra_sparse_written(status, out, a.rows, a.cols, places);
}

static inline int32_t nalgebra_sparse_factor_symmetric_mod_cols(
    uint64_t modulus, nalgebra_sparse_cols a, nalgebra_sparse_result *out, int64_t *out_diagonal, size_t out_diagonal_len) {
    size_t places = 0;
    if (a.rows != a.cols) return NALGEBRA_SPARSE_SHAPE_MISMATCH;
    int32_t status = nalgebra_sparse_factor_symmetric_mod(
        modulus, a.cols, NALGEBRA_SPARSE_LANES(a, a.cols), NALGEBRA_SPARSE_OUT(out),
        NALGEBRA_SPARSE_VALUES(out_diagonal, out_diagonal_len), &places);
    return nalgebra_sparse_written(status, out, a.rows, a.cols, places);
}

static inline int32_t nalgebra_sparse_factor_symmetric_pivot_cols(nalgebra_sparse_cols a, size_t *out_column) {
    if (a.rows != a.cols) return NALGEBRA_SPARSE_SHAPE_MISMATCH;
    return nalgebra_sparse_factor_symmetric_pivot(a.cols, NALGEBRA_SPARSE_LANES(a, a.cols), out_column);
}

static inline int32_t nalgebra_sparse_factor_symmetric_pivot_mod_cols(
    uint64_t modulus, nalgebra_sparse_cols a, size_t *out_column) {
    if (a.rows != a.cols) return NALGEBRA_SPARSE_SHAPE_MISMATCH;
    return nalgebra_sparse_factor_symmetric_pivot_mod(modulus, a.cols, NALGEBRA_SPARSE_LANES(a, a.cols), out_column);
}

/* ---- handles */

static inline int32_t nalgebra_sparse_matrix_from_text_bytes(const uint8_t *text, size_t text_len, nalgebra_sparse_matrix *out) {
    return nalgebra_sparse_matrix_from_text(NALGEBRA_SPARSE_TEXT(text, text_len), out);
}

/* Writes the length of the text of the matrix behind `a` to *out_length: the room that nalgebra_sparse_matrix_to_text
 * needs. */
static inline int32_t nalgebra_sparse_matrix_text_length(nalgebra_sparse_matrix *a, size_t *out_length) {
    uint8_t nothing = 0;
    int32_t status = nalgebra_sparse_matrix_to_text(a, &nothing, 0, out_length);
    /* No text is empty. */
    return status == NALGEBRA_SPARSE_TOO_SMALL ? NALGEBRA_SPARSE_DONE : status;
}

static inline int32_t nalgebra_sparse_matrix_multiply_dense_values(
    nalgebra_sparse_matrix *a, size_t cols, const int64_t *b_values, size_t b_values_len, int64_t *out_values, size_t out_values_len) {
    return nalgebra_sparse_matrix_multiply_dense(
        a, cols, NALGEBRA_SPARSE_VALUES(b_values, b_values_len), NALGEBRA_SPARSE_VALUES(out_values, out_values_len));
}

static inline int32_t nalgebra_sparse_matrix_solve_lower_values(
    nalgebra_sparse_matrix *a, bool transposed, size_t cols, int64_t *values, size_t values_len) {
    return nalgebra_sparse_matrix_solve_lower(a, transposed, cols, NALGEBRA_SPARSE_VALUES(values, values_len));
}

static inline int32_t nalgebra_sparse_matrix_solve_upper_values(
    nalgebra_sparse_matrix *a, bool transposed, size_t cols, int64_t *values, size_t values_len) {
    return nalgebra_sparse_matrix_solve_upper(a, transposed, cols, NALGEBRA_SPARSE_VALUES(values, values_len));
}

static inline int32_t nalgebra_sparse_matrix_minimum_degree_values(
    nalgebra_sparse_matrix *a, size_t *out_order, size_t out_order_len) {
    return nalgebra_sparse_matrix_minimum_degree(a, NALGEBRA_SPARSE_SIZES(out_order, out_order_len));
}

static inline int32_t nalgebra_sparse_matrix_reverse_cuthill_mckee_values(
    nalgebra_sparse_matrix *a, size_t *out_order, size_t out_order_len) {
    return nalgebra_sparse_matrix_reverse_cuthill_mckee(a, NALGEBRA_SPARSE_SIZES(out_order, out_order_len));
}

static inline int32_t nalgebra_sparse_matrix_factor_in_order_values(
    nalgebra_sparse_matrix *a, const size_t *order, size_t order_len, nalgebra_sparse_factors *out) {
    return nalgebra_sparse_matrix_factor_in_order(a, NALGEBRA_SPARSE_SIZES(order, order_len), out);
}

static inline int32_t nalgebra_sparse_factors_order_values(
    nalgebra_sparse_factors *f, size_t *out_order, size_t out_order_len) {
    return nalgebra_sparse_factors_order(f, NALGEBRA_SPARSE_SIZES(out_order, out_order_len));
}

static inline int32_t nalgebra_sparse_factors_solve_values(
    nalgebra_sparse_factors *f, size_t cols, int64_t *values, size_t values_len) {
    return nalgebra_sparse_factors_solve(f, cols, NALGEBRA_SPARSE_VALUES(values, values_len));
}

#undef NALGEBRA_SPARSE_SIZES
#undef NALGEBRA_SPARSE_VALUES
#undef NALGEBRA_SPARSE_TEXT
#undef NALGEBRA_SPARSE_PATTERN
#undef NALGEBRA_SPARSE_LANES
#undef NALGEBRA_SPARSE_LISTS
#undef NALGEBRA_SPARSE_DENSE
#undef NALGEBRA_SPARSE_OUT

#endif
