/* Exact sparse matrices: the calls of the static library libsparse_c.a.
 *
 * Values are integers modulo 2^64, represented as int64_t: sums and products wrap. A matrix by rows (CSR) is a shape
 * and three arrays: `offsets` with rows + 1 numbers, where row i has the entries offsets[i] to offsets[i + 1] - 1; the
 * column of each entry, strictly increasing in each row; and the value of each entry, which may be 0. The arrays of a
 * matrix by columns (CSC) are those of its transpose by rows. A dense matrix is an array of its values, column by
 * column.
 *
 * Arrays of a matrix are sound if there are rows + 1 offsets, which begin with 0, do not decrease and end with the
 * number of indices, if the indices are below the number of columns and strictly increase in each row, and if there are
 * as many values as indices. The values of a dense matrix are sound if their number is rows * cols, and lists of
 * triplets if they have the same length and their indices are within the shape.
 *
 * The calls whose names end in _mod compute modulo `modulus` instead, which is one of 2, 3, 5, 7, 11, 13, 101, 65537,
 * 998244353, 1000000007 and 2305843009213693951 (2^61 - 1); for any other modulus the status is UNKNOWN_CHOICE. An
 * int64_t of an operand means its residue, also if it is negative or larger than the modulus, and the values of a
 * result are from 0 to modulus - 1.
 *
 * What is proved. Every call returns, accesses no memory outside the arrays that it is given, and has a contract in
 * crates/sparse_c/src, which holds for all arrays, sound or not. At status 0 the arrays for the result begin with the
 * arrays of a sound matrix, whose plain matrix is the one that the call names: the transpose, the sum, the product of
 * the plain matrices of the operands; or they begin with an X that solves the equation, with the factors of the matrix,
 * with the triplets that a text means, or with the text of triplets. The elements of longer arrays after the result are
 * unchanged. At any other status the arrays are unchanged, and the status says why. Equations hold in the ring of the
 * call: the integers modulo 2^64, or modulo `modulus`.
 *
 * At TOO_SMALL the call tells the size that is needed: the last argument, out_places, out_triplets or out_length,
 * becomes the number that it would have at status 0. So after a call with short arrays, or with none, you can call
 * again with arrays of that size. The other sizes follow from the shape. At any status but 0 and TOO_SMALL that number
 * is unchanged. The calls that write a dense matrix have no such argument, and nalgebra_sparse_matrix_read and
 * nalgebra_sparse_matrix_read_32 leave it unchanged.
 *
 * The statuses of each call are listed in the order in which it tests for their causes, and it returns the first that
 * applies: first a number that chooses among cases, then the faults of the operands in their order, then SINGULAR, and
 * last TOO_SMALL. So at status 0, SINGULAR and TOO_SMALL all operands are sound, and at TOO_SMALL there is a result,
 * and some array is smaller than its part of it. OUT_OF_MEMORY may be returned instead of any status but
 * UNKNOWN_CHOICE.
 *
 * What is not proved. No contract says that OUT_OF_MEMORY is returned only if an allocation failed: by the contracts it
 * may be returned at any time. A test refuses each request for memory of small calls in turn
 * (bindings/c/test_refusals.c). Of several causes that apply to a call over handles it is proved that an empty handle
 * comes first, then SHAPE_MISMATCH, then a wrong length, then the numbers of an order, then SINGULAR, and last
 * TOO_SMALL; of other causes it is not proved which one decides. It is tested, too, that a freed handle gives back its
 * memory. This header and the programs around the library are checked by tests alone (bindings/test). The caller must
 * ensure that
 *   - each pointer is not null, even where the length is 0, is aligned, and has at least as many elements as the length
 *     says (the inline functions over structs take the null pointer of an empty std::vector, and pass another one);
 *   - no array for a result overlaps another array;
 *   - malloc, realloc and free belong to one allocator, which aligns blocks as the C standard requires;
 *   - no function is called from a signal handler, or in the child of a fork of a process with threads.
 *
 * Each call takes time and memory as the call of the Rattle library does, and in addition copies the operands' arrays.
 * Sums read the operands without a copy if the arrays for the result have room for the entries of both.
 *
 * Threads. The library has no global variables: all that persists between calls is owned by handles. So any number of
 * threads may call at once. They may share the arrays of operands, and each handle is used by one call at a time. While
 * a call runs, no other thread may write an array that it reads, or read or write an array for its result.
 *
 * The functions at the end (nalgebra_sparse_inline.h) take matrices as structs and null pointers as empty arrays, and
 * nalgebra_sparse_status_text says what a status means; those of nalgebra_sparse_files.h read and write files by name.
 */
#ifndef NALGEBRA_SPARSE_H
#define NALGEBRA_SPARSE_H

#ifndef __cplusplus
#include <stdbool.h>
#endif
#include <errno.h>
#include <stddef.h>
#include <stdint.h>
#include <stdio.h>
#include <stdlib.h>

#if !defined SIZE_MAX || SIZE_MAX != UINT64_MAX
#error "the library is built for a size_t of 64 bits"
#endif

/* The version of the library. */
#define NALGEBRA_SPARSE_VERSION_MAJOR 0
#define NALGEBRA_SPARSE_VERSION_MINOR 1
#define NALGEBRA_SPARSE_VERSION_PATCH 0
#define NALGEBRA_SPARSE_VERSION "0.1.0"

#ifdef __cplusplus
extern "C" {
#endif

/* The statuses. */
enum {
    NALGEBRA_SPARSE_DONE = 0,
    /* An allocation failed. */
    NALGEBRA_SPARSE_OUT_OF_MEMORY = 1,
    /* The arrays have lengths, offsets or an order that the format does not allow. */
    NALGEBRA_SPARSE_INVALID_STRUCTURE = 2,
    /* A row or a column index is out of bounds. */
    NALGEBRA_SPARSE_INDEX_OUT_OF_BOUNDS = 3,
    /* Two entries have the same row and column, or a number occurs twice in an order. */
    NALGEBRA_SPARSE_DUPLICATE_ENTRY = 4,
    /* An array for the result is too small. The call writes the size that is needed: see above. */
    NALGEBRA_SPARSE_TOO_SMALL = 5,
    /* A value that must have an inverse has none. */
    NALGEBRA_SPARSE_SINGULAR = 6,
    /* A number that chooses among cases, such as a modulus, is not one of those that the call knows. */
    NALGEBRA_SPARSE_UNKNOWN_CHOICE = 7,
    /* A text does not match the grammar, or a number in it is out of range. */
    NALGEBRA_SPARSE_INVALID_TEXT = 8,
    /* The format, the field and the symmetry of a text's header do not go together. */
    NALGEBRA_SPARSE_INVALID_HEADER = 9,
    /* The number of entries of a text is not the one of its size line. */
    NALGEBRA_SPARSE_ENTRY_MISMATCH = 10,
    /* A text has an entry that is not an integer of 64 bits. */
    NALGEBRA_SPARSE_TYPE_MISMATCH = 11,
    /* An index of a text is 0; indices of texts count from 1. */
    NALGEBRA_SPARSE_ZERO_INDEX = 12,
    /* A skew-symmetric matrix has an entry on its diagonal. */
    NALGEBRA_SPARSE_DIAGONAL_ENTRY = 13,
    /* A symmetric or skew-symmetric matrix has an entry above the diagonal. */
    NALGEBRA_SPARSE_NOT_LOWER_TRIANGLE = 14,
    /* A symmetric or skew-symmetric matrix is not square. */
    NALGEBRA_SPARSE_NON_SQUARE = 15,
    /* The bytes of a text are not UTF-8. */
    NALGEBRA_SPARSE_UNREADABLE = 16,
    /* A handle is empty. */
    NALGEBRA_SPARSE_EMPTY_HANDLE = 17,
    /* The shapes of the operands do not fit. */
    NALGEBRA_SPARSE_SHAPE_MISMATCH = 18,
    /* The operands have different moduli. */
    NALGEBRA_SPARSE_RING_MISMATCH = 19
};

/* The triangles of nalgebra_sparse_fill. */
enum { NALGEBRA_SPARSE_UPPER = 0, NALGEBRA_SPARSE_LOWER = 1, NALGEBRA_SPARSE_BOTH = 2 };

/* Writes the matrix of triplets by rows: an entry for each row and column in the lists, with the sum of the values
 * there.
 *
 * The three lists have the same length. out_offsets needs rows + 1 numbers, and out_indices and out_values one for each
 * entry: `values_len` is always enough. *out_places becomes the number of entries, also at TOO_SMALL.
 *
 * Statuses: OUT_OF_MEMORY; INVALID_STRUCTURE if the lists have different lengths; INDEX_OUT_OF_BOUNDS; TOO_SMALL.
 */
int32_t nalgebra_sparse_assemble_csr(
    size_t rows, size_t cols,
    const size_t *row_indices, size_t row_indices_len,
    const size_t *col_indices, size_t col_indices_len,
    const int64_t *values, size_t values_len,
    size_t *out_offsets, size_t out_offsets_len,
    size_t *out_indices, size_t out_indices_len,
    int64_t *out_values, size_t out_values_len,
    size_t *out_places);

/* Writes the matrix of triplets by columns: out_offsets needs cols + 1 numbers, and out_indices are rows. Otherwise
 * like nalgebra_sparse_assemble_csr.
 */
int32_t nalgebra_sparse_assemble_csc(
    size_t rows, size_t cols,
    const size_t *row_indices, size_t row_indices_len,
    const size_t *col_indices, size_t col_indices_len,
    const int64_t *values, size_t values_len,
    size_t *out_offsets, size_t out_offsets_len,
    size_t *out_indices, size_t out_indices_len,
    int64_t *out_values, size_t out_values_len,
    size_t *out_places);

/* Writes the matrix of triplets by rows modulo `modulus`: the list of moduli and the meaning of values are at the head
 * of this file. The arrays for the result are as for nalgebra_sparse_assemble_csr.
 *
 * Statuses: UNKNOWN_CHOICE if the modulus is not listed; otherwise as for nalgebra_sparse_assemble_csr.
 */
int32_t nalgebra_sparse_assemble_csr_mod(
    uint64_t modulus,
    size_t rows, size_t cols,
    const size_t *row_indices, size_t row_indices_len,
    const size_t *col_indices, size_t col_indices_len,
    const int64_t *values, size_t values_len,
    size_t *out_offsets, size_t out_offsets_len,
    size_t *out_indices, size_t out_indices_len,
    int64_t *out_values, size_t out_values_len,
    size_t *out_places);

/* Writes the matrix of a list of triplets by columns modulo `modulus`. The arrays for the result are as for
 * nalgebra_sparse_assemble_csc, and the statuses as for nalgebra_sparse_assemble_csr_mod.
 */
int32_t nalgebra_sparse_assemble_csc_mod(
    uint64_t modulus,
    size_t rows, size_t cols,
    const size_t *row_indices, size_t row_indices_len,
    const size_t *col_indices, size_t col_indices_len,
    const int64_t *values, size_t values_len,
    size_t *out_offsets, size_t out_offsets_len,
    size_t *out_indices, size_t out_indices_len,
    int64_t *out_values, size_t out_values_len,
    size_t *out_places);

/* Writes the transpose of a matrix by rows, by rows too: out_offsets needs cols + 1 numbers, and out_indices and
 * out_values `values_len` each. It only moves values, so it can be used for every modulus.
 *
 * Statuses: OUT_OF_MEMORY; INVALID_STRUCTURE, INDEX_OUT_OF_BOUNDS or DUPLICATE_ENTRY for the first fault of the arrays;
 * TOO_SMALL. Faults are tested in this order: the number of offsets; the first and the last offset; row by row the end
 * of the row and then its indices, each compared with the number of columns and then with the index before it; the
 * number of values.
 */
int32_t nalgebra_sparse_transpose(
    size_t rows, size_t cols,
    const size_t *offsets, size_t offsets_len,
    const size_t *indices, size_t indices_len,
    const int64_t *values, size_t values_len,
    size_t *out_offsets, size_t out_offsets_len,
    size_t *out_indices, size_t out_indices_len,
    int64_t *out_values, size_t out_values_len,
    size_t *out_places);

/* Writes the sum a + b of two matrices by rows with the same shape, on the union of their patterns, also where a sum is
 * 0: out_offsets needs rows + 1 numbers, and for out_indices and out_values a_values_len + b_values_len is always
 * enough. With that much room the call allocates nothing; with less it computes the sum in memory first, and copies it.
 *
 * Statuses: OUT_OF_MEMORY; the first fault of a, and otherwise that of b, as for nalgebra_sparse_transpose; TOO_SMALL.
 */
int32_t nalgebra_sparse_add(
    size_t rows, size_t cols,
    const size_t *a_offsets, size_t a_offsets_len,
    const size_t *a_indices, size_t a_indices_len,
    const int64_t *a_values, size_t a_values_len,
    const size_t *b_offsets, size_t b_offsets_len,
    const size_t *b_indices, size_t b_indices_len,
    const int64_t *b_values, size_t b_values_len,
    size_t *out_offsets, size_t out_offsets_len,
    size_t *out_indices, size_t out_indices_len,
    int64_t *out_values, size_t out_values_len,
    size_t *out_places);

/* Writes the difference a - b. Otherwise like nalgebra_sparse_add. */
int32_t nalgebra_sparse_subtract(
    size_t rows, size_t cols,
    const size_t *a_offsets, size_t a_offsets_len,
    const size_t *a_indices, size_t a_indices_len,
    const int64_t *a_values, size_t a_values_len,
    const size_t *b_offsets, size_t b_offsets_len,
    const size_t *b_indices, size_t b_indices_len,
    const int64_t *b_values, size_t b_values_len,
    size_t *out_offsets, size_t out_offsets_len,
    size_t *out_indices, size_t out_indices_len,
    int64_t *out_values, size_t out_values_len,
    size_t *out_places);

/* Writes the sum alpha a + beta b of multiples of two matrices by rows with the same shape, on the union of their
 * patterns, also where a scale or a value is 0. Otherwise like nalgebra_sparse_add.
 */
int32_t nalgebra_sparse_add_scaled(
    size_t rows, size_t cols,
    int64_t alpha,
    const size_t *a_offsets, size_t a_offsets_len,
    const size_t *a_indices, size_t a_indices_len,
    const int64_t *a_values, size_t a_values_len,
    int64_t beta,
    const size_t *b_offsets, size_t b_offsets_len,
    const size_t *b_indices, size_t b_indices_len,
    const int64_t *b_values, size_t b_values_len,
    size_t *out_offsets, size_t out_offsets_len,
    size_t *out_indices, size_t out_indices_len,
    int64_t *out_values, size_t out_values_len,
    size_t *out_places);

/* Writes the sum a + b modulo `modulus`: the list of moduli and the meaning of values are at the head of this file. The
 * arrays for the result are as for nalgebra_sparse_add.
 *
 * Statuses: UNKNOWN_CHOICE if the modulus is not listed; otherwise as for nalgebra_sparse_add.
 */
int32_t nalgebra_sparse_add_mod(
    uint64_t modulus,
    size_t rows, size_t cols,
    const size_t *a_offsets, size_t a_offsets_len,
    const size_t *a_indices, size_t a_indices_len,
    const int64_t *a_values, size_t a_values_len,
    const size_t *b_offsets, size_t b_offsets_len,
    const size_t *b_indices, size_t b_indices_len,
    const int64_t *b_values, size_t b_values_len,
    size_t *out_offsets, size_t out_offsets_len,
    size_t *out_indices, size_t out_indices_len,
    int64_t *out_values, size_t out_values_len,
    size_t *out_places);

/* Writes the difference a - b modulo `modulus`. Otherwise like nalgebra_sparse_add_mod. */
int32_t nalgebra_sparse_subtract_mod(
    uint64_t modulus,
    size_t rows, size_t cols,
    const size_t *a_offsets, size_t a_offsets_len,
    const size_t *a_indices, size_t a_indices_len,
    const int64_t *a_values, size_t a_values_len,
    const size_t *b_offsets, size_t b_offsets_len,
    const size_t *b_indices, size_t b_indices_len,
    const int64_t *b_values, size_t b_values_len,
    size_t *out_offsets, size_t out_offsets_len,
    size_t *out_indices, size_t out_indices_len,
    int64_t *out_values, size_t out_values_len,
    size_t *out_places);

/* Writes the sum alpha a + beta b modulo `modulus`; alpha and beta mean their residues. Otherwise like
 * nalgebra_sparse_add_mod.
 */
int32_t nalgebra_sparse_add_scaled_mod(
    uint64_t modulus,
    size_t rows, size_t cols,
    int64_t alpha,
    const size_t *a_offsets, size_t a_offsets_len,
    const size_t *a_indices, size_t a_indices_len,
    const int64_t *a_values, size_t a_values_len,
    int64_t beta,
    const size_t *b_offsets, size_t b_offsets_len,
    const size_t *b_indices, size_t b_indices_len,
    const int64_t *b_values, size_t b_values_len,
    size_t *out_offsets, size_t out_offsets_len,
    size_t *out_indices, size_t out_indices_len,
    int64_t *out_values, size_t out_values_len,
    size_t *out_places);

/* Writes to *out_places how many entries the product of two patterns by rows has: the size for
 * nalgebra_sparse_multiply. `a` has `rows` rows and `inner` columns, `b` has `inner` rows and `cols` columns.
 *
 * Statuses: OUT_OF_MEMORY; the first fault of a, and otherwise that of b, as for nalgebra_sparse_transpose.
 */
int32_t nalgebra_sparse_multiply_places(
    size_t rows, size_t inner, size_t cols,
    const size_t *a_offsets, size_t a_offsets_len,
    const size_t *a_indices, size_t a_indices_len,
    const size_t *b_offsets, size_t b_offsets_len,
    const size_t *b_indices, size_t b_indices_len,
    size_t *out_places);

/* Writes the product a b of two matrices by rows, with an entry (i, j) wherever some k has an entry (i, k) in a and (k,
 * j) in b, also where the sum is 0: out_offsets needs rows + 1 numbers, and out_indices and out_values as many as
 * *out_places says at TOO_SMALL, or nalgebra_sparse_multiply_places, which takes about as long as the product. One
 * number for each multiplication is always enough: the sum, over the entries (i, k) of a, of the lengths of row k of b.
 *
 * Statuses: OUT_OF_MEMORY; the first fault of a, and otherwise that of b, as for nalgebra_sparse_transpose; TOO_SMALL.
 */
int32_t nalgebra_sparse_multiply(
    size_t rows, size_t inner, size_t cols,
    const size_t *a_offsets, size_t a_offsets_len,
    const size_t *a_indices, size_t a_indices_len,
    const int64_t *a_values, size_t a_values_len,
    const size_t *b_offsets, size_t b_offsets_len,
    const size_t *b_indices, size_t b_indices_len,
    const int64_t *b_values, size_t b_values_len,
    size_t *out_offsets, size_t out_offsets_len,
    size_t *out_indices, size_t out_indices_len,
    int64_t *out_values, size_t out_values_len,
    size_t *out_places);

/* Writes the product a b modulo `modulus`, with the same pattern, also where the sum is a multiple of the modulus: the
 * list of moduli and the meaning of values are at the head of this file. The arrays for the result are as for
 * nalgebra_sparse_multiply.
 *
 * Statuses: UNKNOWN_CHOICE if the modulus is not listed; otherwise as for nalgebra_sparse_multiply.
 */
int32_t nalgebra_sparse_multiply_mod(
    uint64_t modulus,
    size_t rows, size_t inner, size_t cols,
    const size_t *a_offsets, size_t a_offsets_len,
    const size_t *a_indices, size_t a_indices_len,
    const int64_t *a_values, size_t a_values_len,
    const size_t *b_offsets, size_t b_offsets_len,
    const size_t *b_indices, size_t b_indices_len,
    const int64_t *b_values, size_t b_values_len,
    size_t *out_offsets, size_t out_offsets_len,
    size_t *out_indices, size_t out_indices_len,
    int64_t *out_values, size_t out_values_len,
    size_t *out_places);

/* Writes the dense product a b: `a` has `rows` rows and `inner` columns, by rows; `b` has `inner` rows and `cols`
 * columns, and b_values_len is inner * cols. out_values needs rows * cols numbers.
 *
 * Statuses: OUT_OF_MEMORY; the first fault of a, as for nalgebra_sparse_transpose; INVALID_STRUCTURE if b has another
 * number of values; TOO_SMALL.
 */
int32_t nalgebra_sparse_multiply_dense(
    size_t rows, size_t inner, size_t cols,
    const size_t *a_offsets, size_t a_offsets_len,
    const size_t *a_indices, size_t a_indices_len,
    const int64_t *a_values, size_t a_values_len,
    const int64_t *b_values, size_t b_values_len,
    int64_t *out_values, size_t out_values_len);

/* Writes that product modulo `modulus`: the list of moduli and the meaning of values are at the head of this file.
 *
 * Statuses: UNKNOWN_CHOICE if the modulus is not listed; otherwise as for nalgebra_sparse_multiply_dense.
 */
int32_t nalgebra_sparse_multiply_dense_mod(
    uint64_t modulus,
    size_t rows, size_t inner, size_t cols,
    const size_t *a_offsets, size_t a_offsets_len,
    const size_t *a_indices, size_t a_indices_len,
    const int64_t *a_values, size_t a_values_len,
    const int64_t *b_values, size_t b_values_len,
    int64_t *out_values, size_t out_values_len);

/* Writes the X for which L X = B, or, if `transposed` is true, for which the transpose of L times X is B. L is the part
 * on and below the diagonal of a matrix by columns with `size` rows and columns; entries above the diagonal have no
 * effect. The arrays of a matrix by rows are those of its transpose by columns, so for its part on and above the
 * diagonal set `transposed`. B and X have `cols` columns: b_values_len is size * cols, and out_values needs as many
 * numbers.
 *
 * Statuses: OUT_OF_MEMORY; the first fault of the arrays, as for nalgebra_sparse_transpose; INVALID_STRUCTURE if B has
 * another number of values; SINGULAR if there is a column to solve for, and some diagonal entry is missing or even,
 * since only odd numbers have an inverse modulo 2^64; TOO_SMALL.
 */
int32_t nalgebra_sparse_solve_lower(
    size_t size, size_t cols,
    const size_t *offsets, size_t offsets_len,
    const size_t *indices, size_t indices_len,
    const int64_t *values, size_t values_len,
    bool transposed,
    const int64_t *b_values, size_t b_values_len,
    int64_t *out_values, size_t out_values_len);

/* Writes that X modulo `modulus`: the list of moduli and the meaning of values are at the head of this file.
 *
 * Statuses: UNKNOWN_CHOICE if the modulus is not listed; otherwise as for nalgebra_sparse_solve_lower, and SINGULAR if
 * there is a column to solve for, and some diagonal entry is missing or a multiple of the modulus.
 */
int32_t nalgebra_sparse_solve_lower_mod(
    uint64_t modulus,
    size_t size, size_t cols,
    const size_t *offsets, size_t offsets_len,
    const size_t *indices, size_t indices_len,
    const int64_t *values, size_t values_len,
    bool transposed,
    const int64_t *b_values, size_t b_values_len,
    int64_t *out_values, size_t out_values_len);

/* Writes the quotient of a matrix by rows and an integer: each value times the inverse of the integer, with the same
 * pattern: out_offsets needs rows + 1 numbers, and out_indices and out_values `values_len` each.
 *
 * Statuses: OUT_OF_MEMORY; the first fault of the arrays, as for nalgebra_sparse_transpose; SINGULAR if the divisor is
 * even, since it has no inverse modulo 2^64; TOO_SMALL.
 */
int32_t nalgebra_sparse_divide(
    size_t rows, size_t cols,
    const size_t *offsets, size_t offsets_len,
    const size_t *indices, size_t indices_len,
    const int64_t *values, size_t values_len,
    int64_t divisor,
    size_t *out_offsets, size_t out_offsets_len,
    size_t *out_indices, size_t out_indices_len,
    int64_t *out_values, size_t out_values_len,
    size_t *out_places);

/* Writes that quotient modulo `modulus`: the list of moduli and the meaning of values are at the head of this file.
 * The arrays for the result are as for nalgebra_sparse_divide.
 *
 * Statuses: UNKNOWN_CHOICE if the modulus is not listed; otherwise as for nalgebra_sparse_divide, and SINGULAR if the
 * divisor is a multiple of the modulus.
 */
int32_t nalgebra_sparse_divide_mod(
    uint64_t modulus,
    size_t rows, size_t cols,
    const size_t *offsets, size_t offsets_len,
    const size_t *indices, size_t indices_len,
    const int64_t *values, size_t values_len,
    int64_t divisor,
    size_t *out_offsets, size_t out_offsets_len,
    size_t *out_indices, size_t out_indices_len,
    int64_t *out_values, size_t out_values_len,
    size_t *out_places);

/* Writes to *out_places how many entries the factor L of a symmetric elimination has: the size for
 * nalgebra_sparse_fill. `triangle` says which entries of the pattern by columns, with `size` rows and columns, the
 * elimination starts from: NALGEBRA_SPARSE_UPPER, those on and above the diagonal; NALGEBRA_SPARSE_LOWER, those on and
 * below it; NALGEBRA_SPARSE_BOTH, all.
 *
 * Statuses: UNKNOWN_CHOICE if `triangle` is another number; OUT_OF_MEMORY; the first fault of the arrays, as for
 * nalgebra_sparse_transpose.
 */
int32_t nalgebra_sparse_fill_places(
    size_t size, int32_t triangle,
    const size_t *offsets, size_t offsets_len,
    const size_t *indices, size_t indices_len,
    size_t *out_places);

/* Writes the pattern of that factor, by columns: the smallest set of pairs on and below the diagonal that has the pairs
 * that the elimination starts from, and that has (i, j) wherever it has (i, k) and (j, k) with k < j <= i. out_offsets
 * needs size + 1 numbers, and out_indices as many as nalgebra_sparse_fill_places says.
 *
 * Statuses: as for nalgebra_sparse_fill_places; TOO_SMALL.
 */
int32_t nalgebra_sparse_fill(
    size_t size, int32_t triangle,
    const size_t *offsets, size_t offsets_len,
    const size_t *indices, size_t indices_len,
    size_t *out_offsets, size_t out_offsets_len,
    size_t *out_indices, size_t out_indices_len,
    size_t *out_places);

/* Writes the X for which A X = B, where A is the symmetric matrix whose entries on and above the diagonal are those of
 * a matrix by columns with `size` rows and columns, by the exact factorisation of A into L D L^T. Entries below the
 * diagonal have no effect, and no call tests them: for a matrix that is not symmetric, X solves another system. (A
 * matrix is symmetric if all values of nalgebra_sparse_subtract of it and its nalgebra_sparse_transpose are 0.) B and X
 * have `cols` columns: b_values_len is size * cols, and out_values needs as many numbers.
 *
 * Statuses: OUT_OF_MEMORY; the first fault of the arrays, as for nalgebra_sparse_transpose; INVALID_STRUCTURE if B has
 * another number of values; SINGULAR if no factorisation exists; TOO_SMALL.
 */
int32_t nalgebra_sparse_solve_symmetric(
    size_t size, size_t cols,
    const size_t *offsets, size_t offsets_len,
    const size_t *indices, size_t indices_len,
    const int64_t *values, size_t values_len,
    const int64_t *b_values, size_t b_values_len,
    int64_t *out_values, size_t out_values_len);

/* Writes that X modulo `modulus`: the list of moduli and the meaning of values are at the head of this file.
 *
 * Statuses: UNKNOWN_CHOICE if the modulus is not listed; otherwise as for nalgebra_sparse_solve_symmetric.
 */
int32_t nalgebra_sparse_solve_symmetric_mod(
    uint64_t modulus,
    size_t size, size_t cols,
    const size_t *offsets, size_t offsets_len,
    const size_t *indices, size_t indices_len,
    const int64_t *values, size_t values_len,
    const int64_t *b_values, size_t b_values_len,
    int64_t *out_values, size_t out_values_len);

/* Writes the exact factors of a symmetric matrix, A = L D L^T, where A has the entries on and above the diagonal of a
 * matrix by columns with `size` rows and columns. Entries below the diagonal have no effect, and no call tests them. L
 * has ones on the diagonal and zeros above it, and is written by columns; D is diagonal, each of its values has an
 * inverse, and they are written to out_diagonal. No other L and D satisfy the equation.
 *
 * The pattern of L is the one that nalgebra_sparse_fill writes for NALGEBRA_SPARSE_UPPER, also where a value is 0: so
 * out_indices and out_values need as many numbers as nalgebra_sparse_fill_places says for that triangle, out_offsets
 * needs size + 1, and out_diagonal `size`. *out_places becomes the number of entries of L.
 *
 * Statuses: OUT_OF_MEMORY; the first fault of the arrays, as for nalgebra_sparse_transpose; SINGULAR if no
 * factorisation exists; TOO_SMALL.
 */
int32_t nalgebra_sparse_factor_symmetric(
    size_t size,
    const size_t *offsets, size_t offsets_len,
    const size_t *indices, size_t indices_len,
    const int64_t *values, size_t values_len,
    size_t *out_offsets, size_t out_offsets_len,
    size_t *out_indices, size_t out_indices_len,
    int64_t *out_values, size_t out_values_len,
    int64_t *out_diagonal, size_t out_diagonal_len,
    size_t *out_places);

/* Writes those factors modulo `modulus`: the list of moduli and the meaning of values are at the head of this file.
 *
 * Statuses: UNKNOWN_CHOICE if the modulus is not listed; otherwise as for nalgebra_sparse_factor_symmetric.
 */
int32_t nalgebra_sparse_factor_symmetric_mod(
    uint64_t modulus,
    size_t size,
    const size_t *offsets, size_t offsets_len,
    const size_t *indices, size_t indices_len,
    const int64_t *values, size_t values_len,
    size_t *out_offsets, size_t out_offsets_len,
    size_t *out_indices, size_t out_indices_len,
    int64_t *out_values, size_t out_values_len,
    int64_t *out_diagonal, size_t out_diagonal_len,
    size_t *out_places);

/* Writes to *out_column at which column the factorisation of that A stops, counted from 0, since its pivot has no
 * inverse: the first *out_column rows and columns of A have factors L D L^T, and so have fewer of them, but more have
 * none. If A has factors, *out_column becomes `size`.
 *
 * The column is found by bisection: the call factors about log2(size) blocks of A, each made of its first rows and
 * columns.
 *
 * Statuses: OUT_OF_MEMORY; the first fault of the arrays, as for nalgebra_sparse_transpose.
 */
int32_t nalgebra_sparse_factor_symmetric_pivot(
    size_t size,
    const size_t *offsets, size_t offsets_len,
    const size_t *indices, size_t indices_len,
    const int64_t *values, size_t values_len,
    size_t *out_column);

/* Writes that column for the factorisation modulo `modulus`.
 *
 * Statuses: UNKNOWN_CHOICE if the modulus is not listed; otherwise as for nalgebra_sparse_factor_symmetric_pivot.
 */
int32_t nalgebra_sparse_factor_symmetric_pivot_mod(
    uint64_t modulus,
    size_t size,
    const size_t *offsets, size_t offsets_len,
    const size_t *indices, size_t indices_len,
    const int64_t *values, size_t values_len,
    size_t *out_column);

/* Reads the bytes of a text in Matrix Market format, with integers or as an array of integers, and writes the shape of
 * its matrix and the number of its triplets: the size for nalgebra_sparse_read.
 *
 * Statuses: OUT_OF_MEMORY; UNREADABLE; and the first error of the text, in this order: INVALID_TEXT if it does not
 * match the grammar; INVALID_HEADER; INVALID_TEXT if the size line does not fit the header or a size is 2^64 or more;
 * NON_SQUARE; ENTRY_MISMATCH; then, entry by entry, INVALID_TEXT if it does not have the numbers that the header
 * requires or an index is 2^64 or more; ZERO_INDEX; INVALID_TEXT if its value is not an integer from -2^127 to 2^127 -
 * 1; TYPE_MISMATCH if the value is not an integer of 64 bits; NOT_LOWER_TRIANGLE; DIAGONAL_ENTRY; last
 * INDEX_OUT_OF_BOUNDS. So the line `0 1 x` is INVALID_TEXT, and `0 1 1.0` is ZERO_INDEX, although 1.0 is not an
 * integer.
 */
int32_t nalgebra_sparse_read_sizes(
    const uint8_t *text, size_t text_len,
    size_t *out_rows, size_t *out_cols, size_t *out_triplets);

/* Writes the triplets of such a text, in its order: rows and columns count from 0, repeated entries are kept, and the
 * mirrored entry that a symmetry implies directly follows its entry. The three arrays need as many numbers as
 * nalgebra_sparse_read_sizes says there are triplets, and *out_triplets becomes their number.
 *
 * Statuses: as for nalgebra_sparse_read_sizes; TOO_SMALL.
 */
int32_t nalgebra_sparse_read(
    const uint8_t *text, size_t text_len,
    size_t *out_row_indices, size_t out_row_indices_len,
    size_t *out_col_indices, size_t out_col_indices_len,
    int64_t *out_values, size_t out_values_len,
    size_t *out_triplets);

/* Writes to *out_line the number, counted from 1, of the first line of a text with a fault, or 0 if the text has no
 * error, so that nalgebra_sparse_read reads it. Allocates nothing.
 *
 * The line is that of the error of which nalgebra_sparse_read_sizes returns the status: the first line that does not
 * match the grammar, or the last line if the text ends before its size line; otherwise the header, if its words do not
 * go together; the size line, if its numbers do not fit the header or the number of entries is another; the first entry
 * that is not read; or the first entry with an index outside the matrix.
 *
 * Statuses: UNREADABLE, where *out_line is unchanged.
 */
int32_t nalgebra_sparse_text_fault(const uint8_t *text, size_t text_len, size_t *out_line);

/* Writes to *out_length how many bytes the text of a list of triplets has: the size for nalgebra_sparse_write.
 *
 * Statuses: as for nalgebra_sparse_assemble_csr, but for TOO_SMALL.
 */
int32_t nalgebra_sparse_write_length(
    size_t rows, size_t cols,
    const size_t *row_indices, size_t row_indices_len,
    const size_t *col_indices, size_t col_indices_len,
    const int64_t *values, size_t values_len,
    size_t *out_length);

/* Writes the text of a list of triplets in Matrix Market format (coordinate, integer, general), with a line for each
 * triplet in the order of the lists. It is ASCII, and no zero byte ends it. *out_length becomes the number of its
 * bytes.
 *
 * Statuses: as for nalgebra_sparse_write_length; TOO_SMALL.
 */
int32_t nalgebra_sparse_write(
    size_t rows, size_t cols,
    const size_t *row_indices, size_t row_indices_len,
    const size_t *col_indices, size_t col_indices_len,
    const int64_t *values, size_t values_len,
    uint8_t *out_text, size_t out_text_len,
    size_t *out_length);

/* Handles.
 *
 * A handle has a matrix that the library owns, over the integers modulo 2^64, or none: then it is {NULL}, like
 * NALGEBRA_SPARSE_NO_MATRIX. The calls below take handles instead of arrays, so a chain of them checks each array once.
 * Transposes, multiples, sums and products copy no operand; a solve with a triangle and a factorisation copy the
 * matrix, each solve copies its right-hand side, and a product with a dense matrix copies the dense matrix. Their
 * contracts are equations between the plain matrices behind handles (crates/sparse_c/src/handles.rt and the files in
 * crates/sparse_c/src/handles). Handles of matrices modulo another number are of another type: see
 * nalgebra_sparse_ring_matrix.
 *
 *     nalgebra_sparse_matrix a = NALGEBRA_SPARSE_NO_MATRIX, copy = NALGEBRA_SPARSE_NO_MATRIX;
 *     nalgebra_sparse_matrix square = NALGEBRA_SPARSE_NO_MATRIX;
 *     status = nalgebra_sparse_matrix_from_rows(2, 2, offsets, 3, indices, 2, values, 2, &a);
 *     status = nalgebra_sparse_matrix_clone(&a, &copy);
 *     status = nalgebra_sparse_matrix_multiply(&a, &copy, &square);
 *     nalgebra_sparse_matrix_free(&a), nalgebra_sparse_matrix_free(&copy), nalgebra_sparse_matrix_free(&square);
 *
 * A call puts its result behind `out`, and the matrix that was there before is dropped. At any status but 0 `out` is
 * unchanged. Each handle with a matrix must be freed once, and a handle that was freed is empty: it may be freed again
 * and used again.
 *
 * The caller must ensure that
 *   - a handle is either empty or as a call left it: it is not created from other bytes, and after its bytes were
 *     copied only one of the copies is passed to calls;
 *   - the handles of one call are different variables: for the square of a matrix, or to replace an operand by the
 *     result, clone it first, which copies no array;
 *   - each handle is used by one call at a time. Between calls a handle may be moved to another thread, and handles
 *     that share a matrix may be used by several threads at once.
 *
 * Statuses: OUT_OF_MEMORY; EMPTY_HANDLE exactly if an operand is empty, before each status but OUT_OF_MEMORY; then
 * SHAPE_MISMATCH exactly if the shapes of two operands do not fit, or a matrix is not square where a call says so; and
 * those that a call names. So at status 0 no operand is empty, and the shapes fit.
 */
typedef struct {
    void *matrix;
} nalgebra_sparse_matrix;

/* An empty handle. */
#define NALGEBRA_SPARSE_NO_MATRIX {NULL}

/* Stores in `out` the matrix with these arrays by rows. Statuses: the first fault of the arrays, as for
 * nalgebra_sparse_transpose. The arrays are copied.
 */
int32_t nalgebra_sparse_matrix_from_rows(
    size_t rows, size_t cols,
    const size_t *offsets, size_t offsets_len,
    const size_t *indices, size_t indices_len,
    const int64_t *values, size_t values_len,
    nalgebra_sparse_matrix *out);

/* Puts the matrix of triplets behind `out`: an entry for each row and column in the lists, with the sum of the values
 * there. Statuses: INVALID_STRUCTURE if the lists have different lengths; INDEX_OUT_OF_BOUNDS.
 */
int32_t nalgebra_sparse_matrix_from_triplets(
    size_t rows, size_t cols,
    const size_t *row_indices, size_t row_indices_len,
    const size_t *col_indices, size_t col_indices_len,
    const int64_t *values, size_t values_len,
    nalgebra_sparse_matrix *out);

/* Writes the numbers of rows, columns and entries of the matrix behind `a`. */
int32_t nalgebra_sparse_matrix_sizes(nalgebra_sparse_matrix *a, size_t *out_rows, size_t *out_cols, size_t *out_places);

/* Writes the matrix behind `a` by rows: out_offsets needs rows + 1 numbers, and out_indices and out_values one for each
 * entry, whose number nalgebra_sparse_matrix_sizes tells. *out_places becomes the number of entries. Statuses:
 * TOO_SMALL.
 */
int32_t nalgebra_sparse_matrix_read(
    nalgebra_sparse_matrix *a,
    size_t *out_offsets, size_t out_offsets_len,
    size_t *out_indices, size_t out_indices_len,
    int64_t *out_values, size_t out_values_len,
    size_t *out_places);

/* Writes the matrix behind `a` by rows as nalgebra_sparse_matrix_read does, with offsets and indices of 32 bits. They
 * are below 2^31, so that they may be read as int32_t, too. Statuses: INDEX_OUT_OF_BOUNDS exactly if an offset or an
 * index of the matrix is not below 2^31; TOO_SMALL, and then all of them are.
 */
int32_t nalgebra_sparse_matrix_read_32(
    nalgebra_sparse_matrix *a,
    uint32_t *out_offsets, size_t out_offsets_len,
    uint32_t *out_indices, size_t out_indices_len,
    int64_t *out_values, size_t out_values_len,
    size_t *out_places);

/* Stores in `out` the transpose of the matrix that `a` holds. */
int32_t nalgebra_sparse_matrix_transpose(nalgebra_sparse_matrix *a, nalgebra_sparse_matrix *out);

/* Puts the product of a number and the matrix behind `a` behind `out`, with the same pattern. */
int32_t nalgebra_sparse_matrix_scale(int64_t factor, nalgebra_sparse_matrix *a, nalgebra_sparse_matrix *out);

/* Puts the sum a + b of two matrices with the same shape behind `out`, on the union of their patterns. */
int32_t nalgebra_sparse_matrix_add(nalgebra_sparse_matrix *a, nalgebra_sparse_matrix *b, nalgebra_sparse_matrix *out);

/* Puts the difference a - b of two matrices with the same shape behind `out`, on the union of their patterns. */
int32_t nalgebra_sparse_matrix_subtract(nalgebra_sparse_matrix *a, nalgebra_sparse_matrix *b, nalgebra_sparse_matrix *out);

/* Puts the sum alpha a + beta b of multiples of two matrices with the same shape behind `out`, on the union of their
 * patterns. */
int32_t nalgebra_sparse_matrix_add_scaled(
    int64_t alpha, nalgebra_sparse_matrix *a,
    int64_t beta, nalgebra_sparse_matrix *b,
    nalgebra_sparse_matrix *out);

/* Puts the product a b behind `out`, with an entry (i, j) wherever some k has an entry (i, k) in a and (k, j) in b. `a`
 * has as many columns as `b` has rows.
 */
int32_t nalgebra_sparse_matrix_multiply(nalgebra_sparse_matrix *a, nalgebra_sparse_matrix *b, nalgebra_sparse_matrix *out);

/* Writes the product of the matrix behind `a` and a dense matrix with `cols` columns to `out_values`, column by column.
 * b_values has the values of the dense matrix, column by column: b_values_len is the number of columns of the matrix
 * times `cols`, and out_values needs as many numbers as the matrix has rows, times `cols`. In addition the call
 * allocates a copy of the dense matrix, and the product. Statuses: INVALID_STRUCTURE if the dense matrix has another
 * number of values; TOO_SMALL.
 */
int32_t nalgebra_sparse_matrix_multiply_dense(
    nalgebra_sparse_matrix *a, size_t cols,
    const int64_t *b_values, size_t b_values_len,
    int64_t *out_values, size_t out_values_len);

/* Stores in `out` the matrix that `a` holds: both handles share it, and each must be freed. No array is copied. */
int32_t nalgebra_sparse_matrix_clone(nalgebra_sparse_matrix *a, nalgebra_sparse_matrix *out);

/* Empties a handle. The matrix that it held is freed with the last handle that shares it. */
void nalgebra_sparse_matrix_free(nalgebra_sparse_matrix *a);

/* Puts the matrix of a text in Matrix Market format, with integers or as an array of integers, behind `out`: an entry
 * for each row and column in the text, with the sum of the values there. Statuses: as for nalgebra_sparse_read_sizes.
 */
int32_t nalgebra_sparse_matrix_from_text(const uint8_t *text, size_t text_len, nalgebra_sparse_matrix *out);

/* Writes the text of the matrix behind `a` in Matrix Market format (coordinate, integer, general), with a line for each
 * entry, row by row. It is ASCII, and no zero byte ends it. *out_length becomes the number of its bytes, also at
 * TOO_SMALL, where `out_text` is unchanged. Statuses: TOO_SMALL if out_text_len is less.
 */
int32_t nalgebra_sparse_matrix_to_text(nalgebra_sparse_matrix *a, uint8_t *out_text, size_t out_text_len, size_t *out_length);

/* Solves L X = B, or L^T X = B where `transposed` is set: L is the part on and below the diagonal of the square matrix
 * behind `a`. `values` has B, column by column, and then X: values_len is the number of rows times `cols`. In addition
 * the call allocates a copy of B and of the matrix.
 *
 * Statuses: SHAPE_MISMATCH if the matrix is not square; INVALID_STRUCTURE if B has another number of values; SINGULAR
 * exactly if there is a column to solve for, and some diagonal entry is missing or even, even if some X solves the
 * equation. At any status but 0 `values` is unchanged.
 */
int32_t nalgebra_sparse_matrix_solve_lower(
    nalgebra_sparse_matrix *a, bool transposed,
    size_t cols, int64_t *values, size_t values_len);

/* Solves U X = B, or U^T X = B, where U is the part on and above the diagonal. Otherwise like
 * nalgebra_sparse_matrix_solve_lower.
 */
int32_t nalgebra_sparse_matrix_solve_upper(
    nalgebra_sparse_matrix *a, bool transposed,
    size_t cols, int64_t *values, size_t values_len);

/* Handles of factors.
 *
 * Such a handle has the exact factors L D L^T of a symmetric matrix A, as nalgebra_sparse_factor_symmetric writes them;
 * or those of P A P^T, with the permutation P, which takes the rows and columns of A in another order; or none. What is
 * said above about handles of matrices is true of these.
 *
 *     nalgebra_sparse_factors f = NALGEBRA_SPARSE_NO_FACTORS;
 *     status = nalgebra_sparse_matrix_minimum_degree(&a, order, 2);
 *     status = nalgebra_sparse_matrix_factor_in_order(&a, order, 2, &f);
 *     status = nalgebra_sparse_factors_solve(&f, 1, values, 2);
 *     nalgebra_sparse_factors_free(&f);
 */
typedef struct {
    void *factors;
} nalgebra_sparse_factors;

/* An empty handle. */
#define NALGEBRA_SPARSE_NO_FACTORS {NULL}

/* Puts the factors of the symmetric matrix behind `out` whose entries on and above the diagonal are those of the matrix
 * behind `a`. Entries below the diagonal have no effect, and no call tests them: if nalgebra_sparse_matrix_subtract of
 * the matrix and its transpose has a value other than 0, the factors are those of another matrix. L has an entry for
 * each place of the fill of the entries on and above the diagonal, and no other; its value may be 0. In addition the
 * call allocates a copy of the matrix. Statuses: SHAPE_MISMATCH if the matrix is not square; SINGULAR if no
 * factorisation exists.
 */
int32_t nalgebra_sparse_matrix_factor(nalgebra_sparse_matrix *a, nalgebra_sparse_factors *out);

/* Writes an order of the rows and columns of the square matrix behind `a` in which its factors have little fill: the
 * approximate minimum degree order (Amestoy, Davis and Duff 1996). out_order[k] is the index, from 0, of the row and
 * column that comes at k, so out_order needs a number for each row. The pattern is read as the union of itself and its
 * transpose: an entry below the diagonal counts, too. It is proved that the order is a permutation, and tested that it
 * is this order and how little fill it leaves. Statuses: SHAPE_MISMATCH if the matrix is not square; TOO_SMALL.
 */
int32_t nalgebra_sparse_matrix_minimum_degree(nalgebra_sparse_matrix *a, size_t *out_order, size_t out_order_len);

/* Writes an order in which the entries are close to the diagonal: the reverse Cuthill-McKee order (Cuthill and McKee
 * 1969, George 1971). Otherwise like nalgebra_sparse_matrix_minimum_degree.
 */
int32_t nalgebra_sparse_matrix_reverse_cuthill_mckee(nalgebra_sparse_matrix *a, size_t *out_order, size_t out_order_len);

/* Puts the factors of P A P^T behind `out`, with P: A is the symmetric matrix of nalgebra_sparse_matrix_factor, and P
 * takes its rows and columns in the given order, so that the entry (i, j) of P A P^T is that of A at (order[i],
 * order[j]). Any permutation may be given. L has an entry for each place of the fill of P A P^T, and no other. In
 * addition the call allocates some copies of the matrix.
 *
 * Statuses: SHAPE_MISMATCH if the matrix is not square; INVALID_STRUCTURE if order_len is not the number of its rows;
 * INDEX_OUT_OF_BOUNDS or DUPLICATE_ENTRY for the first number of the order that is too large, or that occurs before it;
 * SINGULAR if P A P^T has no factorisation. In another order there may be one.
 */
int32_t nalgebra_sparse_matrix_factor_in_order(
    nalgebra_sparse_matrix *a, const size_t *order, size_t order_len, nalgebra_sparse_factors *out);

/* Writes the order of the factors behind `f`: 0, 1, 2 and so on for those of nalgebra_sparse_matrix_factor. out_order
 * needs a number for each row of L. Statuses: TOO_SMALL.
 */
int32_t nalgebra_sparse_factors_order(nalgebra_sparse_factors *f, size_t *out_order, size_t out_order_len);

/* Solves A X = B with the factors behind `f`, where A is the symmetric matrix itself, in whichever order it was
 * factored. `values` has B, column by column, and then X: values_len is the number of rows of A times `cols`. In
 * addition the call allocates a copy of B, and two for factors with an order. Statuses: INVALID_STRUCTURE if B has
 * another number of values; `values` is then unchanged.
 */
int32_t nalgebra_sparse_factors_solve(nalgebra_sparse_factors *f, size_t cols, int64_t *values, size_t values_len);

/* Writes the number of rows of L, which is its number of columns, and its number of entries: the sizes for
 * nalgebra_sparse_factors_read.
 */
int32_t nalgebra_sparse_factors_sizes(nalgebra_sparse_factors *f, size_t *out_size, size_t *out_places);

/* Writes the factors behind `f` as nalgebra_sparse_factor_symmetric does: L by columns, and the diagonal of D to
 * out_diagonal. Factors with an order are those of P A P^T. out_offsets needs one number more than L has columns,
 * out_indices and out_values one for each entry of L, and out_diagonal one for each row of L. *out_places becomes the
 * number of entries of L. In addition the call allocates a copy of the factors. Statuses: TOO_SMALL.
 */
int32_t nalgebra_sparse_factors_read(
    nalgebra_sparse_factors *f,
    size_t *out_offsets, size_t out_offsets_len,
    size_t *out_indices, size_t out_indices_len,
    int64_t *out_values, size_t out_values_len,
    int64_t *out_diagonal, size_t out_diagonal_len,
    size_t *out_places);

/* Stores in `out` the factors that `f` holds: both handles share them, and each must be freed. No array is copied. */
int32_t nalgebra_sparse_factors_clone(nalgebra_sparse_factors *f, nalgebra_sparse_factors *out);

/* Empties a handle of factors. The factors that it held are freed with the last handle that shares them. */
void nalgebra_sparse_factors_free(nalgebra_sparse_factors *f);

/* Handles of matrices modulo a listed number.
 *
 * Such a handle has a matrix that the library owns together with its modulus, which is one of those of the calls whose
 * names end in _mod; or none. What is said above about handles of matrices is true of these, but for the copies: each
 * call copies the arrays of its operands. Calls with two operands compute modulo the modulus that both have, and refuse
 * operands with different ones. The type of matrices modulo 2^64 is another, so a compiler refuses to mix them.
 *
 *     nalgebra_sparse_ring_matrix a = NALGEBRA_SPARSE_NO_RING_MATRIX, b = NALGEBRA_SPARSE_NO_RING_MATRIX;
 *     status = nalgebra_sparse_ring_matrix_from_rows(101, 2, 2, offsets, 3, indices, 2, values, 2, &a);
 *     status = nalgebra_sparse_ring_matrix_transpose(&a, &b);
 *     nalgebra_sparse_ring_matrix_free(&a), nalgebra_sparse_ring_matrix_free(&b);
 *
 * Statuses: OUT_OF_MEMORY; EMPTY_HANDLE exactly if an operand is empty, before each status but OUT_OF_MEMORY;
 * RING_MISMATCH if two operands have different moduli; then SHAPE_MISMATCH exactly if their shapes do not fit; and those
 * that a call names. So at status 0 the moduli are equal, and the shapes fit.
 */
typedef struct {
    void *matrix;
} nalgebra_sparse_ring_matrix;

/* An empty handle. */
#define NALGEBRA_SPARSE_NO_RING_MATRIX {NULL}

/* Stores in `out` the matrix with these arrays by rows, modulo `modulus`. Statuses: UNKNOWN_CHOICE; the first fault of
 * the arrays, as for nalgebra_sparse_transpose. The arrays are copied.
 */
int32_t nalgebra_sparse_ring_matrix_from_rows(
    uint64_t modulus, size_t rows, size_t cols,
    const size_t *offsets, size_t offsets_len,
    const size_t *indices, size_t indices_len,
    const int64_t *values, size_t values_len,
    nalgebra_sparse_ring_matrix *out);

/* Stores in `out` the matrix of triplets, modulo `modulus`: an entry for each row and column in the lists, with the sum
 * of the values there. Statuses: UNKNOWN_CHOICE; INVALID_STRUCTURE if the lists have different lengths;
 * INDEX_OUT_OF_BOUNDS.
 */
int32_t nalgebra_sparse_ring_matrix_from_triplets(
    uint64_t modulus, size_t rows, size_t cols,
    const size_t *row_indices, size_t row_indices_len,
    const size_t *col_indices, size_t col_indices_len,
    const int64_t *values, size_t values_len,
    nalgebra_sparse_ring_matrix *out);

/* Writes the modulus of the matrix that `a` holds, and its numbers of rows, columns and entries. */
int32_t nalgebra_sparse_ring_matrix_sizes(
    nalgebra_sparse_ring_matrix *a,
    uint64_t *out_modulus, size_t *out_rows, size_t *out_cols, size_t *out_places);

/* Writes the matrix that `a` holds by rows, with values from 0 to modulus - 1: out_offsets needs rows + 1 numbers, and
 * out_indices and out_values one for each entry. *out_places becomes the number of entries, also at TOO_SMALL.
 * Statuses: TOO_SMALL.
 */
int32_t nalgebra_sparse_ring_matrix_read(
    nalgebra_sparse_ring_matrix *a,
    size_t *out_offsets, size_t out_offsets_len,
    size_t *out_indices, size_t out_indices_len,
    int64_t *out_values, size_t out_values_len,
    size_t *out_places);

/* Stores in `out` the transpose of the matrix that `a` holds. */
int32_t nalgebra_sparse_ring_matrix_transpose(nalgebra_sparse_ring_matrix *a, nalgebra_sparse_ring_matrix *out);

/* Stores in `out` the product of a number and the matrix that `a` holds, with the same pattern. */
int32_t nalgebra_sparse_ring_matrix_scale(
    int64_t factor, nalgebra_sparse_ring_matrix *a, nalgebra_sparse_ring_matrix *out);

/* Stores in `out` the sum a + b of two matrices with the same shape, on the union of their patterns. */
int32_t nalgebra_sparse_ring_matrix_add(
    nalgebra_sparse_ring_matrix *a, nalgebra_sparse_ring_matrix *b, nalgebra_sparse_ring_matrix *out);

/* Stores in `out` the difference a - b of two matrices with the same shape, on the union of their patterns. */
int32_t nalgebra_sparse_ring_matrix_subtract(
    nalgebra_sparse_ring_matrix *a, nalgebra_sparse_ring_matrix *b, nalgebra_sparse_ring_matrix *out);

/* Stores in `out` the sum alpha a + beta b of multiples of two matrices with the same shape, on the union of their
 * patterns.
 */
int32_t nalgebra_sparse_ring_matrix_add_scaled(
    int64_t alpha, nalgebra_sparse_ring_matrix *a,
    int64_t beta, nalgebra_sparse_ring_matrix *b,
    nalgebra_sparse_ring_matrix *out);

/* Stores in `out` the product a b, with an entry (i, j) wherever some k has an entry (i, k) in a and (k, j) in b. `a`
 * has as many columns as `b` has rows.
 */
int32_t nalgebra_sparse_ring_matrix_multiply(
    nalgebra_sparse_ring_matrix *a, nalgebra_sparse_ring_matrix *b, nalgebra_sparse_ring_matrix *out);

/* Writes the product of the matrix that `a` holds and a dense matrix with `cols` columns to `out_values`, column by
 * column, with values from 0 to modulus - 1. Otherwise like nalgebra_sparse_matrix_multiply_dense. Statuses:
 * INVALID_STRUCTURE if the dense matrix has another number of values; TOO_SMALL.
 */
int32_t nalgebra_sparse_ring_matrix_multiply_dense(
    nalgebra_sparse_ring_matrix *a, size_t cols,
    const int64_t *b_values, size_t b_values_len,
    int64_t *out_values, size_t out_values_len);

/* Stores in `out` the matrix that `a` holds: both handles share it, and each must be freed. No array is copied. */
int32_t nalgebra_sparse_ring_matrix_clone(nalgebra_sparse_ring_matrix *a, nalgebra_sparse_ring_matrix *out);

/* Empties a handle. The matrix that it held is freed with the last handle that shares it. */
void nalgebra_sparse_ring_matrix_free(nalgebra_sparse_ring_matrix *a);

#include "nalgebra_sparse_inline.h"
#include "nalgebra_sparse_files.h"

#ifdef __cplusplus
}
#endif

#endif
