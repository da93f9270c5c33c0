/* Tries the inline functions: each calls the function with its name, takes a null pointer as an empty array, and
 * compares shapes. Compiled as C and as C++ by bindings/test. */
#include "nalgebra_sparse.h"

#include <stdio.h>
#include <stdlib.h>
#include <string.h>

#define CHECK(holds)                                                        \
    do {                                                                    \
        if (!(holds)) {                                                     \
            fprintf(stderr, "%s:%d: not so: %s\n", __FILE__, __LINE__, #holds); \
            exit(1);                                                        \
        }                                                                   \
    } while (0)

enum { ROOM = 9 };

static const int32_t DONE = NALGEBRA_SPARSE_DONE, SHAPE = NALGEBRA_SPARSE_SHAPE_MISMATCH;

/* Arrays for a result. */
typedef struct {
    size_t offsets[ROOM], indices[ROOM];
    int64_t values[ROOM];
} arrays;

static nalgebra_sparse_result result_in(arrays *r) {
    nalgebra_sparse_result out = {r->offsets, ROOM, r->indices, r->values, ROOM, 77, 77, 77};
    for (size_t k = 0; k < ROOM; k++) r->offsets[k] = r->indices[k] = 77, r->values[k] = 77;
    return out;
}

/* Says whether a result has these dense values, row by row, with an entry for each value but 99. */
static int holds(nalgebra_sparse_result r, int by_cols, size_t rows, size_t cols, const int64_t *want) {
    size_t lanes = by_cols ? cols : rows, across = by_cols ? rows : cols, p = 0;
    if (r.rows != rows || r.cols != cols) return 0;
    for (size_t lane = 0; lane < lanes; lane++) {
        if (r.offsets[lane] != p) return 0;
        for (size_t k = 0; k < across; k++) {
            int64_t value = by_cols ? want[k * cols + lane] : want[lane * cols + k];
            if (value == 99) continue;
            if (p >= r.places || r.indices[p] != k || r.values[p++] != value) return 0;
        }
    }
    return p == r.places && r.offsets[lanes] == p;
}

static const size_t ROWS[] = {0, 0, 1, 1}, COLS[] = {0, 1, 2, 2};
static const int64_t VALUES[] = {1, 2, 3, 4};
/* The matrix 1 2 . / . . 7 */
static const nalgebra_sparse_lists LIST = {2, 3, ROWS, COLS, VALUES, 4};
static const size_t OFFSETS[] = {0, 2, 3}, INDICES[] = {0, 1, 2};
static const int64_t ENTRIES[] = {1, 2, 7};
static const nalgebra_sparse_rows A = {2, 3, OFFSETS, INDICES, ENTRIES, 3};
/* The matrix 5 2 / . 7 by columns. */
static const size_t S_OFFSETS[] = {0, 1, 3}, S_INDICES[] = {0, 0, 1};
static const int64_t S_ENTRIES[] = {5, 2, 7};
static const nalgebra_sparse_cols S = {2, 2, S_OFFSETS, S_INDICES, S_ENTRIES, 3};

static void check_rows(void) {
    const int64_t a[] = {1, 2, 99, 99, 99, 7}, t[] = {1, 99, 2, 99, 99, 7}, twice[] = {2, 4, 99, 99, 99, 14}, none[] = {0, 0, 99, 99, 99, 0};
    const int64_t square[] = {5, 99, 99, 49}, quotient[] = {5, 10, 99, 99, 99, 2}, dense[] = {1, 2, 3}, want[] = {5, 21};
    const size_t no_offsets[] = {0};
    arrays x, y;
    nalgebra_sparse_result r = result_in(&x), back = result_in(&y);
    size_t places = 0;
    int64_t product[2];
    nalgebra_sparse_dense b = {1, dense, 3};
    nalgebra_sparse_rows wide = {2, 4, OFFSETS, INDICES, ENTRIES, 3}, empty = {0, 3, no_offsets, NULL, NULL, 0};
    CHECK(nalgebra_sparse_assemble_csr_lists(LIST, &r) == DONE && holds(r, 0, 2, 3, a));
    CHECK(nalgebra_sparse_assemble_csc_lists(LIST, &r) == DONE && holds(r, 1, 2, 3, a));
    CHECK(nalgebra_sparse_transpose_rows(A, &back) == DONE && holds(back, 0, 3, 2, t));
    CHECK(nalgebra_sparse_add_rows(A, A, &r) == DONE && holds(r, 0, 2, 3, twice));
    CHECK(nalgebra_sparse_subtract_rows(A, A, &r) == DONE && holds(r, 0, 2, 3, none));
    CHECK(nalgebra_sparse_multiply_places_rows(A, nalgebra_sparse_rows_of(&back), &places) == DONE && places == 2);
    CHECK(nalgebra_sparse_multiply_rows(A, nalgebra_sparse_rows_of(&back), &r) == DONE && holds(r, 0, 2, 2, square));
    CHECK(nalgebra_sparse_multiply_dense_rows(A, b, product, 2) == DONE && memcmp(product, want, sizeof want) == 0);
    CHECK(nalgebra_sparse_divide_rows(A, 1, &r) == DONE && holds(r, 0, 2, 3, a));
    /* Modulo 13, 8 is the inverse of 5, and 5 that of 8; 35 is 9. */
    CHECK(nalgebra_sparse_divide_mod_rows(13, A, 8, &r) == DONE && r.values[0] == quotient[0] && r.values[1] == quotient[1] && r.values[2] == 9);
    r = result_in(&x);
    CHECK(nalgebra_sparse_add_rows(A, wide, &r) == SHAPE && nalgebra_sparse_subtract_rows(wide, A, &r) == SHAPE);
    CHECK(nalgebra_sparse_multiply_rows(A, A, &r) == SHAPE && nalgebra_sparse_multiply_places_rows(A, A, &places) == SHAPE);
    CHECK(nalgebra_sparse_divide_rows(A, 2, &r) == NALGEBRA_SPARSE_SINGULAR);
    CHECK(r.rows == 77 && r.cols == 77 && r.places == 77 && x.offsets[0] == 77);
    CHECK(nalgebra_sparse_multiply_rows(empty, nalgebra_sparse_rows_of(&back), &r) == DONE && r.rows == 0 && r.cols == 2 && r.places == 0);
}

/* The same modulo 5. */
static void check_rows_modulo(void) {
    const int64_t a[] = {1, 2, 99, 99, 99, 2}, twice[] = {2, 4, 99, 99, 99, 4}, none[] = {0, 0, 99, 99, 99, 0}, five[] = {5, 10, 99, 99, 99, 35};
    const int64_t square[] = {0, 99, 99, 4}, dense[] = {1, 2, 3}, want[] = {0, 1};
    arrays x, y;
    nalgebra_sparse_result r = result_in(&x), back = result_in(&y);
    int64_t product[2];
    nalgebra_sparse_dense b = {1, dense, 3};
    nalgebra_sparse_rows wide = {2, 4, OFFSETS, INDICES, ENTRIES, 3}, turned;
    CHECK(nalgebra_sparse_assemble_csr_mod_lists(5, LIST, &r) == DONE && holds(r, 0, 2, 3, a));
    CHECK(nalgebra_sparse_assemble_csc_mod_lists(5, LIST, &r) == DONE && holds(r, 1, 2, 3, a));
    CHECK(nalgebra_sparse_transpose_rows(A, &back) == DONE);
    turned = nalgebra_sparse_rows_of(&back);
    CHECK(nalgebra_sparse_add_mod_rows(5, A, A, &r) == DONE && holds(r, 0, 2, 3, twice));
    CHECK(nalgebra_sparse_subtract_mod_rows(5, A, A, &r) == DONE && holds(r, 0, 2, 3, none));
    CHECK(nalgebra_sparse_add_scaled_rows(7, A, -2, A, &r) == DONE && holds(r, 0, 2, 3, five));
    CHECK(nalgebra_sparse_add_scaled_mod_rows(5, 7, A, -2, A, &r) == DONE && holds(r, 0, 2, 3, none));
    CHECK(nalgebra_sparse_multiply_mod_rows(5, A, turned, &r) == DONE && holds(r, 0, 2, 2, square));
    CHECK(nalgebra_sparse_multiply_dense_mod_rows(5, A, b, product, 2) == DONE && memcmp(product, want, sizeof want) == 0);
    r = result_in(&x);
    CHECK(nalgebra_sparse_add_mod_rows(5, A, wide, &r) == SHAPE && nalgebra_sparse_subtract_mod_rows(5, A, wide, &r) == SHAPE);
    CHECK(nalgebra_sparse_add_scaled_rows(7, A, 1, wide, &r) == SHAPE && nalgebra_sparse_add_scaled_mod_rows(5, 7, A, 1, wide, &r) == SHAPE);
    CHECK(nalgebra_sparse_multiply_mod_rows(5, A, A, &r) == SHAPE && r.rows == 77 && r.cols == 77 && r.places == 77);
}

static void check_cols(void) {
    const int64_t lower[] = {5, 7}, upper[] = {9, 7}, even[] = {1, 2}, values[] = {2, 2}, l[] = {1, 99, 3, 1}, u[] = {1, 99, 2, 1};
    arrays x;
    nalgebra_sparse_result r = result_in(&x);
    nalgebra_sparse_cols flat = S, unit = S;
    nalgebra_sparse_dense b = {1, lower, 2}, c = {1, upper, 2}, two = {1, values, 2};
    size_t places = 0;
    int64_t d[2];
    /* 5 . / . 7 times (1, 1) is (5, 7), and 5 2 / 2 7 times (1, 1) is (7, 9). */
    CHECK(nalgebra_sparse_solve_lower_cols(S, false, b, d, 2) == DONE && d[0] == 1 && d[1] == 1);
    CHECK(nalgebra_sparse_solve_lower_mod_cols(3, S, true, b, d, 2) == DONE && d[0] == 1 && d[1] == 1);
    CHECK(nalgebra_sparse_solve_symmetric_mod_cols(3, S, two, d, 2) == DONE && (5 * d[0] + 2 * d[1]) % 3 == 2 && (2 * d[0] + 7 * d[1]) % 3 == 2);
    CHECK(nalgebra_sparse_solve_symmetric_cols(S, c, d, 2) == DONE && 5 * (uint64_t)d[0] + 2 * (uint64_t)d[1] == 9);
    CHECK(nalgebra_sparse_fill_places_cols(S, NALGEBRA_SPARSE_UPPER, &places) == DONE && places == 3);
    r.values = NULL;
    CHECK(nalgebra_sparse_fill_cols(S, NALGEBRA_SPARSE_UPPER, &r) == DONE && r.places == 3 && x.indices[1] == 1 && x.values[0] == 77);
    r = result_in(&x);
    /* Modulo 13: L has 2 / 5 = 2 * 8 = 3 below its diagonal, and D has 5 and 7 - 3 * 2 = 1. */
    CHECK(nalgebra_sparse_factor_symmetric_mod_cols(13, S, &r, d, 2) == DONE && holds(r, 1, 2, 2, l) && d[0] == 5 && d[1] == 1);
    const int64_t unit_entries[] = {1, 2, 7};
    unit.values = unit_entries;
    CHECK(nalgebra_sparse_factor_symmetric_cols(unit, &r, d, 2) == DONE && holds(r, 1, 2, 2, u) && d[0] == 1 && d[1] == 3);
    flat.rows = 3;
    CHECK(nalgebra_sparse_solve_lower_cols(flat, false, b, d, 2) == SHAPE && nalgebra_sparse_solve_lower_mod_cols(3, flat, false, b, d, 2) == SHAPE);
    CHECK(nalgebra_sparse_solve_symmetric_cols(flat, b, d, 2) == SHAPE && nalgebra_sparse_solve_symmetric_mod_cols(3, flat, b, d, 2) == SHAPE);
    CHECK(nalgebra_sparse_fill_places_cols(flat, 0, &places) == SHAPE && nalgebra_sparse_fill_cols(flat, 0, &r) == SHAPE);
    CHECK(nalgebra_sparse_factor_symmetric_cols(flat, &r, d, 2) == SHAPE && nalgebra_sparse_factor_symmetric_mod_cols(3, flat, &r, d, 2) == SHAPE);
    b.values = even;
    CHECK(nalgebra_sparse_solve_lower_mod_cols(5, S, false, b, d, 2) == NALGEBRA_SPARSE_SINGULAR);
}

static void check_texts(void) {
    const char *text = "%%MatrixMarket matrix coordinate integer general\n2 3 2\n1 1 4\n2 3 -5\n";
    uint8_t written[200];
    size_t i[2], j[2], length = 0, again = 0;
    int64_t values[2];
    nalgebra_sparse_triplets t = {i, j, values, 2, 0, 0, 0};
    CHECK(nalgebra_sparse_read_sizes_lists((const uint8_t *)text, strlen(text), &t) == DONE && t.rows == 2 && t.cols == 3 && t.count == 2);
    CHECK(nalgebra_sparse_read_lists((const uint8_t *)text, strlen(text), &t) == DONE && i[1] == 1 && j[1] == 2 && values[1] == -5);
    CHECK(nalgebra_sparse_write_length_lists(nalgebra_sparse_lists_of(&t), &length) == DONE && length < sizeof written);
    CHECK(nalgebra_sparse_write_lists(nalgebra_sparse_lists_of(&t), written, sizeof written, &again) == DONE && again == length);
    CHECK(memcmp(written + length - 13, "1 1 4\n2 3 -5\n", 13) == 0);
    CHECK(nalgebra_sparse_read_sizes_lists(NULL, 0, &t) == NALGEBRA_SPARSE_INVALID_TEXT);
    CHECK(nalgebra_sparse_read_lists(NULL, 7, &t) == NALGEBRA_SPARSE_INVALID_TEXT);
    CHECK(nalgebra_sparse_text_fault_bytes((const uint8_t *)text, strlen(text) - 3, &length) == DONE && length == 4);
    CHECK(nalgebra_sparse_text_fault_bytes(NULL, 7, &length) == DONE && length == 1);
}

/* A null pointer means an array of length 0, whatever length is passed with it. */
static void check_nulls(void) {
    arrays x;
    nalgebra_sparse_result r = result_in(&x), nowhere = {NULL, 3, NULL, NULL, 4, 77, 77, 77};
    nalgebra_sparse_lists none = {1, 2, NULL, NULL, NULL, 0}, claimed = {1, 2, ROWS, NULL, VALUES, 4};
    nalgebra_sparse_rows no_offsets = {1, 3, NULL, INDICES, ENTRIES, 2}, no_indices = A, no_values = A;
    nalgebra_sparse_dense nothing = {0, NULL, 0};
    size_t places = 7, length = 0;
    no_indices.indices = NULL;
    no_values.values = NULL;
    CHECK(nalgebra_sparse_assemble_csr_lists(none, &r) == DONE && r.rows == 1 && r.places == 0 && x.offsets[1] == 0);
    CHECK(nalgebra_sparse_assemble_csr_lists(claimed, &r) == NALGEBRA_SPARSE_INVALID_STRUCTURE);
    CHECK(nalgebra_sparse_write_length_lists(none, &length) == DONE && length > 0);
    CHECK(nalgebra_sparse_transpose_rows(no_offsets, &r) == NALGEBRA_SPARSE_INVALID_STRUCTURE);
    CHECK(nalgebra_sparse_transpose_rows(no_indices, &r) == NALGEBRA_SPARSE_INVALID_STRUCTURE);
    CHECK(nalgebra_sparse_transpose_rows(no_values, &r) == NALGEBRA_SPARSE_INVALID_STRUCTURE);
    CHECK(nalgebra_sparse_multiply_places_rows(A, no_values, &places) == SHAPE);
    CHECK(nalgebra_sparse_transpose_rows(A, &nowhere) == NALGEBRA_SPARSE_TOO_SMALL && nowhere.places == 3 && nowhere.rows == 77);
    CHECK(nalgebra_sparse_multiply_dense_rows(A, nothing, NULL, 0) == DONE);
}

static void check_texts_of_statuses(void) {
    char version[40];
    for (int32_t k = 0; k <= 19; k++)
        for (int32_t j = -2; j < k; j++) CHECK(strcmp(nalgebra_sparse_status_text(k), nalgebra_sparse_status_text(j)) != 0);
    CHECK(strcmp(nalgebra_sparse_status_text(0), "done") == 0);
    CHECK(strcmp(nalgebra_sparse_status_text(NALGEBRA_SPARSE_SINGULAR), "a value that must have an inverse has none") == 0);
    CHECK(strcmp(nalgebra_sparse_status_text(1000), nalgebra_sparse_status_text(-1000)) == 0);
    snprintf(
        version, sizeof version, "%d.%d.%d", NALGEBRA_SPARSE_VERSION_MAJOR, NALGEBRA_SPARSE_VERSION_MINOR, NALGEBRA_SPARSE_VERSION_PATCH);
    CHECK(strcmp(version, NALGEBRA_SPARSE_VERSION) == 0);
}

int main(void) {
    check_rows();
    check_rows_modulo();
    check_cols();
    check_texts();
    check_nulls();
    check_texts_of_statuses();
    /* bindings/test compares this line with the file VERSION. */
    puts(NALGEBRA_SPARSE_VERSION);
    return 0;
}
