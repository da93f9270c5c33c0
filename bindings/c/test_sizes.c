/* Makes each call with arrays that are too short: it tells the size that is needed, leaves the arrays unchanged, and
 * writes the same result into arrays of that size. Each array is a block of its own, so that the sanitizers find an
 * access after its end. Run by bindings/test. */
#include "nalgebra_sparse.h"

#include <stdio.h>
#include <stdlib.h>
#include <string.h>

#define CHECK(holds)                                                        \
    do {                                                                    \
        if (!(holds)) {                                                     \
            fprintf(stderr, "%s:%d: not so: %s\n", __FILE__, __LINE__, #holds); \
            exit(1);                                                        \
        }                                                                   \
    } while (0)

enum { AMPLE = 40, MARK = 77, LANES = 4 };

static const int32_t SMALL = NALGEBRA_SPARSE_TOO_SMALL;

/* The triplets of 1 . 3 . / . 5 . 7 / 3 . 1 . / . 7 . 9, the first of them as two triplets. */
static const size_t ROWS[] = {0, 0, 0, 1, 1, 2, 2, 3, 3}, COLS[] = {0, 0, 2, 1, 3, 0, 2, 1, 3};
static const int64_t PARTS[] = {4, -3, 3, 5, 7, 3, 1, 7, 9};
static const nalgebra_sparse_lists LIST = {4, 4, ROWS, COLS, PARTS, 9};
static const size_t OFFSETS[] = {0, 2, 4, 6, 8}, INDICES[] = {0, 2, 1, 3, 0, 2, 1, 3};
static const int64_t VALUES[] = {1, 3, 5, 7, 3, 1, 7, 9};
static const nalgebra_sparse_rows A = {4, 4, OFFSETS, INDICES, VALUES, 8};
/* 1 1 1 1 / . 1 . . / . . 1 . / . . . 1: its product with A is full in the first row. */
static const size_t B_OFFSETS[] = {0, 4, 5, 6, 7}, B_INDICES[] = {0, 1, 2, 3, 1, 2, 3};
static const int64_t B_VALUES[] = {1, 1, 1, 1, 1, 1, 1};
static const nalgebra_sparse_rows B = {4, 4, B_OFFSETS, B_INDICES, B_VALUES, 7};
/* The transpose of B by columns: the symmetric matrix with the first row and column of ones, whose elimination fills
 * all. */
static const size_t C_OFFSETS[] = {0, 1, 3, 5, 7}, C_INDICES[] = {0, 0, 1, 0, 2, 0, 3};
static const int64_t C_VALUES[] = {1, 1, 2, 1, 3, 1, 5};
static const nalgebra_sparse_cols C = {4, 4, C_OFFSETS, C_INDICES, C_VALUES, 7};

static int64_t diagonal[LANES];

typedef int32_t (*call)(nalgebra_sparse_result *);
#define CALL(name, ...) \
    static int32_t name(nalgebra_sparse_result *out) { return nalgebra_sparse_##name(__VA_ARGS__); }

CALL(assemble_csr_lists, LIST, out)
CALL(assemble_csc_lists, LIST, out)
CALL(assemble_csr_mod_lists, 5, LIST, out)
CALL(assemble_csc_mod_lists, 5, LIST, out)
CALL(transpose_rows, A, out)
CALL(add_rows, A, B, out)
CALL(subtract_rows, A, B, out)
CALL(add_scaled_rows, 3, A, -2, B, out)
CALL(add_mod_rows, 5, A, B, out)
CALL(subtract_mod_rows, 5, A, B, out)
CALL(add_scaled_mod_rows, 5, 3, A, -2, B, out)
CALL(multiply_rows, A, B, out)
CALL(multiply_mod_rows, 5, A, B, out)
CALL(divide_rows, A, 3, out)
CALL(divide_mod_rows, 5, A, 3, out)
CALL(fill_cols, C, NALGEBRA_SPARSE_UPPER, out)
CALL(factor_symmetric_cols, C, out, diagonal, LANES)
CALL(factor_symmetric_mod_cols, 101, C, out, diagonal, LANES)

/* Each call that writes a matrix, and the number of entries of its result, counted by hand. */
static const struct {
    call made;
    size_t needed;
} CALLS[] = {
    {assemble_csr_lists, 8}, {assemble_csc_lists, 8}, {assemble_csr_mod_lists, 8}, {assemble_csc_mod_lists, 8}, {transpose_rows, 8},
    {add_rows, 10}, {subtract_rows, 10}, {add_scaled_rows, 10}, {add_mod_rows, 10}, {subtract_mod_rows, 10}, {add_scaled_mod_rows, 10},
    {multiply_rows, 12}, {multiply_mod_rows, 12}, {divide_rows, 8}, {divide_mod_rows, 8},
    {fill_cols, 10}, {factor_symmetric_cols, 10}, {factor_symmetric_mod_cols, 10},
};

/* An array of this many marks, in a block of its own. */
static size_t *sizes(size_t count) {
    size_t *block = malloc(count * sizeof *block + 1);
    CHECK(block != NULL);
    for (size_t k = 0; k < count; k++) block[k] = MARK;
    return block;
}

static int64_t *values(size_t count) {
    int64_t *block = malloc(count * sizeof *block + 1);
    CHECK(block != NULL);
    for (size_t k = 0; k < count; k++) block[k] = MARK;
    return block;
}

static nalgebra_sparse_result room(size_t offsets, size_t places) {
    nalgebra_sparse_result out = {sizes(offsets), offsets, sizes(places), values(places), places, MARK, MARK, MARK};
    return out;
}

static void release(nalgebra_sparse_result *r) {
    free(r->offsets);
    free(r->indices);
    free(r->values);
}

/* Checks that a call with this much room is refused, tells this size and writes nothing else. */
static void check_small(call made, size_t offsets, size_t places, size_t needed) {
    nalgebra_sparse_result r = room(offsets, places);
    CHECK(made(&r) == SMALL && r.places == needed && r.rows == MARK && r.cols == MARK);
    for (size_t k = 0; k < offsets; k++) CHECK(r.offsets[k] == MARK);
    for (size_t k = 0; k < places; k++) CHECK(r.indices[k] == MARK && r.values[k] == MARK);
    for (size_t k = 0; k < LANES; k++) CHECK(diagonal[k] == MARK);
    release(&r);
}

static void check_matrix(call made, size_t needed) {
    nalgebra_sparse_result want = room(AMPLE, AMPLE), got = room(LANES + 1, needed), none = {NULL, 0, NULL, NULL, 0, MARK, MARK, MARK};
    for (size_t k = 0; k < LANES; k++) diagonal[k] = MARK;
    for (size_t places = 0; places < needed; places++) check_small(made, LANES + 1, places, needed);
    check_small(made, LANES, needed, needed);
    CHECK(made(&none) == SMALL && none.places == needed);
    CHECK(made(&want) == 0 && made(&got) == 0 && want.places == needed && got.places == needed);
    CHECK(memcmp(got.offsets, want.offsets, (LANES + 1) * sizeof *got.offsets) == 0);
    CHECK(memcmp(got.indices, want.indices, needed * sizeof *got.indices) == 0);
    CHECK(memcmp(got.values, want.values, needed * sizeof *got.values) == 0);
    release(&want);
    release(&got);
}

/* Arrays of which exactly one is too short. */
static void check_one_array(void) {
    size_t *o = sizes(LANES + 1), *x = sizes(12), places = MARK;
    int64_t *v = values(12), *d = values(LANES);
#define MULTIPLY(xn, vn) nalgebra_sparse_multiply(4, 4, 4, OFFSETS, 5, INDICES, 8, VALUES, 8, B_OFFSETS, 5, B_INDICES, 7, B_VALUES, 7, o, 5, x, xn, v, vn, &places)
#define FACTOR(xn, vn, dn) nalgebra_sparse_factor_symmetric(4, C_OFFSETS, 5, C_INDICES, 7, C_VALUES, 7, o, 5, x, xn, v, vn, d, dn, &places)
    CHECK(MULTIPLY(11, 12) == SMALL && places == 12);
    places = MARK;
    CHECK(MULTIPLY(12, 11) == SMALL && places == 12);
    CHECK(FACTOR(9, 12, 4) == SMALL && places == 10);
    places = MARK;
    CHECK(FACTOR(12, 9, 4) == SMALL && places == 10);
    places = MARK;
    CHECK(FACTOR(12, 12, 3) == SMALL && places == 10);
    CHECK(o[0] == MARK && x[0] == MARK && v[0] == MARK && d[0] == MARK);
    CHECK(MULTIPLY(12, 12) == 0 && places == 12);
    free(o);
    free(x);
    free(v);
    free(d);
}

static void check_texts(void) {
    static uint8_t text[400], again[400];
    size_t length = MARK, *i = sizes(8), *j = sizes(8), count = MARK;
    int64_t *v = values(8);
    nalgebra_sparse_lists list = {4, 4, ROWS + 1, COLS + 1, PARTS + 1, 8};
    CHECK(nalgebra_sparse_write_lists(list, text, 0, &length) == SMALL && length > 60 && text[0] == 0);
    size_t needed = length;
    length = MARK;
    CHECK(nalgebra_sparse_write_lists(list, text, needed - 1, &length) == SMALL && length == needed && text[0] == 0);
    CHECK(nalgebra_sparse_write_lists(list, text, needed, &length) == 0 && length == needed && text[needed] == 0);
    CHECK(nalgebra_sparse_write_lists(list, again, sizeof again, &length) == 0 && memcmp(text, again, needed) == 0);
    for (int short_one = 0; short_one < 3; short_one++) {
        count = MARK;
        CHECK(nalgebra_sparse_read(text, needed, i, 8 - (short_one == 0), j, 8 - (short_one == 1), v, 8 - (short_one == 2), &count) == SMALL);
        CHECK(count == 8 && i[0] == MARK && j[0] == MARK && v[0] == MARK);
    }
    CHECK(nalgebra_sparse_read(text, needed, i, 8, j, 8, v, 8, &count) == 0 && count == 8);
    CHECK(memcmp(i, ROWS + 1, 8 * sizeof *i) == 0 && memcmp(j, COLS + 1, 8 * sizeof *j) == 0 && memcmp(v, PARTS + 1, 8 * sizeof *v) == 0);
    free(i);
    free(j);
    free(v);
}

int main(void) {
    for (size_t k = 0; k < sizeof CALLS / sizeof *CALLS; k++) check_matrix(CALLS[k].made, CALLS[k].needed);
    check_one_array();
    check_texts();
    puts("c: each call with arrays that are too short tells the size that is needed");
    return 0;
}
