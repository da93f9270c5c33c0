/* Compares chains of calls over handles with plain dense matrices in random cases, and tries each error of these calls.
 * Run by bindings/test. */
#include "nalgebra_sparse.h"

#include <stdio.h>
#include <stdlib.h>
#include <string.h>

enum { MOST = 5, ROOM = MOST * MOST, HANDLES = 6, STEPS = 20000, MARK = 77 };

#define EACH(i, n) for (size_t i = 0; i < (n); i++)
#define CHECK(holds)                                                        \
    do {                                                                    \
        if (!(holds)) {                                                     \
            fprintf(stderr, "%s:%d: not so: %s\n", __FILE__, __LINE__, #holds); \
            exit(1);                                                        \
        }                                                                   \
    } while (0)

static uint64_t state = 0x2545f4914f6cdd1du;

static uint64_t next_random(void) {
    state ^= state << 13;
    state ^= state >> 7;
    state ^= state << 17;
    return state;
}

static size_t below(size_t bound) { return (size_t)(next_random() % bound); }

static int64_t random_value(void) { return below(3) == 0 ? (int64_t)next_random() : (int64_t)below(7) - 3; }

/* A plain matrix modulo 2^64, or none, where `is` is 0. */
typedef struct {
    int is;
    size_t rows, cols;
    uint64_t value[MOST][MOST];
    int has[MOST][MOST];
} plain;

static plain zeros(size_t rows, size_t cols) {
    plain p;
    memset(&p, 0, sizeof p);
    p.is = 1, p.rows = rows, p.cols = cols;
    return p;
}

static plain transposed(const plain *a) {
    plain p = zeros(a->cols, a->rows);
    EACH(i, a->rows) EACH(j, a->cols) p.value[j][i] = a->value[i][j], p.has[j][i] = a->has[i][j];
    return p;
}

static plain combined(uint64_t alpha, const plain *a, uint64_t beta, const plain *b) {
    plain p = zeros(a->rows, a->cols);
    EACH(i, a->rows) EACH(j, a->cols) {
        p.value[i][j] = alpha * a->value[i][j] + beta * b->value[i][j];
        p.has[i][j] = a->has[i][j] || b->has[i][j];
    }
    return p;
}

static plain product(const plain *a, const plain *b) {
    plain p = zeros(a->rows, b->cols);
    EACH(i, a->rows) EACH(k, a->cols) EACH(j, b->cols) {
        if (!a->has[i][k] || !b->has[k][j]) continue;
        p.has[i][j] = 1, p.value[i][j] += a->value[i][k] * b->value[k][j];
    }
    return p;
}

static int same_shape(const plain *a, const plain *b) { return a->rows == b->rows && a->cols == b->cols; }

static nalgebra_sparse_matrix handles[HANDLES];
static plain models[HANDLES];

/* Reads a handle, and compares it with its model: shape, entries and values. */
static void compare(size_t at) {
    const plain *p = &models[at];
    size_t offsets[MOST + 1], indices[ROOM], rows, cols, places, count = MARK, seen = 0;
    int64_t values[ROOM];
    int32_t status = nalgebra_sparse_matrix_sizes(&handles[at], &rows, &cols, &places);
    if (!p->is) {
        CHECK(status == NALGEBRA_SPARSE_EMPTY_HANDLE && handles[at].matrix == NULL);
        return;
    }
    CHECK(status == 0 && rows == p->rows && cols == p->cols);
    if (places > 0) {
        CHECK(nalgebra_sparse_matrix_read(&handles[at], offsets, rows + 1, indices, places - 1, values, ROOM, &count) == NALGEBRA_SPARSE_TOO_SMALL);
    }
    CHECK(nalgebra_sparse_matrix_read(&handles[at], offsets, rows, indices, ROOM, values, ROOM, &count) == NALGEBRA_SPARSE_TOO_SMALL);
    CHECK(count == MARK);
    CHECK(nalgebra_sparse_matrix_read(&handles[at], offsets, rows + 1, indices, places + 1 > ROOM ? ROOM : places + 1, values, ROOM, &count) == 0);
    CHECK(count == places && offsets[0] == 0 && offsets[rows] == places);
    uint32_t narrow_offsets[MOST + 1], narrow_indices[ROOM];
    int64_t again[ROOM];
    count = MARK;
    CHECK(nalgebra_sparse_matrix_read_32(&handles[at], narrow_offsets, rows, narrow_indices, ROOM, again, ROOM, &count) == NALGEBRA_SPARSE_TOO_SMALL);
    CHECK(count == MARK);
    CHECK(nalgebra_sparse_matrix_read_32(&handles[at], narrow_offsets, MOST + 1, narrow_indices, places, again, places, &count) == 0 && count == places);
    EACH(i, rows + 1) CHECK(narrow_offsets[i] == offsets[i]);
    EACH(k, places) CHECK(narrow_indices[k] == indices[k] && again[k] == values[k]);
    EACH(i, rows) EACH(j, cols) {
        if (!p->has[i][j]) continue;
        CHECK(seen >= offsets[i] && seen < offsets[i + 1] && indices[seen] == j && (uint64_t)values[seen] == p->value[i][j]);
        seen++;
    }
    CHECK(seen == places);
}

static void make_from_triplets(size_t at) {
    plain p = zeros(below(MOST + 1), below(MOST + 1));
    size_t is[ROOM], js[ROOM], count = p.rows * p.cols == 0 ? 0 : below(ROOM);
    int64_t values[ROOM];
    EACH(k, count) {
        is[k] = below(p.rows), js[k] = below(p.cols), values[k] = random_value();
        p.has[is[k]][js[k]] = 1, p.value[is[k]][js[k]] += (uint64_t)values[k];
    }
    CHECK(nalgebra_sparse_matrix_from_triplets(p.rows, p.cols, is, count, js, count, values, count, &handles[at]) == 0);
    models[at] = p;
}

static void make_from_rows(size_t at) {
    plain p = zeros(below(MOST + 1), below(MOST + 1));
    size_t offsets[MOST + 1] = {0}, indices[ROOM], count = 0;
    int64_t values[ROOM];
    EACH(i, p.rows) {
        EACH(j, p.cols) {
            if (below(3) != 0) continue;
            p.has[i][j] = 1, values[count] = random_value(), p.value[i][j] = (uint64_t)values[count], indices[count++] = j;
        }
        offsets[i + 1] = count;
    }
    CHECK(nalgebra_sparse_matrix_from_rows(p.rows, p.cols, offsets, p.rows + 1, indices, count, values, count, &handles[at]) == 0);
    models[at] = p;
}

/* One call with two operands: a sum, a difference, a sum of multiples or a product. */
static void combine(size_t a, size_t b, size_t out) {
    const plain *p = &models[a], *q = &models[b];
    nalgebra_sparse_matrix *x = &handles[a], *y = &handles[b], *z = &handles[out];
    size_t how = below(4);
    int64_t alpha = random_value(), beta = random_value();
    int32_t status = how == 0   ? nalgebra_sparse_matrix_add(x, y, z)
                     : how == 1 ? nalgebra_sparse_matrix_subtract(x, y, z)
                     : how == 2 ? nalgebra_sparse_matrix_add_scaled(alpha, x, beta, y, z)
                                : nalgebra_sparse_matrix_multiply(x, y, z);
    if (!p->is || !q->is) {
        CHECK(status == NALGEBRA_SPARSE_EMPTY_HANDLE);
    } else if (how == 3 ? p->cols != q->rows : !same_shape(p, q)) {
        CHECK(status == NALGEBRA_SPARSE_SHAPE_MISMATCH);
    } else {
        CHECK(status == 0);
        plain made = how == 3   ? product(p, q)
                     : how == 2 ? combined((uint64_t)alpha, p, (uint64_t)beta, q)
                                : combined(1, p, how == 0 ? 1 : (uint64_t)-1, q);
        models[out] = made;
    }
}

/* One call with one operand: a transpose, a multiple or a clone. */
static void change(size_t a, size_t out) {
    const plain *p = &models[a];
    size_t how = below(3);
    int64_t factor = random_value();
    int32_t status = how == 0   ? nalgebra_sparse_matrix_transpose(&handles[a], &handles[out])
                     : how == 1 ? nalgebra_sparse_matrix_scale(factor, &handles[a], &handles[out])
                                : nalgebra_sparse_matrix_clone(&handles[a], &handles[out]);
    if (!p->is) {
        CHECK(status == NALGEBRA_SPARSE_EMPTY_HANDLE);
        return;
    }
    CHECK(status == 0);
    plain made = how == 0 ? transposed(p) : how == 1 ? combined((uint64_t)factor, p, 0, p) : *p;
    models[out] = made;
}

static void step(void) {
    size_t a = below(HANDLES), b = (a + 1 + below(HANDLES - 1)) % HANDLES, out;
    do out = below(HANDLES);
    while (out == a || out == b);
    switch (below(8)) {
    case 0: make_from_triplets(out); break;
    case 1: make_from_rows(out); break;
    case 2: change(a, out); break;
    case 3: nalgebra_sparse_matrix_free(&handles[out]), models[out].is = 0; break;
    default: combine(a, b, out); break;
    }
    compare(a), compare(b), compare(out);
}

/* The faults of arrays, and that a refused call changes nothing. */
static void refuse(void) {
    nalgebra_sparse_matrix a = NALGEBRA_SPARSE_NO_MATRIX;
    size_t offsets[] = {0, 1, 2}, fallen[] = {0, 2, 1}, indices[] = {0, 1}, wide[] = {0, 2}, rows, cols, places;
    int64_t values[] = {4, 5};
    CHECK(nalgebra_sparse_matrix_from_rows(2, 2, offsets, 3, indices, 2, values, 2, &a) == 0);
    void *before = a.matrix;
    CHECK(nalgebra_sparse_matrix_from_rows(2, 2, fallen, 3, indices, 2, values, 2, &a) == NALGEBRA_SPARSE_INVALID_STRUCTURE);
    CHECK(nalgebra_sparse_matrix_from_rows(2, 2, offsets, 3, wide, 2, values, 2, &a) == NALGEBRA_SPARSE_INDEX_OUT_OF_BOUNDS);
    CHECK(nalgebra_sparse_matrix_from_rows(2, 2, offsets, 3, indices, 2, values, 1, &a) == NALGEBRA_SPARSE_INVALID_STRUCTURE);
    CHECK(nalgebra_sparse_matrix_from_triplets(2, 2, indices, 2, wide, 2, values, 2, &a) == NALGEBRA_SPARSE_INDEX_OUT_OF_BOUNDS);
    CHECK(nalgebra_sparse_matrix_from_triplets(2, 2, indices, 2, indices, 1, values, 2, &a) == NALGEBRA_SPARSE_INVALID_STRUCTURE);
    CHECK(a.matrix == before && nalgebra_sparse_matrix_sizes(&a, &rows, &cols, &places) == 0 && places == 2);
    nalgebra_sparse_matrix_free(&a);
    nalgebra_sparse_matrix_free(&a);
    CHECK(a.matrix == NULL && nalgebra_sparse_matrix_sizes(&a, &rows, &cols, &places) == NALGEBRA_SPARSE_EMPTY_HANDLE);
    /* An empty handle is found before arrays that are too small. */
    CHECK(nalgebra_sparse_matrix_read(&a, offsets, 0, indices, 0, values, 0, &places) == NALGEBRA_SPARSE_EMPTY_HANDLE && places == 2);
    /* The greatest index of 32 bits, and the next one. */
    uint32_t narrow_offsets[2] = {MARK, MARK}, narrow_indices[1] = {MARK};
    CHECK(nalgebra_sparse_matrix_read_32(&a, narrow_offsets, 2, narrow_indices, 1, values, 1, &places) == NALGEBRA_SPARSE_EMPTY_HANDLE);
    size_t row = 0, col = (size_t)1 << 31;
    CHECK(nalgebra_sparse_matrix_from_triplets(1, SIZE_MAX, &row, 1, &col, 1, values, 1, &a) == 0);
    CHECK(nalgebra_sparse_matrix_read_32(&a, narrow_offsets, 2, narrow_indices, 1, values, 1, &places) == NALGEBRA_SPARSE_INDEX_OUT_OF_BOUNDS);
    CHECK(places == 2 && narrow_offsets[0] == MARK && narrow_indices[0] == MARK);
    col--;
    CHECK(nalgebra_sparse_matrix_from_triplets(1, SIZE_MAX, &row, 1, &col, 1, values, 1, &a) == 0);
    CHECK(nalgebra_sparse_matrix_read_32(&a, narrow_offsets, 2, narrow_indices, 1, values, 1, &places) == 0);
    CHECK(places == 1 && narrow_offsets[0] == 0 && narrow_offsets[1] == 1 && narrow_indices[0] == col);
    nalgebra_sparse_matrix_free(&a);
}

int main(void) {
    EACH(i, STEPS) step();
    EACH(i, HANDLES) nalgebra_sparse_matrix_free(&handles[i]);
    refuse();
    printf("c: %d random calls over handles equal plain matrices, and each error is returned\n", (int)STEPS);
    return 0;
}
