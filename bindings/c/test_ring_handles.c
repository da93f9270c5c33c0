/* Compares chains of calls over handles of matrices modulo a listed number with plain dense matrices in random cases,
 * and tries each error of these calls. Run by bindings/test. */
#include "nalgebra_sparse.h"

#include <stdio.h>
#include <stdlib.h>
#include <string.h>

enum { MOST = 5, ROOM = MOST * MOST, HANDLES = 6, STEPS = 20000, MARK = 77 };

#define EACH(i, n) for (size_t i = 0; i < (n); i++)
#define CHECK(holds)                                                        \
    do {                                                                    \
        if (!(holds)) {                                                     \
            fprintf(stderr, "%s:%d: not so: %s\n", __FILE__, __LINE__, #holds); \
            exit(1);                                                        \
        }                                                                   \
    } while (0)

static const uint64_t MODULI[] = {2, 3, 5, 7, 11, 13, 101, 65537, 998244353, 1000000007, 2305843009213693951};
enum { COUNT = sizeof MODULI / sizeof *MODULI };

static uint64_t state = 0x2545f4914f6cdd1du;

static uint64_t next_random(void) {
    state ^= state << 13;
    state ^= state >> 7;
    state ^= state << 17;
    return state;
}

static size_t below(size_t bound) { return (size_t)(next_random() % bound); }

static int64_t random_value(void) {
    switch (below(4)) {
    case 0: return (int64_t)next_random();
    case 1: return INT64_MIN;
    default: return (int64_t)below(7) - 3;
    }
}

__extension__ typedef unsigned __int128 wide;

static uint64_t residue(uint64_t m, int64_t z) { return z < 0 ? (m - (0 - (uint64_t)z) % m) % m : (uint64_t)z % m; }
static uint64_t sum(uint64_t m, uint64_t x, uint64_t y) { return (uint64_t)(((wide)x + y) % m); }
static uint64_t times(uint64_t m, uint64_t x, uint64_t y) { return (uint64_t)((wide)x * y % m); }

/* A plain matrix modulo m, or none, where m is 0. */
typedef struct {
    uint64_t m;
    size_t rows, cols;
    uint64_t value[MOST][MOST];
    int has[MOST][MOST];
} plain;

static plain zeros(uint64_t m, size_t rows, size_t cols) {
    plain p;
    memset(&p, 0, sizeof p);
    p.m = m, p.rows = rows, p.cols = cols;
    return p;
}

static plain transposed(const plain *a) {
    plain p = zeros(a->m, a->cols, a->rows);
    EACH(i, a->rows) EACH(j, a->cols) p.value[j][i] = a->value[i][j], p.has[j][i] = a->has[i][j];
    return p;
}

static plain combined(int64_t alpha, const plain *a, int64_t beta, const plain *b) {
    plain p = zeros(a->m, a->rows, a->cols);
    EACH(i, a->rows) EACH(j, a->cols) {
        uint64_t x = times(a->m, residue(a->m, alpha), a->value[i][j]), y = times(a->m, residue(a->m, beta), b->value[i][j]);
        p.value[i][j] = sum(a->m, x, y), p.has[i][j] = a->has[i][j] || b->has[i][j];
    }
    return p;
}

static plain product(const plain *a, const plain *b) {
    plain p = zeros(a->m, a->rows, b->cols);
    EACH(i, a->rows) EACH(k, a->cols) EACH(j, b->cols) {
        if (!a->has[i][k] || !b->has[k][j]) continue;
        p.has[i][j] = 1, p.value[i][j] = sum(a->m, p.value[i][j], times(a->m, a->value[i][k], b->value[k][j]));
    }
    return p;
}

static nalgebra_sparse_ring_matrix handles[HANDLES];
static plain models[HANDLES];

/* Reads a handle, and compares it with its model: modulus, shape, entries and values. */
static void compare(size_t at) {
    const plain *p = &models[at];
    uint64_t m = MARK;
    size_t offsets[MOST + 1], indices[ROOM + 1], rows = MARK, cols = MARK, places = MARK, count = MARK, seen = 0;
    int64_t values[ROOM + 1];
    int32_t status = nalgebra_sparse_ring_matrix_sizes(&handles[at], &m, &rows, &cols, &places);
    if (p->m == 0) {
        CHECK(status == NALGEBRA_SPARSE_EMPTY_HANDLE && handles[at].matrix == NULL);
        CHECK(m == MARK && rows == MARK && cols == MARK && places == MARK);
        return;
    }
    CHECK(status == 0 && m == p->m && rows == p->rows && cols == p->cols);
    if (places > 0) {
        CHECK(nalgebra_sparse_ring_matrix_read(&handles[at], offsets, rows + 1, indices, places - 1, values, ROOM, &count) == NALGEBRA_SPARSE_TOO_SMALL);
        CHECK(count == places);
    }
    indices[places] = MARK, values[places] = MARK;
    CHECK(nalgebra_sparse_ring_matrix_read(&handles[at], offsets, rows + 1, indices, places + 1, values, places + 1, &count) == 0);
    CHECK(count == places && offsets[0] == 0 && offsets[rows] == places && indices[places] == MARK && values[places] == MARK);
    EACH(i, rows) EACH(j, cols) {
        if (!p->has[i][j]) continue;
        CHECK(seen >= offsets[i] && seen < offsets[i + 1] && indices[seen] == j && (uint64_t)values[seen] == p->value[i][j]);
        seen++;
    }
    CHECK(seen == places);
}

/* Makes a handle from triplets, or from the arrays of a matrix by rows. */
static void make(size_t at) {
    plain p = zeros(MODULI[below(3) ? below(2) : below(COUNT)], below(MOST + 1), below(MOST + 1));
    size_t is[ROOM], js[ROOM], offsets[MOST + 1] = {0}, count = p.rows * p.cols == 0 ? 0 : below(ROOM);
    int64_t values[ROOM];
    if (below(2)) {
        EACH(k, count) {
            is[k] = below(p.rows), js[k] = below(p.cols), values[k] = random_value();
            p.has[is[k]][js[k]] = 1, p.value[is[k]][js[k]] = sum(p.m, p.value[is[k]][js[k]], residue(p.m, values[k]));
        }
        CHECK(nalgebra_sparse_ring_matrix_from_triplets(p.m, p.rows, p.cols, is, count, js, count, values, count, &handles[at]) == 0);
    } else {
        count = 0;
        EACH(i, p.rows) {
            EACH(j, p.cols) if (below(2)) {
                js[count] = j, values[count] = random_value();
                p.has[i][j] = 1, p.value[i][j] = residue(p.m, values[count++]);
            }
            offsets[i + 1] = count;
        }
        CHECK(nalgebra_sparse_ring_matrix_from_rows(p.m, p.rows, p.cols, offsets, p.rows + 1, js, count, values, count, &handles[at]) == 0);
    }
    models[at] = p;
}

/* The status of a call with two operands, which is 0 where the shapes fit. */
static int32_t expected(const plain *a, const plain *b, int fit) {
    if (a->m == 0 || b->m == 0) return NALGEBRA_SPARSE_EMPTY_HANDLE;
    if (a->m != b->m) return NALGEBRA_SPARSE_RING_MISMATCH;
    return fit ? 0 : NALGEBRA_SPARSE_SHAPE_MISMATCH;
}

static int64_t alpha, beta;

/* Calls an operation with two operands, and compares its status. */
static void combine(size_t how, size_t a, size_t b, size_t out) {
    const plain *x = &models[a], *y = &models[b];
    int alike = x->rows == y->rows && x->cols == y->cols;
    int32_t want = expected(x, y, how == 3 ? x->cols == y->rows : alike);
    int32_t status = how == 0   ? nalgebra_sparse_ring_matrix_add(&handles[a], &handles[b], &handles[out])
                     : how == 1 ? nalgebra_sparse_ring_matrix_subtract(&handles[a], &handles[b], &handles[out])
                     : how == 2 ? nalgebra_sparse_ring_matrix_add_scaled(alpha, &handles[a], beta, &handles[b], &handles[out])
                                : nalgebra_sparse_ring_matrix_multiply(&handles[a], &handles[b], &handles[out]);
    CHECK(status == want);
    if (status != 0) return;
    models[out] = how == 0 ? combined(1, x, 1, y) : how == 1 ? combined(1, x, -1, y) : how == 2 ? combined(alpha, x, beta, y) : product(x, y);
}

/* Multiplies by a dense matrix, and compares the result. */
static void multiply_dense(size_t a) {
    const plain *p = &models[a];
    size_t cols = below(3), room = p->rows * cols;
    int64_t b[2 * MOST], values[2 * MOST + 1];
    EACH(k, p->cols * cols) b[k] = random_value();
    EACH(k, 2 * MOST + 1) values[k] = MARK;
    if (room > 0) {
        CHECK(nalgebra_sparse_ring_matrix_multiply_dense(&handles[a], cols, b, p->cols * cols, values, room - 1) == NALGEBRA_SPARSE_TOO_SMALL);
        CHECK(nalgebra_sparse_ring_matrix_multiply_dense(&handles[a], cols, b, p->cols * cols + 1, values, room) == NALGEBRA_SPARSE_INVALID_STRUCTURE);
        CHECK(values[0] == MARK);
    }
    CHECK(nalgebra_sparse_ring_matrix_multiply_dense(&handles[a], cols, b, p->cols * cols, values, room + 1) == 0);
    EACH(j, cols) EACH(i, p->rows) {
        uint64_t want = 0;
        EACH(k, p->cols) want = sum(p->m, want, times(p->m, p->value[i][k], residue(p->m, b[j * p->cols + k])));
        CHECK((uint64_t)values[j * p->rows + i] == want);
    }
    CHECK(values[room] == MARK);
}

static void step(void) {
    size_t a = below(HANDLES), b = (a + 1 + below(HANDLES - 1)) % HANDLES, out = b, chosen = below(10);
    while (out == a || out == b) out = below(HANDLES);
    alpha = random_value(), beta = random_value();
    int32_t missing = models[a].m == 0 ? NALGEBRA_SPARSE_EMPTY_HANDLE : 0;
    if (chosen < 4) {
        combine(chosen, a, b, out);
    } else if (chosen == 4) {
        CHECK(nalgebra_sparse_ring_matrix_transpose(&handles[a], &handles[out]) == missing);
        if (!missing) models[out] = transposed(&models[a]);
    } else if (chosen == 5) {
        plain none = zeros(models[a].m, models[a].rows, models[a].cols);
        CHECK(nalgebra_sparse_ring_matrix_scale(alpha, &handles[a], &handles[out]) == missing);
        if (!missing) models[out] = combined(alpha, &models[a], 0, &none);
    } else if (chosen == 6) {
        CHECK(nalgebra_sparse_ring_matrix_clone(&handles[a], &handles[out]) == missing);
        if (!missing) models[out] = models[a];
    } else if (chosen == 7 && !missing) {
        multiply_dense(a);
    } else if (below(8) == 0) {
        nalgebra_sparse_ring_matrix_free(&handles[out]);
        models[out].m = 0;
    } else {
        make(out);
    }
    compare(a), compare(b), compare(out);
}

static void try_errors(void) {
    static const uint64_t NONE[] = {0, 1, 4, 6, 17, 65536, UINT64_MAX};
    const size_t offsets[] = {0, 1}, falling[] = {1, 0}, zero[] = {0}, one[] = {1};
    const int64_t values[] = {9};
    nalgebra_sparse_ring_matrix *out = &handles[0];
    make(0);
    EACH(k, sizeof NONE / sizeof *NONE) {
        CHECK(nalgebra_sparse_ring_matrix_from_rows(NONE[k], 1, 1, offsets, 2, zero, 1, values, 1, out) == NALGEBRA_SPARSE_UNKNOWN_CHOICE);
        CHECK(nalgebra_sparse_ring_matrix_from_triplets(NONE[k], 1, 1, zero, 1, zero, 1, values, 1, out) == NALGEBRA_SPARSE_UNKNOWN_CHOICE);
    }
    CHECK(nalgebra_sparse_ring_matrix_from_rows(7, 1, 1, falling, 2, zero, 1, values, 1, out) == NALGEBRA_SPARSE_INVALID_STRUCTURE);
    CHECK(nalgebra_sparse_ring_matrix_from_rows(7, 1, 1, offsets, 2, one, 1, values, 1, out) == NALGEBRA_SPARSE_INDEX_OUT_OF_BOUNDS);
    CHECK(nalgebra_sparse_ring_matrix_from_triplets(7, 1, 1, zero, 1, one, 1, values, 1, out) == NALGEBRA_SPARSE_INDEX_OUT_OF_BOUNDS);
    CHECK(nalgebra_sparse_ring_matrix_from_triplets(7, 1, 1, zero, 1, zero, 0, values, 1, out) == NALGEBRA_SPARSE_INVALID_STRUCTURE);
    compare(0);
}

int main(void) {
    EACH(k, STEPS) step();
    try_errors();
    EACH(k, HANDLES) nalgebra_sparse_ring_matrix_free(&handles[k]), nalgebra_sparse_ring_matrix_free(&handles[k]);
    printf("c: %d steps over handles of matrices modulo %d numbers equal plain matrices, and each error is returned\n", STEPS, COUNT);
    return 0;
}
