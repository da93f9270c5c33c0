/* Compares assembly, sums and products modulo each modulus and modulo 2^64 with plain dense matrices in random cases,
 * and tries each error of the calls with a modulus. Run by bindings/test. */
#include "nalgebra_sparse.h"

#include <stdio.h>
#include <stdlib.h>
#include <string.h>

enum { MOST = 4, ROOM = 40, MARK = 77 };

/* The moduli of the library, and 0 for 2^64. */
static const uint64_t MODULI[] = {0, 2, 3, 5, 7, 11, 13, 101, 65537, 998244353, 1000000007, 2305843009213693951};
enum { COUNT = sizeof MODULI / sizeof *MODULI };

#define EACH(i, n) for (size_t i = 0; i < (n); i++)
#define CHECK(holds)                                                        \
    do {                                                                    \
        if (!(holds)) {                                                     \
            fprintf(stderr, "%s:%d: not so: %s\n", __FILE__, __LINE__, #holds); \
            exit(1);                                                        \
        }                                                                   \
    } while (0)

static uint64_t state = 0x9e3779b97f4a7c15u;

static uint64_t next_random(void) {
    state ^= state << 13;
    state ^= state >> 7;
    state ^= state << 17;
    return state;
}

static size_t below(size_t bound) { return (size_t)(next_random() % bound); }

static int64_t random_value(void) {
    switch (below(4)) {
    case 0: return (int64_t)next_random();
    case 1: return INT64_MIN;
    default: return (int64_t)below(7) - 3;
    }
}

/* ---- numbers modulo m, where 0 means 2^64 */

__extension__ typedef unsigned __int128 wide;

static uint64_t residue(uint64_t m, int64_t z) {
    if (m == 0) return (uint64_t)z;
    return z < 0 ? (m - (0 - (uint64_t)z) % m) % m : (uint64_t)z % m;
}

static uint64_t sum(uint64_t m, uint64_t x, uint64_t y) { return m == 0 ? x + y : (uint64_t)(((wide)x + y) % m); }

static uint64_t times(uint64_t m, uint64_t x, uint64_t y) { return m == 0 ? x * y : (uint64_t)((wide)x * y % m); }

/* ---- plain matrices, and matrices by rows */

typedef struct {
    size_t rows, cols;
    uint64_t value[MOST][MOST];
    int has[MOST][MOST];
} plain;

typedef struct {
    size_t offsets[MOST + 1], indices[ROOM], places;
    int64_t values[ROOM];
    plain as;
} matrix;

static plain zeros(size_t rows, size_t cols) {
    plain p;
    memset(&p, 0, sizeof p);
    p.rows = rows, p.cols = cols;
    return p;
}

static matrix random_matrix(uint64_t m, size_t rows, size_t cols) {
    matrix a;
    memset(&a, 0, sizeof a);
    a.as = zeros(rows, cols);
    EACH(i, rows) {
        EACH(j, cols) if (below(2)) {
            a.indices[a.places] = j;
            a.values[a.places] = random_value();
            a.as.value[i][j] = residue(m, a.values[a.places++]);
            a.as.has[i][j] = 1;
        }
        a.offsets[i + 1] = a.places;
    }
    return a;
}

static plain multiple_sum(uint64_t m, uint64_t alpha, const plain *a, uint64_t beta, const plain *b) {
    plain c = zeros(a->rows, a->cols);
    EACH(i, c.rows) EACH(j, c.cols) {
        c.value[i][j] = sum(m, times(m, alpha, a->value[i][j]), times(m, beta, b->value[i][j]));
        c.has[i][j] = a->has[i][j] || b->has[i][j];
    }
    return c;
}

static plain product(uint64_t m, const plain *a, const plain *b) {
    plain c = zeros(a->rows, b->cols);
    EACH(i, c.rows) EACH(j, c.cols) EACH(k, a->cols) {
        c.value[i][j] = sum(m, c.value[i][j], times(m, a->value[i][k], b->value[k][j]));
        c.has[i][j] |= a->has[i][k] && b->has[k][j];
    }
    return c;
}

/* ---- results */

static size_t to_offsets[ROOM], to_indices[ROOM], places;
static int64_t to_values[ROOM];

static void clear(void) {
    EACH(k, ROOM) to_offsets[k] = to_indices[k] = MARK, to_values[k] = MARK;
    places = MARK;
}

/* Checks a result by rows, or by columns, and that the rest of the arrays is unchanged. */
static void check(int32_t status, const plain *want, int by_cols) {
    size_t lanes = by_cols ? want->cols : want->rows, across = by_cols ? want->rows : want->cols, p = 0;
    CHECK(status == NALGEBRA_SPARSE_DONE);
    EACH(lane, lanes) {
        CHECK(to_offsets[lane] == p);
        EACH(k, across) {
            size_t i = by_cols ? k : lane, j = by_cols ? lane : k;
            if (!want->has[i][j]) continue;
            CHECK(p < places && to_indices[p] == k && (uint64_t)to_values[p] == want->value[i][j]);
            p++;
        }
    }
    CHECK(to_offsets[lanes] == p && places == p);
    EACH(k, ROOM) {
        if (k > lanes) CHECK(to_offsets[k] == MARK);
        if (k >= places) CHECK(to_indices[k] == MARK && to_values[k] == MARK);
    }
}

#define OUT to_offsets, ROOM, to_indices, ROOM, to_values, ROOM, &places
#define IN(a) (a).offsets, (a).as.rows + 1, (a).indices, (a).places, (a).values, (a).places
/* A call, or the same call with a modulus. */
#define CALL(name, ...) (clear(), m ? nalgebra_sparse_##name##_mod(m, __VA_ARGS__) : nalgebra_sparse_##name(__VA_ARGS__))

static void check_assembly(uint64_t m) {
    size_t rows = below(MOST) + 1, cols = below(MOST) + 1, count = below(ROOM), is[ROOM], js[ROOM];
    int64_t vs[ROOM];
    plain want = zeros(rows, cols);
    EACH(k, count) {
        is[k] = below(rows), js[k] = below(cols), vs[k] = random_value();
        want.value[is[k]][js[k]] = sum(m, want.value[is[k]][js[k]], residue(m, vs[k]));
        want.has[is[k]][js[k]] = 1;
    }
    check(CALL(assemble_csr, rows, cols, is, count, js, count, vs, count, OUT), &want, 0);
    check(CALL(assemble_csc, rows, cols, is, count, js, count, vs, count, OUT), &want, 1);
}

static void check_sums(uint64_t m) {
    size_t rows = below(MOST + 1), cols = below(MOST + 1);
    matrix a = random_matrix(m, rows, cols), b = random_matrix(m, rows, cols);
    int64_t alpha = random_value(), beta = random_value();
    plain want = multiple_sum(m, residue(m, 1), &a.as, residue(m, 1), &b.as);
    check(CALL(add, rows, cols, IN(a), IN(b), OUT), &want, 0);
    want = multiple_sum(m, residue(m, 1), &a.as, residue(m, -1), &b.as);
    check(CALL(subtract, rows, cols, IN(a), IN(b), OUT), &want, 0);
    want = multiple_sum(m, residue(m, alpha), &a.as, residue(m, beta), &b.as);
    check(CALL(add_scaled, rows, cols, alpha, IN(a), beta, IN(b), OUT), &want, 0);
}

static void check_products(uint64_t m) {
    size_t rows = below(MOST + 1), inner = below(MOST + 1), cols = below(MOST + 1);
    matrix a = random_matrix(m, rows, inner), b = random_matrix(m, inner, cols);
    plain want = product(m, &a.as, &b.as);
    int64_t dense[MOST * MOST];
    check(CALL(multiply, rows, inner, cols, IN(a), IN(b), OUT), &want, 0);
    EACH(j, cols) EACH(i, inner) {
        dense[j * inner + i] = random_value();
        b.as.value[i][j] = residue(m, dense[j * inner + i]);
    }
    want = product(m, &a.as, &b.as);
    CHECK(CALL(multiply_dense, rows, inner, cols, IN(a), dense, inner * cols, to_values, ROOM) == NALGEBRA_SPARSE_DONE);
    EACH(j, cols) EACH(i, rows) CHECK((uint64_t)to_values[j * rows + i] == want.value[i][j]);
    EACH(k, ROOM) CHECK(k < rows * cols || to_values[k] == MARK);
}

/* A solution is checked in the ring in which it was found: A X is B, where A is diagonal. */
static void check_solved_system(void) {
    const size_t offsets[] = {0, 1, 2}, indices[] = {0, 1};
    const int64_t values[] = {3, -2}, b[] = {1, 5};
    int64_t x[2], found[2];
    CHECK(nalgebra_sparse_solve_lower_mod(101, 2, 1, offsets, 3, indices, 2, values, 2, false, b, 2, x, 2) == 0);
    CHECK(nalgebra_sparse_multiply_dense_mod(101, 2, 2, 1, offsets, 3, indices, 2, values, 2, x, 2, found, 2) == 0);
    CHECK(found[0] == 1 && found[1] == 5);
}

static void check_errors(void) {
    const size_t o[] = {0, 1, 2}, falling[] = {0, 2, 1}, x[] = {0, 1};
    const int64_t v[] = {5, 8}, d[] = {1, 2};
    const uint64_t unlisted[] = {0, 1, 4, 6, 9, 65536, 2305843009213693952u, UINT64_MAX};
    const int32_t unknown = NALGEBRA_SPARSE_UNKNOWN_CHOICE, invalid = NALGEBRA_SPARSE_INVALID_STRUCTURE, small = NALGEBRA_SPARSE_TOO_SMALL;
#define TO(n) to_offsets, ROOM, to_indices, ROOM, to_values, n, &places
#define ASSEMBLE_CSR(m, count, n) nalgebra_sparse_assemble_csr_mod(m, 2, 2, x, count, x, 2, v, 2, TO(n))
#define ASSEMBLE_CSC(m, count, n) nalgebra_sparse_assemble_csc_mod(m, 2, 2, x, count, x, 2, v, 2, TO(n))
#define ADD(m, o, n) nalgebra_sparse_add_mod(m, 2, 2, o, 3, x, 2, v, 2, o, 3, x, 2, v, 2, TO(n))
#define SUBTRACT(m, o, n) nalgebra_sparse_subtract_mod(m, 2, 2, o, 3, x, 2, v, 2, o, 3, x, 2, v, 2, TO(n))
#define ADD_SCALED(m, o, n) nalgebra_sparse_add_scaled_mod(m, 2, 2, 3, o, 3, x, 2, v, 2, 4, o, 3, x, 2, v, 2, TO(n))
#define MULTIPLY(m, o, n) nalgebra_sparse_multiply_mod(m, 2, 2, 2, o, 3, x, 2, v, 2, o, 3, x, 2, v, 2, TO(n))
#define DENSE(m, o, n) nalgebra_sparse_multiply_dense_mod(m, 2, 2, 1, o, 3, x, 2, v, 2, d, 2, to_values, n)
/* All calls, with these offsets and this number of row indices. */
#define ALL(m, o, count, n, status)                                                     \
    CHECK(ASSEMBLE_CSR(m, count, n) == status && ASSEMBLE_CSC(m, count, n) == status);  \
    CHECK(ADD(m, o, n) == status && SUBTRACT(m, o, n) == status);                       \
    CHECK(ADD_SCALED(m, o, n) == status && MULTIPLY(m, o, n) == status && DENSE(m, o, n) == status)
    clear();
    EACH(k, sizeof unlisted / sizeof *unlisted) { ALL(unlisted[k], falling, 1, 0, unknown); }
    ALL(7, falling, 1, 0, invalid);
    CHECK(places == MARK);
    ALL(7, o, 2, 1, small);
    CHECK(nalgebra_sparse_multiply_dense_mod(7, 2, 2, 1, o, 3, x, 2, v, 2, d, 1, to_values, ROOM) == invalid);
    EACH(k, ROOM) CHECK(to_offsets[k] == MARK && to_indices[k] == MARK && to_values[k] == MARK);
    CHECK(places == 2);
}

int main(void) {
    for (int k = 0; k < 1000; k++) EACH(at, COUNT) {
        check_assembly(MODULI[at]);
        check_sums(MODULI[at]);
        check_products(MODULI[at]);
    }
    check_solved_system();
    check_errors();
    puts("c: 1000 random assemblies, sums and products of each ring equal plain matrices, and each error has its status");
    return 0;
}
