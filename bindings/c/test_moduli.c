/* Compares the calls with a modulus, and the factors of symmetric matrices, with plain dense matrices in random cases,
 * and tries each error. Run by bindings/test. */
#include "nalgebra_sparse.h"

#include <stdio.h>
#include <stdlib.h>
#include <string.h>

enum { MOST = 5, ROOM = 64 };

/* The moduli of the library, and 0 for 2^64. */
static const uint64_t MODULI[] = {0, 2, 3, 5, 7, 11, 13, 101, 65537, 998244353, 1000000007, 2305843009213693951};
enum { COUNT = sizeof MODULI / sizeof *MODULI };

static uint64_t state = 0x2545f4914f6cdd1du;

static uint64_t next_random(void) {
    state ^= state << 13;
    state ^= state >> 7;
    state ^= state << 17;
    return state;
}

static size_t below(size_t bound) { return (size_t)(next_random() % bound); }

static int64_t random_value(void) {
    switch (below(4)) {
    case 0: return (int64_t)next_random();
    case 1: return INT64_MIN;
    default: return (int64_t)below(7) - 3;
    }
}

#define CHECK(holds)                                                        \
    do {                                                                    \
        if (!(holds)) {                                                     \
            fprintf(stderr, "%s:%d: not so: %s\n", __FILE__, __LINE__, #holds); \
            exit(1);                                                        \
        }                                                                   \
    } while (0)

/* ---- numbers modulo m, where 0 means 2^64 */

__extension__ typedef unsigned __int128 wide;

static uint64_t residue(uint64_t m, int64_t z) {
    if (m == 0) return (uint64_t)z;
    return z < 0 ? (m - (0 - (uint64_t)z) % m) % m : (uint64_t)z % m;
}

static uint64_t sum(uint64_t m, uint64_t x, uint64_t y) {
    return m == 0 ? x + y : (uint64_t)(((wide)x + y) % m);
}

static uint64_t times(uint64_t m, uint64_t x, uint64_t y) {
    return m == 0 ? x * y : (uint64_t)((wide)x * y % m);
}

static uint64_t minus(uint64_t m, uint64_t x) { return m == 0 ? 0 - x : (m - x) % m; }

static int has_inverse(uint64_t m, uint64_t x) { return m == 0 ? x % 2 == 1 : x != 0; }

/* By Newton's iteration modulo 2^64, and by Fermat's theorem modulo a prime. */
static uint64_t inverse(uint64_t m, uint64_t x) {
    uint64_t y = m == 0 ? x : 1;
    for (int k = 0; m == 0 && k < 6; k++) y *= 2 - x * y;
    for (uint64_t e = m == 0 ? 0 : m - 2; e; e /= 2, x = times(m, x, x))
        if (e % 2) y = times(m, y, x);
    return y;
}

/* ---- a square matrix by columns */

typedef struct {
    size_t size, offsets[MOST + 1], indices[ROOM], places;
    int64_t values[ROOM];
    uint64_t dense[MOST][MOST]; /* row, column */
    int has[MOST][MOST];
} matrix;

static matrix random_matrix(uint64_t m) {
    matrix a;
    memset(&a, 0, sizeof a);
    a.size = below(MOST + 1);
    for (size_t j = 0; j < a.size; j++) {
        for (size_t i = 0; i < a.size; i++) {
            if (below(3) == 0 || (i == j && below(20))) {
                int64_t value = random_value();
                if (i == j && m == 0) value |= 1;
                a.indices[a.places] = i;
                a.values[a.places++] = value;
                a.dense[i][j] = residue(m, value);
                a.has[i][j] = 1;
            }
        }
        a.offsets[j + 1] = a.places;
    }
    return a;
}

#define IN(a) (a).offsets, (a).size + 1, (a).indices, (a).places, (a).values, (a).places
#define EACH(i, n) for (size_t i = 0; i < (n); i++)

/* The sum of a[i][k] x[k], where `turned` exchanges row and column and `keep` chooses among the entries. */
static uint64_t entry(const matrix *a, int what, size_t i, size_t k) {
    switch (what) {
    case 0: return k <= i ? a->dense[i][k] : 0;
    case 1: return i <= k ? a->dense[k][i] : 0;
    default: return i <= k ? a->dense[i][k] : a->dense[k][i];
    }
}

static int has_pivots(uint64_t m, const matrix *a) {
    EACH(k, a->size) if (!a->has[k][k] || !has_inverse(m, a->dense[k][k])) return 0;
    return 1;
}

/* Computes the factors by columns; returns the column whose pivot has no inverse, or the size if there is none. */
static size_t stop(uint64_t m, const matrix *a, uint64_t l[MOST][MOST], uint64_t d[MOST]) {
    EACH(j, a->size) {
        for (size_t i = j; i < a->size; i++) {
            uint64_t left = entry(a, 2, i, j);
            EACH(k, j) left = sum(m, left, minus(m, times(m, times(m, l[i][k], d[k]), l[j][k])));
            if (i == j) {
                if (!has_inverse(m, left)) return j;
                d[j] = left;
            }
            l[i][j] = times(m, left, inverse(m, d[j]));
        }
    }
    return a->size;
}

/* Checks that each number is reduced, and that `what` times the solution is b. */
static void check_solution(uint64_t m, const matrix *a, int what, size_t cols, const int64_t *x, const int64_t *b) {
    EACH(k, ROOM) CHECK(k < a->size * cols ? m == 0 || (x[k] >= 0 && (uint64_t)x[k] < m) : x[k] == 77);
    EACH(j, cols) EACH(i, a->size) {
        uint64_t found = 0;
        EACH(k, a->size) found = sum(m, found, times(m, entry(a, what, i, k), (uint64_t)x[j * a->size + k]));
        CHECK(found == residue(m, b[j * a->size + i]));
    }
}

static void check_solves(uint64_t m, const matrix *a) {
    size_t n = a->size, cols = below(4);
    int64_t b[ROOM], x[ROOM];
    uint64_t l[MOST][MOST] = {{0}}, d[MOST] = {0};
    EACH(k, n * cols) b[k] = random_value();
    EACH(what, 3) {
        EACH(k, ROOM) x[k] = 77;
        int32_t status = what == 2 ? nalgebra_sparse_solve_symmetric_mod(m, n, cols, IN(*a), b, n * cols, x, ROOM)
                                   : nalgebra_sparse_solve_lower_mod(m, n, cols, IN(*a), what == 1, b, n * cols, x, ROOM);
        int solvable = what == 2 ? stop(m, a, l, d) == n : !cols || has_pivots(m, a);
        CHECK(status == (solvable ? 0 : NALGEBRA_SPARSE_SINGULAR));
        if (status) EACH(k, ROOM) CHECK(x[k] == 77);
        else check_solution(m, a, (int)what, cols, x, b);
    }
}

static void check_quotient(uint64_t m, const matrix *a) {
    size_t offsets[ROOM], indices[ROOM], places = 77;
    int64_t values[ROOM], divisor = random_value();
    EACH(k, ROOM) offsets[k] = indices[k] = 77, values[k] = 77;
    int32_t status = nalgebra_sparse_divide_mod(m, a->size, a->size, IN(*a), divisor, offsets, ROOM, indices, ROOM, values, ROOM, &places);
    int divisible = has_inverse(m, residue(m, divisor));
    CHECK(status == (divisible ? 0 : NALGEBRA_SPARSE_SINGULAR) && places == (divisible ? a->places : 77));
    EACH(k, ROOM) {
        CHECK(offsets[k] == (divisible && k <= a->size ? a->offsets[k] : 77));
        CHECK(indices[k] == (divisible && k < a->places ? a->indices[k] : 77));
        if (!divisible || k >= a->places) CHECK(values[k] == 77);
        else CHECK((uint64_t)values[k] == times(m, residue(m, a->values[k]), inverse(m, residue(m, divisor))));
    }
}

/* Checks L and D, of which nothing may be written if there are none, and the pattern of L. */
static void check_factors(uint64_t m, const matrix *a) {
    size_t n = a->size, offsets[ROOM], indices[ROOM], places = 77, fill_offsets[ROOM], fill[ROOM], count;
    int64_t values[ROOM], diagonal[ROOM];
    uint64_t l[MOST][MOST] = {{0}}, d[MOST] = {0};
    EACH(k, ROOM) offsets[k] = indices[k] = 77, values[k] = diagonal[k] = 77;
    CHECK(nalgebra_sparse_fill(n, NALGEBRA_SPARSE_UPPER, a->offsets, n + 1, a->indices, a->places, fill_offsets, ROOM, fill, ROOM, &count) == 0);
    int32_t status = m == 0 ? nalgebra_sparse_factor_symmetric(n, IN(*a), offsets, ROOM, indices, count, values, count, diagonal, n, &places)
                            : nalgebra_sparse_factor_symmetric_mod(m, n, IN(*a), offsets, ROOM, indices, count, values, count, diagonal, n, &places);
    size_t stopped = stop(m, a, l, d), column = 78;
    int found = stopped == n;
    CHECK((m == 0 ? nalgebra_sparse_factor_symmetric_pivot(n, IN(*a), &column)
                  : nalgebra_sparse_factor_symmetric_pivot_mod(m, n, IN(*a), &column)) == 0 && column == stopped);
    CHECK(status == (found ? 0 : NALGEBRA_SPARSE_SINGULAR) && places == (found ? count : 77));
    EACH(k, ROOM) {
        CHECK(offsets[k] == (found && k <= n ? fill_offsets[k] : 77));
        CHECK(indices[k] == (found && k < count ? fill[k] : 77));
        CHECK((uint64_t)diagonal[k] == (found && k < n ? d[k] : 77));
        if (!found || k >= count) CHECK(values[k] == 77);
    }
    if (!found) return;
    EACH(j, n) for (size_t p = offsets[j]; p < offsets[j + 1]; p++) {
        CHECK((uint64_t)values[p] == l[indices[p]][j]);
        l[indices[p]][j] = 0;
    }
    /* What L does not store is zero, but for the ones of the diagonal. */
    EACH(i, n) EACH(j, n) CHECK(l[i][j] == 0);
}

static void check_errors(void) {
    const size_t o[] = {0, 1, 2}, x[] = {0, 1}, falling[] = {0, 2, 1};
    const int64_t v[] = {5, 8}, b[] = {1, 2, 3, 4};
    const uint64_t unlisted[] = {0, 1, 4, 6, 9, 65536, 2305843009213693952u, UINT64_MAX};
    const int32_t unknown = NALGEBRA_SPARSE_UNKNOWN_CHOICE, invalid = NALGEBRA_SPARSE_INVALID_STRUCTURE;
    const int32_t singular = NALGEBRA_SPARSE_SINGULAR, small = NALGEBRA_SPARSE_TOO_SMALL;
    size_t ro[4] = {77, 77, 77, 77}, rx[4] = {77, 77, 77, 77}, places = 77;
    int64_t rv[4] = {77, 77, 77, 77}, rd[4] = {77, 77, 77, 77};
#define LOWER(m, o, bn, n) nalgebra_sparse_solve_lower_mod(m, 2, 2, o, 3, x, 2, v, 2, false, b, bn, rv, n)
#define SYMMETRIC(m, o, bn, n) nalgebra_sparse_solve_symmetric_mod(m, 2, 2, o, 3, x, 2, v, 2, b, bn, rv, n)
#define DIVIDE(m, o, by, n) nalgebra_sparse_divide_mod(m, 2, 2, o, 3, x, 2, v, 2, by, ro, 4, rx, 4, rv, n, &places)
#define FACTOR(m, o, n, dn) nalgebra_sparse_factor_symmetric_mod(m, 2, o, 3, x, 2, v, 2, ro, 4, rx, 4, rv, n, rd, dn, &places)
#define PIVOT(m, o) nalgebra_sparse_factor_symmetric_pivot_mod(m, 2, o, 3, x, 2, v, 2, &places)
#define FACTOR64(o, n, dn) nalgebra_sparse_factor_symmetric(2, o, 3, x, 2, v, 2, ro, 4, rx, 4, rv, n, rd, dn, &places)
    EACH(k, sizeof unlisted / sizeof *unlisted) {
        uint64_t m = unlisted[k];
        CHECK(LOWER(m, o, 4, 4) == unknown && SYMMETRIC(m, o, 4, 4) == unknown);
        CHECK(DIVIDE(m, o, 3, 4) == unknown && FACTOR(m, o, 4, 4) == unknown && PIVOT(m, falling) == unknown);
    }
    CHECK(LOWER(7, falling, 4, 4) == invalid && SYMMETRIC(7, falling, 4, 4) == invalid && DIVIDE(7, falling, 3, 4) == invalid);
    CHECK(FACTOR(7, falling, 4, 4) == invalid && FACTOR64(falling, 4, 4) == invalid && PIVOT(7, falling) == invalid);
    CHECK(LOWER(7, o, 3, 4) == invalid && SYMMETRIC(7, o, 3, 4) == invalid);
    CHECK(LOWER(2, o, 4, 4) == singular && SYMMETRIC(5, o, 4, 4) == singular && DIVIDE(7, o, -14, 4) == singular);
    CHECK(FACTOR(2, o, 4, 4) == singular && FACTOR64(o, 4, 4) == singular);
    CHECK(places == 77);
    CHECK(LOWER(7, o, 4, 3) == small && SYMMETRIC(7, o, 4, 3) == small && DIVIDE(7, o, 3, 1) == small);
    CHECK(FACTOR(7, o, 1, 4) == small && FACTOR(7, o, 4, 1) == small);
    EACH(k, 4) CHECK(ro[k] == 77 && rx[k] == 77 && rv[k] == 77 && rd[k] == 77);
    CHECK(places == 2);
}

int main(void) {
    for (int k = 0; k < 1000; k++) EACH(at, COUNT) {
        uint64_t m = MODULI[at];
        matrix a = random_matrix(m);
        check_factors(m, &a);
        if (m) check_solves(m, &a), check_quotient(m, &a);
    }
    check_errors();
    puts("c: 1000 random cases of each modulus equal plain matrices, and each error has its status");
    return 0;
}
