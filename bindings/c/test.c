/* Compares the calls with plain dense matrices in random cases, and tries each error. Run by bindings/test. */
#include "nalgebra_sparse.h"

#include <stdio.h>
#include <stdlib.h>
#include <string.h>
#include <time.h>

enum { MOST = 5, ROOM = 64 };

/* A plain matrix: its places, and their values modulo 2^64. */
typedef struct {
    size_t rows, cols;
    int has[MOST][MOST];
    uint64_t value[MOST][MOST];
} plain;

/* Arrays of a matrix by rows, with room to spare. */
typedef struct {
    size_t offsets[ROOM], indices[ROOM], places;
    int64_t values[ROOM];
} arrays;

static uint64_t state = 0x9e3779b97f4a7c15u;

static uint64_t next_random(void) {
    state ^= state << 13;
    state ^= state >> 7;
    state ^= state << 17;
    return state;
}

static size_t below(size_t bound) { return (size_t)(next_random() % bound); }

static uint64_t random_value(void) {
    switch (below(4)) {
    case 0: return next_random();
    case 1: return (uint64_t)1 << 63;
    default: return (uint64_t)below(7) - 3;
    }
}

#define CHECK(holds)                                                        \
    do {                                                                    \
        if (!(holds)) {                                                     \
            fprintf(stderr, "%s:%d: not so: %s\n", __FILE__, __LINE__, #holds); \
            exit(1);                                                        \
        }                                                                   \
    } while (0)

static void put(plain *a, size_t i, size_t j, uint64_t value) {
    a->has[i][j] = 1;
    a->value[i][j] += value;
}

static arrays arrays_of(const plain *a) {
    arrays r;
    memset(&r, 0, sizeof r);
    for (size_t i = 0; i < a->rows; i++) {
        for (size_t j = 0; j < a->cols; j++)
            if (a->has[i][j]) {
                r.indices[r.places] = j;
                r.values[r.places++] = (int64_t)a->value[i][j];
            }
        r.offsets[i + 1] = r.places;
    }
    return r;
}

static plain transposed(const plain *a) {
    plain t = {a->cols, a->rows, {{0}}, {{0}}};
    for (size_t i = 0; i < a->rows; i++)
        for (size_t j = 0; j < a->cols; j++)
            if (a->has[i][j]) put(&t, j, i, a->value[i][j]);
    return t;
}

static plain merged(const plain *a, const plain *b, uint64_t sign) {
    plain s = *a;
    for (size_t i = 0; i < a->rows; i++)
        for (size_t j = 0; j < a->cols; j++)
            if (b->has[i][j]) put(&s, i, j, sign * b->value[i][j]);
    return s;
}

static plain product(const plain *a, const plain *b) {
    plain p = {a->rows, b->cols, {{0}}, {{0}}};
    for (size_t i = 0; i < a->rows; i++)
        for (size_t k = 0; k < a->cols; k++)
            for (size_t j = 0; j < b->cols; j++)
                if (a->has[i][k] && b->has[k][j]) put(&p, i, j, a->value[i][k] * b->value[k][j]);
    return p;
}

/* Checks that r has the arrays of a, and only the marks of `blank` after them. */
static void check_result(const plain *a, const arrays *r) {
    arrays want = arrays_of(a);
    CHECK(r->places == want.places);
    for (size_t k = 0; k < ROOM; k++) {
        CHECK(r->offsets[k] == (k <= a->rows ? want.offsets[k] : 77));
        CHECK(r->indices[k] == (k < want.places ? want.indices[k] : 77));
        CHECK(r->values[k] == (k < want.places ? want.values[k] : 77));
    }
}

static arrays blank(void) {
    arrays r;
    for (size_t k = 0; k < ROOM; k++) {
        r.offsets[k] = r.indices[k] = 77;
        r.values[k] = 77;
    }
    r.places = 77;
    return r;
}

static void check_untouched(const arrays *r) {
    arrays want = blank();
    CHECK(memcmp(r, &want, sizeof want) == 0);
}

#define IN(m, a) (m).offsets, (a)->rows + 1, (m).indices, (m).places, (m).values, (m).places
#define PATTERN(m, a) (m).offsets, (a)->rows + 1, (m).indices, (m).places
#define OUT(r) (r).offsets, ROOM, (r).indices, ROOM, (r).values, ROOM, &(r).places

/* The inverse of an odd number modulo 2^64, by Newton's iteration. */
static uint64_t inverse(uint64_t odd) {
    uint64_t x = odd;
    for (int k = 0; k < 6; k++) x *= 2 - odd * x;
    return x;
}

/* Writes the plain product of a and the dense b into c, both column by column. */
static void times_dense(const plain *a, size_t cols, const int64_t *b, int64_t *c) {
    for (size_t j = 0; j < cols; j++)
        for (size_t i = 0; i < a->rows; i++) {
            uint64_t sum = 0;
            for (size_t k = 0; k < a->cols; k++) sum += a->value[i][k] * (uint64_t)b[j * a->cols + k];
            c[j * a->rows + i] = (int64_t)sum;
        }
}

/* Keeps the part on and below the diagonal. */
static plain lower_of(const plain *a) {
    plain l = *a;
    for (size_t i = 0; i < a->rows; i++)
        for (size_t j = i + 1; j < a->cols; j++) l.has[i][j] = 0, l.value[i][j] = 0;
    return l;
}

static void check_dense(const plain *a, const arrays *x) {
    size_t cols = below(4);
    int64_t b[ROOM], want[ROOM], got[ROOM];
    for (size_t k = 0; k < a->cols * cols; k++) b[k] = (int64_t)random_value();
    times_dense(a, cols, b, want);
    for (size_t k = 0; k < ROOM; k++) got[k] = 77;
    CHECK(nalgebra_sparse_multiply_dense(a->rows, a->cols, cols, IN(*x, a), b, a->cols * cols, got, ROOM) == 0);
    for (size_t k = 0; k < ROOM; k++) CHECK(got[k] == (k < a->rows * cols ? want[k] : 77));
    uint64_t divisor = next_random() | 1;
    plain quotient = *a;
    for (size_t i = 0; i < a->rows; i++)
        for (size_t j = 0; j < a->cols; j++) quotient.value[i][j] *= inverse(divisor);
    arrays r = blank();
    CHECK(nalgebra_sparse_divide(a->rows, a->cols, IN(*x, a), (int64_t)divisor, OUT(r)) == 0);
    check_result(&quotient, &r);
}

/* Says whether the diagonal below n has odd values alone, all of them stored. */
static int has_pivots(const plain *a) {
    for (size_t k = 0; k < a->rows; k++)
        if (!a->has[k][k] || a->value[k][k] % 2 == 0) return 0;
    return 1;
}

/* A square matrix, most often with odd values on the diagonal. */
static plain square(void) {
    plain a = {below(MOST + 1), 0, {{0}}, {{0}}};
    a.cols = a.rows;
    for (size_t t = 0; a.rows && t < 9; t++) put(&a, below(a.rows), below(a.rows), random_value());
    for (size_t k = 0; k < a.rows && below(40); k++) a.has[k][k] = 1, a.value[k][k] |= 1;
    return a;
}

static void check_solve(void) {
    plain a = square(), by_cols = transposed(&a), l = lower_of(&a), u = transposed(&l);
    arrays x = arrays_of(&by_cols);
    size_t n = a.rows, cols = below(4);
    int64_t b[ROOM], got[ROOM], back[ROOM];
    for (size_t k = 0; k < n * cols; k++) b[k] = (int64_t)random_value();
    for (int t = 0; t < 2; t++) {
        for (size_t k = 0; k < ROOM; k++) got[k] = 77;
        int32_t status = nalgebra_sparse_solve_lower(n, cols, IN(x, &a), t == 1, b, n * cols, got, ROOM);
        CHECK(status == (cols && !has_pivots(&a) ? NALGEBRA_SPARSE_SINGULAR : 0));
        for (size_t k = status ? 0 : n * cols; k < ROOM; k++) CHECK(got[k] == 77);
        times_dense(t ? &u : &l, cols, got, back);
        for (size_t k = 0; !status && k < n * cols; k++) CHECK(back[k] == b[k]);
    }
}

/* The fill of the entries on and below the diagonal, by the definition. */
static void fill_plain(plain *l) {
    for (size_t k = 0; k < l->rows; k++)
        for (size_t i = k + 1; i < l->rows; i++)
            for (size_t j = k + 1; j <= i; j++)
                if (l->has[i][k] && l->has[j][k]) l->has[i][j] = 1;
}

static void check_fill(void) {
    plain a = square(), by_cols = transposed(&a);
    arrays x = arrays_of(&by_cols);
    for (int32_t triangle = 0; triangle < 3; triangle++) {
        plain l = {a.rows, a.rows, {{0}}, {{0}}};
        for (size_t i = 0; i < a.rows; i++)
            for (size_t j = 0; j <= i; j++)
                l.has[i][j] = (triangle != NALGEBRA_SPARSE_LOWER && a.has[j][i]) || (triangle != NALGEBRA_SPARSE_UPPER && a.has[i][j]);
        fill_plain(&l);
        plain columns = transposed(&l);
        arrays want = arrays_of(&columns), r = blank();
        size_t places = 0;
        CHECK(nalgebra_sparse_fill_places(a.rows, triangle, PATTERN(x, &a), &places) == 0);
        CHECK(nalgebra_sparse_fill(a.rows, triangle, PATTERN(x, &a), r.offsets, ROOM, r.indices, ROOM, &r.places) == 0);
        CHECK(places == want.places && r.places == want.places);
        for (size_t k = 0; k < ROOM; k++) {
            CHECK(r.offsets[k] == (k <= a.rows ? want.offsets[k] : 77));
            CHECK(r.indices[k] == (k < places ? want.indices[k] : 77));
        }
    }
}

/* Says whether the symmetric matrix has a factorisation: each pivot of the elimination is odd. */
static int has_factors(plain s) {
    for (size_t k = 0; k < s.rows; k++) {
        if (s.value[k][k] % 2 == 0) return 0;
        for (size_t i = k + 1; i < s.rows; i++)
            for (size_t j = k + 1; j < s.rows; j++) s.value[i][j] -= s.value[i][k] * inverse(s.value[k][k]) * s.value[k][j];
    }
    return 1;
}

static void check_symmetric(void) {
    plain a = square(), by_cols = transposed(&a), s = a;
    for (size_t i = 0; i < a.rows; i++)
        for (size_t j = 0; j < i; j++) s.value[i][j] = a.value[j][i];
    arrays x = arrays_of(&by_cols);
    size_t n = a.rows, cols = below(4);
    int64_t b[ROOM], got[ROOM], back[ROOM];
    for (size_t k = 0; k < n * cols; k++) b[k] = (int64_t)random_value();
    for (size_t k = 0; k < ROOM; k++) got[k] = 77;
    int32_t status = nalgebra_sparse_solve_symmetric(n, cols, IN(x, &a), b, n * cols, got, ROOM);
    CHECK(status == (has_factors(s) ? 0 : NALGEBRA_SPARSE_SINGULAR));
    for (size_t k = status ? 0 : n * cols; k < ROOM; k++) CHECK(got[k] == 77);
    times_dense(&s, cols, got, back);
    for (size_t k = 0; !status && k < n * cols; k++) CHECK(back[k] == b[k]);
}

static void check_random_case(void) {
    plain a = {below(MOST + 1), below(MOST + 1), {{0}}, {{0}}}, b = a, c = {a.cols, below(MOST + 1), {{0}}, {{0}}};
    size_t is[16], js[16], count = a.rows && a.cols ? below(12) : 0, places = 0;
    int64_t values[16];
    for (size_t t = 0; t < count; t++) {
        is[t] = below(a.rows), js[t] = below(a.cols), values[t] = (int64_t)random_value();
        put(&a, is[t], js[t], (uint64_t)values[t]);
        put(&b, below(a.rows), below(a.cols), random_value());
        if (c.cols) put(&c, below(c.rows), below(c.cols), random_value());
    }
    arrays x = arrays_of(&a), y = arrays_of(&b), z = arrays_of(&c), r = blank();
    plain t = transposed(&a), sum = merged(&a, &b, 1), difference = merged(&a, &b, (uint64_t)-1), p = product(&a, &c);
    CHECK(nalgebra_sparse_assemble_csr(a.rows, a.cols, is, count, js, count, values, count, OUT(r)) == 0);
    check_result(&a, &r);
    r = blank();
    CHECK(nalgebra_sparse_assemble_csc(a.rows, a.cols, is, count, js, count, values, count, OUT(r)) == 0);
    check_result(&t, &r);
    r = blank();
    CHECK(nalgebra_sparse_transpose(a.rows, a.cols, IN(x, &a), OUT(r)) == 0);
    check_result(&t, &r);
    r = blank();
    CHECK(nalgebra_sparse_add(a.rows, a.cols, IN(x, &a), IN(y, &b), OUT(r)) == 0);
    check_result(&sum, &r);
    r = blank();
    CHECK(nalgebra_sparse_subtract(a.rows, a.cols, IN(x, &a), IN(y, &b), OUT(r)) == 0);
    check_result(&difference, &r);
    /* Arrays with room for the result alone, and operands that are the same arrays. */
    size_t most = arrays_of(&sum).places;
    r = blank();
    CHECK(nalgebra_sparse_add(a.rows, a.cols, IN(x, &a), IN(y, &b), r.offsets, a.rows + 1, r.indices, most, r.values, most, &r.places) == 0);
    check_result(&sum, &r);
    plain twice = merged(&a, &a, 1);
    r = blank();
    CHECK(nalgebra_sparse_add(a.rows, a.cols, IN(x, &a), IN(x, &a), OUT(r)) == 0);
    check_result(&twice, &r);
    r = blank();
    CHECK(nalgebra_sparse_multiply_places(a.rows, a.cols, c.cols, PATTERN(x, &a), PATTERN(z, &c), &places) == 0);
    CHECK(nalgebra_sparse_multiply(a.rows, a.cols, c.cols, IN(x, &a), IN(z, &c), OUT(r)) == 0);
    check_result(&p, &r);
    CHECK(places == r.places);
    check_dense(&a, &x);
    check_solve();
    check_fill();
    check_symmetric();
}

/* Each fault of a matrix of two rows and three columns: status, offsets and their number, indices and their number,
 * number of values. */
static const struct {
    int32_t status;
    size_t offsets[3], offsets_len, indices[2], places, values_len;
} FAULTS[] = {
    {NALGEBRA_SPARSE_INVALID_STRUCTURE, {0, 1, 2}, 2, {0, 2}, 2, 2},
    {NALGEBRA_SPARSE_INVALID_STRUCTURE, {0, 3, 2}, 3, {0, 2}, 2, 2},
    {NALGEBRA_SPARSE_INVALID_STRUCTURE, {0, 1, 2}, 3, {0, 2}, 2, 1},
    {NALGEBRA_SPARSE_INVALID_STRUCTURE, {0, 2, 2}, 3, {2, 0}, 2, 2},
    {NALGEBRA_SPARSE_INDEX_OUT_OF_BOUNDS, {0, 1, 2}, 3, {0, 3}, 2, 2},
    {NALGEBRA_SPARSE_DUPLICATE_ENTRY, {0, 2, 2}, 3, {1, 1}, 2, 2},
};

static void check_faults(void) {
    const size_t sound_offsets[] = {0, 1, 2}, sound_indices[] = {0, 2}, empty[] = {0, 0, 0, 0};
    const int64_t values[] = {5, 6, 7};
    arrays r = blank();
    for (size_t f = 0; f < sizeof FAULTS / sizeof *FAULTS; f++) {
        int32_t want = FAULTS[f].status;
        const size_t *o = FAULTS[f].offsets, *x = FAULTS[f].indices;
        size_t on = FAULTS[f].offsets_len, n = FAULTS[f].places, vn = FAULTS[f].values_len;
        CHECK(nalgebra_sparse_transpose(2, 3, o, on, x, n, values, vn, OUT(r)) == want);
        CHECK(nalgebra_sparse_add(2, 3, o, on, x, n, values, vn, sound_offsets, 3, sound_indices, 2, values, 2, OUT(r)) == want);
        CHECK(nalgebra_sparse_subtract(2, 3, sound_offsets, 3, sound_indices, 2, values, 2, o, on, x, n, values, vn, OUT(r)) == want);
        CHECK(nalgebra_sparse_multiply(2, 3, 1, o, on, x, n, values, vn, empty, 4, empty, 0, values, 0, OUT(r)) == want);
        CHECK(nalgebra_sparse_multiply_dense(2, 3, 1, o, on, x, n, values, vn, values, 3, r.values, ROOM) == want);
        CHECK(nalgebra_sparse_divide(2, 3, o, on, x, n, values, vn, 3, OUT(r)) == want);
        if (vn == n) CHECK(nalgebra_sparse_multiply_places(2, 3, 1, o, on, x, n, empty, 4, empty, 0, &r.places) == want);
    }
    CHECK(nalgebra_sparse_assemble_csr(2, 2, sound_indices, 1, sound_indices, 0, values, 1, OUT(r)) == NALGEBRA_SPARSE_INVALID_STRUCTURE);
    CHECK(nalgebra_sparse_assemble_csr(2, 2, sound_indices, 2, empty, 2, values, 2, OUT(r)) == NALGEBRA_SPARSE_INDEX_OUT_OF_BOUNDS);
    CHECK(nalgebra_sparse_assemble_csc(2, 2, empty, 2, sound_indices, 2, values, 2, OUT(r)) == NALGEBRA_SPARSE_INDEX_OUT_OF_BOUNDS);
    /* One row pointer more than there are addresses. */
    CHECK(nalgebra_sparse_assemble_csr(SIZE_MAX, 2, empty, 0, empty, 0, values, 0, OUT(r)) == NALGEBRA_SPARSE_OUT_OF_MEMORY);
    check_untouched(&r);
    /* Arrays for the result that are too short by one: the call tells the number of entries. */
    const int32_t small = NALGEBRA_SPARSE_TOO_SMALL;
    CHECK(nalgebra_sparse_transpose(2, 3, sound_offsets, 3, sound_indices, 2, values, 2, r.offsets, 3, r.indices, 2, r.values, 2, &r.places) == small);
    CHECK(nalgebra_sparse_transpose(2, 3, sound_offsets, 3, sound_indices, 2, values, 2, r.offsets, 4, r.indices, 1, r.values, 2, &r.places) == small);
    CHECK(nalgebra_sparse_transpose(2, 3, sound_offsets, 3, sound_indices, 2, values, 2, r.offsets, 4, r.indices, 2, r.values, 1, &r.places) == small);
    CHECK(nalgebra_sparse_add(2, 3, sound_offsets, 3, sound_indices, 2, values, 2, sound_offsets, 3, sound_indices, 2, values, 2, r.offsets, 3, r.indices, 1, r.values, ROOM, &r.places) == small);
    CHECK(nalgebra_sparse_add(2, 3, sound_offsets, 3, sound_indices, 2, values, 2, sound_offsets, 3, sound_indices, 2, values, 2, r.offsets, 2, r.indices, 4, r.values, 4, &r.places) == small);
    CHECK(r.places == 2);
    r.places = 77;
    check_untouched(&r);
}

/* The errors of calls with a dense matrix, of a division and of a fill. */
static void check_other_errors(void) {
    const size_t o[] = {0, 1, 2}, x[] = {0, 1}, falling[] = {0, 2, 1};
    const int64_t odd[] = {5, 7}, even[] = {5, 6}, b[] = {1, 2, 3, 4};
    const int32_t small = NALGEBRA_SPARSE_TOO_SMALL, invalid = NALGEBRA_SPARSE_INVALID_STRUCTURE, singular = NALGEBRA_SPARSE_SINGULAR;
    arrays r = blank();
    CHECK(nalgebra_sparse_multiply_dense(2, 2, 2, o, 3, x, 2, odd, 2, b, 3, r.values, ROOM) == invalid);
    CHECK(nalgebra_sparse_multiply_dense(2, 2, 2, o, 3, x, 2, odd, 2, b, 4, r.values, 3) == small);
    CHECK(nalgebra_sparse_multiply_dense(2, 2, SIZE_MAX, o, 3, x, 2, odd, 2, b, 4, r.values, 3) == invalid);
    CHECK(nalgebra_sparse_solve_lower(2, 2, falling, 3, x, 2, odd, 2, false, b, 4, r.values, ROOM) == invalid);
    CHECK(nalgebra_sparse_solve_lower(2, 2, o, 3, x, 2, odd, 2, false, b, 3, r.values, ROOM) == invalid);
    CHECK(nalgebra_sparse_solve_lower(2, 2, o, 3, x, 2, odd, 2, true, b, 4, r.values, 3) == small);
    CHECK(nalgebra_sparse_solve_lower(2, 2, o, 3, x, 2, even, 2, true, b, 4, r.values, ROOM) == singular);
    CHECK(nalgebra_sparse_divide(2, 2, o, 3, x, 2, odd, 2, 4, OUT(r)) == singular);
    CHECK(nalgebra_sparse_divide(2, 2, o, 3, x, 2, odd, 2, 3, r.offsets, ROOM, r.indices, ROOM, r.values, 1, &r.places) == small && r.places == 2);
    r.places = 77;
    CHECK(nalgebra_sparse_fill(2, 3, o, 3, x, 2, r.offsets, ROOM, r.indices, ROOM, &r.places) == NALGEBRA_SPARSE_UNKNOWN_CHOICE);
    CHECK(nalgebra_sparse_fill_places(2, -1, o, 3, x, 2, &r.places) == NALGEBRA_SPARSE_UNKNOWN_CHOICE);
    CHECK(nalgebra_sparse_fill(2, 0, falling, 3, x, 2, r.offsets, ROOM, r.indices, ROOM, &r.places) == invalid);
    CHECK(nalgebra_sparse_fill_places(2, 1, falling, 3, x, 2, &r.places) == invalid);
    CHECK(nalgebra_sparse_fill(2, 2, o, 3, x, 2, r.offsets, 2, r.indices, ROOM, &r.places) == small);
    CHECK(nalgebra_sparse_fill(2, 2, o, 3, x, 2, r.offsets, ROOM, r.indices, 1, &r.places) == small && r.places == 2);
    r.places = 77;
    CHECK(nalgebra_sparse_solve_symmetric(2, 2, falling, 3, x, 2, odd, 2, b, 4, r.values, ROOM) == invalid);
    CHECK(nalgebra_sparse_solve_symmetric(2, 2, o, 3, x, 2, odd, 2, b, 3, r.values, ROOM) == invalid);
    CHECK(nalgebra_sparse_solve_symmetric(2, 2, o, 3, x, 2, odd, 2, b, 4, r.values, 3) == small);
    CHECK(nalgebra_sparse_solve_symmetric(2, 2, o, 3, x, 2, even, 2, b, 4, r.values, ROOM) == singular);
    check_untouched(&r);
}

/* Prints the time of a call on an empty matrix. */
static void time_empty_calls(void) {
    enum { CALLS = 1000000 };
    const size_t offsets[] = {0};
    const int64_t values[] = {0};
    arrays r = blank();
    struct timespec begin, end;
    clock_gettime(CLOCK_MONOTONIC, &begin);
    for (size_t k = 0; k < CALLS; k++) CHECK(nalgebra_sparse_transpose(0, 0, offsets, 1, offsets, 0, values, 0, OUT(r)) == 0);
    clock_gettime(CLOCK_MONOTONIC, &end);
    double passed = (double)(end.tv_sec - begin.tv_sec) * 1e9 + (double)(end.tv_nsec - begin.tv_nsec);
    printf("c: an empty call takes %.0f ns\n", passed / CALLS);
}

int main(int count, char **words) {
    for (int k = 0; k < 1000; k++) check_random_case();
    check_faults();
    check_other_errors();
    puts("c: 1000 random cases equal plain matrices, and each error has its status");
    if (count > 1 && strcmp(words[1], "--time") == 0) time_empty_calls();
    return 0;
}
