/* Compares solves, factors and texts of matrices behind handles with plain dense matrices in random cases, and tries
 * each error of these calls. Run by bindings/test. */
#include "nalgebra_sparse.h"

#include <stdio.h>
#include <stdlib.h>
#include <string.h>

enum { MOST = 5, ROOM = MOST * MOST, COLS = 6, CASES = 5000, TEXT = 2048 };

#define EACH(i, n) for (size_t i = 0; i < (n); i++)
#define CHECK(holds)                                                        \
    do {                                                                    \
        if (!(holds)) {                                                     \
            fprintf(stderr, "%s:%d: not so: %s\n", __FILE__, __LINE__, #holds); \
            exit(1);                                                        \
        }                                                                   \
    } while (0)

static uint64_t state = 0x9e3779b97f4a7c15u;

static uint64_t next_random(void) {
    state ^= state << 13;
    state ^= state >> 7;
    state ^= state << 17;
    return state;
}

static size_t below(size_t bound) { return (size_t)(next_random() % bound); }

static int64_t random_value(void) { return below(3) == 0 ? (int64_t)next_random() : (int64_t)below(7) - 3; }

/* A square matrix modulo 2^64. */
typedef struct {
    size_t size;
    uint64_t value[MOST][MOST];
    int has[MOST][MOST];
} plain;

/* Stores a random square matrix in a handle. Most of its diagonal is odd. */
static plain make(nalgebra_sparse_matrix *out) {
    plain p;
    size_t offsets[MOST + 1] = {0}, indices[ROOM], count = 0;
    int64_t values[ROOM];
    memset(&p, 0, sizeof p);
    p.size = below(MOST + 1);
    EACH(i, p.size) {
        EACH(j, p.size) {
            if (i == j ? below(40) == 0 : below(2) == 0) continue;
            values[count] = random_value();
            if (i == j && below(40) != 0) values[count] |= 1;
            p.has[i][j] = 1, p.value[i][j] = (uint64_t)values[count], indices[count++] = j;
        }
        offsets[i + 1] = count;
    }
    CHECK(nalgebra_sparse_matrix_from_rows(p.size, p.size, offsets, p.size + 1, indices, count, values, count, out) == 0);
    return p;
}

/* Whether a times x, column by column, is b. */
static int solves(const plain *a, size_t cols, const int64_t *x, const int64_t *b) {
    EACH(c, cols) EACH(i, a->size) {
        uint64_t sum = 0;
        EACH(j, a->size) sum += a->value[i][j] * (uint64_t)x[c * a->size + j];
        if (sum != (uint64_t)b[c * a->size + i]) return 0;
    }
    return 1;
}

/* The part of a matrix on and below its diagonal, or on and above it, or the transpose of that part. */
static plain triangle(const plain *a, int upper, int transposed) {
    plain p = *a;
    EACH(i, a->size) EACH(j, a->size) {
        size_t row = transposed ? j : i, col = transposed ? i : j;
        p.value[i][j] = (upper ? row <= col : row >= col) ? a->value[row][col] : 0;
    }
    return p;
}

/* Whether each entry of the diagonal is stored and odd. */
static int has_pivots(const plain *a) {
    EACH(i, a->size) if (!a->has[i][i] || a->value[i][i] % 2 == 0) return 0;
    return 1;
}

static uint64_t inverse(uint64_t odd) {
    uint64_t x = odd;
    EACH(step, 5) x *= 2 - odd * x;
    return x;
}

/* Mirrors the entries above the diagonal, and returns the column of the first pivot of the elimination that is even, or
 * the size if all are odd. */
static size_t even_pivot(plain *a) {
    EACH(i, a->size) EACH(j, i) a->value[i][j] = a->value[j][i];
    plain p = *a;
    EACH(k, p.size) {
        if (p.value[k][k] % 2 == 0) return k;
        uint64_t pivot = inverse(p.value[k][k]);
        for (size_t i = k + 1; i < p.size; i++) {
            uint64_t multiple = p.value[i][k] * pivot;
            EACH(j, p.size) p.value[i][j] -= multiple * p.value[k][j];
        }
    }
    return p.size;
}

static void check_solves(nalgebra_sparse_matrix *a, const plain *p) {
    size_t cols = below(COLS + 1), count = p->size * cols;
    int64_t b[MOST * COLS] = {0}, x[MOST * COLS];
    int upper = below(2) == 0, transposed = below(2) == 0;
    plain t = triangle(p, upper, transposed);
    EACH(k, count) b[k] = random_value();
    memcpy(x, b, sizeof b);
    int32_t status = upper ? nalgebra_sparse_matrix_solve_upper(a, transposed, cols, x, count)
                           : nalgebra_sparse_matrix_solve_lower(a, transposed, cols, x, count);
    if (cols > 0 && !has_pivots(p)) {
        CHECK(status == NALGEBRA_SPARSE_SINGULAR && memcmp(x, b, sizeof b) == 0);
    } else {
        CHECK(status == 0 && solves(&t, cols, x, b));
    }
}

/* The column at which the factorisation of a matrix stops is `stop`. */
static void check_pivot(nalgebra_sparse_matrix *a, size_t stop) {
    nalgebra_sparse_matrix turned = NALGEBRA_SPARSE_NO_MATRIX;
    size_t offsets[MOST + 1], indices[ROOM], size, cols, places, column = 77;
    int64_t values[ROOM];
    CHECK(nalgebra_sparse_matrix_transpose(a, &turned) == 0);
    CHECK(nalgebra_sparse_matrix_sizes(&turned, &size, &cols, &places) == 0);
    CHECK(nalgebra_sparse_matrix_read(&turned, offsets, size + 1, indices, ROOM, values, ROOM, &places) == 0);
    CHECK(nalgebra_sparse_factor_symmetric_pivot(size, offsets, size + 1, indices, places, values, places, &column) == 0);
    CHECK(column == stop);
    CHECK(nalgebra_sparse_factor_symmetric_pivot(size, offsets, size, indices, places, values, places, &column) == NALGEBRA_SPARSE_INVALID_STRUCTURE);
    CHECK(column == stop);
    nalgebra_sparse_matrix_free(&turned);
}

/* Reads factors, and compares L D L^T with the matrix. */
static void check_read(nalgebra_sparse_factors *f, const plain *a) {
    uint64_t l[MOST][MOST] = {{0}};
    size_t offsets[MOST + 1], indices[ROOM], size = 77, places = 77, count = 77;
    int64_t values[ROOM], diagonal[MOST];
    CHECK(nalgebra_sparse_factors_sizes(f, &size, &places) == 0 && size == a->size && places <= ROOM);
    diagonal[0] = 77;
    if (size > 0) {
        CHECK(nalgebra_sparse_factors_read(f, offsets, size + 1, indices, places, values, places, diagonal, size - 1, &count) == NALGEBRA_SPARSE_TOO_SMALL);
        CHECK(count == places && diagonal[0] == 77);
        count = 77;
        CHECK(nalgebra_sparse_factors_read(f, offsets, size + 1, indices, places - 1, values, places, diagonal, size, &count) == NALGEBRA_SPARSE_TOO_SMALL);
        CHECK(count == places && diagonal[0] == 77);
    }
    CHECK(nalgebra_sparse_factors_read(f, offsets, size + 1, indices, places, values, ROOM, diagonal, MOST, &count) == 0);
    CHECK(count == places && offsets[0] == 0 && offsets[size] == places);
    EACH(j, size) {
        CHECK(indices[offsets[j]] == j && values[offsets[j]] == 1 && diagonal[j] % 2 != 0);
        for (size_t k = offsets[j]; k < offsets[j + 1]; k++) l[indices[k]][j] = (uint64_t)values[k];
    }
    EACH(i, size) EACH(j, size) {
        uint64_t sum = 0;
        EACH(k, size) sum += l[i][k] * (uint64_t)diagonal[k] * l[j][k];
        CHECK(sum == a->value[i][j]);
    }
}

/* Products with dense matrices, into arrays that are long enough, and too short. */
static void check_products(nalgebra_sparse_matrix *a, const plain *p) {
    size_t cols = below(COLS + 1), count = p->size * cols;
    int64_t b[MOST * COLS] = {0}, c[MOST * COLS + 1];
    memset(c, 77, sizeof c);
    int64_t mark = c[0];
    EACH(k, count) b[k] = random_value();
    if (count > 0) CHECK(nalgebra_sparse_matrix_multiply_dense(a, cols, b, count, c, count - 1) == NALGEBRA_SPARSE_TOO_SMALL);
    CHECK(nalgebra_sparse_matrix_multiply_dense(a, cols, b, count + 1, c, count) == NALGEBRA_SPARSE_INVALID_STRUCTURE && c[0] == mark);
    CHECK(nalgebra_sparse_matrix_multiply_dense(a, cols, b, count, c, count + 1) == 0);
    CHECK(solves(p, cols, b, c) && c[count] == mark);
}

/* Writes an order of the rows of a matrix: one that a call computes, or a random one. */
static void make_order(nalgebra_sparse_matrix *a, size_t size, size_t *order) {
    size_t kind = below(3), seen = 0;
    order[size] = 77;
    if (kind == 0) {
        CHECK(nalgebra_sparse_matrix_minimum_degree(a, order, size + 1) == 0);
    } else if (kind == 1) {
        CHECK(nalgebra_sparse_matrix_reverse_cuthill_mckee(a, order, size + 1) == 0);
    } else {
        EACH(k, size) {
            size_t at = below(k + 1);
            order[k] = order[at], order[at] = k;
        }
    }
    EACH(k, size) seen |= (size_t)1 << order[k];
    CHECK(seen == ((size_t)1 << size) - 1 && order[size] == 77);
}

/* Factors in an order other than that of the rows: they are those of the permuted matrix, and solve the system itself. */
static void check_order(nalgebra_sparse_matrix *a, const plain *symmetric) {
    size_t size = symmetric->size, cols = below(COLS + 1), count = size * cols, order[MOST + 1], found[MOST + 1];
    int64_t b[MOST * COLS] = {0}, x[MOST * COLS];
    nalgebra_sparse_factors f = NALGEBRA_SPARSE_NO_FACTORS, g = NALGEBRA_SPARSE_NO_FACTORS;
    plain permuted = *symmetric;
    make_order(a, size, order);
    EACH(i, size) EACH(j, size) permuted.value[i][j] = symmetric->value[order[i]][order[j]];
    plain eliminated = permuted;
    int32_t status = nalgebra_sparse_matrix_factor_in_order(a, order, size, &f);
    if (even_pivot(&eliminated) < size) {
        CHECK(status == NALGEBRA_SPARSE_SINGULAR && f.factors == NULL);
        return;
    }
    CHECK(status == 0 && nalgebra_sparse_factors_clone(&f, &g) == 0);
    nalgebra_sparse_factors_free(&f);
    check_read(&g, &permuted);
    found[size] = 78;
    CHECK(nalgebra_sparse_factors_order(&g, found, size + 1) == 0 && found[size] == 78);
    CHECK(memcmp(found, order, size * sizeof(size_t)) == 0);
    EACH(k, count) b[k] = random_value();
    memcpy(x, b, sizeof b);
    CHECK(nalgebra_sparse_factors_solve(&g, cols, x, count) == 0 && solves(symmetric, cols, x, b));
    if (size > 1) {
        order[1] = order[0];
        CHECK(nalgebra_sparse_matrix_factor_in_order(a, order, size, &g) == NALGEBRA_SPARSE_DUPLICATE_ENTRY);
        order[0] = size;
        CHECK(nalgebra_sparse_matrix_factor_in_order(a, order, size, &g) == NALGEBRA_SPARSE_INDEX_OUT_OF_BOUNDS);
        CHECK(nalgebra_sparse_matrix_factor_in_order(a, order, size - 1, &g) == NALGEBRA_SPARSE_INVALID_STRUCTURE);
        CHECK(nalgebra_sparse_factors_order(&g, order, size - 1) == NALGEBRA_SPARSE_TOO_SMALL && order[0] == size);
        CHECK(nalgebra_sparse_matrix_minimum_degree(a, order, size - 1) == NALGEBRA_SPARSE_TOO_SMALL && order[0] == size);
        CHECK(nalgebra_sparse_matrix_reverse_cuthill_mckee(a, order, size - 1) == NALGEBRA_SPARSE_TOO_SMALL && order[0] == size);
        /* The factors that were there are unchanged. */
        memcpy(x, b, sizeof b);
        CHECK(nalgebra_sparse_factors_solve(&g, cols, x, count) == 0 && solves(symmetric, cols, x, b));
    }
    nalgebra_sparse_factors_free(&g);
}

static void check_factors(nalgebra_sparse_matrix *a, const plain *p) {
    size_t cols = below(COLS + 1), count = p->size * cols;
    int64_t b[MOST * COLS] = {0}, x[MOST * COLS];
    nalgebra_sparse_factors f = NALGEBRA_SPARSE_NO_FACTORS, g = NALGEBRA_SPARSE_NO_FACTORS;
    plain symmetric = *p;
    size_t stop = even_pivot(&symmetric), order[MOST] = {77};
    int32_t status = nalgebra_sparse_matrix_factor(a, &f);
    check_pivot(a, stop);
    check_order(a, &symmetric);
    if (stop < p->size) {
        CHECK(status == NALGEBRA_SPARSE_SINGULAR && f.factors == NULL);
        return;
    }
    CHECK(status == 0 && nalgebra_sparse_factors_clone(&f, &g) == 0);
    nalgebra_sparse_factors_free(&f);
    check_read(&g, &symmetric);
    CHECK(nalgebra_sparse_factors_order(&g, order, p->size) == 0);
    EACH(k, p->size) CHECK(order[k] == k);
    EACH(k, count) b[k] = random_value();
    EACH(again, 2) {
        memcpy(x, b, sizeof b);
        CHECK(nalgebra_sparse_factors_solve(&g, cols, x, count) == 0 && solves(&symmetric, cols, x, b));
    }
    nalgebra_sparse_factors_free(&g);
}

/* The matrix that is read from the text of a matrix equals that matrix. */
static void check_text(nalgebra_sparse_matrix *a, const plain *p) {
    nalgebra_sparse_matrix back = NALGEBRA_SPARSE_NO_MATRIX;
    uint8_t text[TEXT];
    size_t length = 0, again = 0, offsets[2][MOST + 1], indices[2][ROOM], places[2];
    int64_t values[2][ROOM];
    memset(text, 77, sizeof text);
    CHECK(nalgebra_sparse_matrix_text_length(a, &length) == 0 && length < TEXT);
    CHECK(nalgebra_sparse_matrix_to_text(a, text, length - 1, &again) == NALGEBRA_SPARSE_TOO_SMALL && again == length && text[0] == 77);
    CHECK(nalgebra_sparse_matrix_to_text(a, text, TEXT, &again) == 0 && again == length && text[length] == 77);
    CHECK(nalgebra_sparse_matrix_from_text(text, length, &back) == 0);
    nalgebra_sparse_matrix *both[] = {a, &back};
    EACH(k, 2) CHECK(nalgebra_sparse_matrix_read(both[k], offsets[k], MOST + 1, indices[k], ROOM, values[k], ROOM, &places[k]) == 0);
    CHECK(places[0] == places[1] && memcmp(offsets[0], offsets[1], (p->size + 1) * sizeof(size_t)) == 0);
    CHECK(memcmp(indices[0], indices[1], places[0] * sizeof(size_t)) == 0);
    CHECK(memcmp(values[0], values[1], places[0] * sizeof(int64_t)) == 0);
    nalgebra_sparse_matrix_free(&back);
}

/* Texts of other programs, and texts with errors. */
static void check_texts(void) {
    static const struct {
        const char *text;
        int32_t status;
    } CASES_OF_TEXTS[] = {
        {"%%MatrixMarket matrix coordinate integer symmetric\n2 2 3\n1 1 5\n2 1 -7\n2 1 2\n", NALGEBRA_SPARSE_DONE},
        {"", NALGEBRA_SPARSE_INVALID_TEXT},
        {"%%MatrixMarket matrix coordinate integer general\n1 1 1\n1 1 x\n", NALGEBRA_SPARSE_INVALID_TEXT},
        {"%%MatrixMarket matrix coordinate integer general\n1 1 2\n1 1 3\n", NALGEBRA_SPARSE_ENTRY_MISMATCH},
        {"%%MatrixMarket matrix coordinate integer general\n1 1 1\n1 0 3\n", NALGEBRA_SPARSE_ZERO_INDEX},
        {"%%MatrixMarket matrix coordinate integer general\n1 1 1\n1 2 3\n", NALGEBRA_SPARSE_INDEX_OUT_OF_BOUNDS},
        {"%%MatrixMarket matrix coordinate integer symmetric\n1 2 0\n", NALGEBRA_SPARSE_NON_SQUARE},
        {"%%MatrixMarket matrix coordinate integer symmetric\n2 2 1\n1 2 3\n", NALGEBRA_SPARSE_NOT_LOWER_TRIANGLE},
        {"%%MatrixMarket matrix coordinate integer skew-symmetric\n2 2 1\n1 1 3\n", NALGEBRA_SPARSE_DIAGONAL_ENTRY},
        {"\xff", NALGEBRA_SPARSE_UNREADABLE},
    };
    const char *lines = "2 2 3\n1 1 5\n1 2 -5\n2 1 -5\n";
    nalgebra_sparse_matrix a = NALGEBRA_SPARSE_NO_MATRIX;
    uint8_t text[TEXT];
    size_t length = 0;
    EACH(k, sizeof CASES_OF_TEXTS / sizeof *CASES_OF_TEXTS) {
        const char *of = CASES_OF_TEXTS[k].text;
        CHECK(nalgebra_sparse_matrix_from_text((const uint8_t *)of, strlen(of), &a) == CASES_OF_TEXTS[k].status);
        CHECK(nalgebra_sparse_matrix_to_text(&a, text, TEXT, &length) == 0 && length > strlen(lines));
        CHECK(memcmp(text + length - strlen(lines), lines, strlen(lines)) == 0);
    }
    nalgebra_sparse_matrix_free(&a);
}

/* Writes both orders of the pattern with these three entries. */
static void order_both(const size_t *rows, const size_t *cols, size_t *degrees, size_t *breadth) {
    int64_t ones[] = {1, 1, 1};
    nalgebra_sparse_matrix a = NALGEBRA_SPARSE_NO_MATRIX;
    CHECK(nalgebra_sparse_matrix_from_triplets(4, 4, rows, 3, cols, 3, ones, 3, &a) == 0);
    CHECK(nalgebra_sparse_matrix_minimum_degree(&a, degrees, 4) == 0);
    CHECK(nalgebra_sparse_matrix_reverse_cuthill_mckee(&a, breadth, 4) == 0);
    nalgebra_sparse_matrix_free(&a);
}

/* Each call writes its own order: the contracts of both say only that it is a permutation. */
static void check_orders(void) {
    /* The star with the hub 0 and the leaves 1, 2 and 3, and the path 0 - 2 - 1 - 3. */
    const size_t hub[] = {0, 0, 0}, leaves[] = {1, 2, 3}, from[] = {0, 1, 1}, to[] = {2, 2, 3};
    const size_t hub_last[] = {3, 2, 1, 0}, along[] = {0, 2, 1, 3};
    size_t degrees[4], breadth[4];
    order_both(hub, leaves, degrees, breadth);
    /* By breadth the hub comes before one leaf, so that no leaf is three rows away from it. */
    CHECK(memcmp(degrees, hub_last, sizeof degrees) == 0 && breadth[2] == 0);
    order_both(from, to, degrees, breadth);
    CHECK(memcmp(breadth, along, sizeof breadth) == 0);
}

/* Empty handles, shapes that do not fit, and null pointers. */
static void refuse(void) {
    nalgebra_sparse_matrix none = NALGEBRA_SPARSE_NO_MATRIX, wide = NALGEBRA_SPARSE_NO_MATRIX, one = NALGEBRA_SPARSE_NO_MATRIX;
    nalgebra_sparse_factors f = NALGEBRA_SPARSE_NO_FACTORS, g = NALGEBRA_SPARSE_NO_FACTORS;
    size_t zero[] = {0}, length = 77, size = 77;
    int64_t five[] = {5}, x[] = {10, 77};
    uint8_t text[TEXT];
    CHECK(nalgebra_sparse_matrix_solve_lower(&none, false, 1, x, 1) == NALGEBRA_SPARSE_EMPTY_HANDLE);
    CHECK(nalgebra_sparse_matrix_solve_upper(&none, false, 1, x, 1) == NALGEBRA_SPARSE_EMPTY_HANDLE);
    CHECK(nalgebra_sparse_matrix_factor(&none, &f) == NALGEBRA_SPARSE_EMPTY_HANDLE);
    CHECK(nalgebra_sparse_factors_solve(&f, 1, x, 1) == NALGEBRA_SPARSE_EMPTY_HANDLE);
    CHECK(nalgebra_sparse_factors_clone(&f, &g) == NALGEBRA_SPARSE_EMPTY_HANDLE);
    CHECK(nalgebra_sparse_matrix_minimum_degree(&none, &size, 1) == NALGEBRA_SPARSE_EMPTY_HANDLE && size == 77);
    CHECK(nalgebra_sparse_matrix_reverse_cuthill_mckee(&none, &size, 1) == NALGEBRA_SPARSE_EMPTY_HANDLE && size == 77);
    CHECK(nalgebra_sparse_matrix_factor_in_order(&none, zero, 1, &f) == NALGEBRA_SPARSE_EMPTY_HANDLE);
    CHECK(nalgebra_sparse_factors_order(&f, &size, 1) == NALGEBRA_SPARSE_EMPTY_HANDLE && size == 77);
    /* An empty handle is found before arrays of the wrong length. */
    CHECK(nalgebra_sparse_factors_sizes(&f, &size, &length) == NALGEBRA_SPARSE_EMPTY_HANDLE && size == 77 && length == 77);
    CHECK(nalgebra_sparse_factors_read(&f, zero, 0, zero, 0, x, 0, x, 0, &length) == NALGEBRA_SPARSE_EMPTY_HANDLE && length == 77);
    CHECK(nalgebra_sparse_matrix_multiply_dense(&none, 1, five, 1, x, 0) == NALGEBRA_SPARSE_EMPTY_HANDLE);
    CHECK(nalgebra_sparse_matrix_to_text(&none, text, TEXT, &length) == NALGEBRA_SPARSE_EMPTY_HANDLE && length == 77);
    CHECK(nalgebra_sparse_matrix_text_length(&none, &length) == NALGEBRA_SPARSE_EMPTY_HANDLE && length == 77);
    CHECK(nalgebra_sparse_matrix_from_triplets(1, 2, zero, 1, zero, 1, five, 1, &wide) == 0);
    CHECK(nalgebra_sparse_matrix_solve_lower(&wide, true, 1, x, 1) == NALGEBRA_SPARSE_SHAPE_MISMATCH);
    CHECK(nalgebra_sparse_matrix_solve_upper(&wide, true, 1, x, 1) == NALGEBRA_SPARSE_SHAPE_MISMATCH);
    CHECK(nalgebra_sparse_matrix_factor(&wide, &f) == NALGEBRA_SPARSE_SHAPE_MISMATCH && f.factors == NULL);
    CHECK(nalgebra_sparse_matrix_minimum_degree(&wide, &size, 1) == NALGEBRA_SPARSE_SHAPE_MISMATCH && size == 77);
    CHECK(nalgebra_sparse_matrix_reverse_cuthill_mckee(&wide, &size, 1) == NALGEBRA_SPARSE_SHAPE_MISMATCH && size == 77);
    CHECK(nalgebra_sparse_matrix_factor_in_order(&wide, zero, 1, &f) == NALGEBRA_SPARSE_SHAPE_MISMATCH && f.factors == NULL);
    CHECK(nalgebra_sparse_matrix_from_triplets(1, 1, zero, 1, zero, 1, five, 1, &one) == 0);
    CHECK(nalgebra_sparse_matrix_factor(&one, &f) == 0);
    CHECK(nalgebra_sparse_matrix_solve_lower(&one, false, 1, x, 2) == NALGEBRA_SPARSE_INVALID_STRUCTURE);
    CHECK(nalgebra_sparse_matrix_solve_upper(&one, false, 3, x, 2) == NALGEBRA_SPARSE_INVALID_STRUCTURE);
    CHECK(nalgebra_sparse_factors_solve(&f, SIZE_MAX, x, 2) == NALGEBRA_SPARSE_INVALID_STRUCTURE);
    CHECK(x[0] == 10 && x[1] == 77);
    CHECK(nalgebra_sparse_factors_solve(&f, 1, x, 1) == 0 && x[0] == 2 && x[1] == 77);
    CHECK(nalgebra_sparse_matrix_solve_lower_values(&one, false, 0, NULL, 0) == 0);
    CHECK(nalgebra_sparse_matrix_solve_upper_values(&one, false, 0, NULL, 9) == 0);
    CHECK(nalgebra_sparse_factors_solve_values(&f, 0, NULL, 0) == 0);
    CHECK(nalgebra_sparse_factors_order_values(&f, NULL, 9) == NALGEBRA_SPARSE_TOO_SMALL);
    CHECK(nalgebra_sparse_matrix_minimum_degree_values(&one, NULL, 9) == NALGEBRA_SPARSE_TOO_SMALL);
    CHECK(nalgebra_sparse_matrix_reverse_cuthill_mckee_values(&one, NULL, 9) == NALGEBRA_SPARSE_TOO_SMALL);
    CHECK(nalgebra_sparse_matrix_factor_in_order_values(&one, NULL, 9, &f) == NALGEBRA_SPARSE_INVALID_STRUCTURE);
    CHECK(nalgebra_sparse_matrix_multiply_dense_values(&one, 0, NULL, 0, NULL, 0) == 0);
    CHECK(nalgebra_sparse_matrix_multiply_dense_values(&one, 1, five, 1, NULL, 9) == NALGEBRA_SPARSE_TOO_SMALL);
    CHECK(nalgebra_sparse_matrix_from_text_bytes(NULL, 0, &one) == NALGEBRA_SPARSE_INVALID_TEXT && one.matrix != NULL);
    nalgebra_sparse_matrix_free(&one), nalgebra_sparse_matrix_free(&wide);
    nalgebra_sparse_factors_free(&f), nalgebra_sparse_factors_free(&f);
    CHECK(f.factors == NULL && g.factors == NULL);
}

int main(void) {
    nalgebra_sparse_matrix a = NALGEBRA_SPARSE_NO_MATRIX;
    EACH(i, CASES) {
        plain p = make(&a);
        check_solves(&a, &p);
        check_products(&a, &p);
        check_factors(&a, &p);
        check_text(&a, &p);
    }
    nalgebra_sparse_matrix_free(&a);
    check_texts();
    check_orders();
    refuse();
    printf("c: %d random solves, factors in their order and in others, orders, dense products and texts over handles equal plain matrices, and each error is returned\n", (int)CASES);
    return 0;
}
