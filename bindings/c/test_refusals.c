/* Refuses each request for memory of each call in turn, one in each run: the call must end in its answer, or in
 * OUT_OF_MEMORY with nothing written, and must free all that it allocated. Run by bindings/test, which links it with
 * -Wl,--wrap so that the library's requests come here. Every call has a line in CALLS: .ci/refusals compares them with
 * the sources. */
#include "nalgebra_sparse.h"

#include <stdio.h>
#include <stdlib.h>
#include <string.h>

enum { ROOM = 32, TEXT = 256 };

/* All that a call may write to. */
typedef struct {
    size_t offsets[ROOM], indices[ROOM], rows, cols, count;
    uint64_t modulus;
    uint32_t narrow[2][ROOM];
    int64_t values[ROOM], diagonal[ROOM];
    uint8_t text[TEXT];
} target;

/* The number of the allocation that fails, the allocations of the call so far, and the blocks that it has not freed. */
static size_t refused, requests, blocks;

void *__real_malloc(size_t size);
void *__real_realloc(void *old, size_t size);
void __real_free(void *block);
void *__wrap_malloc(size_t size);
void *__wrap_realloc(void *old, size_t size);
void __wrap_free(void *block);

void *__wrap_malloc(size_t size) {
    void *block = requests++ == refused ? NULL : __real_malloc(size);
    blocks += block != NULL;
    return block;
}

void *__wrap_realloc(void *old, size_t size) {
    void *block = requests++ == refused ? NULL : __real_realloc(old, size);
    blocks += block != NULL && old == NULL;
    return block;
}

void __wrap_free(void *block) {
    blocks -= block != NULL;
    __real_free(block);
}

/* The matrix 1 0 2 / 0 3 0 / 4 0 5 by rows, or its transpose by columns; triplets, two of them with the same row and
 * column; a right-hand side with two columns; and a text. */
static const size_t OFFSETS[] = {0, 2, 3, 5}, INDICES[] = {0, 2, 1, 0, 2}, ROWS[] = {2, 0, 2, 1}, COLS[] = {1, 2, 1, 0};
static const int64_t VALUES[] = {1, 2, 3, 4, 5}, SIDES[] = {1, -2, 3, 4, 5, 6};
/* The values of a matrix whose second pivot has no inverse. */
static const int64_t EVEN_VALUES[] = {1, 2, 6, 4, 5};
/* An order of the rows and columns. */
static const size_t ORDER[] = {2, 0, 1};
static const char LINES[] = "%%MatrixMarket matrix coordinate integer symmetric\n3 3 2\n1 1 5\n3 1 -7\n";

#define PATTERN OFFSETS, 4, INDICES, 5
#define MATRIX PATTERN, VALUES, 5
#define EVEN PATTERN, EVEN_VALUES, 5
#define LISTS ROWS, 4, COLS, 4, VALUES, 4
#define BYTES (const uint8_t *)LINES, sizeof LINES - 1
#define TO_PATTERN t->offsets, ROOM, t->indices, ROOM
#define TO_VALUES t->values, ROOM
#define TO_MATRIX TO_PATTERN, TO_VALUES, &t->count
#define TO_NARROW t->narrow[0], ROOM, t->narrow[1], ROOM, t->values, ROOM, &t->count
/* Room for the sum of MATRIX and itself, but not for the entries of both: then the sum is computed in memory first. */
#define TO_SUM t->offsets, ROOM, t->indices, 5, t->values, 5, &t->count
#define TO_FACTORS TO_PATTERN, TO_VALUES, t->diagonal, ROOM, &t->count

/* Each call, with small operands. */
#define CALLS(CALL)                                                     \
    CALL(assemble_csr, 3, 3, LISTS, TO_MATRIX)                          \
    CALL(assemble_csc, 3, 3, LISTS, TO_MATRIX)                          \
    CALL(assemble_csr_mod, 7, 3, 3, LISTS, TO_MATRIX)                   \
    CALL(assemble_csc_mod, 7, 3, 3, LISTS, TO_MATRIX)                   \
    CALL(transpose, 3, 3, MATRIX, TO_MATRIX)                            \
    CALL(add, 3, 3, MATRIX, MATRIX, TO_SUM)                             \
    CALL(subtract, 3, 3, MATRIX, MATRIX, TO_SUM)                        \
    CALL(add_scaled, 3, 3, 2, MATRIX, -3, MATRIX, TO_SUM)               \
    CALL(add_mod, 7, 3, 3, MATRIX, MATRIX, TO_SUM)                      \
    CALL(subtract_mod, 7, 3, 3, MATRIX, MATRIX, TO_SUM)                 \
    CALL(add_scaled_mod, 7, 3, 3, 2, MATRIX, -3, MATRIX, TO_SUM)        \
    CALL(multiply_places, 3, 3, 3, PATTERN, PATTERN, &t->count)         \
    CALL(multiply, 3, 3, 3, MATRIX, MATRIX, TO_MATRIX)                  \
    CALL(multiply_mod, 7, 3, 3, 3, MATRIX, MATRIX, TO_MATRIX)           \
    CALL(multiply_dense, 3, 3, 2, MATRIX, SIDES, 6, TO_VALUES)          \
    CALL(multiply_dense_mod, 7, 3, 3, 2, MATRIX, SIDES, 6, TO_VALUES)   \
    CALL(solve_lower, 3, 2, MATRIX, true, SIDES, 6, TO_VALUES)          \
    CALL(solve_lower_mod, 7, 3, 2, MATRIX, false, SIDES, 6, TO_VALUES)  \
    CALL(divide, 3, 3, MATRIX, 5, TO_MATRIX)                            \
    CALL(divide_mod, 101, 3, 3, MATRIX, 5, TO_MATRIX)                   \
    CALL(fill_places, 3, NALGEBRA_SPARSE_BOTH, PATTERN, &t->count)      \
    CALL(fill, 3, NALGEBRA_SPARSE_UPPER, PATTERN, TO_PATTERN, &t->count) \
    CALL(solve_symmetric, 3, 2, MATRIX, SIDES, 6, TO_VALUES)            \
    CALL(solve_symmetric_mod, 7, 3, 2, MATRIX, SIDES, 6, TO_VALUES)     \
    CALL(factor_symmetric, 3, MATRIX, TO_FACTORS)                       \
    CALL(factor_symmetric_mod, 7, 3, MATRIX, TO_FACTORS)                \
    CALL(factor_symmetric_pivot, 3, EVEN, &t->count)                    \
    CALL(factor_symmetric_pivot_mod, 3, 3, EVEN, &t->count)             \
    CALL(read_sizes, BYTES, &t->rows, &t->cols, &t->count)              \
    CALL(read, BYTES, TO_PATTERN, TO_VALUES, &t->count)                 \
    CALL(text_fault, BYTES, &t->count)                                  \
    CALL(write_length, 3, 3, LISTS, &t->count)                          \
    CALL(write, 3, 3, LISTS, t->text, TEXT, &t->count)

/* Operands behind handles, which are created before the first call, and the handles of results. */
static nalgebra_sparse_matrix a = NALGEBRA_SPARSE_NO_MATRIX, b = NALGEBRA_SPARSE_NO_MATRIX, out = NALGEBRA_SPARSE_NO_MATRIX;
static nalgebra_sparse_factors f = NALGEBRA_SPARSE_NO_FACTORS, g = NALGEBRA_SPARSE_NO_FACTORS;
static nalgebra_sparse_ring_matrix c = NALGEBRA_SPARSE_NO_RING_MATRIX, d = NALGEBRA_SPARSE_NO_RING_MATRIX, e = NALGEBRA_SPARSE_NO_RING_MATRIX;

/* Each call with handles, with a result in `out`, `g` or `e`, or in arrays. */
#define HANDLE_CALLS(CALL)                                       \
    CALL(matrix_from_rows, 3, 3, MATRIX, &out)                   \
    CALL(matrix_from_triplets, 3, 3, LISTS, &out)                \
    CALL(matrix_sizes, &a, &t->rows, &t->cols, &t->count)        \
    CALL(matrix_read, &a, TO_MATRIX)                             \
    CALL(matrix_read_32, &a, TO_NARROW)                          \
    CALL(matrix_transpose, &a, &out)                             \
    CALL(matrix_scale, 5, &a, &out)                              \
    CALL(matrix_add, &a, &b, &out)                               \
    CALL(matrix_subtract, &a, &b, &out)                          \
    CALL(matrix_add_scaled, 2, &a, -3, &b, &out)                 \
    CALL(matrix_multiply, &a, &b, &out)                          \
    CALL(matrix_multiply_dense, &a, 2, SIDES, 6, TO_VALUES)      \
    CALL(matrix_clone, &a, &out)                                 \
    CALL(matrix_from_text, BYTES, &out)                          \
    CALL(matrix_to_text, &a, t->text, TEXT, &t->count)           \
    CALL(matrix_solve_lower, &a, false, 2, t->values, 6)         \
    CALL(matrix_solve_upper, &a, true, 2, t->values, 6)          \
    CALL(matrix_factor, &a, &g)                                  \
    CALL(matrix_minimum_degree, &a, t->offsets, ROOM)            \
    CALL(matrix_reverse_cuthill_mckee, &a, t->offsets, ROOM)     \
    CALL(matrix_factor_in_order, &a, ORDER, 3, &g)               \
    CALL(factors_order, &f, t->offsets, ROOM)                    \
    CALL(factors_solve, &f, 2, t->values, 6)                     \
    CALL(factors_sizes, &f, &t->rows, &t->count)                 \
    CALL(factors_read, &f, TO_FACTORS)                           \
    CALL(factors_clone, &f, &g)                                  \
    CALL(ring_matrix_from_rows, 7, 3, 3, MATRIX, &e)             \
    CALL(ring_matrix_from_triplets, 7, 3, 3, LISTS, &e)          \
    CALL(ring_matrix_sizes, &c, &t->modulus, &t->rows, &t->cols, &t->count) \
    CALL(ring_matrix_read, &c, TO_MATRIX)                        \
    CALL(ring_matrix_transpose, &c, &e)                          \
    CALL(ring_matrix_scale, 5, &c, &e)                           \
    CALL(ring_matrix_add, &c, &d, &e)                            \
    CALL(ring_matrix_subtract, &c, &d, &e)                       \
    CALL(ring_matrix_add_scaled, 2, &c, -3, &d, &e)              \
    CALL(ring_matrix_multiply, &c, &d, &e)                       \
    CALL(ring_matrix_multiply_dense, &c, 2, SIDES, 6, TO_VALUES) \
    CALL(ring_matrix_clone, &c, &e)

/* Reads what a call has put behind `out` and `e`, solves with what it has put behind `g`, and frees all. These requests
 * are not counted, and none is refused. */
static int32_t shown(int32_t status, target *t) {
    size_t made = requests;
    refused = SIZE_MAX;
    if (out.matrix != NULL && nalgebra_sparse_matrix_read(&out, TO_MATRIX) != 0) exit(1);
    if (g.factors != NULL && nalgebra_sparse_factors_solve(&g, 1, t->diagonal, 3) != 0) exit(1);
    if (e.matrix != NULL && nalgebra_sparse_ring_matrix_read(&e, TO_MATRIX) != 0) exit(1);
    nalgebra_sparse_matrix_free(&out);
    nalgebra_sparse_factors_free(&g);
    nalgebra_sparse_ring_matrix_free(&e);
    requests = made;
    return status;
}

#define DEFINE(name, ...) \
    static int32_t name##_call(target *t) { return nalgebra_sparse_##name(__VA_ARGS__); }
CALLS(DEFINE)

#define DEFINE_SHOWN(name, ...) \
    static int32_t name##_call(target *t) { return shown(nalgebra_sparse_##name(__VA_ARGS__), t); }
HANDLE_CALLS(DEFINE_SHOWN)

#define ROW(name, ...) {#name, name##_call},
static const struct {
    const char *name;
    int32_t (*run)(target *);
} TABLE[] = {CALLS(ROW) HANDLE_CALLS(ROW)};
enum { COUNT = sizeof TABLE / sizeof *TABLE };

/* Runs a call in which one allocation fails, on arrays full of marks. Ends the program if it loses memory. */
static int32_t run(size_t call, size_t request, target *t) {
    memset(t, 77, sizeof *t);
    refused = request, requests = 0, blocks = 0;
    int32_t status = TABLE[call].run(t);
    if (blocks != 0) {
        fprintf(stderr, "%s: %zu blocks are not freed\n", TABLE[call].name, blocks);
        exit(1);
    }
    return status;
}

int main(void) {
    size_t all = 0, failures = 0;
    target blank, answer, t;
    refused = SIZE_MAX;
    if (nalgebra_sparse_matrix_from_rows(3, 3, MATRIX, &a) != 0 || nalgebra_sparse_matrix_transpose(&a, &b) != 0) return 1;
    if (nalgebra_sparse_matrix_factor_in_order(&a, ORDER, 3, &f) != 0) return 1;
    if (nalgebra_sparse_ring_matrix_from_rows(7, 3, 3, MATRIX, &c) != 0 || nalgebra_sparse_ring_matrix_transpose(&c, &d) != 0) return 1;
    memset(&blank, 77, sizeof blank);
    for (size_t call = 0; call < COUNT; call++) {
        int32_t status = run(call, SIZE_MAX, &answer);
        size_t count = requests;
        int asks = TABLE[call].run != matrix_sizes_call && TABLE[call].run != matrix_read_call &&
                   TABLE[call].run != matrix_read_32_call && TABLE[call].run != factors_sizes_call &&
                   TABLE[call].run != ring_matrix_sizes_call && TABLE[call].run != text_fault_call;
        if (status != 0 || (count != 0) != asks || memcmp(&answer, &blank, sizeof blank) == 0) {
            fprintf(stderr, "%s: status %d after %zu requests\n", TABLE[call].name, (int)status, count);
            return 1;
        }
        for (size_t request = 0; request < count; request++) {
            int32_t seen = run(call, request, &t);
            const target *want = seen == NALGEBRA_SPARSE_OUT_OF_MEMORY ? &blank : &answer;
            if ((seen != 0 && want == &answer) || memcmp(&t, want, sizeof t) != 0) {
                fprintf(stderr, "%s: status %d with request %zu refused\n", TABLE[call].name, (int)seen, request + 1);
                return 1;
            }
            failures += seen != 0;
        }
        all += count;
    }
    refused = SIZE_MAX;
    nalgebra_sparse_matrix_free(&a), nalgebra_sparse_matrix_free(&b), nalgebra_sparse_factors_free(&f);
    nalgebra_sparse_ring_matrix_free(&c), nalgebra_sparse_ring_matrix_free(&d);
    printf("c: %d calls, %zu refused requests: %zu out of memory, with nothing written\n", (int)COUNT, all, failures);
    return 0;
}
