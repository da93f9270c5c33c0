/* Squares a matrix by rows and prints the entries of the result. */
#include "nalgebra_sparse.h"

#include <inttypes.h>
#include <stdio.h>

int main(void) {
    /* The entry (1, 1) is given twice; its values are added. */
    const size_t rows[] = {0, 0, 1, 1}, cols[] = {0, 1, 1, 1};
    const int64_t values[] = {1, 2, 2, 1};
    const nalgebra_sparse_lists triplets = {2, 2, rows, cols, values, 4};
    size_t a_offsets[3], a_indices[4], c_offsets[3], c_indices[4];
    int64_t a_values[4], c_values[4];
    nalgebra_sparse_result a = {a_offsets, 3, a_indices, a_values, 4, 0, 0, 0};
    nalgebra_sparse_result c = {c_offsets, 3, c_indices, c_values, 4, 0, 0, 0};
    int32_t status = nalgebra_sparse_assemble_csr_lists(triplets, &a);
    if (status == NALGEBRA_SPARSE_DONE)
        status = nalgebra_sparse_multiply_rows(nalgebra_sparse_rows_of(&a), nalgebra_sparse_rows_of(&a), &c);
    if (status != NALGEBRA_SPARSE_DONE) {
        fprintf(stderr, "square: %s\n", nalgebra_sparse_status_text(status));
        return 1;
    }
    for (size_t i = 0; i < c.rows; i++)
        for (size_t p = c.offsets[i]; p < c.offsets[i + 1]; p++)
            printf("%zu %zu %" PRId64 "\n", i, c.indices[p], c.values[p]);
    return 0;
}
