/* Matrix Market files by their names, over the calls of nalgebra_sparse.h on texts. nalgebra_sparse.h includes this
 * file.
 *
 * These functions are tested, not proved. They return the statuses of the calls on texts, and FILE_ERROR if a file
 * can't be opened, read or written: then errno says why.
 */
#ifndef NALGEBRA_SPARSE_FILES_H
#define NALGEBRA_SPARSE_FILES_H

/* The bytes of a text, which nalgebra_sparse_text_free frees. It starts as {NULL, 0}. */
typedef struct {
    uint8_t *bytes;
    size_t length;
} nalgebra_sparse_text;

/* Frees the bytes of a text, which is empty from then on. */
static inline void nalgebra_sparse_text_free(nalgebra_sparse_text *text) {
    free(text->bytes);
    text->bytes = NULL;
    text->length = 0;
}

/* Appends the bytes of a file to an empty text, in memory that doubles. */
static inline int32_t nalgebra_sparse_text_append(nalgebra_sparse_text *text, FILE *file) {
    size_t room = 0;
    while (!feof(file)) {
        if (text->length == room) {
            uint8_t *bytes = NULL;
            room = room ? 2 * room : 4096;
            if (room <= SIZE_MAX / 2) bytes = (uint8_t *)realloc(text->bytes, room);
            if (!bytes) return NALGEBRA_SPARSE_OUT_OF_MEMORY;
            text->bytes = bytes;
        }
        text->length += fread(text->bytes + text->length, 1, room - text->length, file);
        if (ferror(file)) return NALGEBRA_SPARSE_FILE_ERROR;
    }
    return NALGEBRA_SPARSE_DONE;
}

/* Stores the bytes of the file of this name in `out`, whose bytes before are not freed. At any status but 0 it is
 * empty.
 */
static inline int32_t nalgebra_sparse_text_from_file(const char *name, nalgebra_sparse_text *out) {
    FILE *file = fopen(name, "rb");
    int32_t status = NALGEBRA_SPARSE_FILE_ERROR;
    int reason;
    out->bytes = NULL;
    out->length = 0;
    if (!file) return status;
    status = nalgebra_sparse_text_append(out, file);
    reason = errno;
    fclose(file);
    if (status != NALGEBRA_SPARSE_DONE) nalgebra_sparse_text_free(out);
    errno = reason;
    return status;
}

/* Writes a text to the file of this name, whose bytes before are dropped. At FILE_ERROR a prefix may be written. */
static inline int32_t nalgebra_sparse_text_to_file(const nalgebra_sparse_text *text, const char *name) {
    FILE *file = fopen(name, "wb");
    size_t written;
    int reason;
    if (!file) return NALGEBRA_SPARSE_FILE_ERROR;
    written = fwrite(text->bytes, 1, text->length, file);
    reason = errno;
    if (fclose(file) == 0 && written == text->length) return NALGEBRA_SPARSE_DONE;
    if (written != text->length) errno = reason;
    return NALGEBRA_SPARSE_FILE_ERROR;
}

/* Sets the length of a text, and allocates its bytes. */
static inline int32_t nalgebra_sparse_text_of_length(nalgebra_sparse_text *text, size_t length) {
    text->length = length;
    text->bytes = (uint8_t *)malloc(length);
    return text->bytes ? NALGEBRA_SPARSE_DONE : NALGEBRA_SPARSE_OUT_OF_MEMORY;
}

/* Stores in `out` the matrix of the file of this name, where values with the same row and column are added. */
static inline int32_t nalgebra_sparse_matrix_from_file(const char *name, nalgebra_sparse_matrix *out) {
    nalgebra_sparse_text text;
    int32_t status = nalgebra_sparse_text_from_file(name, &text);
    if (status == NALGEBRA_SPARSE_DONE) status = nalgebra_sparse_matrix_from_text(text.bytes, text.length, out);
    nalgebra_sparse_text_free(&text);
    return status;
}

/* Writes the text of the matrix behind `a` to the file of this name. */
static inline int32_t nalgebra_sparse_matrix_to_file(nalgebra_sparse_matrix *a, const char *name) {
    nalgebra_sparse_text text = {NULL, 0};
    size_t length = 0;
    int32_t status = nalgebra_sparse_matrix_text_length(a, &length);
    if (status == NALGEBRA_SPARSE_DONE) status = nalgebra_sparse_text_of_length(&text, length);
    if (status == NALGEBRA_SPARSE_DONE) status = nalgebra_sparse_matrix_to_text(a, text.bytes, length, &length);
    if (status == NALGEBRA_SPARSE_DONE) status = nalgebra_sparse_text_to_file(&text, name);
    nalgebra_sparse_text_free(&text);
    return status;
}

/* Writes the text of triplets to the file of this name. */
static inline int32_t nalgebra_sparse_write_file_lists(nalgebra_sparse_lists t, const char *name) {
    nalgebra_sparse_text text = {NULL, 0};
    size_t length = 0;
    int32_t status = nalgebra_sparse_write_length_lists(t, &length);
    if (status == NALGEBRA_SPARSE_DONE) status = nalgebra_sparse_text_of_length(&text, length);
    if (status == NALGEBRA_SPARSE_DONE) status = nalgebra_sparse_write_lists(t, text.bytes, length, &length);
    if (status == NALGEBRA_SPARSE_DONE) status = nalgebra_sparse_text_to_file(&text, name);
    nalgebra_sparse_text_free(&text);
    return status;
}

#endif
