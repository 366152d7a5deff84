#include "reference_files.h"

#include <stdio.h>
#include <stdlib.h>

/* ---- Memory. ---- */

struct piece {
    struct piece *before;
    max_align_t content[];
};

void run_out(void)
{
    fputs("reference: out of memory\n", stderr);
    abort();
}

void *take(struct pool *pool, size_t size)
{
    struct piece *piece = calloc(1, sizeof *piece + size);
    if (piece == NULL)
        run_out();
    piece->before = pool->last;
    pool->last = piece;
    return piece->content;
}

void give_back(struct pool *pool)
{
    while (pool->last != NULL) {
        struct piece *piece = pool->last;
        pool->last = piece->before;
        free(piece);
    }
}

/* ---- Fields. ---- */

static bool is_note(const struct field *field)
{
    return field->tag >= 128;
}

struct field *fields_of(struct pool *pool, const uint8_t *file, size_t length, bool *whole)
{
    struct field *first = NULL;
    struct field **end = &first;
    size_t at = 0;
    while (length - at >= 3 && two_bytes(file + at + 1) <= length - at - 3) {
        struct field *field = take(pool, sizeof *field);
        field->tag = file[at];
        field->length = two_bytes(file + at + 1);
        field->value = file + at + 3;
        if (!is_note(field)) {
            *end = field;
            end = &field->next;
        }
        at += 3 + field->length;
    }
    *whole = at == length;
    return first;
}

bool is_field(const struct field *field, unsigned tag, size_t least, size_t most)
{
    return field != NULL && field->tag == tag && least <= field->length && field->length <= most;
}

bool is_contacts(const struct field *field)
{
    return is_field(field, 1, 1, 1) && 1 <= field->value[0] && field->value[0] <= 12;
}
