#include "fields.h"

#include "../include/pilgodur.h"

unsigned two_bytes(const uint8_t *at)
{
    return 256u * at[0] + at[1];
}

bool field_at(const uint8_t *bytes, size_t length, size_t at, struct field *field)
{
    const uint8_t *head = bytes + at;
    size_t left = length - at;
    if (left < HEAD || two_bytes(head + 1) > left - HEAD)
        return false;
    *field = (struct field){head[0], two_bytes(head + 1), head + HEAD};
    return true;
}

bool is_note(const struct field *field)
{
    return field->tag >= PILGODUR_NOTE_TAG;
}

size_t past_notes(const uint8_t *bytes, size_t length, size_t at)
{
    struct field field;
    while (field_at(bytes, length, at, &field) && is_note(&field))
        at += HEAD + field.length;
    return at;
}

uint8_t *put_head(uint8_t *at, unsigned tag, size_t length)
{
    at[0] = (uint8_t)tag;
    at[1] = (uint8_t)(length / 256);
    at[2] = (uint8_t)length;
    return at + HEAD;
}
