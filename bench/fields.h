/* Files as rows of fields. */
#ifndef FIELDS_H
#define FIELDS_H

#include "load.h"

unsigned two_bytes(const uint8_t *at);

enum { HEAD = 3, LONGEST = UINT16_MAX }; /* the bytes of a tag and a length, and the most that a value can have */

struct field {
    unsigned tag;
    size_t length;
    const uint8_t *value;
};

/* The field, a note or not, that stands whole at a place; false at the end, and if the field is cut short. */
bool field_at(const uint8_t *bytes, size_t length, size_t at, struct field *field);

bool is_note(const struct field *field);

/* The place past the whole notes that stand at a place. */
size_t past_notes(const uint8_t *bytes, size_t length, size_t at);

/* Writes a tag and a length; returns the place after them. */
uint8_t *put_head(uint8_t *at, unsigned tag, size_t length);

#endif
