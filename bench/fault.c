#include "fault.h"

#include <stdarg.h>
#include <stdio.h>
#include <string.h>

#include "../include/pilgodur.h"

bool say(struct fault *fault, const char *format, ...)
{
    va_list args;
    int start = snprintf(fault->text, sizeof fault->text, ": ");
    va_start(args, format);
    vsnprintf(fault->text + start, sizeof fault->text - (size_t)start, format, args);
    va_end(args);
    return true;
}

bool contacts_fault(const struct field *field, struct fault *fault)
{
    if (field->length != 1)
        return say(fault, "the first field has length %zu, not 1", field->length);
    if (field->value[0] < 1 || field->value[0] > 12)
        return say(fault, "there are %u contacts, not 1 to 12", field->value[0]);
    return false;
}

/* A field of the tag of a note may be the mark that some editors put before text. */
bool cut_fault(const uint8_t *bytes, size_t length, size_t at, const char *what, struct fault *fault)
{
    static const uint8_t byte_order_mark[] = {0xef, 0xbb, 0xbf};
    const size_t size = sizeof byte_order_mark;
    if (bytes[at] < PILGODUR_NOTE_TAG)
        return say(fault, "the %s is cut short", what);
    bool marked = at == 0 && length >= size && memcmp(bytes, byte_order_mark, size) == 0;
    return say(fault, "a note is cut short%s", marked ? ", or this is text with a byte order mark before it" : "");
}
