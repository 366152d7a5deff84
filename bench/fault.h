/* What is wrong with a drawing, a rule sheet or a call, in words for a message. */
#ifndef FAULT_H
#define FAULT_H

#include "fields.h"

/* A colon and the words; nothing if it is not known. */
struct fault {
    char text[320];
};

/* Puts it in words. Always true: there is a fault. */
__attribute__((format(printf, 2, 3)))
bool say(struct fault *fault, const char *format, ...);

/* The first field, of tag 1. */
bool contacts_fault(const struct field *field, struct fault *fault);

/* The field at a place is cut short; `what` is what it is called if it is no note. */
bool cut_fault(const uint8_t *bytes, size_t length, size_t at, const char *what, struct fault *fault);

#endif
