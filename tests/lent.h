/* Byte strings lent to a service. Each lies in an area of its own: a page before it and a page after it cannot be touched, and
 * within the area guard bytes stand on either side of the string. */
#ifndef LENT_H
#define LENT_H

#include <stdbool.h>
#include <stddef.h>
#include <stdint.h>

enum { GUARD = 64, AREA = 4 * 65536 };

/* Where in its area a string lies: right after the page before it, right before the page after it, or in between. */
enum place { AT_START, AT_END, BETWEEN, PLACES };

struct lent {
    uint8_t *area;  /* AREA bytes */
    uint8_t *image; /* the same bytes as they were lent */
    uint8_t *bytes;
    size_t length;
};

void open_lent(struct lent *lent);
void close_lent(struct lent *lent);

/* Lends a string with this content. */
void lend(struct lent *lent, const uint8_t *content, size_t length, enum place place);

/* Whether the guard bytes and the string's bytes from `from` on are as they were lent. */
bool untouched_from(const struct lent *lent, size_t from);

/* Whether the string's bytes from one to before another are as they were lent. */
bool untouched_between(const struct lent *lent, size_t from, size_t to);

#endif
