#define _GNU_SOURCE
#include "lent.h"

#include <stdio.h>
#include <stdlib.h>
#include <string.h>
#include <sys/mman.h>

enum { PAGE = 65536 }; /* a multiple of every usual page size */

static void give_up(const char *what)
{
    perror(what);
    exit(2);
}

void open_lent(struct lent *lent)
{
    uint8_t *pages = mmap(NULL, PAGE + AREA + PAGE, PROT_NONE, MAP_PRIVATE | MAP_ANONYMOUS, -1, 0);
    if (pages == MAP_FAILED)
        give_up("mmap");
    lent->area = pages + PAGE;
    if (mprotect(lent->area, AREA, PROT_READ | PROT_WRITE) != 0)
        give_up("mprotect");
    lent->image = malloc(AREA);
    if (lent->image == NULL)
        give_up("malloc");
}

void close_lent(struct lent *lent)
{
    munmap(lent->area - PAGE, PAGE + AREA + PAGE);
    free(lent->image);
}

/* The part of the area that is watched: the string with its guard bytes. */
static void watched(const struct lent *lent, size_t *from, size_t *to)
{
    size_t start = (size_t)(lent->bytes - lent->area);
    size_t end = start + lent->length;
    *from = start < GUARD ? 0 : start - GUARD;
    *to = AREA - end < GUARD ? AREA : end + GUARD;
}

void lend(struct lent *lent, const uint8_t *content, size_t length, enum place place)
{
    size_t start = place == AT_START ? 0 : place == AT_END ? AREA - length : GUARD;
    size_t from, to;
    lent->bytes = lent->area + start;
    lent->length = length;
    watched(lent, &from, &to);
    for (size_t i = from; i < start; i++)
        lent->area[i] = (uint8_t)(0xa5 ^ i);
    memcpy(lent->bytes, content, length);
    for (size_t i = start + length; i < to; i++)
        lent->area[i] = (uint8_t)(0x5a ^ i);
    memcpy(lent->image + from, lent->area + from, to - from);
}

bool untouched_from(const struct lent *lent, size_t from)
{
    size_t start = (size_t)(lent->bytes - lent->area);
    size_t first, to;
    watched(lent, &first, &to);
    return memcmp(lent->area + first, lent->image + first, start - first) == 0 &&
           memcmp(lent->bytes + from, lent->image + start + from, to - start - from) == 0;
}

bool untouched_between(const struct lent *lent, size_t from, size_t to)
{
    return memcmp(lent->bytes + from, lent->image + (lent->bytes - lent->area) + from, to - from) == 0;
}
