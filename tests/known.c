#include "known.h"

#include <inttypes.h>
#include <stdio.h>
#include <string.h>

#include "edits.h"

void expect_right(bool right, const char *what, const struct file *holds)
{
    if (right)
        return;
    printf("difference after case %lu, seed %" PRIu64 ", %s: the reference gives another answer than was worked out; held:", cases,
           seed, what);
    for (size_t at = 0; at < holds->length; at += 3)
        printf(" %u=%u", two_bytes(holds->bytes + at), holds->bytes[at + 2]);
    printf("\n");
    differences++;
    stop_after_many();
}

void set_file(struct file *file, const uint8_t *bytes, size_t length)
{
    memcpy(file->bytes, bytes, length);
    file->length = length;
}

void set_selector(struct file *table, struct file *netlist)
{
    static const uint8_t bytes[] = {1, 0, 1, 3, 2, 0, 1, 0, 3, 0, 2, 0, 1, 3, 0, 4, 0, 1, 0, 2, 3, 0, 6, 0, 1, 0, 0, 1, 1};
    set_file(table, bytes, sizeof bytes);
    build_netlist(table, false, netlist);
}

bool are_lines(const uint8_t *lines, const char *text)
{
    for (; *text != '\0'; text++, lines++)
        if (*lines != *text - '0')
            return false;
    return true;
}
