#include "edits.h"

#include <string.h>

/* ---- Bytes. ---- */

unsigned any_byte(struct dice *dice)
{
    return chance(dice, 60) ? roll(dice, 10) : roll(dice, 256);
}

unsigned at_least(struct dice *dice, unsigned least)
{
    return least + (chance(dice, 60) ? 0 : roll(dice, 256 - least));
}

void add_byte(struct file *file, unsigned byte)
{
    file->bytes[file->length++] = (uint8_t)byte;
}

void add_two(struct file *file, unsigned number)
{
    add_byte(file, number / 256);
    add_byte(file, number);
}

void add_head(struct file *file, unsigned tag, unsigned length)
{
    add_byte(file, tag);
    add_two(file, length);
}

void erase(struct file *file, size_t at, size_t count)
{
    memmove(file->bytes + at, file->bytes + at + count, file->length - at - count);
    file->length -= count;
}

void insert(struct dice *dice, struct file *file, size_t at, size_t count)
{
    memmove(file->bytes + at + count, file->bytes + at, file->length - at);
    file->length += count;
    for (size_t i = 0; i < count; i++)
        file->bytes[at + i] = (uint8_t)any_byte(dice);
}

/* ---- Fields. ---- */

bool is_whole(const struct file *file, size_t at)
{
    return file->length - at >= 3 && field_length(file, at) <= file->length - at - 3;
}

size_t field_length(const struct file *file, size_t at)
{
    return two_bytes(file->bytes + at + 1);
}

/* The place of the first field from a place on that is no note. */
static size_t pass_notes(const struct file *file, size_t at)
{
    while (at < file->length && file->bytes[at] >= NOTE_TAG)
        at += 3 + field_length(file, at);
    return at;
}

size_t field_place(const struct file *file, unsigned k)
{
    size_t at = pass_notes(file, 0);
    while (k-- > 0 && at < file->length)
        at = pass_notes(file, at + 3 + field_length(file, at));
    return at;
}

void erase_field(struct file *file, size_t at)
{
    if (at < file->length)
        erase(file, at, 3 + field_length(file, at));
}

void resize_field(struct dice *dice, struct file *file, size_t at, size_t length)
{
    if (at >= file->length)
        return;
    size_t old = field_length(file, at);
    if (length < old)
        erase(file, at + 3 + length, old - length);
    else
        insert(dice, file, at + 3 + old, length - old);
    set_two_bytes(file->bytes + at + 1, (unsigned)length);
}

/* A tag that is no note's. */
static unsigned any_tag(struct dice *dice)
{
    return any_byte(dice) % NOTE_TAG;
}

void set_tag(struct dice *dice, struct file *file, size_t at)
{
    if (at < file->length)
        file->bytes[at] = (uint8_t)any_tag(dice);
}

void set_other_tag(struct dice *dice, struct file *file, size_t at)
{
    uint8_t tag = file->bytes[at];
    while (file->bytes[at] == tag)
        set_tag(dice, file, at);
}

void add_field(struct dice *dice, struct file *file, size_t at)
{
    unsigned length = roll(dice, 5);
    insert(dice, file, at, 3 + (size_t)length);
    file->bytes[at] = (uint8_t)any_tag(dice);
    set_two_bytes(file->bytes + at + 1, length);
}

void put_field(struct dice *dice, unsigned tag, unsigned place, struct file *file)
{
    size_t at = field_place(file, place);
    add_field(dice, file, at);
    file->bytes[at] = (uint8_t)tag;
}

void move_field(struct file *file, size_t at, unsigned to)
{
    uint8_t moved[3 + 4 * 8];
    size_t length = 3 + field_length(file, at);
    memcpy(moved, file->bytes + at, length);
    erase(file, at, length);
    at = field_place(file, to);
    memmove(file->bytes + at + length, file->bytes + at, file->length - at);
    memcpy(file->bytes + at, moved, length);
    file->length += length;
}
