/* Edits of a file, byte by byte and field by field. */
#ifndef EDITS_H
#define EDITS_H

#include "file.h"
#include "tables.h"

static inline unsigned two_bytes(const uint8_t *at)
{
    return 256u * at[0] + at[1];
}

static inline void set_two_bytes(uint8_t *at, unsigned number)
{
    at[0] = (uint8_t)(number / 256);
    at[1] = (uint8_t)number;
}

/* A byte that is often a plausible node, tag or kind. */
unsigned any_byte(struct dice *dice);

/* A byte of `least` or more, often just that. */
unsigned at_least(struct dice *dice, unsigned least);

/* At the end of a file. */
void add_byte(struct file *file, unsigned byte);
void add_two(struct file *file, unsigned number);
void add_head(struct file *file, unsigned tag, unsigned length);

void erase(struct file *file, size_t at, size_t count);

/* Makes room at a place for bytes drawn at random. */
void insert(struct dice *dice, struct file *file, size_t at, size_t count);

/* Whether a field stands whole at a place, and the length of its value. */
bool is_whole(const struct file *file, size_t at);
size_t field_length(const struct file *file, size_t at);

/* The place of field k of a file of whole fields, notes not counted; its length if there are not so many. */
size_t field_place(const struct file *file, unsigned k);

void erase_field(struct file *file, size_t at);

/* Gives a field another length, with bytes dropped at the value's end or added there. */
void resize_field(struct dice *dice, struct file *file, size_t at, size_t length);

/* Gives a field any tag that is no note's: any, or one that it does not have. */
void set_tag(struct dice *dice, struct file *file, size_t at);
void set_other_tag(struct dice *dice, struct file *file, size_t at);

/* Puts a field of any tag that is no note's at a place. */
void add_field(struct dice *dice, struct file *file, size_t at);

/* Puts a field of a tag before field `place` of a file of whole fields. */
void put_field(struct dice *dice, unsigned tag, unsigned place, struct file *file);

/* Takes a field away and puts it before the one that then has this number. */
void move_field(struct file *file, size_t at, unsigned to);

#endif
