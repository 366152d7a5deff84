/* What all parts of the reference lean on: the memory of one call, files as lists of fields, and numbers of one and two bytes. */
#ifndef REFERENCE_FILES_H
#define REFERENCE_FILES_H

#include <stdbool.h>
#include <stddef.h>
#include <stdint.h>

/* Memory is handed out piece by piece, all of it 0, and given back as a whole. */
struct pool {
    struct piece *last;
};

void *take(struct pool *pool, size_t size);
void give_back(struct pool *pool);

/* Says that there is no memory left and ends the program. */
_Noreturn void run_out(void);

struct field {
    unsigned tag;
    size_t length;
    const uint8_t *value;
    struct field *next;
};

/* The fields that stand whole at the start of a file, but for notes; *whole tells whether nothing is left over. */
struct field *fields_of(struct pool *pool, const uint8_t *file, size_t length, bool *whole);

/* Whether there is a field, with this tag and a length within these. */
bool is_field(const struct field *field, unsigned tag, size_t least, size_t most);

/* Question 2. */
bool is_contacts(const struct field *field);

static inline unsigned two_bytes(const uint8_t *at)
{
    return 256u * at[0] + at[1];
}

/* Each writes a number and returns the place after it. */
static inline uint8_t *put(uint8_t *at, unsigned number)
{
    *at = (uint8_t)number;
    return at + 1;
}

static inline uint8_t *put_two(uint8_t *at, unsigned number)
{
    return put(put(at, number / 256), number % 256);
}

#endif
