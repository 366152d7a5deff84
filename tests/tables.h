/* Random numbers, and random diagrams whose tables are accepted. */
#ifndef TABLES_H
#define TABLES_H

#include <stdbool.h>
#include <stddef.h>
#include <stdint.h>

struct dice {
    uint64_t state;
};

/* A number from 0 to sides-1. */
uint32_t roll(struct dice *dice, uint32_t sides);
bool chance(struct dice *dice, uint32_t percent);

struct diagram {
    unsigned contacts, outputs;
    uint8_t output[8];
    uint8_t width[13]; /* width[contacts] is 2 */
    uint8_t edge[12][8][2];
};

enum { TABLE_MAX = 4 + (3 + 8) + 12 * (3 + 16) };

/* Merges nodes with the same edges, drops those that are not mentioned and numbers the others by first mention. */
void make_canonical(struct diagram *diagram);

/* Whether a contact of a canonical diagram is spare: no output depends on it, so no node of its level has two different edges. */
bool is_spare(const struct diagram *diagram, unsigned contact);

/* Puts in a spare contact with this number; the contacts from it on move up by one. */
void insert_spare_contact(struct diagram *diagram, unsigned contact);

/* A diagram of the given size whose table is accepted; its shape is drawn at random. More than half of them have no spare contact; in
 * the others any contact may be spare. */
void random_diagram(struct dice *dice, unsigned contacts, unsigned outputs, struct diagram *diagram);

/* The same with no contact spare. Of 0 contacts, which no table has, the outputs are constants. */
void busy_diagram(struct dice *dice, unsigned contacts, unsigned outputs, struct diagram *diagram);

/* The same for eight outputs with every level as wide as it can be: 8 nodes, and 4 in the last level. */
void widest_diagram(struct dice *dice, unsigned contacts, struct diagram *diagram);

/* The same, with the edges chosen so that any three levels lead from every node to all eight: the netlist is near the largest
 * that a table has. With 12 contacts it has some 1,800 gates, and one of its lines is seen only while the last six contacts are
 * all 1. */
void largest_diagram(struct dice *dice, unsigned contacts, struct diagram *diagram);

/* Writes the table, at most TABLE_MAX bytes, and returns its length. */
size_t table_of(const struct diagram *diagram, uint8_t *table);

/* The value of an output at an input, and the word of all of them. */
unsigned value_at(const struct diagram *diagram, unsigned output, uint32_t input);
uint32_t word_at(const struct diagram *diagram, uint32_t input);

#endif
