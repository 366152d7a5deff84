/* What several commands show. */
#ifndef SHOW_H
#define SHOW_H

#include <stdbool.h>
#include <stddef.h>
#include <stdint.h>
#include <stdio.h>

#include "netlist.h"

/* A table or netlist: the hex: text of its bytes, or the bytes themselves, as with -o. */
void show_file(FILE *out, const uint8_t *bytes, size_t length, bool as_text);

/* The meaning of an output's pair, and of the lamp's, which tells codes from others alone. */
const char *pair_meaning(unsigned yes, unsigned no);
const char *lamp_meaning(unsigned yes, unsigned no);
void show_pair(FILE *out, unsigned output, unsigned yes, unsigned no);
void show_lamp(FILE *out, unsigned yes, unsigned no);

/* The input's number, and which contacts are closed. */
void show_input(FILE *out, uint32_t input, unsigned contacts);

/* The pairs of a netlist's outputs, and of its lamp if there is one. */
void show_outputs(FILE *out, const struct netlist *netlist, const uint8_t *pairs);

/* The values of the lines from one to before another, which of them are held, and which pins of their gates. */
void show_lines(FILE *out, const uint8_t *values, unsigned from, unsigned to, const uint8_t *holds, size_t holds_length);

#endif
