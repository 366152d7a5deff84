/* Netlist files, seen as gates and outputs. */
#ifndef NETLIST_H
#define NETLIST_H

#include "../include/pilgodur.h"
#include "fields.h"

struct netlist {
    const char *name; /* of the file that it comes from */
    const uint8_t *bytes;
    size_t length;
    unsigned contacts, gates, outputs;
    const uint8_t *gate;   /* five bytes each */
    const uint8_t *output; /* four bytes each */
    const uint8_t *lamp;   /* four bytes; NULL if there is none */
};

struct gate {
    const char *kind; /* AND or OR */
    unsigned first, second;
};

/* The lines of an output or of the lamp. */
struct pair {
    unsigned yes, no;
};

/* The line of gate 0, and the count of lines. */
unsigned first_gate(const struct netlist *netlist);
unsigned lines_of(const struct netlist *netlist);

/* The count of pairs: those of the outputs, then the lamp's if there is one. */
unsigned pairs_of(const struct netlist *netlist);
bool is_lamp(const struct netlist *netlist, unsigned pair);

struct gate gate_at(const struct netlist *netlist, unsigned gate);
struct pair pair_at(const struct netlist *netlist, unsigned pair);
bool is_or(const struct gate *gate);

/* Whether a line is a source of some gate or a line of some output or of the lamp. */
bool is_read(const struct netlist *netlist, unsigned line);

/* The netlist in a file that gets a yes to questions 11 and 12. A file that does not ends the program. */
struct netlist netlist_in(const struct file *file);

/* The netlist of a table, built into `room`, with the lamp or without. A table that is refused ends the program. */
struct netlist netlist_of(const struct file *table, bool lamp, uint8_t room[PILGODUR_FILE_MAX]);

/* One or the other: a file whose second field, notes left out, has tag 4 is taken for a netlist as it is, any other for a table. */
struct netlist netlist_in_or_of(const struct file *file, bool lamp, uint8_t room[PILGODUR_FILE_MAX]);

#endif
