/* What a netlist is run with: rails and holds. */
#ifndef DRIVE_H
#define DRIVE_H

#include "commands.h"
#include "netlist.h"
#include "operands.h"

/* The rail bytes of a run, and the operand that they come from. */
struct rails {
    bool by_input;
    struct input input;
    const uint8_t *at;
    size_t length;
    const char *name;     /* of a file */
    uint8_t code[2 * 12]; /* those of an input */
};

/* Reads the second operand if it is an input; text that begins like one and is none ends the program. */
void name_rails(const struct request *request, struct rails *rails);

/* Then, for a netlist, the rails of that input, which is shown, or those in the file that the operand names. */
void find_rails(struct request *request, const struct netlist *netlist, struct rails *rails, FILE *out);

/* A hold list: its texts, and three bytes for each. */
struct holds {
    char **text;
    uint8_t *at;
    size_t count;
};

/* The number of the first hold with which a list is refused by question 14. */
size_t refused_hold(const struct netlist *netlist, const struct rails *rails, const struct holds *holds);

#endif
