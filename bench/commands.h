/* The commands. Each loads the files that it is asked about and writes its answer to a stream. */
#ifndef COMMANDS_H
#define COMMANDS_H

#include <stdio.h>

#include "load.h"
#include "report.h"

enum format { NO_FORMAT, BLIF, VERILOG, DOT };

/* What the command line asks for, but for the command itself. */
struct request {
    char **operand;
    int operands;
    const char *output; /* -o */
    bool lines;         /* --lines */
    bool all;           /* --all */
    bool lamp;          /* --lamp */
    bool pins;          /* --pins */
    uint8_t *notes;     /* --note: the fields, in their order */
    size_t notes_length;
    enum format format;
    struct file file[3]; /* those loaded so far */
    int files;
    char *answer; /* what the stream has that the answer is written to */
    size_t answer_length;
};

/* Loads an operand as the request's next file. */
const struct file *load_operand(struct request *request, int operand);

/* Shows what was answered so far, for a command that asks for more; the stream is empty then. */
void show_so_far(struct request *request, FILE *out);

typedef enum status command(struct request *request, FILE *out);

command draw, rules;                         /* draw.c, rules.c */
command check, build, read_off, probe;       /* on_table.c */
command list, run;                           /* on_netlist.c */
command step;                                /* step.c */
command compare, dictionary, export_netlist; /* compare.c, dictionary.c, export.c */
command notes;                               /* notes.c */

#endif
