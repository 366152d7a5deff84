/* Nets as an export has them, and the readers that fill them in. */
#ifndef NETS_H
#define NETS_H

#include <stdbool.h>

#include "../include/pilgodur.h"

enum { OUTPUT_NETS = PILGODUR_LINES_MAX, NETS = OUTPUT_NETS + PILGODUR_PAIRS_MAX, LAMP_NETS = NETS - 2 };
enum form { NOTHING, PORT, ZERO, ONE, COPY, AND, OR };

/* Net k is line k; the nets of the outputs follow from OUTPUT_NETS on, true before false, and those of the lamp are the last two. */
struct net {
    bool declared; /* as an input, output or wire */
    enum form form;
    unsigned sources;
    unsigned source[2];
};

extern struct net nets[NETS];

/* Says what is wrong and ends the program with status 1. */
__attribute__((format(printf, 1, 2)))
_Noreturn void give_up(const char *format, ...);

/* The net of a name; another name ends the program. */
unsigned net_of(const char *name);

/* Gives a net its form and sources; a net that has them already ends the program. */
void drive(const char *name, enum form form, unsigned sources, const char *first, const char *second);

/* The next word: a name or number, or one sign of another kind. Comments from the mark to the end of the line are passed over; a line
 * end is a word if it is asked for. NULL at the end. A word lasts until the fourth after it is asked for. */
const char *next_word(char **at, const char *comment, bool line_ends);
bool is(const char *word, const char *expected);
void expect(char **at, const char *comment, const char *expected);

/* The readers change the text. Text of another form ends the program. */
void read_blif(char *text);
void read_verilog(char *text);
void read_dot(char *text);

#endif
