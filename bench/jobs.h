/* What the benchmark's calls work on: tables, netlists, rails, holds, drawings and rule sheets. */
#ifndef JOBS_H
#define JOBS_H

#include "../include/pilgodur.h"
#include "../tests/rulesheets.h"

enum { MOST_GATES = 10560, BUFFER = PILGODUR_SHEET_MAX }; /* of a board without lamp; a sheet is longer than all else that is written */

struct job {
    uint8_t table[TABLE_MAX];
    size_t table_length;
    unsigned contacts, gates, lines;
    uint32_t input;
    uint8_t netlist[PILGODUR_FILE_MAX];
    size_t netlist_length;
    uint8_t rails[24];
    uint8_t holds[3 * 2 * PILGODUR_LINES_MAX]; /* of all lines, or of all pins */
    size_t holds_length;
    uint8_t hold[3];
    uint8_t drawing[DRAWING_MAX];
    size_t drawing_length;
    unsigned nodes;
    uint8_t rules[RULES_MAX];
    size_t rules_length;
    uint8_t *noted; /* one of these files with notes */
    size_t noted_length;
};

extern struct dice dice;
extern struct job job;

/* The board of the largest diagram with so many contacts, and of one drawn at random; no contact is spare. Nothing is held. */
void use_largest_board(unsigned contacts);
void use_random_board(unsigned contacts, unsigned outputs);

/* A board with an output that is the AND of all contacts: a line that shows at the last input alone. */
void use_shy_board(unsigned contacts);

/* A netlist of 12 contacts and 8 outputs with any sources; it has no table. Nothing is held. */
void use_random_netlist(unsigned gates);

/* Holds each line, and nothing else, with this chance in percent, at a random value. The same for the first one or two pins of each
 * gate. */
void hold_lines(unsigned percent);
void hold_pins(unsigned percent, unsigned pins);

/* Writes a hold. */
void set_hold(uint8_t hold[3], unsigned line, unsigned value);

/* A drawing of the largest diagram with so many contacts, redrawn with so many nodes if it has fewer, and of one drawn at random, with
 * a node for each of its own. */
void use_largest_drawing(unsigned contacts, unsigned nodes);
void use_random_drawing(unsigned contacts, unsigned outputs);

/* A drawing of 12 contacts and 200 nodes with eight functions in nearly every level, which differ only while all contacts but the last
 * three are closed. */
void use_late_drawing(void);

/* A drawing of so many contacts with constants as its outputs, eight at most, and no nodes. */
void use_empty_drawing(unsigned contacts, unsigned outputs);

/* A drawing of 12 contacts and 200 nodes that has nine functions in a level. */
void use_wide_drawing(unsigned level);

/* A rule sheet with a rule for every setting of six contacts from one on, and the words of the largest diagram with six contacts. The
 * other contacts are spare. */
void use_rules_on_six(unsigned contacts, unsigned first);

/* A rule sheet of 12 contacts and 64 rules with eight functions in nearly every level, as in the late drawing. */
void use_late_rules(void);

/* A rule sheet of one contact, one output and one rule. */
void use_one_rule(void);

/* Makes the last of the rules on six contacts share inputs with another, and leave half of its inputs out. */
void widen_last_rule(void);
void narrow_last_rule(void);

/* Makes `hold` that of a line which shows latest, and returns the input at which it does. */
uint32_t hold_latest_line(void);

/* Makes `hold` that of a hidden pin, which the board must have. */
void hold_hidden_pin(void);

/* Makes `noted` this file with notes before its first field, so many with so many bytes in each value. */
void note_file(const uint8_t *file, size_t length, unsigned notes, unsigned size);

#endif
