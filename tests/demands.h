/* The demands, asked of boards that the library builds and of tables that it makes from drawings and rule sheets, with no other
 * implementation beside it. */
#ifndef DEMANDS_H
#define DEMANDS_H

#include <stdarg.h>

#include "rulesheets.h"

struct demands {
    unsigned long boards, sheets, inputs, hold_sets, mixed_sets, probes, pin_probes, unread, hidden, drawings, too_wide, failures;
    unsigned long stepped, step_calls, step_holds, held_in_time;
    unsigned long lamp_runs, lamp_codes, lamp_one_way, lamp_no_codes, lamp_seen;
    unsigned long rule_sheets, shared, unruled, rules_too_wide;
};

/* Builds the board of an accepted diagram and checks
 *   its netlist: gates and depth as reported and within the formulas, never the netlist of another table seen before;
 *   what is read in it: every gate, and of a contact both rails or, exactly if no output's value depends on it, neither;
 *   its sheet: read back, with the count of contacts, it is the netlist;
 *   its permits: at every code input each pair shows the table's value and its opposite;
 *   random sets of lines and pins held all at 0 or all at 1: no pair shows the wrong code;
 *   runs in steps, such a set held in each call: the lines and pairs in the end are those of one run with just the holds that counted;
 *   its lamp: six gates a join after the board's own, at most 2 * ceil(log2(outputs)) more depth; with lines and pins of the plain
 *   board held in any way, at any rails, a code exactly if every pair is; with lines and pins held all one way, its own too, at code
 *   inputs, its code or 00 for holds at 0 or 11 for holds at 1;
 *   on small boards every line and pin held at 0 and at 1: probe finds the smallest input that shows it, or refuses a line that
 *   nothing reads, or says that a pin is hidden, and no input shows these; only the first pin of an AND, at 1, is hidden; where probe
 *   sees a line or pin the lamp shows it, too.
 * Large boards are run at some inputs only, but for every eighth of them. */
void check_board(struct dice *dice, const struct diagram *diagram, struct demands *demands);

/* Makes the table of a well-formed drawing and checks
 *   that question 17 refuses it exactly if truth tables show more than eight functions in a level;
 *   that check accepts the table, with the drawing's contacts and outputs;
 *   that read-off gives the drawing's word at every input, or for many contacts at some;
 *   that another drawing of the same functions has the same table and the same netlist. */
void check_drawing(struct dice *dice, const struct drawing *drawing, struct demands *demands);

/* Makes the table of a well-formed rule sheet and checks
 *   that question 19 refuses it exactly if no contact parts some two rules, and 20 exactly if it does not and the inputs of all
 *   rules are together fewer than there are;
 *   that question 17 then refuses it exactly if truth tables show more than eight functions in a level;
 *   that the same rules in another sequence have the same answer, and so has a sheet with some of them split in two;
 *   that a drawing of the same functions has the same answer;
 *   that check accepts the table, with the sheet's contacts and outputs;
 *   that at every input, or for many contacts at some, just one rule fits and read-off gives its word. */
void check_rules(struct dice *dice, const struct rules *rules, struct demands *demands);

/* Prints what was checked, and returns whether there was all that there can be. */
bool print_demands(const struct demands *demands);

/* Says which demand is not met, and by which file of this kind, and counts it. */
void report_demand(struct demands *demands, const char *what, va_list args, const char *kind, const uint8_t *file, size_t length);

#endif
