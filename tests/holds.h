/* Hold lists: good ones, and ones damaged so that question 14 gets a no. */
#ifndef HOLDS_H
#define HOLDS_H

#include "file.h"
#include "tables.h"

/* Where a netlist can be held: at its lines from 2 up, so many in all, and at the pins of its gates, whose lines are the last ones. */
struct sites {
    unsigned first_gate, lines;
};

/* Those of a netlist that gets a yes to question 11. */
struct sites sites_of(const struct file *netlist);

void add_hold(struct file *holds, unsigned line, unsigned value);

/* Holds of lines and of pins, from none to all of either; ways 0 and 1 hold all at that value, 2 mixes. */
void random_holds(struct dice *dice, const struct sites *sites, unsigned way, struct file *holds);

/* One hold, of a line or a pin. */
void one_hold(struct dice *dice, const struct sites *sites, struct file *holds);

/* No hold, or two good ones. */
void not_one_hold(struct dice *dice, const struct sites *sites, struct file *holds);

/* The ways in which a hold list can be damaged. Those before LINE_TWICE make one hold bad, too. */
enum hold_damage {
    HOLDS_NOT_WHOLE, LINE_OF_CONSTANT, LINE_PAST_THE_LAST, PIN_OF_CONSTANT, PIN_OF_RAIL, PIN_PAST_THE_LAST, VALUE_ABOVE_5, LINE_TWICE,
    LINES_FALLING, LINE_AFTER_PIN, SECOND_PIN_FIRST, PIN_TWICE, PIN_AT_BOTH_VALUES, GATES_FALLING, HOLD_DAMAGES
};

/* Whether there are gates enough for a damage of this kind. */
bool can_damage_holds(enum hold_damage kind, const struct sites *sites);

/* Damages a good list in this way; but for that it stays good. */
void damage_holds(struct dice *dice, enum hold_damage kind, const struct sites *sites, struct file *holds);

/* The same in any way. */
void damage_holds_somehow(struct dice *dice, const struct sites *sites, struct file *holds);

/* Makes one bad hold, or bytes that are not whole. */
void damage_one_hold(struct dice *dice, enum hold_damage kind, const struct sites *sites, struct file *hold);

/* The holds that count in a run made in steps: those of the lines that the call with their list works out, and of pins of these gates. */
struct counted {
    struct file lines, pins;
};

/* Adds those of a list whose call works out the lines from one to before another. */
void add_counted(struct counted *counted, const struct file *holds, unsigned from, unsigned to);

/* All of them as one list. */
void list_counted(const struct counted *counted, struct file *holds);

#endif
