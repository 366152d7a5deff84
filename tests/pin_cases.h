/* Cases of holds, those of pins above all, for the comparison of the library with the reference. */
#ifndef PIN_CASES_H
#define PIN_CASES_H

#include "holds.h"

/* The selector with lines and pins held, its answers worked out by hand; one gate with its line and its pins held in every way; every
 * list of one and two holds on a small netlist, and every hold in a probe of the selector. */
void compare_known_holds(void);

/* For so many contacts: hold lists of every kind in runs and probes, damaged in every way; probes of pins, all of them on small boards;
 * and a pin that is hidden, which a board of one contact does not have. */
void compare_holds(unsigned contacts);

/* Probes of a board's pins at both values: of all gates if that is little work, else of some. */
void probe_pins(const struct file *table, const struct file *netlist);

/* Notes what is held in a run that was not refused. */
void note_held(const struct file *holds);

/* Prints how often there were holds of each kind and returns whether none was missed. */
bool print_holds(void);

#endif
