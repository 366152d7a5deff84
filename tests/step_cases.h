/* Cases of steps, for the comparison of the library with the reference. */
#ifndef STEP_CASES_H
#define STEP_CASES_H

#include "calls.h"

/* Steps of the selector whose answers were worked out by hand. */
void compare_known_steps(void);

/* For so many contacts: runs cut into calls in every way, each laid against one run with just the holds that counted; every question
 * with every other behind it; places and counts about their limits. */
void compare_steps(unsigned contacts);

/* Runs of the largest netlist, in one call and in some. */
void compare_largest_steps(void);

/* A place, most often one that a netlist of so many lines can be stepped from, and how many lines to work out at most. */
uint32_t draw_place(unsigned lines);
uint32_t draw_count(unsigned lines);

/* Makes the call's first buffer one of lines so far: bytes 0 and 1, and others among them. */
void lend_lines(struct call *call, size_t need, size_t length);

/* Prints how often there were steps of each kind and returns whether none was missed. */
bool print_steps(void);

#endif
