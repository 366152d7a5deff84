/* Cases of rule sheets, for the comparison of the library with the reference. */
#ifndef RULE_CASES_H
#define RULE_CASES_H

#include <stdbool.h>

/* Sheets whose tables or refusals were worked out by hand, every sheet of a few rules for one and two contacts, every value of each byte
 * of a small sheet, and sheets of 64 rules of which one stands there twice. */
void compare_known_rules(void);

/* For so many contacts: one rule alone, sheets of up to 64 rules, also with just so many functions in each level, sheets malformed in
 * every way, and sheets in which two rules share an input or some input fits none. */
void compare_rules(unsigned contacts);

/* The same with notes of every kind in every place, and with notes that are cut short. */
void compare_rule_notes(unsigned contacts);

/* A sheet of any kind. */
void rules_case(void);

/* Prints how often there was a sheet of each kind and returns whether none was missed. */
bool print_rules(void);

#endif
