/* Rule sheets: exact ones, in which every input fits just one rule, other sheets of the same words, and ones in which two rules share an
 * input or some input fits none. */
#ifndef RULESHEETS_H
#define RULESHEETS_H

#include "drawings.h"

enum { MOST_RULES = 64, RULES_MAX = 4 + 4 + MOST_RULES * (3 + 12 + 1), EITHER = 2 };

/* There is room for one contact more than there may be. */
struct rule {
    uint8_t fits[13]; /* for each contact the value 0 or 1, or EITHER */
    uint8_t word;
};

/* There is room for twice as many rules as there may be. */
struct rules {
    unsigned contacts, outputs, count;
    struct rule rule[2 * MOST_RULES];
};

/* The one rule that every input fits. */
void one_rule(unsigned contacts, unsigned outputs, unsigned word, struct rules *rules);

/* An exact sheet of so many rules, or of one for each input if these are fewer, in any sequence. All have the same word but for up to so
 * many `others`, which have any. With up to two others a level never has more than eight functions. */
void random_rules(struct dice *dice, unsigned contacts, unsigned outputs, unsigned count, unsigned others, struct rules *rules);

/* The exact sheet of a drawing's words: a rule for each way from its outputs to the constants. False if there are more than 64. */
bool rules_of(const struct drawing *drawing, struct rules *rules);

/* A diagram of the given size, whose table is accepted, and its sheet. */
void ruled_diagram(struct dice *dice, unsigned contacts, unsigned outputs, struct diagram *diagram, struct rules *rules);

/* The drawing of an exact sheet's words, without nodes that are alike. False if there are 200 or more. */
bool draw_rules(const struct rules *rules, struct drawing *drawing);

/* Splits rules by contacts that may have either value until there are so many, or one for each input. The words stay. */
void split_rules(struct dice *dice, unsigned count, struct rules *rules);

/* Puts the rules in any sequence. */
void shuffle_rules(struct dice *dice, struct rules *rules);

/* The ways to spoil an exact sheet: after those before RULE_LEFT_OUT two rules share an input, of the same word or of another, after
 * SHARED_AND_LEFT_OUT some input fits none besides; after the others no two share an input and some input fits none. */
enum sheet_fault {
    WIDENED_SAME_WORD, WIDENED_OTHER_WORD, DOUBLED_SAME_WORD, DOUBLED_OTHER_WORD, ONE_INPUT_SHARED, ALL_INPUTS_SHARED,
    SHARED_AND_LEFT_OUT, RULE_LEFT_OUT, RULE_NARROWED, ONE_INPUT_LEFT_OUT, SHEET_FAULTS
};

/* Spoils an exact sheet of 2 to 64 rules in this way. */
void spoil_rules(struct dice *dice, enum sheet_fault fault, struct rules *rules);

/* Writes the sheet, at most RULES_MAX bytes for up to 64 rules, and returns its length. */
size_t write_rules(const struct rules *rules, uint8_t *file);

bool fits_rule(const struct rules *rules, unsigned rule, uint32_t input);

/* Whether no contact parts two rules. */
bool share_input(const struct rules *rules, unsigned a, unsigned b);

/* How many inputs fit a rule. */
uint32_t inputs_of(const struct rules *rules, unsigned rule);

#endif
