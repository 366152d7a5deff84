/* Drawings and rule sheets malformed in every way: questions 16 and 18. */
#ifndef MALFORMED_H
#define MALFORMED_H

#include "drawings.h"
#include "file.h"
#include "rulesheets.h"

/* The ways in which a drawing can be malformed. */
enum malformation {
    NO_BYTES, CUT_SHORT, BYTES_BEHIND, FIELD_TOO_MANY, FIELD_MISSING, FIELDS_EXCHANGED, WRONG_TAG, NO_CONTACTS, CONTACTS_ABOVE_12,
    CONTACTS_LENGTH, NO_OUTPUTS, OUTPUTS_ABOVE_8, OUTPUT_NOT_LISTED, PART_OF_A_NODE, NODES_ABOVE_200, LEVEL_NOT_BELOW_N,
    EDGE_NOT_LISTED, EDGE_TO_ITSELF, EDGE_WITHIN_LEVEL, EDGE_TO_LOWER_LEVEL, UNMENTIONED_NODE, MALFORMATIONS
};

/* The file of a good drawing, of 2 contacts or more for EDGE_TO_LOWER_LEVEL and of 198 nodes at most, malformed in this way. */
void malformed_drawing(struct dice *dice, enum malformation kind, const struct drawing *good, struct file *file);

/* The ways in which a rule sheet can be malformed: what ends it, fields that are missing, moved, doubled or of another tag, the lengths
 * of fields, and what stands in them. */
enum sheet_malformation {
    SHEET_NO_BYTES, SHEET_CUT_WITHIN_FIELD, SHEET_BYTES_BEHIND, SHEET_FIELD_PAST_END,
    SHEET_NO_TAG_1, SHEET_NO_TAG_8, SHEET_NO_RULE, SHEET_RULES_ALONE, SHEET_TAG_8_FIRST, SHEET_TAG_1_LATER, SHEET_TAG_8_LATER,
    SHEET_TAG_1_TWICE, SHEET_TAG_8_TWICE, SHEET_TAG_1_BETWEEN, SHEET_TAG_8_BETWEEN, SHEET_TAG_1_LAST, SHEET_TAG_8_LAST,
    SHEET_OTHER_TAG_1, SHEET_OTHER_TAG_8, SHEET_OTHER_TAG_9, SHEET_OTHER_FIELD,
    SHEET_TAG_1_OF_0, SHEET_TAG_1_OF_2, SHEET_TAG_8_OF_0, SHEET_TAG_8_OF_2,
    SHEET_RULE_OF_0, SHEET_RULE_BYTE_SHORT, SHEET_RULE_BYTE_LONG, SHEET_RULE_256_LONG,
    SHEET_CONTACTS_0, SHEET_CONTACTS_13, SHEET_CONTACTS_ABOVE_13, SHEET_OUTPUTS_0, SHEET_OUTPUTS_9, SHEET_OUTPUTS_ABOVE_9,
    SHEET_RULES_65, SHEET_RULES_ABOVE_65, SHEET_CONDITION_3, SHEET_CONDITION_255, SHEET_WORD_2_TO_M, SHEET_WORD_255,
    SHEET_MALFORMATIONS
};

/* Whether such a sheet can be malformed in this way: no word is too large for 8 outputs. */
bool can_be_malformed(enum sheet_malformation kind, const struct rules *good);

/* The file of a well-formed rule sheet, malformed in this way. */
void malformed_rules(struct dice *dice, enum sheet_malformation kind, const struct rules *good, struct file *file);

#endif
