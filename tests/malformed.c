#include "malformed.h"

#include <string.h>

#include "edits.h"

/* ---- Drawings. ---- */

/* The node's edges lead to constants, but for one that is wrong, or its level is. */
static void spoil_node(struct dice *dice, enum malformation kind, struct drawing *d, unsigned node)
{
    unsigned level = d->node[node].level, wrong = roll(dice, 2);
    if (kind == LEVEL_NOT_BELOW_N)
        d->node[node].level = (uint8_t)at_least(dice, d->contacts);
    else if (kind == EDGE_NOT_LISTED)
        wrong = at_least(dice, 2 + d->nodes);
    else if (kind == EDGE_TO_ITSELF)
        wrong = 2 + node;
    else
        wrong = add_node(d, kind == EDGE_WITHIN_LEVEL ? level : roll(dice, level), roll(dice, 2), roll(dice, 2));
    uint8_t *edge = d->node[node].edge;
    edge[0] = edge[1] = (uint8_t)roll(dice, 2);
    edge[roll(dice, 2)] = (uint8_t)wrong;
}

/* Spoils a node that nothing mentions, if that is the kind, and else one that is an output. */
static void spoil_some_node(struct dice *dice, enum malformation kind, struct drawing *d)
{
    if (d->nodes == 0)
        add_node(d, roll(dice, d->contacts), 0, 1);
    unsigned node = roll(dice, d->nodes);
    if (kind == EDGE_TO_LOWER_LEVEL && d->node[node].level == 0)
        node = add_node(d, 1, 0, 1) - 2;
    if (kind == UNMENTIONED_NODE) {
        replace_mentions(d, 2 + node, roll(dice, 2));
        kind = (enum malformation)(LEVEL_NOT_BELOW_N + roll(dice, EDGE_TO_LOWER_LEVEL - LEVEL_NOT_BELOW_N));
    } else {
        d->output[roll(dice, d->outputs)] = (uint8_t)(2 + node);
    }
    spoil_node(dice, kind, d, node);
}

/* Fields too many, too few, in another sequence or with another tag. */
static void spoil_drawing_fields(struct dice *dice, enum malformation kind, struct file *file)
{
    size_t at = field_place(file, roll(dice, 3));
    if (kind == FIELD_TOO_MANY)
        add_field(dice, file, chance(dice, 50) ? at : file->length);
    else if (kind == FIELD_MISSING)
        erase_field(file, at);
    else if (kind == FIELDS_EXCHANGED)
        move_field(file, field_place(file, 1), 2);
    else
        set_other_tag(dice, file, at);
}

/* The counts of contacts, outputs and nodes. What is added would be good if there were fewer: outputs that are constants, nodes of
 * level 0 that lead to constants. */
static void spoil_drawing_counts(struct dice *dice, enum malformation kind, struct file *file)
{
    size_t outputs = 4, nodes = field_place(file, 2), old = field_length(file, nodes);
    if (kind == NO_CONTACTS) {
        file->bytes[3] = 0;
    } else if (kind == CONTACTS_ABOVE_12) {
        file->bytes[3] = (uint8_t)at_least(dice, 13);
    } else if (kind == CONTACTS_LENGTH) {
        resize_field(dice, file, 0, chance(dice, 50) ? 0 : 2 + roll(dice, 3));
    } else if (kind == NO_OUTPUTS) {
        resize_field(dice, file, outputs, 0);
    } else if (kind == OUTPUTS_ABOVE_8) {
        resize_field(dice, file, outputs, at_least(dice, 9));
        memset(file->bytes + outputs + 3, roll(dice, 2) != 0, field_length(file, outputs));
    } else if (kind == PART_OF_A_NODE) {
        resize_field(dice, file, nodes, old + 1 + roll(dice, 2));
    } else {
        resize_field(dice, file, nodes, 3 * (size_t)at_least(dice, MOST_NODES + 1));
        memset(file->bytes + nodes + 3 + old, 0, field_length(file, nodes) - old);
    }
}

static void spoil_drawing(struct dice *dice, enum malformation kind, struct file *file)
{
    size_t nodes = field_place(file, 2);
    if (kind == NO_BYTES)
        file->length = 0;
    else if (kind == CUT_SHORT)
        file->length = 1 + roll(dice, (uint32_t)file->length - 1);
    else if (kind == BYTES_BEHIND)
        insert(dice, file, file->length, 1 + roll(dice, 2));
    else if (kind == OUTPUT_NOT_LISTED)
        file->bytes[7 + roll(dice, (uint32_t)nodes - 7)] = (uint8_t)at_least(dice, 2 + (unsigned)field_length(file, nodes) / 3);
    else if (kind < NO_CONTACTS)
        spoil_drawing_fields(dice, kind, file);
    else
        spoil_drawing_counts(dice, kind, file);
}

void malformed_drawing(struct dice *dice, enum malformation kind, const struct drawing *good, struct file *file)
{
    struct drawing d = *good;
    if (kind >= LEVEL_NOT_BELOW_N)
        spoil_some_node(dice, kind, &d);
    file->length = write_drawing(&d, file->bytes);
    if (kind < LEVEL_NOT_BELOW_N)
        spoil_drawing(dice, kind, file);
}

/* ---- Rule sheets. Tag 1 has the first four bytes, tag 8 the next four. ---- */

enum { TAG_8_PLACE = 4, RULES_PLACE = 8 };

bool can_be_malformed(enum sheet_malformation kind, const struct rules *good)
{
    return good->outputs < 8 || (kind != SHEET_WORD_2_TO_M && kind != SHEET_WORD_255);
}

/* Too many rules: split ones, or where there are not so many inputs doubled ones. */
static void add_rules(struct dice *dice, unsigned count, struct rules *rules)
{
    split_rules(dice, count, rules);
    for (; rules->count < count; rules->count++)
        rules->rule[rules->count] = rules->rule[roll(dice, rules->count)];
}

/* A value that is wrong where the others are good by it: words of no outputs are 0. */
static void spoil_sheet_values(struct dice *dice, enum sheet_malformation kind, struct rules *rules)
{
    struct rule *rule = &rules->rule[roll(dice, rules->count)];
    uint8_t *condition = &rule->fits[roll(dice, rules->contacts)];
    switch (kind) {
    case SHEET_CONTACTS_0: rules->contacts = 0; break;
    case SHEET_CONTACTS_13: rules->contacts = 13; break;
    case SHEET_OUTPUTS_9: rules->outputs = 9; break;
    case SHEET_OUTPUTS_ABOVE_9: rules->outputs = at_least(dice, 10); break;
    case SHEET_RULES_65: add_rules(dice, MOST_RULES + 1, rules); break;
    case SHEET_RULES_ABOVE_65: add_rules(dice, MOST_RULES + 2 + roll(dice, MOST_RULES - 1), rules); break;
    case SHEET_CONDITION_3: *condition = 3; break;
    case SHEET_CONDITION_255: *condition = 255; break;
    case SHEET_WORD_2_TO_M: rule->word = (uint8_t)(1u << rules->outputs); break;
    case SHEET_WORD_255: rule->word = 255; break;
    case SHEET_OUTPUTS_0:
        rules->outputs = 0;
        for (unsigned r = 0; r < rules->count; r++)
            rules->rule[r].word = 0;
        break;
    default: break;
    }
}

static void spoil_sheet_end(struct dice *dice, enum sheet_malformation kind, unsigned rules, struct file *file)
{
    size_t some = field_place(file, roll(dice, 2 + rules)), last = field_place(file, 1 + rules);
    switch (kind) {
    case SHEET_NO_BYTES: file->length = 0; break;
    case SHEET_CUT_WITHIN_FIELD: file->length = some + 1 + roll(dice, 2 + (uint32_t)field_length(file, some)); break;
    case SHEET_BYTES_BEHIND: insert(dice, file, file->length, 1 + roll(dice, 2)); break;
    case SHEET_FIELD_PAST_END: set_two_bytes(file->bytes + last + 1, (unsigned)field_length(file, last) + at_least(dice, 1)); break;
    default: break;
    }
}

/* Puts a field of four bytes once more, before the field with this number. */
static void copy_field(struct dice *dice, size_t from, unsigned to, struct file *file)
{
    uint8_t copy[4];
    size_t at = field_place(file, to);
    memcpy(copy, file->bytes + from, 4);
    insert(dice, file, at, 4);
    memcpy(file->bytes + at, copy, 4);
}

static void spoil_sheet_sequence(struct dice *dice, enum sheet_malformation kind, unsigned rules, struct file *file)
{
    unsigned before_rule = 2 + roll(dice, rules);
    switch (kind) {
    case SHEET_NO_TAG_1: erase_field(file, 0); break;
    case SHEET_NO_TAG_8: erase_field(file, TAG_8_PLACE); break;
    case SHEET_NO_RULE: file->length = RULES_PLACE; break;
    case SHEET_RULES_ALONE: erase(file, 0, RULES_PLACE); break;
    case SHEET_TAG_8_FIRST: move_field(file, TAG_8_PLACE, 0); break;
    case SHEET_TAG_1_LATER: move_field(file, 0, before_rule); break;
    case SHEET_TAG_8_LATER: move_field(file, TAG_8_PLACE, before_rule); break;
    case SHEET_TAG_1_TWICE: copy_field(dice, 0, 1, file); break;
    case SHEET_TAG_8_TWICE: copy_field(dice, TAG_8_PLACE, 2, file); break;
    case SHEET_TAG_1_BETWEEN: copy_field(dice, 0, before_rule, file); break;
    case SHEET_TAG_8_BETWEEN: copy_field(dice, TAG_8_PLACE, before_rule, file); break;
    case SHEET_TAG_1_LAST: copy_field(dice, 0, 2 + rules, file); break;
    case SHEET_TAG_8_LAST: copy_field(dice, TAG_8_PLACE, 2 + rules, file); break;
    default: break;
    }
}

static void spoil_sheet_tags(struct dice *dice, enum sheet_malformation kind, unsigned rules, struct file *file)
{
    unsigned tag = roll(dice, chance(dice, 60) ? 9 : NOTE_TAG);
    switch (kind) {
    case SHEET_OTHER_TAG_1: set_other_tag(dice, file, 0); break;
    case SHEET_OTHER_TAG_8: set_other_tag(dice, file, TAG_8_PLACE); break;
    case SHEET_OTHER_TAG_9: set_other_tag(dice, file, field_place(file, 2 + roll(dice, rules))); break;
    case SHEET_OTHER_FIELD: put_field(dice, tag == 9 ? 0 : tag, roll(dice, 3 + rules), file); break;
    default: break;
    }
}

/* A rule's length, and the count of contacts to which no rule's length is fitted. */
static void spoil_sheet_lengths(struct dice *dice, enum sheet_malformation kind, unsigned rules, struct file *file)
{
    size_t rule = field_place(file, 2 + roll(dice, rules)), length = field_length(file, rule);
    switch (kind) {
    case SHEET_TAG_1_OF_0: resize_field(dice, file, 0, 0); break;
    case SHEET_TAG_1_OF_2: resize_field(dice, file, 0, 2); break;
    case SHEET_TAG_8_OF_0: resize_field(dice, file, TAG_8_PLACE, 0); break;
    case SHEET_TAG_8_OF_2: resize_field(dice, file, TAG_8_PLACE, 2); break;
    case SHEET_RULE_OF_0: resize_field(dice, file, rule, 0); break;
    case SHEET_RULE_BYTE_SHORT: resize_field(dice, file, rule, length - 1); break;
    case SHEET_RULE_BYTE_LONG:
        resize_field(dice, file, rule, length + 1);
        file->bytes[rule + 3 + length] = (uint8_t)roll(dice, 2);
        break;
    case SHEET_RULE_256_LONG: resize_field(dice, file, rule, length + 256); break;
    case SHEET_CONTACTS_ABOVE_13: file->bytes[3] = (uint8_t)at_least(dice, 14); break;
    default: break;
    }
}

/* Each part spoils a sheet only if the kind is one of its own. */
void malformed_rules(struct dice *dice, enum sheet_malformation kind, const struct rules *good, struct file *file)
{
    struct rules rules = *good;
    spoil_sheet_values(dice, kind, &rules);
    file->length = write_rules(&rules, file->bytes);
    spoil_sheet_lengths(dice, kind, good->count, file);
    spoil_sheet_tags(dice, kind, good->count, file);
    spoil_sheet_sequence(dice, kind, good->count, file);
    spoil_sheet_end(dice, kind, good->count, file);
}
