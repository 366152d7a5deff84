#include "rulesheets.h"

#include <string.h>

enum { TRIES = 20 };

/* ---- Which inputs fit. ---- */

bool fits_rule(const struct rules *rules, unsigned rule, uint32_t input)
{
    const uint8_t *fits = rules->rule[rule].fits;
    for (unsigned i = 0; i < rules->contacts; i++)
        if (fits[i] != EITHER && fits[i] != (input >> i & 1))
            return false;
    return true;
}

bool share_input(const struct rules *rules, unsigned a, unsigned b)
{
    for (unsigned i = 0; i < rules->contacts; i++)
        if (rules->rule[a].fits[i] + rules->rule[b].fits[i] == 1)
            return false;
    return true;
}

uint32_t inputs_of(const struct rules *rules, unsigned rule)
{
    uint32_t inputs = 1;
    for (unsigned i = 0; i < rules->contacts; i++)
        inputs <<= rules->rule[rule].fits[i] == EITHER;
    return inputs;
}

/* ---- Exact sheets. ---- */

/* Some contact for which a rule has EITHER, or for which it has a value; the count of contacts if there is none. */
static unsigned some_contact(struct dice *dice, const struct rules *rules, unsigned rule, bool either)
{
    unsigned n = rules->contacts, first = roll(dice, n);
    for (unsigned i = first; i < first + n; i++)
        if ((rules->rule[rule].fits[i % n] == EITHER) == either)
            return i % n;
    return n;
}

/* Some rule that more than one input fits; the count of rules if there is none. */
static unsigned some_wide_rule(struct dice *dice, const struct rules *rules)
{
    unsigned count = rules->count, first = roll(dice, count);
    for (unsigned r = first; r < first + count; r++)
        if (inputs_of(rules, r % count) > 1)
            return r % count;
    return count;
}

/* Parts a rule by a contact that has EITHER: it keeps this value, and a new rule gets the other one. */
static void part_rule(struct rules *rules, unsigned rule, unsigned contact, unsigned value)
{
    struct rule *added = &rules->rule[rules->count++];
    *added = rules->rule[rule];
    rules->rule[rule].fits[contact] = (uint8_t)value;
    added->fits[contact] = (uint8_t)(1 - value);
}

void split_rules(struct dice *dice, unsigned count, struct rules *rules)
{
    while (rules->count < count) {
        unsigned rule = some_wide_rule(dice, rules);
        if (rule == rules->count)
            return;
        part_rule(rules, rule, some_contact(dice, rules, rule, true), roll(dice, 2));
    }
}

void shuffle_rules(struct dice *dice, struct rules *rules)
{
    for (unsigned i = rules->count; i > 1; i--) {
        unsigned k = roll(dice, i);
        struct rule swapped = rules->rule[i - 1];
        rules->rule[i - 1] = rules->rule[k];
        rules->rule[k] = swapped;
    }
}

static void set_words(struct dice *dice, unsigned others, struct rules *rules)
{
    unsigned words = 1u << rules->outputs;
    uint8_t word = (uint8_t)roll(dice, words);
    for (unsigned r = 0; r < rules->count; r++)
        rules->rule[r].word = word;
    for (unsigned i = 0; i < others; i++)
        rules->rule[roll(dice, rules->count)].word = (uint8_t)roll(dice, words);
}

void one_rule(unsigned contacts, unsigned outputs, unsigned word, struct rules *rules)
{
    memset(rules, 0, sizeof *rules);
    rules->contacts = contacts;
    rules->outputs = outputs;
    rules->count = 1;
    rules->rule[0].word = (uint8_t)word;
    memset(rules->rule[0].fits, EITHER, sizeof rules->rule[0].fits);
}

void random_rules(struct dice *dice, unsigned contacts, unsigned outputs, unsigned count, unsigned others, struct rules *rules)
{
    one_rule(contacts, outputs, 0, rules);
    split_rules(dice, count, rules);
    set_words(dice, others, rules);
    shuffle_rules(dice, rules);
}

/* ---- Sheets of drawings, and drawings of sheets. ---- */

/* Where a number leads by the contact of a level. */
static uint8_t follow(const struct drawing *d, uint8_t number, unsigned level, unsigned value)
{
    return number > 1 && d->node[number - 2].level == level ? d->node[number - 2].edge[value] : number;
}

/* Adds the rules that begin as this one does, for contacts before a level, behind which the outputs have these numbers. */
static bool add_rules(const struct drawing *d, unsigned level, const uint8_t *number, struct rule *rule, struct rules *rules)
{
    uint8_t next[2][8];
    if (level == d->contacts) {
        rule->word = 0;
        for (unsigned j = 0; j < d->outputs; j++)
            rule->word |= (uint8_t)(number[j] << j);
        if (rules->count < MOST_RULES)
            rules->rule[rules->count] = *rule;
        return rules->count++ < MOST_RULES;
    }
    for (unsigned j = 0; j < d->outputs; j++)
        for (unsigned value = 0; value < 2; value++)
            next[value][j] = follow(d, number[j], level, value);
    rule->fits[level] = EITHER;
    if (memcmp(next[0], next[1], d->outputs) == 0)
        return add_rules(d, level + 1, next[0], rule, rules);
    rule->fits[level] = 0;
    if (!add_rules(d, level + 1, next[0], rule, rules))
        return false;
    rule->fits[level] = 1;
    return add_rules(d, level + 1, next[1], rule, rules);
}

bool rules_of(const struct drawing *drawing, struct rules *rules)
{
    struct rule rule;
    one_rule(drawing->contacts, drawing->outputs, 0, rules);
    rule = rules->rule[0];
    rules->count = 0;
    return add_rules(drawing, 0, drawing->output, &rule, rules);
}

/* Six contacts that are not spare have 64 inputs. */
void ruled_diagram(struct dice *dice, unsigned contacts, unsigned outputs, struct diagram *diagram, struct rules *rules)
{
    struct drawing drawing;
    for (unsigned i = 0; i < TRIES; i++) {
        random_diagram(dice, contacts, outputs, diagram);
        drawing_of(diagram, &drawing);
        if (rules_of(&drawing, rules))
            return;
    }
    busy_diagram(dice, 1 + roll(dice, contacts < 6 ? contacts : 6), outputs, diagram);
    while (diagram->contacts < contacts)
        insert_spare_contact(diagram, roll(dice, diagram->contacts + 1));
    drawing_of(diagram, &drawing);
    rules_of(&drawing, rules);
}

/* The number of a node of this level with these edges, which is made if it is not there; 0 if there is no room for it. */
static unsigned number_of(struct drawing *d, unsigned level, unsigned zero, unsigned one)
{
    if (zero == one)
        return zero;
    for (unsigned i = 0; i < d->nodes; i++)
        if (d->node[i].level == level && d->node[i].edge[0] == zero && d->node[i].edge[1] == one)
            return 2 + i;
    return d->nodes < MOST_NODES ? add_node(d, level, zero, one) : 0;
}

/* Draws the function of an output that is left with the contacts before a level set as in an input, in which the others are 0. */
static unsigned draw_left(const uint8_t *word, unsigned output, unsigned level, uint32_t input, struct drawing *d)
{
    if (level == d->contacts)
        return word[input] >> output & 1;
    unsigned zero = draw_left(word, output, level + 1, input, d);
    unsigned one = draw_left(word, output, level + 1, input | 1u << level, d);
    return number_of(d, level, zero, one);
}

/* A drawing that has all 200 nodes may lack some. */
bool draw_rules(const struct rules *rules, struct drawing *drawing)
{
    static uint8_t word[4096];
    memset(drawing, 0, sizeof *drawing);
    drawing->contacts = rules->contacts;
    drawing->outputs = rules->outputs;
    for (uint32_t input = 0; input < 1u << rules->contacts; input++) {
        unsigned r = 0;
        while (!fits_rule(rules, r, input))
            r++;
        word[input] = rules->rule[r].word;
    }
    for (unsigned j = 0; j < rules->outputs; j++)
        drawing->output[j] = (uint8_t)draw_left(word, j, 0, 0, drawing);
    return drawing->nodes < MOST_NODES;
}

/* ---- Spoilt sheets. ---- */

/* Often the first or the last. */
static uint32_t some_input(struct dice *dice, const struct rules *rules)
{
    uint32_t inputs = 1u << rules->contacts;
    return chance(dice, 30) ? 0 : chance(dice, 40) ? inputs - 1 : roll(dice, inputs);
}

/* Adds a rule; in a sheet of 64 it stands in the place of one that is not `kept`. */
static void put_rule(struct dice *dice, struct rules *rules, const struct rule *added, unsigned kept)
{
    unsigned place = rules->count < MOST_RULES ? rules->count++ : (kept + 1 + roll(dice, MOST_RULES - 1)) % MOST_RULES;
    rules->rule[place] = *added;
}

/* A rule no longer heeds some contact; those with which it then shares inputs get its word or another. */
static void widen_rule(struct dice *dice, bool same, struct rules *rules)
{
    unsigned wide = roll(dice, rules->count);
    rules->rule[wide].fits[some_contact(dice, rules, wide, false)] = EITHER;
    for (unsigned r = 0; r < rules->count; r++)
        if (r != wide && share_input(rules, r, wide))
            rules->rule[r].word = rules->rule[wide].word ^ !same;
}

static void double_rule(struct dice *dice, bool same, struct rules *rules)
{
    unsigned r = roll(dice, rules->count);
    struct rule again = rules->rule[r];
    again.word ^= !same;
    put_rule(dice, rules, &again, r);
}

/* One more rule, that one input or every input fits. */
static void share_inputs(struct dice *dice, bool all, struct rules *rules)
{
    uint32_t input = some_input(dice, rules);
    struct rule more = rules->rule[0];
    for (unsigned i = 0; i < rules->contacts; i++)
        more.fits[i] = all ? EITHER : input >> i & 1;
    unsigned r = 0;
    while (!fits_rule(rules, r, input))
        r++;
    put_rule(dice, rules, &more, r);
}

static void drop_rule(struct dice *dice, struct rules *rules)
{
    rules->rule[roll(dice, rules->count)] = rules->rule[rules->count - 1];
    rules->count--;
}

/* A rule gets a value for some contact; if no rule has EITHER one is left out. */
static void narrow_rule(struct dice *dice, struct rules *rules)
{
    unsigned rule = some_wide_rule(dice, rules);
    if (rule == rules->count)
        drop_rule(dice, rules);
    else
        rules->rule[rule].fits[some_contact(dice, rules, rule, true)] = (uint8_t)roll(dice, 2);
}

/* Other rules, about as many: every input fits one, but for some one input. */
static void leave_input_out(struct dice *dice, struct rules *rules)
{
    unsigned count = rules->count, contact;
    uint32_t input = some_input(dice, rules);
    one_rule(rules->contacts, rules->outputs, 0, rules);
    while ((contact = some_contact(dice, rules, 0, true)) < rules->contacts)
        part_rule(rules, 0, contact, input >> contact & 1);
    rules->rule[0] = rules->rule[--rules->count];
    split_rules(dice, count, rules);
    set_words(dice, roll(dice, 4), rules);
}

void spoil_rules(struct dice *dice, enum sheet_fault fault, struct rules *rules)
{
    if (fault == WIDENED_SAME_WORD || fault == WIDENED_OTHER_WORD)
        widen_rule(dice, fault == WIDENED_SAME_WORD, rules);
    else if (fault == ONE_INPUT_SHARED || fault == ALL_INPUTS_SHARED)
        share_inputs(dice, fault == ALL_INPUTS_SHARED, rules);
    else if (fault == RULE_NARROWED)
        narrow_rule(dice, rules);
    else if (fault == ONE_INPUT_LEFT_OUT)
        leave_input_out(dice, rules);
    if (fault == SHARED_AND_LEFT_OUT || fault == RULE_LEFT_OUT)
        drop_rule(dice, rules);
    if (fault == SHARED_AND_LEFT_OUT || fault == DOUBLED_SAME_WORD || fault == DOUBLED_OTHER_WORD)
        double_rule(dice, fault != DOUBLED_OTHER_WORD, rules);
    shuffle_rules(dice, rules);
}

/* ---- Files. ---- */

size_t write_rules(const struct rules *rules, uint8_t *file)
{
    uint8_t *at = file;
    memcpy(at, (uint8_t[]){1, 0, 1, (uint8_t)rules->contacts, 8, 0, 1, (uint8_t)rules->outputs}, 8);
    at += 8;
    for (unsigned r = 0; r < rules->count; r++) {
        memcpy(at, (uint8_t[]){9, 0, (uint8_t)(rules->contacts + 1)}, 3);
        memcpy(at + 3, rules->rule[r].fits, rules->contacts);
        at += 3 + rules->contacts;
        *at++ = rules->rule[r].word;
    }
    return (size_t)(at - file);
}
