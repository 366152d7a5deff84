#include "jobs.h"

#include <stdlib.h>
#include <string.h>

struct dice dice = {1};
struct job job;

static uint8_t *put_two(uint8_t *at, unsigned number)
{
    at[0] = (uint8_t)(number / 256);
    at[1] = (uint8_t)number;
    return at + 2;
}

static void set_rails(unsigned contacts, uint32_t input)
{
    job.input = input;
    for (unsigned i = 0; i < contacts; i++) {
        job.rails[2 * i] = input >> i & 1;
        job.rails[2 * i + 1] = !(input >> i & 1);
    }
}

static void use_diagram(const struct diagram *diagram)
{
    job.table_length = table_of(diagram, job.table);
    job.contacts = diagram->contacts;
    job.netlist_length = pilgodur_build(job.table, job.table_length, job.netlist, sizeof job.netlist).length;
    job.gates = pilgodur_check(job.table, job.table_length).gates;
    job.lines = 2 + 2 * job.contacts + job.gates;
    job.holds_length = 0;
    set_rails(job.contacts, 0x5a5 & ((1u << job.contacts) - 1));
}

void use_largest_board(unsigned contacts)
{
    struct diagram d;
    largest_diagram(&dice, contacts, &d);
    use_diagram(&d);
}

void use_random_board(unsigned contacts, unsigned outputs)
{
    struct diagram d;
    busy_diagram(&dice, contacts, outputs, &d);
    use_diagram(&d);
}

/* Makes the first output the AND of all contacts: its true line held at 0 shows at the last input alone. */
static void make_shy(struct diagram *d)
{
    for (unsigned level = 0; level < d->contacts; level++) {
        bool last = level + 1 == d->contacts;
        d->edge[level][0][0] = last ? 0 : 1;
        d->edge[level][0][1] = last ? 1 : 0;
        d->edge[level][1][0] = d->edge[level][1][1] = last ? 0 : 1;
    }
    d->output[0] = 0;
    make_canonical(d);
}

/* Takes the one with the most gates out of many such diagrams. */
void use_shy_board(unsigned contacts)
{
    struct diagram d, best;
    unsigned most = 0;
    for (unsigned i = 0; i < 100; i++) {
        widest_diagram(&dice, contacts, &d);
        make_shy(&d);
        use_diagram(&d);
        if (i == 0 || job.gates > most) {
            best = d;
            most = job.gates;
        }
    }
    use_diagram(&best);
}

void use_random_netlist(unsigned gates)
{
    uint8_t *at = job.netlist;
    unsigned line = 26;
    memcpy(at, (uint8_t[]){1, 0, 1, 12, 4}, 5);
    at = put_two(at + 5, 5 * gates);
    for (; line < 26 + gates; line++) {
        *at++ = (uint8_t)roll(&dice, 2);
        at = put_two(put_two(at, roll(&dice, line)), roll(&dice, line));
    }
    *at++ = 5;
    at = put_two(at, 32);
    for (unsigned k = 0; k < 16; k++)
        at = put_two(at, roll(&dice, line));
    job.netlist_length = (size_t)(at - job.netlist);
    job.contacts = 12;
    job.gates = gates;
    job.lines = line;
    job.holds_length = 0;
    set_rails(12, 0x5a5);
}

void hold_lines(unsigned percent)
{
    uint8_t *at = job.holds;
    for (unsigned line = 2; line < job.lines; line++)
        if (chance(&dice, percent)) {
            set_hold(at, line, roll(&dice, 2));
            at += 3;
        }
    job.holds_length = (size_t)(at - job.holds);
}

/* Dice of their own, so that the other files are what they are without holds of pins. */
static struct dice pin_dice = {1};

void hold_pins(unsigned percent, unsigned pins)
{
    uint8_t *at = job.holds;
    for (unsigned line = job.lines - job.gates; line < job.lines; line++)
        for (unsigned pin = 0; pin < pins; pin++)
            if (chance(&pin_dice, percent)) {
                set_hold(at, line, 2 + 2 * pin + roll(&pin_dice, 2));
                at += 3;
            }
    job.holds_length = (size_t)(at - job.holds);
}

void set_hold(uint8_t hold[3], unsigned line, unsigned value)
{
    *put_two(hold, line) = (uint8_t)value;
}

static pilgodur_probed probe(void)
{
    static uint8_t buffer[BUFFER];
    return pilgodur_probe(job.table, job.table_length, job.hold, 3, buffer, BUFFER);
}

uint32_t hold_latest_line(void)
{
    uint32_t latest = 0;
    uint8_t found[3] = {0, 2, 0};
    for (unsigned line = 2; line < job.lines; line++)
        for (unsigned value = 0; value < 2; value++) {
            set_hold(job.hold, line, value);
            uint32_t input = probe().input;
            if (input > latest) {
                latest = input;
                memcpy(found, job.hold, 3);
            }
        }
    memcpy(job.hold, found, 3);
    return latest;
}

/* Tries the first pins of the ANDs, held at 1. */
void hold_hidden_pin(void)
{
    const uint8_t *kind = job.netlist + 7;
    for (unsigned line = job.lines - job.gates; line < job.lines; line++, kind += 5) {
        set_hold(job.hold, line, 3);
        if (*kind == 0 && probe().way == PILGODUR_WAY_HIDDEN)
            return;
    }
    abort();
}

static void use_drawing(const struct drawing *d)
{
    job.contacts = d->contacts;
    job.nodes = d->nodes;
    job.drawing_length = write_drawing(d, job.drawing);
}

void use_largest_drawing(unsigned contacts, unsigned nodes)
{
    struct diagram diagram;
    struct drawing d;
    largest_diagram(&dice, contacts, &diagram);
    drawing_of(&diagram, &d);
    redraw(&dice, nodes, &d);
    use_drawing(&d);
}

void use_random_drawing(unsigned contacts, unsigned outputs)
{
    struct diagram diagram;
    struct drawing d;
    busy_diagram(&dice, contacts, outputs, &diagram);
    drawing_of(&diagram, &d);
    use_drawing(&d);
}

/* Seven functions of the last three contacts, each under an AND of all others, and the constant false. */
void use_late_drawing(void)
{
    static const unsigned values[7] = {0x01, 0x02, 0x04, 0x08, 0x10, 0x20, 0x40};
    struct drawing d = {.contacts = 12, .outputs = 8};
    for (unsigned j = 0; j < 7; j++) {
        unsigned number[8];
        for (unsigned i = 0; i < 8; i++)
            number[i] = values[j] >> i & 1;
        for (unsigned level = 11, count = 8; count > 1; level--, count /= 2)
            for (unsigned i = 0; i < count / 2; i++)
                number[i] = add_node(&d, level, number[2 * i], number[2 * i + 1]);
        for (unsigned level = 9; level-- > 0;)
            number[0] = add_node(&d, level, 0, number[0]);
        d.output[j] = (uint8_t)number[0];
    }
    redraw(&dice, MOST_NODES, &d);
    use_drawing(&d);
}

void use_empty_drawing(unsigned contacts, unsigned outputs)
{
    struct drawing d = {.contacts = contacts, .outputs = outputs, .output = {0, 1, 1, 0, 1, 0, 0, 1}};
    use_drawing(&d);
}

void use_wide_drawing(unsigned level)
{
    struct drawing d;
    wide_drawing(&dice, 12, level, 9, &d);
    redraw(&dice, MOST_NODES, &d);
    use_drawing(&d);
}

/* ---- Rule sheets. ---- */

/* Dice of their own, so that the other files are what they are without rule sheets. */
static struct dice rule_dice = {1};

static void use_rules(const struct rules *rules)
{
    job.contacts = rules->contacts;
    job.rules_length = write_rules(rules, job.rules);
}

void use_rules_on_six(unsigned contacts, unsigned first)
{
    struct diagram d;
    struct rules rules = {.contacts = contacts, .outputs = 8, .count = 64};
    largest_diagram(&rule_dice, 6, &d);
    for (uint32_t input = 0; input < 64; input++) {
        struct rule *rule = &rules.rule[input];
        memset(rule->fits, EITHER, sizeof rule->fits);
        for (unsigned i = 0; i < 6; i++)
            rule->fits[first + i] = input >> i & 1;
        rule->word = (uint8_t)word_at(&d, input);
    }
    use_rules(&rules);
}

/* Adds a rule, split by so many of the last contacts; each part has a word. */
static void add_parts(struct rules *rules, const struct rule *whole, unsigned split, const uint8_t *word)
{
    for (unsigned part = 0; part < 1u << split; part++) {
        struct rule *rule = &rules->rule[rules->count++];
        *rule = *whole;
        rule->word = word[part];
        for (unsigned i = 0; i < split; i++)
            rule->fits[12 - split + i] = part >> i & 1;
    }
}

/* One of the first nine contacts is open and those before it are closed, or all nine are closed and each setting of the last three but
 * one has an output of its own. Of the nine rules the first three are split until there are 64 in all. */
void use_late_rules(void)
{
    static const uint8_t none[32], own[8] = {0x01, 0x02, 0x04, 0x08, 0x10, 0x20, 0x40, 0};
    static const unsigned splits[9] = {5, 4, 1};
    struct rules rules = {.contacts = 12, .outputs = 8};
    struct rule rule;
    memset(rule.fits, EITHER, sizeof rule.fits);
    for (unsigned open = 0; open < 9; open++) {
        rule.fits[open] = 0;
        add_parts(&rules, &rule, splits[open], none);
        rule.fits[open] = 1;
    }
    add_parts(&rules, &rule, 3, own);
    use_rules(&rules);
}

void use_one_rule(void)
{
    struct rules rules;
    one_rule(1, 1, 1, &rules);
    use_rules(&rules);
}

void widen_last_rule(void)
{
    job.rules[job.rules_length - 2] = EITHER; /* the last contact */
}

void narrow_last_rule(void)
{
    job.rules[job.rules_length - 1 - job.contacts] = 1; /* contact 0 */
}

/* ---- Notes. ---- */

void note_file(const uint8_t *file, size_t length, unsigned notes, unsigned size)
{
    job.noted_length = (size_t)notes * (3 + size) + length;
    job.noted = malloc(job.noted_length);
    if (job.noted == NULL)
        abort();
    uint8_t *at = job.noted;
    for (unsigned i = 0; i < notes; i++) {
        *at = (uint8_t)(PILGODUR_NOTE_TAG + i % (256 - PILGODUR_NOTE_TAG));
        at = put_two(at + 1, size);
        memset(at, 'x', size);
        at += size;
    }
    memcpy(at, file, length);
}
