#include "drawings.h"

#include <string.h>

enum { TRIES = 20, MOST_FUNCTIONS = 16 };

/* ---- Nodes and mentions. ---- */

/* The level of a number; that of a constant is higher than all others. */
static unsigned level_of(const struct drawing *d, unsigned number)
{
    return number < 2 ? d->contacts : d->node[number - 2].level;
}

unsigned add_node(struct drawing *d, unsigned level, unsigned zero, unsigned one)
{
    d->node[d->nodes].level = (uint8_t)level;
    d->node[d->nodes].edge[0] = (uint8_t)zero;
    d->node[d->nodes].edge[1] = (uint8_t)one;
    return 2 + d->nodes++;
}

/* The bytes that mention a number: the outputs, then the edges. */
static unsigned mentions(const struct drawing *d)
{
    return d->outputs + 2 * d->nodes;
}

static uint8_t *mention(struct drawing *d, unsigned i)
{
    unsigned edge = i - d->outputs;
    return i < d->outputs ? &d->output[i] : &d->node[edge / 2].edge[edge % 2];
}

void replace_mentions(struct drawing *d, unsigned number, unsigned by)
{
    for (unsigned i = 0; i < mentions(d); i++)
        if (*mention(d, i) == number)
            *mention(d, i) = (uint8_t)by;
}

/* A number to which an edge of a node of this level may lead, often a node. */
static unsigned higher_number(struct dice *dice, const struct drawing *d, unsigned level)
{
    for (unsigned i = 0; i < TRIES; i++) {
        unsigned number = roll(dice, 2 + d->nodes);
        if (level < level_of(d, number))
            return number;
    }
    return roll(dice, 2);
}

static void set_size(struct drawing *d, unsigned contacts, unsigned outputs)
{
    memset(d, 0, sizeof *d);
    d->contacts = contacts;
    d->outputs = outputs;
}

void drawing_of(const struct diagram *diagram, struct drawing *d)
{
    unsigned first = 2; /* the number of the first node of a level */
    set_size(d, diagram->contacts, diagram->outputs);
    for (unsigned j = 0; j < d->outputs; j++)
        d->output[j] = (uint8_t)(first + diagram->output[j]);
    for (unsigned level = 0; level < d->contacts; level++) {
        first += diagram->width[level];
        unsigned after = level + 1 == d->contacts ? 0 : first;
        for (unsigned u = 0; u < diagram->width[level]; u++)
            add_node(d, level, after + diagram->edge[level][u][0], after + diagram->edge[level][u][1]);
    }
}

/* Few levels among all make few functions of many nodes. */
void random_drawing(struct dice *dice, unsigned contacts, unsigned outputs, unsigned nodes, struct drawing *d)
{
    unsigned levels[12];
    unsigned used = 1 + roll(dice, chance(dice, 50) ? contacts : contacts < 3 ? contacts : 3);
    unsigned equal = chance(dice, 50) ? 0 : roll(dice, 60);
    set_size(d, contacts, outputs);
    for (unsigned i = 0; i < used; i++)
        levels[i] = roll(dice, contacts);
    while (d->nodes < nodes)
        add_node(d, levels[roll(dice, used)], 0, 0);
    for (unsigned i = 0; i < nodes; i++) {
        d->node[i].edge[0] = (uint8_t)higher_number(dice, d, d->node[i].level);
        d->node[i].edge[1] = chance(dice, equal) ? d->node[i].edge[0] : (uint8_t)higher_number(dice, d, d->node[i].level);
    }
    for (unsigned j = 0; j < outputs; j++)
        d->output[j] = (uint8_t)roll(dice, 2 + nodes);
}

/* ---- The same functions drawn otherwise. ---- */

/* A node once more, and some mentions lead to the new one. */
static void repeat_node(struct dice *dice, struct drawing *d)
{
    unsigned count = mentions(d);
    unsigned old = roll(dice, d->nodes);
    unsigned number = add_node(d, d->node[old].level, d->node[old].edge[0], d->node[old].edge[1]);
    for (unsigned i = 0; i < count; i++)
        if (*mention(d, i) == 2 + old && chance(dice, 50))
            *mention(d, i) = (uint8_t)number;
}

/* A node with equal edges between a mention and what it leads to, if there is a level between them. */
static void add_detour(struct dice *dice, struct drawing *d)
{
    unsigned i = roll(dice, mentions(d));
    unsigned number = *mention(d, i);
    unsigned from = i < d->outputs ? 0 : d->node[(i - d->outputs) / 2].level + 1u;
    unsigned to = level_of(d, number);
    if (from < to)
        *mention(d, i) = (uint8_t)add_node(d, from + roll(dice, to - from), number, number);
}

static void add_unmentioned(struct dice *dice, struct drawing *d)
{
    unsigned level = roll(dice, d->contacts);
    unsigned zero = higher_number(dice, d, level);
    add_node(d, level, zero, higher_number(dice, d, level));
}

/* What leads to a node with equal edges leads where it does. */
static void bypass(struct drawing *d, unsigned node)
{
    if (d->node[node].edge[0] == d->node[node].edge[1])
        replace_mentions(d, 2 + node, d->node[node].edge[0]);
}

/* Puts so many numbers in any sequence. */
static void shuffle(struct dice *dice, uint8_t *number, unsigned count)
{
    for (unsigned i = count; i > 1; i--) {
        unsigned k = roll(dice, i);
        uint8_t swapped = number[i - 1];
        number[i - 1] = number[k];
        number[k] = swapped;
    }
}

static void renumber(struct dice *dice, struct drawing *d)
{
    static struct drawing old;
    uint8_t number[2 + MOST_NODES];
    old = *d;
    for (unsigned i = 0; i < 2 + d->nodes; i++)
        number[i] = (uint8_t)i;
    shuffle(dice, number + 2, d->nodes);
    for (unsigned i = 0; i < d->nodes; i++)
        d->node[number[2 + i] - 2] = old.node[i];
    for (unsigned i = 0; i < mentions(d); i++)
        *mention(d, i) = number[*mention(d, i)];
}

void redraw(struct dice *dice, unsigned nodes, struct drawing *d)
{
    while (d->nodes < nodes) {
        unsigned kind = roll(dice, 3);
        if (kind == 0 && d->nodes > 0)
            repeat_node(dice, d);
        else if (kind == 1)
            add_detour(dice, d);
        else
            add_unmentioned(dice, d);
    }
    unsigned percent = chance(dice, 50) ? 0 : roll(dice, 101);
    for (unsigned i = 0; i < d->nodes; i++)
        if (chance(dice, percent))
            bypass(d, i);
    renumber(dice, d);
}

/* ---- So many functions in a level. ---- */

/* The function of two contacts that has these four values: bit 0 with both open, bit 1 with the higher one closed, bit 2 with the
 * lower one closed, bit 3 with both. `half` has the functions of the higher contact alone. */
static unsigned add_function(struct drawing *d, unsigned level, const unsigned half[4], unsigned values)
{
    unsigned zero = half[values & 3], one = half[values >> 2];
    return zero == one ? zero : add_node(d, level, zero, one);
}

/* Two functions by two become the halves of one of a lower level; returns how many these are. */
static unsigned pair_up(struct drawing *d, unsigned level, uint8_t *number, unsigned count)
{
    unsigned first = number[0];
    for (unsigned i = 0; 2 * i < count; i++)
        number[i] = (uint8_t)add_node(d, level, number[2 * i], 2 * i + 1 < count ? number[2 * i + 1] : first);
    return (count + 1) / 2;
}

void wide_drawing(struct dice *dice, unsigned contacts, unsigned level, unsigned functions, struct drawing *d)
{
    uint8_t number[MOST_FUNCTIONS];
    unsigned other = level + 1 + roll(dice, contacts - level - 1);
    unsigned count = functions;
    set_size(d, contacts, 0);
    const unsigned half[4] = {0, add_node(d, other, 1, 0), add_node(d, other, 0, 1), 1};
    for (unsigned i = 0; i < MOST_FUNCTIONS; i++)
        number[i] = (uint8_t)i;
    shuffle(dice, number, MOST_FUNCTIONS);
    for (unsigned i = 0; i < count; i++)
        number[i] = (uint8_t)add_function(d, level, half, number[i]);
    for (unsigned top = level; top > 0 && count > 1 && (count > 8 || chance(dice, 70));) {
        top = top == level ? level - 1 : roll(dice, top);
        count = pair_up(d, top, number, count);
    }
    d->outputs = count + roll(dice, 9 - count);
    for (unsigned j = 0; j < d->outputs; j++)
        d->output[j] = number[j < count ? j : roll(dice, count)];
    shuffle(dice, d->output, d->outputs);
}

/* ---- Files, values and truth tables. ---- */

size_t write_drawing(const struct drawing *d, uint8_t *file)
{
    uint8_t *at = file;
    unsigned length = 3 * d->nodes;
    memcpy(at, (uint8_t[]){1, 0, 1, (uint8_t)d->contacts, 2, 0, (uint8_t)d->outputs}, 7);
    memcpy(at + 7, d->output, d->outputs);
    at += 7 + d->outputs;
    memcpy(at, (uint8_t[]){7, (uint8_t)(length / 256), (uint8_t)length}, 3);
    at += 3;
    for (unsigned i = 0; i < d->nodes; i++, at += 3)
        memcpy(at, (uint8_t[]){d->node[i].level, d->node[i].edge[0], d->node[i].edge[1]}, 3);
    return (size_t)(at - file);
}

static unsigned drawn_value(const struct drawing *d, unsigned output, uint32_t input)
{
    unsigned number = d->output[output];
    while (number > 1)
        number = d->node[number - 2].edge[input >> d->node[number - 2].level & 1];
    return number;
}

uint32_t drawn_word(const struct drawing *d, uint32_t input)
{
    uint32_t word = 0;
    for (unsigned j = 0; j < d->outputs; j++)
        word |= (uint32_t)drawn_value(d, j, input) << j;
    return word;
}

/* One byte for each value; the first contact weighs most, so that fixing the first ones leaves bytes in a row. */
static void tabulate(const struct drawing *d, uint8_t truth[8][4096])
{
    for (unsigned q = 0; q < 1u << d->contacts; q++) {
        uint32_t input = 0;
        for (unsigned i = 0; i < d->contacts; i++)
            input |= (q >> (d->contacts - 1 - i) & 1) << i;
        for (unsigned j = 0; j < d->outputs; j++)
            truth[j][q] = (uint8_t)drawn_value(d, j, input);
    }
}

void count_functions(const struct drawing *d, unsigned functions[12])
{
    static uint8_t truth[8][4096];
    tabulate(d, truth);
    for (unsigned level = 0; level < d->contacts; level++) {
        const uint8_t *found[MOST_FUNCTIONS + 1];
        unsigned count = 0, settings = 1u << level;
        size_t size = (size_t)1 << (d->contacts - level);
        for (unsigned k = 0; k < d->outputs * settings && count <= MOST_FUNCTIONS; k++) {
            const uint8_t *function = truth[k / settings] + k % settings * size;
            unsigned same = 0;
            while (same < count && memcmp(found[same], function, size) != 0)
                same++;
            if (same == count)
                found[count++] = function;
        }
        functions[level] = count;
    }
}
