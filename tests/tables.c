#include "tables.h"

#include <string.h>

enum { NONE = 255, TRIES = 200 };

/* splitmix64 */
static uint64_t next_random(struct dice *dice)
{
    uint64_t z = dice->state += 0x9e3779b97f4a7c15u;
    z = (z ^ (z >> 30)) * 0xbf58476d1ce4e5b9u;
    z = (z ^ (z >> 27)) * 0x94d049bb133111ebu;
    return z ^ (z >> 31);
}

uint32_t roll(struct dice *dice, uint32_t sides)
{
    return (uint32_t)(((next_random(dice) >> 32) * sides) >> 32);
}

bool chance(struct dice *dice, uint32_t percent)
{
    return roll(dice, 100) < percent;
}

/* ---- Canonical form. ---- */

/* The bytes that mention the nodes of a level, in the order of mention. */
static uint8_t *mentions_of(struct diagram *diagram, unsigned level, unsigned *count)
{
    if (level == 0) {
        *count = diagram->outputs;
        return diagram->output;
    }
    *count = 2u * diagram->width[level - 1];
    return &diagram->edge[level - 1][0][0];
}

static void merge_level(struct diagram *diagram, unsigned level)
{
    uint8_t same[8];
    for (unsigned u = 0; u < diagram->width[level]; u++) {
        unsigned v = 0;
        while (memcmp(diagram->edge[level][v], diagram->edge[level][u], 2) != 0)
            v++;
        same[u] = (uint8_t)v;
    }
    unsigned count;
    uint8_t *mention = mentions_of(diagram, level, &count);
    for (unsigned i = 0; i < count; i++)
        mention[i] = same[mention[i]];
}

static void renumber_level(struct diagram *diagram, unsigned level)
{
    uint8_t number[8];
    uint8_t edge[8][2];
    unsigned count;
    unsigned next = 0;
    uint8_t *mention = mentions_of(diagram, level, &count);
    memset(number, NONE, sizeof number);
    for (unsigned i = 0; i < count; i++) {
        unsigned u = mention[i];
        if (number[u] == NONE) {
            memcpy(edge[next], diagram->edge[level][u], 2);
            number[u] = (uint8_t)next++;
        }
        mention[i] = number[u];
    }
    memcpy(diagram->edge[level], edge, 2 * (size_t)next);
    diagram->width[level] = (uint8_t)next;
}

void make_canonical(struct diagram *diagram)
{
    for (unsigned level = diagram->contacts; level-- > 0;)
        merge_level(diagram, level);
    for (unsigned level = 0; level < diagram->contacts; level++)
        renumber_level(diagram, level);
}

/* ---- Spare contacts. ---- */

bool is_spare(const struct diagram *diagram, unsigned contact)
{
    for (unsigned u = 0; u < diagram->width[contact]; u++)
        if (diagram->edge[contact][u][0] != diagram->edge[contact][u][1])
            return false;
    return true;
}

static bool has_spare_contact(const struct diagram *diagram)
{
    for (unsigned contact = 0; contact < diagram->contacts; contact++)
        if (is_spare(diagram, contact))
            return true;
    return false;
}

/* The new level leads each node straight on. */
void insert_spare_contact(struct diagram *diagram, unsigned contact)
{
    for (unsigned level = diagram->contacts++; level > contact; level--) {
        memcpy(diagram->edge[level], diagram->edge[level - 1], sizeof diagram->edge[level]);
        diagram->width[level + 1] = diagram->width[level];
    }
    diagram->width[contact + 1] = diagram->width[contact];
    for (unsigned u = 0; u < diagram->width[contact]; u++)
        diagram->edge[contact][u][0] = diagram->edge[contact][u][1] = (uint8_t)u;
    make_canonical(diagram);
}

/* ---- Full diagrams: every node is mentioned and no two are alike, so the widths stay as drawn. ---- */

static bool level_has_twins(const struct diagram *diagram, unsigned level)
{
    for (unsigned u = 0; u < diagram->width[level]; u++)
        for (unsigned v = 0; v < u; v++)
            if (memcmp(diagram->edge[level][u], diagram->edge[level][v], 2) == 0)
                return true;
    return false;
}

/* Fills places with numbers below limit at random, each at least once if there is room. */
static void cover(struct dice *dice, uint8_t *place, unsigned places, unsigned limit)
{
    for (unsigned i = 0; i < places; i++)
        place[i] = (uint8_t)(i < limit ? i : roll(dice, limit));
    for (unsigned i = places; i > 1; i--) {
        unsigned k = roll(dice, i);
        uint8_t swapped = place[i - 1];
        place[i - 1] = place[k];
        place[k] = swapped;
    }
}

static void fill_level(struct dice *dice, struct diagram *diagram, unsigned level)
{
    do
        cover(dice, &diagram->edge[level][0][0], 2u * diagram->width[level], diagram->width[level + 1]);
    while (level_has_twins(diagram, level) || is_spare(diagram, level));
}

static unsigned smaller(unsigned a, unsigned b)
{
    return a < b ? a : b;
}

/* A level has at most twice the nodes of the one before it, and at most the square of the one after it. */
static void draw_widths(struct dice *dice, struct diagram *diagram, unsigned least, unsigned most)
{
    unsigned n = diagram->contacts;
    for (unsigned level = 0; level < n; level++) {
        unsigned room = level == 0 ? diagram->outputs : 2u * diagram->width[level - 1];
        unsigned width = least + roll(dice, most - least + 1);
        if (level > 0 && width < 2)
            width = 2;
        diagram->width[level] = (uint8_t)smaller(width, room);
    }
    diagram->width[n] = 2;
    for (unsigned level = n; level-- > 0;) {
        unsigned after = diagram->width[level + 1];
        diagram->width[level] = (uint8_t)smaller(diagram->width[level], after * after);
    }
}

static void full_diagram(struct dice *dice, struct diagram *diagram, unsigned least, unsigned most)
{
    draw_widths(dice, diagram, least, most);
    for (unsigned level = 0; level < diagram->contacts; level++)
        fill_level(dice, diagram, level);
    cover(dice, diagram->output, diagram->outputs, diagram->width[0]);
    make_canonical(diagram);
}

static void set_size(struct diagram *diagram, unsigned contacts, unsigned outputs)
{
    memset(diagram, 0, sizeof *diagram);
    diagram->contacts = contacts;
    diagram->outputs = outputs;
}

void widest_diagram(struct dice *dice, unsigned contacts, struct diagram *diagram)
{
    set_size(diagram, contacts, 8);
    full_diagram(dice, diagram, 8, 8);
}

/* The last three levels of a largest diagram: node 0 of the first of them is the AND of its contacts. */
static void fill_last_levels(struct dice *dice, struct diagram *diagram, unsigned other)
{
    static const uint8_t last[4][2] = {{0, 0}, {0, 1}, {1, 0}, {1, 1}};
    unsigned n = diagram->contacts;
    memcpy(diagram->edge[n - 1], last, sizeof last);
    do {
        fill_level(dice, diagram, n - 2);
        memcpy(diagram->edge[n - 2][0], (uint8_t[]){0, 1}, 2);
        memcpy(diagram->edge[n - 2][other], (uint8_t[]){0, 0}, 2);
    } while (level_has_twins(diagram, n - 2));
    diagram->edge[n - 3][0][0] = diagram->edge[n - 3][other][1] = (uint8_t)other;
    diagram->edge[n - 3][0][1] = diagram->edge[n - 3][other][0] = 0;
}

void largest_diagram(struct dice *dice, unsigned contacts, struct diagram *diagram)
{
    widest_diagram(dice, contacts, diagram);
    for (unsigned level = 0; level + 2 < contacts; level++) {
        unsigned other = 1u << level % 3;
        for (unsigned u = 0; u < 8; u++)
            if ((u & other) == 0) {
                unsigned first = chance(dice, 50) ? u : u ^ other;
                diagram->edge[level][u][0] = diagram->edge[level][u ^ other][1] = (uint8_t)first;
                diagram->edge[level][u][1] = diagram->edge[level][u ^ other][0] = (uint8_t)(first ^ other);
            }
    }
    if (contacts >= 3)
        fill_last_levels(dice, diagram, 1u << (contacts - 3) % 3);
    make_canonical(diagram);
}

/* ---- Loose diagrams: any edges, often equal ones, sometimes with both constants in every level. ---- */

static void loose_level(struct dice *dice, struct diagram *diagram, unsigned level, unsigned equal, bool constants)
{
    unsigned after = diagram->width[level + 1];
    for (unsigned u = 0; u < diagram->width[level]; u++) {
        uint8_t *edge = diagram->edge[level][u];
        edge[0] = (uint8_t)roll(dice, after);
        edge[1] = chance(dice, equal) ? edge[0] : (uint8_t)roll(dice, after);
        if (constants && u < 2)
            edge[0] = edge[1] = (uint8_t)u;
    }
}

static void loose_diagram(struct dice *dice, struct diagram *diagram)
{
    unsigned equal = roll(dice, 90);
    unsigned most = 2 + roll(dice, 7);
    bool constants = chance(dice, 50);
    diagram->width[diagram->contacts] = 2;
    for (unsigned level = diagram->contacts; level-- > 0;) {
        diagram->width[level] = (uint8_t)(chance(dice, 50) ? most : 2 + roll(dice, most - 1));
        loose_level(dice, diagram, level, equal, constants);
    }
    for (unsigned j = 0; j < diagram->outputs; j++)
        diagram->output[j] = (uint8_t)roll(dice, diagram->width[0]);
    make_canonical(diagram);
}

/* ---- Diagrams of either kind, and with spare contacts. ---- */

void busy_diagram(struct dice *dice, unsigned contacts, unsigned outputs, struct diagram *diagram)
{
    set_size(diagram, contacts, outputs);
    if (chance(dice, 60))
        for (unsigned i = 0; i < TRIES; i++) {
            loose_diagram(dice, diagram);
            if (!has_spare_contact(diagram))
                return;
        }
    unsigned least = 1 + roll(dice, 8);
    full_diagram(dice, diagram, least, least + roll(dice, 9 - least));
}

/* A busy diagram of fewer contacts, often of one or none, among spare ones. */
static void part_spare_diagram(struct dice *dice, unsigned contacts, unsigned outputs, struct diagram *diagram)
{
    unsigned busy = chance(dice, 15) ? 0 : 1 + roll(dice, 1 + roll(dice, contacts));
    busy_diagram(dice, busy, outputs, diagram);
    while (diagram->contacts < contacts)
        insert_spare_contact(diagram, roll(dice, diagram->contacts + 1));
}

void random_diagram(struct dice *dice, unsigned contacts, unsigned outputs, struct diagram *diagram)
{
    unsigned kind = roll(dice, 100);
    if (kind < 55) {
        busy_diagram(dice, contacts, outputs, diagram);
    } else if (kind < 70) {
        set_size(diagram, contacts, outputs);
        loose_diagram(dice, diagram);
    } else {
        part_spare_diagram(dice, contacts, outputs, diagram);
    }
}

/* ---- Tables and values. ---- */

size_t table_of(const struct diagram *diagram, uint8_t *table)
{
    uint8_t *at = table;
    *at++ = 1;
    *at++ = 0;
    *at++ = 1;
    *at++ = (uint8_t)diagram->contacts;
    *at++ = 2;
    *at++ = 0;
    *at++ = (uint8_t)diagram->outputs;
    memcpy(at, diagram->output, diagram->outputs);
    at += diagram->outputs;
    for (unsigned level = 0; level < diagram->contacts; level++) {
        size_t length = 2 * (size_t)diagram->width[level];
        *at++ = 3;
        *at++ = 0;
        *at++ = (uint8_t)length;
        memcpy(at, diagram->edge[level], length);
        at += length;
    }
    return (size_t)(at - table);
}

unsigned value_at(const struct diagram *diagram, unsigned output, uint32_t input)
{
    unsigned node = diagram->output[output];
    for (unsigned i = 0; i < diagram->contacts; i++)
        node = diagram->edge[i][node][(input >> i) & 1];
    return node;
}

uint32_t word_at(const struct diagram *diagram, uint32_t input)
{
    uint32_t word = 0;
    for (unsigned j = 0; j < diagram->outputs; j++)
        word |= (uint32_t)value_at(diagram, j, input) << j;
    return word;
}
