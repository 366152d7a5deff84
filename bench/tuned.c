#include "tuned.h"

#include <stdbool.h>
#include <string.h>

enum { MOST_GATES = 10602 }; /* of a netlist; a table's has 10,560 at most, and 6 for each of 7 joins of its lamp */

/* A table whose edges and outputs are read where the caller's bytes stand. */
struct table {
    unsigned contacts, outputs;
    const uint8_t *output;
    unsigned width[13];
    const uint8_t *edge[12];
};

static unsigned two_bytes(const uint8_t *at)
{
    return (unsigned)at[0] << 8 | at[1];
}

/* Two numbers of two bytes each, the first in the high half. */
static uint32_t two_numbers(const uint8_t *at)
{
    uint32_t both;
    memcpy(&both, at, sizeof both);
    return __builtin_bswap32(both);
}

static bool both_below(uint32_t both, uint32_t bound)
{
    return both < bound << 16 && both << 16 < bound << 16;
}

/* The place of the first field from a place on that is no note; past the file's end if a note is cut short. */
static size_t pass_notes(const uint8_t *file, size_t length, size_t at)
{
    while (at + 3 <= length && file[at] >= PILGODUR_NOTE_TAG)
        at += 3 + two_bytes(file + at + 1);
    return at < length && file[at] >= PILGODUR_NOTE_TAG ? length + 1 : at;
}

/* The place of the field after the first one that is no note, which must be of tag 1, length 1 and value 1 to 12; 0 if it is not. */
static size_t pass_contacts(const uint8_t *file, size_t length, unsigned *contacts)
{
    size_t at = pass_notes(file, length, 0);
    if (at + 4 > length || file[at] != 1 || file[at + 1] != 0 || file[at + 2] != 1 || file[at + 3] - 1u > 11)
        return 0;
    *contacts = file[at + 3];
    return pass_notes(file, length, at + 4);
}

/* ---- The table's questions: each level is looked at once for all of them. ---- */

static bool whole_fields(const uint8_t *file, size_t length)
{
    size_t at = 0;
    while (length - at >= 3) {
        at += 3 + two_bytes(file + at + 1);
        if (at > length)
            return false;
    }
    return at == length;
}

/* Questions 2 to 4. A table that passes has whole fields, so question 1 is asked of the others alone. */
static uint32_t find_fields(const uint8_t *file, size_t length, struct table *t)
{
    size_t at = pass_contacts(file, length, &t->contacts);
    if (at == 0)
        return 2;
    if (at + 4 > length || file[at] != 2 || file[at + 1] != 0 || file[at + 2] - 1u > 7)
        return 3;
    t->outputs = file[at + 2];
    t->output = file + at + 3;
    at = pass_notes(file, length, at + 3 + t->outputs);
    for (unsigned l = 0; l < t->contacts; l++) {
        if (at + 3 > length || file[at] != 3 || file[at + 1] != 0 || file[at + 2] - 2u > 14 || file[at + 2] % 2 != 0)
            return 4;
        t->width[l] = file[at + 2] / 2;
        t->edge[l] = file + at + 3;
        at = pass_notes(file, length, at + 3 + file[at + 2]);
    }
    t->width[t->contacts] = 2;
    return at == length ? 0 : 4;
}

struct faults {
    bool outside, twins, order;
};

/* Each mention is of a node that was mentioned, or of the next. */
static unsigned mention(unsigned node, unsigned mentioned, bool *late)
{
    *late |= node > mentioned;
    return mentioned + (node == mentioned);
}

static void ask_level(const struct table *t, unsigned l, struct faults *found)
{
    const uint8_t *edge = t->edge[l];
    unsigned after = t->width[l + 1], mentioned = 0;
    uint64_t pairs = 0;
    bool late = false;
    for (unsigned u = 0; u < t->width[l]; u++) {
        unsigned zero = edge[2 * u], one = edge[2 * u + 1];
        uint64_t pair = 1ull << ((8 * zero + one) & 63);
        found->outside |= (zero >= after) | (one >= after);
        found->twins |= (pairs & pair) != 0;
        pairs |= pair;
        mentioned = mention(one, mention(zero, mentioned, &late), &late);
    }
    found->order |= l + 1 < t->contacts && (late || mentioned != after);
}

static uint32_t read_table(const uint8_t *file, size_t length, struct table *t)
{
    struct faults found = {false, false, false};
    unsigned mentioned = 0;
    uint32_t refusal = find_fields(file, length, t);
    if (refusal != 0)
        return whole_fields(file, length) ? refusal : 1;
    for (unsigned j = 0; j < t->outputs; j++) {
        found.outside |= t->output[j] >= t->width[0];
        mentioned = mention(t->output[j], mentioned, &found.order);
    }
    found.order |= mentioned != t->width[0];
    for (unsigned l = 0; l < t->contacts; l++)
        ask_level(t, l, &found);
    return found.outside ? 5 : found.twins ? 6 : found.order ? 7 : 0;
}

/* ---- From levels to gates. ---- */

/* An entry is a line: 0 is never, 1 is always. A bit in a row's or a column's mask is set where the entry is not never. */
struct matrix {
    uint16_t entry[8][8];
    uint8_t row[8], column[8];
};

/* Where the next gate goes, and its line. */
struct gates {
    uint8_t *at;
    unsigned line;
};

/* The ORs of 2 to 8 terms in their sequence: each puts its line in the place of its first source. */
static const uint8_t joins[9][7][2] = {
    [2] = {{0, 1}},
    [3] = {{0, 1}, {0, 2}},
    [4] = {{0, 1}, {2, 3}, {0, 2}},
    [5] = {{0, 1}, {0, 2}, {3, 4}, {0, 3}},
    [6] = {{0, 1}, {0, 2}, {3, 4}, {3, 5}, {0, 3}},
    [7] = {{0, 1}, {2, 3}, {0, 2}, {4, 5}, {4, 6}, {0, 4}},
    [8] = {{0, 1}, {2, 3}, {0, 2}, {4, 5}, {6, 7}, {4, 6}, {0, 4}},
};

/* Writes eight bytes, of which the next gate or field overwrites three. */
static uint16_t put_gate(struct gates *g, uint64_t kind, unsigned left, unsigned right)
{
    uint64_t bytes = __builtin_bswap64(kind << 56 | (uint64_t)left << 40 | (uint64_t)right << 24);
    memcpy(g->at, &bytes, 8);
    g->at += 5;
    return (uint16_t)g->line++;
}

/* A term that is always is the only one of its entry, since each input leads from a node to just one other. */
static uint16_t put_entry(struct gates *g, const struct matrix *left, const struct matrix *right, unsigned u, unsigned v)
{
    uint16_t term[8];
    unsigned count = 0;
    for (unsigned middle = left->row[u] & right->column[v]; middle != 0; middle &= middle - 1) {
        unsigned x = (unsigned)__builtin_ctz(middle);
        uint16_t a = left->entry[u][x], b = right->entry[x][v];
        term[count++] = a == 1 ? b : b == 1 ? a : put_gate(g, 0, a, b);
    }
    for (unsigned i = 0; i + 1 < count; i++) {
        const uint8_t *join = joins[count][i];
        term[join[0]] = put_gate(g, 1, term[join[0]], term[join[1]]);
    }
    return count == 0 ? 0 : term[0];
}

static void set_entry(struct matrix *m, unsigned u, unsigned v, uint16_t entry)
{
    m->entry[u][v] = entry;
    m->row[u] |= (uint8_t)((entry != 0) << v);
    m->column[v] |= (uint8_t)((entry != 0) << u);
}

static void one_level(const struct table *t, unsigned l, struct matrix *m)
{
    memset(m, 0, sizeof *m);
    for (unsigned u = 0; u < t->width[l]; u++) {
        unsigned zero = t->edge[l][2 * u], one = t->edge[l][2 * u + 1];
        set_entry(m, u, zero, (uint16_t)(3 + 2 * l));
        set_entry(m, u, one, (uint16_t)(zero == one ? 1 : 2 + 2 * l));
    }
}

static void put_block(const struct table *t, unsigned l, unsigned k, struct gates *g, struct matrix *m)
{
    struct matrix left, right;
    unsigned cut = l + (k - l + 1) / 2;
    if (k - l == 1) {
        one_level(t, l, m);
        return;
    }
    put_block(t, l, cut, g, &left);
    put_block(t, cut, k, g, &right);
    memset(m->row, 0, sizeof m->row);
    memset(m->column, 0, sizeof m->column);
    for (unsigned u = 0; u < t->width[l]; u++)
        for (unsigned v = 0; v < t->width[k]; v++)
            set_entry(m, u, v, put_entry(g, &left, &right, u, v));
}

static uint8_t *put_two(uint8_t *at, unsigned number)
{
    at[0] = (uint8_t)(number >> 8);
    at[1] = (uint8_t)number;
    return at + 2;
}

/* Puts the pair of a and b, each a true line and a false line, in the place of a. */
static void join_pairs(struct gates *g, uint16_t *a, const uint16_t *b)
{
    unsigned line = g->line;
    put_gate(g, 0, a[0], b[0]);
    put_gate(g, 0, a[1], b[1]);
    put_gate(g, 1, line, line + 1);
    put_gate(g, 0, a[0], b[1]);
    put_gate(g, 0, a[1], b[0]);
    put_gate(g, 1, line + 3, line + 4);
    a[0] = (uint16_t)(line + 2);
    a[1] = (uint16_t)(line + 5);
}

static uint8_t *put_pair(uint8_t *at, const uint16_t *pair)
{
    return put_two(put_two(at, pair[0]), pair[1]);
}

/* Writes the netlist file, with the lamp if it is asked for, to a buffer of PILGODUR_FILE_MAX bytes; returns its length, and the lines
 * that there are. The joins of the lamp go as those of ORs do. */
static size_t put_file(const struct table *t, uint8_t *file, unsigned *lines, bool lamp)
{
    struct matrix whole;
    struct gates g = {file + 7, 2 + 2 * t->contacts};
    uint16_t output[8][2], pair[8][2];
    put_block(t, 0, t->contacts, &g, &whole);
    for (unsigned j = 0; j < t->outputs; j++)
        for (unsigned rail = 0; rail < 2; rail++)
            output[j][rail] = pair[j][rail] = whole.entry[t->output[j]][1 - rail];
    for (unsigned i = 0; lamp && i + 1 < t->outputs; i++)
        join_pairs(&g, pair[joins[t->outputs][i][0]], pair[joins[t->outputs][i][1]]);
    memcpy(file, (uint8_t[]){1, 0, 1, (uint8_t)t->contacts, 4}, 5);
    put_two(file + 5, (unsigned)(g.at - file - 7));
    *g.at++ = 5;
    g.at = put_two(g.at, 4 * t->outputs);
    for (unsigned j = 0; j < t->outputs; j++)
        g.at = put_pair(g.at, output[j]);
    if (lamp) {
        memcpy(g.at, (uint8_t[]){6, 0, 4}, 3);
        g.at = put_pair(g.at + 3, pair[0]);
    }
    *lines = g.line;
    return (size_t)(g.at - file);
}

/* ---- Check: the same products of depths; no gate is written. ---- */

/* An entry is 0 for never, 1 for always, and a line's depth plus 2. */
struct depths {
    uint8_t entry[8][8];
    uint8_t row[8], column[8];
    unsigned gates, largest;
};

static unsigned larger(unsigned a, unsigned b)
{
    return a > b ? a : b;
}

static unsigned entry_depth(const struct depths *left, const struct depths *right, unsigned u, unsigned v, unsigned *gates)
{
    uint8_t term[8];
    unsigned count = 0;
    for (unsigned middle = left->row[u] & right->column[v]; middle != 0; middle &= middle - 1) {
        unsigned x = (unsigned)__builtin_ctz(middle);
        unsigned a = left->entry[u][x], b = right->entry[x][v];
        bool gate = (a > 1) & (b > 1);
        *gates += gate;
        term[count++] = (uint8_t)(larger(a, b) + gate);
    }
    if (count == 0)
        return 0;
    *gates += count - 1;
    for (unsigned i = 0; i + 1 < count; i++) {
        const uint8_t *join = joins[count][i];
        term[join[0]] = (uint8_t)(1 + larger(term[join[0]], term[join[1]]));
    }
    return term[0];
}

static void set_depth(struct depths *m, unsigned u, unsigned v, unsigned depth)
{
    m->entry[u][v] = (uint8_t)depth;
    m->row[u] |= (uint8_t)((depth != 0) << v);
    m->column[v] |= (uint8_t)((depth != 0) << u);
    m->largest = larger(m->largest, depth);
}

/* An entry is as deep as any gate in it, so the entries alone show the largest depth. */
static void block_depths(const struct table *t, unsigned l, unsigned k, struct depths *m)
{
    struct depths left, right;
    unsigned cut = l + (k - l + 1) / 2;
    memset(m, 0, sizeof *m);
    if (k - l == 1) {
        for (unsigned u = 0; u < t->width[l]; u++) {
            unsigned zero = t->edge[l][2 * u], one = t->edge[l][2 * u + 1];
            set_depth(m, u, zero, 2);
            set_depth(m, u, one, zero == one ? 1 : 2);
        }
        return;
    }
    block_depths(t, l, cut, &left);
    block_depths(t, cut, k, &right);
    m->gates = left.gates + right.gates;
    m->largest = larger(left.largest, right.largest);
    for (unsigned u = 0; u < t->width[l]; u++)
        for (unsigned v = 0; v < t->width[k]; v++)
            set_depth(m, u, v, entry_depth(&left, &right, u, v, &m->gates));
}

/* ---- Services on tables. ---- */

pilgodur_checked tuned_check(const uint8_t *table, size_t table_len)
{
    struct table t;
    struct depths whole;
    uint32_t refusal = read_table(table, table_len, &t);
    if (refusal != 0)
        return (pilgodur_checked){refusal, 0, 0, 0, 0};
    block_depths(&t, 0, t.contacts, &whole);
    return (pilgodur_checked){0, t.contacts, t.outputs, whole.gates, whole.largest - 2};
}

static pilgodur_built build(const uint8_t *table, size_t table_len, uint8_t *file, size_t file_len, bool lamp)
{
    uint8_t made[PILGODUR_FILE_MAX];
    struct table t;
    unsigned lines;
    uint32_t refusal = read_table(table, table_len, &t);
    if (refusal != 0)
        return (pilgodur_built){refusal, 0};
    if (file_len >= PILGODUR_FILE_MAX) /* long enough for every file, so none is made aside */
        return (pilgodur_built){0, (uint32_t)put_file(&t, file, &lines, lamp)};
    size_t length = put_file(&t, made, &lines, lamp);
    if (file_len < length)
        return (pilgodur_built){9, 0};
    memcpy(file, made, length);
    return (pilgodur_built){0, (uint32_t)length};
}

pilgodur_built tuned_build(const uint8_t *table, size_t table_len, uint8_t *file, size_t file_len)
{
    return build(table, table_len, file, file_len, false);
}

pilgodur_built tuned_build_with_lamp(const uint8_t *table, size_t table_len, uint8_t *file, size_t file_len)
{
    return build(table, table_len, file, file_len, true);
}

/* All outputs go down the levels together. */
pilgodur_reading tuned_read_off(const uint8_t *table, size_t table_len, uint32_t input)
{
    struct table t;
    uint32_t refusal = read_table(table, table_len, &t);
    if (refusal != 0)
        return (pilgodur_reading){refusal, 0};
    if (input >> t.contacts != 0)
        return (pilgodur_reading){10, 0};
    uint8_t node[8];
    uint32_t word = 0;
    memcpy(node, t.output, t.outputs);
    for (unsigned i = 0; i < t.contacts; i++) {
        const uint8_t *edge = t.edge[i] + (input >> i & 1);
        for (unsigned j = 0; j < t.outputs; j++)
            node[j] = edge[2 * node[j]];
    }
    for (unsigned j = 0; j < t.outputs; j++)
        word |= (uint32_t)node[j] << j;
    return (pilgodur_reading){0, word};
}

/* ---- Step and run: the gates are checked and worked out in one pass, into an array aside; no branch hangs on a value. ---- */

/* A netlist whose gates and pairs are read where the caller's bytes stand. */
struct netlist {
    unsigned contacts, gates, outputs;
    const uint8_t *gate, *output;
    const uint8_t *lamp; /* NULL if there is none */
};

/* Question 11. */
static bool netlist_fields(const uint8_t *file, size_t length, struct netlist *n)
{
    size_t at = pass_contacts(file, length, &n->contacts);
    if (at == 0 || at + 3 > length || file[at] != 4)
        return false;
    unsigned gate_bytes = two_bytes(file + at + 1);
    n->gates = gate_bytes / 5;
    n->gate = file + at + 3;
    at = pass_notes(file, length, at + 3 + gate_bytes);
    if (gate_bytes % 5 != 0 || n->gates > MOST_GATES || at + 3 > length || file[at] != 5)
        return false;
    unsigned output_bytes = two_bytes(file + at + 1);
    n->outputs = output_bytes / 4;
    n->output = file + at + 3;
    at = pass_notes(file, length, at + 3 + output_bytes);
    if (output_bytes % 4 != 0 || n->outputs - 1 > 7)
        return false;
    n->lamp = NULL;
    if (at == length)
        return true;
    n->lamp = file + at + 3;
    return at + 7 <= length && file[at] == 6 && file[at + 1] == 0 && file[at + 2] == 4 && pass_notes(file, length, at + 7) == length;
}

static bool pairs_good(const struct netlist *n, unsigned lines)
{
    for (unsigned k = 0; k < n->outputs; k++)
        if (!both_below(two_numbers(n->output + 4 * k), lines))
            return false;
    return n->lamp == NULL || both_below(two_numbers(n->lamp), lines);
}

static bool rails_good(const uint8_t *rails, size_t count)
{
    uint8_t any = 0;
    for (size_t i = 0; i < count; i++)
        any |= rails[i];
    return any <= 1;
}

/* What a line shows, as a truth table of eight bits: of its gate's first source, the second, which weighs 2, and the kind, which weighs 4.
 * Where nothing is held it is their majority. A rail has its byte for all three. */
enum { MAJORITY = 0xe8 };

/* Copies the bits where the pin has its held value to those where it has the other. */
static void hold_pin(uint8_t *truth, unsigned value)
{
    static const uint8_t kept[6] = {[2] = 0x55, 0xaa, 0x33, 0xcc}, copied[6] = {[2] = 3, 3, 5, 5}, down[6] = {[3] = 1, [5] = 2};
    *truth = (uint8_t)((*truth & kept[value]) * copied[value] >> down[value]);
}

/* Question 14; holds lines and pins as long as they are good. The pins are counted from line 0 on, two for each. */
static bool take_holds(const uint8_t *holds, size_t length, unsigned first, unsigned lines, uint8_t *truth)
{
    const uint8_t *end = holds + length;
    unsigned least = 2;
    if (length % 3 != 0)
        return false;
    for (; holds < end && holds[2] < 2; holds += 3) {
        unsigned line = two_bytes(holds);
        if (line < least || line >= lines)
            return false;
        truth[line] = (uint8_t)-holds[2];
        least = line + 1;
    }
    least = 2 * first;
    for (; holds < end; holds += 3) {
        unsigned line = two_bytes(holds), pin = 2 * line + (holds[2] > 3);
        if (pin < least || line >= lines || holds[2] - 2u > 3)
            return false;
        hold_pin(&truth[line], holds[2]);
        least = pin + 1;
    }
    return true;
}

/* Question 12 of the gates from a line on. */
static bool gates_good(const uint8_t *gate, unsigned from, unsigned to)
{
    for (unsigned line = from; line < to; line++, gate += 5)
        if (gate[0] > 1 || !both_below(two_numbers(gate + 1), line))
            return false;
    return true;
}

/* The same, and works them out as long as they are good. */
static bool work_out(const uint8_t *gate, unsigned from, unsigned to, const uint8_t *truth, uint8_t *value)
{
    for (unsigned line = from; line < to; line++, gate += 5) {
        uint32_t sources = two_numbers(gate + 1);
        if (gate[0] > 1 || !both_below(sources, line))
            return false;
        value[line] = truth[line] >> (value[sources >> 16] + 2 * value[sources & 0xffff] + 4 * gate[0]) & 1;
    }
    return true;
}

/* Question 12 is asked while the lines are worked out; so 13, 14, 21 and 9 are asked before, and answered after it. Where the place, the
 * rails or the first buffer are no good no line is worked out. */
pilgodur_stepped tuned_step(const uint8_t *netlist, size_t netlist_len, const uint8_t *rails, size_t rails_len,
                            const uint8_t *holds, size_t holds_len, uint32_t place, uint32_t count,
                            uint8_t *lines, size_t lines_len, uint8_t *pairs, size_t pairs_len)
{
    uint8_t value[PILGODUR_LINES_MAX], truth[PILGODUR_LINES_MAX];
    struct netlist n;
    if (!netlist_fields(netlist, netlist_len, &n))
        return (pilgodur_stepped){11, 0};
    unsigned first = 2 + 2 * n.contacts, all = first + n.gates;
    bool driven = rails_len == first - 2 && rails_good(rails, first - 2), placed = place - 2 <= all - 2;
    bool works = driven && placed && lines_len >= all;
    unsigned from = works ? place : all, to = works && count < all - place ? place + count : all;
    memset(truth, MAJORITY, all);
    bool ordered = take_holds(holds, holds_len, first, all, truth);
    value[0] = 0;
    value[1] = 1;
    for (unsigned line = 2; works && line < from; line++)
        value[line] = lines[line] != 0;
    for (unsigned line = from; line < first && line < to; line++)
        value[line] = truth[line] >> 7 * rails[line - 2] & 1;
    unsigned gate = larger(from, first), rest = larger(to, first); /* the first gates worked out, and after that */
    if (!gates_good(n.gate, first, gate) || !work_out(n.gate + 5 * (gate - first), gate, to, truth, value) ||
        !gates_good(n.gate + 5 * (rest - first), rest, all) || !pairs_good(&n, all))
        return (pilgodur_stepped){12, 0};
    if (!driven || !ordered)
        return (pilgodur_stepped){driven ? 14 : 13, 0};
    if (!placed)
        return (pilgodur_stepped){21, 0};
    if (!works || pairs_len < 2 * (n.outputs + (n.lamp != NULL)))
        return (pilgodur_stepped){9, 0};
    memcpy(lines, value, 2);
    memcpy(lines + from, value + from, to - from);
    for (unsigned k = 0; to == all && k < 2 * n.outputs; k++)
        pairs[k] = value[two_bytes(n.output + 2 * k)];
    for (unsigned k = 0; to == all && n.lamp != NULL && k < 2; k++)
        pairs[2 * n.outputs + k] = value[two_bytes(n.lamp + 2 * k)];
    return (pilgodur_stepped){0, to};
}

uint32_t tuned_run(const uint8_t *netlist, size_t netlist_len, const uint8_t *rails, size_t rails_len,
                   const uint8_t *holds, size_t holds_len, uint8_t *lines, size_t lines_len,
                   uint8_t *pairs, size_t pairs_len)
{
    return tuned_step(netlist, netlist_len, rails, rails_len, holds, holds_len, 2, UINT32_MAX, lines, lines_len, pairs,
                      pairs_len).refusal;
}

/* ---- Probe: words of 64 inputs. ---- */

enum { WORDS = 2, INPUTS = 64 * WORDS };

/* Two words side by side, for the machine's vector instructions: of 1, 2, 4 and 8 the fastest on x86-64 without AVX. */
typedef uint64_t words __attribute__((vector_size(8 * WORDS)));

struct gate {
    uint16_t left, right, kind;
};

struct search {
    unsigned first, lines;
    unsigned held_rail, level; /* a constant stands for no rail */
    struct gate gate[MOST_GATES];
    words value[PILGODUR_LINES_MAX];
};

/* The six lowest contacts at the 64 inputs of a word; a higher contact has one value in all of a word. */
static const uint64_t low_contact[6] = {
    0xaaaaaaaaaaaaaaaa, 0xcccccccccccccccc, 0xf0f0f0f0f0f0f0f0, 0xff00ff00ff00ff00, 0xffff0000ffff0000, 0xffffffff00000000,
};

static void take_gates(struct search *s, const uint8_t *gate)
{
    for (unsigned g = 0; g < s->lines - s->first; g++, gate += 5)
        s->gate[g] = (struct gate){(uint16_t)two_bytes(gate + 1), (uint16_t)two_bytes(gate + 3), gate[0]};
}

/* Question 14 for just one hold. */
static bool is_hold(const struct search *s, const uint8_t *hold, size_t length)
{
    if (length != 3 || hold[2] > 5)
        return false;
    unsigned line = two_bytes(hold), least = hold[2] < 2 ? 2 : s->first;
    return least <= line && line < s->lines;
}

/* A gate reads a constant at a held pin, and at both if its line is held. A held rail is set with the others. */
static void take_hold(struct search *s, const uint8_t *hold)
{
    unsigned line = two_bytes(hold);
    uint16_t level = hold[2] % 2;
    s->held_rail = line < s->first ? line : level;
    s->level = level;
    if (line < s->first)
        return;
    struct gate *gate = &s->gate[line - s->first];
    if (hold[2] < 4)
        gate->left = level;
    if (hold[2] < 2 || hold[2] > 3)
        gate->right = level;
}

static void put_rails(struct search *s, unsigned contacts, uint32_t input)
{
    s->value[0] = (words){0};
    s->value[1] = ~s->value[0];
    for (unsigned i = 0; i < contacts; i++) {
        words *on = &s->value[2 + 2 * i];
        for (unsigned k = 0; k < WORDS; k++)
            (*on)[k] = i < 6 ? low_contact[i] : -(uint64_t)((input + 64 * k) >> i & 1);
        on[1] = ~on[0];
    }
    s->value[s->held_rail] = s->value[s->level];
}

/* A gate is the majority of its sources and of the constant that its kind numbers. */
static void put_gates(struct search *s)
{
    for (unsigned line = s->first; line < s->lines; line++) {
        const struct gate *g = &s->gate[line - s->first];
        words a = s->value[g->left], b = s->value[g->right];
        s->value[line] = (a & b) | ((a | b) & s->value[g->kind]);
    }
}

/* Bit i of word k tells whether the pair of an output is no code at input 64k + i. */
static words no_code(const struct search *s, const uint8_t *pair)
{
    return ~(s->value[two_bytes(pair)] ^ s->value[two_bytes(pair + 2)]);
}

/* Works out 128 inputs from one on. Bit i of word k tells whether some pair is no code at the input 64k + i after it. */
static words put_lines(struct search *s, const struct table *t, const uint8_t *pairs, uint32_t input)
{
    words shown = {0};
    put_rails(s, t->contacts, input);
    put_gates(s);
    for (unsigned j = 0; j < t->outputs; j++)
        shown |= no_code(s, pairs + 4 * j);
    return shown;
}

/* The first input at which some pair is no code; 2^n if there is none, which can be for a pin alone. */
static uint32_t find_input(struct search *s, const struct table *t, const uint8_t *pairs)
{
    for (uint32_t input = 0; input >> t->contacts == 0; input += INPUTS) {
        words shown = put_lines(s, t, pairs, input);
        for (unsigned k = 0; k < WORDS; k++)
            if (shown[k] != 0)
                return input + 64 * k + (uint32_t)__builtin_ctzll(shown[k]);
    }
    return 1u << t->contacts;
}

/* Writes the lines at an input of those that are worked out. */
static void write_lines(const struct search *s, uint32_t input, uint8_t *lines)
{
    unsigned k = input % INPUTS / 64, bit = input % 64;
    for (unsigned line = 0; line < s->lines; line++)
        lines[line] = s->value[line][k] >> bit & 1;
}

static pilgodur_probed search(struct search *s, const struct table *t, const uint8_t *pairs, uint8_t *lines)
{
    uint32_t input = find_input(s, t, pairs);
    unsigned j = 0;
    if (input >> t->contacts != 0) {
        put_lines(s, t, pairs, 0);
        write_lines(s, 0, lines);
        return (pilgodur_probed){0, 0, 0, PILGODUR_WAY_HIDDEN};
    }
    while ((no_code(s, pairs + 4 * j)[input % INPUTS / 64] >> input % 64 & 1) == 0)
        j++;
    write_lines(s, input, lines);
    return (pilgodur_probed){0, input, j, s->level};
}

/* Question 15 without a look at the netlist: every gate is read, and a rail exactly if a node of its level has two different edges. */
static bool is_read(const struct table *t, unsigned line)
{
    unsigned l = line / 2 - 1, u = 0;
    if (l >= t->contacts)
        return true;
    while (u < t->width[l] && t->edge[l][2 * u] == t->edge[l][2 * u + 1])
        u++;
    return u < t->width[l];
}

pilgodur_probed tuned_probe(const uint8_t *table, size_t table_len, const uint8_t *hold, size_t hold_len,
                            uint8_t *buffer, size_t buffer_len)
{
    uint8_t made[PILGODUR_FILE_MAX];
    struct table t;
    struct search s;
    uint32_t refusal = read_table(table, table_len, &t);
    if (refusal != 0)
        return (pilgodur_probed){refusal, 0, 0, 0};
    size_t length = put_file(&t, made, &s.lines, false);
    s.first = 2 + 2 * t.contacts;
    if (!is_hold(&s, hold, hold_len))
        return (pilgodur_probed){14, 0, 0, 0};
    if (!is_read(&t, two_bytes(hold)))
        return (pilgodur_probed){15, 0, 0, 0};
    if (buffer_len < length + s.lines)
        return (pilgodur_probed){9, 0, 0, 0};
    take_gates(&s, made + 7);
    take_hold(&s, hold);
    memcpy(buffer, made, length);
    return search(&s, &t, buffer + length - 4 * t.outputs, buffer + length);
}

/* ---- The gate sheet: a row is three words, put together in registers; the columns of a number come from tables, without a loop or
 * a branch; those of a gate's own line are counted up. ---- */

enum { ROW = 22, PAGE = 50 };

#define TEN(ENTRY, t) ENTRY(t, 0), ENTRY(t, 1), ENTRY(t, 2), ENTRY(t, 3), ENTRY(t, 4), ENTRY(t, 5), ENTRY(t, 6), ENTRY(t, 7), \
    ENTRY(t, 8), ENTRY(t, 9)
#define HUNDRED(ENTRY) TEN(ENTRY, 0), TEN(ENTRY, 1), TEN(ENTRY, 2), TEN(ENTRY, 3), TEN(ENTRY, 4), TEN(ENTRY, 5), TEN(ENTRY, 6), \
    TEN(ENTRY, 7), TEN(ENTRY, 8), TEN(ENTRY, 9)
#define DIGITS(t, o) ('0' + t) | ('0' + o) << 8
#define BLANKED(t, o) (t == 0 ? ' ' : '0' + t) | ('0' + o) << 8
#define HIGH(t, o) ' ' | (t == 0 ? ' ' : '0' + t) << 8 | (t == 0 && o == 0 ? ' ' : '0' + o) << 16
#define ABOVE_99(t, o) '1' | ('0' + t) << 8 | ('0' + o) << 16

/* Text, the first character lowest: the last two columns of a number from 100 up, then of one below 100; the three columns before
 * them, by the count of hundreds; the kinds. */
static const uint16_t low_text[200] = {HUNDRED(DIGITS), HUNDRED(BLANKED)};
static const uint32_t high_text[200] = {HUNDRED(HIGH), HUNDRED(ABOVE_99)};
static const uint64_t kind_text[] = {'A' | 'N' << 8 | 'D' << 16, 'O' | 'R' << 8 | ' ' << 16, 'O' | 'U' << 8 | 'T' << 16,
                                     'L' | 'M' << 8 | 'P' << 16};

/* The columns of a number below 20,000. */
static uint64_t columns(uint32_t number)
{
    uint32_t hundreds = number * 5243 >> 19; /* number / 100 */
    uint32_t rest = number - 100 * hundreds;
    return high_text[hundreds] | (uint64_t)low_text[rest + (hundreds == 0 ? 100 : 0)] << 24;
}

/* From the columns of a number below 99,999 to those of the next: a blank becomes 1, as a 0 does. */
static uint64_t next_columns(uint64_t text)
{
    unsigned at = 32;
    for (; (text >> at & 0xff) == '9'; at -= 8)
        text -= 9ull << at;
    return (text | 0x10ull << at) + (1ull << at);
}

/* The second word ends in two characters that the third begins with. */
static uint8_t *put_row(uint8_t *at, uint64_t number, uint64_t kind, uint64_t a, uint64_t b)
{
    uint64_t first = number | (uint64_t)' ' << 40 | kind << 48;
    uint64_t second = kind >> 16 | ' ' << 8 | a << 16 | (uint64_t)' ' << 56;
    uint64_t third = a >> 32 | ' ' << 8 | b << 16 | (uint64_t)'\n' << 56;
    memcpy(at, &first, 8);
    memcpy(at + 8, &second, 8);
    memcpy(at + 14, &third, 8);
    return at + ROW;
}

static uint8_t *put_heading(uint8_t *at)
{
    memcpy(at, " LINE KIN     A     B\n", ROW);
    return at + ROW;
}

/* A gate's bytes as a number: kind, left source, right source. Three bytes after it are read, too, and dropped. */
static uint64_t gate_word(const uint8_t *gate)
{
    uint64_t bytes;
    memcpy(&bytes, gate, 8);
    return __builtin_bswap64(bytes) >> 24;
}

/* Writes the gates' rows, page by page. */
static uint8_t *put_gate_rows(uint8_t *at, const uint8_t *gate, unsigned gates, unsigned first)
{
    uint64_t line = columns(first);
    while (gates > 0) {
        unsigned rows = gates < PAGE ? gates : PAGE;
        at = put_heading(at);
        for (const uint8_t *end = gate + 5 * rows; gate < end; gate += 5) {
            uint64_t word = gate_word(gate);
            at = put_row(at, line, kind_text[word >> 32], columns(word >> 16 & 0xffff), columns(word & 0xffff));
            line = next_columns(line);
        }
        gates -= rows;
    }
    return at;
}

/* Writes the row of an output or of the lamp; so many come before it. */
static uint8_t *put_pair_row(uint8_t *at, unsigned before, unsigned number, uint64_t kind, const uint8_t *pair)
{
    if (before % PAGE == 0)
        at = put_heading(at);
    return put_row(at, columns(number), kind, columns(two_bytes(pair)), columns(two_bytes(pair + 2)));
}

pilgodur_built tuned_sheet(const uint8_t *netlist, size_t netlist_len, uint8_t *text, size_t text_len)
{
    struct netlist n;
    if (!netlist_fields(netlist, netlist_len, &n))
        return (pilgodur_built){11, 0};
    unsigned first = 2 + 2 * n.contacts, rows = n.gates + n.outputs + (n.lamp != NULL);
    if (!gates_good(n.gate, first, first + n.gates) || !pairs_good(&n, first + n.gates))
        return (pilgodur_built){12, 0};
    uint32_t length = ROW * (rows + (rows + PAGE - 1) / PAGE);
    if (text_len < length)
        return (pilgodur_built){9, 0};
    uint8_t *at = put_gate_rows(text, n.gate, n.gates, first);
    for (unsigned j = 0; j < n.outputs; j++)
        at = put_pair_row(at, n.gates + j, j, kind_text[2], n.output + 4 * j);
    if (n.lamp != NULL)
        put_pair_row(at, n.gates + n.outputs, 0, kind_text[3], n.lamp);
    return (pilgodur_built){0, length};
}

/* ---- From a drawing to its table: no truth tables. Each function is made once and gets a number, so that functions are equal exactly
 * if their numbers are. ---- */

enum { MOST_NODES = 200, NUMBERS = 2 + MOST_NODES, SLOTS = 512 };

struct drawing {
    unsigned contacts, outputs, nodes;
    const uint8_t *output, *node;
};

static bool find_nodes(const uint8_t *file, size_t length, struct drawing *d)
{
    size_t at = pass_contacts(file, length, &d->contacts);
    if (at == 0 || at + 4 > length || file[at] != 2 || file[at + 1] != 0 || file[at + 2] - 1u > 7)
        return false;
    d->outputs = file[at + 2];
    d->output = file + at + 3;
    at = pass_notes(file, length, at + 3 + d->outputs);
    if (at + 3 > length || file[at] != 7)
        return false;
    unsigned size = two_bytes(file + at + 1);
    d->nodes = size / 3;
    d->node = file + at + 3;
    return size % 3 == 0 && size <= 3 * MOST_NODES && pass_notes(file, length, at + 3 + size) == length;
}

/* Question 16. A number that is not listed has level 0, to which no edge may lead. Of nodes whose level is not below n the one with
 * the highest leads nowhere, so that need not be asked. */
static bool read_drawing(const uint8_t *file, size_t length, struct drawing *d)
{
    uint8_t level[256] = {0};
    bool bad = false;
    if (!find_nodes(file, length, d))
        return false;
    level[0] = level[1] = (uint8_t)d->contacts;
    for (unsigned i = 0; i < d->nodes; i++)
        level[2 + i] = d->node[3 * i];
    for (const uint8_t *node = d->node; node < d->node + 3 * d->nodes; node += 3)
        bad |= (level[node[1]] <= node[0]) | (level[node[2]] <= node[0]);
    for (unsigned j = 0; j < d->outputs; j++)
        bad |= d->output[j] >= 2 + d->nodes;
    return !bad;
}

/* The nodes by level, the highest first. */
static void sort_nodes(const struct drawing *d, uint8_t order[MOST_NODES])
{
    unsigned place[13] = {0};
    for (unsigned i = 0; i < d->nodes; i++)
        place[d->node[3 * i]]++;
    for (unsigned l = 12; l-- > 0;)
        place[l] += place[l + 1];
    for (unsigned i = 0; i < d->nodes; i++)
        order[--place[d->node[3 * i]]] = (uint8_t)i;
}

/* The functions that there are. A key is the first contact on which the function depends, and the functions that are left with it open
 * and closed, a byte each; functions 0 and 1 are the constants. A slot is 0 or a function whose key led there. */
struct functions {
    unsigned count;
    uint32_t key[NUMBERS];
    uint8_t slot[SLOTS];
};

static uint8_t function_of(struct functions *f, uint32_t key)
{
    uint32_t s = key * 0x9e3779b1u >> 23;
    while (f->slot[s] != 0 && f->key[f->slot[s]] != key)
        s = (s + 1) % SLOTS;
    if (f->slot[s] == 0) {
        f->key[f->count] = key;
        f->slot[s] = (uint8_t)f->count++;
    }
    return f->slot[s];
}

/* Gives each number of the drawing its function. */
static void find_functions(const struct drawing *d, struct functions *f, uint8_t function[NUMBERS])
{
    uint8_t order[MOST_NODES];
    sort_nodes(d, order);
    f->count = 2;
    f->key[0] = f->key[1] = d->contacts << 16;
    memset(f->slot, 0, sizeof f->slot);
    function[0] = 0;
    function[1] = 1;
    for (unsigned k = 0; k < d->nodes; k++) {
        const uint8_t *node = d->node + 3 * order[k];
        unsigned zero = function[node[1]], one = function[node[2]];
        function[2 + order[k]] = (uint8_t)(zero == one ? zero : function_of(f, (uint32_t)node[0] << 16 | zero << 8 | one));
    }
}

/* The functions of a level by first mention, and where each function was mentioned last: 16 times the level, and its place there.
 * Level 0 is counted as 1 there. */
struct mentions {
    unsigned width;
    uint8_t function[16];
    uint8_t place[NUMBERS];
};

static uint8_t place_of(struct mentions *m, unsigned level, unsigned function)
{
    if (m->place[function] >> 4 != level + 1) {
        m->place[function] = (uint8_t)((level + 1) << 4 | m->width);
        m->function[m->width++] = (uint8_t)function;
    }
    return m->place[function] & 15;
}

/* Writes the field of a level and goes on to the next. */
static uint8_t *put_level(const struct functions *f, struct mentions *m, unsigned level, unsigned contacts, uint8_t *at)
{
    uint8_t now[8];
    unsigned width = m->width;
    memcpy(now, m->function, 8);
    m->width = 0;
    memcpy(at, (uint8_t[]){3, 0, (uint8_t)(2 * width)}, 3);
    at += 3;
    for (unsigned u = 0; u < width; u++, at += 2) {
        uint32_t key = f->key[now[u]];
        bool looks = key >> 16 == level;
        unsigned zero = looks ? key >> 8 & 255 : now[u], one = looks ? key & 255 : now[u];
        at[0] = level + 1 == contacts ? (uint8_t)zero : place_of(m, level + 1, zero);
        at[1] = level + 1 == contacts ? (uint8_t)one : place_of(m, level + 1, one);
    }
    return at;
}

/* A table that was made, if there is room for it: question 9. */
static pilgodur_built hand_over(const uint8_t *made, size_t length, uint8_t *table, size_t table_len)
{
    if (table_len < length)
        return (pilgodur_built){9, 0};
    memcpy(table, made, length);
    return (pilgodur_built){0, (uint32_t)length};
}

/* Writes the table of outputs that are these functions: question 17, then 9. */
static pilgodur_built write_table(const struct functions *f, unsigned contacts, const uint8_t *output, unsigned outputs,
                                  uint8_t *table, size_t table_len)
{
    uint8_t made[PILGODUR_TABLE_MAX], *at = made + 7;
    struct mentions m = {0};
    memcpy(made, (uint8_t[]){1, 0, 1, (uint8_t)contacts, 2, 0, (uint8_t)outputs}, 7);
    for (unsigned j = 0; j < outputs; j++)
        *at++ = place_of(&m, 0, output[j]);
    for (unsigned l = 0; l < contacts; l++) {
        at = put_level(f, &m, l, contacts, at);
        if (m.width > 8)
            return (pilgodur_built){17, 0};
    }
    return hand_over(made, (size_t)(at - made), table, table_len);
}

pilgodur_built tuned_from_drawing(const uint8_t *drawing, size_t drawing_len, uint8_t *table, size_t table_len)
{
    uint8_t function[NUMBERS], output[8];
    struct drawing d;
    struct functions f;
    if (!read_drawing(drawing, drawing_len, &d))
        return (pilgodur_built){16, 0};
    find_functions(&d, &f, function);
    for (unsigned j = 0; j < d.outputs; j++)
        output[j] = function[d.output[j]];
    return write_table(&f, d.contacts, output, d.outputs, table, table_len);
}

/* ---- From rules to their table: a set of rules is a word of 64 bits, and fixing a contact leaves a subset. With at most six contacts
 * the sets of all inputs are made, and from them truth tables of one word. With more a set is halved while it has more than one rule,
 * and the outputs' functions are made from those of the halves. ---- */

enum { MOST_RULES = 64, SETS = 64 };

static const uint64_t bytes_of_1 = 0x0101010101010101;

/* A bit for each contact tells whether a rule wants it closed, and whether either will do: a low byte for contacts 0 to 7, a high byte
 * for the others. */
struct rules {
    unsigned contacts, outputs, count;
    uint32_t fitting; /* the inputs that fit each rule, summed */
    uint8_t word[MOST_RULES];
    uint8_t closed[2][MOST_RULES], either[2][MOST_RULES];
    uint64_t with_closed[16], with_either[16]; /* of each contact, the rules */
};

/* The lowest bits of eight bytes. */
static unsigned gather(uint64_t bytes)
{
    return (unsigned)((bytes & bytes_of_1) * 0x0102040810204080 >> 56);
}

/* Takes 1 to 8 signs, of which the last stands before a place; there are bytes before them. Counts those that are 2; false if one is
 * above. */
static bool take_signs(struct rules *r, unsigned half, const uint8_t *end, unsigned count, unsigned *either)
{
    uint64_t signs;
    memcpy(&signs, end - 8, 8);
    signs >>= 64 - 8 * count;
    r->closed[half][r->count] = (uint8_t)gather(signs);
    r->either[half][r->count] = (uint8_t)gather(signs >> 1);
    *either += (unsigned)((signs >> 1 & bytes_of_1) * bytes_of_1 >> 56);
    return ((signs & 0xfcfcfcfcfcfcfcfc) | (signs & signs >> 1 & bytes_of_1)) == 0;
}

/* Takes one rule; false if it is malformed. */
static bool take_rule(struct rules *r, const uint8_t *sign)
{
    unsigned n = r->contacts, either = 0;
    bool good = take_signs(r, 0, sign + (n < 8 ? n : 8), n < 8 ? n : 8, &either);
    if (n > 8)
        good &= take_signs(r, 1, sign + n, n - 8, &either);
    r->fitting += 1u << either;
    r->word[r->count++] = sign[n];
    return good && sign[n] >> r->outputs == 0;
}

/* Question 18. */
static bool read_rules(const uint8_t *file, size_t length, struct rules *r)
{
    size_t at = pass_contacts(file, length, &r->contacts);
    if (at == 0 || at + 4 > length || file[at] != 8 || file[at + 1] != 0 || file[at + 2] != 1 || file[at + 3] - 1u > 7)
        return false;
    r->outputs = file[at + 3];
    r->count = r->fitting = 0;
    for (at = pass_notes(file, length, at + 4); at < length; at = pass_notes(file, length, at + 4 + r->contacts))
        if (r->count == MOST_RULES || at + 4 + r->contacts > length || file[at] != 9 || file[at + 1] != 0 ||
            file[at + 2] != r->contacts + 1 || !take_rule(r, file + at + 3))
            return false;
    return at == length && r->count > 0;
}

/* Turns eight rows of eight bits into eight columns. */
static uint64_t transposed(uint64_t rows)
{
    uint64_t moved = (rows ^ rows >> 7) & 0x00aa00aa00aa00aa;
    rows ^= moved ^ moved << 7;
    moved = (rows ^ rows >> 14) & 0x0000cccc0000cccc;
    rows ^= moved ^ moved << 14;
    moved = (rows ^ rows >> 28) & 0x00000000f0f0f0f0;
    return rows ^ moved ^ moved << 28;
}

/* From a byte for each rule, with a bit for each of eight contacts, to a set of rules for each contact. Behind the last rule the bits
 * are any. */
static void put_sets(const uint8_t byte[MOST_RULES], unsigned rules, uint64_t set[8])
{
    uint64_t rows;
    memset(set, 0, 8 * sizeof *set);
    for (unsigned k = 0; k < rules; k += 8) {
        memcpy(&rows, byte + k, 8);
        rows = transposed(rows);
        for (unsigned i = 0; i < 8; i++)
            set[i] |= (rows >> 8 * i & 255) << k;
    }
}

/* Questions 19 and 20 of at most six contacts; makes the truth table of each output, contact 0 weighing most in the places. */
static uint32_t put_truths(const struct rules *r, uint64_t truth[8])
{
    uint64_t set[64];
    uint8_t word[64];
    bool shared = false, unruled = false;
    set[0] = ~0ull >> (64 - r->count);
    memset(word, 0, 8); /* with one or two contacts there are fewer */
    for (unsigned i = 0; i < r->contacts; i++)
        for (unsigned place = 1u << i; place-- > 0;) {
            uint64_t both = set[place];
            set[2 * place] = both & ~r->with_closed[i];
            set[2 * place + 1] = both & (r->with_closed[i] | r->with_either[i]);
        }
    for (unsigned place = 0; place < 1u << r->contacts; place++) {
        shared |= (set[place] & (set[place] - 1)) != 0;
        unruled |= set[place] == 0;
        word[place] = r->word[set[place] == 0 ? 0 : __builtin_ctzll(set[place])];
    }
    put_sets(word, 1u << r->contacts, truth);
    return shared ? 19 : unruled ? 20 : 0;
}

/* The truth tables of a level by first mention. */
struct truths {
    unsigned width;
    uint64_t of[17];
};

static uint8_t truth_place(struct truths *t, uint64_t truth)
{
    unsigned place = 0;
    t->of[t->width] = truth;
    while (t->of[place] != truth)
        place++;
    t->width += place == t->width;
    return (uint8_t)place;
}

/* Writes the table of truth tables of one word: question 17, then 9. */
static pilgodur_built write_truths(const struct rules *r, const uint64_t truth[8], uint8_t *table, size_t table_len)
{
    uint8_t made[PILGODUR_TABLE_MAX], *at = made + 7;
    struct truths levels[7];
    levels[0].width = 0;
    memcpy(made, (uint8_t[]){1, 0, 1, (uint8_t)r->contacts, 2, 0, (uint8_t)r->outputs}, 7);
    for (unsigned j = 0; j < r->outputs; j++)
        *at++ = truth_place(&levels[0], truth[j]);
    for (unsigned l = 0; l < r->contacts; l++) {
        struct truths *now = &levels[l], *next = &levels[l + 1];
        unsigned size = 1u << (r->contacts - l - 1);
        memcpy(at, (uint8_t[]){3, 0, (uint8_t)(2 * now->width)}, 3);
        at += 3;
        next->width = 0;
        for (unsigned u = 0; u < now->width; u++, at += 2) {
            uint64_t zero = now->of[u] & ((1ull << size) - 1), one = now->of[u] >> size;
            at[0] = size == 1 ? (uint8_t)zero : truth_place(next, zero);
            at[1] = size == 1 ? (uint8_t)one : truth_place(next, one);
        }
        if (next->width > 8)
            return (pilgodur_built){17, 0};
    }
    return hand_over(made, (size_t)(at - made), table, table_len);
}

/* Whether two rules differ at no contact that both fix. */
static bool any_shared(const struct rules *r)
{
    for (unsigned k = 0; k < r->count; k++) {
        uint64_t sharing = ~0ull >> (64 - r->count);
        for (unsigned i = 0; i < r->contacts; i++) {
            bool closed = r->with_closed[i] >> k & 1, either = r->with_either[i] >> k & 1;
            sharing &= either ? ~0ull : closed ? r->with_closed[i] | r->with_either[i] : ~r->with_closed[i];
        }
        if (sharing != 1ull << k)
            return true;
    }
    return false;
}

typedef uint16_t eight __attribute__((vector_size(16)));

/* The functions that are made: contact l and its opposite have the numbers 2 + 10l and 3 + 10l, and at most eight others that look at
 * contact l first have the next; in `edges` they have the functions that are left with it open and closed, a byte each. And sets of
 * rules, of more than one each, with the first contact that some rule fixes and the functions to which they lead, a byte for each
 * output. */
struct sets {
    const struct rules *rules;
    eight edges[12];
    unsigned width[12];
    bool wide;   /* there is a ninth function */
    bool shared; /* some input fits two rules, or none */
    uint64_t set[SETS], outputs[SETS];
    uint8_t level[SETS];
};

static uint64_t function_at(struct sets *s, unsigned level, unsigned zero, unsigned one)
{
    uint64_t pair[2];
    uint16_t edges = (uint16_t)(zero << 8 | one);
    eight found = (eight)(s->edges[level] == edges) & (eight){1, 2, 3, 4, 5, 6, 7, 8};
    if (zero == one)
        return zero;
    if ((zero | one) == 1)
        return 2 + 10 * level + zero;
    memcpy(pair, &found, sizeof pair);
    pair[0] |= pair[1];
    pair[0] |= pair[0] >> 32;
    unsigned place = (pair[0] | pair[0] >> 16) & 15;
    if (place == 0 && s->width[level] < 8) {
        s->edges[level][s->width[level]] = edges;
        place = ++s->width[level];
    }
    s->wide |= place == 0;
    return 3 + 10 * level + place;
}

/* The same for all outputs at once, where all that is left are constants. */
static uint64_t functions_of_one(unsigned level, uint64_t zero, uint64_t one)
{
    uint64_t different = zero ^ one;
    return (zero & ~different) + different * (2 + 10 * level) + (zero & different);
}

/* A byte 0 or 1 for each bit of the permit word of the only rule in a set, which must fix no contact from a level on. */
static uint64_t constants_of(struct sets *s, unsigned level, uint64_t set)
{
    unsigned k = (unsigned)__builtin_ctzll(set), n = s->rules->contacts;
    unsigned either = s->rules->either[0][k] | (n > 8 ? s->rules->either[1][k] << 8 : 0);
    uint64_t bits = s->rules->word[k] * bytes_of_1 & 0x8040201008040201;
    s->shared |= (either | ((1u << level) - 1)) != (1u << n) - 1;
    return (bits + 0x7f7f7f7f7f7f7f7f) >> 7 & bytes_of_1;
}

static uint64_t functions_of(struct sets *s, unsigned level, uint64_t set)
{
    const struct rules *r = s->rules;
    unsigned slot = set * 0x9e3779b97f4a7c15 >> 58;
    uint64_t made = 0;
    if ((set & (set - 1)) == 0 && set != 0)
        return constants_of(s, level, set);
    while (level < r->contacts && (set & ~r->with_either[level]) == 0)
        level++;
    s->shared |= level == r->contacts;
    if (s->shared || (s->set[slot] == set && s->level[slot] == level))
        return s->outputs[slot];
    uint64_t zero = functions_of(s, level + 1, set & ~r->with_closed[level]);
    uint64_t one = functions_of(s, level + 1, set & (r->with_closed[level] | r->with_either[level]));
    if (((zero | one) & ~bytes_of_1) == 0)
        made = functions_of_one(level, zero, one);
    else
        for (unsigned j = 0; j < 8 * r->outputs; j += 8)
            made |= function_at(s, level, zero >> j & 255, one >> j & 255) << j;
    s->set[slot] = set;
    s->level[slot] = (uint8_t)level;
    s->outputs[slot] = made;
    return made;
}

/* The keys of the functions, as a drawing's have them. */
static void put_keys(const struct sets *s, struct functions *f)
{
    f->key[0] = f->key[1] = s->rules->contacts << 16;
    for (uint32_t l = 0; l < s->rules->contacts; l++) {
        uint32_t *key = f->key + 2 + 10 * l;
        key[0] = l << 16 | 1;
        key[1] = l << 16 | 1 << 8;
        for (unsigned k = 0; k < s->width[l]; k++)
            key[2 + k] = l << 16 | s->edges[l][k];
    }
}

/* Makes the functions of all outputs: question 19, where as many inputs fit rules as there are, and question 17 in part. */
static uint32_t find_rule_functions(const struct rules *r, struct functions *f, uint8_t output[8])
{
    struct sets s;
    s.rules = r;
    s.wide = s.shared = false;
    memset(s.edges, 0, sizeof s.edges);
    memset(s.width, 0, sizeof s.width);
    memset(s.set, 0, sizeof s.set);
    uint64_t outputs = functions_of(&s, 0, ~0ull >> (64 - r->count));
    memcpy(output, &outputs, 8);
    put_keys(&s, f);
    return s.shared ? 19 : s.wide ? 17 : 0;
}

pilgodur_built tuned_from_rules(const uint8_t *rules, size_t rules_len, uint8_t *table, size_t table_len)
{
    struct rules r;
    struct functions f;
    uint64_t truth[8];
    uint8_t output[8];
    if (!read_rules(rules, rules_len, &r))
        return (pilgodur_built){18, 0};
    for (unsigned half = 0; half < (r.contacts > 8 ? 2 : 1); half++) {
        put_sets(r.closed[half], r.count, r.with_closed + 8 * half);
        put_sets(r.either[half], r.count, r.with_either + 8 * half);
    }
    if (r.contacts > 6 && r.fitting != 1u << r.contacts)
        return (pilgodur_built){r.fitting > 1u << r.contacts || any_shared(&r) ? 19 : 20, 0};
    uint32_t refusal = r.contacts > 6 ? find_rule_functions(&r, &f, output) : put_truths(&r, truth);
    if (refusal != 0)
        return (pilgodur_built){refusal, 0};
    if (r.contacts <= 6)
        return write_truths(&r, truth, table, table_len);
    return write_table(&f, r.contacts, output, r.outputs, table, table_len);
}
