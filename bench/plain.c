#include "plain.h"

#include <stdbool.h>
#include <string.h>

enum { MOST_GATES = 10602 }; /* of a netlist; a table's has 10,560 at most, and 6 for each of 7 joins of its lamp */

/* A table whose edges and outputs are read where the caller's bytes stand. */
struct table {
    unsigned contacts, outputs;
    const uint8_t *output;
    unsigned width[13];
    const uint8_t *edge[12];
};

/* An entry of a matrix is a line: 0 is never, 1 is always. */
struct matrix {
    uint16_t entry[8][8];
};

struct gate {
    uint8_t kind;
    uint16_t left, right;
};

/* A true line and a false line. */
struct pair {
    uint16_t yes, no;
};

static struct gate gates[MOST_GATES];
static unsigned gate_count;
static uint8_t depth[PILGODUR_LINES_MAX];
static uint8_t value[PILGODUR_LINES_MAX];

static unsigned two_bytes(const uint8_t *at)
{
    return 256u * at[0] + at[1];
}

/* ---- Fields. ---- */

/* A file of which the fields before `at` are read. */
struct reader {
    const uint8_t *at, *end;
};

struct field {
    unsigned tag, length;
    const uint8_t *value;
};

/* Reads the next field that is no note; false at the end, and at a field that is cut short, where the reader stays. */
static bool next_field(struct reader *r, struct field *f)
{
    do {
        if (r->end - r->at < 3 || r->end - r->at - 3 < (ptrdiff_t)two_bytes(r->at + 1))
            return false;
        *f = (struct field){r->at[0], two_bytes(r->at + 1), r->at + 3};
        r->at += 3 + f->length;
    } while (f->tag >= PILGODUR_NOTE_TAG);
    return true;
}

/* Reads the next field; true if there is one, of this tag and of such a length. */
static bool take(struct reader *r, unsigned tag, unsigned least, unsigned most, struct field *f)
{
    return next_field(r, f) && f->tag == tag && least <= f->length && f->length <= most;
}

/* True if no field follows, whole or cut short. */
static bool at_end(struct reader *r)
{
    struct field f;
    return !next_field(r, &f) && r->at == r->end;
}

static bool take_contacts(struct reader *r, unsigned *contacts)
{
    struct field f;
    if (!take(r, 1, 1, 1, &f) || f.value[0] < 1 || f.value[0] > 12)
        return false;
    *contacts = f.value[0];
    return true;
}

static bool whole_fields(struct reader r)
{
    struct field f;
    while (next_field(&r, &f))
        continue;
    return r.at == r.end;
}

/* ---- The table's questions. ---- */

/* Question 4; finds the levels. */
static bool find_levels(struct reader *r, struct table *t)
{
    for (unsigned l = 0; l < t->contacts; l++) {
        struct field f;
        if (!take(r, 3, 2, 16, &f) || f.length % 2 != 0)
            return false;
        t->width[l] = f.length / 2;
        t->edge[l] = f.value;
    }
    t->width[t->contacts] = 2;
    return at_end(r);
}

static bool all_below(const uint8_t *number, unsigned count, unsigned limit)
{
    for (unsigned i = 0; i < count; i++)
        if (number[i] >= limit)
            return false;
    return true;
}

static bool nodes_named(const struct table *t)
{
    for (unsigned l = 0; l < t->contacts; l++)
        if (!all_below(t->edge[l], 2 * t->width[l], t->width[l + 1]))
            return false;
    return all_below(t->output, t->outputs, t->width[0]);
}

static bool nodes_differ(const struct table *t)
{
    for (unsigned l = 0; l < t->contacts; l++)
        for (unsigned u = 0; u < t->width[l]; u++)
            for (unsigned v = 0; v < u; v++)
                if (t->edge[l][2 * u] == t->edge[l][2 * v] && t->edge[l][2 * u + 1] == t->edge[l][2 * v + 1])
                    return false;
    return true;
}

static bool in_order(const uint8_t *mention, unsigned count, unsigned width)
{
    unsigned next = 0;
    for (unsigned i = 0; i < count; i++) {
        if (mention[i] > next)
            return false;
        if (mention[i] == next)
            next++;
    }
    return next == width;
}

static bool nodes_in_order(const struct table *t)
{
    if (!in_order(t->output, t->outputs, t->width[0]))
        return false;
    for (unsigned l = 1; l < t->contacts; l++)
        if (!in_order(t->edge[l - 1], 2 * t->width[l - 1], t->width[l]))
            return false;
    return true;
}

static uint32_t read_table(const uint8_t *file, size_t length, struct table *t)
{
    struct reader r = {file, file + length};
    struct field outputs;
    if (!whole_fields(r))
        return 1;
    if (!take_contacts(&r, &t->contacts))
        return 2;
    if (!take(&r, 2, 1, 8, &outputs))
        return 3;
    t->outputs = outputs.length;
    t->output = outputs.value;
    if (!find_levels(&r, t))
        return 4;
    if (!nodes_named(t))
        return 5;
    if (!nodes_differ(t))
        return 6;
    if (!nodes_in_order(t))
        return 7;
    return 0;
}

/* ---- From levels to gates. ---- */

static uint16_t make_gate(unsigned contacts, uint8_t kind, uint16_t left, uint16_t right)
{
    uint16_t line = (uint16_t)(2 + 2 * contacts + gate_count);
    gates[gate_count++] = (struct gate){kind, left, right};
    depth[line] = (uint8_t)(1 + (depth[left] > depth[right] ? depth[left] : depth[right]));
    return line;
}

static uint16_t or_tree(unsigned contacts, const uint16_t *term, unsigned count)
{
    if (count == 1)
        return term[0];
    unsigned half = (count + 1) / 2;
    uint16_t first = or_tree(contacts, term, half);
    uint16_t rest = or_tree(contacts, term + half, count - half);
    return make_gate(contacts, 1, first, rest);
}

static uint16_t product_entry(const struct table *t, const struct matrix *left, const struct matrix *right, unsigned u,
                              unsigned middle, unsigned v)
{
    uint16_t term[8];
    unsigned count = 0;
    for (unsigned w = 0; w < middle; w++)
        if (left->entry[u][w] == 1 && right->entry[w][v] == 1)
            return 1;
    for (unsigned w = 0; w < middle; w++) {
        uint16_t a = left->entry[u][w];
        uint16_t b = right->entry[w][v];
        if (a != 0 && b != 0)
            term[count++] = a == 1 ? b : b == 1 ? a : make_gate(t->contacts, 0, a, b);
    }
    return count == 0 ? 0 : or_tree(t->contacts, term, count);
}

static void one_level(const struct table *t, unsigned l, struct matrix *m)
{
    for (unsigned u = 0; u < t->width[l]; u++)
        for (unsigned v = 0; v < t->width[l + 1]; v++) {
            bool zero = t->edge[l][2 * u] == v;
            bool one = t->edge[l][2 * u + 1] == v;
            m->entry[u][v] = (uint16_t)(zero && one ? 1 : one ? 2 + 2 * l : zero ? 3 + 2 * l : 0);
        }
}

static void block(const struct table *t, unsigned l, unsigned k, struct matrix *m)
{
    if (k - l == 1) {
        one_level(t, l, m);
        return;
    }
    struct matrix left, right;
    unsigned cut = l + (k - l + 1) / 2;
    block(t, l, cut, &left);
    block(t, cut, k, &right);
    for (unsigned u = 0; u < t->width[l]; u++)
        for (unsigned v = 0; v < t->width[k]; v++)
            m->entry[u][v] = product_entry(t, &left, &right, u, t->width[cut], v);
}

static void make_gates(const struct table *t, struct matrix *whole)
{
    gate_count = 0;
    memset(depth, 0, 2 + 2 * t->contacts);
    block(t, 0, t->contacts, whole);
}

/* ---- The lamp. ---- */

static struct pair join_pairs(unsigned contacts, struct pair a, struct pair b)
{
    struct pair joined;
    uint16_t first = make_gate(contacts, 0, a.yes, b.yes);
    uint16_t second = make_gate(contacts, 0, a.no, b.no);
    joined.yes = make_gate(contacts, 1, first, second);
    first = make_gate(contacts, 0, a.yes, b.no);
    second = make_gate(contacts, 0, a.no, b.yes);
    joined.no = make_gate(contacts, 1, first, second);
    return joined;
}

/* Joins the pairs of so many outputs. */
static struct pair make_lamp(const struct table *t, const struct matrix *whole, const uint8_t *output, unsigned count)
{
    unsigned half = (count + 1) / 2;
    if (count == 1)
        return (struct pair){whole->entry[*output][1], whole->entry[*output][0]};
    struct pair first = make_lamp(t, whole, output, half);
    struct pair rest = make_lamp(t, whole, output + half, count - half);
    return join_pairs(t->contacts, first, rest);
}

/* ---- The netlist file. ---- */

static uint8_t *put_two(uint8_t *at, unsigned number)
{
    at[0] = (uint8_t)(number / 256);
    at[1] = (uint8_t)number;
    return at + 2;
}

static uint8_t *put_head(uint8_t *at, uint8_t tag, unsigned length)
{
    *at = tag;
    return put_two(at + 1, length);
}

static size_t file_length(const struct table *t)
{
    return 10 + 5 * (size_t)gate_count + 4 * t->outputs;
}

/* Returns the end of the file. */
static uint8_t *write_file(const struct table *t, const struct matrix *whole, uint8_t *at)
{
    at = put_head(at, 1, 1);
    *at++ = (uint8_t)t->contacts;
    at = put_head(at, 4, 5 * gate_count);
    for (unsigned g = 0; g < gate_count; g++) {
        *at++ = gates[g].kind;
        at = put_two(at, gates[g].left);
        at = put_two(at, gates[g].right);
    }
    at = put_head(at, 5, 4 * t->outputs);
    for (unsigned j = 0; j < t->outputs; j++) {
        at = put_two(at, whole->entry[t->output[j]][1]);
        at = put_two(at, whole->entry[t->output[j]][0]);
    }
    return at;
}

/* ---- Questions about netlists. ---- */

/* A netlist whose gates and pairs are read where the caller's bytes stand. */
struct netlist {
    unsigned first, lines, outputs;
    const uint8_t *gate, *output;
    const uint8_t *lamp; /* NULL if there is none */
};

/* Question 11. */
static bool netlist_fields(const uint8_t *file, size_t length, struct netlist *n)
{
    struct reader r = {file, file + length};
    struct field gate, output, lamp;
    unsigned contacts;
    if (!take_contacts(&r, &contacts) || !take(&r, 4, 0, 5 * MOST_GATES, &gate) || gate.length % 5 != 0 ||
        !take(&r, 5, 4, 32, &output) || output.length % 4 != 0)
        return false;
    n->first = 2 + 2 * contacts;
    n->lines = n->first + gate.length / 5;
    n->outputs = output.length / 4;
    n->gate = gate.value;
    n->output = output.value;
    bool more = next_field(&r, &lamp);
    n->lamp = more ? lamp.value : NULL;
    return (!more || (lamp.tag == 6 && lamp.length == 4)) && at_end(&r);
}

/* The lamp's pair comes after those of the outputs. */
static unsigned pair_count(const struct netlist *n)
{
    return n->outputs + (n->lamp != NULL);
}

static const uint8_t *pair_at(const struct netlist *n, unsigned j)
{
    return j < n->outputs ? n->output + 4 * j : n->lamp;
}

/* Question 12. */
static bool netlist_lines(const struct netlist *n)
{
    const uint8_t *at = n->gate;
    for (unsigned line = n->first; line < n->lines; line++, at += 5)
        if (at[0] > 1 || two_bytes(at + 1) >= line || two_bytes(at + 3) >= line)
            return false;
    for (unsigned j = 0; j < pair_count(n); j++)
        if (two_bytes(pair_at(n, j)) >= n->lines || two_bytes(pair_at(n, j) + 2) >= n->lines)
            return false;
    return true;
}

/* The place of the first hold that is not of a line. */
static size_t pins_from(const uint8_t *holds, size_t length)
{
    size_t h = 0;
    while (h < length && holds[h + 2] < 2)
        h += 3;
    return h;
}

/* Question 14. A pin has twice the number of its gate's line plus 1 if it is the first, 2 if it is the second. */
static bool holds_good(const uint8_t *holds, size_t length, unsigned first, unsigned lines)
{
    unsigned least = 2, least_pin = 2 * first + 1;
    if (length % 3 != 0)
        return false;
    size_t h = 0, pins = pins_from(holds, length);
    for (; h < pins; h += 3) {
        unsigned line = two_bytes(holds + h);
        if (line < least || line >= lines)
            return false;
        least = line + 1;
    }
    for (; h < length; h += 3) {
        unsigned line = two_bytes(holds + h), pin = 2 * line + holds[h + 2] / 2;
        if (holds[h + 2] < 2 || holds[h + 2] > 5 || pin < least_pin || line >= lines)
            return false;
        least_pin = pin + 1;
    }
    return true;
}

/* ---- The services. ---- */

pilgodur_checked plain_check(const uint8_t *table, size_t table_len)
{
    struct table t;
    struct matrix whole;
    uint32_t refusal = read_table(table, table_len, &t);
    if (refusal != 0)
        return (pilgodur_checked){refusal, 0, 0, 0, 0};
    make_gates(&t, &whole);
    uint32_t largest = 0;
    for (unsigned line = 0; line < 2 + 2 * t.contacts + gate_count; line++)
        if (depth[line] > largest)
            largest = depth[line];
    return (pilgodur_checked){0, t.contacts, t.outputs, gate_count, largest};
}

static pilgodur_built build(const uint8_t *table, size_t table_len, uint8_t *file, size_t file_len, bool with_lamp)
{
    struct table t;
    struct matrix whole;
    struct pair lamp;
    uint32_t refusal = read_table(table, table_len, &t);
    if (refusal != 0)
        return (pilgodur_built){refusal, 0};
    make_gates(&t, &whole);
    if (with_lamp)
        lamp = make_lamp(&t, &whole, t.output, t.outputs);
    size_t length = file_length(&t) + (with_lamp ? 7 : 0);
    if (file_len < length)
        return (pilgodur_built){9, 0};
    file = write_file(&t, &whole, file);
    if (with_lamp)
        put_two(put_two(put_head(file, 6, 4), lamp.yes), lamp.no);
    return (pilgodur_built){0, (uint32_t)length};
}

pilgodur_built plain_build(const uint8_t *table, size_t table_len, uint8_t *file, size_t file_len)
{
    return build(table, table_len, file, file_len, false);
}

pilgodur_built plain_build_with_lamp(const uint8_t *table, size_t table_len, uint8_t *file, size_t file_len)
{
    return build(table, table_len, file, file_len, true);
}

pilgodur_reading plain_read_off(const uint8_t *table, size_t table_len, uint32_t input)
{
    struct table t;
    uint32_t refusal = read_table(table, table_len, &t);
    if (refusal != 0)
        return (pilgodur_reading){refusal, 0};
    if (input >= 1u << t.contacts)
        return (pilgodur_reading){10, 0};
    uint32_t word = 0;
    for (unsigned j = 0; j < t.outputs; j++) {
        unsigned node = t.output[j];
        for (unsigned i = 0; i < t.contacts; i++)
            node = t.edge[i][2 * node + (input >> i & 1)];
        word |= (uint32_t)node << j;
    }
    return (pilgodur_reading){0, word};
}

/* Works out the lines from one to before another, and sets the constants. Holds of lines stand before `pins`, the others from there on;
 * those of earlier lines are passed over. A gate is the majority of what it reads and of its kind. */
static void run_lines(const struct netlist *n, const uint8_t *rails, const uint8_t *holds, size_t holds_len, unsigned from,
                      unsigned to, uint8_t *lines)
{
    const uint8_t *gate = n->gate + (from < n->first ? 0 : 5 * (from - n->first));
    size_t pins = pins_from(holds, holds_len), h = 0, p = pins;
    lines[0] = 0;
    lines[1] = 1;
    while (h < pins && two_bytes(holds + h) < from)
        h += 3;
    while (p < holds_len && two_bytes(holds + p) < from)
        p += 3;
    for (unsigned line = from; line < to; line++) {
        if (line < n->first) {
            lines[line] = rails[line - 2];
        } else {
            uint8_t a = lines[two_bytes(gate + 1)];
            uint8_t b = lines[two_bytes(gate + 3)];
            for (; p < holds_len && two_bytes(holds + p) == line; p += 3)
                *(holds[p + 2] < 4 ? &a : &b) = holds[p + 2] % 2;
            lines[line] = (a & b) | ((a | b) & gate[0]);
            gate += 5;
        }
        if (h < pins && two_bytes(holds + h) == line) {
            lines[line] = holds[h + 2];
            h += 3;
        }
    }
}

static void write_pairs(const struct netlist *n, const uint8_t *lines, uint8_t *pairs)
{
    for (unsigned j = 0; j < pair_count(n); j++) {
        pairs[2 * j] = lines[two_bytes(pair_at(n, j))];
        pairs[2 * j + 1] = lines[two_bytes(pair_at(n, j) + 2)];
    }
}

/* Questions 11 to 14, 21 and 9. */
static uint32_t read_run(const uint8_t *netlist, size_t netlist_len, const uint8_t *rails, size_t rails_len, const uint8_t *holds,
                         size_t holds_len, uint32_t place, size_t lines_len, size_t pairs_len, struct netlist *n)
{
    if (!netlist_fields(netlist, netlist_len, n))
        return 11;
    if (!netlist_lines(n))
        return 12;
    if (rails_len != n->first - 2 || !all_below(rails, n->first - 2, 2))
        return 13;
    if (!holds_good(holds, holds_len, n->first, n->lines))
        return 14;
    if (place < 2 || place > n->lines)
        return 21;
    return lines_len < n->lines || pairs_len < 2 * pair_count(n) ? 9 : 0;
}

uint32_t plain_run(const uint8_t *netlist, size_t netlist_len, const uint8_t *rails, size_t rails_len,
                   const uint8_t *holds, size_t holds_len, uint8_t *lines, size_t lines_len,
                   uint8_t *pairs, size_t pairs_len)
{
    struct netlist n;
    uint32_t refusal = read_run(netlist, netlist_len, rails, rails_len, holds, holds_len, 2, lines_len, pairs_len, &n);
    if (refusal != 0)
        return refusal;
    run_lines(&n, rails, holds, holds_len, 2, n.lines, lines);
    write_pairs(&n, lines, pairs);
    return 0;
}

/* The earlier lines are read into `value`, where every byte but 0 is 1. */
pilgodur_stepped plain_step(const uint8_t *netlist, size_t netlist_len, const uint8_t *rails, size_t rails_len,
                            const uint8_t *holds, size_t holds_len, uint32_t place, uint32_t count,
                            uint8_t *lines, size_t lines_len, uint8_t *pairs, size_t pairs_len)
{
    struct netlist n;
    uint32_t refusal = read_run(netlist, netlist_len, rails, rails_len, holds, holds_len, place, lines_len, pairs_len, &n);
    if (refusal != 0)
        return (pilgodur_stepped){refusal, 0};
    unsigned to = count < n.lines - place ? place + count : n.lines;
    for (unsigned line = 2; line < place; line++)
        value[line] = lines[line] != 0;
    run_lines(&n, rails, holds, holds_len, place, to, value);
    memcpy(lines, value, 2);
    memcpy(lines + place, value + place, to - place);
    if (to == n.lines)
        write_pairs(&n, value, pairs);
    return (pilgodur_stepped){0, to};
}

/* Question 15. */
static bool is_read(const struct table *t, const struct matrix *whole, unsigned line)
{
    for (unsigned g = 0; g < gate_count; g++)
        if (gates[g].left == line || gates[g].right == line)
            return true;
    for (unsigned j = 0; j < t->outputs; j++)
        if (whole->entry[t->output[j]][0] == line || whole->entry[t->output[j]][1] == line)
            return true;
    return false;
}

/* Works out every line at a code input with one line held; line 0 held at 0 is as it is. */
static void work_out(unsigned contacts, uint32_t input, unsigned held, uint8_t held_at)
{
    unsigned first = 2 + 2 * contacts;
    value[0] = 0;
    value[1] = 1;
    for (unsigned i = 0; i < contacts; i++) {
        value[2 + 2 * i] = input >> i & 1;
        value[3 + 2 * i] = !(input >> i & 1);
    }
    if (held < first)
        value[held] = held_at;
    for (unsigned g = 0; g < gate_count; g++) {
        uint8_t a = value[gates[g].left];
        uint8_t b = value[gates[g].right];
        value[first + g] = gates[g].kind == 0 ? a & b : a | b;
        if (first + g == held)
            value[held] = held_at;
    }
}

/* Where no input shows what is held it is a pin, which is hidden, and the lines are left as they are at input 0. */
static pilgodur_probed search(const struct table *t, const struct matrix *whole, unsigned held, uint8_t held_at)
{
    for (uint32_t input = 0; input < 1u << t->contacts; input++) {
        work_out(t->contacts, input, held, held_at);
        for (unsigned j = 0; j < t->outputs; j++) {
            const uint16_t *pair = whole->entry[t->output[j]];
            if (value[pair[0]] == value[pair[1]])
                return (pilgodur_probed){0, input, j, value[pair[0]]};
        }
    }
    work_out(t->contacts, 0, held, held_at);
    return (pilgodur_probed){0, 0, 0, PILGODUR_WAY_HIDDEN};
}

/* A pin that is held reads a constant's line in place of its source. */
static pilgodur_probed search_pin(const struct table *t, const struct matrix *whole, struct gate *gate, uint8_t pin_value)
{
    *(pin_value < 4 ? &gate->left : &gate->right) = pin_value % 2;
    return search(t, whole, 0, 0);
}

pilgodur_probed plain_probe(const uint8_t *table, size_t table_len, const uint8_t *hold, size_t hold_len,
                            uint8_t *buffer, size_t buffer_len)
{
    struct table t;
    struct matrix whole;
    uint32_t refusal = read_table(table, table_len, &t);
    if (refusal != 0)
        return (pilgodur_probed){refusal, 0, 0, 0};
    make_gates(&t, &whole);
    unsigned first = 2 + 2 * t.contacts, count = first + gate_count;
    if (hold_len != 3 || !holds_good(hold, hold_len, first, count))
        return (pilgodur_probed){14, 0, 0, 0};
    if (hold[2] < 2 && !is_read(&t, &whole, two_bytes(hold)))
        return (pilgodur_probed){15, 0, 0, 0};
    if (buffer_len < file_length(&t) + count)
        return (pilgodur_probed){9, 0, 0, 0};
    write_file(&t, &whole, buffer);
    pilgodur_probed answer = hold[2] < 2 ? search(&t, &whole, two_bytes(hold), hold[2])
                                         : search_pin(&t, &whole, &gates[two_bytes(hold) - first], hold[2]);
    memcpy(buffer + file_length(&t), value, count);
    return answer;
}

/* ---- The gate sheet. ---- */

enum { ROW = 22, PAGE = 50 };

/* A number in five columns. */
static uint8_t *put_number(uint8_t *at, unsigned number)
{
    unsigned i = 5;
    do {
        at[--i] = (uint8_t)('0' + number % 10);
        number /= 10;
    } while (number != 0);
    while (i > 0)
        at[--i] = ' ';
    return at + 5;
}

/* Row r, counted from 0, with the heading where there is one before it. */
static uint8_t *put_row(uint8_t *at, unsigned r, unsigned number, const char *kind, const uint8_t *lines)
{
    if (r % PAGE == 0) {
        memcpy(at, " LINE KIN     A     B\n", ROW);
        at += ROW;
    }
    at = put_number(at, number);
    *at++ = ' ';
    memcpy(at, kind, 3);
    at += 3;
    *at++ = ' ';
    at = put_number(at, two_bytes(lines));
    *at++ = ' ';
    at = put_number(at, two_bytes(lines + 2));
    *at++ = '\n';
    return at;
}

pilgodur_built plain_sheet(const uint8_t *netlist, size_t netlist_len, uint8_t *text, size_t text_len)
{
    struct netlist n;
    if (!netlist_fields(netlist, netlist_len, &n))
        return (pilgodur_built){11, 0};
    if (!netlist_lines(&n))
        return (pilgodur_built){12, 0};
    unsigned gates_found = n.lines - n.first;
    size_t rows = gates_found + pair_count(&n);
    size_t length = ROW * (rows + (rows + PAGE - 1) / PAGE);
    if (text_len < length)
        return (pilgodur_built){9, 0};
    const uint8_t *gate = n.gate;
    for (unsigned g = 0; g < gates_found; g++, gate += 5)
        text = put_row(text, g, n.first + g, gate[0] == 0 ? "AND" : "OR ", gate + 1);
    for (unsigned j = 0; j < n.outputs; j++)
        text = put_row(text, gates_found + j, j, "OUT", n.output + 4 * j);
    if (n.lamp != NULL)
        put_row(text, gates_found + n.outputs, 0, "LMP", n.lamp);
    return (pilgodur_built){0, (uint32_t)length};
}

/* ---- From a drawing to its table: truth tables of 64-bit words. ---- */

enum { MOST_NODES = 200, WORDS = 4096 / 64 };

struct drawing {
    unsigned contacts, outputs, nodes;
    const uint8_t *output, *node; /* one byte, three bytes each */
};

/* The truth table of each output. Bit q is the value at the input in which contact l is bit n-1-l of q, so that fixing the first l
 * contacts leaves 2^(n-l) bits in a row. The last six contacts vary within a word, the others are fixed. */
static uint64_t truth[8][WORDS];

/* The word of each constant and of each node of the last six levels. */
static uint64_t number_word[2 + MOST_NODES];

/* The bits i of the places in a word. */
static const uint64_t place_bit[6] = {
    0xaaaaaaaaaaaaaaaa, 0xcccccccccccccccc, 0xf0f0f0f0f0f0f0f0, 0xff00ff00ff00ff00, 0xffff0000ffff0000, 0xffffffff00000000,
};

static bool leads_up(const struct drawing *d, unsigned level, unsigned edge)
{
    return edge < 2 || (edge < 2 + d->nodes && level < d->node[3 * (edge - 2)]);
}

/* Question 16. */
static bool read_drawing(const uint8_t *file, size_t length, struct drawing *d)
{
    struct reader r = {file, file + length};
    struct field outputs, nodes;
    unsigned contacts;
    if (!take_contacts(&r, &contacts) || !take(&r, 2, 1, 8, &outputs) || !take(&r, 7, 0, 3 * MOST_NODES, &nodes) ||
        nodes.length % 3 != 0 || !at_end(&r))
        return false;
    *d = (struct drawing){contacts, outputs.length, nodes.length / 3, outputs.value, nodes.value};
    for (unsigned i = 0; i < d->nodes; i++) {
        const uint8_t *node = d->node + 3 * i;
        if (node[0] >= d->contacts || !leads_up(d, node[0], node[1]) || !leads_up(d, node[0], node[2]))
            return false;
    }
    return all_below(d->output, d->outputs, 2 + d->nodes);
}

/* The words of the constants and of the nodes from a level on, the highest level first. */
static void put_words(const struct drawing *d, unsigned fixed)
{
    number_word[0] = 0;
    number_word[1] = ~(uint64_t)0;
    for (unsigned level = d->contacts; level-- > fixed;)
        for (unsigned i = 0; i < d->nodes; i++) {
            const uint8_t *node = d->node + 3 * i;
            uint64_t closed = place_bit[d->contacts - 1 - level];
            if (node[0] == level)
                number_word[2 + i] = (closed & number_word[node[2]]) | (~closed & number_word[node[1]]);
        }
}

/* The truth table of a number over the last of the fixed contacts, so many: one word, or that of either edge, again and again. */
static void put_block(const struct drawing *d, unsigned fixed, unsigned number, unsigned left, uint64_t *at)
{
    const uint8_t *node = number < 2 ? NULL : d->node + 3 * (number - 2);
    if (node == NULL || node[0] >= fixed) {
        for (unsigned w = 0; w < 1u << left; w++)
            at[w] = number_word[number];
        return;
    }
    unsigned half = fixed - 1 - node[0], size = 2u << half;
    put_block(d, fixed, node[1], half, at);
    put_block(d, fixed, node[2], half, at + size / 2);
    for (unsigned w = size; w < 1u << left; w++)
        at[w] = at[w - size];
}

static void put_truths(const struct drawing *d)
{
    unsigned fixed = d->contacts <= 6 ? 0 : d->contacts - 6;
    put_words(d, fixed);
    for (unsigned j = 0; j < d->outputs; j++)
        put_block(d, fixed, d->output[j], fixed, truth[j]);
}

/* A function that is left with some contacts fixed: the bits of a truth table from one on. */
struct part {
    const uint64_t *truth;
    unsigned from;
};

static bool same_bits(const struct part *a, const struct part *b, unsigned size)
{
    const uint64_t *x = a->truth + a->from / 64, *y = b->truth + b->from / 64;
    if (size < 64)
        return ((*x >> a->from % 64 ^ *y >> b->from % 64) & ((1ull << size) - 1)) == 0;
    for (unsigned w = 0; w < size / 64; w++)
        if (x[w] != y[w])
            return false;
    return true;
}

/* The functions of a level by first mention. */
struct level {
    unsigned width;
    struct part part[8];
};

/* The place of a function of `size` bits in its level, where it is added if it was not there; 8 if it is the ninth. */
static unsigned mention(struct level *level, unsigned size, struct part part)
{
    for (unsigned u = 0; u < level->width; u++)
        if (same_bits(&level->part[u], &part, size))
            return u;
    if (level->width < 8)
        level->part[level->width] = part;
    return level->width < 8 ? level->width++ : 8;
}

/* Writes the edges of a level and makes the next; false if that has a ninth function. Behind the last level an edge is a bit. */
static bool put_level(const struct level *level, unsigned size, struct level *next, uint8_t *at)
{
    for (unsigned u = 0; u < level->width; u++)
        for (unsigned value = 0; value < 2; value++) {
            struct part half = level->part[u];
            half.from += value * size;
            unsigned edge = size == 1 ? half.truth[half.from / 64] >> half.from % 64 & 1 : mention(next, size, half);
            if (edge == 8)
                return false;
            *at++ = (uint8_t)edge;
        }
    return true;
}

/* Writes the table of the truth tables: question 17, then 9. */
static pilgodur_built write_table(unsigned contacts, unsigned outputs, uint8_t *table, size_t table_len)
{
    uint8_t made[PILGODUR_TABLE_MAX], *at = made;
    struct level levels[13] = {{0}};
    at = put_head(at, 1, 1);
    *at++ = (uint8_t)contacts;
    at = put_head(at, 2, outputs);
    for (unsigned j = 0; j < outputs; j++)
        *at++ = (uint8_t)mention(&levels[0], 1u << contacts, (struct part){truth[j], 0});
    for (unsigned l = 0; l < contacts; l++) {
        at = put_head(at, 3, 2 * levels[l].width);
        if (!put_level(&levels[l], 1u << (contacts - l - 1), &levels[l + 1], at))
            return (pilgodur_built){17, 0};
        at += 2 * levels[l].width;
    }
    size_t length = (size_t)(at - made);
    if (table_len < length)
        return (pilgodur_built){9, 0};
    memcpy(table, made, length);
    return (pilgodur_built){0, (uint32_t)length};
}

pilgodur_built plain_from_drawing(const uint8_t *drawing, size_t drawing_len, uint8_t *table, size_t table_len)
{
    struct drawing d;
    if (!read_drawing(drawing, drawing_len, &d))
        return (pilgodur_built){16, 0};
    put_truths(&d);
    return write_table(d.contacts, d.outputs, table, table_len);
}

/* ---- From rules to their table: the same truth tables. ---- */

enum { MOST_RULES = 64 };

/* The inputs that fit a rule: in the words whose numbers have these bits, at these places. */
struct rule {
    unsigned mask, bits;
    uint64_t places;
    uint8_t word;
};

struct rules {
    unsigned contacts, outputs, count;
    struct rule rule[MOST_RULES];
};

/* Contacts that are fixed within a word have a bit in its number, contact 0 the one that weighs most. */
static bool read_rule(const uint8_t *sign, unsigned contacts, struct rule *r)
{
    unsigned fixed = contacts <= 6 ? 0 : contacts - 6;
    *r = (struct rule){0, 0, ~(uint64_t)0, sign[contacts]};
    for (unsigned i = 0; i < contacts; i++) {
        if (sign[i] > 2)
            return false;
        if (sign[i] == 2)
            continue;
        if (i >= fixed) {
            uint64_t closed = place_bit[contacts - 1 - i];
            r->places &= sign[i] == 1 ? closed : ~closed;
        } else {
            r->mask |= 1u << (fixed - 1 - i);
            r->bits |= (unsigned)sign[i] << (fixed - 1 - i);
        }
    }
    return true;
}

/* Question 18. */
static bool read_rules(const uint8_t *file, size_t length, struct rules *s)
{
    struct reader r = {file, file + length};
    struct field f;
    if (!take_contacts(&r, &s->contacts) || !take(&r, 8, 1, 1, &f) || f.value[0] < 1 || f.value[0] > 8)
        return false;
    s->outputs = f.value[0];
    s->count = 0;
    while (next_field(&r, &f)) {
        if (f.tag != 9 || f.length != s->contacts + 1 || f.value[s->contacts] >> s->outputs != 0 || s->count == MOST_RULES ||
            !read_rule(f.value, s->contacts, &s->rule[s->count]))
            return false;
        s->count++;
    }
    return s->count > 0 && r.at == r.end;
}

/* Questions 19 and 20, while the truth tables are made. */
static uint32_t put_rules(const struct rules *s)
{
    bool shared = false, unruled = false;
    for (unsigned w = 0; w < (s->contacts <= 6 ? 1 : 1u << (s->contacts - 6)); w++) {
        uint64_t ruled = 0;
        for (unsigned j = 0; j < s->outputs; j++)
            truth[j][w] = 0;
        for (const struct rule *r = s->rule; r < s->rule + s->count; r++) {
            if ((w & r->mask) != r->bits)
                continue;
            shared |= (ruled & r->places) != 0;
            ruled |= r->places;
            for (unsigned j = 0; j < s->outputs; j++)
                if (r->word >> j & 1)
                    truth[j][w] |= r->places;
        }
        unruled |= ~ruled != 0;
    }
    return shared ? 19 : unruled ? 20 : 0;
}

pilgodur_built plain_from_rules(const uint8_t *rules, size_t rules_len, uint8_t *table, size_t table_len)
{
    struct rules s;
    if (!read_rules(rules, rules_len, &s))
        return (pilgodur_built){18, 0};
    uint32_t refusal = put_rules(&s);
    if (refusal != 0)
        return (pilgodur_built){refusal, 0};
    return write_table(s.contacts, s.outputs, table, table_len);
}
