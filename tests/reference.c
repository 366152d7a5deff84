/* Tables become linked nodes, netlists become linked symbolic terms that get their numbers last, the lamp's too, permits are read off
 * truth tables, lines are worked out by need, from the outputs back to the rails, and sheets are printed row by row to a stream.
 * Clarity before speed. */
#define _XOPEN_SOURCE 700
#include "reference.h"

#include <stdio.h>
#include <stdlib.h>
#include <string.h>

#include "reference_files.h"

/* ---- Tables as linked nodes. ---- */

struct node {
    unsigned number;
    struct node *edge[2]; /* NULL where the table names a node that is not there */
    struct node *next;    /* of the same level */
    uint8_t *truth;       /* the value at each setting of the contacts from this level on, the level's own contact lowest */
};

struct diagram {
    unsigned contacts, outputs;
    struct node *output[8];
    struct node *level[13];
};

static struct node *find(struct node *level, unsigned number)
{
    while (level != NULL && level->number != number)
        level = level->next;
    return level;
}

static struct node *make_level(struct pool *pool, unsigned width)
{
    struct node *level = NULL;
    while (width > 0) {
        struct node *node = take(pool, sizeof *node);
        node->number = --width;
        node->next = level;
        level = node;
    }
    return level;
}

static unsigned width_of(const struct node *level)
{
    return level == NULL ? 0 : 1 + width_of(level->next);
}

/* The diagram of a table that got a yes to the first four questions, drawn from its last level upward. */
static void draw_level(struct pool *pool, struct diagram *diagram, const struct field *field, unsigned level)
{
    if (level == diagram->contacts) {
        diagram->level[level] = make_level(pool, 2);
        return;
    }
    draw_level(pool, diagram, field->next, level + 1);
    diagram->level[level] = make_level(pool, (unsigned)field->length / 2);
    const uint8_t *value = field->value;
    for (struct node *node = diagram->level[level]; node != NULL; node = node->next) {
        node->edge[0] = find(diagram->level[level + 1], *value++);
        node->edge[1] = find(diagram->level[level + 1], *value++);
    }
}

static void draw(struct pool *pool, struct diagram *diagram, const struct field *fields)
{
    const struct field *outputs = fields->next;
    diagram->contacts = fields->value[0];
    diagram->outputs = (unsigned)outputs->length;
    draw_level(pool, diagram, outputs->next, 0);
    for (unsigned j = 0; j < diagram->outputs; j++)
        diagram->output[j] = find(diagram->level[0], outputs->value[j]);
}

/* Question 4. */
static bool are_levels(const struct field *field, unsigned left)
{
    if (left == 0)
        return field == NULL;
    return is_field(field, 3, 2, 16) && field->length % 2 == 0 && are_levels(field->next, left - 1);
}

/* Question 5. */
static bool all_named_nodes_are_there(const struct diagram *diagram)
{
    for (unsigned j = 0; j < diagram->outputs; j++)
        if (diagram->output[j] == NULL)
            return false;
    for (unsigned l = 0; l < diagram->contacts; l++)
        for (const struct node *node = diagram->level[l]; node != NULL; node = node->next)
            if (node->edge[0] == NULL || node->edge[1] == NULL)
                return false;
    return true;
}

/* Question 6: the set of edge pairs of a level has as many members as the level has nodes. */
static bool no_twins(const struct diagram *diagram)
{
    for (unsigned l = 0; l < diagram->contacts; l++) {
        uint64_t pairs = 0;
        for (const struct node *node = diagram->level[l]; node != NULL; node = node->next) {
            uint64_t pair = (uint64_t)1 << (8 * node->edge[0]->number + node->edge[1]->number);
            if (pairs & pair)
                return false;
            pairs |= pair;
        }
    }
    return true;
}

/* Question 7 for one level: the mentions, with repeats struck out, are its nodes in order. */
static bool mentions_in_order(struct node *const *mention, unsigned mentions, const struct node *level)
{
    unsigned members = 0;
    for (unsigned i = 0; i < mentions; i++) {
        bool repeat = false;
        for (unsigned k = 0; k < i; k++)
            repeat = repeat || mention[k] == mention[i];
        if (!repeat && mention[i]->number != members++)
            return false;
    }
    return members == width_of(level);
}

static bool numbered_by_first_mention(const struct diagram *diagram)
{
    if (!mentions_in_order(diagram->output, diagram->outputs, diagram->level[0]))
        return false;
    for (unsigned l = 0; l + 1 < diagram->contacts; l++) {
        struct node *mention[16];
        unsigned mentions = 0;
        for (const struct node *node = diagram->level[l]; node != NULL; node = node->next) {
            mention[mentions++] = node->edge[0];
            mention[mentions++] = node->edge[1];
        }
        if (!mentions_in_order(mention, mentions, diagram->level[l + 1]))
            return false;
    }
    return true;
}

/* The table's questions; the diagram is there if they all get a yes. */
static uint32_t read_table(struct pool *pool, const uint8_t *table, size_t length, struct diagram *diagram)
{
    bool whole;
    struct field *fields = fields_of(pool, table, length, &whole);
    if (!whole)
        return 1;
    if (!is_contacts(fields))
        return 2;
    if (!is_field(fields->next, 2, 1, 8))
        return 3;
    if (!are_levels(fields->next->next, fields->value[0]))
        return 4;
    draw(pool, diagram, fields);
    if (!all_named_nodes_are_there(diagram))
        return 5;
    if (!no_twins(diagram))
        return 6;
    if (!numbered_by_first_mention(diagram))
        return 7;
    return 0;
}

/* ---- Truth tables. ---- */

static void tabulate(struct pool *pool, struct diagram *diagram)
{
    unsigned n = diagram->contacts;
    for (struct node *constant = diagram->level[n]; constant != NULL; constant = constant->next) {
        constant->truth = take(pool, 1);
        constant->truth[0] = (uint8_t)constant->number;
    }
    for (unsigned l = n; l-- > 0;)
        for (struct node *node = diagram->level[l]; node != NULL; node = node->next) {
            size_t settings = (size_t)1 << (n - l);
            node->truth = take(pool, settings);
            for (size_t a = 0; a < settings; a++)
                node->truth[a] = node->edge[a % 2]->truth[a / 2];
        }
}

/* ---- Netlists as symbolic terms. ---- */

enum form { NEVER, ALWAYS, RAIL, AND, OR };

struct term {
    enum form form;
    unsigned line;
    unsigned depth;
    const struct term *left, *right;
    struct term *later; /* the gate made next */
};

struct terms {
    struct term *term;
    struct terms *rest;
};

struct matrix {
    unsigned rows, columns;
    struct term *entry[8][8];
};

struct board {
    struct pool *pool;
    const struct diagram *diagram;
    struct term *rail[12][2];
    struct term *first;
    struct term **end;
    unsigned gates, depth;
    const struct term *output[8][2];
    bool has_lamp;
    const struct term *lamp[2];
};

static struct term never = {.form = NEVER, .line = 0};
static struct term always = {.form = ALWAYS, .line = 1};

static struct term *make_gate(struct board *board, enum form form, const struct term *left, const struct term *right)
{
    struct term *gate = take(board->pool, sizeof *gate);
    gate->form = form;
    gate->left = left;
    gate->right = right;
    gate->depth = 1 + (left->depth > right->depth ? left->depth : right->depth);
    *board->end = gate;
    board->end = &gate->later;
    return gate;
}

static struct matrix *make_matrix(struct board *board, unsigned rows, unsigned columns)
{
    struct matrix *matrix = take(board->pool, sizeof *matrix);
    matrix->rows = rows;
    matrix->columns = columns;
    return matrix;
}

static struct matrix *one_level(struct board *board, unsigned l)
{
    struct node *const *level = board->diagram->level;
    struct matrix *matrix = make_matrix(board, width_of(level[l]), width_of(level[l + 1]));
    for (const struct node *u = level[l]; u != NULL; u = u->next)
        for (const struct node *v = level[l + 1]; v != NULL; v = v->next) {
            bool zero = u->edge[0] == v;
            bool one = u->edge[1] == v;
            matrix->entry[u->number][v->number] =
                zero && one ? &always : one ? board->rail[l][1] : zero ? board->rail[l][0] : &never;
        }
    return matrix;
}

/* The OR of the first `count` terms; moves *terms past them. */
static struct term *or_tree(struct board *board, struct terms **terms, unsigned count)
{
    if (count == 0)
        return &never;
    if (count == 1) {
        struct term *term = (*terms)->term;
        *terms = (*terms)->rest;
        return term;
    }
    struct term *first = or_tree(board, terms, (count + 1) / 2);
    struct term *rest = or_tree(board, terms, count / 2);
    return make_gate(board, OR, first, rest);
}

static struct term *both(struct board *board, struct term *left, struct term *right)
{
    if (left->form == ALWAYS)
        return right;
    if (right->form == ALWAYS)
        return left;
    return make_gate(board, AND, left, right);
}

static struct term *product_entry(struct board *board, const struct matrix *left, const struct matrix *right,
                                  unsigned u, unsigned v)
{
    for (unsigned w = 0; w < left->columns; w++)
        if (left->entry[u][w]->form == ALWAYS && right->entry[w][v]->form == ALWAYS)
            return &always;
    struct terms *terms = NULL;
    struct terms **end = &terms;
    unsigned count = 0;
    for (unsigned w = 0; w < left->columns; w++) {
        struct term *a = left->entry[u][w];
        struct term *b = right->entry[w][v];
        if (a->form == NEVER || b->form == NEVER)
            continue;
        *end = take(board->pool, sizeof **end);
        (*end)->term = both(board, a, b);
        end = &(*end)->rest;
        count++;
    }
    return or_tree(board, &terms, count);
}

/* The block of levels l to k. */
static struct matrix *block(struct board *board, unsigned l, unsigned k)
{
    if (k - l == 1)
        return one_level(board, l);
    unsigned cut = l + (k - l + 1) / 2;
    const struct matrix *left = block(board, l, cut);
    const struct matrix *right = block(board, cut, k);
    struct matrix *matrix = make_matrix(board, left->rows, right->columns);
    for (unsigned u = 0; u < matrix->rows; u++)
        for (unsigned v = 0; v < matrix->columns; v++)
            matrix->entry[u][v] = product_entry(board, left, right, u, v);
    return matrix;
}

static void make_rails(struct board *board)
{
    for (unsigned i = 0; i < board->diagram->contacts; i++)
        for (unsigned value = 0; value < 2; value++) {
            struct term *rail = take(board->pool, sizeof *rail);
            rail->form = RAIL;
            rail->line = value ? 2 + 2 * i : 3 + 2 * i;
            board->rail[i][value] = rail;
        }
}

static void make_permits(struct board *board)
{
    const struct diagram *diagram = board->diagram;
    const struct matrix *whole = block(board, 0, diagram->contacts);
    for (unsigned j = 0; j < diagram->outputs; j++)
        for (unsigned value = 0; value < 2; value++)
            board->output[j][value] = whole->entry[diagram->output[j]->number][value];
}

/* One rail of a join: of the two pairs a and b, the OR of the ANDs of a's true line with b's `value` line and of a's false line with
 * b's other line. */
static const struct term *join_rail(struct board *board, const struct term *const *a, const struct term *const *b, unsigned value)
{
    const struct term *first = make_gate(board, AND, a[1], b[value]);
    const struct term *second = make_gate(board, AND, a[0], b[1 - value]);
    return make_gate(board, OR, first, second);
}

/* The one pair of the outputs from `from` on, so many, halved as ORs are. */
static void join_outputs(struct board *board, unsigned from, unsigned count, const struct term **pair)
{
    if (count == 1) {
        pair[0] = board->output[from][0];
        pair[1] = board->output[from][1];
        return;
    }
    const struct term *left[2], *right[2];
    unsigned half = (count + 1) / 2;
    join_outputs(board, from, half, left);
    join_outputs(board, from + half, count - half, right);
    pair[1] = join_rail(board, left, right, 1);
    pair[0] = join_rail(board, left, right, 0);
}

static void number_gates(struct board *board)
{
    unsigned line = 2 + 2 * board->diagram->contacts;
    for (struct term *gate = board->first; gate != NULL; gate = gate->later) {
        gate->line = line++;
        board->gates++;
        if (gate->depth > board->depth)
            board->depth = gate->depth;
    }
}

static void make_board(struct pool *pool, const struct diagram *diagram, bool lamp, struct board *board)
{
    memset(board, 0, sizeof *board);
    board->pool = pool;
    board->diagram = diagram;
    board->end = &board->first;
    board->has_lamp = lamp;
    make_rails(board);
    make_permits(board);
    if (lamp)
        join_outputs(board, 0, diagram->outputs, board->lamp);
    number_gates(board);
}

/* ---- The netlist file. ---- */

static size_t file_length(const struct board *board)
{
    return 4 + (3 + 5 * (size_t)board->gates) + (3 + 4 * (size_t)board->diagram->outputs) + (board->has_lamp ? 3 + 4 : 0);
}

static void write_file(const struct board *board, uint8_t *at)
{
    at = put_two(put(at, 1), 1);
    at = put(at, board->diagram->contacts);
    at = put_two(put(at, 4), 5 * board->gates);
    for (const struct term *gate = board->first; gate != NULL; gate = gate->later)
        at = put_two(put_two(put(at, gate->form == OR), gate->left->line), gate->right->line);
    at = put_two(put(at, 5), 4 * board->diagram->outputs);
    for (unsigned j = 0; j < board->diagram->outputs; j++)
        at = put_two(put_two(at, board->output[j][1]->line), board->output[j][0]->line);
    if (board->has_lamp)
        put_two(put_two(put_two(put(at, 6), 4), board->lamp[1]->line), board->lamp[0]->line);
}

/* ---- Runs: lines worked out by need. ---- */

enum { UNKNOWN = -1 };

/* What can be held of a wire: the line itself, and the two pins of its gate. */
enum site { LINE, FIRST_PIN, SECOND_PIN, SITES };

struct wire {
    bool is_gate;
    unsigned kind, left, right;
    bool is_read;    /* by some gate or output; mark_read tells */
    int held[SITES]; /* UNKNOWN where it is not */
    int value;       /* UNKNOWN until it is needed */
};

struct netlist {
    unsigned contacts, gates, outputs, lines;
    unsigned pairs; /* those of the outputs, and the lamp's after them if there is one */
    struct wire *wire;
    unsigned pair[9][2];
};

static int value_of(struct wire *wire, unsigned line)
{
    struct wire *w = &wire[line];
    if (w->held[LINE] != UNKNOWN)
        w->value = w->held[LINE];
    if (w->value == UNKNOWN) {
        int left = w->held[FIRST_PIN] != UNKNOWN ? w->held[FIRST_PIN] : value_of(wire, w->left);
        int right = w->held[SECOND_PIN] != UNKNOWN ? w->held[SECOND_PIN] : value_of(wire, w->right);
        w->value = w->kind == 1 ? left || right : left && right;
    }
    return w->value;
}

/* Forgets every value but those of the constants and rails, which it sets. */
static void set_rails(struct netlist *netlist, const uint8_t *rails)
{
    struct wire *wire = netlist->wire;
    wire[0].value = 0;
    wire[1].value = 1;
    for (unsigned line = 2; line < netlist->lines; line++)
        wire[line].value = wire[line].is_gate ? UNKNOWN : rails[line - 2];
}

static bool is_gates(const struct field *field)
{
    return is_field(field, 4, 0, 5 * 10602) && field->length % 5 == 0;
}

static bool is_outputs(const struct field *field)
{
    return is_field(field, 5, 4, 4 * 8) && field->length % 4 == 0;
}

/* Nothing, or the lamp and nothing after it. */
static bool is_lamp_or_end(const struct field *field)
{
    return field == NULL || (is_field(field, 6, 4, 4) && field->next == NULL);
}

/* Lays the wires of the gates; whether kinds and sources are sound. */
static bool read_gates(struct netlist *netlist, const uint8_t *gates)
{
    unsigned first_gate = netlist->lines - netlist->gates;
    bool sound = true;
    for (unsigned line = 0; line < netlist->lines; line++) {
        struct wire *w = &netlist->wire[line];
        w->held[LINE] = w->held[FIRST_PIN] = w->held[SECOND_PIN] = UNKNOWN;
        w->is_gate = line >= first_gate;
        if (!w->is_gate)
            continue;
        const uint8_t *gate = gates + 5 * (line - first_gate);
        w->kind = gate[0];
        w->left = two_bytes(gate + 1);
        w->right = two_bytes(gate + 3);
        sound = sound && w->kind <= 1 && w->left < line && w->right < line;
    }
    return sound;
}

/* Takes the pairs of a field behind those that there are; whether their lines are in the netlist. */
static bool read_pairs(struct netlist *netlist, const struct field *field)
{
    bool sound = true;
    for (size_t at = 0; at < field->length; at += 4) {
        unsigned *pair = netlist->pair[netlist->pairs++];
        pair[0] = two_bytes(field->value + at);
        pair[1] = two_bytes(field->value + at + 2);
        sound = sound && pair[0] < netlist->lines && pair[1] < netlist->lines;
    }
    return sound;
}

/* Questions 11 and 12; the netlist is there if both get a yes. */
static uint32_t read_netlist(struct pool *pool, const uint8_t *file, size_t length, struct netlist *netlist)
{
    bool whole;
    const struct field *contacts = fields_of(pool, file, length, &whole);
    if (!whole || !is_contacts(contacts) || !is_gates(contacts->next) || !is_outputs(contacts->next->next) ||
        !is_lamp_or_end(contacts->next->next->next))
        return 11;
    const struct field *gates = contacts->next;
    const struct field *outputs = gates->next;
    netlist->contacts = contacts->value[0];
    netlist->gates = (unsigned)gates->length / 5;
    netlist->outputs = (unsigned)outputs->length / 4;
    netlist->lines = 2 + 2 * netlist->contacts + netlist->gates;
    netlist->wire = take(pool, netlist->lines * sizeof *netlist->wire);
    bool sound = read_gates(netlist, gates->value);
    for (const struct field *field = outputs; field != NULL; field = field->next)
        sound = read_pairs(netlist, field) && sound;
    return sound ? 0 : 12;
}

/* Question 13. */
static bool are_rails(const struct netlist *netlist, const uint8_t *rails, size_t length)
{
    if (length != 2 * (size_t)netlist->contacts)
        return false;
    for (size_t i = 0; i < length; i++)
        if (rails[i] > 1)
            return false;
    return true;
}

struct hold {
    unsigned line;
    enum site site;
    int level;
};

/* Reads a hold; whether the netlist has what it names: any line but the constants, and the pins of gates. */
static bool read_hold(const struct netlist *netlist, const uint8_t *at, struct hold *hold)
{
    *hold = (struct hold){two_bytes(at), (enum site)(at[2] / 2), at[2] % 2};
    if (hold->line >= netlist->lines)
        return false;
    return hold->site == LINE ? hold->line >= 2 : hold->site < SITES && netlist->wire[hold->line].is_gate;
}

/* Whether a hold may come right after another: lines before pins, either rising, and a gate's first pin before its second. */
static bool may_follow(const struct hold *hold, const struct hold *before)
{
    bool pin = hold->site != LINE, pin_before = before->site != LINE;
    if (pin != pin_before)
        return pin;
    if (hold->line != before->line)
        return hold->line > before->line;
    return before->site == FIRST_PIN && hold->site == SECOND_PIN;
}

/* Question 14; the lines and pins are held if it gets a yes. */
static bool take_holds(struct netlist *netlist, const uint8_t *holds, size_t length)
{
    struct hold hold, before;
    if (length % 3 != 0)
        return false;
    for (size_t at = 0; at < length; at += 3) {
        if (!read_hold(netlist, holds + at, &hold) || (at > 0 && !may_follow(&hold, &before)))
            return false;
        netlist->wire[hold.line].held[hold.site] = hold.level;
        before = hold;
    }
    return true;
}

/* Each gate marks its sources, each output its two lines. */
static void mark_read(struct netlist *netlist)
{
    for (unsigned line = 0; line < netlist->lines; line++) {
        const struct wire *w = &netlist->wire[line];
        if (w->is_gate)
            netlist->wire[w->left].is_read = netlist->wire[w->right].is_read = true;
    }
    for (unsigned j = 0; j < netlist->outputs; j++)
        netlist->wire[netlist->pair[j][0]].is_read = netlist->wire[netlist->pair[j][1]].is_read = true;
}

/* Writes the lines from one to before another. */
static void write_lines(struct netlist *netlist, unsigned from, unsigned to, uint8_t *lines)
{
    for (unsigned line = from; line < to; line++)
        lines[line] = (uint8_t)value_of(netlist->wire, line);
}

static void write_pairs(struct netlist *netlist, uint8_t *pairs)
{
    for (unsigned k = 0; k < 2 * netlist->pairs; k++)
        pairs[k] = (uint8_t)value_of(netlist->wire, netlist->pair[k / 2][k % 2]);
}

/* Takes the lines before a place as they stand in a buffer, whatever is held now: that was not so when they were worked out. */
static void read_back(struct netlist *netlist, unsigned place, const uint8_t *lines)
{
    for (unsigned line = 2; line < place; line++) {
        netlist->wire[line].held[LINE] = UNKNOWN;
        netlist->wire[line].value = lines[line] == 0 ? 0 : 1;
    }
}

/* ---- Probe. ---- */

static void code_input(unsigned contacts, uint32_t input, uint8_t *rails)
{
    for (unsigned i = 0; i < contacts; i++) {
        bool closed = (input >> i) % 2 == 1;
        rails[2 * i] = closed;
        rails[2 * i + 1] = !closed;
    }
}

/* Whether some pair is no code at the rails that are set: the lowest such output and what both of its lines show. */
static bool betrayed(struct netlist *netlist, uint32_t *output, uint32_t *way)
{
    for (unsigned j = 0; j < netlist->outputs; j++) {
        int yes = value_of(netlist->wire, netlist->pair[j][0]);
        int no = value_of(netlist->wire, netlist->pair[j][1]);
        if (yes == no) {
            *output = j;
            *way = (uint32_t)yes;
            return true;
        }
    }
    return false;
}

static void set_input(struct netlist *netlist, uint32_t input)
{
    uint8_t rails[24];
    code_input(netlist->contacts, input, rails);
    set_rails(netlist, rails);
}

/* Tries every code input from 0 up and leaves the rails of the first that betrays. Where none does a pin is hidden, and the rails are
 * those of input 0; a line that is read never is. */
static void search(struct netlist *netlist, bool is_line, pilgodur_probed *probed)
{
    for (uint32_t input = 0; input >> netlist->contacts == 0; input++) {
        set_input(netlist, input);
        if (betrayed(netlist, &probed->output, &probed->way)) {
            probed->input = input;
            return;
        }
    }
    if (is_line) {
        fputs("reference: a held line stays unseen at every code input\n", stderr);
        abort();
    }
    probed->way = 2;
    set_input(netlist, 0);
}

/* ---- Sheets. ---- */

static void print_row(FILE *out, unsigned number, const char *kind, unsigned a, unsigned b)
{
    fprintf(out, "%5u %-3s %5u %5u\n", number, kind, a, b);
}

static void print_sheet(FILE *out, const struct netlist *netlist)
{
    for (unsigned row = 1; row <= netlist->gates + netlist->pairs; row++) {
        if (row % 50 == 1)
            fputs(" LINE KIN     A     B\n", out);
        if (row <= netlist->gates) {
            unsigned line = netlist->lines - netlist->gates + row - 1;
            const struct wire *gate = &netlist->wire[line];
            print_row(out, line, gate->kind == 0 ? "AND" : "OR", gate->left, gate->right);
        } else {
            unsigned place = row - netlist->gates - 1;
            bool lamp = place == netlist->outputs;
            print_row(out, lamp ? 0 : place, lamp ? "LMP" : "OUT", netlist->pair[place][0], netlist->pair[place][1]);
        }
    }
}

/* ---- The services. ---- */

pilgodur_checked ref_check(const uint8_t *table, size_t table_len)
{
    struct pool pool = {NULL};
    struct diagram diagram = {0};
    pilgodur_checked answer = {0};
    answer.refusal = read_table(&pool, table, table_len, &diagram);
    if (answer.refusal == 0) {
        struct board board;
        make_board(&pool, &diagram, false, &board);
        answer.contacts = diagram.contacts;
        answer.outputs = diagram.outputs;
        answer.gates = board.gates;
        answer.depth = board.depth;
    }
    give_back(&pool);
    return answer;
}

static pilgodur_built build(const uint8_t *table, size_t table_len, bool lamp, uint8_t *file, size_t file_len)
{
    struct pool pool = {NULL};
    struct diagram diagram = {0};
    pilgodur_built answer = {0};
    answer.refusal = read_table(&pool, table, table_len, &diagram);
    if (answer.refusal == 0) {
        struct board board;
        make_board(&pool, &diagram, lamp, &board);
        size_t length = file_length(&board);
        if (file_len < length) {
            answer.refusal = 9;
        } else {
            write_file(&board, file);
            answer.length = (uint32_t)length;
        }
    }
    give_back(&pool);
    return answer;
}

pilgodur_built ref_build(const uint8_t *table, size_t table_len, uint8_t *file, size_t file_len)
{
    return build(table, table_len, false, file, file_len);
}

pilgodur_built ref_build_with_lamp(const uint8_t *table, size_t table_len, uint8_t *file, size_t file_len)
{
    return build(table, table_len, true, file, file_len);
}

pilgodur_reading ref_read_off(const uint8_t *table, size_t table_len, uint32_t input)
{
    struct pool pool = {NULL};
    struct diagram diagram = {0};
    pilgodur_reading answer = {0};
    answer.refusal = read_table(&pool, table, table_len, &diagram);
    if (answer.refusal == 0 && input >> diagram.contacts != 0)
        answer.refusal = 10;
    if (answer.refusal == 0) {
        tabulate(&pool, &diagram);
        for (unsigned j = 0; j < diagram.outputs; j++)
            answer.word |= (uint32_t)diagram.output[j]->truth[input] << j;
    }
    give_back(&pool);
    return answer;
}

static uint32_t run(struct pool *pool, const uint8_t *file, size_t file_len, const uint8_t *rails, size_t rails_len,
                    const uint8_t *holds, size_t holds_len, struct netlist *netlist)
{
    uint32_t refusal = read_netlist(pool, file, file_len, netlist);
    if (refusal != 0)
        return refusal;
    if (!are_rails(netlist, rails, rails_len))
        return 13;
    if (!take_holds(netlist, holds, holds_len))
        return 14;
    set_rails(netlist, rails);
    return 0;
}

/* Question 9 for the buffers of a run. */
static bool have_room(const struct netlist *netlist, size_t lines_len, size_t pairs_len)
{
    return lines_len >= netlist->lines && pairs_len >= 2 * (size_t)netlist->pairs;
}

uint32_t ref_run(const uint8_t *netlist, size_t netlist_len, const uint8_t *rails, size_t rails_len,
                 const uint8_t *holds, size_t holds_len, uint8_t *lines, size_t lines_len,
                 uint8_t *pairs, size_t pairs_len)
{
    struct pool pool = {NULL};
    struct netlist board = {0};
    uint32_t refusal = run(&pool, netlist, netlist_len, rails, rails_len, holds, holds_len, &board);
    if (refusal == 0 && !have_room(&board, lines_len, pairs_len))
        refusal = 9;
    if (refusal == 0) {
        write_pairs(&board, pairs);
        write_lines(&board, 0, board.lines, lines);
    }
    give_back(&pool);
    return refusal;
}

pilgodur_stepped ref_step(const uint8_t *netlist, size_t netlist_len, const uint8_t *rails, size_t rails_len,
                          const uint8_t *holds, size_t holds_len, uint32_t place, uint32_t count,
                          uint8_t *lines, size_t lines_len, uint8_t *pairs, size_t pairs_len)
{
    struct pool pool = {NULL};
    struct netlist board = {0};
    pilgodur_stepped answer = {0};
    answer.refusal = run(&pool, netlist, netlist_len, rails, rails_len, holds, holds_len, &board);
    if (answer.refusal == 0 && (place < 2 || place > board.lines))
        answer.refusal = 21;
    if (answer.refusal == 0 && !have_room(&board, lines_len, pairs_len))
        answer.refusal = 9;
    if (answer.refusal == 0) {
        uint32_t left = board.lines - place;
        answer.place = place + (count < left ? count : left);
        read_back(&board, place, lines);
        write_lines(&board, 0, 2, lines);
        write_lines(&board, place, answer.place, lines);
        if (answer.place == board.lines)
            write_pairs(&board, pairs);
    }
    give_back(&pool);
    return answer;
}

/* The probe of an accepted table. */
static pilgodur_probed probe(struct pool *pool, const struct diagram *diagram, const uint8_t *hold, size_t hold_len,
                             uint8_t *buffer, size_t buffer_len)
{
    pilgodur_probed answer = {0};
    struct board board;
    make_board(pool, diagram, false, &board);
    size_t length = file_length(&board);
    uint8_t *file = take(pool, length);
    write_file(&board, file);
    struct netlist netlist = {0};
    if (read_netlist(pool, file, length, &netlist) != 0)
        abort();
    mark_read(&netlist);
    struct hold held;
    if (hold_len != 3 || !read_hold(&netlist, hold, &held)) {
        answer.refusal = 14;
    } else if (held.site == LINE && !netlist.wire[held.line].is_read) {
        answer.refusal = 15;
    } else if (buffer_len < length + netlist.lines) {
        answer.refusal = 9;
    } else {
        netlist.wire[held.line].held[held.site] = held.level;
        search(&netlist, held.site == LINE, &answer);
        memcpy(buffer, file, length);
        write_lines(&netlist, 0, netlist.lines, buffer + length);
    }
    return answer;
}

pilgodur_probed ref_probe(const uint8_t *table, size_t table_len, const uint8_t *hold, size_t hold_len,
                          uint8_t *buffer, size_t buffer_len)
{
    struct pool pool = {NULL};
    struct diagram diagram = {0};
    pilgodur_probed answer = {0};
    answer.refusal = read_table(&pool, table, table_len, &diagram);
    if (answer.refusal == 0)
        answer = probe(&pool, &diagram, hold, hold_len, buffer, buffer_len);
    give_back(&pool);
    return answer;
}

pilgodur_built ref_sheet(const uint8_t *netlist, size_t netlist_len, uint8_t *text, size_t text_len)
{
    struct pool pool = {NULL};
    struct netlist board = {0};
    pilgodur_built answer = {0};
    answer.refusal = read_netlist(&pool, netlist, netlist_len, &board);
    if (answer.refusal == 0) {
        char *sheet = NULL;
        size_t length = 0;
        FILE *out = open_memstream(&sheet, &length);
        if (out == NULL)
            run_out();
        print_sheet(out, &board);
        if (fclose(out) != 0)
            run_out();
        answer.refusal = text_len < length ? 9 : 0;
        answer.length = text_len < length ? 0 : (uint32_t)length;
        memcpy(text, sheet, answer.length);
        free(sheet);
    }
    give_back(&pool);
    return answer;
}
