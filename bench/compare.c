/* Two gate lists laid side by side. */
#include <limits.h>
#include <string.h>

#include "commands.h"
#include "netlist.h"
#include "operands.h"
#include "show.h"

enum side { A, B, SIDES };

static const char *const side_names[SIDES] = {"A", "B"};

/* The text of a row's right part on one side: kind and sources, or the lines of an output or of the lamp. */
struct row {
    char text[24];
};

static unsigned larger(unsigned a, unsigned b)
{
    return a > b ? a : b;
}

static struct row gate_row(const struct netlist *netlist, unsigned gate)
{
    struct row row = {"none"};
    if (gate < netlist->gates) {
        struct gate g = gate_at(netlist, gate);
        snprintf(row.text, sizeof row.text, "%-4s %6u  %6u", g.kind, g.first, g.second);
    }
    return row;
}

static struct row pair_row(struct pair pair)
{
    struct row row;
    snprintf(row.text, sizeof row.text, "     %6u  %6u", pair.yes, pair.no);
    return row;
}

static struct row output_row(const struct netlist *netlist, unsigned output)
{
    return output < netlist->outputs ? pair_row(pair_at(netlist, output)) : (struct row){"none"};
}

/* There is just one lamp, number 0 as on the sheet. */
static struct row lamp_row(const struct netlist *netlist, unsigned lamp)
{
    (void)lamp;
    return netlist->lamp != NULL ? pair_row(pair_at(netlist, netlist->outputs)) : (struct row){"none"};
}

/* The rows of one kind: how many there are, the number of row 0, and their texts. */
struct rows {
    unsigned count, first;
    struct row (*text)(const struct netlist *, unsigned);
};

static bool is_alike(const struct netlist *side, const struct rows *rows, unsigned i)
{
    return strcmp(rows->text(&side[A], i).text, rows->text(&side[B], i).text) == 0;
}

static unsigned count_differing(const struct netlist *side, const struct rows *rows)
{
    unsigned count = 0;
    for (unsigned i = 0; i < rows->count; i++)
        count += !is_alike(side, rows, i);
    return count;
}

/* Shows at most so many rows that differ. */
static void show_differing(FILE *out, const struct netlist *side, const struct rows *rows, unsigned most)
{
    for (unsigned i = 0; i < rows->count && most > 0; i++)
        if (!is_alike(side, rows, i)) {
            fprintf(out, "%6u  %-20s    %s\n", rows->first + i, rows->text(&side[A], i).text, rows->text(&side[B], i).text);
            most--;
        }
}

static void show_gates(FILE *out, const struct netlist *side, const struct rows *gates, bool all)
{
    unsigned differing = count_differing(side, gates);
    fprintf(out, "gates that differ: %u of %u%s\n", differing, gates->count, differing > 1 && !all ? ", the first of them:" : "");
    if (differing > 0)
        fprintf(out, "  line  A: kind, sources        B: kind, sources\n");
    show_differing(out, side, gates, all ? UINT_MAX : 1);
}

/* The outputs or the lamps that differ. */
static void show_pairs(FILE *out, const char *what, const struct netlist *side, const struct rows *pairs)
{
    unsigned differing = count_differing(side, pairs);
    fprintf(out, "%ss that differ: %u of %u\n", what, differing, pairs->count);
    if (differing > 0)
        fprintf(out, "%6s  A: true, false line     B: true, false line\n", what);
    show_differing(out, side, pairs, UINT_MAX);
}

/* The pairs of a netlist at an input. */
static void run_at(const struct netlist *netlist, uint32_t input, uint8_t pairs[PILGODUR_PAIRS_MAX])
{
    static uint8_t lines[PILGODUR_LINES_MAX];
    uint8_t rails[2 * 12];
    set_rails(input, netlist->contacts, rails);
    uint32_t refusal = pilgodur_run(netlist->bytes, netlist->length, rails, 2 * (size_t)netlist->contacts, rails, 0, lines,
                                    sizeof lines, pairs, PILGODUR_PAIRS_MAX);
    if (refusal != 0)
        refuse(refusal, "%s", netlist->name);
}

static void show_values(FILE *out, const struct netlist *side, uint32_t input, unsigned pair, const uint8_t *x, const uint8_t *y)
{
    bool lamp = is_lamp(&side[A], pair);
    const char *(*meaning)(unsigned, unsigned) = lamp ? lamp_meaning : pair_meaning;
    fprintf(out, "the %s differ first at ", lamp ? "lamps" : "permits");
    show_input(out, input, side[A].contacts);
    if (lamp)
        fprintf(out, "lamp: ");
    else
        fprintf(out, "output %u: ", pair);
    fprintf(out, "A %u%u %s, B %u%u %s\n", x[0], x[1], meaning(x[0], x[1]), y[0], y[1], meaning(y[0], y[1]));
}

/* Whether two lists that differ give the same pairs all the same, from one pair on and before another; shows the first that differs. */
static bool same_values(FILE *out, const struct netlist *side, unsigned from, unsigned to)
{
    for (uint32_t input = 0; input >> side[A].contacts == 0; input++) {
        uint8_t a[PILGODUR_PAIRS_MAX], b[PILGODUR_PAIRS_MAX];
        run_at(&side[A], input, a);
        run_at(&side[B], input, b);
        for (unsigned j = from; j < to; j++) {
            const uint8_t *x = a + 2 * j, *y = b + 2 * j;
            if (x[0] == y[0] && x[1] == y[1])
                continue;
            show_values(out, side, input, j, x, y);
            return false;
        }
    }
    return true;
}

/* For lists with as many outputs. */
static void show_permits_and_lamps(FILE *out, const struct netlist *side)
{
    unsigned outputs = side[A].outputs;
    if (same_values(out, side, 0, outputs))
        fprintf(out, "the permits are the same at every input\n");
    if (side[A].lamp != NULL && side[B].lamp != NULL && same_values(out, side, outputs, outputs + 1))
        fprintf(out, "the lamps are the same at every input\n");
}

static void show_count(FILE *out, const char *what, unsigned a, unsigned b)
{
    if (a != b)
        fprintf(out, "count of %s: A %u, B %u\n", what, a, b);
}

/* The rows of both lists. */
struct lists {
    struct rows gates, outputs, lamps;
};

static struct lists lists_of(const struct netlist *side)
{
    return (struct lists){
        {larger(side[A].gates, side[B].gates), first_gate(&side[A]), gate_row},
        {larger(side[A].outputs, side[B].outputs), 0, output_row},
        {side[A].lamp != NULL || side[B].lamp != NULL, 0, lamp_row},
    };
}

/* Lines have other numbers if the contacts differ, so no row is then set against another. */
static void show_differences(FILE *out, const struct netlist *side, const struct lists *lists, bool all)
{
    fprintf(out, "different\n");
    show_count(out, "contacts", side[A].contacts, side[B].contacts);
    show_count(out, "gates", side[A].gates, side[B].gates);
    show_count(out, "outputs", side[A].outputs, side[B].outputs);
    show_count(out, "lamps", side[A].lamp != NULL, side[B].lamp != NULL);
    if (side[A].contacts != side[B].contacts) {
        fprintf(out, "with another count of contacts every gate has another line, so no gate is compared\n");
        return;
    }
    show_gates(out, side, &lists->gates, all);
    show_pairs(out, "output", side, &lists->outputs);
    if (lists->lamps.count > 0)
        show_pairs(out, "lamp", side, &lists->lamps);
    if (side[A].outputs == side[B].outputs)
        show_permits_and_lamps(out, side);
}

enum status compare(struct request *request, FILE *out)
{
    static uint8_t room[SIDES][PILGODUR_FILE_MAX];
    struct netlist side[SIDES];
    for (int i = 0; i < SIDES; i++)
        load_operand(request, i);
    for (int i = 0; i < SIDES; i++)
        side[i] = netlist_in_or_of(&request->file[i], request->lamp, room[i]);
    for (int i = 0; i < SIDES; i++)
        fprintf(out, "%s: %s: contacts %u, gates %u, outputs %u%s\n", side_names[i], side[i].name, side[i].contacts, side[i].gates,
                side[i].outputs, side[i].lamp != NULL ? ", with lamp" : "");
    struct lists lists = lists_of(side);
    bool alike = side[A].contacts == side[B].contacts && count_differing(side, &lists.gates) == 0 &&
                 count_differing(side, &lists.outputs) == 0 && count_differing(side, &lists.lamps) == 0;
    if (alike)
        fprintf(out, "alike\n");
    else
        show_differences(out, side, &lists, request->all);
    return alike ? ANSWERED : SAID_NO;
}
