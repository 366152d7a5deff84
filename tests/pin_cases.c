#include "pin_cases.h"

#include <stdio.h>
#include <string.h>

#include "edits.h"
#include "known.h"
#include "reference.h"

enum { BOARDS = 4, SMALL_WORK = 20000 };
enum held_kind {
    NOTHING_HELD, LINES_ALONE, PINS_ALONE, LINES_AND_PINS, LINE_AND_PIN_OF_A_GATE, BOTH_PINS_OF_A_GATE, HELD_KINDS
};

static unsigned long held[HELD_KINDS], damaged_lists[HOLD_DAMAGES], damaged_ones[LINE_TWICE];
static unsigned long hidden[13], no_hold, two_holds;

void note_held(const struct file *holds)
{
    static bool line_held[65536];
    unsigned lines = 0, pins = 0, with_line = 0, both = 0;
    for (const uint8_t *hold = holds->bytes; hold < holds->bytes + holds->length; hold += 3) {
        bool pin = hold[2] > 1;
        *(pin ? &pins : &lines) += 1;
        with_line += pin && line_held[two_bytes(hold)];
        both += hold[2] > 3 && hold > holds->bytes && two_bytes(hold - 3) == two_bytes(hold) && hold[-1] > 1;
        line_held[two_bytes(hold)] = !pin || line_held[two_bytes(hold)];
    }
    for (const uint8_t *hold = holds->bytes; hold < holds->bytes + holds->length; hold += 3)
        line_held[two_bytes(hold)] = false;
    held[lines == 0 ? (pins == 0 ? NOTHING_HELD : PINS_ALONE) : pins == 0 ? LINES_ALONE : LINES_AND_PINS]++;
    held[LINE_AND_PIN_OF_A_GATE] += with_line > 0;
    held[BOTH_PINS_OF_A_GATE] += both > 0;
}

/* A run whose number is known, with buffers that are as long as needed, or a byte short. */
static void expect_run(const struct file *netlist, const struct file *rails, const struct file *holds, bool room, uint32_t number)
{
    struct call run = {.service = RUN};
    size_t lines = lines_of(netlist), pairs = 2 * (size_t)pairs_of(netlist);
    give(&run, 0, netlist);
    give(&run, 1, rails);
    give(&run, 2, holds);
    lend_noise(&run, 3, lines, lines - !room);
    lend_noise(&run, 4, pairs, pairs);
    expect(&run, number);
    if (number == 0)
        note_held(holds);
}

/* ---- Answers worked out by hand. ---- */

/* The lines are the constants, the rails and the gates. */
static void compare_known_probes(void)
{
    static const struct {
        uint8_t hold[3];
        pilgodur_probed answer;
        const char *lines;
    } known[] = {
        {{0, 8, 3}, {0, 0, 0, 2}, "01" "010101" "101001100"},  {{0, 8, 2}, {0, 0, 0, 0}, "01" "010101" "000000000"},
        {{0, 9, 3}, {0, 0, 0, 2}, "01" "010101" "111001100"},  {{0, 8, 5}, {0, 6, 0, 1}, "01" "011010" "101100111"},
        {{0, 16, 2}, {0, 4, 0, 0}, "01" "010110" "101000010"}, {{0, 14, 3}, {0, 3, 0, 1}, "01" "101001" "000010101"},
    };
    static struct file table, netlist, hold;
    uint8_t buffer[100];
    set_selector(&table, &netlist);
    size_t need = netlist.length + SELECTOR_LINES;
    for (unsigned k = 0; k < sizeof known / sizeof *known; k++) {
        set_file(&hold, known[k].hold, 3);
        pilgodur_probed answer = ref_probe(table.bytes, table.length, hold.bytes, 3, buffer, sizeof buffer);
        expect_right(memcmp(&answer, &known[k].answer, sizeof answer) == 0 && are_lines(buffer + netlist.length, known[k].lines),
                     "probe of the selector", &hold);
        for (unsigned missing = 0; missing < 2; missing++)
            expect_probe(&table, &hold, need, need - missing, missing ? 9 : 0);
    }
}

/* A line's hold goes before its pins'; a held pin changes neither its source nor another gate that reads it; both pins held. */
static void compare_known_runs(void)
{
    static const struct {
        uint32_t input;
        uint8_t holds[6];
        size_t length;
        const char *lines;
    } known[] = {
        {0, {0, 8, 0, 0, 8, 3}, 6, "01" "010101" "000000000"},
        {4, {0, 15, 2}, 3, "01" "010110" "101000000"},
        {2, {0, 9, 3, 0, 9, 5}, 6, "01" "011001" "011101100"},
    };
    static struct file table, netlist, rails, holds;
    uint8_t lines[SELECTOR_LINES], pairs[2];
    set_selector(&table, &netlist);
    for (unsigned k = 0; k < sizeof known / sizeof *known; k++) {
        set_file(&holds, known[k].holds, known[k].length);
        code_rails(3, known[k].input, &rails);
        uint32_t refusal = ref_run(netlist.bytes, netlist.length, rails.bytes, rails.length, holds.bytes, holds.length, lines,
                                   sizeof lines, pairs, sizeof pairs);
        expect_right(refusal == 0 && are_lines(lines, known[k].lines), "run of the selector", &holds);
        expect_run(&netlist, &rails, &holds, true, 0);
    }
}

/* One gate that reads two rails, its line and either pin free, held at 0 and held at 1. */
static void compare_one_gate(void)
{
    static struct file netlist, rails, holds;
    uint8_t bytes[] = {1, 0, 1, 1, 4, 0, 5, 0, 0, 2, 0, 3, 5, 0, 4, 0, 4, 0, 2};
    for (unsigned k = 0; k < 2 * 2 * 2 * 27; k++) {
        uint8_t values[2] = {k % 2, k / 2 % 2}, lines[5], pairs[2];
        unsigned state[3] = {k / 8 % 3, k / 24 % 3, k / 72}; /* of the line and the pins: free, at 0, at 1 */
        bytes[7] = k / 4 % 2;
        set_file(&netlist, bytes, sizeof bytes);
        set_file(&rails, values, 2);
        holds.length = 0;
        for (unsigned site = 0; site < 3; site++)
            if (state[site] != 0)
                add_hold(&holds, 4, 2 * site + state[site] - 1);
        bool a = state[1] == 0 ? values[0] : state[1] == 2, b = state[2] == 0 ? values[1] : state[2] == 2;
        bool shown = state[0] != 0 ? state[0] == 2 : bytes[7] == 1 ? a || b : a && b;
        uint32_t refusal = ref_run(netlist.bytes, netlist.length, values, 2, holds.bytes, holds.length, lines, 5, pairs, 2);
        expect_right(refusal == 0 && memcmp(lines + 2, values, 2) == 0 && lines[4] == shown, "run of one gate", &holds);
        expect_run(&netlist, &rails, &holds, true, 0);
    }
}

/* Lines 0 to 6 with value bytes 0 to 7 on a netlist of one contact and two gates, one hold and two. Of eight lines and pins, each at two
 * values, there are 16 good lists of one hold and 4 * 28 of two. */
static void compare_short_lists(void)
{
    static const uint8_t bytes[] = {1, 0, 1, 1, 4, 0, 10, 0, 0, 2, 0, 3, 1, 0, 4, 0, 2, 5, 0, 4, 0, 4, 0, 5};
    static struct file netlist, rails, holds;
    unsigned good = 0;
    set_file(&netlist, bytes, sizeof bytes);
    set_file(&rails, (const uint8_t[]){1, 0}, 2);
    for (unsigned k = 0; k < 57 * 56; k++) {
        struct call run = {.service = RUN};
        holds.length = 0;
        if (k >= 56)
            add_hold(&holds, (k / 56 - 1) / 8, (k / 56 - 1) % 8);
        add_hold(&holds, k % 56 / 8, k % 8);
        give(&run, 0, &netlist);
        give(&run, 1, &rails);
        give(&run, 2, &holds);
        lend_noise(&run, 3, 6, 6);
        lend_noise(&run, 4, 2, 2);
        good += compare(&run) == 0;
    }
    holds.length = 0;
    expect_right(good == 16 + 4 * 28, "count of good lists", &holds);
}

/* Each line to one past the last, each value byte to 7. */
static void compare_selector_holds(void)
{
    static struct file table, netlist, hold;
    set_selector(&table, &netlist);
    size_t need = netlist.length + SELECTOR_LINES;
    for (unsigned line = 0; line <= SELECTOR_LINES; line++)
        for (unsigned value = 0; value < 8; value++) {
            bool good = line < SELECTOR_LINES && value < 6 && line >= (value < 2 ? 2 : SELECTOR_GATE);
            hold.length = 0;
            add_hold(&hold, line, value);
            expect_probe(&table, &hold, need, need, good ? 0 : 14);
        }
}

void compare_known_holds(void)
{
    compare_known_probes();
    compare_known_runs();
    compare_one_gate();
    compare_short_lists();
    compare_selector_holds();
}

/* ---- Hold lists of every kind. ---- */

/* A good list in a run, and the same damaged; a refusal for its holds goes before one for the buffers. */
static void compare_list(enum hold_damage kind, unsigned contacts, unsigned gates)
{
    static struct file netlist, rails, holds;
    netlist_of_size(&dice, contacts, gates, 1 + roll(&dice, 8), chance(&dice, 50), &netlist);
    struct sites sites = sites_of(&netlist);
    random_rails(&dice, contacts, &rails);
    random_holds(&dice, &sites, roll(&dice, 3), &holds);
    expect_run(&netlist, &rails, &holds, true, 0);
    if (!can_damage_holds(kind, &sites))
        return;
    damage_holds(&dice, kind, &sites, &holds);
    expect_run(&netlist, &rails, &holds, chance(&dice, 70), 14);
    damaged_lists[kind]++;
}

/* One bad hold, no hold and two good ones in probes of a board. */
static void compare_bad_probes(const struct file *table, const struct file *netlist)
{
    static struct file hold;
    struct sites sites = sites_of(netlist);
    size_t need = netlist->length + sites.lines;
    for (unsigned kind = 0; kind < LINE_TWICE; kind++) {
        damage_one_hold(&dice, (enum hold_damage)kind, &sites, &hold);
        expect_probe(table, &hold, need, need - chance(&dice, 30), 14);
        damaged_ones[kind]++;
    }
    for (unsigned k = 0; k < 6; k++) {
        not_one_hold(&dice, &sites, &hold);
        expect_probe(table, &hold, need, need, 14);
        *(hold.length == 0 ? &no_hold : &two_holds) += 1;
    }
}

/* ---- Probes of pins. ---- */

void probe_pins(const struct file *table, const struct file *netlist)
{
    static struct file hold;
    struct sites sites = sites_of(netlist);
    size_t need = netlist->length + sites.lines;
    unsigned work = (sites.lines - sites.first_gate) << contacts_of(netlist), step = 1 + work / SMALL_WORK;
    for (unsigned line = sites.first_gate + roll(&dice, step); line < sites.lines; line += step)
        for (unsigned value = 2; value < 6; value++) {
            hold.length = 0;
            add_hold(&hold, line, value);
            expect_probe(table, &hold, need, need, 0);
        }
}

/* Looks for the first pin of an AND that is hidden at 1. */
static bool find_hidden_pin(const struct file *table, const struct file *netlist, struct file *hold)
{
    static uint8_t buffer[PILGODUR_FILE_MAX + PILGODUR_LINES_MAX];
    struct sites sites = sites_of(netlist);
    for (unsigned line = sites.first_gate; line < sites.lines; line++) {
        bool is_and = netlist->bytes[7 + 5 * (line - sites.first_gate)] == 0;
        hold->length = 0;
        add_hold(hold, line, 3);
        if (is_and && ref_probe(table->bytes, table->length, hold->bytes, 3, buffer, sizeof buffer).way == PILGODUR_WAY_HIDDEN)
            return true;
    }
    return false;
}

static void draw_board(unsigned contacts, struct file *table, struct file *netlist)
{
    struct diagram diagram;
    random_diagram(&dice, contacts, 1 + roll(&dice, 8), &diagram);
    table->length = table_of(&diagram, table->bytes);
    build_netlist(table, false, netlist);
}

/* The buffer is asked about before it shows that a pin is hidden. */
static void compare_hidden_pin(unsigned contacts)
{
    static struct file table, netlist, hold;
    do
        draw_board(contacts, &table, &netlist);
    while (!find_hidden_pin(&table, &netlist, &hold));
    size_t need = netlist.length + lines_of(&netlist);
    unsigned long before = ways[1][PILGODUR_WAY_HIDDEN];
    expect_probe(&table, &hold, need, need, 0);
    expect_probe(&table, &hold, need, need - 1, 9);
    hidden[contacts] += ways[1][PILGODUR_WAY_HIDDEN] - before;
}

void compare_holds(unsigned contacts)
{
    static struct file table, netlist;
    for (unsigned kind = 0; kind < HOLD_DAMAGES; kind++)
        for (unsigned gates = 0; gates < 200; gates = 3 * gates + 1)
            compare_list((enum hold_damage)kind, contacts, gates);
    for (unsigned k = 0; k < BOARDS; k++) {
        draw_board(contacts, &table, &netlist);
        compare_bad_probes(&table, &netlist);
        probe_pins(&table, &netlist);
    }
    if (contacts > 1)
        compare_hidden_pin(contacts);
}

bool print_holds(void)
{
    bool all = print_counts("runs by what is held", held, 0, HELD_KINDS - 1);
    all = print_counts("damaged hold lists by kind", damaged_lists, 0, HOLD_DAMAGES - 1) && all;
    all = print_counts("damaged holds of a probe by kind", damaged_ones, 0, LINE_TWICE - 1) && all;
    printf("probes with no hold: %lu, with two: %lu\n", no_hold, two_holds);
    all = print_counts("probes of lines by way", ways[0], 0, PILGODUR_WAY_BOTH_HIGH) && all;
    all = print_counts("probes of pins by way", ways[1], 0, PILGODUR_WAY_HIDDEN) && all;
    all = print_counts("hidden pins that were looked for, by contacts", hidden, 2, 12) && all;
    return all && no_hold != 0 && two_holds != 0;
}
