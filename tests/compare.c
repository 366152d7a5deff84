/* Compares the library with the reference, call by call, on boards with spare contacts in every place, on lamps of every count of
 * outputs and of every damage, on holds of lines and pins of every kind, on runs cut into steps in every way, on drawings and rule
 * sheets of every kind, on notes of every kind in every place and on random cases, and asks the demands of boards that the library builds
 * and of tables that it makes from drawings and rule sheets.
 *
 *     compare [SEED [CASES]]
 *
 * A case is one call of one service. Both sides get the same bytes, each string between guards, and every byte of every string is
 * looked at afterwards. In a good share of the cases both sides get the file with notes put in as well, and must answer as without
 * them. Exit status 0: no differences and every number was hit; 1: not so; 2: bad usage. */
#define _GNU_SOURCE
#include <errno.h>
#include <inttypes.h>
#include <signal.h>
#include <stdio.h>
#include <stdlib.h>
#include <string.h>
#include <unistd.h>

#include "calls.h"
#include "edits.h"
#include "malformed.h"
#include "pin_cases.h"
#include "rule_cases.h"
#include "step_cases.h"

_Static_assert(PILGODUR_TABLE_MAX == TABLE_MAX, "the length of the longest table");
_Static_assert(PILGODUR_NOTE_TAG == NOTE_TAG, "the first tag of notes");

/* Sizes of netlists whose sheets are compared again and again: about the end of a page, with no gates, and the largest; the last number
 * counts the lamp. */
static const struct size {
    unsigned gates, outputs, lamp;
} sheet_sizes[] = {{48, 1, 0}, {41, 8, 0}, {49, 1, 0}, {42, 8, 0}, {50, 1, 0}, {43, 8, 0}, {99, 1, 0}, {92, 8, 0},  {100, 1, 0},
                   {93, 8, 0}, {0, 1, 0},  {0, 8, 0},  {47, 1, 1}, {40, 8, 1}, {48, 1, 1}, {41, 8, 1}, {49, 1, 1},  {42, 8, 1},
                   {98, 1, 1}, {91, 8, 1}, {99, 1, 1}, {92, 8, 1}, {0, 1, 1},  {0, 8, 1},  {10560, 8, 0}, {10591, 8, 1},
                   {MOST_GATES, 8, 0}, {MOST_GATES, 8, 1}};
enum { SHEET_SIZES = sizeof sheet_sizes / sizeof *sheet_sizes };

static unsigned long cut_notes[CUT_KINDS], tags_passed, tags_refused;
static unsigned long accepted_contacts[13], accepted_outputs[9], accepted_width[9], accepted_spare[13], spare_place[12];
static unsigned long with_constant, all_constant, eleven_spare_of_12;
static unsigned long sheets[SHEET_SIZES];
static unsigned long lamp_outputs[9], lamps_of_constants, damaged_lamps[LAMP_DAMAGES];
static unsigned long drawn_contacts[13], malformed[MALFORMATIONS];
static unsigned long at_eight[13][12], at_nine[13][12]; /* drawings by contacts and level */
static struct {
    unsigned long no_nodes, all_nodes, skipping, repeating, unmentioned, constant_outputs, upward, downward;
} drawn;

/* ---- Tables and netlists for a call. ---- */

static bool is_constant(const struct diagram *diagram, unsigned output)
{
    unsigned node = diagram->output[output];
    unsigned level = 0;
    while (level < diagram->contacts && diagram->edge[level][node][0] == diagram->edge[level][node][1])
        node = diagram->edge[level++][node][0];
    return level == diagram->contacts;
}

static void note_accepted(const struct diagram *diagram)
{
    unsigned widest = 2, spare = 0, constants = 0;
    for (unsigned level = 0; level < diagram->contacts; level++) {
        if (diagram->width[level] > widest)
            widest = diagram->width[level];
        spare += is_spare(diagram, level);
        spare_place[level] += is_spare(diagram, level);
    }
    for (unsigned j = 0; j < diagram->outputs; j++)
        constants += is_constant(diagram, j);
    accepted_contacts[diagram->contacts]++;
    accepted_outputs[diagram->outputs]++;
    accepted_width[widest]++;
    accepted_spare[spare]++;
    with_constant += constants > 0;
    all_constant += constants == diagram->outputs;
    eleven_spare_of_12 += diagram->contacts == 12 && spare == 11;
}

/* A diagram of any size; large ones of 9 to 12 contacts are drawn less often. */
static void draw_diagram(struct diagram *diagram)
{
    unsigned contacts = 1 + roll(&dice, chance(&dice, 70) ? 8 : 12);
    unsigned kind = roll(&dice, 100);
    if (kind < 2)
        widest_diagram(&dice, contacts, diagram);
    else if (kind < 3)
        largest_diagram(&dice, contacts, diagram);
    else
        random_diagram(&dice, contacts, 1 + roll(&dice, 8), diagram);
}

/* A table: good, damaged, good but for some bytes, or random. */
static void draw_table(struct file *table)
{
    unsigned kind = roll(&dice, 100);
    struct diagram diagram;
    draw_diagram(&diagram);
    table->length = table_of(&diagram, table->bytes);
    if (kind < 55)
        note_accepted(&diagram);
    else if (kind < 85)
        damaged_table(&dice, &diagram, table);
    else if (kind < 94)
        flip_bytes(&dice, table);
    else if (kind < 97)
        random_fields(&dice, table);
    else
        random_bytes(&dice, table);
    damage_some_notes(table);
}

static uint32_t draw_input(const struct file *table)
{
    unsigned contacts = table->length > 3 ? contacts_of(table) % 16 : 3;
    unsigned kind = roll(&dice, 100);
    if (kind < 80)
        return roll(&dice, 1u << contacts);
    if (kind < 88)
        return 1u << contacts;
    return kind < 94 ? (uint32_t)-1 - roll(&dice, 3) : roll(&dice, 1u << 31);
}

/* A netlist that gets a yes to questions 11 and 12: built from a table, or any; half of them have a lamp. */
static void draw_netlist(struct file *netlist)
{
    static struct file table;
    struct diagram diagram;
    if (chance(&dice, 40)) {
        random_netlist(&dice, netlist);
        return;
    }
    draw_diagram(&diagram);
    table.length = table_of(&diagram, table.bytes);
    build_netlist(&table, chance(&dice, 50), netlist);
}

/* ---- Cases of each service. ---- */

static void draw_hold(const struct sites *sites, struct file *hold)
{
    one_hold(&dice, sites, hold);
    if (chance(&dice, 10))
        damage_one_hold(&dice, (enum hold_damage)roll(&dice, LINE_TWICE), sites, hold);
    else if (chance(&dice, 5))
        damage_holds_somehow(&dice, sites, hold);
    else if (chance(&dice, 5))
        not_one_hold(&dice, sites, hold);
}

/* Notes a netlist with a lamp that was built. The lines of its outputs stand before the seven bytes of tag 6. */
static void note_lamp(const struct file *netlist)
{
    unsigned outputs = outputs_of(netlist), constants = 0;
    const uint8_t *line = netlist->bytes + netlist->length - 7 - 4 * (size_t)outputs;
    for (unsigned k = 0; k < 2 * outputs; k++)
        constants += line[2 * k] == 0 && line[2 * k + 1] < 2;
    lamp_outputs[outputs]++;
    lamps_of_constants += outputs > 1 && constants > 0;
}

static void table_case(enum service service)
{
    static struct file table, netlist, hold;
    struct call call = {.service = service};
    draw_table(&table);
    give(&call, 0, &table);
    if (service == READ_OFF)
        call.input = draw_input(&table);
    if (service == BUILD || service == BUILD_WITH_LAMP || service == PROBE) {
        build_netlist(&table, service == BUILD_WITH_LAMP, &netlist);
        size_t need = netlist.length != 0 ? netlist.length : roll(&dice, 300);
        struct sites sites = {4, 4 + roll(&dice, 50)};
        if (netlist.length != 0)
            sites = sites_of(&netlist);
        lend_buffer(&call, service == PROBE ? 2 : 1, service == PROBE ? need + sites.lines : need);
        draw_hold(&sites, &hold);
        if (service == PROBE)
            give(&call, 1, &hold);
    }
    if (compare(&call) == 0 && service == BUILD_WITH_LAMP)
        note_lamp(&netlist);
}

/* A netlist damaged at questions 11 and 12, or random bytes in its place; most stay as they are. */
static void damage_some(struct file *netlist)
{
    unsigned kind = roll(&dice, 100);
    if (kind < 25)
        damage_netlist(&dice, netlist);
    else if (kind < 30)
        flip_bytes(&dice, netlist);
    else if (kind < 32)
        random_fields(&dice, netlist);
    else if (kind < 34)
        random_bytes(&dice, netlist);
    damage_some_notes(netlist);
}

/* A run, or one step of it. */
static void run_case(enum service service)
{
    static struct file netlist, rails, holds;
    struct call call = {.service = service};
    draw_netlist(&netlist);
    struct sites sites = sites_of(&netlist);
    random_rails(&dice, contacts_of(&netlist), &rails);
    random_holds(&dice, &sites, roll(&dice, 3), &holds);
    lend_buffer(&call, 3, sites.lines);
    lend_buffer(&call, 4, 2 * (size_t)pairs_of(&netlist));
    if (service == STEP) {
        call.place = draw_place(sites.lines);
        call.count = draw_count(sites.lines);
        lend_lines(&call, sites.lines, call.length[3]);
    }
    damage_some(&netlist);
    if (chance(&dice, 10))
        damage_rails(&dice, &rails);
    if (chance(&dice, 12))
        damage_holds_somehow(&dice, &sites, &holds);
    call.need[3] = lines_of(&netlist);
    call.need[4] = 2 * (size_t)pairs_of(&netlist);
    give(&call, 0, &netlist);
    give(&call, 1, &rails);
    give(&call, 2, &holds);
    if (compare(&call) == 0)
        note_held(&holds);
}

/* The bytes of the sheet of a netlist that gets a yes to question 11; of others some number. */
static size_t sheet_length(const struct file *netlist)
{
    size_t rows = gates_of(netlist) + pairs_of(netlist), pages = (rows + 49) / 50;
    return 22 * (rows + pages);
}

static void sheet_case(void)
{
    static struct file netlist;
    struct call call = {.service = SHEET};
    draw_netlist(&netlist);
    lend_buffer(&call, 1, sheet_length(&netlist));
    damage_some(&netlist);
    call.need[1] = sheet_length(&netlist);
    give(&call, 0, &netlist);
    compare(&call);
}

/* A sheet of each size, in a buffer that is as long as needed, one byte short and longer. */
static void compare_sizes(void)
{
    static struct file netlist;
    for (unsigned i = 0; i < SHEET_SIZES; i++) {
        unsigned contacts = sheet_sizes[i].gates == MOST_GATES ? 12 : 1 + roll(&dice, 12);
        netlist_of_size(&dice, contacts, sheet_sizes[i].gates, sheet_sizes[i].outputs, sheet_sizes[i].lamp, &netlist);
        size_t need = sheet_length(&netlist);
        for (unsigned k = 0; k < 3; k++) {
            struct call call = {.service = SHEET};
            give(&call, 0, &netlist);
            lend_noise(&call, 1, need, k == 0 ? need : k == 1 ? need - 1 : need + 1 + roll(&dice, 40));
            sheets[i] += compare(&call) == 0;
        }
    }
}

/* ---- Drawings. ---- */

static bool is_mentioned(const struct drawing *drawing, unsigned number)
{
    bool found = memchr(drawing->output, (int)number, drawing->outputs) != NULL;
    for (unsigned i = 0; i < drawing->nodes; i++)
        found = found || drawing->node[i].edge[0] == number || drawing->node[i].edge[1] == number;
    return found;
}

static bool is_repeated(const struct drawing *drawing, unsigned node)
{
    for (unsigned i = 0; i < node; i++)
        if (memcmp(&drawing->node[i], &drawing->node[node], sizeof drawing->node[i]) == 0)
            return true;
    return false;
}

/* Notes of what kind a drawing is whose table was made. */
static void note_drawing(const struct drawing *drawing)
{
    bool skipping = false, repeating = false, unmentioned = false, constant = false, upward = false, downward = false;
    for (unsigned i = 0; i < drawing->nodes; i++) {
        for (unsigned k = 0; k < 2; k++) {
            unsigned edge = drawing->node[i].edge[k];
            unsigned level = edge < 2 ? drawing->contacts : drawing->node[edge - 2].level;
            skipping = skipping || level > drawing->node[i].level + 1u;
            upward = upward || edge > 2 + i;
            downward = downward || (1 < edge && edge < 2 + i);
        }
        repeating = repeating || is_repeated(drawing, i);
        unmentioned = unmentioned || !is_mentioned(drawing, 2 + i);
    }
    for (unsigned j = 0; j < drawing->outputs; j++)
        constant = constant || drawing->output[j] < 2;
    drawn_contacts[drawing->contacts]++;
    drawn.no_nodes += drawing->nodes == 0;
    drawn.all_nodes += drawing->nodes == MOST_NODES;
    drawn.skipping += skipping;
    drawn.repeating += repeating;
    drawn.unmentioned += unmentioned;
    drawn.constant_outputs += constant;
    drawn.upward += upward;
    drawn.downward += downward;
}

static void good_drawing(const struct drawing *drawing)
{
    static struct file file;
    file.length = write_drawing(drawing, file.bytes);
    if (call_maker(FROM_DRAWING, &file) == 0)
        note_drawing(drawing);
}

/* Drawings of an accepted table: as it is, and drawn otherwise with so many nodes. The table comes back. */
static void expect_table(const struct diagram *diagram, unsigned nodes)
{
    static struct file file, table;
    struct drawing drawing;
    table.length = table_of(diagram, table.bytes);
    drawing_of(diagram, &drawing);
    for (unsigned k = 0; k < 2; k++) {
        file.length = write_drawing(&drawing, file.bytes);
        expect_made(FROM_DRAWING, &file, 0, &table);
        note_drawing(&drawing);
        redraw(&dice, nodes, &drawing);
    }
    good_drawing(&drawing);
}

/* A drawing with so many functions in a level, redrawn. */
static void expect_wide(unsigned contacts, unsigned level, unsigned functions)
{
    static struct file file;
    struct drawing drawing;
    unsigned count[12];
    wide_drawing(&dice, contacts, level, functions, &drawing);
    redraw(&dice, roll(&dice, 100), &drawing);
    file.length = write_drawing(&drawing, file.bytes);
    expect_made(FROM_DRAWING, &file, functions > 8 ? 17 : 0, NULL);
    count_functions(&drawing, count);
    at_eight[contacts][level] += count[level] == 8;
    at_nine[contacts][level] += count[level] == 9;
}

static void expect_malformed(enum malformation kind, const struct drawing *good)
{
    static struct file file;
    if (kind == EDGE_TO_LOWER_LEVEL && good->contacts == 1)
        return;
    malformed_drawing(&dice, kind, good, &file);
    expect_made(FROM_DRAWING, &file, 16, NULL);
    malformed[kind]++;
}

/* Constants as all outputs, with no nodes: the table of a diagram in which every contact is spare. */
static void expect_constants(unsigned contacts, unsigned outputs)
{
    struct diagram diagram = {.outputs = outputs, .width = {2}};
    struct drawing drawing = {.contacts = contacts, .outputs = outputs};
    static struct file file, table;
    for (unsigned j = 0; j < outputs; j++)
        drawing.output[j] = diagram.output[j] = (uint8_t)roll(&dice, 2);
    while (diagram.contacts < contacts)
        insert_spare_contact(&diagram, 0);
    file.length = write_drawing(&drawing, file.bytes);
    table.length = table_of(&diagram, table.bytes);
    expect_made(FROM_DRAWING, &file, 0, &table);
    note_drawing(&drawing);
}

/* For so many contacts: no nodes, 200 nodes, every way to be malformed, and eight and nine functions in each level that can have so
 * many: the last one has at most four, and the first one at most as many as there are outputs. */
static void compare_drawings(unsigned contacts)
{
    struct diagram diagram;
    struct drawing drawing;
    for (unsigned outputs = 1; outputs <= 8; outputs++) {
        expect_constants(contacts, outputs);
        random_diagram(&dice, contacts, outputs, &diagram);
        expect_table(&diagram, outputs % 2 == 0 ? MOST_NODES : roll(&dice, MOST_NODES));
    }
    widest_diagram(&dice, contacts, &diagram);
    expect_table(&diagram, MOST_NODES);
    for (unsigned kind = 0; kind < MALFORMATIONS; kind++)
        for (unsigned nodes = 0; nodes <= 198; nodes += 66) {
            random_drawing(&dice, contacts, 1 + roll(&dice, 8), nodes, &drawing);
            expect_malformed((enum malformation)kind, &drawing);
        }
    for (unsigned level = 0; level + 1 < contacts; level++) {
        expect_wide(contacts, level, 8);
        if (level > 0)
            expect_wide(contacts, level, 9);
    }
}

/* A drawing: random, of a table, of a level that is wide, malformed, or good but for some bytes. */
static void drawing_case(void)
{
    static struct file file;
    struct diagram diagram;
    struct drawing drawing;
    unsigned kind = roll(&dice, 100), contacts = 1 + roll(&dice, 12);
    random_drawing(&dice, contacts, 1 + roll(&dice, 8), roll(&dice, chance(&dice, 70) ? 20 : 199), &drawing);
    file.length = write_drawing(&drawing, file.bytes);
    if (kind < 55) {
        good_drawing(&drawing);
    } else if (kind < 65) {
        draw_diagram(&diagram);
        expect_table(&diagram, roll(&dice, MOST_NODES + 1));
    } else if (kind < 75 && contacts > 2) {
        expect_wide(contacts, 1 + roll(&dice, contacts - 2), 7 + roll(&dice, 4));
    } else if (kind < 85) {
        expect_malformed((enum malformation)roll(&dice, MALFORMATIONS), &drawing);
    } else {
        if (kind < 95)
            flip_bytes(&dice, &file);
        else if (kind < 98)
            random_fields(&dice, &file);
        else
            random_bytes(&dice, &file);
        damage_some_notes(&file);
        call_maker(FROM_DRAWING, &file);
    }
}

/* ---- Every service on one board, with buffers that are as long as needed and one byte short. ---- */

/* Run, whose second buffer has room for all pairs, for one byte less and, with a lamp, for all but its pair; a step with room and one
 * without; sheet. */
static void services_on_netlist(const struct file *netlist)
{
    static struct file rails, holds;
    struct sites sites = sites_of(netlist);
    unsigned lines = sites.lines;
    size_t pairs = 2 * (size_t)pairs_of(netlist), outputs = 2 * (size_t)outputs_of(netlist), text = sheet_length(netlist);
    const size_t room[][2] = {{lines, pairs}, {lines - 1, pairs}, {lines, pairs - 1}, {lines, outputs}};
    random_rails(&dice, contacts_of(netlist), &rails);
    random_holds(&dice, &sites, roll(&dice, 3), &holds);
    for (unsigned k = 0; k < 6; k++) {
        struct call run = {.service = k < 4 ? RUN : STEP, .place = 2 + roll(&dice, lines - 1), .count = draw_count(lines)};
        const size_t *lent = room[k < 4 ? k : k == 4 ? 0 : 1 + roll(&dice, 3)];
        give(&run, 0, netlist);
        give(&run, 1, &rails);
        give(&run, 2, &holds);
        lend_noise(&run, 3, lines, lent[0]);
        lend_noise(&run, 4, pairs, lent[1]);
        expect(&run, lent[0] < lines || lent[1] < pairs ? 9 : 0);
    }
    for (unsigned missing = 0; missing < 2; missing++) {
        struct call sheet = {.service = SHEET};
        give(&sheet, 0, netlist);
        lend_noise(&sheet, 1, text, text - missing);
        expect(&sheet, missing ? 9 : 0);
    }
}

/* A build with and without the lamp, and the services on what it gives. */
static void build_services(const struct file *table, bool lamp)
{
    static struct file netlist;
    build_netlist(table, lamp, &netlist);
    for (unsigned missing = 0; missing < 2; missing++) {
        struct call build = {.service = lamp ? BUILD_WITH_LAMP : BUILD};
        give(&build, 0, table);
        lend_noise(&build, 1, netlist.length, netlist.length - missing);
        expect(&build, missing ? 9 : 0);
    }
    if (lamp)
        note_lamp(&netlist);
    services_on_netlist(&netlist);
}

static void services_but_probe(const struct file *table)
{
    struct call check = {.service = CHECK}, read_off = {.service = READ_OFF, .input = roll(&dice, 1u << contacts_of(table))};
    give(&check, 0, table);
    expect(&check, 0);
    give(&read_off, 0, table);
    expect(&read_off, 0);
    build_services(table, false);
    build_services(table, true);
}

/* Every line at both values. A spare contact's rail, which nothing reads, gives 15, whatever the buffer. */
static void probe_all_lines(const struct diagram *diagram, const struct file *table, const struct file *netlist)
{
    static struct file hold;
    unsigned lines = lines_of(netlist);
    size_t need = netlist->length + lines;
    for (unsigned line = 2; line < lines; line++) {
        unsigned contact = line / 2 - 1;
        bool unread = contact < diagram->contacts && is_spare(diagram, contact);
        for (unsigned k = 0; k < 4; k++) {
            unsigned value = k / 2, missing = k % 2;
            hold.length = 0;
            add_hold(&hold, line, value);
            expect_probe(table, &hold, need, need - missing, unread ? 15 : missing ? 9 : 0);
        }
    }
}

static void compare_board(const struct diagram *diagram)
{
    static struct file table, netlist;
    table.length = table_of(diagram, table.bytes);
    build_netlist(&table, false, &netlist);
    services_but_probe(&table);
    probe_all_lines(diagram, &table, &netlist);
    probe_pins(&table, &netlist);
}

/* ---- Lamps. ---- */

/* Run, step and sheet of a netlist that is refused with this number. */
static void expect_refused(const struct file *netlist, uint32_t number)
{
    static struct file rails, holds;
    struct call sheet = {.service = SHEET};
    random_rails(&dice, 1 + roll(&dice, 12), &rails);
    holds.length = 0;
    for (unsigned step = 0; step < 2; step++) {
        struct call run = {.service = step ? STEP : RUN, .place = 2, .count = UINT32_MAX};
        give(&run, 0, netlist);
        give(&run, 1, &rails);
        give(&run, 2, &holds);
        lend_noise(&run, 3, 0, PILGODUR_LINES_MAX);
        lend_noise(&run, 4, 0, PILGODUR_PAIRS_MAX);
        expect(&run, number);
    }
    give(&sheet, 0, netlist);
    lend_noise(&sheet, 1, 0, PILGODUR_SHEET_MAX);
    expect(&sheet, number);
}

static void expect_damaged_lamp(enum lamp_damage kind, unsigned gates, unsigned outputs)
{
    static struct file netlist;
    netlist_of_size(&dice, 1 + roll(&dice, 12), gates, outputs, true, &netlist);
    damage_lamp(&dice, kind, &netlist);
    expect_refused(&netlist, kind < LAMP_TRUE_LINE ? 11 : 12);
    damaged_lamps[kind]++;
}

/* As many gates as there may be, and one more, with a lamp and without. */
static void compare_most_gates(void)
{
    static struct file netlist;
    for (unsigned lamp = 0; lamp < 2; lamp++) {
        netlist_of_size(&dice, 12, MOST_GATES, 8, lamp, &netlist);
        services_on_netlist(&netlist);
        netlist_of_size(&dice, 12, MOST_GATES + 1, 8, lamp, &netlist);
        expect_refused(&netlist, 11);
    }
}

/* Lamps of so many outputs, drawn in several ways, also of constants alone, and damaged in every way. */
static void compare_lamps(unsigned outputs)
{
    static struct file table;
    struct diagram diagram;
    for (unsigned contacts = 1; contacts <= 12; contacts++) {
        random_diagram(&dice, contacts, outputs, &diagram);
        table.length = table_of(&diagram, table.bytes);
        services_but_probe(&table);
        diagram = (struct diagram){.outputs = outputs, .width = {2}};
        for (unsigned j = 0; j < outputs; j++)
            diagram.output[j] = (uint8_t)roll(&dice, 2);
        while (diagram.contacts < contacts)
            insert_spare_contact(&diagram, 0);
        table.length = table_of(&diagram, table.bytes);
        services_but_probe(&table);
    }
    for (unsigned kind = 0; kind < LAMP_DAMAGES; kind++)
        for (unsigned gates = 0; gates < 200; gates = 3 * gates + 1)
            expect_damaged_lamp((enum lamp_damage)kind, gates, outputs);
}

/* ---- Notes. ---- */

/* Every service on a table that is refused with this number. */
static void expect_refused_table(const struct file *table, uint32_t number)
{
    static struct file hold;
    static const struct sites few = {4, 6};
    struct call check = {.service = CHECK}, read_off = {.service = READ_OFF};
    give(&check, 0, table);
    expect(&check, number);
    give(&read_off, 0, table);
    expect(&read_off, number);
    for (unsigned lamp = 0; lamp < 2; lamp++) {
        struct call build = {.service = lamp ? BUILD_WITH_LAMP : BUILD};
        give(&build, 0, table);
        lend_noise(&build, 1, 0, PILGODUR_FILE_MAX);
        expect(&build, number);
    }
    one_hold(&dice, &few, &hold);
    expect_probe(table, &hold, 0, PILGODUR_FILE_MAX, number);
}

/* A table, its netlist without the lamp and with it, and a drawing: the files that can have notes. */
struct files {
    struct diagram diagram;
    struct file table, netlist[2], drawing;
};

static void draw_files(unsigned contacts, struct files *files)
{
    struct drawing drawing;
    random_diagram(&dice, contacts, 1 + roll(&dice, 8), &files->diagram);
    files->table.length = table_of(&files->diagram, files->table.bytes);
    for (unsigned lamp = 0; lamp < 2; lamp++)
        build_netlist(&files->table, lamp, &files->netlist[lamp]);
    drawing_of(&files->diagram, &drawing);
    files->drawing.length = write_drawing(&drawing, files->drawing.bytes);
}

/* A probe of some rail; nothing reads that of a spare contact. */
static void expect_probed(const struct diagram *diagram, const struct file *table)
{
    static struct file hold, netlist;
    unsigned contact = roll(&dice, diagram->contacts);
    build_netlist(table, false, &netlist);
    size_t need = netlist.length + lines_of(&netlist);
    hold.length = 0;
    add_hold(&hold, 2 + 2 * contact + roll(&dice, 2), roll(&dice, 2));
    expect_probe(table, &hold, need, need, is_spare(diagram, contact) ? 15 : 0);
}

/* Every service on files that are good; `table` is that of the drawing. */
static void expect_good(const struct files *files, const struct file *table)
{
    services_but_probe(&files->table);
    expect_probed(&files->diagram, &files->table);
    for (unsigned lamp = 0; lamp < 2; lamp++)
        services_on_netlist(&files->netlist[lamp]);
    expect_made(FROM_DRAWING, &files->drawing, 0, table);
}

/* The same files, each refused with its number. */
static void expect_all_refused(const struct files *files, uint32_t number)
{
    expect_refused_table(&files->table, number);
    for (unsigned lamp = 0; lamp < 2; lamp++)
        expect_refused(&files->netlist[lamp], 11);
    expect_made(FROM_DRAWING, &files->drawing, 16, NULL);
}

/* Notes of every kind in every place: before each field, and after the last. Then nothing but such notes. */
static void compare_notes_in_places(const struct files *files)
{
    static const struct files nothing;
    noting = (struct noting){.percent = 100};
    for (unsigned kind = 0; kind < NOTE_KINDS; kind++) {
        noting.kind = (enum note_kind)kind;
        for (noting.place = 0; noting.place <= 2 + files->diagram.contacts; noting.place++)
            expect_good(files, &files->table);
        noting.place = 0;
        expect_all_refused(&nothing, 2);
    }
    noting = some_notes;
}

/* Each file with a note that is cut short. */
static void compare_cut_notes(const struct files *good)
{
    static struct files files;
    for (unsigned kind = 0; kind < CUT_KINDS; kind++) {
        files = *good;
        cut_note(&dice, (enum cut_kind)kind, &files.table);
        cut_note(&dice, (enum cut_kind)kind, &files.netlist[0]);
        cut_note(&dice, (enum cut_kind)kind, &files.netlist[1]);
        cut_note(&dice, (enum cut_kind)kind, &files.drawing);
        expect_all_refused(&files, 1);
        cut_notes[kind]++;
    }
}

/* Each file with a field of a tag more, in each place: tags from 128 on are passed over, the others are refused. Those of the files'
 * own fields are left out. */
static void compare_tags(const struct files *good)
{
    static struct files files;
    for (unsigned tag = 0; tag < 256; tag++)
        for (unsigned place = 0; place <= 2 + good->diagram.contacts && (tag == 0 || tag > 7); place++) {
            files = *good;
            put_field(&dice, tag, place, &files.table);
            put_field(&dice, tag, place, &files.netlist[0]);
            put_field(&dice, tag, place, &files.netlist[1]);
            put_field(&dice, tag, place, &files.drawing);
            if (tag < NOTE_TAG)
                expect_all_refused(&files, place == 0 ? 2 : place == 1 ? 3 : 4);
            else
                expect_good(&files, &good->table);
            *(tag < NOTE_TAG ? &tags_refused : &tags_passed) += 1;
        }
}

static void compare_notes(unsigned contacts)
{
    static struct files files;
    draw_files(contacts, &files);
    compare_notes_in_places(&files);
    compare_cut_notes(&files);
    if (contacts == 2)
        compare_tags(&files);
}

static void compare_small_board(void)
{
    struct diagram diagram;
    random_diagram(&dice, 1 + roll(&dice, 5), 1 + roll(&dice, 4), &diagram);
    compare_board(&diagram);
}

/* ---- The demands, and boards with spare contacts in every place. ---- */

static void check_demands(const struct diagram *diagram)
{
    snprintf(where, sizeof where, "board %lu, seed %" PRIu64, demands.boards, seed);
    check_board(&dice, diagram, &demands);
    stop_after_many();
}

static void compare_and_check(const struct diagram *diagram)
{
    compare_board(diagram);
    check_demands(diagram);
}

/* The parity of so many contacts and its opposite; of no contacts the two constants. */
static void parity_diagram(unsigned contacts, struct diagram *diagram)
{
    memset(diagram, 0, sizeof *diagram);
    diagram->contacts = contacts;
    diagram->outputs = 2;
    diagram->output[1] = 1;
    memset(diagram->width, 2, contacts + 1);
    for (unsigned level = 0; level < contacts; level++)
        diagram->edge[level][0][1] = diagram->edge[level][1][0] = 1;
}

/* Each of so many contacts as the only one that is used, and as the only spare one; then all of them spare, with outputs that are
 * all 0, all 1, and both. */
static void compare_spare_contacts(unsigned contacts)
{
    struct diagram diagram;
    for (unsigned i = 0; i < contacts; i++) {
        parity_diagram(1, &diagram);
        while (diagram.contacts < contacts)
            insert_spare_contact(&diagram, diagram.contacts <= i ? 0 : diagram.contacts);
        compare_and_check(&diagram);
        parity_diagram(contacts - 1, &diagram);
        insert_spare_contact(&diagram, i);
        compare_and_check(&diagram);
    }
    for (unsigned kind = 0; kind < 3; kind++) {
        parity_diagram(0, &diagram);
        diagram.output[0] = kind == 1;
        diagram.output[1] = kind > 0;
        while (diagram.contacts < contacts)
            insert_spare_contact(&diagram, 0);
        compare_and_check(&diagram);
    }
}

static void check_some_board(void)
{
    struct diagram diagram;
    if (chance(&dice, 50))
        random_diagram(&dice, 1 + roll(&dice, 4), 1 + roll(&dice, 3), &diagram);
    else
        draw_diagram(&diagram);
    check_demands(&diagram);
}

/* A table made from a drawing, asked by itself. */
static void check_some_drawing(void)
{
    struct drawing drawing;
    unsigned contacts = 1 + roll(&dice, chance(&dice, 70) ? 8 : 12);
    random_drawing(&dice, contacts, 1 + roll(&dice, 8), roll(&dice, chance(&dice, 70) ? 20 : MOST_NODES + 1), &drawing);
    if (contacts > 2 && chance(&dice, 30))
        wide_drawing(&dice, contacts, 1 + roll(&dice, contacts - 2), 6 + roll(&dice, 5), &drawing);
    snprintf(where, sizeof where, "drawing %lu, seed %" PRIu64, demands.drawings, seed);
    check_drawing(&dice, &drawing, &demands);
    stop_after_many();
}

/* A table made from a rule sheet; some sheets are spoilt. */
static void check_some_rules(void)
{
    struct rules rules;
    unsigned contacts = 1 + roll(&dice, chance(&dice, 70) ? 8 : 12), count = 1 + roll(&dice, MOST_RULES);
    random_rules(&dice, contacts, 1 + roll(&dice, 8), count, roll(&dice, chance(&dice, 60) ? 6 : 2 * MOST_RULES), &rules);
    if (rules.count > 1 && chance(&dice, 25))
        spoil_rules(&dice, (enum sheet_fault)roll(&dice, SHEET_FAULTS), &rules);
    snprintf(where, sizeof where, "rule sheet %lu, seed %" PRIu64, demands.rule_sheets, seed);
    check_rules(&dice, &rules, &demands);
    stop_after_many();
}

static void random_case(void)
{
    unsigned kind = roll(&dice, 100);
    if (kind < 14)
        table_case(CHECK);
    else if (kind < 23)
        table_case(BUILD);
    else if (kind < 32)
        table_case(BUILD_WITH_LAMP);
    else if (kind < 45)
        table_case(READ_OFF);
    else if (kind < 59)
        table_case(PROBE);
    else if (kind < 67)
        sheet_case();
    else if (kind < 75)
        drawing_case();
    else if (kind < 79)
        rules_case();
    else if (kind < 92)
        run_case(RUN);
    else
        run_case(STEP);
}

/* ---- The summary. ---- */

/* How often there was a sheet of each size. */
static bool print_sheets(void)
{
    bool all = true;
    printf("sheets by gates, outputs and lamp:");
    for (unsigned i = 0; i < SHEET_SIZES; i++) {
        printf("%s %u+%u+%u: %lu", i == 0 ? "" : ",", sheet_sizes[i].gates, sheet_sizes[i].outputs, sheet_sizes[i].lamp, sheets[i]);
        all = all && sheets[i] != 0;
    }
    printf("\n");
    return all;
}

static bool print_lamps(void)
{
    bool all = print_counts("lamps by outputs", lamp_outputs, 1, 8);
    all = print_counts("damaged lamps by kind", damaged_lamps, 0, LAMP_DAMAGES - 1) && all;
    printf("lamps that join constants: %lu\n", lamps_of_constants);
    return all && lamps_of_constants != 0;
}

static bool print_drawings(void)
{
    bool all = print_counts("drawings by contacts", drawn_contacts, 1, 12);
    all = print_counts("malformed drawings by kind", malformed, 0, MALFORMATIONS - 1) && all;
    all = print_wide("drawings with eight", at_eight, 0) && all;
    all = print_wide("drawings with nine", at_nine, 1) && all;
    printf("drawings with no nodes: %lu, with 200: %lu, that skip levels: %lu, repeat nodes: %lu, have nodes that nothing mentions: "
           "%lu, constants as outputs: %lu, edges to a higher number: %lu, to a lower one: %lu\n",
           drawn.no_nodes, drawn.all_nodes, drawn.skipping, drawn.repeating, drawn.unmentioned, drawn.constant_outputs, drawn.upward,
           drawn.downward);
    return all && drawn.no_nodes != 0 && drawn.all_nodes != 0 && drawn.skipping != 0 && drawn.repeating != 0 &&
           drawn.unmentioned != 0 && drawn.constant_outputs != 0 && drawn.upward != 0 && drawn.downward != 0;
}

static bool print_notes(void)
{
    bool all = print_counts("files with notes by kind", noted_kinds, 0, NOTE_KINDS - 1);
    all = print_counts("files with notes by place", noted_places, 0, NOTED_PLACES - 1) && all;
    all = print_counts("notes cut short by kind", cut_notes, 0, CUT_KINDS - 1) && all;
    printf("damaged notes: %lu, fields of a tag more: passed over %lu, refused %lu\n", damaged_notes, tags_passed, tags_refused);
    return all && damaged_notes != 0 && tags_passed != 0 && tags_refused != 0;
}

static int summary(void)
{
    printf("seed %" PRIu64 ", %lu cases\n", seed, cases);
    bool all = print_hits("refusal", hits);
    all = print_hits("with notes", noted_hits) && all;
    all = print_counts("accepted tables by contacts", accepted_contacts, 1, 12) && all;
    all = print_counts("accepted tables by outputs", accepted_outputs, 1, 8) && all;
    all = print_counts("accepted tables by largest width", accepted_width, 2, 8) && all;
    all = print_counts("accepted tables by spare contacts", accepted_spare, 0, 12) && all;
    all = print_counts("accepted tables by place of a spare contact", spare_place, 0, 11) && all;
    printf("accepted tables with a constant output: %lu, with constant outputs alone: %lu, with 11 of 12 contacts spare: %lu\n",
           with_constant, all_constant, eleven_spare_of_12);
    all = with_constant != 0 && all_constant != 0 && eleven_spare_of_12 != 0 && all;
    all = print_sheets() && all;
    all = print_lamps() && all;
    all = print_holds() && all;
    all = print_steps() && all;
    all = print_drawings() && all;
    all = print_rules() && all;
    all = print_notes() && all;
    all = print_demands(&demands) && all;
    if (!all)
        printf("not every number that a service can give was hit, or a kind of table, sheet, lamp, hold, step, drawing, rule sheet "
               "or note was missed\n");
    printf("%lu differences\n", differences + demands.failures);
    return all && differences + demands.failures == 0 ? 0 : 1;
}

/* ---- The program. ---- */

static void on_fault(int signal)
{
    static const char what[] = "\na byte outside a lent string was touched, or the program broke, in ";
    ssize_t ignored = write(STDERR_FILENO, what, sizeof what - 1);
    ignored += write(STDERR_FILENO, where, strlen(where));
    ignored += write(STDERR_FILENO, "\n", 1);
    (void)ignored;
    (void)signal;
    _exit(1);
}

static void watch_faults(void)
{
    struct sigaction action = {.sa_handler = on_fault};
    sigaction(SIGSEGV, &action, NULL);
    sigaction(SIGBUS, &action, NULL);
    sigaction(SIGFPE, &action, NULL);
    sigaction(SIGILL, &action, NULL);
    sigaction(SIGABRT, &action, NULL);
}

static bool read_number(const char *text, uint64_t *number)
{
    char *end;
    errno = 0;
    *number = strtoull(text, &end, 10);
    return errno == 0 && *text >= '0' && *text <= '9' && *end == '\0';
}

/* What does not lie with the dice: every count of contacts and of outputs. */
static void compare_all_kinds(void)
{
    for (unsigned contacts = 1; contacts <= 12; contacts++)
        compare_spare_contacts(contacts);
    for (unsigned outputs = 1; outputs <= 8; outputs++)
        compare_lamps(outputs);
    compare_known_holds();
    compare_known_steps();
    compare_known_rules();
    for (unsigned contacts = 1; contacts <= 12; contacts++) {
        compare_holds(contacts);
        compare_steps(contacts);
        compare_drawings(contacts);
        compare_rules(contacts);
        compare_notes(contacts);
        compare_rule_notes(contacts);
    }
}

int main(int argc, char **argv)
{
    uint64_t count = 300000;
    if (argc > 3 || (argc > 1 && !read_number(argv[1], &seed)) || (argc > 2 && !read_number(argv[2], &count))) {
        fputs("usage: compare [SEED [CASES]]\n", stderr);
        return 2;
    }
    setvbuf(stdout, NULL, _IOLBF, 0);
    dice.state = seed;
    open_calls();
    watch_faults();
    compare_all_kinds();
    count += cases; /* random ones, besides these */
    for (uint64_t i = 0; cases < count; i++) {
        random_case();
        if (i % 20000 == 0) {
            compare_sizes();
            compare_most_gates();
            compare_largest_steps();
        }
        if (i % 500 == 0)
            compare_small_board();
        if (i % 50 == 0) {
            check_some_board();
            check_some_drawing();
            check_some_rules();
        }
    }
    int status = summary();
    close_calls();
    return status;
}
