#include "demands.h"

#include <inttypes.h>
#include <stdio.h>
#include <string.h>

#include "../include/pilgodur.h"
#include "damage.h"
#include "edits.h"
#include "holds.h"

enum { SMALL_BOARD = 60, SMALL_WORK = 100000, SOME_INPUTS = 16, HOLD_SETS = 12, SEEN = 1 << 17, ROW = 22 };
enum { PLAIN_GATES = 10560 }; /* of a board without the lamp, at most */

struct board {
    const struct diagram *diagram;
    uint8_t table[TABLE_MAX];
    size_t table_length;
    pilgodur_checked checked;
    unsigned lines;
    size_t length;
    struct demands *demands;
};

static struct file netlist, with_lamp; /* the board's, without and with the lamp */
static struct file rails;
static struct file holds;
static uint8_t lines[PILGODUR_LINES_MAX];
static uint8_t pairs[PILGODUR_PAIRS_MAX];
static uint8_t probed_bytes[PILGODUR_FILE_MAX + PILGODUR_LINES_MAX];
static bool is_read[PILGODUR_LINES_MAX]; /* by some gate or output of the netlist */

void report_demand(struct demands *demands, const char *what, va_list args, const char *kind, const uint8_t *file, size_t length)
{
    fputs("demand not met: ", stdout);
    vprintf(what, args);
    printf("\n  %s hex:", kind);
    for (size_t i = 0; i < length; i++)
        printf("%02x", file[i]);
    fputs("\n", stdout);
    demands->failures++;
}

__attribute__((format(printf, 2, 3)))
static bool fail(const struct board *board, const char *what, ...)
{
    va_list args;
    va_start(args, what);
    report_demand(board->demands, what, args, "table", board->table, board->table_length);
    va_end(args);
    return false;
}

/* ---- The netlist: counts, depth and formulas. ---- */

/* The least k with number <= 2^k. */
static unsigned log2_up(unsigned number)
{
    unsigned k = 0;
    while (1u << k < number)
        k++;
    return k;
}

static unsigned depth_of(const struct file *file)
{
    static unsigned depth[PILGODUR_LINES_MAX];
    unsigned first = 2 + 2 * contacts_of(file);
    unsigned largest = 0;
    memset(depth, 0, sizeof depth);
    for (unsigned line = first; line < lines_of(file); line++) {
        const uint8_t *gate = file->bytes + 7 + 5 * (line - first);
        unsigned left = depth[two_bytes(gate + 1)];
        unsigned right = depth[two_bytes(gate + 3)];
        depth[line] = 1 + (left > right ? left : right);
        if (depth[line] > largest)
            largest = depth[line];
    }
    return largest;
}

static bool check_formulas(const struct board *board)
{
    const struct diagram *d = board->diagram;
    unsigned w = 2;
    for (unsigned level = 0; level < d->contacts; level++)
        if (d->width[level] > w)
            w = d->width[level];
    unsigned most_gates = (d->contacts - 1) * w * w * (2 * w - 1);
    unsigned most_depth = log2_up(d->contacts) * (1 + log2_up(w));
    if (board->checked.gates > most_gates || board->checked.gates > PLAIN_GATES)
        return fail(board, "%" PRIu32 " gates, the formula allows %u", board->checked.gates, most_gates);
    if (board->checked.depth > most_depth)
        return fail(board, "depth %" PRIu32 ", the formula allows %u", board->checked.depth, most_depth);
    if (depth_of(&netlist) != board->checked.depth)
        return fail(board, "depth %" PRIu32 " reported, %u in the netlist", board->checked.depth, depth_of(&netlist));
    return true;
}

static bool build_board(struct board *board)
{
    const struct diagram *d = board->diagram;
    board->table_length = table_of(d, board->table);
    board->checked = pilgodur_check(board->table, board->table_length);
    pilgodur_built built = pilgodur_build(board->table, board->table_length, netlist.bytes, FILE_ROOM);
    if (board->checked.refusal != 0 || built.refusal != 0)
        return fail(board, "an accepted table is refused with %" PRIu32 " and %" PRIu32, board->checked.refusal, built.refusal);
    if (board->checked.contacts != d->contacts || board->checked.outputs != d->outputs)
        return fail(board, "check returns other counts of contacts or outputs");
    netlist.length = built.length;
    board->length = built.length;
    board->lines = lines_of(&netlist);
    if (built.length != 10 + 5 * board->checked.gates + 4 * d->outputs ||
        board->lines != 2 + 2 * d->contacts + board->checked.gates || contacts_of(&netlist) != d->contacts)
        return fail(board, "the netlist's counts are not those that check returns");
    return check_formulas(board);
}

/* ---- What is read. ---- */

static void find_what_is_read(const struct board *board)
{
    const uint8_t *gate = netlist.bytes + 7;
    memset(is_read, 0, sizeof is_read);
    for (unsigned g = 0; g < board->checked.gates; g++, gate += 5)
        is_read[two_bytes(gate + 1)] = is_read[two_bytes(gate + 3)] = true;
    const uint8_t *output = gate + 3;
    for (unsigned k = 0; k < 2 * board->diagram->outputs; k++)
        is_read[two_bytes(output + 2 * k)] = true;
}

/* Whether some output has another value with the contact closed than with it open. */
static bool is_used(const struct diagram *diagram, unsigned contact)
{
    for (uint32_t input = 0; input < 1u << diagram->contacts; input++)
        if (word_at(diagram, input) != word_at(diagram, input ^ 1u << contact))
            return true;
    return false;
}

static bool check_what_is_read(const struct board *board)
{
    unsigned first = 2 + 2 * board->diagram->contacts;
    find_what_is_read(board);
    for (unsigned line = 2; line < first; line++)
        if (is_read[line] != is_used(board->diagram, line / 2 - 1))
            return fail(board, is_read[line] ? "rail %u is read, and no output depends on its contact"
                                             : "nothing reads rail %u, and an output depends on its contact", line);
    for (unsigned line = first; line < board->lines; line++)
        if (!is_read[line])
            return fail(board, "nothing reads gate %u", line);
    return true;
}

/* ---- Different tables, different netlists. ---- */

static uint64_t hash(const uint8_t *bytes, size_t length)
{
    uint64_t h = 0xcbf29ce484222325u;
    for (size_t i = 0; i < length; i++)
        h = (h ^ bytes[i]) * 0x100000001b3u;
    return h | 1;
}

static bool check_new_netlist(const struct board *board)
{
    static struct { uint64_t netlist, table; } seen[SEEN];
    uint64_t of_netlist = hash(netlist.bytes, netlist.length);
    uint64_t of_table = hash(board->table, board->table_length);
    size_t at = of_netlist >> 20 & (SEEN - 1);
    if (seen[at].netlist == of_netlist && seen[at].table != of_table)
        return fail(board, "another table seen before has the same netlist");
    seen[at].netlist = of_netlist;
    seen[at].table = of_table;
    return true;
}

/* ---- The sheet, read back into a netlist file. ---- */

/* The number that stands in five columns. */
static unsigned number_at(const uint8_t *columns)
{
    unsigned number = 0;
    for (unsigned i = 0; i < 5; i++)
        if (columns[i] != ' ')
            number = 10 * number + columns[i] - '0';
    return number;
}

static uint8_t *put_two(uint8_t *at, unsigned number)
{
    at[0] = (uint8_t)(number / 256);
    at[1] = (uint8_t)number;
    return at + 2;
}

static const char *const pair_kinds[] = {"OUT", "LMP"};

/* Whether a row is of a pair of this kind, or of a gate if the kind is NULL. */
static bool is_row_of(const uint8_t *row, const char *kind)
{
    if (kind != NULL)
        return memcmp(row + 6, kind, 3) == 0;
    return !is_row_of(row, pair_kinds[0]) && !is_row_of(row, pair_kinds[1]);
}

/* Writes what the rows from *row on give, as long as they are of this kind and their numbers rise from `number` by one. Headings are
 * passed over. Returns the end of what it wrote and moves *row to where it stopped. */
static uint8_t *read_rows(const uint8_t **row, const uint8_t *end, const char *kind, unsigned number, uint8_t *at)
{
    for (; end - *row >= ROW; *row += ROW) {
        if (memcmp(*row, " LINE KIN     A     B\n", ROW) == 0)
            continue;
        if (!is_row_of(*row, kind) || number_at(*row) != number++)
            break;
        if (kind == NULL)
            *at++ = memcmp(*row + 6, "OR ", 3) == 0;
        at = put_two(put_two(at, number_at(*row + 10)), number_at(*row + 16));
    }
    return at;
}

/* Reads the whole sheet into a netlist file; returns its length, or 0 if rows are left over. */
static size_t read_sheet(const uint8_t *text, size_t length, unsigned contacts, uint8_t *back)
{
    const uint8_t *row = text, *end = text + length;
    memcpy(back, (uint8_t[]){1, 0, 1, (uint8_t)contacts, 4}, 5);
    uint8_t *at = read_rows(&row, end, NULL, 2 + 2 * contacts, back + 7);
    put_two(back + 5, (unsigned)(at - back - 7));
    for (unsigned tag = 5; tag <= 6; tag++) {
        uint8_t *after = read_rows(&row, end, pair_kinds[tag - 5], 0, at + 3);
        if (after == at + 3)
            continue;
        *at = (uint8_t)tag;
        put_two(at + 1, (unsigned)(after - at - 3));
        at = after;
    }
    return row == end ? (size_t)(at - back) : 0;
}

static bool check_sheet(const struct board *board, const struct file *file)
{
    static uint8_t text[PILGODUR_SHEET_MAX];
    static uint8_t back[FILE_ROOM];
    pilgodur_built sheet = pilgodur_sheet(file->bytes, file->length, text, sizeof text);
    board->demands->sheets++;
    if (sheet.refusal != 0 || sheet.length > sizeof text)
        return fail(board, "a sheet is refused with %" PRIu32 ", or has %" PRIu32 " bytes", sheet.refusal, sheet.length);
    if (read_sheet(text, sheet.length, board->diagram->contacts, back) != file->length ||
        memcmp(back, file->bytes, file->length) != 0)
        return fail(board, "the sheet, read back, is not the netlist");
    return true;
}

/* ---- Runs. ---- */

/* Runs one of the board's netlists at the rails and with the holds that there are. */
static bool run_file(const struct board *board, const struct file *file)
{
    uint32_t refusal = pilgodur_run(file->bytes, file->length, rails.bytes, rails.length, holds.bytes, holds.length, lines,
                                    lines_of(file), pairs, 2 * (size_t)pairs_of(file));
    board->demands->inputs++;
    if (refusal != 0)
        return fail(board, "a run is refused with %" PRIu32, refusal);
    return true;
}

static bool run_board(const struct board *board, uint32_t input)
{
    code_rails(board->diagram->contacts, input, &rails);
    return run_file(board, &netlist);
}

static bool right_code(const struct board *board, unsigned output, uint32_t input)
{
    unsigned value = value_at(board->diagram, output, input);
    return pairs[2 * output] == value && pairs[2 * output + 1] == 1 - value;
}

static bool check_permits(const struct board *board, uint32_t input)
{
    holds.length = 0;
    if (!run_board(board, input))
        return false;
    for (unsigned j = 0; j < board->diagram->outputs; j++)
        if (!right_code(board, j, input))
            return fail(board, "input %" PRIu32 ": output %u shows %u%u", input, j, pairs[2 * j], pairs[2 * j + 1]);
    pilgodur_reading reading = pilgodur_read_off(board->table, board->table_length, input);
    if (reading.refusal != 0 || reading.word != word_at(board->diagram, input))
        return fail(board, "input %" PRIu32 ": read-off gives %" PRIu32, input, reading.word);
    return true;
}

static bool check_all_permits(struct dice *dice, const struct board *board)
{
    uint32_t inputs = 1u << board->diagram->contacts;
    bool all = inputs * board->lines <= SMALL_WORK || chance(dice, 12);
    for (uint32_t i = 0; i < (all ? inputs : SOME_INPUTS); i++)
        if (!check_permits(board, all ? i : roll(dice, inputs)))
            return false;
    return true;
}

/* With lines and pins held all at `way`, each pair of the last run is right or shows `way` twice. */
static bool check_one_way(const struct board *board, uint32_t input, unsigned way)
{
    for (unsigned j = 0; j < board->diagram->outputs; j++)
        if (!right_code(board, j, input) && (pairs[2 * j] != way || pairs[2 * j + 1] != way))
            return fail(board, "input %" PRIu32 ", %zu holds at %u: output %u shows %u%u", input, holds.length / 3, way, j,
                        pairs[2 * j], pairs[2 * j + 1]);
    return true;
}

/* A set of lines and pins of a netlist held all at `way`. Those of lines come first. */
static void draw_hold_set(struct dice *dice, const struct board *board, const struct file *file, unsigned way)
{
    struct sites sites = sites_of(file);
    random_holds(dice, &sites, way, &holds);
    board->demands->hold_sets++;
    board->demands->mixed_sets += holds.length > 0 && holds.bytes[2] < 2 && holds.bytes[holds.length - 1] > 1;
}

static bool check_hold_sets(struct dice *dice, const struct board *board)
{
    uint32_t inputs = 1u << board->diagram->contacts;
    for (unsigned i = 0; i < HOLD_SETS; i++) {
        draw_hold_set(dice, board, &netlist, i % 2);
        for (uint32_t k = 0; k < SOME_INPUTS && k < inputs; k++) {
            uint32_t input = inputs <= SOME_INPUTS ? k : roll(dice, inputs);
            if (!run_board(board, input) || !check_one_way(board, input, i % 2))
                return false;
        }
    }
    return true;
}

/* ---- Steps. ---- */

/* Works a run out in some calls, each with lines and pins held at `way`, and leaves in `holds` those that counted. */
static bool step_board(struct dice *dice, const struct board *board, unsigned way, uint8_t *stepped_lines, uint8_t *stepped_pairs)
{
    static struct counted counted;
    uint32_t place = 2;
    counted.lines.length = counted.pins.length = 0;
    while (place < board->lines) {
        uint32_t count = 1 + roll(dice, board->lines), end = count < board->lines - place ? place + count : board->lines;
        draw_hold_set(dice, board, &netlist, way);
        pilgodur_stepped step = pilgodur_step(netlist.bytes, netlist.length, rails.bytes, rails.length, holds.bytes, holds.length,
                                              place, count, stepped_lines, board->lines, stepped_pairs, 2 * board->diagram->outputs);
        if (step.refusal != 0 || step.place != end)
            return fail(board, "a step from %" PRIu32 " by %" PRIu32 " is refused with %" PRIu32 ", or leads to %" PRIu32, place, count,
                        step.refusal, step.place);
        add_counted(&counted, &holds, place, end);
        board->demands->step_calls++;
        board->demands->step_holds += holds.length / 3;
        place = end;
    }
    list_counted(&counted, &holds);
    board->demands->held_in_time += holds.length / 3;
    board->demands->stepped++;
    return true;
}

static bool check_steps(struct dice *dice, const struct board *board)
{
    static uint8_t stepped_lines[PILGODUR_LINES_MAX], stepped_pairs[PILGODUR_PAIRS_MAX];
    for (unsigned way = 0; way < 2; way++) {
        uint32_t input = roll(dice, 1u << board->diagram->contacts);
        code_rails(board->diagram->contacts, input, &rails);
        if (!step_board(dice, board, way, stepped_lines, stepped_pairs) || !run_board(board, input))
            return false;
        if (memcmp(lines, stepped_lines, board->lines) != 0 || memcmp(pairs, stepped_pairs, 2 * board->diagram->outputs) != 0)
            return fail(board, "input %" PRIu32 ": a run in steps is not that run with the %zu holds that counted", input,
                        holds.length / 3);
    }
    return true;
}

/* ---- The lamp. ---- */

/* The plain board's gates and outputs, six gates more for each join, no more depth than is allowed; of one output its pair. */
static bool build_lamp(const struct board *board)
{
    unsigned m = board->diagram->outputs, added = 6 * (m - 1);
    pilgodur_built built = pilgodur_build_with_lamp(board->table, board->table_length, with_lamp.bytes, FILE_ROOM);
    with_lamp.length = built.length;
    if (built.refusal != 0 || built.length != board->length + 5 * added + 7 || lines_of(&with_lamp) != board->lines + added ||
        contacts_of(&with_lamp) != board->diagram->contacts || pairs_of(&with_lamp) != m + 1)
        return fail(board, "the lamp's counts are not those of the plain board and its joins");
    const uint8_t *outputs = netlist.bytes + board->length - 4 * m, *lamp = with_lamp.bytes + with_lamp.length - 4;
    if (memcmp(with_lamp.bytes + 7, netlist.bytes + 7, 5 * (size_t)board->checked.gates) != 0 ||
        memcmp(lamp - 3 - 4 * m, outputs, 4 * (size_t)m) != 0)
        return fail(board, "with the lamp the plain board's gates or outputs are others");
    if (m == 1 && memcmp(lamp, outputs, 4) != 0)
        return fail(board, "the lamp of one output is not its pair");
    if (depth_of(&with_lamp) > board->checked.depth + 2 * log2_up(m))
        return fail(board, "depth %u with the lamp", depth_of(&with_lamp));
    return check_sheet(board, &with_lamp);
}

static bool is_code(unsigned output)
{
    return pairs[2 * output] != pairs[2 * output + 1];
}

/* At any rails, with lines and pins of the plain board held in any way: the lamp is a code exactly if every pair is. */
static bool check_lamp_is_code(struct dice *dice, const struct board *board)
{
    unsigned m = board->diagram->outputs;
    struct sites plain = sites_of(&netlist);
    for (unsigned i = 0; i < HOLD_SETS; i++) {
        random_rails(dice, board->diagram->contacts, &rails);
        random_holds(dice, &plain, roll(dice, 3), &holds);
        if (!run_file(board, &with_lamp))
            return false;
        bool codes = true;
        for (unsigned j = 0; j < m; j++)
            codes = codes && is_code(j);
        if (is_code(m) != codes)
            return fail(board, "the lamp shows %u%u, and the pairs are %s", pairs[2 * m], pairs[2 * m + 1], codes ? "codes" : "not");
        board->demands->lamp_runs++;
        board->demands->lamp_codes += codes;
    }
    return true;
}

/* The lamp's true line at a code input with nothing held: 1 if the count of outputs that are 0 is even. */
static unsigned own_code(const struct board *board, uint32_t input)
{
    unsigned even = 1;
    for (unsigned j = 0; j < board->diagram->outputs; j++)
        even ^= 1 - value_at(board->diagram, j, input);
    return even;
}

/* At a code input, with lines and pins held all at `way`, those of the lamp too: its own code, which it has with none held, or `way`
 * twice. */
static bool check_lamp_one_way(const struct board *board, uint32_t input, unsigned way)
{
    unsigned m = board->diagram->outputs;
    size_t held = holds.length;
    code_rails(board->diagram->contacts, input, &rails);
    holds.length = 0;
    if (!run_file(board, &with_lamp))
        return false;
    uint8_t own[2] = {pairs[2 * m], pairs[2 * m + 1]};
    holds.length = held;
    if (!run_file(board, &with_lamp) || !check_one_way(board, input, way))
        return false;
    unsigned even = own_code(board, input);
    if (own[0] != even || own[1] != 1 - even)
        return fail(board, "input %" PRIu32 ", nothing held: the lamp shows %u%u", input, own[0], own[1]);
    if (memcmp(pairs + 2 * m, own, 2) != 0 && (pairs[2 * m] != way || pairs[2 * m + 1] != way))
        return fail(board, "input %" PRIu32 ", %zu holds at %u: the lamp shows %u%u", input, holds.length / 3, way, pairs[2 * m],
                    pairs[2 * m + 1]);
    board->demands->lamp_one_way++;
    board->demands->lamp_no_codes += !is_code(m);
    return true;
}

static bool check_lamp(struct dice *dice, const struct board *board)
{
    uint32_t inputs = 1u << board->diagram->contacts;
    if (!build_lamp(board) || !check_lamp_is_code(dice, board))
        return false;
    for (unsigned i = 0; i < HOLD_SETS; i++) {
        draw_hold_set(dice, board, &with_lamp, i % 2);
        for (unsigned k = 0; k < 4; k++)
            if (!check_lamp_one_way(board, roll(dice, inputs), i % 2))
                return false;
    }
    return true;
}

/* ---- Probe against runs at every input from 0 up. ---- */

/* One hold: of a line, or of the first or second pin of its gate. */
struct held {
    unsigned line, value;
};

__attribute__((format(printf, 3, 4)))
static bool fail_held(const struct board *board, struct held held, const char *what, ...)
{
    static const char *const names[] = {"line", "the first pin of", "the second pin of"};
    char text[160];
    va_list args;
    va_start(args, what);
    vsnprintf(text, sizeof text, what, args);
    va_end(args);
    return fail(board, "%s %u held at %u %s", names[held.value / 2], held.line, held.value % 2, text);
}

/* Where a probe shows what is held the lamp shows it, too. */
static bool check_seen_at_lamp(const struct board *board, struct held held, uint32_t input)
{
    unsigned m = board->diagram->outputs, way = held.value % 2;
    code_rails(board->diagram->contacts, input, &rails);
    if (!run_file(board, &with_lamp))
        return false;
    if (pairs[2 * m] != way || pairs[2 * m + 1] != way)
        return fail_held(board, held, "is seen at input %" PRIu32 ", and the lamp shows %u%u", input, pairs[2 * m], pairs[2 * m + 1]);
    board->demands->lamp_seen++;
    return true;
}

/* Whether probe returns this, and its buffer holds the netlist and the lines of the last run. */
static bool check_probed(const struct board *board, struct held held, const pilgodur_probed *probed, const pilgodur_probed *expected)
{
    if (memcmp(probed, expected, sizeof *probed) != 0)
        return fail_held(board, held, "gives %" PRIu32 ", %" PRIu32 ", %" PRIu32 ", %" PRIu32 "; by runs the input is %" PRIu32
                         ", the output %" PRIu32 ", the way %" PRIu32, probed->refusal, probed->input, probed->output, probed->way,
                         expected->input, expected->output, expected->way);
    if (memcmp(probed_bytes, netlist.bytes, board->length) != 0 ||
        memcmp(probed_bytes + board->length, lines, board->lines) != 0)
        return fail_held(board, held, "is probed, and the buffer is not the netlist with the line values of the run");
    return true;
}

/* A pair is no code at an input, and was a code at every smaller one. */
static bool check_seen(const struct board *board, const pilgodur_probed *probed, struct held held, uint32_t input, unsigned output)
{
    pilgodur_probed expected = {0, input, output, held.value % 2};
    if (held.value < 2 && !is_read[held.line])
        return fail_held(board, held, "shows at input %" PRIu32 ", and nothing reads it", input);
    if (pairs[2 * output] != expected.way)
        return fail_held(board, held, "shows the other value twice");
    return check_probed(board, held, probed, &expected) && check_seen_at_lamp(board, held, input);
}

/* No input shows the line. */
static bool check_unread(const struct board *board, const pilgodur_probed *probed, struct held held)
{
    if (is_read[held.line])
        return fail_held(board, held, "is unseen at every input");
    if (probed->refusal != PILGODUR_REFUSAL_UNREAD)
        return fail_held(board, held, "gives %" PRIu32 ", and nothing reads it", probed->refusal);
    board->demands->unread++;
    return true;
}

/* No input shows the pin. */
static bool check_hidden(const struct board *board, const pilgodur_probed *probed, struct held held)
{
    static const pilgodur_probed expected = {0, 0, 0, PILGODUR_WAY_HIDDEN};
    bool is_and = netlist.bytes[7 + 5 * (held.line - 2 - 2 * board->diagram->contacts)] == 0;
    if (held.value != 3 || !is_and)
        return fail_held(board, held, "is unseen at every input, and the gate is an %s", is_and ? "AND" : "OR");
    board->demands->hidden++;
    return run_board(board, 0) && check_probed(board, held, probed, &expected);
}

static bool check_probe(const struct board *board, struct held held)
{
    holds.length = 0;
    add_hold(&holds, held.line, held.value);
    pilgodur_probed probed = pilgodur_probe(board->table, board->table_length, holds.bytes, 3, probed_bytes,
                                            board->length + board->lines);
    board->demands->probes++;
    board->demands->pin_probes += held.value > 1;
    for (uint32_t input = 0; input < 1u << board->diagram->contacts; input++) {
        if (!run_board(board, input))
            return false;
        for (unsigned j = 0; j < board->diagram->outputs; j++) {
            if (pairs[2 * j] == pairs[2 * j + 1])
                return check_seen(board, &probed, held, input, j);
            if (!right_code(board, j, input))
                return fail_held(board, held, "gives a wrong code at input %" PRIu32, input);
        }
    }
    return held.value < 2 ? check_unread(board, &probed, held) : check_hidden(board, &probed, held);
}

static bool check_probes(const struct board *board)
{
    unsigned first = 2 + 2 * board->diagram->contacts;
    if (board->lines > SMALL_BOARD)
        return true;
    for (unsigned line = 2; line < board->lines; line++)
        for (unsigned value = 0; value < (line < first ? 2 : 6); value++)
            if (!check_probe(board, (struct held){line, value}))
                return false;
    return true;
}

void check_board(struct dice *dice, const struct diagram *diagram, struct demands *demands)
{
    struct board board = {.diagram = diagram, .demands = demands};
    demands->boards++;
    if (build_board(&board) && check_what_is_read(&board) && check_new_netlist(&board) &&
        check_sheet(&board, &netlist) && check_all_permits(dice, &board) && check_hold_sets(dice, &board) && check_steps(dice, &board) &&
        check_lamp(dice, &board))
        check_probes(&board);
}

/* ---- The summary. ---- */

static bool print_checked_boards(const struct demands *d)
{
    printf("boards checked by themselves: %lu, with %lu sheets, %lu runs, %lu sets held one way, %lu of them of lines and pins, %lu "
           "probes, %lu of them of lines that nothing reads, %lu of pins, %lu of hidden ones\n",
           d->boards, d->sheets, d->inputs, d->hold_sets, d->mixed_sets, d->probes, d->unread, d->pin_probes, d->hidden);
    return d->mixed_sets != 0 && d->unread != 0 && d->hidden != 0 && d->hidden != d->pin_probes;
}

static bool print_checked_steps(const struct demands *d)
{
    printf("their runs in steps: %lu, in %lu calls with %lu holds, %lu of which counted\n", d->stepped, d->step_calls, d->step_holds,
           d->held_in_time);
    return d->step_calls > d->stepped && d->held_in_time != 0 && d->held_in_time < d->step_holds;
}

static bool print_checked_lamps(const struct demands *d)
{
    printf("their lamps: run with lines and pins held in any way %lu times, a code in %lu of them; held one way %lu times, no code in "
           "%lu of them; %lu single lines and pins seen at the lamp\n",
           d->lamp_runs, d->lamp_codes, d->lamp_one_way, d->lamp_no_codes, d->lamp_seen);
    return d->lamp_codes != 0 && d->lamp_codes != d->lamp_runs && d->lamp_no_codes != 0 && d->lamp_no_codes != d->lamp_one_way &&
           d->lamp_seen != 0;
}

static bool print_checked_tables(const struct demands *d)
{
    unsigned long refused = d->shared + d->unruled + d->rules_too_wide;
    printf("drawings checked by themselves: %lu, %lu of them with more than eight functions in a level\n", d->drawings, d->too_wide);
    printf("rule sheets checked by themselves: %lu, %lu of them with a shared input, %lu with one that fits none, %lu with more than "
           "eight functions in a level\n", d->rule_sheets, d->shared, d->unruled, d->rules_too_wide);
    return d->too_wide != 0 && d->too_wide != d->drawings && d->shared != 0 && d->unruled != 0 && d->rules_too_wide != 0 &&
           refused != d->rule_sheets;
}

bool print_demands(const struct demands *demands)
{
    bool all = print_checked_boards(demands);
    all = print_checked_steps(demands) && all;
    all = print_checked_lamps(demands) && all;
    return print_checked_tables(demands) && all;
}
