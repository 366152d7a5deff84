/* Measures every service of the library against plain C and tuned C, side by side in one run. All answer the same calls, and before
 * anything is measured the answers are compared. */
#include <inttypes.h>
#include <stdarg.h>
#include <stdio.h>

#include "measure.h"
#include "plain.h"
#include "tuned.h"

/* ---- The work of one call. ---- */

/* A service that writes to one buffer. */
typedef pilgodur_built writer(const uint8_t *, size_t, uint8_t *, size_t);

static const struct {
    pilgodur_checked (*check)(const uint8_t *, size_t);
    writer *build;
    writer *build_with_lamp;
    pilgodur_reading (*read_off)(const uint8_t *, size_t, uint32_t);
    uint32_t (*run)(const uint8_t *, size_t, const uint8_t *, size_t, const uint8_t *, size_t, uint8_t *, size_t, uint8_t *,
                    size_t);
    pilgodur_stepped (*step)(const uint8_t *, size_t, const uint8_t *, size_t, const uint8_t *, size_t, uint32_t, uint32_t, uint8_t *,
                             size_t, uint8_t *, size_t);
    pilgodur_probed (*probe)(const uint8_t *, size_t, const uint8_t *, size_t, uint8_t *, size_t);
    writer *sheet;
    writer *from_drawing;
    writer *from_rules;
} services[SIDES] = {
    [PLAIN] = {plain_check, plain_build, plain_build_with_lamp, plain_read_off, plain_run, plain_step, plain_probe,
               plain_sheet, plain_from_drawing, plain_from_rules},
    [TUNED] = {tuned_check, tuned_build, tuned_build_with_lamp, tuned_read_off, tuned_run, tuned_step, tuned_probe,
               tuned_sheet, tuned_from_drawing, tuned_from_rules},
    [LIBRARY] = {pilgodur_check, pilgodur_build, pilgodur_build_with_lamp, pilgodur_read_off, pilgodur_run, pilgodur_step,
                 pilgodur_probe, pilgodur_sheet, pilgodur_from_drawing, pilgodur_from_rules},
};

static uint64_t write_by(writer *service, enum side side, const uint8_t *file, size_t length)
{
    pilgodur_built r = service(file, length, written[side], BUFFER);
    return r.refusal + 100 * (uint64_t)r.length;
}

static uint64_t check(enum side side, const uint8_t *table, size_t length)
{
    pilgodur_checked r = services[side].check(table, length);
    return r.refusal + 100 * r.contacts + 10000 * r.outputs + 100000 * r.gates + ((uint64_t)r.depth << 32);
}

static uint64_t do_check(enum side side, const struct job *j)
{
    return check(side, j->table, j->table_length);
}

static uint64_t do_check_noted(enum side side, const struct job *j)
{
    return check(side, j->noted, j->noted_length);
}

static uint64_t do_build(enum side side, const struct job *j)
{
    return write_by(services[side].build, side, j->table, j->table_length);
}

static uint64_t do_build_with_lamp(enum side side, const struct job *j)
{
    return write_by(services[side].build_with_lamp, side, j->table, j->table_length);
}

static uint64_t do_read_off(enum side side, const struct job *j)
{
    pilgodur_reading r = services[side].read_off(j->table, j->table_length, j->input);
    return r.refusal + 100 * (uint64_t)r.word;
}

static uint64_t run(enum side side, const struct job *j, const uint8_t *netlist, size_t length)
{
    return services[side].run(netlist, length, j->rails, 2 * j->contacts, j->holds, j->holds_length, written[side],
                              PILGODUR_LINES_MAX, written[side] + PILGODUR_LINES_MAX, PILGODUR_PAIRS_MAX);
}

static uint64_t do_run(enum side side, const struct job *j)
{
    return run(side, j, j->netlist, j->netlist_length);
}

static uint64_t do_run_noted(enum side side, const struct job *j)
{
    return run(side, j, j->noted, j->noted_length);
}

static uint64_t step(enum side side, const struct job *j, uint32_t place, uint32_t count)
{
    pilgodur_stepped r = services[side].step(j->netlist, j->netlist_length, j->rails, 2 * j->contacts, j->holds, j->holds_length, place,
                                             count, written[side], PILGODUR_LINES_MAX, written[side] + PILGODUR_LINES_MAX,
                                             PILGODUR_PAIRS_MAX);
    return r.refusal + 100 * (uint64_t)r.place;
}

/* A whole run in one call. */
static uint64_t do_step(enum side side, const struct job *j)
{
    return step(side, j, 2, UINT32_MAX);
}

enum { SPREAD = 32 };

/* The line that is so far along when SPREAD lines are spread evenly. */
static unsigned spread_line(const struct job *j, unsigned k)
{
    return 2 + k * (j->lines - 2) / SPREAD;
}

/* Lines spread evenly over the netlist, each by itself. */
static uint64_t do_step_lines(enum side side, const struct job *j)
{
    uint64_t sum = 0;
    for (unsigned k = 0; k < SPREAD; k++)
        sum = 3 * sum + step(side, j, spread_line(j, k), 1);
    return sum;
}

static uint64_t probe(enum side side, const struct job *j, const uint8_t *hold)
{
    pilgodur_probed r = services[side].probe(j->table, j->table_length, hold, 3, written[side], BUFFER);
    return r.refusal + 100 * r.way + 1000 * r.output + 10000 * (uint64_t)r.input;
}

static uint64_t do_probe(enum side side, const struct job *j)
{
    return probe(side, j, j->hold);
}

/* Lines spread evenly over the board, each at both values. */
static uint64_t do_probe_lines(enum side side, const struct job *j)
{
    uint8_t hold[3];
    uint64_t sum = 0;
    for (unsigned k = 0; k < SPREAD; k++)
        for (unsigned value = 0; value < 2; value++) {
            set_hold(hold, spread_line(j, k), value);
            sum = 31 * sum + probe(side, j, hold);
        }
    return sum;
}

static uint64_t do_sheet(enum side side, const struct job *j)
{
    return write_by(services[side].sheet, side, j->netlist, j->netlist_length);
}

static uint64_t do_sheet_noted(enum side side, const struct job *j)
{
    return write_by(services[side].sheet, side, j->noted, j->noted_length);
}

static uint64_t do_from_drawing(enum side side, const struct job *j)
{
    return write_by(services[side].from_drawing, side, j->drawing, j->drawing_length);
}

static uint64_t do_from_drawing_noted(enum side side, const struct job *j)
{
    return write_by(services[side].from_drawing, side, j->noted, j->noted_length);
}

static uint64_t do_from_rules(enum side side, const struct job *j)
{
    return write_by(services[side].from_rules, side, j->rules, j->rules_length);
}

static uint64_t do_from_rules_noted(enum side side, const struct job *j)
{
    return write_by(services[side].from_rules, side, j->noted, j->noted_length);
}

/* ---- The rows. ---- */

__attribute__((format(printf, 1, 2)))
static const char *label(const char *format, ...)
{
    static char text[80];
    va_list args;
    va_start(args, format);
    vsnprintf(text, sizeof text, format, args);
    va_end(args);
    return text;
}

enum { LAMP_GATES = 6 * 7 }; /* of eight outputs */

static void add_tables(unsigned contacts)
{
    use_largest_board(contacts);
    add_row(label("check, %u contacts, %u gates", contacts, job.gates), do_check, 1);
    add_row(label("build, %u contacts, %u gates", contacts, job.gates), do_build, 1);
    add_row(label("build with lamp, %u contacts, %u gates", contacts, job.gates + LAMP_GATES), do_build_with_lamp, 1);
    add_row(label("read-off, %u contacts, 8 outputs", contacts), do_read_off, 1);
}

static void add_board_run(const char *held)
{
    add_row(label("run, board of %u gates, %s held", job.gates, held), do_run, 1);
}

static void add_board_runs(void)
{
    use_largest_board(12);
    hold_lines(0);
    add_board_run("no line");
    hold_lines(50);
    add_board_run("half of the lines");
    hold_lines(100);
    add_board_run("all lines");
    hold_pins(1, 2);
    add_board_run("one pin in 100");
    hold_pins(100, 1);
    add_board_run("every first pin");
}

/* Four netlists in turn: a processor may remember how the branches went in the gates of one, and not of all. So many percent of the
 * lines are held, or of the pins if some are. */
static void add_random_netlists(const char *name, work *work, unsigned units, unsigned lines, unsigned pins)
{
    for (unsigned k = 0; k < 4; k++) {
        use_random_netlist(MOST_GATES);
        hold_lines(lines);
        if (pins > 0)
            hold_pins(pins, 2);
        if (k == 0)
            add_row(name, work, units);
        else
            add_job();
    }
}

static void add_runs(void)
{
    use_random_netlist(0);
    add_row("run, no gates, no line held", do_run, 1);
    use_random_netlist(660);
    add_row("run, 660 gates, no line held", do_run, 1);
    add_board_runs();
    add_random_netlists("run, 10,560 gates, 4 netlists, no line held", do_run, 1, 0, 0);
    add_random_netlists("run, 10,560 gates, 4 netlists, half of the lines held", do_run, 1, 50, 0);
    add_random_netlists("run, 10,560 gates, 4 netlists, all lines held", do_run, 1, 100, 0);
    struct dice before = dice;
    add_random_netlists("run, 10,560 gates, 4 netlists, half of the pins held", do_run, 1, 0, 50);
    dice = before; /* the other files are what they are without this row */
}

/* A whole run in one call, and calls of one line each. */
static void add_both_steps(const char *name)
{
    add_row(label("step, %s, one call", name), do_step, 1);
    add_row(label("step, %s, a line a call", name), do_step_lines, SPREAD);
}

/* On the first netlists of the runs, drawn with these dice, and on others of the largest size. */
static void add_steps(struct dice of_runs)
{
    struct dice before = dice;
    char board[40];
    dice = of_runs;
    use_random_netlist(0);
    add_both_steps("no gates");
    use_random_netlist(660);
    add_both_steps("660 gates");
    use_largest_board(12);
    snprintf(board, sizeof board, "board of %u gates", job.gates);
    add_both_steps(board);
    add_random_netlists("step, 10,560 gates, 4 netlists, one call", do_step, 1, 0, 0);
    add_random_netlists("step, 10,560 gates, 4 netlists, a line a call", do_step_lines, SPREAD, 0, 0);
    dice = before; /* the other files are what they are without these rows */
}

static void add_hidden(void)
{
    hold_hidden_pin();
    add_row(label("probe, %u contacts, %u gates, a hidden pin", job.contacts, job.gates), do_probe, 1);
}

/* The line that shows latest of all. */
static void add_latest(void)
{
    uint32_t latest = hold_latest_line();
    add_row(label("probe, %u contacts, %u gates, seen at %" PRIu32, job.contacts, job.gates, latest), do_probe, 1);
}

static void add_mean(void)
{
    add_row(label("probe, %u contacts, %u gates, mean", job.contacts, job.gates), do_probe_lines, 2 * SPREAD);
}

static void add_probes(void)
{
    use_largest_board(12);
    add_latest();
    add_hidden();
    add_mean();
    for (unsigned contacts = 12; contacts >= 2; contacts -= 2) {
        use_shy_board(contacts);
        add_latest();
    }
    use_random_board(12, 8);
    add_mean();
    use_random_board(8, 4);
    add_mean();
    use_random_board(6, 3);
    add_mean();
    use_random_board(4, 2);
    add_mean();
}

static void add_sheets(void)
{
    use_random_netlist(0);
    add_row("sheet, no gates", do_sheet, 1);
    use_random_netlist(660);
    add_row("sheet, 660 gates", do_sheet, 1);
    use_largest_board(12);
    add_row(label("sheet, board of %u gates", job.gates), do_sheet, 1);
    add_random_netlists("sheet, 10,560 gates, 4 netlists", do_sheet, 1, 0, 0);
}

static void add_drawings(void)
{
    use_largest_drawing(12, MOST_NODES);
    add_row("from-drawing, 12 contacts, 200 nodes", do_from_drawing, 1);
    use_late_drawing();
    add_row("from-drawing, 12 contacts, 200 nodes, alike until late", do_from_drawing, 1);
    use_random_drawing(12, 1);
    add_row(label("from-drawing, 12 contacts, %u nodes", job.nodes), do_from_drawing, 1);
    use_largest_drawing(6, 0);
    add_row(label("from-drawing, 6 contacts, %u nodes", job.nodes), do_from_drawing, 1);
    use_largest_drawing(2, 0);
    add_row(label("from-drawing, 2 contacts, %u nodes", job.nodes), do_from_drawing, 1);
    use_empty_drawing(12, 8);
    add_row("from-drawing, 12 contacts, 8 outputs, no nodes", do_from_drawing, 1);
    use_empty_drawing(1, 1);
    add_row("from-drawing, 1 contact, 1 output, no nodes", do_from_drawing, 1);
    use_wide_drawing(10);
    add_row("from-drawing, 12 contacts, 200 nodes, refused by 17", do_from_drawing, 1);
}

static void add_rules(void)
{
    use_rules_on_six(12, 6);
    add_row("from-rules, 12 contacts, 64 rules, the last six fixed", do_from_rules, 1);
    use_rules_on_six(12, 0);
    add_row("from-rules, 12 contacts, 64 rules, the first six fixed", do_from_rules, 1);
    use_late_rules();
    add_row("from-rules, 12 contacts, 64 rules, alike until late", do_from_rules, 1);
    use_rules_on_six(6, 0);
    add_row("from-rules, 6 contacts, 64 rules", do_from_rules, 1);
    use_one_rule();
    add_row("from-rules, 1 contact, 1 output, 1 rule", do_from_rules, 1);
    use_rules_on_six(12, 6);
    widen_last_rule();
    add_row("from-rules, 12 contacts, 64 rules, refused by 19", do_from_rules, 1);
    use_rules_on_six(12, 6);
    narrow_last_rule();
    add_row("from-rules, 12 contacts, 64 rules, refused by 20", do_from_rules, 1);
}

/* Small files, so that the notes take nearly all of the time. */
static void add_notes(void)
{
    static const struct {
        unsigned notes, size;
        const char *text;
    } kinds[] = {{5000, 0, "5,000 empty notes"}, {10000, 0, "10,000 empty notes"}, {20000, 0, "20,000 empty notes"},
                 {1, 65535, "a note of 65,535 bytes"}};
    use_largest_board(2);
    for (unsigned k = 0; k < 4; k++) {
        note_file(job.table, job.table_length, kinds[k].notes, kinds[k].size);
        add_row(label("check, 2 contacts, %u gates, %s", job.gates, kinds[k].text), do_check_noted, 1);
    }
    use_random_netlist(0);
    for (unsigned k = 0; k < 4; k++) {
        note_file(job.netlist, job.netlist_length, kinds[k].notes, kinds[k].size);
        add_row(label("run, no gates, %s", kinds[k].text), do_run_noted, 1);
    }
    note_file(job.netlist, job.netlist_length, 20000, 0);
    add_row("sheet, no gates, 20,000 empty notes", do_sheet_noted, 1);
    use_empty_drawing(1, 1);
    note_file(job.drawing, job.drawing_length, 20000, 0);
    add_row("from-drawing, 1 contact, no nodes, 20,000 empty notes", do_from_drawing_noted, 1);
    use_one_rule();
    note_file(job.rules, job.rules_length, 20000, 0);
    add_row("from-rules, 1 contact, 1 rule, 20,000 empty notes", do_from_rules_noted, 1);
}

int main(void)
{
    printf("Processor time for one call in microseconds, in the fastest of %d rounds, and the library's time divided by\n"
           "the others': below 1 the library is faster. \"seen at\": the held line that shows latest of all, at this input.\n"
           "\"a hidden pin\": no input shows it. \"mean\": over %d lines spread evenly, each at both values; \"a line a call\":\n"
           "over as many, each worked out by itself. \"alike until late\": the functions differ only in values that come last.\n\n",
           ROUNDS, SPREAD);
    fflush(stdout);
    add_tables(12);
    add_tables(6);
    add_tables(2);
    struct dice of_runs = dice;
    add_runs();
    add_steps(of_runs);
    add_probes();
    add_sheets();
    add_drawings();
    add_rules();
    add_notes();
    return measure_rows() == 1 ? 3 : 0;
}
