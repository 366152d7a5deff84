/* Eight threads call every service on the same files at once, each on a small stack, and compare every answer with the one that was
 * given before there was a thread. Then services get strings that overlap where the header allows it.
 *
 *     threads [ROUNDS]                 exit status 0: every answer was the same */
#define _XOPEN_SOURCE 700
#include <pthread.h>
#include <stdbool.h>
#include <stdio.h>
#include <stdlib.h>
#include <string.h>

#include "../include/pilgodur.h"
#include "rulesheets.h"

enum { THREADS = 8, BOARDS = 24, BUFFER = PILGODUR_FILE_MAX + PILGODUR_LINES_MAX };
enum { STACK = 512 * 1024 }; /* the header says 270 KB for probe */

/* What all threads read: a table, its netlist, rails, holds, an input, a drawing and a rule sheet, some of them damaged. */
struct board {
    uint8_t table[TABLE_MAX];
    size_t table_length;
    uint8_t netlist[PILGODUR_FILE_MAX];
    size_t netlist_length;
    bool has_lamp; /* the netlist's */
    uint8_t rails[24];
    size_t rails_length;
    uint8_t hold[3];
    uint32_t input;
    uint32_t count; /* of lines in the first of two steps, about half of them */
    uint8_t drawing[DRAWING_MAX];
    size_t drawing_length;
    uint8_t rules[RULES_MAX];
    size_t rules_length;
};

/* What the services answer on a board. */
struct answers {
    pilgodur_checked checked;
    pilgodur_built built;
    pilgodur_built built_with_lamp;
    pilgodur_reading reading;
    uint32_t run;
    pilgodur_stepped stepped[2];
    pilgodur_probed probed;
    pilgodur_built sheet;
    pilgodur_built drawn;
    pilgodur_built ruled;
    uint8_t file[PILGODUR_FILE_MAX];
    uint8_t file_with_lamp[PILGODUR_FILE_MAX];
    uint8_t lines[PILGODUR_LINES_MAX];
    uint8_t pairs[PILGODUR_PAIRS_MAX];
    uint8_t stepped_lines[PILGODUR_LINES_MAX];
    uint8_t stepped_pairs[PILGODUR_PAIRS_MAX];
    uint8_t probe[BUFFER];
    uint8_t text[PILGODUR_SHEET_MAX];
    uint8_t table[PILGODUR_TABLE_MAX];
    uint8_t table_of_rules[PILGODUR_TABLE_MAX];
};

static struct board boards[BOARDS];
static struct answers expected[BOARDS];
static struct answers given[THREADS];
static unsigned rounds = 30;

static pilgodur_stepped step(const struct board *b, uint32_t place, uint32_t count, struct answers *a)
{
    return pilgodur_step(b->netlist, b->netlist_length, b->rails, b->rails_length, b->hold, sizeof b->hold, place, count,
                         a->stepped_lines, sizeof a->stepped_lines, a->stepped_pairs, sizeof a->stepped_pairs);
}

static void ask(const struct board *b, struct answers *a)
{
    memset(a, 0, sizeof *a);
    a->checked = pilgodur_check(b->table, b->table_length);
    a->built = pilgodur_build(b->table, b->table_length, a->file, sizeof a->file);
    a->built_with_lamp = pilgodur_build_with_lamp(b->table, b->table_length, a->file_with_lamp, sizeof a->file_with_lamp);
    a->reading = pilgodur_read_off(b->table, b->table_length, b->input);
    a->run = pilgodur_run(b->netlist, b->netlist_length, b->rails, b->rails_length, b->hold, sizeof b->hold, a->lines,
                          sizeof a->lines, a->pairs, sizeof a->pairs);
    a->stepped[0] = step(b, 2, b->count, a);
    a->stepped[1] = step(b, a->stepped[0].place, UINT32_MAX, a);
    a->probed = pilgodur_probe(b->table, b->table_length, b->hold, sizeof b->hold, a->probe, sizeof a->probe);
    a->sheet = pilgodur_sheet(b->netlist, b->netlist_length, a->text, sizeof a->text);
    a->drawn = pilgodur_from_drawing(b->drawing, b->drawing_length, a->table, sizeof a->table);
    a->ruled = pilgodur_from_rules(b->rules, b->rules_length, a->table_of_rules, sizeof a->table_of_rules);
}

/* Both steps have the hold of the run, so together they are the run. */
static bool steps_are_run(const struct answers *a)
{
    return a->run == 0 && a->stepped[1].refusal == 0 && a->stepped[0].place < a->stepped[1].place &&
           memcmp(a->lines, a->stepped_lines, sizeof a->lines) == 0 && memcmp(a->pairs, a->stepped_pairs, sizeof a->pairs) == 0;
}

static void set_hold(uint8_t hold[3], unsigned line, unsigned value)
{
    hold[0] = (uint8_t)(line / 256);
    hold[1] = (uint8_t)line;
    hold[2] = (uint8_t)value;
}

static void draw_rule_sheet(struct dice *dice, struct board *b)
{
    struct diagram diagram;
    struct rules rules;
    ruled_diagram(dice, 1 + roll(dice, 12), 1 + roll(dice, 8), &diagram, &rules);
    split_rules(dice, roll(dice, MOST_RULES + 1), &rules);
    b->rules_length = write_rules(&rules, b->rules);
    if (chance(dice, 20))
        b->rules[roll(dice, (uint32_t)b->rules_length)] ^= 1;
}

/* Makes the hold that of a rail or, more often, of a pin: if there is a hidden one among the first gates it is that. */
static void draw_hold(struct dice *dice, const struct diagram *diagram, struct board *b)
{
    static uint8_t buffer[BUFFER];
    unsigned first = 2 + 2 * diagram->contacts, gates = pilgodur_check(b->table, b->table_length).gates;
    unsigned line = 2 + roll(dice, 2 * diagram->contacts), value = roll(dice, 2);
    if (gates > 0 && chance(dice, 60)) {
        line = first + roll(dice, gates);
        value = 2 + roll(dice, 4);
    }
    set_hold(b->hold, line, value);
    for (unsigned g = 0; value > 1 && g < gates && g < 100; g++) {
        uint8_t hold[3];
        set_hold(hold, first + g, 3);
        if (pilgodur_probe(b->table, b->table_length, hold, 3, buffer, BUFFER).way == PILGODUR_WAY_HIDDEN)
            memcpy(b->hold, hold, 3);
    }
}

static void draw_board(struct dice *dice, struct board *b)
{
    struct diagram diagram;
    struct drawing drawing;
    if (chance(dice, 20))
        largest_diagram(dice, 12, &diagram);
    else
        random_diagram(dice, 1 + roll(dice, 12), 1 + roll(dice, 8), &diagram);
    b->table_length = table_of(&diagram, b->table);
    b->has_lamp = chance(dice, 50);
    b->netlist_length = (b->has_lamp ? pilgodur_build_with_lamp : pilgodur_build)(b->table, b->table_length, b->netlist,
                                                                                  sizeof b->netlist).length;
    b->rails_length = 2 * (size_t)diagram.contacts;
    for (size_t i = 0; i < b->rails_length; i++)
        b->rails[i] = (uint8_t)roll(dice, 2);
    draw_hold(dice, &diagram, b);
    b->input = roll(dice, 1u << diagram.contacts);
    b->count = (uint32_t)b->netlist_length / 10;
    drawing_of(&diagram, &drawing);
    redraw(dice, roll(dice, MOST_NODES + 1), &drawing);
    b->drawing_length = write_drawing(&drawing, b->drawing);
    if (chance(dice, 40))
        b->drawing[roll(dice, (uint32_t)b->drawing_length)] ^= 1;
    if (chance(dice, 20))
        b->table[roll(dice, (uint32_t)b->table_length)] ^= 1;
    draw_rule_sheet(dice, b);
}

/* Returns NULL if every answer is as expected. */
static void *work(void *argument)
{
    struct answers *mine = argument;
    for (unsigned round = 0; round < rounds; round++)
        for (unsigned i = 0; i < BOARDS; i++) {
            ask(&boards[i], mine);
            if (memcmp(mine, &expected[i], sizeof *mine) != 0)
                return mine;
        }
    return NULL;
}

static bool run_threads(void)
{
    pthread_t thread[THREADS];
    pthread_attr_t small;
    bool same = true;
    pthread_attr_init(&small);
    if (pthread_attr_setstacksize(&small, STACK) != 0)
        return false;
    for (unsigned i = 0; i < THREADS; i++)
        if (pthread_create(&thread[i], &small, work, &given[i]) != 0) {
            perror("pthread_create");
            exit(2);
        }
    for (unsigned i = 0; i < THREADS; i++) {
        void *result;
        pthread_join(thread[i], &result);
        same = same && result == NULL;
    }
    pthread_attr_destroy(&small);
    return same;
}

/* Strings that are only read may overlap: the hold 0 2 0 within the selector's table, rails 0 1 and the same hold within a netlist. */
static bool overlaps(void)
{
    static const uint8_t table[] = {1, 0, 1, 3, 2, 0, 1, 0, 3, 0, 2, 0, 1, 3, 0, 4, 0, 1, 0, 2, 3, 0, 6, 0, 1, 0, 0, 1, 1};
    static const uint8_t netlist[] = {1, 0, 1, 1, 4, 0, 0, 5, 0, 4, 0, 2, 0, 3};
    static const uint8_t hold[] = {0, 2, 0}, rails[] = {0, 1};
    static uint8_t buffer[2][BUFFER];
    uint8_t lines[4][4], pairs[4][2];
    pilgodur_probed apart = pilgodur_probe(table, sizeof table, hold, sizeof hold, buffer[0], BUFFER);
    pilgodur_probed within = pilgodur_probe(table, sizeof table, table + 9, 3, buffer[1], BUFFER);
    uint32_t run_apart = pilgodur_run(netlist, sizeof netlist, rails, 2, hold, 3, lines[0], 4, pairs[0], 2);
    uint32_t run_within = pilgodur_run(netlist, sizeof netlist, netlist + 1, 2, netlist + 10, 3, lines[1], 4, pairs[1], 2);
    pilgodur_stepped step_apart = pilgodur_step(netlist, sizeof netlist, rails, 2, hold, 3, 2, 2, lines[2], 4, pairs[2], 2);
    pilgodur_stepped step_within =
        pilgodur_step(netlist, sizeof netlist, netlist + 1, 2, netlist + 10, 3, 2, 2, lines[3], 4, pairs[3], 2);
    bool same = true;
    for (unsigned k = 1; k < 4; k++)
        same = same && memcmp(lines[0], lines[k], 4) == 0 && memcmp(pairs[0], pairs[k], 2) == 0;
    return memcmp(&apart, &within, sizeof apart) == 0 && apart.refusal == 0 && memcmp(buffer[0], buffer[1], BUFFER) == 0 &&
           run_apart == 0 && run_within == 0 && step_apart.refusal == 0 && memcmp(&step_apart, &step_within, sizeof step_apart) == 0 &&
           same;
}

int main(int argc, char **argv)
{
    static const char *const verdict[] = {"DIFFERENT ANSWERS", "the same answers"};
    struct dice dice = {1};
    unsigned accepted = 0, lamps = 0, unread = 0, pins = 0, hidden = 0, stepped = 0, drawn = 0, ruled = 0;
    if (argc > 1)
        rounds = (unsigned)strtoul(argv[1], NULL, 10);
    for (unsigned i = 0; i < BOARDS; i++) {
        draw_board(&dice, &boards[i]);
        ask(&boards[i], &expected[i]);
        accepted += expected[i].checked.refusal == 0;
        lamps += boards[i].has_lamp;
        unread += expected[i].probed.refusal == PILGODUR_REFUSAL_UNREAD;
        pins += boards[i].hold[2] > 1;
        hidden += expected[i].probed.way == PILGODUR_WAY_HIDDEN;
        stepped += steps_are_run(&expected[i]);
        drawn += expected[i].drawn.refusal == 0;
        ruled += expected[i].ruled.refusal == 0;
    }
    bool threads_agree = run_threads();
    bool overlaps_agree = overlaps();
    printf("threads: %d threads, %d boards (%u accepted, %u netlists with a lamp, %u with a spare rail held, %u with a pin held, %u with a "
           "hidden one, %u with a run in two steps, %u with a good drawing, %u with a good rule sheet), %u rounds: %s; "
           "overlapping strings: %s\n",
           THREADS, BOARDS, accepted, lamps, unread, pins, hidden, stepped, drawn, ruled, rounds, verdict[threads_agree],
           verdict[overlaps_agree]);
    bool all_kinds = accepted > BOARDS / 2 && accepted < BOARDS && lamps > 0 && lamps < BOARDS && unread > 0 &&
                     pins > hidden && hidden > 0 && pins < BOARDS && stepped == BOARDS && drawn > BOARDS / 2 && drawn < BOARDS &&
                     ruled > BOARDS / 2 && ruled < BOARDS;
    return threads_agree && overlaps_agree && all_kinds ? 0 : 1;
}
