#include "step_cases.h"

#include <inttypes.h>
#include <stdio.h>
#include <string.h>

#include "edits.h"
#include "holds.h"
#include "known.h"
#include "reference.h"

enum { LINES = 3, PAIRS = 4 }; /* the buffers of a step */
enum { SPARE_BYTES = 40, MOST_CALLS = 60 };

/* Which lines the holds of a call name: those that it works out, others, or any. */
enum aim { AT_ITS_LINES, AT_OTHERS, AT_ANY, AIMS };
enum cut { ONE_CALL, SINGLE_LINES, SOME_LINES, ANY_LINES, CUTS };
enum hold_fate { LINE_COUNTED, PIN_COUNTED, LINE_LATE, PIN_LATE, LINE_EARLY, PIN_EARLY, HOLD_FATES };
enum step_kind { NO_LINES, ONE_LINE, MORE_LINES, ALL_LEFT, PAIRS_AGAIN, NO_PAIRS, SUM_PAST_32_BITS, STEP_KINDS };
enum question { NETLIST_CUT, NETLIST_WIRING, RAILS_WRONG, HOLDS_WRONG, PLACE_OUTSIDE, LINES_SHORT, PAIRS_SHORT, QUESTIONS };

static unsigned long runs[CUTS], aims[AIMS], fates[HOLD_FATES], kinds[STEP_KINDS], refused_between, calls_made, first_noes[QUESTIONS];

uint32_t draw_place(unsigned lines)
{
    const uint32_t limits[] = {0, 1, 2, lines - 1, lines, lines + 1, UINT32_MAX, 1u << 31, 65536 + 2};
    return chance(&dice, 70) ? 2 + roll(&dice, lines - 1) : limits[roll(&dice, sizeof limits / sizeof *limits)];
}

uint32_t draw_count(unsigned lines)
{
    const uint32_t limits[] = {0, 1, lines - 2, lines, UINT32_MAX, UINT32_MAX - 1 - roll(&dice, lines), 65536};
    return chance(&dice, 50) ? roll(&dice, lines) : limits[roll(&dice, sizeof limits / sizeof *limits)];
}

void lend_lines(struct call *call, size_t need, size_t length)
{
    static uint8_t lines[PILGODUR_LINES_MAX + SPARE_BYTES];
    unsigned odd = chance(&dice, 50) ? 0 : 30;
    lend_noise(call, LINES, need, length);
    if (length > sizeof lines)
        return;
    for (size_t i = 0; i < length; i++)
        lines[i] = (uint8_t)roll(&dice, chance(&dice, odd) ? 256 : 2);
    call->content[LINES] = lines;
}

static void set_call(struct call *call, const struct file *netlist, const struct file *rails, const struct file *holds)
{
    give(call, 0, netlist);
    give(call, 1, rails);
    give(call, 2, holds);
}

static size_t pair_bytes(const struct file *netlist)
{
    return 2 * (size_t)pairs_of(netlist);
}

/* ---- Answers worked out by hand. ---- */

void compare_known_steps(void)
{
    static const struct {
        uint32_t input, place, count;
        uint8_t holds[9];
        size_t length;
        const char *before, *after;
        uint32_t place_out;
        const char *pairs; /* NULL if they stay */
    } known[] = {
        /* One run at input 3: the rails; a line held in time; a hold that comes too late, and all that is left. */
        {3, 2, 6, {0}, 0, "xxxxxxxxxxxxxxxxx", "01" "101001" "xxxxxxxxx", 8, NULL},
        {3, 8, 3, {0, 10, 1}, 3, "01" "101001" "xxxxxxxxx", "01" "101001" "001xxxxxx", 11, NULL},
        {3, 11, UINT32_MAX, {0, 8, 1}, 3, "01" "101001" "001xxxxxx", "01" "101001" "001011101", 17, "11"},
        /* Nothing is worked out: the constants are set, and past the last line the pairs are written. */
        {3, 17, 0, {0}, 0, "xx" "101001" "00101100x", "01" "101001" "00101100x", 17, "10"},
        {3, 17, 5, {0, 16, 0}, 3, "10" "101001" "001011001", "01" "101001" "001011001", 17, "10"},
        {3, 9, 0, {0, 9, 1}, 3, "xxxxxxxxxxxxxxxxx", "01" "xxxxxx" "xxxxxxxxx", 9, NULL},
        /* A rail: held alone of three that the list names. */
        {0, 4, 1, {0, 2, 1, 0, 4, 1, 0, 5, 0}, 9, "01" "01xxxx" "xxxxxxxxx", "01" "011xxx" "xxxxxxxxx", 5, NULL},
        {0, 2, 1, {0, 3, 0}, 3, "xxxxxxxxxxxxxxxxx", "01" "0xxxxx" "xxxxxxxxx", 3, NULL},
        /* Pins: in time, too early, too late. */
        {0, 8, 1, {0, 8, 2, 0, 9, 3}, 6, "01" "010101" "xxxxxxxxx", "01" "010101" "0xxxxxxxx", 9, NULL},
        {0, 9, 2, {0, 8, 3, 0, 9, 3}, 6, "01" "010101" "0xxxxxxxx", "01" "010101" "011xxxxxx", 11, NULL},
        /* Odd bytes read as 1 and stay. */
        {4, 15, 2, {0}, 0, "01" "010110" "00x000xxx", "01" "010110" "00x000x11", 17, "11"},
        {4, 16, 1, {0, 16, 4}, 3, "01" "010110" "0000x00yx", "01" "010110" "0000x00y1", 17, "10"},
    };
    static struct file table, netlist, rails, holds;
    set_selector(&table, &netlist);
    for (unsigned k = 0; k < sizeof known / sizeof *known; k++) {
        uint8_t lines[SELECTOR_LINES], pairs[2] = {'x', 'x'};
        struct call step = {.service = STEP, .place = known[k].place, .count = known[k].count};
        for (unsigned line = 0; line < SELECTOR_LINES; line++)
            lines[line] = (uint8_t)(known[k].before[line] - '0');
        code_rails(3, known[k].input, &rails);
        set_file(&holds, known[k].holds, known[k].length);
        set_call(&step, &netlist, &rails, &holds);
        lend_noise(&step, LINES, SELECTOR_LINES, SELECTOR_LINES);
        lend_noise(&step, PAIRS, 2, 2);
        step.content[LINES] = lines;
        expect(&step, 0);
        pilgodur_stepped answer = ref_step(netlist.bytes, netlist.length, rails.bytes, rails.length, holds.bytes, holds.length,
                                           step.place, step.count, lines, sizeof lines, pairs, 2);
        bool shown = known[k].pairs != NULL ? are_lines(pairs, known[k].pairs) : pairs[0] == 'x' && pairs[1] == 'x';
        expect_right(answer.refusal == 0 && answer.place == known[k].place_out && are_lines(lines, known[k].after) && shown,
                     "step of the selector", &holds);
    }
}

/* ---- Runs cut into calls. ---- */

/* A run in steps, as far as it has come. */
struct stepping {
    const struct file *netlist;
    struct file rails;
    struct sites sites;
    uint8_t lines[PILGODUR_LINES_MAX + SPARE_BYTES];
    size_t length;
    uint32_t place;
    struct counted counted;
    uint8_t pairs[PILGODUR_PAIRS_MAX];
    unsigned calls;
};

static uint32_t place_after(uint32_t place, uint32_t count, unsigned lines)
{
    return count < lines - place ? place + count : lines;
}

/* Drops the holds of lines, and of pins of gates, in a range, or those outside it. */
static void keep_holds(struct file *holds, uint32_t from, uint32_t to, bool inside)
{
    size_t kept = 0;
    for (size_t at = 0; at < holds->length; at += 3) {
        unsigned line = two_bytes(holds->bytes + at);
        if ((from <= line && line < to) == inside) {
            memmove(holds->bytes + kept, holds->bytes + at, 3);
            kept += 3;
        }
    }
    holds->length = kept;
}

/* Notes when the holds of a call came, and of what kind the call is. */
static void note_step(const struct call *step, const struct file *holds, unsigned lines)
{
    for (size_t at = 0; at < holds->length; at += 3) {
        unsigned line = two_bytes(holds->bytes + at), pin = holds->bytes[at + 2] > 1;
        fates[(line < step->place ? LINE_LATE : line < step->place_out ? LINE_COUNTED : LINE_EARLY) + pin]++;
    }
    uint32_t made = step->place_out - step->place;
    kinds[made == 0 ? NO_LINES : made == 1 ? ONE_LINE : MORE_LINES]++;
    kinds[ALL_LEFT] += step->count > lines - step->place;
    kinds[PAIRS_AGAIN] += step->place == lines;
    kinds[NO_PAIRS] += step->place_out < lines;
    kinds[SUM_PAST_32_BITS] += step->count > UINT32_MAX - step->place;
}

static void lend_so_far(struct call *call, struct stepping *s, size_t lines, size_t pairs)
{
    lend_noise(call, LINES, s->sites.lines, lines);
    call->content[LINES] = s->lines;
    lend_noise(call, PAIRS, pair_bytes(s->netlist), pairs);
}

/* A call that is refused; the run goes on from the last accepted one. */
static void refused_call(struct stepping *s)
{
    static struct file holds;
    struct call call = {.service = STEP, .place = s->place, .count = draw_count(s->sites.lines)};
    unsigned kind = roll(&dice, 4);
    size_t pairs = pair_bytes(s->netlist);
    random_holds(&dice, &s->sites, roll(&dice, 3), &holds);
    if (kind == 0)
        damage_holds_somehow(&dice, &s->sites, &holds);
    if (kind == 1)
        call.place = chance(&dice, 50) ? roll(&dice, 2) : s->sites.lines + 1;
    set_call(&call, s->netlist, &s->rails, &holds);
    lend_so_far(&call, s, kind == 2 ? s->sites.lines - 1 : s->length, kind == 3 ? pairs - 1 : pairs);
    expect(&call, kind == 0 ? 14 : kind == 1 ? 21 : 9);
    refused_between++;
}

static void one_call(struct stepping *s, uint32_t count)
{
    static struct file holds;
    struct call call = {.service = STEP, .place = s->place, .count = count};
    enum aim aim = (enum aim)roll(&dice, AIMS);
    random_holds(&dice, &s->sites, roll(&dice, 3), &holds);
    if (aim != AT_ANY)
        keep_holds(&holds, s->place, place_after(s->place, count, s->sites.lines), aim == AT_ITS_LINES);
    aims[aim]++;
    set_call(&call, s->netlist, &s->rails, &holds);
    lend_so_far(&call, s, s->length, pair_bytes(s->netlist) + roll(&dice, 3));
    expect(&call, 0);
    note_step(&call, &holds, s->sites.lines);
    add_counted(&s->counted, &holds, call.place, call.place_out);
    memcpy(s->lines, left_in(LINES), s->length);
    memcpy(s->pairs, left_in(PAIRS), pair_bytes(s->netlist));
    s->place = call.place_out;
    s->calls++;
}

static uint32_t next_count(const struct stepping *s, enum cut cut)
{
    if (cut == ONE_CALL || s->calls > MOST_CALLS)
        return chance(&dice, 50) ? UINT32_MAX : s->sites.lines - s->place;
    if (cut == SINGLE_LINES)
        return chance(&dice, 90);
    return cut == SOME_LINES ? 1 + roll(&dice, 1 + s->sites.lines / 4) : draw_count(s->sites.lines);
}

/* One run with just the holds that counted has the same lines and pairs. */
static void compare_with_run(struct stepping *s)
{
    static struct file holds;
    struct call run = {.service = RUN};
    size_t pairs = pair_bytes(s->netlist);
    list_counted(&s->counted, &holds);
    set_call(&run, s->netlist, &s->rails, &holds);
    lend_noise(&run, LINES, s->sites.lines, s->sites.lines);
    lend_noise(&run, PAIRS, pairs, pairs);
    expect(&run, 0);
    if (memcmp(left_in(LINES), s->lines, s->sites.lines) == 0 && memcmp(left_in(PAIRS), s->pairs, pairs) == 0)
        return;
    printf("difference after case %lu, seed %" PRIu64 ": a run in %u steps is not that run with the holds that counted\n", cases, seed,
           s->calls);
    differences++;
    stop_after_many();
}

static void step_through(const struct file *netlist, enum cut cut)
{
    static struct stepping s;
    s.netlist = netlist;
    s.sites = sites_of(netlist);
    s.length = s.sites.lines + roll(&dice, SPARE_BYTES);
    s.place = 2;
    s.calls = 0;
    s.counted.lines.length = s.counted.pins.length = 0;
    random_rails(&dice, contacts_of(netlist), &s.rails);
    for (size_t i = 0; i < s.length; i++)
        s.lines[i] = (uint8_t)roll(&dice, 256);
    do {
        if (chance(&dice, 10))
            refused_call(&s);
        one_call(&s, next_count(&s, cut));
    } while (s.place < s.sites.lines || chance(&dice, 20));
    compare_with_run(&s);
    runs[cut]++;
    calls_made += s.calls;
}

/* ---- Every question with every other behind it. ---- */

/* A step with each of these noes, a bit each; the first of them decides. */
static void compare_noes(const struct file *good, unsigned noes)
{
    static const uint32_t numbers[QUESTIONS] = {11, 12, 13, 14, 21, 9, 9};
    static struct file netlist, rails, holds;
    struct sites sites = sites_of(good);
    struct call call = {.service = STEP, .place = 2 + roll(&dice, sites.lines - 1), .count = draw_count(sites.lines)};
    size_t pairs = pair_bytes(good);
    unsigned first = 0;
    while (first < QUESTIONS && !(noes >> first & 1))
        first++;
    set_file(&netlist, good->bytes, good->length);
    random_rails(&dice, contacts_of(good), &rails);
    random_holds(&dice, &sites, roll(&dice, 3), &holds);
    if (noes >> NETLIST_WIRING & 1)
        set_two_bytes(netlist.bytes + field_place(&netlist, 2) + 3, line_outside(&dice, sites.lines));
    if (noes >> NETLIST_CUT & 1)
        netlist.length -= 1 + roll(&dice, 3);
    if (noes >> RAILS_WRONG & 1)
        damage_rails(&dice, &rails);
    if (noes >> HOLDS_WRONG & 1)
        damage_holds_somehow(&dice, &sites, &holds);
    while ((noes >> PLACE_OUTSIDE & 1) && 2 <= call.place && call.place <= sites.lines)
        call.place = draw_place(sites.lines);
    set_call(&call, &netlist, &rails, &holds);
    lend_lines(&call, sites.lines, sites.lines - (noes >> LINES_SHORT & 1));
    lend_noise(&call, PAIRS, pairs, pairs - (noes >> PAIRS_SHORT & 1));
    expect(&call, first < QUESTIONS ? numbers[first] : 0);
    if (first < QUESTIONS)
        first_noes[first]++;
}

/* Places and counts about their limits, with buffers that are as long as needed, and short in each call: by a byte, by all of a buffer,
 * and, with a lamp, by its pair. */
static void compare_limits(const struct file *netlist)
{
    static struct file rails, holds;
    struct sites sites = sites_of(netlist);
    uint32_t lines = sites.lines, last = lines - 1;
    const uint32_t places[] = {0, 1, 2, 3, last, lines, lines + 1, 65536 + 2, 1u << 31, UINT32_MAX};
    size_t pairs = pair_bytes(netlist), outputs = 2 * (size_t)outputs_of(netlist);
    const size_t room[][2] = {{lines, pairs}, {lines - 1, pairs}, {lines, pairs - 1}, {lines, outputs}, {0, pairs}, {lines, 0}};
    random_rails(&dice, contacts_of(netlist), &rails);
    random_holds(&dice, &sites, 2, &holds);
    for (unsigned k = 0; k < sizeof places / sizeof *places; k++) {
        bool within = 2 <= places[k] && places[k] <= lines;
        const uint32_t counts[] = {0, 1, last - places[k], lines - places[k], lines - places[k] + 1, UINT32_MAX, -places[k], 2 - places[k]};
        for (unsigned i = 0; i < sizeof counts / sizeof *counts * (sizeof room / sizeof *room); i++) {
            const size_t *lent = room[i % 6];
            struct call call = {.service = STEP, .place = places[k], .count = counts[i / 6]};
            set_call(&call, netlist, &rails, &holds);
            lend_lines(&call, lines, lent[0]);
            lend_noise(&call, PAIRS, pairs, lent[1]);
            expect(&call, !within ? 21 : lent[0] < lines || lent[1] < pairs ? 9 : 0);
        }
    }
}

void compare_steps(unsigned contacts)
{
    static struct file netlist;
    for (unsigned gates = 0; gates < 200; gates = 3 * gates + 1) {
        netlist_of_size(&dice, contacts, gates, 1 + roll(&dice, 8), gates % 2 == 0, &netlist);
        for (unsigned cut = 0; cut < CUTS; cut++)
            step_through(&netlist, (enum cut)cut);
        if (gates < 10)
            compare_limits(&netlist);
    }
    for (unsigned noes = 0; noes < 1u << QUESTIONS; noes++)
        compare_noes(&netlist, noes);
}

void compare_largest_steps(void)
{
    static struct file netlist;
    netlist_of_size(&dice, 12, MOST_GATES, 8, true, &netlist);
    step_through(&netlist, ONE_CALL);
    step_through(&netlist, SOME_LINES);
}

bool print_steps(void)
{
    bool all = print_counts("runs in steps by cut", runs, 0, CUTS - 1);
    all = print_counts("their calls by what the holds name", aims, 0, AIMS - 1) && all;
    all = print_counts("holds by when they came", fates, 0, HOLD_FATES - 1) && all;
    all = print_counts("steps by kind", kinds, 0, STEP_KINDS - 1) && all;
    all = print_counts("refused steps by first question", first_noes, 0, QUESTIONS - 1) && all;
    printf("calls in runs: %lu, refused ones between them: %lu\n", calls_made, refused_between);
    return all && refused_between != 0;
}
