#include "calls.h"

#include <inttypes.h>
#include <stdio.h>
#include <stdlib.h>
#include <string.h>

#include "lent.h"
#include "reference.h"

enum { NUMBERS = 5, NOISE = 1 << 19, MOST_DIFFERENCES = 10 };
enum side { LIBRARY, REFERENCE, NOTED_LIBRARY, NOTED_REFERENCE, SIDES };

struct answer {
    uint32_t number[NUMBERS];
};

static const char *const service_names[SERVICES] = {"check", "build", "build-with-lamp", "read-off", "run", "step", "probe",
                                                     "sheet", "from-drawing", "from-rules"};
static const char *const side_names[SIDES] = {"library", "reference", "library, with notes", "reference, with notes"};
static const unsigned string_counts[SERVICES] = {1, 2, 2, 1, 5, 5, 3, 2, 2, 2};
static const unsigned number_counts[SERVICES] = {5, 2, 2, 2, 1, 2, 4, 2, 2, 2};
static const char *const string_names[SERVICES][STRINGS] = {
    {"table"}, {"table", "file"}, {"table", "file"}, {"table"}, {"netlist", "rails", "holds", "lines", "pairs"},
    {"netlist", "rails", "holds", "lines", "pairs"}, {"table", "hold", "buffer"}, {"netlist", "text"}, {"drawing", "table"},
    {"rules", "table"}};
static const char *const number_names[SERVICES][NUMBERS] = {
    {"refusal", "contacts", "outputs", "gates", "depth"},
    {"refusal", "length"},
    {"refusal", "length"},
    {"refusal", "word"},
    {"refusal"},
    {"refusal", "place"},
    {"refusal", "input", "output", "way"},
    {"refusal", "length"},
    {"refusal", "length"},
    {"refusal", "length"}};

/* The numbers that each service can give, as a set of bits. */
static const unsigned possible[SERVICES] = {0xff, 0x2ff, 0x2ff, 0x4ff, 0x7a01, 0x207a01, 0xc2ff, 0x1a01, 0x30201, 0x1e0201};

/* The services that make one file of another: the library's and the reference's. */
typedef pilgodur_built maker(const uint8_t *file, size_t file_len, uint8_t *made, size_t made_len);
static maker *const makers[SERVICES][2] = {
    [BUILD] = {pilgodur_build, ref_build}, [BUILD_WITH_LAMP] = {pilgodur_build_with_lamp, ref_build_with_lamp},
    [SHEET] = {pilgodur_sheet, ref_sheet}, [FROM_DRAWING] = {pilgodur_from_drawing, ref_from_drawing},
    [FROM_RULES] = {pilgodur_from_rules, ref_from_rules}};

struct dice dice;
uint64_t seed = 1;
unsigned long cases, differences;
struct demands demands;
char where[160];
const struct noting some_notes = {.percent = 35, .any = true};
struct noting noting = {.percent = 35, .any = true};
unsigned long hits[SERVICES][REFUSALS], noted_hits[SERVICES][REFUSALS];
unsigned long noted_kinds[NOTE_KINDS], noted_places[NOTED_PLACES], damaged_notes;
unsigned long ways[2][WAYS];
static struct lent lent[SIDES][STRINGS];
static uint8_t noise[NOISE];
static struct file noted; /* the file of a call with notes put in */

void open_calls(void)
{
    for (size_t i = 0; i < NOISE; i++)
        noise[i] = (uint8_t)roll(&dice, 256);
    for (unsigned side = 0; side < SIDES; side++)
        for (unsigned k = 0; k < STRINGS; k++)
            open_lent(&lent[side][k]);
}

void close_calls(void)
{
    for (unsigned side = 0; side < SIDES; side++)
        for (unsigned k = 0; k < STRINGS; k++)
            close_lent(&lent[side][k]);
}

/* ---- One case. ---- */

static struct answer perform(enum side side, const struct call *call)
{
    bool ours = side == LIBRARY || side == NOTED_LIBRARY;
    const struct lent *s = lent[side];
    struct answer a = {{0}};
    if (makers[call->service][0] != NULL) {
        pilgodur_built r = makers[call->service][!ours](s[0].bytes, s[0].length, s[1].bytes, s[1].length);
        a = (struct answer){{r.refusal, r.length}};
    } else if (call->service == CHECK) {
        pilgodur_checked r = (ours ? pilgodur_check : ref_check)(s[0].bytes, s[0].length);
        a = (struct answer){{r.refusal, r.contacts, r.outputs, r.gates, r.depth}};
    } else if (call->service == READ_OFF) {
        pilgodur_reading r = (ours ? pilgodur_read_off : ref_read_off)(s[0].bytes, s[0].length, call->input);
        a = (struct answer){{r.refusal, r.word}};
    } else if (call->service == RUN) {
        a.number[0] = (ours ? pilgodur_run : ref_run)(s[0].bytes, s[0].length, s[1].bytes, s[1].length, s[2].bytes,
                                                      s[2].length, s[3].bytes, s[3].length, s[4].bytes, s[4].length);
    } else if (call->service == STEP) {
        pilgodur_stepped r = (ours ? pilgodur_step : ref_step)(s[0].bytes, s[0].length, s[1].bytes, s[1].length, s[2].bytes,
                                                               s[2].length, call->place, call->count, s[3].bytes, s[3].length,
                                                               s[4].bytes, s[4].length);
        a = (struct answer){{r.refusal, r.place}};
    } else {
        pilgodur_probed r = (ours ? pilgodur_probe : ref_probe)(s[0].bytes, s[0].length, s[1].bytes, s[1].length, s[2].bytes,
                                                                s[2].length);
        a = (struct answer){{r.refusal, r.input, r.output, r.way}};
    }
    return a;
}

/* The bytes of a buffer past which an answer writes none. A step writes lines up to the place that it returns, and the pairs exactly
 * if that is the line after the last. */
static size_t written_to(const struct call *call, unsigned k, const struct answer *answer)
{
    if (call->service != STEP)
        return call->need[k];
    return k == 3 ? answer->number[1] : answer->number[1] == call->need[3] ? call->need[k] : 0;
}

/* Whether a step that was not refused left the lines before its place as they were. */
static const char *step_misuse(enum side side, const struct call *call, const struct answer *answer)
{
    if (call->place < 2 || call->place > answer->number[1])
        return "the place returned comes before the one given, or that is below 2";
    return untouched_between(&lent[side][3], 2, call->place) ? NULL : "the byte of an earlier line has changed";
}

/* Whether a side gave a number that the service can give, and kept to the rules for lent bytes: none outside a buffer, none after a
 * refusal, none past what is written. */
static const char *misuse(enum side side, const struct call *call, const struct answer *answer)
{
    if (answer->number[0] >= REFUSALS || !(possible[call->service] >> answer->number[0] & 1))
        return "the service never gives this number";
    for (unsigned i = 1; i < NUMBERS && answer->number[0] != 0; i++)
        if (answer->number[i] != 0)
            return "a refusal comes with a number that is not zero";
    for (unsigned k = 0; k < string_counts[call->service]; k++) {
        bool answered = call->written[k] && answer->number[0] == 0;
        size_t kept = answered ? written_to(call, k, answer) : 0;
        if (kept > call->length[k] || (answered && call->need[k] > call->length[k]))
            return "a buffer that is too short is not refused";
        if (!untouched_from(&lent[side][k], kept))
            return answered ? "a byte past the answer or outside the buffer has changed" : "a lent byte has changed";
    }
    return call->service == STEP && answer->number[0] == 0 ? step_misuse(side, call, answer) : NULL;
}

static const char *disagreement(enum side side, const struct call *call, const struct answer *answers)
{
    if (memcmp(&answers[LIBRARY], &answers[side], sizeof *answers) != 0)
        return "the answer differs from the library's";
    for (unsigned k = 0; k < string_counts[call->service]; k++)
        if (call->written[k] && memcmp(lent[LIBRARY][k].bytes, lent[side][k].bytes, call->length[k]) != 0)
            return "the written bytes differ from the library's";
    return NULL;
}

static void print_bytes(const uint8_t *bytes, size_t length)
{
    printf(" hex:");
    for (size_t i = 0; i < length; i++)
        printf("%02x", bytes[i]);
    printf("\n");
}

static void print_buffer(const struct call *call, unsigned k)
{
    for (unsigned side = 1; side < call->sides; side++) {
        const uint8_t *a = lent[LIBRARY][k].bytes;
        const uint8_t *b = lent[side][k].bytes;
        size_t i = 0;
        while (i < call->length[k] && a[i] == b[i])
            i++;
        if (i < call->length[k])
            printf(": first differ at byte %zu, library %02x, %s %02x", i, a[i], side_names[side], b[i]);
    }
    printf("\n");
}

static void print_strings(const struct call *call)
{
    for (unsigned k = 0; k < string_counts[call->service]; k++) {
        printf("  %s, %zu bytes", string_names[call->service][k], call->length[k]);
        if (call->written[k])
            print_buffer(call, k);
        else
            print_bytes(call->content[k], call->length[k]);
    }
    if (call->sides == SIDES) {
        printf("  %s with notes, %zu bytes", string_names[call->service][0], noted.length);
        print_bytes(noted.bytes, noted.length);
    }
}

void stop_after_many(void)
{
    if (differences + demands.failures >= MOST_DIFFERENCES) {
        printf("stopped after %lu differences\n", differences + demands.failures);
        exit(1);
    }
}

static void report(const struct call *call, const struct answer *answers, enum side who, const char *what)
{
    printf("difference in case %lu, seed %" PRIu64 ", %s: %s: %s\n", cases, seed, service_names[call->service], side_names[who],
           what);
    for (unsigned side = 0; side < call->sides; side++) {
        printf("  %-21s", side_names[side]);
        for (unsigned i = 0; i < number_counts[call->service]; i++)
            printf(" %s %" PRIu32, number_names[call->service][i], answers[side].number[i]);
        printf("\n");
    }
    if (call->service == READ_OFF)
        printf("  input %" PRIu32 "\n", call->input);
    if (call->service == STEP)
        printf("  place %" PRIu32 ", count %" PRIu32 "\n", call->place, call->count);
    print_strings(call);
    differences++;
    stop_after_many();
}

/* Puts notes into the file of a call, if this case is to have them. The longest and the most notes are drawn less often. */
static void note_some(struct call *call)
{
    static struct file file;
    enum note_kind kind = noting.kind;
    unsigned place = noting.place;
    if (!chance(&dice, noting.percent))
        return;
    if (noting.any) {
        kind = chance(&dice, 80) ? ANY_NOTE : chance(&dice, 90) ? EMPTY_NOTE : (enum note_kind)roll(&dice, NOTE_KINDS);
        place = chance(&dice, 70) ? EVERYWHERE : roll(&dice, 15);
    }
    file.length = call->length[0];
    memcpy(file.bytes, call->content[0], file.length);
    put_notes(&dice, kind, place, &file, &noted);
    call->sides = SIDES;
    noted_kinds[kind]++;
    if (place != EVERYWHERE)
        noted_places[place]++;
}

static void lend_strings(enum side side, const struct call *call, const enum place *places)
{
    for (unsigned k = 0; k < string_counts[call->service]; k++) {
        bool with_notes = k == 0 && side >= NOTED_LIBRARY;
        lend(&lent[side][k], with_notes ? noted.bytes : call->content[k], with_notes ? noted.length : call->length[k], places[k]);
    }
}

uint32_t compare(struct call *call)
{
    struct answer answers[SIDES];
    enum place places[STRINGS];
    const char *what = NULL;
    cases++;
    snprintf(where, sizeof where, "case %lu, seed %" PRIu64 ", %s", cases, seed, service_names[call->service]);
    for (unsigned k = 0; k < STRINGS; k++)
        places[k] = (enum place)roll(&dice, PLACES);
    call->sides = NOTED_LIBRARY;
    note_some(call);
    for (unsigned side = 0; side < call->sides; side++) {
        lend_strings((enum side)side, call, places);
        answers[side] = perform((enum side)side, call);
    }
    for (unsigned side = 0; side < call->sides && what == NULL; side++) {
        what = disagreement((enum side)side, call, answers);
        what = what != NULL ? what : misuse((enum side)side, call, &answers[side]);
        if (what != NULL)
            report(call, answers, (enum side)side, what);
    }
    uint32_t refusal = answers[REFERENCE].number[0];
    call->place_out = answers[LIBRARY].number[1];
    if (what == NULL) {
        hits[call->service][refusal]++;
        noted_hits[call->service][refusal] += call->sides == SIDES;
        if (call->service == PROBE && refusal == 0)
            ways[call->content[1][2] > 1][answers[REFERENCE].number[3]]++;
    }
    return refusal;
}

const uint8_t *left_in(unsigned k)
{
    return lent[LIBRARY][k].bytes;
}

void expect(struct call *call, uint32_t number)
{
    uint32_t given = compare(call);
    if (given == number)
        return;
    printf("difference in case %lu, seed %" PRIu64 ", %s: the reference gives %" PRIu32 ", not %" PRIu32 "\n", cases, seed,
           service_names[call->service], given, number);
    print_strings(call);
    differences++;
    stop_after_many();
}

/* ---- Strings for a call. ---- */

void give(struct call *call, unsigned k, const struct file *file)
{
    call->content[k] = file->bytes;
    call->length[k] = file->length;
}

void lend_noise(struct call *call, unsigned k, size_t need, size_t length)
{
    call->content[k] = noise + roll(&dice, NOISE / 2);
    call->length[k] = length;
    call->written[k] = true;
    call->need[k] = need;
}

void lend_buffer(struct call *call, unsigned k, size_t need)
{
    unsigned kind = roll(&dice, 100);
    size_t length = need;
    if (kind < 15)
        length = need == 0 ? 0 : need - 1;
    else if (kind < 35)
        length = need + 1 + roll(&dice, 40);
    else if (kind < 40)
        length = roll(&dice, (uint32_t)need + 1);
    else if (kind < 43)
        length = 0;
    lend_noise(call, k, need, length);
}

void build_netlist(const struct file *table, bool lamp, struct file *netlist)
{
    netlist->length = (lamp ? ref_build_with_lamp : ref_build)(table->bytes, table->length, netlist->bytes, FILE_ROOM).length;
}

void expect_probe(const struct file *table, const struct file *hold, size_t need, size_t length, uint32_t number)
{
    struct call probe = {.service = PROBE};
    give(&probe, 0, table);
    give(&probe, 1, hold);
    lend_noise(&probe, 2, need, length);
    expect(&probe, number);
}

void damage_some_notes(struct file *file)
{
    static struct file plain;
    if (!chance(&dice, 12))
        return;
    plain.length = file->length;
    memcpy(plain.bytes, file->bytes, file->length);
    put_notes(&dice, chance(&dice, 80) ? ANY_NOTE : NOTE_LIKE_FIELDS, EVERYWHERE, &plain, file);
    if (chance(&dice, 80)) {
        damage_note(&dice, file);
        damaged_notes++;
    }
}

/* ---- Files of which a table is made. ---- */

uint32_t call_maker(enum service service, const struct file *file)
{
    uint8_t table[TABLE_MAX];
    struct call call = {.service = service};
    size_t need = makers[service][1](file->bytes, file->length, table, sizeof table).length;
    give(&call, 0, file);
    lend_buffer(&call, 1, need != 0 ? need : roll(&dice, TABLE_MAX + 1));
    return compare(&call);
}

void expect_made(enum service service, const struct file *file, uint32_t number, const struct file *table)
{
    uint8_t made[TABLE_MAX];
    size_t need = makers[service][1](file->bytes, file->length, made, sizeof made).length;
    need = need != 0 ? need : TABLE_MAX;
    const size_t lengths[] = {need, need - 1, need + 1 + roll(&dice, 40), 0};
    if (table != NULL && (need != table->length || memcmp(made, table->bytes, need) != 0)) {
        printf("difference after case %lu, seed %" PRIu64 ", %s: the reference makes another table than it is of\n", cases, seed,
               service_names[service]);
        differences++;
    }
    for (unsigned k = 0; k < sizeof lengths / sizeof *lengths; k++) {
        struct call call = {.service = service};
        give(&call, 0, file);
        lend_noise(&call, 1, need, lengths[k]);
        expect(&call, number == 0 && lengths[k] < need ? 9 : number);
    }
}

/* ---- What was hit. ---- */

bool print_hits(const char *title, unsigned long count[SERVICES][REFUSALS])
{
    bool all = true;
    printf("%-15s", title);
    for (unsigned number = 0; number < REFUSALS; number++)
        printf("%7u", number);
    printf("\n");
    for (unsigned service = 0; service < SERVICES; service++) {
        printf("%-15s", service_names[service]);
        for (unsigned number = 0; number < REFUSALS; number++) {
            bool can_be = possible[service] >> number & 1;
            if (can_be)
                printf("%7lu", count[service][number]);
            else
                printf("%7s", "-");
            all = all && (!can_be || count[service][number] != 0);
        }
        printf("\n");
    }
    return all;
}

bool print_counts(const char *what, const unsigned long *count, unsigned from, unsigned to)
{
    bool all = true;
    printf("%s, %u to %u:", what, from, to);
    for (unsigned i = from; i <= to; i++) {
        printf(" %lu", count[i]);
        all = all && count[i] != 0;
    }
    printf("\n");
    return all;
}

bool print_wide(const char *what, unsigned long count[13][12], unsigned from)
{
    bool all = true;
    printf("%s functions in a level, %u to 10:", what, from);
    for (unsigned level = from; level <= 10; level++) {
        unsigned long sum = 0;
        for (unsigned contacts = level + 2; contacts <= 12; contacts++) {
            sum += count[contacts][level];
            all = all && count[contacts][level] != 0;
        }
        printf(" %lu", sum);
    }
    printf("\n");
    return all;
}
