#include "rule_cases.h"

#include <stdio.h>
#include <string.h>

#include "calls.h"
#include "edits.h"
#include "malformed.h"
#include "reference.h"

enum { SHARED = PILGODUR_REFUSAL_SHARED, UNRULED = PILGODUR_REFUSAL_UNRULED, MALFORMED = PILGODUR_REFUSAL_RULES };

static unsigned long accepted_contacts[13], accepted_outputs[9], accepted_rules[MOST_RULES + 1];
static unsigned long malformed[SHEET_MALFORMATIONS], faults[SHEET_FAULTS], doubled_places[MOST_RULES];
static unsigned long at_eight[13][12], at_nine[13][12]; /* sheets by contacts and level */
static unsigned long known, tiny, values, tables_given_back, cut_notes[CUT_KINDS], tags_passed, tags_refused;

/* ---- One sheet. ---- */

static void note_accepted(const struct rules *rules)
{
    accepted_contacts[rules->contacts]++;
    accepted_outputs[rules->outputs]++;
    accepted_rules[rules->count]++;
}

/* One call with a number that is known. Accepted, its buffer is just long enough; refused, of any length. */
static void expect_once(const struct file *file, uint32_t number)
{
    uint8_t table[TABLE_MAX];
    struct call call = {.service = FROM_RULES};
    size_t need = ref_from_rules(file->bytes, file->length, table, sizeof table).length;
    give(&call, 0, file);
    lend_noise(&call, 1, need, number == 0 ? need : roll(&dice, TABLE_MAX + 1));
    expect(&call, number);
}

static void expect_rules(const struct rules *rules, uint32_t number)
{
    static struct file file;
    file.length = write_rules(rules, file.bytes);
    expect_once(&file, number);
    if (number == 0)
        note_accepted(rules);
}

/* The same in buffers of several lengths. The table, if one is named, must be the answer. */
static void expect_in_buffers(const struct rules *rules, uint32_t number, const struct file *table)
{
    static struct file file;
    file.length = write_rules(rules, file.bytes);
    expect_made(FROM_RULES, &file, number, table);
    if (number == 0)
        note_accepted(rules);
}

/* Any number, and a buffer of any length. */
static void compare_sheet(const struct rules *rules)
{
    static struct file file;
    file.length = write_rules(rules, file.bytes);
    if (call_maker(FROM_RULES, &file) == 0)
        note_accepted(rules);
}

/* ---- Sheets worked out by hand. ---- */

static void set_file(struct file *file, const uint8_t *bytes, size_t length)
{
    file->length = length;
    memcpy(file->bytes, bytes, length);
}

/* The words of the selector, one output that has contact 0's value while contact 1 is closed and contact 2's while it is open: as four
 * rules, and as one for each input. The table is examples/selector.table. */
static void compare_selector(void)
{
    static const uint8_t table_bytes[] = {1, 0, 1, 3, 2, 0, 1, 0, 3, 0, 2, 0, 1, 3, 0, 4, 0, 1, 0, 2, 3, 0, 6, 0, 1, 0, 0, 1, 1};
    static const uint8_t rules_bytes[] = {1, 0, 1, 3, 8, 0, 1, 1, 9, 0, 4, 2, 0, 0, 0, 9, 0, 4, 2, 0, 1, 1,
                                          9, 0, 4, 0, 1, 2, 0, 9, 0, 4, 1, 1, 2, 1};
    static struct file table, file;
    struct rules rules;
    set_file(&table, table_bytes, sizeof table_bytes);
    set_file(&file, rules_bytes, sizeof rules_bytes);
    expect_made(FROM_RULES, &file, 0, &table);
    one_rule(3, 1, 0, &rules);
    split_rules(&dice, 8, &rules);
    for (unsigned r = 0; r < rules.count; r++)
        rules.rule[r].word = rules.rule[r].fits[rules.rule[r].fits[1] == 1 ? 0 : 2];
    expect_in_buffers(&rules, 0, &table);
    known += 2;
}

/* Output 0 is the sum of two contacts, output 1 its carry. */
static void compare_adder(void)
{
    static const uint8_t table_bytes[] = {1, 0, 1, 2, 2, 0, 2, 0, 1, 3, 0, 4, 0, 1, 2, 0, 3, 0, 6, 0, 1, 1, 0, 0, 0};
    static const uint8_t rules_bytes[] = {1, 0, 1, 2, 8, 0, 1, 2, 9, 0, 3, 1, 1, 2, 9, 0, 3, 0, 0, 0,
                                          9, 0, 3, 0, 1, 1, 9, 0, 3, 1, 0, 1};
    static struct file table, file;
    set_file(&table, table_bytes, sizeof table_bytes);
    set_file(&file, rules_bytes, sizeof rules_bytes);
    expect_made(FROM_RULES, &file, 0, &table);
    known++;
}

/* Two contacts, one output and up to three rules. */
static void compare_refused(void)
{
    static const struct {
        uint8_t rules, rule[3][3];
        uint32_t number;
    } sheets[] = {
        {3, {{0, 2, 1}, {2, 0, 1}, {1, 1, 1}}, SHARED}, /* input 0, the same word */
        {3, {{0, 2, 1}, {2, 0, 0}, {1, 1, 1}}, SHARED}, /* another word */
        {2, {{0, 2, 0}, {2, 0, 0}}, SHARED},            /* and input 3 fits none */
        {3, {{0, 0, 0}, {1, 1, 0}, {1, 1, 0}}, SHARED}, /* input 3, and input 1, before it, fits none */
        {2, {{2, 2, 1}, {2, 2, 1}}, SHARED},            /* every input */
        {2, {{0, 2, 0}, {1, 0, 0}}, UNRULED},           /* input 3 */
        {3, {{1, 2, 1}, {0, 1, 0}, {0, 0, 2}}, MALFORMED},
        {1, {{0, 0, 0}}, UNRULED},
        {1, {{2, 2, 2}}, MALFORMED},
    };
    for (unsigned i = 0; i < sizeof sheets / sizeof *sheets; i++) {
        struct rules rules = {.contacts = 2, .outputs = 1, .count = sheets[i].rules};
        for (unsigned r = 0; r < rules.count; r++) {
            memcpy(rules.rule[r].fits, sheets[i].rule[r], 2);
            rules.rule[r].word = sheets[i].rule[r][2];
        }
        expect_in_buffers(&rules, sheets[i].number, NULL);
        known++;
    }
}

/* ---- Every small sheet, and every value of a byte. ---- */

/* Every sheet of so many rules for so many contacts, with one output. */
static void compare_every_sheet(unsigned contacts, unsigned count)
{
    unsigned digits = (contacts + 1) * count, sheets = 1;
    struct rules rules = {.contacts = contacts, .outputs = 1, .count = count};
    for (unsigned i = 0; i < digits; i++)
        sheets *= i % (contacts + 1) == contacts ? 2 : 3;
    for (unsigned sheet = 0; sheet < sheets; sheet++) {
        unsigned rest = sheet;
        for (unsigned r = 0; r < count; r++) {
            for (unsigned i = 0; i < contacts; i++, rest /= 3)
                rules.rule[r].fits[i] = (uint8_t)(rest % 3);
            rules.rule[r].word = rest % 2;
            rest /= 2;
        }
        compare_sheet(&rules);
        tiny++;
    }
}

/* The one rule of 1 to 12 contacts and 1 to 8 outputs with every word, and every count of outputs. */
static void compare_every_word(unsigned outputs)
{
    struct rules rules;
    for (unsigned byte = 0; byte < 256; byte++) {
        one_rule(1 + roll(&dice, 12), outputs, byte, &rules);
        expect_rules(&rules, byte < 1u << outputs ? 0 : MALFORMED);
        one_rule(1 + roll(&dice, 12), byte, 0, &rules);
        expect_rules(&rules, 1 <= byte && byte <= 8 ? 0 : MALFORMED);
        values += 2;
    }
}

/* The one rule of so many contacts with every value for each of them. */
static void compare_every_condition(unsigned contacts)
{
    struct rules rules;
    for (unsigned byte = 0; byte < 256; byte++)
        for (unsigned i = 0; i < contacts; i++) {
            one_rule(contacts, 1, roll(&dice, 2), &rules);
            rules.rule[0].fits[i] = (uint8_t)byte;
            expect_rules(&rules, byte == EITHER ? 0 : byte < EITHER ? UNRULED : MALFORMED);
            values++;
        }
}

/* Sheets of 64 rules of which just two are alike: the one at each place, and any other. */
static void compare_every_place(void)
{
    struct rules rules;
    for (unsigned place = 0; place < MOST_RULES; place++) {
        unsigned other = (place + 1 + roll(&dice, MOST_RULES - 1)) % MOST_RULES;
        random_rules(&dice, 6 + roll(&dice, 7), 1 + roll(&dice, 8), MOST_RULES - 1, 2, &rules);
        rules.rule[rules.count++] = rules.rule[place];
        rules.rule[place] = rules.rule[other];
        expect_rules(&rules, SHARED);
        doubled_places[place]++;
    }
}

void compare_known_rules(void)
{
    compare_selector();
    compare_adder();
    compare_refused();
    for (unsigned count = 1; count <= 3; count++)
        compare_every_sheet(1, count);
    for (unsigned count = 1; count <= 2; count++)
        compare_every_sheet(2, count);
    for (unsigned outputs = 1; outputs <= 8; outputs++)
        compare_every_word(outputs);
    for (unsigned contacts = 1; contacts <= 3; contacts++)
        compare_every_condition(contacts);
    compare_every_place();
}

/* ---- Sheets of every size. ---- */

/* The rule that every input fits: the table of a diagram in which every contact is spare. */
static void expect_one_rule(unsigned contacts, unsigned outputs)
{
    struct diagram diagram = {.outputs = outputs, .width = {2}};
    struct rules rules;
    static struct file table;
    one_rule(contacts, outputs, roll(&dice, 1u << outputs), &rules);
    for (unsigned j = 0; j < outputs; j++)
        diagram.output[j] = rules.rule[0].word >> j & 1;
    while (diagram.contacts < contacts)
        insert_spare_contact(&diagram, 0);
    table.length = table_of(&diagram, table.bytes);
    expect_in_buffers(&rules, 0, &table);
}

/* The sheet of an accepted table, and another one of the same words, of so many rules if there can be so many. The table comes back. */
static void expect_table(unsigned contacts, unsigned outputs, unsigned count)
{
    struct diagram diagram;
    struct rules rules;
    static struct file table;
    ruled_diagram(&dice, contacts, outputs, &diagram, &rules);
    table.length = table_of(&diagram, table.bytes);
    expect_in_buffers(&rules, 0, &table);
    split_rules(&dice, count, &rules);
    shuffle_rules(&dice, &rules);
    expect_in_buffers(&rules, 0, &table);
    tables_given_back += 2;
}

/* A sheet of a drawing with so many functions in a level. */
static void expect_wide(unsigned contacts, unsigned level, unsigned functions)
{
    struct drawing drawing;
    struct rules rules;
    unsigned count[12];
    wide_drawing(&dice, contacts, level, functions, &drawing);
    if (!rules_of(&drawing, &rules))
        return;
    split_rules(&dice, roll(&dice, MOST_RULES + 1), &rules);
    shuffle_rules(&dice, &rules);
    expect_in_buffers(&rules, functions > 8 ? PILGODUR_REFUSAL_FUNCTIONS : 0, NULL);
    count_functions(&drawing, count);
    at_eight[contacts][level] += count[level] == 8;
    at_nine[contacts][level] += count[level] == 9;
}

static void expect_malformed(enum sheet_malformation kind, const struct rules *good)
{
    static struct file file;
    if (!can_be_malformed(kind, good))
        return;
    malformed_rules(&dice, kind, good, &file);
    expect_once(&file, MALFORMED);
    malformed[kind]++;
}

/* Of one contact there are two rules at most. */
static void expect_fault(enum sheet_fault fault, unsigned contacts, unsigned rules_count)
{
    struct rules rules;
    random_rules(&dice, contacts, 1 + roll(&dice, 8), 2 + roll(&dice, rules_count - 1), roll(&dice, 10), &rules);
    spoil_rules(&dice, fault, &rules);
    expect_rules(&rules, fault < RULE_LEFT_OUT ? SHARED : UNRULED);
    faults[fault]++;
}

/* A malformed sheet may share inputs, too, or have some that fit no rule. */
static void compare_malformed(unsigned contacts)
{
    struct rules rules;
    for (unsigned kind = 0; kind < SHEET_MALFORMATIONS; kind++)
        for (unsigned i = 0; i < 4; i++) {
            random_rules(&dice, contacts, 1 + roll(&dice, 8), i == 0 ? 1 : 2 + roll(&dice, i == 1 ? 4 : MOST_RULES - 1), 2, &rules);
            if (i == 3)
                spoil_rules(&dice, (enum sheet_fault)roll(&dice, SHEET_FAULTS), &rules);
            expect_malformed((enum sheet_malformation)kind, &rules);
        }
}

void compare_rules(unsigned contacts)
{
    struct rules rules;
    for (unsigned outputs = 1; outputs <= 8; outputs++) {
        expect_one_rule(contacts, outputs);
        expect_table(contacts, outputs, outputs % 2 == 0 ? MOST_RULES : roll(&dice, MOST_RULES));
    }
    for (unsigned count = 1; count <= MOST_RULES && (contacts > 6 || count <= 1u << contacts); count++) {
        random_rules(&dice, contacts, 1 + roll(&dice, 8), count, roll(&dice, 3), &rules);
        expect_rules(&rules, 0);
    }
    compare_malformed(contacts);
    for (unsigned fault = 0; fault < SHEET_FAULTS; fault++)
        for (unsigned count = 2; count <= MOST_RULES; count *= 2)
            expect_fault((enum sheet_fault)fault, contacts, count);
    for (unsigned level = 0; level + 1 < contacts; level++) {
        expect_wide(contacts, level, 8);
        if (level > 0)
            expect_wide(contacts, level, 9);
    }
}

/* ---- Notes. ---- */

/* Notes of every kind before each field and after the last one. Then nothing but such notes. */
static void compare_notes_in_places(const struct file *file, unsigned rules)
{
    static const struct file nothing;
    noting = (struct noting){.percent = 100};
    for (unsigned kind = 0; kind < NOTE_KINDS; kind++) {
        noting.kind = (enum note_kind)kind;
        for (noting.place = 0; noting.place <= 2 + rules; noting.place++)
            expect_once(file, 0);
        noting.place = 0;
        expect_once(&nothing, MALFORMED);
    }
    noting = some_notes;
}

/* As many rules as there may be, with an empty note in each place. */
static void compare_most_rules_noted(void)
{
    static struct file file;
    struct rules rules;
    random_rules(&dice, 6, 3, MOST_RULES, 2, &rules);
    file.length = write_rules(&rules, file.bytes);
    noting = (struct noting){.percent = 100, .kind = EMPTY_NOTE};
    for (; noting.place <= 2 + MOST_RULES; noting.place++)
        expect_once(&file, 0);
    noting = some_notes;
}

static void compare_cut_notes(const struct file *good)
{
    static struct file file;
    for (unsigned kind = 0; kind < CUT_KINDS; kind++) {
        set_file(&file, good->bytes, good->length);
        cut_note(&dice, (enum cut_kind)kind, &file);
        expect_once(&file, MALFORMED);
        cut_notes[kind]++;
    }
}

/* A field of a tag more, in each place: tags from 128 on are passed over, all others but a rule's own are refused. */
static void compare_tags(const struct file *good, unsigned rules)
{
    static struct file file;
    for (unsigned tag = 0; tag < 256; tag++)
        for (unsigned place = 0; place <= 2 + rules && tag != 9; place++) {
            set_file(&file, good->bytes, good->length);
            put_field(&dice, tag, place, &file);
            expect_once(&file, tag < NOTE_TAG ? MALFORMED : 0);
            *(tag < NOTE_TAG ? &tags_refused : &tags_passed) += 1;
        }
}

void compare_rule_notes(unsigned contacts)
{
    static struct file file;
    struct rules rules;
    random_rules(&dice, contacts, 1 + roll(&dice, 8), contacts, 2, &rules);
    file.length = write_rules(&rules, file.bytes);
    compare_notes_in_places(&file, rules.count);
    compare_cut_notes(&file);
    if (contacts == 3)
        compare_tags(&file, rules.count);
    if (contacts == 6)
        compare_most_rules_noted();
}

/* ---- Random sheets. ---- */

/* An exact one; many contacts and many rules are drawn less often. */
static void draw_exact(struct rules *rules)
{
    unsigned contacts = 1 + roll(&dice, chance(&dice, 80) ? 8 : 12), count = 1 + roll(&dice, chance(&dice, 70) ? 12 : MOST_RULES);
    unsigned others = chance(&dice, 40) ? roll(&dice, 3) : roll(&dice, chance(&dice, 60) ? 8 : 2 * MOST_RULES);
    random_rules(&dice, contacts, 1 + roll(&dice, 8), count, others, rules);
}

/* Any conditions for few contacts, any words. */
static void draw_any(struct rules *rules)
{
    one_rule(1 + roll(&dice, 4), 1 + roll(&dice, 8), 0, rules);
    rules->count = 1 + roll(&dice, 6);
    for (unsigned r = 0; r < rules->count; r++) {
        for (unsigned i = 0; i < rules->contacts; i++)
            rules->rule[r].fits[i] = (uint8_t)roll(&dice, 3);
        rules->rule[r].word = (uint8_t)roll(&dice, 1u << rules->outputs);
    }
}

/* A sheet that is good but for some bytes, or bytes without plan. */
static void compare_bytes(const struct rules *rules)
{
    static struct file file;
    unsigned kind = roll(&dice, 100);
    file.length = write_rules(rules, file.bytes);
    if (kind < 60)
        flip_bytes(&dice, &file);
    else if (kind < 70)
        random_fields(&dice, &file);
    else if (kind < 75)
        random_bytes(&dice, &file);
    damage_some_notes(&file);
    call_maker(FROM_RULES, &file);
}

void rules_case(void)
{
    struct rules rules;
    unsigned kind = roll(&dice, 100);
    draw_exact(&rules);
    if (kind < 40)
        compare_sheet(&rules);
    else if (kind < 45)
        expect_table(rules.contacts, rules.outputs, roll(&dice, MOST_RULES + 1));
    else if (kind < 50 && rules.contacts > 2)
        expect_wide(rules.contacts, 1 + roll(&dice, rules.contacts - 2), 7 + roll(&dice, 4));
    else if (kind < 62)
        expect_fault((enum sheet_fault)roll(&dice, SHEET_FAULTS), rules.contacts, MOST_RULES);
    else if (kind < 74)
        expect_malformed((enum sheet_malformation)roll(&dice, SHEET_MALFORMATIONS), &rules);
    else if (kind < 90)
        compare_bytes(&rules);
    else {
        draw_any(&rules);
        compare_sheet(&rules);
    }
}

bool print_rules(void)
{
    bool all = print_counts("accepted rule sheets by contacts", accepted_contacts, 1, 12);
    all = print_counts("accepted rule sheets by outputs", accepted_outputs, 1, 8) && all;
    all = print_counts("accepted rule sheets by rules", accepted_rules, 1, MOST_RULES) && all;
    all = print_counts("malformed rule sheets by kind", malformed, 0, SHEET_MALFORMATIONS - 1) && all;
    all = print_counts("rule sheets with a shared input or one that fits none, by kind", faults, 0, SHEET_FAULTS - 1) && all;
    all = print_counts("sheets of 64 rules with one twice, by its place", doubled_places, 0, MOST_RULES - 1) && all;
    all = print_wide("rule sheets with eight", at_eight, 0) && all;
    all = print_wide("rule sheets with nine", at_nine, 1) && all;
    all = print_counts("notes cut short in rule sheets by kind", cut_notes, 0, CUT_KINDS - 1) && all;
    printf("rule sheets worked out by hand: %lu, of a few rules: %lu, with every value of a byte: %lu, of an accepted table: %lu, with "
           "a field of a tag more: passed over %lu, refused %lu\n", known, tiny, values, tables_given_back, tags_passed, tags_refused);
    return all && known != 0 && tiny != 0 && values != 0 && tables_given_back != 0 && tags_passed != 0 && tags_refused != 0;
}
