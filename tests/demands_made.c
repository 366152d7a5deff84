/* The demands of tables that are made from drawings and rule sheets. */
#include "demands.h"

#include <inttypes.h>
#include <stdio.h>
#include <string.h>

#include "../include/pilgodur.h"

enum { SOME_INPUTS = 16 };

/* A file and what the library makes of it. */
struct made {
    const char *kind;
    uint8_t file[RULES_MAX];
    size_t file_length;
    uint8_t table[PILGODUR_TABLE_MAX];
    pilgodur_built built;
};

_Static_assert((int)DRAWING_MAX <= (int)RULES_MAX, "room for a drawing");

__attribute__((format(printf, 3, 4)))
static bool fail_made(const struct made *made, struct demands *demands, const char *what, ...)
{
    va_list args;
    va_start(args, what);
    report_demand(demands, what, args, made->kind, made->file, made->file_length);
    va_end(args);
    return false;
}

static void make_of_drawing(const struct drawing *drawing, struct made *made)
{
    made->kind = "drawing";
    made->file_length = write_drawing(drawing, made->file);
    made->built = pilgodur_from_drawing(made->file, made->file_length, made->table, sizeof made->table);
}

static void make_of_rules(const struct rules *rules, struct made *made)
{
    made->kind = "rule sheet";
    made->file_length = write_rules(rules, made->file);
    made->built = pilgodur_from_rules(made->file, made->file_length, made->table, sizeof made->table);
}

static bool same_answer(const struct made *a, const struct made *b)
{
    return a->built.refusal == b->built.refusal && a->built.length == b->built.length &&
           memcmp(a->table, b->table, a->built.length) == 0;
}

/* Whether check accepts the table. */
static bool check_made(const struct made *made, unsigned contacts, unsigned outputs, struct demands *demands)
{
    pilgodur_checked checked = pilgodur_check(made->table, made->built.length);
    if (checked.refusal != 0 || checked.contacts != contacts || checked.outputs != outputs)
        return fail_made(made, demands, "check of its table gives %" PRIu32 ", or other contacts or outputs", checked.refusal);
    return true;
}

static bool check_word(const struct made *made, uint32_t input, uint32_t word, struct demands *demands)
{
    pilgodur_reading reading = pilgodur_read_off(made->table, made->built.length, input);
    if (reading.refusal != 0 || reading.word != word)
        return fail_made(made, demands, "input %" PRIu32 ": the %s gives %" PRIu32 ", its table %" PRIu32, input, made->kind, word,
                         reading.word);
    return true;
}

static bool is_too_wide(const struct drawing *drawing)
{
    unsigned functions[12];
    bool too_wide = false;
    count_functions(drawing, functions);
    for (unsigned level = 0; level < drawing->contacts; level++)
        too_wide = too_wide || functions[level] > 8;
    return too_wide;
}

/* ---- Drawings. ---- */

static bool check_drawn_words(struct dice *dice, const struct drawing *drawing, const struct made *made, struct demands *demands)
{
    uint32_t inputs = 1u << drawing->contacts;
    bool all = inputs <= 256 || chance(dice, 12);
    for (uint32_t i = 0; i < (all ? inputs : SOME_INPUTS); i++) {
        uint32_t input = all ? i : roll(dice, inputs);
        if (!check_word(made, input, drawn_word(drawing, input), demands))
            return false;
    }
    return true;
}

/* Another drawing of the same functions: the same table, hence the same netlist. */
static bool check_redrawn(struct dice *dice, const struct drawing *drawing, const struct made *made, struct demands *demands)
{
    static uint8_t file[2][PILGODUR_FILE_MAX];
    struct drawing other = *drawing;
    struct made again;
    redraw(dice, roll(dice, MOST_NODES + 1), &other);
    make_of_drawing(&other, &again);
    if (!same_answer(&again, made))
        return fail_made(made, demands, "another drawing of the same functions has another table");
    pilgodur_built first = pilgodur_build(made->table, made->built.length, file[0], sizeof file[0]);
    pilgodur_built second = pilgodur_build(again.table, again.built.length, file[1], sizeof file[1]);
    if (first.refusal != 0 || second.refusal != 0 || first.length != second.length || memcmp(file[0], file[1], first.length) != 0)
        return fail_made(made, demands, "another drawing of the same functions has another netlist");
    return true;
}

void check_drawing(struct dice *dice, const struct drawing *drawing, struct demands *demands)
{
    struct made made;
    bool too_wide = is_too_wide(drawing);
    demands->drawings++;
    demands->too_wide += too_wide;
    make_of_drawing(drawing, &made);
    if (made.built.refusal != (too_wide ? PILGODUR_REFUSAL_FUNCTIONS : 0)) {
        fail_made(&made, demands, "a drawing with %s eight functions in a level gives %" PRIu32, too_wide ? "more than" : "at most",
                  made.built.refusal);
        return;
    }
    if (!too_wide && check_made(&made, drawing->contacts, drawing->outputs, demands) &&
        check_drawn_words(dice, drawing, &made, demands))
        check_redrawn(dice, drawing, &made, demands);
}

/* ---- Rule sheets. ---- */

/* The number that a well-formed sheet must get. With at most eight functions in each of 12 levels there are at most 96 nodes, none of
 * them alike, so a sheet that cannot be drawn has more. If the number is 0 or 17 the drawing is there; it has 200 nodes if it is not
 * whole. */
static uint32_t number_of(const struct rules *rules, struct drawing *drawing)
{
    uint32_t inputs = 0;
    for (unsigned a = 0; a < rules->count; a++) {
        inputs += inputs_of(rules, a);
        for (unsigned b = 0; b < a; b++)
            if (share_input(rules, a, b))
                return PILGODUR_REFUSAL_SHARED;
    }
    if (inputs < 1u << rules->contacts)
        return PILGODUR_REFUSAL_UNRULED;
    return !draw_rules(rules, drawing) || is_too_wide(drawing) ? PILGODUR_REFUSAL_FUNCTIONS : 0;
}

/* At an input just one rule fits, and its word is the table's. */
static bool check_ruled_word(const struct rules *rules, uint32_t input, const struct made *made, struct demands *demands)
{
    unsigned fitting = 0;
    uint32_t word = 0;
    for (unsigned r = 0; r < rules->count; r++)
        if (fits_rule(rules, r, input)) {
            fitting++;
            word = rules->rule[r].word;
        }
    if (fitting != 1)
        return fail_made(made, demands, "a table is made, and input %" PRIu32 " fits %u rules", input, fitting);
    return check_word(made, input, word, demands);
}

static bool check_ruled_words(struct dice *dice, const struct rules *rules, const struct made *made, struct demands *demands)
{
    uint32_t inputs = 1u << rules->contacts;
    bool all = inputs <= 256 || chance(dice, 12);
    for (uint32_t i = 0; i < (all ? inputs : SOME_INPUTS); i++)
        if (!check_ruled_word(rules, all ? i : roll(dice, inputs), made, demands))
            return false;
    return true;
}

static bool check_shuffled(struct dice *dice, const struct rules *rules, const struct made *made, struct demands *demands)
{
    struct rules other = *rules;
    struct made again;
    shuffle_rules(dice, &other);
    make_of_rules(&other, &again);
    return same_answer(&again, made) || fail_made(made, demands, "the same rules in another sequence have another answer");
}

/* Other files of the same words: a sheet with some rules split in two, and a drawing. */
static bool check_same_words(struct dice *dice, const struct rules *rules, const struct drawing *drawing, const struct made *made,
                             struct demands *demands)
{
    struct rules other = *rules;
    struct made again;
    split_rules(dice, chance(dice, 50) ? rules->count + 1 : MOST_RULES, &other);
    if (other.count <= MOST_RULES) {
        make_of_rules(&other, &again);
        if (!same_answer(&again, made))
            return fail_made(made, demands, "a sheet of the same words has another answer");
    }
    if (drawing->nodes == MOST_NODES)
        return true;
    make_of_drawing(drawing, &again);
    return same_answer(&again, made) || fail_made(made, demands, "a drawing of the same words has another answer");
}

void check_rules(struct dice *dice, const struct rules *rules, struct demands *demands)
{
    struct drawing drawing;
    struct made made;
    uint32_t number = number_of(rules, &drawing);
    demands->rule_sheets++;
    demands->shared += number == PILGODUR_REFUSAL_SHARED;
    demands->unruled += number == PILGODUR_REFUSAL_UNRULED;
    demands->rules_too_wide += number == PILGODUR_REFUSAL_FUNCTIONS;
    make_of_rules(rules, &made);
    if (made.built.refusal != number) {
        fail_made(&made, demands, "the answer is %" PRIu32 ", not %" PRIu32, made.built.refusal, number);
        return;
    }
    if (!check_shuffled(dice, rules, &made, demands) || number == PILGODUR_REFUSAL_SHARED || number == PILGODUR_REFUSAL_UNRULED ||
        !check_same_words(dice, rules, &drawing, &made, demands) || number != 0)
        return;
    if (check_made(&made, rules->contacts, rules->outputs, demands))
        check_ruled_words(dice, rules, &made, demands);
}
