/* The command that makes a table from a rule sheet, and what it says of one that is refused. */
#include <inttypes.h>

#include "../include/pilgodur.h"
#include "commands.h"
#include "operands.h"
#include "rule_sheet.h"
#include "show.h"
#include "width.h"

enum { CONTACTS, OUTPUTS, FIRST_RULE }; /* fields */
enum { EITHER = 2 };

/* A sheet's fields, as far as they are good. */
struct rules {
    const struct rule_sheet *sheet;
    unsigned contacts, outputs, count;
    const uint8_t *rule[RULES_MOST]; /* a byte for each contact, then the word */
};

/* ---- Question 18. ---- */

/* The text form leaves just the counts to be asked about. */
static bool text_fault(const struct rule_sheet *sheet, struct fault *fault)
{
    if (sheet->contacts < 1 || sheet->contacts > RULES_CONTACTS)
        return say(fault, "line %u: there are %zu contacts, not 1 to %d", sheet->line[0], sheet->contacts, RULES_CONTACTS);
    if (sheet->outputs < 1 || sheet->outputs > RULES_OUTPUTS)
        return say(fault, "line %u: there are %zu outputs, not 1 to %d", sheet->line[0], sheet->outputs, RULES_OUTPUTS);
    if (sheet->rules > RULES_MOST)
        return say(fault, "line %u: there are more than %d rules", sheet->line[RULES_MOST], RULES_MOST);
    return false;
}

static bool outputs_fault(const struct field *field, struct fault *fault)
{
    if (field->length != 1)
        return say(fault, "the second field has length %zu, not 1", field->length);
    if (field->value[0] < 1 || field->value[0] > RULES_OUTPUTS)
        return say(fault, "there are %u outputs, not 1 to %d", field->value[0], RULES_OUTPUTS);
    return false;
}

static bool rule_fault(const struct rules *r, const struct field *field, struct fault *fault)
{
    if (r->count == RULES_MOST)
        return say(fault, "there are more than %d rules", RULES_MOST);
    if (field->length != r->contacts + 1)
        return say(fault, "rule %u has length %zu, not %u, a byte for each contact and a word", r->count, field->length,
                   r->contacts + 1);
    for (unsigned i = 0; i < r->contacts; i++)
        if (field->value[i] > EITHER)
            return say(fault, "rule %u has %u for contact %u, not 0, 1 or 2", r->count, field->value[i], i);
    if (field->value[r->contacts] >> r->outputs != 0)
        return say(fault, "rule %u has the word %u, not one below %u", r->count, field->value[r->contacts], 1u << r->outputs);
    return false;
}

/* Takes field k, the counts or a rule. */
static bool take_field(struct rules *r, unsigned k, const struct field *field, struct fault *fault)
{
    if (k == CONTACTS ? contacts_fault(field, fault) : k == OUTPUTS ? outputs_fault(field, fault) : rule_fault(r, field, fault))
        return true;
    if (k == CONTACTS)
        r->contacts = field->value[0];
    else if (k == OUTPUTS)
        r->outputs = field->value[0];
    else
        r->rule[r->count++] = field->value;
    return false;
}

/* What a field is called. */
struct label {
    char text[32];
};

static struct label label_of(unsigned k)
{
    struct label label;
    if (k < FIRST_RULE)
        snprintf(label.text, sizeof label.text, "%s field", k == CONTACTS ? "first" : "second");
    else
        snprintf(label.text, sizeof label.text, "field of rule %u", k - FIRST_RULE);
    return label;
}

/* Takes all fields; what is wrong with the bytes, the first of it. */
static bool field_fault(struct rules *r, struct fault *fault)
{
    static const uint8_t tags[] = {[CONTACTS] = 1, [OUTPUTS] = 8, [FIRST_RULE] = 9};
    const uint8_t *bytes = r->sheet->bytes;
    size_t length = r->sheet->length, at = past_notes(bytes, length, 0);
    for (unsigned k = 0; k <= FIRST_RULE || at < length; k++) {
        unsigned tag = tags[k < FIRST_RULE ? k : FIRST_RULE];
        struct label label = label_of(k);
        struct field field;
        if (at == length)
            return say(fault, "there is no %s", k < FIRST_RULE ? label.text : "rule");
        if (!field_at(bytes, length, at, &field))
            return cut_fault(bytes, length, at, label.text, fault);
        if (field.tag != tag)
            return say(fault, "the %s has tag %u, not %u", label.text, field.tag, tag);
        if (take_field(r, k, &field, fault))
            return true;
        at = past_notes(bytes, length, at + HEAD + field.length);
    }
    return false;
}

/* ---- Questions 19, 20 and 17, of rules that are all good. ---- */

/* The first rule from one on that an input fits; the count of rules if there is none. */
static unsigned fitting(const struct rules *r, unsigned from, uint32_t input)
{
    for (unsigned k = from; k < r->count; k++) {
        unsigned i = 0;
        while (i < r->contacts && (r->rule[k][i] == EITHER || r->rule[k][i] == (input >> i & 1)))
            i++;
        if (i == r->contacts)
            return k;
    }
    return r->count;
}

/* The smallest input that fits two rules, and the first two that it fits: by their lines, or by their numbers from 0 up. */
static void find_shared(const struct rules *r, struct fault *fault)
{
    for (uint32_t input = 0; input < 1u << r->contacts; input++) {
        unsigned first = fitting(r, 0, input), second = fitting(r, first + 1, input);
        struct contacts_text contacts = contacts_at(input, r->contacts);
        if (second >= r->count)
            continue;
        if (r->sheet->is_text)
            say(fault, "input %" PRIu32 ", %s, fits the rules on lines %u and %u", input, contacts.text, r->sheet->line[first],
                r->sheet->line[second]);
        else
            say(fault, "input %" PRIu32 ", %s, fits the rules %u and %u", input, contacts.text, first, second);
        return;
    }
}

/* The smallest input that fits no rule. */
static void find_unruled(const struct rules *r, struct fault *fault)
{
    for (uint32_t input = 0; input < 1u << r->contacts; input++)
        if (fitting(r, 0, input) == r->count) {
            say(fault, "input %" PRIu32 ", %s, fits no rule", input, contacts_at(input, r->contacts).text);
            return;
        }
}

static void find_ruled_width(const struct rules *r, struct fault *fault)
{
    static struct values v;
    v.contacts = r->contacts;
    v.outputs = r->outputs;
    for (uint32_t place = 0; place < 1u << r->contacts; place++) {
        uint32_t input = 0;
        for (unsigned i = 0; i < r->contacts; i++)
            input |= (place >> (r->contacts - 1 - i) & 1) << i;
        unsigned word = r->rule[fitting(r, 0, input)][r->contacts];
        for (unsigned j = 0; j < r->outputs; j++)
            v.of[j][place] = word >> j & 1;
    }
    find_width(&v, fault);
}

/* What the question says no to. */
static void find_fault(const struct rule_sheet *sheet, uint32_t refusal, struct fault *fault)
{
    struct rules r = {.sheet = sheet};
    if ((sheet->is_text && text_fault(sheet, fault)) || field_fault(&r, fault))
        return;
    if (refusal == PILGODUR_REFUSAL_SHARED)
        find_shared(&r, fault);
    else if (refusal == PILGODUR_REFUSAL_UNRULED)
        find_unruled(&r, fault);
    else if (refusal == PILGODUR_REFUSAL_FUNCTIONS)
        find_ruled_width(&r, fault);
}

enum status rules(struct request *request, FILE *out)
{
    uint8_t table[PILGODUR_TABLE_MAX];
    struct rule_sheet sheet;
    struct fault fault = {""};
    read_rule_sheet(load_operand(request, 0), &sheet);
    pilgodur_built made = pilgodur_from_rules(sheet.bytes, sheet.length, table, sizeof table);
    if (made.refusal != 0) {
        find_fault(&sheet, made.refusal, &fault);
        refuse(made.refusal, "%s%s", sheet.name, fault.text);
    }
    show_file(out, table, made.length, request->output == NULL);
    return ANSWERED;
}
