/* The text form of a rule sheet. */
#include "rule_sheet.h"

#include <string.h>

#include "fields.h"
#include "text.h"

/* A rule as it is written: its counts, and its signs and permits as far as there may be so many, with one contact more. */
struct rule {
    size_t contacts, permits;
    uint8_t sign[RULES_CONTACTS + 1]; /* 2 for - */
    uint8_t word;
};

static void read_contacts(const struct line *line, const char *colon, struct rule *rule)
{
    for (const char *at = line->at; at < colon; at++) {
        if (is_blank(*at))
            continue;
        if (*at != '0' && *at != '1' && *at != '-')
            reject(line->file, line->number, "before the : there is a sign other than 0, 1 and -");
        if (rule->contacts <= RULES_CONTACTS)
            rule->sign[rule->contacts] = *at == '-' ? 2 : *at == '1';
        rule->contacts++;
    }
}

static void read_permits(const struct line *line, const char *colon, struct rule *rule)
{
    for (const char *at = colon + 1; at < line->end; at++) {
        if (is_blank(*at))
            continue;
        if (*at != '0' && *at != '1')
            reject(line->file, line->number, "after the : there is a sign other than 0 and 1");
        if (rule->permits < RULES_OUTPUTS)
            rule->word |= (uint8_t)((*at == '1') << rule->permits);
        rule->permits++;
    }
}

/* CONTACTS : PERMITS, with blanks anywhere. */
static void read_rule(const struct line *line, struct rule *rule)
{
    const char *colon = memchr(line->at, ':', (size_t)(line->end - line->at));
    if (colon == NULL)
        reject(line->file, line->number, "the line of a rule must be: CONTACTS : PERMITS");
    *rule = (struct rule){0};
    read_contacts(line, colon, rule);
    read_permits(line, colon, rule);
}

/* The first rule has the sheet's counts; every other one must have them, too. */
static void compare_counts(const struct rule *rule, unsigned line, struct rule_sheet *sheet)
{
    if (sheet->rules == 0) {
        sheet->contacts = rule->contacts;
        sheet->outputs = rule->permits;
    }
    if (rule->contacts != sheet->contacts)
        reject(sheet->name, line, "the count of contacts is %zu, but on line %u it is %zu", rule->contacts, sheet->line[0],
               sheet->contacts);
    if (rule->permits != sheet->outputs)
        reject(sheet->name, line, "the count of permits is %zu, but on line %u it is %zu", rule->permits, sheet->line[0],
               sheet->outputs);
}

static uint8_t smaller(size_t a, size_t b)
{
    return (uint8_t)(a < b ? a : b);
}

static uint8_t *put_byte_field(uint8_t *put, unsigned tag, uint8_t byte)
{
    put = put_head(put, tag, 1);
    *put = byte;
    return put + 1;
}

static uint8_t *put_rule(const struct rule *rule, uint8_t *put)
{
    size_t count = smaller(rule->contacts, RULES_CONTACTS + 1);
    put = put_head(put, 9, count + 1);
    memcpy(put, rule->sign, count);
    put[count] = rule->word;
    return put + count + 1;
}

static void read_text(const struct file *file, struct rule_sheet *sheet)
{
    struct text text = text_in(file);
    struct rule rule;
    uint8_t *put = sheet->made + 2 * (HEAD + 1); /* behind the counts */
    while (next_line(&text)) {
        read_rule(&text.line, &rule);
        compare_counts(&rule, text.line.number, sheet);
        if (sheet->rules <= RULES_MOST) {
            sheet->line[sheet->rules] = text.line.number;
            put = put_rule(&rule, put);
        }
        sheet->rules++;
    }
    if (sheet->rules == 0)
        reject(sheet->name, text.line.number, "the text ends before the line of a rule: CONTACTS : PERMITS");
    sheet->is_text = true;
    sheet->bytes = sheet->made;
    sheet->length = (size_t)(put - sheet->made);
    put = put_byte_field(sheet->made, 1, smaller(sheet->contacts, RULES_CONTACTS + 1));
    put_byte_field(put, 8, smaller(sheet->outputs, RULES_OUTPUTS + 1));
}

void read_rule_sheet(const struct file *file, struct rule_sheet *sheet)
{
    *sheet = (struct rule_sheet){.name = file->name, .bytes = file->at, .length = file->length};
    if (is_text(file))
        read_text(file, sheet);
}
