/* Writes a random rule sheet to standard output: its bytes, these with notes put in, or its text form with blanks, comments and line
 * ends of every kind; or what the message must say of it if question 19 or 20 says no. With a KIND it is malformed in that way
 * (tests/malformed.h).
 *
 *     rulings SEED bytes|noted|text|answer [KIND]    exit status 1: there is no such sheet in that form; 2: bad usage */
#include <stdio.h>
#include <stdlib.h>
#include <string.h>

#include "damage.h"
#include "edits.h"
#include "malformed.h"

static struct dice dice;

/* Few rules or many, with one word or many. */
static void draw_some(struct rules *rules)
{
    struct diagram diagram;
    unsigned contacts = 1 + roll(&dice, 12), outputs = 1 + roll(&dice, 8), count = 1 + roll(&dice, chance(&dice, 50) ? 12 : 62);
    if (chance(&dice, 30))
        ruled_diagram(&dice, contacts, outputs, &diagram, rules);
    else
        random_rules(&dice, contacts, outputs, count, chance(&dice, 50) ? roll(&dice, 3) : roll(&dice, 64), rules);
}

/* False if the bench would take it for text: a sheet that begins with a rule does, with the byte of a tab. */
static bool draw_malformed(enum sheet_malformation kind, const struct rules *good, struct file *file)
{
    for (unsigned tries = 0; tries < 1000; tries++) {
        malformed_rules(&dice, kind, good, file);
        if (file->length == 0 || file->bytes[0] < '\t')
            return true;
    }
    return false;
}

/* ---- What is to be said of an input. ---- */

/* The smallest input that fits so many rules, two standing for more, too; leaves the first two of them. */
static bool find_input(const struct rules *rules, unsigned fitting, uint32_t *input, unsigned rule[2])
{
    for (*input = 0; *input < 1u << rules->contacts; ++*input) {
        unsigned count = 0;
        for (unsigned k = 0; k < rules->count && count < 2; k++)
            if (fits_rule(rules, k, *input))
                rule[count++] = k;
        if (count == fitting)
            return true;
    }
    return false;
}

static void write_answer(const struct rules *rules)
{
    uint32_t input;
    unsigned rule[2];
    bool shared = find_input(rules, 2, &input, rule);
    if (!shared && !find_input(rules, 0, &input, rule))
        return;
    printf("input %u, contacts:", (unsigned)input);
    for (unsigned i = 0; i < rules->contacts; i++)
        printf("%u", (unsigned)(input >> i & 1));
    if (shared)
        printf(", fits the rules %u and %u\n", rule[0], rule[1]);
    else
        printf(", fits no rule\n");
}

/* ---- The text form. ---- */

static void write_blanks(unsigned percent)
{
    for (; chance(&dice, percent); percent /= 2)
        putchar(chance(&dice, 70) ? ' ' : '\t');
}

/* Some end in a comment, some in a carriage return, and some have lines without a rule behind them. */
static void end_line(void)
{
    if (chance(&dice, 20))
        printf("%s# 0-1:1 ~\\", chance(&dice, 50) ? " " : "");
    do
        printf(chance(&dice, 20) ? " \t\r\n" : "\n");
    while (chance(&dice, 10));
}

/* Whether the text form can say it: the counts, and rules with a sign for each contact and a word of so many bits. */
static bool has_text(const struct file *file)
{
    if (file->length < 11 || file->bytes[0] != 1 || file->bytes[2] != 1 || file->bytes[4] != 8 || file->bytes[6] != 1)
        return false;
    unsigned contacts = file->bytes[3], outputs = file->bytes[7];
    for (size_t at = 8; at < file->length; at += 4 + contacts) {
        if (!is_whole(file, at) || file->bytes[at] != 9 || field_length(file, at) != contacts + 1)
            return false;
        for (unsigned i = 0; i < contacts; i++)
            if (file->bytes[at + 3 + i] > EITHER)
                return false;
        if (outputs < 8 && file->bytes[at + 3 + contacts] >> outputs != 0)
            return false;
    }
    return true;
}

static void write_text(const struct file *file)
{
    unsigned contacts = file->bytes[3], outputs = file->bytes[7], blanks = roll(&dice, 3) * 40;
    for (const uint8_t *sign = file->bytes + 11; sign < file->bytes + file->length; sign += 4 + contacts) {
        write_blanks(blanks);
        for (unsigned i = 0; i < contacts; i++) {
            putchar("01-"[sign[i]]);
            write_blanks(blanks);
        }
        putchar(':');
        for (unsigned j = 0; j < outputs; j++) {
            write_blanks(blanks);
            printf("%u", j < 8 ? sign[contacts] >> j & 1 : 0);
        }
        end_line();
    }
}

int main(int argc, char **argv)
{
    static struct file file, noted;
    struct rules rules;
    if (argc < 3 || argc > 4)
        return 2;
    enum sheet_malformation kind = argc == 4 ? (enum sheet_malformation)strtoul(argv[3], NULL, 10) : SHEET_MALFORMATIONS;
    dice.state = strtoull(argv[1], NULL, 10);
    do
        draw_some(&rules);
    while (!can_be_malformed(kind, &rules));
    if (argc == 3 && chance(&dice, 40) && rules.count > 1 && rules.count < MOST_RULES)
        spoil_rules(&dice, (enum sheet_fault)roll(&dice, SHEET_FAULTS), &rules);
    file.length = write_rules(&rules, file.bytes);
    if (argc == 4 && !draw_malformed(kind, &rules, &file))
        return 1;
    put_notes(&dice, ANY_NOTE, EVERYWHERE, &file, &noted);
    const struct file *written = strcmp(argv[2], "noted") == 0 ? &noted : &file;
    bool as_text = strcmp(argv[2], "text") == 0;
    if (as_text && !has_text(&file))
        return 1;
    if (as_text)
        write_text(&file);
    else if (strcmp(argv[2], "answer") == 0)
        write_answer(&rules);
    else
        fwrite(written->bytes, 1, written->length, stdout);
    return fflush(stdout) == 0 && !ferror(stdout) ? 0 : 2;
}
