/* The fault dictionary: every line held at either value, and every pin if that is wanted. */
#define _XOPEN_SOURCE 700
#include <inttypes.h>
#include <string.h>
#include <unistd.h>

#include "commands.h"
#include "netlist.h"
#include "operands.h"

static const char *const ways[] = {[PILGODUR_WAY_BOTH_LOW] = "both low", [PILGODUR_WAY_BOTH_HIGH] = "both high"};

struct board {
    const struct file *table;
    unsigned contacts, lines;
};

/* The row of a line that nothing reads, and that of a pin that is hidden, have no input. */
static void add_row(FILE *out, const struct board *board, const uint8_t hold[3])
{
    static uint8_t buffer[PILGODUR_FILE_MAX + PILGODUR_LINES_MAX];
    pilgodur_probed probed = pilgodur_probe(board->table->at, board->table->length, hold, 3, buffer, sizeof buffer);
    bool unread = probed.refusal == PILGODUR_REFUSAL_UNREAD;
    struct held_text held = held_name(hold);
    if (probed.refusal != 0 && !unread)
        refuse(probed.refusal, "%s with hold %s=%u", board->table->name, held.text, held_value(hold));
    fprintf(out, "%s,%u,", held.text, held_value(hold));
    if (unread || probed.way == PILGODUR_WAY_HIDDEN)
        fprintf(out, ",,,%s\n", unread ? "unread" : "hidden");
    else
        fprintf(out, "%" PRIu32 ",%s,%" PRIu32 ",%s\n", probed.input, contacts_at(probed.input, board->contacts).text, probed.output,
                ways[probed.way]);
}

/* On a terminal, how far the work has come; nothing is left of it in the end. */
static void show_progress(const char *what, unsigned line, unsigned lines)
{
    if (line % 100 == 0)
        fprintf(stderr, "\r%s %u of %u", what, line, lines);
    if (line >= 100 && line + 1 == lines)
        fprintf(stderr, "\r%*s\r", (int)strlen(what) + 20, "");
}

/* Rows for every line from one on: for each of these sites at 0 and at 1. */
static void add_rows(FILE *out, const struct board *board, unsigned from, unsigned first_site, unsigned last_site)
{
    bool watched = isatty(STDERR_FILENO) == 1;
    uint8_t hold[3];
    for (unsigned line = from; line < board->lines; line++) {
        for (unsigned site = first_site; site <= last_site; site++)
            for (unsigned value = 0; value < 2; value++) {
                put_hold(hold, line, site, value);
                add_row(out, board, hold);
            }
        if (watched)
            show_progress(first_site == 0 ? "line" : "pins of line", line, board->lines);
    }
}

enum status dictionary(struct request *request, FILE *out)
{
    const struct file *table = load_operand(request, 0);
    pilgodur_checked checked = pilgodur_check(table->at, table->length);
    if (checked.refusal != 0)
        refuse(checked.refusal, "%s", table->name);
    unsigned first_gate = 2 + 2 * checked.contacts;
    struct board board = {table, checked.contacts, first_gate + checked.gates};
    fprintf(out, "line,value,input,contacts,output,way\n");
    add_rows(out, &board, 2, 0, 0);
    if (request->pins)
        add_rows(out, &board, first_gate, 1, 2);
    return ANSWERED;
}
