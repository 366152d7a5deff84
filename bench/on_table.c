/* The commands on a table alone. */
#include <inttypes.h>
#include <stdlib.h>
#include <string.h>

#include "commands.h"
#include "netlist.h"
#include "operands.h"
#include "show.h"

static uint8_t room[PILGODUR_FILE_MAX + PILGODUR_LINES_MAX];

static pilgodur_checked checked_table(const struct file *table)
{
    pilgodur_checked checked = pilgodur_check(table->at, table->length);
    if (checked.refusal != 0)
        refuse(checked.refusal, "%s", table->name);
    return checked;
}

/* A line with the numbers of the contacts whose rails nothing reads, if there are such contacts. */
static void show_spare_contacts(FILE *out, const struct netlist *netlist)
{
    unsigned spare = 0;
    for (unsigned i = 0; i < netlist->contacts; i++)
        if (!is_read(netlist, 2 + 2 * i) && !is_read(netlist, 3 + 2 * i))
            fprintf(out, "%s%u", spare++ == 0 ? "spare contacts " : ", ", i);
    if (spare > 0)
        fputc('\n', out);
}

enum status check(struct request *request, FILE *out)
{
    const struct file *table = load_operand(request, 0);
    pilgodur_checked checked = checked_table(table);
    struct netlist netlist = netlist_of(table, false, room);
    fprintf(out, "contacts %" PRIu32 "\noutputs %" PRIu32 "\ngates %" PRIu32 "\ndepth %" PRIu32 "\n", checked.contacts,
            checked.outputs, checked.gates, checked.depth);
    show_spare_contacts(out, &netlist);
    return ANSWERED;
}

/* The notes stand last, so that every byte of the netlist is where it is without them. */
enum status build(struct request *request, FILE *out)
{
    struct netlist netlist = netlist_of(load_operand(request, 0), request->lamp, room);
    uint8_t *file = malloc(netlist.length + request->notes_length);
    if (file == NULL)
        fail(FAILED, "out of memory");
    memcpy(file, netlist.bytes, netlist.length);
    if (request->notes_length > 0)
        memcpy(file + netlist.length, request->notes, request->notes_length);
    show_file(out, file, netlist.length + request->notes_length, request->output == NULL);
    free(file);
    return ANSWERED;
}

enum status read_off(struct request *request, FILE *out)
{
    struct input input = read_input(request->operand[1]);
    const struct file *table = load_operand(request, 0);
    pilgodur_checked checked = checked_table(table);
    uint32_t number = input_number(&input, checked.contacts, table->name);
    pilgodur_reading reading = pilgodur_read_off(table->at, table->length, number);
    if (reading.refusal != 0)
        refuse(reading.refusal, "%s at input %s", table->name, input.text);
    show_input(out, number, checked.contacts);
    fprintf(out, "word %" PRIu32 "\n", reading.word);
    for (uint32_t j = 0; j < checked.outputs; j++)
        fprintf(out, "output %" PRIu32 ": %s\n", j, reading.word >> j & 1 ? "yes" : "no");
    return ANSWERED;
}

/* Where a hold shows, if it does. With the line values of a hidden pin comes the input at which they are. */
static void show_probed(FILE *out, const pilgodur_probed *probed, unsigned contacts, bool lines)
{
    bool hidden = probed->way == PILGODUR_WAY_HIDDEN;
    fputs(hidden ? "is hidden: no input shows it\n" : "shows at ", out);
    if (!hidden) {
        show_input(out, probed->input, contacts);
        show_pair(out, probed->output, probed->way, probed->way);
    } else if (lines) {
        fputs("the lines at ", out);
        show_input(out, probed->input, contacts);
    }
}

enum status probe(struct request *request, FILE *out)
{
    uint8_t hold[3];
    read_hold(request->operand[1], hold);
    const struct file *table = load_operand(request, 0);
    pilgodur_probed probed = pilgodur_probe(table->at, table->length, hold, sizeof hold, room, sizeof room);
    if (probed.refusal == PILGODUR_REFUSAL_HOLDS || probed.refusal == PILGODUR_REFUSAL_UNREAD)
        refuse_hold(probed.refusal, table->name, request->operand[1], hold);
    if (probed.refusal != 0)
        refuse(probed.refusal, "%s", table->name);
    pilgodur_checked checked = checked_table(table);
    fprintf(out, "%s %s held at %u ", held_site(hold) == 0 ? "line" : "pin", held_name(hold).text, held_value(hold));
    show_probed(out, &probed, checked.contacts, request->lines);
    if (request->lines) {
        uint32_t netlist = 10 + 5 * checked.gates + 4 * checked.outputs;
        show_lines(out, room + netlist, 0, 2 + 2 * checked.contacts + checked.gates, hold, sizeof hold);
    }
    return ANSWERED;
}
