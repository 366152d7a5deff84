/* The commands that show or run a netlist. */
#include <stdlib.h>

#include "drive.h"
#include "show.h"

static uint8_t room[PILGODUR_FILE_MAX];

/* Prints the gate sheet, byte for byte. */
enum status list(struct request *request, FILE *out)
{
    static uint8_t text[PILGODUR_SHEET_MAX];
    struct netlist netlist = netlist_in_or_of(load_operand(request, 0), request->lamp, room);
    pilgodur_built sheet = pilgodur_sheet(netlist.bytes, netlist.length, text, sizeof text);
    if (sheet.refusal != 0)
        refuse(sheet.refusal, "%s", netlist.name);
    fwrite(text, 1, sheet.length, out);
    return ANSWERED;
}

static void run_and_show(const struct request *request, const struct netlist *netlist, const struct rails *rails,
                         const struct holds *holds, FILE *out)
{
    static uint8_t lines[PILGODUR_LINES_MAX];
    uint8_t pairs[PILGODUR_PAIRS_MAX];
    uint32_t refusal = pilgodur_run(netlist->bytes, netlist->length, rails->at, rails->length, holds->at, 3 * holds->count, lines,
                                    sizeof lines, pairs, sizeof pairs);
    if (refusal == PILGODUR_REFUSAL_HOLDS) {
        size_t i = refused_hold(netlist, rails, holds);
        refuse_hold(refusal, netlist->name, holds->text[i], holds->at + 3 * i);
    }
    if (refusal != 0)
        refuse(refusal, "%s with rails %s", netlist->name, rails->name);
    show_outputs(out, netlist, pairs);
    if (request->lines)
        show_lines(out, lines, 0, lines_of(netlist), holds->at, 3 * holds->count);
}

/* The operands from the third on. */
static struct holds read_holds(const struct request *request)
{
    struct holds holds = {request->operand + 2, NULL, (size_t)request->operands - 2};
    holds.at = malloc(3 * holds.count + 1);
    if (holds.at == NULL)
        fail(FAILED, "out of memory");
    for (size_t i = 0; i < holds.count; i++)
        read_hold(holds.text[i], holds.at + 3 * i);
    return holds;
}

/* The command line is read to its end first, then the netlist's questions are asked, then those about rails and holds. */
enum status run(struct request *request, FILE *out)
{
    struct rails rails;
    name_rails(request, &rails);
    struct holds holds = read_holds(request);
    struct netlist netlist = netlist_in(load_operand(request, 0));
    find_rails(request, &netlist, &rails, out);
    run_and_show(request, &netlist, &rails, &holds, out);
    free(holds.at);
    return ANSWERED;
}
