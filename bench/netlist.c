#include "netlist.h"

#include "report.h"

enum { CONTACTS = 1, GATES = 4, OUTPUTS = 5, LAMP = 6, MOST_CONTACTS = 12 }; /* tags, and a limit */

unsigned first_gate(const struct netlist *netlist)
{
    return 2 + 2 * netlist->contacts;
}

unsigned lines_of(const struct netlist *netlist)
{
    return first_gate(netlist) + netlist->gates;
}

unsigned pairs_of(const struct netlist *netlist)
{
    return netlist->outputs + (netlist->lamp != NULL);
}

bool is_lamp(const struct netlist *netlist, unsigned pair)
{
    return pair == netlist->outputs;
}

struct gate gate_at(const struct netlist *netlist, unsigned gate)
{
    const uint8_t *at = netlist->gate + 5 * gate;
    return (struct gate){at[0] == 0 ? "AND" : "OR", two_bytes(at + 1), two_bytes(at + 3)};
}

struct pair pair_at(const struct netlist *netlist, unsigned pair)
{
    const uint8_t *at = is_lamp(netlist, pair) ? netlist->lamp : netlist->output + 4 * pair;
    return (struct pair){two_bytes(at), two_bytes(at + 2)};
}

bool is_or(const struct gate *gate)
{
    return gate->kind[0] == 'O';
}

bool is_read(const struct netlist *netlist, unsigned line)
{
    for (unsigned g = 0; g < netlist->gates; g++) {
        struct gate gate = gate_at(netlist, g);
        if (gate.first == line || gate.second == line)
            return true;
    }
    for (unsigned j = 0; j < pairs_of(netlist); j++) {
        struct pair pair = pair_at(netlist, j);
        if (pair.yes == line || pair.no == line)
            return true;
    }
    return false;
}

/* The view of a file that is known to be a netlist; its notes have other tags. */
static struct netlist view(const char *name, const uint8_t *bytes, size_t length)
{
    struct netlist netlist = {.name = name, .bytes = bytes, .length = length};
    struct field field;
    for (size_t at = 0; field_at(bytes, length, at, &field); at += HEAD + field.length) {
        if (field.tag == CONTACTS) {
            netlist.contacts = field.value[0];
        } else if (field.tag == GATES) {
            netlist.gates = (unsigned)field.length / 5;
            netlist.gate = field.value;
        } else if (field.tag == OUTPUTS) {
            netlist.outputs = (unsigned)field.length / 4;
            netlist.output = field.value;
        } else if (field.tag == LAMP) {
            netlist.lamp = field.value;
        }
    }
    return netlist;
}

/* The count of contacts that the first field gives, notes left out, or 0. */
static unsigned contacts_in(const struct file *file)
{
    struct field field;
    bool found = field_at(file->at, file->length, past_notes(file->at, file->length, 0), &field);
    return found && field.length == 1 && field.value[0] <= MOST_CONTACTS ? field.value[0] : 0;
}

/* Questions 11 and 12 are asked by a run with all rails at 0. */
struct netlist netlist_in(const struct file *file)
{
    static const uint8_t rails[2 * MOST_CONTACTS];
    static uint8_t lines[PILGODUR_LINES_MAX];
    static uint8_t pairs[PILGODUR_PAIRS_MAX];
    size_t count = 2 * (size_t)contacts_in(file);
    uint32_t refusal = pilgodur_run(file->at, file->length, rails, count, rails, 0, lines, sizeof lines, pairs, sizeof pairs);
    if (refusal != 0)
        refuse(refusal, "%s", file->name);
    return view(file->name, file->at, file->length);
}

struct netlist netlist_of(const struct file *table, bool lamp, uint8_t room[PILGODUR_FILE_MAX])
{
    pilgodur_built built = (lamp ? pilgodur_build_with_lamp : pilgodur_build)(table->at, table->length, room, PILGODUR_FILE_MAX);
    if (built.refusal != 0)
        refuse(built.refusal, "%s", table->name);
    return view(table->name, room, built.length);
}

/* The tag of the second field, notes left out, be it cut short; 0 if there is none. */
static unsigned second_tag(const struct file *file)
{
    struct field first;
    size_t at = past_notes(file->at, file->length, 0);
    if (!field_at(file->at, file->length, at, &first))
        return 0;
    at = past_notes(file->at, file->length, at + HEAD + first.length);
    return at < file->length ? file->at[at] : 0;
}

struct netlist netlist_in_or_of(const struct file *file, bool lamp, uint8_t room[PILGODUR_FILE_MAX])
{
    return second_tag(file) == GATES ? netlist_in(file) : netlist_of(file, lamp, room);
}
