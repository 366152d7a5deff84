#include "drive.h"

#include "show.h"

void name_rails(const struct request *request, struct rails *rails)
{
    *rails = (struct rails){.by_input = looks_like_input(request->operand[1])};
    if (rails->by_input)
        rails->input = read_input(request->operand[1]);
}

static void rails_of_input(const struct netlist *netlist, struct rails *rails, FILE *out)
{
    uint32_t number = input_number(&rails->input, netlist->contacts, netlist->name);
    set_rails(number, netlist->contacts, rails->code);
    rails->at = rails->code;
    rails->length = 2 * (size_t)netlist->contacts;
    show_input(out, number, netlist->contacts);
}

static void rails_of_file(struct request *request, struct rails *rails)
{
    struct file *file = &request->file[request->files++];
    load_rails(request->operand[1], file);
    rails->at = file->at;
    rails->length = file->length;
    rails->name = file->name;
}

void find_rails(struct request *request, const struct netlist *netlist, struct rails *rails, FILE *out)
{
    if (rails->by_input)
        rails_of_input(netlist, rails, out);
    else
        rails_of_file(request, rails);
}

size_t refused_hold(const struct netlist *netlist, const struct rails *rails, const struct holds *holds)
{
    static uint8_t lines[PILGODUR_LINES_MAX];
    uint8_t pairs[PILGODUR_PAIRS_MAX];
    size_t count = 1;
    while (count < holds->count && pilgodur_run(netlist->bytes, netlist->length, rails->at, rails->length, holds->at, 3 * count,
                                                lines, sizeof lines, pairs, sizeof pairs) == 0)
        count++;
    return count - 1;
}
