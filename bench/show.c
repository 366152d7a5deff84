#include "show.h"

#include <inttypes.h>

#include "operands.h"

void show_file(FILE *out, const uint8_t *bytes, size_t length, bool as_text)
{
    if (!as_text) {
        fwrite(bytes, 1, length, out);
        return;
    }
    fputs("hex:", out);
    for (size_t i = 0; i < length; i++)
        fprintf(out, "%02x", bytes[i]);
    fputc('\n', out);
}

const char *pair_meaning(unsigned yes, unsigned no)
{
    static const char *const meaning[] = {"no code, both low", "no", "yes", "no code, both high"};
    return meaning[2 * yes + no];
}

const char *lamp_meaning(unsigned yes, unsigned no)
{
    return yes != no ? "code" : pair_meaning(yes, no);
}

void show_pair(FILE *out, unsigned output, unsigned yes, unsigned no)
{
    fprintf(out, "output %u: %u%u %s\n", output, yes, no, pair_meaning(yes, no));
}

void show_lamp(FILE *out, unsigned yes, unsigned no)
{
    fprintf(out, "lamp: %u%u %s\n", yes, no, lamp_meaning(yes, no));
}

void show_input(FILE *out, uint32_t input, unsigned contacts)
{
    fprintf(out, "input %" PRIu32 ", %s\n", input, contacts_at(input, contacts).text);
}

void show_outputs(FILE *out, const struct netlist *netlist, const uint8_t *pairs)
{
    for (unsigned j = 0; j < netlist->outputs; j++)
        show_pair(out, j, pairs[2 * j], pairs[2 * j + 1]);
    if (netlist->lamp != NULL)
        show_lamp(out, pairs[2 * netlist->outputs], pairs[2 * netlist->outputs + 1]);
}

/* The place in a hold list, from one place to another, of the first hold that is of a line from `line` on or of its gate's pin. */
static size_t holds_from(const uint8_t *holds, size_t at, size_t end, unsigned line)
{
    while (at < end && two_bytes(holds + at) < line)
        at += 3;
    return at;
}

/* Lines are held by the first of the holds, pins by the others, both rising. */
void show_lines(FILE *out, const uint8_t *values, unsigned from, unsigned to, const uint8_t *holds, size_t holds_length)
{
    size_t first_pin = 0;
    while (first_pin < holds_length && held_site(holds + first_pin) == 0)
        first_pin += 3;
    size_t h = holds_from(holds, 0, first_pin, from), p = holds_from(holds, first_pin, holds_length, from);
    fprintf(out, "  line  value\n");
    for (unsigned line = from; line < to; line++) {
        bool held = h < first_pin && two_bytes(holds + h) == line;
        fprintf(out, "%6u  %5u%s", line, values[line], held ? "  held" : "");
        h += held ? 3 : 0;
        for (; p < holds_length && two_bytes(holds + p) == line; p += 3)
            fprintf(out, "  %s=%u held", held_name(holds + p).text, held_value(holds + p));
        fputc('\n', out);
    }
}
