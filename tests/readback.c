/* Reads an export back and runs it against the library.
 *
 *     readback blif|verilog|dot EXPORT NETLIST
 *
 * Every net must be driven as the netlist says, every gate under its line's number with its sources in their sequence, and at code
 * inputs and other rails every net must have the value that the library's run gives its line, or its output or lamp. There must be
 * a lamp exactly if the netlist has one. Exit status 0: so it is. */
#include <stdio.h>

#include "nets.h"
#include "tables.h"

enum { TEXT_MAX = 1 << 21, TRIALS = 300 };

static char text[TEXT_MAX];
static uint8_t netlist[PILGODUR_FILE_MAX + 1];
static size_t netlist_length;

static unsigned two_bytes(const uint8_t *at)
{
    return 256u * at[0] + at[1];
}

static void require(bool holds, const char *what, unsigned number)
{
    if (!holds)
        give_up("%s %u is not as in the netlist", what, number);
}

/* One source twice may be written as a copy, which is the same. What is read must be driven, also if its value would be right. */
static void check_gate(unsigned line, const uint8_t *gate)
{
    const struct net *net = &nets[line];
    unsigned first = two_bytes(gate + 1), second = two_bytes(gate + 3);
    bool copied = net->form == COPY && first == second && net->source[0] == first;
    bool same = net->form == (gate[0] == 0 ? AND : OR) && net->sources == 2 && net->source[0] == first && net->source[1] == second;
    require(copied || same, "line", line);
    require(nets[first].form != NOTHING && nets[second].form != NOTHING, "a source of line", line);
}

/* Where the netlist has the line of a net of an output or of the lamp; NULL if it has no such output, or no lamp. */
static const uint8_t *line_of_net(unsigned net)
{
    const uint8_t *outputs = netlist + 7 + two_bytes(netlist + 5);
    unsigned length = two_bytes(outputs + 1), at = 2 * (net - OUTPUT_NETS);
    const uint8_t *lamp = outputs + 3 + length;
    if (net >= LAMP_NETS)
        return lamp == netlist + netlist_length ? NULL : lamp + 3 + 2 * (net - LAMP_NETS);
    return at < length ? outputs + 3 + at : NULL;
}

static void check_pair_net(unsigned number)
{
    const struct net *net = &nets[number];
    const uint8_t *line = line_of_net(number);
    bool right = line == NULL ? net->form == NOTHING && !net->declared
                              : net->declared && net->form == COPY && net->source[0] == two_bytes(line) &&
                                    nets[net->source[0]].form != NOTHING;
    require(right, number < LAMP_NETS ? "output" : "lamp", (number - OUTPUT_NETS) / 2);
}

static void check_structure(unsigned contacts, unsigned gates)
{
    unsigned first = 2 + 2 * contacts;
    for (unsigned line = 2; line < first; line++)
        require(nets[line].form == PORT, "rail", line);
    for (unsigned g = 0; g < gates; g++)
        check_gate(first + g, netlist + 7 + 5 * g);
    for (unsigned line = first + gates; line < OUTPUT_NETS; line++)
        require(nets[line].form == NOTHING && !nets[line].declared, "line", line);
    for (unsigned net = OUTPUT_NETS; net < NETS; net++)
        check_pair_net(net);
}

static unsigned value_of(const struct net *net, const uint8_t *values)
{
    unsigned a = values[net->source[0]], b = values[net->source[1]];
    return net->form == AND ? a & b : net->form == OR ? a | b : net->form == COPY ? a : net->form == ONE;
}

static void check_run(unsigned contacts, unsigned lines, const uint8_t *rails)
{
    static uint8_t values[NETS], expected[PILGODUR_LINES_MAX];
    uint8_t pairs[PILGODUR_PAIRS_MAX];
    if (pilgodur_run(netlist, netlist_length, rails, 2 * (size_t)contacts, rails, 0, expected, sizeof expected, pairs,
                     sizeof pairs) != 0)
        give_up("the library refuses the netlist");
    for (unsigned line = 0; line < lines; line++) {
        values[line] = (uint8_t)(nets[line].form == PORT ? rails[line - 2] : value_of(&nets[line], values));
        require(nets[line].form == NOTHING || values[line] == expected[line], "the value of line", line);
    }
    for (unsigned net = OUTPUT_NETS, k = 0; net < NETS; net++)
        if (line_of_net(net) != NULL)
            require(value_of(&nets[net], values) == pairs[k++], "the value of output", (net - OUTPUT_NETS) / 2);
}

static void check_runs(unsigned contacts, unsigned lines)
{
    struct dice dice = {1};
    for (unsigned trial = 0; trial < TRIALS; trial++) {
        uint8_t rails[24];
        uint32_t input = trial < TRIALS / 3 ? trial : roll(&dice, 4096);
        for (unsigned i = 0; i < contacts; i++) {
            rails[2 * i] = input >> i & 1;
            rails[2 * i + 1] = !rails[2 * i];
            if (trial >= 2 * TRIALS / 3)
                rails[2 * i + 1] = (uint8_t)roll(&dice, 2);
        }
        check_run(contacts, lines, rails);
    }
}

/* ---- The program. ---- */

static size_t read_file(const char *path, void *bytes, size_t room)
{
    FILE *file = fopen(path, "rb");
    if (file == NULL)
        give_up("%s cannot be read", path);
    size_t length = fread(bytes, 1, room, file);
    fclose(file);
    if (length == room)
        give_up("%s is too long", path);
    return length;
}

int main(int argc, char **argv)
{
    if (argc != 4)
        give_up("usage: readback blif|verilog|dot EXPORT NETLIST");
    text[read_file(argv[2], text, sizeof text)] = '\0';
    netlist_length = read_file(argv[3], netlist, sizeof netlist);
    if (is(argv[1], "blif"))
        read_blif(text);
    else if (is(argv[1], "verilog"))
        read_verilog(text);
    else
        read_dot(text);
    unsigned contacts = netlist[3];
    unsigned gates = two_bytes(netlist + 5) / 5;
    check_structure(contacts, gates);
    check_runs(contacts, 2 + 2 * contacts + gates);
    return 0;
}
