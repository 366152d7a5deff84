/* A netlist for the tools of the field. Every line keeps its number: line 8 is the net l8. */
#include "commands.h"
#include "netlist.h"

static const char *const rail_names[] = {"true", "false"};

/* The line of one rail of a pair. */
static unsigned pair_line(const struct netlist *netlist, unsigned pair, unsigned rail)
{
    struct pair lines = pair_at(netlist, pair);
    return rail == 0 ? lines.yes : lines.no;
}

/* What a pair is called: output0 and so on, or lamp; `between` stands before the number. */
struct pair_name {
    char text[24];
};

static struct pair_name name_of(const struct netlist *netlist, unsigned pair, const char *between)
{
    struct pair_name name = {"lamp"};
    if (!is_lamp(netlist, pair))
        snprintf(name.text, sizeof name.text, "output%s%u", between, pair);
    return name;
}

static void write_title(FILE *out, const char *mark, const struct netlist *netlist)
{
    fprintf(out, "%s Pilgodur " PILGODUR_VERSION ": a permit board, contacts %u, gates %u, outputs %u%s.\n", mark,
            netlist->contacts, netlist->gates, netlist->outputs, netlist->lamp != NULL ? ", with lamp" : "");
    fprintf(out, "%s Line 8 is the net l8. Lines 0 and 1 are the constants.\n", mark);
}

/* ---- BLIF. ---- */

static void blif_ports(FILE *out, const struct netlist *netlist)
{
    for (unsigned line = 2; line < first_gate(netlist); line++)
        fprintf(out, "# l%u: contact %u, %s rail\n", line, line / 2 - 1, rail_names[line % 2]);
    fprintf(out, ".model permit_board\n.inputs");
    for (unsigned line = 2; line < first_gate(netlist); line++)
        fprintf(out, " l%u", line);
    fprintf(out, "\n.outputs");
    for (unsigned j = 0; j < pairs_of(netlist); j++)
        fprintf(out, " %s_true %s_false", name_of(netlist, j, "").text, name_of(netlist, j, "").text);
    fprintf(out, "\n");
}

/* A gate that has one source twice is its source: a cover may not name an input twice. */
static void blif_gate(FILE *out, const struct gate *gate, unsigned line)
{
    if (gate->first == gate->second)
        fprintf(out, ".names l%u l%u\n1 1\n", gate->first, line);
    else
        fprintf(out, ".names l%u l%u l%u\n%s\n", gate->first, gate->second, line, is_or(gate) ? "1- 1\n-1 1" : "11 1");
}

static void write_blif(FILE *out, const struct netlist *netlist)
{
    write_title(out, "#", netlist);
    blif_ports(out, netlist);
    if (is_read(netlist, 0))
        fprintf(out, ".names l0\n");
    if (is_read(netlist, 1))
        fprintf(out, ".names l1\n1\n");
    for (unsigned g = 0; g < netlist->gates; g++) {
        struct gate gate = gate_at(netlist, g);
        blif_gate(out, &gate, first_gate(netlist) + g);
    }
    for (unsigned j = 0; j < pairs_of(netlist); j++)
        for (unsigned rail = 0; rail < 2; rail++)
            fprintf(out, ".names l%u %s_%s\n1 1\n", pair_line(netlist, j, rail), name_of(netlist, j, "").text, rail_names[rail]);
    fprintf(out, ".end\n");
}

/* ---- Verilog. ---- */

static void verilog_ports(FILE *out, const struct netlist *netlist)
{
    fprintf(out, "module permit_board (\n");
    for (unsigned line = 2; line < first_gate(netlist); line++)
        fprintf(out, "  input wire l%u, // contact %u, %s rail\n", line, line / 2 - 1, rail_names[line % 2]);
    for (unsigned j = 0; j < pairs_of(netlist); j++) {
        struct pair_name name = name_of(netlist, j, "");
        fprintf(out, "  output wire %s_true,\n  output wire %s_false%s\n", name.text, name.text, j + 1 < pairs_of(netlist) ? "," : "");
    }
    fprintf(out, ");\n");
}

static void write_verilog(FILE *out, const struct netlist *netlist)
{
    write_title(out, "//", netlist);
    verilog_ports(out, netlist);
    for (unsigned line = 0; line < 2; line++)
        if (is_read(netlist, line))
            fprintf(out, "  wire l%u;\n  assign l%u = 1'b%u;\n", line, line, line);
    for (unsigned g = 0; g < netlist->gates; g++)
        fprintf(out, "  wire l%u;\n", first_gate(netlist) + g);
    for (unsigned g = 0; g < netlist->gates; g++) {
        struct gate gate = gate_at(netlist, g);
        unsigned line = first_gate(netlist) + g;
        fprintf(out, "  %s g%u (l%u, l%u, l%u);\n", is_or(&gate) ? "or" : "and", line, line, gate.first, gate.second);
    }
    for (unsigned j = 0; j < pairs_of(netlist); j++)
        for (unsigned rail = 0; rail < 2; rail++)
            fprintf(out, "  assign %s_%s = l%u;\n", name_of(netlist, j, "").text, rail_names[rail], pair_line(netlist, j, rail));
    fprintf(out, "endmodule\n");
}

/* ---- DOT. ---- */

static void dot_gates(FILE *out, const struct netlist *netlist)
{
    for (unsigned g = 0; g < netlist->gates; g++) {
        struct gate gate = gate_at(netlist, g);
        unsigned line = first_gate(netlist) + g;
        fprintf(out, "  l%u [shape=%s, label=\"%u %s\"];\n", line, is_or(&gate) ? "ellipse" : "box", line, gate.kind);
        fprintf(out, "  l%u -> l%u;\n  l%u -> l%u;\n", gate.first, line, gate.second, line);
    }
}

static void dot_pairs(FILE *out, const struct netlist *netlist)
{
    for (unsigned j = 0; j < pairs_of(netlist); j++)
        for (unsigned rail = 0; rail < 2; rail++) {
            struct pair_name name = name_of(netlist, j, ""), label = name_of(netlist, j, " ");
            fprintf(out, "  %s_%s [shape=plaintext, label=\"%s %s\"];\n", name.text, rail_names[rail], label.text, rail_names[rail]);
            fprintf(out, "  l%u -> %s_%s;\n", pair_line(netlist, j, rail), name.text, rail_names[rail]);
        }
}

static void write_dot(FILE *out, const struct netlist *netlist)
{
    write_title(out, "//", netlist);
    fprintf(out, "digraph permit_board {\n  rankdir=LR;\n");
    for (unsigned line = 0; line < 2; line++)
        if (is_read(netlist, line))
            fprintf(out, "  l%u [shape=plaintext, label=\"%u constant\"];\n", line, line);
    for (unsigned line = 2; line < first_gate(netlist); line++)
        fprintf(out, "  l%u [shape=plaintext, label=\"%u contact %u %s\"];\n", line, line, line / 2 - 1, rail_names[line % 2]);
    dot_gates(out, netlist);
    dot_pairs(out, netlist);
    fprintf(out, "}\n");
}

enum status export_netlist(struct request *request, FILE *out)
{
    static uint8_t room[PILGODUR_FILE_MAX];
    if (request->format == NO_FORMAT)
        fail(MISUSED, "export: choose --blif, --verilog or --dot; see pilgodur --help");
    struct netlist netlist = netlist_in_or_of(load_operand(request, 0), request->lamp, room);
    if (request->format == BLIF)
        write_blif(out, &netlist);
    else if (request->format == VERILOG)
        write_verilog(out, &netlist);
    else
        write_dot(out, &netlist);
    return ANSWERED;
}
