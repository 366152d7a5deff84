/* The reader of Verilog exports. */
#include <stdio.h>

#include "nets.h"

static void declare(const char *name)
{
    if (nets[net_of(name)].declared)
        give_up("%s is declared twice", name);
    nets[net_of(name)].declared = true;
}

static void verilog_ports(char **at)
{
    const char *word;
    next_word(at, "//", false);
    expect(at, "//", "(");
    do {
        const char *direction = next_word(at, "//", false);
        expect(at, "//", "wire");
        const char *name = next_word(at, "//", false);
        declare(name);
        if (is(direction, "input"))
            drive(name, PORT, 0, NULL, NULL);
        else if (!is(direction, "output"))
            give_up("%s is no direction", direction);
        word = next_word(at, "//", false);
    } while (is(word, ","));
    if (!is(word, ")"))
        give_up("the ports do not end");
    expect(at, "//", ";");
}

static void verilog_assign(char **at)
{
    const char *name = next_word(at, "//", false);
    expect(at, "//", "=");
    const char *value = next_word(at, "//", false);
    if (is(value, "1'b0") || is(value, "1'b1"))
        drive(name, is(value, "1'b0") ? ZERO : ONE, 0, NULL, NULL);
    else
        drive(name, COPY, 1, value, NULL);
    expect(at, "//", ";");
}

static void verilog_gate(char **at, enum form form)
{
    char name[3][64];
    next_word(at, "//", false);
    expect(at, "//", "(");
    for (unsigned i = 0; i < 3; i++) {
        const char *word = next_word(at, "//", false);
        snprintf(name[i], sizeof name[i], "%s", word == NULL ? "" : word);
        if (!nets[net_of(name[i])].declared)
            give_up("%s is not declared", name[i]);
        expect(at, "//", i < 2 ? "," : ")");
    }
    expect(at, "//", ";");
    drive(name[0], form, 2, name[1], name[2]);
}

void read_verilog(char *at)
{
    const char *word;
    expect(&at, "//", "module");
    verilog_ports(&at);
    while (!is(word = next_word(&at, "//", false), "endmodule")) {
        if (is(word, "wire")) {
            declare(next_word(&at, "//", false));
            expect(&at, "//", ";");
        } else if (is(word, "assign")) {
            verilog_assign(&at);
        } else if (is(word, "and") || is(word, "or")) {
            verilog_gate(&at, is(word, "and") ? AND : OR);
        } else {
            give_up("%s is unknown", word == NULL ? "the end" : word);
        }
    }
    if (next_word(&at, "//", false) != NULL)
        give_up("there is more after endmodule");
}
