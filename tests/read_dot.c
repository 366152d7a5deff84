/* The reader of DOT exports. */
#include <stdio.h>
#include <string.h>

#include "nets.h"

/* A node's statement: its label says what it is. */
static void dot_node(const char *name, const char *rest)
{
    struct net *net = &nets[net_of(name)];
    unsigned number, contact;
    char word[16], rail[8];
    const char *label = strstr(rest, "label=\"");
    if (label == NULL || net->declared)
        give_up("%s has no label, or two", name);
    net->declared = true;
    if (sscanf(label, "label=\"output %u %7[a-z]\"", &number, rail) == 2) {
        net->form = COPY;
        number = OUTPUT_NETS + 2 * number + is(rail, "false");
    } else if (sscanf(label, "label=\"lamp %7[a-z]\"", rail) == 1) {
        net->form = COPY;
        number = LAMP_NETS + is(rail, "false");
    } else if (sscanf(label, "label=\"%u contact %u %7[a-z]\"", &number, &contact, rail) == 3) {
        net->form = number == 2 + 2 * contact + is(rail, "false") ? PORT : NOTHING;
    } else if (sscanf(label, "label=\"%u %15[a-zA-Z]\"", &number, word) == 2) {
        net->form = is(word, "AND") ? AND : is(word, "OR") ? OR : is(word, "constant") ? (number == 0 ? ZERO : ONE) : NOTHING;
    }
    if (net_of(name) != number || net->form == NOTHING)
        give_up("%s has the label %s", name, label);
}

static void dot_edge(const char *from, const char *to)
{
    struct net *net = &nets[net_of(to)];
    if (net->sources == 2)
        give_up("%s has three sources", to);
    net->source[net->sources++] = net_of(from);
}

void read_dot(char *at)
{
    bool begun = false, ended = false;
    for (char *line = strtok(at, "\n"); line != NULL; line = strtok(NULL, "\n")) {
        char from[64], to[64];
        if (strncmp(line, "//", 2) == 0 || strcmp(line, "  rankdir=LR;") == 0)
            continue;
        if (!begun && strcmp(line, "digraph permit_board {") == 0)
            begun = true;
        else if (strcmp(line, "}") == 0)
            ended = true;
        else if (begun && !ended && sscanf(line, " %63[a-z0-9_] -> %63[a-z0-9_];", from, to) == 2)
            dot_edge(from, to);
        else if (begun && !ended && sscanf(line, " %63[a-z0-9_] [", from) == 1)
            dot_node(from, line);
        else
            give_up("%s is unknown", line);
    }
    if (!ended)
        give_up("there is no end");
}
