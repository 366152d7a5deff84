#include "options.h"

#include <getopt.h>
#include <limits.h>
#include <stdlib.h>
#include <string.h>

#include "../include/pilgodur.h"
#include "fields.h"
#include "save.h"

/* What stands for each option: its letter, or a number above all letters. */
enum option_name { OUTPUT = 'o', HELP = 'h', VERSION = 'V', OPERAND = 1, LINES = 256, ALL, LAMP, PINS, NOTE, AS_BLIF, AS_VERILOG, AS_DOT };

/* The options of one command. */
enum { TAKES_OUTPUT = 1, TAKES_LINES = 2, TAKES_ALL = 4, TAKES_FORMAT = 8, TAKES_LAMP = 16, TAKES_NOTE = 32, TAKES_PINS = 64 };

static const struct {
    const char *name;
    command *perform;
    int least, most; /* operands */
    unsigned takes;
} commands[] = {
    {"draw", draw, 1, 1, TAKES_OUTPUT},
    {"rules", rules, 1, 1, TAKES_OUTPUT},
    {"check", check, 1, 1, 0},
    {"build", build, 1, 1, TAKES_OUTPUT | TAKES_LAMP | TAKES_NOTE},
    {"list", list, 1, 1, TAKES_LAMP},
    {"compare", compare, 2, 2, TAKES_ALL | TAKES_LAMP},
    {"read-off", read_off, 2, 2, 0},
    {"run", run, 2, INT_MAX, TAKES_LINES},
    {"step", step, 2, 3, 0},
    {"probe", probe, 2, 2, TAKES_LINES},
    {"dictionary", dictionary, 1, 1, TAKES_OUTPUT | TAKES_PINS},
    {"export", export_netlist, 1, 1, TAKES_OUTPUT | TAKES_FORMAT | TAKES_LAMP},
    {"notes", notes, 1, 1, 0},
};

static const struct option options[] = {
    {"output", required_argument, NULL, OUTPUT}, {"lines", no_argument, NULL, LINES},
    {"all", no_argument, NULL, ALL},             {"lamp", no_argument, NULL, LAMP},
    {"blif", no_argument, NULL, AS_BLIF},        {"verilog", no_argument, NULL, AS_VERILOG},
    {"dot", no_argument, NULL, AS_DOT},          {"note", required_argument, NULL, NOTE},
    {"pins", no_argument, NULL, PINS},           {"help", no_argument, NULL, HELP},
    {"version", no_argument, NULL, VERSION},     {NULL, 0, NULL, 0},
};

static const char help[] =
    "usage: pilgodur COMMAND OPERAND... [OPTION...]\n"
    "\n"
    "  draw DRAWING [-o TABLE]         make the table of a drawing; without -o show it as hex: text\n"
    "  rules RULES [-o TABLE]          make the table of a rule sheet; without -o show it as hex: text\n"
    "  check TABLE                     ask the table's questions; show contacts, outputs, gates, depth and spare contacts\n"
    "  build TABLE [--lamp] [--note TEXT]... [-o FILE]\n"
    "                                  build the netlist; without -o show it as hex: text\n"
    "  list TABLE|NETLIST [--lamp]     print the gate sheet: a row for each gate, then one for each output, then one for the lamp\n"
    "  compare A B [--all] [--lamp]    lay the gate lists of two tables or netlists side by side: show how many gates differ, the\n"
    "                                  first of them (all of them with --all), every output that differs, and the lamp if it does\n"
    "  read-off TABLE INPUT            show every permit that the table gives at an input\n"
    "  run NETLIST INPUT|RAILS [HOLD...] [--lines]\n"
    "                                  run a netlist with lines and pins held; show the output pairs, and the lamp if there is one\n"
    "  step NETLIST INPUT|RAILS [CALLS]\n"
    "                                  step through a run, with lines and pins held in some calls; show the lines that each call\n"
    "                                  works out, which holds have no effect, and the output pairs in the end\n"
    "  probe TABLE HOLD [--lines]      find the smallest input at which a held line or pin shows, or say that the pin is hidden\n"
    "  dictionary TABLE [--pins] [-o FILE]\n"
    "                                  probe every line at both values; write the answers as CSV; unread: nothing reads the line;\n"
    "                                  hidden: no input shows the pin\n"
    "  export TABLE|NETLIST --blif|--verilog|--dot [--lamp] [-o FILE]\n"
    "                                  write the netlist for other tools, line 8 as the net l8\n"
    "  notes TABLE|NETLIST|DRAWING|RULES\n"
    "                                  show the notes in a file; every other command passes over them\n"
    "\n"
    "DRAWING, RULES, TABLE, NETLIST, RAILS and CALLS are files: a path, @PATH, - for standard input, or hex: and digits for the\n"
    "bytes themselves. What draw, rules and build show is read back: a file or standard input may hold such hex: text, too.\n"
    "DRAWING may also be text: the line contacts N, the line outputs NODE..., then for each node a line NODE CONTACT ZERO ONE: its\n"
    "name, the contact at which it looks, and the nodes to which it leads with that contact open and closed. A name has letters,\n"
    "digits, _, - and .; 0 and 1 are the constants; # starts a comment.\n"
    "RULES may also be text: for each rule a line CONTACTS : PERMITS, with a sign for each contact, contact 0 first, 1 closed, 0\n"
    "open, - either; and one for each permit, output 0 first, 1 yes, 0 no. Blanks may stand anywhere; # starts a comment. Every\n"
    "input must fit just one rule.\n"
    "INPUT is a decimal number in which contact i has the weight 2^i, or contacts: and a sign for each contact, contact 0 first,\n"
    "1 closed and 0 open: contacts:110 is 3. RAILS has a byte 0 or 1 for each rail in line order; a path that reads like an input\n"
    "is written @PATH there. HOLD is LINE=VALUE, as in 10=0, or LINE.1=VALUE or LINE.2=VALUE for the first or second pin of that\n"
    "line's gate, as in 8.1=0: the gate reads VALUE there in place of its first or second source. Of several holds those of lines\n"
    "stand first, rising, then those of pins by rising gate, the first before the second.\n"
    "CALLS is text, from standard input if no file is named; a terminal is asked for it. Each line COUNT [HOLD...] is a call: it\n"
    "works out at most COUNT lines, or all that are left if COUNT is all, from where the last one ended, the first from line 2,\n"
    "rails like gates. A hold counts in the call that works out its line, or its pin's gate. # starts a comment.\n"
    "\n"
    "  -o, --output FILE   write the answer to FILE, whole or not at all; draw, rules and build then write the file's bytes.\n"
    "                      - is standard output. FILE must not be one of the files read.\n"
    "      --lines         also show the value of every line\n"
    "      --all           show every gate that differs\n"
    "      --pins          probe both pins of every gate, too; their rows stand last\n"
    "      --lamp          build tables with the lamp, one pair for all outputs; a netlist has its own or none and stays as it is\n"
    "      --note TEXT     put a note with this text last in the netlist file; several stand in the order in which they are given\n"
    "      --blif, --verilog, --dot   the form of an export\n"
    "  -h, --help          show this text\n"
    "  -V, --version       show the version\n"
    "\n"
    "Options may stand anywhere; after -- every word is an operand.\n"
    "\n"
    "Exit status: 0 an answer; 1 a no: a refusal by a numbered question, or lists that differ; 2 a wrong command line; 3 a file\n"
    "that cannot be read or written, or whose text is of no such form.\n";

static _Noreturn void answer(const char *text)
{
    save(NULL, text, strlen(text), NULL, 0);
    exit(ANSWERED);
}

static void set_output(struct request *request)
{
    if (request->output != NULL)
        fail(MISUSED, "-o is given twice");
    request->output = optarg;
}

static void add_note(struct request *request)
{
    size_t length = strlen(optarg), before = request->notes_length;
    if (length > LONGEST)
        fail(MISUSED, "--note: its text has %zu bytes, but a note has at most %d", length, LONGEST);
    request->notes_length += HEAD + length;
    request->notes = realloc(request->notes, request->notes_length);
    if (request->notes == NULL)
        fail(FAILED, "out of memory");
    memcpy(put_head(request->notes + before, PILGODUR_NOTE_TAG, length), optarg, length);
}

static void set_format(struct request *request, enum format format)
{
    if (request->format != NO_FORMAT)
        fail(MISUSED, "choose one of --blif, --verilog and --dot");
    request->format = format;
}

/* getopt_long leaves the letter in optopt, or what stands for a long option that has a value against the rules, or 0. */
static _Noreturn void refuse_option(int found, const char *word)
{
    if (found == ':')
        fail(MISUSED, "%s: a %s must follow", word, optopt == NOTE ? "text" : "file");
    if (optopt == 0)
        fail(MISUSED, "%s: no such option; see pilgodur --help", word);
    if (optopt >= LINES || optopt == HELP || optopt == VERSION)
        fail(MISUSED, "%s: this option takes no value", word);
    fail(MISUSED, "-%c: no such option; see pilgodur --help", optopt);
}

/* Takes one option; returns what a command must allow for it. */
static unsigned take_option(int found, const char *word, struct request *request)
{
    switch (found) {
    case OPERAND:
        request->operand[request->operands++] = optarg;
        return 0;
    case OUTPUT:
        set_output(request);
        return TAKES_OUTPUT;
    case LINES:
        request->lines = true;
        return TAKES_LINES;
    case ALL:
        request->all = true;
        return TAKES_ALL;
    case LAMP:
        request->lamp = true;
        return TAKES_LAMP;
    case PINS:
        request->pins = true;
        return TAKES_PINS;
    case NOTE:
        add_note(request);
        return TAKES_NOTE;
    case AS_BLIF:
    case AS_VERILOG:
    case AS_DOT:
        set_format(request, found == AS_BLIF ? BLIF : found == AS_VERILOG ? VERILOG : DOT);
        return TAKES_FORMAT;
    case HELP:
        answer(help);
    case VERSION:
        answer("pilgodur " PILGODUR_VERSION "\n");
    default:
        refuse_option(found, word);
    }
}

/* Takes every option in turn, wherever it stands. The operands gather at the start of argv, in places that are read already. */
static unsigned take_options(int argc, char **argv, struct request *request)
{
    unsigned taken = 0;
    int found;
    opterr = 0;
    while ((found = getopt_long(argc, argv, "-:o:hV", options, NULL)) != -1)
        taken |= take_option(found, argv[optind - 1], request);
    while (optind < argc)
        request->operand[request->operands++] = argv[optind++];
    return taken;
}

static void count_operands(const char *name, const struct request *request, int least, int most)
{
    int standard_inputs = 0;
    for (int i = 0; i < request->operands; i++)
        standard_inputs += strcmp(request->operand[i], "-") == 0;
    if (standard_inputs > 1)
        fail(MISUSED, "%s: - is given twice, but standard input can be read only once", name);
    if (request->operands < least)
        fail(MISUSED, "%s: an operand is missing; see pilgodur --help", name);
    if (request->operands > most)
        fail(MISUSED, "%s: %s is one operand too many; see pilgodur --help", name, request->operand[most]);
}

static const char *option_text(unsigned taken)
{
    return taken & TAKES_OUTPUT  ? "-o"
           : taken & TAKES_LINES ? "--lines"
           : taken & TAKES_ALL   ? "--all"
           : taken & TAKES_LAMP  ? "--lamp"
           : taken & TAKES_NOTE  ? "--note"
           : taken & TAKES_PINS  ? "--pins"
                                 : "--blif, --verilog or --dot";
}

command *read_options(int argc, char **argv, struct request *request)
{
    *request = (struct request){.operand = argv};
    unsigned taken = take_options(argc, argv, request);
    if (request->operands == 0)
        fail(MISUSED, "no command; see pilgodur --help");
    const char *name = request->operand[0];
    size_t i = 0;
    while (i < sizeof commands / sizeof *commands && strcmp(commands[i].name, name) != 0)
        i++;
    if (i == sizeof commands / sizeof *commands)
        fail(MISUSED, "%s: no such command; see pilgodur --help", name);
    if ((taken & ~commands[i].takes) != 0)
        fail(MISUSED, "%s takes no %s; see pilgodur --help", name, option_text(taken & ~commands[i].takes));
    request->operand++;
    request->operands--;
    count_operands(name, request, commands[i].least, commands[i].most);
    return commands[i].perform;
}
