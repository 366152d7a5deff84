/* The command that steps through a run, a call for each line of a text: how many lines to work out at most, then holds. */
#define _XOPEN_SOURCE 700
#include <errno.h>
#include <inttypes.h>
#include <stdlib.h>
#include <string.h>
#include <unistd.h>

#include "drive.h"
#include "fault.h"
#include "show.h"
#include "text.h"

/* A run as far as it has come. */
struct stepping {
    const struct netlist *netlist;
    const struct rails *rails;
    uint32_t place;
    unsigned calls;
    uint8_t lines[PILGODUR_LINES_MAX];
    uint8_t pairs[PILGODUR_PAIRS_MAX];
};

/* A call as it is written. */
struct call {
    char *text, **word;
    uint32_t count;
    struct holds holds;
};

/* Where the calls come from. On a terminal each line is asked for. */
struct calls {
    bool asks;
    struct text text;
    char *typed;
    size_t room;
};

static unsigned lines_left(const struct stepping *s)
{
    return lines_of(s->netlist) - s->place;
}

/* ---- The lines of the text. ---- */

static void *allocate(size_t size)
{
    void *room = malloc(size);
    if (room == NULL)
        fail(FAILED, "out of memory");
    return room;
}

static void open_calls(struct request *request, struct calls *calls)
{
    const char *operand = request->operands > 2 ? request->operand[2] : "-";
    *calls = (struct calls){.asks = strcmp(operand, "-") == 0 && isatty(STDIN_FILENO) == 1};
    if (calls->asks) {
        calls->text.line.file = "standard input";
        return;
    }
    struct file *file = &request->file[request->files++];
    load(operand, file);
    calls->text = text_in(file);
}

/* Asks for lines until there is a call on one; false at the end. */
static bool ask_for_line(struct calls *calls, const struct stepping *s)
{
    do {
        fprintf(stderr, "place %" PRIu32 ", lines left %u: ", s->place, lines_left(s));
        ssize_t length = getline(&calls->typed, &calls->room, stdin);
        if (length < 0) {
            if (ferror(stdin))
                fail(FAILED, "standard input: %s", strerror(errno));
            fputc('\n', stderr);
            return false;
        }
        calls->text.at = calls->typed;
        calls->text.end = calls->typed + length;
    } while (!next_line(&calls->text));
    return true;
}

/* Takes the next line. Whoever is asked sees the answers so far, and is not asked once all lines are worked out. */
static bool next_call(struct request *request, struct calls *calls, const struct stepping *s, FILE *out)
{
    if (!calls->asks)
        return next_line(&calls->text);
    show_so_far(request, out);
    return lines_left(s) > 0 && ask_for_line(calls, s);
}

/* Says what is wrong with the line. Unless another one is asked for the program ends. */
static void tell_fault(const struct calls *calls, uint32_t refusal, const struct fault *fault)
{
    const struct line *line = &calls->text.line;
    if (refusal != 0)
        tell_refusal(refusal, "%s: line %u%s", line->file, line->number, fault->text);
    else
        tell("%s: line %u%s", line->file, line->number, fault->text);
    if (!calls->asks)
        exit(refusal != 0 ? SAID_NO : FAILED);
}

/* ---- One call. ---- */

/* Cuts a text at its blanks; returns the count of its words. */
static size_t cut(char *text, char **word)
{
    size_t count = 0;
    for (bool within = false; *text != '\0'; text++)
        if (is_blank(*text)) {
            *text = '\0';
            within = false;
        } else if (!within) {
            word[count++] = text;
            within = true;
        }
    return count;
}

static bool holds_fault(struct holds *holds, struct fault *fault)
{
    for (size_t i = 0; i < holds->count; i++)
        if (!is_hold(holds->text[i], holds->at + 3 * i))
            return say(fault, "%.40s: %s", holds->text[i], no_hold);
    return false;
}

static bool is_of_a_call(char c)
{
    return ('0' <= c && c <= '9') || ('a' <= c && c <= 'z') || ('A' <= c && c <= 'Z') || c == '.' || c == '=' || is_blank(c);
}

/* Reads COUNT [HOLD...]. */
static bool call_fault(const struct line *line, struct call *call, struct fault *fault)
{
    size_t length = (size_t)(line->end - line->at), most = length / 2 + 1; /* words */
    *call = (struct call){allocate(length + 1), allocate(most * sizeof *call->word), 0, {NULL, allocate(3 * most), 0}};
    for (const char *at = line->at; at < line->end; at++)
        if (!is_of_a_call(*at))
            return say(fault, "there is a sign other than digits, letters, . and =");
    memcpy(call->text, line->at, length);
    call->text[length] = '\0';
    call->holds.count = cut(call->text, call->word) - 1;
    call->holds.text = call->word + 1;
    if (!is_count(call->word[0], &call->count))
        return say(fault, "%.40s: not a count; write a number, or all", call->word[0]);
    return holds_fault(&call->holds, fault);
}

static void drop_call(struct call *call)
{
    free(call->text);
    free(call->word);
    free(call->holds.at);
}

static uint32_t make_step(struct stepping *s, const struct call *call)
{
    const struct netlist *netlist = s->netlist;
    pilgodur_stepped stepped =
        pilgodur_step(netlist->bytes, netlist->length, s->rails->at, s->rails->length, call->holds.at, 3 * call->holds.count, s->place,
                      call->count, s->lines, sizeof s->lines, s->pairs, sizeof s->pairs);
    if (stepped.refusal == 0)
        s->place = stepped.place;
    return stepped.refusal;
}

/* The step of a call; which hold question 14 says no to. */
static bool step_fault(struct stepping *s, const struct call *call, uint32_t *refusal, struct fault *fault)
{
    const struct holds *holds = &call->holds;
    *refusal = make_step(s, call);
    if (*refusal != PILGODUR_REFUSAL_HOLDS)
        return *refusal != 0 && say(fault, "%s", s->netlist->name);
    size_t i = refused_hold(s->netlist, s->rails, holds);
    return say(fault, "%s with hold %.40s%s", s->netlist->name, holds->text[i], hold_fault(holds->at + 3 * i));
}

/* Asks questions 11 to 13. */
static void begin(struct stepping *s)
{
    static uint8_t none;
    s->place = 2;
    uint32_t refusal = make_step(s, &(struct call){.holds = {.at = &none}});
    if (refusal != 0)
        refuse(refusal, "%s with rails %s", s->netlist->name, s->rails->name);
}

/* ---- What a call shows. ---- */

/* The holds that name other lines than those from one to the place, or pins of other gates. */
static void show_others(FILE *out, const struct stepping *s, const struct holds *holds, uint32_t from)
{
    for (const uint8_t *hold = holds->at; hold < holds->at + 3 * holds->count; hold += 3) {
        unsigned line = two_bytes(hold);
        if (line < from || line >= s->place)
            fprintf(out, "%s=%u has no effect: line %u %s\n", held_name(hold).text, held_value(hold), line,
                    line < from ? "was worked out before" : "is worked out later");
    }
}

static void show_step(FILE *out, const struct stepping *s, const struct holds *holds, uint32_t from)
{
    fprintf(out, "call %u: place %" PRIu32 ", lines left %u\n", s->calls, s->place, lines_left(s));
    if (s->place > from)
        show_lines(out, s->lines, from, s->place, holds->at, 3 * holds->count);
    show_others(out, s, holds, from);
    if (lines_left(s) == 0)
        show_outputs(out, s->netlist, s->pairs);
}

/* Makes the call that stands on the line. */
static void make_call(struct stepping *s, const struct calls *calls, FILE *out)
{
    struct call call;
    struct fault fault;
    uint32_t refusal = 0, from = s->place;
    if (call_fault(&calls->text.line, &call, &fault) || step_fault(s, &call, &refusal, &fault)) {
        tell_fault(calls, refusal, &fault);
    } else {
        s->calls++;
        show_step(out, s, &call.holds, from);
    }
    drop_call(&call);
}

/* Without a file of calls they come from standard input, so nothing else can. */
static void keep_standard_input(const struct request *request)
{
    if (request->operands == 2 && (strcmp(request->operand[0], "-") == 0 || strcmp(request->operand[1], "-") == 0))
        fail(MISUSED, "step: - is given, but standard input has the calls; name a file of calls");
}

enum status step(struct request *request, FILE *out)
{
    static struct stepping s;
    struct rails rails;
    struct calls calls;
    keep_standard_input(request);
    name_rails(request, &rails);
    struct netlist netlist = netlist_in(load_operand(request, 0));
    find_rails(request, &netlist, &rails, out);
    s.netlist = &netlist;
    s.rails = &rails;
    begin(&s);
    open_calls(request, &calls);
    while (next_call(request, &calls, &s, out))
        make_call(&s, &calls, out);
    if (lines_left(&s) > 0)
        fprintf(out, "the calls end before line %" PRIu32 ": no pairs\n", s.place);
    free(calls.typed);
    return ANSWERED;
}
