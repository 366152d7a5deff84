/* Builds the selector's netlist, probes one of its lines and one of its pins, and steps through a run. */
#include <stdio.h>

#include <pilgodur.h>

/* Three contacts, one output: contact 2 while contact 1 is open, else contact 0. */
static const uint8_t table[] = {1, 0, 1, 3, 2, 0, 1, 0, 3, 0, 2, 0, 1, 3, 0, 4, 0, 1, 0, 2, 3, 0, 6, 0, 1, 0, 0, 1, 1};

static int refused(uint32_t refusal)
{
    printf("refused: %u\n", (unsigned)refusal);
    return 1;
}

/* Says where a hold shows. The values of the lines there follow the netlist file, which has this length. */
static int probe(const char *held, const uint8_t hold[3], uint32_t length)
{
    static uint8_t buffer[PILGODUR_FILE_MAX + PILGODUR_LINES_MAX];
    pilgodur_probed probed = pilgodur_probe(table, sizeof table, hold, 3, buffer, sizeof buffer);
    if (probed.refusal != PILGODUR_REFUSAL_NONE)
        return refused(probed.refusal);
    if (probed.way == PILGODUR_WAY_HIDDEN)
        printf("%s is hidden: no input shows it\n", held);
    else
        printf("%s shows at input %u: output %u is %s\n", held, (unsigned)probed.input, (unsigned)probed.output,
               probed.way == PILGODUR_WAY_BOTH_LOW ? "00, both low" : "11, both high");
    printf("at input %u line 16 is then %u\n", (unsigned)probed.input, buffer[length + 16]);
    return 0;
}

/* Steps through a run at input 3, four lines a call. Line 10 is held at 1, by the call that works it out. */
static int step(const uint8_t *netlist, uint32_t length)
{
    static const uint8_t rails[] = {1, 0, 1, 0, 0, 1}, hold[] = {0, 10, 1};
    static uint8_t lines[PILGODUR_LINES_MAX], pairs[PILGODUR_PAIRS_MAX];
    pilgodur_checked checked = pilgodur_check(table, sizeof table);
    uint32_t place = 2, calls = 0;
    while (place < 2 + 2 * checked.contacts + checked.gates) {
        pilgodur_stepped stepped = pilgodur_step(netlist, length, rails, sizeof rails, hold, place == 10 ? sizeof hold : 0, place, 4,
                                                 lines, sizeof lines, pairs, sizeof pairs);
        if (stepped.refusal != PILGODUR_REFUSAL_NONE)
            return refused(stepped.refusal);
        place = stepped.place;
        calls++;
    }
    printf("after %u calls line 16 is %u, and output 0 is %u%u\n", (unsigned)calls, lines[16], pairs[0], pairs[1]);
    return 0;
}

int main(void)
{
    static const uint8_t line[] = {0, 10, 0}; /* line 10 held at 0 */
    static const uint8_t pin[] = {0, 8, 3};   /* the first pin of line 8's gate held at 1 */
    static uint8_t netlist[PILGODUR_FILE_MAX];

    pilgodur_built built = pilgodur_build(table, sizeof table, netlist, sizeof netlist);
    if (built.refusal != PILGODUR_REFUSAL_NONE)
        return refused(built.refusal);
    printf("the netlist file has %u bytes\n", (unsigned)built.length);
    return probe("line 10 held at 0", line, built.length) || probe("the first pin of line 8 held at 1", pin, built.length) ||
           step(netlist, built.length);
}
