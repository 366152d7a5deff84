#include "holds.h"

#include <string.h>

#include "damage.h"
#include "edits.h"

struct hold {
    unsigned line, value;
};

struct sites sites_of(const struct file *netlist)
{
    return (struct sites){2 + 2 * contacts_of(netlist), lines_of(netlist)};
}

void add_hold(struct file *holds, unsigned line, unsigned value)
{
    add_two(holds, line);
    add_byte(holds, value);
}

static struct hold hold_at(const uint8_t *bytes)
{
    return (struct hold){two_bytes(bytes), bytes[2]};
}

/* Good lists have rising ranks: lines first, then pins by gate, the first before the second. */
static unsigned rank(struct hold hold)
{
    return hold.value < 2 ? hold.line : 65536 + 2 * hold.line + hold.value / 2;
}

static unsigned gates_in(const struct sites *sites)
{
    return sites->lines - sites->first_gate;
}

static struct hold any_line(struct dice *dice, const struct sites *sites)
{
    return (struct hold){2 + roll(dice, sites->lines - 2), roll(dice, 2)};
}

static unsigned pin_value(struct dice *dice)
{
    return 2 + roll(dice, 4);
}

static struct hold any_pin(struct dice *dice, const struct sites *sites)
{
    return (struct hold){sites->first_gate + roll(dice, gates_in(sites)), pin_value(dice)};
}

static struct hold any_hold(struct dice *dice, const struct sites *sites)
{
    return gates_in(sites) > 0 && chance(dice, 50) ? any_pin(dice, sites) : any_line(dice, sites);
}

/* ---- Good lists. ---- */

/* Adds holds of lines or of pins, with any density. */
static void add_holds(struct dice *dice, const struct sites *sites, bool pins, unsigned way, struct file *holds)
{
    static const unsigned densities[] = {0, 1, 5, 20, 50, 90, 100};
    unsigned density = densities[roll(dice, sizeof densities / sizeof *densities)];
    unsigned from = pins ? sites->first_gate : 2, sure = chance(dice, 70) ? from + roll(dice, sites->lines - from) : 0;
    for (unsigned line = from; line < sites->lines; line++)
        for (unsigned value = pins ? 2 : 0; value < (pins ? 6 : 2); value += 2)
            if ((line == sure && density != 0) || chance(dice, density))
                add_hold(holds, line, value + (way < 2 ? way : roll(dice, 2)));
}

void random_holds(struct dice *dice, const struct sites *sites, unsigned way, struct file *holds)
{
    holds->length = 0;
    add_holds(dice, sites, false, way, holds);
    add_holds(dice, sites, true, way, holds);
}

void one_hold(struct dice *dice, const struct sites *sites, struct file *holds)
{
    struct hold hold = any_hold(dice, sites);
    holds->length = 0;
    add_hold(holds, hold.line, hold.value);
}

void not_one_hold(struct dice *dice, const struct sites *sites, struct file *holds)
{
    struct hold a = any_hold(dice, sites), b = any_hold(dice, sites);
    holds->length = 0;
    if (rank(a) >= rank(b))
        return;
    add_hold(holds, a.line, a.value);
    add_hold(holds, b.line, b.value);
}

/* ---- Steps. ---- */

void add_counted(struct counted *counted, const struct file *holds, unsigned from, unsigned to)
{
    for (size_t at = 0; at < holds->length; at += 3) {
        struct hold hold = hold_at(holds->bytes + at);
        if (from <= hold.line && hold.line < to)
            add_hold(hold.value > 1 ? &counted->pins : &counted->lines, hold.line, hold.value);
    }
}

void list_counted(const struct counted *counted, struct file *holds)
{
    memcpy(holds->bytes, counted->lines.bytes, counted->lines.length);
    memcpy(holds->bytes + counted->lines.length, counted->pins.bytes, counted->pins.length);
    holds->length = counted->lines.length + counted->pins.length;
}

/* ---- Damage. ---- */

bool can_damage_holds(enum hold_damage kind, const struct sites *sites)
{
    unsigned needed = kind == GATES_FALLING ? 2 : kind >= LINE_AFTER_PIN ? 1 : 0;
    return gates_in(sites) >= needed;
}

/* One hold that is bad wherever it stands. */
static struct hold bad_hold(struct dice *dice, enum hold_damage kind, const struct sites *sites)
{
    switch (kind) {
    case LINE_OF_CONSTANT: return (struct hold){roll(dice, 2), roll(dice, 2)};
    case LINE_PAST_THE_LAST: return (struct hold){line_outside(dice, sites->lines), roll(dice, 2)};
    case PIN_OF_CONSTANT: return (struct hold){roll(dice, 2), pin_value(dice)};
    case PIN_OF_RAIL: return (struct hold){2 + roll(dice, sites->first_gate - 2), pin_value(dice)};
    case PIN_PAST_THE_LAST: return (struct hold){line_outside(dice, sites->lines), pin_value(dice)};
    default: return (struct hold){any_line(dice, sites).line, at_least(dice, 6)};
    }
}

/* Two good holds of which the second may not come right after the first. */
static void bad_pair(struct dice *dice, enum hold_damage kind, const struct sites *sites, struct hold pair[2])
{
    struct hold line = any_line(dice, sites), pin = {0, 0};
    unsigned level = roll(dice, 2);
    if (kind >= LINE_AFTER_PIN)
        pin = any_pin(dice, sites);
    pair[0] = pair[1] = kind >= LINE_AFTER_PIN ? pin : line;
    switch (kind) {
    case LINE_TWICE: pair[1].value = level; break;
    case LINES_FALLING:
        pair[1].line = 2 + roll(dice, sites->lines - 3);
        pair[0].line = pair[1].line + 1 + roll(dice, sites->lines - pair[1].line - 1);
        break;
    case LINE_AFTER_PIN: pair[1] = (struct hold){chance(dice, 50) ? pin.line : line.line, level}; break;
    case SECOND_PIN_FIRST:
        pair[0].value = 4 + roll(dice, 2);
        pair[1].value = 2 + level;
        break;
    case PIN_AT_BOTH_VALUES: pair[1].value ^= 1; break;
    case GATES_FALLING:
        pair[1] = (struct hold){sites->first_gate + roll(dice, gates_in(sites) - 1), pin_value(dice)};
        pair[0].line = pair[1].line + 1 + roll(dice, sites->lines - pair[1].line - 1);
        break;
    default: break;
    }
}

/* Copies the holds whose ranks are in this range. */
static void add_range(const struct file *from, unsigned low, unsigned high, struct file *holds)
{
    for (size_t at = 0; at < from->length; at += 3) {
        struct hold hold = hold_at(from->bytes + at);
        if (low <= rank(hold) && rank(hold) < high)
            add_hold(holds, hold.line, hold.value);
    }
}

/* Puts one or two holds where they belong in a good list, in place of those that it has there. */
static void put_between(const struct hold *put, unsigned count, struct file *holds)
{
    static struct file good;
    unsigned first = rank(put[0]), last = rank(put[count - 1]);
    memcpy(good.bytes, holds->bytes, holds->length);
    good.length = holds->length;
    holds->length = 0;
    add_range(&good, 0, first < last ? first : last, holds);
    for (unsigned k = 0; k < count; k++)
        add_hold(holds, put[k].line, put[k].value);
    add_range(&good, 1 + (first < last ? last : first), UINT32_MAX, holds);
}

void damage_holds(struct dice *dice, enum hold_damage kind, const struct sites *sites, struct file *holds)
{
    struct hold bad[2];
    if (kind == HOLDS_NOT_WHOLE) {
        if (holds->length == 0 || chance(dice, 50))
            insert(dice, holds, holds->length, 1 + roll(dice, 2));
        else
            holds->length -= 1 + roll(dice, 2);
        return;
    }
    if (kind < LINE_TWICE)
        bad[0] = bad_hold(dice, kind, sites);
    else
        bad_pair(dice, kind, sites, bad);
    put_between(bad, kind < LINE_TWICE ? 1 : 2, holds);
}

void damage_holds_somehow(struct dice *dice, const struct sites *sites, struct file *holds)
{
    enum hold_damage kind = (enum hold_damage)roll(dice, HOLD_DAMAGES);
    damage_holds(dice, can_damage_holds(kind, sites) ? kind : PIN_PAST_THE_LAST, sites, holds);
}

void damage_one_hold(struct dice *dice, enum hold_damage kind, const struct sites *sites, struct file *hold)
{
    one_hold(dice, sites, hold);
    if (kind != HOLDS_NOT_WHOLE)
        hold->length = 0;
    damage_holds(dice, kind, sites, hold);
}
