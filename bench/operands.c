#include "operands.h"

#include <stdio.h>
#include <string.h>

#include "../include/pilgodur.h"
#include "fields.h"
#include "report.h"

static const char contacts_mark[] = "contacts:";
enum { MARK = sizeof contacts_mark - 1 };

/* The last byte of a hold whose pin, or whose value, there is not. */
enum { NO_PIN = UINT8_MAX - 1, NO_VALUE = UINT8_MAX };

/* Reads the digits at the start of a text, a number above `most` as `most`; returns what follows them. */
static const char *read_digits(const char *text, uint32_t most, uint32_t *number)
{
    uint64_t sum = 0;
    for (; '0' <= *text && *text <= '9'; text++) {
        sum = 10 * sum + (uint64_t)(*text - '0');
        if (sum > most)
            sum = most;
    }
    *number = (uint32_t)sum;
    return text;
}

static bool is_marked(const char *text)
{
    return strncmp(text, contacts_mark, MARK) == 0;
}

bool looks_like_input(const char *text)
{
    return is_marked(text) || (*text != '\0' && text[strspn(text, "0123456789")] == '\0');
}

struct input read_input(const char *text)
{
    struct input input = {.text = text};
    if (!looks_like_input(text))
        fail(MISUSED, "%s: not an input; write a number, or contacts: and 0 or 1 for each contact", text);
    if (!is_marked(text)) {
        read_digits(text, UINT32_MAX, &input.number);
        return input;
    }
    input.signs = strspn(text + MARK, "01");
    if (input.signs == 0 || text[MARK + input.signs] != '\0')
        fail(MISUSED, "%s: after contacts: write 0 (open) or 1 (closed) for each contact, contact 0 first", text);
    for (size_t i = 0; i < input.signs && i < 32; i++)
        input.number |= (uint32_t)(text[MARK + i] == '1') << i;
    return input;
}

uint32_t input_number(const struct input *input, unsigned contacts, const char *name)
{
    if (input->signs != 0 && input->signs != contacts)
        fail(MISUSED, "%s: it has %zu signs after contacts:, but %s has %u contacts", input->text, input->signs, name, contacts);
    if (input->number >> contacts != 0)
        refuse(PILGODUR_REFUSAL_INPUT, "%s with %u contacts at input %s", name, contacts, input->text);
    return input->number;
}

struct contacts_text contacts_at(uint32_t input, unsigned contacts)
{
    struct contacts_text shown = {"contacts:"};
    for (unsigned i = 0; i < contacts; i++)
        shown.text[MARK + i] = input >> i & 1 ? '1' : '0';
    return shown;
}

void set_rails(uint32_t input, unsigned contacts, uint8_t *rails)
{
    for (unsigned i = 0; i < contacts; i++) {
        rails[2 * i] = input >> i & 1;
        rails[2 * i + 1] = !rails[2 * i];
    }
}

void put_hold(uint8_t *hold, unsigned line, unsigned site, unsigned value)
{
    hold[0] = (uint8_t)(line / 256);
    hold[1] = (uint8_t)line;
    hold[2] = (uint8_t)(2 * site + value);
}

unsigned held_site(const uint8_t *hold)
{
    return hold[2] / 2;
}

unsigned held_value(const uint8_t *hold)
{
    return hold[2] % 2;
}

struct held_text held_name(const uint8_t *hold)
{
    struct held_text name;
    if (held_site(hold) == 0)
        snprintf(name.text, sizeof name.text, "%u", two_bytes(hold));
    else
        snprintf(name.text, sizeof name.text, "%u.%u", two_bytes(hold), held_site(hold));
    return name;
}

/* Takes a number of at least one digit; false if there is none. */
static bool take_number(const char **text, uint32_t most, uint32_t *number)
{
    const char *start = *text;
    *text = read_digits(start, most, number);
    return *text > start;
}

static bool take_sign(const char **text, char sign)
{
    bool found = **text == sign;
    *text += found;
    return found;
}

bool is_hold(const char *text, uint8_t *hold)
{
    uint32_t line, pin = 0, value = 0;
    const char *at = text;
    bool formed = take_number(&at, UINT16_MAX, &line);
    bool of_pin = take_sign(&at, '.');
    if (of_pin)
        formed = take_number(&at, UINT8_MAX, &pin) && formed;
    if (!formed || !take_sign(&at, '=') || !take_number(&at, UINT8_MAX, &value) || *at != '\0')
        return false;
    put_hold(hold, line, pin, value);
    if (of_pin && pin != 1 && pin != 2)
        hold[2] = NO_PIN;
    else if (value > 1)
        hold[2] = NO_VALUE;
    return true;
}

const char no_hold[] = "not a hold; write LINE=VALUE, as in 10=0, or LINE.PIN=VALUE, as in 8.1=0";

void read_hold(const char *text, uint8_t *hold)
{
    if (!is_hold(text, hold))
        fail(MISUSED, "%s: %s", text, no_hold);
}

const char *hold_fault(const uint8_t *hold)
{
    return hold[2] == NO_PIN     ? ": the pins of a gate are 1 and 2"
           : hold[2] == NO_VALUE ? ": the value must be 0 or 1"
                                 : "";
}

void refuse_hold(uint32_t refusal, const char *name, const char *text, const uint8_t *hold)
{
    refuse(refusal, "%s with hold %s%s", name, text, hold_fault(hold));
}

bool is_count(const char *text, uint32_t *count)
{
    *count = UINT32_MAX;
    return strcmp(text, "all") == 0 || (take_number(&text, UINT32_MAX, count) && *text == '\0');
}
