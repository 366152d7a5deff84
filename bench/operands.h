/* Inputs, holds and counts as they are written on the command line and in files of calls. */
#ifndef OPERANDS_H
#define OPERANDS_H

#include <stdbool.h>
#include <stddef.h>
#include <stdint.h>

/* A number, or contacts: and a sign 0 (open) or 1 (closed) for each contact, contact 0 first. */
struct input {
    const char *text;
    size_t signs;    /* 0 for a number */
    uint32_t number; /* 4294967295 stands for any that is as large or larger */
};

bool looks_like_input(const char *text);

/* Text that is no input ends the program. */
struct input read_input(const char *text);

/* The input's number for a file with so many contacts, whose questions got a yes. Another count of signs, and an input that is
 * not below 2^contacts, end the program. */
uint32_t input_number(const struct input *input, unsigned contacts, const char *name);

/* "contacts:" and a sign for each contact. */
struct contacts_text {
    char text[9 + 12 + 1];
};
struct contacts_text contacts_at(uint32_t input, unsigned contacts);

/* The rails of an input, two bytes a contact. */
void set_rails(uint32_t input, unsigned contacts, uint8_t *rails);

/* A hold is three bytes: a line, then twice a site and the value, 0 or 1. Site 0 is the line itself; 1 and 2 are the first and the
 * second pin of its gate. */
void put_hold(uint8_t *hold, unsigned line, unsigned site, unsigned value);
unsigned held_site(const uint8_t *hold);
unsigned held_value(const uint8_t *hold);

/* What is held: LINE, or LINE.1 or LINE.2 for a pin. */
struct held_text {
    char text[5 + 4 + 1];
};
struct held_text held_name(const uint8_t *hold);

/* Reads LINE=VALUE, or LINE.PIN=VALUE, into three bytes. A line above 65,535 becomes that one; a value that is neither 0 nor 1, and a
 * pin that is neither 1 nor 2, become a last byte that no hold has. So question 14 refuses all of them, and none becomes another hold.
 * False for text of another form. */
bool is_hold(const char *text, uint8_t *hold);

/* The same; text of another form ends the program with the message that follows the text. */
extern const char no_hold[];
void read_hold(const char *text, uint8_t *hold);

/* Which pins and values there are, if a hold has another; for a message. */
const char *hold_fault(const uint8_t *hold);

/* Refuses a file with a hold, by its text and its bytes. */
_Noreturn void refuse_hold(uint32_t refusal, const char *name, const char *text, const uint8_t *hold);

/* Reads a number, or "all", which is 4294967295, and so is any that is as large or larger. False for other text. */
bool is_count(const char *text, uint32_t *count);

#endif
