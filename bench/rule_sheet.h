/* Rule sheets as a person writes them, or as the bytes that the library is given. */
#ifndef RULE_SHEET_H
#define RULE_SHEET_H

#include "load.h"

enum { RULES_CONTACTS = 12, RULES_OUTPUTS = 8, RULES_MOST = 64 }; /* the most that there may be */

/* What stands after is_text is of the text form alone. */
struct rule_sheet {
    const char *name; /* of the file that it comes from */
    const uint8_t *bytes;
    size_t length;
    bool is_text; /* the file is of the text form */
    size_t contacts, outputs, rules; /* the bytes have at most one more than there may be */
    unsigned line[RULES_MOST + 1];   /* of each rule */
    uint8_t made[4 + 4 + (RULES_MOST + 1) * (3 + RULES_CONTACTS + 1 + 1)];
};

/* Reads the rule sheet in a file: text if it begins like that, else the sheet's bytes. Text of another form ends the program. */
void read_rule_sheet(const struct file *file, struct rule_sheet *sheet);

#endif
