/* Drawings as a person writes them, or as the bytes that the library is given. */
#ifndef DRAWING_H
#define DRAWING_H

#include "load.h"

enum { DRAWING_OUTPUTS = 8, DRAWING_NODES = 200 }; /* the most that there may be */

/* A word of the text form: letters, digits, _, - and . alone. */
struct word {
    const char *at;
    int length;
};

/* A node of the text form. */
struct drawn_node {
    struct word name, edge[2];
    uint8_t contact;
    unsigned line;
};

/* What stands after is_text is of the text form alone. */
struct drawing {
    const char *name; /* of the file that it comes from */
    const uint8_t *bytes;
    size_t length;
    bool is_text; /* the file is of the text form */
    struct drawn_node *node;
    size_t nodes, outputs; /* the bytes have at most one more than there may be */
    uint8_t made[4 + (3 + DRAWING_OUTPUTS + 1) + (3 + 3 * (DRAWING_NODES + 1))];
};

/* Reads the drawing in a file: text if it begins like that, else the drawing's bytes. Text of another form ends the program. */
void read_drawing(const struct file *file, struct drawing *drawing);

void free_drawing(struct drawing *drawing);

/* How many signs of a word a message shows. */
int shown(const struct word *word);

#endif
