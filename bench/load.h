/* Files as they are named on the command line. */
#ifndef LOAD_H
#define LOAD_H

#include <stdbool.h>
#include <stddef.h>
#include <stdint.h>
#include <sys/types.h>

struct file {
    uint8_t *at; /* never NULL */
    size_t length;
    const char *name;   /* for messages */
    char shortened[24]; /* the name of hex: text */
    bool regular;       /* it was read from a regular file: this one */
    dev_t device;
    ino_t inode;
};

/* Loads a path, @PATH, - for standard input, or hex: and digits. Content that begins with hex: is taken as such text too. A file that
 * cannot be read ends the program. */
void load(const char *operand, struct file *file);

/* The same for an operand that could also be an input, so that a message about it says so. */
void load_rails(const char *operand, struct file *file);

void unload(struct file *file);

#endif
