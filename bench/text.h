/* Text in lines, with blanks and comments: what the text forms of drawings, of rule sheets and of calls share. */
#ifndef TEXT_H
#define TEXT_H

#include "load.h"

/* What is left of a line, without its comment. */
struct line {
    const char *file;
    unsigned number; /* from 1 */
    const char *at, *end;
};

/* A text of which the lines before `at` are taken, the last of them as `line`. */
struct text {
    const char *at, *end;
    struct line line;
};

/* Whether a file begins with a sign of text, which no table, netlist, drawing or rule sheet does, nor a note. */
bool is_text(const struct file *file);

struct text text_in(const struct file *file);

/* Takes the next line on which there is more than blanks and a comment; false if there is none. */
bool next_line(struct text *text);

bool is_blank(char c);

/* Says what is wrong on a line, and ends the program. */
__attribute__((format(printf, 3, 4)))
_Noreturn void reject(const char *file, unsigned line, const char *format, ...);

#endif
