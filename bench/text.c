#include "text.h"

#include <stdarg.h>
#include <stdio.h>
#include <string.h>

#include "../include/pilgodur.h"
#include "report.h"

bool is_text(const struct file *file)
{
    uint8_t first = file->length > 0 ? file->at[0] : 0;
    return (' ' <= first && first < PILGODUR_NOTE_TAG) || memchr("\t\r\n", first, 3) != NULL;
}

struct text text_in(const struct file *file)
{
    const char *start = (const char *)file->at;
    return (struct text){.at = start, .end = start + file->length, .line = {.file = file->name}};
}

bool is_blank(char c)
{
    return c == ' ' || c == '\t' || c == '\r';
}

bool next_line(struct text *text)
{
    struct line *line = &text->line;
    while (text->at < text->end) {
        const char *feed = memchr(text->at, '\n', (size_t)(text->end - text->at));
        const char *end = feed != NULL ? feed : text->end;
        const char *comment = memchr(text->at, '#', (size_t)(end - text->at));
        *line = (struct line){line->file, line->number + 1, text->at, comment != NULL ? comment : end};
        text->at = feed != NULL ? feed + 1 : text->end;
        while (line->at < line->end && is_blank(*line->at))
            line->at++;
        if (line->at < line->end)
            return true;
    }
    return false;
}

void reject(const char *file, unsigned line, const char *format, ...)
{
    char text[200];
    va_list args;
    va_start(args, format);
    vsnprintf(text, sizeof text, format, args);
    va_end(args);
    fail(FAILED, "%s: line %u: %s", file, line, text);
}
