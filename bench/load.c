#define _XOPEN_SOURCE 700
#include "load.h"

#include <errno.h>
#include <stdio.h>
#include <stdlib.h>
#include <string.h>
#include <sys/stat.h>

#include "report.h"

static const char hex_mark[] = "hex:";
enum { MARK = sizeof hex_mark - 1, FIRST_ROOM = 4096, MOST = 1 << 24 };

static bool is_marked(const void *bytes, size_t length)
{
    return length >= MARK && memcmp(bytes, hex_mark, MARK) == 0;
}

static int hex_digit(uint8_t c)
{
    static const char digits[] = "0123456789abcdefABCDEF";
    const char *found = c != '\0' ? strchr(digits, c) : NULL;
    if (found == NULL)
        return -1;
    return (int)(found - digits) < 16 ? (int)(found - digits) : (int)(found - digits) - 6;
}

/* Turns hex: text into the bytes that it spells, in place; white space may stand anywhere after the mark. */
static void decode(struct file *file)
{
    size_t digits = 0;
    for (size_t i = MARK; i < file->length; i++) {
        uint8_t c = file->at[i];
        if (c != '\0' && strchr(" \t\r\n", c) != NULL)
            continue;
        int digit = hex_digit(c);
        if (digit < 0)
            fail(FAILED, "%s: after hex: there is a sign that is no hex digit", file->name);
        uint8_t *byte = &file->at[digits / 2];
        *byte = (uint8_t)(digits % 2 == 0 ? 16 * digit : *byte + digit);
        digits++;
    }
    if (digits % 2 != 0)
        fail(FAILED, "%s: after hex: the last byte has one hex digit, not two", file->name);
    file->length = digits / 2;
}

static void make_room(struct file *file, size_t room)
{
    file->at = realloc(file->at, room);
    if (file->at == NULL)
        fail(FAILED, "%s: out of memory", file->name);
}

static void load_text(const char *text, struct file *file)
{
    size_t length = strlen(text);
    bool fits = length < sizeof file->shortened;
    snprintf(file->shortened, sizeof file->shortened, fits ? "%s" : "%.20s...", text);
    file->name = file->shortened;
    make_room(file, length);
    memcpy(file->at, text, length);
    file->length = length;
}

/* Reads a stream to its end. */
static void load_stream(FILE *stream, struct file *file)
{
    size_t room = FIRST_ROOM;
    size_t count;
    struct stat status;
    make_room(file, room);
    while ((count = fread(file->at + file->length, 1, room - file->length, stream)) != 0) {
        file->length += count;
        if (file->length > MOST)
            fail(FAILED, "%s: it has more than %d bytes, which is more than this program reads", file->name, MOST);
        if (file->length == room)
            make_room(file, room *= 2);
    }
    if (ferror(stream) || fstat(fileno(stream), &status) != 0)
        fail(FAILED, "%s: %s", file->name, strerror(errno));
    file->regular = S_ISREG(status.st_mode);
    file->device = status.st_dev;
    file->inode = status.st_ino;
}

static void load_path(const char *path, const char *expected, struct file *file)
{
    file->name = path;
    FILE *stream = fopen(path, "rb");
    if (stream == NULL)
        fail(FAILED, "%s: %s%s", path, expected, strerror(errno));
    load_stream(stream, file);
    fclose(stream);
}

static void load_as(const char *operand, const char *expected, struct file *file)
{
    *file = (struct file){.name = "standard input"};
    if (is_marked(operand, strlen(operand)))
        load_text(operand, file);
    else if (strcmp(operand, "-") == 0)
        load_stream(stdin, file);
    else if (operand[0] == '@')
        load_path(operand + 1, "", file);
    else
        load_path(operand, expected, file);
    if (is_marked(file->at, file->length))
        decode(file);
}

void load(const char *operand, struct file *file)
{
    load_as(operand, "", file);
}

void load_rails(const char *operand, struct file *file)
{
    load_as(operand, "neither an input (a number, or contacts: and signs) nor a file of rails: ", file);
}

void unload(struct file *file)
{
    free(file->at);
}
