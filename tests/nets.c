#include "nets.h"

#include <ctype.h>
#include <stdarg.h>
#include <stdio.h>
#include <stdlib.h>
#include <string.h>

struct net nets[NETS];

void give_up(const char *format, ...)
{
    va_list args;
    va_start(args, format);
    fputs("readback: ", stdout);
    vprintf(format, args);
    putchar('\n');
    exit(1);
}

unsigned net_of(const char *name)
{
    unsigned number;
    char rail[8], again[64];
    if (sscanf(name, "l%u", &number) == 1 && snprintf(again, sizeof again, "l%u", number) > 0 && strcmp(name, again) == 0 &&
        number < PILGODUR_LINES_MAX)
        return number;
    if (sscanf(name, "output%u_%7s", &number, rail) == 2 && number < 8 && strcmp(rail, "true") == 0)
        return OUTPUT_NETS + 2 * number;
    if (sscanf(name, "output%u_%7s", &number, rail) == 2 && number < 8 && strcmp(rail, "false") == 0)
        return OUTPUT_NETS + 2 * number + 1;
    if (strcmp(name, "lamp_true") == 0 || strcmp(name, "lamp_false") == 0)
        return LAMP_NETS + (name[5] == 'f');
    give_up("%s is no net", name);
}

void drive(const char *name, enum form form, unsigned sources, const char *first, const char *second)
{
    struct net *net = &nets[net_of(name)];
    if (net->form != NOTHING)
        give_up("%s is driven twice", name);
    *net = (struct net){net->declared, form, sources, {0, 0}};
    if (sources > 0)
        net->source[0] = net_of(first);
    if (sources > 1)
        net->source[1] = net_of(second);
}

const char *next_word(char **at, const char *comment, bool line_ends)
{
    static char words[4][256];
    static unsigned turn;
    char *word = words[turn++ % 4];
    size_t length = 0;
    for (;;) {
        if (strncmp(*at, comment, strlen(comment)) == 0)
            *at += strcspn(*at, "\n");
        else if (isspace((unsigned char)**at) && !(line_ends && **at == '\n'))
            ++*at;
        else
            break;
    }
    if (**at == '\0')
        return NULL;
    do
        word[length++] = *(*at)++;
    while (length < 255 && (isalnum((unsigned char)word[length - 1]) || strchr("_'.-", word[length - 1]) != NULL) &&
           (isalnum((unsigned char)**at) || (**at != '\0' && strchr("_'.-", **at) != NULL)));
    word[length] = '\0';
    return word;
}

bool is(const char *word, const char *expected)
{
    return word != NULL && strcmp(word, expected) == 0;
}

void expect(char **at, const char *comment, const char *expected)
{
    const char *word = next_word(at, comment, false);
    if (!is(word, expected))
        give_up("%s stands where %s is expected", word == NULL ? "the end" : word, expected);
}
