/* The reader of BLIF exports. */
#include <stdio.h>
#include <string.h>

#include "nets.h"

/* The words up to the line end. */
static unsigned blif_line(char **at, char words[32][64])
{
    unsigned count = 0;
    const char *word;
    while ((word = next_word(at, "#", true)) != NULL && !is(word, "\n")) {
        if (count == 32)
            give_up("a line has too many words");
        snprintf(words[count++], 64, "%s", word);
    }
    return count;
}

/* A cover: the rows up to the next line that begins with a point. */
static void blif_cover(char **at, char (*names)[64], unsigned count)
{
    char cover[128] = "";
    while (**at != '.' && **at != '\0') {
        char row[32][64];
        unsigned words = blif_line(at, row);
        for (unsigned i = 0; i < words; i++) {
            strncat(cover, row[i], sizeof cover - strlen(cover) - 2);
            strcat(cover, i + 1 < words ? " " : ";");
        }
    }
    if (count == 1 && (is(cover, "") || is(cover, "1;")))
        drive(names[0], is(cover, "") ? ZERO : ONE, 0, NULL, NULL);
    else if (count == 2 && is(cover, "1 1;"))
        drive(names[1], COPY, 1, names[0], NULL);
    else if (count == 3 && is(cover, "11 1;"))
        drive(names[2], AND, 2, names[0], names[1]);
    else if (count == 3 && is(cover, "1- 1;-1 1;"))
        drive(names[2], OR, 2, names[0], names[1]);
    else
        give_up("the cover %s of %u names is neither an AND nor an OR", cover, count);
}

void read_blif(char *at)
{
    char words[32][64];
    bool ended = false;
    while (*at != '\0') {
        unsigned count = blif_line(&at, words);
        if (count == 0)
            continue;
        if (ended)
            give_up("there is more after .end");
        if (is(words[0], ".names"))
            blif_cover(&at, words + 1, count - 1);
        else if (is(words[0], ".inputs"))
            for (unsigned i = 1; i < count; i++)
                drive(words[i], PORT, 0, NULL, NULL);
        else if (is(words[0], ".outputs"))
            for (unsigned i = 1; i < count; i++)
                nets[net_of(words[i])].declared = true;
        else if (is(words[0], ".end"))
            ended = true;
        else if (!is(words[0], ".model"))
            give_up("%s is unknown", words[0]);
    }
    if (!ended)
        give_up("there is no .end");
    for (unsigned i = 0; i < NETS; i++)
        nets[i].declared = nets[i].declared || (i < OUTPUT_NETS && nets[i].form != NOTHING);
}
