/* Writes a random drawing to standard output: its bytes, these with notes put in, or its text form with names, blanks, comments and line
 * ends of every kind. With a KIND it is malformed in that way (tests/malformed.h).
 *
 *     sketches SEED bytes|noted|text [KIND]    exit status 1: the text form has no such drawing; 2: bad usage */
#include <stdio.h>
#include <stdlib.h>
#include <string.h>

#include "damage.h"
#include "malformed.h"

static struct dice dice;

/* Any nodes, a table's, or eight or nine functions in a level. */
static void draw_some(struct drawing *drawing)
{
    struct diagram diagram;
    unsigned kind = roll(&dice, 3), contacts = 3 + roll(&dice, 10);
    if (kind == 0) {
        random_drawing(&dice, contacts, 1 + roll(&dice, 8), roll(&dice, chance(&dice, 70) ? 20 : 199), drawing);
    } else if (kind == 1) {
        random_diagram(&dice, contacts, 1 + roll(&dice, 8), &diagram);
        drawing_of(&diagram, drawing);
    } else {
        wide_drawing(&dice, contacts, 1 + roll(&dice, contacts - 2), 8 + roll(&dice, 2), drawing);
    }
    redraw(&dice, roll(&dice, 199), drawing);
}

/* ---- The text form. ---- */

static void write_blanks(void)
{
    for (unsigned i = 1 + roll(&dice, 3); i > 0; i--)
        putchar(chance(&dice, 70) ? ' ' : '\t');
}

/* Some end in a comment, some in a carriage return, and some have lines without words behind them. */
static void end_line(void)
{
    if (chance(&dice, 20))
        printf("%s# node 0 1 ~\\", chance(&dice, 50) ? " " : "");
    do
        printf(chance(&dice, 20) ? " \t\r\n" : "\n");
    while (chance(&dice, 10));
}

/* A node's name: another number, or signs of a word and its own. */
static void write_name(unsigned number, unsigned style)
{
    static const char *const forms[] = {"%u", "n%u", "-%u", "._%u", "A-long-name_of.node.%u"};
    if (number < 2)
        printf("%u", number);
    else
        printf(forms[(style + number) % 5], (style + number) % 5 == 0 ? 7 * number + 1 : number);
}

/* Whether the text form can say it: three fields of whole parts, and every number is a constant's or a node's. */
static bool has_text(const struct file *file, size_t nodes)
{
    size_t outputs = nodes - 7;
    if (nodes + 3 > file->length || file->bytes[0] != 1 || file->bytes[2] != 1 || file->bytes[4] != 2 || file->bytes[nodes] != 7)
        return false;
    size_t count = 256u * file->bytes[nodes + 1] + file->bytes[nodes + 2];
    if (count % 3 != 0 || file->length != nodes + 3 + count)
        return false;
    for (size_t j = 0; j < outputs; j++)
        if (file->bytes[7 + j] >= 2 + count / 3)
            return false;
    for (size_t i = 0; i < count; i++)
        if (i % 3 != 0 && file->bytes[nodes + 3 + i] >= 2 + count / 3)
            return false;
    return true;
}

static void write_text(const struct file *file, size_t nodes)
{
    unsigned style = roll(&dice, 5), number = 2;
    printf("contacts%s%u", chance(&dice, 50) ? " " : "\t 0", file->bytes[3]);
    end_line();
    printf("outputs");
    for (size_t at = 7; at < nodes; at++) {
        write_blanks();
        write_name(file->bytes[at], style);
    }
    end_line();
    for (const uint8_t *node = file->bytes + nodes + 3; node < file->bytes + file->length; node += 3) {
        write_name(number++, style);
        write_blanks();
        printf("%u", node[0]);
        for (unsigned k = 1; k <= 2; k++) {
            write_blanks();
            write_name(node[k], style);
        }
        end_line();
    }
}

int main(int argc, char **argv)
{
    static struct file file;
    struct drawing drawing;
    if (argc < 3 || argc > 4)
        return 2;
    dice.state = strtoull(argv[1], NULL, 10);
    draw_some(&drawing);
    file.length = write_drawing(&drawing, file.bytes);
    if (argc == 4)
        do
            malformed_drawing(&dice, (enum malformation)strtoul(argv[3], NULL, 10), &drawing, &file);
        while (file.length > 0 && file.bytes[0] >= '\t'); /* the bench may take it for text */
    if (strcmp(argv[2], "noted") == 0) {
        static struct file plain;
        plain = file;
        put_notes(&dice, ANY_NOTE, EVERYWHERE, &plain, &file);
    }
    if (strcmp(argv[2], "text") != 0)
        return fwrite(file.bytes, 1, file.length, stdout) == file.length && fflush(stdout) == 0 ? 0 : 2;
    size_t nodes = file.length < 7 ? file.length : 7 + 256u * file.bytes[5] + file.bytes[6];
    if (!has_text(&file, nodes))
        return 1;
    write_text(&file, nodes);
    return fflush(stdout) == 0 ? 0 : 2;
}
