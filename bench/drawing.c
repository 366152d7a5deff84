/* The text form of a drawing. All lines are split into words before names become numbers, since a name may be used before its line. */
#include "drawing.h"

#include <stdlib.h>
#include <string.h>

#include "fields.h"
#include "report.h"
#include "text.h"

enum { LONGEST_SHOWN = 40, FIRST_ROOM = 64 };

/* ---- Words. ---- */

static bool is_of_a_word(char c)
{
    return ('a' <= c && c <= 'z') || ('A' <= c && c <= 'Z') || ('0' <= c && c <= '9') || c == '_' || c == '-' || c == '.';
}

/* Takes the next word; false if there is none. */
static bool next_word(struct line *line, struct word *word)
{
    while (line->at < line->end && is_blank(*line->at))
        line->at++;
    *word = (struct word){line->at, 0};
    for (; line->at < line->end && !is_blank(*line->at); line->at++, word->length++)
        if (!is_of_a_word(*line->at))
            reject(line->file, line->number, "there is a sign other than letters, digits, _, - and .");
    return word->length > 0;
}

static bool is(const struct word *word, const char *text)
{
    return (size_t)word->length == strlen(text) && memcmp(word->at, text, (size_t)word->length) == 0;
}

int shown(const struct word *word)
{
    return word->length < LONGEST_SHOWN ? word->length : LONGEST_SHOWN;
}

/* The number that a word is, which fits in a byte. */
static uint8_t number_in(const struct line *line, const struct word *word)
{
    unsigned number = 0;
    for (int i = 0; i < word->length; i++) {
        if (word->at[i] < '0' || word->at[i] > '9')
            reject(line->file, line->number, "%.*s is no number", shown(word), word->at);
        number = 10 * number + (unsigned)(word->at[i] - '0');
        if (number > UINT8_MAX)
            reject(line->file, line->number, "%.*s is more than 255", shown(word), word->at);
    }
    return (uint8_t)number;
}

/* ---- Names. ---- */

/* The nodes sorted by name, those with the same name by line. */
struct names {
    const struct drawn_node **node;
    size_t count;
};

static int compare_words(const struct word *a, const struct word *b)
{
    int order = memcmp(a->at, b->at, (size_t)(a->length < b->length ? a->length : b->length));
    return order != 0 ? order : (a->length > b->length) - (a->length < b->length);
}

static int compare_nodes(const void *a, const void *b)
{
    const struct drawn_node *x = *(const struct drawn_node *const *)a, *y = *(const struct drawn_node *const *)b;
    int order = compare_words(&x->name, &y->name);
    return order != 0 ? order : (x > y) - (x < y);
}

static struct names sort_names(const struct drawing *drawing)
{
    struct names names = {malloc((drawing->nodes + 1) * sizeof *names.node), drawing->nodes};
    if (names.node == NULL)
        fail(FAILED, "%s: out of memory", drawing->name);
    for (size_t i = 0; i < names.count; i++)
        names.node[i] = &drawing->node[i];
    qsort(names.node, names.count, sizeof *names.node, compare_nodes);
    return names;
}

/* The first node with a name, or NULL. */
static const struct drawn_node *find(const struct names *names, const struct word *name)
{
    size_t from = 0, to = names->count;
    while (from < to) {
        size_t middle = from + (to - from) / 2;
        if (compare_words(&names->node[middle]->name, name) < 0)
            from = middle + 1;
        else
            to = middle;
    }
    bool found = from < names->count && compare_words(&names->node[from]->name, name) == 0;
    return found ? names->node[from] : NULL;
}

/* The number of a constant or a node. One that does not fit in a byte becomes 255: there are too many nodes then, so question 16 says
 * no either way. */
static uint8_t number_of(const struct drawing *drawing, const struct names *names, const struct word *name, unsigned line)
{
    if (is(name, "0") || is(name, "1"))
        return name->at[0] == '1';
    const struct drawn_node *node = find(names, name);
    if (node == NULL)
        reject(drawing->name, line, "there is no node %.*s", shown(name), name->at);
    size_t number = 2 + (size_t)(node - drawing->node);
    return (uint8_t)(number < UINT8_MAX ? number : UINT8_MAX);
}

/* ---- Lines. ---- */

/* contacts N */
static uint8_t read_contacts(struct text *text)
{
    struct line *line = &text->line;
    struct word word, number, more;
    if (!next_line(text))
        reject(line->file, line->number, "the text ends before the line: contacts N");
    if (!next_word(line, &word) || !is(&word, "contacts") || !next_word(line, &number) || next_word(line, &more))
        reject(line->file, line->number, "the first line must be: contacts N");
    return number_in(line, &number);
}

/* outputs NODE...; returns what follows the first word. */
static struct line read_outputs(struct text *text)
{
    struct line *line = &text->line;
    struct word word;
    if (!next_line(text))
        reject(line->file, line->number, "the text ends before the line: outputs NODE...");
    if (!next_word(line, &word) || !is(&word, "outputs"))
        reject(line->file, line->number, "the second line must be: outputs NODE...");
    return *line;
}

/* NODE CONTACT ZERO ONE */
static void read_node(struct line *line, struct drawn_node *node)
{
    struct word contact, more;
    if (!next_word(line, &node->name) || !next_word(line, &contact) || !next_word(line, &node->edge[0]) ||
        !next_word(line, &node->edge[1]) || next_word(line, &more))
        reject(line->file, line->number, "the line of a node must be: NODE CONTACT ZERO ONE");
    if (is(&node->name, "0") || is(&node->name, "1"))
        reject(line->file, line->number, "0 and 1 are the constants, and no node's name");
    node->contact = number_in(line, &contact);
    node->line = line->number;
}

static void read_nodes(struct text *text, struct drawing *drawing)
{
    size_t room = 0;
    while (next_line(text)) {
        if (drawing->nodes == room) {
            room = room == 0 ? FIRST_ROOM : 2 * room;
            drawing->node = realloc(drawing->node, room * sizeof *drawing->node);
            if (drawing->node == NULL)
                fail(FAILED, "%s: out of memory", drawing->name);
        }
        read_node(&text->line, &drawing->node[drawing->nodes++]);
    }
}

/* ---- The drawing's bytes. ---- */

static size_t smaller(size_t a, size_t b)
{
    return a < b ? a : b;
}

/* Puts the outputs of a line, and counts them all. */
static uint8_t *put_outputs(struct line *line, const struct names *names, struct drawing *drawing, uint8_t *put)
{
    uint8_t number[DRAWING_OUTPUTS + 1];
    struct word word;
    while (next_word(line, &word)) {
        uint8_t output = number_of(drawing, names, &word, line->number);
        if (drawing->outputs <= DRAWING_OUTPUTS)
            number[drawing->outputs] = output;
        drawing->outputs++;
    }
    size_t count = smaller(drawing->outputs, DRAWING_OUTPUTS + 1);
    put = put_head(put, 2, count);
    memcpy(put, number, count);
    return put + count;
}

static uint8_t *put_nodes(const struct names *names, const struct drawing *drawing, uint8_t *put)
{
    size_t count = smaller(drawing->nodes, DRAWING_NODES + 1);
    put = put_head(put, 7, 3 * count);
    for (size_t i = 0; i < drawing->nodes; i++) {
        const struct drawn_node *node = &drawing->node[i], *first = find(names, &node->name);
        if (first != node)
            reject(drawing->name, node->line, "there is a node %.*s already, on line %u", shown(&node->name), node->name.at,
                   first->line);
        uint8_t zero = number_of(drawing, names, &node->edge[0], node->line);
        uint8_t one = number_of(drawing, names, &node->edge[1], node->line);
        if (i < count) {
            *put++ = node->contact;
            *put++ = zero;
            *put++ = one;
        }
    }
    return put;
}

static void read_text(const struct file *file, struct drawing *drawing)
{
    struct text text = text_in(file);
    uint8_t *put = put_head(drawing->made, 1, 1);
    *put++ = read_contacts(&text);
    struct line outputs = read_outputs(&text);
    read_nodes(&text, drawing);
    struct names names = sort_names(drawing);
    put = put_outputs(&outputs, &names, drawing, put);
    put = put_nodes(&names, drawing, put);
    free(names.node);
    drawing->is_text = true;
    drawing->bytes = drawing->made;
    drawing->length = (size_t)(put - drawing->made);
}

void read_drawing(const struct file *file, struct drawing *drawing)
{
    *drawing = (struct drawing){.name = file->name, .bytes = file->at, .length = file->length};
    if (is_text(file))
        read_text(file, drawing);
}

void free_drawing(struct drawing *drawing)
{
    free(drawing->node);
}
