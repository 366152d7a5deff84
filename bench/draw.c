/* The command that makes a table from a drawing, and what it says of one that is malformed or too wide. */
#include "../include/pilgodur.h"
#include "commands.h"
#include "drawing.h"
#include "show.h"
#include "width.h"

enum { CONTACTS, OUTPUTS, NODES, FIELDS };

static const char *const field_names[FIELDS] = {"first field", "second field", "third field"};
static const uint8_t tags[FIELDS] = {1, 2, 7};

/* A drawing's fields, as far as they are good. */
struct fields {
    const struct drawing *drawing;
    const uint8_t *value[FIELDS];
    size_t length[FIELDS];
};

/* The count of outputs, or of nodes. */
static bool count_fault(const struct fields *f, unsigned k, struct fault *fault)
{
    const struct drawing *d = f->drawing;
    size_t length = f->length[k];
    if (k == OUTPUTS && (length < 1 || length > DRAWING_OUTPUTS))
        return say(fault, "there are %zu outputs, not 1 to %d", d->is_text ? d->outputs : length, DRAWING_OUTPUTS);
    if (k == NODES && length % 3 != 0)
        return say(fault, "the third field has length %zu, not three bytes for each node", length);
    if (k == NODES && length > 3 * DRAWING_NODES)
        return say(fault, "there are %zu nodes, not 0 to %d", d->is_text ? d->nodes : length / 3, DRAWING_NODES);
    return false;
}

/* Finds the fields. */
static bool field_fault(struct fields *f, struct fault *fault)
{
    const uint8_t *bytes = f->drawing->bytes;
    size_t at = 0, length = f->drawing->length;
    for (unsigned k = 0; k < FIELDS; k++) {
        struct field field;
        at = past_notes(bytes, length, at);
        if (at == length)
            return say(fault, "there is no %s", field_names[k]);
        if (!field_at(bytes, length, at, &field))
            return cut_fault(bytes, length, at, field_names[k], fault);
        if (field.tag != tags[k])
            return say(fault, "the %s has tag %u, not %u", field_names[k], field.tag, tags[k]);
        f->value[k] = field.value;
        f->length[k] = field.length;
        if (k == CONTACTS ? contacts_fault(&field, fault) : count_fault(f, k, fault))
            return true;
        at += HEAD + field.length;
    }
    at = past_notes(bytes, length, at);
    if (at < length && bytes[at] >= PILGODUR_NOTE_TAG)
        return cut_fault(bytes, length, at, field_names[NODES], fault);
    return at < length && say(fault, "there are bytes after the third field");
}

/* What a node is called: its name, or its number. */
struct label {
    char text[64];
};

static struct label label_of(const struct drawing *d, unsigned number)
{
    struct label label;
    if (d->is_text)
        snprintf(label.text, sizeof label.text, "%.*s", shown(&d->node[number - 2].name), d->node[number - 2].name.at);
    else
        snprintf(label.text, sizeof label.text, "%u", number);
    return label;
}

static bool is_listed(const struct fields *f, unsigned number)
{
    return number < 2 + f->length[NODES] / 3;
}

/* One edge of a node that looks at a contact there is. */
static bool edge_fault(const struct fields *f, unsigned number, const char *line, unsigned edge, struct fault *fault)
{
    struct label label = label_of(f->drawing, number);
    unsigned contact = f->value[NODES][3 * (number - 2)];
    if (!is_listed(f, edge))
        return say(fault, "%snode %s leads to %u, which is no node", line, label.text, edge);
    if (edge > 1 && f->value[NODES][3 * (edge - 2)] <= contact)
        return say(fault, "%snode %s (contact %u) leads to node %s (contact %u), which is not of a higher contact", line, label.text,
                   contact, label_of(f->drawing, edge).text, f->value[NODES][3 * (edge - 2)]);
    return false;
}

static bool node_fault(const struct fields *f, unsigned number, struct fault *fault)
{
    const uint8_t *node = f->value[NODES] + 3 * (number - 2);
    unsigned contacts = f->value[CONTACTS][0];
    char line[32] = "";
    if (f->drawing->is_text)
        snprintf(line, sizeof line, "line %u: ", f->drawing->node[number - 2].line);
    if (node[0] >= contacts)
        return say(fault, "%snode %s looks at contact %u, but the contacts are 0 to %u", line, label_of(f->drawing, number).text,
                   node[0], contacts - 1);
    return edge_fault(f, number, line, node[1], fault) || edge_fault(f, number, line, node[2], fault);
}

/* What question 16 says no to, the first of it. */
static bool find_fault(const struct drawing *drawing, struct fault *fault)
{
    struct fields f = {.drawing = drawing};
    if (field_fault(&f, fault))
        return true;
    for (unsigned j = 0; j < f.length[OUTPUTS]; j++)
        if (!is_listed(&f, f.value[OUTPUTS][j]))
            return say(fault, "output %u is %u, which is no node", j, f.value[OUTPUTS][j]);
    for (unsigned number = 2; is_listed(&f, number); number++)
        if (node_fault(&f, number, fault))
            return true;
    return false;
}

static void put_values(const struct fields *f, struct values *v)
{
    v->contacts = f->value[CONTACTS][0];
    v->outputs = (unsigned)f->length[OUTPUTS];
    for (unsigned j = 0; j < v->outputs; j++)
        for (unsigned place = 0; place < 1u << v->contacts; place++) {
            uint8_t number = f->value[OUTPUTS][j];
            while (number > 1) {
                const uint8_t *node = f->value[NODES] + 3 * (number - 2);
                number = node[1 + (place >> (v->contacts - 1 - node[0]) & 1)];
            }
            v->of[j][place] = number;
        }
}

static void find_drawn_width(const struct drawing *drawing, struct fault *fault)
{
    static struct values v;
    struct fields f = {.drawing = drawing};
    if (field_fault(&f, fault))
        return;
    put_values(&f, &v);
    find_width(&v, fault);
}

enum status draw(struct request *request, FILE *out)
{
    uint8_t table[PILGODUR_TABLE_MAX];
    struct drawing drawing;
    struct fault fault = {""};
    read_drawing(load_operand(request, 0), &drawing);
    pilgodur_built made = pilgodur_from_drawing(drawing.bytes, drawing.length, table, sizeof table);
    if (made.refusal == PILGODUR_REFUSAL_DRAWING)
        find_fault(&drawing, &fault);
    if (made.refusal == PILGODUR_REFUSAL_FUNCTIONS)
        find_drawn_width(&drawing, &fault);
    if (made.refusal != 0)
        refuse(made.refusal, "%s%s", drawing.name, fault.text);
    show_file(out, table, made.length, request->output == NULL);
    free_drawing(&drawing);
    return ANSWERED;
}
