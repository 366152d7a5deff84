/* Drawings and rule sheets, both made into functions from the last level up until equal functions are one node, and from these into
 * a table. */
#include "reference.h"

#include <string.h>

#include "reference_files.h"

/* ---- Functions. ---- */

/* A function of the contacts, made once: two are equal exactly if they are the same node. */
struct function {
    unsigned level;                 /* of the first contact on which it depends; the count of contacts for a constant */
    const struct function *half[2]; /* what is left of it with that contact open and with it closed */
    struct function *before;        /* the one of this level made before it */
};

struct functions {
    struct pool *pool;
    unsigned contacts, outputs;
    const struct function *constant[2];
    const struct function *output[8];
    struct function *last[12]; /* made so far, by level */
};

/* No functions but the constants. */
static void start_functions(struct pool *pool, unsigned contacts, unsigned outputs, struct functions *functions)
{
    *functions = (struct functions){.pool = pool, .contacts = contacts, .outputs = outputs};
    for (unsigned value = 0; value < 2; value++) {
        struct function *made = take(pool, sizeof *made);
        made->level = contacts;
        functions->constant[value] = made;
    }
}

/* The function of this level with these halves. */
static const struct function *function_of(struct functions *functions, unsigned level, const struct function *open,
                                          const struct function *closed)
{
    if (open == closed)
        return open;
    for (const struct function *made = functions->last[level]; made != NULL; made = made->before)
        if (made->half[0] == open && made->half[1] == closed)
            return made;
    struct function *made = take(functions->pool, sizeof *made);
    *made = (struct function){level, {open, closed}, functions->last[level]};
    functions->last[level] = made;
    return made;
}

/* ---- From functions to a table. ---- */

/* The functions that are left in one level, in the sequence of their first mention. */
struct level {
    unsigned width;
    const struct function *function[8];
};

/* The place of a function in a level, where it is put if it was not there; 8 if there is no room for it. */
static unsigned place_in(struct level *level, const struct function *function)
{
    unsigned place = 0;
    while (place < level->width && level->function[place] != function)
        place++;
    if (place == level->width && place < 8)
        level->function[level->width++] = function;
    return place;
}

/* Writes one level's field and finds the functions of the next; false if there are more than eight. */
static bool write_level(const struct level *level, unsigned l, struct level *next, uint8_t **at)
{
    *at = put_two(put(*at, 3), 2 * level->width);
    for (unsigned u = 0; u < level->width; u++) {
        const struct function *function = level->function[u];
        for (unsigned value = 0; value < 2; value++) {
            unsigned place = place_in(next, function->level == l ? function->half[value] : function);
            if (place == 8)
                return false;
            *at = put(*at, place);
        }
    }
    return true;
}

/* Writes the table, at most 243 bytes, and returns its length; 0 if question 17 gets a no. */
static size_t write_table(const struct functions *functions, uint8_t *table)
{
    struct level level = {0};
    uint8_t *at = put(put_two(put(table, 1), 1), functions->contacts);
    at = put_two(put(at, 2), functions->outputs);
    for (unsigned j = 0; j < functions->outputs; j++)
        at = put(at, place_in(&level, functions->output[j]));
    for (unsigned l = 0; l < functions->contacts; l++) {
        struct level next = {0};
        if (l + 1 == functions->contacts)
            next = (struct level){2, {functions->constant[0], functions->constant[1]}};
        if (!write_level(&level, l, &next, &at))
            return 0;
        level = next;
    }
    return (size_t)(at - table);
}

/* Questions 17 and 9, and the table if both get a yes. */
static pilgodur_built answer_table(const struct functions *functions, uint8_t *table, size_t table_len)
{
    uint8_t made[243];
    size_t length = write_table(functions, made);
    if (length == 0)
        return (pilgodur_built){17, 0};
    if (table_len < length)
        return (pilgodur_built){9, 0};
    memcpy(table, made, length);
    return (pilgodur_built){0, (uint32_t)length};
}

/* ---- Drawings. ---- */

struct drawing {
    unsigned contacts, outputs, nodes;
    const uint8_t *output;
    const uint8_t *node; /* three bytes each */
};

/* The level of a number: that of a listed node, the count of contacts for a constant. */
static unsigned level_of(const struct drawing *drawing, unsigned number)
{
    return number < 2 ? drawing->contacts : drawing->node[3 * (number - 2)];
}

static bool is_listed(const struct drawing *drawing, unsigned number)
{
    return number < 2 + drawing->nodes;
}

static bool leads_up(const struct drawing *drawing, unsigned level, unsigned edge)
{
    return is_listed(drawing, edge) && level < level_of(drawing, edge);
}

/* Question 16; the drawing is there if it gets a yes. */
static bool read_drawing(struct pool *pool, const uint8_t *file, size_t length, struct drawing *drawing)
{
    bool whole;
    const struct field *contacts = fields_of(pool, file, length, &whole);
    if (!whole || !is_contacts(contacts) || !is_field(contacts->next, 2, 1, 8) || !is_field(contacts->next->next, 7, 0, 3 * 200) ||
        contacts->next->next->length % 3 != 0 || contacts->next->next->next != NULL)
        return false;
    drawing->contacts = contacts->value[0];
    drawing->outputs = (unsigned)contacts->next->length;
    drawing->output = contacts->next->value;
    drawing->nodes = (unsigned)contacts->next->next->length / 3;
    drawing->node = contacts->next->next->value;
    for (unsigned i = 0; i < drawing->nodes; i++) {
        const uint8_t *node = drawing->node + 3 * i;
        if (node[0] >= drawing->contacts || !leads_up(drawing, node[0], node[1]) || !leads_up(drawing, node[0], node[2]))
            return false;
    }
    for (unsigned j = 0; j < drawing->outputs; j++)
        if (!is_listed(drawing, drawing->output[j]))
            return false;
    return true;
}

/* Gives every number its function, the highest level first, and every output that of its number. */
static void draw_functions(const struct drawing *drawing, struct functions *functions)
{
    const struct function *drawn[202] = {functions->constant[0], functions->constant[1]};
    for (unsigned level = drawing->contacts; level-- > 0;)
        for (unsigned i = 0; i < drawing->nodes; i++) {
            const uint8_t *node = drawing->node + 3 * i;
            if (node[0] == level)
                drawn[2 + i] = function_of(functions, level, drawn[node[1]], drawn[node[2]]);
        }
    for (unsigned j = 0; j < drawing->outputs; j++)
        functions->output[j] = drawn[drawing->output[j]];
}

pilgodur_built ref_from_drawing(const uint8_t *drawing, size_t drawing_len, uint8_t *table, size_t table_len)
{
    struct pool pool = {NULL};
    struct drawing drawn = {0};
    struct functions functions;
    pilgodur_built answer = {16, 0};
    if (read_drawing(&pool, drawing, drawing_len, &drawn)) {
        start_functions(&pool, drawn.contacts, drawn.outputs, &functions);
        draw_functions(&drawn, &functions);
        answer = answer_table(&functions, table, table_len);
    }
    give_back(&pool);
    return answer;
}

/* ---- Rule sheets. ---- */

struct rules {
    unsigned contacts, outputs, count;
    const uint8_t *rule[64]; /* a byte for each contact, then the word */
};

/* Whether a field is a rule of such a sheet. */
static bool is_rule(const struct rules *rules, const struct field *field)
{
    unsigned n = rules->contacts;
    if (!is_field(field, 9, n + 1, n + 1) || field->value[n] >> rules->outputs != 0)
        return false;
    for (unsigned i = 0; i < n; i++)
        if (field->value[i] > 2)
            return false;
    return true;
}

/* Question 18; the rules are there if it gets a yes. */
static bool read_rules(struct pool *pool, const uint8_t *file, size_t length, struct rules *rules)
{
    bool whole;
    const struct field *contacts = fields_of(pool, file, length, &whole);
    if (!whole || !is_contacts(contacts) || !is_field(contacts->next, 8, 1, 1))
        return false;
    rules->contacts = contacts->value[0];
    rules->outputs = contacts->next->value[0];
    if (rules->outputs < 1 || rules->outputs > 8)
        return false;
    for (const struct field *field = contacts->next->next; field != NULL; field = field->next) {
        if (rules->count == 64 || !is_rule(rules, field))
            return false;
        rules->rule[rules->count++] = field->value;
    }
    return rules->count > 0;
}

static bool fits(const struct rules *rules, const uint8_t *rule, uint32_t input)
{
    for (unsigned i = 0; i < rules->contacts; i++)
        if (rule[i] != 2 && rule[i] != (input >> i) % 2)
            return false;
    return true;
}

/* Questions 19 and 20: at every input each rule is tried. Every input has its word if both get a yes. */
static uint32_t try_rules(const struct rules *rules, uint8_t *word)
{
    bool shared = false, unruled = false;
    for (uint32_t input = 0; input >> rules->contacts == 0; input++) {
        unsigned fitting = 0;
        for (unsigned r = 0; r < rules->count; r++)
            if (fits(rules, rules->rule[r], input)) {
                word[input] = rules->rule[r][rules->contacts];
                fitting++;
            }
        shared = shared || fitting > 1;
        unruled = unruled || fitting == 0;
    }
    return shared ? 19 : unruled ? 20 : 0;
}

/* What is left of an output's function with the contacts before a level set as in an input, in which the others are 0. */
static const struct function *function_left(struct functions *functions, const uint8_t *word, unsigned output, unsigned level,
                                            uint32_t input)
{
    if (level == functions->contacts)
        return functions->constant[word[input] >> output & 1];
    const struct function *open = function_left(functions, word, output, level + 1, input);
    const struct function *closed = function_left(functions, word, output, level + 1, input | (uint32_t)1 << level);
    return function_of(functions, level, open, closed);
}

pilgodur_built ref_from_rules(const uint8_t *rules, size_t rules_len, uint8_t *table, size_t table_len)
{
    struct pool pool = {NULL};
    struct rules sheet = {0};
    struct functions functions;
    uint8_t word[4096];
    pilgodur_built answer = {18, 0};
    if (read_rules(&pool, rules, rules_len, &sheet))
        answer.refusal = try_rules(&sheet, word);
    if (answer.refusal == 0) {
        start_functions(&pool, sheet.contacts, sheet.outputs, &functions);
        for (unsigned j = 0; j < sheet.outputs; j++)
            functions.output[j] = function_left(&functions, word, j, 0, 0);
        answer = answer_table(&functions, table, table_len);
    }
    give_back(&pool);
    return answer;
}
