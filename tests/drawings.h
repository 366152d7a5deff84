/* Random drawings, other drawings of the same functions, and drawings with as many functions in a level as one likes. */
#ifndef DRAWINGS_H
#define DRAWINGS_H

#include "tables.h"

enum { MOST_NODES = 200, DRAWING_MAX = 4 + (3 + 8) + (3 + 3 * MOST_NODES) };

/* Node i has the number 2 + i; 0 and 1 are the constants. */
struct drawing {
    unsigned contacts, outputs, nodes;
    uint8_t output[8];
    struct {
        uint8_t level, edge[2];
    } node[MOST_NODES];
};

/* Adds a node and returns its number. */
unsigned add_node(struct drawing *drawing, unsigned level, unsigned zero, unsigned one);

/* Every output and edge that is one number becomes another. */
void replace_mentions(struct drawing *drawing, unsigned number, unsigned by);

/* The drawing with a node for each node of a diagram. */
void drawing_of(const struct diagram *diagram, struct drawing *drawing);

/* Any nodes, in any sequence. */
void random_drawing(struct dice *dice, unsigned contacts, unsigned outputs, unsigned nodes, struct drawing *drawing);

/* Makes another drawing of the same functions: adds nodes that repeat others, nodes with equal edges and nodes that nothing mentions,
 * until there are at least so many; passes some nodes with equal edges by; and numbers all nodes anew. */
void redraw(struct dice *dice, unsigned nodes, struct drawing *drawing);

/* A drawing that leaves just so many functions in one level, at most 16; not more than 8 in any level before it, and at most 4 in any
 * after it. The level is below contacts-1, and it is not 0 for more than 8. */
void wide_drawing(struct dice *dice, unsigned contacts, unsigned level, unsigned functions, struct drawing *drawing);

/* Writes the drawing, at most DRAWING_MAX bytes, and returns its length. */
size_t write_drawing(const struct drawing *drawing, uint8_t *file);

/* The word of all outputs at an input, each followed node by node. */
uint32_t drawn_word(const struct drawing *drawing, uint32_t input);

/* How many different functions fixing the first contacts leaves, for each count of them below n; 17 stands for more than 16. By truth
 * tables alone. */
void count_functions(const struct drawing *drawing, unsigned functions[12]);

#endif
