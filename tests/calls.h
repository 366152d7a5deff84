/* One call of a service, asked of the library and of the reference on the same bytes, with notes and without, and compared; the strings
 * for it; and how often each number was hit. */
#ifndef CALLS_H
#define CALLS_H

#include "../include/pilgodur.h"
#include "damage.h"
#include "demands.h"

enum { STRINGS = 5, REFUSALS = 22, NOTED_PLACES = 67, WAYS = PILGODUR_WAY_HIDDEN + 1 };
enum service { CHECK, BUILD, BUILD_WITH_LAMP, READ_OFF, RUN, STEP, PROBE, SHEET, FROM_DRAWING, FROM_RULES, SERVICES };

/* The strings stand in the order of the parameters. */
struct call {
    enum service service;
    uint32_t input;        /* of read-off */
    uint32_t place, count; /* of step */
    const uint8_t *content[STRINGS];
    size_t length[STRINGS];
    bool written[STRINGS]; /* a buffer */
    size_t need[STRINGS];  /* the bytes that an answer writes to it; of step, in all calls together */
    unsigned sides;        /* how many are asked: all, or those without notes */
    uint32_t place_out;    /* that the library's step returned */
};

/* Which cases get notes put into their file: so many percent, of any kind in any place, or of this kind in this place. */
struct noting {
    unsigned percent;
    bool any;
    enum note_kind kind;
    unsigned place;
};

extern struct dice dice;
extern uint64_t seed;
extern unsigned long cases, differences;
extern struct demands demands;
extern char where[160]; /* what is being done, for the message after a fault */
extern const struct noting some_notes;
extern struct noting noting;
extern unsigned long hits[SERVICES][REFUSALS], noted_hits[SERVICES][REFUSALS];
extern unsigned long noted_kinds[NOTE_KINDS], noted_places[NOTED_PLACES], damaged_notes;
extern unsigned long ways[2][WAYS]; /* of the answers to probes of lines, and of pins */

/* Before the first call, when the dice are set, and after the last one. */
void open_calls(void);
void close_calls(void);

/* Makes one call, which is a case, and returns the reference's number. */
uint32_t compare(struct call *call);

/* What the library left in string k of the last call. */
const uint8_t *left_in(unsigned k);

/* A case whose number is known beforehand. */
void expect(struct call *call, uint32_t number);

/* Ends the program if there are many differences. */
void stop_after_many(void);

void give(struct call *call, unsigned k, const struct file *file);

/* Lends a buffer of noise. */
void lend_noise(struct call *call, unsigned k, size_t need, size_t length);

/* Lends one that is as long as needed, one byte short, longer, much shorter or of no length. */
void lend_buffer(struct call *call, unsigned k, size_t need);

/* The reference's netlist of a table; of no length if it is refused. */
void build_netlist(const struct file *table, bool lamp, struct file *netlist);

/* A probe whose number is known, with a buffer of this length. */
void expect_probe(const struct file *table, const struct file *hold, size_t need, size_t length, uint32_t number);

/* Puts notes into some files, and damages one of them in most. */
void damage_some_notes(struct file *file);

/* One call of a service that makes a table of a file, with a buffer of some length; returns its number. */
uint32_t call_maker(enum service service, const struct file *file);

/* The same with a number that is known, in buffers that are as long as needed, one byte short, longer, and of no length. The table, if
 * one is named, must be the answer. */
void expect_made(enum service service, const struct file *file, uint32_t number, const struct file *table);

/* Each prints how often something was hit and returns whether nothing was missed. */
bool print_hits(const char *title, unsigned long count[SERVICES][REFUSALS]);
bool print_counts(const char *what, const unsigned long *count, unsigned from, unsigned to);

/* The same for levels with just so many functions, by contacts and level: each level from this one on that can have them must. */
bool print_wide(const char *what, unsigned long count[13][12], unsigned from);

#endif
