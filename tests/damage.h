/* Byte strings for the services: good ones, and ones damaged so that a certain question gets a no. */
#ifndef DAMAGE_H
#define DAMAGE_H

#include "file.h"
#include "tables.h"

enum { MOST_GATES = 10602 };

/* A table damaged at one to three of the questions 1 to 7. */
void damaged_table(struct dice *dice, const struct diagram *good, struct file *file);

/* Sets up to three bytes anew. */
void flip_bytes(struct dice *dice, struct file *file);

void random_bytes(struct dice *dice, struct file *file);
void random_fields(struct dice *dice, struct file *file);

/* A netlist that gets a yes to questions 11 and 12, with up to 10,602 gates, with or without a lamp. */
void random_netlist(struct dice *dice, struct file *file);

/* The same with these counts. */
void netlist_of_size(struct dice *dice, unsigned contacts, unsigned gates, unsigned outputs, bool lamp, struct file *file);

void damage_netlist(struct dice *dice, struct file *file);

/* The ways in which a lamp can be damaged: those from LAMP_TRUE_LINE on are a matter of question 12, the others of 11. */
enum lamp_damage {
    LAMP_TWICE, LAMP_OF_0, LAMP_OF_3, LAMP_OF_5, LAMP_OF_8, LAMP_CUT_SHORT, LAMP_BEFORE_OUTPUTS, LAMP_BEFORE_GATES, LAMP_FOR_OUTPUTS,
    LAMP_OF_ANOTHER_TAG, FIELD_AFTER_LAMP, BYTES_AFTER_LAMP, LAMP_TRUE_LINE, LAMP_FALSE_LINE, LAMP_DAMAGES
};

/* Damages the lamp of a good netlist that has one in this way. */
void damage_lamp(struct dice *dice, enum lamp_damage kind, struct file *file);

/* The counts of a netlist that gets a yes to question 11; of others some numbers. The lamp's pair is one of the pairs. The count of
 * contacts is that of a table, drawing or rule sheet, too. */
unsigned contacts_of(const struct file *file);
unsigned lines_of(const struct file *netlist);
unsigned gates_of(const struct file *netlist);
unsigned outputs_of(const struct file *netlist);
unsigned pairs_of(const struct file *netlist);

/* A line that a netlist of so many does not have, often the first of them. */
unsigned line_outside(struct dice *dice, unsigned lines);

void code_rails(unsigned contacts, uint32_t input, struct file *rails);
void random_rails(struct dice *dice, unsigned contacts, struct file *rails);
void damage_rails(struct dice *dice, struct file *rails);

/* Notes to be put into a file: one of any tag and length, one of length 0, and so on. The value of the last kind is the file's own bytes
 * from its start on. */
enum note_kind {
    ANY_NOTE, EMPTY_NOTE, LONGEST_NOTE, LOWEST_TAG, HIGHEST_TAG, NOTES_IN_A_ROW, THOUSANDS_OF_NOTES, NOTE_LIKE_FIELDS, NOTE_KINDS
};

enum { EVERYWHERE = 100, MOST_NOTED = 180000 };

/* The file with notes before field `place`, after the last one if there are not so many, or at some places, at one at least. None is
 * put where the file would have MOST_NOTED bytes before it. What is cut short at the file's end stays there. */
void put_notes(struct dice *dice, enum note_kind kind, unsigned place, const struct file *file, struct file *noted);

/* The ways in which a note can be cut short: as the last field, or before other fields with a length that runs past the end. */
enum cut_kind {
    NOTE_OF_ONE_BYTE, NOTE_OF_TWO_BYTES, NOTE_WITHOUT_VALUE, NOTE_CUT_WITHIN, NOTE_A_BYTE_SHORT, LONGEST_NOTE_CUT, NOTE_PAST_THE_END,
    CUT_KINDS
};

/* Puts a note that is cut short into a file of whole fields. */
void cut_note(struct dice *dice, enum cut_kind kind, struct file *file);

/* Damages a byte of some note, drops it, puts others before it, or ends the file there. */
void damage_note(struct dice *dice, struct file *file);

#endif
