/* Pilgodur: permit boards, from a decision-diagram table to a two-rail netlist of AND and OR gates.
 * docs/RULES.md has the rules in full, from the files to the numbers of the gates.
 *
 * FILES. A file is a row of fields: one tag byte, two length bytes, the value. Every two-byte number has its high byte first.
 *   Table:   tag 1, one byte n, the count of contacts (1 to 12).
 *            tag 2, one byte for each output (1 to 8): its node in level 0.
 *            n fields of tag 3, one for each level 0 to n-1: two bytes for each node (1 to 8), its 0-edge and its 1-edge, as
 *            node numbers in the next level. Level n is not written: its node 0 is the constant false, its node 1 true.
 *   Netlist: tag 1 as above.
 *            tag 4, five bytes a gate (0 to 10,602): kind (0 AND, 1 OR), then two source lines of two bytes each.
 *            tag 5, four bytes an output (1 to 8): its true line, then its false line.
 *            tag 6, which may be left out, four bytes: the lamp's true line, then its false line.
 *   Drawing: tag 1 as above.
 *            tag 2, one byte for each output (1 to 8): a constant or a node.
 *            tag 7, three bytes for each node (0 to 200): its level (0 to n-1), its 0-edge and its 1-edge. Numbers 0 and 1 are the
 *            constants false and true, 2 is the first node. A node of level l looks at contact l. An edge leads to a constant or
 *            to a node of a higher level, and may skip levels; nodes may be alike, and nothing need mention a node.
 *   Rule sheet: tag 1 as above.
 *            tag 8, one byte m, the count of outputs (1 to 8).
 *            1 to 64 fields of tag 9, a rule each: n bytes, one for each contact from 0 up, 0 or 1 for a contact that must have that
 *            value and 2 for one that may have either; then a permit word below 2^m, in which output j has the weight 2^j.
 *   Notes:   tags 128 to 255, any length and value. A field of such a tag may stand anywhere in a table, netlist, drawing or rule
 *            sheet, also first or last, any number of times. Every service answers as for the file without its notes, and writes
 *            none. A note that is cut short is a field cut short.
 *
 * LINES. 0 and 1 are the constants. The true rail of contact i is 2+2i, its false rail 3+2i. Gate g, counted from 0, is 2+2n+g.
 * A netlist with n contacts and g gates has 2+2n+g lines. A pair is written true rail first: 10 is yes, 01 is no, 00 and 11 are
 * no code. Input number a gives contact i the weight 2^i.
 *
 * SPARE CONTACTS. A line is read if it is a source of some gate, or the true or the false line of some output. A contact of a table is
 * spare if no output's value depends on it. Nothing in the table's netlist reads the two rails of a spare contact; every other line
 * from 2 up is read.
 *
 * LAMP. The lamp is one pair made from those of all outputs, by gates that follow the others: what the field calls a two-rail checker.
 * Two pairs a, a' and b, b' are joined by six gates in this sequence: AND a b, AND a' b', the OR of these two as the true line; AND a
 * b', AND a' b, the OR of these two as the false line. Of several pairs the first half, rounded up, is joined by this same rule, then
 * the others, then the two pairs so made; one pair is itself. Constants may be sources. With no line and no pin of these gates held
 * the lamp's pair is a code exactly if every output's pair is, at any rails. At a code input, with lines and pins held all one way, also
 * of these gates, it shows the code that it has there with none held, or 00 for holds at 0, or 11 for holds at 1.
 *
 * HOLDS. A pin is one of the two inputs of a gate: its first or its second source. A hold is three bytes: a line, then a value byte,
 * which is 0 or 1 for the line held at that value, 2 or 3 for the first pin of the line's gate held at 0 or 1, 4 or 5 for its second
 * pin held at 0 or 1. A gate reads the held value at a held pin; the pin's source, and whoever else reads it, are as they were. Where a
 * gate's own line is held too, the line's hold decides what it shows. In a list the holds of lines come first, rising, then those of
 * pins by rising gate, the first before the second, each once; a rail has no pin.
 *
 * SHEET. A gate sheet is a netlist as text for paper, in rows of 21 characters and a line feed. A number stands in columns 1 to 5, a
 * kind in 7 to 9, a line A in 11 to 15, a line B in 17 to 21, and blanks between them. Numbers are decimal and stand right with
 * blanks before them, kinds left with blanks after them.
 *   Gates:   a row for each: its line, AND or OR, its two sources.
 *   Outputs: then a row for each: its number from 0 up, OUT, its true line, its false line.
 *   Lamp:    then, if there is one, a row: 0, LMP, its true line, its false line.
 *   Heading: " LINE KIN     A     B" and a line feed, before row 1, row 51, row 101 and so on, all of these rows counted together.
 * A sheet of r rows has 22 * (r + (r + 49) / 50) bytes. It determines the netlist without its notes once the count of contacts
 * is given.
 *
 * REFUSALS. Each service asks its questions in the sequence stated with it; the first no gives its number, and 0 is an answer. The
 * questions stand below, in PILGODUR_QUESTIONS. A refusal leaves every lent byte as it came, and every other number returned is 0.
 *
 * BUFFERS. A byte string is a pointer and a length. A pointer is never NULL, even for length 0: pass any other pointer then. A buffer
 * that a service writes must not overlap any other byte string of the call; strings that it only reads may overlap or be the same.
 * Bytes of a buffer past those that are written keep their values.
 *
 * MEMORY. No heap and no data of the library's own, so calls from several threads do not meet. Stack: some 80 KB for check, 60 KB for
 * either build, 270 KB for probe, 8 KB for from-drawing, 6 KB for from-rules, little for the others.
 */
#ifndef PILGODUR_H
#define PILGODUR_H

#include <stddef.h>
#include <stdint.h>

#ifdef __cplusplus
extern "C" {
#endif

#define PILGODUR_VERSION "2.6.0"
#define PILGODUR_VERSION_MAJOR 2
#define PILGODUR_VERSION_MINOR 6
#define PILGODUR_VERSION_PATCH 0

/* The first tag of notes; the last is 255. */
#define PILGODUR_NOTE_TAG 128

/* The questions, as Q(number, name, text) for each. A no to question 6 is the refusal 6, PILGODUR_REFUSAL_TWINS. Number 8 is never
 * given. The holds of question 14 are just one for probe. Notes are not counted among the fields, but they must be whole, too. */
#define PILGODUR_QUESTIONS(Q) \
    Q(1, PILGODUR_REFUSAL_FIELDS, "Do the bytes split into whole fields with nothing left over?") \
    Q(2, PILGODUR_REFUSAL_CONTACTS, "Is the first field tag 1, length 1, value 1 to 12?") \
    Q(3, PILGODUR_REFUSAL_OUTPUTS, "Is the second field tag 2, length 1 to 8?") \
    Q(4, PILGODUR_REFUSAL_LEVELS, "Do exactly n fields of tag 3 follow and no others, each of even length 2 to 16?") \
    Q(5, PILGODUR_REFUSAL_NODES, "Does every edge and output name a node that its level has?") \
    Q(6, PILGODUR_REFUSAL_TWINS, "Does each pair of nodes of one level differ in an edge?") \
    Q(7, PILGODUR_REFUSAL_NUMBERING, "Are nodes numbered by first mention, and all mentioned?") \
    Q(9, PILGODUR_REFUSAL_BUFFER, "Is the lent buffer long enough?") \
    Q(10, PILGODUR_REFUSAL_INPUT, "Is the input below 2^n?") \
    Q(11, PILGODUR_REFUSAL_NETLIST, "Does the netlist have whole fields of tags 1, 4, 5 in that order, then at most tag 6 and no " \
      "more, tag 1 as in question 2, tag 4 of 0 to 10,602 whole gates, tag 5 of 1 to 8 whole outputs, tag 6 of one whole pair?") \
    Q(12, PILGODUR_REFUSAL_WIRING, "Is every kind 0 or 1, every source below its gate's own line, every output line and lamp line " \
      "in the netlist?") \
    Q(13, PILGODUR_REFUSAL_RAILS, "Are there 2n rail bytes, in line order, each 0 or 1?") \
    Q(14, PILGODUR_REFUSAL_HOLDS, "Are the holds whole, first those of lines from 2 up that are in the netlist, with value 0 or 1, " \
      "lines strictly rising, then those of pins of gates that are in the netlist, with value 2 to 5, by rising gate, first pin before " \
      "second, each pin once?") \
    Q(15, PILGODUR_REFUSAL_UNREAD, "Does some gate or output read the line?") \
    Q(16, PILGODUR_REFUSAL_DRAWING, "Does the drawing have whole fields of tags 1, 2, 7 in that order and no more, tag 1 as in " \
      "question 2, tag 2 of 1 to 8 outputs, tag 7 of 0 to 200 whole nodes, every level below n, every edge to a constant or a " \
      "listed node of a higher level, every output a constant or a listed node?") \
    Q(17, PILGODUR_REFUSAL_FUNCTIONS, "For every count of first contacts below n, does fixing them leave at most eight different " \
      "functions over all outputs?") \
    Q(18, PILGODUR_REFUSAL_RULES, "Does the rule sheet have whole fields of tags 1 and 8, then 1 to 64 of tag 9, in that order and no " \
      "more, tag 1 as in question 2, tag 8 of length 1 and value 1 to 8, each tag 9 of n bytes from 0 to 2 and a word below 2^m?") \
    Q(19, PILGODUR_REFUSAL_SHARED, "Does no input fit two rules?") \
    Q(20, PILGODUR_REFUSAL_UNRULED, "Does every input fit a rule?") \
    Q(21, PILGODUR_REFUSAL_PLACE, "Is the place a line from 2 up that is in the netlist, or the line after the last?")

#define PILGODUR_REFUSAL_(number, name, text) name = number,
enum pilgodur_refusal { PILGODUR_REFUSAL_NONE = 0, PILGODUR_QUESTIONS(PILGODUR_REFUSAL_) };
#undef PILGODUR_REFUSAL_

/* The way in which a pair shows a held line or pin; hidden if no code input shows it. */
enum pilgodur_way { PILGODUR_WAY_BOTH_LOW = 0, PILGODUR_WAY_BOTH_HIGH = 1, PILGODUR_WAY_HIDDEN = 2 };

/* Buffers of these lengths are always long enough. For probe's the first two together are: its board is the plain one, without the
 * lamp, and needs 52,842 and 10,586 bytes at most. */
#define PILGODUR_FILE_MAX 53059 /* a netlist file without notes: 4 + (3 + 5 * 10602) + (3 + 4 * 8) + (3 + 4) */
#define PILGODUR_LINES_MAX 10628 /* the lines of a netlist: 2 + 2 * 12 + 10602 */
#define PILGODUR_PAIRS_MAX 18 /* two bytes an output, and two for the lamp */
#define PILGODUR_SHEET_MAX 238128 /* a gate sheet: 22 * (10602 + 8 + 1) for the rows, 22 * 213 for the headings */
#define PILGODUR_TABLE_MAX 243 /* a table: 4 + (3 + 8) + 12 * (3 + 2 * 8) */

/* A refusal is one of enum pilgodur_refusal, a way one of enum pilgodur_way. */
typedef struct { uint32_t refusal, contacts, outputs, gates, depth; } pilgodur_checked;
typedef struct { uint32_t refusal, length; } pilgodur_built;
typedef struct { uint32_t refusal, word; } pilgodur_reading;
typedef struct { uint32_t refusal, input, output, way; } pilgodur_probed;
typedef struct { uint32_t refusal, place; } pilgodur_stepped;

/* Checks a table. Questions 1 to 7. Returns its contacts and outputs, and the gates and depth of its netlist, without the lamp. A
 * rail or constant has depth 0, a gate one more than its deeper source; the netlist's depth is its largest. */
pilgodur_checked pilgodur_check(const uint8_t *table, size_t table_len);

/* Builds the netlist of a table. Questions 1 to 7, then 9. Writes the netlist file to the start of file and returns its length,
 * which is 10 + 5 * gates + 4 * outputs; file needs at least that length. */
pilgodur_built pilgodur_build(const uint8_t *table, size_t table_len, uint8_t *file, size_t file_len);

/* Builds the netlist of a table with the lamp. Questions 1 to 7, then 9. The first gates are those of pilgodur_build's netlist, and 6
 * for each join follow, so gates is what pilgodur_check returns plus 6 * (outputs - 1). The outputs' lines are the same. Writes the
 * netlist file to the start of file and returns its length, which is 17 + 5 * gates + 4 * outputs; file needs at least that length.
 * The netlist's depth is at most 2 * ceil(log2(outputs)) more than without the lamp. */
pilgodur_built pilgodur_build_with_lamp(const uint8_t *table, size_t table_len, uint8_t *file, size_t file_len);

/* Reads all outputs off a table at an input. Questions 1 to 7, then 10. Returns a word in which output j has the weight 2^j. */
pilgodur_reading pilgodur_read_off(const uint8_t *table, size_t table_len, uint32_t input);

/* Runs a netlist, built by this library or not, with lines and pins held. Questions 11 to 14, then 9 for either buffer. Returns the
 * refusal.
 *   rails  2n bytes in line order, each 0 or 1; they need not be a code input.
 *   holds  three bytes each, lines before pins; may be empty.
 *   lines  gets every line's value, one byte each from line 0 up, held ones as held; needs one byte a line.
 *   pairs  gets two bytes an output, the values of its true line and its false line, and two more for the lamp if there is one;
 *          needs these bytes. */
uint32_t pilgodur_run(const uint8_t *netlist, size_t netlist_len, const uint8_t *rails, size_t rails_len,
                      const uint8_t *holds, size_t holds_len, uint8_t *lines, size_t lines_len,
                      uint8_t *pairs, size_t pairs_len);

/* Steps through a run: works out some lines in each call, rails like gates, with a hold list for each call. Questions 11 to 14, then 21,
 * then 9 for either buffer, which needs in every call what it needs in a run.
 *   place  the next line to work out: 2 at the start, then what the call before returned.
 *   count  how many lines to work out at most; place + count may pass 2^32.
 *   lines  the lines so far. Gets the constants' two bytes and the values of the lines worked out, held ones as held; every other byte
 *          stays. A byte before place that is neither 0 nor 1 is read as 1 by gates and pairs.
 *   pairs  gets what it gets in a run exactly if the place returned is the line after the last; else all its bytes stay. It may be
 *          another buffer in each call.
 * Returns the place plus count, or the line after the last if that is less. A count of 0 works out nothing. A line or pin is held
 * exactly if the list of the call that works out that line, or that pin's gate, has a hold of it; other holds have no effect. With the
 * same netlist and rails throughout, and each call given the place and the lines that the last accepted one left, lines and pairs are
 * in the end those of one run with just the holds that had effect. */
pilgodur_stepped pilgodur_step(const uint8_t *netlist, size_t netlist_len, const uint8_t *rails, size_t rails_len,
                               const uint8_t *holds, size_t holds_len, uint32_t place, uint32_t count,
                               uint8_t *lines, size_t lines_len, uint8_t *pairs, size_t pairs_len);

/* Probes one line or pin of a table's board, without the lamp. Questions 1 to 7, then 14, 15 and 9; a pin never gives 15. hold is one
 * hold, three bytes. Returns the smallest code input at which it makes some pair 00 or 11, the lowest such output there, and the way
 * it shows: 0 both low, for a hold at 0, or 1 both high, for a hold at 1. Such an input exists for every line that is read and for
 * every pin held at 0; held at 1 only the first pin of an AND can be without one. That pin is hidden: the way is 2, input and output
 * are 0. Writes to buffer the netlist file, then the value of every line at that input, or at input 0 if the pin is hidden, with the
 * line or pin held, one byte each from line 0 up; buffer needs the length of both. */
pilgodur_probed pilgodur_probe(const uint8_t *table, size_t table_len, const uint8_t *hold, size_t hold_len,
                               uint8_t *buffer, size_t buffer_len);

/* Writes the gate sheet of a netlist, built by this library or not. Questions 11 and 12, then 9. Writes the sheet to the start of
 * text and returns its length; text needs at least that length. */
pilgodur_built pilgodur_sheet(const uint8_t *netlist, size_t netlist_len, uint8_t *text, size_t text_len);

/* Makes the table of a drawing's functions. Questions 16, 17, then 9. The value of an output at an input: start at its number; from a
 * node go by the 1-edge if its contact is 1, else by the 0-edge, until a constant is reached. Writes to the start of table the one
 * accepted table with the drawing's contacts and outputs that has these values, and returns its length; table needs at least that
 * length. Two drawings with the same contacts and the same values give the same table. */
pilgodur_built pilgodur_from_drawing(const uint8_t *drawing, size_t drawing_len, uint8_t *table, size_t table_len);

/* Makes the table of a rule sheet. Questions 18, 19, 20, 17, then 9. An input fits a rule if each contact has the rule's value for it
 * or the rule has 2 there. Every input must fit just one rule: two that share an input are refused even with the same word. Writes to
 * the start of table the one accepted table with the sheet's contacts and outputs that gives at every input the word of the rule it
 * fits, and returns its length; table needs at least that length. The order of the rules makes no difference. */
pilgodur_built pilgodur_from_rules(const uint8_t *rules, size_t rules_len, uint8_t *table, size_t table_len);

#ifdef __cplusplus
}
#endif

#endif
