/* Measures calls on every side: plain C, tuned C and the library. */
#ifndef MEASURE_H
#define MEASURE_H

#include "jobs.h"

enum side { PLAIN, TUNED, LIBRARY, SIDES };
enum { ROUNDS = 80 };

/* Does one unit of work on one side; leaves what it wrote in `written` and returns a number made from the answer. */
typedef uint64_t work(enum side side, const struct job *job);

extern uint8_t written[SIDES][BUFFER];

/* Adds a row for work on the job as it is now; `units` are the calls in one unit of work. Ends the program with a message if the
 * answers of the sides differ. */
void add_row(const char *name, work *work, unsigned units);

/* Adds the job as it is now to the last row: its calls take turns on all of its jobs. */
void add_job(void);

/* Measures all rows and prints them as a table. Returns a number that every answer went into, so that no call can be left out. */
uint64_t measure_rows(void);

#endif
