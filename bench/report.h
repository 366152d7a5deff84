/* Exit statuses, and messages on standard error; most of them end the program. */
#ifndef REPORT_H
#define REPORT_H

#include <stdint.h>

enum status {
    ANSWERED = 0,
    SAID_NO = 1, /* a numbered question, or compare: the lists differ */
    MISUSED = 2, /* the command line is wrong */
    FAILED = 3,  /* a file cannot be read or written, or its text is of no form */
};

/* The program that a message names; each program defines its own. */
extern const char program_name[];

/* Says the program's name and the message, and ends the program. */
__attribute__((format(printf, 2, 3)))
_Noreturn void fail(enum status status, const char *format, ...);

/* The same for a refusal: the message names what is refused, and the question with its number follows. */
__attribute__((format(printf, 2, 3)))
_Noreturn void refuse(uint32_t refusal, const char *format, ...);

/* The same two messages, and the program goes on. */
__attribute__((format(printf, 1, 2)))
void tell(const char *format, ...);
__attribute__((format(printf, 2, 3)))
void tell_refusal(uint32_t refusal, const char *format, ...);

#endif
