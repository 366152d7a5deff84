#include "report.h"

#include <inttypes.h>
#include <stdarg.h>
#include <stdio.h>
#include <stdlib.h>

#include "../include/pilgodur.h"

#define QUESTION(number, name, text) [number] = text,
static const char *const questions[] = {PILGODUR_QUESTIONS(QUESTION)};
#undef QUESTION

/* Not every number has a question. */
static const char *question_of(uint32_t refusal)
{
    const char *question = refusal < sizeof questions / sizeof *questions ? questions[refusal] : NULL;
    return question != NULL ? question : "an unknown question.";
}

static void say(const char *format, va_list args)
{
    fprintf(stderr, "%s: ", program_name);
    vfprintf(stderr, format, args);
    va_end(args);
}

static void say_refused(uint32_t refusal)
{
    fprintf(stderr, ": refused, number %" PRIu32 ": %s No.\n", refusal, question_of(refusal));
}

void fail(enum status status, const char *format, ...)
{
    va_list args;
    va_start(args, format);
    say(format, args);
    fputc('\n', stderr);
    exit(status);
}

void refuse(uint32_t refusal, const char *format, ...)
{
    va_list args;
    va_start(args, format);
    say(format, args);
    say_refused(refusal);
    exit(SAID_NO);
}

void tell(const char *format, ...)
{
    va_list args;
    va_start(args, format);
    say(format, args);
    fputc('\n', stderr);
}

void tell_refusal(uint32_t refusal, const char *format, ...)
{
    va_list args;
    va_start(args, format);
    say(format, args);
    say_refused(refusal);
}
