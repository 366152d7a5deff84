/* Prints the header's questions as the rows of README's table. Exit status 1: the parts of the version are not the version. */
#include <stdio.h>
#include <string.h>

#include "../include/pilgodur.h"

_Static_assert(PILGODUR_REFUSAL_NONE == 0 && PILGODUR_REFUSAL_FIELDS == 1 && PILGODUR_REFUSAL_NUMBERING == 7 &&
               PILGODUR_REFUSAL_BUFFER == 9 && PILGODUR_REFUSAL_HOLDS == 14 && PILGODUR_REFUSAL_UNREAD == 15 &&
               PILGODUR_REFUSAL_DRAWING == 16 && PILGODUR_REFUSAL_FUNCTIONS == 17 && PILGODUR_REFUSAL_RULES == 18 && PILGODUR_REFUSAL_SHARED == 19 &&
               PILGODUR_REFUSAL_UNRULED == 20 && PILGODUR_REFUSAL_PLACE == 21, "the refusals' numbers");
_Static_assert(PILGODUR_WAY_BOTH_LOW == 0 && PILGODUR_WAY_BOTH_HIGH == 1 && PILGODUR_WAY_HIDDEN == 2, "the ways' numbers");

#define ROW(number, name, text) printf("| %d | %s |\n", name, text);

int main(void)
{
    char version[32];
    PILGODUR_QUESTIONS(ROW)
    snprintf(version, sizeof version, "%d.%d.%d", PILGODUR_VERSION_MAJOR, PILGODUR_VERSION_MINOR, PILGODUR_VERSION_PATCH);
    return strcmp(version, PILGODUR_VERSION) == 0 ? 0 : 1;
}
