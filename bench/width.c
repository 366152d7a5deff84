#include "width.h"

#include <string.h>

/* Whether fixing so many first contacts leaves more than eight functions. */
static bool is_wide(const struct values *v, unsigned fixed)
{
    const uint8_t *function[8];
    unsigned count = 0;
    size_t size = (size_t)1 << (v->contacts - fixed);
    for (unsigned j = 0; j < v->outputs; j++)
        for (unsigned way = 0; way < 1u << fixed; way++) {
            unsigned k = 0;
            while (k < count && memcmp(function[k], v->of[j] + way * size, size) != 0)
                k++;
            if (k == 8)
                return true;
            if (k == count)
                function[count++] = v->of[j] + way * size;
        }
    return false;
}

/* One contact is fixed at least, since there are at most eight outputs. */
void find_width(const struct values *v, struct fault *fault)
{
    unsigned fixed = 1;
    while (fixed < v->contacts && !is_wide(v, fixed))
        fixed++;
    if (fixed == 1)
        say(fault, "fixing contact 0 leaves more than eight functions");
    else
        say(fault, "fixing contacts 0 to %u leaves more than eight functions", fixed - 1);
}
