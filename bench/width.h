/* What question 17 says no to: which contacts leave too many functions when they are fixed. */
#ifndef WIDTH_H
#define WIDTH_H

#include "fault.h"

/* The values of every output, contact 0 weighing most in their places, so that fixing the first contacts leaves a part of them. */
struct values {
    unsigned contacts, outputs;
    uint8_t of[8][1 << 12];
};

/* Names the fewest first contacts that leave more than eight functions. */
void find_width(const struct values *values, struct fault *fault);

#endif
