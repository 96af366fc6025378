/*
 * The cases by hand of docs/RULES.md, with the outcome that it prints; margins; strips that go round a small wheel;
 * verdicts that hang by a strip; boards of several owners; slots that start late; windows for whole rounds; slot tables
 * with their first bad slot; pairs of boards; and the bits of signed numbers. What is judged is asked for the verdict
 * alone as well, and what is judged or counted by whole rounds, too.
 */
#ifndef HAND_H
#define HAND_H

#include "tally.h"

/* How many cases there are. */
size_t hand_count(void);
/* Makes case i (input->slots must point at SLOTS_ROOM bytes), sets what should be said of it, gives its name. */
const char *hand_case(size_t i, struct input *input, struct expected *said);

/* How many pairs of boards there are. */
size_t hand_pair_count(void);
/*
 * Makes pair i, two boards that are the same for their owner (both inputs' slots must point at SLOTS_ROOM bytes), sets
 * what should be said of either when it is judged and counted, gives its name. `kind` is left to the caller.
 */
const char *hand_pair(size_t i, struct input *one, struct input *other, struct expected *judged,
                      struct expected *counted);

/* Bits and the margin that they stand for in two's complement. */
struct hand_bits {
    uint32_t bits;
    int32_t margin;
};

enum { HAND_BITS = 8 };
extern const struct hand_bits hand_bits[HAND_BITS];

#endif
