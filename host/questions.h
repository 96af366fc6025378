/*
 * Seeded questions for a program without C: lookup, which C isn't given, and
 * supply, margin and count once more. A question is two byte strings and a
 * number; all four are asked of it: of a task record, slots and an offset, and
 * of a site file, a factory file and the id in the offset's low half.
 */
#ifndef QUESTIONS_H
#define QUESTIONS_H

#include "inputs.h"

/* The longest byte string that the program reads, and how many slot records it has room for. */
enum { PART_MAX = 65536, PART_SLOTS_MAX = PART_MAX / SLOT_BYTES };

struct question {
    const uint8_t *a, *b;
    size_t a_len, b_len;
    uint64_t number;
};

/* What should come back, by definition. */
struct answers {
    uint64_t supply, margin, count; /* packed */
    const uint8_t *found;           /* a record, or NULL */
};

/* Makes question i of a seed in `input`, whose slots must point at SLOTS_ROOM bytes; it lives until the next one. */
struct question make_question(struct input *input, uint64_t seed, uint64_t i);
struct answers answers_of(const struct question *question);

#define QUESTION_CLASSES(X)                                                                                            \
    X(SUPPLY_NONE, "supply: 0")                                                                                        \
    X(SUPPLY_FULL, "supply: 2D")                                                                                       \
    X(SUPPLY_SOME, "supply: between, from a tick")                                                                     \
    X(SUPPLY_HALF, "supply: an odd number of half ticks")                                                              \
    X(SUPPLY_TURNS, "supply: over a turn and more, not a full one")                                                    \
    X(SUPPLY_LAST, "supply: at half tick 2w - 1")                                                                      \
    X(MARGIN_BELOW, "margin: below zero by a tick or more")                                                            \
    X(MARGIN_JUST_BELOW, "margin: half a tick below zero")                                                             \
    X(MARGIN_ZERO, "margin: zero")                                                                                     \
    X(MARGIN_JUST_ABOVE, "margin: half a tick above zero")                                                             \
    X(MARGIN_ABOVE, "margin: above zero by a tick or more")                                                            \
    X(MARGIN_OVER_D, "margin: e above D by two ticks or more")                                                         \
    X(MARGIN_MOST_NEED, "margin: e 1,000,000")                                                                         \
    X(COUNT_SOME, "count: some strips drop, not all")                                                                  \
    X(SHARED_SUPPLY, "supply: it would be more if every slot were the task's")                                         \
    X(SHARED_COUNT, "count: some strips drop, not all, on a board with others' slots beside the task's")               \
    X(OWNED_NONE, "supply: slots on the board, none of them the task's")                                               \
    X(OWNED_MANY, "supply: more than 64 slots of the task's")                                                          \
    X(OTHER_HIGH, "supply: another owner that differs from the id in its upper byte alone")                            \
    X(OTHER_LOW, "supply: another owner that differs from the id in its lower byte alone")                             \
    LOST_SUPPLIES(X)                                                                                                   \
    X(FOUND_SITE, "lookup: in the site file alone")                                                                    \
    X(FOUND_BOTH, "lookup: in both files")                                                                             \
    X(FOUND_FACTORY, "lookup: in the factory file alone")                                                              \
    X(FOUND_AGAIN, "lookup: twice in the file")                                                                        \
    X(FOUND_LAST, "lookup: the last whole record of the file")                                                         \
    X(FOUND_BEFORE_PART, "lookup: with a part record behind")                                                          \
    X(FOUND_NOT, "lookup: in neither file")                                                                            \
    X(FOUND_IN_PART, "lookup: in a part record alone")                                                                 \
    X(FOUND_EMPTY, "lookup: two empty files")

#define QUESTION_ID(id, text) id,
enum question_class { QUESTION_CLASSES(QUESTION_ID) QUESTION_CLASS_COUNT };
#undef QUESTION_ID

struct question_tally {
    uint64_t numbers[20]; /* refusals of the questions at a half tick */
    uint64_t met[QUESTION_CLASS_COUNT];
};

void question_tally_add(struct question_tally *tally, const struct question *question, const struct answers *answers);
/* Prints all counts; gives how many classes were never met. */
unsigned question_tally_print(const struct question_tally *tally);

#endif
