/*
 * docs/RULES.md, "Cases by hand" and "The printed sheet"; margins; strips that go round a small wheel; verdicts that
 * hang by a strip; boards of several owners; slots that start late; windows for whole rounds; slot tables with their
 * first bad slot; pairs of boards; see hand.h.
 */
#include "hand.h"

#include <string.h>

#define LENGTH(array) (sizeof(array) / sizeof *(array))
#define PACKED(number, value) ((uint64_t)(number) * 4294967296u + (value))
#define ANSWERS(n) ((n) * ANSWER_BYTES)

/* A slot record's fields, in order; a loss that isn't named is zero. */
enum { SLOT_START, SLOT_END, SLOT_OWNER, SLOT_LOSS, SLOT_FIELDS };

struct hand_task {
    const char *name;
    struct task task;
    const uint32_t (*slots)[SLOT_FIELDS];
    size_t records;
    uint32_t number, firm, worst, at;
    int32_t margin;
};

/* P5 with a reply of another length. */
struct hand_reply {
    const char *name;
    size_t len;
    uint32_t number;
};

/* A half tick of T. */
struct hand_point {
    const char *name;
    uint64_t offset, count, supply;
    int32_t margin; /* in half ticks */
};

/* A half tick of a task with slots that start late. */
struct hand_late {
    const char *name;
    struct task task;
    const uint32_t (*slots)[SLOT_FIELDS];
    size_t records;
    uint64_t offset, count, supply;
    int32_t margin; /* in half ticks */
};

/* A task and its slot buffer that judging and the verdict alone refuse, and every question at a half tick. */
struct hand_refusal {
    const char *name;
    struct task task;
    const uint32_t (*slots)[SLOT_FIELDS];
    size_t records;
    uint64_t offset;
    uint32_t number;
};

/* A half tick of a task, of which the first engine counts up to 1,024 strips. */
struct hand_long {
    const char *name;
    struct task task;
    const uint32_t (*slots)[SLOT_FIELDS];
    size_t records;
    uint64_t offset, drops;
};

/* The same of a refusal, when it is judged and counted: 9 of the first engine may be another by whole rounds. */
struct hand_long_refusal {
    const char *name;
    struct task task;
    const uint32_t (*slots)[SLOT_FIELDS];
    size_t records;
    uint64_t offset;
    uint32_t number, rounds;
};

/* An offset that T doesn't have. */
struct hand_beyond {
    const char *name;
    uint64_t offset;
};

/* Strips along a wheel of 3 ticks. */
struct hand_round {
    const char *name;
    uint32_t h, k;
    uint64_t offset, drops;
};

struct hand_grant {
    const char *name;
    size_t n;
    uint64_t v, loss, e, m;
    uint8_t marks[5], after[5];
    uint64_t result;
};

/* A record of a site and its answer, byte by byte. */
struct hand_sign {
    struct task task;
    uint8_t answer[ANSWER_BYTES];
};

struct hand_site {
    const char *name;
    uint8_t records, signs[3]; /* how many, and which of the signs below */
    size_t task_len, slots_len, reply_len;
    uint32_t number;
};

/* A slot buffer, the part of it that is a task's board, and what which slot says of it. */
struct hand_table {
    const char *name;
    uint32_t id, w, e, first, count;
    const uint32_t (*slots)[SLOT_FIELDS];
    size_t records;
    uint32_t number, place;
};

/* Two boards with the same slots for a task, what it is judged, and a half tick of it. */
struct hand_pair {
    const char *name;
    struct task task; /* of the first board */
    const uint32_t (*slots)[SLOT_FIELDS];
    size_t records;
    uint32_t first, count; /* of the other one */
    const uint32_t (*other_slots)[SLOT_FIELDS];
    size_t other_records;
    uint8_t answer[ANSWER_BYTES];
    uint64_t offset, drops, supply;
    int32_t margin; /* in half ticks */
};

/* T in buffers of other lengths; a count is asked for at half tick 9. */
struct hand_length {
    const char *name;
    enum kind kind;
    size_t task_len, slots_len;
    uint32_t number;
};

#define SLOTS(...) (const uint32_t[][SLOT_FIELDS]){__VA_ARGS__}, LENGTH(((const uint32_t[][SLOT_FIELDS]){__VA_ARGS__}))
#define BARE NULL, 0
#define RECORDS(n) ((n) * SLOT_BYTES)

/* T of the paper: w 10, slot (0,8), e 4, D 5, h 14, k 2; one field is changed at a time. Its id is 7. */
#define T(E, M) {7, 10, (E), 5, 14, (M), 2, 0, 1}
#define T_SLOT SLOTS({0, 8, 7})
/* The same with e 3, on another part of the slots; and that with a hundred ticks for each. */
#define T_3(FIRST, COUNT) {7, 10, 3, 5, 14, 1, 2, (FIRST), (COUNT)}
#define T_100 {7, 1000, 300, 500, 1400, 1, 2, 0, 1}
/* The same with other strips to be painted and looked at. */
#define T_MK(M, K) {7, 10, 4, 5, 14, (M), (K), 0, 1}
/* The same with another period and so many strips, of which one is to be painted. */
#define T_H(H, K) {7, 10, 4, 5, (H), 1, (K), 0, 1}
/* The same with another id, on another part of the slots. */
#define T_OF(ID, FIRST, COUNT) {(ID), 10, 4, 5, 14, 1, 2, (FIRST), (COUNT)}

/* Slots of one tick each, so many ticks apart, whose owners are a and b by turns, all with the same loss. */
#define TICK(i, apart, owner, loss) {(i) * (apart), (i) * (apart) + 1, (owner), (loss)}
#define FOUR(i, apart, a, b, loss) \
    TICK(i, apart, a, loss), TICK((i) + 1, apart, b, loss), TICK((i) + 2, apart, a, loss), TICK((i) + 3, apart, b, loss)
#define SIXTEEN(i, ...) \
    FOUR(i, __VA_ARGS__), FOUR((i) + 4, __VA_ARGS__), FOUR((i) + 8, __VA_ARGS__), FOUR((i) + 12, __VA_ARGS__)
#define SIXTY_FOUR(i, ...) \
    SIXTEEN(i, __VA_ARGS__), SIXTEEN((i) + 16, __VA_ARGS__), SIXTEEN((i) + 32, __VA_ARGS__), \
    SIXTEEN((i) + 48, __VA_ARGS__)
#define HALF_A_BOARD(i, ...) \
    SIXTY_FOUR(i, __VA_ARGS__), SIXTY_FOUR((i) + 64, __VA_ARGS__), SIXTY_FOUR((i) + 128, __VA_ARGS__), \
    SIXTY_FOUR((i) + 192, __VA_ARGS__)
#define BOARD(...) HALF_A_BOARD(0, __VA_ARGS__), HALF_A_BOARD(256, __VA_ARGS__)

/* T's slots, which fill a wheel of 513; T's and another's by turns; T's with a tick between; slots without a tick. */
static const uint32_t ticks[513][SLOT_FIELDS] = {BOARD(1, 7, 7, 0), TICK(512, 1, 7, 0)};
static const uint32_t by_turns[512][SLOT_FIELDS] = {BOARD(1, 7, 9, 0)};
static const uint32_t apart[512][SLOT_FIELDS] = {BOARD(2, 7, 7, 0)};
static const uint32_t nothing[513][SLOT_FIELDS] = {{0, 0, 7}};

/* The first three once more, with each tick lost where its slot touches none of its owner's. */
static const uint32_t late[512][SLOT_FIELDS] = {BOARD(1, 7, 7, 1)};
static const uint32_t late_by_turns[512][SLOT_FIELDS] = {BOARD(1, 7, 9, 1)};
static const uint32_t late_apart[512][SLOT_FIELDS] = {BOARD(2, 7, 7, 1)};

static const struct hand_task tasks[] = {
    {"P5", T(4, 1), T_SLOT, 0, 0, 2, 9, -1},
    {"P6", T(4, 0), T_SLOT, 0, 1, 2, 9, -1},
    {"P7", T(3, 1), T_SLOT, 0, 1, 0, 0, 0},
    {"P8", T(6, 1), T_SLOT, 0, 0, 2, 0, -3},
    {"P9", {7, 10, 4, 5, 14, 1, 2, 0, 2}, SLOTS({0, 4, 7}, {4, 8, 7}), 0, 0, 2, 9, -1},
    {"P10", {7, 10, 1, 5, 5, 1, 3, 0, 0}, BARE, 0, 0, 3, 0, -1},
    {"P11, the sheet's first line", {1, 55, 27, 70, 70, 3, 10, 0, 2}, SLOTS({11, 21, 1}, {33, 43, 1}), 0, 1, 7, 39,
     -7},
    {"the sheet's second line", {2, 10, 4, 5, 14, 1, 2, 0, 1}, SLOTS({0, 8, 2}), 0, 0, 2, 9, -1},
    {"the sheet's third line", {3, 10, 0, 5, 14, 1, 2, 0, 1}, SLOTS({0, 8, 2}), 6, 0, 0, 0, 0},
    {"D 14 passes", {7, 10, 4, 14, 14, 1, 2, 0, 1}, T_SLOT, 0, 1, 0, 0, 6},
    {"D 15 is refusal 8", {7, 10, 4, 15, 14, 1, 2, 0, 1}, T_SLOT, 8, 0, 0, 0, 0},
    {"k 1,024 passes", {7, 10, 3, 5, 14, 1, 1024, 0, 1}, T_SLOT, 0, 1, 0, 0, 0},
    {"a slot (0,10) passes", T(4, 1), SLOTS({0, 10, 7}), 0, 1, 0, 0, 1},
    {"a slot (0,11) is refusal 16", T(4, 1), SLOTS({0, 11, 7}), 16, 0, 0, 0, 0},
    {"a slot (0,11) and e 0 is refusal 16", T(0, 1), SLOTS({0, 11, 7}), 16, 0, 0, 0, 0},
    {"a slot (8,8) is refusal 15", T(4, 1), SLOTS({8, 8, 7}), 15, 0, 0, 0, 0},
    {"slots (0,4), (3,8) are refusal 17", {7, 10, 4, 5, 14, 1, 2, 0, 2}, SLOTS({0, 4, 7}, {3, 8, 7}), 17, 0, 0, 0, 0},
    {"w 0 and e 0 is refusal 4", {7, 0, 0, 5, 14, 1, 2, 0, 1}, T_SLOT, 4, 0, 0, 0, 0},
    /* D 2: the supply at ticks 6 to 10 is 2 1 0 1 2, so that tick 8 alone has the least. */
    {"tick 8 alone below zero, no odd half tick as low", {7, 10, 1, 2, 14, 1, 2, 0, 1}, T_SLOT, 0, 1, 1, 7, -1},
    {"tick 8 alone two below zero", {7, 10, 2, 2, 14, 1, 2, 0, 1}, T_SLOT, 0, 1, 1, 5, -2},
    {"tick 0 alone below zero", {7, 10, 1, 2, 14, 1, 2, 0, 1}, SLOTS({2, 10, 7}), 0, 1, 1, 0, -1},
    {"tick 9 alone below zero", {7, 10, 1, 2, 14, 1, 2, 0, 1}, SLOTS({1, 9, 7}), 0, 1, 1, 9, -1},
    {"a turn and 2 ticks: tick 8 alone at zero", {7, 10, 8, 12, 14, 1, 2, 0, 1}, T_SLOT, 0, 1, 0, 0, 0},
    {"a turn and 2 ticks: tick 8 alone nearest, above zero", {7, 10, 3, 12, 14, 1, 2, 0, 1}, T_SLOT, 0, 1, 0, 0, 5},
    {"two turns and 5 ticks give more than e 10", {7, 10, 10, 25, 25, 1, 2, 0, 1}, T_SLOT, 0, 1, 0, 0, 9},
    {"two turns and 5 ticks give no e 26", {7, 10, 26, 25, 25, 1, 2, 0, 1}, T_SLOT, 0, 0, 2, 0, -7},
    {"two whole turns give e 16", {7, 10, 16, 20, 20, 2, 2, 0, 1}, T_SLOT, 0, 1, 0, 0, 0},
    {"two whole turns give no e 17", {7, 10, 17, 20, 20, 1, 2, 0, 1}, T_SLOT, 0, 0, 2, 0, -1},
    {"the least margin of all", {7, 10, 1000000, 5, 5, 1, 3, 0, 0}, BARE, 0, 0, 3, 0, -1000000},
    {"the largest margin of all", {7, 1, 1, 1000000, 1000000, 1, 1, 0, 1}, SLOTS({0, 1, 7}), 0, 1, 0, 0, 999999},
    {"a full wheel that gives just e", {7, 1, 1000000, 1000000, 1000000, 1, 1, 0, 1}, SLOTS({0, 1, 7}), 0, 1, 0, 0, 0},
    {"P5 beside another owner's slot", T_OF(7, 0, 2), SLOTS({0, 8, 7}, {8, 10, 9}), 0, 0, 2, 9, -1},
    {"P5 between others' slots", T_OF(2, 0, 3), SLOTS({0, 1, 9}, {1, 9, 2}, {9, 10, 9}), 0, 0, 2, 11, -1},
    /* Ticks 0 to 3, 6 and 7: the supply at ticks 0 to 9 is 4 3 3 3 2 2 3 3 3 4. */
    {"another's slot amid T's", T_OF(7, 0, 3), SLOTS({0, 4, 7}, {4, 6, 9}, {6, 8, 7}), 0, 0, 2, 1, -2},
    {"no slot of its own among others': all drop", T_OF(8, 0, 2), SLOTS({0, 8, 7}, {8, 10, 9}), 0, 0, 2, 0, -4},
    /* Ticks 0 to 3 alone: the supply at ticks 0 to 9 is 4 3 2 1 0 0 1 2 3 4, so one may arrive from 9 to 10. */
    {"an owner with another upper byte", T_OF(7, 0, 2), SLOTS({0, 4, 7}, {4, 8, 263}), 0, 0, 2, 1, -4},
    /* With e 3 strips drop from 1 to 8; were the other's ticks the task's, too, none would, as in P7. */
    {"the same with e 3", T_3(0, 2), SLOTS({0, 4, 7}, {4, 8, 263}), 0, 0, 2, 3, -3},
    {"an owner without the upper byte", T_OF(519, 0, 2), SLOTS({0, 4, 519}, {4, 8, 7}), 0, 0, 2, 1, -4},
    {"an owner with another lower byte", T_OF(519, 0, 2), SLOTS({0, 4, 519}, {4, 8, 518}), 0, 0, 2, 1, -4},
    {"an owner with the bytes exchanged", T_OF(519, 0, 2), SLOTS({0, 4, 519}, {4, 8, 1794}), 0, 0, 2, 1, -4},
    {"id 0 has owner 0's slots", T_OF(0, 0, 2), SLOTS({0, 8, 0}, {8, 10, 1}), 0, 0, 2, 9, -1},
    {"id 0 has neither 1's nor 256's", T_OF(0, 0, 3), SLOTS({0, 4, 0}, {4, 6, 1}, {6, 8, 256}), 0, 0, 2, 1, -4},
    {"id 65,535 has its slots", T_OF(65535, 0, 2), SLOTS({0, 8, 65535}, {8, 10, 65534}), 0, 0, 2, 9, -1},
    {"id 65,535 has neither 255's nor 65,280's", T_OF(65535, 0, 3),
     SLOTS({0, 4, 65535}, {4, 6, 255}, {6, 8, 65280}), 0, 0, 2, 1, -4},
    {"its id as owner outside the part", T_OF(7, 1, 1), SLOTS({4, 8, 7}, {0, 4, 7}, {4, 8, 7}), 0, 0, 2, 1, -4},
    {"512 slots of the task's fill a wheel", {7, 512, 3, 3, 5, 1, 2, 0, 512}, ticks, 513, 0, 1, 0, 0, 0},
    {"512 slots, each other one the task's", {7, 512, 1, 1, 2, 0, 2, 0, 512}, by_turns, 512, 0, 1, 2, 1, -1},
    {"512 slots, each other tick the task's", {7, 1024, 1, 1, 2, 1, 2, 0, 512}, apart, 512, 0, 0, 2, 1, -1},
    {"P5 with m as large as k", T(4, 2), T_SLOT, 0, 0, 2, 9, -1},
    {"P7 with m as large as k", T(3, 2), T_SLOT, 0, 1, 0, 0, 0},
    {"P8 with m 0", T(6, 0), T_SLOT, 0, 1, 2, 0, -3},
    {"P9 with m 0", {7, 10, 4, 5, 14, 0, 2, 0, 2}, SLOTS({0, 4, 7}, {4, 8, 7}), 0, 1, 2, 9, -1},
    {"P10 with m 0", {7, 10, 1, 5, 5, 0, 3, 0, 0}, BARE, 0, 1, 3, 0, -1},
    {"P11 with m 4", {1, 55, 27, 70, 70, 4, 10, 0, 2}, SLOTS({11, 21, 1}, {33, 43, 1}), 0, 0, 7, 39, -7},
    /*
     * Half a tick after ticks 4 to 8 a strip of T drops. A strip goes on by 4 ticks of 10: from an even tick it meets
     * three of these in five strips, from an odd one two. So on an average 5 of 10 drop, and 6 of them at worst.
     */
    {"T with one strip, to be painted", T_MK(1, 1), T_SLOT, 0, 0, 1, 9, -1},
    {"T with one strip, which may drop", T_MK(0, 1), T_SLOT, 0, 1, 1, 9, -1},
    {"T with ten strips, six may drop", T_MK(4, 10), T_SLOT, 0, 1, 6, 1, -1},
    {"T with ten strips, five may drop", T_MK(5, 10), T_SLOT, 0, 0, 6, 1, -1},
    {"T with 1,024 strips, 615 may drop", T_MK(409, 1024), T_SLOT, 0, 1, 615, 9, -1},
    {"T with 1,024 strips, 614 may drop", T_MK(410, 1024), T_SLOT, 0, 0, 615, 9, -1},
    /* Half a tick after ticks 1 and 2 of 3 a strip drops, so of three in a row always two: as many as on an average. */
    {"two of three drop from everywhere, and may", {7, 3, 1, 1, 1, 1, 3, 0, 1}, SLOTS({0, 2, 7}), 0, 1, 2, 1, -1},
    {"two of three drop from everywhere, one may", {7, 3, 1, 1, 1, 2, 3, 0, 1}, SLOTS({0, 2, 7}), 0, 0, 2, 1, -1},
    /*
     * D 1, e 1: strips drop from just after the tick before a gap to its end. Two drop, of which one may, where one of
     * them is at the short gap and the other well inside the long one: no strip is at the start of the long one.
     */
    {"it shows from the last gap, with its first strip", {7, 30, 1, 1, 20, 1, 2, 0, 3},
     SLOTS({0, 3, 7}, {7, 15, 7}, {16, 30, 7}), 0, 0, 2, 29, -1},
    {"it shows from the last gap, with its last strip", {7, 30, 1, 1, 10, 1, 2, 0, 3},
     SLOTS({0, 3, 7}, {7, 15, 7}, {16, 30, 7}), 0, 0, 2, 9, -1},
    {"it shows from the first gap", {7, 30, 1, 1, 12, 1, 2, 0, 3}, SLOTS({0, 3, 7}, {4, 13, 7}, {17, 30, 7}), 0, 0, 2,
     5, -1},
    {"it shows from a gap at the wheel's end", {7, 20, 1, 1, 10, 1, 2, 0, 2}, SLOTS({1, 6, 7}, {10, 20, 7}), 0, 0, 2,
     19, -1},
    /* Without T's first tick the supply at ticks 0 to 9 is 4 5 5 5 4 3 2 2 2 3: with e 3 strips drop from 5 to 9. */
    {"P7 with its first tick lost: strips drop", T(3, 1), SLOTS({0, 8, 7, 1}), 0, 1, 1, 3, -1},
    {"the same with m as large as k", T(3, 2), SLOTS({0, 8, 7, 1}), 0, 0, 1, 3, -1},
    {"the same with e 2: none drops", T(2, 1), SLOTS({0, 8, 7, 1}), 0, 1, 0, 0, 0},
    {"all of T's ticks but one lost", T(1, 1), SLOTS({0, 8, 7, 7}), 0, 0, 2, 15, -1},
    {"all of T's ticks lost", T(3, 1), SLOTS({0, 8, 7, 8}), 0, 0, 2, 0, -3},
    {"a tick more than T has is refusal 18", T(3, 1), SLOTS({0, 8, 7, 9}), 18, 0, 0, 0, 0},
    {"P9 with a loss in the slot that touches", T_OF(7, 0, 2), SLOTS({0, 4, 7}, {4, 8, 7, 4}), 0, 0, 2, 9, -1},
    {"P9 with a loss in the slot before that", T_OF(7, 0, 2), SLOTS({0, 4, 7, 1}, {4, 8, 7}), 0, 0, 2, 9, -2},
    {"P9 with a loss in both", T_OF(7, 0, 2), SLOTS({0, 4, 7, 1}, {4, 8, 7, 1}), 0, 0, 2, 9, -2},
    {"a tick between the two, and the second loses", T_OF(7, 0, 2), SLOTS({0, 4, 7}, {5, 8, 7, 1}), 0, 0, 2, 1, -2},
    {"behind a slot that is all lost nothing is lost", T_3(0, 2), SLOTS({0, 4, 7, 4}, {4, 8, 7, 4}), 0, 0, 2, 3, -3},
    {"the same with three slots that touch", T_3(0, 3), SLOTS({0, 2, 7, 2}, {2, 4, 7, 2}, {4, 8, 7, 4}),
     0, 0, 2, 11, -2},
    {"round the end of the wheel nothing is lost", T_3(0, 2), SLOTS({0, 4, 7, 4}, {6, 10, 7}), 0, 1, 0, 0, 0},
    {"the slot before it loses", T_3(0, 2), SLOTS({0, 4, 7, 4}, {6, 10, 7, 1}), 0, 1, 1, 0, -1},
    {"round the end behind a slot that is all lost", T_3(0, 2), SLOTS({0, 4, 7, 4}, {6, 10, 7, 4}), 0, 0, 2, 3, -3},
    {"round the end, and another's slot amid the two", T_3(0, 3), SLOTS({0, 4, 7, 2}, {4, 6, 9, 2}, {6, 10, 7}),
     0, 1, 0, 0, 0},
    {"round the end another's slot isn't touched", T_3(0, 3), SLOTS({0, 4, 7, 1}, {4, 6, 7}, {6, 10, 9}),
     0, 0, 2, 7, -3},
    {"a slot that ends at 9 isn't touched from 0", T_3(0, 2), SLOTS({0, 4, 7, 1}, {5, 9, 7}), 0, 1, 0, 0, 0},
    {"a slot that ends at 10 is touched from 0", T_3(0, 2), SLOTS({0, 4, 7, 1}, {5, 10, 7}), 0, 1, 0, 0, 1},
    {"a slot that ends at 10 isn't touched from 1", T_3(0, 2), SLOTS({1, 4, 7, 1}, {5, 10, 7}), 0, 1, 1, 0, -1},
    {"a slot that fills the wheel loses nothing", T(4, 1), SLOTS({0, 10, 7, 10}), 0, 1, 0, 0, 1},
    {"the same with e 5 and m as large as k", T(5, 2), SLOTS({0, 10, 7, 10}), 0, 1, 0, 0, 0},
    {"a tick more than the wheel has is refusal 18", T(4, 1), SLOTS({0, 10, 7, 11}), 18, 0, 0, 0, 0},
    {"two that fill the wheel lose nothing", {7, 10, 5, 5, 14, 2, 2, 0, 2}, SLOTS({0, 4, 7, 4}, {4, 10, 7, 6}),
     0, 1, 0, 0, 0},
    {"with another the second loses", T_3(0, 2), SLOTS({0, 4, 9, 4}, {4, 10, 7, 1}), 0, 0, 2, 15, -3},
    {"the only tick of a wheel isn't lost", {7, 1, 1, 1, 1, 1, 1, 0, 1}, SLOTS({0, 1, 7, 1}), 0, 1, 0, 0, 0},
    {"another's slot before it isn't touched", {7, 10, 2, 5, 14, 1, 2, 0, 2}, SLOTS({0, 2, 9}, {2, 10, 7, 1}),
     0, 1, 0, 0, 0},
    {"a record before the part isn't touched", T_3(1, 1), SLOTS({0, 2, 7}, {2, 10, 7, 1}), 0, 1, 1, 0, -1},
    {"a record behind the part isn't touched round the end", T_3(0, 1), SLOTS({0, 8, 7, 1}, {8, 10, 7}),
     0, 1, 1, 3, -1},
    {"in the part it is", T_3(0, 2), SLOTS({0, 8, 7, 1}, {8, 10, 7}), 0, 1, 0, 0, 2},
    {"an owner with another upper byte isn't touched", T_3(0, 2), SLOTS({0, 8, 7, 1}, {8, 10, 263}), 0, 1, 1, 3, -1},
    {"another owner's loss is nothing to P5", T_OF(7, 0, 2), SLOTS({0, 8, 7}, {8, 10, 9, 2}), 0, 0, 2, 9, -1},
    /* On a wheel this long both bytes of a loss count. */
    {"a loss of 1", T_100, SLOTS({0, 800, 7, 1}), 0, 1, 1, 201, -1},
    {"a loss of 256", T_100, SLOTS({0, 800, 7, 256}), 0, 0, 2, 1001, -256},
    {"a loss of 257", T_100, SLOTS({0, 800, 7, 257}), 0, 0, 2, 1001, -257},
    {"a loss of 800 is all of (0,800)", T_100, SLOTS({0, 800, 7, 800}), 0, 0, 2, 0, -300},
    {"a loss of 801 is refusal 18", T_100, SLOTS({0, 800, 7, 801}), 18, 0, 0, 0, 0},
    {"a loss of 1,024 is refusal 18", T_100, SLOTS({0, 800, 7, 1024}), 18, 0, 0, 0, 0},
    {"512 slots of a tick each that fill a wheel lose none", {7, 512, 3, 3, 5, 1, 2, 0, 512}, late, 512, 0, 1, 0, 0, 0},
    {"with a tick beside them the first is lost", {7, 513, 3, 3, 5, 1, 2, 0, 512}, late, 512, 0, 1, 1, 0, -2},
    {"by turns with another's each one is lost", {7, 512, 1, 1, 2, 0, 2, 0, 512}, late_by_turns, 512, 0, 1, 2, 0, -1},
    {"with ticks between each one is lost", {7, 1024, 1, 1, 2, 1, 2, 0, 512}, late_apart, 512, 0, 0, 2, 0, -1},
    {"513 slots are refusal 14", {7, 513, 4, 5, 14, 1, 2, 0, 513}, ticks, 513, 14, 0, 0, 0, 0},
    {"another owner's (8,8) is refusal 15", T_OF(7, 0, 2), SLOTS({0, 8, 7}, {8, 8, 9}), 15, 0, 0, 0, 0},
    {"another owner's (8,11) is refusal 16", T_OF(7, 0, 2), SLOTS({0, 8, 7}, {8, 11, 9}), 16, 0, 0, 0, 0},
    {"another owner's (7,10) is refusal 17", T_OF(7, 0, 2), SLOTS({0, 8, 7}, {7, 10, 9}), 17, 0, 0, 0, 0},
    {"another owner's loss of 3 in (8,10) is refusal 18", T_OF(7, 0, 2), SLOTS({0, 8, 7}, {8, 10, 9, 3}), 18, 0, 0, 0,
     0},
    {"a loss of 65,535 is refusal 18", T(4, 1), SLOTS({0, 8, 7, 65535}), 18, 0, 0, 0, 0},
    {"a loss of 256 and e 0 is refusal 18", T(0, 1), SLOTS({0, 8, 7, 256}), 18, 0, 0, 0, 0},
    {"(3,8) with a loss of 6 is refusal 17", T_OF(7, 0, 2), SLOTS({0, 4, 7}, {3, 8, 7, 6}), 17, 0, 0, 0, 0},
    {"id 65,536 is refusal 19", T_OF(65536, 0, 1), SLOTS({0, 8, 0}), 19, 0, 0, 0, 0},
    {"id 65,543 is refusal 19, though 7 has a slot", T_OF(65543, 0, 1), T_SLOT, 19, 0, 0, 0, 0},
    {"id 2^32 - 1 is refusal 19", T_OF(UINT32_MAX, 0, 1), SLOTS({0, 8, 65535}), 19, 0, 0, 0, 0},
    {"id 65,543 and one record too few is refusal 3", T_OF(65543, 0, 2), T_SLOT, 3, 0, 0, 0, 0},
    {"id 65,543 and w 0 is refusal 19", {65543, 0, 4, 5, 14, 1, 2, 0, 1}, T_SLOT, 19, 0, 0, 0, 0},
    {"id 65,543 and (8,8) is refusal 19", T_OF(65543, 0, 1), SLOTS({8, 8, 7}), 19, 0, 0, 0, 0},
};

/* P11 with so many strips: 70 ticks are a turn and 15, so a strip is back after eleven, on places 5 ticks apart. */
#define P11(K) {1, 55, 27, 70, 70, 3, (K), 0, 2}, SLOTS({11, 21, 1}, {33, 43, 1})
/* Half of a long wheel, a tick for each strip: strips drop from just after tick 1,499 to the wheel's end. */
#define HALF_WHEEL(K) {7, 3000, 1, 1, 1, 1, (K), 0, 1}, SLOTS({0, 1500, 7})

/*
 * The answers by whole rounds; the first engine gives the same up to k 1,024, and else 9.
 *
 * A strip of T goes on by 4 ticks of 10 and is back after five: a round. From half a tick after tick 0 they are half a
 * tick after 0, 4, 8, 2, 6, of which those after 4, 8 and 6 drop: three of five, and of odd ticks two, 5 and 7. On the
 * ticks themselves 5 to 8 drop: two of five from an even tick and two from an odd one. So in 200,000 rounds 600,000
 * drop at worst, first from half tick 1. Four strips over are three drops more where the one that is left out is
 * painted: from 4, not from 0; and one over is a drop more from 4, too, which is half tick 9.
 */
static const struct hand_task long_tasks[] = {
    {"T with 1,023 strips: 204 rounds and three strips", T_MK(1, 1023), T_SLOT, 0, 1, 614, 1, -1},
    {"T with 1,024 strips: 204 rounds and four", T_MK(1, 1024), T_SLOT, 0, 1, 615, 9, -1},
    {"k 1,025 is refusal 9", T_MK(1, 1025), T_SLOT, 0, 1, 615, 1, -1},
    {"T with 1,026 strips: 205 rounds and one", T_MK(1, 1026), T_SLOT, 0, 1, 616, 9, -1},
    {"T with 999,999 strips: 199,999 rounds and four", T_MK(1, 999999), T_SLOT, 0, 1, 600000, 9, -1},
    {"T with 1,000,000 strips, 600,000 may drop", T_MK(400000, 1000000), T_SLOT, 0, 1, 600000, 1, -1},
    {"T with 1,000,000 strips, 599,999 may drop", T_MK(400001, 1000000), T_SLOT, 0, 0, 600000, 1, -1},
    {"T with 1,000,000 strips, none may drop", T_MK(1000000, 1000000), T_SLOT, 0, 0, 600000, 1, -1},
    {"T with 1,000,000 strips, all may drop", T_MK(0, 1000000), T_SLOT, 0, 1, 600000, 1, -1},
    {"T with 1,000,001 strips is refusal 9", T_MK(1, 1000001), T_SLOT, 9, 0, 0, 0, 0},
    {"k 2^32 - 1 is refusal 9", T_MK(1, UINT32_MAX), T_SLOT, 9, 0, 0, 0, 0},
    {"k 2^20 is refusal 9", T_MK(1, 1048576), T_SLOT, 9, 0, 0, 0, 0},
    /* The same places; the last strip comes after a million million ticks. */
    {"T with 99,999 turns and 4 ticks between strips", T_H(999994, 1000000), T_SLOT, 0, 1, 600000, 1, -1},
    {"the same with 999,999 strips", T_H(999994, 999999), T_SLOT, 0, 1, 600000, 9, -1},
    /* A round of one strip: all are where the first is, and half a tick after tick 4 it drops. */
    {"h twice w: all of 1,000,000 strips drop", T_H(20, 1000000), T_SLOT, 0, 0, 1000000, 9, -1},
    {"h twice w: all of 1,025 strips drop", T_H(20, 1025), T_SLOT, 0, 0, 1025, 9, -1},
    {"h 100,000 times w", T_H(1000000, 1000000), T_SLOT, 0, 0, 1000000, 9, -1},
    /*
     * A round of ten: a strip goes on by 3 ticks and meets each tick. Half a tick after them five of ten drop. Nine
     * over are five drops more where the one before the first is painted: that is 7 ticks on, so not from 0 or 1.
     */
    {"h 13: 100,000 rounds of ten", T_H(13, 1000000), T_SLOT, 0, 1, 500000, 1, -1},
    {"h 13: 99,999 rounds of ten and nine strips", T_H(13, 999999), T_SLOT, 0, 1, 500000, 5, -1},
    {"P7 with 1,000,000 strips, all to be painted", {7, 10, 3, 5, 14, 1000000, 1000000, 0, 1}, T_SLOT, 0, 1, 0, 0, 0},
    {"P8 with 1,000,000 strips", {7, 10, 6, 5, 14, 1, 1000000, 0, 1}, T_SLOT, 0, 0, 1000000, 0, -3},
    {"P10 with 1,000,000 strips", {7, 10, 1, 5, 5, 1, 1000000, 0, 0}, BARE, 0, 0, 1000000, 0, -1},
    /* Seven places of eleven are late, and the one strip over is a drop more. */
    {"P11 with a round of strips", P11(11), 0, 1, 7, 3, -7},
    {"P11 with 1,024 strips: 93 rounds and one", P11(1024), 0, 1, 652, 3, -7},
    {"P11 with 1,025 strips", P11(1025), 0, 1, 653, 3, -7},
    {"P11 with 999,999 strips: 90,909 rounds", P11(999999), 0, 1, 636363, 3, -7},
    {"P11 with 1,000,000 strips", P11(1000000), 0, 1, 636364, 3, -7},
    /* With e 3 and its first tick lost T drops half a tick after 5 to 8, and on 6, 7 and 8: two of five from tick 0. */
    {"the first tick lost, 400,000 may drop", {7, 10, 3, 5, 14, 600000, 1000000, 0, 1}, SLOTS({0, 8, 7, 1}), 0, 1,
     400000, 0, -1},
    {"the first tick lost, 399,999 may drop", {7, 10, 3, 5, 14, 600001, 1000000, 0, 1}, SLOTS({0, 8, 7, 1}), 0, 0,
     400000, 0, -1},
    {"another owner's slot amid T's: all drop from half tick 1", {7, 10, 4, 5, 14, 1, 1000000, 0, 3},
     SLOTS({0, 4, 7}, {4, 6, 9}, {6, 8, 7}), 0, 0, 1000000, 1, -2},
    {"one tick, which is T's", {7, 1, 1, 1, 1, 1, 1000000, 0, 1}, SLOTS({0, 1, 7}), 0, 1, 0, 0, 0},
    {"one tick, which isn't", {7, 1, 1, 1, 1, 1, 1000000, 0, 0}, BARE, 0, 0, 1000000, 0, -1},
    /*
     * A round of 3,000, and half a tick after 1,501 of them, from 1,499 on, strips drop: 1,200 strips go among these.
     * 1,800 meet all of them from 1,200 and a half on, whose last strip is at the wheel's end: half tick 2,401.
     */
    {"two fifths of a round, all late", HALF_WHEEL(1200), 0, 0, 1200, 2999, -1},
    {"three fifths of a round", HALF_WHEEL(1800), 0, 1, 1501, 2401, -1},
    {"three rounds", HALF_WHEEL(9000), 0, 1, 4503, 1, -1},
    {"three rounds and three fifths", HALF_WHEEL(10800), 0, 1, 6004, 2401, -1},
    /* Late are the ticks from 5 on, and half a tick after 4 already. By 9 ticks of 12 a strip is back after four. */
    {"four places of twelve", {7, 12, 1, 1, 9, 1, 1000000, 0, 1}, SLOTS({0, 5, 7}), 0, 1, 750000, 3, -1},
    {"four places of twelve, three strips over", {7, 12, 1, 1, 9, 1, 999999, 0, 1}, SLOTS({0, 5, 7}), 0, 1, 750000, 21,
     -1},
    {"three places of twelve", {7, 12, 1, 1, 8, 1, 1000000, 0, 1}, SLOTS({0, 5, 7}), 0, 1, 666667, 9, -1},
    {"two places of twelve, both late", {7, 12, 1, 1, 6, 1, 999999, 0, 1}, SLOTS({0, 5, 7}), 0, 0, 999999, 9, -1},
};

static const struct hand_reply replies[] = {
    {"P5 with a reply of 0 bytes is refusal 2", 0, 2},
    {"P5 with a reply without room for the margin is refusal 2", MARGIN_AT, 2},
    {"P5 with a reply one byte short is refusal 2", ANSWER_BYTES - 1, 2},
    {"P5 with a reply of just an answer record", ANSWER_BYTES, 0},
    {"P5 with a reply one byte longer", ANSWER_BYTES + 1, 0},
    {"P5 with a reply of two answer records", ANSWERS(2), 0},
};

/* The same of T with a million strips, by whole rounds. */
static const struct hand_reply long_replies[] = {
    {"1,000,000 strips with a reply of 0 bytes is refusal 2", 0, 2},
    {"1,000,000 strips with a reply without room for the margin is refusal 2", MARGIN_AT, 2},
    {"1,000,000 strips with a reply one byte short is refusal 2", ANSWER_BYTES - 1, 2},
    {"1,000,000 strips with a reply of just an answer record", ANSWER_BYTES, 0},
    {"1,000,000 strips with a reply one byte longer", ANSWER_BYTES + 1, 0},
    {"1,000,000 strips with a reply of two answer records", ANSWERS(2), 0},
};

/*
 * The supply at ticks 0 to 9 of T is 5 5 5 5 4 3 3 3 3 4. An odd half tick has half of what both ticks beside it have,
 * so in half ticks their sum. The need is 8 half ticks. The second strip comes 28 half ticks later, 8 on the wheel.
 */
static const struct hand_point points[] = {
    {"P1", 8, 1, 8, 0},
    {"P1, its second strip", 16, 1, 6, -2},
    {"P2", 9, 2, 7, -1},
    {"P2, its second strip", 17, 1, 7, -1},
    {"P3", 10, 1, 6, -2},
    {"P3, its second strip", 18, 0, 8, 0},
    {"P4", 19, 0, 9, 1},
    {"P4, its second strip", 7, 1, 9, 1},
    {"T from half tick 0", 0, 0, 10, 2},
    {"T from half tick 1", 1, 1, 10, 2},
    {"T from half tick 13", 13, 1, 6, -2},
};

/* T's first tick is lost; then slots that touch or don't. */
static const struct hand_late late_points[] = {
    {"at the lost tick", T(3, 1), SLOTS({0, 8, 7, 1}), 0, 0, 8, 2},
    {"half a tick later", T(3, 1), SLOTS({0, 8, 7, 1}), 1, 0, 9, 3},
    {"behind the lost tick", T(3, 1), SLOTS({0, 8, 7, 1}), 2, 0, 10, 4},
    {"where it just lasts", T(3, 1), SLOTS({0, 8, 7, 1}), 10, 0, 6, 0},
    {"half a tick later it doesn't", T(3, 1), SLOTS({0, 8, 7, 1}), 11, 1, 5, -1},
    {"with the whole tick lost", T(3, 1), SLOTS({0, 8, 7, 1}), 12, 1, 4, -2},
    {"where it lasts again", T(3, 1), SLOTS({0, 8, 7, 1}), 18, 0, 6, 0},
    {"half a tick before the lost one", T(3, 1), SLOTS({0, 8, 7, 1}), 19, 0, 7, 1},
    {"a loss in a slot that touches doesn't show", T_OF(7, 0, 2), SLOTS({0, 4, 7}, {4, 8, 7, 4}), 9, 2, 7, -1},
    {"nor behind a slot that is all lost", T_3(0, 2), SLOTS({0, 4, 7, 4}, {4, 8, 7, 4}), 7, 1, 8, 2},
    {"but there it does", T_3(0, 2), SLOTS({0, 4, 7, 4}, {4, 8, 7, 4}), 0, 1, 2, -4},
    {"round the end it doesn't show", T_3(0, 2), SLOTS({0, 4, 7, 4}, {6, 10, 7}), 16, 0, 10, 4},
    {"round the end behind another's it does", T_3(0, 3), SLOTS({0, 4, 7, 1}, {4, 6, 7}, {6, 10, 9}), 19, 1, 7, 1},
    {"on a full wheel it doesn't", T(4, 1), SLOTS({0, 10, 7, 10}), 19, 0, 10, 2},
    {"behind a record before the part it does", T_3(1, 1), SLOTS({0, 2, 7}, {2, 10, 7, 1}), 3, 0, 7, 1},
    {"behind a record behind the part it does", T_3(0, 1), SLOTS({0, 8, 7, 1}, {8, 10, 7}), 19, 0, 7, 1},
    {"256 ticks lost", T_100, SLOTS({0, 800, 7, 256}), 0, 1, 488, -112},
    {"257 ticks lost", T_100, SLOTS({0, 800, 7, 257}), 0, 1, 486, -114},
    {"all 800 ticks lost", T_100, SLOTS({0, 800, 7, 800}), 1999, 2, 0, -600},
};

/* w 3, slot (0,1), e 1, D 1: a strip that arrives at tick 0 is painted, every other one is dropped. */
static const struct {
    uint64_t supply;
    int32_t margin;
} round_points[6] = {{2, 0}, {1, -1}, {0, -2}, {0, -2}, {0, -2}, {1, -1}};

static const struct hand_round rounds[] = {
    {"one strip at tick 0", 1, 1, 0, 0},
    {"one strip at tick 1", 1, 1, 2, 1},
    {"two strips of a turn", 1, 2, 0, 1},
    {"as many strips as ticks", 1, 3, 0, 2},
    {"one strip more than ticks", 1, 4, 0, 2},
    {"five strips", 1, 5, 0, 3},
    {"two turns of strips", 1, 6, 0, 4},
    {"two turns and two strips", 1, 8, 0, 5},
    {"two turns and two strips from tick 1", 1, 8, 2, 6},
    {"two turns and two strips from tick 2", 1, 8, 4, 5},
    {"half a tick off, every strip is dropped", 1, 7, 1, 7},
    {"the last half tick", 1, 7, 5, 7},
    {"a period of two ticks", 2, 7, 0, 4},
    {"a period of two ticks from tick 2", 2, 7, 4, 5},
    {"a period of a turn and a tick", 4, 8, 0, 5},
    {"a period of 333,333 turns and a tick", 1000000, 8, 0, 5},
    {"a period of one turn: always tick 0", 3, 7, 0, 0},
    {"a period of one turn: always tick 1", 3, 7, 2, 7},
    {"1,024 strips: 341 turns and one", 1, 1024, 0, 682},
    {"1,024 strips from tick 1", 1, 1024, 2, 683},
};

/* As above: what drops of T's strips from a half tick goes by the places of a round, and by those over. */
static const struct hand_long long_counts[] = {
    {"1,023 strips from half tick 9", T_MK(1, 1023), T_SLOT, 9, 614},
    {"1,024 strips from half tick 9", T_MK(1, 1024), T_SLOT, 9, 615},
    {"1,025 strips from half tick 9", T_MK(1, 1025), T_SLOT, 9, 615},
    {"1,026 strips from half tick 9", T_MK(1, 1026), T_SLOT, 9, 616},
    {"1,026 strips from half tick 1", T_MK(1, 1026), T_SLOT, 1, 615},
    {"1,000,000 strips from tick 0: places 0, 4, 8, 2, 6", T_MK(1, 1000000), T_SLOT, 0, 400000},
    {"1,000,000 strips half a tick later", T_MK(1, 1000000), T_SLOT, 1, 600000},
    {"1,000,000 strips from tick 1: places 1, 5, 9, 3, 7", T_MK(1, 1000000), T_SLOT, 2, 400000},
    {"1,000,000 strips from the last half tick", T_MK(1, 1000000), T_SLOT, 19, 400000},
    {"999,999 strips from tick 0: 0, 4, 8, 2 are over", T_MK(1, 999999), T_SLOT, 0, 399999},
    {"999,999 strips half a tick later", T_MK(1, 999999), T_SLOT, 1, 599999},
    {"999,999 strips from half tick 9", T_MK(1, 999999), T_SLOT, 9, 600000},
    {"999,999 strips from tick 6: 6, 0, 4, 8 are over", T_MK(1, 999999), T_SLOT, 12, 400000},
    {"99,999 turns and 4 ticks between strips", T_H(999994, 999999), T_SLOT, 9, 600000},
    {"h twice w: none drops from tick 4", T_H(20, 1000000), T_SLOT, 8, 0},
    {"h twice w: all drop half a tick later", T_H(20, 1000000), T_SLOT, 9, 1000000},
    {"h 13: four of ten drop from tick 0", T_H(13, 1000000), T_SLOT, 0, 400000},
    {"h 13: nine strips over from half tick 1", T_H(13, 999999), T_SLOT, 1, 499999},
    {"P11 with 1,000,000 strips from half tick 39", P11(1000000), 39, 636364},
    {"P11 with 1,000,000 strips from tick 0", P11(1000000), 0, 545455},
    {"P11 with 1,000,000 strips from tick 14", P11(1000000), 28, 545454},
    {"three fifths of a round from tick 0", HALF_WHEEL(1800), 0, 300},
    {"three rounds and three fifths from tick 0", HALF_WHEEL(10800), 0, 4800},
    {"333 rounds and a third, half a tick later", HALF_WHEEL(1000000), 1, 499833},
    /* 61 rounds of 16,384 and 576 strips; strips drop from just after tick 8,191. */
    {"the largest wheel from tick 0: none of those over drops", {7, 16384, 1, 1, 1, 1, 1000000, 0, 1},
     SLOTS({0, 8192, 7}), 0, 499712},
    {"the largest wheel from tick 8,192: all of them do", {7, 16384, 1, 1, 1, 1, 1000000, 0, 1}, SLOTS({0, 8192, 7}),
     16384, 500288},
    {"half a tick before, where a round has one more", {7, 16384, 1, 1, 1, 1, 1000000, 0, 1}, SLOTS({0, 8192, 7}),
     16383, 500349},
    /* One tick of three is the task's; two of three strips drop, and of a turn's all or none. */
    {"333,333 rounds of three and a painted strip", {7, 3, 1, 1, 1, 0, 1000000, 0, 1}, SLOTS({0, 1, 7}), 0, 666666},
    {"333,333 rounds of three and a dropped one", {7, 3, 1, 1, 1, 0, 1000000, 0, 1}, SLOTS({0, 1, 7}), 2, 666667},
    {"the same with a period of 333,333 turns and a tick", {7, 3, 1, 1, 1000000, 0, 1000000, 0, 1}, SLOTS({0, 1, 7}),
     2, 666667},
    {"341 rounds of three and two strips", {7, 3, 1, 1, 1, 0, 1025, 0, 1}, SLOTS({0, 1, 7}), 2, 684},
    {"a period of one turn: 1,000,000 at tick 0", {7, 3, 1, 1, 3, 0, 1000000, 0, 1}, SLOTS({0, 1, 7}), 0, 0},
    {"a period of one turn: 1,000,000 at tick 1", {7, 3, 1, 1, 3, 0, 1000000, 0, 1}, SLOTS({0, 1, 7}), 2, 1000000},
};

/* Each is judged, and counted from its offset. Offset 20 is refused by T itself: it shows what comes before 11. */
static const struct hand_long_refusal long_refusals[] = {
    {"k 1,025 is refusal 9 at a half tick", T_MK(1026, 1025), T_SLOT, 20, 9, 10},
    {"k 1,000,000 is refusal 9, and m 1,000,001 is 10", T_MK(1000001, 1000000), T_SLOT, 9, 9, 10},
    {"k 1,000,000 is refusal 9, and m 1,000,001 is 10 before 11", T_MK(1000001, 1000000), T_SLOT, 20, 9, 10},
    {"k 1,000,000 is refusal 9, and m 2^32 - 1 is 10", T_MK(UINT32_MAX, 1000000), T_SLOT, 9, 9, 10},
    {"k 1,024 and m 1,025 is refusal 10", T_MK(1025, 1024), T_SLOT, 9, 10, 10},
    {"k 0 and m 0 is refusal 9", T_MK(0, 0), T_SLOT, 9, 9, 9},
    {"k 0 and m 1 is refusal 9 before 10", T_MK(1, 0), T_SLOT, 20, 9, 9},
    {"k 1,000,001 is refusal 9 at a half tick", T_MK(1, 1000001), T_SLOT, 9, 9, 9},
    {"k 1,000,001 and m 1,000,002 is refusal 9 before 10", T_MK(1000002, 1000001), T_SLOT, 20, 9, 9},
    {"k 2^31 is refusal 9", T_MK(1, 2147483648), T_SLOT, 9, 9, 9},
    {"k 2^32 - 1 and as large an m is refusal 9", T_MK(UINT32_MAX, UINT32_MAX), T_SLOT, 20, 9, 9},
    {"D above h is refusal 8 before 9", {7, 10, 4, 15, 14, 1, 1000001, 0, 1}, T_SLOT, 9, 8, 8},
    {"D above h is refusal 8, with 1,000,000 strips", {7, 10, 4, 15, 14, 1, 1000000, 0, 1}, T_SLOT, 9, 8, 8},
    {"h 0 is refusal 7 before 9", {7, 10, 4, 5, 0, 1, 1000001, 0, 1}, T_SLOT, 9, 7, 7},
    {"e 0 is refusal 6 before 9", {7, 10, 0, 5, 14, 1, 1000001, 0, 1}, T_SLOT, 9, 6, 6},
    {"one slot record too few is refusal 3 before 9", {7, 10, 4, 5, 14, 1, 1000001, 0, 2}, T_SLOT, 9, 3, 3},
    {"id 65,543 is refusal 19, with 1,000,000 strips", {65543, 10, 4, 5, 14, 1, 1000000, 0, 1}, T_SLOT, 9, 19, 19},
    {"w 16,385 is refusal 4, with 1,000,000 strips", {7, 16385, 4, 5, 14, 1, 1000000, 0, 1}, T_SLOT, 9, 4, 4},
    {"513 slots are refusal 14 before 9", {7, 513, 4, 5, 14, 1, 1000001, 0, 513}, ticks, 513, 9, 14, 14},
    {"(8,8) is refusal 15 before 9", {7, 10, 4, 5, 14, 1, 1000001, 0, 1}, SLOTS({8, 8, 7}), 9, 15, 15},
    {"(0,11) is refusal 16, with 1,000,000 strips", {7, 10, 4, 5, 14, 1, 1000000, 0, 1}, SLOTS({0, 11, 7}), 9, 16, 16},
    {"(3,8) is refusal 17 before 9", {7, 10, 4, 5, 14, 1, 1000001, 0, 2}, SLOTS({0, 4, 7}, {3, 8, 9}), 9, 17, 17},
    {"a loss of 9 in (0,8) is refusal 18, with 1,025 strips", {7, 10, 4, 5, 14, 1, 1025, 0, 1}, SLOTS({0, 8, 7, 9}), 9,
     18, 18},
};

/* N, v, the loss, e and m; D 5, h 14, k 2. */
static const struct hand_grant grants[] = {
    {"P12", 5, 2, 0, 4, 1, {1, 1, 1, 1, 1}, {2, 2, 2, 2, 2}, PACKED(0, 5)},
    {"P13", 5, 2, 0, 3, 1, {1, 1, 1, 1, 1}, {2, 2, 2, 2, 1}, PACKED(0, 4)},
    {"P14", 5, 2, 0, 4, 1, {1, 1, 1, 1, 0}, {1, 1, 1, 1, 0}, PACKED(13, 0)},
    {"a grant with m 0", 5, 2, 0, 4, 0, {1, 1, 1, 1, 0}, {1, 1, 1, 1, 0}, PACKED(0, 0)},
    {"a grant over a 2", 5, 2, 0, 4, 1, {1, 2, 1, 1, 1}, {1, 2, 1, 1, 1}, PACKED(12, 0)},
    {"P12 with all ticks lost: all slots lose none", 5, 2, 2, 4, 1, {1, 1, 1, 1, 1}, {2, 2, 2, 2, 2}, PACKED(0, 5)},
    {"P13 with a tick lost", 5, 2, 1, 3, 1, {1, 1, 1, 1, 1}, {2, 2, 2, 2, 1}, PACKED(0, 4)},
    {"P13 with both ticks lost: one slot more", 5, 2, 2, 3, 1, {1, 1, 1, 1, 1}, {2, 2, 2, 2, 2}, PACKED(0, 5)},
    {"the same with the last slot taken: 13", 5, 2, 2, 3, 1, {1, 1, 1, 1, 0}, {1, 1, 1, 1, 0}, PACKED(13, 0)},
    {"the same with the first slot taken: 13", 5, 2, 2, 3, 1, {0, 1, 1, 1, 1}, {0, 1, 1, 1, 1}, PACKED(13, 0)},
    {"behind a taken slot a tick is lost: one slot more", 5, 2, 1, 3, 1, {1, 0, 1, 1, 1}, {2, 0, 2, 2, 2},
     PACKED(0, 4)},
    {"the last slot and the first, round the end", 5, 2, 2, 2, 1, {1, 0, 1, 1, 1}, {2, 0, 2, 2, 2}, PACKED(0, 4)},
    {"the last but one taken", 5, 2, 1, 3, 1, {1, 1, 0, 1, 1}, {2, 2, 0, 2, 2}, PACKED(0, 4)},
    {"a free slot before the first helps only once it is granted", 2, 5, 1, 2, 1, {1, 1}, {2, 2}, PACKED(0, 2)},
    {"a taken slot before it doesn't help", 2, 5, 1, 2, 1, {1, 0}, {1, 0}, PACKED(13, 0)},
    {"nor one before the second", 2, 5, 1, 2, 1, {0, 1}, {0, 1}, PACKED(13, 0)},
    {"with nothing lost one slot does", 2, 5, 0, 2, 1, {1, 0}, {2, 0}, PACKED(0, 1)},
    {"the only slot loses none", 1, 10, 10, 5, 1, {1}, {2}, PACKED(0, 1)},
    {"the only slot gives no e 6", 1, 10, 10, 6, 1, {1}, {1}, PACKED(13, 0)},
    {"the only slot is taken", 1, 10, 10, 5, 1, {0}, {0}, PACKED(13, 0)},
    {"m 0 and a loss", 5, 2, 2, 4, 0, {0, 1, 1, 1, 1}, {0, 1, 1, 1, 1}, PACKED(0, 0)},
    {"a loss of v + 1 is 12", 5, 2, 3, 3, 1, {1, 1, 1, 1, 1}, {1, 1, 1, 1, 1}, PACKED(12, 0)},
    {"a loss of v + 1 is 12, though nothing would be lost", 1, 10, 11, 5, 1, {1}, {1}, PACKED(12, 0)},
    {"a loss of v + 1 is 12 before 6", 5, 2, 3, 0, 1, {1, 1, 1, 1, 1}, {1, 1, 1, 1, 1}, PACKED(12, 0)},
    {"a loss of v and e 0 is 6", 5, 2, 2, 0, 1, {1, 1, 1, 1, 1}, {1, 1, 1, 1, 1}, PACKED(6, 0)},
    {"a loss of v + 1 is 12 with m 0", 5, 2, 3, 3, 0, {1, 1, 1, 1, 1}, {1, 1, 1, 1, 1}, PACKED(12, 0)},
    {"a loss of 1 and v 0 is 12", 5, 0, 1, 3, 1, {1, 1, 1, 1, 1}, {1, 1, 1, 1, 1}, PACKED(12, 0)},
    {"a loss of 2^32 is 12", 5, 2, 4294967296, 3, 1, {1, 1, 1, 1, 1}, {1, 1, 1, 1, 1}, PACKED(12, 0)},
    {"a loss of 2^32 + 1 is 12", 5, 2, 4294967297, 3, 1, {1, 1, 1, 1, 1}, {1, 1, 1, 1, 1}, PACKED(12, 0)},
    {"a loss of 2^63 is 12", 5, 2, 9223372036854775808u, 3, 1, {1, 1, 1, 1, 1}, {1, 1, 1, 1, 1}, PACKED(12, 0)},
    {"a loss of 2^64 - 1 is 12", 5, 2, UINT64_MAX, 3, 1, {1, 1, 1, 1, 1}, {1, 1, 1, 1, 1}, PACKED(12, 0)},
};

/*
 * The sheet's slots, and its three tasks with its three lines as answers; then T with e 3, which is P7, and P10; then
 * T with boards that get 15, 16, 17 (against the sheet's third slot) and 18, and on that slot with an id that gets 19;
 * then four tasks of one board, of which the last has no slot there; then two of a board with losses.
 */
static const uint32_t site_slots[][SLOT_FIELDS] = {
    {11, 21, 1}, {33, 43, 1}, {0, 8, 2}, {7, 9, 6},  {8, 8, 4},  {7, 11, 5},
    {0, 8, 258}, {0, 8, 8, 256}, {0, 3, 20}, {3, 5, 21}, {5, 8, 20}, {8, 10, 22},
    {0, 3, 30, 1}, {3, 5, 31, 1}, {5, 8, 30}, {8, 10, 30, 1},
};

enum {
    SHEET_1,
    SHEET_2,
    SHEET_3,
    SIGN_P7,
    SIGN_P10,
    SIGN_15,
    SIGN_16,
    SIGN_17,
    SIGN_18,
    SIGN_19,
    PAINTER,
    CLOCK,
    CHIME,
    GUEST,
    LATE_PAINTER,
    LATE_CLOCK
};

static const struct hand_sign signs[] = {
    [SHEET_1] = {{1, 55, 27, 70, 70, 3, 10, 0, 2},
                 {1, 0, 0, 0, 0, 0, 1, 0, 7, 0, 0, 0, 39, 0, 0, 0, 249, 255, 255, 255}},
    [SHEET_2] = {{2, 10, 4, 5, 14, 1, 2, 2, 1}, {2, 0, 0, 0, 0, 0, 0, 0, 2, 0, 0, 0, 9, 0, 0, 0, 255, 255, 255, 255}},
    [SHEET_3] = {{3, 10, 0, 5, 14, 1, 2, 2, 1}, {3, 0, 0, 0, 6, 0, 0, 0, 0, 0, 0, 0, 0, 0, 0, 0, 0, 0, 0, 0}},
    [SIGN_P7] = {{258, 10, 3, 5, 14, 1, 2, 6, 1}, {2, 1, 0, 0, 0, 0, 1, 0, 0, 0, 0, 0, 0, 0, 0, 0, 0, 0, 0, 0}},
    [SIGN_P10] = {{9, 10, 1, 5, 5, 1, 3, 3, 0}, {9, 0, 0, 0, 0, 0, 0, 0, 3, 0, 0, 0, 0, 0, 0, 0, 255, 255, 255, 255}},
    [SIGN_15] = {{4, 10, 4, 5, 14, 1, 2, 4, 1}, {4, 0, 0, 0, 15, 0, 0, 0, 0, 0, 0, 0, 0, 0, 0, 0, 0, 0, 0, 0}},
    [SIGN_16] = {{5, 10, 4, 5, 14, 1, 2, 5, 1}, {5, 0, 0, 0, 16, 0, 0, 0, 0, 0, 0, 0, 0, 0, 0, 0, 0, 0, 0, 0}},
    [SIGN_17] = {{6, 10, 4, 5, 14, 1, 2, 2, 2}, {6, 0, 0, 0, 17, 0, 0, 0, 0, 0, 0, 0, 0, 0, 0, 0, 0, 0, 0, 0}},
    [SIGN_18] = {{8, 10, 4, 5, 14, 1, 2, 7, 1}, {8, 0, 0, 0, 18, 0, 0, 0, 0, 0, 0, 0, 0, 0, 0, 0, 0, 0, 0, 0}},
    [SIGN_19] = {{65538, 10, 4, 5, 14, 1, 2, 2, 1}, {2, 0, 1, 0, 19, 0, 0, 0, 0, 0, 0, 0, 0, 0, 0, 0, 0, 0, 0, 0}},
    /* Within 4 ticks of ticks 0 to 9 its slots (0,3), (5,8) have 3 2 2 2 3 3 2 2 2 3; both strips come at one tick. */
    [PAINTER] = {{20, 10, 3, 4, 10, 1, 2, 8, 4},
                 {20, 0, 0, 0, 0, 0, 0, 0, 2, 0, 0, 0, 1, 0, 0, 0, 255, 255, 255, 255}},
    /* In a whole turn it has its two ticks. */
    [CLOCK] = {{21, 10, 2, 10, 10, 3, 3, 8, 4}, {21, 0, 0, 0, 0, 0, 1, 0, 0, 0, 0, 0, 0, 0, 0, 0, 0, 0, 0, 0}},
    [CHIME] = {{22, 10, 3, 10, 10, 1, 3, 8, 4}, {22, 0, 0, 0, 0, 0, 0, 0, 3, 0, 0, 0, 0, 0, 0, 0, 255, 255, 255, 255}},
    [GUEST] = {{23, 10, 1, 5, 5, 1, 3, 8, 4}, {23, 0, 0, 0, 0, 0, 0, 0, 3, 0, 0, 0, 0, 0, 0, 0, 255, 255, 255, 255}},
    /* Its slots touch, round the end as well, and lose nothing: the supply at ticks 0 to 9 is 3 3 3 3 4 5 5 5 5 4. */
    [LATE_PAINTER] = {{30, 10, 4, 5, 14, 1, 2, 12, 4},
                      {30, 0, 0, 0, 0, 0, 0, 0, 2, 0, 0, 0, 19, 0, 0, 0, 255, 255, 255, 255}},
    /* In a whole turn it has one of its two ticks. */
    [LATE_CLOCK] = {{31, 10, 2, 10, 10, 1, 3, 12, 4},
                    {31, 0, 0, 0, 0, 0, 0, 0, 3, 0, 0, 0, 0, 0, 0, 0, 255, 255, 255, 255}},
};

static const struct hand_site sites[] = {
    {"a site with no records", 0, {0}, 0, RECORDS(3), 0, 0},
    {"a site with no records and no slots", 0, {0}, 0, 0, 0, 0},
    {"a site with no records leaves the reply", 0, {0}, 0, RECORDS(3), ANSWERS(2), 0},
    {"a site of P11 alone", 1, {SHEET_1}, 32, RECORDS(3), ANSWERS(1), 0},
    {"a site of a refused record alone", 1, {SHEET_3}, 32, RECORDS(3), ANSWERS(1), 0},
    {"the sheet as a site", 3, {SHEET_1, SHEET_2, SHEET_3}, 96, RECORDS(3), ANSWERS(3), 0},
    {"a refused record between P11 and T", 3, {SHEET_1, SHEET_3, SHEET_2}, 96, RECORDS(3), ANSWERS(3), 0},
    {"the same with a byte to spare", 3, {SHEET_1, SHEET_3, SHEET_2}, 96, RECORDS(3), ANSWERS(3) + 1, 0},
    {"the same with room for a fourth answer", 3, {SHEET_1, SHEET_3, SHEET_2}, 96, RECORDS(3), ANSWERS(4), 0},
    {"T, P7 and P10 in a site", 3, {SHEET_2, SIGN_P7, SIGN_P10}, 96, RECORDS(7), ANSWERS(3), 0},
    {"the same record three times", 3, {SHEET_1, SHEET_1, SHEET_1}, 96, RECORDS(3), ANSWERS(3), 0},
    {"refusals 15, 16 and 17 in a site", 3, {SIGN_15, SIGN_16, SIGN_17}, 96, RECORDS(6), ANSWERS(3), 0},
    {"T behind refusal 17, on one slot of it", 3, {SIGN_17, SHEET_2, SIGN_15}, 96, RECORDS(6), ANSWERS(3), 0},
    {"refusals 18 and 19 beside T, in its slot", 3, {SIGN_18, SHEET_2, SIGN_19}, 96, RECORDS(8), ANSWERS(3), 0},
    {"three tasks on one board", 3, {PAINTER, CLOCK, CHIME}, 96, RECORDS(12), ANSWERS(3), 0},
    {"a task without slots on the board of two", 3, {CHIME, GUEST, PAINTER}, 96, RECORDS(12), ANSWERS(3), 0},
    {"two tasks on a board with losses", 3, {LATE_PAINTER, LATE_CLOCK, PAINTER}, 96, RECORDS(16), ANSWERS(3), 0},
    {"tasks of 31 bytes are refusal 1", 1, {SHEET_1}, 31, RECORDS(3), ANSWERS(3), 1},
    {"tasks of 33 bytes are refusal 1", 2, {SHEET_1, SHEET_2}, 33, RECORDS(3), ANSWERS(3), 1},
    {"tasks of 63 bytes are refusal 1", 2, {SHEET_1, SHEET_2}, 63, RECORDS(3), ANSWERS(3), 1},
    {"slots of 35 bytes are refusal 1", 2, {SHEET_1, SHEET_2}, 64, 35, ANSWERS(3), 1},
    {"slots of 37 bytes are refusal 1, also with no records", 0, {0}, 0, 37, ANSWERS(3), 1},
    {"slots of 8 bytes are refusal 1", 1, {SHEET_1}, 32, 8, ANSWERS(3), 1},
    {"slots of 8 bytes are refusal 1, also with no records", 0, {0}, 0, 8, ANSWERS(3), 1},
    {"slots of 32 bytes are refusal 1", 1, {SHEET_1}, 32, 32, ANSWERS(3), 1},
    {"tasks of 63 bytes and no reply are refusal 1", 2, {SHEET_1, SHEET_2}, 63, RECORDS(3), 0, 1},
    {"a reply one byte short is refusal 2", 3, {SHEET_1, SHEET_3, SHEET_2}, 96, RECORDS(3), ANSWERS(3) - 1, 2},
    {"a reply of two answers for three is refusal 2", 3, {SHEET_1, SHEET_2, SHEET_3}, 96, RECORDS(3), ANSWERS(2), 2},
    {"no reply for refused records is refusal 2", 1, {SHEET_3}, 32, RECORDS(3), 0, 2},
};

/* id, w, e, first and count; the other fields are T's. */
static const struct hand_table tables[] = {
    {"no slots are good", 7, 10, 4, 1, 0, SLOTS({5, 5, 7}), 0, 0},
    {"(0,10) is good in a wheel of 10", 7, 10, 4, 0, 1, SLOTS({0, 10, 7}), 0, 0},
    {"(0,11) is 16", 7, 10, 4, 0, 1, SLOTS({0, 11, 7}), 16, 0},
    {"slots that touch up to w are good", 7, 10, 4, 0, 3, SLOTS({0, 4, 7}, {4, 8, 7}, {8, 10, 7}), 0, 0},
    {"the last tick of the largest wheel is good", 7, 16384, 4, 0, 1, SLOTS({16383, 16384, 7}), 0, 0},
    {"a tick past the largest wheel is 16", 7, 16384, 4, 0, 1, SLOTS({16383, 16385, 7}), 16, 0},
    {"a good table beside e 0", 7, 10, 0, 0, 2, SLOTS({0, 4, 7}, {4, 8, 7}), 0, 0},
    {"a bad table beside e 0", 7, 10, 0, 0, 2, SLOTS({0, 4, 7}, {3, 8, 7}), 17, 1},
    {"64 slots are good", 7, 65, 4, 0, 64, ticks, 65, 0, 0},
    {"65 slots are good", 7, 65, 4, 0, 65, ticks, 65, 0, 0},
    {"65 slots, the last past the wheel", 7, 64, 4, 0, 65, ticks, 65, 16, 64},
    {"511 slots are good", 7, 513, 4, 0, 511, ticks, 513, 0, 0},
    {"512 slots are good", 7, 513, 4, 1, 512, ticks, 513, 0, 0},
    {"512 slots of two owners are good", 7, 512, 4, 0, 512, by_turns, 512, 0, 0},
    {"512 slots, the last past the wheel", 7, 511, 4, 0, 512, ticks, 513, 16, 511},
    {"513 slots are 14", 7, 513, 4, 0, 513, ticks, 513, 14, 0},
    {"513 slots are 14, though the second ends above w", 7, 1, 4, 0, 513, ticks, 513, 14, 0},
    {"513 slots are 14, though each one is 15", 7, 513, 4, 0, 513, nothing, 513, 14, 0},
    {"512 slots, each one 15", 7, 513, 4, 1, 512, nothing, 513, 15, 0},
    {"w 0 is 4 before 14", 7, 0, 4, 0, 513, ticks, 513, 4, 0},
    {"w 16,385 is 4 before 15", 7, 16385, 4, 0, 1, SLOTS({5, 5, 7}), 4, 0},
    {"w 2^32 - 1 is 4", 7, UINT32_MAX, 4, 0, 1, SLOTS({0, 8, 7}), 4, 0},
    {"one record too few is 3 before 4 and 14", 7, 0, 4, 1, 513, ticks, 513, 3, 0},
    {"one record too few is 3 before 15", 7, 10, 4, 0, 2, SLOTS({5, 5, 7}), 3, 0},
    {"no slots past the last record are 3", 7, 10, 4, 2, 0, SLOTS({0, 8, 7}), 3, 0},
    {"15 in the first slot", 7, 10, 4, 0, 3, SLOTS({4, 4, 7}, {4, 8, 7}, {8, 10, 7}), 15, 0},
    {"15 in the middle", 7, 10, 4, 0, 3, SLOTS({0, 4, 7}, {8, 8, 7}, {8, 10, 7}), 15, 1},
    {"15 in the last slot", 7, 10, 4, 0, 3, SLOTS({0, 4, 7}, {4, 8, 7}, {10, 10, 7}), 15, 2},
    {"15 by one tick more", 7, 10, 4, 0, 3, SLOTS({0, 4, 7}, {4, 8, 7}, {10, 9, 7}), 15, 2},
    {"16 in the first slot", 7, 10, 4, 0, 3, SLOTS({0, 11, 7}, {11, 12, 7}, {12, 13, 7}), 16, 0},
    {"16 in the middle", 7, 10, 4, 0, 3, SLOTS({0, 4, 7}, {4, 11, 7}, {11, 12, 7}), 16, 1},
    {"16 in the last slot", 7, 10, 4, 0, 3, SLOTS({0, 4, 7}, {4, 8, 7}, {8, 11, 7}), 16, 2},
    {"17 in the second slot", 7, 10, 4, 0, 3, SLOTS({0, 4, 7}, {3, 8, 7}, {8, 10, 7}), 17, 1},
    {"17 in the middle", 7, 10, 4, 0, 4, SLOTS({0, 4, 7}, {4, 6, 7}, {5, 8, 7}, {8, 10, 7}), 17, 2},
    {"17 in the last slot", 7, 10, 4, 0, 3, SLOTS({0, 4, 7}, {4, 8, 7}, {7, 10, 7}), 17, 2},
    {"17 against the slot before alone", 7, 10, 4, 0, 3, SLOTS({0, 2, 7}, {6, 8, 7}, {4, 5, 7}), 17, 2},
    {"no 17 against the record before the part", 7, 10, 4, 1, 2, SLOTS({0, 4, 7}, {3, 8, 7}, {8, 10, 7}), 0, 0},
    {"no look behind the part", 7, 10, 4, 0, 2, SLOTS({0, 4, 7}, {4, 8, 7}, {8, 8, 7}), 0, 0},
    {"15 before 16", 7, 10, 4, 0, 2, SLOTS({0, 4, 7}, {11, 11, 7}), 15, 1},
    {"15 before 17", 7, 10, 4, 0, 2, SLOTS({0, 4, 7}, {3, 3, 7}), 15, 1},
    {"16 before 17", 7, 10, 4, 0, 2, SLOTS({0, 4, 7}, {3, 11, 7}), 16, 1},
    {"all three behind a slot past the wheel", 7, 10, 4, 0, 2, SLOTS({0, 12, 7}, {11, 11, 7}), 16, 0},
    {"all three, if the record before the part were a slot", 7, 10, 4, 1, 1, SLOTS({0, 12, 7}, {11, 11, 7}), 15, 0},
    {"17, then 15", 7, 10, 4, 0, 3, SLOTS({0, 4, 7}, {3, 8, 7}, {9, 9, 7}), 17, 1},
    {"17, then 16", 7, 10, 4, 0, 3, SLOTS({0, 4, 7}, {3, 8, 7}, {8, 11, 7}), 17, 1},
    {"16, then 15", 7, 10, 4, 0, 2, SLOTS({0, 11, 7}, {12, 12, 7}), 16, 0},
    {"15, then 16", 7, 10, 4, 0, 2, SLOTS({4, 4, 7}, {4, 11, 7}), 15, 0},
    {"15, then 17", 7, 10, 4, 0, 2, SLOTS({4, 4, 7}, {3, 8, 7}), 15, 0},
    {"16, then 17", 7, 10, 4, 0, 2, SLOTS({0, 11, 7}, {5, 8, 7}), 16, 0},
    {"17 twice", 7, 10, 4, 0, 3, SLOTS({0, 4, 7}, {3, 6, 7}, {5, 8, 7}), 17, 1},
    {"a place is counted from the part's first", 7, 10, 4, 2, 3,
     SLOTS({5, 5, 7}, {0, 8, 7}, {0, 2, 7}, {2, 4, 7}, {3, 8, 7}), 17, 2},
    {"place 0 behind other records", 7, 10, 4, 2, 1, SLOTS({0, 4, 7}, {4, 8, 7}, {8, 8, 7}), 15, 0},
    {"a start of 2^32 - 1", 7, 10, 4, 0, 1, SLOTS({UINT32_MAX, 8, 7}), 15, 0},
    {"an end of 2^32 - 1", 7, 10, 4, 0, 1, SLOTS({0, UINT32_MAX, 7}), 16, 0},
    {"both 2^32 - 1", 7, 10, 4, 0, 2, SLOTS({0, 8, 7}, {UINT32_MAX, UINT32_MAX, 7}), 15, 1},
    {"losses as long as their slots are good", 7, 10, 4, 0, 3, SLOTS({0, 4, 7, 4}, {4, 8, 9, 4}, {8, 10, 7, 2}), 0, 0},
    {"all of T's ticks lost is good", 7, 10, 4, 0, 1, SLOTS({0, 8, 7, 8}), 0, 0},
    {"18 by a tick", 7, 10, 4, 0, 1, SLOTS({0, 8, 7, 9}), 18, 0},
    {"18 in a slot that touches", 7, 10, 4, 0, 2, SLOTS({0, 4, 7}, {4, 8, 7, 5}), 18, 1},
    {"18 in a slot that touches round the end", 7, 10, 4, 0, 2, SLOTS({0, 4, 7, 5}, {6, 10, 7}), 18, 0},
    {"a loss of a whole wheel is good", 7, 10, 4, 0, 1, SLOTS({0, 10, 7, 10}), 0, 0},
    {"18 by a tick on a full wheel", 7, 10, 4, 0, 1, SLOTS({0, 10, 7, 11}), 18, 0},
    {"a loss of the largest wheel is good", 7, 16384, 4, 0, 1, SLOTS({0, 16384, 7, 16384}), 0, 0},
    {"18 by a tick there", 7, 16384, 4, 0, 1, SLOTS({0, 16384, 7, 16385}), 18, 0},
    {"a loss of 256 ticks of 256 is good", 7, 1000, 4, 0, 1, SLOTS({0, 256, 7, 256}), 0, 0},
    {"256 ticks of 255 are 18", 7, 1000, 4, 0, 1, SLOTS({0, 255, 7, 256}), 18, 0},
    {"257 ticks of 256 are 18", 7, 1000, 4, 0, 1, SLOTS({0, 256, 7, 257}), 18, 0},
    {"512 ticks of 256 are 18", 7, 1000, 4, 0, 1, SLOTS({0, 256, 7, 512}), 18, 0},
    {"512 slots, each with its tick lost, are good", 7, 512, 4, 0, 512, late, 512, 0, 0},
    {"18 by the first byte in the first slot", 7, 10, 4, 0, 3, SLOTS({0, 4, 7, 5}, {4, 8, 7}, {8, 10, 7}), 18, 0},
    {"18 by the first byte in the middle", 7, 10, 4, 0, 3, SLOTS({0, 4, 7}, {4, 8, 7, 128}, {8, 10, 7}), 18, 1},
    {"18 by the first byte in the last slot", 7, 10, 4, 0, 3, SLOTS({0, 4, 7}, {4, 8, 7}, {8, 10, 7, 255}), 18, 2},
    {"18 by the second byte in the first slot", 7, 10, 4, 0, 3, SLOTS({0, 4, 7, 256}, {4, 8, 7}, {8, 10, 7}), 18, 0},
    {"18 by the second byte in the middle", 7, 10, 4, 0, 3, SLOTS({0, 4, 7}, {4, 8, 7, 32768}, {8, 10, 7}), 18, 1},
    {"18 by the second byte in the last slot", 7, 10, 4, 0, 3, SLOTS({0, 4, 7}, {4, 8, 7}, {8, 10, 7, 65280}), 18, 2},
    {"18 by both bytes", 7, 10, 4, 0, 1, SLOTS({0, 8, 7, 65535}), 18, 0},
    {"18 beside e 0", 7, 10, 0, 0, 1, SLOTS({0, 8, 7, 9}), 18, 0},
    {"no 18 from a record outside the part", 7, 10, 4, 1, 1, SLOTS({0, 1, 7, 2}, {1, 8, 7}, {8, 10, 7, 256}), 0, 0},
    {"15 before 18", 7, 10, 4, 0, 2, SLOTS({0, 4, 7}, {8, 8, 7, 1}), 15, 1},
    {"16 before 18", 7, 10, 4, 0, 2, SLOTS({0, 4, 7}, {4, 11, 7, 8}), 16, 1},
    {"17 before 18", 7, 10, 4, 0, 2, SLOTS({0, 4, 7}, {3, 8, 7, 6}), 17, 1},
    {"18, then 15", 7, 10, 4, 0, 2, SLOTS({0, 4, 7, 5}, {8, 8, 7}), 18, 0},
    {"18, then 17", 7, 10, 4, 0, 2, SLOTS({0, 4, 7, 256}, {3, 8, 7}), 18, 0},
    {"15, then 18", 7, 10, 4, 0, 2, SLOTS({4, 4, 7}, {4, 8, 7, 5}), 15, 0},
    {"17, then 18", 7, 10, 4, 0, 3, SLOTS({0, 4, 7}, {3, 8, 7}, {8, 10, 7, 3}), 17, 1},
    {"18 twice", 7, 10, 4, 0, 3, SLOTS({0, 4, 7}, {4, 8, 7, 5}, {8, 10, 7, 3}), 18, 1},
    {"three owners are good", 7, 10, 4, 0, 3, SLOTS({0, 4, 7}, {4, 8, 8}, {8, 10, 9}), 0, 0},
    {"another owner's board is good", 7, 10, 4, 0, 2, SLOTS({0, 4, 8}, {4, 8, 9}), 0, 0},
    {"15 in another owner's slot", 7, 10, 4, 0, 3, SLOTS({0, 4, 7}, {4, 4, 9}, {4, 8, 7}), 15, 1},
    {"16 in another owner's slot", 7, 10, 4, 0, 2, SLOTS({0, 4, 7}, {4, 11, 9}), 16, 1},
    {"17 in another owner's slot", 7, 10, 4, 0, 3, SLOTS({0, 4, 7}, {3, 6, 9}, {6, 8, 7}), 17, 1},
    {"18 in another owner's slot", 7, 10, 4, 0, 3, SLOTS({0, 4, 7}, {4, 6, 9, 3}, {6, 8, 7}), 18, 1},
    {"15 in another owner's slot, then 16", 7, 10, 4, 0, 3, SLOTS({0, 4, 7}, {4, 4, 9}, {4, 11, 7}), 15, 1},
    {"16, then 15 in another owner's slot", 7, 10, 4, 0, 2, SLOTS({0, 11, 7}, {12, 12, 9}), 16, 0},
    {"a board without own slots is bad all the same", 7, 10, 4, 0, 2, SLOTS({0, 4, 8}, {4, 4, 9}), 15, 1},
    {"17 against another owner's slot", 7, 10, 4, 0, 3, SLOTS({0, 2, 7}, {2, 6, 9}, {5, 8, 7}), 17, 2},
    {"17 against it, first of all", 7, 10, 4, 0, 2, SLOTS({0, 4, 9}, {3, 8, 7}), 17, 1},
    {"17 between two others", 7, 10, 4, 0, 3, SLOTS({0, 2, 7}, {2, 6, 9}, {5, 8, 8}), 17, 2},
    {"no 17 against it before the part", 7, 10, 4, 1, 1, SLOTS({0, 4, 9}, {3, 8, 7}), 0, 0},
    {"17 against it, though T's last one is behind", 7, 10, 4, 0, 3, SLOTS({0, 2, 7}, {8, 10, 9}, {2, 8, 7}), 17, 2},
    {"id 65,535 is good", 65535, 10, 4, 0, 1, SLOTS({0, 8, 7}), 0, 0},
    {"id 65,536 is 19", 65536, 10, 4, 0, 1, SLOTS({0, 8, 0}), 19, 0},
    {"id 65,543 is 19, though 7 has a slot", 65543, 10, 4, 0, 1, SLOTS({0, 8, 7}), 19, 0},
    {"id 2^32 - 1 is 19", UINT32_MAX, 10, 4, 0, 1, SLOTS({0, 8, 65535}), 19, 0},
    {"id 2^31 + 7 is 19", 2147483655, 10, 4, 0, 1, SLOTS({0, 8, 7}), 19, 0},
    {"id 65,536 on no slots is 19", 65536, 10, 4, 0, 0, SLOTS({0, 8, 7}), 19, 0},
    {"id 65,536 beside e 0 is 19", 65536, 10, 0, 0, 1, SLOTS({0, 8, 7}), 19, 0},
    {"one record too few is 3 before 19", 65543, 10, 4, 0, 2, SLOTS({0, 8, 7}), 3, 0},
    {"19 before 4", 65543, 0, 4, 0, 1, SLOTS({0, 8, 7}), 19, 0},
    {"19 before 14", 65543, 513, 4, 0, 513, ticks, 513, 19, 0},
    {"19 before 15", 65543, 10, 4, 0, 2, SLOTS({0, 4, 7}, {8, 8, 7}), 19, 0},
    {"19 before 18", 65543, 10, 4, 0, 2, SLOTS({0, 4, 7}, {4, 8, 7, 5}), 19, 0},
};

/* Each is judged, and asked about at its offset. Offset 20 is refused by T itself: it shows what comes before 11. */
static const struct hand_refusal refusals[] = {
    {"one slot record too few is refusal 3", {7, 0, 4, 5, 14, 1, 2, 0, 2}, SLOTS({0, 8, 7}), 9, 3},
    {"w 0 is refusal 4", {7, 0, 4, 5, 14, 1, 2, 0, 1}, SLOTS({0, 8, 7}), 0, 4},
    {"w 16,385 is refusal 4", {7, 16385, 4, 5, 14, 1, 2, 0, 1}, SLOTS({8, 8, 7}), 9, 4},
    {"w 0 is refusal 4 before 14", {7, 0, 4, 5, 14, 1, 2, 0, 513}, ticks, 513, 9, 4},
    {"513 slots are refusal 14 at a half tick", {7, 513, 4, 5, 14, 1, 2, 0, 513}, ticks, 513, 9, 14},
    {"513 slots are refusal 14 before 15", {7, 513, 0, 5, 14, 1, 2, 0, 513}, nothing, 513, 9, 14},
    {"(11,11) is refusal 15 before 16", T(4, 1), SLOTS({11, 11, 7}), 9, 15},
    {"(3,11) is refusal 16 before 17", T_OF(7, 0, 2), SLOTS({0, 4, 7}, {3, 11, 7}), 9, 16},
    {"(3,8) with a loss of 6 is refusal 17 before 18", T_OF(7, 0, 2), SLOTS({0, 4, 7}, {3, 8, 7, 6}), 9, 17},
    {"a loss of 5 in (0,4) is refusal 18 before a later slot's 15", T_OF(7, 0, 2), SLOTS({0, 4, 7, 5}, {8, 8, 7}), 9,
     18},
    {"(8,8) is refusal 15", T(0, 1), SLOTS({8, 8, 7}), 9, 15},
    {"(0,11) is refusal 16", T(0, 1), SLOTS({0, 11, 7}), 20, 16},
    {"(0,4), (3,8) is refusal 17", {7, 10, 0, 5, 14, 1, 2, 0, 2}, SLOTS({0, 4, 7}, {3, 8, 7}), 9, 17},
    {"another owner's (3,8) is refusal 17", T_OF(7, 0, 2), SLOTS({0, 4, 7}, {3, 8, 9}), 9, 17},
    {"a loss of 9 in (0,8) is refusal 18 at a half tick", T(0, 1), SLOTS({0, 8, 7, 9}), 20, 18},
    {"a loss of 5 in (4,8), which touches, is refusal 18", T_OF(7, 0, 2), SLOTS({0, 4, 7}, {4, 8, 7, 5}), 9, 18},
    {"a loss of 11 in (0,10) is refusal 18", T(4, 1), SLOTS({0, 10, 7, 11}), 9, 18},
    {"another owner's loss of 256 is refusal 18", T_OF(7, 0, 2), SLOTS({0, 8, 7}, {8, 10, 9, 256}), 9, 18},
    {"one slot record too few is refusal 3 before 19", T_OF(65543, 0, 2), SLOTS({0, 8, 7}), 9, 3},
    {"id 65,536 is refusal 19 at a half tick", T_OF(65536, 0, 1), SLOTS({0, 8, 0}), 9, 19},
    {"id 65,543 is refusal 19 at a half tick", {65543, 0, 0, 5, 14, 1, 2, 0, 1}, SLOTS({0, 8, 7}), 20, 19},
    {"id 2^32 - 1 is refusal 19 before 18", T_OF(UINT32_MAX, 0, 1), SLOTS({0, 8, 65535, 9}), 9, 19},
    {"e 0 is refusal 6", {7, 10, 0, 5, 0, 1, 2, 0, 1}, SLOTS({0, 8, 7}), 9, 6},
    {"e 1,000,001 is refusal 6", T(1000001, 1), SLOTS({0, 8, 7}), 20, 6},
    {"h 0 is refusal 7", {7, 10, 4, 5, 0, 1, 2, 0, 1}, SLOTS({0, 8, 7}), 9, 7},
    {"h 1,000,001 is refusal 7", {7, 10, 4, 0, 1000001, 1, 2, 0, 1}, SLOTS({0, 8, 7}), 20, 7},
    {"D 0 is refusal 8", {7, 10, 4, 0, 14, 1, 0, 0, 1}, SLOTS({0, 8, 7}), 9, 8},
    {"D above h is refusal 8", {7, 10, 4, 15, 14, 1, 2, 0, 1}, SLOTS({0, 8, 7}), 20, 8},
    {"k 0 is refusal 9", {7, 10, 4, 5, 14, 1, 0, 0, 1}, SLOTS({0, 8, 7}), 9, 9},
    {"m above k is refusal 10", T(4, 3), SLOTS({0, 8, 7}), 9, 10},
    {"m above k is refusal 10 before 11", T(4, 3), SLOTS({0, 8, 7}), 20, 10},
};

static const struct hand_beyond beyond[] = {
    {"T from half tick 20 is refusal 11", 20},
    {"T from half tick 2^32 + 9 is refusal 11", 4294967305},
    {"T from half tick 2^63 + 9 is refusal 11", 9223372036854775817u},
    {"T from half tick 2^64 - 1 is refusal 11", UINT64_MAX},
};

/* The same of T with a million strips, by whole rounds. */
static const struct hand_beyond long_beyond[] = {
    {"1,000,000 strips from half tick 20 is refusal 11", 20},
    {"1,000,000 strips from half tick 2^32 + 9 is refusal 11", 4294967305},
    {"1,000,000 strips from half tick 2^64 - 1 is refusal 11", UINT64_MAX},
};

const struct hand_bits hand_bits[HAND_BITS] = {
    {0, 0},
    {1, 1},
    {7, 7},
    {0x7fffffff, INT32_MAX},
    {0x80000000, INT32_MIN},
    {0x80000001, -INT32_MAX},
    {0xfffffff9, -7},
    {0xffffffff, -1},
};

/* The buffer has two records, of which T's is the first. */
static const struct hand_length lengths[] = {
    {"judging 0 bytes is refusal 1", JUDGE, 0, RECORDS(2), 1},
    {"judging 31 bytes is refusal 1", JUDGE, 31, RECORDS(2), 1},
    {"judging 33 bytes is refusal 1", JUDGE, 33, RECORDS(2), 1},
    {"judging no bytes at all is refusal 1", JUDGE, 0, 0, 1},
    {"judging with slots of 8 bytes is refusal 1", JUDGE, 32, 8, 1},
    {"judging with slots of 11 bytes is refusal 1", JUDGE, 32, 11, 1},
    {"judging with slots of 13 bytes is refusal 1", JUDGE, 32, 13, 1},
    {"judging with slots of 16 bytes is refusal 1", JUDGE, 32, 16, 1},
    {"which slot of 0 bytes is refusal 1", WHICH, 0, RECORDS(2), 1},
    {"which slot of 31 bytes is refusal 1", WHICH, 31, RECORDS(2), 1},
    {"which slot of 33 bytes is refusal 1", WHICH, 33, RECORDS(2), 1},
    {"which slot of slots of 8 bytes is refusal 1", WHICH, 32, 8, 1},
    {"which slot of slots of 11 bytes is refusal 1", WHICH, 32, 11, 1},
    {"which slot of slots of 13 bytes is refusal 1", WHICH, 32, 13, 1},
    {"which slot of slots of 16 bytes is refusal 1", WHICH, 32, 16, 1},
    {"which slot of no bytes at all is refusal 1", WHICH, 0, 0, 1},
    {"which slot of no slot records is refusal 3", WHICH, 32, 0, 3},
    {"which slot of T", WHICH, 32, RECORDS(2), 0},
    {"a half tick of 0 bytes is refusal 1", COUNT, 0, RECORDS(2), 1},
    {"a half tick of 31 bytes is refusal 1", COUNT, 31, RECORDS(2), 1},
    {"a half tick of 33 bytes is refusal 1", COUNT, 33, RECORDS(2), 1},
    {"a half tick with slots of 8 bytes is refusal 1", COUNT, 32, 8, 1},
    {"a half tick with slots of 11 bytes is refusal 1", COUNT, 32, 11, 1},
    {"a half tick with slots of 13 bytes is refusal 1", COUNT, 32, 13, 1},
    {"a half tick with slots of 16 bytes is refusal 1", COUNT, 32, 16, 1},
    {"a half tick of no bytes at all is refusal 1", COUNT, 0, 0, 1},
    {"a half tick with no slot records is refusal 3", COUNT, 32, 0, 3},
};

/* An answer with a margin below zero, by its low byte; and a number that refuses, when judged and at half tick 9. */
#define ANSWER(id, firm, worst, at, low) {id, 0, 0, 0, 0, 0, firm, 0, worst, 0, 0, 0, at, 0, 0, 0, low, 255, 255, 255}
#define REFUSED(id, number) {id, 0, 0, 0, number}, 9, 0, 0, 0

static const struct hand_pair pairs[] = {
    {"P11 alone, and with others before, between and behind", {1, 55, 27, 70, 70, 3, 10, 0, 2},
     SLOTS({11, 21, 1}, {33, 43, 1}), 2, 7,
     SLOTS({0, 55, 1}, {40, 41, 1}, {0, 5, 2}, {5, 11, 3}, {11, 21, 1}, {21, 22, 2}, {25, 30, 257}, {33, 43, 1},
           {43, 55, 2}),
     ANSWER(1, 1, 7, 39, 249), 39, 7, 46, -8},
    {"P5 with two others, and with the two exchanged", T_OF(7, 0, 3), SLOTS({0, 8, 7}, {8, 9, 1}, {9, 10, 2}), 0, 3,
     SLOTS({0, 8, 7}, {8, 9, 2}, {9, 10, 1}), ANSWER(7, 0, 2, 9, 255), 9, 2, 7, -1},
    {"P9 with another's slot of two ticks, and of one", T_OF(7, 1, 3),
     SLOTS({4, 8, 7}, {0, 4, 7}, {4, 8, 7}, {8, 10, 9}), 0, 3, SLOTS({0, 4, 7}, {4, 8, 7}, {9, 10, 9}),
     ANSWER(7, 0, 2, 9, 255), 9, 2, 7, -1},
    {"another's slot amid T's, and none", T_OF(7, 0, 3), SLOTS({0, 4, 7}, {4, 6, 9}, {6, 8, 7}), 3, 2,
     SLOTS({0, 1, 9}, {2, 3, 9}, {0, 4, 7, 5}, {0, 4, 7}, {6, 8, 7}), ANSWER(7, 0, 2, 1, 254), 9, 2, 4, -4},
    {"P10 where another has all ticks, and on no slots", {7, 10, 1, 5, 5, 1, 3, 0, 1}, SLOTS({0, 10, 9}), 0, 0, BARE,
     ANSWER(7, 0, 3, 0, 255), 3, 3, 0, -2},
    {"each other one of 512 slots, and of 511", {7, 512, 1, 1, 2, 0, 2, 0, 512}, by_turns, 512, 0, 511, by_turns, 511,
     ANSWER(7, 1, 2, 1, 255), 2, 2, 0, -2},
    {"P7 with its first tick lost, behind another's slot and alone", T_3(0, 2), SLOTS({0, 8, 7, 1}, {8, 10, 9, 2}),
     0, 1, SLOTS({0, 8, 7, 1}), ANSWER(7, 1, 1, 3, 255), 12, 1, 4, -2},
    {"round the end, with a loss of another's between and without", T_OF(7, 0, 3),
     SLOTS({0, 4, 7, 4}, {4, 6, 9, 2}, {6, 10, 7}), 0, 3, SLOTS({0, 4, 7, 4}, {4, 6, 9}, {6, 10, 7}),
     ANSWER(7, 0, 2, 1, 255), 0, 1, 8, 0},
    {"behind a record of T's before the part, and behind another's in it", T_3(1, 1), SLOTS({0, 2, 7}, {2, 10, 7, 1}),
     0, 2, SLOTS({0, 2, 9}, {2, 10, 7, 1}), ANSWER(7, 1, 1, 0, 255), 3, 0, 7, 1},
    {"e 0 alone, and beside another", T(0, 1), T_SLOT, 1, 2, SLOTS({8, 8, 7}, {0, 8, 7}, {8, 10, 9}), REFUSED(7, 6)},
};

size_t hand_count(void)
{
    return LENGTH(tasks) + LENGTH(replies) + LENGTH(points) + LENGTH(late_points) + LENGTH(rounds) +
           2 * LENGTH(refusals) + LENGTH(beyond) + LENGTH(grants) + LENGTH(sites) + LENGTH(tables) + LENGTH(lengths) +
           LENGTH(long_tasks) + LENGTH(long_counts) + 2 * LENGTH(long_refusals) + LENGTH(long_beyond) +
           LENGTH(long_replies);
}

static void put_slot(uint8_t *bytes, const uint32_t slot[SLOT_FIELDS])
{
    put_number(bytes, slot[SLOT_START], 4);
    put_number(bytes + 4, slot[SLOT_END], 4);
    put_number(bytes + OWNER_AT, slot[SLOT_OWNER], 2);
    put_number(bytes + LOSS_AT, slot[SLOT_LOSS], 2);
}

static void put_slots(struct input *input, const uint32_t (*slots)[SLOT_FIELDS], size_t records)
{
    input->slots_len = records * SLOT_BYTES;
    for (size_t i = 0; i < records; i++)
        put_slot(input->slots + i * SLOT_BYTES, slots[i]);
}

static void put_task(struct input *input, const struct task *task, const uint32_t (*slots)[SLOT_FIELDS],
                     size_t records)
{
    task_to_bytes(task, input->task);
    input->task_len = TASK_BYTES;
    put_slots(input, slots, records);
}

static void put_t(struct input *input)
{
    put_task(input, &tasks[0].task, tasks[0].slots, tasks[0].records);
}

/* The same by whole rounds; the reply is there already. */
static void say_judged(struct expected *said, uint32_t number, uint32_t firm)
{
    said->result = said->rounds = number;
    said->quick = PACKED(number, firm);
    memcpy(said->rounds_reply, said->reply, REPLY_ROOM);
}

/* The first engine has another number, and an answer that says no more. */
static void say_first(struct expected *said, uint32_t number)
{
    memset(said->reply + 4, 0, ANSWER_BYTES - 4);
    put_number(said->reply + 4, number, 2);
    said->result = number;
    said->quick = PACKED(number, 0);
}

static const char *judge_case(const struct hand_task *hand, struct input *input, struct expected *said)
{
    input->kind = JUDGE;
    input->reply_len = ANSWER_BYTES;
    put_task(input, &hand->task, hand->slots, hand->records);
    put_number(said->reply, hand->task.id, 4);
    put_number(said->reply + 4, hand->number, 2);
    put_number(said->reply + 6, hand->firm, 2);
    put_number(said->reply + 8, hand->worst, 4);
    put_number(said->reply + 12, hand->at, 4);
    put_number(said->reply + MARGIN_AT, (uint32_t)hand->margin, 4);
    say_judged(said, hand->number, hand->firm);
    return hand->name;
}

/* The reply holds other bytes before, so that it shows where none is written. */
static void fill_replies(struct input *input, struct expected *said)
{
    memset(input->reply, 0xa5, SITE_REPLY_ROOM);
    memset(said->reply, 0xa5, SITE_REPLY_ROOM);
}

static const char *long_case(const struct hand_task *hand, struct input *input, struct expected *said)
{
    judge_case(hand, input, said);
    if (hand->task.k > STRIPS_MAX)
        say_first(said, 9);
    return hand->name;
}

static const char *reply_case(const struct hand_reply *hand, struct input *input, struct expected *said)
{
    static const uint8_t answer[ANSWER_BYTES] = {7, 0, 0, 0, 0, 0, 0, 0, 2, 0, 0, 0, 9, 0, 0, 0, 255, 255, 255, 255};
    put_t(input);
    fill_replies(input, said);
    input->kind = JUDGE;
    input->null_when_empty = true;
    input->reply_len = hand->len;
    if (hand->number == 0)
        memcpy(said->reply, answer, ANSWER_BYTES);
    say_judged(said, hand->number, 0);
    said->quick = PACKED(0, 0); /* it has no reply */
    return hand->name;
}

/* The first engine refuses so many strips, where there is room to say so. */
static const char *long_reply_case(const struct hand_reply *hand, struct input *input, struct expected *said)
{
    static const struct task task = T_MK(1, 1000000);
    reply_case(hand, input, said);
    task_to_bytes(&task, input->task);
    said->quick = PACKED(9, 0);
    if (hand->number != 0)
        return hand->name;
    put_number(said->rounds_reply + 6, 1, 2);
    put_number(said->rounds_reply + 8, 600000, 4);
    put_number(said->rounds_reply + 12, 1, 4);
    say_first(said, 9);
    return hand->name;
}

static void say_point(struct expected *said, uint64_t count, uint64_t supply, int32_t margin)
{
    said->result = said->rounds = PACKED(0, count);
    said->supply = PACKED(0, supply);
    said->margin = PACKED(0, (uint32_t)margin);
}

static void say_refusal(struct expected *said, uint32_t number)
{
    said->result = said->rounds = said->supply = said->margin = PACKED(number, 0);
}

static const char *point_case(const struct hand_point *hand, struct input *input, struct expected *said)
{
    put_t(input);
    input->kind = COUNT;
    input->offset = hand->offset;
    say_point(said, hand->count, hand->supply, hand->margin);
    return hand->name;
}

static const char *late_case(const struct hand_late *hand, struct input *input, struct expected *said)
{
    put_task(input, &hand->task, hand->slots, hand->records);
    input->kind = COUNT;
    input->offset = hand->offset;
    say_point(said, hand->count, hand->supply, hand->margin);
    return hand->name;
}

static const char *round_case(const struct hand_round *hand, struct input *input, struct expected *said)
{
    const struct task task = {7, 3, 1, 1, hand->h, 0, hand->k, 0, 1};
    put_task(input, &task, SLOTS({0, 1, 7}));
    input->kind = COUNT;
    input->offset = hand->offset;
    say_point(said, hand->drops, round_points[hand->offset].supply, round_points[hand->offset].margin);
    return hand->name;
}

static const char *refusal_case(const struct hand_refusal *hand, struct input *input, struct expected *said)
{
    input->kind = COUNT;
    put_task(input, &hand->task, hand->slots, hand->records);
    input->offset = hand->offset;
    say_refusal(said, hand->number);
    return hand->name;
}

static const char *judged_refusal_case(const struct hand_refusal *hand, struct input *input, struct expected *said)
{
    const struct hand_task judged = {hand->name, hand->task, hand->slots, hand->records, hand->number, 0, 0, 0, 0};
    return judge_case(&judged, input, said);
}

static const char *beyond_case(const struct hand_beyond *hand, struct input *input, struct expected *said)
{
    put_t(input);
    input->kind = COUNT;
    input->offset = hand->offset;
    say_refusal(said, 11);
    return hand->name;
}

/* The same with a million strips: 9 comes before 11. */
static const char *long_beyond_case(const struct hand_beyond *hand, struct input *input, struct expected *said)
{
    static const struct task task = T_MK(1, 1000000);
    beyond_case(hand, input, said);
    task_to_bytes(&task, input->task);
    say_refusal(said, 9);
    said->rounds = PACKED(11, 0);
    return hand->name;
}

/* The supply and the margin aren't what is told here: below 1,025 strips they are the definition's. */
static const char *long_count_case(const struct hand_long *hand, struct input *input, struct expected *said)
{
    put_task(input, &hand->task, hand->slots, hand->records);
    input->kind = COUNT;
    input->offset = hand->offset;
    say_refusal(said, 9);
    said->rounds = PACKED(0, hand->drops);
    if (hand->task.k > STRIPS_MAX)
        return hand->name;
    said->result = said->rounds;
    said->supply = definition_supply(input->task, TASK_BYTES, input->slots, input->slots_len, hand->offset);
    said->margin = definition_margin(input->task, TASK_BYTES, input->slots, input->slots_len, hand->offset);
    return hand->name;
}

static const char *long_refusal_case(const struct hand_long_refusal *hand, struct input *input, struct expected *said)
{
    put_task(input, &hand->task, hand->slots, hand->records);
    input->kind = COUNT;
    input->offset = hand->offset;
    say_refusal(said, hand->number);
    said->rounds = PACKED(hand->rounds, 0);
    return hand->name;
}

static const char *judged_long_refusal_case(const struct hand_long_refusal *hand, struct input *input,
                                            struct expected *said)
{
    const struct hand_task judged = {hand->name, hand->task, hand->slots, hand->records, hand->rounds, 0, 0, 0, 0};
    judge_case(&judged, input, said);
    say_first(said, hand->number);
    return hand->name;
}

static const char *grant_case(const struct hand_grant *hand, struct input *input, struct expected *said)
{
    input->kind = GRANT;
    input->marks_len = hand->n;
    memcpy(input->marks, hand->marks, LENGTH(hand->marks));
    memcpy(said->marks, hand->after, LENGTH(hand->after));
    input->v = hand->v;
    input->loss = hand->loss;
    input->strips = (struct strips){hand->e, 5, 14, hand->m, 2};
    said->result = hand->result;
    return hand->name;
}

static const char *site_case(const struct hand_site *hand, struct input *input, struct expected *said)
{
    input->kind = SITE;
    input->null_when_empty = true;
    put_slots(input, site_slots, LENGTH(site_slots));
    input->task_len = hand->task_len;
    input->slots_len = hand->slots_len;
    input->reply_len = hand->reply_len;
    fill_replies(input, said);
    for (size_t i = 0; i < hand->records; i++) {
        const struct hand_sign *sign = &signs[hand->signs[i]];
        task_to_bytes(&sign->task, input->task + i * TASK_BYTES);
        if (hand->number == 0)
            memcpy(said->reply + i * ANSWER_BYTES, sign->answer, ANSWER_BYTES);
    }
    said->result = hand->number;
    return hand->name;
}

static const char *table_case(const struct hand_table *hand, struct input *input, struct expected *said)
{
    const struct task task = {hand->id, hand->w, hand->e, 5, 14, 1, 2, hand->first, hand->count};
    input->kind = WHICH;
    put_task(input, &task, hand->slots, hand->records);
    said->result = PACKED(hand->number, hand->place);
    return hand->name;
}

static const char *length_case(const struct hand_length *hand, struct input *input, struct expected *said)
{
    put_t(input);
    put_slot(input->slots + SLOT_BYTES, tasks[0].slots[0]);
    fill_replies(input, said);
    input->kind = hand->kind;
    input->offset = 9;
    input->null_when_empty = true;
    input->task_len = hand->task_len;
    input->slots_len = hand->slots_len;
    input->reply_len = ANSWER_BYTES;
    if (hand->kind == JUDGE)
        say_judged(said, hand->number, 0);
    else if (hand->kind == COUNT)
        say_refusal(said, hand->number);
    else
        said->result = PACKED(hand->number, 0);
    return hand->name;
}

/* Those that are told by whole rounds. */
static const char *hand_long_case(size_t i, struct input *input, struct expected *said)
{
    if (i < LENGTH(long_tasks))
        return long_case(&long_tasks[i], input, said);
    i -= LENGTH(long_tasks);
    if (i < LENGTH(long_counts))
        return long_count_case(&long_counts[i], input, said);
    i -= LENGTH(long_counts);
    if (i < LENGTH(long_refusals))
        return long_refusal_case(&long_refusals[i], input, said);
    i -= LENGTH(long_refusals);
    if (i < LENGTH(long_refusals))
        return judged_long_refusal_case(&long_refusals[i], input, said);
    i -= LENGTH(long_refusals);
    if (i < LENGTH(long_beyond))
        return long_beyond_case(&long_beyond[i], input, said);
    return long_reply_case(&long_replies[i - LENGTH(long_beyond)], input, said);
}

const char *hand_case(size_t i, struct input *input, struct expected *said)
{
    uint8_t *slots = input->slots;
    *input = (struct input){.slots = slots};
    *said = (struct expected){0};
    if (i < LENGTH(tasks))
        return judge_case(&tasks[i], input, said);
    i -= LENGTH(tasks);
    if (i < LENGTH(replies))
        return reply_case(&replies[i], input, said);
    i -= LENGTH(replies);
    if (i < LENGTH(points))
        return point_case(&points[i], input, said);
    i -= LENGTH(points);
    if (i < LENGTH(late_points))
        return late_case(&late_points[i], input, said);
    i -= LENGTH(late_points);
    if (i < LENGTH(rounds))
        return round_case(&rounds[i], input, said);
    i -= LENGTH(rounds);
    if (i < LENGTH(refusals))
        return refusal_case(&refusals[i], input, said);
    i -= LENGTH(refusals);
    if (i < LENGTH(refusals))
        return judged_refusal_case(&refusals[i], input, said);
    i -= LENGTH(refusals);
    if (i < LENGTH(beyond))
        return beyond_case(&beyond[i], input, said);
    i -= LENGTH(beyond);
    if (i < LENGTH(grants))
        return grant_case(&grants[i], input, said);
    i -= LENGTH(grants);
    if (i < LENGTH(sites))
        return site_case(&sites[i], input, said);
    i -= LENGTH(sites);
    if (i < LENGTH(tables))
        return table_case(&tables[i], input, said);
    i -= LENGTH(tables);
    if (i < LENGTH(lengths))
        return length_case(&lengths[i], input, said);
    return hand_long_case(i - LENGTH(lengths), input, said);
}

/* ---- pairs of boards ---- */

size_t hand_pair_count(void)
{
    return LENGTH(pairs);
}

const char *hand_pair(size_t i, struct input *one, struct input *other, struct expected *judged,
                      struct expected *counted)
{
    const struct hand_pair *hand = &pairs[i];
    struct task twin = hand->task;
    twin.first = hand->first;
    twin.count = hand->count;
    *one = (struct input){.slots = one->slots, .offset = hand->offset, .reply_len = ANSWER_BYTES};
    *other = (struct input){.slots = other->slots, .offset = hand->offset, .reply_len = ANSWER_BYTES};
    *judged = *counted = (struct expected){0};
    put_task(one, &hand->task, hand->slots, hand->records);
    put_task(other, &twin, hand->other_slots, hand->other_records);
    const uint32_t number = get_number(hand->answer + 4, 2);
    memcpy(judged->reply, hand->answer, ANSWER_BYTES);
    say_judged(judged, number, get_number(hand->answer + 6, 2));
    if (number == 0)
        say_point(counted, hand->drops, hand->supply, hand->margin);
    else
        say_refusal(counted, number);
    return hand->name;
}
