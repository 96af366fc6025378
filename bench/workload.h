/* The tasks that are timed: always the same ones. */
#ifndef WORKLOAD_H
#define WORKLOAD_H

#include "baselines.h"

struct cell {
    uint32_t w, slots, k;
};

/* The id of a workload's task, and the owner of its slots. */
enum { PAINTER = 1 };

struct workload {
    struct cell cell;
    uint8_t task[FIDDLEQUILL_TASK_BYTES];
    uint8_t slots[FIDDLEQUILL_SLOTS_MAX * FIDDLEQUILL_SLOT_BYTES];
    size_t slots_len;
    struct fp fp;
};

enum { SIGNS = 100 };

/* The signs of a site: tasks on one wheel, each with its own part of the slots, that differ a little in their need. */
struct site {
    struct cell cell;
    uint8_t tasks[SIGNS * FIDDLEQUILL_TASK_BYTES];
    uint8_t slots[SIGNS * FIDDLEQUILL_SLOTS_MAX * FIDDLEQUILL_SLOT_BYTES];
    size_t slots_len;
    uint32_t least; /* supply at any tick, the same for all signs */
};

/*
 * Tables on which a verdict is asked, by the drops k - m that they allow: the worst count itself, which is firm, so the
 * whole search must be made; and less, which isn't firm where the worst count is above 0.
 */
enum table { JUST_FIRM, ONE_LESS, THREE_QUARTERS, HALF, QUARTER, NO_DROP, TABLES };

/* Where a slider ends, and no search is needed: m is 0, no strip drops, all of them do. */
enum end { NONE_WANTED, NONE_DROPS, ALL_DROP, ENDS };

/* Rounded down; one less than a worst count of 0 is no number of drops, and the table is refused. */
uint32_t drops_allowed(enum table table, uint32_t worst);

/* The next number of a fixed row of random ones. */
uint64_t draw(uint64_t *state);

/* A period without early returns to a place on the wheel. */
uint32_t period_for(uint32_t w, uint32_t slots);

/* Appends a slot; then writes a task over all slots so far, with D = h and the cell's w and k. */
void put_slot(struct workload *load, uint32_t start, uint32_t end, uint32_t owner, uint32_t loss);
void put_task(struct workload *load, uint32_t e, uint32_t h, uint32_t m);

/* The task of a cell; exits when the baselines' reader refuses it. */
void make_workload(struct workload *load, struct cell cell);
/* The same task with another m: its table then allows the drops that go by the worst count of the task. */
void set_table(struct workload *load, enum table table, uint32_t worst);
/* The same task with another number of strips, also more than the baselines take, and half of them to be painted. */
void set_strips(struct workload *load, uint32_t k);
/* The task of a cell with one number moved to an end. */
void make_end(struct workload *load, struct cell cell, enum end end);
/* The same task on a board of FIDDLEQUILL_SLOTS_MAX records, where other owners have slots in all the gaps. */
void make_board(struct workload *board, const struct workload *own);
/* The same task with the same ticks, where each slot starts in the middle of the gap before it and loses that much. */
void make_late(struct workload *late, const struct workload *own);
/* A site of tasks around the cell's. */
void make_site(struct site *site, struct cell cell);
/* Cuts each slot record down to its first `bytes` bytes, and gives the length of them all. */
size_t cut_slots(uint8_t *slots, size_t slots_len, size_t bytes);

#endif
