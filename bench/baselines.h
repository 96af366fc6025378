/*
 * What the archive is measured against. The baselines of judging take the same
 * bytes as fiddlequill_judge, refuse alike, and write the same answer record but
 * for the margin, which the published method doesn't have: only the archive is
 * timed with it. The one of counting takes, refuses and answers like
 * fiddlequill_count.
 */
#ifndef BASELINES_H
#define BASELINES_H

#include "fiddlequill.h"

/* Where owner and loss begin in a slot record, and the margin, the last field, in an answer record. */
enum { OWNER_AT = 8, LOSS_AT = 10, MARGIN_AT = 16 };

/*
 * A task and the slots it owns, read and accepted; a slot that loses ticks starts behind them. Few tasks fill the room
 * for slots, so no baseline copies it.
 */
struct plan {
    uint32_t id, w, e, D, h, m, k, slots;
    uint32_t start[FIDDLEQUILL_SLOTS_MAX], end[FIDDLEQUILL_SLOTS_MAX];
};

/* Refusals 1, 3, 19, 4, 14 to 18 and 6 to 10, in this order; fills the plan where it gives 0. */
uint32_t plan_read(struct plan *plan, const uint8_t *task, size_t task_len, const uint8_t *slots, size_t slots_len);
/* Writes the answer up to the margin. */
void plan_answer(const struct plan *plan, uint32_t number, uint32_t worst, uint32_t offset, uint8_t *reply);

/* total[x] is the number of usable ticks below x. Inline, as the next two: a baseline is compiled in one piece. */
static inline void fill_total(const struct plan *plan, uint32_t *total)
{
    uint32_t x = 0, sum = 0;
    for (uint32_t i = 0; i < plan->slots; i++) {
        while (x < plan->start[i])
            total[x++] = sum;
        while (x < plan->end[i])
            total[x++] = sum++;
    }
    while (x <= plan->w)
        total[x++] = sum;
}

/* early[a]: dropped at tick a. */
static inline void fill_early(const struct plan *plan, const uint32_t *total, uint16_t *early)
{
    uint32_t w = plan->w, rest = plan->D % w, whole = plan->D / w * total[w];
    for (uint32_t a = 0; a < w - rest; a++)
        early[a] = whole + total[a + rest] - total[a] < plan->e;
    for (uint32_t a = w - rest; a < w; a++)
        early[a] = whole + total[w] - total[a] + total[a + rest - w] < plan->e;
}

/* odd[a]: dropped half a tick after a. */
static inline void fill_odd(const uint16_t *early, uint32_t w, uint16_t *odd)
{
    for (uint32_t a = 0; a + 1 < w; a++)
        odd[a] = early[a] | early[a + 1];
    odd[w - 1] = early[w - 1] | early[0];
}

/* The published Finite-Point method, in pieces so that a few candidates can be timed alone. */
struct fp {
    struct plan plan;
    uint32_t turn, rest, whole; /* half ticks: the wheel, the window beyond whole turns, the supply of those */
    uint32_t zones;
    uint32_t zone[FIDDLEQUILL_WHEEL_MAX]; /* ticks where a miss zone starts */
};

/* Fills in the rest beside the plan, which is there. */
void fp_open(struct fp *fp);
/* The candidate of zone start i of fp->zone and strip n, in half ticks. */
uint32_t fp_candidate(const struct fp *fp, uint32_t i, uint32_t n);
/* Drops from a half tick. */
uint32_t fp_count(const struct fp *fp, uint32_t offset);
/* Least and largest supply over the wheel's ticks, in ticks. */
void fp_supplies(const struct fp *fp, uint32_t *least, uint32_t *largest);
uint32_t fp_judge(const uint8_t *task, size_t task_len, const uint8_t *slots, size_t slots_len, uint8_t *reply,
                  size_t reply_len);

/* Doubling in its plain form: 16-bit counts, natural order. */
uint32_t doubling_judge(const uint8_t *task, size_t task_len, const uint8_t *slots, size_t slots_len, uint8_t *reply,
                        size_t reply_len);

/* The same with bytes while counts fit them. */
uint32_t bytes_judge(const uint8_t *task, size_t task_len, const uint8_t *slots, size_t slots_len, uint8_t *reply,
                     size_t reply_len);

/* Counting with a remainder for each strip. */
uint64_t remainder_count(const uint8_t *task, size_t task_len, const uint8_t *slots, size_t slots_len, uint64_t offset);
/* The same loop over k strips of a plan, however many: long windows are compared with it. */
uint64_t remainder_loop(const struct plan *plan, uint64_t k, uint64_t offset);

#ifdef BENCH_BEFORE
/* Calls of an older archive, in a copy with these names; it may read shorter slot records, or know no loss. */
uint32_t before_judge(const uint8_t *task, size_t task_len, const uint8_t *slots, size_t slots_len, uint8_t *reply,
                      size_t reply_len);
uint32_t before_site(const uint8_t *tasks, size_t tasks_len, const uint8_t *slots, size_t slots_len, uint8_t *reply,
                     size_t reply_len);
uint64_t before_count(const uint8_t *task, size_t task_len, const uint8_t *slots, size_t slots_len, uint64_t offset);
void before_grant(void); /* to be called as what it turns out to be */
#endif

/* Clears n bytes and reads them. */
uint32_t floor_pass(uint8_t *bytes, size_t n);

#endif
