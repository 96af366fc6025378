/*
 * Doubling in its plain form: the counts of n strips from every odd half tick
 * give those of 2n and of n + 1 by one turned addition each. Natural order, one
 * plain loop each; 16-bit counts throughout, or bytes while counts fit them.
 */
#include "baselines.h"

#include <stdbool.h>

struct counts {
    uint16_t at[FIDDLEQUILL_WHEEL_MAX];
};

struct byte_counts {
    uint8_t at[FIDDLEQUILL_WHEEL_MAX];
};

/* into[t] = from[t] + more[(t + s) mod w] */
static void add_turned(struct counts *restrict into, const struct counts *from, const struct counts *more, uint32_t w,
                       uint32_t s)
{
    for (uint32_t t = 0; t < w - s; t++)
        into->at[t] = (uint16_t)(from->at[t] + more->at[t + s]);
    for (uint32_t t = w - s; t < w; t++)
        into->at[t] = (uint16_t)(from->at[t] + more->at[t + s - w]);
}

static void add_turned_bytes(struct byte_counts *restrict into, const struct byte_counts *from,
                             const struct byte_counts *more, uint32_t w, uint32_t s)
{
    for (uint32_t t = 0; t < w - s; t++)
        into->at[t] = (uint8_t)(from->at[t] + more->at[t + s]);
    for (uint32_t t = w - s; t < w; t++)
        into->at[t] = (uint8_t)(from->at[t] + more->at[t + s - w]);
}

/* The highest bit of k: the first strip's count is the map itself. */
static uint32_t top_bit(uint32_t k)
{
    uint32_t bit = FIDDLEQUILL_STRIPS_MAX;
    while ((k & bit) == 0)
        bit /= 2;
    return bit;
}

/* From the counts `now` of n strips on, for the bits of k below `bit`. */
static const struct counts *count_words(const struct plan *plan, const struct counts *odd, const struct counts *now,
                                        uint32_t n, uint32_t bit, struct counts *next, struct counts *spare)
{
    struct counts *swap;
    for (bit /= 2; bit > 0; bit /= 2) {
        add_turned(next, now, now, plan->w, (uint32_t)((uint64_t)n * plan->h % plan->w));
        n *= 2;
        now = next, swap = next, next = spare, spare = swap;
        if ((plan->k & bit) != 0) {
            add_turned(next, now, odd, plan->w, (uint32_t)((uint64_t)n * plan->h % plan->w));
            n++;
            now = next, swap = next, next = spare, spare = swap;
        }
    }
    return now;
}

/* The same in bytes while counts fit them; what is left of k goes on in 16 bits. */
static const struct counts *count_bytes(const struct plan *plan, const struct counts *odd, struct counts *one,
                                        struct counts *other, struct counts *wide)
{
    struct byte_counts low, a, b, *now = &low, *next = &a, *spare = &b, *swap;
    uint32_t w = plan->w, n = 1, bit = top_bit(plan->k);
    for (uint32_t t = 0; t < w; t++)
        low.at[t] = (uint8_t)odd->at[t];
    for (; bit > 1 && 2 * n + 1 <= UINT8_MAX; bit /= 2) {
        add_turned_bytes(next, now, now, w, (uint32_t)((uint64_t)n * plan->h % w));
        n *= 2;
        swap = now == &low ? spare : now, now = next, next = swap, spare = swap;
        if ((plan->k & bit / 2) != 0) {
            add_turned_bytes(next, now, &low, w, (uint32_t)((uint64_t)n * plan->h % w));
            n++;
            swap = now, now = next, next = swap, spare = swap;
        }
    }
    for (uint32_t t = 0; t < w; t++)
        wide->at[t] = now->at[t];
    return bit == 1 ? wide : count_words(plan, odd, wide, n, bit, one, other);
}

static uint32_t drops_from_zero(const struct plan *plan, const uint16_t *early)
{
    uint32_t drops = 0, place = 0, step = plan->h % plan->w;
    for (uint32_t n = 0; n < plan->k; n++) {
        drops += early[place];
        place += step;
        if (place >= plan->w)
            place -= plan->w;
    }
    return drops;
}

static void find_worst(const struct plan *plan, bool bytes_first, uint32_t *worst, uint32_t *offset)
{
    uint32_t total[FIDDLEQUILL_WHEEL_MAX + 1], at = 0;
    uint16_t early[FIDDLEQUILL_WHEEL_MAX];
    struct counts odd, one, other, wide;
    early[0] = 0; /* w is at least 1, but a compiler may doubt that the loops below write it */
    fill_total(plan, total);
    fill_early(plan, total, early);
    fill_odd(early, plan->w, odd.at);
    const struct counts *counts = bytes_first ? count_bytes(plan, &odd, &one, &other, &wide)
                                              : count_words(plan, &odd, &odd, 1, top_bit(plan->k), &one, &other);
    *worst = counts->at[0];
    for (uint32_t t = 1; t < plan->w; t++)
        if (counts->at[t] > *worst) {
            *worst = counts->at[t];
            at = t;
        }
    *offset = at == 0 && drops_from_zero(plan, early) == *worst ? 0 : 2 * at + 1;
}

static uint32_t judge_by(bool bytes_first, const uint8_t *task, size_t task_len, const uint8_t *slots, size_t slots_len,
                         uint8_t *reply, size_t reply_len)
{
    struct plan plan;
    uint32_t worst = 0, offset = 0;
    uint32_t number = plan_read(&plan, task, task_len, slots, slots_len);
    if (number == FIDDLEQUILL_BAD_LENGTH)
        return number;
    if (reply_len < FIDDLEQUILL_ANSWER_BYTES)
        return FIDDLEQUILL_SHORT_REPLY;
    if (number == FIDDLEQUILL_OK)
        find_worst(&plan, bytes_first, &worst, &offset);
    plan_answer(&plan, number, worst, offset, reply);
    return number;
}

uint32_t doubling_judge(const uint8_t *task, size_t task_len, const uint8_t *slots, size_t slots_len, uint8_t *reply,
                        size_t reply_len)
{
    return judge_by(false, task, task_len, slots, slots_len, reply, reply_len);
}

uint32_t bytes_judge(const uint8_t *task, size_t task_len, const uint8_t *slots, size_t slots_len, uint8_t *reply,
                     size_t reply_len)
{
    return judge_by(true, task, task_len, slots, slots_len, reply, reply_len);
}
