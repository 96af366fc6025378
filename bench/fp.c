/*
 * The published Finite-Point method in the obvious way (000, equations 6 to 13,
 * Theorem 1), with our window D and its half ticks: each zone start
 * and each n below k gives a candidate; each candidate counts k strips; each
 * strip takes a remainder and its supply from the slot list.
 */
#include "baselines.h"

/* Length of what [from, to) and a slot have in common. */
static uint32_t overlap(uint32_t from, uint32_t to, uint32_t start, uint32_t end)
{
    uint32_t low = from > start ? from : start, high = to < end ? to : end;
    return low < high ? high - low : 0;
}

/* Supply at any half tick, in half ticks; the window's rest reaches into the next turn at most. */
static uint32_t supply(const struct fp *fp, uint32_t time)
{
    uint32_t sum = fp->whole, t = time % fp->turn, to = t + fp->rest;
    for (uint32_t i = 0; i < fp->plan.slots; i++) {
        uint32_t start = 2 * fp->plan.start[i], end = 2 * fp->plan.end[i];
        sum += overlap(t, to, start, end) + overlap(t, to, start + fp->turn, end + fp->turn);
    }
    return sum;
}

static int dropped(const struct fp *fp, uint32_t time)
{
    return supply(fp, time) < 2 * fp->plan.e;
}

void fp_open(struct fp *fp)
{
    const struct plan *plan = &fp->plan;
    uint32_t inside = 0;
    fp->turn = 2 * plan->w;
    fp->rest = 2 * plan->D % fp->turn;
    for (uint32_t i = 0; i < plan->slots; i++)
        inside += plan->end[i] - plan->start[i];
    fp->whole = 2 * plan->D / fp->turn * 2 * inside;
    fp->zones = 0;
    for (uint32_t a = 0; a < plan->w; a++)
        if (!dropped(fp, 2 * a) && dropped(fp, 2 * a + 1))
            fp->zone[fp->zones++] = a;
}

uint32_t fp_candidate(const struct fp *fp, uint32_t i, uint32_t n)
{
    uint32_t w = fp->plan.w;
    return 2 * ((fp->zone[i] + w - n * fp->plan.h % w) % w) + 1;
}

/* The last arrival comes before 2 * 1,024 * 1,000,000 half ticks: 32 bits hold every time. */
uint32_t fp_count(const struct fp *fp, uint32_t offset)
{
    uint32_t drops = 0;
    for (uint32_t n = 0; n < fp->plan.k; n++)
        drops += dropped(fp, offset + 2 * n * fp->plan.h);
    return drops;
}

void fp_supplies(const struct fp *fp, uint32_t *least, uint32_t *largest)
{
    *least = UINT32_MAX;
    *largest = 0;
    for (uint32_t a = 0; a < fp->plan.w; a++) {
        uint32_t ticks = supply(fp, 2 * a) / 2;
        *least = ticks < *least ? ticks : *least;
        *largest = ticks > *largest ? ticks : *largest;
    }
}

uint32_t fp_judge(const uint8_t *task, size_t task_len, const uint8_t *slots, size_t slots_len, uint8_t *reply,
                  size_t reply_len)
{
    struct fp fp;
    uint32_t number = plan_read(&fp.plan, task, task_len, slots, slots_len);
    if (number == FIDDLEQUILL_BAD_LENGTH)
        return number;
    if (reply_len < FIDDLEQUILL_ANSWER_BYTES)
        return FIDDLEQUILL_SHORT_REPLY;
    uint32_t worst = 0, at = 0;
    if (number == FIDDLEQUILL_OK) {
        fp_open(&fp);
        worst = fp_count(&fp, 0);
        for (uint32_t i = 0; i < fp.zones; i++)
            for (uint32_t n = 0; n < fp.plan.k; n++) {
                uint32_t offset = fp_candidate(&fp, i, n), drops = fp_count(&fp, offset);
                if (drops > worst || (drops == worst && offset < at)) {
                    worst = drops;
                    at = offset;
                }
            }
    }
    plan_answer(&fp.plan, number, worst, at, reply);
    return number;
}
