/*
 * Counting in the obvious C: a map of the wheel's drops, on the side of the tick
 * that the offset is on, then a remainder for each strip's place in it.
 */
#include "baselines.h"

#include <stdbool.h>

/* Bytes, so that the strips look into as little memory as can be. */
static void fill_map(const struct plan *plan, bool half, uint8_t *map)
{
    uint32_t total[FIDDLEQUILL_WHEEL_MAX + 1];
    uint16_t early[FIDDLEQUILL_WHEEL_MAX], odd[FIDDLEQUILL_WHEEL_MAX];
    const uint16_t *side = half ? odd : early;
    fill_total(plan, total);
    fill_early(plan, total, early);
    if (half)
        fill_odd(early, plan->w, odd);
    for (uint32_t a = 0; a < plan->w; a++)
        map[a] = (uint8_t)side[a];
}

static uint64_t count_map(const struct plan *plan, const uint8_t *map, uint64_t k, uint64_t offset)
{
    uint64_t w = plan->w, h = plan->h, drops = 0;
    for (uint64_t i = 0; i < k; i++)
        drops += map[(offset / 2 + i * h) % w];
    return drops;
}

uint64_t remainder_loop(const struct plan *plan, uint64_t k, uint64_t offset)
{
    uint8_t map[FIDDLEQUILL_WHEEL_MAX];
    fill_map(plan, offset % 2 == 1, map);
    return count_map(plan, map, k, offset);
}

uint64_t remainder_count(const uint8_t *task, size_t task_len, const uint8_t *slots, size_t slots_len, uint64_t offset)
{
    struct plan plan;
    uint32_t number = plan_read(&plan, task, task_len, slots, slots_len);
    if (number == FIDDLEQUILL_OK && offset >= (uint64_t)2 * plan.w)
        number = FIDDLEQUILL_BEYOND_WHEEL;
    if (number != FIDDLEQUILL_OK)
        return (uint64_t)number << 32;
    return remainder_loop(&plan, plan.k, offset);
}
