/* Reading and answering, the same for all baselines; and the floor. */
#include "baselines.h"
#include "bytes.h"

#include <string.h>

/*
 * All of the board's records are tested; the next one takes the place of one that isn't the task's. Of the task's one
 * that touches the one before it loses nothing, and neither does one at tick 0 where the last ends at w.
 */
static uint32_t read_slots(struct plan *plan, const uint8_t *board, uint32_t count)
{
    uint32_t previous_end = 0, owned = 0, own_end = UINT32_MAX, own_start = 0;
    for (uint32_t i = 0; i < count; i++) {
        const uint8_t *slot = board + (size_t)i * FIDDLEQUILL_SLOT_BYTES;
        uint32_t start = get_number(slot, 4), end = get_number(slot + 4, 4), loss = get_number(slot + LOSS_AT, 2);
        if (start >= end)
            return FIDDLEQUILL_EMPTY_SLOT;
        if (end > plan->w)
            return FIDDLEQUILL_SLOT_PAST_WHEEL;
        if (start < previous_end)
            return FIDDLEQUILL_EARLY_SLOT;
        if (loss > end - start)
            return FIDDLEQUILL_LONG_LOSS;
        previous_end = end;
        if (get_number(slot + OWNER_AT, 2) != plan->id)
            continue;
        own_start = owned == 0 ? start : own_start;
        plan->start[owned] = start == own_end ? start : start + loss;
        plan->end[owned++] = own_end = end;
    }
    if (own_start == 0 && own_end == plan->w)
        plan->start[0] = 0;
    plan->slots = owned;
    return FIDDLEQUILL_OK;
}

static uint32_t check_limits(const struct plan *plan)
{
    if (plan->e == 0 || plan->e > FIDDLEQUILL_NEED_MAX)
        return FIDDLEQUILL_BAD_NEED;
    if (plan->h == 0 || plan->h > FIDDLEQUILL_PERIOD_MAX)
        return FIDDLEQUILL_BAD_PERIOD;
    if (plan->D == 0 || plan->D > plan->h)
        return FIDDLEQUILL_BAD_DEADLINE;
    if (plan->k == 0 || plan->k > FIDDLEQUILL_STRIPS_MAX)
        return FIDDLEQUILL_BAD_STRIPS;
    return plan->m > plan->k ? FIDDLEQUILL_BAD_PAINTED : FIDDLEQUILL_OK;
}

uint32_t plan_read(struct plan *plan, const uint8_t *task, size_t task_len, const uint8_t *slots, size_t slots_len)
{
    if (task_len != FIDDLEQUILL_TASK_BYTES || slots_len % FIDDLEQUILL_SLOT_BYTES != 0)
        return FIDDLEQUILL_BAD_LENGTH;
    uint32_t first = get_number(task + 28, 2), count = get_number(task + 30, 2);
    plan->id = get_number(task, 4);
    plan->w = get_number(task + 4, 4);
    plan->e = get_number(task + 8, 4);
    plan->D = get_number(task + 12, 4);
    plan->h = get_number(task + 16, 4);
    plan->m = get_number(task + 20, 4);
    plan->k = get_number(task + 24, 4);
    if (first + count > slots_len / FIDDLEQUILL_SLOT_BYTES)
        return FIDDLEQUILL_BEYOND_SLOTS;
    if (plan->id > FIDDLEQUILL_ID_MAX)
        return FIDDLEQUILL_BAD_ID;
    if (plan->w == 0 || plan->w > FIDDLEQUILL_WHEEL_MAX)
        return FIDDLEQUILL_BAD_WHEEL;
    if (count > FIDDLEQUILL_SLOTS_MAX)
        return FIDDLEQUILL_MANY_SLOTS;
    uint32_t number = read_slots(plan, slots + (size_t)first * FIDDLEQUILL_SLOT_BYTES, count);
    return number != FIDDLEQUILL_OK ? number : check_limits(plan);
}

void plan_answer(const struct plan *plan, uint32_t number, uint32_t worst, uint32_t offset, uint8_t *reply)
{
    put_number(reply, plan->id, 4);
    put_number(reply + 4, number, 2);
    put_number(reply + 6, number == FIDDLEQUILL_OK && worst <= plan->k - plan->m, 2);
    put_number(reply + 8, worst, 4);
    put_number(reply + 12, offset, 4);
}

uint32_t floor_pass(uint8_t *bytes, size_t n)
{
    uint32_t sum = 0;
    memset(bytes, 0, n);
    for (size_t i = 0; i < n; i++)
        sum += bytes[i];
    return sum;
}
