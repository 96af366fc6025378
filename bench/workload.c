#include "workload.h"

#include "bytes.h"

#include <stdio.h>
#include <stdlib.h>
#include <string.h>

/* splitmix64, always from the same seed: every run judges the same tasks */
uint64_t draw(uint64_t *state)
{
    uint64_t z = *state += 0x9e3779b97f4a7c15u;
    z = (z ^ z >> 30) * 0xbf58476d1ce4e5b9u;
    z = (z ^ z >> 27) * 0x94d049bb133111ebu;
    return z ^ z >> 31;
}

static uint32_t gcd(uint32_t a, uint32_t b)
{
    while (b != 0) {
        uint32_t r = a % b;
        a = b;
        b = r;
    }
    return a;
}

/* A turn, a third and half a slot's pitch; coprime to w, so that places don't come back early. */
uint32_t period_for(uint32_t w, uint32_t slots)
{
    uint32_t h = w + w / 3 + w / slots / 2 + 1;
    while (gcd(w, h) != 1)
        h++;
    return h;
}

void put_task(struct workload *load, uint32_t e, uint32_t h, uint32_t m)
{
    const uint32_t fields[] = {PAINTER, load->cell.w, e, h, h, m, load->cell.k};
    for (size_t i = 0; i < sizeof fields / sizeof *fields; i++)
        put_number(load->task + 4 * i, fields[i], 4);
    put_number(load->task + 28, 0, 2);
    put_number(load->task + 30, (uint32_t)(load->slots_len / FIDDLEQUILL_SLOT_BYTES), 2);
}

void put_slot(struct workload *load, uint32_t start, uint32_t end, uint32_t owner, uint32_t loss)
{
    uint8_t *slot = load->slots + load->slots_len;
    put_number(slot, start, 4);
    put_number(slot + 4, end, 4);
    put_number(slot + OWNER_AT, owner, 2);
    put_number(slot + LOSS_AT, loss, 2);
    load->slots_len += FIDDLEQUILL_SLOT_BYTES;
}

/* Slots at an even pitch, each about half of it long, but a tick at least, and moved a little. */
static void put_slots(struct workload *load, uint32_t from, uint32_t to, uint32_t n, uint32_t owner)
{
    uint64_t state = load->cell.w * 4099u + load->cell.slots;
    for (uint32_t i = 0; i < n; i++) {
        uint32_t at = from + (to - from) * i / n;
        uint32_t pitch = from + (to - from) * (i + 1) / n - at;
        uint32_t start = at + (uint32_t)(draw(&state) % (pitch / 4 + 1));
        put_slot(load, start, start + (pitch > 1 ? pitch / 2 : 1), owner, 0);
    }
}

static void open_plan(struct workload *load)
{
    uint32_t number = plan_read(&load->fp.plan, load->task, sizeof load->task, load->slots, load->slots_len);
    if (number != FIDDLEQUILL_OK) {
        fprintf(stderr, "bench: a workload is refused: %s\n", fiddlequill_meaning(number));
        exit(2);
    }
    fp_open(&load->fp);
}

/* The need lies midway between the least and the largest supply: zones start and strips drop. */
void make_workload(struct workload *load, struct cell cell)
{
    uint32_t h = period_for(cell.w, cell.slots), least, largest;
    load->cell = cell;
    load->slots_len = 0;
    put_slots(load, 0, cell.w, cell.slots, PAINTER);
    put_task(load, 1, h, cell.k / 2);
    open_plan(load);
    fp_supplies(&load->fp, &least, &largest);
    put_task(load, (least + largest + 1) / 2, h, cell.k / 2);
    open_plan(load);
}

uint32_t drops_allowed(enum table table, uint32_t worst)
{
    static const uint32_t quarters[TABLES] = {[JUST_FIRM] = 4, [THREE_QUARTERS] = 3, [HALF] = 2, [QUARTER] = 1,
                                             [NO_DROP] = 0};
    return table == ONE_LESS ? worst - 1 : worst * quarters[table] / 4;
}

void set_table(struct workload *load, enum table table, uint32_t worst)
{
    put_task(load, load->fp.plan.e, load->fp.plan.h, load->cell.k - drops_allowed(table, worst));
}

void set_strips(struct workload *load, uint32_t k)
{
    load->cell.k = k;
    put_task(load, load->fp.plan.e, load->fp.plan.h, k / 2);
}

/* The least supply is the largest need that drops nothing. */
void make_end(struct workload *load, struct cell cell, enum end end)
{
    const struct plan *plan = &load->fp.plan;
    uint32_t least, largest;
    make_workload(load, cell);
    fp_supplies(&load->fp, &least, &largest);
    const uint32_t needs[ENDS] = {[NONE_WANTED] = plan->e, [NONE_DROPS] = least, [ALL_DROP] = plan->D + 1};
    put_task(load, needs[end], plan->h, end == NONE_WANTED ? 0 : plan->m);
}

static uint32_t ticks_outside(const struct plan *plan)
{
    uint32_t ticks = plan->w;
    for (uint32_t i = 0; i < plan->slots; i++)
        ticks -= plan->end[i] - plan->start[i];
    return ticks;
}

/* Each gap gets records by its length and has an owner of its own. */
void make_board(struct workload *board, const struct workload *own)
{
    const struct plan *plan = &own->fp.plan;
    const uint32_t others = FIDDLEQUILL_SLOTS_MAX - plan->slots, outside = ticks_outside(plan);
    uint32_t from = 0, passed = 0, put = 0;
    board->cell = own->cell;
    board->slots_len = 0;
    for (uint32_t i = 0; i <= plan->slots; i++) {
        uint32_t to = i < plan->slots ? plan->start[i] : plan->w;
        passed += to - from;
        put_slots(board, from, to, others * passed / outside - put, PAINTER + 1 + i);
        put = others * passed / outside;
        if (i < plan->slots) {
            put_slot(board, plan->start[i], plan->end[i], PAINTER, 0);
            from = plan->end[i];
        }
    }
    put_task(board, plan->e, plan->h, plan->m);
    open_plan(board);
}

/* Half a gap is left between two slots, so that none touches the one before it. */
void make_late(struct workload *late, const struct workload *own)
{
    const struct plan *plan = &own->fp.plan;
    late->cell = own->cell;
    late->slots_len = 0;
    for (uint32_t i = 0; i < plan->slots; i++) {
        const uint32_t loss = (plan->start[i] - (i > 0 ? plan->end[i - 1] : 0)) / 2;
        put_slot(late, plan->start[i] - loss, plan->end[i], PAINTER, loss);
    }
    put_task(late, plan->e, plan->h, plan->m);
    open_plan(late);
}

static void put_sign(struct site *site, const struct workload *load, uint32_t i)
{
    const uint32_t id = PAINTER + i;
    uint8_t *task = site->tasks + i * FIDDLEQUILL_TASK_BYTES, *slots = site->slots + site->slots_len;
    memcpy(task, load->task, FIDDLEQUILL_TASK_BYTES);
    put_number(task, id, 4);
    put_number(task + 28, (uint32_t)(site->slots_len / FIDDLEQUILL_SLOT_BYTES), 2);
    memcpy(slots, load->slots, load->slots_len);
    for (size_t at = 0; at < load->slots_len; at += FIDDLEQUILL_SLOT_BYTES)
        put_number(slots + at + OWNER_AT, id, 2);
    site->slots_len += load->slots_len;
}

/* A need at or beyond the ends of the supply would be settled without looking for the worst, so none goes there. */
void make_site(struct site *site, struct cell cell)
{
    static struct workload load;
    uint32_t least, largest;
    make_workload(&load, cell);
    fp_supplies(&load.fp, &least, &largest);
    site->cell = cell;
    site->least = least;
    site->slots_len = 0;
    for (uint32_t i = 0; i < SIGNS; i++) {
        uint32_t e = load.fp.plan.e + i % 3;
        put_sign(site, &load, i);
        put_number(site->tasks + i * FIDDLEQUILL_TASK_BYTES + 8, e <= largest ? e : largest, 4);
    }
}

size_t cut_slots(uint8_t *slots, size_t slots_len, size_t bytes)
{
    const size_t records = slots_len / FIDDLEQUILL_SLOT_BYTES;
    for (size_t i = 0; i < records; i++)
        memmove(slots + i * bytes, slots + i * FIDDLEQUILL_SLOT_BYTES, bytes);
    return records * bytes;
}
