/*
 * Seeded inputs; see inputs.h. An input starts as an accepted one, tuned so
 * that supply lies near the need and drops near the allowance; then nearly half
 * of them are moved to a bound, one past it, or damaged, some in several places
 * so that the order of refusals shows.
 */
#include "inputs.h"

#include <errno.h>
#include <stdio.h>
#include <stdlib.h>
#include <string.h>

#define LENGTH(array) (sizeof(array) / sizeof *(array))

/* Cells that the definition may add up for one input. */
static const uint64_t small_work = 200000, medium_work = 8000000, large_work = 100000000, huge_work = 3000000000;
static const uint64_t record_work = 1000000; /* and for one record of a site */
/* Strips times half ticks that it may look at for a window of more than STRIPS_MAX strips, but for the longest ones. */
static const uint64_t long_work = 40000000;

enum {
    MEDIUM_EVERY = 100,
    LARGE_EVERY = 200,
    HUGE_EVERY = 20000,
    EDGE_EVERY = 200,
    SITE_EVERY = 50,
    EDGE_SITE_EVERY = 650,
    WHICH_EVERY = 20,
    PAIR_EVERY = 25,
    HANGING_EVERY = 50,
    LONG_EVERY = 25,
    LONGEST_EVERY = 50000
};

const uint32_t wheel_edges[WHEEL_EDGES] = {255,  256,  257,  2047, 2048, 2049,  4095,
                                           4096, 4097, 8191, 8192, 8193, 16383, 16384};

/* Strips of the uses: few, more of them while a byte still counts them, and as many as no byte does. */
enum { FEW_STRIPS = 4, SOME_STRIPS = 64, MANY_STRIPS_FROM = 256 };

/* Slots of the task's own in the uses: many, or the most that leave a tick between each two. */
enum { MANY_SLOTS = 64 };

static uint32_t most_slots(uint32_t w)
{
    return w / 2 < SLOTS_MAX ? w / 2 : SLOTS_MAX;
}

static const uint64_t two_to_32 = 4294967296u;

/* ---- boards ---- */

uint32_t owner_at(const uint8_t *slots, size_t record)
{
    return get_number(slots + record * SLOT_BYTES + OWNER_AT, 2);
}

uint32_t owned_slots(const struct task *task, const uint8_t *slots)
{
    uint32_t owned = 0;
    for (uint32_t i = 0; i < task->count; i++)
        owned += owner_at(slots, task->first + i) == task->id;
    return owned;
}

uint32_t common_divisor(uint32_t a, uint32_t b)
{
    while (b > 0) {
        const uint32_t rest = a % b;
        a = b;
        b = rest;
    }
    return a;
}

struct slot {
    uint32_t start, end, owner, loss;
};

static struct slot slot_at(const uint8_t *slots, size_t record)
{
    const uint8_t *bytes = slots + record * SLOT_BYTES;
    return (struct slot){get_number(bytes, 4), get_number(bytes + 4, 4), get_number(bytes + OWNER_AT, 2),
                         get_number(bytes + LOSS_AT, 2)};
}

static void put_record(uint8_t *record, const struct slot *slot)
{
    put_number(record, slot->start, 4);
    put_number(record + 4, slot->end, 4);
    put_number(record + OWNER_AT, slot->owner, 2);
    put_number(record + LOSS_AT, slot->loss, 2);
}

/* Ticks at which a slot ends that the mistake takes for one of the task's, on its part or right beside it. */
static void mark_ends(bool *ends, enum mistake mistake, const struct task *task, const uint8_t *slots,
                      size_t slots_len)
{
    const size_t first = task->first, behind = first + task->count, records = slots_len / SLOT_BYTES;
    memset(ends, false, task->w);
    for (size_t i = first - (first > 0); i < behind + (behind < records); i++) {
        const struct slot slot = slot_at(slots, i);
        const bool inside = i >= first && i < behind;
        if (inside ? mistake == OTHERS_TOUCH : mistake == OUTSIDERS_TOUCH && slot.owner == task->id)
            ends[slot.end % task->w] = true;
    }
}

/* A slot of the task's wheel as the mistake has it. One that loses all the same is one that starts later. */
static struct slot mistaken(struct slot slot, enum mistake mistake, const bool *ends, const struct wheel *wheel)
{
    const uint32_t w = wheel->w, before = (slot.start + w - 1) % w;
    const bool round = slot.start == 0, fills = round && slot.end == w;
    const bool loses = mistake == TOUCHING_LOSES || (mistake == ROUND_LOSES && round && !fills) ||
                       (mistake == FILLING_LOSES && fills) ||
                       (mistake == LOST_BEFORE_LOSES && wheel->usable[before] == 0);
    const bool keeps = mistake == NOTHING_LOST || ends[slot.start];
    if (loses)
        slot.start += slot.loss;
    if (loses || keeps)
        slot.loss = 0;
    if (mistake == LOW_BYTE_LOST)
        slot.loss %= 256;
    if (mistake == HIGH_BYTE_LOST)
        slot.loss -= slot.loss % 256;
    return slot;
}

void wheel_with(struct wheel *wheel, enum mistake mistake, const struct task *task, const uint8_t *slots,
                size_t slots_len)
{
    uint8_t board[SLOTS_MAX * SLOT_BYTES];
    bool ends[WHEEL_MAX];
    struct task there = *task;
    there.first = 0;
    mark_ends(ends, mistake, task, slots, slots_len);
    wheel_of_task(wheel, task, slots);
    for (uint32_t i = 0; i < task->count; i++) {
        struct slot slot = mistaken(slot_at(slots, task->first + i), mistake, ends, wheel);
        slot.owner = mistake == ALL_OWN ? task->id : slot.owner;
        put_record(board + i * SLOT_BYTES, &slot);
    }
    wheel_of_task(wheel, &there, board);
}

uint64_t supply_with(enum mistake mistake, const struct task *task, const uint8_t *slots, size_t slots_len,
                     uint64_t offset)
{
    struct wheel wheel;
    wheel_with(&wheel, mistake, task, slots, slots_len);
    return supply_at(&wheel, task->D, 2, offset);
}

/* ---- numbers ---- */

uint64_t number_argument(const char *program, const char *text)
{
    char *end;
    errno = 0;
    uint64_t number = strtoull(text, &end, 10);
    if (*text < '0' || *text > '9' || *end != '\0' || errno != 0) {
        fprintf(stderr, "%s: \"%s\" isn't a number of 64 bits\n", program, text);
        exit(2);
    }
    return number;
}

struct rng rng_for(uint64_t seed, uint64_t number)
{
    return (struct rng){seed * 0x9e3779b97f4a7c15u ^ (number + 1) * 0xd1342543de82ef95u};
}

/* splitmix64. No expression draws twice in an order left to the compiler: a seed means the same everywhere. */
static uint64_t draw(struct rng *rng)
{
    uint64_t z = rng->state += 0x9e3779b97f4a7c15u;
    z = (z ^ z >> 30) * 0xbf58476d1ce4e5b9u;
    z = (z ^ z >> 27) * 0x94d049bb133111ebu;
    return z ^ z >> 31;
}

uint64_t below(struct rng *rng, uint64_t n)
{
    return draw(rng) % n;
}

static bool one_in(struct rng *rng, uint64_t n)
{
    return below(rng, n) == 0;
}

static uint64_t pick(struct rng *rng, const uint64_t *from, size_t n)
{
    return from[below(rng, n)];
}

static void scribble(struct rng *rng, uint8_t *bytes, size_t n)
{
    for (size_t i = 0; i < n; i++)
        bytes[i] = (uint8_t)draw(rng);
}

static uint64_t at_most(uint64_t value, uint64_t bound)
{
    return value < bound ? value : bound;
}

static uint64_t work_for(uint64_t number)
{
    if (number % HUGE_EVERY == HUGE_EVERY - 1)
        return huge_work;
    if (number % LARGE_EVERY == LARGE_EVERY - 1)
        return large_work;
    return number % MEDIUM_EVERY == 0 ? medium_work : small_work;
}

/* Shortens D and k until the definition can follow; `times` verdicts over a wheel of w. */
static void trim(struct strips *s, uint64_t w, uint64_t times, uint64_t work)
{
    uint64_t share = work / (2 * times * 2 * w);
    s->D = at_most(s->D, 1 + share / 2);
    s->k = at_most(s->k, 1 + share);
    s->k = at_most(s->k, 1 + 4 * work / (Q_MAX * s->D)); /* a judged worst is tried at a fraction, too */
    s->m = at_most(s->m, s->k);
}

/* A count adds up k windows only. */
static void trim_count(struct strips *s, uint64_t work)
{
    s->D = at_most(s->D, 1 + work / (2 * s->k));
}

/* The same for a window that is too long for the first engine: it stays so. A count looks at one half tick alone. */
static void trim_long(struct strips *s, uint64_t w, enum kind kind)
{
    const uint64_t most = kind == COUNT ? ROUNDS_STRIPS_MAX : long_work / (2 * w);
    s->D = at_most(s->D, 1 + record_work / (2 * 2 * w));
    s->k = at_most(s->k, most > STRIPS_MAX ? most : STRIPS_MAX + 1);
    s->m = at_most(s->m, s->k);
}

/* ---- strips ---- */

static uint64_t some_period(struct rng *rng, uint64_t w)
{
    switch (below(rng, 8)) {
    case 0:
        return at_most(w * (1 + below(rng, 4)), PERIOD_MAX);
    case 1:
        return w + 1;
    case 2:
        return one_in(rng, 2) ? PERIOD_MAX : 1 + below(rng, PERIOD_MAX);
    default:
        return at_most(1 + below(rng, 3 * w), PERIOD_MAX);
    }
}

static uint64_t some_deadline(struct rng *rng, uint64_t w, uint64_t h)
{
    switch (below(rng, 4)) {
    case 0:
        return h;
    case 1:
        return at_most(w + 1 + below(rng, w), h);
    default:
        return 1 + below(rng, at_most(h, 2 * w));
    }
}

/* Powers of two and their neighbours: where a count outgrows a byte, or one more bit of k is looked at. */
static uint64_t some_strips(struct rng *rng, uint64_t work)
{
    const uint64_t edges[] = {127, 128, 129, 255, 256, 256, 257, 511, 512, 513, STRIPS_MAX - 1, STRIPS_MAX, STRIPS_MAX};
    if (one_in(rng, work == small_work ? 50 : 2))
        return one_in(rng, 2) ? pick(rng, edges, LENGTH(edges)) : 1 + below(rng, STRIPS_MAX);
    return 1 + below(rng, one_in(rng, 2) ? 40 : 6);
}

/* Mostly the supply at some tick, or one beside it: there drops begin and end. */
static uint64_t some_need(struct rng *rng, const struct wheel *wheel, uint64_t D)
{
    uint64_t supply = supply_at(wheel, D, 1, below(rng, wheel->w));
    switch (below(rng, 24)) {
    case 0:
        return D + below(rng, 2);
    case 1:
        return 1 + below(rng, D);
    case 2:
        return NEED_MAX;
    case 3:
    case 4:
    case 5:
        return supply + 1;
    case 6:
    case 7:
        return supply > 1 ? supply - 1 : 1;
    default:
        return supply > 0 ? supply : 1;
    }
}

/* At the allowance (worst = k - m) or one past it, when the verdict is cheap; else anything. */
static uint64_t some_painted(struct rng *rng, const struct wheel *wheel, const struct strips *s, uint64_t work)
{
    if (one_in(rng, 6))
        return one_in(rng, 2) ? 0 : s->k;
    if (work <= medium_work && one_in(rng, 3))
        return at_most(s->k - verdict_of(wheel, s).worst + below(rng, 2), s->k);
    return below(rng, s->k + 1);
}

/* A wheel must be there already for the need and m to be tuned. */
static void tune(struct rng *rng, const struct wheel *wheel, struct strips *s, uint64_t work)
{
    s->e = some_need(rng, wheel, s->D);
    s->m = some_painted(rng, wheel, s, work);
}

enum field { FIELD_E, FIELD_D, FIELD_H, FIELD_M, FIELD_K, FIELDS };

static uint64_t *field_of(struct strips *s, enum field field)
{
    uint64_t *fields[FIELDS] = {&s->e, &s->D, &s->h, &s->m, &s->k};
    return fields[field];
}

/* Puts a field on its bound, one past it, or to the ends of its width; the strips have a bound for each engine. */
static void stretch(struct rng *rng, struct strips *s, enum field field, uint64_t widest)
{
    uint64_t bound[FIELDS] = {NEED_MAX, s->h, PERIOD_MAX, s->k, one_in(rng, 3) ? ROUNDS_STRIPS_MAX : STRIPS_MAX};
    uint64_t edges[] = {0, bound[field], bound[field] + 1, widest};
    *field_of(s, field) = pick(rng, edges, LENGTH(edges));
}

/* ---- owners ---- */

/* Any id that a task may have, or one at the bounds of its bytes. */
static uint32_t some_id(struct rng *rng)
{
    const uint64_t edges[] = {0, 0, 1, 255, 256, ID_MAX - 1, ID_MAX, ID_MAX};
    return (uint32_t)(one_in(rng, 3) ? pick(rng, edges, LENGTH(edges)) : below(rng, ID_MAX + 1));
}

/* Another owner than the id. Some differ from it in one byte alone, or in one bit. */
static uint32_t some_other(struct rng *rng, uint32_t id)
{
    const uint32_t byte = 1 + (uint32_t)below(rng, 255);
    switch (below(rng, 5)) {
    case 0:
        return id ^ byte;
    case 1:
        return id ^ byte << 8;
    case 2:
        return id ^ 1u << below(rng, 16);
    default:
        return (id + 1 + (uint32_t)below(rng, ID_MAX)) % (ID_MAX + 1);
    }
}

/* An id that no task may have. The low 16 bits of some are the id, which has slots. */
static uint32_t some_bad_id(struct rng *rng, uint32_t id, uint64_t way)
{
    const uint32_t past = ID_MAX + 1, low = id % past;
    switch (way % 4) {
    case 0:
        return past;
    case 1:
        return past + low;
    case 2:
        return past * (1 + (uint32_t)below(rng, ID_MAX)) + low;
    default:
        return UINT32_MAX;
    }
}

/* ---- slot tables ---- */

struct table {
    uint32_t n, room; /* room is now and then one slot too many */
    uint32_t owner;   /* of the slots that are put next */
    struct slot slot[SLOTS_MAX + 1];
};

static void open_table(struct table *table, uint32_t room, uint32_t owner)
{
    table->n = 0;
    table->room = room;
    table->owner = owner;
}

static void put_slot(struct table *table, uint64_t start, uint64_t end)
{
    if (start < end && table->n < table->room)
        table->slot[table->n++] = (struct slot){(uint32_t)start, (uint32_t)end, table->owner, 0};
}

/* Slots with gaps; a gap of 0 makes two touch. */
static void scattered(struct rng *rng, struct table *table, uint64_t w)
{
    uint64_t longest = 1 + below(rng, (w + 1) / 2), widest = 1 + below(rng, (w + 1) / 2), at = 0;
    while (at < w) {
        uint64_t start = at + below(rng, widest + 1), end = start + 1 + below(rng, longest);
        put_slot(table, start, at_most(end, w));
        at = end;
    }
}

/* n slots that touch and fill the wheel. */
static void full(struct table *table, uint64_t w, uint64_t n)
{
    for (uint64_t i = 0; i < n; i++)
        put_slot(table, w * i / n, w * (i + 1) / n);
}

/* n slots of one length, spread evenly; as many as half the wheel can hold. */
static void even(struct rng *rng, struct table *table, uint64_t w, uint64_t most)
{
    uint64_t n = at_most(most, w / 2 + 1), length = 1 + below(rng, w / n);
    for (uint64_t i = 0; i < n; i++)
        put_slot(table, w * i / n, w * i / n + length);
}

/* A slot anywhere between two ticks; it may fill all there is. */
static void put_between(struct rng *rng, struct table *table, uint64_t from, uint64_t to)
{
    uint64_t start = from + below(rng, to - from);
    put_slot(table, start, start + 1 + below(rng, to - start));
}

/* n slots, each of them anywhere in its own n-th of the wheel. */
static void strewn(struct rng *rng, struct table *table, uint64_t w, uint64_t n)
{
    for (uint64_t i = 0; i < n; i++)
        put_between(rng, table, w * i / n, w * (i + 1) / n);
}

/* Stretches of up to three slots that touch, with gaps between; one of them may go on round the end of the wheel. */
static void joined(struct rng *rng, struct table *table, uint64_t w)
{
    const uint64_t longest = 1 + below(rng, (w + 1) / 2), widest = 1 + below(rng, (w + 1) / 2);
    uint64_t at = one_in(rng, 2) ? 0 : below(rng, w);
    while (at < w) {
        for (uint64_t slots = 1 + below(rng, 3); slots > 0 && at < w; slots--) {
            const uint64_t start = at;
            at = at_most(start + 1 + below(rng, longest), w);
            put_slot(table, start, at);
        }
        at += 1 + below(rng, widest);
    }
    if (one_in(rng, 2))
        table->slot[table->n - 1].end = (uint32_t)w;
}

static void some_table(struct rng *rng, struct table *table, uint64_t w)
{
    switch (below(rng, 10)) {
    case 0:
        if (one_in(rng, 2))
            full(table, w, at_most(1 + below(rng, 5), w));
        break;
    case 1:
        even(rng, table, w, table->room);
        break;
    case 2:
    case 3:
        even(rng, table, w, 1 + below(rng, 5));
        break;
    case 4:
    case 5:
        joined(rng, table, w);
        break;
    default:
        scattered(rng, table, w);
    }
}

static uint32_t length_of(const struct slot *slot)
{
    return slot->end > slot->start ? slot->end - slot->start : 0;
}

/* A loss that a slot may have, often at an end of what it may be, or with nothing in its lower byte. */
static uint32_t some_loss(struct rng *rng, const struct slot *slot)
{
    const uint64_t most = at_most(length_of(slot), LOSS_MAX);
    const uint64_t losses[] = {at_most(1, most), most - at_most(1, most), most, most, most - most % 256,
                               below(rng, most + 1)};
    return (uint32_t)pick(rng, losses, LENGTH(losses));
}

/*
 * Half of the boards lose nothing. On the others all slots or some lose a few ticks, the same for each as far as it
 * goes, or about 256 where it is as long; or each slot loses its own.
 */
static void some_losses(struct rng *rng, struct table *table)
{
    const uint64_t few = 1 + below(rng, 3), many = one_in(rng, 4) ? 254 + few : few;
    const uint64_t in_four = one_in(rng, 2) ? 4 : 1 + below(rng, 3);
    const bool same = one_in(rng, 2);
    if (one_in(rng, 2))
        return;
    for (uint32_t i = 0; i < table->n; i++) {
        struct slot *slot = &table->slot[i];
        const uint64_t length = length_of(slot), loss = length >= many ? many : at_most(few, length);
        if (below(rng, 4) < in_four)
            slot->loss = same ? (uint32_t)loss : some_loss(rng, slot);
    }
}

/* Losses that leave the task the same ticks: slots start earlier in the gaps between them, and none touches by it. */
static void start_earlier(struct rng *rng, struct table *table)
{
    uint32_t at = 0;
    for (uint32_t i = 0; i < table->n; i++) {
        struct slot *slot = &table->slot[i];
        slot->loss = slot->start > at ? (uint32_t)below(rng, slot->start - at) : 0;
        slot->start -= slot->loss;
        at = slot->end;
    }
}

/* Slots of other owners in a gap that the task's leave: none, one that fills it, a few or as many as go in. */
static void fill_gap(struct rng *rng, struct table *table, uint32_t id, uint64_t from, uint64_t to)
{
    const uint64_t gap = to - from;
    if (gap == 0 || one_in(rng, 4))
        return;
    if (one_in(rng, 3)) {
        table->owner = some_other(rng, id);
        put_slot(table, from, to);
        return;
    }
    uint64_t n = at_most(1 + below(rng, one_in(rng, 12) ? SLOTS_MAX : 3), gap);
    for (uint64_t i = 0; i < n && table->n < table->room; i++) {
        table->owner = some_other(rng, id);
        put_between(rng, table, from + gap * i / n, from + gap * (i + 1) / n);
    }
}

/* What others lose is nothing to the task. */
static void lose_others(struct rng *rng, struct table *table, uint32_t id)
{
    const bool some = one_in(rng, 2);
    for (uint32_t i = 0; i < table->n; i++)
        if (some && table->slot[i].owner != id && one_in(rng, 2))
            table->slot[i].loss = some_loss(rng, &table->slot[i]);
}

/* Others get slots between the task's, before the first and behind the last, as far as the table has room. */
static void share(struct rng *rng, struct table *table, uint64_t w, uint32_t id)
{
    const struct table own = *table;
    uint64_t at = 0;
    table->n = 0;
    for (uint32_t i = 0; i <= own.n; i++) {
        table->room = own.room - (own.n - i); /* the task's own are still to come */
        fill_gap(rng, table, id, at, i < own.n ? own.slot[i].start : w);
        table->room = own.room;
        if (i < own.n) {
            table->slot[table->n++] = own.slot[i];
            at = own.slot[i].end;
        }
    }
    lose_others(rng, table, id);
}

/* Gives the slots of a whole board to the task and to others; now and then all to the task, or all to others. */
static void hand_out(struct rng *rng, struct table *table, uint32_t id)
{
    const uint64_t shares[] = {0, 1, 4, 4, 7, 8, 8};
    const uint64_t in_eight = pick(rng, shares, LENGTH(shares));
    for (uint32_t i = 0; i < table->n; i++)
        table->slot[i].owner = below(rng, 8) < in_eight ? id : some_other(rng, id);
}

/* Mostly others have slots beside the task's; now and then the board is the task's alone, or only others'. */
static void some_owners(struct rng *rng, struct table *table, uint64_t w, uint32_t id)
{
    if (one_in(rng, 20))
        for (uint32_t i = 0; i < table->n; i++)
            table->slot[i].owner = some_other(rng, id);
    if (!one_in(rng, 8))
        share(rng, table, w, id);
}

/* What can be wrong with a slot, refusals 15 to 18, as a set. No slot behind a good one has the first three. */
enum { EMPTY = 1, PAST = 2, EARLY = 4, LOSSY = 8, ALL_TROUBLES = EMPTY | PAST | EARLY | LOSSY };

/* A loss above the slot's length: by one, by so much that its lower byte alone would do or is zero, or the largest. */
static void lose_too_much(struct rng *rng, struct slot *slot)
{
    const uint64_t length = length_of(slot), whole = (length / 256 + 1) * 256;
    const uint64_t losses[] = {length + 1, length + 1, whole, whole + below(rng, at_most(length, 255) + 1), LOSS_MAX};
    slot->loss = (uint32_t)at_most(pick(rng, losses, LENGTH(losses)), LOSS_MAX);
}

/* Spoils a slot, often by one tick. The first one can't be early: nothing is before it. */
static void spoil(struct rng *rng, struct table *table, uint64_t place, unsigned troubles, uint64_t w)
{
    struct slot *slot = &table->slot[place];
    const uint64_t ends[] = {w + 1, w + 1, w + 2, UINT32_MAX / 2 + 1, UINT32_MAX};
    if (troubles & PAST)
        slot->end = (uint32_t)at_most(pick(rng, ends, LENGTH(ends)), UINT32_MAX);
    if (troubles & EARLY && place > 0)
        slot->start = table->slot[place - 1].end - 1;
    const uint64_t starts[] = {slot->end, slot->end, slot->end + UINT64_C(1), UINT32_MAX};
    if (troubles & EMPTY && troubles & EARLY)
        slot->end = slot->start - (slot->start > 0 && one_in(rng, 2));
    else if (troubles & EMPTY)
        slot->start = (uint32_t)at_most(pick(rng, starts, LENGTH(starts)), UINT32_MAX);
    if (troubles & LOSSY)
        lose_too_much(rng, slot);
}

/* Spoils some slot, in one way or several, or only makes it longer, which may be fine. */
static void spoil_slot(struct rng *rng, struct table *table, uint32_t w)
{
    const uint64_t kinds[] = {EMPTY, PAST, EARLY, LOSSY, LOSSY};
    uint64_t place = below(rng, table->n);
    unsigned troubles = (unsigned)pick(rng, kinds, LENGTH(kinds));
    if (one_in(rng, 3))
        troubles |= (unsigned)below(rng, ALL_TROUBLES + 1);
    if (one_in(rng, 7))
        table->slot[place].end = w;
    else
        spoil(rng, table, place, troubles, w);
}

/* ---- judging and counting ---- */

struct draft {
    struct task task;
    struct strips strips;
    struct table table;
    uint32_t after; /* records behind the task's board */
};

static void open_draft(struct rng *rng, struct draft *draft, uint32_t room)
{
    draft->task.id = some_id(rng);
    open_table(&draft->table, room, draft->task.id);
}

/* Short enough to follow D to its bound with a large input's work. */
static const uint64_t tiny_wheel = 12;

/* 2^n, one less or one more, for an n from `from` below `to`: where the size of an array may be chosen. */
static uint64_t power_or_beside(struct rng *rng, uint64_t from, uint64_t to)
{
    uint64_t power = UINT64_C(1) << (from + below(rng, to - from));
    return power + below(rng, 3) - 1;
}

static uint64_t large_wheel(struct rng *rng)
{
    switch (below(rng, 6)) {
    case 0:
        return WHEEL_MAX;
    case 1:
        return WHEEL_MAX - 1;
    case 2:
        return power_or_beside(rng, 10, 14);
    case 3:
        return 1 + below(rng, tiny_wheel);
    default:
        return 1 + below(rng, WHEEL_MAX);
    }
}

static uint64_t some_wheel(struct rng *rng, uint64_t work)
{
    if (work == huge_work)
        return WHEEL_MAX - below(rng, WHEEL_MAX / 2);
    if (work == large_work)
        return large_wheel(rng);
    if (work == medium_work)
        return one_in(rng, 2) ? power_or_beside(rng, 4, 13) : 1 + below(rng, 2500);
    return 1 + below(rng, one_in(rng, 6) ? 200 : 24);
}

static void put_table(uint8_t *board, const struct table *table)
{
    for (uint32_t i = 0; i < table->n; i++)
        put_record(board + i * SLOT_BYTES, &table->slot[i]);
}

static void wheel_of_draft(struct wheel *wheel, const struct draft *draft)
{
    uint8_t board[LENGTH(draft->table.slot) * SLOT_BYTES];
    struct task task = draft->task;
    task.first = 0;
    task.count = draft->table.n;
    put_table(board, &draft->table);
    wheel_of_task(wheel, &task, board);
}

/* The wheel, and the task's own slots alone. */
static void draft_own(struct rng *rng, struct draft *draft, uint32_t room, uint64_t work)
{
    open_draft(rng, draft, room);
    draft->task.w = (uint32_t)some_wheel(rng, work);
    some_table(rng, &draft->table, draft->task.w);
}

static void draft_strips(struct rng *rng, struct draft *draft, enum kind kind, uint64_t work)
{
    struct strips *s = &draft->strips;
    struct wheel wheel;
    const uint64_t w = draft->task.w;
    s->h = some_period(rng, w);
    s->D = some_deadline(rng, w, s->h);
    if (work == large_work && w <= tiny_wheel)
        s->D = s->h = PERIOD_MAX;
    s->k = some_strips(rng, work);
    s->m = 0;
    if (kind == JUDGE)
        trim(s, w, 1, work);
    else
        trim_count(s, work);
    wheel_of_draft(&wheel, draft);
    tune(rng, &wheel, s, kind == JUDGE ? work : huge_work); /* m plays no part in a count */
}

static void draft_task(struct rng *rng, struct draft *draft, enum kind kind, uint64_t work)
{
    draft_own(rng, draft, SLOTS_MAX + one_in(rng, 20), work);
    some_losses(rng, &draft->table);
    some_owners(rng, &draft->table, draft->task.w, draft->task.id);
    draft_strips(rng, draft, kind, work);
}

/* Records about as many as a grant may have marks, a byte counts or a board holds, with a few ticks for each. */
static uint64_t some_crowd(struct rng *rng, struct draft *draft)
{
    const uint64_t counts[] = {GRANT_SLOTS_MAX, GRANT_SLOTS_MAX + 1, 255, 256, 257,
                               SLOTS_MAX - 1,   SLOTS_MAX,           SLOTS_MAX};
    uint64_t n = pick(rng, counts, LENGTH(counts));
    draft->task.w = (uint32_t)(one_in(rng, 12) ? WHEEL_MAX : n + 1 + below(rng, 4 * n));
    return n;
}

static void draft_crowd(struct rng *rng, struct draft *draft, enum kind kind)
{
    open_draft(rng, draft, SLOTS_MAX + 1);
    uint64_t n = some_crowd(rng, draft);
    n += n == SLOTS_MAX && one_in(rng, 3);
    if (one_in(rng, 4))
        full(&draft->table, draft->task.w, n);
    else
        strewn(rng, &draft->table, draft->task.w, n);
    hand_out(rng, &draft->table, draft->task.id);
    some_losses(rng, &draft->table);
    draft_strips(rng, draft, kind, small_work);
}

/* A tick, often one where the wheel or an array may end. */
static uint64_t some_tick(struct rng *rng, uint64_t w)
{
    const uint64_t edges[] = {0, 1, w - 2, w - 1, power_or_beside(rng, 4, 15) % w};
    return one_in(rng, 2) ? pick(rng, edges, LENGTH(edges)) : below(rng, w);
}

/*
 * A wheel that is full but for two ticks, which others may have, and a period
 * that carries a strip from one to the other, or just beside: two drops meet at
 * one or two half ticks only, so a single wrong place of a large wheel shows.
 * Half of the time ticks behind the two are lost as well.
 */
static void draft_holes(struct rng *rng, struct draft *draft, uint64_t w)
{
    struct strips *s = &draft->strips;
    uint64_t from = some_tick(rng, w), to = some_tick(rng, w), beside = below(rng, 3);
    uint64_t low = at_most(from, to), high = from + to - low;
    open_draft(rng, draft, SLOTS_MAX);
    put_slot(&draft->table, 0, low);
    put_slot(&draft->table, low + 1, high);
    put_slot(&draft->table, high + 1, w);
    some_losses(rng, &draft->table);
    share(rng, &draft->table, w, draft->task.id);
    s->h = (to + 2 * w - from - 1 + beside) % w;
    s->h += w * (3 + below(rng, 3)); /* at least any D below */
    s->D = s->e = 1 + below(rng, 3);
    s->k = 2 + below(rng, FEW_STRIPS - 1);
    s->m = below(rng, s->k + 1);
    draft->task.w = (uint32_t)w;
}

/*
 * So many slots of the task's, at most half as many as ticks, with a tick or more between them and behind the last;
 * and no tick to spare for a strip: some drop.
 */
static void draft_gaps(struct rng *rng, struct draft *draft, uint64_t w, uint64_t slots, uint64_t k)
{
    struct strips *s = &draft->strips;
    uint64_t length = 1 + below(rng, w / slots - 1);
    open_draft(rng, draft, SLOTS_MAX);
    for (uint64_t i = 0; i < slots; i++)
        put_slot(&draft->table, w * i / slots, w * i / slots + length);
    if (one_in(rng, 2))
        start_earlier(rng, &draft->table);
    share(rng, &draft->table, w, draft->task.id);
    s->D = s->e = 1 + below(rng, 3);
    s->h = s->D + below(rng, 3 * w);
    s->k = k;
    s->m = below(rng, k + 1);
    draft->task.w = (uint32_t)w;
}

/* So many turns of a short wheel that a margin above zero may take three bytes. */
static void draft_turns(struct rng *rng, struct draft *draft)
{
    struct strips *s = &draft->strips;
    uint64_t w = 1 + below(rng, 3), two_bytes = 65536;
    open_draft(rng, draft, SLOTS_MAX);
    put_slot(&draft->table, 0, 1 + below(rng, w));
    some_losses(rng, &draft->table);
    share(rng, &draft->table, w, draft->task.id);
    s->D = 3 * two_bytes + below(rng, two_bytes);
    s->h = s->D + below(rng, w + 1);
    s->e = 1 + below(rng, two_bytes);
    s->k = 1 + below(rng, FEW_STRIPS);
    s->m = below(rng, s->k + 1);
    draft->task.w = (uint32_t)w;
}

static void place_slots(struct rng *rng, struct draft *draft)
{
    struct task *task = &draft->task;
    task->first = (uint32_t)below(rng, one_in(rng, 1000) ? 65536 : 4);
    if (one_in(rng, 600))
        task->first = 65535;
    task->count = draft->table.n;
    draft->after = (uint32_t)below(rng, 3);
}

/* Moves one field of the draft to a bound or past it. */
static void damage_draft(struct rng *rng, struct draft *draft)
{
    struct task *task = &draft->task;
    const uint64_t wheels[] = {0, WHEEL_MAX, WHEEL_MAX + 1, UINT32_MAX};
    const uint64_t counts[] = {SLOTS_MAX, SLOTS_MAX + 1, 65535, task->count + 1};
    switch (below(rng, 12)) {
    case 0:
        task->w = (uint32_t)pick(rng, wheels, LENGTH(wheels));
        break;
    case 1:
        task->count = (uint32_t)pick(rng, counts, LENGTH(counts));
        draft->after += one_in(rng, 2) ? SLOTS_MAX + 6 : 0;
        break;
    case 2:
        task->first = one_in(rng, 2) ? 65535 : task->first + 1;
        task->first = (uint32_t)at_most(task->first, 65535);
        break;
    case 3:
        task->id = one_in(rng, 6) ? some_id(rng) : some_bad_id(rng, task->id, below(rng, 4));
        break;
    case 4:
    case 5:
    case 6:
        if (draft->table.n > 0)
            spoil_slot(rng, &draft->table, task->w);
        break;
    default:
        stretch(rng, &draft->strips, (enum field)below(rng, FIELDS), UINT32_MAX);
    }
}

/* A record beside a board. Half of them lose nothing, and some would lose too much. */
static void put_beside(struct rng *rng, uint8_t *record, struct slot slot)
{
    if (one_in(rng, 4))
        lose_too_much(rng, &slot);
    else if (one_in(rng, 3))
        slot.loss = some_loss(rng, &slot);
    put_record(record, &slot);
}

/*
 * The board. The records beside it, if there are any, are other boards'; half of them have the task's id as owner and
 * touch its first slot or its last, and most of these would fit.
 */
static void put_board(struct rng *rng, uint8_t *board, const struct draft *draft, bool before, bool behind)
{
    const struct table *table = &draft->table;
    const uint32_t w = draft->task.w, start = table->n > 0 ? table->slot[0].start : 0;
    const uint32_t end = table->n > 0 ? table->slot[table->n - 1].end : w;
    put_table(board, table);
    if (before && one_in(rng, 2))
        put_beside(rng, board - SLOT_BYTES, (struct slot){0, start > 0 ? start : w, draft->task.id, 0});
    if (behind && one_in(rng, 2))
        put_beside(rng, board + table->n * SLOT_BYTES, (struct slot){end < w ? end : 0, w, draft->task.id, 0});
}

/* Lays out the slot buffer: strangers before `first`, the board, strangers after. */
static void lay_slots(struct rng *rng, struct input *input, const struct draft *draft, size_t first)
{
    size_t records = at_most(first + draft->table.n + draft->after, SLOT_RECORDS_MAX);
    scribble(rng, input->slots, at_most(records, 256) * SLOT_BYTES);
    if (records > 256)
        memset(input->slots + 256 * SLOT_BYTES, (int)below(rng, 256), (records - 256) * SLOT_BYTES);
    put_board(rng, input->slots + first * SLOT_BYTES, draft, first > 0, records > first + draft->table.n);
    input->slots_len = records * SLOT_BYTES;
}

static void strips_into_task(struct task *task, const struct strips *s)
{
    task->e = (uint32_t)s->e;
    task->D = (uint32_t)s->D;
    task->h = (uint32_t)s->h;
    task->m = (uint32_t)s->m;
    task->k = (uint32_t)s->k;
}

/* Good records, without a damage to either. */
static void lay_draft(struct rng *rng, struct input *input, struct draft *draft)
{
    place_slots(rng, draft);
    strips_into_task(&draft->task, &draft->strips);
    task_to_bytes(&draft->task, input->task);
    input->task_len = TASK_BYTES;
    lay_slots(rng, input, draft, draft->task.first);
}

static void flip_bit(struct rng *rng, uint8_t *bytes, size_t n)
{
    uint8_t *byte = bytes + below(rng, n);
    *byte ^= (uint8_t)(1u << below(rng, 8));
}

/* Ways 0 to 3: longer by a part record, shorter, eight bytes for each record, none. */
enum { SLOTS_LENGTHS = 4 };

static void damage_slots_length(struct rng *rng, struct input *input, uint64_t way)
{
    switch (way) {
    case 0:
        input->slots_len = at_most(input->slots_len + 1 + below(rng, SLOT_BYTES - 1), SLOTS_ROOM);
        break;
    case 1:
        input->slots_len -= at_most(1 + below(rng, SLOT_BYTES), input->slots_len);
        break;
    case 2:
        input->slots_len = input->slots_len / SLOT_BYTES * 8;
        break;
    default:
        input->slots_len = 0;
    }
}

/* Damage to the bytes and lengths themselves. */
static void damage_bytes(struct rng *rng, struct input *input)
{
    const uint64_t task_lengths[] = {0, 1, 31, 33, TASK_ROOM};
    uint64_t way = below(rng, SLOTS_LENGTHS + 5);
    if (way < SLOTS_LENGTHS) {
        damage_slots_length(rng, input, way);
        return;
    }
    switch (way - SLOTS_LENGTHS) {
    case 0:
        input->task_len = pick(rng, task_lengths, LENGTH(task_lengths));
        break;
    case 1:
        memset(input->task, one_in(rng, 2) ? 0xff : 0, TASK_BYTES);
        break;
    case 2:
        if (input->slots_len > 0)
            scribble(rng, input->slots + below(rng, at_most(input->slots_len, 128)), 1);
        break;
    default:
        flip_bit(rng, input->task, TASK_BYTES);
    }
}

/* Damage can turn a cheap task into a vast one that is still accepted, by one engine at least: trim it back. */
static void keep_cheap(const struct input *input, uint8_t *record, uint64_t work)
{
    if (refusal_by_rounds(record, input->slots, input->slots_len) != 0)
        return;
    struct task task = task_of_bytes(record);
    struct strips s = strips_of_task(&task);
    if (s.k > STRIPS_MAX)
        trim_long(&s, task.w, input->kind);
    else if (input->kind == COUNT)
        trim_count(&s, work);
    else
        trim(&s, task.w, 1, work);
    strips_into_task(&task, &s);
    task_to_bytes(&task, record);
}

static uint64_t some_offset(struct rng *rng, uint64_t w)
{
    const uint64_t edges[] = {2 * w - 1, 2 * w, 2 * w + 1, two_to_32, two_to_32 + w, UINT64_MAX, UINT64_MAX / 2 + 1};
    return w == 0 || one_in(rng, 6) ? pick(rng, edges, LENGTH(edges)) : below(rng, 2 * w);
}

/* One among the ticks that a slot may lose, or just behind them. */
static uint64_t offset_in(struct rng *rng, const struct slot *slot)
{
    return 2 * (uint64_t)slot->start + below(rng, 2 * (uint64_t)slot->loss + 2);
}

static size_t some_reply_length(struct rng *rng)
{
    const uint64_t lengths[] = {0, 1, MARGIN_AT, ANSWER_BYTES - 1, ANSWER_BYTES + 1, ANSWER_BYTES + 1, REPLY_ROOM};
    return one_in(rng, 5) ? pick(rng, lengths, LENGTH(lengths)) : ANSWER_BYTES;
}

/* Gives the work that the draft is cut for. A count on a long wheel takes little of it. */
static uint64_t draft_any(struct rng *rng, struct draft *draft, enum kind kind, uint64_t work)
{
    if (work == small_work && one_in(rng, kind == COUNT ? 20 : 60)) {
        draft_holes(rng, draft, one_in(rng, 2) ? WHEEL_MAX : 1 + at_most(large_wheel(rng), WHEEL_MAX - 1));
        return medium_work;
    }
    if (work == small_work && one_in(rng, 500)) {
        draft_turns(rng, draft);
        return medium_work;
    }
    if (work == small_work && one_in(rng, 40))
        draft_crowd(rng, draft, kind);
    else
        draft_task(rng, draft, kind, work);
    return work;
}

static void make_task_input(struct rng *rng, struct input *input, uint64_t work)
{
    struct draft draft;
    work = draft_any(rng, &draft, input->kind, work);
    place_slots(rng, &draft);
    size_t first = draft.task.first;
    bool vast = one_in(rng, 700); /* enough records for any first and count */
    if (vast) {
        draft.after = SLOT_RECORDS_MAX;
        draft.task.count = one_in(rng, 2) ? 65535 : draft.task.count;
    }
    if (vast || one_in(rng, 3))
        for (uint64_t n = 1 + below(rng, 3); n > 0; n--)
            damage_draft(rng, &draft);
    strips_into_task(&draft.task, &draft.strips);
    scribble(rng, input->task, TASK_ROOM);
    task_to_bytes(&draft.task, input->task);
    input->task_len = TASK_BYTES;
    lay_slots(rng, input, &draft, first);
    if (one_in(rng, 6))
        damage_bytes(rng, input);
    if (refusal_of_sizes(input->task_len, input->slots_len) == 0)
        keep_cheap(input, input->task, work);
    input->offset = some_offset(rng, task_of_bytes(input->task).w);
    if (draft.table.n > 0 && one_in(rng, 4))
        input->offset = offset_in(rng, &draft.table.slot[below(rng, draft.table.n)]);
    input->reply_len = some_reply_length(rng);
    scribble(rng, input->reply, REPLY_ROOM);
}

/* ---- wheels at an edge: drops and grants are certain; wheel and use go round, so that a short run meets each ---- */

enum edge_use edge_use_of(const struct task *task, uint32_t owned)
{
    const bool many = task->k >= MANY_STRIPS_FROM;
    if (task->k <= FEW_STRIPS)
        return EDGE_FEW;
    if (owned < MANY_SLOTS || task->k < SOME_STRIPS)
        return EDGE_USES;
    if (owned < most_slots(task->w))
        return many ? EDGE_MANY : EDGE_SOME;
    return many ? EDGE_MOST_MANY : EDGE_MOST_SOME;
}

enum edge_use site_edge_use_of(const struct task *task)
{
    return task->k < MANY_STRIPS_FROM ? EDGE_SITE : EDGE_SITE_MANY;
}

static void draft_edge(struct rng *rng, struct draft *draft, uint32_t w, enum edge_use use)
{
    const bool most = use == EDGE_MOST_SOME || use == EDGE_MOST_MANY || (use == EDGE_COUNT && one_in(rng, 2));
    const uint64_t slots = most ? most_slots(w) : MANY_SLOTS;
    if (use == EDGE_FEW)
        draft_holes(rng, draft, w);
    else if (use == EDGE_MANY || use == EDGE_MOST_MANY)
        draft_gaps(rng, draft, w, slots, MANY_STRIPS_FROM + below(rng, 64));
    else
        draft_gaps(rng, draft, w, slots, SOME_STRIPS + below(rng, MANY_STRIPS_FROM - SOME_STRIPS));
}

static struct verdict verdict_of_draft(const struct draft *draft)
{
    struct wheel wheel;
    wheel_of_draft(&wheel, draft);
    return verdict_of(&wheel, &draft->strips);
}

/* As many strips drop as may, or one more; where none drops, the task is firm all the same. */
static void hang(struct draft *draft, bool one_more)
{
    struct strips *s = &draft->strips;
    s->m = 0; /* it plays no part in the worst count */
    s->m = at_most(s->k - verdict_of_draft(draft).worst + one_more, s->k);
}

/* Good records, judged or asked about behind the last slot. */
static void lay_task(struct rng *rng, struct input *input, struct draft *draft)
{
    lay_draft(rng, input, draft);
    input->offset = 2 * (uint64_t)draft->task.w - 1 - below(rng, 2);
    input->reply_len = ANSWER_BYTES;
    scribble(rng, input->reply, REPLY_ROOM);
}

/* Behind the last slot the first strip drops. Uses with and without a drop too many take turns. */
static void make_edge_task(struct rng *rng, struct input *input, uint32_t w, enum edge_use use, uint64_t turn)
{
    struct draft draft;
    input->kind = use == EDGE_COUNT ? COUNT : JUDGE;
    draft_edge(rng, &draft, w, use);
    if (use != EDGE_COUNT)
        hang(&draft, (use + turn) % 2 == 1);
    lay_task(rng, input, &draft);
}

/* Half of the grants lose nothing. */
static uint64_t some_grant_loss(struct rng *rng, uint64_t v)
{
    const uint64_t losses[] = {0, 0, 0, 0, 1, v - 1, v, below(rng, v + 1)};
    return pick(rng, losses, LENGTH(losses));
}

/* All slots are free and no strip needs more than a full wheel has; slots that fill it lose nothing. */
static void make_edge_grant(struct rng *rng, struct input *input, uint64_t w)
{
    struct strips *s = &input->strips;
    size_t n = 1 + below(rng, GRANT_SLOTS_MAX);
    while (w % n != 0)
        n--;
    input->kind = GRANT;
    input->marks_len = n;
    input->v = w / n;
    input->loss = some_grant_loss(rng, input->v);
    memset(input->marks, 1, MARKS_ROOM);
    s->D = 1 + below(rng, 6);
    s->e = 1 + below(rng, s->D);
    s->h = s->D + below(rng, 3 * w);
    s->k = 1 + below(rng, 10);
    s->m = 1 + below(rng, s->k);
}

static void make_edge_input(struct rng *rng, struct input *input, uint64_t number)
{
    uint32_t w = wheel_edges[number % WHEEL_EDGES];
    uint64_t turn = number / WHEEL_EDGES / EDGE_SITE;
    enum edge_use use = (enum edge_use)(number / WHEEL_EDGES % EDGE_SITE);
    if (use == EDGE_GRANT)
        make_edge_grant(rng, input, w);
    else
        make_edge_task(rng, input, w, use, turn);
}

/* ---- verdicts that hang by one strip, or nearly ---- */

/* What a task is like then. The shapes go round, so that a short run meets each, with and without a drop too many. */
enum hanging_shape { MOST_STRIPS_SHAPE, BYTE_SHAPE, TURNS_SHAPE, RUNS_SHAPE, GAPS_SHAPE, COMB_SHAPE, HANGING_SHAPES };

/* So many strips that 256 drop, if as many ever do: one strip more drops one more at most. */
static void drop_256(struct draft *draft)
{
    struct strips *s = &draft->strips;
    uint64_t low = 1, high = STRIPS_MAX;
    s->m = 0;
    while (low < high) {
        s->k = (low + high) / 2;
        if (verdict_of_draft(draft).worst < 256)
            low = s->k + 1;
        else
            high = s->k;
    }
    s->k = low;
}

/* Strips for whole turns of a wheel; on an average as many drop as may, or about a strip more or less. */
static void draft_average(struct rng *rng, struct draft *draft, uint64_t turn)
{
    struct strips *s = &draft->strips;
    const uint64_t w = draft->task.w;
    s->k = w * (1 + below(rng, at_most(STRIPS_MAX / w, 4)));
    s->m = 0;
    const uint64_t painted = s->k - s->k / w * verdict_of_draft(draft).late.ticks;
    const uint64_t beside = painted + turn % 3; /* one more than what is meant */
    s->m = beside > 0 ? at_most(beside - 1, s->k) : 0;
}

/* Whether a tick lies in a gap, which may go over the wheel's end. */
static bool in_gap(uint64_t tick, uint64_t start, uint64_t length, uint64_t w)
{
    return (tick + w - start) % w < length;
}

/*
 * A long gap, one of a tick, and often another one, on a short wheel or a long one. The period carries a strip from the
 * short one well into the long one, or back: so two drop together from offsets that have to do with the short gap's
 * start alone.
 */
static void draft_unequal_gaps(struct rng *rng, struct draft *draft)
{
    struct strips *s = &draft->strips;
    const uint64_t unit = one_in(rng, 2) ? 1 : 64 + below(rng, 256);
    const uint64_t w = unit * (24 + below(rng, 24)), length = unit * (4 + below(rng, 4)), from = below(rng, w);
    const uint64_t short_one = below(rng, w), third = one_in(rng, 3) ? short_one : below(rng, w);
    const uint64_t there = (from + 1 + below(rng, length - 1) + w - short_one) % w;
    uint64_t start = 0;
    open_draft(rng, draft, SLOTS_MAX);
    draft->task.w = (uint32_t)w;
    for (uint64_t tick = 0; tick < w; tick++)
        if (in_gap(tick, from, length, w) || tick == short_one || tick == third) {
            put_slot(&draft->table, start, tick);
            start = tick + 1;
        }
    put_slot(&draft->table, start, w);
    if (one_in(rng, 2))
        start_earlier(rng, &draft->table);
    share(rng, &draft->table, w, draft->task.id);
    s->D = s->e = 1;
    s->h = w + (one_in(rng, 2) ? there : w - there);
    s->k = 2;
}

/*
 * Each sixth tick is a gap, and a strip goes on by three ticks beside whole sixes, so that no two meet such gaps. There
 * is one gap more, behind 64 of them or more: a strip that meets its start drops together with one inside another gap.
 */
static void draft_comb(struct rng *rng, struct draft *draft)
{
    struct strips *s = &draft->strips;
    const uint64_t pitch = 6, teeth = MANY_SLOTS + 2 + below(rng, SLOTS_MAX - MANY_SLOTS - 2), w = pitch * teeth;
    const uint64_t tooth = MANY_SLOTS + below(rng, teeth - MANY_SLOTS);
    open_draft(rng, draft, SLOTS_MAX);
    draft->task.w = (uint32_t)w;
    for (uint64_t i = 0; i < teeth; i++) {
        put_slot(&draft->table, pitch * i + 1, pitch * i + (i == tooth ? 4 : pitch));
        if (i == tooth)
            put_slot(&draft->table, pitch * i + 5, pitch * (i + 1));
    }
    s->D = s->e = 1;
    s->h = pitch * below(rng, teeth) + pitch / 2;
    s->k = 2;
}

static void draft_hanging(struct rng *rng, struct draft *draft, enum hanging_shape shape, uint64_t turn)
{
    const uint64_t slots = MANY_SLOTS + 1 + below(rng, MANY_SLOTS), pitch = 2 + below(rng, 4);
    if (shape == RUNS_SHAPE)
        draft_gaps(rng, draft, slots * pitch, slots, 2 + below(rng, SOME_STRIPS));
    else if (shape == GAPS_SHAPE)
        draft_unequal_gaps(rng, draft);
    else if (shape == COMB_SHAPE)
        draft_comb(rng, draft);
    else
        draft_task(rng, draft, JUDGE, small_work);
    if (shape == MOST_STRIPS_SHAPE)
        draft->strips.k = STRIPS_MAX;
    if (shape == BYTE_SHAPE)
        drop_256(draft);
    if (shape == TURNS_SHAPE)
        draft_average(rng, draft, turn);
    else
        hang(draft, turn % 2 == 1 || shape >= GAPS_SHAPE);
}

static void make_hanging_input(struct rng *rng, struct input *input, uint64_t number)
{
    struct draft draft;
    input->kind = JUDGE;
    draft_hanging(rng, &draft, (enum hanging_shape)(number % HANGING_SHAPES), number / HANGING_SHAPES);
    lay_task(rng, input, &draft);
}

/* ---- long windows, for whole rounds ---- */

/* Strips at and about the bound of each engine. */
static const uint64_t strip_bounds[] = {STRIPS_MAX - 1,        STRIPS_MAX,        STRIPS_MAX + 1,       STRIPS_MAX + 2,
                                        ROUNDS_STRIPS_MAX - 1, ROUNDS_STRIPS_MAX, ROUNDS_STRIPS_MAX + 1};

/* How long a window is. The shapes go round, and so do the steps and the calls, so that a short run meets each. */
enum long_shape {
    WHOLE_ROUNDS = LENGTH(strip_bounds), /* below it: as listed above */
    ONE_OVER,                            /* whole rounds and one strip */
    ONE_SHORT,                           /* and all strips of another but one */
    NO_ROUND,                            /* not as long as a round */
    LARGE_LONG,                          /* any length, on any wheel */
    DAMAGED_LONG,                        /* mostly refused by whole rounds, too */
    LONG_SHAPES
};

/* What a period has in common with the wheel: all of it, nothing, or a part. */
enum long_step { TURNS_STEP, COPRIME_STEP, DIVISOR_STEP, LONG_STEPS };

/* Judging looks at all half ticks of a wheel, so that few of its largest ones can be afforded. */
static uint64_t long_wheel(struct rng *rng, enum kind kind, enum long_shape shape, enum long_step step)
{
    const uint64_t factor = 2 + below(rng, 6), most = kind == COUNT || one_in(rng, 3) ? WHEEL_MAX : WHEEL_MAX / 4;
    if (shape == LARGE_LONG)
        return factor * (1 + below(rng, most / factor));
    if (shape == NO_ROUND)
        return 2 * (STRIPS_MAX + 1 + below(rng, most / 2 - STRIPS_MAX));
    return step == DIVISOR_STEP ? factor * (2 + below(rng, 15)) : 1 + below(rng, 64);
}

/* Some divisor of a number that isn't the number itself, mostly the largest one. */
static uint64_t part_of(struct rng *rng, uint64_t n)
{
    uint64_t divisor = 2;
    while (divisor < n && n % divisor != 0)
        divisor++;
    return one_in(rng, 3) ? divisor % n : n / divisor;
}

/* Half of the periods have so many turns beside that late strips come after more than 2^32 half ticks. */
static uint64_t long_period(struct rng *rng, uint64_t w, enum long_step step)
{
    const uint64_t part = part_of(rng, w), turns = one_in(rng, 2) ? below(rng, 3) : below(rng, PERIOD_MAX / w - 1);
    uint64_t rest = w;
    if (step == COPRIME_STEP)
        for (rest = 1 + below(rng, w); common_divisor((uint32_t)w, (uint32_t)rest) > 1;)
            rest = 1 + rest % w;
    if (step == DIVISOR_STEP && part > 0)
        for (rest = part * (1 + below(rng, w / part)); common_divisor((uint32_t)w, (uint32_t)rest) == w;)
            rest = part;
    return rest + w * turns;
}

static uint64_t long_strips(struct rng *rng, enum long_shape shape, const struct draft *draft)
{
    const uint64_t w = draft->task.w, round = w / common_divisor((uint32_t)w, (uint32_t)draft->strips.h);
    const uint64_t whole = round * (STRIPS_MAX / round + 1 + below(rng, 20));
    if (shape < LENGTH(strip_bounds))
        return strip_bounds[shape];
    switch (shape) {
    case WHOLE_ROUNDS:
        return whole;
    case ONE_OVER:
        return whole + 1;
    case ONE_SHORT:
        return whole + round - 1;
    case NO_ROUND:
        return STRIPS_MAX + 1 + (round > STRIPS_MAX + 1 ? below(rng, round - STRIPS_MAX - 1) : 0);
    default:
        return STRIPS_MAX + 1 + below(rng, one_in(rng, 2) ? STRIPS_MAX : ROUNDS_STRIPS_MAX - STRIPS_MAX);
    }
}

/* Strips at a bound stay there: those wheels are short. */
static void draft_long(struct rng *rng, struct draft *draft, enum kind kind, enum long_shape shape,
                       enum long_step step)
{
    struct strips *s = &draft->strips;
    struct wheel wheel;
    const uint64_t w = long_wheel(rng, kind, shape, step);
    open_draft(rng, draft, SLOTS_MAX);
    draft->task.w = (uint32_t)w;
    some_table(rng, &draft->table, w);
    some_losses(rng, &draft->table);
    some_owners(rng, &draft->table, w, draft->task.id);
    s->h = long_period(rng, w, step);
    s->D = 1 + below(rng, at_most(s->h, 2 * w));
    s->k = long_strips(rng, shape, draft);
    s->m = below(rng, s->k + 1);
    if (s->k > STRIPS_MAX && shape >= LENGTH(strip_bounds))
        trim_long(s, w, kind);
    wheel_of_draft(&wheel, draft);
    s->e = some_need(rng, &wheel, s->D);
    if (kind == JUDGE && s->k <= ROUNDS_STRIPS_MAX && one_in(rng, 2))
        hang(draft, one_in(rng, 2));
}

/* What whole rounds refuse: more than a million strips, too many to be painted, and these before and behind others. */
static void damage_long(struct rng *rng, struct input *input, struct draft *draft, uint64_t way)
{
    const uint64_t past = one_in(rng, 2) ? ROUNDS_STRIPS_MAX + 1 : UINT32_MAX;
    struct strips *s = &draft->strips;
    switch (way % 7) {
    case 0:
        s->k = UINT32_MAX;
        s->m = below(rng, s->k + 1);
        break;
    case 1: /* 8 before 9 */
        s->D = s->h + 1;
        s->k = past;
        break;
    case 2: /* 9 before 10 */
        s->k = ROUNDS_STRIPS_MAX + 1;
        s->m = s->k + 1;
        break;
    case 3:
        s->m = s->k + 1;
        break;
    case 4: /* 10 before 11 */
        s->m = s->k + 1;
        input->offset = UINT64_MAX;
        break;
    case 5:
        input->offset = 2 * (uint64_t)draft->task.w;
        break;
    default:
        s->k = 0;
        s->m = past;
    }
}

static void make_long_input(struct rng *rng, struct input *input, uint64_t number)
{
    struct draft draft;
    const uint64_t turn = number / LONG_SHAPES;
    const enum long_shape shape = (enum long_shape)(number % LONG_SHAPES);
    const enum long_step step = (enum long_step)(turn % LONG_STEPS);
    input->kind = turn / LONG_STEPS % 2 == 0 ? JUDGE : COUNT;
    draft_long(rng, &draft, input->kind, shape, step);
    input->offset = one_in(rng, 6) ? 2 * (uint64_t)draft.task.w - 1 : below(rng, 2 * (uint64_t)draft.task.w);
    if (shape == DAMAGED_LONG)
        damage_long(rng, input, &draft, turn / LONG_STEPS / 2);
    lay_draft(rng, input, &draft);
    input->reply_len = some_reply_length(rng);
    scribble(rng, input->reply, REPLY_ROOM);
}

/* The most strips on one of the largest wheels, seen from every half tick. */
static void make_longest_input(struct rng *rng, struct input *input)
{
    struct draft draft;
    const uint64_t w = WHEEL_MAX - below(rng, 3);
    input->kind = JUDGE;
    draft_gaps(rng, &draft, w, MANY_SLOTS, ROUNDS_STRIPS_MAX - below(rng, 2));
    lay_task(rng, input, &draft);
}

/* ---- granting ---- */

static uint64_t free_slots(const uint8_t *marks, size_t n)
{
    uint64_t found = 0;
    for (size_t i = 0; i < n; i++)
        found += marks[i] == 1;
    return found;
}

static void some_marks(struct rng *rng, uint8_t *marks, size_t n)
{
    uint64_t taken_in_four = one_in(rng, 20) ? 4 : below(rng, 3); /* 4: none is free */
    for (size_t i = 0; i < n; i++)
        marks[i] = below(rng, 4) >= taken_in_four;
}

/* The wheel that some of the first free slots would make: a task tuned to it is granted about as many. */
static void wheel_of_some(struct rng *rng, struct wheel *wheel, const struct input *input)
{
    uint8_t taken[GRANT_SLOTS_MAX] = {0};
    size_t n = 1 + below(rng, input->marks_len);
    memcpy(taken, input->marks, one_in(rng, 4) ? input->marks_len : n);
    wheel_of_grid(wheel, taken, input->marks_len, input->v, input->loss);
}

static void damage_grant(struct rng *rng, struct input *input)
{
    const uint64_t lengths[] = {0, GRANT_SLOTS_MAX, GRANT_SLOTS_MAX + 1, MARKS_ROOM};
    const uint64_t n = input->marks_len > 0 ? input->marks_len : 1;
    /* The last four pass a test that looks at 32 bits, or at N * v after it wrapped. */
    const uint64_t slot_lengths[] = {0, WHEEL_MAX / n, WHEEL_MAX / n + 1, UINT64_MAX,
                                     two_to_32 + input->v, two_to_32 / n + 1, UINT64_MAX / n + 1,
                                     UINT64_MAX / 2 + 1};
    /* All but the first two pass one that looks at 32 bits, or takes them for signed. */
    const uint64_t losses[] = {input->v + 1, input->v + 1,       two_to_32, two_to_32 + below(rng, 3),
                               UINT64_MAX,   UINT64_MAX / 2 + 1};
    enum field field = (enum field)below(rng, FIELDS);
    size_t place;
    switch (below(rng, 7)) {
    case 0:
        input->marks_len = pick(rng, lengths, LENGTH(lengths));
        break;
    case 1:
        input->v = pick(rng, slot_lengths, LENGTH(slot_lengths));
        break;
    case 2:
        place = below(rng, n);
        input->marks[place] = (uint8_t)(one_in(rng, 2) ? 2 : 2 + below(rng, 254));
        break;
    case 3:
        *field_of(&input->strips, field) += two_to_32;
        break;
    case 4:
        input->loss = pick(rng, losses, LENGTH(losses));
        break;
    default:
        stretch(rng, &input->strips, field, UINT64_MAX);
    }
}

static void keep_grant_cheap(struct input *input, uint64_t work)
{
    if (refusal_of_marks(input->marks, input->marks_len, input->v, input->loss) == 0 &&
        refusal_of_strips(&input->strips) == 0)
        trim(&input->strips, input->marks_len * input->v, 1 + free_slots(input->marks, input->marks_len), work);
}

static void make_grant_input(struct rng *rng, struct input *input, uint64_t work)
{
    struct strips *s = &input->strips;
    struct wheel wheel;
    size_t n = 1 + below(rng, one_in(rng, 6) ? GRANT_SLOTS_MAX : 8);
    if (one_in(rng, 40))
        n = GRANT_SLOTS_MAX;
    uint64_t longest = work == small_work ? 4 : WHEEL_MAX / n;
    uint64_t v = one_in(rng, 40) ? WHEEL_MAX / n : 1 + below(rng, longest);
    input->marks_len = n;
    input->v = v;
    input->loss = some_grant_loss(rng, v);
    some_marks(rng, input->marks, MARKS_ROOM);
    s->h = some_period(rng, n * v);
    s->D = some_deadline(rng, n * v, s->h);
    s->k = some_strips(rng, work);
    s->m = 0;
    trim(s, n * v, 1 + free_slots(input->marks, n), work);
    wheel_of_some(rng, &wheel, input);
    tune(rng, &wheel, s, work);
    if (one_in(rng, 3))
        for (uint64_t i = 1 + below(rng, 2); i > 0; i--)
            damage_grant(rng, input);
    keep_grant_cheap(input, work);
}

/* ---- slot tables with troubles ---- */

enum where { FIRST_SLOT, MIDDLE_SLOT, LAST_SLOT };

static uint64_t place_of(struct rng *rng, uint64_t n, enum where where)
{
    if (where == MIDDLE_SLOT && n > 2)
        return 1 + below(rng, n - 2);
    return where == FIRST_SLOT ? 0 : n - 1;
}

static const struct {
    unsigned troubles;
    enum where where;
} spoilt[] = {
    {EMPTY, FIRST_SLOT},         {EMPTY, MIDDLE_SLOT},         {EMPTY, LAST_SLOT},
    {PAST, FIRST_SLOT},          {PAST, MIDDLE_SLOT},          {PAST, LAST_SLOT},
    {EARLY, MIDDLE_SLOT},        {EARLY, LAST_SLOT},           {EMPTY | PAST, FIRST_SLOT},
    {EMPTY | PAST, MIDDLE_SLOT}, {EMPTY | EARLY, MIDDLE_SLOT}, {EMPTY | EARLY, LAST_SLOT},
    {PAST | EARLY, MIDDLE_SLOT}, {PAST | EARLY, LAST_SLOT},    {LOSSY, FIRST_SLOT},
    {LOSSY, MIDDLE_SLOT},        {LOSSY, LAST_SLOT},           {EMPTY | LOSSY, MIDDLE_SLOT},
    {PAST | LOSSY, FIRST_SLOT},  {EARLY | LOSSY, MIDDLE_SLOT}, {EARLY | LOSSY, LAST_SLOT},
};

/* What a table is like that is asked about. There the shapes go round, so that a short run meets each. */
enum table_shape {
    SPOILT_TWICE = LENGTH(spoilt), /* below it: one slot is spoilt, as listed above */
    SPOILT_OFTEN,
    SPOILT_NEXT, /* a loss above the length, and no tick in the slot behind it */
    SLOTS_TOO_MANY,
    SLOTS_TOO_MANY_SPOILT,
    BAD_TABLES, /* what follows isn't done to the table itself */
    WHEEL_BAD = BAD_TABLES,
    ID_BAD,
    ID_BAD_TOO, /* and something else as well */
    RECORDS_TOO_FEW,
    TASK_LENGTH,
    SLOTS_LENGTH,
    BYTES_DAMAGED,
    NO_TABLE,
    STRANGER_BEFORE, /* a good slot that the task's first would clash with */
    TABLE_SHAPES = 40 /* the others are good */
};

static uint64_t some_slots(struct rng *rng, uint64_t shape)
{
    const uint64_t counts[] = {1, 2, 3, 3, 4, 8, GRANT_SLOTS_MAX, GRANT_SLOTS_MAX + 1,
                               SLOTS_MAX - 1, SLOTS_MAX, SLOTS_MAX};
    if (shape == SLOTS_TOO_MANY || shape == SLOTS_TOO_MANY_SPOILT)
        return SLOTS_MAX + 1;
    return shape == NO_TABLE ? 0 : pick(rng, counts, LENGTH(counts));
}

/* A good board of n slots that fill the wheel or have gaps; the strips are cheap to judge or, half the time, bad. */
static void draft_slots(struct rng *rng, struct draft *draft, uint64_t n)
{
    struct strips *s = &draft->strips;
    uint64_t w = one_in(rng, 12) ? WHEEL_MAX : 2 * (n + 1) + below(rng, 3 * (n + 1));
    open_draft(rng, draft, SLOTS_MAX + 1);
    if (n == 0 || one_in(rng, 2))
        full(&draft->table, w, n);
    else
        even(rng, &draft->table, w, n);
    hand_out(rng, &draft->table, draft->task.id);
    some_losses(rng, &draft->table);
    s->h = 1 + below(rng, 40);
    s->D = 1 + below(rng, s->h);
    s->e = 1 + below(rng, s->D + 1);
    s->k = 1 + below(rng, 6);
    s->m = below(rng, s->k + 1);
    if (one_in(rng, 2))
        for (uint64_t bad = 1 + below(rng, 2); bad > 0; bad--)
            stretch(rng, s, (enum field)below(rng, FIELDS), UINT32_MAX);
    draft->task.w = (uint32_t)w;
}

static uint64_t slots_to_spoil(struct rng *rng, uint64_t shape)
{
    switch (shape) {
    case SPOILT_TWICE:
        return 2;
    case SPOILT_OFTEN:
        return 3 + below(rng, 4);
    case WHEEL_BAD:
    case ID_BAD_TOO:
    case RECORDS_TOO_FEW:
        return below(rng, 2);
    default:
        return 0;
    }
}

static void draft_shape(struct rng *rng, struct draft *draft, uint64_t shape)
{
    struct table *table = &draft->table;
    draft_slots(rng, draft, some_slots(rng, shape));
    const uint32_t w = draft->task.w;
    if (shape < LENGTH(spoilt))
        spoil(rng, table, place_of(rng, table->n, spoilt[shape].where), spoilt[shape].troubles, w);
    if (shape == SPOILT_NEXT && table->n > 1) {
        uint64_t place = below(rng, table->n - 1);
        spoil(rng, table, place, LOSSY, w);
        spoil(rng, table, place + 1, EMPTY, w);
    }
    if (shape == SLOTS_TOO_MANY_SPOILT)
        spoil(rng, table, one_in(rng, 2) ? 0 : 1 + below(rng, SLOTS_MAX - 1), EMPTY, w);
    for (uint64_t slots = slots_to_spoil(rng, shape); slots > 0; slots--)
        spoil_slot(rng, table, w);
}

/* ---- sites ---- */

/* No records yet, and up to two slots of strangers. */
static void open_site(struct rng *rng, struct input *input)
{
    input->kind = SITE;
    input->task_len = 0;
    input->slots_len = below(rng, 3) * SLOT_BYTES;
    scribble(rng, input->task, SITE_TASKS_ROOM);
    scribble(rng, input->slots, input->slots_len);
    scribble(rng, input->reply, SITE_REPLY_ROOM);
}

static size_t records_of(const struct input *input)
{
    return input->task_len / TASK_BYTES;
}

static void append_task(struct input *input, const struct task *task)
{
    task_to_bytes(task, input->task + input->task_len);
    input->task_len += TASK_BYTES;
}

/* Appends a record. Its board goes behind those of the others, with strangers between. */
static void append_draft(struct rng *rng, struct input *input, struct draft *draft, uint64_t damages)
{
    struct task *task = &draft->task;
    size_t before = below(rng, 3), first = input->slots_len / SLOT_BYTES + before;
    task->first = (uint32_t)first;
    task->count = draft->table.n;
    draft->after = 0;
    for (; damages > 0; damages--)
        damage_draft(rng, draft);
    strips_into_task(task, &draft->strips);
    append_task(input, task);
    size_t len = (before + draft->table.n + draft->after) * SLOT_BYTES;
    scribble(rng, input->slots + input->slots_len, len);
    put_board(rng, input->slots + first * SLOT_BYTES, draft, before > 0, draft->after > 0);
    input->slots_len += len;
}

/* Mostly the owner of some slot of a task's board; where there is none, or now and then, anyone. */
static uint32_t some_owner(struct rng *rng, const struct input *input, const struct task *task)
{
    if (task->count == 0 || task->first + task->count > input->slots_len / SLOT_BYTES || one_in(rng, 6))
        return some_id(rng);
    return owner_at(input->slots, task->first + below(rng, task->count));
}

/* Another task on the board of an earlier record, or the very same record once more. */
static void append_sharer(struct rng *rng, struct input *input)
{
    struct task task = task_of_bytes(input->task + below(rng, records_of(input)) * TASK_BYTES);
    if (!one_in(rng, 4)) {
        task.id = some_owner(rng, input, &task);
        task.e += (uint32_t)below(rng, 2);
        task.k = 1 + (uint32_t)below(rng, 2 * MANY_STRIPS_FROM);
        task.m = (uint32_t)below(rng, task.k + 1);
    }
    append_task(input, &task);
}

/* Mostly a small wheel; one in `rare` is larger, with so few strips that the definition can follow. */
static void draft_record(struct rng *rng, struct draft *draft, uint64_t rare)
{
    if (one_in(rng, rare))
        draft_holes(rng, draft, wheel_edges[below(rng, WHEEL_EDGES)]);
    else
        draft_task(rng, draft, JUDGE, small_work);
}

static void append_record(struct rng *rng, struct input *input, bool damaged)
{
    struct draft draft;
    if (input->task_len > 0 && one_in(rng, 4)) {
        append_sharer(rng, input);
        return;
    }
    bool bad_table = damaged && one_in(rng, 2);
    if (bad_table)
        draft_shape(rng, &draft, below(rng, BAD_TABLES));
    else
        draft_record(rng, &draft, damaged ? 2 : 8);
    append_draft(rng, input, &draft, damaged && !bad_table ? 1 + below(rng, 2) : 0);
}

/* No record is accepted after this, whatever it was before. */
static void spoil_record(struct rng *rng, uint8_t *record)
{
    struct task task = task_of_bytes(record);
    const uint64_t wheels[] = {0, WHEEL_MAX + 1, UINT32_MAX};
    switch (below(rng, 9)) {
    case 0:
        task.first = 65535;
        break;
    case 1:
        task.w = (uint32_t)pick(rng, wheels, LENGTH(wheels));
        break;
    case 2:
        task.count = SLOTS_MAX + 1;
        break;
    case 3:
        task.e = one_in(rng, 2) ? 0 : NEED_MAX + 1;
        break;
    case 4:
        task.h = one_in(rng, 2) ? 0 : PERIOD_MAX + 1;
        break;
    case 5:
        task.D = one_in(rng, 2) ? 0 : UINT32_MAX;
        break;
    case 6:
        task.k = one_in(rng, 2) ? 0 : STRIPS_MAX + 1;
        break;
    case 7:
        task.id = some_bad_id(rng, task.id, below(rng, 4));
        break;
    default:
        task.m = UINT32_MAX;
    }
    task_to_bytes(&task, record);
}

/* All records without slots, and none in the buffer. */
static void take_slots(struct input *input)
{
    for (size_t i = 0; i < records_of(input); i++) {
        struct task task = task_of_bytes(input->task + i * TASK_BYTES);
        task.first = task.count = 0;
        task_to_bytes(&task, input->task + i * TASK_BYTES);
    }
    input->slots_len = 0;
}

static size_t some_records(struct rng *rng)
{
    const uint64_t edges[] = {0, 0, 1, SITE_RECORDS_MAX};
    return one_in(rng, 3) ? pick(rng, edges, LENGTH(edges)) : 1 + below(rng, SITE_RECORDS_MAX);
}

/* The board that all tasks of a site may share: one with many owners. */
static void append_board(struct rng *rng, struct input *input)
{
    struct draft draft;
    draft_crowd(rng, &draft, JUDGE);
    append_draft(rng, input, &draft, 0);
}

/*
 * Some sites have only bad records, no slot records, one board for all, or only good ones; in the others a third is
 * damaged.
 */
static void fill_site(struct rng *rng, struct input *input, size_t records)
{
    enum { ALL_BAD, BARE, ONE_BOARD, ALL_GOOD, MIXED, MOODS = 9 };
    uint64_t mood = below(rng, MOODS);
    if (mood == ONE_BOARD && records > 0)
        append_board(rng, input);
    while (records_of(input) < records && mood == ONE_BOARD)
        append_sharer(rng, input);
    while (records_of(input) < records)
        append_record(rng, input, mood >= MIXED && one_in(rng, 3));
    if (mood == BARE)
        take_slots(input);
    for (size_t i = 0; i < records; i++) {
        uint8_t *record = input->task + i * TASK_BYTES;
        if (mood == ALL_BAD)
            spoil_record(rng, record);
        keep_cheap(input, record, record_work);
    }
}

/* Lengths of a site's buffers, beside those that are exact. They go round, so that a short run meets each. */
enum site_length {
    REPLY_LONGER,
    REPLY_MUCH_LONGER,
    REPLY_BYTE_SHORT,
    REPLY_ANSWER_SHORT,
    REPLY_NONE,
    TASKS_31,
    TASKS_33,
    TASKS_63,
    TASKS_PART,
    SLOTS_PART,
    SLOTS_PART_ALONE,
    SITE_LENGTHS = 18 /* the others are exact */
};

static size_t site_reply_length(struct rng *rng, size_t answers, enum site_length which)
{
    switch (which) {
    case REPLY_LONGER:
        return answers + 1;
    case REPLY_MUCH_LONGER:
        return answers + 2 + below(rng, REPLY_ROOM - 1);
    case REPLY_BYTE_SHORT:
        return answers - at_most(1, answers);
    case REPLY_ANSWER_SHORT:
        return answers - at_most(ANSWER_BYTES, answers);
    case REPLY_NONE:
        return 0;
    default:
        return answers;
    }
}

static void cut_site(struct rng *rng, struct input *input, enum site_length which)
{
    const size_t tasks[] = {31, 33, 63, input->task_len + 1 + below(rng, TASK_BYTES - 1)};
    input->reply_len = site_reply_length(rng, records_of(input) * ANSWER_BYTES, which);
    if (which >= TASKS_31 && which <= TASKS_PART) {
        input->task_len = tasks[which - TASKS_31];
        input->reply_len = one_in(rng, 2) ? 0 : input->reply_len; /* then 2 would apply as well */
    }
    if (which == SLOTS_PART || which == SLOTS_PART_ALONE)
        input->slots_len += 1 + below(rng, SLOT_BYTES - 1);
    if (which == SLOTS_PART_ALONE)
        input->task_len = 0;
}

static void make_site_input(struct rng *rng, struct input *input, uint64_t number)
{
    open_site(rng, input);
    fill_site(rng, input, some_records(rng));
    cut_site(rng, input, (enum site_length)(number % SITE_LENGTHS));
}

/* Good records, among them one whose wheel is at an edge; wheel and use go round as above. */
static void make_edge_site(struct rng *rng, struct input *input, uint64_t number)
{
    static const enum edge_use uses[] = {EDGE_FEW, EDGE_MANY, EDGE_SOME, EDGE_MOST_MANY};
    uint32_t w = wheel_edges[number % WHEEL_EDGES];
    enum edge_use use = uses[number / WHEEL_EDGES % LENGTH(uses)];
    size_t records = 2 + below(rng, 4), place = below(rng, records);
    struct draft draft;
    open_site(rng, input);
    for (size_t i = 0; i < records; i++) {
        if (i == place)
            draft_edge(rng, &draft, w, use);
        else
            draft_record(rng, &draft, 2);
        append_draft(rng, input, &draft, 0);
    }
    input->reply_len = records * ANSWER_BYTES;
}

/* ---- which slot ---- */

/* One slot or two too many, a count whose low ten bits would do, or the largest that a record can hold. */
static void count_too_many(struct rng *rng, struct draft *draft)
{
    const uint64_t counts[] = {SLOTS_MAX + 1, SLOTS_MAX + 1, SLOTS_MAX + 2, 1024 + below(rng, SLOTS_MAX + 1), 65535};
    draft->task.count = (uint32_t)pick(rng, counts, LENGTH(counts));
    draft->after += draft->task.count - draft->table.n;
}

/* first + count goes beyond the records, by one or by a sum that only its low 16 bits hide. */
static void point_beyond(struct rng *rng, struct draft *draft, uint64_t turn)
{
    struct task *task = &draft->task;
    switch (turn % 4) {
    case 0:
        task->count += draft->after + 1;
        break;
    case 1:
        task->first = (uint32_t)at_most(task->first + draft->after + 1, 65535);
        break;
    case 2:
        task->first = 65535;
        task->count = 1 + (uint32_t)below(rng, 3);
        break;
    default:
        task->first = task->count = 65535;
    }
}

/* Refusals 3, 19, 4 and 14 of the record, also several of them at once. */
static void shape_task(struct rng *rng, struct draft *draft, uint64_t shape, uint64_t turn)
{
    const uint64_t wheels[] = {0, WHEEL_MAX + 1, UINT32_MAX};
    bool few = shape == RECORDS_TOO_FEW, bad_wheel = shape == WHEEL_BAD, bad_id = shape == ID_BAD_TOO;
    if (shape == SLOTS_TOO_MANY || shape == SLOTS_TOO_MANY_SPOILT || ((bad_wheel || bad_id) && one_in(rng, 3)))
        count_too_many(rng, draft);
    if (bad_wheel || ((few || bad_id) && one_in(rng, 3)))
        draft->task.w = (uint32_t)wheels[turn % LENGTH(wheels)];
    if (shape == ID_BAD || bad_id || (few && one_in(rng, 3)))
        draft->task.id = some_bad_id(rng, draft->task.id, turn);
    if (few)
        point_beyond(rng, draft, turn);
    if (shape == BYTES_DAMAGED)
        damage_draft(rng, draft);
}

/* The record before the board's first slot, if there is one: it fits the wheel but ends after that slot's start. */
static void put_clash(struct rng *rng, struct input *input, const struct draft *draft, size_t first)
{
    const uint32_t owner = one_in(rng, 2) ? draft->task.id : some_other(rng, draft->task.id);
    const struct slot clash = {0, draft->table.slot[0].start + 1, owner, 0};
    if (first > 0)
        put_record(input->slots + (first - 1) * SLOT_BYTES, &clash);
}

static void shape_bytes(struct rng *rng, struct input *input, uint64_t shape, uint64_t turn)
{
    const size_t task_lengths[] = {0, 31, 33, 1, TASK_ROOM};
    if (shape == TASK_LENGTH)
        input->task_len = task_lengths[turn % LENGTH(task_lengths)];
    if (shape == SLOTS_LENGTH)
        damage_slots_length(rng, input, turn % SLOTS_LENGTHS);
    if (shape == BYTES_DAMAGED)
        damage_bytes(rng, input);
}

static void make_which_input(struct rng *rng, struct input *input, uint64_t number)
{
    struct draft draft;
    uint64_t shape = number % TABLE_SHAPES, turn = number / TABLE_SHAPES;
    input->kind = WHICH;
    draft_shape(rng, &draft, shape);
    place_slots(rng, &draft);
    if (shape == NO_TABLE && one_in(rng, 2))
        draft.task.first = draft.after = 0; /* not a single record */
    size_t first = draft.task.first;
    shape_task(rng, &draft, shape, turn);
    strips_into_task(&draft.task, &draft.strips);
    scribble(rng, input->task, TASK_ROOM);
    task_to_bytes(&draft.task, input->task);
    input->task_len = TASK_BYTES;
    lay_slots(rng, input, &draft, first);
    if (shape == STRANGER_BEFORE)
        put_clash(rng, input, &draft, first);
    shape_bytes(rng, input, shape, turn);
    if (refusal_of_sizes(input->task_len, input->slots_len) == 0)
        keep_cheap(input, input->task, small_work);
    input->offset = some_offset(rng, task_of_bytes(input->task).w);
}

/* ---- pairs of boards ---- */

/* A wheel with slots of the task's alone: none, some or as many as a board holds. */
static void draft_owner(struct rng *rng, struct draft *draft)
{
    draft_own(rng, draft, SLOTS_MAX, small_work);
    const uint64_t way = below(rng, 8);
    if (way < 2)
        draft->table.n = 0;
    if (way == 1) {
        uint64_t n = some_crowd(rng, draft);
        strewn(rng, &draft->table, draft->task.w, 1 + below(rng, n));
    }
    some_losses(rng, &draft->table);
}

/* Strips that suit the task's slots; a third of them is moved to a bound or past it. */
static void draft_pair_strips(struct rng *rng, struct draft *draft)
{
    struct strips *s = &draft->strips;
    draft_strips(rng, draft, JUDGE, small_work);
    if (!one_in(rng, 3))
        return;
    stretch(rng, s, (enum field)below(rng, FIELDS), UINT32_MAX);
    if (refusal_of_strips(s) == 0)
        trim(s, draft->task.w, 1, small_work);
    else if (s->k > STRIPS_MAX && s->k <= ROUNDS_STRIPS_MAX)
        trim_long(s, draft->task.w, JUDGE);
}

/* The others change places: their owners in the opposite order, on the same slots. */
static void turn_others(struct table *table, uint32_t id)
{
    uint32_t low = 0, high = table->n;
    while (low < high) {
        struct slot *one = &table->slot[low], *other = &table->slot[high - 1];
        const uint32_t owner = one->owner;
        if (one->owner == id) {
            low++;
        } else if (other->owner == id) {
            high--;
        } else {
            one->owner = other->owner;
            other->owner = owner;
            low++;
            high--;
        }
    }
}

bool is_pair(uint64_t number)
{
    return number % PAIR_EVERY == PAIR_EVERY / 2 - 1;
}

void make_pair(struct input *one, struct input *other, struct rng *rng)
{
    struct draft draft, twin;
    draft_owner(rng, &draft);
    draft_pair_strips(rng, &draft);
    const uint32_t id = draft.task.id, w = draft.task.w;
    const uint64_t way = below(rng, 4);
    twin = draft; /* way 0: no slots but the task's */
    share(rng, &draft.table, w, id);
    if (way == 1) {
        twin = draft;
        lose_others(rng, &twin.table, id);
    }
    if (way > 1)
        share(rng, &twin.table, w, id);
    turn_others(&twin.table, id);
    lay_draft(rng, one, &draft);
    lay_draft(rng, other, &twin);
    one->null_when_empty = one_in(rng, 2);
    other->null_when_empty = one_in(rng, 2);
    one->offset = other->offset = some_offset(rng, w);
    one->reply_len = other->reply_len = ANSWER_BYTES + below(rng, 2);
    scribble(rng, one->reply, REPLY_ROOM);
    memcpy(other->reply, one->reply, REPLY_ROOM);
}

/* ---- all ---- */

/* Sites, edges, which slot, hanging verdicts, long windows and pairs stand at numbers that no larger work has. */
void make_input(struct input *input, struct rng *rng, uint64_t number)
{
    uint64_t work = work_for(number), kind = below(rng, 10);
    input->kind = kind < 5 ? JUDGE : kind < 8 ? COUNT : GRANT;
    input->null_when_empty = one_in(rng, 2);
    if (number % SITE_EVERY == SITE_EVERY / 8)
        make_site_input(rng, input, number / SITE_EVERY);
    else if (number % EDGE_SITE_EVERY == 3 * EDGE_SITE_EVERY / 4)
        make_edge_site(rng, input, number / EDGE_SITE_EVERY);
    else if (number % EDGE_EVERY == EDGE_EVERY / 4)
        make_edge_input(rng, input, number / EDGE_EVERY);
    else if (number % WHICH_EVERY == 2 * WHICH_EVERY / 3)
        make_which_input(rng, input, number / WHICH_EVERY);
    else if (number % HANGING_EVERY == 5 * HANGING_EVERY / 8)
        make_hanging_input(rng, input, number / HANGING_EVERY);
    else if (number % LONGEST_EVERY == LONGEST_EVERY - LONG_EVERY + 2 * LONG_EVERY / 3)
        make_longest_input(rng, input);
    else if (number % LONG_EVERY == 2 * LONG_EVERY / 3)
        make_long_input(rng, input, number / LONG_EVERY);
    else if (input->kind == GRANT)
        make_grant_input(rng, input, work);
    else
        make_task_input(rng, input, work);
}
