/* docs/RULES.md by definition; see definition.h. */
#include "definition.h"

#include <string.h>

struct task task_of_bytes(const uint8_t *bytes)
{
    return (struct task){
        .id = get_number(bytes, 4),
        .w = get_number(bytes + 4, 4),
        .e = get_number(bytes + 8, 4),
        .D = get_number(bytes + 12, 4),
        .h = get_number(bytes + 16, 4),
        .m = get_number(bytes + 20, 4),
        .k = get_number(bytes + 24, 4),
        .first = get_number(bytes + 28, 2),
        .count = get_number(bytes + 30, 2),
    };
}

void task_to_bytes(const struct task *task, uint8_t *bytes)
{
    put_number(bytes, task->id, 4);
    put_number(bytes + 4, task->w, 4);
    put_number(bytes + 8, task->e, 4);
    put_number(bytes + 12, task->D, 4);
    put_number(bytes + 16, task->h, 4);
    put_number(bytes + 20, task->m, 4);
    put_number(bytes + 24, task->k, 4);
    put_number(bytes + 28, task->first, 2);
    put_number(bytes + 30, task->count, 2);
}

struct strips strips_of_task(const struct task *task)
{
    return (struct strips){task->e, task->D, task->h, task->m, task->k};
}

/* ---- refusals ---- */

uint32_t refusal_of_sizes(size_t task_len, size_t slots_len)
{
    return task_len != TASK_BYTES || slots_len % SLOT_BYTES != 0 ? 1 : 0;
}

/* The previous slot is the record before, whoever owns it; the record before `first` is nobody's. */
uint32_t refusal_of_slot(const struct task *task, const uint8_t *slots, uint32_t place)
{
    const uint8_t *slot = slots + (size_t)(task->first + place) * SLOT_BYTES;
    uint32_t start = get_number(slot, 4), end = get_number(slot + 4, 4);
    if (start >= end)
        return 15;
    if (end > task->w)
        return 16;
    if (place > 0 && start < get_number(slot - SLOT_BYTES + 4, 4))
        return 17;
    if (get_number(slot + LOSS_AT, 2) > end - start)
        return 18;
    return 0;
}

/* A refusal and the place of the slot it is about, counted from the part's first; 0 where it is about none. */
struct trouble {
    uint32_t number, place;
};

/* Refusals 3, 19, 4 and 14 to 18; the first bad slot decides. */
static struct trouble trouble_of_table(const struct task *task, const uint8_t *slots, size_t slots_len)
{
    if (task->first + task->count > slots_len / SLOT_BYTES)
        return (struct trouble){3, 0};
    if (task->id > ID_MAX)
        return (struct trouble){19, 0};
    if (task->w == 0 || task->w > WHEEL_MAX)
        return (struct trouble){4, 0};
    if (task->count > SLOTS_MAX)
        return (struct trouble){14, 0};
    for (uint32_t place = 0; place < task->count; place++) {
        uint32_t number = refusal_of_slot(task, slots, place);
        if (number != 0)
            return (struct trouble){number, place};
    }
    return (struct trouble){0, 0};
}

/* The engines differ in the strips that they look at, and in nothing else. */
static uint32_t refusal_up_to(uint64_t most, const struct strips *s)
{
    if (s->e == 0 || s->e > NEED_MAX)
        return 6;
    if (s->h == 0 || s->h > PERIOD_MAX)
        return 7;
    if (s->D == 0 || s->D > s->h)
        return 8;
    if (s->k == 0 || s->k > most)
        return 9;
    if (s->m > s->k)
        return 10;
    return 0;
}

uint32_t refusal_of_strips(const struct strips *strips)
{
    return refusal_up_to(STRIPS_MAX, strips);
}

static uint32_t task_refusal_up_to(uint64_t most, const uint8_t *bytes, const uint8_t *slots, size_t slots_len)
{
    struct task task = task_of_bytes(bytes);
    struct strips strips = strips_of_task(&task);
    uint32_t number = trouble_of_table(&task, slots, slots_len).number;
    return number != 0 ? number : refusal_up_to(most, &strips);
}

uint32_t refusal_of_task(const uint8_t *task, const uint8_t *slots, size_t slots_len)
{
    return task_refusal_up_to(STRIPS_MAX, task, slots, slots_len);
}

uint32_t refusal_by_rounds(const uint8_t *task, const uint8_t *slots, size_t slots_len)
{
    return task_refusal_up_to(ROUNDS_STRIPS_MAX, task, slots, slots_len);
}

uint32_t refusal_of_marks(const uint8_t *marks, uint64_t n, uint64_t v, uint64_t loss)
{
    if (n == 0 || n > GRANT_SLOTS_MAX || v == 0 || v > WHEEL_MAX || n * v > WHEEL_MAX || loss > v)
        return 12;
    for (uint64_t i = 0; i < n; i++)
        if (marks[i] > 1)
            return 12;
    return 0;
}

/* ---- rules 1 to 7 ---- */

/* The slot at a place of the task's part where the task owns it, else NULL. */
static const uint8_t *own_slot(const struct task *task, const uint8_t *slots, uint32_t place)
{
    const uint8_t *slot = slots + (size_t)(task->first + place) * SLOT_BYTES;
    return get_number(slot + OWNER_AT, 2) == task->id ? slot : NULL;
}

/* The ends are marked before any start is looked at: the one that a slot touches may stand anywhere in the part. */
void wheel_of_task(struct wheel *wheel, const struct task *task, const uint8_t *slots)
{
    bool ends[WHEEL_MAX];
    wheel->w = task->w;
    memset(wheel->usable, 0, task->w);
    memset(ends, false, task->w);
    for (uint32_t place = 0; place < task->count; place++) {
        const uint8_t *slot = own_slot(task, slots, place);
        if (slot != NULL)
            ends[get_number(slot + 4, 4) % task->w] = true;
    }
    for (uint32_t place = 0; place < task->count; place++) {
        const uint8_t *slot = own_slot(task, slots, place);
        if (slot == NULL)
            continue;
        const uint32_t start = get_number(slot, 4), end = get_number(slot + 4, 4), loss = get_number(slot + LOSS_AT, 2);
        for (uint32_t tick = start; tick < end; tick++)
            if (ends[start] || tick - start >= loss)
                wheel->usable[tick] = 1;
    }
}

void wheel_of_grid(struct wheel *wheel, const uint8_t *pick, uint64_t n, uint64_t v, uint64_t loss)
{
    wheel->w = (uint32_t)(n * v);
    for (uint32_t tick = 0; tick < wheel->w; tick++) {
        const uint64_t slot = tick / v, before = (slot + n - 1) % n;
        wheel->usable[tick] = pick[slot] == 1 && (pick[before] == 1 || tick % v >= loss);
    }
}

/* One turn in cells of 1/q: cell i lies in tick i / q (rule 5). */
struct cells {
    uint64_t q, turn;
    uint8_t usable[Q_MAX * WHEEL_MAX];
};

static void cut(struct cells *cells, const struct wheel *wheel, uint64_t q)
{
    cells->q = q;
    cells->turn = q * wheel->w;
    for (uint64_t tick = 0; tick < wheel->w; tick++)
        memset(cells->usable + tick * q, wheel->usable[tick], q);
}

static uint32_t usable_cells(const uint8_t *cells, uint64_t n)
{
    uint32_t sum = 0;
    for (uint64_t i = 0; i < n; i++)
        sum += cells[i];
    return sum;
}

/* The cells from p to p + q * D, one by one, turn after turn. */
static uint64_t supply(const struct cells *cells, uint64_t D, uint64_t p)
{
    uint64_t sum = 0, left = cells->q * D, place = p % cells->turn;
    while (left > 0) {
        uint64_t run = cells->turn - place < left ? cells->turn - place : left;
        sum += usable_cells(cells->usable + place, run);
        left -= run;
        place = 0;
    }
    return sum;
}

uint64_t supply_at(const struct wheel *wheel, uint64_t D, uint64_t q, uint64_t p)
{
    struct cells cells;
    cut(&cells, wheel, q);
    return supply(&cells, D, p);
}

int64_t margin_at(const struct wheel *wheel, const struct strips *strips, uint64_t q, uint64_t p)
{
    return (int64_t)supply_at(wheel, strips->D, q, p) - (int64_t)(q * strips->e);
}

uint32_t count_at(const struct wheel *wheel, const struct strips *strips, uint64_t q, uint64_t p)
{
    struct cells cells;
    uint32_t drops = 0;
    cut(&cells, wheel, q);
    for (uint64_t n = 0; n < strips->k; n++)
        drops += supply(&cells, strips->D, p + n * q * strips->h) < q * strips->e;
    return drops;
}

/* Where strip n is on the wheel when the first one arrives at half tick t: a place is all that a strip knows. */
static uint32_t place_of(uint64_t n, const struct strips *strips, uint64_t t, uint32_t turn)
{
    return (uint32_t)((t + n * 2 * strips->h) % turn);
}

/* Adds as many strips to each half tick's drops as drop from it. */
static void add_dropped(uint32_t *drops, const uint8_t *dropped, uint32_t turn, uint32_t strips)
{
    for (uint32_t t = 0; t < turn; t++)
        drops[t] += dropped[t] ? strips : 0;
}

/*
 * Rule 4 from every half tick, where the drops of one turn's half ticks are written down twice, one turn behind the
 * other. The strips are put on their places one by one; from half tick t each of them is t half ticks further on.
 */
static void count_strips(uint32_t *drops, const uint8_t *dropped_twice, uint32_t turn, const struct strips *strips)
{
    uint32_t there[2 * WHEEL_MAX];
    memset(there, 0, turn * sizeof *there);
    memset(drops, 0, turn * sizeof *drops);
    for (uint64_t n = 0; n < strips->k; n++)
        there[place_of(n, strips, 0, turn)]++;
    for (uint32_t place = 0; place < turn; place++)
        if (there[place] > 0)
            add_dropped(drops, dropped_twice + place, turn, there[place]);
}

/* The margin at a place of the wheel. Whole ticks are counted among the halves alone, so that none counts twice. */
static void lower(struct least *least, int64_t margin, uint64_t q, uint64_t p)
{
    int64_t sixths = margin * (6 / (int64_t)q);
    if (sixths > least->sixths)
        return;
    if (sixths < least->sixths)
        *least = (struct least){.sixths = sixths};
    if (q == 2 && p % q == 0 && least->ticks++ == 0)
        least->first = (uint32_t)(p / q);
    least->shared |= q == 2 && p % q != 0;
}

/*
 * The first window is added up; then one cell leaves it and one comes in. Adding up each of them would take twice as
 * long as all the rest of a verdict.
 */
static void lower_by_thirds(struct least *least, const struct wheel *wheel, const struct strips *strips)
{
    static const uint64_t q = 3;
    struct cells cells;
    cut(&cells, wheel, q);
    int64_t margin = (int64_t)supply(&cells, strips->D, 0) - (int64_t)(q * strips->e);
    uint64_t end = q * strips->D % cells.turn;
    for (uint64_t p = 0; p < cells.turn; p++) {
        lower(least, margin, q, p);
        margin += cells.usable[end] - cells.usable[p];
        end = end + 1 < cells.turn ? end + 1 : 0;
    }
}

/* Rule 8: which of the strips' offsets that lead to the start of a run have too many drops. */
static bool run_shows(struct late *late, const bool *too_many, uint32_t w, const struct strips *strips, uint32_t start)
{
    const uint32_t back = w - (uint32_t)(strips->h % w);
    uint32_t tick = start;
    bool shows = false;
    for (uint32_t n = 0; n < strips->k; n++) {
        if (too_many[tick]) {
            late->least_n = n < late->least_n ? n : late->least_n;
            late->most_n = n > late->most_n ? n : late->most_n;
            shows = true;
        }
        tick = (tick + back) % w;
    }
    return shows;
}

/* From the drops of one turn's half ticks, and whether too many strips drop from half a tick after each tick. */
static struct late late_of(const uint8_t *dropped, const bool *too_many, uint32_t w, const struct strips *strips,
                           bool firm)
{
    struct late late = {.least_n = UINT32_MAX};
    for (uint32_t tick = 0; tick < w; tick++) {
        const bool here = dropped[2 * tick + 1], before = dropped[2 * (tick > 0 ? tick : w) - 1];
        late.ticks += here;
        late.whole += dropped[2 * tick];
        late.over_end |= tick == 0 && here && before;
        if (here && !before) {
            if (!firm && strips->k <= STRIPS_MAX && run_shows(&late, too_many, w, strips, tick)) {
                late.last_showing = late.runs;
                late.showing++;
            }
            late.runs++;
        }
    }
    return late;
}

struct verdict verdict_of(const struct wheel *wheel, const struct strips *strips)
{
    static const uint64_t q = 2;
    struct verdict verdict = {.least = {.sixths = INT64_MAX}};
    struct cells cells;
    uint8_t dropped[2 * 2 * WHEEL_MAX];
    uint32_t drops[2 * WHEEL_MAX];
    bool too_many[WHEEL_MAX];
    cut(&cells, wheel, q);
    for (uint64_t t = 0; t < cells.turn; t++) {
        uint64_t got = supply(&cells, strips->D, t);
        dropped[t] = dropped[cells.turn + t] = got < q * strips->e;
        verdict.equal_supply |= got == q * strips->e;
        lower(&verdict.least, (int64_t)got - (int64_t)(q * strips->e), q, t);
    }
    count_strips(drops, dropped, (uint32_t)cells.turn, strips);
    for (uint32_t t = 0; t < cells.turn; t++) {
        too_many[t / q] = drops[t] > strips->k - strips->m; /* what the odd half tick has stays */
        if (drops[t] > verdict.worst) {
            verdict.worst = drops[t];
            verdict.offset = t;
        }
    }
    verdict.firm = verdict.worst <= strips->k - strips->m;
    verdict.late = late_of(dropped, too_many, wheel->w, strips, verdict.firm);
    lower_by_thirds(&verdict.least, wheel, strips);
    return verdict;
}

/* Rule 4 from one half tick, for windows too long to add up the cells of every strip: those of every place are. */
static uint32_t long_count_at(const struct wheel *wheel, const struct strips *strips, uint64_t t)
{
    static const uint64_t q = 2;
    struct cells cells;
    bool dropped[2 * WHEEL_MAX];
    uint32_t drops = 0;
    cut(&cells, wheel, q);
    for (uint64_t place = 0; place < cells.turn; place++)
        dropped[place] = supply(&cells, strips->D, place) < q * strips->e;
    for (uint64_t n = 0; n < strips->k; n++)
        drops += dropped[place_of(n, strips, t, (uint32_t)cells.turn)];
    return drops;
}

/* ---- the calls ---- */

static uint64_t packed(uint32_t number, uint64_t value)
{
    return (uint64_t)number * 4294967296u + value;
}

/* All refusals of a task but the reply's: those of the verdict alone. */
static uint32_t refusal_without_reply(uint64_t most, const uint8_t *task, size_t task_len, const uint8_t *slots,
                                      size_t slots_len)
{
    uint32_t number = refusal_of_sizes(task_len, slots_len);
    return number != 0 ? number : task_refusal_up_to(most, task, slots, slots_len);
}

/* The wheel and the strips of a task that isn't refused. */
static struct strips lay_out(struct wheel *wheel, const uint8_t *bytes, const uint8_t *slots)
{
    struct task task = task_of_bytes(bytes);
    wheel_of_task(wheel, &task, slots);
    return strips_of_task(&task);
}

static uint64_t quick_up_to(uint64_t most, const uint8_t *task, size_t task_len, const uint8_t *slots,
                            size_t slots_len, struct verdict *verdict)
{
    uint32_t number = refusal_without_reply(most, task, task_len, slots, slots_len);
    *verdict = (struct verdict){0};
    if (number != 0)
        return packed(number, 0);
    struct wheel wheel;
    struct strips strips = lay_out(&wheel, task, slots);
    *verdict = verdict_of(&wheel, &strips);
    return packed(0, verdict->firm);
}

uint64_t definition_quick(const uint8_t *task, size_t task_len, const uint8_t *slots, size_t slots_len,
                          struct verdict *verdict)
{
    return quick_up_to(STRIPS_MAX, task, task_len, slots, slots_len, verdict);
}

static uint32_t judge_up_to(uint64_t most, const uint8_t *task, size_t task_len, const uint8_t *slots,
                            size_t slots_len, uint8_t *reply, size_t reply_len, struct verdict *verdict)
{
    uint32_t number = refusal_of_sizes(task_len, slots_len);
    *verdict = (struct verdict){0};
    if (number != 0)
        return number;
    if (reply_len < ANSWER_BYTES)
        return 2;
    number = (uint32_t)(quick_up_to(most, task, task_len, slots, slots_len, verdict) >> 32);
    put_number(reply, task_of_bytes(task).id, 4);
    put_number(reply + 4, number, 2);
    put_number(reply + 6, verdict->firm, 2);
    put_number(reply + 8, verdict->worst, 4);
    put_number(reply + 12, verdict->offset, 4);
    put_number(reply + MARGIN_AT, (uint32_t)(verdict->least.sixths / 6), 4);
    return number;
}

uint32_t definition_judge(const uint8_t *task, size_t task_len, const uint8_t *slots, size_t slots_len,
                          uint8_t *reply, size_t reply_len, struct verdict *verdict)
{
    return judge_up_to(STRIPS_MAX, task, task_len, slots, slots_len, reply, reply_len, verdict);
}

uint32_t definition_rounds_judge(const uint8_t *task, size_t task_len, const uint8_t *slots, size_t slots_len,
                                 uint8_t *reply, size_t reply_len, struct verdict *verdict)
{
    return judge_up_to(ROUNDS_STRIPS_MAX, task, task_len, slots, slots_len, reply, reply_len, verdict);
}

uint32_t definition_site(const uint8_t *tasks, size_t tasks_len, const uint8_t *slots, size_t slots_len,
                         uint8_t *reply, size_t reply_len)
{
    struct verdict unused;
    const size_t records = tasks_len / TASK_BYTES;
    if (tasks_len % TASK_BYTES != 0 || slots_len % SLOT_BYTES != 0)
        return 1;
    if (reply_len < records * ANSWER_BYTES)
        return 2;
    for (size_t i = 0; i < records; i++)
        definition_judge(tasks + i * TASK_BYTES, TASK_BYTES, slots, slots_len, reply + i * ANSWER_BYTES, ANSWER_BYTES,
                         &unused);
    return 0;
}

uint64_t definition_which_slot(const uint8_t *task_bytes, size_t task_len, const uint8_t *slots, size_t slots_len)
{
    uint32_t number = refusal_of_sizes(task_len, slots_len);
    if (number != 0)
        return packed(number, 0);
    struct task task = task_of_bytes(task_bytes);
    struct trouble trouble = trouble_of_table(&task, slots, slots_len);
    return packed(trouble.number, trouble.place);
}

/* All refusals of a task but the reply's, then 11: those of a question at a half tick. */
static uint32_t refusal_at(uint64_t most, const uint8_t *task, size_t task_len, const uint8_t *slots, size_t slots_len,
                           uint64_t offset)
{
    uint32_t number = refusal_without_reply(most, task, task_len, slots, slots_len);
    if (number == 0 && offset >= 2 * (uint64_t)task_of_bytes(task).w)
        number = 11;
    return number;
}

uint64_t definition_count(const uint8_t *task, size_t task_len, const uint8_t *slots, size_t slots_len,
                          uint64_t offset)
{
    uint32_t number = refusal_at(STRIPS_MAX, task, task_len, slots, slots_len, offset);
    if (number != 0)
        return packed(number, 0);
    struct wheel wheel;
    struct strips strips = lay_out(&wheel, task, slots);
    return packed(0, count_at(&wheel, &strips, 2, offset));
}

uint64_t definition_rounds_count(const uint8_t *task, size_t task_len, const uint8_t *slots, size_t slots_len,
                                 uint64_t offset)
{
    uint32_t number = refusal_at(ROUNDS_STRIPS_MAX, task, task_len, slots, slots_len, offset);
    if (number != 0)
        return packed(number, 0);
    struct wheel wheel;
    struct strips strips = lay_out(&wheel, task, slots);
    return packed(0, long_count_at(&wheel, &strips, offset));
}

uint64_t definition_supply(const uint8_t *task, size_t task_len, const uint8_t *slots, size_t slots_len,
                           uint64_t offset)
{
    uint32_t number = refusal_at(STRIPS_MAX, task, task_len, slots, slots_len, offset);
    if (number != 0)
        return packed(number, 0);
    struct wheel wheel;
    struct strips strips = lay_out(&wheel, task, slots);
    return packed(0, supply_at(&wheel, strips.D, 2, offset));
}

uint64_t definition_margin(const uint8_t *task, size_t task_len, const uint8_t *slots, size_t slots_len,
                           uint64_t offset)
{
    uint32_t number = refusal_at(STRIPS_MAX, task, task_len, slots, slots_len, offset);
    if (number != 0)
        return packed(number, 0);
    struct wheel wheel;
    struct strips strips = lay_out(&wheel, task, slots);
    return packed(0, (uint32_t)margin_at(&wheel, &strips, 2, offset));
}

/* Rule 3: dropped with less than e ticks, which are 2e half ticks. */
uint64_t definition_drop_test(const uint8_t *task_bytes, size_t task_len, const uint8_t *slots, size_t slots_len,
                              uint64_t offset)
{
    uint64_t got = definition_supply(task_bytes, task_len, slots, slots_len, offset);
    if (got >= packed(1, 0))
        return got;
    return packed(0, got < 2 * (uint64_t)task_of_bytes(task_bytes).e);
}

static const uint8_t *first_with(const uint8_t *records, size_t len, uint32_t id)
{
    for (size_t at = 0; at + TASK_BYTES <= len; at += TASK_BYTES)
        if (get_number(records + at, 4) == id)
            return records + at;
    return NULL;
}

const uint8_t *definition_lookup(const uint8_t *site, size_t site_len, const uint8_t *factory, size_t factory_len,
                                 uint32_t id)
{
    const uint8_t *found = first_with(site, site_len, id);
    return found != NULL ? found : first_with(factory, factory_len, id);
}

static bool is_firm(const uint8_t *pick, size_t n, uint64_t v, uint64_t loss, const struct strips *strips)
{
    struct wheel wheel;
    wheel_of_grid(&wheel, pick, n, v, loss);
    return verdict_of(&wheel, strips).firm;
}

/* Takes one more free slot each time; what is tried is a copy, so a refusal moves no mark. */
uint64_t definition_grant(uint8_t *marks, size_t n, uint64_t v, uint64_t loss, const struct strips *strips)
{
    uint8_t pick[GRANT_SLOTS_MAX] = {0};
    uint32_t number = refusal_of_marks(marks, n, v, loss);
    if (number == 0)
        number = refusal_of_strips(strips);
    if (number != 0)
        return packed(number, 0);
    uint32_t granted = 0;
    size_t next = 0;
    while (!is_firm(pick, n, v, loss, strips)) {
        while (next < n && marks[next] == 0)
            next++;
        if (next == n)
            return packed(13, 0);
        pick[next++] = 1;
        granted++;
    }
    for (size_t i = 0; i < n; i++)
        if (pick[i] == 1)
            marks[i] = 2;
    return packed(0, granted);
}

bool some_set_is_firm(const uint8_t *marks, size_t n, uint64_t v, uint64_t loss, const struct strips *strips)
{
    size_t free_slots = 0;
    for (size_t i = 0; i < n; i++)
        free_slots += marks[i] == 1;
    for (uint32_t set = 0; set < 1u << free_slots; set++) {
        uint8_t pick[GRANT_SLOTS_MAX] = {0};
        uint32_t members = set;
        for (size_t i = 0; i < n; i++)
            if (marks[i] == 1) {
                pick[i] = members % 2;
                members /= 2;
            }
        if (is_firm(pick, n, v, loss, strips))
            return true;
    }
    return false;
}
