/* Seeded questions and their answers by definition; see questions.h. */
#include "questions.h"

#include <inttypes.h>
#include <stdio.h>

#define LENGTH(array) (sizeof(array) / sizeof *(array))

/* ---- making ---- */

/* Few ids, of which some are alike in all bytes but one. */
static uint32_t some_id(struct rng *rng)
{
    static const uint32_t ids[] = {0, 1, 2, 0x100, 0x10000, 0x1000000, UINT32_MAX, UINT32_MAX - 0x1000000};
    return ids[below(rng, LENGTH(ids))];
}

/* Whole records, none up to six, and now and then a part of one, mostly with its whole id. */
static size_t some_file(struct rng *rng, uint8_t *bytes)
{
    size_t records = below(rng, 7), part = below(rng, 3) == 0 ? 1 + below(rng, TASK_BYTES - 1) : 0;
    for (size_t i = 0; i < (records + 1) * TASK_BYTES; i++)
        bytes[i] = (uint8_t)below(rng, 256);
    for (size_t i = 0; i <= records; i++)
        put_number(bytes + i * TASK_BYTES, some_id(rng), 4);
    return records * TASK_BYTES + part;
}

/* Both files lie in the room for slots. */
static struct question make_lookup(struct input *input, struct rng *rng)
{
    uint8_t *site = input->slots, *factory = site + 8 * TASK_BYTES;
    size_t site_len = some_file(rng, site), factory_len = some_file(rng, factory);
    uint64_t high = below(rng, 2) == 0 ? 0 : below(rng, UINT32_MAX);
    return (struct question){site, factory, site_len, factory_len, high << 32 | some_id(rng)};
}

/* What would be granted, or is a whole site, is looked up instead; any other task is asked about at its offset. */
struct question make_question(struct input *input, uint64_t seed, uint64_t i)
{
    struct rng rng = rng_for(seed, i);
    make_input(input, &rng, i);
    if (input->kind == GRANT || input->kind == SITE)
        return make_lookup(input, &rng);
    size_t slots_len = input->slots_len < PART_MAX ? input->slots_len : PART_SLOTS_MAX * SLOT_BYTES;
    return (struct question){input->task, input->slots, input->task_len, slots_len, input->offset};
}

struct answers answers_of(const struct question *q)
{
    return (struct answers){
        .supply = definition_supply(q->a, q->a_len, q->b, q->b_len, q->number),
        .margin = definition_margin(q->a, q->a_len, q->b, q->b_len, q->number),
        .count = definition_count(q->a, q->a_len, q->b, q->b_len, q->number),
        .found = definition_lookup(q->a, q->a_len, q->b, q->b_len, (uint32_t)q->number),
    };
}

/* ---- classes ---- */

static void note(struct question_tally *tally, enum question_class which, bool met)
{
    tally->met[which] += met;
}

/* Whether a slot of the board has another owner that differs from the id within the mask alone. */
static bool has_other(const struct task *task, const uint8_t *slots, uint32_t mask)
{
    for (uint32_t i = 0; i < task->count; i++) {
        uint32_t difference = owner_at(slots, task->first + i) ^ task->id;
        if (difference != 0 && (difference & ~mask) == 0)
            return true;
    }
    return false;
}

static void add_losses(struct question_tally *tally, const struct question *q, uint64_t supply)
{
    struct task task = task_of_bytes(q->a);
    for (enum mistake mistake = NOTHING_LOST; mistake < MISTAKES; mistake++)
        note(tally, (enum question_class)(LOSS_SUPPLY + mistake - NOTHING_LOST),
             supply_with(mistake, &task, q->b, q->b_len, q->number) != supply);
}

static void add_owners(struct question_tally *tally, const struct question *q, const struct answers *answers)
{
    struct task task = task_of_bytes(q->a);
    const uint32_t owned = owned_slots(&task, q->b);
    const bool some = answers->count > 0 && answers->count < task.k;
    note(tally, SHARED_SUPPLY, supply_with(ALL_OWN, &task, q->b, q->b_len, q->number) > answers->supply);
    note(tally, SHARED_COUNT, some && owned > 0 && owned < task.count);
    note(tally, OWNED_NONE, owned == 0 && task.count > 0);
    note(tally, OWNED_MANY, owned > GRANT_SLOTS_MAX);
    note(tally, OTHER_HIGH, has_other(&task, q->b, 0xff00));
    note(tally, OTHER_LOW, has_other(&task, q->b, 0x00ff));
}

static void add_point(struct question_tally *tally, const struct question *q, const struct answers *answers)
{
    struct task task = task_of_bytes(q->a);
    uint64_t supply = answers->supply, full = 2 * (uint64_t)task.D;
    int64_t margin = (int64_t)supply - 2 * (int64_t)task.e;
    note(tally, SUPPLY_NONE, supply == 0);
    note(tally, SUPPLY_FULL, supply == full);
    note(tally, SUPPLY_SOME, supply > 0 && supply < full && q->number % 2 == 0);
    note(tally, SUPPLY_HALF, supply % 2 == 1);
    note(tally, SUPPLY_TURNS, supply > 0 && supply < full && task.D > task.w && task.D % task.w > 0);
    note(tally, SUPPLY_LAST, supply > 0 && q->number + 1 == 2 * (uint64_t)task.w);
    note(tally, MARGIN_BELOW, margin < -1);
    note(tally, MARGIN_JUST_BELOW, margin == -1);
    note(tally, MARGIN_ZERO, margin == 0);
    note(tally, MARGIN_JUST_ABOVE, margin == 1);
    note(tally, MARGIN_ABOVE, margin > 1);
    note(tally, MARGIN_OVER_D, task.e > task.D + 1);
    note(tally, MARGIN_MOST_NEED, task.e == NEED_MAX);
    note(tally, COUNT_SOME, answers->count > 0 && answers->count < task.k);
}

/* How many of the whole records have the id. */
static unsigned with_id(const uint8_t *records, size_t len, uint32_t id)
{
    unsigned found = 0;
    for (size_t at = 0; at + TASK_BYTES <= len; at += TASK_BYTES)
        found += get_number(records + at, 4) == id;
    return found;
}

static bool part_has(const uint8_t *records, size_t len, uint32_t id)
{
    return len % TASK_BYTES >= 4 && get_number(records + len / TASK_BYTES * TASK_BYTES, 4) == id;
}

static void add_lookup(struct question_tally *tally, const struct question *q, const struct answers *answers)
{
    uint32_t id = (uint32_t)q->number;
    unsigned site = with_id(q->a, q->a_len, id), factory = with_id(q->b, q->b_len, id);
    bool last = answers->found != NULL && (answers->found == q->a + q->a_len / TASK_BYTES * TASK_BYTES - TASK_BYTES ||
                                           answers->found == q->b + q->b_len / TASK_BYTES * TASK_BYTES - TASK_BYTES);
    size_t part = site > 0 ? q->a_len % TASK_BYTES : q->b_len % TASK_BYTES;
    note(tally, FOUND_SITE, site > 0 && factory == 0);
    note(tally, FOUND_BOTH, site > 0 && factory > 0);
    note(tally, FOUND_FACTORY, site == 0 && factory > 0);
    note(tally, FOUND_AGAIN, site > 1 || (site == 0 && factory > 1));
    note(tally, FOUND_LAST, last);
    note(tally, FOUND_BEFORE_PART, answers->found != NULL && part > 0);
    note(tally, FOUND_NOT, answers->found == NULL && q->a_len > 0 && q->b_len > 0);
    note(tally, FOUND_IN_PART,
         answers->found == NULL && (part_has(q->a, q->a_len, id) || part_has(q->b, q->b_len, id)));
    note(tally, FOUND_EMPTY, q->a_len == 0 && q->b_len == 0);
}

void question_tally_add(struct question_tally *tally, const struct question *q, const struct answers *answers)
{
    uint64_t number = answers->supply >> 32;
    tally->numbers[number]++;
    if (number == 0) {
        add_point(tally, q, answers);
        add_owners(tally, q, answers);
        add_losses(tally, q, answers->supply);
    }
    add_lookup(tally, q, answers);
}

/* The numbers that a question at a half tick knows: neither the reply's nor a grant's, and nothing gives 5. */
static bool knows(uint32_t number)
{
    return number != 2 && number != 5 && number != 12 && number != 13;
}

unsigned question_tally_print(const struct question_tally *tally)
{
#define QUESTION_TEXT(id, text) text,
    static const char *const texts[] = {QUESTION_CLASSES(QUESTION_TEXT)};
#undef QUESTION_TEXT
    unsigned never = 0;
    for (uint32_t number = 0; number < LENGTH(tally->numbers); number++) {
        if (!knows(number))
            continue;
        printf("%10" PRIu64 "  refusal %" PRIu32 "\n", tally->numbers[number], number);
        never += tally->numbers[number] == 0;
    }
    for (unsigned i = 0; i < QUESTION_CLASS_COUNT; i++) {
        printf("%10" PRIu64 "  %s%s\n", tally->met[i], texts[i], tally->met[i] == 0 ? "  NEVER MET" : "");
        never += tally->met[i] == 0;
    }
    return never;
}
