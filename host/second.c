/*
 * The independent second program: compares the archive with docs/RULES.md by
 * definition, on the paper's cases by hand and on many seeded inputs.
 *
 *   second [INPUTS [SEED]]
 *
 * Each call's result and the whole of each lent buffer, with guard bytes on
 * both sides, must be as the definition says; inputs must stay as they were.
 * Where a count is asked for, so are the supply and the margin; where a task is
 * judged, so is the verdict alone, which must also be what judging says. Both are
 * asked for by whole rounds as well: the two engines must say the same unless k is
 * too large for the first, and then the second what the definition says. A site's
 * answers must also be what the archive says of each record alone, a judged least
 * margin what it says of some whole tick, and all calls must refuse a slot table
 * alike.
 * Two good boards with the same slots for a task's id must give it the same.
 * The first difference is printed with its seed, number and bytes, and ends
 * the run. So does, at the end, a class of inputs that was never met. A long run
 * says now and then how far it has come.
 */
#include "files.h"
#include "fiddlequill.h"
#include "hand.h"

#include <inttypes.h>
#include <stdio.h>
#include <stdlib.h>
#include <string.h>

enum {
    DEFAULT_INPUTS = 200000,
    DEFAULT_SEED = 20260,
    GUARD = 64,
    SETS_MAX = 8,        /* free slots whose sets are all tried after a refusal 13 */
    SETS_WHEEL_MAX = 48, /* and the longest wheel for it */
    LONG_SITE = 5000,    /* records; their bytes, their slots' and their answers' all go beyond 16 bits */
    STRETCH = 500000,    /* inputs between two words on how far a run has come */
};

/* The definition has its sizes from the rules. */
_Static_assert(TASK_BYTES == FIDDLEQUILL_TASK_BYTES && SLOT_BYTES == FIDDLEQUILL_SLOT_BYTES &&
                   ANSWER_BYTES == FIDDLEQUILL_ANSWER_BYTES,
               "the header has records of other sizes");

/* ---- lent buffers ---- */

/* Whether memory may be read. Only memcheck sees that it was, so `make memcheck` alone compiles it in. */
#ifdef MEMCHECK
#include <valgrind/memcheck.h>
static void set_open(const uint8_t *at, size_t len, bool open)
{
    if (open)
        (void)VALGRIND_MAKE_MEM_DEFINED(at, len);
    else
        (void)VALGRIND_MAKE_MEM_NOACCESS(at, len);
}
#else
static void set_open(const uint8_t *at, size_t len, bool open)
{
    (void)at, (void)len, (void)open;
}
#endif

struct lent {
    uint8_t *room; /* guard, some bytes to spoil the alignment, content, guard */
    size_t size, lead, len;
    uint8_t guard;
    bool null;
};

struct lent_buffers {
    struct lent task, slots, reply, marks;
};

static struct lent lent_room(size_t most)
{
    struct lent lent = {.size = most + 2 * GUARD + 8};
    lent.room = malloc(lent.size);
    if (lent.room == NULL) {
        fprintf(stderr, "second: no memory for %zu bytes\n", most);
        exit(2);
    }
    return lent;
}

static uint8_t *content_of(const struct lent *lent)
{
    return lent->null ? NULL : lent->room + lent->lead;
}

/* What lies around the content is open to this program alone. */
static void set_guards_open(const struct lent *lent, bool open)
{
    const size_t behind = lent->lead + lent->len;
    set_open(lent->room, lent->lead, open);
    set_open(lent->room + behind, lent->size - behind, open);
}

static uint8_t *lend(struct lent *lent, const uint8_t *content, size_t len, bool null_when_empty, struct rng *rng)
{
    set_guards_open(lent, true);
    lent->len = len;
    lent->lead = GUARD + below(rng, 8);
    lent->guard = (uint8_t)below(rng, 256);
    lent->null = len == 0 && null_when_empty;
    memset(lent->room, lent->guard, lent->lead);
    memcpy(lent->room + lent->lead, content, len);
    memset(lent->room + lent->lead + len, lent->guard, GUARD);
    set_guards_open(lent, false);
    return content_of(lent);
}

static bool all_are(const uint8_t *bytes, size_t n, uint8_t value)
{
    for (size_t i = 0; i < n; i++)
        if (bytes[i] != value)
            return false;
    return true;
}

static bool holds(const struct lent *lent, const uint8_t *content)
{
    set_guards_open(lent, true);
    bool same = all_are(lent->room, lent->lead, lent->guard) &&
                memcmp(lent->room + lent->lead, content, lent->len) == 0 &&
                all_are(lent->room + lent->lead + lent->len, GUARD, lent->guard);
    set_guards_open(lent, false);
    return same;
}

/* ---- both sides ---- */

/* Judging has come to the verdict already, unless its reply was too short. */
static void define_judged(const struct input *in, struct expected *expected)
{
    struct verdict *verdict = &expected->verdict, unused;
    expected->result = definition_judge(in->task, in->task_len, in->slots, in->slots_len, expected->reply,
                                        in->reply_len, verdict);
    if (expected->result == 2)
        expected->quick = definition_quick(in->task, in->task_len, in->slots, in->slots_len, &unused);
    else
        expected->quick = expected->result << 32 | verdict->firm;
}

static void define_point(const struct input *in, struct expected *expected)
{
    expected->result = definition_count(in->task, in->task_len, in->slots, in->slots_len, in->offset);
    expected->supply = definition_supply(in->task, in->task_len, in->slots, in->slots_len, in->offset);
    expected->margin = definition_margin(in->task, in->task_len, in->slots, in->slots_len, in->offset);
}

/* By whole rounds 9 has another bound, and that is all: what the first engine doesn't refuse with 9 is the same. */
static void define_rounds(const struct input *in, struct expected *expected)
{
    const bool judged = in->kind == JUDGE;
    expected->rounds = expected->result;
    expected->rounds_verdict = expected->verdict;
    if (judged)
        memcpy(expected->rounds_reply, expected->reply, REPLY_ROOM);
    if ((judged ? expected->result : expected->result >> 32) != 9)
        return;
    if (!judged) {
        expected->rounds = definition_rounds_count(in->task, in->task_len, in->slots, in->slots_len, in->offset);
        return;
    }
    memcpy(expected->rounds_reply, in->reply, REPLY_ROOM);
    expected->rounds = definition_rounds_judge(in->task, in->task_len, in->slots, in->slots_len,
                                               expected->rounds_reply, in->reply_len, &expected->rounds_verdict);
}

static void define(const struct input *in, struct expected *expected)
{
    memcpy(expected->reply, in->reply, SITE_REPLY_ROOM);
    memcpy(expected->marks, in->marks, MARKS_ROOM);
    if (in->kind == JUDGE)
        define_judged(in, expected);
    else if (in->kind == SITE)
        expected->result = definition_site(in->task, in->task_len, in->slots, in->slots_len, expected->reply,
                                           in->reply_len);
    else if (in->kind == COUNT)
        define_point(in, expected);
    else if (in->kind == WHICH)
        expected->result = definition_which_slot(in->task, in->task_len, in->slots, in->slots_len);
    else
        expected->result = definition_grant(expected->marks, in->marks_len, in->v, in->loss, &in->strips);
    if (in->kind == JUDGE || in->kind == COUNT)
        define_rounds(in, expected);
}

static bool has_reply(enum kind kind)
{
    return kind == JUDGE || kind == SITE;
}

static uint64_t ask_task(const struct input *in, struct lent_buffers *buffers, struct rng *rng)
{
    bool null = in->null_when_empty;
    const uint8_t *task = lend(&buffers->task, in->task, in->task_len, null, rng);
    const uint8_t *slots = lend(&buffers->slots, in->slots, in->slots_len, null, rng);
    if (in->kind == COUNT)
        return fiddlequill_count(task, in->task_len, slots, in->slots_len, in->offset);
    if (in->kind == WHICH)
        return fiddlequill_which_slot(task, in->task_len, slots, in->slots_len);
    uint8_t *reply = lend(&buffers->reply, in->reply, in->reply_len, null, rng);
    if (in->kind == SITE)
        return fiddlequill_site(task, in->task_len, slots, in->slots_len, reply, in->reply_len);
    return fiddlequill_judge(task, in->task_len, slots, in->slots_len, reply, in->reply_len);
}

static uint64_t ask_grant(const struct input *in, struct lent_buffers *buffers, struct rng *rng)
{
    const struct strips *s = &in->strips;
    uint8_t *marks = lend(&buffers->marks, in->marks, in->marks_len, in->null_when_empty, rng);
    return fiddlequill_grant(marks, in->marks_len, in->v, in->loss, s->e, s->D, s->h, s->m, s->k);
}

/* ---- comparing ---- */

static const char *const kind_names[KINDS] = {"judge", "count", "grant", "site", "which slot"};

static void print_hex(const char *name, const uint8_t *bytes, size_t n)
{
    printf("  %s (%zu bytes) ", name, n);
    for (size_t i = 0; i < n; i++)
        printf("%02x", bytes[i]);
    printf("\n");
}

static void print_input(const struct input *in)
{
    const struct strips *s = &in->strips;
    if (in->kind == GRANT) {
        print_hex("marks", in->marks, in->marks_len);
        printf("  v %" PRIu64 " loss %" PRIu64 " e %" PRIu64 " d %" PRIu64 " h %" PRIu64 " m %" PRIu64 " k %" PRIu64
               "\n",
               in->v, in->loss, s->e, s->D, s->h, s->m, s->k);
        return;
    }
    print_hex("task", in->task, in->task_len);
    print_hex("slots", in->slots, in->slots_len);
    if (has_reply(in->kind))
        print_hex("reply before", in->reply, in->reply_len);
    else
        printf("  offset %" PRIu64 "\n", in->offset);
    printf("  NULL for an empty buffer: %s\n", in->null_when_empty ? "yes" : "no");
}

static bool buffers_hold(const struct input *in, const struct expected *expected, const struct lent_buffers *buffers)
{
    if (in->kind == GRANT)
        return holds(&buffers->marks, expected->marks);
    return holds(&buffers->task, in->task) && holds(&buffers->slots, in->slots) &&
           (!has_reply(in->kind) || holds(&buffers->reply, expected->reply));
}

static void print_lent(const char *name, const struct lent *lent, const uint8_t *content)
{
    printf("  %s: %s\n", name, holds(lent, content) ? "as it should be" : "DIFFERENT");
    if (!holds(lent, content)) {
        print_hex("should hold", content, lent->len);
        print_hex("with guards", lent->room, lent->lead + lent->len + GUARD);
        printf("  guard byte %02x, %zu of them before the content\n", lent->guard, lent->lead);
    }
}

static void print_outcome(const struct input *in, const struct expected *expected, const struct lent_buffers *buffers,
                          uint64_t result)
{
    printf("  result %#" PRIx64 ", by definition %#" PRIx64 "\n", result, expected->result);
    if (in->kind == GRANT) {
        print_lent("marks", &buffers->marks, expected->marks);
        return;
    }
    print_lent("task", &buffers->task, in->task);
    print_lent("slots", &buffers->slots, in->slots);
    if (has_reply(in->kind))
        print_lent("reply", &buffers->reply, expected->reply);
}

/* Rule 6 at one random p/q, and at the reported half tick, straight from the cells. */
static bool worst_holds(const struct input *in, const struct lent_buffers *buffers, struct tally *tally,
                        struct rng *rng)
{
    const uint8_t *answer = buffers->reply.room + buffers->reply.lead;
    uint32_t worst = get_number(answer + 8, 4), at = get_number(answer + 12, 4);
    struct task task = task_of_bytes(in->task);
    struct strips strips = strips_of_task(&task);
    struct wheel wheel;
    wheel_of_task(&wheel, &task, in->slots);
    uint64_t q = 1 + below(rng, Q_MAX), p = below(rng, 3 * q * task.w);
    uint32_t drops = count_at(&wheel, &strips, q, p);
    tally->met[FRACTION] += q > 2 && drops > 0;
    if (drops <= worst && count_at(&wheel, &strips, 2, at) == worst)
        return true;
    printf("  reported worst %" PRIu32 " at half tick %" PRIu32 ", but %" PRIu64 "/%" PRIu64 " drops %" PRIu32 "\n",
           worst, at, p, q, drops);
    return false;
}

/* The least margin at the whole tick that has it, straight from the cells and by the archive, and at one random p/q. */
static bool least_holds(const struct input *in, const struct least *least, const struct lent_buffers *buffers,
                        struct tally *tally, struct rng *rng)
{
    const uint8_t *record = content_of(&buffers->task), *slots = content_of(&buffers->slots);
    int64_t reported = fiddlequill_signed(get_number(content_of(&buffers->reply) + MARGIN_AT, 4));
    struct task task = task_of_bytes(in->task);
    struct strips strips = strips_of_task(&task);
    struct wheel wheel;
    wheel_of_task(&wheel, &task, in->slots);
    uint64_t q = 1 + below(rng, Q_MAX), p = below(rng, 3 * q * task.w);
    int64_t bound = (int64_t)q * reported, margin = margin_at(&wheel, &strips, q, p);
    uint64_t asked = fiddlequill_margin(record, in->task_len, slots, in->slots_len, 2 * (uint64_t)least->first);
    tally->met[FRACTION_NEAR] += q > 3 && margin > bound && margin < bound + (int64_t)q;
    if (least->ticks > 0 && margin_at(&wheel, &strips, 1, least->first) == reported && margin >= bound &&
        fiddlequill_number(asked) == 0 && fiddlequill_signed(fiddlequill_value(asked)) == 2 * reported)
        return true;
    printf("  reported least margin %" PRId64 "; by definition %" PRId64 " sixths of a tick, had by %" PRIu32
           " whole ticks, first %" PRIu32 ", where the archive has the margin %#" PRIx64 "; at %" PRIu64 "/%" PRIu64
           " it is %" PRId64 "\n",
           reported, least->sixths, least->ticks, least->first, asked, p, q, margin);
    return false;
}

/* The verdict alone, as a number and an answer have it. */
static uint64_t verdict_in(uint32_t number, const uint8_t *answer)
{
    return (uint64_t)number << 32 | get_number(answer + 6, 2);
}

/* The verdict alone, of the very bytes that were lent: by definition, and as the archive judges with room to answer. */
static bool quick_holds(const struct input *in, const struct expected *expected, const struct lent_buffers *buffers)
{
    const uint8_t *task = content_of(&buffers->task), *slots = content_of(&buffers->slots);
    uint8_t answer[ANSWER_BYTES] = {0}; /* refusal 1 leaves it so */
    uint64_t quick = fiddlequill_quick(task, in->task_len, slots, in->slots_len);
    uint32_t number = fiddlequill_judge(task, in->task_len, slots, in->slots_len, answer, sizeof answer);
    if (quick == expected->quick && quick == verdict_in(number, answer) && buffers_hold(in, expected, buffers))
        return true;
    printf("  the verdict alone is %#" PRIx64 ", by definition %#" PRIx64 ", judged %#" PRIx64 "; lent buffers %s\n",
           quick, expected->quick, verdict_in(number, answer),
           buffers_hold(in, expected, buffers) ? "as they were" : "WRITTEN");
    return false;
}

/* A worst count by whole rounds at its half tick and at a random one, by the archive: no earlier one has as many. */
static bool rounds_worst_holds(const struct input *in, const struct lent_buffers *buffers, struct rng *rng)
{
    const uint8_t *task = content_of(&buffers->task), *slots = content_of(&buffers->slots);
    const uint8_t *answer = content_of(&buffers->reply);
    const uint32_t worst = get_number(answer + 8, 4), at = get_number(answer + 12, 4);
    const uint64_t some = below(rng, 2 * (uint64_t)task_of_bytes(in->task).w);
    uint64_t there = fiddlequill_rounds_count(task, in->task_len, slots, in->slots_len, at);
    uint64_t elsewhere = fiddlequill_rounds_count(task, in->task_len, slots, in->slots_len, some);
    if (there == worst && elsewhere <= worst && (some >= at || elsewhere < worst))
        return true;
    printf("  by whole rounds worst %" PRIu32 " at half tick %" PRIu32 ", counted there %#" PRIx64
           ", and from half tick %" PRIu64 " %#" PRIx64 "\n",
           worst, at, there, some, elsewhere);
    return false;
}

/* Judging by whole rounds, of the very bytes that were lent, into a reply as it was before. */
static bool rounds_judge_holds(const struct input *in, const struct expected *expected, struct lent_buffers *buffers,
                               struct rng *rng)
{
    const uint8_t *task = content_of(&buffers->task), *slots = content_of(&buffers->slots);
    uint8_t *reply = lend(&buffers->reply, in->reply, in->reply_len, in->null_when_empty, rng);
    uint32_t number = fiddlequill_rounds_judge(task, in->task_len, slots, in->slots_len, reply, in->reply_len);
    if (number == expected->rounds && holds(&buffers->task, in->task) && holds(&buffers->slots, in->slots) &&
        holds(&buffers->reply, expected->rounds_reply))
        return number != 0 || rounds_worst_holds(in, buffers, rng);
    printf("  judged by whole rounds with %" PRIu32 ", by definition %" PRIu64 "\n", number, expected->rounds);
    print_lent("task", &buffers->task, in->task);
    print_lent("slots", &buffers->slots, in->slots);
    print_lent("reply", &buffers->reply, expected->rounds_reply);
    return false;
}

/* Counting by whole rounds, of those that were lent for counting. */
static bool rounds_count_holds(const struct input *in, const struct expected *expected,
                               const struct lent_buffers *buffers)
{
    const uint8_t *task = content_of(&buffers->task), *slots = content_of(&buffers->slots);
    uint64_t count = fiddlequill_rounds_count(task, in->task_len, slots, in->slots_len, in->offset);
    if (count == expected->rounds && buffers_hold(in, expected, buffers))
        return true;
    printf("  counted by whole rounds %#" PRIx64 ", by definition %#" PRIx64 "; lent buffers %s\n", count,
           expected->rounds, buffers_hold(in, expected, buffers) ? "as they were" : "WRITTEN");
    return false;
}

/* A record's answer by the other engine, unless the first refuses it with 9: the same bytes. */
static bool rounds_answer_holds(const uint8_t *task, const struct lent *slots, const uint8_t *answer)
{
    uint8_t again[ANSWER_BYTES] = {0};
    const uint32_t said = get_number(answer + 4, 2);
    uint32_t number = fiddlequill_rounds_judge(task, TASK_BYTES, slots->room + slots->lead, slots->len, again,
                                               sizeof again);
    if (said == 9 || (number == said && memcmp(again, answer, sizeof again) == 0))
        return true;
    printf("  judged by whole rounds with %" PRIu32 ":\n", number);
    print_hex("by whole rounds", again, sizeof again);
    print_hex("by the first engine", answer, sizeof again);
    return false;
}

/* Each answer of a site against the archive's own single ones, from the very bytes that the site lent. */
static bool answers_hold(const struct lent_buffers *buffers)
{
    const uint8_t *tasks = buffers->task.room + buffers->task.lead, *slots = buffers->slots.room + buffers->slots.lead;
    const uint8_t *reply = buffers->reply.room + buffers->reply.lead;
    for (size_t i = 0; i < buffers->task.len / TASK_BYTES; i++) {
        const uint8_t *task = tasks + i * TASK_BYTES;
        uint8_t answer[ANSWER_BYTES];
        uint32_t number = fiddlequill_judge(task, TASK_BYTES, slots, buffers->slots.len, answer, sizeof answer);
        uint64_t quick = fiddlequill_quick(task, TASK_BYTES, slots, buffers->slots.len);
        if (number != get_number(answer + 4, 2) || quick != verdict_in(number, answer) ||
            memcmp(answer, reply + i * ANSWER_BYTES, sizeof answer) != 0) {
            printf("  record %zu judged by itself gives %" PRIu32 ", the verdict alone is %#" PRIx64 ":\n", i, number,
                   quick);
            print_hex("alone", answer, sizeof answer);
            print_hex("in its site", reply + i * ANSWER_BYTES, sizeof answer);
            return false;
        }
        if (!rounds_answer_holds(task, &buffers->slots, answer))
            return false;
    }
    return true;
}

/* The refusals of a slot table, which are all that which slot knows. */
static bool of_table(uint32_t number)
{
    return number == 1 || number == 3 || number == 4 || (number >= 14 && number <= 19);
}

/* Whether a call says of the table what which slot says; a short reply is refused before the table is looked at. */
static bool refused_alike(const char *call, uint32_t number, uint32_t which)
{
    if (number == 2 ? which != 1 : which == (of_table(number) ? number : 0))
        return true;
    printf("  %s gives refusal %" PRIu32 ", which slot %" PRIu32 "\n", call, number, which);
    return false;
}

/* Which slot, of the very bytes that were lent for judging or counting. */
static bool which_slot_holds(const struct input *in, const struct lent_buffers *buffers, uint32_t number)
{
    uint64_t which = fiddlequill_which_slot(content_of(&buffers->task), in->task_len, content_of(&buffers->slots),
                                            in->slots_len);
    uint64_t defined = definition_which_slot(in->task, in->task_len, in->slots, in->slots_len);
    if (which == defined)
        return refused_alike(kind_names[in->kind], number, fiddlequill_number(which));
    printf("  which slot gives %#" PRIx64 ", by definition %#" PRIx64 "\n", which, defined);
    return false;
}

/* The supply and the margin, of those that were lent for counting; rule 3 drops where the margin is below zero. */
static bool point_holds(const struct input *in, const struct expected *expected, const struct lent_buffers *buffers)
{
    const uint8_t *task = content_of(&buffers->task), *slots = content_of(&buffers->slots);
    uint64_t supply = fiddlequill_supply(task, in->task_len, slots, in->slots_len, in->offset);
    uint64_t margin = fiddlequill_margin(task, in->task_len, slots, in->slots_len, in->offset);
    uint64_t dropped = definition_drop_test(in->task, in->task_len, in->slots, in->slots_len, in->offset);
    bool below_zero = fiddlequill_signed(fiddlequill_value(margin)) < 0;
    if (supply == expected->supply && margin == expected->margin && below_zero == (fiddlequill_value(dropped) == 1) &&
        buffers_hold(in, expected, buffers))
        return true;
    printf("  supply %#" PRIx64 ", by definition %#" PRIx64 "; margin %#" PRIx64 ", by definition %#" PRIx64
           "; dropped by definition: %" PRIu32 "; lent buffers %s\n",
           supply, expected->supply, margin, expected->margin, fiddlequill_value(dropped),
           buffers_hold(in, expected, buffers) ? "as they were" : "WRITTEN");
    return false;
}

/* Every other call, of those that were lent for which slot. */
static bool others_refuse_alike(const struct input *in, const struct lent_buffers *buffers, uint32_t number)
{
    const uint8_t *task = content_of(&buffers->task), *slots = content_of(&buffers->slots);
    uint8_t answer[ANSWER_BYTES];
    uint32_t judged = fiddlequill_judge(task, in->task_len, slots, in->slots_len, answer, sizeof answer);
    uint32_t in_rounds = fiddlequill_rounds_judge(task, in->task_len, slots, in->slots_len, answer, sizeof answer);
    uint64_t count = fiddlequill_count(task, in->task_len, slots, in->slots_len, in->offset);
    uint64_t rounds_count = fiddlequill_rounds_count(task, in->task_len, slots, in->slots_len, in->offset);
    uint64_t supply = fiddlequill_supply(task, in->task_len, slots, in->slots_len, in->offset);
    uint64_t margin = fiddlequill_margin(task, in->task_len, slots, in->slots_len, in->offset);
    uint64_t quick = fiddlequill_quick(task, in->task_len, slots, in->slots_len);
    return refused_alike("judge", judged, number) && refused_alike("quick", fiddlequill_number(quick), number) &&
           refused_alike("count", fiddlequill_number(count), number) &&
           refused_alike("supply", fiddlequill_number(supply), number) &&
           refused_alike("margin", fiddlequill_number(margin), number) &&
           refused_alike("judge by whole rounds", in_rounds, number) &&
           refused_alike("count by whole rounds", fiddlequill_number(rounds_count), number);
}

/* Refusal 13 speaks of any set, not only of the first j free slots. */
static bool no_set_holds(const struct input *in, struct tally *tally)
{
    size_t free_slots = 0;
    for (size_t i = 0; i < in->marks_len; i++)
        free_slots += in->marks[i] == 1;
    if (free_slots > SETS_MAX || in->marks_len * in->v > SETS_WHEEL_MAX)
        return true;
    tally->met[NEVER_FIRM_SETS] += free_slots > 1;
    tally->met[NEVER_FIRM_SETS_LOSS] += free_slots > 1 && in->loss > 0;
    if (!some_set_is_firm(in->marks, in->marks_len, in->v, in->loss, &in->strips))
        return true;
    printf("  refused with 13, but some set of free slots is firm\n");
    return false;
}

/* What else the archive must say of an input, beside what the definition says of its own call. */
static bool others_hold(const struct input *in, const struct expected *expected, struct lent_buffers *buffers,
                        struct tally *tally, struct rng *rng)
{
    const uint64_t result = expected->result;
    switch (in->kind) {
    case JUDGE:
        return which_slot_holds(in, buffers, (uint32_t)result) && quick_holds(in, expected, buffers) &&
               (result != 0 || (worst_holds(in, buffers, tally, rng) &&
                                least_holds(in, &expected->verdict.least, buffers, tally, rng))) &&
               rounds_judge_holds(in, expected, buffers, rng); /* the last: it lends the reply anew */
    case COUNT:
        return which_slot_holds(in, buffers, fiddlequill_number(result)) && point_holds(in, expected, buffers) &&
               rounds_count_holds(in, expected, buffers);
    case SITE:
        return result != 0 || answers_hold(buffers);
    case WHICH:
        return others_refuse_alike(in, buffers, fiddlequill_number(result));
    default:
        return fiddlequill_number(result) != 13 || no_set_holds(in, tally);
    }
}

/* Asks both sides about one input. */
static bool agree(const struct input *in, struct lent_buffers *buffers, struct tally *tally, struct rng *rng)
{
    struct expected expected = {0};
    define(in, &expected);
    uint64_t result = in->kind == GRANT ? ask_grant(in, buffers, rng) : ask_task(in, buffers, rng);
    tally_add(tally, in, &expected);
    bool same = result == expected.result && buffers_hold(in, &expected, buffers);
    if (!same)
        print_outcome(in, &expected, buffers, result);
    same = same && others_hold(in, &expected, buffers, tally, rng);
    if (!same)
        print_input(in);
    return same;
}

/* ---- pairs of boards ---- */

/* What the archive says of one of them. */
struct heard {
    uint32_t number, rounds_number;
    uint8_t reply[REPLY_ROOM], rounds_reply[REPLY_ROOM];
    uint64_t quick, count, supply, margin, rounds_count;
};

static struct heard hear(const struct input *in)
{
    struct heard heard;
    memcpy(heard.reply, in->reply, REPLY_ROOM);
    heard.number = fiddlequill_judge(in->task, in->task_len, in->slots, in->slots_len, heard.reply, in->reply_len);
    heard.quick = fiddlequill_quick(in->task, in->task_len, in->slots, in->slots_len);
    heard.count = fiddlequill_count(in->task, in->task_len, in->slots, in->slots_len, in->offset);
    heard.supply = fiddlequill_supply(in->task, in->task_len, in->slots, in->slots_len, in->offset);
    heard.margin = fiddlequill_margin(in->task, in->task_len, in->slots, in->slots_len, in->offset);
    memcpy(heard.rounds_reply, in->reply, REPLY_ROOM);
    heard.rounds_number = fiddlequill_rounds_judge(in->task, in->task_len, in->slots, in->slots_len,
                                                   heard.rounds_reply, in->reply_len);
    heard.rounds_count = fiddlequill_rounds_count(in->task, in->task_len, in->slots, in->slots_len, in->offset);
    return heard;
}

static void print_heard(const struct input *in, const struct heard *heard)
{
    printf("  judged with %" PRIu32 ", the verdict alone %#" PRIx64 "; at half tick %" PRIu64 " count %#" PRIx64
           ", supply %#" PRIx64 ", margin %#" PRIx64 "\n",
           heard->number, heard->quick, in->offset, heard->count, heard->supply, heard->margin);
    print_hex("reply", heard->reply, in->reply_len);
    printf("  by whole rounds judged with %" PRIu32 ", count %#" PRIx64 "\n", heard->rounds_number,
           heard->rounds_count);
    print_hex("reply by whole rounds", heard->rounds_reply, in->reply_len);
    print_input(in);
}

/* The same answer, byte for byte, whatever slots others have and wherever first and count point. */
static bool boards_agree(const struct input pair[2], struct tally *tally)
{
    if (!is_same_for_owner(&pair[0], &pair[1])) {
        printf("  a pair of boards that aren't both good, or not the same for their owner\n");
        print_input(&pair[0]);
        print_input(&pair[1]);
        return false;
    }
    struct heard one = hear(&pair[0]), other = hear(&pair[1]);
    tally_add_pair(tally, &pair[0], &pair[1], one.reply, fiddlequill_number(one.count));
    if (one.number == other.number && memcmp(one.reply, other.reply, REPLY_ROOM) == 0 && one.quick == other.quick &&
        one.count == other.count && one.supply == other.supply && one.margin == other.margin &&
        one.rounds_number == other.rounds_number && one.rounds_count == other.rounds_count &&
        memcmp(one.rounds_reply, other.rounds_reply, REPLY_ROOM) == 0)
        return true;
    printf("  two boards that are the same for their owner don't give the same:\n");
    print_heard(&pair[0], &one);
    print_heard(&pair[1], &other);
    return false;
}

/* Each of the two is judged and counted as any other input; then they are held against each other. */
static bool pair_agrees(struct input pair[2], struct lent_buffers *buffers, struct tally *tally, struct rng *rng)
{
    static const enum kind kinds[2] = {JUDGE, COUNT};
    for (size_t board = 0; board < 2; board++)
        for (size_t i = 0; i < 2; i++) {
            pair[board].kind = kinds[i];
            if (!agree(&pair[board], buffers, tally, rng))
                return false;
        }
    return boards_agree(pair, tally);
}

/* ---- the run ---- */

/* The definition must say what the paper prints before it may speak for it. */
static bool said_by_definition(const struct input *in, const struct expected *said)
{
    struct expected expected = {0};
    define(in, &expected);
    return expected.result == said->result && expected.quick == said->quick && expected.supply == said->supply &&
           expected.margin == said->margin && expected.rounds == said->rounds &&
           memcmp(expected.reply, said->reply, SITE_REPLY_ROOM) == 0 &&
           memcmp(expected.rounds_reply, said->rounds_reply, REPLY_ROOM) == 0 &&
           memcmp(expected.marks, said->marks, MARKS_ROOM) == 0;
}

static bool hand_bits_agree(void)
{
    for (size_t i = 0; i < HAND_BITS; i++)
        if (fiddlequill_signed(hand_bits[i].bits) != hand_bits[i].margin) {
            printf("second: the bits %#" PRIx32 " aren't read as %" PRId32 "\n", hand_bits[i].bits,
                   hand_bits[i].margin);
            return false;
        }
    return true;
}

static bool hand_pairs_agree(struct input pair[2], struct lent_buffers *buffers)
{
    struct tally unused = {0};
    struct rng rng = rng_for(0, 0);
    for (size_t i = 0; i < hand_pair_count(); i++) {
        struct expected judged, counted;
        bool defined = true;
        const char *name = hand_pair(i, &pair[0], &pair[1], &judged, &counted);
        for (size_t board = 0; board < 2; board++) {
            pair[board].kind = JUDGE;
            defined = defined && said_by_definition(&pair[board], &judged);
            pair[board].kind = COUNT;
            defined = defined && said_by_definition(&pair[board], &counted);
        }
        if (!defined || !pair_agrees(pair, buffers, &unused, &rng)) {
            printf("second: pair by hand \"%s\" differs from %s\n", name, defined ? "the archive" : "the definition");
            return false;
        }
    }
    return true;
}

static bool hand_cases_agree(struct input *in, struct lent_buffers *buffers)
{
    struct tally unused = {0}; /* classes must be met by the seeded inputs */
    struct rng rng = rng_for(0, 0);
    for (size_t i = 0; i < hand_count(); i++) {
        struct expected said;
        const char *name = hand_case(i, in, &said);
        bool defined = said_by_definition(in, &said);
        if (!defined || !agree(in, buffers, &unused, &rng)) {
            printf("second: case by hand \"%s\" differs from %s\n", name, defined ? "the archive" : "the definition");
            return false;
        }
    }
    printf("second: %zu cases and %zu pairs by hand as printed\n", hand_count() + HAND_BITS, hand_pair_count());
    return true;
}

/*
 * T of the paper again and again, with needs from a refused 0 to more than any supply, and losses up to a refused 9.
 * Each record has an id of its own, the last of them ids that no task may have, and a board of two slots, of which T's
 * is the first.
 */
static void fill_long_site(uint8_t *tasks, uint8_t *slots)
{
    static const uint32_t board[2][2] = {{0, 8}, {8, 10}};
    for (uint32_t i = 0; i < LONG_SITE; i++) {
        struct task task = {ID_MAX - 3 * LONG_SITE / 4 + i, 10, i % 7, 5, 14, 1, 2, 2 * i, 2};
        task_to_bytes(&task, tasks + i * TASK_BYTES);
        for (uint32_t j = 0; j < 2; j++) {
            uint8_t *slot = slots + (2 * i + j) * SLOT_BYTES;
            put_number(slot, board[j][0], 4);
            put_number(slot + 4, board[j][1], 4);
            put_number(slot + OWNER_AT, task.id + j, 2);
            put_number(slot + LOSS_AT, j == 0 ? i / 7 % 10 : 0, 2);
        }
    }
}

static bool long_site_agrees(void)
{
    static uint8_t tasks[LONG_SITE * TASK_BYTES], slots[2 * LONG_SITE * SLOT_BYTES], reply[LONG_SITE * ANSWER_BYTES];
    struct lent_buffers buffers = {lent_room(sizeof tasks), lent_room(sizeof slots), lent_room(sizeof reply), {0}};
    struct rng rng = rng_for(0, 1);
    fill_long_site(tasks, slots);
    const uint8_t *lent_tasks = lend(&buffers.task, tasks, sizeof tasks, false, &rng);
    const uint8_t *lent_slots = lend(&buffers.slots, slots, sizeof slots, false, &rng);
    uint8_t *lent_reply = lend(&buffers.reply, reply, sizeof reply, false, &rng);
    uint32_t number = fiddlequill_site(lent_tasks, sizeof tasks, lent_slots, sizeof slots, lent_reply, sizeof reply);
    bool same = number == definition_site(tasks, sizeof tasks, slots, sizeof slots, reply, sizeof reply);
    same = same && holds(&buffers.task, tasks) && holds(&buffers.slots, slots) && holds(&buffers.reply, reply);
    same = same && answers_hold(&buffers);
    printf("second: a site of %d records %s\n", LONG_SITE, same ? "as by definition" : "DIFFERS from the definition");
    free(buffers.task.room);
    free(buffers.slots.room);
    free(buffers.reply.room);
    return same;
}

static void tell_stretch(uint64_t done, uint64_t inputs)
{
    if (done % STRETCH != 0 || done == inputs)
        return;
    printf("second: %" PRIu64 " of %" PRIu64 " inputs so far, 0 differences\n", done, inputs);
    fflush(stdout);
}

static bool seeded_inputs_agree(struct input in[2], struct lent_buffers *buffers, struct tally *tally, uint64_t inputs,
                                uint64_t seed)
{
    for (uint64_t number = 0; number < inputs; number++) {
        struct rng rng = rng_for(seed, number);
        bool pair = is_pair(number);
        if (pair)
            make_pair(&in[0], &in[1], &rng);
        else
            make_input(in, &rng, number);
        if (!(pair ? pair_agrees(in, buffers, tally, &rng) : agree(in, buffers, tally, &rng))) {
            printf("second: DIFFERENCE at seed %" PRIu64 ", input %" PRIu64 " (%s)\n", seed, number,
                   pair ? "pair" : kind_names[in->kind]);
            return false;
        }
        tell_stretch(number + 1, inputs);
    }
    return true;
}

static bool run(struct input in[2], struct lent_buffers *buffers, uint64_t inputs, uint64_t seed)
{
    struct tally tally = {0};
    if (!hand_bits_agree() || !hand_pairs_agree(in, buffers) || !hand_cases_agree(in, buffers) ||
        !long_site_agrees() || !seeded_inputs_agree(in, buffers, &tally, inputs, seed))
        return false;
    unsigned never = tally_print(&tally);
    printf("second: %" PRIu64 " inputs, 0 differences", inputs);
    if (never > 0)
        printf(", but %u classes were NEVER MET, or met though they can't be", never);
    printf("\n");
    return never == 0;
}

int main(int argc, char **argv)
{
    if (argc > 3) {
        fprintf(stderr, "usage: second [INPUTS [SEED]]\n");
        return 2;
    }
    uint64_t inputs = argc > 1 ? number_argument("second", argv[1]) : DEFAULT_INPUTS;
    uint64_t seed = argc > 2 ? number_argument("second", argv[2]) : DEFAULT_SEED;
    struct lent_buffers buffers = {lent_room(SITE_TASKS_ROOM), lent_room(SLOTS_ROOM), lent_room(SITE_REPLY_ROOM),
                                   lent_room(MARKS_ROOM)};
    struct lent slots[2] = {lent_room(SLOTS_ROOM), lent_room(SLOTS_ROOM)};
    struct input in[2] = {{.slots = slots[0].room}, {.slots = slots[1].room}};
    for (size_t i = 0; i < 2; i++)
        memset(slots[i].room, 0, slots[i].size); /* a damaged length may go beyond what has been written */
    printf("second: seed %" PRIu64 "\n", seed);
    fflush(stdout); /* a run that is ended from outside has told its seed */
    bool good = run(in, &buffers, inputs, seed);
    free(buffers.task.room);
    free(buffers.slots.room);
    free(buffers.reply.room);
    free(buffers.marks.room);
    free(slots[0].room);
    free(slots[1].room);
    return exit_status("second", good);
}
