/*
 * How much stack the calls need, against what the header allows.
 *
 * Each call runs on a thread whose stack was painted before; the lowest byte
 * that lost its paint tells how deep it went. What an empty thread takes is
 * taken off. Bytes that a call reserves below but never writes aren't seen.
 */
#define _DEFAULT_SOURCE

#include "bytes.h"
#include "files.h"
#include "fiddlequill.h"

#include <pthread.h>
#include <stdio.h>
#include <stdlib.h>
#include <string.h>

enum { STACK = 1 << 20, PAINT = 0xa5, PAGE = 4096, SITE_TASKS = 3, TASK_ID = 1, FEW_SLOTS = 64, LOSS = 1 };

/* A wheel, its slots, all of them the task's, and the largest k of each engine; a need that makes some strips drop. */
struct biggest {
    uint8_t task[FIDDLEQUILL_TASK_BYTES], long_task[FIDDLEQUILL_TASK_BYTES];
    uint8_t slots[FIDDLEQUILL_SLOTS_MAX * FIDDLEQUILL_SLOT_BYTES];
    uint8_t reply[FIDDLEQUILL_ANSWER_BYTES];
    uint8_t site[SITE_TASKS * FIDDLEQUILL_TASK_BYTES], replies[SITE_TASKS * FIDDLEQUILL_ANSWER_BYTES];
    uint8_t marks[FIDDLEQUILL_GRANT_SLOTS_MAX];
    size_t slots_len;
    uint32_t w, e, h, k, number;
};

/* The same wheel with all strips, with as many as a byte counts, and with a few: the judge may go other ways. */
static void fill_site(struct biggest *b)
{
    static const uint32_t strips[SITE_TASKS] = {FIDDLEQUILL_STRIPS_MAX, 255, 10};
    for (size_t i = 0; i < SITE_TASKS; i++) {
        uint8_t *task = b->site + i * sizeof b->task;
        memcpy(task, b->task, sizeof b->task);
        put_number(task + 24, strips[i], 4);
    }
}

/* At most half as many slots as ticks. Each keeps half of its pitch, and loses a tick where that leaves a gap. */
static void fill(struct biggest *b, uint32_t w, uint32_t slots)
{
    const uint32_t pitch = w / slots, loss = pitch > 2 ? LOSS : 0;
    b->w = w;
    b->k = FIDDLEQUILL_STRIPS_MAX;
    b->h = w + w / 3 + 1;
    b->e = b->h / 2;
    const uint32_t fields[] = {TASK_ID, b->w, b->e, b->h, b->h, 1, b->k};
    for (size_t i = 0; i < sizeof fields / sizeof *fields; i++)
        put_number(b->task + 4 * i, fields[i], 4);
    put_number(b->task + 28, 0, 2);
    put_number(b->task + 30, slots, 2);
    fill_site(b);
    memcpy(b->long_task, b->task, sizeof b->task);
    put_number(b->long_task + 24, FIDDLEQUILL_ROUNDS_STRIPS_MAX, 4);
    b->slots_len = slots * FIDDLEQUILL_SLOT_BYTES;
    for (uint32_t i = 0; i < slots; i++) {
        uint8_t *slot = b->slots + i * FIDDLEQUILL_SLOT_BYTES;
        put_number(slot, i * pitch, 4);
        put_number(slot + 4, i * pitch + pitch / 2 + loss, 4);
        put_number(slot + 8, TASK_ID, 2);
        put_number(slot + 10, loss, 2);
    }
    memset(b->marks, 1, sizeof b->marks);
}

static void *idle(void *context)
{
    ((struct biggest *)context)->number = FIDDLEQUILL_OK;
    return NULL;
}

static void *judge(void *context)
{
    struct biggest *b = context;
    b->number = fiddlequill_judge(b->task, sizeof b->task, b->slots, b->slots_len, b->reply, sizeof b->reply);
    return NULL;
}

/* A call isn't refused for its records; but a refused record needs little stack and would measure nothing. */
static void *site(void *context)
{
    struct biggest *b = context;
    b->number = fiddlequill_site(b->site, sizeof b->site, b->slots, b->slots_len, b->replies, sizeof b->replies);
    for (size_t i = 0; i < SITE_TASKS && b->number == FIDDLEQUILL_OK; i++)
        b->number = get_number(b->replies + i * FIDDLEQUILL_ANSWER_BYTES + 4, 2);
    return NULL;
}

/* All strips but one may drop, so that neither their average nor the least margin tells, and the arrays are lent. */
static void *quick(void *context)
{
    struct biggest *b = context;
    b->number = fiddlequill_number(fiddlequill_quick(b->task, sizeof b->task, b->slots, b->slots_len));
    return NULL;
}

static void *which_slot(void *context)
{
    struct biggest *b = context;
    b->number = fiddlequill_number(fiddlequill_which_slot(b->task, sizeof b->task, b->slots, b->slots_len));
    return NULL;
}

static void *count(void *context)
{
    struct biggest *b = context;
    b->number = fiddlequill_number(fiddlequill_count(b->task, sizeof b->task, b->slots, b->slots_len, 1));
    return NULL;
}

static void *supply(void *context)
{
    struct biggest *b = context;
    b->number = fiddlequill_number(fiddlequill_supply(b->task, sizeof b->task, b->slots, b->slots_len, 1));
    return NULL;
}

static void *margin(void *context)
{
    struct biggest *b = context;
    b->number = fiddlequill_number(fiddlequill_margin(b->task, sizeof b->task, b->slots, b->slots_len, 1));
    return NULL;
}

static void *rounds_judge(void *context)
{
    struct biggest *b = context;
    b->number = fiddlequill_rounds_judge(b->long_task, sizeof b->long_task, b->slots, b->slots_len, b->reply,
                                         sizeof b->reply);
    return NULL;
}

static void *rounds_count(void *context)
{
    struct biggest *b = context;
    b->number = fiddlequill_number(
        fiddlequill_rounds_count(b->long_task, sizeof b->long_task, b->slots, b->slots_len, 1));
    return NULL;
}

/* With m = k the least margin alone would decide, and no array would be lent. */
static void *grant(void *context)
{
    struct biggest *b = context;
    b->number = fiddlequill_number(
        fiddlequill_grant(b->marks, sizeof b->marks, b->w / sizeof b->marks, LOSS, b->e, b->h, b->h, b->k / 2,
                          b->k));
    return NULL;
}

static void give_up(const char *what)
{
    fprintf(stderr, "stack: %s\n", what);
    exit(2);
}

/* Bytes of stack that lost their paint. */
static size_t depth_of(void *(*call)(void *), uint32_t w, uint32_t slots)
{
    struct biggest biggest;
    pthread_attr_t attributes;
    pthread_t thread;
    uint8_t *stack = aligned_alloc(PAGE, STACK);
    if (stack == NULL)
        give_up("no memory");
    memset(stack, PAINT, STACK);
    fill(&biggest, w, slots);
    if (pthread_attr_init(&attributes) != 0 || pthread_attr_setstack(&attributes, stack, STACK) != 0 ||
        pthread_create(&thread, &attributes, call, &biggest) != 0 || pthread_join(thread, NULL) != 0)
        give_up("no thread");
    pthread_attr_destroy(&attributes);
    if (biggest.number != FIDDLEQUILL_OK)
        give_up(fiddlequill_meaning(biggest.number));
    size_t untouched = 0;
    while (untouched < STACK && stack[untouched] == PAINT)
        untouched++;
    free(stack);
    return STACK - untouched;
}

int main(void)
{
    static const struct {
        const char *name;
        void *(*call)(void *);
        uint32_t slots_max;
    } calls[] = {
        {"judge", judge, FIDDLEQUILL_SLOTS_MAX},
        {"site", site, FIDDLEQUILL_SLOTS_MAX},
        {"quick", quick, FIDDLEQUILL_SLOTS_MAX},
        {"which slot", which_slot, FIDDLEQUILL_SLOTS_MAX},
        {"count", count, FIDDLEQUILL_SLOTS_MAX},
        {"supply", supply, FIDDLEQUILL_SLOTS_MAX},
        {"margin", margin, FIDDLEQUILL_SLOTS_MAX},
        {"judge by rounds", rounds_judge, FIDDLEQUILL_SLOTS_MAX},
        {"count by rounds", rounds_count, FIDDLEQUILL_SLOTS_MAX},
        {"grant", grant, FIDDLEQUILL_GRANT_SLOTS_MAX},
    };
    static const struct {
        uint32_t w, slots;
    } boards[] = {
        {128, FEW_SLOTS},
        {1280, FEW_SLOTS},
        {1280, FIDDLEQUILL_SLOTS_MAX},
        {4096, FEW_SLOTS},
        {4096, FIDDLEQUILL_SLOTS_MAX},
        {FIDDLEQUILL_WHEEL_MAX, FEW_SLOTS},
        {FIDDLEQUILL_WHEEL_MAX, FIDDLEQUILL_SLOTS_MAX},
    };
    size_t deepest = 0;
    for (size_t i = 0; i < sizeof calls / sizeof *calls; i++)
        for (size_t j = 0; j < sizeof boards / sizeof *boards; j++) {
            const uint32_t w = boards[j].w, slots = boards[j].slots;
            if (slots > calls[i].slots_max)
                continue;
            size_t depth = depth_of(calls[i].call, w, slots) - depth_of(idle, w, slots);
            printf("%s with w %u, %u slots: %zu bytes\n", calls[i].name, (unsigned)w, (unsigned)slots, depth);
            deepest = depth > deepest ? depth : deepest;
        }
    printf("stack: %zu bytes at most, %u allowed\n", deepest, FIDDLEQUILL_STACK_BYTES);
    return exit_status("stack", deepest <= FIDDLEQUILL_STACK_BYTES);
}
