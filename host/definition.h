/*
 * docs/RULES.md by definition, in the slowest honest way: a tick map, cells of
 * 1/q, supply by adding up cells. Nothing here is shared with the judge.
 */
#ifndef DEFINITION_H
#define DEFINITION_H

#include "bytes.h"

#include <stdbool.h>

enum {
    WHEEL_MAX = 16384,
    SLOTS_MAX = 512,
    GRANT_SLOTS_MAX = 64,
    ID_MAX = 65535,
    LOSS_MAX = 65535, /* that a slot record can hold */
    NEED_MAX = 1000000,
    PERIOD_MAX = 1000000,
    STRIPS_MAX = 1024,
    ROUNDS_STRIPS_MAX = 1000000, /* of the calls by whole rounds */
    TASK_BYTES = 32,
    FIRST_AT = 28, /* where a task record's first begins, and its count behind that */
    SLOT_BYTES = 12,
    OWNER_AT = 8, /* where a slot record's owner begins */
    LOSS_AT = 10, /* and its loss */
    ANSWER_BYTES = 20,
    MARGIN_AT = 16, /* where the least margin, the last field, begins in an answer record */
    Q_MAX = 12 /* the finest cells tried are twelfths of a tick */
};

/* A task record's fields. */
struct task {
    uint32_t id, w, e, D, h, m, k, first, count;
};

/* What a strip needs and how many there are; as wide as C hands them over. */
struct strips {
    uint64_t e, D, h, m, k;
};

/* One turn of the wheel: does a slot of the task's give it the tick? */
struct wheel {
    uint32_t w;
    uint8_t usable[WHEEL_MAX];
};

/* The least margin over all halves and thirds of a tick, in sixths: both of them are whole numbers of those. */
struct least {
    int64_t sixths;
    uint32_t ticks, first; /* how many whole ticks have it, and the first of them */
    bool shared;           /* an odd half tick has it as well */
};

/*
 * Where strips between the ticks drop: a tick is late when a strip half a tick after it is dropped. A run of late ticks
 * goes round the end of the wheel, and starts where a miss zone does (rule 8).
 */
struct late {
    uint32_t ticks, runs; /* a wheel on which every tick is late has no run that starts */
    uint32_t whole;       /* ticks at which a strip is dropped on the tick itself, too */
    bool over_end;        /* the last tick of the wheel is late, and so is the first: a run goes on there */
    /* Of a table that isn't firm: half a tick after (a - n * h) modulo w for a run's start a, too many strips drop. */
    uint32_t showing, last_showing; /* runs that show it so, and the last of them, counted from 0 */
    uint32_t least_n, most_n;       /* the least and the largest n with which one does */
};

struct verdict {
    uint32_t worst, offset;
    bool firm;
    bool equal_supply; /* some half tick has a supply of exactly e */
    struct least least;
    struct late late;
};

struct task task_of_bytes(const uint8_t *bytes);
void task_to_bytes(const struct task *task, uint8_t *bytes);
struct strips strips_of_task(const struct task *task);

/* Refusals 1, and 3, 19, 4, 14, slot by slot 15 to 18, then 6 to 10 of a task with its slots; 2 is left to judging. */
uint32_t refusal_of_sizes(size_t task_len, size_t slots_len);
uint32_t refusal_of_task(const uint8_t *task, const uint8_t *slots, size_t slots_len);
/* The same where 9 has the bound of the calls by whole rounds. */
uint32_t refusal_by_rounds(const uint8_t *task, const uint8_t *slots, size_t slots_len);
/* Refusals 15 to 18 of the slot at a place of the task's part, whoever owns it and whatever the others are like. */
uint32_t refusal_of_slot(const struct task *task, const uint8_t *slots, uint32_t place);
uint32_t refusal_of_strips(const struct strips *strips);
uint32_t refusal_of_marks(const uint8_t *marks, uint64_t n, uint64_t v, uint64_t loss);

/* Rule 1. A slot without a tick, of a table that would be refused, gives none. */
void wheel_of_task(struct wheel *wheel, const struct task *task, const uint8_t *slots);
/* The same of n equal slots, of which the task has slot i when pick[i] is 1. */
void wheel_of_grid(struct wheel *wheel, const uint8_t *pick, uint64_t n, uint64_t v, uint64_t loss);

/* Rule 2 at p/q, in units of 1/q. */
uint64_t supply_at(const struct wheel *wheel, uint64_t D, uint64_t q, uint64_t p);
/* The margin at p/q, in units of 1/q: supply minus need, below zero where rule 3 drops. */
int64_t margin_at(const struct wheel *wheel, const struct strips *strips, uint64_t q, uint64_t p);
/* Rule 4 at p/q. */
uint32_t count_at(const struct wheel *wheel, const struct strips *strips, uint64_t q, uint64_t p);
/* Rules 6 and 7, the least margin, and where strips drop; what shows that it isn't firm for up to STRIPS_MAX strips. */
struct verdict verdict_of(const struct wheel *wheel, const struct strips *strips);

/* The calls. A judged reply is written as the archive should write it; other results are packed, the refusal number in the high half. */
uint32_t definition_judge(const uint8_t *task, size_t task_len, const uint8_t *slots, size_t slots_len,
                          uint8_t *reply, size_t reply_len, struct verdict *verdict);
/* 1 for firm, 0 for not, without a reply; the verdict of a refused task is all zero. */
uint64_t definition_quick(const uint8_t *task, size_t task_len, const uint8_t *slots, size_t slots_len,
                          struct verdict *verdict);
uint64_t definition_count(const uint8_t *task, size_t task_len, const uint8_t *slots, size_t slots_len,
                          uint64_t offset);
/*
 * The calls by whole rounds: judging and counting with another bound for 9. Here nothing is known of rounds: each strip
 * is looked up among the drops of one turn's half ticks.
 */
uint32_t definition_rounds_judge(const uint8_t *task, size_t task_len, const uint8_t *slots, size_t slots_len,
                                 uint8_t *reply, size_t reply_len, struct verdict *verdict);
uint64_t definition_rounds_count(const uint8_t *task, size_t task_len, const uint8_t *slots, size_t slots_len,
                                 uint64_t offset);
/* The place of the first bad slot beside 15 to 18; the strips aren't looked at. */
uint64_t definition_which_slot(const uint8_t *task, size_t task_len, const uint8_t *slots, size_t slots_len);
uint64_t definition_supply(const uint8_t *task, size_t task_len, const uint8_t *slots, size_t slots_len,
                           uint64_t offset);
/* Signed, in two's complement. */
uint64_t definition_margin(const uint8_t *task, size_t task_len, const uint8_t *slots, size_t slots_len,
                           uint64_t offset);
/* 1 for dropped, 0 for not, from the supply alone. */
uint64_t definition_drop_test(const uint8_t *task, size_t task_len, const uint8_t *slots, size_t slots_len,
                              uint64_t offset);
/* Every record of a site by itself; what the records' own verdicts are, the reply tells. */
uint32_t definition_site(const uint8_t *tasks, size_t tasks_len, const uint8_t *slots, size_t slots_len,
                         uint8_t *reply, size_t reply_len);
uint64_t definition_grant(uint8_t *marks, size_t n, uint64_t v, uint64_t loss, const struct strips *strips);

/* Where the first whole record with the id begins, in the site file before the factory file; NULL where neither has it. */
const uint8_t *definition_lookup(const uint8_t *site, size_t site_len, const uint8_t *factory, size_t factory_len,
                                 uint32_t id);

/* Refusal 13 word for word: is any set of the free slots firm? For few free slots. */
bool some_set_is_firm(const uint8_t *marks, size_t n, uint64_t v, uint64_t loss, const struct strips *strips);

#endif
