/* Seeded inputs for the second program: one call each, good, at a bound or damaged; and pairs of boards. */
#ifndef INPUTS_H
#define INPUTS_H

#include "definition.h"

/*
 * Where a task is judged, the verdict alone is asked for as well; where a count is asked for, so are the supply and the
 * margin at the same half tick. Both are asked for by whole rounds, too.
 */
enum kind { JUDGE, COUNT, GRANT, SITE, WHICH, KINDS };

enum {
    TASK_ROOM = 64,
    SLOT_RECORDS_MAX = 131072, /* first + count can reach 131,070 */
    SLOTS_ROOM = SLOT_RECORDS_MAX * SLOT_BYTES,
    REPLY_ROOM = 64,
    SITE_RECORDS_MAX = 12,
    SITE_TASKS_ROOM = SITE_RECORDS_MAX * TASK_BYTES + TASK_BYTES,
    SITE_REPLY_ROOM = SITE_RECORDS_MAX * ANSWER_BYTES + REPLY_ROOM,
    MARKS_ROOM = 300
};

struct input {
    enum kind kind;
    bool null_when_empty; /* hand over NULL for a buffer of length 0 */
    size_t task_len, slots_len, reply_len, marks_len;
    uint8_t task[SITE_TASKS_ROOM], reply[SITE_REPLY_ROOM]; /* one record and its answer, or a whole site's */
    uint8_t marks[MARKS_ROOM];
    uint8_t *slots; /* SLOTS_ROOM bytes, the caller's */
    uint64_t offset; /* of a count, a supply and a margin; also where which slot is compared with them */
    uint64_t v, loss;
    struct strips strips; /* a grant's e, d, h, m, k */
};

/* Wheels at which the judge takes larger arrays, and the half of the largest, each with one less and one more. */
enum { WHEEL_EDGES = 14 };
extern const uint32_t wheel_edges[WHEEL_EDGES];

/*
 * What must be asked of each of them, and met with drops or granted slots; behind these, among a site's records; and
 * judged with as many drops as may be, and with one more.
 */
enum edge_use {
    EDGE_FEW,
    EDGE_SOME,
    EDGE_MANY,
    EDGE_MOST_SOME,
    EDGE_MOST_MANY,
    EDGE_COUNT,
    EDGE_GRANT,
    EDGE_SITE,
    EDGE_SITE_MANY,
    EDGE_FIRM,
    EDGE_NOT_FIRM,
    EDGE_USES
};

/* The use of a judged task, by its strips and how many slots it owns; EDGE_USES for none. */
enum edge_use edge_use_of(const struct task *task, uint32_t owned);
/* The same of one that is judged in a site. */
enum edge_use site_edge_use_of(const struct task *task);

/* The owner of a slot record, and how many slots of a board are its task's. */
uint32_t owner_at(const uint8_t *slots, size_t record);
uint32_t owned_slots(const struct task *task, const uint8_t *slots);

/* Of two numbers above 0; a period that has one of d with a wheel of w ticks brings a strip back after w / d strips. */
uint32_t common_divisor(uint32_t a, uint32_t b);

/* What one may get wrong about a good board: whose the slots are, and which of them lose ticks to the switch. */
enum mistake {
    ALL_OWN,           /* every slot is the task's */
    NOTHING_LOST,      /* no slot loses a tick */
    TOUCHING_LOSES,    /* a slot loses whatever it touches */
    ROUND_LOSES,       /* a slot at tick 0 that doesn't fill the wheel loses, also where one of its owner's ends at w */
    FILLING_LOSES,     /* a slot that fills the wheel loses */
    LOST_BEFORE_LOSES, /* a slot loses behind one of its owner's that gives no tick */
    OTHERS_TOUCH,      /* a slot loses nothing behind another owner's */
    OUTSIDERS_TOUCH,   /* a slot loses nothing behind one of its owner's that stands right beside the part */
    LOW_BYTE_LOST,     /* a loss is its lower byte */
    HIGH_BYTE_LOST,    /* a loss is what its upper byte stands for */
    MISTAKES
};

/* The wheel of a task as one would have it who makes the mistake: where that tells, the rule does. */
void wheel_with(struct wheel *wheel, enum mistake mistake, const struct task *task, const uint8_t *slots,
                size_t slots_len);
/* The supply there at a half tick, in half ticks. */
uint64_t supply_with(enum mistake mistake, const struct task *task, const uint8_t *slots, size_t slots_len,
                     uint64_t offset);

/* A supply that would be another, for each mistake about losses in their order: classes of both tallies. */
#define LOST_SUPPLIES(X)                                                                                               \
    X(LOSS_SUPPLY, "supply: more if nothing were lost")                                                                \
    X(TOUCH_SUPPLY, "supply: less if slots lost whatever they touch")                                                  \
    X(ROUND_SUPPLY, "supply: less if a slot at 0 lost, though one of the task's ends at w")                            \
    X(FILL_SUPPLY, "supply: less if a slot that fills the wheel lost")                                                 \
    X(LOST_BEFORE_SUPPLY, "supply: less if a slot lost behind one of the task's that gives no tick")                   \
    X(OTHERS_SUPPLY, "supply: more if a slot lost nothing behind another owner's")                                     \
    X(OUTSIDE_SUPPLY, "supply: more if a slot lost nothing behind one outside the board")                              \
    X(LOW_BYTE_SUPPLY, "supply: more by the lower bytes of the losses")                                                \
    X(HIGH_BYTE_SUPPLY, "supply: more by the upper bytes of the losses")

struct rng {
    uint64_t state;
};

/* How many inputs, or their seed, as `program` was given it; what isn't a number ends the program. */
uint64_t number_argument(const char *program, const char *text);

/* Every input has its own row of random numbers, so a failure can be made again alone. */
struct rng rng_for(uint64_t seed, uint64_t number);
uint64_t below(struct rng *rng, uint64_t n);

/* Makes input `number` of `seed`; input->slots must point at SLOTS_ROOM bytes. */
void make_input(struct input *input, struct rng *rng, uint64_t number);

/* Whether a pair stands at that number. */
bool is_pair(uint64_t number);
/*
 * Makes two task records that differ in first and count alone, on two slot buffers. Both boards are good and have the
 * same slots for the task's id; the others' slots are as they come. Offset and reply are the same. Both inputs' slots
 * must point at SLOTS_ROOM bytes each; `kind` is left to the caller.
 */
void make_pair(struct input *one, struct input *other, struct rng *rng);

#endif
