/* Classes are told from the input and the expected outcome, never from what the maker meant; see tally.h. */
#include "tally.h"

#include <inttypes.h>
#include <stdio.h>
#include <stdlib.h>
#include <string.h>

static void note(struct tally *tally, enum input_class which, bool met)
{
    tally->met[which] += met;
}

static uint32_t number_of(enum kind kind, uint64_t result)
{
    return (uint32_t)(kind == JUDGE || kind == SITE ? result : result >> 32);
}

/* Above 32 bits, yet inside the bounds for one who looks at the low 32 only. */
static bool wide(uint64_t value, uint64_t least, uint64_t most)
{
    uint64_t low = value & UINT32_MAX;
    return value > UINT32_MAX && low >= least && low <= most;
}

static void note_edge(struct tally *tally, uint64_t w, enum edge_use use, bool met)
{
    for (size_t i = 0; i < WHEEL_EDGES && use < EDGE_USES; i++)
        tally->edges[i][use] += met && w == wheel_edges[i];
}

static uint32_t start_of(const struct input *input, size_t record)
{
    return get_number(input->slots + record * SLOT_BYTES, 4);
}

static uint32_t end_of(const struct input *input, size_t record)
{
    return get_number(input->slots + record * SLOT_BYTES + 4, 4);
}

static uint32_t loss_of(const struct input *input, size_t record)
{
    return get_number(input->slots + record * SLOT_BYTES + LOSS_AT, 2);
}

/* 0 where the start isn't below the end. */
static uint32_t length_of(const struct input *input, size_t record)
{
    const uint32_t start = start_of(input, record), end = end_of(input, record);
    return start < end ? end - start : 0;
}

static bool owns(const struct task *task, const struct input *input, size_t record)
{
    return owner_at(input->slots, record) == task->id;
}

/* ---- the first bad slot ---- */

static bool about_slot(uint32_t number)
{
    return number >= ABOUT_SLOT && number < ABOUT_SLOT + SLOT_NUMBERS;
}

/* Refusal 17 by whom the slot and the one before it belong to. */
static void add_early(struct tally *tally, const struct task *task, const struct input *input, uint32_t place)
{
    const size_t record = task->first + place;
    const bool own = owns(task, input, record), own_before = owns(task, input, record - 1);
    size_t last = record;
    while (last > task->first && !owns(task, input, last - 1))
        last--;
    bool fits_own = last > task->first && start_of(input, record) >= end_of(input, last - 1);
    bool third = owner_at(input->slots, record) != owner_at(input->slots, record - 1);
    note(tally, EARLY_OWN, own && !own_before && fits_own);
    note(tally, EARLY_OTHER, !own && own_before);
    note(tally, EARLY_THIRD, !own && !own_before && third);
}

/* Whether a slot starts where one of its owner's ends on the wheel; a slot that fills it touches itself. */
static bool touches_own(const struct task *task, const struct input *input, size_t record)
{
    for (size_t i = task->first; i < task->first + task->count; i++)
        if (owner_at(input->slots, i) == owner_at(input->slots, record) &&
            end_of(input, i) % task->w == start_of(input, record))
            return true;
    return false;
}

/* Refusal 18 by how much too long the loss is; what the slot touches plays no part. */
static void add_long_loss(struct tally *tally, const struct task *task, const struct input *input, uint32_t place)
{
    const size_t record = task->first + place;
    const uint32_t loss = loss_of(input, record), length = length_of(input, record), low = loss % 256;
    note(tally, LOSS_OVER, loss == length + 1);
    note(tally, LOSS_SHORT, loss < 256);
    note(tally, LOSS_WHOLE_BYTES, low == 0);
    note(tally, LOSS_LOW, low > 0 && low <= length);
    note(tally, LOSS_WIDE, loss == LOSS_MAX);
    note(tally, LOSS_TOUCHING, touches_own(task, input, record) && length < task->w);
    note(tally, LOSS_FILLING, length == task->w);
}

/* The task has slots, and nothing is wrong with them. */
static bool own_slots_do(const struct task *task, const struct input *input)
{
    uint32_t owned = 0;
    for (uint32_t place = 0; place < task->count; place++) {
        if (!owns(task, input, task->first + place))
            continue;
        if (refusal_of_slot(task, input->slots, place) != 0)
            return false;
        owned++;
    }
    return owned > 0;
}

/* The first bad slot of a record, if one is refused. */
static void note_bad_slot(struct tally *tally, enum kind kind, const uint8_t *bytes, const struct input *input)
{
    const uint64_t which = definition_which_slot(bytes, TASK_BYTES, input->slots, input->slots_len);
    const uint32_t number = (uint32_t)(which >> 32), place = (uint32_t)which;
    if (!about_slot(number))
        return;
    struct task task = task_of_bytes(bytes);
    const bool last = place + 1 == task.count;
    uint64_t *met = tally->bad_slots[kind][number - ABOUT_SLOT];
    met[place == 0 ? FIRST_PLACE : last ? LAST_PLACE : MIDDLE_PLACE]++;
    met[owns(&task, input, task.first + place) ? OWN_SLOT : OTHERS_SLOT]++;
    if (number == 17)
        add_early(tally, &task, input, place);
    if (number == 18)
        add_long_loss(tally, &task, input, place);
    note(tally, BAD_OTHERS, own_slots_do(&task, input));
}

/* ---- good boards ---- */

/* What a good board is like for its task. */
struct board {
    uint32_t owned, others;       /* slots */
    uint32_t owned_ticks, ticks;  /* of the task's slots, and of all */
    uint32_t usable;              /* ticks that the task's slots give it */
    bool touching, touches_other; /* slots of the task's each other, and one of them another owner's */
    bool between;                 /* another owner's slot lies between two of the task's */
    bool losses, others_losses;   /* a slot of the task's has one, and another owner's */
    bool whole_loss;              /* some slot's is as long as the slot */
    bool low, high;               /* another owner has the id's lower byte, or its upper one */
};

static uint32_t usable_ticks(const struct task *task, const struct input *input)
{
    struct wheel wheel;
    uint32_t sum = 0;
    wheel_of_task(&wheel, task, input->slots);
    for (uint32_t tick = 0; tick < task->w; tick++)
        sum += wheel.usable[tick];
    return sum;
}

static struct board board_of(const struct task *task, const struct input *input)
{
    struct board board = {.usable = usable_ticks(task, input)};
    uint32_t others_then = 0; /* when the task's last slot was met */
    for (size_t i = task->first; i < task->first + task->count; i++) {
        const uint32_t owner = owner_at(input->slots, i), ticks = length_of(input, i), loss = loss_of(input, i);
        const bool own = owner == task->id;
        if (i > task->first && start_of(input, i) == end_of(input, i - 1)) {
            board.touching |= own && owns(task, input, i - 1);
            board.touches_other |= own != owns(task, input, i - 1);
        }
        if (own) {
            board.between |= board.owned > 0 && board.others > others_then;
            others_then = board.others;
        }
        board.owned += own;
        board.others += !own;
        board.owned_ticks += own ? ticks : 0;
        board.ticks += ticks;
        board.low |= !own && owner % 256 == task->id % 256;
        board.high |= !own && owner / 256 == task->id / 256;
        board.losses |= own && loss > 0;
        board.others_losses |= !own && loss > 0;
        board.whole_loss |= loss == ticks;
    }
    return board;
}

/* A record that would be a good slot on a wheel, and the task's. */
static bool fits_task(const struct task *task, const struct input *input, size_t record)
{
    return start_of(input, record) < end_of(input, record) && end_of(input, record) <= task->w &&
           loss_of(input, record) <= length_of(input, record) && owns(task, input, record);
}

/* Slots with the task's id just outside its board: they aren't the task's. */
static void add_outsiders(struct tally *tally, const struct task *task, const struct input *input)
{
    const size_t first = task->first, behind = first + task->count;
    const bool bare = task->count == 0;
    bool before = first > 0 && fits_task(task, input, first - 1) &&
                  (bare || end_of(input, first - 1) <= start_of(input, first));
    bool after = behind < input->slots_len / SLOT_BYTES && fits_task(task, input, behind) &&
                 (bare || end_of(input, behind - 1) <= start_of(input, behind));
    note(tally, OUTSIDE_BEFORE, before);
    note(tally, OUTSIDE_BEHIND, after);
}

static void add_owners(struct tally *tally, const struct task *task, const struct board *board)
{
    const bool shared = board->owned > 0 && board->others > 0;
    note(tally, OWNER_ALONE, board->owned > 1 && board->others == 0);
    note(tally, OWNER_NONE, board->owned == 0 && board->others > 0);
    note(tally, OWNER_BETWEEN, board->between);
    note(tally, OWNER_LOW, board->low);
    note(tally, OWNER_HIGH, board->high);
    note(tally, OWNER_0, shared && task->id == 0);
    note(tally, OWNER_65535, shared && task->id == ID_MAX);
}

/* ---- lost ticks ---- */

/* Answers and supplies stand in the order of the mistakes that would show in them. */
_Static_assert(HIGH_BYTE_ANSWER - LOSS_ANSWER == HIGH_BYTE_LOST - NOTHING_LOST &&
                   HIGH_BYTE_SUPPLY - LOSS_SUPPLY == HIGH_BYTE_LOST - NOTHING_LOST,
               "a mistake about losses without its classes");

static enum input_class lost_class(enum input_class of_nothing_lost, enum mistake mistake)
{
    return (enum input_class)(of_nothing_lost + mistake - NOTHING_LOST);
}

/* Makes the wheel with the mistake, and says whether it is another one. */
static bool tells(struct wheel *wrong, enum mistake mistake, const struct task *task, const struct input *input)
{
    struct wheel right;
    wheel_of_task(&right, task, input->slots);
    wheel_with(wrong, mistake, task, input->slots, input->slots_len);
    return memcmp(wrong->usable, right.usable, task->w) != 0;
}

static bool loses_ticks(const struct task *task, const struct input *input)
{
    struct wheel unused;
    return tells(&unused, NOTHING_LOST, task, input);
}

/* Whether more verdicts can be afforded than the one that is due. */
static bool is_cheap(const struct strips *strips, uint64_t w)
{
    static const uint64_t cells = 400000;
    return 2 * w * (2 * strips->D + strips->k) <= cells;
}

static bool same_answer(const struct verdict *one, const struct verdict *other)
{
    return one->worst == other->worst && one->offset == other->offset && one->firm == other->firm &&
           one->least.sixths == other->least.sixths;
}

static void add_lost(struct tally *tally, const struct task *task, const struct input *input,
                     const struct verdict *right)
{
    struct strips strips = strips_of_task(task);
    struct wheel wheel;
    for (enum mistake mistake = NOTHING_LOST; mistake < MISTAKES && is_cheap(&strips, task->w); mistake++) {
        if (!tells(&wheel, mistake, task, input))
            continue;
        const struct verdict wrong = verdict_of(&wheel, &strips);
        const bool nothing = mistake == NOTHING_LOST, touching = mistake == TOUCHING_LOSES;
        note(tally, lost_class(LOSS_ANSWER, mistake), !same_answer(&wrong, right));
        note(tally, LOSS_WORST, nothing && wrong.worst < right->worst);
        note(tally, LOSS_FIRM, nothing && wrong.firm && !right->firm);
        note(tally, LOSS_LEAST, nothing && wrong.least.sixths > right->least.sixths);
        note(tally, TOUCH_WORST, touching && wrong.worst > right->worst);
        note(tally, TOUCH_FIRM, touching && !wrong.firm && right->firm);
        note(tally, TOUCH_LEAST, touching && wrong.least.sixths < right->least.sixths);
    }
}

static uint64_t supply_for(enum mistake mistake, const struct task *task, const struct input *input)
{
    return supply_with(mistake, task, input->slots, input->slots_len, input->offset);
}

static void add_lost_supply(struct tally *tally, const struct task *task, const struct input *input, uint64_t supply)
{
    for (enum mistake mistake = NOTHING_LOST; mistake < MISTAKES; mistake++)
        note(tally, lost_class(LOSS_SUPPLY, mistake), supply_for(mistake, task, input) != supply);
}

/* The losses of a good board; the slots whose first tick isn't the task's are those that lose some. */
static void add_losses(struct tally *tally, const struct task *task, const struct input *input)
{
    const size_t first = task->first, last = first + task->count - 1;
    const uint32_t w = task->w, last_end = end_of(input, last);
    const bool own_last = owns(task, input, last);
    bool whole = false, but_one = false, touching = false, others = false, bytes = false, round = false;
    struct wheel wheel;
    wheel_of_task(&wheel, task, input->slots);
    for (size_t i = first; i <= last; i++) {
        const uint32_t start = start_of(input, i), length = length_of(input, i), loss = loss_of(input, i);
        const bool own = owns(task, input, i), loses = own && loss > 0 && wheel.usable[start] == 0;
        whole |= loses && loss == length;
        but_one |= loses && loss + 1 == length;
        touching |= own && !loses && loss == length;
        others |= !own && loss == length;
        bytes |= loses && loss % 256 == 0;
        round |= loses && start == 0;
    }
    note(tally, LOSS_WHOLE, whole);
    note(tally, LOSS_ALL_BUT_ONE, but_one);
    note(tally, LOSS_EVERY, whole && memchr(wheel.usable, 1, w) == NULL);
    note(tally, LOSS_WHOLE_TOUCHING, touching);
    note(tally, LOSS_OTHERS_WHOLE, others);
    note(tally, LOSS_256, bytes);
    note(tally, LOSS_ROUND_BELOW, round && own_last && last_end + 1 == w);
    note(tally, LOSS_ROUND_OTHER, round && !own_last && last_end == w);
}

/* ---- tasks ---- */

static void add_table(struct tally *tally, const struct task *task, const struct input *input,
                      const struct board *board)
{
    note(tally, NO_SLOTS, task->count == 0);
    note(tally, NULL_SLOTS, input->slots_len == 0 && input->null_when_empty);
    note(tally, TOUCHING, board->touching);
    note(tally, TOUCHING_OTHER, board->touches_other);
    note(tally, FULL_WHEEL, board->owned_ticks == task->w);
    note(tally, FULL_BOARD, board->ticks == task->w && board->owned_ticks < task->w);
    note(tally, RECORDS_64, task->count == GRANT_SLOTS_MAX);
    note(tally, RECORDS_65, task->count == GRANT_SLOTS_MAX + 1);
    note(tally, RECORDS_511, task->count == SLOTS_MAX - 1);
    note(tally, RECORDS_512, task->count == SLOTS_MAX);
    note(tally, LAST_RECORDS, task->first > 0 && task->count > 0 &&
                                  task->first + task->count == input->slots_len / SLOT_BYTES);
    note(tally, LAST_FIRST, task->first == 65535 && task->count > 0);
    note(tally, LOSS_OTHERS, board->others_losses && board->owned > 0 && !board->losses);
    if (board->losses || board->others_losses)
        add_losses(tally, task, input);
    add_owners(tally, task, board);
    add_outsiders(tally, task, input);
}

static void add_accepted(struct tally *tally, const struct task *task)
{
    note(tally, LONG_DEADLINE, task->D > task->w);
    note(tally, WHOLE_TURNS, task->h % task->w == 0 && task->w > 1);
    note(tally, NEED_OVER_D, task->e > task->D);
    note(tally, LEAST_WHEEL, task->w == 1);
    note(tally, MOST_NEED, task->e == NEED_MAX);
    note(tally, MOST_PERIOD, task->h == PERIOD_MAX);
    note(tally, MOST_DEADLINE, task->D == PERIOD_MAX);
    note(tally, MOST_STRIPS, task->k == STRIPS_MAX);
    note(tally, ALL_PAINTED, task->m == task->k);
    note(tally, NONE_PAINTED, task->m == 0);
}

/* What whole turns and a rest of the deadline have to do with the need. */
struct turns {
    bool give, lack; /* the turns alone give more than e; with a full rest they would lack some of it */
};

static struct turns turns_of(const struct task *task, const struct board *board)
{
    uint64_t rest = task->D % task->w, turns = (uint64_t)(task->D / task->w) * board->usable;
    bool both = turns > 0 && rest > 0;
    return (struct turns){both && turns > task->e, both && turns + rest < task->e};
}

static void add_least(struct tally *tally, const struct task *task, const struct board *board,
                      const struct verdict *verdict)
{
    const int64_t margin = verdict->least.sixths / 6;
    const bool lone = verdict->least.ticks == 1 && !verdict->least.shared;
    struct turns turns = turns_of(task, board);
    note(tally, LEAST_BELOW, margin < 0);
    note(tally, LEAST_ZERO, margin == 0);
    note(tally, LEAST_ABOVE, margin > 0);
    note(tally, LEAST_LONE_BELOW, lone && margin < 0);
    note(tally, LEAST_LONE_ZERO, lone && margin == 0);
    note(tally, LEAST_LONE_ABOVE, lone && margin > 0);
    note(tally, LEAST_WIDE_BELOW, margin < -65536);
    note(tally, LEAST_WIDE_ABOVE, margin > 65535);
    note(tally, LEAST_IN_TURNS, turns.give);
    note(tally, LEAST_PAST_TURNS, turns.lack);
    note(tally, LEAST_OVER_D, task->e > task->D + 1);
    note(tally, LEAST_FIRM, verdict->firm && margin < 0);
}

/* What the answer would be if every slot were the task's. */
static void add_shared(struct tally *tally, const struct task *task, const struct input *input,
                       const struct verdict *verdict)
{
    const uint64_t first = verdict->least.first;
    struct strips strips = strips_of_task(task);
    struct wheel own, all;
    wheel_of_task(&own, task, input->slots);
    wheel_with(&all, ALL_OWN, task, input->slots, input->slots_len);
    note(tally, SHARED_DROPS, verdict->worst > 0 && verdict->worst < task->k);
    note(tally, SHARED_WORST, margin_at(&own, &strips, 2, verdict->offset) < 0 &&
                                  margin_at(&all, &strips, 2, verdict->offset) >= 0);
    note(tally, SHARED_LEAST, margin_at(&own, &strips, 1, first) < margin_at(&all, &strips, 1, first));
}

/* A strip more would turn the one verdict, a strip less the other: what the wheel and its drops are like then. */
static void add_hanging(struct tally *tally, const struct task *task, const struct verdict *verdict)
{
    const struct late *late = &verdict->late;
    const uint32_t worst = verdict->worst, may = task->k - task->m, divisor = common_divisor(task->w, task->h);
    const bool some = worst < task->k, not_every = late->ticks < task->w;
    const bool sparse = task->k > 1 && late->runs > 1 && task->k * late->runs * late->runs <= task->w / 128;
    const struct {
        enum input_class firm, not_firm;
        bool met;
    } classes[] = {
        {QUICK_ZERO_FIRM, QUICK_ZERO_NOT, verdict->offset == 0},
        {QUICK_ONE_FIRM, QUICK_ONE_NOT, task->k == 1},
        {QUICK_MOST_FIRM, QUICK_MOST_NOT, task->k == STRIPS_MAX && some},
        {QUICK_WIDE_FIRM, QUICK_WIDE_NOT, worst > 255 && some},
        {QUICK_RUN_FIRM, QUICK_RUN_NOT, late->runs == 1},
        {QUICK_SPARSE_FIRM, QUICK_SPARSE_NOT, sparse && task->k * late->ticks <= may * task->w},
        {QUICK_RUNS_FIRM, QUICK_RUNS_NOT, late->runs > GRANT_SLOTS_MAX},
        {QUICK_END_FIRM, QUICK_END_NOT, late->over_end && not_every},
        {QUICK_DIVISOR_FIRM, QUICK_DIVISOR_NOT, divisor > 1 && divisor < task->w && some},
        {QUICK_TURNS_FIRM, QUICK_TURNS_NOT, divisor > 1 && divisor == task->w && not_every},
    };
    for (size_t i = 0; i < sizeof classes / sizeof *classes; i++) {
        note(tally, classes[i].firm, classes[i].met && worst > 0 && worst == may);
        note(tally, classes[i].not_firm, classes[i].met && worst == may + 1);
    }
    note(tally, QUICK_255, may == 255 && worst == 256);
    note_edge(tally, task->w, EDGE_FIRM, worst > 0 && worst == may);
    note_edge(tally, task->w, EDGE_NOT_FIRM, worst == may + 1);
}

/*
 * The counts from half a tick after each tick add up to k times the late ticks. If they are more than w times what may
 * drop, so is one of them; if they aren't, nothing is known.
 */
static void add_average(struct tally *tally, const struct task *task, const struct verdict *verdict)
{
    const uint32_t w = task->w, ticks = verdict->late.ticks;
    const uint32_t counts = task->k * ticks, may = (task->k - task->m) * w; /* at most 1,024 x 16,384 */
    const bool some = ticks > 0 && ticks < w, below = some && counts < may && counts + w >= may;
    note(tally, QUICK_BELOW_FIRM, below && verdict->firm);
    note(tally, QUICK_BELOW_NOT, below && !verdict->firm);
    note(tally, QUICK_EQUAL_FIRM, some && counts == may && verdict->firm);
    note(tally, QUICK_EQUAL_NOT, some && counts == may && !verdict->firm);
    note(tally, QUICK_ABOVE_NOT, some && counts > may && counts <= may + w);
}

/* Of a table that isn't firm: which late runs, and which strips at their starts, lead to offsets that show it. */
static void add_showing(struct tally *tally, const struct task *task, const struct late *late)
{
    const bool alone = late->showing == 1 && late->runs > 1;
    const bool first = late->last_showing == 0, last = late->last_showing + 1 == late->runs;
    note(tally, QUICK_FIRST_SHOWS, alone && first);
    note(tally, QUICK_MIDDLE_SHOWS, alone && !first && !last);
    note(tally, QUICK_LAST_SHOWS, alone && last);
    note(tally, QUICK_END_SHOWS, alone && last && late->over_end);
    note(tally, QUICK_PAST_64, alone && !last && late->last_showing >= GRANT_SLOTS_MAX);
    note(tally, QUICK_START_SHOWS, late->showing > 0 && task->k > 1 && late->most_n == 0);
    note(tally, QUICK_FINISH_SHOWS, late->showing > 0 && task->k > 1 && late->least_n == task->k - 1);
}

static void add_quick(struct tally *tally, const struct task *task, const struct verdict *verdict)
{
    const struct late *late = &verdict->late;
    const bool every = late->whole == task->w, between = late->ticks == task->w;
    note(tally, QUICK_M_0, task->m == 0 && verdict->worst == task->k && !between);
    note(tally, QUICK_ALL_FIRM, verdict->firm && every);
    note(tally, QUICK_ALL_NOT, !verdict->firm && every);
    note(tally, QUICK_BETWEEN_NOT, !verdict->firm && between && !every);
    note(tally, QUICK_PAINTED_FIRM, verdict->firm && task->m == task->k);
    note(tally, QUICK_PAINTED_NOT, verdict->worst == 1 && task->m == task->k);
    note(tally, QUICK_ONE_PAINTED, verdict->firm && task->k == 1 && task->m == 1);
    add_hanging(tally, task, verdict);
    add_average(tally, task, verdict);
    if (!verdict->firm)
        add_showing(tally, task, late);
}

static void add_judged(struct tally *tally, const struct task *task, const struct input *input,
                       const struct board *board, const struct verdict *verdict)
{
    bool some = verdict->worst > 0 && verdict->worst < task->k, loses = board->losses && loses_ticks(task, input);
    note(tally, DROPS_NONE, verdict->worst == 0);
    note(tally, DROPPED, verdict->worst > 0);
    note(tally, DROPS_SOME, some);
    note(tally, DROPS_ALL, verdict->worst == task->k);
    note(tally, WORST_ODD, verdict->offset % 2 == 1);
    note(tally, WORST_ZERO, verdict->worst > 0 && verdict->offset == 0);
    note(tally, FIRM, verdict->firm);
    note(tally, NOT_FIRM, !verdict->firm);
    note(tally, AT_ALLOWANCE, verdict->worst > 0 && verdict->worst == task->k - task->m);
    note(tally, PAST_ALLOWANCE, verdict->worst == task->k - task->m + 1);
    note(tally, EQUAL_SUPPLY, verdict->equal_supply);
    note(tally, WIDE_COUNT, verdict->worst > 255 && some);
    note(tally, COUNT_256, verdict->worst == 256);
    note(tally, EXACT_REPLY, input->reply_len == ANSWER_BYTES);
    note(tally, LONG_REPLY, input->reply_len == ANSWER_BYTES + 1);
    note(tally, LARGE_WHEEL, task->w > WHEEL_MAX / 2 && some);
    note(tally, MANY_STRIPS, task->k > STRIPS_MAX / 2 && some);
    note(tally, OWNED_65, board->owned > GRANT_SLOTS_MAX && verdict->worst > 0);
    note(tally, OWNED_512, board->owned == SLOTS_MAX && verdict->worst > 0);
    note(tally, LOSS_MANY, some && board->owned > GRANT_SLOTS_MAX && loses);
    note(tally, QUICK_LOSS_FIRM, verdict->worst > 0 && verdict->worst == task->k - task->m && loses);
    note(tally, QUICK_LOSS_NOT, verdict->worst == task->k - task->m + 1 && loses);
    note_edge(tally, task->w, edge_use_of(task, board->owned), verdict->worst > 0);
    add_least(tally, task, board, verdict);
    add_quick(tally, task, verdict);
    if (board->losses)
        add_lost(tally, task, input, verdict);
    if (board->owned > 0 && board->others > 0)
        add_shared(tally, task, input, verdict);
}

static void add_counted(struct tally *tally, const struct task *task, const struct input *input,
                        const struct board *board, uint64_t count)
{
    bool some = count > 0 && count < task->k;
    note(tally, COUNTED_SOME, some);
    note(tally, COUNTED_FEW, some && task->k < task->w);
    note(tally, COUNTED_TURN, some && task->k == task->w);
    note(tally, COUNTED_TURNS, some && task->k > task->w && task->k % task->w == 0);
    note(tally, COUNTED_OVER, some && task->k > task->w && task->k % task->w != 0);
    note(tally, COUNTED_ODD, count > 0 && input->offset % 2 == 1);
    note(tally, LAST_OFFSET, input->offset + 1 == 2 * (uint64_t)task->w);
    note(tally, SHARED_COUNT, some && board->owned > 0 && board->others > 0);
    note(tally, COUNTED_65, board->owned > GRANT_SLOTS_MAX && count > 0);
    note(tally, COUNTED_512, board->owned == SLOTS_MAX && count > 0);
    note(tally, LOSS_COUNT, some && board->losses && loses_ticks(task, input));
    note_edge(tally, task->w, EDGE_COUNT, count > 0);
}

static void add_point(struct tally *tally, const struct task *task, const struct input *input,
                      const struct board *board, uint64_t supply)
{
    const int64_t margin = (int64_t)supply - 2 * (int64_t)task->e;
    const bool even = input->offset % 2 == 0;
    struct turns turns = turns_of(task, board);
    note(tally, MARGIN_BELOW_EVEN, even && margin < 0);
    note(tally, MARGIN_ZERO_EVEN, even && margin == 0);
    note(tally, MARGIN_ABOVE_EVEN, even && margin > 0);
    note(tally, MARGIN_BELOW_ODD, !even && margin < 0);
    note(tally, MARGIN_ZERO_ODD, !even && margin == 0);
    note(tally, MARGIN_ABOVE_ODD, !even && margin > 0);
    note(tally, MARGIN_JUST_BELOW, margin == -1);
    note(tally, MARGIN_JUST_ABOVE, margin == 1);
    note(tally, MARGIN_WIDE_BELOW, margin < -65536);
    note(tally, MARGIN_IN_TURNS, turns.give);
    note(tally, MARGIN_PAST_TURNS, turns.lack);
    note(tally, MARGIN_OVER_D, task->e > task->D + 1);
    note(tally, SUPPLIED_NONE, supply == 0);
    note(tally, SUPPLIED_FULL, supply == 2 * (uint64_t)task->D);
    note(tally, SUPPLIED_HALF, supply % 2 == 1);
    note(tally, SUPPLIED_WIDE, supply > 65535);
    note(tally, SHARED_SUPPLY, board->others > 0 && supply_for(ALL_OWN, task, input) > supply);
    if (board->losses)
        add_lost_supply(tally, task, input, supply);
}

/* ---- whole rounds ---- */

/* The classes of both calls stand in one order. */
_Static_assert(ROUNDS_JUDGED_PAINTED - ROUNDS_JUDGED_1023 == ROUNDS_COUNTED_PAINTED - ROUNDS_COUNTED_1023,
               "a class of judging by rounds that counting hasn't");

static void note_rounds(struct tally *tally, enum kind kind, enum input_class of_judged, bool met)
{
    note(tally, (enum input_class)(of_judged + (kind == COUNT ? ROUNDS_COUNTED_1023 - ROUNDS_JUDGED_1023 : 0)), met);
}

/* A window cut into rounds, seen from one half tick. */
struct cut_window {
    uint32_t divisor, round, whole, rest;          /* of w and h; strips in a round, rounds, strips over */
    uint32_t round_drops, rest_drops, wheel_drops; /* the last in as many strips as ticks */
    uint32_t beside;                               /* what drops from the tick's other half tick */
    bool place_tells;                              /* a painted strip would drop if its place were cut to 32 bits */
};

/* Rule 4 for the first strips alone. */
static uint32_t drops_of(const struct wheel *wheel, struct strips strips, uint64_t k, uint64_t offset)
{
    strips.k = k;
    return count_at(wheel, &strips, 2, offset);
}

/* Some of the last strips are enough to look at. */
static bool place_tells(const struct wheel *wheel, const struct strips *strips, uint64_t offset)
{
    enum { SOME = 64 };
    for (uint64_t n = strips->k - SOME; n < strips->k; n++) {
        const uint64_t place = offset + 2 * n * strips->h;
        if (place > UINT32_MAX && margin_at(wheel, strips, 2, place) >= 0 &&
            margin_at(wheel, strips, 2, place & UINT32_MAX) < 0)
            return true;
    }
    return false;
}

static struct cut_window cut_window_of(const struct task *task, const struct input *input, uint64_t offset)
{
    const struct strips strips = strips_of_task(task);
    const uint32_t divisor = common_divisor(task->w, task->h), round = task->w / divisor;
    struct cut_window cut = {.divisor = divisor, .round = round, .whole = task->k / round, .rest = task->k % round};
    struct wheel wheel;
    wheel_of_task(&wheel, task, input->slots);
    cut.round_drops = drops_of(&wheel, strips, round, offset);
    cut.rest_drops = drops_of(&wheel, strips, cut.rest, offset);
    cut.wheel_drops = drops_of(&wheel, strips, task->w, offset);
    cut.beside = cut.whole * drops_of(&wheel, strips, round, offset ^ 1) +
                 drops_of(&wheel, strips, cut.rest, offset ^ 1);
    cut.place_tells = place_tells(&wheel, &strips, offset);
    return cut;
}

/* A window that is too long for the first engine. */
static void add_long(struct tally *tally, const struct task *task, const struct input *input, uint64_t offset,
                     uint32_t drops)
{
    const enum kind kind = input->kind;
    const struct cut_window cut = cut_window_of(task, input, offset);
    const struct board board = board_of(task, input);
    const bool some = drops > 0 && drops < task->k, over = cut.whole > 0 && cut.rest > 0, parts = cut.round > 2;
    note_rounds(tally, kind, ROUNDS_JUDGED_1025, some && task->k == STRIPS_MAX + 1);
    note_rounds(tally, kind, ROUNDS_JUDGED_1026, some && task->k == STRIPS_MAX + 2);
    note_rounds(tally, kind, ROUNDS_JUDGED_999999, some && task->k == ROUNDS_STRIPS_MAX - 1);
    note_rounds(tally, kind, ROUNDS_JUDGED_1000000, some && task->k == ROUNDS_STRIPS_MAX);
    note_rounds(tally, kind, ROUNDS_JUDGED_LONG_NO_ROUND, some && cut.whole == 0);
    note_rounds(tally, kind, ROUNDS_JUDGED_LONG_NONE_OVER, some && cut.rest == 0);
    note_rounds(tally, kind, ROUNDS_JUDGED_LONG_SOME_OVER, some && over);
    note_rounds(tally, kind, ROUNDS_JUDGED_ONE_OVER, some && over && parts && cut.rest == 1);
    note_rounds(tally, kind, ROUNDS_JUDGED_ONE_SHORT, some && over && parts && cut.rest + 1 == cut.round);
    note_rounds(tally, kind, ROUNDS_JUDGED_TURNS, drops == task->k && cut.round == 1 && board.usable > 0);
    note_rounds(tally, kind, ROUNDS_JUDGED_COPRIME, some && cut.divisor == 1);
    note_rounds(tally, kind, ROUNDS_JUDGED_DIVISOR, some && cut.divisor > 1 && cut.round > 1);
    note_rounds(tally, kind, ROUNDS_JUDGED_REST_TELLS, cut.whole > 0 && cut.rest_drops > 0);
    note_rounds(tally, kind, ROUNDS_JUDGED_ROUND_TELLS, cut.whole > 0 && cut.round_drops > 0);
    note_rounds(tally, kind, ROUNDS_JUDGED_LENGTH_TELLS, cut.whole > 0 && cut.wheel_drops > cut.round_drops);
    note_rounds(tally, kind, ROUNDS_JUDGED_SIDE_TELLS, cut.beside != drops);
    note_rounds(tally, kind, ROUNDS_JUDGED_PLACE_TELLS, cut.place_tells);
    note_rounds(tally, kind, ROUNDS_JUDGED_PAST_65535, some && drops > 65535);
    note_rounds(tally, kind, ROUNDS_JUDGED_LARGE, some && task->w > WHEEL_MAX / 2);
    note_rounds(tally, kind, ROUNDS_JUDGED_SHARED, some && board.owned > 0 && board.others > 0);
    note_rounds(tally, kind, ROUNDS_JUDGED_LOSS, some && board.losses && loses_ticks(task, input));
}

/* A window that both engines look at. */
static void add_both(struct tally *tally, const struct task *task, enum kind kind, uint32_t drops)
{
    const uint32_t round = task->w / common_divisor(task->w, task->h), rest = task->k % round;
    const bool some = drops > 0 && drops < task->k, whole = task->k >= round;
    note_rounds(tally, kind, ROUNDS_JUDGED_1023, some && task->k == STRIPS_MAX - 1);
    note_rounds(tally, kind, ROUNDS_JUDGED_1024, some && task->k == STRIPS_MAX);
    note_rounds(tally, kind, ROUNDS_JUDGED_NO_ROUND, some && !whole);
    note_rounds(tally, kind, ROUNDS_JUDGED_NONE_OVER, some && rest == 0);
    note_rounds(tally, kind, ROUNDS_JUDGED_SOME_OVER, some && whole && rest > 0);
}

static void add_long_judged(struct tally *tally, const struct task *task, const struct input *input,
                            const struct verdict *verdict)
{
    const uint32_t may = task->k - task->m, worst = verdict->worst, at = verdict->offset;
    const bool some = worst > 0 && worst < task->k;
    note(tally, ROUNDS_FIRM, some && worst == may);
    note(tally, ROUNDS_NOT_FIRM, some && worst == may + 1);
    note(tally, ROUNDS_NONE, worst == 0);
    note(tally, ROUNDS_ALL, verdict->late.whole == task->w);
    note(tally, ROUNDS_ODD, at % 2 == 1);
    note(tally, ROUNDS_ORBIT, at / 2 % common_divisor(task->w, task->h) != 0);
    note(tally, ROUNDS_LONG_REPLY, input->reply_len == ANSWER_BYTES + 1);
}

/* What only one of the bounds of 9 tells: the other refusals are those of the first engine. */
static void add_refused_rounds(struct tally *tally, const struct task *task, const struct input *input,
                               uint32_t number)
{
    const enum kind kind = input->kind;
    const bool is_long = task->k > STRIPS_MAX, too_long = task->k > ROUNDS_STRIPS_MAX;
    note_rounds(tally, kind, ROUNDS_JUDGED_PAST, number == 9 && task->k == ROUNDS_STRIPS_MAX + 1);
    note_rounds(tally, kind, ROUNDS_JUDGED_WIDE, number == 9 && task->k == UINT32_MAX);
    note_rounds(tally, kind, ROUNDS_JUDGED_8_9, number == 8 && too_long);
    note_rounds(tally, kind, ROUNDS_JUDGED_9_10, number == 9 && too_long && task->m > task->k);
    note_rounds(tally, kind, ROUNDS_JUDGED_PAINTED, number == 10 && is_long && task->m == task->k + 1);
    note(tally, ROUNDS_SHORT_REPLY, number == 2 && is_long);
    note(tally, ROUNDS_10_11, number == 10 && kind == COUNT && is_long && input->offset >= 2 * (uint64_t)task->w);
    note(tally, ROUNDS_PAST_OFFSET, number == 11 && is_long && input->offset == 2 * (uint64_t)task->w);
}

static void add_rounds(struct tally *tally, const struct input *input, const struct expected *expected)
{
    const bool judged = input->kind == JUDGE;
    const struct verdict *verdict = &expected->rounds_verdict;
    const uint32_t number = number_of(input->kind, expected->rounds);
    tally->rounds[input->kind][number]++;
    if (number == 1)
        return;
    struct task task = task_of_bytes(input->task);
    const uint32_t drops = judged ? verdict->worst : (uint32_t)expected->rounds;
    const uint64_t offset = judged ? verdict->offset : input->offset;
    if (number != 0) {
        add_refused_rounds(tally, &task, input, number);
    } else if (task.k <= STRIPS_MAX) {
        add_both(tally, &task, input->kind, drops);
    } else {
        add_long(tally, &task, input, offset, drops);
        note(tally, ROUNDS_LAST_OFFSET, !judged && offset + 1 == 2 * (uint64_t)task.w);
        if (judged)
            add_long_judged(tally, &task, input, verdict);
    }
}

/* Slots that would be whole records of eight bytes, but aren't of twelve. */
static bool eights(const struct input *input)
{
    return input->slots_len % 8 == 0 && input->slots_len % SLOT_BYTES != 0;
}

static void add_sizes(struct tally *tally, const struct input *input, uint32_t number)
{
    note(tally, TASK_EMPTY, input->task_len == 0);
    note(tally, TASK_31, input->task_len == TASK_BYTES - 1);
    note(tally, TASK_33, input->task_len == TASK_BYTES + 1);
    note(tally, SLOTS_ODD, input->slots_len % SLOT_BYTES != 0 && input->task_len == TASK_BYTES);
    note(tally, SLOTS_EIGHT, eights(input) && input->task_len == TASK_BYTES);
    note(tally, REPLY_EMPTY, number == 2 && input->reply_len == 0);
    note(tally, REPLY_SHORT, number == 2 && input->reply_len == ANSWER_BYTES - 1);
    note(tally, REPLY_NO_MARGIN, number == 2 && input->reply_len == MARGIN_AT);
}

static uint64_t which_of(const struct task *task, const struct input *input)
{
    uint8_t bytes[TASK_BYTES];
    task_to_bytes(task, bytes);
    return definition_which_slot(bytes, TASK_BYTES, input->slots, input->slots_len);
}

/* Which slot, if the board had no more than its first 512: is it their number alone that is refused? */
static uint64_t which_of_512(const struct task *task, const struct input *input)
{
    struct task less = *task;
    less.count = SLOTS_MAX;
    return which_of(&less, input);
}

/* Whether an id that is cut to 16 bits would own a slot, and the board would be good for it. */
static bool cut_id_would_do(const struct task *task, const struct input *input)
{
    struct task cut = *task;
    cut.id %= ID_MAX + 1;
    return which_of(&cut, input) == 0 && owned_slots(&cut, input->slots) > 0;
}

static bool bad_wheel(const struct task *task)
{
    return task->w == 0 || task->w > WHEEL_MAX;
}

/* Whether one of the records that a task selects, all of which are there, has the number; 0 stands for any. */
static bool some_slot_has(const struct task *task, const struct input *input, uint32_t number)
{
    for (uint32_t place = 0; place < task->count; place++) {
        uint32_t trouble = refusal_of_slot(task, input->slots, place);
        if (trouble != 0 && (number == 0 || trouble == number))
            return true;
    }
    return false;
}

/* What else is wrong with a table beside its task's id: classes of judging and counting, or of which slot. */
static void add_bad_id(struct tally *tally, const struct task *task, const struct input *input, bool which)
{
    note(tally, which ? WHICH_ID_65536 : ID_65536, task->id == ID_MAX + 1);
    note(tally, which ? WHICH_ID_WIDE : ID_WIDE, task->id == UINT32_MAX);
    note(tally, which ? WHICH_ID_LOW : ID_LOW, cut_id_would_do(task, input));
    note(tally, which ? WHICH_19_4 : ORDER_19_4, bad_wheel(task));
    note(tally, which ? WHICH_19_14 : ORDER_19_14, !bad_wheel(task) && task->count > SLOTS_MAX);
    note(tally, which ? WHICH_19_15 : ORDER_19_15,
         !bad_wheel(task) && task->count <= SLOTS_MAX && some_slot_has(task, input, 0));
}

static void add_refused(struct tally *tally, const struct task *task, const struct input *input, uint32_t number)
{
    uint64_t records = input->slots_len / SLOT_BYTES, last = task->first + task->count;
    note(tally, ONE_BEYOND, number == 3 && last == records + 1);
    note(tally, SUM_WIDE, number == 3 && last > 65535 && (last & 65535) <= records);
    note(tally, ONES, number == 3 && task->id == UINT32_MAX && task->w == UINT32_MAX && task->count == 65535);
    note(tally, ORDER_3_19, number == 3 && task->id > ID_MAX);
    note(tally, PAST_WHEEL, number == 4 && task->w == WHEEL_MAX + 1);
    note(tally, COUNT_513, number == 14 && task->count == SLOTS_MAX + 1 && which_of_512(task, input) == 0);
    note(tally, COUNT_WIDE, number == 14 && task->count == 65535);
    note(tally, ORDER_4_6, number == 4 && task->e == 0);
    note(tally, ORDER_14_6, number >= 14 && number <= 17 && task->e == 0);
    note(tally, ORDER_18_6, number == 18 && task->e == 0);
    note(tally, ORDER_19_6, number == 19 && task->e == 0);
    note(tally, PAST_NEED, number == 6 && task->e == NEED_MAX + 1);
    note(tally, PAST_PERIOD, number == 7 && task->h == PERIOD_MAX + 1);
    note(tally, PAST_DEADLINE, number == 8 && task->D == task->h + 1);
    note(tally, PAST_STRIPS, number == 9 && task->k == STRIPS_MAX + 1);
    note(tally, PAST_PAINTED, number == 10 && task->m == task->k + 1);
    note(tally, PAST_OFFSET, number == 11 && input->offset == 2 * (uint64_t)task->w);
    note(tally, WIDE_OFFSET, number == 11 && wide(input->offset, 0, 2 * (uint64_t)task->w - 1));
}

static void add_task(struct tally *tally, const struct input *input, const struct expected *expected, uint32_t number)
{
    if (number == 1 || number == 2) {
        add_sizes(tally, input, number);
        return;
    }
    struct task task = task_of_bytes(input->task);
    if (number != 0) {
        add_refused(tally, &task, input, number);
        note_bad_slot(tally, input->kind, input->task, input);
        if (number == 19)
            add_bad_id(tally, &task, input, false);
        return;
    }
    struct board board = board_of(&task, input);
    add_table(tally, &task, input, &board);
    add_accepted(tally, &task);
    if (input->kind == JUDGE) {
        add_judged(tally, &task, input, &board, &expected->verdict);
    } else {
        add_counted(tally, &task, input, &board, expected->result);
        add_point(tally, &task, input, &board, expected->supply);
    }
}

/* ---- grants ---- */

static uint64_t marks_of(const uint8_t *marks, size_t n, uint8_t least, uint8_t most)
{
    uint64_t found = 0;
    for (size_t i = 0; i < n; i++)
        found += marks[i] >= least && marks[i] <= most;
    return found;
}

static bool granted_past_taken(const uint8_t *marks, size_t n)
{
    bool taken = false;
    for (size_t i = 0; i < n; i++) {
        if (taken && marks[i] == 2)
            return true;
        taken |= marks[i] == 0;
    }
    return false;
}

/*
 * Whether so many of the first free slots are firm for one who makes the mistake. Of the other slots those with the
 * mark are taken for another owner's.
 */
static bool is_firm_with(enum mistake mistake, const struct input *input, uint64_t granted, uint8_t others)
{
    uint8_t slots[GRANT_SLOTS_MAX * SLOT_BYTES];
    struct task task = {.id = 1, .w = (uint32_t)(input->marks_len * input->v)};
    struct wheel wheel;
    for (size_t i = 0; i < input->marks_len; i++) {
        const bool own = input->marks[i] == 1 && granted > 0;
        const uint32_t start = (uint32_t)(i * input->v);
        granted -= own;
        if (!own && input->marks[i] != others)
            continue;
        uint8_t *slot = slots + task.count++ * SLOT_BYTES;
        put_number(slot, start, 4);
        put_number(slot + 4, start + (uint32_t)input->v, 4);
        put_number(slot + OWNER_AT, own, 2);
        put_number(slot + LOSS_AT, (uint32_t)input->loss, 2);
    }
    wheel_with(&wheel, mistake, &task, slots, task.count * SLOT_BYTES);
    return verdict_of(&wheel, &input->strips).firm;
}

/* Where the mistake leaves more ticks, one slot less would do; where it leaves fewer, as many wouldn't. */
static void add_granted_loss(struct tally *tally, const struct input *input, uint64_t granted)
{
    enum { TAKEN, FREE };
    const size_t n = input->marks_len;
    note(tally, GRANT_WHOLE, granted < n && input->loss == input->v);
    note(tally, GRANT_EVERY, granted == n && n > 1);
    if (!is_cheap(&input->strips, n * input->v))
        return;
    note(tally, GRANT_LOSS, is_firm_with(NOTHING_LOST, input, granted - 1, TAKEN));
    note(tally, GRANT_TOUCH, !is_firm_with(TOUCHING_LOSES, input, granted, TAKEN));
    note(tally, GRANT_ROUND, !is_firm_with(ROUND_LOSES, input, granted, TAKEN));
    note(tally, GRANT_FILL, !is_firm_with(FILLING_LOSES, input, granted, TAKEN));
    note(tally, GRANT_LOST_BEFORE, !is_firm_with(LOST_BEFORE_LOSES, input, granted, TAKEN));
    note(tally, GRANT_BEHIND_TAKEN, is_firm_with(OTHERS_TOUCH, input, granted - 1, TAKEN));
    note(tally, GRANT_BEHIND_FREE, is_firm_with(OTHERS_TOUCH, input, granted - 1, FREE));
}

static void add_never_firm(struct tally *tally, const struct input *input, uint64_t free_slots)
{
    const bool looked_at = input->loss > 0 && is_cheap(&input->strips, input->marks_len * input->v);
    note(tally, NEVER_FIRM_FREE, free_slots > 0);
    note(tally, NEVER_FIRM_TAKEN, free_slots == 0);
    note(tally, NEVER_FIRM_LOSS, looked_at && is_firm_with(NOTHING_LOST, input, free_slots, 0));
}

static void add_granted(struct tally *tally, const struct input *input, const struct expected *expected)
{
    uint64_t granted = expected->result, free_slots = marks_of(input->marks, input->marks_len, 1, 1);
    note(tally, GRANT_NONE, granted == 0);
    note(tally, GRANT_SOME, granted > 0 && granted < free_slots);
    note(tally, GRANT_ALL, granted > 0 && granted == free_slots);
    note(tally, GRANT_PAST_TAKEN, granted_past_taken(expected->marks, input->marks_len));
    note(tally, GRANT_64, input->marks_len == GRANT_SLOTS_MAX);
    note(tally, GRANT_16384, input->marks_len * input->v == WHEEL_MAX);
    note(tally, GRANT_LOSS_NONE, granted == 0 && input->loss > 0);
    if (granted > 0 && input->loss > 0)
        add_granted_loss(tally, input, granted);
    note_edge(tally, input->marks_len * input->v, EDGE_GRANT, granted > 0);
}

/* The loss alone is bad. */
static void add_bad_loss(struct tally *tally, const struct input *input)
{
    note(tally, GRANT_LONG_LOSS, input->loss == input->v + 1);
    note(tally, GRANT_LOSS_2_32, input->loss == (uint64_t)UINT32_MAX + 1);
    note(tally, WIDE_LOSS, wide(input->loss, 1, input->v));
    note(tally, GRANT_LOSS_MOST, input->loss == UINT64_MAX);
    note(tally, ORDER_12_6, refusal_of_strips(&input->strips) == 6);
}

static void add_bad_grid(struct tally *tally, const struct input *input)
{
    size_t n = input->marks_len;
    bool small_v = input->v <= WHEEL_MAX;
    note(tally, MARKS_EMPTY, n == 0);
    note(tally, MARKS_65, n == GRANT_SLOTS_MAX + 1 && input->v > 0 && small_v && n * input->v <= WHEEL_MAX);
    note(tally, MARK_2, n <= GRANT_SLOTS_MAX && marks_of(input->marks, n, 2, 2) > 0);
    note(tally, MARK_WIDE, n <= GRANT_SLOTS_MAX && marks_of(input->marks, n, 3, 255) > 0);
    note(tally, GRANT_NO_V, n > 0 && n <= GRANT_SLOTS_MAX && input->v == 0);
    note(tally, GRANT_LONG, n > 0 && n <= GRANT_SLOTS_MAX && small_v && n * input->v > WHEEL_MAX &&
                                n * (input->v - 1) <= WHEEL_MAX);
    note(tally, GRANT_WRAP, n > 0 && n <= GRANT_SLOTS_MAX && !small_v && n * input->v <= WHEEL_MAX);
    note(tally, WIDE_V, n > 0 && n <= GRANT_SLOTS_MAX && wide(input->v, 1, WHEEL_MAX / n));
    if (refusal_of_marks(input->marks, n, input->v, 0) == 0)
        add_bad_loss(tally, input);
}

static void add_grant(struct tally *tally, const struct input *input, const struct expected *expected, uint32_t number)
{
    const struct strips *s = &input->strips;
    uint64_t free_slots = marks_of(input->marks, input->marks_len, 1, 1);
    if (number == 0)
        add_granted(tally, input, expected);
    if (number == 12)
        add_bad_grid(tally, input);
    if (number == 13)
        add_never_firm(tally, input, free_slots);
    note(tally, WIDE_E, number == 6 && wide(s->e, 1, NEED_MAX));
    note(tally, WIDE_H, number == 7 && wide(s->h, 1, PERIOD_MAX));
    note(tally, WIDE_D, number == 8 && wide(s->D, 1, s->h));
    note(tally, WIDE_K, number == 9 && wide(s->k, 1, STRIPS_MAX));
    note(tally, WIDE_M, number == 10 && wide(s->m, 0, s->k));
}

/* ---- sites ---- */

/* A record of a site, how many slots it owns, and what its answer should say. */
struct sign {
    struct task task;
    uint32_t owned; /* where it is accepted */
    bool loses;     /* ticks of its own, there */
    uint32_t number, worst;
    uint32_t margin; /* in two's complement */
};

static struct sign sign_of(const struct input *input, const struct expected *expected, size_t i)
{
    const uint8_t *answer = expected->reply + i * ANSWER_BYTES;
    const uint32_t number = get_number(answer + 4, 2);
    struct task task = task_of_bytes(input->task + i * TASK_BYTES);
    return (struct sign){.task = task,
                         .owned = number == 0 ? owned_slots(&task, input->slots) : 0,
                         .loses = number == 0 && loses_ticks(&task, input),
                         .number = number,
                         .worst = get_number(answer + 8, 4),
                         .margin = get_number(answer + MARGIN_AT, 4)};
}

/* Arrays are taken in sizes; which of them would a wheel take? */
enum { ARRAY_SIZES = 4 };

static unsigned size_for(uint32_t w)
{
    static const uint32_t sizes[ARRAY_SIZES] = {256, 2048, 4096, WHEEL_MAX};
    unsigned size = 0;
    while (size < ARRAY_SIZES && w > sizes[size])
        size++;
    return size;
}

/* What one record leaves in the arrays must not show in the next one's answer. */
static void add_neighbours(struct tally *tally, const struct sign *one, const struct sign *next)
{
    unsigned size = size_for(one->task.w), next_size = size_for(next->task.w);
    bool many = one->task.k > 255, next_many = next->task.k > 255;
    if (one->worst == 0 || next->worst == 0)
        return;
    note(tally, SITE_SMALLER_NEXT, next_size < size);
    note(tally, SITE_LARGER_NEXT, next_size > size);
    note(tally, SITE_FEWER_NEXT, many && !next_many);
    note(tally, SITE_MORE_NEXT, !many && next_many);
}

static bool share_slots(const struct task *a, const struct task *b)
{
    return a->count > 0 && b->count > 0 && a->first < b->first + b->count && b->first < a->first + a->count;
}

/* Two accepted tasks with ids of their own on one board. */
static bool share_board(const struct sign *a, const struct sign *b)
{
    return a->number == 0 && b->number == 0 && a->task.id != b->task.id && a->task.w == b->task.w &&
           a->task.first == b->task.first && a->task.count == b->task.count;
}

/* Record i beside those before it on its board. */
static void add_boards(struct tally *tally, const struct sign *signs, size_t i)
{
    const struct sign *sign = &signs[i];
    bool two = false, drops = false, three = false, none = false, lose = false;
    uint32_t met = 0; /* an id with slots on the board */
    for (size_t j = 0; j < i; j++) {
        if (!share_board(sign, &signs[j]))
            continue;
        bool both = sign->owned > 0 && signs[j].owned > 0;
        three |= two && both && signs[j].task.id != met;
        two |= both;
        met = both ? signs[j].task.id : met;
        drops |= both && sign->worst > 0 && signs[j].worst > 0;
        none |= (sign->owned > 0) != (signs[j].owned > 0);
        lose |= sign->loses && signs[j].loses;
    }
    note(tally, SITE_BOARD, two);
    note(tally, SITE_BOARD_DROPS, drops);
    note(tally, SITE_BOARD_THREE, three);
    note(tally, SITE_BOARD_NONE, none);
    note(tally, SITE_BOARD_LOSS, lose);
}

/* Record i beside each one before it. */
static void add_pairs(struct tally *tally, const struct input *input, const struct sign *signs, size_t i)
{
    const uint8_t *record = input->task + i * TASK_BYTES;
    for (size_t j = 0; j < i && signs[i].number == 0; j++) {
        bool twice = memcmp(input->task + j * TASK_BYTES, record, TASK_BYTES) == 0;
        note(tally, SITE_TWICE, twice);
        note(tally, SITE_SHARED, signs[j].number == 0 && !twice && share_slots(&signs[i].task, &signs[j].task));
    }
}

/* The largest wheels of accepted and of refused records decide which arrays are taken. */
static void add_wheels(struct tally *tally, const struct sign *signs, size_t n)
{
    bool dropped[ARRAY_SIZES] = {false}, past = false, past_before = false, some_good = false, some_bad = false;
    unsigned sizes = 0, good = 0, bad = 0;
    for (size_t i = 0; i < n; i++) {
        unsigned size = size_for(signs[i].task.w);
        if (signs[i].number == 0) {
            some_good = true;
            good = size > good ? size : good;
            dropped[size] |= signs[i].worst > 0;
            past_before |= past;
        } else if (size < ARRAY_SIZES) {
            some_bad = true;
            bad = size > bad ? size : bad;
        } else {
            past = true;
        }
    }
    for (unsigned size = 0; size < ARRAY_SIZES; size++)
        sizes += dropped[size];
    note(tally, SITE_SIZES, sizes >= 3);
    note(tally, SITE_REFUSED_LARGEST, some_good && some_bad && bad > good);
    note(tally, SITE_PAST_WHEEL, past_before);
}

static void add_margins(struct tally *tally, const struct sign *signs, size_t n)
{
    bool below_zero = false, zero = false, above_zero = false;
    for (size_t i = 0; i < n; i++) {
        bool good = signs[i].number == 0, negative = signs[i].margin > INT32_MAX;
        below_zero |= good && negative;
        zero |= good && signs[i].margin == 0;
        above_zero |= good && !negative && signs[i].margin > 0;
        note(tally, SITE_MARGIN_NEXT, i > 0 && !good && signs[i - 1].margin != 0);
    }
    note(tally, SITE_MARGINS, below_zero && zero && above_zero);
}

static void add_signs(struct tally *tally, const struct input *input, const struct sign *signs, size_t n)
{
    size_t good = 0;
    for (size_t i = 0; i < n; i++) {
        tally->answers[signs[i].number]++;
        note_bad_slot(tally, SITE, input->task + i * TASK_BYTES, input);
        good += signs[i].number == 0;
        note_edge(tally, signs[i].task.w, site_edge_use_of(&signs[i].task), signs[i].worst > 0 && n > 1);
        note(tally, SITE_BETWEEN, i > 0 && i + 1 < n && signs[i - 1].number == 0 && signs[i].number != 0 &&
                                      signs[i + 1].number == 0);
        if (i > 0)
            add_neighbours(tally, &signs[i - 1], &signs[i]);
        add_pairs(tally, input, signs, i);
        add_boards(tally, signs, i);
    }
    note(tally, SITE_ONE, n == 1 && good == 1);
    note(tally, SITE_ALL_GOOD, n > 1 && good == n);
    note(tally, SITE_ALL_REFUSED, n > 1 && good == 0);
    note(tally, SITE_BARE, good > 0 && input->slots_len == 0);
}

static void add_answered_site(struct tally *tally, const struct input *input, const struct expected *expected)
{
    struct sign signs[SITE_RECORDS_MAX];
    size_t n = input->task_len / TASK_BYTES, spare = input->reply_len - n * ANSWER_BYTES;
    for (size_t i = 0; i < n; i++)
        signs[i] = sign_of(input, expected, i);
    add_signs(tally, input, signs, n);
    add_wheels(tally, signs, n);
    add_margins(tally, signs, n);
    note(tally, SITE_EMPTY, n == 0);
    note(tally, SITE_EMPTY_SLOTS, n == 0 && input->slots_len > 0);
    note(tally, SITE_EMPTY_REPLY, n == 0 && spare > 0);
    note(tally, SITE_NULL, n == 0 && input->slots_len == 0 && input->reply_len == 0 && input->null_when_empty);
    note(tally, SITE_MOST, n == SITE_RECORDS_MAX);
    note(tally, SITE_LONG_REPLY, n > 0 && spare == 1);
    note(tally, SITE_LONGER_REPLY, n > 0 && spare >= ANSWER_BYTES);
}

static void add_refused_site(struct tally *tally, const struct input *input, uint32_t number)
{
    size_t n = input->task_len / TASK_BYTES, answers = n * ANSWER_BYTES;
    bool whole = input->task_len % TASK_BYTES == 0;
    note(tally, SITE_31, number == 1 && input->task_len == 31);
    note(tally, SITE_33, number == 1 && input->task_len == 33);
    note(tally, SITE_63, number == 1 && input->task_len == 63);
    note(tally, SITE_SLOTS_ODD, number == 1 && whole && n > 0);
    note(tally, SITE_SLOTS_EIGHT, number == 1 && whole && eights(input));
    note(tally, SITE_SLOTS_ODD_ALONE, number == 1 && whole && n == 0);
    note(tally, SITE_ORDER_1_2, number == 1 && input->reply_len < answers);
    note(tally, SITE_BYTE_SHORT, number == 2 && input->reply_len + 1 == answers);
    note(tally, SITE_ANSWER_SHORT, number == 2 && n > 1 && input->reply_len + ANSWER_BYTES == answers);
    note(tally, SITE_REPLY_EMPTY, number == 2 && input->reply_len == 0);
}

/* ---- which slot ---- */

/* Nothing outside the board may show, neither a clash with it nor a trouble of its own. */
static void add_strangers(struct tally *tally, const struct task *task, const struct input *input)
{
    const size_t first = task->first, behind = first + task->count;
    const uint32_t w = task->w;
    if (first > 0) {
        const uint32_t end = end_of(input, first - 1), length = length_of(input, first - 1);
        const uint32_t loss = loss_of(input, first - 1);
        note(tally, WHICH_BEFORE, length > 0 && end <= w && loss <= length && task->count > 0 &&
                                      start_of(input, first) < end);
        note(tally, WHICH_LOSS_BEFORE, length > 0 && loss > length);
    }
    if (behind < input->slots_len / SLOT_BYTES) {
        const uint32_t length = length_of(input, behind);
        note(tally, WHICH_BEHIND, length == 0 || end_of(input, behind) > w);
        note(tally, WHICH_LOSS_BEHIND, length > 0 && loss_of(input, behind) > length);
    }
}

/* A good table is good whatever its task's strips are like. */
static void add_bad_strips(struct tally *tally, const struct task *task)
{
    struct strips strips = strips_of_task(task);
    const uint32_t number = refusal_of_strips(&strips);
    note(tally, WHICH_BAD_NEED, number == 6);
    note(tally, WHICH_BAD_PERIOD, number == 7);
    note(tally, WHICH_BAD_DEADLINE, number == 8);
    note(tally, WHICH_BAD_STRIPS, number == 9);
    note(tally, WHICH_BAD_PAINTED, number == 10);
}

static void add_good_table(struct tally *tally, const struct task *task, const struct input *input)
{
    const size_t behind = task->first + task->count;
    const uint32_t last_end = task->count > 0 ? end_of(input, behind - 1) : 0;
    struct board board = board_of(task, input);
    note(tally, WHICH_NONE, task->count == 0);
    note(tally, WHICH_NULL, input->slots_len == 0 && input->null_when_empty);
    note(tally, WHICH_64, task->count == GRANT_SLOTS_MAX);
    note(tally, WHICH_65, task->count == GRANT_SLOTS_MAX + 1);
    note(tally, WHICH_511, task->count == SLOTS_MAX - 1);
    note(tally, WHICH_512, task->count == SLOTS_MAX);
    note(tally, WHICH_SHARED, board.owned > 0 && board.others > 0);
    note(tally, WHICH_FOREIGN, board.owned == 0 && board.others > 0);
    note(tally, WHICH_TOUCHING, board.touching || board.touches_other);
    note(tally, WHICH_AT_WHEEL, last_end == task->w);
    note(tally, WHICH_LARGEST, last_end == WHEEL_MAX);
    note(tally, WHICH_LOSS_WHOLE, board.whole_loss);
    add_bad_strips(tally, task);
    add_strangers(tally, task, input);
}

static void add_refused_lengths(struct tally *tally, const struct input *input)
{
    note(tally, WHICH_EMPTY, input->task_len == 0);
    note(tally, WHICH_31, input->task_len == TASK_BYTES - 1);
    note(tally, WHICH_33, input->task_len == TASK_BYTES + 1);
    note(tally, WHICH_SLOTS_ODD, input->task_len == TASK_BYTES);
    note(tally, WHICH_SLOTS_EIGHT, input->task_len == TASK_BYTES && eights(input));
}

/* Refusals 3, 4 and 14, which are about no single slot, nor about the id. */
static void add_refused_table(struct tally *tally, const struct task *task, const struct input *input, uint32_t number)
{
    uint64_t records = input->slots_len / SLOT_BYTES, last = task->first + task->count;
    bool many = task->count > SLOTS_MAX, beyond = number == 3, wheel = number == 4;
    note(tally, WHICH_NO_RECORDS, beyond && records == 0);
    note(tally, WHICH_ONE_BEYOND, beyond && last == records + 1);
    note(tally, WHICH_SUM_WIDE, beyond && last > 65535 && (last & 65535) <= records);
    note(tally, WHICH_3_19, beyond && task->id > ID_MAX);
    note(tally, WHICH_3_4, beyond && bad_wheel(task));
    note(tally, WHICH_3_14, beyond && many);
    note(tally, WHICH_W_0, wheel && task->w == 0);
    note(tally, WHICH_W_16385, wheel && task->w == WHEEL_MAX + 1);
    note(tally, WHICH_W_WIDE, wheel && task->w == UINT32_MAX);
    note(tally, WHICH_4_14, wheel && many);
    note(tally, WHICH_4_15, wheel && some_slot_has(task, input, 15));
    if (number != 14)
        return;
    uint64_t rest = which_of_512(task, input);
    note(tally, WHICH_513, task->count == SLOTS_MAX + 1 && rest == 0);
    note(tally, WHICH_LOW_BITS, task->count > 1023 && task->count % 1024 <= SLOTS_MAX);
    note(tally, WHICH_COUNT_WIDE, task->count == 65535);
    note(tally, WHICH_14_FIRST, rest != 0 && (uint32_t)rest == 0);
    note(tally, WHICH_14_LATER, (uint32_t)rest > 0);
}

/* What the slots behind the first bad one have: nothing of it may show. */
static void add_later_slots(struct tally *tally, const struct task *task, const struct input *input, uint32_t number,
                            uint32_t place)
{
    bool lower = false, same = false, higher = false;
    for (uint32_t later = place + 1; later < task->count; later++) {
        uint32_t other = refusal_of_slot(task, input->slots, later);
        lower |= other != 0 && other < number;
        same |= other == number;
        higher |= other > number;
    }
    note(tally, WHICH_LOWER_LATER, lower);
    note(tally, WHICH_SAME_LATER, same);
    note(tally, WHICH_HIGHER_LATER, higher);
    note(tally, WHICH_18_15, number == 18 && place + 1 < task->count &&
                                 refusal_of_slot(task, input->slots, place + 1) == 15);
}

static void add_bad_slot(struct tally *tally, const struct task *task, const struct input *input, uint32_t number,
                         uint32_t place)
{
    size_t record = task->first + place;
    uint64_t start = start_of(input, record), end = end_of(input, record);
    uint64_t previous_end = place > 0 ? end_of(input, record - 1) : 0;
    uint32_t loss = loss_of(input, record), length = length_of(input, record);
    bool past = end > task->w, early = start < previous_end, lossy = loss > length;
    note(tally, WHICH_START_AT_END, number == 15 && start == end);
    note(tally, WHICH_START_OVER, number == 15 && start == end + 1);
    note(tally, WHICH_START_WIDE, number == 15 && start > INT32_MAX && !past);
    note(tally, WHICH_END_OVER, number == 16 && end == task->w + 1);
    note(tally, WHICH_END_WIDE, number == 16 && end > INT32_MAX);
    note(tally, WHICH_EARLY_BY_ONE, number == 17 && start + 1 == previous_end);
    note(tally, WHICH_LOSS_OVER, number == 18 && loss == length + 1);
    note(tally, WHICH_LOSS_LOW, number == 18 && loss % 256 <= length);
    note(tally, WHICH_LOSS_TOUCHING, number == 18 && touches_own(task, input, record));
    note(tally, WHICH_15_16, number == 15 && past);
    note(tally, WHICH_15_17, number == 15 && early);
    note(tally, WHICH_16_17, number == 16 && early);
    note(tally, WHICH_15_18, number == 15 && lossy);
    note(tally, WHICH_16_18, number == 16 && lossy);
    note(tally, WHICH_17_18, number == 17 && lossy);
    note(tally, WHICH_ONLY, task->count == 1);
    note(tally, WHICH_512TH, place + 1 == SLOTS_MAX);
    note(tally, WHICH_PAST_64, place >= GRANT_SLOTS_MAX && place + 1 < task->count);
    note(tally, WHICH_INSIDE, task->first > 0);
}

static void add_which(struct tally *tally, const struct input *input, uint64_t result)
{
    uint32_t number = (uint32_t)(result >> 32), place = (uint32_t)result;
    if (number == 1) {
        add_refused_lengths(tally, input);
        return;
    }
    struct task task = task_of_bytes(input->task);
    if (number == 0) {
        add_good_table(tally, &task, input);
    } else if (number == 19) {
        add_bad_id(tally, &task, input, true);
    } else if (!about_slot(number)) {
        add_refused_table(tally, &task, input, number);
    } else {
        add_bad_slot(tally, &task, input, number, place);
        add_later_slots(tally, &task, input, number, place);
        note_bad_slot(tally, WHICH, input->task, input);
    }
}

/* ---- pairs of boards ---- */

/* The slots of a good board that are its task's, or those that aren't, in order. */
struct part {
    uint32_t n, place[SLOTS_MAX], owner[SLOTS_MAX], start[SLOTS_MAX], end[SLOTS_MAX], loss[SLOTS_MAX];
};

static struct part part_of(const struct input *input, bool own)
{
    struct task task = task_of_bytes(input->task);
    struct part part = {0};
    for (uint32_t place = 0; place < task.count; place++) {
        const size_t record = task.first + place;
        if (owns(&task, input, record) != own)
            continue;
        part.place[part.n] = place;
        part.owner[part.n] = owner_at(input->slots, record);
        part.start[part.n] = start_of(input, record);
        part.end[part.n] = end_of(input, record);
        part.loss[part.n++] = loss_of(input, record);
    }
    return part;
}

static bool same_ticks(const struct part *one, const struct part *other)
{
    return one->n == other->n && memcmp(one->start, other->start, sizeof one->start) == 0 &&
           memcmp(one->end, other->end, sizeof one->end) == 0;
}

static bool same_losses(const struct part *one, const struct part *other)
{
    return memcmp(one->loss, other->loss, sizeof one->loss) == 0;
}

static int by_number(const void *one, const void *other)
{
    const uint32_t a = *(const uint32_t *)one, b = *(const uint32_t *)other;
    return (a > b) - (a < b);
}

/* Each owner has as many slots in the one part as in the other. */
static bool same_owners(const struct part *one, const struct part *other)
{
    struct part a = *one, b = *other;
    qsort(a.owner, a.n, sizeof *a.owner, by_number);
    qsort(b.owner, b.n, sizeof *b.owner, by_number);
    return a.n == b.n && memcmp(a.owner, b.owner, sizeof a.owner) == 0;
}

bool is_same_for_owner(const struct input *one, const struct input *other)
{
    struct task task = task_of_bytes(one->task), twin = task_of_bytes(other->task);
    if (which_of(&task, one) != 0 || which_of(&twin, other) != 0)
        return false;
    struct part own = part_of(one, true), twins = part_of(other, true);
    return memcmp(one->task, other->task, FIRST_AT) == 0 && same_ticks(&own, &twins) && same_losses(&own, &twins);
}

/* How two boards differ that are the same for their owner. */
static void add_boards_differ(struct tally *tally, const struct input *one, const struct input *other)
{
    struct task task = task_of_bytes(one->task), twin = task_of_bytes(other->task);
    const struct part own = part_of(one, true), twins = part_of(other, true);
    const struct part others = part_of(one, false), strangers = part_of(other, false);
    const bool bare = own.n == 0, as_many = others.n == strangers.n;
    note(tally, PAIR_NUMBER, !as_many);
    note(tally, PAIR_ORDER, same_owners(&others, &strangers) &&
                                memcmp(others.owner, strangers.owner, sizeof others.owner) != 0);
    note(tally, PAIR_TICKS, as_many && !same_ticks(&others, &strangers));
    note(tally, PAIR_OTHERS_LOSS, same_ticks(&others, &strangers) && !same_losses(&others, &strangers));
    note(tally, PAIR_PLACE, memcmp(own.place, twins.place, sizeof own.place) != 0);
    note(tally, PAIR_FIRST, task.first != twin.first);
    note(tally, PAIR_COUNT, task.count != twin.count);
    note(tally, PAIR_ALONE, !bare && (others.n == 0) != (strangers.n == 0));
    note(tally, PAIR_NONE, bare && others.n > 0 && strangers.n > 0);
    note(tally, PAIR_BARE, bare && (others.n == 0) != (strangers.n == 0));
    note(tally, PAIR_MANY, own.n > GRANT_SLOTS_MAX && others.n > 0 && strangers.n > 0);
}

/* What would show at the offset, where both boards give the same supply. */
static void add_pair_supply(struct tally *tally, const struct input *one, const struct input *other)
{
    struct task task = task_of_bytes(one->task), twin = task_of_bytes(other->task);
    struct wheel wheel;
    wheel_of_task(&wheel, &task, one->slots);
    const uint64_t supply = supply_at(&wheel, task.D, 2, one->offset);
    note(tally, PAIR_TELLS, supply_for(ALL_OWN, &task, one) != supply_for(ALL_OWN, &twin, other));
    note(tally, PAIR_LOSS, supply_for(NOTHING_LOST, &task, one) > supply);
    note(tally, PAIR_TOUCH, supply_for(TOUCHING_LOSES, &task, one) < supply);
    note(tally, PAIR_TOUCH_OTHER, tells(&wheel, OTHERS_TOUCH, &task, one) != tells(&wheel, OTHERS_TOUCH, &twin, other));
}

void tally_add_pair(struct tally *tally, const struct input *one, const struct input *other, const uint8_t *answer,
                    uint32_t refused_at)
{
    struct task task = task_of_bytes(one->task);
    const uint32_t number = get_number(answer + 4, 2), worst = get_number(answer + 8, 4);
    const bool firm = get_number(answer + 6, 2) == 1;
    add_boards_differ(tally, one, other);
    note(tally, PAIR_DROPS, number == 0 && worst > 0 && worst < task.k);
    note(tally, PAIR_FIRM, firm && worst > 0);
    note(tally, PAIR_NOT_FIRM, number == 0 && !firm);
    if (refused_at == 0)
        add_pair_supply(tally, one, other);
    note(tally, PAIR_6, number == 6);
    note(tally, PAIR_7, number == 7);
    note(tally, PAIR_8, number == 8);
    note(tally, PAIR_9, number == 9);
    note(tally, PAIR_10, number == 10);
    note(tally, PAIR_11, refused_at == 11);
}

/* ---- all ---- */

void tally_add(struct tally *tally, const struct input *input, const struct expected *expected)
{
    uint32_t number = number_of(input->kind, expected->result);
    tally->numbers[input->kind][number]++;
    tally->quick[expected->quick >> 32] += input->kind == JUDGE;
    if (input->kind == GRANT)
        add_grant(tally, input, expected, number);
    else if (input->kind == SITE && number == 0)
        add_answered_site(tally, input, expected);
    else if (input->kind == SITE)
        add_refused_site(tally, input, number);
    else if (input->kind == WHICH)
        add_which(tally, input, expected->result);
    else
        add_task(tally, input, expected, number);
    if (input->kind == JUDGE || input->kind == COUNT)
        add_rounds(tally, input, expected);
}

/* The numbers each call knows, by docs/RULES.md. */
static bool knows(enum kind kind, uint32_t number)
{
    bool of_table = number == 3 || number == 4 || number >= 14, of_strips = number >= 6 && number <= 10;
    switch (kind) {
    case JUDGE:
        return number <= 2 || of_table || of_strips;
    case COUNT:
        return number <= 1 || of_table || of_strips || number == 11;
    case SITE:
        return number <= 2;
    case WHICH:
        return number <= 1 || of_table;
    default:
        return number == 0 || of_strips || number == 12 || number == 13;
    }
}

/* A count, and whether it shouldn't be 0; a dash for what can't be met there, and a mark where it was all the same. */
static unsigned print_known(bool known, uint64_t met)
{
    if (known)
        printf(" %10" PRIu64, met);
    else if (met == 0)
        printf(" %10s", "-");
    else
        printf(" %9" PRIu64 "!", met);
    return known == (met == 0);
}

static unsigned print_numbers(const struct tally *tally)
{
    unsigned never = 0;
    printf("%-8s %10s %10s %10s %10s %10s %10s %10s %10s %10s\n", "refusal", "judge", "count", "grant", "site",
           "which slot", "quick", "in a site", "by rounds", "r. count");
    for (uint32_t number = 0; number < NUMBERS; number++) {
        printf("%-8" PRIu32, number);
        for (enum kind kind = JUDGE; kind < KINDS; kind++)
            never += print_known(knows(kind, number), tally->numbers[kind][number]);
        never += print_known(knows(JUDGE, number) && number != 2, tally->quick[number]);
        never += print_known(knows(JUDGE, number) && number != 1 && number != 2, tally->answers[number]);
        never += print_known(knows(JUDGE, number), tally->rounds[JUDGE][number]);
        never += print_known(knows(COUNT, number), tally->rounds[COUNT][number]);
        printf("\n");
    }
    return never;
}

/* The first bad slot by number, place and owner. Nothing is before a board's first slot, so 17 isn't given there. */
static unsigned print_bad_slots(const struct tally *tally)
{
    static const char *const names[SLOT_KINDS] = {"first", "a middle one", "last", "the task's", "another's"};
    unsigned never = 0;
    printf("%-15s %10s %10s %10s %10s\n", "slot", "judge", "count", "in a site", "which slot");
    for (uint32_t row = 0; row < SLOT_NUMBERS * SLOT_KINDS; row++) {
        uint32_t number = row / SLOT_KINDS, kind = row % SLOT_KINDS;
        bool known = number + ABOUT_SLOT != 17 || kind != FIRST_PLACE;
        printf("%" PRIu32 " %-12s", number + ABOUT_SLOT, names[kind]);
        never += print_known(known, tally->bad_slots[JUDGE][number][kind]);
        never += print_known(known, tally->bad_slots[COUNT][number][kind]);
        never += print_known(known, tally->bad_slots[SITE][number][kind]);
        never += print_known(known, tally->bad_slots[WHICH][number][kind]);
        printf("\n");
    }
    return never;
}

/*
 * Each wheel at an edge, with something dropped or granted: judged with few strips, and with many strips and 64 slots
 * of the task's or more, or the most that have ticks between them; counted; granted; judged in a site, with k to 255
 * and above; judged as firm with as many drops as may be, and as not firm with one more.
 */
static unsigned print_edges(const struct tally *tally)
{
    unsigned never = 0;
    printf("%-8s %10s %10s %10s %10s %10s %10s %10s %10s %10s %10s %10s\n", "wheel", "k to 4", "64, to 255",
           "64, k 256+", "most, 255", "most, 256+", "count", "grant", "site", "site, 256+", "firm", "not firm");
    for (size_t i = 0; i < WHEEL_EDGES; i++) {
        printf("%-8" PRIu32, wheel_edges[i]);
        for (enum edge_use use = EDGE_FEW; use < EDGE_USES; use++) {
            printf(" %10" PRIu64, tally->edges[i][use]);
            never += tally->edges[i][use] == 0;
        }
        printf("\n");
    }
    return never;
}

unsigned tally_print(const struct tally *tally)
{
#define CLASS_TEXT(id, text) text,
    static const char *const texts[] = {CLASSES(CLASS_TEXT)};
#undef CLASS_TEXT
    unsigned never = print_numbers(tally) + print_bad_slots(tally) + print_edges(tally);
    for (unsigned i = 0; i < CLASS_COUNT; i++) {
        printf("%10" PRIu64 "  %s%s\n", tally->met[i], texts[i], tally->met[i] == 0 ? "  NEVER MET" : "");
        never += tally->met[i] == 0;
    }
    return never;
}
