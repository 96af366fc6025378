/*
 * A small configuration desk: judges a whole site in one call and says in words
 * what came out for each task.
 *
 *   desk FOLDER
 *
 * FOLDER holds tasks.bin and slots.bin (`records make FOLDER` makes them). Of a
 * task that is answered it says how much more a strip may need before one drops,
 * or how much some strip lacks; where others have slots of its board, too, how
 * much of it is its own; and which of its ticks go to the switch. For a task that
 * isn't firm it asks whether equal slots would do that no other owner has; for
 * one that is refused because of its board it says what stands in which record of
 * which file, and whose slot that is. Records are counted from 0, and so are the
 * slots of a board.
 * The exit status is 0 when every task got an answer, refused ones included, and
 * all of it could be printed.
 */
#include "bytes.h"
#include "files.h"
#include "fiddlequill.h"

#include <inttypes.h>
#include <stdbool.h>
#include <stdio.h>
#include <stdlib.h>
#include <string.h>

struct site {
    struct file tasks, slots;
};

/* The fields of a task record that the desk speaks of. */
struct task {
    uint32_t id, w, e, D, h, m, k, first, count;
};

struct slot {
    uint32_t start, end, owner, loss;
};

/* What a task has of its board, and how much of that goes to the switch. */
struct share {
    uint32_t slots, ticks, lost;
};

struct answer {
    uint32_t number, firm, worst, offset;
    int32_t margin;
};

static struct task task_of(const uint8_t *bytes)
{
    return (struct task){
        .id = get_number(bytes, 4),
        .w = get_number(bytes + 4, 4),
        .e = get_number(bytes + 8, 4),
        .D = get_number(bytes + 12, 4),
        .h = get_number(bytes + 16, 4),
        .m = get_number(bytes + 20, 4),
        .k = get_number(bytes + 24, 4),
        .first = get_number(bytes + 28, 2),
        .count = get_number(bytes + 30, 2),
    };
}

/* Slot record i of the site. */
static struct slot slot_of(const struct site *site, uint32_t i)
{
    const uint8_t *bytes = site->slots.bytes + (size_t)i * FIDDLEQUILL_SLOT_BYTES;
    return (struct slot){
        .start = get_number(bytes, 4),
        .end = get_number(bytes + 4, 4),
        .owner = get_number(bytes + 8, 2),
        .loss = get_number(bytes + 10, 2),
    };
}

static struct answer answer_of(const uint8_t *bytes)
{
    return (struct answer){
        .number = get_number(bytes + 4, 2),
        .firm = get_number(bytes + 6, 2),
        .worst = get_number(bytes + 8, 4),
        .offset = get_number(bytes + 12, 4),
        .margin = fiddlequill_signed(get_number(bytes + 16, 4)),
    };
}

/* Among unsigned numbers even INT32_MIN has an opposite. */
static uint32_t absolute(int32_t margin)
{
    return margin < 0 ? 0 - (uint32_t)margin : (uint32_t)margin;
}

static void print_halves(uint32_t halves)
{
    printf("%" PRIu32 "%s", halves / 2, halves % 2 == 1 ? ".5" : "");
}

static void print_ticks(uint32_t halves)
{
    print_halves(halves);
    printf(" %s", halves == 2 ? "tick" : "ticks");
}

static void print_verdict(const struct task *task, const struct answer *answer)
{
    printf("task %" PRIu32 ": %s, ", task->id, answer->firm ? "firm" : "not firm");
    printf("at worst %" PRIu32 " of %" PRIu32 " strips drop and %" PRIu32 " may, ", answer->worst, task->k,
           task->k - task->m);
    printf("first from tick ");
    print_halves(answer->offset);
    printf("\n");
}

/* Counting again from the worst offset must give the worst count. */
static int recount(const struct site *site, const uint8_t *record, const struct answer *answer)
{
    uint64_t packed = fiddlequill_count(record, FIDDLEQUILL_TASK_BYTES, site->slots.bytes, site->slots.len,
                                        answer->offset);
    if (fiddlequill_number(packed) == FIDDLEQUILL_OK && fiddlequill_value(packed) == answer->worst) {
        printf("  counted again from there: %" PRIu32 "\n", fiddlequill_value(packed));
        return 0;
    }
    fprintf(stderr, "%s: task %" PRIu32 ": counting from the worst offset gives refusal %" PRIu32, site->tasks.path,
            get_number(record, 4), fiddlequill_number(packed));
    fprintf(stderr, ", count %" PRIu32 "\n", fiddlequill_value(packed));
    return -1;
}

static void print_first(int32_t halves)
{
    printf("  the first strip there %s ", halves < 0 ? "lacks" : "has");
    if (halves == 0)
        printf("nothing");
    else
        print_ticks(absolute(halves));
    printf("%s\n", halves < 0 ? "" : " to spare");
}

/* The first strip at the worst offset, which may be a painted one, can't have less than the least margin. */
static int tell_first(const struct site *site, const uint8_t *record, const struct answer *answer)
{
    uint64_t packed = fiddlequill_margin(record, FIDDLEQUILL_TASK_BYTES, site->slots.bytes, site->slots.len,
                                         answer->offset);
    int32_t halves = fiddlequill_signed(fiddlequill_value(packed));
    if (fiddlequill_number(packed) == FIDDLEQUILL_OK && halves >= 2 * (int64_t)answer->margin) {
        print_first(halves);
        return 0;
    }
    fprintf(stderr, "%s: task %" PRIu32 ": asking for the margin at the worst offset gives refusal %" PRIu32,
            site->tasks.path, get_number(record, 4), fiddlequill_number(packed));
    fprintf(stderr, ", %" PRId32 " half ticks, while the least margin is %" PRId32 " ticks\n", halves, answer->margin);
    return -1;
}

/* Need and least margin together are a supply, so at most D: a need that grows that much is never refused. */
static void tell_growth(int32_t margin)
{
    printf("  a strip may need ");
    if (margin == 0)
        printf("no tick");
    else
        print_ticks(2 * absolute(margin));
    printf(" more before one drops\n");
}

/* A firm table may drop strips, too: what they lack is then no fault of it. */
static void tell_lack(const struct answer *answer)
{
    printf("  some strip lacks ");
    print_ticks(2 * absolute(answer->margin));
    printf("%s\n", answer->firm ? ", but no more drop than may" : "");
}

/*
 * The ticks that a slot of a good board gives to the switch. Records stand in the
 * order of time there, so none but the one before it can end where it starts, and
 * before the first one, round the end of the wheel, none but the last.
 */
static uint32_t lost_in(const struct site *site, const struct task *task, uint32_t place)
{
    struct slot slot = slot_of(site, task->first + place);
    struct slot before = slot_of(site, task->first + (place > 0 ? place : task->count) - 1);
    bool goes_on = before.owner == slot.owner && before.end % task->w == slot.start;
    return goes_on ? 0 : slot.loss;
}

static struct share share_of(const struct site *site, const struct task *task)
{
    struct share share = {0, 0, 0};
    for (uint32_t place = 0; place < task->count; place++) {
        struct slot slot = slot_of(site, task->first + place);
        if (slot.owner == task->id) {
            share.slots++;
            share.ticks += slot.end - slot.start;
            share.lost += lost_in(site, task, place);
        }
    }
    return share;
}

/* A task that has its board to itself isn't told so. */
static void tell_share(const struct task *task, const struct share *share)
{
    if (share->slots < task->count)
        printf("  of the board's slots it has %" PRIu32 " of %" PRIu32 ", of the ticks %" PRIu32 " of %" PRIu32 "\n",
               share->slots, task->count, share->ticks, task->w);
}

static void tell_lost(const struct site *site, const struct task *task, const struct share *share)
{
    const char *mark = ":";
    if (share->lost == 0)
        return;
    printf("  %" PRIu32 " of its %" PRIu32 " slot ticks in each turn %s to the switch", share->lost, share->ticks,
           share->lost == 1 ? "goes" : "go");
    for (uint32_t place = 0; place < task->count; place++) {
        struct slot slot = slot_of(site, task->first + place);
        uint32_t lost = lost_in(site, task, place);
        if (slot.owner == task->id && lost > 0) {
            printf("%s %" PRIu32 " in slot (%" PRIu32 ",%" PRIu32 ")", mark, lost, slot.start, slot.end);
            mark = ",";
        }
    }
    printf("\n");
}

/* The task's slots without the ticks that they lose, as records of loss 0; gives how many there are. */
static uint32_t usable_slots(const struct site *site, const struct task *task, uint8_t *records)
{
    uint32_t count = 0;
    for (uint32_t place = 0; place < task->count; place++) {
        struct slot slot = slot_of(site, task->first + place);
        uint32_t start = slot.start + lost_in(site, task, place);
        if (slot.owner == task->id && start < slot.end) {
            uint8_t *record = records + count++ * FIDDLEQUILL_SLOT_BYTES;
            put_number(record, start, 4);
            put_number(record + 4, slot.end, 4);
            put_number(record + 8, slot.owner, 2);
            put_number(record + 10, 0, 2);
        }
    }
    return count;
}

/* On a board of these slots alone the task must get the same answer. */
static int rejudge(const struct site *site, const uint8_t *record, const uint8_t *reply)
{
    uint8_t slots[FIDDLEQUILL_SLOTS_MAX * FIDDLEQUILL_SLOT_BYTES], task[FIDDLEQUILL_TASK_BYTES];
    uint8_t again[FIDDLEQUILL_ANSWER_BYTES] = {0};
    struct task read = task_of(record);
    uint32_t count = usable_slots(site, &read, slots);
    memcpy(task, record, sizeof task);
    put_number(task + 28, 0, 2);
    put_number(task + 30, count, 2);
    uint32_t number = fiddlequill_judge(task, sizeof task, slots, (size_t)count * FIDDLEQUILL_SLOT_BYTES, again,
                                        sizeof again);
    if (number == FIDDLEQUILL_OK && memcmp(again, reply, sizeof again) == 0)
        return 0;
    fprintf(stderr, "%s: task %" PRIu32 ": judging without the lost ticks gives refusal %" PRIu32 ", another answer\n",
            site->tasks.path, read.id, number);
    return -1;
}

/* The longest loss of a board's slots, whoever owns them: an offer is to hold for any switch there. */
static uint32_t longest_loss(const struct site *site, const struct task *task)
{
    uint32_t longest = 0;
    for (uint32_t i = 0; i < task->count; i++) {
        struct slot slot = slot_of(site, task->first + i);
        longest = slot.loss > longest ? slot.loss : longest;
    }
    return longest;
}

/* The largest number of equal slots that w ticks can be cut into, each with room for the loss, which is at most w. */
static uint32_t equal_slots(uint32_t w, uint32_t loss)
{
    uint32_t n = FIDDLEQUILL_GRANT_SLOTS_MAX;
    while (w % n != 0 || w / n < loss)
        n--;
    return n;
}

/* Whether another owner's slot of the board has some of the time from start to end. */
static bool is_taken(const struct site *site, const struct task *task, uint32_t start, uint32_t end)
{
    for (uint32_t i = 0; i < task->count; i++) {
        struct slot slot = slot_of(site, task->first + i);
        if (slot.owner != task->id && slot.start < end && start < slot.end)
            return true;
    }
    return false;
}

/* Marks the wheel's n equal slots, free where no other owner is, and gives how many are. */
static uint32_t mark_free(const struct site *site, const struct task *task, uint8_t *marks, uint32_t n)
{
    uint32_t v = task->w / n, free_slots = 0;
    for (uint32_t i = 0; i < n; i++) {
        marks[i] = is_taken(site, task, i * v, (i + 1) * v) ? 0 : 1;
        free_slots += marks[i];
    }
    return free_slots;
}

/* Were the task's wheel cut into equal slots: how many of the free ones would it take? */
static void offer_grant(const struct site *site, const struct task *task)
{
    uint8_t marks[FIDDLEQUILL_GRANT_SLOTS_MAX];
    uint32_t loss = longest_loss(site, task), n = equal_slots(task->w, loss), v = task->w / n;
    uint32_t free_slots = mark_free(site, task, marks, n);
    uint64_t packed = fiddlequill_grant(marks, n, v, loss, task->e, task->D, task->h, task->m, task->k);
    printf("  with %" PRIu32 " free %s of ", free_slots, free_slots == 1 ? "slot" : "slots");
    print_ticks(2 * v);
    if (loss > 0)
        printf(" and a loss of %" PRIu32, loss);
    printf(": ");
    if (fiddlequill_number(packed) == FIDDLEQUILL_OK)
        printf("the first %" PRIu32 " would make it firm\n", fiddlequill_value(packed));
    else
        printf("%s\n", fiddlequill_meaning(fiddlequill_number(packed)));
}

/* A bad slot's record, whose slot it is, and what it clashes with. */
static void point_at_slot(const struct site *site, const struct task *task, uint32_t number, uint32_t place)
{
    uint32_t i = task->first + place;
    struct slot slot = slot_of(site, i);
    printf("  %s, record %" PRIu32 " (slot %" PRIu32 " of the board, owner %" PRIu32 "): ", site->slots.path, i, place,
           slot.owner);
    printf("from %" PRIu32 " to %" PRIu32, slot.start, slot.end);
    if (number == FIDDLEQUILL_SLOT_PAST_WHEEL)
        printf(", while w is %" PRIu32, task->w);
    if (number == FIDDLEQUILL_EARLY_SLOT) { /* so it isn't the board's first */
        struct slot before = slot_of(site, i - 1);
        printf(", while slot %" PRIu32 ", owner %" PRIu32 ", lasts to %" PRIu32, place - 1, before.owner, before.end);
    }
    if (number == FIDDLEQUILL_LONG_LOSS)
        printf(", while its loss is %" PRIu32, slot.loss);
    printf("\n");
}

/* A task record whose fields make no board, before any slot is looked at. */
static void point_at_task(const struct site *site, const uint8_t *record, uint32_t number)
{
    struct task task = task_of(record);
    printf("  %s, record %zu: ", site->tasks.path, (size_t)(record - site->tasks.bytes) / FIDDLEQUILL_TASK_BYTES);
    if (number == FIDDLEQUILL_BAD_ID)
        printf("id %" PRIu32 "\n", task.id);
    else if (number == FIDDLEQUILL_BAD_WHEEL)
        printf("w %" PRIu32 "\n", task.w);
    else if (number == FIDDLEQUILL_MANY_SLOTS)
        printf("count %" PRIu32 "\n", task.count);
    else
        printf("first %" PRIu32 " and count %" PRIu32 ", while %s has %zu records\n", task.first, task.count,
               site->slots.path, site->slots.len / FIDDLEQUILL_SLOT_BYTES);
}

/* What the board alone is refused with: 6 to 10 are about the task's other numbers. */
static uint32_t number_of_board(uint32_t number)
{
    return number >= FIDDLEQUILL_BAD_NEED && number <= FIDDLEQUILL_BAD_PAINTED ? FIDDLEQUILL_OK : number;
}

/* Asking which slot is bad must give the number that judging gave. */
static int tell_board(const struct site *site, const uint8_t *record, const struct answer *answer)
{
    struct task task = task_of(record);
    uint64_t packed = fiddlequill_which_slot(record, FIDDLEQUILL_TASK_BYTES, site->slots.bytes, site->slots.len);
    uint32_t number = fiddlequill_number(packed);
    if (number != number_of_board(answer->number)) {
        fprintf(stderr, "%s: task %" PRIu32 ": asking which slot is bad gives refusal %" PRIu32, site->tasks.path,
                task.id, number);
        fprintf(stderr, ", judging gave %" PRIu32 "\n", answer->number);
        return -1;
    }
    if (fiddlequill_about_slot(number))
        point_at_slot(site, &task, number, fiddlequill_value(packed));
    else if (number != FIDDLEQUILL_OK)
        point_at_task(site, record, number);
    return 0;
}

static int tell_one(const struct site *site, const uint8_t *record, const uint8_t *reply)
{
    struct task task = task_of(record);
    struct answer answer = answer_of(reply);
    if (answer.number != FIDDLEQUILL_OK) {
        printf("task %" PRIu32 ": refused with %" PRIu32 ", %s\n", task.id, answer.number,
               fiddlequill_meaning(answer.number));
        return tell_board(site, record, &answer);
    }
    print_verdict(&task, &answer);
    if (recount(site, record, &answer) != 0 || tell_first(site, record, &answer) != 0 ||
        rejudge(site, record, reply) != 0)
        return -1;
    if (answer.margin < 0)
        tell_lack(&answer);
    else
        tell_growth(answer.margin);
    struct share share = share_of(site, &task);
    tell_share(&task, &share);
    tell_lost(site, &task, &share);
    if (!answer.firm)
        offer_grant(site, &task);
    return 0;
}

/* Judges all tasks at once, then goes from answer to answer. */
static int judge_into(const struct site *site, uint8_t *reply, size_t reply_len)
{
    uint32_t number = fiddlequill_site(site->tasks.bytes, site->tasks.len, site->slots.bytes, site->slots.len, reply,
                                       reply_len);
    if (number != FIDDLEQUILL_OK) {
        fprintf(stderr, "%s: refused with %" PRIu32 ", %s\n", site->tasks.path, number, fiddlequill_meaning(number));
        return -1;
    }
    int status = 0;
    for (size_t i = 0; i < site->tasks.len / FIDDLEQUILL_TASK_BYTES; i++)
        if (tell_one(site, site->tasks.bytes + i * FIDDLEQUILL_TASK_BYTES, reply + i * FIDDLEQUILL_ANSWER_BYTES) != 0)
            status = -1;
    return status;
}

static int judge_site(const struct site *site)
{
    size_t reply_len = site->tasks.len / FIDDLEQUILL_TASK_BYTES * FIDDLEQUILL_ANSWER_BYTES;
    uint8_t *reply = reply_len > 0 ? malloc(reply_len) : NULL; /* NULL is fine where no task is to be answered */
    if (reply == NULL && reply_len > 0) {
        fprintf(stderr, "%s: no memory for %zu bytes of answers\n", site->tasks.path, reply_len);
        return -1;
    }
    int status = judge_into(site, reply, reply_len);
    free(reply);
    return status;
}

int main(int argc, char **argv)
{
    struct site site = {.tasks.bytes = NULL, .slots.bytes = NULL};
    if (argc != 2) {
        fprintf(stderr, "usage: desk FOLDER\n");
        return 2;
    }
    int status = -1;
    if (read_records(&site.tasks, argv[1], "tasks.bin", FIDDLEQUILL_TASK_BYTES) == 0 &&
        read_records(&site.slots, argv[1], "slots.bin", FIDDLEQUILL_SLOT_BYTES) == 0)
        status = judge_site(&site);
    free(site.tasks.bytes);
    free(site.slots.bytes);
    return exit_status("desk", status == 0);
}
