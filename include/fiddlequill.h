/*
 * fiddlequill.h - the strip judge, for C and C++.
 *
 * This header is the authority on the C interface: what isn't here isn't
 * published, and what is here holds for every call.
 *
 * A processor turns a wheel of w ticks. Its slots stand in one table for the
 * whole board, each with its owner, and a task has the slots whose owner is its
 * id. When the processor changes hands, the first ticks of a slot may go to the
 * switch. A strip arrives every h ticks and needs e ticks of what the task's
 * slots have left within D ticks of its arrival; with less it is dropped. The
 * judge answers, exactly and for every offset of the first strip, fractions of a
 * tick included:
 *
 *   fiddlequill_judge        how many of k strips drop at worst, from which
 *                            offset, whether at least m of k are always
 *                            painted (firm), and how near it came (the least
 *                            margin)
 *   fiddlequill_site         the same for every task of a site, in one call
 *   fiddlequill_quick        just whether it is firm, yes or no
 *   fiddlequill_which_slot   which slot of a task's board is bad, and why
 *   fiddlequill_count        how many of k strips drop from one given offset
 *   fiddlequill_supply       the usable time that a strip at one given offset gets
 *   fiddlequill_margin       that time minus the strip's need, signed
 *   fiddlequill_grant        how many free slots, taken in number order, make
 *                            a task firm; it marks them
 *   fiddlequill_rounds_judge, fiddlequill_rounds_count
 *                            as fiddlequill_judge and fiddlequill_count, by
 *                            another engine: for k up to 1,000,000, and as an
 *                            independent check where both accept a task
 *
 * All ten calls fail in one way: they refuse with a number from 1 to 19 and
 * 0 stands for success. Every input gets an answer or a refusal; no content of
 * a buffer is undefined behaviour. What the caller must provide is memory: each
 * pointer has as many readable (reply, marks: also writable) bytes as its length
 * says. NULL is fine where the length is 0. No alignment is needed.
 *
 * Threads: there is no global state and no allocation, and the calls are
 * reentrant. The buffer a call may write to (reply, marks) must not overlap
 * with another buffer of that call, nor be used by another thread meanwhile.
 *
 * Stack: a call needs at most 140 KB, FIDDLEQUILL_STACK_BYTES.
 */
#ifndef FIDDLEQUILL_H
#define FIDDLEQUILL_H

#include <stddef.h>
#include <stdint.h>

#ifdef __cplusplus
extern "C" {
#endif

/* Leaving a refusal unread is nearly always a mistake. */
#if defined(__GNUC__) || defined(__clang__)
#define FIDDLEQUILL_CHECK __attribute__((warn_unused_result))
#else
#define FIDDLEQUILL_CHECK
#endif

/* ---- version: a new major number means that callers must be looked through ---- */

#define FIDDLEQUILL_VERSION "5.1.0"
#define FIDDLEQUILL_VERSION_MAJOR 5

/* ---- limits: each one is the largest value that is accepted ---- */

#define FIDDLEQUILL_WHEEL_MAX 16384u            /* w, and N * v in a grant; in ticks */
#define FIDDLEQUILL_SLOTS_MAX 512u              /* slot records of a task's board, whoever owns them */
#define FIDDLEQUILL_ID_MAX 65535u               /* id of a task, and owner of a slot */
#define FIDDLEQUILL_NEED_MAX 1000000u           /* e, in ticks */
#define FIDDLEQUILL_PERIOD_MAX 1000000u         /* h, in ticks; D is at most h */
#define FIDDLEQUILL_STRIPS_MAX 1024u            /* k, but for the calls by whole rounds; m is at most k */
#define FIDDLEQUILL_ROUNDS_STRIPS_MAX 1000000u  /* k in the calls by whole rounds; m is at most k */
#define FIDDLEQUILL_GRANT_SLOTS_MAX 64u         /* N, the length of the mark buffer */

#define FIDDLEQUILL_STACK_BYTES 143360u         /* 140 KB */

/* ---- record sizes, in bytes ---- */

#define FIDDLEQUILL_TASK_BYTES 32u
#define FIDDLEQUILL_SLOT_BYTES 12u
#define FIDDLEQUILL_ANSWER_BYTES 20u

/* ---- refusals ---- */

/* Where several apply, the first in the order listed at the function counts. */
enum fiddlequill_refusal {
    FIDDLEQUILL_OK = 0,               /* not refused */
    FIDDLEQUILL_BAD_LENGTH = 1,       /* not one task record (a site: whole ones), or slots that aren't whole records */
    FIDDLEQUILL_SHORT_REPLY = 2,      /* no room for an answer record (a site: for one each) */
    FIDDLEQUILL_BEYOND_SLOTS = 3,     /* first + count goes beyond the last slot record */
    FIDDLEQUILL_BAD_WHEEL = 4,        /* w isn't from 1 to 16,384 */
                                      /* 5 is given no more: 14 to 17 say what it said */
    FIDDLEQUILL_BAD_NEED = 6,         /* e isn't from 1 to 1,000,000 */
    FIDDLEQUILL_BAD_PERIOD = 7,       /* h isn't from 1 to 1,000,000 */
    FIDDLEQUILL_BAD_DEADLINE = 8,     /* D isn't from 1 to h */
    FIDDLEQUILL_BAD_STRIPS = 9,       /* k isn't from 1 to 1,024; by whole rounds: from 1 to 1,000,000 */
    FIDDLEQUILL_BAD_PAINTED = 10,     /* m isn't from 0 to k */
    FIDDLEQUILL_BEYOND_WHEEL = 11,    /* the offset isn't below 2w half ticks */
    FIDDLEQUILL_BAD_GRANT = 12,       /* N, v, N * v, the loss or a mark is bad (see fiddlequill_grant) */
    FIDDLEQUILL_NEVER_FIRM = 13,      /* no set of the free slots makes the task firm */
    FIDDLEQUILL_MANY_SLOTS = 14,      /* more than 512 slot records */
    FIDDLEQUILL_EMPTY_SLOT = 15,      /* a slot's start isn't below its end */
    FIDDLEQUILL_SLOT_PAST_WHEEL = 16, /* a slot's end is above w */
    FIDDLEQUILL_EARLY_SLOT = 17,      /* a slot's start is below the end of the slot before it, whoever owns that */
    FIDDLEQUILL_LONG_LOSS = 18,       /* a slot's loss is above its length, end - start */
    FIDDLEQUILL_BAD_ID = 19           /* the task's id isn't from 0 to 65,535 */
};

/* ---- records: no header, little endian, no padding, unsigned but for the margin ---- */

/*
 * Task record, 32 bytes
 *   offset  bytes  field
 *        0      4  id      owner of the task's slots, 0 to 65,535; it comes
 *                          back in the answer
 *        4      4  w       ticks in one turn of the wheel, 1 to 16,384
 *        8      4  e       need of a strip in ticks, 1 to 1,000,000; may exceed D
 *       12      4  D       deadline in ticks after the arrival, 1 to h; may exceed w
 *       16      4  h       ticks from one arrival to the next, 1 to 1,000,000
 *       20      4  m       strips to be painted out of k, 0 to k
 *       24      4  k       strips looked at, 1 to 1,024; to 1,000,000 in the
 *                          calls by whole rounds
 *       28      2  first   the first slot record of the task's board, counted
 *                          from 0
 *       30      2  count   how many slot records the board has, 0 to 512
 *
 * Slot record, 12 bytes
 *        0      4  start   first tick of the slot
 *        4      4  end     tick after its last one
 *        8      2  owner   id of the task that has the slot
 *       10      2  loss    ticks at its start that go to the switch, 0 to
 *                          end - start
 *   A slot fits when start < end, end <= w, start is not below the end of the
 *   slot record before it on the same board, and loss <= end - start. So a
 *   board's slots stand in the order of time, whoever owns them. Slots may
 *   touch, and a task without a slot is accepted. Every record of the board must
 *   fit: a task is refused for another owner's bad slot, too. Records outside
 *   first .. first + count - 1 aren't looked at.
 *   A task gets the ticks of its own slots and of no other, from start + loss to
 *   end. But where no switch is, nothing is lost: a slot that starts where a slot
 *   of the same owner ends, also round the end of the wheel (end w, start 0),
 *   gives all its ticks from start on, whatever its loss, and even where the slot
 *   before it loses all of its own. So does a slot that fills the wheel.
 *   Two good boards with the same wheel and the same slots for a task's id give
 *   that task the same results in every call, byte for byte, whatever slots
 *   others have there and wherever first and count point.
 *
 * Answer record, 20 bytes
 *        0      4  id      as in the task
 *        4      2  number  the refusal, 0 for none
 *        6      2  firm    1 when the worst count is at most k - m, else 0
 *        8      4  worst   the largest count of drops over all offsets
 *       12      4  offset  the smallest half tick below 2w with that count
 *       16      4  margin  the least margin of a strip over all offsets, in whole
 *                          ticks; signed, in two's complement
 *                          (fiddlequill_signed)
 *   In a refused task's answer firm, worst, offset and margin are 0.
 *   A strip's margin is its supply minus its need: below zero it is dropped, at
 *   zero it is painted. The least margin is at least 0 exactly when no offset
 *   drops a strip. If it is g, at least 0, the need may still grow by g ticks
 *   before a strip drops, and by no tick more; if it is -g, some strip lacks g
 *   ticks and none lacks more. It tells nothing of m and k: a table may be firm
 *   with a margin below zero.
 */

/* ---- calls ---- */

/*
 * Judges one task and gives the refusal number or 0 (not packed).
 *
 *   task, task_len     one task record
 *   slots, slots_len   the slot records that first and count point into
 *   reply, reply_len   room for one answer record; more room is fine
 *
 * Refusals in checking order, and what each writes:
 *   1, 2                       nothing
 *   3, 19, 4, 14, then slot by slot 15, 16, 17, 18, then 6, 7, 8, 9, 10
 *                              reply[0..19]: id, the number, zeros
 *   0                          reply[0..19]: the whole answer
 * Never written: reply[20] and beyond, task, slots.
 *
 * Success is certain when task_len is 32, slots_len a multiple of 12, reply_len
 * at least 20, first + count within the slot records, every slot of the board
 * fits, and each field is in the range given at the task record.
 */
FIDDLEQUILL_CHECK
uint32_t fiddlequill_judge(const uint8_t *task, size_t task_len,
                           const uint8_t *slots, size_t slots_len,
                           uint8_t *reply, size_t reply_len);

/*
 * Judges every task of a site, each by itself, and gives the refusal number of
 * the whole call or 0 (not packed). Tasks that are refused don't refuse the
 * call: their answers have the number.
 *
 *   tasks, tasks_len   task records one behind the other, none at all included
 *   slots, slots_len   the slot records that first and count of each point into
 *   reply, reply_len   room for as many answer records; more room is fine
 *
 * Refusals in checking order, and what each writes:
 *   1   tasks_len isn't a multiple of 32, or slots_len isn't one of 12 (looked
 *       at also where there are no tasks): nothing
 *   2   reply_len is below 20 bytes for each task: nothing
 *   0   reply[20 * i .. 20 * i + 19] for each task i, counted from 0: exactly
 *       the bytes that fiddlequill_judge of that record alone would write
 * Never written: the reply past the last answer, tasks, slots.
 *
 * Success is certain when tasks_len is a multiple of 32, slots_len a multiple
 * of 12, and reply_len at least 20 bytes for each 32 of tasks_len, whatever the
 * records hold.
 *
 * For a site of up to 100 signs:
 *
 *   static uint8_t reply[100 * FIDDLEQUILL_ANSWER_BYTES];
 *   uint32_t number = fiddlequill_site(tasks, tasks_len, slots, slots_len,
 *                                      reply, sizeof reply);
 *   if (number != FIDDLEQUILL_OK)
 *       return complain(fiddlequill_meaning(number));
 *   for (size_t i = 0; i < tasks_len / FIDDLEQUILL_TASK_BYTES; i++)
 *       print_answer(reply + i * FIDDLEQUILL_ANSWER_BYTES);
 */
FIDDLEQUILL_CHECK
uint32_t fiddlequill_site(const uint8_t *tasks, size_t tasks_len,
                          const uint8_t *slots, size_t slots_len,
                          uint8_t *reply, size_t reply_len);

/*
 * Says whether a task is firm, and nothing else: yes exactly where the answer of
 * fiddlequill_judge has firm 1. Gives the refusal number and firm, 1 or 0, packed
 * in one number: take it apart with fiddlequill_number and fiddlequill_value.
 *
 *   task, task_len     one task record
 *   slots, slots_len   the slot records that first and count point into
 *
 * Refusals in checking order: 1, 3, 19, 4, 14, then slot by slot 15, 16, 17, 18,
 * then 6, 7, 8, 9, 10; each comes with firm 0, so look at the number first: only
 * beside number 0 does firm 0 tell of a table that isn't good enough.
 * Never written: anything.
 *
 * Success is certain when judging the same task and slots with a reply of 20
 * bytes succeeds. Where that is refused, this call gives the same number.
 *
 * It is meant for a verdict that is asked for again and again while someone
 * drags a slider: it stops as soon as the verdict is certain, so it is mostly
 * faster than judging, and never much slower. How many strips drop, from where,
 * and how near it came is what fiddlequill_judge tells.
 *
 *   uint64_t result = fiddlequill_quick(task, FIDDLEQUILL_TASK_BYTES,
 *                                       slots, slots_len);
 *   if (fiddlequill_number(result) != FIDDLEQUILL_OK)
 *       puts(fiddlequill_meaning(fiddlequill_number(result)));
 *   else
 *       puts(fiddlequill_value(result) == 1 ? "firm" : "not firm");
 */
FIDDLEQUILL_CHECK
uint64_t fiddlequill_quick(const uint8_t *task, size_t task_len,
                           const uint8_t *slots, size_t slots_len);

/*
 * Says which slot of a task's board is bad, whoever owns it, and why. The task's
 * other numbers (e, D, h, m and k) aren't looked at. Gives the refusal number and
 * a place, packed in one number: take it apart with fiddlequill_number and
 * fiddlequill_value.
 *
 *   task, task_len     one task record
 *   slots, slots_len   the slot records that first and count point into
 *
 * Refusals in checking order, and the place beside each:
 *   1, 3, 19, 4, 14               0
 *   slot by slot 15, 16, 17, 18   the first bad slot's, counted from 0 at the
 *                                 board's first: it is slot record first + place
 *   0                             0: the board is good
 * The number tells whether a place is meant (fiddlequill_about_slot): only
 * beside 15 to 18 is place 0 the board's first slot.
 * Never written: anything.
 *
 * Success is certain when task_len is 32, slots_len a multiple of 12, first +
 * count within the slot records, id, w and count are in the ranges given at the
 * task record, and every slot of the board fits.
 *
 * Judging, fiddlequill_quick, counting, supply or margin on the same task and
 * slots, and judging or counting by whole rounds, gives the same number whenever
 * it gives 1, 3, 4 or 14 to 19, and gives none of these when this call gives 0
 * (judging gives 2 before all of them but 1 when the reply is too short).
 *
 * To tell a supplier:
 *
 *   uint64_t result = fiddlequill_which_slot(task, FIDDLEQUILL_TASK_BYTES,
 *                                            slots, slots_len);
 *   uint32_t number = fiddlequill_number(result);
 *   if (fiddlequill_about_slot(number))
 *       printf("slot %" PRIu32 " of the board: %s\n", fiddlequill_value(result),
 *              fiddlequill_meaning(number));
 *   else if (number != FIDDLEQUILL_OK)
 *       printf("the board: %s\n", fiddlequill_meaning(number));
 */
FIDDLEQUILL_CHECK
uint64_t fiddlequill_which_slot(const uint8_t *task, size_t task_len,
                                const uint8_t *slots, size_t slots_len);

/*
 * Counts the dropped strips when the first one arrives at `offset`, in half
 * ticks. Gives the refusal number and the count, 0 to k, packed in one number:
 * take it apart with fiddlequill_number and fiddlequill_value.
 *
 *   task, task_len     one task record
 *   slots, slots_len   the slot records that first and count point into
 *   offset             in half ticks, 0 to 2w - 1
 *
 * Refusals in checking order: 1, 3, 19, 4, 14, then slot by slot 15, 16, 17, 18,
 * then 6, 7, 8, 9, 10, 11; each comes with count 0. (m plays no part in the
 * count, but a bad one is refused all the same.) All 64 bits of the offset are
 * looked at.
 * Never written: anything.
 *
 * Success is certain when judging the same task and slots with a reply of 20
 * bytes succeeds and offset is below 2w. The count is at most the judged worst
 * count, and equals it at the judged worst offset.
 */
FIDDLEQUILL_CHECK
uint64_t fiddlequill_count(const uint8_t *task, size_t task_len,
                           const uint8_t *slots, size_t slots_len,
                           uint64_t offset);

/*
 * Gives the supply of a strip that arrives at `offset`, in half ticks: the usable
 * time within D ticks of its arrival, also counted in half ticks, 0 to 2D. Ticks
 * that go to the switch aren't usable.
 * Packed with the refusal number like fiddlequill_count's result.
 *
 * Arguments, refusals, and when success is certain, as for fiddlequill_count; each
 * refusal comes with supply 0. Never written: anything.
 */
FIDDLEQUILL_CHECK
uint64_t fiddlequill_supply(const uint8_t *task, size_t task_len,
                            const uint8_t *slots, size_t slots_len,
                            uint64_t offset);

/*
 * Gives the margin of a strip that arrives at `offset`, in half ticks: its
 * supply minus its need, counted in half ticks, -2e to 2D - 2e. Below zero the
 * strip is dropped. Packed with the refusal number like fiddlequill_count's
 * result, in two's complement: fiddlequill_signed gives it back.
 *
 * Arguments, refusals, and when success is certain, as for fiddlequill_count; each
 * refusal comes with margin 0, so look at the number first. Never written:
 * anything.
 *
 *   uint64_t result = fiddlequill_margin(task, FIDDLEQUILL_TASK_BYTES,
 *                                        slots, slots_len, 9);
 *   if (fiddlequill_number(result) == FIDDLEQUILL_OK &&
 *       fiddlequill_signed(fiddlequill_value(result)) < 0)
 *       puts("a strip at half tick 9 is dropped");
 *
 * No offset has a smaller margin than twice the judged least margin, and some
 * even offset, a whole tick, has just that.
 */
FIDDLEQUILL_CHECK
uint64_t fiddlequill_margin(const uint8_t *task, size_t task_len,
                            const uint8_t *slots, size_t slots_len,
                            uint64_t offset);

/*
 * Grants a task the first j free slots of a wheel of N equal slots, with the
 * smallest j that makes it firm. Gives the refusal number and j, 0 to N,
 * packed like fiddlequill_count's result.
 *
 *   marks, marks_len   one byte for each slot, N = marks_len; slot i lasts from
 *                      tick i * v to (i + 1) * v; 0 is taken, 1 is free
 *   v                  ticks in a slot; the wheel has w = N * v ticks
 *   loss               ticks at the start of a granted slot that go to the
 *                      switch, 0 to v: one number for all slots; a granted slot
 *                      behind one that is granted now, too, loses nothing (slot
 *                      0 is behind slot N - 1, and the only slot of a wheel
 *                      behind itself); a taken slot before it doesn't help
 *   e, d, h, m, k      the task, with the ranges of the task record's fields
 *                      e, D, h, m, k
 * All 64 bits of each number are looked at.
 *
 * Refusals in checking order; each comes with j = 0 and moves no mark:
 *   12   N isn't from 1 to 64, v is 0, the wheel of N * v ticks is longer than
 *        16,384, loss is above v, or some mark isn't 0 or 1 (a 2 left over must
 *        be settled first)
 *   6, 7, 8, 9, 10   as for a task record
 *   13   no set of free slots, in number order or not, makes the task firm
 * On success the marks of the j granted slots become 2.
 * Never written: any other mark.
 *
 * On success j is 0 exactly when m is 0, and then no mark moves. Success is
 * certain when 12 and 6 to 10 don't apply and the task is firm with all free
 * slots.
 */
FIDDLEQUILL_CHECK
uint64_t fiddlequill_grant(uint8_t *marks, size_t marks_len, uint64_t v,
                           uint64_t loss, uint64_t e, uint64_t d, uint64_t h,
                           uint64_t m, uint64_t k);

/* ---- long windows: a second engine, by whole rounds ---- */

/*
 * Judges one task and gives the refusal number or 0 (not packed), as
 * fiddlequill_judge does, but for k from 1 to 1,000,000.
 *
 * The strips' places on the wheel come back after a round, and whole rounds are
 * counted at once: so the time goes by the wheel, not by k. The two engines share
 * how records are read, and how it is found where strips drop; they count on
 * their own.
 *
 *   k up to 1,024   use fiddlequill_judge, which is mostly faster; this call
 *                   gives the same, and serves as a check of it
 *   k above 1,024   use this call: fiddlequill_judge refuses such a task with 9
 *
 * Arguments, refusals in checking order, what each writes, and when success is
 * certain, as for fiddlequill_judge; only 9 is another: it is given where k is 0
 * or above 1,000,000 (FIDDLEQUILL_ROUNDS_STRIPS_MAX). So wherever
 * fiddlequill_judge doesn't give 9, both calls give the same number and write
 * the same bytes. The answer record is the same, too, with a worst count of up to
 * k; the least margin knows nothing of k.
 * Never written: reply[20] and beyond, task, slots.
 *
 * For windows of any length:
 *
 *   uint32_t number =
 *       k <= FIDDLEQUILL_STRIPS_MAX
 *           ? fiddlequill_judge(task, FIDDLEQUILL_TASK_BYTES, slots, slots_len,
 *                               reply, sizeof reply)
 *           : fiddlequill_rounds_judge(task, FIDDLEQUILL_TASK_BYTES, slots,
 *                                      slots_len, reply, sizeof reply);
 *   if (number != FIDDLEQUILL_OK)
 *       return complain(fiddlequill_meaning(number));
 *   print_answer(reply);
 */
FIDDLEQUILL_CHECK
uint32_t fiddlequill_rounds_judge(const uint8_t *task, size_t task_len,
                                  const uint8_t *slots, size_t slots_len,
                                  uint8_t *reply, size_t reply_len);

/*
 * Counts the dropped strips when the first one arrives at `offset`, in half
 * ticks, as fiddlequill_count does, but for k from 1 to 1,000,000 and in a time
 * that goes by the wheel. Gives the refusal number and the count, 0 to k, packed
 * in one number: take it apart with fiddlequill_number and fiddlequill_value.
 *
 * Arguments, refusals in checking order, and when success is certain, as for
 * fiddlequill_count; only 9 is another, as for fiddlequill_rounds_judge. So
 * wherever fiddlequill_count doesn't give 9, both calls give the same.
 * Never written: anything.
 *
 * The count is at most the worst count that fiddlequill_rounds_judge finds, and
 * equals it at the offset that it finds.
 *
 *   uint64_t result = fiddlequill_rounds_count(task, FIDDLEQUILL_TASK_BYTES,
 *                                              slots, slots_len, 9);
 *   if (fiddlequill_number(result) == FIDDLEQUILL_OK)
 *       printf("%" PRIu32 " strips are dropped\n", fiddlequill_value(result));
 */
FIDDLEQUILL_CHECK
uint64_t fiddlequill_rounds_count(const uint8_t *task, size_t task_len,
                                  const uint8_t *slots, size_t slots_len,
                                  uint64_t offset);

/* ---- helpers ---- */

/* The refusal number in a packed result. */
static inline uint32_t fiddlequill_number(uint64_t packed)
{
    return (uint32_t)(packed >> 32);
}

/* The count, the supply, the granted slots, the bad slot's place or firm (1 or 0)
 * in a packed result, or the margin in two's complement; 0 beside a refusal, but
 * for the place that fiddlequill_which_slot gives. */
static inline uint32_t fiddlequill_value(uint64_t packed)
{
    return (uint32_t)(packed & 0xffffffffu);
}

/* A margin as a signed number, from the 32 bits in which a packed result or an
 * answer record has it. */
static inline int32_t fiddlequill_signed(uint32_t bits)
{
    return bits <= 0x7fffffffu ? (int32_t)bits : -(int32_t)(0xffffffffu - bits) - 1;
}

/* Whether a refusal is about one slot: 1 for 15 to 18, else 0. */
static inline int fiddlequill_about_slot(uint32_t number)
{
    return number >= FIDDLEQUILL_EMPTY_SLOT && number <= FIDDLEQUILL_LONG_LOSS;
}

/* One line on a refusal number, for people. Never NULL. */
static inline const char *fiddlequill_meaning(uint32_t number)
{
    switch (number) {
    case FIDDLEQUILL_OK:
        return "not refused";
    case FIDDLEQUILL_BAD_LENGTH:
        return "the task isn't 32 bytes long (a site: a multiple of 32), or the slots aren't a multiple of 12 bytes";
    case FIDDLEQUILL_SHORT_REPLY:
        return "the reply buffer is shorter than 20 bytes for each task";
    case FIDDLEQUILL_BEYOND_SLOTS:
        return "first + count goes beyond the last slot record";
    case FIDDLEQUILL_BAD_WHEEL:
        return "the wheel w isn't from 1 to 16,384 ticks";
    case FIDDLEQUILL_BAD_NEED:
        return "the need e isn't from 1 to 1,000,000 ticks";
    case FIDDLEQUILL_BAD_PERIOD:
        return "the period h isn't from 1 to 1,000,000 ticks";
    case FIDDLEQUILL_BAD_DEADLINE:
        return "the deadline D isn't from 1 to h ticks";
    case FIDDLEQUILL_BAD_STRIPS:
        return "the number of strips k isn't from 1 to 1,024";
    case FIDDLEQUILL_BAD_PAINTED:
        return "m asks for more painted strips than k";
    case FIDDLEQUILL_BEYOND_WHEEL:
        return "the offset isn't below 2w half ticks";
    case FIDDLEQUILL_BAD_GRANT:
        return "the grant has no slots or over 64, a wheel of 0 or over 16,384 ticks, a loss above v, or a mark other "
               "than 0 and 1";
    case FIDDLEQUILL_NEVER_FIRM:
        return "no choice of the free slots makes the task firm";
    case FIDDLEQUILL_MANY_SLOTS:
        return "the board has more than 512 slot records";
    case FIDDLEQUILL_EMPTY_SLOT:
        return "a slot whose start isn't below its end";
    case FIDDLEQUILL_SLOT_PAST_WHEEL:
        return "a slot whose end is above the wheel w";
    case FIDDLEQUILL_EARLY_SLOT:
        return "a slot whose start is below the end of the slot before it";
    case FIDDLEQUILL_LONG_LOSS:
        return "a slot whose loss is above its length";
    case FIDDLEQUILL_BAD_ID:
        return "the id isn't from 0 to 65,535";
    default:
        return "not a refusal number";
    }
}

#ifdef __cplusplus
}
#endif

#endif
