/* What the inputs of a run have met. A class that no input met fails the run. */
#ifndef TALLY_H
#define TALLY_H

#include "inputs.h"

enum { NUMBERS = 20 }; /* refusals 1 to 19, and 0; no call gives 5 */

/*
 * Refusals 15 to 18 are about one slot, and it is the first bad one: a board's first, its last, or one between; and it
 * is the task's own or another owner's.
 */
enum { ABOUT_SLOT = 15, SLOT_NUMBERS = 4 };
enum slot_kind { FIRST_PLACE, MIDDLE_PLACE, LAST_PLACE, OWN_SLOT, OTHERS_SLOT, SLOT_KINDS };

/* What should come out, by definition. */
struct expected {
    uint64_t result; /* as the call returns it: plain for judging a task or a site, packed otherwise */
    uint64_t quick;          /* packed, the verdict alone of a task that is judged, whatever its reply is like */
    uint64_t supply, margin; /* packed, at the offset of a count */
    uint64_t rounds;         /* the result by whole rounds, of a task that is judged or counted */
    uint8_t reply[SITE_REPLY_ROOM], marks[MARKS_ROOM];
    uint8_t rounds_reply[REPLY_ROOM];       /* of one that is judged */
    struct verdict verdict, rounds_verdict; /* of an accepted judging, by either engine */
};

/* By whole rounds, the same for judging and counting, of which judging goes by its worst offset. */
#define ROUNDS_CLASSES(X, ID, CALL)                                                                                    \
    X(ID##_1023, CALL "k 1,023, some strips drop, not all")                                                            \
    X(ID##_1024, CALL "k 1,024, some strips drop, not all")                                                            \
    X(ID##_1025, CALL "k 1,025, some strips drop, not all")                                                            \
    X(ID##_1026, CALL "k 1,026, some strips drop, not all")                                                            \
    X(ID##_999999, CALL "k 999,999, some strips drop, not all")                                                        \
    X(ID##_1000000, CALL "k 1,000,000, some strips drop, not all")                                                     \
    X(ID##_NO_ROUND, CALL "both engines, less than a round, some strips drop, not all")                                \
    X(ID##_NONE_OVER, CALL "both engines, whole rounds, some strips drop, not all")                                    \
    X(ID##_SOME_OVER, CALL "both engines, whole rounds and some strips over, some drop, not all")                      \
    X(ID##_LONG_NO_ROUND, CALL "k above 1,024, less than a round, some strips drop, not all")                          \
    X(ID##_LONG_NONE_OVER, CALL "k above 1,024, whole rounds, some strips drop, not all")                              \
    X(ID##_LONG_SOME_OVER, CALL "k above 1,024, whole rounds and some strips over, some drop, not all")                \
    X(ID##_ONE_OVER, CALL "k above 1,024, whole rounds of several strips and one over, some drop, not all")            \
    X(ID##_ONE_SHORT, CALL "k above 1,024, whole rounds of several strips but for one, some drop, not all")            \
    X(ID##_TURNS, CALL "k above 1,024, h a multiple of w, all strips drop, though the task has ticks")                 \
    X(ID##_COPRIME, CALL "k above 1,024, no common divisor of w and h above 1, some strips drop, not all")             \
    X(ID##_DIVISOR, CALL "k above 1,024, a common divisor of w and h above 1 and below w, some drop, not all")         \
    X(ID##_REST_TELLS, CALL "k above 1,024, whole rounds, and strips beyond them drop")                                \
    X(ID##_ROUND_TELLS, CALL "k above 1,024, and strips of a round drop")                                              \
    X(ID##_LENGTH_TELLS, CALL "k above 1,024, and more drop in as many strips as ticks than in a round")               \
    X(ID##_SIDE_TELLS, CALL "k above 1,024, another count from the other half tick of the tick")                       \
    X(ID##_PLACE_TELLS, CALL "k above 1,024, a painted strip would drop if its place were cut to 32 bits")             \
    X(ID##_PAST_65535, CALL "above 65,535 strips drop, not all")                                                       \
    X(ID##_LARGE, CALL "k above 1,024, w above 8,192, some strips drop, not all")                                      \
    X(ID##_SHARED, CALL "k above 1,024, others' slots beside the task's, some strips drop, not all")                   \
    X(ID##_LOSS, CALL "k above 1,024, ticks are lost, some strips drop, not all")                                      \
    X(ID##_PAST, CALL "refused 9: k 1,000,001")                                                                        \
    X(ID##_WIDE, CALL "refused 9: k 2^32 - 1")                                                                         \
    X(ID##_8_9, CALL "refused 8 before 9: k above 1,000,000 as well")                                                  \
    X(ID##_9_10, CALL "refused 9 before 10: k above 1,000,000, and m above k as well")                                 \
    X(ID##_PAINTED, CALL "refused 10: k above 1,024, m one above k")

#define CLASSES(X)                                                                                                     \
    X(DROPS_NONE, "judged: nothing drops")                                                                             \
    X(DROPPED, "judged: something drops")                                                                              \
    X(DROPS_SOME, "judged: something drops, not all")                                                                  \
    X(DROPS_ALL, "judged: all strips drop")                                                                            \
    X(WORST_ODD, "judged: the worst offset is an odd half tick")                                                       \
    X(WORST_ZERO, "judged: something drops and the worst offset is 0")                                                 \
    X(FIRM, "judged: firm")                                                                                            \
    X(NOT_FIRM, "judged: not firm")                                                                                    \
    X(AT_ALLOWANCE, "judged: drops equal to the allowance k - m, above 0")                                             \
    X(PAST_ALLOWANCE, "judged: drops one past the allowance")                                                          \
    X(EQUAL_SUPPLY, "judged: a supply of exactly e")                                                                   \
    X(FRACTION, "judged: a p/q with q above 2 and drops tried")                                                        \
    X(WIDE_COUNT, "judged: more than 255 strips drop, not all")                                                        \
    X(COUNT_256, "judged: exactly 256 strips drop")                                                                    \
    X(LEAST_BELOW, "judged: a least margin below zero")                                                                \
    X(LEAST_ZERO, "judged: a least margin of zero")                                                                    \
    X(LEAST_ABOVE, "judged: a least margin above zero")                                                                \
    X(LEAST_LONE_BELOW, "judged: a least margin below zero that one whole tick has, and no odd half tick")             \
    X(LEAST_LONE_ZERO, "judged: a least margin of zero that one whole tick has, and no odd half tick")                 \
    X(LEAST_LONE_ABOVE, "judged: a least margin above zero that one whole tick has, and no odd half tick")             \
    X(LEAST_WIDE_BELOW, "judged: a least margin below -65,536")                                                        \
    X(LEAST_WIDE_ABOVE, "judged: a least margin above 65,535")                                                         \
    X(LEAST_IN_TURNS, "judged: D of whole turns and a rest, and the turns alone give more than e")                     \
    X(LEAST_PAST_TURNS, "judged: D of whole turns and a rest, and e is more than both could give")                     \
    X(LEAST_OVER_D, "judged: e above D by two ticks or more")                                                          \
    X(LEAST_FIRM, "judged: firm with a least margin below zero")                                                       \
    X(FRACTION_NEAR, "judged: a p/q with q above 3 tried, less than a tick above the least margin")                    \
    X(EXACT_REPLY, "judged: a reply of just an answer record")                                                         \
    X(LONG_REPLY, "judged: a reply one byte longer")                                                                   \
    X(LARGE_WHEEL, "judged: w above 8,192 and some strips drop")                                                       \
    X(MANY_STRIPS, "judged: k above 512 and some strips drop")                                                         \
    X(SHARED_DROPS, "judged: some strips drop, not all, on a board with others' slots beside the task's")              \
    X(SHARED_WORST, "judged: a strip at the worst offset would be painted if every slot were the task's")              \
    X(SHARED_LEAST, "judged: the tick of the least margin would have more if every slot were the task's")              \
    X(OWNED_65, "judged: more than 64 slots of the task's, and strips drop")                                           \
    X(OWNED_512, "judged: 512 slots of the task's, and strips drop")                                                   \
    X(LOSS_WORST, "judged: fewer strips would drop at worst if nothing were lost")                                     \
    X(LOSS_FIRM, "judged: not firm, but firm if nothing were lost")                                                    \
    X(LOSS_LEAST, "judged: the least margin would be larger if nothing were lost")                                     \
    X(TOUCH_WORST, "judged: more strips would drop at worst if slots lost whatever they touch")                        \
    X(TOUCH_FIRM, "judged: firm, but not if slots lost whatever they touch")                                           \
    X(TOUCH_LEAST, "judged: the least margin would be smaller if slots lost whatever they touch")                      \
    X(LOSS_ANSWER, "judged: another answer if nothing were lost")                                                      \
    X(TOUCH_ANSWER, "judged: another answer if slots lost whatever they touch")                                        \
    X(ROUND_ANSWER, "judged: another answer if a slot at 0 lost, though one of the task's ends at w")                  \
    X(FILL_ANSWER, "judged: another answer if a slot that fills the wheel lost")                                       \
    X(LOST_BEFORE_ANSWER, "judged: another answer if a slot lost behind one of the task's that gives no tick")         \
    X(OTHERS_ANSWER, "judged: another answer if a slot lost nothing behind another owner's")                           \
    X(OUTSIDE_ANSWER, "judged: another answer if a slot lost nothing behind one outside the board")                    \
    X(LOW_BYTE_ANSWER, "judged: another answer by the lower bytes of the losses")                                      \
    X(HIGH_BYTE_ANSWER, "judged: another answer by the upper bytes of the losses")                                     \
    X(LOSS_MANY, "judged: ticks are lost, more than 64 slots of the task's, and some strips drop, not all")            \
    ROUNDS_CLASSES(X, ROUNDS_JUDGED, "judged by rounds: ")                                                             \
    X(ROUNDS_FIRM, "judged by rounds: firm, k above 1,024, as many drop as may, not all")                              \
    X(ROUNDS_NOT_FIRM, "judged by rounds: not firm by one strip, k above 1,024, not all drop")                         \
    X(ROUNDS_NONE, "judged by rounds: k above 1,024, nothing drops")                                                   \
    X(ROUNDS_ALL, "judged by rounds: k above 1,024, all strips drop from every offset")                                \
    X(ROUNDS_ODD, "judged by rounds: k above 1,024, the worst offset is an odd half tick")                             \
    X(ROUNDS_ORBIT, "judged by rounds: k above 1,024, the worst offset is no place of the strips from tick 0")         \
    X(ROUNDS_LONG_REPLY, "judged by rounds: k above 1,024, a reply one byte longer")                                   \
    X(ROUNDS_SHORT_REPLY, "judged by rounds: refused 2, k above 1,024")                                                \
    X(QUICK_M_0, "verdict: firm with m 0, and all strips drop, but not from every offset")                             \
    X(QUICK_ALL_FIRM, "verdict: firm with m 0, and all strips drop from every offset")                                 \
    X(QUICK_ALL_NOT, "verdict: not firm, and all strips drop from every offset")                                       \
    X(QUICK_BETWEEN_NOT, "verdict: not firm, all strips between two ticks drop, some on a tick don't")                 \
    X(QUICK_PAINTED_FIRM, "verdict: firm with m = k")                                                                  \
    X(QUICK_PAINTED_NOT, "verdict: not firm with m = k, and one strip drops")                                          \
    X(QUICK_ONE_PAINTED, "verdict: firm with k = m = 1")                                                               \
    X(QUICK_255, "verdict: not firm, 255 strips may drop and 256 do")                                                  \
    X(QUICK_ZERO_FIRM, "verdict: firm, as many drop as may, first from offset 0")                                      \
    X(QUICK_ZERO_NOT, "verdict: not firm by one strip, first from offset 0")                                           \
    X(QUICK_ONE_FIRM, "verdict: firm, k 1, as many drop as may")                                                       \
    X(QUICK_ONE_NOT, "verdict: not firm by one strip, k 1")                                                            \
    X(QUICK_MOST_FIRM, "verdict: firm, k 1,024, as many drop as may, not all")                                         \
    X(QUICK_MOST_NOT, "verdict: not firm by one strip, k 1,024, not all drop")                                         \
    X(QUICK_WIDE_FIRM, "verdict: firm, as many drop as may, above 255, not all")                                       \
    X(QUICK_WIDE_NOT, "verdict: not firm by one strip, above 255 drop, not all")                                       \
    X(QUICK_RUN_FIRM, "verdict: firm, as many drop as may, one late run")                                              \
    X(QUICK_RUN_NOT, "verdict: not firm by one strip, one late run")                                                   \
    X(QUICK_SPARSE_FIRM, "verdict: firm, as many drop as may, few strips and late runs on a long wheel")               \
    X(QUICK_SPARSE_NOT, "verdict: not firm by one strip, few strips and late runs on a long wheel, average open")      \
    X(QUICK_RUNS_FIRM, "verdict: firm, as many drop as may, more than 64 late runs")                                   \
    X(QUICK_RUNS_NOT, "verdict: not firm by one strip, more than 64 late runs")                                        \
    X(QUICK_END_FIRM, "verdict: firm, as many drop as may, a late run goes over the wheel's end")                      \
    X(QUICK_END_NOT, "verdict: not firm by one strip, a late run goes over the wheel's end")                           \
    X(QUICK_DIVISOR_FIRM, "verdict: firm, as many drop as may, a common divisor of w and h above 1 and below w")       \
    X(QUICK_DIVISOR_NOT, "verdict: not firm by one strip, a common divisor of w and h above 1 and below w")            \
    X(QUICK_TURNS_FIRM, "verdict: firm, as many drop as may, h a multiple of w, not every tick late")                  \
    X(QUICK_TURNS_NOT, "verdict: not firm by one strip, h a multiple of w, not every tick late")                       \
    X(QUICK_LOSS_FIRM, "verdict: firm, as many drop as may, and ticks are lost")                                       \
    X(QUICK_LOSS_NOT, "verdict: not firm by one strip, and ticks are lost")                                            \
    X(QUICK_BELOW_FIRM, "verdict: firm, k x late ticks below (k - m) x w, by w at most")                               \
    X(QUICK_BELOW_NOT, "verdict: not firm, k x late ticks below (k - m) x w, by w at most")                            \
    X(QUICK_EQUAL_FIRM, "verdict: firm, k x late ticks equal to (k - m) x w, not all late")                            \
    X(QUICK_EQUAL_NOT, "verdict: not firm, k x late ticks equal to (k - m) x w, not all late")                         \
    X(QUICK_ABOVE_NOT, "verdict: not firm, k x late ticks above (k - m) x w, by w at most")                            \
    X(QUICK_FIRST_SHOWS, "verdict: not firm, and of several late runs the first alone leads to where it shows")        \
    X(QUICK_MIDDLE_SHOWS, "verdict: not firm, and a late run between others alone leads to where it shows")            \
    X(QUICK_LAST_SHOWS, "verdict: not firm, and of several late runs the last alone leads to where it shows")          \
    X(QUICK_END_SHOWS, "verdict: not firm, and of several late runs one over the wheel's end alone leads there")       \
    X(QUICK_PAST_64, "verdict: not firm, and a late run behind the 64th, not the last, alone leads to where it shows") \
    X(QUICK_START_SHOWS, "verdict: not firm, k above 1, and only the first strip at a late run's start shows it")      \
    X(QUICK_FINISH_SHOWS, "verdict: not firm, k above 1, and only the last strip at a late run's start shows it")      \
    X(NO_SLOTS, "accepted: no slot records")                                                                           \
    X(NULL_SLOTS, "accepted: NULL for slots")                                                                          \
    X(TOUCHING, "accepted: touching slots of the task's")                                                              \
    X(TOUCHING_OTHER, "accepted: a slot of the task's touches another owner's")                                        \
    X(FULL_WHEEL, "accepted: the task's slots fill the wheel")                                                         \
    X(FULL_BOARD, "accepted: the slots fill the wheel, the task's alone don't")                                        \
    X(LOSS_WHOLE, "accepted: a slot of the task's that touches none of its own loses all its ticks")                   \
    X(LOSS_ALL_BUT_ONE, "accepted: a slot of the task's, two ticks or longer, loses all but one")                      \
    X(LOSS_EVERY, "accepted: the task has slots, and all their ticks are lost")                                        \
    X(LOSS_WHOLE_TOUCHING, "accepted: a loss as long as its slot, which touches one of the task's")                    \
    X(LOSS_OTHERS, "accepted: another owner's slot has a loss, and the task's have none")                              \
    X(LOSS_OTHERS_WHOLE, "accepted: another owner's loss as long as its slot")                                         \
    X(LOSS_256, "accepted: a slot of the task's loses a whole number of 256 ticks")                                    \
    X(LOSS_ROUND_BELOW, "accepted: a slot at 0 loses ticks, and the last slot, the task's, ends one below w")          \
    X(LOSS_ROUND_OTHER, "accepted: a slot at 0 loses ticks, and another owner's ends at w")                            \
    X(RECORDS_64, "accepted: 64 slot records")                                                                         \
    X(RECORDS_65, "accepted: 65 slot records")                                                                         \
    X(RECORDS_511, "accepted: 511 slot records")                                                                       \
    X(RECORDS_512, "accepted: 512 slot records")                                                                       \
    X(OWNER_ALONE, "accepted: several slots, all of them the task's")                                                  \
    X(OWNER_NONE, "accepted: slots, none of them the task's")                                                          \
    X(OWNER_BETWEEN, "accepted: another owner's slot between two of the task's")                                       \
    X(OWNER_LOW, "accepted: another owner that differs from the id in its upper byte alone")                           \
    X(OWNER_HIGH, "accepted: another owner that differs from the id in its lower byte alone")                          \
    X(OWNER_0, "accepted: id 0, with slots of its own and others'")                                                    \
    X(OWNER_65535, "accepted: id 65,535, with slots of its own and others'")                                           \
    X(OUTSIDE_BEFORE, "accepted: the record before the board would fit, and its owner is the id")                      \
    X(OUTSIDE_BEHIND, "accepted: the record behind the board would fit, and its owner is the id")                      \
    X(LONG_DEADLINE, "accepted: D above w")                                                                            \
    X(WHOLE_TURNS, "accepted: h a multiple of w")                                                                      \
    X(NEED_OVER_D, "accepted: e above D")                                                                              \
    X(LEAST_WHEEL, "accepted: w 1")                                                                                    \
    X(MOST_NEED, "accepted: e 1,000,000")                                                                              \
    X(MOST_PERIOD, "accepted: h 1,000,000")                                                                            \
    X(MOST_DEADLINE, "accepted: D 1,000,000")                                                                          \
    X(MOST_STRIPS, "accepted: k 1,024")                                                                                \
    X(ALL_PAINTED, "accepted: m equal to k")                                                                           \
    X(NONE_PAINTED, "accepted: m 0")                                                                                   \
    X(LAST_RECORDS, "accepted: slots at the very end of the buffer, first above 0")                                    \
    X(LAST_FIRST, "accepted: first 65,535")                                                                            \
    X(TASK_EMPTY, "refused 1: a task of 0 bytes")                                                                      \
    X(TASK_31, "refused 1: a task of 31 bytes")                                                                        \
    X(TASK_33, "refused 1: a task of 33 bytes")                                                                        \
    X(SLOTS_ODD, "refused 1: slots not a multiple of 12")                                                              \
    X(SLOTS_EIGHT, "refused 1: slots a multiple of 8, not of 12")                                                      \
    X(REPLY_EMPTY, "refused 2: a reply of 0 bytes")                                                                    \
    X(REPLY_SHORT, "refused 2: a reply one byte short")                                                                \
    X(REPLY_NO_MARGIN, "refused 2: a reply with room for all but the margin")                                          \
    X(ONE_BEYOND, "refused 3: first + count one over the end")                                                         \
    X(SUM_WIDE, "refused 3: first + count above 65,535 whose low 16 bits would do")                                    \
    X(ONES, "refused 3: a task of all ones")                                                                           \
    X(ORDER_3_19, "refused 3 before 19: the id is bad as well")                                                        \
    X(ID_65536, "refused 19: id 65,536")                                                                               \
    X(ID_LOW, "refused 19: an id whose low 16 bits would do, and own a slot")                                          \
    X(ID_WIDE, "refused 19: id 2^32 - 1")                                                                              \
    X(ORDER_19_4, "refused 19 before 4: w is bad as well")                                                             \
    X(ORDER_19_14, "refused 19 before 14: more than 512 slots as well")                                                \
    X(ORDER_19_15, "refused 19 before 15 to 18: a slot is bad as well")                                                \
    X(ORDER_19_6, "refused 19 before 6: e is bad as well")                                                             \
    X(PAST_WHEEL, "refused 4: w 16,385")                                                                               \
    X(COUNT_513, "refused 14: 513 slots, of which 512 would do")                                                       \
    X(COUNT_WIDE, "refused 14: count 65,535 with that many records")                                                   \
    X(ORDER_4_6, "refused 4 before 6: w and e are both bad")                                                           \
    X(ORDER_14_6, "refused 14 to 17 before 6: the slots and e are both bad")                                           \
    X(ORDER_18_6, "refused 18 before 6: a loss and e are both bad")                                                    \
    X(EARLY_OWN, "refused 17: a slot of the task's against another owner's, though not against the task's before it")  \
    X(EARLY_OTHER, "refused 17: another owner's slot against one of the task's")                                       \
    X(EARLY_THIRD, "refused 17: another owner's slot against a third owner's")                                         \
    X(LOSS_OVER, "refused 18: a loss one above the length")                                                            \
    X(LOSS_SHORT, "refused 18: a loss below 256")                                                                      \
    X(LOSS_WHOLE_BYTES, "refused 18: a loss of a whole number of 256s")                                                \
    X(LOSS_LOW, "refused 18: a loss whose lower byte would do, and isn't zero")                                        \
    X(LOSS_WIDE, "refused 18: a loss of 65,535")                                                                       \
    X(LOSS_TOUCHING, "refused 18: the slot touches one of its owner's")                                                \
    X(LOSS_FILLING, "refused 18: the slot fills the wheel")                                                            \
    X(BAD_OTHERS, "refused 15 to 18: every slot of the task's would do")                                               \
    X(PAST_NEED, "refused 6: e 1,000,001")                                                                             \
    X(PAST_PERIOD, "refused 7: h 1,000,001")                                                                           \
    X(PAST_DEADLINE, "refused 8: D one above h")                                                                       \
    X(PAST_STRIPS, "refused 9: k 1,025")                                                                               \
    X(PAST_PAINTED, "refused 10: m one above k")                                                                       \
    X(COUNTED_SOME, "counted: some strips drop, not all")                                                              \
    X(COUNTED_FEW, "counted: fewer strips than ticks, some drop, not all")                                             \
    X(COUNTED_TURN, "counted: as many strips as ticks, some drop, not all")                                            \
    X(COUNTED_TURNS, "counted: whole turns of strips, two or more, and none over, some drop, not all")                 \
    X(COUNTED_OVER, "counted: whole turns of strips and some over, some drop, not all")                                \
    X(COUNTED_ODD, "counted: drops from an odd half tick")                                                             \
    X(LAST_OFFSET, "counted: offset 2w - 1")                                                                           \
    X(SHARED_COUNT, "counted: some strips drop, not all, on a board with others' slots beside the task's")             \
    X(COUNTED_65, "counted: more than 64 slots of the task's, and strips drop")                                        \
    X(COUNTED_512, "counted: 512 slots of the task's, and strips drop")                                                \
    X(LOSS_COUNT, "counted: some strips drop, not all, and ticks are lost")                                            \
    ROUNDS_CLASSES(X, ROUNDS_COUNTED, "counted by rounds: ")                                                           \
    X(ROUNDS_LAST_OFFSET, "counted by rounds: k above 1,024, offset 2w - 1")                                           \
    X(ROUNDS_10_11, "counted by rounds: refused 10 before 11: k above 1,024, the offset is bad as well")               \
    X(ROUNDS_PAST_OFFSET, "counted by rounds: refused 11: k above 1,024, offset 2w")                                   \
    X(MARGIN_BELOW_EVEN, "margin: below zero at a whole tick")                                                         \
    X(MARGIN_ZERO_EVEN, "margin: zero at a whole tick")                                                                \
    X(MARGIN_ABOVE_EVEN, "margin: above zero at a whole tick")                                                         \
    X(MARGIN_BELOW_ODD, "margin: below zero at an odd half tick")                                                      \
    X(MARGIN_ZERO_ODD, "margin: zero at an odd half tick")                                                             \
    X(MARGIN_ABOVE_ODD, "margin: above zero at an odd half tick")                                                      \
    X(MARGIN_JUST_BELOW, "margin: half a tick below zero")                                                             \
    X(MARGIN_JUST_ABOVE, "margin: half a tick above zero")                                                             \
    X(MARGIN_WIDE_BELOW, "margin: below -65,536 half ticks")                                                           \
    X(MARGIN_IN_TURNS, "margin: D of whole turns and a rest, and the turns alone give more than e")                    \
    X(MARGIN_PAST_TURNS, "margin: D of whole turns and a rest, and e is more than both could give")                    \
    X(MARGIN_OVER_D, "margin: e above D by two ticks or more")                                                         \
    X(SUPPLIED_NONE, "supply: 0")                                                                                      \
    X(SUPPLIED_FULL, "supply: 2D")                                                                                     \
    X(SUPPLIED_HALF, "supply: an odd number of half ticks")                                                            \
    X(SUPPLIED_WIDE, "supply: above 65,535 half ticks")                                                                \
    X(SHARED_SUPPLY, "supply: it would be more if every slot were the task's")                                         \
    LOST_SUPPLIES(X)                                                                                                   \
    X(PAST_OFFSET, "refused 11: offset 2w")                                                                            \
    X(WIDE_OFFSET, "refused 11: an offset above 2^32 whose low half would do")                                         \
    X(GRANT_NONE, "granted: no slots")                                                                                 \
    X(GRANT_SOME, "granted: some of the free slots")                                                                   \
    X(GRANT_ALL, "granted: all free slots")                                                                            \
    X(GRANT_PAST_TAKEN, "granted: a taken slot before a granted one")                                                  \
    X(GRANT_64, "granted: N 64")                                                                                       \
    X(GRANT_16384, "granted: N * v 16,384")                                                                            \
    X(GRANT_LOSS, "granted: fewer slots if nothing were lost")                                                         \
    X(GRANT_TOUCH, "granted: more slots, or none do, if slots lost whatever is granted before them")                   \
    X(GRANT_ROUND, "granted: more slots, or none do, if slot 0 lost behind slot N - 1")                                \
    X(GRANT_FILL, "granted: N 1, and none does if the only slot lost")                                                 \
    X(GRANT_LOST_BEFORE, "granted: more slots, or none do, if slots lost behind one that gives no tick")               \
    X(GRANT_BEHIND_TAKEN, "granted: fewer slots if one lost nothing behind a taken one")                               \
    X(GRANT_BEHIND_FREE, "granted: fewer slots if slot 0 lost nothing behind a free one that isn't granted")           \
    X(GRANT_WHOLE, "granted: some of N slots, loss v, and some ticks are left")                                        \
    X(GRANT_EVERY, "granted: all N slots, two or more, with a loss")                                                   \
    X(GRANT_LOSS_NONE, "granted: no slots, with a loss")                                                               \
    X(NEVER_FIRM_FREE, "refused 13: with free slots")                                                                  \
    X(NEVER_FIRM_TAKEN, "refused 13: with no free slot")                                                               \
    X(NEVER_FIRM_SETS, "refused 13: every set of two or more free slots tried")                                        \
    X(NEVER_FIRM_LOSS, "refused 13: all free slots would be firm if nothing were lost")                                \
    X(NEVER_FIRM_SETS_LOSS, "refused 13: every set of two or more free slots tried, with a loss")                      \
    X(MARKS_EMPTY, "refused 12: no marks")                                                                             \
    X(MARKS_65, "refused 12: N 65")                                                                                    \
    X(MARK_2, "refused 12: a mark is 2")                                                                               \
    X(MARK_WIDE, "refused 12: a mark above 2")                                                                         \
    X(GRANT_NO_V, "refused 12: v 0")                                                                                   \
    X(GRANT_LONG, "refused 12: N * v just above 16,384")                                                               \
    X(GRANT_WRAP, "refused 12: N * v fits only after it wrapped at 2^64")                                              \
    X(WIDE_V, "refused 12: v above 2^32 whose low half would do")                                                      \
    X(GRANT_LONG_LOSS, "refused 12: a loss of v + 1")                                                                  \
    X(GRANT_LOSS_2_32, "refused 12: a loss of 2^32")                                                                   \
    X(WIDE_LOSS, "refused 12: a loss above 2^32 whose low half would do, and isn't zero")                              \
    X(GRANT_LOSS_MOST, "refused 12: a loss of 2^64 - 1")                                                               \
    X(ORDER_12_6, "refused 12 before 6: the loss alone is bad, and so is e")                                           \
    X(WIDE_E, "refused 6: e above 2^32 whose low half would do")                                                       \
    X(WIDE_H, "refused 7: h above 2^32 whose low half would do")                                                       \
    X(WIDE_D, "refused 8: d above 2^32 whose low half would do")                                                       \
    X(WIDE_K, "refused 9: k above 2^32 whose low half would do")                                                       \
    X(WIDE_M, "refused 10: m above 2^32 whose low half would do")                                                      \
    X(SITE_EMPTY, "site: no records")                                                                                  \
    X(SITE_EMPTY_SLOTS, "site: no records, but slots")                                                                 \
    X(SITE_EMPTY_REPLY, "site: no records, but a reply")                                                               \
    X(SITE_NULL, "site: NULL for tasks, slots and reply")                                                              \
    X(SITE_ONE, "site: one record, accepted")                                                                          \
    X(SITE_MOST, "site: 12 records")                                                                                   \
    X(SITE_ALL_GOOD, "site: several records, all accepted")                                                            \
    X(SITE_ALL_REFUSED, "site: several records, all refused")                                                          \
    X(SITE_BETWEEN, "site: a refused record between two accepted ones")                                                \
    X(SITE_SIZES, "site: wheels of three sizes of arrays or more, with drops")                                         \
    X(SITE_SMALLER_NEXT, "site: a wheel right behind one of a larger size, drops in both")                             \
    X(SITE_LARGER_NEXT, "site: a wheel right behind one of a smaller size, drops in both")                             \
    X(SITE_FEWER_NEXT, "site: k to 255 right behind k above 255, drops in both")                                       \
    X(SITE_MORE_NEXT, "site: k above 255 right behind k to 255, drops in both")                                        \
    X(SITE_REFUSED_LARGEST, "site: the largest size is a refused record's alone")                                      \
    X(SITE_PAST_WHEEL, "site: w above 16,384 before an accepted record")                                               \
    X(SITE_SHARED, "site: two accepted tasks share slots")                                                             \
    X(SITE_TWICE, "site: an accepted record twice")                                                                    \
    X(SITE_BARE, "site: an accepted record and no slot records")                                                       \
    X(SITE_BOARD, "site: two accepted tasks on one board, each with slots of its own there")                           \
    X(SITE_BOARD_DROPS, "site: the same, and strips drop in both")                                                     \
    X(SITE_BOARD_THREE, "site: three accepted tasks on one board, each with slots of its own there")                   \
    X(SITE_BOARD_NONE, "site: an accepted task without slots of its own on the board of one that has some")            \
    X(SITE_BOARD_LOSS, "site: two accepted tasks on one board, and each loses ticks of its own there")                 \
    X(SITE_MARGINS, "site: least margins below zero, zero and above zero")                                             \
    X(SITE_MARGIN_NEXT, "site: a refused record right behind a least margin other than zero")                          \
    X(SITE_LONG_REPLY, "site: a reply one byte longer")                                                                \
    X(SITE_LONGER_REPLY, "site: a reply longer by an answer or more")                                                  \
    X(SITE_31, "site refused 1: tasks of 31 bytes")                                                                    \
    X(SITE_33, "site refused 1: tasks of 33 bytes")                                                                    \
    X(SITE_63, "site refused 1: tasks of 63 bytes")                                                                    \
    X(SITE_SLOTS_ODD, "site refused 1: slots not a multiple of 12")                                                    \
    X(SITE_SLOTS_EIGHT, "site refused 1: slots a multiple of 8, not of 12")                                            \
    X(SITE_SLOTS_ODD_ALONE, "site refused 1: the same with no records")                                                \
    X(SITE_ORDER_1_2, "site refused 1 before 2: no room for the whole records, either")                                \
    X(SITE_BYTE_SHORT, "site refused 2: a reply one byte short")                                                       \
    X(SITE_ANSWER_SHORT, "site refused 2: room for all answers but one")                                               \
    X(SITE_REPLY_EMPTY, "site refused 2: a reply of 0 bytes")                                                          \
    X(WHICH_NONE, "which slot, good: no slots")                                                                        \
    X(WHICH_NULL, "which slot, good: NULL for slots")                                                                  \
    X(WHICH_64, "which slot, good: 64 slots")                                                                          \
    X(WHICH_65, "which slot, good: 65 slots")                                                                          \
    X(WHICH_511, "which slot, good: 511 slots")                                                                        \
    X(WHICH_512, "which slot, good: 512 slots")                                                                        \
    X(WHICH_SHARED, "which slot, good: slots of the task's and of others")                                             \
    X(WHICH_FOREIGN, "which slot, good: slots, none of them the task's")                                               \
    X(WHICH_TOUCHING, "which slot, good: a start at the end before it")                                                \
    X(WHICH_AT_WHEEL, "which slot, good: an end at w")                                                                 \
    X(WHICH_LARGEST, "which slot, good: an end at w 16,384")                                                           \
    X(WHICH_BEFORE, "which slot, good: the record before the board would fit and clash with its first")                \
    X(WHICH_BEHIND, "which slot, good: a bad record behind the board")                                                 \
    X(WHICH_LOSS_WHOLE, "which slot, good: a loss as long as its slot")                                                \
    X(WHICH_LOSS_BEFORE, "which slot, good: the record before the board has ticks, and a loss of more")                \
    X(WHICH_LOSS_BEHIND, "which slot, good: the record behind the board has ticks, and a loss of more")                \
    X(WHICH_BAD_NEED, "which slot, good: e is bad")                                                                    \
    X(WHICH_BAD_PERIOD, "which slot, good: h is bad")                                                                  \
    X(WHICH_BAD_DEADLINE, "which slot, good: D is bad")                                                                \
    X(WHICH_BAD_STRIPS, "which slot, good: k is bad")                                                                  \
    X(WHICH_BAD_PAINTED, "which slot, good: m is bad")                                                                 \
    X(WHICH_EMPTY, "which slot refused 1: a task of 0 bytes")                                                          \
    X(WHICH_31, "which slot refused 1: a task of 31 bytes")                                                            \
    X(WHICH_33, "which slot refused 1: a task of 33 bytes")                                                            \
    X(WHICH_SLOTS_ODD, "which slot refused 1: slots not a multiple of 12")                                             \
    X(WHICH_SLOTS_EIGHT, "which slot refused 1: slots a multiple of 8, not of 12")                                     \
    X(WHICH_NO_RECORDS, "which slot refused 3: no slot records at all")                                                \
    X(WHICH_ONE_BEYOND, "which slot refused 3: first + count one over the end")                                        \
    X(WHICH_SUM_WIDE, "which slot refused 3: first + count above 65,535 whose low 16 bits would do")                   \
    X(WHICH_3_19, "which slot refused 3 before 19: the id is bad as well")                                             \
    X(WHICH_3_4, "which slot refused 3 before 4: w is bad as well")                                                    \
    X(WHICH_3_14, "which slot refused 3 before 14: more than 512 slots as well")                                       \
    X(WHICH_ID_65536, "which slot refused 19: id 65,536")                                                              \
    X(WHICH_ID_LOW, "which slot refused 19: an id whose low 16 bits would do, and own a slot")                         \
    X(WHICH_ID_WIDE, "which slot refused 19: id 2^32 - 1")                                                             \
    X(WHICH_19_4, "which slot refused 19 before 4: w is bad as well")                                                  \
    X(WHICH_19_14, "which slot refused 19 before 14: more than 512 slots as well")                                     \
    X(WHICH_19_15, "which slot refused 19 before 15 to 18: a slot is bad as well")                                     \
    X(WHICH_W_0, "which slot refused 4: w 0")                                                                          \
    X(WHICH_W_16385, "which slot refused 4: w 16,385")                                                                 \
    X(WHICH_W_WIDE, "which slot refused 4: w 2^32 - 1")                                                                \
    X(WHICH_4_14, "which slot refused 4 before 14: more than 512 slots as well")                                       \
    X(WHICH_4_15, "which slot refused 4 before 15: a start isn't below its end, either")                               \
    X(WHICH_513, "which slot refused 14: 513 slots, of which 512 would do")                                            \
    X(WHICH_LOW_BITS, "which slot refused 14: a count above 1,023 whose low ten bits would do")                        \
    X(WHICH_COUNT_WIDE, "which slot refused 14: count 65,535 with that many records")                                  \
    X(WHICH_14_FIRST, "which slot refused 14: the first slot is bad as well")                                          \
    X(WHICH_14_LATER, "which slot refused 14: a later slot is bad as well")                                            \
    X(WHICH_START_AT_END, "which slot refused 15: start equal to end")                                                 \
    X(WHICH_START_OVER, "which slot refused 15: start one above end")                                                  \
    X(WHICH_START_WIDE, "which slot refused 15: a start of 2^31 or more, an end inside the wheel")                     \
    X(WHICH_END_OVER, "which slot refused 16: an end at w + 1")                                                        \
    X(WHICH_END_WIDE, "which slot refused 16: an end of 2^31 or more")                                                 \
    X(WHICH_EARLY_BY_ONE, "which slot refused 17: a start one below the end before it")                                \
    X(WHICH_LOSS_OVER, "which slot refused 18: a loss one above the length")                                           \
    X(WHICH_LOSS_LOW, "which slot refused 18: a loss whose lower byte would do")                                       \
    X(WHICH_LOSS_TOUCHING, "which slot refused 18: the slot touches one of its owner's")                               \
    X(WHICH_15_16, "which slot refused 15 before 16: both of one slot")                                                \
    X(WHICH_15_17, "which slot refused 15 before 17: both of one slot")                                                \
    X(WHICH_16_17, "which slot refused 16 before 17: both of one slot")                                                \
    X(WHICH_15_18, "which slot refused 15 before 18: both of one slot")                                                \
    X(WHICH_16_18, "which slot refused 16 before 18: both of one slot")                                                \
    X(WHICH_17_18, "which slot refused 17 before 18: both of one slot")                                                \
    X(WHICH_ONLY, "which slot refused 15 to 18: the board's only slot")                                                \
    X(WHICH_512TH, "which slot refused 15 to 18: the last of 512 slots")                                               \
    X(WHICH_PAST_64, "which slot refused 15 to 18: a slot behind the 64th, not the last")                              \
    X(WHICH_INSIDE, "which slot refused 15 to 18: first above 0")                                                      \
    X(WHICH_LOWER_LATER, "which slot refused 16 to 18: a later slot has a lower number")                               \
    X(WHICH_HIGHER_LATER, "which slot refused 15 to 17: a later slot has a higher number")                             \
    X(WHICH_SAME_LATER, "which slot refused 15 to 18: a later slot has the same number")                               \
    X(WHICH_18_15, "which slot refused 18: the next slot has 15")                                                      \
    X(PAIR_NUMBER, "pair: others have more slots on one board than on the other")                                      \
    X(PAIR_ORDER, "pair: the same other owners as often on both boards, in another order")                             \
    X(PAIR_TICKS, "pair: others have as many slots on both boards, at other ticks")                                    \
    X(PAIR_PLACE, "pair: the task's slots at other places of their boards")                                            \
    X(PAIR_FIRST, "pair: first differs")                                                                               \
    X(PAIR_COUNT, "pair: count differs")                                                                               \
    X(PAIR_ALONE, "pair: one board is the task's alone, and has slots")                                                \
    X(PAIR_NONE, "pair: slots on both boards, none of them the task's")                                                \
    X(PAIR_BARE, "pair: no slot at all on one board, others' on the other")                                            \
    X(PAIR_MANY, "pair: more than 64 slots of the task's, and others'")                                                \
    X(PAIR_DROPS, "pair: some strips drop, not all")                                                                   \
    X(PAIR_FIRM, "pair: firm, and strips drop")                                                                        \
    X(PAIR_NOT_FIRM, "pair: not firm")                                                                                 \
    X(PAIR_TELLS, "pair: the two would have other supplies at the offset if every slot were the task's")               \
    X(PAIR_LOSS, "pair: the supply at the offset would be more if nothing were lost")                                  \
    X(PAIR_TOUCH, "pair: the supply at the offset would be less if slots lost whatever they touch")                    \
    X(PAIR_TOUCH_OTHER, "pair: a slot of the task's that loses ticks touches another's on one board alone")            \
    X(PAIR_OTHERS_LOSS, "pair: others have the same ticks on both boards, with other losses")                          \
    X(PAIR_6, "pair refused 6 alike")                                                                                  \
    X(PAIR_7, "pair refused 7 alike")                                                                                  \
    X(PAIR_8, "pair refused 8 alike")                                                                                  \
    X(PAIR_9, "pair refused 9 alike")                                                                                  \
    X(PAIR_10, "pair refused 10 alike")                                                                                \
    X(PAIR_11, "pair refused 11 alike")

#define CLASS_ID(id, text) id,
enum input_class { CLASSES(CLASS_ID) CLASS_COUNT };
#undef CLASS_ID

struct tally {
    uint64_t numbers[KINDS][NUMBERS];
    uint64_t rounds[KINDS][NUMBERS]; /* the same by whole rounds, of what is judged or counted */
    uint64_t quick[NUMBERS];   /* the numbers beside the verdict alone */
    uint64_t answers[NUMBERS]; /* the numbers in the answers of sites */
    uint64_t bad_slots[KINDS][SLOT_NUMBERS][SLOT_KINDS]; /* by place and by owner; a site's records count as its own */
    uint64_t edges[WHEEL_EDGES][EDGE_USES];
    uint64_t met[CLASS_COUNT];
};

/* Notes an input and what should come out of it. */
void tally_add(struct tally *tally, const struct input *input, const struct expected *expected);
/* Whether two records differ in first and count alone, and their boards are good, with the same slots for their id. */
bool is_same_for_owner(const struct input *one, const struct input *other);
/* Notes two boards that should give the same: what judging should write, and the refusal at the offset. */
void tally_add_pair(struct tally *tally, const struct input *one, const struct input *other, const uint8_t *answer,
                    uint32_t refused_at);
/* Prints all counts; gives how many classes were never met, or can't be met and were. */
unsigned tally_print(const struct tally *tally);

#endif
