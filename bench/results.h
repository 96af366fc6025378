/* What a run of the bench has measured, and how it is told. */
#ifndef RESULTS_H
#define RESULTS_H

#include "workload.h"

#include <stdbool.h>
#include <stdio.h>

enum {
    ROUNDS = 16,
    GRANT_SLOTS = 64,
    ROWS_MAX = 60,
    GROWTHS_MAX = 32,
    BOARDS_MAX = 8,
    LATES_MAX = 8,
    GRANTS_MAX = 75,
    SITES_MAX = 6,
    COUNTS_MAX = 9,
    LONGS_MAX = 4
};

static const double batch_ns = 200e3;     /* one timing lasts at least this long */
static const double fp_rounds_ns = 100e6; /* FP up to here takes its turn in every round */
static const double fp_once_ns = 10e9;    /* and up to here it is timed whole, but once */

/* How FP was timed. A sample of its candidates, scaled up to all, is the last resort: it can be well off. */
enum fp_way { FP_ROUNDS, FP_ONCE, FP_SAMPLE };

/* A judging by all contenders. */
struct row {
    struct cell cell;
    uint32_t zones;
    double fp, doubling, bytewise, ours, floor; /* ns */
    double spread;                              /* the largest of its contenders' quartile ratios */
    double before;                              /* ours over an older archive, here as below; 0 where none was given */
    enum fp_way way;
    bool agree;
};

enum growth_in { IN_SLOTS, IN_STRIPS, IN_WHEEL };

/* Ours on one task against ours on a larger one. */
struct growth {
    enum growth_in in;
    struct cell small, large;
    double ratio;
};

/*
 * A task on a board of FIDDLEQUILL_SLOTS_MAX records against a table that it owns whole: its own records alone or,
 * where all the board is its own, another task's. The cells have the slots that a task owns.
 */
struct board_row {
    struct cell cell, beside;
    double board, alone; /* ns */
    double spread;
    bool agree;
};

/* A table of slots that start late against one that has the same ticks without a loss. */
struct late_row {
    struct cell cell;
    double ratio, late, plain; /* the median of the rounds' ratios, then ns */
    double spread;
    bool agree;
};

/* A grant against one judging of its wheel. */
struct grant_row {
    const char *kind;
    uint32_t v, loss, k;
    uint32_t number, granted;
    double judgements, grant, judging; /* a ratio, then ns */
    double before;
    bool agree;
};

/* A site in one call against a call for each of its signs. */
struct site_row {
    struct cell cell;
    double site, singles; /* ns */
    double spread, before;
    bool agree;
};

/* Who counts; the last one only where an older archive was given. */
enum counter { OURS, LOOP, BEFORE, COUNTERS };

/* In ns: a call, the same with one strip, and what goes by k; 0 where there is no such figure. */
struct count_times {
    double all, one, by_k;
};

/* Counting from one half tick against judging the task. */
struct count_row {
    struct cell cell;
    struct count_times by[COUNTERS];
    double judging; /* ns */
    double spread, before;
    bool agree;
};

/* A verdict alone against judging the same table: the median of the rounds' ratios, then ns. */
struct quick_times {
    double ratio, quick, judging;
    double spread;
    bool agree;
};

/* Verdicts on the tables of a cell. */
struct quick_row {
    struct cell cell;
    uint32_t worst;
    struct quick_times on[TABLES];
};

/* A verdict that needs no search. */
struct end_row {
    struct cell cell;
    struct quick_times times;
};

/* The first engine with the most strips that it looks at; whole rounds with as many, and with the most of theirs. */
enum window { BY_FIRST, AS_MANY, LONG_ONE, WINDOWS };

/* Judging and counting by whole rounds; the cell has the strips of the long window. */
struct long_row {
    struct cell cell;
    double judge_growth, judge_over_first, count_growth, count_over_first; /* medians of the rounds' ratios */
    double judge[WINDOWS], count[WINDOWS];                                 /* ns */
    double spread;
    bool agree;
};

struct results {
    size_t rows, growths, boards, lates, grants, sites, counts, quicks, longs;
    size_t before_slot_bytes; /* of an older archive's slot record; 0 where none was given */
    struct row row[ROWS_MAX];
    struct growth growth[GROWTHS_MAX];
    struct board_row board[BOARDS_MAX];
    struct late_row late[LATES_MAX];
    struct grant_row grant[GRANTS_MAX];
    struct site_row site[SITES_MAX];
    struct count_row count[COUNTS_MAX];
    struct quick_row quick[ROWS_MAX];
    struct end_row end[ENDS];
    struct long_row long_row[LONGS_MAX];
};

/* Sorts the numbers, at least one, and gives their median. */
double middle(double *numbers, size_t n);

/* Cases whose answers differ. */
size_t differences(const struct results *results);
/* The tables for people: ratios first, then times and conditions. */
void print_report(FILE *out, const struct results *results);
/* The same numbers for programs. */
void print_csv(FILE *out, const struct results *results);

#endif
