#include "results.h"

#include <inttypes.h>
#include <stdlib.h>

#ifndef BENCH_FLAGS
#define BENCH_FLAGS "unknown"
#endif

static int compare_numbers(const void *a, const void *b)
{
    double x = *(const double *)a, y = *(const double *)b;
    return (x > y) - (x < y);
}

double middle(double *numbers, size_t n)
{
    qsort(numbers, n, sizeof *numbers, compare_numbers);
    return (numbers[(n - 1) / 2] + numbers[n / 2]) / 2;
}

static bool all_agree(const struct quick_row *row)
{
    bool agree = true;
    for (size_t i = 0; i < TABLES; i++)
        agree &= row->on[i].agree;
    return agree;
}

size_t differences(const struct results *results)
{
    size_t found = 0;
    for (size_t i = 0; i < results->rows; i++)
        found += !results->row[i].agree;
    for (size_t i = 0; i < results->boards; i++)
        found += !results->board[i].agree;
    for (size_t i = 0; i < results->lates; i++)
        found += !results->late[i].agree;
    for (size_t i = 0; i < results->grants; i++)
        found += !results->grant[i].agree;
    for (size_t i = 0; i < results->sites; i++)
        found += !results->site[i].agree;
    for (size_t i = 0; i < results->counts; i++)
        found += !results->count[i].agree;
    for (size_t i = 0; i < results->quicks; i++)
        found += !all_agree(&results->quick[i]);
    for (size_t i = 0; i < ENDS; i++)
        found += !results->end[i].times.agree;
    for (size_t i = 0; i < results->longs; i++)
        found += !results->long_row[i].agree;
    return found;
}

/* ---- goals ---- */

static bool same_cell(struct cell a, struct cell b)
{
    return a.w == b.w && a.slots == b.slots && a.k == b.k;
}

/* The row of a cell among n rows of `bytes` bytes each, of any kind that begins with its cell. */
static const void *find_row(const void *rows, size_t n, size_t bytes, struct cell cell)
{
    const char *row = rows;
    for (size_t i = 0; i < n; i++, row += bytes)
        if (same_cell(*(const struct cell *)(const void *)row, cell))
            return row;
    fprintf(stderr, "bench: no such cell\n");
    exit(2);
}

static const struct row *row_of(const struct results *results, struct cell cell)
{
    return find_row(results->row, results->rows, sizeof *results->row, cell);
}

static const struct board_row *board_of(const struct results *results, struct cell cell)
{
    return find_row(results->board, results->boards, sizeof *results->board, cell);
}

static const struct quick_row *quick_of(const struct results *results, struct cell cell)
{
    return find_row(results->quick, results->quicks, sizeof *results->quick, cell);
}

static const struct long_row *long_of(const struct results *results, struct cell cell)
{
    return find_row(results->long_row, results->longs, sizeof *results->long_row, cell);
}

static double fp_ratio(const struct row *row)
{
    return row->fp / row->ours;
}

static double doubling_ratio(const struct row *row)
{
    return row->ours / row->doubling;
}

static double least_fp_ratio(const struct results *results)
{
    double least = fp_ratio(&results->row[0]);
    for (size_t i = 1; i < results->rows; i++)
        least = fp_ratio(&results->row[i]) < least ? fp_ratio(&results->row[i]) : least;
    return least;
}

/* The largest over wheels from `from` to `to`. */
static double most_doubling_ratio(const struct results *results, uint32_t from, uint32_t to)
{
    double most = 0;
    for (size_t i = 0; i < results->rows; i++) {
        const struct row *row = &results->row[i];
        if (row->cell.w >= from && row->cell.w <= to && doubling_ratio(row) > most)
            most = doubling_ratio(row);
    }
    return most;
}

/* The most of n ratios, one in each row of `bytes` bytes, the first at `ratio`; 0 where none was measured. */
static double most_of_rows(const double *ratio, size_t n, size_t bytes)
{
    const char *at = (const void *)ratio;
    double most = 0;
    for (size_t i = 0; i < n; i++, at += bytes) {
        const double here = *(const double *)(const void *)at;
        most = here > most ? here : most;
    }
    return most;
}

static double board_ratio(const struct board_row *row)
{
    return row->board / row->alone;
}

/* What a record of another owner takes, in ns; 0 where there is none. */
static double other_record(const struct board_row *row)
{
    uint32_t others = FIDDLEQUILL_SLOTS_MAX - row->cell.slots;
    return others > 0 ? (row->board - row->alone) / others : 0;
}

static double most_judgements(const struct results *results)
{
    return most_of_rows(&results->grant->judgements, results->grants, sizeof *results->grant);
}

static double site_ratio(const struct site_row *row)
{
    return row->site / row->singles;
}

static double most_site_ratio(const struct results *results)
{
    double most = 0;
    for (size_t i = 0; i < results->sites; i++)
        most = site_ratio(&results->site[i]) > most ? site_ratio(&results->site[i]) : most;
    return most;
}

/* 0 stands for no ratio, and tables leave it out: a side wasn't measured, or was lost in noise. */
static double ratio_or_none(double a, double b)
{
    return a > 0 && b > 0 ? a / b : 0;
}

static double count_ratio(const struct count_row *row, enum counter a, enum counter b)
{
    return ratio_or_none(row->by[a].all, row->by[b].all);
}

static double by_k_ratio(const struct count_row *row, enum counter a, enum counter b)
{
    return ratio_or_none(row->by[a].by_k, row->by[b].by_k);
}

static double judging_ratio(const struct count_row *row)
{
    return row->by[OURS].all / row->judging;
}

struct summary {
    double median, most;
};

/* Quick ÷ judging over the tables from one kind to another, of all cells. */
static struct summary sum_up(const struct results *results, enum table from, enum table to)
{
    double ratios[ROWS_MAX * TABLES] = {0};
    size_t n = 0;
    for (size_t i = 0; i < results->quicks; i++)
        for (enum table table = from; table <= to; table++)
            ratios[n++] = results->quick[i].on[table].ratio;
    double median = middle(ratios, n);
    return (struct summary){median, ratios[n - 1]};
}

static double most_of_tables(const struct quick_row *row)
{
    double most = 0;
    for (size_t i = 0; i < TABLES; i++)
        most = row->on[i].ratio > most ? row->on[i].ratio : most;
    return most;
}

/* Who asked for what was not to be passed: the first engine, the one over late runs, or a request by its number. */
static void print_goal(FILE *out, const char *whose, const char *what, bool at_least, double goal, double measured)
{
    bool reached = at_least ? measured >= goal : measured <= goal;
    fprintf(out, "| %s | %s | %s %g | %.2f | %s |\n", whose, what, at_least ? "at least" : "at most", goal, measured,
            reached ? "reached" : "missed");
}

static void print_goal_at(FILE *out, const char *whose, const char *ratio, const struct cell *cell, const char *mark,
                          bool at_least, double goal, double measured)
{
    char what[80];
    snprintf(what, sizeof what, "%s, %" PRIu32 " / %" PRIu32 " / %" PRIu32 "%s", ratio, cell->w, cell->slots, cell->k,
             mark);
    print_goal(out, whose, what, at_least, goal, measured);
}

static const char first_engine[] = "first engine", late_runs[] = "late runs";

static const struct {
    const char *whose;
    struct cell cell;
    double least;
} fp_goals[] = {{first_engine, {55, 4, 10}, 12},       {first_engine, {1300, 4, 125}, 200},
                {first_engine, {1300, 4, 1024}, 6000}, {first_engine, {4096, 64, 1024}, 80000},
                {late_runs, {16384, 1, 10}, 150},      {late_runs, {16384, 1, 125}, 150},
                {late_runs, {16384, 4, 10}, 300}};

static void print_fp_goals(FILE *out, const struct results *results)
{
    print_goal(out, first_engine, "FP ÷ ours, the least of all cells", true, 7, least_fp_ratio(results));
    for (size_t i = 0; i < sizeof fp_goals / sizeof *fp_goals; i++) {
        const struct row *row = row_of(results, fp_goals[i].cell);
        print_goal_at(out, fp_goals[i].whose, "FP ÷ ours", &row->cell, row->way == FP_SAMPLE ? " (~)" : "", true,
                      fp_goals[i].least, fp_ratio(row));
    }
}

static const struct {
    struct cell cell;
    double most;
} doubling_goals[] = {{{4096, 1, 10}, 0.1},    {{4096, 4, 10}, 0.1},   {{16384, 1, 10}, 0.05}, {{16384, 4, 10}, 0.05},
                      {{16384, 16, 10}, 0.05}, {{16384, 1, 125}, 0.1}, {{16384, 4, 125}, 0.1}, {{16384, 16, 125}, 0.1}};

static void print_doubling_goals(FILE *out, const struct results *results)
{
    print_goal(out, first_engine, "ours ÷ doubling, the most for w below 700", false, 1,
               most_doubling_ratio(results, 0, 699));
    print_goal(out, first_engine, "ours ÷ doubling, the most for w from 700", false, 0.6,
               most_doubling_ratio(results, 700, UINT32_MAX));
    for (size_t i = 0; i < sizeof doubling_goals / sizeof *doubling_goals; i++)
        print_goal_at(out, late_runs, "ours ÷ doubling", &doubling_goals[i].cell, "", false, doubling_goals[i].most,
                      doubling_ratio(row_of(results, doubling_goals[i].cell)));
}

static double most_growth(const struct results *results, enum growth_in in)
{
    double most = 0;
    for (size_t i = 0; i < results->growths; i++)
        if (results->growth[i].in == in && results->growth[i].ratio > most)
            most = results->growth[i].ratio;
    return most;
}

/* Of an engine that takes the same time for few slots and strips as for many. The one over late runs takes less. */
static void print_growth_goals(FILE *out, const struct results *results)
{
    print_goal(out, first_engine, "64 slots ÷ 1, the most for w from 4,096", false, 1.2,
               most_growth(results, IN_SLOTS));
    print_goal(out, first_engine, "k 1,024 ÷ k 10, the most for w 16,384", false, 2.5, most_growth(results, IN_STRIPS));
    print_goal(out, first_engine, "w 16,384 ÷ w 4,096, the most", false, 6, most_growth(results, IN_WHEEL));
}

/* A request says how much longer a call may take than before it; these bounds are No. 7's and No. 5's. */
static void print_before_goals(FILE *out, const struct results *results)
{
    if (results->before_slot_bytes == 0)
        return;
    print_goal(out, "No. 7", "judging: ours ÷ before, the most of all cells", false, 1.05,
               most_of_rows(&results->row->before, results->rows, sizeof *results->row));
    print_goal(out, "No. 5", "counting: ours ÷ before, the most of all cells", false, 1.1,
               most_of_rows(&results->count->before, results->counts, sizeof *results->count));
    print_goal(out, "No. 7", "grants: ours ÷ before, the most of all", false, 1.05,
               most_of_rows(&results->grant->before, results->grants, sizeof *results->grant));
}

static void print_board_goal(FILE *out, const struct results *results)
{
    const struct board_row *row = board_of(results, (struct cell){4096, 4, 125});
    print_goal_at(out, "No. 5", "a board ÷ own records alone", &row->cell, "", false, 4, board_ratio(row));
}

/* No row may lose by the one call, and the aim is that each gains. */
static void print_site_goals(FILE *out, const struct results *results)
{
    for (size_t i = 0; i < results->sites; i++) {
        const struct site_row *row = &results->site[i];
        print_goal_at(out, "No. 1", "a site ÷ single calls", &row->cell, "", false, 1, site_ratio(row));
    }
    print_goal(out, "No. 1", "a site ÷ single calls, the most of all (the aim)", false, 0.8, most_site_ratio(results));
}

/* Judging looks at all offsets: counting from one of them may not take longer. */
static void print_count_goals(FILE *out, const struct results *results)
{
    for (size_t i = 0; i < results->counts; i++) {
        const struct count_row *row = &results->count[i];
        print_goal_at(out, "No. 3", "counting ÷ judging", &row->cell, "", false, 1, judging_ratio(row));
    }
}

/* Never much longer than judging; shorter on most tables that aren't firm, and for few strips on a long wheel. */
static void print_quick_goals(FILE *out, const struct results *results)
{
    static const struct cell long_wheels[] = {{16384, 1, 10}, {16384, 4, 10}};
    const struct summary firm = sum_up(results, JUST_FIRM, JUST_FIRM), others = sum_up(results, ONE_LESS, NO_DROP);
    print_goal(out, "No. 6", "quick ÷ judging, the most of all cells, firm", false, 1.15, firm.most);
    print_goal(out, "No. 6", "quick ÷ judging, the most of all cells, not firm", false, 1.15, others.most);
    print_goal(out, "No. 6", "quick ÷ judging, the median over tables that aren't firm", false, 0.5, others.median);
    for (size_t i = 0; i < sizeof long_wheels / sizeof *long_wheels; i++)
        print_goal_at(out, "No. 6", "quick ÷ judging", &long_wheels[i], ", the most of its tables", false, 0.7,
                      most_of_tables(quick_of(results, long_wheels[i])));
}

/* The time goes by the wheel, so that a million strips take about as long as 1,024. */
static void print_long_goals(FILE *out, const struct results *results)
{
    const struct long_row *row = long_of(results, (struct cell){16384, 64, FIDDLEQUILL_ROUNDS_STRIPS_MAX});
    print_goal_at(out, "No. 8", "judging by rounds ÷ k 1,024", &row->cell, "", false, 1.3, row->judge_growth);
    print_goal_at(out, "No. 8", "judging by rounds ÷ first engine, k 1,024", &row->cell, "", false, 6,
                  row->judge_over_first);
    for (size_t i = 0; i < results->longs; i++)
        print_goal_at(out, "No. 8", "counting by rounds ÷ k 1,024", &results->long_row[i].cell, "", false, 2,
                      results->long_row[i].count_growth);
}

static void print_goals(FILE *out, const struct results *results)
{
    fprintf(out, "## Goals\n\n| whose | goal (a cell is w / slots / k) | wanted | measured | |\n|---|---|---|---:|---|\n");
    print_fp_goals(out, results);
    print_doubling_goals(out, results);
    print_growth_goals(out, results);
    print_goal(out, late_runs, "a grant of up to 64 slots, in judgements, the most", false, 7.5,
               most_judgements(results));
    print_site_goals(out, results);
    print_count_goals(out, results);
    print_board_goal(out, results);
    print_quick_goals(out, results);
    print_long_goals(out, results);
    print_before_goals(out, results);
}

/* ---- the report ---- */

/* __clang_version__ may name where the compiler was fetched from. */
static void print_compiler(FILE *out)
{
#ifdef __clang__
    fprintf(out, "- compiler of bench and baselines: clang %d.%d.%d\n", __clang_major__, __clang_minor__,
            __clang_patchlevel__);
#else
    fprintf(out, "- compiler of bench and baselines: %s\n", __VERSION__);
#endif
}

static const char *answers_of(const struct row *row)
{
    if (!row->agree)
        return "DIFFERENT";
    return row->way == FP_SAMPLE ? "equal, FP's sample fits" : "all equal";
}

static const char *const way_names[] = {[FP_ROUNDS] = "rounds", [FP_ONCE] = "once", [FP_SAMPLE] = "sample"};

static void print_column(FILE *out, double value)
{
    if (value > 0)
        fprintf(out, "| %.2f ", value);
    else
        fprintf(out, "| – ");
}

static void print_grid_words(FILE *out)
{
    fprintf(out, "\n## Judging\n\nThe slots lie at an even pitch, each half of it long and moved a little; D = h is a "
                 "turn, a third and half a\npitch, coprime to w; e lies midway between the least and the largest "
                 "supply.\n");
    fprintf(out, "FP takes its turn in every round, or is timed whole but once where it needs more than %.0f ms. ~ is "
                 "FP over a\nrandom sample of its candidates, scaled up to all, where it needs more than %.0f s; "
                 "that can be well off.\n", fp_rounds_ns / 1e6, fp_once_ns / 1e9);
    fprintf(out, "All answers are compared; beside ~ only the sample's counts and FP's count at the answer's offset.\n"
                 "Spread is the upper over the lower quartile of the rounds, the largest of a row: far above 1 the "
                 "row was\ndisturbed.\n\n");
}

static void print_grid(FILE *out, const struct results *results)
{
    print_grid_words(out);
    fprintf(out, "| w | slots | k | zone starts | FP ÷ ours | ours ÷ doubling | ours ÷ byte stage | ours ÷ before "
                 "| FP (µs) | doubling (µs) | byte stage (µs) | ours (µs) | floor (µs) | FP timed | spread "
                 "| answers |\n"
                 "|---:|---:|---:|---:|---:|---:|---:|---:|---:|---:|---:|---:|---:|---|---:|---|\n");
    for (size_t i = 0; i < results->rows; i++) {
        const struct row *row = &results->row[i];
        const char *about = row->way == FP_SAMPLE ? "~" : "";
        fprintf(out, "| %" PRIu32 " | %" PRIu32 " | %" PRIu32 " | %" PRIu32 " | %s%.1f | %.2f | %.2f ",
                row->cell.w, row->cell.slots, row->cell.k, row->zones, about, fp_ratio(row), doubling_ratio(row),
                row->ours / row->bytewise);
        print_column(out, row->before);
        fprintf(out, "| %s%.1f | %.2f | %.2f | %.2f | %.2f ", about, row->fp / 1e3, row->doubling / 1e3,
                row->bytewise / 1e3, row->ours / 1e3, row->floor / 1e3);
        fprintf(out, "| %s | %.2f | %s |\n", way_names[row->way], row->spread, answers_of(row));
    }
}

static const char *const growth_names[] = {[IN_SLOTS] = "slots", [IN_STRIPS] = "k", [IN_WHEEL] = "w"};

static void print_cell(FILE *out, const struct cell *cell)
{
    fprintf(out, "| %" PRIu32 " / %" PRIu32 " / %" PRIu32 " ", cell->w, cell->slots, cell->k);
}

static void print_cell_columns(FILE *out, const struct cell *cell)
{
    fprintf(out, "| %" PRIu32 " | %" PRIu32 " | %" PRIu32 " ", cell->w, cell->slots, cell->k);
}

static void print_growth(FILE *out, const struct results *results)
{
    fprintf(out, "\n## Growth of ours\n\n| growth in | w / slots / k | against | time ratio |\n|---|---|---|---:|\n");
    for (size_t i = 0; i < results->growths; i++) {
        const struct growth *g = &results->growth[i];
        fprintf(out, "| %s ", growth_names[g->in]);
        print_cell(out, &g->large);
        print_cell(out, &g->small);
        fprintf(out, "| %.2f |\n", g->ratio);
    }
}

static void print_boards(FILE *out, const struct results *results)
{
    fprintf(out, "\n## A board\n\nA task that owns a part of a board of %u slot records, against the same task on its "
                 "own records alone: both answers\nmust be the same bytes. The others are short slots of other owners "
                 "in all the gaps; other record is what each of\nthem adds. Where the task owns the whole board, a "
                 "task with fewer slots, made alike, stands beside it. All boards\nare compared with doubling, too."
                 "\n\n", FIDDLEQUILL_SLOTS_MAX);
    fprintf(out, "| w | records | owned | k | alone: records | board ÷ alone | other record (ns) | board (µs) "
                 "| alone (µs) | spread | answers |\n"
                 "|---:|---:|---:|---:|---:|---:|---:|---:|---:|---:|---|\n");
    for (size_t i = 0; i < results->boards; i++) {
        const struct board_row *row = &results->board[i];
        const double columns[] = {board_ratio(row), other_record(row), row->board / 1e3, row->alone / 1e3,
                                  row->spread};
        fprintf(out, "| %" PRIu32 " | %u | %" PRIu32 " | %" PRIu32 " | %" PRIu32 " ", row->cell.w,
                FIDDLEQUILL_SLOTS_MAX, row->cell.slots, row->cell.k, row->beside.slots);
        for (size_t j = 0; j < sizeof columns / sizeof *columns; j++)
            print_column(out, columns[j]);
        fprintf(out, "| %s |\n", row->agree ? "equal" : "DIFFERENT");
    }
}

static void print_lates(FILE *out, const struct results *results)
{
    fprintf(out, "\n## Slots that start late\n\nThe tasks of Judging, where each slot starts in the middle of the gap "
                 "before it and loses as much, against the\nsame ticks in slots without a loss (plain). Both answers "
                 "must be the same bytes; doubling's is compared, too.\n\n");
    fprintf(out, "| w | slots | k | late ÷ plain | late (µs) | plain (µs) | spread | answers |\n"
                 "|---:|---:|---:|---:|---:|---:|---:|---|\n");
    for (size_t i = 0; i < results->lates; i++) {
        const struct late_row *row = &results->late[i];
        print_cell_columns(out, &row->cell);
        fprintf(out, "| %.2f | %.2f | %.2f | %.2f | %s |\n", row->ratio, row->late / 1e3, row->plain / 1e3, row->spread,
                row->agree ? "all equal" : "DIFFERENT");
    }
}

static void print_grants(FILE *out, const struct results *results)
{
    fprintf(out, "\n## Grants\n\nAll slots are free or every other one is, m = k. A judgement is of the same wheel with the granted "
                 "slots (all\nfree ones, where refused). Of slots with a loss one behind the other only the first loses "
                 "it, and none where\nall are granted; – stands where an older archive knows no loss.\n\n");
    fprintf(out, "| N | v | loss | k | grant | slots granted | in judgements | ours ÷ before | grant (µs) "
                 "| judgement (µs) | answers |\n"
                 "|---:|---:|---:|---:|---|---:|---:|---:|---:|---:|---|\n");
    for (size_t i = 0; i < results->grants; i++) {
        const struct grant_row *row = &results->grant[i];
        fprintf(out, "| %d | %" PRIu32 " | %" PRIu32 " | %" PRIu32 " | %s | %" PRIu32 " | %.2f ", GRANT_SLOTS, row->v,
                row->loss, row->k, row->kind, row->granted, row->judgements);
        print_column(out, row->before);
        fprintf(out, "| %.2f | %.2f | %s |\n", row->grant / 1e3, row->judging / 1e3,
                row->agree ? "equal" : "DIFFERENT");
    }
}

static void print_sites(FILE *out, const struct results *results)
{
    fprintf(out, "\n## A site\n\n%d signs in one call, against a call of the archive for each. Each has its own part "
                 "of the slot records, with\nslots as above; they differ in id and by up to two ticks in e. Both "
                 "answers are compared, and with doubling's.\n\n", SIGNS);
    fprintf(out, "| w | slots | k | site ÷ single calls | ours ÷ before | site (µs) | single calls (µs) | spread "
                 "| answers |\n"
                 "|---:|---:|---:|---:|---:|---:|---:|---:|---|\n");
    for (size_t i = 0; i < results->sites; i++) {
        const struct site_row *row = &results->site[i];
        print_cell_columns(out, &row->cell);
        print_column(out, site_ratio(row));
        print_column(out, row->before);
        fprintf(out, "| %.2f | %.2f | %.2f | %s |\n", row->site / 1e3, row->singles / 1e3, row->spread,
                row->agree ? "all equal" : "DIFFERENT");
    }
}

static void print_counts(FILE *out, const struct results *results)
{
    fprintf(out, "\n## Counting\n\nDrops from the half tick that judging finds. The loop is the obvious C: a byte map "
                 "of the wheel's drops, then a\nremainder for each strip. By k is what a call takes beyond the same "
                 "one with a single strip, – where that is\nlost in noise. Answers are compared from other half "
                 "ticks, too.\n\n");
    fprintf(out, "| w | slots | k | ours ÷ before | loop ÷ before | loop ÷ ours | by k: before ÷ ours "
                 "| by k: loop ÷ ours | ours ÷ judging | loop (µs) | before (µs) | ours (µs) | ours, one strip (µs) "
                 "| judging (µs) | spread | answers |\n"
                 "|---:|---:|---:|---:|---:|---:|---:|---:|---:|---:|---:|---:|---:|---:|---:|---|\n");
    for (size_t i = 0; i < results->counts; i++) {
        const struct count_row *row = &results->count[i];
        const double columns[] = {row->before, count_ratio(row, LOOP, BEFORE), count_ratio(row, LOOP, OURS),
                                  by_k_ratio(row, BEFORE, OURS), by_k_ratio(row, LOOP, OURS), judging_ratio(row),
                                  row->by[LOOP].all / 1e3, row->by[BEFORE].all / 1e3, row->by[OURS].all / 1e3,
                                  row->by[OURS].one / 1e3, row->judging / 1e3, row->spread};
        print_cell_columns(out, &row->cell);
        for (size_t j = 0; j < sizeof columns / sizeof *columns; j++)
            print_column(out, columns[j]);
        fprintf(out, "| %s |\n", row->agree ? "all equal" : "DIFFERENT");
    }
}

static const char *const table_names[TABLES] = {[JUST_FIRM] = "just firm", [ONE_LESS] = "one less",
                                                [THREE_QUARTERS] = "three quarters", [HALF] = "half",
                                                [QUARTER] = "quarter", [NO_DROP] = "none"};
static const char *const end_names[ENDS] = {
    [NONE_WANTED] = "m is 0", [NONE_DROPS] = "e is the least supply", [ALL_DROP] = "e is above D"};

/* How many of a cell's tables differ: shares of a small worst count come to the same number of drops. */
static size_t different_tables(const struct quick_row *row)
{
    size_t different = 0;
    for (enum table table = 0; table < TABLES; table++) {
        bool first = true;
        for (enum table earlier = 0; earlier < table; earlier++)
            first &= drops_allowed(earlier, row->worst) != drops_allowed(table, row->worst);
        different += first;
    }
    return different;
}

static void print_quick_words(FILE *out)
{
    fprintf(out, "\n## The verdict alone\n\nQuick ÷ judging, by turns on the same table, as while a slider is dragged: "
                 "the tasks of Judging with m moved, so that\nthe drops allowed are the worst count (just firm: the "
                 "whole search must be made), one less, and three quarters, half\nand a quarter of it, rounded down, and none; "
                 "these five aren't firm. Tables says how many of the six differ: where\nthe worst count is small, "
                 "some are the same. Each verdict is compared with judging's and doubling's.\n\n");
}

static void print_quick_row(FILE *out, const struct quick_row *row)
{
    const struct quick_times *firm = &row->on[JUST_FIRM], *less = &row->on[ONE_LESS];
    const double times[] = {firm->quick, firm->judging, less->quick, less->judging};
    double spread = 0;
    print_cell_columns(out, &row->cell);
    fprintf(out, "| %" PRIu32 " | %zu ", row->worst, different_tables(row));
    for (size_t i = 0; i < TABLES; i++) {
        print_column(out, row->on[i].ratio);
        spread = row->on[i].spread > spread ? row->on[i].spread : spread;
    }
    for (size_t i = 0; i < sizeof times / sizeof *times; i++)
        print_column(out, times[i] / 1e3);
    fprintf(out, "| %.2f | %s |\n", spread, all_agree(row) ? "all equal" : "DIFFERENT");
}

static void print_summary(FILE *out, const char *name, struct summary summary)
{
    fprintf(out, "| %s | %.2f | %.2f |\n", name, summary.median, summary.most);
}

static void print_ends(FILE *out, const struct results *results)
{
    fprintf(out, "\nWhere a slider ends, no search is needed:\n\n| w | slots | k | end | quick ÷ judging | quick (µs) "
                 "| judging (µs) | spread | answers |\n|---:|---:|---:|---|---:|---:|---:|---:|---|\n");
    for (size_t i = 0; i < ENDS; i++) {
        const struct quick_times *times = &results->end[i].times;
        print_cell_columns(out, &results->end[i].cell);
        fprintf(out, "| %s | %.2f | %.2f | %.2f | %.2f | %s |\n", end_names[i], times->ratio, times->quick / 1e3,
                times->judging / 1e3, times->spread, times->agree ? "equal" : "DIFFERENT");
    }
}

static void print_quicks(FILE *out, const struct results *results)
{
    print_quick_words(out);
    fprintf(out, "| w | slots | k | worst | tables ");
    for (size_t i = 0; i < TABLES; i++)
        fprintf(out, "| %s ", table_names[i]);
    fprintf(out, "| just firm: quick (µs) | judging (µs) | one less: quick (µs) | judging (µs) | spread | answers |\n"
                 "|---:|---:|---:|---:|---:|---:|---:|---:|---:|---:|---:|---:|---:|---:|---:|---|\n");
    for (size_t i = 0; i < results->quicks; i++)
        print_quick_row(out, &results->quick[i]);
    fprintf(out, "\n| tables of all cells | median of quick ÷ judging | most |\n|---|---:|---:|\n");
    for (enum table table = 0; table < TABLES; table++)
        print_summary(out, table_names[table], sum_up(results, table, table));
    print_summary(out, "all that aren't firm", sum_up(results, ONE_LESS, NO_DROP));
    print_ends(out, results);
}

static void print_longs(FILE *out, const struct results *results)
{
    fprintf(out, "\n## Long windows\n\nJudging and counting by whole rounds with 1,000,000 strips, against the same "
                 "calls with 1,024, the most that the first\nengine looks at, and against that engine with as many; "
                 "the tasks of Judging. Counting is from the half tick that\njudging finds, and must give its worst "
                 "count. Of 1,024 strips both engines must write the same bytes, and doubling\nthe same answer; long "
                 "counts are compared with the obvious loop, from other half ticks, too.\n\n");
    fprintf(out, "| w | slots | k | judging: long ÷ 1,024 | long ÷ first engine | counting: long ÷ 1,024 "
                 "| long ÷ first engine | judging: long (µs) | 1,024 (µs) | first engine (µs) | counting: long (µs) "
                 "| 1,024 (µs) | first engine (µs) | spread | answers |\n"
                 "|---:|---:|---:|---:|---:|---:|---:|---:|---:|---:|---:|---:|---:|---:|---|\n");
    for (size_t i = 0; i < results->longs; i++) {
        const struct long_row *row = &results->long_row[i];
        const double columns[] = {row->judge_growth, row->judge_over_first, row->count_growth, row->count_over_first,
                                  row->judge[LONG_ONE] / 1e3, row->judge[AS_MANY] / 1e3, row->judge[BY_FIRST] / 1e3,
                                  row->count[LONG_ONE] / 1e3, row->count[AS_MANY] / 1e3, row->count[BY_FIRST] / 1e3,
                                  row->spread};
        print_cell_columns(out, &row->cell);
        for (size_t j = 0; j < sizeof columns / sizeof *columns; j++)
            print_column(out, columns[j]);
        fprintf(out, "| %s |\n", row->agree ? "all equal" : "DIFFERENT");
    }
}

static void print_conditions(FILE *out, const struct results *results)
{
    const char *machine = getenv("BENCH_MACHINE"), *archive = getenv("BENCH_MADE");
    const char *before = getenv("BENCH_BEFORE_MADE");
    fprintf(out, "\n## Conditions\n\n- machine: %s\n", machine != NULL ? machine : "not told");
    print_compiler(out);
    fprintf(out, "- flags: %s\n- archive: %s\n", BENCH_FLAGS, archive != NULL ? archive : "as it was built");
    if (results->before_slot_bytes > 0)
        fprintf(out, "- before: %s; it reads slot records of %zu bytes\n",
                before != NULL ? before : "as it was built", results->before_slot_bytes);
    fprintf(out, "- runs: medians of %d rounds of at least %.0f µs of processor time each, taking turns; ours ÷ "
                 "before, late ÷ plain, quick ÷\n  judging, growth and the ratios of long windows are medians of the "
                 "rounds' ratios; the rounds begin at four places\n  of the stack in turn\n", ROUNDS, batch_ns / 1e3);
}

/* Ratios stand before times in every table: they are what carries over to another machine. */
void print_report(FILE *out, const struct results *results)
{
    fprintf(out, "# Bench\n\nFP is the published Finite-Point method in the obvious C, doubling the plain form of "
                 "doubling in C with 16-bit\ncounts, byte stage the same with bytes while counts fit them, ours the "
                 "archive, floor clearing and reading w bytes.\nOnly ours finds the least margin as well. Before is "
                 "an older archive on the same slots, in records as it reads\nthem; – stands where none was given."
                 "\n\n");
    print_goals(out, results);
    print_grid(out, results);
    print_growth(out, results);
    print_boards(out, results);
    print_lates(out, results);
    print_grants(out, results);
    print_sites(out, results);
    print_counts(out, results);
    print_quicks(out, results);
    print_longs(out, results);
    print_conditions(out, results);
    fprintf(out, "\nbench: %zu cases, %zu differences\n",
            results->rows + results->boards + results->lates + results->grants + results->sites + results->counts +
                results->quicks + ENDS + results->longs,
            differences(results));
}

/* ---- the same for programs ---- */

enum column {
    W, SLOTS, K, ZONE_STARTS, FP_TIMED, FP_NS, DOUBLING_NS, BYTE_STAGE_NS, OURS_NS, FLOOR_NS, FP_OVER_OURS,
    OURS_OVER_DOUBLING, SPREAD, AGAINST_W, AGAINST_SLOTS, AGAINST_K, GROWTH, JUDGEMENTS, SITE_NS, SINGLES_NS,
    SITE_OVER_SINGLES, LOOP_NS, LOOP_ONE_NS, LOOP_BY_K_NS, BEFORE_NS, BEFORE_ONE_NS, BEFORE_BY_K_NS, OURS_ONE_NS,
    OURS_BY_K_NS, JUDGING_NS, LOOP_OVER_BEFORE, LOOP_OVER_OURS, BY_K_BEFORE_OVER_OURS, BY_K_LOOP_OVER_OURS,
    OURS_OVER_JUDGING, OURS_OVER_BEFORE, ALONE_NS, BOARD_OVER_ALONE, OTHER_RECORD_NS, WORST, DROPS_ALLOWED,
    QUICK_NS, QUICK_OVER_JUDGING, LOSS, PLAIN_NS, LATE_OVER_PLAIN, AS_MANY_NS, FIRST_ENGINE_NS, LONG_OVER_AS_MANY,
    LONG_OVER_FIRST, COLUMNS
};

static const struct {
    const char *name;
    int digits;
} columns[COLUMNS] = {
    [W] = {"w", 0},
    [SLOTS] = {"slots", 0},
    [K] = {"k", 0},
    [ZONE_STARTS] = {"zone_starts", 0},
    [FP_TIMED] = {"fp_timed", 0},
    [FP_NS] = {"fp_ns", 1},
    [DOUBLING_NS] = {"doubling_ns", 1},
    [BYTE_STAGE_NS] = {"byte_stage_ns", 1},
    [OURS_NS] = {"ours_ns", 1},
    [FLOOR_NS] = {"floor_ns", 1},
    [FP_OVER_OURS] = {"fp_over_ours", 3},
    [OURS_OVER_DOUBLING] = {"ours_over_doubling", 4},
    [SPREAD] = {"spread", 3},
    [AGAINST_W] = {"against_w", 0},
    [AGAINST_SLOTS] = {"against_slots", 0},
    [AGAINST_K] = {"against_k", 0},
    [GROWTH] = {"growth", 4},
    [JUDGEMENTS] = {"judgements", 4},
    [SITE_NS] = {"site_ns", 1},
    [SINGLES_NS] = {"singles_ns", 1},
    [SITE_OVER_SINGLES] = {"site_over_singles", 4},
    [LOOP_NS] = {"loop_ns", 1},
    [LOOP_ONE_NS] = {"loop_one_ns", 1},
    [LOOP_BY_K_NS] = {"loop_by_k_ns", 1},
    [BEFORE_NS] = {"before_ns", 1},
    [BEFORE_ONE_NS] = {"before_one_ns", 1},
    [BEFORE_BY_K_NS] = {"before_by_k_ns", 1},
    [OURS_ONE_NS] = {"ours_one_ns", 1},
    [OURS_BY_K_NS] = {"ours_by_k_ns", 1},
    [JUDGING_NS] = {"judging_ns", 1},
    [LOOP_OVER_BEFORE] = {"loop_over_before", 4},
    [LOOP_OVER_OURS] = {"loop_over_ours", 4},
    [BY_K_BEFORE_OVER_OURS] = {"by_k_before_over_ours", 4},
    [BY_K_LOOP_OVER_OURS] = {"by_k_loop_over_ours", 4},
    [OURS_OVER_JUDGING] = {"ours_over_judging", 4},
    [OURS_OVER_BEFORE] = {"ours_over_before", 4},
    [ALONE_NS] = {"alone_ns", 1},
    [BOARD_OVER_ALONE] = {"board_over_alone", 4},
    [OTHER_RECORD_NS] = {"other_record_ns", 3},
    [WORST] = {"worst", 0},
    [DROPS_ALLOWED] = {"drops_allowed", 0},
    [QUICK_NS] = {"quick_ns", 1},
    [QUICK_OVER_JUDGING] = {"quick_over_judging", 4},
    [LOSS] = {"loss", 0},
    [PLAIN_NS] = {"plain_ns", 1},
    [LATE_OVER_PLAIN] = {"late_over_plain", 4},
    [AS_MANY_NS] = {"as_many_ns", 1},
    [FIRST_ENGINE_NS] = {"first_engine_ns", 1},
    [LONG_OVER_AS_MANY] = {"long_over_as_many", 4},
    [LONG_OVER_FIRST] = {"long_over_first", 4},
};

struct line {
    const char *fp_timed; /* the one column in words */
    double at[COLUMNS];   /* 0 where a case has no such figure */
};

static void print_line(FILE *out, const struct cell *cell, struct line line)
{
    line.at[W] = cell->w;
    line.at[SLOTS] = cell->slots;
    line.at[K] = cell->k;
    for (size_t i = 0; i < COLUMNS; i++) {
        fputc(',', out);
        if (i == FP_TIMED && line.fp_timed != NULL)
            fputs(line.fp_timed, out);
        if (line.at[i] > 0)
            fprintf(out, "%.*f", columns[i].digits, line.at[i]);
    }
    fputc('\n', out);
}

static void print_csv_rows(FILE *out, const struct results *results)
{
    for (size_t i = 0; i < results->rows; i++) {
        const struct row *r = &results->row[i];
        fprintf(out, "judge");
        print_line(out, &r->cell, (struct line){.fp_timed = way_names[r->way],
                   .at = {[ZONE_STARTS] = r->zones, [FP_NS] = r->fp, [DOUBLING_NS] = r->doubling,
                          [BYTE_STAGE_NS] = r->bytewise, [OURS_NS] = r->ours, [FLOOR_NS] = r->floor,
                          [FP_OVER_OURS] = fp_ratio(r), [OURS_OVER_DOUBLING] = doubling_ratio(r),
                          [SPREAD] = r->spread, [OURS_OVER_BEFORE] = r->before}});
    }
    for (size_t i = 0; i < results->growths; i++) {
        const struct growth *g = &results->growth[i];
        fprintf(out, "growth in %s", growth_names[g->in]);
        print_line(out, &g->large, (struct line){
                   .at = {[AGAINST_W] = g->small.w, [AGAINST_SLOTS] = g->small.slots, [AGAINST_K] = g->small.k,
                          [GROWTH] = g->ratio}});
    }
}

static void print_csv_boards(FILE *out, const struct results *results)
{
    for (size_t i = 0; i < results->boards; i++) {
        const struct board_row *b = &results->board[i];
        fprintf(out, "board of %u", FIDDLEQUILL_SLOTS_MAX);
        print_line(out, &b->cell, (struct line){
                   .at = {[OURS_NS] = b->board, [SPREAD] = b->spread, [AGAINST_W] = b->beside.w,
                          [AGAINST_SLOTS] = b->beside.slots, [AGAINST_K] = b->beside.k, [ALONE_NS] = b->alone,
                          [BOARD_OVER_ALONE] = board_ratio(b), [OTHER_RECORD_NS] = other_record(b)}});
    }
}

static void print_csv_lates(FILE *out, const struct results *results)
{
    for (size_t i = 0; i < results->lates; i++) {
        const struct late_row *l = &results->late[i];
        fprintf(out, "late");
        print_line(out, &l->cell, (struct line){
                   .at = {[OURS_NS] = l->late, [SPREAD] = l->spread, [PLAIN_NS] = l->plain,
                          [LATE_OVER_PLAIN] = l->ratio}});
    }
}

static void print_csv_grants(FILE *out, const struct results *results)
{
    for (size_t i = 0; i < results->grants; i++) {
        const struct grant_row *g = &results->grant[i];
        const struct cell cell = {GRANT_SLOTS * g->v, GRANT_SLOTS, g->k};
        fprintf(out, "grant of %s", g->kind);
        print_line(out, &cell, (struct line){
                   .at = {[OURS_NS] = g->grant, [JUDGEMENTS] = g->judgements, [OURS_OVER_BEFORE] = g->before,
                          [LOSS] = g->loss}});
    }
}

static void print_csv_sites(FILE *out, const struct results *results)
{
    for (size_t i = 0; i < results->sites; i++) {
        const struct site_row *s = &results->site[i];
        fprintf(out, "site of %d", SIGNS);
        print_line(out, &s->cell, (struct line){
                   .at = {[SPREAD] = s->spread, [SITE_NS] = s->site, [SINGLES_NS] = s->singles,
                          [SITE_OVER_SINGLES] = site_ratio(s), [OURS_OVER_BEFORE] = s->before}});
    }
}

static void print_csv_counts(FILE *out, const struct results *results)
{
    for (size_t i = 0; i < results->counts; i++) {
        const struct count_row *c = &results->count[i];
        const struct count_times *loop = &c->by[LOOP], *before = &c->by[BEFORE], *ours = &c->by[OURS];
        fprintf(out, "count");
        print_line(out, &c->cell, (struct line){
                   .at = {[OURS_NS] = ours->all, [SPREAD] = c->spread, [LOOP_NS] = loop->all,
                          [LOOP_ONE_NS] = loop->one, [LOOP_BY_K_NS] = loop->by_k, [BEFORE_NS] = before->all,
                          [BEFORE_ONE_NS] = before->one, [BEFORE_BY_K_NS] = before->by_k, [OURS_ONE_NS] = ours->one,
                          [OURS_BY_K_NS] = ours->by_k, [JUDGING_NS] = c->judging,
                          [LOOP_OVER_BEFORE] = count_ratio(c, LOOP, BEFORE),
                          [LOOP_OVER_OURS] = count_ratio(c, LOOP, OURS),
                          [BY_K_BEFORE_OVER_OURS] = by_k_ratio(c, BEFORE, OURS),
                          [BY_K_LOOP_OVER_OURS] = by_k_ratio(c, LOOP, OURS),
                          [OURS_OVER_JUDGING] = judging_ratio(c), [OURS_OVER_BEFORE] = c->before}});
    }
}

/* The worst count and the drops allowed are 0 where they aren't told. */
static void print_csv_quick(FILE *out, const char *name, const struct cell *cell, uint32_t worst, uint32_t allowed,
                            const struct quick_times *q)
{
    fprintf(out, "quick: %s", name);
    print_line(out, cell, (struct line){
               .at = {[WORST] = worst, [DROPS_ALLOWED] = allowed, [SPREAD] = q->spread, [QUICK_NS] = q->quick,
                      [JUDGING_NS] = q->judging, [QUICK_OVER_JUDGING] = q->ratio}});
}

static void print_csv_quicks(FILE *out, const struct results *results)
{
    for (size_t i = 0; i < results->quicks; i++) {
        const struct quick_row *row = &results->quick[i];
        for (enum table table = 0; table < TABLES; table++)
            print_csv_quick(out, table_names[table], &row->cell, row->worst, drops_allowed(table, row->worst),
                            &row->on[table]);
    }
    for (size_t i = 0; i < ENDS; i++)
        print_csv_quick(out, end_names[i], &results->end[i].cell, 0, 0, &results->end[i].times);
}

static void print_csv_long(FILE *out, const char *name, const struct long_row *row, const double times[WINDOWS],
                           double growth, double over_first)
{
    fprintf(out, "%s by rounds", name);
    print_line(out, &row->cell, (struct line){
               .at = {[OURS_NS] = times[LONG_ONE], [SPREAD] = row->spread, [AGAINST_W] = row->cell.w,
                      [AGAINST_SLOTS] = row->cell.slots, [AGAINST_K] = FIDDLEQUILL_STRIPS_MAX,
                      [AS_MANY_NS] = times[AS_MANY], [FIRST_ENGINE_NS] = times[BY_FIRST],
                      [LONG_OVER_AS_MANY] = growth, [LONG_OVER_FIRST] = over_first}});
}

static void print_csv_longs(FILE *out, const struct results *results)
{
    for (size_t i = 0; i < results->longs; i++) {
        const struct long_row *row = &results->long_row[i];
        print_csv_long(out, "judge", row, row->judge, row->judge_growth, row->judge_over_first);
        print_csv_long(out, "count", row, row->count, row->count_growth, row->count_over_first);
    }
}

void print_csv(FILE *out, const struct results *results)
{
    fprintf(out, "case");
    for (size_t i = 0; i < COLUMNS; i++)
        fprintf(out, ",%s", columns[i].name);
    fputc('\n', out);
    print_csv_rows(out, results);
    print_csv_boards(out, results);
    print_csv_lates(out, results);
    print_csv_grants(out, results);
    print_csv_sites(out, results);
    print_csv_counts(out, results);
    print_csv_quicks(out, results);
    print_csv_longs(out, results);
}
