/*
 * Side by side, in one run and taking turns: the published Finite-Point method
 * (FP), plain doubling in C, in 16 bits and with a byte stage, the archive, and a
 * floor; then a task on a board beside its own records alone, slots that start late
 * beside slots that don't, a site in one call beside a call for each sign, counting
 * beside the obvious loop, the verdict alone (quick) beside judging, and whole rounds
 * with a million strips beside fewer and beside the first engine. Where an older
 * archive was given, it takes its turns on the same tasks. Every case compares the
 * answers; the exit status depends on that alone, never on a time.
 *
 *   bench FOLDER           prints the report, writes FOLDER/RESULTS.md and results.csv
 *   bench --once W SLOTS K calls each kind once, for counting instructions
 */
#define _POSIX_C_SOURCE 200809L

#include "bytes.h"
#include "files.h"
#include "results.h"

#include <inttypes.h>
#include <stdio.h>
#include <stdlib.h>
#include <string.h>
#include <time.h>

#define LENGTH(array) (sizeof(array) / sizeof *(array))

/* A stack moves in steps of so many bytes, and so many of them are a line of the cache. */
enum { STACK_STEP = 16, STACK_PLACES = 4 };
_Static_assert(ROUNDS % STACK_PLACES == 0, "no place counts more than another");

/* ---- timing ---- */

/* Processor time, not wall time: other work on the machine would fall on the longer batches and lift FP's times. */
static double now_ns(void)
{
    struct timespec t;
    clock_gettime(CLOCK_THREAD_CPUTIME_ID, &t);
    return (double)t.tv_sec * 1e9 + (double)t.tv_nsec;
}

static double median(double *times)
{
    return middle(times, ROUNDS);
}

/* Upper quartile over lower quartile of sorted times: 1 is a quiet run. */
static double spread(const double *sorted)
{
    return sorted[ROUNDS * 3 / 4] / sorted[ROUNDS / 4];
}

typedef void (*job)(void *context);

struct contender {
    job run;
    void *context;
    uint64_t repeats;
    double times[ROUNDS];
};

static double time_job(const struct contender *c)
{
    double start = now_ns();
    for (uint64_t i = 0; i < c->repeats; i++)
        c->run(c->context);
    return (now_ns() - start) / (double)c->repeats;
}

static void calibrate(struct contender *c)
{
    c->repeats = 1;
    while (time_job(c) * (double)c->repeats < batch_ns)
        c->repeats *= 2;
}

/* The same from so many steps further down the stack; the array is read behind the call, so it lasts till then. */
static double time_job_below(const struct contender *c, size_t steps)
{
    volatile uint8_t passed[1 + steps * STACK_STEP];
    passed[0] = 0;
    return time_job(c) + passed[0];
}

/*
 * Contenders take turns, so that a slow moment of the machine falls on all. The time of a short call goes by where its
 * arrays lie in the lines of the cache, and a stack begins elsewhere in every run: so the rounds go through the places.
 */
static void take_turns(struct contender *contenders, size_t n)
{
    for (size_t i = 0; i < n; i++)
        calibrate(&contenders[i]);
    for (size_t round = 0; round < ROUNDS; round++)
        for (size_t i = 0; i < n; i++)
            contenders[i].times[round] = time_job_below(&contenders[i], round % STACK_PLACES);
}

/* Round by round, so before a median of the times, which puts the rounds out of order. */
static double ratio_of_rounds(const struct contender *over, const struct contender *under)
{
    double ratios[ROUNDS];
    for (size_t i = 0; i < ROUNDS; i++)
        ratios[i] = over->times[i] / under->times[i];
    return median(ratios);
}

/* By turns with nobody else, and round by round: what disturbs the machine then disturbs both. */
static double ratio_by_turns(job run, void *over, void *under)
{
    struct contender c[] = {{.run = run, .context = over}, {.run = run, .context = under}};
    take_turns(c, LENGTH(c));
    return ratio_of_rounds(&c[0], &c[1]);
}

/* ---- jobs ---- */

/* Also the call for a whole site. */
typedef uint32_t (*judge)(const uint8_t *, size_t, const uint8_t *, size_t, uint8_t *, size_t);
typedef uint64_t (*count)(const uint8_t *, size_t, const uint8_t *, size_t, uint64_t);
typedef uint64_t (*grant)(uint8_t *, size_t, uint64_t, uint64_t, uint64_t, uint64_t, uint64_t, uint64_t, uint64_t);
/* The same without a loss. */
typedef uint64_t (*lossless_grant)(uint8_t *, size_t, uint64_t, uint64_t, uint64_t, uint64_t, uint64_t, uint64_t);

struct judging {
    const struct workload *load;
    judge judge;
    uint8_t reply[FIDDLEQUILL_ANSWER_BYTES];
    uint32_t number;
};

static void judge_job(void *context)
{
    struct judging *j = context;
    j->number = j->judge(j->load->task, sizeof j->load->task, j->load->slots, j->load->slots_len, j->reply,
                         sizeof j->reply);
}

static struct judging judged_by(judge judge, const struct workload *load)
{
    struct judging judging = {.load = load, .judge = judge};
    judge_job(&judging);
    return judging;
}

static bool same_bytes(const struct judging *a, const struct judging *b)
{
    return a->number == b->number && memcmp(a->reply, b->reply, sizeof a->reply) == 0;
}

/* Up to the margin, which the baselines don't have. */
static bool same_answer(const struct judging *a, const struct judging *b)
{
    return a->number == b->number && memcmp(a->reply, b->reply, MARGIN_AT) == 0;
}

static bool says_firm(const struct judging *judging)
{
    return get_number(judging->reply + 6, 2) == 1;
}

static bool margin_is(const uint8_t *answer, uint32_t least, uint32_t e)
{
    return fiddlequill_signed(get_number(answer + MARGIN_AT, 4)) == (int32_t)least - (int32_t)e;
}

/* The margin against FP's supply at every tick, outside of what is timed. */
static bool margin_agrees(const struct judging *ours)
{
    uint32_t least, largest;
    fp_supplies(&ours->load->fp, &least, &largest);
    return margin_is(ours->reply, least, ours->load->fp.plan.e);
}

/* FP's zones, then some of its candidates; what the others would take is added by proportion. */
struct sampling {
    const struct workload *load;
    struct fp fp;
    uint64_t state;
    uint32_t sample, highest;
};

static void zones_job(void *context)
{
    struct sampling *s = context;
    fp_open(&s->fp);
}

static void sample_job(void *context)
{
    struct sampling *s = context;
    for (uint32_t i = 0; i < s->sample; i++) {
        uint32_t zone = (uint32_t)(draw(&s->state) % s->fp.zones);
        uint32_t n = (uint32_t)(draw(&s->state) % s->fp.plan.k);
        uint32_t drops = fp_count(&s->fp, fp_candidate(&s->fp, zone, n));
        s->highest = drops > s->highest ? drops : s->highest;
    }
}

struct floor_run {
    uint8_t *bytes;
    size_t n;
    volatile uint32_t sum;
};

static void floor_job(void *context)
{
    struct floor_run *f = context;
    f->sum = floor_pass(f->bytes, f->n);
}

/* ---- an older archive ---- */

#ifdef BENCH_BEFORE
#define BEFORE_CALL(name) before_##name
#else
#define BEFORE_CALL(name) NULL
#endif

static struct {
    size_t slot_bytes; /* of a slot record as it reads them; 0 where no older archive was given */
    bool knows_loss;   /* of a slot, and is handed one for a grant */
    judge judge, site;
    count count;
    void (*grant)(void);
} older = {0, false, BEFORE_CALL(judge), BEFORE_CALL(site), BEFORE_CALL(count), BEFORE_CALL(grant)};

/* The task of a cell for the older archive. It owns all its slots, so the owners may be cut off. */
static void make_older(struct workload *load, struct cell cell)
{
    make_workload(load, cell);
    load->slots_len = cut_slots(load->slots, load->slots_len, older.slot_bytes);
}

/* One that knows none has spare bytes there, and refuses them. */
static bool knows_loss(void)
{
    static struct workload load;
    make_older(&load, (struct cell){55, 1, 10});
    put_number(load.slots + LOSS_AT, 1, 2);
    return older.slot_bytes == FIDDLEQUILL_SLOT_BYTES && judged_by(older.judge, &load).number == FIDDLEQUILL_OK;
}

/* An older record is the beginning of today's. One record is no whole number of those of another size: 1 is given. */
static void find_older(void)
{
    static const size_t sizes[] = {FIDDLEQUILL_SLOT_BYTES, OWNER_AT}; /* whole records, or start and end alone */
    static struct workload load;
    if (older.judge == NULL)
        return;
    for (size_t i = 0; i < LENGTH(sizes); i++) {
        older.slot_bytes = sizes[i];
        make_older(&load, (struct cell){55, 1, 10});
        if (judged_by(older.judge, &load).number == FIDDLEQUILL_OK) {
            older.knows_loss = knows_loss();
            return;
        }
    }
    fprintf(stderr, "bench: the older archive answers no slot record of a size that is known\n");
    exit(2);
}

/* ---- the grid ---- */

static double sampled_fp(const struct row *row, double zones_ns, double sample_ns, uint32_t sample)
{
    return zones_ns + sample_ns / sample * ((double)row->zones * row->cell.k + 1);
}

/* Where FP is too slow to run whole, its sampled candidates may not beat the answer, which it must recount. */
static bool sample_agrees(const struct sampling *sampling, const struct judging *ours)
{
    uint32_t worst = get_number(ours->reply + 8, 4), offset = get_number(ours->reply + 12, 4);
    return sampling->highest <= worst && fp_count(&sampling->fp, offset) == worst;
}

static enum fp_way way_for(double guess_ns)
{
    if (guess_ns <= fp_rounds_ns)
        return FP_ROUNDS;
    return guess_ns <= fp_once_ns ? FP_ONCE : FP_SAMPLE;
}

/* A first, rough look at how long FP would take. */
static double guess_fp(const struct row *row, struct sampling *sampling)
{
    struct contender zones = {.run = zones_job, .context = sampling}, sample = {.run = sample_job, .context = sampling};
    calibrate(&zones);
    calibrate(&sample);
    return sampled_fp(row, time_job(&zones), time_job(&sample), sampling->sample);
}

static double largest_spread(const struct contender *contenders, size_t n)
{
    double largest = 1;
    for (size_t i = 0; i < n; i++)
        largest = spread(contenders[i].times) > largest ? spread(contenders[i].times) : largest;
    return largest;
}

static void fill_row(struct row *row, const struct workload *load)
{
    static struct sampling sampling;
    static uint8_t bytes[FIDDLEQUILL_WHEEL_MAX];
    static const size_t taking_turns[] = {[FP_ROUNDS] = 5, [FP_ONCE] = 4, [FP_SAMPLE] = 6};
    struct judging fp = {.load = load, .judge = fp_judge};
    struct judging doubling = judged_by(doubling_judge, load), bytewise = judged_by(bytes_judge, load);
    struct judging ours = judged_by(fiddlequill_judge, load);
    struct floor_run floor_run = {.bytes = bytes, .n = load->cell.w};
    sampling = (struct sampling){.load = load, .fp = load->fp, .state = 1, .sample = 16};
    row->zones = load->fp.zones;
    row->way = way_for(guess_fp(row, &sampling));
    struct contender c[] = {{.run = judge_job, .context = &doubling}, {.run = judge_job, .context = &ours},
                            {.run = floor_job, .context = &floor_run}, {.run = judge_job, .context = &bytewise},
                            {.run = judge_job, .context = &fp}, {.run = sample_job, .context = &sampling}};
    if (row->way == FP_SAMPLE)
        c[4] = (struct contender){.run = zones_job, .context = &sampling};
    take_turns(c, taking_turns[row->way]);
    row->doubling = median(c[0].times);
    row->ours = median(c[1].times);
    row->floor = median(c[2].times);
    row->bytewise = median(c[3].times);
    if (row->way == FP_ROUNDS) {
        row->fp = median(c[4].times);
    } else if (row->way == FP_ONCE) {
        c[4].repeats = 1;
        row->fp = time_job(&c[4]);
    } else {
        row->fp = median(c[4].times);
        row->fp = sampled_fp(row, row->fp, median(c[5].times), sampling.sample);
    }
    row->spread = largest_spread(c, taking_turns[row->way]);
    row->agree = same_answer(&doubling, &ours) && same_answer(&bytewise, &ours) && margin_agrees(&ours) &&
                 (row->way == FP_SAMPLE ? sample_agrees(&sampling, &ours) : same_answer(&fp, &ours));
}

static void fill_before(struct row *row, const struct workload *load)
{
    static struct workload cut;
    if (older.slot_bytes == 0)
        return;
    make_older(&cut, load->cell);
    struct judging ours = judged_by(fiddlequill_judge, load), before = judged_by(older.judge, &cut);
    row->before = ratio_by_turns(judge_job, &ours, &before);
    row->agree &= same_bytes(&before, &ours);
}

/* ---- growth: one judging against another ---- */

static void fill_growth(struct growth *growth)
{
    static struct workload small, large;
    make_workload(&small, growth->small);
    make_workload(&large, growth->large);
    struct judging a = judged_by(fiddlequill_judge, &small), b = judged_by(fiddlequill_judge, &large);
    growth->ratio = ratio_by_turns(judge_job, &b, &a);
}

/* ---- boards ---- */

/* Where the board has other owners, the answer is that of the task's own records, the margin included. */
static void fill_board(struct board_row *row)
{
    static struct workload board, alone;
    const bool all_own = row->cell.slots == FIDDLEQUILL_SLOTS_MAX;
    make_workload(&alone, row->beside);
    if (all_own)
        make_workload(&board, row->cell);
    else
        make_board(&board, &alone);
    struct judging there = judged_by(fiddlequill_judge, &board), here = judged_by(fiddlequill_judge, &alone);
    struct judging doubling = judged_by(doubling_judge, &board);
    struct contender c[] = {{.run = judge_job, .context = &there}, {.run = judge_job, .context = &here}};
    take_turns(c, LENGTH(c));
    row->board = median(c[0].times);
    row->alone = median(c[1].times);
    row->spread = largest_spread(c, LENGTH(c));
    row->agree = same_answer(&doubling, &there) && margin_agrees(&there) && here.number == FIDDLEQUILL_OK &&
                 (all_own || same_bytes(&there, &here));
}

/* ---- slots that start late ---- */

static void fill_late(struct late_row *row)
{
    static struct workload plain, late;
    make_workload(&plain, row->cell);
    make_late(&late, &plain);
    struct judging there = judged_by(fiddlequill_judge, &late), here = judged_by(fiddlequill_judge, &plain);
    struct judging doubling = judged_by(doubling_judge, &late);
    struct contender c[] = {{.run = judge_job, .context = &there}, {.run = judge_job, .context = &here}};
    take_turns(c, LENGTH(c));
    row->ratio = ratio_of_rounds(&c[0], &c[1]);
    row->late = median(c[0].times);
    row->plain = median(c[1].times);
    row->spread = largest_spread(c, LENGTH(c));
    row->agree = there.number == FIDDLEQUILL_OK && same_bytes(&there, &here) && same_answer(&doubling, &there) &&
                 margin_agrees(&there);
}

/* ---- grants ---- */

struct granting {
    grant grant;
    lossless_grant lossless; /* in its place, where an archive knows no loss */
    uint64_t v, loss, e, h, k;
    uint32_t apart; /* every slot is free, or every so-many-th */
    uint64_t result;
    uint8_t fresh[GRANT_SLOTS], marks[GRANT_SLOTS];
};

static void mark_free(struct granting *g)
{
    for (uint32_t i = 0; i < GRANT_SLOTS; i++)
        g->fresh[i] = i % g->apart == 0 ? 1 : 0;
}

static uint32_t free_slots(const struct granting *g)
{
    return (GRANT_SLOTS + g->apart - 1) / g->apart;
}

static void grant_job(void *context)
{
    struct granting *g = context;
    memcpy(g->marks, g->fresh, sizeof g->marks);
    if (g->lossless != NULL)
        g->result = g->lossless(g->marks, sizeof g->marks, g->v, g->e, g->h, g->h, g->k, g->k);
    else
        g->result = g->grant(g->marks, sizeof g->marks, g->v, g->loss, g->e, g->h, g->h, g->k, g->k);
}

/* A judging of the grant's wheel with the first j free slots; m is k, so firm means that nothing drops. */
static void wheel_of_grant(struct workload *load, const struct granting *g, uint32_t j)
{
    load->cell = (struct cell){(uint32_t)(GRANT_SLOTS * g->v), j, (uint32_t)g->k};
    load->slots_len = 0;
    for (uint32_t i = 0; i < j; i++) {
        const uint32_t start = (uint32_t)(i * g->apart * g->v);
        put_slot(load, start, start + (uint32_t)g->v, PAINTER, (uint32_t)g->loss);
    }
    put_task(load, (uint32_t)g->e, (uint32_t)g->h, (uint32_t)g->k);
}

static bool firm_with(const struct granting *g, uint32_t j)
{
    static struct workload load;
    wheel_of_grant(&load, g, j);
    struct judging judging = judged_by(doubling_judge, &load);
    return says_firm(&judging);
}

/* Plain doubling must find the same number of slots firm, and one less not. */
static bool grant_agrees(const struct granting *g, uint32_t number, uint32_t granted)
{
    if (number != FIDDLEQUILL_OK)
        return number == FIDDLEQUILL_NEVER_FIRM && !firm_with(g, free_slots(g));
    return firm_with(g, granted) && (granted == 0 || !firm_with(g, granted - 1));
}

static void fill_grant_before(struct grant_row *row, struct granting *ours)
{
    struct granting before = *ours;
    if (older.slot_bytes == 0 || (ours->loss > 0 && !older.knows_loss))
        return;
    if (older.knows_loss)
        before.grant = (grant)older.grant;
    else
        before.lossless = (lossless_grant)older.grant;
    row->before = ratio_by_turns(grant_job, ours, &before);
    row->agree &= before.result == ours->result && memcmp(before.marks, ours->marks, sizeof before.marks) == 0;
}

/* The need as sixty-fourths of the window: more than a part of the wheel's slots, all of them, or too many. */
static void fill_grant(struct grant_row *row, uint32_t sixtyfourths, uint32_t apart)
{
    static struct workload load;
    uint32_t h = period_for(GRANT_SLOTS * row->v, GRANT_SLOTS);
    uint64_t e = (uint64_t)h * sixtyfourths / GRANT_SLOTS;
    struct granting g = {
        .grant = fiddlequill_grant, .v = row->v, .loss = row->loss, .e = e, .h = h, .k = row->k, .apart = apart};
    mark_free(&g);
    grant_job(&g);
    row->number = fiddlequill_number(g.result);
    row->granted = fiddlequill_value(g.result);
    row->agree = grant_agrees(&g, row->number, row->granted);
    wheel_of_grant(&load, &g, row->number == FIDDLEQUILL_OK ? row->granted : free_slots(&g));
    struct judging judging = judged_by(fiddlequill_judge, &load);
    struct contender c[] = {{.run = grant_job, .context = &g}, {.run = judge_job, .context = &judging}};
    take_turns(c, LENGTH(c));
    row->grant = median(c[0].times);
    row->judging = median(c[1].times);
    row->judgements = row->grant / row->judging;
    fill_grant_before(row, &g);
}

/* ---- sites ---- */

struct siting {
    const struct site *site;
    judge judge; /* of all signs at once, or of a single one */
    uint8_t reply[SIGNS * FIDDLEQUILL_ANSWER_BYTES];
    uint32_t number;
};

static void site_job(void *context)
{
    struct siting *s = context;
    s->number = s->judge(s->site->tasks, sizeof s->site->tasks, s->site->slots, s->site->slots_len, s->reply,
                         sizeof s->reply);
}

static void singles_job(void *context)
{
    struct siting *s = context;
    s->number = FIDDLEQUILL_OK;
    for (size_t i = 0; i < SIGNS; i++)
        s->number |= s->judge(s->site->tasks + i * FIDDLEQUILL_TASK_BYTES, FIDDLEQUILL_TASK_BYTES, s->site->slots,
                              s->site->slots_len, s->reply + i * FIDDLEQUILL_ANSWER_BYTES, FIDDLEQUILL_ANSWER_BYTES);
}

static bool same_site(const struct siting *a, const struct siting *b)
{
    return a->number == FIDDLEQUILL_OK && b->number == FIDDLEQUILL_OK &&
           memcmp(a->reply, b->reply, sizeof a->reply) == 0;
}

static bool signs_agree(const struct siting *ours, const struct siting *baseline)
{
    for (size_t i = 0; i < SIGNS; i++) {
        const uint8_t *answer = ours->reply + i * FIDDLEQUILL_ANSWER_BYTES;
        uint32_t e = get_number(ours->site->tasks + i * FIDDLEQUILL_TASK_BYTES + 8, 4);
        if (memcmp(answer, baseline->reply + i * FIDDLEQUILL_ANSWER_BYTES, MARGIN_AT) != 0 ||
            !margin_is(answer, ours->site->least, e))
            return false;
    }
    return baseline->number == FIDDLEQUILL_OK;
}

static void fill_site_before(struct site_row *row, struct siting *ours)
{
    static struct site cut;
    if (older.slot_bytes == 0)
        return;
    cut = *ours->site;
    cut.slots_len = cut_slots(cut.slots, cut.slots_len, older.slot_bytes);
    struct siting before = {.site = &cut, .judge = older.site};
    row->before = ratio_by_turns(site_job, ours, &before);
    row->agree &= same_site(&before, ours);
}

/* Plain doubling judges each sign once, so that the archive isn't compared with itself alone. */
static void fill_site(struct site_row *row)
{
    static struct site site;
    make_site(&site, row->cell);
    struct siting whole = {.site = &site, .judge = fiddlequill_site};
    struct siting singles = {.site = &site, .judge = fiddlequill_judge};
    struct siting doubling = {.site = &site, .judge = doubling_judge};
    struct contender c[] = {{.run = site_job, .context = &whole}, {.run = singles_job, .context = &singles}};
    take_turns(c, LENGTH(c));
    singles_job(&doubling);
    row->site = median(c[0].times);
    row->singles = median(c[1].times);
    row->spread = largest_spread(c, LENGTH(c));
    row->agree = same_site(&whole, &singles) && signs_agree(&whole, &doubling);
    fill_site_before(row, &whole);
}

/* ---- counting ---- */

static const count counters[COUNTERS] = {
    [OURS] = fiddlequill_count, [LOOP] = remainder_count, [BEFORE] = BEFORE_CALL(count)};

static size_t counters_given(void)
{
    return older.slot_bytes != 0 ? COUNTERS : BEFORE;
}

/* A task for each counter, in slot records as it reads them. */
static void make_counted(struct workload loads[COUNTERS], struct cell cell)
{
    for (size_t i = 0; i < counters_given(); i++)
        if (i == BEFORE)
            make_older(&loads[i], cell);
        else
            make_workload(&loads[i], cell);
}

struct counting {
    const struct workload *load;
    count count;
    uint64_t offset, result;
};

static void count_job(void *context)
{
    struct counting *c = context;
    c->result = c->count(c->load->task, sizeof c->load->task, c->load->slots, c->load->slots_len, c->offset);
}

static uint64_t counted_by(count count, const struct workload *load, uint64_t offset)
{
    struct counting counting = {.load = load, .count = count, .offset = offset};
    count_job(&counting);
    return counting.result;
}

static bool same_count(const struct workload loads[COUNTERS], uint64_t offset)
{
    uint64_t ours = counted_by(counters[OURS], &loads[OURS], offset);
    bool same = true;
    for (size_t i = OURS + 1; i < counters_given(); i++)
        same &= counted_by(counters[i], &loads[i], offset) == ours;
    return same;
}

/* At the half tick that is timed, at the wheel's ends and just beyond, which is refused, and at some drawn ones. */
static bool same_counts(const struct workload loads[COUNTERS], uint64_t timed)
{
    const uint64_t turn = 2 * loads->cell.w, chosen[] = {timed, 0, 1, turn - 1, turn};
    uint64_t state = loads->cell.w;
    bool same = true;
    for (size_t i = 0; i < LENGTH(chosen); i++)
        same &= same_count(loads, chosen[i]);
    for (size_t i = 0; i < 8; i++)
        same &= same_count(loads, draw(&state) % turn);
    return same;
}

/* What k strips take beyond one in the same round; 0 where a quarter of the rounds show none: that is noise. */
static double time_by_k(const struct contender *all, const struct contender *one)
{
    double parts[ROUNDS];
    for (size_t i = 0; i < ROUNDS; i++)
        parts[i] = all->times[i] - one->times[i];
    double part = median(parts);
    return parts[ROUNDS / 4] > 0 ? part : 0;
}

/* The parts come first: a median puts the rounds out of order. */
static struct count_times count_times(struct contender *all, struct contender *one)
{
    double by_k = time_by_k(all, one);
    return (struct count_times){median(all->times), median(one->times), by_k};
}

/* From the half tick that judging finds, where the count must be its worst. */
static void fill_count(struct count_row *row)
{
    static struct workload loads[COUNTERS], singles[COUNTERS];
    make_counted(loads, row->cell);
    make_counted(singles, (struct cell){row->cell.w, row->cell.slots, 1});
    struct judging judging = judged_by(fiddlequill_judge, &loads[OURS]);
    uint32_t worst = get_number(judging.reply + 8, 4), offset = get_number(judging.reply + 12, 4);
    struct counting all[COUNTERS], one[COUNTERS];
    struct contender c[1 + 2 * COUNTERS] = {{.run = judge_job, .context = &judging}};
    const size_t given = counters_given(), taking_turns = 1 + 2 * given;
    for (size_t i = 0; i < given; i++) {
        all[i] = (struct counting){.load = &loads[i], .count = counters[i], .offset = offset};
        one[i] = (struct counting){.load = &singles[i], .count = counters[i], .offset = offset};
        c[1 + 2 * i] = (struct contender){.run = count_job, .context = &all[i]};
        c[2 + 2 * i] = (struct contender){.run = count_job, .context = &one[i]};
    }
    take_turns(c, taking_turns);
    row->judging = median(c[0].times);
    for (size_t i = 0; i < given; i++)
        row->by[i] = count_times(&c[1 + 2 * i], &c[2 + 2 * i]);
    row->spread = largest_spread(c, taking_turns);
    row->agree = judging.number == FIDDLEQUILL_OK && all[OURS].result == worst && same_counts(loads, offset) &&
                 same_counts(singles, offset);
    if (given > BEFORE)
        row->before = ratio_by_turns(count_job, &all[OURS], &all[BEFORE]);
}

/* ---- the verdict alone ---- */

struct verdict {
    const struct workload *load;
    uint64_t result;
};

static void quick_job(void *context)
{
    struct verdict *v = context;
    v->result = fiddlequill_quick(v->load->task, sizeof v->load->task, v->load->slots, v->load->slots_len);
}

/* Judging's bit and no refusal, as plain doubling finds it and as the table was meant. */
static bool verdict_agrees(const struct verdict *quick, const struct judging *judging, bool firm)
{
    struct judging doubling = judged_by(doubling_judge, quick->load);
    return judging->number == FIDDLEQUILL_OK && same_answer(&doubling, judging) && says_firm(judging) == firm &&
           quick->result == firm;
}

static struct quick_times time_quick(const struct workload *load, bool firm)
{
    struct verdict quick = {.load = load};
    struct judging judging = judged_by(fiddlequill_judge, load);
    struct contender c[] = {{.run = quick_job, .context = &quick}, {.run = judge_job, .context = &judging}};
    struct quick_times times;
    take_turns(c, LENGTH(c));
    times.ratio = ratio_of_rounds(&c[0], &c[1]);
    times.quick = median(c[0].times);
    times.judging = median(c[1].times);
    times.spread = largest_spread(c, LENGTH(c));
    times.agree = verdict_agrees(&quick, &judging, firm);
    return times;
}

static void fill_quick(struct quick_row *row)
{
    static struct workload load;
    make_workload(&load, row->cell);
    struct judging judging = judged_by(fiddlequill_judge, &load);
    row->worst = get_number(judging.reply + 8, 4);
    for (enum table table = 0; table < TABLES; table++) {
        set_table(&load, table, row->worst);
        row->on[table] = time_quick(&load, table == JUST_FIRM);
    }
}

static void fill_end(struct end_row *row, enum end end)
{
    static struct workload load;
    make_end(&load, row->cell, end);
    row->times = time_quick(&load, end != ALL_DROP);
}

/* ---- long windows ---- */

/* From some half ticks the archive and the obvious loop must count the same. */
static bool same_long_counts(const struct workload *load, uint64_t timed)
{
    const uint64_t turn = 2 * load->cell.w, chosen[] = {timed, 0, 1, turn - 1};
    uint64_t state = load->cell.w;
    bool same = counted_by(fiddlequill_rounds_count, load, turn) == (uint64_t)FIDDLEQUILL_BEYOND_WHEEL << 32;
    for (size_t i = 0; i < LENGTH(chosen) + 4; i++) {
        const uint64_t offset = i < LENGTH(chosen) ? chosen[i] : draw(&state) % turn;
        same &= counted_by(fiddlequill_rounds_count, load, offset) ==
                remainder_loop(&load->fp.plan, load->cell.k, offset);
    }
    return same;
}

/* Each call found its worst, and counted it there; whole rounds of as many strips wrote what the first engine did. */
static bool long_agrees(const struct judging judging[WINDOWS], const struct counting counting[WINDOWS])
{
    struct judging doubling = judged_by(doubling_judge, judging[AS_MANY].load);
    bool agree = same_bytes(&judging[AS_MANY], &judging[BY_FIRST]) && same_answer(&doubling, &judging[AS_MANY]);
    for (size_t i = 0; i < WINDOWS; i++)
        agree &= judging[i].number == FIDDLEQUILL_OK && margin_agrees(&judging[i]) &&
                 counting[i].result == get_number(judging[i].reply + 8, 4);
    return agree && same_long_counts(judging[LONG_ONE].load, counting[LONG_ONE].offset);
}

static void fill_long(struct long_row *row)
{
    static struct workload load, longer;
    static const judge judges[WINDOWS] = {fiddlequill_judge, fiddlequill_rounds_judge, fiddlequill_rounds_judge};
    static const count counts[WINDOWS] = {fiddlequill_count, fiddlequill_rounds_count, fiddlequill_rounds_count};
    struct judging judging[WINDOWS];
    struct counting counting[WINDOWS];
    struct contender c[2 * WINDOWS], *judged = c, *counted = c + WINDOWS;
    make_workload(&load, (struct cell){row->cell.w, row->cell.slots, FIDDLEQUILL_STRIPS_MAX});
    longer = load;
    set_strips(&longer, row->cell.k);
    for (size_t i = 0; i < WINDOWS; i++) {
        judging[i] = judged_by(judges[i], i == LONG_ONE ? &longer : &load);
        counting[i] = (struct counting){
            .load = judging[i].load, .count = counts[i], .offset = get_number(judging[i].reply + 12, 4)};
        judged[i] = (struct contender){.run = judge_job, .context = &judging[i]};
        counted[i] = (struct contender){.run = count_job, .context = &counting[i]};
    }
    take_turns(c, LENGTH(c));
    row->judge_growth = ratio_of_rounds(&judged[LONG_ONE], &judged[AS_MANY]);
    row->judge_over_first = ratio_of_rounds(&judged[LONG_ONE], &judged[BY_FIRST]);
    row->count_growth = ratio_of_rounds(&counted[LONG_ONE], &counted[AS_MANY]);
    row->count_over_first = ratio_of_rounds(&counted[LONG_ONE], &counted[BY_FIRST]);
    for (size_t i = 0; i < WINDOWS; i++) {
        row->judge[i] = median(judged[i].times);
        row->count[i] = median(counted[i].times);
    }
    row->spread = largest_spread(c, LENGTH(c));
    row->agree = long_agrees(judging, counting);
}

/* ---- a whole run ---- */

static const uint32_t wheels[] = {55, 700, 1300, 4096, 16384};
static const uint32_t slot_counts[] = {1, 4, 16, 64};
static const uint32_t strip_counts[] = {10, 125, 1024};
static const uint32_t grant_lengths[] = {1, 20, 64, 256};
static const uint32_t late_lengths[] = {20, 64, 256}, late_strips = 125; /* of grants with a loss */
static const struct {
    struct cell cell;
    uint32_t beside; /* slots on the table beside the board, all of them owned */
} board_cells[] = {{{4096, 4, 10}, 4},  {{4096, 4, 125}, 4},  {{4096, 4, 1024}, 4},
                   {{16384, 4, 10}, 4}, {{16384, 4, 125}, 4}, {{16384, 4, 1024}, 4},
                   {{4096, FIDDLEQUILL_SLOTS_MAX, 125}, 64}, {{16384, FIDDLEQUILL_SLOTS_MAX, 125}, 64}};
static const struct cell late_cells[] = {{55, 4, 10},     {700, 64, 10},  {1300, 4, 125},
                                         {4096, 64, 125}, {16384, 4, 10}, {16384, 64, 1024},
                                         {4096, FIDDLEQUILL_SLOTS_MAX, 125}};
static const struct cell site_cells[] = {{55, 4, 10},    {55, 4, 125},  {1300, 4, 10},
                                         {1300, 4, 125}, {4096, 4, 10}, {4096, 4, 125}};
static const struct cell count_cells[] = {{55, 4, 10},    {55, 4, 125},    {55, 4, 1024},
                                          {1300, 4, 10},  {1300, 4, 125},  {1300, 4, 1024},
                                          {16384, 4, 10}, {16384, 4, 125}, {16384, 4, 1024}};

static const struct cell end_cell = {1300, 4, 125};
static const struct cell long_cells[] = {{55, 4, FIDDLEQUILL_ROUNDS_STRIPS_MAX},
                                         {1300, 4, FIDDLEQUILL_ROUNDS_STRIPS_MAX},
                                         {16384, 4, FIDDLEQUILL_ROUNDS_STRIPS_MAX},
                                         {16384, 64, FIDDLEQUILL_ROUNDS_STRIPS_MAX}};

static const struct {
    const char *kind;
    uint32_t sixtyfourths, apart;
} grant_kinds[] = {{"part of the slots", 20, 1},
                   {"all slots", GRANT_SLOTS, 1},
                   {"refusal 13", GRANT_SLOTS + 1, 1},
                   {"part of every other slot", 20, 2},
                   {"refusal 13 of every other slot", GRANT_SLOTS, 2}};

/* results.h has room for these. */
_Static_assert(LENGTH(wheels) * LENGTH(slot_counts) * LENGTH(strip_counts) <= ROWS_MAX, "rows");
_Static_assert(LENGTH(slot_counts) * (1 + LENGTH(strip_counts)) + 2 * LENGTH(strip_counts) <= GROWTHS_MAX, "growths");
_Static_assert(LENGTH(board_cells) <= BOARDS_MAX, "boards");
_Static_assert(LENGTH(late_cells) <= LATES_MAX, "lates");
_Static_assert(LENGTH(grant_kinds) * (LENGTH(grant_lengths) * LENGTH(strip_counts) + LENGTH(late_lengths)) <=
                   GRANTS_MAX,
               "grants");
_Static_assert(LENGTH(site_cells) <= SITES_MAX, "sites");
_Static_assert(LENGTH(count_cells) <= COUNTS_MAX, "counts");
_Static_assert(LENGTH(long_cells) <= LONGS_MAX, "longs");

/* The cells whose slots fit the wheel. */
static void lay_grid(struct results *results)
{
    const size_t cells = LENGTH(wheels) * LENGTH(slot_counts) * LENGTH(strip_counts);
    for (size_t i = 0; i < cells; i++) {
        struct cell cell = {wheels[i / (LENGTH(strip_counts) * LENGTH(slot_counts))],
                            slot_counts[i / LENGTH(strip_counts) % LENGTH(slot_counts)],
                            strip_counts[i % LENGTH(strip_counts)]};
        if (cell.slots <= cell.w / 2)
            results->row[results->rows++].cell = cell;
    }
}

static void run_grid(struct results *results)
{
    static struct workload load;
    for (size_t i = 0; i < results->rows; i++) {
        struct row *row = &results->row[i];
        make_workload(&load, row->cell);
        fill_row(row, &load);
        fill_before(row, &load);
    }
}

static void add_growth(struct results *results, enum growth_in in, struct cell small, struct cell large)
{
    struct growth *growth = &results->growth[results->growths++];
    *growth = (struct growth){in, small, large, 0};
    fill_growth(growth);
}

static void run_growth(struct results *results)
{
    for (size_t s = 0; s < LENGTH(slot_counts); s++) {
        uint32_t slots = slot_counts[s];
        add_growth(results, IN_STRIPS, (struct cell){16384, slots, 10}, (struct cell){16384, slots, 1024});
        for (size_t i = 0; i < LENGTH(strip_counts); i++)
            add_growth(results, IN_WHEEL, (struct cell){4096, slots, strip_counts[i]},
                       (struct cell){16384, slots, strip_counts[i]});
    }
    for (size_t i = 0; i < LENGTH(strip_counts); i++)
        for (uint32_t w = 4096; w <= 16384; w *= 4)
            add_growth(results, IN_SLOTS, (struct cell){w, 1, strip_counts[i]},
                       (struct cell){w, 64, strip_counts[i]});
}

static void run_boards(struct results *results)
{
    results->boards = LENGTH(board_cells);
    for (size_t i = 0; i < results->boards; i++) {
        struct board_row *row = &results->board[i];
        row->cell = row->beside = board_cells[i].cell;
        row->beside.slots = board_cells[i].beside;
        fill_board(row);
    }
}

static void run_lates(struct results *results)
{
    results->lates = LENGTH(late_cells);
    for (size_t i = 0; i < results->lates; i++) {
        results->late[i].cell = late_cells[i];
        fill_late(&results->late[i]);
    }
}

static void add_grants(struct results *results, uint32_t v, uint32_t loss, uint32_t k)
{
    for (size_t i = 0; i < LENGTH(grant_kinds); i++) {
        struct grant_row *row = &results->grant[results->grants++];
        *row = (struct grant_row){.kind = grant_kinds[i].kind, .v = v, .loss = loss, .k = k};
        fill_grant(row, grant_kinds[i].sixtyfourths, grant_kinds[i].apart);
    }
}

static void run_grants(struct results *results)
{
    for (size_t i = 0; i < LENGTH(grant_lengths); i++)
        for (size_t j = 0; j < LENGTH(strip_counts); j++)
            add_grants(results, grant_lengths[i], 0, strip_counts[j]);
    for (size_t i = 0; i < LENGTH(late_lengths); i++)
        add_grants(results, late_lengths[i], late_lengths[i] / 4, late_strips);
}

static void run_sites(struct results *results)
{
    results->sites = LENGTH(site_cells);
    for (size_t i = 0; i < results->sites; i++) {
        results->site[i].cell = site_cells[i];
        fill_site(&results->site[i]);
    }
}

static void run_counts(struct results *results)
{
    results->counts = LENGTH(count_cells);
    for (size_t i = 0; i < results->counts; i++) {
        results->count[i].cell = count_cells[i];
        fill_count(&results->count[i]);
    }
}

static void run_quicks(struct results *results)
{
    results->quicks = results->rows;
    for (size_t i = 0; i < results->quicks; i++) {
        results->quick[i].cell = results->row[i].cell;
        fill_quick(&results->quick[i]);
    }
    for (enum end end = 0; end < ENDS; end++) {
        results->end[end].cell = end_cell;
        fill_end(&results->end[end], end);
    }
}

static void run_longs(struct results *results)
{
    results->longs = LENGTH(long_cells);
    for (size_t i = 0; i < results->longs; i++) {
        results->long_row[i].cell = long_cells[i];
        fill_long(&results->long_row[i]);
    }
}

static int write_results(const char *folder, const char *name, void (*print)(FILE *, const struct results *),
                         const struct results *results)
{
    char path[PATH_ROOM];
    if (join_path(path, folder, name) != 0)
        return -1;
    FILE *out = fopen(path, "w");
    if (out == NULL) {
        perror(path);
        return -1;
    }
    print(out, results);
    bool failed = ferror(out) != 0;
    if (fclose(out) == 0 && !failed)
        return 0;
    perror(path);
    return -1;
}

static int run(const char *folder)
{
    static struct results results;
    find_older();
    results.before_slot_bytes = older.slot_bytes;
    lay_grid(&results);
    run_grid(&results);
    run_growth(&results);
    run_boards(&results);
    run_lates(&results);
    run_grants(&results);
    run_sites(&results);
    run_counts(&results);
    run_quicks(&results);
    run_longs(&results);
    print_report(stdout, &results);
    if (write_results(folder, "RESULTS.md", print_report, &results) != 0 ||
        write_results(folder, "results.csv", print_csv, &results) != 0)
        return 2;
    return exit_status("bench", differences(&results) == 0);
}

/* ---- once ---- */

static int once(struct cell cell)
{
    static struct workload load;
    static struct site site;
    if (cell.w == 0 || cell.slots == 0 || cell.slots > FIDDLEQUILL_SLOTS_MAX || cell.slots > cell.w / 2) {
        fprintf(stderr, "bench: slots go from 1 to %u and to half of w\n", FIDDLEQUILL_SLOTS_MAX);
        return 2;
    }
    make_workload(&load, cell);
    struct judging doubling = judged_by(doubling_judge, &load), ours = judged_by(fiddlequill_judge, &load);
    uint64_t count = counted_by(fiddlequill_count, &load, get_number(ours.reply + 12, 4));
    uint32_t v = cell.w < GRANT_SLOTS ? 1 : cell.w / GRANT_SLOTS, h = period_for(GRANT_SLOTS * v, GRANT_SLOTS);
    struct granting grant = {.grant = fiddlequill_grant, .v = v, .e = h / 3, .h = h, .k = cell.k, .apart = 1};
    mark_free(&grant);
    grant_job(&grant);
    make_site(&site, cell);
    struct siting whole = {.site = &site, .judge = fiddlequill_site};
    site_job(&whole);
    const uint32_t worst = get_number(ours.reply + 8, 4);
    struct verdict quick = {.load = &load};
    set_table(&load, JUST_FIRM, worst);
    quick_job(&quick);
    set_strips(&load, FIDDLEQUILL_ROUNDS_STRIPS_MAX);
    struct judging longer = judged_by(fiddlequill_rounds_judge, &load);
    const uint32_t longer_worst = get_number(longer.reply + 8, 4);
    uint64_t longer_count = counted_by(fiddlequill_rounds_count, &load, get_number(longer.reply + 12, 4));
    printf("judged: worst %" PRIu32 "; counted there: %" PRIu32 "; granted: %" PRIu32 "; the last sign: worst %" PRIu32
           "; so many allowed: firm %" PRIu32 "; a million strips: worst %" PRIu32 ", counted there: %" PRIu32 "\n",
           worst, fiddlequill_value(count), fiddlequill_value(grant.result),
           get_number(whole.reply + (SIGNS - 1) * FIDDLEQUILL_ANSWER_BYTES + 8, 4), fiddlequill_value(quick.result),
           longer_worst, fiddlequill_value(longer_count));
    return exit_status("bench", same_answer(&doubling, &ours) && margin_agrees(&ours) && quick.result == 1 &&
                                    longer_count == longer_worst);
}

int main(int argc, char **argv)
{
    if (argc == 2 && argv[1][0] != '-')
        return run(argv[1]);
    if (argc == 5 && strcmp(argv[1], "--once") == 0)
        return once((struct cell){(uint32_t)strtoul(argv[2], NULL, 10), (uint32_t)strtoul(argv[3], NULL, 10),
                                  (uint32_t)strtoul(argv[4], NULL, 10)});
    fprintf(stderr, "usage: bench FOLDER\n       bench --once W SLOTS K\n");
    return 2;
}
