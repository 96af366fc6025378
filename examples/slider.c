/*
 * A designer's slider: moves one number of a task through its range, asks at
 * each value for the verdict alone, and prints where it turns.
 *
 *   slider FOLDER ID e           the need, from 1 to the deadline
 *   slider FOLDER ID D           the deadline, from 1 to the period
 *   slider FOLDER ID end SLOT    the end of one of the task's slots, from a tick
 *                                behind its start to the start of the board's
 *                                next slot, or to the end of the wheel
 *   slider FOLDER ID loss SLOT   the loss of one of its slots, from 0 to the
 *                                slot's length
 *
 * FOLDER holds tasks.bin and slots.bin (`records make FOLDER` makes them), which
 * stay as they are. Of several tasks with the id the first is meant. SLOT counts
 * the slots of the task's board from 0, whoever owns them. Each line is a stretch
 * of values that get the same answer. Every value is asked, so that nothing here
 * relies on a verdict that turns only once.
 * The exit status is 0 when every value got an answer, refused ones included, and
 * all of it could be printed.
 */
#include "bytes.h"
#include "files.h"
#include "fiddlequill.h"

#include <inttypes.h>
#include <stdbool.h>
#include <stdio.h>
#include <stdlib.h>
#include <string.h>

/* Where fields begin in a task record, and behind them those of a slot record. */
enum { W_AT = 4, E_AT = 8, D_AT = 12, H_AT = 16, FIRST_AT = 28, COUNT_AT = 30, END_AT = 4, OWNER_AT = 8, LOSS_AT = 10 };

struct site {
    struct file tasks, slots;
};

/* A field of some record in memory, its name and bytes, and the range that it is moved through. */
struct slider {
    const char *name;
    uint8_t *field;
    size_t width;
    uint32_t from, to;
};

/* A number in decimal; what isn't one is more than any id or place. */
static uint64_t number_of(const char *text)
{
    char *end;
    uint64_t number = strtoull(text, &end, 10);
    return *text >= '0' && *text <= '9' && *end == '\0' ? number : UINT64_MAX;
}

static uint8_t *find_task(const struct site *site, const char *id)
{
    for (size_t at = 0; at < site->tasks.len; at += FIDDLEQUILL_TASK_BYTES)
        if (get_number(site->tasks.bytes + at, 4) == number_of(id))
            return site->tasks.bytes + at;
    fprintf(stderr, "%s: no task has the id %s\n", site->tasks.path, id);
    return NULL;
}

/* No value above the limit is accepted. An empty range has one value all the same: what is wrong then is said there. */
static struct slider within(struct slider slider, uint32_t limit)
{
    const uint32_t to = slider.to < limit ? slider.to : limit;
    slider.to = to > slider.from ? to : slider.from;
    return slider;
}

/* The record of a slot that is the task's own. */
static uint8_t *find_slot(const struct site *site, const uint8_t *task, const char *place)
{
    const uint64_t first = get_number(task + FIRST_AT, 2), count = get_number(task + COUNT_AT, 2);
    if (first + count > site->slots.len / FIDDLEQUILL_SLOT_BYTES) {
        fprintf(stderr, "%s: %s\n", site->slots.path, fiddlequill_meaning(FIDDLEQUILL_BEYOND_SLOTS));
        return NULL;
    }
    if (number_of(place) >= count) {
        fprintf(stderr, "%s: the board has no slot %s\n", site->slots.path, place);
        return NULL;
    }
    uint8_t *slot = site->slots.bytes + (first + number_of(place)) * FIDDLEQUILL_SLOT_BYTES;
    const uint32_t owner = get_number(slot + OWNER_AT, 2);
    if (owner == get_number(task, 4))
        return slot;
    fprintf(stderr, "%s: slot %s of the board is owner %" PRIu32 "'s\n", site->slots.path, place, owner);
    return NULL;
}

static uint32_t latest_end(const uint8_t *task, const uint8_t *slot, const char *place)
{
    const bool last = number_of(place) + 1 == get_number(task + COUNT_AT, 2);
    return get_number(last ? task + W_AT : slot + FIDDLEQUILL_SLOT_BYTES, 4);
}

static int choose_of_slot(struct slider *slider, const struct site *site, const uint8_t *task, const char *name,
                          const char *place)
{
    uint8_t *slot = find_slot(site, task, place);
    if (slot == NULL)
        return -1;
    const uint32_t start = get_number(slot, 4), end = get_number(slot + END_AT, 4);
    if (strcmp(name, "end") == 0)
        *slider = (struct slider){name, slot + END_AT, 4, start + 1, latest_end(task, slot, place)};
    else
        *slider = (struct slider){name, slot + LOSS_AT, 2, 0, end > start ? end - start : 0};
    *slider = within(*slider, FIDDLEQUILL_WHEEL_MAX);
    return 0;
}

static struct slider choose_of_task(uint8_t *task, const char *name)
{
    if (strcmp(name, "e") == 0)
        return within((struct slider){name, task + E_AT, 4, 1, get_number(task + D_AT, 4)}, FIDDLEQUILL_NEED_MAX);
    return within((struct slider){name, task + D_AT, 4, 1, get_number(task + H_AT, 4)}, FIDDLEQUILL_PERIOD_MAX);
}

/* The place of a slot is given for what is the slot's alone. */
static int choose(struct slider *slider, const struct site *site, uint8_t *task, const char *name, const char *place)
{
    if (place != NULL)
        return choose_of_slot(slider, site, task, name, place);
    *slider = choose_of_task(task, name);
    return 0;
}

static void print_stretch(const char *name, uint32_t from, uint32_t to, uint64_t result)
{
    const uint32_t number = fiddlequill_number(result);
    printf("  %s %" PRIu32, name, from);
    if (to > from)
        printf(" to %" PRIu32, to);
    if (number != FIDDLEQUILL_OK)
        printf(": refused with %" PRIu32 ", %s\n", number, fiddlequill_meaning(number));
    else
        printf(": %s\n", fiddlequill_value(result) == 1 ? "firm" : "not firm");
}

static uint64_t ask(const struct slider *slider, const struct site *site, const uint8_t *task, uint32_t value)
{
    put_number(slider->field, value, slider->width);
    return fiddlequill_quick(task, FIDDLEQUILL_TASK_BYTES, site->slots.bytes, site->slots.len);
}

static void slide(const struct slider *slider, const struct site *site, const uint8_t *task)
{
    uint32_t from = slider->from;
    printf("task %" PRIu32 ": %s is %" PRIu32 "\n", get_number(task, 4), slider->name,
           get_number(slider->field, slider->width));
    uint64_t result = ask(slider, site, task, from);
    for (uint32_t value = from; value < slider->to; value++) {
        const uint64_t next = ask(slider, site, task, value + 1);
        if (next != result) {
            print_stretch(slider->name, from, value, result);
            from = value + 1;
            result = next;
        }
    }
    print_stretch(slider->name, from, slider->to, result);
}

/* PLACE is NULL where none is given. */
static int slide_site(const struct site *site, const char *id, const char *name, const char *place)
{
    struct slider slider;
    uint8_t *task = find_task(site, id);
    if (task == NULL || choose(&slider, site, task, name, place) != 0)
        return -1;
    slide(&slider, site, task);
    return 0;
}

/* Whether the words are a folder, an id and a name, and behind a slot's name a place. */
static bool are_words(int argc, char **argv)
{
    if (argc == 4)
        return strcmp(argv[3], "e") == 0 || strcmp(argv[3], "D") == 0;
    return argc == 5 && (strcmp(argv[3], "end") == 0 || strcmp(argv[3], "loss") == 0);
}

int main(int argc, char **argv)
{
    struct site site = {.tasks.bytes = NULL, .slots.bytes = NULL};
    if (!are_words(argc, argv)) {
        fprintf(stderr, "usage: slider FOLDER ID e\n       slider FOLDER ID D\n       slider FOLDER ID end SLOT\n"
                        "       slider FOLDER ID loss SLOT\n");
        return 2;
    }
    int status = -1;
    if (read_records(&site.tasks, argv[1], "tasks.bin", FIDDLEQUILL_TASK_BYTES) == 0 &&
        read_records(&site.slots, argv[1], "slots.bin", FIDDLEQUILL_SLOT_BYTES) == 0)
        status = slide_site(&site, argv[2], argv[3], argv[4]);
    free(site.tasks.bytes);
    free(site.slots.bytes);
    return exit_status("slider", status == 0);
}
