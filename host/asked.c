/*
 * The second program's other half: compares the proved program `questions`
 * with docs/RULES.md by definition, on lookup, which the archive doesn't
 * export, and on the questions at a half tick without C between.
 *
 *   asked PROGRAM FOLDER [QUESTIONS [SEED]]
 *
 * Writes questions.bin into FOLDER, runs PROGRAM there and compares each line
 * that it prints. The first difference ends the run with its seed and number;
 * so does, at the end, a class of questions that was never met.
 */
#define _XOPEN_SOURCE 600
#include "files.h"
#include "questions.h"

#include <errno.h>
#include <inttypes.h>
#include <stdio.h>
#include <stdlib.h>
#include <string.h>

enum { DEFAULT_QUESTIONS = 10000, DEFAULT_SEED = 20260 };

/* ---- writing ---- */

static void give_up(const char *folder, const char *name)
{
    fprintf(stderr, "asked: %s/%s: %s\n", folder, name, strerror(errno));
    exit(2);
}

static FILE *open_in(const char *folder, const char *name)
{
    char path[PATH_ROOM];
    if (join_path(path, folder, name) != 0)
        exit(2);
    FILE *file = fopen(path, "wb");
    if (file == NULL)
        give_up(folder, name);
    return file;
}

static void write_number(FILE *file, uint32_t number)
{
    uint8_t bytes[4];
    put_number(bytes, number, 4);
    fwrite(bytes, 1, 4, file);
}

static void write_question(FILE *file, const struct question *q)
{
    write_number(file, (uint32_t)q->a_len);
    write_number(file, (uint32_t)q->b_len);
    write_number(file, (uint32_t)(q->number & UINT32_MAX));
    write_number(file, (uint32_t)(q->number >> 32));
    fwrite(q->a, 1, q->a_len, file);
    fwrite(q->b, 1, q->b_len, file);
}

static void write_packed(FILE *file, uint64_t packed)
{
    fprintf(file, "%" PRIu64 " %" PRIu64 " ", packed >> 32, packed & UINT32_MAX);
}

/* The same with a value in two's complement. */
static void write_signed(FILE *file, uint64_t packed)
{
    int64_t value = (int64_t)(packed & UINT32_MAX);
    fprintf(file, "%" PRIu64 " %" PRId64 " ", packed >> 32, value > INT32_MAX ? value - 4294967296 : value);
}

/* The line that the program should print. */
static void write_answers(FILE *file, const struct answers *answers)
{
    write_packed(file, answers->supply);
    write_signed(file, answers->margin);
    write_packed(file, answers->count);
    fprintf(file, "%d ", answers->found != NULL ? TASK_BYTES : 0);
    for (size_t at = 0; answers->found != NULL && at < TASK_BYTES; at += 4)
        fprintf(file, "%" PRIu32 " ", get_number(answers->found + at, 4));
    fprintf(file, "\n");
}

/* A write that failed has left its reason, unless the close has one of its own. */
static void close_whole(FILE *file, const char *folder, const char *name)
{
    bool failed = ferror(file) != 0;
    if (fclose(file) != 0 || failed)
        give_up(folder, name);
}

static void write_all(const char *folder, uint64_t questions, uint64_t seed, struct question_tally *tally)
{
    FILE *asked = open_in(folder, "questions.bin"), *expected = open_in(folder, "expected");
    struct input input = {.slots = malloc(SLOTS_ROOM)};
    if (input.slots == NULL)
        give_up(folder, "questions.bin");
    write_number(asked, (uint32_t)questions);
    for (uint64_t i = 0; i < questions; i++) {
        struct question question = make_question(&input, seed, i);
        struct answers answers = answers_of(&question);
        write_question(asked, &question);
        write_answers(expected, &answers);
        question_tally_add(tally, &question, &answers);
    }
    free(input.slots);
    close_whole(asked, folder, "questions.bin");
    close_whole(expected, folder, "expected");
}

/* ---- comparing ---- */

/* The shell gets the two names as they are, whatever characters they have. */
static bool run(const char *program, const char *folder)
{
    setenv("ASKED_PROGRAM", program, 1);
    setenv("ASKED_FOLDER", folder, 1);
    int status = system("CDPATH= cd -- \"$ASKED_FOLDER\" && \"$ASKED_PROGRAM\" >answers");
    if (status != 0)
        printf("asked: %s ended with status %d\n", program, status);
    return status == 0;
}

/* The line at `at`, its end included, or what is left of the file. */
static size_t line_at(const struct file *file, size_t at)
{
    const uint8_t *end = memchr(file->bytes + at, '\n', file->len - at);
    return end != NULL ? (size_t)(end - file->bytes) + 1 - at : file->len - at;
}

static void print_line(const char *name, const struct file *file, size_t at)
{
    size_t len = line_at(file, at);
    printf("  %s %.*s\n", name, (int)(len > 0 ? len - 1 : 0), (const char *)file->bytes + at);
}

/* Both texts begin alike line by line; the first line that isn't alike is shown. */
static bool lines_agree(const struct file *expected, const struct file *answers, uint64_t seed)
{
    size_t at = 0;
    for (uint64_t line = 0; at < expected->len || at < answers->len; line++) {
        size_t len = at < expected->len ? line_at(expected, at) : 0;
        if (len == 0 || answers->len - at < len || memcmp(expected->bytes + at, answers->bytes + at, len) != 0) {
            print_line("by definition:", expected, at);
            print_line("the program:  ", answers, at);
            printf("asked: DIFFERENCE at seed %" PRIu64 ", question %" PRIu64 "\n", seed, line);
            return false;
        }
        at += len;
    }
    return true;
}

static bool answers_agree(const char *folder, uint64_t seed)
{
    struct file expected, answers;
    if (read_file(&expected, folder, "expected") != 0)
        return false;
    bool good = read_file(&answers, folder, "answers") == 0;
    if (good)
        good = lines_agree(&expected, &answers, seed);
    free(expected.bytes);
    free(answers.bytes);
    return good;
}

/* ---- the run ---- */

int main(int argc, char **argv)
{
    if (argc < 3 || argc > 5) {
        fprintf(stderr, "usage: asked PROGRAM FOLDER [QUESTIONS [SEED]]\n");
        return 2;
    }
    uint64_t questions = argc > 3 ? number_argument("asked", argv[3]) : DEFAULT_QUESTIONS;
    uint64_t seed = argc > 4 ? number_argument("asked", argv[4]) : DEFAULT_SEED;
    struct question_tally tally = {0};
    write_all(argv[2], questions, seed, &tally);
    if (!run(argv[1], argv[2]) || !answers_agree(argv[2], seed))
        return 1;
    unsigned never = question_tally_print(&tally);
    printf("asked: %" PRIu64 " questions, 0 differences", questions);
    if (never > 0)
        printf(", but %u classes were NEVER MET", never);
    printf("\n");
    return exit_status("asked", never == 0);
}
