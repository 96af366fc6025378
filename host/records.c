/*
 * Turns a site's tables into records and back.
 *
 *   records make FOLDER [INTO]   FOLDER/tasks.csv and slots.csv into tasks.bin and slots.bin, in FOLDER or in INTO
 *   records show FOLDER          prints tasks.bin and slots.bin as tables
 *
 * A table has a header line with its columns' names. Lines that are blank or
 * begin with '#' are skipped, and so is the byte-order mark that spreadsheets
 * put before the first line.
 *
 * `make` takes any number that fits its field, so that refusals can be tried
 * too. Where a task's board would be refused it says on standard error which
 * line is wrong, whose slot that is and why, but the records are written all the
 * same and the exit status stays 0. A task's other numbers aren't looked at.
 */
#include "bytes.h"
#include "files.h"
#include "fiddlequill.h"

#include <errno.h>
#include <inttypes.h>
#include <stdbool.h>
#include <stdio.h>
#include <stdlib.h>
#include <string.h>

struct column {
    const char *name;
    size_t width; /* bytes */
};

enum { COLUMNS_MAX = 9, QUOTED_MAX = 60 /* bytes of a field in a complaint */ };

struct table {
    const char *csv, *bin, *part; /* part: what is written before the rename */
    size_t columns, record_bytes;
    struct column column[COLUMNS_MAX];
};

enum { TASKS, SLOTS, TABLES };

static const struct table tables[TABLES] = {
    [TASKS] = {"tasks.csv", "tasks.bin", "tasks.bin.part", 9, FIDDLEQUILL_TASK_BYTES,
               {{"id", 4}, {"w", 4}, {"e", 4}, {"D", 4}, {"h", 4}, {"m", 4}, {"k", 4}, {"first", 2}, {"count", 2}}},
    [SLOTS] = {"slots.csv", "slots.bin", "slots.bin.part", 4, FIDDLEQUILL_SLOT_BYTES,
               {{"start", 4}, {"end", 4}, {"owner", 2}, {"loss", 2}}},
};

/* ---- reading a table ---- */

struct text {
    const char *at;
    size_t len;
};

struct place {
    const char *path;
    size_t line;
};

/* A table's records, and the line that each comes from. */
struct records {
    char path[PATH_ROOM]; /* the table's */
    uint8_t *bytes;
    size_t *lines;
    size_t count, room; /* records */
};

static bool is_blank(char c)
{
    return c == ' ' || c == '\t' || c == '\r';
}

static struct text trimmed(struct text text)
{
    while (text.len > 0 && is_blank(text.at[0])) {
        text.at++;
        text.len--;
    }
    while (text.len > 0 && is_blank(text.at[text.len - 1]))
        text.len--;
    return text;
}

/* Takes the text up to the next `mark` off `rest`; false when nothing is left. */
static bool take(struct text *rest, char mark, struct text *taken)
{
    if (rest->at == NULL)
        return false;
    const char *end = rest->len > 0 ? memchr(rest->at, mark, rest->len) : NULL;
    *taken = *rest;
    if (end == NULL) {
        rest->at = NULL;
        rest->len = 0;
    } else {
        taken->len = (size_t)(end - rest->at);
        rest->len -= taken->len + 1;
        rest->at = end + 1;
    }
    return true;
}

/* The beginning of a field; a byte that a screen doesn't show, such as each second one of UTF-16, by its number. */
static void quote(struct text text)
{
    fprintf(stderr, ": \"");
    for (size_t i = 0; i < text.len && i < QUOTED_MAX; i++) {
        const unsigned char byte = (unsigned char)text.at[i];
        fprintf(stderr, byte < ' ' || byte == 0x7f ? "\\x%02x" : "%c", byte);
    }
    fprintf(stderr, "%s\"", text.len > QUOTED_MAX ? " .." : "");
}

static int complain(const struct place *place, const char *column, const char *trouble, struct text text)
{
    fprintf(stderr, "%s:%zu: field %s: %s", place->path, place->line, column, trouble);
    if (text.at != NULL)
        quote(text);
    fprintf(stderr, "\n");
    return -1;
}

/* Splits a line into exactly the table's columns. */
static int split(const struct table *table, const struct place *place, struct text line, struct text *fields)
{
    struct text field;
    const struct text none = {NULL, 0};
    for (size_t i = 0; i < table->columns; i++) {
        if (!take(&line, ',', &field))
            return complain(place, table->column[i].name, "missing", none);
        fields[i] = trimmed(field);
    }
    if (take(&line, ',', &field))
        return complain(place, table->column[table->columns - 1].name, "an extra field after it", trimmed(field));
    return 0;
}

static int check_header(const struct table *table, const struct place *place, const struct text *fields)
{
    for (size_t i = 0; i < table->columns; i++) {
        const char *name = table->column[i].name;
        if (fields[i].len != strlen(name) || memcmp(fields[i].at, name, fields[i].len) != 0)
            return complain(place, name, "the header has another name here", fields[i]);
    }
    return 0;
}

static int read_number(const struct column *column, const struct place *place, struct text text, uint32_t *number)
{
    const uint64_t most = column->width == 2 ? UINT16_MAX : UINT32_MAX;
    uint64_t value = 0;
    for (size_t i = 0; i < text.len; i++) {
        if (text.at[i] < '0' || text.at[i] > '9')
            return complain(place, column->name, "not a number", text);
        if (value <= most)
            value = value * 10 + (uint64_t)(text.at[i] - '0');
    }
    if (text.len == 0)
        return complain(place, column->name, "not a number", text);
    if (value > most)
        return complain(place, column->name, column->width == 2 ? "above 65535" : "above 4294967295", text);
    *number = (uint32_t)value;
    return 0;
}

static int make_room(const struct table *table, struct records *records)
{
    size_t room = 2 * records->room + 128;
    uint8_t *bytes = realloc(records->bytes, room * table->record_bytes);
    if (bytes != NULL)
        records->bytes = bytes;
    size_t *lines = realloc(records->lines, room * sizeof *lines);
    if (lines != NULL)
        records->lines = lines;
    if (bytes == NULL || lines == NULL) {
        fprintf(stderr, "records: out of memory\n");
        return -1;
    }
    records->room = room;
    return 0;
}

/* The bytes of one more record, NULL where there is no memory for it. */
static uint8_t *one_more(const struct table *table, size_t line, struct records *records)
{
    if (records->count == records->room && make_room(table, records) != 0)
        return NULL;
    records->lines[records->count] = line;
    return records->bytes + records->count++ * table->record_bytes;
}

static int read_record(const struct table *table, const struct place *place, const struct text *fields,
                       struct records *records)
{
    uint8_t *at = one_more(table, place->line, records);
    if (at == NULL)
        return -1;
    for (size_t i = 0; i < table->columns; i++) {
        uint32_t number = 0;
        if (read_number(&table->column[i], place, fields[i], &number) != 0)
            return -1;
        put_number(at, number, table->column[i].width);
        at += table->column[i].width;
    }
    return 0;
}

/* The file's text, behind a UTF-8 byte-order mark where it begins with one. */
static struct text text_of(const struct file *file)
{
    static const uint8_t mark[] = {0xef, 0xbb, 0xbf};
    size_t skip = file->len >= sizeof mark && memcmp(file->bytes, mark, sizeof mark) == 0 ? sizeof mark : 0;
    return (struct text){(const char *)file->bytes + skip, file->len - skip};
}

static int read_lines(const struct table *table, const struct file *file, struct records *records)
{
    struct place place = {file->path, 0};
    struct text rest = text_of(file), line, fields[COLUMNS_MAX];
    bool header = false;
    while (take(&rest, '\n', &line)) {
        place.line++;
        line = trimmed(line);
        if (line.len == 0 || line.at[0] == '#')
            continue;
        if (split(table, &place, line, fields) != 0)
            return -1;
        if ((header ? read_record(table, &place, fields, records) : check_header(table, &place, fields)) != 0)
            return -1;
        header = true;
    }
    if (header)
        return 0;
    return complain(&place, table->column[0].name, "no header line", (struct text){NULL, 0});
}

static int read_table(const struct table *table, const char *folder, struct records *records)
{
    struct file file;
    if (read_file(&file, folder, table->csv) != 0)
        return -1;
    memcpy(records->path, file.path, sizeof records->path);
    int status = read_lines(table, &file, records);
    free(file.bytes);
    return status;
}

/* ---- make ---- */

static bool write_records(FILE *stream, const struct table *table, const struct records *records)
{
    bool written = records->count == 0 ||
                   fwrite(records->bytes, table->record_bytes, records->count, stream) == records->count;
    return fclose(stream) == 0 && written;
}

/* A part that can't be written whole is removed again. */
static int write_part(const struct table *table, const char *folder, const struct records *records)
{
    char path[PATH_ROOM];
    if (join_path(path, folder, table->part) != 0)
        return -1;
    FILE *stream = fopen(path, "wb");
    if (stream != NULL && write_records(stream, table, records))
        return 0;
    fprintf(stderr, "%s: %s\n", path, strerror(errno));
    if (stream != NULL)
        remove(path);
    return -1;
}

static int rename_part(const struct table *table, const char *folder)
{
    char from[PATH_ROOM], to[PATH_ROOM];
    if (join_path(from, folder, table->part) != 0 || join_path(to, folder, table->bin) != 0)
        return -1;
    if (rename(from, to) == 0)
        return 0;
    fprintf(stderr, "%s: %s\n", to, strerror(errno));
    return -1;
}

static void remove_part(const struct table *table, const char *folder)
{
    char path[PATH_ROOM];
    if (join_path(path, folder, table->part) == 0)
        remove(path);
}

/* Both tables are read and both parts are whole on disk before either takes its name. */
static int write_all(const char *folder, const struct records *records)
{
    size_t written = 0, renamed = 0;
    while (written < TABLES && write_part(&tables[written], folder, &records[written]) == 0)
        written++;
    while (written == TABLES && renamed < TABLES && rename_part(&tables[renamed], folder) == 0)
        renamed++;
    for (size_t i = renamed; i < written; i++)
        remove_part(&tables[i], folder);
    return renamed == TABLES ? 0 : -1;
}

static const uint8_t *slot_at(const struct records *slots, size_t i)
{
    return slots->bytes + i * FIDDLEQUILL_SLOT_BYTES;
}

static uint32_t owner_of(const struct records *slots, size_t i)
{
    return get_number(slot_at(slots, i) + 8, 2);
}

/* 18 is tested last: where it is given the slot has a length. */
static void tell_loss(const uint8_t *slot)
{
    fprintf(stderr, " (loss %" PRIu32 ", length %" PRIu32 ")", get_number(slot + 10, 2),
            get_number(slot + 4, 4) - get_number(slot, 4));
}

/* A slot that starts too early clashes with the record before it, and either of them may be the wrong one. */
static void tell_slot(const struct records *slots, size_t i, uint32_t number)
{
    fprintf(stderr, "%s", fiddlequill_meaning(number));
    if (number == FIDDLEQUILL_EARLY_SLOT) /* so it isn't the board's first */
        fprintf(stderr, " (%s:%zu, owner %" PRIu32 ")", slots->path, slots->lines[i - 1], owner_of(slots, i - 1));
    if (number == FIDDLEQUILL_LONG_LOSS)
        tell_loss(slot_at(slots, i));
    fprintf(stderr, "\n");
}

/* Says which line is wrong, and why, where the board of task i would be refused. */
static void tell_trouble(const struct records *tasks, const struct records *slots, size_t i)
{
    const uint8_t *task = tasks->bytes + i * FIDDLEQUILL_TASK_BYTES;
    uint64_t packed = fiddlequill_which_slot(task, FIDDLEQUILL_TASK_BYTES, slots->bytes,
                                             slots->count * FIDDLEQUILL_SLOT_BYTES);
    uint32_t number = fiddlequill_number(packed), place = fiddlequill_value(packed);
    uint32_t id = get_number(task, 4), first = get_number(task + 28, 2);
    size_t bad = (size_t)first + place;
    if (fiddlequill_about_slot(number)) {
        fprintf(stderr, "%s:%zu: slot %" PRIu32 " (owner %" PRIu32 ") of the board of task %" PRIu32 " (%s:%zu): ",
                slots->path, slots->lines[bad], place, owner_of(slots, bad), id, tasks->path, tasks->lines[i]);
        tell_slot(slots, bad, number);
    } else if (number != FIDDLEQUILL_OK) {
        fprintf(stderr, "%s:%zu: task %" PRIu32 ": %s\n", tasks->path, tasks->lines[i], id,
                fiddlequill_meaning(number));
    }
}

static int make(const char *folder, const char *into)
{
    struct records records[TABLES] = {{.bytes = NULL}};
    int status = 0;
    for (size_t i = 0; i < TABLES && status == 0; i++)
        status = read_table(&tables[i], folder, &records[i]);
    for (size_t i = 0; i < records[TASKS].count && status == 0; i++)
        tell_trouble(&records[TASKS], &records[SLOTS], i);
    if (status == 0)
        status = write_all(into, records);
    for (size_t i = 0; i < TABLES; i++) {
        free(records[i].bytes);
        free(records[i].lines);
    }
    return status;
}

/* ---- show ---- */

static void print_table(const struct table *table, const struct file *file)
{
    printf("# %s\n", table->csv);
    for (size_t i = 0; i < table->columns; i++)
        printf("%s%s", i == 0 ? "" : ",", table->column[i].name);
    printf("\n");
    const uint8_t *at = file->bytes;
    for (size_t record = 0; record < file->len / table->record_bytes; record++) {
        for (size_t i = 0; i < table->columns; i++) {
            printf("%s%" PRIu32, i == 0 ? "" : ",", get_number(at, table->column[i].width));
            at += table->column[i].width;
        }
        printf("\n");
    }
}

static int tell_length(const struct table *table, const struct file *file)
{
    if (file->len % table->record_bytes == 0)
        return 0;
    fprintf(stderr, "%s: %zu bytes, the last record isn't whole (%zu bytes each)\n", file->path, file->len,
            table->record_bytes);
    return -1;
}

static int show_table(const struct table *table, const char *folder)
{
    struct file file;
    if (read_file(&file, folder, table->bin) != 0)
        return -1;
    print_table(table, &file);
    int status = tell_length(table, &file);
    free(file.bytes);
    return status;
}

static int show(const char *folder)
{
    int status = 0;
    for (size_t i = 0; i < TABLES && status == 0; i++)
        status = show_table(&tables[i], folder);
    return status;
}

int main(int argc, char **argv)
{
    if ((argc == 3 || argc == 4) && strcmp(argv[1], "make") == 0)
        return make(argv[2], argv[argc - 1]) == 0 ? 0 : 1;
    if (argc == 3 && strcmp(argv[1], "show") == 0)
        return exit_status("records", show(argv[2]) == 0);
    fprintf(stderr, "usage: records make FOLDER [INTO]\n       records show FOLDER\n");
    return 2;
}
