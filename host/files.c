#include "files.h"

#include <errno.h>
#include <stdio.h>
#include <stdlib.h>
#include <string.h>

int join_path(char path[PATH_ROOM], const char *folder, const char *name)
{
    int n = snprintf(path, PATH_ROOM, "%s/%s", folder, name);
    if (n >= 0 && n < PATH_ROOM)
        return 0;
    fprintf(stderr, "%s: the folder's name is too long\n", name);
    return -1;
}

/* Reads until the end: the size of a pipe or a growing file isn't known before. */
static int read_all(struct file *file, FILE *stream)
{
    size_t room = 0;
    do {
        room = room < FILE_MAX / 2 ? room * 2 + 4096 : FILE_MAX + 1;
        uint8_t *more = realloc(file->bytes, room);
        if (more == NULL)
            return -1;
        file->bytes = more;
        file->len += fread(file->bytes + file->len, 1, room - file->len, stream);
    } while (file->len == room && room <= FILE_MAX);
    if (file->len > FILE_MAX)
        errno = EFBIG;
    return ferror(stream) || file->len > FILE_MAX ? -1 : 0;
}

int read_file(struct file *file, const char *folder, const char *name)
{
    file->bytes = NULL;
    file->len = 0;
    if (join_path(file->path, folder, name) != 0)
        return -1;
    errno = 0;
    FILE *stream = fopen(file->path, "rb");
    int status = stream != NULL ? read_all(file, stream) : -1;
    if (status != 0) {
        fprintf(stderr, "%s: %s\n", file->path, strerror(errno));
        free(file->bytes);
        file->bytes = NULL;
    }
    if (stream != NULL)
        fclose(stream);
    return status;
}

int read_records(struct file *file, const char *folder, const char *name, size_t bytes)
{
    if (read_file(file, folder, name) != 0)
        return -1;
    if (file->len % bytes == 0)
        return 0;
    fprintf(stderr, "%s: %zu bytes aren't whole records of %zu\n", file->path, file->len, bytes);
    return -1;
}

int exit_status(const char *program, bool good)
{
    bool failed = ferror(stdout) != 0;
    errno = 0;
    if (fclose(stdout) == 0 && !failed)
        return good ? 0 : 1;
    fprintf(stderr, "%s: standard output: %s\n", program, errno != 0 ? strerror(errno) : "not written whole");
    return 1;
}
