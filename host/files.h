/* A whole file of a folder in memory, and what was printed. */
#ifndef FILES_H
#define FILES_H

#include <stdbool.h>
#include <stddef.h>
#include <stdint.h>

/* Bytes of a path, and of a file: two million task records, so that one without an end isn't read until no memory is left. */
enum { PATH_ROOM = 4096, FILE_MAX = 1 << 26 };

struct file {
    char path[PATH_ROOM]; /* for messages */
    uint8_t *bytes;       /* the caller frees it */
    size_t len;
};

/* FOLDER/NAME into path; 0, or -1 when that is too long. Complains on stderr. */
int join_path(char path[PATH_ROOM], const char *folder, const char *name);
/* Reads FOLDER/NAME; 0, or -1 with file and reason on stderr. */
int read_file(struct file *file, const char *folder, const char *name);
/* The same of a file that must be whole records of so many bytes: a call would refuse it, too, but not say which it is. */
int read_records(struct file *file, const char *folder, const char *name, size_t bytes);
/* Closes stdout. The exit status: 0 where all went well and all that was printed is written, else 1; complains on stderr. */
int exit_status(const char *program, bool good);

#endif
