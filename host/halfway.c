/*
 * Runs a command on a file whose reads fail half way.
 *
 *   halfway FILE LINK COMMAND [ARGUMENT...]
 *
 * LINK is made a link to a terminal that gives the bytes of FILE, a name in the
 * current folder, and then an error: a terminal can't be read from the
 * background by one who ignores the signal for it. So the command begins in the
 * foreground and is sent to the background once it has read the bytes. Exit
 * status: the command's, or 77 where there is no terminal to be had.
 */
#define _XOPEN_SOURCE 600
#include "files.h"

#include <fcntl.h>
#include <signal.h>
#include <stdio.h>
#include <stdlib.h>
#include <sys/ioctl.h>
#include <sys/wait.h>
#include <termios.h>
#include <time.h>
#include <unistd.h>

enum { NO_TERMINAL = 77, SECONDS_MAX = 60, BYTES_MAX = 1024 /* a terminal holds 4,096 */ };

struct terminal {
    int ours, theirs; /* what is written into ours is read from theirs */
    const char *name;
};

static void give_up(const char *what)
{
    perror(what);
    exit(NO_TERMINAL);
}

static pid_t start(void)
{
    pid_t pid = fork();
    if (pid < 0)
        give_up("halfway: fork");
    return pid;
}

static void nap(void)
{
    nanosleep(&(struct timespec){.tv_nsec = 1000000}, NULL);
}

/* Bytes go through as they are. */
static void make_raw(int terminal)
{
    struct termios mode;
    if (tcgetattr(terminal, &mode) != 0)
        give_up("halfway: tcgetattr");
    mode.c_iflag = mode.c_oflag = mode.c_lflag = 0;
    if (tcsetattr(terminal, TCSANOW, &mode) != 0)
        give_up("halfway: tcsetattr");
}

/* The first terminal that a new session opens is its own, with a foreground and a background. */
static struct terminal open_terminal(void)
{
    struct terminal t = {.ours = posix_openpt(O_RDWR | O_NOCTTY)};
    if (t.ours < 0 || grantpt(t.ours) != 0 || unlockpt(t.ours) != 0 || setsid() < 0)
        give_up("halfway: no terminal");
    t.name = ptsname(t.ours);
    t.theirs = t.name != NULL ? open(t.name, O_RDWR) : -1;
    if (t.theirs < 0)
        give_up("halfway: no terminal");
    make_raw(t.theirs);
    return t;
}

static size_t waiting(const struct terminal *t)
{
    int n = 0;
    if (ioctl(t->theirs, FIONREAD, &n) != 0)
        give_up("halfway: FIONREAD");
    return (size_t)n;
}

static void feed(const struct terminal *t, const struct file *file)
{
    if (write(t->ours, file->bytes, file->len) != (ssize_t)file->len)
        give_up("halfway: write");
}

static void to_foreground(const struct terminal *t, pid_t group)
{
    signal(SIGTTOU, SIG_IGN); /* the background may do this, too */
    if (tcsetpgrp(t->theirs, group) != 0)
        give_up("halfway: tcsetpgrp");
}

static void run(const struct terminal *t, char **command)
{
    setpgid(0, 0);
    to_foreground(t, getpid());
    signal(SIGTTIN, SIG_IGN);
    close(t->ours);
    close(t->theirs);
    execvp(command[0], command);
    give_up(command[0]);
}

/* A read that was waiting already when the foreground moved gets the bytes once more; the next one fails. */
static int follow(const struct terminal *t, const struct file *file, pid_t command)
{
    int status;
    while (waiting(t) > 0) {
        if (waitpid(command, &status, WNOHANG) == command)
            return status;
        nap();
    }
    to_foreground(t, getpgrp());
    feed(t, file);
    waitpid(command, &status, 0);
    return status;
}

static int in_new_session(const struct file *file, const char *link, char **command)
{
    alarm(SECONDS_MAX); /* a command that goes on waiting for bytes is given up */
    struct terminal t = open_terminal();
    if (symlink(t.name, link) != 0)
        give_up(link);
    feed(&t, file);
    while (waiting(&t) < file->len)
        nap();
    pid_t pid = start();
    if (pid == 0)
        run(&t, command);
    int status = follow(&t, file, pid);
    return WIFEXITED(status) ? WEXITSTATUS(status) : 1;
}

int main(int argc, char **argv)
{
    struct file file;
    int status;
    if (argc < 4) {
        fprintf(stderr, "usage: halfway FILE LINK COMMAND [ARGUMENT...]\n");
        return 2;
    }
    if (read_file(&file, ".", argv[1]) != 0)
        return 2;
    if (file.len == 0 || file.len > BYTES_MAX) {
        fprintf(stderr, "%s: %zu bytes aren't from 1 to %d\n", file.path, file.len, BYTES_MAX);
        return 2;
    }
    pid_t pid = start(); /* only a process that leads no group can begin a session */
    if (pid == 0)
        exit(in_new_session(&file, argv[2], argv + 3));
    waitpid(pid, &status, 0);
    free(file.bytes);
    return WIFEXITED(status) ? WEXITSTATUS(status) : 1;
}
