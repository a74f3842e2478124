/* SPDX-License-Identifier: Apache-2.0 */
/* Preloaded below a program: refuses one request for memory, fails one read or write, or shortens all of them. FAULTS is a
   list of NAME=N with commas between: memory, read, write and file-read say which call is refused, counted from 1, and
   short-read and short-write how many octets a call gives at most. Reads are those of the standard input, writes those to the
   standard output, and reads of files those of any other descriptor. At its end the program's counts are written to the file
   FAULT_REPORT: requests for memory, reads, writes and reads of files. */

#define _GNU_SOURCE
#include <dlfcn.h>
#include <errno.h>
#include <fcntl.h>
#include <stdatomic.h>
#include <stdio.h>
#include <stdlib.h>
#include <string.h>
#include <unistd.h>

enum fault { MEMORY, READ, WRITE, FILE_READ, SHORT_READ, SHORT_WRITE, FAULTS };

static const char *const names[FAULTS] = { "memory", "read", "write", "file-read", "short-read", "short-write" };
static long wanted[FAULTS];
static atomic_long counts[FAULTS];
static int counting;
static void *(*next_malloc)(size_t);
static void *(*next_realloc)(void *, size_t);
static ssize_t (*next_read)(int, void *, size_t);
static ssize_t (*next_write)(int, const void *, size_t);
static void (*next_exit)(int);

static void *find(const char *name)
{
    void *found = dlsym(RTLD_NEXT, name);
    if (found == NULL)
        abort();
    return found;
}

static void read_faults(const char *text)
{
    while (text != NULL && *text != 0) {
        for (int f = 0; f < FAULTS; f++) {
            size_t length = strlen(names[f]);
            if (strncmp(text, names[f], length) == 0 && text[length] == '=')
                wanted[f] = atol(text + length + 1);
        }
        text = strchr(text, ',');
        text = text == NULL ? NULL : text + 1;
    }
}

__attribute__((constructor)) static void begin(void)
{
    next_malloc = find("malloc");
    next_realloc = find("realloc");
    next_read = find("read");
    next_write = find("write");
    next_exit = find("_exit");
    read_faults(getenv("FAULTS"));
    counting = 1;
}

__attribute__((destructor)) static void end(void)
{
    const char *name = getenv("FAULT_REPORT");
    char line[128];
    counting = 0;
    if (name == NULL)
        return;
    long memory = counts[MEMORY], reads = counts[READ], writes = counts[WRITE], file_reads = counts[FILE_READ];
    int length = snprintf(line, sizeof line, "%ld %ld %ld %ld\n", memory, reads, writes, file_reads);
    int file = open(name, O_WRONLY | O_CREAT | O_TRUNC, 0600);
    if (file < 0 || next_write(file, line, (size_t)length) != length)
        abort();
}

/* A program may end past the destructors. */
__attribute__((noreturn)) void _exit(int status)
{
    end();
    next_exit(status);
    abort();
}

/* Counts a call, of whichever thread, and says whether it is the one that is refused. */
static int is_refused(enum fault fault)
{
    return counting && atomic_fetch_add(&counts[fault], 1) + 1 == wanted[fault];
}

static size_t at_most(enum fault fault, size_t count)
{
    return wanted[fault] > 0 && count > (size_t)wanted[fault] ? (size_t)wanted[fault] : count;
}

void *malloc(size_t size)
{
    if (next_malloc == NULL)
        next_malloc = find("malloc");
    if (is_refused(MEMORY)) {
        errno = ENOMEM;
        return NULL;
    }
    return next_malloc(size);
}

void *realloc(void *old, size_t size)
{
    if (next_realloc == NULL)
        next_realloc = find("realloc");
    if (is_refused(MEMORY)) {
        errno = ENOMEM;
        return NULL;
    }
    return next_realloc(old, size);
}

ssize_t read(int file, void *octets, size_t count)
{
    if (is_refused(file == STDIN_FILENO ? READ : FILE_READ)) {
        errno = EIO;
        return -1;
    }
    return next_read(file, octets, file == STDIN_FILENO ? at_most(SHORT_READ, count) : count);
}

ssize_t write(int file, const void *octets, size_t count)
{
    if (file != STDOUT_FILENO)
        return next_write(file, octets, count);
    if (is_refused(WRITE)) {
        errno = EIO;
        return -1;
    }
    return next_write(file, octets, at_most(SHORT_WRITE, count));
}

ssize_t __write(int file, const void *octets, size_t count)
{
    return write(file, octets, count);
}
