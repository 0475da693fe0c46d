/* How the examples write their files: they remove and overwrite nothing but a plan or an empty file, and what they write
 * is whole or not there at all. This comes before all other headers, since it asks for the calls of POSIX. */
#ifndef OUTPUT_H
#define OUTPUT_H

#define _POSIX_C_SOURCE 200809L

#include <errno.h>
#include <fcntl.h>
#include <stdio.h>
#include <stdlib.h>
#include <string.h>
#include <sys/stat.h>
#include <unistd.h>

#include "vanplan.h"

/* What a look at an output finds. Where it is FAILED the reason has been told, and what is there is to be left alone. */
enum found { NOTHING, FOUND, FAILED };

/* Reads the regular file of that name, as far as there is room. */
static inline enum found read_output(const char *name, uint8_t *room, size_t size, size_t *len)
{
    struct stat there;
    ssize_t got = 0;
    int fd;

    if (lstat(name, &there)) {
        if (errno == ENOENT)
            return NOTHING;
        perror(name);
        return FAILED;
    }
    if (!S_ISREG(there.st_mode)) {
        const char *kind = "a device, pipe or socket";

        if (S_ISDIR(there.st_mode))
            kind = "a folder";
        if (S_ISLNK(there.st_mode))
            kind = "a symbolic link";
        fprintf(stderr, "%s: %s is there, and is left as it is\n", name, kind);
        return FAILED;
    }
    /* A link or a pipe that has come there since is neither followed nor waited for. */
    fd = open(name, O_RDONLY | O_NOFOLLOW | O_NONBLOCK);
    if (fd < 0) {
        perror(name);
        return FAILED;
    }
    for (*len = 0; *len < size; *len += (size_t)got) {
        got = read(fd, room + *len, size - *len);
        if (got <= 0)
            break;
    }
    if (got < 0)
        perror(name);
    close(fd);
    return got < 0 ? FAILED : FOUND;
}

/* Looks for a plan, or an empty file, in which nothing can be lost. Any other file is a failure. */
static inline enum found find_plan(const char *name)
{
    uint8_t bytes[VANPLAN_MAX_PLAN_BYTES + 1];
    uint16_t start, doors[VANPLAN_MAX_PLAN_DOORS];
    uint64_t cost;
    size_t len = 0, n;
    enum found found = read_output(name, bytes, sizeof bytes, &len);

    if (found != FOUND || len == 0)
        return found;
    /* Its length tells how many tasks a plan has; a length that no plan has is refused. */
    n = len < VANPLAN_PLAN_BYTES(0) ? 0 : (len - VANPLAN_PLAN_BYTES(0)) / 2;
    if (vanplan_read_plan(n, bytes, len, &start, doors, VANPLAN_MAX_PLAN_DOORS, &cost)) {
        fprintf(stderr, "%s: a file that is no plan is there, and is left as it is\n", name);
        return FAILED;
    }
    return FOUND;
}

/* Writes a new file, and removes it where that fails. Returns 0, or -1 and says why in errno. */
static inline int write_new(const char *name, const uint8_t *bytes, size_t len)
{
    int fd = open(name, O_WRONLY | O_CREAT | O_EXCL, 0666), error = 0;
    ssize_t written;

    if (fd < 0)
        return -1;
    for (; len > 0 && !error; bytes += written, len -= (size_t)written) {
        written = write(fd, bytes, len);
        if (written <= 0) {
            error = written < 0 ? errno : ENOSPC;
            written = 0;
        }
    }
    /* That there is no room may show only here. */
    if (close(fd) && !error)
        error = errno;
    if (!error)
        return 0;
    unlink(name);
    errno = error;
    return -1;
}

/* Writes a plan to a new file beside the output and renames it, so that the output is the old plan or the whole new one.
 * Returns 0, or -1 where it has told why not. */
static inline int write_plan(const char *name, const uint8_t *plan, size_t len)
{
    const char *slash = strrchr(name, '/');
    size_t folder = slash ? (size_t)(slash - name) + 1 : 0, size = strlen(name) + 64;
    char *beside = (char *)malloc(size);
    int tries = 0, failed;

    if (!beside) {
        perror(name);
        return -1;
    }
    /* Its name has the number of the process, and one more, as one that was killed may have left such a file. */
    do {
        snprintf(beside, size, "%.*s%.200s.%ld-%d.new", (int)folder, name, name + folder, (long)getpid(), tries);
        failed = write_new(beside, plan, len);
    } while (failed && errno == EEXIST && ++tries < 100);
    if (failed) {
        perror(name);
    } else {
        /* Another file may have come there since the first look. */
        failed = find_plan(name) == FAILED ? -1 : 0;
        if (!failed && rename(beside, name)) {
            failed = -1;
            perror(name);
        }
        if (failed)
            unlink(beside);
    }
    free(beside);
    return failed;
}

/* Removes the plan that is there, if one is. Returns 0, or -1 where it has told why not. */
static inline int remove_plan(const char *name)
{
    enum found found = find_plan(name);

    if (found == FOUND && unlink(name)) {
        perror(name);
        return -1;
    }
    return found == FAILED ? -1 : 0;
}

/* The status to end with: this one, or 2 where standard output does not take what was printed. */
static inline int end_with(int status)
{
    if (fflush(stdout) || ferror(stdout)) {
        perror("standard output");
        return 2;
    }
    return status;
}

#endif
