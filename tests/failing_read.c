/*
 * A stick that is slow, or bad: preloaded (LD_PRELOAD), this `read` takes the place of the C library's in a program that is linked dynamically.
 *
 * It is told by variables of the environment:
 *   STICK_PIECE   a read hands out at most so many bytes
 *   STICK_FILE    the name, without its folder, of the file that is bad
 *   STICK_BYTE    its first so many bytes can be read; a read behind them fails with EIO, at the file's end too
 *   STICK_COUNT   the file to which the number of reads is written in the end
 */
#define _GNU_SOURCE
#include <errno.h>
#include <stdio.h>
#include <stdlib.h>
#include <string.h>
#include <sys/syscall.h>
#include <unistd.h>

static unsigned long reads;

/* The number that a variable has, or else `otherwise`. */
static size_t number(const char *variable, size_t otherwise) {
    const char *text = getenv(variable);
    return text ? strtoul(text, NULL, 10) : otherwise;
}

/* Whether the open file is the bad one. */
static int is_bad(int file) {
    const char *bad = getenv("STICK_FILE"), *slash;
    char link[64], path[4096];
    ssize_t length;
    snprintf(link, sizeof link, "/proc/self/fd/%d", file);
    length = readlink(link, path, sizeof path - 1);
    if (!bad || length < 0)
        return 0;
    path[length] = 0;
    slash = strrchr(path, '/');
    return slash && !strcmp(slash + 1, bad);
}

static size_t least(size_t a, size_t b) {
    return a < b ? a : b;
}

ssize_t read(int file, void *bytes, size_t count) {
    reads++;
    count = least(count, number("STICK_PIECE", count));
    if (is_bad(file)) {
        size_t good = number("STICK_BYTE", 0), done = (size_t)lseek(file, 0, SEEK_CUR);
        if (done >= good) {
            errno = EIO;
            return -1;
        }
        count = least(count, good - done);
    }
    return syscall(SYS_read, file, bytes, count);
}

__attribute__((destructor)) static void tell(void) {
    const char *name = getenv("STICK_COUNT");
    FILE *stream = name ? fopen(name, "w") : NULL;
    if (!stream)
        return;
    fprintf(stream, "%lu\n", reads);
    fclose(stream);
}
