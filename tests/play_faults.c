/* Faults for the program `play`, to be loaded before the C library (LD_PRELOAD). FAULTS_READ and FAULTS_WRITE have a number
 * for each call on standard input, and on standard output, and FAULTS_SYNC for each one that writes a file out: one below 0 is an
 * error that the call fails with, any other is the most bytes that it moves. Calls behind the last number, other descriptors and other programs are left alone. */
#define _GNU_SOURCE
#include <errno.h>
#include <stdlib.h>
#include <string.h>
#include <sys/syscall.h>
#include <unistd.h>

/* The number for the next call, or `otherwise`; *at is how far the list was read. */
static long next(const char *list, size_t *at, long otherwise) {
    const char *text = getenv(list);
    if (strcmp(program_invocation_short_name, "play") != 0 || text == NULL || text[*at] == 0) return otherwise;
    char *end;
    long number = strtol(text + *at, &end, 10);
    *at = (size_t)(end - text) + (*end == ',');
    return number;
}

static long moved(long call, int fd, void *bytes, size_t n, long most) {
    if (most < 0) {
        errno = (int)-most;
        return -1;
    }
    return most == 0 ? 0 : syscall(call, fd, bytes, n < (size_t)most ? n : (size_t)most);
}

ssize_t read(int fd, void *bytes, size_t n) {
    static size_t at;
    return moved(SYS_read, fd, bytes, n, fd == 0 ? next("FAULTS_READ", &at, (long)n) : (long)n);
}

ssize_t write(int fd, const void *bytes, size_t n) {
    static size_t at;
    return moved(SYS_write, fd, (void *)bytes, n, fd == 1 ? next("FAULTS_WRITE", &at, (long)n) : (long)n);
}

int fdatasync(int fd) {
    static size_t at;
    long number = next("FAULTS_SYNC", &at, 0);
    if (number < 0) errno = (int)-number;
    return number < 0 ? -1 : (int)syscall(SYS_fdatasync, fd);
}
