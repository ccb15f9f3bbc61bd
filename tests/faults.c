/* A library to be loaded before the C library: it makes reads, writes, seeks or openings of a program fail, or reads and writes move few bytes.
 *     FAULTS_CALL=read|write|lseek|open   which calls; with FAULTS_FILE=N only those on the file of this number
 *     FAULTS_AT=N              the N-th such call fails, counted from 1; with FAULTS_ONWARD=1 all after it too
 *     FAULTS_ERROR=E           with this error; without it the call moves nothing and answers 0
 *     FAULTS_PIECE=N           each such call moves at most N bytes
 *     FAULTS_END=N             seeks move nothing, and say that the file ends at byte N
 *     FAULTS_LATE=FILE         at the end three numbers are written to the file: the reads after the fault, the writes of the same file after it,
 *                              and the furthest place that a seek of the file came to */
#define _GNU_SOURCE
#include <dlfcn.h>
#include <errno.h>
#include <fcntl.h>
#include <stdarg.h>
#include <stdio.h>
#include <stdlib.h>
#include <string.h>
#include <unistd.h>

static long seen, faults, late_reads, late_writes, furthest;

/* A number of the environment, or what stands for one that is missing. */
static long number(const char *name, long missing) {
    const char *text = getenv(name);
    return text ? atol(text) : missing;
}

/* Whether calls with this name on this file are meant. */
static int is_meant(const char *name, int file) {
    const char *wanted = getenv("FAULTS_CALL");
    return wanted && strcmp(wanted, name) == 0 && number("FAULTS_FILE", file) == file;
}

/* Whether the call that comes next fails; its error is set then. */
static int is_fault(void) {
    long at = number("FAULTS_AT", 0);
    seen++;
    if (at == 0 || seen < at || (seen > at && !number("FAULTS_ONWARD", 0))) return 0;
    faults++;
    errno = (int)number("FAULTS_ERROR", 0);
    return 1;
}

/* How many of the bytes a call moves at most. */
static size_t piece(size_t size) {
    size_t most = (size_t)number("FAULTS_PIECE", 0);
    return most && most < size ? most : size;
}

ssize_t read(int file, void *to, size_t size) {
    static ssize_t (*call)(int, void *, size_t);
    if (!call) call = (ssize_t (*)(int, void *, size_t))dlsym(RTLD_NEXT, "read");
    late_reads += faults > 0;
    if (!is_meant("read", file)) return call(file, to, size);
    return is_fault() ? (errno ? -1 : 0) : call(file, to, piece(size));
}

ssize_t write(int file, const void *from, size_t size) {
    static ssize_t (*call)(int, const void *, size_t);
    if (!call) call = (ssize_t (*)(int, const void *, size_t))dlsym(RTLD_NEXT, "write");
    if (!is_meant("write", file)) return call(file, from, size);
    late_writes += faults > 0;
    return is_fault() ? (errno ? -1 : 0) : call(file, from, piece(size));
}

off_t lseek(int file, off_t offset, int whence) {
    static off_t (*call)(int, off_t, int);
    if (!call) call = (off_t (*)(int, off_t, int))dlsym(RTLD_NEXT, "lseek");
    if (!is_meant("lseek", file)) return call(file, offset, whence);
    long end = number("FAULTS_END", 0);
    if (end) return whence == SEEK_END ? end : whence == SEEK_CUR ? 0 : offset;
    off_t place = is_fault() ? -1 : call(file, offset, whence);
    if (place > furthest) furthest = place;
    return place;
}

int open(const char *path, int flags, ...) {
    static int (*call)(const char *, int, ...);
    va_list more;
    va_start(more, flags);
    mode_t mode = flags & O_CREAT ? va_arg(more, mode_t) : 0;
    va_end(more);
    if (!call) call = (int (*)(const char *, int, ...))dlsym(RTLD_NEXT, "open");
    return is_meant("open", (int)number("FAULTS_FILE", 0)) && is_fault() ? -1 : call(path, flags, mode);
}

__attribute__((destructor)) static void report(void) {
    const char *path = getenv("FAULTS_LATE");
    FILE *file = path ? fopen(path, "w") : NULL;
    if (!file) return;
    fprintf(file, "%ld %ld %ld\n", late_reads, late_writes, furthest);
    fclose(file);
}
