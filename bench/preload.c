// A shim that bench/faults and bench/power_cuts load in front of the C library. It stands in no crate.
//
// FAULT=call:n:what   the n-th call of its kind does otherwise. call is `write` or `read`, on a journal, or `out` or
//                     `in`, on descriptor 1 or 0. what is `short` (half of the bytes), `one` (one byte), `end` (none),
//                     `part` and a number (half of the bytes, and each later write fails with that errno), or a number.
// WRONG=what          makes a wrong program of a right one. `frame-sync`, `gate-sync` and `folder-sync` leave this
//                     out: behind a write of more bytes than one, behind a write of one byte, of a folder.
//                     `deaf-syncs` and `deaf-writes` take a call on a journal for done that failed.
#define _GNU_SOURCE
#include <dlfcn.h>
#include <errno.h>
#include <stdio.h>
#include <stdlib.h>
#include <string.h>
#include <sys/stat.h>
#include <sys/types.h>
#include <unistd.h>

// How many bytes the last write on a descriptor had.
static size_t written[1024];

static int is_journal(int fd) {
    char link[64], path[4096];
    snprintf(link, sizeof link, "/proc/self/fd/%d", fd);
    ssize_t size = readlink(link, path, sizeof path - 1);
    if (size < 8) return 0;
    path[size] = 0;
    return !strcmp(path + size - 8, ".journal");
}

static int is_folder(int fd) {
    struct stat found;
    return !fstat(fd, &found) && S_ISDIR(found.st_mode);
}

static int is_wrong(const char *how) {
    const char *wrong = getenv("WRONG");
    return wrong && !strcmp(wrong, how);
}

// Whether this call is the one that FAULT names; what is to be done.
static int is_named(const char *call, char what[32]) {
    static int seen;
    const char *fault = getenv("FAULT");
    size_t size = strlen(call);
    int number;
    if (!fault || strncmp(fault, call, size) || fault[size] != ':') return 0;
    return sscanf(fault + size + 1, "%d:%31s", &number, what) == 2 && ++seen == number;
}

// How many of the bytes are moved, or -1 for an error.
static ssize_t moved(const char *what, size_t size) {
    if (!strcmp(what, "end")) return 0;
    if (!strcmp(what, "one")) return size ? 1 : 0;
    if (!strcmp(what, "short") || (!strncmp(what, "part", 4) && size > 1)) return size > 1 ? size / 2 : size;
    errno = atoi(strncmp(what, "part", 4) ? what : what + 4);
    return -1;
}

// A write of the bytes, at a place or, where it is -1, where the descriptor is.
static ssize_t put(int fd, const void *bytes, size_t size, off_t place) {
    static ssize_t (*real)(int, const void *, size_t);
    static ssize_t (*real_at)(int, const void *, size_t, off_t);
    if (!real) real = dlsym(RTLD_NEXT, "write");
    if (!real_at) real_at = dlsym(RTLD_NEXT, "pwrite");
    return place < 0 ? real(fd, bytes, size) : real_at(fd, bytes, size, place);
}

static ssize_t get(int fd, void *bytes, size_t size, off_t place) {
    static ssize_t (*real)(int, void *, size_t);
    static ssize_t (*real_at)(int, void *, size_t, off_t);
    if (!real) real = dlsym(RTLD_NEXT, "read");
    if (!real_at) real_at = dlsym(RTLD_NEXT, "pread");
    return place < 0 ? real(fd, bytes, size) : real_at(fd, bytes, size, place);
}

static ssize_t faulty_put(int fd, const void *bytes, size_t size, off_t place) {
    static int fails[2];
    char what[32];
    int ours = is_journal(fd);
    if (!ours && fd != 1) return put(fd, bytes, size, place);
    if (ours && fd < 1024) written[fd] = size;
    if (fails[ours]) {
        errno = fails[ours];
        return -1;
    }
    if (is_named(ours ? "write" : "out", what)) {
        if (!strncmp(what, "part", 4)) fails[ours] = atoi(what + 4);
        ssize_t most = moved(what, size);
        return most < 0 ? -1 : put(fd, bytes, most, place);
    }
    ssize_t done = put(fd, bytes, size, place);
    return done < 0 && ours && is_wrong("deaf-writes") ? (ssize_t)size : done;
}

static ssize_t faulty_get(int fd, void *bytes, size_t size, off_t place) {
    char what[32];
    if (is_named(is_journal(fd) ? "read" : fd == 0 ? "in" : "none", what)) {
        ssize_t most = moved(what, size);
        return most <= 0 ? most : get(fd, bytes, most, place);
    }
    return get(fd, bytes, size, place);
}

ssize_t write(int fd, const void *bytes, size_t size) { return faulty_put(fd, bytes, size, -1); }
ssize_t pwrite(int fd, const void *bytes, size_t size, off_t place) { return faulty_put(fd, bytes, size, place); }
ssize_t pwrite64(int fd, const void *bytes, size_t size, off_t place) { return faulty_put(fd, bytes, size, place); }
ssize_t read(int fd, void *bytes, size_t size) { return faulty_get(fd, bytes, size, -1); }
ssize_t pread(int fd, void *bytes, size_t size, off_t place) { return faulty_get(fd, bytes, size, place); }
ssize_t pread64(int fd, void *bytes, size_t size, off_t place) { return faulty_get(fd, bytes, size, place); }

static int faulty_sync(int fd, int (*real)(int)) {
    if (is_folder(fd)) return is_wrong("folder-sync") ? 0 : real(fd);
    if (!is_journal(fd) || fd >= 1024) return real(fd);
    size_t size = written[fd];
    written[fd] = 0;
    if (size > 1 && is_wrong("frame-sync")) return 0;
    if (size == 1 && is_wrong("gate-sync")) return 0;
    if (size == 0 && is_wrong("opening-sync")) return 0;
    int done = real(fd);
    return done && is_wrong("deaf-syncs") ? 0 : done;
}

int fsync(int fd) {
    static int (*real)(int);
    if (!real) real = dlsym(RTLD_NEXT, "fsync");
    return faulty_sync(fd, real);
}

int fdatasync(int fd) {
    static int (*real)(int);
    if (!real) real = dlsym(RTLD_NEXT, "fdatasync");
    return faulty_sync(fd, real);
}
