// Comes between a program and the C library, by LD_PRELOAD, and has calls of the system fail. For tests alone.
//
// RZ_FAULT="KIND FROM TO ERROR": of the calls of a KIND (read, write, sync) those from number FROM to number TO fail with this error, and
// do nothing. RZ_SHORT=1: each read or write moves 1000 bytes at most, and each third is interrupted first. RZ_COUNTS=FILE: how many calls
// of each kind there were is written there in the end.
#define _GNU_SOURCE
#include <dlfcn.h>
#include <errno.h>
#include <fcntl.h>
#include <stdatomic.h>
#include <stdio.h>
#include <stdlib.h>
#include <string.h>
#include <unistd.h>

enum { READ, WRITE, SYNC, KINDS };
static const char *names[KINDS] = {"read", "write", "sync"};
static atomic_long calls[KINDS];
static int failing = KINDS, error_number, is_short;
static long from, to;

__attribute__((constructor)) static void begin(void) {
    const char *words = getenv("RZ_FAULT");
    char kind[8] = "";
    is_short = getenv("RZ_SHORT") != NULL;
    if (words && sscanf(words, "%7s %ld %ld %d", kind, &from, &to, &error_number) == 4)
        for (int k = 0; k < KINDS; k++)
            if (!strcmp(kind, names[k])) failing = k;
}

// Counts a call, and answers whether it fails.
static int fails(int kind) {
    long number = atomic_fetch_add(&calls[kind], 1) + 1;
    int is_failing = kind == failing && from <= number && number <= to;
    if (!is_failing) return 0;
    const char *hit = getenv("RZ_HIT");
    if (hit) close(open(hit, O_CREAT | O_WRONLY, 0666));
    errno = error_number;
    return 1;
}

// The bytes that a call may move; 0 where it is interrupted.
static size_t moves(size_t size) {
    static atomic_long number;
    if (!is_short) return size;
    if (atomic_fetch_add(&number, 1) % 3 == 0) {
        errno = EINTR;
        return 0;
    }
    return size < 1000 ? size : 1000;
}

#define READS(name) \
    ssize_t name(int file, void *out, size_t size, off_t at) { \
        static ssize_t (*real)(int, void *, size_t, off_t); \
        if (!real) real = (ssize_t(*)(int, void *, size_t, off_t))dlsym(RTLD_NEXT, #name); \
        if (fails(READ)) return -1; \
        size_t most = moves(size); \
        return size > 0 && most == 0 ? -1 : real(file, out, most, at); \
    }
#define WRITES(name) \
    ssize_t name(int file, const void *bytes, size_t size, off_t at) { \
        static ssize_t (*real)(int, const void *, size_t, off_t); \
        if (!real) real = (ssize_t(*)(int, const void *, size_t, off_t))dlsym(RTLD_NEXT, #name); \
        if (fails(WRITE)) return -1; \
        size_t most = moves(size); \
        return size > 0 && most == 0 ? -1 : real(file, bytes, most, at); \
    }
#define SYNCS(name) \
    int name(int file) { \
        static int (*real)(int); \
        if (!real) real = (int (*)(int))dlsym(RTLD_NEXT, #name); \
        return fails(SYNC) ? -1 : real(file); \
    }
READS(pread)
READS(pread64)
WRITES(pwrite)
WRITES(pwrite64)
SYNCS(fdatasync)
SYNCS(fsync)
