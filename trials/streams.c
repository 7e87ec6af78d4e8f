// Comes between a program and the C library, by LD_PRELOAD, and has its standard input or output fail. For tests alone.
//
// RZ_INPUT="BYTES ERROR": behind so many bytes each read of standard input fails with this error. RZ_OUTPUT="BYTES ERROR": so do writes to
// standard output.
#define _GNU_SOURCE
#include <dlfcn.h>
#include <errno.h>
#include <stdio.h>
#include <stdlib.h>
#include <unistd.h>

typedef struct {
    long left;
    int error_number;
} Stream;

static Stream input = {-1, 0}, output = {-1, 0};
static ssize_t (*real_read)(int, void *, size_t);
static ssize_t (*real_write)(int, const void *, size_t);

static void limit(Stream *stream, const char *words) {
    if (words && sscanf(words, "%ld %d", &stream->left, &stream->error_number) != 2) stream->left = -1;
}

__attribute__((constructor)) static void begin(void) {
    real_read = (ssize_t(*)(int, void *, size_t))dlsym(RTLD_NEXT, "read");
    real_write = (ssize_t(*)(int, const void *, size_t))dlsym(RTLD_NEXT, "write");
    limit(&input, getenv("RZ_INPUT"));
    limit(&output, getenv("RZ_OUTPUT"));
}

// How many bytes of so many a call may move; -1 where it fails.
static ssize_t moves(const Stream *stream, size_t size) {
    if (stream->left < 0) return (ssize_t)size;
    if (stream->left == 0 && size > 0) {
        errno = stream->error_number;
        return -1;
    }
    return size < (size_t)stream->left ? (ssize_t)size : stream->left;
}

static ssize_t moved(Stream *stream, ssize_t count) {
    if (stream->left > 0 && count > 0) stream->left -= count;
    return count;
}

ssize_t read(int file, void *out, size_t size) {
    if (file != STDIN_FILENO) return real_read(file, out, size);
    ssize_t most = moves(&input, size);
    return most < 0 ? -1 : moved(&input, real_read(file, out, (size_t)most));
}

ssize_t write(int file, const void *bytes, size_t size) {
    if (file != STDOUT_FILENO) return real_write(file, bytes, size);
    ssize_t most = moves(&output, size);
    return most < 0 ? -1 : moved(&output, real_write(file, bytes, (size_t)most));
}
