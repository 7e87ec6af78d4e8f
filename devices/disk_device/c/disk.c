// What src/held.rt declares. A range is named by the address at which its file is mapped: so the bytes that the contracts speak of are
// bytes of memory. They are read and written through the descriptor, and the mapping is never touched: a failure of the system is an
// answer, and no signal. A process has one such file at a time.
#define _GNU_SOURCE
#define _FILE_OFFSET_BITS 64
#include <errno.h>
#include <stdatomic.h>
#include <stddef.h>
#include <stdint.h>
#include <sys/mman.h>
#include <sys/stat.h>
#include <unistd.h>

struct Held {
    unsigned char *at;
};

// The file, where it is mapped, and its bytes. They change only while no range is out.
static int file = -1;
static unsigned char *base;
static uint64_t length;
// How many ranges are out, and one more for the file; 0 where there is none.
static _Atomic uint64_t ranges;
// What is no range of a file.
static unsigned char nothing[1];

struct Held rz_open(int32_t descriptor, uint64_t size, uint32_t *status);
struct Held rz_front(struct Held *rest, size_t size);
uint32_t rz_read(struct Held *held, uint64_t at, unsigned char *out, size_t size);
uint32_t rz_write(struct Held *held, uint64_t at, const unsigned char *bytes, size_t size);
uint32_t rz_settle(struct Held *held);
void rz_close(struct Held held);

static struct Held refused(int descriptor, int error, uint32_t *status) {
    close(descriptor);
    *status = (uint32_t)error;
    return (struct Held){nothing};
}

struct Held rz_open(int32_t descriptor, uint64_t size, uint32_t *status) {
    uint64_t none = 0;
    if (!atomic_compare_exchange_strong(&ranges, &none, 2)) return refused(descriptor, EBUSY, status);
    void *at = mmap(NULL, size, PROT_READ | PROT_WRITE, MAP_SHARED, descriptor, 0);
    if (at == MAP_FAILED) {
        int error = errno;
        atomic_store(&ranges, 0);
        return refused(descriptor, error, status);
    }
    file = descriptor;
    base = at;
    length = size;
    *status = 0;
    return (struct Held){at};
}

struct Held rz_front(struct Held *rest, size_t size) {
    struct Held front = *rest;
    if (rest->at != nothing) atomic_fetch_add(&ranges, 1);
    rest->at += size;
    return front;
}

// Whether the file is as long as it was. One that somebody cut is not written: that would make it longer again, with zeros.
static int is_whole(void) {
    struct stat now;
    return fstat(file, &now) == 0 && (uint64_t)now.st_size >= length;
}

uint32_t rz_read(struct Held *held, uint64_t at, unsigned char *out, size_t size) {
    off_t from = held->at - base + (off_t)at;
    while (size > 0) {
        ssize_t got = pread(file, out, size, from);
        if (got < 0 && errno == EINTR) continue;
        if (got <= 0) return 1;
        out += got;
        from += got;
        size -= (size_t)got;
    }
    return 0;
}

uint32_t rz_write(struct Held *held, uint64_t at, const unsigned char *bytes, size_t size) {
    off_t from = held->at - base + (off_t)at;
    if (!is_whole()) return 1;
    while (size > 0) {
        ssize_t put = pwrite(file, bytes, size, from);
        if (put < 0 && errno == EINTR) continue;
        if (put <= 0) return 1;
        bytes += put;
        from += put;
        size -= (size_t)put;
    }
    return 0;
}

uint32_t rz_settle(struct Held *held) {
    (void)held;
    return fdatasync(file) == 0 && is_whole() ? 0 : 1;
}

void rz_close(struct Held held) {
    if (held.at == nothing) return;
    // The last range: the file alone is left.
    if (atomic_fetch_sub(&ranges, 1) != 2) return;
    munmap(base, length);
    close(file);
    atomic_store(&ranges, 0);
}
