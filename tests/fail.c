/* Loaded before the C library, it makes standard input and output fail. Variables say how:
   READ_BYTES         the input gives so many bytes, and then fails
   READ_MOST          it gives so many bytes at once
   READ_INTERRUPTED   so many of its first reads are interrupted
   WRITE_BYTES        the output takes so many bytes, and then fails
   WRITE_INTERRUPTED  so many of its first writes are interrupted
   WRITE_FAILS        its write of this number, counted from 1, fails, and later ones do not
   ERROR_CALLS        the file that gets a byte for each write to standard error */
#define _GNU_SOURCE
#include <dlfcn.h>
#include <errno.h>
#include <fcntl.h>
#include <stdatomic.h>
#include <stdlib.h>
#include <sys/uio.h>
#include <unistd.h>

/* The number in the variable, or -1. */
static long number(const char *name) {
    const char *text = getenv(name);
    return text ? atol(text) : -1;
}

/* Whether a call is one of the first ones, which are interrupted. */
static int is_interrupted(atomic_long *calls, const char *name) {
    if (atomic_fetch_add(calls, 1) >= number(name)) return 0;
    errno = EINTR;
    return 1;
}

/* How many bytes may still go, of so many in all: at most those asked for. */
static size_t room(long all, long gone, size_t asked) {
    if (all < 0) return asked;
    return (size_t)(all - gone) < asked ? (size_t)(all - gone) : asked;
}

static ssize_t (*next_write(void))(int, const void *, size_t) {
    static ssize_t (*next)(int, const void *, size_t);
    if (!next) next = dlsym(RTLD_NEXT, "write");
    return next;
}

static void note_error_call(void) {
    const char *path = getenv("ERROR_CALLS");
    if (!path) return;
    int file = open(path, O_WRONLY | O_CREAT | O_APPEND, 0600);
    next_write()(file, ".", 1);
    close(file);
}

ssize_t read(int file, void *bytes, size_t count) {
    static ssize_t (*next)(int, void *, size_t);
    static atomic_long calls, gone;
    if (!next) next = dlsym(RTLD_NEXT, "read");
    if (file != 0 || count == 0) return next(file, bytes, count);
    if (is_interrupted(&calls, "READ_INTERRUPTED")) return -1;
    size_t asked = room(number("READ_BYTES"), gone, room(number("READ_MOST"), 0, count));
    if (asked == 0) { errno = EIO; return -1; }
    ssize_t got = next(file, bytes, asked);
    if (got > 0) gone += got;
    return got;
}

ssize_t write(int file, const void *bytes, size_t count) {
    static atomic_long calls, made, gone;
    if (file == 2) note_error_call();
    if (file != 1 || count == 0) return next_write()(file, bytes, count);
    if (is_interrupted(&calls, "WRITE_INTERRUPTED")) return -1;
    size_t asked = room(number("WRITE_BYTES"), gone, count);
    if (++made == number("WRITE_FAILS") || asked == 0) { errno = EIO; return -1; }
    ssize_t got = next_write()(file, bytes, asked);
    if (got > 0) gone += got;
    return got;
}

/* The parts are written one by one, so that each goes through what stands above. */
ssize_t writev(int file, const struct iovec *parts, int count) {
    static ssize_t (*next)(int, const struct iovec *, int);
    if (!next) next = dlsym(RTLD_NEXT, "writev");
    if (file == 2) note_error_call();
    if (file != 1) return next(file, parts, count);
    ssize_t all = 0;
    for (int place = 0; place < count; place++) {
        ssize_t got = write(file, parts[place].iov_base, parts[place].iov_len);
        if (got < 0) return all ? all : got;
        all += got;
        if ((size_t)got < parts[place].iov_len) break;
    }
    return all;
}
