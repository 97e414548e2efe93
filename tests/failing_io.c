// Stands before the C library. A read of standard input gives PIECE bytes at most, and a write to standard output takes as many. The
// call number FAIL_READ of the ones, and FAIL_WRITE of the others, fails; the write number TAKE_NOTHING takes nothing.
#define _GNU_SOURCE
#include <errno.h>
#include <stdlib.h>
#include <sys/syscall.h>
#include <unistd.h>

static long number(const char *name) {
    const char *text = getenv(name);
    return text ? atol(text) : 0;
}

static size_t piece(size_t count) {
    size_t most = number("PIECE");
    return most && most < count ? most : count;
}

ssize_t read(int file, void *bytes, size_t count) {
    static long calls = 0;
    if (file == STDIN_FILENO) {
        if (++calls == number("FAIL_READ")) {
            errno = EIO;
            return -1;
        }
        count = piece(count);
    }
    return syscall(SYS_read, file, bytes, count);
}

ssize_t write(int file, const void *bytes, size_t count) {
    static long calls = 0;
    if (file == STDOUT_FILENO) {
        if (++calls == number("FAIL_WRITE")) {
            errno = EIO;
            return -1;
        }
        if (calls == number("TAKE_NOTHING")) {
            return 0;
        }
        count = piece(count);
    }
    return syscall(SYS_write, file, bytes, count);
}
