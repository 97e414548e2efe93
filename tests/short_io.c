// Stands before the C library, so that each read gives one byte and each write takes one.
#define _GNU_SOURCE
#include <sys/syscall.h>
#include <unistd.h>

ssize_t read(int file, void *bytes, size_t count) {
    return syscall(SYS_read, file, bytes, count < 1 ? count : 1);
}

ssize_t write(int file, const void *bytes, size_t count) {
    return syscall(SYS_write, file, bytes, count < 1 ? count : 1);
}
