// Stands before the C library. Of sockets it writes to the file CALLS, a line each: `nodelay` where one is told to send at once, and
// `read N` and `write N` for bytes that came and went. The thread of the number FAIL_THREAD, and each after it, is not had.
#define _GNU_SOURCE
#include <dlfcn.h>
#include <errno.h>
#include <fcntl.h>
#include <netinet/in.h>
#include <netinet/tcp.h>
#include <pthread.h>
#include <stdio.h>
#include <stdlib.h>
#include <sys/socket.h>
#include <sys/stat.h>
#include <sys/syscall.h>
#include <unistd.h>

static int is_socket(int file) {
    struct stat about;
    return fstat(file, &about) == 0 && S_ISSOCK(about.st_mode);
}

static void tell(const char *what, long count) {
    const char *name = getenv("CALLS");
    char line[64];
    int file = name ? open(name, O_WRONLY | O_APPEND | O_CREAT, 0600) : -1;
    if (file >= 0) {
        int size = count < 0 ? snprintf(line, sizeof line, "%s\n", what) : snprintf(line, sizeof line, "%s %ld\n", what, count);
        syscall(SYS_write, file, line, size);
        close(file);
    }
}

static ssize_t told(const char *what, int file, ssize_t count) {
    int error = errno;
    if (count > 0 && is_socket(file)) {
        tell(what, count);
    }
    errno = error;
    return count;
}

ssize_t read(int file, void *bytes, size_t count) {
    return told("read", file, syscall(SYS_read, file, bytes, count));
}

ssize_t recv(int file, void *bytes, size_t count, int flags) {
    return told("read", file, syscall(SYS_recvfrom, file, bytes, count, flags, NULL, NULL));
}

ssize_t write(int file, const void *bytes, size_t count) {
    return told("write", file, syscall(SYS_write, file, bytes, count));
}

ssize_t send(int file, const void *bytes, size_t count, int flags) {
    return told("write", file, syscall(SYS_sendto, file, bytes, count, flags, NULL, 0));
}

int setsockopt(int file, int level, int name, const void *value, socklen_t size) {
    if (level == IPPROTO_TCP && name == TCP_NODELAY && *(const int *)value) {
        tell("nodelay", -1);
    }
    return syscall(SYS_setsockopt, file, level, name, value, size);
}

int pthread_create(pthread_t *thread, const pthread_attr_t *how, void *(*start)(void *), void *given) {
    static _Atomic long count = 0;
    static int (*create)(pthread_t *, const pthread_attr_t *, void *(*)(void *), void *) = NULL;
    const char *number = getenv("FAIL_THREAD");
    if (number && ++count >= atol(number)) {
        return EAGAIN;
    }
    if (!create) {
        create = dlsym(RTLD_NEXT, "pthread_create");
    }
    return create(thread, how, start, given);
}
