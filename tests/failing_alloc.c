// Stands before the C library's allocator, and lets the Nth request fail, for N of the environment's FAIL_ALLOC. The requests of all
// threads are counted together, and one of them fails.
#include <errno.h>
#include <stdatomic.h>
#include <stddef.h>
#include <stdlib.h>

extern void *__libc_malloc(size_t size);
extern void *__libc_calloc(size_t count, size_t size);
extern void *__libc_realloc(void *old, size_t size);
extern void *__libc_memalign(size_t align, size_t size);

// How many requests there are up to the one that fails; -1 before the first, which comes before any second thread.
static atomic_long left = -1;

static int fails(void) {
    long now = atomic_load(&left);
    if (now < 0) {
        const char *number = getenv("FAIL_ALLOC");
        now = number ? atol(number) : 0;
        atomic_store(&left, now);
    }
    while (now > 0) {
        if (atomic_compare_exchange_weak(&left, &now, now - 1)) {
            return now == 1;
        }
    }
    return 0;
}

static void *refused(void) {
    errno = ENOMEM;
    return NULL;
}

void *malloc(size_t size) {
    return fails() ? refused() : __libc_malloc(size);
}

void *calloc(size_t count, size_t size) {
    return fails() ? refused() : __libc_calloc(count, size);
}

void *realloc(void *old, size_t size) {
    return fails() ? refused() : __libc_realloc(old, size);
}

void *aligned_alloc(size_t align, size_t size) {
    return fails() ? refused() : __libc_memalign(align, size);
}

int posix_memalign(void **to, size_t align, size_t size) {
    if (fails()) {
        return ENOMEM;
    }
    *to = __libc_memalign(align, size);
    return *to ? 0 : ENOMEM;
}
