/* Lets one call of a program fail: its allocation number FAIL_AT, or, with FAIL_THREADS, each start of a thread. When that allocation comes, a byte is
   written to the file FAILED. Built as a library that is loaded before the C library's own. */
#define _GNU_SOURCE
#include <errno.h>
#include <fcntl.h>
#include <pthread.h>
#include <stdatomic.h>
#include <stdlib.h>
#include <unistd.h>

void *__libc_malloc(size_t);
void *__libc_calloc(size_t, size_t);
void *__libc_realloc(void *, size_t);
void *__libc_memalign(size_t, size_t);

static atomic_long calls;
static long fail_at = -1;

__attribute__((constructor)) static void start(void) {
    const char *at = getenv("FAIL_AT");
    if (at) fail_at = atol(at);
    atomic_store(&calls, 0);
}

static int fails(void) {
    if (atomic_fetch_add(&calls, 1) + 1 != fail_at) return 0;
    const char *path = getenv("FAILED");
    int file = path ? open(path, O_WRONLY) : -1;
    if (file >= 0) {
        if (write(file, "f", 1) != 1) abort();
        close(file);
    }
    errno = ENOMEM;
    return 1;
}

void *malloc(size_t n) { return fails() ? NULL : __libc_malloc(n); }
void *calloc(size_t n, size_t m) { return fails() ? NULL : __libc_calloc(n, m); }
void *realloc(void *p, size_t n) { return fails() ? NULL : __libc_realloc(p, n); }
void *aligned_alloc(size_t a, size_t n) { return fails() ? NULL : __libc_memalign(a, n); }

int posix_memalign(void **p, size_t a, size_t n) {
    if (fails()) return ENOMEM;
    *p = __libc_memalign(a, n);
    return *p ? 0 : ENOMEM;
}

int pthread_create(pthread_t *thread, const pthread_attr_t *attr, void *(*run)(void *), void *arg) {
    static int (*real)(pthread_t *, const pthread_attr_t *, void *(*)(void *), void *);
    extern void *dlsym(void *, const char *);
    if (getenv("FAIL_THREADS")) return EAGAIN;
    if (!real) real = dlsym((void *)-1L, "pthread_create");
    return real(thread, attr, run, arg);
}
