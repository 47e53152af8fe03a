/* Refuses one request for memory (m) or for a thread (t), the one of number REFUSED, and reports it by that byte on descriptor TOLD. With
   LASTS it also refuses all after that one. Loaded before the program. */
#define _GNU_SOURCE
#include <dlfcn.h>
#include <errno.h>
#include <pthread.h>
#include <stdlib.h>
#include <unistd.h>
extern void *__libc_malloc(size_t), *__libc_calloc(size_t, size_t), *__libc_realloc(void *, size_t), *__libc_memalign(size_t, size_t);
static long refuses, lasts, left, reports;
__attribute__((constructor)) static void begin(void) {
    const char *number = getenv("REFUSED"), *descriptor = getenv("TOLD");
    reports = descriptor ? atol(descriptor) : 2;
    left = number ? atol(number) : 0;
    lasts = getenv("LASTS") != NULL;
    refuses = left > 0;
}
static int refused(const char *kind) {
    if (!refuses) return 0;
    long now = __atomic_sub_fetch(&left, 1, __ATOMIC_SEQ_CST);
    if (now > 0 || (now < 0 && !lasts)) return 0;
    errno = ENOMEM;
    return now < 0 || write(reports, kind, 1) == 1;
}
void *malloc(size_t n) { return refused("m") ? NULL : __libc_malloc(n); }
void *calloc(size_t n, size_t m) { return refused("m") ? NULL : __libc_calloc(n, m); }
void *realloc(void *p, size_t n) { return refused("m") ? NULL : __libc_realloc(p, n); }
void *aligned_alloc(size_t a, size_t n) { return refused("m") ? NULL : __libc_memalign(a, n); }
void *memalign(size_t a, size_t n) { return refused("m") ? NULL : __libc_memalign(a, n); }
int posix_memalign(void **p, size_t a, size_t n) {
    *p = refused("m") ? NULL : __libc_memalign(a, n);
    return *p ? 0 : ENOMEM;
}
int pthread_create(pthread_t *t, const pthread_attr_t *a, void *(*f)(void *), void *x) {
    int (*next)(pthread_t *, const pthread_attr_t *, void *(*)(void *), void *) = dlsym(RTLD_NEXT, "pthread_create");
    return refused("t") ? EAGAIN : next(t, a, f, x);
}
