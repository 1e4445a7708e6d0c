// Replaces functions of the C library: the allocation of the number REFUSED_ALLOCATION, or the start of a thread of the
// number REFUSED_START, from 1, is refused, and so are the next REFUSED_BURST - 1 (none if it isn't given); each leaves the file
// REFUSED_MARK.
#define _GNU_SOURCE
#include <dlfcn.h>
#include <errno.h>
#include <fcntl.h>
#include <pthread.h>
#include <stdatomic.h>
#include <stdlib.h>
#include <unistd.h>

extern void *__libc_malloc(size_t size);
extern void *__libc_calloc(size_t count, size_t size);
extern void *__libc_realloc(void *block, size_t size);

typedef int start_thread(pthread_t *, const pthread_attr_t *, void *(*)(void *), void *);
static start_thread *started;
#define NEVER (-1000000000L)
static atomic_long allocations = NEVER, starts = NEVER;
static long burst = 1;

__attribute__((constructor)) static void begin(void) {
    started = (start_thread *)dlsym(RTLD_NEXT, "pthread_create");
    const char *number = getenv("REFUSED_ALLOCATION");
    allocations = number ? atol(number) : NEVER;
    number = getenv("REFUSED_START");
    starts = number ? atol(number) : NEVER;
    number = getenv("REFUSED_BURST");
    burst = number ? atol(number) : 1;
}

static int is_refused(atomic_long *before) {
    if (atomic_load(before) <= -burst) return 0;
    long left = atomic_fetch_sub(before, 1);
    if (left > 1 || left <= 1 - burst) return 0;
    close(open(getenv("REFUSED_MARK"), O_CREAT | O_WRONLY, 0600));
    errno = ENOMEM;
    return 1;
}

void *malloc(size_t size) { return is_refused(&allocations) ? NULL : __libc_malloc(size); }
void *calloc(size_t count, size_t size) { return is_refused(&allocations) ? NULL : __libc_calloc(count, size); }
void *realloc(void *block, size_t size) { return is_refused(&allocations) ? NULL : __libc_realloc(block, size); }

int pthread_create(pthread_t *thread, const pthread_attr_t *attributes, void *(*body)(void *), void *argument) {
    return is_refused(&starts) ? EAGAIN : started(thread, attributes, body, argument);
}
