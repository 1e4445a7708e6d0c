// Replaces functions of the C library, and delays at random: one in DELAY_ONE_IN (64) allocations and calls of futex sleeps
// for up to 300 microseconds, and a timer of each thread stops it between two instructions, every 0.2 to 2 ms of the thread's time, for as
// long. The timers' signal is caught without SA_RESTART, so it interrupts reads, writes and waits. DELAY_SEED chooses the delays.
#define _GNU_SOURCE
#include <dlfcn.h>
#include <errno.h>
#include <pthread.h>
#include <signal.h>
#include <stdarg.h>
#include <stdatomic.h>
#include <stdlib.h>
#include <sys/syscall.h>
#include <time.h>
#include <unistd.h>

extern void *__libc_malloc(size_t size);
extern void *__libc_realloc(void *block, size_t size);

typedef int start_thread(pthread_t *, const pthread_attr_t *, void *(*)(void *), void *);
typedef long call_system(long, ...);
static start_thread *started;
static call_system *called;
static atomic_ulong state = 1;
static unsigned long one_in = 64;

// a number below most, of no quality
static unsigned long below(unsigned long most) {
    unsigned long n = atomic_fetch_add(&state, 0x9e3779b97f4a7c15UL);
    n = (n ^ (n >> 30)) * 0xbf58476d1ce4e5b9UL;
    n = (n ^ (n >> 27)) * 0x94d049bb133111ebUL;
    return (n ^ (n >> 31)) % most;
}

static void rest(void) {
    int error = errno;
    struct timespec time = {0, (long)below(300000)};
    nanosleep(&time, NULL);
    errno = error;
}

static void may_rest(void) {
    if (below(one_in) == 0) rest();
}

static void arm(timer_t timer) {
    struct itimerspec next = {{0, 0}, {0, 200000 + (long)below(1800000)}};
    timer_settime(timer, 0, &next, NULL);
}

static __thread timer_t own;

static void stopped(int number) {
    (void)number;
    rest();
    int error = errno;
    arm(own);
    errno = error;
}

static void begin_thread(void) {
    struct sigevent event = {0};
    event.sigev_notify = SIGEV_THREAD_ID;
    event.sigev_signo = SIGRTMIN + 3;
    event._sigev_un._tid = (int)called(SYS_gettid);
    if (timer_create(CLOCK_THREAD_CPUTIME_ID, &event, &own) == 0) arm(own);
}

__attribute__((constructor)) static void begin(void) {
    started = (start_thread *)dlsym(RTLD_NEXT, "pthread_create");
    called = (call_system *)dlsym(RTLD_NEXT, "syscall");
    const char *number = getenv("DELAY_SEED");
    state = number ? strtoul(number, NULL, 10) * 2 + 1 : 1;
    number = getenv("DELAY_ONE_IN");
    one_in = number ? strtoul(number, NULL, 10) : 64;
    struct sigaction action = {0};
    action.sa_handler = stopped;
    sigaction(SIGRTMIN + 3, &action, NULL);
    begin_thread();
}

struct start {
    void *(*body)(void *);
    void *argument;
};

static void *begun(void *given) {
    struct start start = *(struct start *)given;
    free(given);
    begin_thread();
    void *answer = start.body(start.argument);
    timer_delete(own);
    return answer;
}

int pthread_create(pthread_t *thread, const pthread_attr_t *attributes, void *(*body)(void *), void *argument) {
    struct start *start = __libc_malloc(sizeof *start);
    if (!start) return EAGAIN;
    start->body = body;
    start->argument = argument;
    int answer = started(thread, attributes, begun, start);
    if (answer) free(start);
    return answer;
}

void *malloc(size_t size) {
    may_rest();
    return __libc_malloc(size);
}

void *realloc(void *block, size_t size) {
    may_rest();
    return __libc_realloc(block, size);
}

long syscall(long number, ...) {
    va_list list;
    va_start(list, number);
    long a = va_arg(list, long), b = va_arg(list, long), c = va_arg(list, long);
    long d = va_arg(list, long), e = va_arg(list, long), f = va_arg(list, long);
    va_end(list);
    if (number == SYS_futex) may_rest();
    long answer = called(number, a, b, c, d, e, f);
    if (number == SYS_futex) may_rest();
    return answer;
}
