/* What it costs to exchange and to read a word that another processor had: transfer ROUNDS. It prints, in nanoseconds, the
 * medians over pairs of processors of: a read of a word of one's own; an exchange of one; a read after another's exchange; an
 * exchange of a word that another has read, and of one that another has exchanged; each further reader of a word that one has
 * exchanged; and a call of sched_yield that finds nobody else. Then how many threads counted at one word, the least time of
 * nine runs that one took to count, and how many exchanges it lost meanwhile. */
#define _GNU_SOURCE
#include <pthread.h>
#include <sched.h>
#include <stdatomic.h>
#include <stdint.h>
#include <stdio.h>
#include <stdlib.h>
#include <time.h>
#include <x86intrin.h>

enum { MOST = 1 << 20, CPUS = 64 };
static _Alignas(256) _Atomic uint64_t word;
static _Alignas(256) _Atomic uint64_t turn;
static _Alignas(256) _Atomic uint64_t seen;
static _Alignas(256) char end[256];
static int rounds;
static double cycle; /* nanoseconds of one */
static uint32_t taken[MOST];

static uint64_t now(void) {
    unsigned other;
    uint64_t cycles = __rdtscp(&other);
    _mm_lfence();
    return cycles;
}

static void pin(int cpu) {
    cpu_set_t set;
    CPU_ZERO(&set);
    CPU_SET(cpu, &set);
    if (pthread_setaffinity_np(pthread_self(), sizeof set, &set)) exit(3);
}

static int less(const void *a, const void *b) {
    uint32_t x = *(const uint32_t *)a, y = *(const uint32_t *)b;
    return (x > y) - (x < y);
}

static double median(uint32_t *list, int count) {
    qsort(list, (size_t)count, sizeof *list, less);
    return list[count / 2] * cycle;
}

static uint32_t empty; /* cycles of an empty measurement */
static uint32_t since(uint64_t start) {
    uint64_t cycles = now() - start;
    return cycles > empty ? (uint32_t)(cycles - empty) : 0;
}

static void exchange(void) {
    uint64_t old = atomic_load_explicit(&word, memory_order_relaxed);
    atomic_compare_exchange_strong(&word, &old, old + 1);
}

/* the exchange alone, of a word that isn't loaded before; it may lose */
static void exchange_unseen(uint64_t old) { atomic_compare_exchange_strong(&word, &old, old + 1); }

enum { READ_AFTER, EXCHANGE_AFTER_READ, EXCHANGE_AFTER_EXCHANGE, KINDS };
static int kind;

/* the other processor does its part in the odd turns */
static void *other(void *unused) {
    for (int i = 0; i < rounds; i++) {
        while (atomic_load(&turn) != (uint64_t)(2 * i + 1)) {}
        if (kind == EXCHANGE_AFTER_READ) (void)atomic_load(&word);
        else exchange();
        atomic_store(&turn, (uint64_t)(2 * i + 2));
    }
    return unused;
}

/* a thread that is on this processor from its beginning */
static pthread_t start_on(int cpu, void *(*body)(void *), void *argument) {
    pthread_t thread;
    pthread_attr_t attributes;
    cpu_set_t set;
    CPU_ZERO(&set);
    CPU_SET(cpu, &set);
    if (pthread_attr_init(&attributes) || pthread_attr_setaffinity_np(&attributes, sizeof set, &set)) exit(3);
    if (pthread_create(&thread, &attributes, body, argument)) exit(3);
    pthread_attr_destroy(&attributes);
    return thread;
}

static double between(int mine, int its, int what) {
    kind = what;
    atomic_store(&turn, 0);
    pin(mine);
    pthread_t thread = start_on(its, other, 0);
    for (int i = 0; i < rounds; i++) {
        if (what == EXCHANGE_AFTER_READ) exchange();
        atomic_store(&turn, (uint64_t)(2 * i + 1));
        while (atomic_load(&turn) != (uint64_t)(2 * i + 2)) {}
        uint64_t start = now();
        if (what == READ_AFTER) (void)atomic_load(&word);
        else exchange_unseen(i);
        taken[i] = since(start);
    }
    pthread_join(thread, 0);
    return median(taken, rounds);
}

/* readers wait for the word to change, and count themselves; the last one ends the round */
static void *reads(void *unused) {
    for (int i = 1; i <= rounds; i++) {
        while (atomic_load(&word) != (uint64_t)i) {}
        atomic_fetch_add(&seen, 1);
    }
    return unused;
}

static double round_of(const int *cpus, int count) {
    pthread_t thread[CPUS];
    atomic_store(&word, 0);
    atomic_store(&seen, 0);
    pin(cpus[0]);
    for (int k = 1; k <= count; k++) thread[k] = start_on(cpus[k], reads, 0);
    for (int i = 1; i <= rounds; i++) {
        uint64_t start = now();
        atomic_store(&word, (uint64_t)i);
        while (atomic_load(&seen) != (uint64_t)i * (uint64_t)count) {}
        taken[i - 1] = since(start);
    }
    for (int k = 1; k <= count; k++) pthread_join(thread[k], 0);
    return median(taken, rounds);
}

/* threads that count at one word by exchanges until each has won its rounds: how many each lost for one won */
static _Atomic long lost;
static void *counts(void *unused) {
    long mine = 0;
    while (!atomic_load(&turn)) {}
    for (int i = 0; i < rounds; i++) {
        uint64_t old = atomic_load(&word);
        while (!atomic_compare_exchange_strong(&word, &old, old + 1)) mine++;
    }
    atomic_fetch_add(&lost, mine);
    return unused;
}

static double lost_by(const int *cpus, int count, double *nanoseconds) {
    pthread_t thread[CPUS];
    atomic_store(&turn, 0);
    atomic_store(&lost, 0);
    for (int k = 0; k < count; k++) thread[k] = start_on(cpus[k], counts, 0);
    uint64_t start = now();
    atomic_store(&turn, 1);
    for (int k = 0; k < count; k++) pthread_join(thread[k], 0);
    *nanoseconds = (double)(now() - start) * cycle / rounds / count;
    return (double)atomic_load(&lost) / rounds / count;
}

static double alone(int what) {
    for (int i = 0; i < rounds; i++) {
        uint64_t start = now();
        if (what == 0) (void)atomic_load(&word);
        else if (what == 1) exchange();
        else sched_yield();
        taken[i] = since(start);
    }
    return median(taken, rounds);
}

int main(int count, char **words) {
    cpu_set_t set;
    int cpus[CPUS], found = 0;
    rounds = count == 2 ? atoi(words[1]) : 0;
    if (rounds < 1 || rounds > MOST || sched_getaffinity(0, sizeof set, &set)) return 2;
    for (int cpu = 0; cpu < CPU_SETSIZE && found < CPUS; cpu++)
        if (CPU_ISSET(cpu, &set)) cpus[found++] = cpu;
    if (found < 2) return 2;
    struct timespec a, b;
    clock_gettime(CLOCK_MONOTONIC, &a);
    uint64_t start = now();
    do clock_gettime(CLOCK_MONOTONIC, &b);
    while (b.tv_sec - a.tv_sec + 1e-9 * (double)(b.tv_nsec - a.tv_nsec) < 0.05);
    cycle = ((double)(b.tv_sec - a.tv_sec) * 1e9 + (double)(b.tv_nsec - a.tv_nsec)) / (double)(now() - start);
    pin(cpus[0]);
    for (int i = 0; i < rounds; i++) start = now(), taken[i] = (uint32_t)(now() - start);
    (void)median(taken, rounds);
    empty = taken[rounds / 2];
    double load = alone(0), own = alone(1), yield = alone(2), sum[KINDS] = {0};
    int pairs = 0;
    for (int i = 0; i < found && i < 4; i++)
        for (int k = 0; k < found && k < 4; k++) {
            if (i == k) continue;
            for (int what = 0; what < KINDS; what++) sum[what] += between(cpus[i], cpus[k], what);
            pairs++;
        }
    int most = found < 4 ? found - 1 : 3;
    /* each further reader also counts itself, by an exchange after another's */
    double one = round_of(cpus, 1), all = round_of(cpus, most);
    double further = most > 1 ? (all - one) / (most - 1) - sum[EXCHANGE_AFTER_EXCHANGE] / pairs : 0;
    double took = 0, losses = 0;
    for (int i = 0; i < 9; i++) {
        double nanoseconds, found_lost = lost_by(cpus, most + 1, &nanoseconds);
        if (i == 0 || nanoseconds < took) took = nanoseconds, losses = found_lost;
    }
    printf("%.1f %.1f %.1f %.1f %.1f %.1f %.1f %d %.1f %.2f\n", load, own, sum[READ_AFTER] / pairs, sum[EXCHANGE_AFTER_READ] / pairs,
           sum[EXCHANGE_AFTER_EXCHANGE] / pairs, further > 0 ? further : 0, yield, most + 1, took, losses);
    return end[0];
}
