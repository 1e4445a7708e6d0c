/* bsp_phaser.h: a phaser (after Java's Phaser) in one 64-bit word.
 *
 * Proved: the calls bsp_phaser_*, which are in the static library libbsp_phaser.a. NOT proved: what is inline
 * below, bsp_shared_* and bsp_word_*: C over those calls, with its loops, its waiting and its memory.
 *
 * A word packs unarrived (bits 0 to 15), parties (16 to 31), phase (32 to 62) and the end (63). It is the word
 * of a phaser if no more parties are unarrived than are registered. Each bsp_phaser_* call takes a word and
 * returns a status; the calls that change a phaser give the next word:
 *
 *   0  done; `next` is the word after the call, `answer` its phase
 *   1  the number isn't a phaser's word                           BSP_NO_WORD
 *   2  the phase that was asked for isn't over                    BSP_WAITING
 *   3  a new phaser with fewer than 0 or over 65535 parties       BSP_TOO_MANY
 *   4  no room for that many more parties                         BSP_FULL
 *   5  an arrival or a departure, but nobody is unarrived         BSP_NOBODY_UNARRIVED
 *   6  fewer than 0 parties to add                                BSP_NEGATIVE
 *
 * What is promised of each call, for every number: the status is 1 exactly if the number isn't a phaser's word;
 * with any status but 0, `next` is the number itself and `answer` is 0; otherwise `next` packs a word that
 * follows by that call on the phaser, and status and answer are those of its reply. Nothing halts, nothing is
 * kept, no memory is allocated, and nothing is read or written except through the two pointers.
 *
 * The caller ensures that each pointer points to an object of its type that nobody else uses during the call,
 * and that the two of one call don't overlap.
 *
 * Keep a word in an atomic, and exchange it for the next one, as bsp_shared_* does. If each exchange stores what
 * a call returned for the word that was there, the calls in the order of the exchanges are a run of one phaser,
 * with any number of threads (the law exchanges_are_one_run), and no phase passes before all parties registered
 * then have arrived (no_phase_passes_early).
 */
#ifndef BSP_PHASER_H
#define BSP_PHASER_H

#include <stdint.h>

#ifdef __cplusplus
#include <atomic>
extern "C" {
#else
#include <stdatomic.h>
#endif

enum {
    BSP_DONE = 0,
    BSP_NO_WORD = 1,
    BSP_WAITING = 2,
    BSP_TOO_MANY = 3,
    BSP_FULL = 4,
    BSP_NOBODY_UNARRIVED = 5,
    BSP_NEGATIVE = 6,
    /* of bsp_shared_arrive_and_wait and bsp_shared_arrive_and_wait_for: the phaser ended before all had arrived */
    BSP_ENDED = 7,
    /* of bsp_shared_await_for and bsp_shared_arrive_and_wait_for: the time has passed, and the phase isn't over */
    BSP_TIMED_OUT = 8
};

/* as `at`: no phase ends the phaser (as any number above 2147483647) */
#define BSP_NEVER UINT32_MAX

/* Creates a phaser in this phase, none of whose parties has arrived: status 0, and its word in `word`. Status 1 for a
 * phase above 2147483647, otherwise 3 for fewer than 0 or over 65535 parties; then `word` stays as it was. */
int32_t bsp_phaser_new(int64_t parties, uint32_t phase, uint64_t *word);

/* One party arrives (Phaser.arrive). The last one to arrive takes the next phase, and then the phaser ends if fewer
 * than `least` parties are registered (1 is Java's rule), or if the phase that passes is `at`. The answer is the phase
 * of the arrival; after the end it is the phase shown, which is negative, and nothing changes. Status 0, 1 or 5. */
int32_t bsp_phaser_arrive(uint64_t word, uint32_t least, uint32_t at, uint64_t *next, int32_t *answer);

/* One party arrives and leaves (Phaser.arriveAndDeregister). Otherwise as bsp_phaser_arrive; `least` is compared
 * with the parties that are left. */
int32_t bsp_phaser_leave(uint64_t word, uint32_t least, uint32_t at, uint64_t *next, int32_t *answer);

/* Registers `count` parties (Phaser.bulkRegister); 0 adds nobody. The answer is the phase to which this applies, or
 * after the end the phase shown. Status 0, 1, 4 or 6; 6 also after the end. */
int32_t bsp_phaser_register(uint64_t word, int64_t count, uint64_t *next, int32_t *answer);

/* Whether this phase is over (Phaser.awaitAdvance, without waiting). The word stays, so there is no next one. Status
 * 2 if it is the current phase of a phaser that hasn't ended. Otherwise 0, and the answer is a negative phase itself;
 * after the end, the phase shown; otherwise the current phase. */
int32_t bsp_phaser_await(uint64_t word, int32_t phase, int32_t *answer);

/* Ends the phaser at once (Phaser.forceTermination); its phase and counts stay. The answer is the phase shown. Status
 * 0 or 1. */
int32_t bsp_phaser_force(uint64_t word, uint64_t *next, int32_t *answer);

/* The phase shown: the phase, or after the end the phase minus 2147483648, which is negative. Status 0 or 1, as for
 * the four below; with 1 the answer is 0. */
int32_t bsp_phaser_phase(uint64_t word, int32_t *answer);
/* How many parties are registered, how many of them have arrived in this phase, and how many haven't. */
int32_t bsp_phaser_parties(uint64_t word, int32_t *answer);
int32_t bsp_phaser_arrived(uint64_t word, int32_t *answer);
int32_t bsp_phaser_unarrived(uint64_t word, int32_t *answer);
/* 1 if the phaser has ended, otherwise 0. */
int32_t bsp_phaser_ended(uint64_t word, int32_t *answer);

#ifdef __cplusplus
}
#endif

/* ---- From here on nothing is proved ---------------------------------------------------------------------
 * A word that threads share. Set it by bsp_word_set before the threads start, and change it only by bsp_shared_*,
 * which wake the waiters. Each is a loop of compare-and-swap, which is lock-free: an exchange fails only if another
 * thread's has succeeded. They return the status, and the answer through the pointer.
 *
 * On Linux a waiter spins a little, yields, and then sleeps on the half of the word that has phase and end (a
 * futex), so each advance costs one system call; elsewhere it spins and yields. Define BSP_WORD_BETWEEN_PROCESSES
 * if the word is in memory that processes share, and BSP_NO_SLEEP to only spin and yield. */

#ifdef __cplusplus
typedef std::atomic<uint64_t> bsp_word;
#define BSP_C11(name) std::name
#else
typedef _Atomic(uint64_t) bsp_word;
#define BSP_C11(name) name
#endif

#if defined(__unix__) || defined(__APPLE__)
#include <sched.h>
#define BSP_YIELD() ((void)sched_yield())
#else
#define BSP_YIELD() ((void)0)
#endif

#include <time.h>
#if defined(__linux__)
#include <sys/syscall.h>
#include <unistd.h>
#ifndef __cplusplus
long syscall(long number, ...);
#endif
#endif

/* nanoseconds since some moment: on Linux of a clock that never goes back, elsewhere of the clock of the day */
static inline int64_t bsp_now_(void) {
    struct timespec now = {0, 0};
#if defined(__linux__)
    (void)syscall(SYS_clock_gettime, 1, &now);
#else
    (void)timespec_get(&now, TIME_UTC);
#endif
    return (int64_t)now.tv_sec * 1000000000 + now.tv_nsec;
}

#if defined(__linux__) && !defined(BSP_NO_SLEEP)
#ifdef BSP_WORD_BETWEEN_PROCESSES
#define BSP_FUTEX(word, what, number, time) ((void)syscall(SYS_futex, bsp_word_phase_(word), what, number, time))
#else
#define BSP_FUTEX(word, what, number, time) ((void)syscall(SYS_futex, bsp_word_phase_(word), (what) | 128, number, time))
#endif
#define BSP_SLEEP(word, seen) BSP_FUTEX(word, 0, (uint32_t)((seen) >> 32), (void *)0)
#define BSP_SLEEP_FOR(word, seen, nanoseconds) bsp_word_sleep_for_(word, seen, nanoseconds)
#define BSP_WAKE(word) BSP_FUTEX(word, 1, INT32_MAX, (void *)0)
/* the half of the word that has the phase and the end */
static inline void *bsp_word_phase_(bsp_word *word) {
#if defined(__BYTE_ORDER__) && __BYTE_ORDER__ == __ORDER_BIG_ENDIAN__
    return (void *)word;
#else
    return (void *)((char *)(void *)word + 4);
#endif
}
/* sleeps while phase and end are as they were seen, but no longer than this */
static inline void bsp_word_sleep_for_(bsp_word *word, uint64_t seen, int64_t nanoseconds) {
    struct timespec time;
    time.tv_sec = (time_t)(nanoseconds / 1000000000);
    time.tv_nsec = (long)(nanoseconds % 1000000000);
    BSP_FUTEX(word, 0, (uint32_t)(seen >> 32), &time);
}
#else
#define BSP_SLEEP(word, seen) BSP_YIELD()
#define BSP_SLEEP_FOR(word, seen, nanoseconds) BSP_YIELD()
#define BSP_WAKE(word) ((void)(word))
#endif

static inline void bsp_word_set(bsp_word *word, uint64_t value) { BSP_C11(atomic_store)(word, value); }
static inline uint64_t bsp_word_get(bsp_word *word) { return BSP_C11(atomic_load)(word); }

/* stores the next word if the old one is still there, and wakes the waiters if phase or end have changed */
static inline int bsp_word_exchange_(bsp_word *word, uint64_t *old, uint64_t next) {
    uint64_t before = *old;
    if (!BSP_C11(atomic_compare_exchange_weak)(word, old, next)) return 0;
    if (before >> 32 != next >> 32) BSP_WAKE(word);
    return 1;
}

static inline int32_t bsp_shared_arrive(bsp_word *word, uint32_t least, int32_t *answer) {
    uint64_t old = bsp_word_get(word), next;
    for (;;) {
        int32_t status = bsp_phaser_arrive(old, least, BSP_NEVER, &next, answer);
        if (status != BSP_DONE || bsp_word_exchange_(word, &old, next)) return status;
    }
}

static inline int32_t bsp_shared_leave(bsp_word *word, uint32_t least, int32_t *answer) {
    uint64_t old = bsp_word_get(word), next;
    for (;;) {
        int32_t status = bsp_phaser_leave(old, least, BSP_NEVER, &next, answer);
        if (status != BSP_DONE || bsp_word_exchange_(word, &old, next)) return status;
    }
}

static inline int32_t bsp_shared_register(bsp_word *word, int64_t count, int32_t *answer) {
    uint64_t old = bsp_word_get(word), next;
    for (;;) {
        int32_t status = bsp_phaser_register(old, count, &next, answer);
        if (status != BSP_DONE || bsp_word_exchange_(word, &old, next)) return status;
    }
}

static inline int32_t bsp_shared_force(bsp_word *word, int32_t *answer) {
    uint64_t old = bsp_word_get(word), next;
    for (;;) {
        int32_t status = bsp_phaser_force(old, &next, answer);
        if (status != BSP_DONE || bsp_word_exchange_(word, &old, next)) return status;
    }
}

/* waits until this phase is over, and then answers as bsp_phaser_await; never status 2 */
static inline int32_t bsp_shared_await(bsp_word *word, int32_t phase, int32_t *answer) {
    for (unsigned turn = 0;; turn++) {
        uint64_t seen = bsp_word_get(word);
        int32_t status = bsp_phaser_await(seen, phase, answer);
        if (status != BSP_WAITING) return status;
        if (turn >= 80) BSP_SLEEP(word, seen);
        else if (turn >= 60) BSP_YIELD();
    }
}

/* The same, but waits no longer than this: BSP_TIMED_OUT if the phase isn't over by then, as after a single look for 0 or less. The
 * party has arrived all the same: wait again, or call bsp_phaser_unarrived to see how many haven't arrived. */
static inline int32_t bsp_shared_await_for(bsp_word *word, int32_t phase, int64_t nanoseconds, int32_t *answer) {
    int64_t now = bsp_now_(), end = nanoseconds > INT64_MAX - now ? INT64_MAX : now + nanoseconds;
    for (unsigned turn = 0;; turn += turn < 80) {
        uint64_t seen = bsp_word_get(word);
        int32_t status = bsp_phaser_await(seen, phase, answer);
        if (status != BSP_WAITING) return status;
        if (nanoseconds <= 0) return BSP_TIMED_OUT;
        if (turn < 60) continue;
        now = bsp_now_();
        if (now >= end) return BSP_TIMED_OUT;
        if (turn == 80) BSP_SLEEP_FOR(word, seen, end - now);
        else BSP_YIELD();
    }
}

/* one party arrives: how many were unarrived before, and the phase */
static inline int32_t bsp_word_arrive_(bsp_word *word, uint32_t least, int32_t *before, int32_t *phase) {
    uint64_t old = bsp_word_get(word), next;
    for (;;) {
        int32_t status = bsp_phaser_arrive(old, least, BSP_NEVER, &next, phase);
        if (status != BSP_DONE) return status;
        if (*phase < 0) return BSP_ENDED;
        (void)bsp_phaser_unarrived(old, before);
        if (bsp_word_exchange_(word, &old, next)) return BSP_DONE;
    }
}

/* the arrival index of a party that has waited for the phase to pass, or -BSP_ENDED if the phaser ended in it */
static inline int32_t bsp_word_index_(int32_t before, int32_t phase, int32_t now) {
    if (now < 0 && now + INT32_MAX + 1 == phase) return -BSP_ENDED;
    return before - 1;
}

/* The cyclic barrier: arrives, waits for the phase to pass, and returns the arrival index, as Java's
 * CyclicBarrier.await does: parties - 1 for the first to arrive, 0 for the last. Otherwise the negative of a status:
 * -BSP_NO_WORD, -BSP_NOBODY_UNARRIVED, or -BSP_ENDED if the phaser ended before all had arrived. */
static inline int32_t bsp_shared_arrive_and_wait(bsp_word *word, uint32_t least) {
    int32_t before, phase, now, status = bsp_word_arrive_(word, least, &before, &phase);
    if (status != BSP_DONE) return -status;
    status = bsp_shared_await(word, phase, &now);
    if (status != BSP_DONE) return -status;
    return bsp_word_index_(before, phase, now);
}

/* The same, but waits no longer than this: -BSP_TIMED_OUT if some haven't arrived by then. The caller has arrived, so don't call it
 * again in this phase; who means to wait again calls bsp_shared_arrive and bsp_shared_await_for instead. */
static inline int32_t bsp_shared_arrive_and_wait_for(bsp_word *word, uint32_t least, int64_t nanoseconds) {
    int32_t before, phase, now, status = bsp_word_arrive_(word, least, &before, &phase);
    if (status != BSP_DONE) return -status;
    status = bsp_shared_await_for(word, phase, nanoseconds, &now);
    if (status != BSP_DONE) return -status;
    return bsp_word_index_(before, phase, now);
}

#endif
