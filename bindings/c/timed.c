/* Waits with a limit of time: what each returns, and four threads that meet by waits of random times, each cell of a table written
 * by one thread and read by another in the next phase. */
#include "bsp_phaser.h"
#include <pthread.h>
#include <stdio.h>
#include <stdlib.h>

enum { THREADS = 4, MILLISECOND = 1000000 };

static int rounds = 2000;
static bsp_word word;
static long cell[2][THREADS];
static _Atomic(int) wrong, late;

static void want(int holds) { wrong += !holds; }

static void set(int64_t parties) {
    uint64_t first;
    want(bsp_phaser_new(parties, 0, &first) == BSP_DONE);
    bsp_word_set(&word, first);
}

/* waits for random times, until the phase is over */
static void wait_on(int32_t phase, unsigned *seed) {
    int32_t now, status;
    do {
        *seed = *seed * 1103515245 + 12345;
        status = bsp_shared_await_for(&word, phase, (int64_t)(*seed >> 16) % 300 * 1000, &now);
        late += status == BSP_TIMED_OUT;
    } while (status == BSP_TIMED_OUT);
    want(status == BSP_DONE && now == phase + 1);
}

static void *meets(void *place) {
    int me = (int)(intptr_t)place;
    unsigned seed = (unsigned)me + 7;
    for (int32_t round = 0; round < rounds; round++) {
        int32_t phase;
        cell[round % 2][me] = round * 10 + me;
        want(bsp_shared_arrive(&word, 1, &phase) == BSP_DONE && phase == round);
        wait_on(phase, &seed);
        int other = (me + 1) % THREADS;
        want(cell[round % 2][other] == round * 10 + other);
    }
    return place;
}

int main(int argc, char **argv) {
    pthread_t thread[THREADS];
    int32_t now;
    if (argc > 1) rounds = atoi(argv[1]);
    set(2);
    want(bsp_shared_arrive_and_wait_for(&word, 1, MILLISECOND) == -BSP_TIMED_OUT);
    want(bsp_shared_await_for(&word, 0, 0, &now) == BSP_TIMED_OUT);
    want(bsp_shared_await_for(&word, 0, -1, &now) == BSP_TIMED_OUT);
    want(bsp_shared_await_for(&word, 1, INT64_MAX, &now) == BSP_DONE && now == 0);
    want(bsp_shared_arrive_and_wait_for(&word, 1, INT64_MAX) == 0);
    want(bsp_shared_await_for(&word, 0, 0, &now) == BSP_DONE && now == 1);
    want(bsp_shared_force(&word, &now) == BSP_DONE);
    want(bsp_shared_arrive_and_wait_for(&word, 1, 0) == -BSP_ENDED);
    set(THREADS);
    for (intptr_t i = 0; i < THREADS; i++)
        if (pthread_create(&thread[i], 0, meets, (void *)i)) return 9;
    for (int i = 0; i < THREADS; i++) pthread_join(thread[i], 0);
    want(bsp_word_get(&word) >> 32 == (uint64_t)rounds);
    printf("%d rounds of waits with a limit, %s passed, %d wrong\n", rounds, late ? "some" : "none", wrong);
    return wrong != 0;
}
