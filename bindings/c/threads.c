/* Threads that meet at one word: four over so many phases with the word at the end exactly as it has to be, parties
 * that come and go, and a forced end that wakes who waits. */
#include "bsp_phaser.h"
#include <pthread.h>
#include <stdio.h>
#include <stdlib.h>

enum { THREADS = 4, CHURN = 20000 };
static int phases = 100000;
static bsp_word word;
static uint64_t cell[THREADS][2];
static _Atomic int wrong;

static void *meets(void *p) {
    int me = (int)(intptr_t)p;
    for (int s = 0; s < phases; s++) {
        cell[me][s % 2] = (uint64_t)s;
        int32_t index = bsp_shared_arrive_and_wait(&word, 1);
        if (index < 0 || index >= THREADS) wrong++;
        for (int k = 0; k < THREADS; k++)
            if (cell[k][s % 2] != (uint64_t)s) wrong++;
    }
    return 0;
}

/* comes, for every other thread with one more party that leaves at once, arrives, waits for the phase, and goes */
static void *comes_and_goes(void *p) {
    int me = (int)(intptr_t)p;
    for (int s = 0; s < CHURN; s++) {
        int32_t phase, now;
        if (bsp_shared_register(&word, 1 + me % 2, &phase)) wrong++;
        for (int k = 0; k < me % 2; k++)
            if (bsp_shared_leave(&word, 0, &now)) wrong++;
        if (bsp_shared_arrive(&word, 0, &phase)) wrong++;
        if (bsp_shared_await(&word, phase, &now)) wrong++;
        if (now == phase) wrong++;
        if (bsp_shared_leave(&word, 0, &now)) wrong++;
    }
    return 0;
}

static void *waits(void *p) {
    (void)p;
    int32_t now;
    if (bsp_shared_await(&word, 0, &now) || now >= 0) wrong++;
    if (bsp_shared_arrive_and_wait(&word, 1) != -BSP_ENDED) wrong++;
    return 0;
}

static void all(void *(*body)(void *)) {
    pthread_t thread[THREADS];
    for (intptr_t i = 0; i < THREADS; i++)
        if (pthread_create(&thread[i], 0, body, (void *)i)) exit(9);
    for (int i = 0; i < THREADS; i++) pthread_join(thread[i], 0);
}

static int tell(const char *what, uint64_t want) {
    uint64_t found = bsp_word_get(&word);
    printf("%s: word %016llx%s, %d wrong\n", what, (unsigned long long)found, found == want ? "" : ", WHICH IS WRONG", wrong);
    return wrong != 0 || found != want;
}

int main(int argc, char **argv) {
    if (argc > 1) phases = atoi(argv[1]);
    uint64_t first;
    int32_t answer;
    int bad = bsp_phaser_new(THREADS, 0, &first) != 0;
    bsp_word_set(&word, first);
    all(meets);
    char what[64];
    snprintf(what, sizeof what, "%d threads, %d phases", THREADS, phases);
    bad |= tell(what, ((uint64_t)phases << 32) + THREADS * 65537u);
    /* near the last phase the number wraps to 0 */
    bad |= bsp_phaser_new(THREADS, 2147483647u - (uint32_t)(phases / 2) + 1, &first) != 0;
    bsp_word_set(&word, first);
    all(meets);
    bad |= tell("the same over the last phase", ((uint64_t)(phases - phases / 2) << 32) + THREADS * 65537u);
    bad |= bsp_phaser_new(0, 0, &first) != 0;
    bsp_word_set(&word, first);
    all(comes_and_goes);
    bad |= tell("parties that come and go, phases left out", bsp_word_get(&word) & 0x7fffffff00000000u);
    bad |= bsp_phaser_new(THREADS + 1, 0, &first) != 0;
    bsp_word_set(&word, first);
    pthread_t thread[THREADS];
    for (int i = 0; i < THREADS; i++)
        if (pthread_create(&thread[i], 0, waits, 0)) exit(9);
    bad |= bsp_shared_force(&word, &answer) != 0 || answer != INT32_MIN;
    for (int i = 0; i < THREADS; i++) pthread_join(thread[i], 0);
    bad |= tell("a forced end wakes those who wait", (1ull << 63) + (THREADS + 1) * 65537u);
    return bad;
}
