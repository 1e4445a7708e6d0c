/* Times of a barrier of two to eight threads, as a ratio to pthread_barrier_wait's. */
#include "bsp_phaser.h"
#include <pthread.h>
#include <stdio.h>
#include <stdlib.h>
#include <time.h>

static int rounds = 20000, threads;
static bsp_word word;
static pthread_barrier_t barrier;

static void *ours(void *p) {
    for (int i = 0; i < rounds; i++) bsp_shared_arrive_and_wait(&word, 1);
    return p;
}

static void *theirs(void *p) {
    for (int i = 0; i < rounds; i++) pthread_barrier_wait(&barrier);
    return p;
}

static double timed(void *(*body)(void *)) {
    pthread_t thread[8];
    struct timespec a, b;
    clock_gettime(CLOCK_MONOTONIC, &a);
    for (int i = 0; i < threads; i++)
        if (pthread_create(&thread[i], 0, body, 0)) exit(9);
    for (int i = 0; i < threads; i++) pthread_join(thread[i], 0);
    clock_gettime(CLOCK_MONOTONIC, &b);
    return (double)(b.tv_sec - a.tv_sec) + 1e-9 * (double)(b.tv_nsec - a.tv_nsec);
}

int main(int argc, char **argv) {
    if (argc > 1) rounds = atoi(argv[1]);
    printf("%d rounds, time to pthread_barrier_wait's:", rounds);
    for (threads = 2; threads <= 8; threads++) {
        double least[2] = {1e9, 1e9};
        for (int turn = 0; turn < 3; turn++) {
            uint64_t first;
            if (bsp_phaser_new(threads, 0, &first)) return 1;
            bsp_word_set(&word, first);
            double t = timed(ours);
            if (t < least[0]) least[0] = t;
            if (bsp_word_get(&word) >> 32 != (uint64_t)rounds) return 1;
            pthread_barrier_init(&barrier, 0, (unsigned)threads);
            t = timed(theirs);
            if (t < least[1]) least[1] = t;
            pthread_barrier_destroy(&barrier);
        }
        printf(" %d threads %.2f", threads, least[0] / least[1]);
    }
    printf("\n");
    return 0;
}
