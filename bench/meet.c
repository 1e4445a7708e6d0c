/* Threads that meet at a barrier of pthreads: meet THREADS PHASES. It prints how many nanoseconds that took. */
#include <pthread.h>
#include <stdio.h>
#include <stdlib.h>
#include <time.h>

static pthread_barrier_t barrier;
static long phases;

static void *take_turns(void *unused) {
    for (long i = 0; i < phases; i++) {
        pthread_barrier_wait(&barrier);
    }
    return unused;
}

static long long now(void) {
    struct timespec time;
    clock_gettime(CLOCK_MONOTONIC, &time);
    return time.tv_sec * 1000000000LL + time.tv_nsec;
}

int main(int count, char **words) {
    pthread_t threads[64];
    if (count != 3) {
        return 2;
    }
    int number = atoi(words[1]);
    phases = atol(words[2]);
    if (number < 1 || number > 64 || pthread_barrier_init(&barrier, NULL, number)) {
        return 2;
    }
    long long start = now();
    for (int i = 0; i < number; i++) {
        if (pthread_create(&threads[i], NULL, take_turns, NULL)) {
            return 1;
        }
    }
    for (int i = 0; i < number; i++) {
        pthread_join(threads[i], NULL);
    }
    printf("%lld\n", now() - start);
    return 0;
}
