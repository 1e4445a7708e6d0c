/* A shop, in supersteps: shop THREADS [report]
 *
 * A door spawns customers; each is served for some supersteps, and goes. The tasks run on the threads in any order. What a task
 * keeps is carried over by its origin: the place that it had, or its spawner's place and its number. The output is that of
 * crates/example_bodies, and the same with any number of threads; with `report` it is the report of the run, as `bsp run` prints it. */
#include "bsp_steps.h"
#include <pthread.h>
#include <stdio.h>
#include <string.h>

enum { CAME, WENT, TIME, CELLS, OPEN = 999, MOST = 1000, MOST_THREADS = 64, MOST_SPAWNS = 4 };

/* what a task keeps: a door the state of a random sequence, a customer how long it is still served */
struct kept {
    bool door;
    uint32_t number;
};

/* a live task: what it keeps, what it leaves, and what those keep that it spawns */
struct task {
    struct kept kept;
    struct bsp_out out;
    struct kept spawned[MOST_SPAWNS];
};

static struct bsp_steps run;
static struct bsp_look look; /* the run as the superstep began */
static struct task tasks[MOST];
static struct kept next[MOST];
static struct bsp_deed deeds[MOST];
static size_t threads;
static bool over;
static pthread_barrier_t meeting; /* of all threads */

static void stop(const char *what, int32_t status) {
    fprintf(stderr, "shop: %s: status %d\n", what, (int)status);
    exit(1);
}

static void check(int32_t status, const char *what) {
    if (status) stop(what, status);
}

/* lets customers in */
static uint8_t let_in(struct task *task) {
    uint32_t state = task->kept.number * 1664525u + 1013904223u;
    for (uint32_t i = 0; i < state >> 30; i++) {
        bsp_out_add(&task->out, 0, CAME, 1);
        struct kept customer = {false, 1 + (state >> 20) % 8};
        task->spawned[bsp_out_spawn(&task->out)] = customer;
    }
    task->kept.number = state;
    return look.step < OPEN ? BSP_GOES_ON : BSP_STOPS;
}

/* is served */
static uint8_t wait(struct task *task) {
    bsp_out_add(&task->out, 0, TIME, 1);
    if (task->kept.number-- > 1) return BSP_GOES_ON;
    bsp_out_add(&task->out, 0, WENT, 1);
    return BSP_STOPS;
}

/* a thread's share of each superstep */
static void *work(void *number) {
    for (;;) {
        pthread_barrier_wait(&meeting);
        if (over) return NULL;
        for (size_t i = *(size_t *)number; i < look.live; i += threads) {
            bsp_out_begin(&tasks[i].out);
            uint8_t ending = tasks[i].kept.door ? let_in(&tasks[i]) : wait(&tasks[i]);
            deeds[i] = bsp_out_deed(&tasks[i].out, ending);
        }
        pthread_barrier_wait(&meeting);
    }
}

/* what the next live tasks keep, by their origins */
static void carry_over(void) {
    check(bsp_steps_look(&run, &look), "nothing to see");
    for (size_t i = 0; i < look.live; i++) {
        struct bsp_origin from;
        check(bsp_steps_origin(&run, i, &from), "no task");
        next[i] = from.spawned ? tasks[from.place].spawned[from.number] : tasks[from.place].kept;
    }
    for (size_t i = 0; i < look.live; i++) tasks[i].kept = next[i];
}

/* all supersteps */
static int32_t supersteps(void) {
    for (;;) {
        check(bsp_steps_look(&run, &look), "nothing to see");
        pthread_barrier_wait(&meeting); /* the threads run the tasks */
        pthread_barrier_wait(&meeting);
        for (size_t i = 0; i < look.live; i++)
            if (tasks[i].out.failed) stop("no memory", BSP_STEPS_NO_MEMORY);
        int32_t status = bsp_steps_close(deeds, look.live, &run);
        if (status != BSP_STEPS_DONE) return status;
        carry_over();
    }
}

/* the report as text */
static void report(void) {
    size_t bytes = 0;
    if (bsp_steps_report(&run, NULL, 0, &bytes) != BSP_STEPS_SHORT) stop("no report", 0);
    uint8_t *text = (uint8_t *)malloc(bytes);
    check(text ? bsp_steps_report(&run, text, bytes, &bytes) : BSP_STEPS_NO_MEMORY, "no report");
    fwrite(text, 1, bytes, stdout);
    free(text);
}

int main(int count, char **words) {
    threads = count > 1 ? (size_t)atoi(words[1]) : 1;
    if (threads < 1 || threads > MOST_THREADS) stop("1 to 64 threads", 0);
    int64_t cells[CELLS] = {0};
    struct bsp_array arrays[] = {{(const uint8_t *)"shop", 4, cells, CELLS}};
    check(bsp_steps_open(arrays, 1, 1, MOST, 10000, &run), "not opened");
    struct kept door = {true, 1};
    tasks[0].kept = door;
    static pthread_t started[MOST_THREADS];
    static size_t numbers[MOST_THREADS];
    pthread_barrier_init(&meeting, NULL, (unsigned)threads + 1);
    for (size_t i = 0; i < threads; i++) {
        numbers[i] = i;
        if (pthread_create(&started[i], NULL, work, &numbers[i])) stop("no thread", 0);
    }
    int32_t status = supersteps();
    over = true;
    pthread_barrier_wait(&meeting);
    for (size_t i = 0; i < threads; i++) pthread_join(started[i], NULL);
    if (status != BSP_STEPS_ENDED) stop("not ended", status);
    struct bsp_cells shop;
    check(bsp_steps_look(&run, &look), "nothing to see");
    check(bsp_steps_cells(&run, 0, &shop), "no cells");
    if (count > 2 && !strcmp(words[2], "report")) report();
    else
        printf("shop: %u supersteps, %lld came, %lld went, %lld in all\n", (unsigned)look.step, (long long)shop.at[CAME],
               (long long)shop.at[WENT], (long long)shop.at[TIME]);
    for (size_t i = 0; i < MOST; i++) bsp_out_free(&tasks[i].out);
    pthread_barrier_destroy(&meeting);
    return bsp_steps_free(&run);
}
