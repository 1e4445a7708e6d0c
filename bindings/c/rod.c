/* Heat in a rod, in supersteps: rod THREADS [report]
 *
 * 46 tasks have 89 cells each. In each superstep a task reads its cells and its neighbours' as they were when it began, and sets its
 * own. The tasks run on the threads in any order; the library lands what they put. The output is that of crates/example_bodies, and
 * the same with any number of threads; with `report` it is the report of the run, as `bsp run` prints it. */
#include "bsp_steps.h"
#include <pthread.h>
#include <stdio.h>
#include <string.h>

enum { CELLS = 4096, TASKS = 46, SIZE = 89, LAST = 999, MOST_THREADS = 64 };

static struct bsp_steps run;      /* the run */
static struct bsp_cells rod;      /* its cells as the superstep began */
static uint32_t step;             /* the superstep */
static struct bsp_out outs[TASKS];
static struct bsp_deed deeds[TASKS];
static size_t threads;
static pthread_barrier_t meeting; /* of all threads */

static void stop(const char *what, int32_t status) {
    fprintf(stderr, "rod: %s: status %d\n", what, (int)status);
    exit(1);
}

/* the segment of a task */
static void segment(size_t task) {
    struct bsp_out *out = &outs[task];
    bsp_out_begin(out);
    for (size_t i = task * SIZE + 1; i <= task * SIZE + SIZE; i++)
        bsp_out_put(out, 0, (uint32_t)i, (rod.at[i - 1] + rod.at[i + 1] + 2 * rod.at[i]) / 4);
    deeds[task] = bsp_out_deed(out, step < LAST ? BSP_GOES_ON : BSP_STOPS);
}

/* a thread's share of each superstep */
static void *work(void *number) {
    for (;;) {
        pthread_barrier_wait(&meeting);
        if (!rod.at) return NULL;
        for (size_t task = *(size_t *)number; task < TASKS; task += threads) segment(task);
        pthread_barrier_wait(&meeting);
    }
}

/* all supersteps */
static int32_t supersteps(void) {
    for (;;) {
        if (bsp_steps_cells(&run, 0, &rod)) stop("no cells", 0);
        pthread_barrier_wait(&meeting); /* the threads run the tasks */
        pthread_barrier_wait(&meeting);
        for (size_t task = 0; task < TASKS; task++)
            if (outs[task].failed) stop("no memory", BSP_STEPS_NO_MEMORY);
        int32_t status = bsp_steps_close(deeds, TASKS, &run);
        if (status != BSP_STEPS_DONE) return status;
        step++;
    }
}

/* the report as text */
static void report(void) {
    size_t bytes = 0;
    if (bsp_steps_report(&run, NULL, 0, &bytes) != BSP_STEPS_SHORT) stop("no report", 0);
    uint8_t *text = (uint8_t *)malloc(bytes);
    int32_t status = text ? bsp_steps_report(&run, text, bytes, &bytes) : BSP_STEPS_NO_MEMORY;
    if (status) stop("no report", status);
    fwrite(text, 1, bytes, stdout);
    free(text);
}

int main(int count, char **words) {
    threads = count > 1 ? (size_t)atoi(words[1]) : 1;
    if (threads < 1 || threads > MOST_THREADS) stop("1 to 64 threads", 0);
    static int64_t cells[CELLS] = {1000000000000};
    struct bsp_array arrays[] = {{(const uint8_t *)"rod", 3, cells, CELLS}};
    int32_t status = bsp_steps_open(arrays, 1, TASKS, TASKS, 1000, &run);
    if (status) stop("not opened", status);
    static pthread_t started[MOST_THREADS];
    static size_t numbers[MOST_THREADS];
    pthread_barrier_init(&meeting, NULL, (unsigned)threads + 1);
    for (size_t i = 0; i < threads; i++) {
        numbers[i] = i;
        if (pthread_create(&started[i], NULL, work, &numbers[i])) stop("no thread", 0);
    }
    status = supersteps();
    rod.at = NULL;
    pthread_barrier_wait(&meeting);
    for (size_t i = 0; i < threads; i++) pthread_join(started[i], NULL);
    if (status != BSP_STEPS_ENDED) stop("not ended", status);
    struct bsp_look look;
    if (bsp_steps_look(&run, &look) || bsp_steps_cells(&run, 0, &rod)) stop("nothing to see", 0);
    if (count > 2 && !strcmp(words[2], "report")) report();
    else printf("rod: %u supersteps, cells %lld %lld\n", (unsigned)look.step, (long long)rod.at[10], (long long)rod.at[70]);
    for (size_t task = 0; task < TASKS; task++) bsp_out_free(&outs[task]);
    pthread_barrier_destroy(&meeting);
    return bsp_steps_free(&run);
}
