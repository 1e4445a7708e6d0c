/* Supersteps whose tasks C runs, beside plain C: steps puts | steps rod LAST THREADS
 *
 * By `puts`, prints how long a close with 100,000 puts takes beside a plain loop that checks all cells and then writes, and keeps what
 * the cells held: for puts that set and puts that add, to cells in order and anywhere; the medians of 201 closes in turns. By `rod`, a rod of
 * 4096 cells cools in 46 blocks, up to superstep LAST: prints what bench/native_bench prints for it. */
#include "bsp_steps.h"
#include <pthread.h>
#include <stdio.h>
#include <string.h>
#include <time.h>

static double now(void) {
    struct timespec time;
    clock_gettime(CLOCK_MONOTONIC, &time);
    return (double)time.tv_sec * 1e9 + (double)time.tv_nsec;
}

static int by_value(const void *one, const void *other) {
    double a = *(const double *)one, b = *(const double *)other;
    return (a > b) - (a < b);
}

static void check(int32_t status) {
    if (status == BSP_STEPS_DONE) return;
    fprintf(stderr, "steps: status %d\n", (int)status);
    exit(1);
}

enum { ARRAYS = 4, CELLS = 50000, PUTS = 100000, TASKS = 100, TIMES = 201 };

static int64_t cells[ARRAYS][CELLS], olds[PUTS];
static struct bsp_put all[PUTS];
static struct bsp_deed deeds[TASKS];

/* The same in plain C: all cells exist, and no sum overflows, or nothing changes. */
__attribute__((noinline)) static int plain(const struct bsp_cells *arrays, size_t count, const struct bsp_put *all, size_t puts) {
    for (size_t i = 0; i < puts; i++)
        if (all[i].array >= count || all[i].index >= arrays[all[i].array].len) return 3;
    for (size_t i = 0; i < puts; i++) {
        int64_t *cell = (int64_t *)arrays[all[i].array].at + all[i].index;
        olds[i] = *cell;
        if (!all[i].adds) *cell = all[i].value;
        else if (__builtin_add_overflow(*cell, all[i].value, cell)) {
            for (size_t j = i + 1; j-- > 0;) ((int64_t *)arrays[all[j].array].at)[all[j].index] = olds[j];
            return 8;
        }
    }
    return 0;
}

/* `stride`: how far one put's cell is from the last one's; 0: anywhere. */
static void close_beside_plain(const char *what, bool adds, uint32_t stride) {
    static double ours[TIMES], theirs[TIMES], ratios[TIMES];
    struct bsp_array given[ARRAYS];
    struct bsp_cells mine[ARRAYS];
    struct bsp_steps run = {0};
    memset(cells, 0, sizeof cells);
    for (size_t i = 0; i < ARRAYS; i++) {
        struct bsp_array array = {(const uint8_t *)"abcd" + i, 1, cells[i], CELLS};
        struct bsp_cells own = {cells[i], CELLS};
        given[i] = array, mine[i] = own;
    }
    check(bsp_steps_open(given, ARRAYS, TASKS, TASKS, TIMES + 1, &run));
    uint64_t state = 88172645463325252u;
    for (size_t i = 0; i < PUTS; i++) {
        state ^= state << 13, state ^= state >> 7, state ^= state << 17;
        uint32_t where = stride ? (uint32_t)i * stride : (uint32_t)(state % (ARRAYS * CELLS));
        struct bsp_put put = {(uint16_t)(where / CELLS), adds, where % CELLS, (int64_t)(state & 1023)};
        all[i] = put;
    }
    for (size_t i = 0; i < TASKS; i++) {
        struct bsp_deed deed = {all + i * (PUTS / TASKS), PUTS / TASKS, NULL, 0, 0, BSP_GOES_ON};
        deeds[i] = deed;
    }
    for (int i = 0; i < TIMES; i++) {
        double first = now();
        check(bsp_steps_close(deeds, TASKS, &run));
        double second = now();
        check(plain(mine, ARRAYS, all, PUTS));
        double third = now();
        ours[i] = second - first, theirs[i] = third - second, ratios[i] = ours[i] / theirs[i];
    }
    for (size_t i = 0; i < ARRAYS; i++) {
        struct bsp_cells found;
        check(bsp_steps_cells(&run, i, &found));
        if (memcmp(found.at, cells[i], sizeof cells[i])) check(99);
    }
    qsort(ours, TIMES, sizeof *ours, by_value);
    qsort(theirs, TIMES, sizeof *theirs, by_value);
    qsort(ratios, TIMES, sizeof *ratios, by_value);
    printf("%s: %.2f ns a put, plain C %.2f, ratio %.2f\n", what, ours[TIMES / 2] / PUTS, theirs[TIMES / 2] / PUTS, ratios[TIMES / 2]);
    check(bsp_steps_free(&run));
}

enum { ROD = 4096, BLOCKS = 46, SIZE = 89, MOST_THREADS = 64 };

static struct bsp_cells view;
static struct bsp_out outs[BLOCKS];
static bool stops, over;
static size_t threads;
static pthread_barrier_t meeting;

static void segments(size_t first) {
    for (size_t task = first; task < BLOCKS; task += threads) {
        bsp_out_begin(&outs[task]);
        for (size_t i = task * SIZE + 1; i <= task * SIZE + SIZE; i++)
            bsp_out_put(&outs[task], 0, (uint32_t)i, (view.at[i - 1] + view.at[i + 1] + 2 * view.at[i]) / 4);
        deeds[task] = bsp_out_deed(&outs[task], stops ? BSP_STOPS : BSP_GOES_ON);
    }
}

static void meet(void) {
    if (threads > 1) pthread_barrier_wait(&meeting);
}

static void *work(void *number) {
    for (;;) {
        meet();
        if (over) return NULL;
        segments(*(size_t *)number);
        meet();
    }
}

static void rod(uint32_t last) {
    static int64_t heat[ROD] = {1000000000000};
    static pthread_t started[MOST_THREADS];
    static size_t numbers[MOST_THREADS];
    struct bsp_array given[] = {{(const uint8_t *)"rod", 3, heat, ROD}};
    struct bsp_steps run = {0};
    check(bsp_steps_open(given, 1, BLOCKS, BLOCKS, UINT32_MAX, &run));
    pthread_barrier_init(&meeting, NULL, (unsigned)threads);
    for (size_t i = 1; i < threads; i++) {
        numbers[i] = i;
        check(pthread_create(&started[i], NULL, work, &numbers[i]));
    }
    for (uint32_t step = 0; step <= last; step++) {
        check(bsp_steps_cells(&run, 0, &view));
        stops = step == last;
        meet();
        segments(0);
        meet();
        int32_t status = bsp_steps_close(deeds, BLOCKS, &run);
        check(stops ? status - BSP_STEPS_ENDED : status);
    }
    over = true;
    meet();
    for (size_t i = 1; i < threads; i++) pthread_join(started[i], NULL);
    check(bsp_steps_cells(&run, 0, &view));
    int count = 0;
    for (size_t i = 0; i < view.len; i++) count += view.at[i] != 0;
    printf("%lld %lld %d\n", (long long)view.at[10], (long long)view.at[70], count);
    for (size_t task = 0; task < BLOCKS; task++) bsp_out_free(&outs[task]);
    pthread_barrier_destroy(&meeting);
    check(bsp_steps_free(&run));
}

int main(int count, char **words) {
    if (count > 2 && !strcmp(words[1], "rod")) {
        threads = count > 3 ? (size_t)strtoul(words[3], NULL, 10) : 1;
        if (threads < 1 || threads > MOST_THREADS) threads = 1;
        rod((uint32_t)strtoul(words[2], NULL, 10));
        return 0;
    }
    close_beside_plain("set, side by side", false, 1);
    close_beside_plain("set, every second cell", false, 2);
    close_beside_plain("set, anywhere", false, 0);
    close_beside_plain("add, side by side", true, 1);
    close_beside_plain("add, anywhere", true, 0);
    return 0;
}
