/* Three programs in supersteps: bodies life|search|ranks THREADS [report]
 *
 * The game of life on 512 rows, a search in a graph of 100,000 nodes, and the ranks of the nodes of a graph. Each task has a block of
 * rows or nodes, and lives to the end. The tasks run on the threads in any order; the library lands what they put. The output is that
 * of crates/example_bodies, and the same with any number of threads; with `report` it is the report of the run, as `bsp run` prints it. */
#include "bsp_steps.h"
#include <pthread.h>
#include <stdio.h>
#include <string.h>

enum { MOST_CELLS = 512 * 512, MOST_TASKS = 20, MOST_THREADS = 64 };

static struct bsp_steps run;        /* the run */
static struct bsp_cells arrays[2];  /* its arrays as the superstep began */
static uint32_t step;               /* the superstep */
static struct bsp_out outs[MOST_TASKS];
static struct bsp_deed deeds[MOST_TASKS];
static size_t threads;
static bool over;
static pthread_barrier_t meeting;   /* of all threads */

static void stop(const char *what, int32_t status) {
    fprintf(stderr, "bodies: %s: status %d\n", what, (int)status);
    exit(1);
}

/* life: whether a cell of the board lives; there is none beyond it */
enum { WIDTH = 512 };

static int64_t cell(int64_t row, int64_t column) {
    return row < 0 || row >= WIDTH || column < 0 || column >= WIDTH ? 0 : arrays[0].at[row * WIDTH + column];
}

static uint8_t live(int64_t first, int64_t end, struct bsp_out *out) {
    for (int64_t row = first; row < end; row++)
        for (int64_t column = 0; column < WIDTH; column++) {
            int64_t around = cell(row - 1, column - 1) + cell(row - 1, column) + cell(row - 1, column + 1) + cell(row, column - 1)
                           + cell(row, column + 1) + cell(row + 1, column - 1) + cell(row + 1, column) + cell(row + 1, column + 1);
            bsp_out_put(out, 0, (uint32_t)(row * WIDTH + column), around == 3 || (around == 2 && cell(row, column) == 1));
        }
    return step < 29 ? BSP_GOES_ON : BSP_STOPS;
}

static void board(int64_t *first, int64_t *second) {
    (void)second;
    static const size_t living[] = {130817, 130818, 131328, 131329, 131841};
    for (size_t i = 0; i < sizeof living / sizeof *living; i++) first[living[i]] = 1;
}

static void lived(void) {
    int count = 0;
    for (size_t i = 0; i < arrays[0].len; i++) count += arrays[0].at[i] != 0;
    printf("life: %d cells live after %u supersteps\n", count, (unsigned)step);
}

/* the nodes to which a node has edges */
static void neighbours(int64_t node, int64_t nodes, uint32_t found[2]) {
    found[0] = (uint32_t)((2 * node + 1) % nodes);
    found[1] = (uint32_t)((3 * node + 7) % nodes);
}

/* search: distances, -1 where no way is known, and in how many supersteps new nodes were found */
static uint8_t find(int64_t first, int64_t end, struct bsp_out *out) {
    const int64_t *distances = arrays[0].at;
    bool found = false;
    for (int64_t node = first; node < end; node++) {
        if (distances[node] != step) continue;
        uint32_t to[2];
        neighbours(node, (int64_t)arrays[0].len, to);
        for (int i = 0; i < 2; i++)
            if (distances[to[i]] == -1) bsp_out_put(out, 0, to[i], (int64_t)step + 1), found = true;
    }
    if (found) bsp_out_put(out, 1, 0, (int64_t)step + 1);
    return step == 0 || arrays[1].at[0] == step ? BSP_GOES_ON : BSP_STOPS;
}

static void unknown(int64_t *first, int64_t *second) {
    (void)second;
    for (size_t i = 1; i < 100000; i++) first[i] = -1;
}

static void found(void) {
    int count = 0;
    for (size_t i = 0; i < arrays[0].len; i++) count += arrays[0].at[i] >= 0;
    printf("search: %u supersteps, %d nodes reached, the last ones at distance %lld\n", (unsigned)step, count, (long long)arrays[1].at[0]);
}

/* ranks: in one superstep nodes add to the sums of their neighbours, in the next each takes 85 in a hundred of its sum */
static uint8_t rank(int64_t first, int64_t end, struct bsp_out *out) {
    for (int64_t node = first; node < end; node++) {
        if (step % 2 == 0) {
            uint32_t to[2];
            neighbours(node, (int64_t)arrays[0].len, to);
            for (int i = 0; i < 2; i++) bsp_out_add(out, 1, to[i], arrays[0].at[node] / 2);
        } else {
            bsp_out_put(out, 0, (uint32_t)node, arrays[1].at[node] / 100 * 85 + 150000000);
            bsp_out_put(out, 1, (uint32_t)node, 0);
        }
    }
    return step < 39 ? BSP_GOES_ON : BSP_STOPS;
}

static void alike(int64_t *first, int64_t *second) {
    (void)second;
    for (size_t i = 0; i < 1000; i++) first[i] = 1000000000;
}

static void ranked(void) {
    printf("ranks: %lld %lld %lld\n", (long long)arrays[0].at[0], (long long)arrays[0].at[1], (long long)arrays[0].at[7]);
}

/* what a program begins with, what its tasks do, and what it prints */
static const struct program {
    const char *name, *arrays[2];
    size_t cells[2], tasks;
    int64_t block;
    void (*begin)(int64_t *first, int64_t *second);
    uint8_t (*segment)(int64_t first, int64_t end, struct bsp_out *out);
    void (*print)(void);
} programs[] = {
    {"life", {"board", NULL}, {512 * 512, 0}, 16, 32, board, live, lived},
    {"search", {"distances", "rounds"}, {100000, 1}, 20, 5000, unknown, find, found},
    {"ranks", {"ranks", "sums"}, {1000, 1000}, 10, 100, alike, rank, ranked},
}, *program;

/* a thread's share of each superstep */
static void *work(void *number) {
    for (;;) {
        pthread_barrier_wait(&meeting);
        if (over) return NULL;
        for (size_t task = *(size_t *)number; task < program->tasks; task += threads) {
            bsp_out_begin(&outs[task]);
            uint8_t ending = program->segment((int64_t)task * program->block, ((int64_t)task + 1) * program->block, &outs[task]);
            deeds[task] = bsp_out_deed(&outs[task], ending);
        }
        pthread_barrier_wait(&meeting);
    }
}

static void look(void) {
    for (size_t i = 0; i < 2 && program->arrays[i]; i++)
        if (bsp_steps_cells(&run, i, &arrays[i])) stop("no cells", 0);
}

/* all supersteps */
static int32_t supersteps(void) {
    for (;; step++) {
        look();
        pthread_barrier_wait(&meeting); /* the threads run the tasks */
        pthread_barrier_wait(&meeting);
        for (size_t task = 0; task < program->tasks; task++)
            if (outs[task].failed) stop("no memory", BSP_STEPS_NO_MEMORY);
        int32_t status = bsp_steps_close(deeds, program->tasks, &run);
        if (status == BSP_STEPS_DONE) continue;
        step++;
        return status;
    }
}

/* the report as text */
static void report(void) {
    size_t bytes = 0;
    if (bsp_steps_report(&run, NULL, 0, &bytes) != BSP_STEPS_SHORT) stop("no report", 0);
    uint8_t *text = (uint8_t *)malloc(bytes);
    int32_t status = text ? bsp_steps_report(&run, text, bytes, &bytes) : BSP_STEPS_NO_MEMORY;
    if (status) stop("no report", status);
    fwrite(text, 1, bytes, stdout);
    free(text);
}

int main(int count, char **words) {
    for (size_t i = 0; i < sizeof programs / sizeof *programs; i++)
        if (count > 1 && !strcmp(words[1], programs[i].name)) program = &programs[i];
    threads = count > 2 ? (size_t)atoi(words[2]) : 1;
    if (!program || threads < 1 || threads > MOST_THREADS) stop("life, search or ranks, and 1 to 64 threads", 0);
    static int64_t first[MOST_CELLS], second[1000];
    program->begin(first, second);
    struct bsp_array given[2];
    size_t many = 0;
    for (; many < 2 && program->arrays[many]; many++) {
        struct bsp_array array = {(const uint8_t *)program->arrays[many], strlen(program->arrays[many]), many ? second : first, program->cells[many]};
        given[many] = array;
    }
    int32_t status = bsp_steps_open(given, many, (uint32_t)program->tasks, (uint32_t)program->tasks, 10000, &run);
    if (status) stop("not opened", status);
    static pthread_t started[MOST_THREADS];
    static size_t numbers[MOST_THREADS];
    pthread_barrier_init(&meeting, NULL, (unsigned)threads + 1);
    for (size_t i = 0; i < threads; i++) {
        numbers[i] = i;
        if (pthread_create(&started[i], NULL, work, &numbers[i])) stop("no thread", 0);
    }
    status = supersteps();
    over = true;
    pthread_barrier_wait(&meeting);
    for (size_t i = 0; i < threads; i++) pthread_join(started[i], NULL);
    if (status != BSP_STEPS_ENDED) stop("not ended", status);
    look();
    if (count > 3 && !strcmp(words[3], "report")) report();
    else program->print();
    for (size_t task = 0; task < program->tasks; task++) bsp_out_free(&outs[task]);
    pthread_barrier_destroy(&meeting);
    return bsp_steps_free(&run);
}
