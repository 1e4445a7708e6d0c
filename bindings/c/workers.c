/* Heat in a rod, by processes that pass each other packed deeds: workers PROCESSES [report]
 *
 * Each process has the whole run, and runs the segments of some of its 46 tasks. Their deeds go as bytes to the first process, which
 * sends all of them to all. Each closes by the same bytes, so the runs stay the same; at the end their sums are compared. The output is
 * that of rod.c, with any number of processes; with `report` it is the report of the run, as `bsp run` prints it. */
#include "bsp_steps.h"
#include <stdio.h>
#include <string.h>
#include <sys/socket.h>
#include <sys/wait.h>
#include <unistd.h>

enum { CELLS = 4096, TASKS = 46, SIZE = 89, LAST = 999, MOST = 64, ROOM = TASKS * (11 + 8 * SIZE + 4) };

static size_t processes, own; /* how many there are, and the number of this one */
static int lines[MOST];       /* to the others; that of a worker to the first process is lines[0] */
static struct bsp_steps run;
static uint8_t bytes[MOST][ROOM]; /* the packed deeds of each process */
static struct bsp_block blocks[MOST];

static void stop(const char *what, int32_t status) {
    fprintf(stderr, "workers: %s: status %d\n", what, (int)status);
    exit(1);
}

static void transfer(ssize_t (*moves)(int, void *, size_t), int line, void *at, size_t left) {
    for (uint8_t *next = (uint8_t *)at; left > 0;) {
        ssize_t moved = moves(line, next, left);
        if (moved <= 0) stop("a line is broken", 0);
        next += moved, left -= (size_t)moved;
    }
}

static ssize_t writes(int line, void *at, size_t len) { return write(line, at, len); }

static void send_block(int line, size_t process) {
    transfer(writes, line, &blocks[process].len, sizeof blocks->len);
    transfer(writes, line, bytes[process], blocks[process].len);
}

static void receive_block(int line, size_t process) {
    transfer(read, line, &blocks[process].len, sizeof blocks->len);
    if (blocks[process].len > ROOM) stop("a block is too long", 0);
    transfer(read, line, bytes[process], blocks[process].len);
}

/* the tasks of a process are side by side, as the deeds in its block */
static size_t first_task(size_t process) { return process * TASKS / processes; }

static void segments(uint32_t step) {
    static struct bsp_out out;
    struct bsp_cells rod;
    if (bsp_steps_cells(&run, 0, &rod)) stop("no cells", 0);
    blocks[own].len = 0;
    for (size_t task = first_task(own); task < first_task(own + 1); task++) {
        int64_t row[SIZE];
        for (size_t i = 0, at = task * SIZE + 1; i < SIZE; i++, at++) row[i] = (rod.at[at - 1] + rod.at[at + 1] + 2 * rod.at[at]) / 4;
        bsp_out_begin(&out);
        bsp_out_row(&out, 0, (uint32_t)(task * SIZE + 1), SIZE, row);
        if (out.failed) stop("no memory", BSP_STEPS_NO_MEMORY);
        uint8_t *to = bytes[own] + blocks[own].len;
        blocks[own].len += bsp_out_pack(&out, step < LAST ? BSP_GOES_ON : BSP_STOPS, to, ROOM - blocks[own].len);
    }
}

/* all processes get the blocks of all */
static void exchange(void) {
    if (own) {
        send_block(lines[0], own);
        for (size_t it = 0; it < processes; it++) receive_block(lines[0], it);
        return;
    }
    for (size_t it = 1; it < processes; it++) receive_block(lines[it], it);
    for (size_t to = 1; to < processes; to++)
        for (size_t it = 0; it < processes; it++) send_block(lines[to], it);
}

static int32_t supersteps(void) {
    for (uint32_t step = 0;; step++) {
        struct bsp_unread unread = {0, 0};
        segments(step);
        exchange();
        int32_t status = bsp_steps_close_packed(blocks, processes, &run, &unread);
        if (status == BSP_STEPS_UNREAD) fprintf(stderr, "block %zu, byte %zu\n", unread.block, unread.byte);
        if (status != BSP_STEPS_DONE) return status;
    }
}

static void start(void) {
    for (size_t it = 1; it < processes && !own; it++) {
        int pair[2];
        if (socketpair(AF_UNIX, SOCK_STREAM, 0, pair)) stop("no line", 0);
        pid_t started = fork();
        if (started < 0) stop("no process", 0);
        if (started == 0) own = it;
        close(pair[!own]);
        lines[own ? 0 : it] = pair[!!own];
    }
}

/* the sum of each process is that of the first */
static void compare(void) {
    uint64_t sum = bsp_steps_sum(&run), other;
    if (own) {
        transfer(writes, lines[0], &sum, sizeof sum);
        exit(bsp_steps_free(&run));
    }
    for (size_t it = 1; it < processes; it++) {
        int ended = 0;
        transfer(read, lines[it], &other, sizeof other);
        if (other != sum) stop("the runs differ", 0);
        if (wait(&ended) < 0 || ended) stop("a process failed", ended);
    }
}

static void report(void) {
    size_t len = 0;
    if (bsp_steps_report(&run, NULL, 0, &len) != BSP_STEPS_SHORT) stop("no report", 0);
    uint8_t *text = (uint8_t *)malloc(len);
    int32_t status = text ? bsp_steps_report(&run, text, len, &len) : BSP_STEPS_NO_MEMORY;
    if (status) stop("no report", status);
    fwrite(text, 1, len, stdout);
    free(text);
}

int main(int count, char **words) {
    processes = count > 1 ? (size_t)atoi(words[1]) : 1;
    if (processes < 1 || processes > TASKS) stop("1 to 46 processes", 0);
    static int64_t cells[CELLS] = {1000000000000};
    struct bsp_array arrays[] = {{(const uint8_t *)"rod", 3, cells, CELLS}};
    int32_t status = bsp_steps_open(arrays, 1, TASKS, TASKS, 1000, &run);
    if (status) stop("not opened", status);
    for (size_t it = 0; it < processes; it++) blocks[it].at = bytes[it];
    start();
    status = supersteps();
    if (status != BSP_STEPS_ENDED) stop("not ended", status);
    compare();
    struct bsp_look look;
    struct bsp_cells rod;
    if (bsp_steps_look(&run, &look) || bsp_steps_cells(&run, 0, &rod)) stop("nothing to see", 0);
    if (count > 2 && !strcmp(words[2], "report")) report();
    else printf("rod: %u supersteps, cells %lld %lld\n", (unsigned)look.step, (long long)rod.at[10], (long long)rod.at[70]);
    return bsp_steps_free(&run);
}
