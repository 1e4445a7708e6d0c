/* steps [RUNS]: the calls of bsp_steps.h on runs of every kind, and on random runs (1000) beside a model that is written here: prints
 * what it has tried.
 * With WRAPPED, and linked with --wrap=malloc,--wrap=realloc, each allocation of each close is refused in turn, then nothing is changed
 * and the same close is called again. */
#include "bsp_steps.h"
#include <stdio.h>
#include <string.h>

static long tried, wrong;
static void want(int holds, int line) {
    tried++;
    if (!holds) wrong++, printf("line %d is wrong\n", line);
}
#define WANT(holds) want(holds, __LINE__)

/* A call. With WRAPPED first each of its allocations is refused in turn: it says so, and `undone` holds. */
#ifdef WRAPPED
static long left = -1, refused;
void *__real_malloc(size_t n);
void *__real_realloc(void *p, size_t n);
void *__wrap_malloc(size_t n) { return left >= 0 && left-- == 0 ? NULL : __real_malloc(n); }
void *__wrap_realloc(void *p, size_t n) { return left >= 0 && left-- == 0 ? NULL : __real_realloc(p, n); }
#define EACH_REFUSED(status, call, undone)                              \
    for (long allowed = 0;; allowed++) {                                \
        left = allowed;                                                 \
        status = call;                                                  \
        bool reached = left < 0;                                        \
        left = -1;                                                      \
        if (!reached) break;                                            \
        refused++;                                                      \
        WANT(status == BSP_STEPS_NO_MEMORY && (undone));                \
    }
#else
#define EACH_REFUSED(status, call, undone) status = call
#endif

static const struct bsp_array none[1];

static struct bsp_array array(const char *name, const int64_t *cells, size_t len) {
    struct bsp_array a = {(const uint8_t *)name, strlen(name), cells, len};
    return a;
}

static int32_t cell(struct bsp_steps *run, size_t array, size_t index, int64_t *value) {
    struct bsp_cells cells = {NULL, 0};
    int32_t status = bsp_steps_cells(run, array, &cells);
    if (!status) *value = cells.at[index];
    return status;
}

static size_t live(struct bsp_steps *run) {
    struct bsp_look look;
    return bsp_steps_look(run, &look) ? 0 : look.live;
}

/* An array that is too large is refused before anything is allocated; one that isn't named anew, whatever the memory. */
static void large(void) {
    int64_t cells[1] = {1};
    struct bsp_array sizes[2] = {array("a", cells, 1), array("b", cells, (size_t)1 << 32)};
    struct bsp_array same[3] = {array("a", cells, 1), array("b", cells, 1), array("a", cells, 1)};
    struct bsp_steps run = {0};
#ifdef WRAPPED
    left = 0;
    WANT(bsp_steps_open(sizes, 2, 1, 1, 1, &run) == BSP_STEPS_REFUSED && !run.held && left == 0);
    for (long allowed = 0; allowed < 9; allowed++) {
        left = allowed;
        WANT(bsp_steps_open(same, 3, 1, 1, 1, &run) == BSP_STEPS_REFUSED && !run.held);
    }
    left = -1;
#endif
    WANT(bsp_steps_open(sizes, 2, 1, 1, 1, &run) == BSP_STEPS_REFUSED && !run.held);
    sizes[1].len = SIZE_MAX;
    WANT(bsp_steps_open(sizes, 2, 1, 1, 1, &run) == BSP_STEPS_REFUSED && !run.held);
    WANT(bsp_steps_open(same, 3, 1, 1, 1, &run) == BSP_STEPS_REFUSED && !run.held);
}

/* a run that is over as it begins */
static void over_at_once(struct bsp_steps *run, int32_t status, size_t tasks, const char *report) {
    struct bsp_look look;
    uint8_t text[40];
    size_t bytes = 0;
    WANT(bsp_steps_look(run, &look) == BSP_STEPS_DONE && look.status == status && look.step == 0 && look.live == tasks);
    WANT(bsp_steps_close(NULL, 0, run) == BSP_STEPS_OVER);
    WANT(bsp_steps_report(run, text, sizeof text, &bytes) == BSP_STEPS_DONE && bytes == strlen(report) && !memcmp(text, report, bytes));
}

/* what is refused of packed deeds */
static void packed(void) {
    int64_t cells[3] = {1, 2, 3}, value = 0;
    struct bsp_array arrays[1] = {array("a", cells, 3)};
    struct bsp_steps run = {0};
    struct bsp_unread place = {7, 7};
    static const uint8_t row[] = {3, 0, 0, 1, 0, 0, 0, 2, 0, 0, 0, 7, 0, 0, 0, 0, 0, 0, 0, 0xff, 0xff, 0xff, 0xff, 0xff, 0xff, 0xff, 0xff, 0, 0, 0, 0};
    static const uint8_t end[] = {0, 1, 0, 0}, fifteen[] = {0, 15, 0, 0}, far[] = {3, 0, 0, 0xff, 0xff, 0xff, 0xff, 2, 0, 0, 0, 1, 1, 1, 1, 1, 1, 1, 1};
    static const uint8_t none_of[] = {3, 0, 0, 1, 0, 0, 0, 0, 0, 0, 0, 0, 0, 0, 0}, other[] = {5};
    struct bsp_block whole[2] = {{row, sizeof row}, {end, sizeof end}}, half[2] = {{end, sizeof end}, {row, sizeof row - 4}};
    WANT(bsp_steps_close_packed(whole, 2, &run, &place) == BSP_STEPS_CLOSED && place.block == 7);
    WANT(bsp_steps_open(arrays, 1, 2, 2, 9, &run) == BSP_STEPS_DONE);
    WANT(bsp_steps_close_packed(whole, 1, &run, &place) == BSP_STEPS_UNFIT && place.block == 7);
    WANT(bsp_steps_close_packed(NULL, 0, &run, &place) == BSP_STEPS_UNFIT && place.block == 7);
    WANT(bsp_steps_close_packed(half, 2, &run, &place) == BSP_STEPS_UNREAD && place.block == 1 && place.byte == sizeof row - 4);
    const struct bsp_block bad[] = {{fifteen, 4}, {far, sizeof far}, {none_of, sizeof none_of}, {other, 1}, {end, 3}, {row, 26}};
    for (size_t i = 0; i < sizeof bad / sizeof *bad; i++) {
        struct bsp_block blocks[3] = {{end, 4}, {NULL, 0}, bad[i]};
        WANT(bsp_steps_close_packed(blocks, 3, &run, &place) == BSP_STEPS_UNREAD && place.block == 2 && place.byte == 0);
    }
    WANT(live(&run) == 2 && cell(&run, 0, 1, &value) == 0 && value == 2);
    place.block = 7;
    WANT(bsp_steps_close_packed(whole, 2, &run, &place) == BSP_STEPS_DONE && place.block == 7 && live(&run) == 1);
    WANT(cell(&run, 0, 1, &value) == 0 && value == 7 && cell(&run, 0, 2, &value) == 0 && value == -1);
    WANT(bsp_steps_close_packed(whole + 1, 1, &run, &place) == BSP_STEPS_ENDED);
    WANT(bsp_steps_close_packed(bad, 1, &run, &place) == BSP_STEPS_OVER && place.block == 7);
    WANT(bsp_steps_free(&run) == BSP_STEPS_DONE);
}

/* rows, and the sum of two runs that differ and are the same */
static void rows(void) {
    int64_t cells[4] = {1, 2, 3, 4}, values[3] = {7, 8, 9}, value = 0;
    struct bsp_array arrays[1] = {array("a", cells, 4)};
    uint64_t sums[3];
    for (uint32_t i = 0; i < 3; i++) {
        struct bsp_steps run = {0};
        struct bsp_out out = {0};
        WANT(bsp_steps_open(arrays, 1, 1, 1, 9, &run) == BSP_STEPS_DONE);
        bsp_out_begin(&out);
        bsp_out_row(&out, 0, i == 1, 3, values);
        bsp_out_row(&out, 0, 0, 0, NULL);
        struct bsp_deed deed = bsp_out_deed(&out, BSP_GOES_ON);
        WANT(!out.failed && out.put_count == 3 && bsp_steps_close(&deed, 1, &run) == BSP_STEPS_DONE);
        WANT(cell(&run, 0, i == 1, &value) == 0 && value == 7 && cell(&run, 0, i == 1 ? 0 : 3, &value) == 0 && value == (i == 1 ? 1 : 4));
        sums[i] = bsp_steps_sum(&run);
        bsp_out_begin(&out);
        bsp_out_row(&out, 0, UINT32_MAX - 1, 3, values);
        deed = bsp_out_deed(&out, BSP_GOES_ON);
        WANT(bsp_steps_close(&deed, 1, &run) == BSP_STEPS_FAULT && bsp_steps_sum(&run) != sums[i]);
        bsp_out_free(&out);
        WANT(bsp_steps_free(&run) == BSP_STEPS_DONE && bsp_steps_sum(&run) == 0);
    }
    WANT(sums[0] == sums[2] && sums[0] != sums[1]);
}

/* what is refused at open */
static void opens(void) {
    int64_t cells[3] = {1, 2, 3};
    struct bsp_array same[2] = {array("a", cells, 3), array("a", cells, 1)};
    struct bsp_array good[3] = {array("a", cells, 3), array("b", NULL, 0), array("abc_def_01234567", cells, 1)};
    struct bsp_steps run = {0};
    WANT(bsp_steps_open(same, 2, 1, 1, 1, &run) == BSP_STEPS_REFUSED && !run.held);
    static const char *const strange[] = {"", "\xff", "A", "a b", "a b\nended 7", " a", "a\n", "9a", "_a", "a-b", "\xc3\xa9", "end", "array", "abcdefghijklmnopq"};
    for (size_t i = 0; i < sizeof strange / sizeof *strange; i++) {
        struct bsp_array named[3] = {array("a", cells, 3), array(strange[i], cells, 3), array("a", cells, 3)};
        WANT(bsp_steps_open(named, 3, 1, 1, 1, &run) == BSP_STEPS_NAME && !run.held);
        WANT(bsp_steps_open(named, 3, 2, 1, 1, &run) == BSP_STEPS_TASKS && !run.held);
    }
    large();
    WANT(bsp_steps_open(good, 3, 2, 1, 1, &run) == BSP_STEPS_TASKS && !run.held);
    WANT(bsp_steps_open(good, 3, 65536, 65536, 1, &run) == BSP_STEPS_TASKS && !run.held);
    WANT(bsp_steps_open(good, 3, 1, 2147483648u, 1, &run) == BSP_STEPS_TASKS && !run.held);
    WANT(bsp_steps_open(good, 3, 1, UINT32_MAX, 1, &run) == BSP_STEPS_TASKS && !run.held);
    WANT(bsp_steps_free(&run) == BSP_STEPS_CLOSED);
    WANT(bsp_steps_open(good, 3, 1, 1, 1, &run) == BSP_STEPS_DONE && run.held);
    WANT(bsp_steps_open(good, 3, 1, 1, 1, &run) == BSP_STEPS_OPEN && run.held);
    WANT(bsp_steps_open(same, 2, 2, 1, 1, &run) == BSP_STEPS_OPEN && run.held);
    WANT(bsp_steps_free(&run) == BSP_STEPS_DONE && !run.held);
    WANT(bsp_steps_free(&run) == BSP_STEPS_CLOSED);
    WANT(bsp_steps_open(none, 0, 0, 0, 0, &run) == BSP_STEPS_DONE);
    over_at_once(&run, BSP_STEPS_ENDED, 0, "ended 0\n");
    WANT(bsp_steps_free(&run) == BSP_STEPS_DONE);
    WANT(bsp_steps_open(none, 0, 65535, 65535, 0, &run) == BSP_STEPS_DONE && live(&run) == 65535);
    over_at_once(&run, BSP_STEPS_LIMIT, 65535, "limit 0\n");
    WANT(bsp_steps_free(&run) == BSP_STEPS_DONE);
}

/* each call on a slot that isn't open tells nothing */
static void closed(void) {
    struct bsp_steps run = {0};
    struct bsp_look look = {1, 9, 2, 3, 4, 5};
    struct bsp_cells cells = {NULL, 7};
    struct bsp_path path = {NULL, 7};
    struct bsp_origin origin = {7, 7, true};
    struct bsp_print print = {7, 7};
    struct bsp_record record = {7, 7, 7, 7};
    uint32_t code = 7;
    size_t bytes = 7;
    WANT(bsp_steps_close(NULL, 0, &run) == BSP_STEPS_CLOSED);
    WANT(bsp_steps_look(&run, &look) == BSP_STEPS_CLOSED && look.step == 1 && look.status == 9 && look.records == 5);
    WANT(bsp_steps_cells(&run, 0, &cells) == BSP_STEPS_CLOSED && cells.len == 7);
    WANT(bsp_steps_path(&run, 0, &path) == BSP_STEPS_CLOSED && path.len == 7);
    WANT(bsp_steps_origin(&run, 0, &origin) == BSP_STEPS_CLOSED && origin.place == 7);
    WANT(bsp_steps_fault(&run, &code, &path) == BSP_STEPS_CLOSED && code == 7);
    WANT(bsp_steps_print(&run, 0, &print, &path) == BSP_STEPS_CLOSED && print.value == 7);
    WANT(bsp_steps_record(&run, 0, &record) == BSP_STEPS_CLOSED && record.left == 7);
    WANT(bsp_steps_report(&run, NULL, 0, &bytes) == BSP_STEPS_CLOSED && bytes == 0);
}

/* deeds that don't fit change nothing; endings of each number */
static void unfit(void) {
    for (int ending = 0; ending < 256; ending++) {
        int64_t cells[1] = {5}, value = 0;
        struct bsp_array arrays[1] = {array("a", cells, 1)};
        struct bsp_steps run = {0};
        WANT(bsp_steps_open(arrays, 1, 2, 9, 9, &run) == BSP_STEPS_DONE);
        struct bsp_put put = {0, 0, 0, 8};
        struct bsp_deed deeds[3] = {{&put, 1, NULL, 0, 0, BSP_GOES_ON}, {NULL, 0, NULL, 0, 0, (uint8_t)ending}, {NULL, 0, NULL, 0, 0, 0}};
        WANT(bsp_steps_close(deeds, 1, &run) == BSP_STEPS_UNFIT);
        WANT(bsp_steps_close(deeds, 3, &run) == BSP_STEPS_UNFIT);
        WANT(bsp_steps_close(NULL, 0, &run) == BSP_STEPS_UNFIT);
        WANT(live(&run) == 2 && cell(&run, 0, 0, &value) == 0 && value == 5);
        int32_t status = bsp_steps_close(deeds, 2, &run);
        WANT(cell(&run, 0, 0, &value) == 0);
        uint32_t code = 0;
        struct bsp_path path = {NULL, 0};
        if (ending < 2) WANT(status == BSP_STEPS_DONE && value == 8 && live(&run) == 2 - (size_t)ending);
        else if (ending < 16) WANT(status == BSP_STEPS_UNFIT && value == 5 && live(&run) == 2);
        else {
            WANT(status == BSP_STEPS_FAULT && value == 5 && live(&run) == 0);
            WANT(bsp_steps_fault(&run, &code, &path) == 0 && code == (uint32_t)ending && path.len == 1 && path.at[0] == 1);
            WANT(bsp_steps_close(deeds, 2, &run) == BSP_STEPS_OVER);
        }
        WANT(bsp_steps_free(&run) == BSP_STEPS_DONE);
    }
}

/* a run of one deed, and the fault that ends it */
static void fault(struct bsp_deed deed, uint32_t most, uint32_t want_code, size_t want_len) {
    int64_t cells[2] = {5, INT64_MAX}, value = 0;
    struct bsp_array arrays[1] = {array("a", cells, 2)};
    struct bsp_steps run = {0};
    uint32_t code = 0;
    struct bsp_path path = {NULL, 9};
    uint8_t text[200];
    size_t bytes = 0;
    WANT(bsp_steps_open(arrays, 1, 1, most, 9, &run) == BSP_STEPS_DONE);
    WANT(bsp_steps_fault(&run, &code, &path) == BSP_STEPS_NONE && path.len == 9);
    WANT(bsp_steps_report(&run, text, sizeof text, &bytes) == BSP_STEPS_GOING && bytes == 0);
    WANT(bsp_steps_close(&deed, 1, &run) == BSP_STEPS_FAULT);
    WANT(bsp_steps_fault(&run, &code, &path) == 0 && code == want_code && path.len == want_len);
    WANT(cell(&run, 0, 0, &value) == 0 && value == 5 && live(&run) == 0);
    WANT(bsp_steps_report(&run, text, sizeof text, &bytes) == 0 && bytes > 20);
    WANT(bsp_steps_report(&run, text, bytes - 1, &bytes) == BSP_STEPS_SHORT);
    WANT(bsp_steps_free(&run) == BSP_STEPS_DONE);
}

static void faults(void) {
    struct bsp_put outside[2] = {{0, 0, 0, 6}, {0, 0, 2, 1}}, nowhere = {1, 1, 0, 1};
    struct bsp_put over[2] = {{0, 0, 0, 6}, {0, 1, 1, 1}};
    struct bsp_deed no_cell = {outside, 2, NULL, 0, 0, 0}, no_array = {&nowhere, 1, NULL, 0, 0, 1}, sum = {over, 2, NULL, 0, 0, 0};
    struct bsp_deed many = {NULL, 0, NULL, 0, 9, 0}, most = {NULL, 0, NULL, 0, 65535, 0};
    fault(no_cell, 9, 3, 1);
    fault(no_array, 9, 3, 1);
    fault(sum, 9, 8, 1);
    fault(many, 9, 7, 0);
    fault(most, 65535, 7, 0);
}

/* tasks nine deep: the eighth numbers of a path are the last */
static void depth(void) {
    struct bsp_steps run = {0};
    struct bsp_deed spawns = {NULL, 0, NULL, 0, 1, BSP_STOPS};
    WANT(bsp_steps_open(none, 0, 1, 9, 99, &run) == BSP_STEPS_DONE);
    for (size_t i = 1; i < 8; i++) {
        struct bsp_path path;
        struct bsp_origin origin;
        WANT(bsp_steps_close(&spawns, 1, &run) == BSP_STEPS_DONE);
        WANT(bsp_steps_path(&run, 0, &path) == 0 && path.len == i + 1);
        WANT(bsp_steps_origin(&run, 0, &origin) == 0 && origin.spawned && origin.place == 0 && origin.number == 0);
        WANT(bsp_steps_origin(&run, 1, &origin) == BSP_STEPS_NONE && bsp_steps_path(&run, 1, &path) == BSP_STEPS_NONE);
    }
    WANT(bsp_steps_close(&spawns, 1, &run) == BSP_STEPS_FAULT);
    uint32_t code;
    struct bsp_path path;
    WANT(bsp_steps_fault(&run, &code, &path) == 0 && code == 5 && path.len == 8);
    WANT(bsp_steps_free(&run) == BSP_STEPS_DONE);
}

static bool looks(struct bsp_steps *run, struct bsp_look as) {
    struct bsp_look now;
    if (bsp_steps_look(run, &now)) return false;
    return now.step == as.step && now.status == as.status && now.live == as.live && now.arrays == as.arrays && now.prints == as.prints && now.records == as.records;
}

/* puts, prints, spawns, origins and the report of a run to its limit */
static int32_t whole(struct bsp_steps *run) {
    int64_t cells[2] = {10, 20};
    struct bsp_array arrays[2] = {array("a", cells, 2), array("b", cells, 1)};
    struct bsp_look begun = {0, 0, 2, 2, 0, 0}, later = {1, 0, 4, 2, 3, 1};
    int32_t status;
    EACH_REFUSED(status, bsp_steps_open(arrays, 2, 2, 9, 2, run), !run->held);
    WANT(status == BSP_STEPS_DONE && looks(run, begun));
    struct bsp_put puts[3] = {{0, 0, 0, 1}, {0, 1, 0, 5}, {1, 1, 0, -3}};
    int64_t prints[2] = {7, -8};
    struct bsp_deed first[2] = {{puts, 1, prints, 2, 2, BSP_GOES_ON}, {puts + 1, 2, prints, 1, 1, BSP_STOPS}};
    EACH_REFUSED(status, bsp_steps_close(first, 2, run), looks(run, begun));
    WANT(status == BSP_STEPS_DONE && looks(run, later));
    struct bsp_deed second[4] = {{NULL, 0, prints, 1, 1, 0}, {NULL, 0, NULL, 0, 0, 1}, {NULL, 0, prints + 1, 1, 0, 0}, {NULL, 0, NULL, 0, 0, 0}};
    EACH_REFUSED(status, bsp_steps_close(second, 4, run), looks(run, later));
    return status;
}

static const char text_of_whole[] = "print 0 0 7\nprint 0 0 -8\nprint 0 1 7\nphase 0 parties 5 left 1 spawned 3\n"
                                    "print 1 0 7\nprint 1 0.1 -8\nphase 1 parties 5 left 1 spawned 1\narray a 6 20\narray b 7\nlimit 2\n";

static void reads(void) {
    struct bsp_steps run = {0};
    WANT(whole(&run) == BSP_STEPS_LIMIT);
    /* live: 0, 0.1, 0.2 (spawned in step 1), 1.0 */
    struct bsp_origin want_origin[4] = {{0, 0, false}, {2, 0, false}, {0, 0, true}, {3, 0, false}};
    for (size_t i = 0; i < 4; i++) {
        struct bsp_origin origin = {99, 99, false};
        WANT(bsp_steps_origin(&run, i, &origin) == 0 && origin.place == want_origin[i].place && origin.number == want_origin[i].number
             && origin.spawned == want_origin[i].spawned);
    }
    struct bsp_print print;
    struct bsp_path path;
    struct bsp_record record;
    WANT(bsp_steps_print(&run, 4, &print, &path) == 0 && print.step == 1 && print.value == -8 && path.len == 2 && path.at[1] == 1);
    WANT(bsp_steps_print(&run, 5, &print, &path) == BSP_STEPS_NONE);
    WANT(bsp_steps_record(&run, 0, &record) == 0 && record.phase == 0 && record.parties == 5 && record.left == 1 && record.spawned == 3);
    WANT(bsp_steps_record(&run, 2, &record) == BSP_STEPS_NONE);
    size_t len = sizeof text_of_whole - 1, bytes = 0;
    for (size_t room = 0; room <= len + 1; room++) {
        uint8_t *out = (uint8_t *)malloc(room + 1);
        if (!out) exit(6);
        out[room] = 0xa5;
        int32_t status;
        EACH_REFUSED(status, bsp_steps_report(&run, out, room, &bytes), bytes == 0);
        WANT(bytes == len && out[room] == 0xa5 && status == (room < len ? BSP_STEPS_SHORT : BSP_STEPS_DONE));
        WANT(status || !memcmp(out, text_of_whole, len));
        free(out);
    }
    WANT(bsp_steps_free(&run) == BSP_STEPS_DONE);
}

/* Random runs, each beside a model: what tasks are, and what lands. */
enum { MODEL_TASKS = 40, MODEL_ROOM = 400, MODEL_CELLS = 24, MODEL_PUTS = 20, MODEL_STEPS = 30, MODEL_PRINTS = 2 * MODEL_TASKS * MODEL_STEPS };

struct model_task {
    uint16_t path[8];
    size_t len;
    uint32_t begun;
    struct bsp_origin origin;
};

struct model_print {
    uint16_t path[8];
    size_t len;
    struct bsp_print is;
};

static struct model_task model[MODEL_ROOM], after[MODEL_ROOM];
static struct model_print model_prints[MODEL_PRINTS];
static size_t model_live, model_printed;
static uint32_t model_step;
static int32_t model_status;
static int64_t model_cells[2][MODEL_CELLS];
static uint32_t seed;

static uint32_t pick(uint32_t below) {
    seed = seed * 1664525u + 1013904223u;
    return (uint32_t)(((uint64_t)(seed >> 8) * below) >> 24);
}

static int by_path(const void *one, const void *other) {
    const struct model_task *a = (const struct model_task *)one, *b = (const struct model_task *)other;
    for (size_t i = 0; i < a->len && i < b->len; i++)
        if (a->path[i] != b->path[i]) return a->path[i] < b->path[i] ? -1 : 1;
    return a->len < b->len ? -1 : a->len > b->len;
}

/* the fault of the first task that has one, by what it does alone: its number */
static uint32_t own_fault(const struct bsp_deed *deeds, size_t *who) {
    for (*who = 0; *who < model_live; ++*who) {
        const struct bsp_deed *deed = &deeds[*who];
        if (deed->ending >= 16) return deed->ending;
        for (size_t k = 0; k < deed->put_count; k++)
            if (deed->puts[k].array > 1 || deed->puts[k].index >= MODEL_CELLS) return 3;
        if (deed->spawns && model[*who].len == 8) return 5;
    }
    return 0;
}

/* the fault of a sum, else all puts land */
static uint32_t lands(const struct bsp_deed *deeds, size_t *who) {
    int64_t cells[2][MODEL_CELLS];
    memcpy(cells, model_cells, sizeof cells);
    for (*who = 0; *who < model_live; ++*who)
        for (size_t k = 0; k < deeds[*who].put_count; k++) {
            struct bsp_put put = deeds[*who].puts[k];
            int64_t *cell = &cells[put.array][put.index];
            if (!put.adds) *cell = put.value;
            else if (__builtin_add_overflow(*cell, put.value, cell)) return 8;
        }
    memcpy(model_cells, cells, sizeof cells);
    return 0;
}

/* the next live tasks */
static size_t next_live(const struct bsp_deed *deeds) {
    size_t count = 0;
    for (size_t i = 0; i < model_live; i++) {
        for (uint16_t k = 0; k < deeds[i].spawns; k++) {
            struct model_task *child = &after[count++];
            *child = model[i];
            child->path[child->len++] = (uint16_t)(model[i].begun + k);
            child->begun = 0;
            struct bsp_origin origin = {i, k, true};
            child->origin = origin;
        }
        if (deeds[i].ending) continue;
        struct bsp_origin origin = {i, 0, false};
        after[count] = model[i];
        after[count].begun += deeds[i].spawns;
        after[count++].origin = origin;
    }
    qsort(after, count, sizeof *after, by_path);
    return count;
}

/* what the live tasks print */
static void prints_of(const struct bsp_deed *deeds) {
    for (size_t i = 0; i < model_live; i++)
        for (size_t k = 0; k < deeds[i].print_count; k++) {
            struct model_print *it = &model_prints[model_printed++];
            memcpy(it->path, model[i].path, sizeof it->path);
            it->len = model[i].len, it->is.step = model_step, it->is.value = deeds[i].prints[k];
        }
}

static void same_print(struct bsp_steps *run, size_t i) {
    struct bsp_print print;
    struct bsp_path path;
    WANT(bsp_steps_print(run, i, &print, &path) == 0 && print.step == model_prints[i].is.step && print.value == model_prints[i].is.value
         && path.len == model_prints[i].len && !memcmp(path.at, model_prints[i].path, path.len * sizeof *path.at));
}

/* the steps, live tasks, prints and cells are those of the model */
static bool same(struct bsp_steps *run) {
    struct bsp_look look = {model_step, model_status, model_live, 2, model_printed, model_step};
    long before = wrong;
    WANT(looks(run, look));
    for (size_t i = 0; i < model_printed; i += 1 + model_printed / 4) same_print(run, i);
    if (model_printed) same_print(run, model_printed - 1);
    for (size_t i = 0; i < model_live; i++) {
        struct bsp_path path;
        struct bsp_origin origin;
        WANT(bsp_steps_path(run, i, &path) == 0 && path.len == model[i].len && !memcmp(path.at, model[i].path, path.len * sizeof *path.at));
        WANT(bsp_steps_origin(run, i, &origin) == 0 && origin.place == model[i].origin.place && origin.number == model[i].origin.number
             && origin.spawned == model[i].origin.spawned);
    }
    for (size_t a = 0; a < 2; a++) {
        struct bsp_cells cells;
        WANT(bsp_steps_cells(run, a, &cells) == 0 && cells.len == MODEL_CELLS && !memcmp(cells.at, model_cells[a], sizeof model_cells[a]));
    }
    return wrong == before;
}

static void random_deed(struct bsp_deed *deed, struct bsp_put *puts, const int64_t *prints, bool calm) {
    deed->puts = puts, deed->put_count = pick(pick(3) ? 5 : MODEL_PUTS + 1), deed->prints = prints, deed->print_count = pick(3);
    for (size_t k = 0; k < deed->put_count; k++) {
        int64_t value = (int64_t)pick(2000) - 1000;
        struct bsp_put put = {(uint16_t)pick(2), (uint16_t)pick(2), pick(MODEL_CELLS), pick(9) ? value : value * (INT64_MAX / 1001)};
        if (!calm && !pick(300)) put.index = MODEL_CELLS + pick(2) * 4000000000u;
        /* often a row: the cell after the last one */
        bool ends = k == 0 || puts[k - 1].index >= (uint32_t)MODEL_CELLS - (calm || pick(20) ? 1 : 0);
        if (!ends && pick(20)) put.array = puts[k - 1].array, put.index = puts[k - 1].index + 1, put.adds = !pick(40);
        puts[k] = put;
    }
    deed->spawns = (uint16_t)(pick(4) ? 0 : 1 + pick(2));
    deed->ending = (uint8_t)(pick(4) ? BSP_GOES_ON : BSP_STOPS);
    if (!calm && !pick(200)) deed->ending = (uint8_t)(16 + pick(240));
}

/* A reader of packed deeds, written from bsp_steps.h: how many bytes the item takes that begins here, 0 if none does. */
static uint64_t number_at(const uint8_t *at, int bytes) {
    uint64_t number = 0;
    for (int i = bytes; i-- > 0;) number = number << 8 | at[i];
    return number;
}

static size_t item_at(const uint8_t *at, size_t left) {
    static const size_t sizes[5] = {4, 15, 15, 11, 9};
    if (left == 0 || at[0] > 4 || left < sizes[at[0]]) return 0;
    if (at[0] == 0) return at[1] > 1 && at[1] < 16 ? 0 : 4;
    if (at[0] != 3) return sizes[at[0]];
    uint64_t first = number_at(at + 3, 4), count = number_at(at + 7, 4);
    return count == 0 || first + count > (uint64_t)1 << 32 || (left - 11) / 8 < count ? 0 : 11 + 8 * (size_t)count;
}

/* the first place where blocks can't be read; false if there is none */
static bool unread_at(const struct bsp_block *blocks, size_t count, struct bsp_unread *place) {
    for (place->block = 0; place->block < count; place->block++) {
        const struct bsp_block *block = &blocks[place->block];
        bool open = false;
        for (place->byte = 0; place->byte < block->len || open;) {
            size_t taken = item_at(block->at + place->byte, block->len - place->byte);
            if (!taken) return true;
            open = block->at[place->byte] != 0;
            place->byte += taken;
        }
    }
    return false;
}

enum { MODEL_BYTES = MODEL_TASKS * (MODEL_PUTS * 15 + 2 * 9 + 4) };

/* The deeds as bytes in up to three blocks, each in memory of its own; the number of the blocks. */
static size_t pack(const struct bsp_deed *deeds, struct bsp_block *blocks) {
    static uint8_t bytes[MODEL_BYTES];
    size_t count = 1 + pick(3), deed = 0;
    for (size_t i = 0; i < count; i++) {
        size_t len = 0, end = i + 1 == count ? model_live : deed + pick((uint32_t)(model_live - deed + 1));
        for (; deed < end; deed++) {
            struct bsp_out out = {(struct bsp_put *)(uintptr_t)deeds[deed].puts, deeds[deed].put_count, 0, (int64_t *)(uintptr_t)deeds[deed].prints,
                                  deeds[deed].print_count, 0, deeds[deed].spawns, false};
            size_t needed = bsp_out_pack(&out, deeds[deed].ending, bytes + len, 0);
            WANT(bsp_out_pack(&out, deeds[deed].ending, bytes + len, needed - 1) == needed);
            WANT(bsp_out_pack(&out, deeds[deed].ending, bytes + len, sizeof bytes - len) == needed);
            len += needed;
        }
        uint8_t *at = (uint8_t *)malloc(len);
        if (!at && len) exit(6);
        if (len) memcpy(at, bytes, len);
        struct bsp_block block = {at, len};
        blocks[i] = block;
    }
    return count;
}

static long misread;

/* Bytes that are changed are read as the reader here reads them, or refused at the same place, and then nothing is changed. */
static void changed(struct bsp_steps *run, struct bsp_block *blocks, size_t count) {
    struct bsp_unread want_place, place = {7, 7};
    for (int i = 0; i < 3; i++) {
        struct bsp_block *block = &blocks[pick((uint32_t)count)], whole = *block;
        if (!block->len) continue;
        size_t at = pick((uint32_t)block->len);
        uint8_t *byte = (uint8_t *)(uintptr_t)block->at + at, was = *byte;
        if (pick(2)) block->len = at;
        else *byte = (uint8_t)(pick(2) ? pick(256) : pick(6));
        if (unread_at(blocks, count, &want_place)) {
            misread++;
            WANT(bsp_steps_close_packed(blocks, count, run, &place) == BSP_STEPS_UNREAD);
            WANT(place.block == want_place.block && place.byte == want_place.byte);
            WANT(same(run));
        }
        *block = whole, *byte = was;
    }
}

/* The same close by packed deeds. */
static int32_t close_packed(struct bsp_steps *run, const struct bsp_deed *deeds) {
    struct bsp_block blocks[3] = {{NULL, 0}};
    struct bsp_unread place = {7, 7};
    size_t count = pack(deeds, blocks);
    changed(run, blocks, count);
    int32_t status;
    EACH_REFUSED(status, bsp_steps_close_packed(blocks, count, run, &place), same(run) && place.block == 7);
    WANT(place.block == 7 && place.byte == 7);
    for (size_t i = 0; i < count; i++) free((void *)(uintptr_t)blocks[i].at);
    return status;
}

/* one run; returns the number of the fault that ended it, or 0 */
static uint32_t random_run(bool calm) {
    struct bsp_array arrays[2] = {array("a", model_cells[0], MODEL_CELLS), array("b", model_cells[1], MODEL_CELLS)};
    struct bsp_steps run = {0};
    memset(model_cells, 0, sizeof model_cells);
    model_live = 1 + pick(5), model_printed = 0, model_step = 0, model_status = BSP_STEPS_DONE;
    for (size_t i = 0; i < model_live; i++) {
        struct model_task task = {{(uint16_t)i}, 1, 0, {i, 0, false}};
        model[i] = task;
    }
    WANT(bsp_steps_open(arrays, 2, (uint32_t)model_live, MODEL_TASKS, MODEL_STEPS, &run) == BSP_STEPS_DONE);
    uint32_t fault = 0;
    for (;;) {
        same(&run);
        static struct bsp_put puts[MODEL_TASKS][MODEL_PUTS];
        static struct bsp_deed deeds[MODEL_TASKS];
        const int64_t prints[2] = {model_step, -7};
        for (size_t i = 0; i < model_live; i++) random_deed(&deeds[i], puts[i], prints, calm);
        size_t who = 0;
        int32_t status;
        if (pick(2)) status = close_packed(&run, deeds);
        else EACH_REFUSED(status, bsp_steps_close(deeds, model_live, &run), same(&run));
        fault = own_fault(deeds, &who);
        size_t next = fault ? 0 : next_live(deeds);
        if (!fault && next > MODEL_TASKS) fault = 7;
        if (!fault) fault = lands(deeds, &who);
        if (fault) {
            uint32_t code = 0;
            struct bsp_path path = {NULL, 0};
            WANT(status == BSP_STEPS_FAULT && bsp_steps_fault(&run, &code, &path) == 0 && code == fault);
            if (fault == 7) WANT(path.len == 0);
            else WANT(path.len == model[who].len && !memcmp(path.at, model[who].path, path.len * sizeof *path.at));
            model_live = 0;
        } else {
            prints_of(deeds);
            memcpy(model, after, next * sizeof *model);
            model_live = next, model_step++;
            WANT(status == (next == 0 ? BSP_STEPS_ENDED : model_step == MODEL_STEPS ? BSP_STEPS_LIMIT : BSP_STEPS_DONE));
        }
        model_status = status;
        if (status != BSP_STEPS_DONE) break;
    }
    same(&run);
    WANT(bsp_steps_free(&run) == BSP_STEPS_DONE);
    return fault;
}

static void random_runs(uint32_t count) {
    uint32_t faults[256] = {0};
    for (uint32_t i = 0; i < count; i++) {
        seed = i * 2654435761u + 1;
        faults[random_run(i % 2)]++;
    }
    uint32_t own = 0;
    for (int code = 16; code < 256; code++) own += faults[code];
    printf("%ld changed blocks were refused\n", misread);
    printf("%u random runs, faults: %u cells, %u depth, %u tasks, %u sums, %u own\n", count, faults[3], faults[5], faults[7], faults[8], own);
}

int main(int argc, char **argv) {
    opens();
    closed();
    unfit();
    faults();
    depth();
    reads();
    packed();
    rows();
    random_runs(argc > 1 ? (uint32_t)atoi(argv[1]) : 1000);
#ifdef WRAPPED
    printf("%ld allocations were refused in turn\n", refused);
#endif
    printf("%ld answers, %ld wrong\n", tried, wrong);
    return wrong != 0;
}
