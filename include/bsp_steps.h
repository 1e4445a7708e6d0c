/* bsp_steps.h: supersteps whose tasks you run yourself (docs/EMBEDDING.md, "Supersteps in your language").
 *
 * You run the segment of each live task, in your language and on your threads, and tell what each task left. The library lands
 * the puts, orders the prints, counts, and says which tasks live next. The result is the same on any number of threads.
 *
 * Proved: the calls, which are in the libraries libbsp_steps.a and libbsp.so. Not proved: the functions that are inline here.
 *
 * What is promised, for any numbers and slices:
 *   bsp_steps_close, status 0 to 3: the run is one superstep further, in which each live task left exactly what its deed says.
 *   A put to no cell is fault 3 of its task, a spawn by a task whose path has 8 numbers is fault 5, a task's 65536th spawn
 *   fault 6, too many live tasks fault 7, a sum outside of 64 signed bits fault 8. Of one deed, its own fault comes first, then
 *   3, 5 and 6; of several tasks, that of the first task; then 7, then 8. After a fault nothing of its superstep counts, and no
 *   task is live; at the limit the tasks stay live;
 *   At open: 8, else 5, else 14, else 4, in exactly that case; then nothing is opened, and nothing was allocated for an array that
 *   is too large. At close: 7, else 12, else 11, in exactly that case, and nothing is changed. 13: in exactly that case;
 *   6: memory ran out. At open nothing is open then; at close nothing is changed, and the same close can be called again;
 *   7: nothing is open; 9: there is no array, task, print, record or fault of this number; what the call tells is left alone;
 *   10: `out` is too short for the text, which is `*bytes` long; the bytes of `out` may change.
 *   Nothing halts; every call returns. None allocates for each put alone: buffers grow, and are kept from one close to the next.
 *
 * The caller ensures that a slot is `{0}` before it is opened for the first time, is never copied or written, and is used by one
 * call at a time; that pointers point to as many values as it says (any pointer, also NULL, if the number is 0), which don't
 * overlap with what a call writes; and that malloc, realloc and free are those of one allocator. What a call
 * lends is there, and stays as it is, until the next close or free of that slot, and any number of threads may read it meanwhile.
 * (The calls' contracts say so until the next call with that slot, and that calls that look or lend leave the run as it is; that they
 * move nothing is tested.) */
#ifndef BSP_STEPS_H
#define BSP_STEPS_H

#include <stdbool.h>
#include <stddef.h>
#include <stdint.h>
#include <stdlib.h>

#ifdef __cplusplus
extern "C" {
#endif

/* the statuses */
enum {
    BSP_STEPS_DONE = 0,      /* done; of a close: the run goes on */
    BSP_STEPS_ENDED = 1,     /* no task lives on */
    BSP_STEPS_FAULT = 2,     /* a fault has ended the run */
    BSP_STEPS_LIMIT = 3,     /* the limit is reached with live tasks */
    BSP_STEPS_REFUSED = 4,   /* an array has another array's name, or over 4294967295 cells */
    BSP_STEPS_TASKS = 5,     /* more start tasks than may live or than 65535, or more may live than 2147483647 */
    BSP_STEPS_NO_MEMORY = 6, /* an allocation failed */
    BSP_STEPS_CLOSED = 7,    /* nothing is open */
    BSP_STEPS_OPEN = 8,      /* the slot is open already */
    BSP_STEPS_NONE = 9,      /* there is none of this number */
    BSP_STEPS_SHORT = 10,    /* `out` is too short */
    BSP_STEPS_UNFIT = 11,    /* the deeds are not as many as the live tasks, or one ends by a number from 2 to 15 */
    BSP_STEPS_OVER = 12,     /* the run was over before */
    BSP_STEPS_GOING = 13,    /* the run isn't over */
    BSP_STEPS_NAME = 14,     /* an array has a name that no array of a job may have */
    BSP_STEPS_UNREAD = 15    /* the bytes aren't packed deeds */
};

/* how a task ends a superstep, or the number of a fault, from 16 to 255 */
enum { BSP_GOES_ON = 0, BSP_STOPS = 1 };

/* a run, in the caller's memory: {0} before it is opened */
struct bsp_steps {
    void *at;
    bool held;
};

/* An array: its name and its cells, which are copied. A name is that of an array of a job: a lower-case letter, and up to 15
 * lower-case letters, digits and underscores, but none of the language's words: add, arg, array, body, bsp, else, end, if, let,
 * print, put, spawn, start, step, stop, sync, while. */
struct bsp_array {
    const uint8_t *name;
    size_t name_len;
    const int64_t *cells;
    size_t len;
};

/* a put: sets the cell, or adds to it if `adds` is not 0 */
struct bsp_put {
    uint16_t array;
    uint16_t adds;
    uint32_t index;
    int64_t value;
};

/* what a live task left: its puts and prints, in order, how many tasks it spawned, and how it ends */
struct bsp_deed {
    const struct bsp_put *puts;
    size_t put_count;
    const int64_t *prints;
    size_t print_count;
    uint16_t spawns;
    uint8_t ending;
};

/* where a live task comes from: it had this place in the superstep before, or (`spawned`) its spawner had, which had spawned
 * `number` tasks before it in that superstep. A start task has its own place. */
struct bsp_origin {
    size_t place;
    uint16_t number;
    bool spawned;
};

/* How many supersteps were taken; 0 if the run goes on, else 1, 2 or 3 as a close gives it; how many tasks live, and how many
 * arrays, prints and records there are. */
struct bsp_look {
    uint32_t step;
    int32_t status;
    size_t live;
    size_t arrays;
    size_t prints;
    size_t records;
};

struct bsp_print {
    uint32_t step;
    int64_t value;
};

struct bsp_record {
    uint32_t phase;
    uint32_t parties;
    uint32_t left;
    uint32_t spawned;
};

/* what a call lends: cells, and the numbers of a path */
struct bsp_cells {
    const int64_t *at;
    size_t len;
};

struct bsp_path {
    const uint16_t *at;
    size_t len;
};

/* bytes, and a place in blocks of bytes: the block and the byte of it, both from 0 */
struct bsp_block {
    const uint8_t *at;
    size_t len;
};

struct bsp_unread {
    size_t block;
    size_t byte;
};

/* Begins a run of these arrays and of so many start tasks, whose paths are 0, 1 and so on: 0, 4, 5, 6, 8 or 14. At most `most` tasks
 * may live at once, and at most `limit` supersteps are taken. With no start task, or a limit of 0, the run is over at once. */
int32_t bsp_steps_open(const struct bsp_array *arrays, size_t array_count, uint32_t starts, uint32_t most, uint32_t limit, struct bsp_steps *slot);

/* Takes one superstep. There is a deed for each live task, in order. 0 to 3, 6, 7, 11 or 12. */
int32_t bsp_steps_close(const struct bsp_deed *deeds, size_t deed_count, struct bsp_steps *slot);

/* Takes one superstep by packed deeds: bytes in blocks, in order, each of which has the bytes of some deeds, one after another. The
 * numbers below have their low byte first, and values are in two's complement. A deed is items, the last of which is its end:
 *
 *   0, ending (1 byte), spawns (2)                        the end: how the task ends, 0, 1 or from 16 on, and how many it spawned
 *   1, array (2), index (4), value (8)                    a put that sets
 *   2, array (2), index (4), value (8)                    a put that adds
 *   3, array (2), first (4), count (4), so many values    puts that set cells side by side; `count` isn't 0, and first + count is
 *                                                         at most 4294967296
 *   4, value (8)                                          a print
 *
 * 0 to 3, 6, 7, 11 or 12, as bsp_steps_close; or 15 if the bytes are anything else: then `unread` has the block, and the byte of it at
 * which the first item begins that is none of these or goes on past the block; the block's length if a deed isn't ended there. Else
 * `unread` is left alone. At 6, 7, 11, 12 and 15 nothing is changed; 7 comes before 12, then 15 or 6, then 11 or 6. */
int32_t bsp_steps_close_packed(const struct bsp_block *blocks, size_t block_count, struct bsp_steps *slot, struct bsp_unread *unread);

/* Tells what `struct bsp_look` says: 0 or 7. */
int32_t bsp_steps_look(struct bsp_steps *slot, struct bsp_look *look);

/* Lends the cells of an array, the path of a live task, or tells where that comes from: 0, 7 or 9. */
int32_t bsp_steps_cells(struct bsp_steps *slot, size_t array, struct bsp_cells *cells);
int32_t bsp_steps_path(struct bsp_steps *slot, size_t task, struct bsp_path *path);
int32_t bsp_steps_origin(struct bsp_steps *slot, size_t task, struct bsp_origin *origin);

/* The fault that has ended the run, with the path of its task; a print, with that of its task; a record: 0, 7 or 9. */
int32_t bsp_steps_fault(struct bsp_steps *slot, uint32_t *code, struct bsp_path *path);
int32_t bsp_steps_print(struct bsp_steps *slot, size_t place, struct bsp_print *print, struct bsp_path *path);
int32_t bsp_steps_record(struct bsp_steps *slot, size_t place, struct bsp_record *record);

/* Puts the text of the report of a run that is over into `out`, as the program `bsp run` prints it: 0, 6, 7, 10 or 13. `*bytes` is
 * the length of the text, 0 except at 0 and 10. */
int32_t bsp_steps_report(struct bsp_steps *slot, uint8_t *out, size_t out_len, size_t *bytes);

/* Frees the run: 0 or 7. */
int32_t bsp_steps_free(struct bsp_steps *slot);

/* Below: C, not proved. */

/* A sum of 64 bits of what is to be seen of a run: how far it is, its arrays, the paths of its live tasks, its prints and records. Two
 * processes that took the same supersteps have the same sum; if the runs differ, so do the sums, but for chance. 0 if nothing is open. */
static inline uint64_t bsp_steps_mixed(uint64_t sum, uint64_t word) {
    sum = (sum ^ word) * 0x9e3779b97f4a7c15u;
    return sum ^ sum >> 32;
}

static inline uint64_t bsp_steps_sum(struct bsp_steps *slot) {
    struct bsp_look look;
    struct bsp_cells cells;
    struct bsp_path path;
    struct bsp_print print;
    struct bsp_record record;
    if (bsp_steps_look(slot, &look) != BSP_STEPS_DONE) return 0;
    uint64_t sum = bsp_steps_mixed(bsp_steps_mixed(look.arrays, look.step), (uint64_t)look.status);
    sum = bsp_steps_mixed(bsp_steps_mixed(bsp_steps_mixed(sum, look.live), look.prints), look.records);
    for (size_t i = 0; i < look.arrays && bsp_steps_cells(slot, i, &cells) == BSP_STEPS_DONE; i++) {
        sum = bsp_steps_mixed(sum, cells.len);
        for (size_t k = 0; k < cells.len; k++) sum = bsp_steps_mixed(sum, (uint64_t)cells.at[k]);
    }
    for (size_t i = 0; i < look.live && bsp_steps_path(slot, i, &path) == BSP_STEPS_DONE; i++) {
        sum = bsp_steps_mixed(sum, path.len);
        for (size_t k = 0; k < path.len; k++) sum = bsp_steps_mixed(sum, path.at[k]);
    }
    for (size_t i = 0; i < look.prints && bsp_steps_print(slot, i, &print, &path) == BSP_STEPS_DONE; i++) {
        sum = bsp_steps_mixed(bsp_steps_mixed(bsp_steps_mixed(sum, print.step), (uint64_t)print.value), path.len);
        for (size_t k = 0; k < path.len; k++) sum = bsp_steps_mixed(sum, path.at[k]);
    }
    for (size_t i = 0; i < look.records && bsp_steps_record(slot, i, &record) == BSP_STEPS_DONE; i++) {
        sum = bsp_steps_mixed(bsp_steps_mixed(sum, record.phase), record.parties);
        sum = bsp_steps_mixed(bsp_steps_mixed(sum, record.left), record.spawned);
    }
    return sum;
}

/* What a task leaves, in buffers of its own that are kept from one superstep to the next. */
struct bsp_out {
    struct bsp_put *puts;
    size_t put_count, put_room;
    int64_t *prints;
    size_t print_count, print_room;
    uint32_t spawns;
    bool failed; /* memory ran out, or over 65535 spawns: don't close with it */
};

/* Begins a superstep: nothing was left yet. An `out` is {0} at first. */
static inline void bsp_out_begin(struct bsp_out *out) {
    out->put_count = out->print_count = 0;
    out->spawns = 0;
    out->failed = false;
}

static inline void *bsp_out_room(void *at, size_t count, size_t *room, size_t size, bool *failed) {
    if (count < *room) return at;
    size_t next = *room ? 2 * *room : 8;
    void *more = realloc(at, next * size);
    if (!more) {
        *failed = true;
        return at;
    }
    *room = next;
    return more;
}

static inline void bsp_out_push(struct bsp_out *out, uint16_t array, uint16_t adds, uint32_t index, int64_t value) {
    out->puts = (struct bsp_put *)bsp_out_room(out->puts, out->put_count, &out->put_room, sizeof *out->puts, &out->failed);
    if (out->put_count == out->put_room) return;
    struct bsp_put put = {array, adds, index, value};
    out->puts[out->put_count++] = put;
}

/* Sets a cell. */
static inline void bsp_out_put(struct bsp_out *out, uint16_t array, uint32_t index, int64_t value) {
    bsp_out_push(out, array, 0, index, value);
}

/* Adds to a cell. */
static inline void bsp_out_add(struct bsp_out *out, uint16_t array, uint32_t index, int64_t value) {
    bsp_out_push(out, array, 1, index, value);
}

/* Sets cells side by side, from `first` on, to so many values. The library lands such a row as one. */
static inline void bsp_out_row(struct bsp_out *out, uint16_t array, uint32_t first, size_t count, const int64_t *values) {
    for (size_t i = 0; i < count; i++) {
        uint64_t index = (uint64_t)first + i;
        /* no array has a cell of the last number */
        bsp_out_push(out, array, 0, index < UINT32_MAX ? (uint32_t)index : UINT32_MAX, values[i]);
    }
}

/* Prints a value. */
static inline void bsp_out_print(struct bsp_out *out, int64_t value) {
    out->prints = (int64_t *)bsp_out_room(out->prints, out->print_count, &out->print_room, sizeof *out->prints, &out->failed);
    if (out->print_count == out->print_room) return;
    out->prints[out->print_count++] = value;
}

/* Spawns a task, and returns its number: the `number` of its origin after the close. */
static inline uint32_t bsp_out_spawn(struct bsp_out *out) {
    if (out->spawns == 65535) out->failed = true;
    return out->failed ? 0 : out->spawns++;
}

/* The deed of a task that ends so. */
static inline struct bsp_deed bsp_out_deed(const struct bsp_out *out, uint8_t ending) {
    struct bsp_deed deed = {out->puts, out->put_count, out->prints, out->print_count, (uint16_t)out->spawns, ending};
    return deed;
}

/* how many of these puts set cells side by side, from the first on */
static inline size_t bsp_deed_side_by_side(const struct bsp_put *puts, size_t count) {
    size_t n = 1;
    if (puts->adds) return n;
    while (n < count && n < UINT32_MAX && !puts[n].adds && puts[n].array == puts->array && puts[n].index == puts->index + (uint64_t)n) n++;
    return n;
}

static inline uint8_t *bsp_deed_number(uint8_t *to, uint64_t number, int bytes) {
    for (int i = 0; i < bytes; i++) *to++ = (uint8_t)(number >> 8 * i);
    return to;
}

/* Packs a deed into `to`, which has `room` bytes, and returns how many bytes it takes: if that is more than `room`, nothing is written.
 * Puts side by side become rows. */
static inline size_t bsp_deed_pack(const struct bsp_deed *deed, uint8_t *to, size_t room) {
    size_t bytes = 4 + 9 * deed->print_count;
    for (size_t i = 0, n; i < deed->put_count; i += n) {
        n = bsp_deed_side_by_side(deed->puts + i, deed->put_count - i);
        bytes += n == 1 ? 15 : 11 + 8 * n;
    }
    if (bytes > room) return bytes;
    for (size_t i = 0, n; i < deed->put_count; i += n) {
        const struct bsp_put *put = deed->puts + i;
        n = bsp_deed_side_by_side(put, deed->put_count - i);
        *to++ = n > 1 ? 3 : put->adds ? 2 : 1;
        to = bsp_deed_number(bsp_deed_number(to, put->array, 2), put->index, 4);
        if (n > 1) to = bsp_deed_number(to, n, 4);
        for (size_t k = 0; k < n; k++) to = bsp_deed_number(to, (uint64_t)put[k].value, 8);
    }
    for (size_t i = 0; i < deed->print_count; i++) *to++ = 4, to = bsp_deed_number(to, (uint64_t)deed->prints[i], 8);
    *to++ = 0, *to++ = deed->ending;
    bsp_deed_number(to, deed->spawns, 2);
    return bytes;
}

/* The same of the deed of a task that ends so. */
static inline size_t bsp_out_pack(const struct bsp_out *out, uint8_t ending, uint8_t *to, size_t room) {
    struct bsp_deed deed = bsp_out_deed(out, ending);
    return bsp_deed_pack(&deed, to, room);
}

/* Frees its buffers. */
static inline void bsp_out_free(struct bsp_out *out) {
    free(out->puts);
    free(out->prints);
    struct bsp_out none = {NULL, 0, 0, NULL, 0, 0, 0, false};
    *out = none;
}

#ifdef __cplusplus
}
#endif
#endif
