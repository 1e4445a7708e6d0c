/* bsp_job.h: jobs of the task language as texts (docs/LANGUAGE.md, docs/FORMATS.md).
 *
 * Proved: the three calls, which are in the libraries libbsp_job.a and libbsp.so; nothing is inline here. They allocate
 * by the program's malloc, realloc and free, and free everything. docs/EMBEDDING.md says how to link.
 *
 * What is promised, for any bytes of any length:
 *   a text is one job, or is refused at its first fault, by line and code (status 4);
 *   bsp_check, status 0: the first `told->bytes` bytes of `out` are the canonical text of the job that the text is;
 *   bsp_upgrade, status 0: they are that of this job in format 2;
 *   bsp_run, status 0, 2 and 3: they are the text of the report of what that job leaves within the limit, as the
 *   program `bsp run` prints it, and the status is that report's;
 *   6: memory ran out; never for a text that is too long, has a byte that isn't allowed, or lacks the header;
 *   10: `out` is too short for that text, which is `told->bytes` bytes long;
 *   the bytes of `out` beyond the text may change, and at 4, 5, 6 and 10 all of them may;
 *   a field of `told` that a status doesn't need is 0: `line` and `code` except at 4, `bytes` at 4, 5 and 6. Nothing
 *   halts; every call returns.
 *
 * The caller ensures that `text` points to `text_len` bytes, `out` to `out_len` bytes (any pointer, also NULL, if the
 * number is 0) and `told` to one object, none of which overlap or are used by others during the call; that malloc,
 * realloc and free are those of one allocator; and that no call is made from a signal handler, or in the child of a
 * process with threads. Calls may run on any threads at once. */
#ifndef BSP_JOB_H
#define BSP_JOB_H

#include <stddef.h>
#include <stdint.h>

#ifdef __cplusplus
extern "C" {
#endif

/* What a call returns beside its status: the length of the text that was, or would have been, put into `out`; the line
 * of a refusal, from 1, and its code, from 1. */
struct bsp_told {
    size_t bytes;
    size_t line;
    uint32_t code;
};

/* the statuses: those of the program, and one */
enum {
    BSP_JOB_ENDED = 0,
    BSP_JOB_FAULT = 2,
    BSP_JOB_LIMIT = 3,
    BSP_JOB_REFUSED = 4,
    BSP_JOB_NO_LIMIT = 5,
    BSP_JOB_NO_MEMORY = 6,
    BSP_JOB_SHORT = 10
};

/* Puts the canonical text of a job into `out`: 0, 4, 6 or 10. */
int32_t bsp_check(const uint8_t *text, size_t text_len, uint8_t *out, size_t out_len, struct bsp_told *told);

/* Puts the canonical text of the job in format 2, which means the same, into `out`: 0, 4, 6 or 10. */
int32_t bsp_upgrade(const uint8_t *text, size_t text_len, uint8_t *out, size_t out_len, struct bsp_told *told);

/* Runs a job on the caller's thread, within this limit of supersteps, and puts the text of its report into `out`: 0
 * if it ended, 2 if a task faulted, 3 if the limit was reached with live tasks; 4, 6, 10; 5 for a limit of 0, without
 * a look at the text. */
int32_t bsp_run(const uint8_t *text, size_t text_len, uint32_t limit, uint8_t *out, size_t out_len, struct bsp_told *told);

#ifdef __cplusplus
}
#endif
#endif
