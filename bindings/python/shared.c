/* The loops of bsp_phaser.h as functions of libbsp.so, for languages that have no compare-and-swap, such as Python: a
 * word in memory that processes share. And the sum of bsp_steps.h. NOT proved, as all that is inline there. */
#define BSP_WORD_BETWEEN_PROCESSES
#include "bsp_phaser.h"
#include "bsp_steps.h"
#include <time.h>

#if defined(__linux__)
/* sleeps while phase and end are as they were seen, but no longer than this, and not beyond a signal */
static void sleep_for(bsp_word *word, uint64_t seen, uint32_t milliseconds) {
    struct timespec time = {milliseconds / 1000, (long)(milliseconds % 1000) * 1000000};
    (void)syscall(SYS_futex, bsp_word_phase_(word), 0, (uint32_t)(seen >> 32), &time);
}
#else
static void sleep_for(bsp_word *word, uint64_t seen, uint32_t milliseconds) {
    (void)word, (void)seen, (void)milliseconds;
    BSP_YIELD();
}
#endif

uint64_t bsp_process_sum(struct bsp_steps *slot) { return bsp_steps_sum(slot); }

uint64_t bsp_process_get(bsp_word *word) { return bsp_word_get(word); }
void bsp_process_set(bsp_word *word, uint64_t value) { bsp_word_set(word, value); }

/* One party arrives. Its index is parties - 1 for the first to arrive and 0 for the last; after the end it is -1. */
int32_t bsp_process_arrive(bsp_word *word, uint32_t least, int32_t *answer, int32_t *index) {
    uint64_t old = bsp_word_get(word), next;
    for (;;) {
        int32_t unarrived, status = bsp_phaser_arrive(old, least, BSP_NEVER, &next, answer);
        (void)bsp_phaser_unarrived(old, &unarrived);
        *index = *answer < 0 ? -1 : unarrived - 1;
        if (status != BSP_DONE || bsp_word_exchange_(word, &old, next)) return status;
    }
}

int32_t bsp_process_leave(bsp_word *word, uint32_t least, int32_t *answer) { return bsp_shared_leave(word, least, answer); }
int32_t bsp_process_register(bsp_word *word, int64_t count, int32_t *answer) { return bsp_shared_register(word, count, answer); }
int32_t bsp_process_force(bsp_word *word, int32_t *answer) { return bsp_shared_force(word, answer); }

/* Waits until this phase is over, as bsp_shared_await does, or returns BSP_WAITING after so many milliseconds or a signal. */
int32_t bsp_process_await(bsp_word *word, int32_t phase, uint32_t milliseconds, int32_t *answer) {
    for (unsigned turn = 0;; turn++) {
        uint64_t seen = bsp_word_get(word);
        int32_t status = bsp_phaser_await(seen, phase, answer);
        if (status != BSP_WAITING || turn > 80) return status;
        if (turn == 80) sleep_for(word, seen, milliseconds);
        else if (turn >= 60) BSP_YIELD();
    }
}
