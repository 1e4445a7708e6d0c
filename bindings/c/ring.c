/* Four tasks in a ring: in each of three supersteps, each takes its neighbour's cell. */
#include "bsp_steps.h"
#include <stdio.h>

int main(void) {
    int64_t start[] = {1, 2, 3, 4};
    struct bsp_array arrays[] = {{(const uint8_t *)"ring", 4, start, 4}};
    struct bsp_steps run = {0};
    struct bsp_out outs[4] = {{0}};
    struct bsp_deed deeds[4];
    struct bsp_cells ring;

    int32_t status = bsp_steps_open(arrays, 1, 4, 4, 1000, &run);
    for (uint32_t step = 0; status == BSP_STEPS_DONE; step++) {
        bsp_steps_cells(&run, 0, &ring);
        for (uint32_t i = 0; i < 4; i++) { /* in any order, on any threads */
            bsp_out_begin(&outs[i]);
            bsp_out_put(&outs[i], 0, i, ring.at[(i + 1) % 4]);
            deeds[i] = bsp_out_deed(&outs[i], step < 2 ? BSP_GOES_ON : BSP_STOPS);
            if (outs[i].failed) return BSP_STEPS_NO_MEMORY;
        }
        status = bsp_steps_close(deeds, 4, &run);
    }

    if (status != BSP_STEPS_ENDED || bsp_steps_cells(&run, 0, &ring)) return 1;
    for (uint32_t i = 0; i < 4; i++) printf("%d ", (int)ring.at[i]);
    puts("");
    for (uint32_t i = 0; i < 4; i++) bsp_out_free(&outs[i]);
    return bsp_steps_free(&run);
}
