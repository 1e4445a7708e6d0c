/* Jobs through the library: jobs run|check|upgrade LIMIT reads a text and prints what the program would, with its status;
 * jobs hostile FILE .. tries each text cut at each byte, with a short `out` at each length, and beyond the longest text. */
#include "bsp_job.h"
#include <stdio.h>
#include <stdlib.h>
#include <string.h>

enum { ROOM = 1 << 21, LONGEST = 1048576 };
static uint8_t text[ROOM], out[ROOM], part[ROOM];

enum { CHECK, RUN, UPGRADE, CALLS };
static const char *const names[] = {"check", "run", "upgrade"};

static int32_t ask(int asked, const uint8_t *from, size_t len, uint32_t limit, uint8_t *into, size_t room, struct bsp_told *told) {
    if (asked == RUN) return bsp_run(from, len, limit, into, room, told);
    return (asked == CHECK ? bsp_check : bsp_upgrade)(from, len, into, room, told);
}

static int program(int asked, uint32_t limit) {
    size_t len = fread(text, 1, sizeof text, stdin);
    struct bsp_told told;
    int32_t status = ask(asked, text, len, limit, out, sizeof out, &told);
    if (status == BSP_JOB_REFUSED) fprintf(stderr, "refused line %zu code %u\n", told.line, (unsigned)told.code);
    else if (status != BSP_JOB_SHORT) fwrite(out, 1, told.bytes, stdout);
    return status;
}

/* the statuses of a text that isn't too short of room */
static int is_status(int32_t status, int asked) { return status == 0 || status == 4 || (asked == RUN && (status == 2 || status == 3)); }

static long tried, wrong;
static void want(int holds) { wrong += !holds, tried++; }

/* in a block of its own, so that a byte too far is seen */
static int32_t call(int asked, const uint8_t *bytes, size_t len, size_t room, uint8_t *to, struct bsp_told *told) {
    uint8_t *from = malloc(len + 1), *into = malloc(room + 1);
    if (!from || !into) exit(6);
    memcpy(from, bytes, len);
    memset(into, 0xa5, room + 1);
    int32_t status = ask(asked, from, len, 20, into, room, told);
    want(into[room] == 0xa5);
    if (is_status(status, asked) && status != 4) memcpy(to, into, told->bytes);
    free(from);
    free(into);
    return status;
}

static void hostile(const char *name) {
    FILE *file = fopen(name, "rb");
    if (!file) exit(8);
    size_t len = fread(text, 1, LONGEST, file);
    fclose(file);
    struct bsp_told told, again;
    for (size_t cut = 0; cut <= len; cut++)
        for (int asked = 0; asked < CALLS; asked++) {
            int32_t status = call(asked, text, cut, 1 << 16, out, &told);
            want(is_status(status, asked) && (status == 4) == (told.line > 0) && (status == 4) == (told.code > 0));
        }
    for (int asked = 0; asked < CALLS; asked++) {
        int32_t status = call(asked, text, len, 1 << 16, out, &told);
        for (size_t room = 0; status != 4 && room <= told.bytes; room++) {
            int32_t found = call(asked, text, len, room, part, &again);
            want(again.bytes == told.bytes && found == (room < told.bytes ? BSP_JOB_SHORT : status));
        }
        want(!memcmp(out, part, told.bytes));
    }
    want(bsp_run(text, len, 0, out, sizeof out, &told) == BSP_JOB_NO_LIMIT && told.bytes == 0);
}

int main(int argc, char **argv) {
    for (int asked = 0; argc == 3 && asked < CALLS; asked++)
        if (!strcmp(argv[1], names[asked])) return program(asked, (uint32_t)strtoul(argv[2], 0, 10));
    for (int i = 2; i < argc; i++) hostile(argv[i]);
    struct bsp_told told;
    memset(text, '\n', sizeof text);
    memcpy(text, "bsp 1", 5);
    want(bsp_check(text, LONGEST, out, sizeof out, &told) == 0 && told.bytes == 6);
    want(bsp_upgrade(text, LONGEST, out, sizeof out, &told) == 0 && told.bytes == 6 && out[4] == '2');
    want(bsp_check(text, LONGEST + 1, out, sizeof out, &told) == 4 && told.line == 1 && told.code == 1);
    for (int byte = 0; byte < 256; byte++) {
        text[5] = (uint8_t)byte;
        want(bsp_run(text, 6, 1, out, sizeof out, &told) == (byte == 10 || byte == 32 ? 0 : 4));
    }
    /* a length of 0 with no pointer */
    want(bsp_check(0, 0, 0, 0, &told) == BSP_JOB_REFUSED && told.line == 1 && told.code == 3);
    want(bsp_upgrade(0, 0, out, sizeof out, &told) == BSP_JOB_REFUSED && told.line == 1 && told.code == 3);
    memcpy(text, "bsp 1", 5);
    want(bsp_run(text, 5, 1, 0, 0, &told) == BSP_JOB_SHORT && told.bytes == 8);
    printf("%ld calls, %ld wrong\n", tried, wrong);
    return wrong != 0;
}
