/* Any number gets a status: what the calls tell of it is compared with the fields of the word, written anew in C, over
 * numbers at the edges of each field and over a million others. */
#include "bsp_phaser.h"
#include <stdio.h>

static long wrong;
static void want(int holds) { wrong += !holds; }

static void calls(uint64_t w) {
    uint32_t unarrived = w & 65535, parties = w >> 16 & 65535, phase = w >> 32 & 0x7fffffff, ended = w >> 63;
    int is_word = unarrived <= parties;
    int32_t shown = (int32_t)((int64_t)phase - (ended ? 2147483648ll : 0));
    int32_t a = 77, s;
    uint64_t next = 77;
    s = bsp_phaser_phase(w, &a), want(s == !is_word && a == (is_word ? shown : 0));
    s = bsp_phaser_parties(w, &a), want(s == !is_word && a == (is_word ? (int32_t)parties : 0));
    s = bsp_phaser_arrived(w, &a), want(s == !is_word && a == (is_word ? (int32_t)(parties - unarrived) : 0));
    s = bsp_phaser_unarrived(w, &a), want(s == !is_word && a == (is_word ? (int32_t)unarrived : 0));
    s = bsp_phaser_ended(w, &a), want(s == !is_word && a == (is_word ? (int32_t)ended : 0));
    for (int leaves = 0; leaves < 2; leaves++) {
        uint32_t least = 3, at = phase % 5 ? BSP_NEVER : phase, left = parties - (uint32_t)leaves;
        s = (leaves ? bsp_phaser_leave : bsp_phaser_arrive)(w, least, at, &next, &a);
        if (!is_word) want(s == 1 && next == w && a == 0);
        else if (ended) want(s == 0 && next == w && a == shown);
        else if (unarrived == 0) want(s == 5 && next == w && a == 0);
        else if (unarrived > 1) want(s == 0 && next == w - 1 - (leaves ? 65536u : 0) && a == shown);
        else {
            uint64_t ends = left < least || at == phase, after = phase == 0x7fffffff ? 0 : phase + 1;
            want(s == 0 && a == shown && next == (ends << 63 | after << 32 | (uint64_t)left << 16 | left));
        }
    }
    static const int64_t counts[] = {0, 1, 2, 65535, 65536, INT64_MAX, -1, INT64_MIN};
    for (unsigned i = 0; i < sizeof counts / sizeof *counts; i++) {
        int64_t n = counts[i];
        s = bsp_phaser_register(w, n, &next, &a);
        if (!is_word) want(s == 1 && next == w && a == 0);
        else if (n < 0) want(s == 6 && next == w && a == 0);
        else if (ended) want(s == 0 && next == w && a == shown);
        else if (n > 65535 - (int64_t)parties) want(s == 4 && next == w && a == 0);
        else want(s == 0 && next == w + (uint64_t)n * 65537u && a == shown);
    }
    int32_t asked[] = {0, -1, INT32_MIN, INT32_MAX, (int32_t)phase, (int32_t)phase ^ 1};
    for (unsigned i = 0; i < sizeof asked / sizeof *asked; i++) {
        s = bsp_phaser_await(w, asked[i], &a);
        if (!is_word) want(s == 1 && a == 0);
        else if (asked[i] < 0) want(s == 0 && a == asked[i]);
        else if (ended || asked[i] != (int32_t)phase) want(s == 0 && a == shown);
        else want(s == 2 && a == 0);
    }
    s = bsp_phaser_force(w, &next, &a);
    if (!is_word) want(s == 1 && next == w && a == 0);
    else want(s == 0 && next == (w | 1ull << 63) && a == (int32_t)((int64_t)phase - 2147483648ll));
}

int main(void) {
    static const uint64_t edge[] = {0, 1, 2, 3, 4, 32767, 32768, 65534, 65535};
    static const uint64_t phases[] = {0, 1, 5, 2147483646, 2147483647};
    long tried = 0;
    for (unsigned u = 0; u < 9; u++)
        for (unsigned p = 0; p < 9; p++)
            for (unsigned f = 0; f < 5; f++)
                for (uint64_t e = 0; e < 2; e++, tried++) calls(e << 63 | phases[f] << 32 | edge[p] << 16 | edge[u]);
    uint64_t x = 88172645463325252u;
    for (int i = 0; i < 1000000; i++, tried++) {
        x ^= x << 13, x ^= x >> 7, x ^= x << 17;
        calls(i % 2 ? x : (x & ~0xffffu) | (x >> 16 & x & 65535));
    }
    static const int64_t counts[] = {INT64_MIN, -1, 0, 1, 65535, 65536, INT64_MAX};
    static const uint32_t first[] = {0, 1, 2147483647u, 2147483648u, UINT32_MAX};
    for (unsigned c = 0; c < 7; c++)
        for (unsigned f = 0; f < 5; f++, tried++) {
            uint64_t w = 77;
            int32_t s = bsp_phaser_new(counts[c], first[f], &w);
            if (first[f] > 2147483647u) want(s == 1 && w == 77);
            else if (counts[c] < 0 || counts[c] > 65535) want(s == 3 && w == 77);
            else want(s == 0 && w == ((uint64_t)first[f] << 32) + (uint64_t)counts[c] * 65537u);
        }
    printf("%ld numbers, %ld wrong\n", tried, wrong);
    return wrong != 0;
}
