// The header in C++: one party after another, and a word that is shared.
#include "bsp_phaser.h"
#include <cstdio>

int main() {
    uint64_t first = 0;
    int32_t now = -1;
    if (bsp_phaser_new(2, 0, &first)) return 1;
    bsp_word word(first);
    if (bsp_shared_arrive(&word, 1, &now) || now != 0) return 1;
    if (bsp_shared_arrive_and_wait(&word, 1) != 0) return 1;
    if (bsp_phaser_phase(bsp_word_get(&word), &now) || now != 1) return 1;
    std::printf("word %016llx\n", (unsigned long long)bsp_word_get(&word));
    return bsp_word_get(&word) != 0x100020002ull;
}
