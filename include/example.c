/* The README's hand, asked and told in words. */
#include <stdio.h>

#include "lastavon.h"

/* The ranks of a suit before its letter, as in 19m1p; - where there is none. */
static void print_tiles(const char *name, uint64_t set)
{
    unsigned i;
    printf("  %s %s", name, set == 0 ? "-" : "");
    for (i = 0; i < LASTAVON_TILES; i++) {
        uint64_t after = set >> i >> 1 & ((1u << (8 - i % 9)) - 1); /* what follows in the same suit */
        if (lastavon_has(set, i)) {
            printf("%u", i % 9 + 1);
            if (after == 0)
                printf("%c", "mpsz"[i / 9]);
        }
    }
}

int main(void)
{
    uint8_t counts[LASTAVON_TILES] = {0};
    uint64_t words[LASTAVON_WORDS];
    unsigned code;

    counts[7] = counts[8] = 1; /* 8m 9m */
    counts[9] = 1;             /* 1p */
    counts[27] = 2;            /* 1z 1z */
    code = lastavon_hand(counts, LASTAVON_TILES, 1, 4, words, LASTAVON_WORDS);
    if (code != LASTAVON_ANSWERED) {
        printf("refused: %u, index %u\n", code, lastavon_index(words[0]));
        return 1;
    }
    printf("89m1p11z  k 1  game 4  number %u", lastavon_number(words[0]));
    print_tiles("necessary", words[1]);
    print_tiles("unnecessary", words[2]);
    printf("  kinds %u  live %u\n", lastavon_kinds(words[0]), lastavon_live(words[0]));
    return 0;
}
