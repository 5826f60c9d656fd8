#include <stdint.h>
#include <stdio.h>
#include <stdlib.h>

int main(int argc, char **argv) {
    long rounds = atol(argv[1]);
    int32_t table[256], other = 0, here = 0, there = 0, sum = 0, seen = 0;
    (void)argc;
    for (int32_t at = 0; at < 256; at++)
        table[at] = at;
    for (int32_t at = 0; at < 256; at++) {
        int32_t kept = table[at];
        other = (other + kept + at * 7) & 255;
        table[at] = table[other];
        table[other] = kept;
    }
    for (long r = 0; r < rounds; r++) {
        int32_t word = 0;
        for (int32_t turn = 0; turn < 32; turn++) {
            here = (here + 1) & 255;
            int32_t first = table[here];
            there = (there + first) & 255;
            int32_t second = table[there];
            table[here] = second;
            table[there] = first;
            word = ((word << 1) ^ table[(first + second) & 255]) & 65535;
        }
        sum = (sum * 31 + word) & 8388607;
        seen++;
        if (seen == 1000) {
            printf("%d\n", sum);
            seen = 0;
        }
    }
    return 0;
}
