#include <stdint.h>
#include <stdio.h>
#include <stdlib.h>
#include <string.h>

enum { TAPS = 64, DECIMATION = 4, ROOM = 4096 };

int main(int argc, char **argv) {
    long rounds = atol(argv[1]);
    int32_t weight[TAPS], signal[ROOM], first = 0, last = 0, sum = 0, seen = 0;
    uint32_t x = 0;
    (void)argc;
    for (int32_t i = 0; i < TAPS; i++)
        weight[i] = (i + 1) * (TAPS - i);
    for (long r = 0; r < rounds; r++) {
        if (first + TAPS > ROOM) {
            last -= first;
            memmove(signal, signal + first, last * sizeof *signal);
            first = 0;
        }
        while (last < first + TAPS) {
            x = (x * 1103515245 + 12345) & 2147483647;
            signal[last++] = (int32_t)(x >> 16) - 16384;
        }
        int32_t total = 0;
        for (int32_t i = 0; i < TAPS; i++)
            total += signal[first + i] * weight[i];
        first += DECIMATION;
        sum = (sum * 31 + (total >> 15)) & 8388607;
        seen++;
        if (seen == 1000) {
            printf("%d\n", sum);
            seen = 0;
        }
    }
    return 0;
}
