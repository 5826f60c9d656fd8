/* A convolution of 32 coefficients, with the window read backwards, as convolution.str. */
#include <stdint.h>
#include <stdio.h>
#include <stdlib.h>

enum { COUNT = 512, TAPS = 32 };

int main(int argc, char **argv) {
    long rounds = argc > 1 ? atol(argv[1]) : 0;
    static int32_t items[COUNT + TAPS - 1];
    int32_t h[TAPS];
    uint32_t x = 0;
    int32_t sum = 0;
    for (int i = 0; i < TAPS; i++)
        h[i] = (i + 1) * (TAPS - i);
    int have = 0;
    for (long round = 0; round < rounds; round++) {
        for (; have < COUNT + TAPS - 1; have++) {
            x = (x * 1103515245u + 12345u) & 2147483647u;
            items[have] = (int32_t)(x >> 16) - 16384;
        }
        for (int k = 0; k < COUNT; k++) {
            uint32_t total = 0;
            for (int i = 0; i < TAPS; i++)
                total += (uint32_t)h[i] * (uint32_t)items[k + TAPS - 1 - i];
            sum = (int32_t)(((uint32_t)sum * 31u + (uint32_t)((int32_t)total >> 10)) & 8388607u);
        }
        for (int i = 0; i < TAPS - 1; i++)
            items[i] = items[COUNT + i];
        have = TAPS - 1;
        printf("%d\n", sum);
    }
    return 0;
}
