/* An integer cosine transform of 8 items with weights in fixed point, as cosine.str. */
#include <stdint.h>
#include <stdio.h>
#include <stdlib.h>

enum { COUNT = 2048 };

static int32_t weight[64];
static int32_t items[COUNT];
static int32_t given[COUNT];

static void weigh(void) {
    static const int32_t wave[8] = {4096, 4017, 3784, 3406, 2896, 2276, 1567, 799};
    for (int k = 0; k < 8; k++)
        for (int i = 0; i < 8; i++) {
            int turn = ((2 * i + 1) * k) & 31;
            int sign = 1;
            if (turn > 16)
                turn = 32 - turn;
            if (turn > 8) {
                turn = 16 - turn;
                sign = -1;
            }
            if (turn < 8)
                weight[8 * k + i] = sign * wave[turn];
        }
}

int main(int argc, char **argv) {
    long rounds = argc > 1 ? atol(argv[1]) : 0;
    uint32_t x = 0;
    int32_t sum = 0;
    weigh();
    for (long round = 0; round < rounds; round++) {
        for (int i = 0; i < COUNT; i++) {
            x = (x * 1103515245u + 12345u) & 2147483647u;
            items[i] = (int32_t)(x >> 23) - 128;
        }
        for (int n = 0; n < COUNT; n += 8)
            for (int k = 0; k < 8; k++) {
                int32_t total = 0;
                for (int i = 0; i < 8; i++)
                    total += weight[8 * k + i] * items[n + i];
                given[n + k] = total >> 13;
            }
        for (int i = 0; i < COUNT; i++)
            sum = (int32_t)(((uint32_t)sum * 31u + (uint32_t)given[i]) & 8388607u);
        printf("%d\n", sum);
    }
    return 0;
}
