#include <stdint.h>
#include <stdio.h>
#include <stdlib.h>

enum { WIDTH = 512, LIMIT = 250 };

int main(int argc, char **argv) {
    long rounds = atol(argv[1]);
    (void)argc;
    for (long row = 0; row < rounds; row++) {
        int32_t im = (int32_t)row * 24 - 6144, sum = 0;
        for (int32_t column = 0; column < WIDTH; column++) {
            int32_t re = column * 24 - 8960;
            int32_t x = 0, y = 0, xx = 0, yy = 0, count = 0;
            while (count < LIMIT && xx + yy <= 16384) {
                y = (x * y >> 11) + im;
                x = xx - yy + re;
                xx = x * x >> 12;
                yy = y * y >> 12;
                count++;
            }
            sum = (sum * 31 + count) & 8388607;
        }
        printf("%d\n", sum);
    }
    return 0;
}
