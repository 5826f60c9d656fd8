/* Red, green and blue become luminance and two differences of colour, as colour.str. */
#include <stdint.h>
#include <stdio.h>
#include <stdlib.h>

enum { COUNT = 1536 };

static int32_t items[COUNT];
static int32_t given[COUNT];

int main(int argc, char **argv) {
    long rounds = argc > 1 ? atol(argv[1]) : 0;
    uint32_t x = 0;
    int32_t sum = 0;
    for (long round = 0; round < rounds; round++) {
        for (int i = 0; i < COUNT; i++) {
            x = (x * 1103515245u + 12345u) & 2147483647u;
            items[i] = (int32_t)(x >> 23);
        }
        for (int n = 0; n < COUNT; n += 3) {
            int32_t red = items[n], green = items[n + 1], blue = items[n + 2];
            given[n] = ((66 * red + 129 * green + 25 * blue + 128) >> 8) + 16;
            given[n + 1] = ((112 * blue - 38 * red - 74 * green + 128) >> 8) + 128;
            given[n + 2] = ((112 * red - 94 * green - 18 * blue + 128) >> 8) + 128;
        }
        for (int i = 0; i < COUNT; i++)
            sum = (int32_t)(((uint32_t)sum * 31u + (uint32_t)given[i]) & 8388607u);
        printf("%d\n", sum);
    }
    return 0;
}
