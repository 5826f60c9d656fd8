/* A hash that mixes the bits of each item in eight steps, as hash.str. */
#include <stdint.h>
#include <stdio.h>
#include <stdlib.h>

enum { COUNT = 1024, STEPS = 8 };

static int32_t items[COUNT];
static int32_t given[COUNT];

static int32_t hashed(int32_t bits) {
    for (int i = 0; i < STEPS; i++) {
        bits = (int32_t)((uint32_t)(bits ^ (bits >> 16)) * 73244475u);
        bits = (int32_t)((uint32_t)(bits ^ (bits >> 15)) + (uint32_t)i);
    }
    return bits & 65535;
}

int main(int argc, char **argv) {
    long rounds = argc > 1 ? atol(argv[1]) : 0;
    uint32_t x = 0;
    int32_t sum = 0;
    for (long round = 0; round < rounds; round++) {
        for (int i = 0; i < COUNT; i++)
            items[i] = (int32_t)x++;
        for (int i = 0; i < COUNT; i++)
            given[i] = hashed(items[i]);
        for (int i = 0; i < COUNT; i++)
            sum = (int32_t)(((uint32_t)sum * 31u + (uint32_t)given[i]) & 8388607u);
        printf("%d\n", sum);
    }
    return 0;
}
