#include <stdint.h>
#include <stdio.h>
#include <stdlib.h>

enum { N = 16 };

int main(int argc, char **argv) {
    long rounds = atol(argv[1]);
    int32_t items[2 * N * N], product[N * N], sum = 0;
    uint32_t x = 0;
    (void)argc;
    for (long r = 0; r < rounds; r++) {
        for (int32_t i = 0; i < 2 * N * N; i++) {
            x = (x * 1103515245 + 12345) & 2147483647;
            items[i] = (int32_t)(x >> 16 & 255) - 128;
        }
        for (int32_t row = 0; row < N; row++)
            for (int32_t column = 0; column < N; column++) {
                int32_t total = 0;
                for (int32_t k = 0; k < N; k++)
                    total += items[row * N + k] * items[(N + k) * N + column];
                product[row * N + column] = total;
            }
        for (int32_t i = 0; i < N * N; i++)
            sum = (sum * 31 + product[i]) & 8388607;
        printf("%d\n", sum);
    }
    return 0;
}
