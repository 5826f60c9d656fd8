#include <stdint.h>
#include <stdio.h>
#include <stdlib.h>

int main(int argc, char **argv) {
    long rounds = atol(argv[1]);
    int32_t x = 0, sum = 0, seen = 0;
    (void)argc;
    for (long r = 0; r < rounds; r++) {
        int32_t h = x;
        x = (x + 1) & 1048575;
        for (int32_t i = 0; i < 32; i++) {
            h = (h & 32767) * 40503 + i;
            h = h ^ (h >> 7);
            if ((h & 4) == 0)
                h = h + (i << 3);
            else
                h = h - i;
        }
        sum = (sum * 31 + (h & 65535)) & 8388607;
        seen++;
        if (seen == 1000) {
            printf("%d\n", sum);
            seen = 0;
        }
    }
    return 0;
}
