#include <stdint.h>
#include <stdio.h>
#include <stdlib.h>

int main(int argc, char **argv) {
    long rounds = atol(argv[1]);
    int32_t channel[201], x = 0, sum = 0, seen = 0;
    (void)argc;
    for (long r = 0; r < rounds; r++) {
        channel[0] = x;
        x = (x + 1) & 1048575;
        for (int32_t i = 1; i <= 200; i++)
            channel[i] = channel[i - 1];
        sum = (sum * 31 + channel[200]) & 8388607;
        seen++;
        if (seen == 1000) {
            printf("%d\n", sum);
            seen = 0;
        }
    }
    return 0;
}
