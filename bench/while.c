#include <stdint.h>
#include <stdio.h>
#include <stdlib.h>

int main(int argc, char **argv) {
    long rounds = atol(argv[1]);
    int32_t start = 0;
    (void)argc;
    for (long r = 0; r < rounds; r++) {
        int32_t at = start, sum = 0;
        while (at < 20000) {
            sum = (sum + at * 7) & 1048575;
            at = at + 1 + (sum & 1);
        }
        start = (start + 1) & 255;
        printf("%d\n", sum);
    }
    return 0;
}
