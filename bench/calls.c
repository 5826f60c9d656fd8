#include <stdint.h>
#include <stdio.h>
#include <stdlib.h>

static int32_t fib(int32_t n) {
    return n < 2 ? n : fib(n - 1) + fib(n - 2);
}

int main(int argc, char **argv) {
    long rounds = atol(argv[1]);
    int32_t next = 0;
    (void)argc;
    for (long r = 0; r < rounds; r++) {
        printf("%d\n", fib(22 + next));
        next = (next + 1) & 1;
    }
    return 0;
}
