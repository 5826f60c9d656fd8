#include <stdint.h>
#include <stdio.h>
#include <stdlib.h>
#include <string.h>

enum { BANDS = 6, ROOM = 4096 };

static int32_t front[64], shares[BANDS + 1][32];
static int32_t signal_items[ROOM], first, last;
static uint32_t x;

static void set_weights(int32_t *weight, int taps, int scale) {
    for (int i = 0; i < taps; i++)
        weight[i] = scale * (i + 1) * (taps - i);
}

static int32_t low_pass(const int32_t *items, const int32_t *weight, int taps) {
    uint32_t total = 0;
    for (int i = 0; i < taps; i++)
        total += (uint32_t)items[i] * (uint32_t)weight[i];
    return (int32_t)total >> 15;
}

static int32_t front_item(void) {
    if (first + 64 > ROOM) {
        last -= first;
        memmove(signal_items, signal_items + first, last * sizeof *signal_items);
        first = 0;
    }
    while (last < first + 64) {
        x = (x * 1103515245 + 12345) & 2147483647;
        signal_items[last++] = (int32_t)(x >> 16) - 16384;
    }
    int32_t item = low_pass(signal_items + first, front, 64);
    first += 4;
    return item;
}

int main(int argc, char **argv) {
    long rounds = atol(argv[1]);
    static int32_t audio[ROOM];
    int32_t begin = 0, behind = 0, sum = 0, seen = 0, before;
    (void)argc;
    set_weights(front, 64, 1);
    for (int band = 0; band <= BANDS; band++)
        set_weights(shares[band], 32, band + 1);
    before = front_item();
    for (long r = 0; r < rounds; r++) {
        if (begin + 32 > ROOM) {
            behind -= begin;
            memmove(audio, audio + begin, behind * sizeof *audio);
            begin = 0;
        }
        while (behind < begin + 32) {
            int32_t now = front_item();
            audio[behind++] = (int32_t)((uint32_t)before * (uint32_t)now) >> 10;
            before = now;
        }
        uint32_t total = 0;
        for (int band = 0; band < BANDS; band++)
            total += (uint32_t)low_pass(audio + begin, shares[band], 32)
                - (uint32_t)low_pass(audio + begin, shares[band + 1], 32);
        begin++;
        sum = (int32_t)(((uint32_t)sum * 31 + total) & 8388607);
        seen++;
        if (seen == 1000) {
            printf("%d\n", sum);
            seen = 0;
        }
    }
    return 0;
}
