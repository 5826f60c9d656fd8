import sys

TAPS, DECIMATION, ROOM = 64, 4, 4096


def main(rounds):
    weight = [(i + 1) * (TAPS - i) for i in range(TAPS)]
    signal = []
    first = x = checksum = seen = 0
    for _ in range(rounds):
        if first + TAPS > ROOM:
            del signal[:first]
            first = 0
        while len(signal) < first + TAPS:
            x = x * 1103515245 + 12345 & 2147483647
            signal.append((x >> 16) - 16384)
        total = 0
        for i in range(TAPS):
            total += signal[first + i] * weight[i]
        first += DECIMATION
        checksum = checksum * 31 + (total >> 15) & 8388607
        seen += 1
        if seen == 1000:
            print(checksum)
            seen = 0


main(int(sys.argv[1]))
