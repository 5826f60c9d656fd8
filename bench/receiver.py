import sys

BANDS = 6


def wrapped(n):
    return (n + 2147483648 & 4294967295) - 2147483648


def weights(taps, scale):
    return [scale * (i + 1) * (taps - i) for i in range(taps)]


def low_pass(items, weight):
    total = 0
    for item, share in zip(items, weight):
        total += item * share
    return wrapped(total) >> 15


def signal():
    x = 0
    while True:
        x = x * 1103515245 + 12345 & 2147483647
        yield (x >> 16) - 16384


def front():
    items, source, weight = [], signal(), weights(64, 1)
    while True:
        while len(items) < 64:
            items.append(next(source))
        yield low_pass(items, weight)
        del items[:4]


def demodulated():
    source = front()
    before = next(source)
    for now in source:
        yield wrapped(before * now) >> 10
        before = now


def main():
    rounds = int(sys.argv[1])
    shares = [weights(32, band) for band in range(1, BANDS + 2)]
    items, source = [], demodulated()
    total = seen = 0
    for _ in range(rounds):
        while len(items) < 32:
            items.append(next(source))
        sound = 0
        for band in range(BANDS):
            sound += low_pass(items, shares[band]) - low_pass(items, shares[band + 1])
        del items[:1]
        total = total * 31 + wrapped(sound) & 8388607
        seen += 1
        if seen == 1000:
            print(total)
            seen = 0


main()
