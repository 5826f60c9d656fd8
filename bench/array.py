import sys


def main(rounds):
    table = list(range(256))
    other = 0
    for at in range(256):
        kept = table[at]
        other = other + kept + at * 7 & 255
        table[at] = table[other]
        table[other] = kept
    here = there = total = seen = 0
    for _ in range(rounds):
        word = 0
        for _ in range(32):
            here = here + 1 & 255
            first = table[here]
            there = there + first & 255
            second = table[there]
            table[here] = second
            table[there] = first
            word = (word << 1 ^ table[first + second & 255]) & 65535
        total = total * 31 + word & 8388607
        seen += 1
        if seen == 1000:
            print(total)
            seen = 0


main(int(sys.argv[1]))
