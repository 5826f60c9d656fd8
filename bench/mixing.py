import sys


def main(rounds):
    x = total = seen = 0
    for _ in range(rounds):
        h = x
        x = x + 1 & 1048575
        for i in range(32):
            h = (h & 32767) * 40503 + i
            h = h ^ h >> 7
            if h & 4 == 0:
                h = h + (i << 3)
            else:
                h = h - i
        total = total * 31 + (h & 65535) & 8388607
        seen += 1
        if seen == 1000:
            print(total)
            seen = 0


main(int(sys.argv[1]))
