import sys


def main(rounds):
    start = 0
    for _ in range(rounds):
        at, total = start, 0
        while at < 20000:
            total = total + at * 7 & 1048575
            at = at + 1 + (total & 1)
        start = start + 1 & 255
        print(total)


main(int(sys.argv[1]))
