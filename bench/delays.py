import sys


def main(rounds):
    channel = [0] * 201
    x = checksum = seen = 0
    for _ in range(rounds):
        channel[0] = x
        x = x + 1 & 1048575
        for i in range(1, 201):
            channel[i] = channel[i - 1]
        checksum = checksum * 31 + channel[200] & 8388607
        seen += 1
        if seen == 1000:
            print(checksum)
            seen = 0


main(int(sys.argv[1]))
