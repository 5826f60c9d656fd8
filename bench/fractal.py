import sys

WIDTH, LIMIT = 512, 250


def main(rounds):
    for row in range(rounds):
        im = row * 24 - 6144
        checksum = 0
        for column in range(WIDTH):
            re = column * 24 - 8960
            x = y = xx = yy = count = 0
            while count < LIMIT and xx + yy <= 16384:
                y = (x * y >> 11) + im
                x = xx - yy + re
                xx = x * x >> 12
                yy = y * y >> 12
                count += 1
            checksum = checksum * 31 + count & 8388607
        print(checksum)


main(int(sys.argv[1]))
