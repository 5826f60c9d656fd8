import sys

KEY = [0x00010203, 0x04050607, 0x08090A0B, 0x0C0D0E0F]
MASK, DELTA = 0xFFFFFFFF, 0x9E3779B9


def cycles():
    for number in range(32):
        total = number * DELTA & MASK
        first = total + KEY[total & 3] & MASK
        total = total + DELTA & MASK
        yield first, total + KEY[total >> 11 & 3] & MASK


def main(rounds):
    keys = list(cycles())
    block, checksum, seen = 0x45464748, 0, 0
    for _ in range(rounds):
        left, right = 0x41424344, block
        block = block + 1 & MASK
        for first, second in keys:
            left = left + ((right << 4 ^ right >> 5) + right & MASK ^ first) & MASK
            right = right + ((left << 4 ^ left >> 5) + left & MASK ^ second) & MASK
        checksum = checksum * 31 + (left ^ right) & 8388607
        seen += 1
        if seen == 1000:
            print(checksum)
            seen = 0


main(int(sys.argv[1]))
