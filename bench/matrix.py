import sys

N = 16


def main(rounds):
    x = checksum = 0
    items = [0] * (2 * N * N)
    product = [0] * (N * N)
    for _ in range(rounds):
        for i in range(2 * N * N):
            x = x * 1103515245 + 12345 & 2147483647
            items[i] = (x >> 16 & 255) - 128
        for row in range(N):
            for column in range(N):
                total = 0
                for k in range(N):
                    total += items[row * N + k] * items[(N + k) * N + column]
                product[row * N + column] = total
        for i in range(N * N):
            checksum = checksum * 31 + product[i] & 8388607
        print(checksum)


main(int(sys.argv[1]))
