import sys


def fib(n):
    return n if n < 2 else fib(n - 1) + fib(n - 2)


def main(rounds):
    at = 0
    for _ in range(rounds):
        print(fib(22 + at))
        at = at + 1 & 1


main(int(sys.argv[1]))
