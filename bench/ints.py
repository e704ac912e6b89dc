"""A text for genlist whose listing has long numbers: a List of 136 seeded Ints of 64 bits. Use: python3 bench/ints.py > FILE"""
import random

COUNT = 136
TABLES = ['string', 'kind name', 'symbol', 'parent count', 'symbol']


def records():
    yield 30, 0, 0, 2 ** 32 - 1, 0, 0, 1, 0                  # Function
    yield 31, 0, 0, 0, 0, 0, 0, 2                            # Params
    yield 4, 0, 0, 0, 0, 0, 3, 0                             # Block
    yield 8, 0, 0, 0, 0, 0, 4, 0                             # List
    draw = random.Random(7)
    for r in range(4, 4 + COUNT):
        low, high = draw.getrandbits(32), draw.getrandbits(32)
        yield 1, 2, low, high, 0, 0, 0, r + 1 if r + 1 < 4 + COUNT else 0


def main():
    for names in TABLES:
        print(names)
        if names == 'parent count':
            print(2 ** 32 - 1, 0)
        print()
    print('kind detail p q start end first next')
    for record in records():
        print(*record)


main()
