"""Writes crates/decimal_test/stdin and stdout: numbers of 64 bits, and what Python prints of them.

Use: python3 tools/decimal_test.py
"""
import pathlib

END = 2 ** 64


def numbers():
    """0, 9, 10; each power of ten with its neighbours; the ends of 31, 32, 63 and 64 bits with theirs."""
    middles = [0, 9, 10] + [10 ** k for k in range(20)] + [2 ** 31, 2 ** 32, 2 ** 63, END]
    return sorted({n for m in middles for n in (m - 1, m, m + 1) if 0 <= n < END})


def signed(n):
    return n - END if n >= END // 2 else n


def main():
    crate = pathlib.Path(__file__).parent.parent / 'crates/decimal_test'
    (crate / 'stdin').write_text(''.join(f'{n:016x}\n' for n in numbers()))
    (crate / 'stdout').write_text(''.join(f'{n} {signed(n)} {n:016x}\n' for n in numbers()))


main()
