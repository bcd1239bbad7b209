#!/usr/bin/env python3
"""Exact cases for crates/fix_elem, with whole numbers alone: tables of raws and the raws that the definitions give.
The exponent is found by halving, and a power by a product over the set bits.

    python3 tools/fix_elem_tables.py [FRACTION]
"""
import math
import sys

F = int(sys.argv[1]) if __name__ == "__main__" and len(sys.argv) > 1 else 32
ONE = 1 << F
MOST = 2**63 - 1


def sat(n):
    return max(-MOST, min(MOST, n))


def rnd(n, d):
    return (2 * n + d) // (2 * d)


def times(a, n):
    return sat(rnd(a * n, 10**18))


def mul(a, b):
    return sat(rnd(a * b, ONE))


CONSTANTS = []
before = 1 << 63
for _ in range(40):
    before = math.isqrt(before << 62)
    CONSTANTS.append(before)


def power(f):
    e = 1 << 62
    for k, c in enumerate(CONSTANTS[:F], 1):
        if f & (1 << (F - k)):
            e = e * c // 2**62
    return e


def exp2(x):
    i, f = divmod(x, ONE)
    shift = 62 - F - i
    if shift < 0:
        return MOST
    # a power is below 2^63, so that a longer shift leaves nothing of it
    return rnd(power(f), 2**shift) if shift <= 64 else 0


def exponent(m):
    low, high = 0, ONE
    while high - low > 1:
        middle = (low + high) // 2
        if power(middle) <= m:
            low = middle
        else:
            high = middle
    return low


def log2(x):
    if x <= 0:
        return -MOST
    b = x.bit_length() - 1
    return (b - F) * ONE + exponent(x << (62 - b))


def exp(x):
    return exp2(times(x, 1442695040888963407))


def pow10(x):
    return exp2(times(x, 3321928094887362348))


def log(x):
    return times(log2(x), 693147180559945309)


def log10(x):
    return times(log2(x), 301029995663981195)


def pow(x, y):
    if x == 0:
        return 0 if y > 0 else ONE if y == 0 else MOST
    if x > 0:
        return exp2(mul(y, log2(x)))
    if y % ONE:
        return 0
    return pow(-x, y) if (y // ONE) % 2 == 0 else -pow(-x, y)


def sqrt(x):
    return math.isqrt(x * ONE) if x > 0 else 0


def hypot(x, y):
    return sat(math.isqrt(x * x + y * y))


def fmod(x, y):
    if y == 0:
        return 0
    rest = abs(x) % abs(y)
    return rest if x >= 0 else -rest


def around(n):
    return [n - 1, n, n + 1]


ENDS = [-MOST, -MOST + 1, MOST - 1, MOST]
SMALL = [-2, 2, ONE // 2, ONE // 3, 7 * ONE // 10, 9 * ONE, -9 * ONE, 22 * ONE, -22 * ONE, 123456789012345, -98765432109]
NEAR = [x for n in (0, ONE, 2 * ONE, -ONE) for x in around(n)]

# where 2^x, e^x and 10^x leave the range, and where nothing is left of 2^x
TO_POWERS = sorted(set(ENDS + SMALL + NEAR + around((63 - F) * ONE) + around(-(F + 1) * ONE) + around(-(F + 2) * ONE) + [
    (62 - F) * ONE, -(F + 40) * ONE, log(MOST), log(MOST) + 2, log10(MOST), log10(MOST) + 2]))
TO_LOGARITHMS = sorted(set(ENDS + SMALL + NEAR + around(1 << 5) + around(1 << 40) + around(1 << 62)))
PAIRS = [
    (ONE // 2, 2 * ONE), (0, 0), (-2 * ONE, 3 * ONE), (-2 * ONE, ONE // 2), (2 * ONE, ONE // 2),
    (0, 1), (0, MOST), (0, -1), (0, -MOST), (1, 1), (MOST, MOST), (MOST, -MOST), (-MOST, MOST), (-MOST, -MOST),
    (-ONE, 0), (-ONE, ONE), (-ONE, 2 * ONE), (-ONE, -ONE), (-ONE, -2 * ONE), (-ONE, 2**62), (-ONE, 2**62 + ONE),
    (-ONE, 1), (-2 * ONE, -3 * ONE), (-2 * ONE, -4 * ONE), (-3 * ONE // 2, 5 * ONE), (-3 * ONE // 2, 6 * ONE),
    (-1, ONE), (-1, 2 * ONE), (-1, -ONE), (-MOST, ONE), (-MOST, 2 * ONE), (-MOST, -ONE), (-2 * ONE, ONE + 1),
    (-2 * ONE, ONE - 1), (MOST, ONE), (MOST, -ONE), (MOST, ONE // 2), (1, ONE), (1, -ONE), (1, ONE // 2),
    (7 * ONE // 10, 22 * ONE // 10), (18 * ONE // 100, 45 * ONE // 100), (10 * ONE, 3 * ONE), (ONE + 1, MOST),
    (ONE - 1, MOST), (ONE - 1, -MOST), (ONE, MOST), (3 * ONE, 4 * ONE), (-3 * ONE, 4 * ONE), (3 * ONE, -4 * ONE),
    (5, -3), (-5, 3), (-5, -3), (7, 0), (MOST, 1), (-MOST, 2), (MOST, MOST - 1), (-MOST + 1, MOST), (123456789012345, 987654321),
    (-123456789012345, 987654321), (2**62, 2**62), (6521908912666391106, 6521908912666391106),
    (6521908912666391105, 6521908912666391106), (6521908912666391106, 6521908912666391107), (1 << 40, 3),
]


def table(name, comment, rows):
    print(f"// {comment}")
    print(f"pub(super) static {name}: [({', '.join(['i64'] * len(rows[0]))}); {len(rows)}] = [")
    for row in rows:
        print(f"({', '.join(str(n) for n in row)}),")
    print("];\n")


def print_constants():
    print("file: crates/fix_elem/src/constants.rt")
    print("/// `2^(1/2)`, `2^(1/4)`, `2^(1/8)` and so on, with 62 fraction bits. Each is the square root, rounded down, of the")
    print("/// one before it. As many serve as a number has fraction bits. Printed by tools/fix_elem_tables.py.")
    print(f"pub(crate) const TABLE: [u64; {len(CONSTANTS)}] = [")
    for c in CONSTANTS:
        print(f"{c},")
    print("];")


def main():
    print_constants()
    print("""file: crates/number_rows/src/elementary/tables.rt
//! Cases at the edges, computed with exact whole numbers.
//!
//! Printed by tools/fix_elem_tables.py.
""")
    table("POWERS", "A raw x and the raws of 2^x, e^x and 10^x.", [(x, exp2(x), exp(x), pow10(x)) for x in TO_POWERS])
    table("LOGARITHMS", "A raw x, the raws of its logarithms to the bases 2, e and 10, and of its square root.",
          [(x, log2(x), log(x), log10(x), sqrt(x)) for x in TO_LOGARITHMS])
    table("PAIRS", "Two raws x and y, and the raws of pow, hypot and fmod of them.",
          [(x, y, pow(x, y), hypot(x, y), fmod(x, y)) for x, y in PAIRS])


if __name__ == "__main__":
    main()
