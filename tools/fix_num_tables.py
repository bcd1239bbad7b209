#!/usr/bin/env python3
"""Prints the tables of crates/number_rows/src/numbers/tables.rt, computed with exact fractions and integers."""
from bisect import bisect_left
from fractions import Fraction
from math import floor, isqrt
import re

F = 32
MAX = 2**63 - 1
ONE = 2**F
UNIT = Fraction(ONE, 2**24)


def sat(n):
    return max(-MAX, min(MAX, n))


def nearest(v):
    """The whole number nearest to a fraction, halves upwards."""
    return floor(v + Fraction(1, 2))


def mul(a, b):
    return sat(nearest(Fraction(a * b, ONE)))


def div(a, b):
    if b == 0:
        return MAX if a > 0 else -MAX if a < 0 else 0
    if b < 0:
        a, b = -a, -b
    return sat(nearest(Fraction(a * ONE, b)))


def times(a, n):
    return sat(nearest(Fraction(a * n, 10**18)))


def halves():
    """Every half as its raw, with whether its m is even."""
    found = {0: True}
    for m in range(1, 1024):
        found[m * UNIT] = m % 2 == 0
    for e in range(-14, 16):
        for m in range(1024, 2048):
            found[Fraction(m * ONE) * Fraction(2) ** (e - 10)] = m % 2 == 0
    return sorted([(v, even) for v, even in found.items()] + [(-v, even) for v, even in found.items() if v])


HALVES = halves()
VALUES = [v for v, _ in HALVES]


def half(r):
    at = bisect_left(VALUES, r)
    near = HALVES[max(at - 2, 0) : at + 2]
    least = min(abs(r - v) for v, _ in near)
    best = [(v, even) for v, even in near if abs(r - v) == least]
    if len(best) == 2:
        best = [(v, even) for v, even in best if even]
    assert len(best) == 1 and best[0][0].denominator == 1
    return int(best[0][0])


def trunc(v):
    return floor(v) if v >= 0 else -floor(-v)


def whole(op, signed, a, b):
    def wrap(z):
        z %= 2**32
        return z - 2**32 if signed and z >= 2**31 else z

    count = b % 32
    if op == "Add":
        return wrap(a + b)
    if op == "Sub":
        return wrap(a - b)
    if op == "Mul":
        return wrap(a * b)
    if op == "Div":
        return 0 if b == 0 else wrap(trunc(Fraction(a, b)))
    if op == "Rem":
        return 0 if b == 0 else a - b * trunc(Fraction(a, b))
    if op == "And":
        return wrap(a & b)
    if op == "Or":
        return wrap(a | b)
    if op == "Xor":
        return wrap(a ^ b)
    if op == "Shl":
        return wrap(a * 2**count)
    return floor(Fraction(a, 2**count))


SPELLING = re.compile(rb"([+-]?)([0-9]*)(\.?)([0-9]*)(?:[eE]([+-]?[0-9]{1,4}))?\Z")


def decimal(text):
    """The raw, or 'NotANumber' or 'TooManyDigits'."""
    parts = SPELLING.match(text)
    if not parts or not (parts[2] or parts[4]):
        return "NotANumber"
    digits = (parts[2] + parts[4]).lstrip(b"0")
    if len(digits) > 25:
        return "TooManyDigits"
    value = Fraction(int(digits or b"0")) * Fraction(10) ** (int(parts[5] or b"0") - len(parts[4]))
    if parts[1] == b"-":
        value = -value
    return sat(nearest(value * ONE))


def table(name, comment, kinds, rows):
    print(f"\n// {comment}")
    print(f"pub(super) static {name}: [({', '.join(kinds)}); {len(rows)}] = [")
    for row in rows:
        print(f"    ({', '.join(str(x) for x in row)}),")
    print("];")


EDGES = [1, 3, 2**31 - 1, 2**31, 2**31 + 1, 2**32 - 1, 2**32 + 1, MAX - 1, MAX]


def products():
    rows = set()
    for a in EDGES:
        for b in (1, 2**31, 2**32, 2**32 + 1, MAX):
            rows |= {(a, b), (-a, b)}
    rows |= {(3 * 2**31, 1), (-3 * 2**31, 1), (5, 2**31), (-5, 2**31), (5, -(2**31)), (-5, -(2**31)), (MAX, -MAX), (-MAX, -MAX), (0, -MAX)}
    rows |= {(60000 * ONE, 60000 * ONE), (-60000 * ONE, 60000 * ONE)}
    return sorted(rows)


def quotients():
    rows = set()
    for a in EDGES:
        for b in (1, 2**32, 2**33, MAX):
            rows |= {(a, b), (-a, -b), (a, -b)}
    for a in (1, 3, 5):
        for b in (2**33, 2**34):
            rows |= {(a, b), (-a, b), (a, -b), (-a, -b)}
    rows |= {(ONE, 0), (-ONE, 0), (0, 0), (0, 5), (0, -5), (MAX, 0), (-MAX, 0), (-MAX, -MAX), (MAX, 2**32 + 1), (MAX, 2**32 - 1)}
    return sorted(rows)


def half_rows():
    rows = {0, 1, 127, 128, 129, 255, 256, 257, 383, 384, 385, 639, 640, 641, 2049 * ONE, 2051 * ONE, 65520 * ONE, 65504 * ONE, 65504 * ONE + 1, 65488 * ONE, 65488 * ONE - 1, 65488 * ONE + 1, MAX, decimal(b"0.1")}
    for shift in range(30):
        power = 2 ** (19 + shift)
        step = 2 ** (8 + shift)
        rows |= {power - 1, power, power + 1}
        if shift in (0, 1, 13, 28):
            # the ties round the power, with the even m below and above, and one beside them
            ties = {power - step // 2, power - 3 * step // 2, power + step, power + 3 * step}
            rows |= {tie + beside for tie in ties for beside in (-1, 0, 1)}
    rows |= {-r for r in sorted(rows)[::3]}
    return sorted(rows)


INTS = [0, 1, -1, 2, -2, 7, -7, 31, 32, 33, -31, -33, 65536, -65537, 0x55555555, 2**31 - 1, -(2**31), -(2**31) + 1]
UNSIGNED = [0, 1, 2, 7, 31, 32, 33, 65535, 65536, 65537, 0x55555555, 2**31 - 1, 2**31, 2**31 + 1, 2**32 - 2, 2**32 - 1]
OPS = ["Add", "Sub", "Mul", "Div", "Rem", "And", "Or", "Xor", "Shl", "Shr"]


def pairs(numbers):
    """One pair in seven, spread over all, and pairs of the ends."""
    every = [(a, b) for a in numbers for b in numbers]
    ends = [(a, b) for a in numbers[-3:] for b in (0, numbers[2], numbers[-1], 33)]
    return sorted(set(every[::17] + ends))


DECIMALS = [
    b"0", b"1", b"1.", b".5", b"00.50", b"0.1", b"-0.1", b"+0.1", b"1e0", b"1e+2", b"1E-2", b"12.75e3", b"-12.75e-3",
    b"1e40", b"-1e40", b"0e9999", b"-0.0", b"1e9999", b"1e-9999", b"-1e-9999", b"0.0000000000000000000000000001",
    # halves of the last place: 2^-33 is 1.16415321826934814453125e-10
    b"1.16415321826934814453125e-10", b"-1.16415321826934814453125e-10", b"1.16415321826934814453126e-10",
    b"1.16415321826934814453124e-10", b"-1.16415321826934814453126e-10", b"3.49245965480804443359375e-10", b"-3.49245965480804443359375e-10",
    # both ends of the range: the greatest raw is 2147483647.99999999976716935634613037109375
    b"2147483647.999999999767169", b"2147483647.999999999767170", b"2147483648", b"-2147483648", b"2147483647", b"-2147483647.999999999883584",
    b"2147483647.999999999883584", b"2147483647.999999999883585",
    b"1234567890123456789012345", b"1.234567890123456789012345", b"0.0001234567890123456789012345", b"9999999999999999999999999", b"9999999999999999999999999e-38",
    b"9999999999999999999999999e-39", b"9999999999999999999999999e-25", b"5000000000000000000000000e-38", b"1e18", b"1e19", b"1e37", b"1e38", b"1e39", b"1e-37", b"1e-38", b"1e-39",
    b"0000000000000000000000000000000000000001", b"0.1000000000000000000000000",
]
FAULTY = [
    b"", b".", b"+", b"-", b"e", b"E5", b".e5", b"+.", b"1e", b"1e+", b"1e-", b"1e12345", b"1e+12345", b"1e1.", b"1e.1", b"1.2.3", b"1..2", b"--1", b"+-1", b"1-", b"1+1",
    b" 1", b"1 ", b"1,5", b"0x10", b"1f", b"1h", b"1e5f", b"1ee5", b"1e5e5", b"a", b"1a", b"/", b":", b"1:", b"\xc3\xa9", b"1\x00",
    # a fault of the spelling goes before one of the digits
    b"10000000000000000000000000x",
]
LONG = [b"1" + b"0" * 25, b"0.10000000000000000000000000", b"12345678901234567890123456", b"1.0000000000000000000000000", b"-.12345678901234567890123456", b"00012345678901234567890123456e-30", b"1" * 60, b"10000000000000000000000000e5"]


WORKED_RAWS = [
    (b"0.0", 0), (b"1.0", 4294967296), (b"1.", 4294967296), (b"2", 8589934592), (b"60000.0", 257698037760000),
    (b"1e40", 9223372036854775807), (b"0.0000000000000000000000000001", 0),
]
WORKED_HALVES = [(b"0.1", 429391872), (b"2049", 2048 * ONE), (b"2051", 2052 * ONE), (b"65520", 65504 * ONE)]
WORKED_INTS = [
    ("Add", 2147483647, 1, -2147483648), ("Div", -2147483648, -1, -2147483648), ("Div", 7, 0, 0), ("Div", -7, 2, -3), ("Rem", -7, 2, -1), ("Shl", 1, 33, 2),
]


def text(b):
    return 'b"' + "".join(chr(c) if 32 <= c < 127 and c not in (34, 92) else f"\\x{c:02x}" for c in b) + '"'


def main():
    print("file: crates/number_rows/src/numbers/tables.rt")
    print("//! Cases at the edges, computed with exact fractions and integers.")
    print("//!")
    print("//! Printed by tools/fix_num_tables.py.\n")
    print("use fix_num::WholeOp;\n")
    print("pub(super) static OPERATIONS: [WholeOp; 10] = [")
    for op in OPS:
        print(f"    WholeOp::{op},")
    print("];")
    # worked by hand: each value is written here, and compared with what is computed
    for t, raw in WORKED_RAWS:
        assert decimal(t) == raw, t
    table("WORKED_RAWS", "A spelling and its raw.", ["&[u8]", "i64"], [(text(t), raw) for t, raw in WORKED_RAWS])
    for t, raw in WORKED_HALVES:
        assert half(decimal(t)) == raw, t
    table("WORKED_HALVES", "A spelling and the raw of its half.", ["&[u8]", "i64"], [(text(t), raw) for t, raw in WORKED_HALVES])
    for op, a, b, z in WORKED_INTS:
        assert whole(op, True, a, b) == z, (op, a, b)
    table("WORKED_INTS", "An operation, two ints and what it gives.", ["WholeOp", "i32", "i32", "i32"], [(f"WholeOp::{op}", a, b, z) for op, a, b, z in WORKED_INTS])
    sums = sorted({(a, b) for a in EDGES for b in (1, 2**32, MAX - 1, MAX)} | {(-a, b) for a in EDGES for b in (-1, 1, -MAX)})
    table("SUMS", "Two raws, and the raws of their sum and of their difference.", ["i64", "i64", "i64", "i64"], [(a, b, sat(a + b), sat(a - b)) for a, b in sums])
    rounded = sorted({(n, d) for d in (1, 2, 3, 7, 10, 2**32 - 1) for n in (-MAX, -d, -d // 2 - 1, -d // 2, -d // 2 + 1, -1, 0, 1, d // 2, d // 2 + 1, d - 1, d, 3 * d // 2, MAX)})
    table("ROUNDED", "A dividend, a divisor, and their quotient rounded.", ["i64", "u32", "i128"], [(n, d, nearest(Fraction(n, d))) for n, d in rounded])
    shifted = sorted({(n, b) for b in (0, 1, 2, 31, 62) for n in (-MAX, -(2**b), -(2**b) // 2 - 1, -(2**b) // 2, -(2**b) // 2 + 1, 0, 2**b // 2 - 1, 2**b // 2, 2**b // 2 + 1, 3 * 2**b // 2, MAX)})
    table("SHIFTED", "A dividend, the power of two that it is divided by, and the quotient rounded.", ["i64", "u32", "i128"], [(n, b, nearest(Fraction(n, 2**b))) for n, b in shifted])
    table("PRODUCTS", "Two raws and the raw of their product.", ["i64", "i64", "i64"], [(a, b, mul(a, b)) for a, b in products()])
    table("QUOTIENTS", "Two raws and the raw of their quotient.", ["i64", "i64", "i64"], [(a, b, div(a, b)) for a, b in quotients()])
    table("HALVES", "A raw and the raw of its nearest half.", ["i64", "i64"], [(r, half(r)) for r in half_rows()])
    names = {"LOG2_E": 1442695040888963407, "LOG2_TEN": 3321928094887362348, "LN_2": 693147180559945309, "LOG10_2": 301029995663981195, "TWO_OVER_PI": 636619772367581343, "HALF_PI": 1570796326794896619}
    raws = [1, -1, ONE, -(7 * ONE) - 1, MAX, -MAX]
    table("TIMES", "A raw, a constant in quintillionths and the raw of their product.", ["i64", "u64", "i64"], [(r, n, times(r, n)) for n in names.values() for r in raws])
    roots = [0, 1, 2, 3, 4, ONE - 1, ONE, ONE + 1, 2 * ONE, 4 * ONE - 1, 4 * ONE, 2**61, 2**62, MAX - 1, MAX, -1, -MAX]
    table("ROOTS", "A raw and the raw of its square root.", ["i64", "i64"], [(r, isqrt(r * ONE) if r >= 0 else 0) for r in roots])
    squares = sorted({n * n + d for n in (1, 2, 3, 2**32, 2**32 + 1, 2**62, 2**62 + 12345, 2**63, 2**64 - 2, 2**64 - 1) for d in (-1, 0, 1)} | {0, 2**127, 2**128 - 1})
    table("ISQRTS", "A number and its square root, rounded down.", ["u128", "u64"], [(n, isqrt(n)) for n in squares])
    numbers = [0, 1, -1, ONE - 1, ONE, ONE + 1, -ONE + 1, -ONE, -ONE - 1, 3 * ONE // 2, -3 * ONE // 2, MAX, MAX - ONE, -MAX, -MAX + ONE]
    table("CONVERSIONS", "A raw, its size, the raw of its floor, its int and its unsigned.", ["i64", "i64", "i64", "i32", "u32"], [(r, abs(r), sat(ONE * floor(Fraction(r, ONE))), trunc(Fraction(r, ONE)), max(0, trunc(Fraction(r, ONE)))) for r in numbers])
    table("FROM_INTS", "An int, its raw, the raw of its half, and the unsigned that it becomes.", ["i32", "i64", "i64", "u32"], [(n, sat(n * ONE), half(sat(n * ONE)), n % 2**32) for n in (0, 1, -1, 2049, -2051, 2**31 - 1, -(2**31) + 1, -(2**31))])
    table("FROM_UNSIGNED", "An unsigned, its raw, the raw of its half, and the int that it becomes.", ["u32", "i64", "i64", "i32"], [(n, sat(n * ONE), half(sat(n * ONE)), n - 2**32 if n >= 2**31 else n) for n in (0, 1, 2049, 65520, 2**31 - 1, 2**31, 2**32 - 1)])
    table("CODES", "Depth, code and raw.", ["u8", "u16", "i64"], [(b, c, nearest(Fraction(c * ONE, 2**b - 1))) for b in (8, 10, 16) for c in (0, 1, 2 ** (b - 1) - 1, 2 ** (b - 1), 2**b - 2, 2**b - 1)])
    outs = [(b, r) for b in (8, 10, 16) for r in (-MAX, -1, 0, 1, ONE // 2 - 1, ONE // 2, ONE // 2 + 1, ONE - 1, ONE, ONE + 1, MAX)]
    table("CODES_OUT", "Depth, raw and code.", ["u8", "i64", "u16"], [(b, r, nearest(Fraction(max(0, min(ONE, r)) * (2**b - 1), ONE))) for b, r in outs])
    for name, comment, kind, signed, numbers in (
        ("INT_CASES", "Two ints, and what each operation gives, in the order of OPERATIONS.", "i32", True, INTS),
        ("UNSIGNED_CASES", "Two unsigned, and what each operation gives, in the order of OPERATIONS.", "u32", False, UNSIGNED),
    ):
        table(name, comment, [kind, kind, f"&[{kind}]"], [(a, b, f"&{[whole(op, signed, a, b) for op in OPS]}") for a, b in pairs(numbers)])
    for t in DECIMALS:
        assert isinstance(decimal(t), int), t
    assert all(decimal(t) == "NotANumber" for t in FAULTY) and all(decimal(t) == "TooManyDigits" for t in LONG)
    table("DECIMALS", "A spelling and its raw.", ["&[u8]", "i64"], [(text(t), decimal(t)) for t in DECIMALS])
    print("\n// Texts that are no spelling.")
    print(f"pub(super) static FAULTY: [&[u8]; {len(FAULTY)}] = [")
    for t in FAULTY:
        print(f"    {text(t)},")
    print("];")
    print("\n// Spellings of more than 25 significant digits.")
    print(f"pub(super) static LONG: [&[u8]; {len(LONG)}] = [")
    for t in LONG:
        print(f"    {text(t)},")
    print("];")


if __name__ == "__main__":
    main()
