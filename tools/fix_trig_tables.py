"""The constants of the turns and exact values of the angle functions, for crates/fix_trig, from whole numbers alone.

    python3 tools/fix_trig_tables.py
"""
import math
import random
from fractions import Fraction

F = 32
ONE = 2 ** F
MOST = 2 ** 63 - 1
TWO_OVER_PI = 636619772367581343
HALF_PI = 1570796326794896619


def rnd(n, d):
    """The whole number nearest to n / d, the greater of two."""
    return math.floor(Fraction(n, d) + Fraction(1, 2))


def sat(n):
    return max(-MOST, min(MOST, n))


def times(a, n):
    return sat(rnd(a * n, 10 ** 18))


def constants(bits):
    c = s = math.isqrt(2 ** 123)
    rows = [(c, s)]
    while len(rows) < bits:
        c = math.isqrt((2 ** 62 + c) * 2 ** 61)
        s = rnd(s * 2 ** 61, c)
        rows.append((c, s))
    return rows


CONSTANTS = constants(40)


def turn(point, k):
    (p, q), (c, s) = point, CONSTANTS[k - 1]
    return rnd(p * c - q * s, 2 ** 62), rnd(p * s + q * c, 2 ** 62)


def sin_cos(x):
    q = times(x, TWO_OVER_PI)
    quarter, f = (q // ONE) % 4, q % ONE
    point = (2 ** 62, 0)
    for k in range(1, F + 1):
        if f & 2 ** (F - k):
            point = turn(point, k)
    p, q = point
    rows = {0: (q, p), 1: (p, -q), 2: (-q, -p), 3: (-p, q)}
    sine, cosine = rows[quarter]
    return rnd(sine, 2 ** (62 - F)), rnd(cosine, 2 ** (62 - F))


def div(a, b):
    if b == 0:
        return MOST if a > 0 else -MOST if a < 0 else 0
    return sat(rnd(a * ONE, b) if b > 0 else rnd(-a * ONE, -b))


def tan(x):
    return div(*sin_cos(x))


def atan2(y, x):
    if y == 0 and x == 0:
        return 0
    u, v = max(abs(x), abs(y)), min(abs(x), abs(y))
    point, g = (2 ** 62, 0), 0
    for k in range(1, F + 1):
        p, q = turn(point, k)
        if v * p - u * q >= 0:
            point, g = (p, q), g + 2 ** (F - k)
    if abs(y) > abs(x):
        g = 2 ** F - g
    if x < 0:
        g = 2 ** (F + 1) - g
    if y < 0:
        g = -g
    return times(g, HALF_PI)


def root_of_rest(x):
    rest = sat(ONE - sat(rnd(x * x, ONE)))
    return math.isqrt(rest * ONE) if rest >= 0 else 0


def asin(x):
    x = max(-ONE, min(ONE, x))
    return atan2(x, root_of_rest(x))


def acos(x):
    x = max(-ONE, min(ONE, x))
    return atan2(root_of_rest(x), x)


def atan(x):
    return atan2(x, ONE)


def raw(x):
    return rnd(Fraction(x) * ONE, 1)


def check():
    """The exact values stay close to the real functions."""
    for x in range(-70, 71):
        s, c = sin_cos(raw(Fraction(x, 10)))
        assert abs(s / ONE - math.sin(x / 10)) < 2e-9
        assert abs(c / ONE - math.cos(x / 10)) < 2e-9
    for y in range(-5, 6):
        for x in range(-5, 6):
            if (x, y) != (0, 0):
                assert abs(atan2(raw(y), raw(x)) / ONE - math.atan2(y, x)) < 2e-9
    for x in range(-10, 11):
        assert abs(asin(raw(Fraction(x, 10))) / ONE - math.asin(x / 10)) < 1e-4
        assert abs(acos(raw(Fraction(x, 10))) / ONE - math.acos(x / 10)) < 1e-4


# All fractions of a quarter turn, in 2^-32, at which the cosine or the sine lies halfway between two
# numbers, so that it matters that a sign changes before the rounding. A search over all fractions found them.
HALFWAY = (792006941, 1786648629, 1884049222, 2410918074, 2602964334, 3502960355)


def at_quarters(q):
    """A raw that is q quarter turns, in 2^-32."""
    x = rnd(q * HALF_PI, 10 ** 18)
    assert times(x, TWO_OVER_PI) == q
    return x


def halfway():
    half = 2 ** (61 - F)
    for f in HALFWAY:
        point = (2 ** 62, 0)
        for k in range(1, F + 1):
            if f & 2 ** (F - k):
                point = turn(point, k)
        assert any(part % (2 * half) == half for part in point)
    return [at_quarters(k * ONE + f) for f in HALFWAY for k in range(4)]


def angles():
    half_pi = rnd(HALF_PI * ONE, 10 ** 18)
    xs = [0, 1, -1, 2, -2, ONE, -ONE, MOST, -MOST, MOST - 1, 1 - MOST, 2 ** 62, -2 ** 62]
    for n in (1, 2, 3, 4, -1, -2, -3, -4):
        xs += [n * half_pi - 1, n * half_pi, n * half_pi + 1]
    for n in range(-9, 10, 2):
        xs.append(raw(Fraction(2 * n + 1, 4)))
    xs += halfway()
    rng = random.Random(1)
    xs += [rng.randint(-8 * ONE, 8 * ONE) for _ in range(8)]
    xs += [rng.randint(-MOST, MOST) for _ in range(4)]
    return xs


def points():
    ends = (0, 1, -1, ONE, -ONE, MOST, -MOST)
    out = [(y, x) for y in ends for x in ends]
    rng = random.Random(2)
    for _ in range(8):
        out.append((rng.randint(-4 * ONE, 4 * ONE), rng.randint(-4 * ONE, 4 * ONE)))
    for _ in range(4):
        out.append((rng.randint(-MOST, MOST), rng.randint(-MOST, MOST)))
    return out


def shares():
    xs = [0, 1, -1, ONE, -ONE, ONE - 1, 1 - ONE, ONE + 1, -ONE - 1, 2 * ONE, -2 * ONE, MOST, -MOST]
    xs += [raw(Fraction(n, 8)) for n in range(-7, 8) if n]
    rng = random.Random(3)
    return xs + [rng.randint(-ONE, ONE) for _ in range(8)]


def print_turns():
    print("file: crates/fix_trig/src/constants.rt")
    print("/// The turns by a quarter turn over 2, 4, 8 and so on. As many serve as a number has fraction bits.")
    print("/// Printed by tools/fix_trig_tables.py.")
    print(f"pub(crate) const TURNS: [Turn; {len(CONSTANTS)}] = [")
    for c, s in CONSTANTS:
        print(f"Turn {{ cosine: {c}, sine: {s} }},")
    print("];")


def print_rows(name, comment, rows):
    print(f"\n// {comment}")
    print(f"pub(super) static {name}: [({', '.join(['i64'] * len(rows[0]))}); {len(rows)}] = [")
    for row in rows:
        print(f"({', '.join(map(str, row))}),")
    print("];")


def main():
    check()
    print_turns()
    print("file: crates/number_rows/src/trigonometric/tables.rt")
    print("//! Exact values of the angle functions.")
    print("//!")
    print("//! Printed by tools/fix_trig_tables.py.")
    print_rows("ANGLES", "A raw, and the raws of its sine, cosine and tangent.", [(x, *sin_cos(x), tan(x)) for x in angles()])
    print_rows("POINTS", "The raws y and x, and the raw of the angle at which (x, y) lies.", [(y, x, atan2(y, x)) for y, x in points()])
    print_rows("SHARES", "A raw, and the raws of its arc sine, arc cosine and arc tangent.",
               [(x, asin(x), acos(x), atan(x)) for x in shares()])


if __name__ == "__main__":
    main()
