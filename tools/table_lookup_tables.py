"""Cases for the tests of crates/table_lookup, computed with exact integers and fractions.

    python3 tools/table_lookup_tables.py
"""

from fractions import Fraction
from itertools import product
from math import floor
from random import Random

F = 32
ONE = 1 << F
MOST = (1 << 63) - 1


def sat(z):
    return max(-MOST, min(MOST, z))


def rnd(q):
    return floor(q + Fraction(1, 2))


def add(a, b):
    return sat(a + b)


def sub(a, b):
    return sat(a - b)


def mul(a, b):
    return sat(rnd(Fraction(a * b, ONE)))


def div(a, b):
    if b == 0:
        return MOST if a > 0 else -MOST if a < 0 else 0
    return sat(rnd(Fraction(a * ONE, b)))


def mix(a, b, f):
    return sat(a + rnd(Fraction((b - a) * f, ONE)))


def hermite(a, b, m0, m1, f):
    d = sub(b, a)
    c2 = sub(sub(mul(3 * ONE, d), mul(2 * ONE, m0)), m1)
    c3 = sub(add(m0, m1), mul(2 * ONE, d))
    return add(a, mul(f, add(m0, mul(f, add(c2, mul(f, c3))))))


def place(n, lo, hi, p):
    if n == 1 or lo >= hi:
        return 0, 0, 0
    u = rnd(Fraction((min(max(p, lo), hi) - lo) * (n - 1) * ONE, hi - lo))
    i = min(u // ONE, n - 2)
    return i, i + 1, u - i * ONE


def lookup(t, lo, hi, p):
    i, j, f = place(len(t), lo, hi, p)
    return mix(t[i], t[j], f)


def lookup_cubic(t, lo, hi, p):
    i, j, f = place(len(t), lo, hi, p)
    if i == j:
        return t[0]
    last = len(t) - 1

    def slope(k):
        if k == 0:
            return sub(t[1], t[0])
        if k == last:
            return sub(t[last], t[last - 1])
        return sat(rnd(Fraction(t[k + 1] - t[k - 1], 2)))

    return hermite(t[i], t[j], slope(i), slope(j), f)


def interpolate(pairs, p, cubic):
    last = len(pairs) - 1
    if p <= pairs[0][0]:
        return pairs[0][1]
    if p >= pairs[last][0]:
        return pairs[last][1]
    i = min(k for k in range(last) if p < pairs[k + 1][0])
    (x0, y0), (x1, y1) = pairs[i], pairs[i + 1]
    f = rnd(Fraction((p - x0) * ONE, x1 - x0))
    if not cubic:
        return mix(y0, y1, f)

    def secant(k):
        return div(sub(pairs[k + 1][1], pairs[k][1]), sub(pairs[k + 1][0], pairs[k][0]))

    def slope(k):
        if k == 0:
            return secant(0)
        if k == last:
            return secant(last - 1)
        return sat(rnd(Fraction(secant(k - 1) + secant(k), 2)))

    h = sub(x1, x0)
    return hermite(y0, y1, mul(slope(i), h), mul(slope(i + 1), h), f)


def lookup3(t, counts, lo, hi, p):
    places = [place(n, a, b, x) for n, a, b, x in zip(counts, lo, hi, p)]
    (i0, i1, fi), (j0, j1, fj), (k0, k1, fk) = places

    def word(i, j, k, c):
        return t[3 * ((i * counts[1] + j) * counts[2] + k) + c]

    def row(i, j, c):
        return mix(word(i, j, k0, c), word(i, j, k1, c), fk)

    def plane(i, c):
        return mix(row(i, j0, c), row(i, j1, c), fj)

    return [mix(plane(i0, c), plane(i1, c), fi) for c in range(3)]


def minor(m, i, j):
    return [row[:j] + row[j + 1 :] for k, row in enumerate(m) if k != i]


def det(m):
    if len(m) == 2:
        return sub(mul(m[0][0], m[1][1]), mul(m[0][1], m[1][0]))
    total = None
    for j, a in enumerate(m[0]):
        term = mul(a, det(minor(m, 0, j)))
        total = term if j == 0 else sub(total, term) if j % 2 else add(total, term)
    return total


def inverse(m):
    n, whole = len(m), det(m)
    if whole == 0:
        return [[ONE if i == j else 0 for j in range(n)] for i in range(n)]
    return [[div((-1) ** (i + j) * det(minor(m, j, i)), whole) for j in range(n)] for i in range(n)]


def times(a, b):
    def entry(i, j):
        total = None
        for k in range(len(b)):
            term = mul(a[i][k], b[k][j])
            total = term if total is None else add(total, term)
        return total

    return [[entry(i, j) for j in range(len(b[0]))] for i in range(len(a))]


def through(x, m):
    sums = []
    for j in range(4):
        total = add(add(mul(x[0], m[0][j]), mul(x[1], m[1][j])), mul(x[2], m[2][j]))
        sums.append(add(total, m[3][j]))
    return [div(s, sums[3]) for s in sums[:3]]


def rgb_to_xyz(c, y):
    (rx, ry), (gx, gy), (bx, by), (wx, wy) = c
    x = div(mul(wx, y), wy)
    z = div(mul(sub(sub(ONE, wx), wy), y), wy)
    t = add(x, z)

    def a(k):
        return add(mul(y, sub(k, ONE)), mul(k, t))

    d = add(add(mul(rx, sub(by, gy)), mul(bx, sub(gy, ry))), mul(gx, sub(ry, by)))
    sr = div(add(sub(mul(x, sub(by, gy)), mul(gx, a(by))), mul(bx, a(gy))), d)
    sg = div(sub(add(mul(x, sub(ry, by)), mul(rx, a(by))), mul(bx, a(ry))), d)
    sb = div(add(sub(mul(x, sub(gy, ry)), mul(rx, a(gy))), mul(gx, a(ry))), d)
    rows = [
        [mul(s, px), mul(s, py), mul(s, sub(sub(ONE, px), py)), 0]
        for s, (px, py) in zip((sr, sg, sb), ((rx, ry), (gx, gy), (bx, by)))
    ]
    return rows + [[0, 0, 0, ONE]]


def raw(text):
    return rnd(Fraction(text) * ONE)


def flat(m):
    return [a for row in m for a in row]


def show(name, comment, kind, rows):
    print(f"\n// {comment}")
    print(f"pub(super) static {name}: [{kind}; {len(rows)}] = [")
    for row in rows:
        print(f"{row!r},")
    print("];")


def one(name, comment, row):
    print(f"\n// {comment}")
    print(f"pub(super) static {name}: [i64; {len(row)}] = {list(row)!r};")


def spread():
    five = [raw(x) for x in ("0.1", "-2.5", "7", "0.30103", "1e9")]
    one("FIVE", "Five entries.", five)
    ends = [
        (0, ONE, p)
        for p in (-MOST, -1, 0, 1, raw("0.1"), ONE // 4 - 1, ONE // 4, ONE // 4 + 1, ONE // 2, raw("0.74"), ONE - 1, ONE, ONE + 1, MOST)
    ]
    ends += [(-MOST, MOST, p) for p in (-MOST, 0, 1, 5 * ONE, MOST - 1)]
    ends += [(ONE, ONE, ONE), (ONE, -ONE, 0), (5, 6, 5), (5, 6, 6), (raw("-0.3"), raw("2.2"), raw("1.9"))]
    comment = "The ends of a range, a number, and what lookup1 and lookup_cubic1 give of {} there."
    kind = "(i64, i64, i64, i64, i64)"
    show("SPREAD", comment.format("five entries"), kind, [(*c, lookup(five, *c), lookup_cubic(five, *c)) for c in ends])
    two = [MOST, -MOST]
    one("TWO", "Two entries, the ends of all numbers.", two)
    few = [(0, 3 * ONE, p) for p in (-1, 0, 1, raw("1.5"), 2 * ONE, 3 * ONE - 1, 3 * ONE)]
    show("SPREAD_TWO", comment.format("two entries"), kind, [(*c, lookup(two, *c), lookup_cubic(two, *c)) for c in few])
    single = [raw("0.7")]
    one("SINGLE", "One entry.", single)
    show("SPREAD_SINGLE", comment.format("one entry"), kind, [(*c, lookup(single, *c), lookup_cubic(single, *c)) for c in few[:3]])


def pairs():
    rising = [(raw(x), raw(y)) for x, y in (("-1", "4"), ("0.5", "-3"), ("0.6", "1e6"), ("3", "2"))]
    mixed = [(raw(x), raw(y)) for x, y in (("0", "1"), ("2", "5"), ("-3", "7"), ("2", "9"), ("1", "-8"), ("4", "0.1"))]
    for name, what, table in (("RISING", "Pairs whose x rises", rising), ("MIXED", "Pairs whose x does not rise", mixed)):
        one(name, what + ".", flat(table))
        points = {x + step for x, _ in table for step in (-1, 0, 1)} | {raw(x) for x in ("-4", "0.55", "1.5", "2.75", "3.5")}
        cases = [(p, interpolate(table, p, False), interpolate(table, p, True)) for p in sorted(points)]
        show(name + "_AT", "A number, and what interp1 and interp_cubic1 give of these pairs there.", "(i64, i64, i64)", cases)


def box(random):
    counts = (2, 3, 2)
    table = [random.randint(-4 * ONE, 4 * ONE) for _ in range(36)]
    one("BOX", "2 by 3 by 2 triples.", table)
    lo, hi = (0, -ONE, raw("0.5")), (ONE, 2 * ONE, raw("0.75"))
    one("BOX_LOW", "Where the triples begin in each index.", lo)
    one("BOX_HIGH", "And where they end.", hi)
    points = [tuple(c) for c in product((0, raw("0.3")), (-ONE, raw("0.5"), raw("1.7")), (raw("0.5"), raw("0.6")))]
    points += [hi, lo, (MOST, -MOST, MOST)]
    cases = [(list(p), lookup3(table, counts, lo, hi, p)) for p in points]
    show("BOX_AT", "A point, and what lookup3 gives there.", "([i64; 3], [i64; 3])", cases)


def matrices():
    row = [raw(x) for x in ("0.25", "-3", "1.75")]
    one("ROW", "A row.", row)
    one("ROW_TWICE", "It added to itself.", [add(x, x) for x in row])
    one("ROW_THRICE", "It times 3.", [mul(3 * ONE, x) for x in row])
    comment = "A matrix, its determinant, its inverse, its square, and the product of ROW and it."
    threes = [
        [["2", "0", "1"], ["0.5", "3", "-1"], ["4", "0.1", "0.2"]],
        [["1", "2", "3"], ["4", "5", "6"], ["7", "8", "9"]],
        [["60000", "0", "0"], ["0", "60000", "1"], ["0", "3", "60000"]],
        [["0.00001", "2e9", "3"], ["-2e9", "0.5", "7"], ["1", "1", "-0.25"]],
    ]
    threes = [[[raw(x) for x in row] for row in m] for m in threes]
    cases = [(flat(m), det(m), flat(inverse(m)), flat(times(m, m)), times([row], m)[0]) for m in threes]
    show("THREES", comment, "([i64; 9], i64, [i64; 9], [i64; 9], [i64; 3])", cases)
    one("THREE", "A matrix.", flat(threes[0]))
    one("THREE_EXCHANGED", "Its rows and columns exchanged.", flat(zip(*threes[0])))
    fours = [
        [["2", "0", "1", "0.5"], ["0.5", "3", "-1", "2"], ["4", "0.1", "0.2", "-7"], ["1", "1", "0", "0.3"]],
        [["1", "2", "3", "4"], ["5", "6", "7", "8"], ["1", "2", "3", "4"], ["0", "1", "0", "1"]],
        [["30000", "0", "0", "1"], ["0", "30000", "0", "2"], ["0", "0", "30000", "3"], ["1", "2", "3", "30000"]],
    ]
    fours = [[[raw(x) for x in row] for row in m] for m in fours]
    cases = [(flat(m), det(m), flat(inverse(m)), flat(times(m, m)), through(row, m)) for m in fours]
    show("FOURS", comment, "([i64; 16], i64, [i64; 16], [i64; 16], [i64; 3])", cases)
    one("FOUR", "A matrix.", flat(fours[0]))
    one("FOUR_EXCHANGED", "Its rows and columns exchanged.", flat(zip(*fours[0])))


def colours():
    points = [raw(x) for x in ("0.64", "0.33", "0.3", "0.6", "0.15", "0.06", "0.3127", "0.329")]
    one("COLOURS", "The chromaticities of red, green, blue and white.", points)
    pairs = list(zip(points[::2], points[1::2]))
    cases = [(y, flat(rgb_to_xyz(pairs, y))) for y in (ONE, raw("100"), 0)]
    show("TO_XYZ", "A luminance of white, and the matrix to XYZ.", "(i64, [i64; 16])", cases)


def main():
    print("file: crates/number_rows/src/lookups/tables.rt")
    print("//! Cases at the edges, computed with exact integers and fractions.")
    print("//!")
    print("//! Printed by tools/table_lookup_tables.py.")
    spread()
    pairs()
    box(Random(12))
    matrices()
    colours()


if __name__ == "__main__":
    main()
