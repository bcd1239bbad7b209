#!/usr/bin/env python3
"""Prints the cases of crates/ctl_stdlib: arguments of each function of the library and what it gives, from whole numbers
alone. The values come from the exact functions of the other generators."""
import sys
from random import Random

sys.dont_write_bytecode = True

import fix_elem_tables as elem
import fix_num_tables as num
import fix_trig_tables as trig
import table_lookup_tables as look

ONE, MOST = num.ONE, num.MAX
half, add, sub, mul, div = num.half, look.add, look.sub, look.mul, look.div
random = Random(7)


def raw(numerator, denominator=1):
    return numerator * ONE // denominator


def number():
    """A number of one of several sizes, of either sign."""
    return random.choice((-1, 1)) * random.getrandbits(random.choice((20, 31, 32, 33, 34, 36, 40, 50, 62)))


def small():
    """A number of at most 8 in size."""
    return random.randint(-8 * ONE, 8 * ONE)


ENDS = [0, 1, -1, ONE, -ONE, MOST, -MOST]
FLOATS = ENDS + [raw(1, 2), raw(-5, 2), raw(7, 3), raw(31), raw(-40), number(), number()]
WORKED = {
    "Pow": [(raw(1, 2), raw(2)), (0, 0), (raw(-2), raw(3)), (raw(-2), raw(1, 2)), (raw(2), raw(1, 2))],
    "Atan2": [(0, -ONE), (ONE, ONE), (0, 0)],
}
TWO_FLOATS = [(0, 0), (0, ONE), (0, -ONE), (MOST, MOST), (-MOST, MOST), (MOST, -MOST), (ONE, 1), (raw(7, 2), raw(-3, 2)), (raw(-7, 2), raw(3, 2)), (raw(3), raw(4)), (1, -MOST), (number(), number())]
# both ends of the halves, what lies beyond them, the least half, and others
HALVES = [0, ONE, -ONE, raw(65504), raw(-65504), 256, -256, raw(1, 2), raw(3), raw(16), raw(-5, 4), half(raw(1, 10))]
TWO_HALVES = [(0, 0), (raw(65504), raw(2)), (raw(-2), raw(3)), (raw(-2), raw(1, 2)), (raw(2), raw(1, 2)), (raw(1, 2), raw(11)), (raw(2), raw(-24)), (raw(2), raw(-25)), (256, ONE), (raw(65504), raw(-1)), (half(raw(1, 10)), raw(2))]

UNARY = {
    "Exp": elem.exp, "Log": elem.log, "Log10": elem.log10, "Pow10": elem.pow10, "Sqrt": elem.sqrt, "Fabs": abs,
    "Floor": lambda x: num.sat(x // ONE * ONE), "Sin": lambda x: trig.sin_cos(x)[0], "Cos": lambda x: trig.sin_cos(x)[1],
    "Tan": trig.tan, "Asin": trig.asin, "Acos": trig.acos, "Atan": trig.atan,
}
BINARY = {"Pow": elem.pow, "Fmod": elem.fmod, "Hypot": elem.hypot, "Atan2": trig.atan2}


def dot(a, b):
    total = None
    for x, y in zip(a, b):
        total = mul(x, y) if total is None else add(total, mul(x, y))
    return total


def cross(a, b):
    return [sub(mul(a[i], b[j]), mul(a[j], b[i])) for i, j in ((1, 2), (2, 0), (0, 1))]


def rows(n, words):
    return [words[i : i + n] for i in range(0, len(words), n)]


def flat(m):
    return [x for row in m for x in row]


def vectors(n):
    """Lists of n numbers: worked ones, the ends of the range, and others."""
    lists = [[raw(i + 1) for i in range(n)], [raw((-1) ** i, i + 1) for i in range(n)], [0] * n, [MOST] * n, [-MOST] * n, [MOST if i % 2 else -MOST for i in range(n)]]
    return lists + [[small() for _ in range(n)] for _ in range(3)] + [[number() for _ in range(n)] for _ in range(2)]


def matrices(n):
    """Matrices of n by n: among them singular ones, the identity, and one with a determinant of one raw."""
    singular = [[raw(i + 1) for _ in range(n)] for i in range(n)]
    identity = [[ONE if i == j else 0 for j in range(n)] for i in range(n)]
    least = [[(1 if i == 0 else ONE) if i == j else 0 for j in range(n)] for i in range(n)]
    return [flat(singular), flat(identity), flat(least)] + vectors(n * n)[1:]


def pairs_of(lefts, rights):
    return [a + b for a, b in zip(lefts, rights[1:] + rights[:1])]


def vector_cases():
    threes, pairs = vectors(3), pairs_of(vectors(3), vectors(3))
    scaled = lambda words: [mul(words[0], x) for x in words[1:]]
    yield "AddF3F3", [(w, [add(a, b) for a, b in zip(w[:3], w[3:])]) for w in pairs]
    yield "SubtractF3F3", [(w, [sub(a, b) for a, b in zip(w[:3], w[3:])]) for w in pairs]
    yield "MultFF3", [(w, scaled(w)) for w in vectors(4)]
    yield "DotF3F3", [(w, [dot(w[:3], w[3:])]) for w in pairs]
    yield "CrossF3F3", [(w, cross(w[:3], w[3:])) for w in pairs]
    yield "LengthF3", [(w, [elem.sqrt(dot(w, w))]) for w in threes]
    worked = [[raw(1), raw(2), raw(3)] + [raw(x) for x in (1, 0, 0, 0, 2, 0, 1, 0, 1)]]
    yield "MultF3F33", [(w, [dot(w[:3], [row[j] for row in rows(3, w[3:])]) for j in range(3)]) for w in worked + pairs_of(threes, matrices(3))]
    def through(w):
        x, m = w[:3], rows(4, w[3:])
        s = [add(dot(x, [row[j] for row in m[:3]]), m[3][j]) for j in range(4)]
        return [div(s[j], s[3]) for j in range(3)]
    yield "MultF3F44", [(w, through(w)) for w in pairs_of(threes, matrices(4))]


def matrix_cases():
    scaled = lambda words: [mul(words[0], x) for x in words[1:]]
    for n, name in ((3, "F33"), (4, "F44")):
        squares, pairs = matrices(n), pairs_of(matrices(n), matrices(n))
        def product(w):
            a, b = rows(n, w[: n * n]), rows(n, w[n * n :])
            return [dot(a[i], [row[j] for row in b]) for i in range(n) for j in range(n)]
        yield f"Mult{name}{name}", [(w, product(w)) for w in pairs]
        yield f"MultF{name}", [(w, scaled(w)) for w in vectors(n * n + 1)]
        yield f"Add{name}{name}", [(w, [add(a, b) for a, b in zip(w[: n * n], w[n * n :])]) for w in pairs]
        yield f"Transpose{name}", [(w, [rows(n, w)[j][i] for i in range(n) for j in range(n)]) for w in squares]
        yield f"Invert{name}", [(w, flat(look.inverse(rows(n, w)))) for w in squares]


def colour_cases():
    decimal = lambda text: num.decimal(text.encode())
    rec709 = [decimal(t) for t in "0.64 0.33 0.3 0.6 0.15 0.06 0.3127 0.329".split()]
    cases = [rec709 + [ONE], rec709 + [raw(100)], rec709 + [0], [0] * 8 + [ONE], [raw(1, 3)] * 8 + [ONE], [MOST] * 9, [-MOST] * 9]
    cases += [[x + random.randint(-ONE // 8, ONE // 8) for x in rec709] + [abs(small())] for _ in range(4)]
    matrix = lambda w: flat_of(look.rgb_to_xyz(rows(2, w[:8]), w[8]))
    yield "RgbToXyz", [(w, matrix(w)) for w in cases]
    yield "XyzToRgb", [(w, flat(look.inverse(rows(4, matrix(w))))) for w in cases]


def flat_of(m):
    return flat(m) if isinstance(m[0], (list, tuple)) else list(m)


def spread_cases():
    """A table, the least and the greatest place, a place, and the line and the curve there."""
    worked = [0, ONE, raw(4)]
    tables = [worked, [raw(5)], [MOST, -MOST], [small() for _ in range(7)]]
    places = [(0, raw(2), raw(3, 2)), (0, raw(2), -ONE), (0, raw(2), raw(9)), (ONE, ONE, ONE), (raw(2), 0, ONE), (-MOST, MOST, 1), (0, 1, MOST), (small(), 9 * ONE, small())]
    return [(t, p, look.lookup(t, *p), look.lookup_cubic(t, *p)) for t in tables for p in places[: 8 if t is worked else 3]]


def pair_cases():
    """A table of pairs, a place, and the line and the curve there."""
    peak = [(0, 0), (ONE, raw(10)), (raw(2), 0)]
    crossed = [(ONE, MOST), (ONE, -MOST), (0, ONE)]
    many = sorted((small(), small()) for _ in range(4))
    places = [(peak, p) for p in (raw(5, 4), 0, raw(2), -MOST, MOST)] + [(t, p) for t in ([(ONE, raw(7))], crossed, many) for p in (ONE, raw(1, 3), raw(-3))]
    return [(flat(t), p, look.interpolate(t, p, False), look.interpolate(t, p, True)) for t, p in places]


def lattice_cases():
    """The sizes of a table, its words, the least and the greatest point and a point, and the words there."""
    cube = [raw(c) for i in (0, 1) for j in (0, 1) for k in (0, 1) for c in (i, j, k)]
    unit = [0] * 3 + [ONE] * 3
    cases = [((2, 2, 2), cube, p) for p in (unit + [raw(1, 4), raw(1, 2), raw(3, 4)], unit + [-ONE, raw(9), 0], unit[3:] + unit[:3] + [raw(1, 2)] * 3)]
    for counts in ((1, 1, 1), (1, 2, 3), (3, 1, 2), (2, 3, 1)):
        t = [small() for _ in range(3 * counts[0] * counts[1] * counts[2])]
        cases += [(counts, t, [0, 0, -ONE, ONE, raw(2), ONE] + [small() // 8 for _ in range(3)]) for _ in range(2)]
    return [(n, t, p, look.lookup3(t, n, p[:3], p[3:6], p[6:])) for n, t, p in cases]


CONSTANTS = {
    "M_PI": num.decimal(b"3.141592653589793238"), "M_E": num.decimal(b"2.718281828459045235"), "HALF_MAX": raw(65504), "FLT_MAX": MOST,
    "INT_MAX": 2**31 - 1, "INT_MIN": -(2**31), "UINT_MAX": 2**32 - 1,
}


def words(xs):
    return f"[{', '.join(map(str, xs))}]"


def constant_name(name):
    return "".join("_" + c if c.isupper() and k else c.upper() for k, c in enumerate(name))


def show(name, comment, kind, lines):
    print(f"\n// {comment}")
    print(f"pub(super) static {name}: [{kind}; {len(lines)}] = [")
    for line in lines:
        print(f"    ({line}),")
    print("];")


def main():
    print("file: crates/number_rows/src/library/tables.rt")
    print("//! Arguments of each function, and what it gives.")
    print("//!")
    print("//! Printed by tools/ctl_stdlib_tables.py.\n")
    print("// The words of the arguments, and the words that are filled.")
    print("pub(super) type Case = (&'static [i64], &'static [i64]);")
    cases = [(name, [([x], [f(x)]) for x in FLOATS]) for name, f in UNARY.items()]
    cases += [(name, [(list(p), [f(*p)]) for p in WORKED.get(name, []) + TWO_FLOATS]) for name, f in BINARY.items()]
    cases += [(f"{name}H", [([x], [half(UNARY[name](x))]) for x in HALVES]) for name in ("Exp", "Log", "Log10", "Pow10")]
    cases += [("PowH", [(list(p), [half(elem.pow(*p))]) for p in TWO_HALVES])]
    cases += list(vector_cases()) + list(matrix_cases()) + list(colour_cases())
    for name, table in cases:
        assert len(table) >= 10, name
        show(constant_name(name), f"{name}.", "Case", [f"&{words(args)}, &{words(out)}" for args, out in table])
    show("SPREAD", "A table, the least and the greatest place, a place, and the line and the curve there.", "(&[i64], [i64; 3], i64, i64)",
         [f"&{words(t)}, {words(p)}, {line}, {curve}" for t, p, line, curve in spread_cases()])
    show("PAIRED", "A table of pairs, a place, and the line and the curve there.", "(&[i64], i64, i64, i64)",
         [f"&{words(t)}, {p}, {line}, {curve}" for t, p, line, curve in pair_cases()])
    show("LATTICE", "The sizes of a table, its words, two ends and a point, and the words there.", "([u32; 3], &[i64], [i64; 9], [i64; 3])",
         [f"{words(n)}, &{words(t)}, {words(p)}, {words(out)}" for n, t, p, out in lattice_cases()])
    show("CONSTANTS", "The name of each constant, and its word.", "(&[u8], i64)", [f'b"{name}", {word}' for name, word in CONSTANTS.items()])


if __name__ == "__main__":
    main()
