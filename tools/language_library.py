"""The library of the Color Transformation Language: its rows with their shapes, what each gives on values, its struct
and its constants. The numbers come from the exact functions of the generators of tables."""
import ctl_stdlib_tables as library
import fix_elem_tables as elem
import fix_num_tables as num
import table_lookup_tables as look
from language_types import BOOL, FLOAT, HALF, INT, UNSIGNED, Array, ConstantValue, Struct, StructType


def array(*sizes, element=FLOAT):
    for size in reversed(sizes):
        element = Array(element, size)
    return element


F3, F33, F44 = array(3), array(3, 3), array(4, 4)
TABLE, PAIRS, CUBE = array(None), array(None, 2), array(None, None, None, 3)
POINT = array(2)
CHROMATICITIES = Struct(0)
STRUCT = StructType("Chromaticities", tuple((name, POINT) for name in ("red", "green", "blue", "white")))
KINDS_OF_CONSTANTS = {
    "M_PI": FLOAT, "M_E": FLOAT, "HALF_MAX": HALF, "FLT_MAX": FLOAT, "INT_MAX": INT, "INT_MIN": INT, "UINT_MAX": UNSIGNED,
}
CONSTANTS = [ConstantValue(name, kind, library.CONSTANTS[name]) for name, kind in KINDS_OF_CONSTANTS.items()]


class Row:
    """A function of the library: the shapes of its parameters, of which the last ones may be outputs, its result, and
    what it gives: a value, a list of outputs, or for an assert whether it is true."""

    def __init__(self, parameters, result, function, outputs=0):
        self.parameters, self.result, self.function, self.outputs = parameters, result, function, outputs

    def is_output(self, place):
        return place >= len(self.parameters) - self.outputs


def tuples(rows):
    return tuple(tuple(row) if isinstance(row, (list, tuple)) else row for row in rows)


def lists(rows):
    return [list(row) for row in rows]


def each(function, *rows):
    """A function on each number of vectors or matrices of one shape."""
    if isinstance(rows[0], int):
        return function(*rows)
    return tuple(each(function, *entries) for entries in zip(*rows))


def scaled(a, rows):
    return each(lambda x: look.mul(a, x), rows)


def half_of(function):
    return lambda *numbers: num.half(function(*numbers))


def lookup3(table, low, high, point):
    counts = (len(table), len(table[0]), len(table[0][0]))
    words = [word for plane in table for row in plane for entry in row for word in entry]
    return tuple(look.lookup3(words, counts, low, high, point))


def invert(m):
    return tuples(look.inverse(lists(m)))


def to_xyz(points, luminance):
    return tuples(look.rgb_to_xyz(points, luminance))


def product(a, b):
    return tuples(look.times(a, b))


ROWS = {name.lower(): Row([FLOAT], FLOAT, function) for name, function in library.UNARY.items()}
ROWS |= {name.lower(): Row([FLOAT, FLOAT], FLOAT, function) for name, function in library.BINARY.items()}
ROWS |= {name + "_h": Row([HALF], HALF, half_of(ROWS[name].function)) for name in ("exp", "log", "log10", "pow10")}
ROWS |= {
    "pow_h": Row([HALF, HALF], HALF, half_of(elem.pow)),
    "add_f3_f3": Row([F3, F3], F3, lambda a, b: each(look.add, a, b)),
    "subtract_f3_f3": Row([F3, F3], F3, lambda a, b: each(look.sub, a, b)),
    "mult_f_f3": Row([FLOAT, F3], F3, scaled),
    "dot_f3_f3": Row([F3, F3], FLOAT, library.dot),
    "cross_f3_f3": Row([F3, F3], F3, lambda a, b: tuple(library.cross(a, b))),
    "length_f3": Row([F3], FLOAT, lambda a: elem.sqrt(library.dot(a, a))),
    "mult_f3_f33": Row([F3, F33], F3, lambda x, m: product([x], m)[0]),
    "mult_f3_f44": Row([F3, F44], F3, lambda x, m: tuple(look.through(x, m))),
    "mult_f33_f33": Row([F33, F33], F33, product),
    "mult_f44_f44": Row([F44, F44], F44, product),
    "mult_f_f33": Row([FLOAT, F33], F33, scaled),
    "mult_f_f44": Row([FLOAT, F44], F44, scaled),
    "add_f33_f33": Row([F33, F33], F33, lambda a, b: each(look.add, a, b)),
    "add_f44_f44": Row([F44, F44], F44, lambda a, b: each(look.add, a, b)),
    "transpose_f33": Row([F33], F33, lambda m: tuples(zip(*m))),
    "transpose_f44": Row([F44], F44, lambda m: tuples(zip(*m))),
    "invert_f33": Row([F33], F33, invert),
    "invert_f44": Row([F44], F44, invert),
    "lookup1D": Row([TABLE, FLOAT, FLOAT, FLOAT], FLOAT, look.lookup),
    "lookupCubic1D": Row([TABLE, FLOAT, FLOAT, FLOAT], FLOAT, look.lookup_cubic),
    "interpolate1D": Row([PAIRS, FLOAT], FLOAT, lambda t, p: look.interpolate(t, p, False)),
    "interpolateCubic1D": Row([PAIRS, FLOAT], FLOAT, lambda t, p: look.interpolate(t, p, True)),
    "lookup3D_f3": Row([CUBE, F3, F3, F3], F3, lookup3),
    "lookup3D_f": Row(
        [CUBE, F3, F3] + 6 * [FLOAT], None, lambda t, low, high, *point: lookup3(t, low, high, point), outputs=3
    ),
    "RGBtoXYZ": Row([CHROMATICITIES, FLOAT], F44, to_xyz),
    "XYZtoRGB": Row([CHROMATICITIES, FLOAT], F44, lambda c, y: invert(to_xyz(c, y))),
    "assert": Row([BOOL], None, lambda value: value != 0),
}
