"""Programs to be run: the texts of the tests of the evaluator.

A case is a text and its runs. A run is the list of the inputs of the entry, or a pair of the turns and that list. An
input of a float or half is given by its number, or as `r` and its raw; an array or structure by a list.
"""
from grammar_texts import STAGES

KINDS = {"b": "bool", "i": "int", "u": "unsigned", "h": "half", "f": "float"}
ORDER = list(KINDS.values())
HEAD = "void main(bool b, int i, unsigned u, half h, float f, "
MOST = "r9223372036854775807"
LEAST = "r-9223372036854775807"
MIXED = [
    [1, 7, 3, 2.5, 0.75], [0, -7, 4294967295, -0.125, 2147483647.5], [1, 2147483647, 2147483648, 65504, MOST],
    [0, -2147483648, 0, 0, 0], [1, -1, 33, -65504, LEAST], [1, 1, 1, 1, 1], [0, 0, 5, "r256", "r1"],
]


def work_kind(left, right):
    return max("int", KINDS[left], KINDS[right], key=ORDER.index)


def pairs(sign, names, result=work_kind):
    """A program that gives the value of an operator on each pair of these kinds."""
    both = [(left, right) for left in names for right in names]
    outputs = ", ".join(f"output {result(left, right)} {left}_{right}" for left, right in both)
    body = " ".join(f"{left}_{right} = {left} {sign} {right};" for left, right in both)
    return f"{HEAD}{outputs}) {{ {body} }}", *MIXED


def truth(left, right):
    return "bool"


def same(kind, signs, runs):
    """A program that gives the value of each of these operators on two numbers of one kind."""
    names = [f"o{k}" for k in range(len(signs))]
    outputs = ", ".join(f"output {kind if len(s) < 3 and s not in COMPARISONS else 'bool'} {n}" for s, n in zip(signs, names))
    body = " ".join(f"{name} = a {sign} b;" for sign, name in zip(signs, names))
    return f"void main({kind} a, {kind} b, {outputs}) {{ {body} }}", *runs


COMPARISONS = "== != < <= > >=".split()
ARITHMETIC = "+ - * /".split()
BITS = "% & | ^ << >>".split()
INTS = [(7, 2), (-7, 2), (7, -2), (-7, -2), (7, 0), (-7, 0), (0, 0), (2147483647, 1), (-2147483648, -1), (-2147483648, 1), (65536, 65536),
        (1, 31), (1, 32), (1, 33), (-1, 31), (-1, -1), (-2147483648, 31), (1431655765, 252645135), (2147483647, 2147483647), (-5, 3)]
UNSIGNEDS = [(7, 2), (7, 0), (0, 0), (0, 1), (4294967295, 1), (4294967295, 4294967295), (65536, 65536), (1, 31), (1, 32), (1, 33), (2147483648, 31), (3, 4294967295)]
HALVES = [(1, 3), (65504, 65504), (-65504, 65504), ("r256", 0.5), ("r256", 0.25), (1, "r256"), (2048, 1), (2048, 3), (1, 0), (-1, 0), (0, 0), (0.5, -0.25), (1024, 1024), ("r-256", "r256")]
FLOATS = [(1, 3), (-1, 3), (1, -3), (1, 0), (-1, 0), (0, 0), (60000, 60000), (-60000, 60000), (MOST, MOST), (MOST, LEAST), (LEAST, LEAST), ("r1", 0.5), ("r-1", 0.5), ("r3", 0.5), ("r1", "r1"), (2.5, 2.5), (MOST, "r1"), (0.125, 8)]


def converts(kind, runs):
    """A program that converts a number to each kind in an initialiser, an assignment, an argument, a return, an element
    and a test."""
    parts = []
    for other in ORDER:
        parts.append(f"{other} from_{other}({kind} x) {{ return x; }} {other} to_{other}({other} x) {{ return x; }} ")
    outputs = ", ".join(f"output {other} {way}_{other}" for other in ORDER for way in ("made", "set", "given", "left", "listed"))
    body = " ".join(
        f"{other} {other}1 = a; made_{other} = {other}1; set_{other} = a; given_{other} = to_{other}(a); left_{other} = from_{other}(a); "
        f"{other} {other}2[2] = {{ a, 1 }}; listed_{other} = {other}2[0];"
        for other in ORDER
    )
    test = "if (a) tested = true; for (int k = 0; a && k < 1; k = k + 1) turned = true;"
    return "".join(parts) + f"void main({kind} a, {outputs}, output bool tested, output bool turned) {{ {body} {test} }}", *[[run] for run in runs]


WHOLE_EDGES = [0, 1, 2, 2048, 2049, 2051, 65504, 65519, 65520, 65521, 2147483647]
POINT_EDGES = [0, 0.5, -0.5, 1, -1, 1.5, -1.5, 2147483647, -2147483647, "r1", "r-1", "r128", "r129", 65519, 65520, 2049, 2051, MOST, LEAST, 0.9990234375]

PROGRAMS = [
    ("operators on each pair of kinds", [pairs(sign, "biuhf") for sign in ARITHMETIC]),
    ("comparisons of each pair of kinds", [pairs(sign, "biuhf", truth) for sign in COMPARISONS]),
    ("logic on each pair of kinds", [pairs(sign, "biuhf", truth) for sign in ("&&", "||")]),
    ("operators on whole numbers", [pairs(sign, "biu") for sign in BITS]),
    ("operators at the ends of each kind", [
        same("int", ARITHMETIC + BITS + COMPARISONS, map(list, INTS)),
        same("unsigned", ARITHMETIC + BITS + COMPARISONS, map(list, UNSIGNEDS)),
        same("half", ARITHMETIC + COMPARISONS, map(list, HALVES)),
        same("float", ARITHMETIC + COMPARISONS, map(list, FLOATS)),
        ("void main(bool a, bool b, output int o0, output int o1, output int o2, output int o3, output int o4, output int o5, output int o6, output bool o7, output int o8) "
         "{ o0 = a + b; o1 = a - b; o2 = a * b; o3 = a / b; o4 = a % b; o5 = a << b; o6 = a | b ^ b; o7 = a < b; o8 = a >> b & 1; }", [0, 0], [0, 1], [1, 0], [1, 1]),
    ]),
    ("unary operators", [
        ("void main(int a, output int o0, output int o1, output bool o2, output int o3) { o0 = -a; o1 = +a; o2 = !a; o3 = ~a; }", [0], [1], [-1], [2147483647], [-2147483648]),
        ("void main(unsigned a, output unsigned o0, output unsigned o1, output bool o2, output unsigned o3) { o0 = -a; o1 = +a; o2 = !a; o3 = ~a; }", [0], [1], [4294967295], [2147483648]),
        ("void main(bool a, output int o0, output int o1, output bool o2, output int o3, output float o4) { o0 = -a; o1 = +a; o2 = !a; o3 = ~a; o4 = -a; }", [0], [1]),
        ("void main(half a, output half o0, output half o1, output bool o2) { o0 = -a; o1 = +a; o2 = !a; }", [0], [1], [-65504], ["r256"]),
        ("void main(float a, output float o0, output float o1, output bool o2, output float o3) { o0 = -a; o1 = +a; o2 = !a; o3 = - -a - -a; }", [0], [1], [MOST], [LEAST], ["r1"]),
        ("void main(unsigned a, output unsigned x, output float y, output int z) { x = -2147483648; y = -2147483648; z = -2147483648; if (-a > 0) z = 1; }", [0], [1]),
        ("void main(output int x, output unsigned y, output float z) { x = 2147483647 + 1; y = 4294967295 + 1; z = 4294967295; }", []),
    ]),
    ("conversions", [
        converts("bool", [0, 1]),
        converts("int", WHOLE_EDGES + [-1, -2048, -2049, -2051, -65520, -2147483648, -2147483647]),
        converts("unsigned", WHOLE_EDGES + [2147483648, 4294967295, 2147483649]),
        converts("half", [0, 0.5, -0.5, 1.5, -1.5, 65504, -65504, "r256", "r-256", 1025]),
        converts("float", POINT_EDGES),
        ("void g(output int x) { x = x + 1; } void h(output half x) { x = x / 3; } void main(float a, output float o, output half p, output unsigned q, output bool r, output int s) "
         "{ o = a; g(o); p = a; g(p); q = a; g(q); r = a; g(r); s = a; h(s); }", [2.75], [-2.75], [0], [2147483647], [65504]),
        ("float f(half x) { return x; } half g(float x) { return x; } void main(float a, output float x, output half y, output float z) { x = f(a); y = g(a); z = g(f(a)) + a; }", [0.1 - 0.1 % 2**-32], [2049], [70000]),
        ("void main(float a, output bool x, output int y) { bool t[3] = { a, 2 * a, a - a }; x = t[0] && t[1] && !t[2]; y = t[a > 1] + t[1]; }", [0], [0.25], [2]),
        ("const half c = 0.1; const int d = 2.99; const unsigned e = -1.5; const bool g = 0.25; const float k = 0.1h; void main(output float a, output float b, output float x, output float y, output float z) { a = c; b = d; x = e; y = g; z = k; }", []),
    ]),
]
PATHS = (
    "struct P { float x; int n[2]; } struct Q { P p[3]; float m[2][3]; } "
)
PROGRAMS += [
    ("arrays and structures", [
        ("void main(float a, output float o[3]) { float t[3]; o = t; o[1] = a; t = o; o[0] = t[1] + 1; }", [2.5]),
        ("void main(int k, output float o) { float t[2][3] = { { 1, 2, 3 }, { 4, 5, 6 } }; float s[3] = t[k]; t[k][0] = 9; o = s[0] * 100 + t[1][0] * 10 + t[0][2]; }", [0], [1]),
        (PATHS + "void main(int k, float a, output float o0, output int o1, output float o2) { Q q; q.p[k].x = a; q.p[k].n[1] = a; q.m[1][k] = -a; Q r[2]; r[1] = q; r[1].p[k].x = a + 1; q.p[0] = r[1].p[k]; o0 = q.p[0].x; o1 = q.p[0].n[1] + r[0].p[k].n[1]; o2 = r[1].m[1][k]; }", [0, 2.5], [2, -1.25]),
        (PATHS + "const Q c = { { { 1, { 2, 3 } }, { 4, { 5, 6 } }, { 7, { 8, 9 } } }, { { 1, 2, 3 }, { 4, 5, 6 } } }; void main(int k, output float o0, output float o1) { o0 = c.p[k].n[k > 1] * 10 + c.p[2 - k].x; o1 = c.m[k % 2][k]; }", [0], [1], [2]),
        (PATHS + "P made(float x) { P p = { x, { x + 1, x + 2 } }; return p; } void main(float a, output float o) { o = made(a).x + made(a).n[1] + made(a).n.size; }", [0.5]),
        (PATHS + "void set(output P p, float x) { p.x = x; p.n[0] = x; } void main(output float o, output int n) { P t[2]; set(t[1], 2.5); set(t[0], t[1].x + 1); o = t[0].x * 10 + t[1].x; n = t[0].n[0] * 10 + t[1].n[0]; }", []),
        ("float sum(float a[]) { float s = 0; for (int i = 0; i < a.size; i = i + 1) s = s + a[i]; return s; } void main(output float o0, output float o1, output float o2) { float a[] = { 1, 2, 3 }; float b[2][4] = { { 1, 2, 3, 4 }, { 5, 6, 7, 8 } }; o0 = sum(a); o1 = sum(b[1]); float c[1]; o2 = sum(c); }", []),
        ("int sizes(float a[][2], float b[3][2]) { return a.size * 100 + a[0].size * 10 + b.size; } void main(output int o) { float a[5][2]; float b[3][2]; o = sizes(a, b) + sizes(b, b); }", []),
        ("float last(float a[]) { float b[] = a; b[0] = 9; float c[] = b; return c[c.size - 1] * 10 + a[0] + c[0] * 100; } void main(output float o, output float p) { float a[3] = { 1, 2, 3 }; float b[1] = { 4 }; o = last(a); p = last(b); }", []),
        ("void fill(output float a[], float x) { for (int i = 0; i < a.size; i = i + 1) a[i] = x + i; } void main(output float o[4], output float p) { fill(o, 0.5); float t[2][2]; fill(t[1], 3); p = t[0][0] + t[1][0] * 10 + t[1][1]; }", []),
        ("void twice(output float a[]) { for (int i = 0; i < a.size; i = i + 1) a[i] = a[i] * 2; } void deep(output float a[]) { twice(a); twice(a); } void main(output float o[3]) { o[0] = 1; o[1] = 2; o[2] = 3; deep(o); }", []),
        ("void main(output float o[2][2] = { { 1, 2 }, { 3, 4 } }, output int n = 7, output half h = 0.1) { o[1][0] = n; n = o[0][1] + n; }", []),
        ("void main(float a[3], half b[2][2], output float o[3], output half p[2]) { o = a; p = b[1]; o[0] = b[0][1]; }", [[1, 2, 3], [[1, 2], [3, "r256"]]]),
        ("struct S { float a[2]; } void main(output float o) { S s; S t = s; t.a[1] = 1; S u[2] = { s, t }; u[0] = u[1]; u[1].a[1] = 5; o = s.a[1] * 100 + u[0].a[1] * 10 + u[1].a[1]; }", []),
        ("void main(bool b, unsigned u, output int o) { int t[2] = { 3, 4 }; o = t[b] * 10 + t[u]; }", [0, 1], [1, 0]),
        ("struct S { float size; int n[3]; } void main(output float o, output int p) { S s; s.size = 2.5; o = s.size; p = s.n.size; }", []),
    ]),
    ("order and outputs", [
        ("void f(output float a, output float b) { a = 0.25; b = 0.75; } void main(output float o) { float x = 0; f(x, x); o = x; }", []),
        ("void f(output float a, output float b) { b = 0.75; a = 0.25; } void main(output float o) { float x = 0; f(x, x); o = x; }", []),
        ("void f(output float a, output float b) { a = a + 1; b = b + a; } void main(output float o) { float x = 5; f(x, x); o = x; }", []),
        ("void f(output int i, output float x) { i = 2; x = 7; } void main(output float o[3], output int k) { k = 0; f(k, o[k]); }", []),
        ("void f(output float x, output int i) { i = 2; x = 7; } void main(output float o[3], output int k) { k = 1; f(o[k], k); }", []),
        ("void f(output int i, output float x) { i = 9; x = 7; } void main(output float o[3], output int k) { k = 1; f(k, o[k]); o[0] = k; }", []),
        ("void f(output float a[], output float x) { a[0] = 1; a[1] = 2; x = 9; } void main(output float o[2]) { f(o, o[0]); }", []),
        ("void f(output float x, output float a[]) { a[0] = 1; a[1] = 2; x = 9; } void main(output float o[2]) { f(o[0], o); }", []),
        ("int step(output int k) { k = k + 1; return k; } void main(output int o, output int p) { int k = 1; o = step(k) * 100 + step(k) * 10 + k; p = k + step(k) + k; }", []),
        ("int step(output int k) { k = k + 1; return k; } void main(output float o[4], output int k) { k = 0; o[step(k)] = k * 10 + step(k); }", []),
        ("int step(output int k) { k = k + 1; return k; } void main(output float o[4], output int k) { k = 0; o[k] = step(k); o[step(k)] = step(k); }", []),
        ("int step(output int k) { k = k + 1; return k; } int three(int a, int b, int c) { return a * 100 + b * 10 + c; } void main(output int o) { int k = 0; o = three(step(k), step(k), k); }", []),
        ("int step(output int k) { k = k + 1; return k; } void main(output int o[3]) { int k = 0; int t[3] = { step(k), step(k), step(k) }; o = t; }", []),
        ("int step(output int k) { k = k + 1; return k; } void main(int a, output int o, output bool p) { int k = 0; p = a && step(k) > 1 && step(k); o = k; }", [0], [1]),
        ("int step(output int k) { k = k + 1; return k; } void main(int a, output int o, output bool p) { int k = 0; p = a || step(k) > 1 || step(k) || step(k); o = k; }", [0], [1]),
        ("int step(output int k) { k = k + 1; return k; } void main(output int o) { int k = 0; print(step(k), \"and\", step(k), k); o = k; }", []),
        ("int step(output int k) { k = k + 1; return k; } void main(output int o) { int k = 0; step(k); step(k); if (step(k) > 5) k = 100; else if (step(k) == 4) k = k + 10; else k = 200; o = k; }", []),
        ("void swap(output float a, output float b) { float c = a; a = b; b = c; } void main(float a, float b, output float o[2]) { o[0] = a; o[1] = b; swap(o[0], o[1]); }", [1, 2]),
        ("void inner(output float x) { x = x * 2; } void outer(output float x, output float y) { inner(x); inner(y); x = x + y; } void main(output float o, output float p) { o = 1; p = 10; outer(o, p); outer(p, o); }", []),
        ("void f(float a, output float b) { b = a; }" + " void main(output float o) { o = 1; float x = 3; f(x + o, o); f(o, x); o = o + x; }", []),
        ("void main(float rIn, output float rOut = 0.5, output float gOut) { gOut = rOut; rOut = rOut + rIn; }", [1], [0.25]),
        ("int f(int a, int b = 5, float c = 2.5) { return a * 100 + b * 10 + c; } void main(output int o, output int p, output int q) { o = f(1); p = f(1, 2); q = f(1, 2, 3); }", []),
        ("const int n = 2; int f(float a[] = { 1, 2, 3 }, int b = n) { return a.size * 10 + b; } void main(output int o, output int p) { o = f(); float t[5]; p = f(t, 7); }", []),
        ("float g(float x) { float x2 = x * x; return x2; } float h(float x) { return g(x) + g(x + 1); }" + " void main(float x, output float o) { o = h(x) - g(x); }", [2], [0.5]),
        ("void f(output int a, output int b, output int c) { a = 1; b = 2; c = 3; } void main(output int o[2], output int k) { k = 1; f(k, o[k], o[k - 1]); }", []),
    ]),
    ("calls", [
        ("int f1(int x) { return x + 1; } " + " ".join(f"int f{k}(int x) {{ return f{k - 1}(x) + {k}; }}" for k in range(2, 32)) + " void main(int x, output int o) { o = f31(x); }", [0], [2147483647]),
        ("void f1(output int x) { x = x + 1; } " + " ".join(f"void f{k}(output int x) {{ f{k - 1}(x); x = x * 2 - {k}; }}" for k in range(2, 32)) + " void main(output int o) { o = 3; f31(o); }", []),
        ("float[2] f1(float x[2]) { float y[2] = { x[1], x[0] }; return y; } " + " ".join(f"float[2] f{k}(float x[2]) {{ return f{k - 1}(f1(x)); }}" for k in range(2, 9)) + " void main(float a, float b, output float o[2]) { float x[2] = { a, b }; o = f8(x); }", [1, 2]),
        ("int f(int n) { int s = 0; int n_ = n; while (n_ > 0) { s = s + n_; n_ = n_ - 1; } return s; }" + " void main(int n, output int o) { o = f(n) + f(n - 1); }", [4], [0], [-3]),
        ("namespace n { const float k = 0.5; float scale(float x) { return x * k; } } const float k = 2; float scale(float x) { return n::scale(x) * k * 8; } void main(float x, output float o) { o = scale(x) + n::scale(x); }", [1], [-0.75]),
        ("int pick(int a) { if (a == 0) return 10; else if (a == 1) { return 20; } for (int i = 0; i < 5; i = i + 1) { if (i == a) return 30 + i; while (true) { if (a > 100) return 99; return 40; } } return 50; } void main(int a, output int o) { o = pick(a); }", [0], [1], [2], [101]),
        ("void early(int a, output float o) { o = 1; if (a) return; o = 2; } void main(int a, output float o) { early(a, o); o = o * 10; }", [0], [1]),
        ("void main(int a, output float o) { o = 1; if (a) return; o = 2; }", [0], [1]),
        ("float v(float x[2]) { return x[0] - x[1]; } void main(output float o) { float a[2][2] = { { 5, 2 }, { 1, 9 } }; o = v(a[0]) * v(a[1]); }", []),
        ("int d(bool a, unsigned b, half c) { return a * 100 + b + c; } void main(float x, output int o) { o = d(x, x, x); }", [2.75], [0], [-1.5]),
        ("float sin(float x) { return x + 1; } void main(float x, output float o, output float p) { o = sin(x); p = sin(sin(x)) + cos(0.0); }", [0.5]),
        ("namespace a { namespace b { int f() { return 1; } } int f() { return b::f() + 10; } } int f() { return a::f() + a::b::f() + 100; } void main(output int o) { o = f() + ::a::f(); }", []),
    ]),
    ("loops and turns", [
        ("void main(int n, output int o) { int i = 0; while (i < n) i = i + 1; o = i; }", [0], [5], (5, [5]), (4, [5]), (0, [0]), (0, [1]), (1, [1])),
        ("void main(int n, output int o) { for (int i = 0; i < n; i = i + 1) o = o + i; }", [5], (5, [5]), (4, [5]), (0, [0]), [-1]),
        ("void main(int n, output int o) { for (int i = 0; i < n; i = i + 1) for (int k = 0; k < i; k = k + 1) o = o + 1; }", [4], (10, [4]), (9, [4]), (5, [4]), (3, [4])),
        ("void main(int n, output int o) { int i; for (i = n; i > 0; i = i - 2) o = o * 10 + i; o = o * 10 + i + 5; }", [5], [4], [0]),
        ("void main(int n, output int o) { int i = 0; while (i < n) { int k; k = k + 1; o = o + k; i = i + 1; } }", [3]),
        ("void main(int n, output int o) { int i = 0; while (i < n) { float t[2]; t[i % 2] = t[i % 2] + i; o = o + t[0] + t[1]; i = i + 1; } }", [4]),
        ("void main(int n, output int o) { for (int i = 0; i < n; i = i + 1) { i = i + 1; o = o + 1; } }", [7]),
        ("void main(int n, output int o) { int i = 0; while (true) { i = i + 1; if (i > n) return; o = i; } }", [3], (3, [3]), (4, [3])),
        ("bool f(output int n) { n = n - 1; return n > 0; } void main(int a, output int o) { int n = a; while (f(n)) o = o + n; o = o * 10 + n; }", [4], [1], (2, [4])),
        ("int f(int n) { int i = 0; while (i < n) i = i + 1; return i; } void main(int n, output int o) { while (f(n) > o) o = o + 1; }", [3], (15, [3]), (14, [3]), (2, [3])),
        ("void main(float x, output float o) { for (float t = x; t; t = t * 0.5) o = o + 1; }", (100, [1]), (100, ["r1"]), (100, [0]), (100, [-1])),
        ("void main(int n, output int o) { for (int i = 0; i < n; i = i + 1) { int i = 10; i = i + 1; o = o + i; } }", [3]),
        ("void main(output int o) { while (true) ; }", (0, []), (100, [])),
        ("void main(output int o) { for (o = 0; true; o = o + 1) { } }", (3, [])),
        ("int f(int n) { for (int i = 0; i < 10; i = i + 1) { if (i == n) return i; } return -1; } void main(int n, output int o, output int p) { o = f(n); p = f(n + 1); }", [3], [9], (8, [3]), (9, [3])),
    ]),
    ("traps", [
        ("void main(int k, output float o) { float a[3]; o = a[k]; }", [0], [2], [3], [-1], [2147483647]),
        ("void main(unsigned k, output float o) { float a[3]; o = a[k]; }", [2], [3], [4294967295]),
        ("void main(int k, output float o[3]) { o[k] = 1; }", [2], [3], [-1]),
        ("void main(int k, int m, output float o[2][3]) { o[k][m] = 1; }", [1, 2], [2, 3], [1, 3], [-1, -1]),
        ("void main(int k, int m, output float o[2]) { float a[2]; o[k] = a[m]; }", [1, 1], [2, 2], [1, 2]),
        ("void main(int k, output float o) { float a[2]; o = a[k] + a[k + 1]; }", [0], [1], [2]),
        ("void main(int k, output bool o) { float a[2]; o = k < 2 && a[k] == 0; }", [0], [2], [-1]),
        ("void main(int k, output bool o) { float a[2]; o = k >= 2 || a[k] == 0; }", [0], [2], [-1]),
        ("void main(float x, output float o) { o = 1; assert(x < 0.5); o = x; }", [0], [0.5], [1]),
        ("void main(float x, output float o) { assert(x); assert(x > 0.5); o = x; }", [0], [0.25], [1], ["r1"]),
        ("void f(float x) { assert(x < 2); } void main(float x, output float o) { f(x); f(x + 1); o = x; }", [0], [1], [2]),
        ("void f(output float x, int k) { x = k; assert(k < 1); } void main(int k, output float o[2]) { f(o[k], k); }", [0], [1], [2]),
        ("int g(int k) { assert(k != 1); return k; } void main(int k, output float o[2]) { float a[2]; o[g(k)] = a[g(k + 1)]; }", [0], [1], [-1], [2]),
        ("int g(int k) { assert(k != 1); return k; } void f(output float x, int k) { } void main(int k, output float o[2]) { f(o[k], g(k + 1)); }", [0], [1], [2]),
        ("int g(int k) { assert(k != 1); return k; } void f(int k, output float x) { } void main(int k, output float o[2]) { f(g(k), o[k + 1]); }", [0], [1], [2]),
        ("void main(int k, output float o) { float a[2]; for (int i = 0; i < k; i = i + 1) o = o + a[i]; }", [2], [3], (2, [3]), (1, [2])),
        ("void main(int k, output float o) { float a[2]; while (a[k] == 0) { o = o + 1; a[k] = 1; } }", [1], [2], (0, [1])),
        ("void main(int k, output float o) { float a[2]; if (a[k] == 0) o = 1; else o = a[k + 5]; }", [0], [2]),
        ("void main(int k, output float o) { float a[2]; print(\"a\", a[k], a[k + 1]); o = 1; }", [0], [1], [2]),
        ("float f(int k) { float a[2]; return a[k]; } void main(int k, output float o) { float b[2] = { f(k), f(k + 1) }; o = 1; }", [0], [1], [2]),
        ("struct S { int n[2]; } void main(int k, output int o) { S s[3]; s[k].n[k] = 5; o = s[k].n[k]; }", [1], [2], [3]),
        ("float f(float a[], int k) { return a[k]; } void main(int k, output float o) { float a[2]; float b[4]; o = f(b, k) + f(a, k); }", [1], [2], [4]),
        ("void main(float x, output float o) { if (x > 0.5) { while (true) ; } o = x; }", (100, [0]), (100, [1])),
        ("void main(int k, output float o) { const float a[2] = { 1, 2 }; const float b = a[k]; o = b; }", [1], [2]),
        ("void main(int k, output int o) { int t[3] = { 1, 2, 5 }; o = t[t[t[k]]]; }", [0], [1], [2], [3]),
    ]),
    ("library", [
        ("void main(float x, output float o[13]) { o[0] = exp(x); o[1] = log(x); o[2] = log10(x); o[3] = pow10(x); o[4] = sqrt(x); o[5] = fabs(x); o[6] = floor(x); o[7] = sin(x); o[8] = cos(x); o[9] = tan(x); o[10] = asin(x); o[11] = acos(x); o[12] = atan(x); }",
         [0], [1], [-1], [0.5], [2.25], [-2.25], [40], [MOST], [LEAST], ["r1"]),
        ("void main(float x, float y, output float o[4]) { o[0] = pow(x, y); o[1] = fmod(x, y); o[2] = hypot(x, y); o[3] = atan2(x, y); }", [0, 0], [2, 0.5], [-2, 3], [-2, 0.5], [7.5, -2], [-7.5, 2], [MOST, LEAST], [1, 1]),
        ("void main(half x, half y, output half o[5]) { o[0] = exp_h(x); o[1] = log_h(x); o[2] = log10_h(x); o[3] = pow10_h(x); o[4] = pow_h(x, y); }", [0, 0], [1, 2], [16, 0.5], [-2, 3], [65504, 65504]),
        ("void main(float a[3], float b[3], output float o[3], output float p[3], output float q[3], output float r[3], output float s, output float t) { o = add_f3_f3(a, b); p = subtract_f3_f3(a, b); q = mult_f_f3(a[0], b); r = cross_f3_f3(a, b); s = dot_f3_f3(a, b); t = length_f3(a); }", [[1, 2, 3], [4, 5, 6.5]], [[-1, 0, 60000], [60000, 2, 60000]]),
        ("void main(float a[3][3], float x[3], output float o[3][3], output float p[3][3], output float q[3][3], output float r[3]) { o = invert_f33(a); p = transpose_f33(a); q = mult_f33_f33(a, add_f33_f33(a, mult_f_f33(x[0], a))); r = mult_f3_f33(x, a); }", [[[2, 0, 1], [0, 4, 0], [1, 0, 8]], [1, 2, 3]], [[[1, 2, 3], [4, 5, 6], [7, 8, 9]], [0, 0, 1]]),
        ("void main(float a[4][4], float x[3], output float o[4][4], output float p[4][4], output float q[4][4], output float r[3]) { o = invert_f44(a); p = transpose_f44(a); q = mult_f44_f44(a, add_f44_f44(a, mult_f_f44(x[0], a))); r = mult_f3_f44(x, a); }", [[[2, 0, 1, 0], [0, 4, 0, 0], [1, 0, 8, 0], [1, 2, 3, 1]], [1, 2, 3]], [[[1, 2, 3, 4], [1, 2, 3, 4], [0, 0, 0, 0], [1, 1, 1, 1]], [0, 0, 1]]),
        ("const float t[3] = { 0, 1, 4 }; const float one[1] = { 7 }; void main(float lo, float hi, float p, output float o, output float q, output float r) { o = lookup1D(t, lo, hi, p); q = lookupCubic1D(t, lo, hi, p); r = lookup1D(one, lo, hi, p) + lookupCubic1D(one, lo, hi, p); }", [0, 2, 1.5], [0, 2, -1], [0, 2, 9], [1, 1, 1], [2, 0, 1]),
        ("const float t[][2] = { { 0, 0 }, { 1, 10 }, { 2, 0 } }; void main(float p, output float o, output float q) { o = interpolate1D(t, p); q = interpolateCubic1D(t, p); }", [1.25], [-1], [0], [2], [0.5]),
        ("float through(float t[][2], float p) { return interpolate1D(t, p); } const float a[2][2] = { { 0, 1 }, { 1, 0 } }; const float b[3][2] = { { 0, 0 }, { 1, 1 }, { 2, 0 } }; void main(float p, output float o) { o = through(a, p) * 10 + through(b, p); }", [0.25], [1.5]),
        ("const float t[2][2][2][3] = { { { { 0, 0, 0 }, { 0, 0, 1 } }, { { 0, 1, 0 }, { 0, 1, 1 } } }, { { { 1, 0, 0 }, { 1, 0, 1 } }, { { 1, 1, 0 }, { 1, 1, 1 } } } }; const float lo[3] = { 0, 0, 0 }; const float hi[3] = { 1, 1, 1 }; "
         "void main(float p[3], output float o[3], output half a, output float b, output int c) { o = lookup3D_f3(t, lo, hi, p); lookup3D_f(t, lo, hi, p[0], p[1], p[2], a, b, c); }", [[0.25, 0.5, 0.75]], [[-1, 2, 1]]),
        ("const float t[1][1][1][3] = { { { { 1, 2, 3 } } } }; const float lo[3] = { 0, 0, 0 }; void main(output float o[3], output int k) { k = 0; lookup3D_f(t, lo, lo, 0, 0, 0, k, o[k], o[k + 1]); }", []),
        ("const float t[1][1][1][3] = { { { { 1, 2, 3 } } } }; const float lo[3] = { 0, 0, 0 }; void main(output float o) { lookup3D_f(t, lo, lo, 0, 0, 0, o, o, o); }", []),
        ("const Chromaticities c = { { 0.64, 0.33 }, { 0.3, 0.6 }, { 0.15, 0.06 }, { 0.3127, 0.329 } }; void main(float y, output float o[4][4], output float p[4][4]) { o = RGBtoXYZ(c, y); p = XYZtoRGB(c, y); }", [1], [100], [0]),
        ("void main(output float o[6], output int i[2], output unsigned u, output half h) { o[0] = M_PI; o[1] = M_E; o[2] = HALF_MAX; o[3] = FLT_MAX; o[4] = INT_MAX; o[5] = UINT_MAX; i[0] = INT_MAX; i[1] = INT_MIN; u = UINT_MAX; h = FLT_MAX; }", []),
    ]),
    ("worked", [
        ("void main(output float o0, output float o1, output float o2, output float o3) { o0 = 1.0 / 0.0; o1 = -1.0 / 0.0; o2 = 0.0 / 0.0; o3 = 60000.0 * 60000.0; }", []),
        ("void main(output int o0, output int o1, output int o2, output int o3, output int o4, output int o5) { o0 = INT_MAX + 1; o1 = INT_MIN / -1; o2 = 7 / 0; o3 = -7 / 2; o4 = -7 % 2; o5 = 1 << 33; }", []),
        ("void main(float rIn, float gIn, output float rOut) { float s = 0.0; int i = 0; if (gIn > 0.5) { while (i < rIn * 3.0 - 0.5) { s = s + 0.25; i = i + 1; } } rOut = s; }", [0, 1], ["r1431655765", 1], ["r2863311531", 1], [1, 1]),
        ("float pick(float x) { float t = 0.0; for (int i = 0; i < 4; i = i + 1) { if (x > 0.5) return 0.25; t = t + 0.125; } t = t + 0.25; return t; } void main(float rIn, output float rOut) { rOut = pick(rIn); }", [0], [1]),
        ("void main(float rIn, output float rOut) { float a[3] = {1.0, 1.0, 1.0}; int i = 0; if (rIn > 0.5) i = 3; rOut = 0.0; if (i < 3 && a[i] > 0.0) rOut = 1.0; }", [0], [1]),
        ("void main(float rIn, output float rOut) { float a[3] = {1.0, 1.0, 1.0}; int i = 0; if (rIn > 0.5) i = 3; rOut = 0.0; if (a[i] > 0.0) rOut = 1.0; }", [0], [1]),
        ("void main(float rIn, float gIn, output float rOut) { assert(rIn < 0.9); assert(gIn < 0.9); rOut = rIn; }", [0, 0], [1, 0], [0, 1], [1, 1]),
        ("int n(float a[]) { return a.size; } void main(output float x, output float y) { float p[3]; float q[9]; x = n(p) * 0.0625; y = n(q) * 0.0625; }", []),
        (STAGES[0], [0, 0.5, 1, 1], [1, 1, 1, 0.5], [-1, MOST, 0.0625, 2]),
        (STAGES[1], [0, 0.25, 0.75], [1, 3, -1], [MOST, 255, 257]),
        (STAGES[2], [0, 0.5, 1, 1, 2.25], [1, 0.25, -1, 0.5, 0], [MOST, 0.125, 0.5, 1, 1]),
    ]),
    ("where more than one reading is possible", [
        ("int set(output float a[2]) { a[1] = 9; return 1; } void main(output float o) { float a[2]; o = a[set(a)]; }", []),
        ("int step(output int k) { k = k + 1; return k; } void main(output int o, output int p) { int k = 0; float a[3][2]; p = a[step(k)].size; o = k; }", []),
        ("void main(int k, output int o) { float a[3][2]; o = a[k].size; }", [2], [3], [-1]),
        ("float[2] f(output int k) { k = k + 1; for (int i = 0; i < 3; i = i + 1) ; float r[2]; return r; } void main(output int o, output int p) { p = 5; o = f(p).size; }", [], (2, [])),
        ("float[2] f() { assert(false); float r[2]; return r; } void main(output int o) { o = f().size; }", []),
        ("int set(output float a[]) { a[1] = 9; return 1; } float at(float a[], int k) { return a[k]; } void main(output float o, output float p) { float a[2]; o = at(a, set(a)); float b[2]; p = b[0] + set(b) + b[1]; }", []),
    ]),
]
