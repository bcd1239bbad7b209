"""Programs whose instances and levels are told: the texts of the tests of levels.

A pattern is what stands before the entry, and the entry's body. Each pattern makes two programs: X and K stand for a
float and an int that are uniform in the first and varying in the second. The other texts stand alone.
"""
from grammar_texts import STAGES

HEAD = "void main(uniform float u, varying float v, uniform int k, varying int j, output varying float p, output varying float q)"
UNIFORM_OUTPUT = "void main(uniform float u, varying float v, uniform int k, varying int j, output uniform float p, output varying float q)"

ONE = "float f(float x) { return x; } "
FIXED = "float f(float x) { return 1.0; } "
OUT = "void g(output float y, float x) { y = x; } "
TWO = "void g(output float y, output float z, float x) { y = x; z = 1.0; } "
SOME = "float h(float x) { if (x > 0.5) return 1.0; return 0.5; } "
STRUCT = "struct S { float a; float size; int n[2]; } "

PATTERNS = [
    ("what an expression names", [
        ("", "float a = X; p = a;"),
        ("", "float a = -X; bool b = !X; p = a; q = b;"),
        ("", "float a = 1.0 + X * 2.0; p = a;"),
        ("", "bool b = true && X; p = b;"),
        ("", "bool b = X || true; p = b;"),
        ("", "float a[2] = { 1.0, X }; float b = a[0]; p = b;"),
        ("", "float a[2] = { 1.0, 2.0 }; float b = a[K]; p = b;"),
        ("", "float a[2][2] = { { 1.0, 2.0 }, { X, 4.0 } }; float b[2] = a[0]; p = b[1];"),
        ("", "float a[2] = { X, X }; int n = a.size; p = n;"),
        ("", "float a[2][3]; int n = a[K].size; p = n;"),
        (STRUCT, "S s; s.a = X; float b = s.size; p = b;"),
        (STRUCT, "S s = { X, 1.0, { 1, 2 } }; int n = s.n.size; p = n;"),
        ("const float C[2] = { 1.0, 2.0 }; ", "float a = C[K]; p = a;"),
        ("const float C[2] = { 1.0, 2.0 }; ", "int a = C[K] > 1.0; float b = C[a]; p = b;"),
        ("", "print(X); print(\"t\", X, K); p = 1.0;"),
        (ONE, "float a = f(X); p = a;"),
        (FIXED, "float a = f(X); p = a;"),
        (ONE, "float a = f(f(X)); p = a;"),
        (OUT, "float a; g(a, X); float b = a; p = b;"),
    ]),
    ("arms", [
        ("", "float a = 0.0; if (X > 0.5) a = 1.0; p = a;"),
        ("", "float a = 0.0; if (X > 0.5) a = 1.0; else a = 2.0; p = a;"),
        ("", "float a = 0.0; float b = 0.0; if (u > 0.5) a = 1.0; else if (X > 0.25) b = 2.0; p = a + b;"),
        ("", "float a = 0.0; float b = 0.0; float c = 0.0; if (X > 0.5) a = 1.0; else if (u > 0.25) b = 2.0; else c = 1.0; p = a + b + c;"),
        ("", "float a = 0.0; if (u > 0.5) { if (X > 0.5) a = 1.0; } p = a;"),
        ("", "float a = 0.0; if (X > 0.5) { if (u > 0.5) { float b; a = b; } } p = a;"),
        ("", "float a = 0.0; if (X > 0.5) { } a = 1.0; p = a;"),
        ("", "float a = 0.0; if (X > 0.5) ; else a = 1.0; p = a;"),
        (OUT, "float a = 0.0; float b = 0.0; if (u > 0.5) g(a, 1.0); else if (X > 0.5) b = 1.0; else g(b, 1.0); p = a + b;"),
        (ONE, "float a = 0.0; float b = 0.0; if (X > 0.5) a = f(1.0); b = f(1.0); p = a + b;"),
        ("bool t(output float y) { y = 1.0; return true; } ", "float a = 0.0; if (X > 0.5) p = 1.0; else if (t(a)) p = 2.0; q = a;"),
        ("bool t(output float y) { y = 1.0; return true; } ", "float a = 0.0; if (t(a)) p = 1.0; else if (X > 0.5) p = 2.0; q = a;"),
    ]),
    ("loops", [
        ("", "float a = 0.0; while (a < X) a = a + 1.0; p = a;"),
        ("", "float a = 0.0; int i = 0; while (i < 3) { a = a + X; i = i + 1; } p = a + i;"),
        ("", "float a = 0.0; for (int i = 0; i < K; i = i + 1) a = 1.0; p = a;"),
        ("", "float a = 0.0; for (int i = 0; i < 3; i = i + 1) { a = 1.0; if (X > 0.5) a = 2.0; } p = a;"),
        ("", "int i; float a = 0.0; for (i = 0; i < 3; i = i + K) a = 1.0; p = a + i;"),
        ("", "int i; float a = 0.0; for (i = K; i < 3; i = i + 1) a = 1.0; p = a + i;"),
        ("", "float a = 0.0; float b = 0.0; float c = 0.0; int i = 0; while (i < 3) { i = i + 1; a = b; b = c; c = X; } p = a;"),
        ("", "float a = 0.0; int i = 0; while (i < 3) { int n = 0; while (n < K) n = n + 1; a = a + 1.0; i = i + 1; } p = a;"),
        ("", "float a = 0.0; int i = 0; while (i < K) { int n = 0; while (n < 3) { n = n + 1; a = a + 1.0; } i = i + 1; } p = a;"),
        ("bool t(output float y) { y = y + 1.0; return y < 3.0; } ", "float a = 0.0; float b = X; while (t(a)) { if (b > 0.5) q = 1.0; } p = a;"),
        ("bool t(output float y, float x) { y = y + 1.0; return y < x; } ", "float a = 0.0; while (t(a, X)) p = 1.0; p = a;"),
        (ONE, "float a = 0.0; for (int i = 0; i < K; i = i + 1) a = f(1.0); p = a;"),
    ]),
    ("and, or", [
        ("bool t(output float y) { y = 1.0; return true; } ", "float a = 0.0; bool b = X > 0.5 && t(a); p = a; q = b;"),
        ("bool t(output float y) { y = 1.0; return true; } ", "float a = 0.0; bool b = X > 0.5 || t(a); p = a; q = b;"),
        ("bool t(output float y) { y = 1.0; return true; } ", "float a = 0.0; bool b = t(a) && X > 0.5; p = a; q = b;"),
        ("bool t(output float y) { y = 1.0; return true; } ", "float a = 0.0; float c = 0.0; bool b = t(a) && X > 0.5 && t(c); p = a + c; q = b;"),
        ("bool t(output float y) { y = 1.0; return true; } ", "float a = 0.0; float c = 0.0; bool b = (X > 0.5 && t(a)) || t(c); p = a + c; q = b;"),
        ("bool t(output float y) { y = 1.0; return true; } ", "float a = 0.0; float c = 0.0; bool b = (t(a) || X > 0.5) + t(c); p = a + c; q = b;"),
        ("bool t(output float y) { y = 1.0; return true; } ", "float a = 0.0; float w[2]; w[X > 0.5 && t(a)] = 1.0; p = w[0] + a;"),
        ("bool t(output float y) { y = 1.0; return true; } ", "float a = 0.0; while (X > 2.0 && t(a)) q = 1.0; p = a;"),
        ("bool t(output float y) { y = 1.0; return true; } ", "float a = 0.0; if (false || X > 2.0 || t(a)) q = 1.0; p = a;"),
    ]),
    ("returns", [
        (SOME, "float a = h(X); p = a;"),
        ("void r(float x, output float y) { if (x > 0.5) return; y = 1.0; } ", "float a = 0.0; r(X, a); p = a;"),
        ("void r(float x, output float y) { y = 1.0; if (x > 0.5) return; } ", "float a = 0.0; r(X, a); p = a;"),
        ("void r(float x, output float y, output float z) { { if (x > 0.5) { return; } y = 1.0; } z = 1.0; } ", "float a = 0.0; float b = 0.0; r(X, a, b); p = a + b;"),
        ("float r(float x, output float y) { for (int i = 0; i < 4; i = i + 1) { y = 1.0; if (x > 0.5) return 0.25; } return 1.0; } ", "float a = 0.0; float b = r(X, a); p = a; q = b;"),
        ("float r(float x, output float y) { int i = 0; while (i < 4) { i = i + 1; while (y < 2.0) { y = y + 1.0; if (x > 0.5) return 0.25; } } return i; } ", "float a = 0.0; float b = r(X, a); p = a; q = b;"),
        ("float r(float x, output float y) { int i = 0; while (i < 4) { i = i + 1; int n = 0; while (n < 2) n = n + 1; if (x > 0.5) return 0.25; } y = i; return 1.0; } ", "float a = 0.0; float b = r(X, a); p = a; q = b;"),
        ("float r(float x, uniform float w, output float y) { if (w > 0.5) { if (x > 0.5) return 1.0; } else y = 1.0; return 0.0; } ", "float a = 0.0; float b = r(X, u, a); p = a; q = b;"),
        ("float r(float x, uniform float w, output float y) { if (w > 0.5) y = 1.0; else { if (x > 0.5) return 1.0; } return 0.0; } ", "float a = 0.0; float b = r(X, u, a); p = a; q = b;"),
        ("float r(float x, uniform float w, output float y) { if (w > 0.5) { if (x > 0.5) return 1.0; } else if (w > 0.25) y = 1.0; return 0.0; } ", "float a = 0.0; float b = r(X, u, a); p = a; q = b;"),
        ("float r(float x) { return 1.0; } ", "float a = 0.0; if (X > 0.5) a = r(1.0); float b = r(1.0); p = a; q = b;"),
        ("float r(float x) { float y = x; return 1.0; y = 2.0; } ", "p = r(X);"),
        ("float r(float x) { while (true) { if (x > 2.0) return 1.0; } return 0.0; } ", "p = r(X);"),
        ("", "float a = 0.0; if (X > 0.5) return; a = 1.0; p = a;"),
        ("", "float a = 0.0; for (int i = 0; i < 3; i = i + 1) { a = a + 1.0; if (X > 0.5) return; } q = 1.0; p = a;"),
    ]),
    ("what is set", [
        ("", "if (X > 0.5) { float a; float b = 1.0; const float c = 2.0; p = a + b + c; }"),
        ("", "float a[3]; a[K] = 1.0; p = a[0];"),
        ("", "float a[3]; a[0] = X; p = a[1];"),
        ("", "float a[3][2]; a[0][K] = 1.0; a[1][0] = 2.0; p = a[0][0];"),
        (STRUCT, "S s[2]; s[K].n[0] = 1; p = s[0].a;"),
        (STRUCT, "S s; s.a = 1.0; S t = s; t.size = X; p = s.a; q = t.a;"),
        (OUT, "float a[2]; g(a[K], 1.0); p = a[0];"),
        (OUT, "float a = 0.0; g(a, X); p = a;"),
        (OUT, "float a = 0.0; if (X > 0.5) g(a, 1.0); p = a;"),
        (OUT, "float a = X; float b = 0.0; g(b, a); g(a, 1.0); p = a; q = b;"),
        (TWO, "float a = 0.0; float b = 0.0; g(a, b, X); p = a; q = b;"),
        (TWO, "float a[2]; float b = 0.0; g(a[K], b, 1.0); p = a[0]; q = b;"),
        (TWO, "float a = 0.0; g(a, a, X); p = a;"),
        ("void g(output float y) { y = y + 1.0; } ", "float a = X; g(a); p = a;"),
        ("void g(output float y) { float z = y; } ", "float a = X; float b = 0.0; g(a); g(b); p = a + b;"),
        ("void g(output float y[], int i) { y[i] = 1.0; } ", "float a[3]; g(a, K); p = a[0];"),
    ]),
    ("instances", [
        (ONE, "p = f(1.0); q = f(X); p = f(2.0); q = f(X + 1.0);"),
        ("float f(float x, float y) { return x; } ", "p = f(X, 1.0) + f(1.0, X) + f(X, X) + f(1.0, 1.0);"),
        ("float f(float x = 1.0, float y = 2.0) { return x + y; } ", "p = f() + f(X) + f(1.0, X);"),
        ("int n(float a[]) { return a.size; } ", "float a[2]; float b[3]; a[0] = X; p = n(a) + n(b) + n(a);"),
        ("int n(float a[]) { return a.size; } int m(float a[][2]) { return n(a[0]) + n(a[1]); } ", "float a[2][2]; float b[3][2]; a[0][0] = X; p = m(a) + m(b);"),
        (ONE + "float g(float x) { return f(x) + f(1.0); } ", "p = g(X); q = g(1.0);"),
        (ONE + "float g(float x) { float a = 0.0; if (x > 0.5) a = f(1.0); return a; } ", "p = g(X); q = f(1.0);"),
        (ONE, "float a = 0.0; if (X > 0.5) { a = f(1.0); a = f(a); } p = a; q = f(1.0);"),
        (ONE, "float a[2]; p = f(a[f(K) > 0.5]); q = f(a[0]);"),
        (ONE + OUT, "float a = 0.0; g(a, f(X)); p = f(a);"),
        ("float f(float x) { float y = 1.0; return y; } float g(float x) { float y = f(x); return y; } float h(float x) { return g(x); } ", "p = h(X);"),
        ("float f(float a[] = { 1.0, 2.0 }) { return a[0]; } ", "float a[2]; a[0] = X; p = f() + f(a);"),
    ]),
    ("the library", [
        ("", "float a = sin(X); p = a;"),
        ("", "float a = pow(2.0, X); p = a;"),
        ("", "float t[2] = { 1.0, X }; float a = lookup1D(t, 0.0, 1.0, u); p = a;"),
        ("", "float t[2] = { 1.0, 2.0 }; float a = lookup1D(t, 0.0, 1.0, X); p = a;"),
        ("const float T[2][2][2][3] = { { { { 0, 0, 0 }, { 0, 0, 1 } }, { { 0, 1, 0 }, { 0, 1, 1 } } }, { { { 1, 0, 0 }, { 1, 0, 1 } }, { { 1, 1, 0 }, { 1, 1, 1 } } } }; const float L[3] = { 0, 0, 0 }; const float H[3] = { 1, 1, 1 }; ",
         "float a; float b; float c; lookup3D_f(T, L, H, X, 0.5, 0.5, a, b, c); p = a; q = b + c;"),
        ("const float T[2][2][2][3] = { { { { 0, 0, 0 }, { 0, 0, 1 } }, { { 0, 1, 0 }, { 0, 1, 1 } } }, { { { 1, 0, 0 }, { 1, 0, 1 } }, { { 1, 1, 0 }, { 1, 1, 1 } } } }; const float L[3] = { 0, 0, 0 }; const float H[3] = { 1, 1, 1 }; ",
         "float a = X; float b[2]; float c; lookup3D_f(T, L, H, 0.5, 0.5, 0.5, a, b[K], c); p = a; q = b[0] + c;"),
        ("", "assert(X < 2.0); float a = 1.0; p = a;"),
        ("", "float a[3] = { 1.0, X, 2.0 }; float b = dot_f3_f3(a, a); float c[3] = mult_f_f3(b, a); p = c[0];"),
        ("", "float a = floor(sin(cos(X))) + M_PI; p = a;"),
    ]),
    ("what is to be uniform", [
        ("void g(uniform float x, output float y) { y = x; } ", "g(X, p);"),
        ("float g(float a, uniform float x) { return a; } ", "p = g(v, X);"),
        ("float g(uniform float x) { return x; } ", "p = g(g(X));"),
        ("float g(uniform float x = 2.0) { return x; } ", "p = g() + g(X);"),
        ("float g(uniform float x) { return x; } ", "float a = 0.0; if (X > 0.5) a = g(1.0); p = a;"),
        ("void g(output uniform float y) { y = 1.0; } ", "float a = 0.0; g(a); p = a;"),
        ("void g(output uniform float y) { y = 1.0; } ", "float a = X; g(a); p = a;"),
        ("void g(output uniform float y) { y = 1.0; } ", "float a = 0.0; if (X > 0.5) g(a); p = a;"),
        ("void g(output uniform float y, float x) { y = x; } ", "float a = 0.0; g(a, X); p = a;"),
        ("void g(output uniform float y) { } ", "float a = 0.0; if (X > 0.5) g(a); p = a;"),
        ("float g(uniform float x, uniform float y) { return x; } ", "p = g(X, X);"),
        ("float g(uniform float x) { return x; } float h(float x) { return g(x); } ", "p = h(1.0) + h(X);"),
        ("float g(uniform float a[]) { return a[0]; } ", "float a[2]; a[K] = 1.0; p = g(a);"),
        ("float g(uniform float x) { return x; } ", "float a[2]; p = g(a[K]);"),
        ("float g(uniform int n) { return n; } ", "float a[2] = { X, X }; p = g(a.size);"),
    ]),
]

# The entry's own outputs that are marked uniform.
UNIFORM_OUTPUTS = [
    "p = X;", "if (X > 0.5) p = 1.0;", "p = 1.0; q = X;", "float a = X; if (u > 0.5) p = a;", "for (int i = 0; i < K; i = i + 1) p = 1.0;",
    "if (X > 0.5) return; p = 1.0;", "p = 1.0; if (X > 0.5) return;", "float a[2]; a[K] = 1.0; p = a[0];", "float a[2]; p = a.size; a[K] = 1.0;",
]

MAIN = "void main(input varying float rIn, input varying float gIn, input varying float bIn, output varying float rOut, output varying float gOut, output varying float bOut)"
REST = "gOut = gIn; bOut = bIn;"


def arrays(count):
    parts = " ".join(f"float a{n}[65536]; a{n}[0] = rIn;" for n in range(count))
    return f"{MAIN} {{ {parts} rOut = rIn; {REST} }}"


def copies(count):
    return f"{MAIN} {{ float t[16][65536]; {'rOut = t[0][0]; ' * count}{REST} }}"


ALONE = [
    ("entries", [
        "void main() { }",
        "void main(float a, uniform float b, varying float c, input float d, input uniform float e) { float x = a + c + d; float y = b + e; }",
        "void main(output float a, output uniform float b, output varying float c) { }",
        "void main(output uniform float b = 2.0) { b = b + 1.0; }",
        "void main(output uniform float k, float rIn) { if (rIn > 0.5) k = 1.0; }",
        "void main(output uniform float k, float rIn) { k = 1.0; }",
        "float f(float x) { return x; } void a(float x, output uniform float o) { o = f(1.0); float b = f(x); }",
        "void main(uniform float a[3], output float b[3]) { b = a; a.size; }".replace(" a.size;", ""),
    ]),
    ("worked", [
        f"void g(uniform float x, output float y) {{ y = x; }} {MAIN} {{ g(rIn, rOut); {REST} }}",
        f"{MAIN} {{ float s = 0.0; int i = 0; if (gIn > 0.5) {{ while (i < rIn * 3.0 - 0.5) {{ s = s + 0.25; i = i + 1; }} }} rOut = s; {REST} }}",
        f"float pick(float x) {{ float t = 0.0; for (int i = 0; i < 4; i = i + 1) {{ if (x > 0.5) return 0.25; t = t + 0.125; }} t = t + 0.25; return t; }} {MAIN} {{ rOut = pick(rIn); {REST} }}",
        f"{MAIN} {{ float a[3] = {{1.0, 1.0, 1.0}}; int i = 0; if (rIn > 0.5) i = 3; rOut = 0.0; if (i < 3 && a[i] > 0.0) rOut = 1.0; {REST} }}",
        f"float k(uniform float x) {{ return x; }} {MAIN} {{ rOut = 0.0; if (rIn > 0.5) rOut = k(0.25); {REST} }}",
        f"void f(output float a, output float b) {{ a = 0.25; b = 0.75; }} {MAIN} {{ float x = 0.0; f(x, x); rOut = x; {REST} }}",
        f"int n(float a[]) {{ return a.size; }} {MAIN} {{ float p[3]; float q[9]; rOut = n(p) * 0.0625; gOut = n(q) * 0.0625; bOut = bIn; }}",
        *STAGES,
    ]),
    ("limits", [arrays(3), arrays(4), copies(120), copies(121)]),
]


def in_both(head, before, body):
    for number, index in (("u", "k"), ("v", "j")):
        text = body.replace("X", number).replace("K", index)
        yield f"{before}{head} {{ {text} }}"


def level_texts():
    """The groups with their texts."""
    for group, patterns in PATTERNS:
        yield group, [text for before, body in patterns for text in in_both(HEAD, before, body)]
    yield "uniform outputs of the entry", [text for body in UNIFORM_OUTPUTS for text in in_both(UNIFORM_OUTPUT, "", body)]
    yield from ALONE
