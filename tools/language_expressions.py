"""Expressions in scopes: the texts of the tests of the types of expressions.

A scope is what stands before and after the expression; the whole is a module. An expression is accepted, or it is a
pair of the kind of its fault and its text with a mark @ before the token at which the fault stands.
"""

BINARY = "|| && | ^ & == != < <= > >= << >> + - * / %".split()
UNARY = "- + ! ~".split()
NAMES = "b i u h f".split()
WHOLES = "b i u".split()
ONLY_WHOLE = "| ^ & << >> %".split()

KINDS = "bool b, int i, unsigned u, half h, float f"
FORMS = (
    "struct P { float x; int n[2]; float size; } struct Q { P p[3]; float m[2][4]; } const int N = 3; "
    "const float T[3] = { 1.0, 2.0, 4.0 }; const P C = { 0.5, { 1, 2 }, 9.0 }; "
    "float g(float x) { return x; } float g2(float x, int k = 4, float y[2] = { 1.0, 2.0 }) { return x; } void v() { } "
    "int count(float a[]) { return a.size; } float[2] pair() { float r[2]; return r; } P made() { P p; return p; } "
    "void out(output float x, output int k) { } void fill(output float a[], float x) { } void rows(output float a[][2]) { } "
    "float sum(float a[2], P p) { return a[0]; } namespace n { const int N = 7; float g(int x) { return 0.5; } "
    "namespace m { const int N = 9; int deep() { return N; } } } "
)
VARIABLES = (
    "bool b, int i, unsigned u, half h, float f, float w[], float ww[][2], output float of, output int oi, "
    "output float oa[3], output P op, output float ow[], P p, Q q"
)
LOCALS = "float x; int k; float a[2]; float t[3][2]; int z[2]; P s; Q r[2]; const float c = 1.0; const float ca[2] = { 1.0, 2.0 };"

SCOPES = {
    "kinds": (f"void t({KINDS}) {{ print(", "); }"),
    "forms": (f"{FORMS} void t({VARIABLES}) {{ {LOCALS} print(", "); }"),
    "hidden": (
        "struct S { float x; } float g(float x) { return x; } const int N = 3; const float M_PI = 3.0; float sin(int x) { return 0.5; } "
        "namespace n { const int N = 7; const int K = 8; float cos(int x) { return 0.25; } namespace n { const int N = 9; } } "
        "void t(float N, int p, float q, float exp) { bool N; float S; int g; int n; { unsigned p; half q; int M_E; print(",
        "); } }",
    ),
    "inside": (
        "const int N = 1; const int A = 2; int f() { return 0; } namespace a { const unsigned N = 1; const half B = 1.0h; "
        "half f() { return B; } namespace b { const bool N = true; bool f() { return N; } namespace a { const float Z = 1.0; } "
        "void t(int w) { print(", "); } } }",
    ),
    "itself": ("namespace n { float f(float x) { print(", "); return x; } }"),
}

# Operators with each pair of kinds. What takes whole numbers alone refuses the others at its link.
PAIRS = [
    f"{left} {sign} {right}" if sign not in ONLY_WHOLE or left in WHOLES and right in WHOLES
    else ("Mismatch", f"{left} @{sign} {right}")
    for sign in BINARY for left in NAMES for right in NAMES
]
SINGLES = [f"{sign}{name}" if sign != "~" or name in WHOLES else ("Mismatch", f"@~{name}") for sign in UNARY for name in NAMES]

# Operands that are no scalars, on both sides of each operator.
NO_SCALARS = ("a", "p", "v()")
NO_OPERANDS = [("Mismatch", f"{name} @{sign} x") for sign in BINARY for name in NO_SCALARS]
NO_OPERANDS += [("Mismatch", f"x @{sign} {name}") for sign in BINARY for name in NO_SCALARS]
NO_OPERANDS += [("Mismatch", f"@{sign}{name}") for sign in UNARY for name in NO_SCALARS]

EXPRESSIONS = [
    ("operators on each pair of kinds", "kinds", PAIRS),
    ("unary operators on each kind", "kinds", SINGLES),
    ("literals", "kinds", [
        "0", "2147483647", "2147483648", "4294967295", "0xffffffff", "0x7fffffff", "1.0", "1e2", "2.5f", "0.1h",
        "70000h",
        "true", "false", "-2147483648", "-2147483647", "- -1", "!0", "~4294967295", "-true", "+false", "~true", "-0.5h",
    ]),
    ("chains", "kinds", [
        "b + b + f", "f + b + b", "i + u + h + f", "b - b - b", "i < u < f", "i == u != b", "b && i && f",
        "h || u || b || i",
        "i | u ^ b & i", "i << u >> b", "i * u / h * f", "(i + u) * (h + f)", "i + u * h", "b && i | u", "-(b + b)",
        "!(f && h)",
        "i % u % b", "b == b", "b < b", "b | b", "b << b", "b % b", "h + h", "h == f", "-b * h", "u - i", "b * h + i",
    ]),
    ("library names", "kinds", [
        "M_PI", "M_E", "HALF_MAX", "FLT_MAX", "INT_MAX", "INT_MIN", "UINT_MAX", "::M_PI", "INT_MAX + UINT_MAX",
        "sin(b)", "sin(u)",
        "::sin(h)", "exp_h(f)", "exp_h(b)", "pow(i, h)", "pow_h(f, i)", "hypot(1, 2)", "sin(cos(tan(i)))",
        ("UnknownName", "n::@M_PI"), ("UnknownName", "n::sin@(f)"), ("UnknownName", "@Sin"), ("UnknownName", "SIN@(f)"),
        ("Mismatch", "@sin"), ("Mismatch", "@Chromaticities"), ("NotAFunction", "Chromaticities@(f)"),
        ("NotAFunction", "M_PI@(f)"),
        ("Arguments", "sin@()"), ("Arguments", "sin@(f, f)"), ("Arguments", "pow@(f)"), ("Arguments", "assert@()"),
    ]),
    ("names and paths", "forms", [
        "x", "of", "p", "q.p", "q.p[0]", "q.p[0].n", "q.p[0].n[1]", "q.m[b][u]", "r[i].p[k].x", "t[1]", "t[1][0]",
        "(t[1])[0]",
        "((t)[1])[0]", "(r[0].p)[2].n[1]", "w", "w[0]", "ww[3]", "ww[3][1]", "T[i]", "T[N]", "C.n[1]", "C", "n::N",
        "n::m::N", "::n::N",
        "::N", "pair()[1]", "made().x", "made().n[1]", "pair()", "made()", "a[a[0] < a[1]]", "z[z[z[0]]]", "a[-1]",
        "a[5]",
        ("UnknownName", "@y"), ("UnknownName", "n::@y"), ("UnknownName", "m::@N"), ("UnknownName", "::m::@N"),
        ("UnknownName", "::@x"),
        ("UnknownName", "n::@x"), ("UnknownName", "n::m::m::@N"), ("Mismatch", "@n"), ("Mismatch", "n::@m"),
        ("Mismatch", "@g"),
        ("Mismatch", "@P"), ("Mismatch", "n::@g"), ("Mismatch", "@g[0]"), ("Mismatch", "@n.N"), ("Mismatch", "@P.x"),
        ("UnknownName", "p.@y"), ("UnknownName", "x.@size"), ("UnknownName", "x.@y"), ("UnknownName", "a.@length"),
        ("UnknownName", "v().@x"),
        ("UnknownName", "q.p.@x"), ("UnknownName", "a.size.@size"), ("UnknownName", "i.@x"),
        ("UnknownName", "(1.0).@x"),
        ("Mismatch", "x@[0]"), ("Mismatch", "p@[0]"), ("Mismatch", "v()@[0]"), ("Mismatch", "a@[h]"),
        ("Mismatch", "a@[f]"),
        ("Mismatch", "a@[a]"), ("Mismatch", "a@[p]"), ("Mismatch", "a@[v()]"), ("Mismatch", "a[0]@[0]"),
        ("Mismatch", "a.size@[0]"),
        ("Mismatch", "t[0]@[0.5]"), ("Mismatch", "1@[0]"),
    ]),
    ("sizes", "forms", [
        "a.size", "t.size", "t[0].size", "w.size", "ww.size", "ww[0].size", "T.size", "q.p.size", "q.p[0].n.size",
        "p.size", "s.size",
        "r[0].m[1].size", "pair().size", "a.size + w.size", "made().n.size", "C.n.size", "C.size", "z[a.size - 1]",
        "T[T.size - 1]",
        "(t[0]).size", "r[1].p[0].size",
    ]),
    ("operands that are no scalars", "forms", [
        ("Mismatch", "a @+ x"), ("Mismatch", "x @+ a"), ("Mismatch", "p @* x"), ("Mismatch", "x @* p"),
        ("Mismatch", "v() @+ x"),
        ("Mismatch", "x @+ v()"), ("Mismatch", "a @== a"), ("Mismatch", "p @== p"), ("Mismatch", "a @&& b"),
        ("Mismatch", "b @&& a"),
        ("Mismatch", "b && i @&& p"), ("Mismatch", "v() @|| b"), ("Mismatch", "b @|| v()"), ("Mismatch", "@-a"),
        ("Mismatch", "@+p"),
        ("Mismatch", "@!a"), ("Mismatch", "@!v()"), ("Mismatch", "@~p"), ("Mismatch", "@-v()"),
        ("Mismatch", "x + x + a[0] @+ a"),
        ("Mismatch", "a @- x - x"), ("Mismatch", "x @< a"), ("Mismatch", "p @!= x"), ("Mismatch", "a @% i"),
        ("Mismatch", "i @<< p"),
        ("Mismatch", "i + h @% i"), ("Mismatch", "i @% f % i"), ("Mismatch", "(i < f) @& f"), "(i < f) & i",
        "(f < f) << u", "!f & u",
        ("Mismatch", "@~(i + h)"), "~(b + b)", "a.size % u", "-made().x",
    ]),
    ("calls", "forms", [
        "g(x)", "g(i)", "g(b)", "g(h)", "g(u)", "g(g(g(i)))", "g(a[1])", "g2(x)", "g2(x, 5)", "g2(x, h, a)", "g2(i, f)",
        "g2(x, k, ca)",
        "count(a)", "count(w)", "count(T)", "count(t[2])", "count(ww[0])", "count(pair())", "count(r[0].m[1])",
        "sum(a, p)", "sum(ca, C)",
        "n::g(f)", "n::m::deep()", "::n::g(i)", "::g(i)", "n::g(n::m::deep())", "sum(pair(), made())", "count(q.m[0])",
        "g((x))",
        ("UnknownName", "y@()"), ("UnknownName", "deep@()"), ("UnknownName", "n::deep@()"),
        ("UnknownName", "m::deep@()"), ("UnknownName", "::deep@()"),
        ("NotAFunction", "x@(x)"), ("NotAFunction", "N@(x)"), ("NotAFunction", "P@(x)"), ("NotAFunction", "n@(x)"),
        ("NotAFunction", "n::m@(x)"),
        ("NotAFunction", "n::N@(x)"), ("NotAFunction", "T@()"), ("NotAFunction", "w@(x)"),
        ("Arguments", "g@()"), ("Arguments", "g@(x, x)"), ("Arguments", "g2@()"), ("Arguments", "g2@(x, k, a, x)"),
        ("Arguments", "pair@(x)"),
        ("Arguments", "count@()"), ("Arguments", "sum@(a)"), ("Arguments", "n::g@()"), ("Arguments", "n::m::deep@(x)"),
        ("Mismatch", "g(@a)"), ("Mismatch", "g(@p)"), ("Mismatch", "g(v@())"), ("Mismatch", "count(@x)"),
        ("Mismatch", "count(@z)"),
        ("Mismatch", "count(@t)"), ("Mismatch", "count(@ww)"), ("Mismatch", "sum(@w, p)"), ("Mismatch", "sum(@T, p)"),
        ("Mismatch", "sum(a, @a)"),
        ("Mismatch", "sum(a, s.@x)"), ("Mismatch", "sum(a, q.@p)"), ("Mismatch", "sum(t[0], @q)"),
        ("Mismatch", "g2(x, @a)"), ("Mismatch", "g2(x, 1, @T)"), ("Mismatch", "g2(x, 1, @2)"),
        ("Mismatch", "g(x @== a)"), ("Mismatch", "g(@sin)"),
        ("Mismatch", "g(pair@())"), ("Mismatch", "g(@g)"),
    ]),
    ("library calls", "forms", [
        "lookup1D(w, 0, 1, f)", "lookup1D(T, 0.0, 1.0, h)", "lookup1D(a, i, u, b)", "lookupCubic1D(t[0], 0, 1, 2)",
        "interpolate1D(ww, f)",
        "interpolate1D(t, x)", "interpolateCubic1D(ww, b)", "mult_f_f3(i, T)", "dot_f3_f3(T, oa)", "length_f3(oa)",
        "cross_f3_f3(T, T)[1]",
        "lookup1D(pair(), 0, 1, 0.5)", "sin(length_f3(T))",
        ("Mismatch", "lookup1D(@x, 0, 1, f)"), ("Mismatch", "lookup1D(@ww, 0, 1, f)"),
        ("Mismatch", "lookup1D(@z, 0, 1, f)"), ("Mismatch", "lookup1D(w, @a, 1, f)"),
        ("Mismatch", "interpolate1D(@w, f)"), ("Mismatch", "interpolate1D(q.@m, f)"), ("Mismatch", "dot_f3_f3(T, @a)"),
        ("Mismatch", "dot_f3_f3(@w, T)"),
        ("Mismatch", "sin(@a)"), ("Mismatch", "sin(v@())"), ("Mismatch", "RGBtoXYZ(@p, 1.0)"),
        ("Arguments", "lookup1D@(w, 0, 1)"),
        ("Arguments", "interpolate1D@(ww, f, f)"), ("Mismatch", "length_f3(@1)"),
    ]),
    ("outputs of calls, whose fault stands at the argument", "forms", [
        ("NotAssignable", "out(@1, k)"), ("NotAssignable", "out(x @+ x, k)"), ("NotAssignable", "out(@-x, k)"),
        ("NotAssignable", "out(g@(x), k)"),
        ("NotAssignable", "out(@c, k)"), ("NotAssignable", "out(ca@[0], k)"), ("NotAssignable", "out(@N, k)"),
        ("NotAssignable", "out(T@[0], k)"),
        ("NotAssignable", "out(C.@x, k)"), ("NotAssignable", "out(@f, k)"), ("NotAssignable", "out(w@[0], k)"),
        ("NotAssignable", "out(p.@x, k)"),
        ("NotAssignable", "out(x, a.@size)"), ("NotAssignable", "out(x, oa.@size)"),
        ("NotAssignable", "out(pair()@[0], k)"), ("NotAssignable", "out(made().@x, k)"),
        ("NotAssignable", "out(@M_PI, k)"), ("NotAssignable", "out(@true, k)"), ("NotAssignable", "fill(@w, x)"),
        ("NotAssignable", "fill(@ca, x)"),
        ("NotAssignable", "fill(pair@(), x)"), ("NotAssignable", "out(x, @i)"), ("NotAssignable", "out(x, T.@size)"),
        ("NotAssignable", "out(@p, k)"), ("Mismatch", "out(@a, k)"), ("Mismatch", "out(@s, k)"),
        ("Mismatch", "out(x, @z)"), ("Mismatch", "fill(@x, x)"),
        ("Mismatch", "fill(@t, x)"), ("Mismatch", "fill(@z, x)"), ("Mismatch", "rows(@a)"), ("Mismatch", "rows(@ow)"),
        ("Mismatch", "fill(a, @a)"),
        ("Arguments", "out@(x)"), ("Arguments", "out@()"), ("Arguments", "out@(x, k, k)"), ("Arguments", "fill@(a)"),
        ("UnknownName", "out(@y, k)"), ("UnknownName", "out(p.@y, k)"), ("Mismatch", "out(a@[0.5], k)"),
        ("NotAssignable", "fill(@T, x)"),
    ]),
    ("two faults in both orders", "forms", [
        ("UnknownName", "@y + a"), ("UnknownName", "a + @y"), ("UnknownName", "@y + zz"), ("Mismatch", "a @+ x + y"),
        ("UnknownName", "x + @y + a"),
        ("Mismatch", "(a @+ x) * y"), ("UnknownName", "@y * (a + x)"), ("Mismatch", "x * (a @+ x) + y"),
        ("UnknownName", "g(@y) + a"), ("Mismatch", "g(@a) + y"),
        ("UnknownName", "@y[a]"), ("UnknownName", "x[@y]"), ("Mismatch", "x@[a].y"), ("UnknownName", "p.@y[a]"),
        ("Mismatch", "a[a @+ 1] + y"),
        ("UnknownName", "@y.x[yy]"), ("Mismatch", "a@[h][y]"), ("UnknownName", "a[@y][h]"),
        ("UnknownName", "sum(@y, zz)"), ("Mismatch", "sum(@x, zz)"),
        ("UnknownName", "sum(a, @zz)"), ("Mismatch", "sum(@x, x)"), ("Mismatch", "sum(a, @x)"),
        ("UnknownName", "y(@zz, yy)"), ("Mismatch", "y(x @+ a)"),
        ("NotAssignable", "out(@1, y)"), ("UnknownName", "out(@y, 1)"), ("NotAssignable", "out(x, @1)"),
        ("NotAssignable", "out(@c, c)"), ("Mismatch", "out(@a, 1)"),
        ("NotAssignable", "out(@ca, a)"), ("NotAssignable", "fill(@w, a)"), ("Mismatch", "sum(@x)"),
        ("UnknownName", "g(@y, 1)"), ("Mismatch", "g(@a, 1)"),
        ("Arguments", "g@(x, 1, 2)"), ("UnknownName", "g(x, @y)"), ("Mismatch", "g(x, x @+ a)"),
        ("UnknownName", "x(@y)"), ("NotAFunction", "x@(a)"),
        ("Mismatch", "!(a @&& b) || y"), ("Mismatch", "-(@-a)"), ("UnknownName", "-(-@y)"), ("Mismatch", "@-a + -y"),
        ("UnknownName", "-@y + -a"),
        ("Mismatch", "b && a[0] @&& a && y"), ("UnknownName", "b && @y && a"), ("UnknownName", "a[y@()]"),
        ("NotAFunction", "a[x@()]"),
        ("Arguments", "g@() + y"), ("UnknownName", "@y + g()"), ("Mismatch", "g(v@()) + g()"), ("Arguments", "g(g@())"),
        ("Mismatch", "@n + y"),
        ("Mismatch", "@g + P"), ("UnknownName", "p.@y.n"), ("UnknownName", "p.n.@y.z"), ("Mismatch", "x@[0][0]"),
    ]),
    ("what hides", "hidden", [
        "N", "p", "q", "::N", "n::N", "n::K", "n::n::N", "::n::n::N", "M_PI", "::M_PI", "M_E", "::M_E", "g", "S", "exp",
        "::exp(N)", "sin(1.5)", "::sin(1.5)",
        "cos(1)", "n::cos(1.5)", "::n::cos(p)", "::g(p)", "n", "tan(q)", "p + q", "N + p", "S + g",
        ("NotAFunction", "g@(1.0)"), ("NotAFunction", "exp@(1.0)"), ("NotAFunction", "n@(1)"),
        ("NotAFunction", "S@(1)"), ("NotAFunction", "M_E@(1)"),
        ("Mismatch", "@sin"), ("Mismatch", "::@g"), ("Mismatch", "::@S"), ("Mismatch", "::@n"), ("UnknownName", "::@p"),
        ("UnknownName", "::@q"), ("UnknownName", "n::@p"),
        ("UnknownName", "@K"), ("UnknownName", "n::n::@K"), ("UnknownName", "N.@size"), ("Mismatch", "p@[0]"),
        ("UnknownName", "n::sin@(1)"), ("Mismatch", "n::@n"),
    ]),
    ("names from inside namespaces", "inside", [
        "N", "a::N", "::N", "b::N", "a::b::N", "::a::N", "::a::b::N", "A", "::A", "B", "a::B", "f()", "::f()",
        "::a::f()", "b::f()", "a::b::f()", "::a::b::f()",
        "a::Z", "b::a::Z", "a::b::a::Z", "::a::b::a::Z", "a::f()", "N + B + A", "w",
        ("UnknownName", "b::@B"), ("UnknownName", "::@B"), ("UnknownName", "::b::@N"), ("UnknownName", "a::@A"),
        ("UnknownName", "@Z"), ("UnknownName", "::a::@Z"),
        ("UnknownName", "a::a::@Z"), ("UnknownName", "a::t@(1)"), ("Recursion", "t@(1)"), ("UnknownName", "::t@(1)"),
        ("UnknownName", "a::b::t@(1)"), ("UnknownName", "b::t@(1)"),
        ("UnknownName", "@t"), ("Recursion", "t@(w, w)"), ("UnknownName", "t(@y)"), ("UnknownName", "b::@w"),
        ("Mismatch", "@a"),
    ]),
    ("calls of the function itself", "itself", [
        ("Recursion", "f@(x)"), ("UnknownName", "n::f@(x)"), ("UnknownName", "::f@(x)"), ("UnknownName", "::n::f@(x)"),
        ("UnknownName", "g@(x)"),
        ("Recursion", "f(f@(x))"), ("UnknownName", "f(@y)"), ("Recursion", "x + f@()"), ("Recursion", "sin(f@(x))"),
        ("UnknownName", "@f"), ("NotAFunction", "x@(x)"),
        ("UnknownName", "@n"), "::sin(x)", "x",
    ]),
    ("operands that are no scalars, for each operator", "forms", NO_OPERANDS),
    ("where more than one reading is possible", "forms", [
        ("Mismatch", "out(@g, k)"), ("NotAssignable", "out(v@(), k)"), ("UnknownName", "y@(v())"),
        ("Arguments", "g@(x, v())"),
        "pair().size + made().n.size", "t[7].size",
    ]),
]
