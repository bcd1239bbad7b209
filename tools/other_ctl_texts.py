"""What transforms that are kept elsewhere write, and this language refuses: texts, what is said, and what stands instead.

A row is a construct, its refused texts with the kind that is said, what to write instead, and a text that does so, in which
red comes out as it goes in. A text is the body of the entry, in front of which definitions may stand. Kinds of tokens are
told here, since the readers of grammar_reader.py take well-made tokens alone; all others are computed.
"""

ARRAY = "float a[3] = { 1.0, 0.0, 0.0 }; "
MATRIX = "const float M[3][3] = { { 1.0, 0.0, 0.0 }, { 0.0, 1.0, 0.0 }, { 0.0, 0.0, 1.0 } }; "
SAME = "rOut = rIn;"


def body(text, before=""):
    return before, text


def before(text):
    return text, SAME


# Construct, refused texts with their kinds, what to write instead, and an accepted text.
NAMES = [
    ("`HALF_POS_INF` as the upper end of a clamp", [("UnknownName", body("rOut = rIn; if (rOut > HALF_POS_INF) rOut = HALF_POS_INF;"))],
     "`HALF_MAX`", body("rOut = rIn; if (rOut > HALF_MAX) rOut = HALF_MAX;")),
    ("`HALF_MIN`, `FLT_MIN`, `FLT_EPSILON`", [
        ("UnknownName", body(f"rOut = rIn; if (rOut < {name}) rOut = {name};")) for name in ("HALF_MIN", "FLT_MIN", "FLT_EPSILON")],
     "a constant of one's own, of at least `1e-9`", body("rOut = rIn; if (rOut < LEAST) rOut = LEAST;", "const float LEAST = 1e-9; ")),
    ("`isnan_f`, `isfinite_f`, `FLT_NAN`", [
        ("UnknownName", body("rOut = rIn; if (isnan_f(rIn)) rOut = 0.0;")), ("UnknownName", body("if (isfinite_f(rIn)) rOut = rIn;")),
        ("UnknownName", body("rOut = FLT_NAN;"))],
     "nothing: there is no such number, and every operation gives one", body("rOut = rIn / 0.0 * 0.0 + rIn;")),
    ("`tanh`, `sinh`, `cosh`", [("UnknownName", body(f"rOut = {name}(rIn);")) for name in ("tanh", "sinh", "cosh")],
     "`exp`", body("float e = exp(-2.0 * 0.0); rOut = rIn + (1.0 - e) / (1.0 + e);")),
    ("`XYZtoLab`, `XYZtoLuv` and their inverses", [("UnknownName", body(f"float p[3] = {name}(a);", "")) for name in ("XYZtoLab", "XYZtoLuv")],
     "a function over `pow`", None),
    ("`abs`, `round`, `M_LN2`", [
        ("UnknownName", body("rOut = abs(rIn);")), ("UnknownName", body("rOut = round(rIn);")), ("UnknownName", body("rOut = rIn * M_LN2;"))],
     "`fabs(x)`, `floor(x + 0.5)`, `log(2.0)`", body("rOut = fabs(rIn) + floor(0.25 + 0.5) * log(2.0);")),
    ("`lookup3D_h`, `scatteredDataToGrid3D`", [("UnknownName", body(f"{name}(rIn);")) for name in ("lookup3D_h", "scatteredDataToGrid3D")],
     "`lookup3D_f`; a table in the text", None),
    ("`print_float(x)` and its kin", [("UnknownName", body("print_float(rIn); rOut = rIn;"))], "`print(x)`", body("print(rIn); rOut = rIn;")),
    ("`double`, `char`", [("UnknownName", body("double x = rIn; rOut = x;")), ("UnknownName", body("char x = 1; rOut = rIn;"))],
     "`float`, `int`", body("float x = rIn; int n = 1; rOut = x * n;")),
]

FORMS = [
    ("`break`, `continue`", [("NotHere", body(f"for (int i = 0; i < 4; i = i + 1) {{ {word}; }} rOut = rIn;")) for word in ("break", "continue")],
     "a `bool` in the loop's test, or a `return` out of a function",
     body("int i = 0; bool goes_on = true; while (goes_on) { i = i + 1; if (i == 4) goes_on = false; } rOut = rIn * i / 4;")),
    ("`i++`, `i--`, `i += 1`", [("NotHere", body(f"int i = 0; {step}; rOut = rIn;")) for step in ("i++", "i--", "i += 1")],
     "`i = i + 1`", body("int i = 0; i = i + 1; rOut = rIn * i;")),
    ("a brace list as an argument, as a right side, as what is returned", [
        ("NotHere", body("rOut = dot_f3_f3({ rIn, 0.0, 0.0 }, a);", "")), ("NotHere", body("float p[2]; p = { rIn, rIn }; rOut = p[0];")),
        ("NotHere", before("float[2] pair(float x) { return { x, x }; } "))],
     "a variable with the list as its first value", body("float p[2] = { rIn, rIn }; rOut = p[1];")),
    ("`float r, g, b;`", [("NotHere", body("float r, g, b; rOut = rIn;"))], "one declaration each", body("float r; float g; rOut = rIn + r + g;")),
    ("a cast `(int) x`", [("NotHere", body("int i = (int) rIn; rOut = rIn;"))], "a variable of that kind: scalars convert",
     body("int i = rIn * 3.5; rOut = rIn * i;")),
    ("`test ? a : b`", [("NoToken", body("rOut = rIn > 0.5 ? rIn : rIn;"))], "`if` and `else`", body("if (rIn > 0.5) rOut = rIn; else rOut = rIn;")),
    ("`do` and `while`, `for (;;)`", [
        ("NotHere", body("do { rOut = rIn; } while (false);")), ("NotHere", body("for (;;) { rOut = rIn; }"))],
     "`while`", body("int n = 0; while (n < 1) { rOut = rIn; n = n + 1; }")),
    ("a variable of the module that is no constant", [("NotHere", before("float gain = 1.0; "))], "`const`",
     body("rOut = rIn * gain;", "const float gain = 1.0; ")),
    ("`const` at a parameter", [("NotHere", before("float f(const float x) { return x; } "))], "no `const`: an input is never assigned",
     body("rOut = f(rIn);", "float f(float x) { return x; } ")),
    ("a prototype", [("NotHere", before("float f(float x); "))], "the function itself, before it is used",
     body("rOut = f(rIn);", "float f(float x) { return x; } ")),
    ("`inline`, `using namespace n;`", [
        ("NotHere", before("inline float f(float x) { return x; } ")), ("NotHere", before("namespace n { const float k = 1.0; } using namespace n; "))],
     "nothing; `n::k`", body("rOut = rIn * n::k;", "namespace n { const float k = 1.0; } ")),
    ("variables and parameters of `string`", [("NotHere", body('string s = "a"; rOut = rIn;')), ("NotHere", before("void f(string s) { } "))],
     "a text in `print` alone", body('print("red ", rIn); rOut = rIn;')),
    ("a struct inside a function, a field of open size", [
        ("NotHere", body("struct P { float x; }; rOut = rIn;")), ("NotHere", before("struct P { float x[]; } "))],
     "a struct of the module, with sizes", body("P p; p.x[1] = rIn; rOut = p.x[1];", "struct P { float x[2]; } ")),
    ("variables named `half`, `output`", [("NotHere", body("float half = rIn; rOut = half;")), ("NotHere", body("float output = rIn; rOut = output;"))],
     "other names", body("float middle = rIn; rOut = middle;")),
    ("`2f`, `0xFFu`", [("Literal", body("rOut = rIn * 2f;")), ("Literal", body("int n = 0xFFu; rOut = rIn;"))],
     "`2.0`, `0xFF`", body("int n = 0xFF; rOut = rIn * 2.0 * (n / 255) * 0.5;")),
]

MEANINGS = [
    ("`half[3]` or `int[3]` where `float[3]` is wanted, as in `mult_f3_f33`", [
        ("Mismatch", body(f"{kind} p[3] = {{ 1, 0, 0 }}; float q[3] = mult_f3_f33(p, M); rOut = rIn;", MATRIX)) for kind in ("half", "int")],
     "an array of `float`: scalars convert, arrays do not", body("float p[3] = { rIn, 0.0, 0.0 }; float q[3] = mult_f3_f33(p, M); rOut = q[0];", MATRIX)),
    ("a parameter that is changed in its function", [("NotAssignable", before("float f(float x) { x = x * 2.0; return x; } "))],
     "a variable that begins with it", body("rOut = f(rIn);", "float f(float x) { float y = x; y = y * 1.0; return y; } ")),
    ("a short brace list, `float s[4] = { 0.0 };`", [("Mismatch", body("float s[4] = { 0.0 }; rOut = rIn;"))],
     "no list: all begins at zero", body("float s[4]; rOut = rIn + s[3];")),
    ("a function that calls itself", [("Recursion", before("float f(float x) { return f(x); } "))], "a loop",
     body("float x = rIn; while (x > 1.0) x = x * 0.5; rOut = x;")),
    ("a function that is used before it stands", [("UnknownName", before("float f(float x) { return g(x); } float g(float x) { return x; } "))],
     "the other order", body("rOut = f(rIn);", "float g(float x) { return x; } float f(float x) { return g(x); } ")),
    ("`%` on floats", [("Mismatch", body("rOut = rIn % 1.0;"))], "`fmod`", body("rOut = fmod(rIn, 1.0);")),
    ("a matrix times a vector", [("Mismatch", body(ARRAY + "float q[3] = a * M; rOut = rIn;", MATRIX))], "`mult_f3_f33` and its kin",
     body(ARRAY + "float q[3] = mult_f3_f33(a, M); rOut = rIn * q[0];", MATRIX)),
    ("a struct as a constructor, `P(1.0)`", [("NotAFunction", body("P p = P(1.0); rOut = rIn;", "struct P { float x; } "))], "a brace list",
     body("P p = { rIn }; rOut = p.x;", "struct P { float x; } ")),
    ("a struct as a parameter of the entry", [("BadEntry", None)], "the channels, each a parameter", None),
    ("one name of a helper in two modules", [("Twice", None)], "a namespace in each", None),
]

PIXEL = "struct Pixel { float r; } void main(input Pixel p, output float rOut, output float gOut, output float bOut) { rOut = p.r; }"

# Sentences on numbers, each with tests that hold, and what stands in front of these.
NUMBERS = [
    ("A float lies between about -2,147,483,648 and 2,147,483,648, and is kept there without a word: a polynomial with terms such as "
     "`4.6e9 / (t * t * t)` leaves the range, and one in powers of `1000.0 / t` does not.",
     "", ["4.6e9 == FLT_MAX", "FLT_MAX + 1.0 == FLT_MAX", "4.6e9 / 8000000.0 < 300.0", "4.6 / 8.0 * 1000.0 > 574.9"]),
    ("The least number above 0 is about `2.3e-10`, so `1e-10` is 0: a guard with it before a logarithm or a division guards nothing. "
     "`1e-9` does.", "", ["1e-10 == 0.0", "1e-9 > 0.0"]),
    ("No operation fails, and nothing shows a mistake later: a root and a power of a negative number are 0 where they would be no number, a "
     "division by 0 is the greatest number or the least, and of 0 it is 0, and a logarithm of 0 or less is the least logarithm.",
     "", ["sqrt(-1.0) == 0.0", "pow(-2.0, 0.5) == 0.0", "1.0 / 0.0 == FLT_MAX", "-1.0 / 0.0 == -FLT_MAX", "0.0 / 0.0 == 0.0",
          "log(0.0) == log(-1.0)", "log(0.0) < -1000000000.0"]),
    ("A float that becomes an int is cut toward 0, and kept in the range of ints. Ints go round at their ends, and a division of an int by 0 "
     "is 0.", "int a = -1.9; int b = FLT_MAX; ", ["a == -1", "b == INT_MAX", "INT_MAX + 1 == INT_MIN", "7 / 0 == 0"]),
]
