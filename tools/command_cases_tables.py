#!/usr/bin/env python3
"""The cases of the program command_cases, and what the command does in each, from the independent checker and evaluator.

It prints the files data/cases and stdout of crates/command_cases, and the page docs/OTHER_CTL.md, whose rows are cases.
A case is its name, the module path, the pixels of the source, the files, of which the first is the text of the stage,
and the files in load order, or what keeps them from being loaded. What is known of a case from elsewhere stands beside
it, as the red codes, or as the line that is said, and is compared.
"""
from pathlib import Path
import sys

sys.dont_write_bytecode = True

from fix_num_tables import ONE
from grammar_reader import verdict as grammar_verdict
from language_checker import verdict
from language_evaluator import run
from language_types import TURNS
from other_ctl_texts import FORMS, MEANINGS, NAMES, NUMBERS, PIXEL

HEAD = (
    "void main(input varying float rIn, input varying float gIn, input varying float bIn, "
    "output varying float rOut, output varying float gOut, output varying float bOut)"
)
MOST = 1023
EXAMPLES = Path(__file__).resolve().parent.parent / "examples"
ANY = object()
CASES = []


def rounded(numerator, denominator):
    return (2 * numerator + denominator) // (2 * denominator)


def raw_of(code):
    return rounded(code * ONE, MOST)


def code_of(raw):
    return rounded(min(max(raw, 0), ONE) * MOST, ONE)


def word_of(pixel):
    return f"{pixel[0] << 22 | pixel[1] << 12 | pixel[2] << 2:08x}"


def entry_of(program):
    return program.functions[program.entry]


def pixel_of(program, pixel):
    """The codes that are stored for a pixel, or the trap's kind."""
    channels = dict(zip(("rIn", "gIn", "bIn"), map(raw_of, pixel)))
    inputs = [
        channels[p.name] if p.name in channels else ONE if p.default is None else p.default
        for p in entry_of(program).parameters if not p.is_output
    ]
    end = run(program, program.entry, inputs, TURNS)
    if end[0] == "Trap":
        return end[1]
    outputs = [p.name for p in entry_of(program).parameters if p.is_output]
    values = dict(zip(outputs, end[1]))
    return tuple(code_of(values[name]) for name in ("rOut", "gOut", "bOut"))


def end_of(case):
    """The number of the end, the calls, the stored words and the line."""
    loaded, calls = case["loaded"], 1 + case["fetches"]
    if isinstance(loaded, tuple):
        code, line = loaded
        return code, calls, None, line
    program, fault = verdict([(name, case["files"][name].replace("\\", "\n")) for name in loaded])
    if fault is not None:
        file, line, _, kind = fault
        return 5, calls, None, f"{file} line {line}: {kind}"
    if program.entry is None:
        return 13, calls, None, "not built yet"
    pixels = [pixel_of(program, pixel) for pixel in case["pixels"]]
    for column, pixel in enumerate(pixels):
        if isinstance(pixel, str):
            return 9, calls + 1, None, f"line 0 column {column} stage 0: {pixel}"
    return 0, calls + 2, pixels, None


def add(name, files, red=(0,), green=0, blue=0, path="p", loaded=None, fetches=None, wanted=None):
    def codes(given):
        return list(given) if isinstance(given, (tuple, list)) else [given] * len(red)

    case = {
        "name": name, "path": path, "files": files, "pixels": list(zip(red, codes(green), codes(blue))),
        "loaded": list(files)[:1] if loaded is None else loaded, "fetches": 1 if fetches is None else fetches,
    }
    code, calls, pixels, line = end_of(case)
    found = line if pixels is None else [pixel[0] for pixel in pixels]
    if wanted not in (found, ANY):
        print(f"{name}: {found}, but wanted {wanted}", file=sys.stderr)
    stored = " -" if pixels is None else "".join(" " + word_of(pixel) for pixel in pixels)
    said = "" if line is None else f" ctlrender: {line}"
    case["end"] = f"{name} {code} {calls}{stored}{said}"
    CASES.append(case)


def whole(body, before=""):
    return before + HEAD + " { " + body + " gOut = gIn; bOut = bIn; }"


def one(name, body, red=(0,), wanted=None, green=0, blue=0, before=""):
    add(name, {"r.ctl": whole(body, before)}, red, green, blue, wanted=wanted)


def exact(raw):
    """An expression with this raw."""
    size = abs(raw)
    parts = f"{size >> 32}.0 + ({size >> 16 & 65535}.0 / 65536.0 + {size & 65535}.0 / 65536.0 / 65536.0)"
    return f"({parts})" if raw >= 0 else f"(0.0 - ({parts}))"


def hold(name, *tests, before="", setting=""):
    """A case in which all of these hold: red becomes the highest code."""
    for number, test in enumerate(tests, 1):
        one(f"{name}-{number}", f"{setting}rOut = 0.0; if ({test}) rOut = 1.0;", wanted=[MOST], before=before)


def raws(*pairs):
    return [f"{text} == {exact(raw)}" for text, raw in pairs]


# Arithmetic at its ends.
hold(
    "ends",
    *raws(
        ("1.0 / 0.0", 9223372036854775807), ("-1.0 / 0.0", -9223372036854775807), ("0.0 / 0.0", 0),
        ("60000.0 * 60000.0", 9223372036854775807),
    ),
    "INT_MAX + 1 == INT_MIN", "INT_MIN / -1 == INT_MIN", "7 / 0 == 0", "-7 / 2 == -3", "-7 % 2 == -1", "1 << 33 == 2",
)

# Powers, roots and angles.
hold(
    "powers",
    *raws(
        ("pow(0.5, 2.0)", 1073741824), ("pow(0.0, 0.0)", ONE), ("pow(-2.0, 3.0)", -8 * ONE), ("pow(-2.0, 0.5)", 0),
        ("pow(2.0, 0.5)", 6074001000), ("log(0.0)", -6393154322601327825),
    ),
)
hold(
    "angles",
    *raws(
        ("sqrt(2.0)", 6074000999), ("sqrt(-1.0)", 0), ("sin(0.0)", 0), ("cos(0.0)", ONE),
        ("atan2(0.0, -1.0)", 13493037705), ("atan2(1.0, 1.0)", 3373259426), ("atan2(0.0, 0.0)", 0),
    ),
)

# Look-ups and matrices.
TABLE = "float t[3] = { 0.0, 1.0, 4.0 }; "
hold(
    "tables",
    "lookup1D(t, 0.0, 2.0, 1.5) == 2.5", "lookup1D(t, 0.0, 2.0, -1.0) == 0.0", "lookup1D(t, 0.0, 2.0, 9.0) == 4.0",
    "lookup1D(t, 1.0, 1.0, 1.0) == 0.0", "lookupCubic1D(t, 0.0, 2.0, 1.5) == 2.375",
    setting=TABLE,
)
hold(
    "pairs", "interpolate1D(t, 1.25) == 7.5",
    setting="float t[3][2] = { { 0.0, 0.0 }, { 1.0, 10.0 }, { 2.0, 0.0 } }; ",
)
CUBE = (
    "float t[2][2][2][3]; for (int i = 0; i < 2; i = i + 1) for (int j = 0; j < 2; j = j + 1) "
    "for (int k = 0; k < 2; k = k + 1) { t[i][j][k][0] = i; t[i][j][k][1] = j; t[i][j][k][2] = k; } "
    "float lo[3] = { 0.0, 0.0, 0.0 }; float hi[3] = { 1.0, 1.0, 1.0 }; float at[3] = { 0.25, 0.5, 0.75 }; "
    "float p[3] = lookup3D_f3(t, lo, hi, at); "
)
hold("cube", "p[0] == 0.25 && p[1] == 0.5 && p[2] == 0.75", setting=CUBE)
hold(
    "matrix", "p[0] == 4.0 && p[1] == 4.0 && p[2] == 3.0",
    setting=(
        "float v[3] = { 1.0, 2.0, 3.0 }; float m[3][3] = { { 1.0, 0.0, 0.0 }, { 0.0, 2.0, 0.0 }, { 1.0, 0.0, 1.0 } }; "
        "float p[3] = mult_f3_f33(v, m); "
    ),
)
SAME = " && ".join(f"a[{i}][{j}] == b[{i}][{j}]" for i in range(4) for j in range(4))
hold(
    "primaries", SAME,
    setting=(
        "Chromaticities c = { { 0.64, 0.33 }, { 0.3, 0.6 }, { 0.15, 0.06 }, { 0.3127, 0.329 } }; "
        "float a[4][4] = XYZtoRGB(c, 1.0); float b[4][4] = invert_f44(RGBtoXYZ(c, 1.0)); "
    ),
)

# Modules: the first folder of the path, a cycle, a module that is absent, one that two import, and one that is not used.
COPY = whole("rOut = rIn;")
HALVE = "float halve(float x) { return x * 0.5; }"
add("first-folder", {"r.ctl": 'import "A.B";\\' + whole("rOut = halve(rIn);"), "p/A.B.ctl": HALVE, "q/A.B.ctl": "@"},
    (1023,), path="p:q", loaded=["p/A.B.ctl", "r.ctl"], fetches=2, wanted=[512])
add("second-folder", {"r.ctl": 'import "A.B";\\' + whole("rOut = halve(rIn);"), "q/A.B.ctl": HALVE},
    (1023,), path="p::q", loaded=["q/A.B.ctl", "r.ctl"], fetches=3, wanted=[512])
add("cycle", {"r.ctl": 'import "A";\\' + COPY, "p/A.ctl": 'import "B";\\', "p/B.ctl": 'import "A";\\'},
    loaded=(5, "p/B.ctl line 0: Cycle"), fetches=3, wanted="p/B.ctl line 0: Cycle")
add("no-folder", {"r.ctl": 'import "A";\\' + COPY, "p/A.ctl": HALVE}, path=":", loaded=(4, "A not found"), wanted="A not found")
add("absent", {"r.ctl": 'import "A";\\' + COPY}, loaded=(4, "A not found"), fetches=2, wanted="A not found")
add("once", {"r.ctl": 'import "A";\\import "B";\\' + COPY, "p/A.ctl": 'import "C";\\', "p/B.ctl": 'import "C";\\', "p/C.ctl": HALVE},
    (1023,), loaded=["p/C.ctl", "p/A.ctl", "p/B.ctl", "r.ctl"], fetches=4, wanted=[1023])
add("not-used", {"r.ctl": 'import "A";\\' + COPY, "p/A.ctl": HALVE}, (0, 341, 1023), loaded=["p/A.ctl", "r.ctl"], fetches=2,
    wanted=[0, 341, 1023])
add("broken-import", {"r.ctl": 'import "A";\\' + COPY, "p/A.ctl": "\\\\@"}, loaded=(5, "p/A.ctl line 3: NoToken"), fetches=2,
    wanted="p/A.ctl line 3: NoToken")
add("cut-import", {"r.ctl": 'import "A";\\' + COPY, "p/A.ctl": "\\void"}, loaded=(5, "p/A.ctl line 2: NotHere"), fetches=2,
    wanted="p/A.ctl line 2: NotHere")
SPACE = "namespace n { float k(float x) { return x * 0.5; } } "
one("namespace", "rOut = n::k(rIn);", (1023,), [512], before=SPACE)
one("outside-namespace", "rOut = k(rIn);", (1023,), "r.ctl line 1: UnknownName", before=SPACE)

# What the checker refuses.
for kind, text in [
    ("UnknownName", "void main() { x = 1; }"), ("NotAssignable", "void main(float rIn) { rIn = 1.0; }"),
    ("NoReturn", "int f() { if (true) return 1; }"), ("Mismatch", "const float a[2] = {1.0};"),
    ("Twice", "const int a = 1; const int a = 2;"), ("Recursion", "float f(float x) { return f(x); }"),
    ("ConstTrap", "const int t[2] = {1, 2}; const int u = t[5];"), ("BadSize", "void f(float g[0]) { }"),
    ("Mismatch", "void f(output float a[], float b[]) { a = b; }"),
]:
    add(f"refused-{len(CASES)}", {"r.ctl": "\\" + text}, wanted=f"r.ctl line 2: {kind}")

# Loops, returns, chains, assertions, turns and outputs.
one("turns-of-a-pixel", "float s = 0.0; int i = 0; if (gIn > 0.5) { while (i < rIn * 3.0 - 0.5) { s = s + 0.25; i = i + 1; } } rOut = s;",
    (0, 341, 682, 1023), [0, 256, 512, 767], green=1023)
one("left-early", "rOut = pick(rIn);", (0, 1023, 0, 1023), [767, 256, 767, 256], before=(
    "float pick(float x) { float t = 0.0; for (int i = 0; i < 4; i = i + 1) { if (x > 0.5) return 0.25; t = t + 0.125; } "
    "t = t + 0.25; return t; } "))
INDEX = "float a[3] = {1.0, 1.0, 1.0}; int i = 0; if (rIn > 0.5) i = 3; rOut = 0.0; "
one("guarded-index", INDEX + "if (i < 3 && a[i] > 0.0) rOut = 1.0;", (0, 0, 1023, 0), [1023, 1023, 0, 1023])
one("index", INDEX + "if (a[i] > 0.0) rOut = 1.0;", (0, 0, 1023, 0), "line 0 column 2 stage 0: Index")
one("assertion", "assert(rIn < 0.9); assert(gIn < 0.9); rOut = rIn;", (0, 0, 0, 0, 0, 1023, 0, 0), "line 0 column 2 stage 0: Assert",
    green=(0, 0, 1023, 0, 0, 0, 0, 0))
one("all-turns", "int i = 0; while (i < 1000000) i = i + 1; rOut = rIn;", (1023,), [1023])
one("turn-too-many", "int i = 0; while (i < 1000001) i = i + 1; rOut = rIn;", (1023,), "line 0 column 0 stage 0: Turns")
one("turn-too-many-later", "int i = 0; if (rIn > 0.5) while (i < 1000001) i = i + 1; rOut = rIn;", (0, 1023), "line 0 column 1 stage 0: Turns")
one("outputs-in-order", "float x = 0.0; f(x, x); rOut = x;", wanted=[767], before="void f(output float a, output float b) { a = 0.25; b = 0.75; } ")
SIZES = "int n(float a[]) { return a.size; } "
one("three", "float p[3]; rOut = n(p) * 0.0625;", wanted=[192], before=SIZES)
one("nine", "float q[9]; rOut = n(q) * 0.0625;", wanted=[575], before=SIZES)


# What is written elsewhere, and what stands for it here.
def refused(name, kind, text):
    """A text in two lines: definitions, and the entry."""
    before, body = text
    text = f"{before}\\{whole(body)}"
    line = 1 if before and body == "rOut = rIn;" else 2
    if kind == "NotHere":
        assert grammar_verdict(text.replace("\\", "\n"))[0] == kind, text
    loaded = (5, f"r.ctl line {line}: {kind}") if kind in ("NotHere", "NoToken", "Literal") else None
    add(name, {"r.ctl": text}, loaded=loaded, wanted=f"r.ctl line {line}: {kind}")


def elsewhere(name, rows):
    for number, (_, texts, _, accepted) in enumerate(rows, 1):
        for place, (kind, text) in enumerate(texts):
            if text is not None:
                refused(f"{name}-{number}-{'abc'[place]}", kind, text)
        if accepted is not None:
            before, body = accepted
            one(f"{name}-{number}", body, (341,), [341], before=before)


elsewhere("names", NAMES)
elsewhere("forms", FORMS)
elsewhere("meanings", MEANINGS)
add("pixel-in-a-struct", {"r.ctl": PIXEL}, wanted="r.ctl line 1: BadEntry")
add("two-helpers", {"r.ctl": 'import "A";\\' + whole("rOut = halve(rIn);", HALVE + " "), "p/A.ctl": HALVE},
    loaded=["p/A.ctl", "r.ctl"], fetches=2, wanted="r.ctl line 2: Twice")
for number, (_, setting, tests) in enumerate(NUMBERS, 1):
    hold(f"numbers-{number}", *tests, setting=setting)

# The examples.
def shipped(name, *imports):
    texts = {path: (EXAMPLES / file).read_text().replace("\n", "\\") for path, file in [("r.ctl", name), *((f"p/{i}", i) for i in imports)]}
    add(f"shipped-{name}", texts, (0, 1, 50, 102, 103, 400, 512, 700, 900, 1022, 1023), (1023, 900, 700, 512, 400, 103, 102, 101, 50, 1, 0),
        (0, 512, 1023, 512, 0, 256, 768, 256, 0, 1023, 1023), loaded=[*(f"p/{i}" for i in imports), "r.ctl"], fetches=1 + len(imports), wanted=ANY)


shipped("half.ctl")
shipped("look.ctl")
shipped("idt.ctl", "Curves.ctl")
shipped("odt.ctl")


PAGE = """# Coming from other CTL

What transforms that were written for other interpreters use, and this language refuses or reads otherwise: what is said, and
what to write instead. Each row of the tables is a case of the program command_cases, with a text that is refused so and, where
there is one, a text that is accepted and gives red as it is. This page is printed by `tools/command_cases_tables.py`.
"""


def page():
    yield PAGE
    for title, rows in [("Names", NAMES), ("Forms", FORMS), ("Meanings", MEANINGS)]:
        yield f"## {title}\n\n| construct | said | instead |\n|---|---|---|"
        for construct, texts, instead, _ in rows:
            kinds = dict.fromkeys(kind for kind, _ in texts)
            yield f"| {construct} | {', '.join(f'`{kind}`' for kind in kinds)} | {instead} |"
        yield ""
    yield "A name that stands in two modules is told in the one that is loaded later.\n"
    yield "## Numbers\n"
    for sentence, setting, tests in NUMBERS:
        shown = ", ".join(f"`{test}`" for test in tests)
        yield f"- {sentence} {f'With `{setting.strip()}`: ' if setting else 'So '}{shown}."


def main():
    print("file: crates/command_cases/data/cases")
    for case in CASES:
        pixels = " ".join(map(word_of, case["pixels"]))
        files = "".join(f"#{name} {text}" for name, text in case["files"].items())
        print(f"{case['name']} {case['path']} {pixels}{files}")
    print("file: crates/command_cases/stdout")
    for case in CASES:
        print(case["end"])
    print("file: docs/OTHER_CTL.md")
    print("\n".join(page()))


main()
