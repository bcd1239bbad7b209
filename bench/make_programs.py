#!/usr/bin/env python3
"""Makes files of cases for the program language_cases: bench/make_programs.py FOLDER

FOLDER/NAME_COUNT/texts has one case. Of `transforms`, `tones` and `gammas`, the three programs of the chain that is built
into the command, it has so many runs of one pixel each; of `definitions` and `statements` so many of them, and no run.
"""
from pathlib import Path
import sys

ONE = 1 << 32
GOLDEN = 0x9E3779B97F4A7C15

HEAD = "input varying float rIn, input varying float gIn, input varying float bIn"
TAIL = "output varying float rOut, output varying float gOut, output varying float bOut"
PROGRAMS = {
    "transforms": f"""ctlversion 1;
const float M[3][3] = {{ {{ 0.75, 0.125, 0.125 }}, {{ 0.125, 0.75, 0.125 }}, {{ 0.125, 0.125, 0.75 }} }};
float lin(float c) {{ if (c < 0.1) return c * 0.1; return pow10((c - 1.0) * 2.0); }}
void main({HEAD}, input uniform float gain, {TAIL}) {{
  float x[3] = {{ lin(rIn), lin(gIn), lin(bIn) }};
  float y[3] = mult_f3_f33(x, M);
  rOut = y[0] * gain; gOut = y[1] * gain; bOut = y[2] * gain;
}}""",
    "tones": f"""const float T[5][2] = {{ {{ 0.0, 0.0 }}, {{ 0.125, 0.25 }}, {{ 0.25, 0.5 }}, {{ 0.5, 0.75 }}, {{ 1.0, 1.0 }} }};
float tone(float v) {{
  float w = v; int k = 0;
  while (w > 1.0 && k < 8) {{ w = w * 0.5; k = k + 1; }}
  return interpolate1D(T, w);
}}
void main({HEAD}, {TAIL}) {{ rOut = tone(rIn); gOut = tone(gIn); bOut = tone(bIn); }}""",
    "gammas": f"""void main({HEAD}, input varying float aIn, input uniform float gamma = 2.2, {TAIL.replace("float", "half")}) {{
  float e = 1.0 / gamma;
  rOut = pow(rIn, e) * aIn; gOut = pow(gIn, e) * aIn; bOut = pow(bIn, e) * aIn;
}}""",
}
MORE = {"transforms": [3 * ONE // 2], "tones": [], "gammas": [ONE, round(2.2 * ONE)]}


def code_in(code):
    return (2 * code * ONE + 1023) // 2046


def pixel(n):
    seed = n * GOLDEN % (1 << 64)
    return [code_in(seed >> shift & 1023) for shift in (54, 44, 34)]


def runs(name, count):
    for n in range(count):
        yield " ".join(str(word) for word in [1000000, *pixel(n), *MORE[name]])


def definitions(count):
    lines = ["const float c0 = 1.0;"]
    lines += [f"const float c{n} = c{n - 1} * 0.5;" if n % 2 else f"float f{n}(float x) {{ return x * c{n - 1}; }}\nconst float c{n} = c{n - 1} + 1.0;"
              for n in range(1, count // 3 * 2)]
    return "\n".join([*lines, "void last() { }"])


def statements(count):
    body = "\n".join("x = x + 1.0;" if n % 4 else "if (x > 2.0) x = 0.5;" for n in range(count * 4 // 5))
    return f"float f(float y) {{ float x = y;\n{body}\nreturn x; }}\nvoid last() {{ }}"


def write(folder, name, count, text, given=()):
    place = folder / f"{name}_{count}"
    place.mkdir()
    line = text.replace("\n", "\\")
    (place / "texts").write_text(f"e#a.ctl {line}" + "".join(f"${run}" for run in given) + "\n")


def main(folder):
    for name, text in PROGRAMS.items():
        for count in (0, 50000, 100000, 200000):
            write(folder, name, count, text, runs(name, count))
    for times in (1, 2, 4):
        write(folder, "definitions", 12500 * times, definitions(12500 * times))
        write(folder, "statements", 50000 * times, statements(50000 * times))


main(Path(sys.argv[1]))
