#!/usr/bin/env python3
"""A second reader of the command's words, and the lists of words of crates/command_line_rows with what it says of them.

It prints the standard input of that program, one list of words a line, and the standard output that it must write. A
line of the input has the kinds of the watchers that were handed in, as digits, and each word behind a bar.

The reader knows the options by one pattern each, over all words at once: each word is first given its part, by what
stands before it, and then looked at by itself. Numbers are exact fractions.
"""
from fractions import Fraction
import re

FORMATS = {"dpx": 0, "dpx10": 10, "dpx16": 16}
WATCHERS = {"range": 1, "clip": 2, "sum": 3, "bins": 4}
PARTS = {
    "-ctl": ["file"],
    "-format": ["format"],
    "-force": [],
    "-watch": ["watcher"],
    "-verbose": [],
    "-make": ["whole"],
}
for count in (1, 2, 3):
    PARTS[f"-param{count}"] = PARTS[f"-global_param{count}"] = ["name"] + ["number"] * count
DECIMAL = re.compile(r"([+-]?)(?=\.?[0-9])([0-9]*)\.?([0-9]*)(?:[eE]([+-]?[0-9]{1,4}))?", re.ASCII)
GREATEST = 2**63 - 1


def raw_of(word):
    """The raw of a decimal spelling, None where the word is none or has too many digits."""
    found = DECIMAL.fullmatch(word)
    if not found:
        return None
    sign, whole, part, power = found.groups()
    digits = (whole + part).lstrip("0")
    if len(digits) > 25:
        return None
    value = Fraction(int(digits or "0")) * Fraction(10) ** (int(power or "0") - len(part))
    raw = (-value if sign == "-" else value) * 2**32 + Fraction(1, 2)
    return max(-GREATEST, min(GREATEST, raw.numerator // raw.denominator))


def passes(part, word, kinds):
    """Whether a word behind an option passes."""
    if part == "name":
        return re.fullmatch(r"[A-Za-z_][A-Za-z0-9_]*", word) is not None
    if part == "number":
        return raw_of(word) is not None
    if part == "format":
        return word in FORMATS
    if part == "watcher":
        return WATCHERS.get(word) in kinds
    if part == "whole":
        return re.fullmatch(r"[0-9]+", word) is not None and int(word) < 2**32
    return True


def heads_of(words):
    """The places of the options and of the plain words: those that no option before them takes."""
    heads, place = [], 0
    while place < len(words):
        heads.append(place)
        place += 1 + len(PARTS.get(words[place], []))
    return heads


def fails(words, heads, place, kinds):
    """Whether the word at a place fails, where no word before it does."""
    word, before = words[place], [words[head] for head in heads if head < place]
    if place not in heads:
        head = max(head for head in heads if head < place)
        return not passes(PARTS[words[head]][place - head - 1], word, kinds)
    if not word.startswith("-"):
        return "-make" in before or sum(not other.startswith("-") for other in before) >= 2
    if word not in PARTS or place + len(PARTS[word]) >= len(words):
        return True
    if word == "-make":
        return place != 0
    if "-make" in before:
        return word not in ("-watch", "-verbose")
    if word == "-ctl":
        return before.count("-ctl") >= 32
    return word.startswith("-param") and "-ctl" not in before


def parameter(words, head):
    raws = [raw_of(words[place]) for place in range(head + 2, head + 1 + len(PARTS[words[head]]))]
    return f"{words[head + 1]}/{len(raws)}" + "".join(f"/{raw}" for raw in raws + [0] * (3 - len(raws)))


def command(words, heads):
    """What accepted words ask for, as one line."""
    def behind(option):
        return [words[head + 1] for head in heads if words[head] == option]

    def given(option):
        return any(words[head] == option for head in heads)

    plain = [words[head] for head in heads if not words[head].startswith("-")] + ["", ""]
    stages = [head for head in heads if words[head] == "-ctl"]
    line = "command"
    for start, end in zip(stages, stages[1:] + [len(words)]):
        own = [head for head in heads if start < head < end and words[head].startswith("-param")]
        line += f" stage {words[start + 1]}" + "".join(f" param {parameter(words, head)}" for head in own)
    line += "".join(f" global {parameter(words, head)}" for head in heads if words[head].startswith("-global"))
    line += f" format {FORMATS[(['dpx'] + behind('-format'))[-1]]}"
    line += " force" * given("-force") + " verbose" * given("-verbose")
    line += "".join(f" watch {kind}" for name, kind in WATCHERS.items() if name in behind("-watch"))
    line += "".join(f" make {int(number)}" for number in behind("-make"))
    return line + f" source [{plain[0]}] destination [{plain[1]}]"


def told(words, kinds):
    heads = heads_of(words)
    for place in range(len(words)):
        if fails(words, heads, place, kinds):
            return f"usage {place}"
    starts = [words[head] for head in heads]
    plain = [word for word in starts if not word.startswith("-")]
    if "-make" not in starts and ("-ctl" not in starts or len(plain) < 2):
        return f"usage {len(words)}"
    return command(words, heads)


# ---- the lists of words

ALL = "1234"
STAGE = ["-ctl", "a.ctl"]
FILES = ["in", "out"]
PLAIN = STAGE + FILES
CASES = []


def case(*words, kinds=ALL):
    CASES.append((kinds, list(words)))


def around(*words, kinds=ALL):
    """The words at the end, in front, and between the plain words of an accepted list."""
    case(*PLAIN, *words, kinds=kinds)
    case(*words, *PLAIN, kinds=kinds)
    case(*STAGE, "in", *words, "out", kinds=kinds)


def plain_words():
    case(*PLAIN)
    case()
    case("-ctl")
    case("-ctl", "a.ctl")
    case("-ctl", "a.ctl", "in")
    case("in", "out")
    case("in", "-ctl", "a.ctl", "out")
    case("in", "out", "-ctl", "a.ctl")
    case("out", "in", "-ctl", "a.ctl")
    case(*PLAIN, "more")
    case(*PLAIN, "more", "-unknown")
    case(*PLAIN, "-unknown", "more")
    case("", *PLAIN)
    case(*STAGE, "", "out")
    case(*STAGE, "", "")
    case(*STAGE, "in", "in")
    case(*STAGE, "-", "out")
    case(*STAGE, "in", "-")
    case(*STAGE, "--", "in", "out")
    case(*STAGE, "+in", "out")
    case(*STAGE, "in put", "a-b")
    case(*STAGE, "\u00e9", "\u2212out")


def unknown_options():
    for word in ("-help", "--help", "--version", "-Force", "-force ", "-forc", "-forced", "-param", "-param0", "-param4",
                 "-global_param", "-global_param4", "-globalparam1", "-CTL", "-ctl=a", "-5", "-.5", "-watch=sum"):
        case(*PLAIN, word)
    case("-unknown")
    case("-unknown", *PLAIN)


def taken_words():
    """A word behind an option is taken whatever it begins with."""
    case("-ctl", "-force", *FILES)
    case("-ctl", "-ctl", *FILES)
    case("-ctl", "", *FILES)
    case("-ctl", "-ctl", "-ctl", "-make", *FILES)
    case("-ctl", "-unknown", *FILES)
    case(*PLAIN, "-format", "-force")
    case(*PLAIN, "-watch", "-verbose")
    case(*PLAIN, "-param1", "-force", "1")
    case(*PLAIN, "-param1", "g", "-force")
    case(*PLAIN, "-param1", "g", "-2e-1")
    case(*PLAIN, "-param2", "g", "-1", "-.5")


def missing_words():
    for words in (["-ctl"], ["-format"], ["-watch"], ["-param1"], ["-param1", "g"], ["-param2", "g", "1"],
                  ["-param3", "g", "1", "2"], ["-global_param1", "g"], ["-global_param2", "g", "1"],
                  ["-global_param3", "g", "1", "2"], ["-param3", "9", "x"]):
        case(*PLAIN, *words)
    case("-format")
    case("-make")
    case("-global_param1")


def parameters():
    case("-param1", "g", "1", *PLAIN)
    case("-param1", "g", *PLAIN)
    case("in", "-param1", "g", "1", "out", *STAGE)
    case("-global_param1", "g", "1", *PLAIN)
    case("in", "out", "-global_param2", "g", "1", "2", *STAGE)
    case(*PLAIN, "-param1", "g", "1")
    case(*PLAIN, "-param2", "g", "1", "2")
    case(*PLAIN, "-param3", "g", "1", "2", "3")
    case(*PLAIN, "-global_param3", "g", "1", "2", "3")
    case(*PLAIN, "-param1", "g", "1", "2")
    case(*PLAIN, "-param2", "g", "1", "-force")
    case(*PLAIN, "-param1", "g", "1", "-param1", "g", "2")
    case("-ctl", "a", "-param1", "g", "1", "-ctl", "b", "-global_param1", "h", "2", "-param1", "g", "3", *FILES)
    case("-ctl", "a", "-ctl", "b", "-param1", "g", "1", "-param2", "h", "2", "3", *FILES)
    case("-ctl", "a", "-global_param1", "x", "1", "in", "-param1", "y", "2", "-global_param1", "x", "3", "out")
    case("-ctl", "g.ctl", "-param1", "gain", "0.5", "-ctl", "g.ctl", "-global_param1", "gain", "0.25", *FILES)


def names():
    for name in ("a", "Z", "_", "_9", "a_b", "A9z", "zZ_09", "x" * 60, "", "9", "9a", "0", "a-b", "a b", " a", "a ", "a.b",
                 "\u00e9", "a\u00e9", "-a", "@", "[", "`", "{", "a@", "a[", "a`", "a{", "a/", "a:", "/", ":"):
        case(*PLAIN, "-param1", name, "1")
    case(*PLAIN, "-global_param2", "9a", "1", "2")
    case(*PLAIN, "-global_param2", "a9", "1", "2")


def numbers():
    digits = "1234567890123456789012345"
    for number in ("0", "-0", "+1", "1.", ".5", "-.5", "1.5", "1e3", "1E3", "1e+3", "1e-3", "1e9999", "-1e9999", "1e-9999",
                   "00000000000000000000000000000001", "0.0000000000000000000000000001", digits, "-" + digits,
                   "0." + digits, digits[:10] + "." + digits[10:], "1" + "0" * 24, "2147483647.99999999988",
                   "2147483648", "-2147483648", "0.00000000011641532182693481445312", "0.00000000011641532182693481445313",
                   "-0.0000000001164153218269348145",
                   "", ".", "+", "-", "e1", ".e1", "1e", "1e+", "1e12345", "1e1.0", "1.2.3", "..5", "--1", "+-1", "1 ", " 1",
                   "0x10", "1f", "nan", "inf", "1,5", "1_000", "\u0661", digits + "6", "1" + "0" * 25, "1." + "0" * 25,
                   digits + ".0", "0.1" + "0" * 25):
        case(*PLAIN, "-param1", "g", number)
    case(*PLAIN, "-param3", "g", "1", "2", "x")
    case(*PLAIN, "-param3", "g", "1", "x", "y")
    case(*PLAIN, "-param3", "g", "x", "1", "y")
    case(*PLAIN, "-global_param3", "g", "0.5", "-0.5", "1e-1")


def formats():
    for name in ("dpx", "dpx10", "dpx16", "dpx8", "dpx9", "dpx12", "dpx016", "DPX", "", "10", "dpx10 "):
        case(*STAGE, "-format", name, *FILES)
    case(*PLAIN, "-format", "dpx10", "-format", "dpx16")
    case(*PLAIN, "-format", "dpx16", "-format", "dpx10")
    case(*PLAIN, "-format", "dpx10", "-format", "dpx")
    case("-format", "dpx16", *PLAIN, "-format", "dpx9")
    case("-format", "dpx9", *PLAIN, "-format", "dpx16")


def switches():
    around("-force")
    around("-verbose")
    around("-force", "-verbose", "-force", "-verbose")
    around("-watch", "range", "-watch", "bins")
    case(*PLAIN, "-watch", "sum", "-watch", "sum", kinds="3")
    case(*PLAIN, "-watch", "clip", kinds="2")
    case(*PLAIN, "-watch", "clip", kinds="134")
    case(*PLAIN, "-watch", "range", kinds="")
    case(*PLAIN, "-watch", "bins", kinds="44")
    case(*PLAIN, "-watch", "sum", "-watch", "clip", kinds="31")
    for name in ("Range", "", "4", "bin", "sums"):
        case(*PLAIN, "-watch", name)


def stages():
    many = [word for place in range(32) for word in ("-ctl", f"s{place}")]
    case(*many, *FILES)
    case(*many, "-ctl", "s32", *FILES)
    case(*many, *FILES, "-ctl", "s32")
    case(*many, *FILES, "-ctl")
    case(*many, "-param1", "g", "1", *FILES, "-force")
    case(*many[2:], "in", "-ctl", "last", "out")


def made_images():
    for number in ("0", "7", "007", "4294967295", "4294967296", "04294967295", "99999999999999999999", "-1", "+1", "", "1.0",
                   "1e3", "x", "7 ", "\u0667"):
        case("-make", number)
    case("-make", "7", "-verbose")
    case("-make", "7", "-watch", "sum", "-verbose", "-watch", "range")
    case("-make", "7", "-watch", "sum", kinds="12")
    case("-make", "7", "-watch")
    for words in (["-force"], ["-ctl", "a.ctl"], ["-format", "dpx"], ["-param1", "g", "1"], ["-global_param1", "g", "1"],
                  ["in"], ["-make", "7"], ["-unknown"], PLAIN):
        case("-make", "7", *words)
    case("-make", "7", "-verbose", "in")
    case("-verbose", "-make", "7")
    case(*PLAIN, "-make", "7")
    case(*PLAIN, "-make")
    case("-ctl", "-make", "in", "out")


def two_faults():
    """Two words that fail, in both orders."""
    faults = [["-unknown"], ["-format", "dpx9"], ["-param1", "9", "1"], ["-param1", "g", "x"], ["-watch", "none"],
              ["-make", "1"]]
    for first in faults:
        for second in faults:
            if first is not second:
                case(*PLAIN, *first, *second)
    case(*STAGE, "in", "-unknown")
    case(*STAGE, "-unknown", "in")
    case(*PLAIN, "more", "-format")
    case(*PLAIN, "-format", "more", "more")
    case("-param1", "9", "x", *PLAIN, "-unknown")
    case(*PLAIN, "-global_param1", "9", "x")
    case("-unknown", "-param1", "g", "1")
    case("-param1", "g", "1", "-unknown")


for section in (plain_words, unknown_options, taken_words, missing_words, parameters, names, numbers, formats, switches,
                stages, made_images, two_faults):
    section()

print("file: crates/command_line_rows/stdin")
for kinds, words in CASES:
    print(kinds + "".join(f"|{word}" for word in words))
print("file: crates/command_line_rows/stdout")
for kinds, words in CASES:
    print(told(words, {int(kind) for kind in kinds}))
