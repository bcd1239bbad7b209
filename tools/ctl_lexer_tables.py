#!/usr/bin/env python3
"""Prints the tables of the lexer's tests: texts with their tokens, and texts with their fault.

The tokens of each text are written here by hand, from the rules of the language. The places
follow from the pieces; the values of numbers are computed with exact fractions."""
from fractions import Fraction
from math import floor

F = 32
MAX = 2**63 - 1
KEYWORDS = "bool const ctlversion else false float for half if import input int namespace output print return string struct true uniform unsigned varying void while".split()
SIGNS = {"+": "Plus", "-": "Minus", "*": "Star", "/": "Slash", "%": "Percent", "&": "Ampersand", "|": "Bar", "^": "Caret", "~": "Tilde", "<<": "ShiftLeft", ">>": "ShiftRight", "&&": "AndAnd", "||": "OrOr", "!": "Exclamation", "==": "EqualTo", "!=": "NotEqualTo", "<": "LessThan", "<=": "AtMost", ">": "GreaterThan", ">=": "AtLeast", "=": "Assign", "(": "OpenRound", ")": "CloseRound", "[": "OpenSquare", "]": "CloseSquare", "{": "OpenCurly", "}": "CloseCurly", ",": "Comma", ";": "Semicolon", ".": "Dot", "::": "ColonColon"}


def raw(spelling):
    """The raw nearest to a decimal number, halves upwards, clamped."""
    mantissa, _, power = spelling.lower().partition("e")
    whole, _, part = mantissa.partition(".")
    value = Fraction(int((whole + part) or "0")) * Fraction(10) ** (int(power or "0") - len(part))
    return max(-MAX, min(MAX, floor(value * 2**F + Fraction(1, 2))))


def half(r):
    """The half nearest to a raw that is not negative, of two the one with an even significand."""
    unit = 2 ** (F - 24)
    best = min((abs(r - m * (unit << s)), m % 2, m * (unit << s)) for s in range(30) for m in range(2048) if s == 0 or m >= 1024)
    return best[2]


def token(piece):
    """The token of a piece: a keyword, a sign, or a kind before a colon and a space."""
    if piece in KEYWORDS:
        return piece, f"Word(Keyword::{piece.capitalize()})"
    if piece in SIGNS:
        return piece, f"Sign(Sign::{SIGNS[piece]})"
    kind, span = piece.split(": ", 1)
    if kind == "whole":
        return span, f"Whole({int(span, 16) if span[:2].lower() == '0x' else int(span)})"
    if kind == "point":
        return span, f"Point({raw(span.rstrip('fF'))})"
    if kind == "half":
        return span, f"HalfPoint({half(raw(span[:-1]))})"
    return span, {"name": "Name", "text": "Text"}[kind]


def n(*spans):
    return [f"name: {s}" for s in spans]


# Cases that no line feed in front or behind changes: each table joins its own by line feeds into one text.
JOINED = {
    "WORDS": [(k, [k]) for k in KEYWORDS] + [
    ("iff", n("iff")), ("If", n("If")), ("_", n("_")), ("_1", n("_1")), ("void_", n("void_")), ("ifelse if else", ["name: ifelse", "if", "else"]),
    ("printx print", ["name: printx", "print"]), ("A9_z", n("A9_z")),
        ("\na\n\nb", n("a", "b")), (" \t\v\f\r", []),
    ],
    "SIGNS": [(s, [s]) for s in SIGNS] + [
        ("a<=b", ["name: a", "<=", "name: b"]), ("! =", ["!", "="]), ("< <", ["<", "<"]),
    ],
    "SIGNS_IN_A_ROW": [
    ("<<=", ["<<", "="]), (">>=", [">>", "="]), ("===", ["==", "="]), ("!==", ["!=", "="]), ("<=>", ["<=", ">"]), ("&&&", ["&&", "&"]), ("|||", ["||", "|"]),
    ("<<<", ["<<", "<"]), (">>>", [">>", ">"]), ("::::", ["::", "::"]), ("..", [".", "."]), ("a.b", ["name: a", ".", "name: b"]), ("a::b", ["name: a", "::", "name: b"]),
        ("+-", ["+", "-"]), ("--", ["-", "-"]), ("*/", ["*", "/"]), ("%/ /", ["%", "/", "/"]), ("~!^", ["~", "!", "^"]),
    ],
    "WHOLES": [
    ("0", ["whole: 0"]), ("007", ["whole: 007"]), ("2147483647", ["whole: 2147483647"]), ("2147483648", ["whole: 2147483648"]), ("4294967295", ["whole: 4294967295"]),
    ("000000000000000000000000000000004294967295", ["whole: 000000000000000000000000000000004294967295"]),
    ("0x0", ["whole: 0x0"]), ("0xFFFFFFFF", ["whole: 0xFFFFFFFF"]), ("0Xdeadbeef", ["whole: 0Xdeadbeef"]), ("0x1e+5", ["whole: 0x1e", "+", "whole: 5"]), ("0xE-1", ["whole: 0xE", "-", "whole: 1"]),
    ("0x1f", ["whole: 0x1f"]), ("0x00000001", ["whole: 0x00000001"]),
    ],
    "POINTS": [
    (".5", ["point: .5"]), ("1.", ["point: 1."]), ("1.f", ["point: 1.f"]), ("1.5F", ["point: 1.5F"]), ("1e5", ["point: 1e5"]), ("1e+5", ["point: 1e+5"]), ("1E-5", ["point: 1E-5"]),
    ("1e5f", ["point: 1e5f"]), ("2.5e0001", ["point: 2.5e0001"]), ("1e40", ["point: 1e40"]), ("1e-40", ["point: 1e-40"]), ("0.1", ["point: 0.1"]),
    ("1.234567890123456789012345", ["point: 1.234567890123456789012345"]),
    ("1234567890123456789012345.", ["point: 1234567890123456789012345."]),
    ("0000001234567890123456789012345.", ["point: 0000001234567890123456789012345."]),
    ("1.0+2.0", ["point: 1.0", "+", "point: 2.0"]), ("-1.5", ["-", "point: 1.5"]), ("1 .5", ["whole: 1", "point: .5"]), ("a.5", ["name: a", "point: .5"]),
    ],
    "HALVES": [
    ("1h", ["half: 1h"]), ("0.1h", ["half: 0.1h"]), ("1.H", ["half: 1.H"]), ("1e1h", ["half: 1e1h"]), ("65520h", ["half: 65520h"]), ("1e-9h", ["half: 1e-9h"]), ("1234567890123456789012345h", ["half: 1234567890123456789012345h"]),
    ],
    "TEXTS_AND_COMMENTS": [
    ('""', ['text: ""']), ('"a b"', ['text: "a b"']), ('"\\n\\t\\"\\\\"', ['text: "\\n\\t\\"\\\\"']), ('"\\q"x', ['text: "\\q"', "name: x"]), ('"a""b"', ['text: "a"', 'text: "b"']),
    ('"/*"', ['text: "/*"']), ('"//"', ['text: "//"']), ('"\\\\"', ['text: "\\\\"']), ('"\\\\\\""', ['text: "\\\\\\""']), ('"\x80\xff"', ['text: "\x80\xff"']), ('"\\\xc3"', ['text: "\\\xc3"']), ('"\r\0"', ['text: "\r\0"']),
    ("// a", []), ("//", []), ("/**/", []), ("/* a */", []), ("/***/", []), ("/*/*/", []), ("/* // */a", n("a")), ("// /*\na", n("a")), ("/*\n\n*/a", n("a")), ("a//b\nc", n("a", "c")),
    ("a/b", ["name: a", "/", "name: b"]), ("a/ *b", ["name: a", "/", "*", "name: b"]), ("//\xc3\n", []), ("/*\xff*/;", [";"]), ("a/**/b", n("a", "b")), ("1//2\n3", ["whole: 1", "whole: 3"]),
    ("/*\"*/a", n("a")), ("*//x", ["*"]), ("/* a\n*/ \"b\" // c\nd", ['text: "b"', "name: d"]),
    ("void main()\n{\n  x = 1; // one\n}\n", ["void", "name: main", "(", ")", "{", "name: x", "=", "whole: 1", ";", "}"]),
    ],
}

# Texts that stand alone, for what ends them.
ALONE = [
    ("", []), ("\n", []), ("//", []), ("// a", []), ("/**/", []), ("a", n("a")), ("<", ["<"]), ("1.", ["point: 1."]), ("0x1f", ["whole: 0x1f"]), ('""', ['text: ""']),
    ("void main()\n{\n  x = 1; // one\n}\n", ["void", "name: main", "(", ")", "{", "name: x", "=", "whole: 1", ";", "}"]),
]

REFUSED = [
    ("a/*x", 1, "OpenComment"), ("12ab", 0, "Literal"), ("@", 0, "NoToken"), ("\xc3", 0, "NotAscii"), ('"ab', 0, "OpenText"),
    ("/*/", 0, "OpenComment"), ("/*", 0, "OpenComment"), ("/**", 0, "OpenComment"), ("\n\n/* *", 2, "OpenComment"), ("a\n/*\n\nb", 2, "OpenComment"),
    ('"', 0, "OpenText"), ('"\\"', 0, "OpenText"), ('"a\nb"', 0, "OpenText"), ('"a\\\nb"', 0, "OpenText"), ('"\\', 0, "OpenText"), ('x\n "a', 3, "OpenText"), ('""\n"', 3, "OpenText"),
    (":", 0, "NoToken"), (":::", 2, "NoToken"), ("a:b", 1, "NoToken"), ("#", 0, "NoToken"), ("$", 0, "NoToken"), ("?", 0, "NoToken"), ("'", 0, "NoToken"), ("\\", 0, "NoToken"), ("`", 0, "NoToken"), ("\0", 0, "NoToken"), ("\x7f", 0, "NoToken"), ("a \x01", 2, "NoToken"),
    ("\x80", 0, "NotAscii"), ("a\xff", 1, "NotAscii"), ("/**/\xe9", 4, "NotAscii"), ("1\xb5", 1, "NotAscii"), ("//\n\n\xa0", 4, "NotAscii"),
    ("4294967296", 0, "Literal"), ("0x", 0, "Literal"), ("0X", 0, "Literal"), ("0x123456789", 0, "Literal"), ("0x000000001", 0, "Literal"), ("0xg", 0, "Literal"), ("0x1.", 0, "Literal"), ("0xh", 0, "Literal"), ("1e", 0, "Literal"), ("1e+", 0, "Literal"), ("1e12345", 0, "Literal"), ("1.2.3", 0, "Literal"),
    ("1f", 0, "Literal"), ("1x", 0, "Literal"), ("1_0", 0, "Literal"), (".5x", 0, "Literal"), ("1.5fh", 0, "Literal"), ("1.5hf", 0, "Literal"), ("1hh", 0, "Literal"), ("1e5e5", 0, "Literal"), ("1..", 0, "Literal"), ("a = 1.2.3;", 4, "Literal"),
    ("12345678901234567890123456.", 0, "Literal"), ("1.2345678901234567890123456", 0, "Literal"), ("12345678901234567890123456h", 0, "Literal"), ("1.a", 0, "Literal"), ("1e5E", 0, "Literal"), ("01x2", 0, "Literal"), ("10x1", 0, "Literal"),
]


def literal(text):
    out = ""
    for b in text.encode("latin-1"):
        c = chr(b)
        out += {'"': '\\"', "\\": "\\\\", "\n": "\\n", "\t": "\\t", "\r": "\\r", "\0": "\\0"}.get(c) or (c if 32 <= b < 127 else f"\\x{b:02x}")
    return f'b"{out}"'


HEAD = """//! Printed by tools/ctl_lexer_tables.py.

use super::cases::{Row, Want};
use ctl_tree::{Keyword, LexKind, Sign};
"""


def rows_of(text, pieces, first=0, lines=0):
    """The tokens of a text, each with its byte, its number of bytes and its line, behind so many bytes and lines."""
    at = 0
    for piece in pieces:
        span, kind = token(piece)
        at = text.index(span, at) if span not in ("b", "c", "d") or "/" not in text else text.rindex(span)
        yield f"(Want::{kind}, {first + at}, {len(span)}, {1 + lines + text[:at].count(chr(10))})"
        at += len(span)


def joined(cases):
    """One text of all cases, and its tokens."""
    text, rows = "", []
    for case, pieces in cases:
        rows += rows_of(case, pieces, len(text), text.count("\n"))
        text += case + "\n"
    return text, rows


def line_of(text, rows):
    return f"    ({literal(text)}, &[{', '.join(rows)}]),"


def main():
    print("file: crates/text_rows/src/tokens/tables.rt")
    print(HEAD)
    for name, cases in JOINED.items():
        print(f"pub(super) static {name}: (&[u8], &[Row]) =")
        print(line_of(*joined(cases)).rstrip(",") + ";\n")
    print("// Texts that stand alone.")
    print(f"pub(super) static ALONE: [(&[u8], &[Row]); {len(ALONE)}] = [")
    for text, pieces in ALONE:
        print(line_of(text, rows_of(text, pieces)))
    print("];\n")
    print("// Texts with the byte, the line and the kind of their fault.")
    print(f"pub(super) static REFUSED: [(&[u8], u32, u32, LexKind); {len(REFUSED)}] = [")
    for text, at, kind in REFUSED:
        print(f"    ({literal(text)}, {at}, {1 + text[:at].count(chr(10))}, LexKind::{kind}),")
    print("];")


main()
