"""The texts of language_texts.py with what the independent checker and evaluator say of each, as data for tables.

    expression_cases()    Case by case: the group, the scope, the texts, the expression, and the answer
    module_cases()        the group, the frame, the texts, the case's own part, and the answer
    program_cases()       the group, the text, the program, and for each run the inputs, the turns and the end

A text that is refused has a mark @ before the token of its fault and the fault's kind beside it. The mark is no part of
the text. An answer that is not what the mark says is told to standard error, and kept in DIFFERENT.
"""
import sys
from fractions import Fraction
from typing import Any, NamedTuple, Optional

from fix_num_tables import ONE
from grammar_reader import lex
from language_checker import verdict
from language_evaluator import run
from language_texts import EXPRESSIONS, FRAMES, MODULES, PROGRAMS, SCOPES
from language_types import FLOAT, HALF, TURNS, Array, Struct

DIFFERENT = []


class Fault(NamedTuple):
    """The place of the file, the line, the token and the kind."""

    module: int
    line: int
    token: int
    kind: str


class Case(NamedTuple):
    group: str
    around: str
    texts: list
    part: Any
    program: Any
    fault: Optional[Fault]


def unmarked(texts):
    """The texts without their mark, and the place of the file and the byte of the mark, if there is one."""
    plain, mark = [], None
    for number, (name, text) in enumerate(texts):
        if "@" in text:
            assert mark is None and text.count("@") == 1, text
            mark = number, text.index("@")
        plain.append((name, text.replace("@", "")))
    return plain, mark


def parts_of(case):
    """The kind of the fault, None where the case is accepted, and the files with their texts."""
    kind, texts = case if isinstance(case, tuple) else (None, case)
    return kind, [("a.ctl", texts)] if isinstance(texts, str) else texts


def checked(group, around, case, before, after):
    """A case between what stands before and after it, compared with its mark."""
    kind, files = parts_of(case)
    texts, mark = unmarked([(name, before + text + after) for name, text in files])
    program, fault = verdict(texts)
    if fault is not None:
        names = [name for name, _ in texts]
        fault = Fault(names.index(fault[0]), *fault[1:])
    found = None if fault is None else (fault.module, lex(texts[fault.module][1])[fault.token].at, fault.kind)
    if found != (None if kind is None else (*mark, kind)):
        DIFFERENT.append(case)
        print(f"{kind} at {mark}, but found {found} in {texts}", file=sys.stderr)
    part = unmarked(files)[0]
    return Case(group, around, texts, part[0][1] if len(part) == 1 else part, program, fault)


def expression_cases():
    for group, scope, cases in EXPRESSIONS:
        for case in cases:
            yield checked(group, scope, case, *SCOPES[scope])


def module_cases():
    for group, frame, cases in MODULES:
        for case in cases:
            yield checked(group, frame, case, *FRAMES[frame])


def last_printed(program):
    """The expression that the last function prints."""
    body = program.functions[-1].body
    while not hasattr(body, "items"):
        body = next(s for s in reversed(body.statements) if hasattr(s, "statements") or hasattr(s, "items"))
    return body.items[-1]


def value_for(shape, number, structs):
    """A value of a shape from numbers: a float or half is given by its number, or as `r` and its raw."""
    if isinstance(shape, Array):
        return tuple(value_for(shape.element, part, structs) for part in number)
    if isinstance(shape, Struct):
        fields = structs[shape.number].fields
        return tuple(value_for(field, part, structs) for (_, field), part in zip(fields, number))
    if isinstance(number, str):
        return int(number[1:])
    if shape not in (HALF, FLOAT):
        return int(number)
    raw = Fraction(number) * ONE
    assert raw.denominator == 1
    return int(raw)


def run_of(program, given):
    """The inputs, the turns and the end of a run."""
    turns, inputs = given if isinstance(given, tuple) else (TURNS, given)
    parameters = [p for p in program.functions[program.entry].parameters if not p.is_output]
    assert len(parameters) == len(inputs), given
    values = [value_for(p.shape, number, program.structs) for p, number in zip(parameters, inputs)]
    return values, turns, run(program, program.entry, values, turns)


def program_cases():
    for group, cases in PROGRAMS:
        for text, *runs in cases:
            case = checked(group, "whole", text, "", "")
            if case.program is not None:
                yield group, text, case.program, [run_of(case.program, given) for given in runs]
