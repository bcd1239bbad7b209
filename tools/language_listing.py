#!/usr/bin/env python3
"""What the independent checker and evaluator say of the texts of language_texts.py.

    tools/language_listing.py --list [expressions|modules|programs|levels]    one line a text: its number and the answer
    tools/language_listing.py check                                    compares the answers with the marks in the texts

Ends with 1 where an answer is not what the mark in its text says. The forms are spelled as language_spelling.py does.
"""
import sys

sys.dont_write_bytecode = True

import language_spelling as spelling
from grammar_reader import lex
from language_cases import DIFFERENT, SCOPES, expression_cases, last_printed, module_cases, program_cases
from language_level_texts import level_texts
from language_levels import Fault, checked, levels

LONGEST = 1500


def expression_lines():
    for number, case in enumerate(expression_cases(), 1):
        if case.fault is not None:
            first = len(lex(SCOPES[case.around][0]))
            answer = f"{case.fault.kind} at {case.fault.token - first}"
        else:
            typed = last_printed(case.program)
            answer = f"{spelling.shape(typed.shape)}: {spelling.expr(typed)}"
        yield case.group, f"e{number} {case.around}: {case.part}  ==>  {answer}"


def module_lines():
    for number, case in enumerate(module_cases(), 1):
        if case.fault is not None:
            kind, (file, _) = case.fault.kind, case.texts[case.fault.module]
            answer = f"{kind} in {file} line {case.fault.line} at {case.fault.token}"
        else:
            answer = spelling.program(case.program)
        part = case.part if isinstance(case.part, str) else "; ".join(f"[{name}] {text}" for name, text in case.part)
        yield case.group, f"m{number} {case.around}: {short(part)}  ==>  {short(answer)}"


def short(text):
    return text if len(text) <= LONGEST else f"{text[:LONGEST // 2]} .. {text[-LONGEST // 2:]}"


def end_line(end):
    if end[0] == "Trap":
        return f"{end[1]} at {end[2][1]}"
    return f"{', '.join(map(spelling.value, end[1]))}; {end[2]} left"


def program_lines():
    for number, (group, text, _, runs) in enumerate(program_cases(), 1):
        lines = [f"p{number} {short(text)}"]
        for values, turns, end in runs:
            lines.append(f"    ({', '.join(map(spelling.value, values))}) with {turns}  ==>  {end_line(end)}")
        yield group, "\n".join(lines)


def level_word(varies):
    return "v" if varies else "u"


def instance_line(number, one):
    """Its function and sizes, the levels of its parameters and its control, what varies, its result, and what it calls."""
    key = one.key
    name = " ".join([str(key.function), *map(str, key.sizes)])
    parts = "".join(map(level_word, key.levels)) + level_word(key.control)
    return f"    {number}: {name} {parts} {{{' '.join(map(str, sorted(one.varying)))}}} {level_word(one.result)} calls {' '.join(map(str, one.called))}".rstrip()


def leveled_lines(program):
    """The instances with the cells and the parts, or the refusal."""
    leveled = levels(program, program.entry)
    if isinstance(leveled, Fault):
        node = "" if leveled.node is None else f" at {leveled.node[1]}"
        return ["    " + " ".join([leveled.kind + node, *map(str, leveled.numbers)])]
    total, varying = leveled.cells
    return [instance_line(*one) for one in enumerate(leveled.instances)] + [f"    cells {total} {varying} parts {leveled.parts}"]


def level_lines():
    number = 0
    for group, texts in level_texts():
        for text in texts:
            number += 1
            name = "a.ctl" if "void a(" in text else "main.ctl"
            yield group, "\n".join([f"l{number} {short(text)}", *leveled_lines(checked([(name, text)]))])


PARTS = {"expressions": expression_lines, "modules": module_lines, "programs": program_lines, "levels": level_lines}


def show(lines):
    above = None
    for group, line in lines:
        if group != above:
            print(f"# {group}")
        above = group
        print(line)


def main(words):
    if words[:1] == ["--list"] and all(word in PARTS for word in words[1:]):
        for part in words[1:] or PARTS:
            show(PARTS[part]())
    elif words == ["check"]:
        for part, lines in PARTS.items():
            print(f"{sum(1 for _ in lines())} {part}")
    else:
        sys.exit(__doc__)
    return 1 if DIFFERENT else 0


if __name__ == "__main__":
    sys.exit(main(sys.argv[1:]))
