#!/usr/bin/env python3
"""The texts of language_texts.py as the program language_cases reads them, and what it must say of them, from the
independent checker and evaluator. Very long ones are left out.

A program is spelled as crates/language_cases/src/spelling does: operands before their operators.
"""
import sys

sys.dont_write_bytecode = True

from language_cases import expression_cases, module_cases, program_cases
from language_types import (
    Array, Assign, Binary, Block, Call, Constant, Convert, Declare, Field, For, If, Index, LibraryCall, List, Literal,
    Logic, Output, Place, Print, Return, Run, Size, Unary, Variable, While, is_scalar,
)

LONGEST = 20000


def shape(s):
    """What arrays hold, and their sizes from the outermost."""
    if s is None:
        return "void"
    sizes = ""
    while isinstance(s, Array):
        sizes += f"[{'' if s.size is None else s.size}]"
        s = s.element
    return (s if is_scalar(s) else f"struct{s.number}") + sizes


def words(value):
    """The scalars of a value as words, each behind a blank."""
    return "".join(map(words, value)) if isinstance(value, tuple) else f" {int(value)}"


def step(s):
    return f" .{s[1]}" if s[0] == "field" else f" {expr(s[1])} []@{s[2][1]}"


def place(p):
    return f"v{p.number}" + "".join(map(step, p.steps))


def changed(given, wanted):
    """What is done to a scalar on its way in."""
    return f" {given}>{wanted}" if is_scalar(wanted) and given != wanted else ""


def call(name, e):
    arguments = "".join(f"{'default' if a is None else expr(a)} " for a in e.arguments)
    return f"{arguments}{name}/{len(e.arguments)}@{e.node[1]}"


def joined(e):
    return " ".join([*map(expr, operands(e)), e.operator])


def operands(e):
    """The operands of a chain of one operator, from the left."""
    inner = operands(e.left) if isinstance(e.left, Logic) and e.left.operator == e.operator else [e.left]
    return inner + [e.right]


EXPRESSIONS = {
    Literal: lambda e: f"{int(e.value)}:{e.shape}",
    Variable: lambda e: f"v{e.number}",
    Constant: lambda e: f"c{e.number}",
    Index: lambda e: f"{expr(e.root)} {expr(e.index)} []@{e.node[1]}",
    Field: lambda e: f"{expr(e.root)} .{e.number}",
    Size: lambda e: f"{expr(e.root)} size" + ("" if e.root.shape.size is None else f"={e.root.shape.size}"),
    Unary: lambda e: f"{expr(e.operand)} {e.operator}.{e.shape}",
    Binary: lambda e: f"{expr(e.left)} {expr(e.right)} {e.operator}.{e.kind}",
    Logic: joined,
    Convert: lambda e: f"{expr(e.operand)} {e.operand.shape}>{e.shape}",
    List: lambda e: "{ " + "".join(f"{expr(part)} " for part in e.elements) + "}",
    Place: place,
    Output: lambda e: f"&{place(e.place)}{changed(e.place.shape, e.shape)}",
    Call: lambda e: call(f"f{e.function}", e),
    LibraryCall: lambda e: call(e.name, e),
}


def expr(e):
    return EXPRESSIONS[type(e)](e)


def choice(s):
    arms = "".join(f"if {expr(test)} {statement(body)} else " for test, body in s.arms)
    return arms + ("{ }" if s.otherwise is None else statement(s.otherwise))


STATEMENTS = {
    Block: lambda s: "{ " + "".join(f"{statement(part)} " for part in s.statements) + "}",
    Declare: lambda s: f"{shape(s.shape)} v{s.number}" + ("" if s.value is None else f" = {expr(s.value)}") + ";",
    Assign: lambda s: f"{place(s.place)} = {expr(s.value)};",
    Run: lambda s: f"{expr(s.call)};",
    If: choice,
    While: lambda s: f"while@{s.node[1]} {expr(s.test)} {statement(s.body)}",
    For: lambda s: f"{statement(s.start)} for@{s.node[1]} {expr(s.test)} {statement(s.body)} then {statement(s.after)}",
    Return: lambda s: "return;" if s.value is None else f"return {expr(s.value)};",
    Print: lambda s: "print" + "".join(f" {i if isinstance(i, str) else expr(i)}" for i in s.items) + ";",
}


def statement(s):
    return STATEMENTS[type(s)](s)


def parameter(p):
    before = ("output " if p.is_output else "") + (f"{p.level} " if p.level else "")
    return f"{before}{shape(p.shape)} {p.name}" + ("" if p.default is None else f" ={words(p.default)}") + ";"


def function(f):
    parameters = "".join(map(parameter, f.parameters))
    return f"{shape(f.result)} {f.whole_name}@{f.node[0]}.{f.node[1]} ({parameters}) {f.variables} {statement(f.body)}"


def program(p):
    """The definitions of a program behind those of the library, and the number of its entry."""
    structs = ["struct" + "".join(f" {shape(field)} {name};" for name, field in s.fields) for s in p.structs[1:]]
    constants = [f"{shape(c.shape)} ={words(c.value)}" for c in p.constants[7:]]
    entry = "no entry" if p.entry is None else f"entry {p.entry}"
    return " | ".join([entry, *structs, *constants, *map(function, p.functions)])


def end(run):
    if run[0] == "Trap":
        return f" {run[1]} at {run[2][0]} {run[2][1]}"
    return f"{''.join(map(words, run[1]))} with {run[2]} left"


def case_line(name, texts, runs=()):
    files = "".join(f"#{file} {text}" for file, text in texts)
    given = "".join(f"${turns}{''.join(map(words, inputs))}" for inputs, turns, _ in runs)
    assert not set("#$\\") & set("".join(text for _, text in texts)), texts
    return (name + files + given).replace("\n", "\\")


def told(case, spelled):
    if case.fault is None:
        return spelled(case.program)
    return f"{case.texts[case.fault.module][0]} {case.fault.line} {case.fault.token} {case.fault.kind}"


def cases():
    """Each case as a line of texts, and the lines that are said of it."""
    for letter, found, spelled in [
        ("e", expression_cases(), lambda p: function(p.functions[-1])), ("m", module_cases(), program)
    ]:
        for number, case in enumerate(found, 1):
            name = f"{letter}{number}"
            line, answer = case_line(name, case.texts), f"{name} {told(case, spelled)}"
            if max(len(line), len(answer)) <= LONGEST:
                yield line, [answer]
    for number, (_, text, typed, runs) in enumerate(program_cases(), 1):
        name = f"p{number}"
        yield case_line(name, [("a.ctl", text)], runs), [f"{name} {program(typed)}", *(f"{name}{end(r)}" for _, _, r in runs)]


def main():
    texts, said = [], []
    for text, lines in cases():
        texts.append(text)
        said += lines
    for path, lines in [("data/texts", texts), ("stdout", said)]:
        print(f"file: crates/language_cases/{path}")
        print("\n".join(lines))


if __name__ == "__main__":
    main()
