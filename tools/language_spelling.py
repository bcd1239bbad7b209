"""Spells shapes, values, typed forms and programs in short, for listings."""
from language_types import (
    Array, Assign, Binary, Block, Call, Constant, Convert, Declare, Field, For, If, Index, LibraryCall, List, Literal,
    Logic, Output, Place, Print, Return, Run, Size, Unary, Variable, While, is_scalar,
)


def shape(s):
    """A scalar's kind, `struct N`, or what an array is of with its sizes, the outermost first."""
    if s is None:
        return "void"
    sizes = ""
    while isinstance(s, Array):
        sizes += f"[{'' if s.size is None else s.size}]"
        s = s.element
    return (s if is_scalar(s) else f"struct{s.number}") + sizes


def value(v):
    return f"{{{', '.join(map(value, v))}}}" if isinstance(v, tuple) else str(v)


def call(name, arguments):
    return f"{name}({', '.join('default' if a is None else expr(a) for a in arguments)})"


def place(p):
    steps = (f".{s[1]}" if s[0] == "field" else f"[{expr(s[1])}]@{s[2][1]}" for s in p.steps)
    return f"v{p.number}" + "".join(steps)


EXPRESSIONS = {
    Literal: lambda e: f"{value(e.value)}:{shape(e.shape)}",
    Variable: lambda e: f"v{e.number}",
    Constant: lambda e: f"c{e.number}",
    Index: lambda e: f"{expr(e.root)}[{expr(e.index)}]@{e.node[1]}",
    Field: lambda e: f"{expr(e.root)}.{e.number}",
    Size: lambda e: f"{expr(e.root)}.size" + ("" if e.root.shape.size is None else f"={e.root.shape.size}"),
    Unary: lambda e: f"{e.operator}.{e.shape}({expr(e.operand)})",
    Binary: lambda e: f"{e.operator}.{e.kind}({expr(e.left)}, {expr(e.right)})",
    Logic: lambda e: f"{e.operator}({expr(e.left)}, {expr(e.right)})",
    Convert: lambda e: f"{e.operand.shape}>{e.shape}({expr(e.operand)})",
    List: lambda e: f"{{{', '.join(map(expr, e.elements))}}}",
    Place: place,
    Output: lambda e: f"&{place(e.place)}" + ("" if e.shape == e.place.shape else f"~{shape(e.shape)}"),
    Call: lambda e: call(f"f{e.function}", e.arguments),
    LibraryCall: lambda e: call(e.name, e.arguments) + f"@{e.node[1]}",
}


def expr(e):
    return EXPRESSIONS[type(e)](e)


def choice(s):
    arms = (f"if {expr(test)} {statement(body)}" for test, body in s.arms)
    return " else ".join([*arms, *([] if s.otherwise is None else [statement(s.otherwise)])])


def loop(s):
    return f"@{s.node[1]} {expr(s.test)}"


STATEMENTS = {
    Block: lambda s: "{ " + "".join(statement(part) + " " for part in s.statements) + "}",
    Declare: lambda s: f"{shape(s.shape)} v{s.number}" + ("" if s.value is None else f" = {expr(s.value)}") + ";",
    Assign: lambda s: f"{place(s.place)} = {expr(s.value)};",
    Run: lambda s: f"{expr(s.call)};",
    If: choice,
    While: lambda s: f"while{loop(s)} {statement(s.body)}",
    For: lambda s: f"{statement(s.start)} for{loop(s)} {statement(s.body)} then {statement(s.after)}",
    Return: lambda s: "return;" if s.value is None else f"return {expr(s.value)};",
    Print: lambda s: f"print({', '.join(i if isinstance(i, str) else expr(i) for i in s.items)});",
}


def statement(s):
    return STATEMENTS[type(s)](s)


def parameter(p):
    words = ("output " if p.is_output else "") + (f"{p.level} " if p.level else "")
    return f"{words}{shape(p.shape)}" + ("" if p.default is None else f" = {value(p.default)}")


def function(f):
    return f"{shape(f.result)} ({', '.join(map(parameter, f.parameters))}) depth {f.depth} {statement(f.body)}"


def program(p):
    """The definitions of the program's own modules."""
    parts = [f"entry {'none' if p.entry is None else f'f{p.entry}'}"]
    for k, s in enumerate(p.structs[1:], 1):
        parts.append(f"struct{k} {s.name} {{ {' '.join(f'{shape(field)};' for _, field in s.fields)} }}")
    for k, c in enumerate(p.constants[7:], 7):
        parts.append(f"c{k} {shape(c.shape)} = {value(c.value)}")
    return " | ".join(parts + [f"f{k} {f.name}: {function(f)}" for k, f in enumerate(p.functions)])
