"""Shapes, typed forms and programs of the Color Transformation Language, as the checker makes them and the evaluator
runs them.

A shape is a scalar kind (a word), a Struct by its number, or an Array of some size, None where the size is left open.
A value is a whole number for a scalar (0 or 1 for a bool, the raw for a half or float) and a tuple for an array or
structure. A node is a pair: the place of the module in load order and the token.
"""
from typing import Any, NamedTuple, Optional

BOOL, INT, UNSIGNED, HALF, FLOAT = KINDS = ("bool", "int", "unsigned", "half", "float")
WHOLE_KINDS = (BOOL, INT, UNSIGNED)
MOST_ELEMENTS = 65536
MOST_SCALARS = 2**20
MOST_CALLS = 32
TURNS = 1000000


class Struct(NamedTuple):
    number: int


class Array(NamedTuple):
    element: Any
    size: Optional[int]


def is_scalar(shape):
    return isinstance(shape, str)


def is_open(shape):
    """Whether a size is left open somewhere in a shape."""
    return isinstance(shape, Array) and (shape.size is None or is_open(shape.element))


def holds_struct(shape):
    return isinstance(shape, Struct) or isinstance(shape, Array) and holds_struct(shape.element)


def scalars(shape, structs):
    """How many scalars a value of a shape has, where an open size counts as 1."""
    if is_scalar(shape):
        return 1
    if isinstance(shape, Struct):
        return sum(scalars(field, structs) for _, field in structs[shape.number].fields)
    return (1 if shape.size is None else shape.size) * scalars(shape.element, structs)


def later_kind(left, right):
    """The kind in which an operator works on two scalars."""
    kind = max(left, right, key=KINDS.index)
    return INT if kind == BOOL else kind


# ---- expressions; each has the shape of its value, None for the call of a void function


class Literal(NamedTuple):
    shape: Any
    value: Any


class Variable(NamedTuple):
    shape: Any
    number: int


class Constant(NamedTuple):
    shape: Any
    number: int


class Index(NamedTuple):
    shape: Any
    root: Any
    index: Any
    node: tuple


class Field(NamedTuple):
    shape: Any
    root: Any
    number: int


class Size(NamedTuple):
    shape: Any
    root: Any


class Unary(NamedTuple):
    shape: Any
    operator: str
    operand: Any


class Binary(NamedTuple):
    """An operator on two operands of one kind, in which it works."""

    shape: Any
    operator: str
    kind: str
    left: Any
    right: Any


class Logic(NamedTuple):
    """`and` or `or` of two bools. The second is run only where the first does not decide."""

    shape: Any
    operator: str
    left: Any
    right: Any


class Convert(NamedTuple):
    shape: Any
    operand: Any


class List(NamedTuple):
    """A brace list that gives an array or a structure."""

    shape: Any
    elements: tuple


class Place(NamedTuple):
    """What can be assigned: a variable, and steps from it, each ("index", expression, node) or ("field", number)."""

    shape: Any
    number: int
    steps: tuple


class Output(NamedTuple):
    """The argument of an output parameter, whose shape may differ from the place's by a scalar's kind."""

    shape: Any
    place: Place


class Call(NamedTuple):
    """A call of a function of the program. A missing argument is None."""

    shape: Any
    function: int
    arguments: tuple
    node: tuple


class LibraryCall(NamedTuple):
    shape: Any
    name: str
    arguments: tuple
    node: tuple


# ---- statements


class Block(NamedTuple):
    statements: tuple


class Declare(NamedTuple):
    number: int
    shape: Any
    value: Any


class Assign(NamedTuple):
    place: Place
    value: Any


class Run(NamedTuple):
    call: Any


class If(NamedTuple):
    arms: tuple
    otherwise: Any


class While(NamedTuple):
    test: Any
    body: Any
    node: tuple


class For(NamedTuple):
    start: Any
    test: Any
    after: Any
    body: Any
    node: tuple


class Return(NamedTuple):
    value: Any


class Print(NamedTuple):
    """Items are expressions; a text is a word."""

    items: tuple


# ---- programs


class StructType(NamedTuple):
    name: str
    fields: tuple


class Parameter(NamedTuple):
    name: str
    node: tuple
    shape: Any
    is_output: bool
    level: Optional[str]
    default: Any
    default_shape: Any


class Function:
    def __init__(self, name, node, parameters, result):
        self.name, self.node, self.parameters, self.result = name, node, parameters, result
        self.whole_name, self.body, self.depth, self.variables = name, None, 0, 0


class ConstantValue(NamedTuple):
    name: str
    shape: Any
    value: Any


class Program:
    def __init__(self, modules):
        self.modules = modules
        self.functions, self.structs, self.constants = [], [], []
        self.entry = None


class Refused(Exception):
    """The first fault of a program: the place of its module, its token and its kind."""

    def __init__(self, module, token, kind):
        super().__init__(module, token, kind)
        self.node, self.kind = (module, token), kind
