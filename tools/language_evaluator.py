"""Runs programs of the Color Transformation Language by their tree: one entry, once.

    run(program, entry, inputs, turns)    ("Values", outputs, turns left) or ("Trap", kind, node)
    value_of(program, expression, turns)  the value of an initialiser; raises Trap

Values and nodes are those of language_types.py. Numbers come from the exact functions of the generators of tables.
"""
import fix_num_tables as num
import table_lookup_tables as look
from language_library import ROWS
from language_types import (
    BOOL, FLOAT, HALF, INT, UNSIGNED, Assign, Binary, Block, Call, Constant, Convert, Declare, Field, For, If, Index,
    LibraryCall, List, Literal, Logic, Output, Print, Return, Run, Size, Struct, Unary, Variable, While, is_scalar,
)


class Trap(Exception):
    def __init__(self, kind, node):
        super().__init__(kind, node)
        self.kind, self.node = kind, node


class Left(Exception):
    """A return, with the value that it gives."""

    def __init__(self, value):
        super().__init__()
        self.value = value


# ---- scalars

WHOLE = {
    "add": "Add", "subtract": "Sub", "multiply": "Mul", "divide": "Div", "remainder": "Rem", "bitand": "And",
    "bitor": "Or", "bitxor": "Xor", "shiftleft": "Shl", "shiftright": "Shr",
}
POINT = {"add": look.add, "subtract": look.sub, "multiply": num.mul, "divide": num.div}
COMPARED = {
    "equal": lambda a, b: a == b, "notequal": lambda a, b: a != b, "less": lambda a, b: a < b,
    "atmost": lambda a, b: a <= b, "greater": lambda a, b: a > b, "atleast": lambda a, b: a >= b,
}


def operate(operator, kind, a, b):
    """An operator on two scalars of the kind in which it works."""
    if operator in COMPARED:
        return int(COMPARED[operator](a, b))
    if kind in (INT, UNSIGNED):
        return num.whole(WHOLE[operator], kind == INT, a, b)
    value = POINT[operator](a, b)
    return num.half(value) if kind == HALF else value


def to_whole(kind, value):
    """A whole number in the range of an int or unsigned."""
    value %= 2**32
    return value - 2**32 if kind == INT and value >= 2**31 else value


def convert(old, new, value):
    """A scalar of one kind as one of another."""
    if old == new:
        return value
    if new == BOOL:
        return int(value != 0)
    is_point = old in (HALF, FLOAT)
    if new in (INT, UNSIGNED):
        whole = num.trunc(num.Fraction(value, num.ONE)) if is_point else value
        return max(0, whole) if is_point and new == UNSIGNED else to_whole(new, whole)
    raw = value if is_point else num.sat(value * num.ONE)
    return num.half(raw) if new == HALF else raw


def unary(operator, kind, value):
    if operator == "minus":
        return to_whole(kind, -value) if kind in (INT, UNSIGNED) else -value
    if operator == "bitnot":
        return to_whole(kind, ~value)
    return int(value == 0) if operator == "not" else value


def zero(shape, structs):
    """The first value of a variable without initialiser."""
    if is_scalar(shape):
        return 0
    if isinstance(shape, Struct):
        return tuple(zero(field, structs) for _, field in structs[shape.number].fields)
    return (zero(shape.element, structs),) * shape.size


# ---- paths: lists of places in nested values


def entry_at(value, path):
    for place in path:
        value = value[place]
    return value


def with_entry(value, path, entry):
    """The value with another entry at a path."""
    if not path:
        return entry
    place = path[0]
    return value[:place] + (with_entry(value[place], path[1:], entry),) + value[place + 1 :]


class Machine:
    """The state of a run: the variables of the call under way, by number, and the turns left."""

    def __init__(self, program, turns):
        self.program, self.turns, self.frame = program, turns, {}

    def value(self, form):
        return EXPRESSIONS[type(form)](self, form)

    def statement(self, form):
        STATEMENTS[type(form)](self, form)

    # ---- expressions

    def literal(self, form):
        return form.value

    def variable(self, form):
        return self.frame[form.number]

    def constant(self, form):
        return self.program.constants[form.number].value

    def index(self, form):
        root = self.value(form.root)
        return root[self.checked_index(form.index, form.node, len(root))]

    def checked_index(self, index, node, size):
        """The value of an index, checked as soon as it is evaluated."""
        place = self.value(index)
        if not 0 <= place < size:
            raise Trap("Index", node)
        return place

    def field(self, form):
        return self.value(form.root)[form.number]

    def size(self, form):
        return len(self.value(form.root))

    def unary(self, form):
        return unary(form.operator, form.shape, self.value(form.operand))

    def binary(self, form):
        left = self.value(form.left)
        return operate(form.operator, form.kind, left, self.value(form.right))

    def logic(self, form):
        left = self.value(form.left)
        decides = 1 if form.operator == "or" else 0
        return left if left == decides else self.value(form.right)

    def convert(self, form):
        return convert(form.operand.shape, form.shape, self.value(form.operand))

    def listed(self, form):
        return tuple(self.value(element) for element in form.elements)

    def path(self, place):
        """The places that the steps of a place name, each index checked in its turn."""
        value, path = self.frame[place.number], []
        for step in place.steps:
            at = step[1] if step[0] == "field" else self.checked_index(step[1], step[2], len(value))
            path.append(at)
            value = value[at]
        return path

    def arguments(self, arguments):
        """The value of each argument, and the path of each output's place."""
        values, paths = [], []
        for argument in arguments:
            if isinstance(argument, Output):
                paths.append(self.path(argument.place))
                value = entry_at(self.frame[argument.place.number], paths[-1])
                values.append(converted(argument.place.shape, argument.shape, value))
            else:
                paths.append(None)
                values.append(None if argument is None else self.value(argument))
        return values, paths

    def copy_back(self, arguments, paths, values):
        """Stores the outputs at their places, in the order of the parameters."""
        for argument, path, value in zip(arguments, paths, values):
            if isinstance(argument, Output):
                value = converted(argument.shape, argument.place.shape, value)
                number = argument.place.number
                self.frame[number] = with_entry(self.frame[number], path, value)

    def call(self, form):
        function = self.program.functions[form.function]
        values, paths = self.arguments(form.arguments)
        values = [p.default if v is None else v for p, v in zip(function.parameters, values)]
        outside, self.frame = self.frame, dict(enumerate(values))
        result = self.body(function)
        outputs, self.frame = [self.frame[k] for k in range(len(values))], outside
        self.copy_back(form.arguments, paths, outputs)
        return result

    def body(self, function):
        try:
            self.statement(function.body)
        except Left as left:
            return left.value

    def library_call(self, form):
        row = ROWS[form.name]
        values, paths = self.arguments(form.arguments)
        inputs = [v for k, v in enumerate(values) if not row.is_output(k)]
        result = row.function(*inputs)
        if form.name == "assert" and not result:
            raise Trap("Assert", form.node)
        if row.outputs:
            self.copy_back(form.arguments[-row.outputs :], paths[-row.outputs :], result)
        return result if row.result else None

    # ---- statements

    def block(self, form):
        for statement in form.statements:
            self.statement(statement)

    def declare(self, form):
        first = zero(form.shape, self.program.structs) if form.value is None else self.value(form.value)
        self.frame[form.number] = first

    def assign(self, form):
        path = self.path(form.place)
        value = self.value(form.value)
        number = form.place.number
        self.frame[number] = with_entry(self.frame[number], path, value)

    def run_call(self, form):
        self.value(form.call)

    def choose(self, form):
        for test, body in form.arms:
            if self.value(test):
                return self.statement(body)
        if form.otherwise is not None:
            self.statement(form.otherwise)

    def take_turn(self, node):
        if self.turns == 0:
            raise Trap("Turns", node)
        self.turns -= 1

    def loop(self, form):
        while self.value(form.test):
            self.take_turn(form.node)
            self.statement(form.body)

    def counted(self, form):
        self.statement(form.start)
        while self.value(form.test):
            self.take_turn(form.node)
            self.statement(form.body)
            self.statement(form.after)

    def leave(self, form):
        raise Left(None if form.value is None else self.value(form.value))

    def show(self, form):
        for item in form.items:
            if not isinstance(item, str):
                self.value(item)


EXPRESSIONS = {
    Literal: Machine.literal, Variable: Machine.variable, Constant: Machine.constant, Index: Machine.index,
    Field: Machine.field, Size: Machine.size, Unary: Machine.unary, Binary: Machine.binary, Logic: Machine.logic,
    Convert: Machine.convert, List: Machine.listed, Call: Machine.call, LibraryCall: Machine.library_call,
}
STATEMENTS = {
    Block: Machine.block, Declare: Machine.declare, Assign: Machine.assign, Run: Machine.run_call, If: Machine.choose,
    While: Machine.loop, For: Machine.counted, Return: Machine.leave, Print: Machine.show,
}


def converted(old, new, value):
    """An output's value. Only scalars can have another kind."""
    return convert(old, new, value) if is_scalar(old) else value


def value_of(program, expression, turns):
    return Machine(program, turns).value(expression)


def run(program, entry, inputs, turns):
    """The outputs and the turns left, or the trap's kind and node."""
    machine, function, given = Machine(program, turns), program.functions[entry], list(inputs)
    for number, parameter in enumerate(function.parameters):
        if not parameter.is_output:
            first = given.pop(0)
        elif parameter.default is not None:
            first = parameter.default
        else:
            first = zero(parameter.shape, program.structs)
        machine.frame[number] = first
    try:
        machine.body(function)
    except Trap as trap:
        return "Trap", trap.kind, trap.node
    outputs = [machine.frame[k] for k, parameter in enumerate(function.parameters) if parameter.is_output]
    return "Values", outputs, machine.turns
