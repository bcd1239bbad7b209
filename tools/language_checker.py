"""Checks modules of the Color Transformation Language: texts in load order give the typed program or the first fault.

    check([(name, text), ..])    a Program of language_types.py; raises Refused at the first form without a meaning

The last text is the root. Each form is checked after its parts, and the parts in the order of the source, so that the
first fault met is the first there is. Where two rules break at one form, the earlier of the list of kinds is told.
"""
from contextlib import contextmanager

from language_evaluator import Trap, value_of
from language_library import CONSTANTS, ROWS, STRUCT
from language_tree import Form, Module
from language_types import (
    BOOL, FLOAT, HALF, INT, KINDS, MOST_CALLS, MOST_ELEMENTS, MOST_SCALARS, TURNS, UNSIGNED, WHOLE_KINDS, Array, Assign,
    Binary, Block, Call, Constant, ConstantValue, Convert, Declare, Field, For, Function, If, Index, LibraryCall, List,
    Literal, Logic, Output, Parameter, Place, Print, Program, Refused, Return, Run, Size, Struct, StructType, Unary,
    Variable, While, holds_struct, is_open, is_scalar, later_kind, scalars,
)

LOGIC = ("or", "and")
COMPARISONS = ("equal", "notequal", "less", "atmost", "greater", "atleast")
FOR_WHOLE = ("remainder", "bitand", "bitxor", "bitor", "shiftleft", "shiftright")
LITERALS = {"point": FLOAT, "halfpoint": HALF, "truth": BOOL}


# ---- shapes


def fits(old, new, may_be_open):
    """Whether a value of one shape, None for that of a void call, can become one of another. What is open can be
    filled by what has a size, and by what is open where the whole is handed on."""
    if old is None:
        return False
    if is_scalar(old) and is_scalar(new):
        return True
    return is_same(old, new, may_be_open)


def is_same(old, new, may_be_open):
    if not (isinstance(old, Array) and isinstance(new, Array)):
        return old == new
    size_fits = old.size == new.size if new.size is not None else old.size is not None or may_be_open
    return size_fits and is_same(old.element, new.element, may_be_open)


def as_kind(typed, shape):
    """The expression with the conversion to a scalar kind, where it needs one."""
    return Convert(shape, typed) if is_scalar(shape) and typed.shape != shape else typed


# ---- what a size expression may be


def is_constant(typed):
    """Whether an expression is made of literals, module constants, operators and stated sizes alone."""
    if isinstance(typed, (Literal, Constant)):
        return True
    if isinstance(typed, Size):
        return typed.root.shape.size is not None and has_constant_steps(typed.root)
    parts = {
        Index: ("root", "index"), Field: ("root",), Unary: ("operand",), Convert: ("operand",),
        Binary: ("left", "right"), Logic: ("left", "right"),
    }
    names = parts.get(type(typed))
    return names is not None and all(is_constant(getattr(typed, name)) for name in names)


def has_constant_steps(typed):
    """Whether a path starts at a name, and all its indices are size expressions."""
    if isinstance(typed, (Variable, Constant)):
        return True
    if isinstance(typed, Field):
        return has_constant_steps(typed.root)
    return isinstance(typed, Index) and has_constant_steps(typed.root) and is_constant(typed.index)


class Scoped:
    """A variable or parameter: its number, its shape and whether it can be assigned."""

    def __init__(self, number, shape, is_assignable):
        self.number, self.shape, self.is_assignable = number, shape, is_assignable


class Around:
    """The function around an expression: its name, how many variables it has so far, the greatest depth that its body
    calls, and whether its body is under way."""

    def __init__(self, name):
        self.name, self.variables, self.calls, self.in_body, self.result = name, 0, 0, False, None


class Checker:
    def __init__(self, texts):
        self.program = Program([Module(name, text) for name, text in texts])
        self.program.structs.append(STRUCT)
        self.program.constants.extend(CONSTANTS)
        self.definitions = {}
        self.namespaces = ()
        self.scopes = []
        self.around = None
        self.module = 0
        self.entry_form = self.entry_of(self.program.modules[-1])

    def fault(self, own, kind):
        raise Refused(self.module, own, kind)

    def node(self, form):
        return self.module, form.own

    @staticmethod
    def entry_of(root):
        """The function by whose name the root is entered."""
        functions = root.tree.forms("function")
        stem = root.name.rsplit("/", 1)[-1].removesuffix(".ctl")
        for name in ("main", stem):
            for form in functions:
                if form.words()[-1] == name:
                    return form
        return None

    def checked(self):
        for self.module, module in enumerate(self.program.modules):
            for form in module.tree.parts:
                if form.name != "import":
                    self.definition(form)
        return self.program

    # ---- names

    def look_up(self, name):
        """What a name stands for: its sort, and its number, its name or what is known of it."""
        parts = tuple(part for part in name.split("::") if part)
        if "::" not in name:
            for scope in reversed(self.scopes):
                if name in scope:
                    return "variable", scope[name]
        around = () if name.startswith("::") else self.namespaces
        for depth in range(len(around), -1, -1):
            if around[:depth] + parts in self.definitions:
                return self.definitions[around[:depth] + parts]
        return self.in_library(parts[0]) if len(parts) == 1 else None

    @staticmethod
    def in_library(name):
        if name in ROWS:
            return "library", name
        if name == STRUCT.name:
            return "struct", 0
        numbers = [number for number, constant in enumerate(CONSTANTS) if constant.name == name]
        return ("constant", numbers[0]) if numbers else None

    @contextmanager
    def scope(self):
        self.scopes.append({})
        yield
        self.scopes.pop()

    @contextmanager
    def definitions_alone(self):
        """What a default sees."""
        scopes, self.scopes = self.scopes, []
        yield
        self.scopes = scopes

    # ---- shapes and sizes

    def shape(self, form):
        if form.name != "named":
            return form.name
        found = self.look_up(form.parts[0].parts[0])
        if found is None:
            self.fault(form.own, "UnknownName")
        if found[0] != "struct":
            self.fault(form.own, "NotAType")
        return Struct(found[1])

    def sized(self, shape, sizes, may_be_open):
        """The shape of an array of this shape with these sizes."""
        product, numbers = scalars(shape, self.program.structs), []
        for form in sizes:
            if form.parts:
                numbers.append(self.size(form))
                product *= numbers[-1]
            elif may_be_open:
                numbers.append(None)
            if product > MOST_SCALARS or not form.parts and not may_be_open:
                self.fault(form.own, "BadSize")
        for number in reversed(numbers):
            shape = Array(shape, number)
        return shape

    def size(self, form):
        typed = self.expr(form.parts[0])
        if typed.shape not in (INT, UNSIGNED) or not is_constant(typed):
            self.fault(form.own, "BadSize")
        try:
            number = value_of(self.program, self.without_sizes(typed), 0)
        except Trap:
            self.fault(form.own, "BadSize")
        if not 1 <= number <= MOST_ELEMENTS:
            self.fault(form.own, "BadSize")
        return number

    def without_sizes(self, typed):
        """A size expression with the number in place of each `.size`; nothing in front of one is evaluated."""
        if isinstance(typed, Size):
            return Literal(INT, typed.root.shape.size)
        if not isinstance(typed, tuple) or isinstance(typed, (Literal, Constant)):
            return typed
        return type(typed)(*(self.without_sizes(part) if hasattr(part, "shape") else part for part in typed))

    # ---- expressions

    def expr(self, form):
        if form.name in LITERALS:
            word = form.parts[0]
            return Literal(LITERALS[form.name], int(word) if form.name != "truth" else int(word == "true"))
        return getattr(self, f"expr_{form.name}")(form)

    def expr_whole(self, form):
        value = int(form.parts[0])
        return Literal(INT if value < 2**31 else UNSIGNED, value)

    def expr_name(self, form):
        found = self.look_up(form.parts[0])
        if found is None:
            self.fault(form.own, "UnknownName")
        sort, known = found
        if sort == "variable":
            return Variable(known.shape, known.number)
        if sort != "constant":
            self.fault(form.own, "Mismatch")
        return Constant(self.program.constants[known].shape, known)

    def expr_path(self, form):
        typed = self.expr(form.parts[0])
        for step in form.parts[1:]:
            typed = self.step(typed, step)
        return typed

    def step(self, typed, form):
        return self.index(typed, form) if form.name == "index" else self.field(typed, form)

    def index(self, typed, form):
        index = self.expr(form.parts[0])
        if not isinstance(typed.shape, Array) or index.shape not in WHOLE_KINDS:
            self.fault(form.own, "Mismatch")
        return Index(typed.shape.element, typed, index, self.node(form))

    def field(self, typed, form):
        name = form.parts[0]
        if isinstance(typed.shape, Array) and name == "size":
            return Size(INT, typed)
        if isinstance(typed.shape, Struct):
            for number, (field, shape) in enumerate(self.program.structs[typed.shape.number].fields):
                if field == name:
                    return Field(shape, typed, number)
        self.fault(form.own, "UnknownName")

    def signed(self, form, kinds):
        """The operand of a minus, plus or bitwise not. A bool counts as an int."""
        operand = self.expr(form.parts[0])
        if operand.shape not in kinds:
            self.fault(form.own, "Mismatch")
        kind = later_kind(operand.shape, operand.shape)
        return Unary(kind, form.name, as_kind(operand, kind))

    def expr_minus(self, form):
        return self.signed(form, KINDS)

    expr_plus = expr_minus

    def expr_bitnot(self, form):
        return self.signed(form, WHOLE_KINDS)

    def expr_not(self, form):
        operand = self.expr(form.parts[0])
        if not fits(operand.shape, BOOL, False):
            self.fault(form.own, "Mismatch")
        return Unary(BOOL, "not", as_kind(operand, BOOL))

    def expr_chain(self, form):
        left = self.expr(form.parts[0])
        for link in form.parts[1:]:
            left = self.link(left, link)
        return left

    def link(self, left, form):
        right = self.expr(form.parts[0])
        kinds = WHOLE_KINDS if form.name in FOR_WHOLE else KINDS
        if left.shape not in kinds or right.shape not in kinds:
            self.fault(form.own, "Mismatch")
        if form.name in LOGIC:
            return Logic(BOOL, form.name, as_kind(left, BOOL), as_kind(right, BOOL))
        kind = later_kind(left.shape, right.shape)
        result = BOOL if form.name in COMPARISONS else kind
        return Binary(result, form.name, kind, as_kind(left, kind), as_kind(right, kind))

    # ---- calls

    def expr_call(self, form):
        name = form.parts[0].parts[0]
        found = self.look_up(name)
        parameters = self.parameters_of(found)
        arguments = []
        for number, part in enumerate(form.parts[1:]):
            parameter = parameters[number] if parameters is not None and number < len(parameters) else None
            arguments.append(self.argument(part, parameter))
        self.check_callee(form, name, found)
        if len(arguments) > len(parameters):
            self.fault(form.own, "Arguments")
        for _, is_output, has_default in parameters[len(arguments) :]:
            if is_output or not has_default:
                self.fault(form.own, "Arguments")
            arguments.append(None)
        return self.made_call(form, found, tuple(arguments))

    def parameters_of(self, found):
        """The shape of each parameter, whether it is an output, and whether it has a default."""
        if found is not None and found[0] == "library":
            row = ROWS[found[1]]
            return [(shape, row.is_output(k), False) for k, shape in enumerate(row.parameters)]
        if found is not None and found[0] == "function":
            parameters = self.program.functions[found[1]].parameters
            return [(p.shape, p.is_output, p.default is not None) for p in parameters]
        return None

    def check_callee(self, form, name, found):
        if found is None:
            is_itself = self.around is not None and name == self.around.name
            self.fault(form.own, "Recursion" if is_itself else "UnknownName")
        if found[0] not in ("function", "library"):
            self.fault(form.own, "NotAFunction")
        if found[0] == "function" and self.is_in_body():
            depth = self.program.functions[found[1]].depth
            if depth == MOST_CALLS:
                self.fault(form.own, "TooDeep")
            self.around.calls = max(self.around.calls, depth)

    def is_in_body(self):
        return self.around is not None and self.around.in_body

    def argument(self, form, parameter):
        typed = self.expr(form)
        if parameter is None:
            return typed
        shape, is_output, _ = parameter
        place = self.place_of(typed) if is_output else None
        if is_output and place is None:
            self.fault(form.own, "NotAssignable")
        if not fits(typed.shape, shape, True):
            self.fault(form.own, "Mismatch")
        return Output(shape, place) if is_output else as_kind(typed, shape)

    def made_call(self, form, found, arguments):
        if found[0] == "library":
            return LibraryCall(ROWS[found[1]].result, found[1], arguments, self.node(form))
        return Call(self.program.functions[found[1]].result, found[1], arguments, self.node(form))

    def place_of(self, typed):
        """The place that an expression names, None where there is none that can be assigned."""
        steps, root = [], typed
        while isinstance(root, (Index, Field)):
            steps.insert(0, ("index", root.index, root.node) if isinstance(root, Index) else ("field", root.number))
            root = root.root
        if not isinstance(root, Variable) or not self.can_assign(root.number):
            return None
        return Place(typed.shape, root.number, tuple(steps))

    def can_assign(self, number):
        return any(known.number == number and known.is_assignable for scope in self.scopes for known in scope.values())

    # ---- initialisers

    def init(self, form, wanted):
        """The typed initialiser for a shape, None where an expression does not fit it."""
        if form.name == "list":
            return self.brace_list(form, wanted)
        typed = self.expr(form)
        return as_kind(typed, wanted) if fits(typed.shape, wanted, True) else None

    def brace_list(self, form, wanted):
        """A list for a shape, or for none where what is around it is wrong already."""
        elements, is_right = [], wanted is None or self.wants_list(form, wanted)
        for number, part in enumerate(form.parts):
            shape = self.element_shape(wanted, number)
            element = self.brace_list(part, shape) if part.name == "list" else self.expr(part)
            if shape is None:
                continue
            if not fits(element.shape, shape, False):
                is_right = False
                continue
            elements.append(as_kind(element, shape))
            if isinstance(wanted, Array):
                wanted = Array(elements[0].shape, wanted.size)
        if not is_right:
            self.fault(form.own, "Mismatch")
        shape = Array(wanted.element, len(elements)) if isinstance(wanted, Array) else wanted
        return List(shape, tuple(elements))

    def wants_list(self, form, wanted):
        """Whether a shape takes a list of this length."""
        if isinstance(wanted, Struct):
            return len(form.parts) == len(self.program.structs[wanted.number].fields)
        return isinstance(wanted, Array) and wanted.size in (None, len(form.parts))

    def element_shape(self, wanted, number):
        if isinstance(wanted, Array):
            return wanted.element
        fields = self.program.structs[wanted.number].fields if isinstance(wanted, Struct) else ()
        return fields[number][1] if number < len(fields) else None

    def is_too_large(self, wanted, given):
        """Whether an initialiser gives an open size that is too large."""
        return is_open(wanted) and (has_long_array(given) or scalars(given, self.program.structs) > MOST_SCALARS)

    # ---- definitions

    def definition(self, form):
        getattr(self, f"define_{form.name}")(form)

    def make_visible(self, name, sort, number):
        """Makes a definition of this namespace known."""
        self.definitions[self.namespaces + (name,)] = (sort, number)

    def check_free(self, form, name):
        if self.namespaces + (name,) in self.definitions:
            self.fault(form.own, "Twice")

    def define_namespace(self, form):
        name, *parts = form.parts
        outside, self.namespaces = self.namespaces, self.namespaces + (name,)
        for part in parts:
            self.definition(part)
        self.namespaces = outside
        if self.definitions.get(outside + (name,), ("namespace",))[0] != "namespace":
            self.fault(form.own, "Twice")
        self.make_visible(name, "namespace", None)

    def define_struct(self, form):
        name, *parts = form.parts
        fields = []
        for part in parts:
            shape = self.sized(self.shape(part.parts[0]), part.forms("size"), False)
            if part.words()[-1] in dict(fields):
                self.fault(part.own, "Twice")
            fields.append((part.words()[-1], shape))
        self.check_free(form, name)
        if sum(scalars(shape, self.program.structs) for _, shape in fields) > MOST_SCALARS:
            self.fault(form.own, "BadSize")
        self.make_visible(name, "struct", len(self.program.structs))
        self.program.structs.append(StructType(name, tuple(fields)))

    def declared(self, form):
        """The shape and the initialiser of a constant, variable or parameter, as they stand."""
        shape, sizes = form.forms("named", *KINDS)[0], form.forms("size")
        last = form.parts[-1]
        init = last if isinstance(last, Form) and last not in sizes else None
        return shape, sizes, init

    def given(self, form, shape, typed):
        """The shape that a declaration has by its initialiser, after the faults of what stands at its name."""
        if typed is None:
            self.fault(form.own, "Mismatch")
        if self.is_too_large(shape, typed.shape):
            self.fault(form.own, "BadSize")
        return typed.shape if is_open(shape) else shape

    def constant_value(self, form, typed):
        try:
            return value_of(self.program, typed, TURNS)
        except Trap:
            self.fault(form.own, "ConstTrap")

    def define_const(self, form):
        shape, sizes, init = self.declared(form)
        wanted = self.sized(self.shape(shape), sizes, True)
        typed = self.init(init, wanted)
        name = form.words()[-1]
        self.check_free(form, name)
        shape = self.given(form, wanted, typed)
        value = self.constant_value(form, typed)
        self.make_visible(name, "constant", len(self.program.constants))
        self.program.constants.append(ConstantValue(name, shape, value))

    def define_function(self, form):
        name = form.words()[-1]
        self.around = Around(name)
        self.around.result = self.result(form)
        with self.scope():
            parameters = tuple(self.parameter(part, form) for part in form.forms("param"))
            function = Function(name, self.node(form), parameters, self.around.result)
            self.around.in_body = True
            function.body = self.statement(form.parts[-1])
        function.whole_name = "::".join(self.namespaces + (name,))
        function.depth = self.around.calls + 1
        function.variables = self.around.variables - len(parameters)
        self.check_function(form, function)
        self.around = None
        number = len(self.program.functions)
        self.make_visible(name, "function", number)
        self.program.functions.append(function)
        if form is self.entry_form:
            self.program.entry = number

    def result(self, form):
        if form.parts[0] == "void":
            return None
        shape = form.parts[0]
        return self.sized(self.shape(shape.parts[0]), shape.forms("size"), False)

    def check_function(self, form, function):
        self.check_free(form, function.name)
        if function.result is not None and not surely_returns(form.parts[-1]):
            self.fault(form.own, "NoReturn")
        if form is self.entry_form and function.result is not None:
            self.fault(form.own, "BadEntry")

    def parameter(self, form, function):
        shape, sizes, init = self.declared(form)
        wanted = self.sized(self.shape(shape), sizes, True)
        *words, name = form.words()
        with self.definitions_alone():
            typed = self.init(init, wanted) if init is not None else None
        if name in self.scopes[-1]:
            self.fault(form.own, "Twice")
        default_shape = self.given(form, wanted, typed) if init is not None else None
        if function is self.entry_form and (holds_struct(wanted) or is_open(wanted)):
            self.fault(form.own, "BadEntry")
        value = self.constant_value(form, typed) if init is not None else None
        self.add_variable(name, wanted, "output" in words)
        level = next((word for word in words if word in ("uniform", "varying")), None)
        return Parameter(name, self.node(form), wanted, "output" in words, level, value, default_shape)

    def add_variable(self, name, shape, is_assignable):
        number = self.around.variables
        self.around.variables += 1
        self.scopes[-1][name] = Scoped(number, shape, is_assignable)
        return number

    # ---- statements

    def statement(self, form):
        return getattr(self, f"state_{form.name}")(form)

    def body(self, form):
        with self.scope():
            return self.statement(form)

    def state_block(self, form):
        with self.scope():
            return Block(tuple(self.statement(part) for part in form.parts))

    def state_variable(self, form, is_assignable=True):
        shape, sizes, init = self.declared(form)
        wanted = self.sized(self.shape(shape), sizes, init is not None)
        typed = self.init(init, wanted) if init is not None else None
        name = form.words()[-1]
        if name in self.scopes[-1]:
            self.fault(form.own, "Twice")
        shape = self.given(form, wanted, typed) if init is not None else wanted
        return Declare(self.add_variable(name, shape, is_assignable), shape, typed)

    def state_const(self, form):
        return self.state_variable(form, False)

    def state_assign(self, form):
        target = self.place(form.parts[0])
        value = self.expr(form.parts[1])
        place = self.place_of(target)
        if place is None:
            self.fault(form.own, "NotAssignable")
        if is_open(place.shape) or not fits(value.shape, place.shape, False):
            self.fault(form.own, "Mismatch")
        return Assign(place, as_kind(value, place.shape))

    def place(self, form):
        name, *steps = form.parts
        typed = self.expr(name)
        for step in steps:
            typed = self.step(typed, step)
        return typed

    def state_call(self, form):
        return Run(self.expr(form))

    def state_if(self, form):
        arms, otherwise = [], None
        for part in form.parts:
            if part.name == "else":
                otherwise = self.body(part.parts[0])
            else:
                test = self.expr(part.parts[0])
                arms.append((test, self.body(part.parts[1])))
        tests = [self.test(form, test) for test, _ in arms]
        return If(tuple(zip(tests, (body for _, body in arms))), otherwise)

    def test(self, form, typed):
        if not fits(typed.shape, BOOL, False):
            self.fault(form.own, "Mismatch")
        return as_kind(typed, BOOL)

    def state_while(self, form):
        test, body = self.expr(form.parts[0]), self.body(form.parts[1])
        return While(self.test(form, test), body, self.node(form))

    def state_for(self, form):
        start, test, after, body = form.parts
        with self.scope():
            start, test, after = self.statement(start), self.expr(test), self.statement(after)
            body = self.body(body)
        return For(start, self.test(form, test), after, body, self.node(form))

    def state_return(self, form):
        typed, result = self.expr(form.parts[0]) if form.parts else None, self.around.result
        if typed is None and result is None:
            return Return(None)
        if typed is None or result is None or not fits(typed.shape, result, False):
            self.fault(form.own, "Mismatch")
        return Return(as_kind(typed, result))

    def state_print(self, form):
        items = tuple(part.parts[0] if part.name == "text" else self.expr(part) for part in form.parts)
        if any(not isinstance(item, str) and item.shape is None for item in items):
            self.fault(form.own, "Mismatch")
        return Print(items)

    def state_empty(self, form):
        return Block(())


def has_long_array(shape):
    return isinstance(shape, Array) and ((shape.size or 0) > MOST_ELEMENTS or has_long_array(shape.element))


def surely_returns(form):
    if form.name == "return":
        return True
    if form.name == "block":
        return any(surely_returns(part) for part in form.parts)
    if form.name != "if" or form.parts[-1].name != "else":
        return False
    return all(surely_returns(part.parts[-1]) for part in form.parts)


def check(texts):
    return Checker(texts).checked()


def verdict(texts):
    """The program, or the file, line, token and kind of the first fault."""
    checker = Checker(texts)
    try:
        return checker.checked(), None
    except Refused as fault:
        module = checker.program.modules[fault.node[0]]
        return None, (module.name, module.line_of(fault.node[1]), fault.node[1], fault.kind)
