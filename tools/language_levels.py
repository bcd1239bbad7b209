"""What varies from pixel to pixel in a checked program: its instances, and the refusals of its levels.

    levels(program, entry)    a Leveled, or a Fault

The rules are taken literally: facts on variables and places are added until no rule adds another. A place is a form of
a function's body, numbered in the order of the text; its control varies where the fact ("control", number) stands.
"""
from typing import Any, NamedTuple, Optional

from language_checker import Checker
from language_library import ROWS
from language_types import (
    Array, Assign, Binary, Block, Call, Constant, Convert, Declare, Field, For, If, Index, LibraryCall, List, Literal,
    Logic, Output, Place, Print, Return, Run, Size, Struct, Unary, Variable, While, is_open, is_scalar,
)

MOST_INSTANCES, MOST_CELLS, MOST_VARYING, MOST_PARTS = 4096, 2**22, 2**18, 2**27
LAST_COUNT = 2**64 - 1


class Key(NamedTuple):
    """An instance: a function, the sizes of its open parameters, which parameters vary, and whether its control does."""

    function: int
    sizes: tuple
    levels: tuple
    control: bool


class Fault(NamedTuple):
    """The kind, the node where there is one, and the numbers."""

    kind: str
    node: Optional[tuple]
    numbers: tuple


class Instance(NamedTuple):
    key: Key
    varying: frozenset
    result: bool
    called: tuple


class Leveled(NamedTuple):
    instances: tuple
    cells: tuple
    parts: int


class MarkingChecker(Checker):
    """A checker that keeps the node of each argument, and which operators end a chain."""

    def __init__(self, texts):
        super().__init__(texts)
        self.program.argument_nodes, self.program.chain_ends, self.kept = {}, set(), []

    def argument(self, form, parameter):
        typed = super().argument(form, parameter)
        self.kept.append(typed)
        self.program.argument_nodes[id(typed)] = self.node(form)
        return typed

    def expr_chain(self, form):
        typed = super().expr_chain(form)
        self.kept.append(typed)
        self.program.chain_ends.add(id(typed))
        return typed


def checked(texts):
    checker = MarkingChecker(texts)
    program = checker.checked()
    program.kept = checker.kept
    return program


# ---- places in the order of the text


class Site:
    """A form with its number, that of what surrounds it, and the last number inside it."""

    def __init__(self, form, number, around, role):
        self.form, self.number, self.around, self.role, self.parts, self.last = form, number, around, role, [], number


class Body:
    """The sites of a function's body."""

    def __init__(self, function):
        self.sites = []
        self.root = self.add(function.body, None, "body")

    def add(self, form, around, role):
        site = Site(form, len(self.sites), around, role)
        self.sites.append(site)
        for part_role, part in self.children(form):
            site.parts.append(self.add(part, site, part_role))
        site.last = len(self.sites) - 1
        return site

    @staticmethod
    def children(form):
        """The forms in a form in the order of the text, each with its role."""
        if isinstance(form, Block):
            return [("statement", s) for s in form.statements]
        if isinstance(form, Declare):
            return [("value", form.value)] if form.value is not None else []
        if isinstance(form, Assign):
            return [("place", form.place), ("value", form.value)]
        if isinstance(form, Run):
            return [("value", form.call)]
        if isinstance(form, If):
            parts = [("arm", arm) for arm in form.arms]
            return parts + ([("else", form.otherwise)] if form.otherwise is not None else [])
        if isinstance(form, While):
            return [("test", form.test), ("body", form.body)]
        if isinstance(form, For):
            return [("start", form.start), ("test", form.test), ("after", form.after), ("body", form.body)]
        if isinstance(form, Return):
            return [("value", form.value)] if form.value is not None else []
        if isinstance(form, Print):
            return [("item", item) for item in form.items if not isinstance(item, str)]
        if isinstance(form, Place):
            return [("index", step[1]) for step in form.steps if step[0] == "index"]
        if isinstance(form, Output):
            return [("place", form.place)]
        if isinstance(form, (Call, LibraryCall)):
            return [("argument", a) for a in form.arguments if a is not None]
        if isinstance(form, Index):
            return [("root", form.root), ("index", form.index)]
        if isinstance(form, (Field, Size)):
            return [("root", form.root)]
        if isinstance(form, (Unary, Convert)):
            return [("operand", form.operand)]
        if isinstance(form, (Binary, Logic)):
            return [("left", form.left), ("right", form.right)]
        if isinstance(form, List):
            return [("element", e) for e in form.elements]
        if isinstance(form, (Literal, Constant, Variable)):
            return []
        if isinstance(form, tuple):  # an arm: its test and its body
            return [("test", form[0]), ("body", form[1])]
        raise TypeError(form)


# ---- one instance


class Analysis:
    """The least facts of one instance."""

    def __init__(self, levels, key):
        self.levels, self.program, self.key = levels, levels.program, key
        self.function = self.program.functions[key.function]
        self.body = levels.body(key.function)
        self.facts = {("variable", k) for k, level in enumerate(key.levels) if level}
        if key.control:
            self.facts |= {("control", site.number) for site in self.body.sites}
        before = None
        while before != len(self.facts):
            before = len(self.facts)
            for site in self.body.sites:
                self.rules(site)
        self.shapes = None

    # -- what is read

    def control(self, site):
        return ("control", site.number) in self.facts

    def varies(self, site):
        """Whether it names a variable that varies, or has a call whose result does, outside `.size`."""
        form = site.form
        if isinstance(form, Size):
            return False
        if isinstance(form, Variable) and ("variable", form.number) in self.facts:
            return True
        if isinstance(form, Place) and ("variable", form.number) in self.facts:
            return True
        if isinstance(form, Call) and self.levels.result_varies(self.called(site)):
            return True
        if isinstance(form, LibraryCall) and self.input_varies(site):
            return True
        return any(self.varies(part) for part in site.parts)

    def input_varies(self, site):
        return any(self.varies(part) for part in site.parts if not isinstance(part.form, Output))

    def index_varies(self, site):
        """Whether an index of a place varies."""
        return any(self.varies(part) for part in site.parts)

    def called(self, site):
        """The instance of a call."""
        form, parts = site.form, list(site.parts)
        levels = tuple(self.varies(parts.pop(0)) if a is not None else False for a in form.arguments)
        return Key(form.function, self.levels.sizes_of(self.key, form), levels, self.control(site))

    # -- what is added

    def put(self, *fact):
        self.facts.add(fact)

    def put_all(self, site):
        """Varying control for a form and all that stands in it."""
        for number in range(site.number, site.last + 1):
            self.put("control", number)

    def rules(self, site):
        form = site.form
        if self.control(site):
            self.put_all(site)
        if isinstance(form, If):
            self.arms(site)
        elif isinstance(form, (While, For)):
            self.loop(site)
        elif isinstance(form, Logic) and self.varies(site.parts[0]):
            self.put_all(site.parts[1])
        elif isinstance(form, Return):
            self.returned(site)
        elif isinstance(form, Declare):
            if self.control(site) or any(self.varies(part) for part in site.parts):
                self.put("variable", form.number)
        elif isinstance(form, Assign):
            if self.control(site) or self.varies(site.parts[1]) or self.index_varies(site.parts[0]):
                self.put("variable", form.place.number)
        elif isinstance(form, (Call, LibraryCall)):
            self.copied_back(site)

    def arms(self, site):
        for place, arm in enumerate(site.parts):
            if arm.role == "arm" and self.varies(arm.parts[0]):
                self.put_all(arm.parts[1])
                for later in site.parts[place + 1 :]:
                    self.put_all(later)

    def turned(self, site):
        return [part for part in site.parts if part.role in ("test", "body", "after")]

    def loop(self, site):
        if any(self.varies(part) for part in site.parts if part.role == "test"):
            for part in self.turned(site):
                self.put_all(part)

    def returned(self, site):
        if self.control(site):
            for number in range(site.last + 1, len(self.body.sites)):
                self.put("control", number)
            around = site.around
            while around is not None:
                if isinstance(around.form, (While, For)):
                    for part in self.turned(around):
                        self.put_all(part)
                around = around.around
        if self.control(site) or any(self.varies(part) for part in site.parts):
            self.put("result")

    def copied_back(self, site):
        form, parts = site.form, list(site.parts)
        for k, argument in enumerate(form.arguments):
            if argument is None:
                continue
            part = parts.pop(0)
            if not isinstance(argument, Output):
                continue
            if isinstance(form, Call):
                value = self.levels.parameter_varies(self.called(site), k)
            else:
                value = self.input_varies(site)
            if self.control(site) or value or self.index_varies(part.parts[0]):
                self.put("variable", argument.place.number)

    # -- what is told

    def varying(self):
        return frozenset(fact[1] for fact in self.facts if fact[0] == "variable")

    def in_source_order(self, site=None):
        """The sites, those in a form before it."""
        site = site or self.body.root
        for part in site.parts:
            yield from self.in_source_order(part)
        yield site

    def calls(self):
        return [self.called(site) for site in self.in_source_order() if isinstance(site.form, Call)]

    def faults(self):
        parameters = self.function.parameters
        for k, parameter in enumerate(parameters):
            if parameter.is_output and parameter.level == "uniform" and ("variable", k) in self.facts:
                yield parameter.node
        for site in self.in_source_order():
            if site.role == "argument" and isinstance(site.around.form, Call) and self.varies(site):
                argument = site.form
                call = site.around.form
                k = next(k for k, a in enumerate(call.arguments) if a is argument)
                if self.program.functions[call.function].parameters[k].level == "uniform":
                    yield self.program.argument_nodes[id(argument)]


# ---- shapes in an instance


def scalars(shape, structs):
    if is_scalar(shape):
        return 1
    if isinstance(shape, Struct):
        return sum(scalars(field, structs) for _, field in structs[shape.number].fields)
    return shape.size * scalars(shape.element, structs)


def open_sizes(shape, concrete):
    """The sizes of a shape that stand where another one has open ones."""
    sizes = []
    while isinstance(shape, Array):
        if shape.size is None:
            sizes.append(concrete.size)
        shape, concrete = shape.element, concrete.element
    return sizes


def closed(shape, sizes):
    """A shape with sizes, taken from a list, for its open ones."""
    if not isinstance(shape, Array):
        return shape
    size = shape.size if shape.size is not None else sizes.pop(0)
    return Array(closed(shape.element, sizes), size)


class Levels:
    def __init__(self, program):
        self.program = program
        self.bodies, self.analyses, self.shapes = {}, {}, {}

    def body(self, function):
        if function not in self.bodies:
            self.bodies[function] = Body(self.program.functions[function])
        return self.bodies[function]

    def analysis(self, key):
        if key not in self.analyses:
            self.analyses[key] = Analysis(self, key)
        return self.analyses[key]

    def result_varies(self, key):
        return ("result",) in self.analysis(key).facts

    def parameter_varies(self, key, k):
        return ("variable", k) in self.analysis(key).facts

    # -- shapes

    def variables(self, function, sizes):
        """The shape of each variable in an instance of these sizes."""
        if (function, sizes) not in self.shapes:
            left = list(sizes)
            shapes = {k: closed(p.shape, left) for k, p in enumerate(self.program.functions[function].parameters)}
            self.shapes[function, sizes] = shapes
            for site in self.body(function).sites:
                if isinstance(site.form, Declare):
                    form = site.form
                    shape = self.shape(shapes, form.value) if is_open(form.shape) else form.shape
                    shapes[form.number] = shape
        return self.shapes[function, sizes]

    def shape(self, variables, form):
        """The shape of an expression's value, None where it has none."""
        if isinstance(form, Variable):
            return variables[form.number]
        if isinstance(form, Index):
            return self.shape(variables, form.root).element
        if isinstance(form, Output):
            return self.place_shape(variables, form.place)
        if isinstance(form, Convert):
            return form.shape
        return form.shape

    def place_shape(self, variables, place):
        shape = variables[place.number]
        for step in place.steps:
            shape = shape.element if step[0] == "index" else self.program.structs[shape.number].fields[step[1]][1]
        return shape

    def sizes_of(self, key, call):
        variables = self.variables(key.function, key.sizes)
        sizes = []
        for parameter, argument in zip(self.program.functions[call.function].parameters, call.arguments):
            if is_open(parameter.shape):
                given = parameter.default_shape if argument is None else self.shape(variables, argument)
                sizes += open_sizes(parameter.shape, given)
        return tuple(sizes)

    # -- counts

    def cells(self, instances):
        structs = self.program.structs
        total, varying = sum(scalars(c.shape, structs) for c in self.program.constants), 0
        for one in instances:
            function = self.program.functions[one.key.function]
            variables = self.variables(one.key.function, one.key.sizes)
            counts = {number: scalars(shape, structs) for number, shape in variables.items()}
            result = 0 if function.result is None else scalars(function.result, structs)
            total += sum(counts.values()) + result
            if one.key.control:
                varying += sum(counts.values()) + result
            else:
                varying += sum(n for number, n in counts.items() if number in one.varying) + (result if one.result else 0)
        return min(total, LAST_COUNT), min(varying, LAST_COUNT)

    def parts(self, key):
        """One for each statement, arm, expression and brace list, and the scalars of the values of the last two."""
        variables = self.variables(key.function, key.sizes)
        return sum(self.part(site, variables) for site in self.body(key.function).sites)

    def part(self, site, variables):
        form = site.form
        if isinstance(form, (Block, Declare, Assign, Run, If, While, For, Return, Print)) or type(form) is tuple:
            return 1
        if isinstance(form, (Place, Output, Convert)):
            return 0
        if isinstance(form, (Binary, Logic)) and id(form) not in self.program.chain_ends:
            return 0
        shape = self.shape(variables, form)
        return 1 + (0 if shape is None else scalars(shape, self.program.structs))


def entry_key(program, entry):
    return Key(entry, (), tuple(p.level != "uniform" for p in program.functions[entry].parameters), False)


def reached(levels, entry):
    """The instances in the order in which they are reached, and the first fault; None where there are too many."""
    order, numbers = [], {}

    def visit(key):
        if key in numbers or len(order) > MOST_INSTANCES:
            return
        numbers[key] = len(order)
        order.append(key)
        for called in levels.analysis(key).calls():
            visit(called)

    visit(entry)
    return order, numbers


def levels(program, entry):
    table = Levels(program)
    order, numbers = reached(table, entry_key(program, entry))
    if len(order) > MOST_INSTANCES:
        return Fault("TooManyInstances", None, ())
    for key in order:
        for node in table.analysis(key).faults():
            return Fault("VaryingToUniform", node, ())
    instances = []
    for key in order:
        analysis = table.analysis(key)
        instances.append(Instance(key, analysis.varying(), ("result",) in analysis.facts, tuple(numbers[c] for c in analysis.calls())))
    total, varying = table.cells(instances)
    if total > MOST_CELLS or varying > MOST_VARYING:
        return Fault("TooManyCells", None, (total, varying))
    parts = 0
    for number, key in enumerate(order):
        parts += table.parts(key)
        if parts > MOST_PARTS:
            return Fault("TooManyParts", None, (number,))
    return Leveled(tuple(instances), (total, varying), parts)
