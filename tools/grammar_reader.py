"""Two readers of the grammar of modules, which share the tokens alone.

One is a descent by hand: it gives the tree of a module, or the fault at which the list of tokens ends. The other takes
the grammar as it is written and keeps, token by token, every rule that can be under way (Earley's way), so that a list
of tokens begins some module exactly where a rule is left. Each rule knows how much deeper than itself it reaches at
least, and a rule that would reach below the limit is never begun. So the same reader, with the limit and without, tells
at which token no module is left (NotHere), and at which token none that is nested within the limit is left (Depth).
"""
import re
import sys
from fractions import Fraction
from functools import lru_cache
from math import floor

KEYWORDS = (
    "bool const ctlversion else false float for half if import input int namespace output print return string "
    "struct true uniform unsigned varying void while"
).split()
SIGNS = "+ - * / % & | ^ ~ << >> && || ! == != < <= > >= = ( ) [ ] { } , ; . ::".split()
LIMIT = 200
NO_LIMIT = 10**9
sys.setrecursionlimit(20000)


# ---- tokens

BLANKS = re.compile(r"(?:[\t\n\v\f\r ]|//[^\n]*|/\*.*?\*/)*", re.S)
NAME = re.compile(r"[A-Za-z_][A-Za-z0-9_]*")
NUMBER = re.compile(r"(?:0[xX][A-Za-z0-9_.]*|\.?[0-9](?:[eE][+-]|[A-Za-z0-9_.])*)")
TEXT = re.compile(r'"(?:[^"\n\\]|\\[^\n])*"', re.S)
POINT = re.compile(r"([0-9]*)(?:(\.)([0-9]*))?(?:[eE]([+-]?[0-9]{1,4}))?")


class Token:
    """A token: its kind is a keyword or sign itself, or NAME, WHOLE, POINT, HALF or TEXT."""

    def __init__(self, kind, span, at, line, value=None):
        self.kind, self.span, self.at, self.line, self.value = kind, span, at, line, value


def raw(spelling):
    """The raw nearest to a decimal spelling, halves upwards, clamped."""
    whole, _, part, power = POINT.fullmatch(spelling).groups()
    part = part or ""
    value = Fraction(int(whole + part)) * Fraction(10) ** (int(power or "0") - len(part))
    return min(2**63 - 1, floor(value * 2**32 + Fraction(1, 2)))


def half(r):
    """The raw of the half nearest to a raw that is not negative, of two the one with an even significand."""
    unit = 2**8
    sizes = ((m, m * (unit << s)) for s in range(30) for m in range(2048) if s == 0 or m >= 1024)
    return min((abs(r - size), m % 2, size) for m, size in sizes)[2]


def number(span):
    if span[:2].lower() == "0x":
        return "WHOLE", int(span, 16)
    if span.isdigit():
        return "WHOLE", int(span)
    if span[-1] in "hH":
        return "HALF", half(raw(span[:-1]))
    return "POINT", raw(span.rstrip("fF"))


def text_value(span):
    """The bytes that a text in quotes stands for, as characters of one byte."""
    stands = {"n": "\n", "t": "\t"}
    return re.sub(r"\\(.)", lambda m: stands.get(m[1], m[1]), span[1:-1], flags=re.S)


def token_at(text, at, line):
    found = NAME.match(text, at)
    if found:
        return Token(found[0] if found[0] in KEYWORDS else "NAME", found[0], at, line)
    found = NUMBER.match(text, at)
    if found:
        return Token(number(found[0])[0], found[0], at, line, number(found[0])[1])
    found = TEXT.match(text, at)
    if found:
        return Token("TEXT", found[0], at, line, text_value(found[0]))
    sign = max((s for s in SIGNS if text.startswith(s, at)), key=len, default=None)
    assert sign, f"no token at {at} of {text!r}"
    return Token(sign, sign, at, line)


@lru_cache(maxsize=None)
def lex(text):
    """The tokens of a text. Its bytes are looked at as characters."""
    text = text.encode().decode("latin-1")
    at, past, line, tokens = BLANKS.match(text).end(), 0, 1, []
    while at < len(text):
        line += text.count("\n", past, at)
        tokens.append(token_at(text, at, line))
        past = at + len(tokens[-1].span)
        line += text.count("\n", at, past)
        at = BLANKS.match(text, past).end()
    return tokens


def end_line(text):
    return 1 + text.count("\n")


# ---- the descent

LEVELS = [
    {"||": "or"},
    {"&&": "and"},
    {"|": "bitor"},
    {"^": "bitxor"},
    {"&": "bitand"},
    {"==": "equal", "!=": "notequal"},
    {"<": "less", "<=": "atmost", ">": "greater", ">=": "atleast"},
    {"<<": "shiftleft", ">>": "shiftright"},
    {"+": "add", "-": "subtract"},
    {"*": "multiply", "/": "divide", "%": "remainder"},
]
UNARY = {"-": "minus", "+": "plus", "!": "not", "~": "bitnot"}
SHAPES = ["bool", "int", "unsigned", "half", "float", "NAME", "::"]
STATEMENTS = SHAPES + ["{", "const", "if", "while", "for", "return", "print", ";"]
DEFINITIONS = SHAPES + ["namespace", "struct", "const", "void"]
EXPRS = ["WHOLE", "POINT", "HALF", "true", "false", "NAME", "::", "(", "-", "+", "!", "~"]


class Fault(Exception):
    def __init__(self, kind, at):
        super().__init__(kind, at)
        self.kind, self.at = kind, at


def form(name, *parts):
    return "(" + " ".join([name, *parts]) + ")"


def printable(value):
    return "".join(c if 32 <= ord(c) <= 126 and c not in '"\\' else f"\\x{ord(c):02x}" for c in value)


class Descent:
    """Reads tokens as a module, within a limit on the nesting. Each method gives its form's spelling."""

    def __init__(self, tokens, limit):
        self.tokens, self.limit, self.at, self.nesting = tokens, limit, 0, 0

    def sees(self, *kinds):
        return self.at < len(self.tokens) and self.tokens[self.at].kind in kinds

    def not_here(self):
        raise Fault("NotHere", self.at)

    def take(self, *kinds):
        """The place of a token that must stand here."""
        if not self.sees(*kinds):
            self.not_here()
        self.at += 1
        return self.at - 1

    def deeper(self, nesting):
        """The nesting one deeper, which the token here makes needed."""
        if nesting + 1 > self.limit:
            raise Fault("Depth", self.at)
        self.nesting = max(self.nesting, nesting + 1)
        return nesting + 1

    def span(self, at):
        return self.tokens[at].span

    def module(self):
        parts = ["module"]
        if self.sees("ctlversion"):
            self.take("ctlversion")
            if self.sees("WHOLE") and self.tokens[self.at].value != 1:
                self.not_here()
            self.take("WHOLE")
            self.take(";")
        while self.sees("import"):
            parts.append(self.imported())
        while self.at < len(self.tokens):
            parts.append(self.definition(0))
        return form(*parts)

    def imported(self):
        self.take("import")
        if self.sees("TEXT") and not all(32 <= ord(c) <= 126 for c in self.tokens[self.at].value):
            self.not_here()
        at = self.take("TEXT")
        self.take(";")
        return form(f"import@{at}", f'"{printable(self.tokens[at].value)}"')

    def definition(self, n):
        if self.sees("namespace"):
            return self.namespace(n)
        if self.sees("struct"):
            return self.struct(n)
        if self.sees("const"):
            return self.constant(n)
        if not self.sees("void", *SHAPES):
            self.not_here()
        return self.function(n)

    def namespace(self, n):
        self.take("namespace")
        own = self.take("NAME")
        self.take("{")
        parts = [self.span(own)]
        while not self.sees("}"):
            if not self.sees(*DEFINITIONS):
                self.not_here()
            parts.append(self.definition(self.deeper(n)))
        self.take("}")
        return form(f"namespace@{own}", *parts)

    def struct(self, n):
        self.take("struct")
        own = self.take("NAME")
        self.take("{")
        parts = [self.span(own), self.field(n)]
        while not self.sees("}"):
            parts.append(self.field(n))
        self.take("}")
        if self.sees(";"):
            self.take(";")
        return form(f"struct@{own}", *parts)

    def field(self, n):
        shape = self.shape()
        own = self.take("NAME")
        sizes = self.sizes(n)
        self.take(";")
        return form(f"field@{own}", shape, self.span(own), *sizes)

    def sizes(self, n):
        """Stated sizes."""
        sizes = []
        while self.sees("["):
            inner = self.deeper(n)
            own = self.take("[")
            sizes.append(form(f"size@{own}", self.expr(inner)))
            self.take("]")
        return sizes

    def open_sizes(self, n):
        """Sizes that may be left open."""
        sizes = []
        while self.sees("["):
            own = self.take("[")
            size = [] if self.sees("]") else [self.optional_expr(n)]
            self.take("]")
            sizes.append(form(f"size@{own}", *size))
        return sizes

    def optional_expr(self, n):
        """An expression in brackets that might have been empty."""
        if not self.sees(*EXPRS):
            self.not_here()
        return self.expr(self.deeper(n))

    def shape(self):
        if self.sees("NAME", "::"):
            name, own = self.qname()
            return form(f"named@{own}", name)
        own = self.take("bool", "int", "unsigned", "half", "float")
        kind = self.span(own)
        if kind == "unsigned" and self.sees("int"):
            own = self.take("int")
        return form(f"{kind}@{own}")

    def qname(self):
        parts = []
        if self.sees("::"):
            self.take("::")
            parts.append("")
        own = self.take("NAME")
        parts.append(self.span(own))
        while self.sees("::"):
            self.take("::")
            own = self.take("NAME")
            parts.append(self.span(own))
        return form(f"name@{own}", "::".join(parts)), own

    def constant(self, n):
        self.take("const")
        shape = self.shape()
        own = self.take("NAME")
        sizes = self.open_sizes(n)
        self.take("=")
        value = self.init(n)
        self.take(";")
        return form(f"const@{own}", shape, self.span(own), *sizes, value)

    def init(self, n):
        return self.brace_list(n) if self.sees("{") else self.expr(n)

    def brace_list(self, n):
        inner = self.deeper(n)
        own = self.take("{")
        elements = [self.init(inner)]
        while self.sees(","):
            self.take(",")
            elements.append(self.init(inner))
        self.take("}")
        return form(f"list@{own}", *elements)

    def function(self, n):
        inner = self.deeper(n)
        if self.sees("void"):
            self.take("void")
            result = "void"
        else:
            result = form("result", self.shape(), *self.sizes(n))
        own = self.take("NAME")
        self.take("(")
        params = []
        if not self.sees(")"):
            params.append(self.param(n))
            while self.sees(","):
                self.take(",")
                params.append(self.param(n))
        self.take(")")
        return form(f"function@{own}", result, self.span(own), *params, self.block(inner))

    def param(self, n):
        quals = {}
        io, level = ["input", "output"], ["uniform", "varying"]
        if self.sees(*io):
            quals["io"] = self.span(self.take(*io))
            if self.sees(*level):
                quals["level"] = self.span(self.take(*level))
        elif self.sees(*level):
            quals["level"] = self.span(self.take(*level))
            if self.sees(*io):
                quals["io"] = self.span(self.take(*io))
        words = [quals[k] for k in ("io", "level") if k in quals]
        shape = self.shape()
        own = self.take("NAME")
        parts = self.open_sizes(n)
        if self.sees("="):
            self.take("=")
            parts.append(self.init(n))
        return form(f"param@{own}", *words, shape, self.span(own), *parts)

    def block(self, n):
        own = self.take("{")
        parts = []
        while not self.sees("}"):
            if not self.sees(*STATEMENTS):
                self.not_here()
            parts.append(self.statement(self.deeper(n)))
        self.take("}")
        return form(f"block@{own}", *parts)

    def statement(self, n):
        kinds = {
            "{": self.block,
            "const": self.constant,
            "if": self.choice,
            "while": self.loop,
            "for": self.counted,
            "return": self.returned,
            "print": self.printed,
            ";": self.empty,
        }
        for kind, method in kinds.items():
            if self.sees(kind):
                return method(n)
        if self.sees("NAME", "::"):
            return self.named_statement(n)
        return self.variable(n, self.shape(), self.init)

    def named_statement(self, n):
        name, own = self.qname()
        if self.sees("NAME"):
            return self.variable(n, form(f"named@{own}", name), self.init)
        made = self.call(n, name) if self.sees("(") else self.assign(n, name, n)
        self.take(";")
        return made

    def variable(self, n, shape, init):
        own = self.take("NAME")
        parts = self.open_sizes(n)
        if self.sees("="):
            self.take("=")
            parts.append(init(n))
        self.take(";")
        return form(f"variable@{own}", shape, self.span(own), *parts)

    def assign(self, n, name, value):
        """An assignment of nesting n, its right side of nesting value."""
        steps = self.steps(n)
        own = self.take("=")
        return form(f"assign@{own}", form("place", name, *steps), self.expr(value))

    def choice(self, n):
        inner = self.deeper(n)
        own = self.take("if")
        parts = [self.arm(inner)]
        while self.sees("else"):
            self.take("else")
            if not self.sees("if"):
                parts.append(form("else", self.statement(inner)))
                break
            self.take("if")
            parts.append(self.arm(inner))
        return form(f"if@{own}", *parts)

    def test(self, inner):
        self.take("(")
        test = self.expr(inner)
        self.take(")")
        return test

    def arm(self, inner):
        test = self.test(inner)
        return form("arm", test, self.statement(inner))

    def loop(self, n):
        inner = self.deeper(n)
        own = self.take("while")
        test = self.test(inner)
        return form(f"while@{own}", test, self.statement(inner))

    def counted(self, n):
        inner = self.deeper(n)
        own = self.take("for")
        self.take("(")
        start = self.start(n, inner)
        self.take(";")
        test = self.expr(inner)
        self.take(";")
        after = self.assign(n, self.qname()[0], inner)
        self.take(")")
        return form(f"for@{own}", start, test, after, self.statement(inner))

    def start(self, n, inner):
        """The beginning of a for, up to its semicolon."""

        def init(n):
            return self.brace_list(n) if self.sees("{") else self.expr(inner)

        if self.sees("NAME", "::"):
            name, own = self.qname()
            if not self.sees("NAME"):
                return self.assign(n, name, inner)
            shape = form(f"named@{own}", name)
        else:
            shape = self.shape()
        made = self.variable(n, shape, init)
        self.at -= 1
        return made

    def returned(self, n):
        own = self.take("return")
        value = [] if self.sees(";") else [self.expr(n)]
        self.take(";")
        return form(f"return@{own}", *value)

    def printed(self, n):
        own = self.take("print")
        self.take("(")
        items = [self.item(n)]
        while self.sees(","):
            self.take(",")
            items.append(self.item(n))
        self.take(")")
        self.take(";")
        return form(f"print@{own}", *items)

    def item(self, n):
        if self.sees("TEXT"):
            at = self.take("TEXT")
            return form(f"text@{at}", f'"{printable(self.tokens[at].value)}"')
        return self.optional_expr(n)

    def empty(self, n):
        return form(f"empty@{self.take(';')}")

    def expr(self, n, level=0):
        if level == len(LEVELS):
            return self.unary(n)
        first = self.expr(n, level + 1)
        links, own = [], None
        while self.sees(*LEVELS[level]):
            own = self.take(*LEVELS[level])
            links.append(form(f"{LEVELS[level][self.span(own)]}@{own}", self.expr(n, level + 1)))
        return form(f"chain@{own}", first, *links) if links else first

    def unary(self, n):
        if not self.sees(*UNARY):
            return self.postfix(n)
        inner = self.deeper(n)
        own = self.take(*UNARY)
        return form(f"{UNARY[self.span(own)]}@{own}", self.unary(inner))

    def postfix(self, n):
        root = self.primary(n)
        steps = self.steps(n)
        return form("path", root, *steps) if steps else root

    def steps(self, n):
        steps = []
        while self.sees("[", "."):
            if self.sees("["):
                inner = self.deeper(n)
                own = self.take("[")
                steps.append(form(f"index@{own}", self.expr(inner)))
                self.take("]")
            else:
                self.take(".")
                own = self.take("NAME")
                steps.append(form(f"dot@{own}", self.span(own)))
        return steps

    def primary(self, n):
        literals = {"WHOLE": "whole", "POINT": "point", "HALF": "halfpoint"}
        if self.sees(*literals):
            own = self.take(*literals)
            return form(f"{literals[self.tokens[own].kind]}@{own}", str(self.tokens[own].value))
        if self.sees("true", "false"):
            own = self.take("true", "false")
            return form(f"truth@{own}", self.span(own))
        if self.sees("("):
            inner = self.deeper(n)
            self.take("(")
            inside = self.expr(inner)
            self.take(")")
            return inside
        name, _ = self.qname()
        return self.call(n, name) if self.sees("(") else name

    def call(self, n, name):
        own = self.take("(")
        arguments = []
        if not self.sees(")"):
            arguments.append(self.optional_expr(n))
            while self.sees(","):
                self.take(",")
                arguments.append(self.expr(n + 1))
        self.take(")")
        return form(f"call@{own}", name, *arguments)


def descend(tokens, limit=NO_LIMIT):
    """The spelling of the module and its nesting, or the kind and place of the fault."""
    descent = Descent(tokens, limit)
    try:
        return descent.module(), descent.nesting
    except Fault as fault:
        return fault.kind, fault.at


# ---- the grammar as it is written

# A form with ^ after it is one deeper than what surrounds it. ONE is the whole number 1, PLAIN a text that stands for
# bytes from 32 to 126 alone. The head of a for has forms of its own, since each expression in it is one deeper than
# the for.
GRAMMAR = """
module     = [ "ctlversion" ONE ";" ] { import } { definition }
import     = "import" PLAIN ";"
definition = namespace | struct | constant | function
namespace  = "namespace" NAME "{" { definition^ } "}"
struct     = "struct" NAME "{" field { field } "}" [ ";" ]
field      = shape NAME { "[" expr^ "]" } ";"
constant   = "const" shape NAME { "[" [ expr^ ] "]" } "=" init ";"
function   = result NAME "(" [ param { "," param } ] ")" block^
result     = "void" | shape { "[" expr^ "]" }
param      = quals shape NAME { "[" [ expr^ ] "]" } [ "=" init ]
quals      = [ io ] [ level ] | level io
io         = "input" | "output"
level      = "uniform" | "varying"
shape      = "bool" | "int" | "unsigned" [ "int" ] | "half" | "float" | qname
init       = expr | "{" init^ { "," init^ } "}"
block      = "{" { statement^ } "}"
simple     = block | constant | variable | assign ";" | call ";" | return | print | ";"
variable   = shape NAME { "[" [ expr^ ] "]" } [ "=" init ] ";"
assign     = place "=" expr
place      = qname { "[" expr^ "]" | "." NAME }
for_head   = "for" "(" ( for_var | for_assign ";" ) expr^ ";" for_assign ")"
for_var    = shape NAME { "[" [ expr^ ] "]" } [ "=" for_init ] ";"
for_init   = expr^ | "{" init^ { "," init^ } "}"
for_assign = place "=" expr^
return     = "return" [ expr ] ";"
print      = "print" "(" item { "," item } ")" ";"
item       = TEXT | expr^
unary      = ( "-" | "+" | "!" | "~" ) unary^ | postfix
postfix    = primary { "[" expr^ "]" | "." NAME }
primary    = WHOLE | POINT | HALF | "true" | "false" | qname | call | "(" expr^ ")"
call       = qname "(" [ expr^ { "," expr^ } ] ")"
qname      = [ "::" ] NAME { "::" NAME }
"""

# An else as the grammar alone has it: with any if before it.
ANY_ELSE = """
statement  = simple | if | while | for
if         = "if" "(" expr^ ")" statement^ { "else" "if" "(" expr^ ")" statement^ } [ "else" statement^ ]
while      = "while" "(" expr^ ")" statement^
for        = for_head statement^
"""

# An else with the nearest if that can take it, and no if directly after an else as a statement of its own. A shut
# statement is one whose last part can take no else. What stands before an else is shut.
NEAREST_ELSE = """
statement  = other | if
other      = simple | while | for
if         = { "if" "(" expr^ ")" shut^ "else" } "if" "(" expr^ ")" shut^ "else" other^
           | { "if" "(" expr^ ")" shut^ "else" } "if" "(" expr^ ")" statement^
while      = "while" "(" expr^ ")" statement^
for        = for_head statement^
shut       = shut_other | shut_if
shut_other = simple | shut_while | shut_for
shut_if    = { "if" "(" expr^ ")" shut^ "else" } "if" "(" expr^ ")" shut^ "else" shut_other^
shut_while = "while" "(" expr^ ")" shut^
shut_for   = for_head shut^
"""


def chain_rules():
    rules = []
    for level, operators in enumerate(LEVELS):
        tighter = f"expr{level + 1}" if level + 1 < len(LEVELS) else "unary"
        signs = " | ".join(f'"{sign}"' for sign in operators)
        rules.append(f"{'expr' if level == 0 else f'expr{level}'} = {tighter} {{ ( {signs} ) {tighter} }}")
    return "\n".join(rules)


class Grammar:
    """Rules: for each form its ways, each a list of symbols. A symbol is a terminal's name or a form with how much
    deeper it is. What is said by brackets becomes forms without a name of their own."""

    def __init__(self, text):
        self.ways, self.words = {}, []
        pieces = re.findall(r'"[^"]*"|[\w^]+|[=|(){}\[\]]', text)
        starts = [i - 1 for i, piece in enumerate(pieces) if piece == "="] + [len(pieces)]
        for start, end in zip(starts, starts[1:]):
            self.words = pieces[start + 2 : end]
            name = pieces[start]
            self.ways[name] = self.choice(name)
            assert not self.words
        self.needs = {name: NO_LIMIT for name in self.ways}
        while self.settle():
            pass
        self.empty = {name for name in self.ways if self.is_empty(name, set())}

    def choice(self, name):
        ways = [self.sequence(name)]
        while self.words[:1] == ["|"]:
            self.words.pop(0)
            ways.append(self.sequence(name))
        return ways

    def sequence(self, name):
        symbols = []
        while self.words and self.words[0] not in "|)}]":
            symbols.append(self.symbol(name))
        return tuple(symbols)

    def symbol(self, name):
        word = self.words.pop(0)
        if word not in ("(", "[", "{"):
            deeper = word.endswith("^")
            word = word.rstrip("^") if deeper else word
            is_form = re.fullmatch(r"[a-z_0-9]+", word)
            return (word, int(deeper)) if is_form else (word.strip('"'), None)
        made = f"{name}/{len(self.ways)}"
        self.ways[made] = []
        inside = self.choice(name)
        self.words.pop(0)
        if word == "{":
            self.ways[made] = [()] + [((made, 0), *way) for way in inside]
        else:
            self.ways[made] = inside + ([()] if word == "[" else [])
        return made, 0

    def need(self, way):
        """How much deeper than itself a way reaches at least."""
        return max((self.needs[name] + deeper for name, deeper in way if deeper is not None), default=0)

    def settle(self):
        needs = {name: min(map(self.need, ways)) for name, ways in self.ways.items()}
        changed, self.needs = needs != self.needs, needs
        return changed

    def is_empty(self, name, above):
        if name in above:
            return False
        return any(all(d is not None and self.is_empty(s, above | {name}) for s, d in way) for way in self.ways[name])


ANY = Grammar(GRAMMAR + ANY_ELSE + chain_rules())
NEAREST = Grammar(GRAMMAR + NEAREST_ELSE + chain_rules())


def fits(terminal, token):
    if terminal == "ONE":
        return token.kind == "WHOLE" and token.value == 1
    if terminal == "PLAIN":
        return token.kind == "TEXT" and all(32 <= ord(c) <= 126 for c in token.value)
    return terminal == token.kind


class Chart:
    """All rules under way, token by token. An item is a form and its nesting, the way, how far it is read, and where
    it began."""

    def __init__(self, grammar, limit):
        self.grammar, self.limit = grammar, limit
        self.sets, self.waits = [], []
        self.read = set()
        self.fill([(("", 0), (("module", 0),), 0, 0)])

    def fill(self, items):
        """A new set from its first items."""
        place, seen, waits = len(self.sets), set(), {}
        self.sets.append(seen)
        self.waits.append(waits)
        work = list(items)
        while work:
            item = work.pop()
            if item in seen:
                continue
            seen.add(item)
            (name, nesting), way, dot, start = item
            if dot == len(way):
                self.read.add((name, way))
                work += [self.moved(i) for i in self.waits[start].get((name, nesting), [])]
                continue
            symbol, deeper = way[dot]
            if deeper is None:
                continue
            wanted = (symbol, nesting + deeper)
            if wanted not in waits:
                waits[wanted] = []
                work += [(wanted, w, 0, place) for w in self.open_ways(*wanted)]
            waits[wanted].append(item)
            if symbol in self.grammar.empty:
                work.append(self.moved(item))

    def open_ways(self, name, nesting):
        grammar = self.grammar
        return [way for way in grammar.ways[name] if nesting + grammar.need(way) <= self.limit]

    @staticmethod
    def moved(item):
        form, way, dot, start = item
        return form, way, dot + 1, start

    def step(self, token):
        """Reads a token. False where no rule is left."""
        items = [
            self.moved(item)
            for item in self.sets[-1]
            if item[2] < len(item[1]) and item[1][item[2]][1] is None and fits(item[1][item[2]][0], token)
        ]
        if not items:
            return False
        self.fill(items)
        return True

    def is_module(self):
        return (("", 0), (("module", 0),), 1, 0) in self.sets[-1]

    def terminals(self):
        """What may stand next."""
        ways = ((way, dot) for _, way, dot, _ in self.sets[-1] if dot < len(way))
        return {way[dot][0] for way, dot in ways if way[dot][1] is None}


def chart_of(tokens, grammar, limit):
    """The chart, and the first token at which no rule is left, if any."""
    chart = Chart(grammar, limit)
    for at, token in enumerate(tokens):
        if not chart.step(token):
            return chart, at
    return chart, None


def charted(tokens, limit=NO_LIMIT):
    """None for a module within the limit, or the kind and place of the fault."""
    chart, at = chart_of(tokens, ANY, NO_LIMIT)
    if at is None and not chart.is_module():
        at = len(tokens)
    deep, deep_at = chart_of(tokens, NEAREST, limit)
    if deep_at is None and not deep.is_module():
        deep_at = len(tokens)
    if deep_at == at:
        return None if at is None else ("NotHere", at)
    assert at is None or deep_at < at
    return "Depth", deep_at


def verdict(text, limit=LIMIT):
    """What both readers say of a text: its spelling and nesting, or its fault."""
    tokens = lex(text)
    found, second = descend(tokens, limit), charted(tokens, limit)
    agreed = found[0].startswith("(") if second is None else found == second
    assert agreed, f"{text!r}: {found} and {second}"
    return found
