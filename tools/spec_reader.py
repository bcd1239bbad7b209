"""Reads files of definitions: what each one is named, what it says, and which names it rests on.

It works on the text, by the layout that `rt fmt` gives: an item begins at the left edge, or two blanks further in where
it stands under `mutual` or in a module with parameters.
"""
import re

NAME = r"(?:[^\s(){}\[\];,@\".«»]+|«[^»]*»)"
TEXT, PROJECTION = r'"(?:[^"\\\n]|\\.)*"', rf"(?<=[)\]}}])(?:\.{NAME})+"
TOKEN = re.compile(rf"{TEXT}|{PROJECTION}|(?P<token>{NAME}(?:\.{NAME})*|[(){{}}\[\];,@.])")
MARKS = "pattern|unfoldable|abbrev|axiom|pub|record|data"
HEAD = re.compile(
    rf"(?P<indent> *)(?P<marks>(?:(?:{MARKS}) )*)(?P<name>{NAME})(?: \{{[^}}:]*\}})?"
    r"(?P<binders>(?: [({].*)?) :(?: |$)"
)
USE = re.compile(r"^(?P<pub>pub )?use (?P<path>[^\s{]+?)(?:\.\{(?P<items>[^}]*)\}| as (?P<name>\S+))?$")
SIGNS = {"→", "×", "↦", "=", "|", ":", "←", "λ", "let", "in", "do", "record", "Type", "where", "_", "∀"}


def without_comments(text):
    text = re.sub(r"\{-.*?-\}", "", text, flags=re.S)
    return "\n".join(re.sub(r"(^|[\s(){}])--.*", r"\1", line) for line in text.split("\n"))


def head_of(line, indent):
    """The head of an item that begins with the line, if one does."""
    head = HEAD.match(line)
    is_head = head and len(head["indent"]) == indent and (head["marks"] or not head["binders"])
    return head if is_head and head["name"] not in SIGNS else None


class Definition:
    """A definition of specs/, with its text and the comment above it."""

    def __init__(self, module, head, comment):
        marks = head["marks"].split()
        self.module, self.name = module, head["name"]
        self.kind = next((mark for mark in marks if mark in ("record", "data")), "function")
        self.is_public = "pub" in marks
        self.comment, self.lines = " ".join(comment), [head.string]
        self.constructors = []


class Module:
    """A file of definitions: its names, and what the names of others mean in it."""

    def __init__(self, path, file, text):
        self.path, self.file = path, file
        self.definitions, self.children, self.uses, self.passed_on = {}, {}, {}, {}
        self.read_header(text)
        self.read_definitions(text.split("\n"))
        for definition in self.definitions.values():
            self.read_constructors(definition)

    def read_header(self, text):
        joined = re.sub(r"\{[^}]*\}", lambda m: m[0].replace("\n", " "), without_comments(text))
        for line in joined.split("\n"):
            child = re.match(r"(pub )?mod (\S+)$", line.strip())
            if child and not line.startswith(" "):
                self.children[child[2]] = bool(child[1])
            use = USE.match(line.rstrip())
            if use:
                names = names_of_use(use)
                self.uses.update(names)
                if use["pub"]:
                    self.passed_on.update(names)

    def read_definitions(self, lines):
        current, comment, indents = None, [], [0]
        for line in lines:
            depth = len(line) - len(line.lstrip())
            while line.strip() and indents[-1] > depth:
                indents.pop()
            if depth == indents[-1] and line.strip().startswith(("mutual", "module _")):
                indents.append(depth + 2)
                current, comment = None, []
                continue
            indent = indents[-1]
            head = head_of(line, indent)
            is_comment = re.match(r" *--", line) and len(line) - len(line.lstrip()) <= indent
            if head:
                current = Definition(self, head, comment)
                self.definitions.setdefault(current.name, current)
            elif is_comment:
                comment.append(line.strip().lstrip("- "))
                continue
            elif line.startswith("infix"):
                continue
            elif re.match(r"(pub )?(use|mod) ", line):
                current = None
            elif line.strip() and current:
                current.lines.append(line)
            comment = []

    def read_constructors(self, definition):
        for line in definition.lines[1:] if definition.kind == "data" else []:
            found = re.match(rf" +({NAME}(?: {NAME})*) : ", line)
            if found and not found[1].startswith("--"):
                definition.constructors += found[1].split()


def names_of_use(use):
    """What a use line brings: for each name the path that it stands for."""
    path = use["path"]
    if use["items"] is None:
        return {use["name"] or path.split(".")[-1]: path}
    brought = {}
    for item in filter(None, (item.strip() for item in use["items"].split(","))):
        name, _, other = item.partition(" as ")
        brought[(other or name.split(".")[-1]).strip()] = f"{path}.{name.strip()}"
    return brought


def tokens_of(text):
    """The names and signs of a term. A path is one token; a projection behind a bracket is left out, as are texts."""
    tokens = (match["token"] for match in TOKEN.finditer(without_comments(text)))
    return [token.replace("«", "").replace("»", "") for token in tokens if token]


def binders_of(tokens):
    """The names that a term binds: those before a colon in brackets, and those of λ, let and ←."""
    bound = set()
    for at, token in enumerate(tokens):
        if token in ("(", "{"):
            past = at + 1
            while past < len(tokens) and is_name(tokens[past]):
                past += 1
            if tokens[past : past + 1] == [":"]:
                bound.update(tokens[at + 1 : past])
        elif token == "λ":
            bound.update(plain_names(tokens, at + 1, "."))
        elif token == "let":
            bound.update(plain_names(tokens, at + 1, "="))
        elif token == "←" and is_name(tokens[at - 1]):
            bound.add(tokens[at - 1])
    return bound


def plain_names(tokens, at, last):
    """The names up to a sign, but for those behind a colon in brackets."""
    depth, is_type = 0, False
    while at < len(tokens) and not (tokens[at] == last and depth == 0):
        token = tokens[at]
        depth += (token in "({") - (token in ")}")
        if token == ":":
            is_type = True
        elif token in (")", "}"):
            is_type = False
        elif is_name(token) and not is_type:
            yield token
        at += 1


def is_name(token):
    return token not in SIGNS and token not in "(){}[];,@." and not token[0].isdigit()


def labels_of(tokens):
    """The places of names that are labels: `f =` after a brace or a semicolon."""
    return {at for at, token in enumerate(tokens[1:-1], 1) if tokens[at - 1] in ("{", ";") and tokens[at + 1] == "="}


def names_in(tokens, bound):
    """The names of a term that are not bound in it, in their order, and `do` where it binds."""
    bound = bound | binders_of(tokens)
    labels = labels_of(tokens)
    for at, token in enumerate(tokens):
        if token == "do":
            yield from (">>=", ">>")
        elif is_name(token) and at not in labels and token.split(".")[0] not in bound:
            yield token


def pieces_of(definition, is_constructor):
    """The parts of a definition that bind names for themselves alone: each with its tokens and the bound names."""
    lines = without_comments("\n".join(definition.lines)).split("\n")
    indent = len(lines[0]) - len(lines[0].lstrip())
    starts = [at for at, line in enumerate(lines) if line.strip() and is_start(definition, line, indent, at)]
    outer = set()
    for start, past in zip(starts, starts[1:] + [len(lines)]):
        tokens = tokens_of("\n".join(lines[start:past]))
        if start == 0:
            outer = binders_of(tokens) if definition.kind != "function" else set()
            tokens = tokens[tokens.index(definition.name) + 1 :]
            yield tokens, set()
        elif definition.kind == "function":
            head = tokens[: left_side(tokens)]
            yield tokens, {token for token in head if is_name(token) and not is_constructor(token)} - {definition.name}
        else:
            label = [token for token in tokens[: tokens.index(":")] if token != "pub"] if ":" in tokens else []
            yield tokens, outer | set(label)
            if definition.kind == "record":
                outer = outer | set(label)


def is_start(definition, line, indent, at):
    blanks = len(line) - len(line.lstrip())
    if at == 0 or definition.kind == "function":
        return blanks == indent
    return blanks == indent + 2


def left_side(tokens):
    depth = 0
    for at, token in enumerate(tokens):
        depth += (token in "({[") - (token in ")}]")
        if token == "=" and depth == 0:
            return at
    return 0
