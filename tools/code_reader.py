"""Reads Rattle sources: functions, types, traits and impls, with their clauses and the names in scope there."""
from spec_reader import USE, names_of_use
import re

MARKS = "ghost|unsafe|const|async|default|extern"
ITEM = re.compile(rf"(pub(?:\([^)]*\))?\s+)?((?:(?:{MARKS})\s+)*)(\w+)\s*")
BLANKED = re.compile(r'//[^\n]*|/\*.*?\*/|b?"(?:[^"\\]|\\.)*"|b?\'(?:[^\'\\\n]|\\[^\n]+?)\'', re.S)
WORD = re.compile(r"[A-Za-z_][A-Za-z0-9_]*")
CLAUSE = re.compile(r"\s*(?:requires|ensures)(?:\*)?(?:\s+[A-Za-z_][A-Za-z0-9_]*)?\s*\{")
OPENING = {"(": ")", "[": "]", "{": "}"}


def blanked(text):
    """The text with comments, texts and characters as blanks, so that brackets count."""
    return BLANKED.sub(lambda m: re.sub(r"[^\n]", " ", m[0]), text)


def closing(text, at):
    """The place behind the bracket that closes the one at a place."""
    depth = 0
    for place in range(at, len(text)):
        depth += (text[place] in OPENING) - (text[place] in ")]}")
        if depth == 0:
            return place + 1
    return len(text)


def end_of(text, at, signs):
    """The first place at which one of the signs stands outside brackets."""
    while at < len(text) and text[at] not in signs:
        at = closing(text, at) if text[at] in OPENING else at + 1
    return at


class Item:
    """A function, type, trait, impl or constant: its words, its clauses, and what its ghost use lines bring."""

    def __init__(self, file, kind, name, head, is_public, scope, module):
        self.file, self.kind, self.name, self.head = file, kind, name, head
        self.is_public, self.scope, self.module = is_public, scope, module
        self.clauses, self.ghosts, self.items, self.fields = [], {}, [], ""
        self.uses = {}

    def names_of_types(self):
        return WORD.findall(self.head + self.fields)


class Source:
    """A file of a crate: its items, without its tests."""

    def __init__(self, module, file, text):
        self.module, self.file = module, file
        self.scope, self.uses, self.passed_on, self.children = {}, {}, {}, {}
        self.text = blanked(text)
        self.items = self.read(0, len(self.text), self.scope)

    def read(self, at, past, scope):
        items, is_test = [], False
        while True:
            at += len(self.text[at:past]) - len(self.text[at:past].lstrip())
            if at >= past:
                return items
            attribute = re.match(r"#!?\[", self.text[at:past])
            if attribute:
                behind = closing(self.text, at + attribute.end() - 1)
                is_test = is_test or re.search(r"\btest\b", self.text[at:behind]) is not None
                at = behind
                continue
            item, at = self.read_item(at, past, scope)
            if item and not is_test:
                items.append(item)
            is_test = False

    def read_item(self, at, past, scope):
        words = ITEM.match(self.text, at, past)
        if not words:
            return None, end_of(self.text, at, ";{") + 1
        is_public, marks, kind = (words[1] or "").strip() == "pub", words[2].split(), words[3]
        begin = words.end()
        if "ghost" in marks:
            return self.read_ghost(at, scope)
        if kind == "use":
            return None, self.read_use(begin, is_public)
        if kind == "fn":
            return self.read_function(begin, is_public, scope)
        if kind in ("impl", "trait", "mod"):
            return self.read_block(kind, begin, is_public, scope)
        if kind in ("struct", "enum", "type", "static"):
            return self.read_plain(kind, begin, is_public, scope)
        if "const" in marks:
            return self.read_plain("const", words.start(3), is_public, scope)
        stop = end_of(self.text, at, ";{")
        return None, closing(self.text, stop) if self.text[stop : stop + 1] == "{" else stop + 1

    def read_ghost(self, at, scope):
        stop = end_of(self.text, at, ";")
        text = " ".join(self.text[at:stop].split())
        use = USE.match(text.removeprefix("ghost "))
        if use:
            scope.update(names_of_use(use))
            return None, stop + 1
        named = re.match(r"ghost (\w+)\s*[:=]?", text)
        item = Item(self.file, "ghost", named[1] if named else "", "", True, scope, self.module)
        item.clauses = [text[text.find("{") + 1 : text.rfind("}")]] if "{" in text else []
        return item, stop + 1

    def read_use(self, at, is_public):
        stop = end_of(self.text, at, ";")
        for name, path in paths_of(" ".join(self.text[at:stop].split())):
            self.uses[name] = path
            if is_public:
                self.passed_on[name] = path
        return stop + 1

    def read_function(self, at, is_public, scope):
        name = WORD.match(self.text, at)[0]
        stop = at
        while not CLAUSE.match(self.text, stop) and self.text[stop] not in ";{":
            stop = closing(self.text, stop) if self.text[stop] in "([" else stop + 1
        item = Item(self.file, "fn", name, self.text[at + len(name) : stop], is_public, scope, self.module)
        clause = CLAUSE.match(self.text, stop)
        while clause:
            behind = closing(self.text, clause.end() - 1)
            item.clauses.append(self.text[clause.end() : behind - 1])
            stop = behind
            clause = CLAUSE.match(self.text, stop)
        stop = end_of(self.text, stop, ";{")
        return item, closing(self.text, stop) if self.text[stop : stop + 1] == "{" else stop + 1

    def read_block(self, kind, at, is_public, scope):
        stop = end_of(self.text, at, ";{")
        head = self.text[at:stop].strip()
        name = (WORD.search(head) or [""])[0]
        if self.text[stop] == ";":
            self.children[name] = is_public
            return None, stop + 1
        behind = closing(self.text, stop)
        inner = dict(scope) if kind != "mod" else {}
        item = Item(self.file, kind, name, head, is_public, inner, self.module)
        item.items = self.read(stop + 1, behind - 1, inner)
        item.ghosts = {ghost.name: ghost for ghost in item.items if ghost.kind == "ghost"}
        inner.update({found: path for found, path in scope.items() if found not in inner})
        return item, behind

    def read_plain(self, kind, at, is_public, scope):
        named = WORD.match(self.text, at)
        if not named:
            return None, end_of(self.text, at, ";") + 1
        stop = end_of(self.text, at, ";{=")
        if self.text[stop] == "=":
            stop = end_of(self.text, stop, ";")
        item = Item(self.file, kind, named[0], self.text[named.end() : stop], is_public, scope, self.module)
        if self.text[stop] != "{":
            return item, stop + 1
        behind = closing(self.text, stop)
        item.fields = self.text[stop + 1 : behind - 1]
        return item, behind


def paths_of(text, before=""):
    """The names that a use line brings, each with its path."""
    opened = text.find("{")
    if opened < 0:
        path, _, other = text.strip().partition(" as ")
        name = other.strip() or path.split("::")[-1].strip()
        return [(name, before + path.strip())] if path.strip() else []
    found, start, depth = [], opened + 1, 0
    for at in range(opened + 1, len(text)):
        if text[at] in ",}" and depth == 0:
            found += paths_of(text[start:at], before + text[:opened].strip())
            start = at + 1
        depth += (text[at] == "{") - (text[at] == "}")
    return found
