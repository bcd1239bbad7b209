"""The definitions and the code of all crates of the repository, and what each clause and definition reaches."""
from pathlib import Path
import re

from code_reader import Source, WORD
from spec_reader import Module, is_name, names_in, pieces_of, tokens_of

TOP = Path(__file__).resolve().parent.parent
TYPES = ("struct", "enum", "trait", "type")


def crate_names():
    """The crates in the order of crates.txt."""
    lines = (line.split("#")[0] for line in (TOP / "crates.txt").read_text().split("\n"))
    return [line.split(":")[0].split()[0] for line in lines if ":" in line]


def module_path(crate, folder, file, root):
    parts = list(file.relative_to(folder).with_suffix("").parts)
    if parts[-1] in root:
        parts.pop()
    return parts


class Call:
    """A public call, trait or impl: its name, the item that carries the clauses, and the crate."""

    def __init__(self, name, crate, items):
        self.name, self.crate, self.items = name, crate, items


class Repository:
    def __init__(self):
        self.crates = crate_names()
        self.modules, self.sources, self.types, self.models = {}, {}, {}, {}
        self.constants, self.names_passed_on = {}, {}
        for crate in self.crates:
            self.read_specs(crate)
            self.read_code(crate)

    def read_specs(self, crate):
        folder = TOP / "crates" / crate / "specs"
        for file in sorted(folder.rglob("*.antt")):
            path = ".".join(["Rattle", crate, "specs", *module_path(crate, folder, file, ("Lib",))])
            self.modules[path] = Module(path, file.relative_to(TOP), file.read_text())

    def read_code(self, crate):
        folder = TOP / "crates" / crate / "src"
        self.sources[crate] = []
        for file in sorted(folder.rglob("*.rt")):
            path = module_path(crate, folder, file, ("lib", "main", "mod"))
            self.sources[crate].append(Source(path, file.relative_to(TOP), file.read_text()))
        for source in self.sources[crate]:
            for item in items_below(source.items):
                item.crate, item.uses = crate, source.uses
                if item.kind in TYPES:
                    self.types.setdefault((crate, item.name), []).append(item)
                elif item.kind in ("const", "static"):
                    self.constants.setdefault((crate, item.name), item)
                elif item.kind == "impl" and impl_of(item.head)[0] == "Model":
                    self.models[crate, impl_of(item.head)[1]] = item

    # What a path of a contract or a definition stands for

    def node_of(self, path):
        """The definition or the item of the code that a path names, or None."""
        parts = path.split(".")
        if parts[:1] != ["Rattle"] or len(parts) < 3 or parts[1] not in self.crates:
            return None
        if parts[3:4] == ["declared"]:
            return self.declared(parts[1], parts[4:])
        for count in range(len(parts), 2, -1):
            module = self.modules.get(".".join(parts[:count]))
            if module:
                return self.member(module, parts[count:])
        return None

    def member(self, module, names):
        if not names:
            return None
        if names[0] in module.definitions:
            return module.definitions[names[0]]
        if names[0] in module.passed_on:
            return self.node_of(".".join([module.passed_on[names[0]], *names[1:]]))
        return next((d for d in module.definitions.values() if names[0] in d.constructors), None)

    def declared(self, crate, parts):
        """The type or constant of the code that a path below `declared` names."""
        if "TheConstants" in parts:
            return self.constants.get((crate, parts[parts.index("TheConstants") + 1]))
        at = next((at for at, part in enumerate(parts) if part[0].isupper()), None)
        found = self.types.get((crate, parts[at]), []) if at is not None else []
        return next((item for item in found if item.module == parts[:at]), found[0] if found else None)

    def type_of(self, item, name):
        """The type or trait of the repository that a name of the code means where the item stands."""
        own = [t for t in self.types.get((item.crate, name), []) if t.file == item.file]
        if own:
            return own[0]
        path = item.uses.get(name)
        if path is None:
            found = self.types.get((item.crate, name), []) if "*" in item.uses else []
            return found[0] if len(found) == 1 else None
        crate = path.split("::")[0]
        crate, last = (item.crate if crate in ("crate", "super", "self") else crate), path.split("::")[-1]
        found = self.types.get((crate, last), [])
        return next((t for t in found if t.is_public), found[0] if found else None)

    def resolve(self, token, scope, module=None):
        first, *rest = token.split(".")
        if module and first in module.definitions:
            return module.definitions[first]
        if first in scope:
            return self.node_of(".".join([scope[first], *rest]))
        if module:
            return next((d for d in module.definitions.values() if first in d.constructors), None)
        return self.node_of(token)

    # What each thing reaches

    def reached_by(self, node):
        """The definitions and items of the code that a node names, in the order of its text."""
        if hasattr(node, "definitions_below"):
            return node.definitions_below
        found = self.of_definition(node) if hasattr(node, "lines") else self.of_code(node)
        node.definitions_below = list(dict.fromkeys(other for other in found if other and other is not node))
        return node.definitions_below

    def of_definition(self, definition):
        module = definition.module
        operators = operators_of({**module.uses, **module.definitions})

        def is_constructor(token):
            node = self.resolve(token, module.uses, module)
            name = module.uses.get(token, token).split(".")[-1]
            return node is not None and (not hasattr(node, "lines") or name in node.constructors)

        for tokens, bound in pieces_of(definition, is_constructor):
            for name in names_in(tokens, bound):
                yield self.resolve(operators.get(name, name), module.uses, module)

    def of_code(self, item):
        if item.kind in ("const", "static"):
            return
        if item.kind == "trait":
            for member in item.items:
                yield from self.of_item(member, set(item.ghosts))
            return
        model = self.models.get((item.crate, item.name))
        if model and "Value" in model.ghosts:
            yield from self.of_clauses(model.ghosts["Value"], set())
        else:
            yield from self.of_types(item)

    def of_item(self, item, bound=frozenset()):
        """What the clauses of a function reach, and then the types and traits of its head."""
        yield from self.of_clauses(item, bound | parameters_of(item.head))
        yield from self.of_types(item)
        for member in item.items:
            yield from self.of_item(member, bound)

    def of_clauses(self, item, bound):
        operators = operators_of(item.scope)
        for clause in item.clauses:
            for name in names_in(tokens_of(clause), set(bound)):
                node = self.resolve(operators.get(name, name), item.scope)
                yield node or self.type_of(item, name.split(".")[0])

    def of_types(self, item):
        for name in item.names_of_types():
            yield self.type_of(item, name)

    def order_of_reading(self, items):
        """All that the items reach, breadth first, each with how many steps it is away."""
        steps, front, count = {}, [node for item in items for node in self.of_item(item) if node], 1
        while front:
            fresh = [node for node in dict.fromkeys(front) if node not in steps]
            steps.update((node, count) for node in fresh)
            front = [other for node in fresh for other in self.reached_by(node)]
            count += 1
        return steps

    # The public calls

    def calls(self):
        return [call for crate in self.crates for call in self.calls_of(crate)]

    def calls_of(self, crate):
        for source in self.sources[crate]:
            for item in source.items:
                if item.kind in ("fn", "trait") and self.is_public(item):
                    yield Call(f"{crate}::{item.name}", crate, [item])
                elif item.kind == "impl":
                    yield from self.calls_of_impl(crate, item)

    def calls_of_impl(self, crate, item):
        trait, name = impl_of(item.head)
        if trait == "Model" or not any(map(self.is_public, self.types.get((crate, name), []))):
            return
        if trait:
            yield Call(f"{crate}::{name} as {trait}", crate, item.items)
            return
        for member in item.items:
            if member.kind == "fn" and member.is_public:
                yield Call(f"{crate}::{name}::{member.name}", crate, [member])

    def is_public(self, item):
        """Whether other crates can name an item: by its module, or by a name that an open module passes on."""
        is_open = self.is_open(item.crate, item.module)
        return item.is_public and (is_open or item.name in self.passed_on(item.crate))

    def passed_on(self, crate):
        if crate not in self.names_passed_on:
            found = (source.passed_on for source in self.sources[crate] if self.is_open(crate, source.module))
            self.names_passed_on[crate] = {name for names in found for name in names}
        return self.names_passed_on[crate]

    def is_open(self, crate, module):
        """Whether each module on the way to a module is public."""
        for count in range(len(module)):
            parent = next((s for s in self.sources[crate] if s.module == module[:count]), None)
            if not parent or not parent.children.get(module[count]):
                return False
        return True

    def exported(self, crate):
        """The definitions that the crate's specs/Lib.antt lets others name."""
        found, front = [], [f"Rattle.{crate}.specs"]
        while front:
            module = self.modules.get(front.pop(0))
            if module:
                found += [d for d in module.definitions.values() if d.is_public]
                front += [f"{module.path}.{name}" for name, is_public in module.children.items() if is_public]
        return found


def items_below(items):
    for item in items:
        yield item
        yield from items_below(item.items)


def impl_of(head):
    """The names of the trait, if any, and of the type of an impl."""
    if head.startswith("<"):
        depth = 0
        for at, sign in enumerate(head):
            depth += (sign == "<") - (sign == ">" and head[at - 1] != "-")
            if depth == 0:
                head = head[at + 1 :]
                break
    before, is_trait, behind = head.split(" where ")[0].partition(" for ")
    last = [WORD.findall(re.sub(r"<.*", "", part)) for part in (before, behind)]
    return (last[0][-1], last[1][-1] if last[1] else "") if is_trait else (None, last[0][-1] if last[0] else "")


def parameters_of(head):
    return set(re.findall(r"(\w+)\s*:(?!:)", head)) | {"result", "self"}


def operators_of(names):
    """Each part of an operator that is written between its arguments, with the operator's whole name."""
    return {part: name for name in names if "◌" in name for part in name.split("◌") if part and is_name(part)}
