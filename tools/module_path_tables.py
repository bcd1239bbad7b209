#!/usr/bin/env python3
"""Prints sets of files, each with a path and a call that fails, and what loading r.ctl comes to.

A row is the path, the number of the call that fails or 0, the files with their texts, the number of calls, and the
answer: the files of the loaded units in their order, or the refusal. The answers are computed from the rules, without
the program: an import is passed over where it is loaded, a cycle where it is being loaded, too many where it would be
the 65th module with the root, and else the file folder/N.ctl in the first folder that holds one.

The texts are imports, one a line, and perhaps one broken word or a function behind them. So each has its tokens and
its fault without a lexer: an import is three tokens.
"""

MODULES = 64
BROKEN = {
    '@': ('Lex', 'NoToken'),
    '"ab': ('Lex', 'OpenText'),
    '/*': ('Lex', 'OpenComment'),
    '1x': ('Lex', 'Literal'),
    'void': ('Syntax', 'NotHere'),
    'import': ('Syntax', 'NotHere'),
    'import ;': ('Syntax', 'NotHere'),
}
TOKENS = {'void': 1, 'import': 1, 'import ;': 1}        # the place of the fault behind the imports
WHOLE = 'void f() { }'


class Refused(Exception):
    pass


def named(text):
    return f'TextArg {{ text: "{text}" }}'


def text_of(names, tail=''):
    return ''.join(f'import "{name}";\n' for name in names) + tail


def read(file, names, tail=''):
    """The imports of a text, or its fault."""
    if tail not in BROKEN:
        return names
    kind, which = BROKEN[tail]
    at = len(text_of(names)) if kind == 'Lex' else 3 * len(names) + TOKENS[tail]
    line = 1 + len(names)
    raise Refused(f'{kind} {{ file: {named(file)}, at: {at}, line: {line}, kind: {which} }}')


class Box:
    def __init__(self, files, failing):
        self.files, self.failing, self.calls = files, failing, 0

    def fetch(self, file):
        self.calls += 1
        if self.calls == self.failing:
            raise Refused(f'ReadFault {{ name: {named(file)} }}')
        return self.files.get(file)


def load(box, path):
    folders = [folder for folder in path.split(':') if folder]
    loaded, loading, units = set(), [], []

    def text(file, content):
        for name in read(file, *content):
            one(file, name)
        units.append(file)

    def one(file, name):
        if name in loaded:
            return
        if name in loading:
            raise Refused(f'Cycle {{ file: {named(file)}, name: {named(name)} }}')
        if 1 + len(loaded) + len(loading) == MODULES:
            raise Refused(f'TooMany {{ file: {named(file)} }}')
        for folder in folders:
            found = f'{folder}/{name}.ctl'
            content = box.fetch(found)
            if content is not None:
                loading.append(name)
                text(found, content)
                loaded.add(loading.pop())
                return
        raise Refused(f'NotFound {{ name: {named(name)} }}')

    root = box.fetch('r.ctl')
    if root is None:
        raise Refused(f'NotFound {{ name: {named("r.ctl")} }}')
    text('r.ctl', root)
    return ' '.join(['Loaded'] + units)


def row(path, files, failing=0):
    box = Box(files, failing)
    try:
        answer = load(box, path)
    except Refused as refused:
        answer = str(refused)
    held = [(file, text_of(*content)) for file, content in files.items()]
    return path, failing, held, box.calls, answer


def quoted(text):
    return '"' + text.replace('\\', '\\\\').replace('"', '\\"').replace('\n', '\\n') + '"'


def table(name, comment, rows):
    print(f'// {comment}\npub(super) static {name}: [Case; {len(rows)}] = [')
    for path, failing, held, calls, answer in rows:
        files = ', '.join(f'({quoted(file)}, {quoted(text)})' for file, text in held)
        print(f'    ({quoted(path)}, {failing}, &[{files}], {calls}, {quoted(answer)}),')
    print('];\n')


def of(root, **modules):
    """The root and modules of the folder p, each by its imports."""
    files = {'r.ctl': (root,)}
    files.update({f'p/{name}.ctl': (imports,) for name, imports in modules.items()})
    return files


def many(is_star, count, last):
    """M1 to as many modules, in a chain or all imported by the root, with the text of the last, as a row of MANY."""
    names = [f'M{k}' for k in range(1, count + 1)]
    after = [[]] * count if is_star else [[name] for name in names[1:]] + [[]]
    files = of(names if is_star else ['M1'], **dict(zip(names, after)))
    files[f'p/{names[-1]}.ctl'] = (last,)
    _, _, _, calls, answer = row('p', files)
    if answer.startswith('Loaded'):
        answer = f'Loaded {len(answer.split()) - 1}'
    return is_star, count, text_of(last), calls, answer


AB = {'p/A.B.ctl': ([],), 'q/A.B.ctl': ([],)}
FOUND = {'r.ctl': (['A'],), 'q/A.ctl': ([],)}
BOTH = {'r.ctl': (['A'],), 'p/A.ctl': (['B'],), 'q/A.ctl': (['C'],), 'q/B.ctl': ([],), 'p/C.ctl': ([],)}
DIAMOND = of(['A', 'B'], A=['C'], B=['C'], C=[])

ORDER = [
    row('p', of([])),
    row('p', {}),
    row('', of([])),
    row('p', of(['A'], A=[])),
    row('p', of(['A', 'B'], A=[], B=[])),
    row('p', of(['B', 'A'], A=[], B=[])),
    row('p', of(['A', 'A'], A=[])),
    row('p', of(['A', 'B', 'A'], A=[], B=['A'])),
    row('p', DIAMOND),
    row('p', of(['A', 'B', 'C'], A=['C'], B=['C'], C=[])),
    row('p', of(['C', 'B', 'A'], A=['C'], B=['C'], C=[])),
    row('p', of(['A'], A=['B', 'C'], B=['D'], C=['D'], D=['E'], E=[])),
    row('p', of(['A', 'D'], A=['B'], B=['C'], C=['D'], D=[])),
    row('p', {'r.ctl': ([], WHOLE)}),
    row('p', {'r.ctl': (['A'], WHOLE), 'p/A.ctl': ([], WHOLE)}),
    row('p', {'r.ctl': (['r'],), 'p/r.ctl': ([],)}),
    row('.', {'r.ctl': (['A'],), './A.ctl': ([],)}),
]

FOLDERS = [
    row('p:q', {'r.ctl': (['A.B'],), **AB}),
    row('q:p', {'r.ctl': (['A.B'],), **AB}),
    row('p:q', FOUND),
    row('q:p', FOUND),
    row('q', FOUND),
    row('p', FOUND),
    row('', FOUND),
    row(':', FOUND),
    row(':::', FOUND),
    row('::p::q::', FOUND),
    row(':q', FOUND),
    row('q:', FOUND),
    row('p:p:q', FOUND),
    row('p:q:a', FOUND),
    row('p:q', BOTH),
    row('q:p', BOTH),
    row('p:q:s', {'r.ctl': (['A', 'B', 'C'],), 'p/C.ctl': ([],), 'q/B.ctl': ([],), 's/A.ctl': ([],)}),
    row('p:q:s', {'r.ctl': (['A'],), 'p/B.ctl': ([],), 'q/B.ctl': ([],)}),
    row('a/b', {'r.ctl': (['c'],), 'a/b/c.ctl': ([],)}),
    row('a', {'r.ctl': (['b/c'],), 'a/b/c.ctl': ([],)}),
    row('a', {'r.ctl': ([''],), 'a/.ctl': ([],)}),
    row('a b', {'r.ctl': (['c d'],), 'a b/c d.ctl': ([],)}),
    row('p', {'A.ctl': ([],), 'p/A': ([],), 'r.ctl': (['A'],)}),
]

CYCLES = [
    row('p', of(['A'], A=['A'])),
    row('p', of(['A'], A=['B'], B=['A'])),
    row('p', of(['A'], A=['B'], B=['C'], C=['A'])),
    row('p', of(['A'], A=['B'], B=['C'], C=['B'])),
    row('p', of(['A'], A=['B'], B=['C'], C=['C'])),
    row('p', of(['B', 'A'], A=['B', 'A'], B=[])),
    row('p', of(['A'], A=['C', 'B'], B=['A'], C=[])),
    row('p:q', {'r.ctl': (['A'],), 'p/A.ctl': (['B'],), 'q/B.ctl': (['A'],)}),
    row('p', {'r.ctl': (['r'],), 'p/r.ctl': (['r'],)}),
]

REFUSED = [
    row('p', {'r.ctl': (['A'],)}),
    row('p', of(['A', 'B'], B=[])),
    row('p', of(['A', 'B'], A=[])),
    row('p', of(['A', 'B'], A=['C'], B=[])),
    row('p', {'r.ctl': ([], '@')}),
    row('p', {'r.ctl': ([], 'void')}),
    row('p', {'r.ctl': (['A'], '@'), 'p/A.ctl': ([],)}),
    row('p', {'r.ctl': (['A'], 'void'), 'p/A.ctl': ([], '@')}),
    row('p', {'r.ctl': (['A', 'B'],), 'p/A.ctl': ([], '@'), 'p/B.ctl': ([],)}),
    row('p', {'r.ctl': (['A', 'B'],), 'p/A.ctl': ([],), 'p/B.ctl': ([], '@')}),
    row('p', {'r.ctl': (['A', 'B'],), 'p/A.ctl': ([], 'void'), 'p/B.ctl': ([], '@')}),
    row('p', {'r.ctl': (['A', 'B'],), 'p/A.ctl': (['C'],), 'p/B.ctl': ([], '@'), 'p/C.ctl': (['B'], '1x')}),
    row('p', {'r.ctl': (['A'],), 'p/A.ctl': (['C', 'B'], '"ab'), 'p/B.ctl': ([],), 'p/C.ctl': ([],)}),
    row('p', {'r.ctl': (['A'],), 'p/A.ctl': (['C', 'B'], '/*'), 'p/B.ctl': ([],), 'p/C.ctl': ([],)}),
    row('p', {'r.ctl': (['A'],), 'p/A.ctl': (['B'], 'import'), 'p/B.ctl': ([],)}),
    row('p', {'r.ctl': (['A'],), 'p/A.ctl': (['B'], 'import ;'), 'p/B.ctl': ([],)}),
    row('p', {'r.ctl': (['A', 'X'],), 'p/A.ctl': ([], 'void')}),
    row('p', {'r.ctl': (['X', 'A'],), 'p/A.ctl': ([], 'void')}),
    row('p', {'r.ctl': (['A'],), 'p/A.ctl': (['A'], '@')}),
    row('p:q', {'r.ctl': (['A'],), 'p/A.ctl': ([], '@'), 'q/A.ctl': ([],)}),
]

MANY = [
    many(False, 63, []),
    many(False, 64, []),
    many(False, 63, ['M1']),
    many(False, 63, ['M64']),
    many(True, 63, []),
    many(True, 64, []),
    many(True, 63, ['M64']),
    many(True, 63, ['M1']),
    many(True, 62, ['M63']),
]

FAILING = (
    [row('p:q', FOUND, k) for k in range(5)]
    + [row('p', DIAMOND, k) for k in range(1, 6)]
    + [row('p:q', BOTH, k) for k in range(1, 6)]
    + [row('p', of(['A'], A=['A']), k) for k in range(1, 4)]
    + [row('p:q', {'r.ctl': (['A'],)}, k) for k in range(1, 5)]
)

print('file: crates/text_rows/src/modules/tables.rt')
print('//! Printed by tools/module_path_tables.py.\n')
print('use super::{Case, Many};\n')
table('ORDER', 'Modules after their imports, these in order, each once.', ORDER)
table('FOLDERS', 'The first folder of the path that holds a module.', FOLDERS)
table('CYCLES', 'Modules that are being loaded already.', CYCLES)
table('REFUSED', 'The first refusal that is met.', REFUSED)
print(f'// The 64th and the 65th module.\npub(super) static MANY: [Many; {len(MANY)}] = [')
for is_star, count, last, calls, answer in MANY:
    print(f'    ({str(is_star).lower()}, {count}, {quoted(last)}, {calls}, {quoted(answer)}),')
print('];\n')
table('FAILING', 'Each call failing in turn.', FAILING)
