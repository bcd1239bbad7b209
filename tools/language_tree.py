"""The tree of a module, as the reader of the grammar spells it.

The descent of grammar_reader.py writes a module as nested brackets, `(name@token part ..)`. Here that spelling is read
back into forms, so that checker and evaluator look at a tree. The spelling of each form:

    (module import|definition ..)                     (import@T "text")
    (namespace@T name definition ..)                  (struct@T name field ..)
    (field@T shape name size ..)                      (size@T [expression])
    (const@T shape name size .. init)                 (function@T void|result name param .. block)
    (result shape size ..)                            (param@T [io] [level] shape name size .. [init])
    (bool@T) (int@T) (unsigned@T) (half@T) (float@T)  (named@T (name@T qualified))
    (list@T init ..)                                  (block@T statement ..)
    (variable@T shape name size .. [init])            (assign@T place expression)
    (place (name@T ..) step ..)                       (if@T arm .. [(else statement)])
    (arm expression statement)                        (while@T expression statement)
    (for@T start expression assign statement)         (return@T [expression])
    (print@T item ..)                                 (text@T "text")
    (empty@T)                                         (chain@T first (operator@T operand) ..)
    (minus@T operand), and plus, not, bitnot          (path root step ..)
    (index@T expression)  (dot@T name)                (whole@T value) (point@T raw) (halfpoint@T raw) (truth@T word)
    (name@T qualified)                                (call@T (name@T ..) argument ..)
"""
import re

from grammar_reader import LIMIT, descend, lex

PIECE = re.compile(r'\(|\)|"[^"]*"|[^\s()"]+')


class Form:
    """A form: its name, its own token, and its parts, which are forms or words. What has no own token has the one of
    its last part, where that is a form."""

    def __init__(self, name, own, parts):
        self.name, self.parts = name, parts
        self.own = own if own is not None else next((p.own for p in reversed(parts) if isinstance(p, Form)), None)

    def forms(self, *names):
        return [part for part in self.parts if isinstance(part, Form) and part.name in names]

    def words(self):
        return [part for part in self.parts if not isinstance(part, Form)]


def form_of(spelling):
    """The form that a spelling in brackets stands for."""
    open_forms = [[]]
    for piece in PIECE.findall(spelling):
        if piece == "(":
            open_forms.append([])
        elif piece == ")":
            head, *parts = open_forms.pop()
            name, _, own = head.partition("@")
            open_forms[-1].append(Form(name, int(own) if own else None, parts))
        else:
            open_forms[-1].append(piece)
    (only,) = open_forms[0]
    return only


class Module:
    """A text that is read: its name, its tokens and its tree."""

    def __init__(self, name, text):
        spelling, fault_at = descend(lex(text), LIMIT)
        if not spelling.startswith("("):
            raise ValueError(f"{name}: {spelling} at token {fault_at} of {text!r}")
        self.name, self.text, self.tokens, self.tree = name, text, lex(text), form_of(spelling)

    def line_of(self, token):
        return self.tokens[token].line
