#!/usr/bin/env python3
"""Modules, faulty texts and nestings as the program grammar_rows reads them, and what it must say of them, from the
readers of grammar_reader.py.

    tools/grammar_rows_tables.py                          prints both by the descent, as check_tables reads them
    tools/grammar_rows_tables.py check [COUNT [SEED]]     compares both readers: on each line, on each text within each
                                                          limit, and on lists of tokens made from the texts

The texts stand in grammar_texts.py.
"""
import random
import sys
from functools import lru_cache

sys.dont_write_bytecode = True

from grammar_reader import (
    ANY, KEYWORDS, LIMIT, NEAREST, NO_LIMIT, SIGNS, Chart, chart_of, charted, descend, end_line, fits, lex, verdict,
)
from grammar_texts import MODULES, REFUSED, STAGES, WAYS

# Whether what is printed is compared with what the second reader says.
BOTH = False


# ---- the comparison of the two readers


def module_texts():
    return [text for groups in MODULES.values() for _, texts in groups for text in texts]


SAMPLES = KEYWORDS + SIGNS + ["a", "1", "2", "0.5", "0.5h", '"t"', '"\\n"']


def mangled(rng, tokens):
    """The tokens after up to three cuts, insertions, omissions, changes and repetitions."""
    tokens = list(tokens)
    for _ in range(rng.randint(0, 3)):
        at = rng.randrange(len(tokens) + 1)
        kind = rng.randrange(5)
        if kind == 0:
            tokens = tokens[:at]
        elif kind == 1:
            tokens.insert(at, lex(rng.choice(SAMPLES))[0])
        elif kind == 2 and at < len(tokens):
            del tokens[at]
        elif kind == 3 and at < len(tokens):
            tokens[at] = lex(rng.choice(SAMPLES))[0]
        elif kind == 4 and at < len(tokens):
            other = rng.randrange(len(tokens))
            tokens[at:at] = tokens[min(at, other) : max(at, other) + 1]
    return tokens


def compare(tokens, limit):
    """The fault of a list of tokens, None where it spells a module. Where both readers are asked, they must agree."""
    found = descend(tokens, limit)
    fault = None if found[0].startswith("(") else found
    if BOTH:
        second = charted(tokens, limit)
        assert fault == second, f"{' '.join(t.span for t in tokens)!r} within {limit}: {found} and {second}"
    return fault


def check(count, seed):
    global BOTH
    BOTH = True
    for _ in lines():
        pass
    texts = module_texts() + STAGES
    kinds = {}
    for text in texts:
        assert verdict(text)[0].startswith("("), text
        for limit in range(descend(lex(text))[1] + 1):
            compare(lex(text), limit)
    rng = random.Random(seed)
    for _ in range(count):
        tokens = mangled(rng, lex(rng.choice(texts)))
        for limit in (LIMIT, rng.randrange(8)):
            found = compare(tokens, limit)
            kind = "module" if found is None else found[0]
            kinds[kind] = kinds.get(kind, 0) + 1
    print(f"{len(texts)} modules, and {count} lists of tokens made from them: {kinds}")
    coverage(texts)


def coverage(texts):
    """Says which ways of the grammar no text reads."""
    read = set()
    for text in texts:
        chart, _ = chart_of(lex(text), ANY, NO_LIMIT)
        read |= chart.read
    ways = {(name, way) for name, ways in ANY.ways.items() for way in ways}
    for name, way in sorted(ways - read, key=str):
        print(f"not read: {name} = {way}")
    print(f"{len(ways & read)} of {len(ways)} ways of the grammar are read")


# ---- the lines, each with what is said of it


def escaped(text):
    """A text as a part of a line: a byte that is not printable, a `\\` and a `$` as a `\\` and two hexadecimal digits."""
    return "".join(chr(b) if 32 <= b < 127 and b not in b"\\$" else f"\\{b:02x}" for b in text.encode())


def repeated(head, times, opening, core="", closing="", tail=""):
    """A text in which pieces are repeated, as a line has it."""
    parts = [escaped(head), str(times), escaped(opening), escaped(core)]
    if closing:
        parts += [str(times), escaped(closing), escaped(tail)]
    else:
        parts[-1] += escaped(tail)
    return "$".join(parts)


def fault_line(text, kind, at):
    """A fault in words."""
    tokens = lex(text)
    line = tokens[at].line if at < len(tokens) else end_line(text)
    return f"{'too deep' if kind == 'Depth' else 'not here'}: token {at}, line {line}"


def spelling_line(text):
    found = verdict(text)
    assert found[0].startswith("("), text
    return f"= {escaped(text)}", found[0]


def refusal_line(text):
    kind, at = verdict(text)
    assert kind == "NotHere", text
    return f"= {escaped(text)}", fault_line(text, kind, at)


def short_line(text, line=None):
    """Whether a text is a module, or its fault."""
    fault = compare(lex(text), LIMIT)
    return f"- {line or escaped(text)}", "module" if fault is None else fault_line(text, *fault)


def places(chart):
    """The places in the ways of the grammar that the last token has brought."""
    moved = ((name, way, dot) for (name, _), way, dot, _ in chart.sets[-1] if dot > 0)
    return {(name, way, dot) for name, way, dot in moved if way[dot - 1][1] is None}


def cut_line(text):
    """What stands in front of each token: a module, or the fault is at its end."""
    tokens = lex(text)
    faults = [compare(tokens[:at], LIMIT) for at in range(len(tokens))]
    assert all(fault in (None, ("NotHere", at)) for at, fault in enumerate(faults))
    return f"c {escaped(text)}", "".join("m" if fault is None else "h" for fault in faults)


def places_of(text):
    chart, seen = Chart(ANY, NO_LIMIT), set()
    for token in lex(text):
        chart.step(token)
        seen |= places(chart)
    return seen


def cut_lines():
    chosen, seen = [], set()
    texts = {text: places_of(text) for text in module_texts()}
    while True:
        text = max(texts, key=lambda text: (len(texts[text] - seen), -len(text)))
        if not texts[text] - seen:
            break
        chosen.append(text)
        seen |= texts[text]
    return [cut_line(text) for text in chosen + STAGES]


def followed(tokens, sample):
    """A letter for a token behind others: with it there is a module, one can go on, it is too deep, or it is not here."""
    fault = compare(tokens + lex(sample), LIMIT)
    letters = {None: "m", ("NotHere", len(tokens) + 1): "g", ("NotHere", len(tokens)): "h", ("Depth", len(tokens)): "d"}
    return letters[fault]


def follow_line(text):
    tokens = lex(text)
    letters = "".join(followed(tokens, sample) for sample in SAMPLES)
    if BOTH:
        terminals = chart_of(tokens, ANY, NO_LIMIT)[0].terminals()
        fitting = [any(fits(terminal, lex(sample)[0]) for terminal in terminals) for sample in SAMPLES]
        assert [letter in "mg" for letter in letters] == fitting, text
    return f"+ {escaped(text)}", letters


def prefixes():
    """Beginnings of modules, shortest first."""
    found = set()
    for text in module_texts():
        spans = [token.span for token in lex(text)]
        found |= {tuple(spans[:at]) for at in range(len(spans) + 1)}
    return sorted(found, key=lambda spans: (len(spans), len(" ".join(spans)), spans))


def follow_lines():
    seen = set()
    for spans in prefixes():
        text = " ".join(spans).encode("latin-1").decode()
        chart, _ = chart_of(lex(text), ANY, NO_LIMIT)
        new = places(chart) - seen
        if new or not spans:
            seen |= new
            yield follow_line(text)


def way_text(way, times):
    _, head, opening, core, closing, tail = way
    return head + opening * times + core + closing * times + tail


def depth(way, times):
    return descend(lex(way_text(way, times)))[1]


@lru_cache(maxsize=None)
def most_times(way, limit):
    """How often a way may be repeated within a limit, and the token of the fault where it is repeated once more."""
    step = (depth(way, 5) - depth(way, 1)) // 4
    times = (limit - depth(way, 1)) // step + 1
    tokens, more = lex(way_text(way, times)), lex(way_text(way, times + 1))
    assert compare(tokens, limit) is None
    kind, at = compare(more, limit)
    assert kind == "Depth"
    return times, at


def grows_evenly(way):
    """The token of the fault is so many tokens for each repetition that is accepted, and some, at smaller limits too."""
    times, at = most_times(way, LIMIT)
    step = (depth(way, 5) - depth(way, 1)) // 4
    for limit in range(8, 20, 4):
        fewer, place = most_times(way, limit)
        assert (times - fewer) * step == LIMIT - limit and at - place == len(lex(way[2])) * (times - fewer), way


def front_of(way, count):
    """The text of a way up to so many of its tokens, repeated once too often, as a text and as a line has it."""
    times, _ = most_times(way, LIMIT)
    text = way_text(way, times + 1)
    tokens = lex(text)
    front = text[: tokens[count - 1].at + len(tokens[count - 1].span)] if count else ""
    _, head, opening, *_ = way
    whole = max(n for n in range(times + 2) if front.startswith(head + opening * n))
    return front, repeated(head, whole, opening, front[len(head) + len(opening) * whole :])


def way_lines(way):
    """A way up to the limit, once more, and what stands in front of the fault without and with its token."""
    times, at = most_times(way, LIMIT)
    for count in (times, times + 1):
        yield short_line(way_text(way, count), repeated(way[1], count, way[2], way[3], way[4], way[5]))
    for count in (at, at + 1):
        yield short_line(*front_of(way, count))


def limit_line(way):
    """The tokens behind what stands in front of the fault of a way."""
    _, at = most_times(way, LIMIT)
    front, line = front_of(way, at)
    tokens = lex(front)
    letters = "".join(followed(tokens, sample) for sample in SAMPLES)
    if BOTH:
        any_depth, within = (chart_of(tokens, *how)[0].terminals() for how in ((ANY, NO_LIMIT), (NEAREST, LIMIT)))
        fitting = [any(fits(terminal, lex(sample)[0]) for terminal in within) for sample in SAMPLES]
        any_fitting = [any(fits(terminal, lex(sample)[0]) for terminal in any_depth) for sample in SAMPLES]
        assert [letter in "mg" for letter in letters] == fitting, way
        assert [letter == "d" for letter in letters] == [a and not b for a, b in zip(any_fitting, fitting)], way
    return f"+ {line}", letters


def in_namespaces(text):
    """Definitions in namespaces, as a way."""
    return ("namespaces", "", "namespace n {", text, "}", "")


def lines():
    """Each line that the program reads, with what it says of it; the first has the tokens that are tried."""
    yield "s " + " ".join(SAMPLES), f"{len(SAMPLES)} tokens"
    yield from map(spelling_line, module_texts() + STAGES)
    for groups in REFUSED.values():
        for _, texts in groups:
            yield from map(refusal_line, texts)
    yield from cut_lines()
    yield from follow_lines()
    for way in WAYS:
        grows_evenly(way)
        yield from way_lines(way)
        yield limit_line(way)
    for groups in MODULES.values():
        for name, texts in groups:
            for text in texts if name != "whole texts" else []:
                yield from way_lines(in_namespaces(text))


def main(words):
    if words[:1] == ["check"]:
        numbers = [int(word) for word in words[1:]] + [2000, 7][len(words) - 1 :]
        check(*numbers)
    elif not words:
        read, said = zip(*lines())
        for path, texts in [("stdin", read), ("stdout", said)]:
            print(f"file: crates/grammar_rows/{path}")
            print("\n".join(texts))
    else:
        sys.exit(__doc__)


main(sys.argv[1:])
