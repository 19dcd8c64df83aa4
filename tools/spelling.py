#!/usr/bin/env python3
"""Brings this repository's own names to the spelling of today's Rattle: words in snake case (PORTING.md, part 3), after port.py has run.

usage: tools/spelling.py [--see] [TOP]      at the top of the checkout, once; --see writes nothing and lists what falls together

A name is our own where a file of specs/ or a lemma file of proofs/ has it and no import from the kit brings it. `allFinite` becomes `all_finite`,
`front-more` becomes `front_more`. Where a lemma's new name would be another name of a file that has both, the lemma gets `_lem`.
It turns whole words of .antt files, of the clauses and `ghost` lines of .rt files, and of must-fail edits; functions of src/, strings, inputs and
outputs keep theirs. In proofs of functions only our own names turn, and none behind a dot, where the check's names stand.
"""
import collections
import os
import re
import sys

WORD = re.compile(r"[^\s(){}.;,@\"«»⟦⟧]+")
CAMEL = re.compile(r"[a-z][a-z0-9]*[A-Z]")
USE = re.compile(r"^use ([^\s{;]+?)(?:\.\{([^}]*)\})?(?:\s+as\s+\S+)?\s*$", re.M)
QUIET = re.compile(r'"(?:[^"\\\n]|\\.)*"|(?<![^\s(){}.;,@"«»])--[^\n]*')
OWN = ("Rattle.std", "Rattle.core", "Rattle.io", "Rattle.libc", "Rattle.os")
# Lemmas whose plain new name is that of a definition that a file has beside it: they get `_lem` (CONTRACT_STYLE.md, Names, 3). --see found them.
LEM = set("""alone-told all-finite backward-at deviation-at drawn-points drawn-weights filter-in filter-of forward-at half-turn in-range innovation-at is-nan
listed-at-correction listed-at-prediction mark-of new-asks number-bytes own-stepped params-read point-asked point-asks root-units sign-of weights-of word-text wrap-of""".split())
# The same, of lemmas that port.py gave a plain name.
TURNED = set("kind_fits load_asks shifted_at taken_in".split())


def files(top, ends):
    for folder in ("crates", "tests"):
        for root, dirs, names in os.walk(os.path.join(top, folder)):
            dirs[:] = sorted(d for d in dirs if d != "out")
            for n in sorted(names):
                if n.endswith(ends):
                    yield os.path.join(root, n)


def read(p):
    with open(p, encoding="utf-8") as f:
        return f.read()


def is_lemma_file(top, p):
    return len(os.path.relpath(p, top).split(os.sep)) == 4


def plain(w):
    if CAMEL.match(w):
        w = re.sub(r"([a-z0-9])([A-Z])", lambda m: m.group(1) + "_" + m.group(2).lower(), w)
    return w.replace("-", "_")


def wanted(w):
    if not re.match(r"[a-zA-Z]", w):
        return False
    return bool(CAMEL.match(w)) or re.fullmatch(r"[A-Za-z0-9_?'₀-₉]+(-[A-Za-z0-9_?'₀-₉]+)+", w) is not None


def names(top):
    own, kit, code = set(), set(), {}
    for p in files(top, ".antt"):
        text = QUIET.sub("", read(p))
        code[p] = text
        for m in USE.finditer(text):
            mod = m.group(1)
            if not mod.startswith("Rattle.") or mod.startswith(OWN):
                for it in (m.group(2) or "").split(","):
                    it = it.strip()
                    if it:
                        kit.add(it.split(" as ")[0].strip())
        if is_lemma_file(top, p):
            own |= {w for w in WORD.findall(text) if wanted(w)}
    return {w for w in own if w not in kit and not w.startswith("Need-")}, kit, code


def table(top):
    own, kit, code = names(top)
    new = {w: plain(w) for w in own}
    for w in LEM:
        new[w] += "_lem"
    return new, code


def shown(text, lemma_file):
    """The words of a file that could be taken for one another: not the parts of a path, nor, in the proof of a function, what stands behind a dot."""
    def items(m):
        alias = re.search(r"\s+as\s+(\S+)\s*$", m.group(0))
        return " ".join((m.group(2) or "").split(",")) + (" " + alias.group(1) if alias else "")
    text = USE.sub(items, text)
    if not lemma_file:
        text = re.sub(r"\.[^\s(){}.;,@\"«»⟦⟧]+", "", text)
    return set(WORD.findall(text))


def together(new, code, top):
    for p, text in sorted(code.items()):
        words = shown(text, is_lemma_file(top, p))
        by = collections.defaultdict(set)
        for w in words:
            by[new.get(w, w)].add(w)
        for n, ws in sorted(by.items()):
            if len(ws) > 1:
                yield p, n, sorted(ws)


def turn_word(w, new, comment=False):
    if comment and not CAMEL.match(w):
        return w
    return new.get(w, w)


def turn_code(text, new, lemma_file, turned):
    """The code of an .antt file: whole words; in the proof of a function none behind a dot."""
    def word(m):
        w = m.group(0)
        behind = text[m.start() - 1 : m.start()] == "."
        if behind and not lemma_file:
            return w
        if w in TURNED:
            return w + "_lem" if turned and not behind and text[m.end() : m.end() + 1] != "." else w
        return new.get(w, w)
    return WORD.sub(word, text)


def turn_prose(text, new):
    """A comment: names in which a capital follows, since a word with a dash may be plain English."""
    return WORD.sub(lambda m: new.get(m.group(0), m.group(0)) if CAMEL.match(m.group(0)) else m.group(0), text)


def by_parts(text, quiet, code, prose):
    out, at = [], 0
    for m in quiet.finditer(text):
        out.append(code(text[at : m.start()]))
        out.append(m.group(0) if m.group(0).startswith('"') else prose(m.group(0)))
        at = m.end()
    return "".join(out) + code(text[at:])


def use_lines(text, new, lemma_file, turned):
    """The path of a `use` line names modules, and those stay; its items and its alias turn."""
    out = []
    for line in text.splitlines(keepends=True):
        m = re.match(r"(\s*use [^\s{;]+)(.*)", line, re.S)
        if m:
            path, rest = m.group(1), m.group(2)
            out.append(path + by_parts(rest, QUIET, lambda t: turn_code(t, new, True, turned), lambda t: turn_prose(t, new)))
        else:
            out.append(by_parts(line, QUIET, lambda t: turn_code(t, new, lemma_file, turned), lambda t: turn_prose(t, new)))
    return "".join(out)


RUST_QUIET = re.compile(r'"(?:[^"\\\n]|\\.)*"|//[^\n]*')


def turn_rust(text, new):
    """A .rt file: names in which a capital follows; a name with a dash only in a `ghost use` line or a clause, where Rust's minus has spaces."""
    def code(t):
        return WORD.sub(lambda m: new.get(m.group(0), m.group(0)) if CAMEL.match(m.group(0)) or "-" in m.group(0)[1:-1] else m.group(0), t)
    return by_parts(text, RUST_QUIET, code, lambda t: turn_prose(t, new))


def turn_edit(text, new):
    """A must-fail edit: its texts are of one file, named in the line above them."""
    rust, out = True, []
    for line in text.splitlines(keepends=True):
        if line.startswith("file:"):
            rust = ".rt" in line
            out.append(line)
        else:
            key, _, rest = line.partition(" ")
            out.append(key + " " + (turn_rust(rest, new) if rust else use_lines(rest, new, True, True)) if rest else line)
    return "".join(out)


def main(argv):
    see = "--see" in argv
    rest = [a for a in argv if a != "--see"]
    top = rest[0] if rest else "."
    new, code = table(top)
    if see:
        for p, n, ws in together(new, code, top):
            print(os.path.relpath(p, top), n, ws)
        print(len(new), "names")
        return 0
    for p in list(files(top, (".antt", ".rt", ".edit"))):
        old = read(p)
        if p.endswith(".antt"):
            text = use_lines(old, new, is_lemma_file(top, p), True)
        elif p.endswith(".rt"):
            text = turn_rust(old, new)
        else:
            text = turn_edit(old, new)
        if text != old:
            with open(p, "w", encoding="utf-8") as f:
                f.write(text)
    return 0


sys.exit(main(sys.argv[1:]))
