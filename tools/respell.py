#!/usr/bin/env python3
"""Brings the repository's own definitions and lemmas to today's spelling: words in snake case, types in camel case.

Run once, at the top of the repository, behind the kit's own port.py and before anything is mended by hand:  python3 tools/respell.py
It goes by text, over crates/ (.antt, .rt and .edit) and what the pages have in backquotes.

1. A word in lower camel case is turned wherever it stands: `readyAt` is `ready_at`.
2. A word with dashes is turned where a file of specs/ or proofs/ declares it: `valid-kept` is `valid_kept`. A dash beside a capital or a
   sign stays.
3. A lemma that would have the name of a definition gets `_lem`, so that no two words fall together: the law `row-fits` of `rowFits` is
   `row_fits_lem`.

Functions of src/, exported names, strings, inputs and outputs have no such words and keep theirs. Prints each word that it turned, and
stops before it writes anything if two words would still fall together.
"""
import glob
import os
import re
import sys

os.chdir(os.path.join(os.path.dirname(os.path.abspath(__file__)), ".."))
KIT = os.environ.get("RATTLE_KIT", "/opt/rattle")
TOKEN = re.compile(r"[^\W\d][\w'\-]*")
CAMEL = re.compile(r"(?<![A-Za-z0-9_])_?[a-z][a-z0-9_]*[A-Z]")
DECLARED = re.compile(r"^ *(?:(?:abbrev|unfoldable|pub|record|data|rules?|ruleset|instance) )*([^\W\d][\w'\-]*)(?= .*:| *:|:| where)", re.M)


def snake(word):
    out = re.sub(r"(?<=[a-z0-9A-Z])([A-Z])(?=[a-z])|(?<=[a-z0-9])([A-Z])", lambda m: "_" + m.group(0).lower(), word) if CAMEL.search(word) else word
    return re.sub(r"(?<=[a-z0-9'])-(?=[a-z0-9])", "_", out)


def text_of(path):
    with open(path, encoding="utf-8") as f:
        return f.read()


antt = sorted(set(glob.glob("crates/*/specs/**/*.antt", recursive=True) + glob.glob("crates/*/proofs/**/*.antt", recursive=True)))
code = sorted(glob.glob("crates/*/src/**/*.rt", recursive=True))
edits = sorted(glob.glob("crates/*/must-fail/*.edit"))
pages = ["README.md"] + sorted(glob.glob("docs/*.md") + glob.glob("docs/landings/*.md"))

library = set()
for p in glob.glob(KIT + "/rattle/**/*.antt", recursive=True):
    library.update(TOKEN.findall(text_of(p)))

own, words = set(), {}
for p in antt:
    if not p.endswith("/Proof.antt"):
        own.update(DECLARED.findall(text_of(p)))
for p in antt + code:
    for t in TOKEN.findall(text_of(p)):
        words.setdefault(t, set()).add(p)

# Words in camel case first: they are the definitions, and have the plain name.
turn = {}
for w in words:
    if CAMEL.search(w) and (w in own or w not in library):
        turn[w] = snake(w)
plain = set(turn.values())
if len(plain) < len(turn):
    sys.exit("two words in camel case fall together")
# Lemmas whose name a definition now has, as the kit's own script left them.
moved = {w: w + "_lem" for w in own if w in plain}
for w in own:
    if "-" in w and w not in turn:
        new = snake(w)
        taken = new in plain or new in own or any(p in words.get(new, ()) for p in words[w] if not p.endswith("/Proof.antt"))
        if new != w:
            turn[w] = new + "_lem" if taken else new

news = {}
for w, n in list(turn.items()) + list(moved.items()):
    if n in news or (n in own and n not in moved and n not in turn):
        sys.exit(f"{w} and {news.get(n, n)} would both be {n}")
    news[n] = w


def field(text, at, end):
    """Whether the word at this place is a field or what stands behind a name: `c.row_fits.ensures`, `check.row_fits.Goals`, a record's line
    `row_fits : ..` or a value's `row_fits = ..;`."""
    if at > 1 and text[at - 1] == "." and re.match(r"[a-z0-9_')\]₀-₉+-]", text[at - 2]):
        return True
    before, start = text[:at], text.rfind("\n", 0, at) + 1
    if re.match(r" *:", text[end:]) and re.fullmatch(r" +(?:pub )?", text[start:at]):
        # the line with fewer blanks before it
        indent = len(re.match(" *", text[start:at]).group(0))
        for line in reversed(before.splitlines()[: before.count("\n")]):
            if line.strip() and len(line) - len(line.lstrip()) < indent:
                return bool(re.match(r" *(?:pub )?record ", line))
    return bool(re.match(r" +=(?= |\n)", text[end:]) and re.search(r"[{;]\s*$", before))


CRATES = set(os.listdir("crates"))
USE = re.compile(r"^(?:ghost )?use ([\w.·']+)\.\{([^}]*)\}", re.M)


def turned(text, lemmas):
    # words that this file has from a library
    theirs = set()
    for m in USE.finditer(text):
        if not (m.group(1).startswith("Rattle.") and m.group(1).split(".")[1] in CRATES):
            theirs.update(TOKEN.findall(m.group(2)))

    def one(m):
        w = m.group(0)
        if w in theirs:
            return w
        if w in turn:
            return snake(w) if turn[w].endswith("_lem") and field(text, m.start(), m.end()) else turn[w]
        if lemmas and w in moved and not field(text, m.start(), m.end()):
            return moved[w]
        return w

    return TOKEN.sub(one, text)


def cited(text):
    """Words of a page or of an edit's first line: they have the spelling of before the kit's script."""

    def one(m):
        w = m.group(0)
        if w in turn:
            return turn[w]
        if "-" in w and snake(w) in own:
            return moved.get(snake(w), snake(w))
        return w

    return TOKEN.sub(one, text)


def write(path, new):
    if new != text_of(path):
        with open(path, "w", encoding="utf-8") as f:
            f.write(new)


if "--dry" in sys.argv:
    for w, n in sorted((turn | moved).items()):
        print(w, "->", n)
    sys.exit()
for p in antt:
    write(p, turned(text_of(p), True))
for p in code:
    write(p, turned(text_of(p), False))
for p in edits:
    lines = [cited(l) if l.startswith("#") else turned(l, False) for l in text_of(p).splitlines(True)]
    write(p, "".join(lines))
for p in pages:
    write(p, re.sub(r"`[^`\n]*`", lambda m: cited(m.group(0)), text_of(p)))
for w, n in sorted((turn | moved).items()):
    print(f"{w} -> {n}")
