#!/usr/bin/env python3
"""Brings the names that the repository's own .antt files declare to snake case, in specs/, proofs/, the clauses of src/ and the edits.

usage: python3 tools/respell.py            at the top of the repository, once, after its sources have today's form

A name that begins with a capital is a type and stays. In any other a dash between two plain words becomes an underscore, and so does the
place before a capital. A name that a file imports from a library stays. Where a definition and a lemma would fall together, the lemma
gets _lem; OTHER and HERE have what no rule gives. It turns whole words alone.
"""

import collections
import glob
import os
import re
import sys

WORD = r'[^\s(){}.;,@"«»]+'
COMMENT = re.compile(r"(?<![^\s(){}.;,])--[^\n]*")
MODIFIERS = r"(?:(?:abbrev|unfoldable|pub|instance)\s+)*"
DECLARED = [
    re.compile(r"(?m)^\s*" + MODIFIERS + "((?:" + WORD + r"\s+)*?" + WORD + r")\s+:(?=\s)"),
    re.compile(r"\blet\s+(" + WORD + r")\s+[:=](?=\s)"),
    re.compile(r"[({]((?:" + WORD + r"\s+)*?" + WORD + r")\s+:(?=\s)"),
    re.compile(r"(?m)^use \S+ as (" + WORD + r")\s*$"),
]
RUST_COMMENT = re.compile(r"//[^\n]*")
LIBRARY = re.compile(r"(?m)^(?:pub )?use ((?!Rattle\.(?:OWN)\.)[\w.+·-]+)\.\{([^}]*)\}")
OTHER = {
    "normalDirection-proper": "normal_direction_is_proper",
    "to-z": "to-z",
    "none-by-sign": "none_by_sign",
    "in-range": "in_range",
}
HERE = {
    "rows/proofs/Held.antt": {"last_row": "last_row_lem"},
    "rows/proofs/Holds.antt": {"last_row": "last_row_lem"},
    "row_reader/proofs/Parts.antt": {"after_minus": "after_minus_lem"},
}


def plain(name):
    name = re.sub(r"(?<=[^\W_])-(?=[^\W_])", "_", name)
    return re.sub(r"(?<=[a-z0-9])([A-Z])(?=[a-z]|\b|_|$)", lambda m: "_" + m[1].lower(), name)


def files(top, *kinds):
    for folder, dirs, names in os.walk(os.path.join(top, "crates")):
        dirs[:] = sorted(d for d in dirs if d != "out")
        for n in sorted(names):
            if n.endswith(kinds):
                yield os.path.join(folder, n)


def read(path):
    with open(path, encoding="utf-8") as f:
        return f.read()


def table(top):
    """Each name that turns, with its new spelling."""
    own = "|".join(sorted(os.listdir(os.path.join(top, "crates"))))
    library = re.compile(LIBRARY.pattern.replace("OWN", own))
    declared, foreign = set(), set()
    for path in files(top, ".antt"):
        code = COMMENT.sub("", read(path))
        for pattern in DECLARED:
            for m in pattern.finditer(code):
                declared |= set(m[1].split())
        for m in library.finditer(code):
            for item in m[2].split(","):
                foreign |= set(item.split(" as ")[0].split())
    turned = {}
    for name in sorted(declared - foreign):
        if name[0].isupper() or re.match(r"Need-|Then\d|Else\d|invariant-|decreases-", name):
            continue
        new = OTHER.get(name, plain(name))
        if new != name:
            turned[name] = new
    together = collections.defaultdict(set)
    for name, new in turned.items():
        together[new].add(name)
    for new, names in sorted(together.items()):
        # the definition keeps the plain name: a lemma of that name gets _lem
        if len(names) > 1 or new in declared:
            for name in sorted(n for n in names if "-" in n and n not in OTHER):
                turned[name] = new + "_lem"
                print("together:", name, "->", turned[name])
            if len([n for n in names if "-" not in n]) > (0 if new in declared else 1):
                print("still together:", new, sorted(names))
    return turned


def turn_words(text, turned):
    return re.sub(WORD, lambda m: turned.get(m[0], m[0]), text)


def turn_spans(text, turned):
    return re.sub(r"`[^`\n]+`", lambda m: turn_words(m[0][1:-1], turned).join("``"), text)


def turn(text, comment, turned):
    """The code with its words turned, and of each comment what stands between backticks."""
    at, out = 0, []
    for m in comment.finditer(text):
        out += [turn_words(text[at : m.start()], turned), turn_spans(m[0], turned)]
        at = m.end()
    return "".join(out) + turn_words(text[at:], turned)


def main():
    turned = table(".")
    count = 0
    todo = [(p, COMMENT) for p in files(".", ".antt")] + [(p, RUST_COMMENT) for p in files(".", ".rt", ".edit")]
    for path, comment in todo:
        old = read(path)
        here = next((own for end, own in HERE.items() if path.endswith(end)), {})
        new = turn(old, comment, {**turned, **here})
        if new != old:
            count += 1
            with open(path, "w", encoding="utf-8") as f:
                f.write(new)
    for path in sorted(glob.glob("*.md") + glob.glob("docs/*.md")):
        old = read(path)
        new = turn_spans(old, turned)
        if new != old:
            count += 1
            with open(path, "w", encoding="utf-8") as f:
                f.write(new)
    print(len(turned), "names turned in", count, "files")


if __name__ == "__main__":
    main()
