#!/usr/bin/env python3
"""Brings the repository's own names in specs/, proofs/ and clauses to the kit's spelling: words in snake case, types and modules in camel case.

usage: python3 tools/respell.py [--names] [FOLDER]

FOLDER is the top of a checkout (this one, if left out), after the kit's port.py where it is of an older kit. A second run changes nothing.
What turns: definitions, lemmas, fields and local names, as `circularTangent` and `same-map`, in .antt files, in .rt files and must-fail edits,
in the code spans of comments and pages, and in comments also bare words with a hump. What stays: types, names of the library, names that the kit
makes for goals and steps, functions of src/, strings. --names only prints the rows, of a tree that is not turned yet. A lemma that would have its definition's name gets `_lem`, as the kit's own.
"""

import os
import re
import sys

WORD = re.compile(r"[^\s(){}.;,@\"«»\[\]|\\`]+")
QUIET = re.compile(r'"(?:[^"\\\n]|\\.)*"|(?<!\S)(?:--|//)[^\n]*')
SPAN = re.compile(r"`[^`\n]*`")
USE = re.compile(r"\buse\s+([^\s{;]+)\.\{([^}]*)\}")
GOAL = re.compile(r"(?m)^\s*(?:(?:unfoldable|abbrev|pub)\s+)*(" + WORD.pattern + r")\s*:\s*goal\.\1(?!\S)")
HUMP = re.compile(r"(?<=[a-z0-9'])([A-Z])")
# Names that would fall together with a definition, or with a word of the library, in one file.
LEMMAS = {
    "looks-of", "is-at", "mesh-lists-fit", "lists-fit", "same-bits", "vert-tangents", "counts-fit", "has-length",
    "scratch-fits", "zero-normal", "fill-missing", "plan-of", "some-missing", "spread-scratch", "same-normal", "is-nan",
}
# Only in this crate: elsewhere the first is a name of the library, and the second a field.
OURS = {"one-mul": ("math", "one_mul"), "spread-tangents": ("program_operations", "spread_tangents_lem")}


def odd(word):
    """Is it spelled with a dash between its parts, or as `nextAround`?"""
    return bool(re.search(r"[A-Za-z0-9_']-[A-Za-z0-9_]", word) or re.match(r"[a-z][\w']*[A-Z]", word))


def spelled(word):
    def part(p):
        return HUMP.sub(lambda m: "_" + m[1].lower(), p) if re.match(r"[a-z]", p) else p

    return "_".join(part(p) for p in word.split("-")) + ("_lem" if word in LEMMAS else "")


def files(top, *ends):
    for folder, dirs, names in os.walk(top):
        dirs[:] = sorted(d for d in dirs if d not in ("out", "target", ".git"))
        for name in sorted(names):
            if name.endswith(ends):
                yield os.path.join(folder, name)


def read(path):
    with open(path, encoding="utf-8") as f:
        return f.read()


def names(top):
    """The rows: each name that turns, and its new spelling."""
    crates = set(os.listdir(os.path.join(top, "crates")))
    library, made, found = set(), set(), set()
    for path in files(os.path.join(top, "crates"), ".antt", ".rt"):
        text = QUIET.sub(" ", read(path))
        for m in USE.finditer(text):
            at = m[1].split(".")
            own = at[0] == "Rattle" and len(at) > 1 and at[1] in crates
            items = set(re.split(r"[\s,]+", m[2]))
            if not own:
                library |= items
            elif at[-1] in ("Goals", "Given"):
                made |= items
            else:
                found |= {w for w in items if odd(w)}
        if path.endswith(".antt"):
            made |= {m[1] for m in GOAL.finditer(text)}
            found |= {m[0] for m in WORD.finditer(text) if odd(m[0]) and text[m.start() - 1 : m.start()] != "."}
            # a field may be named nowhere but behind a dot and where it is declared
            found |= {m[1] for m in re.finditer(r"(?m)^\s*pub\s+(" + WORD.pattern + r")\s*:", text) if odd(m[1])}
    return {w: spelled(w) for w in found - library - made}


def turned(text, rows):
    return WORD.sub(lambda m: rows.get(m[0], m[0]), text)


def comment(text, rows):
    """A comment: its code spans, and bare words with a hump."""
    humps = {w: n for w, n in rows.items() if "-" not in w}
    out, at = [], 0
    for m in SPAN.finditer(text):
        out += [prose(text[at : m.start()], humps), prose(m[0], rows)]
        at = m.end()
    return "".join(out) + prose(text[at:], humps)


def prose(text, rows):
    return re.sub(r"[A-Za-z][\w'-]*", lambda m: rows.get(m[0], m[0]), text)


def code(text, rows):
    out, at = [], 0
    for m in QUIET.finditer(text):
        out.append(turned(text[at : m.start()], rows))
        out.append(m[0] if m[0][0] == '"' else comment(m[0], rows))
        at = m.end()
    return "".join(out) + turned(text[at:], rows)


def page(text, rows):
    return SPAN.sub(lambda m: prose(m[0], rows), text)


def edit(text, rows):
    return "".join(turned(line, rows) if line.startswith(("old:", "new:")) else comment(line, rows) for line in text.splitlines(True))


def main():
    words = [w for w in sys.argv[1:] if w != "--names"]
    top = words[0] if words else os.path.join(os.path.dirname(os.path.abspath(__file__)), "..")
    rows = names(top)
    if "--names" in sys.argv:
        print("\n".join(f"{a}\t{b}" for a, b in sorted(rows.items())))
        return
    how = {".antt": code, ".rt": code, ".edit": edit, ".md": page}
    for path in files(top, *how):
        text = read(path)
        mine = dict(rows)
        for word, (crate, new) in OURS.items():
            if os.sep + os.path.join("crates", crate) + os.sep in path:
                mine[word] = new
        new = how[os.path.splitext(path)[1]](text, mine)
        if new != text:
            with open(path, "w", encoding="utf-8") as f:
                f.write(new)


main()
