#!/usr/bin/env python3
"""Draws docs/rooms.svg: the crates with their modules, what each uses, and the way of one call through them.

    tools/rooms.py [--check]

The crates and what they use are those of crates.txt, less what follows from the rest; the modules are the `mod` lines of each crate. The
way is the list WAY below, and each function that it names has to stand where it says. --check draws nothing and fails where
docs/rooms.svg is not what would be drawn. Needs Graphviz (Debian's package graphviz).
"""
import html
import os
import re
import subprocess
import sys

TOP = os.path.dirname(os.path.dirname(os.path.abspath(__file__)))
PICTURE = f"{TOP}/docs/rooms.svg"

# How `create::create_tangents` (making from sharp edges) goes: function, and what it does there.
WAY = [
    ("create::create_tangents", "takes the lists as the caller lends them"),
    ("questions::check_mesh", "asks 1 to 7, and check_refs and check_entries 8 to 10; a refusal goes back from here"),
    ("create::sharp::entry_smoothness", "puts the entries' smoothness into a scratch list"),
    ("create::whole::make_tangents", "works on the accepted mesh"),
    ("smoothing::faces::flat_faces", "marks the triangles in flat faces"),
    ("create::initial::first_tangents", "writes the first tangents"),
    ("create::creases::find_creases", "links the creases at each point"),
    ("create::shapes::shape_verts", "writes what the creases do at each point"),
    ("linearize::inner::linearize_all", "straightens"),
    ("distribute::inner::spread_tangents", "spreads"),
]

# What the colours say: the crates of each, the rest are calls.
KINDS = [
    ("#e8eef7", "numbers and bytes", "common float sqrt math linalg little_endian"),
    ("#e6f2e6", "the mesh", "mesh questions cycles smoothing"),
    ("#fdf3dc", "calls", None),
    ("#efe8f5", "for C, and the program", "tangents_c records program tangents"),
    ("#eeeeee", "theorems and replays: nothing uses them", "cases replay exact_lines"),
]
ON_THE_WAY = "#c43d2e"


def read_crates():
    """Returns the crates, bottom to top, each with the crates of this repository that it uses."""
    found = {}
    with open(f"{TOP}/crates.txt", encoding="utf8") as rows:
        for row in rows:
            if row.strip() and not row.startswith("#"):
                head, _, tail = row.partition(":")
                found[head.split()[0]] = tail.split()
    return {crate: [it for it in uses if it in found] for crate, uses in found.items()}


def below(crates, crate):
    """Returns all that a crate uses, itself or through others."""
    seen, left = set(), list(crates[crate])
    while left:
        it = left.pop()
        if it not in seen:
            seen.add(it)
            left += crates[it]
    return seen


def nearest(crates, crate):
    """Returns what a crate uses, less what follows from the rest."""
    return [it for it in crates[crate] if not any(it in below(crates, other) for other in crates[crate] if other != it)]


def source(crate, modules):
    """Returns the text of a crate's root, or of its module."""
    base = f"{TOP}/crates/{crate}/src"
    places = [f"{base}/{'/'.join(modules)}.rt"] if modules else [f"{base}/lib.rt", f"{base}/main.rt"]
    for place in places:
        if os.path.isfile(place):
            with open(place, encoding="utf8") as it:
                return it.read()
    raise SystemExit(f"no file for {'::'.join([crate, *modules])}")


def modules_of(crate):
    return re.findall(r"^(?:pub )?mod (\w+);", source(crate, []), re.M)


def steps():
    """Returns the numbers of the steps at each crate and module, and refuses a step whose function is not there."""
    at = {}
    for number, (path, _) in enumerate(WAY, 1):
        crate, *modules, function = path.split("::")
        if not re.search(rf"^pub fn {function}\b", source(crate, modules), re.M):
            raise SystemExit(f"{path} is not there")
        at.setdefault((crate, modules[0] if modules else ""), []).append(str(number))
    return at


def colour_of(crate):
    named = [colour for colour, _, names in KINDS if names and crate in names.split()]
    return named[0] if named else next(colour for colour, _, names in KINDS if names is None)


def row(name, numbers, is_head):
    """A line of a crate's box: the crate or a module, with the steps of the way there."""
    text = f"<b>{name}</b>" if is_head else f'<font point-size="10">{name}</font>'
    if numbers:
        text += f'  <font color="{ON_THE_WAY}"><b>{" ".join(numbers)}</b></font>'
    return f'<tr><td align="left">{text}</td></tr>'


def box(crate, at):
    rows = [row(crate, at.get((crate, ""), []), True)]
    rows += [row(it, at.get((crate, it), []), False) for it in modules_of(crate)]
    return f'"{crate}" [fillcolor="{colour_of(crate)}" label=<<table border="0" cellborder="0" cellspacing="1">{"".join(rows)}</table>>]'


def legend():
    rows = ['<tr><td align="left"><b>create::create_tangents, step by step</b></td></tr>']
    for number, (path, words) in enumerate(WAY, 1):
        rows.append(f'<tr><td align="left"><font color="{ON_THE_WAY}"><b>{number}</b></font>&#160;&#160;{html.escape(path)} {html.escape(words)}</td></tr>')
    for colour, words, _ in KINDS:
        rows.append(f'<tr><td align="left" bgcolor="{colour}">{words}</td></tr>')
    rows.append('<tr><td align="left">an arrow: uses; what follows from other arrows has none</td></tr>')
    return f'legend [shape=plain style=filled fillcolor=white label=<<table border="0" cellspacing="2">{"".join(rows)}</table>>]'


def graph():
    crates, at = read_crates(), steps()
    walked = {crate for crate, _ in at}
    lines = ["digraph rooms {", "rankdir=TB", "bgcolor=white", 'node [shape=box style=filled fontname="Helvetica" fontsize=12 color="#888888"]', 'edge [color="#999999" arrowsize=0.6]']
    lines += [box(crate, at) for crate in crates]
    for crate in crates:
        for it in nearest(crates, crate):
            way = f' [color="{ON_THE_WAY}" penwidth=1.6]' if {crate, it} <= walked else ""
            lines.append(f'"{crate}" -> "{it}"{way}')
    lines += [legend(), "}"]
    return "\n".join(lines)


def draw():
    done = subprocess.run(["dot", "-Tsvg"], input=graph(), capture_output=True, text=True, check=True)
    # (which Graphviz drew it is no part of the picture)
    return re.sub(r"<!-- Generated by graphviz.*?-->\n", "", done.stdout, flags=re.S)


def main():
    picture = draw()
    if "--check" not in sys.argv:
        with open(PICTURE, "w", encoding="utf8") as it:
            it.write(picture)
        return
    with open(PICTURE, encoding="utf8") as it:
        if it.read() != picture:
            raise SystemExit("docs/rooms.svg is not what crates.txt and the sources say: run tools/rooms.py")


if __name__ == "__main__":
    main()
