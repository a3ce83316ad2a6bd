#!/usr/bin/env python3
"""Counts, in src/ of every crate, the places of which docs/DESIGN-PASS.md speaks.

    tools/design_counts.py [COMMIT] [--list]

Without COMMIT the files as they lie here. --list names each place.
"""
import collections
import re
import subprocess
import sys


def files(commit):
    if commit:
        names = subprocess.run(
            ["git", "ls-tree", "-r", "--name-only", commit], capture_output=True, text=True, check=True
        ).stdout.split()
    else:
        names = subprocess.run(["git", "ls-files"], capture_output=True, text=True, check=True).stdout.split()
    for name in names:
        if re.fullmatch(r"crates/\w+/src/.*\.rt", name):
            if commit:
                text = subprocess.run(
                    ["git", "show", f"{commit}:{name}"], capture_output=True, text=True, check=True
                ).stdout
            else:
                text = open(name).read()
            yield name, text


def code(text):
    """Without comments and clauses."""
    text = re.sub(r"//.*", "", text)
    text = re.sub(r"ghost use [^;]*;", "", text)
    return re.sub(r"\b(requires|ensures)\b( \w+)? \{[^\n]*(\n\s+×[^\n]*)*", "", text)


def functions(text):
    """Name, parameters, result and body of each function."""
    for m in re.finditer(r"\bfn (\w+)(<[^(]*>)?\(", text):
        depth, i = 1, m.end()
        while depth:
            depth += {"(": 1, ")": -1}.get(text[i], 0)
            i += 1
        params = text[m.end(): i - 1]
        j = i
        while text[j] not in "{;":
            j += 1
        result = text[i:j]
        if text[j] == ";":
            continue
        depth, k = 1, j + 1
        while depth:
            depth += {"{": 1, "}": -1}.get(text[k], 0)
            k += 1
        yield m.group(1), params, result, text[j + 1: k - 1], text[: m.start()].count("\n") + 1


def split(params):
    out, depth, last = [], 0, ""
    for ch in params:
        depth += {"(": 1, "[": 1, "<": 1, ")": -1, "]": -1, ">": -1}.get(ch, 0)
        if ch == "," and depth == 0:
            out.append(last.strip())
            last = ""
        else:
            last += ch
    if last.strip():
        out.append(last.strip())
    return out


def shape(text):
    """A body without its names, numbers and types, so that twins are alike."""
    words = re.findall(r"[A-Za-z_]\w*!?|\d[\w.]*|[^\s\w]", text)
    keep = {"if", "else", "for", "in", "while", "loop", "match", "return", "break", "let", "mut", "fn", "as"}
    return " ".join(w if w in keep or not re.match(r"[\w]", w) else "_" for w in words)


def main():
    args = [a for a in sys.argv[1:] if not a.startswith("--")]
    listing = "--list" in sys.argv
    found = collections.OrderedDict()

    def add(point, place):
        found.setdefault(point, []).append(place)

    bodies = collections.defaultdict(list)
    facts = collections.defaultdict(list)
    for name, raw in files(args[0] if args else None):
        text = code(raw)
        for m in re.finditer(r"\benum (\w+) \{(.*?)\n\}", text, re.S):
            line = f"{name}:{text[: m.start()].count(chr(10)) + 1} {m.group(1)}"
            if "Refused" in m.group(2):
                add("1 enums with a refusal among their variants", line)
            else:
                add("- other enums", line)
        for m in re.finditer(r"\bstruct (\w+)[^{;]* \{(.*?)\n\}", text, re.S):
            if re.search(r": bool", m.group(2)):
                add("1 structs with a flag beside a value", f"{name} {m.group(1)}")
            if re.search(r"\b(tag|count): usize", m.group(2)) and m.group(1).startswith("Packed"):
                add("1 structs of numbers for an enum's cases", f"{name} {m.group(1)}")
        for fn, params, result, body, line in functions(text):
            place = f"{name}:{line} {fn}"
            ps = split(params)
            for p in ps:
                if re.fullmatch(r"(number|kind|op|call|operation|iy|k): (usize|u8|u16|u32|u64|i32)", p) and re.search(
                    rf"\b(match|if) {p.split(':')[0]}\b", body
                ):
                    add("1 parameters that are a number for a kind", f"{place}({p})")
            if re.search(r"-> (usize|u32|u64)", result) and re.search(r"_refusal$|_turns$|^read_case$", fn):
                add("1 functions that answer a number for none or a refusal", place)
            if len(body.split()) > 8:
                bodies[shape(params + result + body)].append(place)
            for m in re.finditer(r"while [^{]*\{(.*?)\n    \}", body, re.S):
                if re.search(r"(\w+) [+-]= (1|3|96);", m.group(1)):
                    add("3 loops that count an index by hand", place)
            for m in re.finditer(r"for (\w+) in [^{]*\{(.*?)\n    \}", body, re.S):
                k, inner = m.group(1), m.group(2)
                if re.search(rf"\w\[{k}\]", inner):
                    add("3 for loops that index a slice by their number", place)
            if len(ps) >= 8:
                add("5 functions with eight parameters or more", place)
            if re.search(r"\bmatch (q|op|call|operation|kind|self\.op)\b|if operation ==|if kind ==|if op ==", body):
                add("7 switches on which step to run", place)
        for m in re.finditer(r"\brequires\b(?: \w+)? \{ ([^\n]*) \}", raw):
            for fact in m.group(1).split(" × "):
                head = re.match(r"\(*([A-Z]\w+)", fact.strip())
                if head:
                    facts[(name.split("/")[1], head.group(1))].append(name)
        for m in re.finditer(r"\.vec,|\bfn (\w*from\w*|unpack\w*|same_\w+|differ|one_if|put_decimal|put_hex|hex_digit)\b", text):
            if m.group(1):
                add("4 conversion, equality and printing by hand", f"{name} {m.group(1)}")
        for m in re.finditer(r"let (\w+) = \w+\.len;", text):
            add("6 arrays with a length beside", f"{name} {m.group(1)}")
    for places in bodies.values():
        if len(places) > 1:
            for p in places:
                add("2 functions alike but for names, types and numbers", p)
    for (crate, head), places in facts.items():
        if len(places) >= 3:
            add("5 facts in three requires clauses of a crate or more", f"{crate} {head} {len(places)}")
    for point in sorted(found):
        print(f"{len(found[point]):4} {point}")
        if listing:
            for place in found[point]:
                print("       ", place)


main()
