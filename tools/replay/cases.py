"""What the topics share: the oracle's text, the bytes of a case, and the choice of small meshes.

A case is a run of numbers, little-endian: u32 the bytes of the case, u32 the operation, u32 halfedges, u32 points, u32 the number
of the refusal (0: accepted), u32 its place, and then its lists and answers. A list is a u32 length and its numbers: f64 in 8 bytes,
i32 and counts in 4, flags in 1.
"""
import collections, math, struct, subprocess, sys

OPERATIONS = {"straighten": 1, "check": 2, "crease": 3, "crease2": 3, "tfn": 4, "quad": 5, "flat": 6, "spread": 7, "sharp": 8, "normals": 9, "preview": 10, "clean": 11}
LISTS = ("pos", "he", "row", "tan", "vn", "fn", "nrm", "prop", "fl", "ref", "sh", "ss")


def u32(x):
    return struct.pack("<I", x)


def words(xs):
    """Floats without their length."""
    return b"".join(struct.pack("<Q", int(x, 16)) for x in xs)


def numbers(xs):
    """Signed numbers without their length."""
    return b"".join(struct.pack("<i", int(x)) for x in xs)


def floats(xs):
    return u32(len(xs)) + words(xs)


def one_nan(xs):
    """The same floats, every not-a-number with the one pattern 7ff8000000000000."""
    return ["7ff8000000000000" if int(x, 16) & (2**63 - 1) > 0x7FF << 52 else x for x in xs]


def signed(xs):
    return u32(len(xs)) + numbers(xs)


def counts(xs):
    return u32(len(xs)) + b"".join(u32(int(x)) for x in xs)


def small(xs):
    return u32(len(xs)) + bytes(int(x) for x in xs)


def blocks(text):
    """The cases, or the answers, of a text: for each a dictionary of its lines."""
    out, here = [], None
    for line in text.split("\n"):
        words = line.split()
        if not words:
            continue
        if words[0] in ("case", "result"):
            here = {"op": words[1], "id": words[2]}
        elif words[0] == "end":
            out.append(here)
        elif here is not None:
            here[words[0]] = words[1:]
    return out


def unread(e):
    """A row for halfedge e of a call that does not look at it: none of these is a row, a point or the pair."""
    return (-1, 2**31 - 1, -(2**31), -2 - e)[e % 4]


def with_rows(he, rows):
    """Start, end and pair of each halfedge and then its row; what is left over of either stays."""
    count = max(len(he) // 3, len(rows))
    return [x for e in range(count) for x in [*he[3 * e : 3 * e + 3], *rows[e : e + 1]]] + he[3 * count :]


def halfedges(case):
    """The numbers of the halfedges: start, end and pair, and the row after each three. Making from normals reads the row, which is
    the case's own or, where the case has none, the halfedge's number. Lists of another length stay of another length."""
    he = case.get("he") or []
    whole = len(he) // 3
    return with_rows(he, case.get("row", range(whole)) if case["op"] == "normals" else [unread(e) for e in range(whole)])


def text(cases):
    """Cases as the oracle reads them."""
    line = lambda k, v: " ".join(map(str, [k, *v]))
    return "\n".join("\n".join([f"case {c['op']} {c['id']}"] + [line(k, v) for k, v in c.items() if k not in ("op", "id", "expect")] + ["end"]) for c in cases)


def output_of(command, text=None):
    return subprocess.run(command, input=text, capture_output=True, text=True, check=True).stdout


def oracle(words, text=None):
    """What the oracle, which make_replay.py is given, writes."""
    return output_of([sys.argv[2]] + words, text)


def spread_lists(case):
    """The lists that spreading and its preview are lent."""
    get = lambda k: case.get(k, [])
    return floats(get("pos")) + signed(halfedges(case)) + floats(get("vn")) + small(get("fl")) + floats(get("tan"))


def crease_lists(case, answer):
    """The lists that a crease listing is lent, its limits and room, and what the oracle answered."""
    get = case.get
    listed = counts(answer["list"]) + floats(answer["smooth"]) + u32(int(answer["tally"][0])) if answer else counts([]) + floats([]) + u32(0)
    return signed(halfedges(case)) + floats(get("fn")) + floats(get("ang")) + u32(int(get("room")[0])) + listed


def answered(text, largest):
    """The cases of a text with at most so many halfedges, each with the oracle's answer."""
    pairs = list(zip(blocks(text), blocks(oracle(["run"], text))))
    assert all(c["id"] == a["id"] and "refused" not in a for c, a in pairs)
    return [(c, a) for c, a in pairs if int(c["counts"][1]) <= largest]


def number(word):
    return struct.unpack(">d", bytes.fromhex(word))[0]


def word(x):
    return struct.pack(">d", x).hex()


class Mesh:
    def __init__(self, case):
        self.p, self.n = (int(x) for x in case["counts"])
        he = [int(x) for x in case.get("he", [])]
        self.start, self.end, self.pair = he[0::3], he[1::3], he[2::3]
        refs = [int(x) for x in case.get("ref", [])]
        self.ref = [tuple(refs[k : k + 3]) for k in range(0, len(refs), 3)]
        tangents = [number(x) for x in case.get("tan", [])]
        self.tangent, self.weight = [tangents[k : k + 3] for k in range(0, len(tangents), 4)], tangents[3::4]
        self.old = "tan" in case

    def next(self, e):
        return e - 2 if e % 3 == 2 else e + 1

    def round(self, e):
        out, x = [e], self.next(self.pair[e])
        while x != e:
            out.append(x)
            x = self.next(self.pair[x])
        return out

    def same_face(self, e, f):
        return self.ref[e // 3] == self.ref[f // 3]

    def diagonal(self, e):
        """is_inside_quad, or the mark of an old tangent."""
        if self.old:
            return self.weight[e] < 0
        f, next = self.pair[e], self.next
        others = [(e, next(e)), (e, next(next(e))), (f, next(f)), (f, next(next(f)))]
        return self.same_face(e, f) and not any(self.same_face(x, self.pair[y]) for x, y in others)

    def flat_faces(self):
        flat = set()
        for t in range(self.n // 3):
            near = [self.pair[e] // 3 for e in range(3 * t, 3 * t + 3) if self.same_face(e, self.pair[e])]
            if len(near) > 1:
                flat |= {t, *near}
        return flat


def mesh_features(case, m):
    """What the mesh and the numbers of a case have."""
    out = {f"{m.n} halfedges"}
    rounds = {(m.start[e], min(m.round(e))) for e in range(m.n)}
    if len(rounds) > len(set(m.start)):
        out.add("several rounds at a point")
    if len(set(m.start)) < m.p:
        out.add("a point without halfedges")
    lent = [number(x) for k in ("pos", "vn", "fn", "nrm", "prop", "tan") for x in case.get(k, [])]
    if any(math.isinf(x) for x in lent):
        out.add("an infinity")
    if any(math.isnan(x) for x in lent):
        out.add("a not-a-number")
    return out


def count(found):
    """Counts on standard error how many cases have each feature."""
    for x, k in sorted(collections.Counter(x for one in found for x in one).items()):
        print(f"{k:6} {x}", file=sys.stderr)


def chosen(pairs, features, most, rare, small):
    """So many pairs, those of a feature that fewer than `rare` have before the others, of which only `small` meshes are taken. What they
    have is counted."""
    have, first, rest = collections.Counter(), [], []
    for c, a in pairs:
        found = features(c, a)
        if any(have[x] < rare for x in found):
            have.update(found)
            first.append((c, a))
        elif small(c):
            rest.append((c, a))
    taken = (first + rest)[:most]
    count(features(c, a) for c, a in taken)
    return taken


def by_rows(case):
    """Making from normals with a row for each halfedge, its number, and the lent normals as the row list."""
    if case["op"] != "normals" or "prop" in case:
        return case
    out = {k: v for k, v in case.items() if k != "nrm"}
    out["row"], out["prop"] = [str(e) for e in range(len(case.get("he", [])) // 3)], case.get("nrm", [])
    return out


def asked(cases):
    """The cases, each with what the oracle answers as what is expected."""
    for c, a in zip(cases, blocks(oracle(["run"], text(cases)))):
        c["expect"] = ["refused", *a["refused"]] if "refused" in a else ["accepted"]
    return cases


def refused(seed, longest, kind="refuse", count="30000"):
    """The oracle's damaged cases that are refused and whose lists have at most so many numbers. Making from normals is asked again with
    rows: a row list has any number of rows."""
    found = [by_rows(c) for c in blocks(oracle([kind, seed, count]))]
    found = [c for c in found if max(len(c[k]) for k in LISTS if k in c) <= longest]
    asked([c for c in found if c["op"] == "normals"])
    return [c for c in found if c["expect"][0] == "refused"]


def refusal(case):
    return int(case["expect"][1]), int(case["expect"][2])


def record(case, body, number=0, place=0):
    points, halfedges = (int(x) for x in case["counts"])
    return struct.pack("<IIIIII", len(body) + 24, OPERATIONS[case["op"]], halfedges, points, number, place) + body


def write(accepted, rest):
    sys.stdout.buffer.write(b"".join(accepted + rest))
    print(len(accepted), "accepted,", len(rest), "refused", file=sys.stderr)
