"""Which circular tangents the makings compute, by the Rust's steps, for the features of create.py."""
import collections, math
from .cases import Mesh, number

SMALLEST = 2.0**-1022  # of the floats that are not subnormal
ZERO = (0.0, 0.0, 0.0)


def triples(words):
    return [tuple(number(x) for x in words[i : i + 3]) for i in range(0, len(words), 3)]


def dot(a, b):
    return a[0] * b[0] + a[1] * b[1] + a[2] * b[2]


def cross(a, b):
    return (a[1] * b[2] - a[2] * b[1], a[2] * b[0] - a[0] * b[2], a[0] * b[1] - a[1] * b[0])


def has_direction(v):
    """The test of safe_normalize."""
    return 0 < dot(v, v) < math.inf


def unit(v):
    length = math.sqrt(dot(v, v)) if has_direction(v) else 1.0
    return tuple(x / length for x in v) if has_direction(v) else ZERO


def equal_normals(a, b):
    return dot(unit(a), unit(b)) > 0.9999


def lent_normals(case):
    """The lent normal of each halfedge: by its row, where the case has rows."""
    if "prop" not in case:
        return triples(case["nrm"])
    rows = triples(case["prop"])
    return [rows[int(x)] for x in case["row"]]


class Making:
    """A making's mesh, and each circular tangent that it computes: where it stands in the making, its halfedge, and the vector along
    which the tangent leaves (None for an edge of a crease or of a flat face)."""

    def __init__(self, case):
        self.m, self.made = Mesh(case), []
        self.point, self.faces = triples(case["pos"]), triples(case["fn"])
        (self.sharp if case["op"] == "sharp" else self.normals)(case)

    def edge(self, e):
        return tuple(b - a for a, b in zip(self.point[self.m.start[e]], self.point[self.m.end[e]]))

    def make(self, where, e, along=None):
        self.made.append((where, e, along))

    def from_normal(self, normal, e):
        """Along what `tangent_from_normal` makes a tangent."""
        both = tuple(a + b for a, b in zip(self.faces[e // 3], self.faces[self.m.pair[e] // 3]))
        return cross(cross(both if dot(normal, both) < 0 else normal, self.edge(e)), normal)

    def between(self, a, b, e):
        return self.from_normal(a, e) if equal_normals(b, a) else cross(a, b)

    # ---- from sharp edges

    def sharp(self, case):
        m, flat = self.m, self.m.flat_faces()
        normal = triples(case["vn"])
        for v in range(m.p):
            near = [e // 3 for e in range(m.n) if m.start[e] == v and e // 3 in flat]
            if near and all(m.ref[t] == m.ref[near[0]] for t in near):
                normal[v] = self.faces[near[0]]
        for e in range(m.n):
            if not m.diagonal(e):
                self.make("first", e, self.from_normal(normal[m.start[e]], e))
        named = [int(e) for e, s in zip(case["sh"], case["ss"]) if not number(s) >= 1]
        named += [e for e in range(m.n) if e // 3 in flat and (m.pair[e] // 3 not in flat or not m.same_face(e, m.pair[e]))]
        self.creases = collections.defaultdict(set)
        for e in named:
            self.creases[m.start[e]].add(e)
            self.creases[m.end[e]].add(m.pair[e])
        for at in self.creases.values():
            if len(at) == 2:
                for e in at:
                    self.make("through", e)

    # ---- from normals

    def normals(self, case):
        m, lent = self.m, lent_normals(case)
        for v in sorted(set(m.start)):
            self.normals_at(m.round(m.start.index(v)), lent, triples(case["vn"])[v])

    def normals_at(self, round, lent, normal):
        m, edges, differ, last, filling = self.m, [], False, ZERO, []
        steps = list(zip(round, round[1:] + round[:1]))
        missing = any(lent[e] == ZERO for e in round)
        for e, f in steps:
            if equal_normals(lent[e], self.faces[e // 3]) != equal_normals(lent[f], self.faces[f // 3]):
                edges.append(e)
            if lent[f] == ZERO != lent[e]:
                last = lent[e]
            if lent[e] == ZERO or lent[f] == ZERO:
                filling += [e] if not m.diagonal(e) else []
            elif not m.diagonal(e):
                differ = differ or not equal_normals(lent[f], lent[e])
                self.make("main", e, self.between(lent[e], lent[f], e))
        if missing and last == ZERO:
            for e in filling:
                self.make("all missing", e, self.from_normal(normal, e))
            return
        for e in filling:
            self.make("filled in", e)
        if len(edges) == 2 and not differ:
            for e in edges:
                self.make("flat face", e)


def cause(m, e):
    """Why an edge has no direction."""
    ends, v = m.point[m.m.start[e]] + m.point[m.m.end[e]], m.edge(e)
    if any(math.isnan(x) for x in ends):
        return "a not-a-number"
    if any(math.isinf(x) for x in ends):
        return "an infinite coordinate"
    if v == ZERO:
        return "doubled points"
    if dot(v, v) == 0:
        return "squares that vanish"
    return "squares that overflow" if all(math.isfinite(x) for x in v) else "a difference that overflows"


def count_features(case, answer):
    """What the circular tangents of a case have, and what the edges that it does not count have."""
    m, out = Making(case), set()
    none = {e for e in range(m.m.n) if not has_direction(m.edge(e))}
    counted = [(where, e) for where, e, _ in m.made if e in none]
    count = int(answer["directionless"][0])
    assert count == len(counted), (case["id"], count, counted)
    out |= {f"counted, {cause(m, e)}" for _, e in counted}
    found = collections.Counter(where for where, _ in counted)
    out |= {f"counted, {where}" for where in found if where not in ("through", "flat face")}
    twice = collections.Counter(e for _, e in counted)
    out.add("count 0" if count == 0 else "count odd" if count % 2 else "count even")
    if set(twice) == set(range(m.m.n)):
        out.add("count of every halfedge")
    if count and count == 2 * m.m.n:
        out.add("count of every halfedge, twice")
    if count > len(none):
        out.add("count above the halfedges without direction")
    if 2 in twice.values():
        out.add("a halfedge counted twice")
    if count and m.m.old:
        out.add("counted with old tangents")
    if any(m.m.pair[e] not in twice for e in twice):
        out.add("a halfedge counted and its pair not")
    if any(m.m.diagonal(e) and e not in twice for e in none):
        out.add(f"not counted, inside a quad by {'its old weight' if m.m.old else 'its face'}")
    for where, e, along in m.made:
        v = m.edge(e)
        if e not in none and dot(v, v) < SMALLEST:
            out.add("not counted, squares subnormal")
        if e not in none and any(x != 0 == y for x, y in zip(v, unit(v))):
            out.add("not counted, a zero by the division")
        if e not in none and along is not None and not has_direction(along):
            out.add("not counted, a tangent without direction on an edge with one")
    if case["op"] == "sharp":
        crease_features(m, none, out)
    else:
        normal_features(m, none, out)
    return out


def of_two(name, edges, none, out):
    """How many of two edges have no direction."""
    for two in edges:
        out.add(f"{name}, {('none', 'one', 'both')[sum(e in none for e in two)]} of two")


def crease_features(m, none, out):
    of_two("a crease through", [at for at in m.creases.values() if len(at) == 2], none, out)
    if any(where == "through" and e in none and m.m.diagonal(e) for where, e, _ in m.made):
        out.add("a crease through, counted inside a quad")
    for at in m.creases.values():
        if at & none and len(at) != 2:
            out.add("no direction at a single crease" if len(at) == 1 else "no direction at a meeting")


def normal_features(m, none, out):
    edges = [e for where, e, _ in m.made if where == "flat face"]
    of_two("a flat face", zip(edges[0::2], edges[1::2]), none, out)
    if any(where == "filled in" and e in edges and e in none for where, e, _ in m.made):
        out.add("a flat face, over one filled in")
    walked = {e for v in set(m.m.start) for e in m.m.round(m.m.start.index(v))}
    if none - walked:
        out.add("not counted, on a round that is not walked")
