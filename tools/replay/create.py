"""Calls of both makings and the oracle's answers to them.

The cases are random meshes of the oracle, as they are and with other entries, normals and old weights, and with edges without
direction, the rarer features first, and its damaged meshes. makings.py works out what they have by the Rust's steps, and with it the count of circular tangents on an edge without direction, which has to be the oracle's.

A case (cases.py) has u32 old (1 where there are old tangents), u32 the count (0 where refused), u32 the ends of the positions,
the point normals and the face normals in the list of floats, u32 the end of the halfedges in the list of i32; then the list of floats
(positions, point normals, face normals, and the smoothness of the entries or the row list), the list of i32 (halfedges, references of
the triangles), the halfedges of the entries, the old tangents, and the tangents after the call.
"""
import collections, math, random, sys
from .cases import Mesh, answered, blocks, chosen, count, counts, floats, halfedges, mesh_features, number, one_nan, oracle, record, refusal, refused, signed, text, u32, word, write
from .makings import count_features, lent_normals, triples

LARGEST = 24  # halfedges of a mesh that is taken
SMALL = 12  # and of one with no rare feature
LARGEST_COUNTED = 18  # the same of the counted cases
SMALL_COUNTED = 6
ACCEPTED = 4000  # cases of each making
REFUSED = 300
ROWS = 1050  # cases with rows of their own
ROWS_REFUSED = 320
COUNTED = 1050  # counted cases of each making: many of their edges have no direction
RARE = 150  # cases of a feature that are taken before the others
RARE_COUNTED = 32  # the same of the counted ones
ROOM = {"floats": 256, "signed": 128, "sh": 64, "tan": 128, "points": 32, "bytes": 4096}  # places of the lists in the program
LENT = "3fe0000000000000"  # a tangent's numbers where there are no old ones: 0.5


def packed(case, answer):
    get = lambda k: case.get(k, [])
    old = "tan" in case
    lent = one_nan(get("tan")) if old else [LENT] * (4 * min(int(case["counts"][1]), LARGEST))
    ends = [len(get("pos")), len(get("vn")), len(get("fn"))]
    lists = u32(old) + u32(int(answer["directionless"][0]) if answer else 0) + b"".join(u32(sum(ends[: k + 1])) for k in range(3)) + u32(len(halfedges(case)))
    lists += floats(get("pos") + get("vn") + get("fn") + get("ss") + row_list(case)) + signed(halfedges(case) + get("ref")) + counts(get("sh"))
    return lists + floats(get("tan")) + floats(answer.get("tan", []) if answer else lent)


def row_list(case):
    """The row list: that of the case, or the lent normals of the halfedges."""
    return case.get("prop", case.get("nrm", []))


def fits(case):
    get = lambda k: len(case.get(k, []))
    lists = get("pos") + get("vn") + get("fn") + get("ss") + len(row_list(case)) <= ROOM["floats"] and len(halfedges(case)) + get("ref") <= ROOM["signed"]
    # a mesh of more points has too few places in the scratch list: it is taken where question 1 or 2 refuses it
    points = int(case["counts"][0]) <= ROOM["points"] or case.get("expect", [0, 9])[1] in ("1", "2")
    return lists and get("sh") <= ROOM["sh"] and get("tan") <= ROOM["tan"] and points


def is_small(case):
    return int(case["counts"][1]) <= SMALL


def shared_features(case, answer, m):
    """The features of a case of either making."""
    out = mesh_features(case, m) | {"old tangents" if m.old else "no old tangents"}
    out |= {f"old weight {x}" for x in (-1, -2, -3) if x in m.weight}
    if any(math.isnan(number(x)) for x in answer.get("tan", [])):
        out.add("a not-a-number in the answer")
    return out


def entries_of(case, m, out):
    """The smoothness of each halfedge by the entries, and what the entries have."""
    smooth, named = [1.0] * m.n, set()
    for e, s in zip(map(int, case.get("sh", [])), map(number, case.get("ss", []))):
        if s >= 1:
            out.add("an entry ignored")
            continue
        if e in named:
            out.add("an entry doubled")
        if m.pair[e] in named:
            out.add("entries on both sides")
        if m.diagonal(e):
            out.add("an entry on a quad diagonal")
        named.add(e)
        smooth[e] = min(smooth[e], s)
    return smooth


def creases_of(case, m, out):
    """The creases at each point after the edges of the flat faces were added."""
    smooth, flat = entries_of(case, m, out), m.flat_faces()
    for ref in {m.ref[t] for t in flat}:
        out.add("a flat face of two triangles" if sum(m.ref[t] == ref for t in flat) == 2 else "a flat face of more triangles")
    for e in range(m.n):
        f = m.pair[e]
        if e // 3 in flat and (f // 3 not in flat or not m.same_face(e, f)):
            smooth[e] = min(smooth[e], 0.0)
            out.add("an edge of a flat face")
    creases = collections.defaultdict(list)
    for e in range(m.n):
        if m.start[e] < m.end[e] and (smooth[e] < 1 or smooth[m.pair[e]] < 1):
            creases[m.start[e]].append(e)
            creases[m.end[e]].append(m.pair[e])
    return creases, smooth


def sharp_features(case, m, out):
    creases, smooth = creases_of(case, m, out)
    for at in creases.values():
        round = m.round(at[0])
        if len(at) == 1:
            out.add("one crease at a point")
        elif len(at) == 2:
            out.add("through" if at[1] in round else "through across two rounds")
            if any(m.diagonal(e) for e in round if e not in at):
                out.add("through past a quad diagonal")
        else:
            out.add("a meeting of three" if len(at) == 3 else "a meeting of more")
            if all(smooth[e] == 0 and smooth[m.pair[e]] == 0 for e in at):
                out.add("a meeting, all smoothness 0")
            if any(e not in round for e in at):
                out.add("a meeting across two rounds")


def alike(a, b):
    """Nearly `equal_normals`, with lengths whose squares may overflow; the cases were chosen by it."""

    def unit(v):
        length = math.hypot(*v)
        return [x / length if 0 < length < math.inf else 0.0 for x in v]

    return sum(x * y for x, y in zip(unit(a), unit(b))) > 0.9999


def row_features(used, rows):
    """Which rows the halfedges have, of so many."""
    out = set()
    if len(set(used)) < len(used):
        out.add("a row shared")
    if len(set(used)) < rows:
        out.add("a row unused")
    if rows == 1:
        out.add("one row only")
    if used != sorted(used):
        out.add("rows out of order")
    return out


def refused_features(case):
    """How a refused case breaks question 12, and what else it breaks."""
    (number, place), halfedges = refusal(case), int(case["counts"][1])
    rows, used = len(case.get("prop", [])) // 3, [int(x) for x in case.get("row", [])]
    broken = [e for e, x in enumerate(used) if not 0 <= x < rows]
    if number in (1, 2) or not broken:
        return set()
    out = {"a row broken, refused by an earlier question"} if number != 12 else set()
    if number == 12:
        out = {"12 at the first" if place == 0 else "12 at the last" if place == halfedges - 1 else "12 between"}
        out.add("12, a negative row" if used[place] < 0 else "12, one past the last row" if used[place] == rows else "12, a row further past")
        if len(broken) > 1:
            out.add("12, several rows broken")
        if any(int(x) < 1 for x in case.get("ref", [])[0::3]):
            out.add("12, a mesh number broken too (8)")
    if number == 7:
        out.add("7 before 12")
    return out


def normals_features(case, m, out):
    lent, faces = lent_normals(case), triples(case["fn"])
    if "prop" in case:
        out |= row_features([int(x) for x in case["row"]], len(case["prop"]) // 3)
    missing = [x == (0.0, 0.0, 0.0) for x in lent]
    if any(missing[e] and math.copysign(1, x) < 0 for e in range(m.n) for x in lent[e]):
        out.add("a normal missing, zeros of the other sign")
    if not all(math.isfinite(x) for v in lent for x in v):
        out.add("a normal not finite")
    for v in set(m.start):
        round = m.round(m.start.index(v))
        steps = list(zip(round, round[1:] + round[:1]))
        runs = sum(missing[e] and not missing[f] for e, f in steps)
        if all(missing[e] for e in round):
            out.add("all normals missing at a point")
        if runs:
            out.add("a run of normals missing" if runs == 1 else "several runs of normals missing")
        kept = [alike(lent[e], lent[f]) for e, f in steps if not (missing[e] or missing[f] or m.diagonal(e))]
        out |= {"normals equal" if x else "normals different" for x in kept}
        flat = [alike(lent[e], faces[e // 3]) for e in round]
        edges = sum(flat[k] != flat[k - 1] for k in range(len(flat)))
        if edges and all(kept):
            out.add("flat faces on one side" if edges == 2 else "flat faces on several sides")


def features(case, answer):
    m = Mesh(case)
    out = shared_features(case, answer, m)
    (sharp_features if case["op"] == "sharp" else normals_features)(case, m, out)
    return out


def other_entries(case, how, rnd):
    """All halfedges sharp, or many entries of a few values."""
    n = int(case["counts"][1])
    if how == 0:
        entries, values = list(range(n)), [0.0]
    elif how == 1:
        entries, values = [rnd.randrange(n) for _ in range(2 * n)], [0.0, 0.25, 0.5, 0.75, 1.0, 2.0]
    elif how == 2:
        entries, values = [rnd.randrange(n) for _ in range(n // 2)] * 2, [0.125, 0.5, 0.875]
    else:
        entries, values = [rnd.randrange(n) for _ in range(n)], [0.0, 0.0, 0.5, 1.0 - 2.0**-53]
    return {"sh": entries, "ss": [word(rnd.choice(values)) for _ in entries]}


def other_normals(case, how, rnd):
    """Some normals missing, some those of their faces, one not finite, or all alike but those of some flat faces."""
    n, lent, faces = int(case["counts"][1]), list(case["nrm"]), case["fn"]
    up = [word(x) for x in (0.0, 0.6, 0.8)]
    for e in range(n):
        own = slice(3 * e, 3 * e + 3)
        face = faces[e - e % 3 : e - e % 3 + 3]
        if how == 3:
            lent[own] = face if (e // 3) % 3 == 0 else up
        elif rnd.randrange(3) == 0:
            lent[own] = [face, [word(rnd.choice([0.0, -0.0])) for _ in range(3)], face][how]
    if how == 2:
        lent[rnd.randrange(3 * n)] = word(rnd.choice([math.inf, -math.inf, math.nan]))
    return {"nrm": lent}


def changed(case, how, rnd):
    """The case with other entries or normals, and with other old weights."""
    c = dict(case)
    c.update((other_entries if case["op"] == "sharp" else other_normals)(case, how, rnd))
    if "tan" in c:
        c["tan"] = [word(-float(rnd.randint(1, 3))) if k % 4 == 3 and rnd.randrange(4) == 0 else x for k, x in enumerate(c["tan"])]
    return c


def counting(cases):
    """Cases as the oracle reads them, with the line that asks for the count."""
    return text([{**c, "count": []} for c in cases])


def moved(case, how, e, rnd):
    """The positions with the ends of halfedge e, all points or those of its triangle together, with its ends apart by a number of
    which a part vanishes, by more than a number holds, or by very little, or with one end that is not finite."""
    pos, start = list(case["pos"]), [int(x) for x in case["he"][0::3]]
    at = lambda v: slice(3 * v, 3 * v + 3)
    u, v = start[e], int(case["he"][3 * e + 1])
    if how < 3:
        for x in ([v], range(len(pos) // 3), start[e - e % 3 : e - e % 3 + 3])[how]:
            pos[at(x)] = pos[at(u)]
        return pos
    far = rnd.choice([-1.0, 1.0]) * rnd.choice([1.2e308, 1.7e308])
    near = rnd.choice([1e-163, 1.5e-162, 3e-162, -1e-161, 1e-155])
    ends = ([(0.0, 0.0, 0.0), (5e-324, rnd.choice([-3.0, 7.0]), 0.0)], [(far, 0.0, 1.0), (-far, 0.0, 1.0)], [(0.0, 0.0, 0.0), (near, 0.0, near)])
    strange = rnd.choice([math.inf, -math.inf, math.nan])
    for x, place in zip((u, v), ends[how - 3] if how < 6 else [(strange, 0.0, 0.0)]):
        pos[at(x)] = [word(y) for y in place]
    return pos


def pinched(case, how, rnd):
    """The case with edges without direction, or nearly, and a crease through a point, a single flat face, normals missing at a point or
    other entries, normals and old weights there."""
    c, n = dict(case) if "prop" in case else changed(case, how % 4, rnd), int(case["counts"][1])
    e, start, pair = rnd.randrange(n), [int(x) for x in c["he"][0::3]], [int(x) for x in c["he"][2::3]]
    c["pos"] = moved(c, how % 7, e, rnd)
    here = [x for x in range(n) if start[x] == start[e]]
    if c["op"] == "sharp" and how % 3:
        c["sh"] = [e, rnd.choice(here), pair[e]][: how % 5 + 1]
        c["ss"] = [word(rnd.choice([0.0, 0.25, 0.5])) for _ in c["sh"]]
    if "nrm" in c and how % 3:
        for x in here:
            c["nrm"][3 * x : 3 * x + 3] = [word(0.0)] * 3 if how % 3 == 1 else c["fn"][e - e % 3 : e - e % 3 + 3]
    return c


def counted_cases(rnd):
    """Accepted cases of both makings, many with edges without direction."""
    pairs = answered(counting(blocks(oracle(["gen", "count", "3", "12000"]))), LARGEST_COUNTED)
    pairs += answered(counting(pinched(c, k, rnd) for k, (c, a) in enumerate(pairs) if c.get("he")), LARGEST_COUNTED)
    rnd.shuffle(pairs)
    pairs = [(c, a) for c, a in sorted(pairs, key=lambda x: not is_small(x[0])) if fits(c)]
    found, out = lambda c, a: count_features(c, a) | shared_features(c, a, Mesh(c)), []
    for kind in ("sharp", "normals"):
        print("count,", kind, file=sys.stderr)
        out += chosen([(c, a) for c, a in pairs if c["op"] == kind], found, COUNTED, RARE_COUNTED, lambda c: int(c["counts"][1]) <= SMALL_COUNTED)
    print(sum("prop" in c for c, a in out), "with rows of their own", file=sys.stderr)
    return [record(c, packed(c, a)) for c, a in out]


def main():
    rnd, accepted, rest = random.Random(5), [], []
    for kind in ("sharp", "normals"):
        pairs = answered(counting(blocks(oracle(["gen", kind, "3", "20000"]))), LARGEST)
        pairs += answered(counting(changed(c, k % 4, rnd) for k, (c, a) in enumerate(pairs) if c.get("he")), LARGEST)
        rnd.shuffle(pairs)
        print(kind, file=sys.stderr)
        accepted += [record(c, packed(c, a)) for c, a in chosen([(c, a) for c, a in pairs if fits(c)], features, ACCEPTED, RARE, is_small)]
        damaged = [c for c in refused("7", 4 * 18) if c["op"] == kind and fits(c)][:REFUSED]
        print("refused:", collections.Counter(refusal(c)[0] for c in damaged), file=sys.stderr)
        rest += [record(c, packed(c, None), *refusal(c)) for c in damaged]
    pairs = [(c, a) for c, a in answered(counting(blocks(oracle(["gen", "rows", "3", "8000"]))), LARGEST) if fits(c)]
    print("rows", file=sys.stderr)
    accepted += [record(c, packed(c, a)) for c, a in chosen(pairs, features, ROWS, RARE, is_small)]
    damaged = [c for c in refused("7", 4 * 18, "refuse-rows", "4000") if fits(c)][:ROWS_REFUSED]
    print("refused:", collections.Counter(refusal(c)[0] for c in damaged), file=sys.stderr)
    count(refused_features(c) for c in damaged)
    rest += [record(c, packed(c, None), *refusal(c)) for c in damaged]
    accepted += counted_cases(random.Random(7))
    assert max(map(len, accepted + rest)) <= ROOM["bytes"]
    write(accepted, rest)
