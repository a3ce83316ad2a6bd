"""Calls of both crease listings and the oracle's answers to them.

The oracle answers the ported listing (`crease2`) by the unchanged Rust, and the clean one and the tally of both by the rule of
docs/changes/06-clean-listing.md. The cases are random meshes of the oracle, as they are and with other normals and limits, the rarer
features first, and its damaged meshes. Each is asked of both listings.

A case (cases.py) has the halfedges, the face normals, a list of the angle and the smoothness, u32 the places of each list of
entries, the halfedges and the smoothness of the entries, and u32 the tally.
"""
import math, random
from .cases import Mesh, asked, blocks, chosen, crease_lists, mesh_features, number, oracle, record, refusal, refused, text, word, write
from .makings import triples

LISTINGS = "crease2", "clean"
LARGEST = 36  # halfedges of a mesh that is taken
SMALL = 12  # and of one with no rare feature
ACCEPTED = 1200  # meshes
RARE = 30  # of them with a feature, that are taken before the others
REFUSED = 45  # meshes of each number
RARE_REFUSED = 8
LONGEST = 36  # numbers of their lists
ROOM = 256, 4096  # places of a list in the program, and bytes of a record
LENT = 0.1  # what the program lends the smoothness with

LIMITS = (30.0, 60.0, 89.99999999999999, 90.0, 90.00000000000001, 91.0, 120.0, 0.0, math.nan)
TINY = {5e-324: "5e-324", -5e-324: "-5e-324", 1e-200: "1e-200", 2.0**-1022: "the smallest normal number"}
ZEROS = "no number is", "one number is", "two numbers are"


# ---- what a mesh has


def is_zero(normal):
    return not any(normal)


def signs(normal):
    """Of a normal of zeros."""
    negative = sum(math.copysign(1, x) < 0 for x in normal)
    return {0: "all 0", 3: "all -0"}.get(negative, "of both signs")


def is_right(a, b):
    """Is one of two normals zero, and the other finite? Their angle is then ninety degrees."""
    return (is_zero(a) or is_zero(b)) and all(map(math.isfinite, a + b))


def crease_features(own, other):
    """Of an edge that the ported listing names."""
    zero = [x for x in (own, other) if is_zero(x)]
    if zero:
        side = "both sides" if len(zero) == 2 else "its own side" if zero[0] is own else "its pair's side"
        return {f"a crease with a zero normal on {side}"} | {f"a crease with zeros {signs(x)}" for x in zero}
    out = set()
    for x in own, other:
        rest = [y for y in x if y]
        out.add(f"a crease with a normal of which {ZEROS[3 - len(rest)]} zero")
        if len(rest) == 1 and rest[0] in TINY:
            out |= {f"a crease with zeros beside {TINY[rest[0]]}", "a crease with a tiny normal on " + ("its own side" if x is own else "its pair's side")}
    return out


def other_features(own, other):
    """Of an edge that neither listing names."""
    out = set()
    for a, b in (own, other), (other, own):
        if any(map(math.isnan, a)) and 0 in a:
            out.add("no crease, a not-a-number beside zeros in a normal")
        if is_zero(a) and any(map(math.isnan, b)):
            out.add("no crease, a zero normal beside a not-a-number")
        elif is_zero(a) and any(map(math.isinf, b)):
            out.add("no crease, a zero normal beside an infinity")
    return out | ({"no crease, a zero normal below the limit"} if is_right(own, other) else set())


def listing_features(m, ported, clean):
    """Of the edges that the listings name, each by its forward halfedge."""
    if not ported:
        return {"no entries"}
    omitted = [e not in clean for e in ported]
    n = len(ported)
    out = {
        "the listings differ": any(omitted),
        "the listings are the same": not any(omitted),
        "only the ported listing has entries": all(omitted),
        "every edge in the ported listing": 2 * n == m.n,
        "every edge in the clean listing": 2 * len(clean) == m.n,
        "an omitted edge first": omitted[0] and not all(omitted),
        "an omitted edge last": omitted[-1] and not all(omitted),
        "an omitted edge between two that are not": any(omitted[k] and not all(omitted[:k]) and not all(omitted[k:]) for k in range(n)),
        "several edges omitted": sum(omitted) > 1,
        "one edge omitted": sum(omitted) == 1,
    }
    return {x for x, has in out.items() if has}


def limit_features(case):
    angle, smooth = map(number, case["ang"])
    limit = f"limit {'not a number' if math.isnan(angle) else angle}" if angle in LIMITS or math.isnan(angle) else "another limit"
    out = {
        "smoothness not a number": math.isnan(smooth),
        "smoothness infinite": math.isinf(smooth),
        "smoothness 0": smooth == 0 and math.copysign(1, smooth) > 0,
        "smoothness 1": smooth == 1,
        "smoothness with a set sign bit": math.copysign(1, smooth) < 0,
    }
    return limit, {limit} | {x for x, has in out.items() if has}


def features(case, answers):
    m, normals = Mesh(case), triples(case["fn"])
    ported, clean = ([int(e) for e in a["list"][0::2]] for a in answers)
    limit, out = limit_features(case)
    out |= mesh_features(case, m) | listing_features(m, ported, clean)
    for e in range(m.n):
        if m.start[e] < m.end[e]:
            own, other = normals[e // 3], normals[m.pair[e] // 3]
            out |= (crease_features if e in ported else other_features)(own, other)
            out |= {f"{limit} and a right angle by a zero normal"} if is_right(own, other) else set()
    if any(map(is_zero, normals)) and "the listings are the same" in out:
        out.add("the listings are the same, though a normal is zero")
    return out


# ---- other normals and limits


def zero(rnd, own):
    return rnd.choice([[0.0] * 3, [-0.0] * 3, [rnd.choice([0.0, -0.0]) for _ in range(3)]])


def with_one(rnd, values):
    """Zeros, and one of these values in place of one of them."""
    out = zero(rnd, None)
    out[rnd.randrange(3)] = rnd.choice(values)
    return out


def tiny(rnd, own):
    return with_one(rnd, list(TINY))


def axis(rnd, own):
    return with_one(rnd, [1.0, -1.0])


def in_plane(rnd, own):
    out = [rnd.choice([0.6, -0.6]), rnd.choice([0.8, -0.8])]
    out.insert(rnd.randrange(3), rnd.choice([0.0, -0.0]))
    return out


def not_finite(rnd, own):
    return with_one(rnd, [math.nan, math.nan, math.inf, -math.inf])


def same(rnd, own):
    return own


MIXES = (zero,), (zero, axis), (axis, axis, axis, zero), (axis, in_plane, tiny), (zero, not_finite, same), (same, same, in_plane, zero), (same, same, same, same, zero)


def changed(case, k, rnd):
    """The case with other normals and now and then another limit."""
    c, mix = dict(case), MIXES[k % len(MIXES)]
    c["fn"] = [word(x) for own in triples(case["fn"]) for x in rnd.choice(mix)(rnd, own)]
    if rnd.randrange(4):
        c["ang"] = [word(rnd.choice(LIMITS)), case["ang"][1]]
    return c


# ---- the records


def fits(case):
    return 0 <= int(case["room"][0]) <= ROOM[0] and number(case["ang"][1]) != LENT


def of_both(cases):
    """The cases as the oracle is asked of each listing."""
    return [[{**c, "op": op} for c in cases] for op in LISTINGS]


def answered(cases):
    """The cases, each with the oracle's answers to both listings."""
    answers = [blocks(oracle(["run"], text(one))) for one in of_both(cases)]
    return list(zip(cases, zip(*answers)))


def records(case, answers):
    return [record({**case, "op": op}, crease_lists(case, a)) for op, a in zip(LISTINGS, answers)]


def refused_features(case):
    (number, place), n = refusal(case), int(case["counts"][1])
    out = {f"refused {number}"}
    if number == 2:
        lists = [("halfedges", len(case["he"]), 3 * n), ("face normals", len(case["fn"]), n), ("entries", int(case["room"][0]), n)]
        wrong = [(name, have - need) for name, have, need in lists if have != need]
        return out | {f"2, {name} {'less' if by < 0 else 'more'}" if len(wrong) == 1 else "2, several" for name, by in wrong}
    if number > 2:
        out.add(f"{number} at the first" if place == 0 else f"{number} at the last" if place == n - 1 else f"{number} between")
    return out | ({"refused with a zero normal"} if any(map(is_zero, triples(case["fn"]))) else set())


def damaged():
    """The oracle's damaged meshes, so many for each number, of both listings."""
    found, taken = [(c, None) for c in refused("7", LONGEST, "refuse-clean", "30000") if fits(c)], []
    for number in range(1, 8):
        pairs = [(c, a) for c, a in found if refusal(c)[0] == number]
        taken += [c for c, _ in chosen(pairs, lambda c, a: refused_features(c), REFUSED, RARE_REFUSED, lambda c: True)]
    return [c for cases in of_both(taken) for c in asked(cases)]


def main():
    rnd = random.Random(6)
    cases = [c for c in blocks(oracle(["gen", "clean", "3", "12000"])) if int(c["counts"][1]) <= LARGEST]
    cases += [changed(c, k, rnd) for k, c in enumerate(cases) if c.get("he")]
    pairs = answered([c for c in cases if fits(c)])
    rnd.shuffle(pairs)
    taken = chosen(pairs, features, ACCEPTED, RARE, lambda c: int(c["counts"][1]) <= SMALL)
    accepted, rest = [r for c, a in taken for r in records(c, a)], [record(c, crease_lists(c, None), *refusal(c)) for c in damaged()]
    assert max(map(len, accepted + rest)) <= ROOM[1]
    write(accepted, rest)
