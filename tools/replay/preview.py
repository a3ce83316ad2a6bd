"""Calls of the preview of spreading and the oracle's answers to them.

The cases are random meshes of the oracle, as they are and with other flags, marks and tangents, the rarer features first, its damaged
meshes, and meshes with a byte list of another length or a flag that is none.

A case (cases.py) has the lists positions, halfedges, point normals, flags and tangents, u32 looked, u32 turned, and the byte
list after the call: where it is refused, the 7s that it is lent with.
"""
import math, random
from .cases import Mesh, answered, asked, chosen, count, mesh_features, oracle, record, refusal, refused, small, spread_lists, text, u32, word, write

LARGEST = 18  # halfedges of a mesh that is taken
SMALL = 4, 12  # points and halfedges of one with no rare feature
ACCEPTED = 1020
RARE = 30  # cases of a feature that are taken before the others
REFUSED = 15  # of the oracle's damaged meshes, for each number
LONGEST = 36  # numbers of their lists
PLACES = 60  # cases with a byte list of another length
FLAGS = 30  # and with flags that are none
ROOM = 32  # places of the byte list in the program
LENT = 7  # in each of them


def packed(case, answer):
    looked, _, turned = answer["looked"] if answer else (0, 0, 0)
    after = answer["bytes"] if answer else [LENT] * min(places(case), ROOM)
    return spread_lists(case) + u32(int(looked)) + u32(int(turned)) + small(after)


def places(case):
    """The length of the byte list: a place for each halfedge where the case does not say it."""
    return int(case.get("room", case["counts"][1:])[0])


def fits(case):
    # a longer byte list is cut where a question before, or the lists beside it, refuse the case
    return 0 <= places(case) <= ROOM or refusal(case)[0] in (1, 2) and int(case["counts"][1]) > ROOM


def is_small(case):
    return all(int(x) <= most for x, most in zip(case["counts"], SMALL))


def walks(m, fixed, start):
    """The halfedges of the first walk, and those that the second would turn."""
    first, second, e, left = [], [], start, False
    while True:
        e = m.next(m.pair[e])
        left = left or e != start and fixed[e]
        first.append(e)
        if not left and m.weight[e] != -1:
            second.append(e)
        if fixed[e] and m.weight[e] != -1:
            return first, second


def start_features(m, fixed, shown, start):
    """What the walks from a start have; `shown` are the bytes."""
    first, second = walks(m, fixed, start)
    unmarked = [e for e in first if m.weight[e] != -1]
    out = {"a mark passed over"} if len(unmarked) < len(first) else set()
    if not all(math.isfinite(x) for e in unmarked for x in m.tangent[e]):
        out.add("a tangent that is not finite on a walk")
    if len(unmarked) == 1:
        return out | {"a start with one angle"}
    if not second:
        return out | {"a start with a fixed, marked halfedge next"}
    if not shown[second[0]]:
        return out | {"a start with a normal of length 0"}
    out |= {"a start that turns", "a walk back to its start" if first[-1] == start else "a walk between two fixed halfedges"}
    if start in second:
        out.add("a sole fixed halfedge turned")
    if len(second) < len(unmarked):
        out.add("the walks differ")
    if any(not fixed[e] for e in unmarked if e not in second):
        out.add("the walks differ by one that is not fixed")
    if len(unmarked) < len(first) and len(second) > 1:
        out.add("several turned in a walk with a mark")
    return out


def features(case, answer):
    m, fixed, shown = Mesh(case), [int(x) for x in case.get("fl", [])], [int(x) for x in answer["bytes"]]
    starts = [e for e in range(m.n) if fixed[e] and m.weight[e] != -1]
    found = [start_features(m, fixed, shown, e) for e in starts]
    out = mesh_features(case, m).union(*found)
    if len({"a start that turns" in x for x in found}) == 2:
        out.add("a start that turns beside one that does not")
    if any(shown):
        out |= {"a byte 1"} | {f"a byte 1 and {x}" for x in ("an infinity", "a not-a-number") if x in out}
    if sum(fixed) > len(starts):
        out.add("a fixed, marked halfedge")
    sides = {marks(m, e) for e in range(m.n)}
    out |= {x for k, x in ((1, "a mark on one side only"), (2, "a mark on both sides")) if k in sides}
    if m.n:
        out.add(f"a round of {max(len(m.round(e)) for e in range(m.n))}")
        out.add("no flags" if not any(fixed) else "all flags" if all(fixed) else "some flags")
    return out


def marks(m, e):
    return (m.weight[e] == -1) + (m.weight[m.pair[e]] == -1)


def changed(case, rnd):
    """The case with other flags and marks, and with tangents of small whole numbers now and then."""
    n, c = int(case["counts"][1]), dict(case)
    one, every, mark, whole = rnd.randrange(n), rnd.choice([1, 2, 3, 6, None]), rnd.choice([2, 4, 8, None]), rnd.randrange(2)
    c["fl"] = [str(int(e == one if every is None else rnd.randrange(every) == 0)) for e in range(n)]
    c["tan"] = [word(float(rnd.randint(-1, 1))) if whole else x for x in case["tan"]]
    c["tan"][3::4] = [word(-1.0) if mark and rnd.randrange(mark) == 0 else word(rnd.choice([1.0, 0.5, -2.0])) for _ in range(n)]
    return c


def other_places(case, k):
    """The case with a byte list of another length; sometimes with a flag that is none, which is asked later."""
    n, c = int(case["counts"][1]), dict(case)
    c["room"] = [(n - 1, n + 1, 0, n + 3, 2 * n, ROOM)[k % 6]]
    if k % 4 == 3:
        c["fl"] = ["2", *case["fl"][1:]]
    return c


def other_flags(case, k):
    """The case with a flag that is none at the first, a middle or the last place, and sometimes with more of them after it."""
    n, c = int(case["counts"][1]), dict(case)
    place, bad = (0, n // 2, n - 1)[k % 3], str((2, 3, 127, 128, 255)[k % 5])
    c["fl"] = [bad if e == place or k % 4 == 0 and e > place else x for e, x in enumerate(case["fl"])]
    return c


def refused_features(case):
    (number, place), n, (points, _) = refusal(case), int(case["counts"][1]), case["counts"]
    out, room, broken = {f"refused {number}"}, places(case), [e for e, x in enumerate(case.get("fl", [])) if int(x) > 1]
    lengths = [("pos", 3 * int(points)), ("vn", 3 * int(points)), ("he", 3 * n), ("tan", 4 * n), ("fl", n)]
    if number == 2 and all(len(case.get(k, [])) == x for k, x in lengths):
        out.add("2, the byte list alone")
        out.add("2, no places" if room == 0 else f"2, places {room - n:+}" if abs(room - n) == 1 else "2, places more" if room > n else "2, places less")
        out |= {"2 before 11"} if broken else set()
    if number == 11:
        out.add("11 at the first" if place == 0 else "11 at the last" if place == n - 1 else "11 between")
        out |= {"11, several flags"} if len(broken) > 1 else set()
    elif number > 2 and broken:
        out.add("11 after an earlier question")
    return out


def damaged(meshes):
    """The oracle's damaged meshes, so many for each number, and the given meshes with other byte lists and flags."""
    taken, found = [], [c for c in refused("7", LONGEST, "refuse-preview", "5000") if fits(c)]
    for number in (1, 2, 3, 4, 5, 6, 7, 11):
        taken += [c for c in found if refusal(c)[0] == number][:REFUSED]
    taken += asked([other_places(c, k) for k, c in enumerate(meshes[:PLACES])])
    return taken + asked([other_flags(c, k) for k, c in enumerate(meshes[PLACES : PLACES + FLAGS])])


def main():
    rnd = random.Random(5)
    pairs = answered(oracle(["gen", "preview", "3", "20000"]), LARGEST)
    pairs += answered(text([changed(c, rnd) for c, a in pairs * 4 if c.get("he")]), LARGEST)
    rnd.shuffle(pairs)
    # a sixth of those that turn nothing
    pairs = [(c, a) for k, (c, a) in enumerate(pairs) if "1" in a["bytes"] or k % 6 == 0]
    taken = chosen(pairs, features, ACCEPTED, RARE, is_small)
    rest = damaged([c for c, a in pairs if int(c["counts"][1]) == 6])
    count(refused_features(c) for c in rest)
    write([record(c, packed(c, a)) for c, a in taken], [record(c, packed(c, None), *refusal(c)) for c in rest])
