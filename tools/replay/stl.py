"""STL files, and the oracle's answers to their reading.

The Rust reads no STL: the oracle reads a file by the rule of docs/changes/05-stl.md. The records are random files of the oracle, some with
other points, its damaged files, and files that are damaged here, the rarer features first.

A record is a run of numbers, little-endian: u32 the bytes of the record, u32 the number of the refusal (0: accepted), u32 its place, u32
halfedges and u32 points of the answer (0: refused), u32 the length of the file and its bytes, three u32 the places of the lists for points,
halfedges and normals, and, where the file is accepted, all places of these lists after the call: f64 in 8 bytes, i32 in 4, f64. Spare places
hold what the program lends them with.
"""
import collections, random, struct
from .cases import Mesh, blocks, chosen, numbers, oracle, text, u32, words, write

SMALL, MEDIUM, LARGE = 8, 48, range(86, 101)  # triangles of a file with no rare feature, of others, and of a few
FEW = 6
LONGEST = 8192  # bytes of a file, and places of the lists, that the program has room for
PLACES = 1024, 2048, 512
STRIDES = 3, 4, 3  # numbers of a point, a halfedge and a normal
SPARE = (0, 0, 0), (1, 0, 0), (0, 1, 0), (0, 0, 1), (2, 3, 2), (0, 0, 0), (3, 4, 3), (7, 9, 5)  # places beyond those needed
LENT = struct.pack("<d", 0.1), struct.pack("<i", -7), struct.pack("<d", 0.1)  # what the program lends
ACCEPTED = 560
REFUSED = 400
RARE = 25  # cases of a feature that are taken before the others
RARE_REFUSED = 8
ORDER = 30, 2, 31, 32  # in which the questions are asked

ZERO = 1 << 31  # -0
INFINITE = 0x7F80_0000
LARGEST_FINITE = INFINITE - 1
NOT_FINITE = INFINITE, INFINITE | ZERO, 0x7FC0_0000, INFINITE + 1, 2**32 - 1
# The factors of a key's hash in crates/stl/src/table.rt, and the prime.
FIRST = 0x1E37_79B1, 0x15EB_CA77, 0x1A85_EBCB
SECOND = 0x12B2_AE3D, 0x0765_71F7, 0x1165_667B
PRIME = 4294967291


class File:
    """A file: its header, its count, and of each whole triangle the bits of its normal and of its corners, and the ignored bytes."""

    def __init__(self, data):
        self.header, self.length, self.triangles = data[:80], len(data), []
        self.count = int.from_bytes(data[80:84], "little") if len(data) >= 84 else 0
        for t in range(size_of(data)):
            *x, rest = struct.unpack_from("<12I2s", data, 84 + 50 * t)
            self.triangles.append((tuple(x[:3]), (tuple(x[3:6]), tuple(x[6:9]), tuple(x[9:12])), rest))

    def needs(self):
        return [9 * len(self.triangles), 12 * len(self.triangles), 3 * len(self.triangles)]

    def corners(self):
        """The corners in order, -0 taken as 0."""
        return [clean(c) for t in self.triangles for c in t[1]]

    def broken(self):
        """The triangles that question 31 refuses."""
        return [k for k, (_, corners, _) in enumerate(self.triangles) if not (all(finite(b) for c in corners for b in c) and len({clean(c) for c in corners}) == 3)]

    def edges(self):
        at = self.corners()
        return [(at[h], at[h - h % 3 + (h + 1) % 3]) for h in range(len(at))]


def clean(corner):
    return tuple(0 if b == ZERO else b for b in corner)


def finite(bits):
    return bits % ZERO < INFINITE


def subnormal(bits):
    return 0 < bits % ZERO < 1 << 23


def data_of(case):
    return bytes.fromhex("".join(case["bytes"]))


def size_of(data):
    """The triangles of a file."""
    return (len(data) - 84) // 50


def stored(triangles, header=bytes(80)):
    body = b"".join(struct.pack("<12I2s", *normal, *corners[0], *corners[1], *corners[2], rest) for normal, corners, rest in triangles)
    return header + u32(len(triangles)) + body


def lent(data, k, places=None):
    """A case of a file, with lists of so many places: enough, and some of them spare, where it is not said."""
    places = places or [n + x for n, x in zip(File(data).needs(), SPARE[k % len(SPARE)])]
    return {"op": "stl", "id": str(k), "bytes": [data.hex()], "places": places}


def fits(case):
    return len(data_of(case)) <= LONGEST and all(0 <= n <= most for n, most in zip(case["places"], PLACES))


def answered(cases):
    """The cases that fit, each with the oracle's answer. It takes whole points, halfedges and normals."""
    cases = [c for c in cases if fits(c)]
    asked = [{k: v for k, v in c.items() if k != "places"} | {"room": [n // x for n, x in zip(c["places"], STRIDES)]} for c in cases]
    return list(zip(cases, blocks(oracle(["run"], text(asked)))))


def with_room(case, k):
    """A case of the oracle with its own room, and now and then a part of an item more."""
    part = ((0, 0, 0), (2, 3, 2), (1, 2, 1))[k % 3]
    places = [n * int(x) + more for n, x, more in zip(STRIDES, case["room"], part)] if "room" in case else None
    return lent(data_of(case), k, places)


# ---- what an accepted file has


def number_features(f):
    """Of the numbers of the corners and of the normals, and of the bytes that are not read."""
    raw = collections.defaultdict(set)
    for t in f.triangles:
        for c in t[1]:
            raw[clean(c)].add(c)
    corner, normal = {b for c in raw for b in c}, {b for t in f.triangles for b in t[0]}
    rest, points = b"".join(t[2] for t in f.triangles), set(raw)
    out = {
        **{f"-0 and 0 in number {i} of one point": any(len({c[i] for c in x}) > 1 for x in raw.values()) for i in range(3)},
        "only -0 in a point": any(x != {p} and len(x) == 1 for p, x in raw.items()),
        "a subnormal corner": any(map(subnormal, corner)),
        "a corner with the largest finite number": LARGEST_FINITE in {b % ZERO for b in corner},
        "points one step apart": any(p[:i] + (p[i] + 1,) + p[i + 1 :] in points for p in points for i in range(3)),
        "16 pairs of points that differ in one bit": sum(p[:i] + (p[i] ^ 1 << k,) + p[i + 1 :] in points for p in points for i in range(3) for k in range(32)) >= 32,
        "points that differ in a sign": any(p[:i] + (p[i] ^ ZERO,) + p[i + 1 :] in points for p in points for i in range(3)),
        "points of the same numbers in another order": len({tuple(sorted(p)) for p in points}) < len(points),
        "an infinity in a normal": bool({INFINITE, INFINITE | ZERO} & normal),
        "a quiet not-a-number in a normal": any(b % ZERO >= 0x7FC0_0000 for b in normal),
        "a signalling not-a-number in a normal": any(INFINITE < b % ZERO < 0x7FC0_0000 for b in normal),
        "-0 in a normal": ZERO in normal,
        "a subnormal number in a normal": any(map(subnormal, normal)),
        "a header that begins with solid": f.header.startswith(b"solid"),
        "a header of zeros": not any(f.header),
        "ignored bytes that are not 0": any(rest),
        "ignored bytes that are all 0": bool(rest) and not any(rest),
    }
    return {x for x, has in out.items() if has}


def hash_features(f):
    """How the keys share what the table sorts them by."""
    hashed = lambda a, b: sum(x * y for x, y in zip(FIRST + SECOND, a + b)) % PRIME
    points, edges = [hashed(p, p) for p in set(f.corners())], [hashed(*e) for e in f.edges()]
    out = {
        "two points of one hash": len(set(points)) < len(points),
        "two directed edges of one hash": len(set(edges)) < len(edges),
        "more than 40 directed edges of one hash": max(collections.Counter(edges).values(), default=0) > 40,
    }
    return {x for x, has in out.items() if has}


def shells(m):
    """The lowest halfedge of each halfedge's shell."""
    shell = [None] * m.n
    for first in range(m.n):
        left = [first] if shell[first] is None else []
        while left:
            e = left.pop()
            if shell[e] is None:
                shell[e] = first
                left += [m.next(e), m.pair[e]]
    return shell


def shell_features(m):
    if not m.n:
        return {"no triangles"}
    shell, named = shells(m), [m.start.index(v) // 3 for v in range(m.p)]
    rounds = {(m.start[e], min(m.round(e))) for e in range(m.n)}
    at = collections.defaultdict(set)
    for v, e in rounds:
        at[v].add(shell[e])
    near = [[m.pair[e] // 3 for e in range(3 * t, 3 * t + 3)] for t in range(m.n // 3)]
    out = {
        "several shells": len(set(shell)) > 1,
        "a shell that touches itself in a point": len(rounds) > sum(map(len, at.values())),
        "shells that touch in a point": any(len(x) > 1 for x in at.values()),
        "shells that touch in several points": sum(len(x) > 1 for x in at.values()) > 1,
        "two triangles on the same three points": any(len(set(x)) == 1 for x in near),
        "a point named in the last third of the triangles": max(named) >= 2 * m.n // 9,
        "a first halfedge paired in the last triangle": m.pair[0] // 3 == m.n // 3 - 1,
        "a triangle that names no new point between two that do": any(b - a > 1 for a, b in zip(named, named[1:])),
    }
    size = next(f"{x} triangles or less" for x in (2, 4, SMALL, 16, 32, MEDIUM, LARGE[-1]) if m.n <= 3 * x)
    return {x for x, has in out.items() if has} | {size}


def features(case, answer):
    f = File(data_of(case))
    m = Mesh({"counts": answer["counts"], "he": [x for k, x in enumerate(answer["he4"]) if k % 4 < 3]})
    spare = [have - need for have, need in zip(case["places"], (9 * f.count, 12 * f.count, 3 * f.count))]
    out = {f"spare places for {name}" for name, x in zip(("points", "halfedges", "normals"), spare) if x}
    out |= {"spare places that are no whole item"} if any(x % n for x, n in zip(spare, STRIDES)) else set()
    out |= set() if any(spare) else {"no spare places"}
    return out | number_features(f) | hash_features(f) | shell_features(m)


# ---- accepted files with other points


def moved(data, places, rnd):
    """The file with its points in other places, given by their bits; where there are too few, none."""
    f = File(data)
    points = list(dict.fromkeys(f.corners()))
    if len(points) > len(places):
        return None
    to = dict(zip(points, places))
    return stored([(normal, tuple(to[clean(c)] for c in corners), rest) for normal, corners, rest in f.triangles], rnd.choice([f.header, bytes(80), b"solid" + bytes(75)]))


def of_one_hash(rnd, count):
    """So many points on a line modulo the prime: all their keys, and those of all edges between them, have one hash."""
    out, low = [], rnd.randrange(1 << 16)
    (a, b, c), (d, e, g) = FIRST, SECOND
    inverse = pow(b * g - c * e, -1, PRIME)
    while len(out) < count:
        x = rnd.randrange(1 << 16) << 16 | low
        y, z = (c * d * x - a * g * x) * inverse % PRIME, (a * e * x - b * d * x) * inverse % PRIME
        if all(map(finite, (x, y, z))) and ZERO not in (x, y, z) and (x, y, z) not in out:
            out.append((x, y, z))
    return out


def extreme(rnd, count):
    """So many points at the ends of the finite numbers and about 0."""
    ends = [0, 1, (1 << 23) - 1, 1 << 23, LARGEST_FINITE, LARGEST_FINITE - 1, 0x3F80_0000]
    ends += [b | ZERO for b in ends[1:]]
    return rnd.sample([(x, y, z) for x in ends for y in ends for z in ends], count)


def plain(corners):
    return (0, 0, 0), corners, b"\0\0"


def tube(low, rings, high):
    """A closed tube: from a point over rings of points to another point."""
    turns = [list(zip(ring, ring[1:] + ring[:1])) for ring in rings]
    out = [plain((b, a, low)) for a, b in turns[0]] + [plain((a, b, high)) for a, b in turns[-1]]
    for below, above in zip(turns, turns[1:]):
        out += [plain(t) for (a, b), (c, d) in zip(below, above) for t in ((a, b, c), (b, d, c))]
    return out


def one_bit(i):
    """A double cone whose 16 points in a ring differ from one end in one bit of number i // 2 each."""
    base = (0x4012_3456, 0xC0FE_DCBA, 0x4055_AAAA)
    flipped = lambda k: tuple(b ^ (1 << k if j == i // 2 else 0) for j, b in enumerate(base))
    return stored(tube(base, [[flipped(16 * (i % 2) + k) for k in range(16)]], (1, 2, 3)))


def pinched(rnd):
    """A tube whose two ends are one point."""
    size = rnd.choice([3, 3, 4])
    end, *points = extreme(rnd, 1 + 2 * size)
    triangles = [turned_to(t, rnd.randrange(3)) for t in tube(end, [points[:size], points[size:]], end)]
    return stored(rnd.sample(triangles, len(triangles)))


def two_triangles(rnd):
    """Two triangles on the same three points."""
    a, b, c = extreme(rnd, 3)
    normal = lambda: tuple(rnd.choice([0, ZERO, 1, *NOT_FINITE, rnd.randrange(1 << 32)]) for _ in range(3))
    second = rnd.choice([(b, a, c), (a, c, b), (c, b, a)])
    return stored([(normal(), (a, b, c), b"\0\0"), (normal(), second, b"\1\0")])


def named_late(data, rnd):
    """The file in another order of its triangles: those at one point last."""
    f = File(data)
    late = rnd.choice(f.corners())
    return stored(sorted(f.triangles, key=lambda t: late in map(clean, t[1])), f.header)


def with_other_points(files, rnd):
    files = [d for d in files if size_of(d) > 0]
    for d in files[:120]:
        yield moved(d, of_one_hash(rnd, 60), rnd)
    for d in files[120:240]:
        yield moved(d, extreme(rnd, 60), rnd)
    for d in files[240:300]:
        yield named_late(d, rnd)
    for i in range(6):
        yield one_bit(i)
    for _ in range(30):
        yield two_triangles(rnd)
        yield pinched(rnd)


# ---- what a refused file has


def refused_30(f):
    if f.length < 84:
        return {"30, no bytes" if not f.length else "30, fewer than 84 bytes"}
    more = f.length - 84 - 50 * f.count
    out = {f"30, bytes {more:+}"} if abs(more) in (1, 50) else {"30, other lengths"}
    names = {0: "0", 2**32 - 1: "the largest", len(f.triangles) + ZERO: "one with another top bit", 21846: "the least above the limit"}
    return out | ({f"30, the count {names[f.count]}"} if f.count in names else set())


def refused_2(f, places):
    short = [(name, have - need) for name, have, need in zip(("points", "halfedges", "normals"), places, f.needs()) if have < need]
    if len(short) > 1:
        return {"2, several"}
    [(name, by)] = short
    out = {f"2, {name} alone"} | ({f"2, {name} alone by one place"} if by == -1 else set())
    return out | ({"2, no places"} if 0 in places else set())


def refused_31(f, place):
    corners, t = f.triangles[place][1], len(f.triangles)
    out = {"31 at the first" if place == 0 else "31 at the last" if place == t - 1 else "31 between"}
    out |= {"31, several triangles"} if len(f.broken()) > 1 else set()
    names = dict(zip(NOT_FINITE, ("infinity", "-infinity", "a quiet not-a-number", "a signalling not-a-number", "a not-a-number of all bits")))
    for j, c in enumerate(corners):
        for i, b in enumerate(c):
            if not finite(b):
                out |= {f"31, corner {j} not finite", f"31, number {i} not finite", f"31, {names[b]}"}
        other = corners[(j + 1) % 3]
        if clean(c) == clean(other):
            out |= {f"31, corners {j} and {(j + 1) % 3} equal"} | ({"31, equal but for the sign of a zero"} if c != other else set())
    return out


def unpaired(f):
    edges = f.edges()
    times = collections.Counter(edges)
    return {h: (times[a, b], times[b, a]) for h, (a, b) in enumerate(edges) if times[a, b] > 1 or not times[b, a]}


def refused_32(f, place):
    edges, found, n = f.edges(), unpaired(f), 3 * len(f.triangles)
    twice, reverse = found[place]
    out = {f"32, the {('first', 'second', 'third')[place % 3]} halfedge of its triangle"}
    out.add("32 at the first" if place == 0 else "32 at the last but two" if place == n - 3 else "32 between")
    out.add("32, no reverse" if twice == 1 else "32, twice and no reverse" if not reverse else "32, twice and one reverse" if reverse == 1 else "32, twice and two reverses")
    if twice > 2:
        out.add("32, three times or more")
    if twice > 1 and reverse == 1 and edges.index(edges[place][::-1]) < place:
        out.add("32, twice, and its reverse is lower")
    if {x[0] > 1 for x in found.values()} == {True, False}:
        out.add("32, halfedges of both kinds")
    if twice == 1 and any(x[0] > 1 for x in found.values()):
        out.add("32, no reverse before one twice")
    return out


def refused_features(case, answer):
    (number, place), f = map(int, answer["refused"]), File(data_of(case))
    later = {2: any(a < b for a, b in zip(case["places"], f.needs())), 31: bool(f.broken()), 32: bool(unpaired(f))}
    out = {f"refused {number}"} | {f"{number} before {x}" for x, has in later.items() if has and ORDER.index(x) > ORDER.index(number)}
    if number == 30:
        return out | refused_30(f)
    if any(a > b for a, b in zip(case["places"], f.needs())):
        out.add("spare places of a refused file")
    return out | (refused_2(f, case["places"]) if number == 2 else refused_31(f, place) if number == 31 else refused_32(f, place))


# ---- files that are damaged: `k` says where and how


def where(k, n):
    """The first, a middle or the last of n places."""
    return (0, n // 2, n - 1)[k % 3]


def with_corner(triangle, j, corner):
    normal, corners, rest = triangle
    return normal, corners[:j] + (corner,) + corners[j + 1 :], rest


def turned_to(triangle, j):
    """The same triangle from corner j on."""
    normal, corners, rest = triangle
    return normal, corners[j:] + corners[:j], rest


def changed(triangles, k, change):
    t = where(k, len(triangles))
    return triangles[:t] + [change(triangles[t])] + triangles[t + 1 :]


def with_new(triangles, k, *new):
    t = (0, len(triangles) // 2, len(triangles))[k % 3]
    return triangles[:t] + list(new) + triangles[t:]


def not_finite(triangles, k, rnd):
    j, i = k // 3 % 3, k // 9 % 3
    put = lambda c: c[:i] + (NOT_FINITE[k % 5],) + c[i + 1 :]
    return changed(triangles, k, lambda t: with_corner(t, j, put(t[1][j])))


def equal_corners(triangles, k, rnd):
    j = k // 3 % 3
    other = lambda c: tuple(b ^ ZERO if b % ZERO == 0 and k % 2 else b for b in c)
    return changed(triangles, k, lambda t: with_corner(t, j, other(t[1][(j + 1) % 3])))


def one_bit_off(triangles, k, rnd):
    j, i, by = k // 3 % 3, k // 9 % 3, 1 << rnd.choice([0, 0, 1, 8, 16, 24, 31])
    put = lambda c: c[:i] + (c[i] ^ by,) + c[i + 1 :]
    return changed(triangles, k, lambda t: with_corner(t, j, put(t[1][j])))


def hole(triangles, k, rnd):
    t = where(k, len(triangles))
    return triangles[:t] + triangles[t + 1 :]


def other_side(triangles, k, rnd):
    return changed(triangles, k, lambda t: (t[0], (t[1][1], t[1][0], t[1][2]), t[2]))


def new_points(rnd, count):
    return [(rnd.randrange(INFINITE), 7, x) for x in range(count)]


def alone(triangles, k, rnd):
    return with_new(triangles, k, plain(tuple(new_points(rnd, 3))))


def again(triangles, k, rnd):
    """A triangle a second time, now and then a third, and from any corner."""
    t = triangles[where(k // 3, len(triangles))]
    return with_new(triangles, k, *[turned_to(t, rnd.randrange(3)) for _ in range(1 + (k % 5 == 0))])


def both_sides(triangles, k, rnd):
    """Two further triangles on an edge, one on each side of it: the edge twice in both directions."""
    normal, (a, b, _), rest = turned_to(rnd.choice(triangles), rnd.randrange(3))
    [c] = new_points(rnd, 1)
    first, second = turned_to((normal, (a, b, c), rest), rnd.randrange(3)), turned_to((normal, (b, a, c), rest), rnd.randrange(3))
    return with_new(with_new(triangles, k, first), k // 3, second)


def side_by_side(triangles, k, rnd):
    """Two triangles on a new edge, in the same direction: the edge twice with no reverse."""
    a, b, c, d = new_points(rnd, 4)
    first, second = turned_to(plain((a, b, c)), k % 3), turned_to(plain((a, b, d)), k // 2 % 3)
    return with_new(with_new(triangles, k, first), k // 3, second)


WAYS = not_finite, equal_corners, one_bit_off, hole, other_side, alone, again, both_sides, side_by_side


def damaged(files, rnd):
    """Files of right length."""
    for k in range(1800):
        triangles = rnd.choice(files).triangles
        ways = [WAYS[k % 9]] if k % 4 else rnd.choices(WAYS, k=rnd.choice([2, 2, 3]))
        for i, way in enumerate(ways):
            triangles = way(triangles, k // 9 + i, rnd) if triangles else triangles
        yield stored(triangles, rnd.choice([bytes(80), b"solid" + bytes(75)]))


def other_lengths(data, k, rnd):
    """The file with bytes lost or added, or with another count."""
    count = int.from_bytes(data[80:84], "little")
    with_count = lambda n: data[:80] + u32(n % 2**32) + data[84:]
    ways = [data[:-1], data + b"\0", data[:-50], data + bytes(50), data[: rnd.randrange(84)], data[: (0, 79, 80, 83)[k // 13 % 4]], b""]
    ways += [with_count(n) for n in (count + 1, count - 1, 0, count + ZERO, -1, 21846, 2**30 + count)]
    return ways[k % len(ways)]


def other_places(needs, k, rnd):
    """The places of the lists, of which one is too short, or several are; the others have spare ones."""
    i, by = k % 3, (1, 1, 3, 4, 10**6)[k // 3 % 5]
    short = [max(n - by, 0) if i == j else n + rnd.randrange(3) for j, n in enumerate(needs)]
    return short if k % 7 else [max(n - rnd.randrange(2), 0) for n in needs]


def refused(files, rnd):
    good, bad = [stored(f.triangles, f.header) for f in files], list(damaged(files, rnd))
    cases = [lent(d, k) for k, d in enumerate(bad)]
    for k in range(400):
        d = rnd.choice(bad if k % 3 == 0 else good)
        cases.append(lent(d, k, other_places(File(d).needs(), k, rnd)))
    for k in range(400):
        d = rnd.choice(bad if k // 14 % 3 == 0 else good)
        places = [max(n - 1, 0) for n in File(d).needs()] if k // 14 % 4 == 1 else None
        cases.append(lent(other_lengths(d, k, rnd), k, places))
    return cases + [with_room(c, k) for k, c in enumerate(blocks(oracle(["refuse-stl", "7", "1500"])))]


# ---- the records


def record(case, answer):
    data = data_of(case)
    body = u32(len(data)) + data + b"".join(map(u32, case["places"]))
    if "refused" in answer:
        return u32(len(body) + 20) + u32(int(answer["refused"][0])) + u32(int(answer["refused"][1])) + u32(0) + u32(0) + body
    points, halfedges = map(int, answer["counts"])
    written = words(answer["pos"]), numbers(answer["he4"]), words(answer["fn"])
    for packed, places, spare in zip(written, case["places"], LENT):
        body += packed + spare * (places - len(packed) // len(spare))
    return u32(len(body) + 20) + u32(0) + u32(0) + u32(halfedges) + u32(points) + body


def is_small(case):
    return size_of(data_of(case)) <= SMALL


def main():
    rnd = random.Random(5)
    files = [data_of(c) for c in blocks(oracle(["gen", "stl", "3", "6000"]))]
    found = [d for d in files if size_of(d) <= MEDIUM]
    found += [d for d in with_other_points(found, rnd) if d] + [d for d in files if size_of(d) in LARGE][:FEW]
    pairs = answered([lent(d, k) for k, d in enumerate(found)])
    assert all("refused" not in a for _, a in pairs)
    rnd.shuffle(pairs)
    taken = chosen(pairs, features, ACCEPTED, RARE, is_small)
    files = [File(d) for d in found if 3 < size_of(d) <= SMALL]
    rest = [(c, a) for c, a in answered(refused(files[:300], rnd)) if "refused" in a]
    rnd.shuffle(rest)
    rest = chosen(rest, refused_features, REFUSED, RARE_REFUSED, is_small)
    write([record(c, a) for c, a in taken], [record(c, a) for c, a in rest])
