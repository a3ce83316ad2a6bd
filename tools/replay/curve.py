"""Calls along a curve, and the Rust's answers to them.

The calls are chosen here and by the oracle, the rarer features first.

A record is a run of numbers, little-endian: u32 the bytes of the record, u32 the call, 1 for a point and 2 for a list, and the 16 numbers
of the control points. Then, for a point, the parameter, u32 the number of the refusal (0: accepted), u32 its place, and the six numbers of
position and direction, 0 where it is refused; and for a list, u64 the count, u32 the places of the lent list, u32 the number of the
refusal, u32 its place, and three numbers for each point, none where it is refused. A float is its bit pattern in 8 bytes.
"""
import collections, math, random, struct
from .cases import chosen, number, oracle, u32, word, write

POINTS, LISTS = 1250, 550  # accepted calls
REFUSED = {40: 120, 41: 120, 42: 120}
RARE_POINTS, RARE_LISTS, RARE_REFUSED = 30, 12, 8  # calls of a feature that are taken before the others
FEW = 9  # points of a list with no rare feature
PLACES = 1024  # of a list in the program
BY_ORACLE = "3000"  # calls of the oracle that are chosen from, accepted ones and refused ones

SIGN = 1 << 63
SMALLEST = 1 << 52  # normal number
INFINITY = 0x7FF << 52
LARGEST = INFINITY - 1  # finite number
QUIET = 1 << 51  # bit of a not-a-number
NOT_A_NUMBER = INFINITY | QUIET


def bits(x):
    return int(word(x), 16)


def value(pattern):
    return number(f"{pattern:016x}")


ONE, TINY = bits(1.0), bits(1e-30)
PARAMETERS = {0: "0", SIGN: "-0", 1: "next above 0", ONE: "1", ONE - 1: "next below 1"}
OTHERS = [2, SMALLEST, ONE - 2, bits(0.5), bits(0.25), bits(1 / 3), bits(2 / 3), bits(0.1)]  # within 0 and 1
BELOW = {SIGN | 1: "next below 0", SIGN | SMALLEST: "the first normal below 0", bits(-1.0): "-1", LARGEST | SIGN: "the lowest finite"}
ABOVE = {ONE + 1: "next above 1", bits(2.0): "2", LARGEST: "the largest finite"}
INFINITIES = {INFINITY: "infinity", INFINITY | SIGN: "-infinity"}
QUIET_ONES = {NOT_A_NUMBER: "quiet", NOT_A_NUMBER | SIGN: "quiet with a sign", (1 << 64) - 1: "of all bits"}
SIGNALLING_ONES = {INFINITY + 1: "signalling", INFINITY + 1 | SIGN: "signalling with a sign"}
OUTSIDE = BELOW | ABOVE | INFINITIES | QUIET_ONES | SIGNALLING_ONES
ENDS = [0, SIGN, 1, SIGN | 1, INFINITY, INFINITY | SIGN, NOT_A_NUMBER]
WEIGHTS = ENDS + [ONE, ONE, bits(2 / 3), bits(3.0), bits(-1.0), bits(-0.25), bits(1e-300), bits(1e300)]
SPECIAL = ENDS + [SMALLEST - 1, SMALLEST, LARGEST, LARGEST | SIGN, INFINITY + 1, (1 << 64) - 1, ONE, bits(1e-160), bits(1e154), TINY]
WRONG_COUNTS = [0, 1, 257, 258, 300, 341, 512, 1 << 16, (1 << 16) + 2, (1 << 32) - 1, (1 << 32) + 2, (1 << 63) + 2, (1 << 64) - 1]

# A call: its name, the patterns of the control points, and the pattern of the parameter, or the count and the places of the list.
Call = collections.namedtuple("Call", "name controls rest")


# ---- what a call has, by the Rust's steps


def lerp(a, b, t):
    return [x + (y - x) * t for x, y in zip(a, b)]


def points_of(call):
    return [[value(x) for x in call.controls[k : k + 4]] for k in range(0, 16, 4)]


def segment(p, x):
    """`cubic_bezier_2_linear`."""
    between = lerp(p[1], p[2], x)
    return lerp(lerp(p[0], p[1], x), between, x), lerp(between, lerp(p[2], p[3], x), x)


def divided(v):
    """`hnormalize`."""
    return [x / v[3] if v[3] != 0 else x for x in v[:3]]


def difference(left, right):
    return [y - x for x, y in zip(divided(left), divided(right))]


def length(v):
    return math.sqrt(v[0] * v[0] + v[1] * v[1] + v[2] * v[2])


def kind_of(x):
    if math.isnan(x):
        return "not a number"
    if math.isinf(x):
        return "infinite"
    if x == 0:
        return "-0" if math.copysign(1, x) < 0 else "0"
    return "negative" if x < 0 else "subnormal" if x < value(SMALLEST) else "positive"


def control_features(call):
    p, patterns = points_of(call), [x & SIGN - 1 for x in call.controls]
    weights = {kind_of(v[3]) for v in p}
    out = {f"a control point of weight {x}" for x in weights - {"positive"}}
    places = ["ABCD"[p.index(v)] for v in p if v in p]
    out |= {f"control points in the places {' '.join(places)}"} if len(set(places)) < len(places) == 4 else set()
    inside = {
        "x, y or z 0 in each": any(all(x == 0 for x in patterns[k::4]) for k in range(3)),
        "x, y or z -0 in each": any(all(x == SIGN for x in call.controls[k::4]) for k in range(3)),
        "a subnormal number": any(0 < x < SMALLEST for x in patterns),
        "an infinity": INFINITY in patterns,
        "a quiet not-a-number": any(x >= NOT_A_NUMBER for x in patterns),
        "a signalling not-a-number": any(INFINITY < x < NOT_A_NUMBER for x in patterns),
    }
    return out | {x for x, has in inside.items() if has}


def along(v):
    """Which numbers of a vector are not 0."""
    return "x y z".split()[[x != 0 for x in v].index(True)] if sum(x != 0 for x in v) == 1 else "several"


def length_features(v):
    """Of the vector that the direction is made of."""
    n, finite = length(v), all(map(math.isfinite, v))
    steps = {TINY - 1: "next below 1e-30", TINY: "1e-30", TINY + 1: "next above 1e-30"}
    if bits(n) in steps:
        return {f"length {steps[bits(n)]} along {along(v)}"}
    out = {
        "length 0": n == 0 and not any(v),
        "length 0 of squares that vanish": n == 0 and any(v),
        "length above 0, below 1e-30": 0 < n < 1e-30,
        "length infinite of squares that overflow": math.isinf(n) and finite,
        "length infinite of an infinity": math.isinf(n) and not finite,
        "length not a number": math.isnan(n),
    }
    return {x for x, has in out.items() if has}


def point_features(call, answer):
    p, x = points_of(call), value(call.rest)
    left, right = segment(p, x)
    out = {f"parameter {PARAMETERS[call.rest]}"} if call.rest in PARAMETERS else set()
    for name, v in ("left", left), ("right", right), ("point", lerp(left, right, x)):
        out |= {f"weight {kind_of(v[3])} of {name}"} - {f"weight positive of {name}"}
    position, direction = ({kind_of(number(y)) for y in part} for part in (answer[:3], answer[3:]))
    out |= {f"a number {y} in the position" for y in position & {"-0", "subnormal", "infinite", "not a number"}}
    out |= {f"a number {y} in the direction" for y in direction & {"-0", "subnormal", "not a number"}}
    return out | control_features(call) | length_features(difference(left, right))


def list_features(call, answer):
    p, (count, _) = points_of(call), call.rest
    parameters = [i / (count - 1) for i in range(count)]
    ends = [lerp(*segment(p, x), x) for x in parameters]
    out = {f"a point of weight {kind_of(v[3])}" for v in ends} - {"a point of weight positive"}
    if any(x != i * (1 / (count - 1)) for i, x in enumerate(parameters)):
        out.add("a parameter that is not i times a reciprocal")
    size = str(count) if count in (2, 3, 255, 256) else f"at most {FEW}" if count <= FEW else "at most 254"
    return out | {f"{size} points"} | control_features(call)


def count_refused(count, room):
    """Of a count that 41 refuses."""
    fits = "the list fits" if room == 3 * count else "42 would refuse the list"
    if count < 259:
        return {f"41, count {count}, {fits}"}
    size = str(count) if count in (1 << 16, (1 << 32) - 1, (1 << 64) - 1) else "another"
    if 2 <= count % (1 << 16) <= 256:
        size = "whose low 16 bits fit" if count < 1 << 32 else "whose low 32 bits fit"
    return {f"41, count {size}", f"41, {fits}"}


def refused_features(call, answer):
    if answer[1] == "40":
        return {f"40, {OUTSIDE.get(call.rest, 'another')}"}
    count, room = call.rest
    if answer[1] == "41":
        return count_refused(count, room)
    known, more = {0: "no places", count: "as many places as points"}, room - 3 * count
    by = known.get(room) or (f"{more:+} places" if abs(more) in (1, 3) else "others")
    return {f"42, {by}", "42, count " + (str(count) if count in (2, 256) else "between")}


# ---- control points


def near(rnd, scale=1.0):
    return rnd.uniform(-1.0, 1.0) * scale


def point(rnd, weight=ONE, scale=1.0):
    return [bits(near(rnd, scale)) for _ in range(3)] + [weight]


def ordinary(rnd):
    """The curve of an edge: weights 1, w, w, 1."""
    w = rnd.choice((1.0, 2 / 3, 0.75, rnd.uniform(0.5, 1.0)))
    return [x for y in (1.0, w, w, 1.0) for x in point(rnd, bits(y), y)]


def planar(rnd):
    """The curve of an edge with x, y or z 0 of either sign in each point."""
    out, axis, zeros = ordinary(rnd), rnd.randrange(3), rnd.choice([[0], [SIGN], [0, SIGN]])
    return [rnd.choice(zeros) if k % 4 == axis else x for k, x in enumerate(out)]


def straight(rnd):
    a, b = ([near(rnd) for _ in range(3)] for _ in range(2))
    return [x for k in range(4) for x in [bits(y) for y in lerp(a, b, k / 3)] + [ONE]]


def weighted(rnd):
    return [x for _ in range(4) for x in point(rnd, rnd.choice(WEIGHTS))]


def cancelling(rnd):
    """Weights that often give 0 for the half, and at either end."""
    return [x for _ in range(4) for x in point(rnd, rnd.choice([0, SIGN, ONE, ONE | SIGN, bits(3.0), bits(-3.0)]))]


def zero_weights(rnd):
    weights = rnd.choice([[0], [SIGN], [0, SIGN], [SIGN, ONE | SIGN], [SIGN, SIGN, ONE]])
    return [x for _ in range(4) for x in point(rnd, rnd.choice(weights))]


def doubled(rnd):
    points = point(rnd), point(rnd, rnd.choice(WEIGHTS)), point(rnd)
    which = rnd.choice("0000 1111 0001 0010 0100 0111 0011 0101 0110 0012 0102 0120 1002 1020 1200".split())
    return [x for k in which for x in points[int(k)]]


def scaled(rnd):
    """Squares that vanish or overflow, lengths about 1e-30, subnormal numbers."""
    scale = rnd.choice((5e-324, 1e-310, 1e-160, 1e-31, 1e-30, 2e-30, 3e-30, 1e153, 1e154, 1e155, 1e308))
    weight = rnd.choice((ONE, ONE, ONE, rnd.choice(WEIGHTS)))
    return [x for _ in range(4) for x in point(rnd, weight, scale)]


def special(rnd):
    return [rnd.choice(SPECIAL) if rnd.random() < 0.3 else bits(near(rnd, 2.0)) for _ in range(16)]


def any_patterns(rnd):
    return [rnd.getrandbits(64) for _ in range(16)]


KINDS = ordinary, planar, straight, weighted, cancelling, zero_weights, doubled, scaled, special, any_patterns


def of_length(rnd, pattern):
    """A vector of this length, along an axis or not."""
    size, axis = value(pattern), rnd.randrange(6)
    if axis < 3:
        return [rnd.choice((size, -size)) if i == axis else 0.0 for i in range(3)]
    while True:
        v = [near(rnd) for _ in range(3)]
        v = [x * (size / length(v)) for x in v]
        for _ in range(20):
            if length(v) == size:
                return v
            v[2] *= size / length(v)


def at_threshold(rnd):
    """A call whose two points are one step around 1e-30 apart, or nearly."""
    v, weight = of_length(rnd, TINY + rnd.choice((-1, 0, 1, 0, -1, 1, 2, -2))), rnd.choice((1.0, 1.0, 2.0, 0.5, -1.0))
    zero, there = [0.0, 0.0, 0.0, weight], [x * weight for x in v] + [weight]
    line = [[k * x for x in v] + [1.0] for k in range(4)]
    near_1, x = [[zero, zero, zero, there], ONE], rnd.choice((0, SIGN))
    p, x = rnd.choice(([[zero, there, there, there], x], [[zero, there, zero, zero], x], near_1, [line, rnd.choice((0, ONE, bits(0.5), bits(0.25)))]))
    return Call("curve", [bits(y) for v in p for y in v], x)


# ---- the calls


def oracle_calls(kind):
    for line in oracle(kind).split("\n"):
        name, *words = line.split() or [""]
        controls = [int(x, 16) for x in words[:16]]
        if name == "curve":
            yield Call(name, controls, int(words[16], 16))
        elif name:
            count = int(words[16])
            yield Call(name, controls, (count, int(words[17]) if len(words) > 17 else 3 * count))


def accepted_calls(rnd):
    for k in range(400):
        for make in KINDS:
            inside = rnd.choice([*PARAMETERS, *PARAMETERS, *OTHERS, bits(rnd.random()), bits(rnd.random())])
            count = rnd.choice([2, 3, 4, 5, 7, FEW, 255, 256, rnd.randrange(10, 255), rnd.randrange(2, FEW)])
            yield Call("curve", make(rnd), inside)
            yield Call("curvepoints", make(rnd), (count, 3 * count))
        for _ in range(3):
            yield at_threshold(rnd)


def refused_calls(rnd):
    for k in range(40):
        for x in OUTSIDE:
            yield Call("curve", rnd.choice(KINDS)(rnd), x)
        for count in WRONG_COUNTS:
            yield Call("curvepoints", rnd.choice(KINDS)(rnd), (count, rnd.choice([3 * count, 3 * count, 3 * count + 1, 0, 6, 768])))
        count = rnd.choice([2, 3, 5, 255, 256, 256, rnd.randrange(2, 257)])
        for room in 0, count, 3 * count - 3, 3 * count - 1, 3 * count + 1, 3 * count + 3, PLACES:
            yield Call("curvepoints", rnd.choice(KINDS)(rnd), (count, room))


def answered(calls):
    """The calls whose list has no more places than the program has, each with the words of the oracle's answer."""
    calls = [c for c in calls if c.name == "curve" or c.rest[1] <= PLACES]
    rest = lambda c: f"{c.rest:016x}" if c.name == "curve" else "%d %d" % c.rest
    lines = oracle(["run"], "".join(f"{c.name} {' '.join(f'{x:016x}' for x in c.controls)} {rest(c)}\n" for c in calls)).splitlines()
    assert len(lines) == len(calls)
    return [(c, line.split()) for c, line in zip(calls, lines)]


def record(call, answer):
    refused, point = answer[0] == "refused", call.name == "curve"
    number, place = map(int, answer[1:]) if refused else (0, 0)
    results = [int(x, 16) for x in answer] if not refused else [0] * 6 if point else []
    body = u32(1 if point else 2) + struct.pack("<16Q", *call.controls)
    body += struct.pack("<Q", call.rest) if point else struct.pack("<QI", *call.rest)
    body += struct.pack(f"<II{len(results)}Q", number, place, *results)
    return u32(len(body) + 4) + body


def main():
    rnd = random.Random(7)
    of_oracle = [c for kind in (["gen", "curve"], ["refuse-curve"]) for c in oracle_calls([*kind, "7", BY_ORACLE])]
    pairs = answered([*accepted_calls(rnd), *refused_calls(rnd), *of_oracle])
    accepted = [(c, a) for c, a in pairs if a[0] != "refused"]
    points, lists = ([(c, a) for c, a in accepted if c.name == name] for name in ("curve", "curvepoints"))
    lists.sort(key=lambda pair: pair[0].rest[0] > FEW)
    taken = chosen(points, point_features, POINTS, RARE_POINTS, lambda c: True)
    taken += chosen(lists, list_features, LISTS, RARE_LISTS, lambda c: c.rest[0] <= FEW)
    refused = []
    for asked, most in REFUSED.items():
        of_number = [(c, a) for c, a in pairs if a[:2] == ["refused", str(asked)]]
        refused += chosen(of_number, refused_features, most, RARE_REFUSED, lambda c: True)
    write([record(c, a) for c, a in taken], [record(c, a) for c, a in refused])
