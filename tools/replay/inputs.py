"""Inputs of the program `tangents` and what it writes for each.

What is written for an accepted input, and for the refusals 1 to 11, is the oracle's answer; the refusals 20 to 24 are worked out by
`records_refusal` below, a plain reading of the records' rule. The oracle is not told the rows:
the program reads none, and most of them (`rows_of`) are no row of any list.

A pair is a run of numbers, little-endian: u32 the bytes of the input that are stored, u32 the bytes of the input (the others are
zeros at its end), u32 the bytes of the output; then the stored bytes and the output.
"""
import collections, random, struct, sys
from .cases import blocks, numbers, oracle, with_rows, words

OPERATIONS = {"straighten": 1, "spread": 2, "check": 3}
LIMIT = 65536
FAR = [-1, -2, -(2**31), 2**31 - 1, 65535, 65536]  # rows that are no point and no halfedge
PILLOW = [0, 1, 5, 1, 2, 4, 2, 0, 3, 0, 2, 2, 2, 1, 1, 1, 0, 0]  # start, end and pair of each halfedge
ZERO = "0000000000000000"
NANS = ["7ff0000000000001", "7fffffffffffffff", "fff8000000000000", "ffffffffffffffff"]


# ---- the records

def record(kind, body):
    return struct.pack("<IH", len(body), kind) + body


def rows_of(case):
    """A row for each halfedge: now and then all -1, or each the halfedge's own number; else far ones, points and halfedges mixed."""
    points, halfedges = (int(x) for x in case["counts"])
    rng = random.Random("%s %s %s" % (case["op"], case["id"], case["counts"]))
    how = rng.randrange(6)
    if how == 0:
        return [-1] * halfedges
    if how == 1:
        return list(range(halfedges))
    return [rng.choice((rng.choice(FAR), rng.randrange(points + 1), rng.randrange(halfedges + 1), -2 - e)) for e in range(halfedges)]


def records_of(case):
    """The records of a case, in order."""
    points, halfedges = (int(x) for x in case["counts"])
    bodies = [bytes([OPERATIONS[case["op"]]]), struct.pack("<HH", points, halfedges), words(case["pos"]), numbers(with_rows(case["he"], rows_of(case))), words(case["tan"])]
    if case["op"] == "spread":
        bodies += [words(case["vn"]), bytes(int(x) for x in case["fl"])]
    return [record(k + 1, b) for k, b in enumerate(bodies)]


def input_of(case):
    return b"".join(records_of(case))


def records_refusal(data):
    """The number and place that the records of an input are refused with, or None."""
    if len(data) > LIMIT:
        return 20, 0
    at, kind, due, operation = 0, 1, 5, None
    sizes = {1: 1, 2: 4}
    while kind <= due:
        if at + 6 > len(data):
            return 20, at
        length, found = struct.unpack_from("<IH", data, at)
        if at + 6 + length > len(data):
            return 20, at
        if found != kind:
            return 21, at
        if length != sizes[kind]:
            return 22, at
        if kind == 1:
            operation = data[at + 6]
            if operation not in (1, 2, 3):
                return 23, at
            due = 7 if operation == 2 else 5
        if kind == 2:
            points, halfedges = struct.unpack_from("<HH", data, at + 6)
            sizes.update({3: 24 * points, 4: 16 * halfedges, 5: 32 * halfedges, 6: 24 * points, 7: halfedges})
        at += 6 + length
        kind += 1
    if at != len(data):
        return 24, at
    return None


def refused(number, place):
    return b"refused %d %d\n" % (number, place)


# ---- the oracle's answers

def text_of(case):
    lines = ["case %s %s" % (case["op"], case["id"])]
    for key in ("counts", "pos", "he", "tan", "vn", "fl"):
        if key in case:
            lines.append(" ".join([key] + [str(x) for x in case[key]]))
    return "\n".join(lines + ["end", ""])


def output_of(answer, halfedges):
    """What the program prints of an answer of the oracle's."""
    if "refused" in answer:
        return refused(int(answer["refused"][0]), int(answer["refused"][1]))
    if answer["op"] == "check":
        return b"valid %d\n" % int(answer["valid"][0])
    tan = answer.get("tan") or []
    assert len(tan) == 4 * halfedges
    lines = ["tangents %d" % halfedges] + ["%d %s" % (e, " ".join(tan[4 * e:4 * e + 4])) for e in range(halfedges)]
    if answer["op"] == "spread":
        lines.append("looked %s turned %s" % (answer["looked"][0], answer["looked"][2]))
    return "".join(line + "\n" for line in lines).encode()


def answered(cases):
    """Pairs of the inputs of these cases with the oracle's answers."""
    answers = blocks(oracle(["run"], "".join(text_of(c) for c in cases)))
    assert len(answers) == len(cases)
    out = []
    for c, a in zip(cases, answers):
        assert (c["op"], c["id"]) == (a["op"], a["id"])
        data = input_of(c)
        assert records_refusal(data) is None
        out.append((data, output_of(a, int(c["counts"][1]))))
        if "expect" in c and c.get("whole"):
            want = c["expect"]
            assert ("refused" in a) == (want[0] == "refused") and (want[0] != "refused" or a["refused"] == want[1:3]), (want, a)
    return out


def only(case):
    """The lines of a case that its operation takes."""
    keys = ["op", "id", "counts", "pos", "he", "tan", "expect"] + (["vn", "fl"] if case["op"] == "spread" else [])
    return {k: case.get(k, []) for k in keys if k in case or k in ("pos", "he", "tan", "vn", "fl")}


def fitted(case):
    """The case with lists that are cut, or filled up with their own numbers, to the lengths that the counts call for."""
    points, halfedges = (int(x) for x in case["counts"])
    out, whole = dict(case), True
    for key, size in (("pos", 3 * points), ("he", 3 * halfedges), ("tan", 4 * halfedges), ("vn", 3 * points), ("fl", halfedges)):
        if key in case and len(case[key]) != size:
            xs = case[key] or ["0"]
            out[key], whole = [xs[i % len(xs)] for i in range(size)], False
    out["whole"] = whole
    return out


def is_nan(x):
    return int(x, 16) & (2**63 - 1) > 0x7FF << 52


# ---- the pairs

def accepted(op, count, largest, seed):
    """So many of the oracle's random cases of at most so many halfedges: with turned tangents, not-a-numbers, infinities, marks, and any."""
    text = oracle(["gen", op, str(seed), "30000"])
    both = [(only(c), a) for c, a in zip(blocks(text), blocks(oracle(["run"], text))) if int(c["counts"][1]) <= largest]
    cases = [c for c, _ in both]
    picked = [c for c, a in both if op == "spread" and a["looked"][2] != "0"][:count // 3]
    picked += [c for c in cases if any(is_nan(x) for x in c["tan"] + c["pos"]) and c not in picked][:count // 6]
    picked += [c for c in cases if any(int(x, 16) & (2**63 - 1) == 0x7FF << 52 for x in c["tan"] + c["pos"]) and c not in picked][:count // 6]
    picked += [c for c in cases if "bff0000000000000" in c["tan"][3::4] and c not in picked][:count // 4]
    picked += [c for c in cases if c not in picked][:count - len(picked)]
    k = 0
    for c in picked:  # not-a-numbers of other bits
        for key in ("pos", "tan", "vn"):
            for i, x in enumerate(c.get(key, [])):
                if is_nan(x):
                    c[key][i], k = NANS[k % 4], k + 1
    return answered(picked)


def damaged_meshes(count):
    """Refusals 1 and 3 to 11 of the oracle's damaged cases, so many of each number and operation."""
    kept, seen = [], collections.Counter()
    for c in blocks(oracle(["refuse", "11", "30000"])):
        points, halfedges = (int(x) for x in c["counts"])
        if c["op"] not in OPERATIONS or c["expect"][0] != "refused" or points > 12 or halfedges > 12 or c["expect"][1] == "2":
            continue
        key = (c["op"], c["expect"][1])
        if seen[key] < count:
            seen[key] += 1
            kept.append(fitted(only(c)))
    return answered(kept)


def far_numbers():
    """A pillow with a start, an end or a pair far from every number of a point or halfedge."""
    cases = []
    for i in (0, 7, 17):
        for x in (-2, -3, -2**31, 2**31 - 1, 65536 + PILLOW[i]):
            op = ("straighten", "spread", "check")[len(cases) % 3]
            c = {"op": op, "id": str(len(cases)), "counts": [3, 6], "pos": [ZERO] * 9, "he": PILLOW[:i] + [x] + PILLOW[i + 1:], "tan": [ZERO] * 24}
            if op == "spread":
                c.update({"vn": [ZERO] * 9, "fl": [0] * 6})
            cases.append(c)
    return answered(cases)


def damaged_records(pairs, rng):
    """Inputs that are damaged at each of their records, and those that the plain reading refuses."""
    out = {}

    def add(data):
        answer = records_refusal(data)
        if answer is not None and len(data) <= 4096:
            out.setdefault(data, refused(*answer))

    for k in range(7):
        add(bytes(k))
    for data, _ in pairs:
        cuts, at = [], 0
        while at < len(data):
            cuts.append(at)
            at += 6 + struct.unpack_from("<I", data, at)[0]
        for i, at in enumerate(cuts):
            length, kind = struct.unpack_from("<IH", data, at)
            body = data[at + 6:at + 6 + length]
            rest = data[at + 6 + length:]
            before = data[:at]
            add(before)  # ends before this record
            add(before + data[at:at + rng.randint(1, 5)])  # in its header
            add(data[:at + 6 + max(length - 1, 0)])  # in its body
            add(before + struct.pack("<IH", len(data), kind) + body + rest)  # a length past the end
            add(before + struct.pack("<IH", 2**32 - rng.randint(1, 9), kind + 1) + body + rest)  # and another kind
            for other in (0, kind + 1, kind + 256):
                add(before + struct.pack("<IH", length, other) + body + rest)
            add(before + record(kind, body + b"\0") + rest)  # a byte more, a byte less
            add(before + record(kind, body[:-1]) + rest)
            add(before + record(kind + 1, body + b"\0") + rest)  # kind before length
            if kind == 4:  # three numbers for each halfedge, without its row
                add(before + record(kind, b"".join(body[j : j + 12] for j in range(0, length, 16))) + rest)
            add(before + rest)  # left out
            add(before + record(kind, body) * 2 + rest)  # twice
        for operation in (0, 4, 255):
            add(data[:6] + bytes([operation]) + data[7:])
        add(record(1, b"\4\4") + data[7:])  # length before operation
        for points, halfedges in ((0, 0), (65535, 65535), (1, 6), (3, 9)):
            add(data[:13] + struct.pack("<HH", points, halfedges) + data[17:])
        for more in (b"\0", b"\1\0\0\0\1\0\2", record(6, b""), record(1, b"\1")):
            add(data + more)
    return out


def long_inputs():
    """Inputs about as long as they can be. No accepted one has exactly 65,536 bytes: 35 + 24 p + 48 n is odd, and 47 + 48 p + 49 n is it only where n is 17 more than a multiple of 48, which is no multiple of 3."""
    out = []
    straighten = only(blocks(oracle(["big", "straighten", "1254", "1"]))[0])
    straighten["tan"] = [ZERO] * len(straighten["tan"])
    spread = only(blocks(oracle(["big", "spread", "1140", "2"]))[0])
    for c, per_point, per_halfedge, heads in ((straighten, 24, 48, 35), (spread, 48, 49, 47)):
        points, halfedges = (int(x) for x in c["counts"])
        more = (LIMIT - heads - per_point * points - per_halfedge * halfedges) // per_point  # points without a halfedge
        c["counts"] = [points + more, halfedges]
        for key in ("pos", "vn"):
            if key in c:
                c[key] += [ZERO] * (3 * more)
    three = [ZERO] * 9
    pillows = {"op": "check", "id": "0", "counts": [3, 1362], "pos": three, "he": [x + 6 * k * (i % 3 == 2) for k in range(227) for i, x in enumerate(PILLOW)], "tan": [ZERO] * 4 * 1362}
    points = {"op": "straighten", "id": "0", "counts": [2729, 0], "pos": ["3ff0000000000000"] * 8187, "he": [], "tan": []}
    halfedges = [{"op": "straighten", "id": "0", "counts": [1, n], "pos": three[:3], "he": [0, 0, 0] * n, "tan": [ZERO] * 4 * n} for n in (1362, 1364)]
    longest = {"op": "spread", "id": "0", "counts": [1347, 17], "pos": [ZERO] * 4041, "he": [0, 0, 0] * 17, "tan": [ZERO] * 68, "vn": [ZERO] * 4041, "fl": [1] * 17}
    assert len(input_of(longest)) == LIMIT
    out += answered([straighten, spread, pillows, points, *halfedges, longest])
    small = input_of({"op": "straighten", "id": "0", "counts": [3, 6], "pos": three, "he": PILLOW, "tan": [ZERO] * 24})
    for size in (LIMIT - 1, LIMIT, LIMIT + 1):
        data = small + bytes(size - len(small))
        out.append((data, refused(*records_refusal(data))))
    return out


def main():
    rng = random.Random(17)
    good = accepted("straighten", 90, 12, 21) + accepted("spread", 110, 12, 22) + accepted("check", 70, 12, 23)
    bad = damaged_meshes(5) + far_numbers()
    small = [min((p for p in good if p[0][6] == operation and p[0][15:17] != b"\0\0"), key=lambda p: len(p[0])) for operation in (1, 2, 3)]
    broken = damaged_records(small, rng)
    few = collections.defaultdict(list)
    for data, output in broken.items():
        few[output].append((data, output))
    records = [pair for pairs in few.values() for pair in pairs[::-(-len(pairs) // 12)]]  # at most twelve of each answer
    long = long_inputs()
    pairs = good + bad + records + long
    for data, output in pairs:
        stored = data.rstrip(b"\0")
        sys.stdout.buffer.write(struct.pack("<III", len(stored), len(data), len(output)) + stored + output)
    say = collections.Counter(output.split()[0] + (b" " + output.split()[1] if output.startswith((b"refused", b"valid")) else b"") for _, output in pairs)
    print(len(pairs), "pairs:", len(good), "accepted,", len(bad), "damaged meshes,", len(records), "damaged records,", len(long), "long", file=sys.stderr)
    print(", ".join("%s: %d" % (k.decode(), n) for k, n in sorted(say.items())), file=sys.stderr)
