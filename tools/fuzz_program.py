#!/usr/bin/env python3
"""Runs the program `tangents` on random and damaged inputs, and checks each answer.

    tools/fuzz_program.py PROGRAM COUNT SEED [--valgrind]

Each input is a valid one, or one with bits flipped, bytes inserted, dropped or exchanged, an end cut off or added, other counts, a
record left out or doubled, or other numbers in its mesh, or random bytes. The program must end by itself within ten seconds with status 0
and write one answer of its form, and nothing else. The refusals are compared with a plain reading of the rule (the records in
replay/inputs.py, the questions here), and so is the mark check. Of tangents only the form is checked: the halfedge count, the numbers
in order, 16 digits, one not-a-number, and for spreading the last line. An input whose records are accepted is put again with other rows,
and must get the same answer. With --valgrind the program runs under valgrind, and any error that it reports is a failure. Prints how many
answers of each kind there were. An input whose answer is wrong is written to fuzz-SEED-NUMBER.bin, and the script ends with status 1.
"""
import collections, os, random, re, select, signal, struct, sys
from replay.inputs import record, records_refusal

FLOATS = [0, 1 << 63, 0x3FF0 << 48, 0xBFF0 << 48, 0xC000 << 48, 0x7FF0 << 48, 0xFFF0 << 48, 0x7FF8 << 48, 0xFFF8 << 48 | 5, 1, 0x7FEF << 48, 0x3FE5555555555556]
MARK = 0xBFF0 << 48
TANGENT = re.compile(rb"([0-9]+) ([0-9a-f]{16}) ([0-9a-f]{16}) ([0-9a-f]{16}) ([0-9a-f]{16})")
NUMBER = rb"(0|[1-9][0-9]*)"


# ---- inputs

def float_bits(rng):
    if rng.random() < 0.2:
        return rng.choice(FLOATS)
    if rng.random() < 0.05:
        return rng.getrandbits(64)
    return struct.unpack("<Q", struct.pack("<d", rng.choice((1, 1, 1, 1e300, 1e-300)) * rng.uniform(-3, 3)))[0]


def row(rng, e):
    """A row for halfedge e; the program reads none."""
    return rng.choice((e, -1, -2, -(2**31), 2**31 - 1, 65536, rng.randrange(8)))


def mesh(rng):
    """A closed mesh: triangles there and back over random points, with the pairs of equal edges shuffled."""
    points = rng.randint(3, 8)
    starts, ends = [], []
    for _ in range(rng.choice((0, 1, 1, 1, 2, 2, 3, 4, 8))):
        a, b, c = rng.sample(range(points if rng.random() < 0.3 else 3), 3)
        for s, e in ((a, b), (b, c), (c, a), (a, c), (c, b), (b, a)):
            starts.append(s)
            ends.append(e)
    pairs = [0] * len(starts)
    sides = collections.defaultdict(list)
    for e, edge in enumerate(zip(starts, ends)):
        sides[edge].append(e)
    for (s, e), here in sides.items():
        if s < e:
            there = sides[(e, s)]
            rng.shuffle(there)
            for x, y in zip(here, there):
                pairs[x], pairs[y] = y, x
    return points, [x for e, t in enumerate(zip(starts, ends, pairs)) for x in (*t, row(rng, e))]


def bodies(rng):
    """The bodies of the records of a valid input."""
    operation = rng.choice((1, 2, 2, 3))
    points, he = mesh(rng)
    n = len(he) // 4
    tan = [float_bits(rng) for _ in range(4 * n)]
    for e in range(n):
        if rng.random() < 0.15:
            tan[4 * e + 3] = tan[4 * he[4 * e + 2] + 3] = MARK
    out = [bytes([operation]), struct.pack("<HH", points, n), struct.pack("<%dQ" % (3 * points), *[float_bits(rng) for _ in range(3 * points)]), struct.pack("<%di" % (4 * n), *he), struct.pack("<%dQ" % (4 * n), *tan)]
    if operation == 2:
        out += [struct.pack("<%dQ" % (3 * points), *[float_bits(rng) for _ in range(3 * points)]), bytes(rng.randint(0, 1) for _ in range(n))]
    return out


def joined(parts):
    return b"".join(record(k + 1, b) for k, b in enumerate(parts))


def exchanged(body, rng):
    """The halfedges with two of them in each other's place: their pairs still name them, but the triangles are broken."""
    he = [list(x) for x in struct.iter_unpack("<4i", body)]
    a, b = rng.sample(range(len(he)), 2)
    to = {a: b, b: a}
    he[a], he[b] = he[b], he[a]
    return b"".join(struct.pack("<4i", s, e, to.get(pair, pair), r) for s, e, pair, r in he)


def damaged_mesh(rng):
    """A valid input with other numbers in its halfedges or its flags of fixed halfedges."""
    parts = bodies(rng)
    if len(parts[3]) > 16 and rng.random() < 0.3:
        parts[3] = exchanged(parts[3], rng)
        return joined(parts)
    for _ in range(rng.randint(1, 2)):
        if len(parts) == 7 and parts[6] and rng.random() < 0.4:
            fixed = bytearray(parts[6])
            fixed[rng.randrange(len(fixed))] = rng.choice((2, 3, 128, 255))
            parts[6] = bytes(fixed)
        elif parts[3]:
            he = list(struct.unpack("<%di" % (len(parts[3]) // 4), parts[3]))
            he[rng.randrange(len(he))] = rng.choice((-1, -2, -2**31, 2**31 - 1, 65536, 65535, 8, 3, 2, 1, 0, len(he) // 4, len(he) // 4 - 1))
            parts[3] = struct.pack("<%di" % len(he), *he)
    return joined(parts)


def other_counts(rng):
    """Other counts, with bodies that fit them or not."""
    parts = bodies(rng)
    points, n = (rng.choice((0, 1, 2, 3, 4, 6, 7, 9, 1362, 1364, 65535, rng.randrange(65536))) for _ in range(2))
    parts[1] = struct.pack("<HH", points, n)
    if rng.random() < 0.6 and 24 * points + 48 * n < 60000:
        sizes = [24 * points, 16 * n, 32 * n, 24 * points, n]
        parts[2:] = [(b * (size // max(len(b), 1) + 1) + bytes(size))[:size] for b, size in zip(parts[2:], sizes)]
    return joined(parts)


def damaged_bytes(rng):
    data = bytearray(joined(bodies(rng)))
    for _ in range(rng.choice((1, 1, 1, 2, 4))):
        kind, at = rng.randrange(7), rng.randrange(len(data) + 1)
        head = rng.random() < 0.5
        at = min(at, rng.randrange(40)) if head else at
        if kind == 0 and at < len(data):
            data[at] ^= 1 << rng.randrange(8)
        elif kind == 1:
            data[at:at] = rng.randbytes(rng.randint(1, 9))
        elif kind == 2:
            del data[at:at + rng.randint(1, 9)]
        elif kind == 3:
            del data[at:]
        elif kind == 4:
            data += rng.randbytes(rng.randint(1, 12))
        elif kind == 5 and at < len(data):
            data[at] = rng.randrange(256)
        elif data:
            to = rng.randrange(len(data))
            data[at:at + 6], data[to:to + 6] = data[to:to + 6], data[at:at + 6]
    return bytes(data)


def damaged_records(rng):
    parts = [record(k + 1, b) for k, b in enumerate(bodies(rng))]
    i = rng.randrange(len(parts))
    kind = rng.randrange(4)
    if kind == 0:
        del parts[i]
    elif kind == 1:
        parts.insert(i, parts[i])
    elif kind == 2:
        j = rng.randrange(len(parts))
        parts[i], parts[j] = parts[j], parts[i]
    else:
        length, found = struct.unpack_from("<IH", parts[i])
        other = rng.choice(((length + 1, found), (2**32 - 1, found), (length, found + 1), (length ^ 256, found), (length, found + 256), (0, found)))
        parts[i] = struct.pack("<IH", *other) + parts[i][6:]
    return b"".join(parts)


def long_input(rng):
    data = joined(bodies(rng))
    return data + bytes(rng.choice((65535, 65536, 65537)) - len(data))


def other_rows(data, rng):
    """An input whose records are accepted, with other rows."""
    points, n = struct.unpack_from("<HH", data, 13)
    out = bytearray(data)
    for e in range(n):
        struct.pack_into("<i", out, 29 + 24 * points + 16 * e + 12, row(rng, e))
    return bytes(out)


def one_input(rng):
    x = rng.random()
    if x < 0.3:
        return "valid", joined(bodies(rng))
    if x < 0.45:
        return "mesh numbers", damaged_mesh(rng)
    if x < 0.55:
        return "counts", other_counts(rng)
    if x < 0.8:
        return "bytes", damaged_bytes(rng)
    if x < 0.95:
        return "records", damaged_records(rng)
    if x < 0.99:
        return "random", rng.randbytes(rng.choice((0, 1, 5, 6, 7, 20, 400)))
    return "long", long_input(rng)


# ---- what the rule says of an input

def lowest(test, n):
    return next((e for e in range(n) if not test(e)), None)


def questions(operation, points, n, he, fixed):
    """The number and place of the first question of a call that is answered no, or None. Every list has its length."""
    if n % 3 or n > 65535 or points > 65535:
        return 1, 0
    start, end, pair = he[0::4], he[1::4], he[2::4]
    asked = [(3, lambda e: 0 <= start[e] < points and 0 <= end[e] < points), (4, lambda e: 0 <= pair[e] < n), (5, lambda e: pair[pair[e]] == e),
             (6, lambda e: start[e] != end[e] and start[pair[e]] == end[e] and end[pair[e]] == start[e]), (7, lambda e: start[e + 1 if e % 3 < 2 else e - 2] == end[e])]
    if operation == 2:
        asked.append((11, lambda e: fixed[e] < 2))
    for number, test in asked:
        e = lowest(test, n)
        if e is not None:
            return number, e
    return None


def marks_valid(n, he, tan):
    marked = [tan[4 * e + 3] == MARK for e in range(n)]
    alone = [not marked[e - e % 3 + (e + 1) % 3] and not marked[e - e % 3 + (e + 2) % 3] for e in range(n)]
    return all(marked[e] == marked[he[4 * e + 2]] and (not marked[e] or alone[e] and alone[he[4 * e + 2]]) for e in range(n))


def right(data, out):
    """The kind of an answer that is right, or None."""
    refusal = records_refusal(data)
    if refusal is None:
        points, n = struct.unpack_from("<HH", data, 13)
        he_at = 23 + 24 * points + 6
        he = struct.unpack_from("<%di" % (4 * n), data, he_at)
        tan = struct.unpack_from("<%dQ" % (4 * n), data, he_at + 16 * n + 6)
        refusal = questions(data[6], points, n, he, data[len(data) - n:])
    if refusal is not None:
        return "refused %d" % refusal[0] if out == b"refused %d %d\n" % refusal else None
    if data[6] == 3:
        want = marks_valid(n, he, tan)
        return "valid %d" % want if out == b"valid %d\n" % want else None
    lines = out.split(b"\n")
    if lines[-1] != b"" or len(lines) != n + (3 if data[6] == 2 else 2) or lines[0] != b"tangents %d" % n:
        return None
    for e in range(n):
        m = TANGENT.fullmatch(lines[e + 1])
        if not m or m[1] != b"%d" % e:
            return None
        for k in range(2, 6):
            if int(m[k], 16) & (2**63 - 1) > 0x7FF << 52 and m[k] != b"7ff8000000000000":
                return None
    if data[6] == 1:
        return "tangents"
    last = re.fullmatch(rb"looked " + NUMBER + rb" turned " + NUMBER, lines[n + 1])
    if not last or not int(last[2]) <= int(last[1]) <= n * n:
        return None
    return "spread, none turned" if last[2] == b"0" else "spread, turned"


# ---- runs

def run(words, data):
    """The program's output with its errors, and its status; None for a run that did not end in time."""
    stdin = os.memfd_create("input")
    os.write(stdin, data)
    os.lseek(stdin, 0, os.SEEK_SET)
    near, far = os.pipe()
    actions = [(os.POSIX_SPAWN_DUP2, stdin, 0), (os.POSIX_SPAWN_DUP2, far, 1), (os.POSIX_SPAWN_DUP2, far, 2), (os.POSIX_SPAWN_CLOSE, near)]
    pid = os.posix_spawnp(words[0], words, {}, file_actions=actions)
    os.close(far)
    os.close(stdin)
    out, ended = [], True
    while True:
        if not select.select([near], [], [], 10 if len(words) == 1 else 120)[0]:
            ended = False
            os.kill(pid, signal.SIGKILL)
        got = os.read(near, 1 << 20)
        if not got:
            break
        out.append(got)
    os.close(near)
    status = os.waitpid(pid, 0)[1]
    return b"".join(out), status if ended else None


def main():
    program, count, seed = sys.argv[1], int(sys.argv[2]), int(sys.argv[3])
    words = [program]
    if "--valgrind" in sys.argv[4:]:
        words = ["/usr/bin/valgrind", "-q", "--error-exitcode=9", program]
    rng = random.Random(seed)
    made, answers, failures = collections.Counter(), collections.Counter(), 0
    for i in range(count):
        how, data = one_input(rng)
        made[how] += 1
        out, status = run(words, data)
        kind = right(data, out) if status == 0 else None
        if kind and records_refusal(data) is None and run(words, other_rows(data, rng)) != (out, 0):
            kind = None
        answers[kind] += kind is not None
        if kind is None:
            failures += 1
            print("input %d (%s, %d bytes): status %s, wrote %r" % (i, how, len(data), status, out[:300]))
            with open("fuzz-%d-%d.bin" % (seed, i), "wb") as f:
                f.write(data)
            if failures == 20:
                break
    print("inputs:", ", ".join("%s %d" % x for x in sorted(made.items())))
    print("answers:", ", ".join("%s: %d" % (k, v) for k, v in sorted(answers.items(), key=lambda x: str(x[0])) if k))
    print("%d inputs, %d failures" % (sum(made.values()), failures))
    sys.exit(1 if failures else 0)


if __name__ == "__main__":
    main()
