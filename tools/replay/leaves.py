"""Leaf calls and the Rust's answers to them.

The calls that the oracle does not have are answered by float_leaves.rs, which rustc compiles.

A record has 12 words of 8 bytes, little-endian: the call's number, 7 arguments, 4 results. A float is its bit pattern, a
result that is no float is written as the float of that number, and places that a call does not use are 0.
"""
import math, os, random, struct, subprocess, sys, tempfile
from .cases import oracle, output_of

# name: number, arguments, results
CALLS = {
    "sqrt": (1, 1, 1), "sin": (2, 1, 1), "cos": (3, 1, 1), "acos": (4, 1, 1), "rem": (5, 1, 3), "round": (6, 1, 1),
    "length": (7, 3, 1), "normalize": (8, 3, 3), "cross": (9, 6, 3), "dot": (10, 6, 1), "qrot": (11, 7, 3),
    "rotation_quat_axis_angle": (12, 4, 4), "safe_normalize": (13, 3, 3), "wrap": (14, 1, 1), "angle_between": (15, 6, 1),
    "equal_normals": (16, 6, 1), "circular_tangent": (17, 6, 4), "radians": (18, 1, 1), "clamp": (19, 3, 1), "max": (20, 2, 1),
    "min": (21, 2, 1), "to_i32": (22, 1, 1),
}
# answered by float_leaves.rs
OF_RUST = ("clamp", "max", "min", "to_i32")
SIGN = 1 << 63
INFINITY = 0x7FF << 52
NAN = 0x7FF8 << 48
# pi in units of 2^-200, cut
PI = 0x3243F6A8885A308D313198A2E03707344A4093822299F31D008
rng = random.Random(877668)


def bits(x):
    return struct.unpack("<Q", struct.pack("<d", x))[0]


def around(pattern, k=2):
    """A pattern and its neighbours, with either sign."""
    return [p | s for d in range(-k, k + 1) for p in [(pattern + d) & (SIGN - 1)] for s in (0, SIGN)]


def special():
    out = []
    for p in (0, 1, 2, (1 << 52) - 1, 1 << 52, bits(0.5), bits(1.0), bits(1.5), bits(2.0), bits(4.0), bits(2.25), bits(1e-300), bits(1e300),
              bits(2.0**26), bits(2.0**31), bits(2.0**32), bits(2.0**51), bits(2.0**52), bits(2.0**53), bits(2.0**63), INFINITY - 1):
        out += around(p)
    return out + [INFINITY, INFINITY | SIGN, NAN, NAN | SIGN, INFINITY + 1, SIGN - 1, (1 << 64) - 1]


def border(word):
    """The neighbours of the first and the last pattern with this high word, and some inside, with either sign."""
    return around(word << 32) + around((word + 1) << 32) + [(word << 32) | rng.getrandbits(32) | s for s in (0, SIGN) for _ in range(4)]


def any_pattern():
    return rng.getrandbits(64)


def with_exponent(low, high):
    return (rng.randrange(low, high) << 52) | rng.getrandbits(52) | (rng.getrandbits(1) << 63)


def eighth_turns(k):
    """The double nearest to k times a quarter of pi."""
    n = k * PI
    shift = n.bit_length() - 53
    m = (n + (1 << (shift - 1))) >> shift
    return bits(float(m) * 2.0 ** (shift - 202))


def angles():
    out = special()
    for word in (0x3E46A09E, 0x3E500000, 0x3FE921FB, 0x3FF921FB, 0x4002D97C, 0x400921FB, 0x400F6A7A, 0x4012D97C, 0x4015FDBC, 0x401921FB,
                 0x401C463B, 0x402921FB, 0x403921FB, 0x413921FA, 0x413921FB, 0x41D921FB, 0x41E921FB, 0x7FEFFFFF, 0x7FF00000):
        out += border(word)
    for k in list(range(1, 40)) + [rng.randrange(40, 1 << 20) for _ in range(150)]:
        out += around(eighth_turns(2 * k), 1)
    for k in list(range(1, 20)) + [rng.randrange(1 << 15, 1 << 20) for _ in range(100)]:
        out += around(eighth_turns(2 * k + 1), 1)
    out += [with_exponent(0x3E0, 0x3FF) for _ in range(120)] + [with_exponent(0x3FF, 0x402) for _ in range(300)]
    out += [with_exponent(0x402, 0x414) for _ in range(200)] + [with_exponent(0x413, 0x440) for _ in range(200)]
    return out + [with_exponent(0x440, 0x7FF) for _ in range(100)] + [any_pattern() for _ in range(60)]


def cosines():
    out = special()
    for word in (0x3C600000, 0x3FE00000, 0x3FEFFFFF, 0x3FF00000):
        out += border(word)
    out += [with_exponent(0x3FE, 0x3FF) for _ in range(900)] + [with_exponent(0x3C0, 0x3FE) for _ in range(500)]
    return out + [with_exponent(0x3FF, 0x401) for _ in range(100)] + [any_pattern() for _ in range(200)]


def squares():
    out = special()
    for _ in range(300):
        r = rng.getrandbits(26) + 1
        out += around(bits(float(r * r) * 4.0 ** rng.randrange(-200, 200)), 1)
    out += [rng.getrandbits(52) >> rng.randrange(52) for _ in range(400)]
    return out + [with_exponent(1, 0x7FF) & (SIGN - 1) for _ in range(900)] + [any_pattern() for _ in range(200)]


def halves():
    out = special()
    for n in list(range(0, 12)) + [rng.getrandbits(rng.randrange(4, 53)) for _ in range(150)]:
        out += around(bits(n + 0.5), 1)
    out += [with_exponent(0x3F0, 0x436) for _ in range(600)] + [any_pattern() for _ in range(100)]
    return out


POOL = special()


def component(kind):
    if kind == 0:
        return bits(rng.uniform(-1.0, 1.0))
    if kind == 1:
        return bits(rng.uniform(-1000.0, 1000.0))
    if kind == 2:
        return rng.choice((0, SIGN, bits(1.0), bits(-1.0)))
    if kind == 3:
        return rng.choice(POOL)
    return with_exponent(0x1F0, 0x610) if kind == 4 else any_pattern()


def vector(n):
    kind = rng.choice((0, 0, 0, 1, 1, 2, 4, 4, 5))
    out = [component(kind) for _ in range(n)]
    if rng.random() < 0.15:
        out[rng.randrange(n)] = component(3)
    return out


def value(pattern):
    return struct.unpack("<d", struct.pack("<Q", pattern))[0]


def is_nan(pattern):
    return pattern & (SIGN - 1) > INFINITY


def turns():
    """Angles for `wrap`: about the multiples of pi, and any."""
    out = special()
    for k in range(1, 9):
        out += around(eighth_turns(4 * k), 12)
    out += [bits(rng.uniform(-4.0, 4.0)) for _ in range(200)] + [bits(rng.uniform(-20.0, 20.0)) for _ in range(200)]
    return out + [with_exponent(0x3F0, 0x440) for _ in range(150)] + [any_pattern() for _ in range(50)]


def degrees():
    out = special()
    for k in (1, 30, 45, 57.29577951308232, 60, 89, 90, 120, 180, 270, 360, 720):
        out += around(bits(float(k)), 4)
    out += [bits(rng.uniform(-360.0, 360.0)) for _ in range(350)] + [with_exponent(0x001, 0x040) for _ in range(150)]
    return out + [with_exponent(0x3F0, 0x440) for _ in range(150)] + [with_exponent(0x7F0, 0x7FF) for _ in range(100)] + [any_pattern() for _ in range(50)]


def sized(low, high):
    """A vector whose components have about one size, some of them 0."""
    return [with_exponent(low, high) if rng.random() < 0.8 else rng.choice((0, SIGN)) for _ in range(3)]


def corners():
    """Vectors of zeros, ones, infinities and not-a-numbers."""
    parts = (0, SIGN, bits(1.0), bits(-1.0), INFINITY, INFINITY | SIGN, NAN)
    return [[x, y, z] for x in parts for y in parts for z in parts]


def directions():
    """Vectors for `safe_normalize`: squares that vanish or overflow, and any."""
    out = corners() + [[x, 0, 0] for e in (-538, -537, 511, 512) for m in (1.0, math.sqrt(2.0)) for x in around(bits(m * 2.0**e), 4)]
    out += [sized(0x1E0, 0x1EA) for _ in range(250)] + [sized(0x5FC, 0x601) for _ in range(250)]
    return out + [vector(3) for _ in range(500)]


def unit():
    while True:
        v = [rng.uniform(-1.0, 1.0) for _ in range(3)]
        if sum(x * x for x in v) > 0.01:
            return [bits(x) for x in normal(v)]


def normal(v):
    """`safe_normalize` of a finite vector that is not tiny, operation by operation."""
    length = math.sqrt(v[0] * v[0] + v[1] * v[1] + v[2] * v[2])
    return [x / length for x in v]


def cosine(a, b):
    a, b = normal([value(x) for x in a]), normal([value(x) for x in b])
    return a[0] * b[0] + a[1] * b[1] + a[2] * b[2]


def at_cosine(bound):
    """A vector b and the neighbouring vectors a, between which the cosine with b passes the bound; any lengths."""
    while True:
        b, c = unit(), unit()
        scale, other = 2.0 ** rng.uniform(-30, 30), 2.0 ** rng.uniform(-30, 30)
        a = [bits(value(x) * scale + 0.02 * value(y) * scale if bound > 0.9 else (value(x) + value(y)) * scale) for x, y in zip(b, c)]
        b = [bits(value(x) * other) for x in b]
        k = rng.randrange(3)
        low, high = bits(value(b[k]) * scale / other), a[k]
        test = lambda p: cosine(a[:k] + [p] + a[k + 1:], b) > bound
        if low >> 52 in (0, 2048) or low >> 63 != high >> 63 or test(low) == test(high):
            continue
        while abs(low - high) > 1:
            mid = (low + high) // 2
            low, high = (mid, high) if test(mid) == test(low) else (low, mid)
        return [(a[:k] + [high + d] + a[k + 1:], b) for d in (-40, -3, -1, 0, 1, 3, 40)]


def two_directions():
    """For `angle_between`: dot products about 1, -1 and the thresholds of `acos`, and any."""
    one = [bits(1.0), 0, 0]
    out = [[x, 0, 0] + one for x in special()] + [[x, 0, 0] + one for word in (0x3C600000, 0x3FE00000, 0x3FEFFFFF) for x in border(word)]
    for _ in range(150):
        a, b = unit(), unit()
        out += [a + b, a + a, a + [x ^ SIGN for x in a]]
    return out + [vector(6) for _ in range(400)]


def two_normals():
    """For `equal_normals`: cosines about 0.9999, equal and opposite ones, and any."""
    out = [a + b if k % 2 else b + a for k in range(100) for a, b in at_cosine(0.9999)]
    for _ in range(50):
        a = unit()
        out += [a + a, a + [x ^ SIGN for x in a], a + unit()]
    return out + [rng.choice(corners()) + rng.choice(corners()) for _ in range(100)] + [vector(6) for _ in range(350)]


def tangent_and_edge():
    """For `circular_tangent`: cosines about a half, where the weight is clamped, tangents along and against the edge, and any."""
    out = [a + b if k % 2 else b + a for k in range(80) for a, b in at_cosine(0.5)]
    for _ in range(50):
        a = unit()
        out += [a + a, a + [x ^ SIGN for x in a], a + unit(), a + [0, 0, 0], [0, 0, 0] + a]
    out += [[y, x, 0, bits(2.0), 0, 0] for x in around(bits(math.sqrt(0.75)), 2) for y in around(bits(0.5), 2)]
    return out + [rng.choice(corners()) + rng.choice(corners()) for _ in range(100)] + [vector(6) for _ in range(350)]


def near(pattern):
    """The same, a neighbour, the other sign, or any."""
    return rng.choice((pattern, pattern ^ 1, pattern ^ SIGN, component(rng.randrange(6)), rng.choice(POOL)))


def clamped():
    """Bounds that are in order; the Rust panics at others."""
    out = []
    while len(out) < 1300:
        low = component(rng.randrange(6))
        high = near(low)
        if not is_nan(low) and not is_nan(high) and value(low) <= value(high):
            out.append([rng.choice((near(low), near(high), rng.choice(POOL))), low, high])
    return out


def two_numbers():
    """Without zeros of unlike sign, of which the Rust gives either."""
    out = []
    while len(out) < 1300:
        x = component(rng.randrange(6))
        y = near(x)
        if {x, y} != {0, SIGN}:
            out.append([x, y])
    return out


def to_cast():
    out = special()
    for n in (0.0, 1.0, 2.0**31 - 1.0, 2.0**31, 2.0**31 + 1.0, 2.0**32, 2.0**63):
        out += around(bits(n), 6) + around(bits(n + 0.5), 2) + (around(bits(n - 0.5), 2) if n else [])
    out += [bits(rng.randrange(-(2**31), 2**31) + rng.choice((0.0, 0.25, 0.5, 0.75))) for _ in range(500)]
    return out + [with_exponent(0x3F0, 0x420) for _ in range(250)] + [any_pattern() for _ in range(100)]


def later_calls():
    """The calls that were added later, so that those before stay as they were."""
    out = []
    for name, inputs in (("safe_normalize", directions()), ("wrap", [[x] for x in turns()]), ("angle_between", two_directions()),
                         ("equal_normals", two_normals()), ("circular_tangent", tangent_and_edge()), ("radians", [[x] for x in degrees()]),
                         ("clamp", clamped()), ("max", two_numbers()), ("min", two_numbers()), ("to_i32", [[x] for x in to_cast()])):
        out += [(name, args) for args in inputs]
    return out


def turns_of_oracle():
    """1,640 calls at the thresholds of `rem_pio2`, then random ones about its ways, as the oracle makes them."""
    made = oracle(["gen", "rem", "4", "5000"]).split("\n")
    return [(name, [int(x, 16)]) for name, x in (line.split() for line in made if line)]


def calls():
    out = []
    for name, inputs in (("sqrt", squares()), ("sin", angles()), ("cos", angles()), ("rem", angles()), ("acos", cosines()), ("round", halves())):
        out += [(name, [x]) for x in inputs]
    for name, count in (("length", 1300), ("normalize", 1300), ("cross", 1300), ("dot", 1300), ("qrot", 1300)):
        out += [(name, vector(CALLS[name][1])) for _ in range(count)]
    turns = angles()
    out += [("rotation_quat_axis_angle", vector(3) + [rng.choice(turns)]) for _ in range(1300)]
    return out


def answers(run, made):
    text = "".join("%s %s\n" % (name, " ".join("%016x" % x for x in args)) for name, args in made)
    lines = run(text).split("\n")
    assert len(lines) == len(made) + 1
    return iter(lines)


def main():
    made = calls() + later_calls() + turns_of_oracle()
    with tempfile.TemporaryDirectory() as folder:
        program = os.path.join(folder, "float_leaves")
        source = os.path.join(os.path.dirname(os.path.abspath(__file__)), "float_leaves.rs")
        subprocess.run(["rustc", "--edition", "2021", "-o", program, source], check=True)
        of_rust = answers(lambda text: output_of([program], text), [c for c in made if c[0] in OF_RUST])
    of_oracle = answers(lambda text: oracle(["run"], text), [c for c in made if c[0] not in OF_RUST])
    out = bytearray()
    for name, args in made:
        number, n_in, n_out = CALLS[name]
        words = next(of_rust if name in OF_RUST else of_oracle).split()
        assert len(args) == n_in and len(words) == n_out
        results = [int(w, 16) if len(w) == 16 else bits(float(int(w))) for w in words]
        out += struct.pack("<12Q", number, *(args + [0] * (7 - n_in)), *(results + [0] * (4 - n_out)))
    sys.stdout.buffer.write(bytes(out))
