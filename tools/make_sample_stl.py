#!/usr/bin/env python3
"""Makes examples/letter.stl: the letter T with its upper edges cut away at 45 degrees, a closed solid with flat faces, as binary STL.

    tools/make_sample_stl.py examples/letter.stl
"""
import math, struct, sys

# The outline, against the clock as it is seen from above, and the triangles of a face with this outline.
OUTLINE = [(4, 0), (8, 0), (8, 9), (12, 9), (12, 13), (0, 13), (0, 9), (4, 9)]
FACE = [(0, 1, 2), (0, 2, 7), (7, 2, 5), (7, 5, 6), (2, 4, 5), (2, 3, 4)]
HEIGHT, CUT = 3.0, 1.0  # of the whole letter, and of what is cut away


def turned_left(a, b):
    """The direction from a to b, along an axis, turned to the left: into the letter."""
    return [(x > 0) - (x < 0) for x in (a[1] - b[1], b[0] - a[0])]


def moved_in(i, far):
    """Corner i of the outline that lies so far within this one."""
    before, here, after = OUTLINE[i - 1], OUTLINE[i], OUTLINE[(i + 1) % len(OUTLINE)]
    first, second = turned_left(before, here), turned_left(here, after)
    return tuple(here[k] + far * (first[k] + second[k]) for k in range(2))


def triangles():
    """The corners of each triangle, against the clock as it is seen from outside."""
    count = len(OUTLINE)
    rings = [[(*moved_in(i, far), z) for i in range(count)] for far, z in [(0, 0.0), (0, HEIGHT - CUT), (CUT, HEIGHT)]]
    for a, b, c in FACE:
        yield rings[0][c], rings[0][b], rings[0][a]
    for low, high in zip(rings, rings[1:]):
        for i in range(count):
            j = (i + 1) % count
            yield low[i], low[j], high[j]
            yield low[i], high[j], high[i]
    for a, b, c in FACE:
        yield rings[2][a], rings[2][b], rings[2][c]


def normal(a, b, c):
    u, v = [b[k] - a[k] for k in range(3)], [c[k] - a[k] for k in range(3)]
    cross = [u[k - 2] * v[k - 1] - u[k - 1] * v[k - 2] for k in range(3)]
    return [x / math.sqrt(sum(y * y for y in cross)) for x in cross]


def main():
    letter = list(triangles())
    with open(sys.argv[1], "wb") as file:
        file.write(b"The letter T, by tools/make_sample_stl.py".ljust(80))
        file.write(struct.pack("<I", len(letter)))
        for corners in letter:
            numbers = [x + 0.0 for vector in (normal(*corners), *corners) for x in vector]  # 0.0, where -0.0 was
            file.write(struct.pack("<12fH", *numbers, 0))


if __name__ == "__main__":
    main()
