#!/usr/bin/env python3
"""Makes an input of the program `tangents`: the pillow of document 01, all tangents 0, the row of each halfedge its own number.

    tools/make_input.py 1 > crates/tangents/stdin      # 1 straighten, 2 spread, 3 check
"""
import struct, sys


def record(kind, body):
    return struct.pack("<IH", len(body), kind) + body


operation = int(sys.argv[1])
points = [0, 0, 0, 3, 0, 0, 0, 6, 0]
halfedges = [0, 1, 5, 0, 1, 2, 4, 1, 2, 0, 3, 2, 0, 2, 2, 3, 2, 1, 1, 4, 1, 0, 0, 5]  # start, end, pair, row
records = [(1, bytes([operation])), (2, struct.pack("<HH", 3, 6)), (3, struct.pack("<9d", *points)), (4, struct.pack("<24i", *halfedges)), (5, bytes(6 * 32))]
if operation == 2:
    records += [(6, bytes(3 * 24)), (7, bytes(6))]  # point normals, fixed halfedges
sys.stdout.buffer.write(b"".join(record(k, b) for k, b in records))
