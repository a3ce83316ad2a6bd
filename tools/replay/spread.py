"""Calls of spreading and the oracle's answers to them.

A case (cases.py) has the lists positions, halfedges, point normals, flags and tangents, u32 looked, u32 turned, and the
tangents after the call.
"""
from .cases import answered, floats, one_nan, oracle, record, refusal, refused, spread_lists, u32, write

LARGEST = 18  # halfedges of a mesh that is taken
ACCEPTED = 5100
REFUSED = 300


def packed(case, answer):
    looked, turned, after = 0, 0, one_nan(case.get("tan", []))
    if answer:
        looked, turned, after = int(answer["looked"][0]), int(answer["looked"][2]), answer.get("tan") or []
    return spread_lists(case) + u32(looked) + u32(turned) + floats(after)


def main():
    pairs = answered(oracle(["gen", "spread", "3", "30000"]), LARGEST)
    damaged = [c for c in refused("7", 4 * LARGEST) if c["op"] == "spread" and int(c["counts"][1]) <= 64]
    write([record(c, packed(c, a)) for c, a in pairs[:ACCEPTED]], [record(c, packed(c, None), *refusal(c)) for c in damaged[:REFUSED]])
