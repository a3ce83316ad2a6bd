"""Calls on meshes and the oracle's answers to them.

The cases are the oracle's own random meshes, the smaller ones, and its damaged ones with the refusals that questions 1 to 11 call for.

A case (cases.py) has the operation's lists and answers: see `packed`.
"""
from .cases import answered, counts, crease_lists, floats, halfedges, one_nan, oracle, record, refusal, refused, signed, small, u32, write

LARGEST = 24  # halfedges of a mesh that is taken
ACCEPTED = 510  # cases of each operation
REFUSED = 3100


def packed(case, answer):
    """The lists of a case, and what the oracle answered."""
    op, get = case["op"], case.get
    if op == "straighten":
        after = answer.get("tan") if answer else one_nan(get("tan"))
        return floats(get("pos")) + signed(halfedges(case)) + floats(get("tan")) + floats(after)
    if op == "check":
        return floats(get("pos")) + signed(halfedges(case)) + floats(get("tan")) + u32(int(answer["valid"][0]) if answer else 0)
    if op in ("crease", "crease2"):
        return crease_lists(case, answer)
    if op == "tfn":
        return floats(get("pos")) + signed(halfedges(case)) + floats(get("fn")) + floats(get("nrm")) + floats(answer["tan"])
    if op == "quad":
        old = get("tan") is not None
        return signed(halfedges(case)) + signed(get("ref")) + u32(old) + floats(get("tan") or []) + small(answer["inside"]) + small(answer["marked"])
    if op == "flat":
        return signed(halfedges(case)) + signed(get("ref")) + small(answer["flat"]) + signed(answer["vert"]) + signed(answer["first"])
    # the questions of the other calls: of most lists only the length is asked
    lengths = [len(get(k) or []) for k in ("pos", "vn", "fn", "prop", "tan")]
    return (b"".join(u32(x) for x in lengths) + u32(get("tan") is not None) + signed(halfedges(case)) + signed(get("ref") or []) + counts(get("sh") or [])
            + floats(get("ss") or []) + small(get("fl") or []))


def main():
    accepted = []
    for kind in ("straighten", "check", "crease", "tfn", "quad", "flat"):
        # a crease listing is asked as `crease2`, whose tally is half of the clean listing's entries
        pairs = answered(oracle(["gen", kind, "3", "2000"]).replace("case crease ", "case crease2 "), LARGEST)
        accepted += [record(c, packed(c, a)) for c, a in pairs[:ACCEPTED]]
    write(accepted, [record(c, packed(c, None), *refusal(c)) for c in refused("5", 4 * 18)[:REFUSED]])
