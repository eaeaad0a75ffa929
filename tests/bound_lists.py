"""The lists of crates/trials_bounds, from document 01's table and from their published constructions, and both bounds of each, by document 01's words
alone.

Prints what the program has to write, which is its file stdout. `bound_lists.py rows` prints the constructed lists as Rattle's arrays: to compare, or to
add one. It shares nothing with the crates."""

import sys
from itertools import combinations

from validity_lists import judged
from walk_lists import clique, mycielskian


def rows(n, edges):
    found = [0] * n
    for u, v in edges:
        found[u] |= 1 << v
        found[v] |= 1 << u
    return found


def mycielski(n, edges):
    """v's copy is n + v, joined to v's neighbours; a last vertex is joined to every copy."""
    more = [(n + a, b) for u, v in edges for a, b in ((u, v), (v, u))]
    return 2 * n + 1, edges + more + [(n + v, 2 * n) for v in range(n)]


def myciel(k):
    """DIMACS myciel3 is the five-cycle's Mycielskian."""
    n, edges = 5, [(0, 1), (1, 2), (2, 3), (3, 4), (0, 4)]
    for _ in range(k - 2):
        n, edges = mycielski(n, edges)
    return rows(n, edges)


def queen(m):
    """Squares of an m by m board, row by row; two clash where a queen goes from one to the other."""
    at = [(i // m, i % m) for i in range(m * m)]
    see = lambda a, b: a[0] == b[0] or a[1] == b[1] or abs(a[0] - b[0]) == abs(a[1] - b[1])
    return rows(m * m, [(i, j) for i in range(m * m) for j in range(i) if see(at[i], at[j])])


CONSTRUCTED = {
    "myciel3": myciel(3),
    "myciel4": myciel(4),
    "queen5_5": queen(5),
    "queen6_6": queen(6),
    "n = 64, all edges": rows(64, combinations(range(64), 2)),
}

# The starred lists of document 01's table, named as there; its refusals; the constructions; the two ends of 64.
LISTS = {
    "n = 0": [],
    "n = 1": [0],
    "n = 2, none": [0, 0],
    "n = 2, 0-1": rows(2, [(0, 1)]),
    "n = 3, none": [0, 0, 0],
    "0-1, 1-2": rows(3, [(0, 1), (1, 2)]),
    "0-1, 1-2, 2-3, 0-3": rows(4, [(0, 1), (1, 2), (2, 3), (0, 3)]),
    "0-1, 1-2, 2-3, 3-4, 0-4": rows(5, [(0, 1), (1, 2), (2, 3), (3, 4), (0, 4)]),
    "65 rows": [0] * 65,
    "2": [2],
    "1": [1],
    "2, 0": [2, 0],
    **{name: CONSTRUCTED[name] for name in ("myciel3", "myciel4", "queen5_5", "queen6_6")},
    "n = 64, none": [0] * 64,
    "n = 64, all edges": CONSTRUCTED["n = 64, all edges"],
}


def told(lent):
    """Both bounds of lent rows, or twice their refusal."""
    number, row = judged(lent)
    if number:
        return f"refused {number} row {row} refused {number} row {row}"
    live = list(range(len(lent)))
    adj = {v: {w for w in live if lent[v] >> w & 1} for v in live}
    return f"{len(clique(live, adj))} {mycielskian(live, adj)}"


if __name__ == "__main__":
    if sys.argv[1:] == ["rows"]:
        for found in CONSTRUCTED.values():
            print("[" + ", ".join(str(row) for row in found) + "]")
    else:
        for name, lent in LISTS.items():
            print(f"{name}: {told(lent)}")
