"""The lists of crates/trials_walks, from their constructions, and what both walks answer for them, by document 01's words alone.

Sets of vertices and recursion, no words of bits; it shares nothing with the crates. `walk_lists.py rows` prints the lists as Rattle's constants;
`walk_lists.py` alone prints what the program has to write, which is its file stdout."""

import sys
from itertools import combinations

sys.setrecursionlimit(10000)


# ---- lists

def circulant(n, steps):
    return n, [(i, (i + s) % n) for i in range(n) for s in steps]


def mycielski(n, edges):
    more = [(n + a, b) for u, v in edges for a, b in ((u, v), (v, u))]
    return 2 * n + 1, edges + more + [(n + v, 2 * n) for v in range(n)]


def queens(m):
    at = [(i // m, i % m) for i in range(m * m)]
    return m * m, [(i, j) for j, i in combinations(range(m * m), 2)
                   if at[i][0] == at[j][0] or at[i][1] == at[j][1] or abs(at[i][0] - at[j][0]) == abs(at[i][1] - at[j][1])]


def kneser(n, k):
    parts = list(combinations(range(n), k))
    return len(parts), [(i, j) for i, j in combinations(range(len(parts)), 2) if not set(parts[i]) & set(parts[j])]


def cube(d):
    return 2 ** d, [(x, x ^ (1 << b)) for x in range(2 ** d) for b in range(d)]


def random_list(n, percent, seed):
    """Each pair in order clashes where the next number of a linear congruence is small."""
    edges, x = [], seed
    for i, j in combinations(range(n), 2):
        x = (x * 6364136223846793005 + 1442695040888963407) % 2 ** 64
        if (x >> 33) % 100 < percent:
            edges.append((i, j))
    return n, edges


FIVE = circulant(5, [1])
MYCIEL3 = mycielski(*FIVE)

# name, list, budget, whether the plain walk takes it too
LISTS = [
    ("five-cycle", FIVE, 1000000, True),
    ("five-cycle, budget 4", FIVE, 4, False),
    ("five-cycle, budget 5", FIVE, 5, False),
    ("seven-cycle", circulant(7, [1]), 1000000, True),
    ("octahedron", circulant(6, [1, 2]), 1000000, True),
    ("cube", cube(3), 1000000, True),
    ("myciel3", MYCIEL3, 1000000, True),
    ("myciel4", mycielski(*MYCIEL3), 1000000, False),
    ("queen4_4", queens(4), 1000000, False),
    ("queen5_5", queens(5), 1000000, False),
    ("petersen", kneser(5, 2), 1000000, True),
    ("kneser 6 2", kneser(6, 2), 1000000, False),
    ("paley 13", circulant(13, [1, 3, 4]), 1000000, False),
    ("paley 17", circulant(17, [1, 2, 4, 8]), 1000000, False),
    ("cube of 4", cube(4), 1000000, False),
    ("random 10 50", random_list(10, 50, 1), 1000000, True),
    ("random 20 50", random_list(20, 50, 2), 1000000, False),
    ("random 30 20", random_list(30, 20, 3), 1000000, False),
    ("random 32 80", random_list(32, 80, 4), 1000000, False),
    ("random 64 4", random_list(64, 4, 5), 1000000, False),
    ("random 64 97", random_list(64, 97, 6), 1000000, False),
    ("n = 64, none", (64, []), 1000000, False),
    ("n = 64, all edges", (64, list(combinations(range(64), 2))), 1000000, False),
]


# ---- document 01's walks

def clique(live, adj):
    found = []
    for v in live:
        admits = [c for c in found if all(u in adj[v] for u in c)]
        for c in admits:
            c.append(v)
        if not admits:
            found.append([v])
    for v in live:
        for c in found:
            if all(u in adj[v] for u in c):
                c.append(v)
    return max(found, key=len, default=[])


def mycielskian(live, adj):
    h = set(clique(live, adj))
    near = {v: h - {v} for v in h}
    bound = len(h)
    while len(h) < len(live):
        serve = {v: [x for x in live if near[v] <= adj[x]] for v in h}
        w = next((w for w in live if all(any(x in adj[w] for x in serve[v]) for v in h)), None)
        if w is None:
            break
        bound += 1
        chosen = {v: next(x for x in serve[v] if x in adj[w]) for v in h}
        new = {v: set(near[v]) for v in h}
        for x in [w] + list(chosen.values()):
            new.setdefault(x, set())
        for v, x in chosen.items():
            for y in [w] + list(near[v]):
                new[x].add(y)
                new[y].add(x)
        h, near = set(new), new
    return bound


def pair(live, adj):
    gaps = [(-len(adj[u] & adj[v]), u, v) for u, v in combinations(live, 2) if v not in adj[u]]
    return min(gaps)[1:] if gaps else None


class Spent(Exception):
    pass


class Walk:
    def __init__(self, n, edges, budget, plain):
        self.n, self.budget, self.plain = n, budget, plain
        self.best, self.nodes, self.leaves = n, 0, 0
        adj = {v: set() for v in range(n)}
        for u, v in edges:
            adj[u].add(v)
            adj[v].add(u)
        self.root = adj

    def enter(self, adj):
        if self.nodes == self.budget:
            raise Spent
        self.nodes += 1
        live = sorted(adj)
        if not self.plain and mycielskian(live, adj) >= self.best:
            return
        at = pair(live, adj)
        if at is None:
            self.leaves += 1
            self.best = min(self.best, len(live)) if self.plain else len(live)
            return
        u, v = at
        merged = {x: (adj[x] - {v}) | ({u} if v in adj[x] else set()) for x in adj if x != v}
        merged[u] = (adj[u] | adj[v]) - {v}
        self.enter(merged)
        apart = {x: set(adj[x]) for x in adj}
        apart[u].add(v)
        apart[v].add(u)
        self.enter(apart)

    def answer(self):
        try:
            self.enter(self.root)
        except Spent:
            return f"refused 6 nodes {self.budget}"
        return f"k {self.best} nodes {self.nodes} leaves {self.leaves if self.plain else 0}"


def rows(n, edges):
    found = [0] * n
    for u, v in edges:
        found[u] |= 1 << v
        found[v] |= 1 << u
    return found


if __name__ == "__main__":
    for name, (n, edges), budget, small in LISTS:
        if sys.argv[1:] == ["rows"]:
            if "," in name:
                continue
            const = name.upper().replace(" ", "_").replace("-", "_")
            print(f"const {const}: [u64; {n}] = [{', '.join(map(str, rows(n, edges)))}];")
            continue
        print(f"{name}: {Walk(n, edges, budget, False).answer()}")
        if small:
            print(f"{name}, plain: {Walk(n, edges, budget, True).answer()}")
