"""The lists of crates/trials_wide, of up to 256 entries, from their constructions, and by document 01's words alone what is found in each: the clique,
the Mycielskian bound and the pair to split.

`wide_lists.py stdin` prints the program's input, its file stdin; `wide_lists.py` alone prints what the program has to write, its file stdout. It shares
nothing with the crates."""

import sys
from itertools import combinations

from walk_lists import FIVE, clique, mycielski, mycielskian, pair, random_list


def mycielski_lists(most):
    """The five-cycle's Mycielskian, that one's, and so on: no triangle in any."""
    found = [mycielski(*FIVE)]
    while 2 * found[-1][0] + 1 <= most:
        found.append(mycielski(*found[-1]))
    return found


def every(n):
    return n, list(combinations(range(n), 2))


def without(entries, pairs):
    n, edges = entries
    return n, [e for e in edges if e not in pairs]


# Random lists at the ends of each word: how many entries, and how many pairs of a hundred clash.
RANDOM = [
    (1, 50), (5, 50), (63, 50), (64, 5), (64, 90), (65, 30), (65, 97), (127, 10), (127, 80), (128, 50), (128, 95), (129, 3), (129, 60), (192, 20), (192, 98),
    (193, 7), (193, 90), (200, 70), (255, 2), (255, 97), (256, 1), (256, 10), (256, 90), (256, 99),
]

LISTS = [
    (0, []),
    *mycielski_lists(256),
    *[(n, []) for n in (65, 128, 129, 256)],
    *[every(n) for n in (65, 128, 129, 256)],
    # one pair that does not clash, its ends in different words; and one that alone does
    without(every(130), [(63, 129)]),
    without(every(256), [(64, 191)]),
    without(every(256), [(127, 128), (127, 255)]),
    (256, [(63, 192)]),
    (193, [(0, 192)]),
    # a path and a star across all words; a clique of the last members of each word and the first of the next
    (256, [(i, i + 1) for i in range(255)]),
    (256, [(i, 255) for i in range(255)]),
    (256, list(combinations((63, 64, 127, 128, 191, 192, 255), 2))),
    *[random_list(n, percent, 100 + i) for i, (n, percent) in enumerate(RANDOM)],
]


def lines(n, edges):
    """The shorter of the pairs that clash and those that do not, after which of the two it is; at the end a pair of one entry twice."""
    clash = set(edges)
    others = [e for e in combinations(range(n), 2) if e not in clash]
    turned = len(others) < len(edges)
    return [(n, int(turned))] + (others if turned else edges) + [(0, 0)]


def told(n, edges):
    live = list(range(n))
    adj = {v: set() for v in live}
    for u, v in edges:
        adj[u].add(v)
        adj[v].add(u)
    members = "".join(f" {v}" for v in sorted(clique(live, adj)))
    at = pair(live, adj)
    return f"{n} entries, clique{members}, bound {mycielskian(live, adj)} reached, " + (f"pair {at[0]} {at[1]}" if at else "complete")


if __name__ == "__main__":
    for n, edges in LISTS:
        if sys.argv[1:] == ["stdin"]:
            for u, v in lines(n, edges):
                print(u, v)
        else:
            print(told(n, edges))
