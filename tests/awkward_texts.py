#!/usr/bin/env python3
"""Awkward clash texts, and what documents 01 and 02 say of each.

    awkward_texts.py input    the file that crates/trials_lists reads: for each text a line "R B" (rows lent, bytes), then its bytes
    awkward_texts.py output   what the program has to write
    awkward_texts.py check    compares the two with what is stored, crates/trials_lists/stdin and stdout

This reads the papers for itself: it shares nothing with the library but them."""
import os
import re
import sys

NUMBER = rb"(0|[1-9][0-9]{0,6})"
P = re.compile(rb"p edge " + NUMBER + rb" " + NUMBER)
E = re.compile(rb"e " + NUMBER + rb" " + NUMBER)
COMMENT = re.compile(rb"c.*", re.S)


def beginnings(*parts):
    """All beginnings of a line of these parts: each may stand where the one before it does."""
    found = rb""
    for part in reversed(parts):
        found = rb"(?:" + part + found + rb")?"
    return re.compile(found, re.S)


BEGINNINGS = [
    beginnings(rb"c", rb".*"),
    beginnings(rb"p", rb" ", rb"e", rb"d", rb"g", rb"e", rb" ", NUMBER, rb" ", NUMBER),
    beginnings(rb"e", rb" ", NUMBER, rb" ", NUMBER),
]


def bad(line):
    """(refusal, column) of a line that is of no permitted shape, or unended: where it can no longer begin any, and by what was expected there."""
    if P.fullmatch(line) or E.fullmatch(line) or COMMENT.fullmatch(line):
        return 23, len(line) + 1
    good = max(begins.match(line).end() for begins in BEGINNINGS)
    before, there = line[:good], line[good : good + 1]
    if before in (b"", b"p ", b"p e", b"p ed", b"p edg"):
        return 10, good + 1
    if before.endswith(b" ") or before[-1:].isdigit() and there.isdigit():
        return 21, good + 1
    return 22, good + 1


def read(text, room, repeats=False):
    """(refusal, line, column, n, rows): refusal 0 where the text is a list. `repeats` allows an edge to stand a second time."""
    if len(text) > 65536:
        return 18, 0, 0, 0, []
    lines = text.split(b"\n")
    last = lines.pop()  # what stands after the last line feed: nothing, where every line is ended
    n = m = None
    count, edges = 0, []
    for at, line in enumerate(lines + ([last] if last else []), 1):
        ended = at <= len(lines)
        p, e = P.fullmatch(line), E.fullmatch(line)
        if not ended or not (COMMENT.fullmatch(line) or p or e):
            number, column = bad(line)
            return number, at, column, 0, []
        if COMMENT.fullmatch(line):
            continue
        if e and n is None:
            return 11, at, 0, 0, []
        if p and n is not None:
            return 12, at, 0, 0, []
        if p:
            if int(p[1]) > 64:
                return 13, at, 0, 0, []
            if int(p[1]) > room:
                return 17, at, 0, 0, []
            n, m = int(p[1]), int(p[2])
            continue
        u, v = int(e[1]), int(e[2])
        if not (1 <= u <= n and 1 <= v <= n):
            return 14, at, 0, 0, []
        if u == v:
            return 15, at, 0, 0, []
        if not repeats and ((u - 1, v - 1) in edges or (v - 1, u - 1) in edges):
            return 20, at, 0, 0, []
        count += 1
        edges.append((u - 1, v - 1))
    if n is None:
        return 11, len(lines) + 1, 0, 0, []
    if count != m:
        return 16, len(lines) + 1, 0, 0, []
    rows = [0] * n
    for u, v in edges:
        rows[u] |= 1 << v
        rows[v] |= 1 << u
    return 0, 0, 0, n, rows


def judge(rows):
    """(refusal, row) of a matrix: 1 to 4, or 0."""
    n = len(rows)
    if n > 64:
        return 1, 0
    for i in range(n):
        if rows[i] >> n:
            return 2, i
    for i in range(n):
        if rows[i] >> i & 1:
            return 3, i
    for i in range(n):
        if any(rows[i] >> j & 1 and not rows[j] >> i & 1 for j in range(n)):
            return 4, i
    return 0, 0


def write(rows):
    """The text of a list."""
    n = len(rows)
    edges = [(i, j) for i in range(n) for j in range(i + 1, n) if rows[i] >> j & 1]
    return b"p edge %d %d\n" % (n, len(edges)) + b"".join(b"e %d %d\n" % (i + 1, j + 1) for i, j in edges)


FIVE = b"p edge 5 5\ne 1 2\ne 2 3\ne 3 4\ne 4 5\ne 1 5\n"


def padded(text, size):
    """A text of just so many bytes: one comment line, and then the text."""
    return b"c " + b"x" * (size - len(text) - 3) + b"\n" + text


def texts():
    """Pairs of a text and the number of rows lent."""
    plain = [
        # whole lists, at the ends of the range
        b"", b"\n", b"p edge 0 0\n", b"p edge 1 0\n", b"p edge 2 1\ne 1 2\n", FIVE,
        b"p edge 64 1\ne 1 64\n", b"p edge 64 0\n",
        b"p edge 64 2016\n" + b"".join(b"e %d %d\n" % (v, u) for u in range(1, 65) for v in range(u + 1, 65)),
        # 23: the last line lacks its line feed; or it is not whole, and has its own fault
        b"p edge 0 0", b"p edge 1 0\nc ", b"p edge 2 1\ne 1 2", b"e 1 2", b"p", FIVE + b"e 1 1", FIVE + b"p edge 1 1",
        # 22, 21, 10: carriage returns, tabs, other spaces
        b"p edge 1 0\r\n", b"p edge 2 1\ne 1 2\r\n", b"p\tedge 1 0\n", b"p edge 1\t0\n", b"p edge 2 1\ne 1\t2\n",
        b"p  edge 1 0\n", b"p edge  1 0\n", b"p edge 1  0\n", b"p edge 1 0 \n", b" p edge 1 0\n",
        b"p edge 2 1\ne  1 2\n", b"p edge 2 1\ne 1  2\n", b"p edge 2 1\ne 1 2 \n", b"p edge 2 1\n e 1 2\n",
        # 21, 22: numbers
        b"p edge 01 0\n", b"p edge 1 00\n", b"p edge 2 1\ne 01 2\n", b"p edge 2 1\ne 1 02\n", b"p edge 00 0\n",
        b"p edge 1 10000000\n", b"p edge 10000000 0\n", b"p edge 2 1\ne 1 10000000\n", b"p edge 2 1\ne 00000001 2\n",
        b"p edge -1 0\n", b"p edge +1 0\n", b"p edge 1 0x0\n", b"p edge 1\n", b"p edge 1 \n", b"p edge \n", b"p edge 1 0 0\n",
        b"p edge 2 1\ne 1\n", b"p edge 2 1\ne 1 \n", b"p edge 2 1\ne  \n", b"p edge 2 1\ne 1 2 3\n", b"p edge 1/ 0\n", b"p edge 1 :\n",
        # 10, 22: words; and comments that are no more than their first letter
        b"c\n", b"c\np edge 0 0\n", b"c---\n", b"C x\n", b"p edges 1 0\n", b"p col 1 0\n", b"p edge\n", b"P edge 1 0\n", b"E 1 2\n",
        b"x\n", b"n 1 2\n", b"p edge 0 0\n\n", b"\np edge 0 0\n", b"e\n", b"p\n", b"cc \n", b" c \n",
        b"p edge 0 0\n\x00", b"p edge 0 0\n\x00\n", b"\x00", b"p edge 1\x00 0\n", b"\xff\xfe\n", b"\xef\xbb\xbfp edge 0 0\n", b"p edge 1 0\x80\n",
        # comments in every place, and anything in them
        b"c \np edge 0 0\n", b"c \xff\x00\x80\r\t\np edge 0 0\n", b"p edge 2 1\nc e 1 2\ne 1 2\n", FIVE + b"c end\n",
        b"c a\nc b\np edge 2 1\nc c\ne 1 2\nc d\n", b"c p edge 1 0\n", b"c x", b"c x\n",
        # 11: an e line first, or no p line
        b"e 1 2\n", b"e 9 9\n", b"e 0 0\np edge 1 0\n", b"c x\ne 1 1\n", b"e 1 2\np edge 2 1\ne 1 2\n", b"c x\nc y\n",
        # 12: a second p line
        b"p edge 1 0\np edge 1 0\n", FIVE + b"p edge 65 0\n", b"p edge 0 0\nc x\np edge 0 0\n",
        # 13: over 64 entries
        b"p edge 65 0\n", b"p edge 9999999 0\n", b"c x\np edge 65 1\ne 1 66\n",
        # 14, 15: ends, and 14 before 15
        b"p edge 3 1\ne 0 1\n", b"p edge 3 1\ne 1 0\n", b"p edge 3 1\ne 1 4\n", b"p edge 3 1\ne 4 1\n", b"p edge 3 1\ne 4 4\n", b"p edge 3 1\ne 0 0\n",
        b"p edge 0 1\ne 1 1\n", b"p edge 3 1\ne 3 9999999\n", b"p edge 64 1\ne 1 65\n",
        b"p edge 3 1\ne 1 1\n", b"p edge 3 1\ne 3 3\n", b"p edge 3 2\ne 1 2\ne 2 2\ne 9 9\n",
        # 16: the count, one off either way, found at the end
        b"p edge 3 1\n", b"p edge 3 0\ne 1 2\n", b"p edge 3 2\ne 1 2\n", b"p edge 3 1\ne 1 2\ne 2 3\n", b"p edge 5 4\n" + FIVE[11:], b"p edge 5 6\n" + FIVE[11:],
        b"p edge 3 9999999\ne 1 2\nc x\n", b"p edge 3 0\ne 1 2\ne 3 3\n",
        # 20: repeated edges, either way round; where they are allowed, they are counted
        b"p edge 3 2\ne 1 2\ne 1 2\n", b"p edge 3 2\ne 1 2\ne 2 1\n", b"p edge 3 1\ne 1 2\ne 2 1\n", b"p edge 3 3\ne 3 1\ne 1 3\ne 3 1\n",
        # the first faulty line decides
        b"p edge 3 1\ne 1 4\nx\n", b"p edge 3 1\nx\ne 1 4\n", b"x\np edge 65 0\n", b"p edge 65 0\nx\n", b"e 1 2\nx",
        b"p edge 2 900\n" + b"e 1 2\n" * 899 + b"e 1 3\n",
        # 18: 65,536 bytes and one more
        padded(FIVE, 65536), padded(FIVE + b"x", 65536), padded(FIVE, 65537), b"x" * 65537,
    ]
    lent = [  # 17: fewer rows lent than n, or just enough, or more than 64
        (b"p edge 0 0\n", 0), (b"p edge 1 0\n", 0), (b"p edge 1 0\n", 1), (FIVE, 4), (FIVE, 5), (b"p edge 3 0\nx\n", 2), (b"p edge 64 0\n", 63),
        (b"p edge 64 0\n", 64), (b"p edge 65 0\n", 0), (b"p edge 65 0\n", 70), (b"c x\np edge 9 0\ne 1 1\n", 8), (b"x\np edge 9 0\n", 8), (b"p edge 9 0", 8),
        (FIVE, 70), (b"p edge 2 0\np edge 1 0\n", 1), (b"e 1 2\np edge 9 0\n", 8),
    ]
    return [(text, 64) for text in plain] + lent


MATRICES = [[], [0], [2, 1], [18, 5, 10, 20, 9], [2], [1], [2, 0], [0, 1], [0] * 65, [4, 0, 1], [6, 5, 3], [0, 0, 4]]


def case_input():
    return b"".join(b"%d %d\n" % (room, len(text)) + text for text, room in texts())


def matrix_output(rows):
    """A list is written thrice: with ample room, with just enough, and with one byte less. A refused matrix once."""
    number, row = judge(rows)
    if number:
        return b"written %d row %d kept\n" % (number, row)
    text = write(rows)
    return b"written 0 length %d\n" % len(text) + text + b"rest kept\n" + b"written 0 length %d\n" % len(text) + b"written 19 row 0 kept\n"


def each_line(text):
    """Of a refused text, each line with its number, where it starts and how long it is without its line feed."""
    out, at = [], 0
    for number, line in enumerate(re.findall(rb"[^\n]*\n|[^\n]+", text), 1):
        out.append(b"line %d at %d length %d\n" % (number, at, len(line.rstrip(b"\n"))))
        at += len(line)
    return b"".join(out)


def output():
    out = []
    for at, (text, room) in enumerate(texts(), 1):
        for name, repeats in ((b"read", False), (b"repeats", True)):
            number, line, column, n, rows = read(text, room, repeats)
            out.append(b"%d %s " % (at, name))
            if number:
                out.append(b"%d line %d column %d kept\n" % (number, line, column) + each_line(text))
            else:
                out.append(b"0 entries %d rows" % n + b"".join(b" %d" % row for row in rows) + b" rest kept\n" + matrix_output(rows))
    for rows in MATRICES:
        out.append(matrix_output(rows))
    return b"".join(out)


def main():
    kept = os.path.join(os.path.dirname(os.path.abspath(__file__)), "..", "crates", "trials_lists")
    what = sys.argv[1] if len(sys.argv) == 2 else ""
    if what == "input":
        sys.stdout.buffer.write(case_input())
    elif what == "output":
        sys.stdout.buffer.write(output())
    elif what == "check":
        for name, made in (("stdin", case_input()), ("stdout", output())):
            with open(os.path.join(kept, name), "rb") as file:
                if file.read() != made:
                    sys.exit(f"{name} is not what the papers say")
    else:
        sys.exit(__doc__)


if __name__ == "__main__":
    main()
