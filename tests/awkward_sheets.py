#!/usr/bin/env python3
"""Awkward pairs of a clash text and a sheet, and what documents 01 and 02 say of each.

    awkward_sheets.py input    the file that crates/trials_sheets reads: for each pair a line "L S" (bytes of list and sheet), a line with
                               the number of colour bytes lent, and then the bytes of both
    awkward_sheets.py output   what the program has to write

This reads the papers for itself: it shares nothing with the library but them. Its two outputs are stored as
crates/trials_sheets/stdin and stdout, and `awkward_sheets.py check` compares them.
"""
import os
import re
import sys

from awkward_texts import FIVE, NUMBER, padded, read

GROUPS = re.compile(rb"groups " + NUMBER)
SIZE = re.compile(rb"size " + NUMBER)
MEMBER = re.compile(NUMBER)


def split(text):
    """Lines as (bytes, ended)."""
    lines = text.split(b"\n")
    last = lines.pop()
    return [(line, True) for line in lines] + ([(last, False)] if last else [])


def check_sheet(sheet, n, rows):
    """(number, line, k, colours) of a sheet against a list."""
    if len(sheet) > 65536:
        return 18, 0, 0, []
    lines = split(sheet)
    groups = None  # how many there are to be, once the first line is read
    divided = []  # the groups so far, each a list of members from 1
    due = 0  # members still to come in the last of them
    for at, (line, ended) in enumerate(lines, 1):
        if groups is not None and due == 0 and len(divided) == groups:
            return 37, at, 0, []
        if not ended:
            return 30, at, 0, []
        if groups is None:
            shape = GROUPS.fullmatch(line)
            if not shape:
                return 30, at, 0, []
            groups = int(shape[1])
        elif due == 0:
            shape = SIZE.fullmatch(line)
            if not shape or int(shape[1]) == 0:
                return 30, at, 0, []
            due = int(shape[1])
            divided.append([])
        else:
            shape = MEMBER.fullmatch(line)
            if not shape:
                return 30, at, 0, []
            member, group = int(shape[1]), divided[-1]
            if not 1 <= member <= n:
                return 31, at, 0, []
            if group and member <= group[-1]:
                return 32, at, 0, []
            if not group and len(divided) > 1 and member <= divided[-2][0]:
                return 32, at, 0, []
            if any(member in other for other in divided[:-1]):
                return 33, at, 0, []
            if any(rows[member - 1] >> other - 1 & 1 for other in group):
                return 34, at, 0, []
            group.append(member)
            due -= 1
    if groups is None or due or len(divided) < groups:
        return 35, len(lines) + 1, 0, []
    colours = [None] * n
    for number, group in enumerate(divided):
        for member in group:
            colours[member - 1] = number
    if None in colours:
        return 36, len(lines) + 1, 0, []
    return 0, 0, groups, colours


def check(text, sheet, room, repeats):
    """(number, line, column, which text, k, colours) of a pair. `repeats` allows an edge of the list to stand a second time."""
    number, line, column, n, rows = read(text, 64, repeats)
    if number:
        return number, line, column, 1, 0, []
    if room < n:
        return 5, 0, 0, 2, 0, []
    number, line, k, colours = check_sheet(sheet, n, rows)
    return number, line, 0, 2 if number else 0, k, colours


def shown(text, line):
    """What the preview shows of the text at fault."""
    lines = split(text)
    return lines[line - 1][0] if 1 <= line <= len(lines) else b""


def judge(colours):
    """(number, index) of colour bytes that are to be written: 1, 38, or 0."""
    if len(colours) > 64:
        return 1, 0
    for at, group in enumerate(colours):
        if group > len(set(colours[:at])):
            return 38, at
    return 0, 0


def write(colours):
    """The sheet of a division."""
    groups = [[i + 1 for i, group in enumerate(colours) if group == k] for k in range(len(set(colours)))]
    groups.sort()
    return b"groups %d\n" % len(groups) + b"".join(b"size %d\n" % len(group) + b"".join(b"%d\n" % member for member in group) for group in groups)


def listed(n, *edges):
    return b"p edge %d %d\n" % (n, len(edges)) + b"".join(b"e %d %d\n" % edge for edge in edges)


SHEET = b"groups 3\nsize 2\n1\n3\nsize 2\n2\n4\nsize 1\n5\n"
PATH = listed(3, (1, 2), (2, 3))  # 2 clashes with both others
PAIR = b"groups 2\nsize 2\n1\n3\nsize 1\n2\n"
BOTH = listed(3, (1, 2), (2, 1), (2, 3), (3, 2))  # the same, each clash both ways
FREE = listed(4)  # no clashes
EMPTY = listed(0)


def pairs():
    """Triples of a list, a sheet and the number of colour bytes lent."""
    found = [
        # accepted, with as many bytes as are needed, and more
        (FIVE, SHEET, 5), (FIVE, SHEET, 8), (FIVE, SHEET, 70), (PATH, PAIR, 3), (EMPTY, b"groups 0\n", 0), (EMPTY, b"groups 0\n", 3),
        (listed(1), b"groups 1\nsize 1\n1\n", 1), (FREE, b"groups 1\nsize 4\n1\n2\n3\n4\n", 4),
        (FREE, b"groups 4\nsize 1\n1\nsize 1\n2\nsize 1\n3\nsize 1\n4\n", 4), (FREE, b"groups 2\nsize 2\n1\n4\nsize 2\n2\n3\n", 4),
        (listed(64), write([0] * 64), 64), (listed(64), write(list(range(64))), 70), (b"c x\n" + FIVE + b"c y\n", SHEET, 5),
        # the list's own refusals come first, with their line
        (b"", SHEET, 5), (b"x\n", b"", 0), (FIVE[:-1], SHEET, 5), (b"e 1 2\n", SHEET, 5), (FIVE + b"p edge 5 5\n", SHEET, 5), (b"p edge 65 0\n", SHEET, 70),
        (b"p edge 3 1\ne 1 4\n", PAIR, 3), (b"c y\np edge 3 1\ne 2 2\n", PAIR, 0), (b"p edge 3 2\ne 1 2\n", b"groups 0\n", 0), (b"c x\nc y\n", PAIR, 3),
        (padded(FIVE, 65537), SHEET, 5),
        # 20 of the list; where repeats are allowed, the sheet's own
        (BOTH, PAIR, 3), (BOTH, b"groups 1\nsize 3\n1\n2\n3\n", 3), (BOTH, PAIR, 2), (BOTH, b"", 3), (listed(3, (1, 2), (1, 2)), PAIR, 3), (BOTH + b"e 4 4\n", PAIR, 3),
        (b"p edge 3 1\ne 3 2\ne 2 3\n", PAIR, 3),
        # 5: too few colour bytes, before anything of the sheet
        (FIVE, SHEET, 4), (FIVE, b"", 0), (FIVE, b"x" * 65537, 4), (listed(1), b"groups 0\n", 0), (listed(64), b"size", 63),
        # 18, and just not
        (PATH, b"x" * 65537, 3), (PATH, PAIR + b"\n" * (65536 - len(PAIR)), 3), (PATH, PAIR + b"\n" * (65537 - len(PAIR)), 3),
        # 35: empty, or over before the counts are met
        (EMPTY, b"", 0), (PATH, b"", 3), (PATH, b"groups 2\n", 3), (PATH, b"groups 2\nsize 2\n", 3), (PATH, b"groups 2\nsize 2\n1\n", 3),
        (PATH, b"groups 2\nsize 2\n1\n3\n", 3), (PATH, b"groups 2\nsize 2\n1\n3\nsize 1\n", 3), (PATH, b"groups 3\n" + PAIR[9:], 3), (EMPTY, b"groups 1\n", 0),
        (FREE, b"groups 1\nsize 5\n1\n2\n3\n4\n", 4), (FREE, b"groups 9999999\nsize 4\n1\n2\n3\n4\n", 4), (FREE, b"groups 1\nsize 9999999\n1\n", 4),
        # 36: an entry absent
        (PATH, b"groups 0\n", 3), (PATH, b"groups 1\nsize 2\n1\n3\n", 3), (FREE, b"groups 1\nsize 3\n1\n2\n4\n", 4), (FREE, b"groups 1\nsize 3\n2\n3\n4\n", 4),
        (FREE, b"groups 2\nsize 1\n1\nsize 2\n2\n3\n", 4), (listed(64), write([0] * 63), 64),
        # 37: a line after the last group, of any shape, ended or not, and before 36
        (PATH, PAIR + b"\n", 3), (PATH, PAIR + b"x\n", 3), (PATH, PAIR + b"x", 3), (PATH, PAIR + b"size 1\n", 3), (PATH, PAIR + b"1\n", 3), (PATH, PAIR + b"groups 2\n", 3),
        (PATH, PAIR + b"1", 3), (PATH, PAIR + b"\n\n\n", 3), (EMPTY, b"groups 0\n\n", 0), (EMPTY, b"groups 0\nx", 0), (PATH, b"groups 0\nsize 1\n1\n", 3),
        (FREE, b"groups 1\nsize 3\n1\n2\n4\nsize 1\n", 4), (FREE, b"groups 1\nsize 3\n1\n2\n4\n3", 4), (FREE, b"groups 1\nsize 3\n1\n2\n3\n4\n", 4), (PATH, PAIR + b"\xff\x00", 3),
        # 30: unended before the counts are met, whatever else is wrong with the line
        (PATH, b"g", 3), (PATH, b"groups 2", 3), (PATH, b"groups 2\nsize 2", 3), (PATH, b"groups 2\nsize 2\n1\n3", 3), (PATH, b"groups 2\nsize 2\n9", 3),
        (PATH, b"groups 2\nsize 2\n3\n1", 3), (PATH, b"groups 2\nsize 2\n1\n2", 3), (PATH, PAIR[:-1], 3), (EMPTY, b"groups 0", 0),
        # 30: the wrong shape for its place
        (PATH, b"\n", 3), (PATH, b"groups\n", 3), (PATH, b"groups \n", 3), (PATH, b"Groups 2\n", 3), (PATH, b"groups  2\n", 3), (PATH, b"groups 2 \n", 3), (PATH, b" groups 2\n", 3),
        (PATH, b"groups 02\n", 3), (PATH, b"groups 10000000\n", 3), (PATH, b"groups 00\n", 3), (PATH, b"groups -1\n", 3), (PATH, b"groups 2\r\n", 3), (PATH, b"groups\t2\n", 3),
        (PATH, b"groups 2 2\n", 3), (PATH, b"size 2\n", 3), (PATH, b"2\n", 3), (PATH, b"c x\n" + PAIR, 3), (PATH, b"groups 2\ngroups 2\n", 3), (PATH, b"groups 2\n1\n", 3),
        (PATH, b"groups 2\nsize\n", 3), (PATH, b"groups 2\nsize \n", 3), (PATH, b"groups 2\nsize 0\n", 3), (PATH, b"groups 2\nsize 00\n", 3), (PATH, b"groups 2\nsize 01\n", 3),
        (PATH, b"groups 2\nsize 10000000\n", 3), (PATH, b"groups 2\nsize 2 \n", 3), (PATH, b"groups 2\nsize 1 1\n", 3), (PATH, b"groups 2\nSize 2\n", 3), (PATH, b"groups 2\n\n", 3),
        (PATH, b"groups 2\nsize 2\n\n", 3), (PATH, b"groups 2\nsize 2\nsize 2\n", 3), (PATH, b"groups 2\nsize 2\n1 3\n", 3), (PATH, b"groups 2\nsize 2\n01\n", 3),
        (PATH, b"groups 2\nsize 2\n1 \n", 3), (PATH, b"groups 2\nsize 2\n 1\n", 3), (PATH, b"groups 2\nsize 2\nx\n", 3), (PATH, b"groups 2\nsize 2\n10000000\n", 3),
        (PATH, b"groups 2\nsize 2\n00000001\n", 3), (PATH, b"groups 2\nsize 2\n1\nc x\n3\nsize 1\n2\n", 3), (PATH, b"groups 2\nsize 2\n1\nsize 1\n2\n", 3),
        (PATH, b"groups 2\nsize 1\n1\n3\nsize 1\n2\n", 3), (PATH, b"groups 2\nsize 2\n1\n3\nsize 0\n", 3), (PATH, b"groups 2\nsize 2\n1\x00\n", 3),
        # 31: a member outside 1 to n, before 32 to 34
        (PATH, b"groups 2\nsize 2\n0\n", 3), (PATH, b"groups 2\nsize 2\n4\n", 3), (PATH, b"groups 2\nsize 2\n1\n0\n", 3), (PATH, b"groups 2\nsize 2\n1\n4\n", 3),
        (PATH, b"groups 2\nsize 2\n1\n9999999\n", 3), (EMPTY, b"groups 1\nsize 1\n1\n", 0), (listed(64), b"groups 1\nsize 65\n" + b"".join(b"%d\n" % i for i in range(1, 66)), 64),
        # 32: not above the member before it, or the previous group's first; twice in one group
        (FREE, b"groups 1\nsize 2\n2\n1\n", 4), (FREE, b"groups 1\nsize 2\n2\n2\n", 4), (FREE, b"groups 1\nsize 3\n1\n3\n2\n", 4), (FREE, b"groups 1\nsize 3\n1\n3\n3\n", 4),
        (FREE, b"groups 2\nsize 1\n2\nsize 1\n1\n", 4), (FREE, b"groups 2\nsize 1\n2\nsize 1\n2\n", 4), (FREE, b"groups 2\nsize 2\n2\n3\nsize 1\n1\n", 4),
        (FREE, b"groups 3\nsize 1\n1\nsize 1\n3\nsize 1\n2\n", 4), (FREE, b"groups 3\nsize 1\n1\nsize 1\n3\nsize 1\n3\n", 4), (FREE, b"groups 2\nsize 2\n2\n4\nsize 1\n3\n", 4),
        (PATH, b"groups 2\nsize 2\n2\n1\n", 3), (PATH, b"groups 2\nsize 1\n2\nsize 2\n1\n3\n", 3),
        # 33: in an earlier group, before 34
        (FREE, b"groups 2\nsize 2\n1\n3\nsize 1\n3\n", 4), (FREE, b"groups 2\nsize 2\n1\n3\nsize 2\n2\n3\n", 4), (FREE, b"groups 3\nsize 3\n1\n2\n4\nsize 1\n3\nsize 1\n4\n", 4),
        (PATH, b"groups 2\nsize 2\n1\n3\nsize 2\n2\n3\n", 3), (FREE, b"groups 2\nsize 2\n1\n2\nsize 1\n2\n", 4),
        # 34: a clash with the member before it, or with an earlier one, in the first group or a later one
        (PATH, b"groups 2\nsize 2\n1\n2\nsize 1\n3\n", 3), (PATH, b"groups 1\nsize 3\n1\n2\n3\n", 3), (PATH, b"groups 2\nsize 1\n1\nsize 2\n2\n3\n", 3),
        (listed(3, (1, 3)), b"groups 1\nsize 3\n1\n2\n3\n", 3), (listed(4, (4, 2)), b"groups 2\nsize 1\n1\nsize 3\n2\n3\n4\n", 4), (listed(4, (1, 4)), b"groups 1\nsize 4\n1\n2\n3\n4\n", 4),
        (listed(4, (1, 4)), b"groups 1\nsize 4\n1\n2\n3\n4", 4), (FIVE, b"groups 2\nsize 3\n1\n3\n5\nsize 2\n2\n4\n", 5), (listed(64, (63, 64)), write([0] * 64), 64),
        # the first faulty line decides
        (FREE, b"groups 2\nsize 2\n2\n1\nx\n", 4), (FREE, b"groups 2\nsize 2\nx\n1\n", 4), (PATH, b"groups 1\nsize 3\n1\n2\n9\n", 3),
    ]
    return found


COLOURS = [[], [0], [1], [0, 0, 0], [0, 1, 0, 1, 2], [0, 2, 1], [0, 1, 3, 2], [0, 0, 255], [0] * 64, [0] * 65, [1] * 65]


def written(colours):
    """A sheet is written thrice: with ample room, with just enough, and with one byte less. Refused colour bytes once."""
    number, index = judge(colours)
    if number:
        return b"written %d index %d length 0 rest kept\n" % (number, index)
    text = write(colours)
    line = b"written 0 index 0 length %d rest kept\n" % len(text)
    return line + text + line + b"written 19 index 0 length 0 rest kept\n"


def case_input():
    return b"".join(b"%d %d\n%d\n" % (len(text), len(sheet), room) + text + sheet for text, sheet, room in pairs())


def output():
    out = []
    for at, (text, sheet, room) in enumerate(pairs(), 1):
        for name, repeats in ((b"", False), (b"repeats ", True)):
            number, line, column, which, k, colours = check(text, sheet, room, repeats)
            lent = [b"%d" % group for group in colours] + [b"-"] * (room - len(colours))
            part = shown(text if which == 1 else sheet, line)
            out.append(b"%d %snumber %d line %d column %d text %d groups %d colours" % (at, name, number, line, column, which, k))
            out.append(b"".join(b" " + byte for byte in lent))
            out.append(b" shown %d [" % len(part) + part + b"]\n")
            if number == 0:
                out.append(written(colours))
    for colours in COLOURS:
        out.append(written(colours))
    return b"".join(out)


def main():
    kept = os.path.join(os.path.dirname(os.path.abspath(__file__)), "..", "crates", "trials_sheets")
    what = sys.argv[1] if len(sys.argv) == 2 else ""
    if what == "input":
        sys.stdout.buffer.write(case_input())
    elif what == "output":
        sys.stdout.buffer.write(output())
    elif what == "check":
        for name, made in (("stdin", case_input()), ("stdout", output())):
            with open(os.path.join(kept, name), "rb") as file:
                if file.read() != made:
                    sys.exit(f"{name} is not what the papers say")
    else:
        sys.exit(__doc__)


if __name__ == "__main__":
    main()
