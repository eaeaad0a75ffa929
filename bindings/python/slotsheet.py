"""Fewest sittings from a clash list: the proved library, called from Python.

A list is a sequence of rows, one for each of its 0 to 64 entries: bit j of rows[i] says that entries i and j clash. Rows count from 0. In texts
and sheets, and in what is said to people, the same entries count from 1. A division is a sequence of group numbers, one for each entry; groups are
numbered from 0 by smallest member.

    >>> import slotsheet
    >>> rows = slotsheet.read_list("p edge 3 2\\ne 1 2\\ne 2 3\\n")
    >>> answer = slotsheet.fewest(rows)
    >>> answer.k, answer.colours
    (2, [0, 1, 0])
    >>> answer.clique  # entries that all clash with one another: why it can't be fewer
    [0, 1]
    >>> print(slotsheet.write_sheet(answer.colours), end="")
    groups 2
    size 2
    1
    3
    size 1
    2

Every call that the library refuses raises Refused, which has the refusal's number, its name, what is returned beside it, and a sentence for people:

    >>> slotsheet.check_sheet("p edge 2 1\\ne 1 2\\n", "groups 1\\nsize 2\\n1\\n2\\n")
    Traceback (most recent call last):
        ...
    slotsheet.Refused: sheet: line 4: entry 2 clashes with an earlier entry of its group

A clash text names each edge once: one that stands a second time, either way round, is refused as 20. The functions whose names end in _repeats allow
it, for lists whose exporter names each clash both ways; they are the same in everything else.

    >>> slotsheet.read_list("p edge 2 2\\ne 1 2\\ne 2 1\\n")
    Traceback (most recent call last):
        ...
    slotsheet.Refused: line 3: this clash stands in an earlier line already, the same or the other way round
    >>> slotsheet.read_list_repeats("p edge 2 2\\ne 1 2\\ne 2 1\\n")
    [2, 1]

The library is libslotsheet.so of this module's major version: the one that the environment variable SLOTSHEET_LIB names, as a file or as its folder;
else the one in the prefix that this module was installed to; else the one that the system finds. Nothing but Python's standard library is needed.
Calls may be made from any number of threads.
"""

import ctypes
import os
from collections import namedtuple
from ctypes import POINTER, c_char_p, c_size_t, c_uint8, c_uint64
from pathlib import Path

__all__ = [
    "VERSION", "ENTRIES", "BYTES", "SHEET_BYTES", "LIST_BYTES", "MEND_BYTES", "NODES", "STACK_BYTES", "Refused", "Walked", "Clique", "Checked", "Mended", "version", "rows_of", "validity",
    "clique_bound", "mycielskian_bound", "fewest", "plain", "fewest_by_placing", "fewest_shrunk", "read_list", "read_list_repeats", "write_list", "write_sheet",
    "check_sheet", "check_sheet_repeats", "fault_line", "fault_line_repeats", "mend_sheet", "mend_sheet_repeats", "answer", "answer_repeats",
]

# tools/bindings writes from here on, from bindings/interface.txt
VERSION = "5.2.0"

ENTRIES = 64  # the most entries of a list
BYTES = 65_536  # the most bytes of a text that is read
SHEET_BYTES = 641  # no sheet is longer
LIST_BYTES = 15_576  # no written list is longer
MEND_BYTES = 449_161  # no mended sheet with its report is longer
NODES = 1_000_000  # the nodes that the walk of the program slotsheet may enter
STACK_BYTES = 262_144  # the stack that a thread needs to make any call, with room to spare

_NONE = 0  # neither text is at fault
_LIST = 1  # the clash list
_SHEET = 2  # the sitting sheet

# number: name, what is returned beside it, sentence
_TABLE = {
    1: ("MANY", None, "there are more than 64 entries"),
    2: ("STRAY", "row", "entry {next} is marked as clashing with an entry that the list does not have (row {place})"),
    3: ("SELF", "row", "entry {next} is marked as clashing with itself (row {place})"),
    4: ("ONE-SIDED", "row", "entry {next} is marked as clashing with an entry that is not marked as clashing with it (row {place})"),
    5: ("SHORT", None, "there is less room for group numbers than the list has entries"),
    6: ("BUDGET", "nodes", "the search for the fewest sittings was given up after {place} steps, as many as it was allowed"),
    10: ("LINE", "spot", "line {place}, column {column}: this line is empty, or its word is none of \"c\", \"p edge\" and \"e\""),
    11: ("HEADLESS", "line", "line {place}: no line \"p edge N M\" has come before this clash, or before the list's end"),
    12: ("SECOND", "line", "line {place}: this is a second line \"p edge N M\""),
    13: ("SIZE", "line", "line {place}: this line states more than 64 entries"),
    14: ("VERTEX", "line", "line {place}: this clash names an entry that the list does not have"),
    15: ("LOOP", "line", "line {place}: here an entry clashes with itself"),
    16: ("COUNT", "line", "line {place}: the list ends here, and the number of its clashes is not the one that its p line states"),
    17: ("ROOM", "line", "line {place}: this line states more entries than there is room for"),
    18: ("LONG", None, "the text is longer than 65,536 bytes"),
    19: ("FULL", None, "there is too little room to write the whole text"),
    20: ("REPEAT", "line", "line {place}: this clash stands in an earlier line already, the same or the other way round"),
    21: ("DIGIT", "spot", "line {place}, column {column}: here a number must start, and there is none; or a number goes on here after a leading 0 or its seventh digit"),
    22: ("SPACE", "spot", "line {place}, column {column}: here, after a word or a number, one space or the line's end must come, and there is something else (it may not be visible), or the line stops"),
    23: ("UNENDED", "spot", "line {place}, column {column}: the last line stops here without its line end"),
    30: ("SHEET LINE", "line", "line {place}: this is not the kind of line that belongs here, or it is the last line and its line end is missing"),
    31: ("MEMBER", "line", "line {place}: {entry} is not in the list"),
    32: ("ORDER", "line", "line {place}: {entry} is out of order: entries rise within a group, and groups by their first entries"),
    33: ("TWICE", "line", "line {place}: {entry} stands in an earlier group"),
    34: ("CLASH", "line", "line {place}: {entry} clashes with an earlier entry of its group"),
    35: ("ENDS", "line", "line {place}: the sheet ends here, before all the groups and entries that it states"),
    36: ("MISSING", "line", "line {place}: the sheet ends here, and an entry of the list stands in no group"),
    37: ("EXTRA", "line", "line {place}: the last group is complete, and this line is one too many"),
    38: ("COLOURS", "index", "the group number of entry {next} is not one used before it, nor the next new one (index {place})"),
}
# tools/bindings writes to here


class Refused(ValueError):
    """A call that the library refused; nothing was written.

    number    the refusal's number
    name      its name, as "ONE-SIDED"
    line      the line, counted from 1; the number of lines plus one for a fault at a text's end
    column    of a line of a list that is of no permitted shape, in bytes from 1: where it can no longer begin any permitted line
    row       the row, counted from 0: that of entry row + 1
    index     the index of a group number, counted from 0: that of entry index + 1
    nodes     the nodes that the walk was allowed
    text      of a check or of mending, the text at fault: "list" or "sheet"
    shown     of a check or of mending, the line at fault, as bytes
    sentence  all that in words for people

    Of line, column, row, index and nodes those are None that are not returned beside the refusal; text and shown are None but for a check and for
    mending.
    """

    def __init__(self, number, place, column=0, text=None, shown=None):
        self.number = number
        self.name, beside, template = _TABLE[number]
        self.row, self.index, self.nodes = (place if beside == kind else None for kind in ("row", "index", "nodes"))
        self.line = place if beside in ("line", "spot") else None
        self.column = column if beside == "spot" else None
        self.text = text
        self.shown = shown
        digits = shown is not None and 1 <= len(shown) <= 7 and all(byte in b"0123456789" for byte in shown)
        entry = f"entry {shown.decode('ascii')}" if digits else "the entry on this line"
        numbers = template.replace("{place}", str(place)).replace("{column}", str(column)).replace("{next}", str(place + 1))
        said = numbers.replace("{entry}", entry)
        self.sentence = f"{text}: {said}" if text else said
        super().__init__(self.sentence)
        self._made_of = (number, place, column, text, shown)

    def __reduce__(self):
        return Refused, self._made_of


Walked = namedtuple("Walked", "k colours nodes leaves clique")
Walked.__doc__ = """An accepted walk: the fewest groups k, each entry's group, the nodes entered, the plain walk's number of complete graphs, and the members of
the list's clique, which say why it can't be fewer than their number; that may be below k."""
Clique = namedtuple("Clique", "size members")
Clique.__doc__ = """Entries that all clash with one another, so that no two of them can be in one group: how many, and which, counted from 0, rising."""
Checked = namedtuple("Checked", "k colours")
Checked.__doc__ = "An accepted sheet: its number of groups k, and each entry's group."
Mended = namedtuple("Mended", "sheet dropped put")
Mended.__doc__ = """A mended sheet, as str; the lines of the sheet as it was typed that were dropped; and each entry that was put into a group, with that group in the
mended sheet. Lines, entries and groups count from 1, as in texts."""


class _Verdict(ctypes.Structure):
    _fields_ = [("refusal", c_size_t), ("row", c_size_t)]


class _Bound(ctypes.Structure):
    _fields_ = [("refusal", c_size_t), ("row", c_size_t), ("bound", c_size_t), ("members", c_uint64)]


class _Walk(ctypes.Structure):
    _fields_ = [("refusal", c_size_t), ("row", c_size_t), ("k", c_size_t), ("nodes", c_uint64), ("leaves", c_uint64), ("clique", c_uint64)]


class _Reading(ctypes.Structure):
    _fields_ = [("refusal", c_size_t), ("line", c_size_t), ("column", c_size_t), ("entries", c_size_t)]


class _Writing(ctypes.Structure):
    _fields_ = [("refusal", c_size_t), ("place", c_size_t), ("length", c_size_t)]


class _Checking(ctypes.Structure):
    _fields_ = [("refusal", c_size_t), ("line", c_size_t), ("column", c_size_t), ("groups", c_size_t), ("text", c_size_t)]


class _Mending(ctypes.Structure):
    _fields_ = [("refusal", c_size_t), ("line", c_size_t), ("column", c_size_t), ("length", c_size_t), ("text", c_size_t)]


class _Part(ctypes.Structure):
    _fields_ = [("text", c_size_t), ("start", c_size_t), ("length", c_size_t)]


# A lent slice: a pointer and a length in elements.
_ROWS = [POINTER(c_uint64), c_size_t]
_LENT = [POINTER(c_uint8), c_size_t]
_TEXT = [c_char_p, c_size_t]

_CALLS = {
    "validity": (_Verdict, _ROWS),
    "clique_bound": (_Bound, _ROWS),
    "mycielskian_bound": (_Bound, _ROWS),
    "fewest": (_Walk, _ROWS + _LENT + [c_uint64]),
    "plain": (_Walk, _ROWS + _LENT + [c_uint64]),
    "fewest_by_placing": (_Walk, _ROWS + _LENT + [c_uint64]),
    "fewest_shrunk": (_Walk, _ROWS + _LENT + [c_uint64]),
    "read_list": (_Reading, _TEXT + _ROWS),
    "read_list_repeats": (_Reading, _TEXT + _ROWS),
    "write_list": (_Writing, _ROWS + _LENT),
    "write_sheet": (_Writing, _TEXT + _LENT),
    "check_sheet": (_Checking, _TEXT + _TEXT + _LENT),
    "check_sheet_repeats": (_Checking, _TEXT + _TEXT + _LENT),
    "fault_line": (_Part, _TEXT + _TEXT + [c_size_t]),
    "fault_line_repeats": (_Part, _TEXT + _TEXT + [c_size_t]),
    "mend_sheet": (_Mending, _TEXT + _TEXT + _LENT),
    "mend_sheet_repeats": (_Mending, _TEXT + _TEXT + _LENT),
    "answer": (_Writing, _TEXT + _LENT),
    "answer_repeats": (_Writing, _TEXT + _LENT),
    "version": (c_char_p, []),
    "name": (c_char_p, [c_size_t]),
    "sentence": (c_size_t, [c_size_t, c_uint64, c_size_t] + _TEXT + [c_char_p, c_size_t]),
}


def _load():
    """The shared object, with the types of its functions."""
    file = f"libslotsheet.so.{VERSION.split('.')[0]}"
    named = os.environ.get("SLOTSHEET_LIB")
    above = Path(__file__).resolve().parents  # installed: PREFIX/share/slotsheet/python
    if named:
        path = os.path.join(named, file) if os.path.isdir(named) else named
    else:
        path = str(above[3] / "lib" / file) if len(above) > 3 and above[2].name == "share" else file
    try:
        library = ctypes.CDLL(path)
    except OSError as error:
        raise ImportError(f"slotsheet: {error}; 'tools/install PREFIX' makes {file}, and SLOTSHEET_LIB may name its folder") from None
    for name, (result, arguments) in _CALLS.items():
        function = getattr(library, f"slotsheet_{name}")
        function.restype, function.argtypes = result, arguments
    return library


_library = _load()


def version():
    """The version of the library that is loaded, as VERSION is that of this module."""
    return _library.slotsheet_version().decode("ascii")


def _lent_rows(rows):
    rows = list(rows)
    for row in rows:
        if not 0 <= row < 1 << 64:
            raise OverflowError(f"a row is a number of 64 bits, and {row} is not")
    return (c_uint64 * len(rows))(*rows), len(rows)


def _text(text):
    """A text as bytes; where it is a str, as UTF-8."""
    return text.encode("utf-8", "surrogateescape") if isinstance(text, str) else bytes(memoryview(text))


def _answered(refusal, place, answer, column=0):
    if refusal:
        raise Refused(refusal, place, column)
    return answer


def rows_of(entries, clashes):
    """The rows of a list of so many entries, from pairs of clashing entries, which count from 0 here.

    >>> rows_of(3, [(0, 1), (1, 2)])
    [2, 5, 2]
    """
    rows = [0] * entries
    for i, j in clashes:
        if not (0 <= i < entries and 0 <= j < entries):
            raise IndexError(f"{entries} entries, which count from 0, have no clash of {i} and {j}")
        rows[i] |= 1 << j
        rows[j] |= 1 << i
    return rows


def validity(rows):
    """Nothing, where rows are a list. Refused as 1 to 4."""
    said = _library.slotsheet_validity(*_lent_rows(rows))
    _answered(said.refusal, said.row, None)


def _members(of):
    """The members of a set that is held as a number."""
    return [entry for entry in range(ENTRIES) if of >> entry & 1]


def clique_bound(rows):
    """The clique bound, as a Clique: no division has fewer groups than its size. Refused as 1 to 4.

    >>> clique_bound(rows_of(4, [(0, 1), (1, 3), (0, 3), (2, 3)]))
    Clique(size=3, members=[0, 1, 3])
    """
    said = _library.slotsheet_clique_bound(*_lent_rows(rows))
    return _answered(said.refusal, said.row, Clique(said.bound, _members(said.members)))


def mycielskian_bound(rows):
    """The Mycielskian bound: no division has fewer groups. Refused as 1 to 4."""
    said = _library.slotsheet_mycielskian_bound(*_lent_rows(rows))
    return _answered(said.refusal, said.row, said.bound)


def _walk(call, rows, budget):
    if not 0 <= budget < 1 << 64:
        raise OverflowError(f"a budget is a number of 64 bits, and {budget} is not")
    lent, n = _lent_rows(rows)
    colours = (c_uint8 * n)()
    said = call(lent, n, colours, n, budget)
    nodes = said.refusal and _TABLE[said.refusal][1] == "nodes"
    walked = Walked(said.k, list(colours), said.nodes, said.leaves, _members(said.clique))
    return _answered(said.refusal, said.nodes if nodes else said.row, walked)


def fewest(rows, budget=NODES):
    """The fewest groups of a list, as a Walked. Refused as 1 to 4, and as 6 where the search needs more nodes than the budget.

    >>> fewest(rows_of(5, [(0, 1), (1, 2), (2, 3), (3, 4), (4, 0)]))
    Walked(k=3, colours=[0, 1, 0, 1, 2], nodes=5, leaves=0, clique=[0, 1])
    """
    return _walk(_library.slotsheet_fewest, rows, budget)


def plain(rows, budget=NODES):
    """The same by the walk that has no bounds, which also counts complete graphs. For small lists."""
    return _walk(_library.slotsheet_plain, rows, budget)


def fewest_by_placing(rows, budget=NODES):
    """The same k by a second engine that owes nothing to the first, for testers: a search that never merges. Nodes and budget are its own, and its
    colours may be others than the walk's.

    >>> fewest_by_placing(rows_of(5, [(0, 1), (1, 2), (2, 3), (3, 4), (4, 0)]))
    Walked(k=3, colours=[0, 1, 0, 1, 2], nodes=8, leaves=0, clique=[0, 1])
    """
    return _walk(_library.slotsheet_fewest_by_placing, rows, budget)


def fewest_shrunk(rows, budget=NODES):
    """The same k by the walk over a shrunk list, for long lists of which many entries have few clashes: an entry goes whose clashes are all clashes of another,
    or which has fewer than the Mycielskian bound, and is put back after the walk. Nodes and budget are of the walk over what is left, and the colours may be
    others than those of fewest.

    >>> fewest_shrunk(rows_of(5, [(0, 4), (1, 2), (1, 3), (2, 3)]))
    Walked(k=3, colours=[0, 1, 2, 0, 1], nodes=1, leaves=0, clique=[1, 2, 3])
    """
    return _walk(_library.slotsheet_fewest_shrunk, rows, budget)


def _read(call, text):
    text = _text(text)
    rows = (c_uint64 * ENTRIES)()
    said = call(text, len(text), rows, ENTRIES)
    return _answered(said.refusal, said.line, rows[: said.entries], said.column)


def read_list(text):
    """The rows of a clash text, given as str or bytes. Refused as 18, as 11 to 16 and 20 with the line, as 10, 21, 22 and 23 with line and column."""
    return _read(_library.slotsheet_read_list, text)


def read_list_repeats(text):
    """The same, and an edge may stand a second time."""
    return _read(_library.slotsheet_read_list_repeats, text)


def write_list(rows):
    """The clash text of a list, as str. Refused as 1 to 4.

    >>> write_list([2, 1])
    'p edge 2 1\\ne 1 2\\n'
    """
    out = (c_uint8 * LIST_BYTES)()
    said = _library.slotsheet_write_list(*_lent_rows(rows), out, LIST_BYTES)
    return _answered(said.refusal, said.place, bytes(out[: said.length]).decode("ascii"))


def write_sheet(colours):
    """The sheet of a division, given as each entry's group, as str. Refused as 1, and as 38 with the index.

    >>> write_sheet([0, 1, 0])
    'groups 2\\nsize 2\\n1\\n3\\nsize 1\\n2\\n'
    """
    colours = bytes(list(colours))
    out = (c_uint8 * SHEET_BYTES)()
    said = _library.slotsheet_write_sheet(colours, len(colours), out, SHEET_BYTES)
    return _answered(said.refusal, said.place, bytes(out[: said.length]).decode("ascii"))


def _printed(call, text):
    text = _text(text)
    out = (c_uint8 * SHEET_BYTES)()
    said = call(text, len(text), out, SHEET_BYTES)
    return _answered(said.refusal, said.place, bytes(out[: said.length]).decode("ascii"))


def answer(text):
    """What the program slotsheet prints for a clash text, as str: the sheet of its fewest sittings, or the refusal in a line. Never refused.

    >>> answer("p edge 2 1\\ne 1 2\\n")
    'groups 2\\nsize 1\\n1\\nsize 1\\n2\\n'
    >>> answer("p edge 2 1\\ne 1 3\\n")
    'refused 14 line 2\\n'
    >>> answer("p edge 2 1\\ne 1\\n")
    'refused 22 line 2 column 4\\n'
    """
    return _printed(_library.slotsheet_answer, text)


def answer_repeats(text):
    """The same for slotsheet --repeats: an edge may stand a second time."""
    return _printed(_library.slotsheet_answer_repeats, text)


def _part(call, list_text, sheet):
    part = call(list_text, len(list_text), sheet, len(sheet), ENTRIES)
    text = list_text if part.text == _LIST else sheet
    return text[part.start : part.start + part.length]


def _check(call, fault, read, list_text, sheet):
    list_text, sheet = _text(list_text), _text(sheet)
    colours = (c_uint8 * ENTRIES)()
    said = call(list_text, len(list_text), sheet, len(sheet), colours, ENTRIES)
    if said.refusal:
        shown = _part(fault, list_text, sheet)
        raise Refused(said.refusal, said.line, said.column, "list" if said.text == _LIST else "sheet", shown)
    return Checked(said.groups, colours[: len(read(list_text))])


def check_sheet(list_text, sheet):
    """The groups of a sheet that is right for a list, as a Checked; both are texts, as str or bytes.

    Refused by the list's own refusals, then the sheet's: 18, 30 to 37. The exception says which text is at fault, and shows the line.

    >>> check_sheet("p edge 2 1\\ne 1 2\\n", "groups 2\\nsize 1\\n1\\nsize 1\\n2\\n")
    Checked(k=2, colours=[0, 1])
    """
    return _check(_library.slotsheet_check_sheet, _library.slotsheet_fault_line, read_list, list_text, sheet)


def check_sheet_repeats(list_text, sheet):
    """The same, and an edge of the list may stand a second time."""
    return _check(_library.slotsheet_check_sheet_repeats, _library.slotsheet_fault_line_repeats, read_list_repeats, list_text, sheet)


def fault_line(list_text, sheet):
    """The line at fault in a check, as bytes without its line feed: empty for a fault at a text's end, for 18, and where the check accepts."""
    return _part(_library.slotsheet_fault_line, _text(list_text), _text(sheet))


def fault_line_repeats(list_text, sheet):
    """The same for check_sheet_repeats."""
    return _part(_library.slotsheet_fault_line_repeats, _text(list_text), _text(sheet))


def _line(text, number):
    """The line of a text by its number from 1, as bytes without its line feed; empty past the last."""
    lines = text.split(b"\n")
    return lines[number - 1] if 0 < number <= len(lines) else b""


def _mend(call, list_text, sheet):
    list_text, sheet = _text(list_text), _text(sheet)
    out = (c_uint8 * MEND_BYTES)()
    said = call(list_text, len(list_text), sheet, len(sheet), out, MEND_BYTES)
    if said.refusal:
        text = "list" if said.text == _LIST else "sheet"
        raise Refused(said.refusal, said.line, said.column, text, _line(list_text if text == "list" else sheet, said.line))
    lines = bytes(out[: said.length]).decode("ascii").splitlines(keepends=True)
    dropped = [int(line.split()[1]) for line in lines if line.startswith("dropped ")]
    put = [(int(line.split()[1]), int(line.split()[3])) for line in lines if line.startswith("put ")]
    return Mended("".join(lines[len(dropped) + len(put) :]), dropped, put)


def mend_sheet(list_text, sheet):
    """A hand-edited sheet put right for a list, as a Mended; both are texts, as str or bytes.

    Members that are no entry or stood before are dropped, those that clash with one kept before in their group are lifted out, and lifted and absent entries go
    to the first group that admits them, else to a new one. check_sheet accepts the mended sheet, and one that it accepts comes back as it is.

    Refused by the list's own refusals, then the sheet's: 18, 30, 35, 37. The exception says which text is at fault, and shows the line.

    >>> mend_sheet("p edge 3 1\\ne 1 2\\n", "groups 1\\nsize 3\\n1\\n2\\n1\\n")
    Mended(sheet='groups 2\\nsize 2\\n1\\n3\\nsize 1\\n2\\n', dropped=[5], put=[(2, 2), (3, 1)])
    """
    return _mend(_library.slotsheet_mend_sheet, list_text, sheet)


def mend_sheet_repeats(list_text, sheet):
    """The same, and an edge of the list may stand a second time."""
    return _mend(_library.slotsheet_mend_sheet_repeats, list_text, sheet)
