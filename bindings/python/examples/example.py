"""Reads a clash list from the named file and prints its sitting sheet. Of two files, checks the second, a sheet, against the first, and prints
"groups K". What is refused is said in words, with status 1.

    PYTHONPATH=PREFIX/share/slotsheet/python python3 example.py list.col"""

import sys
from pathlib import Path

import slotsheet


def sheet_of(text):
    """The sheet of the fewest groups."""
    rows = slotsheet.read_list(text)
    return slotsheet.write_sheet(slotsheet.fewest(rows).colours)


def main(names):
    if not 1 <= len(names) <= 2:
        print("usage: example.py LIST [SHEET]", file=sys.stderr)
        return 2
    try:
        texts = [Path(name).read_bytes() for name in names]
    except OSError as error:
        print(error, file=sys.stderr)
        return 2
    try:
        if len(texts) == 1:
            print(sheet_of(*texts), end="")
        else:
            print("groups", slotsheet.check_sheet(*texts).k)
    except slotsheet.Refused as refused:
        print(refused.sentence)
        return 1
    return 0


if __name__ == "__main__":
    sys.exit(main(sys.argv[1:]))
