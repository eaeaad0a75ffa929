"""Tests of the Python module: python3 -m unittest test_slotsheet, with SLOTSHEET_LIB or PYTHONPATH as the module wants them."""

import ctypes
import doctest
import pickle
import threading
import unittest
from pathlib import Path

import slotsheet
from slotsheet import Refused

FIVE = [(0, 1), (1, 2), (2, 3), (3, 4), (4, 0)]
LIST = "p edge 3 1\ne 1 2\n"

# A call for each refusal, what is returned beside it, and the start of its sentence. The module always lends enough room, so SHORT, ROOM
# and FULL are met by no call of it.
REFUSED = {
    1: (lambda: slotsheet.validity([0] * 65), {}),
    2: (lambda: slotsheet.clique_bound([0, 8]), {"row": 1}),
    3: (lambda: slotsheet.mycielskian_bound([0, 0, 4]), {"row": 2}),
    4: (lambda: slotsheet.write_list([0, 1]), {"row": 1}),
    6: (lambda: slotsheet.fewest([0, 0, 0], 4), {"nodes": 4}),
    10: (lambda: slotsheet.read_list("p ed\n"), {"line": 1, "column": 5}),
    11: (lambda: slotsheet.read_list(b""), {"line": 1}),
    12: (lambda: slotsheet.read_list("p edge 1 0\np edge 1 0\n"), {"line": 2}),
    13: (lambda: slotsheet.read_list("p edge 65 0\n"), {"line": 1}),
    14: (lambda: slotsheet.read_list("p edge 2 1\ne 1 3\n"), {"line": 2}),
    15: (lambda: slotsheet.read_list("p edge 2 1\ne 1 1\n"), {"line": 2}),
    16: (lambda: slotsheet.read_list("p edge 2 2\ne 1 2\n"), {"line": 3}),
    18: (lambda: slotsheet.read_list(b"\n" * 65537), {}),
    20: (lambda: slotsheet.check_sheet("p edge 2 2\ne 1 2\ne 2 1\n", ""), {"line": 3, "text": "list", "shown": b"e 2 1"}),
    21: (lambda: slotsheet.read_list("p edge 2 1\ne 1  2\n"), {"line": 2, "column": 5}),
    22: (lambda: slotsheet.check_sheet("p edge 1 0\r\n", ""), {"line": 1, "column": 11, "text": "list", "shown": b"p edge 1 0\r"}),
    23: (lambda: slotsheet.read_list("p edge 1 0"), {"line": 1, "column": 11}),
    30: (lambda: slotsheet.check_sheet(LIST, "group 1\n"), {"line": 1, "text": "sheet", "shown": b"group 1"}),
    31: (lambda: slotsheet.check_sheet(LIST, "groups 1\nsize 1\n4\n"), {"line": 3, "text": "sheet", "shown": b"4"}),
    32: (lambda: slotsheet.check_sheet(LIST, "groups 1\nsize 2\n3\n1\n"), {"line": 4, "text": "sheet", "shown": b"1"}),
    33: (lambda: slotsheet.check_sheet(LIST, "groups 2\nsize 2\n1\n3\nsize 2\n2\n3\n"), {"line": 7, "text": "sheet", "shown": b"3"}),
    34: (lambda: slotsheet.check_sheet(LIST, "groups 1\nsize 2\n1\n2\n"), {"line": 4, "text": "sheet", "shown": b"2"}),
    35: (lambda: slotsheet.check_sheet(LIST, ""), {"line": 1, "text": "sheet", "shown": b""}),
    36: (lambda: slotsheet.check_sheet(LIST, "groups 1\nsize 1\n1\n"), {"line": 4, "text": "sheet", "shown": b""}),
    37: (lambda: slotsheet.check_sheet(LIST, "groups 0\nx"), {"line": 2, "text": "sheet", "shown": b"x"}),
    38: (lambda: slotsheet.write_sheet([0, 2]), {"index": 1}),
}
UNMET = {5, 17, 19}

# The functions that read a clash text, by the two readings.
PLAIN = (slotsheet.read_list, slotsheet.check_sheet, slotsheet.answer, slotsheet.mend_sheet)
REPEATS = (slotsheet.read_list_repeats, slotsheet.check_sheet_repeats, slotsheet.answer_repeats, slotsheet.mend_sheet_repeats)


def interface(kind):
    """The rows of one kind of bindings/interface.txt."""
    text = (Path(__file__).resolve().parent.parent / "interface.txt").read_text()
    return [line.split(" | ")[1:] for line in text.splitlines() if line.startswith(kind + " | ")]


class Calls(unittest.TestCase):
    def test_a_list_from_text_to_sheet_and_back(self):
        rows = slotsheet.rows_of(5, FIVE)
        text = slotsheet.write_list(rows)
        self.assertEqual(slotsheet.read_list(text), rows)
        self.assertEqual(slotsheet.read_list(bytearray(text.encode())), rows)
        answer = slotsheet.fewest(rows)
        self.assertEqual(answer, (3, [0, 1, 0, 1, 2], 5, 0, [0, 1]))
        self.assertEqual(slotsheet.check_sheet(text, slotsheet.write_sheet(answer.colours)), (3, answer.colours))
        self.assertEqual(slotsheet.plain(rows), (3, [0, 1, 0, 1, 2], 21, 11, [0, 1]))
        self.assertEqual(slotsheet.fewest_by_placing(rows), (3, [0, 1, 0, 1, 2], 8, 0, [0, 1]))
        self.assertEqual(slotsheet.fewest_shrunk(rows), (3, [0, 1, 2, 1, 2], 1, 0, [0, 1]))
        self.assertEqual((slotsheet.clique_bound(rows), slotsheet.mycielskian_bound(rows)), ((2, [0, 1]), 3))
        self.assertIsNone(slotsheet.validity(rows))

    def test_no_entries(self):
        self.assertEqual(slotsheet.fewest([]), (0, [], 1, 0, []))
        self.assertEqual(slotsheet.clique_bound([]), (0, []))
        self.assertEqual(slotsheet.write_list([]), "p edge 0 0\n")
        self.assertEqual(slotsheet.write_sheet([]), "groups 0\n")
        self.assertEqual(slotsheet.check_sheet("p edge 0 0\n", "groups 0\n"), (0, []))

    def test_answer(self):
        self.assertEqual(slotsheet.answer(""), "refused 11 line 1\n")
        self.assertEqual(slotsheet.answer("p edge 0 0\n"), "groups 0\n")
        self.assertEqual(slotsheet.answer(b"c" * 65_537), "refused 18 line 0\n")
        text = "p edge 5 5\ne 1 2\ne 2 3\ne 3 4\ne 4 5\ne 1 5\n"
        self.assertEqual(slotsheet.answer(text), slotsheet.write_sheet(slotsheet.fewest(slotsheet.read_list(text)).colours))

    def test_sixty_four_entries(self):
        rows = slotsheet.rows_of(64, [(i, j) for i in range(64) for j in range(i)])
        text = slotsheet.write_list(rows)
        self.assertEqual(len(text), slotsheet.LIST_BYTES)
        self.assertEqual(slotsheet.read_list(text), rows)
        answer = slotsheet.fewest(rows)
        self.assertEqual(answer.clique, list(range(64)))
        self.assertEqual(slotsheet.clique_bound(rows), (64, answer.clique))
        sheet = slotsheet.write_sheet(answer.colours)
        self.assertEqual(len(sheet), slotsheet.SHEET_BYTES)
        self.assertEqual(slotsheet.check_sheet(text, sheet).k, 64)

    def test_texts_of_any_bytes(self):
        self.assertEqual(slotsheet.read_list("c Bogenschießen\np edge 1 0\n"), [0])
        self.assertEqual(slotsheet.read_list(b"c \xff\x00\np edge 1 0\n"), [0])

    def test_a_list_that_names_each_clash_both_ways(self):
        text = "p edge 3 4\ne 1 2\ne 2 1\ne 2 3\ne 3 2\n"
        sheet = "groups 2\nsize 2\n1\n3\nsize 1\n2\n"
        self.assertEqual(slotsheet.read_list_repeats(text), [2, 5, 2])
        self.assertEqual(slotsheet.answer_repeats(text), sheet)
        self.assertEqual(slotsheet.check_sheet_repeats(text, sheet), (2, [0, 1, 0]))
        self.assertEqual(slotsheet.fault_line(text, sheet), b"e 2 1")
        self.assertEqual(slotsheet.fault_line_repeats(text, sheet), b"")
        self.assertEqual(slotsheet.fault_line_repeats(text, sheet[:-2] + "3\n"), b"3")
        self.assertEqual(slotsheet.mend_sheet_repeats(text, sheet[:-2] + "3\n"), (sheet, [6], [(2, 2)]))

    def test_mending(self):
        sheet = "groups 2\nsize 1\n1\nsize 2\n2\n3\n"
        self.assertEqual(slotsheet.mend_sheet(LIST, sheet), (sheet, [], []))
        self.assertEqual(slotsheet.mend_sheet(LIST, b"groups 1\nsize 4\n0\n1\n2\n1\n"), ("groups 2\nsize 2\n1\n3\nsize 1\n2\n", [3, 6], [(2, 2), (3, 1)]))
        self.assertEqual(slotsheet.mend_sheet("p edge 0 0\n", "groups 1\nsize 1\n1\n"), ("groups 0\n", [3], []))
        every = slotsheet.write_list(slotsheet.rows_of(64, [(i, j) for i in range(64) for j in range(i)]))
        longest = slotsheet.mend_sheet(every, "groups 1\nsize 32758\n" + "0\n" * 32_758)
        self.assertEqual((len(longest.dropped), longest.put[-1], len(longest.sheet)), (32_758, (64, 64), slotsheet.SHEET_BYTES))
        for text, sheet, number, line, fault, shown in (
            ("p edge 2 1\ne 1 1\n", "x", 15, 2, "list", b"e 1 1"),
            (LIST, "groups 1\nsize x\n", 30, 2, "sheet", b"size x"),
            (LIST, "groups 1\n", 35, 2, "sheet", b""),
            (LIST, "groups 0\n1\n", 37, 2, "sheet", b"1"),
            (LIST, "x" * 65_537, 18, None, "sheet", b""),
        ):
            with self.subTest(number), self.assertRaises(Refused) as caught:
                slotsheet.mend_sheet(text, sheet)
            refused = caught.exception
            self.assertEqual((refused.number, refused.line, refused.text, refused.shown), (number, line, fault, shown))

    def test_wrong_arguments(self):
        for rows in ([-1], [1 << 64]):
            self.assertRaises(OverflowError, slotsheet.validity, rows)
        self.assertRaises(OverflowError, slotsheet.fewest, [], -1)
        self.assertRaises(IndexError, slotsheet.rows_of, 2, [(0, 2)])
        self.assertRaises(ValueError, slotsheet.write_sheet, [256])
        for call in (slotsheet.read_list, slotsheet.write_sheet):
            self.assertRaises(TypeError, call, 5)

    def test_threads(self):
        rows, found = slotsheet.rows_of(5, FIVE), []
        threads = [threading.Thread(target=lambda: found.extend(slotsheet.fewest(rows).k for _ in range(100))) for _ in range(4)]
        for thread in threads:
            thread.start()
        for thread in threads:
            thread.join()
        self.assertEqual(found, [3] * 400)


class Refusals(unittest.TestCase):
    def test_each_is_provoked(self):
        self.assertEqual(set(REFUSED) | UNMET, {int(row[0]) for row in interface("refusal")})
        for number, (call, beside) in REFUSED.items():
            with self.subTest(number), self.assertRaises(Refused) as caught:
                call()
            refused = caught.exception
            self.assertEqual((refused.number, str(refused)), (number, refused.sentence))
            for name in ("line", "column", "row", "index", "nodes", "text", "shown"):
                self.assertEqual(getattr(refused, name), beside.get(name), f"{number} {name}")

    def test_the_list_of_a_check(self):
        with self.assertRaises(Refused) as caught:
            slotsheet.check_sheet("p edge 2 1\ne 1 3\n", "groups 0\n")
        self.assertEqual(caught.exception.shown, b"e 1 3")
        self.assertEqual(caught.exception.sentence, "list: line 2: this clash names an entry that the list does not have")

    def test_the_stored_examples(self):
        stored = (Path(__file__).resolve().parents[2] / "tests" / "examples.txt").read_text()
        for example in (line for line in stored.splitlines() if line and not line.startswith("#")):
            reading, number, line, column, text = example.split(" ", 4)
            text = text.encode().decode("unicode_escape").encode("latin-1")
            for read, check, answer, mend in (PLAIN, REPEATS) if reading == "both" else (PLAIN,) if reading == "plain" else (REPEATS,):
                with self.subTest(example):
                    if number == "0":
                        read(text)
                        continue
                    told = f"refused {number} line {line}" + (f" column {column}" if column != "0" else "")
                    self.assertEqual(answer(text), told + "\n")
                    for call in (lambda: read(text), lambda: check(text, ""), lambda: mend(text, "")):
                        with self.assertRaises(Refused) as caught:
                            call()
                        refused = caught.exception
                        self.assertEqual((refused.number, refused.line, refused.column or 0), (int(number), int(line), int(column)))
                        self.assertIn(f"line {line}, column {column}: " if column != "0" else f"line {line}: ", refused.sentence)

    def test_sentences_are_those_of_c(self):
        for number in slotsheet._TABLE:
            for shown in (b"", b"12", b"12345678", b"size 1", b"-1"):
                out = ctypes.create_string_buffer(256)
                length = slotsheet._library.slotsheet_sentence(number, 7, 3, shown, len(shown), out, 256)
                self.assertEqual(out.value.decode(), Refused(number, 7, 3, None, shown).sentence)
                self.assertEqual(length, len(out.value))
            self.assertEqual(slotsheet._library.slotsheet_name(number).decode(), Refused(number, 7).name)

    def test_the_table(self):
        rows = {int(number): (name, None if beside == "-" else beside, sentence) for number, name, beside, _, sentence in interface("refusal")}
        self.assertEqual(slotsheet._TABLE, rows)
        self.assertEqual(slotsheet.VERSION, interface("version")[0][0])
        self.assertEqual(slotsheet.version(), slotsheet.VERSION)
        for name, value, _ in interface("limit"):
            self.assertEqual(getattr(slotsheet, name), int(value))

    def test_it_can_be_copied(self):
        refused = Refused(33, 7, 0, "sheet", b"12")
        again = pickle.loads(pickle.dumps(refused))
        self.assertEqual(again.sentence, "sheet: line 7: entry 12 stands in an earlier group")
        self.assertEqual((again.number, again.line, again.shown), (33, 7, b"12"))
        again = pickle.loads(pickle.dumps(Refused(22, 7, 3)))
        self.assertEqual((again.number, again.line, again.column, again.text), (22, 7, 3, None))


def load_tests(loader, tests, ignore):
    tests.addTests(doctest.DocTestSuite(slotsheet))
    return tests


if __name__ == "__main__":
    unittest.main()
