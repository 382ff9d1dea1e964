#!/usr/bin/env python3
"""Tests of report_expected.py, with values that were worked out by hand.

    python3 tools/report_expected_test.py
"""
import pathlib
import sys
import tempfile
import unittest

sys.dont_write_bytecode = True
import make_sheets
from report_expected import answer, binary, prime, read_heading, read_record, report, reports

# The heading of one variable over 3, then the term 1: 9 bytes, 1 record.
OPEN = "42 42 31 00 03 01  01 01 00 "
# S = 1, x1, closed: 14 bytes, 3 records.
CLOSED = OPEN + "01 01 01  02 00 "
# With x1^2 = 2, checked: 22 bytes, 5 records.
SOUND = CLOSED + "03 04 02 01 02 00  04 00 "
# S = 1, x1, x1^2 with x1^3 = 0, checked: 26 bytes, 6 records.
CUBE = OPEN + "01 01 01  01 01 02  02 00  03 05 03 01 00 00 00  04 00 "
# S = 1, x1, ..., x1^31: 102 bytes, 32 records.
FULL = "42 42 31 00 03 01 " + "".join(f"01 01 {e:02X} " for e in range(32))

EXAMPLES = {
    # Fields
    "sound": ["check sound", "form 0 2 other 1"],
    "prime2": ["check sound", "form 1 0 0 0 other 3"],
    "prime5": ["check sound", "form 1 4 3 other 4"],
    "prime31": ["check sound", "form 1 other 24", "form 0 member 1"],
    "binary4": ["check sound", "form 1 0 other 2", "form 0 0 member 2"],
    "binary8": ["check sound", "form 4 6 other 1"],
    "binary16": ["check sound", "form 3 other 4", "form 0 member 15"],
    "leading": ["check sound", "form 16 15 other 1"],
    "n8": ["check sound", "form 5 other 8"],
    # Books
    "clash": ["check clash 3 1 2"],
    "square": ["check sound", "form 0 0 0 1 other 2", "form 0 0 0 0 member 2"],
    "chain": ["check sound", "form 0 0 1 other 2", "form 0 0 0 member 1"],
    "short": ["check clash 1 1 2"],
    "pair23": ["check clash 3 2 3"],
    "renewed": ["check clash 3 1 2", "check sound", "form 0 0 0 1 other 1"],
    "empty": ["check sound", "form 0 0 member 0"],
    "repeats": ["check sound", "form 1 1 other 2"],
    "equal": ["check sound", "form 0 2 other 1", "form 0 2 other 0"],
    "headingonly": [],
    "readings": [
        "check sound",
        "form 0 0 0 1 other 1",
        "form 0 0 0 1 other 1",
        "form 0 0 0 0 member 2",
        "form 0 0 1 0 other 3",
    ],
    # Unfinished books
    "missing": ["fault book 12 18 4"],
    "early": ["fault book 2 20 5"],
    "replaced": ["check sound", "fault book 2 28 7"],
    "regiven": ["check sound", "fault book 2 28 7"],
    "struck": ["check sound", "fault book 2 25 7"],
    "afterclash": ["check clash 3 1 2", "fault book 2 62 11"],
    "lateterm": ["fault book 2 11 3"],
    "earlyrule": ["fault book 2 9 2"],
    "earlycheck": ["fault book 2 9 2"],
    # Refusals
    "n0": ["fault book 1 5 0"],
    "n9": ["fault book 1 5 0"],
    "twice": ["fault book 4 12 3"],
    "unjoined": ["fault book 5 9 2"],
    "terms32": ["check sound", "form" + 24 * " 0" + " 1" + 7 * " 0" + " other 0"],
    "terms33": ["fault book 6 102 33"],
    "bare": ["fault book 7 6 1"],
    "offborder": ["fault book 8 14 4"],
    "rowshort": ["fault book 9 14 4"],
    "coderow": ["fault book 10 14 4"],
    "codeask": ["check sound", "fault book 10 22 6"],
    "lead0": ["fault book 11 14 4"],
    "strikenone": ["fault book 12 14 4"],
    "pairs": ["check sound", "form 1 other 64", "fault book 13 150 6"],
    "degree": ["check sound", "form 1 other 24", "fault book 14 32 7"],
    # 10 walks of 1 + 23 * 16 entries and one of 1 + 15 * 16
    "slots4096": ["check sound", "form" + 16 * " 2" + " other 3931"],
    "slots4097": ["check sound", "form" + 7 * " 0" + " 1" + 9 * " 0" + " other 10", "fault book 15 105 22"],
    "kindonly": ["fault book 17 3 0"],
    "prime4": ["fault book 17 4 0"],
    "binary5": ["fault book 17 4 0"],
    # Faults
    "nothing": ["fault record 21 0 0"],
    "twobytes": ["fault record 21 0 0"],
    "otheropening": ["fault record 21 0 0"],
    "openingonly": ["fault number 18 3 0"],
    "heading18": ["fault number 18 5 0"],
    "heading19": ["fault number 19 4 0"],
    "heading20": ["fault number 20 5 0"],
    "kind18": ["fault number 18 9 2"],
    "kind19": ["fault number 19 9 2"],
    "kind20": ["fault number 20 9 2"],
    "kind10": ["check sound", "form 0 2 other 1", "fault record 22 27 7"],
    "length18": ["fault number 18 10 2"],
    "length19": ["fault number 19 10 2"],
    "length20": ["fault number 20 10 2"],
    "truncated": ["check sound", "fault record 23 22 6"],
    "body18": ["fault number 18 9 1"],
    "astride": ["fault number 18 11 2"],
    "pairshort": ["check sound", "fault number 18 27 6"],
    "body19": ["fault number 19 11 2"],
    "exponent256": ["fault number 20 11 2"],
    "code65536": ["fault number 20 12 2"],
    "termbody": ["fault record 23 9 2"],
    "closebody": ["fault record 23 9 2"],
    "checkbody": ["fault record 23 20 5"],
    # Sizes
    "full": ["check sound", "form 2 other 1", "check sound"],
    "over": ["fault record 25 0 0"],
    "longest": ["fault book 9 11 3"],
}


def book_of(sheet):
    """The book after all the records of a sheet without faults."""
    book, at = read_heading(sheet)
    record = 0
    while at < len(sheet):
        record += 1
        kind, holds, at = read_record(sheet, at, record, book.n)
        answer(book, kind, holds)
    return book


def example(name):
    return (make_sheets.SHEETS / f"{name}.sheet").read_bytes()


class Tests(unittest.TestCase):
    def says(self, written, *lines):
        self.assertEqual(report(bytes.fromhex(written)).splitlines(), list(lines), written)

    def all_say(self, front, endings, before=()):
        for ending, line in endings.items():
            self.says(front + ending, *before, line)


class Examples(Tests):
    def test_reports(self):
        for name, lines in EXAMPLES.items():
            self.assertEqual(report(example(name)), "".join(line + "\n" for line in lines), name)

    def test_every_example_is_here(self):
        names = {path.stem for path in make_sheets.SHEETS.glob("*.sheet")}
        self.assertEqual(names, set(EXAMPLES))

    def test_sizes(self):
        sizes = {"nothing": 0, "twobytes": 2, "sound": 27, "full": 65535, "longest": 65535, "over": 65536}
        self.assertEqual({name: len(example(name)) for name in sizes}, sizes)

    def test_made_files(self):
        for path, content in make_sheets.made_files().items():
            self.assertEqual(path.read_bytes(), content, path)

    def test_texts(self):
        self.assertEqual(make_sheets.sheet_bytes("# none\n3 times 01 FF # two\n\n0a\n"), b"\x01\xff\x01\xff\x01\xff\n")

    def test_files(self):
        with tempfile.TemporaryDirectory() as folder:
            (pathlib.Path(folder) / "a.sheet").write_bytes(bytes.fromhex(SOUND))
            (pathlib.Path(folder) / "b.sheet").write_bytes(b"BB1")
            printed = reports(folder, ["b.sheet", "a.sheet"])
        self.assertEqual(printed, "b.sheet\nfault number 18 3 0\na.sheet\ncheck sound\n")


class Fields(unittest.TestCase):
    def test_prime(self):
        f = prime(31)
        self.assertEqual((f.plus[30][5], f.times[6][6], f.minus[1], f.inverse[2]), (4, 5, 30, 16))
        f = prime(2)
        self.assertEqual((f.plus[1][1], f.minus[1], f.inverse[1]), (0, 1, 1))

    def test_binary(self):
        self.assertEqual(binary(2).times, [[0, 0, 0, 0], [0, 1, 2, 3], [0, 2, 3, 1], [0, 3, 1, 2]])
        f = binary(3)  # t^3 = t + 1, t^4 = t^2 + t
        self.assertEqual((f.times[2][4], f.times[4][4], f.times[7][7], f.inverse[2]), (3, 6, 3, 5))
        f = binary(4)  # t^4 = t + 1, t^6 = t^3 + t^2
        self.assertEqual((f.times[2][8], f.times[8][8], f.plus[9][12], f.inverse[2]), (3, 12, 5, 9))


class Headings(Tests):
    def test_opening(self):
        for written in ["", "42", "42 42", "31 42 42", "42 42 32 00 03 01", "62 62 31 00 03 01", "00 42 42 31"]:
            self.says(written, "fault record 21 0 0")

    def test_size_comes_first(self):
        sheet = bytes.fromhex(OPEN)
        self.assertEqual(report(sheet + bytes(65536 - 9)), "fault record 25 0 0\n")
        self.assertEqual(report(sheet + bytes(65535 - 9)), "fault record 22 9 2\n")
        self.assertEqual(report(bytes(65535)), "fault record 21 0 0\n")
        self.assertEqual(report(bytes(70000)), "fault record 25 0 0\n")

    def test_numbers(self):
        self.all_say(
            "42 42 31 ",
            {
                "": "fault number 18 3 0",
                "80": "fault number 18 3 0",
                "80 80": "fault number 18 3 0",
                "80 80 80": "fault number 20 3 0",
                "80 00": "fault number 19 3 0",
                "81 80 00": "fault number 19 3 0",
                "FF FF 04": "fault number 20 3 0",
                "00": "fault number 18 4 0",
                "00 82": "fault number 18 4 0",
                "00 83 00 01": "fault number 19 4 0",
                "01 82 00 01": "fault number 19 4 0",
                "00 80 80 04": "fault number 20 4 0",
                "00 03": "fault number 18 5 0",
                "01 02": "fault number 18 5 0",
                "00 03 81 80": "fault number 18 5 0",
                "00 03 81 00": "fault number 19 5 0",
                "00 03 81 80 80 00": "fault number 20 5 0",
            },
        )

    def test_judged_from_the_left(self):
        self.all_say(
            "42 42 31 ",
            {
                "02": "fault book 17 3 0",
                "02 80 00": "fault book 17 3 0",
                "80 01 03 01": "fault book 17 3 0",
                "FF FF 03": "fault book 17 3 0",
                "00 04": "fault book 17 4 0",
                "00 04 80 00": "fault book 17 4 0",
                "00 FF FF 03 01": "fault book 17 4 0",
                "01 05 00": "fault book 17 4 0",
                "00 03 00": "fault book 1 5 0",
                "00 03 09 FF": "fault book 1 5 0",
                "00 03 80 01": "fault book 1 5 0",
            },
        )

    def test_fields_and_variables(self):
        for p in range(40):
            found = p in (2, 3, 5, 7, 11, 13, 17, 19, 23, 29, 31)
            self.says(f"42 42 31 00 {p:02X} 01", *([] if found else ["fault book 17 4 0"]))
        for k in range(10):
            self.says(f"42 42 31 01 {k:02X} 01", *([] if k in (2, 3, 4) else ["fault book 17 4 0"]))
        for n in range(12):
            self.says(f"42 42 31 01 04 {n:02X}", *([] if 1 <= n <= 8 else ["fault book 1 5 0"]))


class Records(Tests):
    def test_kind(self):
        self.all_say(
            OPEN,
            {
                "00": "fault record 22 9 2",
                "07": "fault record 22 9 2",
                "0A": "fault record 22 9 2",
                "07 80 00": "fault record 22 9 2",
                "80 01": "fault record 22 9 2",
                "FF FF 03": "fault record 22 9 2",
                "81": "fault number 18 9 2",
                "81 81": "fault number 18 9 2",
                "81 00": "fault number 19 9 2",
                "81 80 00": "fault number 19 9 2",
                "FF FF 04": "fault number 20 9 2",
                "81 80 81": "fault number 20 9 2",
            },
        )

    def test_length(self):
        self.all_say(
            OPEN,
            {
                "02": "fault number 18 10 2",
                "02 80": "fault number 18 10 2",
                "02 80 00": "fault number 19 10 2",
                "02 80 80 80": "fault number 20 10 2",
                "01 F1 FF 03 00": "fault number 20 10 2",
                "01 F0 FF 03 00": "fault record 23 9 2",
                "02 01": "fault record 23 9 2",
                "01 03 81 00": "fault record 23 9 2",
            },
        )

    def test_term(self):
        self.all_say(
            OPEN,
            {
                "01 00": "fault number 18 11 2",
                "01 00 02 00": "fault number 18 11 2",
                "01 01 80": "fault number 18 11 2",
                "01 02 81 81 01": "fault number 18 11 2",
                "01 03 81 81 81": "fault number 20 11 2",
                "01 02 80 00": "fault number 19 11 2",
                "01 02 80 02": "fault number 20 11 2",
                "01 03 80 80 00": "fault number 19 11 2",
                "01 02 FF 01": "fault book 5 9 2",
                "01 02 01 01": "fault record 23 9 2",
                "01 02 01 80": "fault record 23 9 2",
            },
        )
        two = "42 42 31 00 03 02 "
        self.says(two + "01 02 00 80 01", "fault number 18 9 1")
        self.says(two + "01 01 00", "fault number 18 9 1")
        self.says(two + "01 03 00 81 00", "fault number 19 9 1")

    def test_empty_bodies(self):
        self.says(OPEN + "02 01 80", "fault record 23 9 2")
        self.says(CLOSED + "04 02 00 00", "fault record 23 14 4")

    def test_rule(self):
        self.all_say(
            CLOSED,
            {
                "03 00": "fault number 18 16 4",
                "03 01 02": "fault number 18 17 4",
                "03 01 02 01": "fault number 18 17 4",
                "03 02 02 01": "fault book 9 14 4",
                "03 03 02 01 80 01": "fault number 18 18 4",
                "03 04 02 01 80 00": "fault number 19 18 4",
                "03 05 02 01 00 80 00": "fault number 19 19 4",
                "03 05 02 01 80 80 04": "fault number 20 18 4",
                "03 05 02 80 80 04 00": "fault number 20 17 4",
                "03 03 80 02 01": "fault number 20 16 4",
                "03 06 02 01 FF FF 03 00": "fault book 10 14 4",
            },
        )

    def test_question(self):
        self.all_say(
            CLOSED,
            {
                "05 00": "fault number 18 16 4",
                "05 01 01": "fault number 18 17 4",
                "05 02 01 01": "fault number 18 18 4",
                "05 03 01 01 80": "fault number 18 18 4",
                "05 03 FF FF 03": "fault number 18 19 4",
                "05 03 80 80 04": "fault number 20 16 4",
                "05 05 01 80 80 04 00": "fault number 20 17 4",
                "05 04 01 01 80 02": "fault number 20 18 4",
                "05 04 01 81 00 00": "fault number 19 17 4",
                "05 02 00 00": "fault record 23 14 4",
                "05 04 01 01 00 80": "fault record 23 14 4",
                "05 03 01 01 00": "fault book 2 14 4",
            },
        )

    def test_strike(self):
        self.all_say(
            CLOSED,
            {
                "06 00": "fault number 18 16 4",
                "06 01 80": "fault number 18 16 4",
                "06 02 80 02": "fault number 20 16 4",
                "06 02 02 00": "fault record 23 14 4",
                "06 01 02": "fault book 12 14 4",
            },
        )


class Refusals(Tests):
    def test_terms(self):
        self.says("42 42 31 00 03 01 01 01 01", "fault book 5 6 1")
        self.says(OPEN + "01 01 00", "fault book 4 9 2")
        self.says(OPEN + "01 01 02", "fault book 5 9 2")
        self.says(FULL + "01 01 05", "fault book 4 102 33")
        self.says(FULL + "01 01 21", "fault book 5 102 33")
        self.says(FULL + "01 01 20", "fault book 6 102 33")
        self.says("42 42 31 00 03 02  01 02 00 00  01 02 01 00  01 02 01 01  01 02 00 02", "fault book 5 18 4")

    def test_phases(self):
        empty = "42 42 31 00 03 01 "
        self.says(empty + "02 00", "fault book 7 6 1")
        for record in ["03 03 01 01 00", "04 00", "05 01 00", "06 01 01"]:
            self.says(empty + record, "fault book 2 6 1")
            self.says(OPEN + record, "fault book 2 9 2")
        for record in ["01 01 00", "01 01 02", "02 00", "05 01 00"]:
            self.says(CLOSED + record, "fault book 2 14 4")
        for record in ["01 01 02", "02 00"]:
            self.says(SOUND + record, "check sound", "fault book 2 22 6")
        clash = example("clash").hex()
        for record in ["01 02 02 00", "02 00", "05 01 00"]:
            self.says(clash + record, "check clash 3 1 2", "fault book 2 62 11")

    def test_rules(self):
        self.all_say(
            CLOSED,
            {
                "03 04 01 01 02 00": "fault book 8 14 4",
                "03 04 03 01 02 00": "fault book 8 14 4",
                "03 03 03 01 02": "fault book 8 14 4",
                "03 03 02 01 02": "fault book 9 14 4",
                "03 05 02 01 02 00 00": "fault book 9 14 4",
                "03 05 02 01 02 00 04 00": "fault book 9 14 4",
                "03 03 02 03 02": "fault book 9 14 4",
                "03 04 02 03 02 00": "fault book 10 14 4",
                "03 04 02 01 03 00": "fault book 10 14 4",
                "03 04 02 01 00 03": "fault book 10 14 4",
                "03 04 02 00 03 00": "fault book 10 14 4",
                "03 04 02 00 02 00": "fault book 11 14 4",
                "04 00": "fault book 12 14 4",
                "06 01 01": "fault book 8 14 4",
                "06 01 03": "fault book 8 14 4",
                "06 01 02": "fault book 12 14 4",
            },
        )
        self.says(SOUND + "06 01 02  06 01 02", "check sound", "fault book 12 25 7")
        self.says(SOUND + "06 01 02  04 00", "check sound", "fault book 12 25 7")

    def test_questions(self):
        def pairs(*parts):
            """A question, from how often there is a pair of a code and an exponent."""
            count = sum(part[0] for part in parts)
            length = {57: "73", 63: "7F", 64: "81 01", 65: "83 01"}[count]
            return f"05 {length} {count:02X} " + "".join(times * f"{code:02X} {e:02X} " for times, code, e in parts)

        granted = "form 0 0 0 member {}".format
        self.all_say(
            CUBE,
            {
                "05 03 01 03 00": "fault book 10 26 7",
                "05 05 01 FF FF 03 00": "fault book 10 26 7",
                pairs((64, 1, 0), (1, 3, 25)): "fault book 10 26 7",
                pairs((64, 1, 25), (1, 1, 0)): "fault book 13 26 7",
                pairs((65, 0, 0)): "fault book 13 26 7",
                pairs((63, 1, 24), (1, 0, 25)): "fault book 14 26 7",
                # 3 times (56 times 24 and 21) is 4,095, with 22 it is 4,098; a walk meets one border term
                pairs((56, 1, 24), (1, 1, 21), (7, 1, 0)): "form 1 0 0 other 57",
                pairs((56, 1, 24), (1, 1, 21), (6, 1, 0)): granted(57),
                pairs((56, 1, 24), (1, 1, 22)): "fault book 15 26 7",
                pairs((64, 0, 24)): "fault book 15 26 7",
                pairs((64, 0, 21)): granted(0),
            },
            before=["check sound"],
        )

    def test_nothing_after_a_fault(self):
        self.says(SOUND + "05 03 01 03 00  05 03 01 01 03  04 00", "check sound", "fault book 10 22 6")


class Verdicts(Tests):
    def test_check_again(self):
        self.says(SOUND + "04 00 05 03 01 01 03", "check sound", "check sound", "form 0 2 other 1")
        self.says(example("clash").hex() + "04 00", "check clash 3 1 2", "check clash 3 1 2")

    def test_strike_and_rule(self):
        # x1^2 = 1 after x1^2 = 2
        self.says(
            SOUND + "05 03 01 01 03  06 01 02  03 04 02 01 01 00  04 00  05 03 01 01 03",
            "check sound",
            "form 0 2 other 1",
            "check sound",
            "form 0 1 other 1",
        )

    def test_form_keeps_the_verdict(self):
        self.says(SOUND + 2 * "05 03 01 01 03 ", "check sound", "form 0 2 other 1", "form 0 2 other 1")


class Entries(unittest.TestCase):
    def test_borders(self):
        self.assertEqual(book_of(example("square")).border, [(2, 0), (0, 2), (2, 1), (1, 2)])
        self.assertEqual(book_of(example("chain")).border, [(0, 1), (2, 0), (2, 1), (1, 2)])
        self.assertEqual(book_of(example("short")).border, [(0, 1), (2, 0), (1, 1)])

    def test_kept_rows(self):
        self.assertEqual(book_of(example("leading")).rules, {(2,): [16, 15]})
        self.assertEqual(book_of(example("binary8")).rules, {(2,): [5, 2]})

    def test_clashes(self):
        clash = book_of(example("clash")).check()
        self.assertEqual(clash, (3, 1, 2, [0, 0, 2, 1], [(1, (0, 0), 4), (2, (1, 0), 2)]))
        short = book_of(example("short")).check()
        self.assertEqual(short, (1, 1, 2, [0, 1], [(1, (0, 0), 3), (2, (1, 0), 1)]))
        one, two, three = (0, 0, 0), (0, 1, 0), (0, 0, 1)
        pair23 = book_of(example("pair23")).check()
        self.assertEqual(pair23, (3, 2, 3, [0, 2, 0, 0], [(1, three, 4), (1, one, 5), (2, two, 5), (2, one, 2)]))

    def test_questions(self):
        self.assertEqual(book_of(example("sound")).question([(1, (3,))]), ([0, 2], [(1, (1,), 1)]))
        form, entries = book_of(example("prime5")).question([(1, (3, 0))])
        self.assertEqual((form, entries), ([0, 4, 0], [(1, (1, 0), 1), (2, (0, 0), 1)]))
        form, entries = book_of(example("readings")).question([(1, (2, 1))])
        self.assertEqual((form, sorted(entries)), ([0, 0, 1, 0], [(1, (0, 0), 2), (1, (0, 1), 1), (2, (0, 0), 4)]))

    def test_sums_are_checked(self):
        for name, ask in [("sound", lambda b: b.question([(1, (3,))])), ("clash", lambda b: b.check())]:
            book = book_of(example(name))
            walk = book.walk
            book.walk = lambda *given: (walk(*given)[0], walk(*given)[1][1:])
            with self.assertRaises(AssertionError):
                ask(book)


class Readings(unittest.TestCase):
    # x1, x2 and the next level of the third gene
    LEVELS = [(0, 0, 0), (1, 0, 0), (1, 1, 1), (2, 1, 2)]

    def test_models(self):
        def fits(model):
            return all(model(x, z) % 3 == y for x, z, y in self.LEVELS)

        self.assertTrue(fits(lambda x, z: x * z * z))
        self.assertTrue(fits(lambda x, z: x + 2 * x * x + z))
        self.assertTrue(fits(lambda x, z: x * z))
        self.assertFalse(fits(lambda x, z: x * x * z))

    def test_rules_are_zero_at_the_readings(self):
        book = book_of(example("readings"))
        self.assertEqual(book.terms, [(0, 0), (1, 0), (0, 1), (1, 1)])
        for (i, j), row in book.rules.items():
            for x, z, _ in self.LEVELS:
                value = sum(code * x**a * z**b for code, (a, b) in zip(row, book.terms))
                self.assertEqual(x**i * z**j % 3, value % 3)


if __name__ == "__main__":
    unittest.main()
