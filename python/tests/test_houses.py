"""`office houses`: each row held to the desk's own listing of that house."""

from __future__ import annotations

import csv
import io
import unittest

import desk
from office import houses

from .places import EXAMPLES, example
from .test_compare import listing_rows, named, ran, worst_row, written


class TheTable(unittest.TestCase):
    def rows(self, data: bytes, first: int, last: int) -> tuple[list[str], str]:
        """The table's lines below its head, and all that is said below it."""
        with written(data) as path:
            status, out, err = ran(houses, path, first, last)
        self.assertEqual((status, err), (0, ""))
        self.assertTrue(all(line == line.rstrip() for line in out.splitlines()))
        _, table, below = out.split("\n\n")
        head, *lines = table.splitlines()
        self.assertEqual(head.split(), ["house", "worst", "state", "over", "10", "over", "15"])
        return lines, " ".join(below.split())

    def hold(self, data: bytes, first: int, last: int) -> str:
        """Holds each line to the desk's listing of its house."""
        register = desk.read(data)
        lines, below = self.rows(data, first, last)
        self.assertEqual(len(lines), last - first + 1)
        without = False
        for house, line in zip(range(first, last + 1), lines):
            shown = f"{house:,}{'*' if house == register.house else ''}"
            rows = listing_rows(register.method.word, register, house)
            if rows is None:
                self.assertEqual(line.split(), [shown, "refused", "-", "-"])
                continue
            over = [sum(row[4] in marks for row in rows) for marks in (("high", "over"), ("over",))]
            none = sum(row[4] == "none" for row in rows)
            remark = f"{none} state{'' if none == 1 else 's'} without a seat".split() if none else []
            without = without or none > 0
            self.assertEqual(line.split(), [shown, worst_row(rows)[3], *worst_row(rows)[0].split(), *map(str, over), *remark])
        self.assertIn("This is a table and not a promise of the best house", below)
        self.assertEqual("* the register's own house." in below, first <= register.house <= last)
        self.assertEqual("A state without a seat has no departure" in below, without)
        return below

    def test_counties(self):
        below = self.hold(example("hungary-counties.register"), 100, 110)
        self.assertNotIn("refused", below)
        out = ran(houses, EXAMPLES / "hungary-counties.register", 100, 110)[1]
        self.assertIn("\n   106*   -15.283  Tolna                         5        1\n", out)
        self.assertLessEqual(max(map(len, out.splitlines())), 100)

    def test_other_methods(self):
        counties = example("hungary-counties.register")
        for method in desk.METHODS:
            self.hold(counties.replace(b"leximin", method.word.encode("ascii")), 15, 40)
            self.hold(desk.register_text(method, 12, named(5), (1, 1, 3, 9, 900)), 1, 60)
        self.hold(example("united-states-hill.register"), 433, 437)

    def test_refused_houses(self):
        counties = example("hungary-counties.register")
        wrong = "the house has fewer seats than there are states, and the method gives each state one."
        self.assertIn(f"Houses 15 to 19 are refused: {wrong}", self.hold(counties, 15, 21))
        self.assertIn(f"House 19 is refused: {wrong}", self.hold(counties, 19, 19))
        # The register's own house may be among them.
        self.assertIn(f"Houses 18 to 19 are refused: {wrong}", self.hold(counties.replace(b"106", b"19"), 18, 20))

    def test_limits(self):
        self.hold(example("five-states.register"), 29_999, 30_000)
        self.hold(desk.register_text("webster", 1, ["A name of twenty-five letters"], [7]), 1, 3)

    def test_columns_stand_below_each_other(self):
        data = b"register,webster,5,3\nFejer,30\nGyor,1\nTokio,20\ntotal,51\n"
        with written(data, "Fejer,Feje\u0301r\nGyor,Győr\nTokio,\u6771\u4eac\n") as path:
            lines = ran(houses, path, 1, 9)[1].split("\n\n")[1].splitlines()
        self.assertEqual(lines[0], " house      worst  state  over 10  over 15")
        self.assertEqual(lines[1], "     1    -41.176  Feje\u0301r        1        1  2 states without a seat")
        self.assertIn("     9    -11.765  \u6771\u4eac         1        0  1 state without a seat", lines[9].replace("*", " "))

    def test_wrong_ranges(self):
        path = EXAMPLES / "hungary-counties.register"
        for words, told in (
            ((0, 10), "a house has 1 to 30,000 seats, and not 0"),
            ((10, 30_001), "a house has 1 to 30,000 seats, and not 30001"),
            (("ten", 20), '"ten" is no number of seats'),
            (("1,000", 2000), '"1,000" is no number of seats'),
            (("\u0661\u0660", 20), "is no number of seats"),
            ((110, 100), "FROM is 110 and TO is 100"),
            ((110,), "required"),
        ):
            status, out, err = ran(houses, path, *words)
            self.assertEqual((status, out), (2, ""), words)
            self.assertIn(told, err)

    def test_each_house_is_shown_as_it_comes(self):
        register = desk.read(example("five-states.register"))
        asked = []

        def watched():
            for house in houses.houses_of(register, 5, 30_000):
                asked.append(house.house)
                yield house

        lines = houses.text(register, register.names, watched())
        found = [next(lines) for _ in range(6)]
        self.assertTrue(found[-1].split()[0] == "7", found)
        self.assertLessEqual(len(asked), 4)


class ForSpreadsheets(unittest.TestCase):
    def test_rows(self):
        quota = desk.register_text("quota", 9, named(4), (1, 5, 6, 70))
        for data, first, last in ((example("hungary-counties.register"), 18, 108), (quota, 1, 30)):
            register = desk.read(data)
            with written(data) as path:
                status, out, err = ran(houses, path, first, last, "--csv")
            self.assertEqual((status, err), (0, ""))
            head, *rows = csv.reader(io.StringIO(out))
            self.assertEqual(
                head, ["house", "worst departure", "state", "over 10 per cent", "over 15 per cent", "without a seat", "register's own"]
            )
            self.assertEqual([row[0] for row in rows], [str(house) for house in range(first, last + 1)])
            for row in rows:
                house = int(row[0])
                own = "own" if house == register.house else ""
                listing = listing_rows(register.method.word, register, house)
                if listing is None:
                    self.assertEqual(row[1:], ["refused", "", "", "", "", own])
                    continue
                marks = [one[4] for one in listing]
                counts = [marks.count("high") + marks.count("over"), marks.count("over"), marks.count("none")]
                self.assertEqual(row[1:], [worst_row(listing)[3], worst_row(listing)[0], *map(str, counts), own])

    def test_accents_are_announced(self):
        data = b"register,leximin,3,2\nFejer,3\nZala,3\ntotal,6\n"
        with written(data, "Fejer,Fejér\n") as path:
            self.assertTrue(ran(houses, path, 2, 4, "--csv")[1].startswith("\ufeffhouse,"))
        with written(data) as path:
            self.assertTrue(ran(houses, path, 2, 4, "--csv")[1].startswith("house,"))


if __name__ == "__main__":
    unittest.main()
