"""`office compare`: its tables held to the desk's own listings."""

from __future__ import annotations

import argparse
import contextlib
import csv
import io
import random
import re
import tempfile
import time
import unittest
from pathlib import Path

import desk
from office import compare

from .places import EXAMPLES, example


def named(count: int) -> list[str]:
    """So many names: A, B and so on as far as letters go, then numbers."""
    return [chr(ord("A") + place) if place < 26 else f"S{place}" for place in range(count)]


def register_of(method: str, house: int, populations) -> desk.Register:
    return desk.read(desk.register_text(method, house, named(len(populations)), populations))


def ran(module, *words: object) -> tuple[int, str, str]:
    """Runs one of the parts of `office` with the words given: its status, standard output and standard error."""
    parser = argparse.ArgumentParser()
    module.add_arguments(parser)
    out, err = io.StringIO(), io.StringIO()
    with contextlib.redirect_stdout(out), contextlib.redirect_stderr(err):
        try:
            status = module.run(parser.parse_args([str(word) for word in words]))
        except SystemExit as stopped:
            status = stopped.code
    return status, out.getvalue(), err.getvalue()


@contextlib.contextmanager
def written(data: bytes, names: str | None = None):
    """A register as a file, with a file of names beside it."""
    with tempfile.TemporaryDirectory() as folder:
        path = Path(folder) / "states.register"
        path.write_bytes(data)
        if names is not None:
            path.with_suffix(".names").write_text(names, encoding="utf-8")
        yield path


def listing_rows(method: str, register: desk.Register, house: int | None = None) -> list[list[str]] | None:
    """The lines of the desk's listing of the same states, None where it is refused."""
    data = desk.register_text(method, register.house if house is None else house, register.names, register.populations)
    try:
        return [line.split(",") for line in desk.listing(data).decode("ascii").splitlines()[1:-1]]
    except desk.Refused:
        return None


def worst_row(rows: list[list[str]]) -> list[str]:
    """The listing's line with the largest departure, the first of several."""
    return max((row for row in rows if row[3] != "none"), key=lambda row: int(row[3].replace(".", "").replace("-", "")))


def differing(one: list[list[str]], other: list[list[str]]) -> list[int]:
    """By how much the seats of two listings differ, for each state where they do."""
    return [int(second[2]) - int(first[2]) for first, second in zip(one, other) if first[2] != second[2]]


def words_at(line: str) -> list[tuple[str, int]]:
    """A line's words, each with the column in which it ends."""
    return [(match.group(), match.end()) for match in re.finditer(r"\S+", line)]


class TheText(unittest.TestCase):
    def tables(self, path: Path) -> tuple[str, list[str], list[list[str]], str]:
        """The head of the table of seats, its lines, the words of each line of the summary, and all that is said below."""
        status, out, err = ran(compare, path)
        self.assertEqual((status, err), (0, ""))
        self.assertTrue(all(line == line.rstrip() for line in out.splitlines()))
        parts = out.split("\n\n")
        seats, summary = (part.splitlines() for part in (parts[1], parts[3]))
        return seats[0], seats[1:], [line.split() for line in summary], " ".join(" ".join(parts[4:]).split())

    def hold(self, data: bytes):
        """Holds each column, each star and each line of the summary to the desk's listings."""
        register = desk.read(data)
        with written(data) as path:
            head, lines, summary, below = self.tables(path)
        methods = head.split()[1:]
        own = register.method.word
        self.assertEqual(methods, [own] + [method.word for method in desk.METHODS if method.word != own])
        listings = {method: listing_rows(method, register) for method in methods}
        if None in listings.values():
            # Each `refused` ends right below the word of its method, and each dash stands as a seat would.
            ends = [end for word, end in words_at(head) if listings.get(word, "") is None]
            self.assertEqual([end for _, end in words_at(lines.pop(0))], ends)
            for line in lines:
                self.assertEqual([end + 1 for word, end in words_at(line) if word == "-"], ends)
        for place, line in enumerate(lines[:-1]):
            words = line[len(register.names[place]) :].replace(",", "").split()
            cells = ["-" if listings[method] is None else listings[method][place][2] for method in methods]
            if listings[own] is not None:
                cells = [cell if cell in ("-", cells[0]) else cell + "*" for cell in cells]
            self.assertTrue(line.startswith(register.names[place] + " "))
            self.assertEqual(words, [str(register.populations[place]), *cells])
        self.assertEqual(len(lines) - 1, len(register.names))
        sums = ["-" if listings[method] is None else f"{register.house:,}" for method in methods]
        self.assertEqual(lines[-1].split(), ["total", f"{register.total:,}", *sums])
        stars = [] if listings[own] is None else ["states*"]
        self.assertEqual(summary[0], ["method", "worst", "state", "in", "high", "over", "none", *stars])
        for method, words in zip(methods, summary[1:]):
            rows = listings[method]
            if rows is None:
                self.assertEqual(words, [method, "refused"] + ["-"] * (4 + len(stars)))
                continue
            marks = [str(sum(row[4] == mark for row in rows)) for mark in ("in", "high", "over", "none")]
            differ = differing(listings[own], rows) if stars else []
            differ = [str(len(differ))] if stars else []
            self.assertEqual(words, [method, worst_row(rows)[3], *worst_row(rows)[0].split(), *marks, *differ])
        self.assertEqual(len(summary), 9)
        return below

    def test_counties(self):
        below = self.hold(example("hungary-counties.register"))
        self.assertIn("Register order decided nothing under any of the eight methods, so far as this tells", below)
        self.assertIn("Only these two orders were tried, as it stands and backwards.", below)
        out = ran(compare, EXAMPLES / "hungary-counties.register")[1]
        self.assertLessEqual(max(map(len, out.splitlines())), 100)
        self.assertIn("\nTolna                     196,751       3      3     3     3        3          2*          3      2*\n", out)

    def test_digits_stand_below_each_other(self):
        out = ran(compare, EXAMPLES / "hungary-counties.register")[1].split("\n\n")[1].splitlines()
        for at in [match.end() for match in re.finditer(r"\S+", out[0])][1:]:
            # Below the last letter of a method's word are stars and blanks, and before it digits.
            self.assertTrue(all(line[at - 1 : at] in ("", " ", "*") and line[at - 2].isdigit() for line in out[1:]), at)

    def test_examples(self):
        for path in sorted(EXAMPLES.glob("*.register")):
            try:
                desk.read(path.read_bytes())
            except desk.Refused:
                continue
            self.hold(path.read_bytes())
            # The register's own column is the stored listing's.
            stored = [line.split(",") for line in path.with_suffix(".listing").read_text(encoding="ascii").splitlines()[1:-1]]
            rows = list(csv.reader(io.StringIO(ran(compare, path, "--csv")[1])))
            self.assertEqual([row[2] for row in rows[1 : len(stored) + 1]], [row[2] for row in stored])

    def test_random_registers(self):
        chance = random.Random(3)
        for _ in range(60):
            populations = [chance.choice((chance.randint(1, 6), chance.randint(1, 5000))) for _ in range(chance.randint(1, 9))]
            method = chance.choice(desk.METHODS).word
            self.hold(desk.register_text(method, chance.randint(1, 40), named(len(populations)), populations))

    def test_a_house_that_some_methods_refuse(self):
        below = self.hold(desk.register_text("webster", 2, named(3), (5, 6, 7)))
        self.assertIn("Register order decided nothing under webster, jefferson, remainders or quota", below)
        data = example("hungary-counties.register").replace(b"leximin,106", b"hill,10")
        below = self.hold(data)
        self.assertIn("A state without a seat is marked none and has no departure.", below)
        with written(data) as path:
            out = ran(compare, path)[1]
        self.assertLessEqual(max(map(len, out.splitlines())), 100)
        wrong = "the house has fewer seats than there are states, and the method gives each state one."
        self.assertIn(f"Refused under hill, leximin, adams and dean: {wrong}", " ".join(out.split()))
        # With no seats of its own to hold them to, no other method's seats are marked.
        self.assertNotIn("*", out)

    def test_register_order(self):
        below = self.hold(desk.register_text("leximin", 3, named(2), (3, 3)))
        methods = "leximin, adams, dean, hill, webster, jefferson, remainders and quota"
        self.assertIn(f"Register order decided between A and B under {methods}: read backwards, ", below)
        self.assertNotIn("decided nothing", below)
        self.assertIn("may be equal to those that are", below)
        # Ten and six fives: read backwards, the last of the fives has the seat of the first.
        below = self.hold(desk.register_text("leximin", 10, named(7), (10, 5, 5, 5, 5, 5, 5)))
        self.assertIn("Register order decided between B and G under leximin", below)
        below = self.hold(desk.register_text("leximin", 30, named(20), (3,) * 20))
        self.assertIn("Register order decided between A, B, C, D, E, F and 14 more states under leximin", below)

    def test_register_order_is_told_for_each_method(self):
        chance = random.Random(4)
        for _ in range(40):
            populations = [chance.randint(1, 4) for _ in range(chance.randint(2, 6))]
            house = chance.randint(len(populations), 12)
            below = self.hold(desk.register_text("dean", house, named(len(populations)), populations))
            told = {}
            for names, methods in re.findall(r"decided between ([A-Z, and]+) under ([a-z, ]+):", below):
                told.update({method: re.findall("[A-Z]", names) for method in re.split(", | and ", methods)})
            same = set(re.findall(r"[a-z]+", "".join(re.findall(r"decided nothing under (.*?), so far as", below)))) - {"or"}
            if "any of the eight methods" in below:
                same = {method.word for method in desk.METHODS}
            for method in desk.METHODS:
                forth = desk.allot(method, house, populations).seats
                back = desk.allot(method, house, populations[::-1]).seats[::-1]
                moved = [chr(ord("A") + place) for place, (one, other) in enumerate(zip(forth, back)) if one != other]
                self.assertEqual(told.get(method.word, []), moved)
                self.assertEqual(method.word in same, not moved)

    def test_names_as_people_write_them(self):
        # An accent that is a sign of its own takes no room, and a wide letter takes the room of two.
        data = b"register,leximin,7,3\nFejer,30\nGyor,10\nTokio,20\ntotal,60\n"
        with written(data, "Fejer,Feje\u0301r\nGyor,Győr\nTokio,\u6771\u4eac\n") as path:
            out = ran(compare, path)[1].split("\n\n")[1].splitlines()
        for line, start in zip(out[1:], ("Feje\u0301r      30 ", "Győr       10 ", "\u6771\u4eac       20 ")):
            self.assertTrue(line.startswith(start), line)

    def test_large_registers_are_quick(self):
        began = time.monotonic()
        self.hold(example("longest-walk.register"))
        self.assertLess(time.monotonic() - began, 4)


class ForSpreadsheets(unittest.TestCase):
    def test_rows(self):
        for data in (
            example("hungary-counties.register"),
            example("united-states-hill.register"),
            desk.register_text("quota", 2, named(3), (5, 6, 7)),
            desk.register_text("adams", 2, named(3), (5, 6, 7)),
            desk.register_text("leximin", 3, named(2), (3, 3)),
        ):
            register = desk.read(data)
            with written(data) as path:
                status, out, err = ran(compare, path, "--csv")
            self.assertEqual((status, err), (0, ""))
            rows = list(csv.reader(io.StringIO(out)))
            methods = rows[0][2:]
            self.assertEqual((rows[0][:2], methods[0]), (["name", "population"], register.method.word))
            self.assertEqual(sorted(methods), sorted(method.word for method in desk.METHODS))
            listings = [listing_rows(method, register) for method in methods]
            count = len(register.names)
            self.assertEqual([row[0] for row in rows[1 : count + 1]], list(register.names))
            self.assertEqual([row[1] for row in rows[1 : count + 1]], [str(people) for people in register.populations])
            below = {row[0]: row[1:] for row in rows[count + 1 :] if row}
            self.assertEqual(below["total"][0], str(register.total))
            for at, listing in enumerate(listings):
                seats = [row[at + 2] for row in rows[1 : count + 1]]
                self.assertEqual(below["refused"][at + 1], "refused" if listing is None else "")
                if listing is None:
                    self.assertEqual(seats, [""] * count)
                    self.assertEqual({row[at + 1] for label, row in below.items() if label != "refused"}, {""})
                    continue
                self.assertEqual(seats, [row[2] for row in listing])
                self.assertEqual(below["total"][at + 1], str(register.house))
                worst = worst_row(listing)
                self.assertEqual((below["worst departure"][at + 1], below["state with it"][at + 1]), (worst[3], worst[0]))
                for mark in ("in", "high", "over", "none"):
                    self.assertEqual(below[f"marked {mark}"][at + 1], str(sum(row[4] == mark for row in listing)))
                if listings[0] is not None:
                    differ = differing(listings[0], listing)
                    self.assertEqual(below["states that differ"][at + 1], str(len(differ)))
                backwards = desk.allot(methods[at], register.house, register.populations[::-1]).seats[::-1]
                moved = [name for name, row, seats in zip(register.names, listing, backwards) if int(row[2]) != seats]
                self.assertEqual(below["other seats backwards"][at + 1], "; ".join(moved))

    def test_accents_are_announced(self):
        data = b"register,leximin,3,2\nFejer,3\nZala,3\ntotal,6\n"
        with written(data, "Fejer,Fejér\n") as path:
            self.assertTrue(ran(compare, path, "--csv")[1].startswith("\ufeffname,"))
            self.assertFalse(ran(compare, path)[1].startswith("\ufeff"))
        with written(data) as path:
            self.assertTrue(ran(compare, path, "--csv")[1].startswith("name,"))


if __name__ == "__main__":
    unittest.main()
