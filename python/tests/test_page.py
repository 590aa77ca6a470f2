"""`office page`: its numbers held to the desk's own listings, its form, and what a browser makes of it."""

from __future__ import annotations

import os
import random
import re
import shutil
import signal
import subprocess
import sys
import tempfile
import unittest
from functools import lru_cache
from html.parser import HTMLParser
from pathlib import Path

import desk
from office import explain, files, page, page_scale, page_style
from office.walk import walk

from .places import EXAMPLES, ROOT, example
from .test_compare import listing_rows, named, ran, worst_row, written

# Elements that never have an end.
VOID = {"meta"}
# All that a page is made of: nothing that runs, loads or sends.
TAGS = set("html head meta title style body header main footer section nav h1 h2 p a b i small span ul ol li dl dt dd div pre".split())
TAGS |= set("table caption thead tbody tr th td details summary".split())
TAGS |= set("svg defs pattern marker g path rect line use text".split())

HOSTILE = ["<b>x</b>", "\"q\" & 's'", "</td><script>alert(1)</script>", "a  b", "a b", "&amp;&lt;", "<!-- x", "]]>{}*/</style>", "W" * 32]


class Seen(HTMLParser):
    """A page as a program sees it: each element, and the cells of each table."""

    def __init__(self, markup: str) -> None:
        super().__init__(convert_charrefs=True)
        self.elements: list[tuple[str, dict[str, str]]] = []
        self.open: list[str] = []
        self.wrong: list[str] = []
        # By the table's first class: each row as a list of cells (tag, attributes, text, the elements in it).
        self.tables: dict[str, list[list[Cell]]] = {}
        self.texts: list[str] = []
        self._table: list[list[Cell]] = []
        self.feed(markup)
        self.close()
        self.wrong += [f"<{tag}> is not closed" for tag in self.open]

    def handle_starttag(self, tag, pairs):
        self.handle_startendtag(tag, pairs)
        if tag not in VOID:
            self.open.append(tag)

    def handle_startendtag(self, tag, pairs):
        attributes = dict(pairs)
        if len(attributes) != len(pairs):
            self.wrong.append(f"<{tag}> has an attribute twice")
        self.elements.append((tag, attributes))
        if tag == "table":
            self._table = self.tables.setdefault(attributes.get("class", "").split()[-1], [])
        elif tag == "tr":
            self._table.append([])
        elif tag in ("td", "th"):
            self._table[-1].append(Cell(tag, attributes))
        elif "td" in self.open or "th" in self.open:
            self._table[-1][-1].inside.append((tag, attributes))

    def handle_endtag(self, tag):
        if not self.open or self.open[-1] != tag:
            self.wrong.append(f"</{tag}> where {self.open[-1:]} is open")
            return
        self.open.pop()

    def handle_data(self, data):
        if self.open and self.open[-1] == "style":
            return
        self.texts.append(data)
        if ("td" in self.open or "th" in self.open) and "svg" not in self.open:
            self._table[-1][-1].text += data

    @property
    def text(self) -> str:
        return "".join(self.texts)

    def departures(self) -> list[dict[str, Cell]]:
        """The rows of states, by the classes of their cells."""
        name = "close" if "close" in self.tables else "departures"
        return [{cell.kind: cell for cell in row} for row in self.tables[name][1:] if len(row) > 1]


class Cell:
    """A cell of a table."""

    def __init__(self, tag: str, attributes: dict[str, str]) -> None:
        self.tag = tag
        self.attributes = attributes
        self.kind = attributes.get("class", "")
        self.text = ""
        self.inside: list[tuple[str, dict[str, str]]] = []

    def all(self, tag: str) -> list[dict[str, str]]:
        return [attributes for other, attributes in self.inside if other == tag]


@lru_cache(maxsize=None)
def page_of(data: bytes, around: int = page.AROUND) -> str:
    register = desk.read(data)
    return page.page(data, register, register.names, around)


def many_states(count: int, house: int, method: str = "leximin") -> bytes:
    """A register of so many states, of which some are far from the average."""
    numbers = random.Random(count)
    populations = [int(numbers.lognormvariate(11, 0.9)) + 1 for _ in range(count)]
    return desk.register_text(method, house, [f"District {place} of the Vale" for place in range(count)], populations)


def without_seats() -> bytes:
    return desk.register_text("webster", 20, named(24), [3**place % 10_007 + 1 for place in range(24)])


def hostile() -> bytes:
    return desk.register_text("leximin", 14, HOSTILE, [5, 50, 13, 40, 32, 70, 9, 11, 17])


def wide() -> bytes:
    names = ["W" * 30 + f"{place:02}" for place in range(70)]
    return desk.register_text("leximin", 700, names, [2**place % 99_999_971 + 9_000 for place in range(70)])


REGISTERS = {
    "counties": example("hungary-counties.register"),
    "regions": example("hungary-regions.register"),
    "five states": example("five-states.register"),
    "quota": example("quota-five-states.register"),
    "the United States": example("united-states.register"),
    "the United States by Hill": example("united-states-hill.register"),
    "the longest walk": example("longest-walk.register"),
    "typed": example("as-typed.register"),
    "without seats": without_seats(),
    "one state": b"register,jefferson,1,1\nA,1\ntotal,1\n",
    "the largest house": desk.register_text("adams", 30_000, named(30), range(1_000_001, 1_000_031)),
    "250 states": many_states(250, 700),
    "250 states by remainders": many_states(250, 300, "remainders"),
    "hostile": hostile(),
    "wide": wide(),
}


def listing_of(data: bytes) -> list[list[str]]:
    return [line.split(",") for line in desk.listing(data).decode("ascii").splitlines()[1:-1]]


def shown_of(departure: str) -> int:
    return int(departure.replace(".", ""))


def hold_rows(test: unittest.TestCase, seen: Seen, data: bytes) -> None:
    """Holds each state's row to its line of the listing."""
    shown = [
        [row["name"].text, row["people"].text.replace(",", ""), row["seats"].text.replace(",", ""), row["departure"].text, row["mark"].text]
        for row in seen.departures()
    ]
    listing = listing_of(data)
    hold_same(test, sorted(shown), sorted(listing))
    seated = [row for row in shown if row[3] != "none"]
    hold_same(test, shown[len(seated) :], [row for row in listing if row[3] == "none"])
    departures = [shown_of(row[3]) for row in seated]
    hold_same(test, departures, sorted(departures, reverse=True))


def hold_same(test: unittest.TestCase, given: list, expected: list) -> None:
    """Holds two long lists to each other and tells the first difference; unittest's own comparison of them takes minutes."""
    test.assertEqual(len(given), len(expected))
    for one, other in zip(given, expected):
        test.assertEqual(one, other)


class Numbers(unittest.TestCase):
    def test_rows_are_the_listing(self):
        for name, data in REGISTERS.items():
            with self.subTest(name):
                hold_rows(self, Seen(page_of(data)), data)

    def test_verdict(self):
        told = " ".join(Seen(page_of(REGISTERS["counties"])).text.split())
        self.assertIn(
            "The worst departure is that of Tolna, 15.283 per cent below the average; of 20 states 15 are within 10 per cent, "
            "4 are above 10 and up to 15, 1 is above 15, and none is without a seat.",
            told,
        )
        same = desk.register_text("leximin", 3, named(3), [5, 5, 5])
        self.assertIn("that of A and of 2 other states, 0.000 per cent from the average; of 3 states 3 are within", page_of(same))

    def test_bars_are_as_long_as_departures(self):
        for name in ("counties", "the United States", "the longest walk", "without seats", "250 states"):
            with self.subTest(name):
                self.hold_bars(Seen(page_of(REGISTERS[name])))

    def hold_bars(self, seen: Seen) -> None:
        for row in seen.departures():
            bars = row["bar"].all("rect")
            if row["departure"].text == "none":
                self.assertEqual(bars, [])
                continue
            (bar,) = bars
            shown = shown_of(row["departure"].text)
            reach = page_scale.REACH
            length, place = float(bar["width"].rstrip("%")), float(bar["x"].rstrip("%"))
            self.assertAlmostEqual(length, min(abs(shown), reach) / reach * 50, delta=0.006)
            self.assertAlmostEqual(place, 50 if shown >= 0 else 50 - length, delta=0.011)
            self.assertEqual(bar["class"], row["mark"].text)
            # What passes the scale is cut, and told so.
            torn = [use["href"] for use in row["bar"].all("use") if use["href"] != "#both-sides"]
            passed = [] if abs(shown) <= reach else ["#cut-above" if shown > 0 else "#cut-below"]
            self.assertEqual(torn, passed)
            self.assertEqual(len(row["bar"].all("text")), len(passed))

    def test_arrows_are_the_steps(self):
        for name in ("counties", "five states", "the United States", "the longest walk", "250 states", "hostile"):
            with self.subTest(name):
                register = desk.read(REGISTERS[name])
                told = walk(register)
                self.hold_arrows(Seen(page_of(REGISTERS[name])), register, told)
        self.assertNotIn("moved", page_of(REGISTERS["quota"]).split("</style>")[1])

    def hold_arrows(self, seen: Seen, register: desk.Register, told) -> None:
        rows = {row["name"].text: row for row in seen.departures()}
        for place, name in enumerate(register.names):
            steps = [step for step in told.steps if step.place == place]
            row = rows[name]
            if not told.steps:
                self.assertNotIn("moved", row)
                continue
            if not steps:
                self.assertEqual((row["moved"].text, row["bar"].all("line")), ("", []))
                continue
            sign = "+" if steps[0].gains else "−"
            self.assertTrue(row["moved"].text.startswith(f"{sign}{len(steps)}, step"), row["moved"].text)
            links = [int(link["href"].rpartition("-")[2]) for link in row["moved"].all("a")]
            self.assertEqual((links[0], links[-1]), (steps[0].number, steps[-1].number))
            departures = (told.start_departures[place], told.end_departures[place])
            ends = [page_scale.BOTH_SIDES.place(departure.shown) for departure in departures]
            arrows = [[line["x1"], line["x2"]] for line in row["bar"].all("line")]
            self.assertEqual(arrows, [] if ends[0] == ends[1] else [ends])

    def test_work_in_sentences(self):
        for name in ("counties", "five states", "the longest walk", "hostile"):
            with self.subTest(name):
                register = desk.read(REGISTERS[name])
                told = walk(register)
                text = Seen(page_of(REGISTERS[name])).text
                at = 0
                for sentence in explain.sentences(told, register.names):
                    at = text.index(sentence, at)
        for method in desk.METHODS[1:]:
            data = REGISTERS["counties"].replace(b"leximin", method.word.encode("ascii"))
            self.assertIn("is leximin's alone", Seen(page_of(data)).text)

    def test_methods_are_their_listings(self):
        for name in ("counties", "quota", "without seats", "250 states"):
            with self.subTest(name):
                self.hold_methods(REGISTERS[name])

    def hold_methods(self, data: bytes) -> None:
        register = desk.read(data)
        seen = Seen(page_of(data))
        head, *rows = seen.tables["seats"]
        methods = [cell.text.split()[0].lower() for cell in head[1:]]
        self.assertEqual(sorted(methods), sorted(method.word for method in desk.METHODS))
        own = listing_of(data)
        for column, method in enumerate(methods, start=1):
            listing = listing_rows(method, register)
            cells = [row[column] for row in rows]
            if listing is None:
                self.assertEqual({cell.text for cell in cells}, {"–"})
                self.assertIn("refused", [row[column].text for row in seen.tables["short"]])
                continue
            for cell, line, mine in zip(cells, listing, own):
                change = int(line[2]) - int(mine[2])
                sign = "" if change == 0 else "▲ more" if change > 0 else "▼ fewer"
                self.assertEqual(cell.text, f"{int(line[2]):,}{sign}")
                self.assertEqual(len(cell.all("b")), 0 if change == 0 else 1)
            self.hold_short(seen, column, method, register, listing, own)

    def hold_short(self, seen: Seen, column: int, method: str, register: desk.Register, listing, own) -> None:
        worst = worst_row(listing)
        marks = [sum(line[4] == mark.word for line in listing) for mark in desk.Mark]
        others = sum(line[2] != mine[2] for line, mine in zip(listing, own))
        back = desk.register_text(method, register.house, register.names[::-1], register.populations[::-1])
        by_order = [line[2] for line in listing_of(back)][::-1] != [line[2] for line in listing]
        expected = [worst[3], worst[0], *map(str, marks), str(others), "yes" if by_order else "no"]
        self.assertEqual([row[column].text for row in seen.tables["short"][1:]], expected)

    def test_register_order(self):
        told = page_of(desk.register_text("webster", 2, ["A", "B", "C"], [5, 5, 5]))
        self.assertIn("Register order decided between A and C under ", told)

    def test_houses_are_their_listings(self):
        for name in ("counties", "five states", "without seats", "one state", "the largest house"):
            for around in (0, 5, 20):
                with self.subTest(name, around=around):
                    self.hold_houses(REGISTERS[name], around)

    def hold_houses(self, data: bytes, around: int) -> None:
        register = desk.read(data)
        head, *rows = Seen(page_of(data, around)).tables["houses"]
        houses = range(max(1, register.house - around), min(desk.HOUSE_LIMIT, register.house + around) + 1)
        self.assertEqual(len(rows), len(houses))
        largest = 0
        for house, row in zip(houses, rows):
            listing = listing_rows(register.method.word, register, house)
            self.assertEqual(row[0].text, f"{house:,}{' asked for' if house == register.house else ''}")
            if listing is None:
                self.assertIn("refused 15", row[1].text)
                continue
            worst = worst_row(listing)
            over = [sum(line[4] in marks for line in listing) for marks in (("high", "over"), ("over",), ("none",))]
            told = [cell.text for cell in row[1:]]
            self.assertEqual(told, [worst[3], "", worst[0], *map(str, over)][: len(told)])
            self.assertEqual(row[2].all("rect")[0]["class"], worst[4])
            largest = max(largest, over[2])
        self.assertEqual(any("without a seat" in cell.text for cell in head), largest > 0)


class Form(unittest.TestCase):
    def test_well_formed(self):
        for name, data in REGISTERS.items():
            with self.subTest(name):
                seen = Seen(page_of(data))
                self.assertEqual(seen.wrong[:3], [])
                self.assertLessEqual({tag for tag, _ in seen.elements}, TAGS)
                self.hold_names(seen)

    def hold_names(self, seen: Seen) -> None:
        ids = [attributes["id"] for _, attributes in seen.elements if "id" in attributes]
        self.assertEqual(len(ids), len(set(ids)))
        for tag, attributes in seen.elements:
            for key in ("aria-labelledby", "aria-describedby"):
                if key in attributes:
                    self.assertIn(attributes[key], ids)
            if "href" in attributes:
                self.assertTrue(attributes["href"].startswith("#"), attributes)
                self.assertIn(attributes["href"][1:], ids)
            self.assertFalse({"src", "srcset", "action", "data", "poster", "xlink:href"} & set(attributes), attributes)
            self.assertFalse([key for key in attributes if key.startswith("on")], attributes)
            if tag == "svg":
                # A drawing repeats what its row says in words.
                self.assertEqual(attributes.get("aria-hidden"), "true")
            if tag == "th":
                self.assertIn(attributes.get("scope"), ("row", "col", "rowgroup"))
        for mark in re.findall(r"url\(([^)]*)\)", page_style.style()):
            self.assertIn(mark[1:], ids)
        headings = [int(tag[1]) for tag, _ in seen.elements if re.fullmatch("h[1-6]", tag)]
        self.assertEqual(headings, [1] + [2] * (len(headings) - 1))
        tables = sum(tag == "table" for tag, _ in seen.elements)
        self.assertEqual(tables, sum(tag == "caption" for tag, _ in seen.elements))
        self.assertEqual(dict(seen.elements)["html"], {"lang": "en"})

    def test_nothing_from_outside(self):
        for name in ("counties", "250 states"):
            markup = page_of(REGISTERS[name])
            self.assertNotRegex(markup, r"(?i)https?:|//|@import|<script|<link|<img|<iframe|javascript:")
            (policy,) = [attributes["content"] for tag, attributes in Seen(markup).elements if "http-equiv" in attributes]
            self.assertTrue(policy.startswith("default-src 'none'; style-src 'unsafe-inline';"))

    def test_hostile_names(self):
        markup = page_of(hostile())
        seen = Seen(markup)
        self.assertEqual(sorted(row["name"].text for row in seen.departures()), sorted(HOSTILE))
        self.assertEqual([row[0].text for row in seen.tables["seats"][1:]], HOSTILE)
        # Every place where a name stands: cells, sentences, tiles, the register's lines.
        self.assertNotIn("<script", markup)
        self.assertNotIn("<b>x", markup)
        self.assertNotIn("<!-- x", markup)
        self.assertEqual(markup.count("</style>"), 1)
        self.assertGreater(seen.text.count("</td><script>alert(1)</script>"), 3)

    def test_names_from_a_file(self):
        data = b"register,leximin,5,2\nFejer,30\nGyor,20\ntotal,50\n"
        with written(data, "Fejer,Fejér\nGyor,Győr & <i>környéke</i>\n") as path:
            status, out, err = ran(page, path)
        self.assertEqual((status, err), (0, ""))
        seen = Seen(out)
        self.assertEqual(sorted(row["name"].text for row in seen.departures()), ["Fejér", "Győr & <i>környéke</i>"])
        # The register's own lines keep its own names.
        self.assertIn("Gyor,20\n", seen.text)

    def test_register_can_be_checked_again(self):
        for name in ("counties", "typed", "hostile"):
            text = Seen(page_of(REGISTERS[name])).text
            lines = text[text.index("register,") :]
            lines = lines[: lines.index("\n", lines.rindex("\ntotal,") + 1) + 1]
            self.assertTrue(desk.listing(lines.encode("ascii")) == desk.listing(REGISTERS[name]))

    def test_same_bytes_for_the_same_register(self):
        path = EXAMPLES / "hungary-counties.register"
        status, out, err = ran(page, path)
        self.assertEqual((status, err), (0, ""))
        self.assertTrue(ran(page, path) == (status, out, err))
        # In a process of its own, where Python orders sets otherwise, from another folder, and by way of standard input.
        code = "import sys; sys.path.insert(0, sys.argv.pop(1)); from office import cli; sys.exit(cli.main(sys.argv[1:]))"
        for seed in ("1", "2"):
            run = subprocess.run(
                [sys.executable, "-c", code, str(ROOT / "python"), "page", "-"],
                input=path.read_bytes(),
                stdout=subprocess.PIPE,
                cwd=tempfile.gettempdir(),
                env={**os.environ, "PYTHONHASHSEED": seed, "LC_ALL": "C", "DESK_LIBRARY": str(desk.library.library_path())},
                check=True,
            )
            self.assertTrue(run.stdout == out.encode("utf-8"))

    def test_sizes(self):
        self.assertLess(len(page_of(REGISTERS["counties"]).encode("utf-8")), 60_000)
        self.assertLess(len(page_of(REGISTERS["250 states"]).encode("utf-8")), 400_000)
        self.assertLess(len(page_of(REGISTERS["the longest walk"]).encode("utf-8")), 1_500_000)

    def test_refusals(self):
        for name, number in (("cut-short", 2), ("false-total", 7), ("name-twice", 5)):
            with self.assertRaises(files.RefusedFile) as caught:
                ran(page, EXAMPLES / f"{name}.register")
            self.assertEqual(caught.exception.number, number)
        with written(desk.register_text("leximin", 2, named(3), [1, 2, 3])) as path, self.assertRaises(files.RefusedFile) as caught:
            ran(page, path)
        self.assertEqual(caught.exception.number, 15)

    def test_title(self):
        path = str(EXAMPLES / "five-states.register")
        plain, titled = (ran(page, *words, path)[1] for words in ([], ["--title", "Bács & <Békés>"]))
        self.assertIn("<title>20 seats for 5 states by leximin</title>", plain)
        self.assertIn("<title>Bács &amp; &lt;Békés&gt;: 20 seats for 5 states by leximin</title>", titled)
        self.assertIn('<p class="kicker">Bács &amp; &lt;Békés&gt;</p>', titled)
        self.assertEqual(plain.partition("<h1>")[2], titled.partition("<h1>")[2], "a title changes nothing else")

    def test_around(self):
        path = EXAMPLES / "five-states.register"
        for word in ("-1", "101", "five", "", "\u0661"):
            status, out, err = ran(page, f"--around={word}", path)
            self.assertEqual((status, out), (2, ""), word)
            self.assertIn("no number from 0 to 100", err)
        self.assertEqual(len(Seen(ran(page, "--around=7", path)[1]).tables["houses"]), 16)


class Colours(unittest.TestCase):
    def test_contrast(self):
        for scheme in (page_style.LIGHT, page_style.DARK):
            colours = dict(re.findall("--([a-z-]+):(#[0-9a-f]+);", scheme))
            for ground in ("paper", "panel", "mid", "far"):
                for letters in ("ink", "soft", "link"):
                    self.assertGreaterEqual(_contrast(colours[letters], colours[ground]), 4.5, (letters, ground))
            for ground in ("paper", "mid", "far"):
                for line in ("in-edge", "high-edge", "over-edge", "limit", "average"):
                    self.assertGreaterEqual(_contrast(colours[line], colours[ground]), 3, (line, ground))


def _contrast(one: str, other: str) -> float:
    """How far two colours are apart, as the guidelines for readable pages (WCAG 2) reckon it."""
    dark, light = sorted((_light(one), _light(other)))
    return (light + 0.05) / (dark + 0.05)


def _light(colour: str) -> float:
    digits = colour[1:] if len(colour) == 7 else "".join(digit * 2 for digit in colour[1:])
    parts = [int(digits[at : at + 2], 16) / 255 for at in (0, 2, 4)]
    red, green, blue = (part / 12.92 if part <= 0.04045 else ((part + 0.055) / 1.055) ** 2.4 for part in parts)
    return 0.2126 * red + 0.7152 * green + 0.0722 * blue


BROWSERS = ("chromium", "chromium-browser", "google-chrome", "google-chrome-stable")
# A page that loads what the same policy forbids: a browser that tells so would tell it of a page of ours.
CONTROL = (
    f'<!DOCTYPE html><html lang="en"><head><meta http-equiv="Content-Security-Policy" content="{page.POLICY}"/></head>'
    '<body><p>here it is</p><img alt="" src="not-there.png"/></body></html>'
)
# Each page in a frame tells how wide it came out.
MEASURE = "<script>parent.postMessage(document.documentElement.scrollWidth, '*')</script>"


def left_out(why: str) -> unittest.SkipTest:
    """What is left out here is said in a line of its own, since a run of all tests only counts it."""
    print(f"\ntest_page: left out: {why}", file=sys.stderr)
    return unittest.SkipTest(why)


class Browser:
    """A browser without a window. It is given some seconds for each page, and whatever it started is ended with it."""

    SECONDS = 30

    def __init__(self, program: str, folder: Path) -> None:
        self.program = program
        self.folder = folder

    def opened(self, name: str, *more: str) -> tuple[str, str]:
        """The document as the browser has it, and what it said meanwhile. A browser that fails raises unittest.SkipTest."""
        words = [self.program, "--headless", "--no-sandbox", "--disable-gpu", "--hide-scrollbars", "--enable-logging=stderr"]
        words += [f"--user-data-dir={self.folder / 'profile'}", "--no-first-run", "--dump-dom", *more, (self.folder / name).as_uri()]
        with open(self.folder / "said", "wb") as said:
            try:
                process = subprocess.Popen(
                    words, stdin=subprocess.DEVNULL, stdout=subprocess.PIPE, stderr=said, cwd=self.folder, start_new_session=True
                )
            except OSError as error:
                raise left_out(f"{self.program} does not start: {error}") from None
            try:
                document, _ = process.communicate(timeout=self.SECONDS)
            except subprocess.TimeoutExpired:
                raise left_out(f"{self.program} did not end within {self.SECONDS} seconds") from None
            finally:
                _end(process)
        if process.returncode != 0:
            raise left_out(f"{self.program} ended with {process.returncode}")
        return document.decode("utf-8"), (self.folder / "said").read_text(encoding="utf-8", errors="replace")


def _end(process: subprocess.Popen) -> None:
    """Ends what the browser started, which has the browser's own group."""
    try:
        os.killpg(process.pid, signal.SIGKILL)
    except ProcessLookupError:
        pass
    process.stdout.close()
    process.wait()


class InABrowser(unittest.TestCase):
    @classmethod
    def setUpClass(cls):
        program = next(filter(None, map(shutil.which, BROWSERS)), None)
        if program is None:
            raise left_out(f"no browser here ({', '.join(BROWSERS)}): the page is not looked at in one")
        cls.folder = Path(tempfile.mkdtemp())
        cls.addClassCleanup(shutil.rmtree, cls.folder, ignore_errors=True)
        cls.browser = Browser(program, cls.folder)
        (cls.folder / "control.html").write_text(CONTROL, encoding="utf-8")
        cls.control = cls.folder / "control.png"
        document, said = cls.browser.opened("control.html", f"--screenshot={cls.control}", "--window-size=1000,1400")
        if "here it is" not in document:
            raise left_out(f"{program} does not open files of {cls.folder}")
        cls.tells = "Content Security Policy" in said

    def looked_at(self, data: bytes, name: str) -> None:
        (self.folder / f"{name}.html").write_bytes(page_of(data).encode("utf-8"))
        picture = self.folder / f"{name}.png"
        document, said = self.browser.opened(f"{name}.html", f"--screenshot={picture}", "--window-size=1000,1400")
        hold_rows(self, Seen(document), data)
        if self.tells:
            # Nothing was refused or failed to load, and nothing else was complained of.
            self.assertEqual([line for line in said.splitlines() if "CONSOLE" in line], [])
        if self.control.exists():
            # A picture of next to nothing is small, since it is packed.
            self.assertEqual(picture.read_bytes()[:8], b"\x89PNG\r\n\x1a\n")
            self.assertGreater(picture.stat().st_size, 8 * self.control.stat().st_size)

    def test_twenty_states(self):
        self.looked_at(REGISTERS["counties"], "twenty")

    def test_many_states(self):
        self.looked_at(REGISTERS["250 states"], "many")

    def test_widths(self):
        """Nothing but a table's own box is scrolled sideways: on a telephone, and where rows are barely wide enough for one line."""
        frames, most = [], (340, 720, 1030)
        for name in ("counties", "250 states", "without seats", "hostile", "wide"):
            open_to_scripts = re.sub('<meta http-equiv="Content-Security-Policy"[^>]*>', "", page_of(REGISTERS[name]))
            file = f"measured-{len(frames)}.html"
            (self.folder / file).write_bytes(open_to_scripts.replace("</body>", MEASURE + "</body>").encode("utf-8"))
            frames += [f'<iframe width="{width}" height="600" style="border:0" src="{file}"></iframe>' for width in most]
        listen = "<script>onmessage = told => document.getElementById('told').append(told.data + ' ')</script>"
        (self.folder / "frames.html").write_text(f'<!DOCTYPE html><p id="told"></p>{listen}{"".join(frames)}', encoding="utf-8")
        document, _ = self.browser.opened("frames.html", "--virtual-time-budget=3000")
        told = re.search('<p id="told">([0-9 ]*)</p>', document)
        widths = told.group(1).split() if told else []
        if len(widths) != len(frames):
            raise left_out("the browser does not let frames of files tell their widths")
        self.assertEqual(set(map(int, widths)), set(most))

    def test_print(self):
        """What is folded on the screen is printed too."""
        if not shutil.which("pdftotext"):
            raise left_out("no pdftotext here: what is printed is not read")
        data = many_states(70, 150)
        (self.folder / "printed.html").write_bytes(page_of(data).encode("utf-8"))
        printed = self.folder / "printed.pdf"
        self.browser.opened("printed.html", f"--print-to-pdf={printed}", "--no-pdf-header-footer")
        if not printed.exists():
            raise left_out("the browser does not print")
        text = subprocess.run(["pdftotext", "-layout", str(printed), "-"], stdout=subprocess.PIPE, check=True).stdout.decode("utf-8")
        words = " ".join(text.split())
        register = desk.read(data)
        told = walk(register)
        self.assertGreater(len(told.steps), 12)
        if "folded: open it before printing" in words:
            raise left_out("the browser is too old to print what is folded, and says so in the print")
        self.assertIn(explain.step_sentence(told, told.steps[-1], register.names)[:60], words)
        self.assertIn(f"{register.names[-1]},{register.populations[-1]}", words)


if __name__ == "__main__":
    unittest.main()
