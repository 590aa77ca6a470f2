"""`office page`: one HTML file that shows an allotment, with nothing loaded from outside."""

from __future__ import annotations

import argparse
import sys
from typing import Sequence

import desk

from . import figures, files, names, page_bars, page_houses, page_methods, page_scale, page_style, page_work
from . import walk as walking
from .compare import worst_of
from .explain import counted
from .figures import Listed, grouped
from .page_markup import Markup, Piece, element, empty
from .page_words import HEADINGS, TITLES, are

SUMMARY = "one HTML file to look at and to print"
DESCRIPTION = """\
Writes one HTML file to standard output: each state's departure as a bar on the
bands of 10 and 15 per cent, leximin's work in sentences, the eight methods side
by side, and worst departures by house around the one asked for. The file loads
nothing from outside, and is the same to the byte for the same register.
"""
EXAMPLES = """\
examples:
  office page counties.register > counties.html
  office page --title "Hungary's counties" --around 10 counties.register > counties.html
  office page --names counties.names counties.register > counties.html
"""
AROUND = 5
AROUND_LIMIT = 100

# The page runs nothing and loads nothing; a browser is told to hold it to that.
POLICY = "default-src 'none'; style-src 'unsafe-inline'; base-uri 'none'; form-action 'none'"
PARTS = (
    ("departures", "Departures"),
    ("work", "The work"),
    ("methods", "Methods"),
    ("houses", "Houses"),
    ("register", "The register"),
)


def add_arguments(parser: argparse.ArgumentParser) -> None:
    parser.add_argument("file", metavar="FILE", help="a register; - is standard input")
    names.add_names_argument(parser)
    parser.add_argument("--title", metavar="TEXT", default="", help="what the page stands for, shown above its heading; a register has no title")
    parser.add_argument(
        "--around",
        metavar="N",
        type=_around,
        default=AROUND,
        help=f"show houses of up to N seats fewer and more, N from 0 to {AROUND_LIMIT} (default: {AROUND})",
    )


def _around(word: str) -> int:
    if not (word.isascii() and word.isdigit()) or int(word) > AROUND_LIMIT:
        raise argparse.ArgumentTypeError(f'"{word}" is no number from 0 to {AROUND_LIMIT}')
    return int(word)


def run(arguments: argparse.Namespace) -> int:
    data, register = files.read_register(arguments.file)
    shown = names.shown_names(arguments, arguments.file, register)
    try:
        whole = page(data, register, shown, arguments.around, arguments.title)
    except desk.Refused as refusal:
        raise files.refused(arguments.file, data, refusal) from None
    sys.stdout.write(whole)
    return 0


def page(data: bytes, register: desk.Register, names: Sequence[str], around: int = AROUND, title: str = "") -> str:
    """The page of a register, with the names to show and a title above its heading. The refusals of allotting."""
    listed = figures.listed(data)
    work = walking.walk(register) if register.method == desk.Method.LEXIMIN else None
    return "<!DOCTYPE html>\n" + element(
        "html",
        _head(listed, title),
        element(
            "body",
            page_scale.shapes(),
            _header(listed, names, title),
            "\n",
            element(
                "main",
                page_bars.section(listed, names, work),
                "\n",
                page_work.section(register.method, names, work),
                "\n",
                page_methods.section(register, listed, names),
                "\n",
                page_houses.section(register, listed, names, around),
                "\n",
                _register(data),
            ),
            "\n",
            _foot(),
        ),
        "\n",
        lang="en",
    )


def _heading(listed: Listed) -> str:
    return f"{counted(listed.house, 'seat')} for {counted(len(listed.rows), 'state')} by {TITLES[listed.method]}"


def _head(listed: Listed, title: str) -> Markup:
    return element(
        "head",
        empty("meta", charset="utf-8"),
        empty("meta", http_equiv="Content-Security-Policy", content=POLICY),
        empty("meta", name="viewport", content="width=device-width, initial-scale=1"),
        empty("meta", name="color-scheme", content="light dark"),
        element("title", f"{title}: {_heading(listed)}" if title else _heading(listed)),
        element("style", page_style.style()),
    )


def _header(listed: Listed, names: Sequence[str], title: str) -> Markup:
    worst, state = worst_of(listed, names)
    links = (element("li", element("a", words, href=f"#{part}")) for part, words in PARTS)
    return element(
        "header",
        element("p", title or "Seat allotment", class_="kicker"),
        element("h1", _heading(listed)),
        element("p", verdict(listed, names), class_="verdict"),
        element(
            "dl",
            _tile("Method", HEADINGS[listed.method], element("a", "what it does", href="#work")),
            _tile("House", grouped(listed.house), "seats" if listed.house > 1 else "seat"),
            _tile("States", grouped(len(listed.rows)), "as the register lists them"),
            _tile("Population", grouped(listed.total), "people in all the states"),
            _tile("Worst departure", f"{worst} %", state),
            class_="tiles",
        ),
        element("nav", element("ul", *links), aria_label="Parts of this page"),
    )


def _tile(heading: str, value: str, more: Piece) -> Markup:
    return element("div", element("dt", heading), element("dd", value, element("small", more)))


def verdict(listed: Listed, names: Sequence[str]) -> str:
    """The allotment in one sentence: the worst departure and its state, and how many states have each mark."""
    counts = [
        f"{are(listed.count('in'))} within 10 per cent",
        f"{are(listed.count('high'))} above 10 and up to 15",
        f"{are(listed.count('over'))} above 15",
        f"{are(listed.count('none'))} without a seat",
    ]
    return (
        f"The worst departure is that of {_worst(listed, names)}, {_away(listed.worst.shown or 0)}; "
        f"of {counted(len(listed.rows), 'state')} {', '.join(counts[:-1])}, and {counts[-1]}."
    )


def _worst(listed: Listed, names: Sequence[str]) -> str:
    """The state with the worst departure; how many others are shown with the same one is told too."""
    departure, name = worst_of(listed, names)
    others = sum(row.departure == departure for row in listed.rows) - 1
    return f"{name} and of {counted(others, 'other state')}" if others else name


def _away(shown: int) -> str:
    # A departure that is shown as 0.000 has no side to tell: the exact one may lie on either.
    side = "from" if shown == 0 else "above" if shown > 0 else "below"
    return f"{figures.size(shown)} per cent {side} the average"


def _register(data: bytes) -> Markup:
    """The register's lines, so that whoever has the page can give them to the desk again."""
    lines = desk.clean(data).decode("ascii")
    return element(
        "section",
        element("h2", "The register", id="register"),
        element("p", "These lines, put into a file, are the register again, and the desk gives the same seats for them."),
        element(
            "details",
            element("summary", "The register's lines"),
            element("pre", lines, tabindex=0, role="region", aria_labelledby="register"),
        ),
        aria_labelledby="register",
    )


def _foot() -> Markup:
    return element(
        "footer",
        element(
            "p",
            f"Every seat, departure and mark on this page comes from the proved desk, version {desk.__version__}; "
            "the page only puts them in order and draws them.",
        ),
    )
