"""`office compare`: the eight methods side by side, a column each."""

from __future__ import annotations

import argparse
import csv
import sys
import unicodedata
from dataclasses import dataclass
from typing import Iterable, Sequence

import desk

from . import figures, files, names
from .explain import WIDTH, counted, listed_names, wrapped
from .figures import Listed, grouped

SUMMARY = "the eight methods side by side"
DESCRIPTION = """\
Allots the register's house by each of the eight methods and sets the seats side
by side. The register's own method stands first; what differs from it is marked.
Below, for each method: the worst departure, how many states have each mark, and
whether the order of the register decided who has a seat.
"""
EXAMPLES = """\
examples:
  office compare counties.register
  office compare --csv counties.register > methods.csv
"""
# More names than these in one sentence are only counted.
NAMES_TOLD = 6
MARKS = tuple(mark.word for mark in desk.Mark)


@dataclass(frozen=True)
class Column:
    """What one method gives: its listing, or None where it refuses the house; and the states that have other seats if the register names
    them backwards."""

    method: desk.Method
    listed: Listed | None
    refusal: desk.Refused | None
    turned: tuple[int, ...]

    @property
    def word(self) -> str:
        return self.method.word


def add_arguments(parser: argparse.ArgumentParser) -> None:
    parser.add_argument("file", metavar="FILE", help="a register; - is standard input")
    names.add_names_argument(parser)
    parser.add_argument("--csv", action="store_true", help="write the table for a spreadsheet: CSV, UTF-8, commas")


def run(arguments: argparse.Namespace) -> int:
    _, register = files.read_register(arguments.file)
    shown = names.shown_names(arguments, arguments.file, register)
    columns = columns_of(register)
    if arguments.csv:
        mark_utf8(shown)
        write_csv(csv_rows(register, shown, columns))
    else:
        print("\n".join(text(register, shown, columns)))
    return 0


def columns_of(register: desk.Register) -> list[Column]:
    """Each method's column, the register's own method first and the others in their usual order."""
    others = [method for method in desk.METHODS if method != register.method]
    return [_column(register, method) for method in [register.method, *others]]


def _column(register: desk.Register, method: desk.Method) -> Column:
    try:
        listed = figures.under(register, method)
        turned = figures.backwards(register, method)
    except desk.Refused as refusal:
        return Column(method, None, refusal, ())
    pairs = enumerate(zip(listed.seats, turned.seats))
    return Column(method, listed, None, tuple(place for place, (forth, back) in pairs if forth != back))


def differing_states(own: Listed, other: Listed) -> list[int]:
    """The places of the states that have other seats under another method."""
    return [place for place, (mine, its) in enumerate(zip(own.seats, other.seats)) if mine != its]


def text(register: desk.Register, shown: Sequence[str], columns: Sequence[Column]) -> list[str]:
    """The comparison as lines."""
    own = columns[0]
    house = f"A house of {counted(register.house, 'seat')} for {counted(len(shown), 'state')}."
    below_seats, below_summary = refused_sentences(columns), []
    if own.listed is not None:
        below_seats.insert(0, f"* other seats than under {own.word}.")
        below_summary.append(f"* how many states have other seats than under {own.word}.")
    below_summary.append("Departures are in per cent of the average: above 0 means more people a seat, and below 0 fewer.")
    if any(column.listed is not None and column.listed.count("none") for column in columns):
        below_summary.append("A state without a seat is marked none and has no departure.")
    parts = [
        _lines([f"{house} The register's own method, {own.word}, stands first."]),
        _seat_lines(register, shown, columns),
        _lines(below_seats),
        _summary_lines(shown, columns),
        _lines(below_summary),
        _lines(order_sentences(shown, columns)),
    ]
    return [line for number, part in enumerate(parts) for line in ([""] if number else []) + part]


def _lines(sentences: Sequence[str]) -> list[str]:
    return [line for sentence in sentences for line in wrapped(sentence)]


def _seat_lines(register: desk.Register, shown: Sequence[str], columns: Sequence[Column]) -> list[str]:
    table = [["", "people"] + [column.word for column in columns]]
    if any(column.listed is None for column in columns):
        table.append(["", ""] + ["refused" if column.listed is None else "" for column in columns])
    for place, name in enumerate(shown):
        table.append([name, grouped(register.populations[place])] + [_seats(columns[0], column, place) for column in columns])
    sums = ["- " if column.listed is None else f"{grouped(column.listed.allotted)} " for column in columns]
    table.append(["total", grouped(register.total)] + sums)
    return aligned(table, left={0})


def _seats(own: Column, column: Column, place: int) -> str:
    """A state's seats under a method, with a star if they differ from the register's own; a blank keeps the digits below each other."""
    if column.listed is None:
        return "- "
    seats = column.listed.rows[place].seats
    differs = own.listed is not None and own.listed.rows[place].seats != seats
    return f"{grouped(seats)}{'*' if differs else ' '}"


def _summary_lines(shown: Sequence[str], columns: Sequence[Column]) -> list[str]:
    own = columns[0].listed
    stars = [] if own is None else ["states*"]
    table = [["method", "worst", "state", "in", "high", "over", "none", *stars]]
    for column in columns:
        if column.listed is None:
            table.append([column.word, "refused", ""] + ["-"] * (4 + len(stars)))
            continue
        worst, state = worst_of(column.listed, shown)
        marks = [str(column.listed.count(mark)) for mark in MARKS]
        differ = [] if own is None else [str(len(differing_states(own, column.listed)))]
        table.append([column.word, worst, state, *marks, *differ])
    return aligned(table, left={0, 2})


def worst_of(listed: Listed, shown: Sequence[str]) -> tuple[str, str]:
    """The worst departure as it is shown, and the name of its state, the first of several that are shown alike."""
    worst = listed.worst
    return worst.departure, shown[listed.rows.index(worst)]


def refused_sentences(columns: Sequence[Column]) -> list[str]:
    """Why methods refused the house."""
    words: dict[str, list[str]] = {}
    for column in columns:
        if column.refusal is not None:
            words.setdefault(column.refusal.wrong, []).append(column.word)
    return [f"Refused under {listed_names(refusing)}: {wrong}." for wrong, refusing in words.items()]


def order_sentences(shown: Sequence[str], columns: Sequence[Column]) -> list[str]:
    """Whether the order of the register decided who has a seat, as far as reading it backwards tells."""
    asked = [column for column in columns if column.listed is not None]
    words: dict[tuple[int, ...], list[str]] = {}
    for column in asked:
        words.setdefault(column.turned, []).append(column.word)
    same = words.pop((), [])
    told = [
        f"Register order decided between {_some([shown[place] for place in turned])} under {listed_names(methods)}: "
        "read backwards, the register gives them other seats."
        for turned, methods in words.items()
    ]
    if same:
        under = "any of the eight methods" if len(same) == len(desk.METHODS) else listed_names(same, "or")
        so_far = "so far as this tells: read backwards, the register gives the same seats"
        told.append(f"Register order decided nothing under {under}, {so_far}.")
    others = "; states that are not named here may be equal to those that are" if words else ""
    return told + [f"Only these two orders were tried, as it stands and backwards{others}."]


def _some(shown: Sequence[str]) -> str:
    """Names in a sentence; of many, the first ones, and how many more there are."""
    if len(shown) <= NAMES_TOLD + 1:
        return listed_names(shown)
    return f"{', '.join(shown[:NAMES_TOLD])} and {grouped(len(shown) - NAMES_TOLD)} more states"


def csv_rows(register: desk.Register, shown: Sequence[str], columns: Sequence[Column]) -> list[list[object]]:
    """The comparison as rows for a spreadsheet: a row a state, the totals, and below them what is told of each method, in its column."""
    own = columns[0].listed
    empty = [None] * len(shown)
    seats = zip(*(empty if column.listed is None else column.listed.seats for column in columns))
    rows: list[list[object]] = [["name", "population", *(column.word for column in columns)]]
    rows += [[name, people, *counts] for name, people, counts in zip(shown, register.populations, seats)]

    def row(label: str, population: object, of_listed) -> list[object]:
        return [label, population, *(None if column.listed is None else of_listed(column) for column in columns)]

    rows.append(row("total", register.total, lambda column: column.listed.allotted))
    rows.append([])
    rows.append(["refused", None, *("refused" if column.listed is None else None for column in columns)])
    rows.append(row("worst departure", None, lambda column: worst_of(column.listed, shown)[0]))
    rows.append(row("state with it", None, lambda column: worst_of(column.listed, shown)[1]))
    rows += [row(f"marked {mark}", None, lambda column: column.listed.count(mark)) for mark in MARKS]
    if own is not None:
        rows.append(row("states that differ", None, lambda column: len(differing_states(own, column.listed))))
    rows.append(row("other seats backwards", None, lambda column: "; ".join(shown[place] for place in column.turned)))
    return rows


def write_csv(rows: Iterable[Sequence[object]]) -> None:
    """Writes rows as CSV to standard output, each as it comes."""
    writer = csv.writer(sys.stdout, lineterminator="\n")
    for row in rows:
        writer.writerow(row)


def mark_utf8(shown: Sequence[str]) -> None:
    """Where names have accents, begins the file with the mark by which spreadsheets know UTF-8: without it some show other letters."""
    if not all(name.isascii() for name in shown):
        sys.stdout.write("\ufeff")


def aligned(table: Sequence[Sequence[str]], left: set[int]) -> list[str]:
    """The rows of a table as lines: columns under each other, those named to the left and the others to the right."""
    widths = [max(map(width_of, cells)) for cells in zip(*table)]
    gap = "  " if sum(widths) + 2 * len(widths) - 2 <= WIDTH else " "
    return [gap.join(padded(cell, width, at in left) for at, (cell, width) in enumerate(zip(row, widths))).rstrip() for row in table]


def padded(cell: str, width: int, left: bool = False) -> str:
    """A cell filled with blanks to its column's width."""
    blanks = " " * (width - width_of(cell))
    return cell + blanks if left else blanks + cell


def width_of(cell: str) -> int:
    """How many columns a text takes on a terminal: an accent that follows its letter takes none, and a wide letter two."""
    return sum(0 if unicodedata.combining(letter) else 2 if unicodedata.east_asian_width(letter) in "WF" else 1 for letter in cell)
