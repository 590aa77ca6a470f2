"""`office houses`: the register's method for a range of houses, a row each."""

from __future__ import annotations

import argparse
import sys
from dataclasses import dataclass
from typing import Iterator, Sequence

import desk

from . import figures, files, names
from .compare import mark_utf8, padded, width_of, worst_of, write_csv
from .explain import counted, wrapped
from .figures import Listed, grouped

SUMMARY = "worst departures for a range of house sizes"
DESCRIPTION = """\
Allots each house from FROM to TO by the register's method, and shows its worst
departure, the state that has it, and how many states are further from the
average than 10 and than 15 per cent. It is a table, and no promise of the best
house.
"""
EXAMPLES = """\
examples:
  office houses counties.register 100 110
  office houses --csv counties.register 100 110 > houses.csv
"""
HEAD = ("house", "worst", "state", "over 10", "over 15")


@dataclass(frozen=True)
class House:
    """What the register's method gives for one house: its listing, or the refusal."""

    house: int
    listed: Listed | None
    refusal: desk.Refused | None


def add_arguments(parser: argparse.ArgumentParser) -> None:
    parser.add_argument("file", metavar="FILE", help="a register; - is standard input")
    limits = f"1 to {desk.HOUSE_LIMIT:,} seats"
    parser.add_argument("first", metavar="FROM", type=_house, help=f"the smallest house, {limits}")
    parser.add_argument("last", metavar="TO", type=_house, help="the largest house")
    names.add_names_argument(parser)
    parser.add_argument("--csv", action="store_true", help="write the table for a spreadsheet: CSV, UTF-8, commas")


def _house(word: str) -> int:
    if not (word.isascii() and word.isdigit()):
        raise argparse.ArgumentTypeError(f'"{word}" is no number of seats: a house is written in digits alone')
    if not 1 <= int(word) <= desk.HOUSE_LIMIT:
        raise argparse.ArgumentTypeError(f"a house has 1 to {desk.HOUSE_LIMIT:,} seats, and not {word}")
    return int(word)


def run(arguments: argparse.Namespace) -> int:
    if arguments.first > arguments.last:
        print(f"office houses: FROM is {arguments.first} and TO is {arguments.last}: FROM must not be the larger", file=sys.stderr)
        return 2
    _, register = files.read_register(arguments.file)
    shown = names.shown_names(arguments, arguments.file, register)
    houses = houses_of(register, arguments.first, arguments.last)
    if arguments.csv:
        mark_utf8(shown)
        write_csv(csv_rows(register, shown, houses))
    else:
        # Thousands of houses take a while, so that each is shown as it comes.
        for line in text(register, shown, houses):
            print(line, flush=True)
    return 0


def houses_of(register: desk.Register, first: int, last: int) -> Iterator[House]:
    """Each house from the first to the last."""
    for house in range(first, last + 1):
        try:
            yield House(house, figures.under(register, house=house), None)
        except desk.Refused as refusal:
            yield House(house, None, refusal)


def text(register: desk.Register, shown: Sequence[str], houses: Iterator[House]) -> Iterator[str]:
    """The table, line by line, and below it what has to be said of it."""
    yield from wrapped(f"{counted(len(shown), 'state')} under {register.method.word}.")
    yield ""
    widths = [len(f"{desk.HOUSE_LIMIT:,}*"), 8, max(width_of(HEAD[2]), *map(width_of, shown)), len(HEAD[3]), len(HEAD[4])]
    yield _line(["house ", *HEAD[1:]], widths)
    own = without = False
    refusals: dict[str, list[int]] = {}
    for house in houses:
        mark = "*" if house.house == register.house else " "
        own = own or mark == "*"
        if house.listed is None:
            refusals.setdefault(house.refusal.wrong, []).append(house.house)
            yield _line([f"{grouped(house.house)}{mark}", "refused", "", "-", "-"], widths)
            continue
        none = house.listed.count("none")
        without = without or none > 0
        cells = [*worst_of(house.listed, shown), str(house.listed.count("high", "over")), str(house.listed.count("over"))]
        more = f"  {counted(none, 'state')} without a seat" if none else ""
        yield _line([f"{grouped(house.house)}{mark}", *cells], widths) + more
    yield ""
    for sentence in _remarks(register, own, without, refusals):
        yield from wrapped(sentence)


def _line(cells: Sequence[str], widths: Sequence[int]) -> str:
    return "  ".join(padded(cell, width, left=at == 2) for at, (cell, width) in enumerate(zip(cells, widths))).rstrip()


def _remarks(register: desk.Register, own: bool, without: bool, refusals: dict[str, list[int]]) -> Iterator[str]:
    if own:
        yield "* the register's own house."
    for wrong, refused in refusals.items():
        many = f"Houses {grouped(refused[0])} to {grouped(refused[-1])} are" if len(refused) > 1 else f"House {grouped(refused[0])} is"
        yield f"{many} refused: {wrong}."
    yield (
        "worst: the largest departure, in per cent of the average; above 0 that state has more people a seat, below 0 fewer. "
        "over 10, over 15: how many states are further from the average than so many per cent."
    )
    if without:
        yield "A state without a seat has no departure, and is counted in neither."
    yield "This is a table and not a promise of the best house: it weighs departures and nothing else, and shows no other houses."


def csv_rows(register: desk.Register, shown: Sequence[str], houses: Iterator[House]) -> Iterator[list[object]]:
    """The table as rows for a spreadsheet."""
    yield ["house", "worst departure", "state", "over 10 per cent", "over 15 per cent", "without a seat", "register's own"]
    for house in houses:
        own = "own" if house.house == register.house else None
        if house.listed is None:
            yield [house.house, "refused", None, None, None, None, own]
            continue
        listed = house.listed
        yield [house.house, *worst_of(listed, shown), listed.count("high", "over"), listed.count("over"), listed.count("none"), own]
