"""The refusals in words. They stand once for C, Rust and Python, in ``desk_refusals.h``, and are read from there."""

from __future__ import annotations

import re
from dataclasses import dataclass
from pathlib import Path
from types import MappingProxyType
from typing import Mapping

# Installed, the table lies beside this file; in the repository, with the C header.
_PLACES = (Path(__file__).parent / "desk_refusals.h", Path(__file__).parents[2] / "include" / "desk_refusals.h")
_UNKNOWN = re.compile(r'^#define DESK_UNKNOWN_(WRONG|MEND) "([^"]*)"', re.MULTILINE)
_ROW = re.compile(r'^\s*REFUSAL\((\d+), ([A-Z_]+), "([^"]*)", "([^"]*)"\)', re.MULTILINE)


@dataclass(frozen=True)
class Refusal:
    """What a refusal's number means: its name, what is wrong, and what to mend."""

    number: int
    name: str
    wrong: str
    mend: str


def _text() -> str:
    for place in _PLACES:
        if place.exists():
            return place.read_text(encoding="ascii")
    raise FileNotFoundError(f"{_PLACES[-1].name} is neither in {_PLACES[0].parent} nor in {_PLACES[1].parent}")


_TEXT = _text()
REFUSALS: Mapping[int, Refusal] = MappingProxyType({int(row[0]): Refusal(int(row[0]), *row[1:]) for row in _ROW.findall(_TEXT)})
_UNKNOWN_WORDS = dict(_UNKNOWN.findall(_TEXT))


def refusal_of(number: int) -> Refusal:
    """What a number means; one that this version does not know has a general text."""
    return REFUSALS.get(number) or Refusal(number, "UNKNOWN", _UNKNOWN_WORDS["WRONG"], _UNKNOWN_WORDS["MEND"])


class Refused(Exception):
    """An operation was refused: nothing was allotted, and nothing was written.

    ``number`` is the refusal's number, ``line`` the line of the register counted from 1, or 0 where no line applies; ``name``, ``wrong`` and
    ``mend`` say in words what it means.
    """

    def __init__(self, number: int, line: int = 0) -> None:
        super().__init__(number, line)
        self.number = number
        self.line = line
        known = refusal_of(number)
        self.name = known.name
        self.wrong = known.wrong
        self.mend = known.mend

    def __str__(self) -> str:
        place = f" on line {self.line}" if self.line else ""
        return f"refused {self.number}{place}: {self.wrong}"
