"""The desk's operations. Each asks the proved library, and turns its answer into Python's types or a refusal into an exception."""

from __future__ import annotations

import ctypes
from dataclasses import dataclass
from typing import Sequence

from .library import CLEAN_ROOM, LISTING_ROOM, NUMBER_LIMIT, SHOWN_SCALE, library
from .library import Placing as _Placing
from .methods import Mark, Method
from .refusals import Refused


def _accepted(refusal: int, line: int = 0) -> None:
    if refusal != 0:
        raise Refused(refusal, line)


def _bytes(register: bytes) -> bytes:
    """The register as bytes. Text is not taken, since which bytes it stands for would be a guess."""
    if not isinstance(register, (bytes, bytearray, memoryview)):
        raise TypeError(f"a register is bytes, not {type(register).__name__}: open its file with 'rb'")
    return bytes(register)


def _number(value: int, what: str) -> int:
    """A number as the library is given it. ctypes would cut one of more than 64 bits without a word; it is beyond every limit, as the largest
    of 64 bits is, and more seats than are left to any house, so that one is handed over in its place."""
    if isinstance(value, bool) or not isinstance(value, int):
        raise TypeError(f"{what} is a whole number, not {type(value).__name__}")
    if value < 0:
        raise ValueError(f"{what} is {value}, below 0")
    return min(value, NUMBER_LIMIT)


def _numbers(values: Sequence[int], what: str) -> ctypes.Array:
    return (ctypes.c_uint64 * len(values))(*(_number(value, what) for value in values))


@dataclass(frozen=True)
class Register:
    """A register as read: its method, house, the sum of the populations, and names and populations in register order."""

    method: Method
    house: int
    total: int
    names: tuple[str, ...]
    populations: tuple[int, ...]


def read(register: bytes) -> Register:
    """Reads a register. Refusals 1 to 7, each but the first with the line at fault."""
    data = _bytes(register)
    reading = library().desk_read(data, len(data))
    _accepted(reading.refusal, reading.line)
    names = tuple(name(data, place) for place in range(reading.states))
    return Register(Method(reading.method), reading.house, reading.total, names, tuple(reading.populations[: reading.states]))


def name(register: bytes, place: int) -> str:
    """The name of the state with a given place, counted from 0. Reading's refusals, then 40 for a place not below the states."""
    data = _bytes(register)
    part = library().desk_name(data, len(data), _number(place, "a place"))
    _accepted(part.refusal, part.line)
    return data[part.start : part.start + part.length].decode("ascii")


@dataclass(frozen=True)
class Allotment:
    """Each state's seats, and leximin's steps from its start, 0 under the other methods."""

    seats: tuple[int, ...]
    steps: int


def allot(method: Method | str, house: int, populations: Sequence[int]) -> Allotment:
    """Allots a house. Refusals 10 to 13 and 15; a word that is no method is a ValueError."""
    counts = _numbers(populations, "a population")
    seats = (ctypes.c_uint64 * len(populations))()
    number = int(Method.of(method))
    allotted = library().desk_allot(number, _number(house, "a house"), counts, len(counts), seats, len(seats))
    _accepted(allotted.refusal)
    return Allotment(tuple(seats), allotted.steps)


class Placing:
    """Leximin's work, from each state's nearest seats to the house.

    >>> placing = Placing.open([1, 1, 1, 97], 4)
    >>> placing.seats
    (1, 1, 1, 4)
    >>> placing.advance(1), placing.seats
    (1, (1, 1, 1, 3))
    >>> placing.advance(1000), placing.seats
    (2, (1, 1, 1, 1))
    """

    def __init__(self, placing: _Placing) -> None:
        self._placing = placing

    @classmethod
    def open(cls, populations: Sequence[int], house: int) -> Placing:
        """Opens a placing with each state's nearest seats. Refusals 10 to 13 and 15."""
        placed = library().desk_open(_numbers(populations, "a population"), len(populations), _number(house, "a house"))
        _accepted(placed.refusal)
        return cls(_Placing.from_buffer_copy(placed.placing))

    def advance(self, seats: int) -> int:
        """Moves on towards the house by so many seats, and hands back how many were moved: all of them, or those left to the house."""
        moved = library().desk_move(ctypes.byref(self._placing), _number(seats, "a number of seats"))
        _accepted(moved.refusal)
        return moved.moved

    def copy(self) -> Placing:
        """The same work in a placing of its own."""
        return type(self)(_Placing.from_buffer_copy(self._placing))

    @property
    def states(self) -> int:
        """How many states there are."""
        return self._placing.states

    @property
    def house(self) -> int:
        """The seats that the work goes towards."""
        return self._placing.house

    @property
    def total(self) -> int:
        """The seats placed in all."""
        return self._placing.total

    @property
    def steps(self) -> int:
        """The seats moved since opening."""
        return self._placing.steps

    @property
    def populations(self) -> tuple[int, ...]:
        """Each state's population, in register order."""
        return tuple(self._placing.populations[: self._placing.states])

    @property
    def seats(self) -> tuple[int, ...]:
        """Each state's seats so far, in register order."""
        return tuple(self._placing.seats[: self._placing.states])

    def __repr__(self) -> str:
        return f"<Placing of {self.states} states: {self.total} seats, a house of {self.house}, {self.steps} steps>"


@dataclass(frozen=True)
class Departure:
    """A departure in thousandths of a per cent, None without seats, and the mark of its exact size.

    Above the average, a positive number, means more people a seat.
    """

    shown: int | None
    mark: Mark

    @property
    def text(self) -> str:
        """As a listing has it: ``-13.765``, or ``none``."""
        if self.shown is None:
            return "none"
        whole, part = divmod(abs(self.shown), SHOWN_SCALE // 100)
        return f"{'-' if self.shown < 0 else ''}{whole}.{part:03}"


def departure(population: int, seats: int, total: int, house: int) -> Departure:
    """The departure of a state from the average total / house. Refusal 30 outside the limits."""
    figures = (population, seats, total, house)
    answer = library().desk_departure(*(_number(figure, "a figure of a departure") for figure in figures))
    _accepted(answer.refusal)
    mark = Mark(answer.mark)
    return Departure(None if mark == Mark.NONE else answer.shown, mark)


def _written(function: str, register: bytes, room: int) -> bytes:
    data = _bytes(register)
    out = (ctypes.c_uint8 * room)()
    written = getattr(library(), function)(data, len(data), out, room)
    _accepted(written.refusal, written.line)
    return ctypes.string_at(out, written.length)


def listing(register: bytes) -> bytes:
    """The listing of a register. The refusals of reading and of allotting."""
    return _written("desk_listing", register, LISTING_ROOM)


def clean(register: bytes) -> bytes:
    """The clean copy of a register: lines ended by LF alone, no number with a leading zero. Reading's refusals."""
    return _written("desk_clean", register, CLEAN_ROOM)


def register_text(method: Method | str, house: int, names: Sequence[str], populations: Sequence[int]) -> bytes:
    """Writes a register of these parts. Reading it decides whether it is one: nothing is checked here."""
    if len(names) != len(populations):
        raise ValueError(f"{len(names)} names and {len(populations)} populations")
    lines = [f"register,{Method.of(method).word},{house},{len(names)}"]
    lines += [f"{one},{count}" for one, count in zip(names, populations)]
    lines.append(f"total,{sum(populations)}")
    return "".join(line + "\n" for line in lines).encode("utf-8")
