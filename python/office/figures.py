"""A register's figures, taken from listings that the proved desk wrote: the same states under another method, another house, or backwards."""

from __future__ import annotations

from dataclasses import dataclass, replace

import desk


@dataclass(frozen=True)
class Row:
    """A state's line of a listing."""

    name: str
    population: int
    seats: int
    departure: str
    mark: str

    @property
    def shown(self) -> int | None:
        """The departure in thousandths of a per cent, None without seats: the listing's digits without their point."""
        return None if self.departure == "none" else int(self.departure.replace(".", ""))


@dataclass(frozen=True)
class Listed:
    """A listing: what its first and its last line say, and between them a row a state, in the order of the register."""

    method: desk.Method
    house: int
    total: int
    allotted: int
    rows: tuple[Row, ...]

    @property
    def seats(self) -> tuple[int, ...]:
        return tuple(row.seats for row in self.rows)

    @property
    def worst(self) -> Row:
        """The state furthest from the average, the first of several that are shown alike."""
        return max((row for row in self.rows if row.shown is not None), key=lambda row: abs(row.shown))

    def count(self, *marks: str) -> int:
        """How many states have one of these marks."""
        return sum(row.mark in marks for row in self.rows)


def listed(register: bytes) -> Listed:
    """The listing of a register, line by line. The refusals of reading and of allotting."""
    head, *states, closing = desk.listing(register).decode("ascii").splitlines()
    _, method, house, _ = head.split(",")
    _, total, allotted = closing.split(",")
    return Listed(desk.Method.of(method), int(house), int(total), int(allotted), tuple(_row(line) for line in states))


def _row(line: str) -> Row:
    name, population, seats, departure, mark = line.split(",")
    return Row(name, int(population), int(seats), departure, mark)


def under(register: desk.Register, method: desk.Method | str | None = None, house: int | None = None) -> Listed:
    """The same states under another method or with another house."""
    return listed(_text(register, method, house, register.names, register.populations))


def backwards(register: desk.Register, method: desk.Method | str | None = None) -> Listed:
    """What the desk gives if the register names its states from the last to the first; the rows stand in the register's own order again."""
    turned = listed(_text(register, method, None, register.names[::-1], register.populations[::-1]))
    return replace(turned, rows=turned.rows[::-1])


def _text(register: desk.Register, method: desk.Method | str | None, house: int | None, names: tuple, populations: tuple) -> bytes:
    method = register.method if method is None else method
    house = register.house if house is None else house
    return desk.register_text(method, house, names, populations)


def size(shown: int) -> str:
    """A departure in thousandths of a per cent without its sign: 13765 is ``13.765``."""
    return desk.Departure(abs(shown), desk.Mark.IN).text


def grouped(number: int) -> str:
    """A whole number with commas between groups of three: ``8,034,395``."""
    return f"{number:,}"
