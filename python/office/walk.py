"""Leximin's work as data: the start, each step with the reason for it, and the end.

The desk opens the work and moves it on, one seat at a time; every seat and every departure here is its answer. Only the reason for a step
is worked out here: leximin's rule puts the states in order, and the state that it puts first must be the one that the desk moved. If it is
not, no reason is handed back but `Disagreement` is raised. A size is a departure without its sign, and sizes are compared exactly:

- A seat is added. A state that can take it without its size rising goes first, the earliest in the register of several. Otherwise the state
  goes whose size afterwards is smallest; of equal ones, the one whose present size is larger; then the earlier one.
- A seat is withdrawn. Of the states with more than one seat, the one gives its seat up whose size afterwards is smallest; of equal ones,
  the one whose present size is larger; then the later one.
"""

from __future__ import annotations

import heapq
from dataclasses import dataclass
from typing import Sequence

import desk

# Where a state stands in line: a kind, two sizes, and its place in the register. The least goes first; what goes first if it is larger
# stands there with a minus.
_Standing = tuple[int, int, int, int]
# The kinds, in the order in which they go. A size that falls is not met on a walk from the start; the desk's order has it first.
_FALLS, _LEVEL, _RISES, _CANNOT = range(4)

# A size is |p H - a P| / (a P), and P is the same for all. So whole parts of |p H - a P| x _FINE / a compare exactly as the sizes do: two
# sizes that differ do so by 1 / (a b) at least, before P, and with at most 30,000 seats a and b that is more than 1 after _FINE.
_FINE = (desk.HOUSE_LIMIT + 1) ** 2


class Disagreement(AssertionError):
    """The desk did not move the state that the rule puts first, so that there is no reason to tell."""


@dataclass(frozen=True)
class Step:
    """One seat added or withdrawn: the state that moved, why, and the state that was next in line."""

    number: int
    gains: bool
    place: int
    seats_before: int
    seats_after: int
    before: desk.Departure
    after: desk.Departure
    total_after: int
    # What decided between the state that moved and the next in line:
    # "level"       it takes the seat without its size rising, and the next one would not
    # "smallest"    its size afterwards is smaller
    # "larger_now"  the sizes afterwards are equal, and its present size is larger
    # "earlier"     a seat is added, both sizes are equal or both states take it without rising, and it stands earlier in the register
    # "later"       a seat is withdrawn, both sizes are equal, and it stands later in the register
    # "only"        no other state could move
    reason: str
    # The state that the rule would have moved in its stead, None where no other could move.
    runner_up: int | None
    runner_up_before: desk.Departure | None
    runner_up_after: desk.Departure | None
    # Its seats, and its seats if it had moved.
    runner_up_seats: tuple[int, int] | None
    # Whether the state takes the seat without its size rising. What is shown does not tell, since sizes are compared exactly.
    level: bool = False
    # Where the register's order decided: the first state that would have ended exactly as far from the average, but is nearer to it now.
    nearer_now: int | None = None


@dataclass(frozen=True)
class Walk:
    """Leximin's work on a register, whatever method the register names."""

    register: desk.Register
    start: tuple[int, ...]
    start_total: int
    start_departures: tuple[desk.Departure, ...]
    steps: tuple[Step, ...]
    end: tuple[int, ...]
    end_departures: tuple[desk.Departure, ...]


def walk(register: desk.Register) -> Walk:
    """Leximin's work on a register. Refusals 10 to 13 and 15."""
    placing = desk.Placing.open(register.populations, register.house)
    start, start_total = placing.seats, placing.total
    gains = start_total < register.house
    seats = list(start)
    line = [_standing(register, gains, place, count) for place, count in enumerate(seats)]
    steps = []
    while placing.advance(1):
        place = _moved(seats, placing.seats, gains)
        step = _step(register, gains, len(steps) + 1, place, seats, placing.total, line)
        steps.append(step)
        seats[place] = step.seats_after
        line[place] = _standing(register, gains, place, step.seats_after)
    end = tuple(seats)
    return Walk(register, start, start_total, _departures(register, start), tuple(steps), end, _departures(register, end))


def size_order(register: desk.Register, place: int, seats: int) -> int:
    """A number by which departures without their signs can be compared exactly, within one register: the larger, the further."""
    return abs(register.populations[place] * register.house - seats * register.total) * _FINE // seats


def _standing(register: desk.Register, gains: bool, place: int, seats: int) -> _Standing:
    """Where a state stands in line for the next seat to be added or withdrawn."""
    present = size_order(register, place, seats)
    if not gains:
        # Each state keeps a seat. Of equal states the later one gives its seat up.
        return (_CANNOT, 0, 0, place) if seats == 1 else (_RISES, size_order(register, place, seats - 1), -present, -place)
    new = size_order(register, place, seats + 1)
    if new < present:
        return _FALLS, -present, new, place
    # Those that stay level are all equal.
    return (_LEVEL, 0, 0, place) if new == present else (_RISES, new, -present, place)


def _moved(before: Sequence[int], after: Sequence[int], gains: bool) -> int:
    """The state that the desk moved."""
    others = [place for place, (old, new) in enumerate(zip(before, after)) if old != new]
    if len(others) != 1 or after[others[0]] - before[others[0]] != (1 if gains else -1):
        raise Disagreement(f"one step changed the seats of {len(others)} states")
    return others[0]


def _step(
    register: desk.Register, gains: bool, number: int, place: int, seats: Sequence[int], total_after: int, line: Sequence[_Standing]
) -> Step:
    first, *second = heapq.nsmallest(2, line)
    if abs(first[3]) != place:
        raise Disagreement(f"step {number}: the desk moved the state with place {place}, and the rule the one with place {abs(first[3])}")
    by = 1 if gains else -1
    level = first[0] < _RISES
    moved = (number, gains, place, seats[place], seats[place] + by, *_pair(register, place, seats[place], by), total_after)
    if not second or second[0][0] == _CANNOT:
        return Step(*moved, "only", None, None, None, None, level)
    reason = _reason(gains, first, second[0])
    other = abs(second[0][3])
    runner_up = (other, *_pair(register, other, seats[other], by), (seats[other], seats[other] + by))
    equal = reason in ("earlier", "later") and not level
    return Step(*moved, reason, *runner_up, level, _nearer_now(first, line) if equal else None)


def _reason(gains: bool, first: _Standing, second: _Standing) -> str:
    """What decided between the first in line and the second."""
    if first[0] != second[0]:
        return "level"
    # Among sizes that fall the larger present one goes first; among the others the smaller new one.
    parted = ("larger_now", "smallest") if first[0] == _FALLS else ("smallest", "larger_now")
    for at, reason in enumerate(parted, start=1):
        if first[at] != second[at]:
            return reason
    return "earlier" if gains else "later"


def _nearer_now(first: _Standing, line: Sequence[_Standing]) -> int | None:
    """The first state whose new size is that of the first in line and whose present size is smaller."""
    for place, standing in enumerate(line):
        if standing[:2] == first[:2] and standing[2] > first[2]:
            return place
    return None


def _pair(register: desk.Register, place: int, seats: int, by: int) -> tuple[desk.Departure, desk.Departure]:
    """A state's departure with its seats, and if it moved."""
    return _departure(register, place, seats), _departure(register, place, seats + by)


def _departure(register: desk.Register, place: int, seats: int) -> desk.Departure:
    return desk.departure(register.populations[place], seats, register.total, register.house)


def _departures(register: desk.Register, seats: Sequence[int]) -> tuple[desk.Departure, ...]:
    return tuple(_departure(register, place, count) for place, count in enumerate(seats))
