"""What can be wrong with the figures of a register that is well-formed: limits, names used twice, sums, and seats for every state.

What is added up here is added up for the wording alone; that a register is refused, and where, is the library's answer.
"""

from __future__ import annotations

from typing import Sequence, Tuple

import desk

from .faults_head import METHODS
from .faults_shown import plain, quoted
from .faults_text import File, Found, Words, is_number, joined, several

States = Sequence[Tuple[bytes, int]]

# Methods that give each state a seat, so that a house smaller than the states is refused under them.
SEATS_FOR_ALL = ("leximin", "adams", "dean", "hill")


# ---- 3: a number outside its limits


def outside(file: File, line: int) -> Found:
    head = file.head
    found = file.line(line)
    if head is None or found is None:
        return None
    if line == 1:
        return joined(
            [
                _beyond("The house", head.house, desk.HOUSE_LIMIT, "seats", "Correct the house."),
                _beyond("The count of states", head.states, desk.STATES_LIMIT, "states", "Correct the count."),
            ]
        )
    name, _, digits = found.text.partition(b",")
    if not is_number(digits):
        return None
    number = int(digits)
    if line == head.states + 2:
        return _beyond("The closing total", number, desk.SUM_LIMIT, "people", "Correct the total.")
    mend = "Correct it, or leave the state out and count one fewer on line 1." if number == 0 else "Correct it."
    return _beyond(f"The population of {quoted(name)}", number, desk.SUM_LIMIT, "people", mend)


def _beyond(what: str, number: int, limit: int, unit: str, mend: str) -> Found:
    if number == 0:
        return Words(f"{what} is 0, and has to be 1 at least.", mend)
    if number > limit:
        return Words(f"{what} is {number:,}, and {limit:,} {unit} are the most.", mend)
    return None


# ---- 5: a name already used


def used_name(file: File, line: int) -> Found:
    found = file.line(line)
    if found is None:
        return None
    name, _, digits = found.text.partition(b",")
    for place, earlier in enumerate(file.lines[1 : line - 1], start=2):
        other, _, others = earlier.text.partition(b",")
        if other != name:
            continue
        if is_number(digits) and is_number(others) and int(digits) == int(others):
            return Words(
                f"The state {quoted(name)} is there twice with the same population, on line {place} and on line {line}.",
                "Delete one of the two lines, count one state fewer on line 1, and see that the total has it once.",
            )
        return Words(
            f"The name {quoted(name)} was used on line {place} already, with {plain(others)} as population there and {plain(digits)} here.",
            "If they are two states, give one of them another name; otherwise delete the wrong line, and correct the count and the total.",
        )
    return None


# ---- 6: the sum so far is too large


def sum_too_large(file: File, line: int) -> Found:
    states = file.states_before(line + 1)
    total = sum(population for _, population in states)
    if len(states) != line - 1 or total <= desk.SUM_LIMIT:
        return None
    place, (name, largest) = max(enumerate(states, start=2), key=lambda state: state[1][1])
    return Words(
        f"Up to this line the populations add up to {total:,}, and {desk.SUM_LIMIT:,} is the most; the largest is {largest:,}, "
        f"of {quoted(name)} on line {place}.",
        "See whether a population has digits too many, or whether a sum stands among the states.",
    )


# ---- 7: the closing total differs


def total_differs(file: File, line: int) -> Found:
    found = file.line(line)
    states = file.states_before(line)
    digits = found.text.partition(b",")[2] if found else b""
    if not is_number(digits) or len(states) != line - 2:
        return None
    given, total = int(digits), sum(population for _, population in states)
    if given == total:
        return None
    way = "higher" if given > total else "lower"
    wrong = f"The closing total is {given:,}, but the populations add up to {total:,}: the total is {way} by {abs(given - total):,}."
    of_total = _whole_total(given, total) or _total_digits(given, total)
    hint = _one_state(states, given, total) or of_total or _state_digits(states, given, total)
    if hint:
        return Words(f"{wrong} {hint.wrong}", hint.mend)
    return Words(wrong, "Compare them with the source; only if each population is right, write their sum as the total.")


def _one_state(states: States, given: int, total: int) -> Found:
    """The difference is one state's population."""
    place = next((place for place, (_, population) in enumerate(states, start=2) if population == abs(given - total)), None)
    if place is None:
        return None
    name = quoted(states[place - 2][0])
    if given > total:
        return Words(
            f"So many has {name} on line {place}: the total may count it twice, or a state as large is missing.",
            "See whether a state is missing; otherwise correct the total.",
        )
    return Words(
        f"So many has {name} on line {place}: the total may leave it out, or it may be there in two lines under two names.",
        "See whether that state belongs to the register; if so, correct the total.",
    )


def _whole_total(given: int, total: int) -> Found:
    """The sum taken twice, or cut, or with digits too many."""
    if given == 2 * total:
        return Words("It is twice the sum: it may have been added up together with a sum in the same column.", "Correct the total.")
    one, other = str(given), str(total)
    if other.startswith(one):
        return Words("It begins as the sum does: digits may be missing at its end.", "Compare the total with the source.")
    if one.startswith(other):
        return Words("It begins as the sum does: it may have digits too many at its end.", "Compare the total with the source.")
    return None


def _total_digits(given: int, total: int) -> Found:
    """One digit mistyped, or two exchanged."""
    one, other = str(given), str(total)
    if len(one) != len(other):
        return None
    places = [place for place in range(len(one)) if one[place] != other[place]]
    if len(places) == 1:
        return Words(
            f"The two differ in one digit, number {places[0] + 1}: it may be mistyped in the total or in a population.",
            "Compare the total and the populations with the source.",
        )
    first, last = places[0], places[-1]
    if last == first + 1 and one[first] == other[last] and one[last] == other[first]:
        return Words(f"Its digits number {first + 1} and {last + 1} may have been exchanged.", "Compare the total with the source.")
    return None


def _state_digits(states: States, given: int, total: int) -> Found:
    """Two neighbouring digits exchanged in a population: the difference can then be divided by 9."""
    gap = given - total
    # Two neighbouring digits of which one is larger by d, k places from the end, change the number by 9 times d times 10 to the k.
    if gap % 9 or len(str(abs(gap) // 9).rstrip("0")) != 1:
        return None
    places = [place for place, (_, population) in enumerate(states, start=2) if population + gap in _exchanged(population)]
    if len(places) == 1:
        name, population = states[places[0] - 2]
        return Words(
            f"It would be right with {population + gap:,} in place of {population:,} for {quoted(name)} on line {places[0]}: two digits "
            "may have been exchanged there.",
            "Compare that population with the source, and the others too.",
        )
    return Words(
        "The difference can be divided by 9, as it can where two neighbouring digits of a number were exchanged.",
        "Compare the populations and the total with the source, digit by digit.",
    )


def _exchanged(number: int) -> set[int]:
    """The numbers that an exchange of two neighbouring digits gives."""
    digits = str(number)
    return {int(digits[:at] + digits[at + 1] + digits[at] + digits[at + 2 :]) for at in range(len(digits) - 1)}


# ---- 15: fewer seats than states


def too_few_seats(file: File) -> Found:
    head = file.head
    # With a house as large as the states this is not about the register as it stands, but about a house that was asked for besides.
    if head is None or head.house >= head.states:
        return None
    wrong = f"The house has {several(head.house, 'seat', 'seats')} and the register {several(head.states, 'state', 'states')}, and"
    larger = f"Write a house of {head.states} or more on line 1"
    if head.method not in SEATS_FOR_ALL:
        return Words(f"{wrong} leximin, which is asked for here, gives each state a seat.", f"{larger}.")
    free = [word for word in METHODS if word not in SEATS_FOR_ALL]
    return Words(
        f"{wrong} {head.method} gives each state a seat.",
        f"{larger}, or a method that may leave a state without a seat: {', '.join(free[:-1])} or {free[-1]}.",
    )
