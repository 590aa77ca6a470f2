"""`office explain`: leximin's work in sentences that can be read aloud."""

from __future__ import annotations

import argparse
import textwrap
from typing import Sequence

import desk

from . import files
from . import walk as walking
from .figures import grouped, size
from .names import add_names_argument, shown_names
from .walk import Step, Walk, size_order

SUMMARY = "leximin's work in sentences: the start, each step and why, the end"
DESCRIPTION = """\
Tells in sentences how leximin arrives at its seats: the start, each step with
the state that moves, why it is that one and which was next in line, and the
end. Leximin's work is told whatever method the register names.
"""
EXAMPLES = """\
examples:
  office explain counties.register
  office explain --steps 10 counties.register
"""
WIDTH = 100


def add_arguments(parser: argparse.ArgumentParser) -> None:
    parser.add_argument("file", metavar="FILE", help="a register; - is standard input")
    add_names_argument(parser)
    parser.add_argument("--steps", metavar="N", type=_steps, help="tell only the first N steps, and say how many are left out")


def _steps(word: str) -> int:
    if not (word.isascii() and word.isdigit()):
        raise argparse.ArgumentTypeError(f'"{word}" is no number of steps')
    return int(word)


def run(arguments: argparse.Namespace) -> int:
    data, register = files.read_register(arguments.file)
    shown = shown_names(arguments, arguments.file, register)
    try:
        told = walking.walk(register)
    except desk.Refused as refusal:
        raise files.refused(arguments.file, data, refusal) from None
    for number, paragraph in enumerate(_paragraphs(told, shown, arguments.steps)):
        if number > 0:
            print()
        print("\n".join(wrapped(paragraph)))
    return 0


def _paragraphs(walk: Walk, names: Sequence[str], most: int | None) -> list[str]:
    """The whole text: the sentences, with each state's seats at the start and at the end."""
    told = walk.steps if most is None else walk.steps[:most]
    left_out = len(walk.steps) - len(told)
    text = [*start_sentences(walk, names), f"The start: {seats_in_words(walk.start, names)}."]
    text += [f"Step {grouped(step.number)}. {step_sentence(walk, step, names)}" for step in told]
    if left_out:
        text.append(f"{'The other ' if told else ''}{counted(left_out, 'step')} {_are(left_out)} left out here.")
    text += end_sentences(walk, names)
    if walk.steps:
        text.append(f"The end: {seats_in_words(walk.end, names)}.")
    return text


def sentences(walk: Walk, names: Sequence[str]) -> list[str]:
    """The work in sentences: some about the start, one entry a step, and some about the end."""
    return start_sentences(walk, names) + [step_sentence(walk, step, names) for step in walk.steps] + end_sentences(walk, names)


def start_sentences(walk: Walk, names: Sequence[str]) -> list[str]:
    """What is asked, the average, what a departure is, and where the work starts."""
    register = walk.register
    house, states = counted(register.house, "seat"), counted(len(register.populations), "state")
    if register.method == desk.Method.LEXIMIN:
        asked = f"This is how leximin allots a house of {house} to {states}."
    else:
        asked = f"The register asks for {register.method.word}; told here is how leximin would allot its house of {house} to its {states}."
    return [
        asked,
        f"The average is {_people(register.total)} to {counted(register.house, 'seat')}. A state's departure is how far its own people a seat are from that average, in per cent of the average. "
        "Above the average means more people a seat, and below it fewer.",
        "At the start each state by itself has the seats that bring it nearest to the average, and at least one. "
        f"That makes {counted(walk.start_total, 'seat')} in all, {_way_to_house(walk)}",
    ]


def _way_to_house(walk: Walk) -> str:
    away = len(walk.steps)
    if away == 0:
        return "which is the house: no step is needed."
    seats, have = counted(away, "seat"), "has" if away == 1 else "have"
    if walk.start_total > walk.register.house:
        return (
            f"{grouped(away)} more than the house has, so {seats} {have} to be given up. "
            "Each time it is the state that ends nearest to the average without the seat; a state with one seat keeps it."
        )
    return (
        f"{grouped(away)} fewer than the house has, so {seats} {have} to be added. Each time the seat goes to a state that ends "
        "no further from the average than it was, if there is one, and otherwise to the state that ends nearest to it."
    )


def step_sentence(walk: Walk, step: Step, names: Sequence[str]) -> str:
    """One step: which state gains or gives up a seat, why, and which was next in line."""
    name = names[step.place]
    way = _from_to(step.before, step.after)
    if step.gains:
        moved = f"{name} gains a seat, its {_ordinal(step.seats_after)}: it goes {way}."
    else:
        moved = f"{name} gives up its {_ordinal(step.seats_before)} seat and keeps {grouped(step.seats_after)}: it goes {way}."
    return f"{moved} {_why(step, names)}"


def _why(step: Step, names: Sequence[str]) -> str:
    if step.reason == "only":
        # Any state can gain a seat, so this is about giving one up.
        return "No other state has more than one seat, and each keeps its last."
    name, other = names[step.place], names[step.runner_up]
    next_one = f"The next in line was {other}, which would have gone {_from_to(step.runner_up_before, step.runner_up_after)}"
    if step.level:
        level = f"A state that can take a seat without ending further from the average than it is goes first, and {name} can."
        return f"{level} {next_one}{'' if step.reason == 'level' else ': it can do so too, but stands later in the register'}."
    if step.reason == "smallest":
        alone = "with one seat more" if step.gains else "that has a seat to give up"
        return f"No other state {alone} would end so near the average. {next_one}{_by_little(step)}."
    goes = "goes first" if step.gains else "gives up its seat"
    if step.reason == "larger_now":
        return f"{next_one}: exactly as far from it, but {name}, which is further from the average now, {goes}."
    order = "earlier" if step.gains else "later"
    equal = "The two are exactly as far from the average as each other, now and afterwards"
    return f"{next_one}. {equal}; {name}, which stands {order} in the register, {goes}.{_passed_over(step, names)}"


def _by_little(step: Step) -> str:
    """What to add where the sizes of two departures are shown alike though they differ."""
    return "" if abs(step.after.shown) != abs(step.runner_up_after.shown) else ", which is further by less than three digits show"


def _passed_over(step: Step, names: Sequence[str]) -> str:
    if step.nearer_now is None:
        return ""
    return f" {names[step.nearer_now]} would have ended exactly as far from it too, but is nearer to it now and so comes after them."


def end_sentences(walk: Walk, names: Sequence[str]) -> list[str]:
    """What has been reached: who kept the seats of the start, the state furthest from the average, and how many states have each mark."""
    if len(walk.end) == 1:
        return [f"{names[0]}, the only state, has every seat and is {_away(walk.end_departures[0])}."]
    return [f"{_reached(walk)}{_furthest(walk, names)} {_marks(walk)}"]


def _reached(walk: Walk) -> str:
    if not walk.steps:
        return ""
    kept = sum(first == last for first, last in zip(walk.start, walk.end))
    keep = {0: "No state still has the seats that it", 1: "1 state still has the seats that it"}
    keep = keep.get(kept, f"{grouped(kept)} states still have the seats that they")
    house = counted(walk.register.house, "seat")
    return f"After {counted(len(walk.steps), 'step')} the house of {house} is reached. {keep} started with. "


def _furthest(walk: Walk, names: Sequence[str]) -> str:
    sizes = [size_order(walk.register, place, seats) for place, seats in enumerate(walk.end)]
    place, as_far = sizes.index(max(sizes)), sizes.count(max(sizes)) - 1
    departure = walk.end_departures[place]
    away = f"with {counted(walk.end[place], 'seat')} it is {size(departure.shown)} per cent {_side(departure)} it"
    if as_far == 0:
        return f"{names[place]} is furthest from the average: {away}."
    return f"No state is further from the average than {names[place]}: {away}, and {counted(as_far, 'other state')} {_are(as_far)} as far."


def _marks(walk: Walk) -> str:
    marks = [departure.mark for departure in walk.end_departures]
    within, high, over = (marks.count(mark) for mark in (desk.Mark.IN, desk.Mark.HIGH, desk.Mark.OVER))
    return (
        f"Of the {counted(len(marks), 'state')}, {_number(within)} {_are(within)} up to 10 per cent from the average (marked in), "
        f"{_number(high)} more than 10 and up to 15 (high), and {_number(over)} more than 15 (over)."
    )


def seats_in_words(seats: Sequence[int], names: Sequence[str]) -> str:
    """Each state's seats, the largest number first: "Pest 13 seats; Baranya and Zala 4 each"."""
    of: dict[int, list[str]] = {}
    for name, count in zip(names, seats):
        of.setdefault(count, []).append(name)
    first, *others = sorted(of, reverse=True)
    words = [f"{listed_names(of[first])} {counted(first, 'seat')}{_each(of[first])}"]
    words += [f"{listed_names(of[count])} {grouped(count)}{_each(of[count])}" for count in others]
    return "; ".join(words)


def _each(names: Sequence[str]) -> str:
    return "" if len(names) == 1 else " each"


def listed_names(names: Sequence[str], word: str = "and") -> str:
    """Names one after the other: "A, B and C"."""
    return names[0] if len(names) == 1 else f"{', '.join(names[:-1])} {word} {names[-1]}"


def wrapped(sentence: str) -> list[str]:
    """Text as lines. Names have hyphens in them, and are not parted there."""
    return textwrap.wrap(sentence, WIDTH, break_on_hyphens=False, break_long_words=False) or [""]


def _away(departure: desk.Departure) -> str:
    return f"{size(departure.shown)} per cent {_side(departure)} the average"


def _from_to(before: desk.Departure, after: desk.Departure) -> str:
    return f"from {_away(before)} to {size(after.shown)} {_side(after)} it"


def _side(departure: desk.Departure) -> str:
    # A departure that is shown as 0.000 has no side to tell: the exact one may lie on either.
    return "from" if departure.shown == 0 else "above" if departure.shown > 0 else "below"


def _ordinal(number: int) -> str:
    last = "th" if number // 10 % 10 == 1 else {1: "st", 2: "nd", 3: "rd"}.get(number % 10, "th")
    return f"{grouped(number)}{last}"


def counted(number: int, what: str) -> str:
    """So many of something: "1 seat", "1,000 seats"."""
    return f"{grouped(number)} {what}{'' if number == 1 else 's'}"


def _people(number: int) -> str:
    return "1 person" if number == 1 else f"{grouped(number)} people"


def _number(number: int) -> str:
    return grouped(number) if number else "none"


def _are(number: int) -> str:
    return "is" if number in (0, 1) else "are"
