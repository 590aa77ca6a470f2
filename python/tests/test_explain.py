"""Leximin's work as data and in sentences: held to the library, to the stored text of the work, and to the rule reckoned with fractions."""

from __future__ import annotations

import itertools
import math
import random
import re
import subprocess
import tempfile
import time
import unittest
from fractions import Fraction
from pathlib import Path
from unittest import mock

import desk
from office import explain
from office.files import RefusedFile
from office.walk import Disagreement, _standing, size_order, walk

from .places import EXAMPLES, ROOT, example
from .test_compare import named, ran, register_of

WORK = ROOT / "crates" / "work"
PROGRAM = ROOT / "target" / "bin" / "work"


def size_of(register: desk.Register, place: int, seats: int) -> Fraction:
    """The size of a departure, exactly."""
    return abs(Fraction(register.populations[place] * register.house, seats * register.total) - 1)


def in_line(register: desk.Register, seats: list[int], gains: bool) -> list[tuple[int, str]]:
    """The states in the order in which the rule of README moves them, each with what decides between it and the next."""
    if not gains:
        able = [place for place, count in enumerate(seats) if count > 1]
        keys = [(size_of(register, place, seats[place] - 1), -size_of(register, place, seats[place]), -place) for place in able]
        return _parted(keys, ("smallest", "larger_now", "later"))
    now = [size_of(register, place, count) for place, count in enumerate(seats)]
    new = [size_of(register, place, count + 1) for place, count in enumerate(seats)]
    keys = [(1, new[place], -now[place], place) if new[place] > now[place] else (0, 0, 0, place) for place in range(len(seats))]
    return _parted(keys, ("level", "smallest", "larger_now", "earlier"))


def _parted(keys: list[tuple], reasons: tuple[str, ...]) -> list[tuple[int, str]]:
    keys = sorted(keys)
    parts = [next(reason for reason, one, other in zip(reasons, key, after) if one != other) for key, after in zip(keys, keys[1:])]
    return [(abs(key[-1]), reason) for key, reason in zip(keys, parts + ["only"])]


class TheWalk(unittest.TestCase):
    def follow(self, register: desk.Register):
        """Follows a walk step by step beside the rule, and holds its ends to allotting."""
        told = walk(register)
        seats = list(told.start)
        self.assertEqual(told.start, desk.Placing.open(register.populations, register.house).seats)
        self.assertEqual(told.start_total, sum(seats))
        for number, step in enumerate(told.steps, start=1):
            gains = sum(seats) < register.house
            by = 1 if gains else -1
            line = in_line(register, seats, gains)
            self.assertEqual((step.number, step.gains, step.place, step.reason), (number, gains, *line[0]), (register, number))
            self.assertEqual((step.seats_before, step.seats_after), (seats[step.place], seats[step.place] + by))
            self.assertEqual((step.before, step.after), self.two(register, step.place, seats, by))
            if len(line) == 1:
                self.assertEqual((step.runner_up, step.runner_up_seats, step.runner_up_before, step.runner_up_after), (None,) * 4)
            else:
                other = line[1][0]
                self.assertEqual((step.runner_up, step.runner_up_seats), (other, (seats[other], seats[other] + by)), (register, number))
                self.assertEqual((step.runner_up_before, step.runner_up_after), self.two(register, other, seats, by))
            new, now = size_of(register, step.place, step.seats_after), size_of(register, step.place, step.seats_before)
            self.assertEqual(step.level, gains and new <= now)
            self.assertEqual(step.nearer_now, self.nearer_now(register, seats, step, new, now), (register, number))
            seats[step.place] += by
            self.assertEqual(step.total_after, sum(seats))
        allotted = desk.allot("leximin", register.house, register.populations)
        self.assertEqual((told.end, len(told.steps)), (allotted.seats, allotted.steps))
        self.assertEqual(told.end, tuple(seats))
        for ends, departures in ((told.start, told.start_departures), (told.end, told.end_departures)):
            for place, departure in enumerate(departures):
                self.assertEqual(departure, desk.departure(register.populations[place], ends[place], register.total, register.house))
        return told

    def two(self, register: desk.Register, place: int, seats: list[int], by: int) -> tuple[desk.Departure, desk.Departure]:
        people = register.populations[place]
        return tuple(desk.departure(people, seats[place] + move, register.total, register.house) for move in (0, by))

    def nearer_now(self, register: desk.Register, seats: list[int], step, new: Fraction, now: Fraction) -> int | None:
        if step.level or step.reason not in ("earlier", "later"):
            return None
        by = 1 if step.gains else -1
        for place, count in enumerate(seats):
            if count + by > 0 and size_of(register, place, count + by) == new and size_of(register, place, count) < now:
                return place
        return None

    def test_every_small_register(self):
        reasons = set()
        for populations in itertools.product(range(1, 7), repeat=3):
            for house in range(3, 16):
                told = self.follow(register_of("leximin", house, populations))
                reasons |= {(step.reason, step.gains, step.level) for step in told.steps}
        # Each way to be first was met, so that each was held to the rule.
        self.assertEqual(
            reasons,
            {
                ("level", True, True),
                ("earlier", True, True),
                ("earlier", True, False),
                ("smallest", True, False),
                ("larger_now", True, False),
                ("smallest", False, False),
                ("larger_now", False, False),
                ("later", False, False),
                ("only", False, False),
            },
        )

    def test_random_registers_with_many_ties(self):
        chance = random.Random(21)
        for _ in range(250):
            few = [chance.randint(1, 12) for _ in range(chance.randint(1, 3))]
            populations = [chance.choice(few) * chance.choice((1, 1, 2, 3)) for _ in range(chance.randint(2, 14))]
            self.follow(register_of("leximin", chance.randint(len(populations), 5 * len(populations)), populations))

    def test_random_registers_at_the_limits(self):
        chance = random.Random(22)
        for _ in range(25):
            count = chance.randint(2, 60)
            populations = [chance.randint(1, desk.SUM_LIMIT // count) for _ in range(count)]
            self.follow(register_of("leximin", chance.choice((count, desk.HOUSE_LIMIT - 1, desk.HOUSE_LIMIT)), populations))

    def only_step(self, house: int, *populations: int):
        told = self.follow(register_of("leximin", house, populations))
        self.assertEqual(len(told.steps), 1)
        return told.steps[0]

    def test_a_seat_is_added_where_it_leaves_the_smallest_size(self):
        step = self.only_step(14, 69, 70, 150)
        self.assertEqual((step.place, step.reason, step.runner_up), (2, "smallest", 1))
        self.assertEqual((step.before.text, step.after.text), ("3.806", "-9.170"))
        self.assertEqual((step.runner_up_before.text, step.runner_up_after.text), ("13.033", "-15.225"))

    def test_a_seat_is_withdrawn_where_it_leaves_the_smallest_size(self):
        step = self.only_step(15, 69, 70, 150)
        self.assertEqual((step.gains, step.place, step.reason, step.runner_up), (False, 2, "smallest", 0))
        self.assertEqual((step.before.text, step.after.text), ("-2.682", "11.221"))
        self.assertEqual((step.runner_up_before.text, step.runner_up_after.text), ("-10.467", "19.377"))

    def test_ten_and_six_fives(self):
        # The state of 10 would end as far, but is nearer now; the first two fives are equal, and the earlier one has the seat.
        step = self.only_step(10, 10, 5, 5, 5, 5, 5, 5)
        self.assertEqual((step.place, step.reason, step.runner_up, step.nearer_now), (1, "earlier", 2, 0))

    def test_of_equal_new_sizes_the_larger_present_one(self):
        step = self.only_step(15, 5, 6, 6)
        self.assertEqual((step.gains, step.place, step.reason, step.runner_up), (True, 0, "larger_now", 1))
        self.assertEqual((step.before.text, step.runner_up_before.text), ("10.294", "5.882"))
        self.assertEqual((step.after, step.runner_up_after), (desk.Departure(-11765, desk.Mark.HIGH),) * 2)
        step = self.only_step(7, 1, 2, 2)
        self.assertEqual((step.gains, step.place, step.reason, step.runner_up), (False, 0, "larger_now", 2))

    def test_of_equal_states_the_later_gives_up_its_seat(self):
        step = self.only_step(3, 3, 3)
        self.assertEqual((step.gains, step.place, step.reason, step.runner_up), (False, 1, "later", 0))

    def test_a_last_seat_is_kept(self):
        step = self.only_step(2, 1, 1000)
        self.assertEqual((step.gains, step.place, step.reason, step.runner_up), (False, 1, "only", None))

    def test_a_state_that_stays_level_goes_first(self):
        step = self.only_step(10, 4, 13, 13)
        self.assertEqual((step.place, step.reason, step.level, step.runner_up), (0, "level", True, 1))
        # Of several the earliest, whatever their sizes: against an average of 15, that of 20 is a third, and that of 36 a fifth.
        for populations in ((20, 36, 19), (36, 20, 19)):
            step = self.only_step(5, *populations)
            self.assertEqual((step.place, step.reason, step.level, step.runner_up), (0, "earlier", True, 1))
        step = self.only_step(5, 19, 20, 36)
        self.assertEqual((step.place, step.reason, step.level, step.runner_up), (1, "earlier", True, 2))

    def test_equal_sizes_on_either_side_of_the_average(self):
        # Against an average of 7, 12 with two seats is as far below as 8 with one is above, and with a seat more they are equal again.
        step = self.only_step(12, 12, *[8] * 9)
        self.assertEqual((step.place, step.reason, step.runner_up), (0, "earlier", 1))
        self.assertEqual((step.before.text, step.runner_up_before.text), ("-14.286", "14.286"))

    def test_sizes_that_are_shown_alike_are_told_apart(self):
        # Register order would have taken the later one's seat.
        step = self.only_step(3, 1_000_000, 1_000_001)
        self.assertEqual((step.place, step.reason, step.after.text, step.runner_up_after.text), (0, "smallest", "50.000", "50.000"))

    def test_the_desk_and_the_rule_must_agree(self):
        class Misled:
            """A placing that moves the wrong state."""

            def __init__(self, *seats: int) -> None:
                self.all = list(seats)
                self.seats, self.total = self.all.pop(0), 13

            def advance(self, by: int) -> int:
                if not self.all:
                    return 0
                self.seats, self.total = self.all.pop(0), 14
                return 1

        register = register_of("leximin", 14, (69, 70, 150))
        for wrong in ((4, 3, 7), (3, 4, 7), (3, 3, 7), (3, 3, 9), (3, 3, 6), (4, 3, 8)):
            with mock.patch.object(desk.Placing, "open", lambda *_, wrong=wrong: Misled((3, 3, 7), wrong)):
                with self.assertRaises(Disagreement):
                    walk(register)
        with mock.patch.object(desk.Placing, "open", lambda *_: Misled((3, 3, 7), (3, 3, 8))):
            self.assertEqual(walk(register).end, (3, 3, 8))
        # The right state, and another with it.
        with mock.patch.object(desk.Placing, "open", lambda *_: Misled((7, 3, 3), (8, 4, 3))):
            with self.assertRaises(Disagreement):
                walk(register_of("leximin", 14, (150, 69, 70)))

    def test_sizes_are_ordered_exactly(self):
        chance = random.Random(23)
        for _ in range(300):
            house = chance.choice((chance.randint(2, 40), desk.HOUSE_LIMIT))
            populations = [chance.choice((chance.randint(1, 30), chance.randint(1, desk.SUM_LIMIT // 2))) for _ in range(2)]
            register = register_of("webster", house, populations)
            seats = [chance.choice((chance.randint(1, house), house, house - 1)) for _ in range(2)]
            exact = [size_of(register, place, seats[place]) for place in range(2)]
            whole = [size_order(register, place, seats[place]) for place in range(2)]
            self.assertEqual((exact[0] < exact[1], exact[0] == exact[1]), (whole[0] < whole[1], whole[0] == whole[1]), (register, seats))

    def test_states_below_their_nearest_seats(self):
        # No walk from the start meets them, but the order that the desk is proved to keep has them too: sizes that fall, the larger present
        # one first and then the smaller new one; then those that stay level; then those that rise.
        chance = random.Random(25)
        kinds = set()
        for _ in range(200):
            populations = [chance.randint(1, 8) for _ in range(chance.randint(2, 9))]
            register = register_of("webster", chance.randint(1, 30), populations)
            seats = [chance.randint(1, 5) for _ in populations]
            line = []
            for place, count in enumerate(seats):
                now, new = size_of(register, place, count), size_of(register, place, count + 1)
                line.append((0, -now, new, place) if new < now else (1, 0, 0, place) if new == now else (2, new, -now, place))
            kinds |= {key[0] for key in line}
            found = sorted(range(len(seats)), key=lambda place: _standing(register, True, place, seats[place]))
            self.assertEqual(found, [key[3] for key in sorted(line)])
        self.assertEqual(kinds, {0, 1, 2})

    def test_the_closest_sizes_are_told_apart(self):
        def apart(register: desk.Register, seats: tuple[int, int], by: Fraction):
            exact = [size_of(register, place, seats[place]) * register.total for place in range(2)]
            whole = [size_order(register, place, seats[place]) for place in range(2)]
            self.assertEqual(abs(exact[0] - exact[1]), by)
            self.assertEqual(exact[0] < exact[1], whole[0] < whole[1])
            self.assertNotEqual(*whole)

        # On one side of the average sizes differ by H / (a b) at least, before P.
        for times in range(1, 40):
            populations = (29_999 * times + 1, 30_000 * times + 1)
            apart(register_of("webster", 30_000, populations), (29_999, 30_000), Fraction(30_000, 29_999 * 30_000))
        # On either side they differ by 1 / (a b) at least, where H (p b + q a) and 2 a b P differ by 1.
        tried = 0
        for house, one, off in itertools.product((29_999, 29_989, 29_983), range(14_900, 14_990, 3), (1, -1)):
            other = one + 1
            if math.gcd(2 * one * other, house) != 1:
                continue
            tried += 1
            total = -off * pow(2 * one * other, -1, house) % house + 1000 * house
            both = (2 * one * other * total + off) // house
            first = both * pow(other, -1, one) % one + one * 1200
            second = (both - first * other) // one
            apart(register_of("webster", house, (first, second, total - first - second)), (one, other), Fraction(1, one * other))
        self.assertGreater(tried, 100)

    def test_refusals(self):
        with self.assertRaises(desk.Refused) as raised:
            walk(register_of("webster", 2, (5, 5, 5)))
        self.assertEqual(raised.exception.number, 15)

    def test_the_longest_walks_are_quick(self):
        began = time.monotonic()
        told = walk(desk.read(example("longest-walk.register")))
        self.assertEqual((len(told.steps), {step.reason for step in told.steps}), (799, {"only"}))
        # 800 equal states, each as near to one seat as to two: hundreds of steps among equals.
        told = walk(register_of("leximin", 1199, [3] * 800))
        self.assertEqual((len(told.steps), told.steps[-1].reason), (desk.allot("leximin", 1199, [3] * 800).steps, told.steps[0].reason))
        self.assertGreater(len(told.steps), 300)
        self.assertLess(time.monotonic() - began, 4)


class TheWorkText(unittest.TestCase):
    """The walk beside the text that the program `work` prints, which weighs every state before each step."""

    def hold(self, register: desk.Register, lines: list[str]):
        told = walk(register)
        lines = iter(lines)
        self.assertEqual(next(lines), f"work,leximin,{register.house},{len(register.names)}")
        self.blocks(register, "start", told.start, told.start_departures, told.start_total, lines)
        seats = list(told.start)
        for step in told.steps:
            weighed = [next(lines).split(",") for _ in register.names]
            self.weighed(register, step, seats, weighed)
            moved = "gains" if step.gains else "gives up"
            ends = f"{step.seats_before},{step.seats_after},{step.before.text},{step.after.text},{step.total_after}"
            self.assertEqual(next(lines), f"step,{step.number},{moved},{register.names[step.place]},{ends}")
            seats[step.place] = step.seats_after
        self.blocks(register, "end", told.end, told.end_departures, register.house, lines)
        self.assertEqual(list(lines), [])

    def blocks(self, register, word, seats, departures, total, lines):
        for name, people, count, departure in zip(register.names, register.populations, seats, departures):
            self.assertEqual(next(lines), f"{word},{name},{people},{count},{departure.text}")
        self.assertEqual(next(lines), f"total,{register.total},{total}")

    def weighed(self, register, step, seats, weighed):
        """The two states that a step tells of are as they were weighed, and by what is shown no other is before the second."""
        by = 1 if step.gains else -1
        told = {step.place: (step.before, step.after)}
        if step.runner_up is not None:
            told[step.runner_up] = (step.runner_up_before, step.runner_up_after)
        for place, (before, after) in told.items():
            row = [str(step.number), register.names[place], str(seats[place]), str(seats[place] + by), before.text, after.text]
            self.assertEqual(weighed[place], ["weighed", *row])
        others = [row for place, row in enumerate(weighed) if place not in told and (step.gains or row[3] != "1")]
        others = [abs(int(row[6].replace(".", ""))) for row in others if row[4] != "0"]
        if step.runner_up is None:
            self.assertEqual(others, [])
        elif step.runner_up_before.shown != -step.runner_up_after.shown:
            self.assertGreaterEqual(min(others, default=10**9), abs(step.runner_up_after.shown))

    def test_stored(self):
        text = (WORK / "stdout").read_text(encoding="ascii").splitlines()
        for name in (WORK / "args").read_text(encoding="ascii").split():
            data = (WORK / "data" / name).read_bytes()
            try:
                register = desk.read(data)
                walk(register)
            except desk.Refused as refused:
                self.assertEqual(text.pop(0), f"refused,{refused.number},{refused.line}")
                continue
            ends = [number for number, line in enumerate(text) if line.startswith("total,")][1] + 1
            self.hold(register, text[:ends])
            del text[:ends]
        self.assertEqual(text, [])

    @unittest.skipUnless(PROGRAM.exists(), "target/bin/work is not built")
    def test_program(self):
        chance = random.Random(24)
        stored = ("hungary-counties", "hungary-regions", "united-states", "united-states-hill", "five-states")
        registers = [example(f"{name}.register") for name in stored]
        for _ in range(25):
            populations = [chance.choice((chance.randint(1, 9), chance.randint(1, 400))) for _ in range(chance.randint(2, 30))]
            house = chance.randint(len(populations), 4 * len(populations))
            registers.append(desk.register_text("leximin", house, named(len(populations)), populations))
        for data in registers:
            printed = subprocess.run([PROGRAM], input=data, stdout=subprocess.PIPE, check=True).stdout
            self.hold(desk.read(data), printed.decode("ascii").splitlines())


class Sentences(unittest.TestCase):
    def told(self, house: int, *populations: int, method: str = "leximin") -> list[str]:
        register = register_of(method, house, populations)
        return explain.sentences(walk(register), register.names)

    def step(self, house: int, *populations: int) -> str:
        register = register_of("leximin", house, populations)
        told = walk(register)
        return explain.step_sentence(told, told.steps[0], register.names)

    def test_counties(self):
        register = desk.read(example("hungary-counties.register"))
        told = explain.sentences(walk(register), register.names)
        self.assertEqual(told[0], "This is how leximin allots a house of 106 seats to 20 states.")
        self.assertTrue(told[1].startswith("The average is 8,205,967 people to 106 seats. A state's departure"), told[1])
        self.assertIn("Above the average means more people a seat, and below it fewer.", told[1])
        self.assertIn("That makes 108 seats in all, 2 more than the house has, so 2 seats have to be given up.", told[2])
        self.assertEqual(
            told[3],
            "Pest gives up its 13th seat and keeps 12: it goes from 3.252 per cent below the average to 4.811 above it. "
            "No other state that has a seat to give up would end so near the average. "
            "The next in line was Budapest, which would have gone from 1.005 per cent above the average to 6.946 above it.",
        )
        self.assertTrue(told[4].startswith("Budapest gives up its 18th seat and keeps 17: "), told[4])
        self.assertEqual(
            told[5],
            "After 2 steps the house of 106 seats is reached. 18 states still have the seats that they started with. "
            "Tolna is furthest from the average: with 3 seats it is 15.283 per cent below it. "
            "Of the 20 states, 15 are up to 10 per cent from the average (marked in), 4 more than 10 and up to 15 (high), "
            "and 1 more than 15 (over).",
        )
        self.assertEqual(len(told), 6)

    def test_the_end_is_the_listings(self):
        for name in ("hungary-counties", "hungary-regions", "united-states", "five-states", "longest-walk"):
            register = desk.read(example(f"{name}.register"))
            rows = [line.split(",") for line in (EXAMPLES / f"{name}.listing").read_text(encoding="ascii").splitlines()[1:-1]]
            self.assertEqual(register.method, desk.Method.LEXIMIN)
            end = explain.end_sentences(walk(register), register.names)[-1]
            marks = [sum(row[4] == mark for row in rows) for mark in ("in", "high", "over")]
            self.assertEqual([0 if word == "none" else int(word) for word in re.findall(r"(none|\d+) (?:is up|are up|more)", end)], marks)
            worst = max(rows, key=lambda row: abs(float(row[3])))
            self.assertIn(f"{worst[3].lstrip('-')} per cent {'below' if worst[3][0] == '-' else 'above'} it", end)
            self.assertIn(worst[0], end)

    def test_each_reason(self):
        self.assertEqual(
            self.step(14, 69, 70, 150),
            "C gains a seat, its 8th: it goes from 3.806 per cent above the average to 9.170 below it. "
            "No other state with one seat more would end so near the average. "
            "The next in line was B, which would have gone from 13.033 per cent above the average to 15.225 below it.",
        )
        self.assertEqual(
            self.step(10, 4, 13, 13),
            "A gains a seat, its 2nd: it goes from 33.333 per cent above the average to 33.333 below it. "
            "A state that can take a seat without ending further from the average than it is goes first, and A can. "
            "The next in line was B, which would have gone from 8.333 per cent above the average to 13.333 below it.",
        )
        self.assertEqual(
            self.step(4, 1, 1, 1),
            "A gains a seat, its 2nd: it goes from 33.333 per cent above the average to 33.333 below it. "
            "A state that can take a seat without ending further from the average than it is goes first, and A can. "
            "The next in line was B, which would have gone from 33.333 per cent above the average to 33.333 below it: "
            "it can do so too, but stands later in the register.",
        )
        self.assertEqual(
            self.step(15, 5, 6, 6),
            "A gains a seat, its 5th: it goes from 10.294 per cent above the average to 11.765 below it. "
            "The next in line was B, which would have gone from 5.882 per cent above the average to 11.765 below it: "
            "exactly as far from it, but A, which is further from the average now, goes first.",
        )
        self.assertEqual(
            self.step(10, 10, 5, 5, 5, 5, 5, 5),
            "B gains a seat, its 2nd: it goes from 25.000 per cent above the average to 37.500 below it. "
            "The next in line was C, which would have gone from 25.000 per cent above the average to 37.500 below it. "
            "The two are exactly as far from the average as each other, now and afterwards; "
            "B, which stands earlier in the register, goes first. "
            "A would have ended exactly as far from it too, but is nearer to it now and so comes after them.",
        )
        self.assertEqual(
            self.step(3, 3, 3),
            "B gives up its 2nd seat and keeps 1: it goes from 25.000 per cent below the average to 50.000 above it. "
            "The next in line was A, which would have gone from 25.000 per cent below the average to 50.000 above it. "
            "The two are exactly as far from the average as each other, now and afterwards; "
            "B, which stands later in the register, gives up its seat.",
        )
        self.assertTrue(self.step(7, 1, 2, 2).endswith(", but A, which is further from the average now, gives up its seat."))
        self.assertTrue(self.step(2, 1, 1000).endswith("No other state has more than one seat, and each keeps its last."))
        self.assertTrue(self.step(3, 1_000_000, 1_000_001).endswith("to 50.000 above it, which is further by less than three digits show."))

    def test_numbers_of_steps_and_seats(self):
        start, end = self.told(3, 3, 3)[2], self.told(3, 3, 3)[-1]
        self.assertIn("That makes 4 seats in all, 1 more than the house has, so 1 seat has to be given up.", start)
        self.assertIn("After 1 step the house of 3 seats is reached. 1 state still has the seats that it started with.", end)
        self.assertIn("1 fewer than the house has, so 1 seat has to be added.", self.told(10, 4, 13, 13)[2])
        self.assertIn("which is the house: no step is needed.", self.told(3, 5, 5, 5)[2])
        self.assertNotIn("After", self.told(3, 5, 5, 5)[-1])
        self.assertIn("with 1 seat it is 0.000 per cent from it, and 2 other states are as far.", self.told(3, 5, 5, 5)[-1])
        self.assertIn("and 1 other state is as far.", self.told(2, 1, 1000)[-1])
        self.assertEqual(self.told(1, 7)[0], "This is how leximin allots a house of 1 seat to 1 state.")
        self.assertEqual(self.told(5, 7)[-1], "A, the only state, has every seat and is 0.000 per cent from the average.")

    def test_the_average_is_the_fraction_itself(self):
        for house, populations, told in (
            (10, (4, 13, 13), "30 people to 10 seats."),
            (2, (1, 1000), "1,001 people to 2 seats."),
            (1, (1,), "1 person to 1 seat."),
        ):
            self.assertIn(f"The average is {told}", self.told(house, *populations)[1])

    def test_another_method_is_named_first(self):
        told = self.told(14, 69, 70, 150, method="hill")
        self.assertEqual(told[0], "The register asks for hill; told here is how leximin would allot its house of 14 seats to its 3 states.")
        self.assertEqual(told[1:], self.told(14, 69, 70, 150)[1:])

    def test_ordinals(self):
        wanted = "1st 2nd 3rd 4th 10th 11th 12th 13th 14th 21st 22nd 23rd 100th 101st 111th 112th 113th 122nd 1,001st 1,011th"
        numbers = (1, 2, 3, 4, 10, 11, 12, 13, 14, 21, 22, 23, 100, 101, 111, 112, 113, 122, 1001, 1011)
        self.assertEqual([explain._ordinal(number) for number in numbers], wanted.split())


class TheCommand(unittest.TestCase):
    def test_counties(self):
        status, out, err = ran(explain, EXAMPLES / "hungary-counties.register")
        self.assertEqual((status, err), (0, ""))
        self.assertLessEqual(max(map(len, out.splitlines())), 100)
        register = desk.read(example("hungary-counties.register"))
        text = " ".join(out.split())
        for sentence in explain.sentences(walk(register), register.names):
            self.assertIn(sentence, text)
        self.assertEqual(re.findall(r"Step (\d+)\.", out), ["1", "2"])
        start = "Budapest 18 seats; Pest 13; Borsod-Abauj-Zemplen 7; Bacs-Kiskun, Hajdu-Bihar and Szabolcs-Szatmar-Bereg 6 each; "
        self.assertIn(f"The start: {start}", text)
        # The end names every state with its seats, which are the listing's.
        last = text.partition("The end: ")[2].rstrip(".").replace(" seats", "").replace(" each", "")
        found = {}
        for part in last.split("; "):
            states, _, seats = part.rpartition(" ")
            found.update({name: seats for name in re.split(", | and ", states)})
        listing = [line.split(",") for line in desk.listing(example("hungary-counties.register")).decode("ascii").splitlines()[1:-1]]
        self.assertEqual(found, {row[0]: row[2] for row in listing})

    def test_some_steps_only(self):
        path = EXAMPLES / "longest-walk.register"
        _, whole, _ = ran(explain, path)
        self.assertEqual(len(re.findall(r"(?m)^Step \d+\.", whole)), 799)
        status, out, err = ran(explain, path, "--steps", "3")
        self.assertEqual((status, err, re.findall(r"(?m)^Step (\d+)\.", out)), (0, "", ["1", "2", "3"]))
        self.assertIn("\nThe other 796 steps are left out here.\n", out)
        self.assertIn("\n799 steps are left out here.\n", ran(explain, path, "--steps", "0")[1])
        self.assertIn("\nThe other 1 step is left out here.\n", ran(explain, path, "--steps", "798")[1])
        for enough in ("799", "5000"):
            self.assertEqual(ran(explain, path, "--steps", enough)[1], whole)
        for wrong in ("-1", "x", "1.5", ""):
            status, out, err = ran(explain, path, f"--steps={wrong}")
            self.assertEqual((status, out), (2, ""))
            self.assertIn("is no number of steps", err)

    def test_names_as_people_write_them(self):
        with tempfile.TemporaryDirectory() as folder:
            path = Path(folder) / "two.register"
            path.write_bytes(b"register,leximin,3,2\nFejer,3\nGyor-Moson-Sopron,3\ntotal,6\n")
            (Path(folder) / "two.names").write_text("Fejer,Fejér\nGyor-Moson-Sopron,Győr-Moson-Sopron\n", encoding="utf-8")
            out = ran(explain, path)[1]
            self.assertIn("Győr-Moson-Sopron gives up its 2nd seat", out)
            self.assertIn("The next in line was Fejér", " ".join(out.split()))
            self.assertNotIn("Fejer", out)

    def test_a_refused_register(self):
        for data, refusal in ((b"register,webster,2,3\nA,5\nB,5\nC,5\ntotal,15\n", (15, 0)), (b"register,leximin,3,2\nA,3\n", (2, 3))):
            with tempfile.NamedTemporaryFile(suffix=".register") as file:
                file.write(data)
                file.flush()
                with self.assertRaises(RefusedFile) as raised:
                    ran(explain, file.name)
                self.assertEqual((raised.exception.number, raised.exception.line), refusal)
                self.assertEqual((raised.exception.path, raised.exception.data), (file.name, data))


if __name__ == "__main__":
    unittest.main()
