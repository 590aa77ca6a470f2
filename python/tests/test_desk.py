"""The Python module, held to the proved library's own cases, to the stored examples, and to the C header."""

from __future__ import annotations

import ctypes
import doctest
import re
import shutil
import subprocess
import tempfile
import unittest
from pathlib import Path

import desk
from desk import library, operations

from .places import EXAMPLES, HEADER, ROOT, example

CASES = ROOT / "crates" / "test_cases" / "stdin"


def written_out(text: str) -> str:
    """A case's text with its repetitions written out: ``{3:TEXT}`` is TEXT three times, where @ is the number of the time."""

    def repeated(match: re.Match) -> str:
        return "".join(match.group(2).replace("@", str(time)) for time in range(1, int(match.group(1)) + 1))

    return re.sub(r"\{(\d+):([^}]*)\}", repeated, text)


def register_bytes(text: str) -> bytes:
    """A case's register: some signs stand for bytes that a line cannot hold."""
    return text.translate({ord("/"): 10, ord("\\"): 13, ord("<"): 31, ord(">"): 127}).encode("latin-1")


def numbers(text: str) -> list[int]:
    return [int(word) for word in text.split()]


def cases(operation: str) -> list[tuple[str, list[str], list[str]]]:
    """The cases of an operation: what each is, its arguments, its answer."""
    found = []
    for line in CASES.read_text(encoding="ascii").splitlines():
        if line.startswith(operation + "|"):
            given, _, answer = line.partition("|")[2].rpartition("=")
            what, *arguments = given.split("|")
            found.append((what, [written_out(word) for word in arguments], [written_out(word) for word in answer.split("|")]))
    return found


def refusal_of(operation, *arguments) -> tuple[int, int]:
    """The number and the line of the refusal that a call raises, 0 and 0 if it raises none."""
    try:
        operation(*arguments)
    except desk.Refused as refused:
        return refused.number, refused.line
    return 0, 0


class CasesHold(unittest.TestCase):
    """Every case that the proved library is tested with, through Python."""

    def each(self, operation: str, at_least: int):
        found = cases(operation)
        self.assertGreaterEqual(len(found), at_least, "cases went missing")
        for what, arguments, answer in found:
            with self.subTest(operation=operation, case=what):
                yield arguments, answer

    def test_allot(self) -> None:
        for (method, house, populations, lent), (refusal, steps, seats) in self.each("allot", 90):
            if refusal == "14" or method not in [known.word for known in desk.METHODS]:
                continue  # Python lends a list of the right length, and takes no other word
            populations = numbers(populations)
            if refusal != "0":
                self.assertEqual(refusal_of(desk.allot, method, int(house), populations), (int(refusal), 0))
            else:
                self.assertEqual(desk.allot(method, int(house), populations), desk.Allotment(tuple(numbers(seats)), int(steps)))

    def test_read(self) -> None:
        for (register,), (refusal, line, method, house, states, total, populations) in self.each("read", 110):
            data = register_bytes(register)
            if refusal != "0":
                self.assertEqual(refusal_of(desk.read, data), (int(refusal), int(line)))
                continue
            read = desk.read(data)
            self.assertEqual((read.method.word, read.house, read.total), (method, int(house), int(total)))
            self.assertEqual(read.populations, tuple(numbers(populations)))
            self.assertEqual(len(read.names), int(states))
            self.assertEqual(desk.read(desk.register_text(read.method, read.house, read.names, read.populations)), read)

    def test_name(self) -> None:
        for (place, register), (refusal, line, name) in self.each("name", 10):
            data = register_bytes(register)
            self.assertEqual(refusal_of(desk.name, data, int(place)), (int(refusal), int(line)))
            if refusal == "0":
                self.assertEqual(desk.name(data, int(place)), name)

    def test_departure(self) -> None:
        for arguments, (answer,) in self.each("departure", 30):
            figures = [int(word) for word in arguments]
            if answer.startswith("refused,"):
                self.assertEqual(refusal_of(desk.departure, *figures), (int(answer.split(",")[1]), 0))
            else:
                departure = desk.departure(*figures)
                self.assertEqual(f"{departure.text},{departure.mark.word}", answer)

    def test_open(self) -> None:
        for (populations, house), (refusal, states, listed, _, seats, total, steps) in self.each("open", 8):
            populations = numbers(populations)
            self.assertEqual(refusal_of(desk.Placing.open, populations, int(house)), (int(refusal), 0))
            if refusal == "0":
                placing = desk.Placing.open(populations, int(house))
                self.assertEqual((placing.states, placing.total, placing.steps), (int(states), int(total), int(steps)))
                self.assertEqual((placing.populations, placing.seats), (tuple(numbers(listed)), tuple(numbers(seats))))

    def test_move(self) -> None:
        for (seats, *before), (refusal, moved, *after) in self.each("move", 40):
            placing = desk.Placing(placing_of(before))
            number, _ = refusal_of(placing.advance, 0)
            self.assertEqual(number, int(refusal))
            if refusal == "0":
                self.assertEqual(placing.advance(int(seats)), int(moved))
            self.assertEqual(bytes(placing._placing), bytes(placing_of(after)))

    def test_listing(self) -> None:
        for (_, register), (refusal, line, length, lent) in self.each("list", 8):
            data = register_bytes(register)
            if refusal == "31":
                continue  # Python lends room for every listing
            self.assertEqual(refusal_of(desk.listing, data), (int(refusal), int(line)))
            if refusal == "0":
                self.assertEqual(desk.listing(data), register_bytes(lent)[: int(length)])


def placing_of(parts: list[str]) -> library.Placing:
    """A placing as a case has it, genuine or not."""
    states, populations, house, seats, total, steps = parts
    placing = library.Placing(int(states), int(house), int(total), int(steps))
    for place, count in enumerate(numbers(populations)):
        placing.populations[place] = count
    for place, count in enumerate(numbers(seats)):
        placing.seats[place] = count
    return placing


class ExamplesHold(unittest.TestCase):
    """The stored listings, clean copies and seats of the example registers."""

    def stored(self, ending: str, answer) -> None:
        found = sorted(EXAMPLES.glob(f"*.{ending}"))
        self.assertGreaterEqual(len(found), 4)
        for expected in found:
            with self.subTest(example=expected.name):
                self.assertEqual(answer(expected.with_suffix(".register").read_bytes()), expected.read_bytes())

    def test_listings(self) -> None:
        self.stored("listing", lambda register: printed(desk.listing, register))

    def test_clean_copies(self) -> None:
        self.stored("clean", lambda register: printed(desk.clean, register))

    def test_seats(self) -> None:
        def seats(register: bytes) -> bytes:
            read = desk.read(register)
            allotted = desk.allot(read.method, read.house, read.populations).seats
            return "".join(f"{name},{count}\n" for name, count in zip(read.names, allotted)).encode()

        self.stored("seats", seats)


def printed(operation, register: bytes) -> bytes:
    """What the programs print: a text, or the refusal."""
    try:
        return operation(register)
    except desk.Refused as refused:
        return f"refused,{refused.number},{refused.line}\n".encode()


class RefusalsHold(unittest.TestCase):
    """The table of refusals says what the definitions name, no more and no less, and an exception carries it."""

    def test_the_numbers_and_names_are_the_definitions(self) -> None:
        text = (ROOT / "crates" / "apportionment" / "specs" / "Refusals.antt").read_text(encoding="utf-8")
        defined = {int(number): name.upper() for name, number in re.findall(r"^([a-z_]+) = (\d+)$", text, re.MULTILINE) if number != "0"}
        self.assertGreaterEqual(len(defined), 17)
        self.assertEqual({number: refusal.name for number, refusal in desk.REFUSALS.items()}, defined)

    def test_each_has_its_own_words(self) -> None:
        words = [refusal.wrong for refusal in desk.REFUSALS.values()]
        self.assertEqual(len(set(words)), len(words))
        for refusal in desk.REFUSALS.values():
            self.assertTrue(refusal.wrong and refusal.mend)
            self.assertFalse(refusal.wrong.endswith(".") or refusal.mend.endswith("."), "a clause that a sentence can go on after")

    def test_an_exception_carries_number_line_and_words(self) -> None:
        with self.assertRaises(desk.Refused) as caught:
            desk.read(example("false-total.register"))
        refused = caught.exception
        self.assertEqual((refused.number, refused.line, refused.name), (7, 7, "TOTAL_DIFFERS"))
        self.assertEqual(str(refused), f"refused 7 on line 7: {desk.REFUSALS[7].wrong}")
        with self.assertRaises(desk.Refused) as caught:
            desk.allot("hill", 2, [1, 1, 1])
        self.assertEqual(str(caught.exception), f"refused 15: {desk.REFUSALS[15].wrong}")

    def test_a_refusal_changes_nothing(self) -> None:
        placing = desk.Placing.open([69, 70, 150], 14)
        placing._placing.total += 1
        before = bytes(placing._placing)
        self.assertEqual(refusal_of(placing.advance, 1), (21, 0))
        self.assertEqual(bytes(placing._placing), before)


class OtherNumbers(unittest.TestCase):
    """Python's numbers have no end and no fixed kind."""

    def test_beyond_64_bits_is_beyond_every_limit(self) -> None:
        self.assertEqual(refusal_of(desk.allot, "hill", 2**64 + 5, [1, 2]), (11, 0))
        self.assertEqual(refusal_of(desk.allot, "hill", 5, [1, 2**64 + 1]), (13, 0))
        self.assertEqual(refusal_of(desk.departure, 2**64 + 11, 1, 20, 2), (30, 0))
        self.assertEqual(refusal_of(desk.name, example("five-states.register"), 2**64), (40, 0))
        placing = desk.Placing.open([1, 1, 1, 97], 4)
        self.assertEqual(placing.advance(2**64), 3)

    def test_below_zero_and_no_whole_numbers(self) -> None:
        with self.assertRaises(ValueError):
            desk.allot("hill", -1, [1, 2])
        for wrong in (2.0, "2", None, True):
            with self.assertRaises(TypeError):
                desk.allot("hill", wrong, [1, 2])
        with self.assertRaises(TypeError):
            desk.read("register,hill,1,1\nA,1\ntotal,1\n")
        with self.assertRaises(ValueError):
            desk.allot("borda", 3, [1, 2])

    def test_a_copy_is_its_own(self) -> None:
        placing = desk.Placing.open([1, 1, 1, 97], 4)
        other = placing.copy()
        other.advance(1)
        self.assertEqual((placing.steps, other.steps), (0, 1))


class HeaderHolds(unittest.TestCase):
    """The module is about the library that the C header describes."""

    def test_limits(self) -> None:
        header = HEADER.read_text(encoding="ascii")
        defined = dict(re.findall(r"^#define DESK_([A-Z_]+) (.+)$", header, re.MULTILINE))
        for name in ("STATES_LIMIT", "HOUSE_LIMIT", "SUM_LIMIT", "REGISTER_LIMIT", "SHOWN_SCALE", "LISTING_ROOM", "CLEAN_ROOM"):
            value = re.sub(r"UINT64_C\((\d+)\)", r"\1", defined[name]).replace("DESK_STATES_LIMIT", defined["STATES_LIMIT"])
            self.assertRegex(value, r"^[\d+* ()]+$")
            self.assertEqual(getattr(desk, name), eval(value), name)

    def test_methods_and_marks(self) -> None:
        header = HEADER.read_text(encoding="ascii")
        named = {name: int(number) for name, number in re.findall(r"^    DESK_([A-Z]+) = (\d+),?$", header, re.MULTILINE)}
        named.pop("ACCEPTED", None)
        expected = {method.name: int(method) for method in desk.METHODS}
        expected.update({mark.name: int(mark) for mark in desk.Mark})
        self.assertEqual(named, expected)

    def test_version(self) -> None:
        self.assertEqual(re.findall(r'^#define DESK_VERSION "(.+)"$', HEADER.read_text(encoding="ascii"), re.MULTILINE), [desk.__version__])

    @unittest.skipUnless(shutil.which("cc"), "left out: no C compiler is on this machine")
    def test_structs_lie_as_in_c(self) -> None:
        structs = {"reading": library.Reading, "allotted": library.Allotted, "placing": library.Placing, "placed": library.Placed}
        structs.update({"moved": library.Moved, "shown": library.Shown, "written": library.Written, "part": library.Part})
        lines = ['#include "desk.h"', "#include <stdio.h>", "int main(void) {"]
        expected = []
        for name, struct in structs.items():
            lines.append(f'printf("{name} %zu\\n", sizeof(desk_{name}));')
            expected.append(f"{name} {ctypes.sizeof(struct)}")
            for field, _ in struct._fields_:
                lines.append(f'printf("{name}.{field} %zu\\n", offsetof(desk_{name}, {field}));')
                expected.append(f"{name}.{field} {getattr(struct, field).offset}")
        with tempfile.TemporaryDirectory() as folder:
            source = Path(folder) / "layout.c"
            source.write_text("\n".join(lines + ["return 0; }", ""]))
            subprocess.run(["cc", "-std=c99", f"-I{HEADER.parent}", str(source), "-o", f"{folder}/layout"], check=True)
            out = subprocess.run([f"{folder}/layout"], check=True, capture_output=True, text=True).stdout
        self.assertEqual(out.split("\n")[:-1], expected)


class Documentation(unittest.TestCase):
    """The examples in the module's own documentation."""

    def test_examples(self) -> None:
        for module in (desk, operations):
            result = doctest.testmod(module)
            self.assertGreater(result.attempted, 0)
            self.assertEqual(result.failed, 0)


if __name__ == "__main__":
    unittest.main()
