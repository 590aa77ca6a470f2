"""A refused register by its lines, and the pieces that every sentence about it is made of."""

from __future__ import annotations

import re
from typing import Iterable, NamedTuple, Optional


class Words(NamedTuple):
    """What is wrong, and what to mend."""

    wrong: str
    mend: str


# A cause is looked for: its words, or None where the file has not got it.
Found = Optional[Words]


def joined(found: Iterable[Found]) -> Found:
    """Several causes on one line as one: the first, and the others after it."""
    causes = [words for words in found if words is not None]
    if not causes:
        return None
    wrong, mend = causes[0]
    for other in causes[1:]:
        wrong += " Also, " + other.wrong[:1].lower() + other.wrong[1:]
        if other.mend not in mend:
            mend += " " + other.mend
    return Words(wrong, mend)


def several(count: int, one: str, more: str) -> str:
    """`no lines`, `one line`, `2 lines`."""
    if count == 0:
        return f"no {more}"
    return f"one {one}" if count == 1 else f"{count:,} {more}"


# ---- lines


class Line(NamedTuple):
    """A line without its end, LF or CR LF, and whether it has one."""

    text: bytes
    ended: bool


class Head(NamedTuple):
    """What line 1 says."""

    method: str
    house: int
    states: int

    @property
    def counted(self) -> str:
        return f"line 1 counts {several(self.states, 'state', 'states')}"


class File:
    """A refused register's bytes, by lines, as far as the sentences need them."""

    def __init__(self, data: bytes) -> None:
        self.data = data
        pieces = data.split(b"\n")
        self.lines = [Line(piece[:-1] if piece.endswith(b"\r") else piece, True) for piece in pieces[:-1]]
        if pieces[-1]:
            self.lines.append(Line(pieces[-1], False))

    def line(self, number: int) -> Line | None:
        """The line with a number counted from 1, None where the file has none."""
        return self.lines[number - 1] if 1 <= number <= len(self.lines) else None

    @property
    def head(self) -> Head | None:
        """What line 1 says, if its four fields can be read."""
        fields = self.lines[0].text.split(b",") if self.lines else []
        if len(fields) != 4 or not all(is_number(field) for field in fields[2:]):
            return None
        return Head(fields[1].decode("latin-1"), int(fields[2]), int(fields[3]))

    def states_before(self, number: int) -> list[tuple[bytes, int]]:
        """The names and populations on the lines from 2 up to a line, that line not among them; only lines of a state's form."""
        states = []
        for line in self.lines[1 : number - 1]:
            name, comma, digits = line.text.partition(b",")
            if comma and is_number(digits):
                states.append((name, int(digits)))
        return states

    def sum_before(self, number: int) -> int:
        """What the populations before a line add up to."""
        return sum(population for _, population in self.states_before(number))

    def closing_after(self, number: int) -> int | None:
        """The number of the first line after a line that begins as a closing line does, with `total` if one does."""
        later = range(number + 1, len(self.lines) + 1)
        words = {place: first_part(self.lines[place - 1].text) for place in later}
        exact = (place for place in later if words[place].lower() == b"total")
        return next(exact, None) or next((place for place in later if is_total_word(words[place])), None)


# ---- fields


def is_number(field: bytes) -> bool:
    """Of a number's form: 1 to 10 digits."""
    return re.fullmatch(rb"[0-9]{1,10}", field) is not None


def is_digits(field: bytes) -> bool:
    """Digits, however many."""
    return re.fullmatch(rb"[0-9]+", field) is not None


def has_digit(field: bytes) -> bool:
    return re.search(rb"[0-9]", field) is not None


# Signs that part fields in other files than registers: one of them, and several.
PARTING = {b";": ("a semicolon", "semicolons"), b"\t": ("a tab", "tabs"), b"|": ("a vertical bar", "vertical bars")}


def parts(text: bytes) -> list[bytes]:
    """A line's fields, whichever of the usual signs parts them."""
    return re.split(rb"[,;\t|]", text)


def first_part(text: bytes) -> bytes:
    return parts(text)[0]


def is_note(text: bytes) -> bool:
    """Begins as notes do, and has no number as its second field."""
    return text.startswith((b"#", b"//")) and not re.search(rb",[ \"']*[0-9]", text)


# What tables have in front of their sum, in small letters: English, and the words of neighbours.
_TOTAL_WORDS = frozenset(
    """total totals sum subtotal grand-total grandtotal altogether összesen osszesen mindösszesen mindosszesen összeg osszeg summe gesamt
    insgesamt somme totale totaal suma razem ogółem celkem spolu ukupno skupaj summa yhteensä kokku""".split()
)


def is_total_word(field: bytes) -> bool:
    """A word that tables have in front of their sum, whatever its letters and what stands around it."""
    return decoded(field).strip(" \t\"':.").lower().replace(" ", "-") in _TOTAL_WORDS


def decoded(text: bytes) -> str:
    """Text for comparing with words: in UTF-8, or else in the code page that files of Central Europe have."""
    try:
        return text.decode("utf-8")
    except UnicodeDecodeError:
        return text.decode("cp1250", "replace")
