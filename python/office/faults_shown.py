"""A file's bytes as people are shown them: each odd byte made visible, and what is too long cut."""

from __future__ import annotations

import re
import unicodedata
from typing import Iterator

# The most columns of a line that is shown, and of a piece of one in a sentence.
WIDTH = 100
PIECE = 40
TAB, RETURN, BLANK, CUT = "⇥", "␍", "␣", "…"
# The byte order mark that some programs put in front of UTF-8.
MARK = b"\xef\xbb\xbf"


def visible(text: bytes, width: int = WIDTH) -> str:
    """A line's bytes with each odd one made visible: what a register may not have, and blanks at the ends of a field.

    A line that is too wide is cut; of one whose first odd byte would be out of sight, the part around it is shown.

    >>> visible("Békés\\t,308471 ".encode())
    'Bé⟨C3 A9⟩ké⟨C3 A9⟩s⇥,308471␣'
    """
    odd = _ODD.search(text)
    first = 0
    if odd and odd.start() >= width - 2:
        # What stands before the first odd byte is plain, a column a byte.
        first = odd.start() - width // 3
        first += len(text[first:]) - len(text[first:].lstrip(b" "))
    # Each byte takes a column at least, so that no more than these are needed.
    cells = ([CUT] if first else []) + list(_cells(text[first : first + 2 * width]))
    if sum(map(len, cells)) <= width:
        return "".join(cells)
    while sum(map(len, cells)) > width - len(CUT):
        cells.pop()
    return "".join(cells) + CUT


# An odd byte, or a blank at an end of a field.
_ODD = re.compile(rb"[^ -~]|(?:^|,) | (?:,|$)")


def quoted(text: bytes) -> str:
    """A piece of the file as sentences have it, in quotes that it has not itself."""
    shown = visible(text, PIECE)
    return f"“{shown}”" if '"' in shown else f'"{shown}"'


def plain(text: bytes) -> str:
    """The same without quotes."""
    return visible(text, PIECE)


def letters(text: str) -> str:
    """The letters of a text that are beyond the plain ones, each once and the first four, with their bytes."""
    odd = list(dict.fromkeys(letter for letter in text if ord(letter) > 127))
    return ", ".join(shown_letter(letter, letter.encode("utf-8")) for letter in odd[:4]) + (f" {CUT}" if len(odd) > 4 else "")


def stray_bytes(text: bytes) -> list[int]:
    """The bytes beyond the plain ones that are no letter in UTF-8, each once."""
    return list(dict.fromkeys(_stray(letter) for letter in text.decode("utf-8", "surrogateescape") if _stray(letter)))


def _stray(letter: str) -> int:
    """The byte that a letter stands for where it was none in UTF-8, otherwise 0: Python decodes such a byte to a letter of its own."""
    return ord(letter) - 0xDC00 if 0xDC80 <= ord(letter) <= 0xDCFF else 0


def _cells(text: bytes) -> Iterator[str]:
    """What is shown for each letter, or for each byte that is none."""
    blanks = _outer_blanks(text)
    at = 0
    for letter in text.decode("utf-8", "surrogateescape"):
        encoded = letter.encode("utf-8", "surrogateescape")
        if letter == "\t":
            yield TAB
        elif letter == "\r":
            yield RETURN
        elif at in blanks:
            yield BLANK
        elif " " <= letter <= "~":
            yield letter
        else:
            yield shown_letter(letter, encoded)
        at += len(encoded)


def _outer_blanks(text: bytes) -> set[int]:
    """The places of blanks at either end of a field."""
    places: set[int] = set()
    start = 0
    for field in text.split(b","):
        left = len(field) - len(field.lstrip(b" "))
        right = len(field.rstrip(b" "))
        places.update(range(start, start + left))
        places.update(range(start + right, start + len(field)))
        start += len(field) + 1
    return places


def shown_letter(letter: str, encoded: bytes) -> str:
    """A letter with its bytes, or the bytes alone."""
    if encoded == MARK:
        return "⟨BOM⟩"
    shown = "⟨" + " ".join(f"{byte:02X}" for byte in encoded) + "⟩"
    # Blanks, marks without a letter and letters that run from right to left would make the line harder to read and not easier.
    if unicodedata.category(letter)[0] not in "LNPS" or unicodedata.bidirectional(letter) in ("R", "AL", "AN"):
        return shown
    return letter + shown
