"""What is wrong with a refused register, in words that an official can read.

The number and the line of a refusal are the proved library's, and nothing here changes them. The bytes are looked at only to find words:
where a cause is recognised its own sentence is given, and otherwise the general one of the refusal. A file is never read as something else,
and a figure that a sentence names is the file's own.

Where each line of a register is due follows from its first one, which is right whenever a later line is refused: line 1 is the head, the
states stand on lines 2 to n + 1, the closing line is n + 2, and nothing follows.
"""

from __future__ import annotations

import sys
from dataclasses import dataclass
from typing import Sequence

import desk

from .faults_head import head_words, too_long, unknown_method
from .faults_lines import after_words, closing_words, state_words
from .faults_shown import visible
from .faults_sums import outside, sum_too_large, too_few_seats, total_differs, used_name
from .faults_text import File, Found, Words


@dataclass(frozen=True)
class Fault:
    """A refusal in words: the line, counted from 1 (0 for none), what stands there with odd bytes made visible, what is wrong, what to
    mend."""

    line: int
    shown: str | None
    wrong: str
    mend: str


def fault_of(data: bytes, number: int, line: int) -> Fault:
    """The refusal of a register's bytes in words. The number and the line are the library's answer for these bytes."""
    file = File(data)
    try:
        words = diagnosis(file, number, line)
    except Exception:
        # Words are all that can fail here, and the general ones are true of every file with that refusal.
        words = None
    wrong, mend = words or general(number)
    return Fault(line, shown_line(file, line), wrong, mend)


def general(number: int) -> Words:
    """The general sentences of a refusal, the same for every file."""
    refused = desk.Refused(number)
    return Words(_sentence(refused.wrong), _sentence(refused.mend))


def _sentence(clause: str) -> str:
    return clause[:1].upper() + clause[1:] + "."


def shown_line(file: File, number: int) -> str | None:
    """A line as it is shown; None where a refusal names no line."""
    if number == 0:
        return None
    line = file.line(number)
    if line is None:
        return "⟨end of file⟩"
    if not line.text:
        return "⟨empty⟩"
    return visible(line.text) + ("" if line.ended else "⟨end of file⟩")


def diagnosis(file: File, number: int, line: int) -> Found:
    """The words of a cause that is recognised, None where there is none."""
    if number == 1:
        return too_long(file)
    if number == 2:
        return _ill_formed(file, line)
    if number == 3:
        return outside(file, line)
    if number == 4:
        return unknown_method(file)
    if number == 5:
        return used_name(file, line)
    if number == 6:
        return sum_too_large(file, line)
    if number == 7:
        return total_differs(file, line)
    if number == 15:
        return too_few_seats(file)
    return None


def _ill_formed(file: File, line: int) -> Found:
    if line == 1:
        return head_words(file)
    head = file.head
    if head is None:
        return None
    if line <= head.states + 1:
        return state_words(file, head, line)
    if line == head.states + 2:
        return closing_words(file, head, line)
    return after_words(file, line)


# ---- telling


def told(path: str, data: bytes, number: int, line: int) -> str:
    """What is told of a refused file: where, the line at fault, what is wrong and what to mend."""
    fault = fault_of(data, number, line)
    name = "standard input" if path == "-" else _printable(path)
    place = f", line {line}" if line else ""
    lines = [f"{name}{place}: refused, number {number}"]
    if fault.shown is not None:
        lines.append(f"{line:>5} | {fault.shown}")
    lines += [f"Wrong: {fault.wrong}", f"Mend:  {fault.mend}"]
    return "".join(one + "\n" for one in lines)


def _printable(path: str) -> str:
    """A path without signs that a terminal would take for orders."""
    text = path.encode("utf-8", "surrogateescape").decode("utf-8", "replace")
    return "".join(letter if letter.isprintable() else "?" for letter in text)


def tell(refused: desk.Refused, out=None) -> None:
    """Tells a refusal on standard error: of a file with the line at fault, and otherwise in the general words."""
    path, data = getattr(refused, "path", None), getattr(refused, "data", None)
    if path is None or data is None:
        words = general(refused.number)
        text = f"refused, number {refused.number}\nWrong: {words.wrong}\nMend:  {words.mend}\n"
    else:
        text = told(path, data, refused.number, refused.line)
    print(text, end="", file=sys.stderr if out is None else out)


def main(words: Sequence[str]) -> int:
    """`NUMBER LINE FILE NAME`: tells on standard error what is wrong in a file that the program `allotment` has refused, under the name
    that people know it by. The library is not asked, so that the program's own answer is told where only the program is built."""
    number, line, path, name = words
    with open(path, "rb") as file:
        data = file.read(desk.REGISTER_LIMIT + 1)
    sys.stderr.reconfigure(encoding="utf-8", newline="\n")
    sys.stderr.write(told(name, data, int(number), int(line)))
    return 0


if __name__ == "__main__":
    sys.exit(main(sys.argv[1:]))
