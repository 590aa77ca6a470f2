"""What can be wrong with a state's line, with the closing line, and with what follows it."""

from __future__ import annotations

import re

from .faults_fields import CLOSING, STATE, line_bytes, pair_words
from .faults_shown import MARK, quoted
from .faults_text import File, Found, Head, Words, first_part, is_note, is_number, is_total_word, joined, several

CLOSING_DUE = "where the closing line is due"
_WHOLE_FILE = "Take the whole file from where it came from again."


def _due(line: int) -> str:
    return f"where the line of state {line - 1} is due"


# ---- a state's line


def state_words(file: File, head: Head, line: int) -> Found:
    found = file.line(line)
    if found is None:
        return _missing(file, head, line)
    text = found.text
    early = _empty(file, head, line, _due(line)) or line_bytes(text)
    if early:
        return early
    if not found.ended:
        return _unended(file, head, line)
    if text.startswith(b"register,"):
        return Words(
            f"A second head stands {_due(line)}: the register above it was cut short, or the count of {head.states} on line 1 is too high.",
            "Put each register into a file of its own, whole.",
        )
    if is_note(text):
        return Words(f"A note stands {_due(line)}, {quoted(text)}, and a register has none.", "Delete the line.")
    if is_total_word(_word(text)) and file.closing_after(line) is None:
        return joined([_too_high(head, line), _of_closing(file, line)])
    return pair_words(file, text, line, STATE)


def _too_high(head: Head, closing: int) -> Words:
    """The count on line 1 is larger than the lines before the closing one."""
    there = closing - 2
    if there == 0:
        return Words(f"The states are missing: {head.counted}, and the closing line follows at once.", "Add the states, a line each.")
    stand = several(there, "line stands", "lines stand")
    return Words(
        f"The count of states is too high: {head.counted}, and {stand} between it and the closing line, line {closing}.",
        f"Write {there} as the count, if no state is missing.",
    )


def _empty(file: File, head: Head, line: int, due: str) -> Found:
    """An empty line, or one that looks empty."""
    text = file.line(line).text
    follows = any(other.text.strip() for other in file.lines[line:])
    if not text and follows:
        return Words(f"An empty line stands {due}.", "Delete the empty line.")
    if not text and line > 2 and is_total_word(first_part(file.lines[line - 2].text)):
        nothing = Words("Nothing may follow the closing line, an empty line neither.", "Delete the empty line.")
        return joined([_too_high(head, line - 1), nothing])
    if not text:
        return Words(
            f"An empty line stands {due}, and nothing follows it: lines are missing, or the count on line 1 is too high.",
            "Put in what is missing, or correct the count, and delete the empty line.",
        )
    if not text.strip(b" \t"):
        return Words(f"A line that only looks empty stands {due}: it has blanks or tabs.", "Delete the whole line.")
    if not text.strip(b",; \t"):
        return Words(f"A line of nothing but {_nothing_but(text)} stands {due}, an empty row of a table.", "Delete the line.")
    return None


def _nothing_but(text: bytes) -> str:
    return "commas" if b"," in text else "semicolons"


def _unended(file: File, head: Head, line: int) -> Words:
    """The file ends in the middle of a line, or just before its line end."""
    text = file.line(line).text
    if line == head.states + 2 and re.fullmatch(rb"total,[0-9]{1,10}", text):
        return Words(
            "The closing line has no line end, so that nobody can tell whether the file was cut there.",
            f"If the total is whole, press Enter after it and save; otherwise, {_WHOLE_FILE[:1].lower()}{_WHOLE_FILE[1:]}",
        )
    if line == head.states + 2:
        return Words(f"The file ends in line {line}, without a line end, {CLOSING_DUE}: it was cut short.", _WHOLE_FILE)
    if is_total_word(first_part(text)):
        return joined([_too_high(head, line), Words("The closing line has no line end.", "Press Enter after the total.")])
    lacking = several(head.states + 2 - line, "line", "lines")
    return Words(f"The file ends in line {line}, without a line end, and {lacking} should follow: it was cut short.", _WHOLE_FILE)


def _missing(file: File, head: Head, line: int) -> Words:
    """The file ends where a state's line or the closing line is due."""
    if line > 2 and is_total_word(first_part(file.lines[-1].text)):
        return _too_high(head, line - 1)
    if line == head.states + 2:
        return Words(
            f"The closing line is missing: the file ends after line {line - 1}, and {head.counted}.",
            "Add the line total,SUM with the sum of the populations, and see that nothing else is missing.",
        )
    if line == 2:
        return Words(
            f"The file ends after its first line: {head.counted}, and none is there.", "Add the states, a line each, and the closing line."
        )
    there = several(line - 2, "is", "are")
    return Words(
        f"The file ends too early: {head.counted}, {there} there, and no closing line. It was cut short, or the count is too high.",
        f"{_WHOLE_FILE[:-1]}, or correct the count and add the closing line.",
    )


# ---- the closing line


def closing_words(file: File, head: Head, line: int) -> Found:
    found = file.line(line)
    if found is None:
        return _missing(file, head, line)
    text = found.text
    early = _empty(file, head, line, CLOSING_DUE) or line_bytes(text)
    if early:
        return early
    if not found.ended:
        return _unended(file, head, line)
    if not is_total_word(_word(text)):
        more = _too_low(file, head, line)
        if more:
            return more
    return _of_closing(file, line)


def _word(text: bytes) -> bytes:
    """What stands before the first comma, or before another sign where there is none."""
    return text.split(b",")[0] if b"," in text else first_part(text)


def _of_closing(file: File, line: int) -> Found:
    """What is wrong with the closing line itself: its word, and what follows it."""
    text = file.line(line).text
    word = _word(text)
    rest = pair_words(file, text, line, CLOSING)
    if word == b"total":
        return rest
    if is_total_word(word):
        return joined([_other_word(word), rest])
    if rest is None and int(text.partition(b",")[2]) == file.sum_before(line):
        return Words(f'This line has what the populations add up to, but begins with {quoted(word)} instead of "total".', 'Write "total".')
    return Words(f'The closing line is due here, and begins with "total"; this line begins with {quoted(word)}.', "Write it as total,SUM.")


def _too_low(file: File, head: Head, line: int) -> Found:
    """A line stands in the closing line's place that is none, and others may follow."""
    closing = file.closing_after(line)
    if closing is not None:
        there = closing - 2
        return Words(
            f"The count of states is too low: {head.counted}, and {there} lines stand between it and the closing line, line {closing}.",
            f"Write {there} as the count, if none of these lines is too many.",
        )
    name, comma, digits = file.line(line).text.partition(b",")
    if not comma or not is_number(digits) or int(digits) == file.sum_before(line):
        return None
    if len(file.lines) == line:
        return Words(
            f'The last line, of {quoted(name)}, stands {CLOSING_DUE}: {head.counted}, and no line begins with "total".',
            "If it is a state's, add 1 to the count, and a line total,SUM; if it is the sum, write total in place of the name.",
        )
    return Words(
        f"The count of states is too low, or the closing line is missing: {head.counted}, {len(file.lines) - 1} lines follow, and none "
        'begins with "total".',
        "Correct the count, and end the register with the line total,SUM.",
    )


def _other_word(word: bytes) -> Words:
    """The closing line begins with a word that means its total, and is not `total` as it is written."""
    bare = word.strip(b" \t\"'")
    if word.strip(b" ") == b"total":
        return Words(f'A blank stands beside the word "total" on the closing line: {quoted(word)}.', "Delete the blank.")
    if bare == b"total":
        return Words(f'The word "total" on the closing line has quotes or a tab beside it: {quoted(word)}.', "Delete them.")
    if bare.lower() == b"total":
        return Words(f"The closing line begins with {quoted(word)}, and that word has to be in small letters.", 'Write "total".')
    return Words(f'The closing line begins with {quoted(word)}, and the word there has to be "total".', 'Write "total".')


# ---- after the closing line


def after_words(file: File, line: int) -> Found:
    """Something follows the closing line."""
    lines = file.lines[line - 1 :]
    if not lines:
        return None
    first, rest = lines[0].text, b"\n".join(later.text for later in lines)
    mend = f"Delete everything after line {line - 1}, the closing line."
    if not any(later.text for later in lines):
        many = "An empty line follows" if len(lines) == 1 else f"{len(lines):,} empty lines follow"
        return Words(f"{many} the closing line, and nothing may.", mend)
    kinds = (
        (b"\r\n", "Carriage returns follow the closing line, and nothing may."),
        (b" \t\r\n", "Blanks or tabs follow the closing line, and nothing may."),
        (b"\x1a \r\n", "After the closing line stands the sign by which DOS ended files (control-Z)."),
        (b"\0 \r\n", f"NUL bytes follow the closing line, {rest.count(0):,} of them, as where a copy was filled up."),
        (b",; \t\r\n", f"Lines of nothing but {_nothing_but(rest)} follow the closing line, empty rows of a table."),
    )
    for signs, wrong in kinds:
        if not rest.strip(signs):
            return Words(wrong, mend)
    if first.startswith((b"register,", MARK + b"register,")):
        return Words(f"A second register begins on line {line}, after the first one's end.", "Put each register into a file of its own.")
    fields = first.split(b",")
    if len(fields) == 2 and is_total_word(fields[0]):
        return Words("A second closing line follows the first.", "Keep the right one of the two, and delete the other.")
    if len(fields) == 2 and fields[0].strip() and is_number(fields[1].strip()):
        return Words(
            f"What looks like a state's line follows the closing line: {quoted(first)}.",
            "If the state belongs to the register, put it before the closing line, and add it to count and total; otherwise delete it.",
        )
    if is_note(first):
        return Words(f"A note follows the closing line, {quoted(first)}, and a register has none.", mend)
    return Words(f"Something follows the closing line: {quoted(first)}.", mend)
