"""Reading what spreadsheets export: bytes to rows, rows to columns, cells to numbers and names.

Nothing is guessed. Where a file can be read in two ways, or in none, `CannotMake` says the row, the column, what stands there, and what to
do.
"""

from __future__ import annotations

import codecs
import csv
import io
import re
import unicodedata
from collections import Counter
from dataclasses import dataclass
from typing import Iterable, Sequence

import desk

from .figures import grouped

DELIMITERS = {"comma": ",", "semicolon": ";", "tab": "\t"}
# Thousands marks that decimals have too.
DECIMALS = {"comma": ",", "dot": "."}
_THOUSANDS = ",. \u00a0\u202f'’_"
_BLANKS = "".join(map(chr, (0x20, 0xA0, 0x1680, *range(0x2000, 0x200B), 0x202F, 0x205F, 0x3000)))
_BLANK_RUN = re.compile(f"[{_BLANKS}]+")
_LINE_END = re.compile("\r\n|\r|\n")
_SEP = re.compile(r'"?sep=([^"\r\n])"?[,;\t]*(?=\r|\n|\Z)', re.IGNORECASE)
_WHOLE = re.compile("[0-9]+")
# A first group that begins with 0 would let 0.123 pass for 123.
_GROUPED = re.compile(f"[1-9][0-9]{{0,2}}([{_THOUSANDS}])[0-9]{{3}}(?:\\1[0-9]{{3}})*")
# What was meant as a number, whole or not: such a cell is never taken for a heading, a name or a note.
_FIGURE = re.compile(f"[-+−]?[0-9](?:[0-9{_THOUSANDS}]*[0-9])?(?:[eE][-+]?[0-9]+)?[{_BLANKS}]*%?")
_YEAR = re.compile("1[89][0-9][0-9]|20[0-9][0-9]|2100")
_NO_FIGURE = frozenset("na nd nan nil none null x tbd missing unknown".split())
_ERRORS = ("#", "Err:")
_BY_ROWS = "--rows FIRST-LAST"


class CannotMake(Exception):
    """No register can be made of the file. The message says where the fault is, what stands there, and what to do."""

    def __init__(self, what: str, row: int = 0, column: int | None = None, path: str = "") -> None:
        super().__init__(what)
        self.what, self.row, self.column, self.path = what, row, column, path

    def __str__(self) -> str:
        row = f"row {self.row}" if self.row else ""
        column = "" if self.column is None else f"column {letter(self.column)}"
        place = ", ".join(part for part in (self.path, row, column) if part)
        return f"{place}: {self.what}" if place else self.what


@dataclass(frozen=True)
class Asked:
    """What the user has settled beforehand; None leaves it to the file."""

    encoding: str | None = None
    delimiter: str | None = None
    name_column: str | None = None
    population_column: str | None = None
    thousands: str | None = None
    total_row: str | None = None
    rows: tuple[int, int | None] | None = None


@dataclass(frozen=True)
class Row:
    """A row with the number that a spreadsheet shows for it, its cells as they came, and without blanks at their ends."""

    number: int
    raw: tuple[str, ...]
    cells: tuple[str, ...]

    def cell(self, column: int) -> str:
        """What stands in a column: nothing, beyond the last one."""
        return self.cells[column] if column < len(self.cells) else ""

    @property
    def filled(self) -> list[int]:
        """The columns in which something stands."""
        return [column for column, cell in enumerate(self.cells) if cell]


@dataclass(frozen=True)
class State:
    """A state: its row, its name as the spreadsheet has it and as the register has it, and its population."""

    row: int
    written: str
    name: str
    population: int


def states_of(data: bytes, asked: Asked) -> tuple[list[State], list[str]]:
    """The states in an export, and remarks: how it was read, what was left out and why, what was changed."""
    text, remarks = decode(data, asked.encoding)
    if re.match("register,[a-z]+,[0-9]+,[0-9]+\r?\n", text):
        raise CannotMake("this is a register already: give it to the other commands as it is")
    rows, mark = read_rows(text, asked)
    remarks[-1] += f", parted by {_word(mark)}s"
    sheet = Sheet(rows, asked)
    population = population_column(sheet)
    name = name_column(sheet, population)
    kept, numbers, left_out = sort_out(sheet, name, population)
    names, changed = plain_names(kept, name)
    states = [State(row.number, single_blanks(row.cell(name)), *made) for row, *made in zip(kept, names, numbers)]
    return states, [*remarks, sheet.taken(name, population), *left_out, *changed]


# Words for messages


def letter(column: int) -> str:
    """A column's letter as spreadsheets have it: 0 is A, 26 is AA."""
    before, rest = divmod(column, 26)
    return (letter(before - 1) if before else "") + chr(ord("A") + rest)


def quoted(text: str) -> str:
    """Content for a message: in quotes, on one line, odd characters by their number, cut after 40."""
    shown = "".join(char if char.isprintable() else f"<U+{ord(char):04X}>" for char in text[:40])
    return f'"{shown}{"..." if len(text) > 40 else ""}"'


def some(words: Sequence[str]) -> str:
    """At most ten of these words, and how many more there are."""
    more = f" and {len(words) - 10} more" if len(words) > 10 else ""
    return ", ".join(words[:10]) + more


def rows_named(rows: Sequence[Row]) -> str:
    """Rows for a message: `row 3`, `rows 3 to 5`, `rows 3, 5, 9`."""
    numbers = [row.number for row in rows]
    if len(numbers) > 2 and numbers[-1] - numbers[0] == len(numbers) - 1:
        return f"rows {numbers[0]} to {numbers[-1]}"
    return f"row{'s' if len(numbers) > 1 else ''} {some([str(number) for number in numbers])}"


def _word(mark: str) -> str:
    return next(word for word, known in DELIMITERS.items() if known == mark)


# Bytes to text


def decode(data: bytes, encoding: str | None) -> tuple[str, list[str]]:
    """The file's text, by its byte order mark, the encoding asked for, or else as UTF-8, and remarks on how it was read."""
    if not data:
        raise CannotMake("the file is empty")
    if data.startswith((b"PK\x03\x04", b"\xd0\xcf\x11\xe0")):
        raise CannotMake("this is a workbook itself: in the spreadsheet save the sheet as CSV UTF-8, and give that file")
    utf8, utf16 = data.startswith(codecs.BOM_UTF8), data.startswith((codecs.BOM_UTF16_LE, codecs.BOM_UTF16_BE))
    marked = "utf-8" if utf8 else "utf-16" if utf16 else None
    try:
        # Python knows latin2 and iso-8859-2, and not latin-2.
        known = codecs.lookup(re.sub("(?i)^latin-", "latin", encoding or "utf-8")).name
        if marked and encoding and not known.startswith(marked):
            raise CannotMake(f"the file begins with the byte order mark of {marked.upper()}: leave --encoding {encoding} out")
        text = data.decode("utf-8-sig" if utf8 else marked or known)
    except UnicodeDecodeError as fault:
        raise _undecoded(data, fault, marked or known, encoding) from None
    except (LookupError, ValueError):
        raise CannotMake(f"--encoding {encoding} is not known here: there are cp1250, cp1252, latin-2, utf-8, utf-16 and others") from None
    if "\0" in text:
        what = "a zero byte stands there, as in UTF-16 without its mark: save as CSV UTF-8, or try --encoding utf-16-le"
        raise CannotMake(what, _row_after(text[: text.index("\0")]))
    remarks = [f"read as {encoding if encoding and not marked else (marked or known).upper()}"]
    if encoding and not marked and not known.startswith("utf") and not data.isascii() and _is_utf8(data):
        remarks.insert(0, f"every byte fits UTF-8 too, so look at the names: --encoding {encoding} was used as asked")
    return text, remarks


def _is_utf8(data: bytes) -> bool:
    try:
        data.decode("utf-8")
    except UnicodeDecodeError:
        return False
    return True


def _row_after(text: str) -> int:
    return len(_LINE_END.findall(text)) + 1


def _undecoded(data: bytes, fault: UnicodeDecodeError, taken: str, encoding: str | None) -> CannotMake:
    """What to say of bytes that do not fit the encoding: the bytes, and the cell that they stand in."""
    before = re.search(rb'[^\r\n,;\t"]*\Z', data[: fault.start]).group()[-20:]
    after = re.match(rb'[^\r\n,;\t"]*', data[fault.end :]).group()[:20]
    shown = quoted((before + data[fault.start : fault.end] + after).decode("ascii", "backslashreplace"))
    wrong = data[fault.start : fault.end].hex(" ").upper()
    if encoding or taken == "utf-16":
        mend = "the file is in another encoding or damaged; save it as CSV UTF-8"
    else:
        mend = "save it as CSV UTF-8, or say its encoding: --encoding cp1250 (Central Europe), cp1252 (Western Europe) or latin-2"
    row = _row_after(data[: fault.start].decode(taken, "ignore"))
    return CannotMake(f"the byte{'s' if len(wrong) > 2 else ''} {wrong} in {shown} cannot be read as {taken.upper()}: {mend}", row)


# Text to rows


def read_rows(text: str, asked: Asked) -> tuple[list[Row], str]:
    """All rows, and the mark that parts their fields: the one asked for, the one that a line `sep=;` names, or the one that fits."""
    told = _SEP.match(text)
    mark = DELIMITERS[asked.delimiter] if asked.delimiter else told.group(1) if told else find_mark(text, asked)
    if mark not in DELIMITERS.values():
        raise CannotMake(f"{quoted(told.group())} names a mark that is not read here: part the fields by commas, semicolons or tabs", 1)
    rows = split(text, mark)
    fault = uneven(full(within(rows, asked)), mark)
    if fault:
        raise fault
    return rows, mark


def split(text: str, mark: str) -> list[Row]:
    """The rows of the text, without a line `sep=;` at the front, which keeps its number."""
    rows: list[Row] = []
    reader = csv.reader(io.StringIO(text, newline=""), delimiter=mark, strict=True)
    try:
        for raw in reader:
            rows.append(Row(len(rows) + 1, tuple(raw), tuple(cell.strip(_BLANKS) for cell in raw)))
    except csv.Error as fault:
        raise CannotMake(f"the quotes do not open and close as CSV has them ({fault}): mend them, or export again", len(rows) + 1) from None
    return rows[1:] if _SEP.match(text) else rows


def within(rows: Iterable[Row], asked: Asked) -> list[Row]:
    """The rows that the states may stand in."""
    first, last = asked.rows or (1, None)
    return [row for row in rows if row.number >= first and (last is None or row.number <= last)]


def full(rows: Iterable[Row]) -> list[Row]:
    """The rows with two cells or more that hold something: no titles, notes or blank rows."""
    return [row for row in rows if len(row.filled) >= 2]


def uneven(rows: list[Row], mark: str) -> CannotMake | None:
    """What to say where full rows have different numbers of fields. Excel at times leaves out marks before empty cells at a row's end."""
    widths = Counter(len(row.cells) for row in rows)
    if len(widths) <= 1 or len({row.filled[-1] for row in rows}) == 1:
        return None
    width = widths.most_common(1)[0][0]
    usual = next(row for row in rows if len(row.cells) == width)
    odd = next(row for row in rows if len(row.cells) != width)
    what = f"{len(odd.cells)} fields parted by {_word(mark)}s, where row {usual.number} has {width}"
    return CannotMake(f"{what}: put a name or number that holds a {_word(mark)} in quotes, or give {_BY_ROWS}", odd.number)


def is_figure(cell: str) -> bool:
    """Whether a cell was meant as a number, whole or not."""
    return _FIGURE.fullmatch(cell) is not None


def find_mark(text: str, asked: Asked) -> str:
    """The one mark that parts all full rows evenly, with numbers among their fields, and leaves no doubt about another one."""
    readings: dict[str, list[Row]] = {}
    faults: dict[str, CannotMake] = {}
    for mark in DELIMITERS.values():
        try:
            rows = full(within(split(text, mark), asked))
        except CannotMake as fault:
            if mark in text:
                faults[mark] = fault
            continue
        if any(is_figure(cell) for row in rows for cell in row.cells):
            readings[mark] = rows
    # A mark that stands in few rows only, in titles or notes, parts these evenly too.
    most = max(map(len, readings.values()), default=0)
    even = [mark for mark, rows in readings.items() if 2 * len(rows) >= most and uneven(rows, mark) is None]
    plain = [mark for mark in even if not any(_doubtful(readings[mark], other) for other in {*readings, *faults} - {mark})]
    if len(plain) == 1:
        return plain[0]
    if even:
        words = [word for word, mark in DELIMITERS.items() if mark in readings or mark in faults]
        ways = " or ".join(f"--delimiter {word}" for word in words)
        raise CannotMake(f"the fields may be parted by {' or by '.join(word + 's' for word in words)}: say which with {ways}")
    if readings:
        likeliest = max(readings, key=lambda mark: len(readings[mark]))
        raise uneven(readings[likeliest], likeliest)
    if faults:
        raise faults[max(faults, key=text.count)]
    raise CannotMake("no row has a name and a number parted by a comma, a semicolon or a tab")


def _doubtful(rows: list[Row], other: str) -> bool:
    """Whether another mark may be the right one, as it stands in every row. Commas in most rows' numbers are thousands marks."""
    held = [[cell for cell in row.cells if other in cell] for row in rows]
    return all(held) and not (other == "," and 2 * sum(any(map(is_figure, cells)) for cells in held) > len(rows))


# Rows to columns


class Sheet:
    """The rows of a file, those that the states may stand in, and those that may hold headings."""

    def __init__(self, rows: list[Row], asked: Asked) -> None:
        self.rows, self.asked = rows, asked
        self.table = within(rows, asked)
        self.full = full(self.table)
        self.width = max((row.filled[-1] + 1 for row in self.full), default=0)
        figured = (row.number for row in self.full if any(map(is_figure, row.cells)))
        first = asked.rows[0] if asked.rows else next(figured, len(rows) + 2)
        self.head = [row for row in rows if row.number < first]

    def heading(self, column: int) -> str:
        """The lowest text over a column, in quotes after a blank, or nothing."""
        texts = [row.cell(column) for row in full(self.head) if row.cell(column)]
        return f" {quoted(texts[-1])}" if texts and not is_figure(texts[-1]) else ""

    def described(self, columns: Iterable[int]) -> str:
        """Columns for a message, each with its letter, its heading and what stands in it."""
        shown = []
        for column in columns:
            cells = [quoted(row.cell(column)) for row in self.full if row.cell(column) and row not in self.head]
            shown.append(f"{letter(column)}{self.heading(column)} ({', '.join(cells[:3])}{', ...' if cells[3:] else ''})")
        return "; ".join(shown)

    def find(self, wanted: str, option: str) -> int:
        """The column that an option names by its heading, its number from 1, or its letter."""
        word = single_blanks(wanted)
        # Without a full row above the first number, that row may be the heading itself (`County,2021`).
        head = self.head if full(self.head) else self.head + self.full[:1]
        named = {column for row in head for column in row.filled if single_blanks(row.cell(column)).casefold() == word.casefold()}
        found = named | {column for column in range(self.width) if word.upper() in (letter(column), str(column + 1))}
        if len(found) == 1:
            return found.pop()
        there = self.described(sorted(found) or range(self.width))
        raise CannotMake(f"{option} {wanted}: {'several columns are' if found else 'no column is'} called so; there are {there}")

    def taken(self, name: int, population: int) -> str:
        """The remark on which columns were taken, and which were not."""
        others = sorted({column for row in self.full for column in row.filled} - {name, population})
        left = f"; left out column{'s' if others[1:] else ''} {some([letter(column) for column in others])}" if others else ""
        return "names from column {}{}, populations from column {}{}{}".format(
            letter(name), self.heading(name), letter(population), self.heading(population), left
        )


def population_column(sheet: Sheet) -> int:
    """The column asked for, or the only one that holds numbers. A second one is a doubt, even if its numbers are not whole: the populations
    may be the damaged ones, and the whole numbers beside them areas or seats."""
    if sheet.asked.population_column:
        column = sheet.find(sheet.asked.population_column, "--population-column")
        if not any(is_figure(row.cell(column)) for row in sheet.table):
            raise CannotMake("no number stands in this column", column=column)
        return column
    taken = sheet.find(sheet.asked.name_column, "--name-column") if sheet.asked.name_column else None
    figures = [column for column in range(sheet.width) if column != taken and any(is_figure(row.cell(column)) for row in sheet.full)]
    if not figures:
        raise CannotMake("no column holds whole numbers beside names")
    if len(figures) > 1:
        ways = " or ".join(f"--population-column {letter(column)}" for column in figures)
        raise CannotMake(f"several columns hold numbers: {sheet.described(figures)}. Say which one has the populations: {ways}")
    return figures[0]


def name_column(sheet: Sheet, population: int) -> int:
    """The column asked for, or the first that is no column of numbers."""
    if sheet.asked.name_column:
        name = sheet.find(sheet.asked.name_column, "--name-column")
        if name == population:
            raise CannotMake(f"column {letter(name)} cannot hold both the names and the populations")
        return name
    states = [row for row in sheet.full if is_figure(row.cell(population))]
    texts = [column for column in range(sheet.width) if any(row.cell(column) and not is_figure(row.cell(column)) for row in states)]
    name = next((column for column in texts if column != population), None)
    if name is None:
        raise CannotMake("no column holds names beside the numbers: say which one does with --name-column")
    for row in states:
        if is_figure(row.cell(name)):
            what = f"{quoted(row.cell(name))} is a number and no name: leave the row out with {_BY_ROWS}, or give"
            raise CannotMake(f"{what} --name-column {letter(name)} if it names a state", row.number, name)
    return name


# Rows to states


def sort_out(sheet: Sheet, name: int, population: int) -> tuple[list[Row], list[int], list[str]]:
    """The rows of the states, their populations, and remarks on what was left out and changed."""
    places = [place for place, row in enumerate(sheet.table) if is_figure(row.cell(population))]
    head, body, tail = sheet.table[: places[0]], sheet.table[places[0] : places[-1] + 1], sheet.table[places[-1] + 1 :]
    first, last = body[0].number, body[-1].number
    check_head(head, sheet.asked, name, population, f"--rows {first}-")
    if not sheet.asked.rows and _YEAR.fullmatch(body[0].cell(population)):
        what = f"{quoted(body[0].cell(population))} may be a year in a heading, or a population"
        raise CannotMake(f"{what}: give --rows {first + 1}- if it is a year, --rows {first}- if it is a population", first, population)
    counted = [row for row in body if row.cell(population) or row.cell(name)]
    numbers, changed = whole_numbers(counted, population, sheet.asked)
    total = closing_total(counted, numbers, sheet.asked, name, population)
    states = counted[:-1] if total else counted
    for row in states:
        if not row.cell(name):
            what = f"{quoted(row.cell(population))} stands there without a name: fill the name in, or leave the row out with {_BY_ROWS}"
            raise CannotMake(what, row.number, population)
    check_tail(tail, bool(total), name, population, f"--rows {first}-{last}")
    inside = {row.number for row in sheet.table}
    left_out = [
        ([row for row in sheet.rows if row.number not in inside], "not among the rows asked for"),
        (head, "a title or the heading"),
        ([total] if total else [], "a total, equal to the sum of the rows above"),
        ([row for row in body if not row.cell(population) and not row.cell(name)], "neither a name nor a number"),
        (tail, "below the total, without a number" if total else "neither a name nor a number"),
    ]
    blank = sum(not row.filled for row in sheet.table)
    remarks = [_left_out([row for row in rows if row.filled], why) for rows, why in left_out]
    remarks.append(f"left out {blank} blank row{'s' if blank > 1 else ''}" if blank else "")
    return states, numbers[: len(states)], [*filter(None, remarks), *changed]


def _left_out(rows: list[Row], why: str) -> str:
    cells = [quoted(row.cell(column)) for row in rows for column in row.filled[:2]]
    return f"left out {rows_named(rows)}, {some(cells)}: {why}" if rows else ""


def check_head(head: list[Row], asked: Asked, name: int, population: int, way: str) -> None:
    """Stops at a row above the first number that may be a state whose number is damaged or missing.

    Titles may stand above a heading, and one heading may have text in both columns. `--rows` leaves no room for either.
    """
    lowest = 0 if asked.rows else max((row.number for row in head if row.cell(population)), default=0)
    headed = bool(asked.rows)
    for row in head:
        named, cell = row.cell(name), row.cell(population)
        if (cell and not _is_text(cell)) or (cell and named and headed) or (named and row.number > lowest):
            raise CannotMake(f"{why_not_whole(cell)}. If the row is a title or a heading, give {way}", row.number, population)
        headed = headed or bool(cell and named)


def check_tail(tail: list[Row], closed: bool, name: int, population: int, way: str) -> None:
    """Stops at a row below the last number that may be a state whose number is damaged, or missing where no total has closed the table."""
    for row in tail:
        named, cell = row.cell(name), row.cell(population)
        if (cell and not _is_text(cell)) or (not closed and (named or cell)):
            raise CannotMake(f"{why_not_whole(cell)}. If the row is a note, give {way}", row.number, population)


def _is_text(cell: str) -> bool:
    """Whether a cell in the column of populations is mere text, and no number that is damaged or said to be missing."""
    letters = "".join(char for char in cell.lower() if char.isalpha())
    dates = all(len(digits) < 3 or _YEAR.fullmatch(digits) for digits in re.findall("[0-9]+", cell))
    return bool(letters) and letters not in _NO_FIGURE and dates and not cell.startswith(_ERRORS)


# Cells to numbers


def whole_numbers(rows: Sequence[Row], column: int, asked: Asked) -> tuple[list[int], list[str]]:
    """The whole numbers in a column, plain or with thousands marks, and remarks on marks and zeros taken out."""
    cells = [row.cell(column) for row in rows]
    check_marks(rows, column)
    check_decimals(rows, column, asked.thousands)
    numbers, zeros = [], []
    for row, cell in zip(rows, cells):
        digits = "".join(char for char in cell if char not in _THOUSANDS).lstrip("0") or "0"
        # Python refuses to turn thousands of digits into a number; eleven are beyond the limit already.
        number = int(digits[:11])
        if not 0 < number <= desk.SUM_LIMIT:
            raise CannotMake(f"{quoted(cell)}: a population is from 1 to {grouped(desk.SUM_LIMIT)}", row.number, column)
        if cell.startswith("0"):
            zeros.append(f"{quoted(cell)} is read as {digits}")
        numbers.append(number)
    marked = [(cell, number) for cell, number in zip(cells, numbers) if not _WHOLE.fullmatch(cell)]
    remarks = [f"thousands marks were taken out: {quoted(marked[0][0])} is read as {marked[0][1]}"] if marked else []
    return numbers, remarks + ([f"leading zeros were taken off: {some(zeros)}"] if zeros else [])


def check_marks(rows: Sequence[Row], column: int) -> None:
    """Stops at a cell that is no whole number, and at thousands marks that differ or are missing in some numbers above 999."""
    marks: dict[str, Row] = {}
    for row in rows:
        cell = row.cell(column)
        parts = _GROUPED.fullmatch(cell)
        if not parts and not _WHOLE.fullmatch(cell):
            raise CannotMake(why_not_whole(cell), row.number, column)
        mark = parts.group(1) if parts else "" if len(cell.lstrip("0")) > 3 else None
        if mark is None:
            continue
        for other, first in marks.items():
            if other != mark:
                what = f"{quoted(cell)} has not the same thousands marks as {quoted(first.cell(column))} in row {first.number}"
                raise CannotMake(f"{what}: show the whole column alike and export again", row.number, column)
        marks.setdefault(mark, row)


def check_decimals(rows: Sequence[Row], column: int, thousands: str | None) -> None:
    """Stops where commas or dots may be decimals: 1.234 is 1234 in one file and 1.234 million in another. A number with two marks tells, and
    so does the user."""
    marked = [(row, _GROUPED.fullmatch(row.cell(column))) for row in rows]
    marked = [(row, parts.group(1)) for row, parts in marked if parts and parts.group(1) in DECIMALS.values()]
    if not marked or any(row.cell(column).count(mark) > 1 for row, mark in marked):
        return
    row, mark = marked[0]
    word = next(word for word, known in DECIMALS.items() if known == mark)
    if thousands != word:
        cell = row.cell(column)
        what = f"{quoted(cell)} may be {cell.replace(mark, '')} with a thousands mark, or have decimals, and no number has two marks to tell by"
        raise CannotMake(f"{what}: give --thousands {word} if it is the former", row.number, column)


def why_not_whole(cell: str) -> str:
    """What is wrong with a cell that should be a whole number, and what to do."""
    again = "show the column as whole numbers without decimals and export again"
    if not cell:
        return "the cell is empty: a state needs a whole number there"
    if cell.startswith(_ERRORS):
        why = "it is the spreadsheet's own error; mend it there, or make the column wider"
    elif any(char.isdigit() and not char.isascii() for char in cell):
        why = "only the digits 0 to 9 are read, no raised ones and none of other scripts"
    elif re.fullmatch(r"[-+−]?[0-9]+([.,][0-9]+)?[eE][-+]?[0-9]+", cell):
        why = f"the spreadsheet has shortened it; {again}"
    elif is_figure(cell) and cell[0] in "-−+":
        why = "a population has no sign; mend the number, or take another column"
    elif is_figure(cell) and "%" in cell:
        why = "a share is no population; take another column"
    elif is_figure(cell):
        why = f"thousands marks stand before each group of three digits; if these are decimals, {again}"
    else:
        why = "only digits and thousands marks are read; take out letters, units and footnote marks"
    return f"{quoted(cell)} is no whole number: {why}"


# The closing total

_TOTAL_NAMES = """total, totals, sum, sum total, grand total, all, overall, altogether, osszesen, mindosszesen, osszeg, egyutt, gesamt,
gesamtsumme, insgesamt, summe, zusammen, totale, totale generale, somma, somme, total general, ensemble, suma, celkem, uhrnem, spolu, razem,
ogolem, lacznie, ukupno, sveukupno, skupaj, skupno, totaal, totalt, i alt, summa, yhteensa, kokku, viso, is viso, kopa, toplam,
genel toplam, gjithsej, total geral, soma, итого, всего, общо, укупно, вкупно, усього, разом, συνολο""".replace("\n", " ").split(", ")
# Within a longer name each of these is enough; no place that we know of is called so.
_TOTAL_WORDS = set("total totals osszesen mindosszesen gesamt insgesamt totale totaal totalt celkem razem ogolem ukupno skupaj".split())


def names_a_total(name: str) -> bool:
    """Whether a name is a word for a total in some language, or holds one that is no part of a place's name."""
    words = re.sub(r"[\W\d_]+", " ", without_accents(name.casefold())).split()
    return " ".join(words) in _TOTAL_NAMES or not _TOTAL_WORDS.isdisjoint(words)


def closing_total(rows: list[Row], numbers: list[int], asked: Asked, name: int, population: int) -> Row | None:
    """The last row if it is a closing total; stops where that is in doubt, and where it differs from the sum."""
    if asked.total_row == "no":
        return None
    state = "give --total-row no if it is a state"
    for row in rows[:-1]:
        if names_a_total(row.cell(name)):
            what = f"{quoted(row.cell(name))} is called a total, and rows with numbers stand below it: leave it out of the table, or"
            raise CannotMake(f"{what} {state}", row.number, name)
    last, number, above = rows[-1], numbers[-1], sum(numbers[:-1])
    claimed = asked.total_row == "yes" or names_a_total(last.cell(name))
    if number == above and (claimed or not last.cell(name)):
        return last
    if claimed:
        what = f"{quoted(last.cell(name))} is {grouped(number)}, but the rows above add up to {grouped(above)}, a difference of"
        mend = "are there subtotals among them? Leave them out" if above == 2 * number else "mend the number at fault"
        raise CannotMake(f"{what} {grouped(abs(number - above))}: {mend}, or {state}", last.number, population)
    for row, count in zip(rows, numbers):
        others = number + above - count
        # At either end of a longer table nearly the sum is asked about too: a total may be rounded, or a number corrected since.
        near = len(rows) > 5 and row in (rows[0], last) and 100 * abs(count - others) <= others
        if near or (len(rows) > 2 and count == others):
            what = f"{quoted(row.cell(name))} has {grouped(count)}, and all other rows together have {grouped(others)}"
            if row is last and count == others:
                raise CannotMake(f"{what}: give --total-row yes if it is a total, --total-row no if it is a state", row.number, population)
            raise CannotMake(f"{what}: leave it out of the table if it is a total, or {state}", row.number, population)
    for groups in (subtotals(rows, numbers), subtotals(rows[::-1], numbers[::-1])):
        if len(groups) > 1:
            what = f"{some([quoted(row.cell(name)) for row in groups])} are each the sum of the rows next to them"
            mend = "leave subtotals out, or give --total-row no if they are states"
            raise CannotMake(f"{what}: {mend}", min(row.number for row in groups), population)
    return None


def subtotals(rows: list[Row], numbers: list[int]) -> list[Row]:
    """The rows that are each the sum of those since the last such row, if they part the whole table into groups."""
    found, since = [], 0
    for row, number in zip(rows, numbers):
        closes = number == since
        found += [row] if closes else []
        since = 0 if closes else since + number
    return [] if since else found


# Cells to names

_PLAIN = str.maketrans(
    {
        **dict(zip("ßẞøØłŁđĐæÆœŒıþÞðÐħĦŧŦĸ", "ss SS o O l L d D ae AE oe OE i th Th d D h H t T k".split())),
        **dict.fromkeys("‘’‚‛‹›′´ʹʻʼʽˈ", "'"),
        **dict.fromkeys("“”„‟«»″ʺ", '"'),
        **dict.fromkeys("‐‑‒–—―−", "-"),
        **{"⁄": "/", "×": "x", "·": "."},
    }
)


def without_accents(text: str) -> str:
    """The text with letters and signs in their plain forms, where they have one."""
    apart = unicodedata.normalize("NFKD", text.translate(_PLAIN)).translate(_PLAIN)
    return "".join(char for char in apart if unicodedata.category(char) != "Mn")


def single_blanks(text: str) -> str:
    """The text without blanks at its ends and with one plain blank for each run of blanks within."""
    return _BLANK_RUN.sub(" ", text).strip(" ")


def plain_name(written: str) -> str:
    """A name in plain letters without commas, not yet cut. What has no plain form stays."""
    return single_blanks(without_accents(written).replace(",", " "))


def plain_names(rows: Sequence[Row], column: int) -> tuple[list[str], list[str]]:
    """The names of these rows as a register can hold them, and remarks on what was changed."""
    names: dict[str, Row] = {}
    changed = []
    for row in rows:
        written = single_blanks(row.cell(column))
        name = plain_name(written)[: desk.NAME_LIMIT].rstrip(" ")
        check_name(row, column)
        if name in names:
            what = f"{quoted(written)} and {quoted(single_blanks(names[name].cell(column)))} in row {names[name].number} are both written"
            raise CannotMake(f"{what} {quoted(name)}: a register needs different names", row.number, column)
        names[name] = row
        changed += [f"{written} is written {name}"] if name != written else []
    blanks = [row for row in rows if row.raw[column] != single_blanks(row.cell(column))]
    cut = [row for row in rows if len(plain_name(row.cell(column))) > desk.NAME_LIMIT]
    doubts = [f"{row.cell(column)} in row {row.number}" for row in rows if "?" in row.cell(column)]
    remarks = [f"blanks around or within names were put right: {rows_named(blanks)}"] if blanks else []
    remarks += [f"names were cut to {desk.NAME_LIMIT} letters: {rows_named(cut)}"] if cut else []
    remarks += [f"a question mark may stand for a letter that the export has lost: {some(doubts)}"] if doubts else []
    return list(names), remarks + ([some(changed)] if changed else [])


def check_name(row: Row, column: int) -> None:
    """Stops at a name that a register cannot hold in any form."""
    cell = row.cell(column)
    odd = next((char for char in plain_name(cell) if not " " <= char <= "~"), None)
    if odd is not None:
        kind = "is a control character" if unicodedata.category(odd).startswith("C") else "has no plain form"
        what = f"{quoted(cell)}: {quoted(odd)} {kind}, and a register has plain letters, digits and signs only"
        raise CannotMake(what, row.number, column)
    if not plain_name(cell):
        raise CannotMake(f"{quoted(cell)} leaves nothing for a name", row.number, column)
