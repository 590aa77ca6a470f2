"""What can be wrong with the bytes of a line, with a number, with a name, and with a line of two fields."""

from __future__ import annotations

import csv
import re
import unicodedata
from typing import NamedTuple, Sequence

import desk

from .faults_shown import CUT, letters, plain, quoted, stray_bytes
from .faults_text import PARTING, File, Found, Words, decoded, has_digit, is_digits, is_number, joined, several

MAKE_FOLDS = "`office make` does that by itself."
DIGITS_ALONE = "Write the digits alone"
LINE_ENDS = "Save the file with line ends LF (Unix) or CR LF (Windows)."


# ---- bytes of any line


def line_bytes(text: bytes) -> Found:
    """Bytes that no line of a register may have, whichever field they stand in, but for tabs and letters beyond the plain ones."""
    if b"\0" in text:
        return Words(
            f"The line has {several(text.count(0), 'NUL byte', 'NUL bytes')} in it: the file was damaged, or is no plain text.",
            "Take the register from where it came from again.",
        )
    if text.endswith(b"\r"):
        return Words("The line ends in CR CR LF, as where line ends were converted twice.", LINE_ENDS)
    if b"\r" in text:
        return Words(
            "A carriage return (CR) stands inside the line; alone it does not end one, so that what follows is read as the same line.",
            LINE_ENDS,
        )
    if text and not text.strip(b"\x1a"):
        return Words(
            "The line has nothing but the sign by which DOS ended files (control-Z).",
            "Delete that sign, and look whether the file was cut there.",
        )
    controls = sorted({byte for byte in text if (byte < 32 and byte != 9) or byte == 127})
    if controls:
        shown = ", ".join(f"⟨{byte:02X}⟩" for byte in controls)
        return Words(f"The line has control characters in it, which editors may not show: {shown}.", "Delete them, or type the line anew.")
    return None


# ---- numbers

# Signs between groups of three digits, beyond the comma, which parts fields.
_GROUP_SIGNS = {
    " ": "blanks",
    ".": "points",
    "'": "apostrophes",
    "_": "underscores",
    "\u2019": "typographic apostrophes",
    "\u00a0": "no-break blanks",
    "\u202f": "narrow no-break blanks",
    "\u2009": "thin blanks",
}
_NOT_GIVEN = (b"-", b"--", b"?", b"x", b".", b"..", b"...", b"n/a", b"na", b"n.a.", b"nan", b"null", b"none")


def number_words(what: str, field: bytes) -> Found:
    """A field that should be a number and is none; None where it has the form of one."""
    if is_number(field):
        return None
    bare = field.strip(b" ")
    if not bare:
        how = "has blanks only" if field else "is empty"
        return Words(f"{what} is missing: the field {how}.", "Write it there, in digits.")
    if is_number(bare):
        where = "on both sides of" if field[:1] == field[-1:] == b" " else "before" if field.startswith(b" ") else "after"
        return Words(f"{what} has a blank {where} its digits: {quoted(field)}.", "Delete the blank.")
    if is_digits(bare):
        return _too_many_digits(what, bare)
    if len(bare) > 1 and bare[:1] in (b'"', b"'") and bare[-1:] == bare[:1]:
        return Words(f"{what} is in quotes: {quoted(bare)}.", "Delete the quotes; `office make` reads tables with quotes.")
    if b"\t" in bare:
        return Words(f"{what} has a tab in it or beside it: {quoted(bare)}.", "Delete the tab.")
    return _signed(what, bare) or _grouped(what, bare) or _reckoned(what, bare) or _unlike_digits(what, bare)


def _too_many_digits(what: str, digits: bytes) -> Words:
    zeros = len(digits) - len(digits.lstrip(b"0"))
    if zeros and len(digits) - zeros <= 10:
        return Words(
            f"{what} has {len(digits)} digits, {several(zeros, 'leading zero', 'leading zeros')} among them, and ten are the most.",
            "Delete leading zeros.",
        )
    return Words(f"{what} has {len(digits)} digits, and ten are the most.", "Correct the number.")


def _signed(what: str, bare: bytes) -> Found:
    """Digits with a sign."""
    if re.fullmatch(rb"- ?[0-9]+", bare):
        return Words(f"{what} is negative: {quoted(bare)}.", "Correct the number; none may be below 1.")
    if re.fullmatch(rb"\+ ?[0-9]+", bare):
        return Words(f"{what} has a plus sign: {quoted(bare)}.", f"{DIGITS_ALONE}: {plain(bare[1:].strip())}.")
    if re.fullmatch(rb"\([0-9]+\)", bare):
        return Words(f"{what} is in brackets, as book-keepers write negative numbers: {quoted(bare)}.", "Correct the number.")
    return None


def _grouped(what: str, bare: bytes) -> Found:
    """Digits in groups of three with thousands marks between them, or with a fraction."""
    text = decoded(bare)
    groups = re.fullmatch(r"[0-9]{1,3}([^0-9])[0-9]{3}(\1[0-9]{3})*", text)
    if groups and text.count(".") == 1:
        return Words(
            f"{what} has a point in it, {quoted(bare)}, as a thousands mark or before a fraction: which one, the desk does not guess.",
            "Write a whole number in digits alone.",
        )
    if groups and groups.group(1) in _GROUP_SIGNS:
        sign = groups.group(1)
        return Words(f"{what} has {_GROUP_SIGNS[sign]} as thousands marks: {quoted(bare)}.", f"{DIGITS_ALONE}: {text.replace(sign, '')}.")
    if re.fullmatch(r"[0-9]+[.][0-9]*", text):
        return Words(
            f"{what} has a point, and what may be a fraction: {quoted(bare)}.",
            "Write a whole number, without a point; take it from the source again.",
        )
    return None


def _reckoned(what: str, bare: bytes) -> Found:
    """What spreadsheets write in place of digits."""
    if re.fullmatch(rb"[0-9]+([.][0-9]+)?[eE][+-]?[0-9]+", bare):
        return Words(
            f"{what} is written with an exponent, as spreadsheets show large numbers: {quoted(bare)}. Digits may be lost.",
            "Show the column as whole numbers in the spreadsheet, and save it again.",
        )
    if bare.startswith(b"="):
        return Words(f"{what} is a formula of a spreadsheet, and not its result: {quoted(bare)}.", "Save the sheet with values shown.")
    if re.fullmatch(rb"##+|#.*[!?]|#N/A|Err:[0-9]+", bare):
        return Words(
            f"{what} is what a spreadsheet shows for a cell that it cannot show: {quoted(bare)}.",
            "Mend the cell in the spreadsheet, and save it again.",
        )
    if bare.endswith(b"%"):
        return Words(f"{what} is a percentage: {quoted(bare)}.", "Write the whole number, and not a share.")
    return None


def _unlike_digits(what: str, bare: bytes) -> Words:
    """Anything else."""
    if re.fullmatch(rb"[0-9OolI|]+", bare) and has_digit(bare):
        return Words(f"{what} has letters that look like digits (O or o for 0, l, I or | for 1): {quoted(bare)}.", "Type the digits.")
    if bare.lower() in _NOT_GIVEN:
        return Words(f"{what} is not given: {quoted(bare)} stands in its place.", "Find the number; a register has no unknown ones.")
    if any(byte > 127 for byte in bare):
        return _number_letters(what, bare)
    after = re.fullmatch(rb"[0-9]+([^0-9]+)", bare)
    if after:
        return Words(f"{what} has something after its digits: {quoted(after.group(1).strip())}.", f"{DIGITS_ALONE}.")
    before = re.fullmatch(rb"([^0-9]+)[0-9]+", bare)
    if before:
        return Words(f"{what} has something before its digits: {quoted(before.group(1).strip())}.", f"{DIGITS_ALONE}.")
    if not has_digit(bare):
        return Words(f"{what} is no number: {quoted(bare)}.", "Write it in digits.")
    return Words(f"{what} has more than digits in it: {quoted(bare)}.", f"{DIGITS_ALONE}.")


def _number_letters(what: str, bare: bytes) -> Words:
    """A number with bytes beyond the plain ones."""
    text = decoded(bare)
    if text.isdecimal():
        return Words(f"{what} is in digits of another script: {quoted(bare)}.", "Write it with the digits 0 to 9.")
    if re.fullmatch("[\u2212\u2013\u2014] ?[0-9]+", text):
        return Words(f"{what} has a dash or minus sign in front of it: {quoted(bare)}.", "Correct the number; none may be below 1.")
    if re.fullmatch("[0-9\\s\u200b\u2060\ufeff]+", text):
        return Words(f"{what} has blanks that are no plain ones, or hidden signs: {quoted(bare)}.", f"Delete them. {DIGITS_ALONE}.")
    return Words(f"{what} has signs beyond the plain ones: {quoted(bare)}.", f"{DIGITS_ALONE}.")


# ---- names

# Marks that word processors put in place of plain ones.
_TYPOGRAPHIC = frozenset("‘’‚“”„«»‹›–—‐‑…•")


def name_words(file: File, name: bytes, line: int) -> Found:
    """A field that should be a state's name and is none; None where it is one."""
    if not name:
        return Words("The name is missing: the line begins with its comma.", "Write the state's name before the comma.")
    if not name.strip(b" "):
        return Words("The name is missing: only blanks stand before the comma.", "Write the state's name before the comma.")
    if b"\t" in name:
        return Words(f"The name has a tab in it or beside it: {quoted(name)}.", "Delete the tab, or write a blank.")
    if any(byte > 127 for byte in name):
        return _name_letters(file, name, line)
    if name != name.strip(b" "):
        where = "before and after" if name[:1] == name[-1:] else "before" if name.startswith(b" ") else "after"
        return Words(f"A blank stands {where} the name: {quoted(name)}.", "Delete the blank; blanks inside a name may stay.")
    if len(name) > desk.NAME_LIMIT:
        return Words(f"The name has {len(name)} bytes, and {desk.NAME_LIMIT} are the most: {quoted(name)}.", "Shorten the name.")
    return None


def _name_letters(file: File, name: bytes, line: int) -> Words:
    """A name with bytes beyond the plain ones. Other lines with such bytes are named too: few files have one alone."""
    others = [place for place, other in enumerate(file.lines, start=1) if place != line and any(byte > 127 for byte in other.text)]
    further = f" {_lines_have(others)} such bytes too." if others else ""
    try:
        text = name.decode("utf-8")
    except UnicodeDecodeError:
        return _code_page(name, further)
    odd = [letter for letter in text if ord(letter) > 127]
    shown = letters(text)
    if "\ufeff" in text:
        return Words(
            f"A byte order mark (BOM, three bytes that editors do not show) stands in the name, as where files were put together.{further}",
            "Delete it, or type the name anew.",
        )
    if "\ufffd" in text:
        return Words(f"A letter of the name was lost on conversion: {shown} stands in its place.{further}", "Type the name anew.")
    if _encoded_twice(text):
        return Words(
            f"The name has letters beyond the plain ones that were encoded twice, so that each has become several signs: {shown}.{further}",
            "Take the file from where it came from again, in UTF-8, and write plain letters; `office make` does the second by itself.",
        )
    if any(unicodedata.category(letter) in ("Zs", "Cf") for letter in odd):
        return Words(
            f"The name has a blank that is no plain one, or a sign that is not shown at all: {shown}.{further}",
            "Type the name anew, with plain blanks.",
        )
    if all(letter in _TYPOGRAPHIC for letter in odd):
        return Words(f"The name has quotes or dashes of a word processor: {shown}.{further}", "Write plain ones, as ' and -, or none.")
    if any(unicodedata.combining(letter) for letter in odd):
        return Words(f"The name has accents that stand behind their letters as signs of their own: {shown}.{further}", _plain_name(text))
    if not any(unicodedata.name(letter, "").startswith("LATIN") for letter in odd):
        return Words(f"The name has letters of another script, or signs: {shown}.{further}", "Write it in plain letters, A to Z.")
    return Words(f"The name has letters beyond the plain ones: {shown}.{further}", _plain_name(text))


def _lines_have(places: Sequence[int]) -> str:
    """`Line 5 has`, `Lines 5 and 6 have`, `Lines 5, 6, 7 and 3 others have`."""
    if len(places) == 1:
        return f"Line {places[0]} has"
    if len(places) <= 4:
        return f"Lines {', '.join(str(place) for place in places[:-1])} and {places[-1]} have"
    return f"Lines {', '.join(str(place) for place in places[:3])} and {len(places) - 3} others have"


def _plain_name(text: str) -> str:
    """How to mend a name with accents, with the plain name where dropping the accents gives one."""
    bare = "".join(letter for letter in unicodedata.normalize("NFKD", text) if not unicodedata.combining(letter)).strip()
    like = f', as in "{bare}"' if bare.isascii() and bare.isprintable() and 0 < len(bare) <= desk.NAME_LIMIT else ""
    return f"Write plain letters{like}; {MAKE_FOLDS}"


def _encoded_twice(text: str) -> bool:
    """UTF-8 that was taken for Latin-1 or for Windows' code page, and put into UTF-8 once more."""
    for page in ("latin-1", "cp1252", "cp1250"):
        try:
            text.encode(page).decode("utf-8")
            return True
        except UnicodeError:
            continue
    return False


def _code_page(name: bytes, further: str) -> Words:
    """A name with bytes that are no UTF-8: mostly from before it, one byte a letter."""
    stray = stray_bytes(name)
    if stray == [0xA0]:
        return Words(f"The name has a no-break blank in it, the byte ⟨A0⟩, which looks like a plain one.{further}", "Type a plain blank.")
    readings = "; ".join(_page_reading(byte) for byte in stray[:3]) + (f" {CUT}" if len(stray) > 3 else "")
    return Words(
        f"The name has letters beyond the plain ones, in another encoding than UTF-8: {readings}.{further}",
        "Write plain letters; `office make` does that, once it is told the encoding (as by --encoding cp1250).",
    )


def _page_reading(byte: int) -> str:
    """A byte with the letters that it has been in Windows' code pages."""
    west, middle = bytes([byte]).decode("cp1252", "replace"), bytes([byte]).decode("cp1250", "replace")
    if not (west.isalpha() and middle.isalpha()):
        return f"⟨{byte:02X}⟩"
    both = west if west == middle else f"{west} or {middle}"
    return f"⟨{byte:02X}⟩ (perhaps {both})"


# ---- lines of two fields


class Pair(NamedTuple):
    """A kind of line that has two fields: the line, its number, and its form, as sentences name them; and whether it is the closing one."""

    line: str
    number: str
    form: str
    closes: bool


STATE = Pair("The state's line", "The population", "NAME,POPULATION", False)
CLOSING = Pair("The closing line", "The closing total", "total,SUM", True)


def pair_words(file: File, text: bytes, line: int, pair: Pair) -> Found:
    """A line that should be two fields with a number last. What stands in front of the closing line's comma is not looked at."""
    fields = text.split(b",")
    if len(fields) == 1:
        return _one_field(text, pair)
    if len(fields) > 2:
        return _many_fields(fields, pair) or Words(f"{pair.line} has {len(fields)} fields, and two are due.", f"Write it as {pair.form}.")
    if pair.closes:
        return number_words(pair.number, fields[1])
    if is_digits(fields[0].strip()) and re.search(rb"[A-Za-z\x80-\xff]", fields[1]) and not has_digit(fields[1]):
        return Words(f"The number stands before the name, {quoted(text)}, and has to come after it.", f"Write it as {pair.form}.")
    return joined([name_words(file, fields[0], line), number_words(pair.number, fields[1])])


def _one_field(text: bytes, pair: Pair) -> Words:
    """A line without a comma."""
    for sign, (one, more) in PARTING.items():
        if sign in text:
            stands, instead = (one, "a comma") if text.count(sign) == 1 else (more, "commas")
            make = "; `office make` reads such tables" if sign in (b";", b"\t") else ""
            return Words(f"{pair.line} has {stands} instead of {instead}.", f"Write it as {pair.form}, and other lines so too{make}.")
    if is_digits(text.strip()):
        return Words(f"{pair.line} has a number alone, {quoted(text)}, and no comma.", f"Write it as {pair.form}.")
    before = text.rstrip(b" ").rstrip(b"0123456789")
    sign = before.rstrip(b" ")[-1:]
    if has_digit(text[len(before) :]) and (sign in (b":", b"=") or before.endswith(b" ")):
        stands = quoted(sign) if sign in (b":", b"=") else "a blank"
        return Words(f"{pair.line} has {stands} before its number, and no comma.", f"Write it as {pair.form}.")
    return Words(f"{pair.number} is missing: the line, {quoted(text)}, has no comma.", f"Write it as {pair.form}.")


def _many_fields(fields: Sequence[bytes], pair: Pair) -> Found:
    """A line with more than one comma."""
    extra = len(fields) - 2
    rest = [field.strip() for field in fields[1:]]
    if not any(rest):
        return Words(f"{pair.number} is missing: commas alone stand after the first field.", f"Write it as {pair.form}.")
    if not any(rest[1:]):
        return Words(
            f"{pair.line} ends in {several(extra, 'comma', 'commas')} too many, as in tables with empty columns.",
            f"Delete the {'comma' if extra == 1 else 'commas'} at the end, on other lines too; `office make` reads such tables.",
        )
    found = _in_quotes(b",".join(fields), pair)
    if found:
        return found
    if re.fullmatch(rb"[0-9]{1,3}", rest[0]) and all(re.fullmatch(rb"[0-9]{3}", field) for field in rest[1:]):
        grouped = b",".join(fields[1:]).strip()
        return Words(
            f"{pair.number} has commas as thousands marks, {quoted(grouped)}, and a comma parts fields.",
            f"{DIGITS_ALONE}: {plain(b''.join(rest))}.",
        )
    return _closing_fields(fields) if pair.closes else _state_fields(fields, rest)


def _closing_fields(fields: Sequence[bytes]) -> Found:
    if len(fields) == 3 and is_number(fields[1]) and is_number(fields[2]):
        return Words("The closing line has two numbers, as that of a listing, which has the seats too.", f"Write it as {CLOSING.form}.")
    return None


def _state_fields(fields: Sequence[bytes], rest: Sequence[bytes]) -> Found:
    """A state's line with more than one comma, none of them a thousands mark."""
    form = f"Write it as {STATE.form}"
    run_on = re.fullmatch(rb" *([0-9]+)([^0-9 .].*)", fields[1])
    if len(fields) == 3 and run_on and is_number(rest[1]):
        return Words(
            f"Two lines seem to have run together: after {plain(run_on.group(1))} stands {quoted(run_on.group(2) + b',' + fields[2])}.",
            "Put the line end back between them.",
        )
    if len(fields) == 5 and is_number(rest[0]) and is_number(rest[1]) and rest[3] in (b"in", b"high", b"over", b"none"):
        return Words("The line is one of a listing, with seats, departure and mark, and not one of a register.", f"{form}.")
    if len(fields) == 3 and is_digits(fields[0].strip()) and not is_digits(rest[0]) and is_digits(rest[1]):
        return Words(
            f"The line begins with a number of its own, {quoted(fields[0])}, before the name.",
            "Delete the number and its comma, on every line.",
        )
    if is_digits(rest[-1]) and not is_digits(rest[0]):
        name = b",".join(fields[:-1])
        return Words(f"There is a comma inside the name, {quoted(name)}, and a comma parts fields.", "Write the name without a comma.")
    if len(fields) == 3 and is_digits(rest[0]) and re.fullmatch(rb"[0-9]{1,2}|0+", rest[1]):
        return Words(
            f"The population, {quoted(rest[0])}, is followed by a further field, {quoted(rest[1])}: a fraction after a decimal comma, or a "
            "column too many.",
            f"{form}, with a whole number.",
        )
    if is_number(rest[0]):
        return Words(
            f"The line has {len(fields)} fields, and two are due, the name and the population.",
            f"{form}; `office make` picks columns out of tables.",
        )
    return None


def _in_quotes(text: bytes, pair: Pair) -> Found:
    """Two fields by the rules of spreadsheets, one of them in quotes for the sake of a comma in it."""
    try:
        name, number = next(csv.reader([text.decode("latin-1")], strict=True))
    except (ValueError, csv.Error, StopIteration):
        return None
    if re.fullmatch("[0-9]{1,3}(,[0-9]{3})+", number.strip()):
        return Words(
            f'{pair.number} is in quotes, and has commas as thousands marks: "{number.strip()}".',
            f"{DIGITS_ALONE}: {number.strip().replace(',', '')}; `office make` reads such tables.",
        )
    if "," in name and not pair.closes:
        return Words(
            f"The name is in quotes since it has a comma in it, {quoted(name.encode('latin-1'))}, and a register knows no quotes.",
            "Write the name without a comma and without quotes.",
        )
    return None
