"""What can be wrong with a register's first line, and files that are no register at all."""

from __future__ import annotations

import difflib
import re
from typing import Sequence

import desk

from .faults_fields import LINE_ENDS, line_bytes, number_words
from .faults_shown import MARK, plain, quoted
from .faults_text import PARTING, File, Found, Words, first_part, has_digit, is_digits, is_note, joined, parts, several

METHODS = tuple(method.word for method in desk.METHODS)
FORM = "register,METHOD,HOUSE,COUNT"
_FORM_MEND = f"Write line 1 as {FORM}."
_METHOD_MEND = f"Write one of the methods {', '.join(METHODS[:-1])} or {METHODS[-1]}."
_AS_CSV = "Save the table as CSV, and give that to `office make`."
_AGAIN = "Take the register from where it came from again."


# ---- 1: too long


def too_long(file: File) -> Words:
    limit = f"{desk.REGISTER_LIMIT:,}"
    if not file.data.strip(b"\0"):
        return Words(f"The file has more than {limit} bytes, and of those that were looked at each is NUL: it was damaged.", _AGAIN)
    kind = other_kind(_without_mark(file.data))
    if kind:
        return Words(f"{kind.wrong} It also has more bytes than a register may have, {limit}.", kind.mend)
    heads = [place for place, line in enumerate(file.lines, start=1) if line.text.startswith(b"register,")]
    if len(heads) > 1:
        return Words(
            f"The file has more than {limit} bytes, and more than one register in it: another one begins on line {heads[1]:,}.",
            "Put each register into a file of its own.",
        )
    head = file.head
    last = len(file.lines) if head is None else head.states + 2
    if file.lines[last:] and not b"".join(line.text for line in file.lines[last:]).strip(b" \t\r\0,;"):
        return Words(
            f"The file has more than {limit} bytes, since empty lines or blanks go on and on after line {last}, its last by the count.",
            f"Delete everything after line {last}.",
        )
    return Words(
        f"The file has more than {limit} bytes, and no register has so many: 800 states with the longest names take 36,061.",
        "See whether it is the right file, or whether it holds a table with further columns.",
    )


def _without_mark(data: bytes) -> bytes:
    return data[len(MARK) :] if data.startswith(MARK) else data


# ---- files of another kind


def other_kind(data: bytes) -> Found:
    """A file of another kind, told by its first bytes."""
    if not data:
        return Words("The file is empty: it has no bytes at all.", "See whether it was saved, and whether it is the right file.")
    if not data.strip(b"\0"):
        return Words("The file has NUL bytes and nothing else: it was damaged.", _AGAIN)
    return _other_encoding(data) or _packed(data) or _document(data)


def _other_encoding(data: bytes) -> Found:
    mend = 'Save it as plain text; in a list of encodings take "UTF-8" or "ASCII", without a mark (BOM).'
    if data.startswith((b"\xff\xfe\0\0", b"\0\0\xfe\xff")):
        return Words("The file has the mark of UTF-32, an encoding with four bytes a letter.", mend)
    if data.startswith((b"\xff\xfe", b"\xfe\xff")):
        return Words("The file has the mark of UTF-16, an encoding with two bytes a letter (some programs call it Unicode text).", mend)
    halves = data[0:8:2], data[1:8:2]
    if len(data) > 7 and any(not one.strip(b"\0") and b"\0" not in other for one, other in (halves, halves[::-1])):
        return Words("The file looks like UTF-16, an encoding with two bytes a letter: at its start every second byte is NUL.", mend)
    return None


def _packed(data: bytes) -> Found:
    as_csv = "Save the sheet as CSV there, and give that file to `office make`."
    if data.startswith(b"PK\x03\x04") and b"opendocument.spreadsheet" in data[:200]:
        return Words("The file is an OpenDocument spreadsheet (.ods), and not a register.", as_csv)
    if data.startswith(b"PK\x03\x04") and b"xl/work" in data:
        return Words("The file is a workbook of a spreadsheet program (.xlsx), and not a register.", as_csv)
    if data.startswith(b"PK\x03\x04"):
        return Words("The file is a zip archive, and not a register.", "Unpack it, and take the register or the table in it.")
    if data.startswith(b"\xd0\xcf\x11\xe0\xa1\xb1\x1a\xe1"):
        return Words("The file is a workbook or document of an older Microsoft Office (.xls, .doc), and not a register.", as_csv)
    if data.startswith(b"\x1f\x8b"):
        return Words("The file is packed by gzip, and not a register.", "Unpack it by gunzip first.")
    return None


def _document(data: bytes) -> Found:
    start = data[:512].lstrip(b" \t\r\n").lower()
    if data.startswith(b"%PDF-"):
        return Words(
            "The file is a PDF document, and not a register.",
            "Take the figures from where the PDF was made, as a table (CSV), and give that to `office make`.",
        )
    if data.startswith((b"\x89PNG\r\n\x1a\n", b"\xff\xd8\xff", b"GIF87a", b"GIF89a")):
        return Words("The file is a picture, and not a register.", "Type the figures into a table (CSV), and give that to `office make`.")
    if start.startswith(b"{\\rtf"):
        return Words("The file is a document of a word processor (RTF), and not plain text.", "Save it as plain text, without any layout.")
    if start.startswith((b"<!doctype html", b"<html")):
        return Words(
            "The file is a web page (HTML), and not a register.",
            "Download the table itself (CSV) and not the page that shows it, and give that to `office make`.",
        )
    if start.startswith(b"<"):
        return Words('The file looks like XML: its first sign is "<".', _AS_CSV)
    if start.startswith((b"{", b"[")):
        return Words(f"The file looks like JSON: its first sign is {quoted(start[:1])}.", _AS_CSV)
    return None


# ---- 2 on line 1


def head_words(file: File) -> Found:
    data = _without_mark(file.data)
    if data:
        kind = other_kind(data)
        if kind:
            return kind
    if data != file.data:
        mark = Words(
            "The file begins with a byte order mark (BOM, three bytes that editors do not show), which a register may not have.",
            'Save it as plain text without the mark ("UTF-8" and not "UTF-8 with BOM").',
        )
        return joined([mark, head_words(File(data)) if data else None])
    if not data:
        return other_kind(data)
    line = file.lines[0]
    if not line.ended and b"\r" in line.text:
        return Words(
            "The lines end in CR alone, as on old Macintosh computers, so that the whole file is one line without an end.", LINE_ENDS
        )
    words = line_bytes(line.text) or _by_words(file, line.text)
    if line.ended or (words and not line.text.startswith(b"register")):
        return words
    unended = Words("The file ends in line 1, without a line end: it was cut short.", "Take the whole file from where it came from again.")
    return joined([words, unended])


def _by_words(file: File, text: bytes) -> Found:
    word = first_part(text).strip(b" \t\"'")
    begins = next((place for place, line in enumerate(file.lines, start=1) if line.text.startswith(b"register,")), 0)
    if not text.strip():
        if begins:
            return Words(f"Line 1 is empty, and the register begins only on line {begins}.", f"Delete the lines before line {begins}.")
        return Words(f"Line 1 {'has blanks alone' if text else 'is empty'}, where the head of the register is due.", _FORM_MEND)
    if text.lower().startswith(b"sep="):
        return Words(
            f"Line 1 is {quoted(text)}, a hint that spreadsheet programs write for themselves.",
            "Delete that line; if a table follows, give it to `office make`.",
        )
    if begins > 1 and not _spelt_like_register(word):
        what = "a note" if is_note(text) else "something else"
        mend = f"Delete what stands before line {begins}."
        return Words(f"Line 1 is {what}, {quoted(text)}, and the register begins only on line {begins}.", mend)
    fields = text.split(b",")
    if len(fields) == 1 and word.lower().startswith(b"register"):
        parted = _parted_otherwise(text)
        if parted:
            return parted
    if fields[0] != b"register":
        return _first_word(file, text, fields[0])
    if len(fields) != 4:
        return _field_count(file, fields)
    return _fields(fields)


def _spelt_like_register(word: bytes) -> bool:
    return len(word) < 16 and difflib.SequenceMatcher(None, word.lower(), b"register").ratio() > 0.75


def _parted_otherwise(text: bytes) -> Found:
    """No comma on line 1, and other signs or blanks between its fields."""
    for sign, (_, signs) in PARTING.items():
        if sign in text:
            return Words(f"The fields of line 1 are parted by {signs} instead of commas.", f"{_FORM_MEND} The other lines have commas too.")
    if re.match(rb"[\"' ]*register[\"']? +[^ ]", text.lower()):
        return Words("The fields of line 1 are parted by blanks instead of commas.", f"{_FORM_MEND} The other lines have commas too.")
    return None


def _first_word(file: File, text: bytes, word: bytes) -> Words:
    """The first field is not the word `register`."""
    bare = word.strip(b" \t\"'")
    if bare.lower() == b"register":
        if word.strip(b" \t") != bare:
            return Words(
                f"The first word is in quotes, {quoted(word)}, and a register has none.",
                "Delete the quotes, on other lines too; `office make` reads tables with quotes.",
            )
        if word != bare:
            return Words(f'A blank or tab stands beside the word "register" on line 1: {quoted(word)}.', "Delete it.")
        return Words(f"The first word, {quoted(word)}, has to be in small letters.", 'Write "register".')
    written = {
        b"allotment": "The file is a listing, that is, what the desk has written, and not a register.",
        b"refused": f"The file is a refusal that the desk has written ({quoted(text)}), and not a register.",
        b"work": "The file is leximin's work as the desk has written it, and not a register.",
    }
    if word in written:
        return Words(written[word], "Give the register that it was made from.")
    sign = text[len(first_part(text)) :][:1]
    first = first_part(text).strip(b" \t\"'")
    if first.lower() == b"register" and sign in PARTING:
        return Words(f"After the first word stands {PARTING[sign][0]} instead of a comma.", _FORM_MEND)
    if first.lower().decode("latin-1") in METHODS:
        return Words(f'Line 1 begins with a method, {quoted(first)}; the word "register" in front of it is missing.', _FORM_MEND)
    fields = text.split(b",")
    if _spelt_like_register(first) or (len(fields) == 4 and fields[1].decode("latin-1") in METHODS):
        return Words(f'The first word is {quoted(first)}, where the word "register" is due.', "Correct the word.")
    return _table(file, text) or Words(
        f'The file begins with {quoted(word)}, and a register begins with the word "register".',
        f"See whether it is the right file. {_FORM_MEND} `office make` turns a table into a register.",
    )


def _table(file: File, text: bytes) -> Found:
    """A table in place of a register: its heading, or its first row."""
    columns = [part.strip(b" \t\"'") for part in parts(text)]
    second = file.line(2)
    if len(columns) > 1 and not has_digit(text) and second and has_digit(second.text):
        return Words(
            f"Line 1 looks like the heading of a table, {quoted(text)}; the head of a register is due there.",
            f"Give the table to `office make`, which writes the register; or write {FORM} there.",
        )
    if len(columns) > 1 and columns[0] and not has_digit(columns[0]) and re.fullmatch(rb"[0-9][0-9 .']*", columns[1]):
        return Words(
            f"Line 1 looks like a state's line, {quoted(text)}: the head of the register is missing.",
            f"Begin the file with the line {FORM}, or give the table to `office make`.",
        )
    return None


def _field_count(file: File, fields: Sequence[bytes]) -> Words:
    """Line 1 begins well and has not four fields."""
    if len(fields) > 4:
        extra = fields[4:]
        if not b"".join(extra).strip() and fields[3].strip():
            return Words(
                f"Line 1 ends in {several(len(extra), 'comma', 'commas')} too many, as in tables with empty columns.",
                "Delete the commas at the end, on other lines too; `office make` reads such tables.",
            )
        if len(fields) == 5 and re.fullmatch(rb"[0-9]{1,3}", fields[2]) and re.fullmatch(rb"[0-9]{3}", fields[3]):
            house = fields[2] + b"," + fields[3]
            return Words(
                f"The house has a comma as a thousands mark, {quoted(house)}, so that line 1 has five fields instead of four.",
                f"Write the digits alone: {plain(fields[2] + fields[3])}.",
            )
        run_on = re.fullmatch(rb"([0-9]+)([^0-9 .].*)", fields[3])
        if len(fields) == 5 and run_on and is_digits(fields[4]):
            return Words(
                f"Line 1 and line 2 seem to have run together: after {plain(run_on.group(1))} stands "
                f"{quoted(run_on.group(2) + b',' + fields[4])}.",
                "Put the line end back between them.",
            )
        return Words(f"Line 1 has {len(fields)} fields, and four are due: register, method, house and count of states.", _FORM_MEND)
    given = [field.strip() for field in fields[1:]]
    numbers = [field for field in given if is_digits(field)]
    if not given:
        return Words('Line 1 has the word "register" alone: method, house and count of states are missing.', _FORM_MEND)
    if len(given) == 1:
        return Words(f"Line 1 ends after {quoted(fields[1])}: of method, house and count of states, two are missing.", _FORM_MEND)
    if len(numbers) == 2:
        return Words("The method is missing on line 1: after the first word stand two numbers.", f"{_FORM_MEND} {_METHOD_MEND}")
    if len(numbers) == 1:
        return _one_number(file, numbers[0])
    return Words("Line 1 has three fields, and four are due: register, method, house and count of states.", _FORM_MEND)


def _one_number(file: File, number: bytes) -> Words:
    """A number is missing on line 1: which one, the states that are there can tell."""
    wrong = f"Line 1 has only one number, {plain(number)}"
    closing = file.closing_after(1)
    if closing is None:
        return Words(f"{wrong}: the house or the count of states is missing.", _FORM_MEND)
    if int(number) == closing - 2:
        return Words(f"{wrong}, as many as lines stand before the closing one: the house is missing.", _FORM_MEND)
    stand = several(closing - 2, "line stands", "lines stand")
    return Words(f"{wrong}, while {stand} before the closing one: the count of states may be missing, or the house.", _FORM_MEND)


def _fields(fields: Sequence[bytes]) -> Found:
    """Line 1 has its four fields, and one of them is ill-formed."""
    _, method, house, count = fields
    others = [field.strip().lower().decode("latin-1") for field in (house, count)]
    if is_digits(method.strip()) and any(word in METHODS for word in others):
        return Words("The fields of line 1 are in another order: the method has to be the second one.", _FORM_MEND)
    return joined([_method_field(method), number_words("The house", house), number_words("The count of states", count)])


def _method_field(method: bytes) -> Found:
    if not method:
        return Words("The method is missing on line 1: nothing stands between the first two commas.", _METHOD_MEND)
    if not method.strip(b" "):
        return Words("The method is missing on line 1: blanks stand in its place.", _METHOD_MEND)
    if b"\t" in method:
        return Words(f"The method on line 1 has a tab in it or beside it: {quoted(method)}.", "Delete the tab.")
    if b" " in method.strip(b" "):
        return Words(f"The method on line 1 has a blank in it: {quoted(method)}.", _METHOD_MEND)
    if b" " in method:
        return Words(f"A blank stands beside the method on line 1: {quoted(method)}.", "Delete the blank.")
    if any(byte > 126 for byte in method):
        return Words(f"The method on line 1 has letters beyond the plain ones: {quoted(method)}.", _METHOD_MEND)
    if len(method) > 32:
        return Words(f"The method on line 1 has {len(method)} bytes, and none has more than 32.", _METHOD_MEND)
    return None


# ---- 4: an unknown method

# What else the methods are called, letters alone.
_OTHER_NAMES = {
    "hamilton": "remainders",
    "vinton": "remainders",
    "hare": "remainders",
    "niemeyer": "remainders",
    "hareniemeyer": "remainders",
    "remainder": "remainders",
    "largestremainder": "remainders",
    "largestremainders": "remainders",
    "huntington": "hill",
    "huntingtonhill": "hill",
    "hillhuntington": "hill",
    "equalproportions": "hill",
    "geometricmean": "hill",
    "saintelague": "webster",
    "majorfractions": "webster",
    "arithmeticmean": "webster",
    "dhondt": "jefferson",
    "hagenbachbischoff": "jefferson",
    "greatestdivisors": "jefferson",
    "smallestdivisors": "adams",
    "harmonicmean": "dean",
    "balinskiyoung": "quota",
}


def unknown_method(file: File) -> Found:
    fields = file.lines[0].text.split(b",") if file.lines else []
    if len(fields) < 2:
        return None
    method, shown = fields[1].decode("latin-1"), quoted(fields[1])
    if method.lower() in METHODS:
        return Words(f"The method, {shown}, has to be in small letters.", f'Write "{method.lower()}".')
    bare = re.sub(r"[^a-z]", "", method.lower())
    if bare in METHODS:
        return Words(f"The method, {shown}, has signs in it or around it that do not belong there.", f'Write "{bare}".')
    if bare in _OTHER_NAMES:
        known = _OTHER_NAMES[bare]
        return Words(f'The desk has no method {shown}; others may call its "{known}" so.', f'Write "{known}", if that is meant.')
    if method.isdigit():
        return Words(f"The method is given as a number, {shown}, and a register has its word.", _METHOD_MEND)
    near = difflib.get_close_matches(method.lower(), METHODS, n=1, cutoff=0.6)
    if near:
        return Words(f'The method {shown} is unknown; "{near[0]}" is spelt alike.', f'Write "{near[0]}", if that is meant.')
    return Words(f"The method {shown} is unknown.", _METHOD_MEND)
