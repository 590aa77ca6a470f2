"""`office make`: a register from what a spreadsheet exports, given to the proved desk before it is written."""

from __future__ import annotations

import argparse
import os
import re
import shutil
import sys
from typing import Callable, Sequence

import desk

from . import names
from .figures import grouped
from .files import read_bytes, shown_path
from .spreadsheet import DECIMALS, DELIMITERS, Asked, CannotMake, State, states_of

SUMMARY = "turn what a spreadsheet exports into a register"
DESCRIPTION = """\
Turns what a spreadsheet exports (CSV, or text with tabs) into a register: counts and adds up itself, takes
thousands marks out, folds accents to plain letters, leaves out titles, a heading, blank rows and a closing
total, and says so on standard error. It never guesses a number: where something is in doubt it stops and
says the row, the column, what stands there and what to do. Nothing is written then.
"""
EXAMPLES = """\
examples:
  office make --method leximin --house 106 counties.csv -o counties.register
      writes counties.register, and counties.names with the names as the spreadsheet has them
  office make --method hill --house 435 --population-column C --encoding cp1250 states.csv > states.register
  office make --method webster --house 60 --rows 4-23 table.csv
"""

# Writes a file of the given path.
Writer = Callable[[str], None]


def add_arguments(parser: argparse.ArgumentParser) -> None:
    """The arguments of `office make`."""
    add = parser.add_argument
    add("file", metavar="FILE", help="what the spreadsheet exported; - is standard input")
    add("--method", required=True, choices=[method.word for method in desk.METHODS], help="the method of the register")
    add("--house", required=True, type=_house, metavar="SEATS", help=f"the seats of the house, 1 to {grouped(desk.HOUSE_LIMIT)}")
    add("-o", "--output", metavar="REGISTER", help="where the register goes (default: standard output)")
    add("--names", metavar="FILE", help="where names go as the spreadsheet has them (default: with -o X.register to X.names, if any changed)")
    add("--encoding", metavar="NAME", help="the file's encoding, such as cp1250, cp1252 or latin-2 (default: UTF-8, or by its mark)")
    add("--delimiter", choices=tuple(DELIMITERS), help="what parts the fields (default: found from the file)")
    add("--name-column", metavar="COLUMN", help="the column of names: its letter, its number from 1, or its heading")
    add("--population-column", metavar="COLUMN", help="the column of populations, likewise")
    add("--rows", type=_rows, metavar="FIRST-LAST", help="the rows that the states stand in, such as 4-23, or 4- up to the end")
    add("--thousands", choices=tuple(DECIMALS), help="the thousands mark, where it may be one of decimals")
    add("--total-row", choices=("yes", "no"), help="whether the last row with a number is a total")


def _house(text: str) -> int:
    if not re.fullmatch("[0-9]{1,10}", text) or not 1 <= int(text) <= desk.HOUSE_LIMIT:
        raise argparse.ArgumentTypeError(f"a house has 1 to {grouped(desk.HOUSE_LIMIT)} seats, in digits alone, not {text}")
    return int(text)


def _rows(text: str) -> tuple[int, int | None]:
    parts = re.fullmatch("([1-9][0-9]{0,8})-([1-9][0-9]{0,8})?", text)
    if not parts or int(parts.group(2) or parts.group(1)) < int(parts.group(1)):
        raise argparse.ArgumentTypeError(f"rows are counted from 1, as in 4-23 or 4-, not {text}")
    return int(parts.group(1)), int(parts.group(2)) if parts.group(2) else None


def run(arguments: argparse.Namespace) -> int:
    """Makes the register; 2 where none can be made."""
    try:
        make(arguments)
    except CannotMake as fault:
        fault.path = fault.path or shown_path(arguments.file)
        print(fault, file=sys.stderr)
        return 2
    return 0


def make(arguments: argparse.Namespace) -> None:
    """Reads the export, makes the register, and writes it, with remarks on standard error."""
    output = None if arguments.output == "-" else arguments.output
    asked = Asked(**{field: getattr(arguments, field) for field in Asked.__dataclass_fields__})
    states, remarks = states_of(read_bytes(arguments.file, whole=True), asked)
    total = check_limits(states)
    register = register_of(desk.Method.of(arguments.method), arguments.house, states)
    pairs = [(state.name, state.written) for state in states]
    if not arguments.names and all(plain == written for plain, written in pairs):
        pairs = []
    names_path = arguments.names or (names.beside(output) if output else None)
    writers = files_to_write(arguments.file, register, output, pairs, names_path)
    remarks = [f"{shown_path(arguments.file)}: {remark}" for remark in remarks]
    remarks += refusal_ahead(register, len(states), arguments.house)
    write_all(writers)
    if not output:
        sys.stdout.write(register.decode("ascii"))
        sys.stdout.flush()
    remarks += names_told(pairs, names_path)
    counted = f"{len(states)} state{'s' if len(states) > 1 else ''}, {grouped(total)} inhabitant{'s' if total > 1 else ''}"
    remarks.append(f"{output or 'standard output'}: {counted}, {arguments.method}, a house of {arguments.house}")
    print("\n".join(remarks), file=sys.stderr)


def check_limits(states: Sequence[State]) -> int:
    """The sum of the populations; stops where there are too many states or people for a register."""
    if len(states) > desk.STATES_LIMIT:
        state = states[desk.STATES_LIMIT]
        what = f'"{state.written}" is one state too many: a register has at most {desk.STATES_LIMIT}, and here are {len(states)}'
        raise CannotMake(what, state.row)
    total = 0
    for state in states:
        total += state.population
        if total > desk.SUM_LIMIT:
            what = f'with the {grouped(state.population)} of "{state.written}" the sum is {grouped(total)}'
            raise CannotMake(f"{what}, and the desk goes up to {grouped(desk.SUM_LIMIT)}", state.row)
    return total


def register_of(method: desk.Method, house: int, states: Sequence[State]) -> bytes:
    """The register, which the proved desk has to read back as it was meant."""
    called, populations = tuple(state.name for state in states), tuple(state.population for state in states)
    register = desk.register_text(method, house, called, populations)
    meant = desk.Register(method, house, sum(populations), called, populations)
    try:
        found = desk.read(register)
    except desk.Refused as refused:
        raise RuntimeError(f"a fault of office make, nothing was written: the desk does not take its register: {refused}") from refused
    if found != meant:
        raise RuntimeError(f"a fault of office make, nothing was written: the desk reads {found} where {meant} was meant")
    return register


def refusal_ahead(register: bytes, states: int, house: int) -> list[str]:
    """A warning where the desk reads the register and will not allot it: fewer seats than states under some methods."""
    try:
        desk.listing(register)
    except desk.Refused as refused:
        seats = f"{house} seat{'s' if house > 1 else ''} for {states} states"
        return [f"warning: the desk will refuse {refused.number}: {refused.wrong}: {seats}. Mend: {refused.mend}"]
    return []


def files_to_write(
    source: str, register: bytes, output: str | None, pairs: list[tuple[str, str]], names_path: str | None
) -> list[tuple[str, Writer]]:
    """The files to write and how, none of them the one that is read."""
    writers: list[tuple[str, Writer]] = []
    if output:
        writers.append((output, lambda path: _write_bytes(path, register)))
    if pairs and names_path:
        writers.append((names_path, lambda path: names.write_names(path, pairs)))
    for path, _ in writers:
        if _same(path, source):
            raise CannotMake("that is the file to be read: name another one to write", path=path)
    if len(writers) == 2 and os.path.realpath(writers[0][0]) == os.path.realpath(writers[1][0]):
        raise CannotMake("register and names cannot go to the same file: name another one with --names", path=names_path)
    return writers


def _same(path: str, source: str) -> bool:
    try:
        read = os.fstat(sys.stdin.fileno()) if source == "-" else os.stat(source)
        return os.path.samestat(os.stat(path), read)
    except OSError:
        return False


def _write_bytes(path: str, data: bytes) -> None:
    with open(path, "wb") as file:
        file.write(data)


def write_all(writers: Sequence[tuple[str, Writer]]) -> None:
    """Writes each file beside its place, and moves them there when all are written: a fault leaves what stood there before."""
    moves: list[tuple[str, str]] = []
    path = ""
    try:
        for path, write in writers:
            place = os.path.realpath(path)
            if os.path.exists(place) and not os.path.isfile(place):
                write(place)  # a device or a pipe cannot be moved to
                continue
            if os.path.exists(place) and not os.access(place, os.W_OK):
                raise PermissionError(0, "it is write-protected")
            moves.append((f"{place}.{os.getpid()}.new", place))
            write(moves[-1][0])
            if os.path.exists(place):
                shutil.copymode(place, moves[-1][0])
        for new, place in moves:
            os.replace(new, place)
    except OSError as error:
        raise CannotMake(f"cannot be written: {error.strerror or error}", path=path) from None
    finally:
        for new, _ in moves:
            if os.path.exists(new):
                os.remove(new)


def names_told(pairs: list[tuple[str, str]], names_path: str | None) -> list[str]:
    """Where the names as the spreadsheet has them are kept, or a warning that an older file would be taken for them."""
    if pairs and names_path:
        return [f"{names_path}: the names as the spreadsheet has them, which the other commands put back"]
    if pairs:
        return ["the names as the spreadsheet has them are kept with -o or --names"]
    if names_path and os.path.exists(names_path):
        return [f"warning: {names_path} is from an earlier time; no name was changed now, so take it away"]
    return []
