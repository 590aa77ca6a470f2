"""Names as people write them. A register holds plain letters only; a file beside it can hold each name with its accents.

Such a file is CSV in UTF-8 with two columns, the name in the register and the name as people write it, a line a state. States that it does
not name are shown as the register has them.
"""

from __future__ import annotations

import argparse
import csv
import io
import os
import sys
from typing import Sequence

import desk

from .files import Unreadable, read_bytes, shown_path


class WrongNames(Unreadable):
    """A file of names that does not fit its register."""


def add_names_argument(parser: argparse.ArgumentParser) -> None:
    """Adds `--names FILE`."""
    parser.add_argument(
        "--names",
        metavar="FILE",
        help="show names as this file has them (two columns: the register's name, the name to show); "
        "by itself, X.names beside X.register is taken",
    )


def beside(path: str) -> str:
    """Where the names of a register lie: `X.names` beside `X.register`."""
    return os.path.splitext(path)[0] + ".names"


def shown_names(arguments: argparse.Namespace, path: str, register: desk.Register) -> tuple[str, ...]:
    """The names to show, in register order: from the file asked for, or from the one beside the register, or the register's own."""
    if arguments.names is not None:
        return _put_back(arguments.names, register)
    if path == "-" or not os.path.exists(beside(path)):
        return register.names
    try:
        return _put_back(beside(path), register)
    except Unreadable as error:
        # Nobody asked for this file, so it does not stand in the way.
        print(f"{error}; the register's own names are shown", file=sys.stderr)
        return register.names


def _put_back(path: str, register: desk.Register) -> tuple[str, ...]:
    try:
        text = read_bytes(path, whole=True).decode("utf-8-sig")
    except UnicodeDecodeError:
        raise WrongNames(f"{shown_path(path)}: not in UTF-8") from None
    known = set(register.names)
    shown: dict[str, str] = {}
    for number, row in enumerate(csv.reader(io.StringIO(text, newline="")), start=1):
        if not row:
            continue
        if len(row) != 2 or not row[1].strip():
            raise WrongNames(f"{shown_path(path)}, row {number}: two columns are expected, the register's name and the name to show")
        if row[0] not in known:
            raise WrongNames(f'{shown_path(path)}, row {number}: the register has no state "{row[0]}"')
        if row[0] in shown:
            raise WrongNames(f'{shown_path(path)}, row {number}: "{row[0]}" stands there twice')
        shown[row[0]] = row[1].strip()
    return tuple(shown.get(name, name) for name in register.names)


def write_names(path: str, pairs: Sequence[tuple[str, str]]) -> None:
    """Writes a file of names: for each state the name in the register and the name as people write it."""
    out = io.StringIO(newline="")
    csv.writer(out, lineterminator="\n").writerows(pairs)
    with open(path, "w", encoding="utf-8", newline="") as file:
        file.write(out.getvalue())
