"""Reading the files that people name, and refusals that remember the file they are about."""

from __future__ import annotations

import sys
from typing import Sequence

import desk


class Unreadable(Exception):
    """A file that cannot be read; the message says which one and why."""


class RefusedFile(desk.Refused):
    """A refusal together with the file and the bytes that were refused, so that it can be told in words."""

    def __init__(self, path: str, data: bytes, refused: desk.Refused) -> None:
        super().__init__(refused.number, refused.line)
        self.path = path
        self.data = data


def shown_path(path: str) -> str:
    """A path as messages name it."""
    return "standard input" if path == "-" else path


def read_bytes(path: str, whole: bool = False) -> bytes:
    """A file's bytes, standard input's for ``-``. Of a register one byte more than it may have is enough for the desk to refuse it."""
    limit = -1 if whole else desk.REGISTER_LIMIT + 1
    try:
        if path == "-":
            return sys.stdin.buffer.read(limit)
        with open(path, "rb") as file:
            return file.read(limit)
    except OSError as error:
        raise Unreadable(f"{shown_path(path)}: cannot be read: {error.strerror or error}") from None


def refused(path: str, data: bytes, refusal: desk.Refused) -> RefusedFile:
    """The refusal of an operation on a file's bytes."""
    return RefusedFile(path, data, refusal)


def read_register(path: str) -> tuple[bytes, desk.Register]:
    """A file's bytes, and the register that the desk reads from them."""
    data = read_bytes(path)
    try:
        register = desk.read(data)
    except desk.Refused as refusal:
        raise refused(path, data, refusal) from None
    remark_on_quotes(path, register.names)
    return data, register


def remark_on_quotes(path: str, names: Sequence[str]) -> None:
    """Says where names stand in quotes. A register has no quoting, so the desk reads the quotes as part of the names; whoever wrote them may
    have meant otherwise."""
    lines = [place for place, name in enumerate(names, start=2) if len(name) > 1 and name[0] == name[-1] == '"']
    if lines:
        one = f"the quotes around the name on line {lines[0]} are read as part of it"
        several = f"the quotes around names on {len(lines)} lines, the first of them line {lines[0]}, are read as part of these"
        print(
            f"{shown_path(path)}: {several if lines[1:] else one}, since a register has no quoting; "
            "if they are not meant so, take them out (`office make` puts none into a register)",
            file=sys.stderr,
        )
