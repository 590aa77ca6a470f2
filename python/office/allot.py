"""`office allot`: the listing of each register, byte for byte as the proved desk writes it."""

from __future__ import annotations

import argparse
import os
import sys

import desk

from . import faults, files

SUMMARY = "the listing of registers: seats, departures and marks"
DESCRIPTION = """\
Writes the listing of each register to standard output, as the proved desk
writes it: a line a state with its population, seats, departure from the average
in per cent, and mark (in: up to 10 per cent, high: up to 15, over: beyond,
none: without a seat). Above the average means more people a seat.

Of a register that is refused it writes the line refused,NUMBER,LINE there, says
on standard error what is wrong and what to mend, and goes on with the next one.
"""
EXAMPLES = """\
examples:
  office allot counties.register
  office allot counties.register > counties.listing
  office make --method hill --house 106 counties.csv | office allot -

exit status: 0 all are listed; 1 a register was refused; 2 a file could not be
read, or the listing could not be written
"""


def add_arguments(parser: argparse.ArgumentParser) -> None:
    parser.add_argument("registers", metavar="FILE", nargs="*", help="a register; - or none for standard input")


def run(arguments: argparse.Namespace) -> int:
    status = 0
    if not arguments.registers and sys.stdin is not None and sys.stdin.isatty():
        print("office: no file is named, so the register is read from the keyboard; Ctrl-D ends it", file=sys.stderr)
    for path in arguments.registers or ["-"]:
        refusal = None
        try:
            data = files.read_bytes(path)
            text = desk.listing(data)
        except files.Unreadable as error:
            print(f"office: {error}", file=sys.stderr)
            status = 2
            continue
        except desk.Refused as refused:
            refusal = files.refused(path, data, refused)
            text = b"refused,%d,%d\n" % (refused.number, refused.line)
        if not _written(text):
            return 2
        if refusal is None:
            files.remark_on_quotes(path, [line.partition(",")[0] for line in text.decode("ascii").splitlines()[1:-1]])
        else:
            faults.tell(refusal)
            status = max(status, 1)
    return status


def _written(text: bytes) -> bool:
    """Writes a text to standard output as it is. Where it is not taken that is told once, and nothing more is tried."""
    try:
        sys.stdout.flush()
        sys.stdout.buffer.write(text)
        # Before anything is said about the next file, and so that an error is told of the file that it belongs to.
        sys.stdout.buffer.flush()
        return True
    except OSError as error:
        print(f"office: standard output: {error.strerror or error}", file=sys.stderr)
        # What is left in the buffer would be tried again when Python ends, and complained of again.
        os.dup2(os.open(os.devnull, os.O_WRONLY), sys.stdout.fileno())
        return False
