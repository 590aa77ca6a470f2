"""The command `office`: its parts, its help, and its exit status: 0, 1 for a refusal, 2 for usage or a file that cannot be read."""

from __future__ import annotations

import argparse
import importlib
import os
import sys

import desk

from . import faults
from .building import CannotBuild, ensure_library
from .files import RefusedFile, Unreadable

COMMANDS = ("make", "allot", "compare", "houses", "explain", "page")

DESCRIPTION = """\
From a spreadsheet to seats, with the proved desk. Every number shown comes from the proved library.
"""

EXAMPLES = """\
examples:
  office make --method leximin --house 106 counties.csv -o counties.register
  office page counties.register > counties.html

  office allot counties.register           the listing
  office compare counties.register         eight methods side by side
  office houses counties.register 100 110  worst departures by house
  office explain counties.register         leximin's work in sentences

exit status: 0 done; 1 the register was refused; 2 wrong usage, or a file that cannot be read or turned into a register
"""


def parser_of() -> argparse.ArgumentParser:
    """The parser of the command and of all its parts."""
    parser = argparse.ArgumentParser(
        prog="office", description=DESCRIPTION, epilog=EXAMPLES, formatter_class=argparse.RawDescriptionHelpFormatter
    )
    parser.add_argument("--version", action="version", version=f"office {desk.__version__}")
    commands = parser.add_subparsers(title="commands", metavar="COMMAND", dest="command")
    for name in COMMANDS:
        module = importlib.import_module(f"office.{name}")
        part = commands.add_parser(
            name,
            help=module.SUMMARY,
            description=module.DESCRIPTION,
            epilog=module.EXAMPLES,
            formatter_class=argparse.RawDescriptionHelpFormatter,
        )
        module.add_arguments(part)
        part.set_defaults(run=module.run)
    return parser


def main(words: list[str] | None = None) -> int:
    """Runs the command with the words given, and hands back its exit status."""
    for stream in (sys.stdout, sys.stderr):
        stream.reconfigure(encoding="utf-8", newline="\n")
    parser = parser_of()
    arguments = parser.parse_args(words)
    if arguments.command is None:
        parser.print_help()
        return 2
    try:
        ensure_library()
        status = arguments.run(arguments)
        sys.stdout.flush()
        return status
    except RefusedFile as refused:
        faults.tell(refused)
        return 1
    except desk.Refused as refused:
        print(f"office: {refused}. Mend: {refused.mend}", file=sys.stderr)
        return 1
    except (Unreadable, CannotBuild, desk.LibraryMissing) as error:
        print(f"office: {error}", file=sys.stderr)
        return 2
    except BrokenPipeError:
        # Whoever reads has seen enough; Python would complain again when it closes the stream.
        os.dup2(os.open(os.devnull, os.O_WRONLY), sys.stdout.fileno())
        return 2
    except OSError as error:
        print(f"office: {error.strerror or error}", file=sys.stderr)
        os.dup2(os.open(os.devnull, os.O_WRONLY), sys.stdout.fileno())
        return 2
    except KeyboardInterrupt:
        return 130
