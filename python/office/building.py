"""Builds the proved library on first use. Building proves every crate below it, which takes many minutes, so it tells how far it is."""

from __future__ import annotations

import fcntl
import os
import re
import shutil
import subprocess
import sys
import time
from pathlib import Path

ROOT = Path(__file__).parents[2]
LOG = ROOT / "target" / "office-build.log"
# What the kit prints when it begins a crate; of one that it has built before it prints nothing.
_BEGUN = re.compile(rb"^rt: chose .* for ([a-z0-9_]+)$")


class CannotBuild(Exception):
    """The library is not there and cannot be built; the message says why."""


def crates_below(name: str, listing: str) -> list[str]:
    """The crates that one stands on, itself the last, in the order in which the kit builds them, by the lines of crates.txt."""
    below = {}
    for line in listing.splitlines():
        crate, colon, others = line.partition("#")[0].partition(":")
        if colon:
            # Its kind may follow the name.
            below[crate.split()[0]] = others.split()
    found: list[str] = []

    def visit(crate: str) -> None:
        # The kit's own libraries have no line there.
        if crate in below and crate not in found:
            for other in below[crate]:
                visit(other)
            found.append(crate)

    visit(name)
    return found


def ensure_library() -> None:
    """Sees that the library is there and as new as its sources. An installed one, which DESK_LIBRARY names, is taken as it is."""
    if os.environ.get("DESK_LIBRARY") or not (ROOT / "crates.txt").exists():
        return
    if not shutil.which("make"):
        if (ROOT / "target" / "lib" / "libdesk.so").exists():
            return
        raise CannotBuild("the proved library is not built yet, and `make`, which builds it, is not on this machine")
    if _up_to_date():
        return
    (ROOT / "target").mkdir(exist_ok=True)
    with open(ROOT / "target" / "office.lock", "w") as lock:
        # A second command that was started meanwhile waits here, and then finds everything built.
        fcntl.flock(lock, fcntl.LOCK_EX)
        if not _up_to_date():
            _build()


def _up_to_date() -> bool:
    return subprocess.run(["make", "-s", "-q", "-C", str(ROOT), "shared"], stdout=subprocess.DEVNULL, stderr=subprocess.DEVNULL).returncode == 0


def _build() -> None:
    for tool, what in (("rt", "the command of the Rattle kit"), ("cc", "a C compiler")):
        if not shutil.which(tool):
            raise CannotBuild(f"the proved library has to be built first, and `{tool}`, {what}, is not on this machine")
    crates = crates_below("desk", (ROOT / "crates.txt").read_text(encoding="utf-8"))
    _say("The proved library is built once, which takes many minutes: every crate below it is proved.")
    began = time.monotonic()
    with open(LOG, "wb") as log:
        command = ["make", "-s", "-C", str(ROOT), "shared"]
        with subprocess.Popen(command, stdout=subprocess.PIPE, stderr=subprocess.STDOUT, stdin=subprocess.DEVNULL) as process:
            for line in process.stdout:
                log.write(line)
                begun = _BEGUN.match(line)
                if begun and begun[1].decode() in crates:
                    _progress(crates.index(begun[1].decode()) + 1, len(crates), began)
    if sys.stderr.isatty():
        _say("")
    if process.returncode != 0:
        tail = LOG.read_bytes().decode("utf-8", "replace").splitlines()[-20:]
        raise CannotBuild("the proved library could not be built; the end of target/office-build.log:\n" + "\n".join(tail))
    _say(f"Built in {_minutes(time.monotonic() - began)}.")


def _progress(crate: int, count: int, began: float) -> None:
    line = f"crate {crate} of {count}, {_minutes(time.monotonic() - began)}"
    if sys.stderr.isatty():
        print(f"\r{line}\x1b[K", end="", file=sys.stderr, flush=True)
    else:
        _say(line)


def _say(line: str) -> None:
    print(line, file=sys.stderr, flush=True)


def _minutes(seconds: float) -> str:
    minutes, rest = divmod(round(seconds), 60)
    return f"{minutes} min {rest} s" if minutes else f"{rest} s"
