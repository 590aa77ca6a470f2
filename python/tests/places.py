"""Where things lie in the repository, for the tests."""

from __future__ import annotations

from pathlib import Path

ROOT = Path(__file__).parents[2]
EXAMPLES = ROOT / "examples"
HEADER = ROOT / "include" / "desk.h"


def example(name: str) -> bytes:
    """An example's bytes: ``example("five-states.register")``."""
    return (EXAMPLES / name).read_bytes()
