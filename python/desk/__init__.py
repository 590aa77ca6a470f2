"""The proved allotment desk, called from Python.

It reads a register of states, allots a house by one of eight methods, shows leximin's work seat by seat, writes a listing, and writes clean
copies of registers. Each function here is a thin wrapper over a function of the proved library (``include/desk.h``): what it answers is
what the library answers, and nothing is reckoned again.

>>> register = b"register,leximin,3,2\\nNorth,100\\nSouth,200\\ntotal,300\\n"
>>> print(listing(register).decode(), end="")
allotment,leximin,3,2
North,100,1,0.000,in
South,200,2,0.000,in
total,300,3
>>> allot("leximin", 3, [100, 200]).seats
(1, 2)

A refusal is an exception with the number, the line at fault and a sentence:

>>> try:
...     read(b"register,leximin,3,2\\nNorth,100\\n")
... except Refused as refused:
...     print(refused.number, refused.line)
2 3
"""

from __future__ import annotations

from .operations import (
    Allotment,
    Departure,
    Placing,
    Register,
    allot,
    clean,
    departure,
    listing,
    name,
    read,
    register_text,
)
from .library import (
    CLEAN_ROOM,
    HOUSE_LIMIT,
    LISTING_ROOM,
    NAME_LIMIT,
    REGISTER_LIMIT,
    SHOWN_SCALE,
    STATES_LIMIT,
    SUM_LIMIT,
    LibraryMissing,
)
from .methods import METHODS, Mark, Method
from .refusals import REFUSALS, Refusal, Refused
from .version import __version__

__all__ = [
    "Allotment",
    "CLEAN_ROOM",
    "Departure",
    "HOUSE_LIMIT",
    "LISTING_ROOM",
    "LibraryMissing",
    "METHODS",
    "Mark",
    "Method",
    "NAME_LIMIT",
    "Placing",
    "REFUSALS",
    "REGISTER_LIMIT",
    "Refusal",
    "Refused",
    "Register",
    "SHOWN_SCALE",
    "STATES_LIMIT",
    "SUM_LIMIT",
    "__version__",
    "allot",
    "clean",
    "departure",
    "listing",
    "name",
    "read",
    "register_text",
]
