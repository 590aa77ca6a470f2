"""Words that several parts of a page share: the methods' names, and what each does in a line."""

from __future__ import annotations

import desk

from .figures import grouped

_AFTER_PEOPLE = (desk.Method.ADAMS, desk.Method.DEAN, desk.Method.HILL, desk.Method.WEBSTER, desk.Method.JEFFERSON)

# As a heading has it, and as a sentence has it.
HEADINGS = {method: method.word.capitalize() for method in desk.METHODS}
TITLES = {
    **{method: f"{HEADINGS[method]}'s method" for method in _AFTER_PEOPLE},
    desk.Method.LEXIMIN: "leximin",
    desk.Method.REMAINDERS: "largest remainders",
    desk.Method.QUOTA: "the quota method",
}

_EACH_SEATED = "Each state has a seat at least."
_MAYBE_SEATLESS = "A state may be left without a seat."
WAYS = {
    desk.Method.LEXIMIN: "Leximin makes the largest departure as small as it can be, then the next largest, and so on. " + _EACH_SEATED,
    desk.Method.ADAMS: "Adams's method gives seat after seat to the state with the most people for each seat that it has. " + _EACH_SEATED,
    desk.Method.DEAN: "Dean's method gives seat after seat to the state with the most people a seat, where its seats are counted midway "
    "between those that it has and one more, by the harmonic mean. " + _EACH_SEATED,
    desk.Method.HILL: "Hill's method gives seat after seat to the state with the most people a seat, where its seats are counted midway "
    "between those that it has and one more, by the geometric mean. " + _EACH_SEATED,
    desk.Method.WEBSTER: "Webster's method gives seat after seat to the state with the most people a seat, where its seats are counted "
    "midway between those that it has and one more, at the half. " + _MAYBE_SEATLESS,
    desk.Method.JEFFERSON: "Jefferson's method gives seat after seat to the state that would have the most people a seat with that seat. "
    + _MAYBE_SEATLESS,
    desk.Method.REMAINDERS: "Largest remainders first gives each state the whole part of its share of the house; seats left go to the "
    "states with the largest rest. " + _MAYBE_SEATLESS,
    desk.Method.QUOTA: "The quota method gives seat after seat as Jefferson's does, but only to states below their share of the seats "
    "so far; each state ends with its share of the house rounded down or up. " + _MAYBE_SEATLESS,
}


def are(number: int) -> str:
    """So many are: ``none is``, ``1 is``, ``15 are``."""
    return f"{grouped(number) if number else 'none'} {'is' if number <= 1 else 'are'}"
