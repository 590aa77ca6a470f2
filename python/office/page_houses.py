"""Worst departures by house on a page, around the house asked for: what `office houses` tells, as a table with a bar in each row."""

from __future__ import annotations

from typing import Sequence

import desk

from .compare import worst_of
from .figures import Listed, Row, grouped
from .houses import House, houses_of
from .page_markup import Markup, boxed, captioned, element, empty, joined, unseen
from .page_scale import BANDS, Scale, axis, bands, bar, sizes_up_to, whole
from .page_words import TITLES

HEIGHT, TOP, BAR = 24, 6, 12


def section(register: desk.Register, listed: Listed, names: Sequence[str], around: int) -> Markup:
    """The part of the page with the houses up to so many seats smaller and larger than the one asked for, within the desk's limits."""
    first, last = max(1, register.house - around), min(desk.HOUSE_LIMIT, register.house + around)
    return element(
        "section",
        element("h2", "Worst departure by house", id="houses"),
        element(
            "p",
            f"The same states under {TITLES[listed.method]}, with some seats fewer or more than the {grouped(listed.house)} asked for. "
            "This is a table and not a promise of the best house: it weighs departures and nothing else, and shows no other houses.",
        ),
        _table(listed, names, list(houses_of(register, first, last))),
        aria_labelledby="houses",
    )


def _table(listed: Listed, names: Sequence[str], houses: Sequence[House]) -> Markup:
    scale = sizes_up_to(max(_size(house.listed.worst) for house in houses if house.listed is not None))
    seatless = any(house.listed is not None and house.listed.count("none") for house in houses)
    table = element(
        "table",
        captioned("houses-table", "For each house its worst departure, the state that has it, and how many states are over the limits."),
        element("thead", element("tr", *_headings(scale, seatless))),
        element("tbody", *(_row(house, listed.house, names, scale, seatless) for house in houses)),
        class_="houses",
    )
    # How far the scale goes hangs on the worst departures here, so that this table has bands of its own.
    behind = element(
        "svg", element("defs", bands(scale, "one-side")), class_="shapes", width=0, height=0, aria_hidden="true", focusable="false"
    )
    return joined([boxed(table, "houses-table"), behind])


def _headings(scale: Scale, seatless: bool) -> list[Markup]:
    ten, fifteen = (whole(limit) for limit in BANDS)
    return [
        element("th", "House", scope="col", class_="words"),
        element("th", "Worst departure, per cent", scope="col"),
        element("th", unseen("Its size as a bar"), axis(scale, 22), scope="col", class_="bar"),
        element("th", "State", scope="col", class_="name"),
        element("th", f"States over {ten} per cent", scope="col"),
        element("th", f"States over {fifteen} per cent", scope="col"),
        element("th", "States without a seat", scope="col") if seatless else Markup(),
    ]


def _row(house: House, asked: int, names: Sequence[str], scale: Scale, seatless: bool) -> Markup:
    own = house.house == asked
    heading = element("th", grouped(house.house), element("small", " asked for") if own else "", scope="row")
    if house.listed is None:
        refused = element("td", f"no seats: {house.refusal}", colspan=6 if seatless else 5, class_="words")
        return element("tr", heading, refused)
    departure, state = worst_of(house.listed, names)
    return element(
        "tr",
        heading,
        element("td", departure),
        element("td", _drawing(house.listed.worst, scale), class_="bar"),
        element("td", state, class_="name"),
        element("td", grouped(house.listed.count("high", "over"))),
        element("td", grouped(house.listed.count("over"))),
        element("td", grouped(house.listed.count("none"))) if seatless else Markup(),
        class_="own" if own else None,
    )


def _drawing(worst: Row, scale: Scale) -> Markup:
    drawn = bar(scale, _size(worst), worst.mark, TOP, BAR)
    return element("svg", empty("use", href="#one-side"), drawn, height=HEIGHT, aria_hidden="true", focusable="false")


def _size(row: Row) -> int:
    return abs(row.shown or 0)
