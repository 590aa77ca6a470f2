"""The eight methods side by side on a page: what `office compare` tells, as tables."""

from __future__ import annotations

from typing import Callable, Sequence

import desk

from .compare import Column, columns_of, differing_states, order_sentences, refused_sentences, worst_of
from .figures import Listed, grouped
from .page_markup import Markup, Piece, boxed, captioned, element, joined, unseen
from .page_words import HEADINGS, TITLES

# From so many states on their seats are folded.
MANY = 60
_Tell = Callable[[Column, Listed], str]


def section(register: desk.Register, listed: Listed, names: Sequence[str]) -> Markup:
    """The part of the page with the methods."""
    columns = columns_of(register)
    asked = f"The same states and the same house under each of the eight methods. This register asks for {TITLES[listed.method]}."
    return element(
        "section",
        element("h2", "The methods side by side", id="methods"),
        *(element("p", sentence) for sentence in [asked, *refused_sentences(columns), " ".join(order_sentences(names, columns))]),
        boxed(_short(listed, names, columns), "methods-short"),
        _seats(listed, names, columns),
        aria_labelledby="methods",
    )


def _headings(listed: Listed, columns: Sequence[Column], first: Markup) -> Markup:
    headings = [
        element("th", HEADINGS[column.method], _own_word(column, listed), scope="col", class_=_own(column, listed)) for column in columns
    ]
    return element("thead", element("tr", first, *headings))


def _own(column: Column, listed: Listed) -> str | None:
    return "own" if column.method == listed.method else None


def _own_word(column: Column, listed: Listed) -> Piece:
    return element("small", " this register") if column.method == listed.method else ""


def _short(listed: Listed, names: Sequence[str], columns: Sequence[Column]) -> Markup:
    lines: list[tuple[str, _Tell, str | None]] = [
        ("Worst departure, in %", lambda column, seen: worst_of(seen, names)[0], None),
        ("of the state", lambda column, seen: worst_of(seen, names)[1], "name"),
        ("in: up to 10 per cent", lambda column, seen: grouped(seen.count("in")), None),
        ("high: above 10, up to 15", lambda column, seen: grouped(seen.count("high")), None),
        ("over: above 15", lambda column, seen: grouped(seen.count("over")), None),
        ("none: without a seat", lambda column, seen: grouped(seen.count("none")), None),
        ("States with other seats", lambda column, seen: grouped(len(differing_states(listed, seen))), None),
        ("Register order decided", lambda column, seen: "yes" if column.turned else "no", None),
    ]
    return element(
        "table",
        captioned("methods-short", "Worst departure and marks under each method."),
        _headings(listed, columns, element("td")),
        # That a method refuses the register is said once in its column.
        element("tbody", *(_line(*line, "–" if below else "refused", listed, columns) for below, line in enumerate(lines))),
        class_="methods short",
    )


def _line(heading: str, tell: _Tell, kind: str | None, refused: str, listed: Listed, columns: Sequence[Column]) -> Markup:
    cells = [
        element("td", refused if column.listed is None else tell(column, column.listed), class_=_classes(kind, _own(column, listed)))
        for column in columns
    ]
    return element("tr", element("th", heading, scope="row"), *cells)


def _classes(*kinds: str | None) -> str | None:
    return " ".join(kind for kind in kinds if kind) or None


def _seats(listed: Listed, names: Sequence[str], columns: Sequence[Column]) -> Markup:
    table = element(
        "table",
        captioned("methods-seats", *_seats_caption(listed)),
        _headings(listed, columns, element("th", "State", scope="col", class_="name")),
        element("tbody", *(_state(place, name, listed, columns) for place, name in enumerate(names))),
        class_="methods seats",
    )
    box = boxed(table, "methods-seats")
    if len(names) <= MANY:
        return box
    return element("details", element("summary", f"Seats of each of the {grouped(len(names))} states under each method"), box)


def _seats_caption(listed: Listed) -> list[Piece]:
    return [
        "Seats of each state under each method, in register order. ",
        f"Seats that differ from those under {TITLES[listed.method]} are in bold with a sign: ",
        _sign(True),
        " more, ",
        _sign(False),
        " fewer.",
    ]


def _sign(more: bool) -> Markup:
    return element("i", "▲" if more else "▼", aria_hidden="true")


def _state(place: int, name: str, listed: Listed, columns: Sequence[Column]) -> Markup:
    cells = (_cell(column, place, listed) for column in columns)
    return element("tr", element("th", name, scope="row", class_="name"), *cells)


def _cell(column: Column, place: int, listed: Listed) -> Markup:
    if column.listed is None:
        return element("td", "–")
    seats, own = column.listed.rows[place].seats, listed.rows[place].seats
    if seats == own:
        return element("td", grouped(seats), class_=_own(column, listed))
    more = seats > own
    return element("td", joined([element("b", grouped(seats)), _sign(more), unseen(" more" if more else " fewer")]))
