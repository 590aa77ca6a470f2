"""The departures of a page: a table, a row a state, in which each departure is a bar beside its number. The table is the chart."""

from __future__ import annotations

from dataclasses import dataclass
from typing import Iterable, Sequence

from . import walk as walking
from .explain import counted
from .figures import Listed, Row, grouped
from .page_markup import Markup, Piece, element, empty, joined, unseen
from .page_scale import BANDS, BOTH_SIDES, REACH, axis, bar, whole

# From so many states on rows are set close.
MANY = 60
# The column of names is as wide as the longest of them, within these numbers of letters.
NARROWEST, WIDEST = 8, 26


@dataclass(frozen=True)
class Lines:
    """Where a row's bar and arrow stand, in pixels from its top."""

    top: int
    bar: int
    height: int
    arrow: int
    height_moved: int


ROOMY = Lines(top=7, bar=12, height=26, arrow=26, height_moved=34)
CLOSE = Lines(top=3, bar=10, height=16, arrow=18, height_moved=23)


@dataclass(frozen=True)
class Move:
    """What leximin's steps did to one state."""

    gained: bool
    steps: tuple[int, ...]
    start: int
    end: int


def moves_of(work: walking.Walk | None) -> dict[int, Move]:
    """By place, the states that a step moved. In one walk all steps add a seat, or all withdraw one."""
    if work is None:
        return {}
    steps: dict[int, list[walking.Step]] = {}
    for step in work.steps:
        steps.setdefault(step.place, []).append(step)
    return {place: _move(of_state) for place, of_state in steps.items()}


def _move(steps: Sequence[walking.Step]) -> Move:
    # Every state has a seat throughout leximin's work, so that no departure is missing.
    return Move(steps[0].gains, tuple(step.number for step in steps), steps[0].before.shown or 0, steps[-1].after.shown or 0)


def section(listed: Listed, names: Sequence[str], work: walking.Walk | None) -> Markup:
    """The part of the page with the departures."""
    moves = moves_of(work)
    return element(
        "section",
        element("h2", "How far each state is from the average", id="departures"),
        _sign(),
        _legend(listed, moves),
        _table(listed, names, moves),
        aria_labelledby="departures",
    )


def _sign() -> Markup:
    return element(
        "p",
        "The average is the number of all people divided by that of all seats. ",
        element("b", "Above the average"),
        " (to the right, a number without a sign) means more people a seat: each seat stands for more people, "
        "and a vote there weighs less. ",
        element("b", "Below the average"),
        " (to the left, a minus sign) means fewer people a seat, and a vote there weighs more.",
    )


# The drawings of the legend.
_SAMPLE = {"width": 32, "height": 14, "aria_hidden": "true", "focusable": "false"}


def _legend(listed: Listed, moves: dict[int, Move]) -> Markup:
    ten, fifteen = (whole(limit) for limit in BANDS)
    entries = [
        _swatch("in", f"up to {ten} per cent from the average"),
        _swatch("high", f"above {ten} and up to {fifteen}"),
        _swatch("over", f"above {fifteen}"),
    ]
    if any(row.shown is not None and BOTH_SIDES.passed(row.shown) for row in listed.rows):
        cut = f"torn: further than {whole(REACH)} per cent; the bar is cut there, and the number in its row tells how far"
        entries.append(_entry(_cut_sample(), cut))
    if moves:
        way = "where leximin's steps moved a state: from its departure at the start to the one at the end"
        entries.append(_entry(_arrow_sample(), way))
    return element("ul", *entries, class_="legend")


def _swatch(mark: str, meaning: str) -> Markup:
    drawing = element("svg", empty("rect", class_=mark, x=1, y=1, width=30, height=12), **_SAMPLE)
    return _entry(drawing, joined([element("b", mark), ": ", meaning]))


def _cut_sample() -> Markup:
    return element("svg", empty("rect", class_="over", y=1, width=32, height=12), empty("use", href="#cut-above", x=32, y=1), **_SAMPLE)


def _arrow_sample() -> Markup:
    return element("svg", empty("line", class_="way", x1=4, x2=29, y1=7, y2=7), **_SAMPLE)


def _entry(drawing: Markup, meaning: Piece) -> Markup:
    return element("li", drawing, " ", element("span", meaning))


def _table(listed: Listed, names: Sequence[str], moves: dict[int, Move]) -> Markup:
    lines = CLOSE if len(listed.rows) > MANY else ROOMY
    seated = [place for place, row in enumerate(listed.rows) if row.shown is not None]
    seated.sort(key=lambda place: -_shown(listed.rows[place]))
    seatless = [place for place, row in enumerate(listed.rows) if row.shown is None]
    bodies = [_body(_row(names[place], listed.rows[place], moves, place, lines) for place in seated)]
    if seatless:
        # Leximin, which alone has steps, gives each state a seat, so that these rows have no cell for them.
        bodies.append(_body([_apart(len(seatless)), *(_seatless(names[place], listed.rows[place]) for place in seatless)]))
    return element(
        "table",
        element("caption", _caption(bool(seatless))),
        _head(bool(moves)),
        *bodies,
        # The roles keep it a table for a screen reader where a narrow screen lays its rows out in two lines.
        role="table",
        class_="departures close" if lines is CLOSE else "departures",
        style=f"--longest:{max(NARROWEST, min(max(map(len, names)), WIDEST))}ch",
    )


def _shown(row: Row) -> int:
    return row.shown or 0


def _caption(apart: bool) -> str:
    words = "Population, seats and departure of each state, from the most people a seat to the fewest"
    return words + ("; states without a seat at the end." if apart else ".")


def _body(rows: Iterable[Markup]) -> Markup:
    return element("tbody", *rows, role="rowgroup")


def _head(moved: bool) -> Markup:
    phrases = [
        element("text", "◂ fewer people a seat", x="0%", y=12, class_="start"),
        element("text", "more people a seat ▸", x="100%", y=12, class_="end"),
    ]
    columns = [
        _column("State", "name"),
        _column("Population", "people"),
        _column("Seats", "seats"),
        _column("Moved", "moved") if moved else Markup(),
        _column(joined([unseen("Departure as a bar"), axis(BOTH_SIDES, 36, *phrases)]), "bar"),
        _column("Departure, per cent", "departure"),
        _column("Mark", "mark"),
    ]
    return element("thead", element("tr", *columns, role="row"), role="rowgroup")


def _column(heading: Piece, kind: str) -> Markup:
    return element("th", heading, scope="col", role="columnheader", class_=kind)


def _row(name: str, row: Row, moves: dict[int, Move], place: int, lines: Lines) -> Markup:
    move = moves.get(place)
    return element(
        "tr",
        _name(name),
        _cell(grouped(row.population), "people"),
        _cell(grouped(row.seats), "seats"),
        _cell(_moved(move), "moved") if moves else Markup(),
        _cell(_drawing(_shown(row), row.mark, move, lines), "bar"),
        _cell(row.departure, "departure"),
        _cell(row.mark, "mark"),
        role="row",
        class_=row.mark,
    )


def _name(name: str) -> Markup:
    return element("th", name, scope="row", role="rowheader", class_="name")


def _cell(content: Piece, kind: str) -> Markup:
    return element("td", content, role="cell", class_=kind)


def _drawing(shown: int, mark: str, move: Move | None, lines: Lines) -> Markup:
    parts = [empty("use", href="#both-sides"), bar(BOTH_SIDES, shown, mark, lines.top, lines.bar)]
    if BOTH_SIDES.passed(shown):
        # The other half of the row is free, so that the words stand beside the line of the average.
        side = "before" if shown > 0 else "after"
        parts.append(element("text", f"cut at {whole(REACH)}", x="50%", y=lines.top + lines.bar - 2, class_=side))
    if move is not None:
        parts.append(_way(move, lines.arrow))
    height = lines.height if move is None else lines.height_moved
    return element("svg", *parts, height=height, aria_hidden="true", focusable="false")


def _way(move: Move, y: int) -> Markup:
    """An arrow from the departure at the start to the one at the end; from the edge where the start lies beyond the scale."""
    start, end = BOTH_SIDES.place(move.start), BOTH_SIDES.place(move.end)
    if start == end:
        return Markup()
    kind = "way beyond" if BOTH_SIDES.passed(move.start) else "way"
    return empty("line", class_=kind, x1=start, x2=end, y1=y, y2=y)


def _moved(move: Move | None) -> Piece:
    """The seats that a state gained or gave up, and at which steps, with ways to the sentences that tell why."""
    if move is None:
        return ""
    count = element("b", f"{'+' if move.gained else '−'}{grouped(len(move.steps))}")
    words = "step " if len(move.steps) == 1 else "steps "
    return joined([count, ", ", words, _steps(move.steps)])


def _steps(steps: Sequence[int]) -> Markup:
    runs = _runs(steps)
    if len(runs) > 3:
        return joined([_link(steps[0]), " to ", _link(steps[-1])])
    return joined([_link(low) if low == high else joined([_link(low), " to ", _link(high)]) for low, high in runs], ", ")


def _link(step: int) -> Markup:
    return element("a", grouped(step), href=f"#step-{step}")


def _runs(numbers: Sequence[int]) -> list[tuple[int, int]]:
    """Numbers that follow one another, as pairs of the first and the last: 1, 2, 3, 7 is 1 to 3 and 7."""
    runs: list[tuple[int, int]] = []
    for number in numbers:
        if runs and number == runs[-1][1] + 1:
            runs[-1] = (runs[-1][0], number)
        else:
            runs.append((number, number))
    return runs


def _apart(count: int) -> Markup:
    heading = element("th", f"{counted(count, 'state')} without a seat", scope="rowgroup", role="rowheader", colspan=6)
    return element("tr", heading, role="row", class_="apart")


def _seatless(name: str, row: Row) -> Markup:
    return element(
        "tr",
        _name(name),
        _cell(grouped(row.population), "people"),
        _cell(grouped(row.seats), "seats"),
        _cell("no seat, so that there is no departure", "bar"),
        _cell(row.departure, "departure"),
        _cell(row.mark, "mark"),
        role="row",
        class_=row.mark,
    )
