"""The scales that departures are drawn on, and the shapes that all bars share.

A length is made from a departure as the listing shows it, in thousandths of a per cent, and from nothing else. Places are written in per
cent of the drawing's width, so that a drawing is as wide as its cell and its patterns and letters are never stretched.
"""

from __future__ import annotations

from dataclasses import dataclass

from .page_markup import Markup, element, empty, joined

# The limits of the marks, in thousandths of a per cent.
BANDS = (10_000, 15_000)
# How far a bar reaches before it is cut.
REACH = 20_000


@dataclass(frozen=True)
class Scale:
    """A stretch of departures, from the left edge of a drawing to the right one."""

    low: int
    high: int

    def place(self, shown: int) -> str:
        """Where a departure lies, in per cent of the width; what passes the scale lies on its edge."""
        return percent(self._share(shown))

    def length(self, one: int, other: int) -> str:
        """How far two departures lie apart."""
        return percent(abs(self._share(one) - self._share(other)))

    def passed(self, shown: int) -> bool:
        """Whether a departure lies beyond the scale."""
        return not self.low <= shown <= self.high

    def _share(self, shown: int) -> float:
        return 100 * (min(max(shown, self.low), self.high) - self.low) / (self.high - self.low)


BOTH_SIDES = Scale(-REACH, REACH)


def sizes_up_to(largest: int) -> Scale:
    """A scale for departures without their signs: up to 20 per cent, or as far as the largest one needs, but never beyond 100."""
    for end in (REACH, 30_000, 40_000, 60_000, 80_000):
        if largest <= end:
            return Scale(0, end)
    return Scale(0, 100_000)


def percent(share: float) -> str:
    """A share of the width, in as few digits as still tell two pixels apart."""
    return f"{share:.2f}".rstrip("0").rstrip(".") + "%"


def whole(shown: int) -> str:
    """A limit of a band or a scale in per cent."""
    return str(shown // 1000)


def bands(scale: Scale, name: str) -> Markup:
    """What lies behind the bars of a table: tinted bands, a line at each limit, and the line of the average."""
    limits = [sign * limit for limit in BANDS for sign in (-1, 1) if not scale.passed(sign * limit)]
    tints = [_tint(scale, "mid", *BANDS), _tint(scale, "far", BANDS[1], scale.high)]
    if scale.low < 0:
        tints += [_tint(scale, "mid", -BANDS[1], -BANDS[0]), _tint(scale, "far", scale.low, -BANDS[1])]
    lines = [_upright(scale, limit, "limit") for limit in limits] + [_upright(scale, 0, "average")]
    return element("g", *tints, *lines, id=name)


def _tint(scale: Scale, kind: str, low: int, high: int) -> Markup:
    return empty("rect", class_=kind, x=scale.place(low), width=scale.length(low, high), height="100%")


def _upright(scale: Scale, shown: int, kind: str) -> Markup:
    place = scale.place(shown)
    return empty("line", class_=kind, x1=place, x2=place, y2="100%")


def shapes() -> Markup:
    """The patterns of the marks, the torn ends of bars that are cut, and the ends of arrows. They are drawn where a bar asks for them."""
    return element(
        "svg",
        element(
            "defs",
            _pattern("high", "M-1 1l2 -2M0 6l6 -6M5 7l2 -2"),
            _pattern("over", "M0 0l6 6M6 0l-6 6"),
            _torn("cut-above", ""),
            _torn("cut-below", "scale(-1 1)"),
            _arrow_end("tip", "M0 0L8 4L0 8z", 7),
            _arrow_end("tail", "M4 1a3 3 0 1 0 .01 0z", 4),
            bands(BOTH_SIDES, "both-sides"),
        ),
        class_="shapes",
        width=0,
        height=0,
        aria_hidden="true",
        focusable="false",
    )


def _pattern(mark: str, strokes: str) -> Markup:
    ground = empty("rect", width=6, height=6, class_=f"ground-{mark}")
    lines = empty("path", d=strokes, class_=f"lines-{mark}")
    return element("pattern", ground, lines, id=f"fill-{mark}", width=6, height=6, patternUnits="userSpaceOnUse")


def _torn(name: str, turned: str) -> Markup:
    """The end of a bar that goes on beyond the scale: torn off, then an arrow head that touches the edge."""
    gap = empty("path", class_="gap", d="M-20 -1l4 3.5l-4 3.5l4 3.5l-4 3.5l4 3.5V-1.5z")
    blank = empty("rect", class_="gap", x=-17, y=-1, width=18, height=15)
    head = empty("path", class_="head", d="M-11 0L-1 6L-11 12z")
    return element("g", element("g", gap, blank, head, transform=turned or None), id=name)


def _arrow_end(name: str, outline: str, middle: int) -> Markup:
    path = empty("path", d=outline)
    return element(
        "marker", path, id=name, refX=middle, refY=4, markerWidth=8, markerHeight=8, markerUnits="userSpaceOnUse", orient="auto"
    )


def axis(scale: Scale, height: int, *more: Markup) -> Markup:
    """The labels of a scale, for the heading above its bars: the average, the limits of the bands, and how far a scale of one side goes."""
    shown = [0] + [sign * limit for limit in BANDS for sign in (-1, 1) if not scale.passed(sign * limit)]
    labels = [_label(scale, place, height) for place in sorted(shown) + ([scale.high] if scale.low == 0 else [])]
    return element("svg", *more, *labels, height=height, aria_hidden="true", focusable="false")


def _label(scale: Scale, shown: int, height: int) -> Markup:
    words = "average" if shown == 0 and scale.low < 0 else f"{'−' if shown < 0 else ''}{whole(abs(shown))}%"
    return element("text", words, x=scale.place(shown), y=height - 6, class_="end" if shown == scale.high else "middle")


def bar(scale: Scale, shown: int, mark: str, top: int, height: int) -> Markup:
    """A bar from the average to a departure; cut and torn where it passes the scale."""
    rect = empty(
        "rect",
        class_=mark,
        x=scale.place(min(shown, 0)),
        y=top,
        width=scale.length(shown, 0),
        height=height,
    )
    if not scale.passed(shown):
        return rect
    name, place = ("cut-above", "100%") if shown > 0 else ("cut-below", "0%")
    return joined([rect, empty("use", href=f"#{name}", x=place, y=top + (height - 12) / 2)])
