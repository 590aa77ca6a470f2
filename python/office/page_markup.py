"""Markup in which no text can be forgotten to be escaped: whatever is not markup already is escaped when an element takes it in."""

from __future__ import annotations

import html
from typing import Iterable, Union


class Markup(str):
    """Text that is markup already, and is taken in as it is."""


Piece = Union[str, int]


def text(piece: Piece) -> Markup:
    """A piece as markup: text and numbers are escaped, markup is left alone."""
    return piece if isinstance(piece, Markup) else Markup(html.escape(str(piece), quote=True))


def joined(pieces: Iterable[Piece], between: str = "") -> Markup:
    """Pieces one after the other."""
    return Markup(text(between).join(text(piece) for piece in pieces))


def element(tag: str, *pieces: Piece, **attributes: Piece | None) -> Markup:
    """An element with what it holds. An attribute has `_` for `-` in its name, and one more at its end where the word is Python's own."""
    return Markup(f"<{tag}{_written(attributes)}>{joined(pieces)}</{tag}>")


def empty(tag: str, **attributes: Piece | None) -> Markup:
    """An element that holds nothing, such as a line of a drawing."""
    return Markup(f"<{tag}{_written(attributes)}/>")


def unseen(words: Piece) -> Markup:
    """Words that a screen reader speaks where a sign stands for them on the screen."""
    return element("span", words, class_="unseen")


def captioned(name: str, *pieces: Piece) -> Markup:
    """A table's caption under a name; the part inside stays on a narrow screen while the table is scrolled."""
    return element("caption", element("span", *pieces), id=name)


def boxed(table: Markup, caption: str) -> Markup:
    """A table in a box of its own, which is scrolled where the screen is narrow, with the keyboard too."""
    return element("div", table, class_="box", role="region", tabindex=0, aria_labelledby=caption)


def _written(attributes: dict[str, Piece | None]) -> str:
    pairs = ((name.rstrip("_").replace("_", "-"), value) for name, value in attributes.items() if value is not None)
    return "".join(f' {name}="{html.escape(str(value), quote=True)}"' for name, value in pairs)
