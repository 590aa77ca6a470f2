"""Leximin's work on a page: the sentences of `office explain`, and for the other methods a line on what they do."""

from __future__ import annotations

from typing import Sequence

import desk

from . import explain
from . import walk as walking
from .figures import grouped
from .page_markup import Markup, element
from .page_words import TITLES, WAYS

# More steps than these are folded.
FEW = 12


def section(method: desk.Method, names: Sequence[str], work: walking.Walk | None) -> Markup:
    """The part of the page with the work."""
    return element(
        "section",
        element("h2", "How the seats came about", id="work"),
        element("p", WAYS[method]),
        *([_other(method)] if work is None else _told(work, names)),
        aria_labelledby="work",
    )


def _other(method: desk.Method) -> Markup:
    alone = "Work that is told step by step, with a reason for each, is leximin's alone"
    return element("p", f"{alone}; this register asks for {TITLES[method]}.")


def _told(work: walking.Walk, names: Sequence[str]) -> list[Markup]:
    return [
        *(element("p", sentence) for sentence in explain.start_sentences(work, names)),
        _steps(work, names),
        *(element("p", sentence) for sentence in explain.end_sentences(work, names)),
    ]


def _steps(work: walking.Walk, names: Sequence[str]) -> Markup:
    if not work.steps:
        return Markup()
    steps = element("ol", *(_step(work, step, names) for step in work.steps), class_="steps")
    if len(work.steps) <= FEW:
        return steps
    return element("details", element("summary", f"All {grouped(len(work.steps))} steps in sentences"), steps)


def _step(work: walking.Walk, step: walking.Step, names: Sequence[str]) -> Markup:
    return element("li", explain.step_sentence(work, step, names), id=f"step-{step.number}")
