"""What the library answered of one plan or of two, in a word and a sentence: the same in a command, on a picture and on a page."""

from __future__ import annotations

from typing import NamedTuple

from .compare import NOT_COMPARABLE, SAME, Comparison, Side
from .tell import Told

VALID, NOT_VALID = "VALID", "NOT VALID"
STOPPING = (NOT_VALID, NOT_COMPARABLE)
"""The verdicts that somebody who signs must not pass over."""


class Verdict(NamedTuple):
    """The word, and what is said of it after `between`."""

    word: str
    between: str
    said: str

    def __str__(self) -> str:
        return f"{self.word}{self.between}{self.said}"


def of_refusal(refusal: Told | None) -> Verdict:
    """Of a plan, by the refusal of its normal form if there was one."""
    if refusal is None:
        return Verdict(VALID, ": ", "within bounds, and every queue within its limit")
    return Verdict(NOT_VALID, ": ", str(refusal))


def of_plan(side: Side) -> Verdict:
    """Of a plan."""
    return of_refusal(side.refusal)


def of_comparison(found: Comparison) -> Verdict:
    """Of two plans."""
    if found.verdict == NOT_COMPARABLE:
        return Verdict(NOT_COMPARABLE, ": ", "; ".join(found.reasons))
    if found.by == "record":
        said = "record; not every queue stays within its limit, so this is no verdict on valid plans"
        return Verdict(found.verdict, " ", said)
    agree = "agree in every word" if found.verdict == SAME else "differ, and so do their records"
    return Verdict(found.verdict, " ", f"on the road: both plans are valid, and their normal forms {agree}")
