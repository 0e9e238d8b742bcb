"""Progress on long work: nothing is shown unless a program that has a terminal says how."""

from __future__ import annotations

from collections.abc import Callable, Iterable, Sequence
from typing import Any, TypeVar

Item = TypeVar("Item")

LONG = 10_000
"""So many rows take long enough for a person to wait for."""

_show: Callable[[Sequence[Any], str], Iterable[Any]] | None = None


def show_with(show: Callable[[Sequence[Any], str], Iterable[Any]]) -> None:
    """From now on, long work is gone through by this function, which is told what is done."""
    global _show
    _show = show


def watched(rows: Sequence[Item], what: str) -> Iterable[Item]:
    """The same rows, with progress shown where there are many."""
    return rows if _show is None or len(rows) < LONG else _show(rows, what)
