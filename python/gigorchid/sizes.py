"""The kinds of every list, and how many words and bytes each has for N links and K steps, as include/gigorchid.h says.

Where N or K is out of range a list has no length: None.
"""

from collections.abc import Callable

GREATEST_WORD = 2**32 - 1
MOST_LINKS = 64
MOST_STEPS = 1440
SEARCH_WORDS = 3
BLOCK_BYTES = 512
BLOCK_LIST_WORDS = 125

# The oldest kind of a place first; a file whose first word is no newer kind is read as it.
KINDS: dict[str, tuple[int, ...]] = {"corridor": (1, 10), "demands": (2, 5), "record": (3, 7), "plan": (4,)}

_WORDS: dict[int, Callable[[int, int], int]] = {
    1: lambda n, k: 1 + 9 * (n + 1),
    10: lambda n, k: 1 + 11 * (n + 1),
    2: lambda n, k: 1 + 2 * k * (n + 1),
    5: lambda n, k: 1 + 2 * k * (n + 1) + k,
    3: lambda n, k: 4 * (k + 1) * (n + 1) + 2,
    7: lambda n, k: 5 * (k + 1) * (n + 1) + 2,
    4: lambda n, k: 2 * k * (n + 1),
}


def list_words(place: str, kind: int, n: int, k: int) -> int | None:
    """How many words the list of this place and kind has for N links and K steps."""
    if kind not in KINDS[place]:
        raise ValueError(f"kind: {place} may be of kind {' or '.join(map(str, KINDS[place]))}, not {kind}")
    in_range = 1 <= n <= MOST_LINKS and 1 <= k <= MOST_STEPS
    return _WORDS[kind](n, k) if in_range else None


def corridor_words(n: int, kind: int = 1) -> int | None:
    """How many words a corridor of N links has."""
    return list_words("corridor", kind, n, 1)


def demands_words(n: int, k: int, kind: int = 2) -> int | None:
    """How many words the demands of N links and K steps have."""
    return list_words("demands", kind, n, k)


def plan_words(n: int, k: int) -> int | None:
    """How many words a plan of N links and K steps has."""
    return list_words("plan", 4, n, k)


def record_words(n: int, k: int, kind: int = 3) -> int | None:
    """How many words a record of N links and K steps has."""
    return list_words("record", kind, n, k)


def file_bytes(words: int | None) -> int | None:
    """How many bytes the file of a list of so many words has."""
    return None if words is None else -(-words // BLOCK_LIST_WORDS) * BLOCK_BYTES


def list_kind(place: str, words: int, n: int, k: int) -> int | None:
    """The kind that a list's count of words tells, once N and K are known; None where it has the count of none."""
    return next((kind for kind in KINDS[place] if list_words(place, kind, n, k) == words), None)


def file_kind(place: str, file: bytes) -> int:
    """The kind that a file's first word tells: with any other word, or with fewer than 4 bytes, it is the oldest."""
    first = int.from_bytes(file[:4], "little") if len(file) >= 4 else 0
    return first if first in KINDS[place] else KINDS[place][0]
