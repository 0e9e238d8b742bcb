"""One function for every call of the library, on numpy arrays. A refusal is raised as an exception.

A list may be any sequence or array of whole numbers of 0 to 4,294,967,295, in C order whatever its shape; an array
that is native uint32, contiguous and aligned is passed as it stands, any other is copied. A file is bytes, a bytearray,
a memoryview or a uint8 array. What C lends to be filled is made here and returned; a keyword lends the caller's own
array in its place, and its length then tells its kind.
"""

from collections.abc import Iterable, Sequence
from typing import Any, NamedTuple

import numpy as np
import numpy.typing as npt

from . import sizes
from .library import function
from .refusals import Refusal, taken_apart
from .sizes import GREATEST_WORD

Words = npt.NDArray[np.uint32]
File = npt.NDArray[np.uint8]
FileLike = bytes | bytearray | memoryview | File
NodesLike = npt.NDArray[np.void] | Iterable[Iterable[int]]
Given = npt.NDArray[Any] | int

# struct gigorchid_node: the words of a node in a corridor's list of kind 10, in their order.
NODE_FIELDS = (
    "identifier",
    "capacity",
    "full_speed",
    "wave_speed",
    "jam",
    "ramp_capacity",
    "queue_limit",
    "start_vehicles",
    "start_queue",
    "dropped_capacity",
    "drop_density",
)
NODE = np.dtype([(field, np.uint32) for field in NODE_FIELDS], align=True)

_WORD = np.dtype(np.uint32)
_BYTE = np.dtype(np.uint8)
_QUEUE_REFUSAL = 12
# Types that Python and numpy count among the whole numbers.
_NO_NUMBERS = (bool, np.timedelta64)
# An empty array may have a null address, which the header forbids; this one stands in for it.
_SPARE = np.zeros(1, np.uint32)


class NormalForm(NamedTuple):
    """What a normal form fills: the plan's record, and the converter's plan for it."""

    record: Words
    plan: Words


class Search(NamedTuple):
    """What a search for a rate comes to: how many rates it tries, whether one is found, and that rate or 0."""

    tries: int
    found: bool
    rate: int


# ---- word lists: N and K are the first words of corridor and demands ----


def simulate_words(
    corridor: npt.ArrayLike,
    demands: npt.ArrayLike,
    plan: npt.ArrayLike,
    *,
    kind: int = 3,
    record: Words | None = None,
) -> Words:
    """The plan's record, of kind 3 or of kind 7, which lists the exits; refused by 1 to 6."""
    return _simulate("simulate_words", _words("corridor", corridor), demands, plan, kind, record)


def check_words(corridor: npt.ArrayLike, demands: npt.ArrayLike, record: npt.ArrayLike) -> None:
    """Checks a proposed record of either kind.

    It is accepted exactly where some plan within bounds has it, in every word, and keeps every queue within its limit;
    refused by 1 to 5 and 7 to 13.
    """
    _call("check_words", (_words("corridor", corridor), _words("demands", demands), _words("record", record)))


def convert_words(
    corridor: npt.ArrayLike, demands: npt.ArrayLike, record: npt.ArrayLike, *, plan: Words | None = None
) -> Words:
    """Checks a proposed record, and gives a plan that has it.

    It has for each node at each step limit V and the smallest rate that gives f and r with it, or, if no rate does,
    rate r and the smallest limit that sends f; refused as check_words refuses.
    """
    return _convert("convert_words", _words("corridor", corridor), demands, record, plan)


def search_words(
    corridor: npt.ArrayLike,
    demands: npt.ArrayLike,
    record: npt.ArrayLike,
    step: int,
    node: int,
    *,
    out: Words | None = None,
) -> Search:
    """Checks a proposed record, and searches for the rate of one node in one step of it, as the converter does.

    It searches by halving for the smallest rate of 0..C that gives f and r with limit V. A step not below K and a node
    above N are refused by 1; otherwise it is refused as check_words refuses.
    """
    given = (_words("corridor", corridor), _words("demands", demands), _words("record", record))
    found = _lent("out", out, _WORD, sizes.SEARCH_WORDS)
    _call("search_words", (*given, _number("step", step), _number("node", node)), (found,))
    tries, is_found, rate = found.reshape(-1).tolist()
    return Search(tries, bool(is_found), rate)


def normal_words(
    corridor: npt.ArrayLike,
    demands: npt.ArrayLike,
    plan: npt.ArrayLike,
    *,
    kind: int = 3,
    work: Words | None = None,
    normal: Words | None = None,
) -> NormalForm:
    """Simulates the plan, and converts its record: that is the plan's normal form.

    Refused by 1 to 6, and by 12, which leaves the plan's record in `work` and in the exception. Two plans that keep
    every queue within its limit have the same normal form exactly when they have the same record, of one kind, in
    every word.
    """
    return _normal("normal_words", _words("corridor", corridor), demands, plan, kind, work, normal)


# ---- the corridor as a list of nodes: N is their count less one; a count other than 2 to 65 is refused by 1 ----


def simulate_nodes(
    corridor: NodesLike,
    demands: npt.ArrayLike,
    plan: npt.ArrayLike,
    *,
    kind: int = 3,
    record: Words | None = None,
) -> Words:
    """As simulate_words, with the same answers."""
    return _simulate("simulate_nodes", _nodes("corridor", corridor), demands, plan, kind, record)


def check_nodes(corridor: NodesLike, demands: npt.ArrayLike, record: npt.ArrayLike) -> None:
    """As check_words, with the same answers."""
    _call("check_nodes", (_nodes("corridor", corridor), _words("demands", demands), _words("record", record)))


def convert_nodes(
    corridor: NodesLike, demands: npt.ArrayLike, record: npt.ArrayLike, *, plan: Words | None = None
) -> Words:
    """As convert_words, with the same answers."""
    return _convert("convert_nodes", _nodes("corridor", corridor), demands, record, plan)


def normal_nodes(
    corridor: NodesLike,
    demands: npt.ArrayLike,
    plan: npt.ArrayLike,
    *,
    kind: int = 3,
    work: Words | None = None,
    normal: Words | None = None,
) -> NormalForm:
    """As normal_words, with the same answers."""
    return _normal("normal_nodes", _nodes("corridor", corridor), demands, plan, kind, work, normal)


# ---- files to words and back, told N and K ----


def read_corridor(n: int, k: int, file: FileLike, *, words: Words | None = None) -> Words:
    """The words of a corridor's file, of the kind that its first word tells; refused by 1 and 14 to 18."""
    return _read("corridor", n, k, file, words)


def read_demands(n: int, k: int, file: FileLike, *, words: Words | None = None) -> Words:
    """The words of the demands' file, of the kind that its first word tells; refused by 1 and 14 to 18."""
    return _read("demands", n, k, file, words)


def read_record(n: int, k: int, file: FileLike, *, words: Words | None = None) -> Words:
    """The words of a record's file, of the kind that its first word tells; refused by 1 and 14 to 18."""
    return _read("record", n, k, file, words)


def read_plan(n: int, k: int, file: FileLike, *, words: Words | None = None) -> Words:
    """The words of a plan's file; refused by 1 and 14 to 18."""
    return _read("plan", n, k, file, words)


def write_corridor(n: int, k: int, words: npt.ArrayLike, *, file: File | None = None) -> File:
    """The file of a corridor, of the kind that its count of words tells; refused by 1. No word but N is tested."""
    return _write("corridor", n, k, words, file)


def write_demands(n: int, k: int, words: npt.ArrayLike, *, file: File | None = None) -> File:
    """The file of demands, of the kind that their count of words tells; refused by 1. No word but K is tested."""
    return _write("demands", n, k, words, file)


def write_record(n: int, k: int, words: npt.ArrayLike, *, file: File | None = None) -> File:
    """The file of a record, of the kind that its count of words tells; refused by 1. No word is tested."""
    return _write("record", n, k, words, file)


def write_plan(n: int, k: int, words: npt.ArrayLike, *, file: File | None = None) -> File:
    """The file of a plan; refused by 1. No word is tested."""
    return _write("plan", n, k, words, file)


# ---- checker and converter on block files, told N and K: the bytes stay where they are ----


def check_files(n: int, k: int, corridor: FileLike, demands: FileLike, record: FileLike) -> None:
    """Checks the record of a file as check_words does.

    Refused by 1 for a bad N or K, then as the readers of corridor, demands and record refuse in turn, then as
    check_words refuses.
    """
    _call("check_files", _files(n, k, corridor, demands, record))


def convert_files(
    n: int, k: int, corridor: FileLike, demands: FileLike, record: FileLike, *, plan: File | None = None
) -> File:
    """The plan's file for the record of a file; refused as check_files refuses."""
    given = _files(n, k, corridor, demands, record)
    filled = _lent("plan", plan, _BYTE, sizes.file_bytes(sizes.plan_words(*given[:2])))
    _call("convert_files", given, (filled,))
    return filled


# ---- what the calls on words and on nodes share, and the eight readers and writers ----


def _simulate(
    name: str,
    corridor: npt.NDArray[Any],
    demands: npt.ArrayLike,
    plan: npt.ArrayLike,
    kind: int,
    record: Words | None,
) -> Words:
    """simulate_words and simulate_nodes, once the corridor is an array."""
    given = (corridor, _words("demands", demands), _words("plan", plan))
    filled = _lent("record", record, _WORD, sizes.record_words(*_links_and_steps(*given[:2]), kind))
    _call(name, given, (filled,))
    return filled


def _convert(
    name: str, corridor: npt.NDArray[Any], demands: npt.ArrayLike, record: npt.ArrayLike, plan: Words | None
) -> Words:
    """convert_words and convert_nodes, once the corridor is an array."""
    given = (corridor, _words("demands", demands), _words("record", record))
    filled = _lent("plan", plan, _WORD, sizes.plan_words(*_links_and_steps(*given[:2])))
    _call(name, given, (filled,))
    return filled


def _normal(
    name: str,
    corridor: npt.NDArray[Any],
    demands: npt.ArrayLike,
    plan: npt.ArrayLike,
    kind: int,
    work: Words | None,
    normal: Words | None,
) -> NormalForm:
    """normal_words and normal_nodes, once the corridor is an array."""
    given = (corridor, _words("demands", demands), _words("plan", plan))
    n, k = _links_and_steps(*given[:2])
    form = NormalForm(
        _lent("work", work, _WORD, sizes.record_words(n, k, kind)),
        _lent("normal", normal, _WORD, sizes.plan_words(n, k)),
    )
    try:
        _call(name, given, form)
    except Refusal as refusal:
        if refusal.number == _QUEUE_REFUSAL:
            refusal.work = form.record
        raise
    return form


def _read(place: str, n: int, k: int, file: FileLike, words: Words | None) -> Words:
    """The reader of one of the four lists."""
    given = (_number("n", n), _number("k", k), _bytes("file", file))
    kind = sizes.file_kind(place, given[2][:4].tobytes())
    filled = _lent("words", words, _WORD, sizes.list_words(place, kind, *given[:2]))
    _call(f"read_{place}", given, (filled,))
    return filled


def _write(place: str, n: int, k: int, words: npt.ArrayLike, file: File | None) -> File:
    """The writer of one of the four lists; its count of words tells that of the file's bytes."""
    given = (_number("n", n), _number("k", k), _words("words", words))
    filled = _lent("file", file, _BYTE, sizes.file_bytes(given[2].size))
    _call(f"write_{place}", given, (filled,))
    return filled


def _files(
    n: int, k: int, corridor: FileLike, demands: FileLike, record: FileLike
) -> tuple[int, int, File, File, File]:
    """What both calls on files are given."""
    files = (_bytes("corridor", corridor), _bytes("demands", demands), _bytes("record", record))
    return (_number("n", n), _number("k", k), *files)


def _links_and_steps(corridor: npt.NDArray[Any], demands: Words) -> tuple[int, int]:
    """N and K as the lists tell them; of an empty list they count as 0."""
    n = corridor.size - 1 if corridor.dtype == NODE else _first(corridor)
    return n, _first(demands)


def _first(words: Words) -> int:
    """The first word, or 0 where there is none."""
    return int(words[0]) if words.size else 0


# ---- what is passed to the library ----


def _call(name: str, given: Sequence[Given], lent: Sequence[npt.NDArray[Any]] = ()) -> None:
    """Calls the library's function, whose lent slices stand last, and raises its refusal."""
    before: list[npt.NDArray[Any]] = [value for value in given if isinstance(value, np.ndarray)]
    for written in lent:
        if any(np.may_share_memory(written, other) for other in before):
            raise ValueError(f"{name}: a lent array shares memory with another argument")
        before.append(written)
    arguments = [part for value in (*given, *lent) for part in _passed(value)]
    answer = function(name)(*arguments)
    if answer != 0:
        raise Refusal(*taken_apart(answer), name)


def _passed(value: Given) -> tuple[int, ...]:
    """A number as it is, an array as its address and its count of elements."""
    if isinstance(value, int):
        return (value,)
    return (value if value.size else _SPARE).ctypes.data, value.size


def _number(name: str, value: int) -> int:
    """A number that is told, of which ctypes would drop the bits above 32."""
    if isinstance(value, bool) or not isinstance(value, (int, np.integer)):
        raise TypeError(f"{name}: a whole number is wanted, not {type(value).__name__}")
    if not 0 <= value <= GREATEST_WORD:
        raise ValueError(f"{name}: {value} is not in 0..{GREATEST_WORD:,}")
    return int(value)


def _words(name: str, value: npt.ArrayLike) -> Words:
    """A list of words in a row, of which numpy would wrap those that are none."""
    numbers = _whole_numbers(name, value)
    if numbers.dtype != _WORD:
        if numbers.size and not 0 <= numbers.min() <= numbers.max() <= GREATEST_WORD:
            raise ValueError(f"{name}: a word is not in 0..{GREATEST_WORD:,}")
        numbers = numbers.astype(_WORD)
    return _row(numbers)


def _whole_numbers(name: str, value: Any) -> npt.NDArray[Any]:
    """As an array; of a sequence by objects, since numpy makes floats of great numbers, and numbers of bools."""
    array = np.asarray(value) if hasattr(value, "__array__") else np.array(value, dtype=object)
    if array.ndim == 0 or isinstance(value, (bytearray, memoryview)):
        raise TypeError(f"{name}: a list of whole numbers is wanted, not {type(value).__name__}")
    types = set(map(type, array.flat)) if array.dtype == object else {array.dtype.type}
    others = [of.__name__ for of in types if not issubclass(of, (int, np.integer)) or issubclass(of, _NO_NUMBERS)]
    if others:
        raise TypeError(f"{name}: a list of whole numbers is wanted, not of {', '.join(sorted(others))}")
    return array


def _nodes(name: str, value: NodesLike) -> npt.NDArray[np.void]:
    """A list of nodes in a row."""
    if isinstance(value, np.ndarray) and value.dtype == NODE:
        return _row(value)
    try:
        rows = [tuple(node) for node in value]
    except TypeError as error:
        raise TypeError(f"{name}: a list of nodes is wanted, not {type(value).__name__}") from error
    words = _words(name, [word for row in rows for word in row])
    if any(len(row) != len(NODE_FIELDS) for row in rows):
        raise ValueError(f"{name}: a node has {len(NODE_FIELDS)} values")
    return words.view(NODE)


def _bytes(name: str, value: FileLike) -> File:
    """The bytes of a file in a row."""
    if isinstance(value, np.ndarray) and value.dtype == _BYTE:
        return _row(value)
    if not isinstance(value, (bytes, bytearray, memoryview)):
        raise TypeError(f"{name}: the bytes of a file are wanted, not {type(value).__name__}")
    if isinstance(value, memoryview) and not value.c_contiguous:
        value = value.tobytes()
    return np.frombuffer(value, _BYTE)


def _row(array: npt.NDArray[Any]) -> npt.NDArray[Any]:
    """The same elements in one dimension and fit to be lent: without a copy where they are so already."""
    row = np.ascontiguousarray(array).reshape(-1)
    return row if _is_aligned(row) else row.copy()


def _is_aligned(array: npt.NDArray[Any]) -> bool:
    """As the header asks, which numpy's own flag does not tell of a packed array of nodes."""
    return array.dtype == _BYTE or array.ctypes.data % _WORD.itemsize == 0


def _lent(name: str, array: npt.NDArray[Any] | None, dtype: np.dtype[Any], count: int | None) -> npt.NDArray[Any]:
    """The caller's own array, or a new one; empty where there is no length, so that the library refuses by 1."""
    if array is None:
        return np.empty(count or 0, dtype)
    if not isinstance(array, np.ndarray):
        raise TypeError(f"{name}: a numpy array to be filled is wanted, not {type(array).__name__}")
    fit = array.flags.c_contiguous and array.flags.writeable and _is_aligned(array)
    if array.dtype != dtype or not fit:
        raise ValueError(f"{name}: the lent array must be of {dtype}, contiguous, aligned and writable")
    return array
