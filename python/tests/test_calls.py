"""Every call on corridor B as docs/MODEL.md works it out, by words, nodes and files; what is passed to the library and
what is not; several threads at once; and any words at all."""

import inspect
import re
from collections.abc import Callable
from concurrent.futures import ThreadPoolExecutor
from functools import cache
from types import SimpleNamespace

import numpy as np
import pytest
from conftest import K, N, ROOT, example, nodes_of, worked_words
from hypothesis import given, settings
from hypothesis import strategies as st

from gigorchid import calls, library, sizes
from gigorchid.calls import Words
from gigorchid.refusals import Refusal

B = worked_words()
FULL_RATES = B["plan"]
RATE_26 = np.array([100, 0, 26, 32_768, 0, 32_768], np.uint32)
NORMAL_26 = np.array([0, 0, 26, 32_768, 0, 32_768], np.uint32)
BEHIND, DROPPED = (calls.read_record(N, K, example(case)) for case in ("case11", "case14"))

# Corridor, demands, plan, its record and its normal form; each kind of each list is among them.
WORKED = {
    "kinds 1, 2 and 3": (B["corridor"], B["demands"], FULL_RATES, B["record"], B["normal form"]),
    "kind 7": (B["corridor"], B["demands"], FULL_RATES, B["exits"], B["normal form"]),
    "kind 5": (B["corridor"], B["downstream"], FULL_RATES, BEHIND, B["normal form"]),
    "kind 10": (B["drop"], B["demands"], FULL_RATES, DROPPED, B["normal form"]),
    "kinds 10, 5 and 7": (B["drop"], B["downstream"], RATE_26, B["rest"], NORMAL_26),
}
worked = pytest.mark.parametrize("corridor, demands, plan, record, normal", WORKED.values(), ids=WORKED)

# The example files as the C host is run on them.
EXAMPLES = [
    *(("corridor", "demands", f"case{case}") for case in (1, 3, 4, 5, 6, 16, 17)),
    *(("corridor", "downstream", f"case{case}") for case in (11, 12, 13)),
    *(("drop", "demands", f"case{case}") for case in (14, 15)),
    *(("drop", "downstream", f"case{case}") for case in (11, 18)),
]


def record_kind(record: np.ndarray) -> int:
    """The kind of a record of B."""
    return 7 if record.size == sizes.record_words(N, K, 7) else 3


@worked
def test_words(corridor: Words, demands: Words, plan: Words, record: Words, normal: Words) -> None:
    kind = record_kind(record)
    assert np.array_equal(calls.simulate_words(corridor, demands, plan, kind=kind), record)
    assert calls.check_words(corridor, demands, record) is None
    assert np.array_equal(calls.convert_words(corridor, demands, record), normal)
    form = calls.normal_words(corridor, demands, plan, kind=kind)
    assert np.array_equal(form.record, record) and np.array_equal(form.plan, normal)


@worked
def test_nodes(corridor: Words, demands: Words, plan: Words, record: Words, normal: Words) -> None:
    kind = record_kind(record)
    by_nodes = nodes_of(corridor)
    for given_nodes in (by_nodes, by_nodes.tolist(), list(by_nodes), by_nodes[::-1][::-1]):
        assert np.array_equal(calls.simulate_nodes(given_nodes, demands, plan, kind=kind), record)
        assert calls.check_nodes(given_nodes, demands, record) is None
        assert np.array_equal(calls.convert_nodes(given_nodes, demands, record), normal)
        form = calls.normal_nodes(given_nodes, demands, plan, kind=kind)
        assert np.array_equal(form.record, record) and np.array_equal(form.plan, normal)


@worked
def test_files(corridor: Words, demands: Words, plan: Words, record: Words, normal: Words) -> None:
    lists = {"corridor": corridor, "demands": demands, "record": record, "plan": plan}
    files = {name: getattr(calls, f"write_{name}")(N, K, words) for name, words in lists.items()}
    for name, words in lists.items():
        assert np.array_equal(getattr(calls, f"read_{name}")(N, K, files[name]), words), name
        assert sizes.file_kind(name, files[name].tobytes()) == sizes.list_kind(name, words.size, N, K)
    given_files = files["corridor"], files["demands"], files["record"]
    assert calls.check_files(N, K, *given_files) is None
    assert np.array_equal(calls.read_plan(N, K, calls.convert_files(N, K, *given_files)), normal)


@pytest.mark.parametrize("node", range(N + 1))
def test_search(node: int) -> None:
    tries, found, rate = B["search"].reshape(-1, 3)[node]
    search = calls.search_words(B["corridor"], B["demands"], B["record"], 0, node)
    assert search == calls.Search(tries=tries, found=True, rate=rate) and found == 1
    assert type(search.found) is bool


def test_a_search_that_finds_none() -> None:
    record = calls.read_record(N, K, example("case3"))
    assert calls.search_words(B["corridor"], B["demands"], record, 0, 1) == calls.Search(6, False, 0)


@pytest.mark.parametrize("corridor, demands, case", EXAMPLES)
def test_the_example_files(corridor: str, demands: str, case: str) -> None:
    wanted = (ROOT / "examples" / "expected" / f"{case}.txt").read_text()
    files = example(corridor), example(demands), example(case)
    try:
        plan = calls.read_plan(N, K, calls.convert_files(N, K, *files))
    except Refusal as refusal:
        assert f"check: {refusal}\n" == wanted
    else:
        settings_of = re.findall(r"rate (\d+), limit (\d+)", wanted)
        assert plan.reshape(-1, 2).tolist() == [list(map(int, setting)) for setting in settings_of]


@cache
def longest() -> tuple[np.ndarray, np.ndarray, np.ndarray]:
    """Corridor, demands and plan of 64 links and 1,440 steps, of the newest kinds."""
    n, k = sizes.MOST_LINKS, sizes.MOST_STEPS
    corridor = np.zeros(n + 1, calls.NODE)
    corridor["identifier"] = np.arange(1, n + 2)
    corridor["queue_limit"][:-1] = 134_217_728
    corridor["ramp_capacity"][:-1] = 600
    link = {"capacity": 1000, "full_speed": 36_409, "wave_speed": 7282, "jam": 14_400, "dropped_capacity": 900}
    for name, value in (link | {"drop_density": 7000}).items():
        corridor[name][1:] = value
    steps = np.zeros((k, n + 1, 2), np.uint32)
    steps[:, :-1, 0] = np.random.default_rng(1).integers(0, 120, (k, n))
    steps[:, 1:-1, 1] = 6554
    demands = np.concatenate([[k], steps.ravel(), np.full(k, 990)]).astype(np.uint32)
    plan = np.zeros((k, n + 1, 2), np.uint32)
    plan[..., 0] = corridor["ramp_capacity"]
    plan[..., 1] = corridor["full_speed"]
    words = np.concatenate([[n], corridor.view(np.uint32)]).astype(np.uint32)
    return words, demands, plan


def test_the_longest_lists() -> None:
    corridor, demands, plan = longest()
    form = calls.normal_words(corridor, demands, plan, kind=7)
    assert form.record.size == 468_327 and form.plan.size == 187_200
    assert np.array_equal(calls.simulate_words(corridor, demands, form.plan, kind=7), form.record)
    lists = {"corridor": corridor, "demands": demands, "record": form.record}
    files = [getattr(calls, f"write_{name}")(64, 1440, words) for name, words in lists.items()]
    assert [file.size for file in files] == [3072, 773_120, 1_918_464]
    assert np.array_equal(calls.read_plan(64, 1440, calls.convert_files(64, 1440, *files)), form.plan)


def test_threads_at_once_give_what_one_gives() -> None:
    corridor, demands, plan = longest()
    plans = [np.minimum(plan, rate).astype(np.uint32) for rate in (0, 50, 100, 400, 600)]
    alone = [calls.normal_words(corridor, demands, each) for each in plans]
    assert len({form.record.tobytes() for form in alone}) == len(plans)
    with ThreadPoolExecutor(4) as pool:
        together = pool.map(lambda each: calls.normal_words(corridor, demands, each), plans * 3)
        for wanted, form in zip(alone * 3, together, strict=True):
            assert np.array_equal(form.record, wanted.record) and np.array_equal(form.plan, wanted.plan)


# ---- what is lent ----


def test_lent_arrays_are_filled_and_returned() -> None:
    corridor, demands, plan, record = (B[name] for name in ("corridor", "demands", "plan", "record"))
    words, form, out = (np.zeros(count, np.uint32) for count in (26, 6, 3))
    file = np.zeros(512, np.uint8)
    assert calls.simulate_words(corridor, demands, plan, record=words) is words
    assert np.array_equal(words, record)
    assert calls.convert_words(corridor, demands, record, plan=form) is form
    assert np.array_equal(form, B["normal form"])
    calls.search_words(corridor, demands, record, 0, 1, out=out)
    assert out.tolist() == [7, 1, 50]
    assert calls.write_plan(N, K, plan, file=file) is file
    assert calls.read_plan(N, K, file, words=form) is form
    assert np.array_equal(form, plan)
    assert calls.convert_files(N, K, example("corridor"), example("demands"), example("case1"), plan=file) is file
    both = calls.normal_words(corridor, demands, plan, work=words, normal=form)
    assert both.record is words and both.plan is form


@pytest.mark.parametrize("count, name", [(26, "record"), (32, "exits")])
def test_the_length_of_a_lent_record_tells_its_kind(count: int, name: str) -> None:
    lent = np.zeros(count, np.uint32)
    given_words = B["corridor"], B["demands"], B["plan"]
    assert np.array_equal(calls.simulate_words(*given_words, kind=7, record=lent), B[name])
    assert np.array_equal(calls.normal_nodes(nodes_of(B["corridor"]), *given_words[1:], work=lent).record, B[name])


@pytest.mark.parametrize("count", [0, 1, 25, 27, 31, 33])
def test_a_lent_record_of_neither_length_is_refused(count: int) -> None:
    with pytest.raises(Refusal) as raised:
        calls.simulate_words(B["corridor"], B["demands"], B["plan"], record=np.zeros(count, np.uint32))
    assert raised.value.number == 1


def test_a_kind_that_is_none_of_a_records_is_an_error() -> None:
    with pytest.raises(ValueError, match="kind: record may be of kind 3 or 7, not 4"):
        calls.simulate_words(B["corridor"], B["demands"], B["plan"], kind=4)


def read_only() -> np.ndarray:
    """An array that may not be written to."""
    array = np.zeros(26, np.uint32)
    array.flags.writeable = False
    return array


@pytest.mark.parametrize(
    "lent",
    [
        read_only(),
        np.zeros(26, np.int32),
        np.zeros(26, ">u4"),
        np.zeros(26, np.uint64),
        np.zeros(52, np.uint32)[::2],
        np.zeros(105, np.uint8)[1:].view(np.uint32),
    ],
    ids=["read-only", "signed", "of the other order", "of 64 bits", "with gaps", "not aligned"],
)
def test_an_array_that_cannot_be_lent(lent: np.ndarray) -> None:
    with pytest.raises(ValueError, match="record: the lent array must be of uint32"):
        calls.simulate_words(B["corridor"], B["demands"], B["plan"], record=lent)


def test_a_list_cannot_be_lent() -> None:
    with pytest.raises(TypeError, match="record: a numpy array to be filled is wanted, not list"):
        calls.simulate_words(B["corridor"], B["demands"], B["plan"], record=[0] * 26)


def test_an_array_that_overlaps_another_cannot_be_lent() -> None:
    shared = np.zeros(40, np.uint32)
    shared[:6] = B["plan"]
    with pytest.raises(ValueError, match="shares memory"):
        calls.simulate_words(B["corridor"], B["demands"], shared[:6], record=shared[5:31])
    with pytest.raises(ValueError, match="shares memory"):
        calls.normal_words(B["corridor"], B["demands"], B["plan"], work=shared[:26], normal=shared[25:31])
    file = bytearray(example("case1"))
    with pytest.raises(ValueError, match="shares memory"):
        calls.read_record(N, K, file, words=np.frombuffer(file, np.uint32)[:26])
    assert calls.simulate_words(B["corridor"], B["demands"], shared[:6], record=shared[6:32])[24] == 370


# ---- what is passed ----


@pytest.fixture
def passed(monkeypatch: pytest.MonkeyPatch) -> list[tuple[int, ...]]:
    """Every call's arguments as the library gets them."""
    seen: list[tuple[int, ...]] = []

    def watched(name: str) -> Callable[..., int]:
        return lambda *arguments: seen.append(arguments) or library.function(name)(*arguments)

    monkeypatch.setattr(calls, "function", watched)
    return seen


def address(array: np.ndarray) -> int:
    """Where the array's elements stand."""
    return array.__array_interface__["data"][0]


def test_words_of_the_library_are_passed_without_a_copy(passed: list[tuple[int, ...]]) -> None:
    corridor, demands, record = B["corridor"], B["demands"], np.zeros(26, np.uint32)
    plan = B["plan"].reshape(K, N + 1, 2)
    calls.simulate_words(corridor, demands, plan, record=record)
    arrays = corridor, demands, plan, record
    assert passed == [tuple(part for array in arrays for part in (address(array), array.size))]


def test_nodes_and_bytes_are_passed_without_a_copy(passed: list[tuple[int, ...]]) -> None:
    by_nodes = nodes_of(B["corridor"])
    calls.check_nodes(by_nodes, B["demands"], B["record"])
    file = bytearray(example("case1"))
    array = np.frombuffer(file, np.uint8)
    for same in (file, memoryview(file), array):
        calls.read_record(N, K, same)
    assert passed[0][:2] == (address(by_nodes), N + 1)
    assert [arguments[:4] for arguments in passed[1:]] == [(N, K, address(array), 512)] * 3


class Nowhere(np.ndarray):
    """An array whose address is null."""

    ctypes = SimpleNamespace(data=0)


@pytest.mark.parametrize("empty", [[], (), np.zeros(0, np.uint32), np.zeros((0, 2), np.int64)])
def test_an_empty_list_has_an_address(empty: object, passed: list[tuple[int, ...]]) -> None:
    for call in (calls.check_words, calls.check_nodes, calls.simulate_words, calls.normal_nodes):
        with pytest.raises(Refusal, match="refused by 1 at row 0, node 0"):
            call(empty, empty, empty)
    with pytest.raises(Refusal, match="refused by 1 at row 0, node 0"):
        calls.simulate_words(empty, empty, empty, record=np.zeros(0, np.uint32).view(Nowhere))
    for arguments in passed:
        assert all(place != 0 and place % 4 == 0 for place in arguments[::2])
        assert not any(arguments[1::2])


def packed_nodes() -> np.ndarray:
    """The nodes of B one byte past an aligned place, as a reader of a packed file might have them."""
    packed = np.dtype([(name, np.uint32) for name in calls.NODE_FIELDS])
    return np.frombuffer(b"\0" + nodes_of(B["corridor"]).tobytes(), packed, offset=1)


def test_what_does_not_fit_is_copied(passed: list[tuple[int, ...]]) -> None:
    record = B["record"]
    bytewise = np.zeros(4 * record.size + 1, np.uint8)[1:].view(np.uint32)
    bytewise[:] = record
    packed = packed_nodes()
    assert address(bytewise) % 4 != 0 and address(packed) % 4 != 0
    others = np.repeat(record, 2)[::2], record.astype(np.int64), record.astype(">u4"), record.tolist(), bytewise
    for other in others:
        calls.check_words(B["corridor"], B["demands"], other)
    calls.check_nodes(packed, B["demands"], record)
    assert len(passed) == len(others) + 1
    assert all(place % 4 == 0 for arguments in passed for place in arguments[::2])


@pytest.mark.parametrize("file", [memoryview(example("case1") * 2)[::2], np.repeat(np.zeros(4, np.uint8), 2)[::2]])
def test_bytes_with_gaps_are_copied(file: object, passed: list[tuple[int, ...]]) -> None:
    with pytest.raises(Refusal):
        calls.read_record(N, K, file)
    assert passed[0][3] == len(file)


@pytest.mark.parametrize(
    "words",
    [[-1], [2**32], [2**64], [2**63, -1], np.array([-1]), np.array([2**32]), np.array([1, -1], np.int8)],
)
def test_a_number_that_is_no_word(words: object) -> None:
    with pytest.raises(ValueError, match=r"demands: a word is not in 0\.\.4,294,967,295"):
        calls.check_words(B["corridor"], words, B["record"])


@pytest.mark.parametrize(
    "words",
    [
        [1.0],
        [1, 2.5],
        [True, 2],
        [None],
        ["1"],
        [[1, 2], [3]],
        "12",
        b"12",
        bytearray(b"12"),
        memoryview(b"12"),
        7,
        np.uint32(7),
        {1: 2},
        np.array([1.0]),
        np.array([True]),
        np.array(["1"]),
        np.array([1], "m8[s]"),
        np.zeros(2, calls.NODE),
    ],
    ids=repr,
)
def test_what_is_no_list_of_whole_numbers(words: object) -> None:
    with pytest.raises(TypeError, match="demands: a list of whole numbers is wanted, not"):
        calls.check_words(B["corridor"], words, B["record"])


def test_what_is_no_list_of_nodes() -> None:
    rows = nodes_of(B["corridor"]).tolist()
    with pytest.raises(TypeError, match="corridor: a list of nodes is wanted, not list"):
        calls.check_nodes([1, 2, 3], B["demands"], B["record"])
    with pytest.raises(ValueError, match="corridor: a node has 11 values"):
        calls.check_nodes([*rows[:2], rows[2][:10]], B["demands"], B["record"])
    with pytest.raises(TypeError, match="corridor: a list of whole numbers is wanted, not of float"):
        calls.check_nodes([*rows[:2], (*rows[2][:10], 400.0)], B["demands"], B["record"])
    with pytest.raises(ValueError, match="corridor: a word is not in"):
        calls.check_nodes([*rows[:2], (*rows[2][:10], -1)], B["demands"], B["record"])


@pytest.mark.parametrize("file", ["text", [1, 2], 7, None, np.zeros(512, np.uint32), np.zeros(512, np.int8)])
def test_what_is_no_file(file: object) -> None:
    with pytest.raises(TypeError, match="file: the bytes of a file are wanted, not"):
        calls.read_plan(N, K, file)


def test_numbers_that_are_told() -> None:
    given_words = B["corridor"], B["demands"], B["record"]
    assert calls.search_words(*given_words, np.uint8(0), np.int64(1)).rate == 50
    for number in (-1, 2**32, np.int64(-1)):
        with pytest.raises(ValueError, match=r"node: .* is not in 0\.\.4,294,967,295"):
            calls.search_words(*given_words, 0, number)
    for number in (1.0, True, "1", None):
        with pytest.raises(TypeError, match="k: a whole number is wanted, not"):
            calls.read_plan(N, number, example("case1"))


# ---- any words at all ----

ANY_WORD = st.integers(0, 3) | st.sampled_from([20, 64, 65, 400, 1440, 65_536, 65_537, 2**32 - 1])
RIGHT_NUMBERS = {"n": N, "k": K, "step": 0, "node": 1}
# The refusals that the header tells of each call, by the beginning of its name.
GIVEN_BY = {
    "simulate": {*range(1, 7)},
    "check": {*range(1, 6), *range(7, 14)},
    "convert": {*range(1, 6), *range(7, 14)},
    "search": {*range(1, 6), *range(7, 14)},
    "normal": {*range(1, 7), 12},
    "read": {1, *range(14, 19)},
    "write": {1},
}


@st.composite
def nearly(draw: st.DrawFn, right: list[int], other: st.SearchStrategy[int]) -> list[int]:
    """A list with at most two other words; now and then one with another end, and one of other words alone."""
    words = list(right)
    form = draw(st.integers(0, 15))
    if form == 15:
        return draw(st.lists(other, max_size=40))
    if form == 14:
        return words[: draw(st.integers(0, len(words)))] + draw(st.lists(other, max_size=3))
    for place in draw(st.lists(st.integers(0, len(words) - 1), max_size=2)):
        words[place] = draw(other)
    return words


@st.composite
def nearly_file(draw: st.DrawFn, place: str) -> bytes:
    """A file of a list that is nearly right, or one that is so itself."""
    words = draw(nearly(B[place].tolist(), ANY_WORD))
    try:
        file = getattr(calls, f"write_{place}")(N, K, words).tolist()
    except Refusal:
        file = []
    return bytes(draw(st.just(file) | nearly(file or [0], st.integers(0, 255))))


def argument(call: str, name: str) -> st.SearchStrategy[object]:
    """Anything that may be given to a call for the argument of this name, and often what is right."""
    if name in RIGHT_NUMBERS:
        return st.sampled_from([RIGHT_NUMBERS[name]] * 12 + [0, 3, 65, 1441, 2**32 - 1])
    if call.endswith("_files") or name == "file":
        return nearly_file(call.removeprefix("read_") if name == "file" else name)
    if call.endswith("_nodes") and name == "corridor":
        flat = nearly([word for row in nodes_of(B["corridor"]).tolist() for word in row], ANY_WORD)
        return flat.map(lambda words: np.array(words[: len(words) // 11 * 11], np.uint32).view(calls.NODE))
    place = call.removeprefix("write_") if name == "words" else name
    return nearly(B[place].tolist(), ANY_WORD)


@pytest.mark.parametrize("name", library.PROTOTYPES)
@settings(max_examples=100)
@given(data=st.data())
def test_any_words_are_answered_or_refused(name: str, data: st.DataObject) -> None:
    call = getattr(calls, name)
    parameters = inspect.signature(call).parameters.values()
    arguments = [data.draw(argument(name, of.name), of.name) for of in parameters if of.kind is not of.KEYWORD_ONLY]
    expected = GIVEN_BY[name.split("_")[0]] | (GIVEN_BY["read"] if name.endswith("_files") else set())
    try:
        answer = call(*arguments)
    except Refusal as refusal:
        assert refusal.number in expected
    else:
        assert (answer is None) == name.startswith("check")
