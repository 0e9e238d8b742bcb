"""Every refusal: its number and text as the header has them, provoked through each call that gives it, with its place,
and what it leaves of the lent arrays."""

import pickle
import re
from collections.abc import Callable

import numpy as np
import pytest
from conftest import HEADER, K, N, example, nodes_of, worked_words

from gigorchid import calls
from gigorchid.refusals import REFUSALS, Refusal, taken_apart

UNTOUCHED = 0xFFFF_FFFF

# Places of words in the lists of B, of kinds 1, 2 and 3.
NODE_WORDS = {"identifier": 0, "F": 1, "V": 2, "W": 3, "J": 4, "C": 5, "L": 6, "n": 7, "l": 8}
STATE_WORDS = {"n": 0, "l": 1, "f": 2, "r": 3}


def corridor_place(node: int, word: str) -> int:
    """Where a node's word stands in the corridor."""
    return 1 + 9 * node + NODE_WORDS[word]


def record_place(state: int, node: int, word: str) -> int:
    """Where a node's word stands in the record."""
    return 4 * (state * (N + 1) + node) + STATE_WORDS[word]


Q_1, B_1 = 3, 4
RATE_1 = 2
COST = 24

# Number, row, node, and the words of B that are changed for it.
CHECKED = [
    (1, 0, 0, {"corridor": {0: 0}}),
    (1, 0, 0, {"demands": {0: 1441}}),
    (2, 0, 1, {"corridor": {corridor_place(1, "J"): 65_537}}),
    (3, 0, 2, {"corridor": {corridor_place(2, "identifier"): 20}}),
    (4, 0, 1, {"corridor": {corridor_place(1, "n"): 401}}),
    (5, 0, 1, {"demands": {B_1: 65_537}}),
    (7, 1, 1, {"record": {record_place(1, 1, "f"): 1}}),
    (8, 0, 1, {"record": {record_place(0, 1, "f"): 101}}),
    (9, 0, 1, {"record": {record_place(0, 1, "f"): 100, record_place(0, 1, "r"): 26}}),
    (10, 0, 1, {"record": {record_place(0, 1, "f"): 0, record_place(0, 1, "r"): 51}}),
    (11, 0, 1, {"record": {record_place(1, 1, "n"): 121}}),
    (
        12,
        0,
        1,
        {
            "corridor": {corridor_place(1, "L"): 50},
            "demands": {Q_1: 60},
            "record": {record_place(0, 1, "r"): 0, record_place(1, 1, "l"): 110},
        },
    ),
    (13, 0, 0, {"record": {COST: 371}}),
]
SIMULATED = [*CHECKED[:6], (6, 0, 1, {"plan": {RATE_1: 61}})]
# The words of the corridor's file that are changed.
READ = [
    (1, {2: 3}),
    (15, {127: 0}),
    (16, {0: 2}),
    (17, {1: 1}),
    (18, {126: 1}),
]


def changed(changes: dict[str, dict[int, int]]) -> dict[str, np.ndarray]:
    """The lists of B with these words changed."""
    lists = worked_words()
    for name, words in changes.items():
        for place, word in words.items():
            lists[name][place] = word
    return lists


def sealed(file: bytes, changes: dict[int, int]) -> bytes:
    """A file of one block with these words changed, and its check word made right unless it is one of them."""
    words = np.frombuffer(file, "<u4").copy()
    words[list(changes)] = list(changes.values())
    if 127 not in changes:
        words[127] = np.sum((2 * np.arange(127) + 1) * words[:127].astype(np.uint64)) % 2**32
    return words.tobytes()


def refusal_of(call: Callable[..., object], *given: object, **lent: object) -> Refusal:
    """What the call raises."""
    with pytest.raises(Refusal) as raised:
        call(*given, **lent)
    assert raised.value.call == call.__name__
    return raised.value


def place_of(refusal: Refusal) -> tuple[int, int, int]:
    """The refusal's number and place."""
    return refusal.number, refusal.row, refusal.node


def test_the_texts_are_those_of_the_header() -> None:
    entries = re.findall(r'ENTRY\(GIGORCHID_(\w+), (\d+), "(.*)"\)', HEADER)
    told = {int(number): (name.lower().replace("_", " "), text) for name, number, text in entries}
    assert told.pop(0) == ("accepted", "accepted")
    assert REFUSALS == told
    assert sorted(REFUSALS) == list(range(1, 19))


def test_an_answer_is_taken_apart_and_put_together() -> None:
    assert taken_apart(0) == (0, 0, 0)
    assert taken_apart(1439 * 65_536 + 64 * 256 + 12) == (12, 1439, 64)
    assert Refusal(12, 1439, 64, "check_words").answer == 1439 * 65_536 + 64 * 256 + 12


def test_a_refusal_reads_well() -> None:
    refusal = Refusal(9, 0, 1, "check_words")
    assert str(refusal) == f"refused by 9 at row 0, node 1: {REFUSALS[9][1]}"
    assert refusal.work is None
    assert Refusal(19, 0, 0, "check_words").text == "unknown refusal number"


def test_a_refusal_can_be_sent_to_another_process() -> None:
    lists, record = over_the_limit()
    refusal = refusal_of(calls.normal_words, lists["corridor"], lists["demands"], lists["plan"])
    sent = pickle.loads(pickle.dumps(refusal))
    assert (place_of(sent), sent.call, str(sent)) == ((12, 0, 1), "normal_words", str(refusal))
    assert np.array_equal(sent.work, record)


def test_every_number_is_provoked() -> None:
    provoked = {number for number, *_ in [*CHECKED, *SIMULATED, *READ]} | {14}
    assert provoked == set(REFUSALS)


@pytest.mark.parametrize("number, row, node, changes", CHECKED)
def test_checker_converter_and_search(number: int, row: int, node: int, changes: dict[str, dict[int, int]]) -> None:
    lists = changed(changes)
    given = lists["corridor"], lists["demands"], lists["record"]
    by_nodes = nodes_of(given[0])[: int(given[0][0]) + 1], *given[1:]
    for refusal in (
        refusal_of(calls.check_words, *given),
        refusal_of(calls.convert_words, *given),
        refusal_of(calls.search_words, *given, 0, 1),
        refusal_of(calls.check_nodes, *by_nodes),
        refusal_of(calls.convert_nodes, *by_nodes),
    ):
        assert place_of(refusal) == (number, row, node)
        assert (refusal.text, refusal.work) == (REFUSALS[number][1], None)


@pytest.mark.parametrize("number, row, node, changes", CHECKED[2:])
def test_checker_and_converter_on_files(number: int, row: int, node: int, changes: dict[str, dict[int, int]]) -> None:
    lists = changed(changes)
    files = [getattr(calls, f"write_{name}")(N, K, lists[name]) for name in ("corridor", "demands", "record")]
    assert place_of(refusal_of(calls.check_files, N, K, *files)) == (number, row, node)
    assert place_of(refusal_of(calls.convert_files, N, K, *files)) == (number, row, node)


@pytest.mark.parametrize("number, row, node, changes", SIMULATED)
def test_simulator_and_normal_form(number: int, row: int, node: int, changes: dict[str, dict[int, int]]) -> None:
    lists = changed(changes)
    given = lists["corridor"], lists["demands"], lists["plan"]
    by_nodes = nodes_of(given[0])[: int(given[0][0]) + 1], *given[1:]
    for refusal in (
        refusal_of(calls.simulate_words, *given),
        refusal_of(calls.normal_words, *given),
        refusal_of(calls.simulate_nodes, *by_nodes),
        refusal_of(calls.normal_nodes, *by_nodes),
    ):
        assert (place_of(refusal), refusal.work) == ((number, row, node), None)


@pytest.mark.parametrize("number, changes", READ)
def test_readers_and_calls_on_files(number: int, changes: dict[int, int]) -> None:
    file = sealed(example("corridor"), changes)
    others = example("demands"), example("case1")
    assert place_of(refusal_of(calls.read_corridor, N, K, file)) == (number, 0, 0)
    assert place_of(refusal_of(calls.check_files, N, K, file, *others)) == (number, 0, 0)
    assert place_of(refusal_of(calls.convert_files, N, K, file, *others)) == (number, 0, 0)


@pytest.mark.parametrize("place, name", [("demands", "demands"), ("record", "case1"), ("record", "case18")])
def test_a_file_that_is_cut_short(place: str, name: str) -> None:
    read = getattr(calls, f"read_{place}")
    assert place_of(refusal_of(read, N, K, example(name)[:511])) == (14, 0, 0)
    # With fewer than 4 bytes no first word tells a kind.
    assert place_of(refusal_of(read, N, K, example(name)[:1])) == (14, 0, 0)
    assert place_of(refusal_of(read, N, K, b"")) == (14, 0, 0)


def test_a_later_block_is_named_by_its_row() -> None:
    record = np.zeros(4 * 11 * 3 + 2, np.uint32)
    file = calls.write_record(2, 10, record)
    file[512 + 9] ^= 1
    assert place_of(refusal_of(calls.read_record, 2, 10, file)) == (15, 1, 0)


@pytest.mark.parametrize("n, k", [(0, 1), (65, 1), (2, 0), (2, 1441), (3, 1), (2**32 - 1, 2**32 - 1)])
def test_a_wrong_n_or_k_is_the_librarys_to_refuse(n: int, k: int) -> None:
    lists = worked_words()
    assert place_of(refusal_of(calls.read_corridor, n, k, example("corridor"))) == (1, 0, 0)
    assert place_of(refusal_of(calls.write_corridor, n, k, lists["corridor"])) == (1, 0, 0)
    assert place_of(refusal_of(calls.convert_files, n, k, example("corridor"), example("demands"), b"")) == (1, 0, 0)


@pytest.mark.parametrize("step, node", [(1, 0), (0, 3), (2**32 - 1, 2**32 - 1)])
def test_a_search_at_no_step_or_node(step: int, node: int) -> None:
    lists = worked_words()
    given = lists["corridor"], lists["demands"], lists["record"]
    assert place_of(refusal_of(calls.search_words, *given, step, node)) == (1, 0, 0)


def over_the_limit() -> tuple[dict[str, np.ndarray], np.ndarray]:
    """Lists in which the plan holds 110 units at ramp 1, where 50 may wait, and the record of that."""
    lists = changed(
        {
            "corridor": {corridor_place(1, "L"): 50},
            "demands": {Q_1: 60},
            "plan": {RATE_1: 0},
        }
    )
    return lists, calls.simulate_words(lists["corridor"], lists["demands"], lists["plan"])


@pytest.mark.parametrize("kind", [3, 7])
def test_a_normal_form_refused_by_12_has_its_work_record_filled(kind: int) -> None:
    lists, record = over_the_limit()
    assert record[record_place(1, 1, "l")] == 110
    given = lists["demands"], lists["plan"]
    wanted = calls.simulate_words(lists["corridor"], *given, kind=kind)
    for call, corridor in ((calls.normal_words, lists["corridor"]), (calls.normal_nodes, nodes_of(lists["corridor"]))):
        refusal = refusal_of(call, corridor, *given, kind=kind)
        assert place_of(refusal) == (12, 0, 1)
        assert np.array_equal(refusal.work, wanted)


def test_a_lent_work_record_is_filled_by_12_and_the_normal_form_left() -> None:
    lists, record = over_the_limit()
    work, normal = np.full(26, UNTOUCHED, np.uint32), np.full(6, UNTOUCHED, np.uint32)
    refusal = refusal_of(
        calls.normal_words, lists["corridor"], lists["demands"], lists["plan"], work=work, normal=normal
    )
    assert refusal.work is work
    assert np.array_equal(work, record)
    assert (normal == UNTOUCHED).all()


def test_every_other_refusal_leaves_what_was_lent() -> None:
    lists = changed({"corridor": {corridor_place(1, "J"): 65_537}})
    corridor, demands, plan, record = (lists[name] for name in ("corridor", "demands", "plan", "record"))
    words, form, out = (np.full(count, UNTOUCHED, np.uint32) for count in (26, 6, 3))
    file = np.full(512, 255, np.uint8)
    refusal_of(calls.simulate_words, corridor, demands, plan, record=words)
    refusal_of(calls.convert_words, corridor, demands, record, plan=form)
    refusal_of(calls.search_words, corridor, demands, record, 0, 1, out=out)
    refusal_of(calls.normal_words, corridor, demands, plan, work=words, normal=form)
    refusal_of(calls.read_record, N, K, example("corridor"), words=words)
    refusal_of(calls.write_plan, N, K, plan[:5], file=file)
    refusal_of(calls.convert_files, N, K, example("case1"), example("demands"), example("case1"), plan=file)
    assert all((lent == UNTOUCHED).all() for lent in (words, form, out))
    assert (file == 255).all()
