"""What the library is asked on small corridors, for messages: at every node and step it is what the rules of docs/MODEL.md, section 3, give."""

import pytest
from projects import VALLEY, changed, folder_of

from gigorchid import Project, Record, probe

UNITS = 65_536
METERED = changed(VALLEY, ("project.toml", "steps = 6", "steps = 40"))


@pytest.fixture(scope="module")
def simulated() -> tuple[Project, Record]:
    with folder_of(METERED) as folder:
        project = Project.load(folder)
        return project, project.simulate(project.plan("metered"), 7)


def places(project: Project, first: int, last: int) -> list[tuple[int, int]]:
    return [(step, node) for step in range(project.steps) for node in range(first, last + 1)]


def test_the_next_queue_is_the_records(simulated: tuple[Project, Record]) -> None:
    project, record = simulated
    for step, node in places(project, 0, project.links - 1):
        assert probe.next_queue(project, record, step, node) == record.queues[step + 1, node]


def test_the_next_vehicles_are_the_records(simulated: tuple[Project, Record]) -> None:
    project, record = simulated
    assert len(set(record.vehicles[1:, 2].tolist())) > 5
    for step, node in places(project, 1, project.links):
        assert probe.next_vehicles(project, record, step, node) == record.vehicles[step + 1, node]


def test_the_exits_are_the_records(simulated: tuple[Project, Record]) -> None:
    project, record = simulated
    assert record.states[:-1, 1, 4].all()
    for step, node in places(project, 1, project.links - 1):
        assert probe.exits(project, record, step, node) == record.states[step, node, 4]


def test_sending_is_rule_1_at_full_speed(simulated: tuple[Project, Record]) -> None:
    project, record = simulated
    for step, node in places(project, 1, project.links):
        capacity, full, _, jam = (project.corridor.word(node, place) for place in range(1, 5))
        dropped, density = (project.corridor.word(node, place) for place in (9, 10))
        on_link = int(record.vehicles[step, node])
        most = capacity if on_link <= density else dropped
        assert probe.sends(project, record, step, node) == min(on_link * full // UNITS, most)


def test_receiving_is_rule_4(simulated: tuple[Project, Record]) -> None:
    project, record = simulated
    for step, node in places(project, 0, project.links - 1):
        capacity, _, wave, jam = (project.corridor.word(node + 1, place) for place in range(1, 5))
        room = jam - int(record.vehicles[step, node + 1])
        assert probe.takes_in(project, record, step, node) == min(capacity, wave * room // UNITS)
