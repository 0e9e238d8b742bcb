"""What the tests share: where the sources are, corridor B of docs/MODEL.md, and steady runs of hypothesis."""

import re
import sys
from pathlib import Path

import numpy as np
import pytest
from hypothesis import settings

ROOT = Path(__file__).resolve().parents[2]
sys.path.insert(0, str(ROOT / "python"))

HEADER = (ROOT / "include" / "gigorchid.h").read_text()

# Links and steps of corridor B.
N, K = 2, 1

# The same examples in every run, and no folder of examples left behind.
settings.register_profile("steady", derandomize=True, database=None, deadline=None)
settings.load_profile("steady")


def worked_words() -> dict[str, np.ndarray]:
    """The lists that docs/MODEL.md works through, by name, each as fresh words."""
    text = (ROOT / "docs" / "MODEL.md").read_text()
    blocks = re.findall(r"^```words ([a-z ]+)\n(.*?)^```", text, re.MULTILINE | re.DOTALL)
    return {name: np.array(words.split(), np.uint32) for name, words in blocks}


def nodes_of(corridor: np.ndarray) -> np.ndarray:
    """The words of corridor B as nodes: one of kind 1 has its F and J for dropped capacity and drop density."""
    from gigorchid.calls import NODE

    rows = corridor[1:].reshape(N + 1, -1)
    if rows.shape[1] == 9:
        rows = np.column_stack([rows, rows[:, 1], rows[:, 4]])
    return np.ascontiguousarray(rows).view(NODE).reshape(-1)


def example(name: str) -> bytes:
    """The bytes of an example file of corridor B."""
    return (ROOT / "examples" / "b" / f"{name}.blocks").read_bytes()


@pytest.fixture(scope="session")
def package(tmp_path_factory: pytest.TempPathFactory) -> Path:
    """The package."""
    from packages import built

    return built(tmp_path_factory.mktemp("package"))


@pytest.fixture(scope="session")
def unpacked(package: Path, tmp_path_factory: pytest.TempPathFactory) -> Path:
    """The folder that the package is unpacked into."""
    from packages import output

    folder = tmp_path_factory.mktemp("unpacked")
    output("dpkg-deb", "-x", package, folder)
    return folder
