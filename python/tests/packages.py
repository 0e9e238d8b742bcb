"""The Debian package for the tests: how it is built, and how what it has is run."""

from __future__ import annotations

import os
import re
import subprocess
from pathlib import Path

from conftest import HEADER, ROOT

from gigorchid import library

VERSION = re.findall(r'#define GIGORCHID_VERSION_TEXT "(.*)"', HEADER)[0]
MODULES = "usr/lib/python3/dist-packages"


def output(*command: object, **settings: object) -> str:
    """What the command prints; it must succeed."""
    ran = subprocess.run(list(map(str, command)), capture_output=True, text=True, **settings)
    assert ran.returncode == 0, ran.stdout + ran.stderr
    return ran.stdout


def plain_environment(**variables: object) -> dict[str, str]:
    """The environment without what would lead to other modules or another library, and with these variables."""
    others = {library.VARIABLE, "PYTHONPATH", "PKG_CONFIG_PATH", "LD_LIBRARY_PATH"}
    kept = {name: value for name, value in os.environ.items() if name not in others}
    return kept | {name: str(value) for name, value in variables.items()}


def built(folder: Path, **settings: object) -> Path:
    """The package, built into the folder."""
    output("bash", ROOT / "tools/package/deb.sh", folder, **settings)
    return folder / f"gigorchid_{VERSION}_amd64.deb"
