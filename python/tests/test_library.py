"""The library and its functions against include/gigorchid.h: prototypes, struct, lengths; which library is loaded."""

import ctypes
import hashlib
import inspect
import os
import re
import shutil
import subprocess
import sys
from collections.abc import Callable, Iterator
from pathlib import Path

import pytest
from conftest import HEADER, ROOT

from gigorchid import calls, library, sizes

BUILT = ROOT / "target" / "lib"


def declared() -> dict[str, list[str]]:
    """The functions that the header declares, without the prefix, and their arguments as they stand there."""
    found = re.findall(r"^uint32_t gigorchid_(\w+)\(([^;]*)\);", HEADER, re.MULTILINE)
    return {name: [" ".join(part.split()) for part in arguments.split(",")] for name, arguments in found}


def c_type(argument: str) -> type:
    """The type of an argument of the header, as the bindings pass it."""
    if "*" in argument:
        return ctypes.c_void_p
    return {"size_t": ctypes.c_size_t, "uint32_t": ctypes.c_uint32}[argument.split()[0]]


@pytest.fixture
def loaded_anew(monkeypatch: pytest.MonkeyPatch) -> Iterator[Callable[[Path | None], None]]:
    """Has the library looked for again, at the place that is told."""

    def load_from(place: Path | None) -> None:
        library._loaded.cache_clear()
        if place is None:
            monkeypatch.delenv(library.VARIABLE, raising=False)
        else:
            monkeypatch.setenv(library.VARIABLE, str(place))

    yield load_from
    library._loaded.cache_clear()


def test_every_function_is_bound_with_its_arguments() -> None:
    assert list(library.PROTOTYPES) == list(declared())
    for name, arguments in declared().items():
        assert library.PROTOTYPES[name] == tuple(map(c_type, arguments)), name
        assert library.function(name).restype is ctypes.c_uint32


@pytest.mark.parametrize("name", declared())
def test_every_function_has_a_call_that_names_its_arguments_alike(name: str) -> None:
    parameters = inspect.signature(getattr(calls, name)).parameters
    lists_and_numbers = [argument for argument in declared()[name] if not argument.startswith("size_t")]
    assert [each for each in parameters if each != "kind"] == [re.findall(r"\w+", of)[-1] for of in lists_and_numbers]
    lent = {re.findall(r"\w+", of)[-1] for of in lists_and_numbers if "*" in of and not of.startswith("const")}
    assert {each for each, of in parameters.items() if of.kind is of.KEYWORD_ONLY} - {"kind"} == lent


def test_a_node_has_the_fields_of_the_struct() -> None:
    body = re.search(r"struct gigorchid_node \{(.*?)\};", HEADER, re.DOTALL)
    assert body is not None
    assert re.findall(r"uint32_t (\w+);", body[1]) == list(calls.NODE.names or ())
    assert calls.NODE.itemsize == 4 * len(calls.NODE_FIELDS)


def test_lengths_are_those_of_the_macros(tmp_path: Path) -> None:
    pairs = [(1, 1), (2, 1), (1, 3), (1, 4), (8, 7), (10, 60), (64, 1), (1, 1440), (64, 1440)]
    macros = {
        "CORRIDOR_WORDS(n)": lambda n, k: sizes.corridor_words(n),
        "CORRIDOR_10_WORDS(n)": lambda n, k: sizes.corridor_words(n, 10),
        "DEMANDS_WORDS(n, k)": sizes.demands_words,
        "DEMANDS_5_WORDS(n, k)": lambda n, k: sizes.demands_words(n, k, 5),
        "PLAN_WORDS(n, k)": sizes.plan_words,
        "RECORD_WORDS(n, k)": sizes.record_words,
        "RECORD_7_WORDS(n, k)": lambda n, k: sizes.record_words(n, k, 7),
        "FILE_BYTES(n * k)": lambda n, k: sizes.file_bytes(n * k),
        "MOST_LINKS": lambda n, k: sizes.MOST_LINKS,
        "MOST_STEPS": lambda n, k: sizes.MOST_STEPS,
        "SEARCH_WORDS": lambda n, k: sizes.SEARCH_WORDS,
        "BLOCK_BYTES": lambda n, k: sizes.BLOCK_BYTES,
    }
    printed = "".join(f'printf("%zu ", (size_t)GIGORCHID_{macro});' for macro in macros)
    listed = ", ".join(f"{{{n}, {k}}}" for n, k in pairs)
    source = f"""#include "gigorchid.h"
        #include <stdio.h>
        int main(void) {{
            size_t pairs[][2] = {{{listed}}};
            for (size_t i = 0; i < {len(pairs)}; i++) {{ size_t n = pairs[i][0], k = pairs[i][1]; {printed} puts(""); }}
        }}"""
    program = tmp_path / "lengths"
    subprocess.run(["gcc", "-I", ROOT / "include", "-xc", "-", "-o", program], input=source, text=True, check=True)
    lines = subprocess.run([program], capture_output=True, text=True, check=True).stdout.splitlines()
    for (n, k), line in zip(pairs, lines, strict=True):
        assert list(map(int, line.split())) == [of(n, k) for of in macros.values()], (n, k)


@pytest.mark.parametrize("n, k", [(0, 1), (65, 1), (-1, 1), (1, 0), (1, 1441), (2**32, 1), (1, 2**40)])
def test_there_is_no_length_out_of_range(n: int, k: int) -> None:
    assert sizes.demands_words(n, k) is sizes.plan_words(n, k) is sizes.record_words(n, k, 7) is None
    assert sizes.file_bytes(sizes.plan_words(n, k)) is None
    assert sizes.list_kind("record", 42, n, k) is None


def test_a_count_of_words_tells_the_kind_once_n_and_k_are_known() -> None:
    assert sizes.list_kind("corridor", 100, 8, 1) == 10
    assert sizes.list_kind("corridor", 100, 10, 1) == 1
    assert sizes.list_kind("record", 42, 1, 3) == 7
    assert sizes.list_kind("record", 42, 1, 4) == 3
    assert sizes.list_kind("record", 43, 1, 4) is None


def test_a_kind_of_another_list_has_no_length() -> None:
    with pytest.raises(ValueError, match="record may be of kind 3 or 7, not 4"):
        sizes.record_words(1, 1, 4)


def test_the_checkout_uses_its_own_build(loaded_anew: Callable[[Path | None], None]) -> None:
    loaded_anew(None)
    assert library.path() == (BUILT / library.SONAME).resolve()
    assert library.digest() == hashlib.sha256((BUILT / library.SONAME).read_bytes()).hexdigest()
    assert library.function("check_words") is library.function("check_words")


def test_the_places_are_tried_in_order(monkeypatch: pytest.MonkeyPatch, tmp_path: Path) -> None:
    monkeypatch.delenv(library.VARIABLE, raising=False)
    monkeypatch.setattr(library, "__file__", str(tmp_path / "usr/lib/python3/dist-packages/gigorchid/library.py"))
    packaged, built, system = library.candidates()
    assert packaged == str(tmp_path / "usr/lib/x86_64-linux-gnu/libgigorchid.so.0")
    assert built == str(tmp_path / "usr/lib/python3/target/lib/libgigorchid.so.0")
    assert system == library.SONAME
    monkeypatch.setenv(library.VARIABLE, "told.so")
    assert library.candidates() == [os.path.abspath("told.so")]


def test_the_variable_names_the_library(loaded_anew: Callable[[Path | None], None], tmp_path: Path) -> None:
    other = tmp_path / "other.so"
    shutil.copy(BUILT / library.SONAME, other)
    loaded_anew(other)
    assert library.path() == other


def test_the_systems_loader_is_asked_last(tmp_path: Path) -> None:
    shutil.copytree(ROOT / "python/gigorchid", tmp_path / "modules/gigorchid")
    environment = os.environ | {"PYTHONPATH": str(tmp_path / "modules"), "LD_LIBRARY_PATH": str(BUILT)}
    script = "from gigorchid import library; print(library.candidates()[:2], library.path())"
    program = [sys.executable, "-c", script]
    told = subprocess.run(program, cwd=tmp_path, env=environment, capture_output=True, text=True, check=True)
    assert str(ROOT) not in told.stdout.rpartition("]")[0]
    assert Path(told.stdout.rpartition("] ")[2].strip()) == (BUILT / library.SONAME).resolve()


def test_a_missing_library_is_told_with_every_place(
    monkeypatch: pytest.MonkeyPatch, loaded_anew: Callable[[Path | None], None], tmp_path: Path
) -> None:
    loaded_anew(None)
    monkeypatch.setattr(library, "__file__", str(tmp_path / "a/b/c/gigorchid/library.py"))
    monkeypatch.setattr(library, "SONAME", "libnone.so.0")
    with pytest.raises(library.LibraryMissing) as raised:
        library.path()
    assert all(place in str(raised.value) for place in library.candidates())


def test_a_missing_library_is_told_with_its_place(loaded_anew: Callable[[Path | None], None], tmp_path: Path) -> None:
    loaded_anew(tmp_path / "none.so")
    with pytest.raises(library.LibraryMissing, match=re.escape(str(tmp_path / "none.so"))) as raised:
        calls.check_words([], [], [])
    assert isinstance(raised.value, OSError)


def test_a_file_that_is_no_library_is_not_passed_over(
    monkeypatch: pytest.MonkeyPatch, loaded_anew: Callable[[Path | None], None], tmp_path: Path
) -> None:
    broken = tmp_path / "broken.so"
    broken.write_text("no library")
    loaded_anew(None)
    monkeypatch.setattr(library, "candidates", lambda: [str(broken), str(BUILT / library.SONAME)])
    with pytest.raises(library.LibraryMissing, match="broken.so"):
        library.path()


def test_a_library_without_a_function_is_told(loaded_anew: Callable[[Path | None], None], tmp_path: Path) -> None:
    older = tmp_path / "older.so"
    source = "int gigorchid_simulate_words(void) { return 0; }"
    subprocess.run(["gcc", "-shared", "-fPIC", "-xc", "-", "-o", older], input=source, text=True, check=True)
    loaded_anew(older)
    with pytest.raises(library.FunctionMissing, match="older.so has no function gigorchid_check_words"):
        library.path()


def test_nothing_is_loaded_before_the_first_call() -> None:
    script = (
        "import gigorchid.calls as calls, gigorchid.library as library\n"
        "try: calls.check_words([], [], [])\n"
        "except library.LibraryMissing: print('only now')"
    )
    environment = os.environ | {library.VARIABLE: "/none", "PYTHONPATH": str(ROOT / "python")}
    ran = subprocess.run([sys.executable, "-c", script], env=environment, capture_output=True, text=True, check=True)
    assert ran.stdout == "only now\n"


def test_the_built_library_has_the_name_that_is_looked_for() -> None:
    ran = subprocess.run(["readelf", "-dW", BUILT / library.SONAME], capture_output=True, text=True, check=True)
    assert re.findall(r"\(SONAME\).*\[(.*)\]", ran.stdout) == [library.SONAME]
    assert "BIND_NOW" in ran.stdout and "TEXTREL" not in ran.stdout


def test_a_header_with_a_function_more_builds_no_library(tmp_path: Path) -> None:
    for part in ("include", "tools/package", "target/staticlib"):
        shutil.copytree(ROOT / part, tmp_path / part)
    with (tmp_path / "include/gigorchid.h").open("a") as header:
        header.write("uint32_t gigorchid_weave_words(void);\n")
    ran = subprocess.run(["bash", tmp_path / "tools/package/library.sh"], capture_output=True, text=True)
    assert ran.returncode == 1
    assert "< gigorchid_weave_words" in ran.stdout
    assert not (tmp_path / "target/lib/libgigorchid.so").exists()


@pytest.mark.parametrize("module", ["gigorchid.calls", "gigorchid", "gigorchid.project"])
def test_the_bindings_need_numpy_alone(module: str) -> None:
    """And a project is read without what only the command and the frames use."""
    script = (
        f"import sys; sys.modules.update(dict.fromkeys(['click', 'rich', 'pandas'])); import {module}; print('done')"
    )
    environment = os.environ | {"PYTHONPATH": str(ROOT / "python")}
    told = subprocess.run([sys.executable, "-c", script], env=environment, capture_output=True, text=True)
    assert (told.stdout, told.stderr) == ("done\n", "")
