"""The Debian package as tools/package/deb.sh builds it: what is in it, and the bindings, the command, the C library and
the manual page as they are once it is unpacked."""

import gzip
import os
import re
import subprocess
from pathlib import Path

import click
import pytest
from conftest import ROOT
from packages import MODULES, VERSION, built, output, plain_environment

from gigorchid import library, manual

LIBRARIES = "usr/lib/x86_64-linux-gnu"
DOCUMENTS = "usr/share/doc/gigorchid"
MANUAL = "usr/share/man/man1/gigorchid.1.gz"


@pytest.fixture(scope="session")
def control(package: Path, tmp_path_factory: pytest.TempPathFactory) -> Path:
    """The folder of the package's control files."""
    folder = tmp_path_factory.mktemp("control")
    output("dpkg-deb", "-e", package, folder)
    return folder


def copied(source: str, place: str) -> dict[str, Path]:
    """Where every file below a folder of the sources stands in the package, and which it is."""
    files = [path for path in (ROOT / source).rglob("*") if path.is_file() and "__pycache__" not in path.parts]
    return {f"{place}/{path.relative_to(ROOT / source)}": path for path in files}


def copies() -> dict[str, Path]:
    """Every file of the package that is a copy of one of the sources."""
    documents = [ROOT / "docs" / name for name in ("MODEL.md", "FORMATS.md", "USE.md")]
    return {
        **copied("python/gigorchid", f"{MODULES}/gigorchid"),
        **copied("examples/b", f"{DOCUMENTS}/examples/b"),
        **copied("examples/expected", f"{DOCUMENTS}/examples/expected"),
        **copied("docs/pictures", f"{DOCUMENTS}/pictures"),
        **{f"{DOCUMENTS}/{path.name}": path for path in documents},
        f"{DOCUMENTS}/examples/host.c": ROOT / "examples/host.c",
        f"{DOCUMENTS}/examples/calls.c": ROOT / "examples/calls.c",
        f"{DOCUMENTS}/copyright": ROOT / "tools/package/debian/copyright",
        "usr/bin/gigorchid": ROOT / "tools/package/gigorchid",
        "usr/include/gigorchid.h": ROOT / "include/gigorchid.h",
        f"{LIBRARIES}/libgigorchid.so.{VERSION}": ROOT / f"target/lib/libgigorchid.so.{VERSION}",
        f"{LIBRARIES}/libgigorchid.a": ROOT / "target/staticlib/libhost.a",
    }


MADE = {f"{LIBRARIES}/pkgconfig/gigorchid.pc", f"{DOCUMENTS}/changelog.gz", MANUAL}
LINKS = {
    f"{LIBRARIES}/libgigorchid.so": "libgigorchid.so.0",
    f"{LIBRARIES}/libgigorchid.so.0": f"libgigorchid.so.{VERSION}",
}


def test_the_package_has_just_what_is_expected(unpacked: Path) -> None:
    files = [path for path in unpacked.rglob("*") if path.is_symlink() or not path.is_dir()]
    found = {str(path.relative_to(unpacked)): path for path in files}
    assert set(found) == set(copies()) | MADE | set(LINKS)
    assert {name: os.readlink(found[name]) for name in LINKS} == LINKS
    for name, source in copies().items():
        assert found[name].read_bytes() == source.read_bytes(), name


def test_every_file_is_roots_and_has_its_mode(package: Path) -> None:
    wanted = {"d": "drwxr-xr-x", "l": "lrwxrwxrwx", "-": "-rw-r--r--"}
    for line in output("dpkg-deb", "-c", package).splitlines():
        mode, owner, *_, name = line.partition(" -> ")[0].split()
        command = name == "./usr/bin/gigorchid"
        assert (mode, owner) == ("-rwxr-xr-x" if command else wanted[mode[0]], "root/root"), line


def test_control_fields(package: Path) -> None:
    lines = output("dpkg-deb", "-f", package).splitlines()
    fields = dict(line.split(": ", 1) for line in lines if not line.startswith(" "))
    size = int(fields.pop("Installed-Size"))
    assert 300 < size < 2000
    assert fields == {
        "Package": "gigorchid",
        "Version": VERSION,
        "Architecture": "amd64",
        "Section": "science",
        "Priority": "optional",
        "Maintainer": "Gigorchid maintainers <maintainers@users.noreply.gigorchid.example>",
        "Depends": "libc6 (>= 2.14), python3 (>= 3.11), python3-numpy, python3-pandas, python3-click, python3-rich, python3-matplotlib, python3-jinja2",
        "Description": "proved freeway metering plans",
    }


def test_control_files(control: Path, unpacked: Path) -> None:
    assert {path.name for path in control.iterdir()} == {
        "control",
        "md5sums",
        "postinst",
        "prerm",
        "shlibs",
        "triggers",
    }
    assert (control / "triggers").read_text() == "activate-noawait ldconfig\n"
    assert (control / "shlibs").read_text() == f"libgigorchid 0 gigorchid (>= {VERSION})\n"
    for script, command in (("postinst", "py3compile -p gigorchid"), ("prerm", "py3clean -p gigorchid")):
        assert command in (control / script).read_text()
        assert (control / script).stat().st_mode & 0o777 == 0o755
        output("sh", "-n", control / script)
    checked = output("md5sum", "--check", control / "md5sums", cwd=unpacked).splitlines()
    assert len(checked) == len(copies()) + len(MADE)


def test_two_builds_give_the_same_bytes(package: Path, tmp_path: Path) -> None:
    again = built(tmp_path, umask=0o077, env=os.environ | {"TZ": "Asia/Tokyo", "LC_ALL": "C.UTF-8"})
    assert again.read_bytes() == package.read_bytes()


def test_the_unpacked_bindings_use_the_library_beside_them(unpacked: Path, tmp_path: Path) -> None:
    script = "from gigorchid import calls, library, sizes; print(library.path(), calls.__file__, library.digest())"
    environment = plain_environment(PYTHONPATH=unpacked / MODULES, PYTHONDONTWRITEBYTECODE=1)
    used, module, digest = output("/usr/bin/python3", "-c", script, env=environment, cwd=tmp_path).split()
    assert Path(used) == unpacked / LIBRARIES / f"libgigorchid.so.{VERSION}"
    assert Path(module) == unpacked / MODULES / "gigorchid/calls.py"
    assert digest == library.digest()


def test_the_unpacked_command_tells_its_version(unpacked: Path, tmp_path: Path) -> None:
    link = tmp_path / "linked"
    link.symlink_to(unpacked / "usr/bin/gigorchid")
    environment = plain_environment(PYTHONDONTWRITEBYTECODE=1)
    told = output(link, "--version", env=environment, cwd=tmp_path)
    assert told.split()[:2] == ["gigorchid", VERSION]
    assert str(unpacked / LIBRARIES) in told


def test_the_unpacked_command_uses_debians_python(unpacked: Path) -> None:
    assert (unpacked / "usr/bin/gigorchid").read_text().startswith("#!/usr/bin/python3\n")


def pkg_config(unpacked: Path, *arguments: str) -> list[str]:
    """What pkg-config says of the unpacked package."""
    environment = plain_environment(PKG_CONFIG_PATH=unpacked / LIBRARIES / "pkgconfig")
    prefix = f"--define-variable=prefix={unpacked / 'usr'}"
    return output("pkg-config", prefix, *arguments, "gigorchid", env=environment).split()


def test_a_c_host_is_compiled_with_the_flags_of_pkg_config(unpacked: Path, tmp_path: Path) -> None:
    assert pkg_config(unpacked, "--modversion") == [VERSION]
    flags = pkg_config(unpacked, "--cflags", "--libs")
    examples = unpacked / DOCUMENTS / "examples"
    host = tmp_path / "host"
    output("gcc", examples / "host.c", *flags, "-o", host)
    assert library.SONAME in output("readelf", "-dW", host)
    files = [examples / "b" / f"{name}.blocks" for name in ("corridor", "demands", "case1")]
    environment = plain_environment(LD_LIBRARY_PATH=unpacked / LIBRARIES)
    assert output(host, 2, 1, *files, env=environment) == (examples / "expected/case1.txt").read_text()


def test_every_call_works_through_the_shared_and_the_static_library(unpacked: Path, tmp_path: Path) -> None:
    source = unpacked / DOCUMENTS / "examples/calls.c"
    environment = plain_environment(LD_LIBRARY_PATH=unpacked / LIBRARIES)
    for linked in (pkg_config(unpacked, "--libs"), [unpacked / LIBRARIES / "libgigorchid.a"]):
        program = tmp_path / "calls"
        output("gcc", source, *pkg_config(unpacked, "--cflags"), *linked, "-o", program)
        assert output(program, env=environment) == ""


# ---- the manual page ----


@click.group(epilog="\b\nExit status:\n  0  accepted\n  1  refused -- 'so'")
@click.option("--weight", default=3, show_default=True, help=".Begins with a dot.")
def trial(weight: int) -> None:
    r"""Trial plans.

    Signs that roff takes for its own: a\b -- `one` 'two' "three" ~ ^ 5 × 7 → 35.

    .SH is no request here.

    'Nor is this.
    """


@trial.command("first")
@click.argument("folder")
@click.option("--hidden-one", hidden=True)
def first(folder: str, hidden_one: str) -> None:
    """Makes FOLDER.

    \b
      kept   as
    .it is

    Then filled
    again.
    \f
    Not shown.
    """


@trial.group("inner")
def inner() -> None:
    """Works on files."""


@inner.command("second", epilog="The end.")
def second() -> None:
    """Reads."""


def shown(page: str, tmp_path: Path) -> str:
    """The page as groff shows it; groff must have no fault to tell."""
    source = tmp_path / "page.1"
    source.write_text(page)
    command = ["groff", "-man", "-ww", "-Tutf8", "-P-cbou", "-rLL=120n", source]
    ran = subprocess.run(command, capture_output=True, text=True, encoding="utf-8")
    assert (ran.returncode, ran.stderr) == (0, "")
    return ran.stdout


TRIAL_PAGE = r"""
NAME
       gigorchid - Trial plans
SYNOPSIS
       gigorchid [OPTIONS] COMMAND [ARGS]...
DESCRIPTION
       Signs that roff takes for its own: a\b -- `one` 'two' "three" ~ ^ 5 × 7 → 35.
       .SH is no request here.
       'Nor is this.
OPTIONS
       --weight INTEGER
              .Begins with a dot. [default: 3]
       --help Show this message and exit.
COMMANDS
   gigorchid first [OPTIONS] FOLDER
       Makes FOLDER.
         kept   as
       .it is
       Then filled again.
   gigorchid inner [OPTIONS] COMMAND [ARGS]...
       Works on files.
   gigorchid inner second [OPTIONS]
       Reads.
       The end.
EXIT STATUS
         0  accepted
         1  refused -- 'so'
FILES
"""


def test_the_manual_page_of_a_group(tmp_path: Path) -> None:
    text = shown(manual.page(trial, "1.2.3", "2026-01-02"), tmp_path)
    lines = [line for line in text.splitlines() if line.strip()]
    wanted = TRIAL_PAGE.strip().splitlines()
    assert lines[1 : 1 + len(wanted)] == wanted
    assert "SEE ALSO" in lines
    assert lines[-1].split() == ["Gigorchid", "1.2.3", "2026-01-02", "GIGORCHID(1)"]


def test_a_group_that_tells_no_exit_status_has_no_page() -> None:
    with pytest.raises(ValueError, match="no paragraph of the help begins with 'Exit status:'"):
        manual.page(click.Group("silent", help="Says little."), "1.2.3", "2026-01-02")


def test_the_packages_manual_page_has_every_command(unpacked: Path, tmp_path: Path) -> None:
    from gigorchid.commands import cli

    text = shown(gzip.decompress((unpacked / MANUAL).read_bytes()).decode(), tmp_path)
    names = cli.list_commands(click.Context(cli))
    assert re.findall(r"^   gigorchid (\S+)", text, re.MULTILINE) == names
    assert VERSION in text
