"""Where the library is looked for, and what is said where it is not found."""

import os
import shutil
import subprocess
import sys

import pytest
import repository

from moortinker import library


def imported(place, **environment):
    """What a Python of its own says of the package that stands at a place."""
    kept = {key: value for key, value in os.environ.items() if key not in ("MOORTINKER_LIBRARY", "LD_LIBRARY_PATH")}
    program = "import moortinker; print(moortinker.library.PLACE, moortinker.modbus.check(b''))"
    return subprocess.run(
        [sys.executable, "-B", "-c", program], cwd=place, env={**kept, **environment}, capture_output=True, text=True)


@pytest.fixture
def alone(tmp_path):
    """The package where no repository stands around it."""
    place = tmp_path / "repository" / "host" / "python"
    shutil.copytree(repository.PACKAGE / "moortinker", place / "moortinker")
    return place


@pytest.fixture
def installed(tmp_path):
    """The library as host/install has it."""
    if not os.path.isfile(library.PLACE):
        pytest.skip("the tests run with the system's library")
    folder = tmp_path / "lib"
    folder.mkdir()
    shutil.copy(library.PLACE, folder / library.SONAME)
    (folder / "libmoortinker.so").symlink_to(library.SONAME)
    return folder


def test_named_by_the_environment(alone, installed):
    said = imported(alone, MOORTINKER_LIBRARY=str(installed / "libmoortinker.so"))
    assert said.stdout == f"{installed}/libmoortinker.so 65535\n", said.stderr


def test_built_in_the_repository(alone, installed):
    built = alone.parents[1] / "target" / "staticlib"
    built.mkdir(parents=True)
    shutil.copy(library.PLACE, built / "libmoortinker.so")
    said = imported(alone, LD_LIBRARY_PATH=str(installed))
    assert said.stdout == f"{built}/libmoortinker.so 65535\n", said.stderr


@pytest.mark.parametrize("programs", ["/usr/bin:/bin", "/nowhere"])
def test_installed(alone, installed, programs):
    said = imported(alone, LD_LIBRARY_PATH=str(installed), PATH=programs)
    assert said.stdout.split()[1:] == ["65535"], said.stderr


@pytest.mark.parametrize("environment", [{}, {"MOORTINKER_LIBRARY": "/nowhere/libmoortinker.so"}])
def test_nowhere(alone, environment):
    said = imported(alone, **environment)
    if not environment and said.returncode == 0:
        pytest.skip("the system has the library")
    assert said.returncode == 1
    last = said.stderr.splitlines()[-1]
    assert last.startswith("ImportError: the library of Moortinker was not found: ")
    assert "host/archive" in last and "host/install PREFIX" in last and "MOORTINKER_LIBRARY" in last


@pytest.mark.skipif(not shutil.which("gcc"), reason="gcc is not installed")
def test_of_another_version(alone, tmp_path):
    older = tmp_path / "libolder.so"
    subprocess.run(["gcc", "-shared", "-o", older, "-x", "c", "/dev/null"], check=True)
    said = imported(alone, MOORTINKER_LIBRARY=str(older))
    assert "ImportError: " in said.stderr and "has no moor_ebus_check, so it is of another version" in said.stderr
