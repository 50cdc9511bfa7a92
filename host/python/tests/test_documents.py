"""The examples of the docstrings and of the README, run."""

import doctest
import importlib
import os
import pkgutil
import re
import subprocess
import sys

import pytest
import repository

import moortinker

MODULES = ["moortinker"] + [found.name for found in pkgutil.walk_packages(moortinker.__path__, "moortinker.")]
README = repository.PACKAGE / "README.md"


@pytest.mark.parametrize("name", MODULES)
def test_docstrings(name):
    module = importlib.import_module(name)
    assert doctest.testmod(module).failed == 0


def public():
    for module in (moortinker.ebus, moortinker.modbus, moortinker.devices, moortinker.events, moortinker.railbus):
        for name in module.__all__:
            yield f"{module.__name__}.{name}", getattr(module, name)


def test_every_name_is_described():
    assert [name for name, thing in public() if not thing.__doc__] == []


def test_every_function_has_an_example():
    functions = [(name, thing) for name, thing in public() if not isinstance(thing, type)]
    assert [name for name, function in functions if ">>>" not in function.__doc__] == []


def test_readme():
    assert doctest.testfile(str(README), module_relative=False).failed == 0


def test_readme_suite(tmp_path):
    """The suite that the README shows finds what it says that it finds."""
    [suite] = re.findall(r"```python\n(.*?)```", README.read_text(encoding="utf-8"), re.S)
    (tmp_path / "test_suite.py").write_text(suite)
    (tmp_path / "their_decoder.py").write_text("def data_of(run):\n    return run[9:-3]\n")
    found = os.pathsep.join([str(repository.PACKAGE), os.environ.get("PYTHONPATH", "")])
    said = subprocess.run(
        [sys.executable, "-B", "-m", "pytest", "-q", "-p", "no:cacheprovider", "--color=no", tmp_path],
        env={**os.environ, "PYTHONPATH": found}, cwd=tmp_path, capture_output=True, text=True)
    assert "\n1 failed, 1 passed" in said.stdout, said.stdout + said.stderr
