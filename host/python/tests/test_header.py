"""The package held to moortinker.h, docs/numbers.txt and the library."""

import ctypes
import re
import shutil
import subprocess

import pytest
import repository

import moortinker
from moortinker import devices, ebus, events, library, modbus, railbus


def struct(name):
    """The class of a struct: EventsRead of moor_events_read."""
    return getattr(library, "".join(map(str.capitalize, name.split("_"))))


def test_every_struct_is_declared():
    declared = {
        kind for kind in vars(library).values()
        if isinstance(kind, type) and issubclass(kind, ctypes.Structure)
    }
    assert declared == {struct(name) for name in repository.structs()}


@pytest.mark.skipif(not shutil.which("gcc"), reason="gcc is not installed")
def test_structs_lie_as_in_the_header(tmp_path):
    rows = []
    for name, fields in repository.structs().items():
        rows.append(f'printf("%zu ", sizeof(moor_{name}));')
        for field in fields:
            size = f"sizeof(((moor_{name} *)0)->{field})"
            rows.append(f'printf("%zu:%zu ", offsetof(moor_{name}, {field}), {size});')
        rows.append('puts("");')
    source = tmp_path / "layout.c"
    body = "\n".join(rows)
    source.write_text(f'#include <stdio.h>\n#include "moortinker.h"\nint main(void) {{\n{body}\n}}\n')
    program = tmp_path / "layout"
    include = f"-I{repository.HEADER.parent}"
    subprocess.run(["gcc", "-std=c11", include, "-o", program, source], check=True)
    printed = subprocess.run([program], check=True, capture_output=True, text=True).stdout

    ours = ""
    for name, fields in repository.structs().items():
        kind = struct(name)
        assert [field for field, _ in kind._fields_] == fields, name
        lying = [getattr(kind, field) for field in fields]
        ours += f"{ctypes.sizeof(kind)} "
        ours += "".join(f"{field.offset}:{field.size} " for field in lying) + "\n"
    assert ours.splitlines() == printed.splitlines()


PLAIN = {
    "bool": ctypes.c_bool,
    "uint8_t": ctypes.c_uint8,
    "uint16_t": ctypes.c_uint16,
    "uint32_t": ctypes.c_uint32,
    "size_t": ctypes.c_size_t,
}


def in_ctypes(word):
    if word.endswith("*"):
        return ctypes.c_void_p
    return struct(word[len("moor_"):]) if word.startswith("moor_") else PLAIN[word]


def test_every_function_is_declared_as_in_the_header():
    header = {
        name: (in_ctypes(gives), [in_ctypes(word) for word in takes])
        for name, (gives, takes) in repository.functions().items()
    }
    assert library.FUNCTIONS == header
    for name, (gives, takes) in header.items():
        function = getattr(library.moor, name)
        assert (function.restype, list(function.argtypes)) == (gives, takes)


def test_every_function_is_called():
    sources = (repository.PACKAGE / "moortinker").rglob("*.py")
    text = "".join(path.read_text(encoding="utf-8") for path in sources)
    assert set(re.findall(r"moor\.(moor_\w+)", text)) == set(repository.functions())


def test_every_constant_has_its_value():
    enums = [
        moortinker.Number, ebus.Kind, modbus.Request, modbus.Answer, devices.Outcome, events.Answer,
        railbus.Access, railbus.Phase, railbus.Status,
    ]
    ours = {member.name: int(member) for kind in enums for member in kind}
    ours.update((name, value) for name, value in vars(library).items() if name.isupper() and type(value) is int)
    # The header says 0 for what is not refused, and length 0 for silence.
    del ours["SILENCE"]
    header = {name: value for name, value in repository.defines().items() if "VERSION" not in name}
    assert header.pop("ACCEPTED") == "0"
    assert ours == {name: int(value, 0) for name, value in header.items()}


def test_version():
    defines = repository.defines()
    assert defines["VERSION"] == f'"{moortinker.__version__}"'
    assert library.SONAME == f"libmoortinker.so.{defines['VERSION_MAJOR']}"


def test_numbers_are_those_of_the_list():
    ours = [(int(number), number.name, number.words) for number in moortinker.Number]
    assert ours == repository.numbers()
