"""The header and the list of numbers, taken apart."""

import re
from pathlib import Path

PACKAGE = Path(__file__).resolve().parents[1]
ROOT = PACKAGE.parents[1]
HEADER = ROOT / "host" / "include" / "moortinker.h"
NUMBERS = ROOT / "docs" / "numbers.txt"

_TEXT = re.sub(r"/\*.*?\*/", " ", HEADER.read_text(encoding="utf-8"), flags=re.S)


def _words(text):
    return " ".join(text.replace("*", " * ").split())


def defines():
    """Each constant of the header, without its prefix, as it is written there."""
    return dict(re.findall(r"(?m)^#define MOOR_([A-Z0-9_]+)[ \t]+(\S+)", _TEXT))


def structs():
    """Each struct of the header, without its prefix, and the names of its fields."""
    found = {}
    for body, name in re.findall(r"typedef struct \{(.*?)\} moor_(\w+);", _TEXT, re.S):
        found[name] = [re.search(r"(\w+)(?:\[\w+\])?$", field.strip())[1] for field in body.split(";")[:-1]]
    return found


def functions():
    """Each function of the header: what it gives, and what it takes."""
    found = {}
    for gives, name, takes in re.findall(r"(\w+) (moor_\w+)\(([^()]*)\);", _TEXT):
        taken = [] if takes.strip() == "void" else [_words(word) for word in takes.split(",")]
        found[name] = gives, [word.rsplit(" ", 1)[0] for word in taken]
    return found


def numbers():
    """Each number of the list, its constant and its short name."""
    lines = NUMBERS.read_text(encoding="utf-8").splitlines()
    rows = [line.split(" | ") for line in lines if not line.startswith("#")]
    return [(int(number), constant, short) for number, constant, short, _ in rows]
