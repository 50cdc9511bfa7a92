#!/usr/bin/env python3
"""Spells this repository's own definitions and lemmas as today's Rattle spells its own.

usage: python3 tools/spell_names.py        once, at the top, behind port.py

Words are in snake case (`howMany`, `one-le` become `how_many`, `one_le`), types and modules stay in camel case. Where a lemma would get
the name of a definition, the lemma's ends in `_lem`. Functions of src/, exported names, strings, inputs and outputs keep theirs.
It writes specs/, proofs/, the clauses of src/, the edits' texts, and names between backquotes in comments and pages.
A line that begins 'look:' is to be read.
"""

import os
import re
import collections

TOKEN = re.compile(r"[^\s(){}.;,@\"«»`]+")
DECLARED = re.compile(r"(?m)^( *)((?:abbrev |unfoldable |pub |data |record |mutual )*)([^\s(){}.;,@\"]+)(?: [({][^\n]*?[)}])* :(?!:)")
USE = re.compile(r"(?m)^ *(?:pub )?use ([^\s;{]+?)\.?(\{[^}]*\})?(?: as (\S+))?$")
CRATES = set(os.listdir("crates"))
# Names that get another than the plain spelling: a fact about a message, and a case that stands beside a definition.
FACTS = {"dataRight": "DataRight", "syn-due": "syn_is_due"}
# Measurements' names in the pages.
MEASURED = {"table-valid", "one-byte"}


def plain(name):
    return re.sub(r"(?<=[a-z0-9])[A-Z]", lambda m: "_" + m[0].lower(), name).replace("-", "_").replace("′", "'")


def is_ours(name):
    return (name[0].islower() or name[0] == "_") and plain(name) != name and "◌" not in name


def code_of(text):
    return re.sub(r"--.*", "", text)


def below(ending):
    for folder, inner, names in sorted(os.walk("crates")):
        inner[:] = sorted(it for it in inner if it != "out")
        for name in sorted(names):
            if name.endswith(ending):
                yield os.path.join(folder, name)


def read(path):
    with open(path, encoding="utf-8") as f:
        return f.read()


def write(path, text):
    if text != read(path):
        with open(path, "w", encoding="utf-8") as f:
            f.write(text)


def lent(text):
    """The names that a file takes from a library."""
    found = set()
    for at, names, alias in USE.findall(code_of(text)):
        steps = at.split(".")
        if steps[0] != "Rattle" or steps[1] not in CRATES:
            found |= set(TOKEN.findall(names)) | set(steps)
    return found


def main():
    proofs = [p for p in below(".antt") if p.endswith("/Proof.antt")]
    texts = [p for p in below(".antt") if not p.endswith("/Proof.antt")]
    declared, top = set(FACTS), set()
    for path in texts:
        for indent, _, name in DECLARED.findall(code_of(read(path))):
            declared.add(name)
            if not indent:
                top.add(name)

    # Names that would fall together: the definition, in camel case, keeps the plain one.
    groups = collections.defaultdict(set)
    for name in declared - set(FACTS):
        groups[plain(name)].add(name)
    special = dict(FACTS)
    for new, olds in groups.items():
        if len(olds) < 2:
            continue
        first = [it for it in olds if "-" not in it and "_" not in it] or [it for it in olds if "-" not in it]
        for old in sorted(olds - set(first[:1])):
            if old in top or any(old in TOKEN.findall(code_of(read(p))) and first[0] in TOKEN.findall(code_of(read(p))) for p in texts):
                special[old] = new + "_lem"
    for path in texts:
        here = collections.defaultdict(set)
        for name in set(TOKEN.findall(code_of(read(path)))) - lent(read(path)):
            if is_ours(name) or "_" in name:
                here[special.get(name) or plain(name)].add(name)
        for new, olds in sorted(here.items()):
            if len(olds) > 1:
                locals_ = sorted(it for it in olds if "-" in it and it not in declared)
                for it in locals_:
                    special[it] = new + "_lem"
                if len(olds) - len(locals_) > 1:
                    print(f"look: {path}: {sorted(olds)} would all be {new}")

    spelled = lambda name: special.get(name) or (plain(name) if is_ours(name) else name)

    everywhere = {it for p in texts + proofs for it in lent(read(p))} - declared

    def in_antt(text, keep):
        """A file of specs/ or proofs/, comments too, where they name a definition."""
        lines = []
        for line in text.split("\n"):
            code, dashes, comment = line.partition("--") if not line.startswith("--") else ("", "--", line[2:])
            code = TOKEN.sub(lambda m: m[0] if m[0] in keep else spelled(m[0]), code)
            lines.append(code + dashes + quoted(comment))
        return "\n".join(lines)

    def quoted(text):
        return re.sub(r"`([^`\n]+)`", lambda m: "`" + TOKEN.sub(lambda n: spelled(n[0]) if n[0] in declared else n[0], m[1]) + "`", text)

    def camel(text):
        """A file of src/: no name of its own is in lower camel case."""
        return TOKEN.sub(lambda m: spelled(m[0]) if (m[0] in declared or plain(m[0]) in declared) and re.match(r"[a-z]", m[0]) and plain(m[0]) != m[0] and "-" not in m[0] else m[0], text)

    fields = {name for path in texts for indent, _, name in DECLARED.findall(code_of(read(path))) if indent}
    for path in proofs:
        text = read(path)
        code = code_of(text)
        own = set()
        for at, names, _ in USE.findall(code):
            steps = at.split(".")
            if steps[0] == "Rattle" and steps[1] in CRATES:
                own |= set(TOKEN.findall(names))
        own |= {name for indent, _, name in DECLARED.findall(code) if not re.search(r"(?m)^" + re.escape(indent + name) + r" : tie\.|^(?:abbrev )?(?:pub )?" + re.escape(name) + r" : tie\.", code)}
        own = {it for it in own if is_ours(it) or it in special}

        def turn(m):
            name = m[0]
            behind_dot = m.start() > 0 and m.string[m.start() - 1] == "."
            if behind_dot:
                return spelled(name) if name in fields and name in declared else name
            return spelled(name) if name in own else name

        lines = []
        for line in text.split("\n"):
            code, dashes, comment = line.partition("--") if not line.startswith("--") else ("", "--", line[2:])
            lines.append(TOKEN.sub(turn, code) + dashes + quoted(comment))
        write(path, "\n".join(lines))
    for path in texts:
        text = read(path)
        write(path, in_antt(text, lent(text)))
    for path in below(".rt"):
        text = read(path)
        for line in text.split("\n"):
            for said in re.findall(r'"[^"]*"', line):
                if any(it in declared and re.search("[a-z][A-Z]", it) for it in TOKEN.findall(said)):
                    print(f"look: {path}: {line.strip()}")
        uses = lambda m: m[0] if m[1] not in CRATES else TOKEN.sub(lambda n: spelled(n[0]), m[0])
        write(path, camel(re.sub(r"ghost use Rattle\.(\w+)\.[^;]*;", uses, text)))
    for path in below(".edit"):
        lines = read(path).split("\n")
        at = next((it for it in lines if it.startswith("file:")), "")
        for i, line in enumerate(lines):
            if line.startswith(("old:", "new:")):
                lines[i] = line[:4] + (in_antt(line[4:], everywhere) if ".antt" in at else camel(line[4:]))
        write(path, "\n".join(lines))
    for folder, inner, names in sorted(os.walk(".")):
        inner[:] = sorted(it for it in inner if it not in ("out", ".git", "target", "crates"))
        for name in sorted(names):
            if name.endswith(".md"):
                path = os.path.join(folder, name)
                text = read(path)

                def named(m):
                    name = m[0]
                    return name if name in MEASURED else spelled(name) if name in declared or plain(name) in declared else name

                write(path, re.sub(r"`([^`\n]+)`", lambda m: "`" + TOKEN.sub(named, m[1]) + "`", text))


main()
