#!/usr/bin/env python3
"""Brings the names of definitions and lemmas in specs/ and proofs/ to snake case, after port.py.

usage: python3 tools/port_names.py      at the top of the repository, once

A word of several parts is written in snake case: headerLength -> header_length, equal-passes -> equal_passes. Types, modules, functions
of src/ and what a library or Rattle itself names keep their spelling. Where a lemma would get a definition's name it ends in _lem.
Files of src/ and must-fail/ and the pages follow in what they cite. It says which names would fall together in one file.
"""

import collections
import glob
import re
import sys

MADE = {"Tie", "Lts", "Statement", "Given", "Goals", "Met", "Code", "Reads", "Kinds", "Proof", "Invariants", "Answers"}
# Lemmas that had a definition's name but for its spelling.
LEMMAS = {("judging", "too_short"), ("segment", "from_one"), ("segment", "from_some"), ("histories", "step_in")}
TOKEN = re.compile(r"(?<![\w'·-])[A-Za-z_][\w'₀-₉]*(?:-[\w'₀-₉]+)*")
CAMEL = re.compile(r"^[a-z][a-z0-9]*(?:[A-Z][a-z0-9]*)+'?[₀-₉]*$")
DASHED = re.compile(r"^[a-z][a-z0-9_]*(?:-[a-z0-9_'₀-₉]+)+$")
DEFINED = re.compile(r"(?m)^\s*(?:(?:abbrev|unfoldable|opaque|pub)\s+)*([^\s:(){}.,;]+)(?:\s+[({][^:\n]*:[^)}\n]*[)}])*\s*:(?=\s)")
FIELD = re.compile(r"(?m)^ +(?:pub )?([^\s:(){}.,;]+) :(?=\s)")
USE = re.compile(r"(?m)^\s*(?:ghost )?(?:pub )?use ([\w.+·-]+)\.\{([^}]*)\}")


def read(path):
    with open(path, encoding="utf-8", newline="") as it:
        return it.read()


def snake(name):
    return re.sub(r"(?<!^)([A-Z])", lambda m: "_" + m[1].lower(), name).replace("-", "_")


def is_own(module, crates):
    parts = module.split(".")
    return parts[0] == "Rattle" and len(parts) > 1 and parts[1] in crates and not (parts[2:3] == ["proofs"] and MADE & set(parts[3:]))


def main():
    crates = {path.split("/")[1] for path in glob.glob("crates/*/src")}
    antt = sorted(glob.glob("crates/*/specs/**/*.antt", recursive=True) + glob.glob("crates/*/proofs/**/*.antt", recursive=True))
    texts = {path: read(path) for path in antt}
    terms, fields = set(), set()
    for text in texts.values():
        terms |= {m[1] for m in DEFINED.finditer(text)}
        fields |= {m[1] for m in FIELD.finditer(text)}
    functions = {name for name in terms if CAMEL.match(name)} | {name for name in terms if re.match(r"^[a-z]\w*$", name)}
    taken = {snake(name) for name in functions}

    def renamed(name):
        if CAMEL.match(name):
            return snake(name)
        if DASHED.match(name):
            new = snake(name)
            return new + "_lem" if new in taken else new
        return name

    clashes, count = [], 0
    others = sorted(glob.glob("crates/*/src/**/*.rt", recursive=True) + glob.glob("crates/*/must-fail/*.edit") + ["README.md"] + glob.glob("docs/*.md"))
    for path in antt + others:
        text = texts.get(path) or read(path)
        dashed = path.endswith((".antt", ".edit"))
        foreign = {word.split(" as ")[-1].strip() for m in USE.finditer(text) if not is_own(m[1], crates) for word in m[2].split(",")}
        seen = collections.defaultdict(set)

        crate = path.split("/")[1] if path.startswith("crates/") else None

        def turn(m):
            name, head = m[0], m.start() == 0 or m.string[m.start() - 1] != "."
            if head and name in foreign or not dashed and "-" in name:
                return name
            if path.endswith(".md") and m.string[m.start() - 1] not in "` (.":
                return name
            if not head and "-" in name and name not in fields:
                return name
            if path.endswith((".rt", ".md")) and CAMEL.match(name) and not {name, snake(name)} & terms:
                return name
            new = name + "_lem" if (crate, name) in LEMMAS and "/proofs/" in path else renamed(name)
            seen[new].add(name)
            return new

        lines, inside = [], False
        for line in text.split("\n"):
            made = re.match(r"\s*use ([\w.+·-]+)", line)
            comment = line.lstrip().startswith("--")
            if made and made[1].startswith("Rattle.") and not is_own(made[1], crates) and "{" in line:
                lines.append(line)
            elif comment:
                lines.append(re.sub(TOKEN, lambda m: renamed(m[0]) if CAMEL.match(m[0]) else m[0], line))
            else:
                lines.append(TOKEN.sub(turn, line))
        new = "\n".join(lines)
        clashes += [(path, new_name, sorted(names)) for new_name, names in seen.items() if len(names) > 1]
        if new != text:
            count += 1
            with open(path, "w", encoding="utf-8", newline="") as it:
                it.write(new)
    print(f"{count} files turned")
    for clash in clashes:
        print("together:", *clash)
    return 0


if __name__ == "__main__":
    sys.exit(main())
