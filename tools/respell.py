#!/usr/bin/env python3
"""Respells the repository's own names in specs/, proofs/ and the clauses of src/: a dash in a name becomes an underscore,
or, where the name begins with a capital, the next word's capital; a prime becomes an apostrophe.

usage: python3 tools/respell.py        at the top of the repository

Left alone: names that a file imports from a library, names that Rattle makes (goals, steps of the code), functions of
src/, strings and comments. A name that falls together with another word of its file is printed, to be looked at: a
definition may have the name of the function whose result it gives.
"""
import glob
import re
import sys

# a name: what stands between blanks and brackets
TOKEN = re.compile(r"""--[^\n]*|//[^\n]*|"(?:[^"\\]|\\.)*"|[^\s(){}\[\].,;"]+|\.|[\s(){}\[\],;]+|.""", re.S)
NAME = re.compile(r"^[A-Za-z][\w'′-]*$")
IMPORT = re.compile(r"^\s*(?:ghost )?(?:pub )?use ([^;{}\n]*?)\.?\{([^}]*)\}", re.M)
FIELD = re.compile(r"^\s+(?:pub )?([A-Za-z][\w'′-]*) :")
GOAL = re.compile(r"^(?:abbrev )?(?:pub )?([^\s:]+) : goal\.")

# names that the kit's script leaves half turned, and a field that begins with a letter of a sheet
BY_HAND = {
    "Laid_out": "LaidOut",
    "get_d_rows": "get_or_rows",
    "X-by-A-needs-51-cells": "x_by_A_needs_51_cells",
    "XByANeeds51Cells": "x_by_A_needs_51_cells",
}

# what Rattle makes stands behind these
MADE = {"c", "l", "goal", "g", "w"}


def respelt(name):
    name = name.replace("′", "'")
    if "-" not in name:
        return name
    if name[0].isupper():
        return "".join(part[:1].upper() + part[1:] for part in name.split("-"))
    return name.replace("getD-", "get_or-").replace("-getD", "-get_or").replace("-", "_")


def own_crates():
    return {path.split("/")[1] for path in glob.glob("crates/*/src/*.rt")}


def sources():
    found = []
    for kind in ("specs/**/*.antt", "proofs/**/*.antt", "src/**/*.rt"):
        found += glob.glob("crates/*/" + kind, recursive=True)
    return sorted(found)


def from_libraries(text, crates):
    """The names that a file imports from a library, or from what Rattle makes of a function's code."""
    names = set()
    for path, items in IMPORT.findall(text):
        parts = path.strip().split(".")
        own = len(parts) > 1 and parts[0] == "Rattle" and parts[1] in crates
        if own and "Goals" not in parts and "Given" not in parts:
            continue
        for item in items.split(","):
            words = item.split(" as ")
            names.add(words[0].strip())
    return names


def goals(text):
    return {m.group(1) for line in text.split("\n") for m in [GOAL.match(line)] if m}


def fields(texts):
    """The fields of the repository's own records."""
    names = set()
    for text in texts:
        inside = False
        for line in text.split("\n"):
            if re.match(r"\s*(?:pub |abbrev )*record ", line):
                inside = True
            elif line and not line[0].isspace():
                inside = False
            m = FIELD.match(line)
            if inside and m:
                names.add(m.group(1))
    return names


def declared(text):
    """What stands at the head of a line before a colon, or is bound: the definitions and lemmas of a file."""
    names = set()
    for line in text.split("\n"):
        m = re.match(r"\s*(?:abbrev |unfoldable |pub |record |data )*([A-Za-z][\w'′-]*)(?: |$)", line)
        if m:
            names.add(m.group(1))
    return names


def turn(path, text, crates, own_fields, own):
    skip = from_libraries(text, crates) | goals(text)
    clauses_only = path.endswith(".rt")
    words = TOKEN.findall(text)
    present = {w for w in words if NAME.match(w)}
    fallen, out = set(), []
    for i, w in enumerate(words):
        if w in BY_HAND:
            out.append(BY_HAND[w])
            continue
        dashed = NAME.match(w) and ("-" in w or "′" in w)
        if not dashed:
            out.append(w)
            continue
        behind_dot = i > 0 and words[i - 1] == "."
        root = words[i - 2] if behind_dot and i > 1 else ""
        if behind_dot and (root in MADE or w not in own_fields | own):
            out.append(w)
        elif not behind_dot and (w in skip or (clauses_only and w not in own)):
            out.append(w)
        elif respelt(w) in present:
            fallen.add((w, respelt(w)))
            out.append(respelt(w))
        else:
            out.append(respelt(w))
    for old, new in sorted(fallen):
        print(f"{path}: {old} falls together with {new}")
    return "".join(out)


def main():
    crates = own_crates()
    texts = {}
    for path in sources():
        with open(path, encoding="utf-8") as f:
            texts[path] = f.read()
    logic = {p: t for p, t in texts.items() if p.endswith(".antt")}
    own_fields = fields(logic.values())
    own = set()
    for path, text in logic.items():
        own |= declared(text) - goals(text) - from_libraries(text, crates)
    changed = 0
    for path, text in texts.items():
        new = turn(path, text, crates, own_fields, own)
        if new != text:
            changed += 1
            with open(path, "w", encoding="utf-8") as f:
                f.write(new)
    print(f"{changed} of {len(texts)} files changed")
    return 0


if __name__ == "__main__":
    sys.exit(main())
