#!/usr/bin/env python3
"""Brings the names of this repository's definitions and lemmas to snake case. Run once, at the top, after port.py.

Words are in snake case, types and facts in camel case. A name in camel case that begins with a small letter, and a name
with dashes that a specs/ or a lemma file declares, gets underscores. Names of the library and names that Rattle makes
stay. A lemma that would then have the name of a definition that it speaks of gets `_lem`. Comments and strings stay, but
for names in camel case. Edits in must-fail/ are turned alike.

The crate `bytes` has the name of a library of today's Rattle, and becomes `octets`.
"""

import glob
import os
import re
import sys

TOKEN = re.compile(r"[A-Za-z_][A-Za-z0-9_'₀-₉·-]*")
QUOTED = re.compile(r'--[^\n]*|//[^\n]*|"(?:\\.|[^"\\])*"')
ANSWERS = ("Answers.antt", "Invariants.antt")
CAMEL = re.compile(r"[a-z][a-z0-9_]*[A-Z]")

# Lemmas that would fall together with a definition: the file, the lemma's name after port.py, its name now.
LEMMAS = [
    ("readings", "answer-kind", "answer_kind_lem"),
    ("readings", "body-kind", "body_kind_lem"),
    ("readings", "certificate-kind", "certificate_kind_lem"),
    ("readings", "proposal-kind", "proposal_kind_lem"),
    ("protocol", "groups-of", "groups_of_lem"),
    ("protocol", "is-committed", "is_committed_lem"),
    ("protocol", "row-at", "row_at_lem"),
    ("replica", "met_at", "met_at_lem"),
    ("replica", "state-at", "state_at_lem"),
    ("votes", "with_byte", "with_byte_lem"),
]


def text_of(path):
    with open(path, encoding="utf-8") as f:
        return f.read()


def is_answer(path):
    return os.path.basename(path) in ANSWERS and "/proofs/" in path


def imported(text):
    """Names that a file takes from the library."""
    for path, names in re.findall(r"use ([^{;\n]*)\.\{([^}]*)\}", text):
        steps = path.split(".")
        if steps[0] != "Rattle" or not os.path.isdir("crates/" + steps[1]):
            for name in names.split(","):
                yield name.strip().split(" as ")[0]


def snake(name):
    return re.sub(r"(?<=[a-z0-9])(?=[A-Z])", "_", name).lower().replace("-", "_")


def renamed(paths):
    """The names that change, each with its new spelling."""
    library, declared, camel = set(), set(), set()
    for path in paths:
        text = text_of(path)
        library.update(imported(text))
        for token in TOKEN.findall(QUOTED.sub(" ", text)):
            if CAMEL.match(token) and "-" not in token:
                camel.add(token)
            elif "-" in token and token[0].islower() and not is_answer(path):
                declared.add(token)
    return {name: snake(name) for name in (camel | declared) - library}


def turned(text, names, camel_alone):
    def swap(m):
        return names.get(m.group(0), m.group(0))

    def swap_camel(m):
        return m.group(0) if "-" in m.group(0) else swap(m)

    parts, at = [], 0
    for m in QUOTED.finditer(text):
        parts.append(TOKEN.sub(swap_camel if camel_alone else swap, text[at : m.start()]))
        parts.append(m.group(0) if m.group(0)[0] == '"' else TOKEN.sub(swap_camel, m.group(0)))
        at = m.end()
    parts.append(TOKEN.sub(swap_camel if camel_alone else swap, text[at:]))
    return "".join(parts)


def rename_crate(old, new):
    if not os.path.isdir("crates/" + old):
        return
    os.rename("crates/" + old, "crates/" + new)
    paths = [p for e in ("rt", "antt", "edit") for p in glob.glob("crates/**/*." + e, recursive=True)]
    for path in paths + ["crates.txt"]:
        before = text_of(path)
        if path == "crates.txt":
            lines = before.splitlines(keepends=True)
            after = "".join(l if l.startswith("#") else re.sub(rf"\b{old}\b", new, l) for l in lines)
        else:
            after = re.sub(rf"\bRattle\.{old}\b", "Rattle." + new, before)
            after = re.sub(rf"\buse {old}::", f"use {new}::", after)
        if after != before:
            with open(path, "w", encoding="utf-8") as f:
                f.write(after)


def main():
    antt = sorted(glob.glob("crates/*/specs/**/*.antt", recursive=True) + glob.glob("crates/*/proofs/**/*.antt", recursive=True))
    others = sorted(glob.glob("crates/*/src/**/*.rt", recursive=True)) + sorted(glob.glob("crates/*/must-fail/*.edit"))
    names = renamed(antt)
    for path in antt + others:
        before = text_of(path)
        crate = path.split("/")[1]
        own = dict(names, **{old: new for where, old, new in LEMMAS if where == crate})
        edits_antt = path.endswith(".edit") and "file: src/" not in before
        after = turned(before, own, camel_alone=not (path.endswith(".antt") or edits_antt))
        if after != before:
            with open(path, "w", encoding="utf-8") as f:
                f.write(after)
    rename_crate("bytes", "octets")
    print(len(names), "names respelled")


if __name__ == "__main__":
    sys.exit(main())
