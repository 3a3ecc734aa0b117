#!/usr/bin/env python3
"""Spells the names of definitions and lemmas as today's Rattle does: functions, fields and lemmas in snake case, types in
camel case. A dash stays only where it joins the names of two functions, in a lemma that is an equation about them.

usage: python3 tools/respell.py        in the repository, once, right after the kit's own port.py

It goes by whole names: those that specs/ and proofs/ declare and that have a dash. Names that Rattle makes (goals, steps of
the code) are not among them. It stops where a new name would fall together with one that a file already has.
"""

import pathlib
import re

ROOT = pathlib.Path(__file__).resolve().parent.parent

# Lemmas about two functions, the outer call first.
JOINED = {
    "length-below": "length-wiped_below",
    "length-reset": "length-reset",
    "length-rotated": "length-rotated",
    "length-waiting": "length-waiting",
    "length-wiped": "length-wiped_if",
    "length-wiped-at": "length-wiped_at",
    "rotated-start": "rotated-start",
    "seen-clear": "seen-clear",
    "seen-with-cue": "seen-with_cue",
    "seen-without": "seen-without",
}

NAME = r"[^\s(){}\[\],;.:\"`]+"
DECLARED = re.compile(rf"^\s*(?:abbrev )?(?:pub )?(?:record |data )?({NAME})(?: [({{][^)}}]*[)}}])* :(?= |$)")


def spelled(name):
    if name in JOINED:
        return JOINED[name]
    if name[0].isupper():
        return "".join(part[0].upper() + part[1:] for part in name.split("-"))
    return name.replace("-", "_")


def declared(text):
    for line in text.splitlines():
        found = DECLARED.match(line)
        if found and ": goal." not in line and not line.lstrip().startswith("--"):
            yield found.group(1)


def turned(text, names):
    return re.sub(NAME, lambda m: names.get(m.group(0), m.group(0)), text)


def main():
    antt = sorted(ROOT.glob("crates/*/specs/**/*.antt")) + sorted(ROOT.glob("crates/*/proofs/**/*.antt"))
    names = {n: spelled(n) for f in antt for n in declared(f.read_text()) if "-" in n}
    names = {old: new for old, new in names.items() if old != new}
    for f in antt + sorted(ROOT.glob("crates/*/src/**/*.rt")):
        text = f.read_text()
        here = set(re.findall(NAME, text))
        for old, new in names.items():
            if old in here and new in here and f.suffix == ".antt":
                raise SystemExit(f"{f}: {old} and {new} would fall together")
        f.write_text(turned(text, names))
    for f in [ROOT / "README.md", *sorted(ROOT.glob("docs/*.md"))]:
        f.write_text(re.sub(r"`[^`\n]+`", lambda m: turned(m.group(0), names), f.read_text()))
    for old, new in sorted(names.items()):
        print(old, "->", new)


if __name__ == "__main__":
    main()
