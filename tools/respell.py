#!/usr/bin/env python3
"""Brings this repository's own names to the spelling of today's Rattle, after the toolchain's own script has turned everything else.

usage: tools/respell.py     at the top of the repository, once

Two kinds of names are left to it: definitions and lemmas with a capital inside (wheelRefusal becomes wheel_refusal), and the proof of a function f
in a Proof.antt, which is f_spec. Types, modules and laws keep their capitals; a dash that joins two names stays. The papers follow, but only for
names that the definitions and proofs have.
"""
import pathlib
import re

TOKEN = re.compile(r"(?<![\w'-])[a-z][\w'-]*")
CAPITAL_INSIDE = re.compile(r"^[a-z][a-z0-9]*[A-Z]")
LIBRARY = {"getD": "get_or"}  # a list's element or another value, in the library's own word
SPEC = re.compile(r"^pub (\S+) : \{M : Type 1\} → statement M$", re.M)


def part(name):
    if name in LIBRARY:
        return LIBRARY[name]
    return re.sub(r"[A-Z]", lambda m: "_" + m.group().lower(), name) if CAPITAL_INSIDE.match(name) else name


def respelled(name):
    return "-".join(part(p) for p in name.split("-"))


def put(path, text, turn):
    new = TOKEN.sub(lambda m: turn.get(m.group(), m.group()), text)
    if new != path.read_text(encoding="utf-8"):
        path.write_text(new, encoding="utf-8")
        return 1
    return 0


def main():
    antt = sorted(pathlib.Path("crates").glob("*/*/**/*.antt"))
    names = {t for p in antt for t in TOKEN.findall(p.read_text(encoding="utf-8"))}
    turn = {t: respelled(t) for t in names if respelled(t) != t}
    taken = {n: [t for t in turn if turn[t] == n] for n in turn.values()}
    for new, olds in sorted(taken.items()):
        if len(olds) > 1 or new in names:
            print(f"look: {' and '.join(sorted(olds))} become {new}" + (", which stood there" if new in names else ""))
    changed = 0
    for p in antt:
        text = p.read_text(encoding="utf-8")
        if p.name == "Proof.antt":
            wanted = p.parent.name.lstrip("+") + "_spec"
            for old in SPEC.findall(text):
                text = re.sub(rf"(?<![\w'-]){re.escape(old)}(?![\w'-])", wanted, text)
        changed += put(p, text, turn)
    papers = [p for g in ("crates/*/src/**/*.rt", "crates/*/must-fail/*.edit", "docs/**/*.md", "README.md") for p in pathlib.Path(".").glob(g)]
    for p in sorted(papers):
        changed += put(p, p.read_text(encoding="utf-8"), turn)
    print(f"{len(turn)} names respelled in {changed} files")


if __name__ == "__main__":
    main()
