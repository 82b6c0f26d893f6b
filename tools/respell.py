#!/usr/bin/env python3
"""Respells this repository's own definitions and lemmas from kebab case to snake case, as today's Rattle spells them.

Run once, at the top of the checkout, behind the toolchain's own script that brings an older repository over:

    python3 tools/respell.py          respell the files in place
    python3 tools/respell.py --list   print what would be respelled, and names that would fall together

A name of ours is one that a line of an .antt file in specs/ or proofs/ gives a type (`name : type`), or a ghost field of
src/. Names of the library and names that Rattle makes (goals, calls) keep their dashes. Functions of src/, text in
strings, and what programs read and write are left as they are.
"""
import re
import sys
from collections import defaultdict
from pathlib import Path

WORD = r"[A-Za-z_][A-Za-z0-9_']*(?:-[A-Za-z0-9_']+)*"
TOKEN = re.compile(r"(?<![\w'\-◌≡≢])" + WORD + r"(?![\w'\-◌])")
SIGNATURE = re.compile(r"^\s*(?:where\s+)?(?:(?:abbrev|unfoldable|pub|private|instance)\s+)*((?:" + WORD + r"\s+)*" + WORD + r")\s*:\s+(\S.*)$")
GHOST_FIELD = re.compile(r"^\s*ghost\s+(" + WORD + r")\s*:")
BINDER = re.compile(r"[({]((?:" + WORD + r"\s+)*" + WORD + r")\s+:\s")
STD_USE = re.compile(r"(?:ghost )?use Rattle\.std\.[\w.]*\{([^}]*)\}")


def files():
    for crate in sorted(Path("crates").iterdir()):
        yield from sorted((crate / "specs").glob("**/*.antt"))
        yield from sorted((crate / "proofs").glob("**/*.antt"))
        yield from sorted((crate / "src").glob("**/*.rt"))


def own_names(path, text):
    """The names that the file gives a type."""
    found = set()
    if path.suffix == ".rt":
        for line in text.splitlines():
            field = GHOST_FIELD.match(line)
            if field:
                found.add(field.group(1))
        return found
    for line in text.splitlines():
        if line.lstrip().startswith("--") or line.lstrip().startswith("use "):
            continue
        signature = SIGNATURE.match(line)
        if signature and not signature.group(2).startswith("goal."):
            found.update(signature.group(1).split())
        for binder in BINDER.findall(line):
            found.update(binder.split())
    return {name for name in found if "-" in name}


def of_library(text):
    """The names that the file takes from the library."""
    names = set()
    for group in STD_USE.findall(text):
        for item in group.split(","):
            names.add(item.strip().split(" as ")[-1])
    return names


# Names that would fall together with one of the library's in a file that has both, and those of types.
CHOSEN = {
    "bit-and": "bit_of_and",
    "bit-or": "bit_of_or",
    "bit-xor": "bit_of_xor",
    "Behind-goal": "BehindGoal",
    "Does-at": "does_at",
}


def snake(name):
    return CHOSEN.get(name, name.replace("-", "_"))


def respelled(path, text, names):
    library = of_library(text)
    kept = []

    def word(match):
        name = match.group(0)
        before = text[: match.start()]
        if name not in names or name in library:
            return name
        if re.search(r"\b(goal|row|g)\.$", before[-8:]):
            kept.append(name)
            return name
        return snake(name)

    pieces, last = [], 0
    for quoted in re.finditer(r'"(?:[^"\\\n]|\\.)*"', text) if path.suffix == ".rt" else []:
        pieces.append(TOKEN.sub(word, text[last : quoted.start()]))
        pieces.append(quoted.group(0))
        last = quoted.end()
    pieces.append(TOKEN.sub(word, text[last:]))
    return "".join(pieces), kept


def main():
    listed = "--list" in sys.argv
    texts = {path: path.read_text() for path in files()}
    names = set()
    for path, text in texts.items():
        names |= own_names(path, text)
    names = {name for name in names if "-" in name}
    taken = defaultdict(set)
    for path, text in texts.items():
        for match in TOKEN.finditer(text):
            taken[match.group(0)].add(str(path))
    for path, text in texts.items():
        new, kept = respelled(path, text, names)
        for name in kept:
            print(f"kept as a name that Rattle makes: {name} in {path}")
        if new != text and not listed:
            path.write_text(new)
    for edit in sorted(Path("crates").glob("*/must-fail/*.edit")):
        text = edit.read_text()
        new, _ = respelled(edit, text, names)
        if new != text:
            print(f"edit: {edit}")
            if not listed:
                edit.write_text(new)
    if listed:
        for name in sorted(names):
            print("name:", name, "->", snake(name))
        for name in sorted(names):
            if snake(name) in taken:
                print("falls together:", name, "with", snake(name), "in", sorted(taken[snake(name)])[:6])
        for path, text in texts.items():
            for name in sorted(of_library(text) & names):
                print("of the library:", name, "in", path)
            for match in TOKEN.finditer(text):
                name = match.group(0)
                if name in names and path.suffix == ".antt" and re.search(r"(^|[^\w'])c\.$", text[: match.start()][-4:]):
                    print("perhaps made by Rattle:", name, "in", path)


main()
