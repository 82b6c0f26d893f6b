#!/usr/bin/env python3
"""Lists places in crates/*/src that may ask for another form, a count and a row for each, by the text alone.

Run it at the top of the repository; with a number, as in `tools/places.py 3`, only that group is listed.
"""
import re
import sys
from collections import defaultdict
from pathlib import Path

FILES = sorted(Path("crates").glob("*/src/*.rt"))
TEXT = {f: f.read_text() for f in FILES}


def grep(pattern, flags=0):
    """The lines that a pattern meets, as file:line: text."""
    found = []
    for f, text in TEXT.items():
        for m in re.finditer(pattern, text, flags | re.M):
            line = text.count("\n", 0, m.start()) + 1
            found.append(f"{f}:{line}: {m.group(0).strip()[:150]}")
    return found


def functions():
    """Each function: file, line, name, parameters, result, clauses and body."""
    head = re.compile(r"^( *)(?:pub(?:\([a-z]+\))? )?fn (\w+)", re.M)
    for f, text in TEXT.items():
        for m in head.finditer(text):
            at, depth = m.end(), 0
            open_at = text.find("(", at)
            end = open_at
            for end in range(open_at, len(text)):
                depth += {"(": 1, ")": -1}.get(text[end], 0)
                if depth == 0:
                    break
            close = re.compile(r"^" + m.group(1) + r"(\}|\{\})", re.M).search(text, end)
            stop = close.end() if close else len(text)
            rest = text[end + 1 : stop]
            body_at = re.search(r"^" + m.group(1) + r"\{", rest, re.M) or re.search(r"\{", rest)
            clauses, body = (rest[: body_at.start()], rest[body_at.start() :]) if body_at else (rest, "")
            yield f, text.count("\n", 0, m.start()) + 1, m.group(2), text[open_at + 1 : end], clauses, body


def own_enums():
    """1. Enums, each to be read for the shape of Option or Result."""
    return grep(r"^(pub(\([a-z]+\))? )?enum \w+")


def optional_faults():
    """1. Functions that answer an Option of what is wrong."""
    return grep(r"^.*fn .*-> Option<(Fault|Refusal|&'static str)>.*$")


def flags_beside():
    """1. Functions that change a value and tell by a bool whether they did, or fill a value of the caller's."""
    return [x for x in grep(r"fn \w+(<[^>]*>)?\([^)]*&mut[^)]*\)\s*->\s*(bool|Result<\(\), (Fault|Refusal)>)", re.S)]


def passed_on_by_hand():
    """1. A fault passed on by a match or an if in place of `?`."""
    return grep(r"(Err\(\w+\) => (return )?Err\(.*|if let Err\(\w+\) = .*)")


def kind_numbers():
    """1. Words of a kind written as a number, outside of tables of examples and tests."""
    return [x for x in grep(r"0x[1-9A-F]000_000[0-9A-F]") if "build.rt" not in x and "tests.rt" not in x]


def twins():
    """2. Functions and types that stand in two places with the same text or the same text but for names and numbers."""
    def shape(body):
        body = re.sub(r"//.*", "", body)
        return re.sub(r"\s+", " ", body).strip()

    same = defaultdict(list)
    for f, line, name, params, clauses, body in functions():
        if len(shape(body)) > 25:
            key = shape(body)
            same[key].append(f"{f}:{line} {name}")
    rows = [" = ".join(v) for v in same.values() if len(v) > 1]
    loose = defaultdict(list)
    for f, line, name, params, clauses, body in functions():
        if len(shape(body)) > 40:
            key = re.sub(r"\b\w+\b", "w", shape(params + body))
            loose[key].append((f"{f}:{line} {name}", shape(body)))
    for v in loose.values():
        if len(v) > 1 and len({b for _, b in v}) > 1:
            rows.append("alike: " + " ~ ".join(n for n, _ in v))
    types = defaultdict(list)
    for f, text in TEXT.items():
        for m in re.finditer(r"^(?:pub(?:\([a-z]+\))? )?(?:struct|enum) (\w+)[^{;]*\{\n(.*?)^\}", text, re.M | re.S):
            types[re.sub(r"\bis_\w+\b", "is", re.sub(r"\s+", " ", m.group(2)))].append(f"{f} {m.group(1)}")
    rows += ["types: " + " = ".join(v) for v in types.values() if len(v) > 1]
    return rows


def counted_loops():
    """3. while, loop, a for over numbers, and additions to a counter."""
    return grep(r"(\bwhile\b .*|^\s*loop \{|for \w+ in [(]?[\w_]+\.\..*|^\s*\w+ = \w+\.wrapping_add\(1\);|^\s*\w+ \+= 1;)")


def by_hand():
    """4. Equality, order, copying, conversion and printing written by hand."""
    return grep(
        r"(^impl.* (PartialEq|Eq|PartialOrd|Ord|Clone|Copy|Debug|Hash) for .*"
        r"|^.*fn \w*(_text|_name|_bytes|text_of|from_bytes|plain|to_\w+|kind_of|push_hex|hex_digit)\(.*"
        r"|^.*fn (expected_outcome|is_expected|are_expected|meaning|plain)\b.*"
        r"|>> 24|>> 16 & 0xFF|>> 8 & 0xFF)"
    )


def repeated_facts():
    """5. Conditions that stand in three or more functions' clauses, and parameters that three or more functions take together."""
    facts = defaultdict(set)
    pairs = defaultdict(set)
    for f, line, name, params, clauses, body in functions():
        for m in re.finditer(r"(requires|ensures)( \w+)? \{ (.*) \}", clauses):
            if m.group(1) == "requires":
                facts[m.group(3)].add(f"{f}:{line} {name}")
        for m in re.finditer(r"drop \w+\.\w+\.(?:waiting\.)?top|task_tree \w+\.now\.words\.now", clauses):
            facts[re.sub(r"\w+\.(old|new|now|entry)", "x", m.group(0), count=1)].add(f"{f}:{line} {name}")
        names = [p.split(":")[0].strip() for p in re.split(r",(?![^<(]*[>)])", params) if ":" in p]
        names = [n for n in names if n not in ("rt", "heap", "")]
        for i, a in enumerate(names):
            for b in names[i + 1 :]:
                pairs[f"{f.parts[1]}: {a}, {b}"].add(name)
    rows = [f"{k}  ({len(v)} functions)" for k, v in facts.items() if len(v) > 2]
    rows += [f"together in {k}: {', '.join(sorted(v))}" for k, v in pairs.items() if len(v) > 2]
    return rows


def arrays():
    """6. Arrays with a length or a cursor beside them, and slices with a place beside them."""
    return grep(r"^\s*(pub(\([a-z]+\))? )?\w+: (\[\w+; \d+\]|&'a \[u32\]),\n\s*(pub(\([a-z]+\))? )?\w+: (usize|u32),")


def switches():
    """7. Rows of calls that differ in a method or a table alone."""
    return grep(r"for \w+ in [^{]*\{\n\s*table\.\w+\([^)]*\)\?;\n\s*\}|all_\w+\(table, .*")


def proofs():
    """8. Files of answers and of lemmas, and how many lines they have."""
    rows = []
    for crate in sorted(Path("crates").iterdir()):
        own = sorted((crate / "proofs").rglob("*.antt"))
        if own:
            answers = [p for p in own if p.name in ("Answers.antt", "Invariants.antt")]
            lines = sum(len(p.read_text().splitlines()) for p in own)
            rows.append(f"{crate.name}: {len(answers)} files of answers, {len(own) - len(answers)} of lemmas, {lines} lines")
    return rows


GROUPS = [own_enums, optional_faults, flags_beside, passed_on_by_hand, kind_numbers, twins, counted_loops, by_hand, repeated_facts, arrays, switches, proofs]


def main():
    wanted = sys.argv[1] if len(sys.argv) > 1 else ""
    for group in GROUPS:
        if wanted and not group.__doc__.startswith(wanted):
            continue
        rows = group()
        print(f"{group.__doc__} {len(rows)}")
        for row in rows:
            print("   ", row)


main()
