#!/usr/bin/env python3
"""Respells this repository's own definitions and lemmas: words in snake case, facts in camel case.

usage: python3 tools/respell.py        at the top of the repository, once, right after /opt/rattle/port/port.py

It reads the names that specs/ and proofs/ define, and writes them anew in crates/ (sources, specs, proofs, edits) and docs/.
Names that the checker makes (goals, invariants, steps) and names of functions in src/ stay as they are.
"""

import os
import re
import sys

WORD = r"[^\s(){}\[\].,;:«»⌜⌝`]+"
DEFINED = re.compile(r"^(\s*)((?:pub |abbrev |unfoldable |record |data )*)(" + WORD + r")((?:\s+[({].*?[)}])*)\s*:\s+(.*)$")
MADE = re.compile(r"^(goal|need|given|Goals|Given)\.")
FACTS = {"recordKeeps": "RecordKeeps", "textKeeps": "TextKeeps"}


def files(*endings):
    for top in ("crates", "docs"):
        for folder, dirs, names in os.walk(top):
            dirs[:] = sorted(d for d in dirs if d != "out")
            for name in sorted(names):
                if name.endswith(endings):
                    yield os.path.join(folder, name)


def read(path):
    with open(path, encoding="utf-8") as it:
        return it.read()


def respelled(name):
    """The name in this kit's spelling."""
    if name in FACTS:
        return FACTS[name]
    if name[0].isupper():
        return "".join(part[:1].upper() + part[1:] for part in name.split("-"))
    name = re.sub(r"(?<=[a-z0-9])([A-Z])", lambda m: "_" + m.group(1).lower(), name)
    return name.replace("-", "_")


def defined():
    """Every name that a file of specs/ or proofs/ defines, those that the checker makes, and those of fields."""
    own, made, fields = set(), set(), set()
    for path in files(".antt"):
        inside = False
        for line in read(path).splitlines():
            own |= set(re.findall(r"[ {]" + "(?:" + WORD + ") as (" + WORD + ")[,}]", line))
            if line.strip() and not line.startswith(" "):
                record = re.match(r"^(?:pub )?record (" + WORD + ")", line)
                inside = record is not None
                own |= {record.group(1)} if record else set()
            m = DEFINED.match(line)
            if not m or line.lstrip().startswith("--"):
                continue
            (made if MADE.match(m.group(5)) else own).add(m.group(3))
            if inside and m.group(1):
                fields.add(m.group(3))
    return own, made, fields


def either(names):
    return "|".join(re.escape(n) for n in sorted(names, key=len, reverse=True))


def turn(text, names, fields):
    """Behind a dot stands a field, a name of a module under another name, or something that the checker makes."""
    aliases = set(re.findall(r"^use .* as (\w+)\s*;?$", text, re.M)) - {"goal", "given"}
    alone = re.compile(r"(?<![\w'\-.·])((?:(?:" + (either(aliases) or "\\b\\B") + r")\.)?)(" + either(names) + r")(?![\w'\-])")
    behind = re.compile(r"(?<=\.)(" + either(fields) + r")(?![\w'\-])")
    text = alone.sub(lambda m: m.group(1) + names[m.group(2)], text)
    return behind.sub(lambda m: names[m.group(1)], text)


def main():
    own, made, fields = defined()
    names = {n: respelled(n) for n in own - made if respelled(n) != n}
    fallen = {}
    for old, new in names.items():
        fallen.setdefault(new, []).append(old)
    for new, olds in sorted(fallen.items()):
        if len(olds) > 1 or new in own:
            print(f"fall together: {', '.join(sorted(olds))} and {new}", file=sys.stderr)
    if os.environ.get("NAMES"):
        print("\n".join(f"{a} -> {b}" for a, b in sorted(names.items())))
        return
    fields &= set(names)
    for path in files(".antt", ".rt", ".edit", ".md"):
        text = read(path)
        new = turn(text, names, fields)
        if new != text:
            with open(path, "w", encoding="utf-8") as it:
                it.write(new)


main()
