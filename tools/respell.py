#!/usr/bin/env python3
"""Brings the repository's own names to the spelling of today's Rattle, behind port.py, once.

usage: python3 tools/respell.py        at the top of the repository

Definitions, lemmas, constructors and fields of specs/ and proofs/ go from bitIn to bit_in; a definition that states a
fact goes from putIfRoom to PutIfRoom; a field of a record goes from used-up to used_up. Functions of src/, exported
names, strings, inputs and outputs keep theirs. Which names of the first kind there are it finds in the files; it stops
where two names would fall together. It reads crates/, README.md and docs/, and writes what changed.
"""

import os
import re
import sys

# Facts, which begin with a capital.
FACTS = {"putIfRoom": "PutIfRoom", "putBehind": "PutBehind", "allHold": "AllHold"}
# The fact `holds` of these crates alone: elsewhere it is an English word.
HOLDS = ("worked", "trace_lines", "trace_text")
# Fields and constructors with a dash inside a name.
DASHED = """zeros-sized ones-sized region-sized known-sized from-sound used-up some-packet last-starts is-locked is-script
ones-state other-state by-rules behind-first quit-line by-calls by-restart same-region same-mode never-before never-after""".split()
# A lemma that would fall together with a definition of the new spelling.
BEFORE = {"write_done": "write_done_lem"}

SIGNATURE = re.compile(r"^\s*(?:unfoldable |abbrev )?(?:pub )?(?:data |record |module )?([^\s:(){}]+) :")
WORD = re.compile(r"[^\W\d][\w'₀-₉]*(?:-[\w'₀-₉]+)*")
CAMEL = re.compile(r"(?<=[a-z0-9])([A-Z])")


def snake(name):
    return CAMEL.sub(lambda m: "_" + m.group(1).lower(), name)


def files():
    for top in ("crates", "docs", "README.md"):
        if os.path.isfile(top):
            yield top
        for folder, dirs, names in os.walk(top):
            dirs[:] = sorted(d for d in dirs if d != "out")
            for name in sorted(names):
                if name.endswith((".rt", ".antt", ".edit", ".md")):
                    yield os.path.join(folder, name)


def read(path):
    with open(path, encoding="utf-8") as f:
        return f.read()


def main():
    texts = {path: read(path) for path in files()}
    table = dict(FACTS) | {name: name.replace("-", "_") for name in DASHED}
    for path, text in texts.items():
        if path.endswith(".antt"):
            for line in text.splitlines():
                m = SIGNATURE.match(line)
                if m and CAMEL.search(m.group(1)) and m.group(1)[0].islower() and m.group(1) not in table:
                    table[m.group(1)] = snake(m.group(1))
    lines = [line for path, text in texts.items() if path.endswith(".antt") for line in text.splitlines()]
    defined = {m.group(1) for m in map(SIGNATURE.match, lines) if m}
    together = sorted(new for old, new in table.items() if new in defined and new not in BEFORE)
    if together:
        print("respell: these would fall together with a name that stands: " + ", ".join(together), file=sys.stderr)
        return 1

    spelled = defined | set(table.values())

    def turned(path):
        inside = path.split(os.sep)
        own = dict(table)
        if len(inside) > 2 and inside[0] == "crates" and inside[1] in HOLDS:
            own["holds"] = "Holds"

        def word(m):
            w = m.group(0)
            if w in own:
                return own[w]
            if path.startswith(os.path.join("crates", "delivery", "proofs")) and w in BEFORE:
                return BEFORE[w]
            # What port.py respelled it did in .rt and .antt files alone.
            if path.endswith((".edit", ".md")) and CAMEL.search(w) and w[0].islower() and snake(w) in spelled:
                return snake(w)
            return "-".join(own.get(part, part) if CAMEL.search(part) else part for part in w.split("-"))

        # Comments of a crate in which `holds` is a fact say the English word too.
        lines = []
        for line in texts[path].split("\n"):
            comment = line.lstrip().startswith(("--", "//"))
            if comment:
                own.pop("holds", None)
            lines.append(WORD.sub(word, line))
            if comment and len(inside) > 1 and inside[1] in HOLDS:
                own["holds"] = "Holds"
        return "\n".join(lines)

    changed = 0
    for path, text in texts.items():
        new = turned(path)
        if new != text:
            changed += 1
            with open(path, "w", encoding="utf-8") as f:
                f.write(new)
    print(f"respell: {len(table) + 1} names, {changed} files")
    return 0


if __name__ == "__main__":
    raise SystemExit(main())
