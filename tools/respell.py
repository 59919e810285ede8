#!/usr/bin/env python3
"""Brings the repository's own definitions and lemmas to the spelling of today's Rattle.

usage: python3 tools/respell.py           at the top of the repository, once, after the kit's own port script
       python3 tools/respell.py --names   prints what would be renamed, and changes nothing

Words are in snake case. A dash stays only where it joins two names of definitions, as in length-timed. Types and
modules are in camel case already, and the names of goals are left to the check. Renamed are what specs/ and proofs/
define, the fields of their records, and what a use line calls something. Texts in quotes are left alone.
"""

import os
import re
import sys

# Words of the library that a dash may join.
LIBRARY = {"append", "drop", "get_or", "length", "map", "min", "replicate", "set", "slice_index", "sum", "take"}
TOKEN = re.compile(r"[A-Za-z0-9_'ℕ₀-₉·∙-]+")
SIGNATURE = re.compile(r"^ *((?:abbrev |unfoldable |pub |record |data |ruleset )*)([A-Za-z][A-Za-z0-9_'-]*) *(?:\(.*\) *)?(?:\{.*\} *)?:(?: |$)")
ALIAS = re.compile(r"\bas ([a-z][A-Za-z0-9_'-]*)(?=[,}])")
# Names that would fall together with another of the crate, or with a word of the code.
CHOSEN = {
    ("book", "in-time"): "in_time",
    ("worked", "common-period"): "comes_round",
    ("worked", "in-time"): "in_time",
    ("worked", "none_passes"): "none_passes_lem",
    ("worked", "three-tasks"): "three_worked",
}
# What the check names: goals, the facts of a step, the proof of an impl.
GOAL = re.compile(r"^(returns|loop-|invariant-|decreases-|overflow-|nonzero-|bounds-|slice-bounds|offset|ghost-|the-)|-requires(-\d+)?$")


def files(*endings):
    for folder, dirs, names in os.walk("crates"):
        dirs[:] = sorted(d for d in dirs if d != "out")
        for name in sorted(names):
            if name.endswith(endings):
                yield os.path.join(folder, name)


def read(path):
    with open(path, encoding="utf-8") as f:
        return f.read()


def snake(word):
    return re.sub(r"(?<=[a-z0-9])[A-Z]", lambda m: "_" + m.group(0).lower(), word)


def defined():
    """The names that the repository defines: all of them, and those of functions and facts as opposed to lemmas."""
    every, words = set(), set()
    for path in files(".antt"):
        for line in read(path).splitlines():
            signature = SIGNATURE.match(line)
            if signature and not line.lstrip().startswith(("let ", "--")):
                every.add(signature.group(2))
                if re.search(r"abbrev|unfoldable", signature.group(1)):
                    words.add(snake(signature.group(2)))
    for path in files(".antt", ".rt"):
        for line in read(path).splitlines():
            if re.match(r"\s*(ghost )?use ", line):
                every.update(ALIAS.findall(line))
    return every, words


def respelled(name, words):
    """In snake case; a dash stays where a definition stands on either side of it."""
    for at in (i for i, letter in enumerate(name) if letter == "-"):
        left, right = (snake(side).replace("-", "_") for side in (name[:at], name[at + 1 :]))
        if {left, right} <= words | LIBRARY:
            return f"{left}-{right}"
    return snake(name).replace("-", "_")


def renamings():
    """Old to new names. A lemma that would have a definition's name gets _lem."""
    every, words = defined()
    table = {}
    for name in sorted(every):
        if name[0].islower() and not GOAL.search(name):
            new = respelled(name, words)
            if new != name:
                table[name] = new
    definitions = {new for old, new in table.items() if "-" not in old}
    return {old: new + "_lem" if "-" in old and new in definitions else new for old, new in table.items()}


def clashes(table):
    """New names that a file which has the old one, or the place where it is defined, has already."""
    olds = {}
    for old, new in table.items():
        olds.setdefault(new, []).append(old)
    for new, names in olds.items():
        if len(names) > 1:
            yield f"{new}: {', '.join(names)}"
    for path in files(".antt", ".rt"):
        text = read(path)
        tokens = set(TOKEN.findall(text))
        for old in sorted(tokens & table.keys()):
            if table[old] in tokens:
                yield f"{path}: {old} beside {table[old]}"


def turned(text, table):
    """The text with each of these names respelled, but in quotes. A comment has dashes of its own."""

    def name(match):
        word, new = match.group(0), table.get(match.group(0))
        if not new:
            return word
        start = match.string.rfind("\n", 0, match.start()) + 1
        if "-" in word and match.string[start : match.start()].lstrip().startswith(("--", "//")):
            return word
        field = match.start() > 0 and match.string[match.start() - 1] == "."
        return new.removesuffix("_lem") if field and "-" in word else new

    parts = re.split(r'("(?:[^"\\\n]|\\.)*")', text)
    return "".join(part if i % 2 else TOKEN.sub(name, part) for i, part in enumerate(parts))


def main():
    table = renamings()
    if "--names" in sys.argv:
        for old, new in table.items():
            print(old, new)
        for clash in clashes(table):
            print("clash:", clash)
        return
    for path in files(".antt", ".rt", ".edit"):
        text = read(path)
        crate = path.split(os.sep)[1]
        chosen = {old: new for (where, old), new in CHOSEN.items() if where == crate}
        new = turned(text, table | chosen)
        if new != text:
            with open(path, "w", encoding="utf-8") as f:
                f.write(new)


if __name__ == "__main__":
    main()
