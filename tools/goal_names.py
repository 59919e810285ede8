#!/usr/bin/env python3
"""Brings what proof files say of goals and steps to today's spelling: a name of the source keeps its underscores, and
so does a word of the check's own. Older proofs wrote a dash for both.

usage: python3 tools/goal_names.py [NAME..]   in these crates, or in all of them
"""

import os
import re
import sys

TOKEN = re.compile(r"[A-Za-z0-9_']+(?:-[A-Za-z0-9_']+)+")
WORDS = ["type-inv", "in-err", "in-ok", "in-default", "invariant-of", "slice-bounds", "offset-bounds", "from-residual"]
WORDS += ["overflow-" + word for word in ("add", "sub", "mul", "shl", "shr", "cast", "neg", "step")]
WORDS += ["nonzero-div", "nonzero-rem"]


def identifiers(folder):
    found = set()
    for where, _, names in os.walk(folder):
        for name in names:
            if name.endswith(".rt"):
                with open(os.path.join(where, name), encoding="utf-8") as f:
                    found.update(re.findall(r"\b[A-Za-z0-9]+(?:_[A-Za-z0-9]+)+\b", f.read()))
    return found


def turned(token, known):
    parts, out, at = token.split("-"), [], 0
    while at < len(parts):
        for end in range(len(parts), at, -1):
            run = "_".join(parts[at:end])
            if end == at + 1 or run in known:
                out.append(run)
                at = end
                break
    return "-".join(out)


def main():
    for crate in sys.argv[1:] or sorted(os.listdir("crates")):
        known = identifiers(os.path.join("crates", crate, "src")) | {word.replace("-", "_") for word in WORDS}
        for where, _, names in os.walk(os.path.join("crates", crate, "proofs")):
            for name in names:
                if name in ("Answers.antt", "Invariants.antt"):
                    path = os.path.join(where, name)
                    with open(path, encoding="utf-8") as f:
                        text = f.read()
                    new = TOKEN.sub(lambda m: turned(m.group(0), known), text)
                    if new != text:
                        with open(path, "w", encoding="utf-8") as f:
                            f.write(new)


if __name__ == "__main__":
    main()
