#!/usr/bin/env python3
"""Spells the names of goals and steps in proof files as the toolchain makes them: its own words in snake case, names of src/ as
they stand there.

    python3 tools/goals.py
"""
import glob
import os
import re

WORDS = [
    (r"\boverflow-(add|sub|mul|shl|shr|cast|step|neg)\b", r"overflow_\1"),
    (r"\b(offset|slice)-bounds-", r"\1_bounds-"),
    (r"\bnonzero-(div|rem)\b", r"nonzero_\1"),
    (r"\.type-inv\b", ".type_inv"),
    (r"\bfrom-residual\b", "from_residual"),
    (r"\bin-(ok|err|default)\b", r"in_\1"),
]


def identifiers(crate):
    names = set()
    for path in glob.glob(f"crates/{crate}/src/**/*.rt", recursive=True):
        code = re.sub(r"//.*", "", open(path, encoding="utf-8").read())
        names |= set(re.findall(r"\b[a-z][a-z0-9]*(?:_[a-z0-9]+)+\b", code))
    return names


def main():
    for crate in sorted(os.listdir("crates")):
        names = sorted(identifiers(crate), key=len, reverse=True)
        dashed = {name.replace("_", "-"): name for name in names}
        if not dashed:
            dashed = {"\0": ""}
        pattern = re.compile(r"(?<![A-Za-z0-9_])(" + "|".join(re.escape(d) for d in sorted(dashed, key=len, reverse=True)) + r")(?![A-Za-z0-9_])")
        for path in glob.glob(f"crates/{crate}/proofs/**/*.antt", recursive=True):
            if path.rsplit("/", 1)[1] not in ("Answers.antt", "Invariants.antt", "Proof.antt"):
                continue
            out = []
            for line in open(path, encoding="utf-8").read().split("\n"):
                new = line
                if not re.match(r"^\s*use (?!.*\.(?:Goals|Given))", line):
                    for old, word in WORDS:
                        new = re.sub(old, word, new)
                    new = pattern.sub(lambda m: dashed[m.group(1)], new)
                    new = re.sub(r"(loop-(\w+)\.\2)_index\b", r"\1-index", new)
                out.append(new)
            open(path, "w", encoding="utf-8").write("\n".join(out))


main()
