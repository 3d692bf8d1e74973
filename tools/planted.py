#!/usr/bin/env python3
"""Writes docs/PLANTED.md, the table of the planted bugs, from what the gate prints.

    bash .ci/run > LOG; python3 tools/planted.py LOG
"""
import glob
import os
import re
import sys

HEAD = """# Planted bugs

Each is a change of the code that the check refuses, kept as a must-fail edit, so that the gate tries it anew. The last column is
the goal that no longer holds, as the check names it, and where its answer stands if it has one by hand. The table is written by
`tools/planted.py` from what the gate prints.

"""


def refusals(log):
    found = {}
    for line in open(log, errors="replace"):
        m = re.search(r"must-fail ([a-z_]+)/(\S+)\.edit: refused[^:]*: (.*)$", line)
        if m:
            found[m.group(1), m.group(2)] = m.group(3)
    return found


def goal(text):
    m = re.search(r"proofs/(\S+?)/(?:Answers|Invariants)\.antt:\S* error: `([^`]+)`", text)
    if m:
        return "`%s` of `%s`" % (m.group(2), m.group(1).split("/")[-1])
    m = re.search(r"\(`([^`]+)`\)", text) or re.search(r"`([^`]+)`", text)
    return "`%s`" % m.group(1) if m else text[:60]


# The changes of the sources. Those of a proof file only follow a name.
def bug(edit):
    parts, source, olds = [], False, None
    for line in open(edit).read().split("\n"):
        if line.startswith("file: "):
            source = line[6:].startswith("src/")
        elif line.startswith("old: "):
            olds = line[5:].strip()
        elif line.startswith("new: ") and source:
            parts.append("`%s` → `%s`" % (olds, line[5:].strip() or " "))
    return "; ".join(parts).replace("|", "\\|")


def main(log):
    found = refusals(log)
    crates = [l.split(":")[0].split()[0] for l in open("crates.txt") if ":" in l and not l.startswith("#")]
    with open("docs/PLANTED.md", "w") as out:
        out.write(HEAD)
        for crate in crates:
            edits = sorted(glob.glob("crates/%s/must-fail/*.edit" % crate))
            if not edits:
                continue
            out.write("## %s\n\n| Edit | Bug | Refused by |\n|---|---|---|\n" % crate)
            for edit in edits:
                name = os.path.basename(edit)[:-5]
                out.write("| `%s` | %s | %s |\n" % (name, bug(edit), goal(found.get((crate, name), "")).replace("|", "\\|")))
            out.write("\n")


if __name__ == "__main__":
    main(sys.argv[1])
