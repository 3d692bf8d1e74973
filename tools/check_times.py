#!/usr/bin/env python3
"""Runs the gate and tells what each crate's proof, tests and must-fail edits cost, in seconds of a processor.

    python3 tools/check_times.py LOG > TABLE

The gate proves anew only what this machine has not passed yet, so the table is whole on a machine where it runs for the first
time. LOG gets what the gate prints. The processes that it starts are looked at four times a second.
"""
import collections
import os
import re
import subprocess
import sys
import threading
import time

TICKS = os.sysconf("SC_CLK_TCK")


class Process:
    """One run of the prover: the crate it is for, what it does there, and the seconds it took."""

    def __init__(self, crate, work):
        self.crate, self.work, self.seconds = crate, work, 0.0


def read(path):
    with open(path, "rb") as file:
        return file.read().decode(errors="replace")


# What a process of the prover does: an edit is tried in a folder of its own, and tests are built with a flag.
def work_of(pid, words):
    if "/rt-edit-" in os.readlink(f"/proc/{pid}/cwd") + "/":
        return "edits"
    return "tests" if "--test" in words else "proof"


def look(seen):
    for pid in filter(str.isdigit, os.listdir("/proc")):
        try:
            if os.path.basename(os.readlink(f"/proc/{pid}/exe")) != "rattle":
                continue
            fields = read(f"/proc/{pid}/stat").rsplit(")", 1)[1].split()
            key = pid, fields[19]
            if key not in seen:
                words = read(f"/proc/{pid}/cmdline").split("\0")
                crate = words[words.index("--crate-name") + 1]
                seen[key] = Process(crate, work_of(pid, words))
            seen[key].seconds = (int(fields[11]) + int(fields[12])) / TICKS
        except (OSError, ValueError, IndexError):
            continue


def watch(seen, done):
    while not done.wait(0.25):
        look(seen)


def crates():
    with open("crates.txt") as file:
        return [re.split(r"[: ]", line)[0] for line in file if ":" in line and not line.startswith("#")]


def edits(crate):
    folder = f"crates/{crate}/must-fail"
    return len([name for name in os.listdir(folder) if name.endswith(".edit")]) if os.path.isdir(folder) else 0


def main(log):
    seen, done = {}, threading.Event()
    watcher = threading.Thread(target=watch, args=(seen, done))
    watcher.start()
    start = time.time()
    with open(log, "w") as out:
        status = subprocess.run(["bash", ".ci/run"], stdout=out, stderr=subprocess.STDOUT).returncode
    wall = time.time() - start
    done.set()
    watcher.join()
    took = collections.Counter()
    for process in seen.values():
        took[process.crate, process.work] += process.seconds
        took["all", process.work] += process.seconds
    print("| Crate | Proof, s | Tests, s | Edits | Edits, s |\n|---|---|---|---|---|")
    for crate in crates() + ["all"]:
        count = edits(crate) if crate != "all" else sum(map(edits, crates()))
        cells = ["%.0f" % took[crate, work] if took[crate, work] else "" for work in ("proof", "tests", "edits")]
        print("| %s | %s | %s | %s | %s |" % (crate, cells[0], cells[1], count or "", cells[2]))
    whole = sum(took["all", work] for work in ("proof", "tests", "edits"))
    minutes = whole / 60, whole / 120, wall / 60, os.cpu_count(), status
    print("\n%.0f minutes of a processor, %.0f with two; %.0f by the clock here, with %d; status %d." % minutes)
    return status


if __name__ == "__main__":
    sys.exit(main(sys.argv[1]))
