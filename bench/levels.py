#!/usr/bin/env python3
"""The largest levels: levels.py write FOLDER, levels.py times PROGRAM FOLDER or levels.py counts PROGRAM FOLDER.

`times` and `counts` play each level by the program, and print a table of milliseconds (the least of 30 runs) or of
instructions (of the whole program, by callgrind).
"""
import os
import random
import re
import subprocess
import sys
import tempfile
import time

HEADS = {"scan": "arm 0 0 8", "tree-8-32": "arm 8 32 8"}


def level(head):
    """64 walls and 512 calls: 64 adds, and 112 each of near, within, island and route."""
    draw = random.Random(5).randrange
    pose = lambda: " ".join(str(draw(4096)) for _ in range(6))
    lines = [head, "walls 64"]
    lines += [" ".join("%d %d" % (draw(4096), draw(1200)) for _ in range(6)) for _ in range(64)]
    lines += ["calls 512"] + ["a " + pose() for _ in range(64)]
    for _ in range(112):
        lines += ["n 8 " + pose(), "w %d %s" % (draw(100000), pose())]
        lines += ["i %d" % draw(1, 65), "r %d %d" % (draw(1, 65), draw(1, 65))]
    return ("\n".join(lines) + "\n").encode()


def write(folder):
    for name, head in HEADS.items():
        with open(os.path.join(folder, name), "wb") as file:
            file.write(level(head))


def played(command, text):
    return subprocess.run(command, input=text, stdout=subprocess.PIPE, stderr=subprocess.DEVNULL, check=True).stdout


def milliseconds(program, text):
    best = 1e9
    for _ in range(30):
        start = time.perf_counter()
        played([program], text)
        best = min(best, time.perf_counter() - start)
    return "%.1f" % (best * 1000)


def instructions(program, text):
    with tempfile.TemporaryDirectory() as folder:
        out = os.path.join(folder, "out")
        played(["valgrind", "--tool=callgrind", "--callgrind-out-file=" + out, program], text)
        return "{:,}".format(int(re.search(r"^(?:summary|totals): (\d+)", open(out).read(), re.M).group(1)))


def measure(unit, cost, program, folder):
    print("\n`levelrun` over a level of 64 walls and 512 calls, %s\n\n| index | bytes | %s | answers |\n|---|---|---|---|" % (unit, unit))
    said = {}
    for name in HEADS:
        text = open(os.path.join(folder, name), "rb").read()
        said[name] = played([program], text)
        alike = "the same" if said[name] == said["scan"] else "**other ones**"
        print("| %s | %s | %s | %d lines, %s |" % (name, "{:,}".format(len(text)), cost(program, text), said[name].count(b"\n"), alike))


if __name__ == "__main__":
    if sys.argv[1] == "write":
        write(sys.argv[2])
    elif sys.argv[1] == "times":
        measure("milliseconds", milliseconds, *sys.argv[2:])
    elif sys.argv[1] == "counts":
        measure("instructions", instructions, *sys.argv[2:])
