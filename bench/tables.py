#!/usr/bin/env python3
"""Makes tables of what the measuring programs printed: tables.py FILE [FOLDER OF CALLGRIND'S DUMPS].

A line is `cost`, table, row, column, calls, seconds, dump, or `word`, table, row, column, text, parted by tabs; the cells of
a row are parted by '|'. Without dumps a cost is shown in microseconds a call, with them in instructions a call. A ratio
beyond what was wanted stands in bold.
"""
import glob
import os
import re
import sys

LARGE = ("256", "2,048")


def dumped(folder):
    """The instructions of each dump, by its label."""
    counts = {}
    for path in glob.glob(os.path.join(folder, "*")):
        text = open(path).read()
        label = re.search(r"^desc: Trigger: Client Request: (\d+)$", text, re.M)
        total = re.search(r"^(?:summary|totals): (\d+)", text, re.M)
        if label and total:
            counts[label.group(1)] = int(total.group(1))
    return counts


def read(path, counts):
    """All that was measured: tables of rows of columns. A cost is a number of its unit."""
    tables = {}
    for line in open(path):
        parts = line.rstrip("\n").split("\t")
        if parts[0] == "word":
            _, table, row, column, value = parts
        elif parts[0] == "cost":
            _, table, row, column, calls, seconds, dump = parts
            value = (counts[dump] if counts else float(seconds) * 1e6) / float(calls)
        else:
            continue
        tables.setdefault(table, {}).setdefault(row, {})[column] = value
    return tables


def figure(value):
    """A cost with three digits that count."""
    if value >= 100:
        return "{:,}".format(int(float("%.3g" % value)))
    return "%.3g" % value


def ratio(one, other, wanted=None):
    text = "%.3f" % (one / other) if one / other < 0.1 else "%.2f" % (one / other)
    return "**%s**" % text if wanted is not None and one / other > wanted else text


def table(title, heads, rows):
    print("\n%s\n" % title)
    print("| %s |" % " | ".join(heads))
    print("|%s" % ("---|" * len(heads)))
    for row in rows:
        print("| %s |" % " | ".join(row))


def roads(rows, unit):
    heads = ["poses", "how many", "k", "edges", "route", "Dijkstra", "of it (2 wanted)", "Dijkstra that stops", "of it",
             "island", "flood", "of it (3 wanted)", "differ"]
    lines = []
    for row, of in rows.items():
        lines.append(row.split("|") + [of["roads"], figure(of["route"]), figure(of["Dijkstra"]), ratio(of["route"], of["Dijkstra"], 2),
                     figure(of["stopping"]), ratio(of["route"], of["stopping"]), figure(of["island"]), figure(of["flood"]),
                     ratio(of["island"], of["flood"], 3), of["differ"]])
    table("Routes and islands, %s a call" % unit, heads, lines)
    growth(rows)


def growth(rows):
    """How many times more each takes at 1,024 samples than at 64."""
    lines = []
    for row, large in rows.items():
        shape, count, k = row.split("|")
        if count == "1,024":
            small = rows["|".join((shape, "64", k))]
            edges = [int(of["roads"].replace(",", "")) for of in (large, small)]
            lines.append([shape, k, ratio(*edges)] + [ratio(large[name], small[name]) for name in ("route", "Dijkstra", "island", "flood")])
    table("How many times more at 1,024 samples than at 64", ["poses", "k", "edges", "route", "Dijkstra", "island", "flood"], lines)


def near(rows, unit):
    heads = ["poses", "how many", "plain scan", "quick", "our scan", "of the plain one", "OMPL's tree", "quick", "its distances a query", "our scan differs", "OMPL differs"]
    lines = []
    for row, of in rows.items():
        lines.append(row.split("|") + [figure(of["plain scan"]), figure(of["plain scan quick"]), figure(of["our scan"]), ratio(of["our scan"], of["plain scan"]),
                     figure(of["OMPL"]), figure(of["OMPL quick"]), of["OMPL distances"], of["scan differ"], of["OMPL differ"]])
    table("Eight nearest by scans and by OMPL's tree, %s a query" % unit, heads, lines)


def wanted_of_ompl(shape, count, settings):
    """How much of OMPL's cost was wanted at most, where it was said."""
    return {("clustered", "1,024", "(4, 16)"): 1.4, ("spread out", "1,024", "(8, 32)"): 0.7}.get((shape, count, settings))


def trees(rows, scans, unit):
    heads = ["poses", "how many", "settings", "our tree", "C++ tree", "of it (1.1 wanted at 1,024)", "of OMPL's (1.4 clustered at (4, 16), 0.7 spread out at (8, 32))", "of OMPL's, quick",
             "distances a query", "differ"]
    lines = []
    for row, of in rows.items():
        shape, count, settings = row.split("|")
        ompl = scans["|".join((shape, count))]
        lines.append([shape, count, settings, figure(of["ours"]), figure(of["C++"]), ratio(of["ours"], of["C++"], 1.1 if count == "1,024" else None),
                      ratio(of["ours"], ompl["OMPL"], wanted_of_ompl(shape, count, settings)), ratio(of["ours"], ompl["OMPL quick"]), of["distances"], of["differ"]])
    table("Eight nearest by trees, %s a query" % unit, heads, lines)


def adds(rows, scans, unit):
    heads = ["poses", "how many", "settings", "our tree", "C++ tree", "of it", "OMPL's tree", "of it", "our scan"]
    lines = []
    for row, of in rows.items():
        shape, count, settings = row.split("|")
        other = scans["|".join((shape, count))]
        lines.append([shape, count, settings, figure(of["ours"]), figure(of["C++"]), ratio(of["ours"], of["C++"]), figure(other["OMPL"]), ratio(of["ours"], other["OMPL"]), figure(other["our scan"])])
    table("Filing a sample, %s an add" % unit, heads, lines)


def wanted_of_loop(kind, walls, steps):
    """How much of the plain loop's cost was wanted at most, where it was said."""
    if (kind, walls) != ("small", "64"):
        return None
    return 0.02 if steps in LARGE else 0.3


def steps(rows, unit):
    heads = ["arcs", "walls", "steps", "Step", "plain loop", "of it (small arcs, 64 walls: 0.3 wanted at 16 steps, 0.02 from 256 on)", "pass"]
    lines = [row.split("|") + [figure(of["ours"]), figure(of["plain loop"]), ratio(of["ours"], of["plain loop"], wanted_of_loop(*row.split("|"))), of["pass"]]
             for row, of in rows.items()]
    table("Step, %s a motion" % unit, heads, lines)


def bytes_of(text):
    return "256 or less" if int(text) <= 256 else "{:,}".format(int(text))


def most(text, bound):
    return "**%s**" % bytes_of(text) if int(text) > bound else bytes_of(text)


def stack(title, rows, calls):
    """The stack of each call, by index and by poses: equal ones, spread out ones, and the most of the others."""
    groups = {}
    for row, of in rows.items():
        index, shape = row.split("|")
        shape = shape if shape in ("equal", "spread out") else "others"
        group = groups.setdefault((index, shape), {})
        for call in calls:
            group[call] = str(max(int(of.get(call, 0)), int(group.get(call, 0))))
        group["on 256 KB"] = "overflows" if "overflows" in (of["on 256 KB"], group.get("on 256 KB")) else "ends"
    lines = [[index, shape] + [most(group[call], 16 << 10 if call in ("add", "drop") else 256 << 10) for call in calls] + [group["on 256 KB"]]
             for (index, shape), group in groups.items()]
    table(title, ["index", "poses"] + calls + ["on a thread of 256 KB beside the rows"], lines)


def main(path, folder=None):
    counts = dumped(folder) if folder else None
    unit = "instructions" if counts else "microseconds"
    tables = read(path, counts)
    if "roads" in tables:
        roads(tables["roads"], unit)
    if "near" in tables:
        near(tables["near"], unit)
        trees(tables["trees"], tables["near"], unit)
        adds(tables["tree adds"], tables["adds"], unit)
    if "steps" in tables:
        steps(tables["steps"], unit)
    if "stack" in tables:
        stack("Stack of an index's calls beside the rows lent, bytes (16 KB wanted for add and drop, 256 KB for the others)", tables["stack"], ["new", "add", "drop", "near", "within"])
        stack("Stack of a roadmap's calls, bytes", tables["road stack"], ["new", "add", "drop", "island", "route"])
    if "play stack" in tables:
        table("Stack of a play, bytes", ["level", "play, with its rows and its level"], [[row, bytes_of(of["play"])] for row, of in tables["play stack"].items()])


if __name__ == "__main__":
    main(*sys.argv[1:])
