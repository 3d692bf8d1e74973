#!/usr/bin/env python3
"""Brings the repository's own antt names to one spelling: words in snake case, facts and types in camel case.

    python3 tools/respell.py [--list]

Run at the top, once, after the toolchain's port.py. Renames what the repository itself declares (definitions, lemmas,
constructors, fields, bound variables) wherever it stands: .antt files, clauses of .rt files, must-fail edits, and names between
backticks in docs. Names that the toolchain makes (goals, steps) and names of its library keep their spelling.
"""
import glob
import re
import sys

WORD = r"[^\s(){}\[\].,;⌜⌝«»|\"`]+"
DECLARES = re.compile(r"^\s*((?:(?:abbrev|unfoldable|pub|record|data|mutual)\s+)*)(" + WORD + r")\s*((?:\s*[({][^:(){}]+:.*?[)}])*)\s*:(?:\s|$)")
BINDERS = re.compile(r"[({λ]\s*((?:" + WORD + r"\s+)*" + WORD + r")\s*(?::|\.)\s")
STD = re.compile(r"^\s*(?:ghost )?use (?:Rattle\.std|denote|borrow|native|mathlib|Prim|lib)\b[^{]*\{([^}]*)\}")
GOALS = re.compile(r"^\s*use Rattle\.\w+\.proofs\.[^{]*\.(?:Goals|Given)\.\{([^}]*)\}")


# Where the plain spelling is taken by a type of src/ or a word of the library, where the name is no fact in spite of its
# capital, and where the library has another word today.
OTHERWISE = {
    "Call-line": "LineCall",
    "Holds-at": "HoldsNumberAt",
    "Outside-of": "outside_of",
    "among-getD": "among_get_or",
    "getD-behind": "get_or_behind",
    "getD-distances": "get_or_distances",
    "getD-ranges": "get_or_ranges",
    "getD-swapped": "get_or_swapped",
}


def antt_files():
    return sorted(glob.glob("crates/*/specs/**/*.antt", recursive=True) + glob.glob("crates/*/proofs/**/*.antt", recursive=True))


def of_function(path):
    return path.rsplit("/", 1)[1] in ("Answers.antt", "Invariants.antt", "Proof.antt")


def new_name(name):
    if name in OTHERWISE:
        return OTHERWISE[name]
    if name[0].isupper():
        return "".join(part[:1].upper() + part[1:] for part in name.split("-"))
    return name.replace("-", "_")


def wanted(name):
    return bool(re.fullmatch(r"[A-Za-z][A-Za-z0-9_'′]*(?:-[A-Za-z0-9_'′]+)+", name))


def items(text):
    return {part.strip().split(" as ")[0].strip() for part in text.split(",")} | {part.strip().split(" as ")[-1].strip() for part in text.split(",")}


def declared():
    """The names declared, and which of them are fields."""
    names, fields = set(), set()
    for path in antt_files():
        in_record, indent = False, 0
        for line in open(path, encoding="utf-8"):
            code = line.split("-- ")[0].rstrip("\n")
            if not code.strip():
                continue
            names |= {name for name in re.findall(r"[{,][^{},]+ as (" + WORD + r")", code) if wanted(name)}
            names |= {name for name in re.findall(r"^use \S+ as (" + WORD + r")", code) if wanted(name)}
            depth = len(code) - len(code.lstrip())
            if in_record and depth <= indent:
                in_record = False
            if re.match(r"^\s*(?:abbrev )?(?:pub )?record\b", code):
                in_record, indent = True, depth
            match = DECLARES.match(code)
            if match and not re.search(r":\s*goal\.", code) and not code.lstrip().startswith("use "):
                name = match.group(2)
                if wanted(name):
                    names.add(name)
                    if in_record and depth > indent:
                        fields.add(name)
            for bound in BINDERS.findall(code):
                for name in bound.split():
                    if wanted(name):
                        names.add(name)
    for path in glob.glob("crates/*/src/**/*.rt", recursive=True):
        for line in open(path, encoding="utf-8"):
            if line.startswith("ghost use "):
                names |= {name for name in re.findall(r"[{,][^{},]+ as (" + WORD + r")", line) if wanted(name)}
    return names, fields


def rename(line, table, fields, kept, of_goal, aliases=frozenset()):
    def one(match):
        word, start = match.group(0), match.start()
        if word not in table or word in kept:
            return word
        before = line[:start]
        if before.endswith("goal.") or before.endswith("need."):
            return word
        if before.endswith("."):
            root = re.search(r"([^\s(){}\[\],;]+)\.$", before)
            head = root.group(1) if root else ""
            if head.startswith("Rattle.") or head in aliases:
                return table[word]
            if of_goal and head in ("c", "w", "l", "v", "u"):
                return word
            return table[word] if word in fields else word
        return table[word]

    return re.sub(WORD, one, line)


def main():
    names, fields = declared()
    table = {name: new_name(name) for name in names}
    if "--list" in sys.argv:
        for name in sorted(table):
            print(name, table[name], "field" if name in fields else "")
        return
    for path in antt_files():
        text = open(path, encoding="utf-8").read()
        kept = set()
        for line in text.split("\n"):
            for rule in (STD, GOALS):
                match = rule.match(line)
                if match:
                    kept |= items(match.group(1))
            match = re.match(r"^\s*pub (" + WORD + r") : goal\.", line)
            if match:
                kept.add(match.group(1))
        aliases = set(re.findall(r"^\s*use \S+ as (\S+)", text, re.M)) | {m.rsplit(".", 1)[-1] for m in re.findall(r"^\s*use ([^\s{]+)$", text, re.M)}
        out = []
        for line in text.split("\n"):
            code, dash, comment = line, "", ""
            at = line.find("-- ")
            if at >= 0:
                code, dash, comment = line[:at], "-- ", line[at + 3 :]
                comment = re.sub(r"`([^`]*)`", lambda m: "`" + rename(m.group(1), table, fields, kept, False) + "`", comment)
            out.append(rename(code, table, fields, kept, of_function(path), aliases) + dash + comment)
        new = "\n".join(out)
        if new != text:
            open(path, "w", encoding="utf-8").write(new)
    for path in sorted(glob.glob("crates/*/src/**/*.rt", recursive=True)):
        text = open(path, encoding="utf-8").read()
        kept = set()
        for line in text.split("\n"):
            match = STD.match(line)
            if match:
                kept |= items(match.group(1))
        out = []
        for line in text.split("\n"):
            at = line.find("//")
            code, comment = (line, "") if at < 0 else (line[:at], line[at:])
            if '"' not in code:
                code = rename(code, table, fields, kept, False)
            out.append(code + comment)
        new = "\n".join(out)
        if new != text:
            open(path, "w", encoding="utf-8").write(new)
    for path in sorted(glob.glob("docs/*.md") + ["README.md"]):
        text = open(path, encoding="utf-8").read()
        new = re.sub(r"`([^`\n]*)`", lambda m: "`" + rename(m.group(1), table, fields, set(), False) + "`", text)
        if new != text:
            open(path, "w", encoding="utf-8").write(new)


main()
