#!/usr/bin/env python3
"""Brings the names of this repository's own definitions and lemmas to the spelling of today's Rattle. Run once, after port.py.

  tools/names.py            renames in crates/*/specs, crates/*/proofs, in the clauses of crates/*/src and in crates/*/must-fail
  tools/names.py --list     prints what would be renamed, and which names would fall together

Words are in snake case and types in camel case. A dash stays where it joins the names of two functions, as in length-packed; else it becomes `_`.
Names of the code keep their spelling: none has a capital behind its first letter or a dash. Run again, it finds nothing to do."""
import collections
import pathlib
import re
import sys

ROOT = pathlib.Path(__file__).resolve().parent.parent
MARKS = r"(?:(?:abbrev|unfoldable|pub)\s+)*"
FUNCTION = re.compile(r"^\s*(?:pub )?(?:abbrev|unfoldable) (?:pub )?([a-z][\w'\-]*) :(?= |$)")
DECLARED = re.compile(rf"^\s*{MARKS}((?:[\w'\-]+)(?: [\w'\-]+)*) :(?= |$)")
NAMED_TYPE = re.compile(rf"^\s*{MARKS}(?:data|record) ([\w'\-]+)")
TOKEN = re.compile(r"(?<![\w'\-])[A-Za-z][\w'\-]*")
# Words of the library that a lemma's name may begin or end with.
LIBRARY = {"append", "drop", "take", "length", "set", "sets", "map", "replicate", "reverse", "get_or"}
# A fact that began with a small letter, and lemmas and fields that would fall together with a definition.
BY_HAND = {
    "inside": "IsInside",
    "isTable0": "IsTable0",
    "all-zero": "all_zero_lem",
    "free-cell": "free_value",
    "good-key": "good_key_lem",
    "same-table": "same_table_lem",
    "search-queue": "search_queue_lem",
}
# The same for lemmas whose names the kit's script had turned before.
LEMMAS = {"goes_on": ("goesOn", "goes_on_lem"), "value_in": ("valueIn", "value_in_lem")}
# Plain words, which a file may also use for something else: turned only where the file declares or imports the definition.
PLAIN = {"inside"}


def logic():
    return sorted(p for part in ("specs", "proofs") for p in ROOT.glob(f"crates/*/{part}/**/*.antt"))


def declared():
    """The declared names, each with the files that declare it, and the functions among them. What proves a function of the code declares none of its own."""
    found = collections.defaultdict(set)
    functions = set()
    for path in logic():
        if path.name in {"Proof.antt", "Answers.antt", "Invariants.antt"}:
            continue
        for line in path.read_text().splitlines():
            functions.update(FUNCTION.findall(line))
            for alias in re.findall(r" as ([\w'\-]+)", line if line.startswith("use ") else ""):
                found[alias].add(path.relative_to(ROOT).as_posix())
            for match in (DECLARED.match(line), NAMED_TYPE.match(line)):
                for name in match.group(1).split() if match else []:
                    found[name].add(path.relative_to(ROOT).as_posix())
    return found, functions


def snake(word):
    return re.sub(r"(?<=[a-z0-9])([A-Z])", lambda m: "_" + m.group(1).lower(), word)


def renamed(name, functions):
    if name in BY_HAND:
        return BY_HAND[name]
    if not name[0].islower():
        return name
    head, dash, tail = name.partition("-")
    if dash and snake(head) in functions and snake(tail) in functions:
        return f"{snake(head)}-{snake(tail)}"
    return snake(name.replace("-", "_"))


def table():
    names, functions = declared()
    functions = {snake(n) for n in functions if "-" not in n} | LIBRARY
    new = {n: renamed(n, functions) for n in names if renamed(n, functions) != n}
    new.update({lemma: to for lemma, (definition, to) in LEMMAS.items() if definition in names})
    return new, names


def in_logic(text, names):
    """A file of antt, or a line of one: everywhere but at the names that the check makes, the first step of a path and a goal."""
    def turn(match):
        made = re.search(r"(?<![\w'\-.])(?:c|tie|goal)\.\Z", text[max(0, match.start() - 9):match.start()])
        return match.group(0) if made else names.get(match.group(0), match.group(0))

    for plain in PLAIN & names.keys():
        if not re.search(rf"^(use .*|{MARKS}){plain}\b", text, re.M):
            names = {old: new for old, new in names.items() if old != plain}
    return TOKEN.sub(turn, text)


def in_code(text, names):
    """A file of Rattle: names with a capital or `_` everywhere, names with a dash in clauses and ghost imports alone."""
    out = []
    for line in text.splitlines(keepends=True):
        clause = re.match(r"\s*(ghost use|requires|ensures)\b", line)
        out.append(TOKEN.sub(lambda m: names.get(m.group(0), m.group(0)) if clause or "-" not in m.group(0) else m.group(0), line))
    return "".join(out)


def main():
    names, all_names = table()
    if sys.argv[1:] == ["--list"]:
        new = collections.defaultdict(set)
        for old, to in names.items():
            new[to].add(old)
        used = collections.Counter(t for p in logic() for t in TOKEN.findall(p.read_text()))
        for to, olds in sorted(new.items()):
            print(", ".join(sorted(olds)), "->", to)
        for to, olds in sorted(new.items()):
            if len(olds) > 1 or to in all_names or used[to]:
                print("TOGETHER", sorted(olds), to, sorted(all_names.get(to, set()))[:4], used[to])
        return
    for path in logic():
        path.write_text(in_logic(path.read_text(), names))
    for path in sorted(ROOT.glob("crates/*/src/**/*.rt")):
        path.write_text(in_code(path.read_text(), names))
    for path in sorted(ROOT.glob("crates/*/must-fail/*.edit")):
        text = path.read_text()
        turn = in_code if "file: src/" in text else in_logic
        path.write_text("".join(turn(line, names) if re.match(r"(old|new): ", line) else line for line in text.splitlines(keepends=True)))


main()
