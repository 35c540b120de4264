#!/usr/bin/env python3
"""Turns the names of this repository's own definitions and lemmas to the library's spelling.

usage: respell.py [--check]

Run once at the top of the repository, after port.py. Types, facts and modules keep their camel case and names from src/ their spelling. Every
other name that specs/ or proofs/ declares gets snake case: `byMode` is by_mode. A dash stays where it joins two names of functions, as in
length-runs; a plain word is joined by an underscore. Names that the library declares too stay as they are. It turns whole words in .antt and .rt
files, and in the `old:` and `new:` lines of must-fail edits, but no string. Lines that begin 'look:' name words that fall together in a file.
--check writes nothing.
"""

import collections
import os
import re
import sys

TOP = os.path.join(os.path.dirname(os.path.abspath(__file__)), "..")
CRATES = os.path.join(TOP, "crates")
WORD = re.compile(r"[^\s(){}\[\].;,@\"`:|]+")
DECLARED = re.compile(r"^\s*(?:(?:abbrev|unfoldable|pub|package)\s+)*([^\s(){}.;,:]+) :(?: |$)")
USED = re.compile(r"^\s*(?:pub |ghost )*use (\S+?)\.\{([^}]*)\}")
# Lemmas that port.py gave the spelling that their function gets here: the files that declare or cite each.
BESIDE = {
    "deciding/proofs/DecideLaws.antt": "is_state",
    "levels/proofs/FieldLaws.antt": "in_reach",
    "receiver/proofs/CallLaws.antt": "place_after",
    "settled/proofs/RunLaws.antt": "all_settled",
    "store/proofs/PointRuns.antt": "point_at",
    "store/proofs/Readings.antt": "point_at",
    "capture/proofs/FirstLaws.antt": "point_at",
}


def files(*endings):
    for above, folders, names in os.walk(CRATES):
        folders[:] = sorted(d for d in folders if d != "out")
        for name in sorted(names):
            if name.endswith(endings):
                yield os.path.join(above, name)


def read(path):
    with open(path, encoding="utf-8") as f:
        return f.read()


def snake(part):
    """byMode is by_mode; a part that begins with a capital is a type's name and stays."""
    if not part or not part[0].islower():
        return part
    return re.sub(r"(?<=[a-z0-9])([A-Z])", lambda m: "_" + m[1].lower(), part)


def own_names():
    """Each name that a file of specs/ or proofs/ declares, those of functions of specs/, and those that files import from the library."""
    declared, functions, imported = set(), set(), set()
    for path in files(".antt"):
        if re.search(r"/proofs/[^/]+/", path):
            continue
        for line in read(path).split("\n"):
            found = DECLARED.match(line)
            if found and found[1] not in ("--",):
                declared.add(found[1])
                if os.sep + "specs" + os.sep in path and re.match(r"\s*(abbrev|unfoldable)", line):
                    functions.add(found[1])
    for path in files(".antt", ".rt"):
        for line in read(path).split("\n"):
            found = USED.match(line)
            if found and (not found[1].startswith("Rattle.") or found[1].startswith("Rattle.std.")):
                imported.update(item.split()[0] for item in found[2].split(",") if item.strip())
    return declared, functions, imported


def joined(name, names):
    parts = [snake(part) for part in name.split("-")]
    new = parts[0]
    for before, part in zip(parts, parts[1:]):
        joins = before in names and part in names or before[0].isupper() or part[0].isupper()
        new += ("-" if joins else "_") + part
    return new


def table():
    declared, functions, imported = own_names()
    names = {snake(f) for f in functions} | {n for n in imported if "-" not in n}
    rows = {}
    for name in declared - imported:
        if not re.match(r"[a-zA-Z][^-]*(-[^-]+)*$", name):
            continue
        new = joined(joined(name, names), names)
        if new != name:
            rows[name] = new
    # a lemma that would have a function's name
    taken = {rows.get(name, name) for name in declared | imported if "-" not in name}
    for name, new in rows.items():
        if "-" in name and new in taken:
            rows[name] = new + "_lem"
    return rows


def turned(text, rows):
    quiet = re.compile(r'b?"(?:[^"\\\n]|\\.)*"')
    out, at = [], 0
    for string in quiet.finditer(text):
        out.append(WORD.sub(lambda m: rows.get(m[0], m[0]), text[at : string.start()]))
        out.append(string[0])
        at = string.end()
    out.append(WORD.sub(lambda m: rows.get(m[0], m[0]), text[at:]))
    return "".join(out)


def main():
    check = "--check" in sys.argv[1:]
    rows = table()
    changed = 0
    for path in files(".antt", ".rt", ".edit"):
        text = read(path)
        lemma = BESIDE.get(os.path.relpath(path, CRATES))
        if lemma and not check:
            text = re.sub(rf"(?<![\w.-]){lemma}(?![\w-])", lemma + "_lem", text)
        words = set(WORD.findall(text))
        fell = collections.defaultdict(set)
        for word in words:
            fell[rows.get(word, word)].add(word)
        for new, olds in sorted(fell.items()):
            if len(olds) > 1:
                print(f"look: {os.path.relpath(path, TOP)}: {', '.join(sorted(olds))} are now {new}")
        new = turned(text, rows)
        if new != text:
            changed += 1
            if not check:
                with open(path, "w", encoding="utf-8") as f:
                    f.write(new)
    for old, new in sorted(rows.items()):
        if "-v" in sys.argv:
            print(old, new)
    print(f"respell: {len(rows)} names, {changed} files")


main()
