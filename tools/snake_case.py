#!/usr/bin/env python3
"""Brings the names of this repository's definitions and lemmas to snake case, and those of its types to camel case.

usage: python3 tools/snake_case.py        at the top of the repository, once, after /opt/rattle/port/port.py

Renamed is what specs/ and the files directly in proofs/ declare, with the names that their binders give: in those files, in the proofs of functions,
in the clauses and imports of src/, and in the must-fail edits. Functions of src/, strings, comments outside backquotes and the names that Rattle makes
keep their spelling. Two names of one file that would fall together stop the script.
"""

import os
import re
import sys

WORD = r"[A-Za-z_][\w'\u2032-]*"
DECLARED = re.compile(r"\s*(?:(?:pub|abbrev|unfoldable|record|data)\s+)*(" + WORD + r")\s*(?:\{[^}]*\}\s*|\([^)]*\)\s*)*:(?:\s|$)")
BINDER = re.compile(r"[({]((?:" + WORD + r"\s+)*" + WORD + r")\s+:\s")
LOCAL = re.compile(r"\blet (" + WORD + r")\s*[:=]")
TOKEN = re.compile(r"[A-Za-z_\u03b1-\u03c9\u2080-\u2089][\w'\u2032\u2080-\u2089-]*")
MODULE = re.compile(r"use ([\w.]+)\.\{(.*)\}")
# Names that would fall together with another of the same file, with what they are called now.
CHOSEN = {
    "in-range": "fields_in_range",
    "state-of": "state_of_panel",
    "entry-of": "entry_with",
    "find-in": "find_in_sites",
    "firstBit": "first_parity_bit",
    "lastBit": "last_parity_bit",
    "time-fits": "is_in_time",
    "of-rights": "has_rights",
    "names-exist": "names_all_exist",
    "rule-classes": "rule_class_count",
    "last-grant": "last_grant_law",
    "wrong-tries": "wrong_tries_law",
    "days-given": "days_given",
    "disable-given": "disable_given",
    "uses-given": "uses_given",
}
# A lemma that had the name of its definition but for the spelling, as days-taken of daysTaken, ends in this.
LAW = "_law"
LIBRARY = ("Rattle.std", "mathlib", "Prim", "lib.", "native", "borrow", "Rattle.io", "Rattle.os", "Rattle.libc")


def snake(name):
    if name in CHOSEN:
        return CHOSEN[name]
    if re.match(r"[A-Z][A-Z0-9_]*$", name):
        return name
    if name[0].isupper():
        return re.sub(r"-(\w)", lambda m: m.group(1).upper(), name)
    name = re.sub(r"(?<=[a-z0-9'])(?=[A-Z])", "_", name)
    return name.replace("-", "_").lower() if "-" in name or "_" in name else name


def files(root):
    for folder, dirs, names in os.walk(os.path.join(root, "crates")):
        dirs[:] = sorted(d for d in dirs if d != "out")
        for name in sorted(names):
            if name.endswith((".rt", ".antt", ".edit")):
                yield os.path.join(folder, name)


def is_definition(path):
    parts = path.split(os.sep)
    at = max(i for i, part in enumerate(parts) if part in ("specs", "proofs", "src", "must-fail"))
    return parts[at] in ("specs", "proofs") and len(parts) == at + 2 and path.endswith(".antt")


def without_comment(line):
    return "" if line.lstrip().startswith("--") else line


def declared(paths):
    names, library = set(), set()
    for path in paths:
        if not path.endswith(".antt"):
            continue
        with open(path, encoding="utf-8") as text:
            lines = [without_comment(line) for line in text]
        for line in lines:
            imported = MODULE.match(line)
            if imported and imported.group(1).startswith(LIBRARY):
                library.update(part.strip().split(" as ")[0] for part in imported.group(2).split(","))
            if not is_definition(path) or line.startswith("use "):
                continue
            found = DECLARED.match(line)
            if found:
                names.add(found.group(1))
            for group in BINDER.findall(line):
                names.update(group.split())
            names.update(LOCAL.findall(line))
    own = names - library
    definitions = {snake(name) for name in own if re.search("[a-z0-9][A-Z]", name)}
    new = {name: snake(name) for name in own if snake(name) != name}
    for name in new:
        if "-" in name and name not in CHOSEN and new[name] in definitions:
            new[name] += LAW
    return new


def renamed(text, names):
    return TOKEN.sub(lambda m: names.get(m.group(0), m.group(0)), text)


def in_backquotes(text, names):
    return re.sub(r"`[^`]*`", lambda m: renamed(m.group(0), names), text)


def line_of_rt(line, names):
    code, mark, comment = line.partition("//")
    if '"' in code:
        return line
    return renamed(code, names) + mark + in_backquotes(comment, names)


def line_of_antt(line, names):
    code, mark, comment = line.partition("--")
    if line.lstrip().startswith("-- "):
        return in_backquotes(line, names)
    return renamed(line, names)


def turned(path, text, names):
    lines = text.split("\n")
    if path.endswith(".rt"):
        return "\n".join(line_of_rt(line, names) for line in lines)
    if path.endswith(".antt"):
        return "\n".join(line_of_antt(line, names) for line in lines)
    return "\n".join(line if line.startswith("file:") else renamed(line, names) for line in lines)


def fallen_together(path, text, names):
    tokens = set(TOKEN.findall(text))
    new = {}
    for token in sorted(tokens):
        new.setdefault(names.get(token, token), []).append(token)
    return sorted((" and ".join(old), name) for name, old in new.items() if len(old) > 1)


def main():
    root = os.getcwd()
    paths = list(files(root))
    names = declared(paths)
    together = []
    for path in paths:
        with open(path, encoding="utf-8") as file:
            text = file.read()
        if path.endswith(".antt"):
            code = "\n".join(without_comment(line) for line in text.split("\n"))
            together += [(path, pair) for pair in fallen_together(path, code, names)]
        if "--list" not in sys.argv:
            with open(path, "w", encoding="utf-8") as file:
                file.write(turned(path, text, names))
    for path, (old, new) in together:
        print(f"{os.path.relpath(path, root)}: {old} and {new}")
    print(f"{len(names)} names", file=sys.stderr)


main()
