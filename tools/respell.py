#!/usr/bin/env python3
"""Brings the names of this repository's definitions and lemmas to one spelling.

Run once at the top of the repository, after the kit's own port.py. A name that a
file of specs/ or proofs/ declares is put into snake case, and a name of a type
into camel case. Names that a program declares, names of the library and the
names of goals keep their spelling.
"""
import glob
import re
import sys

NAME = r"[^\s(){}\[\].;:,«»λ`\"]+"
GOALS = re.compile(r"/proofs/.*/(Answers|Invariants|Proof)\.antt$")


def texts():
    found = []
    for part in ("specs", "proofs"):
        found += glob.glob(f"crates/*/{part}/**/*.antt", recursive=True)
    return sorted(found)


def declared(line):
    """The names that a line declares."""
    m = re.match(r"\s*(?:(?:abbrev|unfoldable|pub)\s+)*((?:%s\s+)*%s)\s+:\s" % (NAME, NAME), line)
    if m:
        return m.group(1).split()
    m = re.match(r"\s*(?:pub\s+)?(?:record|data|ruleset)\s+(%s)" % NAME, line)
    return [m.group(1)] if m else []


def spelled(name):
    name = name.replace("getD-", "get_or-")
    if name[0].isupper():
        return "".join(part[:1].upper() + part[1:] for part in name.split("-"))
    name = name.replace("-", "_")
    return re.sub(r"(?<=[a-z])[A-Z]", lambda m: "_" + m.group(0).lower(), name)


def old_names():
    own, goals = set(), set()
    for path in texts():
        for line in open(path):
            if GOALS.search(path) and re.search(r":\s+goal\.", line):
                goals.update(declared(line))
                continue
            for name in declared(line):
                if "◌" not in name and spelled(name) != name:
                    own.add(name)
    return own - goals


def library(text):
    """The names that a file imports from the library."""
    names = set()
    for m in re.finditer(r"use Rattle\.std\.[\w.+]*\.\{([^}]*)\}", text):
        names.update(n.strip() for n in m.group(1).split(","))
    return names


def respell(text, path, names):
    keep = library(text)
    if path.endswith(".md"):
        return re.sub(r"`[^`\n]+`", lambda m: words(m.group(0), path, names, keep), text)
    return words(text, path, names, keep)


def words(text, path, names, keep):
    def turn(m):
        name = m.group(0)
        if name not in names or name in keep:
            return name
        before = text[: m.start()]
        if GOALS.search("/" + path) and re.search(r"\b[cw]\.$", before[-3:]):
            return name
        if path.endswith(".md") and re.search(r"[/]$", before):
            return name
        return spelled(name)

    return re.sub(NAME, turn, text)


def main():
    names = old_names()
    targets = {}
    for name in sorted(names):
        targets.setdefault(spelled(name), []).append(name)
    clash = [f"{a} of {', '.join(b)}" for a, b in targets.items() if len(b) > 1]
    taken = set()
    for path in texts():
        for line in open(path):
            taken.update(declared(line))
    clash += [a for a in targets if a in taken]
    if clash:
        sys.exit("respell: names fall together: " + "; ".join(clash))
    files = texts() + glob.glob("crates/*/src/**/*.rt", recursive=True)
    files += glob.glob("crates/*/must-fail/*.edit") + glob.glob("docs/*.md") + ["README.md"]
    changed = 0
    for path in sorted(files):
        old = open(path).read()
        new = respell(old, path, names)
        if new != old:
            open(path, "w").write(new)
            changed += 1
    print(f"respell: {len(names)} names, {changed} files")


main()
