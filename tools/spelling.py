#!/usr/bin/env python3
"""Respells the repository's own definitions and lemmas: words in snake case, types and facts in upper camel case.

usage: tools/spelling.py      at the top of the repository, once, after the kit's port.py

A name with a dash that this repository declares (a definition, a lemma, a record, a constructor, a field, a local variable, an `as` name) is respelled wherever
it stands as a whole word: in .antt files, in .rt files, in must-fail edits, and between backticks in .md files. A fact that would have the name of a struct
or an enum of src/ gets `Is` in front. Names that a file imports from a library keep their spelling. It stops where two names would fall together.
"""
import os
import re
import sys

BREAKS = r"\s(){};,.\[\]\"`"
WORD = r"[^%s]+" % BREAKS
SIGNATURE = re.compile(r"^\s*(?:(?:abbrev|unfoldable|pub|opaque)\s+)*(%s)(?:\s+\{[^}]*\})*\s*(?:\s(?:\([^=]*)?:\s|\s:$|\s:\s)" % WORD)
NAMED = re.compile(r"^\s*(?:pub\s+)?(?:record|data|ruleset)\s+(%s)" % WORD)
LOCAL = re.compile(r"(?:let|λ)\s+(%s)" % WORD)
BINDER = re.compile(r"[({]((?:%s\s+)+):\s" % WORD)
ALIAS = re.compile(r" as (%s)" % WORD)
IMPORT = re.compile(r"use\s+([\w.◌+\-]+)\.\{([^}]*)\}")
GOAL = re.compile(r":\s*tie\.|statement M")
ENGLISH = {"ill-formed", "well-formed"}
GARBLED = {"get_d_tabulate": "get_or_tabulate", "get_d_map": "get_or_map"}


def files(*endings):
    for folder, dirs, names in os.walk("."):
        dirs[:] = sorted(d for d in dirs if d not in ("out", ".git", "target"))
        for n in sorted(names):
            if n.endswith(endings):
                yield os.path.join(folder, n)


def read(path):
    with open(path, encoding="utf-8") as f:
        return f.read()


def declared():
    names, structs, aliases, imported = set(), set(), set(), set()
    crates = set(os.listdir("crates"))
    for p in files(".antt", ".rt"):
        t = read(p)
        aliases |= set(ALIAS.findall(t))
        for path, items in IMPORT.findall(t):
            parts = path.split(".")
            if not (parts[0] == "Rattle" and parts[1] in crates):
                imported |= {i.strip().split(" as ")[0].strip() for i in items.split(",")}
        if p.endswith(".rt"):
            structs |= set(re.findall(r"(?:struct|enum) ([A-Za-z0-9]+)", t))
            continue
        for line in t.splitlines():
            if line.startswith(("--", "use ")):
                continue
            m = NAMED.match(line)
            if m:
                names.add(m.group(1))
            else:
                m = SIGNATURE.match(line)
                if m and not (p.endswith("Proof.antt") and GOAL.search(line)):
                    names.add(m.group(1))
            names |= set(LOCAL.findall(line))
            for group in BINDER.findall(line):
                names |= set(group.split())
    return names | aliases, structs, imported


def spelling():
    names, structs, imported = declared()
    new = dict(GARBLED)
    for n in sorted(names):
        if "-" not in n or n in imported or n.startswith("Need-") or not re.match(r"[A-Za-zℕμ]", n):
            continue
        if n[0].isupper():
            to = "".join(p[:1].upper() + p[1:] for p in n.split("-"))
            new[n] = "Is" + to if to in structs else to
        else:
            new[n] = n.replace("-", "_")
    seen = {n: n for n in names}
    for n, to in new.items():
        if seen.get(to, n) != n:
            sys.exit(f"spelling: {n} and {seen[to]} would both be {to}")
        seen[to] = n
    return new


def main():
    new = spelling()
    word = re.compile(WORD)

    def turn(text):
        return word.sub(lambda m: new.get(m.group(0), m.group(0)), text)

    def line(path, text):
        if path.endswith(".edit"):
            return turn(text) if text.startswith(("old:", "new:")) else text
        if path.endswith(".md"):
            return re.sub(r"`[^`\n]*`", lambda m: turn(m.group(0)), text)
        if text.lstrip().startswith(("--", "//")) and any(e in text for e in ENGLISH):
            return text
        return "".join(s if s.startswith('"') else turn(s) for s in re.split(r'("(?:[^"\\\n]|\\.)*")', text))

    changed = 0
    for p in list(files(".antt", ".rt", ".edit", ".md")):
        t = read(p)
        u = "".join(line(p, l) for l in t.splitlines(keepends=True))
        if u != t:
            with open(p, "w", encoding="utf-8") as f:
                f.write(u)
            changed += 1
    print(f"spelling: {len(new)} names, {changed} files")


main()
