#!/usr/bin/env python3
"""Respells the repository's own definitions, records, fields and lemmas: words in snake case, types in camel case.

Run once at the top, after the toolchain's own port script. It collects every name with a dash that specs/ and the lemma
files of proofs/ declare, and writes it with underscores (a name that begins with a capital: in camel case) wherever it
stands as a whole word in .antt files (also in their strings and comments), in the code of .rt files (their strings and
comments stay as they are), and between backticks in the pages. What it writes into a string or a page that means another
thing has to be put back by hand. It stops before it writes if two declared names of a crate would fall together.
"""
import collections
import glob
import re
import sys


def declared():
    """Each name that specs/ and lemma files declare, with the files that declare it."""
    found = collections.defaultdict(set)
    for path in sorted(glob.glob("crates/**/*.antt", recursive=True)):
        for line in open(path, encoding="utf-8"):
            if line.startswith(("use ", "--", "pub mod", "mod ")) or re.search(r": goal\.", line):
                continue
            top = re.match(r"\s*(?:abbrev |unfoldable )?(?:pub )?(?:record |data )?([A-Za-z][\w'-]*) (?:[^=]*?)?:", line)
            if top:
                found[top.group(1)].add(path)
            # the variables that a lemma, a λ or a case binds
            for bound in re.findall(r"λ ([a-z][\w-]*-[\w-]*)\.|\(([a-z][\w-]*-[\w-]*) : |let ([a-z][\w-]*-[\w-]*) [=:]|in[lr] ([a-z][\w-]*-[\w-]*) ↦", line):
                for name in bound:
                    if name:
                        found[name].add(path)
    return found


def respelled(name):
    if name[0].isupper():
        return "".join(part[0].upper() + part[1:] for part in name.split("-"))
    return name.replace("-", "_")


def borrowed(path):
    """The names with a dash that a file takes from the toolchain's libraries."""
    text = open(path, encoding="utf-8").read()
    names = set()
    for group in re.findall(r"use Rattle\.std\.[\w.]+\.\{([^}]*)\}", text):
        names |= {name.strip() for name in group.split(",")}
    return names


def replaced(text, names, kept):
    def by(match):
        word = match.group(0)
        return names[word] if word in names and word not in kept else word
    return re.sub(r"[\w'-]+", by, text)


def code(text, names):
    """A .rt file, its strings and comments apart."""
    parts = re.split(r'("(?:\\.|[^"\\])*"|//[^\n]*)', text)
    return "".join(part if i % 2 else replaced(part, names, set()) for i, part in enumerate(parts))


def page(text, names):
    parts = re.split(r"(`[^`\n]*`)", text)
    return "".join(replaced(part, names, set()) if i % 2 else part for i, part in enumerate(parts))


def main():
    found = declared()
    names = {name: respelled(name) for name in found if "-" in name}
    told = collections.defaultdict(set)
    for name in found:
        for path in found[name]:
            told[(path.split("/")[1], respelled(name) if "-" in name else name)].add(name)
    together = {key: olds for key, olds in told.items() if len(olds) > 1}
    if together:
        sys.exit("names that fall together: %s" % together)
    for path in sorted(glob.glob("crates/**/*.antt", recursive=True) + glob.glob("crates/**/*.rt", recursive=True) + glob.glob("docs/*.md") + ["README.md"]):
        old = open(path, encoding="utf-8").read()
        if path.endswith(".antt"):
            new = replaced(old, names, borrowed(path))
        elif path.endswith(".rt"):
            new = code(old, names)
        else:
            new = page(old, names)
        if new != old:
            open(path, "w", encoding="utf-8").write(new)
    print("respell: %d names" % len(names))


main()
