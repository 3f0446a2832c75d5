#!/usr/bin/env python3
"""Brings the repository's own ghost names to the library's spelling: words in snake case, facts and types in camel case.

A name is the repository's own if a specification or a lemma file uses it with a hyphen, or begins a fact's name with a
capital and joins its words by a hyphen or an underscore, and it is not imported from elsewhere. Names of Rust items, of
the library and of the goals that the check makes stay as they are. It also turns the names where contracts, comments of
specifications and the pages in docs/ cite them. Run at the top of the repository; running it again changes nothing.
"""
import re
import sys
from pathlib import Path

CRATES = sys.argv[1:] or [p.name for p in sorted(Path("crates").iterdir())]
TOKEN = re.compile(r"[^\s(){}\[\].,;:\"`|·]+")
# Words of prose that are also names: left as they are in comments.
PROSE = {"just-measured"}
USE = re.compile(r"^\s*(?:pub )?(?:ghost )?use\s+([^\s;{]+?)(?:\.\{([^}]*)\})?(?:\s+as\s+\S+)?;?\s*$")


def code(line):
    """The part of a line before a comment."""
    return line.split("-- ")[0] if not line.startswith("--") else ""


def is_made(path):
    """Whether the check makes the names of the file's goals."""
    return path.name in ("Answers.antt", "Invariants.antt", "Proof.antt", "Choices.antt")


def files(pattern):
    return [p for c in CRATES for p in sorted(Path("crates", c).glob(pattern)) if "out" not in p.parts]


def imports(text):
    """The names that the text imports, with the path of each."""
    for line in text.splitlines():
        m = USE.match(line)
        if m and m.group(2):
            for word in m.group(2).split(","):
                yield m.group(1), word.strip().split(" as ")[0]


def own_path(path):
    return path.startswith("Rattle.") and path.split(".")[1] in {p.name for p in Path("crates").iterdir()}


def respelled(name):
    parts = re.split(r"[-_]", name)
    if name[0].isupper():
        return "".join(p[:1].upper() + p[1:] for p in parts)
    return name.replace("-", "_")


def names():
    """The own names that are spelled otherwise, each with its new spelling."""
    foreign, found = set(), set()
    texts = [p for p in files("**/*.antt") if not is_made(p)]
    for p in files("**/*.antt") + files("**/*.rt"):
        foreign |= {w for path, w in imports(p.read_text()) if not own_path(path)}
    for p in texts:
        for line in p.read_text().splitlines():
            for t in TOKEN.findall(code(line)):
                joined = re.search(r"[a-z0-9]-[a-z0-9]", t, re.I)
                if (joined or re.match(r"[A-Z]\w*_\w", t)) and re.fullmatch(r"[A-Za-z][\w'-]*", t):
                    found.add(t)
    return {t: respelled(t) for t in found - foreign}


def turned(line, table, keep_columns=False):
    """The line with the table's names turned; in a comment, where they shrink, the next wide gap grows."""
    if keep_columns:
        table = {o: n for o, n in table.items() if o not in PROSE}
    out, last, shrunk = [], 0, 0
    for m in TOKEN.finditer(line):
        new = table.get(m.group())
        if new is None:
            continue
        out += [line[last:m.start()], new]
        last = m.end()
        shrunk += len(m.group()) - len(new)
    rest = line[last:]
    if keep_columns and shrunk:
        rest = re.sub(r"  +", lambda g: g.group() + " " * shrunk, rest, count=1)
    return "".join(out) + rest


def turn(path, table, want=lambda line: True, columns=False):
    old = path.read_text()
    new = "".join(turned(l, table, columns and l.startswith("--")) if want(l) else l for l in old.splitlines(True))
    if new != old:
        path.write_text(new)


def without_alias(path):
    """The library's word under its own name: a plain word of the prelude is kept for what the prelude means by it."""
    old = path.read_text()
    if "AllByRecursion as All" in old:
        new = re.sub(r"\bAll(?= \(| P| bs| cs)", "AllByRecursion", old.replace("AllByRecursion as All", "AllByRecursion"))
        path.write_text(new)


def main():
    for p in files("**/*.antt") + files("src/**/*.rt"):
        without_alias(p)
    table = names()
    taken = {}
    for old, new in sorted(table.items()):
        if new in taken:
            print(f"{old} and {taken[new]} both become {new}")
        taken[new] = old
    for p in files("**/*.antt"):
        if is_made(p):
            here = {w for path, w in imports(p.read_text()) if own_path(path)}
            turn(p, {o: n for o, n in table.items() if o in here})
        else:
            used = {t for l in p.read_text().splitlines() for t in TOKEN.findall(code(l))}
            for old in used & set(table):
                if table[old] in used:
                    print(f"{p}: {old} meets {table[old]}")
            turn(p, table, columns=True)
    for p in files("src/**/*.rt"):
        turn(p, table, want=lambda l: re.search(r"^\s*(ghost |requires|ensures)", l))
    for p in sorted(Path("docs").glob("*.md")) + [Path("README.md")]:
        old = p.read_text()
        new = re.sub(r"`[^`\n]+`", lambda m: turned(m.group(), table), old)
        if new != old:
            p.write_text(new)
    for old, new in sorted(table.items()):
        print(old, new)


main()
