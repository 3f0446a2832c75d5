#!/usr/bin/env python3
"""Lists the functions, types and impls of crates/*/src that are written alike: the same words of the language in the same
order, with other names, numbers and texts. A row is a place to look at: it may be one thing written twice.

usage: twins.py [FOLDER] [LEAST]   FOLDER has crates/ (this folder if not given); LEAST is how many words make a row (12)
"""
import pathlib
import re
import sys

KEYWORDS = set("as break const continue else enum false fn for if impl in let loop match mut pub ref return self Self struct true use while Ok Err Some None".split())
WORD = re.compile(r'//[^\n]*|"(?:[^"\\]|\\.)*"|[A-Za-z_][A-Za-z0-9_]*|[0-9][A-Za-z0-9_]*|\S')
CLAUSE = re.compile(r'\b(?:requires|ensures|ghost)\b[^{;]*\{')
ITEM = re.compile(r'\bfn\s+(\w+)|\benum\s+(\w+)|\bstruct\s+(\w+)|^impl\b([^{]*)', re.M)


def braced(text, start):
    """The place behind the brace that closes the one at `start`."""
    depth = 0
    for place in range(start, len(text)):
        depth += {"{": 1, "}": -1}.get(text[place], 0)
        if depth == 0:
            return place + 1
    return len(text)


def without_clauses(text):
    text = re.sub(r"//[^\n]*", "", text)
    while clause := CLAUSE.search(text):
        text = text[: clause.start()] + text[braced(text, clause.end() - 1) :]
    return text


def shape(text):
    words = [word for word in WORD.findall(text) if not word.startswith("//")]
    return tuple(word if word in KEYWORDS or not re.match(r'[\w"]', word) else ("0" if word[0].isdigit() else '"' if word[0] == '"' else "x") for word in words)


def main():
    folder = pathlib.Path(sys.argv[1] if len(sys.argv) > 1 else ".")
    least = int(sys.argv[2]) if len(sys.argv) > 2 else 12
    seen = {}
    for path in sorted(folder.glob("crates/*/src/*.rt")):
        text = without_clauses(path.read_text())
        for item in ITEM.finditer(text):
            brace = text.find("{", item.end())
            stop = text.find(";", item.end())
            if brace < 0 or 0 <= stop < brace:
                continue
            body = text[brace : braced(text, brace)]
            key = shape(body)
            if len(key) >= least:
                name = " ".join((item.group(0) if item.group(4) is None else "impl" + item.group(4)).split())
                seen.setdefault(key, []).append(f"{path.relative_to(folder)}: {name}")
    rows = [places for places in seen.values() if len(places) > 1]
    for places in rows:
        print("; ".join(places))
    print(f"{len(rows)} rows, {sum(map(len, rows))} places")


main()
