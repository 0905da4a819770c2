#!/usr/bin/env python3
"""Gives the repository's definitions and lemmas the spelling of today's Rattle: words in snake case.

usage: tools/spelling.py FOLDER

FOLDER is a repository that port.py has turned. A name that a file of specs/ or proofs/ declares and that has a capital
inside it, as wordAt, becomes word_at: in the files of specs/ and proofs/, in clauses and comments of src/, in code spans
of the pages. A lemma that would then have a definition's name gets _lem. Strings stay, and so do names of Rust. It prints what it turned.
"""
import glob
import os
import re
import sys

WORD = r'[^\s(){}.;,@"«»]+'
DECLARED = re.compile(
    rf"(?m)^ *(?:(?:abbrev|unfoldable|pub|record|data|private)\s+)*({WORD})(?:\s*[({{][^(){{}}]*[)}}])*\s*:\s"
)
# Names of bound variables, and one of an import, which no file declares.
BOUND = ["writeRow", "sLen", "stLen"]
# Lemmas whose spelling another name gets in the same file.
LEMMAS = {
    "wrong_size": ["memory_grouping", "memory_expanding"],
    "in_use": ["history"],
    "by_index": ["hotplug_trip"],
    "by_count": ["hotplug_trip"],
    "all_kinds": ["node_changes", "changes_trip", "changes_writer"],
    "digits_value": ["decimal"],
    "all_named": ["name_order"],
}


def snake(name):
    return re.sub(r"(?<=[a-z0-9'])[A-Z]", lambda m: "_" + m[0].lower(), name)


def files(top, *patterns):
    for pattern in patterns:
        yield from sorted(glob.glob(os.path.join(top, pattern), recursive=True))


def read(path):
    with open(path, encoding="utf-8") as f:
        return f.read()


def whole_words(names):
    return re.compile(r"(?<![\w'-])(" + "|".join(sorted(map(re.escape, names), key=len, reverse=True)) + r")(?![\w'-])")


def main(top):
    antt = list(files(top, "crates/*/specs/**/*.antt", "crates/*/proofs/**/*.antt"))
    declared = set(BOUND)
    for path in antt:
        declared.update(m[1] for m in DECLARED.finditer(read(path)))
    rows = {n: snake(n) for n in declared if n[0].islower() and snake(n) != n}
    turned = whole_words(rows)
    lemmas = re.compile(r"(?<![\w.'-])(" + "|".join(LEMMAS) + r")(?![\w'-])")

    def turn(text):
        return turned.sub(lambda m: rows[m[1]], text)

    for path in antt + list(files(top, "crates/*/src/**/*.rt", "README.md", "docs/*.md")):
        old = read(path)
        crate = (os.path.relpath(path, top).split(os.sep) + [""])[1]
        text = old
        if path.endswith(".antt"):
            text = lemmas.sub(lambda m: m[1] + "_lem" if crate in LEMMAS[m[1]] else m[1], text)
            text = turn(text)
        elif path.endswith(".rt"):
            text = "".join(s if i % 2 else turn(s) for i, s in enumerate(re.split(r'("(?:\\.|[^"\\\n])*")', text)))
        else:
            text = re.sub(r"(`+)([^`\n]+)\1", lambda m: m[1] + turn(m[2]) + m[1], text)
        if text != old:
            with open(path, "w", encoding="utf-8") as f:
                f.write(text)
    for name in sorted(rows):
        print(name, rows[name], sep="\t")


if __name__ == "__main__":
    main(sys.argv[1] if len(sys.argv) > 1 else ".")
