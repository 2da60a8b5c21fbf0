#!/usr/bin/env python3
"""Brings the names of definitions, lemmas, fields and cases to today's spelling.

usage: python3 tools/spell_names.py [ROOT [TABLE ..]]     (ROOT: the repository, or this script's own)

Types and facts in upper camel case, all else in snake case, and a dash only
between two names, as in length-low_first; a lemma that would have the name of
a definition or a function gets _lem. spelling.txt and spelling-local.txt have each
old name with its new one. Names are turned as whole words, all at once, in specs/, proofs/,
src/ and must-fail/; not in texts between quotes; in comments, in docs/ and in
README.md only between backticks. Run twice, it could take a new name for an
old one (all_named stands on both sides), so it leaves a mark of nothing and is
run once.
"""
import os
import re
import sys

HERE = os.path.dirname(os.path.realpath(__file__))
TABLES = ("spelling.txt", "spelling-local.txt")
WORD = re.compile(r"[^\s(){}\[\].,;«»\"`]+")
TICKED = re.compile(r"`[^`\n]*`")
QUOTED = re.compile(r'"(?:[^"\\\n]|\\.)*"')


def table(name):
    with open(os.path.join(HERE, name), encoding="utf-8") as f:
        return dict(line.split() for line in f if line.strip() and not line.startswith("#"))


TABLE = {}


def words(text):
    return WORD.sub(lambda m: TABLE.get(m.group(0), m.group(0)), text)


def ticked(text):
    """Between backticks; a kind of the file format keeps its name, which is no name of a definition there."""
    return TICKED.sub(lambda m: m.group(0) if m.group(0) == "`lineOrder`" else words(m.group(0)), text)


def outside_quotes(text):
    out, at = [], 0
    for m in QUOTED.finditer(text):
        out += [words(text[at:m.start()]), m.group(0)]
        at = m.end()
    return "".join(out) + words(text[at:])


def code(text, comment):
    """Each line: what stands before a comment by words, the comment between backticks alone."""
    lines = []
    for line in text.split("\n"):
        at = re.search(r"(^|\s)" + comment, line)
        cut = at.start() if at else len(line)
        lines.append(outside_quotes(line[:cut]) + ticked(line[cut:]))
    return "\n".join(lines)


def turned(path, text):
    if path.endswith(".antt"):
        return code(text, "--")
    if path.endswith((".rt", ".edit")):
        return code(text, "//")
    return ticked(text)


def files(root):
    for top in ("crates", "docs"):
        for folder, dirs, names in os.walk(os.path.join(root, top)):
            dirs[:] = sorted(d for d in dirs if d != "out")
            for name in sorted(names):
                if name.endswith((".antt", ".rt", ".edit", ".md")):
                    yield os.path.join(folder, name)
    readme = os.path.join(root, "README.md")
    if os.path.exists(readme):
        yield readme


def main():
    root = sys.argv[1] if len(sys.argv) > 1 else os.path.dirname(HERE)
    for name in sys.argv[2:] or TABLES:
        TABLE.update(table(name))
    changed = 0
    for path in files(root):
        with open(path, encoding="utf-8") as f:
            old = f.read()
        new = turned(path, old)
        if new != old:
            with open(path, "w", encoding="utf-8") as f:
                f.write(new)
            changed += 1
    print(f"{changed} files changed")


if __name__ == "__main__":
    main()
