#!/usr/bin/env python3
"""Brings the repository's own definitions and lemmas to snake case, after port.py.

usage: python3 tools/port/respell.py [ROOT]      (once, in the tree that port.py left)

names.tsv beside this script has a row for each name: old, a tab, new. A word of the table is replaced wherever it stands whole in
the .antt and .rt files of crates/: in code everywhere but in strings; in a comment between backticks, and where it is spelled as
no English word is (with a capital inside). After it, rt fmt lays the files out.
"""
import os
import re
import subprocess
import sys

HERE = os.path.dirname(os.path.abspath(__file__))
WORD = re.compile(r'[^\s(){}.;,@"«»]+')
STRING = re.compile(r'b?"(?:\\.|[^"\\])*"')
SPAN = re.compile(r"`[^`\n]*`")
INSIDE = re.compile(r"^[a-z][A-Za-z0-9_]*[A-Z]")


def rows():
    with open(os.path.join(HERE, "names.tsv"), encoding="utf-8") as f:
        return dict(line.rstrip("\n").split("\t") for line in f if line.strip())


TABLE = rows()


def code(text):
    return WORD.sub(lambda m: TABLE.get(m.group(0), m.group(0)), text)


def comment(text):
    text = SPAN.sub(lambda m: code(m.group(0)[:1]) + code(m.group(0)[1:-1]) + "`", text)
    return WORD.sub(lambda m: TABLE.get(m.group(0), m.group(0)) if INSIDE.match(m.group(0)) else m.group(0), text)


def outside_strings(text):
    out, at = [], 0
    for m in STRING.finditer(text):
        out += [code(text[at : m.start()]), m.group(0)]
        at = m.end()
    return "".join(out) + code(text[at:])


def line_of(text, mark):
    # a comment begins a line or stands behind a space
    m = re.search(r"(?:^|(?<=\s))" + mark + r"(?=\s|$)", text)
    if not m:
        return outside_strings(text)
    return outside_strings(text[: m.start()]) + comment(text[m.start() :])


def main(root):
    changed = 0
    crates = os.path.join(root, "crates")
    for folder, dirs, files in os.walk(crates):
        dirs[:] = sorted(d for d in dirs if d != "out")
        for f in sorted(files):
            mark = {".antt": "--", ".rt": "//"}.get(os.path.splitext(f)[1])
            if not mark:
                continue
            path = os.path.join(folder, f)
            with open(path, encoding="utf-8") as it:
                old = it.read()
            new = "\n".join(line_of(line, mark) for line in old.split("\n"))
            if new != old:
                changed += 1
                with open(path, "w", encoding="utf-8") as it:
                    it.write(new)
    print(f"respell: {changed} files changed")
    for c in sorted(os.listdir(crates)):
        if os.path.isdir(os.path.join(crates, c, "src")):
            subprocess.run(["rt", "fmt"], cwd=os.path.join(crates, c), stdout=subprocess.DEVNULL, stderr=subprocess.DEVNULL)


if __name__ == "__main__":
    main(sys.argv[1] if len(sys.argv) > 1 else ".")
