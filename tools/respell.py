#!/usr/bin/env python3
"""Brings the names of definitions, fields and lemmas to one spelling, after port.py has run: words in snake case; in a lemma's name a dash
joins two names, and a plain word takes an underscore. The table respelled.tsv beside it has the old name, the new one and, for a name
that two things had, the paths in which it is meant. Names of the code, exported names, strings and comments stay.

usage: python3 tools/respell.py        once, at the top of the repository
"""

import os
import re

HERE = os.path.dirname(os.path.realpath(__file__))
TOP = os.path.dirname(HERE)
NAME = re.compile(r"[^\W\d][\w'′-]*[\w'′]|[^\W\d]")
STRING = re.compile(r'"(?:[^"\\]|\\.)*"')


def table():
    everywhere, somewhere = {}, []
    with open(os.path.join(HERE, "respelled.tsv"), encoding="utf-8") as f:
        for line in f:
            old, new, *paths = line.rstrip("\n").split("\t")
            if paths:
                somewhere.append((old, new, paths[0].split()))
            else:
                everywhere[old] = new
    return everywhere, somewhere


def names_for(path, everywhere, somewhere):
    first = {old: new for old, new, paths in somewhere if any(path == p or path.startswith(p + "/") for p in paths)}
    return first, everywhere


def turned(text, first, everywhere):
    def new(m):
        word = m.group(0)
        return first.get(word) or everywhere.get(word, word)

    return NAME.sub(new, text)


def turned_line(line, path, first, everywhere):
    comment = "--" if path.endswith(".antt") else "//"
    if line.lstrip().startswith(comment):
        return re.sub(r"`([^`]*)`", lambda m: "`" + turned(m.group(1), first, everywhere) + "`", line)
    out, at = [], 0
    for m in STRING.finditer(line) if not path.endswith(".antt") else ():
        out += [turned(line[at : m.start()], first, everywhere), m.group(0)]
        at = m.end()
    return "".join(out) + turned(line[at:], first, everywhere)


def main():
    everywhere, somewhere = table()
    for folder, dirs, files in os.walk(os.path.join(TOP, "crates")):
        dirs[:] = sorted(d for d in dirs if d != "out")
        for name in sorted(files):
            if not name.endswith((".rt", ".antt", ".edit")):
                continue
            full = os.path.join(folder, name)
            path = os.path.relpath(full, TOP)
            with open(full, encoding="utf-8") as f:
                text = f.read()
            first, rest = names_for(path, everywhere, somewhere)
            new = "\n".join(turned_line(l, path, first, rest) for l in text.split("\n"))
            if new != text:
                with open(full, "w", encoding="utf-8") as f:
                    f.write(new)


main()
