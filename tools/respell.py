#!/usr/bin/env python3
"""Respells the names of this repository as today's Rattle has them: tools/respell.py, once, at the top, after port.py.

tools/respelled.tsv lists each name, old and new: definitions, lemmas, fields and cases in snake case, types and statements in camel case. In .antt files
a name is respelt wherever it stands but in a file that imports it from a library; in .rt files in clauses and imports; in comments and papers between
backticks. Functions of src/, exported names and strings keep their spelling. `tools/respell.py names` writes the list.
"""

import glob
import os
import re
import sys

TOKEN = re.compile(r"(?<![\w'-])[^\W\d_][\w'≡≤<]*(?:-[\w'≡≤<]+)+(?![\w'-])")
LIBRARY = re.compile(r"(?ms)^\s*(?:pub |ghost )?use ((?:Rattle\.std|native|lib|borrow|mathlib|Prim|program|denote)[^\s{;]*?)\.\{(.*?)\}")
GOAL = re.compile(r"^([^\W\d_][\w'-]*) : (?:\w+\.)?Need-")
HERE = os.path.dirname(os.path.realpath(__file__))
LIST = os.path.join(HERE, "respelled.tsv")


# a library's name where it is cited by its path
QUALIFIED = re.compile(r"(?<![\w.])(?:native|lib|borrow|mathlib|Prim|denote|program|Rattle\.std)(?:\.\w+)+\.$")


def respelt(name):
    first, *rest = name.split("-")
    if first[0].isupper():
        return first + "".join(x[:1].upper() + x[1:] for x in rest)
    return name.replace("-", "_")


def sources(pattern):
    return sorted(glob.glob(pattern, recursive=True))


def own_files():
    """Definitions and lemmas, without what Rattle's own names fill: the folders of functions below proofs/."""
    files = sources("crates/*/specs/**/*.antt")
    for p in sources("crates/*/proofs/**/*.antt"):
        below = p.split("/proofs/", 1)[1].split("/")
        if all(x[0].isupper() for x in below):
            files.append(p)
    return files


def from_library(text):
    names = set()
    for m in LIBRARY.finditer(text):
        for word in m.group(2).split(","):
            names.update(word.split(" as ")[:1])
    return {n.strip() for n in names}


def uncommented(text):
    return "\n".join(re.sub(r"(^|\s)--.*", "", l) for l in text.split("\n"))


def names():
    found = set()
    for p in own_files():
        text = open(p, encoding="utf-8").read()
        keep = from_library(text)
        found |= {m.group() for m in TOKEN.finditer(uncommented(text)) if m.group() not in keep}
    return sorted(found)


def ticked(text, turn):
    return re.sub(r"`[^`\n]+`", lambda m: turn(m.group()), text)


def main():
    os.chdir(os.path.dirname(HERE))
    if sys.argv[1:] == ["names"]:
        with open(LIST, "w", encoding="utf-8") as f:
            f.writelines(f"{n}\t{respelt(n)}\n" for n in names())
        return
    with open(LIST, encoding="utf-8") as f:
        new = dict(l.rstrip("\n").split("\t") for l in f)

    # port.py spelled a name that is a type in the library's way of a word
    half = re.compile(r"(?<![\w'.])(" + "|".join(n for n in new if "-" not in n) + r")(?![\w'-])")

    def turn(text, keep=frozenset()):
        text = half.sub(lambda m: new[m.group()], text)
        return TOKEN.sub(lambda m: m.group() if m.group() in keep or QUALIFIED.search(text[: m.start()]) else new.get(m.group(), m.group()), text)

    for p in sources("crates/**/*.antt") + sources("crates/*/src/**/*.rt") + sources("docs/**/*.md") + ["README.md", "theorems.txt"]:
        if "/out/" in p:
            continue
        old = open(p, encoding="utf-8").read()
        mark = "//" if p.endswith(".rt") else "--"
        if p == "theorems.txt":
            text = turn(old)
        elif p.endswith(".md"):
            text = ticked(old, turn)
        else:
            keep = from_library(old)
            lines = []
            for line in old.split("\n"):
                m = re.search(r"(^|\s)" + mark + r"(\s|$)", line)
                code, comment = (line[: m.start()], line[m.start():]) if m else (line, "")
                if p.endswith(".rt"):
                    code = "".join(x if x.startswith('"') else turn(x, keep) for x in re.split(r'("(?:[^"\\]|\\.)*")', code))
                elif GOAL.match(code):
                    goal = GOAL.match(code).group(1)
                    code = goal + turn(code[len(goal):], keep)
                else:
                    code = turn(code, keep)
                lines.append(code + ticked(comment, turn))
            text = "\n".join(lines)
        if text != old:
            with open(p, "w", encoding="utf-8") as f:
                f.write(text)


main()
