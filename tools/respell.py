#!/usr/bin/env python3
"""Brings this repository's own names to the spelling of today's Rattle: words in snake case. Run once, behind port.py.

usage: respell.py [ROOT]

names.tsv beside it has a line for each name: old, new, and 'own' or 'port' (a name that port.py itself respelled, for the texts that it does
not turn). In specs/, proofs/ and src/ the own names are turned; string literals stay, and in comments only names in camel case are turned.
In must-fail/ both are turned in the lines 'old:' and 'new:', with the other spellings that port.py turned in the files they edit.
"""
import glob
import os
import re
import sys

HERE = os.path.dirname(os.path.abspath(__file__))
TOKEN = re.compile(r"[^\s(){}\[\];,.@\"⌜⌝`:]+")


def names():
    own, port = {}, {}
    with open(os.path.join(HERE, "names.tsv"), encoding="utf-8") as f:
        for line in f:
            old, new, kind = line.rstrip("\n").split("\t")
            (own if kind == "own" else port)[old] = new
    return own, port


def turn(text, table):
    return TOKEN.sub(lambda m: table.get(m.group(0), m.group(0)), text)


def turn_comment(text, table):
    camel = {old: new for old, new in table.items() if "-" not in old and "_" not in old}
    return turn(text, camel)


def turn_antt(text, table):
    out = []
    for line in text.split("\n"):
        at = line.find("--")
        if line.lstrip().startswith("-- "):
            out.append(turn_comment(line, table))
        elif at >= 0 and line[at:at + 3] == "-- " and line[at - 1] == " ":
            out.append(turn(line[:at], table) + turn_comment(line[at:], table))
        else:
            out.append(turn(line, table))
    return "\n".join(out)


def turn_rt(text, table):
    out = []
    for line in text.split("\n"):
        if line.lstrip().startswith("//"):
            out.append(turn_comment(line, table))
        elif '"' in line:
            out.append(line)
        else:
            out.append(turn(line, table))
    return "\n".join(out)


SIGNS = [("λ r. ⌜ ", ""), ("⌜ ", ""), (" ⌝", ""), ("_≡_", "◌≡◌")]


def turn_edit(text, own, port, of):
    """The lines of an edit, where its old text no longer stands in the file that it edits."""
    lines, file = [], None
    for line in text.split("\n"):
        if line.startswith("file: "):
            file = line[6:]
        if line.startswith(("old:", "new:")):
            stays = line[5:] in of(file) if line.startswith("old:") else stays
            if not stays:
                t = re.sub(r"(?<=[\w')\]]) \.(?=[a-z])", ".", line[4:])
                t = re.sub(r"\(((?:[\w']+)(?:\.[\w']+)+)\)", r"\1", t)
                for a, b in SIGNS:
                    t = t.replace(a, b)
                line = line[:4] + turn(turn(t, port), own)
            else:
                line = line[:4] + (turn(line[4:], own) if file.endswith(".antt") else line[4:])
        lines.append(line)
    return "\n".join(lines)


def main(root):
    own, port = names()
    crates = os.path.join(root, "crates")
    for path in sorted(glob.glob(crates + "/*/**/*", recursive=True)):
        if "/out/" in path or not path.endswith((".antt", ".rt")):
            continue
        with open(path, encoding="utf-8") as f:
            text = f.read()
        new = turn_antt(text, own) if path.endswith(".antt") else turn_rt(text, own)
        if new != text:
            with open(path, "w", encoding="utf-8") as f:
                f.write(new)
    for path in sorted(glob.glob(crates + "/*/must-fail/*.edit")):
        crate = os.path.dirname(os.path.dirname(path))

        def of(file):
            with open(os.path.join(crate, file), encoding="utf-8") as f:
                return f.read()

        with open(path, encoding="utf-8") as f:
            text = f.read()
        new = turn_edit(text, own, port, of)
        if new != text:
            with open(path, "w", encoding="utf-8") as f:
                f.write(new)


main(sys.argv[1] if len(sys.argv) > 1 else ".")
