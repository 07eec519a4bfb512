#!/usr/bin/env python3
"""Respells this repository's own names of definitions and lemmas as Rattle spells names now.

usage: python3 tools/respell.py [--list]     at the top of the repository, once, after port.py

A name with hyphens becomes snake case (`row-end`, `row_end`), or camel case where it begins with a capital, as a type
or a module does (`Same-stage`, `SameStage`). Left as they are: names that a file imports from the libraries; in the proof
of a function (a folder below proofs/) the names of goals and of steps, which the check makes; functions of src/, exported
C names, strings, inputs and outputs, none of which has a hyphen; and words of comments outside code spans.
Names that fall together are shown on lines that begin 'together:'. --list writes nothing and prints each spelling with its new one.
"""

import os
import re
import sys

NAME = r"[^\W\d_][\w']*(?:-[\w']+)+"
WORD = re.compile(rf"(?<![\w'◌-])({NAME})(?![\w◌-])")
SPAN = re.compile(r"`[^`\n]+`")
STRING = re.compile(r'("(?:[^"\\\n]|\\.)*")')
IMPORT = re.compile(r"^\s*(?:pub )?(?:ghost )?use ([\w.·+-]+)\.\{([^}]*)\}", re.M)
SIGNATURE = re.compile(rf"^\s*(?:pub |abbrev |unfoldable |record |data |ruleset )*({NAME}) *[:({{]", re.M)
OF_FUNCTION = re.compile(r"/proofs/.*/")
OF_CHECK = re.compile(r"returns-.*|.*-requires(-\d+)?")
OWN_LEMMA = re.compile(rf"^\s*(?:pub )?({NAME}) : (?!tie\.)", re.M)


def respelled(word):
    parts = word.split("-")
    if parts[0][0].isupper():
        return "".join(p[0].upper() + p[1:] for p in parts)
    return "_".join(parts)


def turn(text, turns, seen):
    def one(m):
        if not turns(m.group(1)):
            return m.group(1)
        seen[m.group(1)] = respelled(m.group(1))
        return seen[m.group(1)]

    return WORD.sub(one, text)


def turn_line(line, mark, turns, seen):
    """The code of a line but for its strings, and the code spans of the comment behind it."""
    at = comment_at(line, mark)
    code = "".join(p if i % 2 else turn(p, turns, seen) for i, p in enumerate(STRING.split(line[:at])))
    return code + SPAN.sub(lambda m: turn(m.group(0), turns, seen), line[at:])


def comment_at(line, mark):
    quoted = False
    for i, c in enumerate(line):
        if c == '"' and (i == 0 or line[i - 1] != "\\"):
            quoted = not quoted
        if not quoted and line.startswith(mark, i) and (mark == "//" or i == 0 or line[i - 1] in " \t"):
            return i
    return len(line)


def texts(root):
    found = {}
    for folder, dirs, names in os.walk(os.path.join(root, "crates")):
        dirs[:] = sorted(d for d in dirs if d != "out")
        for name in sorted(names):
            if name.endswith((".antt", ".rt")):
                path = os.path.join(folder, name)
                with open(path, encoding="utf-8") as f:
                    found[path] = f.read()
    return found


def crates(root):
    with open(os.path.join(root, "crates.txt")) as f:
        return {l.split(":")[0].split()[0] for l in f if l.strip() and not l.startswith("#")}


def of_libraries(text, own):
    """The names that a file imports from elsewhere."""
    names = set()
    for m in IMPORT.finditer(text):
        head = m.group(1).split(".")
        if head[0] != "Rattle" or len(head) < 2 or head[1] not in own:
            for item in m.group(2).split(","):
                names.update(item.strip().split(" as ")[:1])
    return names


def main():
    dry = "--list" in sys.argv[1:]
    own, all_texts = crates("."), texts(".")
    shared = {p: t for p, t in all_texts.items() if not OF_FUNCTION.search(p)}
    defined = set().union(*(SIGNATURE.findall(t) for t in shared.values()))
    known = set().union(*(WORD.findall(t) for t in shared.values()))
    foreign = set().union(*(of_libraries(t, own) for t in all_texts.values())) - defined
    everything = {}
    for path, text in all_texts.items():
        here = of_libraries(text, own) | foreign
        alone = known | set(OWN_LEMMA.findall(text)) if OF_FUNCTION.search(path) else None

        def turns(word, here=here, alone=alone):
            if word in here:
                return False
            return alone is None or (word in alone and not OF_CHECK.fullmatch(word))

        seen = {}
        mark = "//" if path.endswith(".rt") else "--"
        new = "\n".join(turn_line(l, mark, turns, seen) for l in text.split("\n"))
        words = set(re.findall(r"[^\W\d][\w']*", text))
        for old, now in sorted(seen.items()):
            if now in words:
                print(f"together: {path}: {old} and {now}")
        everything.update(seen)
        if not dry and new != text:
            with open(path, "w", encoding="utf-8") as f:
                f.write(new)
    back = {}
    for old, now in everything.items():
        back.setdefault(now, []).append(old)
    for now, olds in sorted(back.items()):
        if len(olds) > 1:
            print(f"together: {' and '.join(sorted(olds))}: {now}")
    if dry:
        for old, now in sorted(everything.items()):
            print(f"{old}\t{now}")


main()
