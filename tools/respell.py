#!/usr/bin/env python3
"""Gives the repository's own definitions and lemmas today's spelling; run once, at the top, after the kit's port.py.

usage: python3 tools/respell.py [--list]

What it turns are names that specs/ and proofs/ themselves declare: words of lower case are in snake case, types in camel case. A dash stays only
behind the name of a function that a lemma is about (`length`, `get_or`). Strings, inputs, outputs and functions of src/ keep their names.
With --list it only prints what it would turn, and what would fall together.
"""

import glob
import re
import sys

# a name: what stands between white space, brackets, commas and dots
NAME = re.compile(r"[^\s(){}\[\];,.@\"`:]+")
HEAD = re.compile(r"^(\s*)(?:(?:abbrev|unfoldable|pub|data|record|mutual)\s+)*([^(){}:;,=]*?)\s*(?:(?:[({].*?[)}]\s*)*):(?:\s|$)")
KEPT = ("length", "get_or")
# names that would fall together with another of the repository's or of the library's
OWN = {
    "All-next": "EachNext",
    "inOrder": "is_in_order",
    "all-terms": "terms_fit_all",
    "records-of": "records_of_nodes",
    "bit-and": "bit_of_and",
    "bit-or": "bit_of_or",
    "bit-xor": "bit_of_xor",
}


def library_files():
    return sorted(glob.glob("crates/*/specs/*.antt") + glob.glob("crates/*/proofs/*.antt"))


def declared():
    names = set()
    for path in library_files():
        with open(path) as f:
            for line in f:
                if line.lstrip().startswith(("--", "use ", "open ")):
                    continue
                m = HEAD.match(line)
                if m:
                    names.update(m.group(2).split())
    return {n for n in names if NAME.fullmatch(n) and re.match(r"[^\W\d_]", n)}


def snake(word):
    return re.sub(r"(?<=[a-z0-9])([A-Z])", lambda m: "_" + m.group(1).lower(), word)


def turned(name):
    if name in OWN:
        return OWN[name]
    if name[0].isupper():
        return "".join(p[0].upper() + p[1:] for p in name.split("-") if p)
    name = name.replace("lengthIn", "length_in").replace("getD", "get_or").replace("flatMap", "flat_map")
    for head in KEPT:
        if name.startswith(head + "-"):
            return head + "-" + snake(name[len(head) + 1:]).replace("-", "_")
    return snake(name).replace("-", "_")


def table():
    names = declared()
    return names, {n: turned(n) for n in sorted(names) if turned(n) != n}


def turn_words(text, names):
    """Every name of the text that the table has; a generated name behind c, tie or goal stays."""

    def one(m):
        word = m.group(0)
        if word not in names:
            return word
        before = text[: m.start()]
        if before.endswith("."):
            path = re.search(r"[^\s(){}\[\];,]*$", before).group(0)
            if path.split(".")[0] in ("c", "tie", "goal", "w"):
                return word
        return names[word]

    return NAME.sub(one, text)


def turn_line(line, names, comment):
    at = line.find(comment)
    if comment == "//" and at < 0 or comment == "--" and (at < 0 or not re.search(r"(^|\s)--(\s|$)", line)):
        return turn_words(line, names)
    if comment == "--":
        at = re.search(r"(^|\s)--(\s|$)", line).start()
    said = re.sub(r"`[^`]*`", lambda m: turn_words(m.group(0), names), line[at:])
    return turn_words(line[:at], names) + said


def main():
    names, new = table()
    fall = {}
    for n in names:
        fall.setdefault(new.get(n, n), []).append(n)
    if "--list" in sys.argv:
        for n, t in new.items():
            print(n, t)
        for t, ns in fall.items():
            if len(ns) > 1:
                print("FALL", t, ns)
        return
    for path in sorted(glob.glob("crates/*/specs/**/*.antt", recursive=True) + glob.glob("crates/*/proofs/**/*.antt", recursive=True)):
        rewrite(path, new, "--")
    for path in sorted(glob.glob("crates/*/src/*.rt")):
        rewrite(path, new, "//")
    for path in sorted(glob.glob("crates/*/must-fail/*.edit")):
        with open(path) as f:
            lines = f.read().split("\n")
        write(path, "\n".join(turn_words(l, new) if l.startswith(("old:", "new:")) else l for l in lines))
    for path in ["README.md"] + sorted(glob.glob("docs/*.md")):
        with open(path) as f:
            text = f.read()
        write(path, re.sub(r"`[^`\n]*`", lambda m: turn_words(m.group(0), new), text))


def rewrite(path, new, comment):
    with open(path) as f:
        lines = f.read().split("\n")
    write(path, "\n".join(turn_line(l, new, comment) for l in lines))


def write(path, text):
    with open(path) as f:
        old = f.read()
    if old != text:
        with open(path, "w") as f:
            f.write(text)


if __name__ == "__main__":
    main()
