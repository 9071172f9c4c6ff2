#!/usr/bin/env python3
"""Respells the definitions, lemmas, fields and constructors of the crates in snake case: run once, at the top, after the kit's port.py.

A name of a Rust function, a string and a name of the library keep their spelling. Where a name with dashes would fall together with a
definition, it gets `_is` after it.
"""

import collections
import os
import re

NAME = re.compile(r"[A-Za-z_\u00c0-\u024f\u0370-\u03ff\u2115][A-Za-z0-9_'\-\u00c0-\u024f\u0370-\u03ff\u2115]*")
CRATES = sorted(c for c in os.listdir("crates") if os.path.isdir(os.path.join("crates", c, "src")))
OWN = re.compile(r"Rattle\.(" + "|".join(CRATES) + r")\.")
USE = re.compile(r"^(?:ghost )?use [^;\n]*;?$", re.M)
COMMENT = re.compile(r"(--|//).*$", re.M)


def files(endings):
    for folder, inner, names in os.walk("crates"):
        inner[:] = sorted(x for x in inner if x != "out")
        for name in sorted(names):
            if name.endswith(endings):
                yield os.path.join(folder, name)


def read(path):
    with open(path, encoding="utf-8") as f:
        return f.read()


def snake(name):
    name = re.sub(r"([a-z0-9])([A-Z])", lambda m: m.group(1) + "_" + m.group(2).lower(), name)
    return re.sub(r"[A-Z]", lambda m: m.group(0).lower(), name).replace("-", "_")


def old_form(name):
    return name[0].islower() and ("-" in name or re.search(r"[a-z0-9][A-Z]", name)) and not name.endswith("-")


def library(text):
    """The names that the file takes from the library."""
    found = set()
    for use in USE.findall(text):
        if not OWN.search(use):
            found.update(NAME.findall(use))
    return found


def shared(path):
    """Whether the file has definitions or lemmas, and not the proof of one function."""
    parts = path.split(os.sep)
    return path.endswith(".antt") and (parts[2] == "specs" or parts[2] == "proofs" and len(parts) == 4)


functions = set()
for path in files((".rt",)):
    functions.update(re.findall(r"\bfn (\w+)", read(path)))

# The names to be respelt, as they are used in definitions and lemmas.
found, plain = set(), set()
for path in files((".antt",)):
    if shared(path):
        text = read(path)
        names = set(NAME.findall(COMMENT.sub("", USE.sub("", text)))) - library(text)
        found.update(n for n in names if old_form(n))
        plain.update(n for n in names if not old_form(n))
for path in files((".rt",)):
    for use in USE.findall(read(path)):
        if OWN.search(use):
            found.update(n for n in NAME.findall(use) if old_form(n))

humps = {snake(n) for n in found if "-" not in n}
meaning = {f.replace("_", "-"): f for f in functions if "_" in f}
taken = collections.defaultdict(list)
for n in sorted(found):
    to = snake(n)
    if "-" in n and n not in meaning and (to in humps or to in plain or to in functions):
        to += "_is"
    if n not in meaning:
        meaning[n] = to
        taken[to].append(n)
for to, names in taken.items():
    if len(names) > 1 or to in plain and to not in functions:
        print("falls together:", to, names, "plain" if to in plain else "")


# A lemma that port.py has spelt as the definition that it speaks of is to be spelt.
for path in files((".antt", ".rt")):
    if path.startswith(os.path.join("crates", "rehearsal")):
        text = read(path)
        new = re.sub(r"(?<![\w'-])same_end(?![\w'-])", "same_end_is", text)
        if new != text:
            with open(path, "w", encoding="utf-8") as f:
                f.write(new)


def turn(text, keep, wanted):
    return NAME.sub(lambda m: meaning[m.group(0)] if m.group(0) in wanted and m.group(0) not in keep else m.group(0), text)


def turn_comment(text):
    text = NAME.sub(lambda m: meaning[m.group(0)] if "-" not in m.group(0) and m.group(0) in meaning else m.group(0), text)
    return re.sub(r"`[^`]*`", lambda m: turn(m.group(0), set(), meaning), text)


def turn_code(text, mark):
    keep = library(text)
    out = []
    for line in text.split("\n"):
        at = line.find(mark)
        code, comment = (line, "") if at < 0 else (line[:at], line[at:])
        if USE.match(line) and not OWN.search(line):
            out.append(line)
            continue
        # strings stay
        parts = re.split(r'("(?:[^"\\]|\\.)*")', code)
        parts[::2] = [turn(p, keep, meaning) for p in parts[::2]]
        out.append("".join(parts) + turn_comment(comment))
    return "\n".join(out)


def write(path, text, old):
    if text != old:
        with open(path, "w", encoding="utf-8") as f:
            f.write(text)


for path in files((".antt",)):
    write(path, turn_code(read(path), "--"), read(path))
for path in files((".rt",)):
    write(path, turn_code(read(path), "//"), read(path))
for path in files((".edit",)):
    lines = [turn(x, set(), meaning) if x.startswith(("old:", "new:")) else turn_comment(x) for x in read(path).split("\n")]
    write(path, "\n".join(lines), read(path))
