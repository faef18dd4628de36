#!/usr/bin/env python3
"""Spells the names of definitions and lemmas as Rattle's library does: words in snake case, types and facts in upper camel case.

usage: python3 tools/respell.py          in the repository: rewrites crates/**/*.antt, *.rt and *.edit, and names in backticks of README.md and docs/
       python3 tools/respell.py --list   prints the renaming and changes nothing

A name that specs/ defines, a field and a local name have underscores only. A lemma's name keeps a dash between two names that specs/ defines, or
that the library has, as `length-ring_map`. Goals, whose names the check makes, are left alone. It stops where two names would fall together.
"""

import os
import re
import sys

HEAD = re.compile(r"(?m)^[ \t]*((?:(?:unfoldable|abbrev|pub|record|data|let|ruleset)[ \t]+)*)([^\s(){};.,:]+)[ \t]*((?:\((?:[^()]|\([^()]*\))*\)[ \t]*|\{[^{}]*\}[ \t]*)*)(:|=)[ \t]([^\n]*)")
INNER = re.compile(r"\blet[ \t]+([^\s(){};.,:]+)[ \t]*[:=]")
BOUND = re.compile(r"\(([^\s(){};.,:]+(?:[ \t]+[^\s(){};.,:]+)*)[ \t]*:")
TOKEN = re.compile(r"[^\s(){}\[\];.,:⌜⌝⟦⟧\"`«»]+")
LIBRARY = {"length", "take", "drop", "reverse", "map", "slice_index", "sum", "cond"}
# Words of the older library that stand in names of this repository.
WORDS = {"getD": "slice_index", "get_d": "slice_index", "eqb": "nat_eq", "orOther": "or_other"}
# One name each that falls together with another by the rules above.
BY_HAND = {}


def texts(root, *endings):
    for folder, dirs, files in os.walk(os.path.join(root, "crates")):
        dirs[:] = sorted(d for d in dirs if d != "out")
        for name in sorted(files):
            if name.endswith(endings):
                yield os.path.join(folder, name)


def read(path):
    with open(path, encoding="utf-8") as file:
        return file.read()


def snake(word):
    return re.sub(r"([a-z0-9])([A-Z])", lambda m: m.group(1) + "_" + m.group(2).lower(), word)


def camel(name):
    return "".join(part[:1].upper() + part[1:] for part in name.split("-"))


def plain(name):
    return snake("_".join(WORDS.get(part, part) for part in name.split("-")))


def lemma(name, known):
    """Splits a name into the longest known names, and joins two of these by a dash, all else by an underscore."""
    parts = [WORDS.get(part, part) for part in name.split("-")]
    segments = []
    i = 0
    while i < len(parts):
        for j in range(len(parts), i, -1):
            word = snake("_".join(parts[i:j]))
            if word in known:
                segments.append((word, True))
                i = j
                break
        else:
            segments.append((snake(parts[i]), False))
            i += 1
    out, before = segments[0]
    for word, is_known in segments[1:]:
        out += ("-" if before and is_known else "_") + word
        before = is_known
    return out


def names(root):
    """Each name that a file defines: in specs/ (a path that ends in Lemmas is proofs), in proofs/, or locally."""
    specs, proofs, local = set(), set(), set()
    for path in texts(root, ".antt"):
        text = read(path)
        in_specs = "/specs/" in path and not path.endswith("Lemmas.antt")
        for m in HEAD.finditer(text):
            words, name, rest = m.group(1), m.group(2), m.group(5)
            if name in ("where", "in", "use", "module", "--") or rest.startswith("goal."):
                continue
            if "let" in words.split():
                local.add(name)
            elif m.group(4) == ":":
                (specs if in_specs else proofs).add(name)
        for m in INNER.finditer(text):
            local.add(m.group(1))
        for m in BOUND.finditer(text):
            local.update(m.group(1).split())
    goals = set()
    for path in texts(root, "Answers.antt", "Invariants.antt"):
        goals.update(re.findall(r"(?m)^(?:abbrev )?(?:pub )?(\S+) : goal\.", read(path)))
    return specs, proofs, local, goals


def renaming(root):
    specs, proofs, local, goals = names(root)
    known = {plain(n) for n in specs if not n[:1].isupper()} | LIBRARY
    new = {}
    for name in specs | proofs | local:
        if name in goals or not re.match(r"[A-Za-z]", name):
            continue
        if name[:1].isupper():
            to = camel(name) if "-" in name else name
        elif name in specs or name not in proofs:
            to = plain(name)
        elif "-" in name or re.search("[a-z][A-Z]|get_d", name):
            to = lemma(name.replace("get_d_", "getD-").replace("nat_eq_", "eqb-"), known)
        else:
            to = name
        to = BY_HAND.get(name, to)
        if to != name:
            new[name] = to
    taken = {}
    for name in specs | proofs | local:
        to = new.get(name, name)
        if to in taken and taken[to] != name:
            print(f"fall together: {name} and {taken[to]} as {to}")
        taken[to] = name
    return new


def turn(text, new):
    return TOKEN.sub(lambda m: new.get(m.group(0), m.group(0)), text)


def main():
    root = "."
    new = renaming(root)
    if "--list" in sys.argv:
        for name in sorted(new):
            print(f"{name} -> {new[name]}")
        return
    for path in texts(root, ".antt", ".rt", ".edit"):
        before = read(path)
        after = turn(before, new) if path.endswith(".antt") else "\n".join(line if line.lstrip().startswith("//") else turn(line, {k: v for k, v in new.items() if "-" in k}) for line in before.split("\n"))
        if after != before:
            with open(path, "w", encoding="utf-8") as file:
                file.write(after)
    pages = ["README.md"] + ["docs/" + f for f in sorted(os.listdir("docs")) if f.endswith(".md")]
    for path in pages:
        before = read(path)
        after = re.sub(r"`[^`\n]+`", lambda m: turn(m.group(0), {k: v for k, v in new.items() if "-" in k}), before)
        if after != before:
            with open(path, "w", encoding="utf-8") as file:
                file.write(after)


if __name__ == "__main__":
    main()
