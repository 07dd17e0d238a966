#!/usr/bin/env python3
"""Respells this repository's own names of definitions and lemmas: types in upper camel case, all else in snake case,
a dash only between two names, as in `run-append`. Run once, at the top, behind the toolchain's port.py.

usage: tools/respell.py [--list]
"""

import collections
import os
import re
import sys

DECLARED = re.compile(r"^\s*(?:(?:abbrev|unfoldable|pub|record|data|ruleset)\s+)*([A-Za-z][^\s:(){}.,;]*)\s*(?:[({]|:)")
NAMED = re.compile(r"(?<![\w'₀-₉≡≤≢-])([A-Za-z][\w'₀-₉]*(?:-[\w'₀-₉]+)+|All)(?![\w'₀-₉≡≤≢-])")
# what std's lemmas call their operations, beside the names that this repository defines
STD = set("length append map take drop set reverse replicate suc zero add mul mod pow cond eqb ltb and or not pos decimal codes decode".split())

# names that would fall together with a variant of an enum, and with a plain word of the library
APART = {"One-way": "IsOneWay", "All": "AllTrue"}
ALIAS = re.compile(r"\bas ([A-Z][\w']*(?:-[\w']+)+)")
BROUGHT = re.compile(r"(?m)^(?:ghost )?use ([\w.]+)\.\{([^}]*)\}")


def files(top):
    for folder, dirs, names in os.walk(os.path.join(top, "crates")):
        dirs[:] = sorted(d for d in dirs if d not in ("out", "must-fail"))
        for name in sorted(names):
            if name.endswith((".antt", ".rt")) and name != "Lib.antt":
                yield os.path.join(folder, name)


def is_made(path, line):
    """Answers and invariants are declared under names that rattle makes."""
    return os.path.basename(path) in ("Answers.antt", "Invariants.antt") and re.search(r":\s*(?:\{[^}]*\}\s*→\s*)?goal\.", line)


def declared(top):
    names = collections.defaultdict(set)
    for path in files(top):
        if not path.endswith(".antt"):
            continue
        with open(path, encoding="utf-8") as f:
            for line in f:
                m = DECLARED.match(line)
                if m and not is_made(path, line):
                    names[m.group(1)].add(path)
                for alias in ALIAS.findall(line):
                    names[alias].add(path)
    return names


def brought(text, own):
    """The names that a file brings in from elsewhere: they stay as they are."""
    found = set()
    for module, names in BROUGHT.findall(text):
        if not any(module.startswith(f"Rattle.{crate}.") for crate in own):
            found.update(n.split()[-1] for n in names.split(",") if n.strip())
    return found


def segments(parts, known):
    """The parts in as few known names as they make, or None."""
    if not parts:
        return []
    for n in range(len(parts), 0, -1):
        if "-".join(parts[:n]) in known or (n == 1 and parts[0].isdigit()):
            rest = segments(parts[n:], known)
            if rest is not None:
                return ["_".join(parts[:n])] + rest
    return None


def respelt(name, paths, known):
    parts = name.split("-")
    if name in APART:
        return APART[name]
    if name[0].isupper():
        return "".join(p[:1].upper() + p[1:] for p in parts)
    if any("/specs/" in p for p in paths):
        return "_".join(parts)
    found = segments(parts, known)
    return "-".join(found) if found and len(found) > 1 else "_".join(parts)


def code_spans(line, path):
    """Where names stand: all of an antt line but its comment, and of a Rust line what is no string and no comment."""
    if path.endswith(".antt"):
        at = line.find("-- ")
        return line if at < 0 else line[:at], "" if at < 0 else line[at:]
    at = line.find("//")
    return (line, "") if at < 0 else (line[:at], line[at:])


def main():
    top = "."
    names = declared(top)
    known = STD | {n for n, ps in names.items() if any("/specs/" in p for p in ps)}
    turned = {n: respelt(n, ps, known) for n, ps in names.items() if "-" in n or n in APART}
    turned = {n: t for n, t in turned.items() if n != t}
    if "--list" in sys.argv:
        for n, t in sorted(turned.items()):
            print(n, t, "TAKEN" if t in names else "")
        return
    own = os.listdir(os.path.join(top, "crates"))
    for path in files(top):
        with open(path, encoding="utf-8") as f:
            text = f.read()
        lines = text.split("\n")
        kept = brought(text, own)
        out = []
        for line in lines:
            m = DECLARED.match(line)
            made = m.group(1) if m and is_made(path, line) else None

            def turn(m):
                return m.group(0) if m.group(1) == made or m.group(1) in kept else turned.get(m.group(1), m.group(1))

            code, rest = code_spans(line, path)
            out.append(NAMED.sub(turn, code) + rest)
        with open(path, "w", encoding="utf-8") as f:
            f.write("\n".join(out))


main()
