#!/usr/bin/env python3
"""Respells the repository's own definitions and lemmas in snake case, as today's Rattle spells words.

    python3 tools/respell.py [--list]

Run once at the top, right after the kit's port.py. It takes the names that specs/ and proofs/ of the listed crates
define: those that begin with a lower-case letter and hold a capital or a hyphen get underscores. Goals of the check,
types, facts, names of the library, functions of src/, strings and comments stay as they are. A name is turned only in a file that
defines it or imports it from a crate of this repository. --list prints what would be turned.
"""
import pathlib
import re
import sys

LINE = re.compile(r"^\s*((?:abbrev |unfoldable |pub )*)([^\s:(){}]+) (?:[({].*[)}] )?: (.*)")
IDENT = r"[^\s(){}\[\];,.:|\"]+"
# names that fall together with another one are told apart here
APART = {"may-state": "may_state_holds", "fromFront": "built_onto"}


def snake(name):
    if name in APART:
        return APART[name]
    name = re.sub(r"([a-z0-9])([A-Z])", lambda m: m.group(1) + "_" + m.group(2).lower(), name)
    return name.replace("-", "_")


def turns(name):
    return name[0].islower() and re.search(r"[A-Z-]", name) and snake(name) != name


def defined(path):
    """The names that a file of specs/ or proofs/ defines, but for answers to goals."""
    names = set()
    for line in path.read_text().splitlines():
        m = LINE.match(line)
        if not m or "goal." in m.group(3) or "given." in m.group(3) or line.lstrip().startswith("--"):
            continue
        if line.startswith(" ") and "pub" not in m.group(1):
            continue
        names.add(m.group(2))
    return names


def imported(text, crates):
    """The names that a file imports from the repository's own crates, as they stand there."""
    names = set()
    for m in re.finditer(r"\buse Rattle\.(\w+)\.[\w.]+\.\{([^}]*)\}", text):
        if m.group(1) in crates:
            names |= {part.strip().split(" as ")[0] for part in m.group(2).split(",")}
    return names


def main():
    crates = [line.split(":")[0].split()[0] for line in open("crates.txt") if line.strip() and not line.startswith("#")]
    files = [p for c in crates for p in sorted(pathlib.Path("crates", c).rglob("*")) if p.suffix in (".antt", ".rt") and "out" not in p.parts]
    own = {p: defined(p) for p in files if p.suffix == ".antt"}
    every = set().union(*own.values())
    wanted = {n: snake(n) for n in every if turns(n)}
    for old, new in sorted(wanted.items()):
        if new in every or list(wanted.values()).count(new) > 1:
            print(f"fall together: {old} -> {new}")
    if "--list" in sys.argv:
        print("\n".join(f"{a} -> {b}" for a, b in sorted(wanted.items())))
        return
    changed = 0
    for p in files:
        text = p.read_text()
        here = (own.get(p, set()) | imported(text, set(crates))) & set(wanted)
        # a name that is bound in the file already would be hidden
        for n in sorted(here):
            if re.search(rf"(?<![\w'.◌·-]){re.escape(wanted[n])}(?![\w'◌·-])", re.sub(r"--.*|//.*", "", text)):
                print(f"look: {p} has {wanted[n]} already")
        lines = []
        for line in text.split("\n"):
            if p.suffix == ".rt" and not re.search(r"[⌜≡λ∷]|ghost|requires|ensures", line):
                lines.append(line)
                continue
            mark = "--" if p.suffix == ".antt" else "//"
            code, sep, note = line.partition(mark)
            for n in here:
                code = re.sub(rf"(?<![\w'.◌·-]){re.escape(n)}(?![\w'◌·-])", wanted[n], code)
            lines.append(code + sep + note)
        new = "\n".join(lines)
        if new != text:
            p.write_text(new)
            changed += 1
    print(f"respell: {len(wanted)} names, {changed} files")


main()
