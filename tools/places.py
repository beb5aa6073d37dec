#!/usr/bin/env python3
"""Lists the places in crates/*/src where an older form may stand, groups for each point of docs/DESIGN-PASS.md.

    tools/places.py            the number of places in each group
    tools/places.py twins      the places of the groups whose name begins so

It finds places to look at; whether one is changed or kept is said in docs/DESIGN-PASS.md.
"""
import collections
import glob
import re
import sys

GROUPS = {
    "1 own enums": r"^\s*(?:pub(?:\([a-z]+\))? )?enum ",
    "1 results in results": r"Result<Result<",
    "1 answers by a flag": r"\(usize, bool\)|fn (?:write|put|take|push|set|add|remove)\w*(?:<[^>]*>)?\([^)]*\) -> bool",
    "1 flags beside a value": r"^\s*(?:pub(?:\([a-z]+\))? )?\w+: bool,",
    "1 numbers for kinds": r"\b(?:category|other|kind|code)\w*: u(?:8|16|32|64)\b|fn number\(self\)",
    "1 errors handed on by hand": r"\bErr\((\w+)\) => (?:return )?(?:Ok\()?Err\(|is_some\(\)\),|\.unwrap\(\)",
    "2 the same guard": r"if out\.len\(\) < \d+",
    "3 indices and counts": r"\bfor [a-z_]+ in [^{]*\.\.|\bwhile |\bloop \{|\w \+= 1;|= \w+\.saturating_add\(1\)",
    "4 equality and order": r"fn (?:is_same|is_ahead|is_of|is_principal|is_five|is_same_client|is_larger_or_earlier|are|eq|cmp|lt)\b",
    "4 conversions": r"fn (?:of|byte|number|party|offer_of|resident_of|digit_of)\(",
    "6 buffers and lengths": r"\b(?:len|count|most|at): usize\b|&mut out\b",
    "7 switches on a step": r"match self\.output|match output\b|match options\.output|if let Output::|enum Class|front_length\(\w+, Class",
}


def sources():
    for path in sorted(glob.glob("crates/*/src/**/*.rt", recursive=True)):
        yield path, open(path, encoding="utf-8").read()


def by_pattern(pattern):
    for path, text in sources():
        for number, line in enumerate(text.split("\n"), 1):
            if not line.lstrip().startswith("//") and re.search(pattern, line):
                yield f"{path}:{number}: {line.strip()}"


def functions():
    head = re.compile(r"^(\s*)(?:pub(?:\([a-z]+\))? )?(?:const )?fn (\w+)")
    for path, text in sources():
        lines = text.split("\n")
        for start, line in enumerate(lines):
            found = head.match(line)
            if not found:
                continue
            end = start
            while end < len(lines) and lines[end] != found.group(1) + "}":
                end += 1
            yield path, start + 1, found.group(2), lines[start : end + 1]


def shape(lines):
    """The text of a function with names, texts and numbers made one."""
    text = " ".join(line.strip() for line in lines if not line.strip().startswith("//"))
    text = re.sub(r"b?\"[^\"]*\"|b?'[^']*'|\b\d+\b", "#", text)
    return re.sub(r"\b(?!fn|match|if|else|for|in|while|let|return|mut|Some|None|Ok|Err|self|requires|ensures\b)[A-Za-z_]\w*", "n", text)


def repeats(text):
    """Arms, fields and items of a list that follow one another in one shape, counted once."""
    while True:
        shorter = re.sub(r"(\S+(?: \S+){0,7}?)(?: \1)+", r"\1", text)
        if shorter == text:
            return text
        text = shorter


def twins():
    groups = collections.defaultdict(list)
    for path, number, name, lines in functions():
        if len(lines) >= 4:
            groups[repeats(shape(lines))].append(f"{path}:{number}: {name}")
    for members in groups.values():
        if len(members) > 1:
            yield from (f"{place}  (of {len(members)})" for place in members)


def types_twice():
    groups = collections.defaultdict(list)
    for place in by_pattern(r"^\s*(?:pub(?:\([a-z]+\))? )?(?:struct|enum) "):
        groups[re.search(r"(?:struct|enum) (\w+)", place).group(1)].append(place)
    for places in groups.values():
        if len(places) > 1:
            yield from places


def clauses():
    pattern = re.compile(r"^\s*(?:requires|ensures|ghost)\s*(?:\w+:?\s*)?\{(.*)\},?\s*$")
    groups = collections.defaultdict(list)
    for path, text in sources():
        for number, line in enumerate(text.split("\n"), 1):
            found = pattern.match(line)
            if found:
                groups[re.sub(r"\b\d+\b", "#", found.group(1).strip())].append(f"{path}:{number}")
    for clause, places in groups.items():
        if len(places) > 2:
            yield from (f"{place}: {clause}" for place in places)


def parameters():
    """Three or more parameters that two or more functions of a crate share by name and type."""
    groups = collections.defaultdict(list)
    for path, number, name, lines in functions():
        head = " ".join(line.strip() for line in lines).split("{")[0]
        names = re.findall(r"(\w+): (&?(?:mut )?[\w<>'\[\]; ]+)[,)]", head)
        crate = path.split("/")[1]
        for a in range(len(names)):
            for b in range(a + 1, len(names)):
                for c in range(b + 1, len(names)):
                    groups[crate, names[a], names[b], names[c]].append(f"{path}:{number}: {name}")
    seen = set()
    for places in groups.values():
        if len(places) > 1:
            seen.update(places)
    yield from sorted(seen)


def proofs():
    for path in sorted(glob.glob("crates/*/proofs/**/*.antt", recursive=True)):
        size = len(open(path, encoding="utf-8").read().split("\n")) - 1
        if size > 3 or "Answers" in path:
            yield f"{path}: {size} lines"


def main():
    wanted = sys.argv[1] if len(sys.argv) > 1 else None
    found = {name: list(by_pattern(pattern)) for name, pattern in GROUPS.items()}
    found["2 twins"] = list(twins())
    found["2 types of one name"] = list(types_twice())
    found["5 clauses in three places"] = list(clauses())
    found["5 parameters that travel together"] = list(parameters())
    found["8 proof files"] = list(proofs())
    for name in sorted(found):
        if wanted is None:
            print(f"{len(found[name]):4}  {name}")
        elif wanted in name:
            print(f"{name}: {len(found[name])}")
            for place in found[name]:
                print(f"  {place}")


main()
