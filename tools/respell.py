#!/usr/bin/env python3
"""Respells the repository's own definitions and lemmas: a camel-case word within a name is in snake case, as `framesOf` becomes
`frames_of` and `length-framesOf` becomes `length-frames_of`; the field of a record has no dash. Types, records and modules keep their
capitals, and what src/ declares keeps its name. Run once, at the top of the repository, after the toolchain's own port.py:

    tools/respell.py        respells crates/, README.md and the pages of docs/ but for CHANGES.md
    tools/respell.py list   prints the names that change, old and new
"""
import glob
import os
import re
import sys

DECLARED = re.compile(r"^(\s*)(?:(?:abbrev|unfoldable)\s+)?(?:pub\s+)?(?:(?:abbrev|unfoldable)\s+)?([^\s:(){}]+)\s*:\s")
RECORD = re.compile(r"^(\s*)(?:pub\s+)?record\s+(\S+)")
WORD = r"[\w'-]"
# One-letter names of a formula keep their capital.
LETTERS = re.compile(r"^[A-Z](-|$)")
# Names whose plain spelling a field or a lemma beside them has, or that begin with a word that is another now.
OTHERWISE = {"inOrder": "is_in_order", "nearOf": "nearby_of", "getD-framesOf": "get_or-frames_of",
             "getD-interpolateFrame": "get_or-interpolate_frame", "getD_tabulate": "get_or-tabulate"}
PAGES = ["README.md", "docs/CLAIMS.md", "docs/CRATES.md", "docs/DECISIONS.md", "docs/DIFFERENCES.md", "docs/RULES.md", "docs/SKIMMING.md",
         "docs/VECTORS.md"]


def proof_texts():
    for kind in ("specs", "proofs"):
        yield from glob.glob(f"crates/*/{kind}/**/*.antt", recursive=True)


def snake(name):
    parts = []
    for part in name.split("-"):
        part = re.sub(r"(?<=[a-z0-9])([A-Z])", r"_\1", part)
        part = re.sub(r"([A-Z])(?=[A-Z][a-z])", r"\1_", part)
        parts.append(part.lower())
    return "-".join(parts)


def renamed():
    """Each name that changes, with its new spelling."""
    words, fields = set(), set()
    for path in proof_texts():
        with open(path, encoding="utf-8") as text:
            inside = None
            for line in text:
                if record := RECORD.match(line):
                    inside = len(record.group(1))
                    continue
                declared = DECLARED.match(line)
                indent = len(line) - len(line.lstrip())
                if inside is not None and line.strip() and indent <= inside:
                    inside = None
                if declared:
                    (fields if inside is not None and indent > inside else words).add(declared.group(2))
    new = {}
    for name in words:
        if re.search("[A-Z]", name) and not name[0].isupper():
            new[name] = OTHERWISE.get(name) or snake(name)
    for name in fields:
        if LETTERS.match(name):
            continue
        spelled = snake(name).replace("-", "_")
        if spelled != name:
            new[name] = spelled
    return new


def turn(path, pattern, new):
    with open(path, encoding="utf-8") as file:
        text = file.read()
    turned = pattern.sub(lambda found: new[found.group(0)], text)
    if turned != text:
        with open(path, "w", encoding="utf-8") as file:
            file.write(turned)
    return turned != text


def main():
    new = renamed()
    if sys.argv[1:] == ["list"]:
        for name in sorted(new):
            print(name, new[name])
        return
    together = {}
    for name, spelled in new.items():
        together.setdefault(spelled, []).append(name)
    for spelled, names in together.items():
        if len(names) > 1:
            sys.exit(f"respell.py: {', '.join(names)} would all be {spelled}")
    names = "|".join(re.escape(name) for name in sorted(new, key=len, reverse=True))
    pattern = re.compile(rf"(?<!{WORD})(?:{names})(?!{WORD})")
    paths = list(proof_texts()) + glob.glob("crates/*/src/**/*.rt", recursive=True) + glob.glob("crates/*/*/*.edit")
    paths += [page for page in PAGES if os.path.exists(page)]
    print(f"respell.py: {len(new)} names, {sum(turn(path, pattern, new) for path in paths)} files")


main()
