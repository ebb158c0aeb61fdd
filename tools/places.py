#!/usr/bin/env python3
"""Places in src/ that an older form of Rattle may have left, point by point of docs/DESIGN-PASS.md: lines to look at, no verdict.

    tools/places.py [--list] [POINT...]

Prints how many there are of each kind, and with --list where each stands. POINT...: 1 to 8, all if none is given.
"""
import collections
import glob
import os
import re
import sys

FUNCTION = re.compile(r"^( *)(?:pub(?:\(crate\))? )?(?:const )?(?:extern \"C\" )?fn (\w+)(?:<[^(]*>)?\((.*?)\)(.*?)\n\1\{", re.S | re.M)
CLAUSE = re.compile(r"\b(requires|ensures)\b[^{\n]*\{(.*?)\}\n", re.S)
CRATES = os.path.join(os.path.dirname(os.path.abspath(__file__)), os.pardir, "crates")


def sources():
    for path in sorted(glob.glob(os.path.join(CRATES, "*", "src", "*.rt"))):
        with open(path, encoding="utf-8") as text:
            yield path.split(os.sep, path.count(os.sep) - 2)[-1], text.read()


def code(text):
    return re.sub(r"//[^\n]*", lambda m: " " * len(m.group()), text)


def lines(pattern, but=None):
    """The lines of code that have the pattern."""
    for path, text in sources():
        for number, line in enumerate(code(text).split("\n"), 1):
            if re.search(pattern, line) and not (but and re.search(but, path)):
                yield f"{path}:{number}: {line.strip()}"


def functions():
    for path, text in sources():
        for m in FUNCTION.finditer(code(text)):
            parameters = [p.strip() for p in re.split(r",(?![^<]*>)", " ".join(m.group(3).split())) if ":" in p]
            yield path, m.group(2), parameters, m.group(4) + "\n"


def repeated_facts():
    """Facts that three functions or more require or ensure, by their definition's name or their words."""
    places = collections.defaultdict(set)
    for path, name, _, clauses in functions():
        for m in CLAUSE.finditer(clauses):
            for fact in re.split("×|→", m.group(2)):
                fact = " ".join(fact.split()).strip("() ")
                named = re.match(r"([A-Z]\w+) ", fact)
                places[m.group(1) + " " + (named.group(1) if named else fact)].add(f"{path} {name}")
    for fact, where in sorted(places.items(), key=lambda p: (-len(p[1]), p[0])):
        if len(where) >= 3:
            yield f"{len(where)} functions: {fact}"


def travelling():
    """Pairs of parameters, not of one type each, that six functions or more have side by side."""
    pairs = collections.defaultdict(set)
    for path, name, parameters, _ in functions():
        bare = [re.sub(r"^mut ", "", p) for p in parameters]
        for a, b in zip(bare, bare[1:]):
            pairs[f"{a}, {b}"].add(f"{path} {name}")
    for pair, where in sorted(pairs.items(), key=lambda p: (-len(p[1]), p[0])):
        if len(where) >= 6:
            yield f"{len(where)} functions: {pair}"


def lengths_beside():
    """Parameters of a function that is lent a slice: lengths and places in it, as numbers."""
    for path, name, parameters, _ in functions():
        numbers = [p for p in parameters if re.match(r"(mut )?(count|n|end|have|at|from|to|first|num_values|kept|left): (usize|Samples)$", p)]
        if numbers and any(re.search(r": &(mut )?\[", p) for p in parameters):
            yield f"{path} {name}: {', '.join(numbers)}"


def copied_fields():
    """Struct literals of three and more fields of one value, each copied by hand."""
    for path, text in sources():
        for m in re.finditer(r"(?:\n\s*(\w+): (\w+)\.\1,){3,}", code(text)):
            yield f"{path}: {' '.join(m.group().split())}"


def proofs(ending):
    for path in sorted(glob.glob(os.path.join(CRATES, "*", "proofs", "**", ending), recursive=True)):
        with open(path, encoding="utf-8") as text:
            yield f"{path.split(os.sep, path.count(os.sep) - 3)[-1]}: {text.read().count(chr(10))} lines"


TO_C = r"^(sonic_c|kelpladder_c|kernels_c)/"
POINTS = {
    "1": [
        ("enums", lambda: lines(r"^\s*(pub(\(crate\))? )?enum \w")),
        ("numbers of refusals", lambda: lines(r"refusals::|Refused\(u32|\b(number|refusal): u32", TO_C)),
        ("flags in structs and parameters", lambda: lines(r"\b\w+: bool\b", TO_C)),
        ("values that stand for none", lambda: lines(r"\bNO_\w+|\bBAD_MAP\b|\bNO_DIGIT\b|unwrap_or\(0\)")),
    ],
    "3": [
        ("while", lambda: lines(r"^\s*('\w+: )?while ")),
        ("counters", lambda: lines(r"^\s*\w+ [+-]= \w+;$")),
    ],
    "4": [
        ("conversions that are functions", lambda: lines(r"\bfn (ties_of|\w+_number|(opened|changed|available|wrote|gave|told|wave|written)_of)\(")),
        ("arms that only say true or false", lambda: lines(r"=> (true|false),$")),
        ("copies of fields", copied_fields),
        ("digits and bytes of numbers", lambda: lines(r"% 10\b|/ 10\b|% 256\b|/ 256\b|\* 256\b|\* 65536\b")),
        ("least, greatest, held, size", lambda: lines(r"\bfn (least|fewest|held|hold|lowered|raised|size_of|gap|clamp\w*|longer|of_area|of_slice)\b")),
    ],
    "5": [("facts in three contracts or more", repeated_facts), ("parameters side by side in six functions or more", travelling)],
    "6": [("lengths and places beside slices", lengths_beside), ("fixed buffers", lambda: lines(r"= \[0(u8|i32|i16|f32)?; "))],
    "7": [("matches on a number, a letter or a wish", lambda: lines(r"\bmatch (letter|field|kind|place|wanted|number|refusal|byte)\b"))],
    "8": [("answers", lambda: proofs("Answers.antt")), ("invariants", lambda: proofs("Invariants.antt")), ("files of proofs", lambda: proofs("*.antt"))],
}


def main():
    wanted = [a for a in sys.argv[1:] if a != "--list"]
    for point, kinds in POINTS.items():
        if wanted and point not in wanted:
            continue
        for kind, find in kinds:
            found = list(find())
            more = f", {sum(int(p.split(': ')[1].split()[0]) for p in found)} lines" if point == "8" else ""
            print(f"{point} {kind}: {len(found)}{more}")
            if "--list" in sys.argv:
                print("".join(f"    {place}\n" for place in found), end="")


if __name__ == "__main__":
    main()
