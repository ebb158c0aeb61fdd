#!/usr/bin/env python3
"""Holds docs/RULES.md to the code: every definition that a rule names stands in the file that the rule names, and every
heading that a comment cites as docs/RULES.md, "..." is one of its headings. Ends with a line of what was found, or fails."""
import pathlib
import re
import sys

ROOT = pathlib.Path(__file__).resolve().parent.parent
TEXT = (ROOT / "docs/RULES.md").read_text()
SOURCES = [".antt", ".rt", ".rs", ".c", ".h", ".py", ".md"]


def definitions():
    """The names, crate and file of each rule's definitions: `a`, `b`, crate, File; `c`, crate, src/file.rt."""
    for rule in re.findall(r"→ (`.*)", TEXT):
        for part in rule.split(";"):
            names = re.findall(r"`([^`]+)`", part)
            words = [word.strip() for word in re.sub(r"`[^`]+`", "", part).split(",") if word.strip()]
            if names and len(words) >= 2:
                yield names, words[-2].split()[-1], words[-1]


def path_of(crate, file):
    return ROOT / "crates" / crate / (file if file.startswith("src/") else f"specs/{file}.antt")


def stands(name, text):
    form = rf"^\s*(abbrev |unfoldable )?pub (data |record |struct |enum )?{re.escape(name)}\b"
    return re.search(form, text, re.MULTILINE)


def missing_definitions():
    found, missing = 0, []
    for names, crate, file in definitions():
        path = path_of(crate, file)
        text = path.read_text() if path.exists() else ""
        for name in names:
            found += 1
            if not stands(name, text):
                missing.append(f"{name} does not stand in {path.relative_to(ROOT)}")
    return found, missing


def cited_headings():
    """Each heading that a file cites, with the file. A citation may name two: "A" and "B"."""
    for folder in ["crates", "tests", "tools", "docs", "include", "bindings/rust/src"]:
        for path in sorted((ROOT / folder).rglob("*")):
            if path.suffix in SOURCES and path.name != "rules.py" and not {"target", "out"} & set(path.parts):
                text = re.sub(r"\s*\n\s*(--|//!?|///|\*)? ?", " ", path.read_text())
                for cited in re.findall(r'docs/RULES\.md, ("[^"]+"(?:(?:,| and) "[^"]+")*)', text):
                    for heading in re.findall(r'"([^"]+)"', cited):
                        yield heading, path.relative_to(ROOT)


def main():
    headings = {re.sub(r" \(C-\d+\)$", "", line) for line in re.findall(r"^#+ (.*)$", TEXT, re.MULTILINE)}
    found, missing = missing_definitions()
    cited = list(cited_headings())
    missing += [f'{path} cites "{heading}"' for heading, path in cited if heading not in headings]
    for line in missing:
        print(f"rules: {line}")
    if missing or not found or not cited:
        sys.exit("rules: docs/RULES.md does not fit the code")
    print(f"rules: {found} definitions named by docs/RULES.md and {len(cited)} citations of its headings stand")


main()
