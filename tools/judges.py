#!/usr/bin/env python3
"""The judges of what the original does not do: copies of its text, each with one line or two made another.

    judges.py ORIGINAL NAME > copy.rs
    judges.py ORIGINAL > modules.rs

NAME is one of COPIES. Without it every copy is printed as a module of that name, which ends in `judge!();` (tests/judges.rs). Fails unless
the text has each line to be made another in exactly one place."""
import sys

# Lines of the original, and what stands there in a copy: no return at a step that gave no frame; the largest of several best periods.
STEPS_OVER = ("""                if new_samples == 0 {
                    return;
                }
""", "")
LARGEST = ("if best_period == 0 || diff * (best_period as u64) < min_diff * (period as u64) {",
           "if best_period == 0 || diff * (best_period as u64) <= min_diff * (period as u64) {")
COPIES = {"stepping_over": (STEPS_OVER,), "largest": (LARGEST,), "largest_stepping_over": (STEPS_OVER, LARGEST)}


def copy(text, name):
    for there, instead in COPIES[name]:
        if text.count(there) != 1:
            sys.exit(f"judges.py: the original has in {text.count(there)} places, not 1: {there.strip()}")
        text = text.replace(there, instead)
    return text


def main():
    with open(sys.argv[1], encoding="utf-8") as original:
        text = original.read()
    if len(sys.argv) > 2:
        sys.stdout.write(copy(text, sys.argv[2]))
        return
    for name in COPIES:
        sys.stdout.write(f"pub mod {name} {{\n{copy(text, name)}\njudge!();\n}}\n")


main()
