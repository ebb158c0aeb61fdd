#!/usr/bin/env python3
"""Wrong programs and wrong definitions that the prover must refuse, beside those of crates/NAME/must-fail, which `rt ci` tries.

    tools/refusals.py [--long] [--must-fail] [NAME...]

Each edit of crates/NAME/refused (a wrong program) and of crates/NAME/refused-definitions (a wrong definition, which the right
program does not meet) is laid into the must-fail/ of a copy of the repository, and `rt must-fail` tries it there, over what the
crate's own check left: RT_JOBS edits at a time, or as many as there are processors. NAME...: only these crates.

    --long        the edits of refused-long/ too.
    --must-fail   the edits of must-fail/ too.

An edit fails if it is not refused, if it is refused elsewhere than its first line says, if it cannot be applied or read, or if
all that is refused are proofs that name what it takes away. What each came to is told once all are tried.
"""
import os
import re
import shutil
import signal
import subprocess
import sys
import tempfile
from concurrent.futures import ThreadPoolExecutor

# The folders of edits: what an edit there is, where its files stand, and the option that it asks for.
PROGRAM, DEFINITION = "wrong programs", "wrong definitions"
FOLDERS = {
    "refused": (PROGRAM, "src/", None),
    "refused-definitions": (DEFINITION, "specs/", None),
    "refused-long": (PROGRAM, "src/", "--long"),
    "must-fail": (PROGRAM, "src/", "--must-fail"),
}
PARTS = ("src", "specs", "proofs")

# What `rt` tells of an edit, and the refusal that it names first: of an answer or a lemma, or of a goal with no proof.
TOLD = re.compile(r"rt: must-fail (\w+)/(\S+)\.edit: (.*)")
REFUSED = "refused, as it must be: "
ANSWER = re.compile(r"(?:\./)?(?P<path>\S+\.antt):\d+:\d+: error: `(?P<goal>[^`]+)`")
GOAL = re.compile(r"note: (?P<path>src/\S+\.rt):(?P<line>\d+):\d+: (?:it is not proved|`search` found no proof).*?\(`(?P<goal>[^`]+)`")
FUNCTION = re.compile(r"\s*(?:pub(?:\(crate\))? )?(?:const )?(?:extern \"C\" )?fn (\w+)")


class Edit:
    def __init__(self, crate, folder, file):
        self.crate, self.label, self.path = crate, file.removesuffix(".edit"), os.path.join("crates", crate, folder, file)
        self.kind, part, _ = FOLDERS[folder]
        with open(self.path, encoding="utf-8") as text:
            self.lines = text.read().split("\n")
        if not all(line.startswith("file: " + part) for line in self.lines if line.startswith("file:")):
            sys.exit(f"refusals: {self.path} changes a file that does not stand in {part}")

    def judged(self, told):
        """Whether it is refused as it must be, and what to say."""
        if not told.startswith(REFUSED):
            return False, told
        place = place_of(self.crate, told.removeprefix(REFUSED))
        if re.search(re.escape(place) + r"\b", self.lines[0]):
            return True, f"refused at {place}"
        return False, f"refused at {place}, NOT WHERE ITS FIRST LINE SAYS"


def place_of(crate, refusal):
    """What is refused: `GOAL` of FUNCTION, or `LEMMA` in FILE."""
    if found := ANSWER.match(refusal):
        folder, file = os.path.split(found["path"])
        is_answer = file in ("Answers.antt", "Invariants.antt", "Proof.antt")
        return f"`{found['goal']}` of {os.path.basename(folder)}" if is_answer else f"`{found['goal']}` in {file}"
    if found := GOAL.match(refusal):
        with open(os.path.join("crates", crate, found["path"]), encoding="utf-8") as text:
            lines, end = text.readlines(), int(found["line"])
        # the line may be that of an attribute, which takes one line or more
        while lines[end - 1].lstrip().startswith("#["):
            while not lines[end - 1].rstrip().endswith("]"):
                end += 1
            end += 1
        above = [FUNCTION.match(line) for line in lines[:end]]
        return f"`{found['goal']}` of {[name[1] for name in above if name][-1]}"
    return f"a place that has no name ({refusal})"


def edits_of(name, flags):
    edits = []
    for folder, (_, _, option) in FOLDERS.items():
        path = os.path.join("crates", name, folder)
        if os.path.isdir(path) and (option is None or option in flags):
            edits += [Edit(name, folder, file) for file in sorted(os.listdir(path)) if file.endswith(".edit")]
    return edits


def lay_out(where, names, edits):
    """Copies the repository, with these edits in its crates' must-fail/."""
    for file in ("crates.txt", "HANDLES"):
        if os.path.isfile(file):
            shutil.copy(file, where)
    for name in names:
        for part in PARTS:
            own = os.path.join("crates", name, part)
            if os.path.isdir(own):
                shutil.copytree(own, os.path.join(where, own))
    for edit in edits:
        folder = os.path.join(where, "crates", edit.crate, "must-fail")
        os.makedirs(folder, exist_ok=True)
        if os.path.exists(os.path.join(folder, edit.label + ".edit")):
            sys.exit(f"refusals: two edits of {edit.crate} are named {edit.label}")
        shutil.copy(edit.path, folder)


def unproved(where, name):
    """What `rt check` says of a crate that is not proved as it stands; nothing of one that is."""
    ran = subprocess.run(["rt", "check"], cwd=os.path.join(where, "crates", name), stdout=subprocess.PIPE, stderr=subprocess.STDOUT, text=True)
    return ran.stdout if ran.returncode else ""


def try_all(names, edits):
    """Tries the edits. Answers what `rt` tells of each, by its crate and its label."""
    with tempfile.TemporaryDirectory(prefix="refusals-") as where:
        lay_out(where, names, edits)
        crates = list(dict.fromkeys(edit.crate for edit in edits))
        with ThreadPoolExecutor(int(os.environ.get("RT_JOBS") or os.cpu_count())) as pool:
            for name, said in zip(crates, pool.map(lambda name: unproved(where, name), crates)):
                if said:
                    sys.exit(f"refusals: {name} is not proved as it stands:\n{said}")
        ran = subprocess.run(["rt", "must-fail", *crates], cwd=where, stdout=subprocess.PIPE, stderr=subprocess.STDOUT, text=True)
    told, last = {}, None
    for line in ran.stdout.splitlines():
        if found := TOLD.match(line):
            last = found[1], found[2]
            told[last] = found[3]
        elif last and not line.startswith("rt: "):
            told[last] += "\n" + line
        else:
            print(line, file=sys.stderr)
    return told


def main():
    words = sys.argv[1:]
    flags, chosen = {w for w in words if w.startswith("-")}, [w for w in words if not w.startswith("-")]
    with open("crates.txt", encoding="utf-8") as text:
        names = [line.split(":")[0].split()[0] for line in text if ":" in line.split("#")[0]]
    if not flags <= {option for _, _, option in FOLDERS.values() if option} or not set(chosen) <= set(names):
        sys.exit(__doc__)
    signal.signal(signal.SIGTERM, lambda *_: sys.exit("refusals: stopped"))
    edits = [edit for name in names if name in (chosen or names) for edit in edits_of(name, flags)]
    print(f"refusals: {len(edits)} edits are tried, and then told", flush=True)
    told = try_all(names, edits) if edits else {}
    refused, failed = {PROGRAM: 0, DEFINITION: 0}, []
    for edit in edits:
        good, said = edit.judged(told.get((edit.crate, edit.label), "NOT TRIED"))
        print(f"refusals: {edit.crate}/{edit.label}: {said}")
        if good:
            refused[edit.kind] += 1
        else:
            failed.append(f" {edit.crate}/{edit.label}")
    counts = ", ".join(f"{count} {kind} refused" for kind, count in refused.items())
    print(f"refusals: {counts}, {len(failed)} failed{''.join(failed)}")
    sys.exit(1 if failed else 0)


main()
