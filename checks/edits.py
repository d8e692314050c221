#!/usr/bin/env python3
"""Checks what wrong bodies and laws need besides a proof.

Usage: edits.py CRATES

- No two edits of a crate have the same name, the old text of each occurs once in its file, and each
  fault in the table of docs/DESIGN.md is an edit.
- Each law with premises has a worked instance that satisfies all of them: a definition of the law's
  name in a file `proofs/*Examples.antt`. A law is a function that does nothing in `src/laws.rt` or
  `src/laws/`. For laws in `signed.rt`, `typed.rt` and `typed_signed.rt` the name of the instance
  begins with the name of the file; for a named clause it ends with the name of the clause.
"""
import re
import sys
from pathlib import Path

import edit_files
from items import LAW, without_comments
from known import split

CLAUSE = re.compile(
    r"^    (requires|ensures)(?: (\w+))? \{(.*?)\}(?=\n    (?:re|en)|\n?\Z)", re.M | re.S
)
BINDERS = re.compile(r"(?:\s*\([\w \n]+ : .*\))+\s*", re.DOTALL)


def parts_of(statement):
    """The parts of a statement between arrows, without those in brackets."""
    parts = split(statement.replace(",", ";").replace("→", ","))
    return [re.sub(r"let .*? in\b", "", it, flags=re.DOTALL) for it in parts]


def has_premises(kind, statement):
    return kind == "requires" or any(not BINDERS.fullmatch(it) for it in parts_of(statement)[:-1])


def instances_of(file):
    """The names of the instances that the laws of a file need."""
    prefix = f"{file.stem}-" if file.stem in ("signed", "typed", "typed_signed") else ""
    for law, text in LAW.findall(without_comments(file.read_text(encoding="utf-8"))):
        named = [it for it in CLAUSE.findall(text) if has_premises(it[0], it[2])]
        for name in dict.fromkeys(name for _, name, _ in named):
            yield f"{prefix}{law}" + (f"-{name}" if name else "")


def faults_of_laws(crates):
    """The laws with premises that have no instance, and all instances that laws need."""
    files = [*crates.glob("*/src/laws.rt"), *crates.glob("*/src/laws/*.rt")]
    wanted = [
        (file.relative_to(crates).parts[0], it) for file in files for it in instances_of(file)
    ]
    found = " ".join(
        it.read_text(encoding="utf-8") for it in crates.glob("*/proofs/*Examples.antt")
    )
    names = set(re.findall(r"^([\w-]+) :", found, re.MULTILINE))
    return [
        f"{crate}: the law {it} has no instance" for crate, it in sorted(wanted) if it not in names
    ], wanted


def stale_edits(crates):
    """The edits whose old text does not occur once in its file."""
    for crate in edit_files.crates_with_edits(crates):
        for edit in edit_files.edits_of(crate):
            try:
                edit_files.applied(edit, (crate / edit.file).read_text(encoding="utf-8"))
            except (OSError, ValueError) as fault:
                yield f"{crate.name}: {edit.name}: {fault}"


def faults_of_edits(crates):
    """The names that two edits of a crate share, and the faults of DESIGN that are no edits; then
    all edits."""
    edits = [
        (crate.name, edit.name)
        for crate in edit_files.crates_with_edits(crates)
        for edit in edit_files.edits_of(crate)
    ]
    design = (crates.parent / "docs/DESIGN.md").read_text(encoding="utf-8")
    named = re.findall(r"^\|.*\| `(\w+)` `(\w+)` \|$", design, re.MULTILINE)
    twice = sorted({it for it in edits if edits.count(it) > 1})
    faults = ["{}: two edits have the name {}".format(*it) for it in twice]
    return (
        faults
        + ["{}: docs/DESIGN.md names no edit: {}".format(*it) for it in named if it not in edits],
        edits,
    )


def main():
    if len(sys.argv) != 2 or sys.argv[1].startswith("-"):
        sys.exit(__doc__)
    crates = Path(sys.argv[1])
    wrong, edits = faults_of_edits(crates)
    missing, instances = faults_of_laws(crates)
    if faults := [*stale_edits(crates), *wrong, *missing]:
        sys.exit("edits:\n" + "\n".join(faults))
    print(f"edits: {len(edits)}, and {len(instances)} instances of laws that have premises")


main()
