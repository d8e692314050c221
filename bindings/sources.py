#!/usr/bin/env python3
"""Prints a single checksum of everything that the library for other languages is made of.

Usage: sources.py

This is, for `cn_c` and each crate that it needs, its line in crates.txt, its sources, its
definitions and its proofs; and the scripts that build the modules and the C source, with the program
whose output is recorded in `dist/`. Only names and contents count, and all line ends count as line
feeds.
"""
import hashlib
from pathlib import Path

TOP = Path(__file__).resolve().parent.parent
LIBRARY = "cn_c"
KINDS = (("src", "*.rt"), ("specs", "*.antt"), ("proofs", "*.antt"))
SCRIPTS = (
    "bindings/library.sh",
    "bindings/web/build.sh",
    "bindings/source/source.py",
    "bindings/source/chinese_number.c.in",
    "bindings/source/same.c",
)


def read(path):
    """The bytes of a text, with line feeds as line ends."""
    return path.read_bytes().replace(b"\r\n", b"\n")


def lines_below(name):
    """The lines of crates.txt for a crate and for each crate that it needs."""
    text = read(TOP / "crates.txt").decode()
    lines = {line.split(":")[0].split()[0]: line for line in text.splitlines() if line.strip()}
    found, left = {}, [name]
    while left:
        name = left.pop()
        if name in lines and name not in found:
            found[name] = lines[name]
            left += lines[name].partition(":")[2].split()
    return found


def files_of(crate):
    folder = TOP / "crates" / crate
    for kind, pattern in KINDS:
        yield from (folder / kind).rglob(pattern)


def sum_of_sources():
    crates = lines_below(LIBRARY)
    files = [TOP / script for script in SCRIPTS]
    files += [path for crate in crates for path in files_of(crate)]
    named = sorted((path.relative_to(TOP).as_posix(), path) for path in files)
    lines = sorted(crates.values())
    lines += [f"{hashlib.sha256(read(path)).hexdigest()}  {name}" for name, path in named]
    return hashlib.sha256("\n".join(lines).encode()).hexdigest()


if __name__ == "__main__":
    print(sum_of_sources())
