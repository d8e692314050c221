#!/usr/bin/env python3
"""Fills in the names of the laws on the pages of promises, and checks them.

Usage: laws.py --check | --write [TOP]

A law is a public function that does nothing in `src/laws.rt` or `src/laws/` of a crate. Users of
the library find its laws in `chinese_number::laws`: each public module there is a group of laws,
and so is each private module and each crate from which `laws.rt` re-exports some. The laws of each
crate in BESIDE are a group on the other page.

Each group has one place on its page, `<!--laws:GROUP--> .. <!--end-->`, or shares one with others.
It holds the names of those laws that the page names nowhere else. --write fills the places. --check
fails if one is filled otherwise, if a group has no place, if a law is in no group, if a page has a
name in code, with an underscore, that no function, call, file or folder of `crates/` has, and if no
page names a grammar of a library by its public name: the laws of grammars hold of each.
"""
import re
import sys
from collections import Counter
from pathlib import Path

from items import LAW, without_comments

LIBRARY = "chinese_number::laws"
PAGES = ("docs/PROMISES.md", "docs/PROMISES-BINDINGS.md")
BESIDE = ("numeral", "cn_figures", "cheque", "cn_columns", "cn_speech", "cn_c")
USE = re.compile(r"^pub use ([\w:]+)::(?:\{([^}]*)\}|(\w+));", re.MULTILINE)
GRAMMAR = re.compile(r"^(?:pub type (\w+) = \w+;\n\n)?impl Grammar for", re.MULTILINE)
PLACE = re.compile(r"(<!--laws:([\w,]+)-->).*?(<!--end-->)")


def text_of(path):
    return path.read_text(encoding="utf-8")


def files_of(crates):
    """Of each file of laws, by its module's path: its laws, what it re-exports from where, and its
    public modules."""
    found = {}
    for file in sorted([*crates.glob("*/src/laws.rt"), *crates.glob("*/src/laws/*.rt")]):
        crate, _, *modules = file.relative_to(crates).with_suffix("").parts
        text = without_comments(text_of(file))
        uses = [(path, re.findall(r"\w+", one or more)) for path, more, one in USE.findall(text)]
        public = re.findall(r"^pub mod (\w+);", text, re.MULTILINE)
        laws = [name for name, _ in LAW.findall(text)]
        found["::".join([crate, *modules])] = laws, uses, public
    return found


def exported(path, files):
    """The laws that users find in a module, by the paths where they are written."""
    laws, uses, _ = files[path]
    homes = [(it if it in files else f"{path}::{it}", names) for it, names in uses]
    return [f"{home}::{law}" for home, names in [(path, laws), *homes] for law in names]


def groups_of(files):
    """The laws of each group of the library, and of each other, by the paths where they are."""
    groups = {module: exported(f"{LIBRARY}::{module}", files) for module in files[LIBRARY][2]}
    for law in exported(LIBRARY, files):
        group = law.split("::")[2 if law.startswith(LIBRARY) else 0]
        groups.setdefault(group, []).append(law)
    return groups, {crate: exported(f"{crate}::laws", files) for crate in BESIDE}


def filled(text, groups):
    """A page with its places filled, and what is wrong with it."""
    laws = {group: [law.split("::")[-1] for law in found] for group, found in groups.items()}
    counts = Counter(law for found in laws.values() for law in found)
    named = set(re.findall(r"`([\w:]+)`", PLACE.sub("", text)))
    places = Counter(group for place in PLACE.findall(text) for group in place[1].split(","))
    faults = [f"{it} has {places[it]} places" for it in {**laws, **places} if places[it] != 1]
    faults += [f"there is no group {group}" for group in places if group not in laws]
    faults += [f"{law} is a law of several groups" for law in named if counts[law] > 1]

    def fill(place):
        found = ((group, law) for group in place[2].split(",") for law in laws.get(group, ()))
        left = [law for group, law in found if not {law, f"{group}::{law}"} & named]
        return place[1] + ", ".join(f"`{law}`" for law in dict.fromkeys(left)) + place[3]

    return PLACE.sub(fill, text), faults


def unknown_names(text, crates):
    """The names in code, with an underscore, that `crates/` does not have."""
    files = [*crates.glob("*/src/**/*.rt")]
    known = {path.stem for path in files} | {path.name for path in crates.iterdir()}
    known.update(it for path in files for it in re.findall(r"(?:\bfn |\.)(\w+)", text_of(path)))
    return sorted({*re.findall(r"`(?:\w+::)*([a-z]\w*_\w+)`", text)} - known)


def unnamed_grammars(texts, crates):
    """The files of libraries with a grammar whose public name no page has."""
    for root in sorted(crates.glob("*/src/lib.rt")):
        for path in sorted(root.parent.rglob("*.rt")):
            if any(f"`{name}`" not in texts for name in GRAMMAR.findall(text_of(path))):
                yield path.relative_to(crates)


def main():
    if sys.argv[1:2] not in (["--check"], ["--write"]) or len(sys.argv) > 3:
        sys.exit(__doc__)
    top = Path(*sys.argv[2:]) if sys.argv[2:] else Path(__file__).resolve().parent.parent
    files, faults = files_of(top / "crates"), []
    pages = dict(zip(PAGES, groups_of(files)))
    there = {law for groups in pages.values() for found in groups.values() for law in found}
    written = {f"{path}::{law}" for path, (laws, _, _) in files.items() for law in laws}
    for page, groups in pages.items():
        text = text_of(top / page)
        wanted, of_page = filled(text, groups)
        if sys.argv[1] == "--write":
            (top / page).write_text(wanted, encoding="utf-8")
        elif text != wanted:
            of_page.append("its places are filled otherwise: laws.py --write fills them")
        of_page += [f"nothing has the name {it}" for it in unknown_names(wanted, top / "crates")]
        faults += [f"{page}: {fault}" for fault in of_page]
    faults += [f"{law} is not a law that users find" for law in sorted(written ^ there)]
    texts = "".join(text_of(top / page) for page in PAGES)
    faults += [f"no page names a grammar of {it}" for it in unnamed_grammars(texts, top / "crates")]
    if faults:
        sys.exit("laws:\n" + "\n".join(faults))
    print(f"laws: {len(there)}, each named on its page")


if __name__ == "__main__":
    main()
