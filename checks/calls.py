#!/usr/bin/env python3
"""Checks the 96 calls by name and the implementations of `Whole` against the texts in calls.txt.

Usage: calls.py TOP [--write]

- Each source that calls.txt names must be exactly what its texts generate. So each call has the
  documentation, the signature, the contract and the body that its name says. --write generates the
  sources.
- The crate of a call and `chinese_number` must each re-export it once, under its own name. The test
  of the Rust crate in `bindings/` that gives each call a type must name each call once.
"""
import re
import sys
from pathlib import Path

TEXTS = Path(__file__).resolve().parent / "calls.txt"
# The examples of a method: a reader's numeral and its value, a printer's number and its text, and
# the printer's number and text for types of 64 bits or more.
METHODS = {
    "Low": "一億二 120_000 100_000 一億 100_000 一億",
    "TenThousand": "一億二 120_000_000 100_000 十萬 1_000_000_000_000 一兆",
    "Middle": "一億二 120_000_000 100_000 十萬 1_000_000_000_000 一萬億",
    "High": "一億二 120_000_000 100_000 十萬 10_000_000_000_000_000 一兆",
}
OF_NARROW = "一百二 120 12 十二"
EACH = re.compile(r"^--- ([\w ]+): ([\w ]+?)(?: by ([\w ]+))?\n", re.MULTILINE)
HEAD = "// Made by checks/calls.py."
RE_EXPORTED = re.compile(r"^pub use (\w+)::(?:\{([^}]*)\}|([^;{]*));", re.MULTILINE)
RENAMED = re.compile(r"^\s*(?:pub(?:\([^)]*\))? use [^;]*\bas\b|use [^;]*\bas from_)", re.MULTILINE)


def fill(text, names):
    return re.sub(r"\{(\w+)\}", lambda name: names.get(name[1], name[0]), text)


def names_of_method(method):
    return {"Method": method, "method": re.sub(r"\B(?=[A-Z])", "_", method).lower()}


def names_of(integer, method):
    """The values of the placeholders in a text, for a type and a method."""
    bits = int(integer[1:].replace("size", "64"))
    numeral, value, *shown = (OF_NARROW if bits < 32 else METHODS[method]).split()
    names = {"type": integer, "bits": str(bits), "numeral": numeral, "value": value}
    names["number"], names["text"] = shown[2:] if bits > 32 else shown[:2]
    names["is_narrow"] = "true" if bits < 32 else "false"
    names["greatest"] = str(2 ** (bits - (integer[0] == "i")) - 1)
    names.update(names_of_method(method))
    return {**names, "_method": "" if bits < 32 else f"_{names['method']}"}


def made():
    """For each source that is made of texts: its beginning, and in order the name of each text with
    what it generates."""
    _, *parts = re.split(r"^=== (.*)\n", TEXTS.read_text(encoding="utf-8"), flags=re.MULTILINE)
    texts, found = {name: text.strip("\n") for name, text in zip(parts[::2], parts[1::2])}, {}
    for head, text in texts.items():
        path, _, methods = head.partition(" by ")
        for method in (methods or "Low").split() if path.startswith("crates/") else ():
            names = names_of_method(method)
            start, *each = EACH.split(fill(text, names) + "\n")
            found[fill(path, names)] = start, [
                (each[at], fill(texts[each[at]], names_of(integer, one)))
                for at in range(0, len(each), 4)
                for integer in each[at + 1].split()
                for one in (each[at + 2] or "Low").split()
            ]
    return found


def names_of_texts():
    """The name of the text that makes each call and implementation, by its file and name."""
    heads = re.compile(r"^(?:pub fn|impl Whole for) (\w+)", re.MULTILINE)
    parts = ((path, part) for path, (_, parts) in made().items() for part in parts)
    return {(path, heads.search(part)[1]): name for path, (name, part) in parts}


def compare(what, found, wanted):
    if sorted(found) != sorted(wanted):
        missing, other = set(wanted) - set(found), set(found) - set(wanted)
        twice = {name for name in found if found.count(name) > 1}
        faults = f"missing {sorted(missing)}, not a call {sorted(other)}, twice {sorted(twice)}"
        sys.exit(f"calls: {what}: {faults}")


def re_exported(root):
    """The calls that a crate re-exports, each with the module or crate that it comes from."""
    for where, several, one in RE_EXPORTED.findall(root.read_text(encoding="utf-8")):
        for name in re.split(r",\s*", (several or one).strip().rstrip(",")):
            if "from_" in name:
                yield f"{where}::{name}"


def main():
    if sys.argv[2:] not in ([], ["--write"]) or len(sys.argv) < 2 or sys.argv[1].startswith("-"):
        sys.exit(__doc__)
    top, of_modules, of_crates = Path(sys.argv[1]), {}, []
    for path, (start, parts) in made().items():
        text = "\n".join([HEAD, start.rstrip("\n"), *("\n" + part for _, part in parts), ""])
        source, crate = top / path, Path(path).parts[1]
        if len(sys.argv) == 3:
            source.write_text(text, encoding="utf-8")
        if source.read_text(encoding="utf-8") != text:
            sys.exit(f"calls: {path} differs from its texts; run calls.py {top} --write")
        calls = re.findall(r"^pub fn (\w+)", text, re.MULTILINE)
        of_modules.setdefault(crate, []).extend(f"{source.stem}::{name}" for name in calls)
        of_crates += [f"{crate}::{name}" for name in calls]
    for crate in ("cn_calls", "chinese_number"):
        root = top / "crates" / crate / "src/lib.rt"
        compare(f"re-exported by {crate}", [*re_exported(root)], of_modules.get(crate, of_crates))
    for path in top.glob("crates/*/src/**/*.rt"):
        if RENAMED.search(path.read_text(encoding="utf-8")):
            sys.exit(f"calls: {path}: a call is renamed")
    test = (top / "bindings/rust/tests/interface.rs").read_text(encoding="utf-8")
    typed = re.findall(r"\bfrom_(?:chinese_to_\w+|\w+_to_chinese\w*)", test)
    compare("named in interface.rs", typed, [name.partition("::")[2] for name in of_crates])
    print(f"calls: {len(of_crates)}, each equal to its text and re-exported under its own name")


if __name__ == "__main__":
    main()
