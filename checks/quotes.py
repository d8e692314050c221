#!/usr/bin/env python3
"""Checks that each example in the pages of `bindings/` is, line for line, in a file that is run.

Usage: quotes.py BINDINGS

For JavaScript that file is the package's README, which `tests/test_packages.py` runs. A page in
Chinese must have the examples, the commands and the code in tables of the English page, in the same
order. Each name in its text must occur in the English page, in `bindings/README.md`, or in the
module.
"""
import re
import sys
from itertools import zip_longest
from pathlib import Path

BLOCK = re.compile(r"^```(\w+)$\n(.*?)^```$", re.MULTILINE | re.DOTALL)
COMMAND = re.compile(r"^    .*$", re.MULTILINE)
ROW = re.compile(r"^\|.*$", re.MULTILINE)
CODE = re.compile(r"`([^`]+)`")
FILES = {
    "c": "c/example.c",
    "cpp": "c/example.cpp",
    "rust": "rust/src/lib.rs",
    "go": "go/example_test.go",
    "python": "python/chinese_number/__init__.py",
    "java": "java/Example.java",
    "js": "web/README.md",
}
# The languages of the examples on each page. Any other page of `bindings/` has none.
PAGES = {
    "c/README.md": ["c", "cpp"],
    "rust/README.md": ["rust"],
    "go/README.md": ["go"],
    "java/README.md": ["java"],
    "java/README.zh.md": ["java"],
    "python/README.md": ["python"],
    "python/README.zh.md": ["python"],
    "web/README.md": ["js"],
    "web/README.zh.md": ["js"],
}
# The files whose names a page in Chinese may use.
IN_CHINESE = {
    "java/README.zh.md": ["java/README.md"],
    "python/README.zh.md": [FILES["python"], "python/chinese_number/_codes.py"],
    "web/README.zh.md": ["web/chinese-number.d.mts"],
}


def lines_of(text):
    """The lines without indentation and without `//!`."""
    return [line.strip().removeprefix("//!").strip() for line in text.splitlines()]


def compare_examples(page, text, text_of):
    """Checks that the page has one example of each of its languages, copied from a file that is
    run. A block `pycon` is run as it is (tests/test_python_columns.py)."""
    blocks = [it for it in BLOCK.findall(text) if it[0] != "pycon"]
    languages = PAGES.get(page, [])
    if sorted(language for language, _ in blocks) != sorted(languages):
        found = [language for language, _ in blocks]
        sys.exit(f"quotes: {page} has blocks of {found} instead of one each of {languages}")
    for language, block in blocks:
        quoted, lines = lines_of(block), lines_of(text_of(FILES[language]))
        if not any(lines[at : at + len(quoted)] == quoted for at in range(len(lines))):
            sys.exit(f"quotes: {FILES[language]} has no such block as {page}:\n{block}")


def alike(text):
    """What must be the same in a page and its translation."""
    plain = BLOCK.sub("", text)
    rows = [CODE.findall(row) for row in ROW.findall(plain)]
    return [*BLOCK.findall(text), *COMMAND.findall(plain), *rows]


def compare_languages(page, text, text_of):
    """Checks that a page in Chinese matches the English page and uses no other names."""
    english = text_of(page.replace(".zh.md", ".md"))
    for one, other in zip_longest(alike(text), alike(english)):
        if one != other:
            sys.exit(f"quotes: {page} has {one!r}, but the page in English has {other!r}")
    named = set(re.findall(r"\w+", " ".join(CODE.findall(BLOCK.sub("", text))), re.ASCII))
    texts = [english, *map(text_of, ["README.md", *IN_CHINESE[page]])]
    known = set(re.findall(r"\w+", " ".join(texts), re.ASCII))
    if named - known:
        sys.exit(f"quotes: {page} has unknown names {sorted(named - known)}")


def main():
    if len(sys.argv) != 2 or sys.argv[1].startswith("-"):
        sys.exit(__doc__)
    bindings = Path(sys.argv[1])
    text_of = lambda name: (bindings / name).read_text(encoding="utf-8")
    pages = {path.relative_to(bindings).as_posix() for path in bindings.glob("**/README*.md")}
    if not {*PAGES, *IN_CHINESE} <= pages:
        sys.exit(f"quotes: there is no {sorted({*PAGES, *IN_CHINESE} - pages)}")
    for page in sorted(pages):
        compare_examples(page, text_of(page), text_of)
        if page in IN_CHINESE:
            compare_languages(page, text_of(page), text_of)
    print(f"quotes: the examples of {len(PAGES)} pages are in files that are run")


main()
