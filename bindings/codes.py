#!/usr/bin/env python3
"""Writes the choices, statuses, limits and texts of the library in the files of each language.

Usage: codes.py [--check]

The definitions and contracts of cn_c give the codes and limits, codes.txt names and explains them,
and codes.in says how each language has them. --check writes nothing, and reports each file that
differs. Both also compare what people write in several places: REPEATED, and the texts of refusals
with their definitions.
"""
import re
import sys
from itertools import groupby, zip_longest
from pathlib import Path
from textwrap import wrap
from typing import NamedTuple

TOP = Path(__file__).resolve().parent.parent
CRATE = TOP / "crates/cn_c"
# What gives a code to a name there: a constant, a function, or the place in a list.
CONSTANT = re.compile(r"^(?:CN_|pub const )(\w+)(?:: u32)? = (\d+);?$", re.M)
FAULT = re.compile(r"^(?:numeral|misread|quantity)_code (\w+) = (\d+)$", re.M)
LIST = re.compile(
    r"^(kind|way|script|case|unit|quantity_form|input|language)s =([^=]*?)∷ \[\]", re.M
)
# The members that have another name in these lists.
RENAMED = {
    ("script", "simple"): "simplified",
    ("language", "simplified"): "simplified_chinese",
    ("language", "traditional"): "traditional_chinese",
}
# The groups whose codes do not follow one another.
APART = "form", "flag", "option", "speech_option", "limit", "text", "status_text"
LIMIT = re.compile(r"(?:≤ |MOST_\w+: usize = )(\d+)")
# The definitions of the texts of refusals; some are followed by a position.
OF_NUMBERS, OF_OTHERS = "crates/cn_core/specs/Refusal.antt", "crates/*/specs/ErrorText.antt"
TEXT = re.compile(r'codes "([a-z][^"(]+?)(?: \(.*)?"')
NO_REFUSAL = "out of memory"
LISTED = "docs/RULES.md", "crates/numeral/src/main.rt"  # the files that list those of numbers
# What people write in several places: how it is found, and in which files. Once the project has an
# address, it goes into package.json, Cargo.toml and METADATA of bindings/python/build_wheel.py.
OF_JAVA = "bindings/java/src/main/java/chinesenumber/ChineseNumbers.java"
AUTHORS = "authors", r"^Copyright \(c\) \d+ (.*)"
PARTS = r"^#define CN_VERSION_MAJOR (\d+)\n#define \w+MINOR (\d+)\n#define \w+PATCH (\d+)"
REPEATED = {
    AUTHORS: "LICENSE",
    ("authors", r'^authors = \["(.*)"\]'): "bindings/rust/Cargo.toml",
    ("authors", r'^  "author": "(.*)"'): "bindings/web/package.json",
    ("version", r"\A(?:.*\n)*?## ([\d.]+)"): "CHANGELOG.md",
    ("version", r'^#define CN_VERSION "(.*)"'): "bindings/c/chinese_number.h",
    ("parts of the version", PARTS): "bindings/c/chinese_number.h",
    ("version", r'^__version__ = "(.*)"'): "bindings/python/chinese_number/__init__.py",
    ("version", r'^version = "(.*)"'): "bindings/rust/Cargo.toml",
    ("version", r"^export const VERSION = '(.*)'"): "bindings/web/chinese-number.mjs",
    ("version", r'^  "version": "(.*)"'): "bindings/web/package.json",
    ("version", r"^  <version>(.*)</version>"): "bindings/java/pom.xml",
    ("version", r' VERSION = "(.*)"'): OF_JAVA,
    ("version", r"chinese.number[a-z-_]*-(\d[\d.]*\d)\b"): (
        "bindings/README.md bindings/web/README.md bindings/web/README.zh.md "
        "bindings/java/README.md bindings/java/README.zh.md"
    ),
    ("longest text", r"\b(4,\d{3},\d{3},\d{3})\b"): (
        "docs/DIFFERENCES.md bindings/codes.txt bindings/source/README.md bindings/go/README.md "
        "bindings/go/doc.go bindings/python/chinese_number/__init__.py bindings/rust/src/abi.rs "
        "bindings/rust/src/lib.rs"
    ),
}
# A file of which only a part is made.
PART = re.compile(r"(.* by bindings/codes\.py, from here[^\n]*\n).*?([^\n]* up to here\..*)", re.S)
INDENTED = re.compile(r"(\s*)(.*)")
# How the languages of messages are called where they are words.
TAGS = {"english": "en", "simplified_chinese": "zh-Hans", "traditional_chinese": "zh-Hant"}


class Language(NamedTuple):
    """How a language writes a comment, a member and a call in it, and names."""

    first: str
    rest: str
    last: str
    member: str
    call: str
    listed: str = ""  # a member with its text, in the comment on a group
    opening: str = ""  # of the comment on a group
    names: dict = {}  # those that are not as in codes.txt
    types: dict = {}
    prefixed: tuple = ()  # the groups whose name begins those of their members


JAVASCRIPT = Language("/**\n * ", " * ", "\n */", "'{camel}'", "{camel}", "- '{camel}': {text}.")
LANGUAGES = {
    "c": Language(
        "/* ",
        " * ",
        " */",
        "CN_{NAME}",
        "{c}",
        prefixed=("doubt", "fault", "phrase_kind", "phrase_state"),
    ),
    "cpp": Language(
        *("/* ", " * ", " */", "{name}", "{name}"), names={"delete": "erase", "no_doubt": "none"}
    ),
    "rust": Language(
        *("/// ", "/// ", "", "`{Name}`", "`{name}`"),
        names={"simplified": "simple"},
        types={"script": "ChineseVariant", "case": "ChineseCase"},
    ),
    "go": Language(
        *("// ", "// ", "", "{Name}", "{Name}"),
        opening="{Type} is ",
        names={"not_utf8": "not_UTF8"},
        types={"kind": "kind", "quantity_form": "Form"},
        prefixed=("input", "doubt", "fault", "phrase_kind", "phrase_state"),
    ),
    "java": Language(
        *("/** ", " * ", " */", "{@link {Type}#{NAME}}", "{@link ChineseNumbers#{camel}}"),
        types={"unit": "NumeralUnit"},  # Kotlin has a Unit
    ),
    "python": Language('"""', "", '"""', "{NAME}", "{name}", "{NAME}: {text}."),
    "js": JAVASCRIPT,
    "ts": JAVASCRIPT,
}


class Row(NamedTuple):
    name: str
    code: int = 0
    text: str = ""


class Group(NamedTuple):
    name: str
    about: dict  # by language; what all have is that of ""
    rows: list


def read(path):
    return path.read_text(encoding="utf-8")


def parts_of(text, mark):
    """What is before the first mark at the start of a line, and, for each mark, its line and what
    follows."""
    first, *parts = re.split(f"^{mark}", text, flags=re.M)
    return first, [part.partition("\n")[::2] for part in parts]


def words(text):
    return " ".join(text.split())


def snake(name):
    return re.sub(r"\B(?=[A-Z])", "_", name).lower()


def pascal(name):
    return "".join(it[:1].upper() + it[1:] for it in name.split("_"))


def sentence(text):
    """A text as a sentence, unless it has no word."""
    return f"{text[0].upper()}{text[1:]}." if re.search("[a-z]{2}", text) else text


def fill(text, fields):
    """The text with the values of the fields whose names are in braces."""
    return re.sub(r"\{(\w+)\}", lambda name: fields.get(name[1], name[0]), text)


def none_of(group):
    """The name of the member for none, if the group has one."""
    return "plain" if group == "form" else f"no_{group}"


def named(language, group, name):
    """The name of a member in a language, in lower case and with underscores."""
    own = language.names.get(name, name)
    return f"{group}_{own}" if group in language.prefixed and name != none_of(group) else own


def type_of(language, group):
    return language.types.get(group, pascal(group))


def in_c(group, name):
    return named(LANGUAGES["c"], group, name).upper()


def codes():
    """The code of each member, by its name in C."""
    text = "".join(map(read, [*CRATE.glob("specs/*.antt"), CRATE / "src/status.rt"]))
    found = CONSTANT.findall(text)
    found += [(in_c("fault", snake(name)), code) for name, code in FAULT.findall(text)]
    for group, names in LIST.findall(text):
        for code, name in enumerate(map(snake, re.findall(r"(\w+)\s*(?:∷|$)", names))):
            found.append((in_c(group, RENAMED.get((group, name), name)), str(code)))
    if others := {*found} - {*dict(found).items()}:
        sys.exit(f"codes: {CRATE} has other codes too for {sorted(others)}")
    return dict(found)


def rows_of(group, members, known):
    """The members of a group, given the codes that are known."""
    for member in members:
        head, _, text = words(member).partition(":")
        name, _, code = head.partition(" = ")
        if code.endswith(".rt"):
            (code,) = set(LIMIT.findall(read(CRATE / "src" / code)))
        elif not code:
            code = 0 if "text" in group else known.get(in_c(group, name))
        if code is None:
            sys.exit(f"codes: {CRATE} has no code for {name} of {group}")
        yield Row(name, int(code), text.strip())


def groups_by_name():
    """The groups of codes.txt."""
    known, groups = codes(), {}
    for name, part in parts_of(read(TOP / "bindings/codes.txt"), "=== ")[1]:
        about, *members = re.split(r"^- ", part, flags=re.M)
        about, *more = map(words, re.split(r"^@", about, flags=re.M))
        rows = list(rows_of(name, members, known))
        found = [it.code - rows[0].code for it in rows]
        if name not in APART and found != list(range(len(rows))):
            sys.exit(f"codes: the codes of {name} are not in order: {rows}")
        groups[name] = Group(name, {"": about, **dict(it.split(" ", 1) for it in more)}, rows)
    if left := set(known) - {in_c(it.name, row.name) for it in groups.values() for row in it.rows}:
        sys.exit(f"codes: codes.txt has no member for {left}")
    return groups


class Writer:
    """Writes the groups in a language."""

    def __init__(self, name, groups):
        self.name, self.language, self.groups = name, LANGUAGES[name], groups
        self.texts = {it.name: it.text for it in groups["text"].rows}

    def names(self, group):
        own = type_of(self.language, group)
        return {"group": group, "GROUP": group.upper(), "Type": own}

    def of_row(self, group, row):
        """What can be in braces in a line for a member."""
        own = named(self.language, group, row.name)
        word = TAGS.get(row.name, "none" if row.name == none_of(group) else row.name)
        fields = {"name": own, "NAME": own.upper(), "Name": pascal(own), "C": in_c(group, row.name)}
        fields.update(word=word, camel=word[0] + pascal(word)[1:])
        fields.update(code=str(row.code), next=str(row.code + 1), **self.names(group))
        text = self.told(group, row.text or self.texts.get(row.name, ""))
        return {**fields, "text": text, "doc": [text and sentence(text)]}

    def told(self, group, text):
        """A text of a group, with the names of this language in place of those in braces."""

        def shown(found):
            name, _, c = found[1].partition("|")
            if c:
                return fill(self.language.call, {**self.of_row("", Row(name)), "c": c})
            for it in (self.groups[group], *self.groups.values()):
                if name in (row.name for row in it.rows):
                    return fill(self.language.member, self.of_row(it.name, Row(name)))
            return sys.exit(f"codes: {group} names {name}, which is no member")

        return re.sub(r"\{([^}]*)\}", shown, text)

    def of_group(self, group, rows):
        """What can be in braces in a line for a group. Its comment is the whole, the beginning, or
        the whole with the members."""
        fields = {**self.names(group.name), "count": str(len(rows))}
        about = self.told(group.name, f"{group.about['']} {group.about.get(self.name, '')}".strip())
        if self.language.opening:
            about = fill(self.language.opening, fields) + about[0].lower() + about[1:]
        listed = [fill(self.language.listed, self.of_row(group.name, it)) for it in rows if it.text]
        fields.update(doc=[about], brief=[re.sub(r"[.:] .*", ".", about)])
        return {**fields, "docs": [about, "", *listed] if any(listed) else [about]}

    def comment(self, texts, indent):
        """A comment of paragraphs, in lines of at most 100 characters."""
        first, rest, last = self.language[:3]
        how = {"initial_indent": rest, "subsequent_indent": rest, "break_on_hyphens": False}
        lines = [wrap(text, 97 - len(indent), **how) or [rest.rstrip()] for text in texts]
        text = first + "\n".join(sum(lines, []))[len(rest) :] + last
        return re.sub("^(?=.)", indent, text, flags=re.M)

    def line(self, line, fields):
        """A line, filled in. None if it is a comment without a text."""
        indent, word = INDENTED.match(line).groups()
        texts = fields.get(word.strip("{}"))
        if not isinstance(texts, list):
            return fill(line, fields)
        return self.comment(texts, indent) if any(texts) else None

    def lines(self, group, rows, template):
        """The lines of a group, as these lines of codes.in have it."""
        each = [self.of_row(group.name, row) for row in rows]
        for mark, some in groupby(template, lambda it: it[:2] if it[:2] in ("- ", "+ ") else ""):
            some = [line[len(mark) :] for line in some]
            if mark == "+ ":
                yield from together(some[0], each)
            else:
                of = each if mark else [self.of_group(group, rows)]
                yield from (self.line(line, fields) for fields in of for line in some)

    def blocks(self, blocks):
        """What a file has of all groups."""
        for names, template in blocks:
            for name in names.split():
                group = self.groups[name.rstrip("*")]
                none = None if name.endswith("*") else none_of(group.name)
                rows = [it for it in group.rows if it.name != none]
                lines = self.lines(group, rows, template.rstrip("\n").split("\n"))
                yield "\n".join(it for it in lines if it is not None) + "\n"


def together(template, each):
    """What a line becomes for all members, in lines of at most 100 characters."""
    indent, word = INDENTED.match(template).groups()
    text = " ".join(fill(word, fields).replace(" ", "\0") for fields in each)
    lines = wrap(text, 100, initial_indent=indent, subsequent_indent=indent)
    return [line.replace("\0", " ") for line in lines]


def files(groups):
    """The path of each file, what it has now, and what it must have."""
    for names, part in parts_of(read(TOP / "bindings/codes.in"), "=== ")[1]:
        name, pattern = names.split()
        head, all_blocks = parts_of(part, "--- ")
        for path, blocks in places(LANGUAGES[name], pattern, all_blocks):
            made = "\n".join(Writer(name, groups).blocks(blocks))
            yield file_of(path, head, made)


def places(language, path, blocks):
    """The files of a path, each with its blocks: with {Type} in the path, a file for each group."""
    if "{Type}" not in path:
        return [(path, blocks)]
    groups = [(it, template) for names, template in blocks for it in names.split()]
    return [
        (fill(path, {"Type": type_of(language, it)}), [(it, template)]) for it, template in groups
    ]


def file_of(path, head, made):
    """The path of a file, what it has now, and what it must have."""
    found = read(TOP / path) if (TOP / path).is_file() else ""
    if head.strip():
        return path, found, f"{head}\n{made}"
    around = PART.fullmatch(found)
    if not around:
        sys.exit(f"codes: {path} has no two comments around what is made")
    return path, found, f"{around[1]}\n{made}\n{around[2]}"


def repeated():
    """What differs of REPEATED from where it comes from."""
    (authors,) = re.findall(AUTHORS[1], read(TOP / REPEATED[AUTHORS]), re.M)
    (number,) = re.findall(r"^    ([\d_]+)$", read(CRATE / "src/version.rt"), re.M)
    parts = tuple(str(int(number) // 1000**place % 1000) for place in (2, 1, 0))
    source = read(TOP / "bindings/source/chinese_number.c.in")
    first, length = map(int, re.findall(r"^#define \w+_OF_TEXT UINT\d+_C\((\d+)\)", source, re.M))
    if first + length != 2**32:
        yield f"chinese_number.c.in has texts of {length} bytes from {first} on"
    wanted = {"authors": authors, "version": ".".join(parts), "parts of the version": parts}
    wanted["longest text"] = f"{length:,}"
    for (what, pattern), files_with in REPEATED.items():
        for file in files_with.split():
            found = set(re.findall(pattern, read(TOP / file), re.M))
            if found != {wanted[what]}:
                yield f"{file}: the {what} must be {wanted[what]}, not {found}"


def texts(group):
    """What differs of the texts of refusals from their definitions."""
    paths = [TOP / OF_NUMBERS, *TOP.glob(OF_OTHERS)]
    of_numbers, *others = (TEXT.findall(read(path)) for path in paths)
    found, must = {*of_numbers, *sum(others, [])}, {NO_REFUSAL, *(it.text for it in group.rows)}
    if found != must:
        yield f"codes.txt has the texts {sorted(must - found)}, not {sorted(found - must)}"
    for file in LISTED:
        yield from (f"{file} lacks: {it}" for it in of_numbers if it not in read(TOP / file))


def difference(path, found, must):
    lines = enumerate(zip_longest(found.split("\n"), must.split("\n")), 1)
    number, (one, other) = next((number, both) for number, both in lines if both[0] != both[1])
    return f"{path}:{number} has {one!r}, and codes.py writes {other!r}"


def main():
    if sys.argv[1:] not in ([], ["--check"]):
        sys.exit(__doc__)
    groups = groups_by_name()
    wrong = [*repeated(), *texts(groups["text"])]
    for path, found, must in files(groups):
        if found != must and sys.argv[1:]:
            wrong.append(difference(path, found, must))
        elif found != must:
            (TOP / path).write_text(must, encoding="utf-8")
    if wrong:
        sys.exit("codes: " + "\ncodes: ".join(wrong))
    count = sum(len(it.rows) for it in groups.values())
    print(f"codes: {count} codes, limits and texts, as they must be in each language")


if __name__ == "__main__":
    main()
