"""The items of a crate that can be wrong: its functions, constants, tables and macros.

Laws, tests and ghost items are skipped. The beginning and end of an item are found by the layout of
`rt fmt`.
"""
import re
from collections import namedtuple
from pathlib import Path

# `path` is the path that a check prints. `start`, `begin` and `end` are the offsets in the file at
# which the item, its body and the rest of the file begin. `text` is the file without its comments.
Item = namedtuple("Item", "path name kind file holder is_public start begin end text")

HEAD = re.compile(
    r'( *)(pub |pub\(crate\) )?(?:(?:final|const|unsafe|extern "C") )*(fn|static|const|macro_rules!)'
    r" (\w+)"
)
HOLDER = re.compile(r"(pub )?(?:trait (\w+)|impl(<.*?>)? (?:([\w:]+)(<.*>)? for )?(&?[\w:]+))")
QUOTED = r"""b?"(?:\\.|[^"\\])*"|b?'(?:\\u\{\w+\}|\\.|[^'\\])'"""
COMMENT = re.compile(rf"({QUOTED})|//[^\n]*", re.DOTALL)

# A law, by its name and contract: a function that does nothing, or only calls a law of a trait.
LAW = re.compile(
    r"^pub fn (\w+)(?:<[^>]*>)?\([^)]*\)\n((?:    .*\n)+)\{(?:\}|\n    \w+::\w+\(\)\n\})$",
    re.MULTILINE,
)

TESTS = re.compile(r"^#\[cfg\(test\)\]\nmod (\w+);", re.MULTILINE)

# The trait or implementation of an item: name, path, whether its items are public, and its offset.
Holder = namedtuple("Holder", "name path is_public is_trait_impl start")


def files_of(crate):
    """The sources of a crate without its test modules: each path with its text."""
    texts = {
        path.relative_to(crate).as_posix(): path.read_text(encoding="utf-8")
        for path in sorted(crate.glob("src/**/*.rt"))
    }
    tests = TESTS.findall(texts.get("src/lib.rt", "") + texts.get("src/main.rt", ""))
    return [it for it in texts.items() if Path(it[0]).with_suffix("").parts[1] not in tests]


def without_comments(text):
    """The text with blanks instead of comments, so that offsets stay the same."""
    return COMMENT.sub(lambda it: it[1] or " " * len(it[0]), text)


def module_of(file):
    parts = Path(file).with_suffix("").parts[1:]
    return [] if parts[-1] in ("lib", "main") else list(parts)


def upper(word):
    return word[0].upper() + word[1:]


def holder_of(line, start, module, modules):
    """The implementation or trait that begins at a line, if any."""
    head = HOLDER.match(line)
    if not head:
        return None
    if head[2]:
        return Holder(head[2], (*module, head[2]), bool(head[1]), False, start)
    given = re.findall(r"\w+", head[3] or "")
    kind = head[6].lstrip("&").split("::")[-1]
    words = [("Ref" if head[6][0] == "&" else "") + ("Any" if kind in given else upper(kind))]
    if not head[4]:
        return Holder(kind, (*modules.get(kind, module), *words), False, False, start)
    words += [it for it in re.findall(r"\w+", head[5] or "") if it not in given]
    words.insert(1, head[4].split("::")[-1])
    return Holder(kind, (*module, "".join(map(upper, words))), True, True, start)


def exported(crate, texts):
    """The names that a crate's root exports, and its public modules."""
    root = texts.get("src/lib.rt", "")
    names = " ".join(re.findall(r"^pub use ([^;]*);", root, re.MULTILINE))
    names = set(re.findall(r"\w+\b(?!::)", names))
    names |= set(re.findall(r"^pub (?:enum|struct|trait) (\w+)", root, re.MULTILINE))
    return names, set(re.findall(r"^pub mod (\w+);", root, re.MULTILINE))


def items_of(crate):
    """The items of a crate, in source order."""
    texts = {file: without_comments(text) for file, text in files_of(crate)}
    names, open_modules = exported(crate, texts)
    modules = {
        name: module_of(file)
        for file, text in texts.items()
        for name in re.findall(r"\b(?:struct|enum) (\w+)", text)
    }
    for file, text in texts.items():
        lines, holder, at, is_test = text.splitlines(keepends=True), None, 0, False
        is_open = file == "src/lib.rt" or module_of(file)[:1] and module_of(file)[0] in open_modules
        for number, line in enumerate(lines):
            head = HEAD.match(line)
            if not line.startswith((" ", "\n")) and not head:
                holder = holder_of(line, at, module_of(file), modules)
            body = body_of(lines, number, head) if head and not is_test else None
            if body:
                begin, end = (at + len("".join(lines[number:it])) for it in body)
                own = holder if head[1] else None
                path = "::".join([*(own.path if own else module_of(file)), head[4]])
                is_public = head[2] == "pub " and bool(
                    is_open or (own.name if own else head[4]) in names
                )
                is_public |= bool(own and own.is_public)
                yield Item(path, head[4], head[3], file, own, is_public, at, begin, end, text)
            is_test = line.strip() == "#[cfg(test)]"
            at += len(line)


def body_of(lines, start, head):
    """The number of the first line of a body or value, and of the first line after it."""
    stripped = [line.rstrip() for line in lines[start:]]
    if head[3] != "fn":
        ends = [head[1] + it for it in ("}", "};", "];", ");")]
        ends += [it for it in stripped if it.endswith('";')][:1]
        ends += stripped[:1] * stripped[0].endswith(";")
        return start, start + next(at for at, it in enumerate(stripped, 1) if it in ends)
    signature = [stripped[0], *(it for it in stripped if it.startswith(head[1] + ")"))][:2]
    for at, line in enumerate(stripped):
        is_alone = line in (head[1] + "{", head[1] + "{}")
        if is_alone or line in signature and line.endswith((" {", " {}")):
            break
        if line == "}" or at and HEAD.match(line):
            return None
    if stripped[at].endswith("{}") or LAW.match("\n".join(stripped)):
        return None
    return start + at + (not is_alone), start + stripped.index(head[1] + "}", at) + 1
