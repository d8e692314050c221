"""The checks themselves: each reports what is wrong in a copy of the repository, and nothing where
nothing is wrong. A test marked `by_hand` takes minutes: run it when what it tests changes."""
import os
import shutil
import sys
from pathlib import Path

import pytest

from running import TOP, run, write

CALLS, LAWS = ("checks/calls.py", "."), ("checks/laws.py", "--check", ".")
DIST = ("bindings/dist.py", "check")
# Makes dist/ of a copy consistent with its C source, and with the sources that are there.
MADE_CONSISTENT = """
import dist, json

files = dist.files_of({name: dist.found(f"dist/{name}") for name in dist.MADE})
told = json.loads(dist.found(dist.PROVENANCE))
told.update(sources=dist.sum_of_sources(), sha256=dist.sums_of(files))
text = json.dumps(told, ensure_ascii=False, indent=2)
for path, data in {**files, dist.PROVENANCE: f"{text}\\n".encode()}.items():
    (dist.TOP / path).write_bytes(data)
"""


def replaced(old, new):
    """A change of a text, or of bytes, in one place."""

    def change(text):
        assert text.count(old) == 1, f"{old!r} occurs {text.count(old)} times"
        return text.replace(old, new)

    return change


def in_block(start, pairs):
    """Replacements in the block with this beginning."""

    def change(text):
        before, head, rest = text.partition(start)
        block, end, after = rest.partition("\n}\n")
        for old, new in pairs:
            block = block.replace(old, new)
        return before + head + block + end + after

    return change


longer, conflict = "{}\n".format, "<<<<<<< HEAD\n{}".format
with_carriage_returns = lambda text: text.replace("\n", "\r\n")


def copied(to, ignore, change=str):
    """A copy of the repository with a change of its C source."""
    shutil.copytree(TOP, to, ignore=ignore)
    source = to / C_SOURCE
    write(source, change(source.read_text(encoding="utf-8")))
    run(sys.executable, "-c", MADE_CONSISTENT, cwd=to / "bindings")
    return to


@pytest.fixture(scope="module")
def copy(tmp_path_factory):
    ignore = shutil.ignore_patterns(".git", "target", "out")
    return copied(tmp_path_factory.mktemp("checks") / "copy", ignore)


@pytest.fixture
def plant(copy):
    """Changes a file of the copy for one test; None removes it."""
    kept = {}

    def planted(name, change):
        path = copy / name
        kept[path] = path.read_bytes()
        path.unlink()
        if change:
            path.write_bytes(change(kept[path].decode()).encode())

    yield planted
    for path, data in kept.items():
        path.write_bytes(data)


# A call's contract and body that are wrong together, which no proof distinguishes from its
# neighbour's: a source, the beginning of the block, and the replacements in it.
READERS, PRINTERS = "cn_calls/src/{}_readers.rt", "cn_calls/src/free_{}.rt"
SCRIPT = [("variant,", "ChineseVariant::Simple,"), ("variant ", "Simple ")]
CASE = [(", case,", ", ChineseCase::Upper,"), (" case ", " Upper ")]
WRONG_CALLS = [
    (READERS.format("unit"), "fn from_chinese_to_u64_middle(", [("Middle", "High")]),
    (READERS.format("unit"), "fn from_chinese_to_i32_low(", [("<i32>", "<i64>"), ("32", "64")]),
    (READERS.format("naive"), "fn from_chinese_to_u32_naive(", [("<u32>", "<u64>"), ("32", "64")]),
    (READERS.format("naive"), "fn from_chinese_to_isize_naive(", [("size", "8"), ("64", "8")]),
    (PRINTERS.format("middle"), "fn from_u64_to_chinese_middle(", [("Middle", "High")]),
    (PRINTERS.format("high"), "fn from_i32_to_chinese_high(", CASE),
    (PRINTERS.format("low"), "fn from_u128_to_chinese_low(", [("Low", "TenThousand")]),
    (PRINTERS.format("low"), "fn from_i64_to_chinese_low(", SCRIPT),
    (PRINTERS.format("naive"), "fn from_u16_to_chinese_naive(", SCRIPT),
    (PRINTERS.format("naive"), "fn from_i8_to_chinese_naive(", CASE),
    ("cn_core/src/whole/unsigned.rt", "impl Whole for u8 ", [("true", "false")]),
    ("cn_core/src/whole/signed.rt", "impl Whole for i64 ", [("_kind 64", "_kind 32")]),
]
# A crate, the name that it re-exports, and another call under that name.
WRONG_NAMES = [
    ("cn_calls", "from_chinese_to_u8;", "from_chinese_to_u16 as from_chinese_to_u8;"),
    ("cn_calls", "from_u16_to_chinese;", "from_u8_to_chinese as from_u16_to_chinese;"),
    ("chinese_number", "from_i8_to_chinese;", "from_i16_to_chinese as from_i8_to_chinese;"),
]
PAGE, BESIDE = "docs/PROMISES.md", "docs/PROMISES-BINDINGS.md"
OF_C, OF_LIBRARY = "crates/cn_c/src/laws.rt", "crates/chinese_number/src/laws.rt"
OF_GRAMMARS = "crates/cn_grammar/src/laws.rt"
NEW_LAW = "\n/// Nothing.\npub fn nothing_holds()\n    ensures { ℕ }\n{}\n"
# A file, a text in it and its replacement, and what is reported.
WRONG_LAWS = [
    (PAGE, "`zero_in_front_decides`", "`zero_behind_decides`", "filled otherwise"),
    (PAGE, "`numbers_are_the_runs`", "`numbers_are_runs`", "numbers_are_runs"),
    (PAGE, ", `zero_in_front_decides`", "", f"{PAGE}: its places are filled otherwise"),
    (PAGE, "<!--laws:places-->", "<!--laws:scales-->", "places has 0 places"),
    (PAGE, "`put_quantity`", "`put_the_quantity`", "put_the_quantity"),
    (PAGE, "`quantities::refusals_point", "`refusals_point", "a law of several groups"),
    (PAGE, "`DateGrammar`", "", "no page names a grammar of cn_date"),
    (BESIDE, "`shown_dates_are_read`", "", f"{BESIDE}: its places are filled otherwise"),
    (OF_LIBRARY, "    figures_constants_are, figures_stay,", "", "figures_stay is not a law that"),
    (OF_GRAMMARS, "fn each_text_has_one_answer<", "fn each_text_has_answers<", "is not a law that"),
    (OF_C, "pub fn printed_dates_read_back()", "pub fn dates_read_back()", "filled otherwise"),
]
C_SOURCE, PROVENANCE = "dist/chinese_number.c", "dist/PROVENANCE.json"
JAVA, OTHER_CLASSES = "bindings/java/src/main/java/chinesenumber", "has other classes than dist.py"
OTHER_SOURCES = "the sources are not those that dist/ was made of"
# What is wrong: the file, its change, and what is reported.
WRONG_DIST = {
    "a byte of the C source": (C_SOURCE, longer, f"{C_SOURCE} has not the sum"),
    "no module": ("dist/chinese-number.64.wasm", None, "wasm has not the sum"),
    "another licence": ("dist/LICENSE-wabt", longer, "dist/LICENSE-wabt has not the sum"),
    "no PROVENANCE.json": (PROVENANCE, None, "is missing, or no JSON"),
    "a conflict": (PROVENANCE, conflict, "is missing, or no JSON"),
    "a sum": (PROVENANCE, replaced('"LICENSE": "', '"LICENSE": "0'), "dist/LICENSE has not"),
    "a copy": ("bindings/go/chinese_number.c", longer, f"is not as made of {C_SOURCE}"),
    "no copy": ("bindings/web/files/chinese-number.32.wasm", None, "is not as made of dist/"),
    "an original": ("bindings/c/chinese_number.h", longer, "is not as made of bindings/c/"),
    "a source": ("crates/cn_amount/src/put.rt", longer, OTHER_SOURCES),
    "a source less": ("crates/cn_core/src/case.rt", None, OTHER_SOURCES),
    "a definition": ("crates/cn_judge/specs/Lib.antt", longer, OTHER_SOURCES),
    "a proof": ("crates/cn_c/proofs/ReadBack.antt", longer, OTHER_SOURCES),
    "a library": ("crates.txt", replaced("cn_calls: ", "cn_calls: cn_quantity "), OTHER_SOURCES),
    "a script": ("bindings/source/chinese_number.c.in", longer, OTHER_SOURCES),
    "a class of Java": (f"{JAVA}/Core1.java", longer, OTHER_CLASSES),
    "no class of Java": (f"{JAVA}/State.java", None, OTHER_CLASSES),
    "the translator to Java": ("bindings/java/core.py", longer, OTHER_CLASSES),
}
# What is right: the check, and a change.
RIGHT = {
    "calls": (CALLS, "crates.txt", str),
    "laws": (LAWS, "crates.txt", str),
    "a crate above": (DIST, "crates/numeral/src/main.rt", longer),
    "a library of others": (DIST, "crates.txt", replaced("numeral: ", "numeral: cn_c ")),
    "line ends of a source": (DIST, "crates/cn_core/src/case.rt", with_carriage_returns),
    "line ends of an original": (DIST, "bindings/c/chinese_number.h", with_carriage_returns),
}


def report(copy, check):
    return run(sys.executable, *check, cwd=copy, fails=True)


@pytest.mark.parametrize("file, start, pairs", WRONG_CALLS)
def test_wrong_call(copy, plant, file, start, pairs):
    plant(f"crates/{file}", in_block(start, pairs))
    assert file in report(copy, CALLS)


@pytest.mark.parametrize("crate, old, new", WRONG_NAMES)
def test_wrong_name(copy, plant, crate, old, new):
    plant(f"crates/{crate}/src/lib.rt", replaced(old, new))
    assert f"re-exported by {crate}:" in report(copy, CALLS)


@pytest.mark.parametrize("file, old, new, wanted", WRONG_LAWS)
def test_wrong_laws(copy, plant, file, old, new, wanted):
    plant(file, replaced(old, new))
    assert wanted in report(copy, LAWS)


def test_new_law(copy, plant):
    """It is reported, and is on its page after --write."""
    plant(BESIDE, str)
    plant(OF_C, replaced("\n/// What `chinese_date_print`", f"{NEW_LAW}\n/// What"))
    assert f"{BESIDE}: its places" in report(copy, LAWS)
    run(sys.executable, LAWS[0], "--write", ".", cwd=copy)
    run(sys.executable, *LAWS, cwd=copy)


@pytest.mark.parametrize("file, change, wanted", WRONG_DIST.values(), ids=WRONG_DIST)
def test_wrong_dist(copy, plant, file, change, wanted):
    plant(file, change)
    assert wanted in report(copy, DIST)


def test_copies(copy, plant):
    """What is made of dist/ is made again without the toolchain."""
    plant(f"{JAVA}/Core1.java", longer)
    plant("bindings/web/compiled.mjs", longer)
    run(sys.executable, "bindings/dist.py", "copies", cwd=copy)
    run(sys.executable, *DIST, cwd=copy)


@pytest.mark.parametrize("check, file, change", RIGHT.values(), ids=RIGHT)
def test_nothing_wrong(copy, plant, check, file, change):
    plant(file, change)
    run(sys.executable, *check, cwd=copy)


# What is changed: a tool, by a sed expression on its version, and the C source. Then whether
# `again` succeeds, and what it reports.
WASM_OPT, ALIKE = ("wasm-opt", "s/[0-9]*$/0/"), "; the archive and the C source show"
COMMENT = replaced("/* Chinese numerals", "/* Some numerals")
WRONG_ANSWER = replaced("amount_print(&m, fen, script", "amount_print(&m, fen ^ 1, script")
AGAIN = {
    "nothing": (None, str, True, "made again, each byte is the same"),
    "a comment": (None, COMMENT, False, f"made again, there are other bytes in {C_SOURCE}"),
    "wasm-opt": (WASM_OPT, str, True, ALIKE),
    "wasm2c": (("wasm2c", "s/.*/1.0.0/"), str, True, ALIKE),
    "the toolchain": (("rt", "s/^[^ ]*/another/"), str, True, ALIKE),
    "the logic": (("rt", "s/[^ ]*$/0/"), str, False, "it was made by "),
    "an answer, and wasm-opt": (WASM_OPT, WRONG_ANSWER, False, f"{C_SOURCE} shows"),
}
OTHERWISE = """\
#!/bin/sh
case $1 in version | --version) {tool} "$1" | sed '{expression}' ;; *) exec {tool} "$@" ;; esac
"""


def named_otherwise(folder, tool, expression):
    """Writes a tool that reports another version, and otherwise works as before."""
    text = OTHERWISE.format(tool=shutil.which(tool), expression=expression)
    write(folder / tool, text).chmod(0o755)


def unneeded(folder, names):
    """What is not copied: of what was built, what other crates than cn_c keep."""
    of_others = Path(folder).name == "out" and Path(folder).parent.name != "cn_c"
    return {".git", "target", *(["incremental"] if of_others else [])} & set(names)


@pytest.mark.by_hand
@pytest.mark.parametrize("tool, change, is_right, wanted", AGAIN.values(), ids=AGAIN)
def test_dist_again(archive, tmp_path, tool, change, is_right, wanted):
    copy, tools = copied(tmp_path / "copy", unneeded, change), tmp_path / "tools"
    if tool:
        named_otherwise(tools, *tool)
    own = {"PATH": f"{tools}:{os.environ['PATH']}"}
    words = (sys.executable, "bindings/dist.py", "again", archive)
    assert wanted in run(*words, cwd=copy, fails=not is_right, **own)
