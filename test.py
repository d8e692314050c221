#!/usr/bin/env python3
"""Tests the library in a clone, without its toolchain and without a network.

Usage: python3 test.py

It takes about 40 seconds on four cores, and needs Python 3.8 or later and a C compiler; CC and CXX
can name other compilers.

- The C source in dist/ is compiled. Its answers to 129,507 numbers, quantities, amounts, dates and
  texts must have the same sum as those of the proved archive, which is in dist/PROVENANCE.json.
- Each language that is installed answers the rows of tests/rows, and the worked rows and examples
  of README.md and docs/. Languages that are not installed are skipped and named.
- The program of dist/numeral.c answers those of these rows and examples that are lines.
- The test reports by genre how well numbers and phrases are found and written in figures in the
  sentences of tests/corpus.tsv and tests/phrases.tsv. It fails if too few are right or too many
  wrong, by the bars of tests/corpus.py.

Each language has a program `answers` in bindings/. It gets questions, a line each, of words
separated by tabs. An answer is `ok` and the result of the call, or `err` and the error's text:

    read KIND WAY TEXT                  the number of a text; docs/RULES.md has these names, and
                                        `any` is either way
    print KIND WAY SCRIPT CASE NUMBER   the text of a number
    read_amount TEXT                    the fen of a text
    print_amount SCRIPT FEN             the text of an amount
    print_amount_as SCRIPT FORM FEN     the same in a form: `plain`, or with + between them some of
                                        `currency`, `round_yuan` and `upright_closing`
    read_typed_amount TEXT              the fen of a text as it is typed
    read_signed_amount TEXT             the fen of a text, which may be below zero
    read_typed_signed_amount TEXT       the same of a text as it is typed
    print_signed_amount SCRIPT FEN      the text of an amount that may be below zero
    print_signed_amount_as SCRIPT FORM FEN
                                        the same in a form, of which `bracketed_sign` may be a part
    yuan_to_fen FIGURES                 the fen of figures, as -1,409.50
    read_date TEXT                      the date of a text, as 2026-01-15
    print_date SCRIPT DATE              the text of a date
    find TEXT                           the text, with the answer in the place of each number
    flags TEXT                          the text, with the flags of each number in its place, of
                                        `plain`, `alone`, `about` and `one`
    read_quantity WAY TEXT              the quantity of a text, as 350000/10 decimal
    find_quantities TEXT                the text, with the answer in the place of each expression
    doubts TEXT                         the text, with the doubt of each expression in its place:
                                        `none`, `word`, `digits`, `term`, `part`, `time` or `range`
    print_quantity WAY SCRIPT CASE QUANTITY
                                        the text of a quantity
    quantity_figures QUANTITY           the same in figures, as 12.5%
    trim_quantity QUANTITY              the quantity without the zeros at the end of its decimals
    quantities_to_figures FLAGS TEXT    the text with its numerals in figures; FLAGS are `none`, or
                                        with + between them some of `about`, `one`, `doubtful`,
                                        `expanded` and `canonical`
    replace_quantities FLAGS TEXT       the text with its quantities in simple numerals of the lower
                                        case, by a function that leaves fractions as they are; FLAGS
                                        are of the first three of these
    text_to_figures FLAGS TEXT          the text with its phrases and numerals in figures; FLAGS
                                        are those of quantities_to_figures, `compact` and `codes`
    text_to_speech SCRIPT TEXT          the text as it is spoken; SCRIPT is `simplified` or
                                        `traditional`
    find_unspoken TEXT                  the text, with what speech leaves in brackets
    phrases TEXT                        the phrases of a text, with tabs between them: the kind, the
                                        state, the text and the value of each. A date is 2026-1-5,
                                        or ?-1-5 without a year; a time 3:30:0 =15, as it is written
                                        and the hour of 24 or `?`; years, months and days 5..8; a
                                        duration 1:20:0; a half or a length 175/100; a score 3:2; a
                                        range 3/1..5/1; a sum of money 350/100; and what is refused,
                                        or a sum that is no whole number of fen, `-`
    expected INPUT TEXT                 how many characters of a text begin an INPUT; `end` if it may
                                        end there; `space` if white space may come next; and the
                                        characters that may. `-` is in the place of the flags. INPUT
                                        is `amount`, `signed_amount`, `typed_amount`,
                                        `typed_signed_amount`, `date` or `figures`
    repair INPUT TEXT                   `none`, or a change of a text, `insert`, `replace` or
                                        `delete`; how many characters come before; and the new one
    explain KIND WAY TEXT               why a text is not a number, or `none`
    explain_quantity WAY TEXT           why a text is not a quantity, or `none`
    input_message LANGUAGE INPUT TEXT   the message on a text, empty if it is right; LANGUAGE is
                                        `en`, `zh-Hans` or `zh-Hant`
    number_message LANGUAGE KIND WAY TEXT
                                        the same for a number
    quantity_message LANGUAGE WAY TEXT  the same for a quantity
"""
import json
import os
import re
import shlex
import shutil
import subprocess
import sys
import tempfile
from concurrent.futures import ThreadPoolExecutor
from pathlib import Path

TOP = Path(__file__).resolve().parent
BINDINGS, DIST = TOP / "bindings", TOP / "dist"
sys.path.insert(0, str(TOP / "tests"))
sys.dont_write_bytecode = True
import corpus
import questions

SHARED = {"darwin": "dylib", "win32": "dll"}.get(sys.platform, "so")


class LeftOut(Exception):
    """Why a language is skipped."""


class Failed(Exception):
    """The output of a command that failed."""


def run(*words, text="", **more):
    """The output of a command for an input, if it succeeds."""
    words = [str(word) for word in words]
    pipes = {"stdout": subprocess.PIPE, "stderr": subprocess.PIPE}
    try:
        ended = subprocess.run(words, input=text.encode(), **pipes, **more)
    except OSError as error:
        raise Failed(error)
    if ended.returncode != 0:
        said = ended.stderr.decode(errors="replace")[-3000:]
        raise Failed(f"{' '.join(words)}: status {ended.returncode}\n{said}")
    return ended.stdout.decode(errors="replace")


def compiler(variable, *names):
    """The first words of a compiler's call: those of the variable, else an installed name."""
    named = shlex.split(os.environ.get(variable, ""))
    for words in [named] if named else [[name] for name in names]:
        if shutil.which(words[0]):
            return words
    raise LeftOut(f"there is no {named[0] if named else ' and no '.join(names)}")


def needs_tool(tool):
    if not shutil.which(tool):
        raise LeftOut(f"there is no {tool}")


def needs(tool, *least):
    """Skips a language whose tool is missing or too old."""
    needs_tool(tool)
    word = "version" if tool == "go" else "--version"
    version = re.search(r"\d+(\.\d+)+", run(tool, word))[0]
    if tuple(map(int, version.split("."))) < least:
        wanted = ".".join(map(str, least))
        raise LeftOut(f"{tool} is of version {version}, and {wanted} or later is needed")


class Clone:
    """What is built in a scratch folder from the clone."""

    def __init__(self, scratch):
        self.scratch, self.object = scratch, scratch / "chinese_number.o"
        self.library = dict(os.environ, CHINESE_NUMBER_LIB=str(scratch), PYTHONUTF8="1")
        self.cc = compiler("CC", "cc", "gcc", "clang")
        flags = ["-O2", "-fPIC", "-fvisibility=hidden"]
        run(*self.cc, *flags, "-c", DIST / "chinese_number.c", "-o", self.object)

    def compiled(self, words, language, source):
        """A program, in a folder of its own: so its header is the one in dist/."""
        folder = Path(tempfile.mkdtemp(dir=self.scratch))
        own, program = shutil.copy(source, folder), folder / "program"
        as_written = ["-x", language, own, "-x", "none"]
        run(*words, "-O1", "-I", DIST, *as_written, self.object, "-o", program)
        return program

    def same(self, _):
        return run(self.compiled(self.cc, "c", BINDINGS / "source/same.c"), 1000)

    def lines(self, asked):
        program = self.scratch / "numeral"
        run(*self.cc, "-O1", DIST / "numeral.c", self.object, "-o", program)
        return run(program, text=asked)

    def c(self, asked):
        return run(self.compiled(self.cc, "c", BINDINGS / "c/answers.c"), text=asked)

    def cpp(self, asked):
        words = [*compiler("CXX", "c++", "g++", "clang++"), "-std=c++17"]
        return run(self.compiled(words, "c++", BINDINGS / "c/answers.cpp"), text=asked)

    def python(self, asked):
        run(*self.cc, "-shared", self.object, "-o", self.scratch / f"libchinese_number.{SHARED}")
        program = BINDINGS / "python/answers.py"
        return run(sys.executable, "-B", program, text=asked, env=self.library)

    def rust(self, asked):
        needs("cargo", 1, 82)
        run("ar", "crs", self.scratch / "libchinese_number.a", self.object)
        own = self.scratch / "rust"
        shutil.copytree(BINDINGS / "rust", own, ignore=shutil.ignore_patterns("target"))
        words = ("run", "--quiet", "--offline", "--example", "answers")
        return run("cargo", *words, text=asked, cwd=own, env=self.library)

    def go(self, asked):
        needs("go", 1, 19)
        own = {"CC": shlex.join(self.cc), "CGO_ENABLED": "1", "GOCACHE": str(self.scratch / "go")}
        own.update(GOFLAGS="-buildvcs=false", GOTOOLCHAIN="local", GOWORK="off")
        return run(
            "go", "run", "./answers", text=asked, cwd=BINDINGS / "go", env={**os.environ, **own}
        )

    def java(self, asked):
        for tool in ("javac", "java"):
            needs_tool(tool)
        try:
            run("javac", "-version")  # that of macOS is there without a JDK, and fails
        except Failed:
            raise LeftOut("javac has no JDK")
        classes, own = self.scratch / "java", BINDINGS / "java"
        sources = sorted(own.glob("src/main/java/chinesenumber/*.java"))
        # They run for a few seconds, in which compiling well does not pay off.
        brief = ("-XX:TieredStopAtLevel=1", "-XX:+UseSerialGC")
        words = ("javac", *(f"-J{it}" for it in brief), "-encoding", "UTF-8", "-d", classes)
        run(*words, *sources, own / "answers/Answers.java")
        return run("java", *brief, "-cp", classes, "Answers", text=asked)

    def javascript(self, asked):
        needs("node", 20)
        return run("node", BINDINGS / "web/answers.mjs", text=asked)


# To add a language, also change bindings/README.md, COPIES of bindings/dist.py, .gitattributes,
# tests/test_clone.py with a program in tests/users, bindings/codes.py, bindings/codes.in,
# checks/quotes.py, checks/debian-packages, README.md and docs/, and add tests/test_NAME.py. If it
# has a package, also change bindings/packages.sh, bindings/packages.py and tests/test_packages.py.
LANGUAGES = {
    "C": Clone.c,
    "C++": Clone.cpp,
    "Python": Clone.python,
    "Rust": Clone.rust,
    "Go": Clone.go,
    "Java": Clone.java,
    "JavaScript": Clone.javascript,
}


def of_archive():
    """What `same 1000` of bindings/source/same.c prints for the proved archive."""
    return json.loads((DIST / "PROVENANCE.json").read_text(encoding="utf-8"))["answers"]


def wrong_rows(rows, answers):
    """The rows with wrong answers, as text."""
    missing = ["nothing"] * (len(rows) - len(answers))
    for (question, wanted), answer in zip(rows, [*answers, *missing]):
        if answer != wanted:
            yield f"    {' '.join(question)}\n        wanted: {wanted}\n        found:  {answer}"


def told(name, rows, asking):
    """Prints the result of a test; returns how many rows passed, and how many failed."""
    try:
        wrong = list(wrong_rows(rows, asking.result().splitlines()))
    except LeftOut as why:
        print(f"{name}: skipped, since {why}")
        return 0, 0
    except Failed as why:
        print(f"{name}: 0 passed, {len(rows)} failed\n{why}")
        return 0, len(rows)
    passed, failed = len(rows) - len(wrong), len(wrong)
    print(f"{name}: {passed} passed" + (f", {failed} failed" if wrong else ""), *wrong, sep="\n")
    return passed, failed


def told_of_sentences(asking):
    """Prints the report on the sentences of the corpus; returns how many bars are reached, and how
    many are missed."""
    try:
        lines, missed = corpus.report(asking.result().splitlines())
    except Failed as why:
        print(f"Sentences: not tested\n{why}")
        return 0, corpus.COUNT_OF_BARS
    print("Sentences of tests/corpus.tsv and tests/phrases.tsv, in C:", *lines, sep="\n")
    print(*(f"    missed: {it}" for it in missed), sep="\n", end="\n" if missed else "")
    return corpus.COUNT_OF_BARS - len(missed), len(missed)


def asked_in_lines(rows):
    return "".join("\t".join(question) + "\n" for question in rows)


def try_all(clone, rows):
    """How many rows passed in all, and how many failed."""
    same = [(["same", "1000"], of_archive())]
    lines = [([line], answer) for _, line, answer in questions.lines()]
    tests = [("C source, beside the proved archive", same, Clone.same)]
    tests += [("Lines, in C", lines, Clone.lines)]
    tests += [(name, rows, ask) for name, ask in LANGUAGES.items()]
    with ThreadPoolExecutor() as pool:
        running = [
            (name, its, pool.submit(ask, clone, asked_in_lines(question for question, _ in its)))
            for name, its, ask in tests
        ]
        sentences = pool.submit(Clone.c, clone, asked_in_lines(corpus.questions()))
        counts = [told(*test) for test in running] + [told_of_sentences(sentences)]
    return map(sum, zip(*counts))


def main():
    if sys.version_info < (3, 8) or len(sys.argv) != 1:
        sys.exit(__doc__)
    sys.stdout.reconfigure(errors="backslashreplace")
    with tempfile.TemporaryDirectory() as scratch:
        try:
            clone = Clone(Path(scratch))
        except LeftOut as why:
            sys.exit(f"test: {why}: install one, as by `apt install gcc`, or name another by CC")
        except Failed as why:
            sys.exit(f"test: the C source was not compiled\n{why}")
        passed, failed = try_all(clone, list(questions.questions()))
    print(f"{passed} passed, {failed} failed")
    sys.exit(1 if failed else 0)


main()
