"""The examples in C, compiled as C and as C++ by each compiler, with the archive and the C source,
and the examples of the C++ header.

`example.c` gets each status. `sixteen_bits.c` prints and reads back each number of 16 bits, and
each from 0 on as an amount in each form, in four threads. `each_fen.c` does so for 210,001 amounts,
also below zero, as typed and in figures. `columns.c` compares each row of columns with the call for
one value. `example.cpp` tests what the rows of `tests/rows` do not.
They also run under valgrind and with the sanitizers for addresses and undefined behaviour. No
compiler warns about a header, and each warns about a wrong call. A missing value throws, or aborts
in a program without exceptions.
"""
import signal
import subprocess

import pytest

from questions import wrong_answers
from running import ENVIRONMENT, TOP, needs, needs_compiler, run, write

C = TOP / "bindings/c"
FIRST_STEPS = """\
负十万五千
-105000
50
壹仟肆佰零玖元伍角整
140950
负壹拾伍元整
贰零贰陆年零壹月壹拾伍日
2026-01-15
百分之十二点五
2026年1月5日下午3点半，3万到5万元
15:30
第3个字“贰”前缺“零”。
U+96F6 at 2
"""
FIRST_STEPS_OF_CPP = """\
负十万五千
120
50
the chinese number is incorrect (position: 1)
第3个字“贰”前缺“零”。
壹佰零贰元整
一百二十 负七
人民币壹拾伍元整
1500
负壹拾伍元整
贰零贰陆年零壹月壹拾伍日
百分之十二点五
2026年1月5日下午3点半，3万到5万元
2026-1-5
"""
EXAMPLES = {
    "example.c": FIRST_STEPS,
    "sixteen_bits.c": "",
    "each_fen.c": "",
    "columns.c": "",
    "example.cpp": FIRST_STEPS_OF_CPP,
}
AS_C, AS_CPP = ("-x", "c", "-std=c99"), ("-x", "c++", "-std=c++17")
COMPILERS = {"cc": AS_C, "gcc": AS_C, "clang": AS_C, "g++": AS_CPP, "clang++": AS_CPP}
# The compilers of each example: C++ compilers also compile C.
RUNS = [
    (name, compiler)
    for name in EXAMPLES
    for compiler, words in COMPILERS.items()
    if name.endswith(".c") or words is AS_CPP
]
# The compilers of the example's own language.
OWN = [
    (name, compiler)
    for name, compiler in RUNS
    if name.endswith(".cpp") == (COMPILERS[compiler] is AS_CPP) and compiler != "cc"
]
ANSWERS = [
    ("answers.c", "cc"),
    ("answers.c", "g++"),
    ("answers.cpp", "g++"),
    ("answers.cpp", "clang++"),
]
STRICT = ("-Wall", "-Wextra", "-Werror", "-pedantic", "-O1", "-g", "-pthread")
# All warnings except those about padding in a struct of the interface and about C++ after C++98.
EACH_WARNING = {
    "gcc": "-Wall -Wextra -pedantic -Wconversion -Wcast-qual -Wshadow -Wundef",
    "clang": "-Weverything -Wno-padded",
    "g++": "-Wall -Wextra -pedantic -Wconversion -Wcast-qual -Wshadow -Wundef -Wold-style-cast",
    "clang++": "-Weverything -Wno-padded -Wno-c++98-compat -Wno-c++98-compat-pedantic",
}
# no_null.h declares the proved calls so that passing NULL to one is undefined behaviour.
NO_NULL = ("-include", TOP / "tests/no_null.h")
SANITIZERS = ("-fsanitize=address,undefined", "-fno-sanitize-recover=all", *NO_NULL)
STEP = "31"  # the numbers under valgrind, which takes fifty times as long
VALGRIND = "valgrind --quiet --error-exitcode=9 --leak-check=full --show-leak-kinds=all"


@pytest.fixture
def compiled(library, tmp_path):
    """The command that compiles a program of `bindings/c` with the archive or the shared object."""

    def call(name, compiler, *flags, shared=False):
        needs(compiler)
        linked = [library / "libchinese_number.a"]
        if shared:
            linked = [f"-L{library}", "-lchinese_number", f"-Wl,-rpath,{library}"]
        source = [*COMPILERS[compiler], "-I", C, C / name, "-x", "none"]
        program = tmp_path / "program"
        run(compiler, *STRICT, *flags, *source, *linked, "-o", program, cwd=tmp_path)
        return program

    return call


@pytest.mark.parametrize("shared", [False, True], ids=["static", "shared"])
@pytest.mark.parametrize("name, compiler", RUNS)
def test_examples(compiled, name, compiler, shared):
    run(compiled(name, compiler, shared=shared), cwd=TOP, wanted=EXAMPLES[name])


@pytest.mark.parametrize("name, compiler", [it for it in OWN if it[1].startswith("g")])
def test_under_valgrind(compiled, name, compiler):
    needs("valgrind")
    run(*VALGRIND.split(), compiled(name, compiler), STEP, cwd=TOP, wanted=EXAMPLES[name])


@pytest.mark.parametrize("name, compiler", OWN)
def test_sanitized(compiled, name, compiler, tmp_path):
    needs_compiler(tmp_path, compiler, *SANITIZERS)
    run(compiled(name, compiler, *SANITIZERS), cwd=TOP, wanted=EXAMPLES[name])


@pytest.mark.parametrize("name, compiler", ANSWERS)
def test_answers(compiled, name, compiler):
    program = compiled(name, compiler)
    assert wrong_answers(lambda asked: run(program, cwd=TOP, stdin=asked)) == []


FLAGS = """\
#include "chinese_number.h"

cn_status amount(char *room, size_t length);
cn_status replaced(const char *text, char *room, size_t *length);
cn_status range_of(const char *text, cn_quantity *ends);

cn_status amount(char *room, size_t length) {
    return cn_print_amount(1, CN_SIMPLIFIED, CN_CURRENCY | CN_ROUND_YUAN, room, length);
}

cn_status replaced(const char *text, char *room, size_t *length) {
    return cn_quantities_to_figures(text, 3, 0, CN_ZHAO, CN_TEN_THOUSAND,
                                    CN_ABOUT | CN_ONE_CHARACTER | CN_DOUBTFUL | CN_CANONICAL, room,
                                    3, length);
}

cn_status range_of(const char *text, cn_quantity *ends) {
    cn_phrase found = {0, 0, 0, 0, 0, 0, 0, 0, 0, 0};
    cn_status status = cn_find_next_phrase(text, 9, 0, CN_ZHAO, &found);
    return status == CN_DONE ? cn_read_range(text, &found, ends, ends + 1) : status;
}
"""


@pytest.mark.parametrize("compiler", EACH_WARNING)
def test_no_warning(compiler, tmp_path):
    """Neither header causes a warning, nor do flags that are added together. The example uses the
    templates of the C++ header."""
    needs(compiler)
    flags = write(tmp_path / "flags.c", FLAGS)
    words = (*COMPILERS[compiler], *EACH_WARNING[compiler].split(), "-Werror", "-O2", "-I", C)
    sources = [flags, C / "example.cpp"] if words[:3] == AS_CPP else [flags]
    for source in sources:
        run(compiler, *words, "-c", source, "-o", "made.o", cwd=tmp_path, wanted="")


WRONG = """\
#include "chinese_number.h"

cn_status wrong(char *room, size_t length);

cn_status wrong(char *room, size_t length) {{
    {} cn_print(cn_unsigned(1), CN_U8, CN_LOW, {}, room, length);
    return CN_DONE;
}}
"""
RIGHT = WRONG.format("return", "CN_SIMPLIFIED, CN_UPPER")
EXCHANGED = WRONG.format("return", "CN_UPPER, CN_SIMPLIFIED")
UNUSED = WRONG.format("", "CN_SIMPLIFIED, CN_UPPER")


@pytest.mark.parametrize("compiler", EACH_WARNING)
def test_wrong_calls(compiler, tmp_path):
    """Exchanged arguments cause a warning in C and an error in C++; an unused status causes a
    warning."""
    needs(compiler)
    exchanged = "enum-conversion" if COMPILERS[compiler] is AS_C else "cn_case"
    for text, told in ((RIGHT, ""), (EXCHANGED, exchanged), (UNUSED, "unused-result")):
        source = write(tmp_path / "call.c", text)
        words = (*COMPILERS[compiler], "-Wextra", "-Werror", "-I", C, "-c", source)
        assert told in run(compiler, *words, cwd=tmp_path, fails=bool(told))


@pytest.mark.parametrize("compiler", [it for it, words in COMPILERS.items() if words is AS_CPP])
def test_no_part_of_a_fen(compiler, tmp_path):
    """In C++ an amount is a whole number: a double, which C would truncate, is an error."""
    needs(compiler)
    call = "chinese_number::amount_to_chinese({}).value_or({{}})"
    text = f'#include "chinese_number.hpp"\nauto text = {call};\n'
    for fen, told in (("1409", ""), ("14.09", "a whole number of fen")):
        source = write(tmp_path / "call.cpp", text.format(fen))
        words = (*COMPILERS[compiler], "-I", C, "-c", source)
        assert told in run(compiler, *words, cwd=tmp_path, fails=bool(told))


# It needs no library. With an argument the result has no value.
VALUE = """\
#include "chinese_number.hpp"
#include <cstdio>

using namespace chinese_number;

int main(int count, char **) {
    const Result<int> seven = 7, none = Error{Status::empty, "number", 0, 0};
    const Result<int> &one = count > 1 ? none : seven;
    std::printf("%d %d\\n", one.value(), Result<int>(one).value());
}
"""


@pytest.mark.parametrize("flag", ["-fexceptions", "-fno-exceptions"])
@pytest.mark.parametrize("compiler", [it for it, words in COMPILERS.items() if words is AS_CPP])
def test_no_value(compiler, flag, tmp_path):
    """The program aborts without exceptions, and also with them if none is caught: then it shows the
    message."""
    needs(compiler)
    words = (*COMPILERS[compiler], *EACH_WARNING[compiler].split(), "-Werror", flag, "-I", C)
    run(compiler, *words, write(tmp_path / "value.cpp", VALUE), "-o", "value", cwd=tmp_path)
    run("./value", cwd=tmp_path, wanted="7 7\n")
    ended = subprocess.run(["./value", "1"], cwd=tmp_path, env=ENVIRONMENT, capture_output=True)
    assert (ended.returncode, ended.stdout) == (-signal.SIGABRT, b"")
    assert (b"a chinese number cannot be empty" in ended.stderr) == (flag == "-fexceptions")
