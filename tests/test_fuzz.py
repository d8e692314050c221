"""Random calls of all of chinese_number.h, by `fuzz.c`: about half a minute of processor time in the
gate, always the same cases.

Half of the time is for the C source with a compiler's sanitizers, and half for it without them, which
is about fifty times as fast. For longer, with another seed, each of the two:

    /usr/bin/python3 -m pytest tests/test_fuzz.py --fuzz 600s --seed 2

A failure prints a seed and the number of a case. `fuzz SEED 1 CASE` tries that case alone.
"""
import re

from running import SANITIZERS, TOP, needs, run

CASES, SANITIZED_CASES = 24_000, 500


def cases(request, folder, library, count, *words):
    """Tries this many cases with a library, or what `--fuzz` says; the first wrong one fails."""
    strict = ("-std=c99", "-Wall", "-Wextra", "-Werror", "-I", TOP / "bindings/c")
    run(*words, *strict, TOP / "tests/fuzz.c", library, "-o", "fuzz", cwd=folder)
    limit = request.config.getoption("--fuzz")
    said = run("./fuzz", request.config.getoption("--seed"), limit or count, cwd=folder)
    tried = int(re.fullmatch(r"seed \d+: (\d+) cases\n", said)[1])
    assert tried > 0 if limit else tried == count


def test_c_source(request, of_c_source, tmp_path):
    needs("cc")
    cases(request, tmp_path, of_c_source / "libchinese_number.a", CASES, "cc", "-O1")


def test_sanitized(request, sanitized, tmp_path):
    cases(request, tmp_path, sanitized, SANITIZED_CASES, "clang", "-O1", *SANITIZERS)
