"""Calls that request memory, with each request refused in turn; and readers, which request none.

A test of the crate `examples` prints a line for each call that requests memory, and fails if a text
is not the one that it names. Each request is refused alone and with the next one. Each line makes
one request, of exactly as many bytes as its text. If it is refused, the line says that memory was
short, and all other lines stay the same; so a second request of a line would be noticed. The last
calls refuse their number, quantity or date by name and request no memory.
"""
import re
import subprocess

import pytest

from running import TOP, needs_rt

# The names of errors: out of memory, and those of the last calls, which request none.
SHORT = ("AllocError", "OutOfMemory")
REFUSED = [*"Overflow Underflow Overflow ZeroDenominator".split(), *["Overflow"] * 4, "NotADate"]
MODULE = "without_memory"


def lines_with(examples_tests, first, more):
    """The calls and answers that are printed with these requests refused, and the number of bytes
    of each request."""
    test = "allocating_calls::each_call"
    status, output, error = examples_tests.with_refused(first, test, more=more)
    *lines, _, ended = output.decode().splitlines()
    assert (status, ended) == (0, "test result: ok")
    sizes = [int(line.removeprefix("refused ")) for line in error.decode().splitlines()]
    return [tuple(line.rsplit(": ", 1)) for line in lines], sizes


@pytest.mark.parametrize("more", (0, 1))
def test_each_growth(examples_tests, more):
    ample, _ = lines_with(examples_tests, 0, 0)
    growing = len(ample) - len(REFUSED)
    assert growing > 0 and [answer for _, answer in ample[growing:]] == REFUSED
    for first in range(1, growing + 2):
        lines, sizes = lines_with(examples_tests, first, more)
        hit = range(first - 1, min(first + more, growing))
        assert sizes == [len(ample[place][1].encode()) for place in hit], f"growth {first}"
        assert all(lines[place][1] in SHORT for place in hit), f"growth {first}"
        wanted = [
            (call, lines[at][1] if at in hit else text) for at, (call, text) in enumerate(ample)
        ]
        assert lines == wanted, f"growth {first}"


@pytest.mark.built
def test_readers():
    """One module of tests names each public reader, and all its tests pass with their first memory
    request refused."""
    needs_rt()
    crate = TOP / "crates/call_tests"
    files = [crate / f"src/{MODULE}.rt", *crate.glob(f"src/{MODULE}/*.rt")]
    source = "".join(file.read_text(encoding="utf-8") for file in files)
    public = (TOP / "crates/chinese_number/src/lib.rt").read_text(encoding="utf-8")
    readers = set(re.findall(r"\bfrom_chinese_\w+", public))
    assert readers and readers <= set(re.findall(r"\bfrom_chinese_\w+", source))
    words = ["rt", "try", "--test", "--fail-alloc", "1"]
    tried = subprocess.run(words, cwd=crate, capture_output=True, text=True).stdout
    tests = re.findall(rf"^test {MODULE}::(\S+) \.\.\. (\S+)$", tried, re.M)
    assert {outcome for _, outcome in tests} == {"ok"} and len(tests) == source.count(
        "#[test]"
    ), tried
