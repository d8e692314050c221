"""The command chinese-number, of Python and of JavaScript: both must give the same answers.

The rows are those of `tests/rows/command.tsv`. The words of the tests of `cheque` and the texts of
those of `numbers` get the same answers here, or are refused here too. Python's command runs in an
ASCII locale.
"""
import os
import pty
import re
import shlex
import subprocess
import sys
import time

import pytest

import test_cheque
import test_numbers
from questions import table
from running import TOP, Program, needs, write

USAGE = b"usage: chinese-number "
MISUSE = re.compile(rb"chinese-number: .+ \(see --help\)\n")
MANY = "二十三\n".encode() * 20000
TABLE, ROWS = ["amount", "--column", "1"], b"15\n" * 60000
# Arguments and an input for which something is written.
WRITTEN = [(["read", "一"], b""), (["find"], MANY), (["replace"], MANY), (TABLE, b"15\n")]
WRITTEN += [(TABLE, ROWS), (["lines"], MANY)]
# Words of the tests of `cheque` for which the command has answers of its own.
OWN = {"-1", "−1", "2026-1-15", "2026-01-1", "2025-02-29", "1900-02-29", "2026-01-00"}
ESCAPES = {r"\n": "\n", r"\r": "\r", r"\xff": "\udcff"}


@pytest.fixture(scope="module", params=["python", "javascript"])
def command(request, tmp_path_factory):
    """A program that runs the command, in an environment that does not mention UTF-8."""
    if request.param == "python":
        words = [sys.executable, "-B", "-m", "chinese_number"]
        own = {"PYTHONPATH": TOP / "bindings/python", "PYTHONCOERCECLOCALE": 0, "PYTHONUTF8": 0}
        own["CHINESE_NUMBER_LIB"] = request.getfixturevalue("of_c_source")
    else:
        needs("node 20")
        words, own = ["node", TOP / "bindings/web/command.mjs"], {}
    own = shlex.join(f"{name}={value}" for name, value in {**own, "LC_ALL": "C"}.items())
    called = f'exec env -u PYTHONIOENCODING {own} {shlex.join(map(str, words))} "$@"'
    script = write(tmp_path_factory.mktemp("command") / "command", f"#!/bin/sh\n{called}\n")
    script.chmod(0o755)
    return Program(script, None)


def in_bytes(cell):
    """The bytes that a cell stands for."""
    for name, meant in ESCAPES.items():
        cell = cell.replace(name, meant)
    return cell.encode(errors="surrogateescape")


def is_written(found, cell):
    if cell == "usage":
        return found.startswith(USAGE)
    if cell == "misuse":
        return MISUSE.fullmatch(found) is not None
    return found == in_bytes(cell) + (b"\n" if cell else b"")


def test_rows(command):
    wrong = []
    for line, data, *written, status in table("command"):
        words = [in_bytes(word) for word in shlex.split(line)]
        found, *texts = command(*words, data=in_bytes(data))
        if str(found) != status or not all(map(is_written, texts, written)):
            wrong.append((line, found, *(text.decode("utf-8", "replace") for text in texts)))
    assert wrong == []


def test_help(command):
    """Both programs have the same text, which is in Python's."""
    source = (TOP / "bindings/python/chinese_number/__main__.py").read_text(encoding="utf-8")
    text = re.search(r'USAGE = """\\\n(.*?)"""', source, re.S)[1].replace(r"\\", "\\")
    for words in (["--help"], ["amount", "--help"]):
        assert command(*words) == (0, f"{text}\n".encode(), b"")


def shown(word):
    """A refused word as a message shows it, which has at most 40 characters of it."""
    return (word if len(word) <= 40 else f"{word[:40]}…") or "''"


@pytest.mark.parametrize("what", ["amount", "date"])
def test_words_of_cheque(command, what):
    """Each refused word is on a line of its own, with a sentence that says why. The words that only
    the command reads, and the sentences, are in the rows."""

    def is_of_date(word, answer):
        return bool(re.search("-[0-9]+-|年", word + answer) or "date" in answer)

    for of_cheque, status in ((test_cheque.ANSWERED, 0), (test_cheque.REFUSED, 1)):
        rows = {
            word: it
            for word, it in of_cheque.items()
            if word not in OWN and is_of_date(word, it) == (what == "date")
        }
        found, written, refused = command(what, "--", *rows)
        answers = "".join(f"{answer}\n" for answer in rows.values() if status == 0)
        refusals = "".join(f"{re.escape(shown(word))}: .+[.]\n" for word in rows if status)
        assert (found, written.decode()) == (status, answers)
        assert re.fullmatch(refusals, refused.decode())


def test_texts_of_numbers(command):
    """The answers are those of `numbers`, which accepts a method without its option, and finds
    quantities with an option."""
    for options, text, answer in test_numbers.ANSWERED:
        what, name = ([], "--method") if "--exact" in options else (["--numbers"], "--way")
        given = [it for it in options if it != "--exact"]
        words = what + [it if it.startswith("--") else f"{name}={it}" for it in given]
        assert command("find", *words, data=text.encode()) == (0, answer.encode(), b"")


def test_long_numbers(command):
    for sign in ("", "-"):
        word = f"{sign}{'9' * 5000}"
        refusal = f"{shown(word)}: The type cannot hold the number.\n"
        assert command("print", "--", word) == (1, b"", refusal.encode())


def test_no_input(command):
    for words in (["find"], ["replace"], ["lines"], TABLE):
        assert command.of_no_file(*words)[:2] == (1, b"")


def test_full_disk(command):
    for words, data in [*WRITTEN, (["--help"], b"")]:
        status, error = command.onto_a_full_disk(*words, data=data)
        assert status == 1 and re.fullmatch(b"chinese-number: .*no space left.*\n", error, re.I)


def test_closed_pipe(command):
    """If nobody reads the output, no message is written."""
    for words, data in WRITTEN:
        reader, writer = os.pipe()
        os.close(reader)
        try:
            assert command(*words, data=data, stdout=writer)[::2] == (1, b"")
        finally:
            os.close(writer)


def test_many_lines(command):
    answers = b"".join(b"%d:1 %s 23\n" % (line, MANY[:9]) for line in range(1, 20001))
    assert command("find", data=MANY) == (0, answers, b"")
    assert command("find", "--numbers", data=MANY) == (0, answers, b"")
    assert command("replace", data=MANY) == (0, b"23\n" * 20000, b"")


def test_one_line(command):
    """Lines of any length, and without a line feed at the end."""
    found = command("replace", data="三十，".encode() * 200000)
    assert found == (0, "30，".encode() * 200000, b"")


def test_dialogue(command):
    with command.dialogue("find") as dialogue:
        for line in range(1, 101):
            assert dialogue.ask("他三十歲") == f"{line}:2 三十 30"
    with command.dialogue("replace") as dialogue:
        for _ in range(100):
            assert dialogue.ask("他三十歲") == "他30歲"


def test_many_rows(command):
    """Of 20,000 rows each twentieth is wrong: each is reported, and none is lost."""
    rows = [(row, "15" if row % 20 else "壹佰元") for row in range(1, 20001)]
    answers = {"15": "壹拾伍元整", "壹佰元": ""}
    data = "".join(f"{row},{cell}\n" for row, cell in rows)
    written = "".join(f"{row},{cell},{answers[cell]}\n" for row, cell in rows)
    refusal = "壹佰元: “整” is missing at the end."
    told = "".join(f"row {row}: {refusal}\n" for row in range(20, 20001, 20))
    told += "20000 rows: 19000 converted, 1000 refused\n"
    found = command("amount", "--column", "2", data=data.encode())
    assert found == (1, written.encode(), told.encode())


def test_no_such_column(command):
    """One message, and no line for each of the rows."""
    for words in (["--column", "2"], ["--column", "sum"]):
        status, written, told = command("amount", *words, data=ROWS)
        assert (status, written) == (2, b"") and MISUSE.fullmatch(told)


def test_open_quote(command):
    """A cell with an unclosed quote has at most 2^17 characters: rows continue after that line."""
    refused = 2**17 // 3 + 1
    rows = [b'"15', *[b"15"] * (refused - 2), b"15,"]
    rows += ["15,壹拾伍元整".encode()] * (60001 - refused)
    told = "row 1: the row is not CSV\n"
    told += f"{60002 - refused} rows: {60001 - refused} converted, 1 refused\n"
    found = command(*TABLE, data=b'"' + b"15\n" + ROWS)
    assert found == (1, b"".join(row + b"\n" for row in rows), told.encode())


def test_long_cell(command):
    """A cell without a quote, or with a closed quote, may have any length."""
    long = b"x" * 200000
    data = b'%s,15\n"%s",16\n' % (long, long)
    written = '%s,15,壹拾伍元整\n"%s",16,壹拾陆元整\n'.encode().replace(b"%s", long)
    told = b"2 rows: 2 converted, 0 refused\n"
    assert command("amount", "--column", "2", data=data) == (0, written, told)


def test_progress(command):
    """After more than a second a terminal shows how many rows are done, and nothing at the end."""
    terminal, errors = pty.openpty()
    pipes = {"stdin": subprocess.PIPE, "stdout": subprocess.PIPE, "stderr": errors}
    with subprocess.Popen([command.path, *TABLE], **pipes) as process:
        process.stdin.write(b"15\n")
        process.stdin.flush()
        time.sleep(4)  # on a busy machine the command needs a second to start
        assert process.communicate(b"16\n") == ("15,壹拾伍元整\n16,壹拾陆元整\n".encode(), None)
    os.close(errors)
    told = os.read(terminal, 4096)
    os.close(terminal)
    assert re.fullmatch(rb"\r2 rows\r +\r2 rows: 2 converted, 0 refused\r\n", told)
