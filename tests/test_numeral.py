"""The program `numeral`, the proved one and that of `bindings/source/numeral.c`: its answers in a
dialogue, its status, and its output at that time. Both answer the same lines alike.

The status is 0 at the end of the input, 1 if the input cannot be read or the output cannot be
written, and 2 if memory runs out. Answers go to standard output only, and standard error stays
empty with every status.
"""
import os
import random

import pytest

from running import TOP

ROUNDS = 500
LINES, ANSWERS = b"read u8 naive 1\nhello\n", b"ok 1\nbad line\n"
LONG = b"x" * (50 << 20)
MEGABYTES = 40  # a program has no more, and less than one of these inputs
READING, PRINTING = "read u8 naive 一\n".encode(), b"print u8 naive traditional lower 1\n"
COUNT = 300
# Lines that are random are made of these, and sometimes a byte of them is another one.
WORDS = (
    "read print u8 i8 u16 i32 u64 i64 usize isize u128 i128 naive low ten_thousand middle high "
    "traditional simple upper lower any 0 7 12 255 -128 -129 18446744073709551616 一 二 十 百 千 萬 亿 "
    "兆 極 個 零 負 两 壹 正 一百二 二十十 一億二 hello"
).split()
STARTS = (
    *("read u64 ten_thousand ", "read i128 middle ", "read u8 naive ", "read isize high ", ""),
    *("print u128 naive traditional lower ", "print i64 low simple upper ", "print ", "read u32 "),
)


@pytest.fixture(params=[pytest.param("numeral", marks=pytest.mark.built), "numeral_in_c"])
def program(request):
    return request.getfixturevalue(request.param)


def test_ends(program):
    assert program(data=LINES) == (0, ANSWERS, b"")
    assert program(data=b"") == (0, b"", b"")
    assert program(data=b"\n") == (0, b"bad line\n", b"")
    assert program(data=LINES[:-1]) == (0, ANSWERS, b"")
    assert program(data=READING[:-1]) == (0, b"ok 1\n", b"")
    assert program(data=LINES * 20000) == (0, ANSWERS * 20000, b"")
    assert program(data=LINES + LONG) == (0, ANSWERS + b"bad line\n", b"")


def test_long_lines(program):
    """Lines of 10 MB: two that are read, one of them with a wrong last character, and one that is
    not UTF-8."""
    zeros = "read u128 naive ".encode() + "零".encode() * 3333333
    refused = b"err the chinese number is incorrect (position: 3333333)\n"
    data = zeros + "五\n".encode() + zeros + b"x\n" + zeros + b"\xff\n" + READING
    assert program(data=data) == (0, b"ok 5\n" + refused + b"bad line\nok 1\n", b"")


def test_other_bytes(program):
    """A text that is not UTF-8, and bytes that no line has, are a bad line; 0x00 is in a text."""
    bad = [READING[:-1] + it + b"\n" for it in (b"\xff", b"\xe4", b"\xed\xa0\x80", b"\xc0\x80")]
    bad += [b"\xff\n", b"\0\n", b"read\0u8 naive 1\n", b"read u8\xff naive 1\n"]
    assert program(data=b"".join(bad)) == (0, b"bad line\n" * len(bad), b"")
    zero = b"err the chinese number is incorrect (position: 1)\n"
    assert program(data=READING[:-1] + b"\0\n") == (0, zero, b"")
    assert program(data=READING[:-1] + b"\r\n") == (0, b"ok 1\n", b"")


def test_memory_of_many_lines(program):
    """The memory depends on the longest line alone."""
    found = program(data=LINES * 2000000, megabytes=MEGABYTES)
    assert found == (0, ANSWERS * 2000000, b"")


def random_line(draw):
    """Words that a line can have, in any order, or a number, after the start of a line; some with a
    wrong byte."""
    words = [draw.choice(WORDS) for _ in range(draw.randrange(6))]
    if draw.random() < 0.5:
        words = [draw.choice(["", "-"]) + str(draw.getrandbits(draw.randrange(1, 70)))]
    line = draw.choice(STARTS) + draw.choice(["", " "]).join(words)
    data = bytearray(line.encode())
    if data and draw.random() < 0.2:
        data[draw.randrange(len(data))] = draw.randrange(256)
    return bytes(data)


def test_same_answers(numeral, numeral_in_c):
    draw = random.Random(1)
    lines = b"\n".join(random_line(draw) for _ in range(100000))
    found = numeral_in_c(data=lines)
    assert found == numeral(data=lines) and found[0] == 0
    assert found[1].count(b"\n") == lines.count(b"\n") + (lines[-1:] != b"\n")
    assert len(set(found[1].splitlines())) > 1000 and b"ok " in found[1] and b"err " in found[1]


@pytest.mark.by_hand
def test_ten_million_lines(numeral, numeral_in_c, tmp_path):
    draw = random.Random(2)
    some = b"".join(it.replace(b"\n", b"") + b"\n" for it in map(random_line, [draw] * 100000))
    with open(tmp_path / "lines", "wb") as lines:
        for _ in range(100):
            lines.write(some)
    wanted = numeral_in_c(data=some)[1]
    for program in (numeral, numeral_in_c):
        with open(tmp_path / "lines", "rb") as asked, open(tmp_path / "said", "wb") as said:
            assert program(stdin=asked, stdout=said, megabytes=MEGABYTES)[0] == 0
        with open(tmp_path / "said", "rb") as said:
            assert all(said.read(len(wanted)) == wanted for _ in range(100)) and not said.read(1)


def test_full_disk(program):
    for data in (LINES, LINES * 20000):  # shorter and longer than the buffer
        assert program.onto_a_full_disk(data=data) == (1, b"")


def test_closed_output(program):
    listener, speaker = os.pipe()
    os.close(listener)
    assert program(data=LINES, stdout=speaker)[::2] == (1, b"")
    os.close(speaker)


def test_no_input(program):
    assert program.of_no_file() == (1, b"", b"")


def test_little_memory(program):
    """The lines before the current one are answered."""
    data = LINES + LONG + b"\n" + LINES
    assert program(data=data, megabytes=MEGABYTES) == (2, ANSWERS, b"")


def test_dialogue(program):
    """One process prints a number and another reads it back, line by line."""
    number = -1
    with program.dialogue() as printer, program.dialogue() as reader:
        for count in range(ROUNDS):
            printed = printer.ask(f"print i128 ten_thousand traditional upper {number}")
            read = reader.ask(f"read i128 ten_thousand {printed[3:]}")
            assert (printed[:3], read) == ("ok ", f"ok {number}")
            assert (printer if count % 2 else reader).ask("hello") == "bad line"
            number = -number * 7 % 10**37 * (-1) ** count + count


def growths(program, lines):
    """The number of memory requests of a run on these lines."""
    return len(program.each_growth_refused(data=lines))


def test_memory(program):
    """Let the first k lines make G(k) memory requests. If request n is refused, with
    G(k) < n <= G(k + 1), exactly the answers to the first k lines are written, and none if
    n <= G(0). No line is answered with out of memory."""
    lines = (TOP / "crates/numeral/stdin").read_bytes().splitlines(keepends=True)
    taken = [growths(program, b"".join(lines[:count])) for count in range(len(lines))]
    answers = program(data=b"".join(lines))[1].splitlines(keepends=True)
    written = program.each_growth_refused(data=b"".join(lines))
    taken.append(len(written))
    assert (
        taken == sorted(taken) and len(answers) == len(lines) and b"memory" not in b"".join(answers)
    )
    for number, short in enumerate(written, 1):
        answered = max(sum(it < number for it in taken) - 1, 0)
        assert short == b"".join(answers[:answered]), f"growth {number} refused"


def test_lines_without_memory(program):
    """The proved program requests its buffer for the output, and the other nothing; a line that one
    read returns requests nothing."""
    at_first = growths(program, b"")
    assert at_first <= 1
    assert [growths(program, it * COUNT) for it in (READING, PRINTING)] == [at_first] * 2
