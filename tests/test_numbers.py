"""The output and the status of `numbers` for its options and its input.

Answers go to standard output, and for an unknown word the usage goes to standard error; the other
stays empty. If a memory request is refused, the status is 2 and the complete answers to the first
lines are written; each request is tried.
"""
import itertools

import pytest

LARGE = "九千九百九十九兆九千九百九十九億"
# Options, the input, and the output, with status 0.
ANSWERED = [
    ([], "", ""),
    ([], "\n", ""),
    ([], "第二十三回", "1:2 二十三 23\n"),
    ([], "第二十三回\n", "1:2 二十三 23\n"),
    ([], "二十三\r\n", "1:1 二十三 23\n"),
    ([], "五六十歲", "1:1 五六十 err the chinese number is incorrect (position: 0)\n"),
    ([], "\n\n買2兩", "3:2 2 2\n3:3 兩 2\n"),
    ([], "x四\né五\n文六\n😀七", "1:2 四 4\n2:2 五 5\n3:2 六 6\n4:2 七 7\n"),
    ([], "二　三\u2028四", "1:1 二 2\n1:3 三 3\n1:5 四 4\n"),
    ([], "三個人、三個億", "1:1 三 3\n1:5 三個億 300000000\n"),
    ([], "三京", "1:1 三 3\n"),
    (["--all"], "三京", "1:1 三京 30000000000000000\n"),
    ([], "初三參加", "1:2 三 3\n"),
    (["--all"], "初三參加", "1:2 三參 33\n"),
    (
        ["--all"],
        "壹佰元正",
        "1:1 壹佰 100\n1:4 正 err the chinese number is incorrect (position: 0)\n",
    ),
    ([], "9" * 40, "1:1 " + "9" * 40 + " err number is too large\n"),
    ([], LARGE, f"1:1 {LARGE} 9999999900000000\n"),
    (["ten_thousand"], "三兆", "1:1 三兆 3000000000000\n"),
    (["low"], "三兆", "1:1 三兆 3000000\n"),
    (["middle"], "三兆", "1:1 三兆 30000000000000000\n"),
    (["high"], "三兆", "1:1 三兆 30000000000000000\n"),
    (["low", "--all", "high"], "三兆貳", "1:1 三兆貳 32000000000000000\n"),
    (["--all", "low"], "三兆", "1:1 三兆 3000000\n"),
    (["--exact"], "占12.5%，共3.5万", "1:2 12.5% 125/1000\n1:9 3.5万 350000/10\n"),
    (["--exact"], "-5\n廿三", "1:1 -5 -5\n2:1 廿三 23\n"),
    (["--exact"], "气温-5，3-5万，A-1", "1:3 -5 -5\n1:6 3 3\n1:8 5万 50000\n1:13 1 1\n"),
    (["--exact"], "1,280.50元", "1:1 1,280.50 128050/100\n"),
    (["--exact"], "百分之百，负三点五", "1:1 百分之百 100/100\n1:6 负三点五 -35/10\n"),
    (["--exact"], "１２．５", "1:1 １２．５ 125/10\n"),
    (["--exact"], "x 0极", "1:3 0 0\n"),
    (["--exact", "--all"], "x 0极", "1:3 0极 err number is too large\n"),
    (
        ["--exact"],
        "有一百二点五",
        "1:2 一百二点五 err the chinese number is incorrect (position: 3)\n",
    ),
    (["low", "--exact"], "1.5兆", "1:1 1.5兆 15000000/10\n"),
    (["--exact", "--all", "--exact"], "叁点五", "1:1 叁点五 35/10\n"),
    ([], "占12.5%", "1:2 12 12\n1:5 5 5\n"),
]
# Lines that are not UTF-8: with a byte that begins no character, a truncated character, a
# surrogate, and an overlong character.
BAD = [b"\xff", "三".encode()[:2], "三".encode() + b"\xed\xa0\x80", b"\xc0\x80"]
# Options with an unknown one: the usage, with status 2.
UNKNOWN = [
    ["--every"],
    ["-"],
    [""],
    ["naive"],
    ["Low"],
    ["--all", "all"],
    ["--help", "me"],
    ["--exact", "exact"],
    ["low", "二十三"],
]
SAMPLE = "第二十三回，他五六十歲\n買2兩\n".encode() + b"\xff\n" + "初三".encode()


MANY = "二十三\n".encode() * 20000


@pytest.mark.parametrize("words, text, answer", ANSWERED, ids=map(str, range(len(ANSWERED))))
def test_answers(numbers, words, text, answer):
    assert numbers(*words, data=text.encode()) == (0, answer.encode(), b"")


@pytest.mark.parametrize("line", BAD, ids=repr)
def test_bad_lines(numbers, line):
    lines = "二\n".encode() + line + "\n三\n".encode() + line
    answer = "1:1 二 2\n2:1 bad line\n3:1 三 3\n4:1 bad line\n".encode()
    assert numbers(data=lines) == (0, answer, b"")


def test_usage(numbers):
    status, usage, error = numbers("--help")
    assert (status, usage[:15], usage[-1:], error) == (0, b"usage: numbers ", b"\n", b"")
    assert numbers("--all", "--help", "low", data=SAMPLE) == (0, usage, b"")
    for words in UNKNOWN:
        assert numbers(*words, data=SAMPLE) == (2, b"", usage), words


def test_many_lines(numbers):
    answers = b"".join(b"%d:1 %s 23\n" % (line, MANY[:9]) for line in range(1, 20001))
    assert numbers(data=MANY) == (0, answers, b"")


def test_full_disk(numbers):
    for words, data in (([], SAMPLE), ([], MANY), (["--help"], b"")):
        assert numbers.onto_a_full_disk(*words, data=data)[0] == 1
    with open("/dev/full", "wb") as full:
        assert numbers(*UNKNOWN[0], stderr=full)[0] == 1


def test_no_input(numbers):
    assert numbers.of_no_file() == (1, b"", b"")


def test_dialogue(numbers):
    with numbers.dialogue() as dialogue:
        for line in range(1, 101):
            assert dialogue.ask("他三十歲") == f"{line}:2 三十 30"


def first_answers(answers):
    """The complete answers to the first lines, for each number of lines."""
    of_lines = itertools.groupby(answers.splitlines(True), lambda answer: answer.split(b":")[0])
    return list(itertools.accumulate((b"".join(line) for _, line in of_lines), initial=b""))


@pytest.mark.parametrize(
    "words, data",
    [([], b""), (["--all", "high"], SAMPLE), (["--exact"], SAMPLE), (["--help"], b"")],
)
def test_memory(numbers, words, data):
    allowed = first_answers(numbers(*words, data=data)[1])
    written = numbers.each_growth_refused(*words, data=data)
    assert all(it in allowed for it in written)


def test_memory_for_a_long_line(numbers):
    """The last request is for the long line, so the line before it is answered."""
    written = numbers.each_growth_refused(data=b"\xff\n" + "二十三，".encode() * 30000)
    assert set(written) <= {b"", b"1:1 bad line\n"} and written[-1]
