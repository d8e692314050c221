"""The output and the status of `cheque` for its arguments.

An answer goes to standard output, a refusal or the usage to standard error; the other stays empty.
If a memory request is refused, the status is 2 and nothing is written; each request is tried.
"""
import pytest

NOT_FINISHED = "the amount is not finished"
DATE_NOT_FINISHED = "the date is not finished"
NO_DATE = "there is no such date"
TOO_LARGE = "number is too large"
GREATEST = "玖仟玖佰玖拾玖万玖仟玖佰玖拾玖亿玖仟玖佰玖拾玖万玖仟玖佰玖拾玖元玖角玖分"


def at(place):
    return f"the amount is incorrect (position: {place})"


def date_at(place):
    return f"the date is incorrect (position: {place})"


# A word, and the standard output, with status 0.
ANSWERED = {
    "1409.50": "壹仟肆佰零玖元伍角整",
    "1409.5": "壹仟肆佰零玖元伍角整",
    "15": "壹拾伍元整",
    "0015.00": "壹拾伍元整",
    "0": "零元整",
    "0.05": "伍分",
    "107000.53": "壹拾万零柒仟元伍角叁分",
    "1,409.50": "壹仟肆佰零玖元伍角整",
    "15.0000": "壹拾伍元整",
    "¥15": "壹拾伍元整",
    "￥15": "壹拾伍元整",
    "１５": "壹拾伍元整",
    "1５": "壹拾伍元整",
    "1.５": "壹元伍角整",
    "9999999999999999.99": GREATEST,
    "壹仟肆佰零玖元伍角": "1409.50",
    "人民幣壹拾伍圓正": "15.00",
    "零元整": "0.00",
    "伍分": "0.05",
    GREATEST: "9999999999999999.99",
    "2026-01-15": "贰零贰陆年零壹月壹拾伍日",
    "2026-10-20": "贰零贰陆年零壹拾月零贰拾日",
    "0005-03-01": "伍年叁月零壹日",
    "2024-02-29": "贰零贰肆年零贰月贰拾玖日",
    "9999-12-31": "玖玖玖玖年壹拾贰月叁拾壹日",
    "贰零贰陆年零壹月壹拾伍日": "2026-01-15",
    "贰零贰陆年零壹拾月零贰拾日": "2026-10-20",
    "伍年零叁月零壹日": "0005-03-01",
    "貳零參陸年零貳月零叄日": "2036-02-03",
    "玖玖玖玖年壹拾贰月叁拾壹日": "9999-12-31",
}
# A word, and the refusal, with status 1.
REFUSED = {
    "": NOT_FINISHED,
    "15.": NOT_FINISHED,
    "壹佰元": NOT_FINISHED,
    "1.505": at(4),
    "1.5.0": at(3),
    "1..5": at(2),
    ".50": at(0),
    "-1": at(0),
    "+1": at(0),
    "−1": at(0),
    "¥": NOT_FINISHED,
    "¥¥15": at(1),
    "￥壹元整": at(1),
    "，15": at(0),
    " 15": at(0),
    "15 ": at(2),
    "15元": at(2),
    "1e3": at(1),
    "--help me": at(0),
    "10000000000000000": TOO_LARGE,
    "9" * 400: TOO_LARGE,
    "9" * 400 + "x": at(400),
    "拾伍元整": at(0),
    "壹佰贰元整": at(3),
    "人民币 壹元整": at(3),
    "2026-": DATE_NOT_FINISHED,
    "2026-01": DATE_NOT_FINISHED,
    "2026-01-1": DATE_NOT_FINISHED,
    "贰零贰陆年零壹月": DATE_NOT_FINISHED,
    "202-01-15": date_at(3),
    "20260-01-15": date_at(4),
    "2026-1-15": date_at(6),
    "2026-01/15": date_at(7),
    "2026-01-15 ": date_at(10),
    "2026-01-155": date_at(10),
    "2026-０1-15": date_at(5),
    "2026/01/15": at(4),
    "20260115-": date_at(4),
    "2025-02-29": NO_DATE,
    "1900-02-29": NO_DATE,
    "2026-13-01": NO_DATE,
    "2026-00-01": NO_DATE,
    "2026-01-00": NO_DATE,
    "0000-01-01": NO_DATE,
    "贰零贰伍年零贰月贰拾玖日": date_at(10),
    "贰零贰伍年零贰月零叁拾日": date_at(10),
    "二零二六年": date_at(0),
    "贰零贰陆年 零壹月": date_at(5),
}
# Arguments that are no question: the usage, with status 2.
UNKNOWN = [
    (),
    ("1", "2"),
    ("--prefix",),
    ("--prefix", "壹元整"),
    ("15", "--prefix"),
    ("--prefix", "1", "2"),
    ("--prefix", "2026-01-15"),
    ("2026-01-15", "--prefix"),
]


# Amounts and dates, written and read.
WORDS = ["15", "壹元整", "2026-01-15", "伍年叁月零壹日"]


def told(program, *words):
    status, output, error = program(*words)
    return status, output.decode(), error.decode()


def test_answers(cheque):
    wanted = {word: (0, f"{answer}\n", "") for word, answer in ANSWERED.items()}
    assert {word: told(cheque, word) for word in wanted} == wanted
    assert told(cheque, "--prefix", "15") == (0, "人民币壹拾伍元整\n", "")


def test_refusals(cheque):
    wanted = {word: (1, "", f"{error}\n") for word, error in REFUSED.items()}
    assert {word: told(cheque, word) for word in wanted} == wanted


def test_usage(cheque):
    status, usage, error = told(cheque, "--help")
    assert (status, usage[:14], error) == (0, "usage: cheque ", "")
    assert {words: told(cheque, *words) for words in UNKNOWN} == {
        it: (2, "", usage) for it in UNKNOWN
    }


@pytest.mark.parametrize("word", WORDS)
def test_full_disk(cheque, word):
    assert cheque.onto_a_full_disk(word)[0] == 1


@pytest.mark.parametrize("word", WORDS)
def test_memory(cheque, word):
    written = cheque.each_growth_refused(word)
    assert written and not any(written)
