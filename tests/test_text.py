"""Compares the numbers found in random texts with the model of the rules in tests/models; its head
says how it was written. `python3 tests/models/compare.py 1000000` tries more texts.

Each day of 400 years and each minute of a day are found, as people write them, and again after they
are written in figures; the values are those of datetime."""
import random
import re
import sys
from datetime import date, datetime, time, timedelta
from functools import cache
from itertools import product

import pytest

from corpus import WITH_PHRASES, sentences
from running import TOP
from test_python import module_over

COUNT, SEED = 3000, 20261129


@pytest.fixture(scope="module")
def library(of_c_source):
    with module_over(of_c_source) as module:
        yield module


@pytest.fixture
def models(monkeypatch):
    """The modules of tests/models can be imported."""
    monkeypatch.syspath_prepend(TOP / "tests/models")
    monkeypatch.setattr(sys, "dont_write_bytecode", True)


def test_model(library, models):
    import compare

    source = random.Random(SEED)
    texts = compare.random_texts(COUNT, source)
    assert compare.differences(library, source, texts) == []


@pytest.mark.parametrize("options", [{}, {"compact": True}])
def test_lines(library, options):
    """Each line of a text is rewritten by itself, and stays when it is rewritten again."""
    lines = [it[3] for it in sentences()]
    lines += [it[2] for name in WITH_PHRASES for it in sentences(name)]
    written = [library.text_to_figures(it, **options) for it in lines]
    assert library.text_to_figures("\n".join(lines), **options) == "\n".join(written)
    assert library.text_to_figures("\n".join(written), **options) == "\n".join(written)


@cache
def digits(number):
    return "".join("〇一二三四五六七八九"[int(it)] for it in str(number))


@cache
def numeral(number):
    """A number up to 99, by units."""
    tens, ones = divmod(number, 10)
    ten = "十" if tens == 1 else digits(tens) + "十"
    return (ten if tens else "") + (digits(ones) if ones else "") or "零"


def assert_found(library, texts, values):
    """Texts are found whole, parted by commas, with their values."""
    found = [(it.text, it.value) for it in library.find_phrases("，".join(texts))]
    assert found == list(zip(texts, values))
    assert all(type(it) is type(value) for (_, it), value in zip(found, values))


def compact(value, figures):
    """The shortest form of a date or a time; its figures, if it stays in characters, names a day, or its
    hour of 24 is not known."""
    if not re.search("[0-9]", figures) or figures[0] in "今明昨当當":
        return figures
    if isinstance(value, date):
        return value.isoformat()
    if isinstance(value, time):
        return f"{value:%H:%M}"
    return "24:00" if value.hour_of_day == 24 else figures


def assert_in_figures(library, written):
    """The texts are found, and what the library has to write for them in figures, which is the second
    of each entry; and as short as possible."""
    texts, figures, values = zip(*written)
    for parts in {texts, figures}:
        assert_found(library, parts, values)
    text = "，".join(texts)
    assert library.text_to_figures(text) == "，".join(figures)
    short = "，".join(map(compact, values, figures))
    assert library.text_to_figures(text, compact=True) == short
    assert library.text_to_figures(short) == short


ZEROS_AND_DAYS = list(product("〇零", "日号"))
FORMS = "%Y年%m月%d日|%Y-%m-%d|%Y/%m/%d|%Y-%-m-%-d|%Y/%-m/%-d|%Y 年 %-m 月 %-d 日".split("|")


def days(year):
    first = date(year, 1, 1)
    return [first + timedelta(it) for it in range((date(year + 1, 1, 1) - first).days)]


def test_days(library):
    """Of 2000 to 2399, after which the calendar repeats; days take turns in being in figures, years in
    their zeros and in what is after the day. The library writes those of the first 50 years in
    figures, which takes longest."""
    for year in range(2000, 2400):
        turn, its_days = sum(divmod(year, 4)), days(year)
        zero, day = ZEROS_AND_DAYS[turn % 4]
        its = digits(year).replace("〇", zero)
        texts = [f"{its}年{numeral(it.month)}月{numeral(it.day)}{day}" for it in its_days]
        figures = [f"{year}年{it.month}月{it.day}{day}" for it in its_days]
        in_figures = slice(turn // 4 % 2, None, 2)
        texts[in_figures] = figures[in_figures]
        assert_found(library, texts, its_days)
        if year < 2050:
            assert library.text_to_figures("，".join(texts)) == "，".join(figures)


def test_days_in_figures(library):
    for year in range(2000, 2012):
        for form in FORMS:
            texts = [it.strftime(form) for it in days(year)]
            assert_in_figures(library, list(zip(texts, texts, days(year))))


# The hours of 24 at which a word of half a day is said, with an hour up to 12.
HALF_DAYS = {
    "凌晨": range(6),
    "清晨": range(4, 9),
    "早上": range(5, 11),
    "上午": range(7, 13),
    "中午": range(11, 15),
    "正午": range(12, 13),
    "下午": range(12, 19),
    "午后": range(13, 18),
    "傍晚": range(17, 21),
    "晚上": range(17, 24),
    "今晚": range(17, 24),
    "夜里": (*range(19, 24), *range(1, 5)),
    "深夜": (*range(21, 24), *range(1, 4)),
    "": (0, *range(13, 24)),
}


def written_minutes(minute):
    """What people write for minutes after 点, and this in figures."""
    yield f"{numeral(minute)}分", f"{minute}分"
    if minute < 10:
        yield f"零{digits(minute)}分", f"0{minute}分"
    if minute == 30:
        yield "半", "半"
    if minute in (15, 45):
        yield f"{digits(minute // 15)}刻", f"{digits(minute // 15)}刻"
    if minute > 10:
        yield numeral(minute), str(minute)


def written_time(word, hour, minute):
    """What people write for a time, and this in figures. 十四点六分 without a word may be a score, and
    stays."""
    for hours in {numeral(hour), "两" if hour == 2 else numeral(hour)}:
        for text, figures in written_minutes(minute):
            stays = not word and minute < 10 and text == f"{numeral(minute)}分"
            written = f"{word}{hours}点{text}"
            yield written, written if stays else f"{word}{hour}点{figures}"
        yield f"{word}{hours}时{numeral(minute)}分", f"{word}{hour}时{minute}分"
        if word and not minute:
            yield f"{word}{hours}点", f"{word}{hour}点"
        if word and 0 < minute < 10:
            yield f"{word}{hours}点零{digits(minute)}", f"{word}{hour}点0{minute}"
    for text in (f"{hour}点{minute:02}分", f"{hour}时{minute}分", f"{hour}:{minute:02}"):
        yield word + text, word + text
    yield f"{word}{hour:02}：{minute:02}", f"{word}{hour:02}：{minute:02}"


def test_minutes(library):
    """Of a day, with a word of half a day, or without one at hours that need none."""
    day = [(datetime.min + timedelta(minutes=it)).time() for it in range(24 * 60)]
    for word, hours in HALF_DAYS.items():
        written = []
        for its in (it for it in day if it.hour in hours):
            hour = its.hour if not word else its.hour % 12 or 12
            written += [(*it, its) for it in written_time(word, hour, its.minute)]
        assert_in_figures(library, written)


def test_minutes_without_half(library):
    """From 1 to 12 the hour of 24 is not known without a word; midnight is not the next day."""
    for hour in range(1, 13):
        for minute in range(60):
            its = library.ClockTime(hour, minute)
            assert_in_figures(library, [(*it, its) for it in written_time("", hour, minute)])
    for word in ("晚上", "夜里", "半夜", "午夜", "今晚"):
        for minute in range(60):
            its = time(0, minute) if minute else library.ClockTime(12, hour_of_day=24)
            assert_in_figures(library, [(*it, its) for it in written_time(word, 12, minute)])


def assert_read_back(library, texts, values, spoken=None):
    """Each text is spoken without a figure, and what is spoken is found whole, with this value. `spoken`
    says what it must be, where the rules say that in few words."""
    said = library.text_to_speech("，".join(texts))
    assert not re.search("[0-9]", said)
    if spoken:
        assert said == "，".join(spoken)
    assert_found(library, said.split("，"), values)


def test_spoken_days(library):
    for year in range(1950, 2050):
        spelled = digits(year).replace("〇", "零")
        said = [f"{spelled}年{numeral(it.month)}月{numeral(it.day)}日" for it in days(year)]
        for form in FORMS[year % 2], FORMS[year % 6]:
            assert_read_back(library, [it.strftime(form) for it in days(year)], days(year), said)


def test_spoken_times(library):
    """Each minute of a day, of which the full hours are no times without a word; each second of an hour.
    From 1 to 12 the hour of 24 is not known without a word."""
    minutes = [time(hour, it) for hour in range(24) for it in range(1, 60)]
    values = [library.ClockTime(it.hour, it.minute) if 1 <= it.hour <= 12 else it for it in minutes]
    assert_read_back(library, [f"{it:%H:%M}" for it in minutes], values)
    assert_read_back(library, [f"{it:%-H:%M}" for it in minutes], values)
    seconds = [time(15, minute, it) for minute in range(60) for it in range(1, 60)]
    assert_read_back(library, [f"{it:%H:%M:%S}" for it in seconds], seconds)
    hours = [f"{hour}:00" for hour in range(24)]
    assert library.text_to_speech("，".join(hours)) == "，".join(
        f"{'两' if hour == 2 else numeral(hour)}点" for hour in range(24)
    )


def test_spoken_sums(library):
    """Sums of money, chosen at random."""
    source = random.Random(SEED)
    for _ in range(COUNT // 10):
        fen = [source.randrange(10 ** source.randrange(3, 13)) for _ in range(20)]
        texts = [f"￥{it // 100}.{it % 100:02}" for it in fen]
        said = library.text_to_speech("；".join(texts)).split("；")
        assert [library.to_quantity(it[:-1]).to_fraction() * 100 for it in said] == fen
        assert all(it.endswith("元") for it in said)


def test_spoken_lines(library):
    """Each line of a text is spoken by itself; what has no figure stays."""
    lines = [row[3] for row in sentences()] + [row[2] for row in sentences("phrases")]
    lines += [row[3] for row in sentences("speech")]
    said = [library.text_to_speech(it) for it in lines]
    assert library.text_to_speech("\n".join(lines)) == "\n".join(said)
    assert all(a == b for a, b in zip(lines, said) if not re.search("[0-9０-９]", a))
    for line, new in zip(lines, said):
        # What is left has figures, and stays; without it no figure is left.
        left = [it.text for it in library.find_unspoken(line)]
        assert all(re.search("[0-9０-９]", it) for it in left)
        assert "".join(re.findall("[0-9０-９]+", new)) == "".join(
            re.findall("[0-9０-９]+", "，".join(left))
        )
