"""A reference model of phrases in a text: dates, times of day, durations, halves, lengths, scores, sums
of money and ranges.

It was written from the section 'Phrases in a text' of docs/RULES.md by somebody who saw no code; the
sums of money by the author of their rules, before there was code. A
phrase is looked for at each character of a text from the left, outside of what is found already. A
form is a list of steps: slots, with the letters of RULES, and words. The model of expressions is
text.py.

Where RULES leaves two readings, these are taken: a year has figures or Chinese digits, not both;
the digit after 零 or 〇 is a Chinese one; a slot that has no value is no letter of a form; a part of
a month is a word and no slot, so a letter may follow it; a link is no `-` between slots; two
Chinese digits are no year before an ASCII `-` or `/` alone; what is said of Y-M-D, H:MM and N米F
holds for Y/M/D, H:MM:SS and the other lengths; 早 and 晚 are part of no phrase only before the words
一点; a date is directly after an era, 农历 and so on, or 民國, which is in this script only; with the
units that count for it, the first end of a range is a quantity, or the range is refused.
"""

import re
from fractions import Fraction
from functools import lru_cache
from itertools import product
from typing import (
    Any,
    Callable,
    Dict,
    FrozenSet,
    Iterator,
    List,
    NamedTuple,
    Optional,
    Tuple,
    Union,
)

import text as numbers
from text import LINKS, Found, Line, Options, at, has_figure, is_chinese_digit, is_figure, is_letter

SLOT_CHARS = frozenset("零〇一二两兩三四五六七八九十百")
DAYS_OF_MONTHS = (31, 28, 31, 30, 31, 30, 31, 31, 30, 31, 30, 31)

# The parts of a date or a time, two numbers, or one; None for a part that is not given or not known.
Number = Union[int, Fraction]
Value = Union[Tuple[Optional[Number], ...], Number]


class Slot(NamedTuple):
    """A letter of a form, with its place in the text."""

    letter: str
    start: int
    end: int
    text: str


class Text(NamedTuple):
    """A text with its expressions."""

    line: Line
    by_start: Dict[int, Found]
    slot_ends: List[int]  # where the stretch of characters of slots ends, from each place on
    ends: FrozenSet[int]
    inside: FrozenSet[int]  # the places at which an expression goes on

    def at(self, i: int) -> str:
        return self.line.at(i)


class Phrase(NamedTuple):
    kind: str
    start: int
    end: int
    text: str
    slots: List[Slot]
    words: str  # the words of the form, without blanks
    is_linked: bool = False  # a linked form
    half_day: str = ""
    value: Optional[Value] = None  # None if it is refused
    is_doubtful: bool = False
    is_one_character: bool = False


NONZERO = "[一二两兩三四五六七八九]"
COUNT = re.compile(f"[零〇]|{NONZERO}|{NONZERO}?十{NONZERO}?")


def is_slot_char(c: str) -> bool:
    return is_figure(c) or c in SLOT_CHARS


# ---- The letters of the forms ----------------------------------------------------------------


def ascii_of(text: str) -> str:
    return "".join(numbers.FIGURES.get(c, c) for c in text)


def are_figures(text: str, least: int, most: int) -> bool:
    return least <= len(text) <= most and all(is_figure(c) for c in text)


def are_digits(text: str) -> bool:
    """Chinese digits alone."""
    return all(is_chinese_digit(c) for c in text)


def numeral_value(text: str) -> Optional[int]:
    """The whole number of a numeral without figures; a numeral may be misread."""
    if has_figure(text):
        return None
    value = numbers.read_by_itself(text)
    return numbers.whole_number(text) if value is None else value


def is_count(text: str) -> bool:
    """One or two figures, one Chinese digit, or 十 with digits around it or not."""
    return are_figures(text, 1, 2) or COUNT.fullmatch(text) is not None


def is_zero_and_digit(text: str) -> bool:
    """Z: 零 or 〇 and a digit."""
    return len(text) == 2 and text[0] in "零〇" and is_chinese_digit(text[1])


def is_clock(text: str) -> bool:
    """H, M and S in a time."""
    return is_count(text) or is_zero_and_digit(text)


def is_bare_minute(text: str) -> bool:
    """B."""
    return len(text) > 1 and is_count(text)


def is_two_figures(text: str) -> bool:
    return are_figures(text, 2, 2)


def is_one_digit(text: str) -> bool:
    """Q: a digit."""
    return are_figures(text, 1, 1) or (len(text) == 1 and are_digits(text))


def is_decimals(text: str) -> bool:
    """F: one or two digits of one kind."""
    return are_figures(text, 1, 2) or (1 <= len(text) <= 2 and are_digits(text))


def is_number(text: str) -> bool:
    """N: a whole number up to 999."""
    if are_figures(text, 3, 3):
        return ascii_of(text[0]) != "0"
    if is_count(text):
        return True
    rest, has_hundreds = text[2:], re.match(f"{NONZERO}百", text) is not None
    is_rest = not rest or is_zero_and_digit(rest) or (len(rest) > 1 and is_count(rest))
    return has_hundreds and is_rest


def is_year(text: str) -> bool:
    """Y of four: figures or Chinese digits, the first 1 or 2."""
    if len(text) != 4 or numbers.digit_of(ascii_of(text[0])) not in (1, 2):
        return False
    return are_figures(text, 4, 4) or are_digits(text)


@lru_cache(maxsize=100_000)
def has_shape(letter: str, text: str) -> bool:
    return bool(text) and SHAPES[letter](text)


def is_of_letter(text: Text, slot: Slot) -> bool:
    """A slot has the shape of its letter."""
    if re.search("[两兩]", slot.text[1:]):
        return False
    if slot.letter in "Yy":
        if is_year(slot.text) or (slot.letter == "y" and has_shape("N", slot.text)):
            return True
        is_pair = len(slot.text) == 2 and are_digits(slot.text) and text.at(slot.end) not in "-/"
        return is_pair and not numbers.is_about(text.line, slot.start, slot.end)
    return has_shape(slot.letter, slot.text)


# The letters of RULES; y is Y before 月, m, d and s are M, D and S in times, X is MM and SS.
SHAPES: Dict[str, Callable[[str], bool]] = dict(
    M=is_count,
    D=is_count,
    S=is_count,
    m=is_clock,
    s=is_clock,
    H=is_clock,
    B=is_bare_minute,
    Z=is_zero_and_digit,
    Q=is_one_digit,
    X=is_two_figures,
    N=is_number,
    F=is_decimals,
)

# ---- The table of forms ----------------------------------------------------------------------

# Words with blanks between choices; each of these characters may be in either script.
SCRIPTS = {it[0]: it for it in "号號 点點 时時 个個 钟鐘 头頭 礼禮 纪紀 周週 岁歲 吨噸".split()}
RI, DIAN, DIAN_OR_SHI, LINK, COLON = "日 号", "点", "点 时", " ".join(LINKS), ": ："
HOURS, MINUTES, SECONDS = "小时 钟头 个小时 个钟头", "分 分钟", "秒 秒钟"
AFTER_HALF = "半小时 半钟头 半月 半星期 半礼拜 半世纪"
BEFORE_HALF = "年 天 周 岁 斤 里 吨 倍 米 度"
PART_OF_MONTH = "底 份 末 上旬 中旬 下旬 初"

Step = Union[str, Tuple[str, ...]]  # a letter, or words


class Form(NamedTuple):
    kind: str
    steps: List[Step]
    is_linked: bool = False
    has_half_day: bool = False
    has_figures_alone: bool = False

    def allows(self, slots: List[Slot]) -> bool:
        return not self.has_figures_alone or all(are_figures(it.text, 1, 4) for it in slots)


def choices(words: str) -> Tuple[str, ...]:
    """The words between blanks, in either script, and with characters of both."""
    written = (product(*(SCRIPTS.get(c, c) for c in word)) for word in words.split(" "))
    return tuple("".join(it) for word in written for it in word)


def form(kind: str, *steps: str, is_linked: bool = False, half_day: bool = False) -> Form:
    """A form: steps of one letter are slots, others are words."""
    parts: List[Step] = [it if it in SHAPES or it in "Yy" else choices(it) for it in steps]
    has_figures_alone = any(it in ("-", "/", COLON) for it in steps)
    return Form(kind, parts, is_linked, half_day, has_figures_alone)


def date_forms() -> Iterator[Form]:
    yield form("date", "y", "年", "M", "月", "D", RI)
    yield form("date", "y", "年", "M", "月")
    yield form("date", "M", "月", "D", RI)
    yield form("date", "Y", "年")
    yield form("date", "M", "月", PART_OF_MONTH)
    for bar in "-/":
        yield form("date", "Y", bar, "M", bar, "D")
    yield form("date", "M", "月", is_linked=True)
    yield form("date", "D", RI, is_linked=True)
    yield form("years", "Y", LINK, "Y", "年")
    for letter, words in (("M", "月"), ("D", RI)):
        yield form("dates", letter, words, LINK, letter, words)
        yield form("dates", letter, LINK, letter, words)


def time_forms() -> Iterator[Form]:
    for half_day in (True, False):
        yield form("time", "H", DIAN_OR_SHI, "m", "分", "s", "秒", half_day=half_day)
        yield form("time", "H", DIAN_OR_SHI, "m", "分", half_day=half_day)
        yield form("time", "H", DIAN, "B", half_day=half_day)
        if half_day:
            yield form("time", "H", DIAN, "Z", half_day=True)
        yield form("time", "H", DIAN_OR_SHI, "半", half_day=half_day)
        yield form("time", "H", DIAN_OR_SHI, "Q", "刻", half_day=half_day)
        yield form("time", "H", COLON, "X", COLON, "X", half_day=half_day)
        yield form("time", "H", COLON, "X", half_day=half_day)
        yield form("time", "H", DIAN_OR_SHI, half_day=half_day, is_linked=not half_day)


def other_forms() -> Iterator[Form]:
    yield form("duration", "N", HOURS, "M", MINUTES, "S", SECONDS)
    yield form("duration", "N", HOURS, "M", MINUTES)
    yield form("duration", "N", MINUTES, "S", SECONDS)
    yield form("half", "N", "个", AFTER_HALF)
    yield form("half", "N", BEFORE_HALF, "半")
    for unit in "米度秒":
        yield form("length", "N", unit, "F")
    yield form("score", "N", "比", "N")
    yield form("score", "N", COLON, "N")


FORMS = [*date_forms(), *time_forms(), *other_forms()]
WITH_HALF_DAY = [it for it in FORMS if it.has_half_day]
WITHOUT_HALF_DAY = [it for it in FORMS if not it.has_half_day]

# ---- Words of half a day, and weekdays -------------------------------------------------------

HALF_DAY = re.compile("[凌清早]晨|[上中下正]午|傍晚|[今明昨当當][晚早晨]|[深半午]夜|[早晚]上|[夜晚][里裡间間]|午[后後]|[早晚]")
WEEKDAY = re.compile("(?:[周週]|星期|[礼禮]拜)[一二三四五六]")


def ends_of_half_day(text: Text, start: int) -> Iterator[int]:
    """The ends of W at a place."""
    for words in (HALF_DAY, WEEKDAY):
        found = words.match(text.line.text, start)
        if found:
            yield found.end()


# ---- A form at a place -----------------------------------------------------------------------


def places_after(text: Text, end: int, is_first: bool) -> Iterator[int]:
    """Where the next step may begin: one blank may be beside a figure."""
    yield end
    beside = is_figure(text.at(end - 1)) or is_figure(text.at(end + 1))
    if not is_first and text.at(end) == " " and beside:
        yield end + 1


def slot_at(text: Text, letter: str, start: int) -> Slot:
    """The longest stretch of the characters of slots."""
    end = text.slot_ends[start]
    return Slot(letter, start, end, text.line.text[start:end])


def fits(
    text: Text, steps: List[Step], end: int, is_first: bool
) -> Iterator[Tuple[int, List[Slot], str]]:
    """The ends of some steps from a place on, with their slots and words."""
    if not steps:
        yield end, [], ""
        return
    for start in places_after(text, end, is_first):
        if isinstance(steps[0], str):
            slot = slot_at(text, steps[0], start)
            if is_of_letter(text, slot):
                for last, slots, words in fits(text, steps[1:], slot.end, False):
                    yield last, [slot] + slots, words
            continue
        for word in steps[0]:
            if text.line.text.startswith(word, start):
                for last, slots, words in fits(text, steps[1:], start + len(word), False):
                    yield last, slots, word + words


def is_adverb(word: str, hour: Slot, words: str) -> bool:
    """早一点 and 晚一点 are no times."""
    return word in ("早", "晚") and hour.text == "一" and words[0] in "点點"


def phrases_after_word(text: Text, start: int, end: int) -> Iterator[Phrase]:
    """The phrases with a word of half a day, or a weekday, at a place."""
    word = text.line.text[start:end]
    for it in WITH_HALF_DAY:
        for last, slots, words in fits(text, it.steps, end, False):
            if it.allows(slots) and not is_adverb(word, slots[0], words):
                written = text.line.text[start:last]
                yield Phrase(it.kind, start, last, written, slots, words, it.is_linked, word)


def phrases_from(text: Text, start: int) -> Iterator[Phrase]:
    """The phrases that begin at a place, whether they are allowed there or not."""
    for end in ends_of_half_day(text, start):
        yield from phrases_after_word(text, start, end)
    is_two = text.at(start) in "两兩" and start in text.ends
    if start in text.by_start or is_two:
        for it in WITHOUT_HALF_DAY:
            for last, slots, words in fits(text, it.steps, start, True):
                if it.allows(slots):
                    written = text.line.text[start:last]
                    yield Phrase(it.kind, start, last, written, slots, words, it.is_linked)


# ---- What is no phrase -----------------------------------------------------------------------


AFTER_NO_LENGTH = frozenset("年月日点點人个個分秒米度几幾多重層层關关種种次間间位條条名項项隻只元塊块倍級级樓楼座套臺台輛辆張张本天週周歲岁斤里")


def is_letter_or_bar(c: str) -> bool:
    return is_letter(c) or c == "_"


def ends_with_slot(phrase: Phrase) -> bool:
    return phrase.slots[-1].end == phrase.end


def is_no_date(text: Text, phrase: Phrase) -> bool:
    before, after = text.at(phrase.start - 1), text.at(phrase.end)
    if phrase.words in ("--", "//"):
        return before in "-/." or after in "-/.:"
    if phrase.words == "年":
        return before in "第周週每" or after in "华華"
    if phrase.words.startswith("月") and phrase.words != "月" and len(phrase.slots) == 1:
        if before in "某前上下每同意这這那":
            return True
        return phrase.words == "月初" and after in "一二三四五六七八九十"
    return phrase.words == "年月" and after == "初"


def is_no_time(text: Text, phrase: Phrase) -> bool:
    before, after = text.at(phrase.slots[0].start - 1), text.at(phrase.end)
    if re.search("[:：]", phrase.words):
        return before in ":：/.-" or after in ":：."
    if re.fullmatch(".分", phrase.words):
        then = text.at(phrase.end + 1)
        is_numerator = after == "之" and (is_slot_char(then) or then in "几幾")
        return after in "钟鐘" or is_numerator
    if re.fullmatch("[点點时時]", phrase.words) and len(phrase.slots) == 1:
        return after in SLOT_CHARS
    is_bare = phrase.slots[-1].letter in "BZ"
    return is_bare and after in "分几幾多元米度倍吨噸克升%％‰万萬亿億千"


def is_no_half(text: Text, phrase: Phrase) -> bool:
    return phrase.words.endswith("半") and text.at(phrase.end) in "载載夜天年价價"


def is_no_length(text: Text, phrase: Phrase) -> bool:
    return text.at(phrase.end) in AFTER_NO_LENGTH


def is_no_score(text: Text, phrase: Phrase) -> bool:
    before, after = text.at(phrase.start - 1), text.at(phrase.end)
    if phrase.words == "比":
        return after in "点點.年月日万萬千亿億"
    if before in ':：-/.[("%,，' or after in ":：.":
        return True
    return any(len(it.text) > 2 for it in phrase.slots)


NO_PHRASES: Dict[str, Callable[[Text, Phrase], bool]] = dict(
    date=is_no_date, time=is_no_time, half=is_no_half, length=is_no_length, score=is_no_score
)


def is_within(text: Text, start: int) -> bool:
    """What begins at a place, without W, is part of a word or a number."""
    before = text.at(start - 1)
    if numbers.is_after_week(text.line, start):
        return True
    if is_slot_char(before):
        return not any(WEEKDAY.fullmatch(text.line.text, i, start) for i in (start - 2, start - 3))
    return is_letter_or_bar(before) or before in "千仟万萬亿億"


def has_hour(text: Text, start: int) -> bool:
    """[W]H点 is at a place."""
    hour: List[Step] = ["H", choices(DIAN_OR_SHI)]
    for end in (start, *ends_of_half_day(text, start)):
        word = text.line.text[start:end]
        for _, slots, words in fits(text, hour, end, False):
            if not is_adverb(word, slots[0], words):
                return True
    return False


CLOCK = re.compile("[钟鐘](?!情)")
EVENT = re.compile("左右|[起开開集][飞飛会會门門合]|前(?![提瞻景置期功沿途程面方言卫者夕身线線列锋鋒端台辈輩例兆奏嘱任])")


def is_after_day(text: Text, start: int) -> bool:
    return text.at(start - 1) == "天" and text.at(start - 2) in "今明昨后後前当當每"


def is_by_event(text: Text, phrase: Phrase) -> bool:
    is_counted = text.at(phrase.start - 1) in "这這那哪第几幾差有每最以上"
    return not is_counted and EVENT.match(text.line.text, phrase.end) is not None


def is_linked(text: Text, phrase: Phrase) -> bool:
    """A linked form is directly after a link, or, of an hour, has another hour beside it."""
    before = text.at(phrase.start - 2) + text.at(phrase.start - 1)
    if phrase.kind == "date":
        return re.fullmatch(f"[月日号號][{LINKS}]", before) is not None
    if re.fullmatch(f"[点點时時半分刻][{LINKS}]|.[日号號]", before, re.DOTALL):
        return True
    if CLOCK.match(text.line.text, phrase.end):
        return True
    is_day = is_after_day(text, phrase.start) or is_by_event(text, phrase)
    if is_day and value_of(phrase.slots[0]) != 1:
        return True
    if text.at(phrase.end) not in LINKS:
        return False
    return has_hour(text, phrase.end + 1)


def is_phrase(text: Text, phrase: Phrase) -> bool:
    after = text.at(phrase.end)
    if phrase.end in text.inside or (not phrase.half_day and is_within(text, phrase.start)):
        return False
    if ends_with_slot(phrase):
        is_date = phrase.words in ("--", "//")
        if phrase.end not in text.ends or (is_letter_or_bar(after) and not is_date):
            return False
    is_no = NO_PHRASES.get(phrase.kind)
    return is_no is None or not is_no(text, phrase)


def form_at(text: Text, start: int) -> Optional[Phrase]:
    """The longest form at a place, of equal ones the first of the table."""
    best: Optional[Phrase] = None
    for phrase in phrases_from(text, start):
        if best is not None and phrase.end <= best.end:
            continue
        if is_phrase(text, phrase) and (not phrase.is_linked or is_linked(text, phrase)):
            best = phrase
    return best and judged(text, best)


# ---- Values ----------------------------------------------------------------------------------


def value_of(slot: Slot) -> int:
    """The number of a slot."""
    if all(is_figure(c) or is_chinese_digit(c) for c in slot.text):
        return int(numbers.ascii_figures(slot.text))
    hundreds, tens = slot.text[:2], slot.text[2:]
    if has_figure(tens):
        return (numeral_value(hundreds) or 0) + int(ascii_of(tens))
    return numeral_value(slot.text) or 0


def is_leap(year: int) -> bool:
    return year % 4 == 0 and (year % 100 != 0 or year % 400 == 0)


def date_value(phrase: Phrase) -> Optional[Value]:
    """The year, the month and the day."""
    values = {it.letter.upper(): value_of(it) for it in phrase.slots}
    year, month, day = values.get("Y"), values.get("M"), values.get("D")
    if month is not None and not 1 <= month <= 12:
        return None
    days = 31 if month is None else DAYS_OF_MONTHS[month - 1]
    if month == 2 and (year is None or year < 100 or is_leap(year)):
        days = 29
    return (year, month, day) if day is None or 1 <= day <= days else None


def dates_value(phrase: Phrase) -> Optional[Value]:
    """The first and the last year, month or day."""
    first, second = (value_of(it) for it in phrase.slots)
    most = {"M": 12, "D": 31}.get(phrase.slots[0].letter)
    are_of_calendar = most is None or 1 <= first <= second <= most
    return (first, second) if first < second and are_of_calendar else None


def hour_of_day(hour: int, words: str) -> Optional[int]:
    """The hour of 24, by the word of half a day, if it is known."""
    if hour == 0 or hour > 12:
        return hour
    if not HALF_DAY.match(words):
        return None
    if words in ("下午", "午后", "午後"):
        return hour + 12 if hour <= 11 else hour
    if words in ("中午", "正午"):
        return hour + 12 if hour <= 2 else hour
    if "晚" in words and hour <= 4:
        return None
    if "晚" in words or "夜" in words:
        return hour + 12 if hour >= 5 else hour
    return 0 if words == "凌晨" and hour == 12 else hour


def time_value(phrase: Phrase) -> Optional[Value]:
    """The hour, the minute and the second, and the hour of 24."""
    hour, minute, second, *_ = [value_of(it) for it in phrase.slots] + [0, 0]
    if phrase.words.endswith("刻"):
        if not 1 <= minute <= 3:
            return None
        minute *= 15
    if phrase.words.endswith("半"):
        minute = 30
    if minute > 59 or second > 59 or (hour, minute, second) > (24, 0, 0):
        return None
    of_day = hour_of_day(hour, phrase.half_day)
    return hour, minute, second, 0 if of_day == 24 and (minute or second) else of_day


def duration_value(phrase: Phrase) -> Optional[Value]:
    """Seconds."""
    values = [value_of(it) for it in phrase.slots]
    units = (60, 1) if phrase.words[0] == "分" else (3600, 60, 1)
    return None if max(values[1:]) > 59 else sum(a * b for a, b in zip(values, units))


def half_value(phrase: Phrase) -> Optional[Value]:
    return value_of(phrase.slots[0]) + Fraction(1, 2)


def length_value(phrase: Phrase) -> Optional[Value]:
    whole, decimals = phrase.slots
    digits = numbers.ascii_figures(decimals.text)
    return value_of(whole) + Fraction(int(digits), 10 ** len(digits))


def score_value(phrase: Phrase) -> Optional[Value]:
    first, second = phrase.slots
    return value_of(first), value_of(second)


VALUES: Dict[str, Callable[[Phrase], Optional[Value]]] = dict(
    date=date_value,
    years=dates_value,
    dates=dates_value,
    time=time_value,
    duration=duration_value,
    half=half_value,
    length=length_value,
    score=score_value,
)


OF_MOON = frozenset("农農阴陰旧舊夏藏老")


def is_of_other_calendar(text: Text, phrase: Phrase) -> bool:
    """A date by the years of an era, or by the moon."""
    head, year = text.line.text[: phrase.start], phrase.slots[0].text
    has_year = phrase.words.startswith("年月")
    is_of_era = re.search("[十百]", year) is not None or numbers.is_one_character(year)
    if has_year and is_of_era and not head.endswith("民國"):
        return True
    is_of_moon = text.at(phrase.start - 1) in "历曆" and text.at(phrase.start - 2) in OF_MOON
    return is_of_moon or numbers.is_after_era(text.line, phrase.start)


def is_doubtful_number(text: Text, start: int, end: int) -> bool:
    """A number in a phrase may mean something else, or has the 一 of the next word."""
    doubt = numbers.doubt_of(text.line, start, end)
    is_other = doubt in ("word", "digits", "term", "time")
    return is_other or numbers.ends_in_next_word(text.line, start, end)


def is_doubtful(text: Text, phrase: Phrase) -> bool:
    """It may mean something else, or stays in characters by the standard."""
    first, last, after = phrase.slots[0], phrase.slots[-1], text.at(phrase.end)
    if numbers.is_in_title(text.line, phrase.start):
        return True
    if phrase.kind == "range":
        return after in "折成" or any(
            is_doubtful_number(text, it.start, it.end) for it in phrase.slots
        )
    if text.at(phrase.start - 1) in "○◯":
        return True
    if re.match("一[时時]半[会會刻]", text.line.text[phrase.start :]):
        return True
    if phrase.kind == "date" and phrase.words == "年" and has_figure(first.text):
        if ascii_of(first.text).endswith("00") and after in "前来來历歷间間":
            return True
    if phrase.kind == "date" and not re.search("[-/]", phrase.words) and not phrase.is_linked:
        return is_of_other_calendar(text, phrase)
    if phrase.kind != "time" or not re.fullmatch("[点點]分", phrase.words):
        return False
    is_after = phrase.half_day or text.at(phrase.start - 1) in "日号號"
    return not is_after and len(last.text) == 1 and are_digits(last.text)


def judged(text: Text, phrase: Phrase) -> Phrase:
    value = VALUES[phrase.kind](phrase)
    return phrase._replace(value=value, is_doubtful=is_doubtful(text, phrase))


# ---- Ranges ----------------------------------------------------------------------------------


def ends_of_range(text: Text, start: int) -> Optional[Tuple[Found, str, Found]]:
    """E link E: two expressions that are quantities, without blanks between."""
    first = text.by_start.get(start)
    if first is None or first.quantity is None or text.at(first.end) not in LINKS:
        return None
    second = text.by_start.get(first.end + 1)
    if second is None or second.quantity is None:
        return None
    return first, text.at(first.end), second


def quantity_of(end: Found) -> numbers.Quantity:
    """The quantity of an end of a range, which has one."""
    assert end.quantity is not None
    return end.quantity


def is_no_range(text: Text, first: Found, link: str, second: Found) -> bool:
    before, after = text.at(first.start - 1), text.at(second.end)
    for end in (first, second):
        quantity = quantity_of(end)
        if end.is_about or quantity.form == numbers.FRACTION or quantity.numerator < 0:
            return True
    if numbers.clings(text.line, first.start, second.end):
        return True
    if numbers.is_after_week(text.line, first.start):
        return True
    if link in "到至":
        return first.text == "一" and after in "点點时時月日号號"
    if second.text[0] in numbers.PLUS or second.text[0] in numbers.MINUS:
        return True
    if has_figure(first.text) != has_figure(second.text):
        return True
    if any(re.match("0[0-9]", ascii_of(end.text)) for end in (first, second)):
        return True
    return is_figure(before) or before in "-/.:：~=+^*×_$#@" or after in "-/~:：=+^*×_\\"


def ratio_of(quantity: numbers.Quantity) -> Fraction:
    return Fraction(quantity.numerator, quantity.denominator)


def is_multiplier(c: str) -> bool:
    return numbers.rank_of(c) >= 2


def shared_units(first: Found, second: Found) -> str:
    """The units of the second end of a range that count for the first too."""
    if any(is_multiplier(c) for c in first.text):
        return ""
    head = second.text
    while head and is_multiplier(head[-1]):
        head = head[:-1]
    before = numbers.quantity(head)
    if before is None or not 0 < ratio_of(quantity_of(first)) < ratio_of(before):
        return ""
    return second.text[len(head) :]


def is_percentage(end: Found) -> bool:
    return quantity_of(end).form == numbers.PERCENT


def shares_percent(first: Found, second: Found) -> bool:
    return is_percentage(first) != is_percentage(second)


def value_of_end(text: str, has_percent: bool) -> Optional[Fraction]:
    """The number of an end of a range, with what counts for it."""
    quantity = numbers.quantity(text)
    if quantity is None or len(text.encode()) > 48:
        return None
    is_divided = has_percent and quantity.form != numbers.PERCENT
    return ratio_of(quantity) / (100 if is_divided else 1)


def values_of_range(first: Found, second: Found) -> Optional[Tuple[Fraction, Fraction]]:
    """The two numbers, or None if they do not rise, or are too long or no quantities."""
    has_percent = shares_percent(first, second)
    start = value_of_end(first.text + shared_units(first, second), has_percent)
    end = value_of_end(second.text, has_percent)
    return None if start is None or end is None or start >= end else (start, end)


def range_at(text: Text, start: int) -> Optional[Phrase]:
    ends = ends_of_range(text, start)
    if ends is None or is_no_range(text, *ends):
        return None
    first, link, second = ends
    values = values_of_range(first, second)
    if values is None and link not in "到至":
        return None
    slots = [Slot("E", it.start, it.end, it.text) for it in (first, second)]
    written = text.line.text[first.start : second.end]
    phrase = Phrase("range", first.start, second.end, written, slots, link, value=values)
    return phrase._replace(is_doubtful=is_doubtful(text, phrase))


# ---- Sums of money ---------------------------------------------------------------------------

DIGITS_OF_MONEY = frozenset("一二两兩三四五六七八九")
PRICED = frozenset("斤个個公两兩克份张張条條件只隻瓶包箱盒本套台杯碗串双雙把枚颗顆粒根支袋片位人次天晚月年平方米尺度吨噸升桶筒盘盤捆束朵辆輛间間桌副对對罐小")
AFTER_OPEN = frozenset("的了吧啊呢吗嗎嘛呀哦啦哈咯")
AFTER_OPEN_NOT_ONE = frozenset("就也都还還才每左以不够夠涨漲降到至和或与與及跟卖賣买買给給收找退付便太贵貴好行可拿起没沒是那这這很真算要然")
NO_JIAO = frozenset("形星板铁鐵架尺旗洲债債恋戀区區巾毯豆线線衣地裤褲钉釘函茴楼樓亭帽梅枫楓鼎落度戏戲色球钢鋼龙龍鲨鯊羊")
NO_FEN = frozenset("钟鐘之熟地天甜糖")
NO_YUAN = frozenset("半几幾多余餘来來旦宵素组組音件宇桌形周心柱锥錐")
PAID_BY_MONTH = frozenset("租费費供薪卡票均收付缴繳")

DIGIT = "[0-9０-９一二两兩三四五六七八九]"
PARTS = re.compile(f"[元圆圓块塊][零〇]?({DIGIT})[角毛]({DIGIT})(分)[钱錢]?")
PARTS_OPEN = re.compile(f"[元圆圓块塊][零〇]?({DIGIT})[角毛]({DIGIT})")
JIAO = re.compile(f"[元圆圓块塊][零〇]?({DIGIT})([角毛])[钱錢]?")
FEN = re.compile(f"[元圆圓块塊][零〇]?({DIGIT})(分)[钱錢]?")
KUAI_OPEN = re.compile(f"[块塊]({DIGIT})")
JIAO_FEN = re.compile(f"[角毛]({DIGIT})(分)[钱錢]?")
JIAO_OPEN = re.compile(f"[角毛]({DIGIT})")
SMALL = re.compile("[角毛分][钱錢]")
YUAN_MONEY = re.compile("[元圆圓块塊][钱錢]")


def is_price_of_one(text: Text, end: int) -> bool:
    return text.at(end) == "一" and text.at(end + 1) in PRICED


def is_han(c: str) -> bool:
    return "\u4e00" <= c <= "\u9fff"


def is_open(text: Text, end: int) -> bool:
    """A digit that ends here may be the last of a sum."""
    c = text.at(end)
    if end == len(text.line.text) or is_price_of_one(text, end) or c in AFTER_OPEN:
        return True
    if is_han(c):
        is_free = c in AFTER_OPEN_NOT_ONE or text.line.text[end : end + 2] in ("包邮", "包郵")
        return is_free and text.at(end - 1) != "一"
    if is_figure(c) or is_chinese_digit(c) or is_letter(c) or c in "_%％‰":
        return False
    return not (c in ".．," and is_figure(text.at(end - 1)) and is_figure(text.at(end + 1)))


def ends_sum(text: Text, end: int, ends_with: str) -> bool:
    """A sum may end here, with an open digit or a unit; after 钱 always."""
    if text.at(end - 1) in "钱錢":
        return True
    if ends_with == "":
        return is_open(text, end)
    return text.at(end) not in (NO_FEN if ends_with == "分" else NO_JIAO)


def digit_value(c: str) -> int:
    return int(numbers.ascii_figures(c))


# The forms after an E, the longest first: the groups of J and F, and the unit at the end, if any.
AFTER_YUAN = (
    (PARTS, 1, 2, 3),
    (PARTS_OPEN, 1, 2, 0),
    (JIAO, 1, 0, 2),
    (FEN, 0, 1, 2),
    (KUAI_OPEN, 1, 0, 0),
)
AFTER_JIAO = ((JIAO_FEN, 1, 2), (JIAO_OPEN, 1, 0))


def is_amount(text: Text, e: Found) -> bool:
    """The expression can be an E."""
    if e.quantity is None or e.is_about or e.quantity.numerator < 0:
        return False
    if e.quantity.form in (numbers.FRACTION, numbers.PERCENT):
        return False
    head = Line(text.line.text[: e.end])
    return not numbers.clings(head, e.start, e.end)


def is_whole_yuan(e: Found) -> bool:
    quantity = quantity_of(e)
    return quantity.form == numbers.WHOLE and quantity.numerator < 10**16


Sum = Tuple[int, str, int, int]  # the end, the form, jiao and fen


def after_yuan(text: Text, e: Found, start: int) -> Optional[Sum]:
    """What is after an E, from 元 on."""
    if is_whole_yuan(e):
        for pattern, jiao, fen, unit in AFTER_YUAN:
            found = pattern.match(text.line.text, start)
            if found is None:
                continue
            if ends_sum(text, found.end(), found[unit] if unit else ""):
                j = digit_value(found[jiao]) if jiao else 0
                f = digit_value(found[fen]) if fen else 0
                return found.end(), "parts", j, f
    found = YUAN_MONEY.match(text.line.text, start)
    return found and (found.end(), "qian", 0, 0)


def after_jiao(text: Text, e: Found, start: int) -> Optional[Sum]:
    """What is after a digit of jiao or fen."""
    if len(e.text) != 1 or not (is_figure(e.text) or e.text in DIGITS_OF_MONEY):
        return None
    value = digit_value(e.text)
    for pattern, fen, unit in AFTER_JIAO:
        found = pattern.match(text.line.text, start)
        if found and ends_sum(text, found.end(), "分" if unit else ""):
            return found.end(), "small", value, digit_value(found[fen])
    found = SMALL.match(text.line.text, start)
    if found is None:
        return None
    is_fen = found[0][0] == "分"
    return found.end(), "small", 0 if is_fen else value, value if is_fen else 0


def is_yuan_alone(text: Text, end: int) -> bool:
    c, after = text.at(end), text.at(end + 1)
    if is_slot_char(c):
        return is_chinese_digit(c) and c not in "零〇" and after in PRICED
    if c == "月":
        return after in PAID_BY_MONTH
    return c not in NO_YUAN


def alone(text: Text, e: Found, start: int) -> Optional[Sum]:
    """元 or 块 alone."""
    c = text.at(start)
    if c not in "元圆圓块塊" or not is_yuan_alone(text, start + 1):
        return None
    if c in "块塊" and numbers.is_one_character(e.text):
        return None
    return start + 1, "kuai" if c in "块塊" else "yuan", 0, 0


def money_after(text: Text, e: Found) -> Optional[Sum]:
    has_blank = has_figure(e.text) and text.at(e.end) == " "
    start = e.end + (1 if has_blank else 0)
    return after_yuan(text, e, start) or after_jiao(text, e, start) or alone(text, e, start)


def is_money_doubtful(text: Text, phrase: Phrase, e: Found) -> bool:
    head = text.line.text[: phrase.start]
    if numbers.is_in_title(text.line, phrase.start) or is_doubtful_number(text, e.start, e.end):
        return True
    if phrase.words == "kuai" or text.at(phrase.start - 1) in "$＄€£":
        return True
    if phrase.words == "yuan" and e.text in DIGITS_OF_MONEY:
        return True
    if text.at(phrase.start - 1) in "币幣" and head[-3:-1] != "人民":
        return True
    return re.fullmatch("一[元圆圓块塊角毛分][钱錢]", phrase.text) is not None


def money_at(text: Text, start: int) -> Optional[Phrase]:
    place, form = start, ""
    if text.at(start) in "￥¥":
        before = text.at(start - 1)
        if is_letter(before) or is_figure(before) or before == "_":
            return None
        place += 2 if text.at(start + 1) == " " and is_figure(text.at(start + 2)) else 1
        form = "sign"
    e = text.by_start.get(place)
    if e is None or (form == "sign" and not is_figure(e.text[0])) or not is_amount(text, e):
        return None
    found: Optional[Sum] = (e.end, "sign", 0, 0) if form == "sign" else money_after(text, e)
    if found is None:
        return None
    end, form, jiao, fen = found
    yuan = Fraction(0) if form == "small" else ratio_of(quantity_of(e))
    value = yuan + Fraction(jiao, 10) + Fraction(fen, 100)
    slot = Slot("E", e.start, e.end, e.text)
    written = text.line.text[start:end]
    phrase = Phrase("money", start, end, written, [slot], form, value=value)
    return phrase._replace(is_doubtful=is_money_doubtful(text, phrase, e))


def new_money(text: Text, phrase: Phrase, options: Options) -> Optional[str]:
    """The new text of a sum of money, or None if it stays."""
    (slot,) = phrase.slots
    e = text.by_start[slot.start]
    head, tail = text.line.text[phrase.start : e.start], text.line.text[e.end : phrase.end]
    if phrase.words in ("sign", "yuan", "kuai"):
        new = numbers.new_text(text.line, e, options)
        return None if new is None else head + new + tail
    if phrase.is_doubtful and not options.doubtful:
        return None
    assert isinstance(phrase.value, Fraction)
    yuan = 0 if phrase.words == "small" else ratio_of(quantity_of(e))
    if options.compact and phrase.value > yuan:
        fen = phrase.value * 100
        decimals = f"{fen.numerator // 100}.{fen.numerator % 100:02}".rstrip("0").rstrip(".")
        return decimals + "元"
    is_expanded = options.style == "expanded" and any(map(is_multiplier, e.text))
    new = e.text if has_figure(e.text) and not is_expanded else in_style(e.text, options)
    if new is None:
        return None
    digits = "".join(numbers.ascii_figures(c) if c in DIGITS_OF_MONEY else c for c in tail)
    return new + digits


# ---- In figures ------------------------------------------------------------------------------


def in_style(string: str, options: Options) -> Optional[str]:
    """A quantity in figures, in the kept or the expanded style."""
    if options.style == "kept":
        return numbers.kept_text(string)
    quantity = numbers.quantity(string)
    return None if quantity is None else numbers.figures_text(quantity)


def new_end(first: Found, second: Found, end: Found, options: Options) -> Optional[str]:
    """The new text of an end of a range, with what counts for it."""
    if shares_percent(first, second):
        new = in_style(end.text, options)
        return new if new is None or is_percentage(end) else new + "%"
    units = shared_units(first, second) if end == first else ""
    return in_style(end.text + units, options)


def new_slot(text: Text, phrase: Phrase, slot: Slot, options: Options) -> Optional[str]:
    """The new text of a slot."""
    if phrase.kind == "range":
        first, second = (text.by_start[it.start] for it in phrase.slots)
        return new_end(first, second, text.by_start[slot.start], options)
    if has_figure(slot.text) or slot.letter == "Q":
        return slot.text
    if are_digits(slot.text):
        return numbers.ascii_figures(slot.text)
    return numbers.kept_text(slot.text)


def stays(phrase: Phrase, options: Options) -> bool:
    if phrase.value is None or (phrase.is_doubtful and not options.doubtful):
        return True
    if phrase.kind == "range":
        ends = [it.text for it in phrase.slots]
        is_expanded = options.style == "expanded" and any(map(is_multiplier, "".join(ends)))
        return all(map(has_figure, ends)) and not is_expanded
    is_one_character = numbers.is_one_character(phrase.slots[0].text)
    is_short = phrase.kind == "half" and is_one_character
    return is_short and not (options.one_character or options.compact)


# Before a word of half a day: they name a day with it, or are a part of a longer word.
PARTS_OF_WORDS = frozenset("每那這这次翌同隔前后後首大清夜早")
JOINTS = frozenset("到至~～－–—〜-、，,和或与與及跟")


def goes_on(text: Text, phrase: Phrase) -> bool:
    """A joint is next, and then a number with a unit of dates or times; one blank may be between."""
    start = phrase.end + 1
    if text.at(phrase.end) not in JOINTS or not is_slot_char(text.at(start)):
        return False
    end = text.slot_ends[start]
    after_blank = text.at(end) == " " and (is_figure(text.at(start)) or is_figure(text.at(end + 1)))
    return text.at(end + 1 if after_blank else end) in "月日号號点點时時:："


def blank_after(text: Text, phrase: Phrase) -> str:
    """A blank, if a slot character or a word of half a day is next."""
    rest = text.line.text[phrase.end :]
    is_word = HALF_DAY.match(rest) and not re.match("[早晚]一[点點]", rest)
    return " " if is_word or is_slot_char(text.at(phrase.end)) else ""


def short_date(text: Text, phrase: Phrase) -> Optional[str]:
    assert isinstance(phrase.value, tuple)
    year, month, day = phrase.value
    is_whole = year is not None and month is not None and day is not None and 1000 <= year < 10000
    if not is_whole or goes_on(text, phrase):
        return None
    return f"{year}-{month:02}-{day:02}" + blank_after(text, phrase)


def short_time(text: Text, phrase: Phrase) -> Optional[str]:
    assert isinstance(phrase.value, tuple)
    _, minute, second, hour = phrase.value
    word = phrase.half_day
    if HALF_DAY.match(word):
        before = text.at(phrase.start - 1)
        if word[0] in "今明昨当當" or is_slot_char(before) or before in PARTS_OF_WORDS:
            return None
        if goes_on(text, phrase):
            return None
        word = ""
    rest = text.line.text[phrase.end :]
    if hour is None or re.match("[钟鐘多许許余餘来來整档檔价價]|成品", rest):
        return None
    seconds = f":{second:02}" if len(phrase.slots) == 3 else ""
    return f"{word}{hour:02}:{minute:02}{seconds}" + blank_after(text, phrase)


def short_half(phrase: Phrase) -> str:
    assert isinstance(phrase.value, Fraction)
    first, rest = phrase.words[0], phrase.words[2:]
    return f"{phrase.value.numerator // 2}.5" + ("" if rest.startswith("小") else first) + rest


def short_phrase(text: Text, phrase: Phrase) -> Optional[str]:
    """The shortest text of a phrase, if it has one."""
    if phrase.kind == "date":
        return short_date(text, phrase)
    if phrase.kind == "time":
        return short_time(text, phrase)
    return short_half(phrase) if phrase.kind == "half" else None


def new_phrase(text: Text, phrase: Phrase, options: Options) -> Optional[str]:
    """The new text of a phrase, or None if it stays."""
    if phrase.kind == "money":
        return new_money(text, phrase, options)
    if stays(phrase, options):
        return None
    short = short_phrase(text, phrase) if options.compact else None
    if short is not None:
        return short
    pieces, end = [], phrase.start
    for slot in phrase.slots:
        new = new_slot(text, phrase, slot, options)
        if new is None:
            return None
        pieces += [text.line.text[end : slot.start], new]
        end = slot.end
    return "".join(pieces) + text.line.text[end : phrase.end]


# ---- The items of a text ---------------------------------------------------------------------

Item = Union[Phrase, Found]  # a phrase, or an expression that is in none


def phrase_at(text: Text, start: int) -> Optional[Phrase]:
    """The longest form at a place, of equal ones the first of the table."""
    form, range_ = form_at(text, start), range_at(text, start)
    if form is None or range_ is None:
        return form or range_
    return range_ if range_.end > form.end else form


def text_of(string: str) -> Text:
    found = numbers.find_quantities(string)
    inside = frozenset(i for it in found for i in range(it.start + 1, it.end))
    ends = frozenset(it.end for it in found)
    slot_ends = list(range(len(string) + 2))
    for i in reversed(range(len(string))):
        if is_slot_char(string[i]):
            slot_ends[i] = slot_ends[i + 1] if is_slot_char(at(string, i + 1)) else i + 1
    return Text(Line(string), {it.start: it for it in found}, slot_ends, ends, inside)


@lru_cache(maxsize=1)
def items_of(string: str) -> Tuple[Text, List[Item]]:
    """A text, and its items from the left."""
    text, place, items = text_of(string), 0, []
    while place < len(string):
        item = phrase_at(text, place) or money_at(text, place) or text.by_start.get(place)
        if item is not None:
            items.append(item)
        place = place + 1 if item is None else item.end
    return text, items


def find_phrases(string: str) -> List[Item]:
    return items_of(string)[1]


def new_text(text: Text, item: Item, options: Options) -> Optional[str]:
    if isinstance(item, Phrase):
        return new_phrase(text, item, options)
    return numbers.new_text(text.line, item, options)


def text_to_figures(string: str, **chosen: Any) -> str:
    """Numerals and phrases in figures, phrases in the kept style."""
    text, items = items_of(string)
    news = [new_text(text, it, Options(**chosen)) for it in items]
    return numbers.put_in_chains(text.line, items, news)
