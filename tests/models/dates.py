"""A reference model of dates in capitals, as on bills.

It was written from docs/RULES.md, without a look at the code. An answer to a text is ("ok", year,
month, day), ("incorrect", position) or ("unfinished",).
"""

from calendar import isleap, monthrange
from typing import List, Tuple

from amounts import DIGITS, SAME, TRADITIONAL, refusal
from forms import END, Language, Step, follow
from numerals import Answer

LEAP_YEAR, COMMON_YEAR = 2024, 2025  # for the days of a month


def number_text(number: int) -> str:
    """A month or a day as a number; 10 to 19 have their 壹."""
    tens, ones = divmod(number, 10)
    return (DIGITS[tens] + "拾" if tens else "") + (DIGITS[ones] if ones else "")


def month_text(month: int) -> str:
    return ("零" if month in (1, 2, 10) else "") + number_text(month) + "月"


def day_text(day: int) -> str:
    return ("零" if day < 10 or day in (10, 20, 30) else "") + number_text(day) + "日"


def date_text(year: int, month: int, day: int) -> str:
    digits = "".join(DIGITS[int(it)] for it in str(year))
    return digits + "年" + month_text(month) + day_text(day)


def write(year: int, month: int, day: int, script: str) -> str:
    text = date_text(year, month, day)
    return text.translate(TRADITIONAL) if script == "traditional" else text


def steps_of_dates(state: Tuple) -> List[Step]:
    """A state is the part that comes next, and what is known of the year and the month."""
    part, *known = state
    if part == "year":
        (year,) = known
        digits = [it for it in range(10) if year or it] if year < 1000 else []
        steps = [(DIGITS[it], (part, 10 * year + it), (it,)) for it in digits]
        return steps + ([("年", ("month", isleap(year)), ())] if year else [])
    if part == "month":
        texts = [(month_text(it), it) for it in range(1, 13)]
        texts += [("零" + month_text(it), it) for it in range(3, 10)]
        return [(text, ("day", known[0], it), (it,)) for text, it in texts]
    is_leap, month = known
    last = monthrange(LEAP_YEAR if is_leap else COMMON_YEAR, month)[1]
    return [(day_text(it), END, (it,)) for it in range(1, last + 1)]


DATE = Language(("year", 0), steps_of_dates, SAME)


def read(text: str) -> Answer:
    count, values, _ = follow(DATE, text)
    if count < len(text) or not values:
        return refusal(DATE, text)
    ((*year, month, day),) = values
    return ("ok", int("".join(map(str, year))), month, day)
