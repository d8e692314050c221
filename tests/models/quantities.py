"""A reference model of how a quantity is read and written.

It was written from docs/RULES.md, without a look at the code, like numerals.py. An answer to a text is
("ok", numerator, denominator, form), or a refusal as in numerals.py.
"""

import re
from functools import lru_cache
from typing import Callable, List, Optional, Tuple

import numerals
from numerals import DIGITS, GE, HUNDRED, MOST, TEN, TOO_LARGE, TOO_SMALL, WAN, YI, Answer
from numerals import is_digit, is_multiplier, rank_of, read_digits, read_units, scale, text_of

SIGNS = {"正": 1, "+": 1, "＋": 1, "負": -1, "负": -1, "-": -1, "−": -1, "－": -1}
MINUS = "負负-−－"
FIGURES = {c: value for value in range(10) for c in (str(value), chr(0xFF10 + value))}
CHINESE_DIGITS = "".join(it for it in DIGITS if it not in FIGURES)
LEAST_NUMERATOR, GREATEST_NUMERATOR = numerals.KINDS["i128"]

FIGURE = "[0-9０-９]"
UNITS = "[" + "".join(it for it in numerals.RANKS if is_multiplier(it)) + "]*"
OPTIONAL_GE = "[個个]?"
IN_FIGURES = re.compile(
    f"([1-9１-９]{FIGURE}{{0,2}}(?:[,，]{FIGURE}{{3}})+|{FIGURE}+)"
    f"(?:[.．]({FIGURE}+))?({OPTIONAL_GE}{UNITS})"
)
TURN = re.compile(f"([零〇]?)({FIGURE}+)({UNITS})")
CHINESE_DECIMAL = re.compile(f"([^点點]+)[点點]([{CHINESE_DIGITS}]+)({OPTIONAL_GE}{UNITS})")
SHORT_TEN = re.compile(f"([廿卅])([{CHINESE_DIGITS}]?)")

# A number without its point, and the power of ten by which it is divided; or a refusal.
Read = Tuple


# ---- Whole numbers ---------------------------------------------------------------------------


def misread_rules(text: str, p: int) -> List[int]:
    """The rules by which the character at p is misread, in their order."""
    before = text[max(p - 1, 0) : p]
    rank, rank_before = rank_of(text[p]), rank_of(before)
    rules = rules_of_units(text, p, before) if rank >= 0 else []
    if text[p] in "两兩" and (is_digit(before) or rank_before > GE):
        after = text[p + 1 : p + 2]
        rules += [4] if rank_of(after) != GE and not is_multiplier(after) else []
    if rank_before >= YI and (rank == TEN or DIGITS.get(text[p])) and lacks_zero(text[p:]):
        rules.append(6)
    return rules


def rules_of_units(text: str, p: int, before: str) -> List[int]:
    rank, rank_before = rank_of(text[p]), rank_of(before)
    after_zero = DIGITS.get(before) == 0
    is_bare = rank == TEN and (
        rank_before == HUNDRED or (after_zero and p >= 2 and rank_of(text[p - 2]) > HUNDRED)
    )
    rules = {
        1: is_bare,
        2: rank in (TEN, HUNDRED) and rank_before == TEN,
        3: after_zero and not is_bare,
        5: rank >= WAN and has_two_readings(text, p),
    }
    return [number for number, holds in rules.items() if holds]


def has_two_readings(text: str, p: int) -> bool:
    """The great unit at p is after a nonzero digit, with 個 between or not, which is after a smaller
    multiplier."""
    digit = p - 2 if p and rank_of(text[p - 1]) == GE else p - 1
    if digit < 1 or not DIGITS.get(text[digit]):
        return False
    return HUNDRED <= rank_of(text[digit - 1]) < rank_of(text[p])


def lacks_zero(rest: str) -> bool:
    """In a rest no great unit follows, and 十, 百 or 千 occurs."""
    ranks = list(map(rank_of, rest))
    return max(ranks[1:], default=-1) < WAN and any(TEN <= it < WAN for it in ranks)


@lru_cache(maxsize=256)
def first_misread(text: str) -> Optional[int]:
    return next((p for p in range(len(text)) if misread_rules(text, p)), None)


def is_read_in_two(text: str, p: int) -> bool:
    """The first misread character, at p, is a bare ten, and the rest from there is not misread."""
    return 1 in misread_rules(text, p) and first_misread(text[p:]) is None


def read_in_two(text: str, p: int, method: str) -> Answer:
    """What precedes the bare ten at p, and the rest, each read by units."""
    first, rest = read_units(text[:p], method), read_units(text[p:], method)
    if first[0] != "ok":
        return first
    if rest[0] == "incorrect":
        return ("incorrect", p + rest[1])
    if rest[0] != "ok":
        return rest
    last = max(q for q in range(p) if rank_of(text[q]) >= 0)
    if not rest[1] < scale(rank_of(text[last]), method):
        return ("incorrect", p)
    total = first[1] + rest[1]
    return ("ok", total) if total <= MOST else TOO_LARGE


@lru_cache(maxsize=256)
def read_whole(text: str, method: str) -> Answer:
    """Plain digits if all are digits, else a numeral; unless it is misread."""
    answer = read_digits(text) if all(map(is_digit, text)) else read_units(text, method)
    p = first_misread(text)
    if p is None:
        return answer
    if is_read_in_two(text, p):
        return read_in_two(text, p, method)
    if answer == TOO_LARGE:
        return TOO_LARGE
    return ("incorrect", max(p, answer[1]) if answer[0] == "incorrect" else p)


# ---- Numbers ---------------------------------------------------------------------------------


def are_rising(units: str) -> bool:
    ranks = list(map(rank_of, units))
    return all(map(is_multiplier, units)) and all(a < b for a, b in zip(ranks, ranks[1:]))


def are_factors(units: str) -> bool:
    """Rising units, or none, with 個 before them if the first is great."""
    if units and rank_of(units[0]) == GE:
        return are_rising(units[1:]) and rank_of(units[1:2]) >= WAN
    return are_rising(units)


def product_of(units: str, method: str) -> Optional[int]:
    """None if a scale does not fit."""
    product = 1
    for it in units:
        by = scale(rank_of(it), method)
        if by is None:
            return None
        product *= by
    return product


def number_of(figures: str) -> int:
    """The number of figures and Chinese digits, commas left out."""
    values = (FIGURES.get(it, DIGITS.get(it)) for it in figures if it not in ",，")
    return int("".join(map(str, values)))


def with_units(number: int, decimals: int, units: str, method: str) -> Read:
    product = product_of(units, method)
    if product is None or number * product > MOST:
        return TOO_LARGE
    return ("ok", number * product, 10**decimals)


def read_in_figures(text: str, method: str) -> Optional[Read]:
    found = IN_FIGURES.fullmatch(text)
    if not found or not are_factors(found[3]):
        return None
    decimals = found[2] or ""
    return with_units(number_of(found[1] + decimals), len(decimals), found[3], method)


def read_by_turns(text: str, method: str) -> Optional[Read]:
    turns = TURN.findall(text)
    if "".join(map("".join, turns)) != text or len(turns) < 2 or turns[0][0]:
        return None
    total, units_before = 0, ""
    for place, turn in enumerate(turns):
        is_last = place == len(turns) - 1
        value = turn_value(turn, units_before, is_last, method)
        if value is None:
            return None
        total, units_before = total + value, turn[2]
    return ("ok", total, 1) if total <= MOST else None


def turn_value(
    turn: Tuple[str, ...], units_before: str, is_last: bool, method: str
) -> Optional[int]:
    """The value of a turn after some units, or None if it cannot be there."""
    zero, figures, units = turn
    by, by_before = product_of(units, method), product_of(units_before, method)
    if not are_rising(units) or by is None or by_before is None:
        return None
    number = number_of(figures)
    if (zero or units) and FIGURES[figures[0]] == 0:
        return None
    if not units and not is_last:
        return None
    if not units_before:
        return number * by
    if zero:
        return number * by if number * by < by_before else None
    if not units:
        if len(units_before) == 1 and len(figures) == 1 and number:
            return number * by_before // 10
        return number if 10 ** len(figures) == by_before else None
    if by < 10**4 and by_before >= 10**8:
        return None
    return number * by if number * by < by_before else None


def read_chinese_decimal(text: str, method: str) -> Optional[Read]:
    found = CHINESE_DECIMAL.fullmatch(text)
    if not found or numerals.ends_colloquially(found[1]) or not are_factors(found[3]):
        return None
    units = found[3].lstrip("個个")
    if units and rank_of(units[0]) <= max(map(rank_of, found[1]), default=-1):
        return None
    whole = read_whole(found[1], method)
    if whole[0] != "ok":
        return whole
    number = whole[1] * 10 ** len(found[2]) + number_of(found[2])
    return with_units(number, len(found[2]), found[3], method)


def read_short_tens(text: str, method: str) -> Optional[Read]:
    found = SHORT_TEN.fullmatch(text)
    if not found:
        return None
    return ("ok", (20 if found[1] == "廿" else 30) + DIGITS.get(found[2], 0), 1)


SHAPES: List[Callable[[str, str], Optional[Read]]] = [
    read_in_figures,
    read_by_turns,
    read_chinese_decimal,
    read_short_tens,
]


@lru_cache(maxsize=256)
def read_number(text: str, method: str) -> Read:
    """A whole number, or one of the shapes 5 to 8; any other text is refused as in 4."""
    whole = read_whole(text, method)
    if whole[0] == "ok":
        return ("ok", whole[1], 1)
    read = (shape(text, method) for shape in SHAPES)
    return next((it for it in read if it), whole)


def read_part(text: str, method: str) -> Read:
    """A part of a fraction, where rising units alone count as with 一 before them."""
    return read_number("一" + text if text and are_rising(text) else text, method)


# ---- Ratios ----------------------------------------------------------------------------------


def read_mixed(text: str, method: str) -> Optional[Answer]:
    """None if it has not this shape."""
    before, link, after = text.partition("又")
    below, bar, above = after.partition("分之")
    whole = read_whole(before, method)
    parts = read_part(below, method), read_part(above, method)
    if not (link and bar and all(it[0] == "ok" for it in (whole, *parts))):
        return None
    (_, denominator, places), (_, numerator, decimals) = parts
    if places > 1 or decimals > 1 or not numerator < denominator:
        return None
    total = whole[1] * denominator + numerator
    return ("ok", total, denominator, "fraction") if total <= MOST else None


def moved(refusal: Answer, by: int) -> Answer:
    return ("incorrect", by + refusal[1]) if refusal[0] == "incorrect" else refusal


def parts_of_fraction(text: str, has_sign: bool) -> Optional[Tuple[str, bool, int]]:
    """The denominator, whether a minus is after 分之, and where the numerator starts."""
    below, bar, above = text.partition("分之")
    if not (below and above):
        return None
    is_below_zero = not has_sign and above[0] in MINUS and len(above) > 1
    return below, is_below_zero, len(below) + len(bar) + is_below_zero


def read_fraction(text: str, has_sign: bool, method: str) -> Optional[Answer]:
    parts = parts_of_fraction(text, has_sign)
    if not parts:
        return None
    below, is_below_zero, start = parts
    divisor, divided = read_part(below, method), moved(read_part(text[start:], method), start)
    answer = divide(divided, divisor)
    return negated(answer) if is_below_zero else answer


def divide(divided: Read, divisor: Read) -> Answer:
    """The parts of a fraction; the error of the divisor is reported first."""
    if divisor[0] != "ok":
        return divisor
    if divisor[2] > 1 or divisor[1] == 0:
        return ("incorrect", 0)
    if divided[0] != "ok":
        return divided
    return over(divided, divisor[1], "percent" if divisor[1] == 100 else "fraction")


def over(divided: Read, divisor: int, form: str) -> Answer:
    denominator = divided[2] * divisor
    return TOO_LARGE if denominator > MOST else ("ok", divided[1], denominator, form)


def negated(answer: Answer) -> Answer:
    if answer[0] == "ok":
        return ("ok", -answer[1], *answer[2:])
    return TOO_SMALL if answer == TOO_LARGE else answer


def read_share(text: str, method: str) -> Optional[Answer]:
    if len(text) < 2 or text[-1] not in "%％‰":
        return None
    divided = read_number(text[:-1], method)
    if divided[0] != "ok":
        return divided
    return over(divided, *((1000, "fraction") if text[-1] == "‰" else (100, "percent")))


def read_unsigned(text: str, has_sign: bool, method: str) -> Answer:
    answer = (
        read_mixed(text, method)
        or read_fraction(text, has_sign, method)
        or read_share(text, method)
    )
    if answer:
        return answer
    read = read_number(text, method)
    if read[0] != "ok":
        return read
    return over(read, 1, "decimal" if read[2] > 1 else "whole")


# ---- Readers ---------------------------------------------------------------------------------


def unsigned_part(string: str) -> Tuple[numerals.Text, bool]:
    """The text without its sign and its ¥, and whether the sign is a minus."""
    text = text_of(string, SIGNS)
    is_below = SIGNS.get(text.sign) == -1
    cut = 0
    if not text.sign and re.match(f"零下({FIGURE}|[{CHINESE_DIGITS}]|[十拾])", text.characters):
        cut, is_below = 2, True
    if re.match(f"[¥￥]{FIGURE}", text.characters[cut:]):
        cut += 1
    sign = text.sign or text.characters[: 2 * is_below]
    return numerals.Text(text.characters[cut:], text.indices[cut:], sign), is_below


def read(string: str, method: str) -> Answer:
    """What is answered to a string; `any` is ten_thousand."""
    method = "ten_thousand" if method == "any" else method
    text, is_below = unsigned_part(string)
    answer = read_unsigned(text.characters, text.sign != "", method)
    if answer[0] == "incorrect":
        return text.at(answer[1])
    answer = negated(answer) if is_below else answer
    if answer[0] == "ok" and answer[1] > GREATEST_NUMERATOR:
        return TOO_LARGE
    if answer[0] == "ok" and answer[1] < LEAST_NUMERATOR:
        return TOO_SMALL
    return answer


# ---- Written ---------------------------------------------------------------------------------

UNITS_OF_BARE_DENOMINATORS = "百千萬万億亿佰仟"  # from these on 一 is left out


def places_of(denominator: int) -> Optional[int]:
    """How many zeros 1, 10, 100 .. has; None for another number."""
    places = len(str(denominator)) - 1
    return places if denominator == 10**places else None


def parts_of(numerator: int, denominator: int, form: str) -> Tuple[str, int, int, int]:
    """How a quantity is written: as `whole` with its number; as `decimal` or `percent` with its whole
    part, its decimals and how many they are; as `fraction` with both numbers."""
    magnitude, places = abs(numerator), places_of(denominator)
    if form == "whole" and denominator == 1:
        return "whole", magnitude, 0, 0
    least = {"decimal": 1, "percent": 2}.get(form)
    if places is None or least is None or places < least:
        return "fraction", magnitude, denominator, 0
    places -= 2 if form == "percent" else 0
    return form, *divmod(magnitude, 10**places), places


def write(quantity: Tuple[int, int, str], method: str, script: str, case: str) -> Answer:
    """The text of a quantity in numerals."""
    shape, first, second, places = parts_of(*quantity)
    spelled = (second, first) if shape == "fraction" else (first,)
    is_below = quantity[0] < 0
    if method == "any":
        method = numerals.written_method(max(spelled), script)
    if method == "low" and max(spelled) >= 10**16:
        return TOO_SMALL if is_below else TOO_LARGE
    printed = numerals.PRINTED[script, case]
    texts = [numerals.spelled(it, method, printed) for it in spelled]
    if shape == "fraction":
        text = without_one(texts[0], printed) + "分之" + texts[1]
    else:
        text = (printed[1][HUNDRED] + "分之" if shape == "percent" else "") + texts[0]
        point = "点" if script == "simplified" else "點"
        decimals = str(second).zfill(places) if places else ""
        text += (point if places else "") + "".join(printed[0][int(it)] for it in decimals)
    return ("ok", (printed[2] if is_below else "") + text)


def without_one(text: str, printed: Tuple[str, str, str]) -> str:
    """A denominator, without 一 before 百, 千, 萬 or 億 if only rising units follow."""
    units = text[1:]
    is_bare = text[0] == printed[0][1] and units and are_rising(units)
    return units if is_bare and units[0] in UNITS_OF_BARE_DENOMINATORS else text


def figures_of(numerator: int, denominator: int, form: str) -> str:
    """The figures of a quantity, without the zeros at the end of its decimals."""
    shape, first, second, places = parts_of(numerator, denominator, form)
    sign = "-" if numerator < 0 else ""
    if shape == "fraction":
        return f"{sign}{first}/{second}"
    decimals = str(second).zfill(places).rstrip("0") if places else ""
    return sign + str(first) + ("." + decimals if decimals else "") + "%" * (shape == "percent")
