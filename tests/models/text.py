"""A reference model of numbers in Chinese text.

It was written from docs/RULES.md by somebody who saw no code. Where it then differed from the
library, RULES was unclear; RULES and the model were made to say what the library does. So it shows
that RULES can be followed without the code, and not that each of those choices is the best one.

Each function follows one rule, in the order and words of RULES.  Refusals are None: numerals.py and
quantities.py say which refusal it is, and where.  Positions count characters.

Where RULES leaves two readings, these are taken: the comma before three figures is `,` or `，`, a
whole part is cut off towards 0, kept fractions have no currency sign, and canonical figures lift only
the first reason to stay.
"""

import re
from functools import lru_cache
from typing import Any, Callable, Dict, List, NamedTuple, Optional, Sequence, Tuple

U128_MAX = 2**128 - 1
I128_MAX = 2**127 - 1
I128_MIN = -(2**127)

# ---- Characters ------------------------------------------------------------------------------

DIGIT_CHARS = "零0〇 一壹1 二貳贰貮兩两2 三參叁叄参3 四肆4 五伍5 六陸陆6 七柒7 八捌8 九玖9"
UNIT_CHARS = "個个 十拾 百佰 千仟 萬万 億亿 兆 京 垓 秭 穰 溝沟 澗涧 正 載载 極极"
DIGITS = {c: value for value, chars in enumerate(DIGIT_CHARS.split()) for c in chars}
RANKS = {c: rank for rank, chars in enumerate(UNIT_CHARS.split()) for c in chars}
FIGURES: Dict[str, str] = {
    c: str(value) for value in range(10) for c in (str(value), chr(0xFF10 + value))
}
WHITE_SPACE = frozenset(
    [chr(c) for c in (*range(9, 14), 0x20, 0x85, 0xA0, 0x1680, *range(0x2000, 0x200B))]
    + [chr(c) for c in (0x2028, 0x2029, 0x202F, 0x205F, 0x3000)]
)
PLUS, MINUS = frozenset("正+＋"), frozenset("负負-−－")

# The exponents of the scales, by rank; None where the scale does not fit.
Exponents = Tuple[Optional[int], ...]
LOW: Exponents = tuple(range(16))
TEN_THOUSAND: Exponents = (0, 1, 2, 3, 4, 8, 12, 16, 20, 24, 28, 32, 36, None, None, None)
MIDDLE: Exponents = (0, 1, 2, 3, 4, 8, 16, 24, 32) + (None,) * 7
HIGH: Exponents = (0, 1, 2, 3, 4, 8, 16, 32) + (None,) * 8

Ratio = Tuple[int, int]  # a number: what it is without its point, and 10, 100, .. (1: whole)


def at(text: str, i: int) -> str:
    """The character at a position, or NUL, which is in none of the sets, outside of the text."""
    return text[i] if 0 <= i < len(text) else "\0"


def digit_of(c: str) -> int:
    """The value of a digit, or -1."""
    return DIGITS.get(c, -1)


def rank_of(c: str) -> int:
    """The rank of a unit, or -1."""
    return RANKS.get(c, -1)


def is_figure(c: str) -> bool:
    """An ASCII digit or its full-width form."""
    return c in FIGURES


def is_chinese_digit(c: str) -> bool:
    """A digit that is no figure."""
    return c in DIGITS and c not in FIGURES


def is_any_digit(c: str) -> bool:
    """A digit or a full-width figure."""
    return c in DIGITS or c in FIGURES


def is_letter(c: str) -> bool:
    return "a" <= c <= "z" or "A" <= c <= "Z"


def is_han(c: str) -> bool:
    return "\u4e00" <= c <= "\u9fff"


def text_of(string: str) -> str:
    return "".join(c for c in string if c not in WHITE_SPACE)


def ascii_figures(figures: str) -> str:
    """Figures, and Chinese digits one by one, in ASCII."""
    return "".join(FIGURES[c] if c in FIGURES else str(DIGITS[c]) for c in figures)


def figures_value(figures: str) -> Optional[int]:
    """The number of figures or digits, or None beyond u128."""
    value = 0
    for c in ascii_figures(figures):
        value = 10 * value + int(c)
        if value > U128_MAX:
            return None
    return value


# ---- Plain digits, and numerals by units -----------------------------------------------------


def read_plain(text: str) -> Optional[int]:
    """Plain digits: `Naive.naive_answer`."""
    return figures_value(text) if text and all(c in DIGITS for c in text) else None


def with_first_digit(text: str) -> Tuple[List[int], List[int]]:
    """The digits and ranks of a text, -1 for none, where 十 at the start is the digit ten."""
    digits, ranks = [digit_of(c) for c in text], [rank_of(c) for c in text]
    if ranks and ranks[0] == 1:
        digits[0], ranks[0] = 10, -1
    return digits, ranks


def is_numeral(text: str) -> bool:
    """`Numeral.is_numeral`, rules 1 to 6."""
    digits, ranks = with_first_digit(text)
    if not text or digits[0] < 0:  # 1
        return False
    if any(d < 0 and r < 0 for d, r in zip(digits, ranks)):  # 2
        return False
    if any(1 <= a <= 9 and b >= 0 for a, b in zip(digits, digits[1:])):  # 3
        return False
    for a, b in zip(ranks, ranks[1:]):  # 4
        if a >= 0 and b >= 0 and not (a < b or (a, b) == (1, 0)):
            return False
    if any(a == 0 and b <= 0 for a, b in zip(ranks, ranks[1:] + [-1])):  # 5
        return False
    for i, rank in enumerate(ranks):  # 6
        if rank >= 0 and next((r for r in ranks[i + 1 :] if r >= rank), None) == rank:
            return False
    return True


def ends_colloquially(text: str) -> bool:
    """A last digit directly after a unit from 百 up."""
    return digit_of(at(text, len(text) - 1)) >= 0 and rank_of(at(text, len(text) - 2)) >= 2


def read_units(text: str, exponents: Exponents = TEN_THOUSAND) -> Optional[int]:
    """The value of a numeral, if all its scales fit and the value is at most u128::MAX."""
    if not is_numeral(text):
        return None
    digits, ranks = with_first_digit(text)
    if any(rank >= 0 and exponents[rank] is None for rank in ranks):
        return None
    value = 0
    for i, digit in enumerate(digits):
        if digit < 0:
            continue
        exponent, greatest = 0, -1
        if i == len(text) - 1 and ends_colloquially(text):
            exponent = (exponents[ranks[i - 1]] or 0) - 1
        for rank in ranks[i + 1 :]:
            if rank > greatest:  # a record unit
                exponent, greatest = exponent + (exponents[rank] or 0), rank
        value += digit * 10**exponent
    return value if value <= U128_MAX else None


def read_by_itself(text: str, exponents: Exponents = TEN_THOUSAND) -> Optional[int]:
    """Plain digits where each character is a digit, and else by units."""
    if all(c in DIGITS for c in text):
        return read_plain(text)
    return read_units(text, exponents)


# ---- Misread numerals ------------------------------------------------------------------------


def misread_at(text: str, p: int) -> int:
    """`Misread.is_misread_at`: the number of the rule for the character at p, or 0."""
    c, before, after = at(text, p), at(text, p - 1), at(text, p + 1)
    digit, rank = digit_of(c), rank_of(c)
    if rank == 1 and rank_of(before) == 2:
        return 1
    if rank == 1 and digit_of(before) == 0 and rank_of(at(text, p - 2)) >= 3:
        return 1
    if rank in (1, 2) and rank_of(before) == 1:
        return 2
    if rank >= 0 and digit_of(before) == 0:
        return 3
    if c in "两兩" and (digit_of(before) >= 0 or rank_of(before) > 0):
        if not (rank_of(after) == 0 or rank_of(after) >= 2):
            return 4
    if rank >= 4:
        q = p - 2 if rank_of(before) == 0 else p - 1
        if 1 <= digit_of(at(text, q)) <= 9 and 2 <= rank_of(at(text, q - 1)) < rank:
            return 5
    if (1 <= digit <= 9 or rank == 1) and rank_of(before) >= 5:
        ranks = [rank_of(follower) for follower in text[p + 1 :]]
        if max(ranks, default=-1) < 4 and (rank == 1 or any(1 <= r <= 3 for r in ranks)):
            return 6
    return 0


def first_misread(text: str) -> Optional[int]:
    return next((p for p in range(len(text)) if misread_at(text, p)), None)


@lru_cache(maxsize=100_000)
def whole_number(text: str, exponents: Exponents = TEN_THOUSAND) -> Optional[int]:
    """`WholeNumber.whole_answer`: read, or the sum of two parts at a bare ten."""
    p = first_misread(text)
    if p is None:
        return read_by_itself(text, exponents)
    if misread_at(text, p) != 1:
        return None
    first, second = read_units(text[:p], exponents), read_units(text[p:], exponents)
    if first is None or second is None or first_misread(text[p:]) is not None:
        return None
    last_unit = [rank_of(c) for c in text[:p] if c in RANKS][-1]
    if second >= 10 ** (exponents[last_unit] or 0) or first + second > U128_MAX:
        return None
    return first + second


# ---- Quantities ------------------------------------------------------------------------------

WHOLE, DECIMAL, PERCENT, FRACTION = "whole", "decimal", "percent", "fraction"


class Quantity(NamedTuple):
    """What `chinese_to_quantity` answers."""

    numerator: int
    denominator: int
    form: str


_F, _F1 = "[0-9０-９]", "[1-9１-９]"
_U = "[%s]" % "".join(c for c in RANKS if RANKS[c] >= 2)
_D = "[%s]" % "".join(c for c in DIGITS if c not in FIGURES)
_GROUPS = f"{_F1}{_F}{{0,2}}(?:[,，]{_F}{{3}})+"
IN_FIGURES = re.compile(f"({_F}+|{_GROUPS})(?:[.．]({_F}+))?([个個]?)({_U}*)")
TURN = re.compile(f"([零〇]?)({_F}+)({_U}*)")
BY_TURNS = re.compile(f"{_F1}{_F}*{_U}+(?:[零〇]?{_F}+{_U}+)*(?:[零〇]?{_F}+{_U}*)")
CHINESE_DECIMAL = re.compile(f"([^点點]+)[点點]({_D}+)([个個]?)({_U}*)")


def are_rising(units: str) -> bool:
    """Units from 百 up, each greater than the one before it; none are, too."""
    ranks = [rank_of(c) for c in units]
    return all(r >= 2 for r in ranks) and all(a < b for a, b in zip(ranks, ranks[1:]))


def units_product(units: str, exponents: Exponents) -> Optional[int]:
    """The product of the scales of rising units, if they rise and each scale fits; 1 of none."""
    if not are_rising(units) or any(exponents[rank_of(c)] is None for c in units):
        return None
    return int(10 ** sum(exponents[rank_of(c)] or 0 for c in units))


def with_units(before: str, decimals: str, units: str, exponents: Exponents) -> Optional[Ratio]:
    """`Digits.read_with_units`: the decimals follow the digits, the units multiply."""
    value, product = figures_value(before + decimals), units_product(units, exponents)
    denominator = 10 ** len(decimals)
    if value is None or product is None or denominator > U128_MAX or value * product > U128_MAX:
        return None
    return value * product, denominator


def in_figures(text: str, exponents: Exponents) -> Optional[Ratio]:
    found = IN_FIGURES.fullmatch(text)
    if found is None:
        return None
    before, decimals, ge, units = found.groups(default="")
    if ge and rank_of(units[:1]) < 4:
        return None
    return with_units(re.sub("[,，]", "", before), decimals, units, exponents)


def by_turns(text: str, exponents: Exponents) -> Optional[Ratio]:
    if not BY_TURNS.fullmatch(text):
        return None
    total, product_before, units_before = 0, 0, ""
    for zero, figures, units in TURN.findall(text):
        value, product = figures_value(figures), units_product(units, exponents)
        if value is None or product is None:
            return None
        value *= product
        if units_before:  # a later group
            if value >= product_before:
                return None
            if (units or zero) and FIGURES[figures[0]] == "0":
                return None
            if units and not zero and product < 10**4 and product_before >= 10**8:
                return None
            if not units and not zero and len(figures) != len(str(product_before)) - 1:
                if len(figures) != 1 or value == 0 or len(units_before) != 1:
                    return None
                value = value * product_before // 10
        total, product_before, units_before = total + value, product, units
    return (total, 1) if total <= U128_MAX else None


def chinese_decimal(text: str, exponents: Exponents) -> Optional[Ratio]:
    found = CHINESE_DECIMAL.fullmatch(text)
    if found is None:
        return None
    before, decimals, ge, units = found.groups()
    whole = whole_number(before, exponents)
    if whole is None or ends_colloquially(before) or (ge and rank_of(units[:1]) < 4):
        return None
    if units and any(rank_of(c) >= rank_of(units[0]) for c in before):
        return None
    return with_units(str(whole), decimals, units, exponents)


def short_tens(text: str, exponents: Exponents) -> Optional[Ratio]:
    tens = {"廿": 20, "卅": 30}.get(at(text, 0))
    if tens is None or len(text) > 2 or not all(is_chinese_digit(c) for c in text[1:]):
        return None
    return tens + sum(DIGITS[c] for c in text[1:]), 1


def number(text: str, exponents: Exponents) -> Optional[Ratio]:
    """Shapes 4 to 8; a numeral that is misread goes on to the other ones."""
    whole = whole_number(text, exponents)
    if whole is not None:
        return whole, 1
    for shape in (in_figures, by_turns, chinese_decimal, short_tens):
        answer = shape(text, exponents)
        if answer is not None:
            return answer
    return None


def part(text: str, exponents: Exponents) -> Optional[Ratio]:
    """`Number.part_answer`: rising units alone count as with 一 before them."""
    if text and are_rising(text):
        product = units_product(text, exponents)
        return None if product is None or product > U128_MAX else (product, 1)
    return number(text, exponents)


def signed(text: str) -> Tuple[str, str]:
    """The sign at the start of a text, as it is written or empty, and what is read after it."""
    sign, c = "", at(text, 2)
    if at(text, 0) in PLUS or at(text, 0) in MINUS:
        sign = text[0]
    elif text.startswith("零下") and (is_any_digit(c) or rank_of(c) == 1):
        sign = "零下"
    rest = text[len(sign) :]
    return sign, rest[1:] if at(rest, 0) in "¥￥" and is_figure(at(rest, 1)) else rest


def mixed_fraction(text: str, exponents: Exponents) -> Optional[Quantity]:
    """Shape 1, as 二又五分之三."""
    before, _, fraction = text.partition("又")
    below, _, above = fraction.partition("分之")
    if not (before and below and above):
        return None
    whole = whole_number(before, exponents)
    denominator, numerator = part(below, exponents), part(above, exponents)
    if whole is None or denominator is None or numerator is None:
        return None
    if denominator[1] != 1 or numerator[1] != 1 or numerator >= denominator:
        return None
    return Quantity(whole * denominator[0] + numerator[0], denominator[0], FRACTION)


def fraction(text: str, has_sign: bool, exponents: Exponents) -> Optional[Quantity]:
    """Shape 2, of a text with something on both sides of the first 分之."""
    below, _, above = text.partition("分之")
    factor = 1
    if not has_sign and at(above, 0) in MINUS:
        factor, above = -1, above[1:]
    denominator, numerator = part(below, exponents), part(above, exponents)
    if denominator is None or denominator[1] != 1 or denominator[0] == 0 or numerator is None:
        return None
    form = PERCENT if denominator[0] == 100 else FRACTION
    return Quantity(factor * numerator[0], denominator[0] * numerator[1], form)


def unsigned_quantity(text: str, has_sign: bool, exponents: Exponents) -> Optional[Quantity]:
    """The shapes, in their order: the first that fits."""
    mixed = mixed_fraction(text, exponents)
    if mixed is not None:
        return mixed
    if all(text.partition("分之")):
        return fraction(text, has_sign, exponents)
    if len(text) > 1 and text[-1] in "%％‰":
        value = number(text[:-1], exponents)
        divisor, form = (1000, FRACTION) if text[-1] == "‰" else (100, PERCENT)
        return value and Quantity(value[0], value[1] * divisor, form)
    value = number(text, exponents)
    return value and Quantity(*value, WHOLE if value[1] == 1 else DECIMAL)


@lru_cache(maxsize=100_000)
def quantity(string: str, exponents: Exponents = TEN_THOUSAND) -> Optional[Quantity]:
    """`chinese_to_quantity`: the quantity of a string, or None where it is refused."""
    sign, text = signed(text_of(string))
    answer = unsigned_quantity(text, bool(sign), exponents)
    if answer is None or answer.denominator > U128_MAX:
        return None
    if sign == "零下" or sign in MINUS:
        answer = answer._replace(numerator=-answer.numerator)
    return answer if I128_MIN <= answer.numerator <= I128_MAX else None


# ---- Quantities in figures -------------------------------------------------------------------


def figures_text(q: Quantity) -> str:
    """`quantity_to_figures`: the trimmed quantity in ASCII figures."""
    numerator, suffix = q.numerator, "%" if q.form == PERCENT else ""
    places = len(str(q.denominator)) - 1 - 2 * len(suffix)
    if q.form == FRACTION or places < 0 or q.denominator != 10 ** (places + 2 * len(suffix)):
        return f"{numerator}/{q.denominator}"
    while places > 0 and numerator % 10 == 0:
        numerator, places = numerator // 10, places - 1
    figures = str(abs(numerator)).rjust(places + 1, "0")
    whole, decimals = figures[: len(figures) - places], figures[len(figures) - places :]
    return ("-" if numerator < 0 else "") + whole + ("." + decimals if decimals else "") + suffix


# ---- Numbers in a text -----------------------------------------------------------------------

UPPER_ALONE = frozenset("壹貳贰貮參叁叄参肆伍陸陆柒捌玖拾佰仟")
AFTER_MEGA = "[瓦赫帕焦伏乏]|字[節节]|比特|[电電]子|[宽寬][带帶頻]|[带帶頻][宽寬]|位(?![数數])|[欧歐](?!元)"
MEGA = re.compile(f"兆(?:{AFTER_MEGA})")
Wanted = Tuple[int, bool]  # the greatest unit's rank, and whether both cases are wanted
EVERYDAY, ALL = (RANKS["兆"], False), (RANKS["極"], True)


class FoundNumber(NamedTuple):
    """A number of a text, with the i128 that a reader answers to it by itself, or None."""

    start: int
    end: int
    text: str
    number: Optional[int]
    stands_alone: bool
    is_about: bool
    is_one_character: bool


class Line:
    """A text with the roles of its characters, each found once."""

    def __init__(self, text: str, wanted: Wanted = EVERYDAY) -> None:
        self.text, self.wanted = text, wanted
        places = range(len(text))
        self.belongs = [self.belongs_to_number(i) for i in places]
        self.numeric = [self.belongs[i] or text[i] in "廿卅" or self.is_wide(i) for i in places]

    def at(self, i: int) -> str:
        return at(self.text, i)

    def is_figure(self, i: int) -> bool:
        return is_figure(self.at(i))

    def is_wide(self, i: int) -> bool:
        """A full-width figure."""
        return is_figure(self.at(i)) and self.at(i) not in DIGITS

    def is_wanted(self, i: int) -> bool:
        c = self.at(i)
        greatest, both_cases = self.wanted
        if c in UPPER_ALONE and not both_cases:
            return False
        return c in DIGITS or 0 <= rank_of(c) <= greatest

    def belongs_to_number(self, i: int) -> bool:
        """`Belongs.belongs`."""
        if not self.is_wanted(i) or MEGA.match(self.text, i):
            return False
        if rank_of(self.at(i)) == 0:
            return rank_of(self.at(i + 1)) >= 4 and self.belongs_to_number(i + 1)
        return True

    def is_numeric(self, i: int) -> bool:
        """A numeral character."""
        return 0 <= i < len(self.text) and self.numeric[i]


def longest_stretches(
    n: int, belongs: List[bool], parts: Callable[[int], bool]
) -> List[Tuple[int, int]]:
    """The longest stretches of places that belong, none of which `parts` from the next one."""
    spans: List[Tuple[int, int]] = []
    start: Optional[int] = None
    for i in range(n + 1):
        if start is not None and (i == n or not belongs[i] or parts(i - 1)):
            spans.append((start, i))
            start = None
        if i < n and belongs[i] and start is None:
            start = i
    return spans


def clings_to_number(c: str) -> bool:
    """An ASCII letter, a digit of any kind or one of `_廿卅卌幺`."""
    return is_letter(c) or is_any_digit(c) or c in "_廿卅卌幺"


def stands_alone(line: Line, start: int, end: int) -> bool:
    for near, beyond in ((start - 1, start - 2), (end, end + 1)):
        c, further = line.at(near), line.at(beyond)
        if clings_to_number(c):
            return False
        if c in ".,-点點" and (clings_to_number(further) or further in RANKS):
            return False
    return True


def is_about(line: Line, start: int, end: int) -> bool:
    text = line.text[start:end]
    if text[0] in RANKS and line.at(start - 1) in "几幾数數":
        return True
    if line.at(end) in "几幾多余餘来來" or (line.at(end) == "好" and line.at(end + 1) in "几幾"):
        return True
    if line.at(end) == "出" and line.at(end + 1) in "头頭":
        return True
    whole = re.split("[点點]", text)[0]
    pairs = [(a, b) for a, b in zip(whole, whole[1:]) if is_any_digit(a) and is_any_digit(b)]
    if len(pairs) != 1 or is_figure(pairs[0][0]) or is_figure(pairs[0][1]):
        return False
    first, second = DIGITS[pairs[0][0]], DIGITS[pairs[0][1]]
    return (first >= 1 and second == first + 1) or (first, second) == (3, 5)


def is_one_character(text: str) -> bool:
    return len(text) == 1 and not is_figure(text)


def typed_number(text: str) -> Optional[int]:
    """What a reader of i128 answers: one leading sign is taken off, as 正 by `ALL`."""
    sign, rest = (text[0], text[1:]) if at(text, 0) in "正负負" else ("", text)
    value = read_by_itself(rest)
    value = -value if value is not None and sign in ("负", "負") else value
    return value if value is not None and I128_MIN <= value <= I128_MAX else None


def find_numbers(text: str, wanted: Wanted = EVERYDAY) -> List[FoundNumber]:
    """The runs of a text."""
    line = Line(text, wanted)

    def is_parted(i: int) -> bool:
        a, b = line.at(i), line.at(i + 1)
        return (is_figure(a) and is_chinese_digit(b)) or (is_chinese_digit(a) and is_figure(b))

    numbers = []
    for start, end in longest_stretches(len(text), line.belongs, is_parted):
        run = text[start:end]
        flags = stands_alone(line, start, end), is_about(line, start, end), is_one_character(run)
        numbers.append(FoundNumber(start, end, run, typed_number(run), *flags))
    return numbers


# ---- Expressions in a text -------------------------------------------------------------------


class Found(NamedTuple):
    """An expression of a text."""

    start: int
    end: int
    text: str
    quantity: Optional[Quantity]
    is_about: bool
    is_one_character: bool
    doubt: Optional[str]


def is_other_word(line: Line, i: int) -> bool:
    """A numeral character that belongs to another word than a number."""
    c, after = line.at(i), line.at(i + 1)
    if c in "两兩" and line.is_numeric(i - 1):
        return not (line.is_wanted(i + 1) and (rank_of(after) == 0 or rank_of(after) >= 2))
    if c in "个個" and after in "万萬":
        return not (line.is_numeric(i - 1) and not is_han(line.at(i + 2)))
    if c in "千仟" and after in "瓦克米卡赫伏安焦帕":
        j = i
        while is_any_digit(line.at(j - 1)):
            j -= 1
        is_power = line.is_wanted(i - 1) and rank_of(line.at(i - 1)) >= 1
        return is_power or (j < i and line.at(j - 1) in ".．点點")
    return False


def begins_time_or_word(line: Line, i: int) -> bool:
    """The digit at i, after 点, begins a time or a word."""
    if line.at(i + 1) in "分刻十点點":
        return True
    if line.at(i) in "零〇" and is_any_digit(line.at(i + 1)) and line.at(i + 2) in "分刻十点點":
        return True
    return line.at(i) == "一" and line.at(i + 1) in "定直起样樣些下切滴线線"


def comma_joins(line: Line, i: int) -> bool:
    if not all(line.is_figure(j) for j in (i + 1, i + 2, i + 3)) or line.is_figure(i + 4):
        return False
    if line.at(i) == "，" and not (line.is_wide(i - 1) and line.is_wide(i + 1)):
        return False
    j = i  # the start of the figures directly before the comma
    while line.is_figure(j - 1) and j > i - 4:
        j -= 1
    if i - j == 3 and line.at(j - 1) in ",，":
        return True
    return 1 <= i - j <= 3 and line.at(j) not in "0０" and line.at(j - 1) not in ",.．"


def sign_joins(line: Line, i: int) -> bool:
    c, before, after = line.at(i), line.at(i - 1), line.at(i + 1)
    if c in "负負":
        if line.is_numeric(i - 1) or before in "正非背揹肩担擔抱胜勝辜欺自不":
            return False
        return line.is_numeric(i + 1)
    if c in "-−－":
        if line.is_numeric(i - 1) or is_letter(before) or before in "%％‰)]}_.．/\\-−－":
            return False
        return is_figure(after) or (after in "¥￥" and line.is_figure(i + 2))
    if c in "¥￥":
        return before in "-−－" and sign_joins(line, i - 1) and is_figure(after)
    return False


def joins(line: Line, i: int) -> bool:
    """A character that is no numeral character belongs to an expression."""
    c, before, after = line.at(i), line.at(i - 1), line.at(i + 1)
    if c in "点點":
        if not line.is_numeric(i - 1) or is_figure(before) or begins_time_or_word(line, i + 1):
            return False
        return line.is_wanted(i + 1) and is_chinese_digit(after)
    if c in ".．":
        return is_figure(before) and is_figure(after)
    if c in ",，":
        return comma_joins(line, i)
    if c == " ":
        if not is_figure(before):
            return False
        return after in "%％‰" or (rank_of(after) >= 2 and line.is_numeric(i + 1))
    if c == "分":
        j = i + 3 if line.at(i + 2) in MINUS else i + 2
        return line.is_numeric(i - 1) and after == "之" and line.is_numeric(j)
    if c == "之":
        return before == "分" and joins(line, i - 1)
    if c in "%％‰":
        return line.is_numeric(i - 1) or (before == " " and line.is_figure(i - 2))
    if c == "又":
        j = i + 1
        while line.is_numeric(j):
            j += 1
        sign = line.at(j + 2) in MINUS and line.is_numeric(j + 3)
        fraction_follows = line.text.startswith("分之", j) and (line.is_numeric(j + 2) or sign)
        return line.is_numeric(i - 1) and j > i + 1 and fraction_follows
    if c == "下":
        if before != "零" or line.is_numeric(i - 2):
            return False
        if after == "一" and not (line.is_numeric(i + 2) or line.at(i + 2) in "度点點摄攝℃"):
            return False
        return is_figure(after) or (line.is_wanted(i + 1) and (after in DIGITS or after == "十"))
    return sign_joins(line, i)


def parts_expressions(a: str, b: str) -> bool:
    """Two neighbours that belong are not joined."""
    if a in "%％‰":
        return True
    if is_figure(a):
        return is_chinese_digit(b) or b in "廿卅"
    return is_figure(b) and (is_chinese_digit(a) or a in "廿卅") and a not in "零〇"


@lru_cache(maxsize=1)
def find_quantities(text: str) -> List[Found]:
    """The expressions of a text."""
    line = Line(text)
    belongs = [
        not is_other_word(line, i) if line.numeric[i] else joins(line, i) for i in range(len(text))
    ]

    def is_parted(i: int) -> bool:
        return parts_expressions(line.at(i), line.at(i + 1))

    expressions = []
    for start, end in longest_stretches(len(text), belongs, is_parted):
        e = text[start:end]
        flags = is_about(line, start, end), is_one_character(e), doubt_of(line, start, end)
        expressions.append(Found(start, end, e, quantity(e), *flags))
    return expressions


# ---- Doubt -----------------------------------------------------------------------------------

WORDS = [
    tuple(word.split("|"))
    for word in """
    |十二|指肠 |十二|生肖 |十二|月党 |十八|般 |十八|大 |十八|罗汉 |十八|层地 |十九|大 |十九|国集 |二十|大 |二十|国集
    |十一|放 |十一|回 |十一|去 |十一|再 |十一|出 |十一|假期 |十一|长假 |十一|黄金 |三十六|计 |七十二|变 |七十二|行 |三百六十|行 |二十四|史 |二十四|节气
    |二十八|宿 |十三|陵 |十三|妹 |一千零一|夜 |二八|年华 |三十|而立 |三十|年河 |四十|不惑
    |五十|步笑 |十五|个吊 |十五|只吊 |十万|火急 |十万八千|里 |二百五| |亿万| 双|十一| 双|十二| 年|三十| 初|一十五| |一千|道一 千道|一万|
    """.split()
]
ERAS = tuple(
    """
    康熙 雍正 乾隆 嘉庆 嘉靖 道光 咸丰 元丰 同治 顺治 光绪 宣统 正统 洪武 建武 永乐 万历 大历 庆历 崇祯 贞观 开元 天宝
    """.split()
)
SIMPLE = str.maketrans(
    "腸黨羅漢層長黃計變華個雙萬億臘節氣國隻慶豐順緒統樂曆歷禎貞觀開寶",
    "肠党罗汉层长黄计变华个双万亿腊节气国只庆丰顺绪统乐历历祯贞观开宝",
)
WEEK = re.compile(r"(?:[周週]|星期|[礼禮]拜)\Z")
BETWEEN_IN_TITLE = frozenset(" ,，、-.〇")
HALVED = "个個倍天岁歲里年月日号號點点时時分秒刻元圆圓块塊角毛度米斤两兩"
LINKS = "到至~～－–—〜-"
CHINESE_DIGITS, TWO_TENS = re.compile(f"{_D}+"), re.compile(f"十{_D}十")
_HOUR = "[一二两兩三四五六七八九]|十[一二两兩三四五六七八九]?|[二两兩]十|二十[一二三四]"
TIME = re.compile(f"(?:{_HOUR})[点點]")
TIME_WITH_ZERO = re.compile(f"(?:{_HOUR})[点點][零〇](?![零〇]){_D}")


# What may be directly after a whole amount, and what else after a decimal.
AFTER_AMOUNT = re.compile("[的了吧吗嗎嘛呢啊么麼左以之和与與或就也都还還]|[到至][一二两兩三四五六七八九十]")
AFTER_DECIMAL = re.compile("[米公里升倍元圆圓级級度克吨噸斤尺寸吋厘釐毫微海英美欧歐港平立亩畝秒岁歲环環千兆瓦伏版]|[个個声聲][百点點道]")
HOUR_AND_ONE = re.compile(f"(?:{_HOUR})[点點]一")


def ends_in_next_word(line: Line, start: int, end: int) -> bool:
    """Its last character is a 一 that begins the next word."""
    text, after = line.text[start:end], line.at(end)
    if len(text) < 2 or text[-1] != "一":
        return False
    if after in "共直定旦律":
        return True
    if not is_han(after) or AFTER_AMOUNT.match(line.text, end):
        return False
    if text[-2] in "百千万萬亿億兆":
        return True
    return HOUR_AND_ONE.fullmatch(text) is not None and not AFTER_DECIMAL.match(line.text, end)


def is_part(line: Line, start: int, end: int) -> bool:
    text, after, then = line.text[start:end], line.at(end), line.at(end + 1)
    if after == "折" and then not in "算合旧舊叠疊磨返":
        return True
    if after == "成" and len(text) <= 2 and CHINESE_DIGITS.fullmatch(text):
        return True
    if after == "分" and then == "之" and line.at(end + 2) in "几幾":
        return True
    if text.startswith("百分") and after in "秒毫厘釐克":
        return True
    if after in HALVED and then == "半":
        return True
    return ends_in_next_word(line, start, end)


def is_in_title(line: Line, start: int) -> bool:
    """《 is among the 40 characters before a place, with nothing but what titles have between."""
    for c in reversed(line.text[max(0, start - 40) : start]):
        if c == "《":
            return True
        if not (is_han(c) or is_figure(c) or is_letter(c) or c in BETWEEN_IN_TITLE):
            return False
    return False


def is_after_era(line: Line, start: int) -> bool:
    head = line.text[:start]
    return head.endswith("民国") or head.translate(SIMPLE).endswith(ERAS)


def is_after_week(line: Line, start: int) -> bool:
    return WEEK.search(line.text[max(0, start - 2) : start]) is not None


def begins_with_weekday(line: Line, start: int, end: int) -> bool:
    return end - start > 1 and line.at(start) in "一二三四五六" and is_after_week(line, start)


def is_word(line: Line, start: int, end: int) -> bool:
    if is_in_title(line, start) or (line.at(end) == "年" and is_after_era(line, start)):
        return True
    if begins_with_weekday(line, start, end):
        return True
    text = line.text.translate(SIMPLE)
    head, tail = text[:start], text[end:]
    if re.search("亿萬|億万", line.text[start:end]):
        return False
    if head.endswith(("正月", "腊月")):
        return True
    return any(
        text[start:end] == middle and head.endswith(before) and tail.startswith(after)
        for before, middle, after in WORDS
    )


def is_digits(line: Line, start: int, end: int) -> bool:
    text = line.text[start:end]
    if TWO_TENS.search(text):
        return True
    if not CHINESE_DIGITS.fullmatch(text) or len(text) < 2:
        return False
    values = [DIGITS[c] for c in text]
    if len(values) > 3 and (values[0] == 0 or any(b < a for a, b in zip(values, values[1:]))):
        return False
    before, after = line.at(start - 1), line.at(end)
    if (after == "年" and line.at(end + 1) not in "级級") or after in "号號室房办辦":
        return False
    if before in "楼樓栋棟座幢号號码碼":
        return False
    return not (values[0] == 0 and before in "点點分时時" and after in "分秒")


def is_term(line: Line, start: int, end: int) -> bool:
    text, after, then = line.text[start:end], line.at(end), line.at(end + 1)
    if text[0] in "负負" and after in "项項楼樓层層":
        return True
    if re.search("[点點]", text) and after in "划劃线線":
        return True
    if after in "进進" and then in "制位":
        return True
    if line.at(start - 1) == "第":
        if after + then == "次全":
            return True
        if after in "条條" and (not is_han(then) or then in "第之规規和及与與或至到"):
            return True
    return after in "届屆" and is_chinese_digit(then) and line.at(end + 2) == "中"


def is_time(line: Line, start: int, end: int) -> bool:
    text, head = line.text[start:end], line.text[:start]
    if TIME.match(text) and head.endswith((*"午晨早晚夜", "早上", "晚上")):
        return True
    return TIME_WITH_ZERO.fullmatch(text) is not None and line.at(end) not in "元米度倍吨噸克升"


def whole_part(q: Quantity) -> int:
    """A quantity without its sign and what is behind its point."""
    return abs(q.numerator) // q.denominator


def share(first: str, second: str) -> bool:
    a, b = quantity(first), quantity(second)
    if a is None or b is None:
        return False
    if (a.form == PERCENT) != (b.form == PERCENT):
        return True
    if len(second) < 2 or second[-1] not in RANKS or rank_of(first[-1]) >= rank_of(second[-1]):
        return False
    without_unit = quantity(second[:-1])
    return without_unit is not None and whole_part(a) <= whole_part(without_unit)


def are_range(first: str, link: str, second: str) -> bool:
    if not first or not second:
        return False
    if link == "、":
        if not (len(first) == 1 and is_chinese_digit(first) and is_chinese_digit(second[0])):
            return False
        if DIGITS[second[0]] != DIGITS[first] + 1:
            return False
    elif link not in LINKS:
        return False
    return share(first, second)


def is_range(line: Line, start: int, end: int) -> bool:
    def is_of_end(i: int) -> bool:
        c = line.at(i)
        return is_any_digit(c) or rank_of(c) >= 1 or c in "廿卅点點.．分之%％"

    text, left, right = line.text, start - 1, end + 1
    while is_of_end(left - 1):
        left -= 1
    while is_of_end(right):
        right += 1
    expression = text[start:end]
    if are_range(expression, line.at(end), text[end + 1 : right]):
        return True
    return left >= 0 and are_range(text[left : start - 1], line.at(start - 1), expression)


DOUBTS: Dict[str, Callable[[Line, int, int], bool]] = dict(
    part=is_part, word=is_word, digits=is_digits, term=is_term, time=is_time, range=is_range
)


def doubt_of(line: Line, start: int, end: int) -> Optional[str]:
    """The first of the reasons that applies."""
    return next((name for name, applies in DOUBTS.items() if applies(line, start, end)), None)


# ---- Expressions replaced: the new text ------------------------------------------------------

FIGURES_ALONE = re.compile(f"([-−－]?)({_F}[0-9０-９,，]*)(?:[.．]({_F}+))?")


def kept_text(text: str) -> Optional[str]:
    """`Kept.kept_text`, of a quantity; None where a part of it is refused by itself."""
    sign, rest = signed(text)
    if sign:  # 1
        new = kept_text(rest)
        return new and ("零下" if sign == "零下" else "-") + new
    if "分之" in text:  # 2
        below, _, above = text.partition("分之")
        minus = "-" if above[0] in MINUS else ""
        numerator = kept_text(above[1:]) if minus else kept_part(above)
        denominator = kept_part(below)
        if numerator is None or denominator is None:
            return None
        is_percentage = part(text_of(below), TEN_THOUSAND) == (100, 1)
        return minus + numerator + ("%" if is_percentage else "/" + denominator)
    if text[-1] in "%％‰":  # 3
        new = kept_text(text[:-1])
        return new and new + text[-1]
    if is_figure(text[0]):  # 4
        return text
    if all(is_chinese_digit(c) for c in text):
        return ascii_figures(text)
    decimal = CHINESE_DECIMAL.fullmatch(text)
    if decimal and (not decimal.group(4) or rank_of(text[-1]) >= 4):  # 5
        whole, decimals, ge, units = decimal.groups()
        return f"{whole_number(text_of(whole))}.{ascii_figures(decimals)}{ge}{units}"
    if not decimal and rank_of(text[-1]) >= 4:  # 6
        written = [kept_section(section) for section in sections(text)]
        return None if None in written else "".join(section or "" for section in written)
    unit = rank_of(at(text, len(text) - 2))
    if not decimal and unit >= 5 and 1 <= digit_of(text[-1]) <= 9:  # 7
        before = text[:-2]
        directly_before = rank_of(at(before, len(before) - 1))
        if directly_before < 4 and directly_before != 0 and all(rank_of(c) < unit for c in before):
            value = whole_number(text_of(before))
            return None if value is None else f"{value}.{DIGITS[text[-1]]}{text[-2]}"
    answer = quantity(text)  # 8
    return answer and figures_text(answer)


def kept_part(text: str) -> Optional[str]:
    """One side of 分之, where rising units alone are a number, written without units."""
    product = units_product(text, TEN_THOUSAND)
    return kept_text(text) if product is None else str(product)


def sections(numeral: str) -> List[str]:
    """A section ends after each unit from 萬 up that is greater than all units after it."""
    ends, greatest = [], -1
    for i in reversed(range(len(numeral))):
        rank = rank_of(numeral[i])
        if rank >= 4 and rank > greatest:
            ends.append(i + 1)
        greatest = max(greatest, rank)
    ends.reverse()
    return [numeral[start:end] for start, end in zip([0] + ends, ends)]


def kept_section(section: str) -> Optional[str]:
    """Its 零〇 at the start, a whole number in figures, and the units at its end as they are."""
    start, end = len(section) - len(section.lstrip("零〇")), len(section) - 1
    while end > 0 and rank_of(section[end - 1]) >= 4:
        end -= 1
    while any(rank_of(c) >= rank_of(section[end]) for c in section[:end]):
        end += 1
    middle = section[start:end].rstrip("个個")
    value = whole_number(text_of(middle))
    return None if value is None else section[:start] + str(value) + section[start + len(middle) :]


def canonical_text(text: str) -> Optional[str]:
    """What is in figures alone, in ASCII without commas and leading zeros; else None."""
    found = FIGURES_ALONE.fullmatch(text)
    if found is None:
        return None
    sign, whole, decimals = found.groups()
    figures = ascii_figures(re.sub("[,，]", "", whole)).lstrip("0") or "0"
    return ("-" if sign else "") + figures + ("." + ascii_figures(decimals) if decimals else "")


# ---- Expressions replaced: what stays --------------------------------------------------------

MEASURES = frozenset(
    "km m cm mm nm kg g mg t L l mL ml cc kW W kWh MW GW kPa MPa kcal kHz MHz GHz Hz dB KB MB GB "
    "TB kB K M G T Mbps Gbps V A mA mAh px pt s ms h min".split()
)
CALENDAR, CLOCK = "年月日号號分秒刻", "點点时時"
MONEY_AND_MEASURES = "元圆圓块塊角毛度米斤两兩"
COUNTED = "个個件张張人名位只隻條条斤份次瓶包箱盒本套台杯碗"
BEFORE_LINK = CALENDAR + CLOCK + MONEY_AND_MEASURES
JOINED_IN_ANY_CASE = re.compile(
    f"[{BEFORE_LINK}]?[{LINKS}]|比|[单單有加减減乘除]|[个個]?小[时時]|分[钟鐘]|[乘除]以|等[于於]|[{CLOCK}]"
)
CHARACTERS_ABOVE = frozenset(BEFORE_LINK + LINKS + "比单單有加减減乘除个個小钟鐘")


def clings(line: Line, start: int, end: int) -> bool:
    """An expression clings to a name, an address or a number."""

    def touches(near: int, beyond: int) -> bool:
        c, further = line.at(near), line.at(beyond)
        if is_letter(c) or is_figure(c) or c in "_幺廿卅卌":
            return True
        return c in "-./:" and (is_letter(further) or is_figure(further))

    letters_end = end
    while is_letter(line.at(letters_end)):
        letters_end += 1
    is_measure = line.text[end:letters_end] in MEASURES and not line.is_figure(letters_end)
    return touches(start - 1, start - 2) or (touches(end, end + 1) and not is_measure)


def are_joined(line: Line, first: Any, second: Any) -> bool:
    """`Joined.are_joined`, of two neighbours."""
    between, after = line.text[first.end : second.start], line.at(second.end)
    if JOINED_IN_ANY_CASE.fullmatch(between):
        return True
    if len(between) != 1 or between not in CALENDAR + MONEY_AND_MEASURES:
        return False
    if second.text == "一" and is_han(after) and after not in CHARACTERS_ABOVE and after != "的":
        return False
    return between in CALENDAR or not (second.is_one_character and after in COUNTED)


TEN_OF_UNIT = re.compile("十(?:[元米克吨噸升秒度号號岁歲]|[公厘釐毫千平立][里斤顷頃尺米克升方]|[分小][钟鐘时時]|[美欧歐日港]元|百分)")


def counts_as_one_character(line: Line, e: Found) -> bool:
    """All that is one character does, but 十 after 每 or before a unit of measure, if it is no second."""
    before = line.at(e.start - 1)
    if e.text != "十" or before in "到至、和与與或":
        return e.is_one_character
    return before != "每" and not TEN_OF_UNIT.match(line.text, e.start)


def has_figure(text: str) -> bool:
    return any(is_figure(c) for c in text)


class Options(NamedTuple):
    style: str = "kept"
    canonical: bool = False
    compact: bool = False
    about: bool = False
    one_character: bool = False
    doubtful: bool = False


def stays(line: Line, e: Found, options: Options) -> bool:
    """Rules 1 to 4."""
    expanded = options.style == "expanded"
    if has_figure(e.text) and "分之" not in e.text:  # 1
        is_written = options.canonical and canonical_text(e.text) is not None
        has_unit = any(c in RANKS or c in "零〇" for c in e.text)
        if not (is_written or (expanded and has_unit)):
            return True
    if e.quantity is None or e.doubt == "part":  # 2
        return True
    if e.is_about and not options.about:
        return True
    if counts_as_one_character(line, e) and not options.one_character:
        return True
    if e.doubt is not None and not options.doubtful:
        return True
    if clings(line, e.start, e.end):  # 3
        return True
    below, is_fraction, _ = e.text.partition("分之")  # 4
    if expanded or not is_fraction:
        return False
    denominator = part(text_of(signed(below)[1]), TEN_THOUSAND)
    return "又" in e.text or (denominator is not None and denominator[0] >= 1000)


def new_text(line: Line, e: Found, options: Options = Options()) -> Optional[str]:
    """The new text of an expression; None if it is left unchanged."""
    if stays(line, e, options):
        return None
    figures = canonical_text(e.text) if options.canonical else None
    if figures is None and options.style == "expanded" and e.quantity is not None:
        return figures_text(e.quantity)
    return kept_text(e.text) if figures is None else figures


def put_in_chains(line: Line, expressions: Sequence[Any], news: List[Optional[str]]) -> str:
    """The text with new texts, except where an expression, or a phrase, holds others: rule 5."""
    holds = [new is None and not has_figure(e.text) for e, new in zip(expressions, news)]
    joined = [are_joined(line, a, b) for a, b in zip(expressions, expressions[1:])]
    for i, is_joined in enumerate(joined):  # from one to the next, to the right
        holds[i + 1] = holds[i + 1] or (is_joined and holds[i])
    for i, is_joined in reversed(list(enumerate(joined))):  # and to the left
        holds[i] = holds[i] or (is_joined and holds[i + 1])
    pieces, end = [], 0
    for e, new, held in zip(expressions, news, holds):
        pieces += [line.text[end : e.start], e.text if new is None or held else new]
        end = e.end
    return "".join(pieces) + line.text[end:]


def to_figures(text: str, **options: Any) -> str:
    """`quantities_to_figures`: numerals in figures, in the kept or the expanded style."""
    line, expressions = Line(text), find_quantities(text)
    news = [new_text(line, e, Options(**options)) for e in expressions]
    return put_in_chains(line, expressions, news)
