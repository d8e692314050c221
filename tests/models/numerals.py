"""A reference model of how numerals are read and written.

It was written from docs/RULES.md, without a look at the code. Each function follows one definition, in
the order and words of RULES. Unlike text.py it also says how a text is refused, and where. An answer
is a tuple: ("ok", number), ("incorrect", position), or ("empty",), ("too_large",), ("too_small",).
"""

from functools import lru_cache
from typing import Dict, List, NamedTuple, Optional, Tuple

Answer = Tuple
MOST = 2**128 - 1
EMPTY, TOO_LARGE, TOO_SMALL = ("empty",), ("too_large",), ("too_small",)

# ---- Characters ------------------------------------------------------------------------------

DIGITS: Dict[str, int] = {
    character: value
    for value, characters in enumerate("零0〇 一壹1 二貳贰貮兩两2 三參叁叄参3 四肆4 五伍5 六陸陆6 七柒7 八捌8 九玖9".split())
    for character in characters
}
UNITS = "個个 十拾 百佰 千仟 萬万 億亿 兆 京 垓 秭 穰 溝沟 澗涧 正 載载 極极".split()
RANKS: Dict[str, int] = {c: rank for rank, characters in enumerate(UNITS) for c in characters}
GE, TEN, HUNDRED, WAN, YI = 0, 1, 2, 4, 5  # ranks

# The exponents of the scales by rank, as far as the scales fit 128 bits.
EXPONENTS: Dict[str, Tuple[int, ...]] = {
    "low": tuple(range(16)),
    "ten_thousand": (0, 1, 2, 3, 4, 8, 12, 16, 20, 24, 28, 32, 36),
    "middle": (0, 1, 2, 3, 4, 8, 16, 24, 32),
    "high": (0, 1, 2, 3, 4, 8, 16, 32),
}
SIGNS = {"正": 1, "負": -1, "负": -1}
WHITE_SPACE = frozenset(
    "\t\n\v\f\r \x85\xa0\u1680\u2028\u2029\u202f\u205f\u3000"
    + "".join(map(chr, range(0x2000, 0x200B)))
)
KINDS: Dict[str, Tuple[int, int]] = {}
for bits in (8, 16, 32, 64, 128):
    KINDS[f"u{bits}"] = (0, 2**bits - 1)
    KINDS[f"i{bits}"] = (-(2 ** (bits - 1)), 2 ** (bits - 1) - 1)

# What printers write: the digits, the units by rank, and the minus sign.
PRINTED = {
    ("traditional", "lower"): ("零一二三四五六七八九", "個十百千萬億兆京垓秭穰溝澗正載極", "負"),
    ("simplified", "lower"): ("零一二三四五六七八九", "个十百千万亿兆京垓秭穰沟涧正载极", "负"),
    ("traditional", "upper"): ("零壹貳參肆伍陸柒捌玖", "個拾佰仟萬億兆京垓秭穰溝澗正載極", "負"),
    ("simplified", "upper"): ("零壹贰叁肆伍陆柒捌玖", "个拾佰仟万亿兆京垓秭穰沟涧正载极", "负"),
}


def rank_of(character: str) -> int:
    """The rank of a unit, or -1."""
    return RANKS.get(character, -1)


def is_digit(character: str) -> bool:
    return character in DIGITS


def is_multiplier(character: str) -> bool:
    return rank_of(character) >= HUNDRED


def scale(rank: int, method: str) -> Optional[int]:
    """The scale of a unit, or None if it does not fit."""
    exponents = EXPONENTS[method]
    return 10 ** exponents[rank] if rank < len(exponents) else None


def scales_fit(text: str, method: str) -> bool:
    return all(rank_of(it) < len(EXPONENTS[method]) for it in text)


class Text(NamedTuple):
    """A string without white space, and without the sign that was removed from its start."""

    characters: str
    indices: List[int]  # the position of each character in the string
    sign: str

    def at(self, place: int) -> Answer:
        """The refusal at a place, as its position in the string."""
        return ("incorrect", self.indices[place])


def text_of(string: str, signs: Dict[str, int]) -> Text:
    indices = [i for i, it in enumerate(string) if it not in WHITE_SPACE]
    characters = "".join(string[i] for i in indices)
    if characters[:1] in signs and characters:
        return Text(characters[1:], indices[1:], characters[0])
    return Text(characters, indices, "")


# ---- Plain digits ----------------------------------------------------------------------------


def read_digits(text: str) -> Answer:
    """The first fault decides."""
    if not text:
        return EMPTY
    value = 0
    for place, character in enumerate(text):
        if not is_digit(character):
            return ("incorrect", place)
        value = 10 * value + DIGITS[character]
        if value > MOST:
            return TOO_LARGE
    return ("ok", value)


# ---- Numerals --------------------------------------------------------------------------------


def broken_rule(text: str, p: int) -> int:
    """The first of the rules 2 to 6 of numerals that the character at p breaks, or 0."""
    character, following = text[p], text[p + 1 : p + 2]
    if is_digit(character):
        return 3 if DIGITS[character] and is_digit(following) else 0
    rank, next_rank = rank_of(character), rank_of(following)
    if rank < 0:
        return 2
    if next_rank >= 0 and not rank < next_rank and (rank, next_rank) != (TEN, GE):
        return 4
    if rank == GE and next_rank <= GE:
        return 5
    not_smaller = (it for it in map(rank_of, text[p + 1 :]) if it >= rank)
    return 6 if next(not_smaller, rank + 1) == rank else 0


def is_numeral(text: str) -> bool:
    if not text or not (is_digit(text[0]) or rank_of(text[0]) == TEN):
        return False
    # 十 at the start is exempt from the rules 3, 4 and 6, and it breaks no others.
    start = 0 if is_digit(text[0]) else 1
    return not any(broken_rule(text, p) for p in range(start, len(text)))


def value_of(text: str, method: str) -> int:
    """The sum of the digits, each times the scales of its record units. All scales have to fit."""
    total, records = 0, []  # the ranks of the record units of a digit at the place, from the right
    for character in reversed(text):
        if is_digit(character):
            factor = 1
            for rank in records:
                factor *= scale(rank, method)
            total += DIGITS[character] * factor
        elif rank_of(character) >= 0:
            # Smaller units further right are hidden by this one for all digits before it.
            rank = rank_of(character)
            records = [rank] + [it for it in records if it > rank]
    return total


def ends_colloquially(text: str) -> bool:
    return len(text) > 1 and is_digit(text[-1]) and is_multiplier(text[-2])


def numeral_value(text: str, method: str) -> int:
    """The value of a numeral whose scales fit."""
    total = value_of(text, method)
    if rank_of(text[0]) == TEN:  # the digit ten counts ten times what 一 there counts
        total += 10 * (value_of("一" + text[1:], method) - value_of(text[1:], method))
    if ends_colloquially(text):
        last = DIGITS[text[-1]]
        total += last * scale(rank_of(text[-2]), method) // 10 - last
    return total


def value_that_fits(text: str, method: str) -> Answer:
    """The answer for a numeral: step 2 of judging."""
    if not scales_fit(text, method):
        return TOO_LARGE
    value = numeral_value(text, method)
    return ("ok", value) if value <= MOST else TOO_LARGE


# ---- Refusals of a text with units -----------------------------------------------------------


def place_of(text: str) -> int:
    """The greatest place from which the rest is not completable. 零 in front decides that, so it is
    the last character that breaks one of the rules 2 to 6."""
    return next((p for p in reversed(range(len(text))) if broken_rule(text, p)), 0)


def body_of(text: str) -> str:
    if len(text) >= 3 and is_multiplier(text[-2]) and rank_of(text[-1]) <= GE:
        return text[:-1]
    return text


def group_of(text: str, p: int) -> str:
    """The characters after a unit, up to the next unit that is not smaller."""
    end = p + 1
    while end < len(text) and rank_of(text[end]) < rank_of(text[p]):
        end += 1
    return text[p + 1 : end]


def is_early(body: str, method: str) -> bool:
    """The body overflows early."""
    place = place_of(body)
    if not scales_fit(body[place + 1 :], method):
        return True
    for p in range(place if place > 0 else 1, len(body)):
        if rank_of(body[p]) >= 0 and is_digit(body[p + 1 : p + 2]):
            if value_of(group_of(body, p), method) > MOST:
                return True
    return False


@lru_cache(maxsize=256)
def read_units(text: str, method: str) -> Answer:
    """How a text without its sign is judged."""
    if not text:
        return EMPTY
    if is_numeral(text):
        return value_that_fits(text, method)
    body = body_of(text)
    if not is_numeral(body):
        return TOO_LARGE if is_early(body, method) else ("incorrect", place_of(body))
    if value_that_fits(body, method) == TOO_LARGE:
        return TOO_LARGE
    return ("incorrect", len(text) - 1)


# ---- Readers ---------------------------------------------------------------------------------


def way_of(text: str, way: str) -> str:
    """The way in which a text without its sign is read."""
    if way != "any":
        return way
    return "digits" if all(map(is_digit, text)) else "ten_thousand"


def read_text(text: str, way: str) -> Answer:
    way = way_of(text, way)
    return read_digits(text) if way == "digits" else read_units(text, way)


def read(string: str, kind: str, way: str) -> Answer:
    """What a reader of a kind answers to a string."""
    least, greatest = KINDS[kind]
    text = text_of(string, SIGNS if least else {})
    answer = read_text(text.characters, way)
    if answer[0] == "incorrect":
        return text.at(answer[1])
    is_below = SIGNS.get(text.sign) == -1
    if answer == TOO_LARGE:
        return TOO_SMALL if is_below else TOO_LARGE
    if answer == EMPTY:
        return EMPTY
    number = -answer[1] if is_below else answer[1]
    if number > greatest:
        return TOO_LARGE
    return TOO_SMALL if number < least else ("ok", number)


# ---- Printers --------------------------------------------------------------------------------


def spelling(magnitude: int, method: str, printed: Tuple[str, str, str]) -> str:
    digits, units, _ = printed
    if magnitude < 10:
        return digits[magnitude]
    exponents = EXPONENTS[method]
    rank = max(it for it in range(TEN, len(exponents)) if 10 ** exponents[it] <= magnitude)
    by = 10 ** exponents[rank]
    quotient, rest = divmod(magnitude, by)
    text = spelling(quotient, method, printed) + units[rank]
    if rest:
        text += (digits[0] if rest < by // 10 else "") + spelling(rest, method, printed)
    return text


def spelled(magnitude: int, method: str, printed: Tuple[str, str, str]) -> str:
    """The spelling, in which 一十 at the start is 十."""
    text = spelling(magnitude, method, printed)
    return text[1:] if text.startswith(printed[0][1] + printed[1][TEN]) else text


def written_method(magnitude: int, script: str) -> str:
    """The method by which a number is written either way."""
    return "middle" if script == "simplified" and magnitude < 10**16 else "ten_thousand"


def write(number: int, way: str, script: str, case: str) -> Answer:
    """What a printer answers for a number that its kind holds."""
    printed, magnitude = PRINTED[script, case], abs(number)
    sign = printed[2] if number < 0 else ""
    if way == "digits":
        return ("ok", sign + "".join(printed[0][int(it)] for it in str(magnitude)))
    method = written_method(magnitude, script) if way == "any" else way
    if method == "low" and magnitude >= 10**16:
        return TOO_SMALL if sign else TOO_LARGE
    return ("ok", sign + spelled(magnitude, method, printed))
