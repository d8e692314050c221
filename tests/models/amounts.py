"""A reference model of amounts in capitals and in figures.

It was written from docs/RULES.md, without a look at the code. An answer to a text is ("ok", fen),
("incorrect", position), ("unfinished",) or ("too_large",).
"""

from typing import List, NamedTuple, Tuple

from forms import END, Language, Step, follow
from numerals import TOO_LARGE, TOO_SMALL, Answer

FIRST_NOT_WRITTEN = 10**18
UNFINISHED = ("unfinished",)
DIGITS = "零壹贰叁肆伍陆柒捌玖"
IN_SECTION = ("仟", "佰", "拾", "")
AFTER_SECTION = ("万", "亿", "万", "元")  # 万亿 is 10^12
YUAN = 16  # the digits of the yuan; after them are the jiao and the fen
JIAO, FEN = YUAN, YUAN + 1

# The characters of one word, which are read alike.
ALIKE = "贰貳 叁參叄 陆陸 万萬 亿億 元圆圓 整正 币幣".split()
SAME = {it: word[0] for word in ALIKE for it in word[1:]}
TRADITIONAL = str.maketrans("贰叁陆万亿圆币负数", "貳參陸萬億圓幣負數")


class State(NamedTuple):
    """What is known of the digits that are written, of eighteen."""

    place: int = 0
    is_begun: bool = False  # one of them is not 0
    is_after_zero: bool = False  # so, and the last one is 0
    has_section: bool = False  # one of this section is not 0
    has_upper: bool = False  # one of the section before that of 亿 is not 0
    may_lack_zero: bool = False  # the last is 0, and 万, 亿 or 元 is after it


AFTER_NO_YUAN = State(YUAN, True, True, may_lack_zero=True)  # after 零元: as after 壹拾元


def after_digit(state: State, digit: int) -> Tuple[str, State]:
    """What is written after a digit with its unit, at the end of a section; and the next state."""
    is_begun, has_section = state.is_begun or digit > 0, state.has_section or digit > 0
    place, section = state.place + 1, state.place // 4
    word, has_upper = "", state.has_upper
    if place <= YUAN and place % 4 == 0:
        is_written = has_section or (section == 1 and has_upper) or (section == 3 and is_begun)
        word = AFTER_SECTION[section] if is_written else ""
        has_upper, has_section = section == 0 and has_section, False
    is_zero = is_begun and digit == 0
    return word, State(place, is_begun, is_zero, has_section, has_upper, word != "" and is_zero)


def with_unit(state: State, digit: int) -> str:
    unit = IN_SECTION[state.place % 4] if state.place < YUAN else "角分"[state.place - YUAN]
    return DIGITS[digit] + unit


def steps_of_zero(state: State) -> List[Step]:
    word, after = after_digit(state, 0)
    if state.place == FEN:
        closings = () if not state.is_begun else ("整",) if state.is_after_zero else ("整", "")
        return [(it, END, (0,)) for it in closings]
    if state.place == YUAN - 1 and not state.is_begun:
        return [("零元", AFTER_NO_YUAN, (0,)), ("", after, (0,))]
    return [(word, after, (0,))]


def steps_of_digits(state: State) -> List[Step]:
    steps = steps_of_zero(state)
    zeros = ("零", "") if state.may_lack_zero else ("零",) if state.is_after_zero else ("",)
    for digit in range(1, 10):
        word, after = after_digit(state, digit)
        text = with_unit(state, digit) + word
        end = END if state.place == FEN else after
        steps += [(zero + text, end, (digit,)) for zero in zeros]
    return steps


class Before(NamedTuple):
    """What may be before the digits, and is not yet written."""

    circle: bool
    sign: bool
    name: bool
    is_typed: bool


SIGNS, NAMES = "负 負".split(), ["人民币"]
TYPED_SIGNS = "负 負 （负数） （負數） (负数) (負數)".split()
CIRCLES = "⊗ ⓧ".split()
NOTES = ["", *"（大写） （大寫） (大写) (大寫)".split()]
COLONS = ["", ":", "："]
TYPED_NAMES = [name + note + colon for name in NAMES for note in NOTES for colon in COLONS]
IS_BELOW, NOTHING = (-1,), ()


def steps_before(state: Before) -> List[Step]:
    steps: List[Step] = [("", State(), NOTHING)]
    if state.circle:
        steps += [(it, state._replace(circle=False), NOTHING) for it in CIRCLES]
    if state.sign:
        # Only a typed name may be before the sign.
        after = state._replace(sign=False)
        signs = TYPED_SIGNS if state.is_typed else SIGNS
        steps += [(it, after, IS_BELOW) for it in signs]
    if state.name:
        after = state._replace(circle=False, name=False, sign=state.sign and state.is_typed)
        names = TYPED_NAMES if state.is_typed else NAMES
        steps += [(it, after, NOTHING) for it in names]
    return steps


def steps_of_amounts(state: object) -> List[Step]:
    return steps_before(state) if isinstance(state, Before) else steps_of_digits(state)


def language_of(has_sign: bool, is_typed: bool) -> Language:
    start = Before(circle=is_typed, sign=has_sign, name=True, is_typed=is_typed)
    return Language(start, steps_of_amounts, SAME, is_typed)


AMOUNT, SIGNED_AMOUNT = language_of(False, False), language_of(True, False)
TYPED_AMOUNT, TYPED_SIGNED_AMOUNT = language_of(False, True), language_of(True, True)


def refusal(language: Language, text: str) -> Answer:
    count = follow(language, text).count
    return UNFINISHED if count == len(text) else ("incorrect", count)


def read(language: Language, text: str) -> Answer:
    count, values, _ = follow(language, text)
    if count < len(text) or not values:
        return refusal(language, text)
    (digits,) = values  # no text has two values
    is_below = digits[:1] == IS_BELOW
    fen = int("".join(map(str, digits[is_below:])))
    return ("ok", -fen if is_below else fen)


# ---- Written ---------------------------------------------------------------------------------


class Form(NamedTuple):
    has_currency: bool = False
    yuan: str = "元"
    closing: str = "整"
    sign: str = "负"


def magnitude_text(fen: int) -> str:
    if fen == 0:
        return "零元整"
    text, state = "", State()
    for digit in map(int, str(fen).zfill(FEN + 1)):
        word, after = after_digit(state, digit)
        if digit:
            text += "零" if state.is_after_zero and state.place != JIAO else ""
            text += with_unit(state, digit)
        text, state = text + word, after
    return text if fen % 10 else text + "整"


def write(fen: int, script: str, form: Form, least: int) -> Answer:
    """The text of an amount in a form, or the refusal of one below the least or too great."""
    if fen >= FIRST_NOT_WRITTEN:
        return TOO_LARGE
    if fen < least:
        return TOO_SMALL
    text = magnitude_text(abs(fen)).replace("元", form.yuan).replace("整", form.closing)
    sign = form.sign if fen < 0 else ""
    text = sign + "人民币" * form.has_currency + text
    return ("ok", text.translate(TRADITIONAL) if script == "traditional" else text)


# ---- In figures ------------------------------------------------------------------------------

SAME_FIGURES = dict(zip("０１２３４５６７８９−－．，￥", "0123456789--.,¥"))
ASCII_DIGITS = "0123456789"


def steps_of_figures(state: Tuple[str, int]) -> List[Step]:
    """A state is a part of figures and how many of its digits are written; those of the yuan are
    counted up to 4."""
    part, count = state
    steps: List[Tuple[str, object]] = []
    if part in ("sign", "currency"):
        mark, after = ("-", ("currency", 0)) if part == "sign" else ("¥", ("yuan", 0))
        steps = [(mark, after), ("", after)]
    if part == "yuan":
        steps = [(it, (part, min(count + 1, 4))) for it in ASCII_DIGITS]
    if part == "group" and count < 3:
        steps = [(it, (part, count + 1)) for it in ASCII_DIGITS]
    if part == "decimals":
        steps = [(it, (part, min(count + 1, 2))) for it in (ASCII_DIGITS if count < 2 else "0")]
    if (part == "yuan" and 1 <= count <= 3) or state == ("group", 3):
        steps.append((",", ("group", 0)))
    if (part == "yuan" and count) or state == ("group", 3):
        steps.append((".", ("decimals", 0)))
    if (part in ("yuan", "decimals") and count) or state == ("group", 3):
        steps.append(("", END))
    return [(text, after, NOTHING) for text, after in steps]


FIGURES = Language(("sign", 0), steps_of_figures, SAME_FIGURES)


def read_figures(text: str) -> Answer:
    count, values, _ = follow(FIGURES, text)
    if count < len(text) or not values:
        return refusal(FIGURES, text)
    plain = "".join(SAME_FIGURES.get(it, it) for it in text).replace(",", "").replace("¥", "")
    yuan, _, decimals = plain.lstrip("-").partition(".")
    fen = int(yuan + decimals[:2].ljust(2, "0"))
    if fen >= FIRST_NOT_WRITTEN:
        return TOO_LARGE
    return ("ok", -fen if plain.startswith("-") else fen)
