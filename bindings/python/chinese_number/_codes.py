# The choices, statuses, limits and texts of the library. Made by bindings/codes.py.

from enum import Enum
from typing import Literal

_KindWord = Literal[
    "u8",
    "u16",
    "u32",
    "u64",
    "u128",
    "i8",
    "i16",
    "i32",
    "i64",
    "i128",
]

_WayWord = Literal[
    "digits",
    "low",
    "ten_thousand",
    "middle",
    "high",
    "any",
]

_MethodWord = Literal[
    "low",
    "ten_thousand",
    "middle",
    "high",
    "any",
]

_ScriptWord = Literal[
    "traditional",
    "simplified",
]

_CaseWord = Literal[
    "upper",
    "lower",
]

_UnitWord = Literal[
    "ge",
    "shi",
    "bai",
    "qian",
    "wan",
    "yi",
    "zhao",
    "jing",
    "gai",
    "zi",
    "rang",
    "gou",
    "jian",
    "zheng",
    "zai",
    "ji",
]

_QuantityFormWord = Literal[
    "whole",
    "decimal",
    "percent",
    "fraction",
]

_DoubtWord = Literal[
    "word",
    "digits",
    "term",
    "part",
    "time",
    "range",
]

_InputWord = Literal[
    "amount",
    "signed_amount",
    "typed_amount",
    "typed_signed_amount",
    "date",
    "figures",
]

_LanguageWord = Literal[
    "en",
    "zh-Hans",
    "zh-Hant",
]


class Kind(str, Enum):
    """The integer type that a number must fit: of u8 a number is from 0 to 255, of i8 from -128 to
    127."""

    U8 = "u8"
    U16 = "u16"
    U32 = "u32"
    U64 = "u64"
    U128 = "u128"
    I8 = "i8"
    I16 = "i16"
    I32 = "i32"
    I64 = "i64"
    I128 = "i128"


class Way(str, Enum):
    """How a number is read or written: as plain digits, 一二三, or with units, 一百二十三, by one of four
    methods. ANY is the one to use. It reads a text as DIGITS if all of it is digits, with or
    without a sign, otherwise as TEN_THOUSAND. It can read back what it writes: in simplified
    script below 10^16 it writes as MIDDLE, so that 10^12 is 一万亿, and otherwise as TEN_THOUSAND.
    TEN_THOUSAND writes 10^12 as 兆, as in Taiwan; MIDDLE and HIGH write it as 萬億, as on the
    mainland.

    DIGITS: as plain digits: 一二三 is 123.
    LOW: each unit is ten times the one before: 億 is 10^5.
    TEN_THOUSAND: after 萬 each unit is 10^4 times the one before: 億 is 10^8, 兆 is 10^12.
    MIDDLE: after 億 each unit is 10^8 times the one before: 兆 is 10^16, 京 is 10^24.
    HIGH: from 億 on each unit is the square of the one before: 兆 is 10^16, 京 is 10^32.
    ANY: chooses by the text, or by the script and the number."""

    DIGITS = "digits"
    LOW = "low"
    TEN_THOUSAND = "ten_thousand"
    MIDDLE = "middle"
    HIGH = "high"
    ANY = "any"


class Script(str, Enum):
    """The script of a text that is written: 萬 or 万. Both are read.

    TRADITIONAL: 萬, 億.
    SIMPLIFIED: 万, 亿."""

    TRADITIONAL = "traditional"
    SIMPLIFIED = "simplified"


class Case(str, Enum):
    """The case of a number that is written: 壹拾 or 一十. Both are read.

    UPPER: 壹, 拾: the characters of cheques.
    LOWER: 一, 十."""

    UPPER = "upper"
    LOWER = "lower"


class Unit(str, Enum):
    """A unit; each is greater than the one before. A search takes the greatest one that it looks
    for: ZHAO is the one to use, since in sentences greater ones nearly always mean something
    else.

    GE: 個, 个.
    SHI: 十, 拾.
    BAI: 百, 佰.
    QIAN: 千, 仟.
    WAN: 萬, 万.
    YI: 億, 亿.
    ZHAO: 兆.
    JING: 京.
    GAI: 垓.
    ZI: 秭.
    RANG: 穰.
    GOU: 溝, 沟.
    JIAN: 澗, 涧.
    ZHENG: 正.
    ZAI: 載, 载.
    JI: 極, 极."""

    GE = "ge"
    SHI = "shi"
    BAI = "bai"
    QIAN = "qian"
    WAN = "wan"
    YI = "yi"
    ZHAO = "zhao"
    JING = "jing"
    GAI = "gai"
    ZI = "zi"
    RANG = "rang"
    GOU = "gou"
    JIAN = "jian"
    ZHENG = "zheng"
    ZAI = "zai"
    JI = "ji"


class QuantityForm(str, Enum):
    """How a quantity is written.

    WHOLE: 35, 三十五, 3万.
    DECIMAL: 3.5, 三點五, 3.5万.
    PERCENT: 12.5%, 百分之五十.
    FRACTION: 三分之一, 千分之五."""

    WHOLE = "whole"
    DECIMAL = "decimal"
    PERCENT = "percent"
    FRACTION = "fraction"


class Doubt(str, Enum):
    """Why a reader may understand an expression as something other than its quantity. If several
    reasons apply, PART is reported if it is among them, and otherwise the first in this list.

    WORD: it is part of a word or a title, or the year of an era: 十二 of 十二指肠, 十一 of 双十一, 四十一 of
    乾隆四十一年.
    DIGITS: it is two or three Chinese digits, or more in rising order, or two numbers: 五一, 一二三四,
    十五十六.
    TERM: it is part of a term: 负二 of 负二项, 十六 of 十六进制.
    PART: it is part of an expression with 折, 成, 半 or 分之几: 八五 of 八五折, 一 of 一个半; or its last 一
    begins the next word: 两百一 of 两百一个月.
    TIME: it may be a time: 三点五 of 下午三点五, 十点零五.
    RANGE: it is one end of a range whose ends share a unit or 百分之: 3 and 5万 of 3~5万."""

    WORD = "word"
    DIGITS = "digits"
    TERM = "term"
    PART = "part"
    TIME = "time"
    RANGE = "range"


class PhraseKind(str, Enum):
    """What an item of a text is: an expression that is in no phrase, or a phrase of a kind. What is
    in brackets are the numbers first, second, third and fourth of a phrase, where a language has
    no type of its own for its value.

    EXPRESSION: an expression in no phrase.
    DATE: a date or a part of one (the year, the month, the day).
    YEARS: from a year to another one.
    MONTHS: from a month to another one of the same year.
    DAYS: from a day to another one of the same month.
    TIME: a time of day (the hour as it is written, the minute, the second, the hour of 24).
    DURATION: a duration (hours, minutes and seconds).
    HALF: a number and a half, as 一个半小时 (the number without the half).
    LENGTH: a number with decimals, as 一米七五 (the number, the decimals, how many decimals there
    are).
    SCORE: two numbers that are compared.
    RANGE: from a quantity to another one.
    MONEY: a sum of money, as 三块五: the fen by their lower and their upper 32 bits, and 1; all 0
    if they are no whole number below 10^18."""

    EXPRESSION = "expression"
    DATE = "date"
    YEARS = "years"
    MONTHS = "months"
    DAYS = "days"
    TIME = "time"
    DURATION = "duration"
    HALF = "half"
    LENGTH = "length"
    SCORE = "score"
    RANGE = "range"
    MONEY = "money"


class PhraseState(str, Enum):
    """What is known of a phrase.

    CERTAIN: it has a value.
    DOUBTFUL: it has a value, but may mean something else: 1000年 of 1000年前, 五到八 of 五到八折.
    REFUSED: it has no value: it names a day or a time that does not exist, or does not rise."""

    CERTAIN = "certain"
    DOUBTFUL = "doubtful"
    REFUSED = "refused"


class Input(str, Enum):
    """What a text is meant to be, for the calls that say what may follow it and why it is refused:
    each names the call that reads it.

    AMOUNT: what chinese_to_amount reads.
    SIGNED_AMOUNT: what chinese_to_signed_amount reads.
    TYPED_AMOUNT: what chinese_to_amount_as_typed reads.
    TYPED_SIGNED_AMOUNT: what chinese_to_signed_amount_as_typed reads.
    DATE: what chinese_to_date reads.
    FIGURES: what yuan_to_fen reads."""

    AMOUNT = "amount"
    SIGNED_AMOUNT = "signed_amount"
    TYPED_AMOUNT = "typed_amount"
    TYPED_SIGNED_AMOUNT = "typed_signed_amount"
    DATE = "date"
    FIGURES = "figures"


class Change(str, Enum):
    """What is changed in a text to repair it.

    INSERT: the character is inserted at the place.
    REPLACE: the character replaces the one at the place.
    DELETE: the character at the place is deleted."""

    INSERT = "insert"
    REPLACE = "replace"
    DELETE = "delete"


class Fault(str, Enum):
    """Why a text is not a number or a quantity. From START on it is the rule that the wrong
    character breaks; from BARE_TEN on, a rule of quantities alone.

    EMPTY: the text is empty without its white space and, for signed types, one sign.
    TOO_LARGE: the number is above the type's maximum, or has more than 128 bits.
    TOO_SMALL: the number is below the type's minimum.
    START: a numeral starts with a digit or 十: 百 of 百五.
    CHARACTER: it is no digit or unit: 角 of 一角.
    DIGITS: a digit is directly after it, in a numeral with units: 一 of 一二.
    UNITS: a unit that is not greater is directly after it: 百 of 一百十.
    GE: no greater unit is after 個: 個 of 三個.
    GROUPS: the same unit is used again: 萬 of 一萬二萬.
    BARE_TEN: 十 has no 一 before it: 十 of 三千零十万.
    REPEATED_TEN: 十 or 百 is directly after 十: the second 十 of 十十.
    AFTER_ZERO: a unit is directly after 零: 万 of 一亿零万.
    WEIGHT: 两 may be a unit of weight: 两 of 二两.
    TWO_READINGS: the unit can multiply one digit or all before it: 万 of 一百五万.
    LEFT_OUT_ZERO: 零 or a unit seems to be left out: 二 of 一亿二千.
    DENOMINATOR: the denominator is not a whole number above 0: 零 of 零分之一."""

    EMPTY = "empty"
    TOO_LARGE = "too_large"
    TOO_SMALL = "too_small"
    START = "start"
    CHARACTER = "character"
    DIGITS = "digits"
    UNITS = "units"
    GE = "ge"
    GROUPS = "groups"
    BARE_TEN = "bare_ten"
    REPEATED_TEN = "repeated_ten"
    AFTER_ZERO = "after_zero"
    WEIGHT = "weight"
    TWO_READINGS = "two_readings"
    LEFT_OUT_ZERO = "left_out_zero"
    DENOMINATOR = "denominator"


class Language(str, Enum):
    """The language of a message.

    ENGLISH: English, en.
    SIMPLIFIED_CHINESE: Chinese in simplified script, zh-Hans.
    TRADITIONAL_CHINESE: Chinese in traditional script, zh-Hant."""

    ENGLISH = "en"
    SIMPLIFIED_CHINESE = "zh-Hans"
    TRADITIONAL_CHINESE = "zh-Hant"


class Status(Enum):
    """The status of a call. NumeralError has EMPTY, INCORRECT, TOO_LARGE, TOO_SMALL, NOT_HELD or
    NOT_A_QUANTITY; AmountError has INCORRECT, UNFINISHED, TOO_LARGE or TOO_SMALL; DateError has
    INCORRECT, UNFINISHED or NOT_A_DATE. No exception has DONE, NOT_UTF8, NO_ROOM, UNKNOWN or
    NONE.

    DONE: the text was read, written or searched.
    EMPTY: when reading, the text is empty without white space and, for signed types, one sign.
    INCORRECT: when reading, the character at the place cannot be there; no amount, figures or
    date begin with the text up to and including it.
    TOO_LARGE: when reading, the number is above the type's maximum, or has more than 128 bits;
    when writing with LOW, the number, or one within a quantity, is 10^16 or more; when writing
    an amount or reading figures, the amount is 10^18 fen or more.
    TOO_SMALL: when reading, the number is below the type's minimum; when writing with LOW, the
    number is -10^16 or less, or one within a negative quantity is 10^16 or more; when writing an
    amount, it is -10^18 fen or less.
    NOT_UTF8: when reading, finding or replacing, the bytes are not UTF-8; when finding, also:
    the search starts neither at a character nor at the end of the text.
    NO_ROOM: when writing or replacing, the text has more bytes than the buffer; when reading a
    column, the offsets of the row are not those of a text.
    NOT_HELD: when writing, the type does not hold the number.
    UNKNOWN: a code names no type, way, script, case, form, unit, option, input, language or
    status; DIGITS is not a method.
    UNFINISHED: when reading an amount, figures or a date, the text is not one, but more text can
    make it one.
    NONE: when finding the next number or quantity, there is no further one in the text; in a
    column, the row is missing.
    NOT_A_DATE: when writing a date, the date does not exist.
    NOT_A_QUANTITY: when writing a quantity, the denominator is 0."""

    DONE = 0
    EMPTY = 1
    INCORRECT = 2
    TOO_LARGE = 3
    TOO_SMALL = 4
    NOT_UTF8 = 5
    NO_ROOM = 6
    NOT_HELD = 7
    UNKNOWN = 8
    UNFINISHED = 9
    NONE = 10
    NOT_A_DATE = 11
    NOT_A_QUANTITY = 12


CURRENCY = 1
ROUND_YUAN = 2
UPRIGHT_CLOSING = 4
BRACKETED_SIGN = 8


PLAIN_DIGITS = 1
STANDS_ALONE = 2
ABOUT = 4
ONE_CHARACTER = 8


DOUBTFUL = 16
EXPANDED = 32
CANONICAL = 64
COMPACT = 128
CODES = 256


YAO = 1


TOO_LONG = 4294967295


MOST_BYTES = 234
MOST_QUANTITY_BYTES = 471
MOST_FIGURES_BYTES = 80
MOST_AMOUNT_BYTES = 117
MOST_SIGNED_AMOUNT_BYTES = 129
MOST_DATE_BYTES = 39
MOST_MESSAGE_BYTES = 512
MOST_ANSWER_BYTES = 256


MOST_EXPECTED = 48


TEXTS = {
    "empty": "a chinese number cannot be empty",
    "incorrect": "the chinese number is incorrect",
    "too_large": "number is too large",
    "too_small": "number is too small",
    "amount_unfinished": "the amount is not finished",
    "amount_incorrect": "the amount is incorrect",
    "date_unfinished": "the date is not finished",
    "date_incorrect": "the date is incorrect",
    "not_a_date": "there is no such date",
    "not_a_quantity": "the denominator is 0",
}
