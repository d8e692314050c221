"""Reads, writes, finds and replaces Chinese numerals for whole numbers and exact quantities, with a
proved library.

>>> from datetime import date
>>> from chinese_number import amount_to_chinese, chinese_to_amount, date_to_chinese, find_numbers
>>> from chinese_number import find_phrases, text_to_figures, to_chinese, to_number, to_quantity
>>> from chinese_number import yuan_to_fen
>>> to_number('一百二'), to_number('一二〇'), to_chinese(105_000)
(120, 120, '十万五千')
>>> to_number('负一百二十九', kind='i8')
Traceback (most recent call last):
chinese_number.NumeralError: number is too small
>>> amount_to_chinese(yuan_to_fen('1,409.50'))
'壹仟肆佰零玖元伍角整'
>>> amount_to_chinese(1500, currency=True, closing='正')
'人民币壹拾伍元正'
>>> chinese_to_amount('壹仟肆佰零玖元伍角')
140950
>>> date_to_chinese(date(2026, 1, 15))
'贰零贰陆年零壹月壹拾伍日'
>>> [found.value() for found in find_numbers('百分之五十的人')]
[None, 50]
>>> to_quantity('12.5%').to_fraction(), to_quantity('3.5万').to_whole()
(Fraction(1, 8), 35000)
>>> text_to_figures('二零二六年一月五日下午三点半，市值三点五亿元，占百分之十二点五')
'2026年1月5日下午3点半，市值3.5亿元，占12.5%'
>>> [(found.text, found.value) for found in find_phrases('二零二六年一月五日下午三点半')]
[('二零二六年一月五日', datetime.date(2026, 1, 5)), ('下午三点半', datetime.time(15, 30))]

>>> from decimal import Decimal
>>> from chinese_number import Quantity, chinese_to_amount_as_typed, chinese_to_date
>>> from chinese_number import find_quantities, quantities_to_figures, replace_quantities
>>> from chinese_number import signed_amount_to_chinese
>>> to_number('十万五'), to_chinese(105_000, script='traditional')
(105000, '十萬五千')
>>> signed_amount_to_chinese(yuan_to_fen(Decimal('-1409.50')))
'负壹仟肆佰零玖元伍角整'
>>> chinese_to_amount_as_typed('⊗ 人民币：壹拾 伍元整')
1500
>>> chinese_to_date('贰零贰陆年零壹月壹拾伍日')
datetime.date(2026, 1, 15)
>>> to_quantity('12.5%').to_decimal()
Decimal('0.125')
>>> Quantity.of(Decimal('3.14')).to_chinese(), Quantity.of_percent(5).to_chinese()
('三点一四', '百分之五')
>>> [found.quantity().to_figures() for found in find_quantities('共三点五万，剩三分之一')]
['35000', '1/3']
>>> quantities_to_figures('二零二六年，一月五日，占百分之十二点五')
'2026年，一月五日，占12.5%'
>>> replace_quantities('占12.5%', lambda found: found.quantity().to_chinese())
'占百分之十二点五'
>>> [(found.text, found.doubt) for found in find_quantities('五一假期，二十人')]
[('五一', <Doubt.DIGITS: 'digits'>), ('二十', None)]

A kind, way, script, case, unit, form or doubt is a member of its enum, or the str that the member
equals. mypy accepts such a str only as a literal; Kind(word) is the member for any other str, or
raises a ValueError.

The module loads the shared library libchinese_number.so (.dylib on macOS, .dll on Windows) from the
folder that CHINESE_NUMBER_LIB names, as bindings/archive.sh makes it, or else from beside this
file, where pip puts it. CPython from 3.10 may instead use an extension module that contains the
library. The library allocates no memory, keeps no state between calls and reads no locale. Calls
through ctypes release the GIL; the extension module releases it only for a text whose UTF-8 is
longer than 65,536 bytes, and for columns. If the library was built from C source, a text of more
than 4,293,918,720 bytes raises an OverflowError, and so does a text that has as many together with
its new text.

For text that people type use to_quantity; to_number applies the bare grammar, in which 两千零十五 is
2005 and 二两 is 22.
"""

from __future__ import annotations

import operator
import re
from dataclasses import dataclass, field, fields
from datetime import date, datetime, time, timedelta
from decimal import Decimal
from fractions import Fraction
from functools import partial
from itertools import chain
from typing import Any, Callable, Dict, Iterable, Iterator, List, Literal, Optional, Protocol
from typing import SupportsIndex, Tuple, Type, TypeVar, Union

from . import _codes, _library
from ._codes import Case, Change, Doubt, Fault, Input, Kind, Language, PhraseKind, PhraseState
from ._codes import QuantityForm, Script, Status, TEXTS as _TEXTS, Unit, Way
from ._codes import _CaseWord, _DoubtWord, _InputWord, _KindWord, _LanguageWord, _MethodWord
from ._codes import _QuantityFormWord, _ScriptWord, _UnitWord, _WayWord

__all__ = [
    "AmountError",
    "ArrowColumn",
    "Case",
    "Change",
    "ClockTime",
    "DateError",
    "Doubt",
    "Expected",
    "Fault",
    "Found",
    "FoundQuantity",
    "Input",
    "Kind",
    "Language",
    "NumeralError",
    "PartialDate",
    "Phrase",
    "PhraseKind",
    "PhraseState",
    "Quantity",
    "QuantityForm",
    "Repair",
    "Script",
    "Status",
    "Unit",
    "Way",
    "amount_to_chinese",
    "amount_to_chinese_column",
    "chinese_to_amount",
    "chinese_to_amount_as_typed",
    "chinese_to_amount_as_typed_column",
    "chinese_to_amount_column",
    "chinese_to_date",
    "chinese_to_date_column",
    "chinese_to_signed_amount",
    "chinese_to_signed_amount_as_typed",
    "chinese_to_signed_amount_as_typed_column",
    "chinese_to_signed_amount_column",
    "date_to_chinese",
    "date_to_chinese_column",
    "explain_number",
    "explain_quantity",
    "find_numbers",
    "find_phrases",
    "find_quantities",
    "find_unspoken",
    "input_expected",
    "input_message",
    "input_repair",
    "number_message",
    "quantities_to_figures",
    "quantity_message",
    "replace_quantities",
    "signed_amount_to_chinese",
    "signed_amount_to_chinese_column",
    "status_message",
    "text_to_figures",
    "text_to_speech",
    "to_chinese",
    "to_chinese_column",
    "to_number",
    "to_number_column",
    "to_quantity",
    "yuan_to_fen",
    "yuan_to_fen_column",
]
__version__ = "0.1.0"
_library.load(__version__)

from . import _columns  # noqa: E402: it needs the library
from ._arrow import ArrowArray as _ArrowArray, ArrowColumn  # noqa: E402

_Method = Union[Literal[Way.LOW, Way.TEN_THOUSAND, Way.MIDDLE, Way.HIGH, Way.ANY], _MethodWord]
_YuanWord = Literal["元", "圆"]
_ClosingWord = Literal["整", "正"]
_ErrorsWord = Literal["raise", "none", "status"]
_NumberColumn = Union[Iterable[Optional[SupportsIndex]], _ArrowArray]
_TextColumn = Union[Iterable[Optional[str]], _ArrowArray]


class _DateOnly(Protocol):
    """A datetime.date, for type checkers. A datetime is not one to them, although it is of a subclass:
    it cannot be compared with a date."""

    def __lt__(self, other: date, /) -> bool:
        """Whether it is earlier."""


@dataclass(frozen=True)
class Expected:
    """What may come next in a text after its longest part, from the start, that begins an input.

    char_index: how many characters the part has: all of them, or those before the wrong one.
    may_end: the part is complete, so the text may end there.
    white_space: white space may come next.
    characters: the characters that may come next.
    """

    char_index: int
    may_end: bool
    white_space: bool
    characters: str


@dataclass(frozen=True)
class Repair:
    """One change of a text: what is done, how many characters come before the place, and the character
    that is inserted or that replaces the one there; None for DELETE."""

    change: Change
    char_index: int
    character: Optional[str]


_AnyRefusal = TypeVar("_AnyRefusal", bound="_Refusal")
_POSITION = " (position: {char_index})"


class _Refusal(ValueError):
    _texts: Dict[Status, str]
    # What was read: "number", "quantity" or "input", and the codes of the choices; and the text.
    _read: Optional[Tuple[Any, ...]] = None
    _text: str
    # The row of a column that is refused, from 0.
    row: Optional[int] = None

    def __init__(self, status: Status, char_index: Optional[int] = None, **more: Any) -> None:
        text = self._texts.get(status) or status.name
        super().__init__(text.format(char_index=char_index, **more))
        self.status = status
        self.char_index = char_index

    def __reduce__(self) -> Tuple[Any, ...]:
        return type(self), (self.status,), {**vars(self), "args": self.args}

    # An error in a variable of the function that raises it would be in a cycle with its traceback.
    def _of(self: _AnyRefusal, what: str, text: str, *codes: int) -> _AnyRefusal:
        self._read, self._text = (what, *codes), text
        return self

    def message_in(self, language: Union[Language, _LanguageWord] = Language.ENGLISH) -> str:
        """The message for the person who typed the text: that of input_message, number_message or
        quantity_message. If no text was read, it is that of status_message.

        >>> try:
        ...     to_chinese(256, kind='u8')
        ... except NumeralError as error:
        ...     print(error.message_in())
        The type cannot hold the number.
        """
        if self._read is None:
            return status_message(self.status, language=language)
        what, *codes = self._read
        return _message(language, what, self._text, *codes)


class _InputRefusal(_Refusal):
    @property
    def expected(self) -> Optional[Expected]:
        """What may come next in the text that was read, or None if the error is not of reading."""
        return _expected(self._text, *self._read[1:]) if self._read else None

    @property
    def repair(self) -> Optional[Repair]:
        """The change that repairs the text that was read, if there is one."""
        return _repair(self._text, *self._read[1:]) if self._read else None


class NumeralError(_Refusal):
    """A text is not a number of a type or not a quantity, or a number or quantity cannot be written.

    status is the reason. kind is the integer type; for a quantity it is that of the numerator, I128.
    char_index is None unless status is INCORRECT: then it counts the characters, white space
    included, before the wrong one.

    >>> try:
    ...     to_number(' 二 十 十 ')
    ... except NumeralError as error:
    ...     print(error, error.status, error.char_index)
    the chinese number is incorrect (position: 3) Status.INCORRECT 3
    """

    _texts = {
        Status.EMPTY: _TEXTS["empty"],
        Status.INCORRECT: _TEXTS["incorrect"] + _POSITION,
        Status.TOO_LARGE: _TEXTS["too_large"],
        Status.TOO_SMALL: _TEXTS["too_small"],
        Status.NOT_HELD: "{kind} does not hold the number",
        Status.NOT_A_QUANTITY: _TEXTS["not_a_quantity"],
    }

    def __init__(
        self, status: Status, kind: Kind = Kind.I128, char_index: Optional[int] = None
    ) -> None:
        super().__init__(status, char_index, kind=kind.value)
        self.kind = kind

    @property
    def fault(self) -> Optional[Fault]:
        """Why the text that was read is refused, or None if the error is not of reading."""
        if self._read is None:
            return None
        what, *codes = self._read
        return _fault(what, self._text, *codes)


class AmountError(_InputRefusal):
    """A text is not an amount of money, or an amount cannot be written.

    status is the reason: UNFINISHED if something is missing at the end, INCORRECT if no amount begins
    like this. For INCORRECT, char_index is the place of the first wrong character; otherwise None.

    >>> try:
    ...     chinese_to_amount('壹佰贰元整')
    ... except AmountError as error:
    ...     print(error, error.status, error.char_index)
    ...     print(error.message_in('zh-Hans'))
    the amount is incorrect (position: 3) Status.INCORRECT 3
    第3个字“贰”前缺“零”。
    """

    _texts = {
        Status.INCORRECT: _TEXTS["amount_incorrect"] + _POSITION,
        Status.TOO_LARGE: _TEXTS["too_large"],
        Status.TOO_SMALL: _TEXTS["too_small"],
        Status.UNFINISHED: _TEXTS["amount_unfinished"],
    }


class DateError(_InputRefusal):
    """A text is not a date, or a date cannot be written.

    status is the reason: UNFINISHED if something is missing at the end, INCORRECT if no date begins
    like this, and NOT_A_DATE for an instance of a subclass of datetime.date whose fields are not a
    date, such as year 0. For INCORRECT, char_index is the place of the first wrong character;
    otherwise None.

    >>> try:
    ...     chinese_to_date('贰零贰伍年零贰月贰拾玖日')
    ... except DateError as error:
    ...     print(error, error.status, error.char_index)
    the date is incorrect (position: 10) Status.INCORRECT 10
    """

    _texts = {
        Status.INCORRECT: _TEXTS["date_incorrect"] + _POSITION,
        Status.UNFINISHED: _TEXTS["date_unfinished"],
        Status.NOT_A_DATE: _TEXTS["not_a_date"],
    }


def _codes_of(of: Iterable[str]) -> Dict[str, int]:
    return {it: code for code, it in enumerate(of)}


_KINDS, _WAYS, _UNITS = _codes_of(Kind), _codes_of(Way), _codes_of(Unit)
_SCRIPTS, _CASES = _codes_of(Script), _codes_of(Case)
_FORMS, _FORM_OF = _codes_of(QuantityForm), tuple(QuantityForm)
_DOUBT_OF = (None, *Doubt)
_DOUBTS = {it: code + 1 for it, code in _codes_of(Doubt).items()}
_ERRORS = _codes_of(("raise", "none", "status"))
_INPUTS, _LANGUAGES = _codes_of(Input), _codes_of(Language)
_AMOUNT, _SIGNED_AMOUNT, _TYPED_AMOUNT, _TYPED_SIGNED_AMOUNT, _DATE, _FIGURES = _INPUTS.values()
_STATUS_OF, _INCORRECT = tuple(Status), Status.INCORRECT.value
_PHRASE_KIND_OF, _PHRASE_STATE_OF = tuple(PhraseKind), tuple(PhraseState)
_CHANGE_OF, _FAULT_OF = (None, *Change), (None, *Fault)
_METHODS = {way: code for way, code in _WAYS.items() if way is not Way.DIGITS}
# What each word adds to the code of an amount's form.
_YUAN = {"元": 0, "圆": _codes.ROUND_YUAN}
_CLOSINGS = {"整": 0, "正": _codes.UPRIGHT_CLOSING}
_CURRENCY = {False: 0, True: _codes.CURRENCY}
_BRACKETED_SIGN = {False: 0, True: _codes.BRACKETED_SIGN}
# What the quick functions for dates and quantities need.
_OF_DATES = date, "year", "month", "day"
_OF_QUANTITIES = "numerator", "denominator", "form"
_FIRST_NOT_WRITTEN = 10**18
_TOO_MANY_PLACES = 16  # before the point: 10**16 yuan are 10**18 fen
_MOST_PLACES = 38  # decimals that fit in 128 bits
_FIRST_SIGNED = _KINDS["i8"]
_MOST_SHOWN = 100


def _shown(value: object) -> str:
    """The beginning of a value's repr, for a message.

    If repr fails, as for an int of 5,000 digits, this shows the type.
    """
    try:
        text = repr(value[:_MOST_SHOWN] if isinstance(value, str) else value)
    except Exception:
        text = object.__repr__(value)
    return text if len(text) <= _MOST_SHOWN else f"{text[:_MOST_SHOWN]}..."


def _shown_with_type(value: object) -> str:
    """The same with the value's type in parentheses, unless the repr names it or the value is None."""
    of, text = type(value), _shown(value)
    if value is None or of.__name__ in text:
        return text
    module = "" if of.__module__ == "builtins" else f"{of.__module__}."
    return f"{text} ({module}{of.__qualname__})"


def _code(codes: Dict[str, int], word: str, what: str) -> int:
    """The code of a word. Members of the enums are words too."""
    try:
        return codes[word]
    except (KeyError, TypeError):  # TypeError: the value has no hash
        known = f"{what} must be one of {', '.join(codes)}"
    if isinstance(word, str):
        raise ValueError(f"{known}, not {_shown(word)}")
    raise TypeError(f"{known}, not {_shown_with_type(word)}")


def _flag(value: bool) -> bool:
    if not isinstance(value, bool):
        raise TypeError(f"expected a bool, not {_shown_with_type(value)}")
    return value


def _whole(value: SupportsIndex, what: str) -> int:
    """A whole number of any integer type except bool."""
    if not isinstance(value, bool):
        try:
            return operator.index(value)
        except TypeError:
            pass
    raise TypeError(f"expected {what}, not {_shown_with_type(value)}")


def _refuse_not_held(number: int, kind: Union[Kind, str]) -> None:
    """Refuses a number that does not fit in 128 bits, signed if the kind is."""
    least = -(1 << 127) if _KINDS[kind] >= _FIRST_SIGNED else 0
    if not least <= number < least + (1 << 128):
        raise NumeralError(Status.NOT_HELD, Kind(kind))


def _of_halves(low: int, high: int, kind: Union[Kind, str]) -> int:
    """The number of a kind with these low and high 64 bits."""
    if high >> 63 and _KINDS[kind] >= _FIRST_SIGNED:
        high -= 1 << 64
    return high << 64 | low


def _text(value: str) -> str:
    if not isinstance(value, str):
        raise TypeError(f"expected a str, not {_shown_with_type(value)}")
    return value


def _status(code: int) -> Status:
    if code == _codes.TOO_LONG:
        raise OverflowError("the text is too long: it has more than 4,293,918,720 bytes")
    return _STATUS_OF[code]


def _place(code: int, char_index: int) -> Optional[int]:
    return char_index if code == _INCORRECT else None


@_library.quick(kind=_KINDS, way=_WAYS)
def to_number(
    text: str, *, kind: Union[Kind, _KindWord] = Kind.I128, way: Union[Way, _WayWord] = Way.ANY
) -> int:
    """Reads a text as a number. Raises NumeralError if the text is not a number of this kind.

    >>> to_number('一百二'), to_number('一二〇')
    (120, 120)
    >>> to_number('零〇1兩', kind='u8', way=Way.DIGITS)
    12
    >>> to_number('')
    Traceback (most recent call last):
    chinese_number.NumeralError: a chinese number cannot be empty

    A lone surrogate is treated as one invalid character.
    """
    kind_code, way_code = _code(_KINDS, kind, "kind"), _code(_WAYS, way, "way")
    code, low, high, char_index = _library.read_number(_text(text), kind_code, way_code)
    if code:
        reason = _status(code), Kind(kind), _place(code, char_index)
        raise NumeralError(*reason)._of("number", text, kind_code, way_code)
    return _of_halves(low, high, kind)


@_library.quick(kind=_KINDS, way=_WAYS, script=_SCRIPTS, case=_CASES)
def to_chinese(
    number: SupportsIndex,
    *,
    kind: Union[Kind, _KindWord] = Kind.I128,
    way: Union[Way, _WayWord] = Way.ANY,
    script: Union[Script, _ScriptWord] = Script.SIMPLIFIED,
    case: Union[Case, _CaseWord] = Case.LOWER,
) -> str:
    """Writes a number as text. Raises NumeralError if the kind does not hold the number, or if it has
    17 digits or more and the way is LOW.

    >>> to_chinese(123, script='traditional', case=Case.UPPER)
    '壹佰貳拾參'
    >>> to_chinese(-123, way='digits')
    '负一二三'
    >>> [to_chinese(10**12, script=script) for script in Script]
    ['一兆', '一万亿']
    >>> to_chinese(256, kind='u8')
    Traceback (most recent call last):
    chinese_number.NumeralError: u8 does not hold the number
    """
    whole, kind_code = _whole(number, "a whole number"), _code(_KINDS, kind, "kind")
    way_code, script_code = _code(_WAYS, way, "way"), _code(_SCRIPTS, script, "script")
    case_code = _code(_CASES, case, "case")
    _refuse_not_held(whole, kind)
    codes = kind_code, way_code, script_code, case_code
    status, text = _library.print_number(whole, whole >> 64, *codes)
    if status:
        raise NumeralError(Status(status), Kind(kind))
    return text


def _not_written(fen: int, least: int) -> AmountError:
    error = AmountError(Status.TOO_SMALL if fen < 0 else Status.TOO_LARGE)
    if fen < least == 0:
        error.args = (f"{error}: signed_amount_to_chinese writes amounts below zero",)
    return error


def _amount_codes(
    script: Union[Script, _ScriptWord],
    currency: bool,
    yuan: _YuanWord,
    closing: _ClosingWord,
    sign: int,
) -> Tuple[int, int]:
    """The codes of the script and of the form of an amount."""
    script_code = _code(_SCRIPTS, script, "script")
    form = _code(_YUAN, yuan, "yuan") + _code(_CLOSINGS, closing, "closing") + sign
    return script_code, form + (_codes.CURRENCY if _flag(currency) else 0)


def _amount_text(
    call: Callable[[int, int, int], Tuple[int, str]],
    fen: SupportsIndex,
    least: int,
    choices: Tuple[Union[Script, _ScriptWord], bool, _YuanWord, _ClosingWord],
    sign: int = 0,
) -> str:
    """The text of an amount that is at least `least`. The choices are the script, whether the currency
    is written, the word for yuan, and the closing. The sign is its part of the form's code."""
    whole = _whole(fen, "a whole number of fen (yuan_to_fen converts yuan)")
    script_code, form = _amount_codes(*choices, sign)
    if not least <= whole < _FIRST_NOT_WRITTEN:
        raise _not_written(whole, least)
    status, text = call(whole, script_code, form)
    if status:
        raise AmountError(Status(status))
    return text


@_library.quick(script=_SCRIPTS, currency=_CURRENCY, yuan=_YUAN, closing=_CLOSINGS)
def amount_to_chinese(
    fen: SupportsIndex,
    *,
    script: Union[Script, _ScriptWord] = Script.SIMPLIFIED,
    currency: bool = False,
    yuan: _YuanWord = "元",
    closing: _ClosingWord = "整",
) -> str:
    """Writes an amount of money in capitals, as on a cheque. The amount is a whole number of fen.
    Raises AmountError if the amount is below zero, or 10**18 or more.

    >>> amount_to_chinese(10700053, script='traditional')
    '壹拾萬零柒仟元伍角參分'
    >>> amount_to_chinese(15.0)
    Traceback (most recent call last):
    TypeError: expected a whole number of fen (yuan_to_fen converts yuan), not 15.0 (float)

    The currency is the prefix 人民币; yuan is '元' or '圆', and closing is '整' or '正'.

    >>> amount_to_chinese(1500, currency=True, yuan='圆', closing='正')
    '人民币壹拾伍圆正'
    """
    choices = script, currency, yuan, closing
    return _amount_text(_library.print_amount, fen, 0, choices)


@_library.quick(
    script=_SCRIPTS,
    currency=_CURRENCY,
    yuan=_YUAN,
    closing=_CLOSINGS,
    bracketed_sign=_BRACKETED_SIGN,
)
def signed_amount_to_chinese(
    fen: SupportsIndex,
    *,
    script: Union[Script, _ScriptWord] = Script.SIMPLIFIED,
    currency: bool = False,
    yuan: _YuanWord = "元",
    closing: _ClosingWord = "整",
    bracketed_sign: bool = False,
) -> str:
    """Writes an amount like amount_to_chinese, and a negative one, as on a red invoice, with the
    prefix 负. Raises AmountError if the amount is -(10**18) or less, or 10**18 or more.

    >>> signed_amount_to_chinese(-1500), signed_amount_to_chinese(-1500, script='traditional')
    ('负壹拾伍元整', '負壹拾伍元整')
    >>> signed_amount_to_chinese(-1500, currency=True)
    '负人民币壹拾伍元整'

    With bracketed_sign the prefix is （负数）, which only chinese_to_signed_amount_as_typed reads.

    >>> signed_amount_to_chinese(-1500, bracketed_sign=True)
    '（负数）壹拾伍元整'
    """
    choices, sign = (script, currency, yuan, closing), _codes.BRACKETED_SIGN * _flag(bracketed_sign)
    return _amount_text(_library.print_signed_amount, fen, 1 - _FIRST_NOT_WRITTEN, choices, sign)


def _fen(read: Callable[[str], Tuple[int, int, int]], text: str, of: int) -> int:
    """The fen that a call of the library reads in a text, which is meant to be an input."""
    code, fen, char_index = read(_text(text))
    if code:
        raise AmountError(_status(code), _place(code, char_index))._of("input", text, of)
    return fen


@_library.quick()
def chinese_to_amount(text: str) -> int:
    """Reads a text in capitals as an amount in fen. Raises AmountError if the text is not an amount.

    >>> chinese_to_amount('人民币壹拾伍圆正')
    1500
    >>> chinese_to_amount('壹佰元')
    Traceback (most recent call last):
    chinese_number.AmountError: the amount is not finished

    White space and lone surrogates are invalid characters.
    """
    return _fen(_library.read_amount, text, _AMOUNT)


@_library.quick()
def chinese_to_signed_amount(text: str) -> int:
    """Reads an amount like chinese_to_amount, also a negative one with the prefix 负 or 負.

    >>> chinese_to_signed_amount('负壹拾伍元整'), chinese_to_signed_amount('壹拾伍元整')
    (-1500, 1500)
    """
    return _fen(_library.read_signed_amount, text, _SIGNED_AMOUNT)


@_library.quick()
def chinese_to_amount_as_typed(text: str) -> int:
    """Reads an amount as it is typed, or copied from an invoice: like chinese_to_amount, but ignores
    white space, one ⊗ or ⓧ at the start, and （大写） and a colon directly after a leading 人民币.

    >>> chinese_to_amount_as_typed('⊗ 人民币：壹拾 伍元整')
    1500
    """
    return _fen(_library.read_typed_amount, text, _TYPED_AMOUNT)


@_library.quick()
def chinese_to_signed_amount_as_typed(text: str) -> int:
    """Reads an amount like chinese_to_amount_as_typed, also a negative one, as on a red invoice: with
    the sign 负 or （负数） at the start, before or after ⊗ and 人民币.

    >>> chinese_to_signed_amount_as_typed('人民币（大写）：（负数）壹拾伍元整')
    -1500
    >>> chinese_to_signed_amount_as_typed('⊗ 负 壹拾伍元整')
    -1500
    """
    return _fen(_library.read_typed_signed_amount, text, _TYPED_SIGNED_AMOUNT)


def _figures_of(value: Decimal) -> str:
    """The figures of a Decimal. For a value far from 1, such as Decimal('1E+999999999999'), its own
    figures would fill the memory, so these are others with the same result."""
    if value and -3 < value.adjusted() <= _TOO_MANY_PLACES:
        return Decimal.__format__(value, "f")
    sign, digits, exponent = value.as_tuple()
    if isinstance(exponent, int):  # otherwise it is NaN or infinite
        if not any(digits):
            return "0"
        if value.adjusted() < -2:
            raise AmountError(Status.INCORRECT, sign + 1 - value.adjusted())
        value = Decimal((sign, digits, min(exponent, _TOO_MANY_PLACES)))
    return Decimal.__format__(value, "f")


@_library.quick()
def yuan_to_fen(value: Union[Decimal, str, SupportsIndex]) -> int:
    """Converts yuan to fen exactly, from figures in a str, a Decimal or a whole number. Raises
    AmountError if the value is not a whole number of fen; it never rounds.

    >>> yuan_to_fen('1409.5'), yuan_to_fen('¥1,409.50'), yuan_to_fen('-15'), yuan_to_fen(15)
    (140950, 140950, -1500, 1500)
    >>> yuan_to_fen(Decimal('15.0000'))
    1500
    >>> yuan_to_fen('15.005')
    Traceback (most recent call last):
    chinese_number.AmountError: the amount is incorrect (position: 5)
    >>> yuan_to_fen(15.5)
    Traceback (most recent call last):
    TypeError: a float is not an exact amount: expected a str or a Decimal, not 15.5

    The figures may have the prefix - or −, and then ¥. The yuan are digits, or one to three digits
    followed by groups of a comma and three digits. After the point, digits from the third on must
    be 0. All characters except the minus may be full-width. A Decimal is read as format(value, 'f').
    """
    if isinstance(value, float):
        raise TypeError(
            f"a float is not an exact amount: expected a str or a Decimal, not {_shown(value)}"
        )
    if isinstance(value, Decimal):
        return yuan_to_fen(_figures_of(value))
    if isinstance(value, str):
        return _fen(_library.read_figures, value, _FIGURES)
    whole = _whole(value, "a str, a Decimal or a whole number of yuan")
    if not abs(whole) < _FIRST_NOT_WRITTEN:  # Python may refuse to make its figures
        raise AmountError(Status.TOO_LARGE)
    return yuan_to_fen(str(whole))


@_library.quick(*_OF_DATES, script=_SCRIPTS)
def date_to_chinese(
    day: _DateOnly, *, script: Union[Script, _ScriptWord] = Script.SIMPLIFIED
) -> str:
    """Writes a date in capitals, as on a cheque. Every datetime.date has a text.

    >>> date_to_chinese(date(2026, 10, 20))
    '贰零贰陆年零壹拾月零贰拾日'
    >>> date_to_chinese(datetime(2026, 10, 20, 23, 30))
    Traceback (most recent call last):
    TypeError: expected a date, not datetime.datetime(2026, 10, 20, 23, 30)

    A datetime is refused, since its day depends on the time zone.
    """
    if not isinstance(day, date) or isinstance(day, datetime):
        raise TypeError(f"expected a date, not {_shown_with_type(day)}")
    code = _code(_SCRIPTS, script, "script")
    status, text = _library.print_date(day.year, day.month, day.day, code)
    if status:
        raise DateError(Status(status))
    return text


@_library.quick(*_OF_DATES)
def chinese_to_date(text: str) -> date:
    """Reads a text in capitals as a date. Raises DateError if the text is not a date.

    >>> chinese_to_date('贰零贰陆年零叁月零壹日')
    datetime.date(2026, 3, 1)
    >>> chinese_to_date('贰零贰陆年叁月')
    Traceback (most recent call last):
    chinese_number.DateError: the date is not finished

    White space and lone surrogates are invalid characters.
    """
    code, fields, char_index = _library.read_date(_text(text))
    if code:
        raise DateError(_status(code), _place(code, char_index))._of("input", text, _DATE)
    return date(*fields)


def _wanted(
    single: Callable[[Any], Any],
    refusal: Callable[[Status], Exception],
    how: Tuple[_ErrorsWord, bool, int],
) -> _columns.Wanted:
    """What is wanted of a column: how a single value is answered, which error a status is, and the
    options `errors`, `arrow` and `threads`."""
    errors, arrow, threads = how
    _code(_ERRORS, errors, "errors")
    workers = _whole(threads, "a number of threads")
    if workers < 1:
        raise ValueError(f"expected at least one thread, not {workers}")
    return _columns.Wanted(single, refusal, errors, _flag(arrow), workers)


def to_chinese_column(
    numbers: _NumberColumn,
    *,
    kind: Union[Kind, _KindWord] = Kind.I128,
    way: Union[Way, _WayWord] = Way.ANY,
    script: Union[Script, _ScriptWord] = Script.SIMPLIFIED,
    case: Union[Case, _CaseWord] = Case.LOWER,
    errors: _ErrorsWord = "raise",
    arrow: bool = False,
    threads: int = 1,
) -> Any:
    """Writes each number of a column as to_chinese does. A missing number, None, has no text.

    >>> to_chinese_column([120, None, -5]), to_chinese_column(range(3), case='upper')
    (['一百二十', None, '负五'], ['零', '壹', '贰'])

    The column is an iterable of whole numbers and None, a buffer of whole numbers, such as an
    array.array or an array of numpy, or what has __arrow_c_array__: an Arrow array of integers, or
    of decimals of 128 bits without places. The answers are a list, or with arrow an ArrowColumn.

    If a row is refused, the error that to_chinese raises for it is raised, with its index, from 0,
    as `row`. With errors='none' the row has no text. With errors='status' the result is a pair: the
    same texts, and a list of each row's Status, which is NONE for a missing row.

    >>> to_chinese_column([1, 256], kind='u8')
    Traceback (most recent call last):
    chinese_number.NumeralError: row 1: u8 does not hold the number
    >>> to_chinese_column([1, 256], kind='u8', errors='none')
    ['一', None]
    >>> to_chinese_column([1, 256], kind='u8', errors='status')
    (['一', None], [<Status.DONE: 0>, <Status.NOT_HELD: 7>])

    A value of another type, such as a float, always raises a TypeError with its `row`. Several
    threads write a long column at the same time, without the GIL if the extension module is used.
    """
    ways = _code(_KINDS, kind, "kind"), _code(_WAYS, way, "way")
    codes = (*ways, _code(_SCRIPTS, script, "script"), _code(_CASES, case, "case"))
    single = partial(to_chinese, kind=kind, way=way, script=script, case=case)
    wanted = _wanted(single, partial(NumeralError, kind=Kind(kind)), (errors, arrow, threads))
    rows = _columns.numbers_in(numbers, "whole numbers", _shown_with_type)
    return _columns.print_numbers(rows, codes, wanted)


def to_number_column(
    texts: _TextColumn,
    *,
    kind: Union[Kind, _KindWord] = Kind.I128,
    way: Union[Way, _WayWord] = Way.ANY,
    errors: _ErrorsWord = "raise",
    arrow: bool = False,
    threads: int = 1,
) -> Any:
    """Reads each text of a column as to_number does. A missing text, None, has no number.

    >>> to_number_column(['一百二', None, '一二〇'])
    [120, None, 120]
    >>> to_number_column(['一百二', '二十十'])
    Traceback (most recent call last):
    chinese_number.NumeralError: row 1: the chinese number is incorrect (position: 1)

    The column is an iterable of str and None, or what has __arrow_c_array__, an Arrow array of
    texts. The options are as in to_chinese_column. An ArrowColumn is of 64-bit integers, signed or
    not as the kind is, and for i128 and u128 of decimals: a number of more than 38 digits is then
    too large.
    """
    codes = _code(_KINDS, kind, "kind"), _code(_WAYS, way, "way")
    single = partial(to_number, kind=kind, way=way)
    wanted = _wanted(single, partial(NumeralError, kind=Kind(kind)), (errors, arrow, threads))
    rows = _columns.texts_in(texts, _shown_with_type)
    return _columns.read_numbers(rows, codes, kind in (Kind.U128, Kind.I128), wanted)


def _amount_texts(
    single: Callable[[Any], str],
    fen: _NumberColumn,
    is_signed: bool,
    choices: Tuple[Union[Script, _ScriptWord], bool, _YuanWord, _ClosingWord],
    sign: int,
    how: Tuple[_ErrorsWord, bool, int],
) -> Any:
    """The texts of a column of amounts."""
    codes, wanted = _amount_codes(*choices, sign), _wanted(single, AmountError, how)
    rows = _columns.numbers_in(fen, "whole numbers of fen", _shown_with_type)
    return _columns.print_amounts(rows, is_signed, codes, wanted)


def amount_to_chinese_column(
    fen: _NumberColumn,
    *,
    script: Union[Script, _ScriptWord] = Script.SIMPLIFIED,
    currency: bool = False,
    yuan: _YuanWord = "元",
    closing: _ClosingWord = "整",
    errors: _ErrorsWord = "raise",
    arrow: bool = False,
    threads: int = 1,
) -> Any:
    """Writes each amount of a column as amount_to_chinese does. Columns and options are as in
    to_chinese_column.

    >>> amount_to_chinese_column([1500, None, 140950])
    ['壹拾伍元整', None, '壹仟肆佰零玖元伍角整']
    >>> amount_to_chinese_column([1500, -1], errors='none')
    ['壹拾伍元整', None]
    """
    choices = script, currency, yuan, closing
    words = {"script": script, "currency": currency, "yuan": yuan, "closing": closing}
    single: Callable[[Any], str] = partial(amount_to_chinese, **words)
    return _amount_texts(single, fen, False, choices, 0, (errors, arrow, threads))


def signed_amount_to_chinese_column(
    fen: _NumberColumn,
    *,
    script: Union[Script, _ScriptWord] = Script.SIMPLIFIED,
    currency: bool = False,
    yuan: _YuanWord = "元",
    closing: _ClosingWord = "整",
    bracketed_sign: bool = False,
    errors: _ErrorsWord = "raise",
    arrow: bool = False,
    threads: int = 1,
) -> Any:
    """Writes each amount of a column as signed_amount_to_chinese does, likewise.

    >>> signed_amount_to_chinese_column([1500, -1500])
    ['壹拾伍元整', '负壹拾伍元整']
    """
    choices, sign = (script, currency, yuan, closing), _codes.BRACKETED_SIGN * _flag(bracketed_sign)
    words = {"script": script, "currency": currency, "yuan": yuan, "closing": closing}
    single: Callable[[Any], str] = partial(signed_amount_to_chinese, **words)
    return _amount_texts(single, fen, True, choices, sign, (errors, arrow, threads))


def _amounts_of(
    single: Callable[[str], int], texts: _TextColumn, of: int, how: Tuple[_ErrorsWord, bool, int]
) -> Any:
    """The fen of a column of texts, each of which is meant to be an input."""
    wanted = _wanted(single, AmountError, how)
    return _columns.read_amounts(_columns.texts_in(texts, _shown_with_type), of, wanted)


def chinese_to_amount_column(
    texts: _TextColumn,
    *,
    errors: _ErrorsWord = "raise",
    arrow: bool = False,
    threads: int = 1,
) -> Any:
    """Reads each text of a column as chinese_to_amount does. Columns and options are as in
    to_number_column; an ArrowColumn is of 64-bit integers.

    >>> chinese_to_amount_column(['壹拾伍元整', None, '壹元'], errors='status')
    ([1500, None, None], [<Status.DONE: 0>, <Status.NONE: 10>, <Status.UNFINISHED: 9>])
    """
    return _amounts_of(chinese_to_amount, texts, _AMOUNT, (errors, arrow, threads))


def chinese_to_signed_amount_column(
    texts: _TextColumn,
    *,
    errors: _ErrorsWord = "raise",
    arrow: bool = False,
    threads: int = 1,
) -> Any:
    """Reads each text of a column as chinese_to_signed_amount does, likewise.

    >>> chinese_to_signed_amount_column(['壹拾伍元整', '负壹拾伍元整'])
    [1500, -1500]
    """
    return _amounts_of(chinese_to_signed_amount, texts, _SIGNED_AMOUNT, (errors, arrow, threads))


def chinese_to_amount_as_typed_column(
    texts: _TextColumn,
    *,
    errors: _ErrorsWord = "raise",
    arrow: bool = False,
    threads: int = 1,
) -> Any:
    """Reads each text of a column as chinese_to_amount_as_typed does, likewise.

    >>> chinese_to_amount_as_typed_column(['⊗ 人民币：壹拾 伍元整'])
    [1500]
    """
    return _amounts_of(chinese_to_amount_as_typed, texts, _TYPED_AMOUNT, (errors, arrow, threads))


def chinese_to_signed_amount_as_typed_column(
    texts: _TextColumn,
    *,
    errors: _ErrorsWord = "raise",
    arrow: bool = False,
    threads: int = 1,
) -> Any:
    """Reads each text of a column as chinese_to_signed_amount_as_typed does, likewise.

    >>> chinese_to_signed_amount_as_typed_column(['⊗ 负 壹拾伍元整'])
    [-1500]
    """
    return _amounts_of(
        chinese_to_signed_amount_as_typed, texts, _TYPED_SIGNED_AMOUNT, (errors, arrow, threads)
    )


def _figures_in(value: Union[Decimal, str, SupportsIndex, None]) -> Optional[str]:
    """The figures of a row. yuan_to_fen refuses them for the same reason as the row's value."""
    if value is None or isinstance(value, str):
        return value
    if isinstance(value, Decimal):
        try:
            return _figures_of(value)
        except AmountError:
            return "0.001"
    whole = _whole(value, "a str, a Decimal or a whole number of yuan")
    return str(whole if abs(whole) < _FIRST_NOT_WRITTEN else _FIRST_NOT_WRITTEN)


def yuan_to_fen_column(
    values: Union[Iterable[Union[Decimal, str, SupportsIndex, None]], _ArrowArray],
    *,
    errors: _ErrorsWord = "raise",
    arrow: bool = False,
    threads: int = 1,
) -> Any:
    """Converts each row of a column as yuan_to_fen does, likewise. An Arrow array must be of texts.

    >>> yuan_to_fen_column(['1,409.50', None, Decimal('-15'), 2])
    [140950, None, -1500, 200]
    """
    wanted = _wanted(yuan_to_fen, AmountError, (errors, arrow, threads))
    rows = _columns.texts_in(values, _shown_with_type, _figures_in)
    return _columns.read_amounts(rows, _FIGURES, wanted)


def date_to_chinese_column(
    days: Union[Iterable[Optional[_DateOnly]], _ArrowArray],
    *,
    script: Union[Script, _ScriptWord] = Script.SIMPLIFIED,
    errors: _ErrorsWord = "raise",
    arrow: bool = False,
    threads: int = 1,
) -> Any:
    """Writes each date of a column as date_to_chinese does. The column is an iterable of dates and
    None, or what has __arrow_c_array__, an Arrow array of dates of 32 bits. The options are as in
    to_chinese_column.

    >>> date_to_chinese_column([date(2026, 1, 15), None])
    ['贰零贰陆年零壹月壹拾伍日', None]
    """
    code = _code(_SCRIPTS, script, "script")
    wanted = _wanted(partial(date_to_chinese, script=script), DateError, (errors, arrow, threads))
    return _columns.print_dates(_columns.dates_in(days, _shown_with_type), code, wanted)


def chinese_to_date_column(
    texts: _TextColumn,
    *,
    errors: _ErrorsWord = "raise",
    arrow: bool = False,
    threads: int = 1,
) -> Any:
    """Reads each text of a column as chinese_to_date does. Columns and options are as in
    to_number_column; an ArrowColumn is of dates of 32 bits.

    >>> chinese_to_date_column(['贰零贰陆年零叁月零壹日', None])
    [datetime.date(2026, 3, 1), None]
    """
    wanted = _wanted(chinese_to_date, DateError, (errors, arrow, threads))
    return _columns.read_dates(_columns.texts_in(texts, _shown_with_type), wanted)


def _over_power(value: Decimal) -> Tuple[int, int, QuantityForm]:
    """The numerator, the denominator and the form of a Decimal. For one with many digits, or far from
    1 such as Decimal('1E+999999999999'), these are others that do not fit in 128 bits either."""
    sign, digits, exponent = value.as_tuple()
    if not isinstance(exponent, int):
        raise ValueError(f"expected a finite number, not {_shown(value)}")
    places = max(-_MOST_PLACES - 1, min(-exponent, _MOST_PLACES + 1))
    numerator = int(Decimal((sign, digits[: _MOST_PLACES + 2], 0))) * 10 ** max(-places, 0)
    form = QuantityForm.DECIMAL if places > 0 else QuantityForm.WHOLE
    return numerator, 10 ** max(places, 0), form


def _places_of(denominator: int) -> Optional[int]:
    """How many decimals a number over this denominator has, or None if they are infinite."""
    return next((places for places in range(128) if 10**places % denominator == 0), None)


@dataclass(frozen=True, init=False)
class Quantity:
    """An exact quantity: a numerator over a denominator, as written and not reduced, and its form.

    >>> to_quantity('12.5%')
    Quantity(numerator=125, denominator=1000, form=<QuantityForm.PERCENT: 'percent'>)
    >>> Quantity(1, 3, 'fraction').to_chinese()
    '三分之一'

    Two quantities are equal if all three are: 3.10 and 3.1 differ, but their to_fraction() is equal.
    Raises NumeralError if the numerator does not fit i128, the denominator does not fit u128, or the
    denominator is 0.
    """

    numerator: int
    denominator: int
    form: QuantityForm

    def __init__(
        self,
        numerator: SupportsIndex,
        denominator: SupportsIndex = 1,
        form: Union[QuantityForm, _QuantityFormWord] = QuantityForm.WHOLE,
    ) -> None:
        above, below = _whole(numerator, "a whole number"), _whole(denominator, "a whole number")
        _refuse_not_held(above, Kind.I128)
        _refuse_not_held(below, Kind.U128)
        if below == 0:
            raise NumeralError(Status.NOT_A_QUANTITY)
        object.__setattr__(self, "numerator", above)
        object.__setattr__(self, "denominator", below)
        object.__setattr__(self, "form", _FORM_OF[_code(_FORMS, form, "form")])

    @classmethod
    def of(cls, value: Union[Decimal, Fraction, SupportsIndex]) -> Quantity:
        """Makes a quantity from a whole number, a Decimal or a Fraction, exactly, with its decimals.

        >>> Quantity.of(Decimal('3.10')).to_chinese(), Quantity.of(Fraction(-1, 3)).to_chinese()
        ('三点一零', '负三分之一')
        >>> Quantity.of(0.5)
        Traceback (most recent call last):
        TypeError: expected a whole number, a Decimal or a Fraction, not 0.5 (float)

        Raises NumeralError if the value does not fit in 128 bits, ValueError for NaN and infinities.
        """
        if isinstance(value, Decimal):
            return cls(*_over_power(value))
        if isinstance(value, Fraction):
            form = QuantityForm.FRACTION if value.denominator > 1 else QuantityForm.WHOLE
            return cls(value.numerator, value.denominator, form)
        return cls(_whole(value, "a whole number, a Decimal or a Fraction"))

    @classmethod
    def of_percent(cls, value: Union[Decimal, SupportsIndex]) -> Quantity:
        """Makes a percentage from a whole number or a Decimal, like of().

        >>> Quantity.of_percent(Decimal('12.5')).to_chinese(), Quantity.of_percent(5).to_figures()
        ('百分之十二点五', '5%')
        """
        if not isinstance(value, Decimal):
            value = _whole(value, "a whole number or a Decimal")
        it = cls.of(value)
        return cls(it.numerator, 100 * it.denominator, QuantityForm.PERCENT)

    def to_whole(self) -> Optional[int]:
        """The value as an int, or None if it is not a whole number.

        >>> to_quantity('3.5万').to_whole(), to_quantity('3.5').to_whole()
        (35000, None)
        """
        whole, rest = divmod(self.numerator, self.denominator)
        return None if rest else whole

    def to_fraction(self) -> Fraction:
        """The exact value.

        >>> to_quantity('百分之五十').to_fraction()
        Fraction(1, 2)
        """
        return Fraction(self.numerator, self.denominator)

    def to_decimal(self) -> Decimal:
        """The exact value with its decimals, whatever the precision of the context. Raises ValueError
        if the decimals are infinite.

        >>> to_quantity('三点一零').to_decimal(), to_quantity('四分之三').to_decimal()
        (Decimal('3.10'), Decimal('0.75'))
        >>> to_quantity('三分之一').to_decimal()
        Traceback (most recent call last):
        ValueError: 1/3 has infinitely many decimals
        """
        value = self.to_fraction()
        places = _places_of(self.denominator)
        if places is None:
            places = _places_of(value.denominator)
        if places is None:
            raise ValueError(f"{self.to_figures()} has infinitely many decimals")
        digits = value.numerator * 10**places // value.denominator
        return Decimal(f"{digits}E-{places}")

    def trimmed(self) -> Quantity:
        """The same quantity without the zeros at the end of its decimals. A quantity without
        decimals, such as a whole number or a fraction, stays the same. Call this before to_chinese,
        which otherwise writes 3.5万 as 三万五千点零.

        >>> to_quantity('3.5万').trimmed()
        Quantity(numerator=35000, denominator=1, form=<QuantityForm.WHOLE: 'whole'>)
        >>> to_quantity('12.50%').trimmed() == to_quantity('12.5%')
        True
        """
        try:
            return to_quantity(self.to_figures())
        except NumeralError:  # the figures of a fraction are not a quantity
            return self

    def to_chinese(
        self,
        *,
        method: _Method = Way.ANY,
        script: Union[Script, _ScriptWord] = Script.SIMPLIFIED,
        case: Union[Case, _CaseWord] = Case.LOWER,
    ) -> str:
        """Writes the quantity by a method. to_quantity reads the text as the same numerator and
        denominator; it reads a percentage as a fraction. ANY writes as MIDDLE in simplified script if
        each number spelled is below 10**16, and otherwise as TEN_THOUSAND; to_quantity reads both by
        TEN_THOUSAND. A quantity whose denominator does not match its form is written as a fraction.
        Raises NumeralError if a number in it has 17 digits or more and the method is LOW.

        >>> to_quantity('-12.5%').to_chinese(script='traditional', case='upper')
        '負佰分之拾貳點伍'
        >>> to_quantity('3.5万').to_chinese(), to_quantity('3.5万').trimmed().to_chinese()
        ('三万五千点零', '三万五千')
        >>> to_quantity('3.5兆').trimmed().to_chinese()
        '三万五千亿'
        """
        return _quantity_to_chinese(self, method=method, script=script, case=case)

    def to_figures(self) -> str:
        """Writes the quantity in figures, in ASCII and without zeros at the end of its decimals.

        >>> [to_quantity(it).to_figures() for it in ('三点一零', '12.50％', '负三分之一')]
        ['3.1', '12.5%', '-1/3']
        """
        return _quantity_to_figures(self)

    def _words(self) -> _library.Words:
        above, below = self.numerator, self.denominator
        return above, above >> 64, below, below >> 64, _FORMS[self.form]


@_library.quick(*_OF_QUANTITIES, _FORMS, method=_METHODS, script=_SCRIPTS, case=_CASES)
def _quantity_to_chinese(
    quantity: Quantity,
    *,
    method: _Method = Way.ANY,
    script: Union[Script, _ScriptWord] = Script.SIMPLIFIED,
    case: Union[Case, _CaseWord] = Case.LOWER,
) -> str:
    method_code = _code(_METHODS, method, "method")
    codes = _code(_SCRIPTS, script, "script"), _code(_CASES, case, "case")
    status, text = _library.print_quantity(quantity._words(), method_code, *codes)
    if status:
        raise NumeralError(Status(status))
    return text


@_library.quick(*_OF_QUANTITIES, _FORMS)
def _quantity_to_figures(quantity: Quantity) -> str:
    _, text = _library.print_figures(quantity._words())
    return text


@_library.quick(*_OF_QUANTITIES, Quantity, *_FORM_OF, method=_METHODS)
def to_quantity(text: str, *, method: _Method = Way.ANY) -> Quantity:
    """Reads a text as a quantity: a whole number, a decimal, a percentage or a fraction, in figures or
    in numerals. The method is low, ten_thousand, middle, high or any, which means ten_thousand here.
    Raises NumeralError if the text is not a quantity.

    >>> to_quantity('三点五万')
    Quantity(numerator=350000, denominator=10, form=<QuantityForm.DECIMAL: 'decimal'>)
    >>> to_quantity('1,280.50').to_figures(), to_quantity('三分之一').to_fraction()
    ('1280.5', Fraction(1, 3))
    >>> to_quantity('12,34')
    Traceback (most recent call last):
    chinese_number.NumeralError: the chinese number is incorrect (position: 3)

    A lone surrogate is treated as one invalid character.
    """
    method_code = _code(_METHODS, method, "method")
    code, words, char_index = _library.read_quantity(_text(text), method_code)
    if code:
        reason = _status(code), Kind.I128, _place(code, char_index)
        raise NumeralError(*reason)._of("quantity", text, method_code)
    return _quantity_of(words)


def _quantity_of(words: _library.Words) -> Quantity:
    low, high, below_low, below_high, form = words
    above, below = _of_halves(low, high, Kind.I128), _of_halves(below_low, below_high, Kind.U128)
    return Quantity(above, below, _FORM_OF[form])


@dataclass(frozen=True, init=False)
class _Run(_library.Run):
    """A run of a text, from start to end, as positions in the str. The base class constructs it."""

    __slots__ = ()
    # field() says that there is no default, though a class written in C seems to have one.
    start: int = field()
    end: int = field()
    text: str = field()
    is_plain: bool = field()
    stands_alone: bool = field()
    is_about: bool = field()
    is_one_character: bool = field()

    def __new__(
        cls,
        start: int,
        end: int,
        text: str,
        is_plain: bool,
        stands_alone: bool,
        is_about: bool,
        is_one_character: bool,
    ) -> Any:
        flags = is_plain, stands_alone, is_about, is_one_character
        return _library.Run.__new__(cls, start, end, text, *flags)

    def __reduce__(self) -> Tuple[Any, ...]:
        values = tuple(getattr(self, it.name) for it in fields(self))
        return type(self), values, getattr(self, "__dict__", None)


class Found(_Run):
    """A run of numeral characters in a text, from start to end, as positions in the str.

    is_plain: it is plain digits; a single digit is, 十 is not.
    stands_alone: no letter or digit touches it or is linked to it; neither part of 3.5万 stands alone.
    is_about: it is approximate, such as 十 in 十几, and 五六.
    is_one_character: it is one character and no figure, such as 一 in 一般.

    It may hold a reference to the whole text.
    """

    __slots__ = ()

    def number(
        self, *, kind: Union[Kind, _KindWord] = Kind.I128, way: Union[Way, _WayWord] = Way.ANY
    ) -> int:
        """Reads the run as a number: plain digits as such, anything else by the way, where ANY means
        TEN_THOUSAND. Raises NumeralError if it is not a number of this kind; char_index counts
        within the run.

        >>> [(found.text, found.number()) for found in find_numbers('二〇二五年十一月')]
        [('二〇二五', 2025), ('十一', 11)]
        """
        _code(_WAYS, way, "way")  # plain digits ignore the way, but it must be valid
        units = Way.TEN_THOUSAND if way == Way.ANY else way
        return to_number(self.text, kind=kind, way=Way.DIGITS if self.is_plain else units)

    def value(
        self, *, kind: Union[Kind, _KindWord] = Kind.I128, way: Union[Way, _WayWord] = Way.ANY
    ) -> Optional[int]:
        """The result of number(), or None if number() raises NumeralError.

        >>> [(found.text, found.value()) for found in find_numbers('百分之二十')]
        [('百', None), ('二十', 20)]
        """
        try:
            return self.number(kind=kind, way=way)
        except NumeralError:
            return None


class _Doubted(_Run):
    """A run with a doubt, which is stored as its code."""

    __slots__ = ()

    @property
    def doubt(self) -> Optional[Doubt]:
        return _DOUBT_OF[self._doubt]


@dataclass(frozen=True, init=False)
class FoundQuantity(_Doubted):
    """An expression in a text, from start to end, as positions in the str, with the fields of Found.
    doubt is why a reader may understand it as something other than its quantity, or None.

    >>> [found.doubt for found in find_quantities('3~5万，三十六计，三十六个')]
    [<Doubt.RANGE: 'range'>, <Doubt.RANGE: 'range'>, <Doubt.WORD: 'word'>, None]
    """

    __slots__ = ()
    doubt: Optional[Doubt] = field()

    def __new__(
        cls,
        start: int,
        end: int,
        text: str,
        is_plain: bool,
        stands_alone: bool,
        is_about: bool,
        is_one_character: bool,
        doubt: Union[Doubt, _DoubtWord, None] = None,
    ) -> FoundQuantity:
        code = 0 if doubt is None else _code(_DOUBTS, doubt, "doubt")
        flags = is_plain, stands_alone, is_about, is_one_character
        made: FoundQuantity = _library.Run.__new__(cls, start, end, text, *flags, code)
        return made

    def quantity(self, *, method: _Method = Way.ANY) -> Quantity:
        """Reads the expression with to_quantity. Raises NumeralError if it is not a quantity;
        char_index counts within the expression.

        >>> [found.quantity().to_whole() for found in find_quantities('共3.5万人，二十三岁')]
        [35000, 23]
        """
        return to_quantity(self.text, method=method)

    def value(self, *, method: _Method = Way.ANY) -> Optional[Quantity]:
        """The result of quantity(), or None if quantity() raises NumeralError.

        >>> [(found.text, found.value() is None) for found in find_quantities('版本1.2.3，五六十')]
        [('1.2.3', True), ('五六十', True)]
        """
        try:
            return self.quantity(method=method)
        except NumeralError:
            return None


@dataclass(frozen=True)
class PartialDate:
    """A date as it is said, if it is no datetime.date: a part of it is not given, and so is None, or
    its year has less than four digits.

    >>> [found.value for found in find_phrases('一月五日，二六年一月')]
    [PartialDate(year=None, month=1, day=5), PartialDate(year=26, month=1, day=None)]
    """

    year: Optional[int] = None
    month: Optional[int] = None
    day: Optional[int] = None


@dataclass(frozen=True)
class ClockTime:
    """A time of day as it is said, if it is no datetime.time: it may be in either half of the day, and
    so hour_of_day is None, or it is 24:00, and hour_of_day is 24.

    >>> [found.value for found in find_phrases('三点半')]
    [ClockTime(hour=3, minute=30, second=0, hour_of_day=None)]
    """

    hour: int
    minute: int = 0
    second: int = 0
    hour_of_day: Optional[int] = None


_TimeValue = Union[date, PartialDate, time, ClockTime, timedelta]
_PhraseValue = Union[_TimeValue, Decimal, Tuple[int, int], Tuple[Quantity, Quantity]]


@dataclass(frozen=True)
class Phrase:
    """A phrase of a text, from start to end, as positions in the str. The value of each kind is:

    DATE: a datetime.date or a PartialDate.
    YEARS, MONTHS, DAYS: the first and the last.
    TIME: a datetime.time or a ClockTime.
    DURATION: a datetime.timedelta.
    HALF, LENGTH: a Decimal, such as 1.5 for 一个半小时 and 1.75 for 一米七五.
    SCORE: the two numbers.
    RANGE: the two quantities.
    MONEY: a Decimal of yuan, such as 3.50 for 三块五; None if that is no whole number of fen below 10^18.

    state is DOUBTFUL if the phrase may mean something else. If it is REFUSED, the value is None.

    >>> [(found.kind.value, found.value) for found in find_phrases('一小时二十分，三比二')]
    [('duration', datetime.timedelta(seconds=4800)), ('score', (3, 2))]
    >>> [(found.state, found.value) for found in find_phrases('二月三十日')]
    [(<PhraseState.REFUSED: 'refused'>, None)]
    """

    start: int
    end: int
    text: str
    kind: PhraseKind
    state: PhraseState
    value: Optional[_PhraseValue]


# What the library adds for the year, the month and the day of a date that are given, and the hour
# of the day of a time for which it is not known.
_YEAR, _MONTH, _DAY, _NOT_KNOWN = 1, 2, 4, 255
_FIRST_FULL_YEAR = 1000


def _date_of(year: int, month: int, day: int, given: int) -> Union[date, PartialDate]:
    if given == _YEAR | _MONTH | _DAY and year >= _FIRST_FULL_YEAR:
        return date(year, month, day)
    parts = (year, _YEAR), (month, _MONTH), (day, _DAY)
    return PartialDate(*[part if given & flag else None for part, flag in parts])


def _time_of(hour: int, minute: int, second: int, of_day: int) -> Union[time, ClockTime]:
    if of_day < 24:
        return time(of_day, minute, second)
    return ClockTime(hour, minute, second, None if of_day == _NOT_KNOWN else of_day)


def _duration_of(hours: int, minutes: int, seconds: int, _: int) -> timedelta:
    return timedelta(hours=hours, minutes=minutes, seconds=seconds)


def _length_of(whole: int, decimals: int, places: int, _: int) -> Decimal:
    return Decimal(f"{whole}.{decimals:0{places}}")


def _money_of(low: int, high: int, is_known: int, _: int) -> Optional[Decimal]:
    return Decimal(f"{(high << 32) + low}E-2") if is_known else None


def _pair_of(first: int, last: int, *_: int) -> Tuple[int, int]:
    return first, last


def _range_of(low: _library.Words, high: _library.Words) -> Tuple[Quantity, Quantity]:
    return _quantity_of(low), _quantity_of(high)


_VALUES: Dict[PhraseKind, Callable[..., Optional[_PhraseValue]]] = {
    PhraseKind.DATE: _date_of,
    PhraseKind.YEARS: _pair_of,
    PhraseKind.MONTHS: _pair_of,
    PhraseKind.DAYS: _pair_of,
    PhraseKind.TIME: _time_of,
    PhraseKind.DURATION: _duration_of,
    PhraseKind.HALF: lambda number, *_: Decimal(f"{number}.5"),
    PhraseKind.LENGTH: _length_of,
    PhraseKind.SCORE: _pair_of,
    PhraseKind.RANGE: _range_of,
    PhraseKind.MONEY: _money_of,
}


def _item(found: Union[FoundQuantity, _library.PhraseWords]) -> Union[Phrase, FoundQuantity]:
    if isinstance(found, FoundQuantity):
        return found
    start, end, text, kind_code, state_code, numbers = found
    kind, state = _PHRASE_KIND_OF[kind_code], _PHRASE_STATE_OF[state_code]
    value = None if state is PhraseState.REFUSED else _VALUES[kind](*numbers)
    return Phrase(start, end, text, kind, state, value)


def find_numbers(
    text: str, *, upper: bool = False, greatest: Union[Unit, _UnitWord] = Unit.ZHAO
) -> Iterator[Found]:
    """Finds the numbers of a text, in order: its longest runs of digits and of units up to the greatest
    one, with upper also of the characters that only cheques have. A run ends between an ASCII digit
    and another digit. 個 belongs to a run only directly before 萬 or a greater unit, and 兆 belongs
    to no run before a measure, as in 8兆字节.

    >>> [(found.start, found.end, found.text) for found in find_numbers('买2两，三个亿')]
    [(1, 2, '2'), (2, 3, '两'), (4, 7, '三个亿')]
    >>> [found.text for found in find_numbers('正在參加', upper=True, greatest='ji')]
    ['正', '參']

    It does not understand sentences: 一起 contains a 1, 两三个 is 23, and 3.5万 is two numbers.
    A lone surrogate is treated as one character that ends a run.
    """
    wanted = _flag(upper), _code(_UNITS, greatest, "greatest")
    return chain.from_iterable(_found(_library.find_numbers, Found, _text(text), *wanted))


def find_quantities(
    text: str, *, upper: bool = False, greatest: Union[Unit, _UnitWord] = Unit.ZHAO
) -> Iterator[FoundQuantity]:
    """Finds the expressions of a text, in order: numbers with their sign, figures, point and units,
    percentages and fractions. upper and greatest are as in find_numbers.

    >>> [(found.start, found.text) for found in find_quantities('增长12.5%，共3.5万，剩三分之一')]
    [(2, '12.5%'), (9, '3.5万'), (15, '三分之一')]

    It does not understand sentences either, and treats a lone surrogate in the same way.
    """
    wanted = _flag(upper), _code(_UNITS, greatest, "greatest")
    found = _found(_library.find_quantities, FoundQuantity, _text(text), *wanted)
    return chain.from_iterable(found)


def find_phrases(
    text: str, *, upper: bool = False, greatest: Union[Unit, _UnitWord] = Unit.ZHAO
) -> Iterator[Union[Phrase, FoundQuantity]]:
    """Finds the phrases of a text, in order: dates, times of day, durations, halves, lengths, scores,
    ranges and sums of money. Between them are the expressions that are in no phrase, as
    find_quantities finds them. upper and greatest are as in find_numbers.

    >>> [(found.start, found.text) for found in find_phrases('一月五日下午三点半，三到五万元，二十人')]
    [(0, '一月五日'), (4, '下午三点半'), (10, '三到五万'), (16, '二十')]
    >>> [end.to_whole() for found in find_phrases('三到五万元') for end in found.value]
    [30000, 50000]

    It does not understand sentences either, and treats a lone surrogate in the same way.
    """
    wanted = _flag(upper), _code(_UNITS, greatest, "greatest")
    found = _found(_library.find_phrases, FoundQuantity, _text(text), *wanted)
    return map(_item, chain.from_iterable(found))


def find_unspoken(text: str) -> Iterator[FoundQuantity]:
    """Finds the parts with figures that text_to_speech leaves as they are, in order, for example to
    treat them before the text is spoken. Not all of them are quantities.

    >>> [(found.start, found.text) for found in find_unspoken('共3人，x86，2026.1.15')]
    [(5, '86'), (8, '2026.1.15')]

    It treats a lone surrogate as find_numbers does.
    """
    wanted = False, _UNITS[Unit.ZHAO]
    found = _found(_library.find_unspoken, FoundQuantity, _text(text), *wanted)
    return chain.from_iterable(found)


_AnyRun = TypeVar("_AnyRun", bound=_Run)


def _found(
    find: Callable[..., _library.Some], of: Type[_AnyRun], text: str, upper: bool, greatest: int
) -> Iterator[List[_AnyRun]]:
    """Finds the runs of a text, some at a time."""
    # A subclass of str has methods of its own, and can hold what is found in it.
    text = str.__str__(text)
    data = _library.utf8(text)
    searched = index = 0
    while searched < len(data):
        place = searched, index
        code, found, searched, index = find(text, data, *place, upper, greatest, of)
        if code:
            _status(code)
        yield found


def replace_quantities(
    text: str,
    new: Callable[[FoundQuantity], Optional[str]],
    *,
    upper: bool = False,
    greatest: Union[Unit, _UnitWord] = Unit.ZHAO,
    method: _Method = Way.ANY,
    about: bool = False,
    one_character: bool = False,
    doubtful: bool = False,
) -> str:
    """Replaces the quantities of a text. Calls new for each expression that find_quantities finds and
    to_quantity reads by the method; new returns the text that replaces it, or None to keep it.

    >>> replace_quantities('占12.5%，共3.5万', lambda it: it.quantity().trimmed().to_chinese())
    '占百分之十二点五，共三万五千'
    >>> replace_quantities('一般三点十分', lambda it: f'[{it.text}]', one_character=True)
    '[一]般[三]点[十]分'

    Expressions that are approximate (五六), one Chinese character (一 in 一般) or doubtful (五一) stay
    unless about, one_character or doubtful is True. Those whose doubt is PART always stay.
    """
    _code(_METHODS, method, "method")
    about, one_character, doubtful = _flag(about), _flag(one_character), _flag(doubtful)
    done: List[str] = []
    at = 0
    for found in find_quantities(text, upper=upper, greatest=greatest):
        is_left = found.is_about and not about or found.is_one_character and not one_character
        is_in_doubt = found.doubt is not None and (found.doubt is Doubt.PART or not doubtful)
        if is_left or is_in_doubt or found.value(method=method) is None:
            continue
        written = new(found)
        if written is not None:
            done += text[at : found.start], _text(written)
            at = found.end
    return "".join((*done, text[at:]))


# A lone surrogate, or the mark that replaces one.
_HALF_OR_MARK = re.compile("[\ud800-\udfff\ufffd]")


def quantities_to_figures(
    text: str,
    *,
    upper: bool = False,
    greatest: Union[Unit, _UnitWord] = Unit.ZHAO,
    method: _Method = Way.ANY,
    about: bool = False,
    one_character: bool = False,
    doubtful: bool = False,
    expanded: bool = False,
    canonical: bool = False,
) -> str:
    """Rewrites the numerals of a text in figures, as an editor does.

    >>> quantities_to_figures('市值三点五亿元，占百分之十二点五，一般剩三分之一')
    '市值3.5亿元，占12.5%，一般剩1/3'

    These stay: figures; what to_quantity refuses; approximate expressions, single Chinese characters
    and doubtful expressions, unless about, one_character or doubtful is True; expressions with the
    doubt PART; a part of a name, an address or another number; 千分之五 and 二又五分之三; and all of a
    date, a time, a length, an amount or a range of which one part stays.

    >>> quantities_to_figures('一共十几个', about=True, one_character=True)
    '1共10几个'
    >>> quantities_to_figures('五一，八五折', doubtful=True)
    '51，八五折'

    expanded writes out 万, 亿 and so on. canonical rewrites figures in ASCII, without commas and
    leading zeros.

    >>> quantities_to_figures('三千五百亿，3500亿', expanded=True)
    '350000000000，350000000000'
    >>> quantities_to_figures('１,２８０人，007号', canonical=True)
    '1280人，7号'
    """
    options = about, one_character, doubtful, expanded, canonical
    return _in_figures(_library.quantities_to_figures, text, upper, greatest, method, *options)


def text_to_figures(
    text: str,
    *,
    upper: bool = False,
    greatest: Union[Unit, _UnitWord] = Unit.ZHAO,
    method: _Method = Way.ANY,
    about: bool = False,
    one_character: bool = False,
    doubtful: bool = False,
    expanded: bool = False,
    canonical: bool = False,
    compact: bool = False,
    codes: bool = False,
) -> str:
    """Rewrites the dates, times, durations, ranges, scores, lengths, sums of money and numerals of a
    text in figures. The words of a phrase stay.

    >>> text_to_figures('二零二六年一月五日下午三点半，三到五万元，占百分之十二点五')
    '2026年1月5日下午3点半，3万到5万元，占12.5%'

    The options are those of quantities_to_figures, which writes what is in no phrase. A phrase without
    value stays; and so do a doubtful phrase, unless doubtful is True, and a half after one Chinese
    character, unless one_character is True.

    >>> text_to_figures('二月三十日，五到八折，一个半小时')
    '二月三十日，五到八折，一个半小时'
    >>> text_to_figures('五到八折，一个半小时', doubtful=True, one_character=True)
    '5到8折，1个半小时'

    compact writes whole dates, times whose hour of 24 is known, halves, and sums of money with 角 or 分
    as short as possible.

    >>> text_to_figures('二零二六年一月五日下午三点半，一个半小时，三块五', compact=True)
    '2026-01-05 15:30，1.5小时，3.5元'

    codes also writes codes, such as telephone numbers, rooms and versions, digit by digit, as for
    recognised speech.

    >>> text_to_figures('手机一三八零零一三八零零零，我住六栋一单元幺二零三', codes=True)
    '手机13800138000，我住6栋1单元1203'
    """
    options = about, one_character, doubtful, expanded, canonical, compact, codes
    return _in_figures(_library.text_to_figures, text, upper, greatest, method, *options)


def text_to_speech(
    text: str,
    *,
    script: Union[Script, _ScriptWord] = Script.SIMPLIFIED,
    method: _Method = Way.ANY,
    yao: bool = False,
) -> str:
    """Rewrites a text as it is spoken: its figures, signs and measures in Chinese characters of the
    script. The rest of the text stays.

    >>> text_to_speech('2026年1月5日15:30，气温-5℃，共2.5kg，占12.5%')
    '二零二六年一月五日十五点三十分，气温零下五摄氏度，共二点五千克，占百分之十二点五'

    What no rule covers stays too, such as x86; find_unspoken finds its figures. The method says how large
    numbers are written. Telephone numbers and other codes are spoken digit by digit; yao says 幺 for 1 in
    them.

    >>> text_to_speech('请拨打110', script='traditional'), text_to_speech('请拨打110', yao=True)
    ('请拨打一一零', '请拨打幺幺零')
    """
    codes = _code(_METHODS, method, "method"), _code(_SCRIPTS, script, "script")
    options = False, _UNITS[Unit.ZHAO], *codes, _codes.YAO * _flag(yao)
    return _as_utf8(text, lambda data: _library.text_to_speech(data, *options))


_OPTIONS = [
    *(_codes.ABOUT, _codes.ONE_CHARACTER, _codes.DOUBTFUL),
    *(_codes.EXPANDED, _codes.CANONICAL, _codes.COMPACT, _codes.CODES),
]


def _in_figures(
    rewrite: Callable[..., Tuple[int, str]],
    text: str,
    upper: bool,
    greatest: Union[Unit, _UnitWord],
    method: _Method,
    *chosen: bool,
) -> str:
    """The text that a call of the library rewrites. `chosen` says which of the options are chosen."""
    wanted = _flag(upper), _code(_UNITS, greatest, "greatest"), _code(_METHODS, method, "method")
    options = sum(option for option, is_chosen in zip(_OPTIONS, chosen) if _flag(is_chosen))
    return _as_utf8(text, lambda data: rewrite(data, *wanted, options))


def _as_utf8(text: str, rewrite: Callable[[bytes], Tuple[int, str]]) -> str:
    """The text that a call rewrites, which takes UTF-8."""
    given = str.__str__(_text(text))  # a subclass of str has methods of its own
    marks: List[str] = []
    try:
        data = given.encode()
    except UnicodeEncodeError:  # a lone surrogate has no UTF-8
        marks = _HALF_OR_MARK.findall(given)
        data = _HALF_OR_MARK.sub("\ufffd", given).encode()
    code, written = rewrite(data)
    if code:
        _status(code)
    # No expression contains one of them: they stay, in their order.
    rest = iter(marks)
    whole: str = re.sub("\ufffd", lambda _: next(rest), written) if marks else written
    return whole


def _expected(text: str, of: int) -> Expected:
    code, values = _library.input_expected(text, of)
    _status(code)
    return Expected(*values)


def _repair(text: str, of: int) -> Optional[Repair]:
    code, change_code, char_index, character = _library.input_repair(text, of)
    _status(code)
    change = _CHANGE_OF[change_code]
    if change is None:
        return None
    return Repair(change, char_index, None if change is Change.DELETE else character)


def _fault(what: str, text: str, *codes: int) -> Optional[Fault]:
    code, fault = _library.fault(what, text, *codes)
    _status(code)
    return _FAULT_OF[fault]


def _message(language: Union[Language, _LanguageWord], what: str, text: str, *codes: int) -> str:
    in_language = _code(_LANGUAGES, language, "language")
    code, message = _library.message(what, text, *codes, in_language)
    _status(code)
    return message


def input_expected(text: str, input: Union[Input, _InputWord]) -> Expected:
    """Says what may come next in a text, for example to enable the keys of a keyboard. If the call that
    reads the input refuses a character, char_index is the same.

    >>> input_expected('人民元', 'amount')
    Expected(char_index=2, may_end=False, white_space=False, characters='币幣')
    """
    return _expected(_text(text), _code(_INPUTS, input, "input"))


def input_repair(text: str, input: Union[Input, _InputWord]) -> Optional[Repair]:
    """Finds one change after which a refused text is read past its wrong character. A text that is only
    unfinished becomes one that is read. None if the text is right or no change is found. Only a
    person can say that the change is what was meant.

    >>> input_repair('壹佰贰元整', 'amount')
    Repair(change=<Change.INSERT: 'insert'>, char_index=2, character='零')
    """
    return _repair(_text(text), _code(_INPUTS, input, "input"))


def explain_number(
    text: str, *, kind: Union[Kind, _KindWord] = Kind.I128, way: Union[Way, _WayWord] = Way.ANY
) -> Optional[Fault]:
    """Says why to_number refuses a text: the first rule that the text breaks from the wrong character
    on. None if the text is read.

    >>> explain_number('一百十'), explain_number('一百')
    (<Fault.UNITS: 'units'>, None)
    """
    return _fault("number", _text(text), _code(_KINDS, kind, "kind"), _code(_WAYS, way, "way"))


def explain_quantity(text: str, *, method: _Method = Way.ANY) -> Optional[Fault]:
    """Says why to_quantity refuses a text, likewise.

    >>> explain_quantity('零分之一'), explain_quantity('一百五万')
    (<Fault.DENOMINATOR: 'denominator'>, <Fault.TWO_READINGS: 'two_readings'>)
    """
    return _fault("quantity", _text(text), _code(_METHODS, method, "method"))


def input_message(
    text: str,
    input: Union[Input, _InputWord],
    *,
    language: Union[Language, _LanguageWord] = Language.ENGLISH,
) -> str:
    """The message for the person who typed a text that is refused: the wrong character, its position,
    which counts from 1, and the repair, if there is one. The empty str if the text is right.

    >>> input_message('壹佰贰元整', 'amount', language='zh-Hans')
    '第3个字“贰”前缺“零”。'
    """
    return _message(language, "input", _text(text), _code(_INPUTS, input, "input"))


def number_message(
    text: str,
    *,
    kind: Union[Kind, _KindWord] = Kind.I128,
    way: Union[Way, _WayWord] = Way.ANY,
    language: Union[Language, _LanguageWord] = Language.ENGLISH,
) -> str:
    """The message for the person who typed a text that to_number refuses, like input_message.

    >>> number_message('一角')
    'Character 2, “角”, cannot be part of a numeral.'
    """
    codes = _code(_KINDS, kind, "kind"), _code(_WAYS, way, "way")
    return _message(language, "number", _text(text), *codes)


def quantity_message(
    text: str,
    *,
    method: _Method = Way.ANY,
    language: Union[Language, _LanguageWord] = Language.ENGLISH,
) -> str:
    """The message for the person who typed a text that to_quantity refuses, like input_message.

    >>> quantity_message('零分之一')
    'The denominator must be a whole number above 0.'
    """
    return _message(language, "quantity", _text(text), _code(_METHODS, method, "method"))


def status_message(
    status: Status, *, language: Union[Language, _LanguageWord] = Language.ENGLISH
) -> str:
    """What a status means, for a person, for example one whose number is too large to be written. The
    empty str for DONE.

    >>> status_message(Status.TOO_LARGE)
    'The number is too large.'
    """
    if not isinstance(status, Status):
        raise TypeError(f"expected a Status, not {_shown_with_type(status)}")
    _, message = _library.status_message(status.value, _code(_LANGUAGES, language, "language"))
    return message
