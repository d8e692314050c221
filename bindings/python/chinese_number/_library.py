"""The bare calls of the library, through ctypes or through `_native`, a module written in C.

Texts are str, choices are the codes of chinese_number.h, and places count characters. Each call
returns the status first. If `_native` exists and this Python can load it, `load` replaces the
functions here with those of the same names in `_native`, and `quick` wraps the public functions in
faster ones. The rest, which an unusual call needs, calls the library that is in the same file.

A lone surrogate has no bytes in UTF-8. It is passed as a question mark, which is not a numeral
either.
"""

from __future__ import annotations

import ctypes
import importlib
import operator
import os
import sys
from ctypes import POINTER as _at, byref
from enum import Enum
from pathlib import Path
from typing import Any, Callable, Dict, List, Tuple, TypeVar, Union

from . import _codes

_AT_ONCE = 64
_MODULE = "_native.abi3.so"
_CODE, _WORD, _SIZE = ctypes.c_uint32, ctypes.c_uint64, ctypes.c_size_t
_SIGNED_WORD = ctypes.c_int64
_PLACE = [("char_index", _SIZE), ("byte_index", _SIZE)]


class _Reading(ctypes.Structure):
    _fields_ = [("low", _WORD), ("high", _WORD), *_PLACE]


class _Number(ctypes.Structure):
    _fields_ = [("low", _WORD), ("high", _WORD)]


class _Quantity(ctypes.Structure):
    _fields_ = [("numerator", _Number), ("denominator", _Number), ("form", _CODE), *_PLACE]


class _Amount(ctypes.Structure):
    _fields_ = [("fen", _WORD), *_PLACE]


class _SignedAmount(ctypes.Structure):
    _fields_ = [("fen", _SIGNED_WORD), *_PLACE]


class _Date(ctypes.Structure):
    _fields_ = [("year", _CODE), ("month", _CODE), ("day", _CODE), *_PLACE]


class _Span(ctypes.Structure):
    _fields_ = [("start", _SIZE), ("end", _SIZE), ("flags", _CODE)]


class _Phrase(ctypes.Structure):
    _fields_ = [
        *(("start", _SIZE), ("end", _SIZE), ("split", _SIZE)),
        *(("kind", _CODE), ("state", _CODE), ("flags", _CODE)),
        *(("first", _CODE), ("second", _CODE), ("third", _CODE), ("fourth", _CODE)),
    ]


class _Expected(ctypes.Structure):
    _fields_ = [
        *_PLACE,
        *(("may_end", _CODE), ("white_space", _CODE), ("count", _CODE)),
        ("characters", _CODE * _codes.MOST_EXPECTED),
    ]


class _Repair(ctypes.Structure):
    _fields_ = [*_PLACE, ("change", _CODE), ("character", _CODE)]


_TEXT = ctypes.c_char_p, _SIZE
_ROOM = ctypes.c_char_p, _SIZE, _at(_SIZE)
_FOUND = _SIZE, _at(_SIZE)
_SEARCH = (*_TEXT, _SIZE, _CODE, _CODE, _at(_Span), *_FOUND)
_REWRITING = (*_TEXT, _CODE, _CODE, _CODE, _CODE, *_ROOM)
_ARGUMENTS: Dict[str, Tuple[Any, ...]] = {
    "chinese_number_read_utf8": (*_TEXT, _CODE, _CODE, _at(_Reading)),
    "chinese_number_print": (_WORD, _WORD, _CODE, _CODE, _CODE, _CODE, *_ROOM),
    "chinese_number_find_utf8": _SEARCH,
    "chinese_quantity_read": (*_TEXT, _CODE, _at(_Quantity)),
    "chinese_quantity_print": (_at(_Quantity), _CODE, _CODE, _CODE, *_ROOM),
    "chinese_quantity_figures": (_at(_Quantity), *_ROOM),
    "chinese_quantity_find_utf8": _SEARCH,
    "chinese_quantities_to_figures": _REWRITING,
    "chinese_phrase_find_utf8": (*_TEXT, _SIZE, _CODE, _CODE, _at(_Phrase), *_FOUND),
    "chinese_range_read": (*_TEXT, *_TEXT, _at(_Quantity), _at(_Quantity)),
    "chinese_text_to_figures": _REWRITING,
    "chinese_text_to_speech": (
        *(*_TEXT, _CODE, _CODE, _CODE, _CODE, _CODE),
        *(ctypes.c_char_p, _SIZE, *_ROOM),
    ),
    "chinese_speech_left": (
        *(*_TEXT, _SIZE, _CODE, _CODE),
        *(ctypes.c_char_p, _SIZE, _at(_Span), *_FOUND),
    ),
    "chinese_amount_read": (*_TEXT, _at(_Amount)),
    "chinese_amount_print": (_WORD, _CODE, _CODE, *_ROOM),
    "chinese_signed_amount_read": (*_TEXT, _at(_SignedAmount)),
    "chinese_signed_amount_print": (_SIGNED_WORD, _CODE, _CODE, *_ROOM),
    "chinese_typed_amount_read": (*_TEXT, _at(_Amount)),
    "chinese_typed_signed_amount_read": (*_TEXT, _at(_SignedAmount)),
    "chinese_figures_read": (*_TEXT, _at(_SignedAmount)),
    "chinese_date_read": (*_TEXT, _at(_Date)),
    "chinese_date_print": (_CODE, _CODE, _CODE, _CODE, *_ROOM),
    "chinese_input_expected": (*_TEXT, _CODE, _at(_Expected)),
    "chinese_input_repair": (*_TEXT, _CODE, _at(_Repair)),
    "chinese_number_explain": (*_TEXT, _CODE, _CODE, _at(_CODE)),
    "chinese_quantity_explain": (*_TEXT, _CODE, _at(_CODE)),
    "chinese_input_message": (*_TEXT, _CODE, _CODE, *_ROOM),
    "chinese_number_message": (*_TEXT, _CODE, _CODE, _CODE, *_ROOM),
    "chinese_quantity_message": (*_TEXT, _CODE, _CODE, *_ROOM),
    "chinese_status_message": (_CODE, _CODE, *_ROOM),
    "chinese_number_answer_line": (*_TEXT, *_ROOM),
}
_SUFFIXES = {"darwin": "dylib", "win32": "dll"}
_HERE = Path(__file__).resolve().parent
# The names of this module that `_native` has too.
_CALLS = (
    "Run utf8 find_numbers find_quantities find_phrases quantities_to_figures text_to_figures"
).split()
_NO_ROOM = _codes.Status.NO_ROOM.value
_KIND_CODES = {kind: code for code, kind in enumerate(_codes.PhraseKind)}
_EXPRESSION = _KIND_CODES[_codes.PhraseKind.EXPRESSION]
_RANGE = _KIND_CODES[_codes.PhraseKind.RANGE]
# The code of a doubt is multiplied by this, and added to the flags.
_DOUBT = 16
_FLAGS = _codes.PLAIN_DIGITS, _codes.STANDS_ALONE, _codes.ABOUT, _codes.ONE_CHARACTER
# For each sum of flags, whether each flag is in it.
_FLAGS_OF = [tuple(bool(flags & it) for it in _FLAGS) for flags in range(_DOUBT)]
# A quantity: the low and the high 64 bits of its numerator and of its denominator, and its form.
Words = Tuple[int, int, int, int, int]
# A phrase: its start, its end, its text, the codes of its kind and its state, and its four numbers,
# or the two quantities of a range.
PhraseWords = Tuple[int, int, str, int, int, Tuple[Any, ...]]
# The status, some of what is found, and where the search stopped, in bytes and in characters.
Some = Tuple[int, List[Any], int, int]
_Function = TypeVar("_Function", bound=Any)
library: Any = None
_native: Any = None


class Run:
    """A run of a text, with the code of its doubt. The class in `_native` creates the run's text only
    when it is read."""

    __slots__ = (
        *("start", "end", "text", "is_plain", "stands_alone", "is_about", "is_one_character"),
        "_doubt",
    )
    _doubt: int

    def __new__(
        cls,
        start: int,
        end: int,
        text: str,
        is_plain: bool,
        stands_alone: bool,
        is_about: bool,
        is_one_character: bool,
        _doubt: int = 0,
    ) -> Any:
        places = operator.index(start), operator.index(end)
        flags = map(bool, (is_plain, stands_alone, is_about, is_one_character))
        made = object.__new__(cls)
        values = (*places, str.__str__(text), *flags, operator.index(_doubt))
        for name, value in zip(Run.__slots__, values):
            object.__setattr__(made, name, value)
        return made


def _module() -> Any:
    """The module written in C, or None if it is missing or this Python cannot load it.

    Free-threaded Python has no stable ABI, and an interpreter with its own GIL does not load a module
    that does not declare support for it.
    """
    free_threaded = "t" in getattr(sys, "abiflags", "")
    if sys.implementation.name != "cpython" or sys.version_info < (3, 10) or free_threaded:
        return None
    try:
        return importlib.import_module("._native", __package__)
    except ImportError:
        return None


def _opened() -> ctypes.CDLL:
    """The shared library, from the folder that CHINESE_NUMBER_LIB names, or else from beside this file.
    There `_native` contains the library's calls too."""
    folder = os.environ.get("CHINESE_NUMBER_LIB")
    name = f"libchinese_number.{_SUFFIXES.get(sys.platform, 'so')}"
    path = Path(folder).resolve() / name if folder else _HERE / name
    if not folder and not path.exists() and (_HERE / _MODULE).exists():
        path = _HERE / _MODULE
    try:
        return ctypes.CDLL(str(path))
    except OSError as error:
        raise ImportError(
            f"{error}\nRun `pip install ./bindings/python` at the top of a clone, or set "
            f"CHINESE_NUMBER_LIB to a folder that contains {name}, as bindings/archive.sh OUT "
            "makes it on Linux."
        ) from None


def _check_version(found: int, name: str, wanted: str) -> None:
    """Compares versions without their last number, which does not change the calls."""
    found, wanted = found // 1000, wanted.rpartition(".")[0]
    if f"{found // 1000}.{found % 1000}" != wanted:
        raise ImportError(
            f"{name} does not have version {wanted}. Reinstall chinese_number, or set "
            "CHINESE_NUMBER_LIB to another folder."
        )


def load(version: str) -> None:
    """Loads the library. Raises ImportError if it is missing or has another version."""
    global library, _native
    _native = None if os.environ.get("CHINESE_NUMBER_LIB") else _module()
    opened = ctypes.CDLL(_native.__file__) if _native else _opened()
    # A library without this call is older than the call.
    version_of: Any = getattr(opened, "chinese_number_version", lambda: 0)
    _check_version(version_of(), opened._name, version)
    for name, arguments in _ARGUMENTS.items():
        call = getattr(opened, name)
        call.restype, call.argtypes = _CODE, arguments
    library = opened
    if _native:
        globals().update({name: getattr(_native, name) for name in _CALLS})


def quick(*more: Any, **choices: Dict[Any, int]) -> Callable[[_Function], _Function]:
    """Wraps a function in the quick function of the same name in `_native`, if there is one. The quick
    function handles the usual case and calls the wrapped function otherwise. So it differs only in
    speed, and in that Python sees no annotations. The choices are the codes of each keyword's words;
    `more` is what else the quick function needs.

    If the wrapped function raises a ValueError for an outcome, the quick function raises an error like
    it for the same outcome of a later call, with the other text."""

    def wrap(function: _Function) -> _Function:
        if not _native:
            return function
        name, first = function.__name__, function.__code__.co_varnames[0]
        defaults = function.__kwdefaults__ or {}
        # inspect evaluates the defaults, and only in ASCII.
        shown = {
            it: str(its) if isinstance(its, Enum) else ascii(its) for it, its in defaults.items()
        }
        words = "".join(f", {it}={its}" for it, its in shown.items())
        signature = f"{name}({first}{words and ', *'}{words})"
        rows = tuple((it, choices[it], choices[it][value]) for it, value in defaults.items())
        text = f"{signature}\n--\n\n{function.__doc__}"
        front = name.strip("_"), function, first, rows, more, text, function.__module__
        quickly: _Function = _native.make_quick(*front)
        return quickly

    return wrap


def _read(call: Any, text: str, answer: Any, *codes: int) -> int:
    """Reads a text into `answer` with a call, and returns the status."""
    data = str.encode(text, "utf-8", "replace")
    status: int = call(data, len(data), *codes, byref(answer))
    return status


def _printed(call: Any, most: int, *codes: Any) -> Tuple[int, str]:
    """The status and the text of a call that prints at most `most` bytes."""
    room, length = ctypes.create_string_buffer(most), _SIZE()
    status: int = call(*codes, room, most, byref(length))
    return status, room.raw[: length.value].decode()


def read_number(text: str, kind: int, way: int) -> Tuple[int, int, int, int]:
    """The low and the high 64 bits of the number, and the number of characters before the wrong
    one."""
    it = _Reading()
    status = _read(library.chinese_number_read_utf8, text, it, kind, way)
    return status, it.low, it.high, it.char_index


def _read_fen(call: Any, text: str, it: Union[_Amount, _SignedAmount]) -> Tuple[int, int, int]:
    status = _read(call, text, it)
    return status, it.fen, it.char_index


def read_amount(text: str) -> Tuple[int, int, int]:
    """The fen, and the number of characters before the wrong one."""
    return _read_fen(library.chinese_amount_read, text, _Amount())


def read_signed_amount(text: str) -> Tuple[int, int, int]:
    """Like read_amount, for a text with or without a leading sign."""
    return _read_fen(library.chinese_signed_amount_read, text, _SignedAmount())


def read_typed_amount(text: str) -> Tuple[int, int, int]:
    """Like read_amount, for a text as it is typed."""
    return _read_fen(library.chinese_typed_amount_read, text, _Amount())


def read_typed_signed_amount(text: str) -> Tuple[int, int, int]:
    """Like read_signed_amount, for a text as it is typed."""
    return _read_fen(library.chinese_typed_signed_amount_read, text, _SignedAmount())


def read_figures(text: str) -> Tuple[int, int, int]:
    """Like read_signed_amount, for figures."""
    return _read_fen(library.chinese_figures_read, text, _SignedAmount())


def read_date(text: str) -> Tuple[int, Tuple[int, int, int], int]:
    """Year, month and day, and the number of characters before the wrong one."""
    it = _Date()
    status = _read(library.chinese_date_read, text, it)
    return status, (it.year, it.month, it.day), it.char_index


def _words_of(it: _Quantity) -> Words:
    above, below = it.numerator, it.denominator
    return above.low, above.high, below.low, below.high, it.form


def read_quantity(text: str, method: int) -> Tuple[int, Words, int]:
    """The quantity, and the number of characters before the wrong one."""
    it = _Quantity()
    status = _read(library.chinese_quantity_read, text, it, method)
    return status, _words_of(it), it.char_index


def print_number(
    low: int, high: int, kind: int, way: int, script: int, case: int
) -> Tuple[int, str]:
    """The text of a number that is given as two words. Only the low 64 bits of each word count."""
    codes = low, high, kind, way, script, case
    return _printed(library.chinese_number_print, _codes.MOST_BYTES, *codes)


def print_amount(fen: int, script: int, form: int) -> Tuple[int, str]:
    """The text of an amount of less than 2**64 fen."""
    return _printed(library.chinese_amount_print, _codes.MOST_AMOUNT_BYTES, fen, script, form)


def print_signed_amount(fen: int, script: int, form: int) -> Tuple[int, str]:
    """The text of a signed amount from -2**63 fen to less than 2**63."""
    codes = fen, script, form
    return _printed(library.chinese_signed_amount_print, _codes.MOST_SIGNED_AMOUNT_BYTES, *codes)


def print_date(year: int, month: int, day: int, script: int) -> Tuple[int, str]:
    """The text of a date."""
    return _printed(library.chinese_date_print, _codes.MOST_DATE_BYTES, year, month, day, script)


def input_expected(text: str, of: int) -> Tuple[int, Tuple[int, bool, bool, str]]:
    """How many characters begin an input, whether it may end there, whether white space may come next,
    and the characters that may."""
    it = _Expected()
    status = _read(library.chinese_input_expected, text, it, of)
    characters = "".join(map(chr, it.characters[: it.count]))
    return status, (it.char_index, bool(it.may_end), bool(it.white_space), characters)


def input_repair(text: str, of: int) -> Tuple[int, int, int, str]:
    """The code of the change, the number of characters before it, and its character."""
    it = _Repair()
    status = _read(library.chinese_input_repair, text, it, of)
    return status, it.change, it.char_index, chr(it.character)


def fault(what: str, text: str, *codes: int) -> Tuple[int, int]:
    """The code of the reason why a text is not a number or a quantity, which `what` says."""
    it = _CODE()
    return _read(getattr(library, f"chinese_{what}_explain"), text, it, *codes), it.value


def message(what: str, text: str, *codes: int) -> Tuple[int, str]:
    """The message about a text that is not a number, a quantity or an input, which `what` says."""
    data = str.encode(text, "utf-8", "replace")
    call = getattr(library, f"chinese_{what}_message")
    return _printed(call, _codes.MOST_MESSAGE_BYTES, data, len(data), *codes)


def status_message(status: int, language: int) -> Tuple[int, str]:
    """The message of a status."""
    return _printed(library.chinese_status_message, _codes.MOST_MESSAGE_BYTES, status, language)


def answer_line(line: bytes) -> Tuple[int, str]:
    """The answer of the program `numeral` to a line, which need not be UTF-8."""
    call = library.chinese_number_answer_line
    return _printed(call, _codes.MOST_ANSWER_BYTES, line, len(line))


def _at_words(low: int, high: int, below_low: int, below_high: int, form: int) -> Any:
    return byref(_Quantity(_Number(low, high), _Number(below_low, below_high), form))


def print_quantity(quantity: Words, method: int, script: int, case: int) -> Tuple[int, str]:
    """The text of a quantity. Only the low 64 bits of each word count."""
    codes = _at_words(*quantity), method, script, case
    return _printed(library.chinese_quantity_print, _codes.MOST_QUANTITY_BYTES, *codes)


def print_figures(quantity: Words) -> Tuple[int, str]:
    """The figures of a quantity."""
    call, it = library.chinese_quantity_figures, _at_words(*quantity)
    return _printed(call, _codes.MOST_FIGURES_BYTES, it)


def _rewritten(call: Any, data: bytes, *codes: int) -> Tuple[int, str]:
    length, status = _SIZE(len(data)), _NO_ROOM
    while status == _NO_ROOM:
        room = ctypes.create_string_buffer(max(length.value, _codes.MOST_FIGURES_BYTES))
        status = call(data, len(data), *codes, room, len(room), byref(length))
    return status, room.raw[: length.value].decode()


def quantities_to_figures(*words: Any) -> Tuple[int, str]:
    """A text with its quantities in figures. The arguments are its UTF-8, whether to include the
    upper case, and the codes of the greatest unit, the method and the options."""
    return _rewritten(library.chinese_quantities_to_figures, *words)


def text_to_figures(*words: Any) -> Tuple[int, str]:
    """Like quantities_to_figures, also with its phrases in figures."""
    return _rewritten(library.chinese_text_to_figures, *words)


def text_to_speech(data: bytes, *codes: int) -> Tuple[int, str]:
    """Like quantities_to_figures, as the text is spoken. The codes are those of whether to include the
    upper case, of the greatest unit, of a method and of a script, and the option."""
    meant = ctypes.create_string_buffer(len(data) + 1)

    def speak(*words: Any) -> int:
        status: int = library.chinese_text_to_speech(*words[:-3], meant, len(meant), *words[-3:])
        return status

    return _rewritten(speak, data, *codes)


def utf8(text: str) -> Union[bytes, bytearray]:
    """The UTF-8 of a text, for the searches below."""
    return str.encode(text, "utf-8", "replace")


def _some(call: Any, record: Any, make: Any, *words: Any, most: int = _AT_ONCE) -> Some:
    """Some of what a call finds; `make` makes each result from a record and the class of the runs."""
    text, data, searched, index, *codes, of = words
    records, count, made = (record * most)(), _SIZE(), []
    status = call(data, len(data), searched, *codes, records, most, byref(count))
    for it in records[: count.value]:
        start = index + len(data[searched : it.start].decode())
        searched, index = it.end, start + len(data[it.start : it.end].decode())
        made.append(make(of, it, start, index, text[start:index]))
    return status, made, searched if len(made) == most else len(data), index


def _run(of: Any, it: Any, *place: Any) -> Any:
    doubt, flags = divmod(it.flags, _DOUBT)
    values: List[Any] = [*place, *_FLAGS_OF[flags], doubt]
    return Run.__new__(of, *values)


def _ends_of(text: str, split: int) -> Tuple[Words, Words]:
    """The two quantities of a range, of which the first one has `split` bytes."""
    data, low, high = text.encode(), _Quantity(), _Quantity()
    first, second = data[:split], data[split:].decode()[1:].encode()
    words = first, len(first), second, len(second)
    library.chinese_range_read(*words, byref(low), byref(high))
    return _words_of(low), _words_of(high)


def _item(of: Any, it: _Phrase, *place: Any) -> Any:
    if it.kind == _EXPRESSION:
        return _run(of, it, *place)
    numbers: Any = it.first, it.second, it.third, it.fourth
    if it.kind == _RANGE:
        numbers = _ends_of(place[-1], it.split)
    return (*place, it.kind, it.state, numbers)


def find_numbers(*words: Any) -> Some:
    """Finds the next numbers of a text. The arguments are the text, its UTF-8, how many bytes and how
    many characters to skip, whether to include the upper case, the code of the greatest unit, and
    the class of the runs."""
    return _some(library.chinese_number_find_utf8, _Span, _run, *words)


def find_quantities(*words: Any) -> Some:
    """Like find_numbers, for expressions."""
    return _some(library.chinese_quantity_find_utf8, _Span, _run, *words)


def find_unspoken(text: str, data: Union[bytes, bytearray], *words: Any) -> Some:
    """Like find_numbers, for the parts that text_to_speech leaves. Each call goes through the whole text,
    so it finds many at once."""
    meant = ctypes.create_string_buffer(len(data) + 1)

    def find(*given: Any) -> int:
        status: int = library.chinese_speech_left(*given[:-3], meant, len(meant), *given[-3:])
        return status

    return _some(find, _Span, _run, text, bytes(data), *words, most=_AT_ONCE + len(data) // 8)


def find_phrases(*words: Any) -> Some:
    """Like find_numbers, for phrases, each as its PhraseWords, and for expressions that are in none."""
    return _some(library.chinese_phrase_find_utf8, _Phrase, _item, *words)
