"""Rows of a column in arrays, through ctypes. `_native` has the same functions, which are quicker.

The values of rows are an array of uint64_t, cn_number, int64_t or cn_day, and their texts are as
Arrow's large strings: the texts one after another, and where each begins. Each row has a status.
What takes rows makes the first statuses, of which those that are not DONE are final."""

from __future__ import annotations

import ctypes
import operator
from array import array
from ctypes import POINTER as _at
from datetime import date
from typing import Any, Callable, Iterable, List, Optional, Sequence, Tuple

from . import _codes, _library

NUMBERS, WIDE_NUMBERS, AMOUNTS, DATES = range(4)
_SIZES = 8, 16, 8, 12
_DONE, _MISSING = _codes.Status.DONE.value, _codes.Status.NONE.value
_NO_ROOM = _codes.Status.NO_ROOM.value
_TOO_LARGE, _TOO_SMALL = _codes.Status.TOO_LARGE.value, _codes.Status.TOO_SMALL.value
_AMOUNT, _TYPED_AMOUNT = map(
    [*_codes.Input].index, (_codes.Input.AMOUNT, _codes.Input.TYPED_AMOUNT)
)
FIRST_SIGNED = [*_codes.Kind].index(_codes.Kind.I8)
_CODE, _WORD, _SIZE = ctypes.c_uint32, ctypes.c_uint64, ctypes.c_size_t
_EPOCH = date(1970, 1, 1).toordinal()
_LAST = date.max.toordinal()
_BYTES, _COUNTED = ctypes.c_char_p, (ctypes.c_char_p, _SIZE)
# The offsets, the buffer, the statuses and how many rows are done.
_PRINTED = (_at(_WORD), _SIZE, ctypes.c_void_p, _SIZE, _at(_CODE), _SIZE, _at(_SIZE))
_BITS = (*_COUNTED, _SIZE)
_READ = (*_COUNTED, _BYTES, _SIZE, *_BITS)
_VALUES = (ctypes.c_void_p, _SIZE, _at(_CODE), _SIZE)
_PRINTERS = (
    ("chinese_numbers_print_column", 4),
    ("chinese_wide_numbers_print_column", 4),
    ("chinese_amounts_print_column", 2),
    ("chinese_dates_print_column", 1),
)
_READERS = (
    ("chinese_numbers_read_column", 2),
    ("chinese_wide_numbers_read_column", 2),
    ("chinese_amounts_read_column", 1),
    ("chinese_dates_read_column", 0),
)
# What the rows are, their values and their statuses.
_Taken = Tuple[int, bytes, bytes]


def _call(name: str, *arguments: Any) -> Any:
    call = getattr(_library.library, name)
    call.restype, call.argtypes = _CODE, arguments
    return call


def _statuses(data: bytes) -> Sequence[int]:
    return memoryview(data).cast("I")


def _taken(
    values: Iterable[Optional[int]], is_signed: int, may_be_wide: int, above: int, below: int
) -> _Taken:
    """Rows of numbers; None is a missing one."""
    least = -(1 << 127) if is_signed else 0
    most = (1 << (127 if is_signed else 128)) - 1
    if not may_be_wide:
        least, most = max(least, -(1 << 63)), (1 << 63) - 1
    numbers: List[int] = []
    statuses = array("I")
    for value in values:
        status = _MISSING if value is None else _DONE
        if value is not None and not least <= value <= most:
            status = below if value < 0 else above
        statuses.append(status)
        numbers.append(value if value is not None and status == _DONE else 0)
    narrow = -(1 << 63) if is_signed else 0
    is_narrow = all(narrow <= it < narrow + (1 << 64) for it in numbers)
    size = 8 if is_narrow else 16
    data = b"".join(it.to_bytes(size, "little", signed=bool(is_signed)) for it in numbers)
    return NUMBERS if is_narrow else WIDE_NUMBERS, data, statuses.tobytes()


def _whole(value: Any) -> Optional[int]:
    if isinstance(value, bool):
        raise TypeError
    return None if value is None else operator.index(value)


def numbers_of(values: List[Any], *limits: int) -> _Taken:
    """Takes the whole numbers of a list, and None. The other arguments are whether the rows are
    signed, whether they may have 128 bits, and the statuses of numbers above and below them."""
    return _taken(map(_whole, values), *limits)


def _items(data: bytes, size: int, is_signed: int) -> List[int]:
    starts = range(0, len(data), size)
    signed = bool(is_signed)
    return [int.from_bytes(data[at : at + size], "little", signed=signed) for at in starts]


def _present(bitmap: Optional[bytes], first: int, rows: int) -> List[bool]:
    if bitmap is None:
        return [True] * rows
    return [bool(bitmap[bit // 8] >> bit % 8 & 1) for bit in range(first, first + rows)]


def _status_of(present: Iterable[bool]) -> bytes:
    return array("I", (_DONE if it else _MISSING for it in present)).tobytes()


def numbers_in(
    data: bytes, size: int, is_signed: int, bitmap: Optional[bytes], first: int, *limits: int
) -> _Taken:
    """Takes the whole numbers of an array. The arguments are the array, the size of an item in
    bytes, whether the items are signed, a bitmap or None, the bit of the first row, and those of
    numbers_of after the list."""
    items = _items(data, size, is_signed)
    present = _present(bitmap, first, len(items))
    return _taken((it if its else None for it, its in zip(items, present)), *limits)


def _days(days: Iterable[Tuple[int, int, int]]) -> bytes:
    return array("I", (part for day in days for part in day)).tobytes()


def _fields(day: Any, classes: Sequence[Any]) -> Tuple[int, int, int]:
    if day is None:
        return 0, 0, 0
    if not isinstance(day, classes[0]) or isinstance(day, classes[1]):
        raise TypeError
    return day.year, day.month, day.day


def days_of(values: List[Any], classes: Sequence[Any]) -> _Taken:
    """Takes the dates of a list, and None. The second argument begins with the classes of dates and
    of datetimes."""
    data = _days(_fields(day, classes) for day in values)
    return DATES, data, _status_of(it is not None for it in values)


def _day(days: int) -> Tuple[int, int, int]:
    if not 1 <= days + _EPOCH <= _LAST:
        return 0, 0, 0
    day = date.fromordinal(days + _EPOCH)
    return day.year, day.month, day.day


def days_in(data: bytes, bitmap: Optional[bytes], first: int) -> _Taken:
    """Takes the dates of an array of days since 1 January 1970, in 32 bits. The other arguments are
    a bitmap or None, and the bit of the first row."""
    items = _items(data, 4, 1)
    return DATES, _days(map(_day, items)), _status_of(_present(bitmap, first, len(items)))


# The texts, their offsets and their statuses.
_Texts = Tuple[bytes, bytes, bytes]


def texts_of(values: List[Any]) -> _Texts:
    """Takes the texts of a list, and None."""
    texts: List[bytes] = []
    offsets = array("Q", [0])
    for value in values:
        if not (value is None or isinstance(value, str)):
            raise TypeError
        texts.append(b"" if value is None else str.encode(value, "utf-8", "replace"))
        offsets.append(offsets[-1] + len(texts[-1]))
    return b"".join(texts), offsets.tobytes(), _status_of(it is not None for it in values)


def texts_in(texts: bytes, data: bytes, size: int, bitmap: Optional[bytes], first: int) -> _Texts:
    """Takes the texts of an array. The arguments are the texts from the first one on, their
    offsets, the size of an offset in bytes, a bitmap or None, and the bit of the first row."""
    ends = _items(data, size, 0)
    offsets = array("Q", ((end - ends[0]) % (1 << 64) for end in ends)).tobytes()
    return texts, offsets, _status_of(_present(bitmap, first, len(ends) - 1))


def bits_of(statuses: bytes) -> bytes:
    """A bit for each row, 1 if its status is DONE."""
    done = [status == _DONE for status in _statuses(statuses)]
    eights = (done[at : at + 8] for at in range(0, len(done), 8))
    return bytes(sum(it << bit for bit, it in enumerate(eight)) for eight in eights)


def refused(statuses: bytes) -> int:
    """The index of the first row that is refused: neither done nor missing; or -1."""
    rows = enumerate(_statuses(statuses))
    return next((row for row, it in rows if it not in (_DONE, _MISSING)), -1)


def _with_first(statuses: Any, before: bytes) -> bytes:
    """Statuses of a call, in which those that were final before it stay."""
    pairs = zip(statuses, _statuses(before))
    return array("I", (status if first == _DONE else first for status, first in pairs)).tobytes()


def print_column(what: int, codes: Sequence[int], values: bytes, before: bytes) -> _Texts:
    """Prints rows. The arguments are what they are, four codes, their values and their statuses."""
    name, count = _PRINTERS[what]
    call = _call(name, ctypes.c_void_p, _SIZE, *_BITS, *count * (_CODE,), *_PRINTED)
    rows, bits, size = len(before) // 4, bits_of(before), _SIZES[what]
    offsets, statuses, done = (_WORD * (rows + 1))(), (_CODE * rows)(), _SIZE()
    kept = ctypes.create_string_buffer(values, len(values) + 1)
    texts: List[bytes] = []
    at = 0
    while at < rows:
        room = ctypes.create_string_buffer((rows - at) * 48 + _codes.MOST_BYTES)
        left = rows - at
        some, own = (_WORD * (left + 1))(), (_CODE * left)()
        call(
            *(ctypes.byref(kept, at * size), left, bits, len(bits), at, *codes[:count]),
            *(some, left + 1, room, len(room), own, left, ctypes.byref(done)),
        )
        for row in range(done.value):
            offsets[at + row + 1] = offsets[at] + some[row + 1]
            statuses[at + row] = own[row]
        texts.append(room.raw[: some[done.value]])
        at += done.value
    return b"".join(texts), bytes(offsets), _with_first(statuses, before)


def _each(done: Callable[[int], Any], statuses: bytes) -> List[Any]:
    rows = enumerate(_statuses(statuses))
    return [done(row) if status == _DONE else None for row, status in rows]


def strings(texts: bytes, offsets: bytes, statuses: bytes) -> List[Optional[str]]:
    """The str of the texts of rows, and None where there is none."""
    ends = memoryview(offsets).cast("Q")
    return _each(lambda row: texts[ends[row] : ends[row + 1]].decode(), statuses)


def _read_unsigned(
    texts: bytes, offsets: bytes, before: bytes, is_typed: bool
) -> Tuple[int, bytes, bytes]:
    """Reads amounts without a sign, for which the library has no column."""
    library, ends = _library.library, memoryview(offsets).cast("Q")
    call = library.chinese_typed_amount_read if is_typed else library.chinese_amount_read
    fen, statuses = array("Q"), array("I")
    for row, status in enumerate(_statuses(before)):
        start, end = ends[row : row + 2]
        it = _library._Amount()
        if status == _DONE:
            text = texts[start:end]
            is_text = start <= end <= len(texts)
            status = call(text, len(text), ctypes.byref(it)) if is_text else _NO_ROOM
        fen.append(it.fen)
        statuses.append(status)
    return _DONE, fen.tobytes(), statuses.tobytes()


def read_column(
    what: int, codes: Sequence[int], texts: bytes, offsets: bytes, before: bytes
) -> Tuple[int, bytes, bytes]:
    """Reads rows. The arguments are what they are, two codes, whether the numbers become decimals
    and whether the texts are of str, the texts, their offsets and their statuses. Returns the
    status of the call, the values and the statuses."""
    if what == AMOUNTS and codes[0] in (_AMOUNT, _TYPED_AMOUNT):
        return _read_unsigned(texts, offsets, before, codes[0] == _TYPED_AMOUNT)
    name, count = _READERS[what]
    call = _call(name, *_READ, *count * (_CODE,), *_VALUES)
    rows, bits, size = len(before) // 4, bits_of(before), _SIZES[what]
    values, statuses = ctypes.create_string_buffer(max(rows * size, 1)), (_CODE * rows)()
    status: int = call(
        *(texts, len(texts), offsets, rows + 1, bits, len(bits), 0, *codes[:count]),
        *(values, rows, statuses, rows),
    )
    if what == WIDE_NUMBERS and codes[2]:
        _refuse_long(values, statuses, codes[0] >= FIRST_SIGNED)
    return status, values.raw[: rows * size], _with_first(statuses, before)


def _refuse_long(values: Any, statuses: Any, is_signed: bool) -> None:
    """Refuses the numbers of 128 bits that have more than the 38 digits of Arrow's decimals."""
    for row, number in enumerate(_items(values.raw[: 16 * len(statuses)], 16, is_signed)):
        if abs(number) >= 10**38:
            statuses[row] = _TOO_SMALL if number < 0 else _TOO_LARGE
            ctypes.memset(ctypes.addressof(values) + 16 * row, 0, 16)


def ints(what: int, is_signed: int, values: bytes, statuses: bytes) -> List[Optional[int]]:
    """The ints of rows, and None where there is none. The first two arguments are what the rows
    are, and whether they are signed."""
    items = _items(values, _SIZES[what], is_signed)
    return _each(items.__getitem__, statuses)


def dates(of: Any, values: bytes, statuses: bytes) -> List[Optional[date]]:
    """The dates of rows, of a class, and None where there is none."""
    parts = memoryview(values).cast("I")
    return _each(lambda row: of(*parts[3 * row : 3 * row + 3]), statuses)


def days_since(values: bytes, statuses: bytes) -> bytes:
    """The days since 1 January 1970 of the dates of rows, in 32 bits, and 0 where there is none."""
    days = dates(date, values, statuses)
    return array("i", (it.toordinal() - _EPOCH if it else 0 for it in days)).tobytes()


def shifted(offsets: bytes, by: int) -> bytes:
    """The offsets after the first one, moved by so many bytes."""
    return array("Q", (it + by for it in memoryview(offsets).cast("Q")[1:])).tobytes()
