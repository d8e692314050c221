"""Columns: takes rows from an iterable, a buffer or an Arrow array, prints or reads them in pieces,
on several threads if that is wanted, and makes a list or an Arrow column of the answers."""

from __future__ import annotations

import sys
from concurrent.futures import ThreadPoolExecutor
from contextlib import closing
from dataclasses import dataclass
from datetime import date, datetime
from functools import partial
from itertools import count, starmap
from typing import Any, Callable, Generator, List, Optional, Sequence, Tuple

from . import _codes, _library, _rows
from ._arrow import ArrowColumn, Lent
from ._codes import Status
from ._rows import AMOUNTS, DATES, NUMBERS, WIDE_NUMBERS

_calls: Any = _library._native or _rows
_PIECE = 8192  # rows; the bits of a piece are whole bytes
_STATUS_OF, _NOT_HELD = tuple(Status), Status.NOT_HELD.value
_NOT_OF_A_TEXT = {
    Status.NOT_UTF8: "the text is not UTF-8",
    Status.NO_ROOM: "the offsets are not those of a text",
}
_DATES = date, datetime, "year", "month", "day"
_FOREIGN = ">!" if sys.byteorder == "little" else "<"
# The size of an item of an Arrow array, and whether it is signed, by its format.
_ARROW_NUMBERS = {
    "c": (1, 1),
    "C": (1, 0),
    "s": (2, 1),
    "S": (2, 0),
    "i": (4, 1),
    "I": (4, 0),
    "l": (8, 1),
    "L": (8, 0),
}
_ARROW_OFFSETS = {"u": 4, "U": 8}
# Whether numbers are signed, whether they may have 128 bits, and the statuses of what is too large
# or too small for that.
_Limits = Tuple[int, int, int, int]
_TextOf = Callable[[Any], Optional[str]]


@dataclass
class Wanted:
    """What a caller wants: how a single value is answered, which error a status is, what happens to
    a refused row, whether the answers are an Arrow column, and how many threads work."""

    single: Callable[[Any], Any]
    refusal: Callable[[Status], Exception]
    errors: str
    is_arrow: bool
    threads: int


def _of_row(error: Exception, row: int) -> Exception:
    """An error that names its row."""
    error.args = (f"row {row}: {error}",)
    vars(error)["row"] = row
    return error


class _Listed:
    """Rows of an iterable. `text_of` makes the text of a row that is no text."""

    def __init__(self, values: Any, text_of: Optional[_TextOf] = None) -> None:
        self.values, self._text_of = list(values), text_of

    def __len__(self) -> int:
        return len(self.values)

    def value(self, row: int) -> Any:
        return self.values[row]

    def numbers(self, start: int, stop: int, limits: _Limits) -> Any:
        return _calls.numbers_of(self.values[start:stop], *limits)

    def dates(self, start: int, stop: int) -> Any:
        return _calls.days_of(self.values[start:stop], _DATES)

    def texts(self, start: int, stop: int) -> Any:
        values = self.values[start:stop]
        try:
            return _calls.texts_of(values)
        except TypeError:
            if self._text_of is None:
                raise
        return _calls.texts_of([*map(self._text_of, values)])


class _Buffered:
    """Rows of a buffer of whole numbers."""

    def __init__(self, view: memoryview) -> None:
        order, code = view.format[:-1], view.format[-1:]
        if code not in "bBhHiIlLqQnN" or order not in ("", "@", "=", "<", ">", "!"):
            raise TypeError(
                f"expected a buffer of whole numbers, not of the format {view.format!r}"
            )
        if order and order in _FOREIGN and view.itemsize > 1:
            raise TypeError("expected a buffer in the byte order of this machine")
        if view.ndim != 1:
            raise TypeError(f"expected a buffer of one dimension, not {view.ndim}")
        self._view, self._is_signed = view, int(code.islower())

    def __len__(self) -> int:
        return len(self._view)

    def value(self, row: int) -> int:
        data = self._view[row : row + 1].tobytes()
        return int.from_bytes(data, sys.byteorder, signed=bool(self._is_signed))

    def numbers(self, start: int, stop: int, limits: _Limits) -> Any:
        data = self._view[start:stop].tobytes()
        return _calls.numbers_in(data, self._view.itemsize, self._is_signed, None, 0, *limits)


class _LentNumbers(Lent):
    """Rows of an Arrow array of whole numbers."""

    def __init__(self, lender: Any) -> None:
        super().__init__(lender)
        is_decimal = self.type[:2] == "d:" and self.type.split(",")[1:] in (["0"], ["0", "128"])
        known = (16, 1) if is_decimal else _ARROW_NUMBERS.get(self.type)
        if not known or self.is_dictionary:
            raise _wrong_array("whole numbers", self)
        self._size, self._is_signed = known

    def value(self, row: int) -> int:
        data = self.items(self._size, row, row + 1)
        return int.from_bytes(data, sys.byteorder, signed=bool(self._is_signed))

    def numbers(self, start: int, stop: int, limits: _Limits) -> Any:
        data = self.items(self._size, start, stop)
        return _calls.numbers_in(
            data, self._size, self._is_signed, *self.bits(start, stop), *limits
        )


class _LentDates(Lent):
    """Rows of an Arrow array of dates."""

    def __init__(self, lender: Any) -> None:
        super().__init__(lender)
        if self.type != "tdD" or self.is_dictionary:
            raise _wrong_array("dates of 32 bits", self)

    def value(self, row: int) -> Optional[date]:
        """The date of a row, or None if it is before year 1 or after 9999."""
        _, values, statuses = self.dates(row, row + 1)
        return _rows.dates(date, values, statuses)[0] if any(values) else None

    def dates(self, start: int, stop: int) -> Any:
        return _calls.days_in(self.items(4, start, stop), *self.bits(start, stop))


class _LentTexts(Lent):
    """Rows of an Arrow array of texts."""

    def __init__(self, lender: Any) -> None:
        super().__init__(lender)
        if self.type not in _ARROW_OFFSETS or self.is_dictionary:
            raise _wrong_array("texts", self)
        self._size = _ARROW_OFFSETS[self.type]

    def value(self, row: int) -> str:
        texts, _, _ = self.texts_from(row, row + 1)
        return texts.decode()

    def texts_from(self, start: int, stop: int) -> Tuple[bytes, bytes, int]:
        offsets, size = self.items(self._size, start, stop + 1), self._size
        first, end = offsets[:size], offsets[-size:]
        between = int.from_bytes(first, sys.byteorder), int.from_bytes(end, sys.byteorder)
        return self.between(*between), offsets, size

    def texts(self, start: int, stop: int) -> Any:
        return _calls.texts_in(*self.texts_from(start, stop), *self.bits(start, stop))


def _wrong_array(wanted: str, found: Lent) -> TypeError:
    of = "of a dictionary" if found.is_dictionary else f"of the format {found.type!r}"
    return TypeError(f"expected an Arrow array of {wanted}, not one {of}")


def _is_iterable(values: Any) -> bool:
    try:
        iter(values)
    except TypeError:
        return False
    return True


def _rows_of(
    values: Any, what: str, lent: Callable[[Any], Any], shown: Callable[[Any], str]
) -> Any:
    """The rows of a column of something, which is not a buffer."""
    if hasattr(values, "__arrow_c_array__"):
        return lent(values)
    if isinstance(values, str) or not _is_iterable(values):
        raise TypeError(f"expected a column of {what}, not {shown(values)}")
    return _Listed(values)


def numbers_in(values: Any, what: str, shown: Callable[[Any], str]) -> Any:
    """The rows of a column of whole numbers. `shown` shows a value in a message."""
    if not hasattr(values, "__arrow_c_array__"):
        try:
            view = memoryview(values)
        except (TypeError, ValueError):  # ValueError: a buffer that has no format, such as of dates
            pass
        else:
            if view.format != "O":
                return _Buffered(view)
    return _rows_of(values, what, _LentNumbers, shown)


def dates_in(values: Any, shown: Callable[[Any], str]) -> Any:
    """The rows of a column of dates."""
    return _rows_of(values, "dates", _LentDates, shown)


def texts_in(values: Any, shown: Callable[[Any], str], text_of: Optional[_TextOf] = None) -> Any:
    """The rows of a column of texts. `text_of` makes the text of a row that is no text."""
    rows = _rows_of(values, "texts", _LentTexts, shown)
    return _Listed(rows.values, text_of) if text_of and isinstance(rows, _Listed) else rows


class _List:
    """The answers as a list."""

    def __init__(self, convert: Callable[..., List[Any]]) -> None:
        self._convert = convert
        self._answers: List[Any] = []

    def converted(self, *arrays: bytes) -> List[Any]:
        return self._convert(*arrays)

    def add(self, answers: List[Any], _: bytes) -> None:
        self._answers += answers

    def done(self) -> List[Any]:
        return self._answers


class _ArrowAnswers:
    """The answers as an Arrow column."""

    def __init__(self, of: str) -> None:
        self._type, self._length, self._null_count = of, 0, 0
        self._bits, self._items = bytearray(), bytearray()

    def converted(self, *arrays: bytes) -> Any:
        return arrays[0]

    def add(self, items: Any, statuses: bytes) -> None:
        bits, rows = _calls.bits_of(statuses), len(statuses) // 4
        self._bits += bits
        self._length += rows
        self._null_count += rows - bin(int.from_bytes(bits, "little")).count("1")
        self._add(items)

    def _add(self, items: Any) -> None:
        self._items += items

    def done(self) -> ArrowColumn:
        buffers = self._bits, self._items
        return ArrowColumn(self._type, self._length, self._null_count, *buffers)


class _ArrowTexts(_ArrowAnswers):
    """Texts as an Arrow column. The items are offsets."""

    def __init__(self) -> None:
        super().__init__("U")
        self._items += bytes(8)
        self._texts = bytearray()

    def converted(self, *arrays: bytes) -> Any:
        return arrays

    def _add(self, items: Any) -> None:
        texts, offsets, _ = items
        self._items += _calls.shifted(offsets, len(self._texts))
        self._texts += texts

    def done(self) -> ArrowColumn:
        buffers = self._bits, self._items, self._texts
        return ArrowColumn(self._type, self._length, self._null_count, *buffers)


class _ArrowDates(_ArrowAnswers):
    """Dates as an Arrow column."""

    def converted(self, *arrays: bytes) -> Any:
        return _calls.days_since(*arrays)


def _pieces(rows: int, threads: int, work: Callable[[int, int], Any]) -> Generator[Any, None, None]:
    """The results of pieces of the rows, in order."""
    pieces = [(start, min(start + _PIECE, rows)) for start in range(0, rows, _PIECE)]
    if threads == 1 or len(pieces) < 2:
        yield from starmap(work, pieces)
        return
    with ThreadPoolExecutor(threads) as pool:
        yield from pool.map(work, *zip(*pieces))


def _refusal(rows: Any, row: int, status: Status, wanted: Wanted) -> Exception:
    """The error that the single call raises for a row."""
    if status in _NOT_OF_A_TEXT:
        return _of_row(ValueError(_NOT_OF_A_TEXT[status]), row)
    value = rows.value(row)
    try:
        if value is not None:
            wanted.single(value)
    except ValueError as error:
        return _of_row(error, row)
    return _of_row(wanted.refusal(status), row)


def _wrong_type(rows: Any, start: int, stop: int, wanted: Wanted) -> None:
    """Raises the TypeError of the single call for the first row of a wrong type, if any."""
    for row in range(start, stop):
        value = rows.value(row)
        try:
            if value is not None:
                wanted.single(value)
        except TypeError as error:
            raise _of_row(error, row) from None
        except ValueError:
            pass


def _answered(rows: Any, wanted: Wanted, made: Any, work: Callable[[int, int], Any]) -> Any:
    """Collects the answers of the pieces, which `work` returns as arrays with the statuses last."""

    def piece(start: int, stop: int) -> Tuple[Any, bytes]:
        try:
            arrays = work(start, stop)
        except TypeError:
            _wrong_type(rows, start, stop, wanted)
            raise
        return made.converted(*arrays), arrays[-1]

    statuses: List[Status] = []
    # Closing it cancels the work on the other pieces.
    with closing(_pieces(len(rows), wanted.threads, piece)) as pieces:
        for start, (answers, codes) in zip(count(0, _PIECE), pieces):
            row = _calls.refused(codes) if wanted.errors == "raise" else -1
            if row >= 0:
                status = _STATUS_OF[memoryview(codes).cast("I")[row]]
                raise _refusal(rows, start + row, status, wanted)
            made.add(answers, codes)
            if wanted.errors == "status":
                statuses += map(_STATUS_OF.__getitem__, memoryview(codes).cast("I"))
    return (made.done(), statuses) if wanted.errors == "status" else made.done()


def _printed(
    rows: Any, take: Callable[[int, int], Any], codes: Sequence[int], wanted: Wanted
) -> Any:
    """The texts of a column whose rows `take` takes: what they are, their values and statuses."""

    def work(start: int, stop: int) -> Any:
        what, values, statuses = take(start, stop)
        return _calls.print_column(what, (*codes, 0, 0, 0)[:4], values, statuses)

    made = _ArrowTexts() if wanted.is_arrow else _List(_calls.strings)
    return _answered(rows, wanted, made, work)


def print_numbers(rows: Any, codes: Sequence[int], wanted: Wanted) -> Any:
    """The texts of a column of numbers. The codes are of the kind, way, script and case."""
    limits = int(codes[0] >= _rows.FIRST_SIGNED), 1, _NOT_HELD, _NOT_HELD
    return _printed(rows, partial(rows.numbers, limits=limits), codes, wanted)


def print_amounts(rows: Any, is_signed: bool, codes: Sequence[int], wanted: Wanted) -> Any:
    """The texts of a column of fen. The codes are the script and the form."""
    limits = int(is_signed), 0, Status.TOO_LARGE.value, Status.TOO_SMALL.value

    def take(start: int, stop: int) -> Any:
        return (AMOUNTS, *rows.numbers(start, stop, limits)[1:])

    return _printed(rows, take, codes, wanted)


def print_dates(rows: Any, script: int, wanted: Wanted) -> Any:
    """The texts of a column of dates."""
    return _printed(rows, rows.dates, (script,), wanted)


def _read(rows: Any, what: int, codes: Sequence[int], made: Any, wanted: Wanted) -> Any:
    def work(start: int, stop: int) -> Any:
        status, *arrays = _calls.read_column(what, codes, *rows.texts(start, stop))
        if status == _codes.TOO_LONG:
            raise OverflowError("the texts are too long: they have more than 4,293,918,720 bytes")
        return arrays

    return _answered(rows, wanted, made, work)


def read_numbers(rows: Any, codes: Tuple[int, int], is_wide: bool, wanted: Wanted) -> Any:
    """The numbers of a column of texts. The codes are the kind and the way."""
    is_signed = int(codes[0] >= _rows.FIRST_SIGNED)
    what = WIDE_NUMBERS if is_wide else NUMBERS
    made: Any = _List(lambda *arrays: _calls.ints(what, is_signed, *arrays))
    if wanted.is_arrow:
        made = _ArrowAnswers("d:38,0" if is_wide else "l" if is_signed else "L")
    return _read(
        rows, what, (*codes, int(wanted.is_arrow), int(isinstance(rows, _Listed))), made, wanted
    )


def read_amounts(rows: Any, input: int, wanted: Wanted) -> Any:
    """The fen of a column of texts, each of which is meant to be an input."""
    of_list = _List(lambda *arrays: _calls.ints(AMOUNTS, 1, *arrays))
    made = _ArrowAnswers("l") if wanted.is_arrow else of_list
    return _read(rows, AMOUNTS, (input, 0, 0, 0), made, wanted)


def read_dates(rows: Any, wanted: Wanted) -> Any:
    """The dates of a column of texts."""
    of_list = _List(lambda *arrays: _calls.dates(date, *arrays))
    made = _ArrowDates("tdD") if wanted.is_arrow else of_list
    return _read(rows, DATES, (0, 0, 0, 0), made, wanted)
