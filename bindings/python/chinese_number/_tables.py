"""CSV tables, written with one more cell at the end of each row. They are read row by row, so the
memory used does not grow with the table."""

from __future__ import annotations

import csv
import re
import sys
import time
from itertools import chain
from typing import Any, Callable, Dict, Iterator, List, NamedTuple, Optional, TextIO, Tuple, Union

from . import AmountError, Language

_MARK = "\ufeff"  # the mark of UTF-8, which some programs write at the start
_CONTROL = re.compile("[\0-\x1f\x7f-\x9f]")
_MOST_OF_ROW = 2**17  # bytes; a longer row has a quote that is not closed
_MOST_SHOWN = 40  # characters of a text in a message
_AT_ONCE = 100  # how many rows are written at once


class Misuse(Exception):
    """Why the command line is not valid."""


class Refused(Exception):
    """Why a word or a cell is refused, if the library gives no reason: a text for each language, and
    the values in it."""

    def __init__(self, texts: Dict[str, str], **values: object) -> None:
        self._texts, self._values = texts, values

    def message_in(self, language: str) -> str:
        return self._texts[language].format(**self._values)


class Table(NamedTuple):
    """The number or the name of the column to convert, whether the first row is a header, the
    delimiter of cells, the name of the new column, and the language of refusals. A name of None is
    made of the column's."""

    column: Union[int, str]
    has_header: bool
    delimiter: str
    name: Optional[str]
    language: Language


# A row: its number, the line where it begins, its text, its cells, and the reason if they cannot
# be read. A blank line is a row without cells and without a reason.
_Row = Tuple[int, int, str, List[str], str]


def shown(text: str) -> str:
    """A text as messages show it: the beginning of a long one, and all on one line."""
    begun = text if len(text) <= _MOST_SHOWN else f"{text[:_MOST_SHOWN]}…"
    return _CONTROL.sub(" ", begun) or "''"


class _Messages:
    """Messages on standard error, and a count of rows if the user is waiting at a terminal."""

    def __init__(self, output: TextIO) -> None:
        self.is_awaited = sys.stderr.isatty() and not output.isatty()
        self._next, self._shown = time.monotonic() + 1, 0

    def count(self, rows: int) -> None:
        if self.is_awaited and time.monotonic() > self._next:
            self._next = time.monotonic() + 1
            self._shown = sys.stderr.write(f"\r{rows} rows") - 1

    def wipe(self) -> None:
        if self._shown:
            sys.stderr.write(f"\r{' ' * self._shown}\r")
            self._shown = 0

    def refuse(self, row: int, line: int, why: str) -> None:
        self.wipe()
        where = f"row {row}" if row == line else f"row {row}, line {line}"
        print(f"{where}: {why}", file=sys.stderr)


def _rows(lines: Iterator[str], delimiter: str) -> Iterator[_Row]:
    """The rows of these lines. After a row that is not CSV, the next line begins a row."""
    taken: List[str] = []
    number, line = 0, 1

    def of_reader() -> Iterator[str]:
        size = 0
        for text in lines:
            taken.append(text)
            yield text
            # They are removed after the end of the row: if they are still here, the row continues.
            size = size + len(text.encode("utf-8", "surrogateescape")) if taken else 0
            if size > _MOST_OF_ROW:
                return

    while True:
        reader = csv.reader(of_reader(), delimiter=delimiter, strict=True)
        try:
            for cells in reader:
                number += 1
                text = "".join(taken)
                try:
                    text.encode()  # refuses the surrogates of bytes that are not UTF-8
                    yield number, line, text, cells, ""
                except UnicodeEncodeError:
                    yield number, line, text, [], "the row is not UTF-8"
                line += len(taken)
                taken.clear()
            return
        except csv.Error:
            number += 1
            yield number, line, "".join(taken), [], "the row is not CSV"
            line += len(taken)
            taken.clear()


def _place(table: Table, number: int, cells: List[str], fault: str) -> int:
    """The index of the column to convert, which is found in the row of this number."""
    column, count = table.column, len(cells)
    if isinstance(column, int):
        if column <= count:
            return column - 1
        raise Misuse(f"row {number} has no column {column}: it has {count} cells")
    count = cells.count(column)
    if count == 1:
        return cells.index(column)
    if count > 1:
        raise Misuse(f"row {number} has {count} columns {shown(column)}: give a number")
    why = fault or f"it is {shown(table.delimiter.join(cells))}"
    raise Misuse(f"row {number} has no column {shown(column)}: {why}")


def _name(table: Table, source: str) -> str:
    """The name of the new column."""
    return table.name or (f"{source}_converted" if source else "converted")


def _with_cell(row: str, cell: str, delimiter: str) -> str:
    """The unchanged text of a row with one more cell before its line end."""
    if delimiter in cell or '"' in cell or "\n" in cell or "\r" in cell:
        cell = '"' + cell.replace('"', '""') + '"'
    before = row.rstrip("\r\n")
    return f"{before}{delimiter}{cell}{row[len(before) :]}"


def _without_mark(lines: Iterator[str]) -> Tuple[str, Iterator[str]]:
    """The mark at the start of these lines, if there is one, and the lines without it."""
    first = next(lines, "")
    mark = _MARK if first.startswith(_MARK) else ""
    return mark, chain([first[len(mark) :]], lines)


def _copy(
    lines: Iterator[str], output: TextIO, table: Table, answer: Callable[[str], str]
) -> Tuple[int, int]:
    """Writes the rows of these lines with their results, and returns how many rows there are and
    how many are refused. Blank lines and the header are not counted."""
    messages, count, refused = _Messages(output), 0, 0
    place, width = 0, 0
    mark, lines = _without_mark(lines)
    written = [mark]
    for number, line, row, cells, fault in _rows(lines, table.delimiter):
        if len(written) > _AT_ONCE:
            output.write("".join(written))
            written.clear()
        if not width and (cells or fault and isinstance(table.column, str)):
            place, width = _place(table, number, cells, fault), len(cells)
            if table.has_header and count == 0:
                written.append(_with_cell(row, _name(table, cells[place]), table.delimiter))
                continue
        cell = ""
        if cells and len(cells) == width:
            try:
                cell = answer(cells[place])
            except (AmountError, Refused) as error:
                fault = f"{shown(cells[place])}: {error.message_in(table.language)}"
        elif cells:
            fault = f"the row has {len(cells)} cells, and the first has {width}"
        elif not fault:  # a blank line
            written.append(row)
            continue
        count += 1
        if fault:
            refused += 1
            messages.refuse(number, line, fault)
        written.append(_with_cell(row, cell, table.delimiter))
        if messages.is_awaited:
            messages.count(count)
    output.write("".join(written))
    messages.wipe()
    return count, refused


def _opened(number: int, mode: str) -> Any:
    """A stream whose bytes are written as they are read, also those that are not UTF-8."""
    words = {"encoding": "utf-8", "errors": "surrogateescape", "newline": ""}
    return open(number, mode, closefd=False, **words)  # type: ignore


def write_table(table: Table, answer: Callable[[str], str]) -> int:
    """Writes the rows of standard input with their results, and returns the status."""
    csv.field_size_limit(2**31 - 1)
    with _opened(0, "r") as lines, _opened(1, "w") as output:
        count, refused = _copy(lines, output, table, answer)
    print(f"{count} rows: {count - refused} converted, {refused} refused", file=sys.stderr)
    return int(refused > 0)
