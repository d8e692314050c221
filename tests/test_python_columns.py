"""Columns in Python, with the archive and the C source, and with ctypes and the extension module.

Each row of a column is answered as the call for one value answers it, also if it is missing or
refused; a row of a wrong type is named. Rows come from iterables, from buffers of each integer
type, also with strides, and from Arrow arrays with an offset and a bitmap; columns are lent to
Arrow. Four threads answer as one does. Each allocation may fail.
"""
import ctypes
import doctest
import gc
import pickle
import re
import sys
from array import array
from contextlib import suppress
from ctypes import POINTER, PYFUNCTYPE, Structure, c_char_p, c_int64, c_void_p, py_object
from datetime import date, datetime, timedelta
from decimal import Decimal
from functools import partial
from itertools import product

import pytest

from running import PYTHON, needs_modules
from test_python import Index, NoDate, OtherText, module_over, refusal

AMOUNTS = [
    0,
    1,
    1500,
    -1500,
    None,
    10700053,
    10**18 - 1,
    10**18,
    -(10**18),
    2**63,
    2**64,
    10**99,
]
NUMBERS = [
    0,
    5,
    None,
    -5,
    255,
    256,
    10**16,
    -(10**16),
    2**63 - 1,
    2**63,
    2**64 - 1,
    2**64,
    10**38,
]
NUMBERS += [
    -(2**63),
    -(2**63) - 1,
    -(2**127),
    2**127 - 1,
    2**128 - 1,
    2**128,
    10**99,
    Index(7),
]
TEXTS = ["一百二", None, "", "二十十", "负一百二十九", "一" * 300, "é", "\ud800", "x" * 70_000, "一😀"]
TEXTS += [
    "18446744073709551615",
    "一兆",
    f"{10**38}",
    f"负{10**38 - 1}",
    f"负{10**38}",
    "9" * 60,
    OtherText("二"),
]
AMOUNT_TEXTS = ["壹拾伍元整", None, "负壹拾伍元整", "负零元整", "零元整", "壹佰贰元整", "壹佰元", "", "é"]
AMOUNT_TEXTS += ["⊗ 人民币：壹拾 伍元整", "⊗ 负 壹拾伍元整", "（负数）壹元整", "玖" * 300]
FIGURES = [
    "1,409.50",
    None,
    "-15",
    "15.005",
    "",
    "1" * 30,
    "１５",
    "x",
    15,
    -(10**30),
    10**18,
    Index(7),
]
FIGURES += map(Decimal, ("1409.5", "-0.00", "0.001", "-1E-99", "1E+99", "NaN", "15.0000"))
DAYS = [date(2026, 1, 15), None, date.min, date.max, date(2024, 2, 29), NoDate(1, 1, 1)]
DAY_TEXTS = ["贰零贰陆年零叁月零壹日", None, "贰零贰陆年叁月", "贰零贰伍年零贰月贰拾玖日", ""]
KINDS = [f"{sign}{bits}" for sign in "ui" for bits in (8, 16, 32, 64, 128)]
# A call, the rows of a column, and choices of words.
CALLS = [
    *(("to_chinese", NUMBERS, {"kind": kind}) for kind in KINDS),
    ("to_chinese", NUMBERS, {"way": "low", "script": "traditional", "case": "upper"}),
    ("to_chinese", NUMBERS, {"way": "digits"}),
    *(("to_number", TEXTS, {"kind": kind}) for kind in KINDS),
    ("to_number", TEXTS, {"way": "low"}),
    ("amount_to_chinese", AMOUNTS, {}),
    ("amount_to_chinese", AMOUNTS, {"currency": True, "yuan": "圆", "script": "traditional"}),
    ("signed_amount_to_chinese", AMOUNTS, {"closing": "正"}),
    ("signed_amount_to_chinese", AMOUNTS, {"bracketed_sign": True, "currency": True}),
    ("chinese_to_amount", AMOUNT_TEXTS, {}),
    ("chinese_to_signed_amount", AMOUNT_TEXTS, {}),
    ("chinese_to_amount_as_typed", AMOUNT_TEXTS, {}),
    ("chinese_to_signed_amount_as_typed", AMOUNT_TEXTS, {}),
    ("yuan_to_fen", FIGURES, {}),
    ("date_to_chinese", DAYS, {"script": "traditional"}),
    ("chinese_to_date", DAY_TEXTS, {}),
]


@pytest.fixture(scope="module")
def numerals(of_python):
    with module_over(of_python["CHINESE_NUMBER_LIB"], of_python["PYTHONPATH"]) as module:
        module._columns._PIECE = 64  # so that a short column has several pieces
        yield module


def one_by_one(it, call, rows):
    """The answers to single calls, and their statuses."""
    answers, statuses = [], []
    for row in rows:
        answer, status = None, it.Status.NONE
        if row is not None:
            try:
                answer, status = call(row), it.Status.DONE
            except ValueError as error:
                status = error.status
        answers.append(answer)
        statuses.append(status)
    return answers, statuses


def calls_of(it, name, words):
    """A call for one value, and that for a column."""
    return [partial(getattr(it, name + more), **words) for more in ("", "_column")]


@pytest.mark.parametrize("name, rows, words", CALLS)
def test_rows(numerals, name, rows, words):
    """All of these rows, over and over, so that there are several pieces."""
    single, column = calls_of(numerals, name, words)
    wanted = one_by_one(numerals, single, rows)
    assert column(rows, errors="status") == wanted
    assert column(iter(rows), errors="none") == wanted[0]
    many = 130 // len(rows) + 1
    assert column(rows * many, errors="none", threads=2) == wanted[0] * many
    assert column([]) == [] and column((), errors="status") == ([], [])


@pytest.mark.parametrize("name, rows, words", CALLS)
def test_refused(numerals, name, rows, words):
    """Each refused row raises the error of the single call, with its index."""
    single, column = calls_of(numerals, name, words)
    wanted, statuses = one_by_one(numerals, single, rows)
    is_good = [status.name in ("DONE", "NONE") for status in statuses]
    good = [row for row, its in zip(rows, is_good) if its]
    assert column(good) == [answer for answer, its in zip(wanted, is_good) if its]
    for row, status in zip(rows, statuses):
        if status.name not in ("DONE", "NONE"):
            first, found = refusal(single, row), refusal(column, [*good, row, row, *good])
            assert (type(found), found.status) == (type(first), status)
            assert (found.char_index, found.row, first.row) == (first.char_index, len(good), None)
            assert str(found) == f"row {len(good)}: {first}"
            assert found.message_in() == first.message_in()
            again = pickle.loads(pickle.dumps(found))
            assert (str(again), again.row) == (str(found), found.row)


WRONG = [
    ("to_chinese", [1, None, 1.5], "row 2: expected a whole number, not 1.5 (float)"),
    ("to_chinese", [True], "row 0: expected a whole number, not True (bool)"),
    ("to_chinese", ["一"], "row 0: expected a whole number, not '一' (str)"),
    ("to_chinese", 5, "expected a column of whole numbers, not 5 (int)"),
    ("to_chinese", None, "expected a column of whole numbers, not None"),
    ("to_chinese", "12", "expected a column of whole numbers, not '12' (str)"),
    ("to_chinese", array("d", [1]), "expected a buffer of whole numbers, not of the format 'd'"),
    (
        "to_chinese",
        memoryview(bytes(4)).cast("B", [2, 2]),
        "expected a buffer of one dimension, not 2",
    ),
    (
        "to_chinese",
        (ctypes.c_int32.__ctype_be__ * 2)(),
        "expected a buffer in the byte order of this machine",
    ),
    ("to_number", ["一"] * 100 + [2], "row 100: expected a str, not 2 (int)"),
    ("to_number", "一", "expected a column of texts, not '一' (str)"),
    ("to_number", [b"1"], "row 0: expected a str, not b'1' (bytes)"),
    ("chinese_to_amount", [1.5], "row 0: expected a str, not 1.5 (float)"),
    (
        "yuan_to_fen",
        ["1", 2, [3]],
        "row 2: expected a str, a Decimal or a whole number of yuan, not [3] (list)",
    ),
    ("date_to_chinese", [date.min, "x"], "row 1: expected a date, not 'x' (str)"),
    (
        "date_to_chinese",
        [datetime(2026, 1, 1)],
        "row 0: expected a date, not datetime.datetime(2026, 1, 1, 0, 0)",
    ),
    ("chinese_to_date", 5, "expected a column of texts, not 5 (int)"),
]


@pytest.mark.parametrize("name, rows, told", WRONG)
@pytest.mark.parametrize("errors", ["raise", "none", "status"])
def test_wrong(numerals, name, rows, told, errors):
    """A wrong type is an error whatever happens to refused rows."""
    error = refusal(getattr(numerals, name + "_column"), rows, error=TypeError, errors=errors)
    assert str(error) == told
    assert f"row {getattr(error, 'row', None)}" == told[: told.find(":")] or told[:3] != "row"


@pytest.mark.parametrize("page", ["README.md", "README.zh.md"])
def test_page(numerals, page):
    """The example of a page gives the results that it shows."""
    text = (PYTHON / page).read_text("utf-8")
    (block,) = re.findall(r"^```pycon\n(.*?)^```$", text, re.M | re.S)
    shown = doctest.DocTestParser().get_doctest(block, {}, page, None, None)
    assert numerals and not doctest.DocTestRunner().run(shown).failed


def test_options(numerals):
    call = numerals.to_chinese_column
    assert "errors must be one of raise" in str(refusal(call, [1], errors="ignore"))
    assert "at least one thread" in str(refusal(call, [1], threads=0))
    refusal(call, [1], error=TypeError, threads=True)
    refusal(call, [1], error=TypeError, arrow=1)
    assert "kind must be one of" in str(refusal(call, [1], kind="u7"))
    assert "yuan must be one of" in str(refusal(numerals.amount_to_chinese_column, [], yuan="块"))

    def failing():
        yield 1
        raise KeyError("own")

    refusal(call, failing(), error=KeyError)


def ends_of(size, is_signed):
    top = 1 << (8 * size - is_signed)
    return [0, 1, top - 1, top // 3, *([-top, -1, -top // 3] if is_signed else [])]


@pytest.mark.parametrize("code, kind", product("bBhHiIlLqQ", [None, "u8", "i64", "u64", "u128"]))
def test_buffers(numerals, code, kind):
    """Each type of integers, with and without strides."""
    rows = array(code, ends_of(array(code).itemsize, code.islower()))
    single, column = calls_of(numerals, "to_chinese", {"kind": kind} if kind else {})
    views = [rows, memoryview(rows), memoryview(rows)[::2], memoryview(rows)[::-1]]
    for view in [*views, (ctypes.c_uint16 * 3)(1, 2, 65535)]:
        assert column(view, errors="status") == one_by_one(numerals, single, list(view))
    for name in ("amount_to_chinese", "signed_amount_to_chinese"):
        single, column = calls_of(numerals, name, {})
        assert column(rows, errors="status") == one_by_one(numerals, single, list(rows))
    assert numerals.to_chinese_column(b"\1\xff") == ["一", "二百五十五"]


def test_numpy(numerals):
    """Arrays of numpy, of integers and of others."""
    needs_modules("numpy")
    import numpy

    column = numerals.to_chinese_column
    for dtype in ("i1", "u1", "i2", "u2", "i4", "u4", "i8", "u8", object):
        assert column(numpy.array([1, 20, 100], dtype)[::2]) == ["一", "一百"]
    assert column(list(numpy.array([1, 20]))) == ["一", "二十"]
    texts = numerals.to_number_column(numpy.array(["一", "二十"]))
    assert texts == [1, 20] == numerals.to_number_column(numpy.array(["一", "二十"], object))
    days = numpy.array(["2026-01-15"], "datetime64[D]")
    assert numerals.date_to_chinese_column(days.tolist()) == ["贰零贰陆年零壹月壹拾伍日"]
    for wrong in (numpy.array([1.5]), numpy.array([True]), numpy.array([[1]]), days):
        refusal(column, wrong, error=TypeError)


class Schema(Structure):
    _fields_ = [(name, c_char_p) for name in ("format", "name", "metadata")]
    _fields_ += [(name, c_int64) for name in ("flags", "n_children")]
    _fields_ += [(name, c_void_p) for name in ("children", "dictionary", "release", "private_data")]


class Array(Structure):
    _fields_ = [(name, c_int64) for name in ("length", "null_count", "offset", "n_buffers")]
    _fields_ += [("n_children", c_int64), ("buffers", POINTER(c_void_p))]
    _fields_ += [(name, c_void_p) for name in ("children", "dictionary", "release", "private_data")]


def capsule(struct, name):
    make = PYFUNCTYPE(py_object, c_void_p, c_char_p, c_void_p)(("PyCapsule_New", ctypes.pythonapi))
    return make(ctypes.addressof(struct), name, None)


def pointer(held, name):
    get = PYFUNCTYPE(c_void_p, py_object, c_char_p)(("PyCapsule_GetPointer", ctypes.pythonapi))
    return get(held, name)


class Lender:
    """An Arrow array of a format, whose buffers after the bitmap are these. The rows before
    `offset` belong to a longer array."""

    def __init__(self, of, buffers, missing=(), offset=0, length=0, dictionary=None):
        rows = offset + length
        bits = sum(1 << row for row in range(rows) if row - offset not in missing)
        bitmap = bits.to_bytes(rows // 8 + 1, "little") if missing else None
        self.kept = [
            ctypes.create_string_buffer(it, len(it)) if it else None for it in (bitmap, *buffers)
        ]
        addresses = [it and ctypes.addressof(it) for it in self.kept]
        self.pointers = (c_void_p * len(addresses))(*addresses)
        self.schema = Schema(of.encode(), b"", None, 2, 0, None, dictionary)
        count = len(addresses)
        self.array = Array(length, len(missing), offset, count, 0, self.pointers)

    def __arrow_c_array__(self, requested_schema=None):
        return capsule(self.schema, b"arrow_schema"), capsule(self.array, b"arrow_array")


def lent_numbers(of, size, rows, offset):
    signed = of.islower()
    values = [1] * offset + [row or 0 for row in rows]
    data = b"".join(it.to_bytes(size, sys.byteorder, signed=signed) for it in values)
    missing = [at for at, row in enumerate(rows) if row is None]
    return Lender(of, [data], missing, offset, len(rows))


def lent_texts(of, rows, offset):
    texts = [b"before"] * offset + [(row or "").encode() for row in rows]
    ends = [sum(map(len, texts[:at])) for at in range(len(texts) + 1)]
    data = array("i" if of == "u" else "q", ends).tobytes()
    missing = [at for at, row in enumerate(rows) if row is None]
    return Lender(of, [data, b"".join(texts)], missing, offset, len(rows))


FORMATS = [("c", 1), ("C", 1), ("s", 2), ("S", 2), ("i", 4), ("I", 4), ("l", 8), ("L", 8)]
FORMATS += [("d:38,0", 16), ("d:20,0,128", 16)]


@pytest.mark.parametrize("of, size", FORMATS)
@pytest.mark.parametrize("offset", [0, 3, 8, 13])
def test_arrow_numbers(numerals, of, size, offset):
    some = ends_of(size, of.islower())
    for rows in (some, [None, *some, None], [], [None]):
        for kind in ("i128", "u64", "u8"):
            single, column = calls_of(numerals, "to_chinese", {"kind": kind})
            lent = lent_numbers(of, size, rows, offset)
            assert column(lent, errors="status") == one_by_one(numerals, single, rows)
        single, column = calls_of(numerals, "signed_amount_to_chinese", {})
        lent = lent_numbers(of, size, rows, offset)
        assert column(lent, errors="status") == one_by_one(numerals, single, rows)
    many = [row for _ in range(50) for row in (1, None, 5)]
    lent = lent_numbers(of, size, many, offset)
    assert numerals.to_chinese_column(lent, threads=2) == ["一", None, "五"] * 50


@pytest.mark.parametrize("of, offset", product("uU", [0, 3, 8]))
def test_arrow_texts(numerals, of, offset):
    texts = [it for it in TEXTS if it != "\ud800" and type(it) is not OtherText]
    for name, rows in (("to_number", texts), ("chinese_to_amount", AMOUNT_TEXTS)):
        single, column = calls_of(numerals, name, {})
        wanted = one_by_one(numerals, single, rows)
        assert column(lent_texts(of, rows, offset), errors="status") == wanted
    lent = lent_texts(of, ["一", "二十十", None], offset)
    error = refusal(numerals.to_number_column, lent)
    assert (error.row, error.char_index) == (1, 1) and error.message_in()
    many = ["一", None, "二十"] * 50
    assert numerals.to_number_column(lent_texts(of, many, offset), threads=2) == [1, None, 20] * 50


def test_arrow_dates(numerals):
    days = [date(1970, 1, 1), None, date.min, date.max, date(2024, 2, 29), date(1600, 12, 31)]
    days += [date(2026, 1, 1) + timedelta(7 * at) for at in range(-99, 99)]
    numbers = [day and (day - date(1970, 1, 1)).days for day in days]
    lent = lent_numbers("i", 4, numbers, 3)
    lent.schema.format = b"tdD"
    assert numerals.date_to_chinese_column(lent) == numerals.date_to_chinese_column(days)
    for number in (2**31 - 1, -(2**31), (date.max - date(1970, 1, 1)).days + 1):
        lent = lent_numbers("i", 4, [0, number], 0)
        lent.schema.format = b"tdD"
        error = refusal(numerals.date_to_chinese_column, lent, error=numerals.DateError)
        assert (error.row, error.status) == (1, numerals.Status.NOT_A_DATE)
        assert numerals.date_to_chinese_column(lent, errors="none")[1] is None


def test_arrow_wrong(numerals):
    """Other types, and arrays that are not as they should be."""
    for name, of in [("to_chinese", "g"), ("to_chinese", "u"), ("to_chinese", "d:38,2")]:
        error = refusal(getattr(numerals, f"{name}_column"), Lender(of, [b""]), error=TypeError)
        assert (
            str(error) == f"expected an Arrow array of whole numbers, not one of the format '{of}'"
        )
    refusal(numerals.to_chinese_column, Lender("d:38,0,256", [b""]), error=TypeError)
    refusal(numerals.to_number_column, Lender("l", [b""]), error=TypeError)
    refusal(numerals.date_to_chinese_column, Lender("tdm", [b""]), error=TypeError)
    lent = Lender("i", [None], length=1)
    assert "no buffer" in str(refusal(numerals.to_chinese_column, lent))
    other = Schema(b"u")
    lent = Lender("i", [bytes(4)], dictionary=ctypes.addressof(other))
    assert "dictionary" in str(refusal(numerals.to_chinese_column, lent, error=TypeError))
    for data, ends, told in [
        (b"\xff1", [0, 1, 2], "row 0: the text is not UTF-8"),
        ("一1".encode(), [0, 2, 3], "row 0: the text is not UTF-8"),
        (b"11", [0, 2, 1], "row 0: the offsets are not those of a text"),
    ]:
        for call in (numerals.to_number_column, numerals.chinese_to_amount_column):
            lent = Lender("u", [array("i", ends).tobytes(), data], length=2)
            assert str(refusal(call, lent)) == told
            _, statuses = call(lent, errors="status")
            assert statuses[0] in (numerals.Status.NOT_UTF8, numerals.Status.NO_ROOM)


def imported(column, release=True):
    """The format and the rows of an Arrow column that a consumer moves, reads and releases."""
    schema_held, array_held = column.__arrow_c_array__()
    schema = Schema.from_address(pointer(schema_held, b"arrow_schema"))
    lent = Array.from_address(pointer(array_held, b"arrow_array"))
    moved = Array.from_buffer_copy(lent)
    lent.release = None
    of = schema.format.decode()
    bits = moved.buffers[0]
    buffers = [moved.buffers[at] for at in range(moved.n_buffers)]
    rows = [row_at(of, buffers, row) for row in range(moved.length)]
    present = [
        ctypes.string_at(bits + row // 8, 1)[0] >> row % 8 & 1 for row in range(moved.length)
    ]
    assert moved.null_count == present.count(0) == column.null_count
    assert len(column) == moved.length and of == column.type
    if release:
        ctypes.CFUNCTYPE(None, c_void_p)(moved.release)(ctypes.addressof(moved))
        assert not moved.release
    return of, [row if its else None for row, its in zip(rows, present)]


def row_at(of, buffers, row):
    if of == "U":
        start, end = (c_int64 * 2).from_address(buffers[1] + 8 * row)
        return ctypes.string_at(buffers[2] + start, end - start).decode()
    size = {"l": 8, "L": 8, "tdD": 4, "d:38,0": 16}[of]
    data = ctypes.string_at(buffers[1] + size * row, size)
    number = int.from_bytes(data, sys.byteorder, signed=of != "L")
    return date(1970, 1, 1) + timedelta(number) if of == "tdD" else number


@pytest.mark.parametrize("name, rows, words", CALLS)
def test_to_arrow(numerals, name, rows, words):
    """Each column as an Arrow column, which is released."""
    single, column = calls_of(numerals, name, words)
    wanted, statuses = one_by_one(numerals, single, rows)
    if name == "to_number" and words.get("kind", "i128") in ("i128", "u128"):
        # An Arrow decimal has at most 38 digits.
        wanted = [it if it is None or abs(it) < 10**38 else None for it in wanted]
    for many in (0, 1, 130 // len(rows) + 1):
        found, codes = column(rows * many, arrow=True, errors="status", threads=2)
        of, answers = imported(found)
        assert answers == wanted * many
        done = [it is numerals.Status.DONE for it in codes]
        assert done == [it is not None for it in wanted * many]
    if name == "to_number":
        kind = words.get("kind", "i128")
        assert of == ("d:38,0" if "128" in kind else "l" if kind[0] == "i" else "L")
    else:
        assert of == {"chinese_to_date": "tdD"}.get(name, "U" if name.endswith("chinese") else "l")
    assert numerals._arrow._lent == {} == numerals._arrow._structs


def test_arrow_there_and_back(numerals):
    """What one call lends, another one takes."""
    rows = [None, *range(-99, 20_000, 7)]
    texts = numerals.to_chinese_column(rows, arrow=True)
    again = numerals.to_number_column(texts, arrow=True)
    assert repr(again) == f"<ArrowColumn d:38,0 of {len(rows)} rows, 1 of them null>"
    assert numerals.to_number_column(texts) == rows
    assert numerals.to_chinese_column(again) == numerals.to_chinese_column(rows)
    days = numerals.chinese_to_date_column(DAY_TEXTS, errors="none", arrow=True)
    assert numerals.date_to_chinese_column(days)[:2] == ["贰零贰陆年叁月零壹日", None]
    lent = texts.__arrow_c_array__(), texts.__arrow_c_schema__()
    assert len(numerals._arrow._lent) == 1 and len(numerals._arrow._structs) == 3
    del lent
    gc.collect()
    assert numerals._arrow._lent == {} == numerals._arrow._structs


def test_38_digits(numerals):
    column = partial(numerals.to_number_column, arrow=True)
    assert imported(column(["9" * 38, "负" + "9" * 38]))[1] == [10**38 - 1, 1 - 10**38]
    error = refusal(column, ["1", "1" + "0" * 38])
    assert (error.row, error.status) == (1, numerals.Status.TOO_LARGE)
    error = refusal(column, ["负1" + "0" * 38])
    assert (error.row, error.status) == (0, numerals.Status.TOO_SMALL)


def test_threads(numerals):
    """Four threads answer as one does, and the first refused row is the one that is raised."""
    many = 100_000 if numerals._library._native else 2000
    rows = [None if at % 97 == 0 else at * 7919 % 10**9 for at in range(many)]
    for name in ("to_chinese", "amount_to_chinese"):
        column = getattr(numerals, f"{name}_column")
        assert column(rows, threads=4) == column(rows)
    texts = numerals.to_chinese_column(rows)
    assert numerals.to_number_column(texts, threads=4) == rows
    texts[many // 3] = texts[many // 2] = "x"
    assert refusal(numerals.to_number_column, texts, threads=4).row == many // 3
    one, four = (numerals.to_chinese_column(rows, arrow=True, threads=it) for it in (1, 4))
    assert one._buffers == four._buffers


def test_no_memory(native):
    """Each allocation of a column call of the extension module may fail: then it raises a
    MemoryError."""
    needs_modules("_testcapi")
    with module_over("", native) as numerals:
        refuse_each(numerals)


def refuse_each(numerals):
    import _testcapi

    texts, more = ["一百", None, "一" * 300], ["壹元整", None, "壹" * 300]
    calls = [
        partial(
            numerals.to_chinese_column, [1, None, 1 << 70, 1 << 200, Index(7)] * 20, errors="none"
        ),
        partial(numerals.to_chinese_column, array("B", range(30)), arrow=True),
        partial(numerals.to_number_column, texts, errors="none"),
        partial(numerals.to_number_column, texts, errors="none", arrow=True),
        partial(numerals.chinese_to_amount_column, more, errors="none"),
        partial(numerals.amount_to_chinese_column, [10**17, None, 5] * 30, errors="status"),
        partial(numerals.date_to_chinese_column, [date(2026, 1, 15), None] * 9),
        partial(numerals.chinese_to_date_column, DAY_TEXTS, errors="none"),
        partial(numerals.chinese_to_date_column, DAY_TEXTS, errors="none", arrow=True),
    ]
    for call in calls:
        wanted, failed = shown(call()), 0
        for at in range(2000):
            found = None
            try:
                _testcapi.set_nomemory(at, at + 1)
                found = call()
            except MemoryError:
                pass
            finally:
                _testcapi.remove_mem_hooks()
            assert found is None or shown(found) == wanted
            failed += found is None
        assert failed > 20


def shown(found):
    return getattr(found, "_buffers", found)


def test_nothing_is_kept(numerals):
    """Many calls leave no block of memory."""
    rows, texts = NUMBERS * 3, TEXTS[:-1]
    days, figures = DAYS[:-1], AMOUNT_TEXTS
    calls = [
        partial(numerals.to_chinese_column, rows, errors="status"),
        partial(numerals.to_chinese_column, array("q", range(99)), arrow=True),
        partial(numerals.to_number_column, texts, errors="none", threads=2),
        partial(numerals.chinese_to_amount_column, figures, errors="none", arrow=True),
        partial(numerals.date_to_chinese_column, days),
        partial(numerals.chinese_to_date_column, DAY_TEXTS, errors="status"),
        lambda: numerals.to_chinese_column([1]).__arrow_c_array__,
        lambda: numerals.to_chinese_column([1], arrow=True).__arrow_c_array__(),
        partial(numerals.to_number_column, ["x"]),
        partial(numerals.to_chinese_column, [1.5]),
    ]
    for rounds in (5, 200):
        gc.collect()
        blocks = sys.getallocatedblocks()
        for _ in range(rounds):
            for call in calls:
                with suppress(ValueError, TypeError, AttributeError):
                    call()
        gc.collect()
    assert sys.getallocatedblocks() - blocks < 100
