"""The extension module of Python and ctypes: what `test_python.py` cannot test for both.

The module uses no names newer than its tag says, whatever header it was compiled with, and answers
in each CPython from 3.10 on. A Python that cannot load it uses ctypes with the same file. The
functions that wrap others look like them, and pass on unusual arguments. A call leaves nothing
behind.
"""
import pickle
import pydoc
import re
import shutil
import sys
from dataclasses import replace
from datetime import date, datetime
from decimal import Decimal
from functools import partial
from inspect import Parameter, Signature, signature

import pytest

from installing import BY_NATIVE
from questions import wrong_answers
from running import PYTHON, TOP, run
from test_python import module_over, refusal

# The names of Python that the module may import, depending on the header, by the version of the
# stable ABI that introduced them. All other names are from 3.2.
SINCE = {"PyType_GetSlot": 4, "PyModuleDef_Init": 5, "PyUnicode_AsUCS4": 7}
SINCE.update(PyModule_AddObjectRef=10, PyType_FromModuleAndSpec=10)
SINCE.update(PyUnicode_GetLength=7, PyUnicode_Substring=7, PyCMethod_New=9)
SINCE.update(PyObject_GenericSetDict=3, PyUnicode_AsUTF8AndSize=10)
OF_3_2 = """
PyArg_ParseTuple PyArg_ParseTupleAndKeywords PyBool_FromLong PyBool_Type PyByteArray_AsString
PyByteArray_FromObject PyByteArray_FromStringAndSize PyByteArray_Resize PyByteArray_Size
PyByteArray_Type PyBytes_AsString PyBytes_AsStringAndSize PyBytes_FromStringAndSize PyBytes_Size
PyDict_Copy PyDict_GetItemWithError PyDict_New PyDict_SetItem PyDict_Type PyErr_Clear
PyErr_ExceptionMatches PyErr_Fetch PyErr_Format PyErr_GivenExceptionMatches PyErr_NoMemory
PyErr_Occurred PyErr_Restore PyErr_SetNone PyErr_SetObject PyErr_SetString PyEval_RestoreThread
PyEval_SaveThread PyExc_RuntimeError PyExc_TypeError PyExc_ValueError PyList_GetItem PyList_New
PyList_SetItem PyList_Size PyList_Type PyLong_AsLongLongAndOverflow PyLong_AsUnsignedLong
PyLong_AsUnsignedLongLong PyLong_AsUnsignedLongLongMask PyLong_FromLong PyLong_FromLongLong
PyLong_FromUnsignedLong PyLong_FromUnsignedLongLong PyLong_FromVoidPtr PyModule_GetState
PyNumber_Index PyNumber_Lshift PyNumber_Or PyNumber_Rshift PyObject_Call PyObject_CallFunction
PyObject_GenericSetAttr PyObject_GetAttr PyObject_GetAttrString PySequence_InPlaceConcat
PyTuple_GetItem PyTuple_New PyTuple_Pack PyTuple_SetItem PyTuple_Size PyTuple_Type
PyType_GenericAlloc PyType_GetFlags PyType_IsSubtype PyType_Type PyUnicode_AsEncodedString
PyUnicode_CompareWithASCIIString PyUnicode_DecodeUTF8 PyUnicode_FromObject PyUnicode_FromWideChar
PyUnicode_InternFromString Py_BuildValue _PyArg_ParseTupleAndKeywords_SizeT _PyArg_ParseTuple_SizeT
_PyObject_CallFunction_SizeT _Py_BuildValue_SizeT _Py_Dealloc _Py_NoneStruct""".split()
NEWEST = list(BY_NATIVE.values())[-2:][0]


@pytest.fixture(scope="module")
def numerals(native):
    with module_over("", native) as module:
        yield module


@pytest.fixture(params=[sys.executable, NEWEST], ids=["this", "newest"])
def by_header(request, native, tmp_path):
    """The package with the module compiled with the header of a Python."""
    folder = shutil.copytree(native, tmp_path / "by header")
    native_sh = ("bash", PYTHON / "native.sh", folder / "chinese_number")
    run(*native_sh, cwd=TOP, PYTHON=request.param)
    return folder


def test_names(by_header):
    """No name of Python is newer than the tag, and no name of the C library has a version."""
    module = by_header / "chinese_number/_native.abi3.so"
    asked = re.findall(r" [Uw] (.*)", run("nm", "-D", module, cwd=TOP))
    of_python = {it for it in asked if "Py" in it}
    assert of_python - {*OF_3_2, *SINCE} == set() and max(SINCE.values()) <= 10
    assert {*asked} - of_python <= {"memcpy", "memmove", "memset", "abort"}
    assert "NEEDED" not in run("objdump", "-p", module, cwd=TOP)


def test_pythons(by_header):
    """Each Python answers all rows with the module."""
    for program in BY_NATIVE.values():
        own = {"PYTHONPATH": str(by_header), "PYTHONUTF8": "1"}
        asking = partial(run, program, "-B", by_header / "answers.py", cwd=TOP, **own)
        assert wrong_answers(lambda asked: asking(stdin=asked)) == []
        said = "import chinese_number as it; print(it.to_number)"
        run(program, "-Bc", said, cwd=TOP, wanted="<built-in function to_number>\n", **own)


OWN_LOCK = """\
import os, _interpreters
told, end = os.pipe()
_interpreters.run_string(_interpreters.create(), f'import os; from chinese_number import {name}; '
    f'os.write({{end}}, repr({name}).encode())')
print(os.read(told, 99).decode())"""
BY_CTYPES = {
    "free-threaded": "import sys; sys.abiflags = 't'\nfrom chinese_number import {name}\nprint({name})",
    "older": "import sys; sys.version_info = (3, 9)\nfrom chinese_number import {name}\nprint({name})",
    "with a lock of its own": OWN_LOCK,
}


@pytest.mark.parametrize("which", BY_CTYPES)
def test_by_ctypes(native, which):
    """Without the module the same file is called with ctypes."""
    said = BY_CTYPES[which].format(name="to_chinese")
    program = NEWEST if which == "with a lock of its own" else sys.executable
    found = run(program, "-Bc", said, cwd=TOP, PYTHONPATH=str(native))
    assert re.fullmatch(r"<function to_chinese at \w+>\n", found)


FRONTS = {
    "to_number": "(text, *, kind=<Kind.I128: 'i128'>, way=<Way.ANY: 'any'>)",
    "to_chinese": "(number, *, kind=<Kind.I128: 'i128'>, way=<Way.ANY: 'any'>, "
    "script=<Script.SIMPLIFIED: 'simplified'>, case=<Case.LOWER: 'lower'>)",
    "amount_to_chinese": "(fen, *, script=<Script.SIMPLIFIED: 'simplified'>, currency=False, "
    "yuan='元', closing='整')",
    "chinese_to_amount": "(text)",
    "date_to_chinese": "(day, *, script=<Script.SIMPLIFIED: 'simplified'>)",
    "to_quantity": "(text, *, method=<Way.ANY: 'any'>)",
}


@pytest.mark.parametrize("name", FRONTS)
def test_fronts(numerals, library, name):
    it = getattr(numerals, name)
    shown = str(signature(it)), it.__name__, it.__qualname__, it.__module__, it.__doc__
    assert shown[0] == FRONTS[name] and pickle.loads(pickle.dumps(it)) is it
    assert FRONTS[name] in pydoc.render_doc(it) and name in pydoc.render_doc(numerals)
    with module_over(library) as by_ctypes:
        other = getattr(by_ctypes, name)
        bare = [
            its.replace(annotation=Parameter.empty) for its in signature(other).parameters.values()
        ]
        arguments = str(Signature(bare))
        assert (arguments, name, other.__qualname__, other.__module__, other.__doc__) == shown


def test_unusual(numerals, library):
    """Unusual types, words and keywords are passed on and answered as with ctypes."""
    word, keyword = "".join(["u", "8"]), "".join(["ki", "nd"])
    calls = [
        ("to_number", ("一",), {"kind": word}),
        ("to_number", ("一",), {keyword: "u8"}),
        ("to_number", ("負一",), {"kind": "u8"}),
        ("to_number", ("18446744073709551615",), {"kind": "u64"}),
        ("to_number", ("18446744073709551616",), {}),
        ("to_number", ("-9223372036854775808",), {}),
        ("to_number", ("-9223372036854775809",), {}),
        ("to_number", (), {}),
        ("to_number", ("一", "u8"), {}),
        ("to_number", (), {"text": "一"}),
        ("to_number", ("一",), {"script": "simplified"}),
        ("to_number", ("一",), {"case": "lower", "kind": "u8"}),
        ("to_chinese", (True,), {}),
        ("to_chinese", (1 << 63,), {}),
        ("to_chinese", (-1,), {"kind": "u64"}),
        ("to_chinese", (1,), {"way": "naive"}),
        ("to_chinese", (), {"number": 1, "case": "upper"}),
        ("to_chinese", (1, 2, 3), {"case": "upper"}),
        ("to_chinese", (1,), {"other": 1}),
        ("to_chinese", (-1,), {"kind": "u128"}),
        ("to_chinese", ((1 << 128) - 1,), {"kind": "u128"}),
        ("to_chinese", (10**5000,), {}),
        ("amount_to_chinese", (), {"fen": 1500, "currency": True}),
        ("amount_to_chinese", (1500,), {"fen": 1500}),
        ("amount_to_chinese", (1500,), {"currency": 1}),
        ("amount_to_chinese", (1500,), {"yuan": "".join("圆"), "closing": "正"}),
        ("amount_to_chinese", (1 << 64,), {}),
        ("signed_amount_to_chinese", (-(1 << 64),), {}),
        ("signed_amount_to_chinese", (-1500,), {"bracketed_sign": True, "script": "traditional"}),
        ("yuan_to_fen", (Decimal("1E+99"),), {}),
        ("yuan_to_fen", (Decimal("-0.00"),), {}),
        ("yuan_to_fen", (10**5000,), {}),
        ("date_to_chinese", (), {"day": date(2026, 1, 15), "script": "traditional"}),
        ("date_to_chinese", (datetime(2026, 1, 15),), {}),
        ("to_quantity", ("三兆",), {"method": "digits"}),
        ("to_quantity", ("三分之" + "一京" * 2,), {}),
        ("to_quantity", (f"-{1 << 127}",), {}),
        ("to_quantity", (f"1/{(1 << 128) - 1}",), {}),
    ]
    with module_over(library) as by_ctypes:
        for name, places, words in calls:
            found = [told(getattr(it, name), places, words) for it in (numerals, by_ctypes)]
            assert found[0] == found[1], (name, places, words)


REFUSED = [
    ("to_number", [], {}),
    ("to_number", [], {"kind": "u8", "way": "low"}),
    ("to_quantity", [], {"method": "low"}),
    ("chinese_to_amount", [], {}),
    ("chinese_to_date", [], {}),
    ("yuan_to_fen", [], {}),
    ("to_chinese", [300, -1, -2, 1 << 200], {"kind": "u8"}),
    ("amount_to_chinese", [-1, -2, 10**18, 10**19], {}),
    ("signed_amount_to_chinese", [-(10**18), 10**18], {}),
]


@pytest.mark.parametrize("name, given, words", REFUSED)
def test_refused_again(numerals, library, name, given, words):
    """An error that is raised again is as with ctypes, and shares nothing that can change."""
    again = [f"{'1' * at}x{more}" for at in (0, 1, 2, 66, 130) for more in ("", "y")] + [
        "",
        "一" * 60,
    ]
    with module_over(library) as by_ctypes:
        for argument in 3 * (given or again):
            found = [refusal(getattr(it, name), argument, **words) for it in (numerals, by_ctypes)]
            shown = [(repr(it), it.args, it.message_in(), repr(vars(it))) for it in found]
            assert shown[0] == shown[1] and found[0].__cause__ is None
            found[0].status = None


def test_errors_pass(numerals):
    """An error of an argument's own methods is raised as it is, and not kept as a refusal."""

    class Fails:
        def __index__(self):
            raise KeyError("own")

    for _ in range(2):
        for call in (numerals.to_chinese, numerals.amount_to_chinese):
            assert str(refusal(call, Fails(), error=KeyError)) == "'own'"

    class Changes:
        def __init__(self):
            self.numbers = [-1, 10**19]

        def __index__(self):
            return self.numbers.pop(0)

    fresh = {"script": "traditional", "currency": True}
    assert refusal(numerals.amount_to_chinese, Changes(), **fresh).status.name == "TOO_LARGE"
    assert refusal(numerals.amount_to_chinese, -1, **fresh).status.name == "TOO_SMALL"
    try:
        numerals.to_number("十十")
    except ValueError as first:
        assert refusal(numerals.to_number, "十十").__context__ is first


def told(call, places, words):
    try:
        return repr(call(*places, **words))
    except (TypeError, ValueError) as error:
        return type(error).__name__, str(error)


def ignored(call, argument):
    try:
        call(argument)
    except (ValueError, TypeError):
        pass


def test_nothing_is_kept(numerals):
    """A million calls, half of them refused, leave no block of memory and no count of what all
    share."""
    it, day = numerals, numerals.chinese_to_date("贰零贰陆年零壹月壹拾伍日")
    asked = [
        (it.to_number, ("一亿二", "一" * 300, "一京" * 2, "十十", "", None, "\ud800")),
        (it.to_chinese, (123456789, 1 << 100, 1 << 128, None, True)),
        (partial(it.to_chinese, kind="u8", script="traditional"), (1, 256, -1)),
        (partial(it.to_number, kind="u8", other=1), ("一",)),
        (it.chinese_to_amount, ("壹佰元整", "壹佰", "x" * 300)),
        (it.chinese_to_signed_amount, ("负壹佰元整", "x")),
        (it.chinese_to_amount_as_typed, ("⊗壹佰 元整", "x")),
        (it.chinese_to_signed_amount_as_typed, ("⊗ （负数）壹佰 元整", "x")),
        (lambda text: it.input_message(text, "amount"), ("壹佰贰元整", "壹佰元整")),
        (it.amount_to_chinese, (1500, -1)),
        (it.signed_amount_to_chinese, (-1500, 10**18)),
        (it.yuan_to_fen, ("-15.00", "15.005")),
        (it.date_to_chinese, (day, None)),
        (it.chinese_to_date, ("贰零贰陆年零壹月壹拾伍日", "贰")),
        (lambda text: list(it.find_numbers(text)), ("一，二十，", None)),
        (lambda text: next(it.find_numbers(text)), ("三" + "，一" * 100,)),
        (lambda text: replace(next(it.find_numbers("一")), text=text).text, ("一", None)),
        (it.to_quantity, ("3.5万", "三分之一", "12,34", "x" * 300, None)),
        (lambda text: it.to_quantity(text).to_chinese(method="low"), ("12.5%", "1000京")),
        (lambda text: it.to_quantity(text).to_figures(), ("12.5%", "三分之一")),
        (lambda text: [its.value() for its in it.find_quantities(text)], ("3.5万，1.2.3", None)),
        (lambda text: [its.doubt for its in it.find_quantities(text)], ("五一，二十", "3~5万", None)),
        (it.quantities_to_figures, ("共三点五万，占三分之一", "三亿" * 99, "\ud800一百", None)),
        (it.text_to_figures, ("一月五日三点半，三到五万", "\ud800一月五日", None)),
        (lambda text: list(it.find_phrases(text)), ("一月五日，三到五万，二十", "五到三天", None)),
    ]
    some = [(call, argument) for call, arguments in asked for argument in arguments]
    shared = [
        None,
        True,
        False,
        it.Found,
        it.FoundQuantity,
        it.Phrase,
        it.PhraseKind.RANGE,
        it.Doubt.DIGITS,
        it.QuantityForm.DECIMAL,
        it.Kind.I128,
        it.Way.ANY,
        *(argument for _, argument in some),
    ]

    def counts():
        return [sys.getrefcount(its) for its in shared]

    for rounds in (100, 1_000_000 // len(some)):
        before, blocks = counts(), sys.getallocatedblocks()
        for _ in range(rounds):
            for call, argument in some:
                ignored(call, argument)
        grown = sys.getallocatedblocks() - blocks
    changed = [after - first for first, after in zip(before, counts())]
    # Each of these calls is made some 16,000 times; what other threads keep is far less.
    assert abs(grown) < 1000 and max(map(abs, changed)) < 1000, (grown, changed)
