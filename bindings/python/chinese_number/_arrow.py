"""Columns in Arrow's C data interface, without a library for Arrow: arrays that others lend, and
columns that this package lends. A lent array is a struct in a capsule (a PyCapsule), with a
function that releases it."""

from __future__ import annotations

import ctypes
from functools import lru_cache
from itertools import count
from typing import Any, Dict, Optional, Protocol, Tuple

_SCHEMA, _ARRAY = b"arrow_schema", b"arrow_array"
_NULLABLE = 2


class ArrowArray(Protocol):
    """What lends an array, such as one of pyarrow."""

    def __arrow_c_array__(self, requested_schema: object = None, /) -> Tuple[object, object]:
        """The capsules of a schema and of an array."""


class _Schema(ctypes.Structure):
    _fields_ = [
        *((name, ctypes.c_char_p) for name in ("format", "name", "metadata")),
        *((name, ctypes.c_int64) for name in ("flags", "n_children")),
        *((name, ctypes.c_void_p) for name in ("children", "dictionary", "release")),
        ("private_data", ctypes.c_void_p),
    ]


class _Array(ctypes.Structure):
    _fields_ = [
        *((name, ctypes.c_int64) for name in ("length", "null_count", "offset")),
        *((name, ctypes.c_int64) for name in ("n_buffers", "n_children")),
        ("buffers", ctypes.POINTER(ctypes.c_void_p)),
        *((name, ctypes.c_void_p) for name in ("children", "dictionary", "release")),
        ("private_data", ctypes.c_void_p),
    ]


# What is lent, by a number that the struct has as its private data, and the structs in capsules, by
# their addresses.
_lent: Dict[int, Any] = {}
_structs: Dict[int, Any] = {}
_numbers = count(1)


class _Calls:
    """The calls of CPython for capsules, and the functions that release what is lent. The latter
    may be called when this module is gone, so they hold what they need, and are never freed.
    """

    def __init__(self) -> None:
        api, of = ctypes.pythonapi, ctypes.PYFUNCTYPE
        release, discard = ctypes.CFUNCTYPE(None, ctypes.c_void_p), of(None, ctypes.c_void_p)
        make = of(ctypes.py_object, ctypes.c_void_p, ctypes.c_char_p, discard)
        pointer_in = of(ctypes.c_void_p, ctypes.py_object, ctypes.c_char_p)
        # A capsule that is being freed must not become an object again.
        name_of = of(ctypes.c_char_p, ctypes.c_void_p)(("PyCapsule_GetName", api))
        raw = of(ctypes.c_void_p, ctypes.c_void_p, ctypes.c_char_p)(("PyCapsule_GetPointer", api))
        schema_at, array_at, lent, structs = (
            _Schema.from_address,
            _Array.from_address,
            _lent,
            _structs,
        )

        def release_schema(address: int) -> None:
            schema_at(address).release = None

        def release_array(address: int) -> None:
            array = array_at(address)
            lent.pop(array.private_data, None)
            array.release = None

        def discarded(capsule: int) -> None:
            address = raw(capsule, name_of(capsule))
            struct = structs.pop(address)
            if struct.release:
                release(struct.release)(address)

        self.make: Any = make(("PyCapsule_New", api))
        self.pointer_in: Any = pointer_in(("PyCapsule_GetPointer", api))
        self.release_schema, self.release_array = release(release_schema), release(release_array)
        self.discard = discard(discarded)
        keep = of(None, ctypes.py_object)(("Py_IncRef", api))
        for it in (self.release_schema, self.release_array, self.discard):
            keep(it)


@lru_cache(maxsize=None)
def _calls() -> _Calls:
    if not hasattr(ctypes, "pythonapi"):
        raise TypeError("this Python has no capsules, in which Arrow arrays are lent")
    return _Calls()


def _capsule(struct: Any, name: bytes) -> object:
    address = ctypes.addressof(struct)
    _structs[address] = struct
    return _calls().make(address, name, _calls().discard)


class ArrowColumn:
    """A column in Arrow's layout, for any library that takes Arrow's C data interface:
    `pyarrow.array(column)`, `polars.Series(column)`. Its type is the format of that interface, such
    as U for texts, l for int64 and d:38,0 for decimals of 38 digits.

    >>> column = to_chinese_column([1, None, 20], arrow=True)
    >>> len(column), column.null_count, column.type
    (3, 1, 'U')
    """

    def __init__(self, of: str, length: int, null_count: int, *buffers: bytearray) -> None:
        self.type, self.null_count = of, null_count
        self._length, self._buffers = length, buffers

    def __len__(self) -> int:
        return self._length

    def __repr__(self) -> str:
        return f"<ArrowColumn {self.type} of {len(self)} rows, {self.null_count} of them null>"

    def __arrow_c_schema__(self) -> object:
        """The capsule of the type."""
        schema = _Schema(format=self.type.encode(), name=b"", flags=_NULLABLE)
        schema.release = ctypes.cast(_calls().release_schema, ctypes.c_void_p)
        return _capsule(schema, _SCHEMA)

    def __arrow_c_array__(self, requested_schema: object = None) -> Tuple[object, object]:
        """The capsules of the type and of the array. The type is always that of the column."""
        lent = [(ctypes.c_char * len(it)).from_buffer(it) for it in self._buffers]
        pointers = (ctypes.c_void_p * len(lent))(*map(ctypes.addressof, lent))
        number = next(_numbers)
        array = _Array(length=len(self), null_count=self.null_count, n_buffers=len(lent))
        array.buffers, array.private_data = pointers, number
        array.release = ctypes.cast(_calls().release_array, ctypes.c_void_p)
        _lent[number] = lent, pointers
        return self.__arrow_c_schema__(), _capsule(array, _ARRAY)


class Lent:
    """An array that an object lends: its format, its length, and its items in pieces."""

    def __init__(self, lender: Any) -> None:
        pointer = _calls().pointer_in
        schema, self._kept = lender.__arrow_c_array__()
        of = _Schema.from_address(pointer(schema, _SCHEMA))
        self._array = _Array.from_address(pointer(self._kept, _ARRAY))
        self.type: str = of.format.decode()
        self.is_dictionary = bool(of.dictionary)
        self._bits = self._address(0) if self._array.null_count and self._array.n_buffers else None

    def __len__(self) -> int:
        return int(self._array.length)

    def _address(self, buffer: int) -> Optional[int]:
        address: Optional[int] = self._array.buffers[buffer]
        return address

    def bits(self, start: int, stop: int) -> Tuple[Optional[bytes], int]:
        """The bitmap of some rows, or None if all are present, and the bit of the first one."""
        if self._bits is None:
            return None, 0
        first, end = self._array.offset + start, self._array.offset + stop
        return (ctypes.string_at(self._bits + first // 8, (end + 7) // 8 - first // 8), first % 8)

    def items(self, size: int, start: int, stop: int) -> bytes:
        """The items of some rows, of so many bytes each, or their offsets."""
        return self._bytes(1, (self._array.offset + start) * size, (stop - start) * size)

    def between(self, start: int, stop: int) -> bytes:
        """The texts between two offsets."""
        return self._bytes(2, start, max(stop - start, 0))

    def _bytes(self, buffer: int, start: int, length: int) -> bytes:
        if length == 0:
            return b""
        address = self._address(buffer)
        if address is None:
            raise ValueError("the Arrow array has rows, but no buffer for them")
        return ctypes.string_at(address + start, length)
