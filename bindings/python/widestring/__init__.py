r"""Conversions, checks, searches and comparisons of UTF-16, UTF-32 and UTF-8 in bytes objects, by a library whose
functions are proved for all units, well formed or ill-formed.

>>> units = "Hi😀".encode("utf-16-le") + b"\x00\xdc"
>>> utf16_first_fault(units)
4
>>> utf16_to_utf8_lossy(units, Lossy.EACH).decode()
'Hi😀�'

Units are in native byte order, which is little endian on the machines that the library is built for: Python's codecs
`utf-16-le` and `utf-32-le`, without a BOM. Offsets and lengths are counted in code units, or in bytes of UTF-8. Every
converted text is a new `bytes` object.

Text is `bytes`, which is not copied, or another object with a buffer, which is copied. The elements of a buffer are
bytes (`B`, `b` or `c`, like those of `bytearray`, `mmap` and `memoryview.cast("B")`), and their number is a multiple of
the size of a unit; or they are units: unsigned numbers of the size of a unit in native byte order (`H` for UTF-16, `I`
for UTF-32, `L` if it has four bytes) or, for UTF-32, characters of four bytes (`u` and `w`, as in `array`). UTF-8, and
UTF-16 in bytes of either byte order, only have bytes as elements. Anything else raises TypeError: `str`, signed
numbers, other sizes, the other byte order (`>u2` of numpy), floats and objects. A buffer of any shape and with any
strides is read in the order of its indices.

A conversion raises MemoryError if there is no memory for its result.

The shared library is the one that WIDESTRING_LIBRARY names, or the one beside the module, or one that the system's
loader finds. ImportError is raised if there is none, or if it has another version. The module requires CPython 3.7 or
later, since it writes into bytes objects that are not filled first.
"""

from __future__ import annotations

import builtins
import codecs
import ctypes
import ctypes.util
import enum
import operator
import os
import pathlib
import sys
from typing import TYPE_CHECKING, Any, Callable, Optional, Tuple, Union

if TYPE_CHECKING:
    from typing import SupportsIndex

    from _typeshed import ReadableBuffer as _Readable
    from _typeshed import WriteableBuffer as _Writable

__all__ = [
    "Converter",
    "Fault",
    "IncrementalDecoder",
    "IncrementalEncoder",
    "Lossy",
    "Order",
    "Scheme",
    "utf16_bytes_complete",
    "utf16_bytes_end_in_fault",
    "utf16_bytes_first_fault",
    "utf16_bytes_order",
    "utf16_bytes_to_utf8",
    "utf16_bytes_to_utf8_lossy",
    "utf16_char_count",
    "utf16_compare_code_points",
    "utf16_eq_ignore_ascii_case",
    "utf16_fault_count",
    "utf16_find",
    "utf16_find_ignore_ascii_case",
    "utf16_find_unit",
    "utf16_first_fault",
    "utf16_first_fault_item",
    "utf16_first_nul",
    "utf16_floor_char_boundary",
    "utf16_from_bytes",
    "utf16_is_ascii",
    "utf16_repair",
    "utf16_repair_in_place",
    "utf16_rfind",
    "utf16_swap_bytes",
    "utf16_to_ascii_lowercase",
    "utf16_to_ascii_uppercase",
    "utf16_to_bytes",
    "utf16_to_utf32",
    "utf16_to_utf32_lossy",
    "utf16_to_utf8",
    "utf16_to_utf8_lossy",
    "utf16_to_wtf8",
    "utf32_char_count",
    "utf32_compare_code_points",
    "utf32_eq_ignore_ascii_case",
    "utf32_fault_count",
    "utf32_find",
    "utf32_find_ignore_ascii_case",
    "utf32_find_unit",
    "utf32_first_fault",
    "utf32_first_fault_item",
    "utf32_first_nul",
    "utf32_from_bytes",
    "utf32_is_ascii",
    "utf32_repair",
    "utf32_repair_in_place",
    "utf32_rfind",
    "utf32_swap_bytes",
    "utf32_to_ascii_lowercase",
    "utf32_to_ascii_uppercase",
    "utf32_to_bytes",
    "utf32_to_utf16",
    "utf32_to_utf16_lossy",
    "utf32_to_utf8",
    "utf32_to_utf8_lossy",
    "utf8_char_count",
    "utf8_fault_count",
    "utf8_first_fault",
    "utf8_is_ascii",
    "utf8_to_utf16",
    "utf8_to_utf16_lossy",
    "utf8_to_utf32",
    "utf8_to_utf32_lossy",
    "version",
    "wtf8_first_fault",
    "wtf8_to_utf16",
]
__version__ = "0.2.0"
# The version of the library that the functions below belong to, and the name under which the loader knows it.
_VERSION = (0, 2)
_NAME = "libwidestring.so.0.1"
# A function of the library.
_Call = Callable[..., int]
# This many bytes at three offsets decide whether a text is likely ASCII, also in UTF-16 and UTF-32.
_SAMPLE = 128
# What a function returns if it has no number to report.
_NONE = ctypes.c_size_t(-1).value
# The formats of buffer elements that are bytes.
_BYTES = ("B", "b", "c")
# The formats of buffer elements that are units, by their size.
_UNITS = {1: (), 2: ("H",), 4: ("I", "L", "u", "w")}
# The prefixes of formats in native byte order.
_OWN_ORDER = ("@", "=", "<")
# The types of texts and buffers, which are bytes objects, of lengths and offsets, and of units and other numbers.
_TEXT, _SIZE, _U16, _U32, _I32 = ctypes.c_char_p, ctypes.c_size_t, ctypes.c_uint16, ctypes.c_uint32, ctypes.c_int32
# The type of a converter's address.
_ADDRESS = ctypes.c_void_p
# The policy of a converter that stops at each fault, and why it stopped.
_STRICT, _NEEDS_INPUT, _AT_FAULT = 3, 0, 2
# How many bytes a converter is given in each call, and the length of the space that is enough for their text.
_PIECE = 16384
_SPACE = 4 * _PIECE + 128
# What each function returns, and what it takes.
# Made by bindings/tables:
_SIGNATURES = {
    "version": (_U32,),
    "utf16_first_fault": (_SIZE, _TEXT, _SIZE),
    "utf32_first_fault": (_SIZE, _TEXT, _SIZE),
    "utf8_first_fault": (_SIZE, _TEXT, _SIZE),
    "wtf8_first_fault": (_SIZE, _TEXT, _SIZE),
    "utf16_first_fault_item": (_SIZE, _TEXT, _SIZE),
    "utf32_first_fault_item": (_SIZE, _TEXT, _SIZE),
    "utf16_fault_count": (_SIZE, _TEXT, _SIZE),
    "utf32_fault_count": (_SIZE, _TEXT, _SIZE),
    "utf8_fault_count": (_SIZE, _TEXT, _SIZE),
    "utf16_is_ascii": (_U32, _TEXT, _SIZE),
    "utf32_is_ascii": (_U32, _TEXT, _SIZE),
    "utf8_is_ascii": (_U32, _TEXT, _SIZE),
    "utf16_char_count": (_SIZE, _TEXT, _SIZE),
    "utf32_char_count": (_SIZE, _TEXT, _SIZE),
    "utf8_char_count": (_SIZE, _TEXT, _SIZE),
    "utf16_utf8_length": (_SIZE, _TEXT, _SIZE),
    "utf32_utf8_length": (_SIZE, _TEXT, _SIZE),
    "utf8_utf16_length": (_SIZE, _TEXT, _SIZE),
    "utf8_utf32_length": (_SIZE, _TEXT, _SIZE),
    "utf16_utf32_length": (_SIZE, _TEXT, _SIZE),
    "utf32_utf16_length": (_SIZE, _TEXT, _SIZE),
    "utf16_wtf8_length": (_SIZE, _TEXT, _SIZE),
    "wtf8_utf16_length": (_SIZE, _TEXT, _SIZE),
    "utf16_floor_char_boundary": (_SIZE, _TEXT, _SIZE, _SIZE),
    "utf16_first_nul": (_SIZE, _TEXT, _SIZE),
    "utf32_first_nul": (_SIZE, _TEXT, _SIZE),
    "utf16_find_unit": (_SIZE, _TEXT, _SIZE, _U16),
    "utf32_find_unit": (_SIZE, _TEXT, _SIZE, _U32),
    "utf16_find": (_SIZE, _TEXT, _SIZE, _TEXT, _SIZE),
    "utf32_find": (_SIZE, _TEXT, _SIZE, _TEXT, _SIZE),
    "utf16_rfind": (_SIZE, _TEXT, _SIZE, _TEXT, _SIZE),
    "utf32_rfind": (_SIZE, _TEXT, _SIZE, _TEXT, _SIZE),
    "utf16_find_ignore_ascii_case": (_SIZE, _TEXT, _SIZE, _TEXT, _SIZE),
    "utf32_find_ignore_ascii_case": (_SIZE, _TEXT, _SIZE, _TEXT, _SIZE),
    "utf16_eq_ignore_ascii_case": (_U32, _TEXT, _SIZE, _TEXT, _SIZE),
    "utf32_eq_ignore_ascii_case": (_U32, _TEXT, _SIZE, _TEXT, _SIZE),
    "utf16_compare_code_points": (_I32, _TEXT, _SIZE, _TEXT, _SIZE),
    "utf32_compare_code_points": (_I32, _TEXT, _SIZE, _TEXT, _SIZE),
    "utf16_to_utf8": (_SIZE, _TEXT, _SIZE, _TEXT, _SIZE),
    "utf16_to_utf8_lossy_with": (_SIZE, _TEXT, _SIZE, _U32, _TEXT, _SIZE),
    "utf16_bytes_order": (_U32, _TEXT, _SIZE),
    "utf16_bytes_complete": (_SIZE, _TEXT, _SIZE, _U32),
    "utf16_bytes_first_fault": (_SIZE, _TEXT, _SIZE, _U32),
    "utf16_bytes_end_in_fault": (_U32, _TEXT, _SIZE, _U32, _U32),
    "utf16_bytes_to_utf8": (_SIZE, _TEXT, _SIZE, _U32, _TEXT, _SIZE),
    "utf16_bytes_to_utf8_lossy_with": (_SIZE, _TEXT, _SIZE, _U32, _U32, _U32, _TEXT, _SIZE),
    "utf32_to_utf8": (_SIZE, _TEXT, _SIZE, _TEXT, _SIZE),
    "utf32_to_utf8_lossy_with": (_SIZE, _TEXT, _SIZE, _U32, _TEXT, _SIZE),
    "utf8_to_utf16": (_SIZE, _TEXT, _SIZE, _TEXT, _SIZE),
    "utf8_to_utf32": (_SIZE, _TEXT, _SIZE, _TEXT, _SIZE),
    "utf16_to_utf32": (_SIZE, _TEXT, _SIZE, _TEXT, _SIZE),
    "utf32_to_utf16": (_SIZE, _TEXT, _SIZE, _TEXT, _SIZE),
    "utf16_to_utf32_lossy_with": (_SIZE, _TEXT, _SIZE, _U32, _TEXT, _SIZE),
    "utf32_to_utf16_lossy_with": (_SIZE, _TEXT, _SIZE, _U32, _TEXT, _SIZE),
    "utf16_to_wtf8": (_SIZE, _TEXT, _SIZE, _TEXT, _SIZE),
    "wtf8_to_utf16": (_SIZE, _TEXT, _SIZE, _TEXT, _SIZE),
    "utf8_to_utf16_lossy_with": (_SIZE, _TEXT, _SIZE, _U32, _TEXT, _SIZE),
    "utf8_to_utf32_lossy_with": (_SIZE, _TEXT, _SIZE, _U32, _TEXT, _SIZE),
    "utf16_repair": (_SIZE, _TEXT, _SIZE, _TEXT, _SIZE),
    "utf32_repair": (_SIZE, _TEXT, _SIZE, _TEXT, _SIZE),
    "utf16_to_ascii_lowercase": (_SIZE, _TEXT, _SIZE, _TEXT, _SIZE),
    "utf32_to_ascii_lowercase": (_SIZE, _TEXT, _SIZE, _TEXT, _SIZE),
    "utf16_to_ascii_uppercase": (_SIZE, _TEXT, _SIZE, _TEXT, _SIZE),
    "utf32_to_ascii_uppercase": (_SIZE, _TEXT, _SIZE, _TEXT, _SIZE),
    "utf16_from_bytes": (_SIZE, _TEXT, _SIZE, _U32, _TEXT, _SIZE),
    "utf32_from_bytes": (_SIZE, _TEXT, _SIZE, _U32, _TEXT, _SIZE),
    "utf16_to_bytes": (_SIZE, _TEXT, _SIZE, _U32, _TEXT, _SIZE),
    "utf32_to_bytes": (_SIZE, _TEXT, _SIZE, _U32, _TEXT, _SIZE),
    "utf16_swap_bytes": (_SIZE, _TEXT, _SIZE, _TEXT, _SIZE),
    "utf32_swap_bytes": (_SIZE, _TEXT, _SIZE, _TEXT, _SIZE),
    "utf16_repair_in_place": (_SIZE, _TEXT, _SIZE),
    "utf32_repair_in_place": (_SIZE, _TEXT, _SIZE),
    "convert_start": (_U32, _ADDRESS, _U32, _U32, _U32, _U32),
    "convert_push": (_SIZE, _ADDRESS, _TEXT, _SIZE, _U32, _TEXT, _SIZE),
}
# End of what bindings/tables makes.


class Fault(ValueError):
    r"""Reports ill-formed text: the error of strict conversions. It is a ValueError, as is the error of an invalid
    argument.

    `offset` is the offset of the first ill-formed sequence, in bytes of UTF-8, or in units of UTF-16 or UTF-32. For
    UTF-16 in bytes it counts units.

    >>> try:
    ...     utf8_to_utf16(b"H\xffi")
    ... except Fault as fault:
    ...     print(fault.offset, fault)
    1 ill-formed at offset 1
    """

    def __init__(self, offset: int) -> None:
        super().__init__(offset)
        self.offset = offset

    def __str__(self) -> str:
        return f"ill-formed at offset {self.offset}"


class Lossy(enum.IntEnum):
    r"""Chooses what lossy conversions write for ill-formed sequences.

    SKIP joins the text on both sides of a sequence. So the result may contain a word that a filter did not find before
    the conversion: filter the result, not the input.

    >>> [utf8_to_utf16_lossy(b"a\xff\xffb", policy).decode("utf-16-le") for policy in Lossy]
    ['a��b', 'a�b', 'ab']
    """

    # Made by bindings/tables of WideLossy:
    # Writes U+FFFD for each ill-formed sequence.
    EACH = 0
    # Writes one U+FFFD for each longest run of adjacent ill-formed sequences.
    RUN = 1
    # Writes nothing for ill-formed sequences.
    SKIP = 2
    # End of what bindings/tables makes.


class Scheme(enum.IntEnum):
    r"""Names an encoding scheme: how a text is stored as bytes.

    UTF16 and UTF32 are read in the order of their byte order mark (BOM), which is dropped, or little-endian without
    one, and written little-endian. In the others a BOM is the character U+FEFF. WTF-8 is UTF-8 in which a surrogate
    that belongs to no pair has the three bytes of its code point, as Python writes it with `surrogatepass`.

    >>> Converter(Scheme.UTF16, Scheme.UTF8).convert(b"\xfe\xff\x00H\x00i", final=True)
    b'Hi'
    """

    # Made by bindings/tables of WideScheme:
    # UTF-8.
    UTF8 = 0
    # UTF-16, little-endian.
    UTF16LE = 1
    # UTF-16, big-endian.
    UTF16BE = 2
    # UTF-16, with or without a BOM.
    UTF16 = 3
    # UTF-32, little-endian.
    UTF32LE = 4
    # UTF-32, big-endian.
    UTF32BE = 5
    # UTF-32, with or without a BOM.
    UTF32 = 6
    # WTF-8.
    WTF8 = 7
    # End of what bindings/tables makes.


class Order(enum.IntEnum):
    """Says which of the two bytes of a unit of UTF-16 comes first: the low byte (LITTLE) or the high byte (BIG).

    >>> utf16_bytes_to_utf8("Hi".encode("utf-16-be"), Order.BIG)
    b'Hi'
    """

    LITTLE = 0
    BIG = 1


def _import_error(why: str) -> ImportError:
    return ImportError(f"{why}: install the library for C, or name its file in WIDESTRING_LIBRARY", name="widestring")


def _load() -> ctypes.CDLL:
    named = os.environ.get("WIDESTRING_LIBRARY")
    own = pathlib.Path(__file__).with_name(_NAME)
    try:
        return ctypes.CDLL(named or (str(own) if own.is_file() else _NAME))
    except OSError as error:
        found = None if named else ctypes.util.find_library("widestring")
        if found is None:
            raise _import_error(f"no library of widestring ({error})") from error
    try:
        return ctypes.CDLL(found)
    except OSError as error:
        raise _import_error(f"no library of widestring ({error})") from error


def _symbol(name: str) -> Any:
    try:
        return getattr(_library, name)
    except AttributeError as error:
        raise _import_error(f"the library has no function {name}") from error


def _call(name: str) -> _Call:
    """Returns a function of the library, by its name without `wide_`."""
    call = _symbol(f"wide_{name}")
    call.restype, *call.argtypes = _SIGNATURES[name]
    return call  # type: ignore[no-any-return]


def version() -> Tuple[int, int, int]:
    """Returns the version of the library, as three numbers: major, minor and patch.

    >>> version()[:2]
    (0, 2)
    """
    number = _call("version")()
    return number >> 16, number >> 8 & 0xFF, number & 0xFF


if sys.implementation.name != "cpython":
    raise ImportError("widestring is for CPython alone", name="widestring")
_library = _load()
# A library of another version may have other functions with these names, so only its version is looked up before this
# check.
if version()[:2] != _VERSION:
    raise _import_error(f"the library has version {version()}, and this module is for {_VERSION}")

_new_bytes = ctypes.pythonapi.PyBytes_FromStringAndSize
_new_bytes.argtypes = [ctypes.c_void_p, ctypes.c_ssize_t]
_new_bytes.restype = ctypes.py_object


def _buffer(count: int, width: int) -> bytes:
    """Returns a bytes object of this many elements to which there is no other reference, for a function to write
    into.

    CPython has one empty object for all uses; a function with capacity 0 writes nothing into it. It shares objects of
    one byte only if it gets their value. ctypes would truncate a greater length to its low bits.
    """
    if count > sys.maxsize // width:
        raise MemoryError
    return _new_bytes(None, count * width)  # type: ignore[no-any-return]


def _is_read_as(width: int, view: memoryview) -> bool:
    """Returns whether the elements of a buffer are bytes, or units of this size. Elements of an empty array of
    ctypes have no size before Python 3.10."""
    code = view.format[1:] if view.format[:1] in _OWN_ORDER else view.format
    return (code in _BYTES and view.itemsize in (0, 1)) or (code in _UNITS[width] and view.itemsize in (0, width))


def _elements(data: _Readable, width: int) -> Tuple[bytes, int]:
    """Returns the text as bytes, and its length in elements. Only an object whose type is exactly `bytes` is trusted
    to know its length."""
    if type(data) is not bytes:
        with memoryview(data) as view:
            if not _is_read_as(width, view):
                wanted = "bytes" if width == 1 else f"bytes or unsigned numbers of {width} bytes in the order of the machine"
                raise TypeError(f"a buffer of {wanted} is required, not of format {view.format!r} with {view.itemsize} bytes each")
            data = view.tobytes()
    if len(data) % width:
        raise ValueError("an incomplete unit is at the end")
    return data, len(data) // width


def _number(call: _Call, data: _Readable, width: int, *more: Any) -> Optional[int]:
    """Returns the number that a function returns, or None if it has no number to report."""
    data, length = _elements(data, width)
    result = call(data, length, *more)
    return None if result == _NONE else result


def _offset(call: _Call, data: _Readable, width: int, *more: Any) -> Optional[int]:
    """Returns the offset that a function returns, or None if it returns the length, since it found nothing."""
    data, length = _elements(data, width)
    result = call(data, length, *more)
    return None if result == length else result


def _find_unit(call: _Call, units: _Readable, width: int, unit: SupportsIndex) -> Optional[int]:
    """Returns the offset of a unit, or None if it does not occur. A number out of the range of a unit does not
    occur."""
    data, unit = _elements(units, width), operator.index(unit)
    result = call(*data, unit) if 0 <= unit < 1 << 8 * width else data[1]
    return None if result == data[1] else result


def _sample(data: bytes) -> bytes:
    """Returns bytes at three offsets, or all bytes if they are few."""
    middle = len(data) // 2
    return data if len(data) <= 3 * _SAMPLE else data[:_SAMPLE] + data[middle : middle + _SAMPLE] + data[-_SAMPLE:]


class _Conversion:
    """A function that writes: the sizes of the units that it reads and writes, and the function that returns the
    length for well-formed text."""

    def __init__(self, name: str, width: int, result_width: int, length_name: Optional[str] = None) -> None:
        self.call = _call(name)
        self.length = _call(length_name) if length_name else None
        self.width, self.result_width = width, result_width

    def write(self, data: bytes, length: int, needed: int, *more: Any) -> bytes:
        """Returns the bytes that the function writes, given their number of elements."""
        buffer = _buffer(needed, self.result_width)
        if self.call(data, length, *more, buffer, needed) != needed:
            raise SystemError("the library of widestring returns two lengths for one text")
        return buffer

    def short(self, data: bytes, length: int, *more: Any) -> Optional[bytes]:
        """Returns the result if it has as many elements as the input, as for ASCII. Returns None if the input likely
        isn't ASCII, or if the result has another length."""
        if not _sample(data).isascii():
            return None
        buffer = _buffer(length, self.result_width)
        return buffer if self.call(data, length, *more, buffer, length) == length else None

    def strict(self, data: _Readable, first_fault: _Call) -> bytes:
        data, length = _elements(data, self.width)
        text = self.short(data, length)
        if text is not None:
            return text
        needed = self.call(data, length, None, 0) if self.length is None else self.length(data, length)
        if needed == _NONE:
            raise Fault(first_fault(data, length))
        return self.write(data, length, needed)

    def lossy(self, data: _Readable, *more: Any) -> bytes:
        data, length = _elements(data, self.width)
        text = self.short(data, length, *more) if self.length else None
        if text is not None:
            return text
        # If nothing has to be replaced, the length is that of well-formed text, which is faster to compute.
        needed = self.length(data, length) if self.length else _NONE
        if needed == _NONE:
            needed = self.call(data, length, *more, None, 0)
        return self.write(data, length, needed, *more)


_first_fault8 = _call("utf8_first_fault")
_first_fault16 = _call("utf16_first_fault")
_first_fault32 = _call("utf32_first_fault")
_first_fault_item16 = _call("utf16_first_fault_item")
_first_fault_item32 = _call("utf32_first_fault_item")
_char_count8 = _call("utf8_char_count")
_char_count16 = _call("utf16_char_count")
_char_count32 = _call("utf32_char_count")
_first_nul16 = _call("utf16_first_nul")
_first_nul32 = _call("utf32_first_nul")
_find_unit16 = _call("utf16_find_unit")
_find_unit32 = _call("utf32_find_unit")
_find16 = _call("utf16_find")
_find32 = _call("utf32_find")
_rfind16 = _call("utf16_rfind")
_rfind32 = _call("utf32_rfind")
_find_ignore_ascii_case16 = _call("utf16_find_ignore_ascii_case")
_find_ignore_ascii_case32 = _call("utf32_find_ignore_ascii_case")
_eq_ignore_ascii_case16 = _call("utf16_eq_ignore_ascii_case")
_eq_ignore_ascii_case32 = _call("utf32_eq_ignore_ascii_case")
_compare_code_points16 = _call("utf16_compare_code_points")
_compare_code_points32 = _call("utf32_compare_code_points")
_utf16_to_utf8 = _Conversion("utf16_to_utf8", 2, 1, "utf16_utf8_length")
_utf32_to_utf8 = _Conversion("utf32_to_utf8", 4, 1, "utf32_utf8_length")
_utf8_to_utf16 = _Conversion("utf8_to_utf16", 1, 2, "utf8_utf16_length")
_utf8_to_utf32 = _Conversion("utf8_to_utf32", 1, 4, "utf8_utf32_length")
_utf16_to_utf32 = _Conversion("utf16_to_utf32", 2, 4, "utf16_utf32_length")
_utf32_to_utf16 = _Conversion("utf32_to_utf16", 4, 2, "utf32_utf16_length")
_utf16_to_utf8_lossy = _Conversion("utf16_to_utf8_lossy_with", 2, 1, "utf16_utf8_length")
_utf32_to_utf8_lossy = _Conversion("utf32_to_utf8_lossy_with", 4, 1, "utf32_utf8_length")
_utf8_to_utf16_lossy = _Conversion("utf8_to_utf16_lossy_with", 1, 2, "utf8_utf16_length")
_utf8_to_utf32_lossy = _Conversion("utf8_to_utf32_lossy_with", 1, 4, "utf8_utf32_length")
_utf16_repair = _Conversion("utf16_repair", 2, 2)
_utf32_repair = _Conversion("utf32_repair", 4, 4)
_utf16_to_ascii_lowercase = _Conversion("utf16_to_ascii_lowercase", 2, 2)
_utf32_to_ascii_lowercase = _Conversion("utf32_to_ascii_lowercase", 4, 4)
_utf16_to_ascii_uppercase = _Conversion("utf16_to_ascii_uppercase", 2, 2)
_utf32_to_ascii_uppercase = _Conversion("utf32_to_ascii_uppercase", 4, 4)
_wtf8_first_fault = _call("wtf8_first_fault")
_fault_count8 = _call("utf8_fault_count")
_fault_count16 = _call("utf16_fault_count")
_fault_count32 = _call("utf32_fault_count")
_is_ascii8 = _call("utf8_is_ascii")
_is_ascii16 = _call("utf16_is_ascii")
_is_ascii32 = _call("utf32_is_ascii")
_floor_char_boundary16 = _call("utf16_floor_char_boundary")
_utf16_to_utf32_lossy = _Conversion("utf16_to_utf32_lossy_with", 2, 4, "utf16_utf32_length")
_utf32_to_utf16_lossy = _Conversion("utf32_to_utf16_lossy_with", 4, 2, "utf32_utf16_length")
_utf16_to_wtf8 = _Conversion("utf16_to_wtf8", 2, 1, "utf16_wtf8_length")
_wtf8_to_utf16 = _Conversion("wtf8_to_utf16", 1, 2, "wtf8_utf16_length")
_utf16_from_bytes = _Conversion("utf16_from_bytes", 1, 2)
_utf32_from_bytes = _Conversion("utf32_from_bytes", 1, 4)
_utf16_to_bytes = _Conversion("utf16_to_bytes", 2, 1)
_utf32_to_bytes = _Conversion("utf32_to_bytes", 4, 1)
_utf16_swap_bytes = _Conversion("utf16_swap_bytes", 2, 2)
_utf32_swap_bytes = _Conversion("utf32_swap_bytes", 4, 4)
_repair_in_place16 = _call("utf16_repair_in_place")
_repair_in_place32 = _call("utf32_repair_in_place")
_convert_start = _call("convert_start")
_convert_push = _call("convert_push")
_utf16_bytes_order = _call("utf16_bytes_order")
_utf16_bytes_complete = _call("utf16_bytes_complete")
_utf16_bytes_first_fault = _call("utf16_bytes_first_fault")
_utf16_bytes_end_in_fault = _call("utf16_bytes_end_in_fault")
_utf16_bytes_to_utf8 = _Conversion("utf16_bytes_to_utf8", 1, 1)
_utf16_bytes_to_utf8_lossy = _Conversion("utf16_bytes_to_utf8_lossy_with", 1, 1)


def utf8_first_fault(text: _Readable) -> Optional[int]:
    r"""Returns the offset, in bytes, of the first byte of the first ill-formed sequence, or None if the text is well
    formed.

    Raises:
        TypeError: `text` is neither bytes nor a buffer of bytes.

    >>> utf8_first_fault(b"Hi\xff")
    2
    >>> utf8_first_fault(b"Hi") is None
    True
    """
    return _offset(_first_fault8, text, 1)


def utf16_first_fault(units: _Readable) -> Optional[int]:
    r"""Returns the offset, in units, of the first ill-formed unit, or None if the units are well formed.

    Raises:
        TypeError: `units` is neither bytes nor a buffer of bytes or of units of 16 bits.
        ValueError: an incomplete unit is at the end.

    >>> utf16_first_fault("😀".encode("utf-16-le") + b"\x00\xdc")
    2
    """
    return _offset(_first_fault16, units, 2)


def utf32_first_fault(units: _Readable) -> Optional[int]:
    """Returns the offset, in units, of the first unit that is not a scalar value, or None if the units are well formed.

    Raises:
        TypeError: `units` is neither bytes nor a buffer of bytes or of units of 32 bits.
        ValueError: an incomplete unit is at the end.

    >>> import array
    >>> utf32_first_fault(array.array("I", [0x48, 0x110000]))
    1
    """
    return _offset(_first_fault32, units, 4)


def utf16_first_fault_item(units: _Readable) -> Optional[int]:
    r"""Returns how many characters precede the first ill-formed unit, or None if the units are well formed.

    Raises:
        TypeError: `units` is neither bytes nor a buffer of bytes or of units of 16 bits.
        ValueError: an incomplete unit is at the end.

    >>> utf16_first_fault_item("😀".encode("utf-16-le") + b"\x00\xdc")
    1
    """
    return _number(_first_fault_item16, units, 2)


def utf32_first_fault_item(units: _Readable) -> Optional[int]:
    """Returns how many characters precede the first unit that is not a scalar value, or None if the units are well
    formed. It is the offset that utf32_first_fault returns.

    Raises:
        TypeError: `units` is neither bytes nor a buffer of bytes or of units of 32 bits.
        ValueError: an incomplete unit is at the end.
    """
    return _number(_first_fault_item32, units, 4)


def utf8_char_count(text: _Readable) -> Optional[int]:
    """Returns how many characters the text has, or None if it is ill-formed.

    Raises:
        TypeError: `text` is neither bytes nor a buffer of bytes.

    >>> utf8_char_count("é😀".encode())
    2
    """
    return _number(_char_count8, text, 1)


def utf16_char_count(units: _Readable) -> Optional[int]:
    """Returns how many characters the units have, or None if they are ill-formed.

    Raises:
        TypeError: `units` is neither bytes nor a buffer of bytes or of units of 16 bits.
        ValueError: an incomplete unit is at the end.

    >>> utf16_char_count("é😀".encode("utf-16-le"))
    2
    """
    return _number(_char_count16, units, 2)


def utf32_char_count(units: _Readable) -> Optional[int]:
    """Returns how many characters the units have, or None if they are ill-formed. Each unit is a character.

    Raises:
        TypeError: `units` is neither bytes nor a buffer of bytes or of units of 32 bits.
        ValueError: an incomplete unit is at the end.
    """
    return _number(_char_count32, units, 4)


def utf16_first_nul(units: _Readable) -> Optional[int]:
    r"""Returns the offset, in units, of the first NUL, or None if there is none.

    Raises:
        TypeError: `units` is neither bytes nor a buffer of bytes or of units of 16 bits.
        ValueError: an incomplete unit is at the end.

    >>> utf16_first_nul("Hi\0".encode("utf-16-le"))
    2
    """
    return _offset(_first_nul16, units, 2)


def utf32_first_nul(units: _Readable) -> Optional[int]:
    """Returns the offset, in units, of the first NUL, or None if there is none.

    Raises:
        TypeError: `units` is neither bytes nor a buffer of bytes or of units of 32 bits.
        ValueError: an incomplete unit is at the end.
    """
    return _offset(_first_nul32, units, 4)


def utf16_find_unit(units: _Readable, unit: SupportsIndex) -> Optional[int]:
    """Returns the offset, in units, of the first unit with this number, or None if there is none, also for a negative
    number and one above 0xFFFF. Units are compared as numbers, also if they are ill-formed.

    Raises:
        TypeError: `unit` is not an integer, or `units` is neither bytes nor a buffer of bytes or of units of 16 bits.
        ValueError: an incomplete unit is at the end.

    >>> utf16_find_unit("Hi!".encode("utf-16-le"), ord("!"))
    2
    """
    return _find_unit(_find_unit16, units, 2, unit)


def utf32_find_unit(units: _Readable, unit: SupportsIndex) -> Optional[int]:
    """Returns the offset, in units, of the first unit with this number, or None if there is none, also for a negative
    number and one above 0xFFFFFFFF. Units are compared as numbers, also if they are not scalar values.

    Raises:
        TypeError: `unit` is not an integer, or `units` is neither bytes nor a buffer of bytes or of units of 32 bits.
        ValueError: an incomplete unit is at the end.

    >>> utf32_find_unit("Hi!".encode("utf-32-le"), ord("!"))
    2
    """
    return _find_unit(_find_unit32, units, 4, unit)


def utf16_find(units: _Readable, needle: _Readable) -> Optional[int]:
    """Returns the offset, in units, of the first occurrence of a needle, or None if it does not occur. An empty needle
    occurs at offset 0. Units are compared as numbers, also if they are ill-formed. The time grows at most linearly with
    both lengths.

    Raises:
        TypeError: `units` or `needle` is neither bytes nor a buffer of bytes or of units of 16 bits.
        ValueError: an incomplete unit is at the end of one of them.

    >>> utf16_find("Hi 😀".encode("utf-16-le"), "😀".encode("utf-16-le"))
    3
    """
    return _number(_find16, units, 2, *_elements(needle, 2))


def utf32_find(units: _Readable, needle: _Readable) -> Optional[int]:
    """Returns the offset, in units, of the first occurrence of a needle, or None if it does not occur. An empty needle
    occurs at offset 0. Units are compared as numbers, also if they are not scalar values. The time grows at most
    linearly with both lengths.

    Raises:
        TypeError: `units` or `needle` is neither bytes nor a buffer of bytes or of units of 32 bits.
        ValueError: an incomplete unit is at the end of one of them.

    >>> utf32_find("Hi 😀".encode("utf-32-le"), "😀".encode("utf-32-le"))
    3
    """
    return _number(_find32, units, 4, *_elements(needle, 4))


def utf16_rfind(units: _Readable, needle: _Readable) -> Optional[int]:
    """Returns the offset, in units, of the last occurrence of a needle, or None if it does not occur. An empty needle
    occurs at the end. Units are compared as numbers, also if they are ill-formed. The time grows at most linearly with
    both lengths.

    Raises:
        TypeError: `units` or `needle` is neither bytes nor a buffer of bytes or of units of 16 bits.
        ValueError: an incomplete unit is at the end of one of them.

    >>> utf16_rfind("abcab".encode("utf-16-le"), "ab".encode("utf-16-le"))
    3
    """
    return _number(_rfind16, units, 2, *_elements(needle, 2))


def utf32_rfind(units: _Readable, needle: _Readable) -> Optional[int]:
    """Returns the offset, in units, of the last occurrence of a needle, or None if it does not occur. An empty needle
    occurs at the end. Units are compared as numbers, also if they are not scalar values. The time grows at most
    linearly with both lengths.

    Raises:
        TypeError: `units` or `needle` is neither bytes nor a buffer of bytes or of units of 32 bits.
        ValueError: an incomplete unit is at the end of one of them.

    >>> utf32_rfind("abcab".encode("utf-32-le"), "ab".encode("utf-32-le"))
    3
    """
    return _number(_rfind32, units, 4, *_elements(needle, 4))


def utf16_find_ignore_ascii_case(units: _Readable, needle: _Readable) -> Optional[int]:
    """Returns the offset, in units, of the first occurrence of a needle without regard to the case of ASCII letters, or
    None if it does not occur. An empty needle occurs at offset 0. Letters past ASCII are compared as they are. The time
    grows at most linearly with both lengths.

    Raises:
        TypeError: `units` or `needle` is neither bytes nor a buffer of bytes or of units of 16 bits.
        ValueError: an incomplete unit is at the end of one of them.

    >>> utf16_find_ignore_ascii_case("Key=Value".encode("utf-16-le"), "VALUE".encode("utf-16-le"))
    4
    """
    return _number(_find_ignore_ascii_case16, units, 2, *_elements(needle, 2))


def utf32_find_ignore_ascii_case(units: _Readable, needle: _Readable) -> Optional[int]:
    """Returns the offset, in units, of the first occurrence of a needle without regard to the case of ASCII letters, or
    None if it does not occur. An empty needle occurs at offset 0. Letters past ASCII are compared as they are. The time
    grows at most linearly with both lengths.

    Raises:
        TypeError: `units` or `needle` is neither bytes nor a buffer of bytes or of units of 32 bits.
        ValueError: an incomplete unit is at the end of one of them.

    >>> utf32_find_ignore_ascii_case("Key=Value".encode("utf-32-le"), "VALUE".encode("utf-32-le"))
    4
    """
    return _number(_find_ignore_ascii_case32, units, 4, *_elements(needle, 4))


def utf16_eq_ignore_ascii_case(units: _Readable, other: _Readable) -> bool:
    """Returns whether both texts have the same units without regard to the case of ASCII letters. Letters past ASCII
    are compared as they are.

    Raises:
        TypeError: `units` or `other` is neither bytes nor a buffer of bytes or of units of 16 bits.
        ValueError: an incomplete unit is at the end of one of them.

    >>> utf16_eq_ignore_ascii_case("Key".encode("utf-16-le"), "KEY".encode("utf-16-le"))
    True
    >>> utf16_eq_ignore_ascii_case("Ä".encode("utf-16-le"), "ä".encode("utf-16-le"))
    False
    """
    return _eq_ignore_ascii_case16(*_elements(units, 2), *_elements(other, 2)) != 0


def utf32_eq_ignore_ascii_case(units: _Readable, other: _Readable) -> bool:
    """Returns whether both texts have the same units without regard to the case of ASCII letters. Letters past ASCII
    are compared as they are.

    Raises:
        TypeError: `units` or `other` is neither bytes nor a buffer of bytes or of units of 32 bits.
        ValueError: an incomplete unit is at the end of one of them.

    >>> utf32_eq_ignore_ascii_case("Key".encode("utf-32-le"), "KEY".encode("utf-32-le"))
    True
    >>> utf32_eq_ignore_ascii_case("Ä".encode("utf-32-le"), "ä".encode("utf-32-le"))
    False
    """
    return _eq_ignore_ascii_case32(*_elements(units, 4), *_elements(other, 4)) != 0


def utf16_compare_code_points(units: _Readable, other: _Readable) -> int:
    """Compares two texts by their code points, as `str` is ordered. Returns -1 if the first text is less than the other
    one, 0 if both are the same, and 1 if the first one is greater. An unpaired surrogate is a code point too.

    Raises:
        TypeError: `units` or `other` is neither bytes nor a buffer of bytes or of units of 16 bits.
        ValueError: an incomplete unit is at the end of one of them.

    >>> utf16_compare_code_points("😀".encode("utf-16-le"), "Ａ".encode("utf-16-le"))
    1
    """
    return _compare_code_points16(*_elements(units, 2), *_elements(other, 2))


def utf32_compare_code_points(units: _Readable, other: _Readable) -> int:
    """Compares two texts by their code points, as `str` is ordered. Returns -1 if the first text is less than the other
    one, 0 if both are the same, and 1 if the first one is greater. A unit that is not a scalar value counts by its
    number.

    Raises:
        TypeError: `units` or `other` is neither bytes nor a buffer of bytes or of units of 32 bits.
        ValueError: an incomplete unit is at the end of one of them.

    >>> utf32_compare_code_points("😀".encode("utf-32-le"), "Ａ".encode("utf-32-le"))
    1
    """
    return _compare_code_points32(*_elements(units, 4), *_elements(other, 4))


def utf16_to_utf8(units: _Readable) -> bytes:
    r"""Converts well-formed UTF-16 to UTF-8.

    Raises:
        Fault: the units are ill-formed. Its `offset` is that of the first ill-formed unit, in units.
        TypeError: `units` is neither bytes nor a buffer of bytes or of units of 16 bits.
        ValueError: an incomplete unit is at the end.

    >>> utf16_to_utf8("Hi😀".encode("utf-16-le")).decode()
    'Hi😀'
    >>> utf16_to_utf8(b"H\x00\x00\xdc")
    Traceback (most recent call last):
    ...
    widestring.Fault: ill-formed at offset 1
    """
    return _utf16_to_utf8.strict(units, _first_fault16)


def utf32_to_utf8(units: _Readable) -> bytes:
    """Converts well-formed UTF-32 to UTF-8.

    Raises:
        Fault: a unit is not a scalar value. Its `offset` is that of the first one, in units.
        TypeError: `units` is neither bytes nor a buffer of bytes or of units of 32 bits.
        ValueError: an incomplete unit is at the end.

    >>> utf32_to_utf8("Hi😀".encode("utf-32-le")).decode()
    'Hi😀'
    """
    return _utf32_to_utf8.strict(units, _first_fault32)


def utf8_to_utf16(text: _Readable) -> bytes:
    r"""Converts well-formed UTF-8 to UTF-16.

    Raises:
        Fault: the text is ill-formed. Its `offset` is that of the first ill-formed sequence, in bytes.
        TypeError: `text` is neither bytes nor a buffer of bytes.

    >>> utf8_to_utf16(b"Hi")
    b'H\x00i\x00'
    >>> utf8_to_utf16(b"H\xff")
    Traceback (most recent call last):
    ...
    widestring.Fault: ill-formed at offset 1
    """
    return _utf8_to_utf16.strict(text, _first_fault8)


def utf8_to_utf32(text: _Readable) -> bytes:
    r"""Converts well-formed UTF-8 to UTF-32.

    Raises:
        Fault: the text is ill-formed. Its `offset` is that of the first ill-formed sequence, in bytes.
        TypeError: `text` is neither bytes nor a buffer of bytes.

    >>> utf8_to_utf32(b"H")
    b'H\x00\x00\x00'
    """
    return _utf8_to_utf32.strict(text, _first_fault8)


def utf16_to_utf32(units: _Readable) -> bytes:
    r"""Converts well-formed UTF-16 to UTF-32.

    Raises:
        Fault: the units are ill-formed. Its `offset` is that of the first ill-formed unit, in units.
        TypeError: `units` is neither bytes nor a buffer of bytes or of units of 16 bits.
        ValueError: an incomplete unit is at the end.

    >>> units = "😀".encode("utf-16-le") + b"\x00\xdc"
    >>> utf16_to_utf32(utf16_repair(units)).decode("utf-32-le")
    '😀�'
    """
    return _utf16_to_utf32.strict(units, _first_fault16)


def utf32_to_utf16(units: _Readable) -> bytes:
    """Converts well-formed UTF-32 to UTF-16.

    Raises:
        Fault: a unit is not a scalar value. Its `offset` is that of the first one, in units.
        TypeError: `units` is neither bytes nor a buffer of bytes or of units of 32 bits.
        ValueError: an incomplete unit is at the end.

    >>> utf32_to_utf16("😀".encode("utf-32-le")).decode("utf-16-le")
    '😀'
    """
    return _utf32_to_utf16.strict(units, _first_fault32)


def utf16_to_utf8_lossy(units: _Readable, policy: Lossy = Lossy.EACH) -> bytes:
    r"""Converts any UTF-16 to UTF-8, and replaces ill-formed units by the policy.

    Raises:
        TypeError: `units` is neither bytes nor a buffer of bytes or of units of 16 bits.
        ValueError: an incomplete unit is at the end, or `policy` is none of Lossy.

    >>> units = "Hi".encode("utf-16-le") + b"\x00\xdc\x00\xdc"
    >>> [utf16_to_utf8_lossy(units, policy).decode() for policy in Lossy]
    ['Hi��', 'Hi�', 'Hi']
    """
    return _utf16_to_utf8_lossy.lossy(units, Lossy(policy))


def utf32_to_utf8_lossy(units: _Readable, policy: Lossy = Lossy.EACH) -> bytes:
    """Converts any UTF-32 to UTF-8, and replaces units that are not scalar values by the policy.

    Raises:
        TypeError: `units` is neither bytes nor a buffer of bytes or of units of 32 bits.
        ValueError: an incomplete unit is at the end, or `policy` is none of Lossy.

    >>> import array
    >>> utf32_to_utf8_lossy(array.array("I", [0x48, 0x110000])).decode()
    'H�'
    """
    return _utf32_to_utf8_lossy.lossy(units, Lossy(policy))


def utf8_to_utf16_lossy(text: _Readable, policy: Lossy = Lossy.EACH) -> bytes:
    r"""Converts any bytes to UTF-16 under a policy. It replaces maximal subparts of ill-formed sequences: the longest
    prefix that begins a character of UTF-8 but does not continue as one, or a byte that begins none.

    Raises:
        TypeError: `text` is neither bytes nor a buffer of bytes.
        ValueError: `policy` is none of Lossy.

    >>> utf8_to_utf16_lossy(b"H\xf0\x9f\xff").decode("utf-16-le")
    'H��'
    """
    return _utf8_to_utf16_lossy.lossy(text, Lossy(policy))


def utf8_to_utf32_lossy(text: _Readable, policy: Lossy = Lossy.EACH) -> bytes:
    r"""Converts any bytes to UTF-32 under a policy. It replaces maximal subparts of ill-formed sequences: the longest
    prefix that begins a character of UTF-8 but does not continue as one, or a byte that begins none.

    Raises:
        TypeError: `text` is neither bytes nor a buffer of bytes.
        ValueError: `policy` is none of Lossy.

    >>> utf8_to_utf32_lossy(b"H\xf0\x9f\xff", Lossy.RUN).decode("utf-32-le")
    'H�'
    """
    return _utf8_to_utf32_lossy.lossy(text, Lossy(policy))


def utf16_repair(units: _Readable) -> bytes:
    r"""Copies UTF-16, and replaces each ill-formed unit by U+FFFD. The result has as many units as the input.

    Raises:
        TypeError: `units` is neither bytes nor a buffer of bytes or of units of 16 bits.
        ValueError: an incomplete unit is at the end.

    >>> utf16_repair(b"H\x00\x00\xdc").decode("utf-16-le")
    'H�'
    """
    return _utf16_repair.lossy(units)


def utf32_repair(units: _Readable) -> bytes:
    """Copies UTF-32, and replaces each unit that is not a scalar value by U+FFFD. The result has as many units as the
    input.

    Raises:
        TypeError: `units` is neither bytes nor a buffer of bytes or of units of 32 bits.
        ValueError: an incomplete unit is at the end.

    >>> import array
    >>> utf32_repair(array.array("I", [0x48, 0x110000])).decode("utf-32-le")
    'H�'
    """
    return _utf32_repair.lossy(units)


def utf16_to_ascii_lowercase(units: _Readable) -> bytes:
    """Copies UTF-16, and writes each ASCII letter in lower case. All other units are copied as they are, also
    ill-formed ones. The result has as many units as the input.

    Raises:
        TypeError: `units` is neither bytes nor a buffer of bytes or of units of 16 bits.
        ValueError: an incomplete unit is at the end.

    >>> utf16_to_ascii_lowercase("HI Ä".encode("utf-16-le")).decode("utf-16-le")
    'hi Ä'
    """
    return _utf16_to_ascii_lowercase.lossy(units)


def utf32_to_ascii_lowercase(units: _Readable) -> bytes:
    """Copies UTF-32, and writes each ASCII letter in lower case. All other units are copied as they are, also those
    that are not scalar values. The result has as many units as the input.

    Raises:
        TypeError: `units` is neither bytes nor a buffer of bytes or of units of 32 bits.
        ValueError: an incomplete unit is at the end.

    >>> utf32_to_ascii_lowercase("HI Ä".encode("utf-32-le")).decode("utf-32-le")
    'hi Ä'
    """
    return _utf32_to_ascii_lowercase.lossy(units)


def utf16_to_ascii_uppercase(units: _Readable) -> bytes:
    """Copies UTF-16, and writes each ASCII letter in upper case. All other units are copied as they are, also
    ill-formed ones. The result has as many units as the input.

    Raises:
        TypeError: `units` is neither bytes nor a buffer of bytes or of units of 16 bits.
        ValueError: an incomplete unit is at the end.

    >>> utf16_to_ascii_uppercase("Hi ä".encode("utf-16-le")).decode("utf-16-le")
    'HI ä'
    """
    return _utf16_to_ascii_uppercase.lossy(units)


def utf32_to_ascii_uppercase(units: _Readable) -> bytes:
    """Copies UTF-32, and writes each ASCII letter in upper case. All other units are copied as they are, also those
    that are not scalar values. The result has as many units as the input.

    Raises:
        TypeError: `units` is neither bytes nor a buffer of bytes or of units of 32 bits.
        ValueError: an incomplete unit is at the end.

    >>> utf32_to_ascii_uppercase("Hi ä".encode("utf-32-le")).decode("utf-32-le")
    'HI ä'
    """
    return _utf32_to_ascii_uppercase.lossy(units)


def utf16_bytes_order(data: _Readable) -> Optional[Order]:
    r"""Returns the byte order of the byte order mark (BOM) at the start of UTF-16 in bytes, or None if there is none.
    The two bytes of the BOM do not belong to the text.

    Raises:
        TypeError: `data` is neither bytes nor a buffer of bytes.

    >>> data = b"\xfe\xff\x00H\x00i"
    >>> utf16_bytes_order(data)
    <Order.BIG: 1>
    >>> utf16_bytes_to_utf8(data[2:], Order.BIG)
    b'Hi'
    """
    number = _utf16_bytes_order(*_elements(data, 1))
    return Order(number) if number < 2 else None


def utf16_bytes_complete(data: _Readable, order: Order) -> int:
    r"""Returns how many bytes at the start are whole units whose meaning no later bytes can change: all whole units,
    except a last high surrogate. At most three bytes follow them.

    Raises:
        TypeError: `data` is neither bytes nor a buffer of bytes.
        ValueError: `order` is none of Order.

    >>> utf16_bytes_complete(b"H\x00\x3d\xd8", Order.LITTLE)
    2
    >>> utf16_bytes_complete(b"H\x00\x3d\xd8\x00\xde", Order.LITTLE)
    6
    """
    return _utf16_bytes_complete(*_elements(data, 1), Order(order))


def utf16_bytes_first_fault(data: _Readable, order: Order) -> Optional[int]:
    r"""Returns the offset, in units, of the first ill-formed unit of UTF-16 in this byte order, or None if there is
    none. An odd last byte is ignored.

    Raises:
        TypeError: `data` is neither bytes nor a buffer of bytes.
        ValueError: `order` is none of Order.

    >>> utf16_bytes_first_fault(b"\x00H\xdc\x00", Order.BIG)
    1
    """
    data, length = _elements(data, 1)
    offset = _utf16_bytes_first_fault(data, length, Order(order))
    return None if offset == length // 2 else offset


def utf16_bytes_end_in_fault(data: _Readable, order: Order, after_fault: bool = False) -> bool:
    r"""Returns whether the last whole unit is ill-formed. If there are no whole units, returns `after_fault`, which
    says whether the unit before the bytes is ill-formed. utf16_bytes_to_utf8_lossy takes the result for the next chunk.

    Raises:
        TypeError: `data` is neither bytes nor a buffer of bytes.
        ValueError: `order` is none of Order.

    >>> utf16_bytes_end_in_fault(b"H\x00\x00\xdc", Order.LITTLE)
    True
    """
    return _utf16_bytes_end_in_fault(*_elements(data, 1), Order(order), bool(after_fault)) != 0


def utf16_bytes_to_utf8(data: _Readable, order: Order) -> bytes:
    r"""Converts well-formed UTF-16 in this byte order to UTF-8. A BOM is converted as the character U+FEFF.

    Raises:
        Fault: the units are ill-formed, or the number of bytes is odd. Its `offset` is that of the first ill-formed
            unit, in units, or else the number of whole units.
        TypeError: `data` is neither bytes nor a buffer of bytes.
        ValueError: `order` is none of Order.

    >>> utf16_bytes_to_utf8(b"\x00H\x00i", Order.BIG)
    b'Hi'
    >>> utf16_bytes_to_utf8(b"\x00H\x00", Order.BIG)
    Traceback (most recent call last):
    ...
    widestring.Fault: ill-formed at offset 1
    """
    data, length = _elements(data, 1)
    order = Order(order)
    needed = _utf16_bytes_to_utf8.call(data, length, order, None, 0)
    if needed == _NONE:
        raise Fault(_utf16_bytes_first_fault(data, length, order))
    return _utf16_bytes_to_utf8.write(data, length, needed, order)


def utf16_bytes_to_utf8_lossy(data: _Readable, order: Order, policy: Lossy = Lossy.EACH, after_fault: bool = False) -> bytes:
    r"""Converts the whole units of UTF-16 in this byte order to UTF-8, and replaces ill-formed units by the policy.
    `after_fault` says whether the unit before the bytes is ill-formed, so that a run of ill-formed units may cross
    chunks. An odd last byte is ignored, and a BOM is converted as the character U+FEFF. README.md shows how to read a
    stream.

    Raises:
        TypeError: `data` is neither bytes nor a buffer of bytes.
        ValueError: `order` is none of Order, or `policy` is none of Lossy.

    >>> data = b"\xdc\x00\x00H"
    >>> utf16_bytes_to_utf8_lossy(data, Order.BIG, Lossy.RUN).decode()
    '�H'
    >>> utf16_bytes_to_utf8_lossy(data, Order.BIG, Lossy.RUN, after_fault=True).decode()
    'H'
    """
    return _utf16_bytes_to_utf8_lossy.lossy(data, Order(order), Lossy(policy), bool(after_fault))


def utf8_fault_count(text: _Readable) -> int:
    r"""Returns the number of ill-formed sequences: maximal subparts, as utf8_to_utf16_lossy replaces them.

    Raises:
        TypeError: `text` is neither bytes nor a buffer of bytes.

    >>> utf8_fault_count(b"H\xf0\x9f\xff")
    2
    """
    return _fault_count8(*_elements(text, 1))


def utf16_fault_count(units: _Readable) -> int:
    r"""Returns the number of ill-formed units.

    Raises:
        TypeError: `units` is neither bytes nor a buffer of bytes or of units of 16 bits.
        ValueError: an incomplete unit is at the end.

    >>> utf16_fault_count(b"H\x00\x00\xdc\x00\xdc")
    2
    """
    return _fault_count16(*_elements(units, 2))


def utf32_fault_count(units: _Readable) -> int:
    """Returns the number of units that are not scalar values.

    Raises:
        TypeError: `units` is neither bytes nor a buffer of bytes or of units of 32 bits.
        ValueError: an incomplete unit is at the end.
    """
    return _fault_count32(*_elements(units, 4))


def utf8_is_ascii(text: _Readable) -> bool:
    """Returns whether all bytes are ASCII. An empty text is.

    Raises:
        TypeError: `text` is neither bytes nor a buffer of bytes.

    >>> utf8_is_ascii(b"Hi"), utf8_is_ascii("é".encode())
    (True, False)
    """
    return _is_ascii8(*_elements(text, 1)) != 0


def utf16_is_ascii(units: _Readable) -> bool:
    """Returns whether all units are ASCII. An empty text is.

    Raises:
        TypeError: `units` is neither bytes nor a buffer of bytes or of units of 16 bits.
        ValueError: an incomplete unit is at the end.

    >>> utf16_is_ascii("Hi".encode("utf-16-le"))
    True
    """
    return _is_ascii16(*_elements(units, 2)) != 0


def utf32_is_ascii(units: _Readable) -> bool:
    """Returns whether all units are ASCII. An empty text is.

    Raises:
        TypeError: `units` is neither bytes nor a buffer of bytes or of units of 32 bits.
        ValueError: an incomplete unit is at the end.
    """
    return _is_ascii32(*_elements(units, 4)) != 0


def utf16_floor_char_boundary(units: _Readable, offset: SupportsIndex) -> int:
    r"""Returns the greatest offset, in units, that is at most `offset` and at most the length, and that does not split
    a surrogate pair.

    Raises:
        TypeError: `units` is neither bytes nor a buffer of bytes or of units of 16 bits, or `offset` is not an integer.
        ValueError: an incomplete unit is at the end, or `offset` is negative.

    >>> utf16_floor_char_boundary("H😀".encode("utf-16-le"), 2)
    1
    """
    data, length = _elements(units, 2)
    offset = operator.index(offset)
    if offset < 0:
        raise ValueError("a negative offset")
    return _floor_char_boundary16(data, length, min(offset, length))


def utf16_to_utf32_lossy(units: _Readable, policy: Lossy = Lossy.EACH) -> bytes:
    r"""Converts any UTF-16 to UTF-32, and replaces ill-formed units by the policy.

    Raises:
        TypeError: `units` is neither bytes nor a buffer of bytes or of units of 16 bits.
        ValueError: an incomplete unit is at the end, or `policy` is none of Lossy.

    >>> utf16_to_utf32_lossy(b"H\x00\x00\xdc").decode("utf-32-le")
    'H�'
    """
    return _utf16_to_utf32_lossy.lossy(units, Lossy(policy))


def utf32_to_utf16_lossy(units: _Readable, policy: Lossy = Lossy.EACH) -> bytes:
    """Converts any UTF-32 to UTF-16, and replaces units that are not scalar values by the policy.

    Raises:
        TypeError: `units` is neither bytes nor a buffer of bytes or of units of 32 bits.
        ValueError: an incomplete unit is at the end, or `policy` is none of Lossy.

    >>> import array
    >>> utf32_to_utf16_lossy(array.array("I", [0x48, 0x110000])).decode("utf-16-le")
    'H�'
    """
    return _utf32_to_utf16_lossy.lossy(units, Lossy(policy))


def wtf8_first_fault(text: _Readable) -> Optional[int]:
    r"""Returns the offset, in bytes, of the first fault of WTF-8, or None if there is none: an ill-formed sequence of
    UTF-8 that is no surrogate, or the second half of a surrogate pair whose halves are written apart.

    Raises:
        TypeError: `text` is neither bytes nor a buffer of bytes.

    >>> wtf8_first_fault(b"\xed\xa0\x80") is None
    True
    >>> wtf8_first_fault(b"H\xff")
    1
    """
    return _offset(_wtf8_first_fault, text, 1)


def utf16_to_wtf8(units: _Readable) -> bytes:
    r"""Converts any UTF-16 to WTF-8, which keeps each unit.

    Raises:
        TypeError: `units` is neither bytes nor a buffer of bytes or of units of 16 bits.
        ValueError: an incomplete unit is at the end.

    >>> utf16_to_wtf8(b"H\x00\x00\xd8")
    b'H\xed\xa0\x80'
    """
    return _utf16_to_wtf8.lossy(units)


def wtf8_to_utf16(text: _Readable) -> bytes:
    r"""Converts WTF-8 to the units of UTF-16 that it was made of, well formed or not.

    Raises:
        Fault: the text is not WTF-8. Its `offset` is that of the first fault, in bytes.
        TypeError: `text` is neither bytes nor a buffer of bytes.

    >>> wtf8_to_utf16(b"H\xed\xa0\x80")
    b'H\x00\x00\xd8'
    """
    return _wtf8_to_utf16.strict(text, _wtf8_first_fault)


def _from_bytes(conversion: _Conversion, data: _Readable, order: Order) -> bytes:
    data, length = _elements(data, 1)
    if length % conversion.result_width:
        raise ValueError("an incomplete unit is at the end")
    return conversion.write(data, length, length // conversion.result_width, Order(order))


def _to_bytes(conversion: _Conversion, units: _Readable, order: Order) -> bytes:
    data, length = _elements(units, conversion.width)
    return conversion.write(data, length, length * conversion.width, Order(order))


def utf16_from_bytes(data: _Readable, order: Order) -> bytes:
    r"""Returns the units of UTF-16 in this byte order, well formed or not, in the order of the machine.

    Raises:
        TypeError: `data` is neither bytes nor a buffer of bytes.
        ValueError: an incomplete unit is at the end, or `order` is none of Order.

    >>> utf16_from_bytes(b"\x00H\xdc\x00", Order.BIG)
    b'H\x00\x00\xdc'
    """
    return _from_bytes(_utf16_from_bytes, data, order)


def utf32_from_bytes(data: _Readable, order: Order) -> bytes:
    r"""Returns the units of UTF-32 in this byte order, of any value, in the order of the machine.

    Raises:
        TypeError: `data` is neither bytes nor a buffer of bytes.
        ValueError: an incomplete unit is at the end, or `order` is none of Order.

    >>> utf32_from_bytes(b"\x00\x00\x00H", Order.BIG)
    b'H\x00\x00\x00'
    """
    return _from_bytes(_utf32_from_bytes, data, order)


def utf16_to_bytes(units: _Readable, order: Order) -> bytes:
    r"""Returns the bytes of units of UTF-16 in this byte order. The units may have any values.

    Raises:
        TypeError: `units` is neither bytes nor a buffer of bytes or of units of 16 bits.
        ValueError: an incomplete unit is at the end, or `order` is none of Order.

    >>> utf16_to_bytes(b"H\x00", Order.BIG)
    b'\x00H'
    """
    return _to_bytes(_utf16_to_bytes, units, order)


def utf32_to_bytes(units: _Readable, order: Order) -> bytes:
    r"""Returns the bytes of units of UTF-32 in this byte order. The units may have any values.

    Raises:
        TypeError: `units` is neither bytes nor a buffer of bytes or of units of 32 bits.
        ValueError: an incomplete unit is at the end, or `order` is none of Order.

    >>> utf32_to_bytes(b"H\x00\x00\x00", Order.BIG)
    b'\x00\x00\x00H'
    """
    return _to_bytes(_utf32_to_bytes, units, order)


def utf16_swap_bytes(units: _Readable) -> bytes:
    r"""Copies UTF-16, and reverses the order of the bytes in each unit.

    Raises:
        TypeError: `units` is neither bytes nor a buffer of bytes or of units of 16 bits.
        ValueError: an incomplete unit is at the end.

    >>> utf16_swap_bytes(b"H\x00i\x00")
    b'\x00H\x00i'
    """
    return _utf16_swap_bytes.lossy(units)


def utf32_swap_bytes(units: _Readable) -> bytes:
    r"""Copies UTF-32, and reverses the order of the bytes in each unit.

    Raises:
        TypeError: `units` is neither bytes nor a buffer of bytes or of units of 32 bits.
        ValueError: an incomplete unit is at the end.

    >>> utf32_swap_bytes(b"H\x00\x00\x00")
    b'\x00\x00\x00H'
    """
    return _utf32_swap_bytes.lossy(units)


def _repair_in_place(call: _Call, buffer: _Writable, width: int) -> int:
    with memoryview(buffer) as view:
        if view.readonly or not view.c_contiguous or not _is_read_as(width, view):
            raise TypeError(f"a writable buffer of bytes or of units of {width} bytes, one after another, is required")
        if view.nbytes % width:
            raise ValueError("an incomplete unit is at the end")
        if not view.nbytes:
            return 0
        space = (ctypes.c_char * view.nbytes).from_buffer(buffer)
        return call(ctypes.cast(space, ctypes.c_char_p), view.nbytes // width)


def utf16_repair_in_place(buffer: _Writable) -> int:
    r"""Replaces each ill-formed unit of UTF-16 by U+FFFD in a writable buffer, such as a bytearray, and returns how
    many units were replaced.

    Raises:
        TypeError: `buffer` is no writable buffer of bytes or of units of 16 bits, one after another.
        ValueError: an incomplete unit is at the end.

    >>> units = bytearray(b"H\x00\x00\xdc")
    >>> utf16_repair_in_place(units), units.decode("utf-16-le")
    (1, 'H�')
    """
    return _repair_in_place(_repair_in_place16, buffer, 2)


def utf32_repair_in_place(buffer: _Writable) -> int:
    """Replaces each unit of UTF-32 that is not a scalar value by U+FFFD in a writable buffer, such as an array, and
    returns how many units were replaced.

    Raises:
        TypeError: `buffer` is no writable buffer of bytes or of units of 32 bits, one after another.
        ValueError: an incomplete unit is at the end.

    >>> import array
    >>> units = array.array("I", [0x48, 0x110000])
    >>> utf32_repair_in_place(units), units[1] == 0xFFFD
    (1, True)
    """
    return _repair_in_place(_repair_in_place32, buffer, 4)


class _State(ctypes.Structure):
    """A converter as the library has it."""

    _fields_ = [
        *((name, _SIZE) for name in ("read", "kept")),
        *((name, ctypes.c_uint64) for name in ("bytes", "items", "faults", "fault_offset", "fault_item")),
        *((name, _U32) for name in ("fault_unit", "end", "from_", "to", "policy", "layout", "keeps", "after_high", "after_fault", "bom")),
        ("bom_length", _SIZE),
        ("unread", ctypes.c_uint8 * 4),
    ]


class Converter:
    r"""Converts a text from one encoding scheme to another, in pieces of any lengths. What it writes does not depend on
    them. Without a policy, ill-formed text is a Fault, whose `offset` counts the bytes of the whole text.

    With `bom`, a byte order mark is written before the text.

    Raises:
        ValueError: `source` or `target` is none of Scheme, or `policy` none of Lossy.

    >>> converter = Converter(Scheme.UTF16LE, Scheme.UTF8, Lossy.EACH)
    >>> converter.convert(b"H\x00\x3d"), converter.convert(b"\xd8\x00\xde\x00\xdc", final=True).decode()
    (b'H', '😀�')
    >>> converter.items, converter.faults
    (3, 1)
    """

    def __init__(self, source: Scheme, target: Scheme, policy: Optional[Lossy] = None, bom: bool = False) -> None:
        self._start = Scheme(source), Scheme(target), _STRICT if policy is None else Lossy(policy), bool(bom)
        self.reset()

    def reset(self) -> None:
        """Begins a new text."""
        self._state = _State()
        if not _convert_start(ctypes.byref(self._state), *self._start):
            raise SystemError("the library of widestring has other numbers of schemes")

    def convert(self, data: _Readable, final: bool = False) -> builtins.bytes:
        r"""Converts the next bytes of the text, which may end anywhere, and returns what is written for the characters
        that they complete. With `final` these are the last ones.

        Raises:
            Fault: there is no policy, and the text is ill-formed, or the last bytes are part of a unit. What precedes
                the fault in this piece is lost. After it, the next call goes on with the bytes given to it.
            TypeError: `data` is neither bytes nor a buffer of bytes.

        >>> Converter(Scheme.UTF8, Scheme.UTF32BE).convert(b"H")
        b'\x00\x00\x00H'
        """
        data, length = _elements(data, 1)
        texts = [self._push(data[at : at + _PIECE], bool(final) and at + _PIECE >= length) for at in range(0, max(length, 1), _PIECE)]
        if final and self._state.kept and self._start[2] == _STRICT:
            raise Fault(self._state.bytes)
        return b"".join(texts)

    def _push(self, piece: builtins.bytes, is_last: bool) -> builtins.bytes:
        """Converts a few bytes."""
        state, texts = self._state, []
        while True:
            space = _buffer(_SPACE, 1)
            written = _convert_push(ctypes.byref(state), piece, len(piece), is_last, space, _SPACE)
            if written == _NONE:
                raise SystemError("the library of widestring does not know its converter")
            texts.append(space[:written])
            if state.end == _AT_FAULT:
                raise Fault(state.fault_offset)
            if state.end == _NEEDS_INPUT:
                return b"".join(texts)
            piece = piece[state.read :]

    @property
    def bytes(self) -> int:
        """How many bytes of the text were converted."""
        return int(self._state.bytes)

    @property
    def items(self) -> int:
        """How many items, characters and faults, these bytes are. A BOM that is dropped is none."""
        return int(self._state.items)

    @property
    def faults(self) -> int:
        """How many of the items are ill-formed sequences, which the policy replaced."""
        return int(self._state.faults)

    @property
    def kept(self) -> int:
        """How many bytes were given that are no item so far, at most four."""
        return int(self._state.kept)


# The policies that stand for the handlers of errors of Python's codecs.
_HANDLERS = {"strict": None, "replace": Lossy.EACH, "ignore": Lossy.SKIP}


def _policy_of(errors: Union[str, Lossy]) -> Optional[Lossy]:
    """Returns the policy that a handler of errors, or one of Lossy, stands for."""
    if isinstance(errors, Lossy):
        return errors
    if errors not in _HANDLERS:
        raise ValueError(f"errors are strict, replace, ignore or one of Lossy, not {errors!r}")
    return _HANDLERS[errors]


class IncrementalDecoder(codecs.IncrementalDecoder):
    r"""Decodes bytes of an encoding scheme to `str`, in pieces, as the class of the same name in `codecs`.

    `errors` is 'strict', which raises Fault, 'replace', 'ignore' or one of Lossy. From WTF-8, surrogates that belong to
    no pair become those of `str`.

    >>> decoder = IncrementalDecoder(Scheme.UTF16)
    >>> decoder.decode(b"\xfe\xff\xd8\x3d"), decoder.decode(b"\xde\x00", final=True)
    ('', '😀')
    """

    def __init__(self, scheme: Scheme, errors: Union[str, Lossy] = "strict") -> None:
        super().__init__(errors)  # type: ignore[arg-type]
        self._is_wtf8 = Scheme(scheme) == Scheme.WTF8
        self._converter = Converter(scheme, Scheme.WTF8 if self._is_wtf8 else Scheme.UTF8, _policy_of(errors))

    def decode(self, input: _Readable, final: bool = False) -> str:
        """Returns the characters that the next bytes complete."""
        return self._converter.convert(input, final).decode("utf-8", "surrogatepass" if self._is_wtf8 else "strict")

    def reset(self) -> None:
        """Begins a new text."""
        self._converter.reset()

    def getstate(self) -> Tuple[bytes, int]:
        """Returns the state, which setstate sets again: nothing that was read has to be given again."""
        return b"", int.from_bytes(bytes(self._converter._state), sys.byteorder)

    def setstate(self, state: Tuple[bytes, int]) -> None:
        """Sets a state that getstate returned, or that of the beginning, which is (b"", 0)."""
        if state[1] == 0:
            self.reset()
        else:
            self._converter._state = _State.from_buffer_copy(state[1].to_bytes(ctypes.sizeof(_State), sys.byteorder))


class IncrementalEncoder(codecs.IncrementalEncoder):
    r"""Encodes `str` in an encoding scheme, in pieces, as the class of the same name in `codecs`. With `bom`, a byte
    order mark is written before the text.

    `errors` is 'strict', which raises Fault at a surrogate, 'replace', 'ignore' or one of Lossy. To UTF-16 and WTF-8
    surrogates are kept.

    >>> encoder = IncrementalEncoder(Scheme.UTF16BE, bom=True)
    >>> encoder.encode("H"), encoder.encode("i", final=True)
    (b'\xfe\xff\x00H', b'\x00i')
    """

    def __init__(self, scheme: Scheme, errors: Union[str, Lossy] = "strict", bom: bool = False) -> None:
        super().__init__(errors)  # type: ignore[arg-type]
        self._converter = Converter(Scheme.WTF8, scheme, _policy_of(errors), bom)

    def encode(self, input: str, final: bool = False) -> bytes:
        """Returns the bytes of the next characters."""
        return self._converter.convert(input.encode("utf-8", "surrogatepass"), final)

    def reset(self) -> None:
        """Begins a new text."""
        self._converter.reset()
