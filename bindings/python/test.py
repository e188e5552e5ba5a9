"""Tests the package widestring against Python's own codecs: `test.py COUNT SEED [LIBRARY..]`, with COUNT random texts of each
kind. The module must reject each LIBRARY."""

import array
import codecs
import ctypes
import itertools
import mmap
import os
import random
import re
import subprocess
import sys

import widestring
from widestring import Converter, IncrementalDecoder, IncrementalEncoder, Lossy, Order, Scheme

# The item of a fault in a text of this test: a surrogate, which no well-formed text has.
FAULT = "\udfff"
codecs.register_error("surrogate", lambda error: (FAULT, error.end))


def items_of(data, name):
    """Returns the text of the bytes, with a surrogate for each fault."""
    if name == "utf-8":
        return data.decode("utf-8", "surrogate")
    if name == "utf-16-le":
        return data.decode("utf-16-le", "surrogatepass")
    return "".join(chr(unit) if unit < 0x110000 else FAULT for unit in array.array("I", data))


def lossy_of(items, policy):
    pattern, given = {Lossy.EACH: ("", "\ufffd"), Lossy.RUN: ("+", "\ufffd"), Lossy.SKIP: ("", "")}[policy]
    return re.sub(f"[\ud800-\udfff]{pattern}", given, items)


def equal(call, result, wanted):
    if result != wanted:
        sys.exit(f"{call}: {result!r} instead of {wanted!r}")


def check_strict(call, data, text, name, offset):
    """Checks that a strict conversion returns the text in another encoding, or reports the offset of the fault."""
    try:
        result, reported = call(data), None
    except widestring.Fault as fault:
        result, reported = None, fault.offset
        equal("the text of a Fault", str(fault), f"ill-formed at offset {offset}")
    equal(call.__name__, result, text.encode(name) if offset is None else None)
    equal(call.__name__, reported, offset)


def check_lossy(call, data, items, name):
    for policy in Lossy:
        equal(call.__name__, call(data, policy), lossy_of(items, policy).encode(name))


def count_of(items, offset):
    return len(items) if offset is None else None


def fault_item(items):
    found = re.search("[\ud800-\udfff]", items)
    return found and found.start()


def check_utf8(data):
    items = items_of(data, "utf-8")
    offset = None
    try:
        data.decode("utf-8")
    except UnicodeDecodeError as error:
        offset = error.start
    equal("utf8_first_fault", widestring.utf8_first_fault(data), offset)
    equal("utf8_char_count", widestring.utf8_char_count(data), count_of(items, offset))
    check_strict(widestring.utf8_to_utf16, data, items, "utf-16-le", offset)
    check_strict(widestring.utf8_to_utf32, data, items, "utf-32-le", offset)
    check_lossy(widestring.utf8_to_utf16_lossy, data, items, "utf-16-le")
    check_lossy(widestring.utf8_to_utf32_lossy, data, items, "utf-32-le")


def offset_of(units, needle):
    """Returns the first offset of a needle in a list of units, or None."""
    spans = range(len(units) - len(needle) + 1)
    return next((at for at in spans if units[at : at + len(needle)] == needle), None)


def last_offset_of(units, needle):
    """Returns the last offset of a needle in a list of units, or None."""
    spans = range(len(units) - len(needle), -1, -1)
    return next((at for at in spans if units[at : at + len(needle)] == needle), None)


def check_searches(width, units):
    calls = vars(widestring)
    needle = units[random.randrange(len(units) + 1) :][: random.randrange(6)]
    unit = needle[0] if needle else 0x7A
    equal("find", calls[f"utf{width}_find"](units, needle), offset_of(units, needle))
    equal("rfind", calls[f"utf{width}_rfind"](units, needle), last_offset_of(units, needle))
    equal("find_unit", calls[f"utf{width}_find_unit"](units, unit), offset_of(units, array.array(units.typecode, [unit])))
    equal("first_nul", calls[f"utf{width}_first_nul"](units), offset_of(units, array.array(units.typecode, [0])))


def in_case(units, first):
    """Returns the units with each ASCII letter in lower case, if `first` is ord("A"), or in upper case, if it is
    ord("a")."""
    return array.array(units.typecode, [unit ^ 0x20 if first <= unit < first + 26 else unit for unit in units])


def with_other_letters(units):
    """Returns the units with the case of some letters changed, and in some cases one other unit."""
    changed = array.array(units.typecode, [unit ^ 0x20 if 0x61 <= unit | 0x20 <= 0x7A and random.random() < 0.5 else unit for unit in units])
    if changed and random.random() < 0.3:
        changed[random.randrange(len(changed))] ^= 0x20
    return changed


def check_case(width, units):
    """Checks searches and comparisons without regard to case, and the functions that write letters in the other
    case."""
    calls = vars(widestring)
    lower = in_case(units, ord("A"))
    needle = with_other_letters(units[random.randrange(len(units) + 1) :][: random.randrange(6)])
    equal("find_ignore_ascii_case", calls[f"utf{width}_find_ignore_ascii_case"](units, needle), offset_of(lower, in_case(needle, ord("A"))))
    for other in (needle, with_other_letters(units)):
        equal("eq_ignore_ascii_case", calls[f"utf{width}_eq_ignore_ascii_case"](units, other), lower == in_case(other, ord("A")))
    equal("to_ascii_lowercase", calls[f"utf{width}_to_ascii_lowercase"](units), lower.tobytes())
    equal("to_ascii_uppercase", calls[f"utf{width}_to_ascii_uppercase"](units), in_case(units, ord("a")).tobytes())


def code_points_of(units):
    """Returns the code points of UTF-16, of which a surrogate is one, or the numbers of UTF-32."""
    return units.tolist() if units.itemsize == 4 else [ord(c) for c in units.tobytes().decode("utf-16-le", "surrogatepass")]


def check_order(width, units):
    """Checks comparisons with a text that differs from some unit on, or does not."""
    other = units[: random.randrange(len(units) + 1)]
    if random.random() < 0.5:
        other.append(random.choice([0xD83D, 0xDE00, 0xE000, random.randrange(0x10000)]))
    if random.random() < 0.5:
        other.extend(units[len(other) :])
    left, right = code_points_of(units), code_points_of(other)
    equal("compare_code_points", vars(widestring)[f"utf{width}_compare_code_points"](units, other), (left > right) - (left < right))


def check_units(width, units):
    check_searches(width, units)
    check_case(width, units)
    check_order(width, units)


def check_utf16(data):
    items = items_of(data, "utf-16-le")
    item = fault_item(items)
    offset = None if item is None else len(items[:item].encode("utf-16-le")) // 2
    equal("utf16_first_fault", widestring.utf16_first_fault(data), offset)
    equal("utf16_first_fault_item", widestring.utf16_first_fault_item(data), item)
    equal("utf16_char_count", widestring.utf16_char_count(data), count_of(items, offset))
    equal("utf16_repair", widestring.utf16_repair(data), lossy_of(items, Lossy.EACH).encode("utf-16-le"))
    equal("replace", widestring.utf16_to_utf8_lossy(data), data.decode("utf-16-le", "replace").encode())
    check_strict(widestring.utf16_to_utf8, data, items, "utf-8", offset)
    check_strict(widestring.utf16_to_utf32, data, items, "utf-32-le", offset)
    check_lossy(widestring.utf16_to_utf8_lossy, data, items, "utf-8")
    check_units(16, array.array("H", data))
    check_bytes(data)


def check_bytes(units):
    """Checks the functions for UTF-16 in bytes of either order, with or without half a unit at the end, in one chunk
    and in two, the second of which starts with the bytes that the first left."""
    items = items_of(units, "utf-16-le")
    order = random.choice(list(Order))
    whole = array.array("H", units)
    if order == Order.BIG:
        whole.byteswap()
    data = whole.tobytes() + b"a" * random.randrange(2)
    item = fault_item(items)
    offset = None if item is None else len(items[:item].encode("utf-16-le")) // 2
    equal("utf16_bytes_first_fault", widestring.utf16_bytes_first_fault(data, order), offset)
    is_high = units[-1:] != b"" and units[-1] >> 2 == 0x36
    equal("utf16_bytes_complete", widestring.utf16_bytes_complete(data, order), len(units) - 2 * is_high)
    equal("utf16_bytes_end_in_fault", widestring.utf16_bytes_end_in_fault(data, order, True), items == "" or "\ud800" <= items[-1] <= "\udfff")
    bom = (codecs.BOM_UTF16_LE, codecs.BOM_UTF16_BE)[order]
    equal("utf16_bytes_order", (widestring.utf16_bytes_order(bom + data), widestring.utf16_bytes_order(b"ab")), (order, None))
    is_valid = offset is None and len(data) == len(units)
    try:
        result = widestring.utf16_bytes_to_utf8(data, order)
    except widestring.Fault as fault:
        equal("utf16_bytes_to_utf8", (is_valid, fault.offset), (False, len(units) // 2 if offset is None else offset))
    else:
        equal("utf16_bytes_to_utf8", (is_valid, result), (True, items.encode("utf-8", "replace")))
    prefix = data[: widestring.utf16_bytes_complete(data[: random.randrange(len(data) + 1)], order)]
    after = widestring.utf16_bytes_end_in_fault(prefix, order)
    for policy in Lossy:
        wanted = lossy_of(items, policy).encode()
        equal("utf16_bytes_to_utf8_lossy", widestring.utf16_bytes_to_utf8_lossy(data, order, policy), wanted)
        rest = widestring.utf16_bytes_to_utf8_lossy(data[len(prefix) :], order, policy, after)
        equal("utf16_bytes_to_utf8_lossy in chunks", widestring.utf16_bytes_to_utf8_lossy(prefix, order, policy) + rest, wanted)


def check_utf32(data):
    items = items_of(data, "utf-32-le")
    offset = fault_item(items)
    equal("utf32_first_fault", widestring.utf32_first_fault(data), offset)
    equal("utf32_first_fault_item", widestring.utf32_first_fault_item(data), offset)
    equal("utf32_char_count", widestring.utf32_char_count(data), count_of(items, offset))
    equal("utf32_repair", widestring.utf32_repair(data), lossy_of(items, Lossy.EACH).encode("utf-32-le"))
    check_strict(widestring.utf32_to_utf8, data, items, "utf-8", offset)
    check_strict(widestring.utf32_to_utf16, data, items, "utf-16-le", offset)
    check_lossy(widestring.utf32_to_utf8_lossy, data, items, "utf-8")
    check_units(32, array.array("I", data))


def random_text():
    bound = random.choice([0x80, 0x800, 0xD800, 0x110000])
    length = random.randrange(random.choice([20, 20, 20, 20, 20, 20, 150, 600]))
    numbers = [random.randrange(bound if random.random() < 0.3 else 0x80) for _ in range(length)]
    return "".join(chr(number) for number in numbers if not 0xD800 <= number < 0xE000)


def random_data(name, width):
    """Returns the bytes of a text; in every second case with units put in at random offsets."""
    data = bytearray(random_text().encode(name))
    if random.random() < 0.5:
        for _ in range(random.randrange(8)):
            at = width * random.randrange(len(data) // width + 1)
            wild = random.choice([random.randrange(0xD800, 0xE000), random.randrange(0x120000), random.getrandbits(32)])
            data[at : at + width * random.randrange(2)] = wild.to_bytes(4, "little")[:width]
    return bytes(data)


def must_raise(errors, call, *arguments):
    """Returns the error that the function raises, which must be one of `errors` and not a Fault."""
    try:
        result = call(*arguments)
    except errors as error:
        equal("an error that is no Fault", isinstance(error, widestring.Fault), False)
        return error
    sys.exit(f"{call.__name__}{arguments}: {result!r} instead of {errors}")


def check_rejected_arguments():
    """Checks that arguments that are not a text, a policy, a number, or a needle are rejected."""
    must_raise(ValueError, widestring.utf16_to_utf8, b"abc")
    must_raise(ValueError, widestring.utf32_first_fault, array.array("B", b"abcde"))
    must_raise(ValueError, widestring.utf16_to_utf8_lossy, b"", 3)
    for text in ("str", None, 7, ["a"]):
        must_raise(TypeError, widestring.utf8_first_fault, text)
        must_raise(TypeError, widestring.utf16_find_unit, text, -1)
        must_raise(TypeError, widestring.utf32_find, b"abcd", text)
        must_raise(TypeError, widestring.utf16_compare_code_points, b"ab", text)
        must_raise(TypeError, widestring.utf32_eq_ignore_ascii_case, text, b"abcd")
    for unit in (105.0, "i", b"i", None):
        must_raise(TypeError, widestring.utf16_find_unit, b"i\0", unit)
        must_raise(TypeError, widestring.utf32_find_unit, b"i\0\0\0", unit)
    equal("find_unit", widestring.utf16_find_unit(b"ab", 0x16261), None)
    equal("find_unit", widestring.utf32_find_unit(b"\xff\xff\xff\xff", -1), None)
    equal("find_unit", widestring.utf16_find_unit(b"\xff\xff", -1), None)
    equal("find_unit", widestring.utf32_find_unit(b"abcd", 1 << 64 | 0x64636261), None)
    equal("find_unit", widestring.utf16_find_unit(b"aabb", 0x6262), 1)


class LongBytes(bytes):
    """Bytes that report a greater length than they have."""

    length = 4096

    def __len__(self):
        return self.length

    def __getitem__(self, key):
        return bytes(self.length)

    def isascii(self):
        return True


class LongArray(bytearray):
    """A buffer that reports a greater length than it has."""

    def __len__(self):
        return 1 << 32


class Zero:
    """An object that converts to an integer by its own method."""

    def __index__(self):
        return 0x62


def check_lying_lengths():
    """Checks that a buffer is as long as its memory is, whatever its object reports."""
    for length in (4096, 1 << 32, 0, 1):
        LongBytes.length = length
        for data in (LongBytes(b"ab"), LongArray(b"ab"), memoryview(LongBytes(b"ab"))):
            equal("utf8_first_fault", widestring.utf8_first_fault(data), None)
            equal("utf8_char_count", widestring.utf8_char_count(data), 2)
            equal("utf8_to_utf16", widestring.utf8_to_utf16(data), b"a\0b\0")
            equal("utf8_to_utf16_lossy", widestring.utf8_to_utf16_lossy(data), b"a\0b\0")
            equal("utf16_find", widestring.utf16_find(data, data), 0)
            equal("utf16_bytes_to_utf8", widestring.utf16_bytes_to_utf8(data, Order.BIG), "\u6162".encode())
            equal("utf16_bytes_complete", widestring.utf16_bytes_complete(data, Order.LITTLE), 2)
            equal("repair", (widestring.utf16_repair(data), type(widestring.utf16_repair(data))), (b"ab", bytes))
    equal("find_unit", widestring.utf16_find_unit(b"a\0b\0", Zero()), 1)


def check_own_buffers():
    """Checks objects that provide a buffer by a method, as they may since Python 3.12."""

    class Given(bytes):
        released = 0

        def __buffer__(self, flags):
            return memoryview(array.array("H", [0x61, 0xD800]))

        def __release_buffer__(self, view):
            self.released += 1
            view.release()

    class Fails:
        def __buffer__(self, flags):
            raise BufferError("no buffer")

    class Wrong:
        def __buffer__(self, flags):
            return b"no view"

    given = Given(b"abcdefgh")
    equal("a buffer of a method", widestring.utf16_first_fault(given), 1 if sys.version_info >= (3, 12) else None)
    if sys.version_info >= (3, 12):
        equal("the release of a buffer", given.released, 1)
        must_raise(BufferError, widestring.utf8_first_fault, Fails())
        must_raise(TypeError, widestring.utf8_first_fault, Wrong())


def views_of(units):
    """Yields buffers of the units of UTF-16: of bytes, of units, with gaps, backwards and of two dimensions."""
    count, raw = len(units) // 2 * 2, units.tobytes()
    spread = array.array("H", [0xD800] * (2 * len(units)))
    spread[::2] = units
    yield from (units, bytearray(raw), array.array("B", raw), array.array("b", raw), memoryview(raw).cast("c"), memoryview(raw).cast("H"))
    yield from (memoryview(spread)[::2], memoryview(units[::-1])[::-1], (ctypes.c_uint16 * len(units))(*units))
    yield from ((ctypes.c_char * len(raw)).from_buffer_copy(raw), (ctypes.c_uint8 * len(raw))(*raw))
    if len(units) == count > 0:
        yield memoryview(raw).cast("B").cast("H", (2, count // 2))
        yield memoryview(raw).cast("B", (2, count))


def check_buffers():
    """Checks buffers that are text, also empty ones."""
    for text in ("", "Hi\U0001f600!", "ab" * 300, "\ufffd" * 77):
        data = text.encode("utf-16-le")
        for view in views_of(array.array("H", data)):
            equal(f"utf16_to_utf8 of {type(view)}", widestring.utf16_to_utf8(view), text.encode())
            equal("utf16_find", widestring.utf16_find(data, view), 0)
        raw = text.encode("utf-32-le")
        wide = array.array("I", raw)
        views = [wide, (ctypes.c_uint32 * len(wide))(*wide), (ctypes.c_wchar * len(wide))(*text), memoryview(raw).cast("I"), bytearray(raw)]
        views += [array.array("w" if sys.version_info >= (3, 13) else "u", text), memoryview(wide[::-1])[::-1]]
        for view in views:
            equal(f"utf32_to_utf8 of {type(view)}", widestring.utf32_to_utf8(view), text.encode())
    with mmap.mmap(-1, 4) as memory:
        memory[:] = b"a\0b\0"
        equal("utf16_to_utf8 of a map", widestring.utf16_to_utf8(memory), b"ab")
    released = memoryview(b"ab")
    released.release()
    must_raise(ValueError, widestring.utf8_first_fault, released)


def check_other_elements():
    """Checks that buffers whose elements are not units of the required size are rejected."""
    others = [array.array(code, [1, 2, 3, 4]) for code in "hilqQLfd"] + [(ctypes.c_uint16.__ctype_be__ * 2)(1, 2), (ctypes.c_bool * 4)()]
    others += [(ctypes.py_object * 2)("a", "b"), (ctypes.c_void_p * 2)(), memoryview(bytes(8)).cast("?"), (ctypes.c_int16 * 2)(1, 2)]
    for data in others:
        for call in (widestring.utf16_first_fault, widestring.utf32_first_fault, widestring.utf8_first_fault):
            must_raise(TypeError, call, data)
        must_raise(TypeError, widestring.utf16_bytes_to_utf8_lossy, data, Order.LITTLE)
    for call, code in ((widestring.utf16_repair, "I"), (widestring.utf32_repair, "H"), (widestring.utf8_to_utf16, "H"), (widestring.utf8_to_utf32, "I")):
        must_raise(TypeError, call, array.array(code, [0x61]))
    must_raise(TypeError, widestring.utf16_bytes_complete, array.array("H", [0x61]), Order.LITTLE)
    must_raise(TypeError, widestring.utf16_find, b"ab", array.array("d", [1.0]))
    must_raise(TypeError, widestring.utf16_first_fault, array.array("w" if sys.version_info >= (3, 13) else "u", "ab"))


def check_numpy():
    try:
        import numpy
    except ImportError:
        print("no numpy, so its arrays are left out")
        return
    for kind in ("<u2", "u1"):
        equal(f"numpy {kind}", widestring.utf16_to_utf8(numpy.frombuffer(b"a\0b\0", kind)), b"ab")
    equal("numpy <u4", widestring.utf32_to_utf8(numpy.array([0x61, 0x1F600], "<u4")), "a\U0001f600".encode())
    for data in (numpy.zeros(4, ">u2"), numpy.zeros(4, "i2"), numpy.zeros(4, "f8"), numpy.array(["a", None], object), numpy.zeros(4, "U1")):
        must_raise((TypeError, ValueError), widestring.utf16_first_fault, data)
    grid = numpy.array([[0x61, 0x62], [0x63, 0x64]], "<u2")
    equal("numpy, turned", widestring.utf16_to_utf8(grid.T), b"acbd")


def check_memory():
    """Checks that results are objects of their own, as nothing may be written into one that CPython shares, and that
    no length is truncated to its low bits."""
    for result in (widestring.utf8_to_utf16(b""), widestring.utf16_to_utf8_lossy(b"\0\xd8", Lossy.SKIP), widestring.utf16_bytes_to_utf8(b"", Order.BIG)):
        equal("an empty text", result, b"")
    equal("the empty object", (b"", len(bytes())), (b"".join([]), 0))
    for byte in range(0x80):
        shared = bytes([byte])
        result = widestring.utf16_to_utf8(bytes([byte, 0]))
        equal("a text of one byte", (result, shared, bytes([byte])), (bytes([byte]), byte.to_bytes(1, "little"), shared))
        equal("an object of its own", result is shared, False)
    new = [widestring._buffer(1, 1) for _ in range(2)]
    equal("two objects", new[0] is new[1] or any(one is bytes([one[0]]) for one in new), False)
    for count, width in ((1 << 64, 1), (1 << 62, 4), (1 << 63, 2), (sys.maxsize, 1), (sys.maxsize, 4), ((1 << 64) + 1, 1), (1 << 63, 1)):
        must_raise((MemoryError, OverflowError), widestring._buffer, count, width)


def import_error(**environment):
    """Returns what a new process reports if it imports the module: the type of the error, and its text."""
    script = "try:\n import widestring\nexcept Exception as error:\n print(type(error).__name__, error)"
    return subprocess.run([sys.executable, "-c", script], env={**os.environ, **environment}, check=True, capture_output=True, text=True).stdout


def check_imports(libraries):
    """Checks that the import fails without a library, with a file that is not one, and with libraries of another
    version or with no version, and that the message names the environment variable."""
    here = os.path.dirname(os.path.dirname(os.path.abspath(widestring.__file__)))
    for library in ("/nonexistent/libwidestring.so", os.devnull, os.path.abspath(__file__), "libno_such_library.so", *libraries):
        printed = import_error(WIDESTRING_LIBRARY=library, PYTHONPATH=here)
        equal(f"the import of {library}", (printed.split()[:1], "WIDESTRING_LIBRARY" in printed), (["ImportError"], True))


# Python's codecs for the schemes, as they are written.
CODECS = {
    Scheme.UTF8: "utf-8", Scheme.UTF16LE: "utf-16-le", Scheme.UTF16BE: "utf-16-be", Scheme.UTF16: "utf-16-le",
    Scheme.UTF32LE: "utf-32-le", Scheme.UTF32BE: "utf-32-be", Scheme.UTF32: "utf-32-le", Scheme.WTF8: "utf-8",
}


def random_text():
    choices = ("a", "\n", "\xe9", "\u20ac", "\U0001f600", "\U0010ffff", "\0")
    return "".join(random.choices(choices, k=random.randrange(12)))


def random_pieces(data):
    at = 0
    while at < len(data):
        end = at + random.randrange(5)
        yield data[at:end]
        at = end


def converted(converter, data):
    """Converts a text in random pieces, and an empty one at the end."""
    return b"".join([converter.convert(piece) for piece in random_pieces(data)]) + converter.convert(b"", final=True)


def check_schemes():
    """Checks conversions of text between two random schemes in random pieces, and as str."""
    source, target, text, bom = random.choice(list(Scheme)), random.choice(list(Scheme)), random_text(), random.random() < 0.5
    data, wanted = text.encode(CODECS[source]), ("\ufeff" * bom + text).encode(CODECS[target])
    policy = random.choice([None, *Lossy])
    converter = Converter(source, target, policy, bom)
    equal(f"{source!r} to {target!r}", converted(converter, data), wanted)
    equal("what was converted", (converter.bytes, converter.items, converter.faults, converter.kept), (len(data), len(text), 0, 0))
    decoder = IncrementalDecoder(source)
    given = []
    for piece in random_pieces(data):
        given.append(decoder.decode(piece))
        state = decoder.getstate()
        decoder = IncrementalDecoder(source)
        decoder.setstate(state)
    equal("decoded", "".join(given) + decoder.decode(b"", final=True), text)
    encoder = IncrementalEncoder(target, bom=bom)
    equal("encoded", b"".join([encoder.encode(character) for character in text]) + encoder.encode("", final=True), wanted if text or bom else b"")


def check_faults_in_pieces():
    """Checks lossy and strict conversions of bytes of UTF-8 with faults in random pieces."""
    data = random_data("utf-8", 1)
    items = items_of(data, "utf-8")
    for policy in Lossy:
        converter = Converter(Scheme.UTF8, Scheme.UTF16BE, policy)
        equal("lossy pieces", converted(converter, data), lossy_of(items, policy).encode("utf-16-be"))
        equal("replaced", converter.faults, items.count(FAULT))
    equal("utf8_fault_count", widestring.utf8_fault_count(data), items.count(FAULT))
    try:
        reported, _ = None, converted(Converter(Scheme.UTF8, Scheme.UTF8), data)
    except widestring.Fault as fault:
        reported = fault.offset
    equal("the first fault", reported, widestring.utf8_first_fault(data))


def check_units16(data):
    """Checks the calls on units of UTF-16 that have no strict form."""
    text = data.decode("utf-16-le", "surrogatepass")
    wtf8 = text.encode("utf-8", "surrogatepass")
    equal("utf16_to_wtf8", widestring.utf16_to_wtf8(data), wtf8)
    equal("wtf8_to_utf16", widestring.wtf8_to_utf16(wtf8), data)
    equal("wtf8_first_fault", widestring.wtf8_first_fault(wtf8 + b"\xff"), len(wtf8))
    faults = sum("\ud800" <= character <= "\udfff" for character in text)
    equal("utf16_fault_count", widestring.utf16_fault_count(data), faults)
    equal("utf16_is_ascii", widestring.utf16_is_ascii(data), text.isascii())
    swapped = array.array("H", data)
    swapped.byteswap()
    equal("utf16_swap_bytes", widestring.utf16_swap_bytes(data), swapped.tobytes())
    for order, raw in ((Order.LITTLE, data), (Order.BIG, swapped.tobytes())):
        equal("utf16_to_bytes", widestring.utf16_to_bytes(data, order), raw)
        equal("utf16_from_bytes", widestring.utf16_from_bytes(raw, order), data)
    for policy in Lossy:
        equal("utf16_to_utf32_lossy", widestring.utf16_to_utf32_lossy(data, policy), lossy_of(text, policy).encode("utf-32-le"))
    repaired = bytearray(data)
    equal("utf16_repair_in_place", (widestring.utf16_repair_in_place(repaired), repaired), (faults, bytearray(widestring.utf16_repair(data))))
    offset = random.randrange(len(data) // 2 + 3)
    floor = widestring.utf16_floor_char_boundary(data, offset)
    starts = {0, *(len(text[:end].encode("utf-16-le", "surrogatepass")) // 2 for end in range(len(text) + 1))}
    equal("utf16_floor_char_boundary", floor, max(start for start in starts if start <= offset))


def check_units32(data):
    """Checks the calls on units of UTF-32 that have no strict form."""
    items = items_of(data, "utf-32-le")
    faults = sum("\ud800" <= item <= "\udfff" for item in items)
    equal("utf32_fault_count", widestring.utf32_fault_count(data), faults)
    equal("utf32_is_ascii", widestring.utf32_is_ascii(data), items.isascii())
    for policy in Lossy:
        equal("utf32_to_utf16_lossy", widestring.utf32_to_utf16_lossy(data, policy), lossy_of(items, policy).encode("utf-16-le"))
    swapped = array.array("I", data)
    swapped.byteswap()
    equal("utf32_swap_bytes", widestring.utf32_swap_bytes(data), swapped.tobytes())
    for order, raw in ((Order.LITTLE, data), (Order.BIG, swapped.tobytes())):
        equal("utf32_to_bytes", widestring.utf32_to_bytes(data, order), raw)
        equal("utf32_from_bytes", widestring.utf32_from_bytes(raw, order), data)
    repaired = array.array("I", data)
    equal("utf32_repair_in_place", (widestring.utf32_repair_in_place(repaired), repaired.tobytes()), (faults, widestring.utf32_repair(data)))


def check_long_pieces():
    """Checks pieces that are longer than what the module converts at once, in little time for each byte."""
    text = "a\xe9\u20ac\U0001f600" * 40000
    for source, target in itertools.product(Scheme, Scheme):
        equal(f"long, {source!r} to {target!r}", Converter(source, target).convert(text.encode(CODECS[source]), final=True), text.encode(CODECS[target]))
    try:
        offset = Converter(Scheme.UTF16LE, Scheme.UTF8).convert(b"a\0b", True)
    except widestring.Fault as fault:
        offset = fault.offset
    equal("part of a unit", offset, 2)
    must_raise(ValueError, Converter, 8, 0)
    must_raise(ValueError, Converter, 0, 0, 3)
    must_raise(ValueError, IncrementalDecoder, Scheme.UTF8, "backslashreplace")
    must_raise(TypeError, widestring.utf16_repair_in_place, b"ab")
    must_raise(ValueError, widestring.utf16_from_bytes, b"abc", Order.BIG)


def main(arguments):
    count = int(arguments[0]) if arguments else 100000
    seed = int(arguments[1]) if arguments[1:] else 1
    random.seed(seed)
    equal("version", widestring.version(), (0, 2, 0))
    checks = (check_rejected_arguments, check_lying_lengths, check_own_buffers, check_buffers, check_other_elements, check_numpy, check_memory, check_long_pieces)
    for check in checks:
        check()
    check_imports(arguments[2:])
    for check in (check_utf8, check_utf16, check_utf32):
        check(b"")
    for _ in range(count):
        check_utf8(random_data("utf-8", 1))
        check_utf16(random_data("utf-16-le", 2))
        check_utf32(random_data("utf-32-le", 4))
        check_units16(random_data("utf-16-le", 2))
        check_units32(random_data("utf-32-le", 4))
        check_schemes()
        check_faults_in_pieces()
    print(f"seed {seed}: every call agrees on {count} texts of each kind")


if __name__ == "__main__":
    main(sys.argv[1:])
