#!/usr/bin/env python3
"""What the example `resources` prints and reports, by an independent reader of `.res` files and of executables.

    bench/example_cases_resources.py --samples     writes the samples that `samples()` describes
"""

import os
import re
import struct
import sys

from example_forms import is_hidden

USAGE = "usage: resources [--lossy] [--names] [--skipped] FILE..\n"
EMPTY = struct.pack("<8I", 0, 32, 0xFFFF, 0xFFFF, 0, 0, 0, 0)
MENU, DIALOG, STRINGS, MESSAGES, VERSION = 4, 5, 6, 11, 16
WORDS = {MENU: "menu ", DIALOG: "dialog ", STRINGS: "", MESSAGES: "message ", VERSION: "version "}
TYPES = {
    1: "cursor", 2: "bitmap", 3: "icon", 4: "menu", 5: "dialog", 6: "string table", 7: "font directory", 8: "font",
    9: "accelerators", 10: "data", 11: "message table", 12: "cursor group", 14: "icon group", 16: "version",
    17: "dialog include", 19: "plug and play", 20: "VxD", 21: "animated cursor", 22: "animated icon", 23: "HTML",
    24: "manifest",
}
LANGUAGES = {0x407: "de-DE", 0x409: "en-US", 0x40C: "fr-FR"}
TERMINAL = {"\n": "\\n", "\r": "\\r", "\t": "\\t", "\0": "\\0"}


# Functions that make files.


def units(text):
    """Returns the bytes of a text, which may have unpaired surrogates."""
    return text.encode("utf-16-le", "surrogatepass")


def name_bytes(name):
    return struct.pack("<HH", 0xFFFF, name) if isinstance(name, int) else units(name + "\0")


def padded(data):
    return data + bytes(-len(data) % 4)


def resource(kind, name, data, language=0x409, header_size=None, data_size=None, more=b""):
    """Returns a resource without its padding. Its sizes may be wrong, and `more` follows the fields of its header. A header
    whose length is no multiple of four has padding behind it."""
    names = padded(name_bytes(kind) + name_bytes(name))
    fields = names + struct.pack("<IHHII", 0, 0x1030, language, 0, 0) + more
    header_size = len(fields) + 8 if header_size is None else header_size
    data_size = len(data) if data_size is None else data_size
    return struct.pack("<II", data_size, header_size) + padded(fields) + data


def strings(*texts):
    """Returns the sixteen strings of a table. Empty ones at the end may be left out."""
    texts = [*texts, *[""] * (16 - len(texts))]
    return b"".join(struct.pack("<H", len(units(text)) // 2) + units(text) for text in texts)


def table(name, *texts, language=0x409):
    return resource(STRINGS, name, strings(*texts), language)


def file(*resources):
    """Returns a file of the empty resource and these; only the last one has no padding."""
    return b"".join([EMPTY, *map(padded, resources[:-1]), *resources[-1:]])


def menu(*items):
    """Returns a menu of the first format: items of options, number and text. The option 80 is that of a last item."""
    fields = [struct.pack("<H", options) + (b"" if options & 0x10 else struct.pack("<H", number)) + units(text + "\0") for options, number, text in items]
    return struct.pack("<HH", 0, 0) + b"".join(fields)


def menu_ex(*items):
    """Returns a menu of the second format: items of options, number and text."""
    data = struct.pack("<HHI", 1, 4, 0)
    for options, number, text in items:
        data = padded(data) + struct.pack("<IIIH", 0, 0, number, options) + units(text + "\0")
        if options & 1:
            data = padded(data) + struct.pack("<I", 0)
    return data


def dialog(caption, *controls, font=None, menu="", kind=""):
    """Returns a dialog of the first format: controls of number, class and text."""
    style = 0x40 if font else 0
    data = struct.pack("<IIHhhhh", style, 0, len(controls), 0, 0, 9, 9) + name_bytes(menu) + name_bytes(kind) + units(caption + "\0")
    if font:
        data += struct.pack("<H", 8) + units(font + "\0")
    for number, kind, text in controls:
        data = padded(data) + struct.pack("<IIhhhhH", 0, 0, 0, 0, 9, 9, number) + name_bytes(kind) + name_bytes(text) + struct.pack("<H", 0)
    return data


def dialog_ex(caption, *controls, font=None, extra=b""):
    """Returns a dialog of the second format."""
    style = 0x40 if font else 0
    data = struct.pack("<HHIIIHhhhh", 1, 0xFFFF, 0, 0, style, len(controls), 0, 0, 9, 9) + units("\0\0") + units(caption + "\0")
    if font:
        data += struct.pack("<HHBB", 8, 400, 0, 1) + units(font + "\0")
    for number, kind, text in controls:
        fields = struct.pack("<IIIhhhhI", 0, 0, 0, 0, 0, 9, 9, number) + name_bytes(kind) + name_bytes(text)
        data = padded(data) + fields + struct.pack("<H", len(extra)) + extra
    return data


def messages(*blocks, flags=None):
    """Returns a message table: blocks of a first number and messages, which are texts or bytes, with these flags or
    those of a text and of bytes in a code page."""
    at, fields, entries = 4 + 12 * len(blocks), b"", b""
    for low, *texts in blocks:
        fields += struct.pack("<III", low, low + len(texts) - 1, at + len(entries))
        for text in texts:
            data = padded(text + b"\0" if isinstance(text, bytes) else units(text + "\0"))
            entries += struct.pack("<HH", len(data) + 4, not isinstance(text, bytes) if flags is None else flags) + data
    return struct.pack("<I", len(blocks)) + fields + entries


def node(name, value, *children, is_text=True, length=None, value_length=None):
    """Returns a node of version information with its padding. Its lengths may be wrong."""
    if value_length is None:
        value_length = len(value) // (2 if is_text else 1)
    data = padded(struct.pack("<HHH", 0, value_length, is_text) + units(name + "\0")) + value
    for child in children:
        data = padded(data) + child
    return struct.pack("<H", len(data) if length is None else length) + data[2:]


def version_of(*texts, **lengths):
    """Returns version information with one table of these nodes."""
    strings = node("StringFileInfo", b"", node("040904b0", b"", *map(padded, texts)))
    return node("VS_VERSION_INFO", bytes(52), strings, is_text=False, **lengths)


def version(*pairs, tables=1):
    texts = [padded(node(name, units(text + "\0"))) for name, text in pairs]
    languages = [padded(node(f"040{9 - number}04b0", b"", *texts)) for number in range(tables)]
    translation = padded(node("Translation", struct.pack("<HH", 0x409, 0x4B0), is_text=False))
    children = [padded(node("StringFileInfo", b"", *languages)), padded(node("VarFileInfo", b"", translation))]
    return node("VS_VERSION_INFO", bytes(52), *children, is_text=False)


def executable(*resources, bits=32, more_entries=0, machine=b"PE\0\0"):
    """Returns a PE file with these resources: type, name, language and contents."""
    tree = {}
    for kind, name, language, data in resources:
        tree.setdefault(kind, {}).setdefault(name, {})[language] = data
    base, section, later = 0x1000, bytearray(), []

    def put_directory(level):
        """Adds a directory of a level, and those below it behind it."""
        start = len(section)
        texts, numbers = ([name for name in level if isinstance(name, kind)] for kind in (str, int))
        section.extend(struct.pack("<IIHHHH", 0, 0, 0, 0, len(texts), len(numbers) + more_entries))
        section.extend(bytes(8 * len(level)))
        for index, name in enumerate([*texts, *numbers]):
            at = start + 16 + 8 * index
            below, number = level[name], name
            if isinstance(name, str):
                number = 0x80000000 | len(section)
                section.extend(struct.pack("<H", len(name)) + units(name))
                section.extend(bytes(-len(section) % 4))
            target = len(section) | (0x80000000 if isinstance(below, dict) else 0)
            struct.pack_into("<II", section, at, number, target)
            if isinstance(below, dict):
                put_directory(below)
            else:
                later.append((len(section), below))
                section.extend(bytes(16))

    put_directory(tree)
    for at, data in later:
        section.extend(bytes(-len(section) % 4))
        struct.pack_into("<IIII", section, at, base + len(section), len(data), 0, 0)
        section.extend(data)
    directories = struct.pack("<4I", 0, 0, 0, 0) + struct.pack("<II", base, len(section)) + bytes(8 * 13)
    optional = struct.pack("<H", 0x10B if bits == 32 else 0x20B) + bytes(90 if bits == 32 else 106) + struct.pack("<I", 16) + directories
    header = struct.pack("<HHIIIHH", 0x14C, 1, 0, 0, 0, len(optional), 0x102)
    before = b"MZ" + bytes(58) + struct.pack("<I", 64) + machine + header + optional
    at = len(before) + 40
    return before + b".rsrc\0\0\0" + struct.pack("<IIIIIIHHI", len(section), base, len(section), at, 0, 0, 0, 0, 0) + bytes(section)


# The model of what is printed and reported.


def shown(text, in_quotes):
    written = ""
    for char in text:
        if in_quotes and char in '"\\':
            written += "\\" + char
        elif 0xD800 <= ord(char) < 0xE000:
            written += f"\\<{ord(char):04X}>"
        elif is_hidden(char):
            written += TERMINAL.get(char) or f"\\u{{{ord(char):x}}}"
        else:
            written += char
    return f'"{written}"' if in_quotes else written


class Fault(Exception):
    """The damage after which no more is read of a file, or of a resource."""


class Faults(list):
    """What is wrong in the contents of a resource, beside its last damage."""


class Fields:
    """The contents of a resource, read from field to field."""

    def __init__(self, data):
        self.data, self.at = data, 0

    def cut(self):
        raise Fault(f"its contents are cut off at their byte {len(self.data)}")

    def take(self, count):
        if self.at + count > len(self.data):
            self.cut()
        self.at += count
        return self.data[self.at - count : self.at]

    def number(self, size):
        return int.from_bytes(self.take(size), "little")

    def align(self):
        self.at = min(self.at + -self.at % 4, len(self.data))

    def text(self):
        at = self.at
        while at + 2 <= len(self.data):
            if self.data[at : at + 2] == b"\0\0":
                found = self.data[self.at : at]
                self.at = at + 2
                return found
            at += 2
        return self.cut()

    def end(self):
        """Expects nothing more but zeros that fill a number of 32 bits."""
        expect_padding(self.data, self.at)

    def text_or_number(self):
        if self.data[self.at : self.at + 2] == b"\xff\xff" and self.at + 4 <= len(self.data):
            self.at += 4
            return b""
        return self.text()


def is_padding(data):
    return len(data) < 4 and not any(data)


def expect_padding(data, at):
    if not is_padding(data[at:]):
        raise Fault(f"bytes behind its texts, from its byte {at}: {len(data) - at}")


def decoded(data):
    """Returns the text of units, in which an unpaired surrogate is a character of its own."""
    return data[: len(data) // 2 * 2].decode("utf-16-le", "surrogatepass")


def texts_of_strings(name, data, faults):
    if isinstance(name, str):
        raise Fault("a string table is named by a number, not by a text")
    if name not in range(1, 4097):
        raise Fault(f"a string table is named 1 to 4096, not {name}")
    at = 0
    for number in range(16 * name - 16, 16 * name):
        count = int.from_bytes(data[at : at + 2], "little") if at + 2 <= len(data) else 0
        end = at + 2 + 2 * count
        if end > len(data):
            raise Fault(f"ends in string {number}, bytes missing: {end - len(data)}")
        if count:
            yield number, decoded(data[at + 2 : end])
        at = end
    if at < len(data):
        raise Fault(f"bytes behind its texts, from its byte {at}: {len(data) - at}")


def texts_of_menu(name, data, faults):
    fields = Fields(data)
    kind, skipped = fields.number(2), fields.number(2)
    if kind > 1:
        raise Fault(f"its format has no version {kind}")
    fields.take(skipped)

    def items():
        """Yields the items of a menu up to its last one, each before those of its submenu."""
        stack = [False]
        while stack:
            if kind == 0:
                options = fields.number(2)
                is_popup = options & 0x10
                number = 0 if is_popup else fields.number(2)
                text = fields.text()
            else:
                fields.align()
                fields.take(8)
                number, options = fields.number(4), fields.number(2)
                is_popup = options & 1
                text = fields.text()
                if is_popup:
                    fields.align()
                    fields.take(4)
            yield number, decoded(text)
            if is_popup:
                stack.append(bool(options & 0x80))
                continue
            is_last = bool(options & 0x80)
            while is_last and stack:
                is_last = stack.pop()

    yield from ((number, text) for number, text in items() if text)
    fields.end()


def texts_of_dialog(name, data, faults):
    fields, is_extended = Fields(data), data.startswith(b"\1\0\xff\xff")
    if is_extended:
        fields.take(12)
    style = fields.number(4)
    if not is_extended:
        fields.take(4)
    count = fields.number(2)
    fields.take(8)
    fields.text_or_number()
    fields.text_or_number()
    caption = fields.text()
    if style & 0x40:
        fields.take(6 if is_extended else 2)
        fields.text()
    if caption:
        yield 0, decoded(caption)
    for _ in range(count):
        fields.align()
        fields.take(20 if is_extended else 16)
        number = fields.number(4 if is_extended else 2)
        fields.text_or_number()
        text = fields.text_or_number()
        fields.take(fields.number(2))
        if text:
            yield number, decoded(text)
    fields.end()


def without_end(data, is_wide):
    stripped = data.rstrip(b"\0")
    return data[: len(stripped) + len(stripped) % 2] if is_wide else stripped


def text_of_message(data, flags, at, faults):
    """Returns the text of a message, in which a wrong byte of UTF-8 is a list."""
    text = without_end(data, flags == 1)
    if flags == 0:
        return "".join(bytes([byte]).decode("cp1252", "ignore") or chr(byte) for byte in text)
    if flags == 2:
        return text
    if len(text) % 2:
        faults.append(f"the message at its byte {at} ends in half a unit")
    return decoded(text)


def texts_of_messages(name, data, faults):
    if len(data) < 4:
        raise Fault(f"its contents are cut off at their byte {len(data)}")
    left, end = len(data) // 4, 4
    for block in range(int.from_bytes(data[:4], "little")):
        start = 4 + 12 * block
        if start + 12 > len(data):
            raise Fault(f"its contents are cut off at their byte {min(start, len(data))}")
        end = max(end, start + 12)
        low, high, at = struct.unpack_from("<III", data, start)
        if low > high:
            faults.append(f"the block at its byte {start} begins with message {low} and ends with {high}")
        for number in range(low, high + 1):
            if left == 0:
                raise Fault("it has fewer messages than it says")
            length = int.from_bytes(data[at : at + 2], "little")
            if at + 4 > len(data) or length < 4 or at + length > len(data):
                faults.append(f"its contents are cut off at their byte {min(at, len(data))}")
                break
            flags = int.from_bytes(data[at + 2 : at + 4], "little")
            if flags > 2:
                faults.append(f"the message at its byte {at} has unknown flags {flags:04X}")
            else:
                yield number, text_of_message(data[at + 4 : at + length], flags, at, faults)
            left -= 1
            at += length
            end = max(end, at)
    if not faults:
        expect_padding(data, end)


class Node:
    """A node of version information, whose bytes begin at `at` and end before `end`."""

    def __init__(self, data, at, end):
        self.length, self.value_length, kind = (int.from_bytes(data[at + offset : at + offset + 2], "little") for offset in (0, 2, 4))
        fields = Fields(data[:end])
        fields.at = at
        fields.take(6)
        self.name = decoded(fields.text())
        self.value_at = min(fields.at + -(fields.at - at) % 4, end)
        self.is_text, self.data, self.end = kind == 1, data, end

    def children(self, size, faults):
        """Yields the nodes behind a value of so many bytes; at last, None if one of them is damaged."""
        if self.value_at + size > self.end:
            faults.append(f"the value at its byte {self.value_at} does not have the length {self.value_length}")
        at = self.value_at + size
        at += -at % 4
        while not is_padding(self.data[at : self.end]):
            length = int.from_bytes(self.data[at : at + 2], "little")
            try:
                child = Node(self.data, at, min(at + length, self.end)) if at + 2 <= self.end and length >= 6 else None
            except Fault:
                child = None
            if child is None:
                yield None
                return
            child.is_cut = at + length > self.end
            yield child
            if child.is_cut:
                yield None
            at += length + -length % 4

    def nodes(self, faults):
        return self.children(self.value_length * 2 if self.is_text else self.value_length, faults)


def texts_of_version(name, data, faults):
    root, is_whole = Node(data, 0, len(data)), True
    for block in root.children(root.value_length, faults):
        is_whole &= block is not None
        for table in block.nodes(faults) if block and block.name == "StringFileInfo" else ():
            is_whole &= table is not None
            for string in table.nodes(faults) if table else ():
                if string is None or string.is_cut:
                    is_whole = False
                    break
                value = data[string.value_at : string.end]
                text = decoded(value).split("\0")[0]
                if text:
                    yield string.name, text
                behind = value[len(units(text)) :]
                lengths = range(len(units(text)), len(value) + 1)
                is_length = 2 * string.value_length in lengths or string.value_length in lengths and string.value_length % 2 == 0
                if any(behind) or not is_length:
                    faults.append(f"the value at its byte {string.value_at} does not have the length {string.value_length}")
    expect_padding(data, root.length)
    if root.length > len(data) or not is_whole:
        raise Fault(f"its contents are cut off at their byte {len(data)}")


READERS = {MENU: texts_of_menu, DIALOG: texts_of_dialog, STRINGS: texts_of_strings, MESSAGES: texts_of_messages, VERSION: texts_of_version}


def type_of(kind):
    if isinstance(kind, str):
        return f"type {shown(kind, True)}"
    return f"type {kind} ({TYPES[kind]})" if kind in TYPES else f"type {kind}"


def offsets_of(text):
    """Yields the offset in units of each character."""
    offset = 0
    for char in text:
        yield offset
        offset += len(units(char)) // 2


def of_utf8(data):
    """Returns the text of bytes in UTF-8, with U+FFFD for what is ill formed, and the faults."""
    text, faults = "", []
    while data:
        try:
            return text + data.decode(), faults
        except UnicodeDecodeError as error:
            text += data[: error.start].decode()
            faults.append(f"fault {data[error.start]:02X} at unit {len(units(text)) // 2}")
            text += "\ufffd"
            data = data[error.end :]
    return text, faults


def is_resource(data):
    """Returns whether a file begins with a resource whose header can be read."""
    try:
        reader = Reader(data, [], "")
        reader.read_texts = lambda *_: None
        reader.number = 1
        reader.read_resource()
    except Fault:
        return False
    return True


class Reader:
    """A reader of one file."""

    def __init__(self, data, options, prefix):
        self.data, self.options, self.prefix = data, options, prefix
        self.at = self.number = self.begin = 0
        self.printed, self.reported, self.notes, self.skipped = [], [], [], []

    def report(self, what):
        self.reported.append(f"resource {self.number} at byte {self.begin}: {what}")

    def read(self):
        if not self.data:
            return self.reported.append("no resource")
        if self.data.startswith(b"MZ"):
            self.read_executable()
        elif EMPTY.startswith(self.data[:16]):
            self.read_file()
        else:
            what = self.other_format()
            if what:
                return self.reported.append(what)
            self.read_file()
        if self.skipped:
            order = lambda kind: (isinstance(kind, str), units(kind) if isinstance(kind, str) else kind)
            counts = (f"{self.skipped.count(kind)} of {type_of(kind)}" for kind in sorted(set(self.skipped), key=order))
            self.notes.append(f"note: skipped: {', '.join(counts)}")
        return None

    def other_format(self):
        """Returns what a file is that does not begin with the empty resource, unless it begins with another one."""
        data, text = self.data, self.data.decode("latin-1")
        known = {b"\x7fELF": "an ELF file", b"\x89PNG\r\n\x1a\n": "a PNG image"}
        for mark, what in known.items():
            if data.startswith(mark):
                return f"{what}, which is not read"
        if is_resource(data):
            return None
        # A type and a name, each FF and a number or a text in ASCII, flags, a size and contents.
        header = re.match(r"(?s)(?:(?:\xff..)|[ -~]+\0){2}..(....)", text)
        if header and header.end() + int.from_bytes(header[1].encode("latin-1"), "little") <= len(data):
            return "a 16-bit resource file, which is not read"
        machine, count = struct.unpack_from("<HH", data) if len(data) >= 20 else (0, 0)
        if machine in (0x14C, 0x1C0, 0x1C4, 0x200, 0x8664, 0xAA64) and data[16:18] == b"\0\0" and 0 < 40 * count <= len(data) - 20:
            return "a COFF object file, which is not read"
        if re.match(r"(?s)(?:\xef\xbb\xbf)?(?:[ \t\r\n]|\{[^}]*\})*LazarusResources\.Add", text):
            return "Lazarus' text form of resources, which is not read"
        if data[:2] in (b"\xff\xfe", b"\xfe\xff") or not re.search(r"[\0-\x08\x0b\x0e-\x19\x1b-\x1f]", text[:1024]):
            return "text, not a compiled resource, which is not read"
        return "no .res file: it does not begin with the empty resource"

    def read_file(self):
        while self.at < len(self.data):
            self.number, self.begin = self.number + 1, self.at
            try:
                self.read_resource()
            except Fault as fault:
                return self.report(f"{fault}, bytes not read: {len(self.data) - self.begin}")
        return None

    def read_name(self, end):
        """Reads a number, or a text that ends in a zero unit; the header ends at `end`."""
        found = []
        while self.at + 2 <= end:
            (unit,) = struct.unpack_from("<H", self.data, self.at)
            self.at += 2
            found.append(unit)
            if found[0] == 0xFFFF and len(found) == 2:
                return unit
            if found[0] != 0xFFFF and unit == 0:
                return decoded(struct.pack(f"<{len(found) - 1}H", *found[:-1]))
        raise Fault("its type or its name has no end")

    def read_resource(self):
        if len(self.data) - self.begin < 8:
            raise Fault("its sizes are cut off")
        data_size, header_size = struct.unpack_from("<II", self.data, self.begin)
        data_begin = self.begin + header_size + -header_size % 4
        missing = data_begin + data_size - len(self.data)
        if header_size < 28:
            raise Fault(f"its header can't have {header_size} bytes")
        if data_begin > len(self.data):
            raise Fault(f"bytes missing: {missing}")
        # The size may leave out the padding behind the names.
        header_end = data_begin
        self.at += 8
        kind = self.read_name(header_end)
        name = self.read_name(header_end)
        self.at += -self.at % 4
        if self.at + 16 > header_end:
            raise Fault(f"its header can't have {header_size} bytes")
        _, _, language, _, _ = struct.unpack_from("<IHHII", self.data, self.at)
        self.at = data_begin + data_size
        self.at += -self.at % 4
        is_empty = (header_size, data_size, kind, name) == (32, 0, 0, 0)
        if self.begin == 0 and not is_empty:
            self.report("is not the empty resource that a file begins with")
        if missing > 0:
            self.report(f"bytes missing: {missing}")
        if not is_empty:
            self.read_texts(kind, name, language, self.data[data_begin : data_begin + data_size])

    def read_texts(self, kind, name, language, data):
        if kind not in READERS:
            self.skipped.append(kind)
            if "--skipped" in self.options:
                self.notes.append(f"note: resource {self.number} at byte {self.begin}: skipped, {type_of(kind)}, bytes: {len(data)}")
            return
        faults = Faults()
        try:
            for number, text in READERS[kind](name, data, faults):
                self.put(kind, name, language, number, text)
        except Fault as fault:
            faults.append(str(fault))
        for fault in faults:
            self.report(fault)

    def put(self, kind, name, language, number, text):
        words = WORDS[kind]
        if kind in (MENU, DIALOG):
            words += f"{name if isinstance(name, int) else shown(name, False)} "
        words += shown(number, False) if kind == VERSION else str(number)
        text, bad = of_utf8(text) if isinstance(text, bytes) else (text, [])
        faults = []
        for char, offset in zip(text, offsets_of(text)):
            if 0xD800 <= ord(char) < 0xE000:
                faults.append(f"fault {ord(char):04X} at unit {offset}")
        faults = bad + faults
        if faults and "--lossy" not in self.options:
            for fault in faults:
                self.report(f"{'string ' if kind == STRINGS else ''}{words}: {fault}")
            return
        text = "".join("\ufffd" if 0xD800 <= ord(char) < 0xE000 else char for char in text)
        label = LANGUAGES.get(language) if "--names" in self.options else None
        self.printed.append(f"{self.prefix}{label or f'{language:04X}'} {words}: {shown(text, True)}\n")

    def read_executable(self):
        data = self.data
        start = int.from_bytes(data[0x3C:0x40], "little")
        if len(data) < 0x40:
            return self.reported.append("its header is cut off")
        if data[start : start + 4] != b"PE\0\0":
            return self.reported.append("an executable without a PE header, which is not read")
        count, length = (int.from_bytes(data[start + at : start + at + 2], "little") for at in (6, 20))
        optional, headers = start + 24, start + 24 + length
        if optional > len(data) or headers + 40 * count > len(data):
            return self.reported.append("its header is cut off")
        at = 108 if data[optional : optional + 2] == b"\x0b\x02" and length >= 2 else 92
        field = lambda offset: int.from_bytes(data[optional + offset : optional + offset + 4], "little") if offset + 4 <= length else 0
        address = field(at + 20)
        if field(at) < 3 or not address:
            return None
        self.sections = [struct.unpack_from("<12xIII", data, headers + 40 * number) for number in range(count)]
        begin = self.offset_of(address)
        if begin is None or begin > len(data):
            return self.reported.append("its resources are not where its header says")
        return self.read_tree(data[begin:])

    def offset_of(self, address):
        for virtual, length, start in self.sections:
            if 0 <= address - virtual < length:
                return start + address - virtual
        return None

    def read_tree(self, section):
        damages, found, left = [], [], [len(section) // 8 + 1]

        def entries(directory):
            """Yields the entries of a directory."""
            if directory + 16 > len(section):
                damages.append(directory)
                return
            named, numbered = struct.unpack_from("<HH", section, directory + 12)
            for index in range(named + numbered):
                at = directory + 16 + 8 * index
                if at + 8 > len(section):
                    damages.append(at)
                    return
                if left[0] == 0:
                    return
                left[0] -= 1
                if left[0] == 0:
                    damages.append(None)
                    return
                yield struct.unpack_from("<II", section, at)

        def below(target):
            if target < 0x80000000:
                damages.append(target)
                return
            yield from entries(target & 0x7FFFFFFF)

        for kind, names in entries(0):
            for name, languages in below(names):
                for language, target in below(languages):
                    leaf = self.leaf(section, kind, name, target)
                    if isinstance(leaf, int):
                        damages.append(leaf)
                    else:
                        found.append((*leaf, language & 0xFFFF))
        for kind, name, begin, data, language in found:
            self.number, self.begin = self.number + 1, begin
            self.read_texts(kind, name, language, data)
        for damage in damages:
            what = "has more entries than bytes" if damage is None else f"is cut off at byte {damage} of their section"
            self.reported.append(f"the tree of its resources {what}")

    def leaf(self, section, kind, name, at):
        """Returns the type, the name, the offset and the contents of a resource, or where it is cut off."""
        if at + 16 > len(section):
            return at
        address, length = struct.unpack_from("<II", section, at)
        begin = self.offset_of(address)
        if begin is None or begin + length > len(self.data):
            return at
        names = []
        for number in (kind, name):
            if number < 0x80000000:
                names.append(number & 0xFFFF)
                continue
            text = number & 0x7FFFFFFF
            end = text + 2 + 2 * int.from_bytes(section[text : text + 2], "little")
            if text + 2 > len(section) or end > len(section):
                return text
            names.append(decoded(section[text + 2 : end]))
        return *names, begin, self.data[begin : begin + length]


def answer(arguments, files):
    """Returns the expected output and reports, and the status. `files` has the bytes of each file, or why it can't be
    read."""
    options, names = [], list(arguments)
    while names and names[0].startswith("-") and len(names[0]) > 1:
        option = names.pop(0)
        if option == "--":
            break
        if option not in ("--lossy", "--names", "--skipped"):
            return "", f"resources: unknown option '{option}'\n{USAGE}", 2
        options.append(option)
    if not names:
        return "", f"resources: FILE is missing\n{USAGE}", 2
    printed, reported, status = "", "", 0
    for name, data in zip(names, files):
        if isinstance(data, str):
            reported += f"resources: {name}: {data}\n"
            status = 1
            continue
        prefix = f"{name}:" if len(names) > 1 else ""
        reader = Reader(data, options, prefix)
        reader.read()
        printed += "".join(reader.printed)
        reported += "".join(f"{prefix + ' ' if prefix else ''}{line}\n" for line in reader.notes + reader.reported)
        status = 1 if reader.reported else status
    return printed, reported, status


# The inputs: arguments, of which {} is the name of a file, and its bytes.

UNREADABLE = "No such file or directory (os error 2)"
OPEN = table(2, "", "Open")
ONE_ITEM = menu((0x80, 1, "a"))
STRING = node("A", units("bc\0"))
LONE = table(2, "a\ud83d", "\udc00", "\udc00\ud83d\ude00\ud83d", "fine")


def one(data):
    return ["{}"], data


def lossy(data):
    return ["--lossy", "{}"], data


INPUTS = [
    # Arguments.
    ([], b""),
    (["--lossy"], b""),
    (["{}", "--lossy"], file(OPEN)),
    (["--lossy", "--lossy", "{}"], file(OPEN)),
    (["--all", "{}"], file(OPEN)),
    (["--names", "--skipped", "{}"], file(OPEN, table(3, "Öffnen", language=0x407), table(4, "?", language=0xFFFF), resource(10, 1, b"x"))),
    # Files without faults.
    one(EMPTY),
    one(file(table(1, *"abcdefghijklmnop"))),
    one(file(table(4096, "first", *[""] * 14, "last"))),
    # Two languages share an identifier; the first table does not end at a multiple of 4.
    one(file(table(2, "", "Opens"), table(2, "", "Öffnet", language=0x407))),
    # Texts for a type and for names, with padding after them, without padding, and empty.
    one(file(resource("AB", "C", b"123"), resource("AB", "", b""), resource(10, "N", b"1"), OPEN)),
    # A header that is longer than its fields, and two files, one after the other.
    one(file(resource(6, 2, strings("x"), more=bytes(4)), EMPTY, OPEN)),
    # A BOM and zero units belong to a text.
    one(file(table(1, "\ufeffa\0", '"\\\t\r\n\x7f', "\u200b\u0301\ue000é", "深海 🌊", "\0"))),
    one(file(table(3, "ab" * 40))),
    # A header whose size is no multiple of four.
    one(file(resource("ABC", 1, b"xyz", more=b"12"), OPEN)),
    one(file(resource("UNICODE", "ARABIC", b"xyz", header_size=54), OPEN)),
    one(file(resource("UNICODE", "ARABIC", b"xyz", header_size=52), OPEN)),
    one(file(resource(6, 2, strings("x"), more=b"1"), OPEN)),
    # The other types that have texts.
    one(file(resource(MENU, 7, menu((0x90, 0, "&File"), (0, 11, "&Open"), (0, 0, ""), (0x80, 12, "E&xit"))), resource(MENU, "M\n", menu((0x80, 1, "a"))))),
    one(file(resource(MENU, 8, menu_ex((0x81, 1, "&File"), (0, 11, "&Open"), (0, 0, ""), (0x80, 12, "E&xit"))))),
    one(file(resource(DIALOG, 9, dialog("About", (1, 0x80, "OK"), (2, "EDIT", ""), (65535, 0x82, 5), font="MS Shell Dlg")))),
    one(file(resource(DIALOG, "D", dialog("", (1, 0x80, "OK"), menu=3, kind="Class")))),
    one(file(resource(DIALOG, 10, dialog_ex("About", (1, 0x80, "OK"), (4294967295, "STATIC", "深🌊"), font="MS Shell Dlg", extra=b"123")))),
    one(file(resource(MESSAGES, 1, messages((1, "One\r\n", "Two"), (0x40000001, b"caf\xe9 \x81", "\U0001f30a"))))),
    one(file(resource(VERSION, 1, version(("ProductName", "Deep sea"), ("Empty", ""), ("Comments", "a\\b")), language=0x40C))),
    one(file(resource(VERSION, 1, version(("ProductName", "深"), tables=2)))),
    # Faults of these.
    one(file(resource(MENU, 7, menu((0, 1, "a"))[:-1]), resource(MENU, 8, b"\2\0\0\0"), resource(MENU, 9, b"\0\0\4\0"), resource(MENU, 10, b"\0"))),
    one(file(resource(DIALOG, 9, dialog("About", (1, 0x80, "OK"))[:-3]), resource(DIALOG, 9, dialog_ex("")[:20]))),
    one(file(resource(MESSAGES, 1, b"\1\0\0"), resource(MESSAGES, 1, struct.pack("<IIII", 1, 1, 0xFFFFFFFF, 16) + b"\4\0\0\0" * 9))),
    one(file(resource(MESSAGES, 1, struct.pack("<IIII", 1, 1, 1, 16) + b"\3\0\0\0"), resource(MESSAGES, 1, struct.pack("<IIII", 2, 1, 1, 99)))),
    one(file(resource(MESSAGES, 1, struct.pack("<I", 4) + struct.pack("<III", 1, 9, 52) * 4 + b"\4\0\0\0" * 9))),
    one(file(resource(VERSION, 1, version(("A", "b"))[:-9]), resource(VERSION, 1, b""), resource(VERSION, 1, b"\5\0\0\0\0\0"))),
    one(file(resource(MENU, 7, menu((0, 1, "\ud83d"))), resource(VERSION, 1, version(("A", "\udc00"))))),
    # The end of a menu: bytes behind it, some of which are padding; none, after an item, after one that opens a submenu, or
    # where the next submenu is; and a submenu that ends together with the menu.
    one(file(resource(MENU, 1, ONE_ITEM + units("junk\0")), resource(MENU, 2, ONE_ITEM + bytes(4)), resource(MENU, 3, ONE_ITEM + bytes(3)))),
    one(file(resource(MENU, 4, ONE_ITEM + b"\1"), resource(MENU, 5, menu((0, 1, "a"), (0, 2, "b"))), resource(MENU, 6, bytes(4)))),
    one(file(resource(MENU, 7, menu((0x10, 0, "F"), (0, 1, "a"), (0x80, 2, "b"))), resource(MENU, 8, menu((0x90, 0, "F"))))),
    one(file(resource(MENU, 9, menu((0x10, 0, "F"), (0x10, 0, "G"), (0x80, 1, "a"), (0x80, 2, "b"), (0x90, 0, "H"), (0x80, 3, "c"))))),
    one(file(resource(MENU, 10, menu((0x90, 0, "F"), (0x90, 0, "G"), (0x80, 1, "a"), (0x80, 2, "no item"))))),
    one(file(resource(MENU, 11, menu_ex((0x80, 1, "a"), (0, 2, "junk"))), resource(MENU, 12, padded(menu_ex((0x80, 1, "a"))) + bytes(4)))),
    one(file(resource(MENU, 13, menu_ex((0, 1, "a"))), resource(MENU, 14, menu_ex((1, 1, "F"), (0x80, 2, "a"))), resource(MENU, 15, padded(menu_ex((0x80, 1, "b")))))),
    one(file(resource(MENU, 16, menu_ex((1, 1, "F"), (0x81, 2, "G"), (0x80, 3, "a"), (0x80, 4, "Help"))))),
    # Bytes behind the controls of a dialog, which may be controls that are not counted, and padding there.
    one(file(resource(DIALOG, 9, dialog("C", (1, 0x80, "OK"), (2, 0x80, "No")).replace(b"\2\0", b"\1\0", 1)))),
    one(file(resource(DIALOG, 9, dialog("C", (1, 0x80, "OK")) + b"\1\2\3\4" * 4), resource(DIALOG, 9, dialog_ex("C") + bytes(2)))),
    one(file(resource(DIALOG, 9, dialog_ex("C", (1, 0x80, "OK")) + bytes(4)), resource(DIALOG, 9, dialog_ex("C") + b"\1"))),
    # Blocks of messages in which the numbers run backwards, and bytes that no block has.
    one(file(resource(MESSAGES, 1, struct.pack("<IIIIIII", 2, 9, 5, 28, 1, 1, 28) + messages((1, "a"))[16:]))),
    one(file(resource(MESSAGES, 1, messages((1, "a")) + b"junk"), resource(MESSAGES, 1, messages((1, "a")) + bytes(3)))),
    one(file(resource(MESSAGES, 1, messages((1, "a", "b")).replace(b"\2\0\0\0", b"\1\0\0\0", 1)), resource(MESSAGES, 1, bytes(4)))),
    one(file(resource(MESSAGES, 1, struct.pack("<IIIIIII", 2, 1, 2, 99, 4, 4, 28) + messages((1, "a"))[16:]))),
    # A code page, UTF-8, ill-formed UTF-8, flags that there are not, and half a unit.
    one(file(resource(MESSAGES, 1, messages((1, b"caf\xe9\r\n"))), resource(MESSAGES, 1, messages((1, "café 🌊\r\n".encode()), flags=2)))),
    one(file(resource(MESSAGES, 1, messages((1, b"a\xe2\x82b\xff", "fine".encode()), flags=2)))),
    lossy(file(resource(MESSAGES, 1, messages((1, b"a\xe2\x82b\xff"), flags=2)))),
    one(file(resource(MESSAGES, 1, messages((1, "a", "b"), flags=4)), resource(MESSAGES, 1, messages((1, "a"), flags=0x101)))),
    one(file(resource(MESSAGES, 1, struct.pack("<IIIIHH", 1, 1, 1, 16, 7, 1) + b"a\0b"))),
    # Lengths of version information: of the whole, too small and too great, with padding and other bytes behind it.
    one(file(resource(VERSION, 1, version_of(STRING, length=92)), resource(VERSION, 1, version_of(STRING, length=200)))),
    one(file(resource(VERSION, 1, version_of(STRING) + bytes(3)), resource(VERSION, 1, version_of(STRING) + b"junkjunk"), resource(VERSION, 1, version_of(STRING) + bytes(4)))),
    # Of values: of the whole, greater than what is left; of a string in bytes, in units without the NUL, 0, and wrong ones.
    one(file(resource(VERSION, 1, version_of(STRING, value_length=999)))),
    one(file(resource(VERSION, 1, version_of(*[node("Company", units("Deep sea\0"), value_length=length) for length in (8, 9, 16, 18)])))),
    one(file(resource(VERSION, 1, version_of(*[node("Company", units("Deep sea\0"), value_length=length) for length in (0, 4, 10, 17, 999)])))),
    one(file(resource(VERSION, 1, version_of(node("Company", units("Company\0"), is_text=False, value_length=8), node("Name", units("Company\0"), value_length=0))))),
    one(file(resource(VERSION, 1, version_of(node("A", units("one\0two\0")), node("B", units("two\0\0")), node("C", units("open")))))),
    # Nodes that are cut off, and one whose sizes are.
    one(file(resource(VERSION, 1, version_of(STRING, node("B", units("lost\0")))[:-6]), resource(VERSION, 1, version_of(STRING, b"\5\0\0\0\0\0")))),
    # A text that is ill formed, by its type.
    one(file(resource(DIALOG, "D", dialog("\ud83d", (7, 0x80, "\udc00"))), resource(MESSAGES, 1, messages((5, "\ud83d"))))),
    # Resources without texts.
    one(file(resource(3, 1, b"1"), resource(3, 2, b"22"), resource(24, 1, b"<x/>"), resource(999, 1, b""), resource("TEXT", 1, b"1"), resource(3, 3, b""), resource("A\n", 1, b""))),
    (["--skipped", "{}"], file(resource(3, 1, b"1"), resource("TEXT", "N", b"22"), OPEN, resource(24, 1, b"<x/>"), EMPTY)),
    # Executables.
    one(executable((STRINGS, 2, 0x409, strings("", "Open")), (MENU, "MAIN", 0x407, menu((0x80, 3, "&Öffnen"))), (10, 1, 0, b"x"), ("TEXT", 1, 0, b"y"))),
    one(executable((STRINGS, 2, 0x409, strings("", "Open")), (STRINGS, 2, 0x407, strings("", "Öffnen")), bits=64)),
    (["--skipped", "{}"], executable((10, 1, 0, b"x"))),
    one(executable((STRINGS, 2, 0x409, strings("x")), machine=b"NE\0\0")),
    one(executable((STRINGS, 2, 0x409, strings("x")))[:40]),
    one(executable((STRINGS, 2, 0x409, strings("x")))[:200]),
    one(executable((STRINGS, 2, 0x409, strings("x")))[:-8]),
    one(executable((STRINGS, 2, 0x409, strings("x")), more_entries=3)),
    one(executable((STRINGS, 2, 0x409, strings("\ud83d")), (STRINGS, 0, 0x409, strings("")))),
    one(executable()[:64] + b"PE\0\0" + bytes(20)),
    # Other formats.
    one(b"\x7fELF\2\1\1"),
    one(b"LazarusResources.Add('TForm1','FORMDATA',["),
    one(b"\xff\6\0\xff\1\0\x30\x10" + bytes(9)),
    one(b"\xff\4\0MAINMENU\0\x30\x10\4\0\0\0" + bytes(4)),
    one(b"MYTYPE\0\xff\1\0\x30\x10\4\0\0\0abcd"),
    one(b"\xff\xf0\0\xff\1\0\x30\x10\4\0\0\0abcd"),
    one(b"\xff\x0e\0MAIN\xe9\0\x30\x10\4\0\0\0abcd"),
    one(b"\xff\6\0\xff\1\0\x30\x10\5\0\0\0abcd"),
    one(b"{ a comment }\r\n\r\nLazarusResources.Add('x','PNG',["),
    one(b"\xef\xbb\xbf\r\n LazarusResources.Add('x','PNG',["),
    one(b"{ LazarusResources.Add("),
    one(b"\x89PNG\r\n\x1a\n" + bytes(9)),
    one(struct.pack("<HHIIIHH", 0x14C, 1, 0, 0, 0, 0, 0) + bytes(40)),
    one(struct.pack("<HHIIIHH", 0x14C, 2, 0, 0, 0, 0, 0) + bytes(40)),
    one(b'STRINGTABLE\r\nBEGIN\r\n 1 "a"\r\nEND\r\n'),
    one(b"\xff\xfe" + units('STRINGTABLE { 1 "a" }')),
    one(b"PK\3\4" + bytes(30)),
    one(bytes(64)),
    one(EMPTY[:20]),
    one(menu((0x80, 1, "a"))),
    # Faults of a file, and of a header.
    one(b""),
    one(b"\0"),
    one(file(OPEN[:7])),
    one(OPEN),
    one(file(OPEN[:8])),
    one(file(resource(6, 2, b"", header_size=0xFFFFFFFC, data_size=0xFFFFFFFF))),
    one(file(resource(6, 2, strings("x"), header_size=28))),
    one(file(resource(6, 2, strings("x"), header_size=24), OPEN)),
    one(file(resource(6, 2, strings("x"), header_size=34))),
    one(file(struct.pack("<II", 0, 28) + units("A" * 10))),
    one(file(struct.pack("<II", 0, 28) + name_bytes(6) + units("B" * 8))),
    # Sizes past the end.
    one(file(OPEN)[:-1]),
    one(file(resource(6, 2, strings("x"), data_size=0xFFFFFFFF))),
    one(file(resource(10, 2, b"12", data_size=4))),
    # Faults of a table.
    one(file(table(0, "x"), OPEN)),
    one(file(table(4097, "x"))),
    one(file(table("TEXT", "x"))),
    one(file(resource(6, 2, b""), OPEN)),
    one(file(resource(6, 2, strings("x")[:-1]))),
    one(file(resource(6, 2, strings("xy")[:5]))),
    one(file(resource(6, 2, strings("x") + b"\0"), OPEN)),
    # Faults of a text.
    one(file(LONE)),
    lossy(file(LONE)),
    # Several files.
    (["{}", "no.res", "", "{}"], file(OPEN)),
    (["{}", "no.res", "", "{}"], b""),
]


def samples():
    """Returns the files of the example's samples by their names: a resource of each kind that has texts and two that have
    none, in a `.res` file and in an executable."""
    kinds = [
        (STRINGS, 2, 0x409, strings("", "Open", "Save")),
        (MENU, "MAIN", 0x407, menu((0x10, 0, "&Datei"), (0, 11, "Ö&ffnen"), (0x80, 12, "B&eenden"), (0x90, 0, "&Hilfe"), (0x80, 13, "&Info"))),
        (MENU, 8, 0x409, menu_ex((1, 1, "&File"), (0x80, 11, "&Open"), (0x80, 12, "&Help"))),
        (DIALOG, 9, 0x409, dialog("About", (1, 0x80, "OK"), (2, 0x82, "Deep sea 🌊"), font="MS Shell Dlg")),
        (DIALOG, 10, 0x409, dialog_ex("Find", (1, 0x80, "Next"), font="MS Shell Dlg")),
        (MESSAGES, 1, 0x409, messages((1, "Done\r\n", "No such file: %1\r\n"), (0x40000001, b"caf\xe9\r\n"))),
        (VERSION, 1, 0x409, version(("CompanyName", "Deep sea"), ("FileVersion", "1.0"))),
        (3, 1, 0, bytes(8)),
        (24, 1, 0, b"<assembly/>"),
    ]
    return {
        "texts.res": file(*[resource(kind, name, data, language) for kind, name, language, data in kinds]),
        "texts.exe": executable(*kinds),
    }


def write_samples():
    data = f"{os.path.dirname(os.path.dirname(os.path.realpath(__file__)))}/crates/example_resources/data"
    for name, content in samples().items():
        with open(f"{data}/{name}", "wb") as written:
            written.write(content)


# Random inputs.

VALID = ["", "a", "Zoë", "深", "🌊", "\0", '"', "\\", "\n", "\ufeff", "\u200b", "\ufffd", "\u0301", "\uffff", "\x85"]
TEXTS = [*VALID * 8, "\ud83d", "\udc00"]


def random_text(source):
    return "".join(source.choices(TEXTS, k=source.choice([0, 0, 1, 2, 5])))


def random_name(source, numbers):
    text = random_text(source).replace("\0", "")
    return source.choice([*numbers, *numbers, *numbers, source.choice([text, text, "N" * 20])])


def random_resource(source):
    kind = random_name(source, [6, 6, 6, 6, 6, 6, 0, 10])
    name = random_name(source, [1, 2, 2, 3, 3, 4095, 4095, 4096, 4096, source.choice([0, 4097, 65535])])
    data = strings(*[random_text(source) for _ in range(source.randint(0, 16))])
    changed = source.random()
    if changed < 0.1:
        data = data[: source.randint(0, len(data))]
    elif changed < 0.2:
        data += bytes(source.randint(1, 5))
    header_size = source.choice([None] * 30 + [0, 8, 24, 28, 32, 33, 36, 40, 44, 0xFFFFFFFC])
    data_size = source.choice([None] * 30 + [0, 1, 31, 33, 64, 0xFFFFFFFF])
    more = bytes(source.choice([0] * 20 + [4, 8]))
    language = source.choice([0, 0x407, 0x409, 0x40C, 0xFFFF])
    return resource(kind, name, data, language, header_size, data_size, more)


def random_file(source):
    data = file(*[random_resource(source) for _ in range(source.randint(0, 4))])
    changed = source.random()
    if changed < 0.1:
        return data[: source.randint(0, len(data))]
    if changed < 0.2:
        data = bytearray(data)
        for _ in range(source.randint(1, 4)):
            data[source.randrange(len(data))] = source.choice([0, 1, 6, 0xD8, 0xDC, 0xFF])
        return bytes(data)
    return data[32:] if changed < 0.23 else padded(data)


def random_bytes(source):
    """Returns text in UTF-8, of which some bytes are damaged."""
    data = bytearray("aé深🌊\r\n".encode())
    for _ in range(source.randint(0, 2)):
        data[source.randrange(len(data))] = source.choice([0x41, 0x80, 0xC3, 0xE0, 0xED, 0xF0, 0xF4, 0xFF])
    return bytes(data)


def random_texts(source):
    """Returns a type and contents with texts, which may be damaged."""
    text = lambda: random_text(source).replace("\0", "")
    number = lambda: source.choice([0, 1, 7, 65535])
    kind, data = source.choice(
        [
            (STRINGS, lambda: strings(*[text() for _ in range(source.randint(0, 16))])),
            (MENU, lambda: menu(*[(source.choice([0, 0x10, 0x90, 0x80]), number(), text()) for _ in range(3)], (0x80, 1, "last"))),
            (MENU, lambda: menu_ex(*[(source.choice([0, 1, 0x81, 0x80]), number(), text()) for _ in range(3)], (0x80, 1, "last"))),
            (DIALOG, lambda: dialog(text(), *[(number(), 0x80, text()) for _ in range(2)], font=source.choice([None, "F"]))),
            (DIALOG, lambda: dialog_ex(text(), *[(number(), "C", text()) for _ in range(2)], extra=bytes(source.randint(0, 3)))),
            (MESSAGES, lambda: messages((number(), text(), b"x\xe9"), (9, text()))),
            (MESSAGES, lambda: messages((number(), b"x\xe9", random_bytes(source)), flags=source.choice([0, 2, 2, 2, 3]))),
            (VERSION, lambda: version_of(*[node("N", units(text() + "\0"), value_length=number(), is_text=source.random() < 0.5) for _ in range(2)])),
            (VERSION, lambda: version((text(), text()), ("A", text()), tables=source.randint(0, 2))),
        ]
    )
    return kind, data()


def damaged(source, data):
    changed = source.random()
    if changed < 0.1:
        return data[: source.randint(0, len(data))]
    data = bytearray(data)
    for _ in range(source.randint(1, 3) if changed < 0.3 and data else 0):
        data[source.randrange(len(data))] = source.choice([0, 1, 2, 6, 0x80, 0xD8, 0xFF])
    return bytes(data) + (bytes(source.randint(1, 9)) if changed > 0.9 else b"")


def random_executable(source):
    resources = []
    for _ in range(source.randint(0, 4)):
        kind, data = random_texts(source)
        resources.append((source.choice([kind, kind, kind, 10, "T"]), source.choice([1, 2, 3, "N"]), source.choice([0x407, 0x409, 0]), damaged(source, data)))
    return damaged(source, executable(*resources, bits=source.choice([32, 64]), more_entries=source.choice([0] * 9 + [1, 1000])))


def random_input(source):
    """Returns a file of any form."""
    form = source.random()
    if form < 0.4:
        return random_file(source)
    if form < 0.7:
        return random_executable(source)
    texts = [random_texts(source) for _ in range(source.randint(1, 4))]
    return file(*[resource(kind, source.choice([1, 2, "N"]), damaged(source, data), source.choice([0x407, 0x409])) for kind, data in texts])


def question(source, folder):
    arguments = source.choice([[], [], ["--lossy"], ["--names"], ["--skipped"], ["--lossy", "--names"]])
    files = [random_input(source) for _ in range(source.choice([1, 1, 1, 2, 3]))]
    names = [f"{number}.res" for number in range(len(files))]
    for number, name in enumerate(names):
        with open(f"{folder}/{name}", "wb") as written:
            written.write(files[number])
    if source.random() < 0.05:
        files[-1], names[-1] = UNREADABLE, "no.res"
    arguments = [*arguments, *names]
    if source.random() < 0.02:
        arguments.insert(0, source.choice(["--lossy", "--no"]))
    printed, reported, status = answer(arguments, files)
    return arguments, printed.encode(), reported.encode(), status


def cases():
    for arguments, file in INPUTS:
        # A copy of the file has this name.
        names = ["case" if argument == "{}" else argument for argument in arguments]
        words = list(arguments)
        while words and words[0].startswith("--"):
            words.pop(0)
        printed, reported, status = answer(names, [file if word == "{}" else UNREADABLE for word in words])
        yield "", arguments, file, printed.encode(), reported.encode(), status


if __name__ == "__main__":
    if sys.argv[1:] != ["--samples"]:
        sys.exit("usage: bench/example_cases_resources.py --samples")
    write_samples()
