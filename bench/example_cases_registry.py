"""What `example_registry` prints for registry exports: worked out from the format alone, by patterns over the text.

A text is a Python string with one character for each UTF-16 unit, so an offset in it is a number of units.
"""

import bisect
import os
import re

from example_forms import bom_len, is_hidden, likely_form

USAGE = "usage: registry [--form FORM] [--json] FILE..\n"
HEADERS = ("REGEDIT4", "Windows Registry Editor Version 5.00")
ROOTS = (
    "HKEY_LOCAL_MACHINE HKEY_CURRENT_USER HKEY_CLASSES_ROOT HKEY_USERS HKEY_CURRENT_CONFIG HKEY_PERFORMANCE_DATA HKEY_DYN_DATA"
    " HKLM HKCU HKCR HKU HKCC"
).split()
PAGES = {f"CP{number}": f"cp{number}" for number in (874, *range(1250, 1259))}
BLANKS = "[ \t\ufeff]*"
LINE_END = re.compile("\r\n|\r|\n|\\Z")
TERMINAL = {"\n": "\\n", "\r": "\\r", "\t": "\\t", "\0": "\\0"}
# The types of values that are text, among them lists of texts.
TEXT_TYPES, LIST_TYPE = (1, 2, 6, 7), 7


# ---- units, and what is written of them


def units_in(data, order):
    return "".join(chr(int.from_bytes(data[at : at + 2], order)) for at in range(0, len(data) - 1, 2))


def units_of(text):
    return units_in(text.encode("utf-16-le", "surrogatepass"), "little")


def items_of(units):
    """Yields the offset of each character, and the character, or the number of an unpaired surrogate."""
    at = 0
    while at < len(units):
        unit = ord(units[at])
        low = ord(units[at + 1]) if at + 1 < len(units) else 0
        if 0xD800 <= unit < 0xDC00 <= low < 0xE000:
            yield at, chr(0x10000 + (unit - 0xD800) * 1024 + low - 0xDC00)
            at += 2
        else:
            yield at, unit if 0xD800 <= unit < 0xE000 else units[at]
            at += 1


def shown(units, in_quotes=False):
    written = ""
    for _, item in items_of(units):
        if isinstance(item, int):
            written += f"\\<{item:04X}>"
        elif in_quotes and item in '"\\':
            written += "\\" + item
        elif is_hidden(item):
            written += TERMINAL.get(item) or f"\\u{{{ord(item):x}}}"
        else:
            written += item
    return f'"{written}"' if in_quotes else written


def json_of(units):
    written = ""
    for _, item in items_of(units):
        if isinstance(item, int):
            written += f"\\u{item:04x}"
        elif item in '"\\':
            written += "\\" + item
        elif is_hidden(item):
            written += TERMINAL[item] if item in "\n\r\t" else f"\\u{ord(item):04x}"
        else:
            written += item
    return f'"{written}"'


# ---- the form of a file


def form_by_header(data):
    """Returns the form that a header without a BOM tells."""
    start = re.match(rb"[ \t]*", data).end()
    start = 0 if start == len(data) else start
    if data[start:].startswith(HEADERS[0].encode()):
        return "CP1252"
    if data[start:].startswith(HEADERS[1].encode()):
        return "UTF-8"
    for form in ("UTF-16LE", "UTF-16BE"):
        if any(data.startswith(header.encode(form.lower())) for header in HEADERS):
            return form
    return None


def form_of(data, asked):
    """Returns the form of a file and the length of its BOM, or None and what is said if the form is not known."""
    if asked:
        return asked.upper(), bom_len(data, asked.upper())
    for bom, form, length in ((b"\xef\xbb\xbf", "UTF-8", 3), (b"\xff\xfe", "UTF-16LE", 2), (b"\xfe\xff", "UTF-16BE", 2)):
        if data.startswith(bom):
            return form, length
    form = form_by_header(data)
    likely = likely_form(data)
    if form or not data or likely in ("UTF-16LE", "UTF-8"):
        return form or likely or "UTF-16LE", 0
    said = f"it looks like {likely}, which --form {likely} reads" if likely else "it looks like no form of Unicode; --form FORM says what it is"
    return None, f"no BOM, and {said}"


def character_of(page, byte):
    try:
        return bytes([byte]).decode(page)
    except UnicodeDecodeError:
        return chr(byte)


def text_in(data, form):
    """Returns the units of bytes, and where bytes are no text, and what is said of them."""
    if form in PAGES:
        return "".join(character_of(PAGES[form], byte) for byte in data), []
    if form.startswith("UTF-16"):
        units = units_in(data, "big" if form == "UTF-16BE" else "little")
        return units, [(len(units), f"half of a unit, {data[-1]:02x}")] if len(data) % 2 else []
    units, bad = "", []
    while data:
        try:
            units += units_of(data.decode())
            break
        except UnicodeDecodeError as fault:
            units += units_of(data[: fault.start].decode())
            bad.append((len(units), f"fault {data[fault.start]:02X}"))
            units += "\ufffd"
            data = data[fault.end :]
    return units, bad


# ---- the parts of an export


class Line:
    """The line at an offset: where it begins and ends, where the next one begins, and its first unit that is no blank."""

    def __init__(self, text, start):
        end = LINE_END.search(text, start)
        self.start, self.end, self.next = start, end.start(), end.end()
        self.body_start = re.compile(BLANKS).match(text, start, self.end).end()
        self.body = text[self.body_start : self.end]


def pieces_of(data, is_first):
    """Returns the bytes in a line as they are written, with their offsets; the offset of the backslash by which it goes on,
    if it does; and the comment, if it has one."""
    semicolon = data.find(";")
    comment = data[semicolon:] if semicolon >= 0 else None
    data = data if semicolon < 0 else data[:semicolon]
    start = re.match(BLANKS, data).end()
    content = data.rstrip(" \t\ufeff")
    backslash, end = None, len(content)
    if end > start and content.endswith("\\"):
        before = content[start:-1].rstrip(" \t\ufeff")
        if before.endswith(",") or is_first and not before:
            backslash, end = end - 1, start + len(before)
    pieces = []
    body = data[start:end]
    if body:
        at = start
        for piece in body.removesuffix(",").split(","):
            blanks = re.match(BLANKS, piece).end()
            pieces.append((at + blanks, piece[blanks:]))
            at += len(piece) + 1
    return pieces, backslash, comment


class Export:
    """What was read of a text: what is printed, and what is reported, by offset."""

    def __init__(self, text, form, is_json):
        self.text, self.form, self.is_json = text, form, is_json
        self.output, self.reports, self.after = "", [], []
        self.key, self.has_key, self.is_narrow = None, False, False
        at, is_first = 0, True
        if not text:
            self.reports.append((0, "no header"))
        while at < len(text):
            at = self.part(Line(text, at), is_first)
            is_first = False

    def note(self, at, what):
        self.found.append((at, what))

    def line_end(self, start, end):
        said = {"": "the line has no end", "\n": "a line feed alone", "\r": "a carriage return alone"}
        if self.text[start:end] in said:
            self.note(start, said[self.text[start:end]])

    def object(self, *pairs):
        if self.is_json:
            self.output += "{" + ",".join(f'"{name}":{value}' for name, value in pairs) + "}\n"

    def value(self, name, *pairs):
        key = "null" if self.key is None else json_of(self.key)
        self.object(("key", key), ("name", "null" if name is None else json_of(name)), *pairs)

    def part(self, line, is_first):
        """Reads a part, and returns where the next one begins."""
        self.found, self.printed, self.last, self.begin = [], None, line, line.start
        header = re.fullmatch(f"{BLANKS}({'|'.join(map(re.escape, HEADERS))})\ufeff*", self.text[line.start : line.end])
        if is_first and not header:
            self.note(line.start, "no header")
        if is_first and header:
            self.is_narrow = header[1] == "REGEDIT4" and not self.form.startswith("UTF-16")
        elif line.body.startswith("["):
            self.read_key(line)
        elif line.body[:1] in ('"', "@") and line.body:
            self.read_value(line)
        elif line.body and line.body[0] not in ";#":
            self.note(line.body_start, "neither a key nor a value")
        self.line_end(self.last.end, self.last.next)
        self.end_part(line.start)
        return self.last.next

    def end_part(self, start):
        for at, item in items_of(self.text[start : self.last.next]):
            if isinstance(item, int):
                self.note(start + at, f"fault {item:04X}")
            elif item == "\0":
                self.note(start + at, "a NUL")
        self.reports += sorted(self.found, key=lambda found: found[0]) + self.after
        self.after = []
        if not self.is_json:
            printed = shown(self.text[start : self.last.end].strip("\ufeff")) if self.printed is None else self.printed
            self.output += printed + "\n"

    def read_key(self, line):
        close = line.body.rfind("]")
        name = line.body[1:close]
        if close < 0 or name[:1] in (" ", "\t", "\ufeff") and name:
            return self.note(line.body_start, "no key")
        is_deleted = name.startswith("-")
        path = name[is_deleted:]
        if not path:
            self.key, self.has_key = None, False
            return self.note(line.body_start, "no key")
        root = path.split("\\")[0]
        if re.sub("[a-z]", lambda letter: letter[0].upper(), root) not in ROOTS:
            self.note(line.body_start + 1 + is_deleted, f"no root of a registry, {shown(root)}")
        self.key, self.has_key = None if is_deleted else path, not is_deleted
        self.object(("key", json_of(path)), *([("delete", "true")] if is_deleted else []))

    def unescaped(self, start, end):
        """Returns the text between two offsets without its escapes."""
        units, at = "", start
        while at < end:
            if self.text[at] != "\\":
                units += self.text[at]
                at += 1
                continue
            letter = self.text[at + 1 : at + 2] if at + 1 < end else ""
            if not letter or letter not in 'nr"\\':
                self.note(at, "no escape")
            units += {"n": "\n", "r": "\r", "": "\\"}.get(letter, letter)
            at += 2
        return units

    def read_value(self, line):
        if not self.has_key:
            self.note(line.body_start, "a value under no key")
        found = re.match(rf'(@|"((?:[^"\\]|\\.)*)"){BLANKS}={BLANKS}', line.body, re.S)
        if not found:
            return self.note(line.body_start, "no name and =")
        name = None if found[2] is None else self.unescaped(line.body_start + 1, line.body_start + 1 + len(found[2]))
        at = line.body_start + found.end()
        data = self.text[at : line.end]
        kind = re.match(r"hex(?:\(([0-9a-fA-F]{1,8})\))?:", data)
        number = re.match(rf"dword:{BLANKS}([0-9a-fA-F]{{1,8}}){BLANKS}(;|\Z)", data)
        if data.startswith('"'):
            self.read_string(line, name, at + 1)
        elif kind:
            self.read_bytes(line, name, int(kind[1], 16) if kind[1] else 3, at + kind.end())
        elif number:
            self.value(name, ("type", 4), ("number", int(number[1], 16)))
        elif data.startswith("dword:"):
            self.note(at, "no number")
        elif re.match(rf"-{BLANKS}(;|\Z)", data):
            self.value(name, ("delete", "true"))
        else:
            self.note(at, "neither text, a number nor bytes")

    def read_string(self, line, name, start):
        """Reads a string, which may end in a later line, if nothing follows it there."""
        whole = re.compile(r'(?:[^"\\]|\\.)*"', re.S).match(self.text, start)
        if whole and whole.end() <= line.end:
            units = self.unescaped(start, whole.end() - 1)
            behind = re.compile(BLANKS).match(self.text, whole.end(), line.end).end()
            if self.text[behind : line.end][:1] not in ("", ";"):
                return self.note(behind, "more behind the string")
            return self.value(name, ("type", 1), ("text", json_of(units.removesuffix("\0"))))
        if whole:
            last = Line(self.text, whole.end())
            if last.body[:1] in ("", ";"):
                self.last = last
                units = self.unescaped(start, whole.end() - 1)
                return self.value(name, ("type", 1), ("text", json_of(units.removesuffix("\0"))))
        self.note(start, "the string has no end")
        self.unescaped(start, line.end)

    def line_of_bytes(self, at):
        """Returns the next line that has bytes, or None, and the lines before it that have none."""
        others = []
        while at < len(self.text):
            line = Line(self.text, at)
            if line.body and line.body[0] != ";":
                return (None if line.body[0] in '["@' else line), others
            others.append(line)
            at = line.next
        return None, others

    def read_bytes(self, line, name, kind, start):
        written, values, comments, is_valid, at = [], [], [], True, start
        while True:
            pieces, backslash, comment = pieces_of(self.text[at : line.end], at == start)
            for offset, piece in pieces:
                written.append(piece)
                if re.fullmatch("[0-9a-fA-F]{1,2}", piece):
                    values.append(int(piece, 16))
                else:
                    is_valid = False
                    self.note(at + offset, f"no byte, {shown(piece)}")
            comments += [comment] if comment else []
            self.last = line
            if backslash is None:
                break
            following, others = self.line_of_bytes(line.next)
            if not following:
                is_valid = False
                self.note(at + backslash, "the value goes on, but no bytes follow")
                break
            for ended in (line, *others):
                self.line_end(ended.end, ended.next)
            comments += [other.body for other in others if other.body]
            line, at = following, following.start
        text = self.give(name, kind, bytes(values)) if is_valid else ""
        prefix = shown(self.text[self.begin : start].strip("\ufeff"))
        self.printed = prefix + "".join(f" {shown(piece)}" for piece in written) + text + "".join(f" {shown(comment.strip(chr(0xFEFF)))}" for comment in comments)

    def give(self, name, kind, data):
        """Adds the object of bytes, and returns their text as it is printed, if their type is text."""
        if kind not in TEXT_TYPES:
            self.value(name, ("type", kind), ("bytes", f'"{data.hex()}"'))
            return ""
        units, is_whole = (text_in(data, self.form)[0], True) if self.is_narrow else (units_in(data, "little"), len(data) % 2 == 0)
        if not is_whole:
            self.after.append((self.begin, f"half of a unit, {data[-1]:02x}"))
            self.value(name, ("type", kind), ("bytes", f'"{data.hex()}"'))
        elif kind == LIST_TYPE:
            content = units.removesuffix("\0")
            texts = content.removesuffix("\0").split("\0") if content else []
            self.value(name, ("type", kind), ("texts", f"[{','.join(map(json_of, texts))}]"))
        else:
            self.value(name, ("type", kind), ("text", json_of(units.removesuffix("\0"))))
        return f" {shown(units, True)}" if data else ""


# ---- what is written


def reported(text, bad, reports):
    """Returns the reports, a line each, with those of bytes that are no text where these are. That a line ends in a feed or
    a return alone is said once."""
    starts = [0] + [end.end() for end in re.finditer("\r\n|\r|\n", text)]
    written, told, bad = [], set(), list(bad)

    def write(at, what):
        line = bisect.bisect_right(starts, at) - 1
        written.append(f"line {line + 1}, unit {at - starts[line]}: {what}\n")

    for at, what in reports:
        while bad and bad[0][0] < at:
            write(*bad.pop(0))
        if what not in told or what not in ("a line feed alone", "a carriage return alone"):
            write(at, what)
        told.add(what)
    for at, what in bad:
        write(at, what)
    return "".join(written)


def is_utf8(data):
    try:
        data.decode()
        return True
    except UnicodeDecodeError:
        return False


def read(options, data):
    """Returns the output, the notes and the reports."""
    form, skip = form_of(data, options.get("--form"))
    if form is None:
        return "", "", f"{skip}\n"
    text, bad = text_in(data[skip:], form)
    export = Export(text, form, "--json" in options)
    note = ""
    if form == "CP1252" and "--form" not in options and not data.isascii() and is_utf8(data):
        note = "note: it looks like UTF-8, which --form UTF-8 reads\n"
    is_big = "line 1, unit 0: the high byte of each unit is first\n" if form == "UTF-16BE" else ""
    return export.output, note, is_big + reported(text, bad, export.reports)


def run(options, files):
    """Returns standard output, standard error and status for files by their names."""
    output, errors, is_well = "", "", True
    for name, data in files:
        written, notes, said = read(options, data)
        output += written
        errors += "".join((f"{name}: " if len(files) > 1 else "") + f"{line}\n" for line in (notes + said).splitlines())
        is_well &= not said
    return output.encode(), errors.encode(), 0 if is_well else 1


# ---- files


FIVE = "Windows Registry Editor Version 5.00\r\n"


def wide(text):
    return b"\xff\xfe" + text.encode("utf-16-le", "surrogatepass")


# The description of a case, its options, and its file.
FILES = [
    ("a value of a key", {}, wide(FIVE + '\r\n[HKCU]\r\n"x"="1"\r\n\r\n')),
    ("no bytes", {}, wide('REGEDIT4\r\n[HKCU]\r\n"e"=hex:\r\n')),
    ("no bytes of a type", {}, wide('REGEDIT4\r\n[HKCU]\r\n"z"=hex(0):\r\n')),
    ("no texts", {}, wide('REGEDIT4\r\n[HKCU]\r\n"m"=hex(7):\r\n')),
    ("values and a key that are deleted", {}, wide('REGEDIT4\r\n[HKCU]\r\n"n"=-\r\n@=-\r\n[-HKCU]\r\n')),
    ("a string over lines", {}, wide('REGEDIT4\r\n[HKCU]\r\n@="\r\n[no key]\r\n"\r\n"t"="a\rb\nc"\r\n@=""\r\n')),
    ("a comment, brackets, escapes and a number", {}, wide('REGEDIT4\r\n[HKCU]\r\n; no value\r\n[HKCU\\[x]]\r\n"a\\\\b\\"c"="🐟 \\"d\\\\"\r\n@=dword:1f\r\n')),
    ("bytes over lines, and half of a unit among them", {}, wide('REGEDIT4\r\n[HKCU]\r\n@=hex(2):41,00,0a,00,22,00,3d,d8,00,\\\r\n  00,5C\r\n"w"=hex(8000000a):0A\r\n')),
    ("a value that goes on before a key", {}, wide('REGEDIT4\r\n[HKCU]\r\n"x"=hex:01,02,\\\r\n[HKU]\r\n"y"="1"\r\n')),
    ("and before values and a comment", {}, wide('REGEDIT4\r\n[HKCU]\r\n"x"=hex:00,01,\\\r\n"y"=hex:02,\\\r\n@=-\r\n"z"=hex:03,\\\r\n\r\n"w"=hex:04,\\\r\n; 05\r\n')),
    ("and at the end", {}, wide('REGEDIT4\r\n[HKCU]\r\n"x"=hex:00,01,\\\r\n  02,\\\r\n')),
    ("a string without its end before a key", {}, wide('REGEDIT4\r\n[HKCU]\r\n"s"="no end\r\n[HKU]\r\n"y"="1"\r\n')),
    ("and at the end of the file", {}, wide('REGEDIT4\r\n[HKCU]\r\n"s"="no end\r\n')),
    ("a sign is no byte", {}, wide('REGEDIT4\r\n[HKCU]\r\n"p"=hex:+1\r\n')),
    ("four digits are no byte", {}, wide('REGEDIT4\r\n[HKCU]\r\n"l"=hex:0001\r\n')),
    ("what is no byte", {}, wide('REGEDIT4\r\n[HKCU]\r\n"c"=hex:01,,2,xz,\\\r\n  , 3,\u6df1\r\n@=hex:\\\r\n')),
    ("a sign is no number", {}, wide('REGEDIT4\r\n[HKCU]\r\n"p"=dword:+1\r\n')),
    ("too many digits of a number", {}, wide('REGEDIT4\r\n[HKCU]\r\n"l"=dword:00000000000001\r\n')),
    ("what is no number", {}, wide('REGEDIT4\r\n[HKCU]\r\n"n"=dword:\r\n"z"=dword:0000zz00\r\n')),
    ("no type of bytes", {}, wide('REGEDIT4\r\n[HKCU]\r\n"z"=hex(zz):01\r\n')),
    ("no bytes and no number", {}, wide('REGEDIT4\r\n[HKCU]\r\n"a"=hexa:01\r\n')),
    ("a type without its bracket", {}, wide('REGEDIT4\r\n[HKCU]\r\n"o"=hex(2:01\r\n')),
    ("types that are too long or missing", {}, wide('REGEDIT4\r\n[HKCU]\r\n"l"=hex(000000001):\r\n"n"=hex():\r\n"h"=hex\r\n')),
    ("an escaped quote ends no string", {}, wide('REGEDIT4\r\n[HKCU]\r\n"s"="x\\"\r\n')),
    ("more behind a string", {}, wide('REGEDIT4\r\n[HKCU]\r\n"q"="a"b"\r\n')),
    ("what is no escape, blanks, and names without a value", {}, wide('REGEDIT4\r\n[HKCU]\r\n"e"="C:\\dir\\\r\nx\\y"\r\n"n\\m"=-\r\n"d" ="1"\r\n"e"\r\n@\r\n@="a" \r\n')),
    ("what is no key, and a value under a key that is deleted", {}, wide('REGEDIT4\r\n[HKCU]\r\n[HKCU\r\n[]\r\n[-]\r\n[-HKU]\r\n"v"=-\r\nno value\r\n [HKCU]\r\n\ufeff\r\n')),
    ("values under no key", {}, wide('REGEDIT4\r\n"y"="1"\r\n@=hex:01\r\n')),
    ("no header", {}, wide('[HKCU]\r\n@=-\r\n')),
    ("another header", {}, wide('REGEDIT5\r\n')),
    ("no text behind a BOM", {}, wide('')),
    ("carriage returns alone", {}, wide('REGEDIT4\r\r\n[HKCU]\r@=-\r\n; a\rb\r\n')),
    ("line feeds alone, and no end", {}, wide('REGEDIT4\n[HKCU]\n"s"="1"\n\r\n\n@=-')),
    ("unpaired surrogates", {}, wide('REGEDIT4\r\n[HKCU]\r\n"f"="\ud83d"\r\n"\udc1f🐟\ud83d"=hex:\ud800\r\n')),
    ("REGEDIT4 in bytes", {}, b'REGEDIT4\r\n[HKCU]\r\n\r\n'),
    ("no form", {}, b'\xff'),
    ("big endian", {}, b'\xfe\xff\x00R\x00E\x00G\x00E\x00D\x00I\x00T\x004\x00\r\x00\n\x00[m\xf1\x00]\x00\r\x00\n'),
    ("half of a unit behind a line", {}, b'\xff\xfeR\x00E\x00G\x00E\x00D\x00I\x00T\x004\x00\r\x00\n\x00A'),
    ("half of a unit in a line", {}, b'\xff\xfeR\x00E\x00G\x00E\x00D\x00I\x00T\x004\x00\r\x00\n\x00[\x00K\x00]\x00\r'),
    ("texts of REGEDIT4 in its code page", {}, b'REGEDIT4\r\n[HKCU\\caf\xe9]\r\n"p"=hex(2):25,50,41,54,48,25,00\r\n"m"=hex(7):e9,00,62,00,00\r\n"o"=hex(2):41,42,43\r\n@="\x80"\r\n'),
    ("in another code page", {'--form': 'cp1251'}, b'REGEDIT4\r\n[HKCU]\r\n"\xef"=hex(1):ef,00\r\n'),
    ("REGEDIT4 that looks like UTF-8", {}, 'REGEDIT4\r\n[HKCU]\r\n@="café"\r\n'.encode()),
    ("another header in bytes, and none", {}, b"REGEDIT\r\nHKEY_CLASSES_ROOT\\foo = bar\r\n"),
    ("a comment before the header", {}, b"; c\r\nWindows Registry Editor Version 5.00\r\n[HKCU]\r\n"),
    ("a comment behind a string over lines", {}, wide('REGEDIT4\r\n[HKCU]\r\n@="a\r\nb" ; c\r\n"x"="c\r\nd" e\r\n')),
    ("a value under a deleted key as an object", {"--json": True}, wide('REGEDIT4\r\n[-HKCU]\r\n@="a"\r\n[HKCU]\r\n@="b"\r\n')),
    ("a BOM of the form that is asked for", {"--form": "UTF-16LE"}, wide('REGEDIT4\r\n[HKCU]\r\n')),
    ("and in UTF-8", {'--form': 'UTF-8'}, b'REGEDIT4\r\n[HKCU]\r\n@=hex(1):d0,bf\r\n@="\xd0\xbf"\r\n'),
    ("little endian without a BOM, and half of a unit", {}, b'W\x00i\x00n\x00d\x00o\x00w\x00s\x00 \x00R\x00e\x00g\x00i\x00s\x00t\x00r\x00y\x00 \x00E\x00d\x00i\x00t\x00o\x00r\x00 \x00V\x00e\x00r\x00s\x00i\x00o\x00n\x00 \x005\x00.\x000\x000\x00\r\x00\n\x00[\x00H\x00K\x00C\x00U\x00\\\x00\xf1m]\x00\r\x00\n\x00'),
    ("big endian without a BOM", {}, b'\x00W\x00i\x00n\x00d\x00o\x00w\x00s\x00 \x00R\x00e\x00g\x00i\x00s\x00t\x00r\x00y\x00 \x00E\x00d\x00i\x00t\x00o\x00r\x00 \x00V\x00e\x00r\x00s\x00i\x00o\x00n\x00 \x005\x00.\x000\x000\x00\r\x00\n\x00[\x00H\x00K\x00C\x00U\x00\\m\xf1\x00]\x00\r\x00\n'),
    ("big endian, whose bytes of values are little endian", {}, b'\xfe\xff\x00W\x00i\x00n\x00d\x00o\x00w\x00s\x00 \x00R\x00e\x00g\x00i\x00s\x00t\x00r\x00y\x00 \x00E\x00d\x00i\x00t\x00o\x00r\x00 \x00V\x00e\x00r\x00s\x00i\x00o\x00n\x00 \x005\x00.\x000\x000\x00\r\x00\n\x00[\x00H\x00K\x00C\x00U\x00]\x00\r\x00\n\x00@\x00=\x00h\x00e\x00x\x00(\x001\x00)\x00:\x00f\x001\x00,\x006\x00d\x00\r\x00\n'),
    ("version 5 in UTF-8", {}, b'Windows Registry Editor Version 5.00\r\n[HKCU\\\xe6\xb7\xb1]\r\n@=hex(1):f1,6d\r\n'),
    ("and behind a BOM", {}, b'\xef\xbb\xbfWindows Registry Editor Version 5.00\r\n[HKCU\\\xe6\xb7\xb1]\r\n'),
    ("faults of UTF-8", {}, b'Windows Registry Editor Version 5.00\r\n[HKCU]\r\n@="\xe9a"\r\n"\xff"=-\r\n"x\r\n\xc3'),
    ("UTF-8 without a header", {}, b'REGEDIT5\r\n[HKCU]\r\n'),
    ("big endian without a header", {}, b'\x00R\x00E\x00G\x00E\x00D\x00I\x00T\x005\x00\r\x00\n'),
    ("little endian without a header", {}, b'R\x00E\x00G\x00E\x00D\x00I\x00T\x005\x00\r\x00\n\x00'),
    ("no bytes", {}, b''),
    ("a BOM before every piece", {}, wide('Windows Registry Editor Version 5.00\ufeff\r\n\ufeff\r\n\ufeff[HKCU]\ufeff\r\n\ufeff@="\ufeffa"\ufeff\r\n\ufeff"x"=hex:01,\\\ufeff\r\n\ufeff  02\ufeff\r\n\ufeff"y"=dword:1\ufeff\r\n')),
    ("escapes of line ends", {}, wide(FIVE + '[HKCU]\r\n"a\\r\\n"="\\n\\\\n"\r\n"b"="\\t\\0"\r\n')),
    ("blanks, comments and text behind a bracket", {}, wide(' \tREGEDIT4\r\n  [HKCU\\a] text]\r\n\t[HKCU\\b] text\r\n "a" = "1" ; one\r\n\t@ =\t- ; none\r\n"b"=  dword: 1f ; two\r\n"c"=hex(1): ; three\r\n ; four\r\n#five\r\n \t\r\n')),
    ("bytes as regedit takes them", {}, wide('REGEDIT4\r\n[HKCU]\r\n"a"=hex: 1,a, \\ ; one\r\n\t2,\\\r\n\r\n; two\r\n \\\r\n@=hex:\\\r\n\t3 , 4,;three\r\n5,\r\n@=hex(1):41,0,\r\n')),
    ("bytes that go on without a comma", {}, wide('REGEDIT4\r\n[HKCU]\r\n@=hex:01\\\r\n  02\r\n@=hex:,\r\n@=hex:,\\\r\n@=hex:100\r\n')),
    ("data of no kind", {}, wide('REGEDIT4\r\n[HKCU]\r\n@=-x\r\n@=\r\n@=dword:1 2\r\n[ HKCU]\r\n@=1\r\n')),
    ("text by the type of a value alone", {}, wide(FIVE + '[HKCU]\r\n"a"=hex:41,00\r\n"b"=hex(0):41,00\r\n"c"=hex(1):41,00\r\n"d"=hex(2):41,00\r\n"e"=hex(3):41,00\r\n"f"=hex(6):41,00\r\n"g"=hex(7):41,00\r\n"h"=hex(b):41,00\r\n"i"=hex(80000001):41,00\r\n')),
    ("roots in letters of either case, and what is none", {}, wide(FIVE + '[HKEY_CURRENT_USR\\A]\r\n[hkey_local_machine\\a]\r\n[HKEY_CLASSES_ROOT]\r\n[HKEY_USERS\\A]\r\n[HKEY_CURRENT_CONFIG\\A]\r\n[HKEY_PERFORMANCE_DATA\\A]\r\n[HKEY_DYN_DATA\\A]\r\n[HKLM]\r\n[hkcr\\a]\r\n[-HKCC\\A]\r\n[HKLMX]\r\n[-HK]\r\n')),
    ("nothing reaches a terminal that would change it", {}, wide(FIVE + '[HKCU\\\x1b]2;\x07]\r\n@="\u202e\x00"\r\n"x"=hex:\x1b\r\n')),
    ("line ends alone among bytes, and a comment behind a string", {}, wide('REGEDIT4\r\n[HKCU]\r\n@=hex:01,\\\n02\r03\r\n@="a\n" ; b\r\n')),
    ("objects", {"--json": True}, wide(FIVE + '[HKEY_LOCAL_MACHINE\\A]\r\n"x"="a\\"\\\\\\n\t"\r\n@=dword:5\r\n"y"=hex(7):61,00,00,00,62,00,3d,d8,00,00,00,00\r\n"z"=hex:00,ff\r\n"e"=hex(2):\r\n"g"=-\r\n"h"=hex(2):41,00,00,00\r\n"i"=hex(1):41,00,42\r\n[-HKCU\\🐟\x1b]\r\n')),
    ("no objects of what is damaged", {"--json": True}, wide('REGEDIT4\r\n@="a"\r\n[HKCU]\r\n"\udc00"="b\r\n"c"="\ud83d"\r\n"d"=hex:zz\r\n[]\r\n')),
    ("lists of texts", {"--json": True}, wide('REGEDIT4\r\n[HKU]\r\n@=hex(7):00,00\r\n@=hex(7):00,00,00,00\r\n@=hex(7):41,00\r\n@=hex(7):\r\n@=hex(7):41,00,00,00,00,00,00,00\r\n')),
]
NAMES = ["@", '"a"', '"b\\\\c"', '"\\n"', '"é🐟"', '"no end', '"\\x"', '"\ud83d"']
DATA = ['"text"', '"\\"q\\" \\\\"', '"a\\nb"', '"more" x', '"no end', "dword:1f", "dword: 00000000 ", "dword:x", "dword:", "-", "- ;c", "text", ""]
KEYS = ["[HKCU\\a]", "[HKLM]", "[-HKCU\\a]", "[hkey_users\\深]", "[HKCX]", "[HKCU] text", "[]", "[-]", "[HKCU", "[ HKCU]", " \t[HKCU\\b]]"]
OTHERS = ["", "", " \t", "; comment", "#comment", "text", "\ufeff", "\x1b[2J", "\0"]
PIECES = ["00", "41", "5c", "d8", "3d", "0", "a", "FF", "", "zz", "100", " 1 "]


def random_bytes(random):
    kind = random.choice(["hex:", "hex(0):", "hex(1):", "hex(2):", "hex(7):", "hex(7):", "hex(b):", "hex(80000001):", "hex(2", "hex():"])
    pieces = [random.choice(PIECES[: 8 if random.randrange(6) else len(PIECES)]) for _ in range(random.randrange(7))]
    joined = ""
    for piece in pieces:
        joined += piece + random.choice([",", ",", ",", ",", ",\\\r\n  ", ", \\ ;c\r\n\t", ",\\\n", ",\\\r\n\r\n; c\r\n", "\\\r\n", " , "])
    return kind + (joined if random.randrange(3) == 0 else joined.rstrip(",\\ \t\r\n"))


def random_line(random):
    kind = random.randrange(10)
    if kind == 0:
        return random.choice(KEYS)
    if kind == 1:
        return random.choice(OTHERS)
    blank = lambda: random.choice(["", "", "", "", " ", "\t"])
    data = random_bytes(random) if random.randrange(2) else random.choice(DATA)
    return blank() + random.choice(NAMES) + blank() + random.choice(["=", "=", "=", "=", "=", ":"]) + blank() + data


def random_file(random):
    header = random.choice([HEADERS[0], HEADERS[1], HEADERS[1], "  " + HEADERS[0], "REGEDIT5", ""])
    ends = ["\r\n"] * 12 + ["\n", "\r", "\r\r\n"]
    lines = [header, "[HKCU\\x]", *(random_line(random) for _ in range(random.randrange(8)))]
    text = "".join(line + random.choice(ends) for line in lines)
    if random.randrange(4) == 0:
        text = text[: -random.randrange(1, 5)]
    form = random.choice(["utf-16-le", "utf-16-le", "utf-16-be", "utf-8", "cp1252"])
    bom = random.choice(["", "\ufeff", "\ufeff"]) if form != "cp1252" else ""
    data = (bom + text).encode(form, "surrogatepass" if form.startswith("utf-16") else "replace")
    if random.randrange(5) == 0 and data:
        at = random.randrange(len(data))
        data = data[:at] + bytes([random.randrange(256)]) + data[at + random.randrange(2) :]
    return data


def words_of(options):
    words = []
    for name, value in options.items():
        words += [name] if value is True else [name, value]
    return words


def question(random, folder):
    files = [(f"f{number}.reg", random_file(random)) for number in range(random.choice([1, 1, 1, 2]))]
    for name, data in files:
        with open(os.path.join(folder, name), "wb") as file:
            file.write(data)
    options = {"--json": True} if random.randrange(3) == 0 else {}
    if random.randrange(6) == 0:
        options["--form"] = random.choice(["UTF-8", "UTF-16LE", "UTF-16BE", "CP1251", "cp1252"])
    return [*words_of(options), *(name for name, _ in files)], *run(options, files)


def cases():
    yield "wrong words", [], b"", b"", f"registry: FILE is missing\n{USAGE}".encode(), 2
    for about, options, data in FILES:
        yield about, [*words_of(options), "{}"], data, *run(options, [("{}", data)])
    yield "two files", ["{}", "{}"], b"REGEDIT4\r\n", b"REGEDIT4\nREGEDIT4\n", b"", 0
    yield "the version", ["--version"], b"", b"registry 0.2.0\n", b"", 0
    yield "no such form", ["--form", "EBCDIC", "{}"], b"", b"", f"registry: '--form' has no value 'EBCDIC'\n{USAGE}".encode(), 2
    yield "no such file", ["none.reg"], b"", b"", b"registry: none.reg: No such file or directory (os error 2)\n", 1
    yield "a directory", ["."], b"", b"", b"registry: .: Is a directory (os error 21)\n", 1
    yield "no such option", ["--jsn", "{}"], b"", b"", f"registry: unknown option '--jsn'\n{USAGE}".encode(), 2
    yield "standard input", ["-"], b"REGEDIT4\r\n", b"REGEDIT4\n", b"", 0
