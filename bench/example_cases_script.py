"""What `example_script` prints: worked out from the calls alone, on a list of code units and on a list of
characters."""

import os

from example_forms import is_hidden, likely_form

NAMES = ["string", "length", "indexOf", "isWellFormed", "toWellFormed", "codePointAt", "slice", "insert", "remove", "replace"]
USAGE = b"script: FILE is missing\nusage: script FILE..\n"
JSON_ESCAPES = {'"': '"', "\\": "\\", "/": "/", "b": "\b", "f": "\f", "n": "\n", "r": "\r", "t": "\t"}
# What is written for characters that would change what a terminal shows.
TERMINAL = {"\n": "\\n", "\r": "\\r", "\t": "\\t", "\0": "\\0"}
ESCAPES = {"\0": "\\0", "\t": "\\t", "\r": "\\r", "\n": "\\n", "'": "\\'", '"': '\\"', "\\": "\\\\"}
# Characters of random inputs that are not printed as they are.
HIDDEN = "\x7f\u00ad\u0301\u200b"


def safe(text):
    """Returns a text as it is written where a terminal may show it."""
    return "".join(TERMINAL.get(c) or (f"\\u{{{ord(c):x}}}" if is_hidden(c) else c) for c in text)


class Damage(Exception):
    """What is wrong in a line, and at which of its units."""


def units_of(text):
    data = text.encode("utf-16-le", "surrogatepass")
    return [data[at] + 256 * data[at + 1] for at in range(0, len(data), 2)]


def items_of(units):
    """Returns each character as a text, and each unpaired surrogate as its number."""
    items, at = [], 0
    while at < len(units):
        unit = units[at]
        following = units[at + 1] if at + 1 < len(units) else 0
        if 0xD800 <= unit < 0xDC00 <= following < 0xE000:
            items.append(chr(0x10000 + (unit - 0xD800) * 1024 + following - 0xDC00))
            at += 2
        else:
            items.append(unit if 0xD800 <= unit < 0xE000 else chr(unit))
            at += 1
    return items


def escaped(char):
    is_escaped = char in HIDDEN or ord(char) < 32 or 0x7F <= ord(char) < 0xA0 or char == "\u202e"
    return ESCAPES.get(char) or (f"\\u{{{ord(char):x}}}" if is_escaped else char)


def shown(units):
    items = items_of(units)
    return '"' + "".join(f"\\<{item:X}>" if isinstance(item, int) else escaped(item) for item in items) + '"'


def shown_char(char):
    return "'" + (char if char == '"' else escaped(char)) + "'"


class Line:
    """A line, read from its beginning."""

    def __init__(self, text):
        self.text, self.rest = text, text

    def fail(self, what, unit=None):
        offset = len(units_of(self.text)) - len(units_of(self.rest)) if unit is None else unit
        raise Damage(offset, what)

    def word(self):
        word, _, self.rest = self.rest.partition(" ")
        return word

    def offset(self):
        """Returns a number, or None if the line has ended."""
        if not self.rest:
            return None
        before = self.rest
        word = self.word()
        digits = word[1:] if word.startswith("-") else word
        if not digits or any(digit not in "0123456789" for digit in digits):
            self.rest = before
            self.fail("no place")
        return int(word)

    def place(self):
        """Returns a number that is not negative."""
        before = self.rest
        number = self.offset()
        if number is None or number < 0:
            self.rest = before
            self.fail("no place")
        return number

    def end(self):
        if self.rest:
            self.fail("too many words")

    def escaped_units(self):
        """Returns the units of a text: in quotes, or up to the end of the line."""
        in_quotes = self.rest.startswith('"')
        units, text, at = [], self.rest, int(in_quotes)
        while at < len(text):
            if text[at] == '"' and in_quotes:
                rest = text[at + 1 :]
                self.rest = rest[1:] if rest.startswith(" ") else rest
                return units
            if text[at] != "\\":
                units += units_of(text[at])
                at += 1
                continue
            letter = text[at + 1 : at + 2]
            digits = text[at + 2 : at + 6]
            if letter == "u" and len(digits) == 4 and all(digit in "0123456789abcdefABCDEF" for digit in digits):
                units.append(int(digits, 16))
                at += 6
            elif letter in JSON_ESCAPES and letter:
                units += units_of(JSON_ESCAPES[letter])
                at += 2
            else:
                self.rest = text[at:]
                self.fail("bad escape")
        self.rest = ""
        if in_quotes:
            self.fail("no quote at the end")
        return units

    def edit_text(self):
        before = self.rest
        items = items_of(self.escaped_units())
        if any(isinstance(item, int) for item in items):
            self.rest = before
            self.fail("half of a pair in an edit")
        self.end()
        return "".join(items)


def edit(units, name, line):
    """Returns the new units, and the result."""
    first = line.place()
    second = line.place() if name == "replace" else first
    text = line.edit_text() if name != "remove" else ""
    line.end()
    items = items_of(units)
    at = 0
    for item in items:
        if isinstance(item, int):
            return units, f"not well formed, fault {item:04X} at unit {at}"
        at += len(units_of(item))
    reply = "Done"
    if name == "insert" and first <= len(items):
        items[first:first] = [text]
    elif name == "replace" and first <= second <= len(items):
        items[first:second] = [text]
    elif name == "remove" and first < len(items):
        reply = f"Char({shown_char(items.pop(first))})"
    else:
        reply = "BadRange" if name == "replace" else "BadPlace"
    new = units_of("".join(items))
    return new, f"[{reply}] {shown(new)} {shown(new)}"


def answer(units, text):
    """Returns the new units, and the result."""
    line = Line(text)
    name = line.word()
    if name not in NAMES:
        line.fail("no such call", 0)
    if name in ("insert", "remove", "replace"):
        return edit(units, name, line)
    if name == "string":
        new = line.escaped_units()
        line.end()
        return new, shown(new)
    if name == "length":
        line.end()
        return units, str(len(units))
    if name == "indexOf":
        # JavaScript makes a text of the value of an argument that is left out.
        needle = line.escaped_units() if line.rest else units_of("undefined")
        start = min(max(line.offset() or 0, 0), len(units))
        line.end()
        offsets = [at for at in range(start, len(units) + 1) if units[at : at + len(needle)] == needle]
        return units, str(offsets[0] if offsets else -1)
    if name == "codePointAt":
        at = line.offset() or 0
        line.end()
        items = items_of(units[at:]) if at >= 0 else []
        if not items:
            return units, "undefined"
        return units, f"U+{items[0] if isinstance(items[0], int) else ord(items[0]):04X}"
    if name == "slice":
        start = line.offset() or 0
        end = line.offset()
        line.end()
        return units, shown(units[start:end])
    line.end()
    items = items_of(units)
    if name == "isWellFormed":
        return units, "false" if any(isinstance(item, int) for item in items) else "true"
    repaired = "".join("\ufffd" if isinstance(item, int) else item for item in items)
    return units, shown(units_of(repaired))


def form_of(data):
    """Returns what a file is by its BOM, or looks like."""
    for bom, form in ((b"\xef\xbb\xbf", "UTF-8"), (b"\xff\xfe\0\0", "UTF-32"), (b"\0\0\xfe\xff", "UTF-32"), (b"\xff\xfe", "UTF-16"), (b"\xfe\xff", "UTF-16")):
        if data.startswith(bom):
            return form
    return likely_form(data) if data else None


def read(data):
    """Returns standard output, standard error and status."""
    units, output, reported = [], "", ""
    form = form_of(data)
    if form not in ("UTF-8", None):
        return b"", f"it looks like {form}, and calls are read in UTF-8\n".encode(), 1
    data = data[3:] if data.startswith(b"\xef\xbb\xbf") else data
    for number, line in enumerate(data.split(b"\n"), 1):
        line = line[:-1] if line.endswith(b"\r") else line
        try:
            text = line.decode()
        except UnicodeDecodeError as fault:
            valid = line[: fault.start].decode()
            offset = len(units_of(valid))
            output += f"{safe(valid)}\ufffd: no UTF-8 at unit {offset}\n"
            reported += f"line {number}, unit {offset}: no UTF-8\n"
            continue
        if not text:
            continue
        try:
            units, result = answer(units, text)
        except Damage as damage:
            offset, what = damage.args
            result = f"{what} at unit {offset}"
            reported += f"line {number}, unit {offset}: {what}\n"
        output += f"{safe(text)}: {result}\n"
    return output.encode(), reported.encode(), 1 if reported else 0


# Files and their descriptions, which are those of the cases.
FILES = [
    ("no calls", b""),
    ("an edit of a string that is not well formed leaves it", b"string \\uD800\nremove 99\nisWellFormed\ntoWellFormed\n"),
    ("and so where its place is there", b"string a\\uDC00\ninsert 0 x\nreplace 0 1 x\nremove 0\nslice 0 9\n"),
    ("an edit that is rejected leaves the string", "string é😀\nremove 2\ninsert 3 x\nreplace 1 3 x\nreplace 1 0 x\nslice 0 9\n".encode()),
    ("edits at places in characters", "string a😀b\nremove 1\ninsert 1 é😀\nreplace 0 2 ''\nreplace 1 1\ninsert 4\n".encode()),
    ("an escape is four hexadecimal digits", b"string x\\u12\nslice 0 9\nstring \\u+123\nstring \\u 123\nstring \\u\n"),
    ("and none is lost", "string 😀\\u00e\nstring \\uD83D\\uDE00\\u00E9\\u004g\nstring \\u00é1\nslice 0 9\n".encode()),
    ("a bad escape leaves the string", b"string ab\nstring \\u12\nslice 0 9\nindexOf \\u0\nslice 0 9\n"),
    ("escapes that are units", b"string \\uD83D\\uDE00\\u0061\\u000A\\u005Cu0041\\n\\\\\ncodePointAt 0\n"),
    ("a place is decimal digits alone", b"string ab\ncodePointAt +1\ncodePointAt -1\ncodePointAt 0x1\ncodePointAt\ncodePointAt  1\n"),
    ("and so in edits", b"string ab\nremove +1\ninsert +1 x\nreplace 0 +1 x\nreplace 0\nremove\nslice 0 +1\nslice 1\nslice 0 9\n"),
    ("places past the end", b"string ab\ncodePointAt 2\ncodePointAt 18446744073709551616\nslice 1 99999999999999999999\nslice 3 1\nremove 99999999999999999999\n"),
    ("code points", "string a😀\\uD83D\\uDE00\\uDE00\\uD83D\ncodePointAt 0\ncodePointAt 1\ncodePointAt 2\ncodePointAt 3\ncodePointAt 5\ncodePointAt 6\ncodePointAt 7\n".encode()),
    ("cuts that part a pair", "string a😀b\nslice 0 2\nslice 2 9\nslice 2 2\nslice 3 2\nslice 0 4\n".encode()),
    ("searches of units", "string a😀\\uDE00b\nindexOf 😀\nindexOf \\uDE00\nindexOf \\uDE00b\nindexOf c\nindexOf\n".encode()),
    ("faults and well-formed text", "string \\uDC00\\uD800😀\\uD800\ntoWellFormed\nisWellFormed\nstring \\uFFFD\nisWellFormed\n".encode()),
    ("what is shown in escapes", "string '\"\\\\\t\0\x7f\u0301\u200b\nremove 0\nremove 0\nremove 0\nremove 0\n".encode()),
    ("escapes of JSON", b'string \\"\\\\\\/\\b\\f\\n\\r\\t\nstring \\x\nstring \\\nlength\n'),
    ("text in quotes", 'string "a \\" 😀" \nstring "a" b\nstring "a\nindexOf "😀" 1\nindexOf "a" 1\ninsert 0 "\\n"\n'.encode()),
    ("arguments that are left out, and negative ones", b"string abcd\nslice\nslice -3\nslice -3 -1\nslice 1 -9\nslice -9 2\ncodePointAt\ncodePointAt -1\nindexOf \"d\" -1\nindexOf \"\" 9\nindexOf\nstring undefined\nindexOf\nstring abcd\nslice -99999999999999999999 99999999999999999999\n"),
    ("the length in units", "length\nstring 😀\\uD83D\nlength\nlength 1\n".encode()),
    ("half of a pair is no text of an edit", b"string ab\ninsert 0 \\uD83D\nreplace 0 1 \\uDE00x\ninsert 1 \\uD83D\\uDE00\nremove -1\n"),
    ("a BOM at the beginning", b"\xef\xbb\xbfstring a\n\xef\xbb\xbflength\n"),
    ("nothing reaches a terminal that would change it", "string \x1b[2J\u202e\x85\nlength\n\x1b]0;x\x07\n".encode()),
    ("no calls of such names", b"charAt 0\nisWellFormed x\ntoWellFormed x\ncodePointAt 0 x\nslice 0 1 x\nremove 0 x\n x\nIsWellFormed\n"),
    ("spaces at ends", b"isWellFormed \nstring \nstring  a\nslice 0 9 \ncodePointAt 1 \nremove 1 \ninsert 0 \n"),
    ("ends of lines", b"string a\r\nslice 0 9\r\r\n\r\n\nisWellFormed\r"),
    ("UTF-16 without a BOM", "string abc\nlength\n".encode("utf-16-le")),
    ("big endian behind a BOM", b"\xfe\xff" + "string abc\n".encode("utf-16-be")),
    ("UTF-32 behind a BOM", "string abc\n".encode("utf-32")),
    ("UTF-32 without a BOM", "string abc\n".encode("utf-32-be")),
    ("bytes that are no UTF-8", b"string \xc3\xa9\xff\n\xed\xa0\x80\nstring \xf0\x9f\x98\nisWellFormed\n"),
    ("units before a fault of a line", "string é😀".encode() + b"\xc3\n" + "é😀 1\nstring é😀\\u\n".encode()),
]
CHARACTERS = ["a", "b", "0", "e", "é", "😀", "深", "\ufffd", "'", '"', "\\", "\t", "\0", *HIDDEN, "\r"]
FRAGMENTS = ['"', "\\n", "\\\\", "\\/", '\\"', "\\uD83D", "\\uDE00", "\\ud83c", "\\u00e9", "\\u0041", "\\u12", "\\u+123", "\\u", "\\u00g1", " ", "aa", "x😀"]
WORDS = ["0", "1", "2", "3", "4", "9", "00", "99999999999999999999", "+1", "-1", "", "x", "1.5", "é"]


def random_text(random):
    return "".join(random.choice(random.choice([CHARACTERS, CHARACTERS, FRAGMENTS])) for _ in range(random.randrange(6)))


def random_line(random):
    kind, number = random.randrange(20), lambda: random.choice(WORDS[: 6 if random.random() < 0.8 else len(WORDS)])
    if kind == 0:
        return random.choice(["", "charAt 0", "é" + random_text(random), " ", "string"])
    name = random.choice(NAMES)
    if name in ("string", "indexOf"):
        return f"{name} {random_text(random)}"
    values = {"codePointAt": 1, "remove": 1, "insert": 1, "slice": 2, "replace": 2}.get(name, 0)
    line = " ".join([name] + [number() for _ in range(values)])
    if name in ("insert", "replace") or kind == 1:
        line += " " + random_text(random)
    return line


def random_file(random):
    lines = [random_line(random) for _ in range(random.randrange(1, 12))]
    lines.insert(0, "string " + "".join(random.choice(CHARACTERS + FRAGMENTS[:5]) for _ in range(random.randrange(8))))
    data = b"".join(line.encode() + random.choice([b"\n", b"\n", b"\n", b"\r\n"]) for line in lines)
    if random.randrange(12) == 0:
        at = random.randrange(len(data))
        data = data[:at] + random.choice([b"\xff", b"\xc0", b"\xf5"]) + data[at + random.randrange(2) :]
    return data[:-1] if random.randrange(3) == 0 else data


def question(random, folder):
    if random.randrange(50) == 0:
        return [], b"", USAGE, 2
    data = random_file(random)
    with open(os.path.join(folder, "calls"), "wb") as file:
        file.write(data)
    return ["calls"], *read(data)


def cases():
    yield "wrong words", [], b"", b"", USAGE, 2
    for name, data in FILES:
        yield name, ["{}"], data, *read(data)
    yield "no such file", ["none.txt"], b"", b"", b"script: none.txt: No such file or directory (os error 2)\n", 1
    yield "a directory", ["."], b"", b"", b"script: .: Is a directory (os error 21)\n", 1
    yield "standard input", ["-"], b"string a\n", *read(b"string a\n")
    yield "two files", ["{}", "{}"], b"string a\n", read(b"string a\n")[0] * 2, b"", 0
    yield "the version", ["--version"], b"", b"script 0.2.0\n", b"", 0
