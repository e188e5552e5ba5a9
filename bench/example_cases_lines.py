"""What `example_lines` prints: worked out with Python's codecs, on lists of code units."""

import os

from example_forms import FORMS as CODECS
from example_forms import bom_len, is_hidden, likely_form

USAGE = "usage: lines [-n] [-i] [-b] [--cr] [--form FORM | --order ORDER] WORD FILE..\n"
TERMINAL = {"\n": "\\n", "\r": "\\r", "\t": "\\t", "\0": "\\0"}


def units_of(text):
    data = text.encode("utf-16-le", "surrogatepass")
    return [data[at] + 256 * data[at + 1] for at in range(0, len(data), 2)]


def shown(units):
    """Returns the text of units as it is written where a terminal may show it."""
    written, at = "", 0
    while at < len(units):
        unit = units[at]
        low = units[at + 1] if at + 1 < len(units) else 0
        if 0xD800 <= unit < 0xDC00 <= low < 0xE000:
            written += chr(0x10000 + (unit - 0xD800) * 1024 + low - 0xDC00)
            at += 2
            continue
        at += 1
        char = chr(unit)
        if 0xD800 <= unit < 0xE000:
            written += f"\\<{unit:04X}>"
        elif is_hidden(char):
            written += TERMINAL.get(char) or f"\\u{{{unit:x}}}"
        else:
            written += char
    return written


def bom_of(data):
    """Returns the form of a BOM, and its length in bytes."""
    for bom, form in (
        (b"\xef\xbb\xbf", "UTF-8"),
        (b"\xff\xfe\0\0", "UTF-32LE"),
        (b"\0\0\xfe\xff", "UTF-32BE"),
        (b"\xff\xfe", "UTF-16LE"),
        (b"\xfe\xff", "UTF-16BE"),
    ):
        if data.startswith(bom):
            return form, len(bom)
    return None, 0


def units_in(data, form):
    """Returns the units, and the offsets and the messages of bytes that are no text."""
    units, bad = [], []
    if form.startswith("UTF-16"):
        order = "little" if form == "UTF-16LE" else "big"
        whole = len(data) // 2 * 2
        units = [int.from_bytes(data[at : at + 2], order) for at in range(0, whole, 2)]
        if len(data) != whole:
            bad.append((len(units), "part of a unit"))
    elif form.startswith("UTF-32"):
        order = "little" if form == "UTF-32LE" else "big"
        whole = len(data) // 4 * 4
        for at in range(0, whole, 4):
            number = int.from_bytes(data[at : at + 4], order)
            if number < 0x110000 and not 0xD800 <= number < 0xE000:
                units += units_of(chr(number))
            else:
                bad.append((len(units), f"fault {number:02X}"))
                units.append(0xFFFD)
        if len(data) != whole:
            bad.append((len(units), "part of a unit"))
    elif form == "UTF-8":
        while data:
            try:
                units += units_of(data.decode())
                break
            except UnicodeDecodeError as fault:
                units += units_of(data[: fault.start].decode())
                bad.append((len(units), f"fault {data[fault.start]:02X}"))
                units.append(0xFFFD)
                data = data[fault.end :]
    else:
        for byte in data:
            try:
                units += units_of(bytes([byte]).decode(form.lower()))
            except UnicodeDecodeError:
                units.append(byte)
    return units, bad


def lines_of(units, at_return):
    """Returns the lines. A line feed ends one, with a carriage return before it if there is one."""
    lines, line = [], []
    for unit in units:
        if unit == 10:
            lines.append(line[:-1] if line[-1:] == [13] else line)
            line = []
        else:
            line.append(unit)
    if line:
        lines.append(line)
    if not at_return:
        return lines
    ends = [at for at in range(len(units)) if ends_line(units, at, True)]
    starts = [0, *(at + 1 for at in ends)]
    lines = [units[start : end] for start, end in zip(starts, [*ends, len(units)])]
    # The carriage return of both belongs to the end. Behind the last end there is no line.
    lines = [line[:-1] if end < len(units) and units[end] == 10 and line[-1:] == [13] else line for line, end in zip(lines, [*ends, len(units)])]
    return lines if lines[-1] else lines[:-1]


def lower(units):
    return [unit + 32 if 65 <= unit <= 90 else unit for unit in units]


def offsets_of(line, word, any_case):
    if any_case:
        line, word = lower(line), lower(word)
    offsets, at = [], 0
    while at + len(word) <= len(line):
        if line[at : at + len(word)] == word:
            offsets.append(at)
            at += max(len(word), 1)
        else:
            at += 1
    return offsets


def ends_line(units, at, at_return):
    """Returns whether a line ends behind a unit."""
    return units[at] == 10 or at_return and units[at] == 13 and units[at + 1 : at + 2] != [10]


def place_of(units, at, at_return):
    """Returns the line and the unit of an offset."""
    ends = [index for index in range(at) if ends_line(units, index, at_return)]
    return f"line {len(ends) + 1}, unit {at - (ends[-1] + 1 if ends else 0)}"


def read(options, word, data):
    """Returns the lines that are printed, the reports, and whether all was read."""
    form, skip = bom_of(data)
    if "--form" in options or "--order" in options:
        asked = options.get("--form", {"little": "UTF-16LE", "big": "UTF-16BE"}.get(options.get("--order"))).upper()
        form, skip = asked, bom_len(data, asked)
        if asked in ("UTF-16", "UTF-32"):
            found, length = bom_of(data)
            if asked == "UTF-16" and data[:2] in (b"\xff\xfe", b"\xfe\xff"):
                form, skip = ("UTF-16LE" if data[:2] == b"\xff\xfe" else "UTF-16BE"), 2
            elif asked == "UTF-32" and found and found.startswith("UTF-32"):
                form, skip = found, 4
            else:
                form, skip = asked + "LE", 0
    elif form is None:
        likely = likely_form(data)
        if data and likely != "UTF-16LE":
            said = f"it looks like {likely}, which --form {likely} reads" if likely else "it looks like no form of Unicode; --form FORM says what it is"
            return [], [f"no BOM, and {said}"], False
        form = "UTF-16LE"
    units, bad = units_in(data[skip:], form)
    printed, needle = [], units_of(word)
    for number, line in enumerate(lines_of(units, "--cr" in options), 1):
        offsets = offsets_of(line, needle, "-i" in options)
        if offsets:
            first = f"{number}:" if "-n" in options else ""
            places = ",".join(map(str, offsets)) + ":" if "-b" in options else ""
            printed.append(first + places + shown(line))
    return printed, [f"{place_of(units, at, '--cr' in options)}: {what}" for at, what in bad], not bad


def run(options, word, files):
    """Returns standard output, standard error and status for files by their names."""
    output, reported, found, all_read = "", "", False, True
    for name, data in files:
        prefix = f"{name}:" if len(files) > 1 else ""
        lines, bad, is_read = read(options, word, data)
        output += "".join(f"{prefix}{line}\n" for line in lines)
        reported += "".join(f"{prefix + ' ' if prefix else ''}{what}\n" for what in bad)
        found |= bool(lines)
        all_read &= is_read
    return output.encode(), reported.encode(), 0 if found and all_read else 1 if all_read else 2


TEXT = "The lantern fish\r\nrises: LANTERN, Lantern\nno light\r\n\rlantern🐟lantern"
FILES = [
    ("lines with the word", {}, "lantern", TEXT.encode("utf-16")),
    ("their numbers", {"-n": True}, "lantern", TEXT.encode("utf-16")),
    ("in letters of either case", {"-i": True, "-n": True}, "LanTern", TEXT.encode("utf-16")),
    ("where it is in them", {"-b": True, "-i": True}, "lantern", TEXT.encode("utf-16")),
    ("a carriage return alone", {"-n": True, "--cr": True}, "l", "al\rbl\r\ncl\n\rdl\r".encode("utf-16")),
    ("and without the option", {"-n": True}, "l", "al\rbl\r\ncl\n\rdl\r".encode("utf-16")),
    ("an empty line between carriage returns", {"-n": True, "--cr": True}, "", "a\r\r\nb\r\rc\n\r\n\r".encode("utf-16")),
    ("bytes that are no text behind a carriage return", {"--form": "UTF-8", "--cr": True, "-n": True}, "b", b"a\rb\xff\r\nb\n\xffb\r\xff"),
    ("and without the option", {"--form": "UTF-8", "-n": True}, "b", b"a\rb\xff\r\nb\n\xffb\r\xff"),
    ("no such line", {}, "squid", TEXT.encode("utf-16")),
    ("an empty word", {"-n": True, "-b": True}, "", "ab\n\nc".encode("utf-16")),
    ("an empty file", {}, "a", b""),
    ("an empty file in a form", {"--form": "utf-32"}, "a", b""),
    ("without a BOM", {}, "fish", TEXT.encode("utf-16-le")),
    ("big endian without a BOM", {}, "fish", TEXT.encode("utf-16-be")),
    ("and as it is asked for", {"--form": "UTF-16BE"}, "fish", TEXT.encode("utf-16-be")),
    ("big endian", {}, "fish", b"\xfe\xff" + TEXT.encode("utf-16-be")),
    ("UTF-8 without a BOM", {}, "fish", TEXT.encode()),
    ("UTF-8 after a BOM", {}, "fish", b"\xef\xbb\xbf" + TEXT.encode()),
    ("UTF-8 as it is asked for", {"--form": "utf-8"}, "fish", TEXT.encode()),
    ("and a BOM in it", {"--form": "utf-8"}, "The", b"\xef\xbb\xbf" + TEXT.encode()),
    ("UTF-32", {}, "fish", TEXT.encode("utf-32")),
    ("UTF-32 without a BOM", {}, "fish", TEXT.encode("utf-32-be")),
    ("no form of Unicode", {}, "fish", b"fish \xe9\xe8 fish\n"),
    ("a code page", {"--form": "cp1252"}, "é", b"fish \xe9\x80\x81\nno\n"),
    ("another code page", {"--form": "CP1251"}, "й", b"\xe9\n"),
    ("an unpaired surrogate", {}, "b", b"\xff\xfea\0\x3d\xd8b\0\n\0\x00\xdcb\0"),
    ("part of a unit", {}, "a", b"\xff\xfea\0\n\0b"),
    ("faults of UTF-8", {"--form": "UTF-8"}, "a", b"a\xff\na\xf0\x9f\x98\nb\xed\xa0\x80a\xf0\x9f"),
    ("faults of UTF-32", {"--form": "UTF-32LE"}, "a", b"a\0\0\0\0\xd8\0\0\x00\x00\x11\x00a\0\0\0\0\0"),
    ("an order of bytes", {"--order": "big"}, "fish", TEXT.encode("utf-16-be")),
    ("and the other one", {"--order": "little"}, "fish", b"\xff\xfe" + TEXT.encode("utf-16-le")),
    ("a BOM of the form that is asked for", {"--form": "UTF-16LE", "-b": True}, "The", TEXT.encode("utf-16")),
    ("and of another one", {"--form": "UTF-16LE", "-b": True}, "a", b"\xfe\xff" + "a".encode("utf-16-le")),
    ("ideographs without a BOM", {}, "字", "中文字幕，\n".encode("utf-16-le") * 40),
    ("with zero bytes of spaces", {}, "文", "中　文　\n".encode("utf-16-le") * 40),
    ("and in the other order", {}, "文", "中　文　\n".encode("utf-16-be") * 40),
    ("UTF-8 with a fault far behind", {}, "a", b"a\n" * 600 + b"caf\xe9\n"),
    ("damaged UTF-8", {}, "a", "é深🐟é\n".encode() * 40 + b"caf\xe9\n"),
    ("a carriage return at the end", {"-n": True, "--cr": True}, "", "a\rb\r\n\nc\r".encode("utf-16")),
    ("characters that change the direction", {}, "a", "a\u200e\u200f\u061c\n".encode("utf-16")),
    ("nothing reaches a terminal that would change it", {}, "a", "a\x1b[2J\x07\x9b\u202e\u2028\ufeff\0\t\rb\n".encode("utf-16")),
]


def words_of(options):
    words = []
    for name, value in options.items():
        words += [name] if value is True else [name, value]
    return words


def question(random, folder):
    letters = ["a", "A", "b", "é", "😀", "\n", "\n", "\r\n", "\r", "\t", "\u202e", "\0"]
    files = []
    for number in range(random.choice([1, 1, 2, 3])):
        text = "".join(random.choice(letters) for _ in range(random.randrange(30)))
        form = random.choice([*CODECS.values(), "utf-16", "utf-32", "utf-8-sig"])
        data = text.encode(form)
        if random.randrange(4) == 0 and data:
            at = random.randrange(len(data))
            data = data[:at] + bytes([random.randrange(256)]) + data[at + random.randrange(2) :]
        files.append((f"f{number}", data))
        with open(os.path.join(folder, f"f{number}"), "wb") as file:
            file.write(data)
    options = {name: True for name in ("-n", "-i", "-b", "--cr") if random.randrange(2)}
    if random.randrange(8) == 0:
        options["--order"] = random.choice(["little", "big"])
    elif random.randrange(3) == 0:
        options["--form"] = random.choice([*CODECS, "UTF-16", "UTF-32", "CP1252"])
    word = random.choice(["a", "A", "b", "é", "😀", "ab", "aa", ""])
    words = words_of(options)
    if random.randrange(3) == 0:
        letters = [name[1] for name in options if len(name) == 2]
        words = [f"-{''.join(letters)}"] * bool(letters) + [name for name in words if len(name) != 2]
    return [*words, word, *(name for name, _ in files)], *run(options, word, files)


def cases():
    yield "no word", [], b"", b"", b"lines: WORD is missing\n" + USAGE.encode(), 2
    yield "no file", ["a"], b"", b"", b"lines: FILE is missing\n" + USAGE.encode(), 2
    yield "no such option", ["-x", "a", "{}"], b"", b"", b"lines: unknown option '-x'\n" + USAGE.encode(), 2
    yield "no such form", ["--form", "UTF-7", "a", "{}"], b"", b"", b"lines: '--form' has no value 'UTF-7'\n" + USAGE.encode(), 2
    yield "no form", ["--form"], b"", b"", b"lines: '--form' needs an argument\n" + USAGE.encode(), 2
    yield "no such order", ["--order", "middle", "a", "{}"], b"", b"", b"lines: '--order' has no value 'middle'\n" + USAGE.encode(), 2
    yield "a directory", ["a", "."], b"", b"", b"lines: .: Is a directory (os error 21)\n", 2
    yield "a name that a terminal would not show", ["a", "\x1b[31m"], b"", b"", b"lines: \\u{1b}[31m: No such file or directory (os error 2)\n", 2
    yield "an option that a terminal would not show", ["--\x1b", "{}"], b"", b"", b"lines: unknown option '--\\u{1b}'\n" + USAGE.encode(), 2
    # Tests put the name of the file, case, for the braces of arguments.
    two = [("case", TEXT.encode("utf-16"))] * 2
    yield "two files", ["-n", "lantern", "{}", "{}"], TEXT.encode("utf-16"), *run({"-n": True}, "lantern", two)
    yield "the version", ["--version"], b"", b"lines 0.2.0\n", b"", 0
    yield "standard input", ["fish", "-"], TEXT.encode("utf-16"), *run({}, "fish", [("-", TEXT.encode("utf-16"))])
    yield "a word that begins as an option", ["--", "-n", "{}"], "a-n".encode("utf-16"), b"a-n\n", b"", 0
    one = [("{}", TEXT.encode("utf-16"))]
    yield "options of one letter in one word", ["-bni", "LANTERN", "{}"], one[0][1], *run({"-n": True, "-i": True, "-b": True}, "LANTERN", one)
    yield "and a letter that is none", ["-nx", "a", "{}"], b"", b"", b"lines: unknown option '-nx'\n" + USAGE.encode(), 2
    yield "no such file", ["a", "none.txt"], b"", b"", b"lines: none.txt: No such file or directory (os error 2)\n", 2
    for about, options, word, data in FILES:
        yield about, [*words_of(options), word, "{}"], data, *run(options, word, [("{}", data)])
