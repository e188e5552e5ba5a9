"""What `example_subtitles` writes: worked out from the format alone, by patterns over the text of each line, and by
Python's codecs."""

import os
import re

from example_forms import FORMS as CODECS
from example_forms import bom_len, is_hidden, likely_form

USAGE = "usage: subtitles [--form FORM] [--to FORM] [--drop] FILE MILLISECONDS [drop]\n"
GREATEST = 2**32 - 1
TIME = r"(-?)([0-9]+):([0-9]{1,2}):([0-9]{1,2})([,.])([0-9]{1,3})(?![0-9])"
BLANK = "\t\x0b\x0c "
# What may be beside a number, and between a dash and the head of an arrow.
PADDING = BLANK + "\xa0\u200e\u200f\u202a\u202b\u202c\u202d\u202e\u3000\ufeff"
CLOCK = "[0-9]:+[0-9]"
BOMS = [(b"\xef\xbb\xbf", "UTF-8"), (b"\xff\xfe\0\0", "UTF-32LE"), (b"\0\0\xfe\xff", "UTF-32BE"), (b"\xff\xfe", "UTF-16LE"), (b"\xfe\xff", "UTF-16BE")]
TERMINAL = {"\n": "\\n", "\r": "\\r", "\t": "\\t", "\0": "\\0"}


def units_of(text):
    data = text.encode("utf-16-le", "surrogatepass")
    return [data[at] + 256 * data[at + 1] for at in range(0, len(data), 2)]


def is_fault(char):
    return 0xD800 <= ord(char) < 0xE000


def shown_char(char):
    if is_fault(char):
        return f"\\<{ord(char):04X}>"
    if char in "\"\\":
        return "\\" + char
    if is_hidden(char):
        return TERMINAL.get(char) or f"\\u{{{ord(char):x}}}"
    return char


def shown(text):
    return '"' + "".join(map(shown_char, text)) + '"'


def lines_of(text):
    """Returns each line with its end, and nothing after the last end."""
    return [match for match in re.findall(r"([^\r\n]*)(\r\n|\n|\r|$)", text) if match != ("", "")]


def time_of(match):
    """Returns a time in milliseconds, whether it is negative, and whether it is written as usual; or None."""
    minus, hours, minutes, seconds, point, rest = match.groups()
    if int(hours) >= GREATEST or int(minutes) >= 60 or int(seconds) >= 60:
        return None
    size = ((int(hours) * 60 + int(minutes)) * 60 + int(seconds)) * 1000 + int(rest.ljust(3, "0"))
    usual = not minus and len(hours) > 1 and len(minutes) == len(seconds) == 2 and point == "," and len(rest) == 3
    return size, bool(minus), usual


def times_in(line):
    """Returns the times of a line and the ranges of both, or the unit at which it is no line of times."""
    start = len(line) - len(line.lstrip(" \t"))
    first = re.compile(TIME).match(line, start)
    begin = first and time_of(first)
    if not begin:
        return start
    arrow = re.compile(r"[ \t]*-->[ \t]*").match(line, first.end())
    if not arrow:
        return first.end()
    second = re.compile(TIME).match(line, arrow.end())
    end = second and time_of(second)
    if not end:
        return arrow.end()
    if second.end() < len(line) and line[second.end()] not in " \t":
        return second.end()
    return begin, end, first.span(), second.span()


def seems_times(line):
    """Returns whether a line has digits around a colon on both sides of an arrow of some kind."""
    before, head, behind = line.partition(">")
    dash = before.rstrip(PADDING)[-1:]
    is_arrow = head and dash and (dash == "-" or "\u2010" <= dash <= "\u2015" or dash == "\u2212")
    return bool(is_arrow and re.search(CLOCK, before) and re.search(CLOCK, behind))


def written(time):
    seconds, thousandths = divmod(time, 1000)
    minutes, seconds = divmod(seconds, 60)
    return f"{minutes // 60:02}:{minutes % 60:02}:{seconds:02},{thousandths:03}"


class Reader:
    """The reports, the notes, and the text that is written."""

    def __init__(self, by, drops):
        self.by, self.drops = by, drops
        self.reported, self.notes, self.text, self.line, self.expects, self.noted = "", "", "", 0, "start", set()

    def report(self, unit, what):
        self.reported += f"line {self.line}, unit {unit}: {what}\n"

    def note(self, what):
        if what not in self.noted:
            self.noted.add(what)
            self.notes += f"line {self.line}, unit 0: note: {what}\n"

    def moved(self, line, times):
        begin, end, first, second = times
        if not (begin[2] and end[2]):
            self.note("times are written as 00:00:01,000")
        moved = []
        for (size, negative, _), (unit, _), what in [(begin, first, "begins"), (end, second, "ends")]:
            time = (-size if negative else size) + self.by
            if time < 0:
                self.report(unit, f"{what} at 0, not before")
            moved.append(written(max(time, 0)))
        return line[: first[0]] + moved[0] + line[first[1] : second[0]] + moved[1] + line[second[1] :]

    def is_right(self, line):
        """Reports what a line is that should be something else, and returns its times if they are to be moved."""
        expects, content = self.expects, line.strip(PADDING)
        times = times_in(line)
        if not line.strip(BLANK):
            self.expects = "start"
            if expects == "times":
                self.report(0, "no times")
            return None
        is_number = re.fullmatch("[0-9]+", content)
        if not is_number and not isinstance(times, int):
            self.expects = "text"
            if expects == "start":
                self.note("a subtitle without a number")
            elif expects == "text":
                self.note("a subtitle without an empty line before it")
            return times
        self.expects = "text"
        # A time that stands at the beginning moves the place at which the line is none of times.
        has_time = not is_number and times > len(line) - len(line.lstrip(" \t"))
        if not is_number and (has_time and "-->" in line or seems_times(line)):
            self.report(times, "no times")
        elif expects == "start" and is_number:
            self.expects = "times"
        elif expects == "start":
            self.report(0, "no number")
        elif expects == "times":
            self.report(0, "no times")
        return None

    def add(self, line, end, bad):
        """Adds a line. `bad` has the places and the messages of its bytes that are no text."""
        self.line += 1
        at = 0
        has_fault = bool(bad)
        for char in line:
            if is_fault(char):
                has_fault = True
                self.report(at, f"fault {ord(char):04X}")
            at += len(units_of(char))
        for unit, what in bad:
            self.report(unit, what)
        repaired = "".join("\ufffd" if is_fault(char) else char for char in line)
        times = self.is_right(line)
        if times:
            repaired = self.moved(repaired, times)
        if has_fault and self.drops:
            self.report(0, f"left out, {shown(line)}")
        else:
            self.text += repaired + end


def request_of(words):
    """Returns the options, the milliseconds and whether lines are dropped, or why the arguments are refused."""
    options, words = {}, list(words)
    while words and re.match("-[^0-9]", words[0]):
        name = words.pop(0)
        if name == "--":
            break
        if name != "--drop" and not words:
            return f"'{name}' needs an argument"
        options[name] = True if name == "--drop" else words.pop(0)
    if len(words) < 2:
        return f"{['FILE', 'MILLISECONDS'][len(words)]} is missing"
    number = re.fullmatch(r"([+-]?)([0-9]+)", words[1])
    if not number or int(number[2]) > GREATEST:
        return f"'{words[1]}' is no number of milliseconds"
    extra = words[3:] if words[2:3] == ["drop"] else words[2:]
    if extra:
        return f"'{extra[0]}' is one word too many"
    return options, int(number[2]) * (-1 if number[1] == "-" else 1), len(words) == 3 or "--drop" in options


def bom_of(data):
    for bom, form in BOMS:
        if data.startswith(bom):
            return form, len(bom)
    return None, 0


def form_of(data, asked):
    """Returns the form of a file and the length of its BOM, or what is said if it is not known."""
    form, skip = bom_of(data)
    if asked:
        asked = asked.upper()
        if asked in ("UTF-16", "UTF-32"):
            if form and form.startswith(asked) or asked == "UTF-16" and data[:2] in (b"\xff\xfe", b"\xfe\xff"):
                order = "LE" if data[0] == 0xFF else "BE"
                return asked + order, len(asked) // 3 if asked == "UTF-16" else 4
            return asked + "LE", 0
        return asked, bom_len(data, asked)
    if not form:
        for pattern, found in ((rb"[0-9]\0\0\0", "UTF-32LE"), (rb"\0\0\0[0-9]", "UTF-32BE"), (rb"[0-9]\0", "UTF-16LE"), (rb"\0[0-9]", "UTF-16BE")):
            if re.match(pattern, data):
                return found, 0
        likely = likely_form(data)
        if data and likely != "UTF-8":
            said = f"it looks like {likely}, which --form {likely} reads" if likely else "it looks like no form of Unicode; --form FORM says what it is"
            return None, f"no BOM, and {said}"
        form = "UTF-8"
    return form, skip


def text_of(data, form):
    """Returns the text of bytes, and the places in units and the messages of bytes that are no text."""
    text, bad = "", []
    size = {"UTF-16LE": 2, "UTF-16BE": 2, "UTF-32LE": 4, "UTF-32BE": 4}.get(form, 1)
    order = "little" if form.endswith("LE") else "big"
    whole = len(data) // size * size
    if size == 2:
        units = b"".join(int.from_bytes(data[at : at + 2], order).to_bytes(2, "little") for at in range(0, whole, 2))
        text = units.decode("utf-16-le", "surrogatepass")
    elif size == 4:
        for at in range(0, whole, 4):
            number = int.from_bytes(data[at : at + 4], order)
            if number < 0x110000 and not 0xD800 <= number < 0xE000:
                text += chr(number)
            else:
                bad.append((len(units_of(text)), f"fault {number:02X}"))
                text += "\ufffd"
    elif form == "UTF-8":
        while data:
            try:
                text += data.decode()
                break
            except UnicodeDecodeError as fault:
                text += data[: fault.start].decode()
                bad.append((len(units_of(text)), f"fault {data[fault.start]:02X}"))
                text += "\ufffd"
                data = data[fault.end :]
    else:
        for byte in data:
            try:
                text += bytes([byte]).decode(form.lower())
            except UnicodeDecodeError:
                text += chr(byte)
    if size > 1 and whole != len(data):
        bad.append((len(units_of(text)), "part of a unit"))
    return text, bad


def output_of(text, data, form, asked, to):
    """Returns the bytes that are written."""
    has_bom = bom_len(data, form) > 0
    to = (to or (form if form in CODECS else "UTF-8")).upper()
    to = {"UTF-16": "UTF-16LE", "UTF-32": "UTF-32LE", "WTF-8": "UTF-8"}.get(to, to)
    return (("\ufeff" if has_bom else "") + text).encode(CODECS[to])


def read(words, data):
    """Returns standard output, standard error and status."""
    request = request_of(words)
    if isinstance(request, str):
        return b"", f"subtitles: {request}\n{USAGE}".encode(), 2
    options, by, drops = request
    form, skip = form_of(data, options.get("--form"))
    if not form:
        return b"", f"{skip}\n".encode(), 1
    reader = Reader(by, drops)
    text, bad = text_of(data[skip:], form)
    lines, at = lines_of(text), 0
    for line, end in lines:
        following = at + len(units_of(line + end))
        reader.add(line, end, [(unit - at, what) for unit, what in bad if unit < following])
        bad = [(unit, what) for unit, what in bad if unit >= following]
        at = following
    last = 0
    if lines and not lines[-1][1] and lines[-1][0]:
        last = len(units_of(lines[-1][0]))
    else:
        reader.line += 1
    if reader.expects == "times":
        reader.report(last, "no times")
    for _, what in bad:
        reader.report(last, what)
    output = output_of(reader.text, data, form, options.get("--form"), options.get("--to"))
    return output, (reader.notes + reader.reported).encode(), 1 if reader.reported else 0


def little(text):
    return b"\xff\xfe" + text.encode("utf-16-le", "surrogatepass")


ONE = "1\r\n00:00:01,000 --> 00:00:02,500\r\nA😀\r\n\r\n2\r\n00:00:03,000 --> 00:00:04,000\r\nb"
# The description of a case, its arguments after the file, and its file as a text or as bytes.
CASES = [
    ("later", ["+1500"], ONE),
    ("earlier, and no sign is later", ["-1000"], ONE),
    ("no sign is later, and line feeds alone stay", ["61500"], ONE.replace("\r\n", "\n") + "\n"),
    ("by nothing, and an end of each kind stays", ["-0"], "1\n00:00:01,000 --> 00:00:02,000\r\na\r\r\nb\n\r\n\n"),
    ("a begin and an end below zero", ["-1500"], "1\r\n00:00:01,000 --> 00:00:01,499\r\n\r\n2\r\n00:00:01,499 --> 00:00:01,500\r\n"),
    ("thousandths are three digits", ["1"], "1\n00:00:01,3456 --> 00:00:02,000\n\n2\n00:00:01,34 --> 00:00:02,000\n\n3\n00:00:01,000 --> 00:00:02,0\n"),
    ("minutes and seconds are two, below 60", ["1"], "1\n00:60:01,000 --> 00:00:02,000\n\n2\n00:00:60,000 --> 00:00:02,000\n\n3\n00:0:01,000 --> 00:00:02,000\n\n4\n0:00:01,000 --> 00:00:02,000\n"),
    ("no other digits", ["1"], "1\n00:00:+1,000 --> 00:00:02,000\n\n2\n00:00:01,000 --> 00:00:02.000\n\n3\n00:01,000 --> 00:00:02,000\n\n4\n00:00:01,000 -> 00:00:02,000\n"),
    ("hours of a hundred and more", ["3600000"], "1\n99:59:59,999 --> 100:00:00,000\n\n2\n4294967296:00:00,000 --> 00:00:00,000\n"),
    ("dialogue that looks like times", ["1000"], "1\n00:00:01,000 --> 00:00:02,000\n5,0 --> 6,0 eggs\n00:00:01,000 --> 00:00:02,000\n3\n00:00:01,000 --> 00:00:02,000\n"),
    ("eggs are no times", ["1000"], "1\n5,0 --> 6,0 eggs\n\n2\n00:00:05,000 --> 00:00:06,000 eggs\n"),
    ("where the text stands", ["1000"], "1\n00:00:01,000 --> 00:00:02,000  X1:40 X2:600 Y1:020 Y2:50 \na\n\n2\n00:00:01,000 --> 00:00:02,000 X1:40 X2:600\n\n3\n00:00:01,000 --> 00:00:02,000 X1:40 X2:600 Y1:20 Y2:x\n\n4\n00:00:01,000 --> 00:00:02,000 X1:1 X2:1 Y1:1 Y2:1 Y2:1\n\n5\n00:00:01,000 --> 00:00:02,000 \n"),
    ("no number", ["1000"], "00:00:01,000 --> 00:00:02,000\na\n\n1 \n00:00:01,000 --> 00:00:02,000\n\n\n2\n\n3\n"),
    ("neither a number nor times", ["1000"], "one\n00:00:01,000 --> 00:00:02,000\na\n"),
    ("nothing but white space between subtitles", ["1000"], "1\n00:00:01,000 --> 00:00:02,000\na\n \t\n2\n00:00:03,000 --> 00:00:04,000\nb\n"),
    ("nothing between subtitles", ["1000"], "1\n00:00:01,000 --> 00:00:02,000\na\n2\n00:00:03,000 --> 00:00:04,000\nb\n00:00:05,000 --> 00:00:06,000\nc\n"),
    ("no numbers", ["1000"], "00:00:01,000 --> 00:00:02,000\na\n\n00:00:03,000 --> 00:00:04,000\nb\n"),
    ("times as other programs write them", ["1000"], "1\n0:00:01,000-->0:0:2,5\na\n\n2\n00:00:03.25   -->   00:00:04.000\nb\n\n3\n\t00:00:05,000\t-->\t00:00:06,000 \n"),
    ("negative times", ["+1500"], "1\n-00:00:01,000 --> -00:00:01,500\na\n\n2\n-00:00:02,000 --> 00:00:04,000\nb\n"),
    ("negative times that become earlier", ["-1500"], "1\n-00:00:01,000 --> 00:00:01,500\na\n"),
    ("tags behind times", ["1000"], "1\n00:00:01,000 --> 00:00:02,000 align:start position:10%\na\n\n2\n00:00:01,000 --> 00:00:02,000x\n"),
    ("a carriage return ends a line", ["1000"], "1\r00:00:01,000 --> 00:00:02,000\ra\r\r2\r00:00:03,000 --> 00:00:04,000\rb"),
    ("UTF-8", ["1000"], "1\n00:00:01,000 --> 00:00:02,000\né😀\n".encode()),
    ("UTF-8 behind a mark", ["1000"], "\ufeff1\n00:00:01,000 --> 00:00:02,000\né\n".encode()),
    ("UTF-32", ["1000"], "\ufeff1\n00:00:01,000 --> 00:00:02,000\n😀\n".encode("utf-32-be")),
    ("UTF-32 without a mark", ["1000"], "1\n00:00:01,000 --> 00:00:02,000\n😀\n".encode("utf-32-le")),
    ("from UTF-16 to UTF-8", ["--to", "utf-8", "1000"], ONE),
    ("from UTF-8 to UTF-16", ["--to", "UTF-16BE", "1000"], ONE.encode()),
    ("a mark of the form that is asked for", ["--form", "UTF-16LE", "1000"], ONE),
    ("and to another one", ["--form", "UTF-16LE", "--to", "UTF-8", "1000"], ONE),
    ("and of another form", ["--form", "UTF-16BE", "1000"], b"\xff\xfe" + "1\n00:00:01,000 --> 00:00:02,000\na".encode("utf-16-be")),
    ("times that are damaged behind no empty line", ["1000"], "".join(f"1\n00:00:01,000 --> 00:00:02,000\na\n2\n{line}\nb\n\n" for line in [
        "00:00:61,000 --> 00:01:04,000", "00:60:01,000 --> 00:01:04,000", "00:00:03,0000 --> 00:00:04,000", "00:00:03:000 --> 00:00:04:000",
        "00:00:03 --> 00:00:04", "00:00:03;000 --> 00:00:04,000", "00: 00:03,000 --> 00:00:04,000", "O0:00:03,000 --> 00:00:04,000",
        "+00:00:03,000 --> 00:00:04,000", "[00:00:03,000 --> 00:00:04,000]", "\xa000:00:03,000 --> 00:00:04,000", "\ufeff00:00:03,000 --> 00:00:04,000",
        "\u202a00:00:03,000 --> 00:00:04,000", "00:00:03,000 -> 00:00:04,000", "00:00:03,000 -- > 00:00:04,000", "00:00:03,000 \u2013> 00:00:04,000",
        "2 00:00:03,000 --> 00:00:04,000", "00:03,000 --> 00:04,000",
    ])),
    ("dialogue with arrows and clocks", ["1000"], "1\n00:00:01,000 --> 00:00:02,000\nthe 10:30 -> home\nhome --> 10:30\na:b -> 1:c\n10:30 > 9:30\n"),
    ("lines of wide blanks are text", ["1000"], "1\n00:00:01,000 --> 00:00:02,000\na\n\xa0\n\u3000\nb\n\n2\xa0\n00:00:03,000 --> 00:00:04,000\n"),
    ("a fault of UTF-8 far behind", ["1000"], b"1\n00:00:01,000 --> 00:00:02,000\na\n" + b"x" * 1100 + b"\ncaf\xe9\n"),
    ("damaged UTF-8", ["1000"], b"1\n00:00:01,000 --> 00:00:02,000\n" + "é深🐟é".encode() + b"\ncaf\xe9\n"),
    ("a code page", ["--form", "cp1252", "1000"], "1\n00:00:01,000 --> 00:00:02,000\n".encode() + b"caf\xe9\n"),
    ("what is not known", ["1000"], b"caf\xe9\n"),
    ("big endian that does not begin with a digit", ["1000"], "\n1\n00:00:01,000 --> 00:00:02,000\na".encode("utf-16-be")),
    ("and as it is asked for", ["--form", "utf-16be", "1000"], "\n1\n00:00:01,000 --> 00:00:02,000\na".encode("utf-16-be")),
    ("faults of UTF-8", ["1000"], b"1\n00:00:01,000 --> 00:00:02,000\na\xff\xf0\x9f\x98b\nc\xe2\x82"),
    ("faults of UTF-8 that are left out", ["--drop", "1000"], b"1\n00:00:01,000 --> 00:00:02,000\na\xff\nb\n"),
    ("nothing reaches a terminal that would change it", ["1000", "drop"], "1\r\n00:00:01,000 --> 00:00:02,000\r\n\x1b[2J\u202e\ud83d\r\n"),
    ("no times at the end", ["1000"], "1"),
    ("faults", ["1000"], "1\r\n00:00:01,000 --> 00:00:02,000\r\n\ud83d\ud83d\ude00😀\udc00!\r\nb\r\n"),
    ("faults that are left out", ["1000", "drop"], "1\r\n00:00:01,000 --> 00:00:02,000\r\n😀\ud83d'\r\nb\r\n\udc00"),
    ("faults in the place of times and of a number", ["1000", "drop"], "1\n00:00:0\ud800,000 --> 00:00:02,000\n\n2\udc00\n00:00:01,000 --> 00:00:02,000\n"),
    ("a zero unit and a second mark stay", ["1000"], "1\n00:00:01,000 --> 00:00:02,000\n\ufeffa\0"),
    ("half of a unit in a line", ["1000"], little("1\n00:00:01,000 --> 00:00:02,000\nA😀") + b"."),
    ("half of a unit behind the last line", ["1000"], little("1\n00:00:01,000 --> 00:00:02,000\nA\n") + b"\n"),
    ("big endian behind a mark", ["1000"], b"\xfe\xff" + "1\n00:00:01,000 --> 00:00:02,000\n😀".encode("utf-16-be")),
    ("big endian without a mark", ["1000"], "1\n00:00:01,000 --> 00:00:02,000\n😀".encode("utf-16-be")),
    ("little endian without a mark", ["1000"], "1\n00:00:01,000 --> 00:00:02,000\n😀".encode("utf-16-le")),
    ("no bytes", ["1000"], b""),
    ("one byte", ["1000"], b"1"),
    ("the greatest number", ["-4294967295"], "1\n1193:02:47,295 --> 1193:02:47,296\n"),
    ("no such number", ["4294967296"], ONE),
    ("no number of milliseconds", ["1.5"], ONE),
    ("two signs", ["--500"], ONE),
    ("both signs", ["+-5"], ONE),
    ("a sign alone", ["-"], ONE),
    ("no such third word", ["5", "Drop"], ONE),
    ("a fourth word", ["5", "drop", "drop"], ONE),
    ("one word", [], ONE),
]
FRAGMENTS = ["a", "é", "😀", "深", "\ud83d", "\udc1f", "\ufffd", " ", "'", '"', " --> ", "1", "\r", "\0", "\\", "\ufeff"]


def random_text(random):
    return "".join(random.choice(FRAGMENTS) for _ in range(random.randrange(6)))


def random_time(random):
    time = f"{random.choice([0, 0, 0, 1, 99, 100]):02}:{random.randrange(60):02}:{random.randrange(60):02},{random.randrange(1000):03}"
    if random.randrange(4):
        time = f"00:00:{random.randrange(4):02},{random.randrange(1000):03}"
    if random.randrange(12) == 0:
        at = random.randrange(len(time))
        time = time[:at] + random.choice(["", "0", "6", "x", "+", ":", ",", "\ud800", " "]) + time[at + random.randrange(2) :]
    return time


def random_times(random):
    arrow = random.choice([" --> "] * 12 + ["-->", " -> ", "  -->  "])
    coordinates = random.choice(
        [""] * 8 + [" ", " eggs", " X1:1 X2:22 Y1:3 Y2:4", "  X1:1 X2:22 Y1:3 Y2:4 ", " X1:1 X2:22", " X1:1 X2:2 Y2:3 Y1:4", "X1:1", " X1: X2:1 Y1:1 Y2:1"]
    )
    return random_time(random) + arrow + random_time(random) + coordinates


def random_block(random, number):
    lines = [str(number) if random.randrange(10) else random.choice(["", " ", "x", "1 ", "\ud83d", "+1"])]
    if random.randrange(12):
        lines.append(random_times(random))
    lines += [random_text(random) if random.randrange(8) else random_times(random) for _ in range(random.randrange(3))]
    return lines + [""] * random.choice([1, 1, 1, 2, 0])


def random_file(random):
    lines = [line for number in range(random.randrange(5)) for line in random_block(random, number + 1)]
    usual = random.choice(["\n", "\r\n"])
    text = "".join(line + (usual if random.randrange(12) else random.choice(["\n", "\r\n", "\r\r\n"])) for line in lines)
    if random.randrange(3) == 0:
        text = text[: -random.randrange(1, 4)]
    form = random.choice(["utf-16-le", "utf-16-le", "utf-16-be", "utf-8", "utf-32-le"])
    data = (random.choice(["", "\ufeff"]) + text).encode(form, "surrogatepass" if form != "utf-32-le" else "replace")
    return data + random.choice([b"", b"", b"", b"1", b"\n"])


def question(random, folder):
    data = random_file(random)
    with open(os.path.join(folder, "moved.srt"), "wb") as file:
        file.write(data)
    number = random.choice(["+", "-", ""]) + str(random.choice([0, 1, 500, random.randrange(4000), 3600000]))
    if random.randrange(40) == 0:
        number = random.choice(["1.5", "+-5", "", "x", "4294967296", "4294967295", "-4294967295", "99999999999999999999", "1 "])
    arguments = ["moved.srt", number] + random.choice([[], [], ["drop"]])
    if random.randrange(4) == 0:
        arguments = ["--to", random.choice([*CODECS, "UTF-16"]), *arguments]
    if random.randrange(6) == 0:
        arguments = ["--form", random.choice([*CODECS, "UTF-16", "CP1252"]), *arguments]
    if random.randrange(60) == 0:
        arguments = random.choice([[], arguments[:1], [*arguments[:2], "Drop"], [*arguments[:2], "drop", "drop"], [*arguments[:2], ""]])
    return arguments, *read(arguments, data)


def cases():
    for name, more, file in CASES:
        data = file if isinstance(file, bytes) else little(file)
        options, words = [], list(more)
        while words and words[0].startswith("--") and words[0][2:3].isalpha():
            options.append(words.pop(0))
            if options[-1] != "--drop":
                options.append(words.pop(0))
        arguments = [*options, "{}", *words]
        yield name, arguments, data, *read(arguments, data)
    yield "no words", [], b"", *read([], b"")
    yield "no such file", ["none.srt", "1"], b"", b"", b"subtitles: none.srt: No such file or directory (os error 2)\n", 1
    yield "a directory", [".", "1"], b"", b"", b"subtitles: .: Is a directory (os error 21)\n", 1
    yield "standard input", ["-", "1000"], ONE.encode(), *read(["-", "1000"], ONE.encode())
