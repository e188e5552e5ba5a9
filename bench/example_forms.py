"""What the readers of bench/example_cases know of forms of files, and of characters that a terminal would not show."""

import codecs

FORMS = {"UTF-16LE": "utf-16-le", "UTF-16BE": "utf-16-be", "UTF-32LE": "utf-32-le", "UTF-32BE": "utf-32-be", "UTF-8": "utf-8"}
# Units that fill texts, as ranges: with its bytes in the other order such a unit mostly is none of them.
FREQUENT = [
    (9, 10), (13, 13), (0x20, 0x7E), (0xA0, 0x6FF), (0xE00, 0xE7F), (0x2010, 0x203A), (0x3000, 0x30FF), (0x4E00, 0x9FFF),
    (0xAC00, 0xDFFF), (0xFF00, 0xFF5E),
]


def is_hidden(char):
    """Returns whether a character is a control, a separator of lines, or one that changes the direction of text."""
    number = ord(char)
    ranges = [(0, 31), (0x7F, 0x9F), (0x61C, 0x61C), (0x200E, 0x200F), (0x2028, 0x202E), (0x2066, 0x2069), (0xFEFF, 0xFEFF)]
    return any(first <= number <= last for first, last in ranges)


def bom_len(data, form):
    """Returns the length of the BOM of a form with which a file begins, or 0."""
    bom = "\ufeff".encode(FORMS[form]) if form in FORMS else b""
    return len(bom) if bom and data.startswith(bom) else 0


def likely_utf16(data):
    """Returns the order in which more than half of the units fill texts, and more than in the other order."""
    pairs = [data[at : at + 2] for at in range(0, len(data) - 1, 2)]
    found = {}
    for form, order in (("UTF-16LE", "little"), ("UTF-16BE", "big")):
        numbers = [int.from_bytes(pair, order) for pair in pairs]
        found[form] = sum(any(first <= number <= last for first, last in FREQUENT) for number in numbers)
    few = sum(pair != b"\0\0" for pair in pairs) // 2
    little, big = found.values()
    if little > big and little > few:
        return "UTF-16LE"
    return "UTF-16BE" if big > little and big > few else None


def is_likely_utf8(data):
    """Returns whether bytes are UTF-8, or have at least two characters beyond ASCII for each ill-formed sequence."""
    faults = []
    # The beginning of a sequence at the end is none.
    codecs.register_error("example_forms", lambda fault: ("" if fault.reason == "unexpected end of data" else faults.append(fault) or "", fault.end))
    data.decode("utf-8", "example_forms")
    return not faults or sum(byte >= 0xC2 for byte in data) // 3 >= len(faults)


def likely_form(data):
    """Returns what a file without a BOM looks like, or None."""
    beginning = data[:1024]
    zeros = [sum(1 for byte in beginning[start::4] if byte == 0) for start in range(4)]
    few = len(beginning) // 8
    if zeros[2] > few and zeros[3] > few:
        return "UTF-32LE"
    if zeros[0] > few and zeros[1] > few:
        return "UTF-32BE"
    even, odd = zeros[0] + zeros[2], zeros[1] + zeros[3]
    if max(even, odd) <= few and is_likely_utf8(data):
        return "UTF-8"
    return likely_utf16(beginning) if even or odd else None
