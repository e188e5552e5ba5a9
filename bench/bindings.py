"""Times the package widestring against Python's own codecs, which go through a string: `bench/bindings` runs it. Each line
has the time of the library, and this time as a multiple of that of the codecs."""

import random
import time

import widestring

UNITS = 524288


def best(call, calls=5, rounds=60):
    """Returns the least time of a call, in seconds of this thread's processor time."""
    times = []
    for _ in range(rounds):
        begun = time.thread_time_ns()
        for _ in range(calls):
            call()
        times.append((time.thread_time_ns() - begun) / calls)
    return min(times)


def ascii_text(units):
    return "".join(chr(random.randrange(0x20, 0x7F)) for _ in range(units))


def mixed_text(units):
    """Returns words of two to ten letters, half of the words Chinese, the others with a sixth of their letters
    beyond ASCII."""
    letters = []
    while len(letters) < units:
        is_chinese = random.random() < 0.5
        for _ in range(random.randrange(2, 11)):
            first, count = (0x4E00, 20000) if is_chinese else (0xC0, 0x130) if random.randrange(6) == 0 else (0x61, 26)
            letters.append(chr(first + random.randrange(count)))
        letters.append(" ")
    return "".join(letters[:units])


def main():
    random.seed(2)
    for kind, make in (("ASCII", ascii_text), ("European and Chinese", mixed_text)):
        for length in (20, UNITS):
            text = make(length)
            units, data = text.encode("utf-16-le"), text.encode()
            cases = [
                ("utf16_to_utf8", lambda: widestring.utf16_to_utf8(units), lambda: units.decode("utf-16-le").encode()),
                ("utf8_to_utf16", lambda: widestring.utf8_to_utf16(data), lambda: data.decode().encode("utf-16-le")),
            ]
            for name, ours, theirs in cases:
                calls = max(1, 20000 // length)
                own, other = best(ours, calls), best(theirs, calls)
                print(f"{name:<16} {kind:<22} {length:8} units {own:10.0f} ns {own / other:6.2f}")


if __name__ == "__main__":
    main()
