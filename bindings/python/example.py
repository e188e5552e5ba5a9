"""Prints the offset of the first fault of a text in UTF-16, and the text in UTF-8 under each policy."""

import widestring

units = "Hi😀".encode("utf-16-le") + b"\x00\xdc\x00\xdc"
try:
    print(widestring.utf16_to_utf8(units).decode())
except widestring.Fault as fault:
    print(f"a fault at unit {fault.offset}")
for policy in widestring.Lossy:
    print(widestring.utf16_to_utf8_lossy(units, policy).decode())
