/*
 * Conversions, checks, searches and comparisons of UTF-16, UTF-32 and UTF-8 for C programs. The caller supplies all
 * buffers.
 *
 * For all input, well formed or not, each function is proved to do what its comment says, except how long it takes, if
 * the caller keeps these rules. The functions do not check the rules:
 *
 *  - A pointer and the length or capacity after it describe memory that may be read, or written if the pointer is not
 *    to `const`. If the length or capacity is 0, the pointer may be NULL.
 *  - The memory is aligned for its type.
 *  - Memory that is written does not overlap any other memory that is passed.
 *  - During a call nothing else changes the input, and nothing else reads or writes the output buffer: no other thread,
 *    and no signal handler.
 *
 * Lengths, capacities and offsets are counted in elements of the array: code units of UTF-16 or UTF-32, or bytes of
 * UTF-8. No function allocates memory, keeps a pointer, terminates the program or has global state, so each may be
 * called in any thread. A call takes at most 9 KB of stack. The library runs on x86-64 processors of level 2
 * (x86-64-v2), which have SSE4.2 and POPCNT, under Linux.
 *
 * A code unit or byte that belongs to no character is ill-formed. The offset of an ill-formed sequence is the offset of
 * its first unit or byte. Texts are not NUL-terminated: a NUL is a character like any other, and no function writes one
 * after a result. A byte order mark (BOM) is converted as the character U+FEFF, also at the start of a text.
 */
#ifndef WIDESTRING_H
#define WIDESTRING_H

#include <stddef.h>
#include <stdint.h>

#ifdef __cplusplus
extern "C" {
#endif

/* The version of this header, as numbers, as a string, and as one number: major * 0x10000 + minor * 0x100 + patch. */
#define WIDESTRING_VERSION_MAJOR 0
#define WIDESTRING_VERSION_MINOR 2
#define WIDESTRING_VERSION_PATCH 0
#define WIDESTRING_VERSION "0.2.0"
#define WIDESTRING_VERSION_NUMBER UINT32_C(0x000200)

/*
 * The number of the interface, which the shared library's name ends with. A program that is linked with one version runs
 * with each later one of the same number, since its functions stay as they are.
 */
#define WIDESTRING_ABI "0.1"

/* Returns the WIDESTRING_VERSION_NUMBER of the library that the program runs with. */
uint32_t wide_version(void);

/*
 * What a conversion, a count or a length returns if the text is ill-formed. A function that returns a size_t also
 * returns WIDE_FAULT for a policy other than WIDE_EACH, WIDE_RUN and WIDE_SKIP, and for an order other than
 * WIDE_LITTLE_ENDIAN and WIDE_BIG_ENDIAN, unless its comment says otherwise. No text has this length.
 */
#define WIDE_FAULT SIZE_MAX

/*
 * What the searches for a needle return if it does not occur, which are wide_utf16_find, wide_utf16_rfind and
 * wide_utf16_find_ignore_ascii_case and those of UTF-32, and what wide_utf16_first_fault_item and
 * wide_utf32_first_fault_item return if the text is well formed. The searches for a NUL or for one unit return `length`
 * if there is none. WIDE_NOT_FOUND is the same number as WIDE_FAULT; no function returns both.
 */
#define WIDE_NOT_FOUND SIZE_MAX

/*
 * Policies of lossy conversions: what is written for ill-formed sequences. WIDE_SKIP joins the text on both sides of a
 * sequence. So the result may contain a word that a filter did not find before the conversion (Unicode Technical Report
 * 36, section 3.5). Filter the result, not the input.
 *
 * A policy is passed as a 32-bit number, since the width of an enum depends on the C implementation. For any other
 * number the functions return WIDE_FAULT and leave the buffer unchanged.
 */
enum WideLossy {
    WIDE_EACH = 0, /* Writes U+FFFD for each ill-formed sequence. */
    WIDE_RUN = 1,  /* Writes one U+FFFD for each longest run of adjacent ill-formed sequences. */
    WIDE_SKIP = 2  /* Writes nothing for ill-formed sequences. */
};

/*
 * A policy that only wide_convert_start accepts: the conversion stops at each ill-formed sequence.
 */
#define WIDE_STRICT 3

/*
 * Byte orders of UTF-16 in bytes: little endian, the low byte first, or big endian. WIDE_NO_BOM is not an order:
 * wide_utf16_bytes_order returns it if there is no BOM.
 *
 * An order is passed as a 32-bit number. For any number but WIDE_LITTLE_ENDIAN and WIDE_BIG_ENDIAN, WIDE_NO_BOM
 * included, wide_utf16_bytes_complete and wide_utf16_bytes_end_in_fault return 0, and the functions that convert or
 * look for a fault return WIDE_FAULT. A buffer is unchanged then.
 */
enum WideOrder {
    WIDE_LITTLE_ENDIAN = 0,
    WIDE_BIG_ENDIAN = 1,
    WIDE_NO_BOM = 2
};

/*
 * Encoding schemes (Unicode Standard, D95 to D101) and WTF-8: how a text is stored as bytes. WIDE_UTF16 and WIDE_UTF32
 * are read in the order of their BOM, or little-endian without one, and written little-endian. In the others a BOM is
 * the character U+FEFF. WTF-8 is UTF-8 in which a surrogate that belongs to no pair has the three bytes of its code
 * point, so it can hold any units of UTF-16.
 *
 * A scheme is passed as a 32-bit number.
 */
enum WideScheme {
    WIDE_UTF8 = 0,    /* UTF-8. */
    WIDE_UTF16LE = 1, /* UTF-16, little-endian. */
    WIDE_UTF16BE = 2, /* UTF-16, big-endian. */
    WIDE_UTF16 = 3,   /* UTF-16, with or without a BOM. */
    WIDE_UTF32LE = 4, /* UTF-32, little-endian. */
    WIDE_UTF32BE = 5, /* UTF-32, big-endian. */
    WIDE_UTF32 = 6,   /* UTF-32, with or without a BOM. */
    WIDE_WTF8 = 7     /* WTF-8. */
};

/* Why wide_convert_push stopped: a value of the member `end` of WideConverter. */
enum WideEnd {
    WIDE_NEEDS_INPUT = 0, /* All input was read. */
    WIDE_NO_SPACE = 1,    /* Fewer than 8 bytes of the output are left. */
    WIDE_AT_FAULT = 2     /* An ill-formed sequence was read, under the policy WIDE_STRICT. */
};

/* Returns the offset of the first ill-formed unit of UTF-16, or `length` if there is none. */
size_t wide_utf16_first_fault(const uint16_t *units, size_t length);

/* Returns the offset of the first unit of UTF-32 that is not a scalar value, or `length` if there is none. */
size_t wide_utf32_first_fault(const uint32_t *units, size_t length);

/* Returns the offset of the first byte of the first ill-formed sequence of UTF-8, or `length` if there is none. */
size_t wide_utf8_first_fault(const uint8_t *text, size_t length);

/*
 * Returns the offset of the first byte of the first fault of WTF-8, or `length` if there is none: an ill-formed
 * sequence of UTF-8 that is no surrogate, or the second half of a surrogate pair whose halves are written apart.
 */
size_t wide_wtf8_first_fault(const uint8_t *text, size_t length);

/*
 * Returns how many characters precede the first ill-formed unit, or WIDE_NOT_FOUND if the text is well formed. A
 * decoder that yields one item for each character and each ill-formed unit yields that unit as the item with this
 * index.
 */
size_t wide_utf16_first_fault_item(const uint16_t *units, size_t length);
size_t wide_utf32_first_fault_item(const uint32_t *units, size_t length);

/*
 * Returns the number of ill-formed sequences: units of UTF-16 or UTF-32 that belong to no character, or maximal
 * subparts of ill-formed sequences of UTF-8 (Unicode Standard, section 3.9). It is 0 if the text is well formed. Under
 * WIDE_EACH the lossy conversions write so many U+FFFD in their place.
 */
size_t wide_utf16_fault_count(const uint16_t *units, size_t length);
size_t wide_utf32_fault_count(const uint32_t *units, size_t length);
size_t wide_utf8_fault_count(const uint8_t *text, size_t length);

/* Returns 1 if all units or bytes are ASCII, at most 0x7F, and 0 if they are not. An empty text is ASCII. */
uint32_t wide_utf16_is_ascii(const uint16_t *units, size_t length);
uint32_t wide_utf32_is_ascii(const uint32_t *units, size_t length);
uint32_t wide_utf8_is_ascii(const uint8_t *text, size_t length);

/* Returns the number of characters, or WIDE_FAULT if the text is ill-formed. */
size_t wide_utf16_char_count(const uint16_t *units, size_t length);
size_t wide_utf32_char_count(const uint32_t *units, size_t length);
size_t wide_utf8_char_count(const uint8_t *text, size_t length);

/*
 * Returns the length of the text in another encoding form, in bytes of UTF-8 or in units of UTF-16 or UTF-32, or
 * WIDE_FAULT if the text is ill-formed. The strict conversion between the same two forms, whose name does not end in
 * "_lossy" or "_lossy_with", returns the same number. No buffer is written.
 *
 * A unit of UTF-16 becomes at most 3 bytes of UTF-8 or 1 unit of UTF-32. A unit of UTF-32 becomes at most 4 bytes of
 * UTF-8 or 2 units of UTF-16. A byte of UTF-8 becomes at most 1 unit of UTF-16 or UTF-32. These bounds also hold for
 * lossy conversions.
 */
size_t wide_utf16_utf8_length(const uint16_t *units, size_t length);
size_t wide_utf32_utf8_length(const uint32_t *units, size_t length);
size_t wide_utf8_utf16_length(const uint8_t *text, size_t length);
size_t wide_utf8_utf32_length(const uint8_t *text, size_t length);
size_t wide_utf16_utf32_length(const uint16_t *units, size_t length);
size_t wide_utf32_utf16_length(const uint32_t *units, size_t length);

/*
 * Returns the length of any units of UTF-16 in WTF-8, in bytes, at most 3 for each unit; and the length of a text of
 * WTF-8 in UTF-16, in units, or WIDE_FAULT if the bytes are not WTF-8.
 */
size_t wide_utf16_wtf8_length(const uint16_t *units, size_t length);
size_t wide_wtf8_utf16_length(const uint8_t *text, size_t length);

/*
 * Returns the greatest offset, in units, that is at most `offset` and at most `length`, and that is not within a
 * surrogate pair. It is `offset` or one less, unless `offset` is greater than `length`. An ill-formed unit is not split
 * off from anything, so any offset before or after it will do. At most two units are read.
 */
size_t wide_utf16_floor_char_boundary(const uint16_t *units, size_t length, size_t offset);

/* Returns the offset of the first NUL, or `length` if there is none. */
size_t wide_utf16_first_nul(const uint16_t *units, size_t length);
size_t wide_utf32_first_nul(const uint32_t *units, size_t length);

/* Returns the offset of the first unit that equals `unit`, or `length` if there is none. */
size_t wide_utf16_find_unit(const uint16_t *units, size_t length, uint16_t unit);
size_t wide_utf32_find_unit(const uint32_t *units, size_t length, uint32_t unit);

/*
 * Returns the offset of the first occurrence of the needle, or WIDE_NOT_FOUND if it does not occur. An empty needle
 * occurs at offset 0. The time grows at most linearly with both lengths, even if both needle and text repeat
 * themselves.
 */
size_t wide_utf16_find(const uint16_t *units, size_t length, const uint16_t *needle, size_t needle_length);
size_t wide_utf32_find(const uint32_t *units, size_t length, const uint32_t *needle, size_t needle_length);

/*
 * Returns the offset of the last occurrence of the needle, or WIDE_NOT_FOUND if it does not occur. An empty needle
 * occurs at the end, at offset `length`. The time grows at most linearly with both lengths.
 */
size_t wide_utf16_rfind(const uint16_t *units, size_t length, const uint16_t *needle, size_t needle_length);
size_t wide_utf32_rfind(const uint32_t *units, size_t length, const uint32_t *needle, size_t needle_length);

/*
 * Returns the offset of the first occurrence of the needle without regard to the case of ASCII letters, or
 * WIDE_NOT_FOUND if it does not occur. Letters past ASCII are compared as they are. An empty needle occurs at offset 0.
 * The time grows at most linearly with both lengths.
 */
size_t wide_utf16_find_ignore_ascii_case(const uint16_t *units, size_t length, const uint16_t *needle, size_t needle_length);
size_t wide_utf32_find_ignore_ascii_case(const uint32_t *units, size_t length, const uint32_t *needle, size_t needle_length);

/*
 * Returns 1 if both texts have the same units without regard to the case of ASCII letters, and 0 if they do not.
 * Letters past ASCII are compared as they are.
 */
uint32_t wide_utf16_eq_ignore_ascii_case(const uint16_t *units, size_t length, const uint16_t *other, size_t other_length);
uint32_t wide_utf32_eq_ignore_ascii_case(const uint32_t *units, size_t length, const uint32_t *other, size_t other_length);

/*
 * Compares two texts by their code points, as UTF-8 is ordered by its bytes and UTF-32 by its units. Returns -1 if the
 * first text is less than the other one, 0 if both are the same, and 1 if the first one is greater. A text is less than
 * a longer one that begins with it. An ill-formed unit counts by its number: an unpaired surrogate is a code point too.
 * The units of UTF-16 are in another order, in which characters past U+FFFF precede U+E000 to U+FFFF.
 */
int32_t wide_utf16_compare_code_points(const uint16_t *units, size_t length, const uint16_t *other, size_t other_length);
int32_t wide_utf32_compare_code_points(const uint32_t *units, size_t length, const uint32_t *other, size_t other_length);

/*
 * Each function below that takes a capacity returns the length of the whole result in elements, whatever the capacity
 * is, or WIDE_FAULT if its comment says so. If it returns WIDE_FAULT, the buffer is unchanged. If the capacity is at
 * least the returned length, the result is at the start of the buffer, and no element after the result is written. If
 * the capacity is smaller, the content of the buffer is unspecified, and no element past the capacity is written: call
 * again with a larger buffer and the same other arguments. With a capacity of 0 the call only computes the length.
 */

/* Converts well-formed UTF-16 to UTF-8. Returns WIDE_FAULT if the units are ill-formed. */
size_t wide_utf16_to_utf8(const uint16_t *units, size_t length, uint8_t *text, size_t capacity);

/* Converts any units of UTF-16 to UTF-8, and writes U+FFFD, three bytes, for each ill-formed unit. */
size_t wide_utf16_to_utf8_lossy(const uint16_t *units, size_t length, uint8_t *text, size_t capacity);

/*
 * Converts any units of UTF-16 to UTF-8, and replaces ill-formed units by the policy. Returns WIDE_FAULT if the policy
 * is invalid.
 */
size_t wide_utf16_to_utf8_lossy_with(const uint16_t *units, size_t length, uint32_t policy, uint8_t *text, size_t capacity);

/*
 * UTF-16 in bytes (Unicode Standard, D96 and D97). `length` is in bytes. The bytes need no alignment. Only whole units
 * are read: an odd last byte is ignored, unless a function says otherwise.
 *
 * A stream is converted chunk by chunk. Once the first two bytes have been read, call wide_utf16_bytes_order. If there
 * is a BOM, drop its two bytes. If it returns WIDE_NO_BOM, choose an order. The caller keeps three things: the order, a
 * number `after_fault`, which is 0 at first, and a buffer. The buffer starts with the bytes left over from the previous
 * chunk, none at first, and the bytes of the next chunk follow them. `length` is the number of bytes in the buffer. For
 * each chunk:
 *
 *     complete = wide_utf16_bytes_complete(buffer, length, order);
 *     needed = wide_utf16_bytes_to_utf8_lossy_with(buffer, complete, order, policy, after_fault, text, capacity);
 *     after_fault = wide_utf16_bytes_end_in_fault(buffer, complete, order, after_fault);
 *     memmove(buffer, buffer + complete, length - complete);
 *     length = length - complete;
 *
 * If `needed` is greater than the capacity and is not WIDE_FAULT, which an invalid order or policy gives, call the
 * function of the second line again with a larger buffer, before the third line overwrites `after_fault`. At the end of
 * the stream convert all bytes that are left, at most three. The results, one after another, are the text of the whole
 * stream. If an odd number of bytes is left, the stream ends in half a unit.
 *
 * To know whether a chunk has ill-formed units, call wide_utf16_bytes_first_fault on its `complete` bytes before they
 * are moved: it has some if the result is less than complete / 2. The same call finds ill-formed units in the bytes
 * left at the end. `after_fault` reports only the last unit. A reader that rejects ill-formed units calls
 * wide_utf16_bytes_to_utf8 instead of the lossy function, stops at WIDE_FAULT, and needs no `after_fault`.
 */

/* Returns the order of the BOM at the start (Unicode Standard, section 23.8), or WIDE_NO_BOM if there is none. */
uint32_t wide_utf16_bytes_order(const uint8_t *bytes, size_t length);

/*
 * Returns how many bytes at the start are whole units whose meaning no later bytes can change: all whole units, except
 * a last high surrogate. At most three bytes follow them. Returns 0 if the order is invalid.
 */
size_t wide_utf16_bytes_complete(const uint8_t *bytes, size_t length, uint32_t order);

/*
 * Returns the offset, in units, of the first ill-formed unit, or length / 2 if there is none. Returns WIDE_FAULT if the
 * order is invalid.
 */
size_t wide_utf16_bytes_first_fault(const uint8_t *bytes, size_t length, uint32_t order);

/*
 * Returns 1 if the last whole unit is ill-formed, and 0 if it is not. If there are no whole units, it returns 0 if
 * `after_fault` is 0, and 1 otherwise. `after_fault` describes the unit before the bytes: 0 if it is well formed or
 * there is none, any other number if it is ill-formed. Returns 0 if the order is invalid.
 */
uint32_t wide_utf16_bytes_end_in_fault(const uint8_t *bytes, size_t length, uint32_t order, uint32_t after_fault);

/*
 * Converts bytes of well-formed UTF-16 to UTF-8. Returns WIDE_FAULT if the number of bytes is odd, the units are
 * ill-formed, or the order is invalid.
 */
size_t wide_utf16_bytes_to_utf8(const uint8_t *bytes, size_t length, uint32_t order, uint8_t *text, size_t capacity);

/*
 * Converts the whole units of any bytes to UTF-8, and replaces ill-formed units by the policy. `after_fault` describes
 * the unit before the bytes: 0 if it is well formed or there is none, any other number if it is ill-formed. Returns
 * WIDE_FAULT if the order or the policy is invalid.
 */
size_t wide_utf16_bytes_to_utf8_lossy_with(const uint8_t *bytes, size_t length, uint32_t order, uint32_t policy, uint32_t after_fault, uint8_t *text, size_t capacity);

/* Converts well-formed UTF-32 to UTF-8. Returns WIDE_FAULT if the units are ill-formed. */
size_t wide_utf32_to_utf8(const uint32_t *units, size_t length, uint8_t *text, size_t capacity);

/* Converts any units of UTF-32 to UTF-8, and writes U+FFFD for each unit that is not a scalar value. */
size_t wide_utf32_to_utf8_lossy(const uint32_t *units, size_t length, uint8_t *text, size_t capacity);

/*
 * Converts any units of UTF-32 to UTF-8, and replaces ill-formed units by the policy. Returns WIDE_FAULT if the policy
 * is invalid.
 */
size_t wide_utf32_to_utf8_lossy_with(const uint32_t *units, size_t length, uint32_t policy, uint8_t *text, size_t capacity);

/* Converts well-formed UTF-8 to UTF-16 or to UTF-32. Returns WIDE_FAULT if the bytes are ill-formed. */
size_t wide_utf8_to_utf16(const uint8_t *text, size_t length, uint16_t *units, size_t capacity);
size_t wide_utf8_to_utf32(const uint8_t *text, size_t length, uint32_t *units, size_t capacity);

/*
 * Converts well-formed UTF-16 to UTF-32, and well-formed UTF-32 to UTF-16. Returns WIDE_FAULT if the units are
 * ill-formed.
 */
size_t wide_utf16_to_utf32(const uint16_t *utf16, size_t length, uint32_t *utf32, size_t capacity);
size_t wide_utf32_to_utf16(const uint32_t *utf32, size_t length, uint16_t *utf16, size_t capacity);

/*
 * Converts any units of UTF-16 to UTF-32, or any units of UTF-32 to UTF-16, and writes U+FFFD for each ill-formed
 * unit.
 */
size_t wide_utf16_to_utf32_lossy(const uint16_t *utf16, size_t length, uint32_t *utf32, size_t capacity);
size_t wide_utf32_to_utf16_lossy(const uint32_t *utf32, size_t length, uint16_t *utf16, size_t capacity);

/*
 * Converts any units of UTF-16 to UTF-32, or any units of UTF-32 to UTF-16, and replaces ill-formed units by the
 * policy. Returns WIDE_FAULT if the policy is invalid.
 */
size_t wide_utf16_to_utf32_lossy_with(const uint16_t *utf16, size_t length, uint32_t policy, uint32_t *utf32, size_t capacity);
size_t wide_utf32_to_utf16_lossy_with(const uint32_t *utf32, size_t length, uint32_t policy, uint16_t *utf16, size_t capacity);

/*
 * Converts any units of UTF-16 to WTF-8, which never fails, and WTF-8 to the units of UTF-16 that it was made of, well
 * formed or not. The second call returns WIDE_FAULT if the bytes are not WTF-8.
 */
size_t wide_utf16_to_wtf8(const uint16_t *units, size_t length, uint8_t *text, size_t capacity);
size_t wide_wtf8_to_utf16(const uint8_t *text, size_t length, uint16_t *units, size_t capacity);

/*
 * Converts any bytes to UTF-16 or to UTF-32, and writes U+FFFD for each maximal subpart of an ill-formed sequence of
 * UTF-8: the longest prefix that begins a character but does not continue as one, or a byte that begins none (Unicode
 * Standard, section 3.9, "U+FFFD Substitution of Maximal Subparts").
 */
size_t wide_utf8_to_utf16_lossy(const uint8_t *text, size_t length, uint16_t *units, size_t capacity);
size_t wide_utf8_to_utf32_lossy(const uint8_t *text, size_t length, uint32_t *units, size_t capacity);

/*
 * Converts any bytes to UTF-16 or to UTF-32, and replaces each maximal subpart of an ill-formed sequence of UTF-8
 * (Unicode Standard, section 3.9) by the policy. Returns WIDE_FAULT if the policy is invalid.
 */
size_t wide_utf8_to_utf16_lossy_with(const uint8_t *text, size_t length, uint32_t policy, uint16_t *units, size_t capacity);
size_t wide_utf8_to_utf32_lossy_with(const uint8_t *text, size_t length, uint32_t policy, uint32_t *units, size_t capacity);

/*
 * Copies the units, and replaces each ill-formed unit by U+FFFD. The result is well formed, and its length is `length`.
 */
size_t wide_utf16_repair(const uint16_t *units, size_t length, uint16_t *repaired, size_t capacity);
size_t wide_utf32_repair(const uint32_t *units, size_t length, uint32_t *repaired, size_t capacity);

/*
 * Copies the units, and writes each ASCII letter in lower case, or in upper case. All other units are copied as they
 * are, also ill-formed ones. The length of the result is `length`.
 */
size_t wide_utf16_to_ascii_lowercase(const uint16_t *units, size_t length, uint16_t *lower, size_t capacity);
size_t wide_utf32_to_ascii_lowercase(const uint32_t *units, size_t length, uint32_t *lower, size_t capacity);
size_t wide_utf16_to_ascii_uppercase(const uint16_t *units, size_t length, uint16_t *upper, size_t capacity);
size_t wide_utf32_to_ascii_uppercase(const uint32_t *units, size_t length, uint32_t *upper, size_t capacity);

/*
 * Copies bytes to units, in the byte order of the bytes (Unicode Standard, D96, D97, D99 and D100). `length` is in
 * bytes, and the result in units. The units may have any values, also ill-formed ones. Returns WIDE_FAULT if part of a
 * unit is left at the end, that is, if `length` is no multiple of 2, or of 4 for UTF-32, or if the order is invalid.
 */
size_t wide_utf16_from_bytes(const uint8_t *bytes, size_t length, uint32_t order, uint16_t *units, size_t capacity);
size_t wide_utf32_from_bytes(const uint8_t *bytes, size_t length, uint32_t order, uint32_t *units, size_t capacity);

/*
 * Copies units to bytes, in a byte order. `length` is in units, and the result in bytes: 2 for each unit of UTF-16, and
 * 4 for each unit of UTF-32. Returns WIDE_FAULT if the order is invalid.
 */
size_t wide_utf16_to_bytes(const uint16_t *units, size_t length, uint32_t order, uint8_t *bytes, size_t capacity);
size_t wide_utf32_to_bytes(const uint32_t *units, size_t length, uint32_t order, uint8_t *bytes, size_t capacity);

/* Copies the units, and reverses the order of the bytes in each. The length of the result is `length`. */
size_t wide_utf16_swap_bytes(const uint16_t *units, size_t length, uint16_t *swapped, size_t capacity);
size_t wide_utf32_swap_bytes(const uint32_t *units, size_t length, uint32_t *swapped, size_t capacity);

/* The rules of results and capacities above do not apply to the functions below. */

/*
 * Replaces each ill-formed unit by U+FFFD where it is, and returns how many units were replaced. The result is well
 * formed.
 */
size_t wide_utf16_repair_in_place(uint16_t *units, size_t length);
size_t wide_utf32_repair_in_place(uint32_t *units, size_t length);

/*
 * Converts as many characters as fit into the buffer. It stops at the end of the input, at the first ill-formed
 * sequence, or where the next character does not fit. Stores in `*read` how many elements of the input were read, and
 * returns how many elements were written. No element after these is written. All that was read was converted, so the
 * next call begins `*read` elements later:
 *
 *     while (length > 0) {
 *         size_t read, written = wide_utf16_to_utf8_part(units, length, buffer, sizeof buffer, &read);
 *         if (read == 0) break;                        // an ill-formed unit, if the buffer has at least 4 bytes
 *         fwrite(buffer, 1, written, stdout);
 *         units += read;
 *         length -= read;
 *     }
 *
 * A character has at most 4 bytes of UTF-8 or 2 units of UTF-16. If nothing was read though the buffer has that much
 * space, and `length` is not 0, an ill-formed sequence is next.
 */
size_t wide_utf16_to_utf8_part(const uint16_t *units, size_t length, uint8_t *text, size_t capacity, size_t *read);
size_t wide_utf32_to_utf8_part(const uint32_t *units, size_t length, uint8_t *text, size_t capacity, size_t *read);
size_t wide_utf16_to_utf32_part(const uint16_t *utf16, size_t length, uint32_t *utf32, size_t capacity, size_t *read);
size_t wide_utf32_to_utf16_part(const uint32_t *utf32, size_t length, uint16_t *utf16, size_t capacity, size_t *read);
size_t wide_utf8_to_utf16_part(const uint8_t *text, size_t length, uint16_t *units, size_t capacity, size_t *read);
size_t wide_utf8_to_utf32_part(const uint8_t *text, size_t length, uint32_t *units, size_t capacity, size_t *read);

/*
 * A conversion of a text between encoding schemes, piece by piece, and how far the last piece came. The caller supplies
 * it. wide_convert_start writes all members, and wide_convert_push reads and writes them. The first ten are for the
 * caller to read; the others are the library's own. It may be copied, and does not have to be freed.
 *
 * An item is a character or an ill-formed sequence. A BOM of the schemes WIDE_UTF16 and WIDE_UTF32 is no item, but its
 * bytes count. Each 64-bit number stays at 2^64 - 1 if it would be greater.
 */
typedef struct WideConverter {
    size_t read;           /* How many bytes of the input of the last call were read. */
    size_t kept;           /* How many bytes were read and belong to no item so far, at most 4. */
    uint64_t bytes;        /* How many bytes of the text precede what was not read or is kept. */
    uint64_t items;        /* How many items these bytes are. */
    uint64_t faults;       /* How many of these items are ill-formed sequences. */
    uint64_t fault_offset; /* At WIDE_AT_FAULT, how many bytes of the text precede the ill-formed sequence. Else 0. */
    uint64_t fault_item;   /* At WIDE_AT_FAULT, how many items precede it. Else 0. */
    uint32_t fault_unit;   /* At WIDE_AT_FAULT, its unit, or its first byte or its surrogate in UTF-8. Else 0. */
    uint32_t end;          /* Why the last call stopped: a value of WideEnd. */
    uint32_t from, to, policy, layout, keeps, after_high, after_fault, bom;
    size_t bom_length;
    uint8_t unread[4];
} WideConverter;

/*
 * Begins a conversion from one scheme to another, given by numbers of WideScheme. The policy is a number of WideLossy
 * or WIDE_STRICT. If `bom` is not 0, a BOM is written before the text. Returns 1. If a number is invalid, it returns 0
 * and leaves the converter unchanged.
 */
uint32_t wide_convert_start(WideConverter *converter, uint32_t from, uint32_t to, uint32_t policy, uint32_t bom);

/*
 * Converts the next bytes of the text, which may end anywhere, also within a character. `is_last` is 0 if more bytes
 * follow, and another number if these are the last ones. Returns how many bytes were written. Then `end` says why it
 * stopped:
 *
 *  - WIDE_NEEDS_INPUT: all input was read. Call it with the next bytes. If these were the last ones, the text has
 *    ended, and `kept` is not 0 if it ended within a unit.
 *  - WIDE_NO_SPACE: fewer than 8 bytes of the output are left. Call it again with more space and the bytes after the
 *    first `read` ones. With a capacity of less than 8 nothing is read or written.
 *  - WIDE_AT_FAULT: an ill-formed sequence was read, and nothing was written for it. Only WIDE_STRICT stops there. To
 *    go on after it, call it again with the bytes after the first `read` ones.
 *
 * What is written does not depend on the lengths of the pieces. The bytes of the output after those written may be
 * overwritten, up to the capacity. To end a text without more bytes, call it with a length of 0 and `is_last`.
 *
 * Returns WIDE_FAULT, and leaves the converter and the output unchanged, if the converter holds nothing that
 * wide_convert_start or wide_convert_push can have left.
 */
size_t wide_convert_push(WideConverter *converter, const uint8_t *input, size_t length, uint32_t is_last, uint8_t *output, size_t capacity);

#ifdef __cplusplus
}
#endif

#endif
