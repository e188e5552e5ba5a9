#![doc = include_str!("../README.md")]
#![no_std]
#![warn(missing_docs)]
#![deny(
    unsafe_code,
    unsafe_op_in_unsafe_fn,
    clippy::undocumented_unsafe_blocks,
    clippy::missing_safety_doc
)]


extern crate alloc;

mod calls;
mod convert;
mod raw;

#[cfg(feature = "std")]
pub use convert::{ConvertReader, ConvertWriter};
pub use convert::{Converter, End, Progress, TextFault};

use alloc::string::String;
use alloc::vec::Vec;
use core::cmp::Ordering;
use core::error::Error;
use core::fmt;

/// Reports ill-formed text: the error of strict conversions, with the offset of the first ill-formed sequence.
///
/// # Examples
///
/// ```
/// use widestring_proved::{utf8_to_utf16, Fault};
///
/// let fault = utf8_to_utf16(b"H\xffi").unwrap_err();
/// assert_eq!(fault, Fault { offset: 1 });
/// assert_eq!(fault.to_string(), "ill-formed at offset 1");
/// ```
#[derive(Clone, Copy, Debug, PartialEq, Eq)]
pub struct Fault {
    /// Counts the elements before the sequence: code units of UTF-16 or UTF-32, or bytes of UTF-8. For UTF-16 in bytes
    /// it counts units.
    pub offset: usize,
}

impl fmt::Display for Fault {
    fn fmt(&self, f: &mut fmt::Formatter<'_>) -> fmt::Result {
        write!(f, "ill-formed at offset {}", self.offset)
    }
}

impl Error for Fault {}

/// Reports a buffer that is shorter than the result: the error of lossy conversions into a buffer. The content of the
/// buffer is unspecified then.
///
/// # Examples
///
/// ```
/// use widestring_proved::{utf16_to_utf8_lossy_into, Lossy, Short};
///
/// let units = [0x20ac, 0xd800];
/// let mut buffer = vec![0; 3];
/// let short = utf16_to_utf8_lossy_into(&units, Lossy::Each, &mut buffer).unwrap_err();
/// assert_eq!(short, Short { needed: 6 });
/// buffer.resize(short.needed, 0);
/// assert_eq!(utf16_to_utf8_lossy_into(&units, Lossy::Each, &mut buffer), Ok(6));
/// assert_eq!(buffer, "\u{20ac}\u{fffd}".as_bytes());
/// ```
#[derive(Clone, Copy, Debug, PartialEq, Eq)]
pub struct Short {
    /// Counts the elements of the result: code units of UTF-16 or UTF-32, or bytes of UTF-8.
    pub needed: usize,
}

impl fmt::Display for Short {
    fn fmt(&self, f: &mut fmt::Formatter<'_>) -> fmt::Result {
        write!(f, "the text needs a buffer of {} elements", self.needed)
    }
}

impl Error for Short {}

/// Reports why a buffer does not hold the result: the error of strict conversions into a buffer.
///
/// # Examples
///
/// ```
/// use widestring_proved::{utf16_to_utf8_into, Fault, IntoError, Short};
///
/// let mut buffer = [0; 2];
/// assert_eq!(utf16_to_utf8_into(&[0x48, 0x69], &mut buffer), Ok(2));
/// assert_eq!(utf16_to_utf8_into(&[0x20ac], &mut buffer), Err(IntoError::Short(Short { needed: 3 })));
/// assert_eq!(utf16_to_utf8_into(&[0xdc00], &mut buffer), Err(IntoError::Fault(Fault { offset: 0 })));
/// ```
#[derive(Clone, Copy, Debug, PartialEq, Eq)]
pub enum IntoError {
    /// Reports ill-formed text. The buffer is unchanged.
    Fault(Fault),
    /// Reports that the buffer is too short. Its content is unspecified.
    Short(Short),
}

impl fmt::Display for IntoError {
    fn fmt(&self, f: &mut fmt::Formatter<'_>) -> fmt::Result {
        match self {
            Self::Fault(fault) => fault.fmt(f),
            Self::Short(short) => short.fmt(f),
        }
    }
}

impl Error for IntoError {}

impl From<Fault> for IntoError {
    fn from(fault: Fault) -> Self {
        Self::Fault(fault)
    }
}

impl From<Short> for IntoError {
    fn from(short: Short) -> Self {
        Self::Short(short)
    }
}

/// Chooses what lossy conversions write for ill-formed sequences.
///
/// [`Lossy::Skip`] joins the text on both sides of a sequence. So the result may contain a word that a filter did not
/// find before the conversion: filter the result, not the input.
///
/// # Examples
///
/// ```
/// use widestring_proved::{utf16_to_utf8_lossy, Lossy};
///
/// let units = [0x61, 0xdc00, 0xdc00, 0x62];
/// assert_eq!(utf16_to_utf8_lossy(&units, Lossy::Each), "a\u{fffd}\u{fffd}b");
/// assert_eq!(utf16_to_utf8_lossy(&units, Lossy::Run), "a\u{fffd}b");
/// assert_eq!(utf16_to_utf8_lossy(&units, Lossy::Skip), "ab");
/// ```
#[derive(Clone, Copy, Debug, PartialEq, Eq)]
#[repr(u32)]
pub enum Lossy {
    // Made by bindings/tables of WideLossy:
    /// Writes U+FFFD for each ill-formed sequence.
    Each = 0,
    /// Writes one U+FFFD for each longest run of adjacent ill-formed sequences.
    Run = 1,
    /// Writes nothing for ill-formed sequences.
    Skip = 2,
    // End of what bindings/tables makes.
}

/// Names an encoding scheme: how a text is stored as bytes.
#[derive(Clone, Copy, Debug, PartialEq, Eq)]
#[repr(u32)]
pub enum Scheme {
    // Made by bindings/tables of WideScheme:
    /// UTF-8.
    Utf8 = 0,
    /// UTF-16, little-endian.
    Utf16Le = 1,
    /// UTF-16, big-endian.
    Utf16Be = 2,
    /// UTF-16, with or without a BOM.
    Utf16 = 3,
    /// UTF-32, little-endian.
    Utf32Le = 4,
    /// UTF-32, big-endian.
    Utf32Be = 5,
    /// UTF-32, with or without a BOM.
    Utf32 = 6,
    /// WTF-8.
    Wtf8 = 7,
    // End of what bindings/tables makes.
}

/// Says how many elements a call read and wrote.
#[derive(Clone, Copy, Debug, PartialEq, Eq)]
pub struct Part {
    /// Counts the elements of the input that were read.
    pub read: usize,
    /// Counts the elements that were written.
    pub written: usize,
}

/// Says which of the two bytes of a unit of UTF-16 comes first.
#[derive(Clone, Copy, Debug, PartialEq, Eq)]
#[repr(u32)]
pub enum Order {
    /// Means that the low byte comes first.
    Little = 0,
    /// Means that the high byte comes first.
    Big = 1,
}

/// Returns the version of the linked library: 65,536 times the major number, plus 256 times the minor number, plus the
/// patch number. It never panics.
///
/// # Examples
///
/// ```
/// let number = widestring_proved::version();
/// assert_eq!((number >> 16, number >> 8 & 0xff), (0, 2));
/// ```
#[must_use]
pub fn version() -> u32 {
    calls::version()
}

/// Returns the offset, in bytes, of the first byte of the first ill-formed sequence of UTF-8, or `None` if the text is
/// well formed.
///
/// # Panics
///
/// If the linked library is [not this crate's](crate#panics).
///
/// # Examples
///
/// ```
/// use widestring_proved::utf8_first_fault;
///
/// assert_eq!(utf8_first_fault("H\u{e9}".as_bytes()), None);
/// assert_eq!(utf8_first_fault(b"H\xc3\xa9\xff"), Some(3));
/// ```
#[must_use]
pub fn utf8_first_fault(text: &[u8]) -> Option<usize> {
    calls::UTF8_FIRST_FAULT.offset(text)
}

/// Returns the offset, in units, of the first ill-formed unit of UTF-16, or `None` if the units are well formed.
///
/// # Panics
///
/// If the linked library is [not this crate's](crate#panics).
///
/// # Examples
///
/// ```
/// use widestring_proved::utf16_first_fault;
///
/// assert_eq!(utf16_first_fault(&[0x48, 0xd83d, 0xde00]), None);
/// assert_eq!(utf16_first_fault(&[0x48, 0xde00, 0xd83d]), Some(1));
/// ```
#[must_use]
pub fn utf16_first_fault(units: &[u16]) -> Option<usize> {
    calls::UTF16_FIRST_FAULT.offset(units)
}

/// Returns the offset, in units, of the first unit of UTF-32 that is not a scalar value, or `None` if the units are
/// well formed.
///
/// # Panics
///
/// If the linked library is [not this crate's](crate#panics).
///
/// # Examples
///
/// ```
/// use widestring_proved::utf32_first_fault;
///
/// assert_eq!(utf32_first_fault(&[0x48, 0x1f600]), None);
/// assert_eq!(utf32_first_fault(&[0x48, 0x1f600, 0x110000]), Some(2));
/// ```
#[must_use]
pub fn utf32_first_fault(units: &[u32]) -> Option<usize> {
    calls::UTF32_FIRST_FAULT.offset(units)
}

/// Returns how many characters precede the first ill-formed unit of UTF-16, or `None` if the units are well formed. A
/// decoder that yields one item for each character and each ill-formed unit yields that unit as the item with this
/// index.
///
/// # Panics
///
/// If the linked library is [not this crate's](crate#panics).
///
/// # Examples
///
/// ```
/// use widestring_proved::{utf16_first_fault, utf16_first_fault_item};
///
/// let units = [0xd83d, 0xde00, 0xdc00];
/// assert_eq!(utf16_first_fault(&units), Some(2));
/// assert_eq!(utf16_first_fault_item(&units), Some(1));
/// ```
#[must_use]
pub fn utf16_first_fault_item(units: &[u16]) -> Option<usize> {
    calls::UTF16_FIRST_FAULT_ITEM.count(units)
}

/// Returns how many characters precede the first unit of UTF-32 that is not a scalar value, or `None` if the units are
/// well formed. It is the offset that [`utf32_first_fault`] returns.
///
/// # Panics
///
/// If the linked library is [not this crate's](crate#panics).
#[must_use]
pub fn utf32_first_fault_item(units: &[u32]) -> Option<usize> {
    calls::UTF32_FIRST_FAULT_ITEM.count(units)
}

/// Returns how many characters UTF-8 has, or `None` if it is ill-formed.
///
/// # Panics
///
/// If the linked library is [not this crate's](crate#panics).
///
/// # Examples
///
/// ```
/// use widestring_proved::utf8_char_count;
///
/// assert_eq!(utf8_char_count("\u{e9}\u{1f600}".as_bytes()), Some(2));
/// assert_eq!(utf8_char_count(b"\xff"), None);
/// ```
#[must_use]
pub fn utf8_char_count(text: &[u8]) -> Option<usize> {
    calls::UTF8_CHAR_COUNT.count(text)
}

/// Returns how many characters UTF-16 has, or `None` if it is ill-formed.
///
/// # Panics
///
/// If the linked library is [not this crate's](crate#panics).
///
/// # Examples
///
/// ```
/// use widestring_proved::utf16_char_count;
///
/// assert_eq!(utf16_char_count(&[0x48, 0xd83d, 0xde00]), Some(2));
/// assert_eq!(utf16_char_count(&[0x48, 0xd83d]), None);
/// ```
#[must_use]
pub fn utf16_char_count(units: &[u16]) -> Option<usize> {
    calls::UTF16_CHAR_COUNT.count(units)
}

/// Returns how many characters UTF-32 has, or `None` if it is ill-formed. Each unit is a character.
///
/// # Panics
///
/// If the linked library is [not this crate's](crate#panics).
#[must_use]
pub fn utf32_char_count(units: &[u32]) -> Option<usize> {
    calls::UTF32_CHAR_COUNT.count(units)
}

/// Returns the offset, in units, of the first NUL of UTF-16, or `None` if there is none.
///
/// # Panics
///
/// If the linked library is [not this crate's](crate#panics).
///
/// # Examples
///
/// ```
/// use widestring_proved::{utf16_first_nul, utf16_to_utf8};
///
/// let units = [0x48, 0x69, 0, 0xdc00];
/// let end = utf16_first_nul(&units).unwrap_or(units.len());
/// assert_eq!(utf16_to_utf8(&units[..end]).unwrap(), "Hi");
/// ```
#[must_use]
pub fn utf16_first_nul(units: &[u16]) -> Option<usize> {
    calls::UTF16_FIRST_NUL.offset(units)
}

/// Returns the offset, in units, of the first NUL of UTF-32, or `None` if there is none.
///
/// # Panics
///
/// If the linked library is [not this crate's](crate#panics).
#[must_use]
pub fn utf32_first_nul(units: &[u32]) -> Option<usize> {
    calls::UTF32_FIRST_NUL.offset(units)
}

/// Returns the offset, in units, of the first unit of UTF-16 that equals `unit`, or `None` if there is none. Units are
/// compared as numbers, also if they are ill-formed.
///
/// # Panics
///
/// If the linked library is [not this crate's](crate#panics).
///
/// # Examples
///
/// ```
/// use widestring_proved::utf16_find_unit;
///
/// assert_eq!(utf16_find_unit(&[0x48, 0x69], 0x69), Some(1));
/// assert_eq!(utf16_find_unit(&[0x48, 0x69], 0x21), None);
/// ```
#[must_use]
pub fn utf16_find_unit(units: &[u16], unit: u16) -> Option<usize> {
    calls::UTF16_FIND_UNIT.offset(units, unit)
}

/// Returns the offset, in units, of the first unit of UTF-32 that equals `unit`, or `None` if there is none. Units are
/// compared as numbers, also if they are not scalar values.
///
/// # Panics
///
/// If the linked library is [not this crate's](crate#panics).
#[must_use]
pub fn utf32_find_unit(units: &[u32], unit: u32) -> Option<usize> {
    calls::UTF32_FIND_UNIT.offset(units, unit)
}

/// Returns the offset, in units, of the first occurrence of a needle in UTF-16, or `None` if it does not occur. An
/// empty needle occurs at offset 0. Units are compared as numbers, also if they are ill-formed. The time grows at most
/// linearly with both lengths.
///
/// # Panics
///
/// If the linked library is [not this crate's](crate#panics).
///
/// # Examples
///
/// ```
/// use widestring_proved::utf16_find;
///
/// assert_eq!(utf16_find(&[0x48, 0x69, 0x21], &[0x69, 0x21]), Some(1));
/// assert_eq!(utf16_find(&[0x48, 0x69, 0x21], &[0x21, 0x69]), None);
/// assert_eq!(utf16_find(&[0x48], &[]), Some(0));
/// ```
#[must_use]
pub fn utf16_find(units: &[u16], needle: &[u16]) -> Option<usize> {
    calls::UTF16_FIND.offset(units, needle)
}

/// Returns the offset, in units, of the first occurrence of a needle in UTF-32, or `None` if it does not occur. An
/// empty needle occurs at offset 0. Units are compared as numbers, also if they are not scalar values. The time grows
/// at most linearly with both lengths.
///
/// # Panics
///
/// If the linked library is [not this crate's](crate#panics).
#[must_use]
pub fn utf32_find(units: &[u32], needle: &[u32]) -> Option<usize> {
    calls::UTF32_FIND.offset(units, needle)
}

/// Returns the offset, in units, of the last occurrence of a needle in UTF-16, or `None` if it does not occur. An empty
/// needle occurs at the end. Units are compared as numbers, also if they are ill-formed. The time grows at most
/// linearly with both lengths.
///
/// # Panics
///
/// If the linked library is [not this crate's](crate#panics).
///
/// # Examples
///
/// ```
/// use widestring_proved::utf16_rfind;
///
/// assert_eq!(utf16_rfind(&[0x61, 0x62, 0x61], &[0x61]), Some(2));
/// assert_eq!(utf16_rfind(&[0x61, 0x62, 0x61], &[]), Some(3));
/// assert_eq!(utf16_rfind(&[0x61], &[0x62]), None);
/// ```
#[must_use]
pub fn utf16_rfind(units: &[u16], needle: &[u16]) -> Option<usize> {
    calls::UTF16_RFIND.offset(units, needle)
}

/// Returns the offset, in units, of the last occurrence of a needle in UTF-32, or `None` if it does not occur. An empty
/// needle occurs at the end. Units are compared as numbers, also if they are not scalar values. The time grows at most
/// linearly with both lengths.
///
/// # Panics
///
/// If the linked library is [not this crate's](crate#panics).
#[must_use]
pub fn utf32_rfind(units: &[u32], needle: &[u32]) -> Option<usize> {
    calls::UTF32_RFIND.offset(units, needle)
}

/// Returns the offset, in units, of the first occurrence of a needle in UTF-16 without regard to the case of ASCII
/// letters, or `None` if it does not occur. An empty needle occurs at offset 0. Letters past ASCII are compared as they
/// are. The time grows at most linearly with both lengths.
///
/// # Panics
///
/// If the linked library is [not this crate's](crate#panics).
///
/// # Examples
///
/// ```
/// use widestring_proved::utf16_find_ignore_ascii_case;
///
/// assert_eq!(utf16_find_ignore_ascii_case(&[0x48, 0x69], &[0x49]), Some(1));
/// assert_eq!(utf16_find_ignore_ascii_case(&[0xe4], &[0xc4]), None);
/// ```
#[must_use]
pub fn utf16_find_ignore_ascii_case(units: &[u16], needle: &[u16]) -> Option<usize> {
    calls::UTF16_FIND_IN_ANY_CASE.offset(units, needle)
}

/// Returns the offset, in units, of the first occurrence of a needle in UTF-32 without regard to the case of ASCII
/// letters, or `None` if it does not occur. An empty needle occurs at offset 0. Letters past ASCII are compared as they
/// are. The time grows at most linearly with both lengths.
///
/// # Panics
///
/// If the linked library is [not this crate's](crate#panics).
#[must_use]
pub fn utf32_find_ignore_ascii_case(units: &[u32], needle: &[u32]) -> Option<usize> {
    calls::UTF32_FIND_IN_ANY_CASE.offset(units, needle)
}

/// Returns whether two slices of UTF-16 have the same units without regard to the case of ASCII letters. Letters past
/// ASCII are compared as they are.
///
/// # Panics
///
/// If the linked library is [not this crate's](crate#panics).
///
/// # Examples
///
/// ```
/// use widestring_proved::utf16_eq_ignore_ascii_case;
///
/// assert!(utf16_eq_ignore_ascii_case(&[0x48, 0x69], &[0x68, 0x49]));
/// assert!(!utf16_eq_ignore_ascii_case(&[0xe4], &[0xc4]));
/// ```
#[must_use]
pub fn utf16_eq_ignore_ascii_case(units: &[u16], other: &[u16]) -> bool {
    calls::UTF16_EQ_IN_ANY_CASE.flag(units, other)
}

/// Returns whether two slices of UTF-32 have the same units without regard to the case of ASCII letters. Letters past
/// ASCII are compared as they are.
///
/// # Panics
///
/// If the linked library is [not this crate's](crate#panics).
#[must_use]
pub fn utf32_eq_ignore_ascii_case(units: &[u32], other: &[u32]) -> bool {
    calls::UTF32_EQ_IN_ANY_CASE.flag(units, other)
}

/// Compares two slices of UTF-16 by their code points, as `str` and UTF-32 are ordered. An unpaired surrogate is a code
/// point too. The units themselves are in another order, in which characters past U+FFFF precede U+E000 to U+FFFF.
///
/// # Panics
///
/// If the linked library is [not this crate's](crate#panics).
///
/// # Examples
///
/// ```
/// use std::cmp::Ordering;
/// use widestring_proved::utf16_compare_code_points;
///
/// let (emoji, letter) = ([0xd83d, 0xde00], [0xff21]);
/// assert_eq!(emoji[..].cmp(&letter[..]), Ordering::Less);
/// assert_eq!(utf16_compare_code_points(&emoji, &letter), Ordering::Greater);
/// ```
#[must_use]
pub fn utf16_compare_code_points(units: &[u16], other: &[u16]) -> Ordering {
    calls::UTF16_COMPARE.order(units, other)
}

/// Compares two slices of UTF-32 by their code points. A unit that is not a scalar value counts by its number.
///
/// # Panics
///
/// If the linked library is [not this crate's](crate#panics).
#[must_use]
pub fn utf32_compare_code_points(units: &[u32], other: &[u32]) -> Ordering {
    calls::UTF32_COMPARE.order(units, other)
}

/// Converts well-formed UTF-16 to UTF-8.
///
/// # Errors
///
/// [`Fault`], with the offset in units of the first ill-formed unit, if the units are ill-formed.
///
/// # Panics
///
/// If the linked library is [not this crate's](crate#panics).
///
/// # Examples
///
/// ```
/// use widestring_proved::utf16_to_utf8;
///
/// assert_eq!(utf16_to_utf8(&[0x48, 0x69, 0xd83d, 0xde00]).unwrap(), "Hi\u{1f600}");
/// assert_eq!(utf16_to_utf8(&[0x48, 0x69, 0xd83d]).unwrap_err().offset, 2);
/// ```
pub fn utf16_to_utf8(units: &[u16]) -> Result<String, Fault> {
    calls::UTF16_TO_UTF8.strict_text(units)
}

/// Converts well-formed UTF-32 to UTF-8.
///
/// # Errors
///
/// [`Fault`], with the offset in units of the first unit that is not a scalar value, if there is one.
///
/// # Panics
///
/// If the linked library is [not this crate's](crate#panics).
///
/// # Examples
///
/// ```
/// use widestring_proved::utf32_to_utf8;
///
/// assert_eq!(utf32_to_utf8(&[0x48, 0x1f600]).unwrap(), "H\u{1f600}");
/// assert_eq!(utf32_to_utf8(&[0x48, 0xd800]).unwrap_err().offset, 1);
/// ```
pub fn utf32_to_utf8(units: &[u32]) -> Result<String, Fault> {
    calls::UTF32_TO_UTF8.strict_text(units)
}

/// Converts well-formed UTF-8 to UTF-16.
///
/// # Errors
///
/// [`Fault`], with the offset in bytes of the first ill-formed sequence, if the bytes are ill-formed.
///
/// # Panics
///
/// If the linked library is [not this crate's](crate#panics).
///
/// # Examples
///
/// ```
/// use widestring_proved::utf8_to_utf16;
///
/// assert_eq!(utf8_to_utf16("H\u{1f600}".as_bytes()).unwrap(), [0x48, 0xd83d, 0xde00]);
/// assert_eq!(utf8_to_utf16(b"H\xf0\x9f").unwrap_err().offset, 1);
/// ```
pub fn utf8_to_utf16(text: &[u8]) -> Result<Vec<u16>, Fault> {
    calls::UTF8_TO_UTF16.strict(text)
}

/// Converts well-formed UTF-8 to UTF-32.
///
/// # Errors
///
/// [`Fault`], with the offset in bytes of the first ill-formed sequence, if the bytes are ill-formed.
///
/// # Panics
///
/// If the linked library is [not this crate's](crate#panics).
///
/// # Examples
///
/// ```
/// use widestring_proved::utf8_to_utf32;
///
/// assert_eq!(utf8_to_utf32("H\u{1f600}".as_bytes()).unwrap(), [0x48, 0x1f600]);
/// assert_eq!(utf8_to_utf32(b"H\xf0\x9f").unwrap_err().offset, 1);
/// ```
pub fn utf8_to_utf32(text: &[u8]) -> Result<Vec<u32>, Fault> {
    calls::UTF8_TO_UTF32.strict(text)
}

/// Converts well-formed UTF-16 to UTF-32.
///
/// # Errors
///
/// [`Fault`], with the offset in units of the first ill-formed unit, if the units are ill-formed.
///
/// # Panics
///
/// If the linked library is [not this crate's](crate#panics).
///
/// # Examples
///
/// ```
/// use widestring_proved::{utf16_repair, utf16_to_utf32};
///
/// assert_eq!(utf16_to_utf32(&[0x48, 0xd83d, 0xde00]).unwrap(), [0x48, 0x1f600]);
/// let units = [0x48, 0xde00];
/// assert_eq!(utf16_to_utf32(&units).unwrap_err().offset, 1);
/// assert_eq!(utf16_to_utf32(&utf16_repair(&units)).unwrap(), [0x48, 0xfffd]);
/// ```
pub fn utf16_to_utf32(units: &[u16]) -> Result<Vec<u32>, Fault> {
    calls::UTF16_TO_UTF32.strict(units)
}

/// Converts well-formed UTF-32 to UTF-16.
///
/// # Errors
///
/// [`Fault`], with the offset in units of the first unit that is not a scalar value, if there is one.
///
/// # Panics
///
/// If the linked library is [not this crate's](crate#panics).
///
/// # Examples
///
/// ```
/// use widestring_proved::utf32_to_utf16;
///
/// assert_eq!(utf32_to_utf16(&[0x48, 0x1f600]).unwrap(), [0x48, 0xd83d, 0xde00]);
/// assert_eq!(utf32_to_utf16(&[0x48, 0x110000]).unwrap_err().offset, 1);
/// ```
pub fn utf32_to_utf16(units: &[u32]) -> Result<Vec<u16>, Fault> {
    calls::UTF32_TO_UTF16.strict(units)
}

/// Converts any UTF-16 to UTF-8, and replaces ill-formed units by the policy.
///
/// # Panics
///
/// If the linked library is [not this crate's](crate#panics).
///
/// # Examples
///
/// ```
/// use widestring_proved::{utf16_to_utf8_lossy, Lossy};
///
/// let units = [0x48, 0x69, 0xdc00, 0xdc00];
/// assert_eq!(utf16_to_utf8_lossy(&units, Lossy::Each), "Hi\u{fffd}\u{fffd}");
/// assert_eq!(utf16_to_utf8_lossy(&units, Lossy::Run), "Hi\u{fffd}");
/// assert_eq!(utf16_to_utf8_lossy(&units, Lossy::Skip), "Hi");
/// ```
#[must_use]
pub fn utf16_to_utf8_lossy(units: &[u16], policy: Lossy) -> String {
    calls::UTF16_TO_UTF8.lossy_text(units, policy, calls::UTF16_TO_UTF8_LOSSILY)
}

/// Converts any UTF-32 to UTF-8, and replaces units that are not scalar values by the policy.
///
/// # Panics
///
/// If the linked library is [not this crate's](crate#panics).
///
/// # Examples
///
/// ```
/// use widestring_proved::{utf32_to_utf8_lossy, Lossy};
///
/// assert_eq!(utf32_to_utf8_lossy(&[0x48, 0x110000], Lossy::Each), "H\u{fffd}");
/// ```
#[must_use]
pub fn utf32_to_utf8_lossy(units: &[u32], policy: Lossy) -> String {
    calls::UTF32_TO_UTF8.lossy_text(units, policy, calls::UTF32_TO_UTF8_LOSSILY)
}

/// Converts any bytes to UTF-16 under a policy.
///
/// It replaces maximal subparts of ill-formed sequences of UTF-8: the longest prefix that begins a character but does
/// not continue as one, or a byte that begins none.
///
/// # Panics
///
/// If the linked library is [not this crate's](crate#panics).
///
/// # Examples
///
/// ```
/// use widestring_proved::{utf8_to_utf16_lossy, Lossy};
///
/// // The first two bytes of a character of four, and a byte that begins none.
/// let text = b"H\xf0\x9f\xff";
/// assert_eq!(utf8_to_utf16_lossy(text, Lossy::Each), [0x48, 0xfffd, 0xfffd]);
/// assert_eq!(utf8_to_utf16_lossy(text, Lossy::Run), [0x48, 0xfffd]);
/// ```
#[must_use]
pub fn utf8_to_utf16_lossy(text: &[u8], policy: Lossy) -> Vec<u16> {
    calls::UTF8_TO_UTF16.lossy(text, policy, calls::UTF8_TO_UTF16_LOSSILY)
}

/// Converts any bytes to UTF-32 under a policy.
///
/// It replaces maximal subparts of ill-formed sequences of UTF-8: the longest prefix that begins a character but does
/// not continue as one, or a byte that begins none.
///
/// # Panics
///
/// If the linked library is [not this crate's](crate#panics).
///
/// # Examples
///
/// ```
/// use widestring_proved::{utf8_to_utf32_lossy, Lossy};
///
/// assert_eq!(utf8_to_utf32_lossy(b"H\xf0\x9f\xff", Lossy::Each), [0x48, 0xfffd, 0xfffd]);
/// ```
#[must_use]
pub fn utf8_to_utf32_lossy(text: &[u8], policy: Lossy) -> Vec<u32> {
    calls::UTF8_TO_UTF32.lossy(text, policy, calls::UTF8_TO_UTF32_LOSSILY)
}

/// Copies UTF-16, and replaces each ill-formed unit by U+FFFD. The result has as many units as the input.
///
/// # Panics
///
/// If the linked library is [not this crate's](crate#panics).
///
/// # Examples
///
/// ```
/// use widestring_proved::utf16_repair;
///
/// assert_eq!(utf16_repair(&[0xd83d, 0xde00, 0xdc00]), [0xd83d, 0xde00, 0xfffd]);
/// ```
#[must_use]
pub fn utf16_repair(units: &[u16]) -> Vec<u16> {
    calls::UTF16_REPAIR.of(units)
}

/// Copies UTF-32, and replaces each unit that is not a scalar value by U+FFFD. The result has as many units as the
/// input.
///
/// # Panics
///
/// If the linked library is [not this crate's](crate#panics).
///
/// # Examples
///
/// ```
/// use widestring_proved::utf32_repair;
///
/// assert_eq!(utf32_repair(&[0x48, 0xd800, 0x110000]), [0x48, 0xfffd, 0xfffd]);
/// ```
#[must_use]
pub fn utf32_repair(units: &[u32]) -> Vec<u32> {
    calls::UTF32_REPAIR.of(units)
}

/// Copies UTF-16, and writes each ASCII letter in lower case. All other units are copied as they are, also ill-formed
/// ones. The result has as many units as the input.
///
/// # Panics
///
/// If the linked library is [not this crate's](crate#panics).
///
/// # Examples
///
/// ```
/// use widestring_proved::utf16_to_ascii_lowercase;
///
/// assert_eq!(utf16_to_ascii_lowercase(&[0x48, 0x69, 0xc4]), [0x68, 0x69, 0xc4]);
/// ```
#[must_use]
pub fn utf16_to_ascii_lowercase(units: &[u16]) -> Vec<u16> {
    calls::UTF16_LOWERCASE.of(units)
}

/// Copies UTF-32, and writes each ASCII letter in lower case. All other units are copied as they are, also those that
/// are not scalar values. The result has as many units as the input.
///
/// # Panics
///
/// If the linked library is [not this crate's](crate#panics).
#[must_use]
pub fn utf32_to_ascii_lowercase(units: &[u32]) -> Vec<u32> {
    calls::UTF32_LOWERCASE.of(units)
}

/// Copies UTF-16, and writes each ASCII letter in upper case. All other units are copied as they are, also ill-formed
/// ones. The result has as many units as the input.
///
/// # Panics
///
/// If the linked library is [not this crate's](crate#panics).
///
/// # Examples
///
/// ```
/// use widestring_proved::utf16_to_ascii_uppercase;
///
/// assert_eq!(utf16_to_ascii_uppercase(&[0x48, 0x69, 0xe4]), [0x48, 0x49, 0xe4]);
/// ```
#[must_use]
pub fn utf16_to_ascii_uppercase(units: &[u16]) -> Vec<u16> {
    calls::UTF16_UPPERCASE.of(units)
}

/// Copies UTF-32, and writes each ASCII letter in upper case. All other units are copied as they are, also those that
/// are not scalar values. The result has as many units as the input.
///
/// # Panics
///
/// If the linked library is [not this crate's](crate#panics).
#[must_use]
pub fn utf32_to_ascii_uppercase(units: &[u32]) -> Vec<u32> {
    calls::UTF32_UPPERCASE.of(units)
}

/// Converts well-formed UTF-16 to UTF-8, writes the result to the start of the buffer, and returns its length in bytes.
/// The bytes after the result are unchanged. An empty buffer can be used to get the length.
///
/// # Errors
///
/// [`IntoError::Fault`] if the units are ill-formed; the buffer is unchanged. [`IntoError::Short`], with the needed
/// length in bytes, if the buffer is shorter than the result; the content of the buffer is unspecified.
///
/// # Panics
///
/// If the linked library is [not this crate's](crate#panics).
///
/// # Examples
///
/// ```
/// use widestring_proved::{utf16_to_utf8_into, IntoError, Short};
///
/// let units = [0x48, 0x20ac];
/// let length = utf16_to_utf8_into(&units, &mut []);
/// assert_eq!(length, Err(IntoError::Short(Short { needed: 4 })));
/// let mut buffer = [0; 16];
/// let length = utf16_to_utf8_into(&units, &mut buffer).unwrap();
/// assert_eq!(&buffer[..length], "H\u{20ac}".as_bytes());
/// ```
pub fn utf16_to_utf8_into(units: &[u16], buffer: &mut [u8]) -> Result<usize, IntoError> {
    calls::UTF16_TO_UTF8.strict_into(units, buffer)
}

/// Converts well-formed UTF-32 to UTF-8, writes the result to the start of the buffer, and returns its length in bytes.
/// The bytes after the result are unchanged. An empty buffer can be used to get the length.
///
/// # Errors
///
/// [`IntoError::Fault`] if the units are ill-formed; the buffer is unchanged. [`IntoError::Short`], with the needed
/// length in bytes, if the buffer is shorter than the result; the content of the buffer is unspecified.
///
/// # Panics
///
/// If the linked library is [not this crate's](crate#panics).
pub fn utf32_to_utf8_into(units: &[u32], buffer: &mut [u8]) -> Result<usize, IntoError> {
    calls::UTF32_TO_UTF8.strict_into(units, buffer)
}

/// Converts well-formed UTF-8 to UTF-16, writes the result to the start of the buffer, and returns its length in units.
/// The units after the result are unchanged. An empty buffer can be used to get the length.
///
/// # Errors
///
/// [`IntoError::Fault`] if the bytes are ill-formed; the buffer is unchanged. [`IntoError::Short`], with the needed
/// length in units, if the buffer is shorter than the result; the content of the buffer is unspecified.
///
/// # Panics
///
/// If the linked library is [not this crate's](crate#panics).
///
/// # Examples
///
/// ```
/// use widestring_proved::utf8_to_utf16_into;
///
/// let mut buffer = [0; 4];
/// let length = utf8_to_utf16_into(b"Hi", &mut buffer).unwrap();
/// assert_eq!(buffer[..length], [0x48, 0x69]);
/// ```
pub fn utf8_to_utf16_into(text: &[u8], buffer: &mut [u16]) -> Result<usize, IntoError> {
    calls::UTF8_TO_UTF16.strict_into(text, buffer)
}

/// Converts well-formed UTF-8 to UTF-32, writes the result to the start of the buffer, and returns its length in units.
/// The units after the result are unchanged. An empty buffer can be used to get the length.
///
/// # Errors
///
/// [`IntoError::Fault`] if the bytes are ill-formed; the buffer is unchanged. [`IntoError::Short`], with the needed
/// length in units, if the buffer is shorter than the result; the content of the buffer is unspecified.
///
/// # Panics
///
/// If the linked library is [not this crate's](crate#panics).
pub fn utf8_to_utf32_into(text: &[u8], buffer: &mut [u32]) -> Result<usize, IntoError> {
    calls::UTF8_TO_UTF32.strict_into(text, buffer)
}

/// Converts any UTF-16 to UTF-8 under a policy, writes the result to the start of the buffer, and returns its length in
/// bytes. The bytes after the result are unchanged. An empty buffer can be used to get the length.
///
/// # Errors
///
/// [`Short`], with the needed length in bytes, if the buffer is shorter than the result; the content of the buffer is
/// unspecified.
///
/// # Panics
///
/// If the linked library is [not this crate's](crate#panics).
///
/// # Examples
///
/// ```
/// use widestring_proved::{utf16_to_utf8_lossy_into, Lossy};
///
/// let mut buffer = [0; 8];
/// let length = utf16_to_utf8_lossy_into(&[0x48, 0xdc00], Lossy::Each, &mut buffer).unwrap();
/// assert_eq!(&buffer[..length], "H\u{fffd}".as_bytes());
/// ```
pub fn utf16_to_utf8_lossy_into(
    units: &[u16],
    policy: Lossy,
    buffer: &mut [u8],
) -> Result<usize, Short> {
    calls::UTF16_TO_UTF8.lossy_into(units, policy, buffer, calls::UTF16_TO_UTF8_LOSSILY)
}

/// Converts any UTF-32 to UTF-8 under a policy, writes the result to the start of the buffer, and returns its length in
/// bytes. The bytes after the result are unchanged. An empty buffer can be used to get the length.
///
/// # Errors
///
/// [`Short`], with the needed length in bytes, if the buffer is shorter than the result; the content of the buffer is
/// unspecified.
///
/// # Panics
///
/// If the linked library is [not this crate's](crate#panics).
pub fn utf32_to_utf8_lossy_into(
    units: &[u32],
    policy: Lossy,
    buffer: &mut [u8],
) -> Result<usize, Short> {
    calls::UTF32_TO_UTF8.lossy_into(units, policy, buffer, calls::UTF32_TO_UTF8_LOSSILY)
}

/// Converts any bytes to UTF-16 under a policy, writes the result to the start of the buffer, and returns its length in
/// units. The units after the result are unchanged. An empty buffer can be used to get the length.
///
/// It replaces maximal subparts of ill-formed sequences of UTF-8: the longest prefix that begins a character but does
/// not continue as one, or a byte that begins none.
///
/// # Errors
///
/// [`Short`], with the needed length in units, if the buffer is shorter than the result; the content of the buffer is
/// unspecified.
///
/// # Panics
///
/// If the linked library is [not this crate's](crate#panics).
pub fn utf8_to_utf16_lossy_into(
    text: &[u8],
    policy: Lossy,
    buffer: &mut [u16],
) -> Result<usize, Short> {
    calls::UTF8_TO_UTF16.lossy_into(text, policy, buffer, calls::UTF8_TO_UTF16_LOSSILY)
}

/// Converts any bytes to UTF-32 under a policy, writes the result to the start of the buffer, and returns its length in
/// units. The units after the result are unchanged. An empty buffer can be used to get the length.
///
/// It replaces maximal subparts of ill-formed sequences of UTF-8: the longest prefix that begins a character but does
/// not continue as one, or a byte that begins none.
///
/// # Errors
///
/// [`Short`], with the needed length in units, if the buffer is shorter than the result; the content of the buffer is
/// unspecified.
///
/// # Panics
///
/// If the linked library is [not this crate's](crate#panics).
pub fn utf8_to_utf32_lossy_into(
    text: &[u8],
    policy: Lossy,
    buffer: &mut [u32],
) -> Result<usize, Short> {
    calls::UTF8_TO_UTF32.lossy_into(text, policy, buffer, calls::UTF8_TO_UTF32_LOSSILY)
}

/// Returns the byte order of the byte order mark (BOM) at the start of UTF-16 in bytes, or `None` if there is none. The
/// two bytes of the BOM do not belong to the text.
///
/// # Panics
///
/// If the linked library is [not this crate's](crate#panics).
///
/// # Examples
///
/// ```
/// use widestring_proved::{utf16_bytes_order, utf16_bytes_to_utf8, Order};
///
/// let file = b"\xfe\xff\x00H\x00i";
/// assert_eq!(utf16_bytes_order(file), Some(Order::Big));
/// assert_eq!(utf16_bytes_to_utf8(&file[2..], Order::Big).unwrap(), "Hi");
/// assert_eq!(utf16_bytes_order(&file[2..]), None);
/// ```
#[must_use]
pub fn utf16_bytes_order(bytes: &[u8]) -> Option<Order> {
    calls::utf16_bytes_order(bytes)
}

/// Returns how many bytes at the start are whole units whose meaning no later bytes can change: all whole units, except
/// a last high surrogate. At most three bytes follow them.
///
/// # Panics
///
/// If the linked library is [not this crate's](crate#panics).
///
/// # Examples
///
/// ```
/// use widestring_proved::{utf16_bytes_complete, Order};
///
/// assert_eq!(utf16_bytes_complete(b"H\x00i", Order::Little), 2);
/// assert_eq!(utf16_bytes_complete(b"H\x00\x3d\xd8", Order::Little), 2);
/// assert_eq!(utf16_bytes_complete(b"H\x00\x3d\xd8\x00\xde", Order::Little), 6);
/// ```
#[must_use]
pub fn utf16_bytes_complete(bytes: &[u8], order: Order) -> usize {
    calls::utf16_bytes_complete(bytes, order)
}

/// Returns the offset, in units, of the first ill-formed unit in the bytes, or `None` if there is none. An odd last
/// byte is ignored.
///
/// # Panics
///
/// If the linked library is [not this crate's](crate#panics).
///
/// # Examples
///
/// ```
/// use widestring_proved::{utf16_bytes_first_fault, Order};
///
/// assert_eq!(utf16_bytes_first_fault(b"H\x00\x00\xdc", Order::Little), Some(1));
/// assert_eq!(utf16_bytes_first_fault(b"H\x00i", Order::Little), None);
/// ```
#[must_use]
pub fn utf16_bytes_first_fault(bytes: &[u8], order: Order) -> Option<usize> {
    calls::utf16_bytes_first_fault(bytes, order)
}

/// Returns whether the last whole unit is ill-formed. If there are no whole units, it returns `after_fault`, which says
/// whether the unit before the bytes is ill-formed. [`utf16_bytes_to_utf8_lossy`] takes the result for the next chunk.
///
/// # Panics
///
/// If the linked library is [not this crate's](crate#panics).
///
/// # Examples
///
/// ```
/// use widestring_proved::{utf16_bytes_end_in_fault, Order};
///
/// assert!(utf16_bytes_end_in_fault(b"H\x00\x00\xdc", Order::Little, false));
/// assert!(!utf16_bytes_end_in_fault(b"H\x00", Order::Little, true));
/// ```
#[must_use]
pub fn utf16_bytes_end_in_fault(bytes: &[u8], order: Order, after_fault: bool) -> bool {
    calls::utf16_bytes_end_in_fault(bytes, order, after_fault)
}

/// Converts bytes of well-formed UTF-16 to UTF-8. A BOM is converted as the character U+FEFF.
///
/// # Errors
///
/// [`Fault`], with the offset in units of the first ill-formed unit. If the units are well formed but the number of
/// bytes is odd, the offset is the number of whole units.
///
/// # Panics
///
/// If the linked library is [not this crate's](crate#panics).
///
/// # Examples
///
/// ```
/// use widestring_proved::{utf16_bytes_to_utf8, Order};
///
/// assert_eq!(utf16_bytes_to_utf8(b"\x00H\x00i", Order::Big).unwrap(), "Hi");
/// assert_eq!(utf16_bytes_to_utf8(b"H\x00i", Order::Little).unwrap_err().offset, 1);
/// ```
pub fn utf16_bytes_to_utf8(bytes: &[u8], order: Order) -> Result<String, Fault> {
    calls::utf16_bytes_to_utf8(bytes, order).ok_or_else(|| Fault {
        offset: utf16_bytes_first_fault(bytes, order).unwrap_or(bytes.len() / 2),
    })
}

/// Converts the whole units of any bytes to UTF-8, and replaces ill-formed units by the policy. `after_fault` says
/// whether the unit before the bytes is ill-formed, so that a run of ill-formed units may cross chunks. An odd last
/// byte is ignored, and a BOM is converted as the character U+FEFF. [The crate's
/// page](crate#utf-16-in-bytes-chunk-by-chunk) shows how to read a stream.
///
/// # Panics
///
/// If the linked library is [not this crate's](crate#panics).
///
/// # Examples
///
/// ```
/// use widestring_proved::{utf16_bytes_to_utf8_lossy, Lossy, Order};
///
/// let bytes = b"\xdc\x00\x00H";
/// assert_eq!(utf16_bytes_to_utf8_lossy(bytes, Order::Big, Lossy::Run, false), "\u{fffd}H");
/// assert_eq!(utf16_bytes_to_utf8_lossy(bytes, Order::Big, Lossy::Run, true), "H");
/// ```
#[must_use]
pub fn utf16_bytes_to_utf8_lossy(
    bytes: &[u8],
    order: Order,
    policy: Lossy,
    after_fault: bool,
) -> String {
    calls::utf16_bytes_to_utf8_lossy(bytes, order, policy, after_fault)
}

/// Returns the number of ill-formed sequences of UTF-8: maximal subparts.
///
/// # Panics
///
/// If the linked library is [not this crate's](crate#panics).
///
/// # Examples
///
/// ```
/// use widestring_proved::utf8_fault_count;
///
/// assert_eq!(utf8_fault_count(b"H\xf0\x9f\xff"), 2);
/// ```
#[must_use]
pub fn utf8_fault_count(text: &[u8]) -> usize {
    calls::UTF8_FAULT_COUNT.number(text)
}

/// Returns the number of ill-formed units of UTF-16.
///
/// # Panics
///
/// If the linked library is [not this crate's](crate#panics).
///
/// # Examples
///
/// ```
/// use widestring_proved::utf16_fault_count;
///
/// assert_eq!(utf16_fault_count(&[0x48, 0xdc00, 0xdc00]), 2);
/// ```
#[must_use]
pub fn utf16_fault_count(units: &[u16]) -> usize {
    calls::UTF16_FAULT_COUNT.number(units)
}

/// Returns the number of units of UTF-32 that are not scalar values.
///
/// # Panics
///
/// If the linked library is [not this crate's](crate#panics).
#[must_use]
pub fn utf32_fault_count(units: &[u32]) -> usize {
    calls::UTF32_FAULT_COUNT.number(units)
}

/// Returns whether all bytes are ASCII. An empty text is.
///
/// # Panics
///
/// If the linked library is [not this crate's](crate#panics).
#[must_use]
pub fn utf8_is_ascii(text: &[u8]) -> bool {
    calls::UTF8_IS_ASCII.holds(text)
}

/// Returns whether all units are ASCII. An empty text is.
///
/// # Panics
///
/// If the linked library is [not this crate's](crate#panics).
///
/// # Examples
///
/// ```
/// use widestring_proved::utf16_is_ascii;
///
/// assert!(utf16_is_ascii(&[0x48, 0x69]));
/// ```
#[must_use]
pub fn utf16_is_ascii(units: &[u16]) -> bool {
    calls::UTF16_IS_ASCII.holds(units)
}

/// Returns whether all units are ASCII. An empty text is.
///
/// # Panics
///
/// If the linked library is [not this crate's](crate#panics).
#[must_use]
pub fn utf32_is_ascii(units: &[u32]) -> bool {
    calls::UTF32_IS_ASCII.holds(units)
}

/// Returns the greatest offset, in units, that is at most `offset` and at most the length, and that does not split a
/// surrogate pair of UTF-16.
///
/// # Panics
///
/// If the linked library is [not this crate's](crate#panics).
///
/// # Examples
///
/// ```
/// use widestring_proved::utf16_floor_char_boundary;
///
/// assert_eq!(utf16_floor_char_boundary(&[0x48, 0xd83d, 0xde00], 2), 1);
/// ```
#[must_use]
pub fn utf16_floor_char_boundary(units: &[u16], offset: usize) -> usize {
    calls::utf16_floor_char_boundary(units, offset)
}

/// Converts any UTF-16 to UTF-32, and replaces ill-formed units by the policy.
///
/// # Panics
///
/// If the linked library is [not this crate's](crate#panics).
///
/// # Examples
///
/// ```
/// use widestring_proved::{utf16_to_utf32_lossy, Lossy};
///
/// assert_eq!(utf16_to_utf32_lossy(&[0x48, 0xdc00], Lossy::Each), [0x48, 0xfffd]);
/// ```
#[must_use]
pub fn utf16_to_utf32_lossy(units: &[u16], policy: Lossy) -> Vec<u32> {
    calls::UTF16_TO_UTF32.lossy(units, policy, calls::UTF16_TO_UTF32_LOSSILY)
}

/// Converts any UTF-32 to UTF-16, and replaces units that are not scalar values by the policy.
///
/// # Panics
///
/// If the linked library is [not this crate's](crate#panics).
#[must_use]
pub fn utf32_to_utf16_lossy(units: &[u32], policy: Lossy) -> Vec<u16> {
    calls::UTF32_TO_UTF16.lossy(units, policy, calls::UTF32_TO_UTF16_LOSSILY)
}

/// Returns the offset, in bytes, of the first fault of WTF-8, or `None` if there is none: an ill-formed sequence of UTF-8
/// that is no surrogate, or the second half of a surrogate pair whose halves are written apart.
///
/// # Panics
///
/// If the linked library is [not this crate's](crate#panics).
///
/// # Examples
///
/// ```
/// use widestring_proved::wtf8_first_fault;
///
/// assert_eq!(wtf8_first_fault(b"\xed\xa0\x80"), None);
/// assert_eq!(wtf8_first_fault(b"H\xff"), Some(1));
/// ```
#[must_use]
pub fn wtf8_first_fault(text: &[u8]) -> Option<usize> {
    calls::WTF8_FIRST_FAULT.offset(text)
}

/// Converts any UTF-16 to WTF-8, which keeps each unit.
///
/// # Panics
///
/// If the linked library is [not this crate's](crate#panics).
///
/// # Examples
///
/// ```
/// use widestring_proved::{utf16_to_wtf8, wtf8_to_utf16};
///
/// let units = [0x48, 0xd800];
/// let text = utf16_to_wtf8(&units);
/// assert_eq!(text, b"H\xed\xa0\x80");
/// assert_eq!(wtf8_to_utf16(&text).unwrap(), units);
/// ```
#[must_use]
pub fn utf16_to_wtf8(units: &[u16]) -> Vec<u8> {
    let text = calls::UTF16_TO_WTF8.strict(units);
    text.expect("WTF-8 has all units")
}

/// Converts WTF-8 to the units of UTF-16 that it was made of, well formed or not.
///
/// # Errors
///
/// The offset of the first fault, in bytes.
///
/// # Panics
///
/// If the linked library is [not this crate's](crate#panics).
pub fn wtf8_to_utf16(text: &[u8]) -> Result<Vec<u16>, Fault> {
    calls::WTF8_TO_UTF16.strict(text)
}

/// Returns the units of UTF-16 in bytes of this order, of any values, or `None` if part of a unit is left at the end.
///
/// # Panics
///
/// If the linked library is [not this crate's](crate#panics).
///
/// # Examples
///
/// ```
/// use widestring_proved::{utf16_from_bytes, Order};
///
/// assert_eq!(utf16_from_bytes(b"\0H", Order::Big).unwrap(), [0x48]);
/// assert_eq!(utf16_from_bytes(b"\0", Order::Big), None);
/// ```
#[must_use]
pub fn utf16_from_bytes(bytes: &[u8], order: Order) -> Option<Vec<u16>> {
    calls::UTF16_FROM_BYTES.of(bytes, order, bytes.len() / 2)
}

/// Returns the bytes of units of UTF-16 in this order. The units may have any values.
///
/// # Panics
///
/// If the linked library is [not this crate's](crate#panics).
///
/// # Examples
///
/// ```
/// use widestring_proved::{utf16_to_bytes, Order};
///
/// assert_eq!(utf16_to_bytes(&[0x48], Order::Big), b"\0H");
/// ```
#[must_use]
pub fn utf16_to_bytes(units: &[u16], order: Order) -> Vec<u8> {
    let bytes = calls::UTF16_TO_BYTES.of(units, order, 2 * units.len());
    bytes.expect("each order has a number")
}

/// Copies UTF-16, and reverses the order of the bytes in each unit.
///
/// # Panics
///
/// If the linked library is [not this crate's](crate#panics).
#[must_use]
pub fn utf16_swap_bytes(units: &[u16]) -> Vec<u16> {
    calls::UTF16_SWAP_BYTES.of(units)
}

/// Replaces each ill-formed unit of UTF-16 by U+FFFD where it is, and returns how many were replaced.
///
/// # Panics
///
/// If the linked library is [not this crate's](crate#panics).
///
/// # Examples
///
/// ```
/// use widestring_proved::utf16_repair_in_place;
///
/// let mut units = [0x48, 0xdc00];
/// assert_eq!(utf16_repair_in_place(&mut units), 1);
/// assert_eq!(units, [0x48, 0xfffd]);
/// ```
pub fn utf16_repair_in_place(units: &mut [u16]) -> usize {
    calls::UTF16_REPAIR_IN_PLACE.of(units)
}

/// Returns the units of UTF-32 in bytes of this order, of any values, or `None` if part of a unit is left at the end.
///
/// # Panics
///
/// If the linked library is [not this crate's](crate#panics).
#[must_use]
pub fn utf32_from_bytes(bytes: &[u8], order: Order) -> Option<Vec<u32>> {
    calls::UTF32_FROM_BYTES.of(bytes, order, bytes.len() / 4)
}

/// Returns the bytes of units of UTF-32 in this order. The units may have any values.
///
/// # Panics
///
/// If the linked library is [not this crate's](crate#panics).
#[must_use]
pub fn utf32_to_bytes(units: &[u32], order: Order) -> Vec<u8> {
    let bytes = calls::UTF32_TO_BYTES.of(units, order, 4 * units.len());
    bytes.expect("each order has a number")
}

/// Copies UTF-32, and reverses the order of the bytes in each unit.
///
/// # Panics
///
/// If the linked library is [not this crate's](crate#panics).
#[must_use]
pub fn utf32_swap_bytes(units: &[u32]) -> Vec<u32> {
    calls::UTF32_SWAP_BYTES.of(units)
}

/// Replaces each unit that is not a scalar value of UTF-32 by U+FFFD where it is, and returns how many were replaced.
///
/// # Panics
///
/// If the linked library is [not this crate's](crate#panics).
pub fn utf32_repair_in_place(units: &mut [u32]) -> usize {
    calls::UTF32_REPAIR_IN_PLACE.of(units)
}

/// Converts as many characters of UTF-16 to UTF-8 as fit into a buffer. It stops at the end of the text, at the first
/// ill-formed sequence, or where the next character does not fit. A character has at most 4 bytes of UTF-8 or 2 units of
/// UTF-16: if nothing was read though there is that much space, and the text is not empty, an ill-formed sequence is
/// next.
///
/// # Panics
///
/// If the linked library is [not this crate's](crate#panics).
///
/// # Examples
///
/// ```
/// use widestring_proved::{utf16_to_utf8_part, Part};
///
/// let mut buffer = [0; 4];
/// let part = utf16_to_utf8_part(&[0x20ac, 0x20ac], &mut buffer);
/// assert_eq!(part, Part { read: 1, written: 3 });
/// ```
pub fn utf16_to_utf8_part(units: &[u16], buffer: &mut [u8]) -> Part {
    calls::UTF16_TO_UTF8_PARTLY.of(units, buffer)
}

/// Converts as many characters of UTF-32 to UTF-8 as fit into a buffer. It stops at the end of the text, at the first
/// ill-formed sequence, or where the next character does not fit. A character has at most 4 bytes of UTF-8 or 2 units of
/// UTF-16: if nothing was read though there is that much space, and the text is not empty, an ill-formed sequence is
/// next.
///
/// # Panics
///
/// If the linked library is [not this crate's](crate#panics).
pub fn utf32_to_utf8_part(units: &[u32], buffer: &mut [u8]) -> Part {
    calls::UTF32_TO_UTF8_PARTLY.of(units, buffer)
}

/// Converts as many characters of UTF-16 to UTF-32 as fit into a buffer. It stops at the end of the text, at the first
/// ill-formed sequence, or where the next character does not fit. A character has at most 4 bytes of UTF-8 or 2 units of
/// UTF-16: if nothing was read though there is that much space, and the text is not empty, an ill-formed sequence is
/// next.
///
/// # Panics
///
/// If the linked library is [not this crate's](crate#panics).
pub fn utf16_to_utf32_part(units: &[u16], buffer: &mut [u32]) -> Part {
    calls::UTF16_TO_UTF32_PARTLY.of(units, buffer)
}

/// Converts as many characters of UTF-32 to UTF-16 as fit into a buffer. It stops at the end of the text, at the first
/// ill-formed sequence, or where the next character does not fit. A character has at most 4 bytes of UTF-8 or 2 units of
/// UTF-16: if nothing was read though there is that much space, and the text is not empty, an ill-formed sequence is
/// next.
///
/// # Panics
///
/// If the linked library is [not this crate's](crate#panics).
pub fn utf32_to_utf16_part(units: &[u32], buffer: &mut [u16]) -> Part {
    calls::UTF32_TO_UTF16_PARTLY.of(units, buffer)
}

/// Converts as many characters of UTF-8 to UTF-16 as fit into a buffer. It stops at the end of the text, at the first
/// ill-formed sequence, or where the next character does not fit. A character has at most 4 bytes of UTF-8 or 2 units of
/// UTF-16: if nothing was read though there is that much space, and the text is not empty, an ill-formed sequence is
/// next.
///
/// # Panics
///
/// If the linked library is [not this crate's](crate#panics).
pub fn utf8_to_utf16_part(text: &[u8], buffer: &mut [u16]) -> Part {
    calls::UTF8_TO_UTF16_PARTLY.of(text, buffer)
}

/// Converts as many characters of UTF-8 to UTF-32 as fit into a buffer. It stops at the end of the text, at the first
/// ill-formed sequence, or where the next character does not fit. A character has at most 4 bytes of UTF-8 or 2 units of
/// UTF-16: if nothing was read though there is that much space, and the text is not empty, an ill-formed sequence is
/// next.
///
/// # Panics
///
/// If the linked library is [not this crate's](crate#panics).
pub fn utf8_to_utf32_part(text: &[u8], buffer: &mut [u32]) -> Part {
    calls::UTF8_TO_UTF32_PARTLY.of(text, buffer)
}
