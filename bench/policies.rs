//! The lossy conversions of the static library that only std has among the peers, and those under a policy.

use crate::conversions::Conversion;
use std::borrow::Cow;

extern "C" {
    fn wide_utf8_to_utf32_lossy(text: *const u8, length: usize, units: *mut u32, capacity: usize) -> usize;
    fn wide_utf32_to_utf8_lossy(units: *const u32, length: usize, text: *mut u8, capacity: usize) -> usize;
    fn wide_utf8_to_utf16_lossy_with(text: *const u8, length: usize, policy: u32, units: *mut u16, capacity: usize) -> usize;
    fn wide_utf8_to_utf32_lossy_with(text: *const u8, length: usize, policy: u32, units: *mut u32, capacity: usize) -> usize;
    fn wide_utf16_to_utf8_lossy_with(units: *const u16, length: usize, policy: u32, text: *mut u8, capacity: usize) -> usize;
    fn wide_utf32_to_utf8_lossy_with(units: *const u32, length: usize, policy: u32, text: *mut u8, capacity: usize) -> usize;
}

/// The policy that writes U+FFFD for each fault.
const EACH: u32 = 0;
/// The policy that writes one U+FFFD for each run of faults.
const RUN: u32 = 1;
/// The policy that writes nothing for faults.
const SKIP: u32 = 2;
/// A number that is not a policy.
const OTHER: u32 = 3;

/// Returns the characters, with faults replaced by a policy, or `None` if the number is not a policy.
fn text_by(policy: u32, chars: impl Iterator<Item = Option<char>>) -> Option<String> {
    let mut text = String::new();
    let mut after = false;
    for c in chars {
        match c {
            Some(c) => text.push(c),
            None if policy == EACH || policy == RUN && !after => text.push(char::REPLACEMENT_CHARACTER),
            None => {}
        }
        after = c.is_none();
    }
    (policy < OTHER).then_some(text)
}

fn text_of_8(policy: u32, text: &[u8]) -> Option<String> {
    let chars = text.utf8_chunks().flat_map(|chunk| {
        let fault = (!chunk.invalid().is_empty()).then_some(None);
        chunk.valid().chars().map(Some).chain(fault)
    });
    text_by(policy, chars)
}

fn text_of_16(policy: u32, units: &[u16]) -> Option<String> {
    text_by(policy, char::decode_utf16(units.iter().copied()).map(Result::ok))
}

fn text_of_32(policy: u32, units: &[u32]) -> Option<String> {
    text_by(policy, units.iter().map(|unit| char::from_u32(*unit)))
}

fn bytes(text: Option<String>) -> Option<Cow<'static, [u8]>> {
    Some(Cow::Owned(text?.into_bytes()))
}

fn units(text: Option<String>) -> Option<Cow<'static, [u16]>> {
    Some(Cow::Owned(text?.encode_utf16().collect()))
}

fn scalars(text: Option<String>) -> Option<Cow<'static, [u32]>> {
    Some(Cow::Owned(text?.chars().map(u32::from).collect()))
}

/// A conversion by a function that takes the number of a policy. Only std is a reference for it.
macro_rules! by_policy {
    ($name:literal, $call:ident, $policy:expr, $answer:ident, $text:ident, $growth:literal) => {
        Conversion {
            name: $name,
            library: |from, to| unsafe { $call(from.as_ptr(), from.len(), $policy, to.as_mut_ptr(), to.len()) },
            rust_crate: |from, _| $answer($text($policy, from)),
            std: |from, _| $answer($text($policy, from)),
            others: &[],
            growth: $growth,
        }
    };
}

pub const TO_UTF16_BY: [Conversion<u8, u16>; 4] = [
    by_policy!("to UTF-16, each", wide_utf8_to_utf16_lossy_with, EACH, units, text_of_8, 1),
    by_policy!("to UTF-16, run", wide_utf8_to_utf16_lossy_with, RUN, units, text_of_8, 1),
    by_policy!("to UTF-16, skip", wide_utf8_to_utf16_lossy_with, SKIP, units, text_of_8, 1),
    by_policy!("to UTF-16, no policy", wide_utf8_to_utf16_lossy_with, OTHER, units, text_of_8, 1),
];

pub const TO_UTF32_BY: [Conversion<u8, u32>; 5] = [
    Conversion {
        name: "to UTF-32, lossy",
        library: |text, units| unsafe { wide_utf8_to_utf32_lossy(text.as_ptr(), text.len(), units.as_mut_ptr(), units.len()) },
        rust_crate: |text, _| scalars(text_of_8(EACH, text)),
        std: |text, _| scalars(Some(String::from_utf8_lossy(text).into_owned())),
        others: &[],
        growth: 1,
    },
    by_policy!("to UTF-32, each", wide_utf8_to_utf32_lossy_with, EACH, scalars, text_of_8, 1),
    by_policy!("to UTF-32, run", wide_utf8_to_utf32_lossy_with, RUN, scalars, text_of_8, 1),
    by_policy!("to UTF-32, skip", wide_utf8_to_utf32_lossy_with, SKIP, scalars, text_of_8, 1),
    by_policy!("to UTF-32, no policy", wide_utf8_to_utf32_lossy_with, OTHER, scalars, text_of_8, 1),
];

pub const UTF16_TO_UTF8_BY: [Conversion<u16, u8>; 4] = [
    by_policy!("UTF-16 to UTF-8, each", wide_utf16_to_utf8_lossy_with, EACH, bytes, text_of_16, 3),
    by_policy!("UTF-16 to UTF-8, run", wide_utf16_to_utf8_lossy_with, RUN, bytes, text_of_16, 3),
    by_policy!("UTF-16 to UTF-8, skip", wide_utf16_to_utf8_lossy_with, SKIP, bytes, text_of_16, 3),
    by_policy!("UTF-16 to UTF-8, no policy", wide_utf16_to_utf8_lossy_with, OTHER, bytes, text_of_16, 3),
];

pub const UTF32_TO_UTF8_BY: [Conversion<u32, u8>; 5] = [
    Conversion {
        name: "UTF-32 to UTF-8, lossy",
        library: |units, text| unsafe { wide_utf32_to_utf8_lossy(units.as_ptr(), units.len(), text.as_mut_ptr(), text.len()) },
        rust_crate: |units, _| bytes(text_of_32(EACH, units)),
        std: |units, _| bytes(text_of_32(EACH, units)),
        others: &[],
        growth: 4,
    },
    by_policy!("UTF-32 to UTF-8, each", wide_utf32_to_utf8_lossy_with, EACH, bytes, text_of_32, 4),
    by_policy!("UTF-32 to UTF-8, run", wide_utf32_to_utf8_lossy_with, RUN, bytes, text_of_32, 4),
    by_policy!("UTF-32 to UTF-8, skip", wide_utf32_to_utf8_lossy_with, SKIP, bytes, text_of_32, 4),
    by_policy!("UTF-32 to UTF-8, no policy", wide_utf32_to_utf8_lossy_with, OTHER, bytes, text_of_32, 4),
];
