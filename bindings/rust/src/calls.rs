//! Safe wrappers of the library's functions. All unsafe code is in this module: only its types and functions call the
//! library, and they pass slices, or memory of a vector that they own.
#![allow(unsafe_code)]

use crate::raw::WideConverter;
use crate::{raw, Fault, IntoError, Lossy, Order, Part, Scheme, Short};
use alloc::string::String;
use alloc::vec::Vec;
use core::cmp;
use core::sync::atomic::{AtomicBool, Ordering};

/// A text of at most `SHORT` elements gets the capacity that the longest result needs. For a longer text, a prefix of
/// `CHUNK` elements predicts the length.
const SHORT: usize = 128;

const CHUNK: usize = 1024;

/// A vector with more capacity than this releases memory if less than half is used.
const MUCH: usize = 4096;

/// What the library returns if it has no number to report.
const NONE: usize = usize::MAX;

/// Whether the linked library was found to have this crate's version.
static IS_OWN: AtomicBool = AtomicBool::new(false);

/// Parses a number of decimal digits.
const fn number(text: &str) -> u32 {
    let (mut at, mut sum) = (0, 0);
    while at < text.len() {
        sum = 10 * sum + (text.as_bytes()[at] - b'0') as u32;
        at += 1;
    }
    sum
}

const MAJOR: u32 = number(env!("CARGO_PKG_VERSION_MAJOR"));
const MINOR: u32 = number(env!("CARGO_PKG_VERSION_MINOR"));

pub fn version() -> u32 {
    // SAFETY: the function takes no arguments.
    unsafe { raw::wide_version() }
}

/// Checks once that the linked library has this crate's version, since another version may have other functions of the
/// same names.
fn check_version() {
    if !IS_OWN.load(Ordering::Relaxed) {
        compare_version();
    }
}

#[cold]
fn compare_version() {
    let number = version();
    let (major, minor, patch) = (number >> 16, number >> 8 & 0xff, number & 0xff);
    let is_own = major == MAJOR && (minor == MINOR || major > 0 && minor > MINOR);
    assert!(
        is_own,
        "the linked library of widestring has version {major}.{minor}.{patch}, and this crate is for {MAJOR}.{MINOR}"
    );
    IS_OWN.store(true, Ordering::Relaxed);
}

/// Returns the result if it is at most `most`, the greatest that a text can have. Panics if it is greater, before
/// anything is read by it: only a broken library returns such a result.
fn within(most: usize, result: usize) -> usize {
    assert!(
        result <= most,
        "the linked library of widestring returns {result} where no text has more than {most}"
    );
    result
}

/// Returns the result, or `None` if it is the number that stands for none.
fn unless(none: usize, most: usize, result: usize) -> Option<usize> {
    (result != none).then(|| within(most, result))
}

/// A function that reads a slice and returns a number.
pub struct Query<T>(unsafe extern "C" fn(*const T, usize) -> usize);

impl<T> Query<T> {
    fn result(&self, items: &[T]) -> usize {
        check_version();
        // SAFETY: a slice is memory of this length that may be read.
        unsafe { (self.0)(items.as_ptr(), items.len()) }
    }

    /// Returns an offset, or `None` if the function returns the length.
    pub fn offset(&self, items: &[T]) -> Option<usize> {
        unless(items.len(), items.len(), self.result(items))
    }

    /// Returns a number of elements.
    pub fn number(&self, items: &[T]) -> usize {
        within(items.len(), self.result(items))
    }

    /// Returns a number of characters, or `None` if the function has none to report.
    pub fn count(&self, items: &[T]) -> Option<usize> {
        unless(NONE, items.len(), self.result(items))
    }
}

pub const UTF8_FIRST_FAULT: Query<u8> = Query(raw::wide_utf8_first_fault);
pub const UTF16_FIRST_FAULT: Query<u16> = Query(raw::wide_utf16_first_fault);
pub const UTF32_FIRST_FAULT: Query<u32> = Query(raw::wide_utf32_first_fault);
pub const UTF16_FIRST_FAULT_ITEM: Query<u16> = Query(raw::wide_utf16_first_fault_item);
pub const UTF32_FIRST_FAULT_ITEM: Query<u32> = Query(raw::wide_utf32_first_fault_item);
pub const UTF8_CHAR_COUNT: Query<u8> = Query(raw::wide_utf8_char_count);
pub const UTF16_CHAR_COUNT: Query<u16> = Query(raw::wide_utf16_char_count);
pub const UTF32_CHAR_COUNT: Query<u32> = Query(raw::wide_utf32_char_count);
pub const WTF8_FIRST_FAULT: Query<u8> = Query(raw::wide_wtf8_first_fault);
pub const UTF8_FAULT_COUNT: Query<u8> = Query(raw::wide_utf8_fault_count);
pub const UTF16_FAULT_COUNT: Query<u16> = Query(raw::wide_utf16_fault_count);
pub const UTF32_FAULT_COUNT: Query<u32> = Query(raw::wide_utf32_fault_count);
pub const UTF16_FIRST_NUL: Query<u16> = Query(raw::wide_utf16_first_nul);
pub const UTF32_FIRST_NUL: Query<u32> = Query(raw::wide_utf32_first_nul);

/// A function that reads a slice and returns a flag.
pub struct Test<T>(unsafe extern "C" fn(*const T, usize) -> u32);

impl<T> Test<T> {
    pub fn holds(&self, items: &[T]) -> bool {
        check_version();
        // SAFETY: a slice is memory of this length that may be read.
        unsafe { (self.0)(items.as_ptr(), items.len()) != 0 }
    }
}

pub const UTF8_IS_ASCII: Test<u8> = Test(raw::wide_utf8_is_ascii);
pub const UTF16_IS_ASCII: Test<u16> = Test(raw::wide_utf16_is_ascii);
pub const UTF32_IS_ASCII: Test<u32> = Test(raw::wide_utf32_is_ascii);

pub fn utf16_floor_char_boundary(units: &[u16], offset: usize) -> usize {
    check_version();
    // SAFETY: a slice is memory of this length that may be read.
    let result =
        unsafe { raw::wide_utf16_floor_char_boundary(units.as_ptr(), units.len(), offset) };
    within(units.len(), result)
}

/// A function that searches units for a unit.
pub struct UnitSearch<T>(unsafe extern "C" fn(*const T, usize, T) -> usize);

impl<T> UnitSearch<T> {
    pub fn offset(&self, units: &[T], unit: T) -> Option<usize> {
        check_version();
        // SAFETY: a slice is memory of this length that may be read.
        let result = unsafe { (self.0)(units.as_ptr(), units.len(), unit) };
        unless(units.len(), units.len(), result)
    }
}

pub const UTF16_FIND_UNIT: UnitSearch<u16> = UnitSearch(raw::wide_utf16_find_unit);
pub const UTF32_FIND_UNIT: UnitSearch<u32> = UnitSearch(raw::wide_utf32_find_unit);

/// A function that reads two slices and returns an offset, a flag or a sign.
pub struct Both<T, R>(unsafe extern "C" fn(*const T, usize, *const T, usize) -> R);

impl<T, R> Both<T, R> {
    fn result(&self, units: &[T], other: &[T]) -> R {
        check_version();
        // SAFETY: both slices are memory of these lengths that may be read.
        unsafe { (self.0)(units.as_ptr(), units.len(), other.as_ptr(), other.len()) }
    }
}

impl<T> Both<T, usize> {
    /// Returns the offset of a needle, or `None` if it does not occur.
    pub fn offset(&self, units: &[T], needle: &[T]) -> Option<usize> {
        unless(NONE, units.len(), self.result(units, needle))
    }
}

impl<T> Both<T, u32> {
    pub fn flag(&self, units: &[T], other: &[T]) -> bool {
        self.result(units, other) != 0
    }
}

impl<T> Both<T, i32> {
    pub fn order(&self, units: &[T], other: &[T]) -> cmp::Ordering {
        self.result(units, other).cmp(&0)
    }
}

pub const UTF16_FIND: Both<u16, usize> = Both(raw::wide_utf16_find);
pub const UTF32_FIND: Both<u32, usize> = Both(raw::wide_utf32_find);
pub const UTF16_RFIND: Both<u16, usize> = Both(raw::wide_utf16_rfind);
pub const UTF32_RFIND: Both<u32, usize> = Both(raw::wide_utf32_rfind);
pub const UTF16_FIND_IN_ANY_CASE: Both<u16, usize> = Both(raw::wide_utf16_find_ignore_ascii_case);
pub const UTF32_FIND_IN_ANY_CASE: Both<u32, usize> = Both(raw::wide_utf32_find_ignore_ascii_case);
pub const UTF16_EQ_IN_ANY_CASE: Both<u16, u32> = Both(raw::wide_utf16_eq_ignore_ascii_case);
pub const UTF32_EQ_IN_ANY_CASE: Both<u32, u32> = Both(raw::wide_utf32_eq_ignore_ascii_case);
pub const UTF16_COMPARE: Both<u16, i32> = Both(raw::wide_utf16_compare_code_points);
pub const UTF32_COMPARE: Both<u32, i32> = Both(raw::wide_utf32_compare_code_points);

/// Returns a vector with what the call writes. The call gets a pointer and a capacity, and returns the length, which is
/// at most `most`. If the first capacity is too small, the call is made again. Returns `None` if the call returns a
/// fault.
///
/// # Safety
///
/// The call may write as many elements as the capacity at the pointer. If the length that it returns is at most the
/// capacity, it must have written that many.
unsafe fn written<U: Copy>(
    likely: usize,
    most: usize,
    call: impl Fn(*mut U, usize) -> usize,
) -> Option<Vec<U>> {
    check_version();
    let mut vec = Vec::new();
    let mut needed = likely;
    loop {
        vec.reserve_exact(needed);
        let capacity = vec.capacity();
        needed = unless(NONE, most, call(vec.as_mut_ptr(), capacity))?;
        if needed <= capacity {
            // SAFETY: the vector has this capacity, and the call has written as many elements as it returned.
            unsafe { vec.set_len(needed) };
            if capacity > MUCH && needed < capacity / 2 {
                vec.shrink_to_fit();
            }
            return Some(vec);
        }
    }
}

/// The functions of one conversion, and how many elements one element of the input becomes at most.
pub struct Conversion<T, U> {
    most: usize,
    length: unsafe extern "C" fn(*const T, usize) -> usize,
    first_fault: Query<T>,
    put: unsafe extern "C" fn(*const T, usize, *mut U, usize) -> usize,
}

/// The function of a conversion under a policy.
pub struct Lossily<T, U>(unsafe extern "C" fn(*const T, usize, u32, *mut U, usize) -> usize);

impl<T, U: Copy> Conversion<T, U> {
    /// Returns the greatest length of a result.
    fn most(&self, items: &[T]) -> usize {
        items.len() * self.most
    }

    /// Returns the likely length of a result, from the length of the first chunk's. For a short text it is the greatest
    /// length.
    fn likely_length(&self, items: &[T]) -> usize {
        if items.len() <= SHORT {
            return self.most(items);
        }
        let chunk = &items[..items.len().min(CHUNK)];
        // A character that is split at the end is not counted.
        let valid = &chunk[..self.first_fault.offset(chunk).unwrap_or(chunk.len())];
        if valid.is_empty() {
            return items.len();
        }
        // SAFETY: a slice is memory of this length that may be read.
        let result = unsafe { (self.length)(valid.as_ptr(), valid.len()) };
        let likely = within(self.most(valid), result) * (items.len() / valid.len() + 1);
        likely + likely / 16
    }

    fn fault(&self, items: &[T]) -> Fault {
        Fault {
            offset: self.first_fault.offset(items).unwrap_or(items.len()),
        }
    }

    pub fn strict(&self, items: &[T]) -> Result<Vec<U>, Fault> {
        // SAFETY: the slice may be read, the vector owns its memory, and the library writes as many elements as it
        // returns if the capacity suffices.
        let text = unsafe {
            written(
                self.likely_length(items),
                self.most(items),
                |to, capacity| (self.put)(items.as_ptr(), items.len(), to, capacity),
            )
        };
        text.ok_or_else(|| self.fault(items))
    }

    pub fn lossy(&self, items: &[T], policy: Lossy, call: Lossily<T, U>) -> Vec<U> {
        // SAFETY: the slice may be read, the vector owns its memory, and the library writes as many elements as it
        // returns if the capacity suffices.
        let text = unsafe {
            written(
                self.likely_length(items),
                self.most(items),
                |to, capacity| (call.0)(items.as_ptr(), items.len(), policy as u32, to, capacity),
            )
        };
        text.expect("each policy has a number")
    }

    pub fn strict_into(&self, items: &[T], buffer: &mut [U]) -> Result<usize, IntoError> {
        check_version();
        let (to, capacity) = (buffer.as_mut_ptr(), buffer.len());
        // SAFETY: both slices are memory of these lengths, and the one that may be written does not overlap the other.
        let result = unsafe { (self.put)(items.as_ptr(), items.len(), to, capacity) };
        let needed = unless(NONE, self.most(items), result).ok_or_else(|| self.fault(items))?;
        Ok(fitting(needed, buffer.len())?)
    }

    pub fn lossy_into(
        &self,
        items: &[T],
        policy: Lossy,
        buffer: &mut [U],
        call: Lossily<T, U>,
    ) -> Result<usize, Short> {
        check_version();
        let (to, capacity) = (buffer.as_mut_ptr(), buffer.len());
        // SAFETY: both slices are memory of these lengths, and the one that may be written does not overlap the other.
        let result = unsafe { (call.0)(items.as_ptr(), items.len(), policy as u32, to, capacity) };
        fitting(within(self.most(items), result), buffer.len())
    }
}

/// Returns the length if it is at most the capacity of a buffer, or else the error.
fn fitting(needed: usize, capacity: usize) -> Result<usize, Short> {
    if needed <= capacity {
        Ok(needed)
    } else {
        Err(Short { needed })
    }
}

impl<T> Conversion<T, u8> {
    pub fn strict_text(&self, items: &[T]) -> Result<String, Fault> {
        // SAFETY: the library is proved to write UTF-8 in conversions to bytes.
        self.strict(items)
            .map(|text| unsafe { String::from_utf8_unchecked(text) })
    }

    pub fn lossy_text(&self, items: &[T], policy: Lossy, call: Lossily<T, u8>) -> String {
        // SAFETY: the library is proved to write UTF-8 in conversions to bytes.
        unsafe { String::from_utf8_unchecked(self.lossy(items, policy, call)) }
    }
}

pub const UTF16_TO_UTF8: Conversion<u16, u8> = Conversion {
    most: 3,
    length: raw::wide_utf16_utf8_length,
    first_fault: UTF16_FIRST_FAULT,
    put: raw::wide_utf16_to_utf8,
};

pub const UTF32_TO_UTF8: Conversion<u32, u8> = Conversion {
    most: 4,
    length: raw::wide_utf32_utf8_length,
    first_fault: UTF32_FIRST_FAULT,
    put: raw::wide_utf32_to_utf8,
};

pub const UTF8_TO_UTF16: Conversion<u8, u16> = Conversion {
    most: 1,
    length: raw::wide_utf8_utf16_length,
    first_fault: UTF8_FIRST_FAULT,
    put: raw::wide_utf8_to_utf16,
};

pub const UTF8_TO_UTF32: Conversion<u8, u32> = Conversion {
    most: 1,
    length: raw::wide_utf8_utf32_length,
    first_fault: UTF8_FIRST_FAULT,
    put: raw::wide_utf8_to_utf32,
};

pub const UTF16_TO_UTF32: Conversion<u16, u32> = Conversion {
    most: 1,
    length: raw::wide_utf16_utf32_length,
    first_fault: UTF16_FIRST_FAULT,
    put: raw::wide_utf16_to_utf32,
};

pub const UTF32_TO_UTF16: Conversion<u32, u16> = Conversion {
    most: 2,
    length: raw::wide_utf32_utf16_length,
    first_fault: UTF32_FIRST_FAULT,
    put: raw::wide_utf32_to_utf16,
};

pub const UTF16_TO_WTF8: Conversion<u16, u8> = Conversion {
    most: 3,
    length: raw::wide_utf16_wtf8_length,
    first_fault: UTF16_FIRST_FAULT,
    put: raw::wide_utf16_to_wtf8,
};

pub const WTF8_TO_UTF16: Conversion<u8, u16> = Conversion {
    most: 1,
    length: raw::wide_wtf8_utf16_length,
    first_fault: WTF8_FIRST_FAULT,
    put: raw::wide_wtf8_to_utf16,
};

pub const UTF16_TO_UTF32_LOSSILY: Lossily<u16, u32> = Lossily(raw::wide_utf16_to_utf32_lossy_with);
pub const UTF32_TO_UTF16_LOSSILY: Lossily<u32, u16> = Lossily(raw::wide_utf32_to_utf16_lossy_with);
pub const UTF16_TO_UTF8_LOSSILY: Lossily<u16, u8> = Lossily(raw::wide_utf16_to_utf8_lossy_with);
pub const UTF32_TO_UTF8_LOSSILY: Lossily<u32, u8> = Lossily(raw::wide_utf32_to_utf8_lossy_with);
pub const UTF8_TO_UTF16_LOSSILY: Lossily<u8, u16> = Lossily(raw::wide_utf8_to_utf16_lossy_with);
pub const UTF8_TO_UTF32_LOSSILY: Lossily<u8, u32> = Lossily(raw::wide_utf8_to_utf32_lossy_with);

/// A function that copies units and replaces some of them. The result has the same length.
pub struct Copied<T>(unsafe extern "C" fn(*const T, usize, *mut T, usize) -> usize);

impl<T: Copy> Copied<T> {
    pub fn of(&self, units: &[T]) -> Vec<T> {
        // SAFETY: the slice may be read, the vector owns its memory, and the library writes as many elements as it
        // returns if the capacity suffices.
        let copied = unsafe {
            written(units.len(), units.len(), |to, capacity| {
                (self.0)(units.as_ptr(), units.len(), to, capacity)
            })
        };
        copied.expect("a copy has no fault")
    }
}

pub const UTF16_REPAIR: Copied<u16> = Copied(raw::wide_utf16_repair);
pub const UTF32_REPAIR: Copied<u32> = Copied(raw::wide_utf32_repair);
pub const UTF16_LOWERCASE: Copied<u16> = Copied(raw::wide_utf16_to_ascii_lowercase);
pub const UTF32_LOWERCASE: Copied<u32> = Copied(raw::wide_utf32_to_ascii_lowercase);
pub const UTF16_UPPERCASE: Copied<u16> = Copied(raw::wide_utf16_to_ascii_uppercase);
pub const UTF32_UPPERCASE: Copied<u32> = Copied(raw::wide_utf32_to_ascii_uppercase);
pub const UTF16_SWAP_BYTES: Copied<u16> = Copied(raw::wide_utf16_swap_bytes);
pub const UTF32_SWAP_BYTES: Copied<u32> = Copied(raw::wide_utf32_swap_bytes);

/// A function that replaces units where they are, and returns how many.
pub struct InPlace<T>(unsafe extern "C" fn(*mut T, usize) -> usize);

impl<T> InPlace<T> {
    pub fn of(&self, units: &mut [T]) -> usize {
        check_version();
        // SAFETY: a slice is memory of this length that may be read and written.
        let result = unsafe { (self.0)(units.as_mut_ptr(), units.len()) };
        within(units.len(), result)
    }
}

pub const UTF16_REPAIR_IN_PLACE: InPlace<u16> = InPlace(raw::wide_utf16_repair_in_place);
pub const UTF32_REPAIR_IN_PLACE: InPlace<u32> = InPlace(raw::wide_utf32_repair_in_place);

/// A function that copies elements to elements of another width, in a byte order.
pub struct Ordered<T, U>(unsafe extern "C" fn(*const T, usize, u32, *mut U, usize) -> usize);

impl<T, U: Copy> Ordered<T, U> {
    /// Returns the result, which has this many elements, or `None` if part of a unit is left.
    pub fn of(&self, items: &[T], order: Order, len: usize) -> Option<Vec<U>> {
        // SAFETY: the slice may be read, the vector owns its memory, and the library writes as many elements as it
        // returns if the capacity suffices.
        unsafe {
            written(len, len, |to, capacity| {
                (self.0)(items.as_ptr(), items.len(), order as u32, to, capacity)
            })
        }
    }
}

pub const UTF16_FROM_BYTES: Ordered<u8, u16> = Ordered(raw::wide_utf16_from_bytes);
pub const UTF32_FROM_BYTES: Ordered<u8, u32> = Ordered(raw::wide_utf32_from_bytes);
pub const UTF16_TO_BYTES: Ordered<u16, u8> = Ordered(raw::wide_utf16_to_bytes);
pub const UTF32_TO_BYTES: Ordered<u32, u8> = Ordered(raw::wide_utf32_to_bytes);

/// A function that converts what fits.
pub struct Partly<T, U>(unsafe extern "C" fn(*const T, usize, *mut U, usize, *mut usize) -> usize);

impl<T, U> Partly<T, U> {
    pub fn of(&self, items: &[T], buffer: &mut [U]) -> Part {
        check_version();
        let mut read = 0;
        let (to, capacity) = (buffer.as_mut_ptr(), buffer.len());
        // SAFETY: both slices are memory of these lengths, and what may be written does not overlap the rest.
        let written = unsafe { (self.0)(items.as_ptr(), items.len(), to, capacity, &mut read) };
        Part {
            read: within(items.len(), read),
            written: within(capacity, written),
        }
    }
}

pub const UTF16_TO_UTF8_PARTLY: Partly<u16, u8> = Partly(raw::wide_utf16_to_utf8_part);
pub const UTF32_TO_UTF8_PARTLY: Partly<u32, u8> = Partly(raw::wide_utf32_to_utf8_part);
pub const UTF16_TO_UTF32_PARTLY: Partly<u16, u32> = Partly(raw::wide_utf16_to_utf32_part);
pub const UTF32_TO_UTF16_PARTLY: Partly<u32, u16> = Partly(raw::wide_utf32_to_utf16_part);
pub const UTF8_TO_UTF16_PARTLY: Partly<u8, u16> = Partly(raw::wide_utf8_to_utf16_part);
pub const UTF8_TO_UTF32_PARTLY: Partly<u8, u32> = Partly(raw::wide_utf8_to_utf32_part);

/// The policy of a converter that stops at each fault.
const STRICT: u32 = 3;

pub fn convert_start(from: Scheme, to: Scheme, policy: Option<Lossy>, bom: bool) -> WideConverter {
    check_version();
    let mut converter = WideConverter::default();
    let policy = policy.map_or(STRICT, |policy| policy as u32);
    // SAFETY: the converter may be read and written.
    let is_begun = unsafe {
        raw::wide_convert_start(
            &mut converter,
            from as u32,
            to as u32,
            policy,
            u32::from(bom),
        )
    };
    assert!(is_begun != 0, "each scheme and policy has a number");
    converter
}

pub fn convert_push(
    converter: &mut WideConverter,
    input: &[u8],
    is_last: bool,
    output: &mut [u8],
) -> Part {
    let (to, capacity) = (output.as_mut_ptr(), output.len());
    let is_last = u32::from(is_last);
    // SAFETY: the converter and the slices are memory of these lengths, and what may be written does not overlap the
    // rest.
    let written = unsafe {
        raw::wide_convert_push(
            converter,
            input.as_ptr(),
            input.len(),
            is_last,
            to,
            capacity,
        )
    };
    Part {
        read: within(input.len(), converter.read),
        written: within(capacity, written),
    }
}

pub fn utf16_bytes_order(bytes: &[u8]) -> Option<Order> {
    check_version();
    // SAFETY: a slice is memory of this length that may be read.
    match unsafe { raw::wide_utf16_bytes_order(bytes.as_ptr(), bytes.len()) } {
        0 => Some(Order::Little),
        1 => Some(Order::Big),
        _ => None,
    }
}

pub fn utf16_bytes_complete(bytes: &[u8], order: Order) -> usize {
    check_version();
    // SAFETY: a slice is memory of this length that may be read.
    let result =
        unsafe { raw::wide_utf16_bytes_complete(bytes.as_ptr(), bytes.len(), order as u32) };
    within(bytes.len(), result)
}

pub fn utf16_bytes_first_fault(bytes: &[u8], order: Order) -> Option<usize> {
    check_version();
    // SAFETY: a slice is memory of this length that may be read.
    let result =
        unsafe { raw::wide_utf16_bytes_first_fault(bytes.as_ptr(), bytes.len(), order as u32) };
    unless(bytes.len() / 2, bytes.len() / 2, result)
}

pub fn utf16_bytes_end_in_fault(bytes: &[u8], order: Order, after_fault: bool) -> bool {
    check_version();
    let (order, after) = (order as u32, u32::from(after_fault));
    // SAFETY: a slice is memory of this length that may be read.
    unsafe { raw::wide_utf16_bytes_end_in_fault(bytes.as_ptr(), bytes.len(), order, after) != 0 }
}

/// Returns the greatest length in UTF-8 of UTF-16 in bytes.
fn most_utf8_of_bytes(bytes: &[u8]) -> usize {
    bytes.len() / 2 * 3
}

pub fn utf16_bytes_to_utf8(bytes: &[u8], order: Order) -> Option<String> {
    // SAFETY: the slice may be read, the vector owns its memory, and the library writes as many elements as it returns
    // if the capacity suffices.
    let text = unsafe {
        written(bytes.len(), most_utf8_of_bytes(bytes), |to, capacity| {
            raw::wide_utf16_bytes_to_utf8(bytes.as_ptr(), bytes.len(), order as u32, to, capacity)
        })
    };
    // SAFETY: the library is proved to write UTF-8.
    text.map(|text| unsafe { String::from_utf8_unchecked(text) })
}

pub fn utf16_bytes_to_utf8_lossy(
    bytes: &[u8],
    order: Order,
    policy: Lossy,
    after_fault: bool,
) -> String {
    let (order, policy, after) = (order as u32, policy as u32, u32::from(after_fault));
    // SAFETY: the slice may be read, the vector owns its memory, and the library writes as many elements as it returns
    // if the capacity suffices.
    let text = unsafe {
        written(bytes.len(), most_utf8_of_bytes(bytes), |to, capacity| {
            raw::wide_utf16_bytes_to_utf8_lossy_with(
                bytes.as_ptr(),
                bytes.len(),
                order,
                policy,
                after,
                to,
                capacity,
            )
        })
    };
    let text = text.expect("each order and policy has a number");
    // SAFETY: the library is proved to write UTF-8.
    unsafe { String::from_utf8_unchecked(text) }
}
