//! The functions of `widestring.h` that the crate uses. A pointer and the length or capacity after it must describe
//! memory that may be read, or written if the pointer is `*mut`. Memory that is written must not overlap other memory
//! that is passed.

/// A converter as the library has it. The library alone writes it.
#[derive(Clone, Copy, Debug, Default)]
#[repr(C)]
pub struct WideConverter {
    pub read: usize,
    pub kept: usize,
    pub bytes: u64,
    pub items: u64,
    pub faults: u64,
    pub fault_offset: u64,
    pub fault_item: u64,
    pub fault_unit: u32,
    pub end: u32,
    from: u32,
    to: u32,
    policy: u32,
    layout: u32,
    keeps: u32,
    after_high: u32,
    after_fault: u32,
    bom: u32,
    bom_length: usize,
    unread: [u8; 4],
}

// Made by bindings/tables:
extern "C" {
    pub fn wide_version() -> u32;
    pub fn wide_utf16_first_fault(units: *const u16, length: usize) -> usize;
    pub fn wide_utf32_first_fault(units: *const u32, length: usize) -> usize;
    pub fn wide_utf8_first_fault(text: *const u8, length: usize) -> usize;
    pub fn wide_wtf8_first_fault(text: *const u8, length: usize) -> usize;
    pub fn wide_utf16_first_fault_item(units: *const u16, length: usize) -> usize;
    pub fn wide_utf32_first_fault_item(units: *const u32, length: usize) -> usize;
    pub fn wide_utf16_fault_count(units: *const u16, length: usize) -> usize;
    pub fn wide_utf32_fault_count(units: *const u32, length: usize) -> usize;
    pub fn wide_utf8_fault_count(text: *const u8, length: usize) -> usize;
    pub fn wide_utf16_is_ascii(units: *const u16, length: usize) -> u32;
    pub fn wide_utf32_is_ascii(units: *const u32, length: usize) -> u32;
    pub fn wide_utf8_is_ascii(text: *const u8, length: usize) -> u32;
    pub fn wide_utf16_char_count(units: *const u16, length: usize) -> usize;
    pub fn wide_utf32_char_count(units: *const u32, length: usize) -> usize;
    pub fn wide_utf8_char_count(text: *const u8, length: usize) -> usize;
    pub fn wide_utf16_utf8_length(units: *const u16, length: usize) -> usize;
    pub fn wide_utf32_utf8_length(units: *const u32, length: usize) -> usize;
    pub fn wide_utf8_utf16_length(text: *const u8, length: usize) -> usize;
    pub fn wide_utf8_utf32_length(text: *const u8, length: usize) -> usize;
    pub fn wide_utf16_utf32_length(units: *const u16, length: usize) -> usize;
    pub fn wide_utf32_utf16_length(units: *const u32, length: usize) -> usize;
    pub fn wide_utf16_wtf8_length(units: *const u16, length: usize) -> usize;
    pub fn wide_wtf8_utf16_length(text: *const u8, length: usize) -> usize;
    pub fn wide_utf16_floor_char_boundary(units: *const u16, length: usize, offset: usize)
        -> usize;
    pub fn wide_utf16_first_nul(units: *const u16, length: usize) -> usize;
    pub fn wide_utf32_first_nul(units: *const u32, length: usize) -> usize;
    pub fn wide_utf16_find_unit(units: *const u16, length: usize, unit: u16) -> usize;
    pub fn wide_utf32_find_unit(units: *const u32, length: usize, unit: u32) -> usize;
    pub fn wide_utf16_find(
        units: *const u16,
        length: usize,
        needle: *const u16,
        needle_length: usize,
    ) -> usize;
    pub fn wide_utf32_find(
        units: *const u32,
        length: usize,
        needle: *const u32,
        needle_length: usize,
    ) -> usize;
    pub fn wide_utf16_rfind(
        units: *const u16,
        length: usize,
        needle: *const u16,
        needle_length: usize,
    ) -> usize;
    pub fn wide_utf32_rfind(
        units: *const u32,
        length: usize,
        needle: *const u32,
        needle_length: usize,
    ) -> usize;
    pub fn wide_utf16_find_ignore_ascii_case(
        units: *const u16,
        length: usize,
        needle: *const u16,
        needle_length: usize,
    ) -> usize;
    pub fn wide_utf32_find_ignore_ascii_case(
        units: *const u32,
        length: usize,
        needle: *const u32,
        needle_length: usize,
    ) -> usize;
    pub fn wide_utf16_eq_ignore_ascii_case(
        units: *const u16,
        length: usize,
        other: *const u16,
        other_length: usize,
    ) -> u32;
    pub fn wide_utf32_eq_ignore_ascii_case(
        units: *const u32,
        length: usize,
        other: *const u32,
        other_length: usize,
    ) -> u32;
    pub fn wide_utf16_compare_code_points(
        units: *const u16,
        length: usize,
        other: *const u16,
        other_length: usize,
    ) -> i32;
    pub fn wide_utf32_compare_code_points(
        units: *const u32,
        length: usize,
        other: *const u32,
        other_length: usize,
    ) -> i32;
    pub fn wide_utf16_to_utf8(
        units: *const u16,
        length: usize,
        text: *mut u8,
        capacity: usize,
    ) -> usize;
    pub fn wide_utf16_to_utf8_lossy_with(
        units: *const u16,
        length: usize,
        policy: u32,
        text: *mut u8,
        capacity: usize,
    ) -> usize;
    pub fn wide_utf16_bytes_order(bytes: *const u8, length: usize) -> u32;
    pub fn wide_utf16_bytes_complete(bytes: *const u8, length: usize, order: u32) -> usize;
    pub fn wide_utf16_bytes_first_fault(bytes: *const u8, length: usize, order: u32) -> usize;
    pub fn wide_utf16_bytes_end_in_fault(
        bytes: *const u8,
        length: usize,
        order: u32,
        after_fault: u32,
    ) -> u32;
    pub fn wide_utf16_bytes_to_utf8(
        bytes: *const u8,
        length: usize,
        order: u32,
        text: *mut u8,
        capacity: usize,
    ) -> usize;
    pub fn wide_utf16_bytes_to_utf8_lossy_with(
        bytes: *const u8,
        length: usize,
        order: u32,
        policy: u32,
        after_fault: u32,
        text: *mut u8,
        capacity: usize,
    ) -> usize;
    pub fn wide_utf32_to_utf8(
        units: *const u32,
        length: usize,
        text: *mut u8,
        capacity: usize,
    ) -> usize;
    pub fn wide_utf32_to_utf8_lossy_with(
        units: *const u32,
        length: usize,
        policy: u32,
        text: *mut u8,
        capacity: usize,
    ) -> usize;
    pub fn wide_utf8_to_utf16(
        text: *const u8,
        length: usize,
        units: *mut u16,
        capacity: usize,
    ) -> usize;
    pub fn wide_utf8_to_utf32(
        text: *const u8,
        length: usize,
        units: *mut u32,
        capacity: usize,
    ) -> usize;
    pub fn wide_utf16_to_utf32(
        utf16: *const u16,
        length: usize,
        utf32: *mut u32,
        capacity: usize,
    ) -> usize;
    pub fn wide_utf32_to_utf16(
        utf32: *const u32,
        length: usize,
        utf16: *mut u16,
        capacity: usize,
    ) -> usize;
    pub fn wide_utf16_to_utf32_lossy_with(
        utf16: *const u16,
        length: usize,
        policy: u32,
        utf32: *mut u32,
        capacity: usize,
    ) -> usize;
    pub fn wide_utf32_to_utf16_lossy_with(
        utf32: *const u32,
        length: usize,
        policy: u32,
        utf16: *mut u16,
        capacity: usize,
    ) -> usize;
    pub fn wide_utf16_to_wtf8(
        units: *const u16,
        length: usize,
        text: *mut u8,
        capacity: usize,
    ) -> usize;
    pub fn wide_wtf8_to_utf16(
        text: *const u8,
        length: usize,
        units: *mut u16,
        capacity: usize,
    ) -> usize;
    pub fn wide_utf8_to_utf16_lossy_with(
        text: *const u8,
        length: usize,
        policy: u32,
        units: *mut u16,
        capacity: usize,
    ) -> usize;
    pub fn wide_utf8_to_utf32_lossy_with(
        text: *const u8,
        length: usize,
        policy: u32,
        units: *mut u32,
        capacity: usize,
    ) -> usize;
    pub fn wide_utf16_repair(
        units: *const u16,
        length: usize,
        repaired: *mut u16,
        capacity: usize,
    ) -> usize;
    pub fn wide_utf32_repair(
        units: *const u32,
        length: usize,
        repaired: *mut u32,
        capacity: usize,
    ) -> usize;
    pub fn wide_utf16_to_ascii_lowercase(
        units: *const u16,
        length: usize,
        lower: *mut u16,
        capacity: usize,
    ) -> usize;
    pub fn wide_utf32_to_ascii_lowercase(
        units: *const u32,
        length: usize,
        lower: *mut u32,
        capacity: usize,
    ) -> usize;
    pub fn wide_utf16_to_ascii_uppercase(
        units: *const u16,
        length: usize,
        upper: *mut u16,
        capacity: usize,
    ) -> usize;
    pub fn wide_utf32_to_ascii_uppercase(
        units: *const u32,
        length: usize,
        upper: *mut u32,
        capacity: usize,
    ) -> usize;
    pub fn wide_utf16_from_bytes(
        bytes: *const u8,
        length: usize,
        order: u32,
        units: *mut u16,
        capacity: usize,
    ) -> usize;
    pub fn wide_utf32_from_bytes(
        bytes: *const u8,
        length: usize,
        order: u32,
        units: *mut u32,
        capacity: usize,
    ) -> usize;
    pub fn wide_utf16_to_bytes(
        units: *const u16,
        length: usize,
        order: u32,
        bytes: *mut u8,
        capacity: usize,
    ) -> usize;
    pub fn wide_utf32_to_bytes(
        units: *const u32,
        length: usize,
        order: u32,
        bytes: *mut u8,
        capacity: usize,
    ) -> usize;
    pub fn wide_utf16_swap_bytes(
        units: *const u16,
        length: usize,
        swapped: *mut u16,
        capacity: usize,
    ) -> usize;
    pub fn wide_utf32_swap_bytes(
        units: *const u32,
        length: usize,
        swapped: *mut u32,
        capacity: usize,
    ) -> usize;
    pub fn wide_utf16_repair_in_place(units: *mut u16, length: usize) -> usize;
    pub fn wide_utf32_repair_in_place(units: *mut u32, length: usize) -> usize;
    pub fn wide_utf16_to_utf8_part(
        units: *const u16,
        length: usize,
        text: *mut u8,
        capacity: usize,
        read: *mut usize,
    ) -> usize;
    pub fn wide_utf32_to_utf8_part(
        units: *const u32,
        length: usize,
        text: *mut u8,
        capacity: usize,
        read: *mut usize,
    ) -> usize;
    pub fn wide_utf16_to_utf32_part(
        utf16: *const u16,
        length: usize,
        utf32: *mut u32,
        capacity: usize,
        read: *mut usize,
    ) -> usize;
    pub fn wide_utf32_to_utf16_part(
        utf32: *const u32,
        length: usize,
        utf16: *mut u16,
        capacity: usize,
        read: *mut usize,
    ) -> usize;
    pub fn wide_utf8_to_utf16_part(
        text: *const u8,
        length: usize,
        units: *mut u16,
        capacity: usize,
        read: *mut usize,
    ) -> usize;
    pub fn wide_utf8_to_utf32_part(
        text: *const u8,
        length: usize,
        units: *mut u32,
        capacity: usize,
        read: *mut usize,
    ) -> usize;
    pub fn wide_convert_start(
        converter: *mut WideConverter,
        from: u32,
        to: u32,
        policy: u32,
        bom: u32,
    ) -> u32;
    pub fn wide_convert_push(
        converter: *mut WideConverter,
        input: *const u8,
        length: usize,
        is_last: u32,
        output: *mut u8,
        capacity: usize,
    ) -> usize;
}
// End of what bindings/tables makes.
