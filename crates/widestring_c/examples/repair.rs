//! Calls the library from Rust: names the first fault in units of UTF-16, given in hexadecimal, and prints their lossy
//! text as UTF-8.

extern "C" {
    fn wide_utf16_first_fault(units: *const u16, length: usize) -> usize;
    fn wide_utf16_to_utf8_lossy(units: *const u16, length: usize, text: *mut u8, room: usize) -> usize;
}

/// Returns the offset of the first ill-formed unit, or `None` if there is none.
fn first_fault(units: &[u16]) -> Option<usize> {
    // The slice is memory of this length that may be read.
    let place = unsafe { wide_utf16_first_fault(units.as_ptr(), units.len()) };
    (place < units.len()).then_some(place)
}

/// Converts the units to UTF-8, with U+FFFD for each ill-formed unit.
fn to_utf8_lossy(units: &[u16]) -> Vec<u8> {
    let mut text = Vec::new();
    loop {
        text.resize(text.capacity(), 0);
        // The vector is memory of this length that may be written, and does not overlap the slice.
        let needed =
            unsafe { wide_utf16_to_utf8_lossy(units.as_ptr(), units.len(), text.as_mut_ptr(), text.len()) };
        if needed <= text.len() {
            text.truncate(needed);
            return text;
        }
        text.reserve(needed - text.len());
    }
}

fn main() {
    let words = std::env::args().skip(1);
    let units: Vec<u16> = words.map(|word| u16::from_str_radix(&word, 16).expect("a unit")).collect();
    if let Some(place) = first_fault(&units) {
        println!("fault {:04X} at unit {place}", units[place]);
    }
    println!("{}", String::from_utf8(to_utf8_lossy(&units)).expect("UTF-8"));
}
