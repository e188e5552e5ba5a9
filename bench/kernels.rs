//! Times the functions of the static library against those of its peers. `bench/kernels` builds and runs it.

mod clock;
mod compare;
mod conversions;
mod policies;
mod race;
mod texts;

use std::hint::black_box;
use texts::mixed;
use widestring::{U16CStr, U32CStr, Utf16Str, Utf32Str};

extern "C" {
    fn wide_utf16_first_fault(units: *const u16, length: usize) -> usize;
    fn wide_utf32_first_fault(units: *const u32, length: usize) -> usize;
    fn wide_utf16_first_nul(units: *const u16, length: usize) -> usize;
    fn wide_utf32_first_nul(units: *const u32, length: usize) -> usize;
}

/// The crate's functions, each behind a call like this library's, since a program in C would also make one.
mod theirs {
    use super::*;

    #[inline(never)]
    pub fn is_utf16(units: &[u16]) -> bool {
        Utf16Str::from_slice(units).is_ok()
    }

    #[inline(never)]
    pub fn is_utf32(units: &[u32]) -> bool {
        Utf32Str::from_slice(units).is_ok()
    }

    #[inline(never)]
    pub fn is_string16(units: &[u16]) -> bool {
        U16CStr::from_slice(units).is_ok()
    }

    #[inline(never)]
    pub fn is_string32(units: &[u32]) -> bool {
        U32CStr::from_slice(units).is_ok()
    }
}

/// Times both in turn, and prints a line.
fn time_both(what: &str, text: &str, calls: u32, ours: impl FnMut() -> bool, theirs: impl FnMut() -> bool) {
    let mut runners = [clock::round(calls, ours), clock::round(calls, theirs)];
    let best = clock::best_times(12, &mut runners);
    println!("{what:16} {text:24} {:14.0} ns {:14.0} ns  {:.2}", best[0], best[1], best[0] / best[1]);
}

fn compare_units16(text: &str, calls: u32, units: &[u16]) {
    time_both(
        "Utf16Str",
        text,
        calls,
        || unsafe { wide_utf16_first_fault(black_box(units.as_ptr()), units.len()) == units.len() },
        || theirs::is_utf16(black_box(units)),
    );
    let mut string = units.to_vec();
    string.push(0);
    time_both(
        "U16CStr",
        text,
        calls,
        || unsafe { wide_utf16_first_nul(black_box(string.as_ptr()), string.len()) == units.len() },
        || theirs::is_string16(black_box(&string)),
    );
}

fn compare_units32(text: &str, calls: u32, units: &[u32]) {
    time_both(
        "Utf32Str",
        text,
        calls,
        || unsafe { wide_utf32_first_fault(black_box(units.as_ptr()), units.len()) == units.len() },
        || theirs::is_utf32(black_box(units)),
    );
    let mut string = units.to_vec();
    string.push(0);
    time_both(
        "U32CStr",
        text,
        calls,
        || unsafe { wide_utf32_first_nul(black_box(string.as_ptr()), string.len()) == units.len() },
        || theirs::is_string32(black_box(&string)),
    );
}

fn compare_texts(bytes: usize, calls: u32) {
    let texts = [
        ("ASCII", mixed(bytes, usize::MAX)),
        ("an emoji of 100", mixed(bytes, 100)),
        ("an emoji of 20", mixed(bytes, 20)),
        ("an emoji of 2", mixed(bytes, 2)),
        ("emoji alone", mixed(bytes, 1)),
    ];
    for (text, units) in texts {
        compare_units16(&format!("{text}, {} KB", bytes / 1024), calls, &units);
        let chars: Vec<u32> = char::decode_utf16(units).map(|c| c.unwrap() as u32).collect();
        let count = chars.len().min(bytes / 4);
        compare_units32(&format!("{text}, {} KB", count * 4 / 1024), calls, &chars[..count]);
    }
}

/// Times validation and the search for a NUL against those of the Rust crate.
fn compare_searches() {
    println!("{:16} {:24} {:>17} {:>17}  ratio", "call", "text", "this library", "Rust crate");
    compare_texts(64 << 20, 1);
    compare_texts(16 << 10, 2_000);
    for (text, units) in [
        ("none", vec![]),
        ("one letter", vec![97]),
        ("5 letters", vec![97; 5]),
        ("12 letters", vec![97; 12]),
        ("20 letters", vec![97; 20]),
        ("a, emoji, b", vec![97, 0xd83d, 0xde00, 98]),
        ("6 emoji", [0xd83d, 0xde00].repeat(6)),
        ("8 emoji", [0xd83d, 0xde00].repeat(8)),
        ("12 emoji", [0xd83d, 0xde00].repeat(12)),
    ] {
        compare_units16(text, 200_000, &units);
        let chars: Vec<u32> = char::decode_utf16(units).map(|c| c.unwrap() as u32).collect();
        compare_units32(text, 200_000, &chars);
    }
}

fn main() {
    let arguments: Vec<String> = std::env::args().skip(1).collect();
    let arguments: Vec<&str> = arguments.iter().map(String::as_str).collect();
    match arguments[..] {
        [] => {
            compare_searches();
            race::race_all();
        }
        ["race"] => race::race_all(),
        ["compare", seed, count] => {
            let [seed, count] = [seed, count].map(|word| word.parse().expect("a number"));
            if !compare::compare(seed, count) {
                std::process::exit(1);
            }
        }
        _ => panic!("no such arguments: {arguments:?}"),
    }
}
