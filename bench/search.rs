//! Times searches in 16-bit units: `bench/search` builds and runs it.
mod clock;

use std::hint::black_box;

extern "C" {
    fn wide_utf16_find_unit(units: *const u16, length: usize, unit: u16) -> usize;
    fn wide_utf16_find(units: *const u16, length: usize, needle: *const u16, needle_length: usize) -> usize;
}

fn find_unit(units: &[u16], unit: u16) -> Option<usize> {
    let at = unsafe { wide_utf16_find_unit(units.as_ptr(), units.len(), unit) };
    (at < units.len()).then_some(at)
}

fn find(units: &[u16], needle: &[u16]) -> Option<usize> {
    let at = unsafe { wide_utf16_find(units.as_ptr(), units.len(), needle.as_ptr(), needle.len()) };
    (at != usize::MAX).then_some(at)
}

fn windows(units: &[u16], needle: &[u16]) -> Option<usize> {
    units.windows(needle.len()).position(|window| window == needle)
}

fn bytes_of(units: &[u16]) -> &[u8] {
    unsafe { std::slice::from_raw_parts(units.as_ptr().cast(), 2 * units.len()) }
}

/// Calls `memmem` over the bytes, again after a match at an odd offset.
fn memmem(units: &[u16], needle: &[u16]) -> Option<usize> {
    let (bytes, sought) = (bytes_of(units), bytes_of(needle));
    let finder = memchr::memmem::Finder::new(sought);
    let mut from = 0;
    while let Some(at) = finder.find(&bytes[from..]) {
        if (from + at) % 2 == 0 {
            return Some((from + at) / 2);
        }
        from += at + 1;
    }
    None
}

/// Returns words of lower-case letters and spaces, of this many units.
fn words(length: usize) -> Vec<u16> {
    let mut state = 0x2545_f491_4f6c_dd1du64;
    let mut units = Vec::with_capacity(length);
    for _ in 0..length {
        state ^= state << 13;
        state ^= state >> 7;
        state ^= state << 17;
        units.push(if state % 6 == 0 { 0x20 } else { 0x61 + (state >> 8) as u16 % 26 });
    }
    units
}

fn text(needle: &str) -> Vec<u16> {
    needle.encode_utf16().collect()
}

/// Prints the library's time, and this time as a multiple of each peer's.
fn race(name: &str, units: &[u16], needle: &[u16]) {
    let calls = if units.len() < 100_000 { 200 } else { 1 };
    let rounds = if units.len() < 100_000 { 60 } else { 12 };
    let offset = windows(units, needle);
    let mut runners = vec![
        clock::round(calls, || find(black_box(units), black_box(needle)) == offset),
        clock::round(calls, || windows(black_box(units), black_box(needle)) == offset),
        clock::round(calls, || memmem(black_box(units), black_box(needle)) == offset),
    ];
    if let [only] = needle {
        let unit = *only;
        runners[0] = clock::round(calls, move || find_unit(black_box(units), black_box(unit)) == offset);
        runners[1] = clock::round(calls, move || black_box(units).iter().position(|other| *other == unit) == offset);
    }
    let times = clock::best_times(rounds, &mut runners);
    print!("{name:<44} {:>9} units {:>12.0} ns ", units.len(), times[0]);
    for peer in &times[1..] {
        print!(" {:.2}", times[0] / peer);
    }
    println!();
}

/// Returns this many units of the Fibonacci word, whose prefixes occur again as often as they can without a period.
fn fibonacci(length: usize) -> Vec<u16> {
    let (mut before, mut units) = (text("b"), text("a"));
    while units.len() < length {
        let longer = [units.as_slice(), before.as_slice()].concat();
        before = std::mem::replace(&mut units, longer);
    }
    units.truncate(length);
    units
}

/// Returns units, and one more.
fn then(units: &[u16], unit: u16) -> Vec<u16> {
    [units, &[unit]].concat()
}

/// Returns units, one more, and others.
fn joined(units: &[u16], unit: u16, others: &[u16]) -> Vec<u16> {
    [units, &[unit], others].concat()
}

/// Prints the library's time for a long needle, as multiples of `memmem`'s and of its own time for ordinary units.
fn race_long(name: &str, units: &[u16], needle: &[u16], ordinary: (&[u16], &[u16])) {
    let offset = memmem(units, needle);
    let mut runners = vec![
        clock::round(1, || find(black_box(units), black_box(needle)) == offset),
        clock::round(1, || memmem(black_box(units), black_box(needle)) == offset),
        clock::round(1, || find(black_box(ordinary.0), black_box(ordinary.1)).is_none()),
    ];
    let times = clock::best_times(20, &mut runners);
    print!("{name:<44} {:>9} units {:>12.0} ns ", units.len(), times[0]);
    println!(" {:.2} {:.2}", times[0] / times[1], times[0] / times[2]);
}

/// Returns `length` units of the same few, over and over.
fn repeated(units: &str, length: usize) -> Vec<u16> {
    text(units).into_iter().cycle().take(length).collect()
}

/// Races a needle of 10,000 units in a text of a million that are made so that much of it occurs at many offsets.
fn long_needles() {
    const LENGTH: usize = 1_000_000;
    const NEEDLE: usize = 10_000;
    println!("a needle of {NEEDLE} units: the library's time, and it as a multiple of memmem's and of that for words");
    let words = words(LENGTH);
    let absent = then(&words[1000..1000 + NEEDLE - 1], 0x7b);
    let race = |name, units: &[u16], needle: &[u16]| race_long(name, units, needle, (&words, &absent));
    race("words, and another last unit", &words, &absent);
    race("words, and another unit in the middle", &words, &joined(&words[..NEEDLE / 2], 0x7b, &words[..NEEDLE / 2 - 1]));
    let alike = repeated("a", LENGTH);
    race("one unit everywhere, and another last unit", &alike, &then(&alike[..NEEDLE - 1], 0x62));
    race("another first unit, and one unit everywhere", &alike, &joined(&[], 0x62, &alike[..NEEDLE - 1]));
    race("another unit in the middle", &alike, &joined(&alike[..NEEDLE / 2], 0x62, &alike[..NEEDLE / 2 - 1]));
    let nearly = then(&alike[..NEEDLE - 1], 0x62).repeat(LENGTH / NEEDLE);
    race("a unit that is late once in each 10,000", &nearly, &alike[..NEEDLE]);
    let two = repeated("ab", LENGTH);
    race("two units repeated, and one of them twice", &two, &joined(&two[..NEEDLE / 2], 0x62, &two[..NEEDLE / 2 - 1]));
    let three = repeated("aab", LENGTH);
    let missing = [&three[..NEEDLE / 2], &three[1..NEEDLE / 2 + 1]].concat();
    race("three units repeated, and one of them missing", &three, &missing);
    let eight = repeated("abcdefgh", LENGTH);
    race("eight units repeated, and another last unit", &eight, &then(&eight[..NEEDLE - 1], 0x7a));
    let mixed: Vec<u16> = words.iter().map(|unit| 0x61 + unit % 2).collect();
    race("two units at random, and another last unit", &mixed, &then(&mixed[..NEEDLE - 1], 0x63));
    let other = [&mixed[..NEEDLE / 2], &mixed[LENGTH / 2..LENGTH / 2 + NEEDLE / 2]].concat();
    race("two units at random, and other units", &mixed, &other);
    let woven = fibonacci(LENGTH);
    race("the Fibonacci word, and another last unit", &woven, &then(&woven[..NEEDLE - 1], 0x7a));
    race("the Fibonacci word, and another first unit", &woven, &joined(&[], 0x7a, &woven[..NEEDLE - 1]));
    race("the Fibonacci word, and another unit", &woven, &joined(&woven[..NEEDLE / 2], 0x62, &woven[..NEEDLE / 2 - 1]));
}

fn main() {
    println!("the library's time, and it as multiples of those of std (position, windows), memchr (memmem over the bytes)");
    for length in [8 << 10, 32 << 20] {
        let units = words(length);
        race("a unit that is not there", &units, &[0x3042]);
        race("a rare first unit", &units, &text("\u{3042}bc"));
        race("a common first unit", &units, &text("eqzjxkwv"));
        race("a space and a word", &units, &text(" wquxzj"));
        let alike = vec![0x61u16; length.min(1 << 20)];
        let mut hostile = vec![0x61u16; 64];
        hostile.push(0x62);
        race("a needle whose prefix is everywhere", &alike, &hostile);
    }
    long_needles();
}
