//! Times each conversion of the static library in turn with those of its peers, on the same texts.

use crate::clock;
use crate::conversions::{
    Conversion, REPAIR, TO_UTF16, TO_UTF16_LOSSY, TO_UTF32, TO_UTF8, TO_UTF8_LOSSY, UTF16_TO_UTF32, UTF32_TO_UTF16, UTF32_TO_UTF8,
};
use crate::texts::{ascii, chinese, cyrillic, emoji_alone, emoji_of_20, european_and_chinese, with_faults};
use std::hint::black_box;

/// The units of a text of 16 KB, which fits the cache, and of one of 64 MB, with the number of rounds and the calls of
/// a round.
const SIZES: [(&str, usize, u32, u32); 2] = [("16 KB", 8 << 10, 60, 20), ("64 MB", 32 << 20, 5, 1)];
const TINY_LENGTHS: [usize; 4] = [1, 5, 12, 24];

/// Formats a time with two to five digits.
fn time_word(nanoseconds: f64) -> String {
    if nanoseconds < 1e4 {
        format!("{nanoseconds:.0} ns")
    } else if nanoseconds < 1e7 {
        format!("{:.1} us", nanoseconds / 1e3)
    } else {
        format!("{:.1} ms", nanoseconds / 1e6)
    }
}

/// Returns the library's time, its speed in gigabytes of input a second, and the time as a multiple of each peer's. The
/// library's buffer is exactly as long as the result.
fn times<From, To: Clone + Default>(conversion: &Conversion<From, To>, input: &[From], rounds: u32, calls: u32) -> String {
    let needed = (conversion.library)(input, &mut []);
    let mut exact = vec![To::default(); needed];
    let mut runners = vec![clock::round(calls, || {
        let library = black_box(conversion.library);
        library(black_box(input), &mut exact) == needed
    })];
    for (_, peer) in conversion.peers() {
        let mut ample = vec![To::default(); conversion.ample_capacity(input.len())];
        runners.push(clock::round(calls, move || {
            let peer = black_box(peer);
            peer(black_box(input), &mut ample).is_some_and(|answer| answer.len() == needed)
        }));
    }
    let best = clock::best_times(rounds, &mut runners);
    let multiples: Vec<String> = best[1..].iter().map(|peer| format!("{:.2}", best[0] / peer)).collect();
    let speed = std::mem::size_of_val(input) as f64 / best[0];
    format!("{:>8} {speed:>5.1} GB/s  {}", time_word(best[0]), multiples.join(" "))
}

/// A text by its name, made of a number of units.
type Text<'a, From> = (&'a str, &'a dyn Fn(usize) -> Vec<From>);

/// Prints a line for each text with both sizes, then one for each tiny text.
fn race<From, To: Clone + Default>(conversion: &Conversion<From, To>, texts: &[Text<From>]) {
    let peers: Vec<&str> = conversion.peers().map(|(name, _)| name).collect();
    println!("\n{}: the library's time and speed, and the time as multiples of those of {}", conversion.name, peers.join(", "));
    for (name, text) in texts {
        print!("{name:40}");
        for (size, length, rounds, calls) in SIZES {
            print!("   {size} {}", times(conversion, &text(length), rounds, calls));
        }
        println!();
    }
    let print_tiny = |what: &str, input: &[From]| println!("{what:40}         {}", times(conversion, input, 40, 2_000));
    print_tiny("no units", &[]);
    for (name, text) in texts {
        for length in TINY_LENGTHS {
            print_tiny(&format!("{name}, units: {length}"), &text(length));
        }
    }
}

pub fn race_all() {
    race(
        &TO_UTF8,
        &[
            ("ASCII", &ascii),
            ("European and Chinese", &european_and_chinese),
            ("Cyrillic", &cyrillic),
            ("an emoji of 20", &emoji_of_20),
            ("emoji alone", &emoji_alone),
        ],
    );
    race(
        &TO_UTF8_LOSSY,
        &[
            ("European and Chinese", &european_and_chinese),
            ("European and Chinese, faults", &|length| with_faults(european_and_chinese(length))),
            ("ASCII, faults", &|length| with_faults(ascii(length))),
        ],
    );
    race(
        &REPAIR,
        &[
            ("emoji alone", &emoji_alone),
            ("emoji alone, faults", &|length| with_faults(emoji_alone(length))),
            ("European and Chinese", &european_and_chinese),
            ("European and Chinese, faults", &|length| with_faults(european_and_chinese(length))),
        ],
    );
    race_from_utf8();
    race_utf32();
}

fn in_utf8(units: Vec<u16>) -> Vec<u8> {
    String::from_utf16(&units).expect("well-formed text").into_bytes()
}

/// Replaces every tenth byte of the text by one that no character has.
fn broken(mut text: Vec<u8>) -> Vec<u8> {
    text.iter_mut().step_by(10).for_each(|byte| *byte = 0xff);
    text
}

fn race_from_utf8() {
    let texts: [Text<u8>; 6] = [
        ("ASCII", &|length| in_utf8(ascii(length))),
        ("European and Chinese", &|length| in_utf8(european_and_chinese(length))),
        ("Chinese", &|length| in_utf8(chinese(length))),
        ("Cyrillic", &|length| in_utf8(cyrillic(length))),
        ("an emoji of 20", &|length| in_utf8(emoji_of_20(length))),
        ("emoji alone", &|length| in_utf8(emoji_alone(length))),
    ];
    race(&TO_UTF16, &texts);
    race(&TO_UTF32, &texts);
    race(
        &TO_UTF16_LOSSY,
        &[
            ("European and Chinese", &|length| in_utf8(european_and_chinese(length))),
            ("European and Chinese, faults", &|length| broken(in_utf8(european_and_chinese(length)))),
            ("ASCII, faults", &|length| broken(in_utf8(ascii(length)))),
        ],
    );
}

fn in_utf32(units: Vec<u16>) -> Vec<u32> {
    String::from_utf16(&units).expect("well-formed text").chars().map(u32::from).collect()
}

fn race_utf32() {
    let texts: [Text<u32>; 3] = [
        ("ASCII", &|length| in_utf32(ascii(length))),
        ("European and Chinese", &|length| in_utf32(european_and_chinese(length))),
        ("emoji alone", &|length| in_utf32(emoji_alone(length))),
    ];
    race(&UTF32_TO_UTF8, &texts);
    race(&UTF32_TO_UTF16, &texts);
    race(&UTF16_TO_UTF32, &[("ASCII", &ascii), ("European and Chinese", &european_and_chinese), ("emoji alone", &emoji_alone)]);
}
