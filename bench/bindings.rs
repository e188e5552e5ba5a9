//! Times the crate of bindings/rust against the C functions that it calls, which write into an existing buffer. Each
//! line has the time of C, and that of the crate as a multiple of it.
#[allow(dead_code)]
mod clock;
#[allow(dead_code)]
mod texts;

use clock::{best_times, round, Round};
use widestring_proved::{utf16_to_utf8, utf16_to_utf8_lossy, utf8_to_utf16, utf8_to_utf16_lossy, Lossy};

extern "C" {
    fn wide_utf16_to_utf8(units: *const u16, length: usize, text: *mut u8, capacity: usize) -> usize;
    fn wide_utf16_to_utf8_lossy(units: *const u16, length: usize, text: *mut u8, capacity: usize) -> usize;
    fn wide_utf8_to_utf16(text: *const u8, length: usize, units: *mut u16, capacity: usize) -> usize;
    fn wide_utf8_to_utf16_lossy(text: *const u8, length: usize, units: *mut u16, capacity: usize) -> usize;
}

type Call<T, U> = unsafe extern "C" fn(*const T, usize, *mut U, usize) -> usize;

fn race<T, U: Copy + Default>(name: &str, kind: &str, items: &[T], call: Call<T, U>, own: impl Fn(&[T]) -> usize) {
    let wanted = own(items);
    let mut buffer = vec![U::default(); wanted];
    let calls = (400_000 / items.len()).max(1) as u32;
    // Both pairs of a pointer and a length are those of slices.
    let c = || unsafe { call(items.as_ptr(), items.len(), buffer.as_mut_ptr(), buffer.len()) } == wanted;
    let mut runners: [Round; 2] = [round(calls, c), round(calls, || own(items) == wanted)];
    let times = best_times(100, &mut runners);
    println!("{name:<16} {kind:<22} {:>8} {:>10.0} ns {:>6.2}", items.len(), times[0], times[1] / times[0]);
}

fn main() {
    for length in [20, 8192, 524_288] {
        for (kind, units) in [("ASCII", texts::ascii(length)), ("European and Chinese", texts::european_and_chinese(length))] {
            race("to_utf8", kind, &units, wide_utf16_to_utf8, |units| utf16_to_utf8(units).map_or(0, |text| text.len()));
            race("to_utf8_lossy", kind, &units, wide_utf16_to_utf8_lossy, |units| utf16_to_utf8_lossy(units, Lossy::Each).len());
            let text = utf16_to_utf8(&units).expect("text").into_bytes();
            race("to_utf16", kind, &text, wide_utf8_to_utf16, |text| utf8_to_utf16(text).map_or(0, |units| units.len()));
            race("to_utf16_lossy", kind, &text, wide_utf8_to_utf16_lossy, |text| utf8_to_utf16_lossy(text, Lossy::Each).len());
        }
    }
}
