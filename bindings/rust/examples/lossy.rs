//! Prints the offset of the first fault of a text in UTF-16, and the text in UTF-8 under each policy.
use widestring_proved::{utf16_to_utf8, utf16_to_utf8_lossy, Lossy};

fn main() {
    let units = [0x48, 0x69, 0xd83d, 0xde00, 0xdc00, 0xdc00];
    match utf16_to_utf8(&units) {
        Ok(text) => println!("{text}"),
        Err(fault) => println!("a fault at unit {}", fault.offset),
    }
    for policy in [Lossy::Each, Lossy::Run, Lossy::Skip] {
        println!("{}", utf16_to_utf8_lossy(&units, policy));
    }
}
