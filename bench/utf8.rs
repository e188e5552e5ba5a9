//! Converts UTF-16 with a BOM on standard input to UTF-8, by Rust's own `String::from_utf16`. `bench/utf8` builds and
//! runs it.

use std::io::{self, Read, Write};

fn main() -> io::Result<()> {
    let mut bytes = Vec::new();
    io::stdin().read_to_end(&mut bytes)?;
    let order: fn([u8; 2]) -> u16 = match bytes[..] {
        [0xfe, 0xff, ..] => u16::from_be_bytes,
        _ => u16::from_le_bytes,
    };
    let units: Vec<u16> = bytes[2..]
        .chunks_exact(2)
        .map(|pair| order([pair[0], pair[1]]))
        .collect();
    let text = String::from_utf16(&units).map_err(io::Error::other)?;
    io::stdout().write_all(text.as_bytes())
}
