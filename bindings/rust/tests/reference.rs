//! Tests the crate against std, with random texts: REFERENCE_COUNT of each kind, or 100,000, from REFERENCE_SEED.
use std::fmt::Debug;
use widestring_proved::*;

const POLICIES: [Lossy; 3] = [Lossy::Each, Lossy::Run, Lossy::Skip];

/// Text as std reads it: characters, and `None` for each fault.
type Items = Vec<Option<char>>;

struct Numbers(u64);

impl Numbers {
    fn new() -> Self {
        Self(0x9e37_79b9_7f4a_7c15_u64.wrapping_mul(2 * asked("REFERENCE_SEED", 1) + 1))
    }

    fn below(&mut self, bound: u32) -> u32 {
        self.0 ^= self.0 << 13;
        self.0 ^= self.0 >> 7;
        self.0 ^= self.0 << 17;
        (self.0 >> 33) as u32 % bound
    }

    /// Returns a random text of std: mostly ASCII, and characters below a bound.
    fn text(&mut self) -> String {
        let bound = [0x80, 0x800, 0x1_0000, 0x11_0000][self.below(4) as usize];
        let most = [
            20,
            20,
            20,
            20,
            20,
            20,
            150,
            if self.below(16) == 0 { 6000 } else { 600 },
        ][self.below(8) as usize];
        let length = self.below(most);
        (0..length)
            .filter_map(|_| {
                let bound = if self.below(4) == 0 { bound } else { 0x80 };
                char::from_u32(self.below(bound))
            })
            .collect()
    }

    /// Inserts some elements of any value in every second case, and truncates some texts at a random offset.
    fn broken<T: Copy>(&mut self, mut items: Vec<T>, any: impl Fn(u32) -> T) -> Vec<T> {
        for _ in 0..if self.below(2) == 0 { 0 } else { self.below(8) } {
            let wild = match self.below(3) {
                0 => 0xd800 + self.below(0x800),
                1 => self.below(0x12_0000),
                _ => self.below(u32::MAX),
            };
            let at = self.below(items.len() as u32 + 1) as usize;
            items.insert(at, any(wild));
        }
        if self.below(8) == 0 {
            items.truncate(self.below(items.len() as u32 + 1) as usize);
        }
        items
    }
}

fn asked(name: &str, otherwise: u64) -> u64 {
    std::env::var(name).map_or(otherwise, |text| text.parse().expect("a number"))
}

fn lossy_of(items: &Items, policy: Lossy) -> String {
    let mut text = String::new();
    let mut after = false;
    for item in items {
        match item {
            Some(c) => text.push(*c),
            None if policy == Lossy::Each || policy == Lossy::Run && !after => {
                text.push('\u{fffd}')
            }
            None => {}
        }
        after = item.is_none();
    }
    text
}

/// Returns what `make` makes of the text of the items, or the fault at the offset if there is one.
fn valid<T>(items: &Items, offset: Option<usize>, make: impl Fn(&str) -> T) -> Result<T, Fault> {
    match offset {
        None => Ok(make(&lossy_of(items, Lossy::Skip))),
        Some(offset) => Err(Fault { offset }),
    }
}

/// Calls a function with buffers that fit exactly, are longer, shorter and empty, with a filler after each. The
/// function must return the length if the text fits, and an error with the length if it does not; if `wanted` is a
/// fault, it must return the fault with each buffer.
fn fills<T: Copy + PartialEq + Debug>(
    wanted: Result<&[T], Fault>,
    filler: T,
    call: impl Fn(&mut [T]) -> Result<usize, IntoError>,
) {
    let needed = wanted.map_or(7, <[T]>::len);
    for size in [needed, needed + 9, needed / 2, needed.saturating_sub(1), 0] {
        let mut all = vec![filler; size + 70];
        let (buffer, rest) = all.split_at_mut(size);
        let result = call(buffer);
        assert!(rest.iter().all(|item| *item == filler));
        match wanted {
            Ok(items) if items.len() <= size => {
                assert_eq!(result, Ok(needed));
                assert_eq!(&buffer[..needed], items);
                assert!(buffer[needed..].iter().all(|item| *item == filler));
            }
            Ok(_) => assert_eq!(result, Err(IntoError::Short(Short { needed }))),
            Err(fault) => {
                assert_eq!(result, Err(IntoError::Fault(fault)));
                assert!(buffer.iter().all(|item| *item == filler));
            }
        }
    }
}

fn utf16_of(text: &str) -> Vec<u16> {
    text.encode_utf16().collect()
}

fn utf32_of(text: &str) -> Vec<u32> {
    text.chars().map(u32::from).collect()
}

/// Returns the items of UTF-8, and the offset of the first fault.
fn utf8_items(text: &[u8]) -> (Items, Option<usize>) {
    let mut items = Items::new();
    for chunk in text.utf8_chunks() {
        items.extend(chunk.valid().chars().map(Some));
        items.extend((!chunk.invalid().is_empty()).then_some(None));
    }
    let offset = std::str::from_utf8(text)
        .err()
        .map(|error| error.valid_up_to());
    (items, offset)
}

fn check_utf8(text: &[u8]) {
    let (items, offset) = utf8_items(text);
    let (units, wide) = (
        valid(&items, offset, utf16_of),
        valid(&items, offset, utf32_of),
    );
    assert_eq!(utf8_first_fault(text), offset);
    assert_eq!(
        utf8_char_count(text),
        offset.is_none().then_some(items.len())
    );
    assert_eq!(utf8_to_utf16(text), units);
    assert_eq!(utf8_to_utf32(text), wide);
    assert_eq!(
        utf8_to_utf16_lossy(text, Lossy::Each),
        utf16_of(&String::from_utf8_lossy(text))
    );
    fills(units.as_deref().map_err(|fault| *fault), 0xa5a5, |buffer| {
        utf8_to_utf16_into(text, buffer)
    });
    fills(
        wide.as_deref().map_err(|fault| *fault),
        0xa5a5_a5a5,
        |buffer| utf8_to_utf32_into(text, buffer),
    );
    for policy in POLICIES {
        check_utf8_lossy(text, policy, &lossy_of(&items, policy));
    }
}

fn check_utf8_lossy(text: &[u8], policy: Lossy, lossy: &str) {
    let (units, wide) = (utf16_of(lossy), utf32_of(lossy));
    assert_eq!(utf8_to_utf16_lossy(text, policy), units);
    assert_eq!(utf8_to_utf32_lossy(text, policy), wide);
    fills(Ok(&units), 0xa5a5, |buffer| {
        Ok(utf8_to_utf16_lossy_into(text, policy, buffer)?)
    });
    fills(Ok(&wide), 0xa5a5_a5a5, |buffer| {
        Ok(utf8_to_utf32_lossy_into(text, policy, buffer)?)
    });
}

/// Returns the first offset of a needle, by std's windows.
fn offset_of<T: PartialEq>(items: &[T], needle: &[T]) -> Option<usize> {
    match needle.len() {
        0 => Some(0),
        length => items.windows(length).position(|window| window == needle),
    }
}

/// Returns the last offset of a needle, by std's windows.
fn last_offset_of<T: PartialEq>(items: &[T], needle: &[T]) -> Option<usize> {
    match needle.len() {
        0 => Some(items.len()),
        length => items.windows(length).rposition(|window| window == needle),
    }
}

/// Returns what std makes of an ASCII unit, and another unit as it is.
fn in_case(unit: u32, change: fn(&u8) -> u8) -> u32 {
    u8::try_from(unit).map_or(unit, |byte| u32::from(change(&byte)))
}

/// Changes the case of some letters, and in some cases one unit.
fn with_other_letters(units: &mut [u32], numbers: &mut Numbers) {
    for unit in units.iter_mut() {
        let is_letter = u8::try_from(*unit).is_ok_and(|byte| byte.is_ascii_alphabetic());
        if is_letter && numbers.below(2) == 0 {
            *unit ^= 0x20;
        }
    }
    if !units.is_empty() && numbers.below(3) == 0 {
        units[numbers.below(units.len() as u32) as usize] ^= 0x20;
    }
}

/// The functions of one width that compare units and write letters in the other case.
struct Cases<T> {
    find: fn(&[T], &[T]) -> Option<usize>,
    eq: fn(&[T], &[T]) -> bool,
    lower: fn(&[T]) -> Vec<T>,
    upper: fn(&[T]) -> Vec<T>,
    unit: fn(u32) -> T,
}

impl<T: Copy + PartialEq + Debug + Into<u32>> Cases<T> {
    fn of(&self, units: &[u32], change: fn(&u8) -> u8) -> Vec<T> {
        let changed = units.iter().map(|unit| in_case(*unit, change));
        changed.map(self.unit).collect()
    }

    fn check(&self, units: &[T], numbers: &mut Numbers) {
        let wide: Vec<u32> = units.iter().map(|unit| (*unit).into()).collect();
        let lower = self.of(&wide, u8::to_ascii_lowercase);
        assert_eq!((self.lower)(units), lower);
        assert_eq!((self.upper)(units), self.of(&wide, u8::to_ascii_uppercase));
        let at = numbers.below(units.len() as u32 + 1) as usize;
        let end = (at + numbers.below(9) as usize).min(units.len());
        for part in [&wide[at..end], &wide] {
            let mut other = part.to_vec();
            with_other_letters(&mut other, numbers);
            let (other, lower_other) = (
                self.of(&other, |byte| *byte),
                self.of(&other, u8::to_ascii_lowercase),
            );
            assert_eq!((self.find)(units, &other), offset_of(&lower, &lower_other));
            assert_eq!((self.eq)(units, &other), lower == lower_other);
        }
    }
}

/// Returns the code points of UTF-16, of which an unpaired surrogate is one.
fn code_points(units: &[u16]) -> Vec<u32> {
    char::decode_utf16(units.iter().copied())
        .map(|item| item.map_or_else(|error| error.unpaired_surrogate().into(), u32::from))
        .collect()
}

/// Returns units that differ from some unit on, or do not.
fn with_other_end<T: Copy>(units: &[T], numbers: &mut Numbers, any: impl Fn(u32) -> T) -> Vec<T> {
    let at = numbers.below(units.len() as u32 + 1) as usize;
    let mut other = units[..at].to_vec();
    if numbers.below(2) == 0 {
        let wild = [0xd83d, 0xde00, 0xe000, numbers.below(0x1_0000)];
        other.push(any(wild[numbers.below(4) as usize]));
    }
    if numbers.below(2) == 0 {
        other.extend_from_slice(units.get(other.len()..).unwrap_or_default());
    }
    other
}

fn check_utf16(units: &[u16], numbers: &mut Numbers) {
    let items: Items = char::decode_utf16(units.iter().copied())
        .map(Result::ok)
        .collect();
    let item = items.iter().position(Option::is_none);
    let offset = item.map(|item| items[..item].iter().flatten().map(|c| c.len_utf16()).sum());
    let text = valid(&items, offset, str::to_owned);
    assert_eq!(text.clone().ok(), String::from_utf16(units).ok());
    assert_eq!(utf16_first_fault(units), offset);
    assert_eq!(utf16_first_fault_item(units), item);
    assert_eq!(
        utf16_char_count(units),
        offset.is_none().then_some(items.len())
    );
    assert_eq!(utf16_to_utf8(units), text);
    assert_eq!(utf16_to_utf32(units), valid(&items, offset, utf32_of));
    assert_eq!(
        utf16_repair(units),
        utf16_of(&String::from_utf16_lossy(units))
    );
    fills(
        text.as_ref()
            .map(|text| text.as_bytes())
            .map_err(|fault| *fault),
        0xa5,
        |buffer| utf16_to_utf8_into(units, buffer),
    );
    for policy in POLICIES {
        let lossy = lossy_of(&items, policy);
        assert_eq!(utf16_to_utf8_lossy(units, policy), lossy);
        fills(Ok(lossy.as_bytes()), 0xa5, |buffer| {
            Ok(utf16_to_utf8_lossy_into(units, policy, buffer)?)
        });
    }
    check_searches16(units, numbers);
    check_comparisons16(units, numbers);
    check_bytes(units, &items, numbers);
}

/// Checks the functions for UTF-16 in bytes, with or without half a unit at the end, in one chunk and in two, the
/// second of which starts with the bytes that the first left.
fn check_bytes(units: &[u16], items: &Items, numbers: &mut Numbers) {
    let order = [Order::Little, Order::Big][numbers.below(2) as usize];
    let put = |unit: &u16| match order {
        Order::Little => unit.to_le_bytes(),
        Order::Big => unit.to_be_bytes(),
    };
    let mut bytes: Vec<u8> = units.iter().flat_map(put).collect();
    bytes.resize(bytes.len() + numbers.below(2) as usize, 0x61);
    let offset = utf16_first_fault(units);
    let is_whole = bytes.len() % 2 == 0;
    let fault = offset.or((!is_whole).then_some(units.len()));
    assert_eq!(utf16_bytes_first_fault(&bytes, order), offset);
    assert_eq!(
        utf16_bytes_to_utf8(&bytes, order),
        valid(items, fault, str::to_owned)
    );
    let is_high = units.last().is_some_and(|unit| unit >> 10 == 0x36);
    assert_eq!(
        utf16_bytes_complete(&bytes, order),
        2 * (units.len() - usize::from(is_high))
    );
    let is_last = items.last().is_none_or(Option::is_none);
    assert_eq!(utf16_bytes_end_in_fault(&bytes, order, true), is_last);
    let with_bom = [&put(&0xfeff)[..], &bytes].concat();
    assert_eq!(utf16_bytes_order(&with_bom), Some(order));
    assert_eq!(utf16_bytes_order(b"ab"), None);
    let cut = utf16_bytes_complete(
        &bytes[..numbers.below(bytes.len() as u32 + 1) as usize],
        order,
    );
    let (prefix, rest) = bytes.split_at(cut);
    let after = utf16_bytes_end_in_fault(prefix, order, false);
    for policy in POLICIES {
        let wanted = lossy_of(items, policy);
        assert_eq!(
            utf16_bytes_to_utf8_lossy(&bytes, order, policy, false),
            wanted
        );
        let texts = [(prefix, false), (rest, after)]
            .map(|(chunk, after)| utf16_bytes_to_utf8_lossy(chunk, order, policy, after));
        assert_eq!(texts.concat(), wanted);
    }
}

fn check_searches16(units: &[u16], numbers: &mut Numbers) {
    let at = numbers.below(units.len() as u32 + 1) as usize;
    let needle = &units[at..(at + numbers.below(9) as usize).min(units.len())];
    assert_eq!(utf16_find(units, needle), offset_of(units, needle));
    assert_eq!(utf16_rfind(units, needle), last_offset_of(units, needle));
    assert_eq!(utf16_find_unit(units, 0x7a), offset_of(units, &[0x7a]));
    assert_eq!(utf16_first_nul(units), offset_of(units, &[0]));
}

fn check_comparisons16(units: &[u16], numbers: &mut Numbers) {
    let cases = Cases {
        find: utf16_find_ignore_ascii_case,
        eq: utf16_eq_ignore_ascii_case,
        lower: utf16_to_ascii_lowercase,
        upper: utf16_to_ascii_uppercase,
        unit: |unit| unit as u16,
    };
    cases.check(units, numbers);
    let other = with_other_end(units, numbers, |wild| wild as u16);
    let wanted = code_points(units).cmp(&code_points(&other));
    assert_eq!(utf16_compare_code_points(units, &other), wanted);
}

fn check_utf32(units: &[u32], numbers: &mut Numbers) {
    let items: Items = units.iter().map(|unit| char::from_u32(*unit)).collect();
    let offset = items.iter().position(Option::is_none);
    let text = valid(&items, offset, str::to_owned);
    assert_eq!(utf32_first_fault(units), offset);
    assert_eq!(utf32_first_fault_item(units), offset);
    assert_eq!(
        utf32_char_count(units),
        offset.is_none().then_some(items.len())
    );
    assert_eq!(utf32_to_utf8(units), text);
    assert_eq!(utf32_to_utf16(units), valid(&items, offset, utf16_of));
    assert_eq!(
        utf32_repair(units),
        utf32_of(&lossy_of(&items, Lossy::Each))
    );
    fills(
        text.as_ref()
            .map(|text| text.as_bytes())
            .map_err(|fault| *fault),
        0xa5,
        |buffer| utf32_to_utf8_into(units, buffer),
    );
    for policy in POLICIES {
        let lossy = lossy_of(&items, policy);
        assert_eq!(utf32_to_utf8_lossy(units, policy), lossy);
        fills(Ok(lossy.as_bytes()), 0xa5, |buffer| {
            Ok(utf32_to_utf8_lossy_into(units, policy, buffer)?)
        });
    }
    check_searches32(units, numbers);
    check_comparisons32(units, numbers);
}

fn check_searches32(units: &[u32], numbers: &mut Numbers) {
    let at = numbers.below(units.len() as u32 + 1) as usize;
    let needle = &units[at..(at + numbers.below(9) as usize).min(units.len())];
    assert_eq!(utf32_find(units, needle), offset_of(units, needle));
    assert_eq!(utf32_rfind(units, needle), last_offset_of(units, needle));
    assert_eq!(utf32_find_unit(units, 0x7a), offset_of(units, &[0x7a]));
    assert_eq!(utf32_first_nul(units), offset_of(units, &[0]));
}

fn check_comparisons32(units: &[u32], numbers: &mut Numbers) {
    let cases = Cases {
        find: utf32_find_ignore_ascii_case,
        eq: utf32_eq_ignore_ascii_case,
        lower: utf32_to_ascii_lowercase,
        upper: utf32_to_ascii_uppercase,
        unit: |unit| unit,
    };
    cases.check(units, numbers);
    let other = with_other_end(units, numbers, |wild| wild);
    assert_eq!(utf32_compare_code_points(units, &other), units.cmp(&other));
}

#[test]
fn version_is_the_crates() {
    let number = env!("CARGO_PKG_VERSION")
        .split('.')
        .fold(0, |number, field| {
            256 * number + field.parse::<u32>().expect("a number")
        });
    assert_eq!(version(), number);
}

/// Tests that a function that writes into a buffer returns an error with the length if the text is longer than the
/// buffer. So a length that it returns can be used to slice the buffer.
#[test]
fn short_buffers() {
    let short = Short { needed: 6 };
    let error = IntoError::Short(short);
    assert_eq!(
        utf16_to_utf8_into(&[0x3042, 0x3042], &mut [0; 2]),
        Err(error)
    );
    assert_eq!(
        utf32_to_utf8_into(&[0x3042, 0x3042], &mut [0; 5]),
        Err(error)
    );
    assert_eq!(utf8_to_utf16_into(b"abcdef", &mut [0; 5]), Err(error));
    assert_eq!(utf8_to_utf32_into(b"abcdef", &mut []), Err(error));
    assert_eq!(
        utf16_to_utf8_lossy_into(&[0x3042, 0xd800], Lossy::Each, &mut [0; 5]),
        Err(short)
    );
    assert_eq!(
        utf32_to_utf8_lossy_into(&[0x3042, 0xd800], Lossy::Run, &mut [0; 2]),
        Err(short)
    );
    assert_eq!(
        utf8_to_utf16_lossy_into(b"abcde\xff", Lossy::Each, &mut [0; 5]),
        Err(short)
    );
    assert_eq!(
        utf8_to_utf32_lossy_into(b"abcde\xff", Lossy::Each, &mut []),
        Err(short)
    );
    assert_eq!(utf16_to_utf8_into(&[], &mut []), Ok(0));
    assert_eq!(
        utf16_to_utf8_lossy_into(&[0xd800], Lossy::Skip, &mut []),
        Ok(0)
    );
    let fault = Fault { offset: 1 };
    assert_eq!(fault.to_string(), "ill-formed at offset 1");
    assert_eq!(
        utf16_to_utf8_into(&[0x61, 0xd800], &mut []),
        Err(IntoError::Fault(fault))
    );
    assert_eq!(error.to_string(), "the text needs a buffer of 6 elements");
    assert_eq!(IntoError::from(fault).to_string(), fault.to_string());
}

const SCHEMES: [Scheme; 8] = [
    Scheme::Utf8,
    Scheme::Utf16Le,
    Scheme::Utf16Be,
    Scheme::Utf16,
    Scheme::Utf32Le,
    Scheme::Utf32Be,
    Scheme::Utf32,
    Scheme::Wtf8,
];

/// Returns a text in a scheme, of which UTF-16 and UTF-32 are little-endian.
fn in_scheme(text: &str, scheme: Scheme) -> Vec<u8> {
    match scheme {
        Scheme::Utf8 | Scheme::Wtf8 => text.as_bytes().to_vec(),
        Scheme::Utf16Be => text.encode_utf16().flat_map(u16::to_be_bytes).collect(),
        Scheme::Utf16 | Scheme::Utf16Le => text.encode_utf16().flat_map(u16::to_le_bytes).collect(),
        Scheme::Utf32Be => text
            .chars()
            .flat_map(|c| u32::from(c).to_be_bytes())
            .collect(),
        Scheme::Utf32 | Scheme::Utf32Le => text
            .chars()
            .flat_map(|c| u32::from(c).to_le_bytes())
            .collect(),
    }
}

/// Checks a conversion between two random schemes in random pieces, into little space.
fn check_pieces(text: &str, numbers: &mut Numbers) {
    let (from, to) = (
        SCHEMES[numbers.below(8) as usize],
        SCHEMES[numbers.below(8) as usize],
    );
    let bytes = in_scheme(text, from);
    let wanted = in_scheme(text, to);
    let mut converter = Converter::new(from, to, None, false);
    let (mut written, mut at) = (Vec::new(), 0);
    loop {
        let mut buffer = [0; 24];
        let end = (at + numbers.below(40) as usize).min(bytes.len());
        let space = &mut buffer[..8 + numbers.below(17) as usize];
        let progress = converter.push(&bytes[at..end], end == bytes.len(), space);
        written.extend_from_slice(&space[..progress.written]);
        at += progress.read;
        if end == bytes.len() && progress.end == End::NeedsInput {
            break;
        }
    }
    assert_eq!(written, wanted);
    assert_eq!(converter.items(), text.chars().count() as u64);
    assert_eq!(
        (converter.bytes(), converter.faults(), converter.kept()),
        (bytes.len() as u64, 0, 0)
    );
}

/// Checks the lossy text of bytes in pieces, and where the first fault is.
fn check_faults_in_pieces(bytes: &[u8], numbers: &mut Numbers) {
    let text = String::from_utf8_lossy(bytes);
    let mut converter = Converter::new(Scheme::Utf8, Scheme::Utf8, Some(Lossy::Each), false);
    let mut written = Vec::new();
    for piece in bytes.chunks(1 + numbers.below(5) as usize) {
        converter.convert(piece, &mut written, false).unwrap();
    }
    converter.convert(&[], &mut written, true).unwrap();
    assert_eq!(written, text.as_bytes());
    assert_eq!(converter.faults(), utf8_fault_count(bytes) as u64);
    let mut strict = Converter::new(Scheme::Utf8, Scheme::Utf16Le, None, false);
    let fault = strict.convert(bytes, &mut Vec::new(), true).err();
    assert_eq!(
        fault.map(|fault| fault.offset as usize),
        utf8_first_fault(bytes)
    );
}

/// Checks the calls on units of UTF-16 of any values that the others do not.
fn check_units16(units: &[u16], numbers: &mut Numbers) {
    let items: Vec<_> = char::decode_utf16(units.iter().copied()).collect();
    let faults = items.iter().filter(|item| item.is_err()).count();
    let (mut wtf8, mut wide) = (Vec::new(), Vec::new());
    for item in &items {
        match item {
            Ok(c) => wtf8.extend_from_slice(c.to_string().as_bytes()),
            Err(error) => {
                let unit = error.unpaired_surrogate();
                wtf8.extend([
                    0xed,
                    0x80 | (unit >> 6 & 0x3f) as u8,
                    0x80 | (unit & 0x3f) as u8,
                ]);
            }
        }
        wide.push(item.as_ref().map_or(0xfffd, |c| u32::from(*c)));
    }
    assert_eq!(utf16_to_wtf8(units), wtf8);
    assert_eq!(wtf8_to_utf16(&wtf8).as_deref(), Ok(units));
    assert_eq!(wtf8_first_fault(&wtf8), None);
    assert_eq!(utf16_fault_count(units), faults);
    assert_eq!(utf16_to_utf32_lossy(units, Lossy::Each), wide);
    assert_eq!(utf16_is_ascii(units), units.iter().all(|unit| *unit < 0x80));
    let big: Vec<u8> = units.iter().flat_map(|unit| unit.to_be_bytes()).collect();
    assert_eq!(utf16_to_bytes(units, Order::Big), big);
    assert_eq!(utf16_from_bytes(&big, Order::Big).as_deref(), Some(units));
    let swapped: Vec<u16> = units.iter().map(|unit| unit.swap_bytes()).collect();
    assert_eq!(utf16_swap_bytes(units), swapped);
    assert_eq!(utf16_from_bytes(&big, Order::Little), Some(swapped));
    let mut repaired = units.to_vec();
    assert_eq!(utf16_repair_in_place(&mut repaired), faults);
    assert_eq!(repaired, utf16_repair(units));
    let mut buffer = [0; 9];
    let part = utf16_to_utf8_part(units, &mut buffer);
    let text = String::from_utf16(&units[..part.read]).expect("what was read is text");
    assert_eq!(&buffer[..part.written], text.as_bytes());
    let is_fault = utf16_first_fault(units) == Some(part.read);
    assert!(part.read == units.len() || is_fault || part.written + 4 > buffer.len());
    let offset = numbers.below(units.len() as u32 + 2) as usize;
    let cut = utf16_floor_char_boundary(units, offset);
    assert!(cut <= offset && offset.min(units.len()) - cut <= 1);
    let pairs = |units: &[u16]| {
        char::decode_utf16(units.iter().copied())
            .flatten()
            .filter(|c| *c > '\u{ffff}')
            .count()
    };
    assert_eq!(pairs(&units[..cut]) + pairs(&units[cut..]), pairs(units));
}

#[test]
fn wide_units() {
    let units = [0x41, 0x1_f600, 0xd800, 0x11_0000];
    assert_eq!(utf32_fault_count(&units), 2);
    assert!(utf32_is_ascii(&units[..1]) && !utf32_is_ascii(&units));
    assert_eq!(
        utf32_to_utf16_lossy(&units, Lossy::Run),
        [0x41, 0xd83d, 0xde00, 0xfffd]
    );
    assert_eq!(utf32_to_bytes(&units[..1], Order::Big), [0, 0, 0, 0x41]);
    assert_eq!(
        utf32_from_bytes(&[0x41, 0, 0, 0], Order::Little),
        Some(vec![0x41])
    );
    assert_eq!(utf32_from_bytes(&[0; 6], Order::Little), None);
    assert_eq!(utf32_swap_bytes(&units[..1]), [0x4100_0000]);
    let mut repaired = units;
    assert_eq!(utf32_repair_in_place(&mut repaired), 2);
    assert_eq!(repaired, [0x41, 0x1_f600, 0xfffd, 0xfffd]);
    let mut buffer = [0; 4];
    assert_eq!(
        utf32_to_utf8_part(&units, &mut buffer),
        Part {
            read: 1,
            written: 1
        }
    );
    assert_eq!(
        utf32_to_utf16_part(&units, &mut [0; 4]),
        Part {
            read: 2,
            written: 3
        }
    );
    assert_eq!(
        utf8_to_utf16_part(b"ab\xff", &mut [0; 4]),
        Part {
            read: 2,
            written: 2
        }
    );
    assert_eq!(
        utf8_to_utf32_part(b"abc", &mut [0; 2]),
        Part {
            read: 2,
            written: 2
        }
    );
    assert_eq!(
        utf16_to_utf32_part(&[0xd83d, 0xde00], &mut [0; 1]),
        Part {
            read: 2,
            written: 1
        }
    );
    assert!(utf8_is_ascii(b"ab") && !utf8_is_ascii(b"\xff"));
}

#[cfg(feature = "std")]
#[test]
fn adapters() {
    use std::io::{ErrorKind, Read, Write};

    let text = "a\u{e9}\u{20ac}\u{1f600}".repeat(5000);
    for from in SCHEMES {
        for to in SCHEMES {
            let (bytes, wanted) = (in_scheme(&text, from), in_scheme(&text, to));
            let mut given = Vec::new();
            let converter = Converter::new(from, to, None, false);
            ConvertReader::new(&bytes[..], converter)
                .read_to_end(&mut given)
                .unwrap();
            assert_eq!(given, wanted);
            let mut writer = ConvertWriter::new(Vec::new(), converter);
            writer.write_all(&bytes).unwrap();
            assert_eq!(writer.finish().unwrap(), wanted);
        }
    }
    let converter = Converter::new(Scheme::Utf16Le, Scheme::Utf8, None, false);
    let mut given = Vec::new();
    let mut reader = ConvertReader::new(&b"a\0\0\xd8b\0"[..], converter);
    let error = reader.read_to_end(&mut given).unwrap_err();
    assert_eq!(
        (error.kind(), &given[..]),
        (ErrorKind::InvalidData, &b"a"[..])
    );
    let mut reader = ConvertReader::new(&b"a\0b"[..], converter);
    assert_eq!(
        reader.read_to_end(&mut given).unwrap_err().kind(),
        ErrorKind::InvalidData
    );
    let mut writer = ConvertWriter::new(Vec::new(), converter);
    writer.write_all(b"a\0b").unwrap();
    assert_eq!(writer.finish().unwrap_err().kind(), ErrorKind::InvalidData);
}

#[test]
fn texts() {
    let mut numbers = Numbers::new();
    for _ in 0..asked("REFERENCE_COUNT", 100_000) {
        let text = numbers.text();
        check_utf8(&numbers.broken(text.clone().into_bytes(), |wild| wild as u8));
        let units = numbers.broken(utf16_of(&text), |wild| wild as u16);
        check_utf16(&units, &mut numbers);
        check_units16(&units, &mut numbers);
        check_pieces(&text, &mut numbers);
        let bytes = numbers.broken(text.clone().into_bytes(), |wild| wild as u8);
        check_faults_in_pieces(&bytes, &mut numbers);
        let wide = numbers.broken(utf32_of(&text), |wild| wild);
        check_utf32(&wide, &mut numbers);
    }
}
