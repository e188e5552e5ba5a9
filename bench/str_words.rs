//! The words of questions and answers, text of units, and the patterns that std searches for.

use std::cmp::Ordering;
use std::ops::Range;

/// Why a question is not judged.
#[derive(Clone, Copy, Debug)]
pub enum Unjudged {
    IllFormed,
    EmptyNeedle,
    NoCall,
    OtherGroup,
}
pub use Unjudged::{EmptyNeedle, IllFormed, NoCall, OtherGroup};

pub type Answer = Result<String, Unjudged>;

/// A field of an answer that std has no call for.
pub const UNKNOWN: &str = "?";

// ---- units, and words of questions and answers

/// A width of units.
#[derive(Clone, Copy, PartialEq)]
pub enum Width {
    Bits16,
    Bits32,
}
pub use Width::{Bits16, Bits32};

impl Width {
    pub fn text(self, units: &[u32]) -> Answer {
        let text = match self {
            Bits16 => String::from_utf16(&units.iter().map(|&unit| unit_of(unit)).collect::<Vec<u16>>()).ok(),
            Bits32 => units.iter().map(|&unit| char::from_u32(unit)).collect(),
        };
        text.ok_or(IllFormed)
    }

    pub fn units(self, text: &str) -> Vec<u32> {
        match self {
            Bits16 => text.encode_utf16().map(u32::from).collect(),
            Bits32 => text.chars().map(u32::from).collect(),
        }
    }

    pub fn length(self, text: &str) -> usize {
        self.units(text).len()
    }

    pub fn words(self, text: &str) -> String {
        hexes(self.units(text))
    }

    /// Returns how many texts there are, and each of them, as fields.
    pub fn fields(self, texts: &[&str]) -> String {
        let each = texts.iter().map(|text| format!(";{}", self.words(text)));
        format!("{:X}{}", texts.len(), each.collect::<String>())
    }

    pub fn lengths<'t>(self, texts: impl Iterator<Item = &'t str>) -> String {
        hexes(texts.map(|text| self.length(text) as u32))
    }

    /// Returns the offset in bytes of an offset in units. Within a pair it is one that is no boundary, and past the end
    /// it is past the end.
    pub fn byte_offset(self, text: &str, offset: usize) -> usize {
        let mut left = offset;
        for (at, c) in text.char_indices() {
            let length = if self == Bits16 { c.len_utf16() } else { 1 };
            if left < length {
                return at + left;
            }
            left -= length;
        }
        text.len().saturating_add(left)
    }

    /// Returns the range in bytes of two bounds in units, if it is one of the text.
    pub fn byte_range(self, text: &str, bounds: &str) -> Option<Range<usize>> {
        let (start, end) = bounds.split_once(',')?;
        let after = |bound: &str, kind| number(&bound[1..]).checked_add(usize::from(bound.starts_with(kind)));
        let start = if start == "-" { 0 } else { self.byte_offset(text, after(start, 'e')?) };
        let end = if end == "-" { text.len() } else { self.byte_offset(text, after(end, 'i')?) };
        Some(start..end).filter(|range| text.get(range.clone()).is_some())
    }
}

pub fn unit_of(number: u32) -> u16 {
    u16::try_from(number).expect("a unit of 16 bits")
}

/// Returns whether a text has pairs of surrogates in units of this width.
pub fn has_pairs(width: Width, text: &str) -> bool {
    width == Bits16 && text.chars().any(|c| c.len_utf16() == 2)
}

pub fn hexes(numbers: impl IntoIterator<Item = u32>) -> String {
    numbers.into_iter().map(|number| format!("{number:X}")).collect::<Vec<String>>().join(" ")
}

pub fn decided(holds: bool) -> String {
    u8::from(holds).to_string()
}

/// Returns the word of what there may be.
pub fn shown<T>(value: Option<T>, word: impl Fn(T) -> String) -> String {
    value.map_or("-".to_string(), word)
}

pub fn order_word(order: Ordering) -> String {
    ["<", "=", ">"][(order as i8 + 1) as usize].to_string()
}

pub fn number(word: &str) -> usize {
    usize::from_str_radix(word, 16).unwrap_or_else(|_| panic!("no number: {word}"))
}

/// Returns the numbers of a list, in which `61,62*10` is sixteen times the two.
pub fn list(words: &str) -> Vec<u32> {
    let repeated = |word: &str| {
        let (group, times) = word.split_once('*').map_or((word, 1), |(group, times)| (group, number(times)));
        group.split(',').map(|unit| number(unit) as u32).collect::<Vec<u32>>().repeat(times)
    };
    words.split_ascii_whitespace().flat_map(repeated).collect()
}

/// Returns what is before a separator and what is after it.
pub fn cut(words: &str, separator: char) -> (&str, &str) {
    words.split_once(separator).unwrap_or((words, ""))
}

pub fn char_of(word: &str) -> Result<char, Unjudged> {
    char::from_u32(number(word) as u32).ok_or(IllFormed)
}

pub fn chars_of(words: &str) -> String {
    Bits32.text(&list(words)).expect("characters")
}

pub fn char_word(c: char) -> String {
    format!("{:X}", u32::from(c))
}

/// Returns the words of what calls from both ends of an iterator return.
pub fn taken<T>(mut items: impl DoubleEndedIterator<Item = T>, calls: &str, word: impl Fn(T) -> String) -> Vec<String> {
    let item_at = |call| if call == 'F' { items.next() } else { items.next_back() };
    calls.chars().map(item_at).map(|item| shown(item, &word)).collect()
}

/// A list of units and a question about it.
pub struct Question<'q> {
    pub width: Width,
    pub list: &'q [u32],
    pub asked: &'q str,
}

impl<'q> Question<'q> {
    pub fn text(&self) -> Answer {
        self.width.text(self.list)
    }

    /// Returns the view that the question is about, and the rest of the question.
    pub fn view(&self) -> Result<(View, &'q str), Unjudged> {
        let (letter, rest) = cut(self.asked, ' ');
        let is_contents = letter == "c";
        let own = if is_contents { self.list.strip_suffix(&[0]).expect("a NUL") } else { self.list };
        Ok((View { width: self.width, text: self.width.text(own)?, is_contents }, rest))
    }
}

/// The text of a view. That of a C string is its contents.
pub struct View {
    pub width: Width,
    pub text: String,
    pub is_contents: bool,
}

impl View {
    /// Returns the text of other units of the same kind.
    pub fn other(&self, words: &str) -> Answer {
        let units = list(words);
        self.width.text(if self.is_contents { units.strip_suffix(&[0]).expect("a NUL") } else { &units })
    }

    pub fn separator(&self, letter: &str, words: &str) -> Result<Separator, Unjudged> {
        match letter {
            "v" => Some(self.other(words)?).filter(|text| !text.is_empty()).map(Separator::Text).ok_or(EmptyNeedle),
            _ => Ok(Separator::Of(set(letter, words)?)),
        }
    }
}

// ---- patterns

/// Characters that str looks for.
pub enum Set {
    One(char),
    Some(Vec<char>),
    Test(fn(char) -> bool),
}

pub enum Separator {
    Text(String),
    Of(Set),
}

pub fn set(letter: &str, words: &str) -> Result<Set, Unjudged> {
    match letter {
        "c" | "o" => Ok(Set::One(char_of(words)?)),
        "s" => Ok(Set::Some(chars_of(words).chars().collect())),
        "w" => Ok(Set::Test(char::is_whitespace)),
        "a" => Ok(Set::Test(|c| c.is_ascii_whitespace())),
        _ => Err(NoCall),
    }
}

/// Calls std with the pattern of a set.
macro_rules! with_set {
    ($set:expr, $pattern:ident, $call:expr) => {
        match $set {
            Set::One(c) => {
                let $pattern = *c;
                $call
            }
            Set::Some(chars) => {
                let $pattern = chars.as_slice();
                $call
            }
            Set::Test(test) => {
                let $pattern = *test;
                $call
            }
        }
    };
}

/// Calls std with the pattern of a separator.
macro_rules! with_separator {
    ($separator:expr, $pattern:ident, $call:expr) => {
        match $separator {
            Separator::Text(text) => {
                let $pattern = text.as_str();
                $call
            }
            Separator::Of(set) => with_set!(set, $pattern, $call),
        }
    };
}

pub(crate) use {with_separator, with_set};
