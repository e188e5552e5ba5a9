//! Texts in UTF-16 for the timings, and a random number generator.

/// Pseudo-random numbers, the same for a seed (Marsaglia's xorshift).
pub struct Random(u64);

impl Random {
    pub fn new(seed: u64) -> Self {
        // From 0 the generator makes nothing but 0.
        Self(seed.wrapping_mul(0x9e37_79b9_7f4a_7c15) | 1)
    }

    pub fn below(&mut self, limit: usize) -> usize {
        self.0 ^= self.0 << 13;
        self.0 ^= self.0 >> 7;
        self.0 ^= self.0 << 17;
        (self.0 >> 16) as usize % limit
    }

    /// Returns a character of a block of `count`, from the first on.
    pub fn char_of(&mut self, first: u32, count: usize) -> char {
        char::from_u32(first + self.below(count) as u32).expect("a block without surrogates")
    }

    fn letter(&mut self) -> char {
        self.char_of(0x61, 26)
    }

    fn chinese(&mut self) -> char {
        self.char_of(0x4e00, 20_000)
    }

    fn emoji(&mut self) -> char {
        self.char_of(0x1f600, 64)
    }
}

/// Returns a text of this many units, of characters that are made one by one. If only one unit is left at the end, it
/// is a letter.
fn text(length: usize, mut next: impl FnMut() -> char) -> Vec<u16> {
    let mut units = Vec::with_capacity(length);
    while units.len() + 2 <= length {
        units.extend_from_slice(next().encode_utf16(&mut [0; 2]));
    }
    units.resize(length, 0x61);
    units
}

pub fn ascii(length: usize) -> Vec<u16> {
    let mut random = Random::new(1);
    text(length, || random.char_of(0x20, 95))
}

/// Returns words of two to ten letters: half of the words are Chinese, the others have a sixth of their letters beyond
/// ASCII.
pub fn european_and_chinese(length: usize) -> Vec<u16> {
    let mut random = Random::new(2);
    let (mut left, mut is_chinese) = (0, false);
    text(length, || {
        if left == 0 {
            left = 2 + random.below(9);
            is_chinese = random.below(2) == 0;
            return ' ';
        }
        left -= 1;
        match (is_chinese, random.below(6)) {
            (true, _) => random.chinese(),
            (false, 0) => random.char_of(0xc0, 0x130),
            (false, _) => random.letter(),
        }
    })
}

pub fn chinese(length: usize) -> Vec<u16> {
    let mut random = Random::new(6);
    text(length, || random.chinese())
}

/// Returns Cyrillic letters. About every sixth character is a space.
pub fn cyrillic(length: usize) -> Vec<u16> {
    let mut random = Random::new(3);
    text(length, || if random.below(6) == 0 { ' ' } else { random.char_of(0x410, 64) })
}

/// Returns a text in which every twentieth character is an emoji, and a fourth of the others are Chinese.
pub fn emoji_of_20(length: usize) -> Vec<u16> {
    let mut random = Random::new(4);
    let mut index = 0;
    text(length, || {
        index += 1;
        match (index % 20, random.below(4)) {
            (0, _) => random.emoji(),
            (_, 0) => random.chinese(),
            _ => random.letter(),
        }
    })
}

pub fn emoji_alone(length: usize) -> Vec<u16> {
    let mut random = Random::new(5);
    text(length, || random.emoji())
}

/// Replaces every tenth unit of the text by a low surrogate, which may also leave the first half of a pair.
pub fn with_faults(mut units: Vec<u16>) -> Vec<u16> {
    units.iter_mut().step_by(10).for_each(|unit| *unit = 0xdc00);
    units
}

/// Returns a text of this many bytes in UTF-16, in which one in `every` characters is an emoji, and every fourth of the
/// others Chinese.
pub fn mixed(bytes: usize, every: usize) -> Vec<u16> {
    let mut index = 0;
    text(bytes / 2, || {
        let k = index as u32;
        index += 1;
        let c = if index % every == 0 {
            0x1f600 + k % 64
        } else if k % 4 == 0 && every < usize::MAX {
            0x4e00 + k % 1000
        } else {
            97 + k % 26
        };
        char::from_u32(c).expect("no surrogate")
    })
}
