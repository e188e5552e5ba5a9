//! Compares the results of the static library and of its peers with std's, on random units.

use crate::conversions::{
    Conversion, REPAIR, TO_UTF16, TO_UTF16_LOSSY, TO_UTF32, TO_UTF8, TO_UTF8_LOSSY, UTF16_TO_UTF32, UTF32_TO_UTF16, UTF32_TO_UTF8,
};
use crate::policies::{TO_UTF16_BY, TO_UTF32_BY, UTF16_TO_UTF8_BY, UTF32_TO_UTF8_BY};
use crate::texts::Random;
use std::fmt::UpperHex;

/// Elements on both sides of a buffer, which no call may write.
const MARGIN: usize = 80;
/// The first and last units that begin characters of one, two and three bytes, surrogates, and the limits of all units.
const EDGES: [u16; 14] = [0, 0x7f, 0x80, 0x7ff, 0x800, 0xd7ff, 0xd800, 0xdbff, 0xdc00, 0xdfff, 0xe000, 0xfffd, 0xffff, 0x61];

struct Counts {
    agreeing: u64,
    differing: u64,
}

impl Counts {
    /// Counts a result, and prints the first ones that differ.
    fn add(&mut self, agrees: bool, what: &str, input: &[impl UpperHex]) {
        if agrees {
            self.agreeing += 1;
            return;
        }
        self.differing += 1;
        if self.differing <= 20 {
            let words: Vec<String> = input.iter().take(200).map(|element| format!("{element:X}")).collect();
            println!("{what}, {} elements: {}", input.len(), words.join(" "));
        }
    }
}

/// Returns any units, in one of several mixtures.
fn any_units(random: &mut Random) -> Vec<u16> {
    let limit = [25, 70, 200, 9_000][[0, 0, 1, 1, 1, 2, 2, 2, 2, 3][random.below(10)]];
    let (length, mixture) = (random.below(limit), random.below(8));
    let mut units = Vec::with_capacity(length + 1);
    while units.len() < length {
        let high = 0xd800 + random.below(0x400) as u16;
        let low = 0xdc00 + random.below(0x400) as u16;
        match (mixture, random.below(8)) {
            (0, _) | (1, 0..=5) => units.push(random.below(0x80) as u16),
            (1, _) | (2, 0..=5) => units.push(random.below(0x800) as u16),
            (3, 0..=5) => units.push(0x800 + random.below(0xd000) as u16),
            (4, _) | (5, 0..=6) | (6, 0..=3) => units.extend([high, low]),
            (6, _) => units.push(0xd800 + random.below(0x800) as u16),
            (7, _) => units.push(random.below(0x1_0000) as u16),
            (2 | 3, 6) => units.push(random.below(0x1_0000) as u16),
            _ => units.push(EDGES[random.below(EDGES.len())]),
        }
    }
    units
}

/// Returns buffer sizes of no elements, of too few, of exactly enough and of more than enough.
fn capacities(needed: usize, random: &mut Random) -> [usize; 5] {
    [0, random.below(needed + 1), needed.saturating_sub(1 + random.below(8)), needed, needed + 1 + random.below(MARGIN)]
}

/// Returns whether the library returns the same as std, in the middle of a buffer of random elements. Everything after
/// the result must be unchanged, and all of the buffer for a fault. If the buffer is too short, everything around it
/// must be unchanged.
fn results_alike<From, To: Copy + Eq + TryFrom<usize>>(
    conversion: &Conversion<From, To>,
    input: &[From],
    wanted: Option<&[To]>,
    capacity: usize,
    random: &mut Random,
) -> bool {
    let old: Vec<To> = (0..capacity + 2 * MARGIN).filter_map(|_| To::try_from(random.below(0x100)).ok()).collect();
    let mut new = old.clone();
    let (start, end) = (MARGIN, MARGIN + capacity);
    let needed = (conversion.library)(input, &mut new[start..end]);
    let Some(wanted) = wanted else {
        return needed == usize::MAX && new == old;
    };
    let written = if wanted.len() <= capacity { start + wanted.len() } else { end };
    needed == wanted.len()
        && new[..start] == old[..start]
        && new[written..] == old[written..]
        && (wanted.len() > capacity || new[start..written] == *wanted)
}

/// Compares a conversion under each policy, on the same input.
fn compare_all<From: UpperHex, To: Copy + Default + Eq + TryFrom<usize>>(
    conversions: &[Conversion<From, To>],
    input: &[From],
    random: &mut Random,
    counts: &mut Counts,
) {
    for conversion in conversions {
        compare_one(conversion, input, random, counts);
    }
}

fn compare_one<From: UpperHex, To: Copy + Default + Eq + TryFrom<usize>>(
    conversion: &Conversion<From, To>,
    input: &[From],
    random: &mut Random,
    counts: &mut Counts,
) {
    let wanted = (conversion.std)(input, &mut []);
    // docs/DIFFERENCES.md describes where the Rust crate's results differ.
    for (name, peer) in conversion.others {
        let mut ample = vec![To::default(); conversion.ample_capacity(input.len())];
        counts.add(peer(input, &mut ample) == wanted, &format!("{} by {name}", conversion.name), input);
    }
    let wanted = wanted.as_deref();
    for capacity in capacities(wanted.map_or(input.len(), <[To]>::len), random) {
        let agrees = results_alike(conversion, input, wanted, capacity, random);
        counts.add(agrees, &format!("{} into a buffer of {capacity}", conversion.name), input);
    }
}

/// Returns the lossy UTF-8 of the units. In every second text some bytes are replaced, and in some of those the last
/// character is cut off.
fn any_bytes(units: &[u16], random: &mut Random) -> Vec<u8> {
    let mut bytes = String::from_utf16_lossy(units).into_bytes();
    if bytes.is_empty() || random.below(2) == 0 {
        return bytes;
    }
    for _ in 0..[1, 1, 2, 1 + bytes.len() / 8][random.below(4)] {
        let offset = random.below(bytes.len());
        bytes[offset] = random.below(0x100) as u8;
    }
    if random.below(4) == 0 {
        bytes.truncate(bytes.len() - 1 - random.below(bytes.len().min(4)));
    }
    bytes
}

/// Returns the characters of the units, lossily. In every second text one of them is any unit.
fn any_scalars(units: &[u16], random: &mut Random) -> Vec<u32> {
    let mut scalars: Vec<u32> = String::from_utf16_lossy(units).chars().map(u32::from).collect();
    if !scalars.is_empty() && random.below(2) == 0 {
        let index = random.below(scalars.len());
        scalars[index] = [0xd7ff, 0xd800, 0xdfff, 0xe000, 0xffff, 0x1_0000, 0x10_ffff, 0x11_0000, u32::MAX][random.below(9)];
    }
    scalars
}

/// Compares this many inputs, and returns whether none differs.
pub fn compare(seed: u64, count: u64) -> bool {
    let mut random = Random::new(seed);
    let mut counts = Counts { agreeing: 0, differing: 0 };
    for _ in 0..count {
        let units = any_units(&mut random);
        compare_one(&TO_UTF8, &units, &mut random, &mut counts);
        compare_one(&TO_UTF8_LOSSY, &units, &mut random, &mut counts);
        compare_one(&REPAIR, &units, &mut random, &mut counts);
        let bytes = any_bytes(&units, &mut random);
        compare_one(&TO_UTF16, &bytes, &mut random, &mut counts);
        compare_one(&TO_UTF16_LOSSY, &bytes, &mut random, &mut counts);
        compare_one(&TO_UTF32, &bytes, &mut random, &mut counts);
        let scalars = any_scalars(&units, &mut random);
        compare_one(&UTF32_TO_UTF8, &scalars, &mut random, &mut counts);
        compare_one(&UTF32_TO_UTF16, &scalars, &mut random, &mut counts);
        compare_one(&UTF16_TO_UTF32, &units, &mut random, &mut counts);
        compare_all(&TO_UTF16_BY, &bytes, &mut random, &mut counts);
        compare_all(&TO_UTF32_BY, &bytes, &mut random, &mut counts);
        compare_all(&UTF16_TO_UTF8_BY, &units, &mut random, &mut counts);
        compare_all(&UTF32_TO_UTF8_BY, &scalars, &mut random, &mut counts);
    }
    println!("seed {seed}: {} answers agree, {} differ", counts.agreeing, counts.differing);
    counts.differing == 0
}
