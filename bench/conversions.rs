//! The conversions of the static library, and those of its peers.

use std::borrow::Cow;
use widestring::{U16Str, U32Str, Utf16String, Utf32String};

extern "C" {
    fn wide_utf16_to_utf8(units: *const u16, length: usize, text: *mut u8, capacity: usize) -> usize;
    fn wide_utf16_to_utf8_lossy(units: *const u16, length: usize, text: *mut u8, capacity: usize) -> usize;
    fn wide_utf8_to_utf16(text: *const u8, length: usize, units: *mut u16, capacity: usize) -> usize;
    fn wide_utf8_to_utf16_lossy(text: *const u8, length: usize, units: *mut u16, capacity: usize) -> usize;
    fn wide_utf8_to_utf32(text: *const u8, length: usize, units: *mut u32, capacity: usize) -> usize;
    fn wide_utf32_to_utf8(units: *const u32, length: usize, text: *mut u8, capacity: usize) -> usize;
    fn wide_utf16_to_utf32(units: *const u16, length: usize, scalars: *mut u32, capacity: usize) -> usize;
    fn wide_utf32_to_utf16(scalars: *const u32, length: usize, units: *mut u16, capacity: usize) -> usize;
    fn wide_utf16_repair(units: *const u16, length: usize, repaired: *mut u16, capacity: usize) -> usize;
}

/// A function of the library: it writes into the buffer, and returns the needed length, or the greatest number for a
/// fault.
pub type Library<From, To> = fn(&[From], &mut [To]) -> usize;

/// A function of a peer: its result is in the buffer, which is large enough, or in memory of its own. It returns `None`
/// for a fault.
pub type Peer<From, To> = for<'a> fn(&[From], &'a mut [To]) -> Option<Cow<'a, [To]>>;

/// A conversion that several libraries have.
pub struct Conversion<From: 'static, To: Clone + 'static> {
    pub name: &'static str,
    pub library: Library<From, To>,
    pub rust_crate: Peer<From, To>,
    /// The conversion of std, which is also the reference for the others' results.
    pub std: Peer<From, To>,
    /// The conversions of other available libraries, with their names.
    pub others: &'static [(&'static str, Peer<From, To>)],
    /// How many elements a result has at most for each element of the input.
    pub growth: usize,
}

impl<From, To: Clone> Conversion<From, To> {
    /// Returns a buffer size that suffices for each peer.
    pub fn ample_capacity(&self, length: usize) -> usize {
        self.growth * length + 1
    }

    /// Returns all peers, with their names.
    pub fn peers(&self) -> impl Iterator<Item = (&'static str, Peer<From, To>)> {
        let always = [("Rust crate", self.rust_crate), ("std", self.std)];
        always.into_iter().chain(self.others.iter().copied())
    }
}

pub const TO_UTF8: Conversion<u16, u8> = Conversion {
    name: "UTF-16 to UTF-8",
    // In this and the other conversions, each slice is memory of its length that may be read or written.
    library: |units, text| unsafe { wide_utf16_to_utf8(units.as_ptr(), units.len(), text.as_mut_ptr(), text.len()) },
    rust_crate: |units, _| Some(Cow::Owned(U16Str::from_slice(units).to_string().ok()?.into_bytes())),
    std: |units, _| Some(Cow::Owned(String::from_utf16(units).ok()?.into_bytes())),
    others: &[
        ("decode_utf16", |units, _| {
            let text: Result<String, _> = char::decode_utf16(units.iter().copied()).collect();
            Some(Cow::Owned(text.ok()?.into_bytes()))
        }),
        #[cfg(encoding_rs)]
        ("encoding_rs", encoding::to_utf8),
        #[cfg(icu)]
        ("ICU", icu::to_utf8),
    ],
    growth: 3,
};

pub const TO_UTF8_LOSSY: Conversion<u16, u8> = Conversion {
    name: "UTF-16 to UTF-8, lossy",
    library: |units, text| unsafe { wide_utf16_to_utf8_lossy(units.as_ptr(), units.len(), text.as_mut_ptr(), text.len()) },
    rust_crate: |units, _| Some(Cow::Owned(U16Str::from_slice(units).to_string_lossy().into_bytes())),
    std: |units, _| Some(Cow::Owned(String::from_utf16_lossy(units).into_bytes())),
    others: &[
        ("decode_utf16", |units, _| {
            let chars = char::decode_utf16(units.iter().copied());
            let text: String = chars.map(|c| c.unwrap_or(char::REPLACEMENT_CHARACTER)).collect();
            Some(Cow::Owned(text.into_bytes()))
        }),
        #[cfg(encoding_rs)]
        ("encoding_rs", encoding::to_utf8_lossy),
        #[cfg(icu)]
        ("ICU", icu::to_utf8_lossy),
    ],
    growth: 3,
};

pub const TO_UTF16: Conversion<u8, u16> = Conversion {
    name: "UTF-8 to UTF-16",
    library: |text, units| unsafe { wide_utf8_to_utf16(text.as_ptr(), text.len(), units.as_mut_ptr(), units.len()) },
    rust_crate: |text, _| Some(Cow::Owned(Utf16String::from_str(std::str::from_utf8(text).ok()?).into_vec())),
    std: |text, _| Some(Cow::Owned(std::str::from_utf8(text).ok()?.encode_utf16().collect())),
    others: &[
        #[cfg(encoding_rs)]
        ("encoding_rs", encoding::to_utf16),
        #[cfg(icu)]
        ("ICU", icu::to_utf16),
    ],
    growth: 1,
};

pub const TO_UTF16_LOSSY: Conversion<u8, u16> = Conversion {
    name: "UTF-8 to UTF-16, lossy",
    library: |text, units| unsafe { wide_utf8_to_utf16_lossy(text.as_ptr(), text.len(), units.as_mut_ptr(), units.len()) },
    rust_crate: |text, _| Some(Cow::Owned(Utf16String::from_str(&String::from_utf8_lossy(text)).into_vec())),
    std: |text, _| Some(Cow::Owned(String::from_utf8_lossy(text).encode_utf16().collect())),
    others: &[
        #[cfg(encoding_rs)]
        ("encoding_rs", encoding::to_utf16_lossy),
        #[cfg(icu)]
        ("ICU", icu::to_utf16_lossy),
    ],
    growth: 1,
};

/// Neither encoding_rs nor ICU has functions for UTF-32 of a whole text in memory.
pub const TO_UTF32: Conversion<u8, u32> = Conversion {
    name: "UTF-8 to UTF-32",
    library: |text, units| unsafe { wide_utf8_to_utf32(text.as_ptr(), text.len(), units.as_mut_ptr(), units.len()) },
    rust_crate: |text, _| Some(Cow::Owned(Utf32String::from_str(std::str::from_utf8(text).ok()?).into_vec())),
    std: |text, _| Some(Cow::Owned(std::str::from_utf8(text).ok()?.chars().map(u32::from).collect())),
    others: &[],
    growth: 1,
};

pub const UTF32_TO_UTF8: Conversion<u32, u8> = Conversion {
    name: "UTF-32 to UTF-8",
    library: |units, text| unsafe { wide_utf32_to_utf8(units.as_ptr(), units.len(), text.as_mut_ptr(), text.len()) },
    rust_crate: |units, _| Some(Cow::Owned(U32Str::from_slice(units).to_string().ok()?.into_bytes())),
    std: |units, _| {
        let text: Option<String> = units.iter().map(|unit| char::from_u32(*unit)).collect();
        Some(Cow::Owned(text?.into_bytes()))
    },
    others: &[],
    growth: 4,
};

pub const UTF16_TO_UTF32: Conversion<u16, u32> = Conversion {
    name: "UTF-16 to UTF-32",
    library: |units, scalars| unsafe { wide_utf16_to_utf32(units.as_ptr(), units.len(), scalars.as_mut_ptr(), scalars.len()) },
    rust_crate: |units, _| {
        let text = widestring::Utf16Str::from_slice(units).ok()?;
        Some(Cow::Owned(text.chars().collect::<Utf32String>().into_vec()))
    },
    std: |units, _| {
        let scalars: Result<Vec<u32>, _> = char::decode_utf16(units.iter().copied()).map(|c| c.map(u32::from)).collect();
        Some(Cow::Owned(scalars.ok()?))
    },
    others: &[],
    growth: 1,
};

pub const UTF32_TO_UTF16: Conversion<u32, u16> = Conversion {
    name: "UTF-32 to UTF-16",
    library: |scalars, units| unsafe { wide_utf32_to_utf16(scalars.as_ptr(), scalars.len(), units.as_mut_ptr(), units.len()) },
    rust_crate: |units, _| {
        let text = widestring::Utf32Str::from_slice(units).ok()?;
        Some(Cow::Owned(text.chars().collect::<Utf16String>().into_vec()))
    },
    std: |scalars, _| {
        let mut units = Vec::with_capacity(scalars.len());
        for scalar in scalars {
            units.extend_from_slice(char::from_u32(*scalar)?.encode_utf16(&mut [0; 2]));
        }
        Some(Cow::Owned(units))
    },
    others: &[],
    growth: 2,
};

/// ICU has no function for this conversion.
pub const REPAIR: Conversion<u16, u16> = Conversion {
    name: "repair of UTF-16",
    library: |units, repaired| unsafe { wide_utf16_repair(units.as_ptr(), units.len(), repaired.as_mut_ptr(), repaired.len()) },
    rust_crate: |units, _| Some(Cow::Owned(Utf16String::from_slice_lossy(units).into_owned().into_vec())),
    std: |units, _| {
        let mut repaired = Vec::with_capacity(units.len());
        for c in char::decode_utf16(units.iter().copied()) {
            repaired.extend_from_slice(c.unwrap_or(char::REPLACEMENT_CHARACTER).encode_utf16(&mut [0; 2]));
        }
        Some(Cow::Owned(repaired))
    },
    others: &[
        #[cfg(encoding_rs)]
        ("encoding_rs", encoding::repaired),
    ],
    growth: 1,
};

#[cfg(encoding_rs)]
mod encoding {
    use encoding_rs::mem;
    use std::borrow::Cow;

    /// The one conversion of encoding_rs is lossy, so a strict one validates first.
    pub fn to_utf8<'a>(units: &[u16], text: &'a mut [u8]) -> Option<Cow<'a, [u8]>> {
        if mem::utf16_valid_up_to(units) == units.len() {
            to_utf8_lossy(units, text)
        } else {
            None
        }
    }

    pub fn to_utf8_lossy<'a>(units: &[u16], text: &'a mut [u8]) -> Option<Cow<'a, [u8]>> {
        let length = mem::convert_utf16_to_utf8(units, text);
        Some(Cow::Borrowed(&text[..length]))
    }

    pub fn to_utf16<'a>(text: &[u8], units: &'a mut [u16]) -> Option<Cow<'a, [u16]>> {
        let length = mem::convert_utf8_to_utf16_without_replacement(text, units)?;
        Some(Cow::Borrowed(&units[..length]))
    }

    pub fn to_utf16_lossy<'a>(text: &[u8], units: &'a mut [u16]) -> Option<Cow<'a, [u16]>> {
        let length = mem::convert_utf8_to_utf16(text, units);
        Some(Cow::Borrowed(&units[..length]))
    }

    /// encoding_rs repairs in place, so the units are copied first.
    pub fn repaired<'a>(units: &[u16], buffer: &'a mut [u16]) -> Option<Cow<'a, [u16]>> {
        let repaired = &mut buffer[..units.len()];
        repaired.copy_from_slice(units);
        mem::ensure_utf16_validity(repaired);
        Some(Cow::Borrowed(repaired))
    }
}

#[cfg(icu)]
mod icu {
    use std::borrow::Cow;
    use std::ffi::c_char;

    // ICU's names end with its version, which bench/kernels inserts.
    extern "C" {
        #[link_name = "u_strToUTF8ICU_SUFFIX"]
        fn u_str_to_utf8(text: *mut c_char, capacity: i32, needed: *mut i32, units: *const u16, length: i32, error: *mut i32) -> *mut c_char;
        #[link_name = "u_strToUTF8WithSubICU_SUFFIX"]
        fn u_str_to_utf8_with_sub(
            text: *mut c_char, capacity: i32, needed: *mut i32, units: *const u16, length: i32, sub: i32, subs: *mut i32, error: *mut i32,
        ) -> *mut c_char;
        #[link_name = "u_strFromUTF8ICU_SUFFIX"]
        fn u_str_from_utf8(units: *mut u16, capacity: i32, needed: *mut i32, text: *const c_char, length: i32, error: *mut i32) -> *mut u16;
        #[link_name = "u_strFromUTF8WithSubICU_SUFFIX"]
        fn u_str_from_utf8_with_sub(
            units: *mut u16, capacity: i32, needed: *mut i32, text: *const c_char, length: i32, sub: i32, subs: *mut i32, error: *mut i32,
        ) -> *mut u16;
    }

    /// Returns the prefix of the buffer that a call wrote; the call returns its length and its error by pointers.
    /// Errors below 0 are warnings.
    fn written<To: Clone>(buffer: &mut [To], call: impl FnOnce(*mut To, i32, *mut i32, *mut i32)) -> Option<Cow<'_, [To]>> {
        let (mut length, mut error) = (0, 0);
        call(buffer.as_mut_ptr(), buffer.len() as i32, &mut length, &mut error);
        (error <= 0).then(|| Cow::Borrowed(&buffer[..length as usize]))
    }

    pub fn to_utf8<'a>(units: &[u16], text: &'a mut [u8]) -> Option<Cow<'a, [u8]>> {
        written(text, |text, capacity, needed, error| unsafe {
            u_str_to_utf8(text.cast(), capacity, needed, units.as_ptr(), units.len() as i32, error);
        })
    }

    pub fn to_utf8_lossy<'a>(units: &[u16], text: &'a mut [u8]) -> Option<Cow<'a, [u8]>> {
        let replacement = char::REPLACEMENT_CHARACTER as i32;
        written(text, |text, capacity, needed, error| unsafe {
            u_str_to_utf8_with_sub(text.cast(), capacity, needed, units.as_ptr(), units.len() as i32, replacement, &mut 0, error);
        })
    }

    pub fn to_utf16<'a>(text: &[u8], units: &'a mut [u16]) -> Option<Cow<'a, [u16]>> {
        written(units, |units, capacity, needed, error| unsafe {
            u_str_from_utf8(units, capacity, needed, text.as_ptr().cast(), text.len() as i32, error);
        })
    }
    pub fn to_utf16_lossy<'a>(text: &[u8], units: &'a mut [u16]) -> Option<Cow<'a, [u16]>> {
        let replacement = char::REPLACEMENT_CHARACTER as i32;
        written(units, |units, capacity, needed, error| unsafe {
            u_str_from_utf8_with_sub(units, capacity, needed, text.as_ptr().cast(), text.len() as i32, replacement, &mut 0, error);
        })
    }
}
