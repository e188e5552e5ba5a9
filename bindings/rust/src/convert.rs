//! Conversions between encoding schemes, piece by piece.

use crate::raw::WideConverter;
use crate::{calls, Lossy, Scheme};
use alloc::vec::Vec;
use core::error::Error;
use core::fmt;

/// A fault at which a conversion stopped.
#[derive(Clone, Copy, Debug, PartialEq, Eq)]
pub struct TextFault {
    /// Counts the bytes of the text before it, also those of a byte order mark.
    pub offset: u64,
    /// Counts the items before it, characters and faults.
    pub item: u64,
    /// Is the ill-formed unit, or in UTF-8 its first byte or its surrogate.
    pub unit: u32,
}

impl fmt::Display for TextFault {
    fn fmt(&self, f: &mut fmt::Formatter<'_>) -> fmt::Result {
        write!(
            f,
            "ill-formed unit {:x} at byte {} (item {})",
            self.unit, self.offset, self.item
        )
    }
}

impl Error for TextFault {}

/// Says why a converter stopped.
#[derive(Clone, Copy, Debug, PartialEq, Eq)]
pub enum End {
    /// All input was read.
    NeedsInput,
    /// Fewer than eight bytes of the output are left.
    NoSpace,
    /// A fault was read, for which there is no policy. The converter goes on after it.
    Fault(TextFault),
}

/// Says how far a converter came.
#[derive(Clone, Copy, Debug, PartialEq, Eq)]
pub struct Progress {
    /// Counts the bytes of the input that were read.
    pub read: usize,
    /// Counts the bytes that were written.
    pub written: usize,
    /// Says why it stopped.
    pub end: End,
}

/// Converts a text from one encoding scheme to another, in pieces of any lengths. What it writes does not depend on
/// them. Its size is constant.
///
/// # Examples
///
/// ```
/// use widestring_proved::{Converter, Scheme};
///
/// let mut text = Vec::new();
/// let mut converter = Converter::new(Scheme::Utf16, Scheme::Utf8, None, false);
/// converter.convert(b"\xfe\xff\0H\xd8\x3d", &mut text, false)?;
/// converter.convert(b"\xde\0", &mut text, true)?;
/// assert_eq!(text, "H\u{1f600}".as_bytes());
/// assert_eq!((converter.bytes(), converter.items()), (8, 2));
/// # Ok::<(), widestring_proved::TextFault>(())
/// ```
#[derive(Clone, Copy, Debug)]
pub struct Converter {
    state: WideConverter,
}

impl Converter {
    /// Creates a converter of a text that begins with the next input. Under a policy faults are replaced; without one it
    /// stops at each. With `bom`, a byte order mark is written before the text.
    ///
    /// # Panics
    ///
    /// If the linked library is [not this crate's](crate#panics).
    #[must_use]
    pub fn new(from: Scheme, to: Scheme, policy: Option<Lossy>, bom: bool) -> Self {
        Self {
            state: calls::convert_start(from, to, policy, bom),
        }
    }

    /// Reads the next bytes of the text, which are the last ones if `is_last` is true, and writes the text of the
    /// characters that they complete at the beginning of `output`. The bytes after those written may be overwritten.
    ///
    /// # Examples
    ///
    /// ```
    /// use widestring_proved::{Converter, End, Scheme};
    ///
    /// let mut output = [0; 16];
    /// let mut converter = Converter::new(Scheme::Utf8, Scheme::Utf16Be, None, false);
    /// let progress = converter.push(b"H\xffi", true, &mut output);
    /// assert_eq!((progress.read, progress.written), (2, 2));
    /// assert!(matches!(progress.end, End::Fault(fault) if fault.offset == 1));
    /// ```
    pub fn push(&mut self, input: &[u8], is_last: bool, output: &mut [u8]) -> Progress {
        let part = calls::convert_push(&mut self.state, input, is_last, output);
        Progress {
            read: part.read,
            written: part.written,
            end: self.end(),
        }
    }

    fn end(&self) -> End {
        match self.state.end {
            0 => End::NeedsInput,
            1 => End::NoSpace,
            _ => End::Fault(TextFault {
                offset: self.state.fault_offset,
                item: self.state.fault_item,
                unit: self.state.fault_unit,
            }),
        }
    }

    /// Reads the next bytes of the text, which are the last ones if `is_last` is true, and appends what is written. A
    /// text that ends within a unit has [`Converter::kept`] bytes left.
    ///
    /// # Errors
    ///
    /// The first fault, if there is no policy. The text before it was appended, and the input after it is lost.
    pub fn convert(
        &mut self,
        input: &[u8],
        output: &mut Vec<u8>,
        is_last: bool,
    ) -> Result<(), TextFault> {
        let mut buffer = [0; 4096];
        let mut rest = input;
        loop {
            let progress = self.push(rest, is_last, &mut buffer);
            output.extend_from_slice(&buffer[..progress.written]);
            rest = &rest[progress.read..];
            match progress.end {
                End::NeedsInput => return Ok(()),
                End::NoSpace => {}
                End::Fault(fault) => return Err(fault),
            }
        }
    }

    /// Counts the bytes of the text that were converted.
    #[must_use]
    pub fn bytes(&self) -> u64 {
        self.state.bytes
    }

    /// Counts the items, characters and faults, that these bytes are.
    #[must_use]
    pub fn items(&self) -> u64 {
        self.state.items
    }

    /// Counts the items that are faults, which the policy replaced.
    #[must_use]
    pub fn faults(&self) -> u64 {
        self.state.faults
    }

    /// Counts the bytes that were read and are no item so far, at most four.
    #[must_use]
    pub fn kept(&self) -> usize {
        self.state.kept
    }
}

#[cfg(feature = "std")]
mod adapters {
    extern crate std;

    use super::{Converter, End};
    use alloc::boxed::Box;
    use alloc::vec;
    use std::io::{self, Read, Write};

    /// The length of what is read at once, and of the space for its text, in bytes.
    const CHUNK: usize = 8192;
    const SPACE: usize = 4 * CHUNK + 128;

    fn part_of_unit() -> io::Error {
        io::Error::new(io::ErrorKind::InvalidData, "the text ends within a unit")
    }

    /// Reads a text in one encoding scheme from a reader, and gives it in another one.
    ///
    /// # Examples
    ///
    /// ```
    /// use std::io::Read;
    /// use widestring_proved::{ConvertReader, Converter, Scheme};
    ///
    /// let bytes: &[u8] = b"\xff\xfeH\0i\0";
    /// let converter = Converter::new(Scheme::Utf16, Scheme::Utf8, None, false);
    /// let mut text = String::new();
    /// ConvertReader::new(bytes, converter).read_to_string(&mut text)?;
    /// assert_eq!(text, "Hi");
    /// # Ok::<(), std::io::Error>(())
    /// ```
    #[derive(Debug)]
    pub struct ConvertReader<R> {
        reader: R,
        converter: Converter,
        input: Box<[u8]>,
        // Which bytes of the input were not converted, and whether they are the last ones.
        from: usize,
        to: usize,
        is_last: bool,
        output: Box<[u8]>,
        // Which bytes of the output were not given.
        given: usize,
        written: usize,
        // What is wrong after these bytes, and whether nothing follows.
        error: Option<io::Error>,
        is_done: bool,
    }

    impl<R: Read> ConvertReader<R> {
        /// Creates a reader of the text that the other reader gives, by a converter that was not used.
        pub fn new(reader: R, converter: Converter) -> Self {
            Self {
                reader,
                converter,
                input: vec![0; CHUNK].into_boxed_slice(),
                from: 0,
                to: 0,
                is_last: false,
                output: vec![0; SPACE].into_boxed_slice(),
                given: 0,
                written: 0,
                error: None,
                is_done: false,
            }
        }

        /// Returns the converter, which says how far the text was read.
        pub fn converter(&self) -> &Converter {
            &self.converter
        }

        /// Converts what was read, and reads more if that was all.
        fn fill(&mut self) -> io::Result<()> {
            if self.from == self.to && !self.is_last {
                self.to = self.reader.read(&mut self.input)?;
                self.from = 0;
                self.is_last = self.to == 0;
            }
            let input = &self.input[self.from..self.to];
            let progress = self.converter.push(input, self.is_last, &mut self.output);
            self.from += progress.read;
            self.given = 0;
            self.written = progress.written;
            if let End::Fault(fault) = progress.end {
                self.error = Some(io::Error::new(io::ErrorKind::InvalidData, fault));
            }
            if progress.end == End::NeedsInput && self.is_last {
                self.is_done = true;
                self.error = (self.converter.kept() > 0).then(part_of_unit);
            }
            Ok(())
        }
    }

    impl<R: Read> Read for ConvertReader<R> {
        /// Reads some of the text. A fault without a policy, and a text that ends within a unit, are errors of the kind
        /// `InvalidData`; the text before them is given first.
        fn read(&mut self, buffer: &mut [u8]) -> io::Result<usize> {
            while self.given == self.written && !buffer.is_empty() {
                if let Some(error) = self.error.take() {
                    return Err(error);
                }
                if self.is_done {
                    return Ok(0);
                }
                self.fill()?;
            }
            let length = buffer.len().min(self.written - self.given);
            buffer[..length].copy_from_slice(&self.output[self.given..self.given + length]);
            self.given += length;
            Ok(length)
        }
    }

    /// Takes a text in one encoding scheme, and writes it in another one to a writer. Call
    /// [`ConvertWriter::finish`] at the end: what the text ends with is not written before.
    ///
    /// # Examples
    ///
    /// ```
    /// use std::io::Write;
    /// use widestring_proved::{ConvertWriter, Converter, Scheme};
    ///
    /// let converter = Converter::new(Scheme::Utf8, Scheme::Utf16Le, None, true);
    /// let mut writer = ConvertWriter::new(Vec::new(), converter);
    /// writer.write_all("Hi".as_bytes())?;
    /// assert_eq!(writer.finish()?, b"\xff\xfeH\0i\0");
    /// # Ok::<(), std::io::Error>(())
    /// ```
    #[derive(Debug)]
    pub struct ConvertWriter<W> {
        writer: W,
        converter: Converter,
        output: Box<[u8]>,
    }

    impl<W: Write> ConvertWriter<W> {
        /// Creates a writer that writes to another one, by a converter that was not used.
        pub fn new(writer: W, converter: Converter) -> Self {
            Self {
                writer,
                converter,
                output: vec![0; SPACE].into_boxed_slice(),
            }
        }

        /// Returns the converter, which says how far the text was written.
        pub fn converter(&self) -> &Converter {
            &self.converter
        }

        /// Ends the text, and returns the writer, which is not flushed.
        ///
        /// # Errors
        ///
        /// Those of the writer, and of the kind `InvalidData` if the text ends in a fault and there is no policy, or
        /// within a unit.
        pub fn finish(mut self) -> io::Result<W> {
            self.put(&[], true)?;
            if self.converter.kept() > 0 {
                return Err(part_of_unit());
            }
            Ok(self.writer)
        }

        /// Converts bytes and writes all of their text.
        fn put(&mut self, bytes: &[u8], is_last: bool) -> io::Result<()> {
            let mut rest = bytes;
            loop {
                let progress = self.converter.push(rest, is_last, &mut self.output);
                self.writer.write_all(&self.output[..progress.written])?;
                rest = &rest[progress.read..];
                match progress.end {
                    End::NeedsInput => return Ok(()),
                    End::NoSpace => {}
                    End::Fault(fault) => {
                        return Err(io::Error::new(io::ErrorKind::InvalidData, fault));
                    }
                }
            }
        }
    }

    impl<W: Write> Write for ConvertWriter<W> {
        /// Takes at most 8,192 bytes, and writes the text of the characters that they complete. After an error some of it
        /// may have been written.
        fn write(&mut self, bytes: &[u8]) -> io::Result<usize> {
            let taken = &bytes[..bytes.len().min(CHUNK)];
            self.put(taken, false)?;
            Ok(taken.len())
        }

        fn flush(&mut self) -> io::Result<()> {
            self.writer.flush()
        }
    }
}

#[cfg(feature = "std")]
pub use adapters::{ConvertReader, ConvertWriter};
