//! The error type, and tables of records.
use crate::endian::EndianParse;
use crate::ffi;
use crate::file::Class;
use crate::records::{Calls, Chunk};
use core::fmt;
use core::marker::PhantomData;

/// An error. A pair of numbers is (found, expected), or (start, end) of a range of bytes.
#[derive(Debug)]
pub enum ParseError {
    /// The first four bytes are not those of an ELF file.
    BadMagic([u8; 4]),
    /// The class byte is that of neither class.
    UnsupportedElfClass(u8),
    /// The order byte is that of no byte order which the type of the order has.
    UnsupportedElfEndianness(u8),
    /// Another version of the file, or of a version section.
    UnsupportedVersion((u64, u64)),
    /// No record has this index, or no byte this offset.
    BadOffset(u64),
    /// The string at this offset does not end.
    StringTableMissingNul(u64),
    /// The declared size of an entry is not that of the record.
    BadEntsize((u64, u64)),
    /// The section has another type.
    UnexpectedSectionType((u32, u32)),
    /// The segment has another type.
    UnexpectedSegmentType((u32, u32)),
    /// No call of this crate returns it.
    UnexpectedAlignment(usize),
    /// The bytes do not have this range.
    SliceReadError((usize, usize)),
    /// A sum or a product does not fit.
    IntegerOverflow,
    /// A name is not UTF-8.
    Utf8Error(core::str::Utf8Error),
    /// No call of this crate returns it.
    TryFromSliceError(core::array::TryFromSliceError),
    /// A number of the file does not fit a `usize`.
    TryFromIntError(core::num::TryFromIntError),
    /// The source of an `ElfStream` failed.
    #[cfg(feature = "std")]
    IOError(std::io::Error),
}

impl fmt::Display for ParseError {
    fn fmt(&self, f: &mut fmt::Formatter<'_>) -> fmt::Result {
        let (code, first, second) = match self {
            ParseError::BadMagic(magic) => (1, u32::from_le_bytes(*magic).into(), 0),
            ParseError::UnsupportedElfClass(class) => (2, (*class).into(), 0),
            ParseError::UnsupportedElfEndianness(order) => (3, (*order).into(), 0),
            ParseError::UnsupportedVersion((found, expected)) => (4, *found, *expected),
            ParseError::BadOffset(offset) => (5, *offset, 0),
            ParseError::StringTableMissingNul(offset) => (6, *offset, 0),
            ParseError::BadEntsize((found, expected)) => (7, *found, *expected),
            ParseError::UnexpectedSectionType((found, expected)) => {
                (8, (*found).into(), (*expected).into())
            }
            ParseError::UnexpectedSegmentType((found, expected)) => {
                (9, (*found).into(), (*expected).into())
            }
            ParseError::UnexpectedAlignment(align) => (10, *align as u64, 0),
            ParseError::SliceReadError((start, end)) => (11, *start as u64, *end as u64),
            ParseError::IntegerOverflow => (12, 0, 0),
            ParseError::Utf8Error(error) => return error.fmt(f),
            ParseError::TryFromSliceError(error) => return error.fmt(f),
            ParseError::TryFromIntError(error) => return error.fmt(f),
            #[cfg(feature = "std")]
            ParseError::IOError(error) => return error.fmt(f),
        };
        ffi::Status {
            code,
            first,
            second,
        }
        .fmt(f)
    }
}

#[cfg(feature = "std")]
impl std::error::Error for ParseError {
    fn source(&self) -> Option<&(dyn std::error::Error + 'static)> {
        match self {
            ParseError::Utf8Error(error) => Some(error),
            ParseError::TryFromSliceError(error) => Some(error),
            ParseError::TryFromIntError(error) => Some(error),
            ParseError::IOError(error) => Some(error),
            _ => None,
        }
    }
}

// Of Rust 1.81: a build without `std` needs it.
#[cfg(not(feature = "std"))]
#[allow(clippy::incompatible_msrv)]
impl core::error::Error for ParseError {
    fn source(&self) -> Option<&(dyn core::error::Error + 'static)> {
        match self {
            ParseError::Utf8Error(error) => Some(error),
            ParseError::TryFromSliceError(error) => Some(error),
            ParseError::TryFromIntError(error) => Some(error),
            _ => None,
        }
    }
}

impl From<core::str::Utf8Error> for ParseError {
    fn from(error: core::str::Utf8Error) -> Self {
        ParseError::Utf8Error(error)
    }
}

impl From<core::array::TryFromSliceError> for ParseError {
    fn from(error: core::array::TryFromSliceError) -> Self {
        ParseError::TryFromSliceError(error)
    }
}

impl From<core::num::TryFromIntError> for ParseError {
    fn from(error: core::num::TryFromIntError) -> Self {
        ParseError::TryFromIntError(error)
    }
}

#[cfg(feature = "std")]
impl From<std::io::Error> for ParseError {
    fn from(error: std::io::Error) -> Self {
        ParseError::IOError(error)
    }
}

/// The error that a status stands for, if it does not stand for success.
// Inlined, so that a call that succeeds makes room for no error.
#[inline(always)]
pub(crate) fn checked(status: ffi::Status) -> Result<(), ParseError> {
    if status.code == 0 {
        return Ok(());
    }
    Err(refused(status))
}

/// The error that a status stands for.
#[cold]
#[inline(never)]
pub(crate) fn refused(status: ffi::Status) -> ParseError {
    let (first, second) = (status.first, status.second);
    match status.code {
        1 => ParseError::BadMagic((first as u32).to_le_bytes()),
        2 => ParseError::UnsupportedElfClass(first as u8),
        3 => ParseError::UnsupportedElfEndianness(first as u8),
        4 => ParseError::UnsupportedVersion((first, second)),
        5 => ParseError::BadOffset(first),
        6 => ParseError::StringTableMissingNul(first),
        7 => ParseError::BadEntsize((first, second)),
        8 => ParseError::UnexpectedSectionType((first as u32, second as u32)),
        9 => ParseError::UnexpectedSegmentType((first as u32, second as u32)),
        10 => ParseError::UnexpectedAlignment(first as usize),
        11 => ParseError::SliceReadError((first as usize, second as usize)),
        12 => ParseError::IntegerOverflow,
        // no export returns the others, which hold errors of Rust's library
        code => unreachable!("status {code}"),
    }
}

/// A record that a table holds: one of this crate, or of the caller.
pub trait ParseAt: Sized {
    /// Reads the record at an offset, which is moved past it.
    fn parse_at<E: EndianParse>(
        endian: E,
        class: Class,
        offset: &mut usize,
        data: &[u8],
    ) -> Result<Self, ParseError>;

    /// The size of a record in bytes.
    fn size_for(class: Class) -> usize;

    /// The entry size of a header, if it is that of the record.
    fn validate_entsize(class: Class, entsize: usize) -> Result<usize, ParseError> {
        let expected = Self::size_for(class);
        if entsize == expected {
            Ok(entsize)
        } else {
            Err(ParseError::BadEntsize((entsize as u64, expected as u64)))
        }
    }

    // The calls of the library for records of this type, if it has them.
    #[doc(hidden)]
    #[inline]
    fn library_calls() -> Option<Calls<Self>> {
        None
    }
}

/// A table of records of one type. A record is read when it is requested.
pub struct ParsingTable<'data, E: EndianParse, P: ParseAt> {
    endian: E,
    /// The bytes, with this order, as the calls of the library take them.
    raw: ffi::Table<'data>,
    kind: PhantomData<&'data P>,
}

impl<E: EndianParse + fmt::Debug, P: ParseAt> fmt::Debug for ParsingTable<'_, E, P> {
    fn fmt(&self, f: &mut fmt::Formatter<'_>) -> fmt::Result {
        f.debug_struct("ParsingTable")
            .field("endian", &self.endian)
            .field("class", &self.class())
            .field("data", &self.raw.bytes)
            .finish()
    }
}

impl<E: EndianParse, P: ParseAt> Clone for ParsingTable<'_, E, P> {
    fn clone(&self) -> Self {
        *self
    }
}

impl<E: EndianParse, P: ParseAt> Copy for ParsingTable<'_, E, P> {}

impl<'data, E: EndianParse, P: ParseAt> ParsingTable<'data, E, P> {
    /// The table of records that these bytes hold.
    pub fn new(endian: E, class: Class, data: &'data [u8]) -> Self {
        ParsingTable {
            endian,
            raw: ffi::Table::new(endian, class, data),
            kind: PhantomData,
        }
    }

    /// The table that the library found in a file of this order.
    pub(crate) fn of(endian: E, table: &ffi::Table<'data>) -> Self {
        ParsingTable::new(endian, Class::of(table.is_64), table.bytes.get())
    }

    #[inline]
    pub(crate) fn raw(&self) -> &ffi::Table<'data> {
        &self.raw
    }

    #[inline]
    fn class(&self) -> Class {
        Class::of(self.raw.is_64)
    }

    /// The records in order, up to the first that cannot be read.
    pub fn iter(&self) -> ParsingIterator<'data, E, P> {
        ParsingIterator::new(self.endian, self.class(), self.raw.bytes.get())
    }

    /// How many records fit.
    pub fn len(&self) -> usize {
        self.raw.bytes.get().len() / P::size_for(self.class())
    }

    /// Whether no record fits.
    pub fn is_empty(&self) -> bool {
        self.len() == 0
    }

    /// The record of an index, counted from 0.
    pub fn get(&self, index: usize) -> Result<P, ParseError> {
        if let Some(calls) = P::library_calls() {
            return (calls.get)(&self.raw, index);
        }
        let data = self.raw.bytes.get();
        if data.is_empty() {
            return Err(ParseError::BadOffset(index as u64));
        }
        let mut offset = index
            .checked_mul(P::size_for(self.class()))
            .ok_or(ParseError::IntegerOverflow)?;
        if offset > data.len() {
            return Err(ParseError::BadOffset(index as u64));
        }
        P::parse_at(self.endian, self.class(), &mut offset, data)
    }
}

impl<'data, E: EndianParse, P: ParseAt> IntoIterator for ParsingTable<'data, E, P> {
    type Item = P;
    type IntoIter = ParsingIterator<'data, E, P>;

    fn into_iter(self) -> ParsingIterator<'data, E, P> {
        self.iter()
    }
}

/// The records of a table in order, up to the first that cannot be read. Those that the library reads are fetched some
/// at a time.
pub struct ParsingIterator<'data, E: EndianParse, P: ParseAt> {
    table: ParsingTable<'data, E, P>,
    /// Where the first record begins that is not fetched yet.
    offset: usize,
    chunk: Chunk,
    /// How many records of the chunk were taken, and how many it has.
    taken: usize,
    fetched: usize,
    ended: bool,
}

impl<E: EndianParse + fmt::Debug, P: ParseAt> fmt::Debug for ParsingIterator<'_, E, P> {
    fn fmt(&self, f: &mut fmt::Formatter<'_>) -> fmt::Result {
        f.debug_struct("ParsingIterator")
            .field("table", &self.table)
            .field("fetched", &self.offset)
            .field("left", &(self.fetched - self.taken))
            .finish()
    }
}

impl<'data, E: EndianParse, P: ParseAt> ParsingIterator<'data, E, P> {
    /// The records that these bytes hold.
    pub fn new(endian: E, class: Class, data: &'data [u8]) -> Self {
        ParsingIterator {
            table: ParsingTable::new(endian, class, data),
            offset: 0,
            chunk: Chunk::Empty,
            taken: 0,
            fetched: 0,
            ended: data.is_empty(),
        }
    }

    /// Fetches the next records, and returns whether there are any.
    #[inline(never)]
    fn fetch(&mut self, calls: &Calls<P>) -> bool {
        if !self.ended {
            let size = P::size_for(self.table.class());
            self.taken = 0;
            self.fetched = (calls.fill)(&self.table.raw, self.offset / size, &mut self.chunk);
            self.offset += self.fetched * size;
            self.ended = self.fetched == 0;
        }
        !self.ended
    }

    /// The next record of a type that the library does not read.
    fn parse_next(&mut self) -> Option<P> {
        if self.ended {
            return None;
        }
        let table = &self.table;
        let data = table.raw.bytes.get();
        let record = P::parse_at(table.endian, table.class(), &mut self.offset, data);
        self.ended = record.is_err();
        record.ok()
    }
}

impl<E: EndianParse, P: ParseAt> Iterator for ParsingIterator<'_, E, P> {
    type Item = P;

    #[inline]
    fn next(&mut self) -> Option<P> {
        let calls = match P::library_calls() {
            Some(calls) => calls,
            None => return self.parse_next(),
        };
        loop {
            if let Some(record) = (calls.of_chunk)(&self.chunk, self.taken) {
                self.taken += 1;
                return Some(record);
            }
            if !self.fetch(&calls) {
                return None;
            }
        }
    }
}
