//! The record types that the library reads, by its calls for a record of a table and for many at once.
use crate::endian::EndianParse;
use crate::ffi;
use crate::file::Class;
use crate::parse::{checked, ParseAt, ParseError};

/// How many records are fetched at once: of headers, which are large, and of the others.
pub const HEADERS: usize = 32;
pub const RECORDS: usize = 64;

/// Records as C shows them, fetched at once. An iterator holds them in place, as a build without `alloc` has to.
#[derive(Debug)]
#[allow(clippy::large_enum_variant)]
pub enum Chunk {
    Empty,
    Symbols(ffi::Places<ffi::Symbol, RECORDS>),
    Sections(ffi::Places<ffi::Section, HEADERS>),
    Segments(ffi::Places<ffi::Segment, HEADERS>),
    Rels(ffi::Places<ffi::Rel, RECORDS>),
    Relas(ffi::Places<ffi::Rela, RECORDS>),
    Dynamics(ffi::Places<ffi::Dynamic, RECORDS>),
}

/// A record that the library reads.
pub trait Record: ParseAt {
    /// The struct of C.
    type Raw: Copy + Default;

    /// The record that the struct of C shows.
    fn of(raw: &Self::Raw) -> Self;

    /// Reads the record of an index of a table.
    fn get(table: &ffi::Table<'_>, index: usize, place: &mut Self::Raw) -> ffi::Status;

    /// Fills places with the records of a table, the first of them number `first`.
    fn fill<const N: usize>(
        table: &ffi::Table<'_>,
        first: usize,
        places: &mut ffi::Places<Self::Raw, N>,
    );
}

/// A record whose chunk has a variant.
pub trait Chunked: Record {
    /// Fetches the records of a table into a chunk, the first of them number `first`, and returns how many these are.
    fn fetch(table: &ffi::Table<'_>, first: usize, chunk: &mut Chunk) -> usize;

    /// The record of an index of a chunk.
    fn of_chunk(chunk: &Chunk, index: usize) -> Option<Self>;
}

/// The calls for records of one type. Rust 1.63 has no `Debug` for such pointers to functions.
#[allow(missing_debug_implementations)]
pub struct Calls<P> {
    pub get: fn(&ffi::Table<'_>, usize) -> Result<P, ParseError>,
    pub fill: fn(&ffi::Table<'_>, usize, &mut Chunk) -> usize,
    pub of_chunk: fn(&Chunk, usize) -> Option<P>,
}

impl<P: Chunked> Calls<P> {
    #[inline]
    pub fn new() -> Self {
        Calls {
            get: record::<P>,
            fill: P::fetch,
            of_chunk: P::of_chunk,
        }
    }
}

/// The record of an index of a table.
fn record<P: Record>(table: &ffi::Table<'_>, index: usize) -> Result<P, ParseError> {
    let mut raw = P::Raw::default();
    checked(P::get(table, index, &mut raw))?;
    Ok(P::of(&raw))
}

/// Reads the record at an offset, which is moved past it. After an error it is that of the number that is missing.
pub fn parse_at<E: EndianParse, P: Record>(
    endian: E,
    class: Class,
    offset: &mut usize,
    data: &[u8],
) -> Result<P, ParseError> {
    let rest = match data.get(*offset..) {
        Some(rest) if !rest.is_empty() => rest,
        // a table without bytes has no record 0: of one byte, too, the first number is missing
        _ => &[0],
    };
    match record(&ffi::Table::new(endian, class, rest), 0) {
        Ok(record) => {
            *offset += P::size_for(class);
            Ok(record)
        }
        Err(ParseError::SliceReadError((start, end))) => {
            let end = offset.checked_add(end).ok_or(ParseError::IntegerOverflow)?;
            *offset += start;
            Err(ParseError::SliceReadError((*offset, end)))
        }
        Err(error) => Err(error),
    }
}

/// `ParseAt` of a record that the library reads, with the variant of its chunk and its sizes in 32-bit and in 64-bit
/// files.
macro_rules! read_by_the_library {
    ($record:ty, $variant:ident, $size_32:literal, $size_64:literal) => {
        impl $crate::records::Chunked for $record {
            fn fetch(
                table: &$crate::ffi::Table<'_>,
                first: usize,
                chunk: &mut $crate::records::Chunk,
            ) -> usize {
                use $crate::records::Chunk;
                if !matches!(chunk, Chunk::$variant(_)) {
                    *chunk = Chunk::$variant($crate::ffi::Places::new());
                }
                match chunk {
                    Chunk::$variant(places) => {
                        <Self as $crate::records::Record>::fill(table, first, places);
                        places.filled()
                    }
                    _ => 0,
                }
            }

            #[inline]
            fn of_chunk(chunk: &$crate::records::Chunk, index: usize) -> Option<Self> {
                match chunk {
                    $crate::records::Chunk::$variant(places) => {
                        places.get(index).map(<Self as $crate::records::Record>::of)
                    }
                    _ => None,
                }
            }
        }

        impl $crate::parse::ParseAt for $record {
            fn parse_at<E: $crate::endian::EndianParse>(
                endian: E,
                class: $crate::file::Class,
                offset: &mut usize,
                data: &[u8],
            ) -> Result<Self, $crate::parse::ParseError> {
                $crate::records::parse_at(endian, class, offset, data)
            }

            #[inline]
            fn size_for(class: $crate::file::Class) -> usize {
                match class {
                    $crate::file::Class::ELF32 => $size_32,
                    $crate::file::Class::ELF64 => $size_64,
                }
            }

            #[inline]
            fn library_calls() -> Option<$crate::records::Calls<Self>> {
                Some($crate::records::Calls::new())
            }
        }
    };
}
pub(crate) use read_by_the_library;
