//! Hash sections, which find symbols by name.
use crate::endian::EndianParse;
use crate::ffi;
use crate::file::Class;
use crate::parse::{checked, refused, ParseAt, ParseError};
use crate::records::Record;
use crate::string_table::StringTable;
use crate::symbol::{Symbol, SymbolTable};
use core::marker::PhantomData;

/// A number of 32 bits.
impl ParseAt for u32 {
    fn parse_at<E: EndianParse>(
        endian: E,
        _class: Class,
        offset: &mut usize,
        data: &[u8],
    ) -> Result<Self, ParseError> {
        endian.parse_u32_at(offset, data)
    }

    fn size_for(_class: Class) -> usize {
        4
    }
}

/// A number of 64 bits.
impl ParseAt for u64 {
    fn parse_at<E: EndianParse>(
        endian: E,
        _class: Class,
        offset: &mut usize,
        data: &[u8],
    ) -> Result<Self, ParseError> {
        endian.parse_u64_at(offset, data)
    }

    fn size_for(_class: Class) -> usize {
        8
    }
}

/// The hash of a name in a SysV hash section.
pub fn sysv_hash(name: &[u8]) -> u32 {
    name.iter().fold(0, |hash: u32, byte| {
        let sum = (hash << 4).wrapping_add(u32::from(*byte));
        (sum ^ (sum >> 24 & 0xf0)) & 0x0fff_ffff
    })
}

/// The hash of a name in a GNU hash section.
pub fn gnu_hash(name: &[u8]) -> u32 {
    name.iter().fold(5381, |hash: u32, byte| {
        hash.wrapping_mul(33).wrapping_add(u32::from(*byte))
    })
}

/// What a look-up found, if anything.
#[inline]
fn found_in(
    answer: Result<ffi::Found, ffi::Status>,
) -> Result<Option<(usize, Symbol)>, ParseError> {
    match answer {
        Ok(found) if found.found => Ok(Some((found.index, Symbol::of(&found.symbol)))),
        Ok(_) => Ok(None),
        Err(status) => Err(refused(status)),
    }
}

/// The header of a SysV hash section.
#[derive(Clone, Debug, PartialEq, Eq)]
pub struct SysVHashHeader {
    /// The number of buckets.
    pub nbucket: u32,
    /// The number of symbols.
    pub nchain: u32,
}

impl ParseAt for SysVHashHeader {
    fn parse_at<E: EndianParse>(
        endian: E,
        _class: Class,
        offset: &mut usize,
        data: &[u8],
    ) -> Result<Self, ParseError> {
        Ok(SysVHashHeader {
            nbucket: endian.parse_u32_at(offset, data)?,
            nchain: endian.parse_u32_at(offset, data)?,
        })
    }

    fn size_for(_class: Class) -> usize {
        8
    }
}

/// The table of a SysV hash section.
#[derive(Debug)]
pub struct SysVHashTable<'data, E: EndianParse> {
    table: ffi::Sysv<'data>,
    order: PhantomData<E>,
}

impl<'data, E: EndianParse> SysVHashTable<'data, E> {
    /// The table that a section's bytes hold.
    pub fn new(endian: E, class: Class, data: &'data [u8]) -> Result<Self, ParseError> {
        let mut table = ffi::Sysv::default();
        checked(ffi::sysv_open(
            endian.is_little(),
            class == Class::ELF64,
            ffi::Bytes::new(data),
            &mut table,
        ))?;
        Ok(SysVHashTable::of(table))
    }

    pub(crate) fn of(table: ffi::Sysv<'data>) -> Self {
        SysVHashTable {
            table,
            order: PhantomData,
        }
    }

    /// The index and the symbol of a name.
    pub fn find(
        &self,
        name: &[u8],
        symtab: &SymbolTable<'data, E>,
        strtab: &StringTable<'data>,
    ) -> Result<Option<(usize, Symbol)>, ParseError> {
        found_in(ffi::sysv_look_up(
            &self.table,
            symtab.raw(),
            strtab.bytes(),
            ffi::Bytes::new(name),
        ))
    }
}

/// The header of a GNU hash section.
#[repr(C)]
#[derive(Clone, Debug, PartialEq, Eq)]
pub struct GnuHashHeader {
    /// The number of buckets.
    pub nbucket: u32,
    /// The index of the first symbol that can be found.
    pub table_start_idx: u32,
    /// The number of words of the Bloom filter.
    pub nbloom: u32,
    /// By how much a hash is shifted for its second bit in the filter.
    pub nshift: u32,
}

impl ParseAt for GnuHashHeader {
    fn parse_at<E: EndianParse>(
        endian: E,
        _class: Class,
        offset: &mut usize,
        data: &[u8],
    ) -> Result<Self, ParseError> {
        Ok(GnuHashHeader {
            nbucket: endian.parse_u32_at(offset, data)?,
            table_start_idx: endian.parse_u32_at(offset, data)?,
            nbloom: endian.parse_u32_at(offset, data)?,
            nshift: endian.parse_u32_at(offset, data)?,
        })
    }

    fn size_for(_class: Class) -> usize {
        16
    }
}

/// The table of a GNU hash section.
// With the layout of `ffi::Gnu`, so that a look-up hands it over as it is, and with the current numbers of `hdr`.
#[repr(C)]
#[derive(Debug)]
pub struct GnuHashTable<'data, E: EndianParse> {
    little: bool,
    is_64: bool,
    /// The numbers that look-ups use.
    pub hdr: GnuHashHeader,
    bloom: ffi::Bytes<'data>,
    buckets: ffi::Bytes<'data>,
    chains: ffi::Bytes<'data>,
    order: PhantomData<E>,
}

impl<'data, E: EndianParse> GnuHashTable<'data, E> {
    /// The table that a section's bytes hold.
    pub fn new(endian: E, class: Class, data: &'data [u8]) -> Result<Self, ParseError> {
        let mut table = ffi::Gnu::default();
        checked(ffi::gnu_open(
            endian.is_little(),
            class == Class::ELF64,
            ffi::Bytes::new(data),
            &mut table,
        ))?;
        Ok(GnuHashTable::of(table))
    }

    pub(crate) fn of(table: ffi::Gnu<'data>) -> Self {
        GnuHashTable {
            little: table.little,
            is_64: table.is_64,
            hdr: GnuHashHeader {
                nbucket: table.nbucket,
                table_start_idx: table.first,
                nbloom: table.nbloom,
                nshift: table.nshift,
            },
            bloom: table.bloom,
            buckets: table.buckets,
            chains: table.chains,
            order: PhantomData,
        }
    }

    /// The index and the symbol of a name.
    pub fn find(
        &self,
        name: &[u8],
        symtab: &SymbolTable<'data, E>,
        strtab: &StringTable<'data>,
    ) -> Result<Option<(usize, Symbol)>, ParseError> {
        found_in(ffi::gnu_look_up(
            self,
            symtab.raw(),
            strtab.bytes(),
            ffi::Bytes::new(name),
        ))
    }
}
