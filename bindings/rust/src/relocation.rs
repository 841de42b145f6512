//! Relocations.
use crate::ffi;
use crate::parse::ParsingIterator;
use crate::records::{read_by_the_library, Record};

/// An iterator over relocations.
pub type RelIterator<'data, E> = ParsingIterator<'data, E, Rel>;

/// An iterator over relocations with addends.
pub type RelaIterator<'data, E> = ParsingIterator<'data, E, Rela>;

/// A relocation as it lies in a 32-bit file.
#[derive(Debug)]
#[repr(C)]
#[allow(missing_docs)]
pub struct Elf32_Rel {
    pub r_offset: u32,
    pub r_info: u32,
}

/// A relocation as it lies in a 64-bit file.
#[derive(Debug)]
#[repr(C)]
#[allow(missing_docs)]
pub struct Elf64_Rel {
    pub r_offset: u64,
    pub r_info: u64,
}

/// A relocation with an addend as it lies in a 32-bit file.
#[derive(Debug)]
#[repr(C)]
#[allow(missing_docs)]
pub struct Elf32_Rela {
    pub r_offset: u32,
    pub r_info: u32,
    pub r_addend: i32,
}

/// A relocation with an addend as it lies in a 64-bit file.
#[derive(Debug)]
#[repr(C)]
#[allow(missing_docs)]
pub struct Elf64_Rela {
    pub r_offset: u64,
    pub r_info: u64,
    pub r_addend: i64,
}

/// A relocation, of either class.
#[derive(Clone, Debug, PartialEq, Eq)]
pub struct Rel {
    /// What is relocated: an offset in a section, or an address.
    pub r_offset: u64,
    /// The index of the symbol.
    pub r_sym: u32,
    /// The type, which the machine defines.
    pub r_type: u32,
}

/// A relocation with an addend, of either class.
#[derive(Clone, Debug, PartialEq, Eq)]
pub struct Rela {
    /// What is relocated: an offset in a section, or an address.
    pub r_offset: u64,
    /// The index of the symbol.
    pub r_sym: u32,
    /// The type, which the machine defines.
    pub r_type: u32,
    /// The constant that is added.
    pub r_addend: i64,
}

impl Record for Rel {
    type Raw = ffi::Rel;

    #[inline]
    fn of(raw: &ffi::Rel) -> Self {
        Rel {
            r_offset: raw.offset,
            r_sym: raw.symbol,
            r_type: raw.kind,
        }
    }

    fn get(table: &ffi::Table<'_>, index: usize, place: &mut ffi::Rel) -> ffi::Status {
        ffi::rel(table, index, place)
    }

    fn fill<const N: usize>(
        table: &ffi::Table<'_>,
        first: usize,
        places: &mut ffi::Places<ffi::Rel, N>,
    ) {
        ffi::rels(table, first, places);
    }
}

read_by_the_library!(Rel, Rels, 8, 16);

impl Record for Rela {
    type Raw = ffi::Rela;

    #[inline]
    fn of(raw: &ffi::Rela) -> Self {
        Rela {
            r_offset: raw.offset,
            r_sym: raw.symbol,
            r_type: raw.kind,
            r_addend: raw.addend,
        }
    }

    fn get(table: &ffi::Table<'_>, index: usize, place: &mut ffi::Rela) -> ffi::Status {
        ffi::rela(table, index, place)
    }

    fn fill<const N: usize>(
        table: &ffi::Table<'_>,
        first: usize,
        places: &mut ffi::Places<ffi::Rela, N>,
    ) {
        ffi::relas(table, first, places);
    }
}

read_by_the_library!(Rela, Relas, 12, 24);
