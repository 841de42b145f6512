//! Symbols.
use crate::ffi;
use crate::parse::ParsingTable;
use crate::records::{read_by_the_library, Record};

/// A table of symbols.
pub type SymbolTable<'data, E> = ParsingTable<'data, E, Symbol>;

/// A symbol as it lies in a 32-bit file.
#[derive(Debug)]
#[repr(C)]
#[allow(missing_docs)]
pub struct Elf32_Sym {
    pub st_name: u32,
    pub st_value: u32,
    pub st_size: u32,
    pub st_info: u8,
    pub st_other: u8,
    pub st_shndx: u16,
}

/// A symbol as it lies in a 64-bit file.
#[derive(Debug)]
#[repr(C)]
#[allow(missing_docs)]
pub struct Elf64_Sym {
    pub st_name: u32,
    pub st_info: u8,
    pub st_other: u8,
    pub st_shndx: u16,
    pub st_value: u64,
    pub st_size: u64,
}

/// A symbol, of either class.
#[derive(Clone, Debug, PartialEq, Eq)]
pub struct Symbol {
    /// Where its name begins in the linked table of strings.
    pub st_name: u32,
    /// The section in which it is defined, or a special index.
    pub st_shndx: u16,
    /// Its type and its binding.
    pub st_info: u8,
    /// Its visibility.
    pub st_other: u8,
    /// Its value, as an address.
    pub st_value: u64,
    /// Its size, 0 if it has none or an unknown one.
    pub st_size: u64,
}

impl Symbol {
    /// Whether the symbol is defined elsewhere.
    pub fn is_undefined(&self) -> bool {
        self.st_shndx == crate::abi::SHN_UNDEF
    }

    /// The type: the lower four bits of `st_info`.
    pub fn st_symtype(&self) -> u8 {
        self.st_info & 0xf
    }

    /// The binding: the upper four bits of `st_info`.
    pub fn st_bind(&self) -> u8 {
        self.st_info >> 4
    }

    /// The visibility: the lower two bits of `st_other`.
    pub fn st_vis(&self) -> u8 {
        self.st_other & 3
    }
}

impl Record for Symbol {
    type Raw = ffi::Symbol;

    #[inline]
    fn of(raw: &ffi::Symbol) -> Self {
        Symbol {
            st_name: raw.name,
            st_shndx: raw.shndx,
            st_info: raw.info,
            st_other: raw.other,
            st_value: raw.value,
            st_size: raw.size,
        }
    }

    fn get(table: &ffi::Table<'_>, index: usize, place: &mut ffi::Symbol) -> ffi::Status {
        ffi::symbol(table, index, place)
    }

    fn fill<const N: usize>(
        table: &ffi::Table<'_>,
        first: usize,
        places: &mut ffi::Places<ffi::Symbol, N>,
    ) {
        ffi::symbols(table, first, places);
    }
}

read_by_the_library!(Symbol, Symbols, 16, 24);
