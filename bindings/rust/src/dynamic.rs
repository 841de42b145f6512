//! Dynamic entries.
use crate::ffi;
use crate::parse::ParsingTable;
use crate::records::{read_by_the_library, Record};

/// A table of dynamic entries.
pub type DynamicTable<'data, E> = ParsingTable<'data, E, Dyn>;

/// A dynamic entry as it lies in a 32-bit file.
#[derive(Debug)]
#[repr(C)]
#[allow(missing_docs)]
pub struct Elf32_Dyn {
    pub d_tag: i32,
    /// The value or the address.
    pub d_un: u32,
}

/// A dynamic entry as it lies in a 64-bit file.
#[derive(Debug)]
#[repr(C)]
#[allow(missing_docs)]
pub struct Elf64_Dyn {
    pub d_tag: i64,
    /// The value or the address.
    pub d_un: u64,
}

/// A dynamic entry, of either class: its tag, and a value or an address.
#[derive(Clone, Debug, PartialEq, Eq)]
pub struct Dyn {
    /// What the entry says.
    pub d_tag: i64,
    d_un: u64,
}

impl Dyn {
    /// The value of the entry.
    pub fn d_val(&self) -> u64 {
        self.d_un
    }

    /// The address of the entry.
    pub fn d_ptr(&self) -> u64 {
        self.d_un
    }
}

impl Record for Dyn {
    type Raw = ffi::Dynamic;

    #[inline]
    fn of(raw: &ffi::Dynamic) -> Self {
        Dyn {
            d_tag: raw.tag,
            d_un: raw.value,
        }
    }

    fn get(table: &ffi::Table<'_>, index: usize, place: &mut ffi::Dynamic) -> ffi::Status {
        ffi::dynamic(table, index, place)
    }

    fn fill<const N: usize>(
        table: &ffi::Table<'_>,
        first: usize,
        places: &mut ffi::Places<ffi::Dynamic, N>,
    ) {
        ffi::dynamics(table, first, places);
    }
}

read_by_the_library!(Dyn, Dynamics, 8, 16);
