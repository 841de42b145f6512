//! Section headers.
use crate::ffi;
use crate::parse::ParsingTable;
use crate::records::{read_by_the_library, Record};

/// A table of section headers.
pub type SectionHeaderTable<'data, E> = ParsingTable<'data, E, SectionHeader>;

/// A section header as it lies in a 32-bit file.
#[derive(Debug)]
#[repr(C)]
#[allow(missing_docs)]
pub struct Elf32_Shdr {
    pub sh_name: u32,
    pub sh_type: u32,
    pub sh_flags: u32,
    pub sh_addr: u32,
    pub sh_offset: u32,
    pub sh_size: u32,
    pub sh_link: u32,
    pub sh_info: u32,
    pub sh_addralign: u32,
    pub sh_entsize: u32,
}

/// A section header as it lies in a 64-bit file.
#[derive(Debug)]
#[repr(C)]
#[allow(missing_docs)]
pub struct Elf64_Shdr {
    pub sh_name: u32,
    pub sh_type: u32,
    pub sh_flags: u64,
    pub sh_addr: u64,
    pub sh_offset: u64,
    pub sh_size: u64,
    pub sh_link: u32,
    pub sh_info: u32,
    pub sh_addralign: u64,
    pub sh_entsize: u64,
}

/// A section header, of either class.
#[derive(Clone, Copy, Debug, PartialEq, Eq)]
pub struct SectionHeader {
    /// Where its name begins in the table of the names of sections.
    pub sh_name: u32,
    /// What it holds.
    pub sh_type: u32,
    /// Its flags.
    pub sh_flags: u64,
    /// Its address, 0 if it is not in memory.
    pub sh_addr: u64,
    /// Where its bytes begin in the file.
    pub sh_offset: u64,
    /// The number of its bytes.
    pub sh_size: u64,
    /// The index of a section that it goes with.
    pub sh_link: u32,
    /// A number whose meaning follows from the type.
    pub sh_info: u32,
    /// The alignment of its address.
    pub sh_addralign: u64,
    /// The size of an entry, 0 if it holds no table.
    pub sh_entsize: u64,
}

impl SectionHeader {
    pub(crate) fn raw(&self) -> ffi::Section {
        ffi::Section {
            name: self.sh_name,
            kind: self.sh_type,
            flags: self.sh_flags,
            addr: self.sh_addr,
            offset: self.sh_offset,
            size: self.sh_size,
            link: self.sh_link,
            info: self.sh_info,
            addralign: self.sh_addralign,
            entsize: self.sh_entsize,
        }
    }
}

impl Record for SectionHeader {
    type Raw = ffi::Section;

    #[inline]
    fn of(raw: &ffi::Section) -> Self {
        SectionHeader {
            sh_name: raw.name,
            sh_type: raw.kind,
            sh_flags: raw.flags,
            sh_addr: raw.addr,
            sh_offset: raw.offset,
            sh_size: raw.size,
            sh_link: raw.link,
            sh_info: raw.info,
            sh_addralign: raw.addralign,
            sh_entsize: raw.entsize,
        }
    }

    fn get(table: &ffi::Table<'_>, index: usize, place: &mut ffi::Section) -> ffi::Status {
        // the read of a header is one of a file: of one that has only this table
        let file = ffi::File {
            has_sections: true,
            sections: *table,
            ..Default::default()
        };
        ffi::section(&file, index, place)
    }

    fn fill<const N: usize>(
        table: &ffi::Table<'_>,
        first: usize,
        places: &mut ffi::Places<ffi::Section, N>,
    ) {
        ffi::sections(table, first, places);
    }
}

read_by_the_library!(SectionHeader, Sections, 40, 64);
