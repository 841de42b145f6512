//! Program headers.
use crate::ffi;
use crate::parse::ParsingTable;
use crate::records::{read_by_the_library, Record};

/// A table of program headers.
pub type SegmentTable<'data, E> = ParsingTable<'data, E, ProgramHeader>;

/// A program header as it lies in a 32-bit file.
#[derive(Debug)]
#[repr(C)]
#[allow(missing_docs)]
pub struct Elf32_Phdr {
    pub p_type: u32,
    pub p_offset: u32,
    pub p_vaddr: u32,
    pub p_paddr: u32,
    pub p_filesz: u32,
    pub p_memsz: u32,
    pub p_flags: u32,
    pub p_align: u32,
}

/// A program header as it lies in a 64-bit file.
#[derive(Debug)]
#[repr(C)]
#[allow(missing_docs)]
pub struct Elf64_Phdr {
    pub p_type: u32,
    pub p_flags: u32,
    pub p_offset: u64,
    pub p_vaddr: u64,
    pub p_paddr: u64,
    pub p_filesz: u64,
    pub p_memsz: u64,
    pub p_align: u64,
}

/// A program header, of either class.
#[derive(Clone, Copy, Debug, PartialEq, Eq)]
pub struct ProgramHeader {
    /// What the segment is for.
    pub p_type: u32,
    /// Where its bytes begin in the file.
    pub p_offset: u64,
    /// Its virtual address.
    pub p_vaddr: u64,
    /// Its physical address.
    pub p_paddr: u64,
    /// The number of its bytes in the file.
    pub p_filesz: u64,
    /// The number of its bytes in memory.
    pub p_memsz: u64,
    /// Whether it can be read, written and executed.
    pub p_flags: u32,
    /// Its alignment in memory and in the file.
    pub p_align: u64,
}

impl ProgramHeader {
    pub(crate) fn raw(&self) -> ffi::Segment {
        ffi::Segment {
            kind: self.p_type,
            offset: self.p_offset,
            vaddr: self.p_vaddr,
            paddr: self.p_paddr,
            filesz: self.p_filesz,
            memsz: self.p_memsz,
            flags: self.p_flags,
            align: self.p_align,
        }
    }
}

impl Record for ProgramHeader {
    type Raw = ffi::Segment;

    #[inline]
    fn of(raw: &ffi::Segment) -> Self {
        ProgramHeader {
            p_type: raw.kind,
            p_offset: raw.offset,
            p_vaddr: raw.vaddr,
            p_paddr: raw.paddr,
            p_filesz: raw.filesz,
            p_memsz: raw.memsz,
            p_flags: raw.flags,
            p_align: raw.align,
        }
    }

    fn get(table: &ffi::Table<'_>, index: usize, place: &mut ffi::Segment) -> ffi::Status {
        // the read of a header is one of a file: of one that has only this table
        let file = ffi::File {
            has_segments: true,
            segments: *table,
            ..Default::default()
        };
        ffi::segment(&file, index, place)
    }

    fn fill<const N: usize>(
        table: &ffi::Table<'_>,
        first: usize,
        places: &mut ffi::Places<ffi::Segment, N>,
    ) {
        ffi::segments(table, first, places);
    }
}

read_by_the_library!(ProgramHeader, Segments, 32, 56);
