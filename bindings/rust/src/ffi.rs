//! The functions of libnugwier.a, and the structs that cross. This is the only file with `unsafe`.
//!
//! Each export is a total function: it accepts any bytes and any numbers. What a caller owes (nugwier.h) is held here
//! by types: a `Bytes<'a>` is made of a slice of this lifetime or written by the library, which writes only parts of
//! the bytes that it was given, or constants; its fields are private. A `bool` is a Rust `bool`. `&` and `&mut` overlap
//! nothing.
use crate::endian::{EndianParse, LittleEndian};
use crate::file::Class;
use crate::hash::GnuHashTable;
use core::marker::PhantomData;
use core::mem::MaybeUninit;

/// Bytes that live as long as `'a`.
#[repr(C)]
#[derive(Clone, Copy)]
pub struct Bytes<'a> {
    at: *const u8,
    len: usize,
    of: PhantomData<&'a [u8]>,
}

// SAFETY: it is a shared slice of bytes, which may be sent.
unsafe impl Send for Bytes<'_> {}
// SAFETY: it is a shared slice of bytes, which may be shared.
unsafe impl Sync for Bytes<'_> {}

impl<'a> Bytes<'a> {
    pub fn new(bytes: &'a [u8]) -> Self {
        Bytes {
            at: bytes.as_ptr(),
            len: bytes.len(),
            of: PhantomData,
        }
    }

    pub fn get(self) -> &'a [u8] {
        if self.len == 0 {
            return &[];
        }
        // SAFETY: `new` made it of such a slice, or the library wrote it: a part of bytes that live as long as `'a`.
        unsafe { core::slice::from_raw_parts(self.at, self.len) }
    }
}

impl Default for Bytes<'_> {
    fn default() -> Self {
        Bytes::new(&[])
    }
}

impl core::fmt::Debug for Bytes<'_> {
    fn fmt(&self, f: &mut core::fmt::Formatter<'_>) -> core::fmt::Result {
        self.get().fmt(f)
    }
}

/// Records that one call fetched, at most `N`, or none yet. No place is written before: a table may have few records.
pub struct Places<T, const N: usize> {
    places: [MaybeUninit<T>; N],
    /// The first so many are written. There are no more than `N`.
    filled: usize,
}

impl<T: Copy, const N: usize> Places<T, N> {
    pub fn new() -> Self {
        Places {
            places: [MaybeUninit::uninit(); N],
            filled: 0,
        }
    }

    /// Has a call fill the places that a pointer and their number give.
    ///
    /// # Safety
    ///
    /// The call writes as many of the places as it returns, from the first on.
    unsafe fn fill(&mut self, call: impl FnOnce(*mut T, usize) -> usize) {
        self.filled = 0;
        self.filled = call(self.places.as_mut_ptr().cast(), N);
    }

    /// The record of an index, if that many were fetched.
    #[inline]
    pub fn get(&self, index: usize) -> Option<&T> {
        if index < self.filled {
            // SAFETY: the first `filled` of the places are written, and there are no more than `N`.
            Some(unsafe { self.places.get_unchecked(index).assume_init_ref() })
        } else {
            None
        }
    }

    pub fn filled(&self) -> usize {
        self.filled
    }
}

impl<T, const N: usize> core::fmt::Debug for Places<T, N> {
    fn fmt(&self, f: &mut core::fmt::Formatter<'_>) -> core::fmt::Result {
        f.debug_struct("Places")
            .field("filled", &self.filled)
            .finish()
    }
}

#[repr(C)]
#[derive(Debug)]
pub struct Status {
    pub code: u32,
    pub first: u64,
    pub second: u64,
}

impl core::fmt::Display for Status {
    fn fmt(&self, f: &mut core::fmt::Formatter<'_>) -> core::fmt::Result {
        let mut text = [0; 128];
        let length = error_text(self, &mut text).min(text.len());
        f.write_str(core::str::from_utf8(&text[..length]).map_err(|_| core::fmt::Error)?)
    }
}

impl Status {
    /// The start and the end of the range that is not loaded, if the status says so.
    pub fn missing(&self) -> Option<(u64, u64)> {
        (self.code == 18).then_some((self.first, self.second))
    }
}

#[repr(C)]
#[derive(Clone, Copy, Debug, Default)]
pub struct Fault {
    pub kind: u32,
    pub part: u32,
    pub index: u64,
    pub first: u64,
    pub second: u64,
}

#[repr(C)]
#[derive(Clone, Copy, Debug, Default)]
pub struct Table<'a> {
    pub little: bool,
    pub is_64: bool,
    pub bytes: Bytes<'a>,
}

impl<'a> Table<'a> {
    pub fn new<E: EndianParse>(endian: E, class: Class, bytes: &'a [u8]) -> Self {
        Table {
            little: endian.is_little(),
            is_64: class == Class::ELF64,
            bytes: Bytes::new(bytes),
        }
    }
}

#[repr(C)]
#[derive(Clone, Copy, Debug, Default)]
pub struct Header {
    pub little: bool,
    pub is_64: bool,
    pub osabi: u8,
    pub abiversion: u8,
    pub version: u32,
    pub kind: u16,
    pub machine: u16,
    pub flags: u32,
    pub entry: u64,
    pub phoff: u64,
    pub shoff: u64,
    pub ehsize: u16,
    pub phentsize: u16,
    pub phnum: u16,
    pub shentsize: u16,
    pub shnum: u16,
    pub shstrndx: u16,
}

/// A range of a file with its bytes. The first of them is at `start` in the file.
#[repr(C)]
#[derive(Clone, Copy, Debug, Default)]
pub struct Range<'a> {
    pub start: u64,
    pub bytes: Bytes<'a>,
}

/// Ranges in an array that lives as long as `'r`, with bytes that live as long as `'a`.
#[repr(C)]
#[derive(Clone, Copy, Debug)]
pub struct Ranges<'r, 'a> {
    at: *const Range<'a>,
    len: usize,
    of: PhantomData<&'r [Range<'a>]>,
}

// SAFETY: it is a shared slice of such ranges, which may be sent.
unsafe impl Send for Ranges<'_, '_> {}
// SAFETY: it is a shared slice of such ranges, which may be shared.
unsafe impl Sync for Ranges<'_, '_> {}

impl<'r, 'a> Ranges<'r, 'a> {
    pub fn new(ranges: &'r [Range<'a>]) -> Self {
        Ranges {
            at: ranges.as_ptr(),
            len: ranges.len(),
            of: PhantomData,
        }
    }
}

impl Default for Ranges<'_, '_> {
    fn default() -> Self {
        Ranges::new(&[])
    }
}

#[repr(C)]
#[derive(Clone, Copy, Debug, Default)]
pub struct File<'r, 'a> {
    pub header: Header,
    pub size: u64,
    pub bytes: Bytes<'a>,
    pub ranges: Ranges<'r, 'a>,
    pub has_sections: bool,
    pub has_segments: bool,
    pub sections: Table<'a>,
    pub segments: Table<'a>,
}

#[repr(C)]
#[derive(Clone, Copy, Debug, Default)]
pub struct Section {
    pub name: u32,
    pub kind: u32,
    pub flags: u64,
    pub addr: u64,
    pub offset: u64,
    pub size: u64,
    pub link: u32,
    pub info: u32,
    pub addralign: u64,
    pub entsize: u64,
}

#[repr(C)]
#[derive(Clone, Copy, Debug, Default)]
pub struct Segment {
    pub kind: u32,
    pub flags: u32,
    pub offset: u64,
    pub vaddr: u64,
    pub paddr: u64,
    pub filesz: u64,
    pub memsz: u64,
    pub align: u64,
}

#[repr(C)]
#[derive(Clone, Copy, Debug, Default)]
pub struct Symbol {
    pub name: u32,
    pub info: u8,
    pub other: u8,
    pub shndx: u16,
    pub value: u64,
    pub size: u64,
}

#[repr(C)]
#[derive(Clone, Copy, Debug, Default)]
pub struct NamedSymbol<'a> {
    pub symbol: Symbol,
    pub name: Bytes<'a>,
}

#[repr(C)]
#[derive(Clone, Copy, Debug, Default)]
pub struct Rel {
    pub offset: u64,
    pub symbol: u32,
    pub kind: u32,
}

#[repr(C)]
#[derive(Clone, Copy, Debug, Default)]
pub struct Rela {
    pub offset: u64,
    pub addend: i64,
    pub symbol: u32,
    pub kind: u32,
}

#[repr(C)]
#[derive(Clone, Copy, Debug, Default)]
pub struct Dynamic {
    pub tag: i64,
    pub value: u64,
}

#[repr(C)]
#[derive(Clone, Copy, Debug, Default)]
pub struct Compression {
    pub compressed: bool,
    pub kind: u32,
    pub size: u64,
    pub addralign: u64,
}

#[repr(C)]
#[derive(Clone, Copy, Debug, Default)]
pub struct Data<'a> {
    pub bytes: Bytes<'a>,
    pub compression: Compression,
}

#[repr(C)]
#[derive(Clone, Copy, Debug, Default)]
pub struct SymbolTable<'a> {
    pub found: bool,
    pub symbols: Table<'a>,
    pub strings: Bytes<'a>,
}

#[repr(C)]
#[derive(Clone, Copy, Debug, Default)]
pub struct DynamicTable<'a> {
    pub found: bool,
    pub entries: Table<'a>,
}

/// Bytes that may be there or not.
#[repr(C)]
#[derive(Clone, Copy, Debug, Default)]
pub struct FoundBytes<'a> {
    found: bool,
    bytes: Bytes<'a>,
}

impl<'a> FoundBytes<'a> {
    pub fn get(self) -> Option<&'a [u8]> {
        self.found.then(|| self.bytes.get())
    }
}

#[repr(C)]
#[derive(Clone, Copy, Debug, Default)]
pub struct DynamicNames<'a> {
    pub found: bool,
    pub entries: Table<'a>,
    pub strings: Bytes<'a>,
}

#[repr(C)]
#[derive(Clone, Copy, Debug, Default)]
pub struct Needed<'a> {
    pub found: bool,
    pub tag: i64,
    pub name: Bytes<'a>,
}

#[repr(C)]
#[derive(Clone, Copy, Debug, Default)]
pub struct SectionNames<'a> {
    pub found: bool,
    pub strings: Bytes<'a>,
}

#[repr(C)]
#[derive(Clone, Copy, Debug, Default)]
pub struct Notes<'a> {
    pub little: bool,
    pub align: usize,
    pub bytes: Bytes<'a>,
}

#[repr(C)]
#[derive(Clone, Copy, Debug, Default)]
pub struct AbiTag {
    pub os: u32,
    pub major: u32,
    pub minor: u32,
    pub subminor: u32,
}

#[repr(C)]
#[derive(Clone, Copy, Debug, Default)]
pub struct Note<'a> {
    pub kind: u32,
    pub tag: AbiTag,
    pub n_type: u64,
    pub name: Bytes<'a>,
    pub desc: Bytes<'a>,
}

#[repr(C)]
#[derive(Clone, Copy, Debug, Default)]
pub struct Found {
    pub found: bool,
    pub index: usize,
    pub symbol: Symbol,
}

#[repr(C)]
#[derive(Clone, Copy, Debug, Default)]
pub struct Gnu<'a> {
    pub little: bool,
    pub is_64: bool,
    pub nbucket: u32,
    pub first: u32,
    pub nbloom: u32,
    pub nshift: u32,
    pub bloom: Bytes<'a>,
    pub buckets: Bytes<'a>,
    pub chains: Bytes<'a>,
}

#[repr(C)]
#[derive(Clone, Copy, Debug, Default)]
pub struct Sysv<'a> {
    pub little: bool,
    pub is_64: bool,
    pub buckets: Bytes<'a>,
    pub chains: Bytes<'a>,
}

#[repr(C)]
#[derive(Clone, Copy, Debug, Default)]
pub struct Common<'a> {
    pub symbols: SymbolTable<'a>,
    pub dynamic_symbols: SymbolTable<'a>,
    pub dynamics: DynamicTable<'a>,
    pub has_sysv: bool,
    pub has_gnu: bool,
    pub sysv: Sysv<'a>,
    pub gnu: Gnu<'a>,
}

#[repr(C)]
#[derive(Clone, Copy, Debug, Default)]
pub struct Entries<'a> {
    pub found: bool,
    pub count: u64,
    pub entries: Table<'a>,
    pub strings: Bytes<'a>,
}

#[repr(C)]
#[derive(Clone, Copy, Debug, Default)]
pub struct Versions<'a> {
    pub found: bool,
    pub indexes: Table<'a>,
    pub needs: Entries<'a>,
    pub definitions: Entries<'a>,
}

#[repr(C)]
#[derive(Clone, Copy, Debug, Default)]
pub struct Version {
    pub index: u16,
    pub hidden: bool,
}

#[repr(C)]
#[derive(Clone, Copy, Debug, Default)]
pub struct Requirement<'a> {
    pub found: bool,
    pub hidden: bool,
    pub flags: u16,
    pub hash: u32,
    pub file: Bytes<'a>,
    pub name: Bytes<'a>,
}

#[repr(C)]
#[derive(Clone, Copy, Debug, Default)]
pub struct VersionNames<'a> {
    pub count: u64,
    pub offset: usize,
    pub entries: Table<'a>,
    pub strings: Bytes<'a>,
}

#[repr(C)]
#[derive(Clone, Copy, Debug, Default)]
pub struct Definition<'a> {
    pub found: bool,
    pub hidden: bool,
    pub flags: u16,
    pub hash: u32,
    pub names: VersionNames<'a>,
}

#[repr(C)]
#[derive(Clone, Copy, Debug, Default)]
pub struct Name<'a> {
    pub found: bool,
    pub bytes: Bytes<'a>,
}

impl<'a> Name<'a> {
    /// The name, if there is one. All names are ASCII.
    pub fn text(&self) -> Option<&'a str> {
        if self.found {
            core::str::from_utf8(self.bytes.get()).ok()
        } else {
            None
        }
    }
}

// A pair of a pointer and a length stands for a slice; the lifetimes that tie what is written to what was given are
// stated by the functions below.
extern "C" {
    fn nugwier_section_data(file: &File<'_, '_>, section: &Section, part: &mut Data<'_>) -> Status;
    fn nugwier_segment_data(file: &File<'_, '_>, segment: &Segment, part: &mut Bytes<'_>)
        -> Status;
    fn nugwier_section_strings(
        file: &File<'_, '_>,
        section: &Section,
        strings: &mut Bytes<'_>,
    ) -> Status;
    fn nugwier_section_rels(
        file: &File<'_, '_>,
        section: &Section,
        table: &mut Table<'_>,
    ) -> Status;
    fn nugwier_section_relas(
        file: &File<'_, '_>,
        section: &Section,
        table: &mut Table<'_>,
    ) -> Status;
    fn nugwier_section_notes(
        file: &File<'_, '_>,
        section: &Section,
        notes: &mut Notes<'_>,
    ) -> Status;
    fn nugwier_segment_notes(
        file: &File<'_, '_>,
        segment: &Segment,
        notes: &mut Notes<'_>,
    ) -> Status;
    fn nugwier_open(bytes: *const u8, bytes_len: usize, file: &mut File<'_, '_>) -> Status;
    fn nugwier_open_ranges(
        size: u64,
        ranges: *const Range<'_>,
        ranges_len: usize,
        file: &mut File<'_, '_>,
    ) -> Status;
    fn nugwier_section(file: &File<'_, '_>, index: usize, section: &mut Section) -> Status;
    fn nugwier_segment(file: &File<'_, '_>, index: usize, segment: &mut Segment) -> Status;
    fn nugwier_gnu_open(
        little: bool,
        is_64: bool,
        section: *const u8,
        section_len: usize,
        gnu: &mut Gnu<'_>,
    ) -> Status;
    fn nugwier_sysv_open(
        little: bool,
        is_64: bool,
        section: *const u8,
        section_len: usize,
        sysv: &mut Sysv<'_>,
    ) -> Status;
    fn nugwier_gnu_look_up(
        gnu: *const Gnu<'_>,
        symbols: &Table<'_>,
        strings: *const u8,
        strings_len: usize,
        name: *const u8,
        name_len: usize,
        found: *mut Found,
    ) -> Status;
    fn nugwier_sysv_look_up(
        sysv: &Sysv<'_>,
        symbols: &Table<'_>,
        strings: *const u8,
        strings_len: usize,
        name: *const u8,
        name_len: usize,
        found: *mut Found,
    ) -> Status;
    fn nugwier_common(file: &File<'_, '_>, common: &mut Common<'_>) -> Status;
    fn nugwier_e_osabi_name(e_osabi: u8, name: &mut Name<'static>);
    fn nugwier_e_type_name(e_type: u16, name: &mut Name<'static>);
    fn nugwier_e_machine_name(e_machine: u16, name: &mut Name<'static>);
    fn nugwier_sh_type_name(sh_type: u32, name: &mut Name<'static>);
    fn nugwier_p_type_name(p_type: u32, name: &mut Name<'static>);
    fn nugwier_st_symtype_name(st_symtype: u8, name: &mut Name<'static>);
    fn nugwier_st_bind_name(st_bind: u8, name: &mut Name<'static>);
    fn nugwier_st_vis_name(st_vis: u8, name: &mut Name<'static>);
    fn nugwier_ch_type_name(ch_type: u32, name: &mut Name<'static>);
    fn nugwier_note_abi_tag_os_name(os: u32, name: &mut Name<'static>);
    fn nugwier_d_tag_name(d_tag: i64, name: &mut Name<'static>);
    fn nugwier_r_type_name(e_machine: u16, r_type: u32, name: &mut Name<'static>);
    fn nugwier_machine_sh_type_name(e_machine: u16, sh_type: u32, name: &mut Name<'static>);
    fn nugwier_machine_p_type_name(e_machine: u16, p_type: u32, name: &mut Name<'static>);
    fn nugwier_machine_d_tag_name(e_machine: u16, d_tag: i64, name: &mut Name<'static>);
    fn nugwier_n_type_name(
        owner: *const u8,
        owner_len: usize,
        n_type: u64,
        name: &mut Name<'static>,
    );
    fn nugwier_error_name(code: u32, name: &mut Name<'static>);
    fn nugwier_error_text(status: &Status, text: *mut u8, text_len: usize) -> usize;
    fn nugwier_check(file: &File<'_, '_>, sound: &mut bool, fault: &mut Fault) -> Status;
    fn nugwier_faults(
        file: &File<'_, '_>,
        faults: *mut Fault,
        faults_len: usize,
        count: &mut usize,
    ) -> Status;
    fn nugwier_fault_text(fault: &Fault, text: *mut u8, text_len: usize) -> usize;
    fn nugwier_note(notes: &Notes<'_>, offset: &mut usize, note: &mut Note<'_>) -> Status;
    fn nugwier_symbol(table: &Table<'_>, index: usize, symbol: &mut Symbol) -> Status;
    fn nugwier_rel(table: &Table<'_>, index: usize, rel: &mut Rel) -> Status;
    fn nugwier_rela(table: &Table<'_>, index: usize, rela: &mut Rela) -> Status;
    fn nugwier_dynamic(table: &Table<'_>, index: usize, dynamic: &mut Dynamic) -> Status;
    fn nugwier_symbols(
        table: &Table<'_>,
        first: usize,
        symbols: *mut Symbol,
        symbols_len: usize,
    ) -> usize;
    fn nugwier_named_symbols(
        table: &Table<'_>,
        strings: *const u8,
        strings_len: usize,
        first: usize,
        symbols: *mut NamedSymbol<'_>,
        symbols_len: usize,
    ) -> usize;
    fn nugwier_sections(
        table: &Table<'_>,
        first: usize,
        sections: *mut Section,
        sections_len: usize,
    ) -> usize;
    fn nugwier_segments(
        table: &Table<'_>,
        first: usize,
        segments: *mut Segment,
        segments_len: usize,
    ) -> usize;
    fn nugwier_rels(table: &Table<'_>, first: usize, rels: *mut Rel, rels_len: usize) -> usize;
    fn nugwier_relas(table: &Table<'_>, first: usize, relas: *mut Rela, relas_len: usize) -> usize;
    fn nugwier_dynamics(
        table: &Table<'_>,
        first: usize,
        dynamics: *mut Dynamic,
        dynamics_len: usize,
    ) -> usize;
    fn nugwier_symbol_count(table: &Table<'_>) -> usize;
    fn nugwier_section_count(table: &Table<'_>) -> usize;
    fn nugwier_segment_count(table: &Table<'_>) -> usize;
    fn nugwier_rel_count(table: &Table<'_>) -> usize;
    fn nugwier_rela_count(table: &Table<'_>) -> usize;
    fn nugwier_dynamic_count(table: &Table<'_>) -> usize;
    fn nugwier_string(
        strings: *const u8,
        strings_len: usize,
        offset: usize,
        string: *mut Bytes<'_>,
    ) -> Status;
    fn nugwier_symbol_table(
        file: &File<'_, '_>,
        dynamic: bool,
        symbols: &mut SymbolTable<'_>,
    ) -> Status;
    fn nugwier_dynamic_table(file: &File<'_, '_>, dynamics: &mut DynamicTable<'_>) -> Status;
    fn nugwier_section_names(file: &File<'_, '_>, names: &mut SectionNames<'_>) -> Status;
    fn nugwier_dynamic_names(file: &File<'_, '_>, names: &mut DynamicNames<'_>) -> Status;
    fn nugwier_soname(names: &DynamicNames<'_>, soname: &mut FoundBytes<'_>) -> Status;
    fn nugwier_runpath(names: &DynamicNames<'_>, runpath: &mut FoundBytes<'_>) -> Status;
    fn nugwier_rpath(names: &DynamicNames<'_>, rpath: &mut FoundBytes<'_>) -> Status;
    fn nugwier_needed(
        names: &DynamicNames<'_>,
        next: &mut usize,
        needed: &mut Needed<'_>,
    ) -> Status;
    fn nugwier_build_id(file: &File<'_, '_>, id: &mut FoundBytes<'_>) -> Status;
    fn nugwier_symbol_at(symbols: &Table<'_>, address: u64, found: &mut Found);
    fn nugwier_section_by_name(
        file: &File<'_, '_>,
        name: *const u8,
        name_len: usize,
        found: &mut bool,
        section: &mut Section,
    ) -> Status;
    fn nugwier_version_table(file: &File<'_, '_>, versions: &mut Versions<'_>) -> Status;
    fn nugwier_version_index(
        versions: &Versions<'_>,
        symbol: usize,
        version: &mut Version,
    ) -> Status;
    fn nugwier_requirement(
        versions: &Versions<'_>,
        symbol: usize,
        requirement: &mut Requirement<'_>,
    ) -> Status;
    fn nugwier_definition(
        versions: &Versions<'_>,
        symbol: usize,
        defined: &mut Definition<'_>,
    ) -> Status;
    fn nugwier_version_name(
        names: &mut VersionNames<'_>,
        found: &mut bool,
        name: &mut Bytes<'_>,
    ) -> Status;
}

/// What a call wrote, if it succeeded.
///
/// # Safety
///
/// The call writes its result if its status is that of success.
#[inline(always)]
unsafe fn written<T>(status: Status, result: MaybeUninit<T>) -> Result<T, Status> {
    if status.code == 0 {
        Ok(result.assume_init())
    } else {
        Err(status)
    }
}

pub fn section_data<'a>(file: &File<'_, 'a>, section: &Section, part: &mut Data<'a>) -> Status {
    // SAFETY: the export accepts all values of these types, and writes values of these types.
    unsafe { nugwier_section_data(file, section, part) }
}

pub fn segment_data<'a>(file: &File<'_, 'a>, segment: &Segment, part: &mut Bytes<'a>) -> Status {
    // SAFETY: the export accepts all values of these types, and writes values of these types.
    unsafe { nugwier_segment_data(file, segment, part) }
}

pub fn section_strings<'a>(
    file: &File<'_, 'a>,
    section: &Section,
    strings: &mut Bytes<'a>,
) -> Status {
    // SAFETY: the export accepts all values of these types, and writes values of these types.
    unsafe { nugwier_section_strings(file, section, strings) }
}

pub fn section_rels<'a>(file: &File<'_, 'a>, section: &Section, table: &mut Table<'a>) -> Status {
    // SAFETY: the export accepts all values of these types, and writes values of these types.
    unsafe { nugwier_section_rels(file, section, table) }
}

pub fn section_relas<'a>(file: &File<'_, 'a>, section: &Section, table: &mut Table<'a>) -> Status {
    // SAFETY: the export accepts all values of these types, and writes values of these types.
    unsafe { nugwier_section_relas(file, section, table) }
}

pub fn section_notes<'a>(file: &File<'_, 'a>, section: &Section, notes: &mut Notes<'a>) -> Status {
    // SAFETY: the export accepts all values of these types, and writes values of these types.
    unsafe { nugwier_section_notes(file, section, notes) }
}

pub fn segment_notes<'a>(file: &File<'_, 'a>, segment: &Segment, notes: &mut Notes<'a>) -> Status {
    // SAFETY: the export accepts all values of these types, and writes values of these types.
    unsafe { nugwier_segment_notes(file, segment, notes) }
}

pub fn open<'a>(bytes: Bytes<'a>, file: &mut File<'_, 'a>) -> Status {
    // SAFETY: the export accepts all values of these types, and writes values of these types.
    unsafe { nugwier_open(bytes.at, bytes.len, file) }
}

/// Opens a file by the ranges that are loaded.
pub fn open_ranges<'r, 'a>(size: u64, ranges: &'r [Range<'a>], file: &mut File<'r, 'a>) -> Status {
    // SAFETY: the export accepts all values of these types, and writes values of these types.
    unsafe { nugwier_open_ranges(size, ranges.as_ptr(), ranges.len(), file) }
}

pub fn section(file: &File<'_, '_>, index: usize, section: &mut Section) -> Status {
    // SAFETY: the export accepts all values of these types, and writes values of these types.
    unsafe { nugwier_section(file, index, section) }
}

pub fn segment(file: &File<'_, '_>, index: usize, segment: &mut Segment) -> Status {
    // SAFETY: the export accepts all values of these types, and writes values of these types.
    unsafe { nugwier_segment(file, index, segment) }
}

pub fn gnu_open<'a>(little: bool, is_64: bool, section: Bytes<'a>, gnu: &mut Gnu<'a>) -> Status {
    // SAFETY: the export accepts all values of these types, and writes values of these types.
    unsafe { nugwier_gnu_open(little, is_64, section.at, section.len, gnu) }
}

pub fn sysv_open<'a>(little: bool, is_64: bool, section: Bytes<'a>, sysv: &mut Sysv<'a>) -> Status {
    // SAFETY: the export accepts all values of these types, and writes values of these types.
    unsafe { nugwier_sysv_open(little, is_64, section.at, section.len, sysv) }
}

// A field more or less would be seen here.
const _: () = assert!(
    core::mem::size_of::<GnuHashTable<'static, LittleEndian>>()
        == core::mem::size_of::<Gnu<'static>>()
);

#[inline]
pub fn gnu_look_up<E: EndianParse>(
    gnu: &GnuHashTable<'_, E>,
    symbols: &Table<'_>,
    strings: Bytes<'_>,
    name: Bytes<'_>,
) -> Result<Found, Status> {
    let gnu: *const GnuHashTable<'_, E> = gnu;
    let (at, len) = (strings.at, strings.len);
    let mut found = MaybeUninit::uninit();
    let place = found.as_mut_ptr();
    // SAFETY: the table has the fields of `Gnu` in their order, and both are `repr(C)`. The export accepts all values of
    // these types, and writes what was found if it succeeds.
    unsafe {
        let status = nugwier_gnu_look_up(gnu.cast(), symbols, at, len, name.at, name.len, place);
        written(status, found)
    }
}

#[inline]
pub fn sysv_look_up(
    sysv: &Sysv<'_>,
    symbols: &Table<'_>,
    strings: Bytes<'_>,
    name: Bytes<'_>,
) -> Result<Found, Status> {
    let (at, len) = (strings.at, strings.len);
    let mut found = MaybeUninit::uninit();
    let place = found.as_mut_ptr();
    // SAFETY: the export accepts all values of these types, and writes what was found if it succeeds.
    unsafe {
        let status = nugwier_sysv_look_up(sysv, symbols, at, len, name.at, name.len, place);
        written(status, found)
    }
}

pub fn common<'a>(file: &File<'_, 'a>, common: &mut Common<'a>) -> Status {
    // SAFETY: the export accepts all values of these types, and writes values of these types.
    unsafe { nugwier_common(file, common) }
}

pub fn e_osabi_name(e_osabi: u8, name: &mut Name<'static>) {
    // SAFETY: the export accepts all values of these types, and writes values of these types.
    unsafe { nugwier_e_osabi_name(e_osabi, name) }
}

pub fn e_type_name(e_type: u16, name: &mut Name<'static>) {
    // SAFETY: the export accepts all values of these types, and writes values of these types.
    unsafe { nugwier_e_type_name(e_type, name) }
}

pub fn e_machine_name(e_machine: u16, name: &mut Name<'static>) {
    // SAFETY: the export accepts all values of these types, and writes values of these types.
    unsafe { nugwier_e_machine_name(e_machine, name) }
}

pub fn sh_type_name(sh_type: u32, name: &mut Name<'static>) {
    // SAFETY: the export accepts all values of these types, and writes values of these types.
    unsafe { nugwier_sh_type_name(sh_type, name) }
}

pub fn p_type_name(p_type: u32, name: &mut Name<'static>) {
    // SAFETY: the export accepts all values of these types, and writes values of these types.
    unsafe { nugwier_p_type_name(p_type, name) }
}

pub fn st_symtype_name(st_symtype: u8, name: &mut Name<'static>) {
    // SAFETY: the export accepts all values of these types, and writes values of these types.
    unsafe { nugwier_st_symtype_name(st_symtype, name) }
}

pub fn st_bind_name(st_bind: u8, name: &mut Name<'static>) {
    // SAFETY: the export accepts all values of these types, and writes values of these types.
    unsafe { nugwier_st_bind_name(st_bind, name) }
}

pub fn st_vis_name(st_vis: u8, name: &mut Name<'static>) {
    // SAFETY: the export accepts all values of these types, and writes values of these types.
    unsafe { nugwier_st_vis_name(st_vis, name) }
}

pub fn ch_type_name(ch_type: u32, name: &mut Name<'static>) {
    // SAFETY: the export accepts all values of these types, and writes values of these types.
    unsafe { nugwier_ch_type_name(ch_type, name) }
}

pub fn note_abi_tag_os_name(os: u32, name: &mut Name<'static>) {
    // SAFETY: the export accepts all values of these types, and writes values of these types.
    unsafe { nugwier_note_abi_tag_os_name(os, name) }
}

pub fn d_tag_name(d_tag: i64, name: &mut Name<'static>) {
    // SAFETY: the export accepts all values of these types, and writes values of these types.
    unsafe { nugwier_d_tag_name(d_tag, name) }
}

pub fn r_type_name(e_machine: u16, r_type: u32, name: &mut Name<'static>) {
    // SAFETY: the export accepts all values of these types, and writes values of these types.
    unsafe { nugwier_r_type_name(e_machine, r_type, name) }
}

pub fn machine_sh_type_name(e_machine: u16, sh_type: u32, name: &mut Name<'static>) {
    // SAFETY: the export accepts all values of these types, and writes values of these types.
    unsafe { nugwier_machine_sh_type_name(e_machine, sh_type, name) }
}

pub fn machine_p_type_name(e_machine: u16, p_type: u32, name: &mut Name<'static>) {
    // SAFETY: the export accepts all values of these types, and writes values of these types.
    unsafe { nugwier_machine_p_type_name(e_machine, p_type, name) }
}

pub fn machine_d_tag_name(e_machine: u16, d_tag: i64, name: &mut Name<'static>) {
    // SAFETY: the export accepts all values of these types, and writes values of these types.
    unsafe { nugwier_machine_d_tag_name(e_machine, d_tag, name) }
}

pub fn n_type_name(owner: &[u8], n_type: u64, name: &mut Name<'static>) {
    // SAFETY: the pointer and the length are those of a slice, and the export writes values of these types.
    unsafe { nugwier_n_type_name(owner.as_ptr(), owner.len(), n_type, name) }
}

pub fn error_name(code: u32, name: &mut Name<'static>) {
    // SAFETY: the export accepts all values of these types, and writes values of these types.
    unsafe { nugwier_error_name(code, name) }
}

/// Writes the text of an error over the front of `text`, as far as there is room. Returns the length of the whole text.
pub fn error_text(status: &Status, text: &mut [u8]) -> usize {
    // SAFETY: the export writes bytes within this slice, which overlaps nothing.
    unsafe { nugwier_error_text(status, text.as_mut_ptr(), text.len()) }
}

pub fn check(file: &File<'_, '_>, sound: &mut bool, fault: &mut Fault) -> Status {
    // SAFETY: the export accepts all values of these types, and writes values of these types.
    unsafe { nugwier_check(file, sound, fault) }
}

/// Writes the first faults of a file over the front of `faults`. Returns how many.
pub fn faults(file: &File<'_, '_>, faults: &mut [Fault]) -> usize {
    let mut count = 0;
    // SAFETY: the export writes faults within this slice, which overlaps nothing.
    // All of the file is loaded, so there is no other status than that of success.
    unsafe { nugwier_faults(file, faults.as_mut_ptr(), faults.len(), &mut count) };
    count
}

/// Writes the text of a fault over the front of `text`, as far as there is room. Returns the length of the whole text.
pub fn fault_text(fault: &Fault, text: &mut [u8]) -> usize {
    // SAFETY: the export writes bytes within this slice, which overlaps nothing.
    unsafe { nugwier_fault_text(fault, text.as_mut_ptr(), text.len()) }
}

pub fn note<'a>(notes: &Notes<'a>, offset: &mut usize, note: &mut Note<'a>) -> Status {
    // SAFETY: the export accepts all values of these types, and writes values of these types.
    unsafe { nugwier_note(notes, offset, note) }
}

pub fn symbol(table: &Table<'_>, index: usize, symbol: &mut Symbol) -> Status {
    // SAFETY: the export accepts all values of these types, and writes values of these types.
    unsafe { nugwier_symbol(table, index, symbol) }
}

pub fn rel(table: &Table<'_>, index: usize, rel: &mut Rel) -> Status {
    // SAFETY: the export accepts all values of these types, and writes values of these types.
    unsafe { nugwier_rel(table, index, rel) }
}

pub fn rela(table: &Table<'_>, index: usize, rela: &mut Rela) -> Status {
    // SAFETY: the export accepts all values of these types, and writes values of these types.
    unsafe { nugwier_rela(table, index, rela) }
}

pub fn dynamic(table: &Table<'_>, index: usize, dynamic: &mut Dynamic) -> Status {
    // SAFETY: the export accepts all values of these types, and writes values of these types.
    unsafe { nugwier_dynamic(table, index, dynamic) }
}

pub fn symbols<const N: usize>(table: &Table<'_>, first: usize, places: &mut Places<Symbol, N>) {
    // SAFETY: the export accepts all values of these types, and fills as many of the places as it returns.
    unsafe { places.fill(|at, len| nugwier_symbols(table, first, at, len)) }
}

pub fn named_symbols<'a, const N: usize>(
    table: &Table<'_>,
    strings: Bytes<'a>,
    first: usize,
    places: &mut Places<NamedSymbol<'a>, N>,
) {
    let (bytes, bytes_len) = (strings.at, strings.len);
    // SAFETY: the export accepts all values of these types, and fills as many of the places as it returns.
    unsafe { places.fill(|at, len| nugwier_named_symbols(table, bytes, bytes_len, first, at, len)) }
}

pub fn sections<const N: usize>(table: &Table<'_>, first: usize, places: &mut Places<Section, N>) {
    // SAFETY: the export accepts all values of these types, and fills as many of the places as it returns.
    unsafe { places.fill(|at, len| nugwier_sections(table, first, at, len)) }
}

pub fn segments<const N: usize>(table: &Table<'_>, first: usize, places: &mut Places<Segment, N>) {
    // SAFETY: the export accepts all values of these types, and fills as many of the places as it returns.
    unsafe { places.fill(|at, len| nugwier_segments(table, first, at, len)) }
}

pub fn rels<const N: usize>(table: &Table<'_>, first: usize, places: &mut Places<Rel, N>) {
    // SAFETY: the export accepts all values of these types, and fills as many of the places as it returns.
    unsafe { places.fill(|at, len| nugwier_rels(table, first, at, len)) }
}

pub fn relas<const N: usize>(table: &Table<'_>, first: usize, places: &mut Places<Rela, N>) {
    // SAFETY: the export accepts all values of these types, and fills as many of the places as it returns.
    unsafe { places.fill(|at, len| nugwier_relas(table, first, at, len)) }
}

pub fn dynamics<const N: usize>(table: &Table<'_>, first: usize, places: &mut Places<Dynamic, N>) {
    // SAFETY: the export accepts all values of these types, and fills as many of the places as it returns.
    unsafe { places.fill(|at, len| nugwier_dynamics(table, first, at, len)) }
}

pub fn symbol_count(table: &Table<'_>) -> usize {
    // SAFETY: the export accepts all values of these types, and writes values of these types.
    unsafe { nugwier_symbol_count(table) }
}

pub fn section_count(table: &Table<'_>) -> usize {
    // SAFETY: the export accepts all values of these types, and writes values of these types.
    unsafe { nugwier_section_count(table) }
}

pub fn segment_count(table: &Table<'_>) -> usize {
    // SAFETY: the export accepts all values of these types, and writes values of these types.
    unsafe { nugwier_segment_count(table) }
}

pub fn rel_count(table: &Table<'_>) -> usize {
    // SAFETY: the export accepts all values of these types, and writes values of these types.
    unsafe { nugwier_rel_count(table) }
}

pub fn rela_count(table: &Table<'_>) -> usize {
    // SAFETY: the export accepts all values of these types, and writes values of these types.
    unsafe { nugwier_rela_count(table) }
}

pub fn dynamic_count(table: &Table<'_>) -> usize {
    // SAFETY: the export accepts all values of these types, and writes values of these types.
    unsafe { nugwier_dynamic_count(table) }
}

#[inline]
pub fn string(strings: Bytes<'_>, offset: usize) -> Result<Bytes<'_>, Status> {
    let mut string = MaybeUninit::uninit();
    // SAFETY: the export accepts all values of these types, and writes the string if it succeeds.
    unsafe {
        let status = nugwier_string(strings.at, strings.len, offset, string.as_mut_ptr());
        written(status, string)
    }
}

pub fn symbol_table<'a>(
    file: &File<'_, 'a>,
    dynamic: bool,
    symbols: &mut SymbolTable<'a>,
) -> Status {
    // SAFETY: the export accepts all values of these types, and writes values of these types.
    unsafe { nugwier_symbol_table(file, dynamic, symbols) }
}

pub fn dynamic_table<'a>(file: &File<'_, 'a>, dynamics: &mut DynamicTable<'a>) -> Status {
    // SAFETY: the export accepts all values of these types, and writes values of these types.
    unsafe { nugwier_dynamic_table(file, dynamics) }
}

pub fn section_names<'a>(file: &File<'_, 'a>, names: &mut SectionNames<'a>) -> Status {
    // SAFETY: the export accepts all values of these types, and writes values of these types.
    unsafe { nugwier_section_names(file, names) }
}

pub fn dynamic_names<'a>(file: &File<'_, 'a>, names: &mut DynamicNames<'a>) -> Status {
    // SAFETY: the export accepts all values of these types, and writes values of these types.
    unsafe { nugwier_dynamic_names(file, names) }
}

pub fn soname<'a>(names: &DynamicNames<'a>, soname: &mut FoundBytes<'a>) -> Status {
    // SAFETY: the export accepts all values of these types, and writes values of these types.
    unsafe { nugwier_soname(names, soname) }
}

pub fn runpath<'a>(names: &DynamicNames<'a>, runpath: &mut FoundBytes<'a>) -> Status {
    // SAFETY: the export accepts all values of these types, and writes values of these types.
    unsafe { nugwier_runpath(names, runpath) }
}

pub fn rpath<'a>(names: &DynamicNames<'a>, rpath: &mut FoundBytes<'a>) -> Status {
    // SAFETY: the export accepts all values of these types, and writes values of these types.
    unsafe { nugwier_rpath(names, rpath) }
}

pub fn needed<'a>(names: &DynamicNames<'a>, next: &mut usize, needed: &mut Needed<'a>) -> Status {
    // SAFETY: the export accepts all values of these types, and writes values of these types.
    unsafe { nugwier_needed(names, next, needed) }
}

pub fn build_id<'a>(file: &File<'_, 'a>, id: &mut FoundBytes<'a>) -> Status {
    // SAFETY: the export accepts all values of these types, and writes values of these types.
    unsafe { nugwier_build_id(file, id) }
}

pub fn symbol_at(symbols: &Table<'_>, address: u64, found: &mut Found) {
    // SAFETY: the export accepts all values of these types, and writes values of these types.
    unsafe { nugwier_symbol_at(symbols, address, found) }
}

pub fn section_by_name(
    file: &File<'_, '_>,
    name: Bytes<'_>,
    found: &mut bool,
    section: &mut Section,
) -> Status {
    // SAFETY: the export accepts all values of these types, and writes values of these types.
    unsafe { nugwier_section_by_name(file, name.at, name.len, found, section) }
}

pub fn version_table<'a>(file: &File<'_, 'a>, versions: &mut Versions<'a>) -> Status {
    // SAFETY: the export accepts all values of these types, and writes values of these types.
    unsafe { nugwier_version_table(file, versions) }
}

pub fn version_index(versions: &Versions<'_>, symbol: usize, version: &mut Version) -> Status {
    // SAFETY: the export accepts all values of these types, and writes values of these types.
    unsafe { nugwier_version_index(versions, symbol, version) }
}

pub fn requirement<'a>(
    versions: &Versions<'a>,
    symbol: usize,
    requirement: &mut Requirement<'a>,
) -> Status {
    // SAFETY: the export accepts all values of these types, and writes values of these types.
    unsafe { nugwier_requirement(versions, symbol, requirement) }
}

pub fn definition<'a>(
    versions: &Versions<'a>,
    symbol: usize,
    defined: &mut Definition<'a>,
) -> Status {
    // SAFETY: the export accepts all values of these types, and writes values of these types.
    unsafe { nugwier_definition(versions, symbol, defined) }
}

pub fn version_name<'a>(
    names: &mut VersionNames<'a>,
    found: &mut bool,
    name: &mut Bytes<'a>,
) -> Status {
    // SAFETY: the export accepts all values of these types, and writes values of these types.
    unsafe { nugwier_version_name(names, found, name) }
}
