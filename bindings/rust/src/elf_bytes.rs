//! The reader over a slice of a file's bytes.
use crate::abi;
use crate::compression::CompressionHeader;
use crate::dynamic::DynamicTable;
use crate::endian::EndianParse;
use crate::ffi;
use crate::file::{parse_ident, Class, FileHeader};
use crate::gnu_symver::SymbolVersionTable;
use crate::hash::{GnuHashTable, SysVHashTable};
use crate::note::NoteIterator;
use crate::parse::{checked, ParseError, ParsingTable};
use crate::records::Record;
use crate::relocation::{RelIterator, RelaIterator};
use crate::section::{SectionHeader, SectionHeaderTable};
use crate::segment::{ProgramHeader, SegmentTable};
use crate::string_table::StringTable;
use crate::symbol::SymbolTable;

/// An ELF file in a slice of bytes, with its header and its two tables of headers.
#[derive(Debug)]
pub struct ElfBytes<'data, E: EndianParse> {
    /// The header, which the methods use as it is.
    pub ehdr: FileHeader<E>,
    file: ffi::File<'data, 'data>,
}

/// The sections that are looked up most often. A field is `None` if the file does not have it.
#[derive(Debug, Default)]
pub struct CommonElfData<'data, E: EndianParse> {
    /// The symbols of a section of type `SHT_SYMTAB`.
    pub symtab: Option<SymbolTable<'data, E>>,
    /// Their strings.
    pub symtab_strs: Option<StringTable<'data>>,
    /// The symbols of a section of type `SHT_DYNSYM`.
    pub dynsyms: Option<SymbolTable<'data, E>>,
    /// Their strings.
    pub dynsyms_strs: Option<StringTable<'data>>,
    /// The dynamic entries.
    pub dynamic: Option<DynamicTable<'data, E>>,
    /// The table of a section of type `SHT_HASH`.
    pub sysv_hash: Option<SysVHashTable<'data, E>>,
    /// The table of a section of type `SHT_GNU_HASH`.
    pub gnu_hash: Option<GnuHashTable<'data, E>>,
}

pub(crate) type SymbolsWithStrings<'data, E> = (SymbolTable<'data, E>, StringTable<'data>);

impl<'data, E: EndianParse> ElfBytes<'data, E> {
    /// Opens a file: reads its header, and finds its two tables of headers.
    pub fn minimal_parse(data: &'data [u8]) -> Result<Self, ParseError> {
        // an order that this type does not have is an error before those of what follows the identification
        let ident = data.get(..abi::EI_NIDENT);
        let ident = ident.ok_or(ParseError::SliceReadError((0, abi::EI_NIDENT)))?;
        let (endianness, ..) = parse_ident::<E>(ident)?;
        let mut file = ffi::File::default();
        checked(ffi::open(ffi::Bytes::new(data), &mut file))?;
        Ok(ElfBytes {
            ehdr: FileHeader::of(&file.header, endianness),
            file,
        })
    }

    /// The file with the current header, of which the library uses these three fields.
    #[inline]
    pub(crate) fn handle(&self) -> ffi::File<'data, 'data> {
        ffi::File {
            header: ffi::Header {
                little: self.ehdr.endianness.is_little(),
                is_64: self.ehdr.class == Class::ELF64,
                shstrndx: self.ehdr.e_shstrndx,
                ..self.file.header
            },
            ..self.file
        }
    }

    /// The program headers, if the file declares any.
    pub fn segments(&self) -> Option<SegmentTable<'data, E>> {
        self.file
            .has_segments
            .then(|| ParsingTable::of(self.ehdr.endianness, &self.file.segments))
    }

    /// The section headers, if the file declares any.
    pub fn section_headers(&self) -> Option<SectionHeaderTable<'data, E>> {
        self.file
            .has_sections
            .then(|| ParsingTable::of(self.ehdr.endianness, &self.file.sections))
    }

    /// The section headers, and the table of their names.
    pub fn section_headers_with_strtab(
        &self,
    ) -> Result<
        (
            Option<SectionHeaderTable<'data, E>>,
            Option<StringTable<'data>>,
        ),
        ParseError,
    > {
        let mut names = ffi::SectionNames::default();
        checked(ffi::section_names(&self.handle(), &mut names))?;
        let strings = names.found.then(|| StringTable::new(names.strings.get()));
        Ok((self.section_headers(), strings))
    }

    /// The first section with a name.
    pub fn section_header_by_name(&self, name: &str) -> Result<Option<SectionHeader>, ParseError> {
        let (mut found, mut section) = (false, ffi::Section::default());
        let wanted = ffi::Bytes::new(name.as_bytes());
        checked(ffi::section_by_name(
            &self.handle(),
            wanted,
            &mut found,
            &mut section,
        ))?;
        Ok(found.then(|| SectionHeader::of(&section)))
    }

    /// The bytes of a section, and its compression header if it has one.
    pub fn section_data(
        &self,
        shdr: &SectionHeader,
    ) -> Result<(&'data [u8], Option<CompressionHeader>), ParseError> {
        let mut part = ffi::Data::default();
        checked(ffi::section_data(&self.handle(), &shdr.raw(), &mut part))?;
        Ok((part.bytes.get(), CompressionHeader::of(&part.compression)))
    }

    /// The strings of a section of type `SHT_STRTAB`.
    pub fn section_data_as_strtab(
        &self,
        shdr: &SectionHeader,
    ) -> Result<StringTable<'data>, ParseError> {
        let mut strings = ffi::Bytes::default();
        checked(ffi::section_strings(
            &self.handle(),
            &shdr.raw(),
            &mut strings,
        ))?;
        Ok(StringTable::new(strings.get()))
    }

    /// The relocations of a section of type `SHT_REL`.
    pub fn section_data_as_rels(
        &self,
        shdr: &SectionHeader,
    ) -> Result<RelIterator<'data, E>, ParseError> {
        let mut table = ffi::Table::default();
        checked(ffi::section_rels(&self.handle(), &shdr.raw(), &mut table))?;
        Ok(ParsingTable::of(self.ehdr.endianness, &table).iter())
    }

    /// The relocations of a section of type `SHT_RELA`.
    pub fn section_data_as_relas(
        &self,
        shdr: &SectionHeader,
    ) -> Result<RelaIterator<'data, E>, ParseError> {
        let mut table = ffi::Table::default();
        checked(ffi::section_relas(&self.handle(), &shdr.raw(), &mut table))?;
        Ok(ParsingTable::of(self.ehdr.endianness, &table).iter())
    }

    /// The notes of a section of type `SHT_NOTE`.
    pub fn section_data_as_notes(
        &self,
        shdr: &SectionHeader,
    ) -> Result<NoteIterator<'data, E>, ParseError> {
        let mut notes = ffi::Notes::default();
        checked(ffi::section_notes(&self.handle(), &shdr.raw(), &mut notes))?;
        Ok(NoteIterator::of(notes))
    }

    /// The bytes of a segment in the file.
    pub fn segment_data(&self, phdr: &ProgramHeader) -> Result<&'data [u8], ParseError> {
        let mut part = ffi::Bytes::default();
        checked(ffi::segment_data(&self.handle(), &phdr.raw(), &mut part))?;
        Ok(part.get())
    }

    /// The notes of a segment of type `PT_NOTE`.
    pub fn segment_data_as_notes(
        &self,
        phdr: &ProgramHeader,
    ) -> Result<NoteIterator<'data, E>, ParseError> {
        let mut notes = ffi::Notes::default();
        checked(ffi::segment_notes(&self.handle(), &phdr.raw(), &mut notes))?;
        Ok(NoteIterator::of(notes))
    }

    /// The dynamic entries.
    pub fn dynamic(&self) -> Result<Option<DynamicTable<'data, E>>, ParseError> {
        let mut table = ffi::DynamicTable::default();
        checked(ffi::dynamic_table(&self.handle(), &mut table))?;
        Ok(table
            .found
            .then(|| ParsingTable::of(self.ehdr.endianness, &table.entries)))
    }

    fn symbols(&self, dynamic: bool) -> Result<Option<SymbolsWithStrings<'data, E>>, ParseError> {
        let mut table = ffi::SymbolTable::default();
        checked(ffi::symbol_table(&self.handle(), dynamic, &mut table))?;
        Ok(with_strings(self.ehdr.endianness, &table))
    }

    /// The symbols of the first section of type `SHT_SYMTAB`, and their strings.
    pub fn symbol_table(&self) -> Result<Option<SymbolsWithStrings<'data, E>>, ParseError> {
        self.symbols(false)
    }

    /// The symbols of the first section of type `SHT_DYNSYM`, and their strings.
    pub fn dynamic_symbol_table(&self) -> Result<Option<SymbolsWithStrings<'data, E>>, ParseError> {
        self.symbols(true)
    }

    /// The versions of the dynamic symbols.
    pub fn symbol_version_table(&self) -> Result<Option<SymbolVersionTable<'data, E>>, ParseError> {
        let mut versions = ffi::Versions::default();
        checked(ffi::version_table(&self.handle(), &mut versions))?;
        Ok(versions
            .found
            .then(|| SymbolVersionTable::of(self.ehdr.endianness, versions)))
    }

    /// The symbols, the dynamic entries and the hash sections, found in one pass over the sections.
    pub fn find_common_data(&self) -> Result<CommonElfData<'data, E>, ParseError> {
        let mut found = ffi::Common::default();
        checked(ffi::common(&self.handle(), &mut found))?;
        let all = with_strings(self.ehdr.endianness, &found.symbols);
        let dynamic_ones = with_strings(self.ehdr.endianness, &found.dynamic_symbols);
        let dynamic = found.dynamics;
        Ok(CommonElfData {
            symtab: all.map(|(symbols, _)| symbols),
            symtab_strs: all.map(|(_, strings)| strings),
            dynsyms: dynamic_ones.map(|(symbols, _)| symbols),
            dynsyms_strs: dynamic_ones.map(|(_, strings)| strings),
            dynamic: dynamic
                .found
                .then(|| ParsingTable::of(self.ehdr.endianness, &dynamic.entries)),
            sysv_hash: found.has_sysv.then(|| SysVHashTable::of(found.sysv)),
            gnu_hash: found.has_gnu.then(|| GnuHashTable::of(found.gnu)),
        })
    }
}

/// A table of symbols and their strings, if it was found.
pub(crate) fn with_strings<'data, E: EndianParse>(
    endian: E,
    table: &ffi::SymbolTable<'data>,
) -> Option<SymbolsWithStrings<'data, E>> {
    table.found.then(|| {
        (
            ParsingTable::of(endian, &table.symbols),
            StringTable::new(table.strings.get()),
        )
    })
}
