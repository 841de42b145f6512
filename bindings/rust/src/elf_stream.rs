//! The reader over a source that is read on demand.
use crate::abi;
use crate::compression::CompressionHeader;
use crate::dynamic::DynamicTable;
use crate::elf_bytes::{with_strings, SymbolsWithStrings};
use crate::endian::EndianParse;
use crate::ffi;
use crate::file::{parse_ident, Class, FileHeader, ELF32_EHDR_TAILSIZE, ELF64_EHDR_TAILSIZE};
use crate::gnu_symver::SymbolVersionTable;
use crate::note::NoteIterator;
use crate::parse::{checked, ParseAt, ParseError, ParsingTable};
use crate::records::Record;
use crate::relocation::{RelIterator, RelaIterator};
use crate::section::SectionHeader;
use crate::segment::ProgramHeader;
use crate::string_table::StringTable;
use std::collections::HashMap;
use std::io::{ErrorKind, Read, Seek, SeekFrom};

/// The start and the end of a range of a file.
type Place = (u64, u64);

/// A source, with the ranges of it that are loaded.
#[derive(Debug)]
struct Source<S: Read + Seek> {
    source: S,
    size: u64,
    loaded: HashMap<Place, Box<[u8]>>,
    /// How many bytes these ranges have.
    loaded_size: u64,
}

/// How many bytes are reserved before any is read. More follow as the source gives them.
const RESERVED: u64 = 1 << 16;

impl<S: Read + Seek> Source<S> {
    fn new(mut source: S) -> Result<Self, ParseError> {
        let size = source.seek(SeekFrom::End(0))?;
        Ok(Source {
            source,
            size,
            loaded: HashMap::new(),
            loaded_size: 0,
        })
    }

    /// Loads a range, if it is not loaded yet. If the loaded ranges would have more bytes than the source, only those
    /// that are kept stay loaded: of a file whose sections overlap, all of them would need much more.
    fn load(&mut self, place: Place, kept: &[Place]) -> Result<(), ParseError> {
        if self.loaded.contains_key(&place) {
            return Ok(());
        }
        let bytes = self.read(place)?;
        self.loaded_size += bytes.len() as u64;
        if self.loaded_size > self.size {
            self.keep(kept);
            self.loaded_size += bytes.len() as u64;
        }
        self.loaded.insert(place, bytes);
        Ok(())
    }

    /// Drops all loaded ranges but these.
    fn keep(&mut self, kept: &[Place]) {
        self.loaded.retain(|place, _| kept.contains(place));
        self.loaded_size = self.loaded.keys().map(|(start, end)| end - start).sum();
    }

    /// Reads a range. Of a range that does not lie in the source, nothing is read.
    fn read(&mut self, (start, end): Place) -> Result<Box<[u8]>, ParseError> {
        if end > self.size {
            return Err(ParseError::BadOffset(end));
        }
        let size = end - start;
        let mut bytes = Vec::with_capacity(size.min(RESERVED) as usize);
        self.source.seek(SeekFrom::Start(start))?;
        self.source.by_ref().take(size).read_to_end(&mut bytes)?;
        if bytes.len() as u64 != size {
            return Err(std::io::Error::from(ErrorKind::UnexpectedEof).into());
        }
        Ok(bytes.into_boxed_slice())
    }

    /// The byte order of the file. That this type does not have it is an error before those of what follows the
    /// identification; that the entry size of section headers is wrong, or that header 0 with their number does not lie
    /// in the source, before those of their table.
    fn endianness<E: EndianParse>(&mut self) -> Result<E, ParseError> {
        let start = abi::EI_NIDENT as u64;
        let ident = parse_ident::<E>(&self.read((0, start))?)?;
        let size = match ident.1 {
            Class::ELF32 => ELF32_EHDR_TAILSIZE,
            Class::ELF64 => ELF64_EHDR_TAILSIZE,
        };
        let tail = self.read((start, start + size as u64))?;
        let header = FileHeader::parse_tail(ident, &tail)?;
        if header.e_shoff > 0 {
            let size = SectionHeader::validate_entsize(header.class, header.e_shentsize.into())?;
            if header.e_shnum == 0 {
                let end = header.e_shoff.checked_add(size as u64);
                self.read((header.e_shoff, end.ok_or(ParseError::IntegerOverflow)?))?;
            }
        }
        Ok(header.endianness)
    }

    /// These ranges, which are loaded, for the library.
    fn ranges(&self, places: &[Place]) -> Vec<ffi::Range<'_>> {
        let range = |place: &Place| {
            let bytes = ffi::Bytes::new(self.loaded.get(place)?);
            Some(ffi::Range {
                start: place.0,
                bytes,
            })
        };
        places.iter().filter_map(range).collect()
    }

    /// What a status says. A range past the end of the source is an error of its end.
    fn checked(&self, status: ffi::Status) -> Result<(), ParseError> {
        match checked(status) {
            Err(ParseError::SliceReadError((_, end))) if end as u64 > self.size => {
                Err(ParseError::BadOffset(end as u64))
            }
            other => other,
        }
    }

    /// Makes a call of the library over the ranges that are wanted, loads the range that it misses, and makes it again,
    /// until it misses none. Returns the ranges that it read.
    fn load_for<F>(&mut self, mut call: F) -> Result<Vec<Place>, ParseError>
    where
        F: FnMut(&[ffi::Range<'_>], u64) -> ffi::Status,
    {
        let mut wanted = Vec::new();
        loop {
            let status = call(&self.ranges(&wanted), self.size);
            match status.missing() {
                Some(place) => {
                    self.load(place, &wanted)?;
                    wanted.push(place);
                }
                None => return self.checked(status).map(|()| wanted),
            }
        }
    }
}

/// An ELF file in a source that is read on demand, with its header and its two tables of headers.
///
/// What a method reads stays loaded for later calls, as long as all of it is not more than the source has.
///
/// ```no_run
/// use nugwier::{endian::AnyEndian, ElfStream};
///
/// let source = std::fs::File::open("/bin/sh").unwrap();
/// let mut file = ElfStream::<AnyEndian, _>::open_stream(source).unwrap();
/// if let Some((symbols, strings)) = file.dynamic_symbol_table().unwrap() {
///     for symbol in symbols.iter() {
///         println!("{}", strings.get(symbol.st_name as usize).unwrap());
///     }
/// }
/// ```
#[derive(Debug)]
pub struct ElfStream<E: EndianParse, S: Read + Seek> {
    /// The header, which the methods use as it is.
    pub ehdr: FileHeader<E>,
    shdrs: Vec<SectionHeader>,
    phdrs: Vec<ProgramHeader>,
    /// The bytes of the two tables of headers, none if the file does not have one.
    section_table: Box<[u8]>,
    segment_table: Box<[u8]>,
    source: Source<S>,
}

/// Makes a call of the library for the file of a stream: first to load what it reads, then for what it writes.
macro_rules! written_by {
    ($stream:ident, $call:path $(, $argument:expr)*) => {{
        let headers = Headers::of(&$stream.ehdr, &$stream.section_table, &$stream.segment_table);
        let wanted = $stream.source.load_for(|ranges, size| {
            $call(&headers.file(ranges, size), $($argument,)* &mut Default::default())
        })?;
        let ranges = $stream.source.ranges(&wanted);
        let file = headers.file(&ranges, $stream.source.size);
        let mut written = Default::default();
        $stream.source.checked($call(&file, $($argument,)* &mut written))?;
        written
    }};
}

/// The headers of a file, for the library.
#[derive(Clone, Copy)]
struct Headers<'a> {
    header: ffi::Header,
    sections: ffi::Table<'a>,
    segments: ffi::Table<'a>,
}

impl<'a> Headers<'a> {
    fn of<E: EndianParse>(ehdr: &FileHeader<E>, sections: &'a [u8], segments: &'a [u8]) -> Self {
        Headers {
            header: ehdr.raw(),
            sections: ffi::Table::new(ehdr.endianness, ehdr.class, sections),
            segments: ffi::Table::new(ehdr.endianness, ehdr.class, segments),
        }
    }

    /// The file of this size, with the ranges that are loaded. As in the crate `elf`, an empty table is none.
    fn file<'r>(&self, ranges: &'r [ffi::Range<'a>], size: u64) -> ffi::File<'r, 'a> {
        ffi::File {
            header: self.header,
            size,
            bytes: ffi::Bytes::default(),
            ranges: ffi::Ranges::new(ranges),
            has_sections: !self.sections.bytes.get().is_empty(),
            has_segments: !self.segments.bytes.get().is_empty(),
            sections: self.sections,
            segments: self.segments,
        }
    }
}

/// A section all of whose bytes are read, those of a compression header too, as the crate `elf` does in a stream.
fn with_all_bytes(shdr: &SectionHeader) -> ffi::Section {
    let flags = shdr.sh_flags & !u64::from(abi::SHF_COMPRESSED);
    ffi::Section {
        flags,
        ..shdr.raw()
    }
}

impl<E: EndianParse, S: Read + Seek> ElfStream<E, S> {
    /// Opens a file: reads its header and its two tables of headers.
    pub fn open_stream(reader: S) -> Result<ElfStream<E, S>, ParseError> {
        let mut source = Source::new(reader)?;
        let endianness = source.endianness()?;
        let wanted = source
            .load_for(|ranges, size| ffi::open_ranges(size, ranges, &mut ffi::File::default()))?;
        let ranges = source.ranges(&wanted);
        let mut file = ffi::File::default();
        source.checked(ffi::open_ranges(source.size, &ranges, &mut file))?;
        let mut stream = ElfStream {
            ehdr: FileHeader::of(&file.header, endianness),
            shdrs: records(endianness, &file.sections),
            phdrs: records(endianness, &file.segments),
            section_table: file.sections.bytes.get().into(),
            segment_table: file.segments.bytes.get().into(),
            source,
        };
        stream.source.keep(&[]);
        Ok(stream)
    }

    /// The program headers.
    pub fn segments(&self) -> &Vec<ProgramHeader> {
        &self.phdrs
    }

    /// The section headers.
    pub fn section_headers(&self) -> &Vec<SectionHeader> {
        &self.shdrs
    }

    /// The section headers, and the table of their names.
    pub fn section_headers_with_strtab(
        &mut self,
    ) -> Result<(&Vec<SectionHeader>, Option<StringTable<'_>>), ParseError> {
        let names: ffi::SectionNames<'_> = written_by!(self, ffi::section_names);
        let strings = names.found.then(|| StringTable::new(names.strings.get()));
        Ok((&self.shdrs, strings))
    }

    /// The first section with a name.
    pub fn section_header_by_name(
        &mut self,
        name: &str,
    ) -> Result<Option<&SectionHeader>, ParseError> {
        let headers = Headers::of(&self.ehdr, &self.section_table, &self.segment_table);
        let (mut found, mut section) = (false, ffi::Section::default());
        let wanted = ffi::Bytes::new(name.as_bytes());
        self.source.load_for(|ranges, size| {
            let file = headers.file(ranges, size);
            ffi::section_by_name(&file, wanted, &mut found, &mut section)
        })?;
        let section = SectionHeader::of(&section);
        Ok(self
            .shdrs
            .iter()
            .find(|header| found && **header == section))
    }

    /// The bytes of a section, and its compression header if it has one.
    pub fn section_data(
        &mut self,
        shdr: &SectionHeader,
    ) -> Result<(&[u8], Option<CompressionHeader>), ParseError> {
        let part: ffi::Data<'_> = written_by!(self, ffi::section_data, &shdr.raw());
        Ok((part.bytes.get(), CompressionHeader::of(&part.compression)))
    }

    /// The strings of a section of type `SHT_STRTAB`.
    pub fn section_data_as_strtab(
        &mut self,
        shdr: &SectionHeader,
    ) -> Result<StringTable<'_>, ParseError> {
        let strings: ffi::Bytes<'_> =
            written_by!(self, ffi::section_strings, &with_all_bytes(shdr));
        Ok(StringTable::new(strings.get()))
    }

    /// The relocations of a section of type `SHT_REL`.
    pub fn section_data_as_rels(
        &mut self,
        shdr: &SectionHeader,
    ) -> Result<RelIterator<'_, E>, ParseError> {
        let table = written_by!(self, ffi::section_rels, &with_all_bytes(shdr));
        Ok(ParsingTable::of(self.ehdr.endianness, &table).iter())
    }

    /// The relocations of a section of type `SHT_RELA`.
    pub fn section_data_as_relas(
        &mut self,
        shdr: &SectionHeader,
    ) -> Result<RelaIterator<'_, E>, ParseError> {
        let table = written_by!(self, ffi::section_relas, &with_all_bytes(shdr));
        Ok(ParsingTable::of(self.ehdr.endianness, &table).iter())
    }

    /// The notes of a section of type `SHT_NOTE`.
    pub fn section_data_as_notes(
        &mut self,
        shdr: &SectionHeader,
    ) -> Result<NoteIterator<'_, E>, ParseError> {
        let notes = written_by!(self, ffi::section_notes, &with_all_bytes(shdr));
        Ok(NoteIterator::of(notes))
    }

    /// The bytes of a segment in the file.
    pub fn segment_data(&mut self, phdr: &ProgramHeader) -> Result<&[u8], ParseError> {
        let part: ffi::Bytes<'_> = written_by!(self, ffi::segment_data, &phdr.raw());
        Ok(part.get())
    }

    /// The notes of a segment of type `PT_NOTE`.
    pub fn segment_data_as_notes(
        &mut self,
        phdr: &ProgramHeader,
    ) -> Result<NoteIterator<'_, E>, ParseError> {
        let notes = written_by!(self, ffi::segment_notes, &phdr.raw());
        Ok(NoteIterator::of(notes))
    }

    /// The dynamic entries: of the section of type `SHT_DYNAMIC`, or of the segment if there are no sections. As in the
    /// crate `elf`, the entry size is not checked.
    pub fn dynamic(&mut self) -> Result<Option<DynamicTable<'_, E>>, ParseError> {
        let (sections, segments) = (&self.shdrs, &self.phdrs);
        let section = sections.iter().find(|one| one.sh_type == abi::SHT_DYNAMIC);
        let segment = segments.iter().find(|one| one.p_type == abi::PT_DYNAMIC);
        let bytes: ffi::Bytes<'_> = match (section, segment) {
            (Some(section), _) => {
                let part: ffi::Data<'_> =
                    written_by!(self, ffi::section_data, &with_all_bytes(section));
                part.bytes
            }
            (None, Some(segment)) if sections.is_empty() => {
                written_by!(self, ffi::segment_data, &segment.raw())
            }
            _ => return Ok(None),
        };
        let (endian, class) = (self.ehdr.endianness, self.ehdr.class);
        Ok(Some(DynamicTable::new(endian, class, bytes.get())))
    }

    /// The symbols of the first section of type `SHT_SYMTAB`, and their strings.
    pub fn symbol_table(&mut self) -> Result<Option<SymbolsWithStrings<'_, E>>, ParseError> {
        let table = written_by!(self, ffi::symbol_table, false);
        Ok(with_strings(self.ehdr.endianness, &table))
    }

    /// The symbols of the first section of type `SHT_DYNSYM`, and their strings.
    pub fn dynamic_symbol_table(
        &mut self,
    ) -> Result<Option<SymbolsWithStrings<'_, E>>, ParseError> {
        let table = written_by!(self, ffi::symbol_table, true);
        Ok(with_strings(self.ehdr.endianness, &table))
    }

    /// The versions of the dynamic symbols.
    pub fn symbol_version_table(
        &mut self,
    ) -> Result<Option<SymbolVersionTable<'_, E>>, ParseError> {
        let endianness = self.ehdr.endianness;
        let versions: ffi::Versions<'_> = written_by!(self, ffi::version_table);
        Ok(versions
            .found
            .then(|| SymbolVersionTable::of(endianness, versions)))
    }
}

/// The records of a table of headers.
fn records<E: EndianParse, P: ParseAt>(endian: E, table: &ffi::Table<'_>) -> Vec<P> {
    ParsingTable::of(endian, table).iter().collect()
}
