//! The versions of symbols.
use crate::abi;
use crate::endian::EndianParse;
use crate::ffi;
use crate::file::Class;
use crate::parse::{checked, ParseAt, ParseError, ParsingTable};
use crate::string_table::StringTable;
use core::marker::PhantomData;

/// The version of a symbol that another file must have.
#[derive(Debug, PartialEq, Eq)]
pub struct SymbolRequirement<'data> {
    /// The name of the file.
    pub file: &'data str,
    /// The name of the version.
    pub name: &'data str,
    /// The hash of this name.
    pub hash: u32,
    /// The flags of the version.
    pub flags: u16,
    /// Whether the version index of the symbol is hidden.
    pub hidden: bool,
}

/// The version with which a symbol is defined.
#[derive(Debug)]
pub struct SymbolDefinition<'data, E: EndianParse> {
    /// The hash of the version's name.
    pub hash: u32,
    /// The flags of the version.
    pub flags: u16,
    /// The name of the version, and those of the versions that it is based on.
    pub names: SymbolNamesIterator<'data, E>,
    /// Whether the version index of the symbol is hidden.
    pub hidden: bool,
}

/// The names of a version.
#[derive(Debug)]
pub struct SymbolNamesIterator<'data, E: EndianParse> {
    names: ffi::VersionNames<'data>,
    order: PhantomData<E>,
}

impl<'data, E: EndianParse> SymbolNamesIterator<'data, E> {
    /// The names of a definition's entries, in their table of strings.
    pub fn new(vda_iter: VerDefAuxIterator<'data, E>, strtab: &'data StringTable<'data>) -> Self {
        let links = vda_iter.links;
        SymbolNamesIterator::of(ffi::VersionNames {
            count: links.left,
            offset: links.offset,
            entries: ffi::Table::new(links.endian, links.class, links.data),
            strings: strtab.bytes(),
        })
    }

    fn of(names: ffi::VersionNames<'data>) -> Self {
        SymbolNamesIterator {
            names,
            order: PhantomData,
        }
    }
}

impl<'data, E: EndianParse> Iterator for SymbolNamesIterator<'data, E> {
    type Item = Result<&'data str, ParseError>;

    fn next(&mut self) -> Option<Result<&'data str, ParseError>> {
        let (mut found, mut name) = (false, ffi::Bytes::default());
        let status = ffi::version_name(&mut self.names, &mut found, &mut name);
        if !found {
            return None;
        }
        Some(checked(status).and_then(|()| Ok(core::str::from_utf8(name.get())?)))
    }
}

/// The versions of the symbols of a file.
#[derive(Debug)]
pub struct SymbolVersionTable<'data, E: EndianParse> {
    versions: ffi::Versions<'data>,
    verneeds: Option<VerNeedIterator<'data, E>>,
}

impl<'data, E: EndianParse> SymbolVersionTable<'data, E> {
    /// The table of these version indexes, needs and definitions, each of the latter two with its strings.
    pub fn new(
        version_ids: VersionIndexTable<'data, E>,
        verneeds: Option<(VerNeedIterator<'data, E>, StringTable<'data>)>,
        verdefs: Option<(VerDefIterator<'data, E>, StringTable<'data>)>,
    ) -> Self {
        let needs = verneeds.map(|(needs, strings)| needs.links.entries(&strings));
        let definitions = verdefs.map(|(definitions, strings)| definitions.links.entries(&strings));
        SymbolVersionTable {
            versions: ffi::Versions {
                found: true,
                indexes: *version_ids.raw(),
                needs: needs.unwrap_or_default(),
                definitions: definitions.unwrap_or_default(),
            },
            verneeds: verneeds.map(|(needs, _)| needs),
        }
    }

    /// The table that the library found in a file of this order.
    pub(crate) fn of(endian: E, versions: ffi::Versions<'data>) -> Self {
        let needs = versions.needs;
        let verneeds = needs.found.then(|| {
            let class = Class::of(needs.entries.is_64);
            VerNeedIterator::new(endian, class, needs.count, 0, needs.entries.bytes.get())
        });
        SymbolVersionTable { versions, verneeds }
    }

    #[cfg(feature = "std")]
    pub(crate) fn raw(&self) -> &ffi::Versions<'data> {
        &self.versions
    }

    /// The version that a symbol needs of another file.
    pub fn get_requirement(
        &self,
        sym_idx: usize,
    ) -> Result<Option<SymbolRequirement<'_>>, ParseError> {
        let mut found = ffi::Requirement::default();
        if let Err(error) = checked(ffi::requirement(&self.versions, sym_idx, &mut found)) {
            return Err(self.file_name_error(sym_idx).unwrap_or(error));
        }
        if !found.found {
            return Ok(None);
        }
        Ok(Some(SymbolRequirement {
            file: core::str::from_utf8(found.file.get())?,
            name: core::str::from_utf8(found.name.get())?,
            hash: found.hash,
            flags: found.flags,
            hidden: found.hidden,
        }))
    }

    // The error of the name of the file that a symbol needs, if it has one: that it is not UTF-8 comes before an error
    // of the version's name. The library reads both names as bytes.
    fn file_name_error(&self, sym_idx: usize) -> Option<ParseError> {
        let mut index = ffi::Version::default();
        checked(ffi::version_index(&self.versions, sym_idx, &mut index)).ok()?;
        for (need, mut versions) in self.verneeds? {
            if versions.any(|version| version.vna_other == index.index) {
                let strings = StringTable::new(self.versions.needs.strings.get());
                return strings.get(need.vn_file as usize).err();
            }
        }
        None
    }

    /// The version with which a symbol is defined.
    pub fn get_definition(
        &self,
        sym_idx: usize,
    ) -> Result<Option<SymbolDefinition<'_, E>>, ParseError> {
        let mut found = ffi::Definition::default();
        checked(ffi::definition(&self.versions, sym_idx, &mut found))?;
        Ok(found.found.then(|| SymbolDefinition {
            hash: found.hash,
            flags: found.flags,
            names: SymbolNamesIterator::of(found.names),
            hidden: found.hidden,
        }))
    }
}

/// The version indexes of a file's dynamic symbols.
pub type VersionIndexTable<'data, E> = ParsingTable<'data, E, VersionIndex>;

/// The version index of a symbol: the lower 15 bits are the index, bit 15 says that it is hidden.
#[derive(Debug, PartialEq, Eq)]
pub struct VersionIndex(pub u16);

impl VersionIndex {
    /// The index, without bit 15.
    pub fn index(&self) -> u16 {
        self.0 & abi::VER_NDX_VERSION
    }

    /// Whether the symbol is local.
    pub fn is_local(&self) -> bool {
        self.index() == abi::VER_NDX_LOCAL
    }

    /// Whether the symbol is global, and has no version.
    pub fn is_global(&self) -> bool {
        self.index() == abi::VER_NDX_GLOBAL
    }

    /// Whether the version is hidden: only a reference that names it finds the symbol.
    pub fn is_hidden(&self) -> bool {
        self.0 & abi::VER_NDX_HIDDEN != 0
    }
}

impl ParseAt for VersionIndex {
    fn parse_at<E: EndianParse>(
        endian: E,
        _class: Class,
        offset: &mut usize,
        data: &[u8],
    ) -> Result<Self, ParseError> {
        endian.parse_u16_at(offset, data).map(VersionIndex)
    }

    fn size_for(_class: Class) -> usize {
        2
    }
}

/// A record that says how far the next one is, 0 at the last.
trait Linked: ParseAt {
    fn distance(&self) -> u32;
}

/// The records of a chain that are left: at most `left`, the first at `offset`.
#[derive(Clone, Copy, Debug)]
struct Links<'data, E: EndianParse> {
    endian: E,
    class: Class,
    left: u64,
    offset: usize,
    data: &'data [u8],
}

impl<'data, E: EndianParse> Links<'data, E> {
    /// The next record and where it begins, up to the first that cannot be read.
    fn take<P: Linked>(&mut self) -> Option<(usize, P)> {
        self.left = self.left.checked_sub(1)?;
        let start = self.offset;
        let record = P::parse_at(self.endian, self.class, &mut self.offset, self.data);
        match &record {
            Ok(record) if record.distance() > 0 => {
                self.offset = start.saturating_add(record.distance() as usize);
            }
            _ => self.left = 0,
        }
        Some((start, record.ok()?))
    }

    /// The chain that begins a distance after a record, and has this many records.
    fn after(&self, start: usize, distance: u32, count: u16) -> Self {
        Links {
            left: count.into(),
            offset: start.saturating_add(distance as usize),
            ..*self
        }
    }

    /// The chain as the library takes it: it begins at the start of the bytes.
    fn entries(&self, strings: &StringTable<'data>) -> ffi::Entries<'data> {
        let rest = self.data.get(self.offset..).unwrap_or(&[]);
        ffi::Entries {
            found: true,
            count: self.left,
            entries: ffi::Table::new(self.endian, self.class, rest),
            strings: strings.bytes(),
        }
    }
}

/// An iterator over the records of a chain.
macro_rules! iterator_over_links {
    ($iterator:ident, $count:ty, $(#[$attribute:meta])*) => {
        $(#[$attribute])*
        pub struct $iterator<'data, E: EndianParse> {
            links: Links<'data, E>,
        }

        impl<'data, E: EndianParse> $iterator<'data, E> {
            /// At most `count` records of these bytes, the first at `starting_offset`.
            pub fn new(
                endian: E,
                class: Class,
                count: $count,
                starting_offset: usize,
                data: &'data [u8],
            ) -> Self {
                $iterator {
                    links: Links {
                        endian,
                        class,
                        left: count.into(),
                        offset: starting_offset,
                        data,
                    },
                }
            }
        }
    };
}

iterator_over_links!(
    VerDefIterator, u64,
    /// The versions that a file defines, each with the entries of its names, up to the first that cannot be read.
    #[derive(Clone, Copy, Debug)]
);
iterator_over_links!(
    VerDefAuxIterator, u16,
    /// The entries of the names of a definition, up to the first that cannot be read.
    #[derive(Debug)]
);
iterator_over_links!(
    VerNeedIterator, u64,
    /// The files whose versions a file needs, each with these versions, up to the first that cannot be read.
    #[derive(Clone, Copy, Debug)]
);
iterator_over_links!(
    VerNeedAuxIterator, u16,
    /// The versions that are needed of a file, up to the first that cannot be read.
    #[derive(Debug)]
);

impl<'data, E: EndianParse> Iterator for VerDefIterator<'data, E> {
    type Item = (VerDef, VerDefAuxIterator<'data, E>);

    fn next(&mut self) -> Option<Self::Item> {
        let (start, definition): (_, VerDef) = self.links.take()?;
        let links = self
            .links
            .after(start, definition.vd_aux, definition.vd_cnt);
        Some((definition, VerDefAuxIterator { links }))
    }
}

impl<E: EndianParse> Iterator for VerDefAuxIterator<'_, E> {
    type Item = VerDefAux;

    fn next(&mut self) -> Option<VerDefAux> {
        self.links.take().map(|(_, entry)| entry)
    }
}

impl<'data, E: EndianParse> Iterator for VerNeedIterator<'data, E> {
    type Item = (VerNeed, VerNeedAuxIterator<'data, E>);

    fn next(&mut self) -> Option<Self::Item> {
        let (start, need): (_, VerNeed) = self.links.take()?;
        let links = self.links.after(start, need.vn_aux, need.vn_cnt);
        Some((need, VerNeedAuxIterator { links }))
    }
}

impl<E: EndianParse> Iterator for VerNeedAuxIterator<'_, E> {
    type Item = VerNeedAux;

    fn next(&mut self) -> Option<VerNeedAux> {
        self.links.take().map(|(_, version)| version)
    }
}

/// Whether a record has the version that this crate reads.
fn check_version(found: u16, expected: u16) -> Result<(), ParseError> {
    if found == expected {
        Ok(())
    } else {
        let numbers = (found.into(), expected.into());
        Err(ParseError::UnsupportedVersion(numbers))
    }
}

/// A version that a file defines.
#[derive(Debug, PartialEq, Eq)]
pub struct VerDef {
    /// Its flags.
    pub vd_flags: u16,
    /// Its version index.
    pub vd_ndx: u16,
    /// How many names it has.
    pub vd_cnt: u16,
    /// The hash of its name.
    pub vd_hash: u32,
    vd_aux: u32,
    vd_next: u32,
}

impl ParseAt for VerDef {
    fn parse_at<E: EndianParse>(
        endian: E,
        _class: Class,
        offset: &mut usize,
        data: &[u8],
    ) -> Result<Self, ParseError> {
        check_version(endian.parse_u16_at(offset, data)?, abi::VER_DEF_CURRENT)?;
        Ok(VerDef {
            vd_flags: endian.parse_u16_at(offset, data)?,
            vd_ndx: endian.parse_u16_at(offset, data)?,
            vd_cnt: endian.parse_u16_at(offset, data)?,
            vd_hash: endian.parse_u32_at(offset, data)?,
            vd_aux: endian.parse_u32_at(offset, data)?,
            vd_next: endian.parse_u32_at(offset, data)?,
        })
    }

    fn size_for(_class: Class) -> usize {
        20
    }
}

impl Linked for VerDef {
    fn distance(&self) -> u32 {
        self.vd_next
    }
}

/// The entry of a name of a definition.
#[derive(Debug, PartialEq, Eq)]
pub struct VerDefAux {
    /// Where the name begins in the linked table of strings.
    pub vda_name: u32,
    vda_next: u32,
}

impl ParseAt for VerDefAux {
    fn parse_at<E: EndianParse>(
        endian: E,
        _class: Class,
        offset: &mut usize,
        data: &[u8],
    ) -> Result<Self, ParseError> {
        Ok(VerDefAux {
            vda_name: endian.parse_u32_at(offset, data)?,
            vda_next: endian.parse_u32_at(offset, data)?,
        })
    }

    fn size_for(_class: Class) -> usize {
        8
    }
}

impl Linked for VerDefAux {
    fn distance(&self) -> u32 {
        self.vda_next
    }
}

/// A file whose versions another file needs.
#[derive(Debug, PartialEq, Eq)]
pub struct VerNeed {
    /// How many versions of it are needed.
    pub vn_cnt: u16,
    /// Where its name begins in the linked table of strings.
    pub vn_file: u32,
    vn_aux: u32,
    vn_next: u32,
}

impl ParseAt for VerNeed {
    fn parse_at<E: EndianParse>(
        endian: E,
        _class: Class,
        offset: &mut usize,
        data: &[u8],
    ) -> Result<Self, ParseError> {
        check_version(endian.parse_u16_at(offset, data)?, abi::VER_NEED_CURRENT)?;
        Ok(VerNeed {
            vn_cnt: endian.parse_u16_at(offset, data)?,
            vn_file: endian.parse_u32_at(offset, data)?,
            vn_aux: endian.parse_u32_at(offset, data)?,
            vn_next: endian.parse_u32_at(offset, data)?,
        })
    }

    fn size_for(_class: Class) -> usize {
        16
    }
}

impl Linked for VerNeed {
    fn distance(&self) -> u32 {
        self.vn_next
    }
}

/// A version that is needed of a file.
#[derive(Debug, PartialEq, Eq)]
pub struct VerNeedAux {
    /// The hash of its name.
    pub vna_hash: u32,
    /// Its flags.
    pub vna_flags: u16,
    /// The version index of the symbols that need it.
    pub vna_other: u16,
    /// Where its name begins in the linked table of strings.
    pub vna_name: u32,
    vna_next: u32,
}

impl ParseAt for VerNeedAux {
    fn parse_at<E: EndianParse>(
        endian: E,
        _class: Class,
        offset: &mut usize,
        data: &[u8],
    ) -> Result<Self, ParseError> {
        Ok(VerNeedAux {
            vna_hash: endian.parse_u32_at(offset, data)?,
            vna_flags: endian.parse_u16_at(offset, data)?,
            vna_other: endian.parse_u16_at(offset, data)?,
            vna_name: endian.parse_u32_at(offset, data)?,
            vna_next: endian.parse_u32_at(offset, data)?,
        })
    }

    fn size_for(_class: Class) -> usize {
        16
    }
}

impl Linked for VerNeedAux {
    fn distance(&self) -> u32 {
        self.vna_next
    }
}
