//! The versions of symbols, each read once.
use crate::endian::EndianParse;
use crate::ffi;
use crate::gnu_symver::SymbolVersionTable;
use crate::parse::{checked, ParseError};

/// The version of a symbol.
#[derive(Clone, Copy, Debug, PartialEq, Eq)]
pub struct Version<'a> {
    /// The name of the file that must have it; `None` if the symbol is defined with it.
    pub file: Option<&'a str>,
    /// Its name; empty if its definition has none.
    pub name: &'a str,
    /// The hash of its name.
    pub hash: u32,
    /// Its flags.
    pub flags: u16,
    /// Whether the version index of the symbol is hidden.
    pub hidden: bool,
}

/// The versions of the symbols of a file, kept by version index: for the first symbol with an index the table is walked,
/// and for the others it is not. There is a place for each index up to the greatest that was looked up, at most 32,768.
///
/// ```no_run
/// use nugwier::{endian::AnyEndian, versions::KeptVersions, ElfBytes};
///
/// let bytes = std::fs::read("/bin/sh").unwrap();
/// let file = ElfBytes::<AnyEndian>::minimal_parse(&bytes).unwrap();
/// if let Some(table) = file.symbol_version_table().unwrap() {
///     let mut versions = KeptVersions::new(&table);
///     if let Some(version) = versions.get(1).unwrap() {
///         println!("{}", version.name);
///     }
/// }
/// ```
#[derive(Debug)]
pub struct KeptVersions<'a, 'data, E: EndianParse> {
    table: &'a SymbolVersionTable<'data, E>,
    /// By version index, as far as it was looked up.
    kept: Vec<Option<Found<'a>>>,
}

/// What was found of a version index.
type Found<'a> = Option<Version<'a>>;

impl<'a, 'data, E: EndianParse> KeptVersions<'a, 'data, E> {
    /// The versions of a table, none of which is looked up yet.
    pub fn new(table: &'a SymbolVersionTable<'data, E>) -> Self {
        KeptVersions {
            table,
            kept: Vec::new(),
        }
    }

    /// The version with which a symbol is defined or, if none has its index, the one that it needs of another file, in
    /// the order of the dynamic linker.
    ///
    /// # Errors
    ///
    /// If the version index cannot be read; else those of [`SymbolVersionTable::get_definition`], of the name of the
    /// definition, and of [`SymbolVersionTable::get_requirement`]. What was refused is not kept.
    pub fn get(&mut self, symbol: usize) -> Result<Option<Version<'a>>, ParseError> {
        let mut index = ffi::Version::default();
        checked(ffi::version_index(self.table.raw(), symbol, &mut index))?;
        let found = match self.kept.get(usize::from(index.index)) {
            Some(Some(found)) => *found,
            _ => self.look_up(symbol, index.index)?,
        };
        Ok(found.map(|version| Version {
            hidden: index.hidden,
            ..version
        }))
    }

    /// Looks a version index up by a symbol that has it, and keeps what is found.
    #[cold]
    fn look_up(&mut self, symbol: usize, index: u16) -> Result<Found<'a>, ParseError> {
        let found = match self.defined(symbol)? {
            Some(version) => Some(version),
            None => self.needed(symbol)?,
        };
        let place = usize::from(index);
        if self.kept.len() <= place {
            self.kept.resize(place + 1, None);
        }
        self.kept[place] = Some(found);
        Ok(found)
    }

    fn needed(&self, symbol: usize) -> Result<Found<'a>, ParseError> {
        let needed = self.table.get_requirement(symbol)?;
        Ok(needed.map(|needed| Version {
            file: Some(needed.file),
            name: needed.name,
            hash: needed.hash,
            flags: needed.flags,
            hidden: needed.hidden,
        }))
    }

    fn defined(&self, symbol: usize) -> Result<Found<'a>, ParseError> {
        let mut defined = match self.table.get_definition(symbol)? {
            Some(defined) => defined,
            None => return Ok(None),
        };
        Ok(Some(Version {
            file: None,
            name: defined.names.next().unwrap_or(Ok(""))?,
            hash: defined.hash,
            flags: defined.flags,
            hidden: defined.hidden,
        }))
    }
}
