//! What a file says to those that load it: its own name, the libraries that are loaded with it, where they are looked
//! for, and its build id.
use crate::elf_bytes::ElfBytes;
use crate::endian::EndianParse;
use crate::ffi;
use crate::parse::{checked, ParseError};
use core::fmt;

/// Why the names of a file cannot be found.
#[derive(Debug)]
pub enum NamesError {
    /// The dynamic entries or their strings cannot be read.
    Parse(ParseError),
    /// No dynamic entry gives the address of the strings (`DT_STRTAB`).
    NoAddress,
    /// No dynamic entry gives their size (`DT_STRSZ`).
    NoSize,
    /// No segment of type `PT_LOAD` holds the strings, which begin at this address.
    NoSegment(u64),
}

impl fmt::Display for NamesError {
    fn fmt(&self, f: &mut fmt::Formatter<'_>) -> fmt::Result {
        let (code, first) = match self {
            NamesError::Parse(error) => return error.fmt(f),
            NamesError::NoAddress => (19, 0),
            NamesError::NoSize => (20, 0),
            NamesError::NoSegment(address) => (21, *address),
        };
        let second = 0;
        ffi::Status {
            code,
            first,
            second,
        }
        .fmt(f)
    }
}

#[cfg(feature = "std")]
impl std::error::Error for NamesError {}

// Of Rust 1.81: a build without `std` needs it.
#[cfg(not(feature = "std"))]
#[allow(clippy::incompatible_msrv)]
impl core::error::Error for NamesError {}

/// The dynamic entries of a file, with the strings that they name.
#[derive(Clone, Copy, Debug)]
pub struct DynamicNames<'data> {
    raw: ffi::DynamicNames<'data>,
}

/// Finds the dynamic entries of a file and the strings that they name, if the file has dynamic entries. The strings are
/// found by their address, as the dynamic linker finds them.
///
/// ```no_run
/// use nugwier::{endian::AnyEndian, linking::dynamic_names, ElfBytes};
///
/// let bytes = std::fs::read("/bin/sh").unwrap();
/// let file = ElfBytes::<AnyEndian>::minimal_parse(&bytes).unwrap();
/// if let Some(names) = dynamic_names(&file).unwrap() {
///     for library in names.libraries() {
///         println!("{}", String::from_utf8_lossy(library.unwrap().name));
///     }
/// }
/// ```
pub fn dynamic_names<'data, E: EndianParse>(
    file: &ElfBytes<'data, E>,
) -> Result<Option<DynamicNames<'data>>, NamesError> {
    let mut raw = ffi::DynamicNames::default();
    let status = ffi::dynamic_names(&file.handle(), &mut raw);
    match status.code {
        19 => Err(NamesError::NoAddress),
        20 => Err(NamesError::NoSize),
        21 => Err(NamesError::NoSegment(status.first)),
        _ => match checked(status) {
            Ok(()) => Ok(raw.found.then_some(DynamicNames { raw })),
            Err(error) => Err(NamesError::Parse(error)),
        },
    }
}

impl<'data> DynamicNames<'data> {
    /// The name of the file for those that need it (`DT_SONAME`).
    pub fn soname(&self) -> Result<Option<&'data [u8]>, ParseError> {
        self.name(ffi::soname)
    }

    /// Where libraries are looked for (`DT_RUNPATH`).
    pub fn runpath(&self) -> Result<Option<&'data [u8]>, ParseError> {
        self.name(ffi::runpath)
    }

    /// Where libraries are looked for (`DT_RPATH`), unless there is a `runpath`.
    pub fn rpath(&self) -> Result<Option<&'data [u8]>, ParseError> {
        self.name(ffi::rpath)
    }

    fn name(
        &self,
        call: fn(&ffi::DynamicNames<'data>, &mut ffi::FoundBytes<'data>) -> ffi::Status,
    ) -> Result<Option<&'data [u8]>, ParseError> {
        let mut name = ffi::FoundBytes::default();
        checked(call(&self.raw, &mut name))?;
        Ok(name.get())
    }

    /// The libraries that are loaded with the file, in order.
    pub fn libraries(&self) -> Libraries<'data> {
        Libraries {
            names: self.raw,
            next: 0,
        }
    }
}

/// A library that is loaded with a file.
#[derive(Clone, Copy, Debug, PartialEq, Eq)]
pub struct Library<'data> {
    /// The tag of the entry that names it: `DT_NEEDED`, `DT_AUXILIARY` or `DT_FILTER`.
    pub tag: i64,
    /// Its name.
    pub name: &'data [u8],
}

/// The libraries that are loaded with a file. A name that cannot be read is an error, after which the next one comes.
#[derive(Clone, Debug)]
pub struct Libraries<'data> {
    names: ffi::DynamicNames<'data>,
    next: usize,
}

impl<'data> Iterator for Libraries<'data> {
    type Item = Result<Library<'data>, ParseError>;

    fn next(&mut self) -> Option<Self::Item> {
        let mut library = ffi::Needed::default();
        match checked(ffi::needed(&self.names, &mut self.next, &mut library)) {
            Ok(()) => library.found.then(|| {
                Ok(Library {
                    tag: library.tag,
                    name: library.name.get(),
                })
            }),
            Err(error) => Some(Err(error)),
        }
    }
}

/// The build id of a file: the first among the notes of its segments, and then of its sections.
pub fn build_id<'data, E: EndianParse>(
    file: &ElfBytes<'data, E>,
) -> Result<Option<&'data [u8]>, ParseError> {
    let mut id = ffi::FoundBytes::default();
    checked(ffi::build_id(&file.handle(), &mut id))?;
    Ok(id.get())
}
