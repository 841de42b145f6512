//! The check of a whole file.
use crate::elf_bytes::ElfBytes;
use crate::endian::EndianParse;
use crate::ffi;
use core::fmt;

/// The part of a file that is at fault, with the index of the section or of the segment, counted from 0.
#[derive(Clone, Copy, Debug, PartialEq, Eq)]
pub enum Part {
    /// The file as a whole.
    File,
    /// A section.
    Section(usize),
    /// The versions of symbols.
    Versions,
    /// A segment.
    Segment(usize),
}

/// A fault of a file. Its text says what is wrong, as `section 5: no bytes at its range`.
#[derive(Clone, Copy, Debug, PartialEq, Eq)]
pub struct Fault {
    /// One of `fault_kinds`, which say what the two numbers are.
    pub kind: u32,
    /// What is at fault.
    pub part: Part,
    /// The first number of the fault.
    pub first: u64,
    /// The second number.
    pub second: u64,
}

impl Fault {
    fn of(raw: &ffi::Fault) -> Self {
        let index = raw.index as usize;
        Fault {
            kind: raw.kind,
            part: match raw.part {
                0 => Part::File,
                1 => Part::Section(index),
                2 => Part::Versions,
                3 => Part::Segment(index),
                // the check returns no others
                part => unreachable!("part {part}"),
            },
            first: raw.first,
            second: raw.second,
        }
    }

    fn raw(&self) -> ffi::Fault {
        let (part, index) = match self.part {
            Part::File => (0, 0),
            Part::Section(index) => (1, index),
            Part::Versions => (2, 0),
            Part::Segment(index) => (3, index),
        };
        ffi::Fault {
            kind: self.kind,
            part,
            index: index as u64,
            first: self.first,
            second: self.second,
        }
    }
}

impl fmt::Display for Fault {
    fn fmt(&self, f: &mut fmt::Formatter<'_>) -> fmt::Result {
        let mut text = [0; 256];
        let length = ffi::fault_text(&self.raw(), &mut text).min(text.len());
        f.write_str(core::str::from_utf8(&text[..length]).map_err(|_| fmt::Error)?)
    }
}

#[cfg(feature = "std")]
impl std::error::Error for Fault {}

// Of Rust 1.81: a build without `std` needs it.
#[cfg(not(feature = "std"))]
#[allow(clippy::incompatible_msrv)]
impl core::error::Error for Fault {}

/// Checks whether a file is sound: whether what its headers declare can be read. The error is its first fault, in this
/// order: names of sections; types that one section may have; sections; versions of symbols; segments.
///
/// Of a sound file the names, the bytes and the symbols of all sections are read without an error.
///
/// ```no_run
/// use nugwier::{check::check_file, endian::AnyEndian, ElfBytes};
///
/// let bytes = std::fs::read("/bin/sh").unwrap();
/// let file = ElfBytes::<AnyEndian>::minimal_parse(&bytes).unwrap();
/// match check_file(&file) {
///     Ok(()) => println!("sound"),
///     Err(fault) => println!("{fault}"),
/// }
/// ```
pub fn check_file<E: EndianParse>(file: &ElfBytes<'_, E>) -> Result<(), Fault> {
    let (mut sound, mut fault) = (false, ffi::Fault::default());
    // all of the file is loaded, so there is no other status
    ffi::check(&file.handle(), &mut sound, &mut fault);
    if sound {
        Ok(())
    } else {
        Err(Fault::of(&fault))
    }
}

/// Returns all faults of a file, in the order of `check_file`: none if it is sound. Each part of the file that is not
/// sound has one, the first that is looked for.
///
/// ```no_run
/// use nugwier::{check::all_faults, endian::AnyEndian, ElfBytes};
///
/// let bytes = std::fs::read("/bin/sh").unwrap();
/// let file = ElfBytes::<AnyEndian>::minimal_parse(&bytes).unwrap();
/// for fault in all_faults(&file) {
///     println!("{fault}");
/// }
/// ```
#[cfg(feature = "std")]
pub fn all_faults<E: EndianParse>(file: &ElfBytes<'_, E>) -> Vec<Fault> {
    let mut places = vec![ffi::Fault::default(); 16];
    loop {
        let count = ffi::faults(&file.handle(), &mut places);
        if count < places.len() {
            return places[..count].iter().map(Fault::of).collect();
        }
        places.resize(2 * count, ffi::Fault::default());
    }
}
