//! Notes.
use crate::endian::EndianParse;
use crate::ffi;
use crate::file::Class;
use crate::parse::{checked, ParseAt, ParseError};
use core::marker::PhantomData;

/// A note.
#[derive(Debug, PartialEq, Eq)]
pub enum Note<'data> {
    /// The ABI tag.
    GnuAbiTag(NoteGnuAbiTag),
    /// The build id.
    GnuBuildId(NoteGnuBuildId<'data>),
    /// Any other note.
    Unknown(NoteAny<'data>),
}

/// The oldest version of an operating system that a program runs on.
#[derive(Clone, Copy, Debug, PartialEq, Eq)]
pub struct NoteGnuAbiTag {
    /// The operating system.
    pub os: u32,
    /// The first number of its version.
    pub major: u32,
    /// The second number.
    pub minor: u32,
    /// The third number.
    pub subminor: u32,
}

impl ParseAt for NoteGnuAbiTag {
    fn parse_at<E: EndianParse>(
        endian: E,
        _class: Class,
        offset: &mut usize,
        data: &[u8],
    ) -> Result<Self, ParseError> {
        Ok(NoteGnuAbiTag {
            os: endian.parse_u32_at(offset, data)?,
            major: endian.parse_u32_at(offset, data)?,
            minor: endian.parse_u32_at(offset, data)?,
            subminor: endian.parse_u32_at(offset, data)?,
        })
    }

    fn size_for(_class: Class) -> usize {
        16
    }
}

/// The bytes of a build id.
#[derive(Clone, Copy, Debug, PartialEq, Eq)]
pub struct NoteGnuBuildId<'data>(pub &'data [u8]);

/// A note of another kind. The name includes the 0 bytes at its end.
#[derive(Debug, PartialEq, Eq)]
pub struct NoteAny<'data> {
    /// The type, which the owner of the name defines.
    pub n_type: u64,
    /// The name.
    pub name: &'data [u8],
    /// What the note says.
    pub desc: &'data [u8],
}

impl NoteAny<'_> {
    /// The name as text, without the 0 bytes at its end.
    pub fn name_str(&self) -> Result<&str, ParseError> {
        Ok(core::str::from_utf8(self.name)?.trim_end_matches('\0'))
    }
}

/// The notes of some bytes, up to the first that does not fit.
#[derive(Debug)]
pub struct NoteIterator<'data, E: EndianParse> {
    notes: ffi::Notes<'data>,
    offset: usize,
    order: PhantomData<E>,
}

impl<'data, E: EndianParse> NoteIterator<'data, E> {
    /// The notes that these bytes hold, whose parts begin at multiples of `align`. Notes are the same in both classes.
    pub fn new(endian: E, _class: Class, align: usize, data: &'data [u8]) -> Self {
        NoteIterator::of(ffi::Notes {
            little: endian.is_little(),
            align,
            bytes: ffi::Bytes::new(data),
        })
    }

    pub(crate) fn of(notes: ffi::Notes<'data>) -> Self {
        NoteIterator {
            notes,
            offset: 0,
            order: PhantomData,
        }
    }
}

impl<'data, E: EndianParse> Iterator for NoteIterator<'data, E> {
    type Item = Note<'data>;

    fn next(&mut self) -> Option<Note<'data>> {
        let mut note = ffi::Note::default();
        checked(ffi::note(&self.notes, &mut self.offset, &mut note)).ok()?;
        Some(match note.kind {
            1 => Note::GnuAbiTag(NoteGnuAbiTag {
                os: note.tag.os,
                major: note.tag.major,
                minor: note.tag.minor,
                subminor: note.tag.subminor,
            }),
            2 => Note::GnuBuildId(NoteGnuBuildId(note.desc.get())),
            _ => Note::Unknown(NoteAny {
                n_type: note.n_type,
                name: note.name.get(),
                desc: note.desc.get(),
            }),
        })
    }
}
