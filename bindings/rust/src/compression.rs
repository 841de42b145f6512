//! Compression headers.
use crate::endian::EndianParse;
use crate::ffi;
use crate::file::Class;
use crate::parse::{ParseAt, ParseError};

/// A compression header as it lies in a 32-bit file.
#[derive(Debug)]
#[repr(C)]
#[allow(missing_docs)]
pub struct Elf32_Chdr {
    pub ch_type: u32,
    pub ch_size: u32,
    pub ch_addralign: u32,
}

/// A compression header as it lies in a 64-bit file.
#[derive(Debug)]
#[repr(C)]
#[allow(missing_docs)]
pub struct Elf64_Chdr {
    pub ch_type: u32,
    pub ch_reserved: u32,
    pub ch_size: u64,
    pub ch_addralign: u64,
}

/// What a compressed section says of its data, of either class.
#[derive(Clone, Copy, Debug, PartialEq, Eq)]
pub struct CompressionHeader {
    /// How they are compressed.
    pub ch_type: u32,
    /// The number of bytes that they have uncompressed.
    pub ch_size: u64,
    /// The alignment that they have uncompressed.
    pub ch_addralign: u64,
}

impl CompressionHeader {
    pub(crate) fn of(raw: &ffi::Compression) -> Option<Self> {
        raw.compressed.then_some(CompressionHeader {
            ch_type: raw.kind,
            ch_size: raw.size,
            ch_addralign: raw.addralign,
        })
    }
}

impl ParseAt for CompressionHeader {
    fn parse_at<E: EndianParse>(
        endian: E,
        class: Class,
        offset: &mut usize,
        data: &[u8],
    ) -> Result<Self, ParseError> {
        let ch_type = endian.parse_u32_at(offset, data)?;
        if class == Class::ELF64 {
            // ch_reserved
            endian.parse_u32_at(offset, data)?;
        }
        Ok(CompressionHeader {
            ch_type,
            ch_size: class.parse_word_at(endian, offset, data)?,
            ch_addralign: class.parse_word_at(endian, offset, data)?,
        })
    }

    fn size_for(class: Class) -> usize {
        match class {
            Class::ELF32 => 12,
            Class::ELF64 => 24,
        }
    }
}
