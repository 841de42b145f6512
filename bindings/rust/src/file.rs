//! The header of a file.
use crate::abi;
use crate::endian::EndianParse;
use crate::ffi;
use crate::parse::ParseError;

/// Whether a file is of 32 or of 64 bits.
#[derive(Clone, Copy, Debug, PartialEq, Eq)]
pub enum Class {
    /// Addresses have 32 bits.
    ELF32,
    /// Addresses have 64 bits.
    ELF64,
}

impl Class {
    pub(crate) fn of(is_64: bool) -> Self {
        if is_64 {
            Class::ELF64
        } else {
            Class::ELF32
        }
    }

    /// A number that is as wide as an address.
    pub(crate) fn parse_word_at<E: EndianParse>(
        self,
        endian: E,
        offset: &mut usize,
        data: &[u8],
    ) -> Result<u64, ParseError> {
        match self {
            Class::ELF32 => endian.parse_u32_at(offset, data).map(u64::from),
            Class::ELF64 => endian.parse_u64_at(offset, data),
        }
    }
}

/// The header as it lies in a 32-bit file.
#[derive(Debug)]
#[repr(C)]
#[allow(missing_docs)]
pub struct Elf32_Ehdr {
    pub e_ident: [u8; abi::EI_NIDENT],
    pub e_type: u16,
    pub e_machine: u16,
    pub e_version: u32,
    pub e_entry: u32,
    pub e_phoff: u32,
    pub e_shoff: u32,
    pub e_flags: u32,
    pub e_ehsize: u16,
    pub e_phentsize: u16,
    pub e_phnum: u16,
    pub e_shentsize: u16,
    pub e_shnum: u16,
    pub e_shstrndx: u16,
}

/// The header as it lies in a 64-bit file.
#[derive(Debug)]
#[repr(C)]
#[allow(missing_docs)]
pub struct Elf64_Ehdr {
    pub e_ident: [u8; abi::EI_NIDENT],
    pub e_type: u16,
    pub e_machine: u16,
    pub e_version: u32,
    pub e_entry: u64,
    pub e_phoff: u64,
    pub e_shoff: u64,
    pub e_flags: u32,
    pub e_ehsize: u16,
    pub e_phentsize: u16,
    pub e_phnum: u16,
    pub e_shentsize: u16,
    pub e_shnum: u16,
    pub e_shstrndx: u16,
}

/// The header of a file, of either class.
#[derive(Clone, Copy, Debug, PartialEq, Eq)]
pub struct FileHeader<E: EndianParse> {
    /// The class of the file.
    pub class: Class,
    /// The byte order of the file.
    pub endianness: E,
    /// The version of the format.
    pub version: u32,
    /// The operating system whose extensions the file uses.
    pub osabi: u8,
    /// The version of the ABI of this system.
    pub abiversion: u8,
    /// What kind of file it is.
    pub e_type: u16,
    /// The machine.
    pub e_machine: u16,
    /// The address at which a program starts.
    pub e_entry: u64,
    /// Where the program headers begin, 0 if there are none.
    pub e_phoff: u64,
    /// Where the section headers begin, 0 if there are none.
    pub e_shoff: u64,
    /// Flags that the machine defines.
    pub e_flags: u32,
    /// The size of this header.
    pub e_ehsize: u16,
    /// The size of a program header.
    pub e_phentsize: u16,
    /// The number of program headers, or that section header 0 has it.
    pub e_phnum: u16,
    /// The size of a section header.
    pub e_shentsize: u16,
    /// The number of section headers, or 0 if section header 0 has it.
    pub e_shnum: u16,
    /// The index of the section with the names of sections, or that section header 0 has it.
    pub e_shstrndx: u16,
}

/// The size of what follows the identification in the header of a 32-bit file.
pub const ELF32_EHDR_TAILSIZE: usize = 36;

/// The size of what follows the identification in the header of a 64-bit file.
pub const ELF64_EHDR_TAILSIZE: usize = 48;

/// Reads the identification of a file, its first 16 bytes: byte order, class, system and version of its ABI. Errors
/// come in this order: magic bytes, version, class, byte order.
pub fn parse_ident<E: EndianParse>(data: &[u8]) -> Result<(E, Class, u8, u8), ParseError> {
    let missing = || ParseError::SliceReadError((0, abi::EI_NIDENT));
    let byte = |index: usize| data.get(index).copied().ok_or_else(missing);
    let magic: [u8; 4] = data.get(..4).ok_or_else(missing)?.try_into()?;
    if magic != abi::ELFMAGIC {
        return Err(ParseError::BadMagic(magic));
    }
    let (version, expected) = (byte(abi::EI_VERSION)?, abi::EV_CURRENT);
    if version != expected {
        let numbers = (version.into(), expected.into());
        return Err(ParseError::UnsupportedVersion(numbers));
    }
    let class = match byte(abi::EI_CLASS)? {
        abi::ELFCLASS32 => Class::ELF32,
        abi::ELFCLASS64 => Class::ELF64,
        other => return Err(ParseError::UnsupportedElfClass(other)),
    };
    let endianness = E::from_ei_data(byte(abi::EI_DATA)?)?;
    Ok((
        endianness,
        class,
        byte(abi::EI_OSABI)?,
        byte(abi::EI_ABIVERSION)?,
    ))
}

impl<E: EndianParse> FileHeader<E> {
    /// Reads what follows the identification.
    pub fn parse_tail(ident: (E, Class, u8, u8), data: &[u8]) -> Result<FileHeader<E>, ParseError> {
        let (endianness, class, osabi, abiversion) = ident;
        let offset = &mut 0;
        Ok(FileHeader {
            class,
            endianness,
            osabi,
            abiversion,
            // the fields in their order
            e_type: endianness.parse_u16_at(offset, data)?,
            e_machine: endianness.parse_u16_at(offset, data)?,
            version: endianness.parse_u32_at(offset, data)?,
            e_entry: class.parse_word_at(endianness, offset, data)?,
            e_phoff: class.parse_word_at(endianness, offset, data)?,
            e_shoff: class.parse_word_at(endianness, offset, data)?,
            e_flags: endianness.parse_u32_at(offset, data)?,
            e_ehsize: endianness.parse_u16_at(offset, data)?,
            e_phentsize: endianness.parse_u16_at(offset, data)?,
            e_phnum: endianness.parse_u16_at(offset, data)?,
            e_shentsize: endianness.parse_u16_at(offset, data)?,
            e_shnum: endianness.parse_u16_at(offset, data)?,
            e_shstrndx: endianness.parse_u16_at(offset, data)?,
        })
    }

    pub(crate) fn of(raw: &ffi::Header, endianness: E) -> Self {
        FileHeader {
            class: Class::of(raw.is_64),
            endianness,
            version: raw.version,
            osabi: raw.osabi,
            abiversion: raw.abiversion,
            e_type: raw.kind,
            e_machine: raw.machine,
            e_entry: raw.entry,
            e_phoff: raw.phoff,
            e_shoff: raw.shoff,
            e_flags: raw.flags,
            e_ehsize: raw.ehsize,
            e_phentsize: raw.phentsize,
            e_phnum: raw.phnum,
            e_shentsize: raw.shentsize,
            e_shnum: raw.shnum,
            e_shstrndx: raw.shstrndx,
        }
    }

    #[cfg(feature = "std")]
    pub(crate) fn raw(&self) -> ffi::Header {
        ffi::Header {
            little: self.endianness.is_little(),
            is_64: self.class == Class::ELF64,
            osabi: self.osabi,
            abiversion: self.abiversion,
            version: self.version,
            kind: self.e_type,
            machine: self.e_machine,
            flags: self.e_flags,
            entry: self.e_entry,
            phoff: self.e_phoff,
            shoff: self.e_shoff,
            ehsize: self.e_ehsize,
            phentsize: self.e_phentsize,
            phnum: self.e_phnum,
            shentsize: self.e_shentsize,
            shnum: self.e_shnum,
            shstrndx: self.e_shstrndx,
        }
    }
}
