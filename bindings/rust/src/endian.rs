//! Byte orders.
use crate::abi;
use crate::parse::ParseError;

/// The bytes of a number, and the offset moved past them.
fn take<const N: usize>(offset: &mut usize, data: &[u8]) -> Result<[u8; N], ParseError> {
    let end = offset.checked_add(N).ok_or(ParseError::IntegerOverflow)?;
    let bytes = data
        .get(*offset..end)
        .ok_or(ParseError::SliceReadError((*offset, end)))?;
    let number = bytes.try_into()?;
    *offset = end;
    Ok(number)
}

macro_rules! number {
    ($name:ident, $type:ident) => {
        /// The number at an offset, which is moved past it.
        fn $name(self, offset: &mut usize, data: &[u8]) -> Result<$type, ParseError> {
            let bytes = take(offset, data)?;
            Ok(if self.is_little() {
                $type::from_le_bytes(bytes)
            } else {
                $type::from_be_bytes(bytes)
            })
        }
    };
}

/// A byte order, fixed by the type or stated by the file.
pub trait EndianParse: Clone + Copy + Default + PartialEq + Eq {
    number!(parse_u8_at, u8);
    number!(parse_u16_at, u16);
    number!(parse_u32_at, u32);
    number!(parse_u64_at, u64);
    number!(parse_i32_at, i32);
    number!(parse_i64_at, i64);

    /// The order that the order byte of a file names, if this type has it.
    fn from_ei_data(ei_data: u8) -> Result<Self, ParseError>;

    /// Whether the lowest byte of a number comes first.
    fn is_little(self) -> bool;

    /// Whether the highest byte of a number comes first.
    fn is_big(self) -> bool {
        !self.is_little()
    }
}

/// Either order, as the file states it.
#[derive(Clone, Copy, Debug, Default, PartialEq, Eq)]
pub enum AnyEndian {
    /// The lowest byte comes first.
    #[default]
    Little,
    /// The highest byte comes first.
    Big,
}

/// The little order only.
#[derive(Clone, Copy, Debug, Default, PartialEq, Eq)]
pub struct LittleEndian;

/// The big order only.
#[derive(Clone, Copy, Debug, Default, PartialEq, Eq)]
pub struct BigEndian;

/// The order of this machine.
#[cfg(target_endian = "little")]
pub type NativeEndian = LittleEndian;

#[cfg(target_endian = "little")]
#[doc(hidden)]
#[allow(non_upper_case_globals)]
pub const NativeEndian: LittleEndian = LittleEndian;

/// The order of this machine.
#[cfg(target_endian = "big")]
pub type NativeEndian = BigEndian;

#[cfg(target_endian = "big")]
#[doc(hidden)]
#[allow(non_upper_case_globals)]
pub const NativeEndian: BigEndian = BigEndian;

impl EndianParse for AnyEndian {
    fn from_ei_data(ei_data: u8) -> Result<Self, ParseError> {
        match ei_data {
            abi::ELFDATA2LSB => Ok(AnyEndian::Little),
            abi::ELFDATA2MSB => Ok(AnyEndian::Big),
            other => Err(ParseError::UnsupportedElfEndianness(other)),
        }
    }

    fn is_little(self) -> bool {
        self == AnyEndian::Little
    }
}

impl EndianParse for LittleEndian {
    fn from_ei_data(ei_data: u8) -> Result<Self, ParseError> {
        match ei_data {
            abi::ELFDATA2LSB => Ok(LittleEndian),
            other => Err(ParseError::UnsupportedElfEndianness(other)),
        }
    }

    fn is_little(self) -> bool {
        true
    }
}

impl EndianParse for BigEndian {
    fn from_ei_data(ei_data: u8) -> Result<Self, ParseError> {
        match ei_data {
            abi::ELFDATA2MSB => Ok(BigEndian),
            other => Err(ParseError::UnsupportedElfEndianness(other)),
        }
    }

    fn is_little(self) -> bool {
        false
    }
}
