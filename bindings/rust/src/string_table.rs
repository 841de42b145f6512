//! Tables of strings.
use crate::ffi;
use crate::parse::{refused, ParseError};

/// A table of strings, each of which ends in a 0 byte.
#[derive(Clone, Copy, Debug, Default)]
pub struct StringTable<'data> {
    data: &'data [u8],
}

impl<'data> StringTable<'data> {
    /// The table that these bytes hold.
    pub fn new(data: &'data [u8]) -> Self {
        StringTable { data }
    }

    pub(crate) fn bytes(&self) -> ffi::Bytes<'data> {
        ffi::Bytes::new(self.data)
    }

    /// The bytes of the string at an offset, without the 0 byte.
    #[inline]
    pub fn get_raw(&self, offset: usize) -> Result<&'data [u8], ParseError> {
        match ffi::string(self.bytes(), offset) {
            Ok(found) => Ok(found.get()),
            Err(status) => Err(refused(status)),
        }
    }

    /// The string at an offset as text.
    pub fn get(&self, offset: usize) -> Result<&'data str, ParseError> {
        Ok(core::str::from_utf8(self.get_raw(offset)?)?)
    }
}
